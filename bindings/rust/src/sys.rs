//! The C interface, as `include/housechervil.h` declares it. Nothing outside this crate sees it.

use std::mem::size_of;

/// The answer of the register check.
#[repr(C)]
#[derive(Clone, Copy, Debug, PartialEq, Eq)]
pub struct hc_register_answer {
    pub number: u16,
    pub first: u16,
    pub second: u16,
}

/// The answer of a request, with the log's new end and the next serial.
#[repr(C)]
#[derive(Clone, Copy, Debug, PartialEq, Eq)]
pub struct hc_reply {
    pub number: u16,
    pub first: u16,
    pub second: u16,
    pub count: u16,
    pub end: usize,
    pub serial: u16,
}

/// A number, and the place or the count that goes with it.
#[repr(C)]
#[derive(Clone, Copy, Debug, PartialEq, Eq)]
pub struct hc_placed {
    pub number: u16,
    pub value: usize,
}

/// What one step of the log reader found.
#[repr(C)]
#[derive(Clone, Copy, Debug, PartialEq, Eq)]
pub struct hc_log_item {
    pub number: u16,
    pub serial: u16,
    pub login: u16,
    pub folder: u16,
    pub kind: u16,
    pub answer: u16,
    pub count: u16,
    pub list: usize,
    pub place: usize,
}

/// A number read from the log.
#[repr(C)]
#[derive(Clone, Copy, Debug, PartialEq, Eq)]
pub struct hc_number {
    pub number: u16,
    pub value: u16,
    pub place: usize,
}

/// A stretch of one of two texts.
#[repr(C)]
#[derive(Clone, Copy, Debug, PartialEq, Eq)]
pub struct hc_stretch {
    pub number: u16,
    pub text: u16,
    pub place: usize,
    pub length: usize,
}

// `size_t` is `usize` on x86-64, and the structs have the sizes that a C compiler gives them there.
const _: () = {
    assert!(size_of::<usize>() == 8);
    assert!(size_of::<hc_register_answer>() == 6);
    assert!(size_of::<hc_reply>() == 24);
    assert!(size_of::<hc_placed>() == 16);
    assert!(size_of::<hc_log_item>() == 32);
    assert!(size_of::<hc_number>() == 16);
    assert!(size_of::<hc_stretch>() == 24);
};

extern "C" {
    pub fn hc_register_check(
        logins: usize,
        classes: *const u16,
        classes_len: usize,
        clients: *const u16,
        clients_len: usize,
        mode: u8,
        firsts: *const u16,
        firsts_len: usize,
        seconds: *const u16,
        seconds_len: usize,
    ) -> hc_register_answer;

    pub fn hc_request(
        logins: usize,
        classes: *const u16,
        classes_len: usize,
        clients: *const u16,
        clients_len: usize,
        mode: u8,
        firsts: *const u16,
        firsts_len: usize,
        seconds: *const u16,
        seconds_len: usize,
        persons: *const u16,
        persons_len: usize,
        matrix: *mut u8,
        matrix_len: usize,
        login: u16,
        folder: u16,
        kind: u16,
        log: *mut u8,
        log_len: usize,
        end: usize,
        serial: u16,
    ) -> hc_reply;

    pub fn hc_serial_next(serial: u16) -> u16;

    pub fn hc_serial_compare(first: u16, second: u16) -> u8;

    pub fn hc_pack(cells: *const u8, cells_len: usize, packed: *mut u8, packed_len: usize) -> hc_placed;

    pub fn hc_unpack(packed: *const u8, packed_len: usize, cells: *mut u8, cells_len: usize) -> hc_placed;

    pub fn hc_log_step(log: *const u8, log_len: usize, place: usize) -> hc_log_item;

    pub fn hc_log_check(log: *const u8, log_len: usize) -> hc_placed;

    pub fn hc_number_read(log: *const u8, log_len: usize, place: usize) -> hc_number;

    pub fn hc_folder_name(
        client: *const u8,
        client_len: usize,
        house: *const u8,
        house_len: usize,
        folder: u16,
    ) -> hc_stretch;
}

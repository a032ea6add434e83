//! Numbers in groups of seven bits, and serials.

mod reference;
mod support;

use std::arch::global_asm;

use reference::Age;
use support::{same_number, sys, Random, Tally};

use housechervil::{
    ClassNo, ClientNo, Conflicts, FolderNo, Kind, LoginNo, PersonNo, Register, Request, Serial, SerialOrder,
};

// Another implementation of the same coding: the assembler's. It writes the numbers 0 to 65,535 one after the other as LEB128.
global_asm!(
    ".pushsection .rodata.every_number,\"a\",@progbits",
    "every_number:",
    ".set every_number_next, 0",
    ".rept 65536",
    ".uleb128 every_number_next",
    ".set every_number_next, every_number_next + 1",
    ".endr",
    "every_number_end:",
    ".popsection",
    ".pushsection .data.rel.ro.every_number_bounds,\"aw\",@progbits",
    ".balign 8",
    ".globl every_number_bounds",
    "every_number_bounds:",
    ".quad every_number, every_number_end",
    ".popsection",
);

extern "C" {
    static every_number_bounds: [*const u8; 2];
}

/// What the assembler wrote.
fn assembled() -> &'static [u8] {
    // SAFETY: the two pointers are the bounds of bytes that are never written.
    unsafe {
        let [from, to] = every_number_bounds;
        std::slice::from_raw_parts(from, to.offset_from(from) as usize)
    }
}

/// LEB128 as its definition has it, for numbers of any width.
fn leb128(mut number: u64) -> Vec<u8> {
    let mut bytes = Vec::new();
    loop {
        let group = (number & 0x7f) as u8;
        number >>= 7;
        bytes.push(if number == 0 { group } else { group | 0x80 });
        if number == 0 {
            return bytes;
        }
    }
}

/// The groups that the library writes for a number: those of the serial, at the start of a record.
fn written(number: u16) -> Vec<u8> {
    let register = Register::new(1, &[ClassNo(1)], &[ClientNo(1)], &Conflicts::ByClass);
    let mut log = [0; 8];
    let request = Request::new(LoginNo(0), FolderNo(0), Kind::CarefulRead);
    let reply = register.request(&[PersonNo(0)], &mut [0], request, &mut log, 0, Serial(number));
    assert_eq!(log[reply.end - 5..reply.end], [0, 0, 2, 0, 0]);
    log[..reply.end - 5].to_vec()
}

/// Every number's groups, as the library writes them, are those of two other implementations, and are read back.
#[test]
fn every_number() {
    let mut assembled = assembled();
    assert_eq!(assembled.len(), 128 + 2 * (16_384 - 128) + 3 * (65_536 - 16_384));
    for number in 0..=u16::MAX {
        let groups = written(number);
        assert_eq!(groups, leb128(number.into()));
        let (one, rest) = assembled.split_at(groups.len());
        assert_eq!(groups, one);
        assembled = rest;
        assert_eq!(same_number(&groups, 0), Ok((number, groups.len())));
        assert!((0..groups.len()).all(|cut| same_number(&groups[..cut], 0).is_err()));
    }
    assert_eq!(assembled, []);
}

/// The assembler's bytes, read number by number.
#[test]
fn every_number_in_a_row() {
    let bytes = assembled();
    let mut place = 0;
    for number in 0..=u16::MAX {
        let (value, after) = same_number(bytes, place).unwrap();
        assert_eq!(value, number);
        place = after;
    }
    assert_eq!(place, bytes.len());
}

/// Every string of up to two bytes; every string of three whose bytes are at the edges; random ones of up to four.
#[test]
fn byte_strings() {
    let mut tally = Tally::default();
    let mut read = |bytes: &[u8], place: usize| {
        let answer = same_number(bytes, place);
        tally.add(answer.map_or_else(|fault| fault.number, |_| 0));
        // What is read is what another implementation writes, and nothing else is read.
        match answer {
            Ok((value, after)) => assert_eq!(bytes[place..after], leb128(value.into())),
            Err(fault) => assert_eq!(fault.place, place),
        }
    };
    read(&[], 0);
    for first in 0..=255 {
        read(&[first], 0);
        for second in 0..=255 {
            read(&[first, second], 0);
            read(&[first, second], 1);
            for third in [0, 1, 2, 3, 4, 5, 127, 128, 129, 131, 132, 255] {
                read(&[first, second, third], 0);
            }
        }
    }
    let mut random = Random::new(30);
    for _ in 0..400_000 {
        let len = random.range(1, 4);
        let bytes: Vec<u8> =
            (0..len).map(|_| if random.once_in(2) { random.byte() } else { random.byte() | 0x80 }).collect();
        let place = random.below(len + 1);
        read(&bytes, place);
    }
    tally.met(&[0, 51, 52], 10_000);
}

/// Places at and past the end.
#[test]
fn places_past_the_end() {
    for len in 0..4 {
        let bytes = vec![1; len];
        for place in [len, len + 1, len + 2, 65_536, 1 << 32, usize::MAX - 1, usize::MAX] {
            assert_eq!(same_number(&bytes, place).map_err(|fault| fault.number), Err(51));
        }
    }
}

/// The numbers that document 01 spells out.
#[test]
fn numbers_of_the_document() {
    for (number, groups) in
        [(127, &[127][..]), (128, &[128, 1]), (300, &[172, 2]), (16_384, &[128, 128, 1]), (65_535, &[255, 255, 3])]
    {
        assert_eq!(written(number), groups);
        assert_eq!(same_number(groups, 0), Ok((number, groups.len())));
    }
}

fn same_compare(first: u16, second: u16) -> Age {
    let expected = reference::compare(first, second);
    let (number, order) = match expected {
        Age::Same => (0, SerialOrder::Same),
        Age::FirstEarlier => (1, SerialOrder::Earlier),
        Age::Undecided => (2, SerialOrder::Undecided),
        Age::FirstLater => (3, SerialOrder::Later),
    };
    // SAFETY: numbers in, a number out.
    assert_eq!(unsafe { sys::hc_serial_compare(first, second) }, number, "{first} and {second}");
    assert_eq!(Serial(first).compare(Serial(second)), order, "{first} and {second}");
    expected
}

/// Serials compared: every way from some firsts, edge pairs, random pairs.
#[test]
fn serials_compared() {
    let edges = [0, 1, 2, 127, 128, 255, 256, 32_766, 32_767, 32_768, 32_769, 40_000, 65_533, 65_534, 65_535];
    for first in edges {
        for second in 0..=u16::MAX {
            same_compare(first, second);
            same_compare(second, first);
        }
    }
    let mut random = Random::new(31);
    let mut tally = Tally::default();
    for _ in 0..1_000_000 {
        let first = random.u16();
        let way = if random.once_in(2) { random.u16() } else { random.pick(&[0, 1, 32_767, 32_768, 32_769, 65_535]) };
        tally.add(same_compare(first, first.wrapping_add(way)) as u16);
    }
    tally.met(&[0, 1, 2, 3], 10_000);
    assert_eq!(same_compare(65_535, 0), Age::FirstEarlier);
    assert_eq!(same_compare(0, 65_535), Age::FirstLater);
    assert_eq!(same_compare(7, 32_775), Age::Undecided);
}

/// The serial after every serial.
#[test]
fn every_next_serial() {
    for serial in 0..=u16::MAX {
        // SAFETY: a number in, a number out.
        assert_eq!(unsafe { sys::hc_serial_next(serial) }, reference::next(serial));
        assert_eq!(Serial(serial).next(), Serial(reference::next(serial)));
        assert_eq!(same_compare(serial, reference::next(serial)), Age::FirstEarlier);
    }
}

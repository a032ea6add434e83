//! Buffers laid against pages that may not be touched: a byte read or written outside what was lent ends the test program.
#![cfg(target_os = "linux")]

mod reference;
mod support;

use std::mem::size_of;
use std::os::raw::{c_int, c_void};
use std::ptr::null_mut;

use reference::{Ask, House};
use support::{cells, raw_check, raw_request, Owned, Random};

extern "C" {
    fn mmap(at: *mut c_void, len: usize, protection: c_int, flags: c_int, file: c_int, offset: i64) -> *mut c_void;
    fn mprotect(at: *mut c_void, len: usize, protection: c_int) -> c_int;
    fn munmap(at: *mut c_void, len: usize) -> c_int;
}

const PAGE: usize = 4096;
const NONE: c_int = 0;
const READ_WRITE: c_int = 3;
const PRIVATE_ANONYMOUS: c_int = 0x22;

/// Memory between two pages that may not be touched.
struct Fenced {
    map: *mut u8,
    inside: usize,
}

/// Where in the fenced memory a buffer lies.
#[derive(Clone, Copy, Debug)]
enum Side {
    Start,
    End,
}

impl Fenced {
    fn new(len: usize) -> Fenced {
        let inside = (len / PAGE + 1) * PAGE;
        // SAFETY: a new mapping, of which the first and the last page are closed.
        unsafe {
            let map = mmap(null_mut(), inside + 2 * PAGE, READ_WRITE, PRIVATE_ANONYMOUS, -1, 0).cast::<u8>();
            assert_ne!(map as isize, -1);
            assert_eq!(mprotect(map.cast(), PAGE, NONE), 0);
            assert_eq!(mprotect(map.add(PAGE + inside).cast(), PAGE, NONE), 0);
            Fenced { map, inside }
        }
    }

    /// So many elements right behind the first closed page, or right before the last.
    fn slice<T>(&mut self, len: usize, side: Side) -> &mut [T] {
        let bytes = len * size_of::<T>();
        assert!(bytes <= self.inside);
        let from = match side {
            Side::Start => PAGE,
            Side::End => PAGE + self.inside - bytes,
        };
        // SAFETY: the bytes lie between the closed pages, are aligned (a page is, and whole elements before its end are), and are
        // integers; `self` is borrowed.
        unsafe { std::slice::from_raw_parts_mut(self.map.add(from).cast(), len) }
    }

    fn hold<T: Copy>(&mut self, content: &[T], side: Side) -> &mut [T] {
        let slice = self.slice(content.len(), side);
        slice.copy_from_slice(content);
        slice
    }
}

impl Drop for Fenced {
    fn drop(&mut self) {
        // SAFETY: the mapping is this one's own.
        unsafe { munmap(self.map.cast(), self.inside + 2 * PAGE) };
    }
}

const SIDES: [Side; 2] = [Side::Start, Side::End];

#[test]
fn requests() {
    let mut random = Random::new(60);
    let mut labels = [Fenced::new(2048), Fenced::new(2048)];
    let mut pairs = [Fenced::new(140_000), Fenced::new(140_000)];
    let mut people = Fenced::new(140_000);
    let mut buffers = [Fenced::new(65_536), Fenced::new(65_536)];
    for round in 0..9_000 {
        let (logins, folders) = match round % 10 {
            0 => (random.pick(&[1, 128]), random.pick(&[511, 512, 512, 257])),
            _ => (random.range(1, 5), random.range(1, 70)),
        };
        let house = Owned::good(&mut random, logins, folders, 5).with_persons(&mut random);
        let mut house = match round % 3 {
            0 => house,
            1 => house.with_idle_pairs(&mut random),
            _ => house.with_pairs(&mut random),
        };
        if random.once_in(5) {
            house.damage(&mut random);
        }
        if random.once_in(3) {
            house.damage_persons(&mut random);
        }
        let matrix_content = cells(&mut random, logins * folders);
        let log_content = vec![0x5a; random.pick(&[0, 1, 5, 6, 7, 8, 40, 900, 2_000])];
        let ask = Ask {
            login: random.below(logins + 1) as u16,
            folder: random.below(folders + 1) as u16,
            kind: random.range(1, 4) as u16,
        };
        let end = random.below(log_content.len() + 1);
        for side in SIDES {
            let [one, two] = &mut labels;
            let (classes, clients) = (&*one.hold(&house.classes, side), &*two.hold(&house.clients, side));
            let [one, two] = &mut pairs;
            let (firsts, seconds) = (&*one.hold(&house.firsts, side), &*two.hold(&house.seconds, side));
            let persons = &*people.hold(&house.persons, side);
            let [one, two] = &mut buffers;
            let (matrix, log) = (one.hold(&matrix_content, side), two.hold(&log_content, side));
            let (mut expected_matrix, mut expected_log) = (matrix_content.clone(), log_content.clone());
            let expected = reference::request(&house.lend(), &mut expected_matrix, ask, &mut expected_log, end, 16_383);
            let lent = House { logins: house.logins, persons, classes, clients, mode: house.mode, firsts, seconds };
            let reply = raw_request(&lent, matrix, ask, log, end, 16_383);
            assert_eq!(reply.number, expected.answer.map_or_else(|refusal| refusal.numbers()[0], |_| 0));
            assert_eq!((reply.end, reply.serial), (expected.end, expected.serial));
            assert!(matrix == expected_matrix && log == expected_log);
            let numbers = reference::check(&house.lend()).map_or_else(|refusal| refusal.numbers(), |()| [0; 3]);
            let answer = raw_check(&lent);
            assert_eq!([answer.number, answer.first, answer.second], numbers);
        }
    }
}

#[test]
fn packing() {
    let mut random = Random::new(61);
    let (mut plain, mut packed) = (Fenced::new(65_536), Fenced::new(16_384));
    for len in (0..300).chain([511, 512, 513, 4_095, 4_096, 4_097, 65_533, 65_534, 65_535, 65_536]) {
        let content: Vec<u8> = (0..len).map(|_| random.byte() & 3).collect();
        for side in SIDES {
            let cells = plain.hold(&content, side);
            let bytes = packed.slice::<u8>(reference::packed_len(len), side);
            assert_eq!(housechervil::pack_into(cells, bytes), Ok(()));
            cells.fill(9);
            assert_eq!(housechervil::unpack_into(bytes, cells), Ok(()));
            assert_eq!(cells, content);
            if len > 0 {
                cells[len - 1] = 4;
                assert_eq!(
                    housechervil::pack_into(cells, bytes),
                    Err(housechervil::PackError::Cell { place: len - 1 })
                );
            }
        }
    }
}

/// Lengths up to some blocks of 64 bytes, and around a page; the name sought at the text's start, in the midst and at its end.
#[test]
fn names() {
    let mut random = Random::new(63);
    let (mut client, mut house) = (Fenced::new(2 * PAGE), Fenced::new(2 * PAGE));
    for len in (0..=330).chain([PAGE - 1, PAGE, PAGE + 1, 2 * PAGE - 1, 2 * PAGE]) {
        for ends in [1, 3, 70, usize::MAX] {
            let content: Vec<u8> = (0..len).map(|_| if random.once_in(ends) { 10 } else { b'a' }).collect();
            let lines = content.iter().filter(|&&byte| byte == 10).count() as u16;
            for side in SIDES {
                let (client, house) = (client.hold(&content, side), house.hold(&content, side));
                for folder in [0, 1, lines / 2, lines.saturating_sub(1), lines, lines + 1, 65_535] {
                    support::same_name(client, &[], folder);
                    support::same_name(&[], house, folder);
                    support::same_name(client, house, folder);
                }
            }
        }
    }
}

#[test]
fn logs() {
    let mut random = Random::new(62);
    let mut fence = Fenced::new(PAGE);
    for _ in 0..40_000 {
        let len = random.below(20);
        let content: Vec<u8> =
            (0..len).map(|_| random.pick(&[0, 0, 1, 1, 2, 3, 4, 20, 22, 127, 128, 129, 255])).collect();
        for side in SIDES {
            let log = fence.hold(&content, side);
            support::same_log_check(log).ok();
            for place in 0..=len + 1 {
                support::same_step(log, place).ok();
                support::same_number(log, place).ok();
            }
        }
    }
}

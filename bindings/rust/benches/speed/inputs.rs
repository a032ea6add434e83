//! What is asked in the benchmarks.

use std::ops::Range;

use crate::reference::{self, Ask, House};

/// A generator of numbers (SplitMix64).
pub struct Random(pub u64);

impl Random {
    pub fn below(&mut self, bound: usize) -> usize {
        self.0 = self.0.wrapping_add(0x9e37_79b9_7f4a_7c15);
        let z = (self.0 ^ (self.0 >> 30)).wrapping_mul(0xbf58_476d_1ce4_e5b9);
        let z = (z ^ (z >> 27)).wrapping_mul(0x94d0_49bb_1331_11eb);
        ((u128::from(z ^ (z >> 31)) * bound as u128) >> 64) as usize
    }
}

/// A register and what is asked of it.
#[derive(Clone)]
pub struct Input {
    pub logins: usize,
    pub persons: Vec<u16>,
    pub classes: Vec<u16>,
    pub clients: Vec<u16>,
    pub mode: u8,
    pub firsts: Vec<u16>,
    pub seconds: Vec<u16>,
    pub matrix: Vec<u8>,
    pub asks: Vec<Ask>,
}

impl Input {
    /// A house by classes whose folder f belongs to client `client(f)`; eight clients share a class, and each login is its own person.
    pub fn new(logins: usize, folders: usize, client: impl Fn(usize) -> usize) -> Input {
        let clients: Vec<u16> = (0..folders).map(|folder| client(folder) as u16).collect();
        let classes = clients.iter().map(|&client| if client == 0 { 0 } else { 1 + client / 8 }).collect();
        let (firsts, seconds, asks) = (Vec::new(), Vec::new(), Vec::new());
        let (persons, matrix) = ((0..logins as u16).collect(), vec![0; logins * folders]);
        Input { logins, persons, classes, clients, mode: 0, firsts, seconds, matrix, asks }
    }

    pub fn house(&self) -> House<'_> {
        House {
            logins: self.logins,
            persons: &self.persons,
            classes: &self.classes,
            clients: &self.clients,
            mode: self.mode,
            firsts: &self.firsts,
            seconds: &self.seconds,
        }
    }

    pub fn folders(&self) -> usize {
        self.clients.len()
    }

    /// The cells that a login's requests are decided on: the row of its person.
    pub fn row(&self, login: u16) -> Range<usize> {
        let start = self.persons.get(usize::from(login)).map_or(0, |&person| usize::from(person)) * self.folders();
        start..start + self.folders()
    }

    /// Asks for one thing, again and again.
    pub fn asking(mut self, login: usize, folder: usize, kind: u16) -> Input {
        self.asks = vec![Ask { login: login as u16, folder: folder as u16, kind }];
        self
    }

    /// Enters a right of the last login on every folder that fits.
    pub fn entering(mut self, right: u8, fits: impl Fn(usize) -> bool) -> Input {
        let row = (self.logins - 1) * self.folders();
        for folder in (0..self.folders()).filter(|&folder| fits(folder)) {
            self.matrix[row + folder] = right;
        }
        self
    }

    /// Asks for all sorts of things: a thousand requests of some logins, over and over.
    pub fn mixed(mut self) -> Input {
        let mut random = Random(7);
        self.asks = (0..1000)
            .map(|_| Ask {
                login: random.below(self.logins) as u16,
                folder: random.below(self.folders()) as u16,
                kind: 1 + random.below(4) as u16,
            })
            .collect();
        self
    }
}

/// Requests, each with whether the row is put back after it.
pub fn requests() -> Vec<(&'static str, Input, bool)> {
    let distinct = || Input::new(128, 512, |folder| folder + 1);
    let shared = || Input::new(128, 512, |folder| folder % 64 + 1);
    let small = || Input::new(4, 8, |folder| folder % 5);
    let far_apart = |folder: usize| folder % 16 == 3;
    vec![
        ("512 × 128, all clients distinct: read, blank row", distinct().asking(127, 300, 1), true),
        ("… read again, 32 read rights", distinct().entering(1, far_apart).asking(127, 3, 1), false),
        ("… read, taking 128 rights back", distinct().entering(2, |f| f % 4 == 0).asking(127, 301, 1), true),
        ("… careful read again", distinct().entering(1, far_apart).asking(127, 3, 2), false),
        ("… write again, 256 write rights", distinct().entering(2, |f| f % 2 == 0).asking(127, 300, 3), false),
        ("… write, refused with 21 for the last folder", distinct().entering(1, |f| f == 511).asking(127, 0, 3), false),
        ("… read, refused with 20", distinct().entering(1, |f| f == 510).asking(127, 508, 1), false),
        ("… read and write, blank row", distinct().asking(127, 300, 4), true),
        ("… a thousand of all sorts", distinct().mixed(), false),
        ("512 × 128, 64 clients: read, blank row", shared().asking(127, 300, 1), true),
        ("… read again, 8 read rights", shared().entering(1, |f| f % 64 == 3).asking(127, 3, 1), false),
        ("… a thousand of all sorts", shared().mixed(), false),
        ("8 × 4: read, blank row", small().asking(3, 3, 1), true),
        ("… read, taking 3 rights back", small().entering(2, |f| f < 4).asking(3, 3, 1), true),
        ("… write, refused with 21", small().entering(1, |f| f == 7).asking(3, 1, 3), false),
        ("… a thousand of all sorts", small().mixed(), false),
    ]
}

/// Registers. Some are chosen against the library: clients of one slot of its table, of which there are 32, and clients of one place
/// among its marks.
pub fn registers() -> Vec<(&'static str, Input)> {
    let crowded: Vec<usize> = (1..65_536).filter(|client| (client + client / 32) % 2048 == 7).collect();
    let marked = |folder: usize| (folder + 1) * 128;
    let mut random = Random(3);
    let numbers: Vec<usize> = (0..512).map(|_| 1 + random.below(65_535)).collect();
    vec![
        ("512 folders, all clients distinct", Input::new(128, 512, |folder| folder + 1)),
        ("… in steps of 128", Input::new(128, 512, |folder| folder * 128)),
        ("… in random order", Input::new(128, 512, |folder| numbers[folder])),
        ("512 folders, 64 clients", Input::new(128, 512, |folder| folder % 64 + 1)),
        ("512 folders, 1 client", Input::new(128, 512, |_| 1)),
        ("512 folders, chosen against the table", Input::new(128, 512, |folder| crowded[folder % crowded.len()])),
        ("128 folders, chosen against the table", Input::new(128, 128, |folder| crowded[folder % crowded.len()])),
        ("65 folders, chosen against the table", Input::new(128, 65, |folder| crowded[folder % crowded.len()])),
        ("64 folders, all clients distinct", Input::new(128, 64, |folder| folder + 1)),
        ("64 folders, chosen against the marks", Input::new(128, 64, marked)),
        ("16 folders, chosen against the marks", Input::new(4, 16, marked)),
        ("8 folders, 5 clients", Input::new(4, 8, |folder| folder % 5)),
        ("8 folders, chosen against the marks", Input::new(4, 8, marked)),
        ("4 folders, chosen against the marks", Input::new(4, 4, marked)),
        ("1 folder", Input::new(1, 1, |_| 1)),
    ]
}

/// Houses that grow: a read on a blank row, all clients distinct, 128 logins.
pub fn growing() -> impl Iterator<Item = (usize, Input)> {
    [64, 128, 256, 512]
        .into_iter()
        .map(|folders| (folders, Input::new(128, folders, |folder| folder + 1).asking(127, folders / 2, 1)))
}

/// A log of 64 KiB: records of this many listed folders, one after the other.
fn log_of(listed: impl Fn(usize) -> u16) -> Vec<u8> {
    let mut log = vec![0; 65_536];
    let mut end = 0;
    for record in 0.. {
        let count = listed(record);
        let fields = [record as u16, (record % 128) as u16, 511, 1, 0, count];
        let fields = || fields.into_iter().chain(0..count);
        let length: usize = fields().map(reference::width).sum();
        if end + length > log.len() {
            break;
        }
        end = fields().fold(end, |place, number| reference::write_number(&mut log, place, number));
    }
    log.truncate(end);
    log
}

/// Logs of 64 KiB.
pub fn logs() -> Vec<(&'static str, Vec<u8>)> {
    vec![
        ("records without a list", log_of(|_| 0)),
        ("records of 1 to 5 listed folders", log_of(|record| (1 + record % 5) as u16)),
        ("records of 100 listed folders", log_of(|_| 100)),
        ("records of 511 listed folders", log_of(|_| 511)),
    ]
}

/// Cells of 0 to 3, in no order.
pub fn cells() -> Vec<u8> {
    let mut random = Random(5);
    (0..65_536).map(|_| random.below(4) as u8).collect()
}

/// Sizes of texts, and the folders that are named in them: the first, one in the midst and the last.
pub const NAMED: [(&str, usize, [u16; 3]); 3] = [
    ("64 KiB, 512 lines", 65_536, [0, 255, 511]),
    ("8 KiB, 512 lines", 8_192, [0, 255, 511]),
    ("128 bytes, 8 lines", 128, [0, 3, 7]),
];

/// A client's text of folder names and the house's.
pub struct Texts {
    pub client: Vec<u8>,
    pub house: Vec<u8>,
}

/// Some dozens of pairs of texts of `len` bytes and so many lines each. Half of the client's lines are empty, other ones in each pair.
pub fn texts(len: usize, lines: usize) -> Vec<Texts> {
    let mut random = Random(11);
    (0..48)
        .map(|_| Texts {
            client: text(&mut random, len, lines, lines / 2),
            house: text(&mut random, len, lines, lines),
        })
        .collect()
}

/// A text of `len` bytes and so many lines, of which `named` are not empty. Two of these share what is theirs, so their lengths are
/// random and their sum is not.
fn text(random: &mut Random, len: usize, lines: usize, named: usize) -> Vec<u8> {
    let mean = (len - lines) / named;
    let mut lengths = vec![0; lines];
    for two in lengths[..named].chunks_exact_mut(2) {
        two[0] = 1 + random.below(2 * mean - 1);
        two[1] = 2 * mean - two[0];
    }
    shuffle(random, &mut lengths);
    // Texts that all begin a multiple of 64 KiB apart would fight for the same places of the cache: some room behind sets them apart.
    let mut text = Vec::with_capacity(len + random.below(4096));
    for length in lengths {
        text.extend((0..length).map(|_| b'a' + random.below(26) as u8));
        text.push(10);
    }
    assert_eq!(text.len(), len);
    text
}

/// Many orders in which to go through so many pairs: one alone would be learnt by the processor.
pub fn orders(pairs: usize) -> Vec<Vec<usize>> {
    let mut random = Random(13);
    let mut order: Vec<usize> = (0..pairs).collect();
    (0..200)
        .map(|_| {
            shuffle(&mut random, &mut order);
            order.clone()
        })
        .collect()
}

pub fn shuffle(random: &mut Random, list: &mut [usize]) {
    for last in (1..list.len()).rev() {
        list.swap(last, random.below(last + 1));
    }
}

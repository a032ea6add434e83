//! The request, held against the reference: answers, matrix, log, end and serial, buffers compared whole with guard bytes on both sides;
//! by classes and by pairs, with persons of all sorts. What is particular to pairs is in `pairs.rs`, to persons in `persons.rs`.

mod reference;
mod support;

use reference::{Ask, Reply};
use support::{cells, same_request, serial, Guarded, Owned, Random, Tally};

const ALL: [u16; 16] = [0, 1, 2, 3, 4, 5, 6, 7, 8, 9, 10, 11, 20, 21, 22, 30];

fn number(reply: &Reply) -> u16 {
    reply.answer.map_or_else(|refusal| refusal.numbers()[0], |_| 0)
}

/// A good register in class mode, in class mode with pairs that nothing may look at, or by pairs; with a good person list.
fn good(random: &mut Random, logins: usize, folders: usize, clients: usize) -> Owned {
    let house = Owned::good(random, logins, folders, clients).with_persons(random);
    match random.below(4) {
        0 => house,
        1 => house.with_idle_pairs(random),
        _ => house.with_pairs(random),
    }
}

/// A request for anything, mostly in range.
fn ask(random: &mut Random, logins: usize, folders: usize) -> Ask {
    let kind = match random.below(24) {
        0 => random.pick(&[0, 5, 6, 255, 256, 257, 65_535]),
        _ => random.range(1, 4) as u16,
    };
    let number = |random: &mut Random, bound: usize| match random.below(24) {
        0 => random.pick(&[bound, bound + 1, 128, 512, 65_535]) as u16,
        _ => random.below(bound.max(1)) as u16,
    };
    Ask { login: number(random, logins.min(128)), folder: number(random, folders), kind }
}

/// A matrix, mostly of the right length, sometimes with cells above 3 in any row.
fn matrix(random: &mut Random, logins: usize, folders: usize) -> Vec<u8> {
    let right = logins.min(129) * folders;
    let len = match random.below(16) {
        0 => random.pick(&[
            0,
            1,
            folders,
            logins.min(129),
            right + 1,
            right.saturating_sub(1),
            right + folders,
            2 * right,
        ]),
        _ => right,
    };
    let mut matrix = cells(random, len);
    if random.once_in(6) && len > 0 {
        for _ in 0..random.range(1, 3) {
            let place = random.below(len);
            matrix[place] = random.pick(&[4, 5, 7, 8, 127, 128, 131, 252, 255]);
        }
    }
    matrix
}

/// A log's buffer, and an end in it or past it.
fn log(random: &mut Random) -> (Vec<u8>, usize) {
    let len = random.pick(&[0, 3, 6, 7, 8, 9, 10, 12, 16, 40, 100]);
    let end = match random.below(12) {
        0 => len,
        1 => random.pick(&[len + 1, len + 2, 2 * len + 1, 65_536, 1 << 32, usize::MAX - 1, usize::MAX]),
        2 => len.saturating_sub(random.range(5, 10)),
        _ => random.below(len / 2 + 1),
    };
    (random.bytes(len), end)
}

fn one_case(random: &mut Random, house: &Owned) -> Reply {
    let (logins, folders) = (house.logins, house.folders());
    let content = matrix(random, logins, folders);
    let mut matrix = Guarded::new(random, &content);
    let (content, end) = log(random);
    let mut log = Guarded::new(random, &content);
    let ask = ask(random, logins, folders);
    let serial = serial(random);
    same_request(&house.lend(), &mut matrix, ask, &mut log, end, serial)
}

/// Houses of these logins, folders and clients, mostly in order, with everything that can be wrong with a request; each answer is met so often.
fn random_houses(seed: u64, cases: usize, often: usize, size: impl Fn(&mut Random) -> (usize, usize, usize)) {
    let mut random = Random::new(seed);
    let mut tally = Tally::default();
    for _ in 0..cases {
        let (logins, folders, clients) = size(&mut random);
        let mut house = good(&mut random, logins, folders, clients);
        if random.once_in(8) {
            house.damage(&mut random);
        }
        if random.once_in(8) {
            house.damage_persons(&mut random);
        }
        tally.add(number(&one_case(&mut random, &house)));
    }
    tally.met(&ALL, often);
}

#[test]
fn small_houses() {
    random_houses(10, 300_000, 300, |random| (random.range(1, 4), random.range(1, 10), random.pick(&[1, 2, 3, 5])));
}

/// Of the sizes about which the walks over a row change their way.
#[test]
fn middle_houses() {
    let sizes = [15, 16, 17, 23, 24, 25, 31, 32, 33, 47, 48, 49, 63, 64, 65, 66, 72];
    random_houses(19, 60_000, 50, |random| (random.range(1, 4), random.pick(&sizes), random.pick(&[1, 2, 3, 40])));
}

/// At and past their bounds.
#[test]
fn large_houses() {
    let (logins, sizes) = ([1, 2, 127, 128], [1, 127, 128, 129, 511, 512]);
    random_houses(11, 2_500, 5, |random| (random.pick(&logins), random.pick(&sizes), random.pick(&[2, 3, 64, 600])));
}

/// Every number as a cell, at every place of rows of the sizes about which the walk over cells changes its way, among cells of all rights: 8 just for
/// those above 3.
#[test]
fn every_cell_is_judged() {
    let mut random = Random::new(21);
    let log = Guarded::new(&mut random, &[0; 200]);
    for folders in [1, 2, 3, 7, 8, 9, 15, 16, 17, 31, 32, 33, 39, 40, 41, 63, 64, 65] {
        let house = Owned::new(3, &vec![(1, 1); folders]);
        for place in 0..folders {
            let mut matrix: Vec<u8> = (0..3 * folders).map(|at| (at % 4) as u8).collect();
            for cell in 0..=u8::MAX {
                matrix[folders + place] = cell;
                let mut matrix = Guarded::new(&mut random, &matrix);
                let ask = Ask { login: 1, folder: 0, kind: 1 };
                let reply = same_request(&house.lend(), &mut matrix, ask, &mut log.clone(), 3, 200);
                assert_eq!(number(&reply) == 8, cell > 3, "cell {cell} at {place} of {folders}");
            }
        }
    }
}

/// One folder in the way, at every place of rows of every small size: of each sort, by classes and by pairs, in the first, a middle and the last row.
#[test]
fn one_folder_in_the_way() {
    let mut random = Random::new(20);
    let mut tally = Tally::default();
    let before = Guarded::new(&mut random, &[0; 200]);
    for folders in 2..=70_usize {
        let labels: Vec<(u16, u16)> = (0..folders).map(|folder| (1 + folder as u16 % 2, 1 + folder as u16)).collect();
        let pairs: Vec<(u16, u16)> = (1..folders as u16).map(|folder| (1, 1 + folder)).collect();
        let houses = [Owned::new(3, &labels), Owned::new(3, &labels).paired(1, &pairs)];
        for place in 1..folders {
            for (login, cell) in [(0, 1), (1, 2), (2, 3), (2, 4)] {
                let mut matrix = vec![0; 3 * folders];
                matrix[usize::from(login) * folders + place] = cell;
                let matrix = Guarded::new(&mut random, &matrix);
                for (house, kind) in houses.iter().flat_map(|house| (1..=4).map(move |kind| (house, kind))) {
                    let ask = Ask { login, folder: 0, kind };
                    let reply = same_request(&house.lend(), &mut matrix.clone(), ask, &mut before.clone(), 3, 200);
                    tally.add(number(&reply));
                }
            }
        }
    }
    tally.met(&[0, 8, 20, 21, 22], 1_000);
}

/// Every row of three folders, cells 0 to 4, over every choice of four labels, for every folder and kind.
#[test]
fn every_small_row() {
    const LABELS: [(u16, u16); 4] = [(0, 0), (1, 1), (1, 2), (2, 3)];
    let mut random = Random::new(12);
    let mut tally = Tally::default();
    let before = Guarded::new(&mut random, &[0; 32]);
    for choice in 0..64 {
        let house = Owned::new(1, &[LABELS[choice & 3], LABELS[choice >> 2 & 3], LABELS[choice >> 4]]);
        for row in 0..125_u8 {
            let row = Guarded::new(&mut random, &[row % 5, row / 5 % 5, row / 25]);
            for folder in 0..=3 {
                for kind in 0..=5 {
                    let ask = Ask { login: 0, folder, kind };
                    let reply = same_request(&house.lend(), &mut row.clone(), ask, &mut before.clone(), 3, 200);
                    tally.add(number(&reply));
                }
            }
        }
    }
    tally.met(&[0, 6, 7, 8, 20, 21, 22], 500);
}

/// Every room from none to more than enough, behind an end that is in the log or at its start.
#[test]
fn every_room() {
    let mut random = Random::new(13);
    let mut tally = Tally::default();
    for round in 0..4_000 {
        let folders = if round % 100 == 0 { random.range(100, 512) } else { random.range(2, 12) };
        let clients = random.pick(&[2, 3, 5]);
        let house = good(&mut random, 2, folders, clients);
        let content = cells(&mut random, 2 * folders);
        let matrix = Guarded::new(&mut random, &content);
        let ask = Ask {
            login: random.below(2) as u16,
            folder: random.below(folders) as u16,
            kind: random.range(1, 4) as u16,
        };
        let (end, serial) = (random.pick(&[0, 1, 9, 300]), serial(&mut random));
        let mut enough = None;
        for room in 0.. {
            let content = random.bytes(end + room);
            let mut log = Guarded::new(&mut random, &content);
            let reply = same_request(&house.lend(), &mut matrix.clone(), ask, &mut log, end, serial);
            tally.add(number(&reply));
            if number(&reply) == 30 {
                assert_eq!(enough, None, "a record that fits in less room fits in more");
            } else {
                let length = reply.end - end;
                assert_eq!(*enough.get_or_insert(room), length, "a record fits as soon as there is room for it");
                if room == length + 2 {
                    break;
                }
            }
        }
    }
    tally.met(&[0, 20, 21, 22, 30], 300);
}

/// The longest record: 511 folders lose a write right.
#[test]
fn longest_record() {
    let mut random = Random::new(14);
    for folder in [0, 127, 128, 511] {
        let labels: Vec<(u16, u16)> = (0..512).map(|other| if other == folder { (1, 1) } else { (2, 2) }).collect();
        let house = Owned::new(128, &labels);
        for (kind, cell) in [(1, 2), (4, 2)] {
            let matrix = Guarded::new(&mut random, &[cell; 65_536]);
            let ask = Ask { login: 127, folder, kind };
            for room in [housechervil::MAX_RECORD - 1, housechervil::MAX_RECORD] {
                let mut log = Guarded::new(&mut random, &vec![0xa5; room]);
                let reply = same_request(&house.lend(), &mut matrix.clone(), ask, &mut log, 0, 65_535);
                if room < housechervil::MAX_RECORD {
                    assert_eq!(number(&reply), 30);
                } else {
                    assert_eq!(reply, Reply { answer: Ok(511), end: housechervil::MAX_RECORD, serial: 0 });
                }
            }
        }
    }
}

/// Every serial, of one to three bytes, written in a record between other bytes.
#[test]
fn every_serial() {
    let mut random = Random::new(23);
    let house = Owned::new(1, &[(1, 1), (1, 2)]);
    for serial in 0..=u16::MAX {
        let mut matrix = Guarded::new(&mut random, &[0, 0]);
        let mut log = Guarded::new(&mut random, &[0xa5; 12]);
        let ask = Ask { login: 0, folder: 1, kind: 1 };
        let reply = same_request(&house.lend(), &mut matrix, ask, &mut log, 2, serial);
        assert_eq!(number(&reply), 0);
    }
}

/// What each check comes before: all the faults at once, then one fewer from the top, and so on.
#[test]
fn first_fault_speaks() {
    let mut random = Random::new(15);
    let mut house = Owned::new(129, &[(1, 4), (2, 4), (0, 1)]);
    let mut matrix = vec![9, 9, 9, 9];
    let mut ask = Ask { login: 2, folder: 3, kind: 0 };
    let mut end = 3;
    let mut log_len = 2;
    let mut answers = Vec::new();
    for step in 0..14 {
        match step {
            1 => house.logins = 2,
            2 => house.classes[2] = 3,
            3 => house.clients[1] = 5,
            4 => matrix = vec![9, 9, 9, 4, 9, 1],
            5 => ask.login = 0,
            6 => house.persons = vec![1, 2],
            7 => house.persons = vec![1, 0],
            8 => ask.folder = 1,
            9 => ask.kind = 3,
            10 => matrix = vec![9, 9, 9, 1, 9, 1],
            11 => matrix = vec![9, 9, 9, 1, 2, 1],
            12 => end = 2,
            13 => {
                log_len = 30;
                house.classes[1] = 3;
            }
            _ => {}
        }
        let mut m = Guarded::new(&mut random, &matrix);
        let mut l = Guarded::new(&mut random, &vec![0; log_len]);
        let reply = same_request(&house.lend(), &mut m, ask, &mut l, end, 7);
        answers.push(number(&reply));
    }
    assert_eq!(answers, [1, 2, 3, 4, 5, 10, 10, 6, 7, 8, 8, 9, 30, 20]);
}

/// Long runs of requests, each on what the one before it left, with serials that go round past 65,535; the log is read back field
/// by field and equals what was asked and answered.
#[test]
fn long_runs() {
    let mut random = Random::new(16);
    let mut tally = Tally::default();
    let mut wrapped = 0;
    for round in 0..60 {
        let (logins, folders, requests) = match round {
            0..=3 => (128, 512, 400),
            _ => (random.range(1, 12), random.range(1, 40), 1_500),
        };
        let clients = random.pick(&[2, 5, 20, 64]);
        let house = good(&mut random, logins, folders, clients);
        let mut matrix = Guarded::new(&mut random, &vec![0; logins * folders]);
        let content = random.bytes(if round % 2 == 0 { 65_536 } else { 6_000 });
        let mut log = Guarded::new(&mut random, &content);
        let first = random.pick(&[0, 65_535, 65_000, 16_000, 64_500]);
        let (mut end, mut serial) = (0, first);
        let mut logged = Vec::new();
        for _ in 0..requests {
            let ask = ask(&mut random, logins, folders);
            let before = matrix.clone();
            let reply = same_request(&house.lend(), &mut matrix, ask, &mut log, end, serial);
            tally.add(number(&reply));
            if reply.end == end {
                assert!(matrix == before && reply.serial == serial);
                continue;
            }
            // What a grant took back, seen in the row of the login's person.
            let [had, has] = [&before, &matrix].map(|matrix| house.row(matrix.inner(), ask.login));
            let lost: Vec<u16> = (0..)
                .zip(had.iter().zip(has))
                .filter(|(_, (had, has))| *had & 2 > *has & 2)
                .map(|lost| lost.0)
                .collect();
            let list = match reply.answer {
                Ok(count) => {
                    assert_eq!(count, lost.len());
                    lost
                }
                Err(refusal) => {
                    assert!(lost.is_empty());
                    vec![refusal.numbers()[1]]
                }
            };
            logged.push((serial, ask, number(&reply), list));
            wrapped += usize::from(reply.serial < serial);
            (end, serial) = (reply.end, reply.serial);
        }

        let written = &log.inner()[..end];
        assert_eq!(support::same_log_check(written), Ok(logged.len()));
        let mut place = 0;
        for (serial, ask, answer, list) in &logged {
            let record =
                support::same_step(written, place).unwrap().expect("a record for each request that was logged");
            assert_eq!((record.serial, record.login, record.folder), (*serial, ask.login, ask.folder));
            assert_eq!((record.kind, record.answer), (ask.kind, *answer));
            assert_eq!(reference::listed(written, &record), *list);
            place = record.end;
        }
        assert_eq!(support::same_step(written, place), Ok(None));
        assert!(logged
            .iter()
            .zip(housechervil::Records::new(written))
            .all(|(one, other)| one.0 == other.unwrap().serial().0));
    }
    tally.met(&[0, 5, 6, 7, 20, 21, 22, 30], 100);
    assert!(wrapped >= 10, "serials went round only {wrapped} times");
}

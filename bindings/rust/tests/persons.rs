//! Persons and their logins (document 02, C-14): each reading of the request by hand, lists on their edges and 10 among the other faults,
//! histories of several logins to a person, and houses in which each login is its own person beside document 01's. Library and reference
//! are held against each other throughout, buffers and lists with their guards; random houses and requests are in `request.rs` too.

mod reference;
mod support;

use std::collections::BTreeSet;

use reference::{Ask, House, Plain, Refusal, Reply};
use support::{any_ask, cells, same_request, Guarded, Owned, Random, Tally};

/// Two rivals, a third client and a sanitised folder.
const LABELS: [(u16, u16); 4] = [(1, 1), (1, 2), (2, 3), (0, 0)];

/// Lists that are bad in a house of three logins, as document 02 has it: short, long, empty, an entry of P, one far above; the entry being
/// any login's.
const BAD: [&[u16]; 12] = [
    &[],
    &[0],
    &[0, 1],
    &[0, 1, 2, 0],
    &[0, 1, 2, 3],
    &[0, 1, 2, 0, 1, 2],
    &[3, 1, 2],
    &[0, 3, 2],
    &[0, 1, 3],
    &[65_535, 1, 2],
    &[0, 65_535, 2],
    &[0, 1, 65_535],
];

fn number(reply: &Reply) -> u16 {
    reply.answer.map_or_else(|refusal| refusal.numbers()[0], |_| 0)
}

/// A good register in either mode, with a good person list.
fn good(random: &mut Random, logins: usize, folders: usize, clients: usize) -> Owned {
    let house = Owned::good(random, logins, folders, clients).with_persons(random);
    match random.below(2) {
        0 => house,
        _ => house.with_pairs(random),
    }
}

/// A house with its matrix and log, asked request by request.
struct Desk {
    house: Owned,
    matrix: Guarded,
    log: Guarded,
    end: usize,
    serial: u16,
}

impl Desk {
    fn new(random: &mut Random, house: Owned, matrix: &[u8], log_len: usize) -> Desk {
        let (matrix, log) = (Guarded::new(random, matrix), Guarded::new(random, &vec![0xa5; log_len]));
        Desk { house, matrix, log, end: 0, serial: 0 }
    }

    fn blank(random: &mut Random, house: Owned, log_len: usize) -> Desk {
        let cells = house.logins * house.folders();
        Desk::new(random, house, &vec![0; cells], log_len)
    }

    #[track_caller]
    fn ask(&mut self, login: u16, folder: u16, kind: u16) -> Reply {
        let ask = Ask { login, folder, kind };
        let reply = same_request(&self.house.lend(), &mut self.matrix, ask, &mut self.log, self.end, self.serial);
        (self.end, self.serial) = (reply.end, reply.serial);
        reply
    }

    /// The number of the answer, and the folder carried.
    #[track_caller]
    fn answer(&mut self, login: u16, folder: u16, kind: u16) -> (u16, u16) {
        let reply = self.ask(login, folder, kind);
        reply.answer.map_or_else(|refusal| (refusal.numbers()[0], refusal.numbers()[1]), |_| (0, 0))
    }

    fn written(&self) -> &[u8] {
        &self.log.inner()[..self.end]
    }
}

// ---------------------------------------------------------------- the readings, by hand

/// The incident: a partner's desk and travel login. With a wall of their own each, one head has both rivals; as one person's they have one
/// wall, by classes and by pairs.
#[test]
fn the_incident() {
    let mut random = Random::new(100);
    let house = Owned::new(2, &LABELS);
    for house in [house.clone(), house.paired(1, &[(1, 2)])] {
        let mut each = Desk::blank(&mut random, house.clone(), 40);
        assert_eq!([each.answer(0, 0, 1), each.answer(1, 1, 1)], [(0, 0), (0, 0)]);
        assert_eq!(each.matrix.inner(), [1, 0, 0, 0, 0, 1, 0, 0]);

        for person in 0..2 {
            let mut both = Desk::blank(&mut random, house.clone().of_persons(&[person; 2]), 40);
            assert_eq!([both.answer(0, 0, 1), both.answer(1, 1, 1)], [(0, 0), (20, 0)]);
            assert_eq!([both.answer(1, 0, 1), both.answer(0, 1, 1)], [(0, 0), (20, 0)]);
            let row = usize::from(person) * 4;
            assert_eq!(both.matrix.inner()[row..][..4], [1, 0, 0, 0]);
            assert_eq!(both.matrix.inner()[4 - row..][..4], [0; 4]);
            // Serial, login, folder, kind, answer, count and list: the log keeps the login.
            let records =
                [&[0, 0, 0, 1, 0, 0][..], &[1, 1, 1, 1, 20, 1, 0], &[2, 1, 0, 1, 0, 0], &[3, 0, 1, 1, 20, 1, 0]];
            assert_eq!(both.written(), records.concat());
        }
    }
}

/// Rivals, foreign folders and those at stake are the person's, whichever login the rights came through.
#[test]
fn each_sort_through_another_login() {
    let mut random = Random::new(101);
    let house = Owned::new(3, &LABELS).of_persons(&[2, 0, 2]);
    let mut desk = Desk::blank(&mut random, house, 200);
    assert_eq!(desk.answer(0, 0, 3), (0, 0)); // login 0 may write for client 1
    assert_eq!(desk.answer(2, 2, 2), (22, 0)); // at stake for the same person's login 2
    assert_eq!(desk.answer(1, 2, 2), (0, 0)); // not for another person's
    assert_eq!(desk.answer(2, 0, 1), (0, 0)); // login 2 reads client 1
    assert_eq!(desk.answer(0, 2, 3), (21, 0)); // foreign for login 0
    assert_eq!(desk.answer(0, 1, 1), (20, 0)); // a rival for login 0
    assert_eq!(desk.answer(1, 1, 1), (0, 0));
    assert_eq!(desk.matrix.inner(), [0, 1, 1, 0, 0, 0, 0, 0, 3, 0, 0, 0]);
}

/// Write rights gained through one login are lost through another, and the record stands under the login that asked.
#[test]
fn gained_through_one_lost_through_another() {
    let mut random = Random::new(102);
    let house = Owned::new(4, &LABELS).of_persons(&[1, 1, 3, 1]);
    for kind in [1, 4] {
        let mut desk = Desk::blank(&mut random, house.clone(), 100);
        for (login, folder) in [(0, 0), (1, 1), (2, 1), (3, 3)] {
            assert_eq!(desk.answer(login, folder, 3), (0, 0));
        }
        assert_eq!(desk.matrix.inner(), [0, 0, 0, 0, 2, 2, 0, 2, 0, 0, 0, 0, 0, 2, 0, 0]);
        let before = desk.end;
        let reply = desk.ask(3, 2, kind);
        assert_eq!(reply, Reply { answer: Ok(3), end: before + 9, serial: 5 });
        assert_eq!(desk.written()[before..], [4, 3, 2, kind as u8, 0, 3, 0, 1, 3]);
        let cell = if kind == 1 { 1 } else { 3 };
        assert_eq!(desk.matrix.inner(), [0, 0, 0, 0, 0, 0, cell, 0, 0, 0, 0, 0, 0, 2, 0, 0]);
    }
}

/// 8 looks at the person's row: the row of the login's own number may be spoilt, the person's clean, and the other way round.
#[test]
fn eight_on_the_persons_row() {
    let mut random = Random::new(103);
    let house = Owned::new(3, &LABELS).of_persons(&[1, 2, 1]);
    for (row, spoilt) in [(0, &[][..]), (1, &[0, 2]), (2, &[1])] {
        for bad in 0..4 {
            for cell in [4, 5, 128, 255] {
                let mut matrix = [0; 12];
                matrix[row * 4 + bad] = cell;
                for login in 0..3 {
                    let mut desk = Desk::new(&mut random, house.clone(), &matrix, 40);
                    let expected = if spoilt.contains(&login) { (8, bad as u16) } else { (0, 0) };
                    assert_eq!(
                        desk.answer(login, 3, 1),
                        expected,
                        "cell {cell} of folder {bad}, row {row}, login {login}"
                    );
                }
            }
        }
    }
}

/// The row that decides is the person's also where the row of the login's own number has rivals, foreign folders or some at stake.
#[test]
fn the_logins_own_row_says_nothing() {
    let mut random = Random::new(104);
    let house = Owned::new(2, &LABELS).of_persons(&[1, 0]);
    for (own, folder, kind, number) in [(1, 1, 1, 20), (1, 2, 3, 21), (1, 2, 4, 21), (2, 1, 2, 22)] {
        let matrix = [own, 0, 0, 0, 0, 0, 0, 0];
        assert_eq!(Desk::new(&mut random, house.clone(), &matrix, 40).answer(0, folder, kind), (0, 0));
        assert_eq!(Desk::new(&mut random, house.clone(), &matrix, 40).answer(1, folder, kind), (number, 0));
    }
}

/// Persons need not all be used: no request changes the row of one without a login, nor looks at it.
#[test]
fn persons_without_a_login() {
    let mut random = Random::new(105);
    let mut tally = Tally::default();
    for _ in 0..300 {
        let (logins, folders) = (random.range(2, 9), random.range(1, 20));
        let house = good(&mut random, logins, folders, 5);
        let used: BTreeSet<usize> = house.persons.iter().map(|&person| usize::from(person)).collect();
        let mut matrix = vec![0; logins * folders];
        for person in (0..logins).filter(|person| !used.contains(person)) {
            matrix[person * folders..][..folders].copy_from_slice(&random.bytes(folders));
        }
        let mut desk = Desk::new(&mut random, house, &matrix, 3_000);
        for _ in 0..100 {
            let Ask { login, folder, kind } = any_ask(&mut random, &desk.house);
            tally.add(number(&desk.ask(login, folder, kind)));
        }
        let rows = matrix.chunks(folders).zip(desk.matrix.inner().chunks(folders)).enumerate();
        assert!(rows.into_iter().all(|(person, (before, after))| used.contains(&person) || before == after));
    }
    tally.met(&[0, 5, 6, 7, 20, 21, 22], 100);
}

// ---------------------------------------------------------------- 10

/// Each bad list together with every other fault: what comes before 10 speaks, and 10 speaks before what comes after it, whoever asks.
#[test]
fn ten_among_the_other_faults() {
    let mut random = Random::new(106);
    let mut asked = |house: &Owned, matrix: &[u8], ask: Ask, end: usize| {
        let (mut matrix, mut log) = (Guarded::new(&mut random, matrix), Guarded::new(&mut random, &[0; 20]));
        let before = (matrix.clone(), log.clone());
        let reply = same_request(&house.lend(), &mut matrix, ask, &mut log, end, 7);
        assert!((matrix, log) == before && (reply.end, reply.serial) == (end, 7));
        reply.answer.unwrap_err().numbers()
    };
    let (blank, spoilt) = ([0; 12], [9; 12]);
    for list in BAD {
        let house = Owned::new(3, &LABELS).of_persons(list);
        for login in 0..3 {
            let ask = Ask { login, folder: 0, kind: 1 };
            for mode in [0, 1] {
                let house = house.clone().paired(mode, &[(1, 2)]);
                // Alone, and before 6, 7, 8 and 9.
                assert_eq!(asked(&house, &blank, ask, 0), [10, 0, 0], "{list:?}");
                assert_eq!(asked(&house, &blank, Ask { folder: 4, ..ask }, 0), [10, 0, 0]);
                assert_eq!(asked(&house, &blank, Ask { folder: 65_535, ..ask }, 0), [10, 0, 0]);
                assert_eq!(asked(&house, &blank, Ask { kind: 0, ..ask }, 0), [10, 0, 0]);
                assert_eq!(asked(&house, &blank, Ask { kind: 5, ..ask }, 0), [10, 0, 0]);
                assert_eq!(asked(&house, &spoilt, ask, 0), [10, 0, 0]);
                assert_eq!(asked(&house, &blank, ask, 21), [10, 0, 0]);
                assert_eq!(asked(&house, &blank, ask, usize::MAX), [10, 0, 0]);
                // Before 30 and the wall.
                assert_eq!(asked(&house, &blank, ask, 20), [10, 0, 0]);
                assert_eq!(asked(&house, &[1; 12], ask, 0), [10, 0, 0]);
                // After 5 and 4.
                for unknown in [3, 4, 128, 65_535] {
                    assert_eq!(asked(&house, &spoilt, Ask { login: unknown, ..ask }, 0), [5, 0, 0]);
                }
                for len in [0, 3, 4, 11, 13, 16] {
                    assert_eq!(asked(&house, &vec![9; len], ask, 0), [4, 0, 0]);
                    assert_eq!(asked(&house, &vec![9; len], Ask { login: 3, ..ask }, 21), [4, 0, 0]);
                }
                // After 1, 2 and 3.
                for logins in [0, 129, usize::MAX] {
                    assert_eq!(asked(&Owned { logins, ..house.clone() }, &spoilt, ask, 0), [1, 0, 0]);
                }
                let lone = Owned { clients: vec![1, 2, 3, 9], ..house.clone() };
                assert_eq!(asked(&lone, &spoilt, ask, 0), [2, 3, 0]);
                let two = Owned { clients: vec![1, 2, 2, 0], ..house.clone() };
                assert_eq!(asked(&two, &spoilt, ask, 0), [3, 2, 1]);
            }
            let pairs = house.clone().paired(1, &[(1, 1)]);
            assert_eq!(asked(&pairs, &spoilt, ask, 0), [11, 0, 0]);
            assert_eq!(asked(&Owned { mode: 0, ..pairs }, &spoilt, ask, 0), [10, 0, 0]);
        }
    }
}

/// The bad entry at every place, the asking login at every other: the whole list is judged. The largest good number passes there.
#[test]
fn every_entry_is_judged() {
    for logins in [1, 2, 3, 7, 8, 9, 15, 16, 17, 31, 32, 33, 63, 64, 65, 127, 128] {
        let house = Owned::new(logins, &[(1, 1), (1, 2)]);
        let asked = |house: &Owned, login: usize| {
            let (mut matrix, mut log) = (vec![0; 2 * logins], [0; 8]);
            let ask = Ask { login: login as u16, folder: 0, kind: 1 };
            let reply = support::raw_request(&house.lend(), &mut matrix, ask, &mut log, 0, 0);
            let expected = reference::request(&house.lend(), &mut vec![0; 2 * logins], ask, &mut [0; 8], 0, 0);
            assert_eq!(reply.number, number(&expected));
            reply.number
        };
        for place in 0..logins {
            let with = |entry: usize| {
                let mut house = house.clone();
                house.persons[place] = entry as u16;
                house
            };
            for login in [0, logins / 2, logins - 1, place, (place + 1) % logins] {
                assert_eq!(asked(&with(logins - 1), login), 0, "{logins} logins, place {place}, login {login}");
                assert_eq!(asked(&with(0), login), 0);
                for entry in [logins, logins + 1, 255 + logins, 256, 256 + place, 32_768, 32_768 + place, 65_535] {
                    let number = if entry < logins { 0 } else { 10 };
                    assert_eq!(asked(&with(entry), login), number, "{entry} at {place} of {logins}, login {login}");
                }
            }
        }
    }
}

/// Every number there is as an entry, of the asking login and of another.
#[test]
fn every_number_as_an_entry() {
    for logins in [1, 2, 7, 8, 15, 16, 17, 32, 33, 64, 65, 100, 127, 128] {
        let mut house = Owned::new(logins, &[(1, 1)]);
        for entry in 0..=u16::MAX {
            house.persons[logins - 1] = entry;
            for login in [0, logins - 1] {
                let (mut matrix, mut log) = (vec![0; logins], [0; 8]);
                let ask = Ask { login: login as u16, folder: 0, kind: 1 };
                let reply = support::raw_request(&house.lend(), &mut matrix, ask, &mut log, 0, 0);
                let good = usize::from(entry) < logins;
                assert_eq!(reply.number, if good { 0 } else { 10 }, "entry {entry}, {logins} logins");
                let row = usize::from(house.persons[login]);
                assert!(matrix.iter().enumerate().all(|(at, &cell)| cell == u8::from(good && at == row)));
            }
        }
    }
}

/// The length must be P, neither less nor more, whatever the entries are.
#[test]
fn lengths() {
    let lengths = [
        0, 1, 2, 3, 7, 8, 9, 15, 16, 17, 31, 32, 33, 63, 64, 65, 126, 127, 128, 129, 130, 255, 256, 384, 512, 65_535,
        65_536, 65_537, 65_538, 65_664,
    ];
    let mut random = Random::new(107);
    let mut tally = Tally::default();
    for logins in [1, 2, 3, 7, 8, 15, 16, 17, 32, 33, 64, 65, 127, 128] {
        for len in lengths {
            for person in [0, logins - 1] {
                let house = Owned::new(logins, &[(1, 1), (1, 2)]).of_persons(&vec![person as u16; len]);
                let login = random.below(logins) as u16;
                let answer = Desk::blank(&mut random, house, 20).answer(login, 1, 1);
                assert_eq!(answer, (if len == logins { 0 } else { 10 }, 0), "{len} persons, {logins} logins");
                tally.add(answer.0);
            }
        }
    }
    tally.met(&[0, 10], 20);
}

/// Every list of up to four entries at the edges, in houses of one to three logins, for every login, folder and kind: library and
/// reference.
#[test]
fn every_small_list() {
    let mut random = Random::new(108);
    let mut tally = Tally::default();
    for logins in 1..=3 {
        for len in 0..=4 {
            for code in 0..5_usize.pow(len) {
                let entries = (0..len).map(|place| code / 5_usize.pow(place) % 5);
                let list: Vec<u16> = entries.map(|entry| [0, 1, 2, 3, 65_535][entry]).collect();
                let house = Owned::new(logins, &LABELS).of_persons(&list);
                for login in 0..=logins as u16 {
                    for (folder, kind) in (0..=4).flat_map(|folder| (0..=5).map(move |kind| (folder, kind))) {
                        let content = cells(&mut random, 4 * logins);
                        tally.add(Desk::new(&mut random, house.clone(), &content, 40).answer(login, folder, kind).0);
                    }
                }
            }
        }
    }
    tally.met(&[0, 5, 6, 7, 10, 20, 21, 22], 20);
}

/// 10 changes no byte and hands end and serial on as they came, whatever they are.
#[test]
fn ten_changes_nothing() {
    let mut random = Random::new(109);
    let mut tally = Tally::default();
    for _ in 0..40_000 {
        let (logins, folders) = (random.pick(&[1, 2, 3, 5, 128]), random.range(1, 8));
        let mut house = good(&mut random, logins, folders, 4);
        if random.once_in(2) {
            house.damage_persons(&mut random);
        }
        let content = cells(&mut random, logins * folders);
        let log_len = random.pick(&[0, 1, 40]);
        let bytes = random.bytes(log_len);
        let (matrix, log) = (Guarded::new(&mut random, &content), Guarded::new(&mut random, &bytes));
        let (end, serial) = (random.pick(&[0, 1, 40, 41, usize::MAX]), support::serial(&mut random));
        let ask = any_ask(&mut random, &house);
        let (mut left_matrix, mut left_log) = (matrix.clone(), log.clone());
        let reply = same_request(&house.lend(), &mut left_matrix, ask, &mut left_log, end, serial);
        tally.add(number(&reply));
        let bad = house.persons.len() != logins || house.persons.iter().any(|&person| usize::from(person) >= logins);
        if bad && usize::from(ask.login) < logins {
            assert_eq!(reply, Reply { answer: Err(Refusal::BadPersons), end, serial });
            assert!(left_matrix == matrix && left_log == log);
        } else {
            assert_ne!(number(&reply), 10);
        }
    }
    tally.met(&[0, 5, 6, 7, 9, 10, 20, 21, 22, 30], 20);
}

// ---------------------------------------------------------------- random houses

/// Random requests on random rows, in houses of all sizes, lists good and damaged: library and reference.
#[test]
fn random_requests() {
    let mut random = Random::new(110);
    let mut tally = Tally::default();
    for round in 0..120_000 {
        let (logins, folders) = match round % 200 {
            0 => (random.pick(&[127, 128]), random.pick(&[64, 65, 511, 512])),
            1..=20 => (random.pick(&[64, 100, 127, 128]), random.range(1, 12)),
            _ => (random.range(1, 9), random.range(1, 12)),
        };
        let clients = random.pick(&[2, 3, 5, 40]);
        let mut house = good(&mut random, logins, folders, clients);
        if random.once_in(6) {
            house.damage_persons(&mut random);
        }
        let mut content = cells(&mut random, logins * folders);
        if random.once_in(6) {
            let place = random.below(content.len());
            content[place] = random.pick(&[4, 5, 128, 255]);
        }
        let log_len = random.pick(&[0, 6, 7, 8, 40, 40, 40, 900]);
        let mut desk = Desk::new(&mut random, house, &content, log_len);
        desk.end = if random.once_in(20) { log_len + 1 } else { random.below(log_len / 2 + 1) };
        desk.serial = support::serial(&mut random);
        let Ask { login, folder, kind } = any_ask(&mut random, &desk.house);
        tally.add(desk.answer(login, folder, kind).0);
    }
    tally.met(&[0, 5, 6, 7, 8, 9, 10, 20, 21, 22, 30], 400);
}

/// Document 01's request, in which each login counts as one person: the register, 4 to 9, and the login's own row.
fn as_before(house: &House, matrix: &mut [u8], ask: Ask, log: &mut [u8], end: usize, serial: u16) -> Reply {
    let folders = house.classes.len();
    let mut decided = || {
        reference::check(house)?;
        if matrix.len() != house.logins * folders {
            return Err(Refusal::MatrixLength);
        }
        let row = matrix.chunks_mut(folders).nth(ask.login.into()).ok_or(Refusal::Login)?;
        match row.iter().position(|&cell| cell > 3) {
            _ if usize::from(ask.folder) >= folders => Err(Refusal::Folder),
            _ if !(1..=4).contains(&ask.kind) => Err(Refusal::Kind),
            Some(folder) => Err(Refusal::Cell(folder)),
            None if end > log.len() => Err(Refusal::LogEnd),
            None => reference::decide::<Plain>(house, row, ask, log, end, serial),
        }
    };
    match decided() {
        Ok((answer, end)) => Reply { answer, end, serial: reference::next(serial) },
        Err(unlogged) => Reply { answer: Err(unlogged), end, serial },
    }
}

/// With each login its own person everything is as it was before: on random houses, good and damaged, and random rows.
#[test]
fn each_login_its_own_person() {
    let mut random = Random::new(111);
    let mut tally = Tally::default();
    for round in 0..60_000 {
        let (logins, folders) = match round % 200 {
            0 => (random.pick(&[127, 128]), random.pick(&[64, 512])),
            _ => (random.range(1, 9), random.range(1, 12)),
        };
        let mut house = Owned::good(&mut random, logins, folders, 4);
        if random.once_in(2) {
            house = house.with_pairs(&mut random);
        }
        if random.once_in(10) {
            house.damage(&mut random);
        }
        let len = if random.once_in(20) { random.below(logins * folders + 2) } else { logins * folders };
        let mut content = cells(&mut random, len);
        if random.once_in(6) && len > 0 {
            content[random.below(len)] = random.pick(&[4, 255]);
        }
        let log_len = random.pick(&[0, 6, 7, 8, 40, 40, 900]);
        let (mut matrix, mut log) = (Guarded::new(&mut random, &content), Guarded::new(&mut random, &vec![0; log_len]));
        let end = if random.once_in(20) { log_len + 1 } else { random.below(log_len / 2 + 1) };
        let (ask, serial) = (any_ask(&mut random, &Owned { logins, ..house.clone() }), support::serial(&mut random));
        let (mut old_matrix, mut old_log) = (matrix.clone(), log.clone());
        let old = as_before(&house.lend(), old_matrix.inner_mut(), ask, old_log.inner_mut(), end, serial);
        let reply = same_request(&house.lend(), &mut matrix, ask, &mut log, end, serial);
        assert_eq!(reply, old, "{house:?}, {ask:?}");
        assert!(matrix == old_matrix && log == old_log);
        tally.add(number(&reply));
    }
    tally.met(&[0, 1, 2, 3, 4, 5, 6, 7, 8, 9, 11, 20, 21, 22, 30], 100);
}

/// Persons' numbers are mere names: if they are dealt out otherwise, and the rows with them, every answer and record is the same.
#[test]
fn numbers_of_persons_are_names() {
    let mut random = Random::new(112);
    let mut tally = Tally::default();
    for _ in 0..300 {
        let (logins, folders) = (random.range(1, 9), random.range(1, 25));
        let house = good(&mut random, logins, folders, 5);
        let mut names: Vec<u16> = (0..logins as u16).collect();
        for at in (1..logins).rev() {
            names.swap(at, random.below(at + 1));
        }
        let renamed: Vec<u16> = house.persons.iter().map(|&person| names[usize::from(person)]).collect();
        let rows = |matrix: &[u8]| -> Vec<u8> {
            let mut moved = vec![0; matrix.len()];
            for (row, &name) in matrix.chunks(folders).zip(&names) {
                moved[usize::from(name) * folders..][..folders].copy_from_slice(row);
            }
            moved
        };
        let content = if random.once_in(2) { cells(&mut random, logins * folders) } else { vec![0; logins * folders] };
        let mut one = Desk::new(&mut random, house.clone(), &content, 3_000);
        let mut other = Desk::new(&mut random, house.of_persons(&renamed), &rows(&content), 3_000);
        for _ in 0..80 {
            let Ask { login, folder, kind } = any_ask(&mut random, &one.house);
            let reply = one.ask(login, folder, kind);
            assert_eq!(reply, other.ask(login, folder, kind));
            tally.add(number(&reply));
        }
        assert_eq!(rows(one.matrix.inner()), other.matrix.inner());
        assert_eq!(one.written(), other.written());
    }
    tally.met(&[0, 5, 6, 7, 20, 21, 22], 50);
}

/// A person's logins are one to the wall: whichever of them asks, answers and rights are the same, and the records differ in the login alone.
#[test]
fn logins_of_a_person_are_alike() {
    let mut random = Random::new(113);
    let mut tally = Tally::default();
    for _ in 0..300 {
        let (logins, folders) = (random.range(2, 9), random.range(1, 25));
        let house = good(&mut random, logins, folders, 5);
        let persons = house.persons.clone();
        let mut one = Desk::blank(&mut random, house.clone(), 3_000);
        let mut other = Desk::blank(&mut random, house, 3_000);
        let mut asked = Vec::new();
        for _ in 0..80 {
            let Ask { login, folder, kind } = any_ask(&mut random, &one.house);
            let same =
                (0..logins as u16).filter(|&it| persons.get(usize::from(login)) == Some(&persons[usize::from(it)]));
            let same: Vec<u16> = same.collect();
            let instead = if same.is_empty() { login } else { random.pick(&same) };
            let reply = one.ask(login, folder, kind);
            assert_eq!(reply, other.ask(instead, folder, kind));
            tally.add(number(&reply));
            if reply.serial as usize > asked.len() {
                asked.push((login, instead));
            }
        }
        assert_eq!(one.matrix.inner(), other.matrix.inner());
        let [these, those] =
            [one.written(), other.written()].map(|log| housechervil::Records::new(log).map(Result::unwrap));
        for ((one, other), (login, instead)) in these.zip(those).zip(asked) {
            assert_eq!((one.login().0, other.login().0), (login, instead));
            assert_eq!((one.serial(), one.folder(), one.kind()), (other.serial(), other.folder(), other.kind()));
            assert!(one.verdict() == other.verdict() && one.listed().eq(other.listed()));
        }
    }
    tally.met(&[0, 5, 6, 7, 20, 21, 22], 50);
}

// ---------------------------------------------------------------- the wall

/// Whether two clients are in conflict, from the bare notion.
fn in_conflict(house: &Owned, one: u16, other: u16) -> bool {
    let class = |client: u16| house.clients.iter().position(|&it| it == client).map(|folder| house.classes[folder]);
    let named = |(a, b): (u16, u16)| (a, b) == (one, other) || (b, a) == (one, other);
    match house.mode {
        0 => one != other && one != 0 && other != 0 && class(one) == class(other),
        _ => reference::pairs(&house.lend()).any(named),
    }
}

/// Who holds what, as document 01 has it and document 02 reads it: what a person holds is fed by all that person's logins. Rights stand as
/// answers and records told, and not as the matrix has them.
struct Held {
    house: Owned,
    /// Each login's head, who reads and writes through it.
    heads: Vec<u16>,
    rights: Vec<u8>,
    by_head: Vec<BTreeSet<u16>>,
    by_folder: Vec<BTreeSet<u16>>,
}

impl Held {
    fn at_first(house: &Owned, heads: &[u16]) -> Held {
        let own = |&client: &u16| if client == 0 { BTreeSet::new() } else { BTreeSet::from([client]) };
        Held {
            house: house.clone(),
            heads: heads.to_vec(),
            rights: vec![0; house.logins * house.folders()],
            by_head: vec![BTreeSet::new(); house.logins],
            by_folder: house.clients.iter().map(own).collect(),
        }
    }

    /// The right of a login on a folder, in the row of the person whom the house has for the login.
    fn right(&mut self, login: u16, folder: u16) -> &mut u8 {
        let person = usize::from(self.house.persons[usize::from(login)]);
        &mut self.rights[person * self.house.folders() + usize::from(folder)]
    }

    fn granted(&mut self, ask: Ask, lost: impl Iterator<Item = u16>) {
        for folder in lost {
            *self.right(ask.login, folder) &= 1;
        }
        *self.right(ask.login, ask.folder) |= [1, 1, 2, 3][usize::from(ask.kind) - 1];
    }

    fn used(&mut self, login: u16, folder: u16, writes: bool) {
        let stands = *self.right(login, folder) & if writes { 2 } else { 1 } != 0;
        let head = &mut self.by_head[usize::from(self.heads[usize::from(login)])];
        let folder = &mut self.by_folder[usize::from(folder)];
        match stands {
            true if writes => folder.extend(&*head),
            true => head.extend(&*folder),
            false => {}
        }
    }

    /// A head holds two clients in conflict, or a folder holds a client not its own.
    fn broken(&self) -> bool {
        let two = |held: &BTreeSet<u16>| held.iter().any(|&a| held.iter().any(|&b| in_conflict(&self.house, a, b)));
        let strayed = |(held, own): (&BTreeSet<u16>, &u16)| held.iter().any(|client| client != own);
        self.by_head.iter().any(two) || self.by_folder.iter().zip(&self.house.clients).any(strayed)
    }
}

/// A random history from a blank matrix: requests, readings and writings of the house's logins, each used by one of these heads. Whether
/// the wall was broken for them; the matrix shows just the rights that stand, all along.
fn history(random: &mut Random, house: &Owned, heads: &[u16], tally: &mut Tally) -> bool {
    let mut held = Held::at_first(house, heads);
    let (mut matrix, mut log) = (held.rights.clone(), vec![0; 20_000]);
    let (mut end, mut serial) = (0, 0);
    for _ in 0..300 {
        let ask = Ask {
            login: random.below(house.logins) as u16,
            folder: random.below(house.folders()) as u16,
            kind: random.range(1, 4) as u16,
        };
        if random.once_in(2) {
            held.used(ask.login, ask.folder, random.once_in(2));
            continue;
        }
        let reply = support::raw_request(&house.lend(), &mut matrix, ask, &mut log, end, serial);
        tally.add(reply.number);
        if reply.number == 0 {
            let record = reference::step(&log[..reply.end], end).unwrap().unwrap();
            held.granted(ask, reference::listed(&log, &record).into_iter());
        }
        (end, serial) = (reply.end, reply.serial);
        assert_eq!(matrix, held.rights);
    }
    // Everything that may still be used is used, some times over.
    for _ in 0..3 {
        for (login, folder) in
            (0..house.logins).flat_map(|login| (0..house.folders()).map(move |folder| (login, folder)))
        {
            held.used(login as u16, folder as u16, false);
            held.used(login as u16, folder as u16, true);
        }
    }
    held.broken()
}

/// The wall itself, over random histories in both modes: no person, through all logins together, comes to hold two clients in conflict, and
/// no folder a client not its own. Where each login counts as a person, the same heads break it.
#[test]
fn the_wall_is_not_broken() {
    let mut random = Random::new(114);
    let (mut tally, mut idle) = (Tally::default(), Tally::default());
    let mut broken = [0; 2];
    for round in 0..600 {
        let (logins, folders) = (random.range(2, 6), random.range(2, 14));
        let house = Owned::good(&mut random, logins, folders, 6).with_persons(&mut random);
        let house = if round % 2 == 0 { house } else { house.with_pairs(&mut random) };
        let heads = house.persons.clone();
        assert!(!history(&mut random, &house, &heads, &mut tally), "{house:?}");
        let each: Vec<u16> = (0..logins as u16).collect();
        broken[round % 2] += usize::from(history(&mut random, &house.of_persons(&each), &heads, &mut idle));
    }
    tally.met(&[0, 20, 21, 22], 500);
    assert!(broken.iter().all(|&times| times > 50), "the incident came only {broken:?} times");
}

/// After a history no person may read two folders of clients in conflict, all the person's logins together; seen in the matrix, and in what
/// the log says was granted to those logins.
#[test]
fn no_person_reads_two_rivals() {
    let mut random = Random::new(115);
    let mut tally = Tally::default();
    for round in 0..400 {
        let (logins, folders) = if round % 50 == 0 { (128, 512) } else { (random.range(1, 8), random.range(2, 25)) };
        let house = Owned::good(&mut random, logins, folders, 8).with_persons(&mut random);
        let house = if round % 2 == 0 { house } else { house.with_pairs(&mut random) };
        let mut desk = Desk::blank(&mut random, house, 40_000);
        for _ in 0..if folders == 512 { 600 } else { 150 } {
            let Ask { login, folder, kind } = any_ask(&mut random, &desk.house);
            tally.add(desk.answer(login, folder, kind).0);
        }
        let mut read = vec![BTreeSet::new(); logins];
        for record in housechervil::Records::new(desk.written()).map(Result::unwrap) {
            if record.verdict().number() == 0 && record.kind().number() != 3 {
                let person = desk.house.persons[usize::from(record.login())];
                read[usize::from(person)].insert(usize::from(record.folder()));
            }
        }
        for (row, read) in desk.matrix.inner().chunks(folders).zip(&read) {
            assert!((0..folders).all(|folder| (row[folder] & 1 != 0) == read.contains(&folder)));
            let clients: BTreeSet<u16> = read.iter().map(|&folder| desk.house.clients[folder]).collect();
            for &one in &clients {
                assert!(clients.iter().all(|&other| !in_conflict(&desk.house, one, other)));
                let written = (0..folders).filter(|&folder| row[folder] & 2 != 0);
                assert!(one == 0 || written.into_iter().all(|folder| desk.house.clients[folder] == one));
            }
        }
    }
    tally.met(&[0, 5, 6, 7, 20, 21, 22], 100);
}

//! Document 01's own examples: the table L0 to L11 with its end row, L3's bytes, 'More edges', and the readings that tempt.

mod reference;
mod support;

use housechervil::{ClassNo, ClientNo, FolderNo, Kind, LoginNo, Room, Verdict};
use reference::Ask;
use support::{same_check, same_request, Guarded, Owned, Random};

const LABELS: [(u16, u16); 5] = [(0, 0), (1, 1), (1, 2), (2, 3), (1, 1)];

/// Letter, login and folder of each request, and what the desk prints for it.
const TABLE: [(char, u16, u16, &str); 13] = [
    ('W', 0, 1, "0 0"),
    ('W', 0, 3, "1 0"),
    ('C', 0, 1, "2 22 3"),
    ('R', 0, 1, "3 0 3"),
    ('R', 0, 2, "4 20 1"),
    ('R', 0, 0, "5 0"),
    ('W', 0, 4, "6 0"),
    ('R', 0, 3, "7 0 1 4"),
    ('W', 0, 4, "8 21 3"),
    ('B', 1, 2, "9 0"),
    ('W', 1, 0, "10 21 2"),
    ('R', 1, 4, "11 20 2"),
    ('R', 2, 0, "- 5"),
];

fn kind(letter: char) -> Kind {
    match letter {
        'R' => Kind::Read,
        'C' => Kind::CarefulRead,
        'W' => Kind::Write,
        'B' => Kind::ReadAndWrite,
        _ => unreachable!(),
    }
}

/// The whole table, on lent buffers: library and reference.
#[test]
fn table_on_lent_buffers() {
    let mut random = Random::new(50);
    let house = Owned::new(2, &LABELS);
    let mut matrix = Guarded::new(&mut random, &[0; 10]);
    let mut log = Guarded::new(&mut random, &[0xee; 200]);
    let (mut end, mut serial) = (0, 0);
    for (letter, login, folder, prints) in TABLE {
        let ask = Ask { login, folder, kind: kind(letter).number() };
        let reply = same_request(&house.lend(), &mut matrix, ask, &mut log, end, serial);
        let number = reply.answer.map_or_else(|refusal| refusal.numbers()[0], |_| 0);
        let printed = if reply.end == end {
            format!("- {number}")
        } else {
            let written = &log.inner()[..reply.end];
            let record = reference::step(written, end).unwrap().unwrap();
            let list: String = reference::listed(written, &record).iter().map(|folder| format!(" {folder}")).collect();
            format!("{serial} {number}{list}")
        };
        assert_eq!(printed, prints, "{letter} {login} {folder}");
        if serial == 3 && letter == 'R' {
            assert_eq!(log.inner()[end..reply.end], [3, 0, 1, 1, 0, 1, 3]);
        }
        (end, serial) = (reply.end, reply.serial);
    }
    assert_eq!(matrix.inner(), [1, 1, 0, 1, 0, 0, 0, 3, 0, 0]);
    assert!(log.inner()[end..].iter().all(|&byte| byte == 0xee));
    assert_eq!(support::same_log_check(&log.inner()[..end]), Ok(12));
}

/// The whole table again, in a room.
#[test]
fn table_in_a_room() {
    let labels = LABELS.map(|(class, client)| (ClassNo(class), ClientNo(client)));
    let mut room = Room::builder(2, &labels).open().unwrap();
    for (letter, login, folder, prints) in TABLE {
        let serial = room.next_serial();
        let answer = room.ask(LoginNo(login), FolderNo(folder), kind(letter));
        let number = answer.map_or_else(|refusal| refusal.number(), |granted| granted.number());
        let printed = if room.next_serial() == serial {
            format!("- {number}")
        } else {
            let record = room.last_record().unwrap();
            assert_eq!((record.serial(), record.verdict().number()), (serial, number));
            let list: String = record.listed().map(|folder| format!(" {folder}")).collect();
            format!("{serial} {number}{list}")
        };
        assert_eq!(printed, prints, "{letter} {login} {folder}");
    }
    let record = room.records().nth(3).unwrap().unwrap();
    assert_eq!(room.log()[record.start()..record.end()], [3, 0, 1, 1, 0, 1, 3]);
    assert_eq!(room.records().filter(|record| record.unwrap().verdict() == Verdict::Granted).count(), 7);
}

fn number(house: &Owned, matrix: &[u8], ask: Ask, room: usize) -> [u16; 3] {
    let mut random = Random::new(51);
    let mut matrix = Guarded::new(&mut random, matrix);
    let mut log = Guarded::new(&mut random, &vec![0; room]);
    same_request(&house.lend(), &mut matrix, ask, &mut log, 0, 3)
        .answer
        .map_or_else(|refusal| refusal.numbers(), |_| [0; 3])
}

/// Login 127 of 128 is served, 128 is 5; 512 folders pass, 513 is 1; a record of 7 bytes fits in 7 bytes of room and is 30 in 6;
/// labels (1,4) then (2,4) give 3 with folders 1 and 0.
#[test]
fn more_edges() {
    let house = Owned::new(128, &[(1, 1); 512]);
    let matrix = vec![0; 65_536];
    assert_eq!(number(&house, &matrix, Ask { login: 127, folder: 511, kind: 1 }, 100), [0; 3]);
    assert_eq!(number(&house, &matrix, Ask { login: 128, folder: 511, kind: 1 }, 100), [5, 0, 0]);
    assert_eq!(number(&house, &matrix, Ask { login: 127, folder: 512, kind: 1 }, 100), [6, 0, 0]);
    assert_eq!(same_check(&house.lend()), Ok(()));
    assert_eq!(same_check(&Owned::new(128, &[(1, 1); 513]).lend()).unwrap_err().numbers(), [1, 0, 0]);

    let house = Owned::new(2, &LABELS);
    let before_l3 = [0, 2, 0, 2, 0, 0, 0, 0, 0, 0];
    assert_eq!(number(&house, &before_l3, Ask { login: 0, folder: 1, kind: 1 }, 7), [0; 3]);
    assert_eq!(number(&house, &before_l3, Ask { login: 0, folder: 1, kind: 1 }, 6), [30, 0, 0]);

    assert_eq!(same_check(&Owned::new(1, &[(1, 4), (2, 4)]).lend()).unwrap_err().numbers(), [3, 1, 0]);
}

/// Rows that could not have come from a blank matrix: the rules are applied to them as they stand.
#[test]
fn rows_as_they_stand() {
    let house = Owned::new(1, &LABELS);
    let ask = |folder, kind| Ask { login: 0, folder, kind };
    // Two rivals may both be read already: each stands in the other's way, and the folder itself in nobody's.
    assert_eq!(number(&house, &[0, 1, 1, 0, 0], ask(1, 1), 50), [20, 2, 0]);
    assert_eq!(number(&house, &[0, 1, 1, 0, 0], ask(2, 1), 50), [20, 1, 0]);
    // A rival speaks before a smaller foreign folder.
    assert_eq!(number(&Owned::new(1, &[(2, 3), (1, 1), (1, 2)]), &[1, 1, 0], ask(2, 3), 50), [20, 1, 0]);
    // A rival speaks before what is at stake.
    assert_eq!(number(&house, &[2, 1, 0, 0, 0], ask(2, 2), 50), [20, 1, 0]);
    // A sanitised folder puts nothing at stake, is foreign to none and rival to none.
    assert_eq!(number(&house, &[0, 3, 3, 3, 3], ask(0, 2), 50), [0, 0, 0]);
    assert_eq!(number(&house, &[3, 0, 0, 0, 0], ask(1, 3), 50), [0, 0, 0]);
    // A sanitised folder at stake loses its write right like any other.
    assert_eq!(number(&house, &[3, 0, 0, 0, 0], ask(1, 2), 50), [22, 0, 0]);
}

//! A room whose log is taken out, and one that is taken apart and made again of its parts: held against a room that is left alone,
//! and, where the parts were damaged, against the reference's judgement of them.

mod reference;
mod support;

use std::error::Error;

use housechervil::{
    check_log, ClassNo, ClientNo, Conflicts, FolderNo, Granted, Kind, LogFault, LoginNo, Pairs, Parts, PersonNo,
    Refusal, RegisterError, ResumeError, Rights, Room, Serial, MAX_RECORD,
};
use support::{conflicts, Owned, Random, Tally};

fn new_room(house: &Owned, log_len: usize, first: Serial) -> Room {
    let labels: Vec<_> =
        house.classes.iter().zip(&house.clients).map(|(&class, &client)| (ClassNo(class), ClientNo(client))).collect();
    Room::builder(house.logins, &labels)
        .conflicts(conflicts(&house.lend()).unwrap())
        .persons(PersonNo::from_slice(&house.persons))
        .log_len(log_len)
        .first_serial(first)
        .open()
        .unwrap()
}

/// A good register, by class or by pair, with a good person list.
fn good(random: &mut Random, logins: usize, folders: usize, clients: usize) -> Owned {
    let house = Owned::good(random, logins, folders, clients).with_persons(random);
    match random.below(2) {
        0 => house,
        _ => house.with_pairs(random),
    }
}

/// A request for anything, mostly in range.
fn ask(random: &mut Random, house: &Owned) -> (LoginNo, FolderNo, Kind) {
    let (beyond, past) = (usize::from(random.once_in(20)), usize::from(random.once_in(20)));
    let login = random.below(house.logins + beyond);
    let folder = random.below(house.folders() + past);
    (LoginNo(login as u16), FolderNo(folder as u16), random.pick(&Kind::ALL))
}

/// Takes the log out, and sees that only the log is gone.
fn take_log(room: &mut Room) -> Vec<u8> {
    let (before, all) = (room.clone(), room.log().len() + room.log_left());
    let taken = room.take_log();
    assert_eq!(taken, before.log());
    assert_eq!((room.log(), room.log_left()), (&[][..], all));
    assert!(room.records().next().is_none() && room.last_record().is_none());
    assert_eq!((room.matrix(), room.next_serial()), (before.matrix(), before.next_serial()));
    assert_eq!((room.register(), room.persons()), (before.register(), before.persons()));
    taken
}

/// Takes the room apart and makes it again: it is the same room.
fn again(room: Room) -> Room {
    let parts = room.clone().into_parts();
    let resumed = Room::resume(parts.clone()).unwrap();
    assert_eq!(resumed.clone().into_parts(), parts);
    assert_eq!((resumed.log(), resumed.log_left()), (room.log(), room.log_left()));
    assert_eq!(resumed.last_record(), room.last_record());
    assert_eq!(resumed.last_record().map(|record| record.start()), room.last_record().map(|record| record.start()));
    resumed
}

/// Two rooms are asked the same: one with a log that is long enough, one whose log is taken out when it is full, and at other times,
/// and which is taken apart now and then. They answer the same, and what was taken out is the other's log.
#[test]
fn an_interrupted_room_goes_on() {
    let mut random = Random::new(80);
    let mut tally = Tally::default();
    let mut full = 0;
    for round in 0..60 {
        // The longest record of 30 folders has 37 bytes: serial 3, login, folder, kind, answer and count, and 29 other folders.
        let (logins, folders, log_len) = match round {
            0 => (128, 512, MAX_RECORD),
            _ => (random.range(1, 6), random.range(1, 30), random.pick(&[37, 38, 60, 500])),
        };
        let clients = random.pick(&[2, 5, 20]);
        let house = good(&mut random, logins, folders, clients);
        let first = Serial(random.pick(&[0, 100, 16_300, 65_300, 65_535]));
        let mut steady = new_room(&house, 300 * MAX_RECORD, first);
        let mut other = new_room(&house, log_len, first);
        let mut kept = Vec::new();
        for _ in 0..300 {
            match random.below(40) {
                0 => kept.extend(take_log(&mut other)),
                1 | 2 => other = again(other),
                _ => (),
            }
            let (login, folder, kind) = ask(&mut random, &house);
            let expected = steady.ask(login, folder, kind);
            let mut answer = other.ask(login, folder, kind);
            if answer == Err(Refusal::LogFull) {
                full += 1;
                kept.extend(take_log(&mut other));
                answer = other.ask(login, folder, kind);
            }
            assert_eq!(answer, expected);
            assert_eq!((other.matrix(), other.next_serial()), (steady.matrix(), steady.next_serial()));
            if answer.map_or_else(Refusal::is_logged, |_| true) {
                assert_eq!(other.last_record(), steady.last_record());
            }
            tally.add(answer.map_or_else(Refusal::number, Granted::number));
        }
        kept.extend(other.take_log());
        assert_eq!(kept, steady.log());
        assert_eq!(check_log(&kept), Ok(steady.records().count()));
    }
    tally.met(&[0, 5, 6, 20, 21, 22], 50);
    assert!(full > 1_000, "the log was full only {full} times");
}

/// What `resume` must answer: by the reference, and by the serial after the last record's.
fn judged(parts: &Parts) -> Result<(), ResumeError> {
    let house = owned(parts);
    let folders = house.folders();
    let folder = |folder: usize| FolderNo(folder as u16);
    reference::check(&house.lend()).map_err(|refusal| match refusal {
        reference::Refusal::Sizes => RegisterError::Sizes,
        reference::Refusal::LoneZero(at) => RegisterError::LoneZero { folder: folder(at) },
        reference::Refusal::TwoClasses(at, earlier) => {
            RegisterError::TwoClasses { folder: folder(at), earlier: folder(earlier) }
        }
        reference::Refusal::BadPairs => RegisterError::BadPairs,
        other => panic!("{other:?} is no answer of the register check"),
    })?;
    if parts.matrix.len() != parts.logins * folders {
        return Err(ResumeError::MatrixLength);
    }
    if reference::bad_persons(&house.lend()) {
        return Err(ResumeError::BadPersons);
    }
    for (person, row) in parts.matrix.chunks(folders).enumerate() {
        if let Some(at) = row.iter().position(|&cell| cell > 3) {
            return Err(ResumeError::Cell { person: PersonNo(person as u16), folder: folder(at) });
        }
    }
    if parts.log.len() > parts.log_len {
        return Err(ResumeError::LogEnd);
    }
    reference::check_log(&parts.log).map_err(|reference::Fault { number, place }| match number {
        51 => LogFault::CutShort { place },
        52 => LogFault::Form { place },
        53 => LogFault::Range { place },
        54 => LogFault::List { place },
        55 => LogFault::Serial { place },
        other => panic!("{other} is no answer of the whole-log check"),
    })?;
    let (mut place, mut expected) = (0, parts.serial);
    while let Some(record) = reference::step(&parts.log, place).unwrap() {
        (place, expected) = (record.end, Serial(reference::next(record.serial)));
    }
    if expected == parts.serial {
        Ok(())
    } else {
        Err(ResumeError::NextSerial { expected })
    }
}

/// The house of parts.
fn owned(parts: &Parts) -> Owned {
    let house = Owned {
        logins: parts.logins,
        persons: parts.persons.iter().map(|person| person.0).collect(),
        classes: parts.classes.iter().map(|class| class.0).collect(),
        clients: parts.clients.iter().map(|client| client.0).collect(),
        ..Owned::new(0, &[])
    };
    match &parts.conflicts {
        Conflicts::ByClass => house,
        Conflicts::ByPair(pairs) => {
            house.paired(1, &pairs.iter().map(|(first, second)| (first.0, second.0)).collect::<Vec<_>>())
        }
    }
}

/// Damages the register of parts as a register is damaged elsewhere. Pairs of unequal number are none that parts can have.
fn damage_register(random: &mut Random, parts: &mut Parts) {
    let mut house = owned(parts);
    house.damage(random);
    if let Some(damaged) = conflicts(&house.lend()) {
        parts.conflicts = damaged;
    }
    parts.logins = house.logins;
    parts.classes = house.classes.into_iter().map(ClassNo).collect();
    parts.clients = house.clients.into_iter().map(ClientNo).collect();
}

/// Damages the person list of parts as it is damaged elsewhere.
fn damage_persons(random: &mut Random, parts: &mut Parts) {
    let mut house = owned(parts);
    house.damage_persons(random);
    parts.persons = PersonNo::from_slice(&house.persons).to_vec();
}

/// Damages parts in one way; some of them happen to do no harm.
fn damage(random: &mut Random, parts: &mut Parts) {
    match random.below(10) {
        0 => damage_register(random, parts),
        9 => damage_persons(random, parts),
        1 => drop(parts.matrix.pop()),
        2 => parts.matrix.push(0),
        3 => {
            let place = random.below(parts.matrix.len().max(1));
            let cell = random.pick(&[0, 3, 4, 128, 255]);
            parts.matrix.iter_mut().skip(place).take(1).for_each(|at| *at = cell);
        }
        4 => parts.log_len = random.pick(&[parts.log.len(), parts.log.len().saturating_sub(1), 0]),
        5 | 6 => {
            let place = random.below(parts.log.len().max(1));
            let byte = if random.once_in(2) { random.byte() } else { random.below(24) as u8 };
            parts.log.iter_mut().skip(place).take(1).for_each(|at| *at = byte);
        }
        7 => parts.log.truncate(random.below(parts.log.len() + 1)),
        _ => {
            let any = Serial(random.u16());
            parts.serial = random.pick(&[parts.serial.next(), any]);
        }
    }
}

/// What a room promises holds in one that was made of parts.
fn keeps_its_promises(random: &mut Random, mut room: Room, house: &Owned) {
    for _ in 0..5 {
        let (login, folder, kind) = ask(random, house);
        let number = room.ask(login, folder, kind).map_or_else(Refusal::number, Granted::number);
        assert!([0, 5, 6, 20, 21, 22, 30].contains(&number), "{number}");
        assert_eq!(room.rights(login, folder).is_none(), number == 5 || number == 6);
    }
    let records = room.records().map(Result::unwrap).count();
    assert_eq!(check_log(room.log()), Ok(records));
    assert_eq!(room.last_record(), room.records().map(Result::unwrap).last());
}

#[test]
fn damaged_parts() {
    let mut random = Random::new(81);
    let mut tally = Tally::default();
    for _ in 0..30_000 {
        let (logins, folders) = (random.range(1, 4), random.range(1, 9));
        let clients = random.pick(&[2, 3, 5]);
        let house = good(&mut random, logins, folders, clients);
        let first = Serial(support::serial(&mut random));
        let mut room = new_room(&house, 400, first);
        for _ in 0..random.below(12) {
            let (login, folder, kind) = ask(&mut random, &house);
            room.ask(login, folder, kind).ok();
        }
        let mut parts = room.into_parts();
        for _ in 0..random.below(3) {
            damage(&mut random, &mut parts);
        }
        let expected = judged(&parts);
        let house = Owned { logins: parts.logins, ..house };
        match Room::resume(parts.clone()) {
            Ok(room) => {
                assert_eq!(Ok(()), expected, "{parts:?}");
                tally.add(0);
                keeps_its_promises(&mut random, room, &house);
            }
            Err(error) => {
                assert_eq!(Err(error), expected, "{parts:?}");
                tally.add(error.number());
            }
        }
    }
    tally.met(&[0, 1, 2, 3, 4, 8, 9, 10, 11, 51, 52, 53, 54, 55], 50);
}

/// Parts by hand, as they might come from a file: a read right, its record, and a log with room for one more.
fn parts() -> Parts {
    Parts {
        logins: 2,
        classes: vec![ClassNo(1), ClassNo(1)],
        clients: vec![ClientNo(1), ClientNo(2)],
        conflicts: Conflicts::ByClass,
        persons: vec![PersonNo(0), PersonNo(1)],
        matrix: vec![0, 0, 1, 0],
        log: vec![127, 1, 0, 1, 0, 0],
        log_len: 14,
        serial: Serial(128),
    }
}

#[test]
fn parts_by_hand() {
    let mut room = Room::resume(parts()).unwrap();
    assert_eq!(room.last_record().unwrap().to_string(), "127: login 1, read, folder 0: granted");
    assert_eq!(room.rights(LoginNo(1), FolderNo(0)), Some(Rights { read: true, write: false }));
    assert_eq!(room.ask(LoginNo(1), FolderNo(1), Kind::Read), Err(Refusal::Rival { folder: FolderNo(0) }));
    assert_eq!(room.log(), [127, 1, 0, 1, 0, 0, 128, 1, 1, 1, 1, 20, 1, 0]);
    assert_eq!(room.ask(LoginNo(0), FolderNo(1), Kind::Read), Err(Refusal::LogFull));
    assert_eq!(room.take_log().len(), 14);
    assert_eq!(room.ask(LoginNo(0), FolderNo(1), Kind::Read), Ok(Granted { taken_back: 0 }));
    assert_eq!(room.into_parts().serial, Serial(130));
}

/// The same parts by pairs: the mode is kept, and the pairs alone decide.
#[test]
fn parts_by_pairs() {
    let by = |pairs: Pairs| Parts { conflicts: Conflicts::ByPair(pairs), ..parts() };
    let asked = |parts: Parts| {
        let mut room = Room::resume(parts.clone()).unwrap();
        assert_eq!(room.register().conflicts, &parts.conflicts);
        let answer = room.ask(LoginNo(1), FolderNo(1), Kind::Read);
        assert_eq!(room.into_parts().conflicts, parts.conflicts);
        answer
    };
    assert_eq!(asked(by(Pairs::default())), Ok(Granted { taken_back: 0 }));
    assert_eq!(asked(by([(ClientNo(2), ClientNo(3))].into())), Ok(Granted { taken_back: 0 }));
    let rival = Err(Refusal::Rival { folder: FolderNo(0) });
    assert_eq!(asked(by([(ClientNo(1), ClientNo(2))].into())), rival);
    assert_eq!(asked(by([(ClientNo(2), ClientNo(1))].into())), rival);
    let classes = vec![ClassNo(1), ClassNo(2)];
    assert_eq!(asked(Parts { classes, ..by([(ClientNo(2), ClientNo(1))].into()) }), rival);
}

/// The same parts with other persons: the list is kept, and the row of the login's person alone decides.
#[test]
fn parts_with_persons() {
    let asked = |persons: [u16; 2], login: u16| {
        let parts = Parts { persons: persons.map(PersonNo).into(), ..parts() };
        let mut room = Room::resume(parts.clone()).unwrap();
        assert_eq!(room.persons(), parts.persons);
        let answer = room.ask(LoginNo(login), FolderNo(1), Kind::Read);
        assert_eq!(room.into_parts().persons, parts.persons);
        answer.map_err(Refusal::number)
    };
    let granted = Ok(Granted { taken_back: 0 });
    assert_eq!([[0, 1], [1, 1], [1, 0], [0, 0]].map(|persons| asked(persons, 0)), [granted, Err(20), Err(20), granted]);
    assert_eq!([[0, 1], [1, 1], [1, 0], [0, 0]].map(|persons| asked(persons, 1)), [Err(20), Err(20), granted, granted]);
}

/// An empty log goes on with any serial, and a log may be as long as it can be.
#[test]
fn logs_at_their_bounds() {
    let empty = Parts { log: vec![], serial: Serial(9), ..parts() };
    assert_eq!(Room::resume(empty).unwrap().next_serial(), Serial(9));
    let nothing = Parts { log: vec![], log_len: 0, ..parts() };
    assert_eq!(Room::resume(nothing).unwrap().log_left(), 0);
    let filled = Room::resume(Parts { log_len: 6, ..parts() }).unwrap();
    assert_eq!((filled.log().len(), filled.log_left()), (6, 0));
    let last = Parts { log: vec![255, 255, 3, 1, 0, 1, 0, 0], serial: Serial(0), ..parts() };
    assert_eq!(Room::resume(last).unwrap().next_serial(), Serial(0));
}

/// Each fault, with its number and its words; the first speaks.
#[test]
fn each_fault() {
    let fault = |parts: Parts| {
        let error = Room::resume(parts).unwrap_err();
        (error, error.number(), error.to_string())
    };
    let case = |parts: Parts, error: ResumeError, number: u16, words: &str| {
        assert_eq!(fault(parts), (error, number, words.to_string()));
    };
    let sizes = RegisterError::Sizes;
    case(Parts { logins: 0, matrix: vec![9], ..parts() }, sizes.into(), 1, &sizes.to_string());
    case(Parts { clients: vec![ClientNo(1)], ..parts() }, sizes.into(), 1, &sizes.to_string());
    let lone = RegisterError::LoneZero { folder: FolderNo(1) };
    case(Parts { clients: vec![ClientNo(1), ClientNo(0)], ..parts() }, lone.into(), 2, &lone.to_string());
    let two = RegisterError::TwoClasses { folder: FolderNo(1), earlier: FolderNo(0) };
    case(
        Parts { classes: vec![ClassNo(1), ClassNo(2)], clients: vec![ClientNo(1); 2], ..parts() },
        two.into(),
        3,
        &two.to_string(),
    );
    let pairs = |pair: (u16, u16)| Conflicts::ByPair([(ClientNo(pair.0), ClientNo(pair.1))].into());
    let bad = RegisterError::BadPairs;
    case(Parts { conflicts: pairs((1, 0)), matrix: vec![9], ..parts() }, bad.into(), 11, &bad.to_string());
    case(Parts { conflicts: pairs((2, 2)), log_len: 0, ..parts() }, bad.into(), 11, &bad.to_string());
    case(Parts { conflicts: pairs((2, 2)), logins: 0, ..parts() }, sizes.into(), 1, &sizes.to_string());
    let words = "the matrix's length is not logins times folders";
    case(Parts { matrix: vec![9; 3], persons: vec![], ..parts() }, ResumeError::MatrixLength, 4, words);
    let words = "the person list's length is not the number of logins, or an entry is not below it";
    for persons in [&[][..], &[0], &[0, 1, 0], &[0, 2], &[2, 0], &[0, 65_535]] {
        let persons = PersonNo::from_slice(persons).to_vec();
        case(Parts { persons: persons.clone(), ..parts() }, ResumeError::BadPersons, 10, words);
        let more = Parts { persons: persons.clone(), matrix: vec![9; 4], log_len: 0, ..parts() };
        case(more, ResumeError::BadPersons, 10, words);
        case(Parts { persons, logins: 0, ..parts() }, sizes.into(), 1, &sizes.to_string());
    }
    case(
        Parts { matrix: vec![0, 0, 3, 4], log_len: 0, ..parts() },
        ResumeError::Cell { person: PersonNo(1), folder: FolderNo(1) },
        8,
        "the cell of person 1 and folder 1 exceeds 3",
    );
    // Every row is judged, also that of a person who has no login.
    case(
        Parts { matrix: vec![0, 0, 3, 4], persons: vec![PersonNo(0); 2], ..parts() },
        ResumeError::Cell { person: PersonNo(1), folder: FolderNo(1) },
        8,
        "the cell of person 1 and folder 1 exceeds 3",
    );
    let words = "the log has more bytes than it can hold";
    case(Parts { log_len: 5, log: vec![255; 6], ..parts() }, ResumeError::LogEnd, 9, words);
    let cut = LogFault::CutShort { place: 5 };
    case(Parts { log: parts().log[..5].to_vec(), ..parts() }, cut.into(), 51, &cut.to_string());
    let expected = Serial(128);
    case(
        Parts { serial: Serial(127), ..parts() },
        ResumeError::NextSerial { expected },
        55,
        "the next serial is not 128, the one after the log's last record",
    );
}

#[test]
fn sources() {
    let fault = LogFault::Serial { place: 3 };
    assert_eq!(ResumeError::from(fault).source().unwrap().to_string(), fault.to_string());
    assert!(ResumeError::from(RegisterError::Sizes).source().is_some());
    assert!(ResumeError::MatrixLength.source().is_none());
}

/// The matrix is taken as it is: it need not follow from the log.
#[test]
fn the_matrix_is_not_held_against_the_log() {
    let mut room = Room::resume(Parts { matrix: vec![0; 4], ..parts() }).unwrap();
    assert_eq!(room.ask(LoginNo(1), FolderNo(1), Kind::Read), Ok(Granted { taken_back: 0 }));
}

/// A log that no `Vec` can hold, as the documentation has it under 'Panics'.
#[test]
fn logs_that_cannot_be() {
    let beyond = isize::MAX as usize + 1;
    let labels = [(ClassNo(1), ClientNo(1))];
    assert!(std::panic::catch_unwind(|| Room::builder(1, &labels).log_len(beyond).open()).is_err());
    assert!(std::panic::catch_unwind(|| Room::resume(Parts { log_len: beyond, ..parts() })).is_err());
}

//! The safe crate's own types: numbers, words, and the room.

use std::error::Error;

use housechervil::{
    ClassNo, ClientNo, Conflicts, FolderNo, Granted, Kind, KindNo, LogFault, LoginNo, OpenError, PackError, Pairs,
    ParseKindError, PersonNo, Refusal, RegisterError, ResumeError, Rights, Room, Serial, UnknownKind, UnpackError,
    Verdict, MAX_PAIRS,
};

const FOLDER: FolderNo = FolderNo(7);

/// Every answer has the rules' number, and words of its own.
#[test]
fn numbers_and_words() {
    let register = [
        RegisterError::Sizes,
        RegisterError::LoneZero { folder: FOLDER },
        RegisterError::TwoClasses { folder: FOLDER, earlier: FOLDER },
        RegisterError::BadPairs,
    ];
    assert_eq!(register.map(RegisterError::number), [1, 2, 3, 11]);
    assert_eq!(register.map(RegisterError::folder), [None, Some(FOLDER), Some(FOLDER), None]);

    let refusals = [
        Refusal::MatrixLength,
        Refusal::Login { asked: LoginNo(7) },
        Refusal::BadPersons,
        Refusal::Folder { asked: FOLDER },
        Refusal::Kind { asked: KindNo(7) },
        Refusal::Cell { folder: FOLDER },
        Refusal::LogEnd,
        Refusal::Rival { folder: FOLDER },
        Refusal::Foreign { folder: FOLDER },
        Refusal::AtStake { folder: FOLDER },
        Refusal::LogFull,
    ];
    assert_eq!(refusals.map(Refusal::number), [4, 5, 10, 6, 7, 8, 9, 20, 21, 22, 30]);
    for refusal in refusals {
        assert_eq!(refusal.folder().is_some(), [8, 20, 21, 22].contains(&refusal.number()));
        assert_eq!(refusal.is_logged(), [20, 21, 22].contains(&refusal.number()));
        assert!(refusal.source().is_none());
    }
    for error in register {
        let refusal = Refusal::from(error);
        assert_eq!((refusal.number(), refusal.folder()), (error.number(), error.folder()));
        assert!(refusal.source().is_some() && !refusal.is_logged());
        assert_eq!(refusal.to_string(), error.to_string());
        let open = OpenError::from(error);
        assert_eq!((open.number(), open.to_string()), (error.number(), error.to_string()));
        assert!(open.source().is_some());
    }
    assert_eq!((OpenError::BadPersons.number(), ResumeError::BadPersons.number()), (10, 10));
    assert!(OpenError::BadPersons.source().is_none());
    let words = "the person list's length is not the number of logins, or an entry is not below it";
    assert_eq!(Refusal::BadPersons.to_string(), words);
    assert_eq!([OpenError::BadPersons.to_string(), ResumeError::BadPersons.to_string()], [words; 2]);

    let faults = [
        LogFault::PastEnd { place: 3 },
        LogFault::CutShort { place: 3 },
        LogFault::Form { place: 3 },
        LogFault::Range { place: 3 },
        LogFault::List { place: 3 },
        LogFault::Serial { place: 3 },
    ];
    assert_eq!(faults.map(LogFault::number), [50, 51, 52, 53, 54, 55]);
    assert_eq!(faults.map(LogFault::place), [3; 6]);

    assert_eq!([PackError::Cell { place: 3 }, PackError::Lengths].map(PackError::number), [60, 61]);
    assert_eq!([UnpackError::Lengths, UnpackError::UnusedBits].map(UnpackError::number), [61, 62]);
    assert_eq!(Granted { taken_back: 3 }.number(), 0);
    let verdicts = [Verdict::Granted, Verdict::Rival, Verdict::Foreign, Verdict::AtStake];
    assert_eq!(verdicts.map(Verdict::number), [0, 20, 21, 22]);

    let mut words: Vec<String> = register.iter().map(ToString::to_string).collect();
    words.extend(refusals.iter().map(ToString::to_string));
    words.extend(faults.iter().map(ToString::to_string));
    words.extend(verdicts.iter().map(ToString::to_string));
    words.extend([PackError::Cell { place: 3 }, PackError::Lengths].iter().map(ToString::to_string));
    words.push(UnpackError::UnusedBits.to_string());
    let all = words.len();
    words.sort();
    words.dedup();
    assert_eq!(words.len(), all);
    assert!(words.iter().all(|words| words.len() > 5));
}

#[test]
fn kinds_and_rights() {
    assert_eq!(Kind::ALL.map(Kind::number), [1, 2, 3, 4]);
    for kind in Kind::ALL {
        assert_eq!(Kind::try_from(kind.number()), Ok(kind));
    }
    for number in [0, 5, 65_535] {
        assert_eq!(Kind::try_from(number), Err(UnknownKind(number)));
    }
    for cell in 0..=255 {
        match Rights::from_cell(cell) {
            Some(rights) => assert!(cell < 4 && rights.cell() == cell),
            None => assert!(cell > 3),
        }
    }
    assert_eq!(Rights { read: true, write: false }.cell(), 1);
    assert_eq!(Rights { read: false, write: true }.cell(), 2);
}

/// A refusal of what does not exist names the number that was asked for, and no folder of the house.
#[test]
fn unknown_numbers_are_named() {
    let unknown = [
        (Refusal::Login { asked: LoginNo(128) }, "there is no login 128"),
        (Refusal::Folder { asked: FolderNo(512) }, "there is no folder 512"),
        (Refusal::Kind { asked: KindNo(65_535) }, "there is no kind of request 65535"),
    ];
    for (refusal, words) in unknown {
        assert_eq!(refusal.to_string(), words);
        assert_eq!(refusal.folder(), None);
    }
}

#[test]
fn kinds_parsed_and_printed() {
    for kind in Kind::ALL {
        assert_eq!(kind.to_string().parse(), Ok(kind));
        assert_eq!(KindNo::from(kind).to_string(), kind.number().to_string());
    }
    for words in ["", "Read", "read ", " read", "careful  read", "careful", "read and writ", "1", "R", "rea\0d"] {
        let error = words.parse::<Kind>().unwrap_err();
        assert_eq!(error, ParseKindError(words.to_string()));
    }
    assert_eq!(
        "raed".parse::<Kind>().unwrap_err().to_string(),
        "\"raed\" is not a kind of request, which are read, careful read, write, and read and write"
    );
    assert_eq!(UnknownKind(9).to_string(), "9 is not a kind of request, which are 1 to 4");
    // Words take the width they are given.
    assert_eq!(
        format!("{:<13}|{:>6}|{:^9}|", Kind::CarefulRead, Rights::default(), Verdict::Granted),
        "careful read |  none| granted |"
    );
}

/// A room keeps matrix, log and serial from one request to the next, and a refusal that is not logged leaves them.
#[test]
fn a_room() {
    let labels = [(1, 1), (1, 2), (2, 3)].map(|(class, client)| (ClassNo(class), ClientNo(client)));
    let mut room = Room::builder(2, &labels).log_len(21).first_serial(Serial(65_535)).open().unwrap();
    let (ann, ben) = (LoginNo(0), LoginNo(1));
    assert!(room.last_record().is_none());

    assert_eq!(room.ask(ann, FolderNo(0), Kind::Read), Ok(Granted { taken_back: 0 }));
    assert_eq!(room.next_serial(), Serial(0));
    assert_eq!(room.ask(ann, FolderNo(1), Kind::Read), Err(Refusal::Rival { folder: FolderNo(0) }));
    assert_eq!(room.rights(ann, FolderNo(0)), Some(Rights { read: true, write: false }));
    assert_eq!(room.rights(ann, FolderNo(1)), Some(Rights::default()));
    assert_eq!(room.rights(ben, FolderNo(0)), Some(Rights::default()));
    assert_eq!(room.rights(ben, FolderNo(3)), None);
    assert_eq!(room.rights(LoginNo(2), FolderNo(0)), None);

    let before = room.clone();
    for (login, folder, refusal) in [
        (2, 0, Refusal::Login { asked: LoginNo(2) }),
        (0, 3, Refusal::Folder { asked: FolderNo(3) }),
        (65_535, 65_535, Refusal::Login { asked: LoginNo(65_535) }),
    ] {
        assert_eq!(room.ask(LoginNo(login), FolderNo(folder), Kind::Write), Err(refusal));
    }
    assert_eq!(room.matrix(), before.matrix());
    assert_eq!(room.log(), before.log());
    assert_eq!(room.next_serial(), before.next_serial());
    assert_eq!(room.last_record().unwrap().verdict(), Verdict::Rival);

    // 8 and 7 bytes are written; 6 are left, which a record without a list fits, and then none.
    assert_eq!(room.log_left(), 6);
    assert_eq!(room.ask(ann, FolderNo(1), Kind::Read), Err(Refusal::LogFull));
    assert_eq!(room.ask(ben, FolderNo(1), Kind::Write), Ok(Granted { taken_back: 0 }));
    assert_eq!(room.log_left(), 0);
    assert_eq!(room.ask(ben, FolderNo(2), Kind::Write), Err(Refusal::LogFull));
    let serials: Vec<Serial> = room.records().map(|record| record.unwrap().serial()).collect();
    assert_eq!(serials, [Serial(65_535), Serial(0), Serial(1)]);
    assert_eq!(housechervil::check_log(room.log()), Ok(3));
    assert_eq!(room.register().check(), Ok(()));
    assert!(format!("{:?}", room.last_record().unwrap()).contains("Granted"));

    // A nightly copy and back.
    let packed = housechervil::pack(room.matrix()).unwrap();
    assert_eq!(packed.len(), 2);
    assert_eq!(housechervil::unpack(&packed, room.matrix().len()).unwrap(), room.matrix());
}

/// Bad registers never make a room.
#[test]
fn bad_registers() {
    let label = |class, client| (ClassNo(class), ClientNo(client));
    let error = |logins, labels: &[_]| match Room::builder(logins, labels).open() {
        Err(OpenError::Register(error)) => error,
        other => panic!("{other:?}"),
    };
    assert_eq!(error(129, &[label(1, 1)]), RegisterError::Sizes);
    assert_eq!(error(usize::MAX, &[label(1, 1)]), RegisterError::Sizes);
    assert_eq!(error(1, &vec![label(1, 1); 513]), RegisterError::Sizes);
    assert_eq!(error(1, &[label(1, 1), label(0, 1)]), RegisterError::LoneZero { folder: FolderNo(1) });
    let two = RegisterError::TwoClasses { folder: FolderNo(1), earlier: FolderNo(0) };
    assert_eq!(error(1, &[label(1, 4), label(2, 4)]), two);
}

/// What is left out at the opening is as the documentation has it, and what is said counts, in whatever order.
#[test]
fn openings() {
    let labels = [(ClassNo(1), ClientNo(1)), (ClassNo(1), ClientNo(2))];
    let plain = Room::builder(3, &labels);
    let room = plain.clone().open().unwrap();
    assert_eq!(room.register().conflicts, &Conflicts::ByClass);
    assert_eq!(room.persons(), [0, 1, 2].map(PersonNo));
    assert_eq!((room.log_left(), room.next_serial(), room.log()), (65_536, Serial(0), &[][..]));
    assert_eq!(room.matrix(), [0; 6]);

    let said = plain
        .clone()
        .conflicts(Conflicts::ByClass)
        .persons([0, 1, 2].map(PersonNo))
        .log_len(65_536)
        .first_serial(Serial(0));
    assert_eq!(said, plain);
    let none = Conflicts::ByPair(Pairs::default());
    let persons = vec![PersonNo(2); 3];
    let one = plain.clone().first_serial(Serial(9)).log_len(7).persons(persons.clone()).conflicts(none.clone());
    let other = plain.conflicts(none.clone()).persons(&persons[..]).log_len(7).first_serial(Serial(9));
    assert_eq!(one, other);
    let parts = one.open().unwrap().into_parts();
    assert_eq!((parts.persons, parts.log_len, parts.serial, parts.conflicts), (persons, 7, Serial(9), none));
}

/// Bad person lists never make a room; what is wrong with the register speaks first.
#[test]
fn bad_persons() {
    let labels = [(ClassNo(1), ClientNo(1)), (ClassNo(1), ClientNo(2))];
    let house = |logins| Room::builder(logins, &labels);
    let lists: [&[u16]; 8] = [&[], &[0], &[0, 1], &[0, 1, 2, 0], &[3, 0, 0], &[0, 0, 3], &[0, 65_535, 0], &[256, 0, 0]];
    for list in lists {
        let persons = PersonNo::from_slice(list);
        assert_eq!(house(3).persons(persons).open().unwrap_err(), OpenError::BadPersons, "{list:?}");
        let sizes = OpenError::from(RegisterError::Sizes);
        assert_eq!(house(129).persons(persons).open().unwrap_err(), sizes);
        let pairs = Conflicts::ByPair([pair(1, 1)].into());
        let bad = OpenError::from(RegisterError::BadPairs);
        assert_eq!(house(3).persons(persons).conflicts(pairs).open().unwrap_err(), bad);
    }
    for list in [[0, 0, 0], [2, 2, 2], [2, 1, 0]] {
        assert_eq!(house(3).persons(PersonNo::from_slice(&list)).open().unwrap().persons(), list.map(PersonNo));
    }
    assert_eq!(house(128).persons([PersonNo(127); 128]).open().unwrap().person(LoginNo(127)), Some(PersonNo(127)));
    assert!(house(128).persons([PersonNo(128); 128]).open().is_err());
}

/// A login's rights are its person's, whichever login they came through; records have the login.
#[test]
fn rights_of_a_person() {
    let labels = [(1, 1), (1, 2), (2, 3)].map(|(class, client)| (ClassNo(class), ClientNo(client)));
    let mut room = Room::builder(4, &labels).persons([3, 0, 3, 0].map(PersonNo)).open().unwrap();
    let login = |number| LoginNo(number);
    let read = Some(Rights { read: true, write: false });
    assert_eq!(room.ask(login(2), FolderNo(1), Kind::Read), Ok(Granted { taken_back: 0 }));
    assert_eq!(room.matrix(), [0, 0, 0, 0, 0, 0, 0, 0, 0, 0, 1, 0]);
    assert_eq!(
        [0, 1, 2, 3, 4].map(|number| room.person(login(number)).map(u16::from)),
        [Some(3), Some(0), Some(3), Some(0), None]
    );
    for number in [0, 2] {
        assert_eq!(room.rights(login(number), FolderNo(1)), read);
    }
    for number in [1, 3] {
        assert_eq!(room.rights(login(number), FolderNo(1)), Some(Rights::default()));
    }
    assert_eq!(room.rights(login(4), FolderNo(1)), None);
    assert_eq!(room.rights(login(2), FolderNo(3)), None);
    assert_eq!(room.ask(login(0), FolderNo(0), Kind::Read), Err(Refusal::Rival { folder: FolderNo(1) }));
    assert_eq!(room.last_record().unwrap().login(), login(0));
    assert_eq!(room.ask(login(1), FolderNo(0), Kind::Read), Ok(Granted { taken_back: 0 }));
    assert_eq!(room.records().map(|record| record.unwrap().login().0).collect::<Vec<_>>(), [2, 0, 1]);
}

fn pair(first: u16, second: u16) -> (ClientNo, ClientNo) {
    (ClientNo(first), ClientNo(second))
}

/// Pairs are made from arrays, slices and iterators, are kept in their order, and tell a room apart from another.
#[test]
fn pairs() {
    let listed = [pair(3, 1), pair(1, 3), pair(3, 1), pair(0, 65_535)];
    let pairs = Pairs::from(listed);
    assert_eq!(pairs, listed.into_iter().collect());
    assert_eq!(pairs, Pairs::from(&listed[..]));
    assert_eq!((pairs.len(), pairs.iter().len(), pairs.is_empty()), (4, 4, false));
    assert_eq!(pairs.iter().collect::<Vec<_>>(), listed);
    assert_ne!(pairs, listed.into_iter().rev().collect());
    assert_ne!(Conflicts::ByPair(Pairs::default()), Conflicts::ByClass);
}

/// Bad pairs never make a room, and 256 good ones do.
#[test]
fn bad_pairs() {
    let labels = [(ClassNo(1), ClientNo(1)), (ClassNo(2), ClientNo(2))];
    let room = |pairs: Pairs| Room::builder(1, &labels).conflicts(Conflicts::ByPair(pairs)).open();
    for bad in [pair(0, 1), pair(1, 0), pair(0, 0), pair(2, 2)] {
        let error = room([pair(1, 2), bad].into()).unwrap_err();
        assert_eq!((error, error.number()), (RegisterError::BadPairs.into(), 11));
    }
    assert_eq!(room(vec![pair(1, 2); MAX_PAIRS + 1].as_slice().into()).unwrap_err(), RegisterError::BadPairs.into());

    let mut room = room(vec![pair(1, 2); MAX_PAIRS].as_slice().into()).unwrap();
    assert_eq!(room.register().conflicts, &Conflicts::ByPair(vec![pair(1, 2); MAX_PAIRS].as_slice().into()));
    assert_eq!(room.register().check(), Ok(()));
    assert_eq!(room.ask(LoginNo(0), FolderNo(0), Kind::Read), Ok(Granted { taken_back: 0 }));
    assert_eq!(room.ask(LoginNo(0), FolderNo(1), Kind::Read), Err(Refusal::Rival { folder: FolderNo(0) }));
}

/// All of it is plain data: it can be handed to and shared between threads.
#[test]
fn threads() {
    fn sendable<T: Send + Sync>() {}
    sendable::<Room>();
    sendable::<housechervil::RoomBuilder>();
    sendable::<housechervil::Register<'static>>();
    sendable::<housechervil::Records<'static>>();
    sendable::<housechervil::Record<'static>>();
    sendable::<Refusal>();

    let labels = [(ClassNo(1), ClientNo(1)), (ClassNo(1), ClientNo(2))];
    let answers: Vec<_> = std::thread::scope(|scope| {
        let rooms: Vec<_> = (0..4)
            .map(|_| {
                scope.spawn(|| {
                    let mut room = Room::builder(1, &labels).open().unwrap();
                    for _ in 0..5_000 {
                        let _ = room.ask(LoginNo(0), FolderNo(0), Kind::Read);
                        let _ = room.ask(LoginNo(0), FolderNo(1), Kind::Read);
                    }
                    room.log().to_vec()
                })
            })
            .collect();
        rooms.into_iter().map(|room| room.join().unwrap()).collect()
    });
    assert!(answers.windows(2).all(|two| two[0] == two[1]));
}

//! Lengths of 0, everywhere through the safe crate: answered, not touched.

use housechervil::{
    check_log, folder_name, pack, pack_into, packed_len, read_number, read_record, unpack, unpack_into, ClassNo,
    ClientNo, Conflicts, FolderNo, Granted, Kind, KindNo, LogFault, LoginNo, OpenError, PackError, Pairs, PersonNo,
    Records, Refusal, Register, RegisterError, Request, Room, Serial, UnpackError,
};

const BY_CLASS: Conflicts = Conflicts::ByClass;

#[test]
fn empty_register() {
    for conflicts in [BY_CLASS, Conflicts::ByPair(Pairs::default())] {
        let check = |logins, classes, clients| Register::new(logins, classes, clients, &conflicts).check();
        assert_eq!(check(1, &[], &[]), Err(RegisterError::Sizes));
        assert_eq!(check(0, &[], &[]), Err(RegisterError::Sizes));
        assert_eq!(check(1, &[], &[ClientNo(1)]), Err(RegisterError::Sizes));
        assert_eq!(check(1, &[ClassNo(1)], &[]), Err(RegisterError::Sizes));
        assert_eq!(check(0, &[ClassNo(1)], &[ClientNo(1)]), Err(RegisterError::Sizes));
        assert_eq!(check(1, &[ClassNo(1)], &[ClientNo(1)]), Ok(()));
        let sizes = Err(OpenError::Register(RegisterError::Sizes));
        let open = |logins, labels: &[_]| Room::builder(logins, labels).conflicts(conflicts.clone()).open().map(drop);
        assert_eq!(open(1, &[]), sizes);
        assert_eq!(open(0, &[(ClassNo(1), ClientNo(1))]), sizes);
    }
    assert_eq!(ClassNo::from_slice(&[]), []);
    assert_eq!(ClientNo::from_slice(&[]), []);
    assert_eq!(PersonNo::from_slice(&[]), []);
}

/// Without pairs no two clients are in conflict.
#[test]
fn empty_pairs() {
    let none = Pairs::default();
    assert_eq!((none.len(), none.is_empty(), none.iter().next()), (0, true, None));
    assert_eq!(none, Pairs::from([]));
    let labels = [1, 2].map(|client| (ClassNo(1), ClientNo(client)));
    let mut room = Room::builder(1, &labels).conflicts(Conflicts::ByPair(none)).open().unwrap();
    for folder in [0, 1].map(FolderNo) {
        assert_eq!(room.ask(LoginNo(0), folder, Kind::Read), Ok(Granted { taken_back: 0 }));
    }
}

#[test]
fn empty_buffers_of_a_request() {
    let request = Request::new(LoginNo(0), FolderNo(0), Kind::Read);
    let unmoved = |reply: housechervil::Reply, end: usize, refusal: Refusal| {
        assert_eq!(reply.answer, Err(refusal));
        assert_eq!((reply.end, reply.serial), (end, Serial(9)));
    };

    // Nothing at all.
    let nobody = Register::new(0, &[], &[], &BY_CLASS);
    unmoved(nobody.request(&[], &mut [], request, &mut [], 0, Serial(9)), 0, RegisterError::Sizes.into());
    unmoved(
        nobody.request(&[], &mut [], request, &mut [], usize::MAX, Serial(9)),
        usize::MAX,
        RegisterError::Sizes.into(),
    );

    // A good register with an empty matrix, with an empty log, with both.
    let (classes, clients) = ([ClassNo(1)], [ClientNo(1)]);
    let one = Register::new(1, &classes, &clients, &BY_CLASS);
    let mut log = [7; 32];
    unmoved(one.request(&[PersonNo(0)], &mut [], request, &mut log, 0, Serial(9)), 0, Refusal::MatrixLength);
    unmoved(one.request(&[PersonNo(0)], &mut [], request, &mut [], 0, Serial(9)), 0, Refusal::MatrixLength);
    assert_eq!(log, [7; 32]);

    // An empty slice in the middle of bytes that must not change.
    let mut bytes = [0xa5_u8; 64];
    let empty = &mut bytes[32..32];
    let mut matrix = [0];
    unmoved(one.request(&[PersonNo(0)], &mut matrix, request, empty, 0, Serial(9)), 0, Refusal::LogFull);
    unmoved(one.request(&[PersonNo(0)], &mut matrix, request, empty, 1, Serial(9)), 1, Refusal::LogEnd);
    unmoved(
        one.request(&[PersonNo(0)], &mut matrix, request, empty, usize::MAX, Serial(9)),
        usize::MAX,
        Refusal::LogEnd,
    );
    assert_eq!(matrix, [0]);
    assert_eq!(bytes, [0xa5; 64]);

    // An empty log hides the decision, but not what comes before the wall.
    let strange = Request { login: LoginNo(0), folder: FolderNo(0), kind: KindNo(0) };
    unmoved(
        one.request(&[PersonNo(0)], &mut matrix, strange, &mut [], 0, Serial(9)),
        0,
        Refusal::Kind { asked: KindNo(0) },
    );
}

/// An empty person list is answered 10 in its place, wherever it lies.
#[test]
fn empty_person_list() {
    let (classes, clients) = ([ClassNo(1)], [ClientNo(1)]);
    let one = Register::new(1, &classes, &clients, &BY_CLASS);
    let persons = [PersonNo(0); 8];
    for empty in [&[][..], &persons[..0], &persons[4..4], &persons[8..]] {
        let ask = |matrix: &mut [u8], login| {
            let request = Request { login: LoginNo(login), folder: FolderNo(9), kind: KindNo(9) };
            one.request(empty, matrix, request, &mut [], 1, Serial(9))
        };
        let bad = ask(&mut [4], 0);
        assert_eq!((bad.answer, bad.end, bad.serial), (Err(Refusal::BadPersons), 1, Serial(9)));
        assert_eq!(ask(&mut [4], 1).answer, Err(Refusal::Login { asked: LoginNo(1) }));
        assert_eq!(ask(&mut [], 0).answer, Err(Refusal::MatrixLength));
        assert_eq!(
            Room::builder(1, &[(ClassNo(1), ClientNo(1))]).persons(empty).open().err(),
            Some(OpenError::BadPersons)
        );
    }
    let nobody = Register::new(0, &[], &[], &BY_CLASS);
    let request = Request::new(LoginNo(0), FolderNo(0), Kind::Read);
    assert_eq!(
        nobody.request(&persons, &mut [], request, &mut [], 0, Serial(0)).answer,
        Err(RegisterError::Sizes.into())
    );
}

#[test]
fn empty_room_for_a_log() {
    let mut room = Room::builder(1, &[(ClassNo(1), ClientNo(1))]).log_len(0).first_serial(Serial(5)).open().unwrap();
    assert_eq!(room.ask(LoginNo(0), FolderNo(0), Kind::Read), Err(Refusal::LogFull));
    assert_eq!((room.log(), room.log_left(), room.next_serial()), (&[][..], 0, Serial(5)));
    assert!(room.records().next().is_none());
    assert!(room.last_record().is_none());
    assert_eq!(room.matrix(), [0]);
}

#[test]
fn empty_log() {
    assert_eq!(check_log(&[]), Ok(0));
    assert!(matches!(read_record(&[], 0), Ok(None)));
    assert!(matches!(read_record(&[], 1), Err(LogFault::PastEnd { place: 1 })));
    assert!(matches!(read_record(&[], usize::MAX), Err(LogFault::PastEnd { place: usize::MAX })));
    assert_eq!(read_number(&[], 0), Err(LogFault::CutShort { place: 0 }));
    assert_eq!(read_number(&[], usize::MAX), Err(LogFault::CutShort { place: usize::MAX }));
    let mut reader = Records::new(&[]);
    assert!(reader.next().is_none());
    assert!(reader.next().is_none());
    assert!(matches!(reader.step(), Ok(None)));
    assert_eq!(reader.place(), 0);
}

#[test]
fn empty_cells() {
    // An empty slice in the middle of bytes that must not change.
    let mut bytes = [0xa5_u8; 64];
    let empty = &mut bytes[32..32];
    assert_eq!(packed_len(0), 0);
    assert_eq!(pack(&[]), Ok(vec![]));
    assert_eq!(unpack(&[], 0), Ok(vec![]));
    assert_eq!(pack_into(&[], empty), Ok(()));
    assert_eq!(unpack_into(&[], empty), Ok(()));
    assert_eq!(pack_into(&[1], empty), Err(PackError::Lengths));
    assert_eq!(unpack_into(&[1], empty), Err(UnpackError::Lengths));
    assert_eq!(pack_into(&[], &mut [1]), Err(PackError::Lengths));
    assert_eq!(unpack_into(&[], &mut [1]), Err(UnpackError::Lengths));
    assert_eq!(bytes, [0xa5; 64]);
}

#[test]
fn empty_texts() {
    for folder in [0, 1, 511, 65_535].map(FolderNo) {
        assert_eq!(folder_name(&[], &[], folder), None);
    }
    // An empty slice in the midst of a name, and of line ends.
    for byte in [b'a', 10] {
        let bytes = [byte; 64];
        let empty = &bytes[32..32];
        assert_eq!(folder_name(empty, empty, FolderNo(0)), None);
        assert_eq!(folder_name(empty, b"name", FolderNo(0)), Some(&b"name"[..]));
        assert_eq!(folder_name(b"name", empty, FolderNo(0)), Some(&b"name"[..]));
        assert_eq!(folder_name(b"name", empty, FolderNo(1)), None);
    }
}

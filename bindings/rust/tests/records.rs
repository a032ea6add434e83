//! Records compared and printed.

mod reference;
mod support;

use std::collections::HashSet;

use housechervil::{read_record, Record, Records};
use support::Random;

/// The bytes of one record.
fn bytes(fields: &[u16]) -> Vec<u8> {
    let mut log = Vec::new();
    for &field in fields {
        let mut groups = [0; 3];
        let len = reference::write_number(&mut groups, 0, field);
        log.extend_from_slice(&groups[..len]);
    }
    log
}

fn record(log: &[u8]) -> Record<'_> {
    read_record(log, 0).unwrap().unwrap()
}

/// Serial, login, folder, kind, answer, count and list of records that differ from the first, each in one thing that it says.
const DIFFERENT: [&[u16]; 8] = [
    &[300, 2, 5, 1, 0, 2, 7, 200],
    &[301, 2, 5, 1, 0, 2, 7, 200],
    &[300, 3, 5, 1, 0, 2, 7, 200],
    &[300, 2, 6, 1, 0, 2, 7, 200],
    &[300, 2, 5, 4, 0, 2, 7, 200],
    &[300, 2, 5, 1, 20, 1, 7],
    &[300, 2, 5, 1, 0, 1, 7],
    &[300, 2, 5, 1, 0, 2, 7, 201],
];

#[test]
fn a_record_is_equal_to_itself_alone() {
    let logs = DIFFERENT.map(bytes);
    for (at, log) in logs.iter().enumerate() {
        for (other_at, other) in logs.iter().enumerate() {
            assert_eq!(record(log) == record(other), at == other_at, "{at} and {other_at}");
        }
    }
    let set: HashSet<Record<'_>> = logs.iter().chain(&logs).map(|log| record(log)).collect();
    assert_eq!(set.len(), DIFFERENT.len());
}

/// Neither the place of a record nor the rest of its log counts.
#[test]
fn places_do_not_count() {
    let mut random = Random::new(70);
    let alone = bytes(DIFFERENT[0]);
    for start in [0, 1, 2, 50] {
        let mut log = random.bytes(start);
        log.extend(&alone);
        log.extend(random.bytes(20));
        let here = read_record(&log, start).unwrap().unwrap();
        assert_eq!((here.start(), here.end()), (start, start + alone.len()));
        assert_eq!(here, record(&alone));
        assert!(HashSet::from([here]).contains(&record(&alone)));
    }
}

/// Records are equal just where their bytes are, since each has one form only.
#[test]
fn equal_records_have_equal_bytes() {
    let mut random = Random::new(71);
    let log: Vec<u8> = (0..400)
        .flat_map(|_| {
            let head = [random.pick(&[0, 1]), random.pick(&[0, 1]), random.pick(&[2, 3])];
            let rest: &[u16] =
                random.pick(&[&[2, 0, 0], &[3, 0, 0], &[1, 20, 1, 0], &[1, 0, 1, 0], &[1, 0, 2, 0, 1], &[2, 22, 1, 1]]);
            bytes(&[&head, rest].concat())
        })
        .collect();
    let records: Vec<Record<'_>> = Records::new(&log).map(Result::unwrap).collect();
    let written = |record: &Record<'_>| &log[record.start()..record.end()];
    let mut equal = 0;
    for one in &records {
        for other in &records {
            assert_eq!(one == other, written(one) == written(other), "{one} and {other}");
            equal += usize::from(one == other);
        }
    }
    assert!(records.len() == 400 && equal > 1_000);
}

#[test]
fn printed() {
    let line = |fields: &[u16]| record(&bytes(fields)).to_string();
    assert_eq!(line(&[0, 0, 1, 3, 0, 0]), "0: login 0, write, folder 1: granted");
    assert_eq!(line(&[7, 0, 3, 1, 0, 2, 1, 4]), "7: login 0, read, folder 3: granted, write rights taken back: 1, 4");
    assert_eq!(
        line(&[65_535, 127, 511, 4, 20, 1, 0]),
        "65535: login 127, read and write, folder 511: refused for a rival: 0"
    );
    assert_eq!(line(&[8, 0, 4, 3, 21, 1, 3]), "8: login 0, write, folder 4: refused for a foreign folder: 3");
    assert_eq!(
        line(&[2, 0, 1, 2, 22, 1, 3]),
        "2: login 0, careful read, folder 1: refused for a write right at stake: 3"
    );
}

#[test]
fn printed_for_a_programmer() {
    let log = bytes(DIFFERENT[0]);
    assert_eq!(
        format!("{:?}", record(&log)),
        "Record { place: 0..10, serial: Serial(300), login: LoginNo(2), folder: FolderNo(5), kind: Read, \
         verdict: Granted, listed: [FolderNo(7), FolderNo(200)] }"
    );
}

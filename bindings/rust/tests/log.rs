//! The log, read: steps and the whole check, held against the reference on logs in order, damaged, cut short and of random bytes.

mod reference;
mod support;

use reference::{write_number, Fault};
use support::{same_log_check, same_step, Random, Tally};

/// Adds a number's groups.
fn push(log: &mut Vec<u8>, number: u16) {
    let mut groups = [0; 3];
    let len = write_number(&mut groups, 0, number);
    log.extend_from_slice(&groups[..len]);
}

/// A rising list of `count` folders without `own`.
fn rising(random: &mut Random, count: usize, own: u16) -> Vec<u16> {
    let mut list = Vec::with_capacity(count);
    for (passed, folder) in (0..512).filter(|&folder| folder != own).enumerate() {
        // Each folder is taken with just the chance that leaves `count` of them in the end.
        if random.below(511 - passed) < count - list.len() {
            list.push(folder);
        }
        if list.len() == count {
            break;
        }
    }
    list
}

/// A record that a request could have written.
fn good_record(random: &mut Random, serial: u16, most: usize) -> Vec<u16> {
    let login = random.pick(&[0, 1, 5, 127]);
    let folder = random.pick(&[0, 1, 100, 127, 128, 300, 511]);
    let (kind, answer) = random.pick(&[
        (1, 0),
        (1, 0),
        (1, 20),
        (2, 0),
        (2, 20),
        (2, 22),
        (3, 0),
        (3, 20),
        (3, 21),
        (4, 0),
        (4, 20),
        (4, 21),
    ]);
    let count = match (kind, answer) {
        (1 | 4, 0) => random.range(0, most),
        (_, 0) => 0,
        _ => 1,
    };
    let list = rising(random, count, folder);
    let mut fields = vec![serial, login, folder, kind, answer, count as u16];
    fields.extend(list);
    fields
}

/// A log in order, and the places of its records.
fn good_log(random: &mut Random, records: usize, first: u16, most: usize) -> (Vec<u8>, Vec<usize>) {
    let mut log = Vec::new();
    let mut places = Vec::new();
    let mut serial = first;
    for _ in 0..records {
        places.push(log.len());
        for field in good_record(random, serial, most) {
            push(&mut log, field);
        }
        serial = reference::next(serial);
    }
    (log, places)
}

fn check_number(log: &[u8]) -> u16 {
    same_log_check(log).map_or_else(|fault| fault.number, |_| 0)
}

fn step_number(log: &[u8], place: usize) -> u16 {
    same_step(log, place).map_or_else(|fault| fault.number, |found| found.map_or(1, |_| 0))
}

/// Sample logs of a few hundred bytes, each byte changed to each of the 255 other values: by step at every record's place and at
/// the log's end, and by the whole check.
#[test]
fn every_byte_damaged() {
    let mut random = Random::new(20);
    for (records, first, most) in [(20, 118, 6), (12, 65_530, 12), (9, 16_380, 20)] {
        let (log, places) = good_log(&mut random, records, first, most);
        assert!(log.len() >= 100 && same_log_check(&log) == Ok(records));
        let (mut steps, mut checks) = (Tally::default(), Tally::default());
        let mut damaged = log.clone();
        for byte in 0..log.len() {
            for value in (0..=255).filter(|&value| value != log[byte]) {
                damaged[byte] = value;
                checks.add(check_number(&damaged));
                for &place in places.iter().chain([&log.len()]) {
                    steps.add(step_number(&damaged, place));
                }
            }
            damaged[byte] = log[byte];
        }
        steps.met(&[0, 1, 51, 52, 53, 54], 50);
        checks.met(&[0, 51, 52, 53, 54, 55], 5);
    }
}

/// One sample with a step at every place, records' or not, under every damage.
#[test]
fn every_byte_damaged_every_place() {
    let mut random = Random::new(21);
    let (log, _) = good_log(&mut random, 9, 125, 5);
    let mut damaged = log.clone();
    for byte in 0..log.len() {
        for value in 0..=255 {
            damaged[byte] = value;
            for place in 0..=log.len() + 1 {
                step_number(&damaged, place);
            }
        }
        damaged[byte] = log[byte];
    }
}

/// Logs cut at every length, read from every record's place, by the whole check, and by the safe crate's iterator.
#[test]
fn cut_at_every_length() {
    let mut random = Random::new(22);
    for (records, first, most) in [(40, 100, 8), (30, 65_520, 12), (3, 16_383, 511)] {
        let (log, places) = good_log(&mut random, records, first, most);
        for len in 0..=log.len() {
            let cut = &log[..len];
            let whole = same_log_check(cut);
            let complete = places.iter().skip(1).chain([&log.len()]).filter(|&&end| end <= len).count();
            match whole {
                Ok(count) => assert!(count == complete && (places.contains(&len) || len == log.len())),
                Err(fault) => assert_eq!(fault.number, 51),
            }
            for &place in &places {
                let expected = match place.cmp(&len) {
                    std::cmp::Ordering::Greater => 50,
                    std::cmp::Ordering::Equal => 1,
                    std::cmp::Ordering::Less => step_number(cut, place),
                };
                assert_eq!(step_number(cut, place), expected);
            }
            let mut reader = housechervil::Records::new(cut);
            assert_eq!(reader.by_ref().filter(Result::is_ok).count(), complete);
            assert!(reader.next().is_none());
            assert_eq!(
                reader.step().map(|found| found.is_some()).map_err(|fault| fault.number()),
                match whole {
                    Ok(_) => Ok(false),
                    Err(_) => Err(51),
                }
            );
        }
    }
}

/// Records made of fields in and out of range, numbers in and out of form, lists that rise and do not, cut or not.
#[test]
fn records_made_of_good_and_bad_fields() {
    let mut random = Random::new(23);
    let mut tally = Tally::default();
    for _ in 0..250_000 {
        let serial = random.u16();
        let most = random.pick(&[2, 2, 4, 9]);
        let mut fields = good_record(&mut random, serial, most);
        if random.once_in(2) {
            let field = random.below(fields.len());
            fields[field] = match random.below(4) {
                0 => random.pick(&[0, 1, 2, 3, 4, 5, 19, 20, 21, 22, 23, 30]),
                1 => random.pick(&[126, 127, 128, 129, 510, 511, 512, 513, 65_535]),
                2 => fields[random.below(field + 1)],
                _ => fields[field].wrapping_add(random.pick(&[1, 65_535])),
            };
        }
        let mut log = random.bytes(random_start(serial));
        let start = log.len();
        for field in fields {
            let at = log.len();
            push(&mut log, field);
            if random.once_in(100) {
                // The same value in more groups than it takes, or a last group that is too large.
                *log.last_mut().unwrap() |= random.pick(&[128, 128, 64]);
                log.push(random.pick(&[0, 0, 1, 3, 4, 128, 131]));
                if random.once_in(2) {
                    *log.last_mut().unwrap() |= 128;
                    log.push(random.pick(&[0, 1, 3, 4, 255]));
                }
                log.truncate(at + 4);
            }
        }
        if random.once_in(12) {
            let cut = random.range(start, log.len());
            log.truncate(cut);
        }
        tally.add(step_number(&log, start));
        check_number(&log[start..]);
    }
    tally.met(&[0, 1, 51, 52, 53, 54], 300);
}

/// How many bytes stand before a record that is read from a place of its own.
fn random_start(serial: u16) -> usize {
    usize::from(serial % 7)
}

/// Bytes without any plan, and bytes that are often good fields, from every place and a little past the end.
#[test]
fn random_bytes() {
    let mut random = Random::new(24);
    let mut tally = Tally::default();
    for round in 0..150_000 {
        let len = random.below(24);
        let log: Vec<u8> = (0..len)
            .map(|_| match round % 3 {
                0 => random.byte(),
                1 => random.pick(&[0, 0, 0, 1, 1, 2, 3, 4, 20, 21, 22, 127, 128, 129]),
                _ => random.pick(&[0, 1, 1, 0, 1]),
            })
            .collect();
        for place in (0..=len + 2).chain([usize::MAX - 1, usize::MAX]) {
            tally.add(step_number(&log, place));
        }
        check_number(&log);
    }
    tally.met(&[0, 1, 50, 51, 52, 53, 54], 1_000);
}

/// Every answer of every kind, every count, and lists of all lengths.
#[test]
fn every_kind_answer_and_count() {
    let mut accepted = Vec::new();
    for kind in 0..=6 {
        for answer in 0..=130 {
            for count in [0, 1, 2, 3, 511, 512] {
                let mut log = Vec::new();
                for field in [9, 127, 511, kind, answer, count] {
                    push(&mut log, field);
                }
                for listed in 0..count {
                    push(&mut log, listed);
                }
                if step_number(&log, 0) == 0 {
                    accepted.push((kind, answer, count));
                }
                // A bad count speaks before the list, also where the list is missing.
                step_number(&log[..log.len().min(10)], 0);
            }
        }
    }
    let mut expected = Vec::new();
    for (kind, refusals) in [(1, &[20][..]), (2, &[20, 22]), (3, &[20, 21]), (4, &[20, 21])] {
        let counts: &[u16] = if kind == 1 || kind == 4 { &[0, 1, 2, 3, 511] } else { &[0] };
        expected.extend(counts.iter().map(|&count| (kind, 0, count)));
        expected.extend(refusals.iter().map(|&answer| (kind, answer, 1)));
    }
    assert_eq!(accepted, expected);

    let mut random = Random::new(25);
    for count in 0..=511 {
        let mut log = Vec::new();
        let own = random.below(512) as u16;
        for field in [65_535, 0, own, 1, 0, count].into_iter().chain(rising(&mut random, count.into(), own)) {
            push(&mut log, field);
        }
        assert_eq!(step_number(&log, 0), 0);
        assert_eq!(same_log_check(&log), Ok(1));
    }
}

/// The places that faults carry, by hand from document 01.
#[test]
fn places_of_faults() {
    let fault = |log: &[u8]| same_step(log, 0).map_err(|Fault { number, place }| (number, place));
    assert!(fault(&[3, 0, 1, 1, 0, 1, 3]).is_ok());
    // Bytes end: at a field's start, and inside a number.
    assert_eq!(fault(&[3]), Err((51, 1)));
    assert_eq!(fault(&[3, 0, 1, 1, 0, 1]), Err((51, 6)));
    assert_eq!(fault(&[3, 128]), Err((51, 1)));
    assert_eq!(fault(&[3, 0, 1, 1, 0, 1, 128]), Err((51, 6)));
    assert_eq!(fault(&[255, 255]), Err((51, 0)));
    // Form: not shortest, too large, a third byte that says too much at once.
    assert_eq!(fault(&[128, 0]), Err((52, 0)));
    assert_eq!(fault(&[3, 0, 129, 128, 0]), Err((52, 2)));
    assert_eq!(fault(&[255, 255, 4]), Err((52, 0)));
    assert_eq!(fault(&[255, 255, 131]), Err((52, 0)));
    // Range.
    assert_eq!(fault(&[3, 128, 1]), Err((53, 1)));
    assert_eq!(fault(&[3, 0, 128, 4]), Err((53, 2)));
    assert_eq!(fault(&[3, 0, 1, 0]), Err((53, 3)));
    assert_eq!(fault(&[3, 0, 1, 5]), Err((53, 3)));
    assert_eq!(fault(&[3, 0, 1, 1, 21]), Err((53, 4)));
    assert_eq!(fault(&[3, 0, 1, 2, 21]), Err((53, 4)));
    assert_eq!(fault(&[3, 0, 1, 3, 22]), Err((53, 4)));
    assert_eq!(fault(&[3, 0, 1, 1, 30]), Err((53, 4)));
    assert_eq!(fault(&[3, 0, 1, 1, 0, 1, 128, 4]), Err((53, 6)));
    // Count and list.
    assert_eq!(fault(&[3, 0, 1, 2, 0, 1]), Err((54, 5)));
    assert_eq!(fault(&[3, 0, 1, 3, 0, 1]), Err((54, 5)));
    assert_eq!(fault(&[3, 0, 1, 1, 20, 0]), Err((54, 5)));
    assert_eq!(fault(&[3, 0, 1, 1, 20, 2]), Err((54, 5)));
    assert_eq!(fault(&[3, 0, 1, 1, 0, 128, 4]), Err((54, 5)));
    assert_eq!(fault(&[3, 0, 1, 1, 0, 2, 3, 3]), Err((54, 7)));
    assert_eq!(fault(&[3, 0, 1, 1, 0, 2, 3, 2]), Err((54, 7)));
    assert_eq!(fault(&[3, 0, 1, 1, 0, 1, 1]), Err((54, 6)));
    assert_eq!(fault(&[3, 0, 1, 1, 20, 1, 1]), Err((54, 6)));
    // A field's form and end come before its range.
    assert_eq!(fault(&[3, 128]), Err((51, 1)));
    assert_eq!(fault(&[3, 200, 0]), Err((52, 1)));
}

/// Refusal 55: serials that do not follow, after whole records only.
#[test]
fn serials_that_do_not_follow() {
    let mut random = Random::new(26);
    let record = |serial: u16| {
        let mut log = Vec::new();
        for field in [serial, 0, 1, 2, 0, 0] {
            push(&mut log, field);
        }
        log
    };
    let mut tally = Tally::default();
    for _ in 0..40_000 {
        let first = random.pick(&[0, 1, 127, 16_383, 65_534, 65_535, 32_767]);
        let second = match random.below(3) {
            0 => reference::next(first),
            1 => random.pick(&[0, 1, 2, 128, 16_384, 65_535]),
            _ => random.u16(),
        };
        let mut log = record(first);
        log.extend(record(second));
        if random.once_in(4) {
            log.pop();
        }
        if random.once_in(4) {
            log.extend(record(reference::next(second)));
        }
        tally.add(check_number(&log));
    }
    tally.met(&[0, 51, 53, 54, 55], 100);
    assert_eq!(same_log_check(&[record(65_535), record(0)].concat()), Ok(2));
    assert_eq!(same_log_check(&[record(5), record(7)].concat()), Err(Fault { number: 55, place: 6 }));
    assert_eq!(same_log_check(&[record(5), vec![7, 128]].concat()), Err(Fault { number: 51, place: 7 }));
}

/// Long logs, with serials that go round twice: the number of records does not fit 16 bits.
#[test]
fn long_logs() {
    let mut random = Random::new(27);
    let (log, _) = good_log(&mut random, 140_000, 60_000, 0);
    assert_eq!(same_log_check(&log), Ok(140_000));
    assert_eq!(housechervil::Records::new(&log).filter(Result::is_ok).count(), 140_000);
    for _ in 0..50 {
        let mut damaged = log.clone();
        let byte = random.below(log.len());
        damaged[byte] = random.byte();
        same_log_check(&damaged).ok();
    }
}

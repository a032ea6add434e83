//! Conflicts by pair (document 02, C-12): each reading of the request by hand, registers and requests on their edges, and histories by
//! pairs beside histories by classes. Library and reference are held against each other throughout, buffers and lists with their guards;
//! random registers and requests in both modes are in `register.rs` and `request.rs`.

mod reference;
mod support;

use reference::{Ask, Refusal, Reply};
use support::{any_ask, cells, same_check, same_request, Guarded, Owned, Random, Tally, BY_PAIR};

type Pair = (u16, u16);

/// A house of one login, whose folders have these clients, each with a class of its own.
fn house(clients: &[u16]) -> Owned {
    Owned::new(1, &clients.iter().map(|&client| (client, client)).collect::<Vec<_>>())
}

/// The number of the register check's answer.
#[track_caller]
fn checked(house: &Owned) -> u16 {
    let answer = same_check(&house.lend());
    if let Err(refusal) = answer {
        assert!(refusal != Refusal::BadPairs || refusal.numbers() == [11, 0, 0]);
    }
    answer.map_or_else(|refusal| refusal.numbers()[0], |()| 0)
}

/// A request of login 0 on this row: the number and the folder carried.
#[track_caller]
fn asked(house: &Owned, row: &[u8], folder: u16, kind: u16) -> (u16, u16) {
    let mut random = Random::new(90);
    let (mut matrix, mut log) = (Guarded::new(&mut random, row), Guarded::new(&mut random, &[0xa5; 40]));
    let reply = same_request(&house.lend(), &mut matrix, Ask { login: 0, folder, kind }, &mut log, 3, 200);
    reply.answer.map_or_else(|refusal| (refusal.numbers()[0], refusal.numbers()[1]), |_| (0, 0))
}

// ---------------------------------------------------------------- the readings, by hand

/// The incident: two readers are each in conflict with one author, not with each other.
#[test]
fn the_incident() {
    let pairs = [(7, 8), (7, 9)];
    let room = Owned::new(1, &[(1, 7), (1, 8), (1, 9)]).paired(1, &pairs);
    assert_eq!(asked(&room, &[0, 1, 0], 2, 1), (0, 0));
    assert_eq!(asked(&room, &[0, 0, 1], 1, 1), (0, 0));
    assert_eq!(asked(&room, &[0, 1, 1], 0, 1), (20, 1));
    assert_eq!(asked(&room, &[1, 0, 0], 1, 1), (20, 0));
    assert_eq!(asked(&room, &[1, 0, 0], 2, 1), (20, 0));
    // By classes the readers would stand in each other's way.
    assert_eq!(asked(&Owned { mode: 0, ..room }, &[0, 1, 0], 2, 1), (20, 1));
}

#[test]
fn whichever_way_round() {
    for pairs in [[(3, 5)], [(5, 3)]] {
        let house = house(&[3, 5, 6]).paired(1, &pairs);
        for kind in 1..=4 {
            assert_eq!(asked(&house, &[1, 0, 0], 1, kind), (20, 0));
            assert_eq!(asked(&house, &[0, 1, 0], 0, kind), (20, 1));
        }
        assert_eq!(asked(&house, &[1, 1, 0], 2, 1), (0, 0));
        assert_eq!(asked(&house, &[0, 0, 1], 0, 1), (0, 0));
    }
}

/// A chain of pairs joins its neighbours only.
#[test]
fn not_transitive() {
    let house = house(&[1, 2, 3, 4]).paired(1, &[(1, 2), (3, 2), (3, 4)]);
    for asked_for in 0..4_u16 {
        for read in 0..4_u16 {
            let mut row = [0; 4];
            row[usize::from(read)] = 1;
            let expected = if asked_for.abs_diff(read) == 1 { (20, read) } else { (0, 0) };
            assert_eq!(asked(&house, &row, asked_for, 1), expected, "folder {asked_for}, folder {read} read");
        }
    }
}

/// Neither does one class make a conflict, nor do two keep a pair from making one.
#[test]
fn classes_play_no_part() {
    let one_class = Owned::new(1, &[(9, 1), (9, 2), (9, 3)]);
    assert_eq!(asked(&one_class, &[1, 0, 0], 1, 1), (20, 0));
    assert_eq!(asked(&one_class.clone().paired(1, &[]), &[1, 0, 0], 1, 1), (0, 0));
    assert_eq!(asked(&one_class.paired(1, &[(1, 3)]), &[1, 0, 0], 1, 1), (0, 0));

    let two_classes = Owned::new(1, &[(8, 1), (9, 2), (9, 3)]);
    assert_eq!(asked(&two_classes, &[1, 0, 0], 1, 1), (0, 0));
    assert_eq!(asked(&two_classes.paired(1, &[(1, 2)]), &[1, 0, 0], 1, 1), (20, 0));
}

/// 1, 2 and 3 apply in pair mode as in class mode, and carry the same.
#[test]
fn one_two_and_three_apply() {
    let numbers = |house: &Owned| same_check(&house.lend()).unwrap_err().numbers();
    for pairs in [&[][..], &[(1, 2)]] {
        for mode in BY_PAIR {
            assert_eq!(numbers(&Owned::new(129, &[(1, 1)]).paired(mode, pairs)), [1, 0, 0]);
            assert_eq!(numbers(&Owned::new(1, &[]).paired(mode, pairs)), [1, 0, 0]);
            assert_eq!(numbers(&Owned::new(1, &[(1, 4), (2, 4), (0, 5)]).paired(mode, pairs)), [2, 2, 0]);
            assert_eq!(numbers(&Owned::new(1, &[(1, 1), (1, 4), (2, 4)]).paired(mode, pairs)), [3, 2, 1]);
        }
    }
}

/// A folder stands in the way if its client does, whoever else has a folder of the same class, and the smallest one is named, whichever
/// pair comes first.
#[test]
fn smallest_rival() {
    let pairs = [(9, 2), (1, 9), (9, 3)];
    let rivals = house(&[4, 3, 9, 1, 2, 9]).paired(1, &pairs);
    assert_eq!(asked(&rivals, &[1, 1, 0, 1, 1, 0], 2, 1), (20, 1));
    assert_eq!(asked(&rivals, &[1, 0, 0, 1, 1, 0], 5, 1), (20, 3));
    assert_eq!(asked(&rivals, &[1, 0, 0, 0, 1, 1], 2, 1), (20, 4));
    assert_eq!(asked(&rivals, &[1, 0, 0, 0, 0, 1], 2, 1), (0, 0));
    // Only what may be read is a rival.
    assert_eq!(asked(&rivals, &[2, 2, 0, 2, 2, 0], 2, 3), (0, 0));
    assert_eq!(asked(&rivals, &[2, 2, 0, 2, 3, 0], 2, 3), (20, 4));
}

/// Foreign and at stake are by client, in conflict or not.
#[test]
fn foreign_and_at_stake_by_client() {
    let house = Owned::new(1, &[(0, 0), (1, 1), (2, 2), (3, 3)]).paired(1, &[(1, 2)]);
    // Client 3 is in conflict with nobody.
    assert_eq!(asked(&house, &[0, 0, 0, 1], 1, 3), (21, 3));
    assert_eq!(asked(&house, &[0, 0, 0, 1], 1, 4), (21, 3));
    assert_eq!(asked(&house, &[0, 0, 0, 2], 1, 2), (22, 3));
    assert_eq!(asked(&house, &[0, 0, 0, 1], 0, 3), (21, 3));
    assert_eq!(asked(&house, &[2, 0, 0, 0], 1, 2), (22, 0));
    // A rival speaks before a smaller foreign folder, and before what is at stake.
    let other = house.clone().paired(1, &[(1, 3)]);
    assert_eq!(asked(&other, &[0, 0, 1, 1], 1, 3), (20, 3));
    assert_eq!(asked(&other, &[2, 0, 0, 1], 1, 2), (20, 3));
    // A grant takes every write right back that is at stake, whether its client is in conflict or not.
    let mut random = Random::new(91);
    let mut matrix = Guarded::new(&mut random, &[2, 2, 2, 3]);
    let mut log = Guarded::new(&mut random, &[0; 20]);
    let ask = Ask { login: 0, folder: 1, kind: 1 };
    let reply = same_request(&house.lend(), &mut matrix, ask, &mut log, 0, 5);
    assert_eq!(reply, Reply { answer: Ok(3), end: 9, serial: 6 });
    assert_eq!(matrix.inner(), [0, 3, 0, 1]);
    assert_eq!(log.inner()[..9], [5, 0, 1, 1, 0, 3, 0, 2, 3]);
}

/// A sanitised folder is never in conflict: not as the asked one, nor as one that may be read.
#[test]
fn sanitised_folders() {
    let house = Owned::new(1, &[(0, 0), (1, 1), (1, 2), (0, 0)]).paired(1, &[(1, 2)]);
    assert_eq!(asked(&house, &[0, 1, 1, 1], 0, 1), (0, 0));
    assert_eq!(asked(&house, &[1, 0, 0, 1], 1, 1), (0, 0));
    assert_eq!(asked(&house, &[1, 0, 0, 1], 2, 4), (0, 0));
    assert_eq!(asked(&house, &[1, 0, 0, 0], 3, 3), (0, 0));
}

/// Repeated, reversed and overlapping pairs pass, and clients without a folder.
#[test]
fn pairs_that_pass() {
    let labels = house(&[1, 2, 3]);
    let lists: [&[Pair]; 7] = [
        &[(1, 2), (1, 2)],
        &[(1, 2), (2, 1)],
        &[(1, 2), (2, 1), (1, 2), (1, 2), (2, 1)],
        &[(1, 2), (1, 9), (2, 9)],
        &[(9, 1), (1, 2), (8, 9)],
        &[(65_535, 1), (2, 1), (1, 65_535)],
        &[(2, 1)],
    ];
    for pairs in lists {
        let house = labels.clone().paired(1, pairs);
        assert_eq!(checked(&house), 0);
        assert_eq!(asked(&house, &[1, 0, 1], 1, 1), (20, 0));
        assert_eq!(asked(&house, &[1, 1, 0], 2, 1), (0, 0));
    }
    for strangers in [&[(8, 9)][..], &[(9, 8), (65_535, 65_534)]] {
        assert_eq!(asked(&labels.clone().paired(1, strangers), &[1, 1, 0], 2, 1), (0, 0));
    }
}

/// In class mode pairs are not looked at: good ones make no conflict and take none away, bad ones are no fault.
#[test]
fn idle_in_class_mode() {
    let labels = Owned::new(1, &[(1, 1), (1, 2), (2, 3)]);
    let lists: [(&[u16], &[u16]); 7] = [
        (&[], &[]),
        (&[1], &[3]),
        (&[3, 2], &[1, 3]),
        (&[0], &[0]),
        (&[1, 1], &[2]),
        (&[2], &[2]),
        (&[1; 300], &[3; 300]),
    ];
    for (firsts, seconds) in lists {
        let house = Owned { firsts: firsts.to_vec(), seconds: seconds.to_vec(), ..labels.clone() };
        assert_eq!(checked(&house), 0);
        assert_eq!(asked(&house, &[1, 0, 1], 1, 1), (20, 0));
        assert_eq!(asked(&house, &[1, 1, 0], 2, 1), (0, 0));
        assert_eq!(asked(&house, &[0, 0, 1], 0, 1), (0, 0));
    }
}

/// Every mode but 0 is by pair.
#[test]
fn every_mode() {
    let one_class = Owned::new(1, &[(1, 1), (1, 2), (1, 3)]);
    for mode in 1..=255 {
        let house = one_class.clone().paired(mode, &[(2, 3)]);
        assert_eq!(asked(&house, &[1, 0, 0], 1, 1), (0, 0), "mode {mode}");
        assert_eq!(asked(&house, &[0, 1, 0], 2, 1), (20, 1), "mode {mode}");
        assert_eq!(checked(&one_class.clone().paired(mode, &[(2, 2)])), 11, "mode {mode}");
    }
}

// ---------------------------------------------------------------- 11

/// Lists of these lengths, with good pairs as far as they go.
fn lists(firsts: usize, seconds: usize, mode: u8) -> Owned {
    let firsts = (0..firsts).map(|at| 1 + (at % 7) as u16).collect();
    let seconds = (0..seconds).map(|at| 8 + (at % 5) as u16).collect();
    Owned { mode, firsts, seconds, ..house(&[1, 8, 65_535]) }
}

/// 0 and 256 pairs pass and 257 do not, nor any other number above, nor lists of unequal length.
#[test]
fn lengths() {
    let lengths = [0, 1, 2, 127, 128, 255, 256, 257, 258, 511, 512, 513, 1024, 65_535, 65_536, 65_537, 65_792, 131_072];
    let mut tally = Tally::default();
    for firsts in lengths {
        for seconds in lengths {
            for mode in [1, 255] {
                let number = checked(&lists(firsts, seconds, mode));
                assert_eq!(number == 0, firsts == seconds && firsts <= 256, "{firsts} and {seconds}");
                tally.add(number);
                if number == 11 {
                    assert_eq!(asked(&lists(firsts, seconds, mode), &[0, 0, 0], 0, 1), (11, 0));
                }
            }
            assert_eq!(checked(&lists(firsts, seconds, 0)), 0, "class mode, {firsts} and {seconds}");
        }
    }
    tally.met(&[0, 11], 7);
}

/// Each of up to 256 pairs counts, the first and the last too; and none of them hides another.
#[test]
fn every_pair_counts() {
    for count in [1, 2, 3, 7, 8, 9, 63, 64, 65, 127, 128, 129, 254, 255, 256] {
        for at in 0..count {
            let mut pairs: Vec<Pair> = (0..count as u16).map(|other| (1_000 + other, 2_000 + other)).collect();
            pairs[at] = if at % 2 == 0 { (3, 5) } else { (5, 3) };
            let house = house(&[3, 5]).paired(1, &pairs);
            assert_eq!(asked(&house, &[1, 0], 1, 1), (20, 0), "pair {at} of {count}");
            assert_eq!(asked(&house, &[0, 1], 0, 1), (20, 1), "pair {at} of {count}");
        }
    }
}

/// One bad pair among good ones, at every place: client 0 on either side, on both, and one client twice. In class mode it is nothing.
#[test]
fn a_bad_pair_at_every_place() {
    let clients = house(&[1, 2, 65_535]);
    for count in [1, 2, 3, 64, 65, 255, 256] {
        let good: Vec<Pair> = (0..count as u16).map(|at| (1 + at, 300 + at)).collect();
        assert_eq!(checked(&clients.clone().paired(1, &good)), 0);
        for at in 0..count {
            let (first, second) = good[at];
            for bad in [(0, second), (first, 0), (0, 0), (first, first), (second, second), (65_535, 65_535)] {
                let mut pairs = good.clone();
                pairs[at] = bad;
                let house = clients.clone().paired(1, &pairs);
                assert_eq!(checked(&house), 11, "{bad:?} at {at} of {count}");
                assert_eq!(checked(&Owned { mode: 0, ..house }), 0);
            }
        }
    }
}

/// Numbers that are alike in some bits only are two clients.
#[test]
fn nearly_one_client_twice() {
    let labels = house(&[1]);
    for bit in 0..16 {
        for client in [1, 2, 255, 256, 257, 32_768, 65_535] {
            let other = client ^ 1 << bit;
            let expected = if other == 0 { 11 } else { 0 };
            assert_eq!(checked(&labels.clone().paired(1, &[(client, other)])), expected, "{client} and {other}");
        }
    }
}

/// All the faults at once, then one fewer from the top, and so on: 11 comes after 3 and before 4, in pair mode alone.
#[test]
fn eleven_in_its_place() {
    let bad: [(Vec<u16>, Vec<u16>); 5] = [
        (vec![1, 2], vec![3]),
        (vec![], vec![3]),
        (vec![1; 257], vec![2; 257]),
        (vec![1, 0], vec![2, 2]),
        (vec![1, 2], vec![2, 2]),
    ];
    for (firsts, seconds) in bad {
        for mode in [0, 1, 255] {
            let mut random = Random::new(92);
            let (firsts, seconds) = (firsts.clone(), seconds.clone());
            let mut house = Owned { mode, firsts, seconds, ..Owned::new(129, &[(1, 4), (2, 4), (0, 1)]) };
            let mut matrix = vec![9, 9, 9, 9];
            let mut ask = Ask { login: 2, folder: 3, kind: 0 };
            let mut end = 3;
            let (mut checks, mut requests) = (Vec::new(), Vec::new());
            for step in 0..11 {
                match step {
                    1 => house.logins = 2,
                    2 => house.classes[2] = 3,
                    3 => house.clients[1] = 5,
                    4 => house = house.paired(mode, &[]),
                    5 => matrix = vec![4, 9, 1, 1, 9, 9],
                    6 => ask.login = 0,
                    7 => house.persons = vec![0, 1],
                    8 => ask.folder = 1,
                    9 => ask.kind = 3,
                    10 => (matrix, end) = (vec![0; 6], 2),
                    _ => {}
                }
                let mut m = Guarded::new(&mut random, &matrix);
                let mut l = Guarded::new(&mut random, &[0; 2]);
                let reply = same_request(&house.lend(), &mut m, ask, &mut l, end, 7);
                requests.push(reply.answer.map_or_else(|refusal| refusal.numbers()[0], |_| 0));
                checks.push(checked(&house));
            }
            let eleven = |otherwise| if mode == 0 { otherwise } else { 11 };
            assert_eq!(requests, [1, 2, 3, eleven(4), 4, 5, 10, 6, 7, 8, 30]);
            assert_eq!(checks, [1, 2, 3, eleven(0), 0, 0, 0, 0, 0, 0, 0]);
        }
    }
}

/// 11 changes no byte and hands end and serial on as they came, whatever they are.
#[test]
fn eleven_changes_nothing() {
    let mut random = Random::new(93);
    for _ in 0..20_000 {
        let folders = random.range(1, 12);
        let mut house = Owned::good(&mut random, 2, folders, 4).with_pairs(&mut random);
        house.damage_pairs(&mut random);
        let (matrix_len, log_len) = (random.pick(&[2 * folders, 2 * folders, 0, 7]), random.pick(&[0, 1, 40]));
        let (content, bytes) = (cells(&mut random, matrix_len), random.bytes(log_len));
        let (matrix, log) = (Guarded::new(&mut random, &content), Guarded::new(&mut random, &bytes));
        let (end, serial) = (random.pick(&[0, 1, 40, 41, usize::MAX]), support::serial(&mut random));
        let ask = Ask {
            login: random.below(3) as u16,
            folder: random.below(folders + 1) as u16,
            kind: random.below(6) as u16,
        };
        let (mut left_matrix, mut left_log) = (matrix.clone(), log.clone());
        let reply = same_request(&house.lend(), &mut left_matrix, ask, &mut left_log, end, serial);
        if checked(&house) == 11 {
            assert_eq!(reply, Reply { answer: Err(Refusal::BadPairs), end, serial });
            assert!(left_matrix == matrix && left_log == log);
        }
    }
}

// ---------------------------------------------------------------- which clients

/// One pair, and every number there is as the client of the folder that may be read, and of the one asked for.
#[test]
fn every_client() {
    for (one, other) in [(7, 1_031), (1, 65_535), (32_768, 256)] {
        for client in 1..=65_535 {
            if client == one {
                continue;
            }
            let row = [1, 0];
            let expected = if client == other { (20, 0) } else { (0, 0) };
            let read = Owned::new(1, &[(5, client), (5, one)]).paired(1, &[(one, other)]);
            let mut matrix = row;
            let mut log = [0; 8];
            let ask = Ask { login: 0, folder: 1, kind: 1 };
            let reply = support::raw_request(&read.lend(), &mut matrix, ask, &mut log, 0, 0);
            assert_eq!((reply.number, reply.first), expected, "pair {one} and {other}, client {client} read");
            let mut matrix = row;
            let asked = Owned::new(1, &[(5, one), (5, client)]).paired(1, &[(one, other)]);
            let reply = support::raw_request(&asked.lend(), &mut matrix, ask, &mut log, 0, 0);
            assert_eq!((reply.number, reply.first), expected, "pair {one} and {other}, client {client} asked for");
        }
    }
}

/// Clients a power of two apart, or alike but for a bit, which fall together in any table that takes some of a number's bits: in full
/// houses, in which just one may be read.
#[test]
fn clients_that_fall_together() {
    let mut random = Random::new(94);
    let mut tally = Tally::default();
    for step in [1, 2, 64, 127, 128, 255, 256, 257, 512, 1_024, 4_096, 16_384, 32_768] {
        let mut clients: Vec<u16> = (0..512).map(|at| (1 + at * step % 65_536) as u16).filter(|&k| k != 0).collect();
        clients.resize(512, 1);
        let labels: Vec<(u16, u16)> = clients.iter().map(|&client| (1, client)).collect();
        let own = clients[0];
        for _ in 0..12 {
            let pairs: Vec<Pair> = (0..256)
                .map(|at| match (random.pick(&clients), random.pick(&clients)) {
                    (first, second) if at % 2 == 0 && first != own && first != second => (first, second),
                    (first, _) if first != own => (own, first),
                    _ => (own, own ^ 1 << random.range(1, 15)),
                })
                .collect();
            let house = Owned::new(1, &labels).paired(1, &pairs);
            assert_eq!(checked(&house), 0);
            for _ in 0..12 {
                let mut row = vec![0; 512];
                row[random.below(512)] = 1;
                tally.add(asked(&house, &row, 0, 1).0);
            }
        }
    }
    tally.met(&[0, 20], 300);
}

/// Every way in which three clients can be paired, each pair absent, one way round or the other, over three sorts of classes: every row
/// of four folders, one of them sanitised, every folder and kind.
#[test]
fn every_small_house_of_pairs() {
    let labels: [[(u16, u16); 4]; 3] =
        [[(0, 0), (1, 1), (1, 2), (1, 3)], [(0, 0), (1, 1), (2, 2), (3, 3)], [(1, 1), (0, 0), (1, 2), (2, 3)]];
    let mut random = Random::new(95);
    let mut tally = Tally::default();
    let before = Guarded::new(&mut random, &[0; 32]);
    for labels in labels {
        for code in 0..27 {
            let mut pairs = Vec::new();
            for (digit, (one, other)) in [(1, 2), (1, 3), (2, 3)].into_iter().enumerate() {
                match code / [1, 3, 9][digit] % 3 {
                    0 => {}
                    1 => pairs.push((one, other)),
                    _ => pairs.push((other, one)),
                }
            }
            let house = Owned::new(1, &labels).paired(1, &pairs);
            for row in 0..=255_u8 {
                let row = Guarded::new(&mut random, &[row & 3, row >> 2 & 3, row >> 4 & 3, row >> 6]);
                for folder in 0..4 {
                    for kind in 1..=4 {
                        let ask = Ask { login: 0, folder, kind };
                        let reply = same_request(&house.lend(), &mut row.clone(), ask, &mut before.clone(), 3, 200);
                        tally.add(reply.answer.map_or_else(|refusal| refusal.numbers()[0], |_| 0));
                    }
                }
            }
        }
    }
    tally.met(&[0, 20, 21, 22], 5_000);
}

// ---------------------------------------------------------------- histories

/// The pairs of a register in class mode, written out: every two different clients of one class, in no order, some of them again.
fn written_out(random: &mut Random, house: &Owned) -> Vec<Pair> {
    let mut clients: Vec<(u16, u16)> = reference::labels(&house.lend()).filter(|label| *label != (0, 0)).collect();
    clients.sort_unstable();
    clients.dedup();
    let mut pairs: Vec<Pair> = Vec::new();
    for (at, &(class, client)) in clients.iter().enumerate() {
        for &(other_class, other) in &clients[..at] {
            if class == other_class {
                pairs.push(if random.once_in(2) { (client, other) } else { (other, client) });
            }
        }
    }
    for at in (1..pairs.len()).rev() {
        pairs.swap(at, random.below(at + 1));
    }
    let again = random.below(4).min(256_usize.saturating_sub(pairs.len()));
    for _ in 0..again.min(pairs.len()) {
        let (first, second) = random.pick(&pairs);
        pairs.push((second, first));
    }
    pairs
}

/// Two houses are asked the same, request for request, on the same matrix: they answer the same, and leave the same rights and log.
fn alike(random: &mut Random, houses: [Owned; 2], matrix: &[u8], log_len: usize, tally: &mut Tally) {
    let [one, other] = houses;
    let (mut matrix, mut log) = (Guarded::new(random, matrix), Guarded::new(random, &vec![0; log_len]));
    let (mut other_matrix, mut other_log) = (matrix.clone(), log.clone());
    let (mut end, mut serial) = (0, support::serial(random));
    for _ in 0..150 {
        let ask = any_ask(random, &one);
        let reply = same_request(&one.lend(), &mut matrix, ask, &mut log, end, serial);
        let other = same_request(&other.lend(), &mut other_matrix, ask, &mut other_log, end, serial);
        assert_eq!(reply, other, "{ask:?}");
        tally.add(reply.answer.map_or_else(|refusal| refusal.numbers()[0], |_| 0));
        (end, serial) = (reply.end, reply.serial);
    }
    assert!(matrix == other_matrix && log == other_log);
}

/// With the pairs of a class register written out, pair mode gives class mode's answers, rights and log, over whole histories and on rows
/// that no history leads to.
#[test]
fn classes_written_out_as_pairs() {
    let mut random = Random::new(96);
    let mut tally = Tally::default();
    let mut most = 0;
    for round in 0..400 {
        let (logins, folders) = match round % 40 {
            0 => (random.pick(&[1, 128]), 512),
            _ => (random.range(1, 5), random.range(1, 40)),
        };
        let clients = random.pick(&[2, 3, 5, 8, 22, 23, 40]);
        let by_class = Owned::good(&mut random, logins, folders, clients);
        let pairs = written_out(&mut random, &by_class);
        if pairs.len() > 256 {
            assert_eq!(checked(&by_class.paired(1, &pairs)), 11);
            continue;
        }
        most = most.max(pairs.len());
        let by_pair = by_class.clone().paired(random.pick(&BY_PAIR), &pairs);
        let matrix = match round % 3 {
            0 => cells(&mut random, logins * folders),
            _ => vec![0; logins * folders],
        };
        let log_len = random.pick(&[700, 8_000]);
        alike(&mut random, [by_class, by_pair], &matrix, log_len, &mut tally);
    }
    tally.met(&[0, 5, 6, 7, 20, 21, 22, 30], 100);
    assert!(most > 200, "at most {most} pairs were written out");
}

/// The order of the pairs, the way round of each and pairs that stand there again change nothing.
#[test]
fn the_same_pairs_in_another_form() {
    let mut random = Random::new(97);
    let mut tally = Tally::default();
    for _ in 0..300 {
        let (logins, folders) = (random.range(1, 4), random.range(2, 30));
        let house = Owned::good(&mut random, logins, folders, 9).with_pairs(&mut random);
        let mut pairs: Vec<Pair> = reference::pairs(&house.lend()).collect();
        for at in (1..pairs.len()).rev() {
            pairs.swap(at, random.below(at + 1));
        }
        let again: Vec<Pair> = pairs
            .iter()
            .chain(&pairs)
            .take(256)
            .map(|&(first, second)| if random.once_in(2) { (first, second) } else { (second, first) })
            .collect();
        let other = house.clone().paired(random.pick(&BY_PAIR), &again);
        alike(&mut random, [house, other], &vec![0; logins * folders], 4_000, &mut tally);
    }
    tally.met(&[0, 5, 6, 7, 20, 21, 22], 40);
}

/// The wall itself, seen in what is held and not in any answer: after a history from a blank matrix no person may read two clients that a
/// pair names, and where it may write, it may read nothing of another client.
#[test]
fn no_person_reads_both_of_a_pair() {
    let mut random = Random::new(98);
    let mut kept_apart = 0;
    for _ in 0..400 {
        let (logins, folders) = (random.range(1, 3), random.range(2, 25));
        let house = Owned::good(&mut random, logins, folders, 8).with_pairs(&mut random);
        let (mut matrix, mut log) = (vec![0; logins * folders], vec![0; 20_000]);
        let (mut end, mut serial) = (0, 0);
        for _ in 0..200 {
            let ask = any_ask(&mut random, &house);
            let reply = support::raw_request(&house.lend(), &mut matrix, ask, &mut log, end, serial);
            (end, serial) = (reply.end, reply.serial);
            kept_apart += usize::from(reply.number == 20);
        }
        for row in matrix.chunks(folders) {
            let of = |right: u8| row.iter().zip(&house.clients).filter(move |(cell, _)| *cell & right != 0);
            for (_, &one) in of(1) {
                for (_, &other) in of(1) {
                    let named = reference::pairs(&house.lend()).any(|pair| pair == (one, other));
                    assert!(!named, "clients {one} and {other} may both be read");
                }
                assert!(one == 0 || of(2).all(|(_, &written)| written == one));
            }
        }
    }
    assert!(kept_apart > 5_000, "the wall spoke only {kept_apart} times");
}

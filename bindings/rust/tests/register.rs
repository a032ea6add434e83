//! The register check, held against the reference. What is particular to pairs is in `pairs.rs`.

mod reference;
mod support;

use support::{same_check, Owned, Random, Tally};

/// The same register in class mode, in class mode with pairs that nothing may look at, or by pairs.
fn in_some_mode(random: &mut Random, house: Owned) -> Owned {
    match random.below(3) {
        0 => house,
        1 => house.with_idle_pairs(random),
        _ => house.with_pairs(random),
    }
}

fn number(house: &Owned) -> u16 {
    same_check(&house.lend()).map_or_else(|refusal| refusal.numbers()[0], |()| 0)
}

/// Every register of up to four folders over the numbers 0 to 2.
#[test]
fn every_small_register() {
    let mut tally = Tally::default();
    for folders in 0..=4 {
        for code in 0..9_usize.pow(folders) {
            let labels: Vec<(u16, u16)> = (0..folders)
                .map(|folder| code / 9_usize.pow(folder) % 9)
                .map(|label| ((label / 3) as u16, (label % 3) as u16))
                .collect();
            tally.add(number(&Owned::new(1, &labels)));
        }
    }
    tally.met(&[0, 1, 2, 3], 1);
}

/// Lengths and numbers of logins at their bounds, and lists of unequal length.
#[test]
fn bounds() {
    let lengths = [0, 1, 2, 3, 127, 128, 129, 255, 256, 257, 511, 512, 513, 514, 1024, 65_535, 65_536, 65_537, 100_000];
    let logins = [0, 1, 2, 127, 128, 129, 255, 256, 257, 65_535, 65_536, 65_537, 65_664, 1 << 32, usize::MAX];
    let list = |len: usize| vec![7_u16; len];
    let mut tally = Tally::default();
    for classes in lengths {
        for clients in lengths {
            for logins in logins {
                let house = Owned { classes: list(classes), clients: list(clients), ..Owned::new(logins, &[]) };
                tally.add(number(&house));
            }
        }
    }
    tally.met(&[0, 1], 20);
}

/// Good registers of all sizes, damaged in up to three ways.
#[test]
fn random_registers() {
    let mut random = Random::new(1);
    let mut tally = Tally::default();
    for round in 0..60_000 {
        let logins = random.pick(&[1, 2, 5, 127, 128]);
        let folders = match round % 20 {
            0 => random.range(0, 520),
            1 => random.pick(&[0, 1, 511, 512, 513]),
            _ => random.range(1, 24),
        };
        let clients = random.pick(&[1, 2, 3, 5, 64, 600]);
        let house = Owned::good(&mut random, logins, folders, clients);
        let mut house = in_some_mode(&mut random, house);
        for _ in 0..random.below(4) {
            house.damage(&mut random);
        }
        tally.add(number(&house));
    }
    tally.met(&[0, 1, 2, 3, 11], 2_000);
}

/// Labels without any plan.
#[test]
fn random_labels() {
    let mut random = Random::new(2);
    let mut tally = Tally::default();
    for _ in 0..60_000 {
        let bound = random.pick(&[2, 3, 10, 40, 65_536]);
        let least = random.below(2);
        let folders = random.range(1, 12);
        let labels: Vec<(u16, u16)> = (0..folders)
            .map(|_| ((least + random.below(bound)) as u16, (least + random.below(bound)) as u16))
            .collect();
        tally.add(number(&Owned::new(3, &labels)));
    }
    tally.met(&[0, 2, 3], 3_000);
}

/// Clients chosen so that they fall together in any table that takes some of a number's bits, with one folder of a second class at
/// every place, and with none.
#[test]
fn clients_that_fall_together() {
    let mut random = Random::new(3);
    for step in [1, 2, 3, 64, 127, 128, 255, 256, 257, 511, 512, 513, 1024, 4096, 16_384, 32_768] {
        for folders in [2, 64, 511, 512] {
            // Clients a step apart, round 65,536; where that comes to 0, or to a client again, they have one class anyway.
            let labels: Vec<(u16, u16)> = (0..folders)
                .map(|folder| (1, ((folder + 1) * step % 65_536) as u16))
                .map(|(_, k)| (u16::from(k != 0), k))
                .collect();
            let good = Owned::new(1, &labels);
            assert_eq!(number(&good), 0);
            for _ in 0..40 {
                let mut bad = good.clone();
                let (place, other) = (random.below(folders), random.below(folders));
                bad.clients[place] = bad.clients[other];
                bad.classes[place] = random.pick(&[1, 2]);
                number(&bad);
            }
        }
    }
}

/// Clients that share a slot of the library's table, or a place among its marks, with one folder of a second class at every place.
#[test]
fn clients_that_crowd() {
    let slot: Vec<u16> =
        (1..=65_535_u32).filter(|client| (client + client / 32) % 2048 == 7).map(|client| client as u16).collect();
    let mark: Vec<u16> = (0..511).map(|client| client * 128 + 1).collect();
    let mut tally = Tally::default();
    for crowd in [slot, mark] {
        for folders in [2, 8, 63, 64, 65, 66, 128, 512] {
            for clients in [2, 3, folders / 2, folders] {
                let labels: Vec<(u16, u16)> =
                    (0..folders).map(|folder| (9, crowd[folder % clients % crowd.len()])).collect();
                let mut house = Owned::new(1, &labels);
                assert_eq!(number(&house), 0);
                for place in 0..folders {
                    house.classes[place] = 8;
                    tally.add(number(&house));
                    house.classes[place] = 9;
                }
            }
        }
    }
    tally.met(&[0, 3], 500);
}

/// 512 folders of so many clients, and one folder of a second class at every place in turn.
#[test]
fn a_second_class_at_every_place() {
    for clients in [1, 2, 64, 256, 511, 512] {
        let labels: Vec<(u16, u16)> = (0..512).map(|folder| (9, (folder % clients + 1) as u16)).collect();
        let mut house = Owned::new(128, &labels);
        assert_eq!(number(&house), 0);
        for place in 0..512 {
            house.classes[place] = 8;
            let folders = house.clients.iter().filter(|&&client| client == house.clients[place]).count();
            assert_eq!(number(&house), if folders == 1 { 0 } else { 3 });
            house.classes[place] = 9;
        }
    }
}

/// Refusal 2 is sought through the whole register before 3, and both carry the first that fits.
#[test]
fn two_before_three() {
    let numbers = |labels: &[(u16, u16)]| same_check(&Owned::new(1, labels).lend()).unwrap_err().numbers();
    assert_eq!(numbers(&[(0, 0), (1, 0)]), [2, 1, 0]);
    assert_eq!(numbers(&[(1, 4), (2, 4)]), [3, 1, 0]);
    assert_eq!(numbers(&[(1, 4), (2, 4), (5, 5), (0, 1)]), [2, 3, 0]);
    assert_eq!(numbers(&[(3, 3), (1, 4), (1, 4), (2, 4), (7, 4), (4, 3)]), [3, 3, 1]);
}

//! What is asked in the benchmarks where conflicts are by pair. Numbers, labels, pairs, rows and requests are in no order, as rooms have
//! them.

use crate::inputs::{shuffle, Input, Random};
use crate::reference::{self, Ask, House, Refusal, Searches};

/// A pair of clients.
type Pair = (u16, u16);

/// A register that is known to be good, and the rivals by pairs told from marks: for the making of inputs.
struct Known;

impl Searches for Known {
    fn check(_: &House) -> Result<(), Refusal> {
        Ok(())
    }

    fn rival(house: &House, row: &[u8], folder: usize) -> Option<usize> {
        if !house.is_by_pair() {
            return reference::rival_by_class(house, row, folder);
        }
        let opponent = opponents(house, house.clients[folder]);
        row.iter().zip(house.clients).position(|(cell, &client)| cell & 1 != 0 && opponent[usize::from(client)])
    }
}

/// For each number whether it is a client in conflict with this one.
fn opponents(house: &House, client: u16) -> Vec<bool> {
    let mut opponent = vec![false; 65_536];
    for (first, second) in reference::pairs(house).filter(|&(first, second)| first == client || second == client) {
        opponent[usize::from(if first == client { second } else { first })] = true;
    }
    opponent
}

/// So many different numbers, none of them 0, in no order.
fn different(random: &mut Random, count: usize) -> Vec<u16> {
    let mut numbers: Vec<usize> = (1..65_536).collect();
    shuffle(random, &mut numbers);
    numbers[..count].iter().map(|&number| number as u16).collect()
}

/// So many different pairs drawn among these clients, in no order and either way round.
fn drawn(random: &mut Random, clients: &[u16], count: usize) -> Vec<Pair> {
    let mut pairs: Vec<Pair> = Vec::with_capacity(count);
    while pairs.len() < count {
        let (first, second) = (clients[random.below(clients.len())], clients[random.below(clients.len())]);
        if first != second && !pairs.contains(&(first, second)) && !pairs.contains(&(second, first)) {
            pairs.push((first, second));
        }
    }
    pairs
}

/// One client in a pair with each of these, in no order and either way round.
fn all_with(random: &mut Random, hub: u16, others: &[u16]) -> Vec<Pair> {
    others.iter().map(|&other| if random.below(2) == 0 { (hub, other) } else { (other, hub) }).collect()
}

impl Input {
    /// A house by pairs, of 128 logins, whose folders have these clients; each client has a class of its own, so that by classes no two
    /// are in conflict.
    fn by_pairs(clients: &[u16], pairs: &[Pair]) -> Input {
        let mut input = Input::new(128, clients.len(), |folder| usize::from(clients[folder]));
        input.classes = input.clients.clone();
        input.mode = 1;
        (input.firsts, input.seconds) = pairs.iter().copied().unzip();
        input
    }

    /// The same house by classes: same labels, same rows, same requests.
    pub fn by_classes(&self) -> Input {
        Input { mode: 0, ..self.clone() }
    }

    /// So many clients, or fewer, share a class.
    fn sharing(mut self, clients: usize) -> Input {
        let mut known: Vec<u16> = Vec::new();
        for (class, client) in self.classes.iter_mut().zip(&self.clients) {
            let rank = known.iter().position(|other| other == client).unwrap_or(known.len());
            if rank == known.len() {
                known.push(*client);
            }
            *class = (1 + rank / clients) as u16;
        }
        self
    }

    /// Makes a request; whether it is granted.
    fn ask(&mut self, ask: Ask) -> bool {
        let mut matrix = std::mem::take(&mut self.matrix);
        let reply = reference::request_with::<Known>(&self.house(), &mut matrix, ask, &mut [0; 1024], 0, 0);
        self.matrix = matrix;
        reply.answer.is_ok()
    }

    /// Some thousand requests of all sorts are made, as in a room; then a thousand more are to be asked.
    pub fn after_a_history(mut self) -> Input {
        let mut random = Random(17);
        let mut any = |input: &Input| Ask {
            login: random.below(input.logins) as u16,
            folder: random.below(input.folders()) as u16,
            kind: 1 + random.below(4) as u16,
        };
        for _ in 0..20_000 {
            let ask = any(&self);
            self.ask(ask);
        }
        self.asks = (0..1000).map(|_| any(&self)).collect();
        self
    }

    /// Each login asks to read so many folders in no order, as many as it may, but for those that `spared` says; then some of these
    /// `wanted` are to be asked for by logins to whom that is granted, in no order.
    fn many_reads(mut self, tries: usize, spared: impl Fn(u16) -> bool, wanted: impl Fn(u16) -> bool) -> Input {
        let mut random = Random(19);
        let mut order: Vec<usize> = (0..self.folders()).collect();
        for login in 0..self.logins as u16 {
            shuffle(&mut random, &mut order);
            let read = order.iter().filter(|&&folder| !spared(self.clients[folder])).take(tries);
            for folder in read.copied().collect::<Vec<_>>() {
                self.ask(Ask { login, folder: folder as u16, kind: 1 });
            }
        }
        let folders: Vec<usize> = (0..self.folders()).filter(|&folder| wanted(self.clients[folder])).collect();
        while self.asks.len() < 1000 {
            let (login, folder) = (random.below(self.logins), folders[random.below(folders.len())]);
            let ask = Ask { login: login as u16, folder: folder as u16, kind: 1 };
            let before = self.matrix.clone();
            if self.ask(ask) {
                self.asks.push(ask);
            }
            self.matrix = before;
        }
        self
    }

    /// Every login asks to read one folder.
    fn asking_all(mut self, folder: u16) -> Input {
        self.asks = (0..self.logins as u16).map(|login| Ask { login, folder, kind: 1 }).collect();
        self
    }

    /// Each login may read a hundred folders in no order and one of the last 64, whose client is in conflict with the one to be asked for;
    /// so by pairs, and the two are of one class, so that it is a rival by classes too.
    fn late_rival(mut self) -> Input {
        let mut random = Random(23);
        let folders = self.folders();
        let late: Vec<usize> = (folders - 64..folders).collect();
        for (at, &rival) in late.iter().enumerate() {
            // The rivals' opponents are the first folders: neither has another pair.
            (self.firsts[at], self.seconds[at]) = (self.clients[rival], self.clients[at]);
            self.classes[rival] = self.classes[at];
        }
        let apart = |client: u16| {
            late.iter().enumerate().any(|(at, &f)| client == self.clients[f] || client == self.clients[at])
        };
        let free: Vec<u16> = self.clients.iter().copied().filter(|&client| !apart(client)).collect();
        let pairs = drawn(&mut random, &free, self.firsts.len() - late.len());
        for (at, pair) in pairs.into_iter().enumerate() {
            (self.firsts[late.len() + at], self.seconds[late.len() + at]) = pair;
        }
        for login in 0..self.logins {
            let at = random.below(late.len());
            let row = &mut self.matrix[login * folders..][..folders];
            for _ in 0..100 {
                row[64 + random.below(folders - 128)] = 1;
            }
            row[late[at]] = 1;
            self.asks.push(Ask { login: login as u16, folder: at as u16, kind: 1 });
        }
        self
    }
}

/// Requests at 512 folders and, but for a house without, 256 pairs; each with whether the row is put back after it. By classes the
/// same requests get the same answers, but for those of all sorts, and for the one where an author is refused.
pub fn requests() -> Vec<(&'static str, Input, bool)> {
    let mut random = Random(29);
    let distinct = different(&mut random, 512);
    let of_64: Vec<u16> = {
        let clients = different(&mut random, 64);
        let mut folders: Vec<usize> = (0..512).collect();
        shuffle(&mut random, &mut folders);
        folders.iter().map(|folder| clients[folder % 64]).collect()
    };
    let own = Input::by_pairs(&distinct, &drawn(&mut random, &distinct, 256));
    let shared = Input::by_pairs(&of_64, &drawn(&mut random, &of_64, 256));
    let none = Input::by_pairs(&distinct, &[]);
    let mut folders: Vec<usize> = (0..512).collect();
    shuffle(&mut random, &mut folders);
    let [author, readers @ ..] = &folders[..257] else { unreachable!("there are more") };
    let readers: Vec<u16> = readers.iter().map(|&folder| distinct[folder]).collect();
    let hub = Input::by_pairs(&distinct, &all_with(&mut random, distinct[*author], &readers));
    let is_author = |client: u16| client == distinct[*author];
    let is_reader = |client: u16| readers.contains(&client);
    let any = |_: u16| true;
    let nobody = |_: u16| false;
    vec![
        ("all clients distinct: read, blank row", own.clone().asking(127, 300, 1), true),
        ("… read again, many read rights", own.clone().many_reads(512, nobody, any), false),
        ("… read, refused with 20 for a late folder", own.clone().late_rival(), false),
        ("… a thousand of all sorts", own.sharing(2).after_a_history(), true),
        ("64 clients: read, blank row", shared.clone().asking(127, 300, 1), true),
        ("… read again, many read rights", shared.clone().many_reads(512, nobody, any), false),
        ("… a thousand of all sorts", shared.sharing(8).after_a_history(), true),
        (
            "an author and 256 readers: the author, many read rights",
            hub.clone().many_reads(512, is_reader, is_author),
            false,
        ),
        (
            "… the author, refused with 20",
            hub.clone().many_reads(512, is_author, is_reader).asking_all(*author as u16),
            true,
        ),
        ("… a reader, many read rights", hub.clone().many_reads(512, is_author, is_reader), false),
        ("… a thousand of all sorts", hub.after_a_history(), true),
        ("no pairs: read again, many read rights", none.clone().many_reads(512, nobody, any), false),
        ("… a thousand of all sorts", none.after_a_history(), true),
    ]
}

/// Clients and pairs chosen against a library that keeps opponents in some table: numbers that are alike in their low bits or in their
/// high ones, each in a block of 64 of its own, or of one slot of the register check's table; pairs drawn among them, or all with the
/// one that is asked for.
pub fn adversaries() -> Vec<(String, Input)> {
    let mut random = Random(31);
    let crowded: Vec<u16> =
        (1..65_536_usize).filter(|client| (client + client / 32) % 2048 == 7).map(|client| client as u16).collect();
    let mut step = |by: usize| {
        let mut folders: Vec<usize> = (0..512).collect();
        shuffle(&mut random, &mut folders);
        folders.iter().map(|folder| (1 + folder * by % 65_536 + folder * by / 65_536) as u16).collect::<Vec<u16>>()
    };
    let houses = [
        ("clients in steps of 64", step(64)),
        ("clients in steps of 128", step(128)),
        ("clients in steps of 256", step(256)),
        ("clients in steps of 1,024", step(1_024)),
        ("clients in steps of 4,096", step(4_096)),
        ("clients one after the other", step(1)),
        (
            "clients in blocks of 64 of their own",
            (0..512).map(|block| (block * 128 + 1 + random.below(126)) as u16).collect(),
        ),
        (
            "clients of one slot of the register's table",
            (0..512).map(|folder| crowded[folder % crowded.len()]).collect(),
        ),
    ];
    let mut inputs = Vec::new();
    for (name, clients) in houses {
        let (drawn, hub) = (drawn_among(&mut random, &clients), all_with_one(&mut random, &clients));
        inputs.push((format!("{name}, 256 pairs drawn among them"), drawn(512)));
        inputs.push(("… all 256 pairs with the one asked for".to_string(), hub(512)));
        if name == "clients in steps of 64" {
            inputs.push(("… the same, 8 read rights".to_string(), hub(8)));
            inputs.push(("… the drawn ones, 8 read rights".to_string(), drawn(8)));
        }
    }
    inputs
}

/// 256 pairs drawn among these clients, of whom each person may read so many folders.
fn drawn_among<'a>(random: &mut Random, clients: &'a [u16]) -> impl Fn(usize) -> Input + 'a {
    let pairs = drawn(random, clients, 256);
    move |reads| Input::by_pairs(clients, &pairs).many_reads(reads, |_| false, |_| true)
}

/// 256 pairs of one of these clients, which is to be asked for, with others; where there are too few of them, pairs stand there again.
fn all_with_one<'a>(random: &mut Random, clients: &'a [u16]) -> impl Fn(usize) -> Input + 'a {
    let hub = clients[300];
    let mut others: Vec<u16> = clients.iter().copied().filter(|&client| client != hub).collect();
    others.sort_unstable();
    others.dedup();
    others.truncate(256.min(others.len() / 2));
    let again: Vec<u16> = others.iter().copied().cycle().take(256).collect();
    let pairs = all_with(random, hub, &again);
    move |reads| {
        let spared = |client: u16| others.contains(&client);
        Input::by_pairs(clients, &pairs).many_reads(reads, spared, |client| client == hub)
    }
}

/// Houses whose pairs grow: 512 folders, all clients distinct, many read rights.
pub fn growing() -> Vec<(usize, Input)> {
    let mut random = Random(37);
    let clients = different(&mut random, 512);
    let pairs = drawn(&mut random, &clients, 256);
    // One set of rows for all of them: what the most pairs allow.
    let most = Input::by_pairs(&clients, &pairs).many_reads(512, |_| false, |_| true);
    let of = |count: usize| {
        let (firsts, seconds) = pairs[..count].iter().copied().unzip();
        Input { firsts, seconds, ..most.clone() }
    };
    [0, 64, 128, 256].map(|count| (count, of(count))).into()
}

/// Registers by pairs, with whether they are accepted.
pub fn registers() -> Vec<(&'static str, Input, bool)> {
    let mut random = Random(41);
    let clients = different(&mut random, 512);
    let pairs = drawn(&mut random, &clients, 256);
    let good = Input::by_pairs(&clients, &pairs);
    let mut bad = good.clone();
    bad.seconds[255] = bad.firsts[255];
    let few: Vec<u16> = (0..8).map(|folder| clients[folder % 5]).collect();
    let small = Input::by_pairs(&few, &drawn(&mut random, &few, 6));
    vec![
        ("512 folders, 256 pairs", good, true),
        ("… the last names one client twice", bad, false),
        ("512 folders, no pairs", Input::by_pairs(&clients, &[]), true),
        ("8 folders, 256 pairs", Input::by_pairs(&few, &pairs), true),
        ("8 folders, 6 pairs", small, true),
    ]
}

//! What the tests share: a small generator of numbers, buffers with guard bytes, houses good and bad, and the calls in which the
//! library is held against the reference, once through its C interface and once through the safe crate.

#![allow(dead_code)]

use housechervil::{
    ClassNo, ClientNo, Conflicts, FolderNo, KindNo, LogFault, LoginNo, PackError, PersonNo, Register, Request, Serial,
    UnpackError,
};

use crate::reference::{self, Ask, Fault, House, Record, Refusal, Reply, Stretch, Text};

#[allow(non_camel_case_types)]
#[path = "../../src/sys.rs"]
pub mod sys;

// ---------------------------------------------------------------- numbers and buffers

/// A generator of numbers (SplitMix64), the same ones on every run.
pub struct Random(u64);

impl Random {
    pub fn new(seed: u64) -> Random {
        Random(seed)
    }

    pub fn next(&mut self) -> u64 {
        self.0 = self.0.wrapping_add(0x9e37_79b9_7f4a_7c15);
        let z = (self.0 ^ (self.0 >> 30)).wrapping_mul(0xbf58_476d_1ce4_e5b9);
        let z = (z ^ (z >> 27)).wrapping_mul(0x94d0_49bb_1331_11eb);
        z ^ (z >> 31)
    }

    /// A number below `bound`.
    pub fn below(&mut self, bound: usize) -> usize {
        ((u128::from(self.next()) * bound as u128) >> 64) as usize
    }

    /// A number from `low` to `high`, both included.
    pub fn range(&mut self, low: usize, high: usize) -> usize {
        low + self.below(high - low + 1)
    }

    /// True once in `n` times.
    pub fn once_in(&mut self, n: usize) -> bool {
        self.below(n) == 0
    }

    pub fn pick<T: Copy>(&mut self, from: &[T]) -> T {
        from[self.below(from.len())]
    }

    pub fn u16(&mut self) -> u16 {
        self.next() as u16
    }

    pub fn byte(&mut self) -> u8 {
        self.next() as u8
    }

    pub fn bytes(&mut self, len: usize) -> Vec<u8> {
        (0..len).map(|_| self.byte()).collect()
    }
}

/// A buffer with guards on both sides, bytes or numbers. Two of them are equal if guards and content are.
#[derive(Clone, PartialEq, Eq, Debug)]
pub struct Guarded<T = u8> {
    all: Vec<T>,
    from: usize,
    len: usize,
}

impl<T: Copy> Guarded<T> {
    fn laid(before: impl IntoIterator<Item = T>, content: &[T], after: impl IntoIterator<Item = T>) -> Guarded<T> {
        let mut all: Vec<T> = before.into_iter().collect();
        let from = all.len();
        all.extend_from_slice(content);
        all.extend(after);
        Guarded { all, from, len: content.len() }
    }

    pub fn inner(&self) -> &[T] {
        &self.all[self.from..][..self.len]
    }

    pub fn inner_mut(&mut self) -> &mut [T] {
        &mut self.all[self.from..][..self.len]
    }
}

impl Guarded {
    /// The content between random guards, of lengths that shift its alignment.
    pub fn new(random: &mut Random, content: &[u8]) -> Guarded {
        let from = random.range(32, 63);
        let (before, after) = (random.bytes(from), random.bytes(32));
        Guarded::laid(before, content, after)
    }

    /// The content between guards that are all the same byte.
    pub fn between(byte: u8, content: &[u8]) -> Guarded {
        Guarded::laid([byte; 65], content, [byte; 65])
    }
}

/// The lists of a house, each between guards. The guards are clients of the house, other ones on each list, so that a pair read there
/// would make a conflict. Those of the person list are no persons, so that an entry read there would be 10; where the list is too short
/// they are, so that it would be none.
#[derive(Clone, PartialEq, Eq)]
struct Lists {
    persons: Guarded<u16>,
    classes: Guarded<u16>,
    clients: Guarded<u16>,
    firsts: Guarded<u16>,
    seconds: Guarded<u16>,
}

impl Lists {
    fn of(house: &House) -> Lists {
        let guards = |skip: usize| house.clients.iter().copied().chain(1..).skip(skip).take(9);
        let laid = |list: &[u16], skip: usize| Guarded::laid(guards(skip), list, guards(skip));
        let beside = [if house.persons.len() < house.logins { 0 } else { 65_535 }; 130];
        Lists {
            persons: Guarded::laid(beside, house.persons, beside),
            classes: laid(house.classes, 3),
            clients: laid(house.clients, 2),
            firsts: laid(house.firsts, 0),
            seconds: laid(house.seconds, 1),
        }
    }

    fn lend(&self, house: &House) -> House<'_> {
        House {
            logins: house.logins,
            persons: self.persons.inner(),
            classes: self.classes.inner(),
            clients: self.clients.inner(),
            mode: house.mode,
            firsts: self.firsts.inner(),
            seconds: self.seconds.inner(),
        }
    }
}

// ---------------------------------------------------------------- houses

/// A house that owns its lists.
#[derive(Clone, Debug)]
pub struct Owned {
    pub logins: usize,
    pub persons: Vec<u16>,
    pub classes: Vec<u16>,
    pub clients: Vec<u16>,
    pub mode: u8,
    pub firsts: Vec<u16>,
    pub seconds: Vec<u16>,
}

/// Modes that are by pair: every one but 0.
pub const BY_PAIR: [u8; 6] = [1, 2, 127, 128, 254, 255];

impl Owned {
    /// A house in class mode, without pairs, each login its own person.
    pub fn new(logins: usize, labels: &[(u16, u16)]) -> Owned {
        let (classes, clients) = labels.iter().copied().unzip();
        let persons = (0..=u16::MAX).take(logins).collect();
        Owned { logins, persons, classes, clients, mode: 0, firsts: Vec::new(), seconds: Vec::new() }
    }

    /// The same with these persons.
    pub fn of_persons(self, persons: &[u16]) -> Owned {
        Owned { persons: persons.to_vec(), ..self }
    }

    /// The same with this mode and these pairs.
    pub fn paired(self, mode: u8, pairs: &[(u16, u16)]) -> Owned {
        let (firsts, seconds) = pairs.iter().copied().unzip();
        Owned { mode, firsts, seconds, ..self }
    }

    pub fn lend(&self) -> House<'_> {
        House {
            logins: self.logins,
            persons: &self.persons,
            classes: &self.classes,
            clients: &self.clients,
            mode: self.mode,
            firsts: &self.firsts,
            seconds: &self.seconds,
        }
    }

    pub fn folders(&self) -> usize {
        self.classes.len()
    }

    /// The row of the login's person in a matrix of this house.
    pub fn row<'m>(&self, matrix: &'m [u8], login: u16) -> &'m [u8] {
        let person = usize::from(self.persons[usize::from(login)]);
        &matrix[person * self.folders()..][..self.folders()]
    }

    /// The same with persons below P: each login its own, one for all of them, two to a person, in turned order, or drawn among all or
    /// among a few.
    pub fn with_persons(mut self, random: &mut Random) -> Owned {
        let logins = self.logins;
        let (way, one, few) = (random.below(7), random.below(logins), random.range(1, logins.min(4)));
        let mut person = |login: usize| match way {
            0 => login,
            1 => one,
            2 => login / 2,
            3 => logins - 1 - login,
            4 => (login + one) % logins,
            5 => (one + random.below(few)) % logins,
            _ => random.below(logins),
        };
        self.persons = (0..logins).map(|login| person(login) as u16).collect();
        self
    }

    /// Damages the person list in one way: its length, or one entry, of whichever login. Some of them happen to do no harm.
    pub fn damage_persons(&mut self, random: &mut Random) {
        let logins = self.logins.min(129);
        let some = random.below(logins.max(1));
        let len = self.persons.len();
        match random.below(5) {
            0 => drop(self.persons.pop()),
            1 => self.persons.push(some as u16),
            2 => {
                let lengths = [0, 1, logins / 2, 2 * logins, 128, 129, 256, 256 + logins, 65_536 + logins];
                self.persons.resize(random.pick(&lengths), some as u16);
            }
            _ if len == 0 => {}
            _ => {
                let (any, high) = (random.below(len), 256 * random.range(1, 255) + some);
                let login = random.pick(&[0, len / 2, len - 1, any]);
                self.persons[login] = random.pick(&[logins, logins + 1, 128, 256, high, 32_768, 65_535]) as u16;
            }
        }
    }

    /// A good register over at most `clients` clients, with sanitised folders among them.
    pub fn good(random: &mut Random, logins: usize, folders: usize, clients: usize) -> Owned {
        // An odd factor takes small numbers to numbers far apart, 0 to 0, and no two to one.
        let spread = random.pick(&[1, 1, 128, 256, 40_503, 65_535]) | 1;
        let classes = random.pick(&[1, 2, 3, clients.max(1)]);
        let shelf = random.pick(&[2, 4, 8, 1000]);
        let labels: Vec<(u16, u16)> = (0..folders)
            .map(|_| match random.range(1, clients.max(1)) as u16 {
                _ if random.once_in(shelf) => (0, 0),
                client => (1 + client % classes as u16, client.wrapping_mul(spread)),
            })
            .collect();
        Owned::new(logins, &labels)
    }

    /// The same by pairs, drawn among its clients and some others: in no order, repeated, reversed and overlapping, or all with one
    /// client.
    pub fn with_pairs(self, random: &mut Random) -> Owned {
        let strangers = random.pick(&[2, 10, 1_000_000]);
        let hub = random.once_in(5).then(|| self.client(random, strangers));
        let several = random.range(1, 12);
        let count = random.pick(&[0, 1, 2, 3, several, several, 64, 255, 256]);
        let mut pairs = Vec::with_capacity(count);
        while pairs.len() < count {
            let first = hub.unwrap_or_else(|| self.client(random, strangers));
            let second = match self.client(random, strangers) {
                second if second == first => random.range(1, 65_535) as u16,
                second => second,
            };
            match random.below(2) {
                _ if first == second => {}
                0 => pairs.push((first, second)),
                _ => pairs.push((second, first)),
            }
        }
        self.paired(random.pick(&BY_PAIR), &pairs)
    }

    /// A client of some folder; once in `strangers` times, or where all is sanitised, any number but 0.
    fn client(&self, random: &mut Random, strangers: usize) -> u16 {
        match random.below(self.folders().max(1)) {
            _ if random.once_in(strangers) => random.range(1, 65_535) as u16,
            folder => match self.clients.get(folder) {
                None | Some(0) => random.range(1, 9) as u16,
                Some(&client) => client,
            },
        }
    }

    /// The same in class mode, with lists of pairs that pair mode would refuse, or not: nothing may look at them.
    pub fn with_idle_pairs(mut self, random: &mut Random) -> Owned {
        self = self.with_pairs(random);
        for _ in 0..random.below(3) {
            self.damage_pairs(random);
        }
        self.mode = 0;
        self
    }

    /// Damages the pairs in one way, or more where they grow; some of them happen to do no harm.
    pub fn damage_pairs(&mut self, random: &mut Random) {
        let place = random.below(self.firsts.len().max(1));
        let any = self.client(random, 10);
        let lists = [&mut self.firsts, &mut self.seconds];
        match random.below(8) {
            0 => lists.into_iter().for_each(|list| list.resize(257, any)),
            1 => lists.into_iter().for_each(|list| list.resize(random.pick(&[256, 258, 300, 512, 513, 70_000]), any)),
            2 => drop(lists[random.below(2)].pop()),
            3 => lists[random.below(2)].push(any),
            4 => lists[random.below(2)].clear(),
            5 | 6 => lists[random.below(2)].iter_mut().skip(place).take(1).for_each(|client| *client = 0),
            _ => {
                let [firsts, seconds] = lists;
                firsts.iter_mut().zip(seconds).skip(place).take(1).for_each(|(first, second)| *first = *second);
            }
        }
    }

    /// Damages the register in one way; some of them happen to do no harm.
    pub fn damage(&mut self, random: &mut Random) {
        if self.mode != 0 && random.once_in(3) {
            return self.damage_pairs(random);
        }
        let place = random.below(self.folders().max(1));
        match random.below(14) {
            0 => self.logins = random.pick(&[0, 129, 130, 65_536, usize::MAX]),
            1 => drop(self.classes.pop()),
            2 => drop(self.clients.pop()),
            3 => self.clients.push(1),
            4 => {
                self.classes.clear();
                self.clients.clear();
            }
            5 | 6 => self.classes.iter_mut().skip(place).take(1).for_each(|class| *class = 0),
            7 | 8 => self.clients.iter_mut().skip(place).take(1).for_each(|client| *client = 0),
            9 | 10 => self.classes.iter_mut().skip(place).take(1).for_each(|class| *class = class.wrapping_add(1)),
            _ => {
                let other = random.below(self.folders().max(1));
                if let Some(&client) = self.clients.get(other) {
                    self.clients.iter_mut().skip(place).take(1).for_each(|c| *c = client);
                }
            }
        }
    }
}

/// A row of cells; the profile makes rows blank, mostly of one right, or mixed.
pub fn cells(random: &mut Random, len: usize) -> Vec<u8> {
    let often = random.pick(&[1, 2, 5, 50, 1_000_000]);
    let rights: &[u8] = random.pick(&[&[1], &[2], &[3], &[1, 2], &[1, 2, 2, 2, 3]]);
    (0..len).map(|_| if random.once_in(often) { random.pick(rights) } else { 0 }).collect()
}

/// Serials at which the record's length changes, and some between.
pub fn serial(random: &mut Random) -> u16 {
    match random.below(3) {
        0 => random.pick(&[0, 1, 126, 127, 128, 129, 16_383, 16_384, 65_534, 65_535]),
        1 => random.below(200) as u16,
        _ => random.u16(),
    }
}

// ---------------------------------------------------------------- the library against the reference

fn register<'a>(house: &House<'a>, conflicts: &'a Conflicts) -> Register<'a> {
    Register::new(house.logins, ClassNo::from_slice(house.classes), ClientNo::from_slice(house.clients), conflicts)
}

/// The conflicts of a house as the safe crate has them. It has no pairs in class mode, and none in lists of unequal length.
pub fn conflicts(house: &House) -> Option<Conflicts> {
    if !house.is_by_pair() {
        return Some(Conflicts::ByClass);
    }
    let pairs = || reference::pairs(house).map(|(first, second)| (ClientNo(first), ClientNo(second)));
    (house.firsts.len() == house.seconds.len()).then(|| Conflicts::ByPair(pairs().collect()))
}

/// The numbers of a refusal of the safe crate.
fn crate_numbers(refusal: housechervil::Refusal) -> [u16; 3] {
    let second = match refusal {
        housechervil::Refusal::Register(housechervil::RegisterError::TwoClasses { earlier, .. }) => earlier.0,
        _ => 0,
    };
    [refusal.number(), refusal.folder().map_or(0, |folder| folder.0), second]
}

/// A refusal of what does not exist names what was asked for.
#[track_caller]
fn same_unknown(refusal: housechervil::Refusal, request: Request) {
    match refusal {
        housechervil::Refusal::Login { asked } => assert_eq!(asked, request.login),
        housechervil::Refusal::Folder { asked } => assert_eq!(asked, request.folder),
        housechervil::Refusal::Kind { asked } => assert_eq!(asked, request.kind),
        _ => (),
    }
}

/// The register check: both ways into the library against the reference.
#[track_caller]
pub fn same_check(house: &House) -> Result<(), Refusal> {
    let expected = reference::check(house);
    let numbers = expected.map_or_else(Refusal::numbers, |()| [0; 3]);

    let lists = Lists::of(house);
    let raw = raw_check(&lists.lend(house));
    assert_eq!([raw.number, raw.first, raw.second], numbers, "C interface on {house:?}");
    assert!(lists == Lists::of(house), "lists or their guards, C interface on {house:?}");

    if let Some(conflicts) = conflicts(house) {
        let safe = register(house, &conflicts).check();
        let safe = safe.map_or_else(|error| crate_numbers(error.into()), |()| [0; 3]);
        assert_eq!(safe, numbers, "safe crate on {house:?}");
    }
    expected
}

/// The register check through the C interface, on the lists where they are.
pub fn raw_check(house: &House) -> sys::hc_register_answer {
    // SAFETY: pointers and lengths are of slices.
    unsafe {
        sys::hc_register_check(
            house.logins,
            house.classes.as_ptr(),
            house.classes.len(),
            house.clients.as_ptr(),
            house.clients.len(),
            house.mode,
            house.firsts.as_ptr(),
            house.firsts.len(),
            house.seconds.as_ptr(),
            house.seconds.len(),
        )
    }
}

/// A request through the C interface, on the lists and buffers where they are.
pub fn raw_request(
    house: &House,
    matrix: &mut [u8],
    ask: Ask,
    log: &mut [u8],
    end: usize,
    serial: u16,
) -> sys::hc_reply {
    // SAFETY: pointers and lengths are of slices; matrix and log are lent as `&mut`.
    unsafe {
        sys::hc_request(
            house.logins,
            house.classes.as_ptr(),
            house.classes.len(),
            house.clients.as_ptr(),
            house.clients.len(),
            house.mode,
            house.firsts.as_ptr(),
            house.firsts.len(),
            house.seconds.as_ptr(),
            house.seconds.len(),
            house.persons.as_ptr(),
            house.persons.len(),
            matrix.as_mut_ptr(),
            matrix.len(),
            ask.login,
            ask.folder,
            ask.kind,
            log.as_mut_ptr(),
            log.len(),
            end,
            serial,
        )
    }
}

/// A request: both ways into the library against the reference. Answer, matrix and log with their guards, end and serial must be
/// the same, and the house's lists stay; then matrix and log are left as the request leaves them.
#[track_caller]
pub fn same_request(
    house: &House,
    matrix: &mut Guarded,
    ask: Ask,
    log: &mut Guarded,
    end: usize,
    serial: u16,
) -> Reply {
    let context = || {
        let person = house.persons.get(usize::from(ask.login)).copied().unwrap_or_default();
        let row = matrix.inner().get(usize::from(person) * house.classes.len()..).unwrap_or_default();
        let row = &row[..row.len().min(house.classes.len())];
        let len = log.inner().len();
        format!("{house:?}, matrix of {}, row {row:?}, {ask:?}, log of {len}, end {end}, serial {serial}", matrix.len)
    };

    let (mut raw_matrix, mut raw_log) = (matrix.clone(), log.clone());
    let (mut safe_matrix, mut safe_log) = (matrix.clone(), log.clone());
    let (mut next_matrix, mut next_log) = (matrix.clone(), log.clone());

    let expected = reference::request(house, next_matrix.inner_mut(), ask, next_log.inner_mut(), end, serial);
    let ([number, first, second], count) = match expected.answer {
        Ok(count) => ([0; 3], count as u16),
        Err(refusal) => (refusal.numbers(), 0),
    };

    let lists = Lists::of(house);
    let raw = raw_request(&lists.lend(house), raw_matrix.inner_mut(), ask, raw_log.inner_mut(), end, serial);
    let reply = sys::hc_reply { number, first, second, count, end: expected.end, serial: expected.serial };
    assert_eq!(raw, reply, "C interface on {}", context());
    assert!(raw_matrix == next_matrix, "matrix or its guards, C interface on {}", context());
    assert!(raw_log == next_log, "log or its guards, C interface on {}", context());
    assert!(lists == Lists::of(house), "lists or their guards, C interface on {}", context());

    if let Some(conflicts) = conflicts(house) {
        let register = register(house, &conflicts);
        let request = Request { login: LoginNo(ask.login), folder: FolderNo(ask.folder), kind: KindNo(ask.kind) };
        let safe = register.request(
            PersonNo::from_slice(house.persons),
            safe_matrix.inner_mut(),
            request,
            safe_log.inner_mut(),
            end,
            Serial(serial),
        );
        let answer = safe.answer.map_or_else(
            |refusal| (crate_numbers(refusal), 0),
            |granted| ([granted.number(), 0, 0], granted.taken_back),
        );
        assert_eq!(answer, ([number, first, second], count), "safe crate on {}", context());
        if let Err(refusal) = safe.answer {
            same_unknown(refusal, request);
        }
        assert_eq!((safe.end, safe.serial.0), (expected.end, expected.serial), "safe crate on {}", context());
        assert!(safe_matrix == next_matrix, "matrix or its guards, safe crate on {}", context());
        assert!(safe_log == next_log, "log or its guards, safe crate on {}", context());
    }

    *matrix = next_matrix;
    *log = next_log;
    expected
}

fn fault_numbers(fault: LogFault) -> Fault {
    Fault { number: fault.number(), place: fault.place() }
}

/// A step of the log reader: both ways into the library against the reference.
#[track_caller]
pub fn same_step(log: &[u8], place: usize) -> Result<Option<Record>, Fault> {
    let expected = reference::step(log, place);
    let none =
        sys::hc_log_item { number: 0, serial: 0, login: 0, folder: 0, kind: 0, answer: 0, count: 0, list: 0, place: 0 };
    let item = match expected {
        Ok(Some(Record { serial, login, folder, kind, answer, count, list, end })) => {
            sys::hc_log_item { number: 0, serial, login, folder, kind, answer, count, list, place: end }
        }
        Ok(None) => sys::hc_log_item { number: 1, place: log.len(), ..none },
        Err(Fault { number, place }) => sys::hc_log_item { number, place, ..none },
    };
    // SAFETY: pointer and length are of a slice.
    let raw = unsafe { sys::hc_log_step(log.as_ptr(), log.len(), place) };
    assert_eq!(raw, item, "C interface at {place} of {log:?}");

    let safe = housechervil::read_record(log, place);
    let fields = safe.map_err(fault_numbers).map(|found| {
        found.map(|record| {
            assert_eq!(record.start(), place);
            Record {
                serial: record.serial().0,
                login: record.login().0,
                folder: record.folder().0,
                kind: record.kind().number(),
                answer: record.verdict().number(),
                count: record.count(),
                list: record.list_place(),
                end: record.end(),
            }
        })
    });
    assert_eq!(fields, expected, "safe crate at {place} of {log:?}");
    if let (Ok(Some(record)), Ok(Some(other))) = (safe, expected) {
        let listed = record.listed();
        assert_eq!(listed.len(), usize::from(record.count()));
        assert!(listed.map(|folder| folder.0).eq(reference::listed(log, &other)), "list at {place} of {log:?}");
    }
    expected
}

/// The whole-log check: both ways into the library against the reference.
#[track_caller]
pub fn same_log_check(log: &[u8]) -> Result<usize, Fault> {
    let expected = reference::check_log(log);
    let (number, value) = expected.map_or_else(|fault| (fault.number, fault.place), |records| (0, records));
    // SAFETY: pointer and length are of a slice.
    let raw = unsafe { sys::hc_log_check(log.as_ptr(), log.len()) };
    assert_eq!(raw, sys::hc_placed { number, value }, "C interface on {log:?}");
    let safe = housechervil::check_log(log).map_err(fault_numbers);
    assert_eq!(safe, expected, "safe crate on {log:?}");
    expected
}

/// The reading of a number: both ways into the library against the reference.
#[track_caller]
pub fn same_number(log: &[u8], place: usize) -> Result<(u16, usize), Fault> {
    let expected = reference::read_number(log, place);
    let answer = match expected {
        Ok((value, place)) => sys::hc_number { number: 0, value, place },
        Err(Fault { number, place }) => sys::hc_number { number, value: 0, place },
    };
    // SAFETY: pointer and length are of a slice.
    let raw = unsafe { sys::hc_number_read(log.as_ptr(), log.len(), place) };
    assert_eq!(raw, answer, "C interface at {place} of {log:?}");
    let safe = housechervil::read_number(log, place).map_err(fault_numbers);
    assert_eq!(safe, expected, "safe crate at {place} of {log:?}");
    expected
}

/// Packing: both ways into the library against the reference, buffers compared whole.
#[track_caller]
pub fn same_pack(cells: &Guarded, packed: &mut Guarded) -> (u16, usize) {
    let (mut raw_cells, mut raw_packed) = (cells.clone(), packed.clone());
    let (safe_cells, mut safe_packed) = (cells.clone(), packed.clone());
    let context = format!("{} cells, {} bytes", cells.len, packed.len);

    let expected = reference::pack(cells.inner(), packed.inner_mut());
    let (number, value) = expected.map_or_else(|refusal| refusal.numbers(), |()| (0, 0));

    let (c, p) = (raw_cells.inner_mut(), raw_packed.inner_mut());
    // SAFETY: pointers and lengths are of slices of two buffers.
    let raw = unsafe { sys::hc_pack(c.as_mut_ptr(), c.len(), p.as_mut_ptr(), p.len()) };
    assert_eq!(raw, sys::hc_placed { number, value }, "C interface, {context}");
    assert!(raw_cells == *cells && raw_packed == *packed, "buffers, C interface, {context}");

    let safe = housechervil::pack_into(safe_cells.inner(), safe_packed.inner_mut());
    let safe = safe.map_or_else(
        |error| (error.number(), if let PackError::Cell { place } = error { place } else { 0 }),
        |()| (0, 0),
    );
    assert_eq!(safe, (number, value), "safe crate, {context}");
    assert!(safe_cells == *cells && safe_packed == *packed, "buffers, safe crate, {context}");
    (number, value)
}

/// Unpacking: both ways into the library against the reference, buffers compared whole.
#[track_caller]
pub fn same_unpack(packed: &Guarded, cells: &mut Guarded) -> u16 {
    let (mut raw_cells, mut raw_packed) = (cells.clone(), packed.clone());
    let (mut safe_cells, safe_packed) = (cells.clone(), packed.clone());
    let context = format!("{} bytes, {} cells", packed.len, cells.len);

    let expected = reference::unpack(packed.inner(), cells.inner_mut());
    let (number, value) = expected.map_or_else(|refusal| refusal.numbers(), |()| (0, 0));

    let (c, p) = (raw_cells.inner_mut(), raw_packed.inner_mut());
    // SAFETY: pointers and lengths are of slices of two buffers.
    let raw = unsafe { sys::hc_unpack(p.as_mut_ptr(), p.len(), c.as_mut_ptr(), c.len()) };
    assert_eq!(raw, sys::hc_placed { number, value }, "C interface, {context}");
    assert!(raw_cells == *cells && raw_packed == *packed, "buffers, C interface, {context}");

    let safe = housechervil::unpack_into(safe_packed.inner(), safe_cells.inner_mut());
    assert_eq!(safe.map_or_else(UnpackError::number, |()| 0), number, "safe crate, {context}");
    assert!(safe_cells == *cells && safe_packed == *packed, "buffers, safe crate, {context}");
    number
}

/// The name to show for a folder: both ways into the library against the reference. The crate's name is compared by the places where
/// it begins and ends, so it is seen to be a part of its text and no copy.
#[track_caller]
pub fn same_name(client: &[u8], house: &[u8], folder: u16) -> Option<Stretch> {
    let expected = reference::folder_name(client, house, folder);
    let (answer, part) = match expected {
        Some(Stretch { text, place, length }) => {
            let (number, whole) = match text {
                Text::Client => (0, client),
                Text::House => (1, house),
            };
            (sys::hc_stretch { number: 0, text: number, place, length }, Some(&whole[place..][..length]))
        }
        None => (sys::hc_stretch { number: 81, text: 0, place: 0, length: 0 }, None),
    };
    let context = || format!("folder {folder}, client's text {}, house's text {}", shown(client), shown(house));
    // SAFETY: pointers and lengths are of slices.
    let raw = unsafe { sys::hc_folder_name(client.as_ptr(), client.len(), house.as_ptr(), house.len(), folder) };
    assert_eq!(raw, answer, "C interface, {}", context());
    let safe = housechervil::folder_name(client, house, FolderNo(folder));
    assert_eq!(safe.map(<[u8]>::as_ptr_range), part.map(<[u8]>::as_ptr_range), "safe crate, {}", context());
    expected
}

/// A text's length and its first bytes.
fn shown(text: &[u8]) -> String {
    format!("of {} bytes, \"{}\"", text.len(), text[..text.len().min(300)].escape_ascii())
}

// ---------------------------------------------------------------- how often each answer came

/// Counts the answers, so that a test can say that it met them all.
#[derive(Default, Debug)]
pub struct Tally(std::collections::BTreeMap<u16, usize>);

impl Tally {
    pub fn add(&mut self, number: u16) {
        *self.0.entry(number).or_default() += 1;
    }

    /// Each of these numbers, and no other, came at least so often.
    #[track_caller]
    pub fn met(&self, numbers: &[u16], least: usize) {
        assert!(self.0.keys().eq(numbers), "met {self:?}, not {numbers:?}");
        assert!(self.0.values().all(|&times| times >= least), "met too seldom: {self:?}");
    }
}

/// Any request, mostly one that the wall decides.
pub fn any_ask(random: &mut Random, house: &Owned) -> Ask {
    let (beyond, past) = (usize::from(random.once_in(40)), usize::from(random.once_in(40)));
    Ask {
        login: random.below(house.logins + beyond) as u16,
        folder: random.below(house.folders() + past) as u16,
        kind: if random.once_in(40) { random.pick(&[0, 5]) } else { random.range(1, 4) as u16 },
    }
}

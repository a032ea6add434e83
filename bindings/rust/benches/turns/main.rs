//! Two builds of the library in turns, in one run: what a change costs or gains. `benches/turns/run BEFORE.a AFTER.a` runs it.
//!
//! Both are linked as shared objects and called through their C interface, on the inputs of the benchmark `speed`; a table says
//! how the time of the second stands to that of the first. Before anything is timed, the two are seen to give the same answers.

#![allow(clippy::incompatible_msrv)]

#[path = "../../tests/reference/mod.rs"]
mod reference;

// Not all of the inputs are used here.
#[allow(dead_code)]
#[path = "../speed/inputs.rs"]
mod inputs;
#[allow(dead_code)]
#[path = "../speed/paired.rs"]
mod paired;
#[path = "../speed/persons.rs"]
mod persons;
#[path = "../speed/timing.rs"]
mod timing;

use std::env;
use std::ffi::{c_char, c_int, c_void, CStr, CString};
use std::hint::black_box;
use std::mem::transmute;

use inputs::{Input, Texts};
use reference::Ask;
use timing::{compare, Task};

// ---------------------------------------------------------------- the two libraries

#[repr(C)]
#[derive(Clone, Copy, PartialEq, Debug)]
struct RegisterAnswer {
    number: u16,
    first: u16,
    second: u16,
}

#[repr(C)]
#[derive(Clone, Copy, PartialEq, Debug)]
struct Reply {
    number: u16,
    first: u16,
    second: u16,
    count: u16,
    end: usize,
    serial: u16,
}

#[repr(C)]
#[derive(Clone, Copy, PartialEq, Debug)]
struct Placed {
    number: u16,
    value: usize,
}

#[repr(C)]
#[derive(Clone, Copy, PartialEq, Debug)]
struct LogItem {
    number: u16,
    serial: u16,
    login: u16,
    folder: u16,
    kind: u16,
    answer: u16,
    count: u16,
    list: usize,
    place: usize,
}

#[repr(C)]
#[derive(Clone, Copy, PartialEq, Debug)]
struct Stretch {
    number: u16,
    text: u16,
    place: usize,
    length: usize,
}

#[rustfmt::skip]
type Check = unsafe extern "C" fn(
    usize, *const u16, usize, *const u16, usize, u8, *const u16, usize, *const u16, usize,
) -> RegisterAnswer;
#[rustfmt::skip]
type Request = unsafe extern "C" fn(
    usize, *const u16, usize, *const u16, usize, u8, *const u16, usize, *const u16, usize,
    *const u16, usize, *mut u8, usize, u16, u16, u16, *mut u8, usize, usize, u16,
) -> Reply;
type LogCheck = unsafe extern "C" fn(*const u8, usize) -> Placed;
type LogStep = unsafe extern "C" fn(*const u8, usize, usize) -> LogItem;
type Copying = unsafe extern "C" fn(*const u8, usize, *mut u8, usize) -> Placed;
type Naming = unsafe extern "C" fn(*const u8, usize, *const u8, usize, u16) -> Stretch;

#[derive(Clone, Copy)]
struct Library {
    check: Check,
    request: Request,
    log_check: LogCheck,
    log_step: LogStep,
    pack: Copying,
    unpack: Copying,
    folder_name: Naming,
}

extern "C" {
    fn dlopen(name: *const c_char, flags: c_int) -> *mut c_void;
    fn dlsym(library: *mut c_void, name: *const c_char) -> *mut c_void;
}

impl Library {
    fn open(variable: &str) -> Library {
        let path = env::var(variable).unwrap_or_else(|_| panic!("{variable} names no shared object"));
        let name = CString::new(path.as_str()).unwrap();
        // RTLD_NOW, and RTLD_LOCAL, so that neither library sees the other's functions
        let library = unsafe { dlopen(name.as_ptr(), 2) };
        assert!(!library.is_null(), "{path} cannot be opened");
        let entry = |name: &CStr| {
            let entry = unsafe { dlsym(library, name.as_ptr()) };
            assert!(!entry.is_null(), "{path} has no {name:?}");
            entry
        };
        // Safety: these are the entries' types in include/housechervil.h.
        unsafe {
            Library {
                check: transmute::<*mut c_void, Check>(entry(c"hc_register_check")),
                request: transmute::<*mut c_void, Request>(entry(c"hc_request")),
                log_check: transmute::<*mut c_void, LogCheck>(entry(c"hc_log_check")),
                log_step: transmute::<*mut c_void, LogStep>(entry(c"hc_log_step")),
                pack: transmute::<*mut c_void, Copying>(entry(c"hc_pack")),
                unpack: transmute::<*mut c_void, Copying>(entry(c"hc_unpack")),
                folder_name: transmute::<*mut c_void, Naming>(entry(c"hc_folder_name")),
            }
        }
    }

    fn check(&self, input: &Input) -> RegisterAnswer {
        let (classes, clients, firsts, seconds) = (&input.classes, &input.clients, &input.firsts, &input.seconds);
        #[rustfmt::skip]
        let answer = unsafe {
            (self.check)(
                input.logins, classes.as_ptr(), classes.len(), clients.as_ptr(), clients.len(),
                input.mode, firsts.as_ptr(), firsts.len(), seconds.as_ptr(), seconds.len(),
            )
        };
        answer
    }

    fn request(&self, input: &Input, matrix: &mut [u8], ask: Ask, log: &mut [u8]) -> Reply {
        let (classes, clients, firsts, seconds) = (&input.classes, &input.clients, &input.firsts, &input.seconds);
        #[rustfmt::skip]
        let reply = unsafe {
            (self.request)(
                input.logins, classes.as_ptr(), classes.len(), clients.as_ptr(), clients.len(),
                input.mode, firsts.as_ptr(), firsts.len(), seconds.as_ptr(), seconds.len(),
                input.persons.as_ptr(), input.persons.len(), matrix.as_mut_ptr(), matrix.len(),
                ask.login, ask.folder, ask.kind, log.as_mut_ptr(), log.len(), 0, 300,
            )
        };
        reply
    }

    fn log_check(&self, log: &[u8]) -> Placed {
        unsafe { (self.log_check)(log.as_ptr(), log.len()) }
    }

    /// The log's records, step by step: how many there are, and a sum over their fields.
    fn walk(&self, log: &[u8]) -> (usize, usize) {
        let (mut place, mut records, mut sum) = (0, 0, 0);
        loop {
            let item = unsafe { (self.log_step)(log.as_ptr(), log.len(), place) };
            if item.number != 0 {
                return (records, sum);
            }
            records += 1;
            sum += usize::from(item.serial) + usize::from(item.folder) + usize::from(item.count) + item.list;
            place = item.place;
        }
    }

    fn folder_name(&self, Texts { client, house }: &Texts, folder: u16) -> Stretch {
        unsafe { (self.folder_name)(client.as_ptr(), client.len(), house.as_ptr(), house.len(), folder) }
    }
}

// ---------------------------------------------------------------- rows

/// Times the second library against the first, and prints the row.
fn row(name: &str, tasks: [Task; 2]) {
    let measured = compare(tasks.into());
    let [after, before] = measured[..] else { unreachable!("two were timed") };
    println!(
        "| {name} | {:.1} | {:.1} | {:.2} ({:.2}) |",
        before.least,
        after.least,
        after.least / before.least,
        before.ratio
    );
}

fn heading(what: &str) {
    println!("\n### {what}\n\n| | before, ns | after, ns | after / before |\n|---|---|---|---|");
}

/// A task that is done again and again.
fn again<'a, R>(mut task: impl FnMut() -> R + 'a) -> Task<'a> {
    Box::new(move |times| {
        for _ in 0..times {
            black_box(task());
        }
    })
}

fn asking<'a>(library: Library, input: &'a Input, restore: bool) -> Task<'a> {
    let mut matrix = input.matrix.clone();
    let mut log = vec![0; 1024];
    let mut asks = input.asks.iter().cycle();
    again(move || {
        let ask = *asks.next().expect("they go round");
        black_box(library.request(black_box(input), black_box(&mut matrix), ask, &mut log));
        if restore {
            let row = input.row(ask.login);
            matrix[row.clone()].copy_from_slice(&input.matrix[row]);
        }
    })
}

/// Both libraries give the same replies and leave the same bytes.
fn agree(libraries: [Library; 2], input: &Input) {
    let [mut one, mut other] = [(input.matrix.clone(), vec![0; 1024]), (input.matrix.clone(), vec![0; 1024])];
    for &ask in &input.asks {
        let first = libraries[0].request(input, &mut one.0, ask, &mut one.1);
        assert_eq!(first, libraries[1].request(input, &mut other.0, ask, &mut other.1));
    }
    assert_eq!(one, other);
}

/// Requests of houses of 128 logins between the smallest and the largest, and of 8 folders with fewer logins, each with whether the row is put back
/// after it: one that reads, one that takes rights back, one that is refused for the last folder, and a thousand of all sorts, whose branches are hard
/// to foretell.
fn sizes() -> Vec<(String, Input, bool)> {
    let of = |(folders, logins): (usize, usize)| {
        let house = || Input::new(logins, folders, |folder| folder + 1);
        let back = house().entering(2, |folder| folder % 4 == 1).asking(logins - 1, 0, 1);
        let refused = house().entering(1, |folder| folder + 1 == folders).asking(logins - 1, 0, 3);
        [
            (format!("{folders} × {logins}: read, blank row"), house().asking(logins - 1, folders / 2, 1), true),
            ("… read, taking a quarter of the rights back".to_owned(), back, true),
            ("… write, refused for the last folder".to_owned(), refused, false),
            ("… a thousand of all sorts".to_owned(), house().mixed(), false),
        ]
    };
    let folders = [2, 4, 8, 12, 13, 15, 16, 17, 20, 24, 28, 31, 32, 33, 48, 64, 65, 100, 128, 200, 256, 384];
    let logins = [1, 7, 8, 16, 32, 64, 100];
    let many = folders.into_iter().map(|folders| (folders, 128));
    let few = logins.into_iter().map(|logins| (8, logins));
    many.chain(few).flat_map(of).collect()
}

fn main() {
    let (before, after) = (Library::open("HOUSECHERVIL_BEFORE"), Library::open("HOUSECHERVIL_AFTER"));
    let turns = [after, before];

    heading("Request");
    for (name, input, restore) in inputs::requests() {
        agree(turns, &input);
        row(name, turns.map(|library| asking(library, &input, restore)));
    }
    heading("Request, other sizes");
    for (name, input, restore) in sizes() {
        agree(turns, &input);
        row(&name, turns.map(|library| asking(library, &input, restore)));
    }
    heading("Request, 128 logins whose persons stand in no order");
    for (name, input, restore) in persons::requests() {
        agree(turns, &input);
        row(&name, turns.map(|library| asking(library, &input, restore)));
    }
    heading("Request by pairs");
    for (name, input, restore) in paired::requests() {
        agree(turns, &input);
        row(name, turns.map(|library| asking(library, &input, restore)));
    }
    heading("Request by pairs, chosen against the library");
    for (name, input) in paired::adversaries() {
        agree(turns, &input);
        row(&name, turns.map(|library| asking(library, &input, true)));
    }
    heading("Growth: a read on a blank row");
    for (folders, input) in inputs::growing() {
        agree(turns, &input);
        row(&format!("{folders} folders"), turns.map(|library| asking(library, &input, true)));
    }
    heading("Register check");
    for (name, input) in inputs::registers() {
        assert_eq!(before.check(&input), after.check(&input));
        row(
            name,
            turns.map(|library| {
                again({
                    let input = &input;
                    move || library.check(black_box(input))
                })
            }),
        );
    }
    heading("Whole-log check");
    for (name, log) in inputs::logs() {
        assert_eq!(before.log_check(&log), after.log_check(&log));
        row(
            name,
            turns.map(|library| {
                again({
                    let log = &log;
                    move || library.log_check(black_box(log))
                })
            }),
        );
    }
    heading("Walk of a log, step by step");
    for (name, log) in inputs::logs() {
        assert_eq!(before.walk(&log), after.walk(&log));
        row(
            name,
            turns.map(|library| {
                again({
                    let log = &log;
                    move || library.walk(black_box(log))
                })
            }),
        );
    }
    heading("Packed copies of 65,536 cells");
    let cells = inputs::cells();
    let [mut packed, mut other] = [vec![0; cells.len() / 4], vec![0; cells.len() / 4]];
    let turn = |copying: Copying, from: &[u8], to: &mut [u8]| unsafe {
        copying(from.as_ptr(), from.len(), to.as_mut_ptr(), to.len())
    };
    assert_eq!(turn(before.pack, &cells, &mut packed), turn(after.pack, &cells, &mut other));
    assert_eq!(packed, other);
    let copying = |copying: Copying, from: &[u8], len: usize| {
        let (from, mut to) = (from.to_vec(), vec![0; len]);
        again(move || turn(copying, black_box(&from), black_box(&mut to)))
    };
    row("pack", turns.map(|library| copying(library.pack, &cells, packed.len())));
    row("unpack", turns.map(|library| copying(library.unpack, &packed, cells.len())));

    heading("Folder names, 48 pairs of texts in turn");
    for (size, len, folders) in inputs::NAMED {
        let texts = inputs::texts(len, usize::from(folders[2]) + 1);
        let orders = inputs::orders(texts.len());
        for folder in folders {
            for texts in &texts {
                assert_eq!(before.folder_name(texts, folder), after.folder_name(texts, folder));
            }
            let naming = |library: Library| {
                let (texts, mut orders) = (&texts, orders.iter().cycle());
                again(move || {
                    for &pair in orders.next().expect("they go round") {
                        black_box(library.folder_name(black_box(&texts[pair]), black_box(folder)));
                    }
                })
            };
            row(&format!("{size}: folder {folder}"), turns.map(naming));
        }
    }
}

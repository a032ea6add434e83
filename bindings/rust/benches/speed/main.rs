//! The library's speed beside idiomatic Rust's, on the same inputs and in one run: `cargo bench`.
//!
//! Each row's contenders take turns, many short ones. A time is that of the shortest turn, for one task. A ratio is that of two such
//! times; behind it in brackets stands the median of the ratios in each round, which agrees with it where the machine is idle.
//! Before anything is timed, the contenders are seen to give one answer and to leave the same bytes. The library is called through
//! the safe crate. Everything is built for plain x86-64, as cargo builds without flags.

// `black_box` is a little younger than what the crate itself needs.
#![allow(clippy::incompatible_msrv)]

#[path = "../../tests/reference/mod.rs"]
mod reference;

mod baseline;
mod inputs;
mod paired;
mod persons;
mod timing;
mod tuned;

use std::hint::black_box;

use housechervil::{ClassNo, ClientNo, Conflicts, FolderNo, KindNo, LoginNo, PersonNo, Register, Request, Serial};
use inputs::{Input, Texts};
use reference::{Ask, House, Reply};
use timing::{compare, Measured, Task};

fn main() {
    if cfg!(target_feature = "avx") || cfg!(debug_assertions) {
        println!("Beware: this build is not the plain release build for x86-64.\n");
    }
    requests();
    requests_of_persons();
    checks();
    growth();
    requests_by_pairs();
    adversaries_by_pairs();
    checks_by_pairs();
    growth_in_pairs();
    logs();
    packing();
    names();
}

/// One way to make a request.
type Way = fn(&House, &mut [u8], Ask, &mut [u8], usize, u16) -> Reply;

/// The conflicts of an input, as the library takes them.
fn conflicts(house: &House) -> Conflicts {
    let pairs = reference::pairs(house).map(|(first, second)| (ClientNo(first), ClientNo(second)));
    match house.mode {
        0 => Conflicts::ByClass,
        _ => Conflicts::ByPair(pairs.collect()),
    }
}

fn register<'a>(house: &House<'a>, conflicts: &'a Conflicts) -> Register<'a> {
    Register::new(house.logins, ClassNo::from_slice(house.classes), ClientNo::from_slice(house.clients), conflicts)
}

/// The library's way to make a request of this input.
fn by_library(input: &Input) -> impl Fn(&House, &mut [u8], Ask, &mut [u8], usize, u16) -> housechervil::Reply {
    let conflicts = conflicts(&input.house());
    move |house, matrix, ask, log, end, serial| {
        let request = Request { login: LoginNo(ask.login), folder: FolderNo(ask.folder), kind: KindNo(ask.kind) };
        let persons = PersonNo::from_slice(house.persons);
        register(house, &conflicts).request(persons, matrix, request, log, end, Serial(serial))
    }
}

/// The task of asking: the next request of the input, on a matrix and a log of its own. `restore` puts the row back each time.
fn asking<'a, R>(
    input: &'a Input,
    restore: bool,
    request: impl Fn(&House, &mut [u8], Ask, &mut [u8], usize, u16) -> R + 'a,
) -> Task<'a> {
    let mut matrix = input.matrix.clone();
    let mut log = vec![0; 1024];
    let mut asks = input.asks.iter().cycle();
    Box::new(move |times| {
        for ask in asks.by_ref().take(times) {
            let house = input.house();
            black_box(request(black_box(&house), black_box(&mut matrix), black_box(*ask), &mut log, 0, 300));
            if restore {
                let row = input.row(ask.login);
                matrix[row.clone()].copy_from_slice(&input.matrix[row]);
            }
        }
    })
}

/// Library and baselines give the same replies and leave the same bytes, over all the input's requests.
fn see_that_they_agree(input: &Input, ways: &[Way]) {
    let library = by_library(input);
    let mut ours = (input.matrix.clone(), vec![0; 65_536]);
    let mut buffers = vec![ours.clone(); ways.len()];
    let (mut end, mut serial) = (0, 300);
    for &ask in &input.asks {
        let (matrix, log) = &mut ours;
        let reply = library(&input.house(), matrix, ask, log, end, serial);
        for (way, (matrix, log)) in ways.iter().zip(&mut buffers) {
            let other = way(&input.house(), matrix, ask, log, end, serial);
            let number = other.answer.map_or_else(|refusal| refusal.numbers()[0], |_| 0);
            assert_eq!(number, reply.answer.map_or_else(|refusal| refusal.number(), |_| 0));
            assert_eq!((other.end, other.serial), (reply.end, reply.serial.0));
        }
        (end, serial) = (reply.end, reply.serial.0);
    }
    assert!(buffers.iter().all(|buffer| *buffer == ours));
}

// ---------------------------------------------------------------- tables

/// How the first contender's time stands to another's.
fn ratio(measured: &[Measured], other: usize) -> String {
    format!("{:.2} ({:.2})", measured[0].least / measured[other].least, measured[other].ratio)
}

fn ns(measured: &Measured) -> String {
    match measured.least {
        small if small < 1_000.0 => format!("{small:.1} ns"),
        large => format!("{:.2} µs", large / 1_000.0),
    }
}

/// The library, then these ways, on one input.
fn contenders<'a>(input: &'a Input, restore: bool, ways: &[Way]) -> Vec<Task<'a>> {
    see_that_they_agree(input, ways);
    let library = asking(input, restore, by_library(input));
    let others = ways.iter().map(|&way| asking(input, restore, way));
    std::iter::once(library).chain(others).collect()
}

fn compare_requests(input: &Input, restore: bool) -> Vec<Measured> {
    compare(contenders(input, restore, &[baseline::request_linear, tuned::request, baseline::request_quadratic]))
}

fn requests() {
    println!("## Request\n");
    request_rows(inputs::requests());
}

fn requests_of_persons() {
    println!("## Request, 128 logins whose persons stand in no order\n");
    request_rows(persons::requests());
}

/// A table of requests, each with its name and whether the row is put back after it.
fn request_rows(inputs: impl IntoIterator<Item = (impl AsRef<str>, Input, bool)>) {
    println!("| Request | library | Rust, linear check | Rust, tuned | Rust, quadratic check | library / linear | library / tuned | times faster than quadratic |");
    println!("|---|---|---|---|---|---|---|---|");
    let row = |name: &str, input: Input, restore: bool| {
        let measured = compare_requests(&input, restore);
        let times: Vec<String> = measured.iter().map(ns).collect();
        let faster = measured[3].least / measured[0].least;
        println!(
            "| {name} | {} | {} | {} | {faster:.1} |",
            times.join(" | "),
            ratio(&measured, 1),
            ratio(&measured, 2)
        );
    };
    for (name, input, restore) in inputs {
        row(name.as_ref(), input, restore);
    }
    println!();
}

fn checks() {
    println!("## Register check\n");
    println!("| Register | library | table | array of 65,536 | hash map | quadratic | library / table | library / quadratic |");
    println!("|---|---|---|---|---|---|---|---|");
    for (name, input) in inputs::registers() {
        let house = input.house();
        let register = register(&house, &Conflicts::ByClass);
        let ways = [baseline::check_table, baseline::check_array, baseline::check_map, baseline::check_quadratic];
        assert_eq!(register.check(), Ok(()));
        let mut tasks: Vec<Task> = vec![Box::new(move |times| {
            for _ in 0..times {
                black_box(black_box(&register).check().is_ok());
            }
        })];
        for way in ways {
            assert_eq!(way(&house), Ok(()));
            tasks.push(Box::new(move |times| {
                for _ in 0..times {
                    black_box(way(black_box(&house)).is_ok());
                }
            }));
        }
        let measured = compare(tasks);
        let times: Vec<String> = measured.iter().map(ns).collect();
        println!("| {name} | {} | {} | {} |", times.join(" | "), ratio(&measured, 1), ratio(&measured, 4));
    }
    println!();
}

fn growth() {
    println!("## Growth: a read on a blank row, all clients distinct, 128 logins\n");
    println!("| Folders | library | Rust, linear check | Rust, tuned | Rust, quadratic check | library / linear | library / tuned |");
    println!("|---|---|---|---|---|---|---|");
    let mut first: Option<Vec<Measured>> = None;
    for (folders, input) in inputs::growing() {
        let measured = compare_requests(&input, true);
        let times: Vec<String> = measured.iter().map(ns).collect();
        println!("| {folders} | {} | {} | {} |", times.join(" | "), ratio(&measured, 1), ratio(&measured, 2));
        let first = first.get_or_insert_with(|| measured.clone());
        if folders == 512 {
            let grown: Vec<String> =
                measured.iter().zip(first).map(|(now, then)| format!("{:.1} times", now.least / then.least)).collect();
            println!("| from 64 to 512 | {} | | |", grown.join(" | "));
        }
    }
    println!();
}

fn requests_by_pairs() {
    println!("## Request by pairs, 512 folders, 256 pairs\n");
    println!("| Request | library | Rust, a set | library by classes | library / set | by pairs / by classes |");
    println!("|---|---|---|---|---|---|");
    for (name, input, restore) in paired::requests() {
        let by_classes = input.by_classes();
        let mut tasks = contenders(&input, restore, &[baseline::request_by_set]);
        tasks.extend(contenders(&by_classes, restore, &[]));
        let measured = compare(tasks);
        let times: Vec<String> = measured.iter().map(ns).collect();
        println!("| {name} | {} | {} | {} |", times.join(" | "), ratio(&measured, 1), ratio(&measured, 2));
    }
    println!();
}

fn adversaries_by_pairs() {
    println!(
        "## Request by pairs, clients and pairs chosen against the library: a read, 512 folders, many read rights\n"
    );
    println!("| Clients and pairs | library | Rust, a set | Rust, all pairs for each folder | library / set | library / all pairs |");
    println!("|---|---|---|---|---|---|");
    for (name, input) in paired::adversaries() {
        let ways: [Way; 2] = [baseline::request_by_set, baseline::request_by_search];
        let measured = compare(contenders(&input, true, &ways));
        let times: Vec<String> = measured.iter().map(ns).collect();
        println!("| {name} | {} | {} | {} |", times.join(" | "), ratio(&measured, 1), ratio(&measured, 2));
    }
    println!();
}

/// The task of checking a register.
fn checking<'a, E>(house: House<'a>, way: impl Fn(&House) -> Result<(), E> + 'a) -> Task<'a> {
    Box::new(move |times| {
        for _ in 0..times {
            black_box(way(black_box(&house)).is_ok());
        }
    })
}

fn checks_by_pairs() {
    println!("## Register check by pairs\n");
    println!(
        "| Register | library | Rust, table and a pass | library by classes | library / Rust | by pairs / by classes |"
    );
    println!("|---|---|---|---|---|---|");
    for (name, input, accepted) in paired::registers() {
        let (house, by_classes) = (input.house(), input.by_classes());
        let [ours, classes] = [&house, &by_classes.house()].map(conflicts);
        assert_eq!(register(&house, &ours).check().is_ok(), accepted);
        assert_eq!(baseline::check_paired(&house).is_ok(), accepted);
        let measured = compare(vec![
            checking(house, |house| register(house, &ours).check()),
            checking(house, baseline::check_paired),
            checking(by_classes.house(), |house| register(house, &classes).check()),
        ]);
        let times: Vec<String> = measured.iter().map(ns).collect();
        println!("| {name} | {} | {} | {} |", times.join(" | "), ratio(&measured, 1), ratio(&measured, 2));
    }
    println!();
}

fn growth_in_pairs() {
    println!("## Growth in pairs: a read again at 512 folders, all clients distinct, many read rights\n");
    println!("| Pairs | library | Rust, a set | Rust, all pairs for each folder | library by classes | library / set | by pairs / by classes |");
    println!("|---|---|---|---|---|---|---|");
    let mut first: Option<Vec<Measured>> = None;
    for (pairs, input) in paired::growing() {
        let by_classes = input.by_classes();
        let mut tasks = contenders(&input, false, &[baseline::request_by_set, baseline::request_by_search]);
        tasks.extend(contenders(&by_classes, false, &[]));
        let measured = compare(tasks);
        let times: Vec<String> = measured.iter().map(ns).collect();
        println!("| {pairs} | {} | {} | {} |", times.join(" | "), ratio(&measured, 1), ratio(&measured, 3));
        let first = first.get_or_insert_with(|| measured.clone());
        if pairs == 256 {
            let grown: Vec<String> =
                measured.iter().zip(first).map(|(now, then)| format!("{:.1} times", now.least / then.least)).collect();
            println!("| from 0 to 256 | {} | | |", grown.join(" | "));
        }
    }
    println!();
}

fn logs() {
    println!("## Whole-log check, 64 KiB\n");
    println!("| Log | library | Rust | library / Rust | library, ns a byte |");
    println!("|---|---|---|---|---|");
    for (name, log) in inputs::logs() {
        let records = housechervil::check_log(&log).expect("the log is in order");
        assert_eq!(baseline::check_log(&log), Ok(records));
        let log = &log;
        let measured = compare(vec![
            Box::new(move |times| {
                for _ in 0..times {
                    black_box(housechervil::check_log(black_box(log)).is_ok());
                }
            }),
            Box::new(move |times| {
                for _ in 0..times {
                    black_box(baseline::check_log(black_box(log)).is_ok());
                }
            }),
        ]);
        let each = measured[0].least / log.len() as f64;
        let (library, rust) = (ns(&measured[0]), ns(&measured[1]));
        println!("| {records} {name} | {library} | {rust} | {} | {each:.2} |", ratio(&measured, 1));
    }
    println!();
}

fn packing() {
    println!("## Packed copies of 65,536 cells\n");
    println!("| Task | library | Rust, plain | Rust, vectorised | copy of 65,536 bytes | library / plain | library / vectorised | library / copy |");
    println!("|---|---|---|---|---|---|---|---|");
    let cells = inputs::cells();
    let packed = housechervil::pack(&cells).expect("cells of 0 to 3");
    for way in [baseline::pack, baseline::pack_chunks] {
        let mut other = vec![0; packed.len()];
        assert_eq!(way(&cells, &mut other), Ok(()));
        assert_eq!(other, packed);
    }
    for way in [baseline::unpack, baseline::unpack_chunks] {
        let mut other = vec![0; cells.len()];
        assert_eq!(way(&packed, &mut other), Ok(()));
        assert_eq!(other, cells);
    }

    /// The task of turning `from` into `to`.
    fn turning<'a, E>(from: &'a [u8], len: usize, way: impl Fn(&[u8], &mut [u8]) -> Result<(), E> + 'a) -> Task<'a> {
        let mut to = vec![0; len];
        Box::new(move |times| {
            for _ in 0..times {
                black_box(way(black_box(from), black_box(&mut to)).is_ok());
            }
        })
    }
    let copy = |from: &[u8], to: &mut [u8]| -> Result<(), ()> {
        to.copy_from_slice(from);
        Ok(())
    };
    let (half, whole) = (packed.len(), cells.len());
    for (name, measured) in [
        (
            "pack",
            compare(vec![
                turning(&cells, half, housechervil::pack_into),
                turning(&cells, half, baseline::pack),
                turning(&cells, half, baseline::pack_chunks),
                turning(&cells, whole, copy),
            ]),
        ),
        (
            "unpack",
            compare(vec![
                turning(&packed, whole, housechervil::unpack_into),
                turning(&packed, whole, baseline::unpack),
                turning(&packed, whole, baseline::unpack_chunks),
                turning(&cells, whole, copy),
            ]),
        ),
    ] {
        let times: Vec<String> = measured.iter().map(ns).collect();
        let ratios: Vec<String> = (1..measured.len()).map(|other| ratio(&measured, other)).collect();
        println!("| {name} | {} | {} |", times.join(" | "), ratios.join(" | "));
    }
    println!();
}

/// The task of naming a folder in each pair of texts, in another order each time. So every task is the same work, and which text has
/// the name is not foretold.
fn naming<'a>(
    texts: &'a [Texts],
    orders: &'a [Vec<usize>],
    folder: FolderNo,
    way: impl for<'t> Fn(&'t [u8], &'t [u8], FolderNo) -> Option<&'t [u8]> + 'a,
) -> Task<'a> {
    let mut orders = orders.iter().cycle();
    Box::new(move |times| {
        for order in orders.by_ref().take(times) {
            for &pair in order {
                let Texts { client, house } = &texts[pair];
                black_box(way(black_box(client), black_box(house), black_box(folder)));
            }
        }
    })
}

fn names() {
    println!("## Folder names, half of the client's lines empty\n");
    println!("| Two texts of | library | Rust | library / Rust |");
    println!("|---|---|---|---|");
    for (size, len, folders) in inputs::NAMED {
        let texts = inputs::texts(len, usize::from(folders[2]) + 1);
        let orders = inputs::orders(texts.len());
        for folder in folders.map(FolderNo) {
            for Texts { client, house } in &texts {
                let name = housechervil::folder_name(client, house, folder).expect("the house names every folder");
                assert_eq!(
                    baseline::folder_name(client, house, folder).map(<[u8]>::as_ptr_range),
                    Some(name.as_ptr_range())
                );
            }
            let mut measured = compare(vec![
                naming(&texts, &orders, folder, housechervil::folder_name),
                naming(&texts, &orders, folder, baseline::folder_name),
            ]);
            for each in &mut measured {
                each.least /= texts.len() as f64;
            }
            let times: Vec<String> = measured.iter().map(ns).collect();
            println!("| {size}: folder {folder} | {} | {} |", times.join(" | "), ratio(&measured, 1));
        }
    }
}

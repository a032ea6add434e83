//! The desk program against a second reading of document 01, 'The desk program': chosen edges, and random and damaged inputs. The program is
//! `crates/desk/out/desk` of the repository, which `./desk` builds, or the one that `HOUSECHERVIL_DESK` names.

mod reference;
mod support;

use std::io::{ErrorKind, Write};
use std::path::PathBuf;
use std::process::{Command, Stdio};

use reference::{Ask, House, Refusal};
use support::Random;

// ---------------------------------------------------------------- the program

fn program() -> PathBuf {
    match std::env::var_os("HOUSECHERVIL_DESK") {
        Some(named) => PathBuf::from(named),
        None => PathBuf::from(concat!(env!("CARGO_MANIFEST_DIR"), "/../../crates/desk/out/desk")),
    }
}

/// What the program writes for an input. It reads no more than it takes, so a longer input may find the pipe closed.
fn run(input: &[u8]) -> Vec<u8> {
    let program = program();
    assert!(program.is_file(), "{} is missing: run `./desk` with an input at the repository's root", program.display());
    let mut child = Command::new(program).stdin(Stdio::piped()).stdout(Stdio::piped()).spawn().unwrap();
    let mut pipe = child.stdin.take().unwrap();
    let bytes = input.to_vec();
    let writer = std::thread::spawn(move || match pipe.write_all(&bytes) {
        Err(error) if error.kind() != ErrorKind::BrokenPipe => panic!("{error}"),
        _ => (),
    });
    let output = child.wait_with_output().unwrap();
    writer.join().unwrap();
    assert!(output.status.success());
    output.stdout
}

// ---------------------------------------------------------------- document 01 once more

enum Line {
    Logins(u16),
    Folder(u16, u16),
    Request(u16, u16, u16),
}

/// 'Numbers have one to five digits, no needless leading 0, at most 65,535.'
fn number(word: &[u8]) -> Option<u16> {
    let digits = (1..=5).contains(&word.len()) && word.iter().all(u8::is_ascii_digit);
    let needless = word.len() > 1 && word[0] == b'0';
    if !digits || needless {
        return None;
    }
    std::str::from_utf8(word).ok()?.parse().ok()
}

fn line(text: &[u8]) -> Option<Line> {
    let words: Vec<&[u8]> = text.split(|&byte| byte == b' ').collect();
    let numbers: Vec<u16> = words[1..].iter().map(|word| number(word)).collect::<Option<_>>()?;
    match (words[0], numbers.as_slice()) {
        (b"P", &[logins]) => Some(Line::Logins(logins)),
        (b"F", &[class, client]) => Some(Line::Folder(class, client)),
        ([letter], &[login, folder]) => {
            let kind = b"RCWB".iter().position(|kind| kind == letter)? as u16 + 1;
            Some(Line::Request(kind, login, folder))
        }
        _ => None,
    }
}

/// What the desk prints.
fn expected(input: &[u8]) -> Vec<u8> {
    if input.len() > 65_536 {
        return b"input 41\n".to_vec();
    }
    let mut desk = Desk::default();
    for (at, text) in input.split_inclusive(|&byte| byte == b'\n').enumerate() {
        let ended = text.last() == Some(&b'\n');
        let item = if ended { line(&text[..text.len() - 1]) } else { None };
        let placed = match item {
            Some(item) => desk.take(item),
            None => false,
        };
        if desk.refused {
            return desk.printed.into_bytes();
        }
        if !placed {
            desk.print(format!("line {} 40", at + 1));
            return desk.printed.into_bytes();
        }
    }
    match desk.logins {
        None => desk.print("line 1 40".to_string()),
        Some(_) if desk.matrix.is_none() => desk.check(),
        Some(_) => (),
    }
    desk.printed.into_bytes()
}

#[derive(Default)]
struct Desk {
    logins: Option<u16>,
    persons: Vec<u16>,
    classes: Vec<u16>,
    clients: Vec<u16>,
    matrix: Option<Vec<u8>>,
    log: Vec<u8>,
    end: usize,
    serial: u16,
    refused: bool,
    printed: String,
}

impl Desk {
    fn print(&mut self, line: String) {
        self.printed += &line;
        self.printed.push('\n');
    }

    /// Takes a well-formed line; false if it is misplaced.
    fn take(&mut self, item: Line) -> bool {
        match (item, self.logins, self.matrix.is_some()) {
            (Line::Logins(logins), None, _) => {
                self.logins = Some(logins);
                // 'The desk program gives every login its own number' (document 02, C-14).
                self.persons = (0..logins).collect();
            }
            (Line::Folder(class, client), Some(_), false) => {
                self.classes.push(class);
                self.clients.push(client);
            }
            (Line::Request(kind, login, folder), Some(logins), opened) => {
                if !opened {
                    self.check();
                    if self.refused {
                        return true;
                    }
                    self.matrix = Some(vec![0; usize::from(logins) * self.classes.len()]);
                    self.log = vec![0; 65_536];
                }
                self.ask(Ask { login, folder, kind });
            }
            _ => return false,
        }
        true
    }

    fn house(&self) -> House<'_> {
        House::by_class(usize::from(self.logins.unwrap()), &self.persons, &self.classes, &self.clients)
    }

    fn check(&mut self) {
        if let Err(refusal) = reference::check(&self.house()) {
            self.refused = true;
            let line = match refusal {
                Refusal::Sizes => "register 1".to_string(),
                Refusal::LoneZero(folder) => format!("register 2 {folder}"),
                Refusal::TwoClasses(later, earlier) => format!("register 3 {later} {earlier}"),
                other => panic!("{other:?} is no answer of the register check"),
            };
            self.print(line);
        }
    }

    fn ask(&mut self, ask: Ask) {
        let mut matrix = self.matrix.take().unwrap();
        let mut log = std::mem::take(&mut self.log);
        let reply = reference::request(&self.house(), &mut matrix, ask, &mut log, self.end, self.serial);
        let number = reply.answer.map_or_else(|refusal| refusal.numbers()[0], |_| 0);
        let line = if reply.end == self.end {
            format!("- {number}")
        } else {
            let record = reference::step(&log[..reply.end], self.end).unwrap().unwrap();
            let list: String = reference::listed(&log, &record).iter().map(|folder| format!(" {folder}")).collect();
            format!("{} {number}{list}", self.serial)
        };
        self.print(line);
        self.end = reply.end;
        self.serial = reply.serial;
        self.matrix = Some(matrix);
        self.log = log;
    }
}

fn same(input: &[u8]) {
    let (printed, expected) = (run(input), expected(input));
    if printed != expected {
        let show = |bytes: &[u8]| String::from_utf8_lossy(&bytes[..bytes.len().min(400)]).into_owned();
        panic!("on {:?}\nthe desk prints {:?}\nand not {:?}", show(input), show(&printed), show(&expected));
    }
}

// ---------------------------------------------------------------- chosen inputs

const HOUSE: &str = "P 2\nF 0 0\nF 1 1\nF 1 2\nF 2 3\nF 1 1\n";

#[test]
fn documents_session() {
    let requests = "W 0 1\nW 0 3\nC 0 1\nR 0 1\nR 0 2\nR 0 0\nW 0 4\nR 0 3\nW 0 4\nB 1 2\nW 1 0\nR 1 4\nR 2 0\n";
    let printed = "0 0\n1 0\n2 22 3\n3 0 3\n4 20 1\n5 0\n6 0\n7 0 1 4\n8 21 3\n9 0\n10 21 2\n11 20 2\n- 5\n";
    let input = format!("{HOUSE}{requests}");
    assert_eq!(run(input.as_bytes()), printed.as_bytes());
    same(input.as_bytes());
}

#[test]
fn lines_of_every_form() {
    let inputs = [
        ("", "line 1 40\n"),
        ("\n", "line 1 40\n"),
        ("P 2", "line 1 40\n"),
        ("P 2\n", "register 1\n"),
        ("P 02\n", "line 1 40\n"),
        ("P 65536\n", "line 1 40\n"),
        ("P 65535\nF 1 1\n", "register 1\n"),
        ("P 0\nF 1 1\nR 0 0\n", "register 1\n"),
        ("F 1 1\n", "line 1 40\n"),
        ("R 0 0\n", "line 1 40\n"),
        ("P 1\nP 1\n", "line 2 40\n"),
        ("P 1\nR 0 0\n", "register 1\n"),
        ("P 1\nF 1 4\nF 2 4\n", "register 3 1 0\n"),
        ("P 1\nF 0 1\nR 0 0\nX\n", "register 2 0\n"),
        ("P 1\nF 0 1\nX\n", "line 3 40\n"),
        ("P 1\nF 0 0\nF 1 1\n", ""),
        ("P 1\nF 1 1\nR 0 0\nF 1 1\n", "0 0\nline 4 40\n"),
        ("P 1\nF 1 1\nR 0 0\nP 1\n", "0 0\nline 4 40\n"),
        ("P 1\nF 1 1\nR 0 0\nR 0 0", "0 0\nline 4 40\n"),
        ("P 1\nF 1 1\nR 0 0\n\n", "0 0\nline 4 40\n"),
        ("P 1\nF 1 1\nR 0 65536\n", "line 3 40\n"),
        ("P 1\nF 1 1\nR 0 65535\nR 65535 0\nR 1 1\nR 0 0\n", "- 6\n- 5\n- 5\n0 0\n"),
        ("P 1\nF 1 1\nR  0 0\n", "line 3 40\n"),
        ("P 1\nF 1 1\nR 0 0 \n", "line 3 40\n"),
        ("P 1\nF 1 1\nR 0\t0\n", "line 3 40\n"),
        ("P 1\nF 1 1\nR 0 0\r\n", "line 3 40\n"),
        ("P 1\nF 1 1\nr 0 0\n", "line 3 40\n"),
        ("P 1\nF 1 1\n R 0 0\n", "line 3 40\n"),
        ("P 1\nF 1 1\nR 0 00\n", "line 3 40\n"),
        ("P 1\nF 1 1\nR 0\n", "line 3 40\n"),
        ("P 1\nF 1 1\nR 0 0 0\n", "line 3 40\n"),
        ("P 1\nF 1 1\nRR 0 0\n", "line 3 40\n"),
    ];
    for (input, printed) in inputs {
        assert_eq!(String::from_utf8(run(input.as_bytes())).unwrap(), printed, "{input:?}");
        same(input.as_bytes());
    }
}

#[test]
fn largest_inputs() {
    // the most folders, and one more
    same(format!("P 1\n{}R 0 511\nR 0 512\n", "F 1 1\n".repeat(512)).as_bytes());
    same(format!("P 1\n{}R 0 511\n", "F 1 1\n".repeat(513)).as_bytes());
    // over 10,000 folders' lines, all judged for their form
    same(format!("P 1\n{}", "F 1 1\n".repeat(10_900)).as_bytes());
    same(format!("P 1\n{}F 1\n", "F 1 1\n".repeat(10_900)).as_bytes());
    // long lines
    same(format!("P 1\nF 1 {}\n", "1".repeat(65_000)).as_bytes());
    same(&[b'A'; 65_536]);
    same(&[b'\n'; 65_536]);
    // exactly 65,536 bytes, and one more
    let mut input = format!("{HOUSE}{}", "R 0 1\n".repeat(10_916)).into_bytes();
    input.truncate(65_536 - 8);
    while input.last() != Some(&b'\n') {
        input.pop();
    }
    let last = format!("R {} 1\n", "1".repeat(65_536 - input.len() - 5));
    input.extend_from_slice(last.as_bytes());
    assert_eq!(input.len(), 65_536);
    same(&input);
    input.push(b'\n');
    assert_eq!(run(&input), b"input 41\n");
    assert_eq!(run(&vec![b'P'; 1_000_000]), b"input 41\n");
}

#[test]
fn log_that_fills_up() {
    let folders = "F 1 1\n".repeat(130);
    let mut input = format!("P 2\n{folders}{}", "F 2 2\n".repeat(10));
    for at in 0..9_600 {
        input += match at % 7 {
            0 => "W 0 129\n",
            1 | 4 => "R 0 0\n",
            2 => "R 1 0\n",
            _ => "W 0 1\n",
        };
    }
    assert!(input.len() <= 65_536);
    let printed = expected(input.as_bytes());
    assert!(printed.windows(6).any(|window| window == b"\n- 30\n"), "the log never fills up");
    same(input.as_bytes());
}

// ---------------------------------------------------------------- random inputs

/// A day: a register that is mostly good, and requests of which some are out of range.
fn day(random: &mut Random) -> Vec<u8> {
    let logins = if random.once_in(20) { random.below(200) } else { random.range(1, 6) };
    let folders = if random.once_in(10) { random.range(0, 40) } else { random.range(1, 10) };
    let mut input = format!("P {logins}\n");
    for _ in 0..folders {
        let client = random.below(6);
        let class = if random.once_in(60) { random.below(4) } else { client.min(1) * (1 + client % 3) };
        input += &format!("F {class} {client}\n");
    }
    for _ in 0..random.below(120) {
        let (beyond, past) = (usize::from(random.once_in(12)), usize::from(random.once_in(12)));
        let login = random.below(logins.max(1) + beyond);
        let folder = random.below(folders.max(1) + past);
        input += &format!("{} {login} {folder}\n", random.pick(&['R', 'C', 'W', 'B']));
    }
    input.into_bytes()
}

#[test]
fn random_days() {
    let mut random = Random::new(90);
    for _ in 0..400 {
        same(&day(&mut random));
    }
}

/// A day with some bytes changed, put in, taken out or cut off.
#[test]
fn damaged_days() {
    let mut random = Random::new(91);
    for _ in 0..600 {
        let mut input = day(&mut random);
        for _ in 0..random.range(1, 3) {
            let at = random.below(input.len());
            let byte = if random.once_in(3) { random.byte() } else { random.pick(b"PFRCWB0159 \n\t-") };
            match random.below(4) {
                0 => input[at] = byte,
                1 => input.insert(at, byte),
                2 => drop(input.remove(at)),
                _ if random.once_in(4) => input.truncate(at.max(1)),
                _ => input[at] = byte,
            }
        }
        same(&input);
    }
}

#[test]
fn random_bytes() {
    let mut random = Random::new(92);
    for _ in 0..200 {
        let len = random.below(60);
        let input: Vec<u8> = (0..len).map(|_| random.pick(b"PFRCWB0123456789 \n\n")).collect();
        same(&input);
    }
}

//! A small reading room: it prints the board, files a register, asks, prints the answers in words, and prints the log. At the end
//! stand a second room, whose conflicts are by pair, and a third, in which two logins are one person's.
//!
//! Run it with `cargo run --example reading_room`; its output is kept in `reading_room.stdout`.

use std::error::Error;
use std::io::{self, Write};

use housechervil::{
    check_log, folder_name, pack, ClassNo, ClientNo, Conflicts, FolderNo, Granted, Kind, LoginNo, PersonNo, Record,
    Refusal, Room, Verdict,
};

const READERS: [&str; 2] = ["Ada", "Ben"];

/// Each folder's class and client. The two banks compete with each other; the oil company competes with neither.
const FOLDERS: [(u16, u16); 5] = [(0, 0), (1, 1), (1, 2), (2, 3), (1, 1)];

/// The house's names of its folders, and those that Aster Bank has for its own two.
const HOUSE_NAMES: &[u8] = include_bytes!("../../../examples/house.names");
const CLIENT_NAMES: &[u8] = include_bytes!("../../../examples/client.names");

const REQUESTS: [(u16, Kind, u16); 14] = [
    (0, Kind::Write, 1),
    (0, Kind::Write, 3),
    (0, Kind::CarefulRead, 1),
    (0, Kind::Read, 1),
    (0, Kind::Read, 2),
    (0, Kind::Read, 0),
    (0, Kind::Write, 4),
    (0, Kind::Read, 3),
    (0, Kind::Write, 4),
    (1, Kind::ReadAndWrite, 2),
    (1, Kind::Write, 0),
    (1, Kind::Read, 4),
    (1, Kind::Read, 5),
    (2, Kind::Read, 0),
];

fn main() -> Result<(), Box<dyn Error>> {
    run(&mut io::stdout().lock())
}

/// Plays the whole day, and prints it.
pub fn run(out: &mut dyn Write) -> Result<(), Box<dyn Error>> {
    board(out)?;

    // The filing clerk's first draft has a slip: of one bank's two folders, the staff's stands in another class than the loans'.
    writeln!(out)?;
    let mut labels = labels();
    labels[4].0 = ClassNo(2);
    writeln!(out, "The clerk files the register.")?;
    if let Err(error) = Room::builder(READERS.len(), &labels).open() {
        writeln!(out, "It is refused ({}): {error}.", error.number())?;
    }
    labels[4].0 = ClassNo(1);
    let mut room = Room::builder(READERS.len(), &labels).open()?;
    writeln!(out, "Put right, it is accepted: {} readers, {} folders.", READERS.len(), FOLDERS.len())?;

    writeln!(out)?;
    for (login, kind, folder) in REQUESTS {
        let (login, folder) = (LoginNo(login), FolderNo(folder));
        let answer = room.ask(login, folder, kind);
        write!(out, "{} asks to {} {}: ", reader(login), verb(kind), name(folder))?;
        match answer {
            Ok(Granted { taken_back: 0 }) => writeln!(out, "granted.")?,
            Ok(Granted { .. }) => {
                let lost = room.last_record().map(|record| names(&record)).unwrap_or_default();
                writeln!(out, "granted, and the right to write {lost} is taken back.")?;
            }
            Err(refusal) => writeln!(out, "refused ({}): {}.", refusal.number(), reason(refusal))?,
        }
    }

    writeln!(out)?;
    writeln!(out, "The log, {} bytes:", room.log().len())?;
    for record in room.records() {
        let record = record?;
        let listed = match (record.verdict(), record.count()) {
            (Verdict::Granted, 0) => String::new(),
            (Verdict::Granted, _) => format!(", taking back {}", names(&record)),
            _ => format!(", {}", names(&record)),
        };
        let (login, folder) = (reader(record.login()), name(record.folder()));
        writeln!(out, "{:3}  {login}, {}, {folder}: {}{listed}", record.serial(), record.kind(), record.verdict())?;
    }
    writeln!(out, "The check finds {} records in order.", check_log(room.log())?)?;

    writeln!(out)?;
    writeln!(out, "The rights at the end of the day:")?;
    for login in (0..).take(READERS.len()).map(LoginNo) {
        for folder in (0..).take(FOLDERS.len()).map(FolderNo) {
            if let Some(rights) = room.rights(login, folder).filter(|rights| rights.cell() != 0) {
                writeln!(out, "{} may {rights} {}.", reader(login), name(folder))?;
            }
        }
    }
    writeln!(out, "Packed for the night: {:?}.", pack(room.matrix())?)?;

    author_and_readers(out)?;
    desk_and_travel(out)
}

fn labels() -> [(ClassNo, ClientNo); FOLDERS.len()] {
    FOLDERS.map(|(class, client)| (ClassNo(class), ClientNo(client)))
}

/// The files of an author and of two readers: each reader is in conflict with the author, not with the other reader. No classes can say
/// that, since in one class all three are in conflict. Two pairs do, and then the class plays no part.
fn author_and_readers(out: &mut dyn Write) -> Result<(), Box<dyn Error>> {
    const FILES: [&str; 3] = ["Dale, author", "Elm, reader", "Fir, reader"];
    let clients @ [dale, elm, fir] = [7, 8, 9].map(ClientNo);
    let labels = clients.map(|client| (ClassNo(1), client));
    let pairs = Conflicts::ByPair([(dale, elm), (dale, fir)].into());

    let houses = [("An author and two readers, by class", Conflicts::ByClass), ("The same, by pairs", pairs)];
    for (title, conflicts) in houses {
        writeln!(out)?;
        writeln!(out, "{title}:")?;
        let mut room = Room::builder(1, &labels).conflicts(conflicts).open()?;
        for file in [1, 2, 0] {
            write!(out, "{} asks to read '{}': ", READERS[0], FILES[file])?;
            match room.ask(LoginNo(0), FolderNo(file as u16), Kind::Read) {
                Ok(_) => writeln!(out, "granted.")?,
                Err(Refusal::Rival { folder }) => {
                    let known = FILES[usize::from(folder)];
                    writeln!(out, "refused, since {} knows '{known}', of a rival.", READERS[0])?;
                }
                Err(other) => return Err(other.into()),
            }
        }
    }
    Ok(())
}

/// A partner has a login for the desk and one for journeys. If each counts as a person, one head comes to know both banks; if both are one
/// person's, what was read through one of them counts for the other.
fn desk_and_travel(out: &mut dyn Write) -> Result<(), Box<dyn Error>> {
    let houses = [
        ("a partner's desk and travel login, each its own person", [0, 1]),
        ("the same, both logins one person's", [0, 0]),
    ];
    writeln!(out)?;
    for (title, persons) in houses {
        writeln!(out, "{title}:")?;
        let mut room = Room::builder(2, &labels()).persons(persons.map(PersonNo)).open()?;
        for (login, place, folder) in [(LoginNo(0), "desk", FolderNo(1)), (LoginNo(1), "travel", FolderNo(2))] {
            write!(out, "the {place} login asks to read {}: ", quoted(folder))?;
            match room.ask(login, folder, Kind::Read) {
                Ok(_) => writeln!(out, "granted")?,
                Err(Refusal::Rival { folder }) => {
                    writeln!(out, "refused, {} of a rival is open to this login", quoted(folder))?;
                }
                Err(other) => return Err(other.into()),
            }
        }
    }
    Ok(())
}

/// Prints the folders as the board shows them.
fn board(out: &mut dyn Write) -> io::Result<()> {
    writeln!(out, "The board:")?;
    for folder in (0..).take(FOLDERS.len()).map(FolderNo) {
        writeln!(out, "{}{}", name(folder), renamed(folder))?;
    }
    Ok(())
}

fn reader(login: LoginNo) -> &'static str {
    READERS.get(usize::from(login)).copied().unwrap_or("A stranger")
}

/// A folder's number with its name.
fn name(folder: FolderNo) -> String {
    match quoted(folder) {
        quoted if quoted.is_empty() => format!("{folder}, which has no name"),
        quoted => format!("{folder} {quoted}"),
    }
}

/// A folder's name: the client's if it has one, otherwise the house's.
fn quoted(folder: FolderNo) -> String {
    let name = folder_name(CLIENT_NAMES, HOUSE_NAMES, folder);
    name.map(|name| format!("'{}'", String::from_utf8_lossy(name))).unwrap_or_default()
}

/// What the house calls a folder for which the client has another name.
fn renamed(folder: FolderNo) -> String {
    let house = folder_name(&[], HOUSE_NAMES, folder);
    match house.filter(|_| house != folder_name(CLIENT_NAMES, HOUSE_NAMES, folder)) {
        Some(name) => format!(", which the house calls '{}'", String::from_utf8_lossy(name)),
        None => String::new(),
    }
}

fn names(record: &Record) -> String {
    record.listed().map(name).collect::<Vec<_>>().join(" and ")
}

fn verb(kind: Kind) -> &'static str {
    match kind {
        Kind::Read => "read",
        Kind::CarefulRead => "read, losing nothing,",
        Kind::Write => "write",
        Kind::ReadAndWrite => "read and write",
    }
}

/// A refusal in the words of this room.
fn reason(refusal: Refusal) -> String {
    match refusal {
        Refusal::Rival { folder } => format!("the reader knows {}, of a rival", name(folder)),
        Refusal::Foreign { folder } => format!("the reader knows {}, of another client", name(folder)),
        Refusal::AtStake { folder } => format!("the right to write {} would be lost", name(folder)),
        other => other.to_string(),
    }
}

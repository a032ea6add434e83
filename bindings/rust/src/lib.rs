//! Safe Rust over the static library `housechervil`, the access monitor of a reading room in which one house keeps the files of
//! clients who compete with each other.
//!
//! The library is the Chinese Wall policy with explicit revocation of write rights. It is written in Rattle, and each of its
//! functions is proved to answer, and to leave in every buffer lent, exactly what the rules say, on every input. The rules, with
//! every answer and its number, stand in the repository's `docs/RULES.md` (tests and decisions call them *document 01*, after the
//! scope document from which they come, and *document 02*, the change requests that followed). This crate adds no rule of its own: it
//! turns the rules' numbers into Rust's types and back.
//!
//! # A worked example
//!
//! The house of the rules' own example: two logins, five folders, of which folder 0 is sanitised (public) and folders 1 and 2
//! belong to two rivals of one class.
//!
//! ```
//! use housechervil::{ClassNo, ClientNo, FolderNo, Granted, Kind, LoginNo, Refusal, Room, Serial, Verdict};
//!
//! let labels = [(0, 0), (1, 1), (1, 2), (2, 3), (1, 1)].map(|(class, client)| (ClassNo(class), ClientNo(client)));
//! let mut room = Room::builder(2, &labels).open()?;
//!
//! // Login 0 may write for two clients, as long as nothing unsanitised has been read.
//! assert_eq!(room.ask(LoginNo(0), FolderNo(1), Kind::Write), Ok(Granted { taken_back: 0 }));
//! assert_eq!(room.ask(LoginNo(0), FolderNo(3), Kind::Write), Ok(Granted { taken_back: 0 }));
//!
//! // A careful read takes nothing back, so it is refused: the write right on folder 3 is at stake.
//! let refusal = room.ask(LoginNo(0), FolderNo(1), Kind::CarefulRead).unwrap_err();
//! assert_eq!(refusal, Refusal::AtStake { folder: FolderNo(3) });
//! assert_eq!((refusal.number(), refusal.folder()), (22, Some(FolderNo(3))));
//!
//! // A plain read is granted and takes that right back.
//! assert_eq!(room.ask(LoginNo(0), FolderNo(1), Kind::Read), Ok(Granted { taken_back: 1 }));
//!
//! // Folder 2 belongs to a rival of folder 1's client.
//! assert_eq!(room.ask(LoginNo(0), FolderNo(2), Kind::Read), Err(Refusal::Rival { folder: FolderNo(1) }));
//!
//! // The log tells it all again: who asked for what, the answer, and which write rights were taken back.
//! let record = room.records().nth(3).expect("five requests were logged")?;
//! assert_eq!(&room.log()[record.start()..record.end()], [3, 0, 1, 1, 0, 1, 3]);
//! assert_eq!((record.serial(), record.kind(), record.verdict()), (Serial(3), Kind::Read, Verdict::Granted));
//! assert_eq!(record.listed().collect::<Vec<_>>(), [FolderNo(3)]);
//! assert_eq!(housechervil::check_log(room.log()), Ok(5));
//! # Ok::<(), Box<dyn std::error::Error>>(())
//! ```
//!
//! # Building
//!
//! The build script looks for `libhousechervil.a` in `target/staticlib` at the repository's root, where `make` puts it, or in the
//! directory that the environment variable `HOUSECHERVIL_LIB_DIR` names, by an absolute path. The library is for x86-64 Linux. The
//! crate has no dependencies and asks for Rust 1.63 or later.
//!
//! # What there is
//!
//! | Task | Here | C |
//! |---|---|---|
//! | a room that keeps its own matrix and log | [`Room`], [`Room::builder`] | |
//! | a full log taken out of it | [`Room::take_log`] | |
//! | a room taken apart, and made again of its parts | [`Room::into_parts`], [`Room::resume`] | |
//! | which clients are in conflict, by class or by pair | [`Conflicts`], [`Pairs`] | the modes and the lists of pairs |
//! | several logins of one person | [`PersonNo`], [`RoomBuilder::persons`] | the person list |
//! | the register check | [`Register::check`] | `hc_register_check` |
//! | a request on lent buffers | [`Register::request`] | `hc_request` |
//! | the log, record by record | [`Records`], [`read_record`] | `hc_log_step` |
//! | the whole-log check | [`check_log`] | `hc_log_check` |
//! | a number of the log | [`read_number`] | `hc_number_read` |
//! | packed copies of cells | [`pack`], [`pack_into`], [`unpack`], [`unpack_into`] | `hc_pack`, `hc_unpack` |
//! | serials | [`Serial::next`], [`Serial::compare`] | `hc_serial_next`, `hc_serial_compare` |
//! | the name to show for a folder | [`folder_name`] | `hc_folder_name` |
//!
//! Every answer has a method `number` with its number in the rules. An answer that stands for a refusal is an
//! [`Error`](std::error::Error). Only a folder's name has no type of its own: it is a part of a text, or `None`, which is 81.
//!
//! A folder number, a client number, a class number, a login number and a person number are five types, so that one given in
//! another's place does not build:
//!
//! ```compile_fail,E0308
//! use housechervil::{ClassNo, ClientNo, Conflicts, Register};
//! let classes = [ClassNo(1)];
//! let clients = [ClientNo(1)];
//! let register = Register::new(1, &clients, &classes, &Conflicts::ByClass); // the wrong way round
//! ```
//!
//! # Safety: why a caller can't get undefined behaviour
//!
//! Nothing public in this crate is `unsafe`, and this is why its own calls into the library are sound, whatever safe code hands in:
//!
//! - **Pointers and lengths.** Each pointer comes from a Rust slice by `as_ptr` or `as_mut_ptr` and is given together with that
//!   slice's own length, so it is aligned and valid for that many elements throughout the call. It is never null, not even for a
//!   slice of length 0, whose pointer is dangling but aligned; the library reads and writes nothing through it then.
//! - **Aliasing.** What the library writes is lent as `&mut`, so it overlaps nothing else that is lent. What it only reads is lent
//!   as `&`, and no other thread can change it meanwhile.
//! - **Lifetimes.** The library keeps no pointer after a call: it has no state, allocates nothing, calls nothing back and returns
//!   numbers only. What this crate keeps, a [`Record`]'s log for example, and what it hands on, a folder's name, is a
//!   borrow that the compiler watches.
//! - **No conditions.** No function of the library has a precondition. Logins, folders and kinds out of range, lists of unequal
//!   length, bad pairs, a bad person list, a matrix of a wrong length, an end past the log, a place past the log: each has its answer
//!   in the rules, is proved to be given it, and then no byte has moved. So no check on this side has to hold, and none is relied on.
//! - **Values.** Lent buffers hold `u8` and `u16`, for which every bit pattern is good. Answers come back as plain numbers; a number
//!   that the rules do not know would be a panic, never an enum with a value it does not have. Places and ends that come back
//!   are used only as indices that Rust checks.
//! - **Layout.** The structs are `repr(C)`, [`ClassNo`], [`ClientNo`] and [`PersonNo`] are `repr(transparent)` around `u16`, and the
//!   build stops if a struct's size is not that of the C interface on x86-64.
//! - **Stack.** The library needs less than 16 KiB of it.
//! - **Threads.** All types are plain data and borrows, so `Send` and `Sync` are the compiler's own conclusions.
//!
//! What this rests on: that the library linked in is the one that the repository's `make` builds.
//!
//! # Panics
//!
//! With that library nothing here panics, but where a section 'Panics' says so. With another, an answer that the contracts rule
//! out is a panic.

#![deny(missing_docs)]
#![deny(unsafe_op_in_unsafe_fn)]
#![warn(clippy::undocumented_unsafe_blocks)]

#[allow(non_camel_case_types)]
mod sys;

mod builder;
mod conflicts;
mod ids;
mod log;
mod names;
mod packing;
mod register;
mod request;
mod room;

pub use builder::{OpenError, RoomBuilder};
pub use conflicts::{Conflicts, Pairs};
pub use ids::{
    ClassNo, ClientNo, FolderNo, Kind, KindNo, LoginNo, ParseKindError, PersonNo, Rights, Serial, SerialOrder,
    UnknownKind,
};
pub use log::{check_log, read_number, read_record, Listed, LogFault, Record, Records, Verdict};
pub use names::folder_name;
pub use packing::{pack, pack_into, packed_len, unpack, unpack_into, PackError, UnpackError};
pub use register::{Register, RegisterError};
pub use request::{Granted, Refusal, Reply, Request};
pub use room::{Parts, ResumeError, Room};

/// The most logins a register may have.
pub const MAX_LOGINS: usize = 128;

/// The most folders a register may have.
pub const MAX_FOLDERS: usize = 512;

/// The most pairs of clients in conflict that a register may have.
pub const MAX_PAIRS: usize = 256;

/// The length of the longest record that a request can write: three bytes of serial, one each of login, folder, kind and answer,
/// two of the count 511, and the 511 other folders, of which 127 take one byte and 384 take two. (Where the record's own folder
/// takes two bytes, one more of the others takes one.)
pub const MAX_RECORD: usize = 3 + 4 + 2 + 127 + 2 * 384;

/// An answer that the library's contract rules out.
#[cold]
fn ruled_out(what: &str, number: u16) -> ! {
    panic!("housechervil: {what} was answered with {number}, which its contract rules out")
}

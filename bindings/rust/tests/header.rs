//! What the crate shares with the C header: the version, which is the changelog's newest too, the limits, and the numbers of kinds, modes
//! and answers.

use std::fs::read_to_string;

use housechervil::{
    FolderNo, Granted, Kind, KindNo, LogFault, LoginNo, OpenError, PackError, Refusal, RegisterError, ResumeError,
    Rights, UnpackError, Verdict, MAX_FOLDERS, MAX_LOGINS, MAX_PAIRS, MAX_RECORD,
};

const VERSION: &str = env!("CARGO_PKG_VERSION");

/// A file of the repository, by its path from the root.
fn file(path: &str) -> String {
    let path = format!("{}/../../{path}", env!("CARGO_MANIFEST_DIR"));
    read_to_string(&path).unwrap_or_else(|error| panic!("{path}: {error}"))
}

/// The names that the header defines, each with what it stands for.
struct Header(String);

impl Header {
    fn read() -> Header {
        Header(file("include/housechervil.h"))
    }

    fn text(&self, name: &str) -> &str {
        let line = self.0.lines().find_map(|line| line.strip_prefix("#define ")?.strip_prefix(name)?.strip_prefix(' '));
        let line = line.unwrap_or_else(|| panic!("the header defines no {name}"));
        line.split_whitespace().next().unwrap()
    }

    fn number(&self, name: &str) -> usize {
        self.text(name).parse().unwrap()
    }

    /// Each name stands for its number.
    #[track_caller]
    fn numbers<const N: usize>(&self, names: [(&str, u16); N]) {
        for (name, number) in names {
            assert_eq!(self.number(name), usize::from(number), "{name}");
        }
    }
}

#[test]
fn version() {
    let header = Header::read();
    assert_eq!(header.text("HC_VERSION"), format!("\"{VERSION}\""));
    let parts = ["HC_VERSION_MAJOR", "HC_VERSION_MINOR", "HC_VERSION_PATCH"].map(|name| header.text(name));
    assert_eq!(parts.join("."), VERSION);
}

#[test]
fn changelog() {
    let changelog = file("CHANGELOG.md");
    let newest = changelog.lines().find_map(|line| line.strip_prefix("## ")).expect("the changelog has a heading");
    assert_eq!(newest.split_whitespace().next(), Some(VERSION), "the changelog's newest heading is '{newest}'");
}

#[test]
fn limits() {
    let header = Header::read();
    assert_eq!(header.number("HC_LOGINS_MAX"), MAX_LOGINS);
    assert_eq!(header.number("HC_FOLDERS_MAX"), MAX_FOLDERS);
    assert_eq!(header.number("HC_MATRIX_MAX"), MAX_LOGINS * MAX_FOLDERS);
    assert_eq!(header.number("HC_PAIRS_MAX"), MAX_PAIRS);
    assert_eq!(header.number("HC_RECORD_MAX"), MAX_RECORD);
}

#[test]
fn kinds_modes_and_rights() {
    let right = |read, write| u16::from(Rights { read, write }.cell());
    Header::read().numbers([
        ("HC_READ", Kind::Read.number()),
        ("HC_CAREFUL_READ", Kind::CarefulRead.number()),
        ("HC_WRITE", Kind::Write.number()),
        ("HC_READ_AND_WRITE", Kind::ReadAndWrite.number()),
        // In the crate a mode is a case of an enum.
        ("HC_BY_CLASSES", 0),
        ("HC_BY_PAIRS", 1),
        ("HC_MAY_READ", right(true, false)),
        ("HC_MAY_WRITE", right(false, true)),
    ]);
}

#[test]
fn answers_of_register_and_request() {
    let folder = FolderNo(0);
    Header::read().numbers([
        ("HC_ACCEPTED", 0),
        ("HC_GRANTED", Granted { taken_back: 0 }.number()),
        ("HC_REGISTER_SIZES", RegisterError::Sizes.number()),
        ("HC_REGISTER_LONE_ZERO", RegisterError::LoneZero { folder }.number()),
        ("HC_REGISTER_TWO_CLASSES", RegisterError::TwoClasses { folder, earlier: folder }.number()),
        ("HC_BAD_PAIRS", RegisterError::BadPairs.number()),
        ("HC_MATRIX_LENGTH", Refusal::MatrixLength.number()),
        ("HC_NO_LOGIN", Refusal::Login { asked: LoginNo(0) }.number()),
        ("HC_NO_FOLDER", Refusal::Folder { asked: folder }.number()),
        ("HC_NO_KIND", Refusal::Kind { asked: KindNo(0) }.number()),
        ("HC_ROW_CELL", Refusal::Cell { folder }.number()),
        ("HC_LOG_END_PAST_BUFFER", Refusal::LogEnd.number()),
        ("HC_BAD_PERSONS", Refusal::BadPersons.number()),
        ("HC_BAD_PERSONS", OpenError::BadPersons.number()),
        ("HC_BAD_PERSONS", ResumeError::BadPersons.number()),
        ("HC_RIVAL", Refusal::Rival { folder }.number()),
        ("HC_FOREIGN", Refusal::Foreign { folder }.number()),
        ("HC_AT_STAKE", Refusal::AtStake { folder }.number()),
        ("HC_LOG_FULL", Refusal::LogFull.number()),
        ("HC_RIVAL", Verdict::Rival.number()),
        ("HC_FOREIGN", Verdict::Foreign.number()),
        ("HC_AT_STAKE", Verdict::AtStake.number()),
    ]);
}

#[test]
fn answers_of_log_packing_and_names() {
    let place = 0;
    Header::read().numbers([
        ("HC_LOG_PLACE_PAST_END", LogFault::PastEnd { place }.number()),
        ("HC_LOG_CUT_SHORT", LogFault::CutShort { place }.number()),
        ("HC_LOG_FORM", LogFault::Form { place }.number()),
        ("HC_LOG_RANGE", LogFault::Range { place }.number()),
        ("HC_LOG_LIST", LogFault::List { place }.number()),
        ("HC_LOG_SERIAL", LogFault::Serial { place }.number()),
        ("HC_PACK_CELL", PackError::Cell { place }.number()),
        ("HC_PACK_LENGTHS", PackError::Lengths.number()),
        ("HC_PACK_LENGTHS", UnpackError::Lengths.number()),
        ("HC_PACK_UNUSED_BITS", UnpackError::UnusedBits.number()),
        // In the crate a name is a part of a text, or none.
        ("HC_UNNAMED", 81),
        ("HC_TEXT_CLIENT", 0),
        ("HC_TEXT_HOUSE", 1),
    ]);
}

//! The log, read.

use std::error::Error;
use std::fmt;
use std::hash::{Hash, Hasher};
use std::iter::FusedIterator;

use crate::{ruled_out, sys, FolderNo, Kind, LoginNo, Serial};

/// A fault in a log, with the place of the first byte of the field at fault.
#[derive(Clone, Copy, Debug, PartialEq, Eq, Hash)]
pub enum LogFault {
    /// 50: the place is past the log's end.
    PastEnd {
        /// That place.
        place: usize,
    },
    /// 51: the bytes end inside the record.
    CutShort {
        /// The place of the number that is cut short or missing.
        place: usize,
    },
    /// 52: a number is not in its shortest form, or above 65,535.
    Form {
        /// The place of the number.
        place: usize,
    },
    /// 53: a login above 127, a folder above 511, a kind that is not 1 to 4, or an answer that its kind cannot have.
    Range {
        /// The place of the field.
        place: usize,
    },
    /// 54: a count that the record cannot have, or a list that does not rise or names the record's own folder.
    List {
        /// The place of the count or of the listed number.
        place: usize,
    },
    /// 55: the serial is not the one after its predecessor's.
    Serial {
        /// The place of the record's start.
        place: usize,
    },
}

impl LogFault {
    /// Its number in the rules, 50 to 55.
    pub const fn number(self) -> u16 {
        match self {
            LogFault::PastEnd { .. } => 50,
            LogFault::CutShort { .. } => 51,
            LogFault::Form { .. } => 52,
            LogFault::Range { .. } => 53,
            LogFault::List { .. } => 54,
            LogFault::Serial { .. } => 55,
        }
    }

    /// The place carried.
    pub const fn place(self) -> usize {
        match self {
            LogFault::PastEnd { place }
            | LogFault::CutShort { place }
            | LogFault::Form { place }
            | LogFault::Range { place }
            | LogFault::List { place }
            | LogFault::Serial { place } => place,
        }
    }

    /// The fault of this number.
    #[inline]
    fn from_number(number: u16, place: usize) -> Option<LogFault> {
        Some(match number {
            50 => LogFault::PastEnd { place },
            51 => LogFault::CutShort { place },
            52 => LogFault::Form { place },
            53 => LogFault::Range { place },
            54 => LogFault::List { place },
            55 => LogFault::Serial { place },
            _ => return None,
        })
    }
}

impl fmt::Display for LogFault {
    fn fmt(&self, f: &mut fmt::Formatter<'_>) -> fmt::Result {
        let what = match self {
            LogFault::PastEnd { .. } => "the place is past the log's end",
            LogFault::CutShort { .. } => "the log ends inside a record",
            LogFault::Form { .. } => "a number is not in its shortest form or above 65,535",
            LogFault::Range { .. } => "a login, folder, kind or answer that no record has",
            LogFault::List { .. } => "a count or a list that no record has",
            LogFault::Serial { .. } => "the record's serial is not the one after its predecessor's",
        };
        write!(f, "{what} (at byte {})", self.place())
    }
}

impl Error for LogFault {}

/// What a record says was answered.
#[derive(Clone, Copy, Debug, PartialEq, Eq, Hash)]
pub enum Verdict {
    /// 0: granted. The record lists the folders that lost a write right, rising.
    Granted,
    /// 20: refused; the record lists the rival.
    Rival,
    /// 21: refused; the record lists the foreign folder.
    Foreign,
    /// 22: refused; the record lists the folder at stake.
    AtStake,
}

impl Verdict {
    /// Its number in the rules: 0, 20, 21 or 22.
    pub const fn number(self) -> u16 {
        match self {
            Verdict::Granted => 0,
            Verdict::Rival => 20,
            Verdict::Foreign => 21,
            Verdict::AtStake => 22,
        }
    }

    /// The verdict of this number.
    #[inline]
    fn from_number(number: u16) -> Option<Verdict> {
        Some(match number {
            0 => Verdict::Granted,
            20 => Verdict::Rival,
            21 => Verdict::Foreign,
            22 => Verdict::AtStake,
            _ => return None,
        })
    }
}

impl fmt::Display for Verdict {
    fn fmt(&self, f: &mut fmt::Formatter<'_>) -> fmt::Result {
        f.pad(match self {
            Verdict::Granted => "granted",
            Verdict::Rival => "refused for a rival",
            Verdict::Foreign => "refused for a foreign folder",
            Verdict::AtStake => "refused for a write right at stake",
        })
    }
}

/// A record of a lent log.
///
/// Two records are equal if they say the same: serial, login, folder, kind, verdict and listed folders. Where they stand, and in
/// which log, does not count. Printed, a record is one line:
///
/// ```
/// use housechervil::Records;
///
/// let log = [3, 0, 1, 1, 0, 1, 3, 4, 0, 2, 1, 20, 1, 1];
/// let lines: Vec<String> = Records::new(&log).map(|record| record.unwrap().to_string()).collect();
/// assert_eq!(lines[0], "3: login 0, read, folder 1: granted, write rights taken back: 3");
/// assert_eq!(lines[1], "4: login 0, read, folder 2: refused for a rival: 1");
/// ```
#[derive(Clone, Copy)]
pub struct Record<'a> {
    log: &'a [u8],
    start: usize,
    list: usize,
    end: usize,
    serial: Serial,
    login: LoginNo,
    folder: FolderNo,
    kind: Kind,
    verdict: Verdict,
    count: u16,
}

impl<'a> Record<'a> {
    /// The record's serial.
    pub fn serial(&self) -> Serial {
        self.serial
    }

    /// Who asked.
    pub fn login(&self) -> LoginNo {
        self.login
    }

    /// The folder asked for.
    pub fn folder(&self) -> FolderNo {
        self.folder
    }

    /// The kind of access asked for.
    pub fn kind(&self) -> Kind {
        self.kind
    }

    /// What was answered.
    pub fn verdict(&self) -> Verdict {
        self.verdict
    }

    /// How many folders are listed.
    pub fn count(&self) -> u16 {
        self.count
    }

    /// The place of the record's first byte.
    pub fn start(&self) -> usize {
        self.start
    }

    /// The place of the first listed number; of the byte after the count if none is listed.
    pub fn list_place(&self) -> usize {
        self.list
    }

    /// The place of the byte after the record.
    pub fn end(&self) -> usize {
        self.end
    }

    /// The listed folders: after a grant those that lost a write right, rising; after a refusal the one that stands in the way.
    pub fn listed(&self) -> Listed<'a> {
        Listed { log: self.log, place: self.list, left: self.count }
    }
}

impl Record<'_> {
    /// What the record says, but for its list.
    fn fields(&self) -> (Serial, LoginNo, FolderNo, Kind, Verdict) {
        (self.serial, self.login, self.folder, self.kind, self.verdict)
    }
}

impl PartialEq for Record<'_> {
    fn eq(&self, other: &Record<'_>) -> bool {
        self.fields() == other.fields() && self.listed().eq(other.listed())
    }
}

impl Eq for Record<'_> {}

impl Hash for Record<'_> {
    fn hash<H: Hasher>(&self, state: &mut H) {
        self.fields().hash(state);
        self.count.hash(state);
        self.listed().for_each(|folder| folder.hash(state));
    }
}

impl fmt::Display for Record<'_> {
    fn fmt(&self, f: &mut fmt::Formatter<'_>) -> fmt::Result {
        let Record { serial, login, folder, kind, verdict, .. } = self;
        write!(f, "{serial}: login {login}, {kind}, folder {folder}: {verdict}")?;
        if *verdict == Verdict::Granted && self.count > 0 {
            f.write_str(", write rights taken back")?;
        }
        let mut before = ": ";
        for listed in self.listed() {
            write!(f, "{before}{listed}")?;
            before = ", ";
        }
        Ok(())
    }
}

impl fmt::Debug for Record<'_> {
    fn fmt(&self, f: &mut fmt::Formatter<'_>) -> fmt::Result {
        f.debug_struct("Record")
            .field("place", &(self.start..self.end))
            .field("serial", &self.serial)
            .field("login", &self.login)
            .field("folder", &self.folder)
            .field("kind", &self.kind)
            .field("verdict", &self.verdict)
            .field("listed", &self.listed().collect::<Vec<_>>())
            .finish()
    }
}

/// The folders that a [`Record`] lists.
#[derive(Clone, Debug)]
pub struct Listed<'a> {
    log: &'a [u8],
    place: usize,
    left: u16,
}

impl Iterator for Listed<'_> {
    type Item = FolderNo;

    fn next(&mut self) -> Option<FolderNo> {
        self.left = self.left.checked_sub(1)?;
        // The log is still the one in which the library found the record, so the number is there.
        let (folder, after) = read_number(self.log, self.place).expect("a record's list is in order");
        self.place = after;
        Some(FolderNo(folder))
    }

    fn size_hint(&self) -> (usize, Option<usize>) {
        (self.left.into(), Some(self.left.into()))
    }
}

impl ExactSizeIterator for Listed<'_> {}
impl FusedIterator for Listed<'_> {}

/// The record at `place` of a log, or `None` at the log's end.
///
/// # Errors
///
/// The first fault met, 50 to 54.
#[inline]
pub fn read_record(log: &[u8], place: usize) -> Result<Option<Record<'_>>, LogFault> {
    // SAFETY: the pointer is the slice's, never null and readable for the slice's length; the library has no precondition on the
    // place and keeps no pointer.
    let item = unsafe { sys::hc_log_step(log.as_ptr(), log.len(), place) };
    let no_record = || -> ! { ruled_out("a step of the log reader", item.number) };
    match item.number {
        0 => Ok(Some(Record {
            log,
            start: place,
            list: item.list,
            end: item.place,
            serial: Serial(item.serial),
            login: LoginNo(item.login),
            folder: FolderNo(item.folder),
            kind: Kind::try_from(item.kind).unwrap_or_else(|_| no_record()),
            verdict: Verdict::from_number(item.answer).unwrap_or_else(|| no_record()),
            count: item.count,
        })),
        1 => Ok(None),
        number => Err(LogFault::from_number(number, item.place).unwrap_or_else(|| no_record())),
    }
}

/// The log reader: a lent log together with a place. As an iterator it yields the records, and ends at the log's end or after a fault.
#[derive(Clone, Debug)]
pub struct Records<'a> {
    log: &'a [u8],
    place: usize,
    done: bool,
}

impl<'a> Records<'a> {
    /// The records of a log from its start.
    pub fn new(log: &'a [u8]) -> Records<'a> {
        Records::from_place(log, 0)
    }

    /// The records of a log from a place on.
    pub fn from_place(log: &'a [u8], place: usize) -> Records<'a> {
        Records { log, place, done: false }
    }

    /// The reader's place. Only a record moves it, to the byte after it.
    pub fn place(&self) -> usize {
        self.place
    }

    /// One step: a record, or `None` at the log's end. Unlike [`next`](Iterator::next), a step after a fault meets it again.
    ///
    /// # Errors
    ///
    /// The first fault met, 50 to 54; the reader's place stays.
    pub fn step(&mut self) -> Result<Option<Record<'a>>, LogFault> {
        let record = read_record(self.log, self.place)?;
        if let Some(record) = &record {
            self.place = record.end;
        }
        Ok(record)
    }
}

impl<'a> Iterator for Records<'a> {
    type Item = Result<Record<'a>, LogFault>;

    fn next(&mut self) -> Option<Self::Item> {
        if self.done {
            return None;
        }
        let item = self.step().transpose();
        self.done = !matches!(item, Some(Ok(_)));
        item
    }
}

impl FusedIterator for Records<'_> {}

/// The whole-log check: every record in order, and the serials one after the other from the first. Returns the number of records.
///
/// # Errors
///
/// The first fault met, 51 to 55.
#[inline]
pub fn check_log(log: &[u8]) -> Result<usize, LogFault> {
    // SAFETY: the pointer is the slice's, never null and readable for the slice's length; the library keeps no pointer.
    let answer = unsafe { sys::hc_log_check(log.as_ptr(), log.len()) };
    match answer.number {
        0 => Ok(answer.value),
        number => {
            Err(LogFault::from_number(number, answer.value).unwrap_or_else(|| ruled_out("a whole-log check", number)))
        }
    }
}

/// Reads the number at `place` of a log: its value and the place after it.
///
/// A number is written in groups of seven bits, lowest group first; a byte's top bit says that another follows.
///
/// ```
/// # use housechervil::{read_number, LogFault};
/// assert_eq!(read_number(&[172, 2], 0), Ok((300, 2)));
/// assert_eq!(read_number(&[128, 0], 0), Err(LogFault::Form { place: 0 }));
/// ```
///
/// # Errors
///
/// [`LogFault::CutShort`] or [`LogFault::Form`].
#[inline]
pub fn read_number(log: &[u8], place: usize) -> Result<(u16, usize), LogFault> {
    // SAFETY: the pointer is the slice's, never null and readable for the slice's length; the library has no precondition on the
    // place and keeps no pointer.
    let answer = unsafe { sys::hc_number_read(log.as_ptr(), log.len(), place) };
    match answer.number {
        0 => Ok((answer.value, answer.place)),
        number => {
            Err(LogFault::from_number(number, answer.place)
                .unwrap_or_else(|| ruled_out("the reading of a number", number)))
        }
    }
}

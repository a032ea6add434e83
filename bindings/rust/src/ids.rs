//! The numbers that look alike on paper, kept apart; kinds, rights and serials.

use std::error::Error;
use std::fmt;
use std::str::FromStr;

use crate::{ruled_out, sys};

macro_rules! number_type {
    ($(#[$doc:meta])* $name:ident) => {
        $(#[$doc])*
        #[repr(transparent)]
        #[derive(Clone, Copy, Debug, Default, PartialEq, Eq, PartialOrd, Ord, Hash)]
        pub struct $name(pub u16);

        impl fmt::Display for $name {
            fn fmt(&self, f: &mut fmt::Formatter<'_>) -> fmt::Result {
                self.0.fmt(f)
            }
        }

        impl From<$name> for u16 {
            fn from(number: $name) -> u16 {
                number.0
            }
        }

        impl From<$name> for usize {
            fn from(number: $name) -> usize {
                usize::from(number.0)
            }
        }
    };
}

number_type! {
    /// A login's number, from 0. Whose login it is, the person list tells: see [`PersonNo`].
    LoginNo
}

number_type! {
    /// A person's number, from 0 and below the number of logins. The person list gives the person of each login. Rights are a
    /// person's, whichever of the person's logins they came through; requests and records have the login.
    ///
    /// A login number in a person number's place does not build:
    ///
    /// ```compile_fail,E0277
    /// use housechervil::{ClassNo, ClientNo, LoginNo, Room};
    ///
    /// let room = Room::builder(2, &[(ClassNo(1), ClientNo(1))]).persons([LoginNo(0), LoginNo(0)]).open();
    /// ```
    ///
    /// nor does it the other way round:
    ///
    /// ```compile_fail,E0308
    /// use housechervil::{FolderNo, Kind, PersonNo, Request};
    ///
    /// let request = Request::new(PersonNo(0), FolderNo(0), Kind::Read);
    /// ```
    PersonNo
}

number_type! {
    /// A folder's number, from 0, in the register's order.
    FolderNo
}

number_type! {
    /// The number of a class of clients, who compete with each other where conflicts are by class. Class 0 belongs to sanitised
    /// folders.
    ClassNo
}

number_type! {
    /// A client's number. Client 0 belongs to sanitised folders.
    ClientNo
}

macro_rules! slices {
    ($name:ident) => {
        impl $name {
            /// The same list, its numbers taken as numbers of this type.
            #[inline]
            pub fn from_slice(numbers: &[u16]) -> &[$name] {
                // SAFETY: the type is `repr(transparent)` around `u16`, so the two slices have one layout, and every `u16` is a
                // value of it. The borrow is handed on.
                unsafe { std::slice::from_raw_parts(numbers.as_ptr().cast(), numbers.len()) }
            }
        }
    };
}

slices!(ClassNo);
slices!(ClientNo);
slices!(PersonNo);

/// The four kinds of request.
///
/// A kind is listed ([`ALL`](Kind::ALL)), printed, and parsed from the words that it prints: `read`, `careful read`, `write` and
/// `read and write`, just so. Numbers are taken by `Kind::try_from`.
///
/// ```
/// use housechervil::{Kind, ParseKindError, UnknownKind};
///
/// assert_eq!(Kind::ALL.map(|kind| kind.to_string()), ["read", "careful read", "write", "read and write"]);
/// assert_eq!("careful read".parse(), Ok(Kind::CarefulRead));
/// assert_eq!("Read".parse::<Kind>(), Err(ParseKindError("Read".to_string())));
/// assert_eq!((Kind::try_from(4), Kind::try_from(5)), (Ok(Kind::ReadAndWrite), Err(UnknownKind(5))));
/// ```
#[derive(Clone, Copy, Debug, PartialEq, Eq, Hash)]
pub enum Kind {
    /// 1: read. A grant takes the write rights back that are at stake.
    Read,
    /// 2: careful read. Refused where a plain read would take a write right back.
    CarefulRead,
    /// 3: write.
    Write,
    /// 4: read and write.
    ReadAndWrite,
}

impl Kind {
    /// All kinds, in the order of their numbers.
    pub const ALL: [Kind; 4] = [Kind::Read, Kind::CarefulRead, Kind::Write, Kind::ReadAndWrite];

    /// Its number in the rules, 1 to 4.
    pub const fn number(self) -> u16 {
        match self {
            Kind::Read => 1,
            Kind::CarefulRead => 2,
            Kind::Write => 3,
            Kind::ReadAndWrite => 4,
        }
    }

    /// Its words, which are printed and parsed.
    const fn words(self) -> &'static str {
        match self {
            Kind::Read => "read",
            Kind::CarefulRead => "careful read",
            Kind::Write => "write",
            Kind::ReadAndWrite => "read and write",
        }
    }
}

impl fmt::Display for Kind {
    fn fmt(&self, f: &mut fmt::Formatter<'_>) -> fmt::Result {
        f.pad(self.words())
    }
}

impl FromStr for Kind {
    type Err = ParseKindError;

    /// The kind of these words, which are those that it prints.
    fn from_str(words: &str) -> Result<Kind, ParseKindError> {
        let named = Kind::ALL.into_iter().find(|kind| kind.words() == words);
        named.ok_or_else(|| ParseKindError(words.to_string()))
    }
}

/// Words that name no kind.
#[derive(Clone, Debug, PartialEq, Eq, Hash)]
pub struct ParseKindError(pub String);

impl fmt::Display for ParseKindError {
    fn fmt(&self, f: &mut fmt::Formatter<'_>) -> fmt::Result {
        let [read, careful_read, write, read_and_write] = Kind::ALL;
        write!(
            f,
            "{:?} is not a kind of request, which are {read}, {careful_read}, {write}, and {read_and_write}",
            self.0
        )
    }
}

impl Error for ParseKindError {}

/// A number that is no kind.
#[derive(Clone, Copy, Debug, PartialEq, Eq)]
pub struct UnknownKind(pub u16);

impl fmt::Display for UnknownKind {
    fn fmt(&self, f: &mut fmt::Formatter<'_>) -> fmt::Result {
        write!(f, "{} is not a kind of request, which are 1 to 4", self.0)
    }
}

impl Error for UnknownKind {}

impl TryFrom<u16> for Kind {
    type Error = UnknownKind;

    fn try_from(number: u16) -> Result<Kind, UnknownKind> {
        match number {
            1 => Ok(Kind::Read),
            2 => Ok(Kind::CarefulRead),
            3 => Ok(Kind::Write),
            4 => Ok(Kind::ReadAndWrite),
            _ => Err(UnknownKind(number)),
        }
    }
}

/// A kind as a number that may have come from outside: one that is not 1 to 4 is answered with
/// [`Refusal::Kind`](crate::Refusal::Kind), in its place among the checks.
#[derive(Clone, Copy, Debug, PartialEq, Eq, Hash)]
pub struct KindNo(pub u16);

impl From<Kind> for KindNo {
    fn from(kind: Kind) -> KindNo {
        KindNo(kind.number())
    }
}

impl fmt::Display for KindNo {
    fn fmt(&self, f: &mut fmt::Formatter<'_>) -> fmt::Result {
        self.0.fmt(f)
    }
}

/// The rights of one person on one folder: a cell of the matrix.
#[derive(Clone, Copy, Debug, Default, PartialEq, Eq, Hash)]
pub struct Rights {
    /// The right to read, which is never taken back.
    pub read: bool,
    /// The right to write.
    pub write: bool,
}

impl Rights {
    /// The rights that a cell stands for, 0 to 3; `None` for a cell above 3.
    pub const fn from_cell(cell: u8) -> Option<Rights> {
        match cell {
            0..=3 => Some(Rights { read: cell & 1 != 0, write: cell & 2 != 0 }),
            _ => None,
        }
    }

    /// The cell: 0 for no right, 1 for read, 2 for write, 3 for both.
    pub const fn cell(self) -> u8 {
        self.read as u8 | (self.write as u8) << 1
    }
}

impl fmt::Display for Rights {
    fn fmt(&self, f: &mut fmt::Formatter<'_>) -> fmt::Result {
        f.pad(match (self.read, self.write) {
            (false, false) => "none",
            (true, false) => "read",
            (false, true) => "write",
            (true, true) => "read and write",
        })
    }
}

/// A record's serial. It has 16 bits, and after 65,535 comes 0. Serials have no order that `<` could tell: see
/// [`compare`](Serial::compare).
#[repr(transparent)]
#[derive(Clone, Copy, Debug, Default, PartialEq, Eq, Hash)]
pub struct Serial(pub u16);

impl Serial {
    /// The serial after this one.
    ///
    /// ```
    /// # use housechervil::Serial;
    /// assert_eq!(Serial(65_535).next(), Serial(0));
    /// ```
    #[inline]
    #[must_use]
    pub fn next(self) -> Serial {
        // SAFETY: a number in, a number out.
        Serial(unsafe { sys::hc_serial_next(self.0) })
    }

    /// How this serial stands to `second`, by the way from this one to that one, counted round 65,536.
    #[inline]
    pub fn compare(self, second: Serial) -> SerialOrder {
        // SAFETY: numbers in, a number out.
        match unsafe { sys::hc_serial_compare(self.0, second.0) } {
            0 => SerialOrder::Same,
            1 => SerialOrder::Earlier,
            2 => SerialOrder::Undecided,
            3 => SerialOrder::Later,
            other => ruled_out("a comparison of serials", other.into()),
        }
    }
}

impl fmt::Display for Serial {
    fn fmt(&self, f: &mut fmt::Formatter<'_>) -> fmt::Result {
        self.0.fmt(f)
    }
}

/// How a first serial stands to a second.
#[derive(Clone, Copy, Debug, PartialEq, Eq, Hash)]
pub enum SerialOrder {
    /// The same serial.
    Same,
    /// The first is earlier: the way to the second is 1 to 32,767.
    Earlier,
    /// The way is 32,768, as far as back again.
    Undecided,
    /// The first is later.
    Later,
}

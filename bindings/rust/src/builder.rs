//! The opening of a room.

use std::error::Error;
use std::fmt;

use crate::{ClassNo, ClientNo, Conflicts, Parts, PersonNo, Refusal, RegisterError, Room, Serial};

/// A room to be opened: [`Room::builder`] begins it, [`open`](RoomBuilder::open) opens it. What is not said between the two is as
/// here:
///
/// | Method | Left out |
/// |---|---|
/// | [`conflicts`](RoomBuilder::conflicts) | by class |
/// | [`persons`](RoomBuilder::persons) | each login is its own person: 0, 1, 2 and so on |
/// | [`log_len`](RoomBuilder::log_len) | 65,536 bytes |
/// | [`first_serial`](RoomBuilder::first_serial) | 0 |
///
/// ```
/// use housechervil::{ClassNo, ClientNo, Room, Serial};
///
/// let labels = [(ClassNo(1), ClientNo(1)), (ClassNo(1), ClientNo(2))];
/// let house = Room::builder(4, &labels).log_len(4096);
/// let today = house.clone().open()?;
/// let tomorrow = house.first_serial(Serial(500)).open()?; // the same house, with another log
/// assert_eq!((today.next_serial(), tomorrow.next_serial()), (Serial(0), Serial(500)));
/// # Ok::<(), housechervil::OpenError>(())
/// ```
#[derive(Clone, Debug, PartialEq, Eq)]
#[must_use = "there is no room before `open`"]
pub struct RoomBuilder {
    /// What the room will be made of. The matrix is made at the opening, when its size is known to be good.
    parts: Parts,
}

impl Room {
    /// A room to be opened, of so many logins. `labels` has each folder's class and client, in folder order.
    pub fn builder(logins: usize, labels: &[(ClassNo, ClientNo)]) -> RoomBuilder {
        let (classes, clients) = labels.iter().copied().unzip();
        RoomBuilder {
            parts: Parts {
                logins,
                classes,
                clients,
                conflicts: Conflicts::ByClass,
                persons: (0..=u16::MAX).map(PersonNo).take(logins).collect(),
                matrix: Vec::new(),
                log: Vec::new(),
                log_len: 65_536,
                serial: Serial(0),
            },
        }
    }
}

impl RoomBuilder {
    /// Which clients are in conflict.
    pub fn conflicts(mut self, conflicts: Conflicts) -> RoomBuilder {
        self.parts.conflicts = conflicts;
        self
    }

    /// The person of each login, in login order: numbers below the number of logins, which need not all be used.
    ///
    /// Whoever has two logins has one wall behind both. If each login counted as a person, a partner could read one rival's folder at
    /// the desk and the other's on a journey:
    ///
    /// ```
    /// use housechervil::{ClassNo, ClientNo, FolderNo, Granted, Kind, LoginNo, PersonNo, Refusal, Room};
    ///
    /// let labels = [(ClassNo(1), ClientNo(1)), (ClassNo(1), ClientNo(2))]; // a folder of each of two rivals
    /// let (desk, travel) = (LoginNo(0), LoginNo(1));
    /// let granted = Ok(Granted { taken_back: 0 });
    ///
    /// let mut room = Room::builder(2, &labels).open()?; // each login its own person
    /// assert_eq!(room.ask(desk, FolderNo(0), Kind::Read), granted);
    /// assert_eq!(room.ask(travel, FolderNo(1), Kind::Read), granted); // one head has both
    ///
    /// let mut room = Room::builder(2, &labels).persons([PersonNo(0), PersonNo(0)]).open()?;
    /// assert_eq!(room.ask(desk, FolderNo(0), Kind::Read), granted);
    /// assert_eq!(room.ask(travel, FolderNo(1), Kind::Read), Err(Refusal::Rival { folder: FolderNo(0) }));
    /// # Ok::<(), housechervil::OpenError>(())
    /// ```
    pub fn persons(mut self, persons: impl Into<Vec<PersonNo>>) -> RoomBuilder {
        self.parts.persons = persons.into();
        self
    }

    /// How many bytes the log can hold.
    pub fn log_len(mut self, log_len: usize) -> RoomBuilder {
        self.parts.log_len = log_len;
        self
    }

    /// The serial that the first record gets.
    pub fn first_serial(mut self, first: Serial) -> RoomBuilder {
        self.parts.serial = first;
        self
    }

    /// Opens the room, with a blank matrix and an empty log. It keeps labels, conflicts and persons throughout.
    ///
    /// # Errors
    ///
    /// The register check's refusal, then 10 for the person list.
    ///
    /// # Panics
    ///
    /// If the log's length exceeds `isize::MAX`, the most bytes that a `Vec` can have.
    pub fn open(self) -> Result<Room, OpenError> {
        let RoomBuilder { mut parts } = self;
        parts.register().check()?;
        parts.matrix = vec![0; parts.logins * parts.classes.len()];
        if !parts.persons_are_good() {
            return Err(OpenError::BadPersons);
        }
        Ok(Room::of(parts, None))
    }
}

/// Why a room cannot be opened, in the order in which the faults are sought.
#[derive(Clone, Copy, Debug, PartialEq, Eq, Hash)]
pub enum OpenError {
    /// 1, 2, 3 and 11: the register is not good.
    Register(RegisterError),
    /// 10: the person list's length is not the number of logins, or an entry is not below it.
    BadPersons,
}

impl OpenError {
    /// Its number in the rules.
    pub const fn number(self) -> u16 {
        match self {
            OpenError::Register(error) => error.number(),
            OpenError::BadPersons => Refusal::BadPersons.number(),
        }
    }
}

impl From<RegisterError> for OpenError {
    fn from(error: RegisterError) -> OpenError {
        OpenError::Register(error)
    }
}

impl fmt::Display for OpenError {
    fn fmt(&self, f: &mut fmt::Formatter<'_>) -> fmt::Result {
        match self {
            OpenError::Register(error) => error.fmt(f),
            OpenError::BadPersons => Refusal::BadPersons.fmt(f),
        }
    }
}

impl Error for OpenError {
    fn source(&self) -> Option<&(dyn Error + 'static)> {
        match self {
            OpenError::Register(error) => Some(error),
            OpenError::BadPersons => None,
        }
    }
}

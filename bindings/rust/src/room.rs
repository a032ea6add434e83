//! A room that owns what a request is lent.

use std::error::Error;
use std::fmt;

use crate::{
    check_log, ClassNo, ClientNo, Conflicts, FolderNo, Granted, Kind, LogFault, LoginNo, PersonNo, Record, Records,
    Refusal, Register, RegisterError, Request, Rights, Serial,
};

/// A reading room: a register and a person list that were accepted, the matrix, the log, and the log's end and next serial.
/// [`Room::builder`] opens one.
///
/// # A full log
///
/// A request whose record does not fit is answered [`Refusal::LogFull`]. Then [`take_log`](Room::take_log) takes the log out, and
/// the room goes on with an empty one: rights and serials stay, so the next log continues the one that was taken out.
///
/// ```
/// use housechervil::{check_log, ClassNo, ClientNo, FolderNo, Granted, Kind, LoginNo, Refusal, Room};
///
/// let labels = [(ClassNo(1), ClientNo(1)), (ClassNo(1), ClientNo(2))];
/// let mut room = Room::builder(1, &labels).log_len(8).open()?; // room for one record
/// assert_eq!(room.ask(LoginNo(0), FolderNo(0), Kind::Read), Ok(Granted { taken_back: 0 }));
/// assert_eq!(room.ask(LoginNo(0), FolderNo(1), Kind::Read), Err(Refusal::LogFull));
///
/// let mut kept = room.take_log();
/// assert_eq!(room.ask(LoginNo(0), FolderNo(1), Kind::Read), Err(Refusal::Rival { folder: FolderNo(0) }));
/// kept.extend(room.take_log());
/// assert_eq!(check_log(&kept), Ok(2));
/// # Ok::<(), housechervil::OpenError>(())
/// ```
///
/// # Closed and opened again
///
/// [`into_parts`](Room::into_parts) takes a room apart into what has to be kept; [`resume`](Room::resume) judges such parts and
/// makes a room of them.
///
/// ```
/// use housechervil::{ClassNo, ClientNo, FolderNo, Kind, LoginNo, PersonNo, Refusal, ResumeError, Room};
///
/// let labels = [(ClassNo(1), ClientNo(1)), (ClassNo(1), ClientNo(2))];
/// let mut room = Room::builder(1, &labels).open()?;
/// room.ask(LoginNo(0), FolderNo(0), Kind::Read)?;
///
/// let parts = room.into_parts();
/// let mut room = Room::resume(parts.clone())?;
/// assert_eq!(room.ask(LoginNo(0), FolderNo(1), Kind::Read), Err(Refusal::Rival { folder: FolderNo(0) }));
///
/// let mut spoilt = parts;
/// spoilt.matrix[1] = 4;
/// let error = Room::resume(spoilt).unwrap_err();
/// assert_eq!(error, ResumeError::Cell { person: PersonNo(0), folder: FolderNo(1) });
/// assert_eq!(error.number(), 8);
/// # Ok::<(), Box<dyn std::error::Error>>(())
/// ```
#[derive(Clone, Debug)]
pub struct Room {
    logins: usize,
    classes: Vec<ClassNo>,
    clients: Vec<ClientNo>,
    conflicts: Conflicts,
    persons: Vec<PersonNo>,
    matrix: Vec<u8>,
    log: Vec<u8>,
    end: usize,
    serial: Serial,
    last: Option<usize>,
}

impl Room {
    /// The room of these parts, which goes on where the room that they were taken from ended.
    ///
    /// What a room promises is judged: that the register and the person list are accepted, every cell of the matrix is 0 to 3, and the
    /// log is in order and goes on with the next serial. Whether the matrix follows from the log, or either from requests of this
    /// register, cannot be judged: the rights that the matrix shows are taken as those that stand.
    ///
    /// # Errors
    ///
    /// The first fault, in the order of [`ResumeError`]'s cases.
    ///
    /// # Panics
    ///
    /// If `log_len` exceeds `isize::MAX`, the most bytes that a `Vec` can have.
    pub fn resume(mut parts: Parts) -> Result<Room, ResumeError> {
        parts.register().check()?;
        parts.check_matrix()?;
        let last = parts.check_log()?;
        Ok(Room::of(parts, last))
    }

    /// The room of parts that were judged, whose last record has this place.
    pub(crate) fn of(parts: Parts, last: Option<usize>) -> Room {
        let Parts { logins, classes, clients, conflicts, persons, matrix, mut log, log_len, serial } = parts;
        let end = log.len();
        log.resize(log_len, 0);
        Room { logins, classes, clients, conflicts, persons, matrix, log, end, serial, last }
    }

    /// Takes the room apart. [`resume`](Room::resume) accepts what comes out, and makes the same room of it.
    pub fn into_parts(self) -> Parts {
        let Room { logins, classes, clients, conflicts, persons, matrix, mut log, end, serial, .. } = self;
        let log_len = log.len();
        log.truncate(end);
        Parts { logins, classes, clients, conflicts, persons, matrix, log, log_len, serial }
    }

    /// A request of `login` for `folder`.
    ///
    /// # Errors
    ///
    /// [`Refusal::Login`], [`Refusal::Folder`], the wall's refusals, or [`Refusal::LogFull`]; the room keeps the others away.
    pub fn ask(&mut self, login: LoginNo, folder: FolderNo, kind: Kind) -> Result<Granted, Refusal> {
        let register = Register::new(self.logins, &self.classes, &self.clients, &self.conflicts);
        let request = Request::new(login, folder, kind);
        let reply = register.request(&self.persons, &mut self.matrix, request, &mut self.log, self.end, self.serial);
        if reply.end != self.end {
            self.last = Some(self.end);
        }
        self.end = reply.end;
        self.serial = reply.serial;
        reply.answer
    }

    /// Takes the log out: its bytes, up to its end. The room goes on with an empty log of the same size, the same rights and the
    /// same next serial, so logs taken out one after the other, and put together in that order, are one log.
    ///
    /// In a log of [`MAX_RECORD`](crate::MAX_RECORD) bytes or more, what was refused for [`Refusal::LogFull`] then fits.
    #[must_use = "the room does not keep the log that is taken out"]
    pub fn take_log(&mut self) -> Vec<u8> {
        let taken = self.log().to_vec();
        self.end = 0;
        self.last = None;
        taken
    }

    /// The register.
    pub fn register(&self) -> Register<'_> {
        Register::new(self.logins, &self.classes, &self.clients, &self.conflicts)
    }

    /// The person of each login, in login order.
    pub fn persons(&self) -> &[PersonNo] {
        &self.persons
    }

    /// The person of a login; `None` if there is no such login.
    pub fn person(&self, login: LoginNo) -> Option<PersonNo> {
        self.persons.get(usize::from(login)).copied()
    }

    /// The matrix: a cell for each person and folder, person by person, and as many persons as there are logins. No request changes
    /// the row of one who has no login.
    pub fn matrix(&self) -> &[u8] {
        &self.matrix
    }

    /// The rights of a login on a folder, which are those of its person; `None` if there is no such login or no such folder.
    pub fn rights(&self, login: LoginNo, folder: FolderNo) -> Option<Rights> {
        let row = self.matrix.chunks_exact(self.classes.len()).nth(self.person(login)?.into())?;
        Rights::from_cell(*row.get(usize::from(folder))?)
    }

    /// The log's bytes, up to its end.
    pub fn log(&self) -> &[u8] {
        &self.log[..self.end]
    }

    /// How many bytes the log can still take.
    pub fn log_left(&self) -> usize {
        self.log.len() - self.end
    }

    /// The serial that the next record gets.
    pub fn next_serial(&self) -> Serial {
        self.serial
    }

    /// The log's records. None of them is at fault.
    pub fn records(&self) -> Records<'_> {
        Records::new(self.log())
    }

    /// The log's last record, which is that of the last request that was logged; it lists the folders that lost a write right.
    /// `None` in an empty log: before the first such request, and after the log was taken out.
    pub fn last_record(&self) -> Option<Record<'_>> {
        Records::from_place(self.log(), self.last?).step().ok().flatten()
    }
}

/// What a room is made of: what has to be kept to go on with it later. See [`Room::resume`].
#[derive(Clone, Debug, PartialEq, Eq)]
pub struct Parts {
    /// The number of logins.
    pub logins: usize,
    /// Each folder's class, in folder order.
    pub classes: Vec<ClassNo>,
    /// Each folder's client, in the same order.
    pub clients: Vec<ClientNo>,
    /// Which clients are in conflict.
    pub conflicts: Conflicts,
    /// The person of each login, in login order.
    pub persons: Vec<PersonNo>,
    /// The matrix: a cell for each person and folder, person by person, and as many persons as there are logins.
    pub matrix: Vec<u8>,
    /// The log's bytes, up to its end.
    pub log: Vec<u8>,
    /// How many bytes the log can hold.
    pub log_len: usize,
    /// The serial that the next record gets.
    pub serial: Serial,
}

impl Parts {
    pub(crate) fn register(&self) -> Register<'_> {
        Register::new(self.logins, &self.classes, &self.clients, &self.conflicts)
    }

    /// Whether the library accepts the person list, beside a register that was accepted and a matrix of the right length. It is asked,
    /// so that the rule of 10 does not stand here again: a request of login 0, which every good register has, for the first folder
    /// that is not there gets 10 if the list is bad, since that is judged before the folder, and otherwise 6. Neither changes a byte.
    pub(crate) fn persons_are_good(&mut self) -> bool {
        let register = Register::new(self.logins, &self.classes, &self.clients, &self.conflicts);
        // A register that was accepted has at most 512 folders.
        let nowhere = Request::new(LoginNo(0), FolderNo(self.classes.len() as u16), Kind::Read);
        let reply = register.request(&self.persons, &mut self.matrix, nowhere, &mut [], 0, Serial(0));
        matches!(reply.answer, Err(Refusal::Folder { .. }))
    }

    /// The matrix, with the person list, of a register that was accepted.
    fn check_matrix(&mut self) -> Result<(), ResumeError> {
        let folders = self.classes.len();
        if self.matrix.len() != self.logins * folders {
            return Err(ResumeError::MatrixLength);
        }
        if !self.persons_are_good() {
            return Err(ResumeError::BadPersons);
        }
        match self.matrix.iter().position(|&cell| Rights::from_cell(cell).is_none()) {
            // A register that was accepted has at most 128 logins and 512 folders.
            Some(place) => Err(ResumeError::Cell {
                person: PersonNo((place / folders) as u16),
                folder: FolderNo((place % folders) as u16),
            }),
            None => Ok(()),
        }
    }

    /// The log with its next serial; then the place of its last record.
    fn check_log(&self) -> Result<Option<usize>, ResumeError> {
        if self.log.len() > self.log_len {
            return Err(ResumeError::LogEnd);
        }
        check_log(&self.log)?;
        let last = Records::new(&self.log).flatten().last();
        match last.map(|record| record.serial().next()) {
            Some(expected) if expected != self.serial => Err(ResumeError::NextSerial { expected }),
            _ => Ok(last.map(|record| record.start())),
        }
    }
}

/// Why no room can be made of its parts, in the order in which the faults are sought.
#[derive(Clone, Copy, Debug, PartialEq, Eq, Hash)]
pub enum ResumeError {
    /// 1, 2, 3 and 11: the register is not good.
    Register(RegisterError),
    /// 4: the matrix's length is not logins times folders.
    MatrixLength,
    /// 10: the person list's length is not the number of logins, or an entry is not below it.
    BadPersons,
    /// 8: a cell exceeds 3.
    Cell {
        /// The first such cell's person.
        person: PersonNo,
        /// Its folder.
        folder: FolderNo,
    },
    /// 9: the log's end lies past its buffer: it has more bytes than it can hold.
    LogEnd,
    /// 51 to 55: the log is not in order.
    Log(LogFault),
    /// 55: the next serial is not the one after the last record's, so that the next record would be at fault.
    NextSerial {
        /// The one after the last record's.
        expected: Serial,
    },
}

impl ResumeError {
    /// Its number in the rules.
    pub const fn number(self) -> u16 {
        match self {
            ResumeError::Register(error) => error.number(),
            ResumeError::MatrixLength => 4,
            ResumeError::BadPersons => 10,
            ResumeError::Cell { .. } => 8,
            ResumeError::LogEnd => 9,
            ResumeError::Log(fault) => fault.number(),
            ResumeError::NextSerial { .. } => 55,
        }
    }
}

impl From<RegisterError> for ResumeError {
    fn from(error: RegisterError) -> ResumeError {
        ResumeError::Register(error)
    }
}

impl From<LogFault> for ResumeError {
    fn from(fault: LogFault) -> ResumeError {
        ResumeError::Log(fault)
    }
}

impl fmt::Display for ResumeError {
    fn fmt(&self, f: &mut fmt::Formatter<'_>) -> fmt::Result {
        match self {
            ResumeError::Register(error) => error.fmt(f),
            ResumeError::MatrixLength => f.write_str("the matrix's length is not logins times folders"),
            ResumeError::BadPersons => Refusal::BadPersons.fmt(f),
            ResumeError::Cell { person, folder } => {
                write!(f, "the cell of person {person} and folder {folder} exceeds 3")
            }
            ResumeError::LogEnd => f.write_str("the log has more bytes than it can hold"),
            ResumeError::Log(fault) => fault.fmt(f),
            ResumeError::NextSerial { expected } => {
                write!(f, "the next serial is not {expected}, the one after the log's last record")
            }
        }
    }
}

impl Error for ResumeError {
    fn source(&self) -> Option<&(dyn Error + 'static)> {
        match self {
            ResumeError::Register(error) => Some(error),
            ResumeError::Log(fault) => Some(fault),
            _ => None,
        }
    }
}

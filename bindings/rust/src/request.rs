//! The request.

use std::error::Error;
use std::fmt;

use crate::{ruled_out, sys, FolderNo, KindNo, LoginNo, PersonNo, Register, RegisterError, Serial};

/// What is asked for. Login, folder and kind may be out of range: the answer says so.
#[derive(Clone, Copy, Debug, PartialEq, Eq, Hash)]
pub struct Request {
    /// Who asks.
    pub login: LoginNo,
    /// The folder asked for.
    pub folder: FolderNo,
    /// The kind of access, as a number that may have come from outside.
    pub kind: KindNo,
}

impl Request {
    /// A request of `login` for `folder`; the kind is a [`Kind`](crate::Kind) or a [`KindNo`].
    pub fn new(login: LoginNo, folder: FolderNo, kind: impl Into<KindNo>) -> Request {
        Request { login, folder, kind: kind.into() }
    }
}

/// What a request returns.
#[derive(Clone, Copy, Debug, PartialEq, Eq)]
#[must_use]
pub struct Reply {
    /// The answer.
    pub answer: Result<Granted, Refusal>,
    /// The log's new end.
    pub end: usize,
    /// The next serial.
    pub serial: Serial,
}

/// A grant.
#[derive(Clone, Copy, Debug, PartialEq, Eq, Hash)]
pub struct Granted {
    /// How many write rights the grant took back. The log's record lists their folders.
    pub taken_back: u16,
}

impl Granted {
    /// The number of a grant in the rules, which is 0.
    pub const fn number(self) -> u16 {
        0
    }
}

/// A request's refusals, in the order in which they are sought.
#[derive(Clone, Copy, Debug, PartialEq, Eq, Hash)]
pub enum Refusal {
    /// 1, 2, 3 and 11: the register is not good.
    Register(RegisterError),
    /// 4: the matrix's length is not logins times folders.
    MatrixLength,
    /// 5: no such login.
    Login {
        /// The login that asked.
        asked: LoginNo,
    },
    /// 10: the person list's length is not the number of logins, or an entry, of whichever login, is not below it.
    BadPersons,
    /// 6: no such folder.
    Folder {
        /// The folder asked for.
        asked: FolderNo,
    },
    /// 7: the kind is not 1 to 4.
    Kind {
        /// The kind asked for.
        asked: KindNo,
    },
    /// 8: a cell of the row of the login's person exceeds 3.
    Cell {
        /// The first such folder.
        folder: FolderNo,
    },
    /// 9: the log's end lies past its buffer.
    LogEnd,
    /// 20: the login's person may read a folder of a client in conflict with the asked folder's.
    Rival {
        /// The first such folder.
        folder: FolderNo,
    },
    /// 21: kind 3 or 4, and the login's person may read an unsanitised folder of another client.
    Foreign {
        /// The first such folder.
        folder: FolderNo,
    },
    /// 22: kind 2, and the login's person would lose a write right.
    AtStake {
        /// The first such folder.
        folder: FolderNo,
    },
    /// 30: the record is longer than the room left in the log. The decision is not told.
    LogFull,
}

impl Refusal {
    /// Its number in the rules.
    pub const fn number(self) -> u16 {
        match self {
            Refusal::Register(error) => error.number(),
            Refusal::MatrixLength => 4,
            Refusal::Login { .. } => 5,
            Refusal::BadPersons => 10,
            Refusal::Folder { .. } => 6,
            Refusal::Kind { .. } => 7,
            Refusal::Cell { .. } => 8,
            Refusal::LogEnd => 9,
            Refusal::Rival { .. } => 20,
            Refusal::Foreign { .. } => 21,
            Refusal::AtStake { .. } => 22,
            Refusal::LogFull => 30,
        }
    }

    /// The folder of the house that is at fault or stands in the way, if the refusal carries one; the first of the two of refusal 3.
    /// A folder that was asked for and does not exist is none.
    pub const fn folder(self) -> Option<FolderNo> {
        match self {
            Refusal::Register(error) => error.folder(),
            Refusal::Cell { folder }
            | Refusal::Rival { folder }
            | Refusal::Foreign { folder }
            | Refusal::AtStake { folder } => Some(folder),
            Refusal::MatrixLength
            | Refusal::Login { .. }
            | Refusal::BadPersons
            | Refusal::Folder { .. }
            | Refusal::Kind { .. }
            | Refusal::LogEnd
            | Refusal::LogFull => None,
        }
    }

    /// Whether the wall spoke, with 20, 21 or 22: then the log has a record of it. Any other refusal left no trace.
    pub const fn is_logged(self) -> bool {
        matches!(self, Refusal::Rival { .. } | Refusal::Foreign { .. } | Refusal::AtStake { .. })
    }

    /// The refusal of these numbers, which answer this request.
    #[inline]
    fn from_numbers(number: u16, first: u16, second: u16, request: Request) -> Option<Refusal> {
        let folder = FolderNo(first);
        Some(match number {
            4 => Refusal::MatrixLength,
            5 => Refusal::Login { asked: request.login },
            10 => Refusal::BadPersons,
            6 => Refusal::Folder { asked: request.folder },
            7 => Refusal::Kind { asked: request.kind },
            8 => Refusal::Cell { folder },
            9 => Refusal::LogEnd,
            20 => Refusal::Rival { folder },
            21 => Refusal::Foreign { folder },
            22 => Refusal::AtStake { folder },
            30 => Refusal::LogFull,
            _ => Refusal::Register(RegisterError::from_numbers(number, first, second)?),
        })
    }
}

impl From<RegisterError> for Refusal {
    fn from(error: RegisterError) -> Refusal {
        Refusal::Register(error)
    }
}

impl fmt::Display for Refusal {
    fn fmt(&self, f: &mut fmt::Formatter<'_>) -> fmt::Result {
        match self {
            Refusal::Register(error) => error.fmt(f),
            Refusal::MatrixLength => f.write_str("the matrix's length is not logins times folders"),
            Refusal::Login { asked } => write!(f, "there is no login {asked}"),
            Refusal::BadPersons => {
                f.write_str("the person list's length is not the number of logins, or an entry is not below it")
            }
            Refusal::Folder { asked } => write!(f, "there is no folder {asked}"),
            Refusal::Kind { asked } => write!(f, "there is no kind of request {asked}"),
            Refusal::Cell { folder } => write!(f, "the cell of folder {folder} in the person's row exceeds 3"),
            Refusal::LogEnd => f.write_str("the log's end lies past its buffer"),
            Refusal::Rival { folder } => {
                write!(f, "folder {folder}, which the person may read, belongs to a rival of the folder's client")
            }
            Refusal::Foreign { folder } => {
                write!(f, "folder {folder}, which the person may read, belongs to another client")
            }
            Refusal::AtStake { folder } => write!(f, "the right to write folder {folder} would be lost"),
            Refusal::LogFull => f.write_str("the record is longer than the room left in the log"),
        }
    }
}

impl Error for Refusal {
    fn source(&self) -> Option<&(dyn Error + 'static)> {
        match self {
            Refusal::Register(error) => Some(error),
            _ => None,
        }
    }
}

impl Register<'_> {
    /// A request, on a matrix and a log that are lent.
    ///
    /// `persons` has the person of each login. `matrix` has one cell for each person and folder, person by person, and as many
    /// persons as there are logins; blank means all 0. What the login's person may do decides, through whichever login that came;
    /// persons need not all be used. `log` is written from `end` on, and `serial` is the serial that the record gets, which names the
    /// login. A grant and the refusals 20, 21 and 22 append a record; the reply has the log's new end and the next serial. Any other
    /// refusal changes no byte and returns end and serial as they came.
    ///
    /// ```
    /// use housechervil::{
    ///     ClassNo, ClientNo, Conflicts, FolderNo, Granted, Kind, LoginNo, PersonNo, Register, Request, Serial,
    /// };
    ///
    /// let register = Register::new(2, &[ClassNo(1), ClassNo(1)], &[ClientNo(1), ClientNo(2)], &Conflicts::ByClass);
    /// let persons = [PersonNo(1), PersonNo(1)]; // both logins are those of person 1
    /// let mut matrix = [0; 4];
    /// let mut log = [0; 64];
    ///
    /// let first = Request::new(LoginNo(0), FolderNo(0), Kind::Read);
    /// let reply = register.request(&persons, &mut matrix, first, &mut log, 0, Serial(0));
    /// assert_eq!(reply.answer, Ok(Granted { taken_back: 0 }));
    ///
    /// let rival = Request::new(LoginNo(1), FolderNo(1), Kind::Read);
    /// let reply = register.request(&persons, &mut matrix, rival, &mut log, reply.end, reply.serial);
    /// assert_eq!(reply.answer.unwrap_err().number(), 20);
    /// assert_eq!(matrix, [0, 0, 1, 0]);
    /// assert_eq!(&log[..reply.end], [0, 0, 0, 1, 0, 0, 1, 1, 1, 1, 20, 1, 0]);
    /// ```
    #[inline]
    pub fn request(
        &self,
        persons: &[PersonNo],
        matrix: &mut [u8],
        request: Request,
        log: &mut [u8],
        end: usize,
        serial: Serial,
    ) -> Reply {
        let (classes, clients) = (self.classes, self.clients);
        let (mode, firsts, seconds) = self.conflicts.lend();
        // SAFETY: each pointer is its slice's, never null, aligned, and valid for the slice's length; class, client and person
        // numbers are `repr(transparent)` around `u16`. Matrix and log are lent as `&mut`, so they overlap nothing. The library has no
        // precondition on any length or number, and keeps no pointer.
        let reply = unsafe {
            sys::hc_request(
                self.logins,
                classes.as_ptr().cast(),
                classes.len(),
                clients.as_ptr().cast(),
                clients.len(),
                mode,
                firsts.as_ptr().cast(),
                firsts.len(),
                seconds.as_ptr().cast(),
                seconds.len(),
                persons.as_ptr().cast(),
                persons.len(),
                matrix.as_mut_ptr(),
                matrix.len(),
                request.login.0,
                request.folder.0,
                request.kind.0,
                log.as_mut_ptr(),
                log.len(),
                end,
                serial.0,
            )
        };
        let answer = match reply.number {
            0 => Ok(Granted { taken_back: reply.count }),
            number => Err(Refusal::from_numbers(number, reply.first, reply.second, request)
                .unwrap_or_else(|| ruled_out("a request", number))),
        };
        Reply { answer, end: reply.end, serial: Serial(reply.serial) }
    }
}

//! The register and its check.

use std::error::Error;
use std::fmt;

use crate::{ruled_out, sys, ClassNo, ClientNo, Conflicts, FolderNo};

/// A register, lent: the number of logins, one class and one client for each folder, and which clients are in conflict.
///
/// Making one checks nothing; [`check`](Register::check) does, and every [`request`](Register::request) does again.
#[derive(Clone, Copy, Debug, PartialEq, Eq)]
pub struct Register<'a> {
    /// The number of logins, P: 1 to 128 in a good register.
    pub logins: usize,
    /// Each folder's class: 1 to 512 folders in a good register.
    pub classes: &'a [ClassNo],
    /// Each folder's client, in the same order and of the same number.
    pub clients: &'a [ClientNo],
    /// Which clients are in conflict: by class, or by pairs of them.
    pub conflicts: &'a Conflicts,
}

impl<'a> Register<'a> {
    /// The register of these logins, these folders and these conflicts, as it comes.
    pub const fn new(
        logins: usize,
        classes: &'a [ClassNo],
        clients: &'a [ClientNo],
        conflicts: &'a Conflicts,
    ) -> Register<'a> {
        Register { logins, classes, clients, conflicts }
    }

    /// The register check.
    ///
    /// ```
    /// use housechervil::{ClassNo, ClientNo, Conflicts, FolderNo, Register, RegisterError};
    ///
    /// let register = Register::new(1, &[ClassNo(1), ClassNo(2)], &[ClientNo(4), ClientNo(4)], &Conflicts::ByClass);
    /// let error = register.check().unwrap_err();
    /// assert_eq!(error, RegisterError::TwoClasses { folder: FolderNo(1), earlier: FolderNo(0) });
    /// assert_eq!(error.number(), 3);
    ///
    /// let itself = Conflicts::ByPair([(ClientNo(4), ClientNo(4))].into());
    /// let register = Register::new(1, &[ClassNo(1)], &[ClientNo(4)], &itself);
    /// assert_eq!(register.check(), Err(RegisterError::BadPairs));
    /// ```
    ///
    /// # Errors
    ///
    /// The first that fits of the rules' refusals 1, 2, 3 and 11.
    #[inline]
    pub fn check(&self) -> Result<(), RegisterError> {
        let (classes, clients) = (self.classes, self.clients);
        let (mode, firsts, seconds) = self.conflicts.lend();
        // SAFETY: each pointer is its slice's, never null, aligned, and readable for the slice's length; class and client numbers
        // are `repr(transparent)` around `u16`. The library only reads, has no precondition and keeps no pointer.
        let answer = unsafe {
            sys::hc_register_check(
                self.logins,
                classes.as_ptr().cast(),
                classes.len(),
                clients.as_ptr().cast(),
                clients.len(),
                mode,
                firsts.as_ptr().cast(),
                firsts.len(),
                seconds.as_ptr().cast(),
                seconds.len(),
            )
        };
        match answer.number {
            0 => Ok(()),
            number => Err(RegisterError::from_numbers(number, answer.first, answer.second)
                .unwrap_or_else(|| ruled_out("a register check", number))),
        }
    }
}

/// What is wrong with a register, in the order in which it is sought.
#[derive(Clone, Copy, Debug, PartialEq, Eq, Hash)]
pub enum RegisterError {
    /// 1: not 1 to 128 logins, not 1 to 512 folders, or lists of unequal length.
    Sizes,
    /// 2: exactly one of class and client is 0.
    LoneZero {
        /// The first such folder.
        folder: FolderNo,
    },
    /// 3: a client has two classes.
    TwoClasses {
        /// The first folder that differs from an earlier one of its client.
        folder: FolderNo,
        /// The first such earlier one.
        earlier: FolderNo,
    },
    /// 11: conflicts by pair, and there are over 256 pairs, or one of them names client 0 or one client twice.
    BadPairs,
}

impl RegisterError {
    /// Its number in the rules: 1, 2, 3 or 11.
    pub const fn number(self) -> u16 {
        match self {
            RegisterError::Sizes => 1,
            RegisterError::LoneZero { .. } => 2,
            RegisterError::TwoClasses { .. } => 3,
            RegisterError::BadPairs => 11,
        }
    }

    /// The folder carried, if one is.
    pub const fn folder(self) -> Option<FolderNo> {
        match self {
            RegisterError::Sizes | RegisterError::BadPairs => None,
            RegisterError::LoneZero { folder } | RegisterError::TwoClasses { folder, .. } => Some(folder),
        }
    }

    /// The error of these numbers.
    #[inline]
    pub(crate) fn from_numbers(number: u16, first: u16, second: u16) -> Option<RegisterError> {
        match number {
            1 => Some(RegisterError::Sizes),
            2 => Some(RegisterError::LoneZero { folder: FolderNo(first) }),
            3 => Some(RegisterError::TwoClasses { folder: FolderNo(first), earlier: FolderNo(second) }),
            11 => Some(RegisterError::BadPairs),
            _ => None,
        }
    }
}

impl fmt::Display for RegisterError {
    fn fmt(&self, f: &mut fmt::Formatter<'_>) -> fmt::Result {
        match self {
            RegisterError::Sizes => f.write_str(
                "the register must have 1 to 128 logins, 1 to 512 folders, and a class and a client for each",
            ),
            RegisterError::LoneZero { folder } => {
                write!(f, "folder {folder} has exactly one of class and client 0")
            }
            RegisterError::TwoClasses { folder, earlier } => {
                write!(f, "folder {folder} has the client of folder {earlier} and another class")
            }
            RegisterError::BadPairs => f.write_str(
                "there must be at most 256 pairs of clients in conflict, none of them with client 0 or one client twice",
            ),
        }
    }
}

impl Error for RegisterError {}

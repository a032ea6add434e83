//! Which clients are in conflict with each other.

use crate::ClientNo;

/// Which clients are in conflict with each other, and so are kept apart by the wall: the mode, with its pairs.
///
/// Two readers may each be in conflict with one author and not with each other. No classes say that: if the author shares a class
/// with each reader, the readers share it too. Pairs do.
///
/// ```
/// use housechervil::{ClassNo, ClientNo, Conflicts, FolderNo, Granted, Kind, LoginNo, Refusal, Room};
///
/// let [author, one, other] = [7, 8, 9].map(ClientNo);
/// let labels = [author, one, other].map(|client| (ClassNo(1), client)); // a folder of each
/// let pairs = Conflicts::ByPair([(author, one), (author, other)].into());
///
/// let mut room = Room::builder(1, &labels).conflicts(pairs).open()?;
/// let mut read = |folder| room.ask(LoginNo(0), FolderNo(folder), Kind::Read);
/// assert_eq!(read(1), Ok(Granted { taken_back: 0 }));
/// assert_eq!(read(2), Ok(Granted { taken_back: 0 })); // the readers are not in conflict
/// assert_eq!(read(0), Err(Refusal::Rival { folder: FolderNo(1) })); // the author is, with each of them
///
/// let mut room = Room::builder(1, &labels).conflicts(Conflicts::ByClass).open()?;
/// let mut read = |folder| room.ask(LoginNo(0), FolderNo(folder), Kind::Read);
/// assert_eq!(read(1), Ok(Granted { taken_back: 0 }));
/// assert_eq!(read(2), Err(Refusal::Rival { folder: FolderNo(1) })); // of one class
/// # Ok::<(), housechervil::OpenError>(())
/// ```
#[derive(Clone, Debug, PartialEq, Eq, Hash)]
pub enum Conflicts {
    /// Two different clients of one class are in conflict.
    ByClass,
    /// Two clients are in conflict if some pair names both, whichever way round, and no others are. The classes count for nothing but
    /// refusals 1 to 3.
    ByPair(Pairs),
}

impl Conflicts {
    /// The mode and the two lists, as the library takes them.
    #[inline]
    pub(crate) fn lend(&self) -> (u8, &[ClientNo], &[ClientNo]) {
        match self {
            Conflicts::ByClass => (0, &[], &[]),
            Conflicts::ByPair(Pairs { firsts, seconds }) => (1, firsts, seconds),
        }
    }
}

/// Pairs of clients in conflict. They are kept in two lists of one length, as the library takes them, so that a request copies
/// nothing.
///
/// Making them checks nothing: that there are at most [`MAX_PAIRS`](crate::MAX_PAIRS), and that none names client 0 or one client
/// twice, is judged with the register ([`RegisterError::BadPairs`](crate::RegisterError::BadPairs)). The same pair may stand there
/// again, either way round, and a client need not have a folder.
///
/// ```
/// use housechervil::{ClientNo, Pairs};
///
/// let listed = [(ClientNo(7), ClientNo(8)), (ClientNo(7), ClientNo(9))];
/// let pairs: Pairs = listed.into_iter().collect();
/// assert_eq!(pairs, Pairs::from(listed));
/// assert_eq!(pairs.iter().collect::<Vec<_>>(), listed);
/// ```
#[derive(Clone, Debug, Default, PartialEq, Eq, Hash)]
pub struct Pairs {
    firsts: Vec<ClientNo>,
    seconds: Vec<ClientNo>,
}

impl Pairs {
    /// How many pairs there are.
    pub fn len(&self) -> usize {
        self.firsts.len()
    }

    /// Whether there are none: then no two clients are in conflict.
    pub fn is_empty(&self) -> bool {
        self.firsts.is_empty()
    }

    /// The pairs, in their order.
    pub fn iter(&self) -> impl ExactSizeIterator<Item = (ClientNo, ClientNo)> + '_ {
        self.firsts.iter().copied().zip(self.seconds.iter().copied())
    }
}

impl FromIterator<(ClientNo, ClientNo)> for Pairs {
    fn from_iter<I: IntoIterator<Item = (ClientNo, ClientNo)>>(pairs: I) -> Pairs {
        let (firsts, seconds) = pairs.into_iter().unzip();
        Pairs { firsts, seconds }
    }
}

impl<const N: usize> From<[(ClientNo, ClientNo); N]> for Pairs {
    fn from(pairs: [(ClientNo, ClientNo); N]) -> Pairs {
        pairs.into_iter().collect()
    }
}

impl From<&[(ClientNo, ClientNo)]> for Pairs {
    fn from(pairs: &[(ClientNo, ClientNo)]) -> Pairs {
        pairs.iter().copied().collect()
    }
}

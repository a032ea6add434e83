//! Packed copies of cells.

use std::error::Error;
use std::fmt;

use crate::{ruled_out, sys};

/// Why cells were not packed.
#[derive(Clone, Copy, Debug, PartialEq, Eq, Hash)]
pub enum PackError {
    /// 61: the lengths don't match.
    Lengths,
    /// 60: a cell is above 3.
    Cell {
        /// The first such cell's place, from 0.
        place: usize,
    },
}

impl PackError {
    /// Its number in the rules, 61 or 60.
    pub const fn number(self) -> u16 {
        match self {
            PackError::Lengths => 61,
            PackError::Cell { .. } => 60,
        }
    }
}

impl fmt::Display for PackError {
    fn fmt(&self, f: &mut fmt::Formatter<'_>) -> fmt::Result {
        match self {
            PackError::Lengths => f.write_str(LENGTHS),
            PackError::Cell { place } => write!(f, "cell {place} is above 3"),
        }
    }
}

impl Error for PackError {}

/// Why cells were not unpacked.
#[derive(Clone, Copy, Debug, PartialEq, Eq, Hash)]
pub enum UnpackError {
    /// 61: the lengths don't match.
    Lengths,
    /// 62: unused bits of the last byte are set.
    UnusedBits,
}

impl UnpackError {
    /// Its number in the rules, 61 or 62.
    pub const fn number(self) -> u16 {
        match self {
            UnpackError::Lengths => 61,
            UnpackError::UnusedBits => 62,
        }
    }
}

impl fmt::Display for UnpackError {
    fn fmt(&self, f: &mut fmt::Formatter<'_>) -> fmt::Result {
        f.write_str(match self {
            UnpackError::Lengths => LENGTHS,
            UnpackError::UnusedBits => "unused bits of the last packed byte are set",
        })
    }
}

impl Error for UnpackError {}

const LENGTHS: &str = "the packed length is not one quarter of the cells, rounded up";

/// The packed length of so many cells: one quarter of them, rounded up.
pub const fn packed_len(cells: usize) -> usize {
    cells / 4 + (cells % 4 != 0) as usize
}

/// Packs cells, four in a byte, the first in the lowest two bits. A refusal leaves `packed` as it was.
///
/// # Errors
///
/// [`PackError::Lengths`] unless `packed` has [`packed_len`] bytes; then [`PackError::Cell`].
#[inline]
pub fn pack_into(cells: &[u8], packed: &mut [u8]) -> Result<(), PackError> {
    // SAFETY: each pointer is its slice's, never null and valid for the slice's length; `packed` is lent as `&mut`, so it overlaps
    // nothing. The library has no precondition on the lengths and keeps no pointer.
    let answer = unsafe { sys::hc_pack(cells.as_ptr(), cells.len(), packed.as_mut_ptr(), packed.len()) };
    match answer.number {
        0 => Ok(()),
        60 => Err(PackError::Cell { place: answer.value }),
        61 => Err(PackError::Lengths),
        number => ruled_out("packing", number),
    }
}

/// Packs cells into bytes of their own.
///
/// ```
/// # use housechervil::pack;
/// assert_eq!(pack(&[1, 2, 3, 0, 2])?, [0b00_11_10_01, 0b10]);
/// # Ok::<(), housechervil::PackError>(())
/// ```
///
/// # Errors
///
/// [`PackError::Cell`].
pub fn pack(cells: &[u8]) -> Result<Vec<u8>, PackError> {
    let mut packed = vec![0; packed_len(cells.len())];
    pack_into(cells, &mut packed)?;
    Ok(packed)
}

/// Unpacks cells. A refusal leaves `cells` as they were.
///
/// # Errors
///
/// [`UnpackError::Lengths`] unless `packed` has the [`packed_len`] of `cells`; then [`UnpackError::UnusedBits`].
#[inline]
pub fn unpack_into(packed: &[u8], cells: &mut [u8]) -> Result<(), UnpackError> {
    // SAFETY: each pointer is its slice's, never null and valid for the slice's length; `cells` is lent as `&mut`, so it overlaps
    // nothing. The library has no precondition on the lengths and keeps no pointer.
    let answer = unsafe { sys::hc_unpack(packed.as_ptr(), packed.len(), cells.as_mut_ptr(), cells.len()) };
    match answer.number {
        0 => Ok(()),
        61 => Err(UnpackError::Lengths),
        62 => Err(UnpackError::UnusedBits),
        number => ruled_out("unpacking", number),
    }
}

/// Unpacks so many cells into bytes of their own.
///
/// # Errors
///
/// [`UnpackError::Lengths`] unless `packed` has [`packed_len`]`(cells)` bytes; then [`UnpackError::UnusedBits`].
pub fn unpack(packed: &[u8], cells: usize) -> Result<Vec<u8>, UnpackError> {
    if packed.len() != packed_len(cells) {
        return Err(UnpackError::Lengths); // before memory is taken for a number that nothing bounds
    }
    let mut unpacked = vec![0; cells];
    unpack_into(packed, &mut unpacked)?;
    Ok(unpacked)
}

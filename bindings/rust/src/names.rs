//! Folder names, for the board and other places where people read.

use crate::{ruled_out, sys, FolderNo};

/// The name to show for a folder, as the part of the text in which it was found.
///
/// The house keeps a text of folder names, one to a line in folder order; a client may send its own text in the same order. Line 0
/// is folder 0's. A line ends at byte 10 or at the end of the text, so a last line without a byte 10 counts. The name is the
/// client's line if it has one that is not empty, otherwise the house's; it is `None`, 81 in the rules, if neither has one that is
/// not empty.
///
/// ```
/// use housechervil::{folder_name, FolderNo};
///
/// let house = b"Public shelf\nClient 1, folder A\nClient 2, folder A\n";
/// let client = b"\nAster Bank, loans"; // its own folder, 1; the text ends there
///
/// assert_eq!(folder_name(client, house, FolderNo(1)), Some(&b"Aster Bank, loans"[..]));
/// assert_eq!(folder_name(client, house, FolderNo(0)), Some(&b"Public shelf"[..])); // the client's line is empty
/// assert_eq!(folder_name(client, house, FolderNo(2)), Some(&b"Client 2, folder A"[..])); // the client has no such line
/// assert_eq!(folder_name(client, house, FolderNo(3)), None);
/// ```
///
/// A client without a text of its own has `&[]`. Every folder number has an answer; no register is asked how many there are. A name
/// has at least one byte, and may hold every byte but 10: carriage returns and blanks are bytes like others, and nothing says that
/// it is UTF-8.
///
/// Nothing is copied, so a name may be used only while both texts live:
///
/// ```compile_fail,E0505
/// # use housechervil::{folder_name, FolderNo};
/// let (client, house) = (b"\nAster Bank, loans".to_vec(), b"Public shelf\n".to_vec());
/// let name = folder_name(&client, &house, FolderNo(0));
/// drop(house); // the name may lie in it
/// assert!(name.is_some());
/// ```
#[inline]
pub fn folder_name<'a>(client: &'a [u8], house: &'a [u8], folder: FolderNo) -> Option<&'a [u8]> {
    // SAFETY: each pointer is its slice's, never null and valid for the slice's length. The library writes nothing, so the texts may
    // overlap; it has no precondition and keeps no pointer.
    let found = unsafe { sys::hc_folder_name(client.as_ptr(), client.len(), house.as_ptr(), house.len(), folder.0) };
    let text = match (found.number, found.text) {
        (0, 0) => client,
        (0, 1) => house,
        (0, text) => ruled_out("the text of a folder's name", text),
        (81, _) => return None,
        (number, _) => ruled_out("a folder's name", number),
    };
    Some(&text[found.place..][..found.length])
}

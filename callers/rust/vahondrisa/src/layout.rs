//! Where named indexes and long values lie among the keys of a store: the library says it, and docs/GUIDE.md has it in words.
use crate::index::Entry;
use std::ffi::c_uint;
use vahondrisa_sys as sys;

/// A key of a name, or an end of a range of them.
#[derive(Clone, Copy)]
pub(crate) enum Which {
    /// That of the name in the catalogue.
    Row = sys::VAH_NAME_ROW as isize,
    /// The greatest key that begins with the name's prefix, or with that of the catalogue. It is put into the store when an index is made, and is no entry
    /// of it: an insert or a scan at the end of an index locks it, and not the first key of its neighbour.
    Guard = sys::VAH_NAME_GUARD as isize,
    Entry = sys::VAH_NAME_ENTRY as isize,
    /// Where the entries begin and end whose keys begin with these bytes; of no name, the rows of the catalogue.
    First = sys::VAH_NAME_FIRST as isize,
    Last = sys::VAH_NAME_LAST as isize,
    /// Where the parts of a long value begin and end.
    Parts = sys::VAH_NAME_PARTS as isize,
    PartsEnd = sys::VAH_NAME_PARTS_END as isize,
}

/// A key; none where it does not fit.
pub(crate) fn key_of(which: Which, name: &str, key: &[u8]) -> Option<Vec<u8>> {
    let (mut to, mut len) = ([0; sys::VAH_KEY_MAX], 0);
    // SAFETY: both are slices, and there is room for the longest key.
    let code = unsafe { sys::vah_name_key(which as c_uint, name.as_ptr().cast(), name.len(), key.as_ptr().cast(), key.len(), to.as_mut_ptr(), &mut len) };
    (code == sys::VAH_OK).then(|| to[..len].to_vec())
}

/// The entries of a long value, after what all of its parts begin with; none where there would be too many.
pub(crate) fn parts_of(front: &[u8], value: &[u8]) -> Option<Vec<Entry>> {
    let (mut key, mut len, mut rid) = ([0; sys::VAH_KEY_MAX], 0, 0);
    key[..front.len()].copy_from_slice(front);
    let mut parts = Vec::new();
    for number in 0.. {
        // SAFETY: the value is a slice, the key has room for the longest one, and its front was written by `key_of`.
        match unsafe { sys::vah_long_part(key.as_mut_ptr(), front.len(), value.as_ptr().cast(), value.len(), number, &mut len, &mut rid) } {
            sys::VAH_OK => parts.push((key[..len].to_vec(), rid)),
            sys::VAH_NOT_FOUND => break,
            _ => return None,
        }
    }
    Some(parts)
}

/// A long value, read part by part.
#[derive(Default)]
pub(crate) struct Reading {
    at: sys::vah_reading,
    value: Vec<u8>,
}

impl Reading {
    /// Takes the next entry of the value's range. False where it is not its next part.
    pub(crate) fn take(&mut self, front: usize, key: &[u8], rid: u64) -> bool {
        // SAFETY: the key is a slice.
        let is_next = unsafe { sys::vah_long_read(&mut self.at, front, key.as_ptr().cast(), key.len(), rid) } == sys::VAH_OK;
        if is_next {
            self.value.extend_from_slice(&key[front + 3..]);
        }
        is_next
    }

    /// The value, if there is one, at the range's end; an error where half of one is there.
    pub(crate) fn value(self) -> std::result::Result<Option<Vec<u8>>, ()> {
        match (self.at.number, self.at.left) {
            (0, _) => Ok(None),
            (_, 0) => Ok(Some(self.value)),
            _ => Err(()),
        }
    }
}

/// The key of the long value whose part this is.
pub(crate) fn key_in(part: &[u8]) -> Option<Vec<u8>> {
    let (mut key, mut len, mut front) = ([0; sys::VAH_KEY_MAX], 0, 0);
    // SAFETY: the part is a slice, and there is room for the longest key.
    let code = unsafe { sys::vah_long_key(part.as_ptr().cast(), part.len(), key.as_mut_ptr(), &mut len, &mut front) };
    (code == sys::VAH_OK).then(|| key[..len].to_vec())
}

//! The catalogue of a store: a row for each name of an index or of a set of long values.
use crate::error::{Error, Result};
use crate::layout::{key_of, Which};
use crate::store::Store;
use vahondrisa_sys as sys;

/// What a name stands for: the row id in the catalogue.
#[derive(Clone, Copy, PartialEq, Eq)]
pub(crate) enum Kind {
    Index = 1,
    Blob = 2,
}

/// The prefix of a name. Where the store has none of that name, it is made; where it has another kind of it, that is refused.
pub(crate) fn name(store: &Store, name: &str, kind: Kind) -> Result<Vec<u8>> {
    let keys = (key_of(Which::Row, name, b""), key_of(Which::First, name, b""), key_of(Which::Guard, name, b""), key_of(Which::Guard, "", b""));
    let (Some(row), Some(prefix), Some(guard), Some(last)) = keys else {
        return Err(Error::of(sys::VAH_INVALID, format!("{}: a name has 1 to 31 bytes", store.path().display())));
    };
    store.write(|txn| match txn.get(&row)? {
        Some(rid) if rid == kind as u64 => Ok(()),
        Some(rid) => {
            let found = match rid {
                1 => "an index",
                2 => "a set of long values",
                _ => "another thing",
            };
            Err(Error::of(sys::VAH_INVALID, format!("{}: {name} names {found} already", store.path().display())))
        }
        None => {
            txn.insert(&last, 0)?;
            txn.insert(&guard, 0)?;
            txn.insert(&row, kind as u64).map(drop)
        }
    })?;
    Ok(prefix)
}

/// The names of a kind.
pub(crate) fn names(store: &Store, kind: Kind) -> Result<Vec<String>> {
    let front = key_of(Which::First, "", b"").unwrap_or_default();
    store.write(|txn| {
        let mut names = Vec::new();
        txn.prefix(&front).each(|row, rid| {
            if rid == kind as u64 {
                names.push(String::from_utf8_lossy(&row[front.len()..]).into_owned());
            }
            Ok(())
        })?;
        Ok(names)
    })
}

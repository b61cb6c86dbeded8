use crate::error::{Error, Result};
use crate::index::{check_store, Entry};
use crate::layout::{key_in, key_of, parts_of, Reading, Which};
use crate::range::Range;
use crate::store::Store;
use crate::transaction::Transaction;
use std::iter::FusedIterator;
use std::ops::Bound;
use vahondrisa_sys as sys;

/// A named set of long values: keys of its own, each with bytes of any length. A transaction has them beside all other entries, so that a value is there
/// whole or not at all, and with it what else was changed.
///
/// A value lies in the store as keys of up to 254 bytes that carry its parts, so it takes some five quarters of its length, more with long keys, and each
/// part is read, and locked, as an entry: it is for values of some kilobytes. A key has 1 to 217 bytes, fewer by the length of the name, and by one for
/// each byte 0 in it; else `KeyLength`.
///
/// A `put` or `remove` that is refused half way is taken back.
///
/// ```
/// # let dir = std::env::temp_dir().join(format!("vahondrisa-doc-blob-{}", std::process::id()));
/// # let store = vahondrisa::Store::open(&dir)?;
/// let pages = store.blob("pages")?;
/// store.write(|txn| {
///     assert!(!pages.put(txn, b"about", &[7; 5_000])?); // nothing was there
///     assert!(pages.put(txn, b"about", b"short")?);
///     pages.put(txn, b"index", b"")
/// })?;
/// let txn = store.begin()?;
/// assert_eq!(pages.get(&txn, b"about")?.as_deref(), Some(b"short".as_slice()));
/// assert_eq!(pages.keys(&txn).collect::<Result<Vec<_>, _>>()?, [b"about", b"index"]);
/// # txn.commit()?; store.close()?; std::fs::remove_dir_all(dir).unwrap();
/// # Ok::<(), vahondrisa::Error>(())
/// ```
#[derive(Clone, Debug, PartialEq, Eq)]
pub struct Blob {
    store: usize,
    name: String,
    prefix: Vec<u8>,
}

/// Where the parts of a value begin and end. They all begin with the first.
struct Place {
    front: Vec<u8>,
    end: Vec<u8>,
}

impl Blob {
    pub(crate) fn new(store: &Store, name: &str, prefix: Vec<u8>) -> Blob {
        Blob { store: store.name(), name: name.into(), prefix }
    }

    /// Its name.
    pub fn name(&self) -> &str {
        &self.name
    }

    /// The value of a key.
    pub fn get(&self, txn: &Transaction<'_>, key: impl AsRef<[u8]>) -> Result<Option<Vec<u8>>> {
        let place = self.place(txn, key.as_ref())?;
        let mut reading = Reading::default();
        place.range(txn).each(|at, rid| if reading.take(place.front.len(), at, rid) { Ok(()) } else { Err(not_whole(txn)) })?;
        reading.value().map_err(|()| not_whole(txn))
    }

    /// How many bytes the value of a key has. It reads the first part alone.
    pub fn len(&self, txn: &Transaction<'_>, key: impl AsRef<[u8]>) -> Result<Option<u64>> {
        let place = self.place(txn, key.as_ref())?;
        Ok(txn.seek(&place.front)?.filter(|(at, _)| *at <= place.end).map(|(_, rid)| rid))
    }

    /// Puts a value in, in place of the one that was there; whether there was one.
    pub fn put(&self, txn: &Transaction<'_>, key: impl AsRef<[u8]>, value: &[u8]) -> Result<bool> {
        let place = self.place(txn, key.as_ref())?;
        let Some(mut new) = parts_of(&place.front, value) else {
            return Err(Error::of(sys::VAH_INVALID, format!("{}: a value of {} bytes has too many parts", txn.store().path().display(), value.len())));
        };
        let (mut places, mut old) = (0, Vec::new());
        place.range(txn).each(|at, rid| {
            match new.get_mut(places) {
                Some(same) if (same.0.as_slice(), same.1) == (at, rid) => same.0.clear(), // it stays
                _ => old.push((at.to_vec(), rid)),
            }
            places += 1;
            Ok(())
        })?;
        new.retain(|it| !it.0.is_empty());
        change(txn, &old, &new)?;
        Ok(places > 0)
    }

    /// Takes a value out; false where there is none.
    pub fn remove(&self, txn: &Transaction<'_>, key: impl AsRef<[u8]>) -> Result<bool> {
        let old: Vec<Entry> = self.place(txn, key.as_ref())?.range(txn).collect::<Result<_>>()?;
        change(txn, &old, &[])?;
        Ok(!old.is_empty())
    }

    /// The keys that have a value, in order.
    pub fn keys<'t, 's>(&self, txn: &'t Transaction<'s>) -> BlobKeys<'t, 's> {
        let refusal = check_store(self.store, &self.name, txn).err();
        BlobKeys { txn, name: self.name.clone(), at: Some(self.prefix.clone()), refusal }
    }

    fn place(&self, txn: &Transaction<'_>, key: &[u8]) -> Result<Place> {
        check_store(self.store, &self.name, txn)?;
        match (key_of(Which::Parts, &self.name, key), key_of(Which::PartsEnd, &self.name, key)) {
            (Some(front), Some(end)) => Ok(Place { front, end }),
            _ => Err(Error::of(sys::VAH_KEY_LENGTH, "a key of a long value has 1 to 217 bytes, fewer by the length of its name and by one for each 0")),
        }
    }
}

impl Place {
    fn range<'t, 's>(&self, txn: &'t Transaction<'s>) -> Range<'t, 's> {
        Range::new(txn, (Bound::Included(&self.front), Bound::Included(&self.end)))
    }
}

/// Takes entries out and puts others in: all, or none where one is refused.
fn change(txn: &Transaction<'_>, old: &[Entry], new: &[Entry]) -> Result<()> {
    txn.attempt(|txn| {
        old.iter().try_for_each(|(at, _)| txn.remove(at).map(drop))?;
        new.iter().try_for_each(|(at, rid)| txn.insert(at, *rid).map(drop))
    })
}

fn not_whole(txn: &Transaction<'_>) -> Error {
    Error::of(sys::VAH_INVALID, format!("{}: the parts of a long value do not agree", txn.store().path().display()))
}

/// The keys of long values, in order. It reads one part of each.
///
/// ```
/// # let dir = std::env::temp_dir().join(format!("vahondrisa-doc-blob-keys-{}", std::process::id()));
/// # let store = vahondrisa::Store::open(&dir)?;
/// let pages = store.blob("pages")?;
/// store.write(|txn| pages.put(txn, b"about", b"a page"))?;
/// let txn = store.begin()?;
/// for key in pages.keys(&txn) {
///     assert_eq!(key?, b"about");
/// }
/// # txn.commit()?; store.close()?; std::fs::remove_dir_all(dir).unwrap();
/// # Ok::<(), vahondrisa::Error>(())
/// ```
#[derive(Debug)]
pub struct BlobKeys<'t, 's> {
    txn: &'t Transaction<'s>,
    name: String,
    /// The next key lies here or after it; nowhere after the last one.
    at: Option<Vec<u8>>,
    refusal: Option<Error>,
}

impl BlobKeys<'_, '_> {
    fn find(&mut self) -> Result<Option<Vec<u8>>> {
        if let Some(error) = self.refusal.take() {
            self.at = None;
            return Err(error);
        }
        let Some(at) = self.at.take() else { return Ok(None) };
        let Some((part, _)) = self.txn.seek(&at)? else { return Ok(None) };
        if !key_of(Which::Last, &self.name, b"").is_some_and(|last| part <= last) {
            return Ok(None);
        }
        let key = key_in(&part).ok_or_else(|| not_whole(self.txn))?;
        self.at = key_of(Which::PartsEnd, &self.name, &key);
        Ok(Some(key))
    }
}

impl Iterator for BlobKeys<'_, '_> {
    type Item = Result<Vec<u8>>;

    /// The next key. After an error there is none.
    fn next(&mut self) -> Option<Self::Item> {
        self.find().transpose()
    }
}

impl FusedIterator for BlobKeys<'_, '_> {}

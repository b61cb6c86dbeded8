use crate::error::{Error, Result};
use crate::key_range::KeyRange;
use crate::layout::{key_of, Which};
use crate::range::Range;
use crate::store::Store;
use crate::transaction::Transaction;
use std::ops::Bound;
use vahondrisa_sys as sys;

/// A named index of a store: keys of its own, each with a row id, beside those of all other indexes. A transaction has the entries of all, so that a change
/// of several indexes is there whole or not at all.
///
/// Its keys have 1 to 253 bytes, fewer by the length of its name; else `KeyLength`. It is a name and may be kept and shared; with a transaction of
/// another store it is refused `Invalid`.
///
/// ```
/// # let dir = std::env::temp_dir().join(format!("vahondrisa-doc-index-{}", std::process::id()));
/// # let store = vahondrisa::Store::open(&dir)?;
/// let (by_id, by_city) = (store.index("by_id")?, store.index("by_city")?);
/// store.write(|txn| {
///     by_id.put(txn, b"4711", 7)?;
///     by_city.put(txn, b"oslo\0\x07", 7)
/// })?;
/// let txn = store.begin()?;
/// assert_eq!(by_id.get(&txn, b"4711")?, Some(7));
/// assert_eq!(by_city.prefix(&txn, b"oslo\0").count(), 1);
/// assert_eq!(by_id.range(&txn, ..).count(), 1);
/// assert_eq!(store.indexes()?, ["by_city", "by_id"]);
/// # txn.commit()?; store.close()?; std::fs::remove_dir_all(dir).unwrap();
/// # Ok::<(), vahondrisa::Error>(())
/// ```
#[derive(Clone, Debug, PartialEq, Eq)]
pub struct Index {
    store: usize,
    name: String,
    prefix: Vec<u8>,
}

/// An entry: its key, which in an index is the one that the index has, and its row id.
pub(crate) type Entry = (Vec<u8>, u64);

impl Index {
    pub(crate) fn new(store: &Store, name: &str, prefix: Vec<u8>) -> Index {
        Index { store: store.name(), name: name.into(), prefix }
    }

    /// Its name.
    pub fn name(&self) -> &str {
        &self.name
    }

    /// The row id of a key.
    pub fn get(&self, txn: &Transaction<'_>, key: impl AsRef<[u8]>) -> Result<Option<u64>> {
        txn.get(self.whole(txn, key.as_ref())?)
    }

    /// Puts a key in that is not there; false where it is there already, and then it stays as it is.
    pub fn insert(&self, txn: &Transaction<'_>, key: impl AsRef<[u8]>, rid: u64) -> Result<bool> {
        txn.insert(self.whole(txn, key.as_ref())?, rid)
    }

    /// Puts a key in, or gives one that is there another row id; the one that it had.
    pub fn put(&self, txn: &Transaction<'_>, key: impl AsRef<[u8]>, rid: u64) -> Result<Option<u64>> {
        txn.put(self.whole(txn, key.as_ref())?, rid)
    }

    /// Takes a key out; false where it is not there.
    pub fn remove(&self, txn: &Transaction<'_>, key: impl AsRef<[u8]>) -> Result<bool> {
        txn.remove(self.whole(txn, key.as_ref())?)
    }

    /// The first entry of all.
    pub fn first(&self, txn: &Transaction<'_>) -> Result<Option<Entry>> {
        self.check(txn)?;
        Ok(self.own(txn.seek(&self.prefix)?))
    }

    /// The last entry of all.
    pub fn last(&self, txn: &Transaction<'_>) -> Result<Option<Entry>> {
        self.check(txn)?;
        Ok(self.own(txn.prev(self.key(Which::Guard, b"")?)?))
    }

    /// The first entry from a key on.
    pub fn seek(&self, txn: &Transaction<'_>, key: impl AsRef<[u8]>) -> Result<Option<Entry>> {
        Ok(self.own(txn.seek(self.whole(txn, key.as_ref())?)?))
    }

    /// The first entry after a key.
    pub fn next(&self, txn: &Transaction<'_>, key: impl AsRef<[u8]>) -> Result<Option<Entry>> {
        Ok(self.own(txn.next(self.whole(txn, key.as_ref())?)?))
    }

    /// The last entry before a key.
    pub fn prev(&self, txn: &Transaction<'_>, key: impl AsRef<[u8]>) -> Result<Option<Entry>> {
        Ok(self.own(txn.prev(self.whole(txn, key.as_ref())?)?))
    }

    /// The entries of a range, in order.
    pub fn range<'t, 's>(&self, txn: &'t Transaction<'s>, range: impl KeyRange) -> Range<'t, 's> {
        let (from, to) = range.bounds();
        let edges = self.key(Which::Guard, b"").and_then(|guard| {
            Ok((self.edge(txn, from, Bound::Included(&self.prefix))?, self.edge(txn, to, Bound::Excluded(&guard))?))
        });
        match edges {
            Ok((from, to)) => Range::new(txn, (from.as_ref().map(Vec::as_slice), to.as_ref().map(Vec::as_slice))).hiding(self.prefix.len()),
            Err(error) => Range::refused(txn, error),
        }
    }

    /// The entries whose keys begin with a prefix, in order.
    pub fn prefix<'t, 's>(&self, txn: &'t Transaction<'s>, prefix: impl AsRef<[u8]>) -> Range<'t, 's> {
        let prefix = prefix.as_ref();
        match self.check(txn).and_then(|()| Ok((self.key(Which::First, prefix)?, self.key(Which::Last, prefix)?))) {
            Ok((from, to)) => Range::new(txn, (Bound::Included(&from), Bound::Included(&to))).hiding(self.prefix.len()),
            Err(error) => Range::refused(txn, error),
        }
    }

    /// The key of the store that stands for a key.
    fn whole(&self, txn: &Transaction<'_>, key: &[u8]) -> Result<Vec<u8>> {
        self.check(txn)?;
        self.key(Which::Entry, key)
    }

    fn key(&self, which: Which, key: &[u8]) -> Result<Vec<u8>> {
        let key = key_of(which, &self.name, key);
        key.ok_or_else(|| Error::of(sys::VAH_KEY_LENGTH, "a key has 1 to 253 bytes, fewer by the length of its index's name"))
    }

    fn edge(&self, txn: &Transaction<'_>, bound: Bound<&[u8]>, unbounded: Bound<&[u8]>) -> Result<Bound<Vec<u8>>> {
        self.check(txn)?;
        Ok(match bound {
            Bound::Included(key) => Bound::Included(self.whole(txn, key)?),
            Bound::Excluded(key) => Bound::Excluded(self.whole(txn, key)?),
            Bound::Unbounded => unbounded.map(<[u8]>::to_vec),
        })
    }

    /// An entry of the store, where it is one of this index.
    fn own(&self, entry: Option<Entry>) -> Option<Entry> {
        entry.filter(|(key, _)| key.starts_with(&self.prefix) && key.len() < sys::VAH_KEY_MAX).map(|(key, rid)| (key[self.prefix.len()..].to_vec(), rid))
    }

    fn check(&self, txn: &Transaction<'_>) -> Result<()> {
        check_store(self.store, &self.name, txn)
    }
}

/// Whether a name is one of the transaction's store.
pub(crate) fn check_store(store: usize, name: &str, txn: &Transaction<'_>) -> Result<()> {
    if store == txn.store().name() {
        return Ok(());
    }
    Err(Error::of(sys::VAH_INVALID, format!("{}: {name} is of another store", txn.store().path().display())))
}

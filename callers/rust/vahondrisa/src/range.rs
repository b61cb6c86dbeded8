use crate::error::{Error, Result};
use crate::transaction::Transaction;
use std::fmt;
use std::ops::Bound;
use vahondrisa_sys as sys;

/// The entries of a range, in order, from both ends.
///
/// From the front it reads, and so locks, up to 256 entries at once, or as many as `batch` says: one that is left half way has locked up to so many
/// more. From the back it reads one at a time.
///
/// ```
/// # let dir = std::env::temp_dir().join(format!("vahondrisa-doc-range-{}", std::process::id()));
/// # let store = vahondrisa::Store::open(&dir)?;
/// # let txn = store.begin()?;
/// for (key, rid) in [("apple", 7), ("fig", 8), ("pear", 9)] {
///     txn.put(key.as_bytes(), rid)?;
/// }
/// let rids: Vec<u64> = txn.range("apple"..="fig").map(|entry| entry.map(|(_, rid)| rid)).collect::<Result<_, _>>()?;
/// assert_eq!(rids, [7, 8]);
/// for entry in txn.range(.."b") {
///     let (key, rid) = entry?;
///     assert_eq!((key.as_slice(), rid), (b"apple".as_slice(), 7));
/// }
/// # txn.commit()?; store.close()?; std::fs::remove_dir_all(dir).unwrap();
/// # Ok::<(), vahondrisa::Error>(())
/// ```
pub struct Range<'t, 's> {
    txn: &'t Transaction<'s>,
    /// What is left begins and ends here; what was read ahead and not given yet is a part of it.
    from: Edge,
    to: Edge,
    /// So many bytes at each key's front are not given: those of an index.
    hidden: usize,
    batch: usize,
    /// What was read last from the front, and how many of these were given.
    read: Vec<sys::vah_entry>,
    given: usize,
    /// Nothing is left after what was read.
    is_read: bool,
    /// To be given first, and then nothing more.
    refusal: Option<Error>,
}

/// Where a range begins or ends, at a key or beside it.
struct Edge {
    key: Vec<u8>,
    is_in: bool,
}

impl Edge {
    fn of(bound: Bound<&[u8]>, unbounded: &[u8]) -> Edge {
        match bound {
            Bound::Included(key) => Edge { key: key.to_vec(), is_in: true },
            Bound::Excluded(key) => Edge { key: key.to_vec(), is_in: false },
            Bound::Unbounded => Edge { key: unbounded.to_vec(), is_in: true },
        }
    }
}

/// Nothing is greater, or equal and a longer key.
const GREATEST: [u8; sys::VAH_KEY_MAX] = [0xff; sys::VAH_KEY_MAX];

fn key_of(entry: &sys::vah_entry) -> &[u8] {
    &entry.key[..usize::from(entry.len)]
}

impl<'t, 's> Range<'t, 's> {
    pub(crate) fn new(txn: &'t Transaction<'s>, (from, to): (Bound<&[u8]>, Bound<&[u8]>)) -> Range<'t, 's> {
        Range {
            txn,
            from: Edge::of(from, &[0]),
            to: Edge::of(to, &GREATEST),
            hidden: 0,
            batch: sys::VAH_SCAN_MAX,
            read: Vec::new(),
            given: 0,
            is_read: false,
            refusal: None,
        }
    }

    /// The keys that begin with a prefix.
    pub(crate) fn of_prefix(txn: &'t Transaction<'s>, prefix: &[u8]) -> Range<'t, 's> {
        let mut to = prefix.to_vec();
        to.resize(sys::VAH_KEY_MAX.max(to.len()), 0xff);
        let from = if prefix.is_empty() { &[0] } else { prefix };
        Range::new(txn, (Bound::Included(from), Bound::Included(&to)))
    }

    /// Leaves so many bytes at each key's front out.
    pub(crate) fn hiding(mut self, bytes: usize) -> Range<'t, 's> {
        self.hidden = bytes;
        self
    }

    /// A range that gives nothing but why.
    pub(crate) fn refused(txn: &'t Transaction<'s>, error: Error) -> Range<'t, 's> {
        Range { refusal: Some(error), ..Range::new(txn, (Bound::Unbounded, Bound::Unbounded)) }
    }

    /// Reads so many entries at once, 2 to 256: few where few are wanted.
    pub fn batch(mut self, entries: usize) -> Range<'t, 's> {
        self.batch = entries.clamp(2, sys::VAH_SCAN_MAX);
        self
    }

    /// Shows each entry that is left, from the front, without a copy of its key, which is as it lies in the store.
    pub(crate) fn each(&mut self, mut body: impl FnMut(&[u8], u64) -> Result<()>) -> Result<()> {
        while self.ahead()? {
            let entry = &self.read[self.given];
            self.given += 1;
            body(key_of(entry), entry.rid)?;
        }
        Ok(())
    }

    /// Whether the front has an entry; then it lies in `read` at `given`.
    fn ahead(&mut self) -> Result<bool> {
        if let Some(error) = self.refusal.take() {
            self.end();
            return Err(error);
        }
        while self.given == self.read.len() {
            if self.is_read {
                return Ok(false);
            }
            self.fill().inspect_err(|_| self.end())?;
        }
        // what was read ahead may have been given from the back since
        let key = key_of(&self.read[self.given]);
        let is_left = key < self.to.key.as_slice() || self.to.is_in && key == self.to.key;
        if !is_left {
            self.end();
        }
        Ok(is_left)
    }

    /// Reads on from the front's edge.
    fn fill(&mut self) -> Result<()> {
        self.keep_front();
        self.read.clear();
        self.read.reserve(self.batch);
        let (mut count, lo, hi) = (0, &self.from.key, &self.to.key);
        // SAFETY: the transaction's name stands for it as long as it lives, the bounds are as long as is said, and there is room for so many entries.
        let code = unsafe {
            sys::vah_scan(
                self.txn.at(), lo.as_ptr().cast(), lo.len(), hi.as_ptr().cast(), hi.len(), self.read.as_mut_ptr(), self.batch, &mut count,
            )
        };
        self.txn.scanned(code)?;
        // SAFETY: so many were set.
        unsafe { self.read.set_len(count) };
        self.is_read = count < self.batch;
        let is_edge = self.read.first().is_some_and(|it| key_of(it) == self.from.key);
        self.given = usize::from(!self.from.is_in && is_edge);
        Ok(())
    }

    /// Notes in the front's edge what was given.
    fn keep_front(&mut self) {
        if let Some(last) = self.given.checked_sub(1).and_then(|it| self.read.get(it)) {
            self.from.key.clear();
            self.from.key.extend_from_slice(key_of(last));
            self.from.is_in = false;
        }
    }

    /// Whether a key lies after all that the front has given, or the range's beginning.
    fn is_behind_front(&self, key: &[u8]) -> bool {
        match self.given.checked_sub(1).and_then(|it| self.read.get(it)) {
            Some(last) => key > key_of(last),
            None => key > self.from.key.as_slice() || self.from.is_in && key == self.from.key,
        }
    }

    /// The last entry that is left: the one at the end's edge, where there is one, or the one before it.
    fn behind(&mut self) -> Result<Option<(Vec<u8>, u64)>> {
        if let Some(error) = self.refusal.take() {
            return Err(error);
        }
        if !self.is_behind_front(&self.to.key) {
            return Ok(None);
        }
        if std::mem::take(&mut self.to.is_in) {
            if let Some(rid) = self.txn.get(&self.to.key)? {
                return Ok(Some((self.to.key.clone(), rid)));
            }
        }
        match self.txn.prev(&self.to.key)? {
            Some((key, rid)) if self.is_behind_front(&key) => {
                self.to.key.clone_from(&key);
                Ok(Some((key, rid)))
            }
            _ => Ok(None),
        }
    }

    /// Nothing is left.
    fn end(&mut self) {
        self.read.clear();
        self.given = 0;
        self.is_read = true;
        self.from = Edge { key: vec![0], is_in: false };
        self.to = Edge { key: Vec::new(), is_in: false };
    }
}

impl Iterator for Range<'_, '_> {
    type Item = Result<(Vec<u8>, u64)>;

    /// The next entry. After an error there is none.
    fn next(&mut self) -> Option<Self::Item> {
        match self.ahead() {
            Ok(false) => None,
            Ok(true) => {
                let entry = &self.read[self.given];
                self.given += 1;
                Some(Ok((key_of(entry)[self.hidden..].to_vec(), entry.rid)))
            }
            Err(error) => Some(Err(error)),
        }
    }

    /// The last entry, which is read alone.
    fn last(mut self) -> Option<Self::Item> {
        self.next_back()
    }
}

impl DoubleEndedIterator for Range<'_, '_> {
    /// The last entry that is left. After an error there is none.
    fn next_back(&mut self) -> Option<Self::Item> {
        let found = self.behind();
        if !matches!(found, Ok(Some(_))) {
            self.end();
        }
        found.map(|it| it.map(|(key, rid)| (key[self.hidden..].to_vec(), rid))).transpose()
    }
}

impl std::iter::FusedIterator for Range<'_, '_> {}

impl fmt::Debug for Range<'_, '_> {
    fn fmt(&self, f: &mut fmt::Formatter<'_>) -> fmt::Result {
        f.debug_struct("Range").field("txn", self.txn).field("from", &self.from.key).field("to", &self.to.key).finish_non_exhaustive()
    }
}

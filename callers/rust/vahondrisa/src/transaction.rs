use crate::error::{Error, Result};
use crate::key_range::KeyRange;
use crate::range::Range;
use crate::savepoint::Savepoint;
use crate::store::{done, Store};
use std::cell::{Cell, RefCell};
use std::fmt;
use std::mem::MaybeUninit;
use std::time::Duration;
use vahondrisa_sys as sys;

/// A transaction. `Drop` rolls it back.
///
/// ```
/// # let dir = std::env::temp_dir().join(format!("vahondrisa-doc-transaction-{}", std::process::id()));
/// # let store = vahondrisa::Store::open(&dir)?;
/// let txn = store.begin()?;
/// assert!(txn.insert(b"apple", 7)?);
/// assert!(!txn.insert(b"apple", 8)?); // it is there, and stays as it is
/// assert_eq!(txn.put(b"apple", 9)?, Some(7));
/// assert_eq!(txn.get("apple")?, Some(9)); // a key is all that is bytes, a text too
/// assert!(txn.remove(b"apple")?);
/// txn.commit()?;
/// # store.close()?; std::fs::remove_dir_all(dir).unwrap();
/// # Ok::<(), vahondrisa::Error>(())
/// ```
pub struct Transaction<'s> {
    at: *mut sys::vah_txn,
    store: &'s Store,
    /// A call of it was told that an older transaction stands in the way.
    gives_way: Cell<bool>,
    /// How many savepoints were made, and the numbers of those that may be returned to, in their order.
    saves: Cell<u64>,
    standing: RefCell<Vec<u64>>,
}

// SAFETY: it may move to another thread. It is not `Sync`: one thread at a time.
unsafe impl Send for Transaction<'_> {}

impl<'s> Transaction<'s> {
    pub(crate) fn of(at: *mut sys::vah_txn, store: &'s Store) -> Transaction<'s> {
        Transaction { at, store, gives_way: Cell::new(false), saves: Cell::new(0), standing: RefCell::default() }
    }

    pub(crate) fn at(&self) -> *mut sys::vah_txn {
        self.at
    }

    pub(crate) fn store(&self) -> &'s Store {
        self.store
    }

    /// Whether a call of it was told that it has to be rolled back.
    pub(crate) fn gives_way(&self) -> bool {
        self.gives_way.get()
    }

    /// A savepoint is returned to no more.
    pub(crate) fn keep(&self, save: u64) {
        self.standing.borrow_mut().retain(|it| *it != save);
    }

    /// Neither is this one, nor those that were made after it; whether it could be.
    pub(crate) fn end_from(&self, save: u64) -> bool {
        let mut standing = self.standing.borrow_mut();
        let place = standing.iter().position(|it| *it == save);
        if let Some(place) = place {
            standing.truncate(place);
        }
        place.is_some()
    }

    /// The row id of a key.
    pub fn get(&self, key: impl AsRef<[u8]>) -> Result<Option<u64>> {
        let (key, mut rid) = (key.as_ref(), 0);
        // SAFETY: here and below the name stands for a transaction that has not ended, and a key is as long as is said.
        let code = unsafe { sys::vah_fetch(self.at, key.as_ptr().cast(), key.len(), &mut rid) };
        Ok(self.unless(code, sys::VAH_NOT_FOUND)?.then_some(rid))
    }

    /// Puts a key in that is not there; false where it is there already, and then it stays as it is.
    pub fn insert(&self, key: impl AsRef<[u8]>, rid: u64) -> Result<bool> {
        let key = key.as_ref();
        self.unless(unsafe { sys::vah_insert(self.at, key.as_ptr().cast(), key.len(), rid) }, sys::VAH_EXISTS)
    }

    /// Puts a key in, or gives one that is there another row id; the one that it had.
    pub fn put(&self, key: impl AsRef<[u8]>, rid: u64) -> Result<Option<u64>> {
        let key = key.as_ref();
        let (mut was_there, mut previous) = (0, 0);
        let code = unsafe { sys::vah_put(self.at, key.as_ptr().cast(), key.len(), rid, &mut was_there, &mut previous) };
        self.unless(code, sys::VAH_OK)?;
        Ok((was_there != 0).then_some(previous))
    }

    /// Takes a key out; false where it is not there.
    pub fn remove(&self, key: impl AsRef<[u8]>) -> Result<bool> {
        let key = key.as_ref();
        self.unless(unsafe { sys::vah_delete(self.at, key.as_ptr().cast(), key.len()) }, sys::VAH_NOT_FOUND)
    }

    /// The first entry of all.
    pub fn first(&self) -> Result<Option<(Vec<u8>, u64)>> {
        self.seek(b"\0")
    }

    /// The last entry of all.
    pub fn last(&self) -> Result<Option<(Vec<u8>, u64)>> {
        self.entry(|entry| unsafe { sys::vah_last(self.at, entry) })
    }

    /// The first entry from a key on.
    pub fn seek(&self, key: impl AsRef<[u8]>) -> Result<Option<(Vec<u8>, u64)>> {
        let key = key.as_ref();
        self.entry(|entry| unsafe { sys::vah_seek(self.at, key.as_ptr().cast(), key.len(), entry) })
    }

    /// The first entry after a key.
    pub fn next(&self, key: impl AsRef<[u8]>) -> Result<Option<(Vec<u8>, u64)>> {
        let key = key.as_ref();
        self.entry(|entry| unsafe { sys::vah_next(self.at, key.as_ptr().cast(), key.len(), entry) })
    }

    /// The last entry before a key.
    pub fn prev(&self, key: impl AsRef<[u8]>) -> Result<Option<(Vec<u8>, u64)>> {
        let key = key.as_ref();
        self.entry(|entry| unsafe { sys::vah_prev(self.at, key.as_ptr().cast(), key.len(), entry) })
    }

    /// The entries of a range, in order: `..`, `"a".."b"`, `&from..=&to` and so on. `rev` gives them from the last one on.
    pub fn range<'t>(&'t self, range: impl KeyRange) -> Range<'t, 's> {
        Range::new(self, range.bounds())
    }

    /// The entries whose keys begin with a prefix, in order. No key has more than 255 bytes, and so has the prefix.
    pub fn prefix<'t>(&'t self, prefix: impl AsRef<[u8]>) -> Range<'t, 's> {
        Range::of_prefix(self, prefix.as_ref())
    }

    /// From the next call on, each waits so long at most for other transactions, and is then refused `Busy`; `None`: as long as is needed.
    pub fn set_wait(&self, limit: Option<Duration>) -> Result<()> {
        done(unsafe { sys::vah_set_wait(self.at, limit.map_or(0, milliseconds)) })
    }

    /// Notes where it stands: what is done from now on is taken back when the savepoint is dropped, unless that is told to `keep` it.
    pub fn savepoint(&self) -> Savepoint<'_, 's> {
        let number = self.saves.get();
        self.saves.set(number + 1);
        self.standing.borrow_mut().push(number);
        Savepoint::new(self, number)
    }

    /// Runs `body`, and where it fails, by whatever error, takes back what it did, and hands the error on: the transaction goes on.
    ///
    /// Where a call was told `GiveWay` nothing is taken back alone, as the whole transaction is to begin again: hand that on.
    ///
    /// ```
    /// # let dir = std::env::temp_dir().join(format!("vahondrisa-doc-attempt-{}", std::process::id()));
    /// # let store = vahondrisa::Store::open(&dir)?;
    /// store.write(|txn| {
    ///     for row in 0..3 {
    ///         let taken = txn.attempt(|txn| {
    ///             txn.put(b"last", row)?;
    ///             txn.insert([row as u8 / 2], row)?.then_some(()).ok_or_else(|| std::io::Error::other("it is there already"))
    ///         });
    ///         assert_eq!(taken.is_ok(), row != 1);
    ///     }
    ///     assert_eq!(txn.get(b"last")?, Some(2));
    ///     Ok::<_, vahondrisa::Error>(())
    /// })?;
    /// # store.close()?; std::fs::remove_dir_all(dir).unwrap();
    /// # Ok::<(), vahondrisa::Error>(())
    /// ```
    pub fn attempt<T, E>(&self, body: impl FnOnce(&Transaction<'s>) -> Result<T, E>) -> Result<T, E> {
        let save = self.savepoint();
        let outcome = body(self);
        if outcome.is_ok() {
            save.keep();
        }
        outcome
    }

    /// Makes all that it did durable, and ends it. On `Device` it is not known whether it is kept: open the store again to see.
    pub fn commit(self) -> Result<()> {
        let code = unsafe { sys::vah_commit(self.at) };
        let refused = if code == sys::VAH_OK { None } else { Some(Error::last(code)) };
        if !matches!(code, sys::VAH_MUST_ROLL_BACK | sys::VAH_ROLLING_BACK | sys::VAH_BUSY | sys::VAH_MEMORY) {
            self.has_ended(code);
            std::mem::forget(self); // else it is still active, and is rolled back when it is dropped
        }
        refused.map_or(Ok(()), Err)
    }

    /// After an error that `is_retryable`: takes back what it did, waits until each older transaction has ended, and begins again.
    ///
    /// Who has begun again some times has precedence over all. Where it waits longer than it may it is rolled back, and `Busy`.
    pub fn again(self) -> Result<Transaction<'s>> {
        match unsafe { sys::vah_again(self.at) } {
            sys::VAH_OK => {
                self.gives_way.set(false);
                Ok(self)
            }
            code => Err(Error::last(code)), // it is dropped, as it may not have ended
        }
    }

    /// Takes back all that it did, and ends it.
    pub fn rollback(self) -> Result<()> {
        let code = unsafe { sys::vah_rollback(self.at) };
        let outcome = done(code);
        self.has_ended(code);
        std::mem::forget(self);
        outcome
    }

    /// The store need not end it. In a child, where no call is taken, the list of those may be locked for ever, by a thread that is not there.
    fn has_ended(&self, code: i32) {
        if code != sys::VAH_FORKED {
            self.store.has_ended(self.at);
        }
    }

    /// Whether the call succeeded, where a code that is an answer says that it did not.
    fn unless(&self, code: i32, answer: i32) -> Result<bool> {
        match code {
            sys::VAH_OK => Ok(true),
            _ if code == answer => Ok(false),
            _ => {
                if code == sys::VAH_GIVE_WAY {
                    self.gives_way.set(true);
                }
                Err(Error::last(code))
            }
        }
    }

    /// What a call that answers an entry, or that there is none, has set.
    fn entry(&self, call: impl FnOnce(*mut sys::vah_entry) -> i32) -> Result<Option<(Vec<u8>, u64)>> {
        let mut entry = MaybeUninit::<sys::vah_entry>::uninit();
        if !self.unless(call(entry.as_mut_ptr()), sys::VAH_NOT_FOUND)? {
            return Ok(None);
        }
        // SAFETY: it was set, its key in its first `len` bytes, which are all that is read.
        unsafe {
            let entry = entry.as_ptr();
            let key = std::slice::from_raw_parts(std::ptr::addr_of!((*entry).key).cast::<u8>(), usize::from((*entry).len));
            Ok(Some((key.to_vec(), (*entry).rid)))
        }
    }

    /// What a scan said.
    pub(crate) fn scanned(&self, code: i32) -> Result<()> {
        self.unless(code, sys::VAH_OK).map(drop)
    }
}

/// A wait's limit as the library has it, for which 0 is none.
pub(crate) fn milliseconds(limit: Duration) -> u64 {
    let whole = limit.as_nanos().div_ceil(1_000_000).max(1);
    u64::try_from(whole).unwrap_or(u64::MAX)
}

impl Drop for Transaction<'_> {
    fn drop(&mut self) {
        let code = unsafe { sys::vah_rollback(self.at) };
        self.has_ended(code);
    }
}

impl fmt::Debug for Transaction<'_> {
    fn fmt(&self, f: &mut fmt::Formatter<'_>) -> fmt::Result {
        f.debug_struct("Transaction").field("store", self.store).field("gives_way", &self.gives_way()).finish_non_exhaustive()
    }
}

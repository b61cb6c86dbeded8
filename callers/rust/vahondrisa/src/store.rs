use crate::blob::Blob;
use crate::catalogue::{self, Kind};
use crate::error::{Error, Result};
use crate::index::Index;
use crate::options::{name_of, told, Options};
use crate::transaction::{milliseconds, Transaction};
use std::cell::RefCell;
use std::fmt;
use std::path::{Path, PathBuf};
use std::ptr;
use std::sync::{Mutex, MutexGuard, PoisonError};
use std::time::Duration;
use vahondrisa_sys as sys;

/// How a store stands. The numbers from `restarts` on count from the opening.
///
/// ```
/// # let dir = std::env::temp_dir().join(format!("vahondrisa-doc-info-{}", std::process::id()));
/// # let store = vahondrisa::Store::open(&dir)?;
/// store.write(|txn| txn.put(b"apple", 7))?;
/// let info = store.info()?;
/// assert_eq!((info.active, info.restarts, info.has_failed), (0, 0, false));
/// # store.close()?; std::fs::remove_dir_all(dir).unwrap();
/// # Ok::<(), vahondrisa::Error>(())
/// ```
#[derive(Clone, Copy, Debug, PartialEq, Eq)]
#[non_exhaustive]
pub struct Info {
    /// Transactions that are active.
    pub active: u64,
    /// Pages whose file lacks changes.
    pub dirty_pages: u64,
    /// The log is on the disk up to here, in bytes of all that was ever logged.
    pub durable_end: u64,
    /// Where the opening began to redo the log; 0 where the log had no record.
    pub redo_from: u64,
    /// How many records the opening applied.
    pub redone: u64,
    /// Whether only `close` is of use.
    pub has_failed: bool,
    /// Transactions that began again, as they had to give way.
    pub restarts: u64,
    /// Calls that slept until other transactions ended.
    pub waits: u64,
    /// Forces of the log that commits and flushes asked for.
    pub forces: u64,
    /// Syncs of a file.
    pub syncs: u64,
    /// Reads of the file of pages.
    pub page_reads: u64,
    /// Writes of the file of pages.
    pub page_writes: u64,
    /// Bytes written to the logs.
    pub log_bytes: u64,
}

pub(crate) fn done(code: i32) -> Result<()> {
    if code == sys::VAH_OK {
        Ok(())
    } else {
        Err(Error::last(code))
    }
}

/// A store that is open. Threads share it by reference. `Drop` closes it; `close` does so and says how it went.
///
/// ```
/// # let dir = std::env::temp_dir().join(format!("vahondrisa-doc-store-{}", std::process::id()));
/// let store = vahondrisa::Store::open(&dir)?;
/// store.write(|txn| txn.put(b"count", 0))?;
/// std::thread::scope(|scope| {
///     for _ in 0..4 {
///         scope.spawn(|| {
///             store.write(|txn| {
///                 let count = txn.get(b"count")?.unwrap_or(0);
///                 txn.put(b"count", count + 1)
///             })
///         });
///     }
/// });
/// assert_eq!(store.begin()?.get(b"count")?, Some(4));
/// store.close()?;
/// # std::fs::remove_dir_all(dir).unwrap();
/// # Ok::<(), vahondrisa::Error>(())
/// ```
pub struct Store {
    at: *mut sys::vah_store,
    path: PathBuf,
    /// The transactions that have not ended: one that is forgotten stays here, and is ended before the store is.
    active: Mutex<Vec<*mut sys::vah_txn>>,
    is_closed: bool,
}

// SAFETY: vahondrisa.h, "Threads": any thread may call any function on one store.
unsafe impl Send for Store {}
unsafe impl Sync for Store {}

impl Store {
    pub(crate) fn of(at: *mut sys::vah_store, path: PathBuf) -> Store {
        Store { at, path, active: Mutex::default(), is_closed: false }
    }

    /// Opens the store in a folder with the default options, or makes one.
    pub fn open(path: impl AsRef<Path>) -> Result<Store> {
        Options::default().open(path)
    }

    /// The options of an opening, to be changed.
    pub fn options() -> Options {
        Options::default()
    }

    /// The folder, as it was named at the opening.
    pub fn path(&self) -> &Path {
        &self.path
    }

    /// Its name, which no other store of the process has or will have.
    pub(crate) fn name(&self) -> usize {
        self.at as usize
    }

    /// Begins a transaction. It waits where 64 are active, and its calls where a younger transaction holds what they need. A thread that would wait
    /// for itself is refused `Deadlock`.
    pub fn begin(&self) -> Result<Transaction<'_>> {
        // SAFETY: here and below the store is open as long as `self` is.
        self.begun(|at| unsafe { sys::vah_begin_with(self.at, 0, at) })
    }

    /// Begins a transaction that waits for nobody: `TooMany` where 64 are active, `Busy` where one that begins again has precedence, and its calls are
    /// refused `Busy` where they would wait.
    pub fn try_begin(&self) -> Result<Transaction<'_>> {
        self.begun(|at| unsafe { sys::vah_begin_with(self.at, sys::VAH_NO_WAIT, at) })
    }

    /// Begins a transaction; this and each call of it waits so long at most, in whole milliseconds and at least one, and is then refused `Busy`.
    pub fn begin_within(&self, limit: Duration) -> Result<Transaction<'_>> {
        self.begun(|at| unsafe { sys::vah_begin_within(self.at, 0, milliseconds(limit), at) })
    }

    fn begun(&self, call: impl FnOnce(*mut *mut sys::vah_txn) -> i32) -> Result<Transaction<'_>> {
        let mut at = ptr::null_mut();
        done(call(&mut at))?;
        self.active().push(at);
        Ok(Transaction::of(at, self))
    }

    fn active(&self) -> MutexGuard<'_, Vec<*mut sys::vah_txn>> {
        self.active.lock().unwrap_or_else(PoisonError::into_inner)
    }

    /// A transaction need not be ended any more.
    pub(crate) fn has_ended(&self, txn: *mut sys::vah_txn) {
        let mut active = self.active();
        if let Some(place) = active.iter().position(|it| *it == txn) {
            active.swap_remove(place);
        }
    }

    /// Runs `body` in a transaction and commits it; where `body` fails, by whatever error, the transaction is rolled back.
    ///
    /// Where it has to give way to an older one it is rolled back and `body` is run again, whatever it answered: so it should have no other effect. After
    /// some restarts it has precedence over all, so the restarts end. A `write` within a `write` of the same thread and store is refused `Deadlock`.
    ///
    /// Where the compiler cannot tell `E`, `body` ends with `Ok::<_, vahondrisa::Error>(value)`.
    ///
    /// ```
    /// # let dir = std::env::temp_dir().join(format!("vahondrisa-doc-write-{}", std::process::id()));
    /// # let store = vahondrisa::Store::open(&dir).unwrap();
    /// #[derive(Debug)]
    /// enum Refused {
    ///     SoldOut,
    ///     Store(vahondrisa::Error),
    /// }
    ///
    /// impl From<vahondrisa::Error> for Refused {
    ///     fn from(error: vahondrisa::Error) -> Refused {
    ///         Refused::Store(error)
    ///     }
    /// }
    ///
    /// store.write(|txn| txn.put(b"apples", 1)).unwrap();
    /// let buy = || store.write(|txn| match txn.get(b"apples")? {
    ///     None | Some(0) => Err(Refused::SoldOut),
    ///     Some(left) => Ok(txn.put(b"apples", left - 1)?),
    /// });
    /// assert_eq!(buy().unwrap(), Some(1));
    /// assert!(matches!(buy(), Err(Refused::SoldOut)));
    /// # store.close().unwrap(); std::fs::remove_dir_all(dir).unwrap();
    /// ```
    pub fn write<T, E: From<Error>>(&self, body: impl FnMut(&Transaction<'_>) -> Result<T, E>) -> Result<T, E> {
        self.write_in(|| self.begin(), body)
    }

    /// Runs `body` as `write` does, in a transaction that waits so long at most at each of its calls: `Busy` then.
    pub fn write_within<T, E: From<Error>>(&self, limit: Duration, body: impl FnMut(&Transaction<'_>) -> Result<T, E>) -> Result<T, E> {
        self.write_in(|| self.begin_within(limit), body)
    }

    fn write_in<'s, T, E: From<Error>>(
        &'s self, begin: impl FnOnce() -> Result<Transaction<'s>>, mut body: impl FnMut(&Transaction<'_>) -> Result<T, E>,
    ) -> Result<T, E> {
        let _write = Write::begin(self)?;
        let mut txn = begin()?;
        loop {
            let outcome = body(&txn);
            if txn.gives_way() {
                txn = txn.again()?;
                continue;
            }
            return match outcome {
                Ok(value) => Ok(txn.commit().map(|()| value)?),
                Err(error) => {
                    let _ = txn.rollback(); // a store that has failed refuses it, for which the body's error is the cause
                    Err(error)
                }
            };
        }
    }

    /// The named index, which is made where it is not there yet, in a transaction of its own. Names have 1 to 31 bytes.
    ///
    /// Its entries are keys of the store that begin with the name: docs/GUIDE.md, "Several indexes in one store". Keys of the program's own, beside all
    /// indexes, begin with a byte of 32 or more, as letters and digits do.
    pub fn index(&self, name: &str) -> Result<Index> {
        catalogue::name(self, name, Kind::Index).map(|prefix| Index::new(self, name, prefix))
    }

    /// The named set of long values, which is made where it is not there yet, in a transaction of its own. Names have 1 to 31 bytes.
    pub fn blob(&self, name: &str) -> Result<Blob> {
        catalogue::name(self, name, Kind::Blob).map(|prefix| Blob::new(self, name, prefix))
    }

    /// The row id of a key, in a transaction of its own. Within a `write` ask its transaction: this is refused `Deadlock` there, as a `write` is.
    ///
    /// ```
    /// # let dir = std::env::temp_dir().join(format!("vahondrisa-doc-get-{}", std::process::id()));
    /// # let store = vahondrisa::Store::open(&dir)?;
    /// store.write(|txn| txn.put("apple", 7))?;
    /// assert_eq!((store.get("apple")?, store.get("plum")?), (Some(7), None));
    /// # store.close()?; std::fs::remove_dir_all(dir).unwrap();
    /// # Ok::<(), vahondrisa::Error>(())
    /// ```
    pub fn get(&self, key: impl AsRef<[u8]>) -> Result<Option<u64>> {
        self.write(|txn| txn.get(&key))
    }

    /// The names of all indexes, in order.
    pub fn indexes(&self) -> Result<Vec<String>> {
        catalogue::names(self, Kind::Index)
    }

    /// The names of all sets of long values, in order.
    pub fn blobs(&self) -> Result<Vec<String>> {
        catalogue::names(self, Kind::Blob)
    }

    /// Bounds what the next opening has to redo. Taken by itself as `redo_bytes` asks.
    pub fn checkpoint(&self) -> Result<()> {
        done(unsafe { sys::vah_checkpoint(self.at) })
    }

    /// Writes all pages, and goes on in the other log, which is empty: the next opening reads nothing of this one. Made by itself as `log_bytes` asks. Answers
    /// whether it was made: not while a transaction is active.
    pub fn switch(&self) -> Result<bool> {
        match unsafe { sys::vah_switch(self.at) } {
            sys::VAH_ACTIVE => Ok(false),
            code => done(code).map(|()| true),
        }
    }

    /// Makes all records so far durable, those of active transactions too.
    pub fn flush(&self) -> Result<()> {
        done(unsafe { sys::vah_flush(self.at) })
    }

    /// Copies the store into a folder that is empty or is to be made, while other threads go on: they wait for 256 KiB at a time at most. The copy is a store,
    /// and on the disk. It has what a stop at its end might have left: each commit that has returned by then, of the others some, and each of them whole.
    ///
    /// Refused `NotEmpty`, `NotCopied`, `Memory`, and `Busy` where another copy of the store is under way; `Device` and `Failed` where the store itself failed.
    ///
    /// ```
    /// # let dir = std::env::temp_dir().join(format!("vahondrisa-doc-copy-{}", std::process::id()));
    /// # let backup = dir.with_extension("backup");
    /// # let store = vahondrisa::Store::open(&dir)?;
    /// store.write(|txn| txn.put(b"apple", 7))?;
    /// store.copy(&backup)?;
    /// assert_eq!(vahondrisa::Store::open(&backup)?.begin()?.get(b"apple")?, Some(7));
    /// # store.close()?; std::fs::remove_dir_all(dir).unwrap(); std::fs::remove_dir_all(backup).unwrap();
    /// # Ok::<(), vahondrisa::Error>(())
    /// ```
    pub fn copy(&self, folder: impl AsRef<Path>) -> Result<()> {
        self.copy_with_progress(folder, |_| true)
    }

    /// Copies the store as `copy` does, and tells `progress` for each 256 KiB how many bytes are copied so far; but nothing while the files are synced. Where
    /// it answers false the copy is given up, `Stopped`, and its files are taken away.
    ///
    /// ```
    /// # let dir = std::env::temp_dir().join(format!("vahondrisa-doc-progress-{}", std::process::id()));
    /// # let backup = dir.with_extension("backup");
    /// # let store = vahondrisa::Store::open(&dir)?;
    /// let given_up = store.copy_with_progress(&backup, |bytes| bytes == 0);
    /// assert_eq!(given_up.unwrap_err().kind(), vahondrisa::ErrorKind::Stopped);
    /// # store.close()?; std::fs::remove_dir_all(dir).unwrap(); std::fs::remove_dir_all(backup).unwrap();
    /// # Ok::<(), vahondrisa::Error>(())
    /// ```
    pub fn copy_with_progress<F: FnMut(u64) -> bool>(&self, folder: impl AsRef<Path>, progress: F) -> Result<()> {
        let name = name_of(folder.as_ref())?;
        told(progress, |call, with| {
            // SAFETY: the path ends with 0, and lives over the call, as what `call` is called with does.
            done(unsafe { sys::vah_copy_with(self.at, name.as_ptr(), Some(call), with) })
        })
    }

    /// How the store stands.
    pub fn info(&self) -> Result<Info> {
        let mut it = sys::vah_info::default();
        done(unsafe { sys::vah_stat_with(self.at, &mut it, std::mem::size_of_val(&it)) })?;
        Ok(Info {
            active: it.active,
            dirty_pages: it.dirty_pages,
            durable_end: it.durable_end,
            redo_from: it.redo_from,
            redone: it.redone,
            has_failed: it.has_failed != 0,
            restarts: it.restarts,
            waits: it.waits,
            forces: it.forces,
            syncs: it.syncs,
            page_reads: it.page_reads,
            page_writes: it.page_writes,
            log_bytes: it.log_bytes,
        })
    }

    /// Writes all pages, leaves a long log for an empty one or takes a checkpoint, cuts the logs, and ends the store. What was committed is kept whatever it answers.
    pub fn close(mut self) -> Result<()> {
        self.end()
    }

    /// Ends the store once. Nobody is within a call of it or of its transactions, as those borrow it; one that was forgotten is rolled back.
    fn end(&mut self) -> Result<()> {
        if std::mem::replace(&mut self.is_closed, true) {
            return Ok(());
        }
        for txn in std::mem::take(self.active.get_mut().unwrap_or_else(PoisonError::into_inner)) {
            unsafe { sys::vah_rollback(txn) };
        }
        done(unsafe { sys::vah_close(self.at) })
    }
}

impl Drop for Store {
    fn drop(&mut self) {
        let _ = self.end();
    }
}

impl fmt::Debug for Store {
    fn fmt(&self, f: &mut fmt::Formatter<'_>) -> fmt::Result {
        f.debug_struct("Store").field("path", &self.path).finish_non_exhaustive()
    }
}

thread_local! {
    /// The stores that this thread is within a `write` of.
    static WRITES: RefCell<Vec<usize>> = const { RefCell::new(Vec::new()) };
}

/// A `write` of this thread, until it is dropped.
struct Write;

impl Write {
    fn begin(store: &Store) -> Result<Write> {
        WRITES.with_borrow_mut(|writes| {
            if writes.contains(&store.name()) {
                return Err(Error::of(sys::VAH_DEADLOCK, format!("{}: a write within a write of the same thread", store.path.display())));
            }
            writes.push(store.name());
            Ok(Write)
        })
    }
}

impl Drop for Write {
    fn drop(&mut self) {
        WRITES.with_borrow_mut(|writes| writes.pop());
    }
}

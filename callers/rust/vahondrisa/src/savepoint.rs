use crate::error::{Error, Result};
use crate::store::done;
use crate::transaction::Transaction;
use std::fmt;
use vahondrisa_sys as sys;

/// Where a transaction stood. `Drop` returns to it: what was done since then is taken back, and the transaction goes on; `keep` leaves it.
///
/// All locks stay. A return to an earlier one ends those that were made after it: when they are dropped nothing is taken back. Neither is anything once a
/// call was told `GiveWay`, as then the whole transaction begins again.
///
/// ```
/// # let dir = std::env::temp_dir().join(format!("vahondrisa-doc-savepoint-{}", std::process::id()));
/// # let store = vahondrisa::Store::open(&dir)?;
/// let txn = store.begin()?;
/// txn.put(b"apple", 7)?;
/// {
///     let _save = txn.savepoint();
///     txn.put(b"apple", 8)?;
///     txn.put(b"plum", 9)?;
/// }
/// assert_eq!((txn.get(b"apple")?, txn.get(b"plum")?), (Some(7), None));
/// let save = txn.savepoint();
/// txn.put(b"fig", 1)?;
/// save.keep();
/// txn.commit()?;
/// # store.close()?; std::fs::remove_dir_all(dir).unwrap();
/// # Ok::<(), vahondrisa::Error>(())
/// ```
///
/// It cannot outlive its transaction:
///
/// ```compile_fail,E0505
/// # let store = vahondrisa::Store::open("keys").unwrap();
/// let txn = store.begin().unwrap();
/// let save = txn.savepoint();
/// txn.commit().unwrap();
/// save.keep();
/// ```
#[must_use = "it is returned to when it is dropped"]
pub struct Savepoint<'t, 's> {
    txn: &'t Transaction<'s>,
    /// Among those of its transaction.
    number: u64,
    /// How many changes stood.
    changes: u64,
}

impl<'t, 's> Savepoint<'t, 's> {
    pub(crate) fn new(txn: &'t Transaction<'s>, number: u64) -> Savepoint<'t, 's> {
        // where the call is refused, as in a child, the others are too, and there is nothing to take back
        let mut changes = u64::MAX;
        // SAFETY: here and below the transaction's name stands for it as long as it lives.
        unsafe { sys::vah_savepoint(txn.at(), &mut changes) };
        Savepoint { txn, number, changes }
    }

    /// Leaves what was done since then.
    pub fn keep(self) {
        self.txn.keep(self.number);
        std::mem::forget(self);
    }

    /// Takes back what was done since then, and says how it went. On `Memory` the transaction's next call takes back what is left; `Invalid` where an earlier
    /// savepoint was returned to meanwhile.
    pub fn roll_back(self) -> Result<()> {
        let outcome = self.end();
        std::mem::forget(self);
        outcome
    }

    fn end(&self) -> Result<()> {
        let path = || self.txn.store().path().display();
        if !self.txn.end_from(self.number) {
            return Err(Error::of(sys::VAH_INVALID, format!("{}: the transaction has returned to an earlier savepoint", path())));
        }
        if self.txn.gives_way() {
            return Err(Error::of(sys::VAH_GIVE_WAY, format!("{}: an older transaction stands in the way: roll back, and begin again", path())));
        }
        done(unsafe { sys::vah_roll_to(self.txn.at(), self.changes) })
    }
}

impl Drop for Savepoint<'_, '_> {
    fn drop(&mut self) {
        let _ = self.end(); // what is refused here the transaction's next call is told, or makes
    }
}

impl fmt::Debug for Savepoint<'_, '_> {
    fn fmt(&self, f: &mut fmt::Formatter<'_>) -> fmt::Result {
        f.debug_struct("Savepoint").field("txn", self.txn).field("changes", &self.changes).finish_non_exhaustive()
    }
}

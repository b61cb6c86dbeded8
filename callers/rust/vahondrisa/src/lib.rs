//! A persistent ordered index with transactions, in a folder: keys of 1 to 255 bytes, each with a row id (`rid`), a `u64`.
//!
//! ```
//! # let dir = std::env::temp_dir().join(format!("vahondrisa-doc-{}", std::process::id()));
//! let store = vahondrisa::Store::open(&dir)?;
//! store.write(|txn| {
//!     txn.put(b"apple", 7)?;
//!     txn.put(b"pear", 8)
//! })?;
//! let txn = store.begin()?;
//! assert_eq!(txn.get(b"apple")?, Some(7));
//! let entries: Vec<_> = txn.range("a".."z").collect::<Result<_, _>>()?;
//! assert_eq!(entries, [(b"apple".to_vec(), 7), (b"pear".to_vec(), 8)]);
//! assert_eq!(txn.range(..).rev().next().transpose()?, Some((b"pear".to_vec(), 8)));
//! # txn.commit()?; store.close()?; std::fs::remove_dir_all(dir).unwrap();
//! # Ok::<(), vahondrisa::Error>(())
//! ```
//!
//! Keys are ordered by their bytes. What a transaction did is there whole or not at all after a kill, a crash or a power cut, and is there if
//! its commit returned `Ok`. The store below these functions is proved; this crate and the C layer below it are tested.
//!
//! Any thread may use a store. A transaction belongs to one thread at a time, and may have to give way to an older one: `Store::write` begins
//! again then. It cannot outlive its store, and one that is forgotten is rolled back when the store is closed:
//!
//! ```compile_fail
//! let txn = { let store = vahondrisa::Store::open("keys").unwrap(); store.begin().unwrap() };
//! ```
//!
//! A store has room for several indexes, by name ([`Store::index`]), and for values of bytes ([`Store::blob`]).
#![warn(missing_docs)]

mod blob;
mod catalogue;
mod error;
mod index;
mod key_range;
mod layout;
mod load;
mod options;
mod range;
mod savepoint;
mod store;
mod transaction;

pub use blob::{Blob, BlobKeys};
pub use error::{Error, ErrorKind, Result};
pub use index::Index;
pub use key_range::KeyRange;
pub use load::Names;
pub use options::Options;
pub use range::Range;
pub use savepoint::Savepoint;
pub use store::{Info, Store};
pub use transaction::Transaction;

/// The release of the library below, and what was built of it: `0.1.0 proved`, or `0.1.0 unproved` by a library that was built without its proofs.
///
/// ```
/// assert!(matches!(vahondrisa::build().split_once(' '), Some((_, "proved" | "unproved"))));
/// ```
pub fn build() -> &'static str {
    // SAFETY: the text is never null, ends with 0, and stays.
    let text = unsafe { std::ffi::CStr::from_ptr(vahondrisa_sys::vah_build()) };
    text.to_str().unwrap_or("")
}

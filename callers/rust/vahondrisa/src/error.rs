use std::ffi::CStr;
use std::fmt;
use std::io;
use vahondrisa_sys as sys;

/// Why a call was refused, in words that name the folder.
///
/// ```
/// # let dir = std::env::temp_dir().join(format!("vahondrisa-doc-error-{}", std::process::id()));
/// use vahondrisa::{ErrorKind, Store};
///
/// let store = Store::open(&dir)?;
/// let error = Store::open(&dir).unwrap_err();
/// assert_eq!(error.kind(), ErrorKind::Locked);
/// assert_eq!(error.to_string(), format!("{}: the store is open elsewhere", dir.display()));
/// // in a program whose errors are those of std::io
/// assert_eq!(std::io::Error::from(error).kind(), std::io::ErrorKind::WouldBlock);
/// # store.close()?; std::fs::remove_dir_all(dir).unwrap();
/// # Ok::<(), vahondrisa::Error>(())
/// ```
#[derive(Debug)]
pub struct Error {
    code: i32,
    text: String,
    source: Option<io::Error>,
}

/// What a call of this crate returns.
///
/// ```
/// # let dir = std::env::temp_dir().join(format!("vahondrisa-doc-result-{}", std::process::id()));
/// fn names(txn: &vahondrisa::Transaction) -> vahondrisa::Result<usize> {
///     txn.range(..).try_fold(0, |count, entry| entry.map(|_| count + 1))
/// }
/// # let store = vahondrisa::Store::open(&dir)?;
/// store.write(|txn| txn.insert(b"apple", 7))?;
/// assert_eq!(store.write(names)?, 1);
/// # store.close()?; std::fs::remove_dir_all(dir).unwrap();
/// # Ok::<(), vahondrisa::Error>(())
/// ```
pub type Result<T, E = Error> = std::result::Result<T, E>;

/// The causes, by the numbers of `vahondrisa.h`.
///
/// ```
/// # let dir = std::env::temp_dir().join(format!("vahondrisa-doc-kind-{}", std::process::id()));
/// # let store = vahondrisa::Store::open(&dir)?;
/// use vahondrisa::ErrorKind;
///
/// let txn = store.begin()?;
/// match txn.insert(b"", 1).map_err(|it| it.kind()) {
///     Err(ErrorKind::KeyLength) => {} // and so on
///     other => panic!("{other:?}"),
/// }
/// # txn.commit()?; store.close()?; std::fs::remove_dir_all(dir).unwrap();
/// # Ok::<(), vahondrisa::Error>(())
/// ```
#[derive(Clone, Copy, Debug, PartialEq, Eq, Hash)]
#[non_exhaustive]
pub enum ErrorKind {
    /// The transaction has ended.
    NoTransaction,
    /// A call of the transaction was answered `GiveWay` before.
    MustRollBack,
    /// A key has 1 to 255 bytes; in an index fewer.
    KeyLength,
    /// A rollback of the transaction was begun and not ended.
    RollingBack,
    /// `max_pages` are in use.
    PagesFull,
    /// Numbers are used up. The store has failed.
    Capacity,
    /// The log is full. The store has failed.
    LogFull,
    /// A call of the system failed; `source` has its error, where it is known. So has the store: of a commit it is not known whether it is kept.
    Device,
    /// There was no memory. Nothing was changed.
    Memory,
    /// An earlier call failed: close the store, and open it again.
    Failed,
    /// The files are of no store, or are damaged.
    NotAStore,
    /// 64 transactions are active (`try_begin`), or 4,096 stores are open.
    TooMany,
    /// `frames` are not 8 to 1,024, or `cache_bytes` more than 1,020 MiB.
    PoolSize,
    /// The store is open elsewhere.
    Locked,
    /// An older transaction stands in the way: roll back, and begin again.
    GiveWay,
    /// A younger transaction holds what is needed: it is not waited for (`try_begin`), or was waited for as long as is allowed. Nothing was changed.
    Busy,
    /// The call would wait for a transaction of this very thread, or for a thread that waits for this one. Nothing was changed: end one of them.
    Deadlock,
    /// An argument is not allowed, as a path with a byte 0, or an index of another store.
    Invalid,
    /// The store was opened by the process that this one was forked from.
    Forked,
    /// The progress of an opening, or of a copy, was told to stop. The store is as it was, and there is no copy.
    Stopped,
    /// The store was opened to be read only. Nothing was changed.
    ReadOnly,
    /// The folder of a copy or a load has something in it, or that of a copy lies in the store's own.
    NotEmpty,
    /// A call of the system on the folder or the files of a copy failed; `source` has its error. The store goes on. There is no copy, or half of one, which no
    /// opening takes; where the very last call failed, a sync, there is a whole one, of which a power cut may leave less.
    NotCopied,
    /// A key of a load is not above the one before it. There is no store.
    NotRising,
    /// A code of a later library.
    Other,
}

impl Error {
    /// The error of a code, in the words of the call of this thread that was refused last.
    pub(crate) fn last(code: i32) -> Error {
        // after these `errno` is the system's reason
        let system = io::Error::last_os_error();
        let is_known = matches!(code, sys::VAH_DEVICE | sys::VAH_FAILED | sys::VAH_NOT_COPIED) && system.raw_os_error() != Some(0);
        // SAFETY: the text is never null, and good until this thread's next call.
        let text = unsafe { CStr::from_ptr(sys::vah_last_error()) };
        Error { code, text: text.to_string_lossy().into_owned(), source: is_known.then_some(system) }
    }

    /// The error of a code that this crate finds itself, with what it is about.
    pub(crate) fn of(code: i32, text: impl Into<String>) -> Error {
        Error { code, text: text.into(), source: None }
    }

    /// A path that is none for the system.
    pub(crate) fn of_path(error: io::Error) -> Error {
        Error { source: Some(error), ..Error::of(sys::VAH_INVALID, "the path is none for the system") }
    }

    /// The cause.
    pub fn kind(&self) -> ErrorKind {
        match self.code {
            sys::VAH_NO_TRANSACTION => ErrorKind::NoTransaction,
            sys::VAH_MUST_ROLL_BACK => ErrorKind::MustRollBack,
            sys::VAH_KEY_LENGTH => ErrorKind::KeyLength,
            sys::VAH_ROLLING_BACK => ErrorKind::RollingBack,
            sys::VAH_PAGES_FULL => ErrorKind::PagesFull,
            sys::VAH_CAPACITY => ErrorKind::Capacity,
            sys::VAH_LOG_FULL => ErrorKind::LogFull,
            sys::VAH_DEVICE => ErrorKind::Device,
            sys::VAH_MEMORY => ErrorKind::Memory,
            sys::VAH_FAILED => ErrorKind::Failed,
            sys::VAH_NOT_A_STORE => ErrorKind::NotAStore,
            sys::VAH_TOO_MANY => ErrorKind::TooMany,
            sys::VAH_POOL_SIZE => ErrorKind::PoolSize,
            sys::VAH_LOCKED => ErrorKind::Locked,
            sys::VAH_GIVE_WAY => ErrorKind::GiveWay,
            sys::VAH_BUSY => ErrorKind::Busy,
            sys::VAH_DEADLOCK => ErrorKind::Deadlock,
            sys::VAH_INVALID => ErrorKind::Invalid,
            sys::VAH_FORKED => ErrorKind::Forked,
            sys::VAH_STOPPED => ErrorKind::Stopped,
            sys::VAH_READ_ONLY => ErrorKind::ReadOnly,
            sys::VAH_NOT_EMPTY => ErrorKind::NotEmpty,
            sys::VAH_NOT_COPIED => ErrorKind::NotCopied,
            sys::VAH_NOT_RISING => ErrorKind::NotRising,
            _ => ErrorKind::Other,
        }
    }

    /// The number of the cause in `vahondrisa.h`.
    pub fn code(&self) -> i32 {
        self.code
    }

    /// Whether the same work may succeed in a new transaction: `Store::write` begins again after such an error.
    pub fn is_retryable(&self) -> bool {
        matches!(self.kind(), ErrorKind::GiveWay | ErrorKind::MustRollBack)
    }
}

impl fmt::Display for Error {
    fn fmt(&self, f: &mut fmt::Formatter<'_>) -> fmt::Result {
        f.write_str(&self.text)
    }
}

impl std::error::Error for Error {
    fn source(&self) -> Option<&(dyn std::error::Error + 'static)> {
        self.source.as_ref().map(|it| it as _)
    }
}

impl From<Error> for io::Error {
    /// An error of the kind that comes nearest, the system's own where that is known, with this one within it.
    fn from(error: Error) -> io::Error {
        let kind = match error.kind() {
            ErrorKind::Device | ErrorKind::Failed | ErrorKind::NotCopied => error.source.as_ref().map_or(io::ErrorKind::Other, io::Error::kind),
            ErrorKind::Memory => io::ErrorKind::OutOfMemory,
            ErrorKind::NotAStore => io::ErrorKind::InvalidData,
            ErrorKind::KeyLength | ErrorKind::PoolSize | ErrorKind::Invalid | ErrorKind::NotRising => io::ErrorKind::InvalidInput,
            ErrorKind::Locked | ErrorKind::Busy | ErrorKind::GiveWay => io::ErrorKind::WouldBlock,
            ErrorKind::ReadOnly => io::ErrorKind::PermissionDenied,
            ErrorKind::NotEmpty => io::ErrorKind::AlreadyExists,
            _ => io::ErrorKind::Other,
        };
        io::Error::new(kind, error)
    }
}

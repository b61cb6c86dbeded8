use crate::error::{Error, Result};
use crate::store::{done, Store};
use crate::transaction::milliseconds;
use std::any::Any;
use std::ffi::{c_int, c_void, CString};
use std::fmt;
use std::os::unix::ffi::OsStrExt;
use std::panic::{catch_unwind, resume_unwind, AssertUnwindSafe};
use std::path::Path;
use std::ptr;
use std::time::Duration;
use vahondrisa_sys as sys;

/// How a store is opened.
///
/// ```
/// # let dir = std::env::temp_dir().join(format!("vahondrisa-doc-options-{}", std::process::id()));
/// use std::time::Duration;
/// use vahondrisa::Store;
///
/// let store = Store::options().frames(64).redo_bytes(1 << 20).wait(Duration::from_secs(5)).open(&dir)?;
/// # store.close()?; std::fs::remove_dir_all(dir).unwrap();
/// # Ok::<(), vahondrisa::Error>(())
/// ```
#[derive(Clone, Copy)]
pub struct Options {
    frames: u32,
    cache_bytes: u64,
    max_pages: u32,
    redo_bytes: u64,
    log_bytes: u64,
    wait_ms: u64,
    read_only: bool,
}

impl Default for Options {
    fn default() -> Options {
        Options {
            frames: 1_024,
            cache_bytes: sys::VAH_CACHE_FITS,
            max_pages: 1_000_000,
            redo_bytes: sys::VAH_REDO_GROWS,
            log_bytes: sys::VAH_LOG_GROWS,
            wait_ms: 0,
            read_only: false,
        }
    }
}

impl Options {
    /// 1,024 frames, and twice the file of pages in more of them, at most 64 MiB; a million pages at most, 16 MiB of log to redo, or 7 times the file of
    /// pages, and 64 MiB to read, or 8 times; waits as long as is needed.
    pub fn new() -> Options {
        Options::default()
    }

    /// Pages of 4 KiB kept in memory, 8 to 1,024, beside those that `cache_bytes` has room for.
    pub fn frames(mut self, frames: u32) -> Options {
        self.frames = frames;
        self
    }

    /// Memory for more pages, beside `frames`: whole frames of 4 KiB, at most 1,020 MiB, or the opening is refused `PoolSize`. All of it is asked for when
    /// the store is opened, and used as pages come. Where nothing is said it is twice what the file of pages has then, at most 64 MiB.
    ///
    /// ```
    /// # let dir = std::env::temp_dir().join(format!("vahondrisa-doc-cache-{}", std::process::id()));
    /// use vahondrisa::{ErrorKind, Store};
    ///
    /// let store = Store::options().cache_bytes(16 << 20).open(&dir)?;
    /// assert_eq!(Store::options().cache_bytes(1 << 40).open(dir.join("other")).err().unwrap().kind(), ErrorKind::PoolSize);
    /// # store.close()?; std::fs::remove_dir_all(dir).unwrap();
    /// # Ok::<(), vahondrisa::Error>(())
    /// ```
    pub fn cache_bytes(mut self, bytes: u64) -> Options {
        self.cache_bytes = bytes;
        self
    }

    /// The most pages of the store.
    pub fn max_pages(mut self, pages: u32) -> Options {
        self.max_pages = pages;
        self
    }

    /// The most bytes of log that an opening has to redo; 0: any.
    pub fn redo_bytes(mut self, bytes: u64) -> Options {
        self.redo_bytes = bytes;
        self
    }

    /// The most bytes of log that an opening has to read, where now and then no transaction is active; 0: any.
    pub fn log_bytes(mut self, bytes: u64) -> Options {
        self.log_bytes = bytes;
        self
    }

    /// How long a call waits at most for other transactions, in whole milliseconds and at least one; then it is refused `Busy`.
    pub fn wait(mut self, limit: Duration) -> Options {
        self.wait_ms = milliseconds(limit);
        self
    }

    /// Only reads the files: what the opening redoes and takes back stays in memory, and no byte of them is changed. What would change a key is refused
    /// `ReadOnly`, and so are `checkpoint`, `switch` and `flush`. Any number may look at a store at a time, while nobody has it open to write. It must be
    /// there.
    ///
    /// ```
    /// # let dir = std::env::temp_dir().join(format!("vahondrisa-doc-look-{}", std::process::id()));
    /// # vahondrisa::Store::open(&dir)?.write(|txn| txn.put(b"apple", 7))?;
    /// use vahondrisa::{ErrorKind, Store};
    ///
    /// let (one, other) = (Store::options().read_only(true).open(&dir)?, Store::options().read_only(true).open(&dir)?);
    /// assert_eq!((one.begin()?.get(b"apple")?, other.begin()?.get(b"apple")?), (Some(7), Some(7)));
    /// assert_eq!(one.begin()?.put(b"apple", 8).unwrap_err().kind(), ErrorKind::ReadOnly);
    /// # one.close()?; other.close()?; std::fs::remove_dir_all(dir).unwrap();
    /// # Ok::<(), vahondrisa::Error>(())
    /// ```
    pub fn read_only(mut self, is_read_only: bool) -> Options {
        self.read_only = is_read_only;
        self
    }

    /// Opens the store in a folder, or makes one, with the folder and those above it.
    pub fn open(&self, path: impl AsRef<Path>) -> Result<Store> {
        self.open_watched(path.as_ref(), None, ptr::null_mut())
    }

    /// Opens the store, and tells `progress` now and then how many bytes were read so far. Where it answers false the opening is given up, `Stopped`, and
    /// the store is as it was.
    pub fn open_with_progress<F: FnMut(u64) -> bool>(&self, path: impl AsRef<Path>, progress: F) -> Result<Store> {
        told(progress, |call, with| self.open_watched(path.as_ref(), Some(call), with))
    }

    fn open_watched(&self, path: &Path, progress: Option<sys::vah_progress>, with: *mut c_void) -> Result<Store> {
        let name = name_of(path)?;
        let config = sys::vah_config {
            size: std::mem::size_of::<sys::vah_config>(),
            frames: self.frames,
            max_pages: self.max_pages,
            redo_bytes: self.redo_bytes,
            log_bytes: self.log_bytes,
            wait_ms: self.wait_ms,
            progress,
            with,
            read_only: self.read_only.into(),
            cache_bytes: self.cache_bytes,
        };
        let mut at = ptr::null_mut();
        // SAFETY: the path ends with 0, all pointers are to what lives over the call, and `with` is what `progress` takes.
        done(unsafe { sys::vah_open(name.as_ptr(), &config, &mut at) })?;
        Ok(Store::of(at, path.to_path_buf()))
    }
}

impl fmt::Debug for Options {
    fn fmt(&self, f: &mut fmt::Formatter<'_>) -> fmt::Result {
        // the greatest number stands for a bound that goes by the file of pages, and 0 for none
        let bound = |bytes: u64| if bytes == u64::MAX { "by the file of pages".to_string() } else { bytes.to_string() };
        f.debug_struct("Options")
            .field("frames", &self.frames)
            .field("cache_bytes", &format_args!("{}", bound(self.cache_bytes)))
            .field("max_pages", &self.max_pages)
            .field("redo_bytes", &format_args!("{}", bound(self.redo_bytes)))
            .field("log_bytes", &format_args!("{}", bound(self.log_bytes)))
            .field("wait_ms", &self.wait_ms)
            .field("read_only", &self.read_only)
            .finish()
    }
}

/// A path as the library takes it.
pub(crate) fn name_of(path: &Path) -> Result<CString> {
    CString::new(path.as_os_str().as_bytes()).map_err(|it| Error::of_path(it.into()))
}

/// Makes a call that tells `progress` how far it is, by the function that it hands to C with its first argument.
pub(crate) fn told<F: FnMut(u64) -> bool, T>(progress: F, call: impl FnOnce(sys::vah_progress, *mut c_void) -> Result<T>) -> Result<T> {
    let mut told = Told { progress, panic: None };
    let answer = call(tell::<F>, ptr::addr_of_mut!(told).cast());
    if let Some(panic) = told.panic {
        resume_unwind(panic);
    }
    answer
}

/// Who is told of the progress of an opening or a copy, and the panic that it left, which may not pass through C.
struct Told<F> {
    progress: F,
    panic: Option<Box<dyn Any + Send>>,
}

/// SAFETY: `with` is a `Told<F>`, and nobody else has it.
unsafe extern "C" fn tell<F: FnMut(u64) -> bool>(with: *mut c_void, bytes: u64) -> c_int {
    let told = unsafe { &mut *with.cast::<Told<F>>() };
    match catch_unwind(AssertUnwindSafe(|| (told.progress)(bytes))) {
        Ok(goes_on) => c_int::from(!goes_on),
        Err(panic) => {
            told.panic = Some(panic);
            1
        }
    }
}

use crate::catalogue::Kind;
use crate::error::{Error, Result};
use crate::index::Entry;
use crate::layout::{key_of, parts_of, Which};
use crate::options::name_of;
use crate::store::{done, Store};
use std::any::Any;
use std::ffi::{c_int, c_void};
use std::panic::{catch_unwind, resume_unwind, AssertUnwindSafe};
use std::path::Path;
use std::ptr;
use vahondrisa_sys as sys;

impl Store {
    /// Makes a store in a folder that is empty or is to be made, of entries whose keys rise, without a log: each page is written once, and full. It has just
    /// these entries, and is on the disk; where this is refused there is no store. Open it then.
    ///
    /// Refused `NotRising`, `KeyLength`, `NotEmpty`, `Device`, `Memory`.
    ///
    /// ```
    /// # let dir = std::env::temp_dir().join(format!("vahondrisa-doc-load-{}", std::process::id()));
    /// use vahondrisa::Store;
    ///
    /// Store::load(&dir, (0..1000u64).map(|i| (i.to_be_bytes(), i)))?;
    /// assert_eq!(Store::open(&dir)?.get(999u64.to_be_bytes())?, Some(999));
    /// # std::fs::remove_dir_all(dir).unwrap();
    /// # Ok::<(), vahondrisa::Error>(())
    /// ```
    pub fn load<K: AsRef<[u8]>>(path: impl AsRef<Path>, entries: impl IntoIterator<Item = (K, u64)>) -> Result<()> {
        load_all(path.as_ref(), entries.into_iter().map(Ok))
    }

    /// The same with names beside the entries, whose keys begin with a byte of 32 or more then.
    pub fn load_named<K: AsRef<[u8]>>(path: impl AsRef<Path>, names: Names<'_>, entries: impl IntoIterator<Item = (K, u64)>) -> Result<()> {
        let own = entries.into_iter().map(|(key, rid)| Ok((key.as_ref().to_vec(), rid)));
        load_all(path.as_ref(), names.entries().chain(own))
    }

    /// Loads the entries of a store that nobody writes meanwhile into a folder that is empty or is to be made, where they take as few pages as they can. Of one in
    /// use make a copy first (`copy`).
    ///
    /// Refused as an opening to read only is, and as `load`.
    pub fn compact(path: impl AsRef<Path>, folder: impl AsRef<Path>) -> Result<()> {
        let (from, to) = (name_of(path.as_ref())?, name_of(folder.as_ref())?);
        // SAFETY: both paths end with 0, and live over the call.
        done(unsafe { sys::vah_compact(from.as_ptr(), to.as_ptr()) })
    }
}

/// Named indexes and sets of long values that a load makes, each of entries whose keys rise.
///
/// ```
/// # let dir = std::env::temp_dir().join(format!("vahondrisa-doc-names-{}", std::process::id()));
/// use vahondrisa::{Names, Store};
///
/// let names = Names::new().index("by_city", [("lima", 1), ("oslo", 2)]).blob("notes", [("a", "a note")]);
/// Store::load_named(&dir, names, [("own", 3)])?;
/// let store = Store::open(&dir)?;
/// let (by_city, txn) = (store.index("by_city")?, store.begin()?);
/// assert_eq!(by_city.get(&txn, b"oslo")?, Some(2));
/// # drop(txn); drop(store); std::fs::remove_dir_all(dir).unwrap();
/// # Ok::<(), vahondrisa::Error>(())
/// ```
#[derive(Default)]
pub struct Names<'a>(Vec<(String, Kind, Box<dyn Iterator<Item = Result<Entry>> + 'a>)>);

impl<'a> Names<'a> {
    /// None.
    pub fn new() -> Names<'a> {
        Names::default()
    }

    /// An index of this name beside them, of these entries.
    pub fn index<K: AsRef<[u8]> + 'a, I: IntoIterator<Item = (K, u64)>>(mut self, name: &str, entries: I) -> Names<'a>
    where
        I::IntoIter: 'a,
    {
        let of = name.to_owned();
        let entries = entries.into_iter().map(move |(key, rid)| match key_of(Which::Entry, &of, key.as_ref()) {
            Some(whole) => Ok((whole, rid)),
            None => Err(Error::of(sys::VAH_KEY_LENGTH, format!("a key of {} bytes does not fit into the index {of}", key.as_ref().len()))),
        });
        self.0.push((name.to_owned(), Kind::Index, Box::new(entries)));
        self
    }

    /// A set of long values of this name beside them, of these keys with their values.
    pub fn blob<K: AsRef<[u8]> + 'a, V: AsRef<[u8]> + 'a, I: IntoIterator<Item = (K, V)>>(mut self, name: &str, values: I) -> Names<'a>
    where
        I::IntoIter: 'a,
    {
        let of = name.to_owned();
        let parts = values.into_iter().flat_map(move |(key, value)| {
            match key_of(Which::Parts, &of, key.as_ref()).and_then(|front| parts_of(&front, value.as_ref())) {
                Some(parts) => parts.into_iter().map(Ok).collect(),
                None => vec![Err(Error::of(sys::VAH_KEY_LENGTH, format!("a key of {} bytes, or its value, does not fit into {of}", key.as_ref().len())))],
            }
        });
        self.0.push((name.to_owned(), Kind::Blob, Box::new(parts)));
        self
    }

    /// All of them in the order of a store's keys: the catalogue with its guard, and of each name the entries and the guard.
    fn entries(mut self) -> impl Iterator<Item = Result<Entry>> + 'a {
        self.0.sort_by(|a, b| a.0.cmp(&b.0));
        let mut rows: Vec<_> = self.0.iter().map(|(name, kind, _)| of_name(Which::Row, name, *kind as u64)).collect();
        if !rows.is_empty() {
            rows.push(of_name(Which::Guard, "", 0));
        }
        self.0.sort_by_key(|it| it.0.len());
        rows.into_iter().chain(self.0.into_iter().flat_map(|(name, _, entries)| entries.chain([of_name(Which::Guard, &name, 0)])))
    }
}

fn of_name(which: Which, name: &str, rid: u64) -> Result<Entry> {
    key_of(which, name, b"").map(|key| (key, rid)).ok_or_else(|| Error::of(sys::VAH_INVALID, format!("{name}: a name has 1 to 31 bytes")))
}

fn load_all<K: AsRef<[u8]>>(path: &Path, entries: impl Iterator<Item = Result<(K, u64)>>) -> Result<()> {
    let name = name_of(path)?;
    let mut handed = Handed { entries, kept: Vec::with_capacity(sys::VAH_SCAN_MAX), refused: None, panic: None };
    let next = next_of(&handed);
    // SAFETY: the path ends with 0, and `handed` is what `next` takes; both live over the call.
    let code = unsafe { sys::vah_load(name.as_ptr(), Some(next), ptr::addr_of_mut!(handed).cast()) };
    if let Some(panic) = handed.panic {
        resume_unwind(panic);
    }
    match handed.refused {
        Some(error) => Err(error),
        None => done(code),
    }
}

/// Who hands entries to a load, those that it handed last, and the error or the panic that it left, which may not pass through C.
struct Handed<K, I> {
    entries: I,
    kept: Vec<(K, u64)>,
    refused: Option<Error>,
    panic: Option<Box<dyn Any + Send>>,
}

/// The function that C asks for entries of such a one.
fn next_of<K: AsRef<[u8]>, I: Iterator<Item = Result<(K, u64)>>>(_handed: &Handed<K, I>) -> sys::vah_next_entries {
    next::<K, I>
}

/// SAFETY: `with` is a `Handed<K, I>`, nobody else has it, and `room` has room for `VAH_SCAN_MAX` entries.
unsafe extern "C" fn next<K: AsRef<[u8]>, I: Iterator<Item = Result<(K, u64)>>>(with: *mut c_void, room: *mut sys::vah_ref) -> c_int {
    let handed = unsafe { &mut *with.cast::<Handed<K, I>>() };
    let told = catch_unwind(AssertUnwindSafe(|| {
        handed.kept.clear();
        for entry in handed.entries.by_ref().take(sys::VAH_SCAN_MAX) {
            match entry {
                Ok(entry) => handed.kept.push(entry),
                Err(error) => {
                    handed.refused = Some(error);
                    return -1;
                }
            }
        }
        for (place, (key, rid)) in handed.kept.iter().enumerate() {
            let key = key.as_ref();
            unsafe { *room.add(place) = sys::vah_ref { key: key.as_ptr(), len: key.len(), rid: *rid } };
        }
        handed.kept.len() as c_int
    }));
    told.unwrap_or_else(|panic| {
        handed.panic = Some(panic);
        -1
    })
}

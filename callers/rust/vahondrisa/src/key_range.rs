use std::ops::{Bound, Range, RangeBounds, RangeFrom, RangeFull, RangeInclusive, RangeTo, RangeToInclusive};

/// The bounds of a range of keys: each of the ranges of the standard library, over all that is bytes.
///
/// It is a trait of its own, and not `RangeBounds<K>` with any `K`, since the compiler could tell `K` neither of `..` nor of `b"a"..b"b"`. What else has
/// `RangeBounds` gives its two bounds as a pair.
///
/// ```
/// # let dir = std::env::temp_dir().join(format!("vahondrisa-doc-bounds-{}", std::process::id()));
/// # let store = vahondrisa::Store::open(&dir)?;
/// # let txn = store.begin()?;
/// use std::ops::Bound;
///
/// for key in ["apple", "fig", "pear"] {
///     txn.put(key.as_bytes(), 1)?;
/// }
/// assert_eq!(txn.range(..).count(), 3);
/// assert_eq!(txn.range("apple".."pear").count(), 2);
/// assert_eq!(txn.range(b"b"..=b"f").count(), 0);
/// assert_eq!(txn.range((Bound::Excluded("apple"), Bound::Unbounded)).count(), 2);
/// # txn.commit()?; store.close()?; std::fs::remove_dir_all(dir).unwrap();
/// # Ok::<(), vahondrisa::Error>(())
/// ```
pub trait KeyRange {
    /// Where the range begins, and where it ends.
    fn bounds(&self) -> (Bound<&[u8]>, Bound<&[u8]>);
}

fn bytes_of<K: AsRef<[u8]>>(bound: Bound<&K>) -> Bound<&[u8]> {
    match bound {
        Bound::Included(key) => Bound::Included(key.as_ref()),
        Bound::Excluded(key) => Bound::Excluded(key.as_ref()),
        Bound::Unbounded => Bound::Unbounded,
    }
}

macro_rules! key_range {
    ($($range:ty),*) => { $(
        impl<K: AsRef<[u8]>> KeyRange for $range {
            fn bounds(&self) -> (Bound<&[u8]>, Bound<&[u8]>) {
                (bytes_of(RangeBounds::<K>::start_bound(self)), bytes_of(RangeBounds::<K>::end_bound(self)))
            }
        }
    )* };
}

key_range!(Range<K>, RangeInclusive<K>, RangeFrom<K>, RangeTo<K>, RangeToInclusive<K>, (Bound<K>, Bound<K>));

impl KeyRange for RangeFull {
    fn bounds(&self) -> (Bound<&[u8]>, Bound<&[u8]>) {
        (Bound::Unbounded, Bound::Unbounded)
    }
}

//! Stores that a load makes of rising keys.
mod folder;

use folder::Folder;
use std::fs;
use std::path::Path;
use vahondrisa::{ErrorKind, Names, Store};

#[test]
fn a_load_makes_a_store_of_its_entries() {
    let dir = Folder::new("loads");
    for count in [0u32, 1, 256, 30_000] {
        let at = dir.0.join(format!("of{count}"));
        Store::load(&at, (0..count).map(|i| (i.to_be_bytes(), u64::from(i)))).unwrap();
        let store = Store::open(&at).unwrap();
        let txn = store.begin().unwrap();
        let found: Vec<(Vec<u8>, u64)> = txn.range(..).map(Result::unwrap).collect();
        assert!(found.len() == count as usize && (0..count).zip(&found).all(|(i, (key, rid))| key == &i.to_be_bytes() && *rid == u64::from(i)));
        txn.put(b"zz", 1).unwrap();
        txn.commit().unwrap();
        store.close().unwrap();
    }
}

#[test]
fn names_and_long_values_are_loaded_beside_other_keys() {
    let dir = Folder::new("loads-names");
    let (at, made) = (dir.0.join("loaded"), dir.0.join("made"));
    let rows: Vec<([u8; 4], u64)> = (0..3000u32).map(|i| ((i | 0x2000_0000).to_be_bytes(), u64::from(i))).collect();
    let notes: Vec<([u8; 2], Vec<u8>)> = (0..100u8).map(|i| ([0, i], vec![i; usize::from(i) * 97])).collect();
    let names = Names::new().blob("notes", notes.iter().map(|(key, value)| (key, value))).index("by_id", rows.iter().copied()).index("b", rows[..0].iter().copied());
    Store::load_named(&at, names, rows.iter().copied()).unwrap();
    let store = Store::open(&made).unwrap();
    let (by_id, texts, _b) = (store.index("by_id").unwrap(), store.blob("notes").unwrap(), store.index("b").unwrap());
    store
        .write(|txn| {
            for (key, rid) in &rows {
                txn.put(key, *rid)?;
                by_id.put(txn, key, *rid)?;
            }
            notes.iter().try_for_each(|(key, value)| texts.put(txn, key, value).map(|_| ()))
        })
        .unwrap();
    let entries = |store: &Store| -> Vec<(Vec<u8>, u64)> { store.begin().unwrap().range(..).map(Result::unwrap).collect() };
    let loaded = Store::open(&at).unwrap();
    assert!(entries(&loaded) == entries(&store));
    assert_eq!(loaded.indexes().unwrap(), ["b", "by_id"]);
    let bad = dir.0.join("bad");
    for (names, kind) in [
        (Names::new().index("a", [("", 1)]), ErrorKind::KeyLength),
        (Names::new().index("a", [("b", 1), ("a", 1)]), ErrorKind::NotRising),
        (Names::new().index("a", [("a", 1)]).blob("a", [("a", "a")]), ErrorKind::NotRising),
        (Names::new().index("", [("a", 1)]), ErrorKind::Invalid),
        (Names::new().blob("a", [("x".repeat(217), "a")]), ErrorKind::KeyLength),
    ] {
        assert_eq!(Store::load_named(&bad, names, [("own", 1)]).unwrap_err().kind(), kind);
        assert_eq!(fs::read_dir(&bad).unwrap().count(), 0);
    }
}

#[test]
fn a_compact_store_has_the_same_entries_in_fewer_pages() {
    let dir = Folder::new("compact");
    let (at, to) = (dir.0.join("store"), dir.0.join("compact"));
    let store = Store::open(&at).unwrap();
    store.write(|txn| (0..20_000u32).try_for_each(|i| txn.put((i.wrapping_mul(0x9e37_79b1)).to_be_bytes(), u64::from(i)).map(|_| ()))).unwrap();
    let entries = |store: &Store| -> Vec<(Vec<u8>, u64)> { store.begin().unwrap().range(..).map(Result::unwrap).collect() };
    let all = entries(&store);
    assert_eq!(Store::compact(&at, &to).unwrap_err().kind(), ErrorKind::Locked);
    store.close().unwrap();
    Store::compact(&at, &to).unwrap();
    let size = |it: &Path| fs::metadata(it.join("pages")).unwrap().len();
    assert!(all.len() == 20_000 && entries(&Store::open(&to).unwrap()) == all && size(&to) * 10 < size(&at) * 9);
    assert_eq!(Store::compact(&at, &to).unwrap_err().kind(), ErrorKind::NotEmpty);
}

#[test]
fn a_load_that_is_refused_leaves_no_store() {
    let dir = Folder::new("loads-refused");
    let at = dir.0.join("store");
    let bad: [(&[&[u8]], ErrorKind); 4] =
        [(&[b"b", b"a"], ErrorKind::NotRising), (&[b"a", b"a"], ErrorKind::NotRising), (&[b""], ErrorKind::KeyLength), (&[&[b'x'; 256]], ErrorKind::KeyLength)];
    for (keys, kind) in bad {
        let error = Store::load(&at, keys.iter().map(|it| (it, 1))).unwrap_err();
        assert_eq!(error.kind(), kind, "{error}");
        assert_eq!(fs::read_dir(&at).unwrap().count(), 0);
    }
    let panicked = std::panic::catch_unwind(|| Store::load(&at, (0..1000u32).map(|i| if i == 700 { panic!("given up") } else { (i.to_be_bytes(), 1) })));
    assert!(panicked.is_err() && fs::read_dir(&at).unwrap().count() == 0);
    Store::load(&at, [("apple", 7)]).unwrap();
    assert_eq!(Store::load(&at, [("apple", 7)]).unwrap_err().kind(), ErrorKind::NotEmpty);
}

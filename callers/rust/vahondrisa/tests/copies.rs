//! Copies of a store in use, and openings that only read.
mod folder;

use folder::Folder;
use std::error::Error as _;
use std::fs;
use std::io;
use std::path::Path;
use std::sync::atomic::{AtomicBool, AtomicU64, Ordering};
use vahondrisa::{ErrorKind, Store};

/// A copy has each transaction that was acknowledged, whole, and of the others those that came one after another.
fn is_whole(dir: &Path, acked: &[u64]) {
    let store = Store::open(dir).unwrap();
    let txn = store.begin().unwrap();
    for (i, count) in (0u8..).zip(acked) {
        let numbers: Vec<u64> = txn.prefix(&[i + 1]).map(|it| it.unwrap().1).collect();
        assert_eq!(numbers, (1..=numbers.len() as u64 / 3).flat_map(|it| [it; 3]).collect::<Vec<_>>());
        assert!(numbers.len() as u64 >= 3 * count, "{} of {count}", numbers.len());
    }
}

#[test]
fn copies_beside_threads_that_commit() {
    let dir = Folder::new("copies");
    let store = Store::options().frames(16).log_bytes(300_000).open(dir.0.join("store")).unwrap();
    let (acked, is_over) = ([const { AtomicU64::new(0) }; 4], AtomicBool::new(false));
    let now = || acked.each_ref().map(|it| it.load(Ordering::SeqCst));
    std::thread::scope(|scope| {
        for (i, mine) in (0u8..).zip(&acked) {
            let (store, is_over) = (&store, &is_over);
            scope.spawn(move || {
                while !is_over.load(Ordering::SeqCst) {
                    let n = mine.load(Ordering::SeqCst) + 1;
                    store.write(|txn| (0..3u8).try_for_each(|part| txn.put(&[&[i + 1], &n.to_be_bytes()[..], &[part]].concat(), n).map(drop))).unwrap();
                    mine.store(n, Ordering::SeqCst);
                }
            });
        }
        let tried = std::panic::catch_unwind(std::panic::AssertUnwindSafe(|| {
            while now().contains(&0) {
                std::thread::yield_now();
            }
            for turn in 0..10 {
                let (to, before) = (dir.0.join(format!("copy{turn}")), now());
                store.copy(&to).unwrap();
                is_whole(&to, &before);
            }
        }));
        is_over.store(true, Ordering::SeqCst);
        tried.unwrap();
    });
}

#[test]
fn folders_of_copies() {
    let dir = Folder::new("copy-folders");
    let at = dir.0.join("store");
    let store = Store::open(&at).unwrap();
    store.write(|txn| txn.put(b"a", 1)).unwrap();
    fs::create_dir(dir.0.join("empty")).unwrap();
    for name in ["deep/er", "empty"] {
        store.copy(dir.0.join(name)).unwrap();
        assert_eq!(Store::open(dir.0.join(name)).unwrap().begin().unwrap().get(b"a").unwrap(), Some(1));
    }
    for (to, kind, of_io) in [
        (at.as_path(), ErrorKind::NotEmpty, io::ErrorKind::AlreadyExists),
        (&dir.0.join("empty"), ErrorKind::NotEmpty, io::ErrorKind::AlreadyExists),
        (&at.join("within"), ErrorKind::NotEmpty, io::ErrorKind::AlreadyExists),
        (Path::new("/proc/none/here"), ErrorKind::NotCopied, io::ErrorKind::NotFound),
        (Path::new("a\0b"), ErrorKind::Invalid, io::ErrorKind::InvalidInput),
    ] {
        let error = store.copy(to).unwrap_err();
        assert_eq!(error.kind(), kind, "{error}");
        assert_eq!(error.source().is_some(), kind != ErrorKind::NotEmpty);
        assert!(kind == ErrorKind::Invalid || error.to_string().starts_with(to.to_str().unwrap()), "{error}");
        assert_eq!(io::Error::from(error).kind(), of_io);
    }
    fs::create_dir(dir.0.join("half")).unwrap();
    fs::write(dir.0.join("half/log.part"), "").unwrap();
    let error = Store::open(dir.0.join("half")).unwrap_err();
    assert!(error.kind() == ErrorKind::NotAStore && error.to_string().ends_with("a copy or a load into it was not finished"), "{error}");
    store.write(|txn| txn.put(b"b", 2)).unwrap(); // it goes on
}

#[test]
fn two_copies_at_once() {
    let dir = Folder::new("copies-twice");
    let store = Store::open(dir.0.join("store")).unwrap();
    for turn in 0..20 {
        let to = |i| dir.0.join(format!("copy{turn}.{i}"));
        let outcomes = std::thread::scope(|scope| [0, 1].map(|i| scope.spawn({ let (store, to) = (&store, to(i)); move || store.copy(to) })).map(|it| it.join().unwrap()));
        assert!(outcomes.iter().any(Result::is_ok));
        for (i, outcome) in outcomes.iter().enumerate() {
            match outcome {
                Ok(()) => store_is_there(&to(i)),
                Err(error) => assert!(error.kind() == ErrorKind::Busy && error.to_string().ends_with("another copy of it is under way") && !to(i).exists(), "{error}"),
            }
        }
    }
}

#[test]
fn a_copy_tells_its_progress() {
    let dir = Folder::new("copies-progress");
    let store = Store::open(dir.0.join("store")).unwrap();
    store.write(|txn| (0..4_000u64).try_for_each(|i| txn.put([i.to_be_bytes(); 30].concat(), i).map(drop))).unwrap();
    let to = dir.0.join("copy");
    let mut told = Vec::new();
    let stopped = store.copy_with_progress(&to, |bytes| {
        told.push(bytes);
        told.len() < 2
    });
    assert_eq!((stopped.unwrap_err().kind(), told.len(), fs::read_dir(&to).unwrap().count()), (ErrorKind::Stopped, 2, 0));
    let panicked = std::panic::catch_unwind(std::panic::AssertUnwindSafe(|| store.copy_with_progress(&to, |_| panic!("on purpose"))));
    assert!(panicked.is_err() && fs::read_dir(&to).unwrap().count() == 0);
    told.clear();
    store.copy_with_progress(&to, |bytes| {
        told.push(bytes);
        store.get(b"none").unwrap().is_none() // it goes on
    }).unwrap();
    assert!(told.len() > 4 && told.windows(2).all(|it| it[0] < it[1]), "{told:?}");
    assert_eq!(Store::open(&to).unwrap().begin().unwrap().range(..).count(), 4_000);
}

fn store_is_there(dir: &Path) {
    Store::open(dir).unwrap().close().unwrap();
}

#[test]
fn those_that_only_read_change_nothing() {
    let dir = Folder::new("looks");
    let files = || ["log", "log2", "pages"].map(|it| fs::read(dir.0.join(it)).ok());
    let to_read = || Store::options().read_only(true).open(&dir.0);
    assert_eq!(to_read().unwrap_err().kind(), ErrorKind::Device);
    assert!(!dir.0.exists());
    let store = Store::open(&dir.0).unwrap();
    store.write(|txn| (0..500u64).try_for_each(|i| txn.put(&i.to_be_bytes(), i).map(drop))).unwrap();
    assert_eq!(to_read().unwrap_err().kind(), ErrorKind::Locked);
    store.close().unwrap();
    let before = files();
    let (one, other) = (to_read().unwrap(), to_read().unwrap());
    assert_eq!(Store::open(&dir.0).unwrap_err().kind(), ErrorKind::Locked);
    let (txn, others) = (one.begin().unwrap(), other.begin().unwrap());
    for error in [txn.put(b"a", 1).unwrap_err(), txn.insert(b"a", 1).unwrap_err(), txn.remove(b"a").unwrap_err()] {
        assert_eq!(error.kind(), ErrorKind::ReadOnly);
        assert_eq!(io::Error::from(error).kind(), io::ErrorKind::PermissionDenied);
    }
    assert_eq!((txn.range(..).count(), others.range(..).count()), (500, 500));
    txn.commit().unwrap();
    others.commit().unwrap();
    for outcome in [one.checkpoint(), one.flush(), one.switch().map(drop), one.write(|txn| txn.put(b"a", 1).map(drop))] {
        assert_eq!(outcome.unwrap_err().kind(), ErrorKind::ReadOnly);
    }
    one.close().unwrap();
    other.close().unwrap();
    assert_eq!(files(), before);
    store_is_there(&dir.0);
}

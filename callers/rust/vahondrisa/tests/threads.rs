//! Transactions that are forgotten, waits, threads, and bodies that fail.
mod folder;

use folder::Folder;
use std::sync::mpsc;
use std::thread;
use std::time::{Duration, Instant};
use vahondrisa::{Error, ErrorKind, Store};

#[test]
fn a_transaction_that_is_forgotten_does_not_keep_the_folder() {
    let dir = Folder::new("forgotten");
    let store = Store::open(&dir.0).unwrap();
    store.write(|txn| txn.put(b"a", 1)).unwrap();
    for i in 0..3u8 {
        let txn = store.begin().unwrap();
        txn.put(&[i + 1], 2).unwrap();
        std::mem::forget(txn);
    }
    std::mem::forget(store.begin().unwrap());
    assert_eq!(store.info().unwrap().active, 4);
    store.close().unwrap();
    let store = Store::open(&dir.0).unwrap();
    std::mem::forget(store.begin().unwrap());
    drop(store);
    let store = Store::open(&dir.0).unwrap();
    assert_eq!(store.begin().unwrap().range(..).map(Result::unwrap).collect::<Vec<_>>(), [(b"a".to_vec(), 1)]);
}

#[test]
fn a_body_fails_with_an_error_of_its_own() {
    #[derive(Debug)]
    enum Own {
        SoldOut,
        Store(ErrorKind),
    }

    impl From<Error> for Own {
        fn from(error: Error) -> Own {
            Own::Store(error.kind())
        }
    }

    let dir = Folder::new("own");
    let store = Store::open(&dir.0).unwrap();
    let outcome: Result<(), Own> = store.write(|txn| {
        txn.put(b"a", 1)?;
        Err(Own::SoldOut)
    });
    assert!(matches!(outcome, Err(Own::SoldOut)));
    let outcome: Result<u64, Own> = store.write(|txn| Ok(txn.put(b"", 1)?.unwrap_or(0)));
    assert!(matches!(outcome, Err(Own::Store(ErrorKind::KeyLength))));
    let outcome: Result<(), std::io::Error> = store.write(|txn| {
        txn.put(b"a", 2)?;
        Err(std::io::Error::from(std::io::ErrorKind::NotFound))
    });
    assert_eq!(outcome.unwrap_err().kind(), std::io::ErrorKind::NotFound);
    let outcome: Result<(), Box<dyn std::error::Error>> = store.write(|txn| Ok(txn.put(&[1; 256], 2).map(drop)?));
    assert_eq!(outcome.unwrap_err().to_string().split(": ").last(), Some("a key has 1 to 255 bytes"));
    assert_eq!(store.begin().unwrap().get(b"a").unwrap(), None);
    assert_eq!(store.info().unwrap().active, 0);
}

#[test]
fn a_body_that_hides_its_error_is_made_again() {
    let dir = Folder::new("hides");
    let store = Store::open(&dir.0).unwrap();
    let (tell, told) = mpsc::channel();
    thread::scope(|scope| {
        let older = store.begin().unwrap();
        older.put(b"a", 1).unwrap();
        let younger = scope.spawn(|| {
            let tell = tell;
            let mut runs = 0;
            let found = store.write(|txn| {
                runs += 1;
                let found = txn.get(b"a").unwrap_or(None);
                let _ = tell.send(());
                Ok::<_, Error>(found)
            });
            (runs, found.unwrap())
        });
        told.recv().unwrap();
        older.commit().unwrap();
        let (runs, found) = younger.join().unwrap();
        assert_eq!(found, Some(1));
        assert!(runs >= 2 && store.info().unwrap().restarts == runs - 1);
    });
}

#[test]
fn a_thread_that_would_wait_for_itself() {
    let dir = Folder::new("itself");
    let store = Store::open(&dir.0).unwrap();
    let nested = store.write(|txn| {
        txn.put(b"a", 1)?;
        store.write(|inner| inner.put(b"a", 2))
    });
    let error = nested.unwrap_err();
    assert_eq!(error.kind(), ErrorKind::Deadlock);
    assert!(error.to_string().ends_with("a write within a write of the same thread"), "{error}");
    // it is over, and another store is another matter
    let other = Folder::new("itself-other");
    let other = Store::open(&other.0).unwrap();
    store.write(|txn| {
        other.write(|inner| inner.put(b"b", 1))?;
        txn.put(b"a", 3)
    }).unwrap();
    let panicked = std::panic::catch_unwind(std::panic::AssertUnwindSafe(|| store.write(|_| -> vahondrisa::Result<()> { panic!("on purpose") })));
    assert!(panicked.is_err());
    assert_eq!(store.write(|txn| txn.get(b"a")).unwrap(), Some(3));

    let (older, younger) = (store.begin().unwrap(), store.begin().unwrap());
    younger.put(b"y", 1).unwrap();
    assert_eq!(older.get(b"y").unwrap_err().kind(), ErrorKind::Deadlock);
    older.put(b"z", 1).unwrap();
    assert_eq!(younger.get(b"z").unwrap_err().kind(), ErrorKind::GiveWay);
    assert_eq!(younger.again().unwrap_err().kind(), ErrorKind::Deadlock); // and it is rolled back
    assert_eq!(older.get(b"y").unwrap(), None);
    // a write beside an older transaction of the same thread
    assert_eq!(store.write(|txn| txn.put(b"z", 2)).unwrap_err().kind(), ErrorKind::Deadlock);
    older.commit().unwrap();
    assert_eq!(store.info().unwrap().active, 0);
}

#[test]
fn a_wait_ends_by_its_limit() {
    let dir = Folder::new("limit");
    let store = Store::options().wait(Duration::from_millis(100)).open(&dir.0).unwrap();
    let (older, quick, patient) = (store.begin().unwrap(), store.begin_within(Duration::from_millis(20)).unwrap(), store.begin().unwrap());
    let (held, hold) = mpsc::channel();
    let (free, freed) = mpsc::channel::<()>();
    thread::scope(|scope| {
        let store = &store;
        scope.spawn(move || {
            let younger = store.begin().unwrap();
            younger.put(b"a", 1).unwrap();
            held.send(()).unwrap();
            freed.recv().unwrap();
            younger.commit().unwrap();
        });
        hold.recv().unwrap();
        for (txn, least) in [(&older, 100), (&quick, 20)] {
            let since = Instant::now();
            assert_eq!(txn.get(b"a").unwrap_err().kind(), ErrorKind::Busy);
            assert!(since.elapsed() >= Duration::from_millis(least));
            assert_eq!(txn.get(b"b").unwrap(), None); // it goes on
        }
        let waited: vahondrisa::Result<_> = thread::scope(|inner| {
            inner.spawn(|| {
                let first = store.begin_within(Duration::from_millis(10))?;
                first.get(b"c")
            }).join().unwrap()
        });
        assert_eq!(waited.unwrap(), None);
        patient.set_wait(None).unwrap();
        scope.spawn(move || {
            thread::sleep(Duration::from_millis(200));
            free.send(()).unwrap();
        });
        assert_eq!(patient.get(b"a").unwrap(), Some(1));
    });
    for txn in [older, quick, patient] {
        txn.commit().unwrap();
    }
    // the 65th waits, and is told at last
    let many: Vec<_> = (0..64).map(|_| store.begin().unwrap()).collect();
    assert_eq!(store.try_begin().unwrap_err().kind(), ErrorKind::TooMany);
    let told = thread::scope(|scope| scope.spawn(|| store.begin().map(drop).unwrap_err().kind()).join().unwrap());
    assert_eq!(told, ErrorKind::Busy);
    assert_eq!(store.write_within(Duration::from_millis(1), |txn| txn.get(b"a")).unwrap_err().kind(), ErrorKind::Deadlock);
    drop(many);
    assert_eq!(store.write_within(Duration::ZERO, |txn| txn.get(b"a")).unwrap(), Some(1));
}

#[test]
fn a_thousand_threads() {
    let dir = Folder::new("thousand");
    let store = Store::open(&dir.0).unwrap();
    store.write(|txn| txn.put(b"n", 0)).unwrap();
    thread::scope(|scope| {
        for i in 0..1_000u64 {
            let store = &store;
            scope.spawn(move || {
                store.write(|txn| {
                    let n = txn.get(b"n")?.unwrap();
                    txn.put(b"n", n + 1)?;
                    txn.put(&i.to_be_bytes(), i)
                }).unwrap();
            });
        }
    });
    let txn = store.begin().unwrap();
    assert_eq!((txn.get(b"n").unwrap(), txn.range(..).count()), (Some(1_000), 1_001));
    assert_eq!(store.info().unwrap().active, 1);
}

#[test]
fn a_ring_through_two_stores_ends() {
    let (one, two) = (Folder::new("ring-one"), Folder::new("ring-two"));
    let (one, two) = (Store::open(&one.0).unwrap(), Store::open(&two.0).unwrap());
    let meet = std::sync::Barrier::new(2);
    for is_limited in [false, true] {
        let limit = is_limited.then_some(Duration::from_millis(200));
        let begin = |store| Store::begin(store).and_then(|txn| txn.set_wait(limit).map(|()| txn)).unwrap();
        let (old_one, old_two) = (begin(&one), begin(&two));
        let body = |mine: &Store, old: vahondrisa::Transaction<'_>| {
            let young = mine.begin().unwrap();
            young.put(b"a", 1).unwrap();
            meet.wait();
            old.get(b"a").err().map(|it| it.kind()) // waits for the other thread's
        };
        let told: Vec<ErrorKind> = thread::scope(|scope| {
            let all = [scope.spawn(|| body(&one, old_two)), scope.spawn(|| body(&two, old_one))];
            all.into_iter().filter_map(|it| it.join().unwrap()).collect()
        });
        assert!(told.contains(&ErrorKind::Deadlock) || is_limited && told.contains(&ErrorKind::Busy), "{told:?}");
    }
}

#[test]
fn an_opening_tells_its_progress() {
    let dir = Folder::new("progress");
    let store = Store::options().redo_bytes(0).log_bytes(0).open(&dir.0).unwrap();
    store.write(|txn| (0..2_000u64).try_for_each(|i| txn.put(&[i.to_be_bytes(); 25].concat(), i).map(drop))).unwrap();
    std::mem::forget(store.begin().unwrap()); // so that the log is read
    store.flush().unwrap();
    // as a stop would leave it: a copy of the folder
    let copy = Folder::new("progress-copy");
    std::fs::create_dir(&copy.0).unwrap();
    for name in ["log", "log2", "pages"] {
        if dir.0.join(name).exists() {
            std::fs::copy(dir.0.join(name), copy.0.join(name)).unwrap();
        }
    }
    let mut told = Vec::new();
    let stopped = Store::options().open_with_progress(&copy.0, |bytes| {
        told.push(bytes);
        false
    });
    assert_eq!((stopped.unwrap_err().kind(), told.len()), (ErrorKind::Stopped, 1));
    let panicked = std::panic::catch_unwind(|| Store::options().open_with_progress(&copy.0, |_| panic!("on purpose")));
    assert!(panicked.is_err());
    told.clear();
    let store = Store::options().open_with_progress(&copy.0, |bytes| {
        told.push(bytes);
        true
    }).unwrap();
    assert!(told.len() > 1 && told.windows(2).all(|it| it[0] < it[1]), "{told:?}");
    assert_eq!(store.begin().unwrap().range(..).count(), 2_000);
}

#[test]
fn an_error_is_one_of_io_too() {
    let dir = Folder::new("io");
    let store = Store::open(&dir.0).unwrap();
    let error = std::io::Error::from(Store::open("/proc/none/here").unwrap_err());
    assert_eq!(error.kind(), std::io::ErrorKind::NotFound);
    assert!(error.to_string().contains("/proc/none/here"));
    assert_eq!(error.downcast::<Error>().unwrap().kind(), ErrorKind::Device);
    let txn = store.begin().unwrap();
    assert_eq!(std::io::Error::from(txn.get(b"").unwrap_err()).kind(), std::io::ErrorKind::InvalidInput);
    assert_eq!(format!("{store:?}"), format!("Store {{ path: {:?}, .. }}", dir.0));
    assert!(format!("{txn:?}").contains("gives_way: false"));
    assert!(format!("{:?}", txn.range("a"..)).starts_with("Range { txn: Transaction"));
    assert!(format!("{:?}", store.info().unwrap()).contains("active: 1"));
}

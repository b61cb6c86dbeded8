//! Each call of the device fails in turn, and each after it; then the store is opened again. The library is one that was built for that, so
//! `make -C callers test` runs this.
use std::error::Error;
use std::path::Path;
use std::sync::{Mutex, PoisonError};
use vahondrisa::{ErrorKind, Result, Store};

/// What fails is said by the environment, which is the whole process's.
static ALONE: Mutex<()> = Mutex::new(());

/// Keys of 220 bytes split pages soon.
fn key(turn: u8, k: u8) -> [u8; 220] {
    let mut key = [0; 220];
    key[..3].copy_from_slice(&[k.wrapping_mul(37), turn, k]);
    key
}

/// Each turn is a transaction of twelve keys, and returns to a savepoint; turn 2 is rolled back. `acked` has those that were committed.
fn life(dir: &Path, acked: &mut Vec<u8>) -> Result<()> {
    let store = Store::options().frames(8).redo_bytes(200_000).open(dir)?;
    for turn in 0..6 {
        let txn = store.begin()?;
        for k in 0..12 {
            txn.put(&key(turn, k), 99)?;
        }
        for k in 0..12 {
            assert_eq!(txn.put(&key(turn, k), turn.into())?, Some(99));
        }
        let save = txn.savepoint();
        for k in 0..12 {
            txn.remove(key(turn, k))?;
            txn.put(key(99, k), 99)?;
        }
        save.roll_back()?;
        if turn == 2 {
            txn.rollback()?;
            continue;
        }
        txn.commit()?;
        acked.push(turn);
        if turn == 1 {
            store.checkpoint()?;
        }
        if turn == 3 {
            assert!(store.switch()?);
        }
    }
    store.close()
}

#[test]
#[ignore = "over a library whose device fails: make -C callers test"]
fn every_call_fails_in_turn() {
    let _alone = ALONE.lock().unwrap_or_else(PoisonError::into_inner);
    let dir = std::env::temp_dir().join(format!("vahondrisa-every-call-{}", std::process::id()));
    for n in 1.. {
        let _ = std::fs::remove_dir_all(&dir);
        let mut acked = Vec::new();
        std::env::set_var("VAH_FAIL_AT", n.to_string());
        let outcome = life(&dir, &mut acked);
        std::env::remove_var("VAH_FAIL_AT");
        if let Err(error) = &outcome {
            assert!(matches!(error.kind(), ErrorKind::Device | ErrorKind::Failed), "{n}: {error}");
            let source = error.source().and_then(|it| it.downcast_ref::<std::io::Error>());
            assert_eq!(source.and_then(std::io::Error::raw_os_error), Some(5), "{n}: {error}");
        }
        let store = Store::open(&dir).unwrap();
        let txn = store.begin().unwrap();
        for turn in 0..6 {
            let there = (0..12).filter(|k| txn.get(&key(turn, *k)).unwrap() == Some(turn.into())).count();
            assert!(there == 0 || there == 12 && turn != 2, "{n}: {there} of turn {turn}");
            assert!(there == 12 || !acked.contains(&turn), "{n}: turn {turn} is lost");
        }
        assert!((0..12).all(|k| txn.get(key(99, k)).unwrap().is_none()), "{n}: what was taken back is there");
        txn.commit().unwrap();
        store.close().unwrap();
        if outcome.is_ok() {
            assert!(n > 20, "{n} calls alone");
            break;
        }
    }
    std::fs::remove_dir_all(&dir).unwrap();
}

#[test]
#[ignore = "over a library whose device fails: make -C callers test"]
fn every_call_of_a_copy_fails_in_turn() {
    let _alone = ALONE.lock().unwrap_or_else(PoisonError::into_inner);
    let dir = std::env::temp_dir().join(format!("vahondrisa-every-call-of-a-copy-{}", std::process::id()));
    let _ = std::fs::remove_dir_all(&dir);
    let store = Store::open(dir.join("store")).unwrap();
    for n in 1u64.. {
        let to = dir.join(n.to_string());
        store.write(|txn| txn.put(b"a", n)).unwrap();
        std::env::set_var("VAH_COPY_FAIL_AT", n.to_string());
        let outcome = store.copy(&to);
        std::env::remove_var("VAH_COPY_FAIL_AT");
        if let Err(error) = &outcome {
            let source = error.source().and_then(|it| it.downcast_ref::<std::io::Error>());
            assert_eq!((error.kind(), source.and_then(std::io::Error::raw_os_error)), (ErrorKind::NotCopied, Some(5)), "{n}: {error}");
        }
        if std::fs::read_dir(&to).map_or(true, |mut it| it.next().is_none()) {
            assert!(outcome.is_err());
            continue;
        }
        match Store::open(&to) {
            Ok(copy) => assert_eq!(copy.begin().unwrap().get(b"a").unwrap(), Some(n)),
            Err(error) => assert!(error.kind() == ErrorKind::NotAStore && error.to_string().ends_with("a copy or a load into it was not finished"), "{n}: {error}"),
        }
        if outcome.is_ok() {
            assert!(n > 12, "{n} calls alone");
            break;
        }
    }
    store.close().unwrap();
    std::fs::remove_dir_all(&dir).unwrap();
}

#[test]
#[ignore = "over a library that refuses memory: make -C callers test"]
fn a_return_that_finds_no_memory_is_ended_by_the_next_call() {
    let _alone = ALONE.lock().unwrap_or_else(PoisonError::into_inner);
    for refused in 1..8u64 {
        let dir = std::env::temp_dir().join(format!("vahondrisa-half-back-{}-{refused}", std::process::id()));
        let _ = std::fs::remove_dir_all(&dir);
        std::env::set_var("VAH_REFUSE_CONTINUE", refused.to_string());
        let store = Store::open(&dir).unwrap();
        std::env::remove_var("VAH_REFUSE_CONTINUE");
        let txn = store.begin().unwrap();
        txn.put(b"a", 1).unwrap();
        let save = txn.savepoint();
        (0..4).for_each(|i| assert!(txn.insert([i], 2).unwrap()));
        let outcome = if refused % 2 == 0 {
            drop(save);
            Ok(())
        } else {
            save.roll_back()
        };
        assert_eq!(outcome.map_err(|it| it.kind()), if refused % 2 == 1 && refused <= 4 { Err(ErrorKind::Memory) } else { Ok(()) });
        assert_eq!((txn.first().unwrap(), txn.range(..).count()), (Some((b"a".to_vec(), 1)), 1));
        txn.commit().unwrap();
        store.close().unwrap();
        std::env::set_var("VAH_REFUSE_CONTINUE", "0"); // what is left of the count is for no other test
        Store::open(&dir).unwrap().close().unwrap();
        std::env::remove_var("VAH_REFUSE_CONTINUE");
        std::fs::remove_dir_all(&dir).unwrap();
    }
}

#[test]
#[ignore = "over a library that refuses an insert: make -C callers test"]
fn a_name_that_is_refused_half_way_is_none() {
    let _alone = ALONE.lock().unwrap_or_else(PoisonError::into_inner);
    for refused in 1..4 {
        let dir = std::env::temp_dir().join(format!("vahondrisa-half-a-name-{}-{refused}", std::process::id()));
        let _ = std::fs::remove_dir_all(&dir);
        std::env::set_var("VAH_REFUSE_INSERT", refused.to_string());
        let store = Store::open(&dir).unwrap();
        std::env::remove_var("VAH_REFUSE_INSERT");
        assert_eq!(store.index("half").unwrap_err().kind(), ErrorKind::Memory); // one of its three entries
        assert_eq!((store.indexes().unwrap(), store.begin().unwrap().range(..).count()), (vec![], 0));
        store.blob("half").unwrap(); // the name is free
        assert_eq!(store.blobs().unwrap(), ["half"]);
        store.close().unwrap();
        std::fs::remove_dir_all(&dir).unwrap();
    }
}

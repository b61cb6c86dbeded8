//! Savepoints of a transaction.
mod folder;

use folder::Folder;
use std::collections::BTreeMap;
use vahondrisa::{Error, ErrorKind, Store, Transaction};

/// Numbers that look as if by chance.
struct Chance(u64);

impl Chance {
    fn next(&mut self, below: u64) -> u64 {
        self.0 = self.0.wrapping_mul(6364136223846793005).wrapping_add(1442695040888963407);
        (self.0 >> 33) % below
    }
}

type Model = BTreeMap<Vec<u8>, u64>;

fn entries(txn: &Transaction<'_>) -> Model {
    txn.range(..).collect::<Result<_, _>>().unwrap()
}

/// Changes within a savepoint, some of which are savepoints again; some are left, some dropped, and some returned to.
fn part(txn: &Transaction<'_>, model: &mut Model, chance: &mut Chance, depth: u32) {
    let (save, before) = (txn.savepoint(), model.clone());
    for _ in 0..chance.next(10) {
        let key = format!("{:0>200}", chance.next(40)).into_bytes();
        match chance.next(4) {
            0 => {
                let rid = chance.next(3);
                assert_eq!(txn.put(&key, rid).unwrap(), model.insert(key, rid));
            }
            1 => assert_eq!(txn.remove(&key).unwrap(), model.remove(&key).is_some()),
            2 => assert_eq!(txn.insert(&key, 7).unwrap(), !model.contains_key(&key)),
            _ if depth < 4 => part(txn, model, chance, depth + 1),
            _ => {}
        }
        // an insert of a key that is there leaves it
        *model = entries(txn);
    }
    match chance.next(3) {
        0 => return save.keep(),
        1 => drop(save),
        _ => save.roll_back().unwrap(),
    }
    *model = before;
    assert_eq!(entries(txn), *model);
}

#[test]
fn beside_a_map() {
    let dir = Folder::new("save-map");
    let mut store = Store::options().frames(8).open(&dir.0).unwrap();
    let (mut model, mut chance) = (Model::new(), Chance(3));
    for turn in 0..60 {
        let before = model.clone();
        let txn = store.begin().unwrap();
        part(&txn, &mut model, &mut chance, 0);
        part(&txn, &mut model, &mut chance, 0);
        if turn % 3 == 0 {
            txn.rollback().unwrap();
            model = before;
        } else {
            txn.commit().unwrap();
        }
        if turn % 20 == 19 {
            store.close().unwrap();
            store = Store::open(&dir.0).unwrap();
        }
        assert_eq!(entries(&store.begin().unwrap()), model);
    }
}

#[test]
fn an_attempt_that_fails_is_taken_back() {
    let dir = Folder::new("save-attempt");
    let store = Store::open(&dir.0).unwrap();
    let kept = store.write(|txn| {
        txn.put(b"a", 1)?;
        let refused = txn.attempt(|txn| {
            txn.put(b"a", 2)?;
            txn.attempt(|txn| txn.put(b"b", 3))?;
            Err::<(), Error>(txn.insert(b"", 1).unwrap_err())
        });
        assert_eq!(refused.unwrap_err().kind(), ErrorKind::KeyLength);
        assert_eq!(entries(txn), Model::from([(b"a".to_vec(), 1)]));
        assert_eq!(txn.attempt(|txn| Ok::<_, ()>(txn.put(b"c", 4).is_ok())), Ok(true)); // of any error
        txn.attempt(|txn| txn.put(b"a", 5))
    });
    assert_eq!(kept.unwrap(), Some(1));
    assert_eq!(entries(&store.begin().unwrap()), Model::from([(b"a".to_vec(), 5), (b"c".to_vec(), 4)]));
}

#[test]
fn a_panic_takes_it_back() {
    let dir = Folder::new("save-panic");
    let store = Store::open(&dir.0).unwrap();
    let txn = store.begin().unwrap();
    txn.put(b"a", 1).unwrap();
    let outcome = std::panic::catch_unwind(std::panic::AssertUnwindSafe(|| {
        let _save = txn.savepoint();
        txn.put(b"b", 2).unwrap();
        std::panic::resume_unwind(Box::new("within"));
    }));
    assert!(outcome.is_err());
    assert_eq!(entries(&txn), Model::from([(b"a".to_vec(), 1)]));
}

#[test]
fn savepoints_that_are_dropped_out_of_their_order() {
    let dir = Folder::new("save-order");
    let store = Store::open(&dir.0).unwrap();
    let txn = store.begin().unwrap();
    let outer = txn.savepoint();
    txn.put(b"a", 1).unwrap();
    let (inner, other) = (txn.savepoint(), txn.savepoint());
    txn.put(b"b", 2).unwrap();
    drop(outer);
    assert!(entries(&txn).is_empty());
    txn.put(b"c", 3).unwrap();
    txn.put(b"d", 4).unwrap();
    drop(inner); // whose number would now be that of other changes
    let error = other.roll_back().unwrap_err();
    assert_eq!(error.kind(), ErrorKind::Invalid);
    assert!(error.to_string().ends_with("the transaction has returned to an earlier savepoint"), "{error}");
    assert_eq!(entries(&txn).len(), 2);
    // one that is kept leaves those within it
    let outer = txn.savepoint();
    txn.put(b"e", 5).unwrap();
    let inner = txn.savepoint();
    txn.put(b"f", 6).unwrap();
    outer.keep();
    drop(inner);
    assert_eq!(entries(&txn).len(), 3);
    // and one that was forgotten is none
    std::mem::forget(txn.savepoint());
    txn.put(b"g", 7).unwrap();
    txn.commit().unwrap();
    assert_eq!(entries(&store.begin().unwrap()).len(), 4);
}

#[test]
fn one_that_gives_way_returns_to_nothing() {
    let dir = Folder::new("save-way");
    let store = Store::open(&dir.0).unwrap();
    let (older, younger) = (store.begin().unwrap(), store.begin().unwrap());
    older.put(b"k", 1).unwrap();
    younger.put(b"m", 1).unwrap();
    let save = younger.savepoint();
    younger.put(b"n", 1).unwrap();
    let refused = younger.attempt(|txn| txn.get(b"k"));
    assert_eq!(refused.unwrap_err().kind(), ErrorKind::GiveWay);
    assert_eq!(save.roll_back().unwrap_err().kind(), ErrorKind::GiveWay);
    drop(younger.savepoint());
    assert_eq!(younger.get(b"m").unwrap_err().kind(), ErrorKind::MustRollBack); // it was not lifted
    older.rollback().unwrap();
    let younger = younger.again().unwrap();
    assert!(entries(&younger).is_empty());
    younger.put(b"o", 1).unwrap();
    drop(younger.savepoint());
    younger.commit().unwrap();
}

#[test]
fn a_write_that_gives_way_is_made_again_whole() {
    let dir = Folder::new("save-again");
    let store = Store::open(&dir.0).unwrap();
    let meet = std::sync::Barrier::new(2);
    let (told, mut runs) = (std::sync::mpsc::channel(), 0);
    std::thread::scope(|scope| {
        let (meet, store) = (&meet, &store);
        scope.spawn(move || {
            let older = store.begin().unwrap();
            older.put(b"k", 1).unwrap();
            meet.wait();
            told.1.recv().unwrap();
            older.commit().unwrap();
        });
        meet.wait();
        store.write(|txn| {
            runs += 1;
            assert_eq!(txn.prefix(b"n").count(), 0);
            txn.put(b"n", 1)?;
            txn.attempt(|txn| {
                txn.put(b"n2", 2)?;
                let count = txn.get(b"k");
                if count.is_err() {
                    told.0.send(()).unwrap();
                }
                txn.put(b"k", count?.unwrap_or(0) + 1)
            })
        }).unwrap();
    });
    assert_eq!((runs, store.get(b"k").unwrap(), store.get(b"n2").unwrap()), (2, Some(2), Some(2)));
}

#[test]
fn long_values_within_a_part() {
    let dir = Folder::new("save-long");
    let store = Store::open(&dir.0).unwrap();
    let texts = store.blob("texts").unwrap();
    store.write(|txn| {
        texts.put(txn, b"a", &[1; 5_000])?;
        let save = txn.savepoint();
        texts.put(txn, b"a", &[2; 50_000])?;
        texts.put(txn, b"b", &[3; 700])?;
        drop(save);
        assert_eq!(texts.get(txn, b"a")?, Some(vec![1; 5_000]));
        assert_eq!(texts.get(txn, b"b")?, None);
        Ok::<_, Error>(())
    }).unwrap();
}

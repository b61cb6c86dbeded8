//! The words of a transaction, beside a map; named indexes and long values.
mod folder;

use folder::Folder;
use std::collections::BTreeMap;
use std::ops::Bound;
use vahondrisa::{Blob, ErrorKind, Index, Store};

/// Numbers that look random, the same in each run.
struct Chance(u64);

impl Chance {
    fn next(&mut self, below: u64) -> u64 {
        self.0 ^= self.0 << 13;
        self.0 ^= self.0 >> 7;
        self.0 ^= self.0 << 17;
        self.0 % below
    }
}

fn key_of(i: u64) -> Vec<u8> {
    format!("{i}").into_bytes()
}

#[test]
fn a_transaction_is_as_a_map() {
    let dir = Folder::new("map");
    let store = Store::open(&dir.0).unwrap();
    let txn = store.begin().unwrap();
    let (mut chance, mut model) = (Chance(7), BTreeMap::new());
    for _ in 0..3_000 {
        let (key, rid) = (key_of(chance.next(50)), chance.next(u64::MAX));
        match chance.next(5) {
            0 | 1 => assert_eq!(txn.put(&key, rid).unwrap(), model.insert(key, rid)),
            2 => {
                assert_eq!(txn.insert(&key, rid).unwrap(), !model.contains_key(&key));
                model.entry(key).or_insert(rid);
            }
            3 => assert_eq!(txn.remove(&key).unwrap(), model.remove(&key).is_some()),
            _ => assert_eq!(txn.get(&key).unwrap(), model.get(&key).copied()),
        }
    }
    assert!(txn.range(..).map(Result::unwrap).eq(model.clone()));
    assert_eq!(txn.first().unwrap(), model.pop_first());
    txn.commit().unwrap();
}

#[test]
fn a_key_is_all_that_is_bytes() {
    let dir = Folder::new("bytes");
    let store = Store::open(&dir.0).unwrap();
    let index = store.index("words").unwrap();
    store
        .write(|txn| {
            txn.put("apple", 1)?;
            txn.put(String::from("fig"), 2)?;
            txn.put(vec![b'p'], 3)?;
            txn.put([b'q', 0], 4)?;
            index.put(txn, "apple", 5)?;
            index.put(txn, &key_of(7), 6)
        })
        .unwrap();
    let txn = store.begin().unwrap();
    let own = |key: &str| txn.get(key.as_bytes()).unwrap();
    assert_eq!((own("apple"), own("fig"), own("p"), own("q\0"), own("plum")), (Some(1), Some(2), Some(3), Some(4), None));
    assert_eq!((index.get(&txn, b"apple").unwrap(), index.get(&txn, "7").unwrap()), (Some(5), Some(6)));
    assert_eq!(txn.prefix("ap").count(), 1);
    txn.commit().unwrap();
    // a store is asked by a transaction of its own
    assert_eq!((store.get("apple").unwrap(), store.get(b"plum").unwrap(), store.info().unwrap().active), (Some(1), None, 0));
    let nested = store.write(|txn| txn.put("apple", 8).and_then(|_| store.get("apple")));
    assert_eq!(nested.unwrap_err().kind(), ErrorKind::Deadlock);
    assert_eq!(store.get("").unwrap_err().kind(), ErrorKind::KeyLength);
}

#[test]
fn options_are_told_in_words() {
    let told = format!("{:?}", Store::options().redo_bytes(0).read_only(true));
    let wanted = "Options { frames: 1024, cache_bytes: by the file of pages, max_pages: 1000000, redo_bytes: 0, log_bytes: by the file of pages, wait_ms: 0, read_only: true }";
    assert_eq!(told, wanted);
}

/// The bounds of a range for the model, where it begins no later than it ends.
fn bound(chance: &mut Chance) -> Bound<Vec<u8>> {
    let key = key_of(chance.next(500));
    match chance.next(4) {
        0 => Bound::Unbounded,
        1 => Bound::Excluded(key),
        _ => Bound::Included(key),
    }
}

#[test]
fn ranges_from_both_ends_beside_a_list() {
    let dir = Folder::new("ends");
    let store = Store::open(&dir.0).unwrap();
    let txn = store.begin().unwrap();
    let mut chance = Chance(3);
    for i in 0..300 {
        txn.put(&key_of(chance.next(500)), i).unwrap();
    }
    txn.put(&[0xff; 255], 7).unwrap();
    let all: Vec<_> = txn.range(..).collect::<Result<_, _>>().unwrap();
    for _ in 0..400 {
        let range = (bound(&mut chance), bound(&mut chance));
        let is_in = |key: &Vec<u8>| {
            let after = match &range.0 {
                Bound::Included(from) => key >= from,
                Bound::Excluded(from) => key > from,
                Bound::Unbounded => true,
            };
            let before = match &range.1 {
                Bound::Included(to) => key <= to,
                Bound::Excluded(to) => key < to,
                Bound::Unbounded => true,
            };
            after && before
        };
        let wanted: Vec<_> = all.iter().filter(|(key, _)| is_in(key)).cloned().collect();
        let batch = chance.next(40) as usize;
        assert!(txn.range(range.clone()).batch(batch).map(Result::unwrap).eq(wanted.iter().cloned()), "{range:?}");
        // in turns that chance chooses
        let (mut found, mut from, mut to) = (txn.range(range.clone()).batch(batch), 0, wanted.len());
        let turns = chance.next(8);
        loop {
            if chance.next(10) < turns {
                assert_eq!(found.next().transpose().unwrap(), wanted[from..to].first().cloned(), "{range:?}");
                from = to.min(from + 1);
            } else {
                assert_eq!(found.next_back().transpose().unwrap(), wanted[from..to].last().cloned(), "{range:?}");
                to = from.max(to.saturating_sub(1));
            }
            if from == to && chance.next(2) == 0 {
                break;
            }
        }
        assert!(found.next().is_none() && found.next_back().is_none() && found.next().is_none());
    }
    assert_eq!(txn.last().unwrap(), all.last().cloned());
    assert_eq!(txn.prev(&all[9].0).unwrap(), Some(all[8].clone()));
    assert_eq!(txn.prev(&all[0].0).unwrap(), None);
    assert_eq!(txn.range(..).last().transpose().unwrap(), all.last().cloned());
    let wanted: Vec<_> = all.iter().filter(|(key, _)| key.starts_with(b"12")).rev().cloned().collect();
    assert!(txn.prefix(b"12").rev().map(Result::unwrap).eq(wanted));
    let mut refused = txn.range(""..="").rev();
    assert_eq!(refused.next().unwrap().unwrap_err().kind(), ErrorKind::KeyLength);
    assert!(refused.next().is_none());
    for refused in [txn.range(vec![1; 256]..), txn.range(..vec![1; 256]), txn.range(""..)] {
        let mut refused = refused;
        assert_eq!(refused.next().unwrap().unwrap_err().kind(), ErrorKind::KeyLength);
        assert!(refused.next().is_none() && refused.next_back().is_none());
    }
    txn.commit().unwrap();
}

#[test]
fn indexes_have_keys_of_their_own() {
    let dir = Folder::new("indexes");
    let store = Store::open(&dir.0).unwrap();
    let names = ["a", "by_city", "by_citz", "ééé", "bbbbbbbbbbbbbbbbbbbbbbbbbbbbbbb"];
    let indexes: Vec<Index> = names.iter().map(|it| store.index(it).unwrap()).collect();
    let mut models = vec![BTreeMap::new(); names.len()];
    let mut chance = Chance(1);
    store.write(|txn| {
        txn.put(b"zebra", 1)?; // beside all of them
        for _ in 0..2_000 {
            let at = chance.next(names.len() as u64) as usize;
            let longest = vec![0xff; 253 - names[at].len()];
            let key = [vec![0], vec![0xff], longest, key_of(chance.next(300))][chance.next(4) as usize].clone();
            let rid = chance.next(u64::MAX);
            match chance.next(4) {
                0 => assert_eq!(indexes[at].remove(txn, &key)?, models[at].remove(&key).is_some()),
                1 => {
                    assert_eq!(indexes[at].insert(txn, &key, rid)?, !models[at].contains_key(&key));
                    models[at].entry(key).or_insert(rid);
                }
                _ => assert_eq!(indexes[at].put(txn, &key, rid)?, models[at].insert(key, rid)),
            }
        }
        Ok::<_, vahondrisa::Error>(())
    }).unwrap();
    store.close().unwrap();
    let store = Store::open(&dir.0).unwrap();
    let mut sorted = names.to_vec();
    sorted.sort_unstable();
    assert_eq!(store.indexes().unwrap(), sorted);
    let indexes: Vec<Index> = names.iter().map(|it| store.index(it).unwrap()).collect();
    let txn = store.begin().unwrap();
    for (index, model) in indexes.iter().zip(&models) {
        assert!(index.range(&txn, ..).map(Result::unwrap).eq(model.clone()));
        let from_1: Vec<_> = model.range(b"1".to_vec()..b"3".to_vec()).map(|(key, rid)| (key.clone(), *rid)).collect();
        assert!(index.range(&txn, "1".."3").batch(5).map(Result::unwrap).eq(from_1.clone()));
        assert!(index.range(&txn, (Bound::Excluded("1"), Bound::Included("2"))).all(|it| it.unwrap().0 > b"1".to_vec()));
        for prefix in [b"".as_slice(), b"1", b"\xff"] {
            let wanted = model.iter().filter(|(key, _)| key.starts_with(prefix)).map(|(key, rid)| (key.clone(), *rid));
            assert!(index.prefix(&txn, prefix).map(Result::unwrap).eq(wanted));
        }
        let first = model.iter().next().map(|(key, rid)| (key.clone(), *rid));
        let last = model.iter().next_back().map(|(key, rid)| (key.clone(), *rid)).unwrap();
        assert_eq!((index.first(&txn).unwrap(), index.seek(&txn, b"\0").unwrap()), (first.clone(), first));
        assert_eq!((index.get(&txn, &last.0).unwrap(), index.next(&txn, &last.0).unwrap()), (Some(last.1), None));
        assert!(index.range(&txn, ..).rev().map(Result::unwrap).eq(model.clone().into_iter().rev()));
        assert_eq!((index.last(&txn).unwrap(), index.prev(&txn, b"\0").unwrap()), (Some(last), None));
    }
    assert_eq!(txn.get(b"zebra").unwrap(), Some(1));
    txn.commit().unwrap();
}

#[test]
fn names_and_keys_that_are_refused() {
    let (dir, other) = (Folder::new("names"), Folder::new("names-other"));
    let (store, other) = (Store::open(&dir.0).unwrap(), Store::open(&other.0).unwrap());
    let (by_city, texts) = (store.index("by_city").unwrap(), store.blob("texts").unwrap());
    assert_eq!((by_city.name(), texts.name(), store.blobs().unwrap()), ("by_city", "texts", vec!["texts".to_string()]));
    for name in ["", "bbbbbbbbbbbbbbbbbbbbbbbbbbbbbbbb", "texts"] {
        assert_eq!(store.index(name).unwrap_err().kind(), ErrorKind::Invalid);
    }
    assert_eq!(store.blob("by_city").unwrap_err().kind(), ErrorKind::Invalid);
    let (txn, foreign) = (store.begin().unwrap(), other.begin().unwrap());
    assert_eq!(by_city.get(&foreign, b"a").unwrap_err().kind(), ErrorKind::Invalid);
    assert_eq!(by_city.range(&foreign, ..).next().unwrap().unwrap_err().kind(), ErrorKind::Invalid);
    assert_eq!(texts.get(&foreign, b"a").unwrap_err().kind(), ErrorKind::Invalid);
    assert_eq!(texts.keys(&foreign).next().unwrap().unwrap_err().kind(), ErrorKind::Invalid);
    for key in [vec![], vec![1; 247]] {
        let errors = [
            by_city.get(&txn, &key).unwrap_err(),
            by_city.put(&txn, &key, 1).unwrap_err(),
            by_city.seek(&txn, &key).unwrap_err(),
            by_city.range(&txn, key.as_slice()..).next().unwrap().unwrap_err(),
            by_city.range(&txn, ..key.as_slice()).next().unwrap().unwrap_err(),
        ];
        assert!(errors.iter().all(|it| it.kind() == ErrorKind::KeyLength));
    }
    assert_eq!(by_city.prefix(&txn, &[1; 247]).next().unwrap().unwrap_err().kind(), ErrorKind::KeyLength);
    assert_eq!(by_city.get(&txn, &[1; 246]).unwrap(), None);
    for key in [vec![], vec![1; 213], vec![0; 107]] {
        assert_eq!(texts.put(&txn, &key, b"a").unwrap_err().kind(), ErrorKind::KeyLength);
    }
    assert_eq!(texts.get(&txn, &[1; 212]).unwrap(), None);
}

#[test]
fn neighbours_do_not_wait_for_each_other() {
    let dir = Folder::new("neighbours");
    let store = Store::open(&dir.0).unwrap();
    let (one, two) = (store.index("1").unwrap(), store.index("2").unwrap());
    store.write(|txn| two.put(txn, b"\0", 1)).unwrap();
    let (older, younger) = (store.try_begin().unwrap(), store.try_begin().unwrap());
    two.put(&older, b"\0\0", 2).unwrap(); // locks the first key of the second index
    one.put(&younger, b"z", 3).unwrap(); // and this the guard of the first
    assert_eq!(one.range(&younger, ..).count(), 1);
    older.commit().unwrap();
    younger.commit().unwrap();
}

fn check_values(txn: &vahondrisa::Transaction<'_>, texts: &Blob, model: &BTreeMap<Vec<u8>, Vec<u8>>, keys: &[&[u8]]) {
    assert!(texts.keys(txn).map(Result::unwrap).eq(model.keys().cloned()));
    for key in keys {
        assert_eq!(texts.get(txn, key).unwrap().as_ref(), model.get(*key));
        assert_eq!(texts.len(txn, key).unwrap(), model.get(*key).map(|it| it.len() as u64));
    }
}

#[test]
fn long_values() {
    let dir = Folder::new("values");
    let store = Store::open(&dir.0).unwrap();
    let texts = store.blob("texts").unwrap();
    let keys: [&[u8]; 8] = [b"a", b"a\0", b"a\0\0b", b"a\0\xff", b"a\xff", b"\0", &[0xff; 100], b"a\x01"];
    let (mut chance, mut model) = (Chance(9), BTreeMap::new());
    for _ in 0..40 {
        let txn = store.begin().unwrap();
        for _ in 0..4 {
            let key = keys[chance.next(8) as usize];
            let len = [0, 1, 200, 236, 237, 238, 5_000][chance.next(7) as usize];
            let value: Vec<u8> = (0..len).map(|_| chance.next(256) as u8).collect();
            if chance.next(4) > 0 {
                assert_eq!(texts.put(&txn, key, &value).unwrap(), model.insert(key.to_vec(), value).is_some());
            } else {
                assert_eq!(texts.remove(&txn, key).unwrap(), model.remove(key).is_some());
            }
        }
        check_values(&txn, &texts, &model, &keys);
        txn.commit().unwrap();
    }
    store.close().unwrap();
    let store = Store::open(&dir.0).unwrap();
    let texts = store.blob("texts").unwrap();
    let txn = store.begin().unwrap();
    check_values(&txn, &texts, &model, &keys);
    // rolled back it is as it was
    texts.put(&txn, b"a", &[1; 9_000]).unwrap();
    txn.rollback().unwrap();
    let txn = store.begin().unwrap();
    check_values(&txn, &texts, &model, &keys);
    for key in model.keys() {
        assert!(texts.remove(&txn, key).unwrap());
    }
    // all that is left are the row and the two guards
    assert_eq!(txn.range(..).count(), 3);
    // a part that is gone is told
    texts.put(&txn, b"a", &[1; 1_000]).unwrap();
    let parts: Vec<_> = txn.prefix(b"\x05texts").map(|it| it.unwrap().0).collect();
    // (after the last one is the guard)
    for part in [&parts[0], &parts[2], &parts[parts.len() - 2]] {
        let rid = txn.get(part).unwrap().unwrap();
        assert!(txn.remove(part).unwrap());
        assert_eq!(texts.get(&txn, b"a").unwrap_err().kind(), ErrorKind::Invalid);
        let mut moved = part.clone(); // as a later part
        moved[8] = 1;
        txn.put(&moved, rid).unwrap();
        assert_eq!(texts.get(&txn, b"a").unwrap_err().kind(), ErrorKind::Invalid);
        assert!(txn.remove(&moved).unwrap());
        txn.put(part, rid).unwrap();
    }
    assert_eq!(texts.get(&txn, b"a").unwrap(), Some(vec![1; 1_000]));
    txn.rollback().unwrap();
}

#[test]
fn a_value_that_is_refused_half_way_is_not_kept_half() {
    let dir = Folder::new("half");
    let store = Store::open(&dir.0).unwrap();
    let texts = store.blob("b").unwrap();
    store.write(|txn| texts.put(txn, b"a", &[1; 700])).unwrap();
    // a younger transaction holds what lies after all parts: so one of the old parts is not taken out, when others were
    let (older, younger) = (store.try_begin().unwrap(), store.begin().unwrap());
    assert_eq!(younger.get(b"\x01bz").unwrap(), None);
    assert_eq!(texts.put(&older, b"a", &[2; 3_000]).unwrap_err().kind(), ErrorKind::Busy);
    assert_eq!(texts.get(&older, b"a").unwrap(), Some(vec![1; 700]));
    assert_eq!(texts.remove(&older, b"a").unwrap_err().kind(), ErrorKind::Busy);
    assert_eq!(texts.get(&older, b"a").unwrap(), Some(vec![1; 700]));
    older.put(b"other", 1).unwrap();
    older.commit().unwrap();
    younger.commit().unwrap();
    assert_eq!(texts.get(&store.begin().unwrap(), b"a").unwrap(), Some(vec![1; 700]));
}

#[test]
fn a_value_is_taken_back_whatever_others_hold() {
    let dir = Folder::new("taken-back");
    let store = Store::open(&dir.0).unwrap();
    let texts = store.blob("b").unwrap();
    // the younger one comes between two parts, and holds what lies after them, so that a delete of one would wait too
    let mut taken_back = 0;
    for round in 0..200 {
        let (older, younger) = (store.try_begin().unwrap(), store.begin().unwrap());
        let meet = std::sync::Barrier::new(2);
        let (put, younger) = std::thread::scope(|scope| {
            let other = scope.spawn(|| {
                meet.wait();
                std::thread::sleep(std::time::Duration::from_micros(round % 20 * 100));
                younger.get(b"\x01bz").map(|_| younger)
            });
            meet.wait();
            (texts.put(&older, b"a", &[2; 100_000]), other.join().unwrap())
        });
        drop(younger);
        let there = older.range(&b"\x01ba"[..]..&b"\x01bb"[..]).count();
        let outcome = older.commit();
        match put {
            Ok(was_there) => assert!(!was_there && there > 400 && outcome.is_ok()),
            Err(it) => {
                assert!(it.kind() == ErrorKind::Busy && there == 0 && outcome.is_ok());
                taken_back += 1;
            }
        }
        let value = store.write(|txn| texts.get(txn, b"a").and_then(|it| texts.remove(txn, b"a").map(|_| it))).unwrap();
        assert!(value.is_none() || value.unwrap().len() == 100_000);
        if taken_back == 10 {
            return;
        }
    }
    panic!("{taken_back} values were taken back");
}

#[test]
fn all_languages_make_the_same_entries() {
    // as callers/c/tests/recipes.c and callers/python/tests/test_named.py: each entry's key and row id in an FNV-1a hash
    let dir = Folder::new("same");
    let store = Store::open(&dir.0).unwrap();
    let value: Vec<u8> = (0..100_000usize).map(|i| (i * 7 + i / 256) as u8).collect();
    let (by_city, notes) = (store.index("by_city").unwrap(), store.blob("notes").unwrap());
    let txn = store.begin().unwrap();
    by_city.put(&txn, b"oslo", 7).unwrap();
    by_city.put(&txn, b"rome", 8).unwrap();
    for (key, len) in [(b"a".as_slice(), 0), (b"a\0", 300), (b"a\0b", 100_000), (b"b", 240)] {
        assert!(!notes.put(&txn, key, &value[..len]).unwrap());
    }
    let (mut hash, mut count) = (0xcbf2_9ce4_8422_2325_u64, 0);
    for entry in txn.range(..) {
        let (key, rid) = entry.unwrap();
        for byte in key.into_iter().chain(rid.to_le_bytes()) {
            hash = (hash ^ u64::from(byte)).wrapping_mul(0x0100_0000_01b3);
        }
        count += 1;
    }
    assert_eq!((count, hash), (428, 0xa228_3477_b801_0e86));
    txn.commit().unwrap();
}

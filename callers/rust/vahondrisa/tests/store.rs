mod folder;

use folder::Folder;
use vahondrisa::{ErrorKind, Options, Store};

#[test]
fn keys_are_there_when_opened_again() {
    let dir = Folder::new("again");
    let store = Store::open(&dir.0).unwrap();
    store.write(|txn| (0..1000u64).try_for_each(|i| txn.insert(&i.to_be_bytes(), i * i).map(drop))).unwrap();
    store.close().unwrap();
    let store = Store::open(&dir.0).unwrap();
    let txn = store.begin().unwrap();
    let all: Vec<_> = txn.range(..).collect::<Result<_, _>>().unwrap();
    assert_eq!(all, (0..1000u64).map(|i| (i.to_be_bytes().to_vec(), i * i)).collect::<Vec<_>>());
    assert_eq!(txn.seek(&500u64.to_be_bytes()).unwrap().unwrap().1, 250_000);
    txn.commit().unwrap();
}

#[test]
fn a_dropped_transaction_is_rolled_back() {
    let dir = Folder::new("drop");
    let store = Store::open(&dir.0).unwrap();
    store.write(|txn| txn.insert(b"a", 1)).unwrap();
    let txn = store.begin().unwrap();
    assert!(txn.remove(b"a").unwrap());
    assert!(txn.insert(b"b", 2).unwrap());
    drop(txn);
    let txn = store.begin().unwrap();
    assert_eq!((txn.get(b"a").unwrap(), txn.get(b"b").unwrap()), (Some(1), None));
}

#[test]
fn a_switch_is_made_where_nothing_is_active() {
    let dir = Folder::new("switch");
    let store = Store::options().log_bytes(1 << 20).open(&dir.0).unwrap();
    let txn = store.begin().unwrap();
    assert!(txn.insert(b"a", 1).unwrap());
    assert!(!store.switch().unwrap());
    txn.commit().unwrap();
    assert!(store.switch().unwrap());
    store.close().unwrap();
    let store = Store::open(&dir.0).unwrap();
    let txn = store.begin().unwrap();
    assert_eq!(txn.get(b"a").unwrap(), Some(1));
}

#[test]
fn a_larger_cache_reads_no_page_again() {
    let dir = Folder::new("cache");
    let key = |i: u32| [i.to_be_bytes(); 50].concat();
    let store = Store::options().frames(8).open(&dir.0).unwrap();
    store.write(|txn| (0..1000).try_for_each(|i| txn.put(&key(i), i.into()).map(drop))).unwrap();
    store.close().unwrap();
    let read_again = |options: Options| {
        let store = options.frames(8).open(&dir.0).unwrap();
        let reads = [(); 2].map(|()| {
            let txn = store.begin().unwrap();
            assert!((0..1000).all(|i| txn.get(&key(i)).unwrap() == Some(i.into())));
            txn.commit().unwrap();
            store.info().unwrap().page_reads
        });
        store.close().unwrap();
        reads[1] - reads[0]
    };
    assert!(read_again(Store::options().cache_bytes(0)) > 50);
    assert_eq!((read_again(Store::options()), read_again(Store::options().cache_bytes(1 << 20))), (0, 0));
}

#[test]
fn each_number_of_how_a_store_stands() {
    let dir = Folder::new("numbers");
    let store = Store::options().frames(8).open(&dir.0).unwrap();
    for i in 0..20u8 {
        store.write(|txn| txn.put(&[i + 1], i.into())).unwrap();
    }
    let (older, younger) = (store.begin().unwrap(), store.begin().unwrap());
    older.put(&[1], 5).unwrap();
    assert_eq!(younger.get(&[1]).unwrap_err().kind(), ErrorKind::GiveWay);
    older.commit().unwrap();
    let active = [younger.again().unwrap(), store.begin().unwrap(), store.begin().unwrap()];
    let info = store.info().unwrap();
    assert_eq!((info.active, info.redo_from, info.redone, info.has_failed, info.restarts), (3, 0, 0, false, 1));
    assert_eq!((info.waits, info.forces, info.page_reads, info.page_writes), (0, 21, 0, 0));
    assert!((1..=2).contains(&info.dirty_pages) && (1_000..9_000).contains(&info.durable_end), "{info:?}");
    assert!((22..900).contains(&info.syncs) && (10_000..90_000).contains(&info.log_bytes), "{info:?}");
    drop(active);
    assert!(store.switch().unwrap());
    let info = store.info().unwrap();
    assert_eq!((info.active, info.dirty_pages, info.restarts, info.page_reads, info.has_failed), (0, 0, 1, 0, false));
    assert!(info.page_writes > 0);
    store.close().unwrap();
    let store = Store::open(&dir.0).unwrap();
    assert_eq!(store.write(|txn| txn.get(&[1])).unwrap(), Some(5));
    let info = store.info().unwrap();
    assert!(info.page_reads > 0 && (info.page_writes, info.syncs) == (0, 0), "{info:?}");
}

#[test]
fn refusals_have_their_kinds() {
    let dir = Folder::new("refusals");
    let store = Store::open(&dir.0).unwrap();
    assert_eq!(Store::open(&dir.0).err().unwrap().kind(), ErrorKind::Locked);
    let txn = store.begin().unwrap();
    for key in [&[][..], &[1; 256]] {
        let errors = [
            txn.insert(key, 1).unwrap_err(),
            txn.get(key).unwrap_err(),
            txn.remove(key).unwrap_err(),
            txn.seek(key).unwrap_err(),
            txn.next(key).unwrap_err(),
            txn.range(key..=b"a").next().unwrap().unwrap_err(),
            txn.range(&b"a"[..]..=key).next().unwrap().unwrap_err(),
        ];
        assert!(errors.iter().all(|it| it.kind() == ErrorKind::KeyLength));
    }
    assert!(txn.insert(b"a", 1).unwrap());
    assert!(!txn.insert(b"a", 2).unwrap());
    let younger = store.begin().unwrap();
    let error = younger.get(b"a").unwrap_err();
    assert_eq!(error.kind(), ErrorKind::GiveWay);
    assert_eq!(younger.commit().unwrap_err().kind(), ErrorKind::MustRollBack);
    txn.commit().unwrap();
    assert_eq!(Store::options().frames(7).open(dir.0.join("x")).err().unwrap().kind(), ErrorKind::PoolSize);
    let error = Store::options().cache_bytes(1 << 30).open(dir.0.join("x")).err().unwrap();
    assert!(error.kind() == ErrorKind::PoolSize && error.to_string().contains("cache_bytes"), "{error}");
    assert_eq!(Store::open("/proc/none/here").err().unwrap().kind(), ErrorKind::Device);
}

#[test]
fn threads_count_to_the_sum() {
    let dir = Folder::new("threads");
    let store = Store::open(&dir.0).unwrap();
    store.write(|txn| txn.insert(b"count", 0)).unwrap();
    std::thread::scope(|scope| {
        for _ in 0..4 {
            scope.spawn(|| {
                for _ in 0..100 {
                    store.write(|txn| {
                        let n = txn.get(b"count")?.unwrap();
                        txn.put(b"count", n + 1)
                    }).unwrap();
                }
            });
        }
    });
    assert_eq!(store.begin().unwrap().get(b"count").unwrap(), Some(400));
    assert_eq!(store.info().unwrap().active, 0);
}

#[test]
fn a_range_goes_on_past_256_entries() {
    let dir = Folder::new("range");
    let store = Store::open(&dir.0).unwrap();
    store.write(|txn| (0..256u64 * 3).try_for_each(|i| txn.insert(&i.to_be_bytes(), i).map(drop))).unwrap();
    let txn = store.begin().unwrap();
    for (from, to) in [(0u64, 767u64), (0, 255), (0, 256), (1, 256), (0, 511), (0, 512), (5, 5), (9, 3)] {
        let found: Vec<u64> = txn.range(from.to_be_bytes()..=to.to_be_bytes()).map(|it| it.unwrap().1).collect();
        assert_eq!(found, (from..=to).collect::<Vec<_>>());
        for batch in [0, 2, 3, 255] {
            let range = txn.range(from.to_be_bytes()..=to.to_be_bytes()).batch(batch);
            assert!(range.map(|it| it.unwrap().1).eq(from..=to), "{batch}");
        }
    }
    assert_eq!(txn.next(&766u64.to_be_bytes()).unwrap().unwrap().1, 767);
    assert!(txn.next(&767u64.to_be_bytes()).unwrap().is_none());
    assert!(txn.range(""..="a").next().unwrap().is_err());
}

#[test]
fn the_recipes_of_callers() {
    let dir = Folder::new("recipes");
    let store = Store::open(&dir.0).unwrap();
    let txn = store.begin().unwrap();
    // a prefix, and the count of a range
    for i in 0..700u64 {
        txn.insert(format!("user{i}").as_bytes(), i).unwrap();
    }
    let first: Vec<_> = txn.prefix(b"user12").take(3).map(|it| String::from_utf8(it.unwrap().0).unwrap()).collect();
    assert_eq!(first, ["user12", "user120", "user121"]);
    assert_eq!((txn.prefix(b"user12").count(), txn.prefix(b"user").count(), txn.prefix(b"").count()), (11, 700, 700));
    // two indexes in one store, each by a first byte; and keys that are not unique, by the row at their end
    let with_row = |city: &str, row: u64| [&[2], city.as_bytes(), &[0], &row.to_be_bytes()[..]].concat();
    for (row, city) in (0u64..).zip(["oslo", "rome", "oslo", "oslo"]) {
        txn.insert(&[1, b'a' + row as u8], row).unwrap();
        txn.insert(&with_row(city, row), row).unwrap();
    }
    let rows: Vec<_> = txn.range(with_row("oslo", 0)..=with_row("oslo", u64::MAX)).map(|it| it.unwrap().1).collect();
    assert_eq!((rows, txn.prefix(&[1]).count()), (vec![0, 2, 3], 4));
    txn.commit().unwrap();
}

#[test]
fn an_error_says_why() {
    let dir = Folder::new("why");
    let store = Store::open(&dir.0).unwrap();
    let error = Store::open(&dir.0).unwrap_err();
    assert!(error.to_string().ends_with("the store is open elsewhere") && error.to_string().starts_with(dir.0.to_str().unwrap()));
    let error = Store::open("/proc/none/here").unwrap_err();
    let source = std::error::Error::source(&error).unwrap().downcast_ref::<std::io::Error>().unwrap();
    assert_eq!(source.kind(), std::io::ErrorKind::NotFound);
    let error = Store::open("a\0b").unwrap_err();
    assert_eq!(error.kind(), ErrorKind::Invalid);
    assert!(std::error::Error::source(&error).is_some());
    let (old, young) = (store.try_begin().unwrap(), store.begin().unwrap());
    young.insert(b"k", 1).unwrap();
    assert_eq!(old.get(b"k").unwrap_err().kind(), ErrorKind::Busy);
    young.commit().unwrap();
    assert_eq!(old.get(b"k").unwrap(), Some(1));
}

#[test]
fn a_body_that_fails_is_rolled_back() {
    let dir = Folder::new("body");
    let store = Store::open(&dir.0).unwrap();
    let failed: vahondrisa::Result<()> = store.write(|txn| {
        txn.insert(b"a", 1)?;
        txn.insert(b"", 1).map(drop)
    });
    assert_eq!(failed.unwrap_err().kind(), ErrorKind::KeyLength);
    let panicked = std::panic::catch_unwind(std::panic::AssertUnwindSafe(|| store.write(|txn| txn.insert(b"a", 1).map(|_| panic!("on purpose")))));
    assert!(panicked.is_err());
    assert_eq!(store.info().unwrap().active, 0);
    assert_eq!(store.begin().unwrap().get(b"a").unwrap(), None);
}

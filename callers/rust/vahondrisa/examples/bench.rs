//! The same work as callers/bench/bench.c. bench FOLDER THREADS
use std::time::Instant;
use vahondrisa::{Result, Store};

const KEYS: u64 = 20_032;
const COMMITS: u64 = 1_600;
const READS: u64 = 200_000;
const SCANS: u64 = 1_600;

fn mix(x: u64) -> [u8; 8] {
    let x = x.wrapping_add(0x9e37_79b9_7f4a_7c15);
    let x = (x ^ x >> 30).wrapping_mul(0xbf58_476d_1ce4_e5b9);
    let x = (x ^ x >> 27).wrapping_mul(0x94d0_49bb_1331_11eb);
    (x ^ x >> 31).to_le_bytes()
}

/// The seconds of processor of all threads so far, of those too that have ended.
fn processor() -> f64 {
    #[repr(C)]
    struct Time {
        seconds: i64,
        nanos: i64,
    }
    extern "C" {
        fn clock_gettime(clock: i32, at: *mut Time) -> i32;
    }
    let mut at = Time { seconds: 0, nanos: 0 };
    // SAFETY: clock 2, CLOCK_PROCESS_CPUTIME_ID, is written to what lives over the call.
    assert_eq!(unsafe { clock_gettime(2, &mut at) }, 0);
    at.seconds as f64 + at.nanos as f64 / 1e9
}

/// Work that each of so many threads does its part of, from its number on.
fn timed(what: &str, count: u64, threads: u64, work: impl Fn(u64) -> Result<()> + Sync) -> Result<()> {
    let (start, before) = (Instant::now(), processor());
    std::thread::scope(|scope| {
        let all: Vec<_> = (0..threads).map(|it| scope.spawn({ let work = &work; move || work(it) })).collect();
        all.into_iter().try_for_each(|it| it.join().unwrap())
    })?;
    let (seconds, processor) = (start.elapsed().as_secs_f64(), processor() - before);
    println!("rust vah {threads} {what}: {:.0} a second, {:.2} us of processor", count as f64 / seconds, processor / count as f64 * 1e6);
    Ok(())
}

fn main() -> Result<()> {
    let mut words = std::env::args().skip(1);
    let store = Store::open(words.next().expect("a folder"))?;
    let threads: u64 = words.next().map_or(1, |it| it.parse().expect("how many threads"));
    let part = |from: u64, each: u64, count: u64| (from * each..count).step_by((each * threads) as usize);
    timed("inserts, 64 a commit", KEYS, threads, |it| {
        part(it, 64, KEYS).try_for_each(|i| store.write(|txn| (i..i + 64).try_for_each(|j| txn.insert(&mix(j), j).map(drop))))
    })?;
    timed("inserts, 1 a commit", COMMITS, threads, |it| {
        part(it, 1, COMMITS).try_for_each(|i| store.write(|txn| txn.insert(&mix(1_000_000 + i), i).map(drop)))
    })?;
    timed("look-ups, 100 a transaction", READS, threads, |it| {
        part(it, 100, READS).try_for_each(|i| {
            let txn = store.begin()?;
            for j in i..i + 100 {
                let wanted = u64::from_le_bytes(mix(j * 7)) % KEYS;
                assert_eq!(txn.get(&mix(wanted))?, Some(wanted));
            }
            txn.commit()
        })
    })?;
    timed("scans of 100", SCANS, threads, |it| {
        part(it, 1, SCANS).try_for_each(|i| {
            let txn = store.begin()?;
            for entry in txn.range(mix(i)..=[255; 8]).batch(100).take(100) {
                entry?;
            }
            txn.commit()
        })
    })?;
    let info = store.info()?;
    println!("rust vah {threads} in all: {} restarts, {} waits", info.restarts, info.waits);
    store.close()
}

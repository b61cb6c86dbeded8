//! Kills: what was committed is there. A full disk: the first error is told. (In a program of its own: a child that is not yet its own program has the lock of each store that is open in
//! another thread of this one.)
mod folder;

use folder::Folder;
use vahondrisa::Store;

/// Run as a child by the test below: commits ten keys with the number of each turn, and says so.
#[test]
#[ignore = "a child of a_kill_keeps_what_was_committed"]
fn commits_until_it_is_killed() {
    use std::io::Write;
    let store = Store::open(std::env::var_os("VAHONDRISA_KILLED").unwrap()).unwrap();
    for turn in 0u64.. {
        store.write(|txn| (0..10).try_for_each(|j| txn.insert(format!("{turn}.{j}").as_bytes(), turn).map(drop))).unwrap();
        let mut out = std::io::stdout();
        writeln!(out, "\ncommitted {turn}").and_then(|()| out.flush()).unwrap();
    }
}

#[test]
fn a_kill_keeps_what_was_committed() {
    use std::io::{BufRead, BufReader};
    for turns in [1, 7, 30] {
        let dir = Folder::new(&format!("kill{turns}"));
        let mut child = std::process::Command::new(std::env::current_exe().unwrap())
            .args(["--ignored", "--exact", "--nocapture", "commits_until_it_is_killed"])
            .env("VAHONDRISA_KILLED", &dir.0)
            .stdout(std::process::Stdio::piped())
            .spawn()
            .unwrap();
        let mut last = 0;
        let mut lines = BufReader::new(child.stdout.take().unwrap()).lines();
        let turn_of = |line: &str| line.strip_prefix("committed ").and_then(|it| it.parse::<u64>().ok());
        while last < turns {
            last = turn_of(&lines.next().unwrap().unwrap()).unwrap_or(last);
        }
        child.kill().unwrap();
        last = lines.filter_map(|it| turn_of(&it.ok()?)).max().unwrap_or(last);
        child.wait().unwrap();
        let store = Store::open(&dir.0).unwrap();
        let txn = store.begin().unwrap();
        let mut counts = std::collections::BTreeMap::new();
        for entry in txn.prefix(b"") {
            *counts.entry(entry.unwrap().1).or_insert(0) += 1;
        }
        assert!(counts.values().all(|it| *it == 10));
        assert!((0..=last).all(|it| counts.contains_key(&it)));
        assert!(counts.len() as u64 <= last + 2);
    }
}

/// Run as a child by the test below, whose files may not grow: the body of a write fails, and so does its rollback.
#[test]
#[ignore = "a child of the_error_of_a_rollback_does_not_hide_the_first"]
fn fails_with_an_error_of_its_own() {
    let store = Store::options().frames(8).open(std::env::var_os("VAHONDRISA_FULL").unwrap()).unwrap();
    let outcome: std::io::Result<()> = store.write(|txn| {
        let full = (0..100_000u64).find_map(|i| txn.put(&[i.to_be_bytes(); 25].concat(), i).err());
        assert_eq!(full.unwrap().kind(), vahondrisa::ErrorKind::Device);
        Err(std::io::Error::from(std::io::ErrorKind::NotFound))
    });
    assert_eq!(outcome.unwrap_err().kind(), std::io::ErrorKind::NotFound);
    assert!(store.info().unwrap().has_failed);
}

#[test]
fn the_error_of_a_rollback_does_not_hide_the_first() {
    let dir = Folder::new("full");
    let ran = std::process::Command::new("sh")
        .args(["-c", "trap '' XFSZ; ulimit -f 1000; exec \"$0\" --ignored --exact fails_with_an_error_of_its_own"])
        .arg(std::env::current_exe().unwrap())
        .env("VAHONDRISA_FULL", &dir.0)
        .output()
        .unwrap();
    assert!(ran.status.success() && String::from_utf8_lossy(&ran.stdout).contains("1 passed"), "{ran:?}");
}

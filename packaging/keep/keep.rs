//! keep DIR: the first time it commits a key and is killed; the second time it finds the key.
use std::{env, process};

fn main() -> vahondrisa::Result<()> {
    let store = vahondrisa::Store::open(env::args().nth(1).expect("a folder"))?;
    let txn = store.begin()?;
    if let Some(row) = txn.get(b"apple")? {
        println!("apple {row}");
        return txn.commit();
    }
    txn.insert(b"apple", 7)?;
    txn.commit()?;
    let _ = process::Command::new("kill").args(["-9", &process::id().to_string()]).status();
    unreachable!("the process was killed")
}

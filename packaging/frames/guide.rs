//! What the fragments in Rust of docs/GUIDE.md stand in.
#![allow(unused)]
use vahondrisa::Store;

fn block(store: &vahondrisa::Store, txn: &vahondrisa::Transaction, id: &[u8], city: &[u8], row: u64, entries: Vec<(&'static [u8], u64)>) -> Result<(), Box<dyn std::error::Error>> {
    // @block@
    Ok(())
}

fn main() {}

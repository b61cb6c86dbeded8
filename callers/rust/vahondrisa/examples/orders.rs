//! Orders by number and by customer, two indexes that one transaction changes together, and a copy of the store: orders [FOLDER]
use std::path::Path;
use vahondrisa::{Index, Result, Store, Transaction};

/// What the program knows of the store: its indexes, each by its name.
struct Orders {
    by_number: Index,
    by_customer: Index,
}

impl Orders {
    fn of(store: &Store) -> Result<Orders> {
        Ok(Orders { by_number: store.index("by_number")?, by_customer: store.index("by_customer")? })
    }

    /// Puts an order into both indexes. A number has 8 bytes, the highest first, so that keys are in the order of numbers; a customer's key ends with it, as one
    /// customer has many.
    fn place(&self, txn: &Transaction<'_>, number: u64, customer: &str, row: u64) -> Result<()> {
        self.by_number.put(txn, number.to_be_bytes(), row)?;
        self.by_customer.put(txn, key_of(customer, number), row)?;
        Ok(())
    }

    /// The rows of a customer's orders, in the order of their numbers.
    fn rows_of(&self, txn: &Transaction<'_>, customer: &str) -> Result<Vec<u64>> {
        self.by_customer.prefix(txn, format!("{customer}\0")).map(|entry| Ok(entry?.1)).collect()
    }
}

fn key_of(customer: &str, number: u64) -> Vec<u8> {
    [customer.as_bytes(), &[0], &number.to_be_bytes()].concat()
}

/// Four threads place orders; then the rows of one customer, and how many orders a copy of the store has.
pub fn run(folder: &Path) -> Result<(Vec<u64>, usize)> {
    let store = Store::open(folder)?;
    let orders = Orders::of(&store)?;
    std::thread::scope(|scope| {
        let threads: Vec<_> = ["ada", "emmy", "grace", "sofia"]
            .into_iter()
            .zip(0u64..)
            .map(|(customer, thread)| {
                let (store, orders) = (&store, &orders);
                // each order is there whole or not at all; where it has to give way to an older transaction it is placed again
                scope.spawn(move || (0..10).try_for_each(|n| store.write(|txn| orders.place(txn, 4 * n + thread, customer, 1_000 + n))))
            })
            .collect();
        threads.into_iter().try_for_each(|thread| thread.join().expect("a thread panicked"))
    })?;

    let backup = folder.with_extension("backup");
    store.copy(&backup)?; // while others may go on
    let copy = Store::open(&backup)?;
    let count = Orders::of(&copy)?.by_number.range(&copy.begin()?, ..).count();
    let rows = orders.rows_of(&store.begin()?, "grace")?;
    copy.close()?;
    store.close()?;
    Ok((rows, count))
}

#[allow(dead_code)] // where a test takes this file as a module
fn main() -> Result<()> {
    let folder = std::env::args().nth(1).unwrap_or_else(|| "orders".into());
    let (rows, count) = run(Path::new(&folder))?;
    println!("rows of grace: {rows:?}; orders in the copy: {count}");
    Ok(())
}

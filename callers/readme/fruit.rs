fn main() -> vahondrisa::Result<()> {
    let store = vahondrisa::Store::open("keys")?;
    store.write(|txn| txn.put(b"apple", 7))?;
    let txn = store.begin()?;
    println!("apple {:?}", txn.get(b"apple")?);
    for entry in txn.range("a".."z") {
        let (key, rid) = entry?;
        println!("{} {rid}", String::from_utf8_lossy(&key));
    }
    txn.commit()
}

//! A child that is made by `fork` is refused, and does no harm to the store. (In a program of its own, since the child has this one thread alone.)
mod folder;

use folder::Folder;
use vahondrisa::{ErrorKind, Store};

extern "C" {
    fn fork() -> i32;
    fn waitpid(child: i32, status: *mut i32, options: i32) -> i32;
    fn _exit(code: i32) -> !;
}

#[test]
fn a_child_is_refused_and_does_no_harm() {
    let dir = Folder::new("forked");
    let store = Store::open(&dir.0).unwrap();
    let txn = store.begin().unwrap();
    txn.put(b"a", 1).unwrap();
    // SAFETY: the child makes a few calls, which take no lock that another thread may have, and ends.
    let child = unsafe { fork() };
    if child == 0 {
        let kinds = [
            txn.get(b"a").unwrap_err().kind(),
            txn.commit().unwrap_err().kind(),
            store.begin().unwrap_err().kind(),
            store.flush().unwrap_err().kind(),
            store.close().unwrap_err().kind(),
        ];
        unsafe { _exit(i32::from(kinds != [ErrorKind::Forked; 5])) };
    }
    let mut status = 1;
    assert_eq!(unsafe { waitpid(child, &mut status, 0) }, child);
    assert_eq!(status, 0);
    txn.put(b"b", 2).unwrap();
    txn.commit().unwrap();
    store.close().unwrap();
    let store = Store::open(&dir.0).unwrap();
    assert_eq!(store.begin().unwrap().range(..).count(), 2);
}

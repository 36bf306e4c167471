//! How many messages the iterations have written: the build puts a call behind each write of one in the three updates of the copy that counts.

use std::cell::Cell;

thread_local! {
    static STORES: Cell<u64> = const { Cell::new(0) };
}

/// One message more.
#[inline]
pub(crate) fn one() {
    STORES.set(STORES.get() + 1);
}

/// What `run` answers, and how many messages were written on the way to it, in this thread.
pub fn counted<T>(run: impl FnOnce() -> T) -> (T, u64) {
    let before = STORES.get();
    let answer = run();
    (answer, STORES.get() - before)
}

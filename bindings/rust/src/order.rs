//! Tells `ThreadSanitizer` of the order that sets and maps give, in programs that are compiled for it (`vbr_tsan`). It doesn't see into
//! the library, which is compiled without it. In other programs these functions make the call and nothing else.
//!
//! What a thread did before it inserted a key comes before what a thread does that then finds it, and what it did before it removed
//! one before what a thread does that then finds it absent. A call that gives a key another value counts as a remove and an insert.
#![allow(unused_variables, reason = "a key is reported to the sanitizer alone")]

#[cfg(vbr_tsan)]
mod told {
    use crate::library::code;
    use core::cell::UnsafeCell;
    use core::ffi::c_void;

    extern "C" {
        fn __tsan_acquire(place: *mut c_void);
        fn __tsan_release(place: *mut c_void);
        fn __tsan_ignore_thread_begin();
        fn __tsan_ignore_thread_end();
    }

    const GROUPS: usize = 1 << 14;

    /// For each group of keys: what inserts release, and what removes release. It has addresses alone, which nothing reads or
    /// writes.
    struct Places(UnsafeCell<[[u64; 2]; GROUPS]>);

    // SAFETY: nothing reads or writes it.
    unsafe impl Sync for Places {}

    static PLACES: Places = Places(UnsafeCell::new([[0; 2]; GROUPS]));

    fn place(key: u64, which: usize) -> *mut c_void {
        let group = (key.wrapping_mul(0x9e37_79b9_7f4a_7c15) >> 50) as usize;
        PLACES.0.get().cast::<u64>().wrapping_add(2 * group + which).cast()
    }

    const THERE: usize = 0;
    const GONE: usize = 1;

    fn releases(key: u64, which: usize) {
        // SAFETY: the sanitizer takes any address.
        unsafe { __tsan_release(place(key, which)) }
    }

    fn acquires(key: u64, which: usize) {
        // SAFETY: as above.
        unsafe { __tsan_acquire(place(key, which)) }
    }

    pub(crate) fn may_come(key: u64) {
        releases(key, THERE);
    }

    pub(crate) fn may_go(key: u64) {
        releases(key, GONE);
    }

    pub(crate) fn added(key: u64, told: i32) {
        match told {
            code::YES => acquires(key, GONE),
            code::NO => acquires(key, THERE),
            _ => {}
        }
    }

    pub(crate) fn found(key: u64, told: i32) {
        match told {
            code::YES | code::OTHER => acquires(key, THERE),
            code::NO => acquires(key, GONE),
            _ => {}
        }
    }

    pub(crate) fn ignores(is_to: bool) {
        // SAFETY: they come in pairs.
        unsafe {
            if is_to {
                __tsan_ignore_thread_begin();
            } else {
                __tsan_ignore_thread_end();
            }
        }
    }
}

#[cfg(not(vbr_tsan))]
mod told {
    #[inline]
    pub(crate) fn may_come(_: u64) {}
    #[inline]
    pub(crate) fn may_go(_: u64) {}
    #[inline]
    pub(crate) fn added(_: u64, _: i32) {}
    #[inline]
    pub(crate) fn found(_: u64, _: i32) {}
    #[inline]
    pub(crate) fn ignores(_: bool) {}
}

/// A call that may add a key, and answers whether it did.
#[inline]
pub(crate) fn adds(key: u64, call: impl FnOnce() -> i32) -> i32 {
    told::may_come(key);
    let answer = call();
    told::added(key, answer);
    answer
}

/// A call that may add a key, and answers whether it was there.
#[inline]
pub(crate) fn finds_or_adds(key: u64, call: impl FnOnce() -> i32) -> i32 {
    told::may_come(key);
    finds(key, call)
}

/// A call that may take a key out, and answers whether it was there.
#[inline]
pub(crate) fn removes(key: u64, call: impl FnOnce() -> i32) -> i32 {
    told::may_go(key);
    finds(key, call)
}

/// A call that may give a key another value, and answers whether it was there.
#[inline]
pub(crate) fn changes(key: u64, call: impl FnOnce() -> i32) -> i32 {
    told::may_come(key);
    removes(key, call)
}

/// A call that answers whether a key is there.
#[inline]
pub(crate) fn finds(key: u64, call: impl FnOnce() -> i32) -> i32 {
    let answer = call();
    told::found(key, answer);
    answer
}

/// A call of all handles: what the library itself copies and frees is ordered by steps that the sanitizer doesn't see.
#[inline]
pub(crate) fn of_all<R>(call: impl FnOnce() -> R) -> R {
    told::ignores(true);
    let answer = call();
    told::ignores(false);
    answer
}

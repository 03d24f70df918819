//! The first set that lends its handles registers the program for the barriers of those that wait: it takes long beside other
//! threads, so it isn't left to a thread that waits, which holds a lock. This is a program of its own, in which nothing opens before.
use std::ffi::{c_int, c_long};
use vbr::{Set, Shape};

extern "C" {
    fn syscall(number: c_long, ...) -> c_long;
}

/// A call of `membarrier`.
fn asked(command: c_int) -> c_long {
    // SAFETY: it changes no memory of the program.
    unsafe { syscall(324, command, 0 as c_int, 0 as c_int) }
}

#[test]
fn the_first_opening_registers() {
    const QUERY: c_int = 0;
    const PRIVATE_EXPEDITED: c_int = 8;
    let known = asked(QUERY);
    if known < 0 || known & c_long::from(PRIVATE_EXPEDITED) == 0 {
        return; // the system has no such barrier
    }
    assert_eq!(asked(PRIVATE_EXPEDITED), -1);
    let set: Set = Set::open(Shape::for_keys(8, 1)).expect("a set");
    assert_eq!(asked(PRIVATE_EXPEDITED), 0);
    drop(set);
}

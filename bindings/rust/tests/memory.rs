//! Memory of the crate's own: the last close alone asks for some, it is refused without loss, and what isn't needed is given
//! back where there is memory for that. Where the library is refused memory for a close or a renewal, all handles stay as they were.
mod both;

use both::Both;
use std::alloc::{GlobalAlloc, Layout, System};
use std::cell::Cell;
use std::ffi::{c_int, c_void};
use std::panic::{catch_unwind, AssertUnwindSafe};
use vbr::{
    Change, CloseError, Growth, OpenError, RecordMap, RenewError, ReportError, Set, Shape, ShardRefusal, Sharded,
    SharedTable, Table,
};

/// Counts what this thread asks for, and refuses it while it is told to.
struct Counting;

thread_local! {
    static ASKED: Cell<usize> = const { Cell::new(0) };
    /// How many blocks the crate still gets, and whether the library is refused memory.
    static GRANTED: Cell<usize> = const { Cell::new(usize::MAX) };
    static LIBRARY_REFUSES: Cell<bool> = const { Cell::new(false) };
    /// How many blocks the library still gets.
    static LIBRARY_GRANTED: Cell<usize> = const { Cell::new(usize::MAX) };
    /// Whether the process is killed in place of a refusal.
    static LIBRARY_DIES: Cell<bool> = const { Cell::new(false) };
}

extern "C" {
    fn __libc_malloc(size: usize) -> *mut c_void;
    fn __libc_realloc(block: *mut c_void, size: usize) -> *mut c_void;
    fn fork() -> c_int;
    fn waitpid(process: c_int, status: *mut c_int, options: c_int) -> c_int;
    fn kill(process: c_int, signal: c_int) -> c_int;
    fn getpid() -> c_int;
    fn _exit(status: c_int) -> !;
}

const SIGKILL: c_int = 9;

/// Whether the library is refused the block that it asks for.
fn is_refused() -> bool {
    let granted = LIBRARY_GRANTED.get();
    LIBRARY_GRANTED.set(granted.saturating_sub(usize::from(granted < usize::MAX)));
    let is_refused = LIBRARY_REFUSES.get() || granted == 0;
    if is_refused && LIBRARY_DIES.get() {
        // SAFETY: it takes numbers alone.
        unsafe { kill(getpid(), SIGKILL) };
    }
    is_refused
}

/// The C library's, which the set's library calls.
#[no_mangle]
extern "C" fn malloc(size: usize) -> *mut c_void {
    if is_refused() {
        return std::ptr::null_mut();
    }
    // SAFETY: as malloc.
    unsafe { __libc_malloc(size) }
}

/// The same.
#[no_mangle]
extern "C" fn realloc(block: *mut c_void, size: usize) -> *mut c_void {
    if is_refused() {
        return std::ptr::null_mut();
    }
    // SAFETY: as realloc.
    unsafe { __libc_realloc(block, size) }
}

// SAFETY: it is the system's allocator, or no memory.
unsafe impl GlobalAlloc for Counting {
    unsafe fn alloc(&self, layout: Layout) -> *mut u8 {
        ASKED.set(ASKED.get() + layout.size());
        let granted = GRANTED.get();
        if granted == 0 {
            return std::ptr::null_mut();
        }
        GRANTED.set(granted - 1);
        let refuses = LIBRARY_REFUSES.replace(false);
        let block = System.alloc(layout);
        LIBRARY_REFUSES.set(refuses);
        block
    }

    unsafe fn dealloc(&self, block: *mut u8, layout: Layout) {
        System.dealloc(block, layout);
    }
}

#[global_allocator]
static COUNTING: Counting = Counting;

/// What a call tells that gets no more than this many blocks.
fn granted<T>(blocks: usize, call: impl FnOnce() -> T) -> T {
    GRANTED.set(blocks);
    let told = call();
    GRANTED.set(usize::MAX);
    told
}

fn refused<T>(call: impl FnOnce() -> T) -> T {
    granted(0, call)
}

fn refused_in_the_library<T>(call: impl FnOnce() -> T) -> T {
    LIBRARY_REFUSES.set(true);
    let told = call();
    LIBRARY_REFUSES.set(false);
    told
}

of_sets_and_maps! {
    one_report_and_no_loss
    a_report_that_there_is_no_memory_to_shorten
    a_close_that_the_library_refuses
    a_set_that_lends_its_handles_closes_all_or_none
    a_set_that_lends_its_handles_is_renewed_or_not
    handles_that_are_lent_or_not
    shards_that_are_doubled_or_not
    a_set_that_processes_share
    a_process_that_dies_in_a_report
}

/// How many bytes a key of a report takes, and an entry.
#[test]
fn bytes_of_a_report() {
    assert_eq!((size_of::<u64>(), size_of::<(u64, u64)>()), (8, 16));
}

fn one_report_and_no_loss<K: Both>() {
    let shape = Shape::for_keys(1_000, 3);
    assert_eq!(refused(|| Table::<K>::handles(shape).err()), Some(OpenError::Memory));
    let mut blocks = 0;
    while let Err(error) = granted(blocks, || Table::<K>::open(shape)) {
        assert_eq!(error, OpenError::Memory);
        blocks += 1;
    }
    assert_eq!(blocks, 7); // four of the handles, and what a set that lends them has: their places, its shape, and who waits
    let mut handles = Table::<K>::handles(shape).expect("a set");
    assert_eq!(K::insert(&mut handles[0], 5), Ok(true));
    assert_eq!(K::insert(&mut handles[2], 7), Ok(true));
    let before = ASKED.get();
    let last = refused(|| {
        let last = handles.pop().expect("three handles");
        drop(handles.pop());
        assert!(handles.pop().expect("three handles").close().expect("no memory is needed").is_none());
        last
    });
    assert_eq!(ASKED.get(), before);
    let Err(CloseError::Memory(unclosed)) = refused(|| last.close()) else {
        panic!("a report without memory");
    };
    assert_eq!(format!("{unclosed:?}"), "Unclosed { .. }");
    let mut handle = unclosed.into_handle();
    assert_eq!(handle.has(5), Ok(true));
    assert_eq!(K::insert(&mut handle, 6), Ok(true));
    let before = ASKED.get();
    let report = handle.close().expect("memory").expect("the last handle");
    assert_eq!(ASKED.get() - before, size_of::<K::Item>() * (1_000 + 3 * 64 + 3));
    let told = K::report(report);
    assert_eq!((told.keys, told.room), (vec![5, 6, 7], 3));
}

fn a_report_that_there_is_no_memory_to_shorten<K: Both>() {
    let handle = Table::<K>::handles_with(Shape::for_keys(1_000, 1), &K::items(&[5, 7])).expect("a set").remove(0);
    let report = granted(1, || handle.close()).expect("memory for the report").expect("the only handle");
    let told = K::report(report);
    assert_eq!((told.keys, told.room), (vec![5, 7], 1_000 + 64));
}

/// Keys whose layout isn't that of `u64` have room of their own, which there is before the set is closed.
#[test]
fn a_report_of_small_keys() {
    let mut handle = Set::handles_with(Shape::for_keys(1_000, 1), &[5_u8, 7]).expect("a set").remove(0);
    for blocks in 0..2 {
        let Err(CloseError::Memory(unclosed)) = granted(blocks, || handle.close()) else {
            panic!("a report without memory");
        };
        handle = unclosed.into_handle();
        assert_eq!(handle.has(7), Ok(true));
    }
    let report = granted(2, || handle.close()).expect("memory for the report").expect("the only handle");
    assert_eq!((report.keys.as_slice(), report.keys.capacity()), (&[5, 7][..], 1_000 + 64));
}

fn a_close_that_the_library_refuses<K: Both>() {
    let shape = Shape::for_keys(1_000, 3);
    assert_eq!(refused_in_the_library(|| Table::<K>::handles(shape).err()), Some(OpenError::Memory));
    let items = K::items(&[1, 2]);
    assert_eq!(refused_in_the_library(|| Table::<K>::handles_with(shape, &items).err()), Some(OpenError::Memory));
    let mut handles = Table::<K>::handles(shape).expect("a set");
    for (key, handle) in (5..).zip(&mut handles) {
        assert_eq!(K::insert(handle, key), Ok(true));
    }
    let mut handle = handles.remove(1);
    drop(handles);
    for key in 8..10 {
        let Err(CloseError::Memory(unclosed)) = refused_in_the_library(|| handle.close()) else {
            panic!("a report without memory");
        };
        handle = unclosed.into_handle();
        assert_eq!((handle.has(5), K::insert(&mut handle, key)), (Ok(true), Ok(true)));
    }
    let report = K::report(handle.close().expect("memory").expect("the last handle"));
    assert_eq!((report.keys, report.free), (vec![5, 6, 7, 8, 9], shape.slots - 5));
    let mut handles = Table::<K>::handles(shape.with_handles(2)).expect("a set");
    drop(handles.pop());
    assert!(refused_in_the_library(|| handles.remove(0).close()).is_err());
}

fn a_set_that_lends_its_handles_closes_all_or_none<K: Both>() {
    let shape = Shape::for_keys(1_000, 3);
    let mut set = Table::<K>::open_with(shape, &K::items(&[1, 2])).expect("a set");
    std::mem::forget(set.lend());
    for (key, by_the_library) in [(5, false), (6, true), (7, true)] {
        let told = if by_the_library { refused_in_the_library(|| set.close()) } else { refused(|| set.close()) };
        let Err(CloseError::Memory(unclosed)) = told else {
            panic!("a report without memory");
        };
        set = unclosed.into_table();
        let mut loans: Vec<_> = std::iter::from_fn(|| set.lend()).collect(); // the one that was forgotten is among them
        assert_eq!((loans.len(), K::insert(&mut loans[0], key), loans[2].has(key)), (3, Ok(true), Ok(true)));
        std::mem::forget(loans.pop());
    }
    let report = K::report(set.close().expect("memory"));
    assert_eq!((report.keys, report.free), (vec![1, 2, 5, 6, 7], shape.slots - 5));
    let dropped = Table::<K>::open(shape).expect("a set");
    assert!(refused_in_the_library(|| dropped.close()).is_err());
    let ended = Table::<K>::open_with(shape, &K::items(&[1, 2])).expect("a set");
    let before = ASKED.get();
    refused(|| refused_in_the_library(|| ended.end()));
    assert_eq!(ASKED.get(), before);
}

/// Each block that a renewal asks for is refused in turn; the crate asks for none.
fn a_set_that_lends_its_handles_is_renewed_or_not<K: Both>() {
    let (shape, wanted) = (Shape::for_keys(1_000, 3), Shape::for_keys(2_000, 3));
    let set = Table::<K>::open_with(shape, &K::items(&[1, 2])).expect("a set");
    let shape_of = || Shape::new(set.slots(), set.buckets(), set.last_epoch()).with_handles(set.handle_count());
    for blocks in 0.. {
        LIBRARY_GRANTED.set(blocks);
        let told = refused(|| set.renew(wanted));
        LIBRARY_GRANTED.set(usize::MAX);
        let loans = [(); 3].map(|()| set.lend().expect("all are free"));
        assert_eq!(shape_of(), if told.is_ok() { wanted } else { shape });
        assert!(loans.iter().all(|it| it.slots() == set.slots() && it.has(2) == Ok(true)));
        if told.is_ok() {
            assert!(blocks >= 4);
            break;
        }
        assert_eq!(told, Err(RenewError::Memory));
    }
    let report = K::report(set.close().expect("memory"));
    assert_eq!((report.keys, report.free), (vec![1, 2], wanted.slots - 2));
}

/// They change their owner, or stay as they are; so does a set that is refused a report.
fn handles_that_are_lent_or_not<K: Both>() {
    let mut handles = Table::<K>::handles_with(Shape::for_keys(1_000, 3), &K::items(&[1, 2])).expect("a set");
    for blocks in 0..3 {
        let error = granted(blocks, || Table::from_handles(handles)).expect_err("no memory");
        assert_eq!(error.why(), ReportError::Memory);
        handles = error.into_handles();
        assert!(handles.len() == 3 && handles.iter().all(|it| it.has(2) == Ok(true)));
    }
    let set = granted(3, || Table::from_handles(handles)).expect("memory for the places, the shape, and who waits");
    assert_eq!(refused(|| set.report()).err(), Some(ReportError::Memory));
    assert_eq!(refused_in_the_library(|| set.report()).err(), Some(ReportError::Memory));
    let Err(CloseError::Memory(unclosed)) = refused(|| set.into_handles()) else {
        panic!("handles without memory");
    };
    let set = unclosed.into_table();
    assert!([(); 3].map(|()| set.lend()).iter().flatten().all(|it| it.has(2) == Ok(true)));
    assert_eq!(granted(1, || set.into_handles()).expect("memory for the vector").len(), 3);
}

/// They are opened all or none. A call that finds no memory to double its shard, or to renew it, says so, and the shard stays as it was; with memory
/// the call is made. It asks the crate for none.
fn shards_that_are_doubled_or_not<K: Both>() {
    let open = || Sharded::<K>::open(2, Shape::new(4, 4, 3).with_handles(3), Growth::up_to(8));
    let refusals = (0..).map_while(|blocks| granted(blocks, || open().err()));
    assert_eq!(refusals.inspect(|error| assert_eq!(*error, OpenError::Memory)).count(), 1 + 2 * 7); // a place for each, and what each has
    let by_the_library = |blocks, call: &dyn Fn() -> bool| {
        LIBRARY_GRANTED.set(blocks);
        let is_done = refused(call);
        LIBRARY_GRANTED.set(usize::MAX);
        is_done
    };
    for blocks in 0..8 {
        LIBRARY_GRANTED.set(blocks);
        let opened = open();
        LIBRARY_GRANTED.set(usize::MAX);
        assert_eq!(opened.err(), Some(OpenError::Memory));
    }
    let of = open().expect("memory");
    let add = |key| of.call(key, |mine| K::insert(mine, key));
    let mut keys: Vec<u64> = (0..).filter(|key| of.shard_of(*key) == 0).take(5).collect();
    let fifth = keys.pop().expect("five keys");
    let is_as_it_was = |keys: &[u64], slots| {
        let stats = of.stats(0);
        assert_eq!((stats.keys, stats.slots), (keys.len() as u64, slots));
        assert!(keys.iter().all(|key| of.has(*key) == Ok(true)));
    };
    assert!(keys.iter().all(|key| add(*key) == Ok(true)));
    let is_added = |blocks| {
        by_the_library(blocks, &|| match add(fifth) {
            Ok(is_new) => is_new,
            Err(why) => {
                assert_eq!(why, ShardRefusal::NoMemory);
                false
            }
        })
    };
    let needed = (0..).take_while(|blocks| !is_added(*blocks)).inspect(|_| is_as_it_was(&keys, 4)).count();
    assert!((4..1_000).contains(&needed));
    let remove = |key| of.call(key, |mine| Ok(K::remove(mine, key)?));
    let kept = keys.clone();
    keys.push(fifth);
    is_as_it_was(&keys, 8);
    let turns = (0..100).take_while(|_| remove(fifth) == Ok(true) && is_added(0)).count(); // until the last epoch is spent
    assert!(turns < 100);
    is_as_it_was(&kept, 8);
    assert_eq!(add(fifth), Ok(true));
}

/// It is opened whole or not. Its calls ask for no memory, and each block that a renewal asks for is refused in turn.
#[test]
fn a_map_of_records() {
    let (shape, wanted) = (Shape::for_keys(1_000, 2), Shape::for_keys(2_000, 2));
    let open = || RecordMap::<[u8; 32], [u64; 12]>::open_up_to(shape, wanted.slots);
    assert_eq!(refused_in_the_library(|| open().err()), Some(OpenError::Memory));
    for blocks in 0..8 {
        assert_eq!(granted(blocks, || open().err()), Some(OpenError::Memory));
    }
    let map = granted(8, open).expect("seven blocks of a map that lends its handles, and one of the records");
    let (five, six, whole) = ([5; 32], [6; 32], |number| Some([number; 12]));
    refused(|| {
        refused_in_the_library(|| {
            assert_eq!((map.try_insert(five, [1; 12]), map.put(five, [2; 12])), (Ok(true), Ok(whole(1))));
            assert_eq!(map.compute(five, |before| before.map_or(Change::Keep, |_| Change::Put([3; 12]))), Ok(whole(2)));
            assert_eq!(
                (map.put(six, [6; 12]), map.remove(six), map.replace(five, [4; 12])),
                (Ok(None), Ok(whole(6)), Ok(whole(3)))
            );
            assert_eq!(map.lend_wait().iter().next(), Some(Ok((five, [4; 12]))));
        });
    });
    for by_the_library in [false, true] {
        let (before, after) = if by_the_library { (wanted, shape) } else { (shape, wanted) };
        for blocks in 0.. {
            let refuse = if by_the_library { &LIBRARY_GRANTED } else { &GRANTED };
            refuse.set(blocks);
            let told = map.renew(after);
            refuse.set(usize::MAX);
            assert_eq!(map.slots(), if told.is_ok() { after.slots } else { before.slots });
            assert_eq!((map.get(five), map.get(six)), (Ok(whole(4)), Ok(None)));
            if told.is_ok() {
                assert!(blocks >= 3);
                break;
            }
            assert_eq!(told, Err(RenewError::Memory));
        }
    }
}

/// What the library notes of a mapping is there for the next one of that size, so each kind has sizes of its own.
fn shared_shape<K: Both>(keys: usize) -> Shape {
    Shape::for_keys(u32::try_from(keys + 64 * size_of::<K::Item>()).expect("few"), 2)
}

fn a_set_that_processes_share<K: Both>() {
    let (shape, items) = (shared_shape::<K>(1_000), K::items(&[5, 7]));
    assert_eq!(refused(|| SharedTable::<K>::open_with(shape, &items).err()), Some(OpenError::Memory));
    assert_eq!(refused_in_the_library(|| SharedTable::<K>::open_with(shape, &items).err()), Some(OpenError::Memory));
    let set = granted(1, || SharedTable::<K>::open_with(shape, &items)).expect("memory for the items as C has them");
    // SAFETY: no other process has the set, and no other thread.
    let (report, renew) = (|| unsafe { set.report() }, || unsafe { set.renew(shape) });
    assert_eq!(refused(report).err(), Some(ReportError::Memory));
    assert_eq!(refused_in_the_library(report).err(), Some(ReportError::Memory));
    // a turn, its calls and a renewal ask for none
    refused(|| {
        refused_in_the_library(|| {
            // SAFETY: as above.
            let mut mine = unsafe { set.claim(1) };
            assert_eq!(K::insert(&mut mine.turn(), 6), Ok(true));
            assert_eq!(renew(), Ok(()));
        });
    });
    let told = K::report(report().expect("memory"));
    assert_eq!((told.keys, told.free), (vec![5, 6, 7], shape.slots - 3));
}

/// It leaves the set without its handles, and that is said.
fn a_process_that_dies_in_a_report<K: Both>() {
    let shape = shared_shape::<K>(2_000);
    let set = SharedTable::<K>::open(shape).expect("a set");
    // SAFETY: the child makes a call of the set, and ends.
    let child = unsafe { fork() };
    if child == 0 {
        LIBRARY_DIES.set(true);
        // SAFETY: the parent waits; and it ends the process.
        unsafe {
            let _ = refused_in_the_library(|| set.report());
            _exit(0)
        }
    }
    let mut status = 0;
    // SAFETY: nothing else has the status.
    assert_eq!((unsafe { waitpid(child, &raw mut status, 0) }, status), (child, SIGKILL));
    // SAFETY: the child is dead, and no other thread has the set.
    unsafe {
        assert_eq!(set.report().err(), Some(ReportError::Missing));
        assert_eq!(set.renew(shape), Err(RenewError::Missing));
        assert!(catch_unwind(AssertUnwindSafe(|| set.inherit(1))).is_err());
    }
}

//! Sets and maps that processes share: handles go from process to process, processes are killed within a turn and between two, and
//! what they leave is inherited, renewed and reported.
//!
//! The test harness has threads, so a child does nothing but calls of the set, and ends by what it says of them.
#![allow(clippy::cast_possible_truncation, reason = "the numbers are small")]
mod both;

use both::Both;
use std::ffi::{c_char, c_int, c_uint, CString};
use std::fs::{self, File};
use std::os::fd::FromRawFd;
use std::panic::{catch_unwind, AssertUnwindSafe};
use std::sync::atomic::{AtomicBool, Ordering};
use std::{mem, thread};
use vbr::{max_epoch, Shape, ShapeError, SharedMap, Steps, MAX_BUCKETS, MAX_EPOCH, MAX_MANY_HANDLES};
use vbr::{Inherited, KeysError, OpenError, OutOfSteps, PassOf, Refusal, RenewError, SharedTable};

extern "C" {
    fn fork() -> c_int;
    fn waitpid(process: c_int, status: *mut c_int, options: c_int) -> c_int;
    fn kill(process: c_int, signal: c_int) -> c_int;
    fn getpid() -> c_int;
    fn memfd_create(name: *const c_char, flags: c_uint) -> c_int;
    fn _exit(status: c_int) -> !;
}

const SIGKILL: c_int = 9;

#[derive(Debug, PartialEq)]
enum End {
    Well,
    Wrong,
    Killed,
}

/// A process that ends well where `work` says so.
fn forked(work: impl FnOnce() -> bool) -> c_int {
    // SAFETY: the child makes calls of its set, and ends.
    let child = unsafe { fork() };
    if child == 0 {
        let is_well = catch_unwind(AssertUnwindSafe(work)).unwrap_or(false);
        // SAFETY: it ends the process, and nothing is dropped.
        unsafe { _exit(c_int::from(!is_well)) }
    }
    assert!(child > 0);
    child
}

fn end_of(child: c_int) -> End {
    let mut status = 0;
    // SAFETY: nothing else has the status.
    assert_eq!(unsafe { waitpid(child, &raw mut status, 0) }, child);
    match status {
        0 => End::Well,
        SIGKILL => End::Killed,
        _ => End::Wrong,
    }
}

/// Kills its own process.
fn die() -> ! {
    // SAFETY: it takes numbers alone.
    unsafe {
        kill(getpid(), SIGKILL);
        _exit(1)
    }
}

/// Makes a turn by a handle that nobody else has at the time.
fn turn_of<K: Both, R>(set: &SharedTable<K>, number: usize, turn: impl FnOnce(&mut PassOf<K>) -> R) -> R {
    // SAFETY: each test gives a handle to one process and one thread at a time.
    let mut mine = unsafe { set.claim(number) };
    assert_eq!(mine.number(), number);
    let mut mine = mine.turn();
    turn(&mut mine)
}

/// How many keys from this one on a handle can insert until there is no slot.
fn filled<K: Both>(set: &SharedTable<K>, from: u64) -> u32 {
    for other in 1..set.handle_count() {
        turn_of(set, other, PassOf::give_slots_back);
    }
    turn_of(set, 0, |pass| {
        for key in from.. {
            match K::insert(pass, key) {
                Ok(true) => {}
                told => {
                    assert_eq!(told, Err(Refusal::NoSlot));
                    return (key - from) as u32;
                }
            }
        }
        unreachable!("there are slots without end")
    })
}

fn keys_of<K: Both>(set: &SharedTable<K>) -> Vec<u64> {
    // SAFETY: the children have ended, and this is the only thread that has the set.
    K::report(unsafe { set.report() }.expect("a report")).keys
}

/// Tells threads that it is over, by a panic too.
struct Over<'a>(&'a AtomicBool);

impl Drop for Over<'_> {
    fn drop(&mut self) {
        self.0.store(true, Ordering::Relaxed);
    }
}

of_sets_and_maps! {
    handles_go_from_process_to_process
    a_death_between_two_turns_and_one_within
    a_turn_that_is_forgotten
    threads_go_on_while_their_process_forks
    a_child_drops_its_copy
    budgets
    refusals_in_their_order
    in_a_file
}

fn handles_go_from_process_to_process<K: Both>() {
    let set = SharedTable::<K>::open_with(Shape::for_keys(1_024, 3).with_deaths(4), &K::items(&[6, 7])).expect("a set");
    for number in [1, 2] {
        let key = 100 + number as u64;
        let child = forked(|| {
            turn_of(&set, number, |pass| K::insert(pass, key) == Ok(true) && K::remove(pass, key - 95) == Ok(true))
        });
        assert_eq!(end_of(child), End::Well);
    }
    turn_of(&set, 0, |pass| {
        assert_eq!([6, 7, 101, 102].map(|key| pass.has(key)), [Ok(false), Ok(false), Ok(true), Ok(true)]);
        assert_eq!(pass.balance(), 2);
    });
    // the next child has the handle of the first, and its slots
    let next = forked(|| {
        // SAFETY: the process that had it has ended.
        let inherited = unsafe { set.inherit(1) };
        inherited == Inherited::Whole && turn_of(&set, 1, |pass| pass.balance() == 0 && K::insert(pass, 103) == Ok(true))
    });
    assert_eq!(end_of(next), End::Well);
    assert_eq!(keys_of(&set), [101, 102, 103]);
    // a child may report and renew too
    let child = forked(|| {
        // SAFETY: the parent waits, and has one thread with the set.
        let renewed = unsafe { set.renew(Shape::for_keys(1_024, 3)) };
        renewed.is_ok() && turn_of(&set, 2, |pass| K::remove(pass, 102) == Ok(true))
    });
    assert_eq!(end_of(child), End::Well);
    assert_eq!(turn_of(&set, 1, |pass| (pass.slots(), pass.has(103), pass.has(102))), (1_024 + 3 * 64, Ok(true), Ok(false)));
    assert_eq!(turn_of(&set, 0, |pass| pass.balance()), 3);
    assert_eq!(format!("{set:?}"), "SharedTable { handle_count: 3, .. }");
    set.end();
}

fn a_death_between_two_turns_and_one_within<K: Both>() {
    let shape = Shape::for_keys(10, 3).with_deaths(1);
    let set = SharedTable::<K>::open(shape).expect("a set");
    for (key, left, spared) in [(1, Inherited::Whole, 63), (2, Inherited::WithoutSlots, 0)] {
        let child = forked(|| {
            // SAFETY: the handle is the child's alone.
            let mut mine = unsafe { set.claim(1) };
            let mut turn = mine.turn();
            if K::insert(&mut turn, key) != Ok(true) {
                return false;
            }
            turn.reserve(63);
            if left == Inherited::Whole {
                drop(turn);
            }
            die()
        });
        assert_eq!(end_of(child), End::Killed);
        // SAFETY: its process is dead.
        assert_eq!(unsafe { [set.inherit(1), set.inherit(1)] }, [left, Inherited::Whole]);
        assert_eq!(turn_of(&set, 1, PassOf::give_slots_back), spared);
    }
    // the others find all slots but those that the dead one had, until a renewal
    let lost = shape.slots - 2 - filled(&set, 10);
    assert!((63..=66).contains(&lost), "{lost} slots are lost");
    // SAFETY: the children are dead, and no other thread has the set.
    assert_eq!(unsafe { set.renew(shape) }, Ok(()));
    assert_eq!(filled(&set, 1_000), lost);
    // SAFETY: as above.
    let (keys, epoch, marked, free) = K::report(unsafe { set.report() }.expect("a report")).of();
    assert_eq!((keys.len() as u32, epoch, marked, free), (shape.slots, 1, 0, 0));
}

/// A report and a renewal inherit what nobody has inherited.
fn a_turn_that_is_forgotten<K: Both>() {
    let shape = Shape::for_keys(10, 2).with_deaths(2);
    let set = SharedTable::<K>::open_with(shape, &K::items(&[5])).expect("a set");
    // SAFETY: no other process has the set, and no other thread.
    let forget = || mem::forget(unsafe { set.claim(1) }.turn());
    forget();
    // SAFETY: as above.
    assert_eq!(unsafe { [set.inherit(1), set.inherit(1)] }, [Inherited::WithoutSlots, Inherited::Whole]);
    forget();
    assert_eq!(turn_of(&set, 1, |pass| pass.has(5)), Ok(true)); // the mark is cleared by the next turn
                                                                // SAFETY: as above.
    assert_eq!(unsafe { set.inherit(1) }, Inherited::Whole);
    forget();
    assert_eq!(keys_of(&set), [5]);
    // SAFETY: as above.
    assert_eq!(unsafe { set.inherit(1) }, Inherited::Whole);
    forget();
    // SAFETY: as above.
    assert_eq!(unsafe { (set.renew(shape), set.inherit(1)) }, (Ok(()), Inherited::Whole));
}

fn threads_go_on_while_their_process_forks<K: Both>() {
    const KEYS: u64 = 64;
    let set = SharedTable::<K>::open(Shape::for_keys(KEYS as u32, 3)).expect("a set");
    let is_over = AtomicBool::new(false);
    thread::scope(|scope| {
        let over = Over(&is_over);
        let threads = [0, 1].map(|number| {
            // SAFETY: the handle is this thread's alone.
            let mut mine = unsafe { set.claim(number) };
            let is_over = &is_over;
            scope.spawn(move || {
                let mut keys = (0..KEYS).cycle();
                while !is_over.load(Ordering::Relaxed) {
                    let (mut turn, key) = (mine.turn(), keys.next().expect("keys without end"));
                    K::insert(&mut turn, key)?;
                    K::remove(&mut turn, key * 7 % KEYS)?;
                }
                Ok::<(), Refusal>(())
            })
        });
        for _ in 0..20 {
            let child = forked(|| {
                (0..1_000)
                    .all(|it| turn_of(&set, 2, |pass| K::insert(pass, it % KEYS).is_ok() && K::remove(pass, it % 5).is_ok()))
            });
            assert_eq!(end_of(child), End::Well);
        }
        drop(over);
        for thread in threads {
            assert_eq!(thread.join().expect("a thread that ends"), Ok(()));
        }
    });
    let keys = keys_of(&set);
    assert!(keys.iter().all(|key| *key < KEYS));
    let balances: i64 = (0..3).map(|number| turn_of(&set, number, |pass| pass.balance())).sum();
    assert_eq!(usize::try_from(balances), Ok(keys.len()));
}

/// The parent's is as it was.
fn a_child_drops_its_copy<K: Both>() {
    let set = SharedTable::<K>::open_with(Shape::for_keys(8, 2), &K::items(&[5])).expect("a set");
    // SAFETY: the child drops its copy, and ends.
    let child = unsafe { fork() };
    if child == 0 {
        drop(set);
        // SAFETY: it ends the process.
        unsafe { _exit(0) }
    }
    assert_eq!(end_of(child), End::Well);
    assert_eq!(turn_of(&set, 1, |pass| K::insert(pass, 6)), Ok(true));
    assert_eq!(keys_of(&set), [5, 6]);
}

fn budgets<K: Both>() {
    let shape = Shape::for_keys(8, 2);
    let ample = SharedTable::<K>::open(shape).expect("a set");
    assert_eq!(turn_of(&ample, 1, |pass| pass.steps()), Steps::AMPLE);
    let set = SharedTable::<K>::open_with(shape.with_steps(Steps::new(1)), &K::items(&[5])).expect("a set");
    for number in 0..2 {
        assert_eq!(turn_of(&set, number, |pass| pass.has(5)), Err(OutOfSteps));
    }
    // SAFETY: no other process has the set, and no other thread.
    assert_eq!(unsafe { set.renew(shape) }, Ok(()));
    assert_eq!(turn_of(&set, 1, |pass| pass.has(5)), Err(OutOfSteps)); // it is as it was
                                                                       // SAFETY: as above.
    assert_eq!(unsafe { set.renew(shape.with_steps(Steps::new(500))) }, Ok(()));
    assert_eq!(turn_of(&set, 1, |pass| (pass.steps(), pass.has(5))), (Steps::new(500), Ok(true)));
}

fn refusals_in_their_order<K: Both>() {
    let open = |shape, keys: &[u64]| SharedTable::<K>::open_with(shape, &K::items(keys)).err();
    let wrong = [6, 7, 7];
    assert_eq!(open(Shape::new(0, 0, 0).with_handles(0), &wrong), Some(OpenError::Shape(ShapeError::Slots(0))));
    assert_eq!(
        open(Shape::new(8, MAX_BUCKETS + 1, 0).with_handles(0), &wrong),
        Some(OpenError::Shape(ShapeError::Buckets(MAX_BUCKETS + 1)))
    );
    assert_eq!(
        open(Shape::new(8, 8, max_epoch(8) + 1).with_handles(0), &wrong),
        Some(OpenError::Shape(ShapeError::LastEpoch(max_epoch(8) + 1)))
    );
    for handles in [0, MAX_MANY_HANDLES + 1] {
        assert_eq!(open(Shape::for_keys(8, handles), &wrong), Some(OpenError::Shape(ShapeError::Handles(handles))));
    }
    assert_eq!(open(Shape::for_keys(8, 1), &wrong), Some(OpenError::Keys(KeysError::NotAscending { place: 2 })));
    assert_eq!(open(Shape::new(1, 8, 1), &[6, 7]), Some(OpenError::Keys(KeysError::TooMany { keys: 2, slots: 1 })));

    let shape = Shape::new(1_024, 64, MAX_EPOCH).with_handles(2);
    let set = SharedTable::<K>::open_with(shape, &K::items(&[5, 6])).expect("a set");
    // SAFETY: no other process has the set, and no other thread.
    let renew = |shape| unsafe { set.renew(shape) };
    assert_eq!(renew(Shape::new(0, 64, 1)), Err(RenewError::Shape(ShapeError::Slots(0))));
    assert_eq!(renew(Shape::new(1, 64, 1)), Err(RenewError::Slots));
    assert_eq!(renew(Shape::new(10_000_000, 1 << 20, 1)), Err(RenewError::Memory));
    assert_eq!(turn_of(&set, 1, |pass| (pass.slots(), pass.has(5), K::insert(pass, 7))), (1_024, Ok(true), Ok(true)));
    for more in 0..100 {
        assert_eq!(renew(Shape::new(1_024 + more % 2, 64, 100)), Ok(())); // what was freed is found again
    }
    assert_eq!(keys_of(&set), [5, 6, 7]);
    // SAFETY: as above.
    assert!(catch_unwind(AssertUnwindSafe(|| unsafe { set.claim(2) }.number())).is_err());
    // SAFETY: as above.
    assert!(catch_unwind(AssertUnwindSafe(|| unsafe { set.inherit(2) })).is_err());
}

fn in_a_file<K: Both>() {
    let shape = Shape::for_keys(1_000, 2);
    let name = format!("vbr-{}", size_of::<K::Item>());
    let is_mapped = || fs::read_to_string("/proc/self/maps").expect("what is mapped").contains(&format!("/memfd:{name} "));
    let ended = CString::new(name.as_str()).expect("a name");
    // SAFETY: the name ends, and the file is opened here.
    let file = unsafe { File::from_raw_fd(memfd_create(ended.as_ptr(), 0)) };
    let size = SharedTable::<K>::size(shape) as u64;
    file.set_len(size).expect("a file");
    for key in [5, 6] {
        // SAFETY: nothing else writes to the file, and what is in it is given up.
        let set = unsafe { SharedTable::<K>::open_in(&file, shape, &K::items(&[key])) }.expect("a set");
        let child = forked(|| turn_of(&set, 1, |pass| K::insert(pass, 7) == Ok(true)));
        assert_eq!(end_of(child), End::Well);
        assert_eq!(keys_of(&set), [key, 7]);
        assert!(is_mapped());
        drop(set);
        assert!(!is_mapped());
    }
    file.set_len(size - 1).expect("a file");
    // SAFETY: as above.
    assert_eq!(unsafe { SharedTable::<K>::open_in(&file, shape, &[]) }.err(), Some(OpenError::ShortFile));
    assert_eq!(file.metadata().expect("a file").len(), size - 1);
    let not_mapped = File::open("/").expect("a folder");
    // SAFETY: as above.
    assert_eq!(unsafe { SharedTable::<K>::open_in(&not_mapped, shape, &[]) }.err(), Some(OpenError::Memory));
}

/// A map whose keys and values are typed, and which changes its values.
#[test]
fn typed_entries_change() {
    let map = SharedMap::open_with(Shape::for_keys(8, 2), &[((1_u32, 2_u32), 'a')]).expect("a map");
    let child = forked(|| {
        // SAFETY: the handle is the child's alone.
        let mut mine = unsafe { map.claim(1) };
        let mut turn = mine.turn();
        turn.replace((1, 2), 'b') == Ok(Some('a')) && turn.entry((3, 4)).or_insert('c') == Ok('c')
    });
    assert_eq!(end_of(child), End::Well);
    // SAFETY: the child has ended, and no other thread has the map.
    assert_eq!(unsafe { map.report() }.expect("a report").entries, [((1, 2), 'b'), ((3, 4), 'c')]);
}

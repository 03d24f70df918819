//! Handles that are lent: at once or not at all, or as soon as one is free; to one thread at a time, and to no other set. And
//! renewals, which wait for all loans while others wait for one.
#![allow(clippy::cast_possible_truncation, reason = "the numbers are small")]
mod both;

use both::Both;
use std::cell::Cell;
use std::collections::BTreeMap;
use std::mem;
use std::sync::atomic::{compiler_fence, AtomicBool, AtomicU32, AtomicU64, Ordering};
use std::sync::Arc;
use std::thread;
use std::time::{Duration, Instant};
use vbr::{
    HandleOf, Keys, Lent, LentBy, OutOfSteps, OwnedLent, Pass, RenewError, ReportError, Set, Shape, ShapeError, Steps, Table,
    MAX_EPOCH,
};

const SOME: u64 = 64;
const AT_LAST: Duration = Duration::from_secs(600);

of_sets_and_maps! {
    each_handle_once
    what_a_set_was_opened_with
    loans_that_are_swapped
    loans_that_are_forgotten
    loans_that_other_threads_drop
    a_loan_that_is_waited_for
    a_wait_that_is_over
    a_loan_with_a_budget_of_its_own
    loans_that_own_their_set
    tasks_that_wait
    a_renewal_keeps_what_is_in
    a_renewal_that_is_refused
    none_is_lent_while_a_renewal_waits
    renewals_while_others_wait
    reports_while_others_insert
    a_report_that_waits
    keys_that_are_counted
    handles_that_are_lent_and_owned
}

fn lending<K: Both>(handles: usize, keys: &[u64]) -> Table<K> {
    Table::open_with(Shape::for_keys(100, handles), &K::items(keys)).expect("a set")
}

fn keys_of<K: Both>(set: Table<K>) -> Vec<u64> {
    K::report(set.close().expect("a report")).keys
}

fn each_handle_once<K: Both>() {
    let set = lending::<K>(3, &[]);
    let (first, second, third) = (set.lend(), set.lend(), set.lend());
    assert!(first.is_some() && second.is_some() && third.is_some() && set.lend().is_none());
    drop(second);
    let again = set.lend();
    assert!(again.is_some() && set.lend().is_none());
    drop((first, again, third));
    assert_eq!(keys_of(set), []);
    let all = lending::<K>(100, &[1, 2]);
    let loans: Vec<_> = (0..100).map(|_| all.lend().expect("a free handle")).collect();
    let mut numbers: Vec<_> = loans.iter().map(LentBy::number).collect();
    numbers.sort_unstable();
    assert!(all.lend().is_none() && numbers.into_iter().eq(0..100));
    drop(loans);
    assert_eq!(keys_of(all), [1, 2]);
}

fn what_a_set_was_opened_with<K: Both>() {
    let set = Table::<K>::open(Shape::new(100, 8, 50).with_handles(3)).expect("a set");
    let loans = [set.lend(), set.lend(), set.lend()];
    assert_eq!((set.slots(), set.buckets(), set.last_epoch(), set.handle_count()), (100, 8, 50, 3));
    let lent = loans[0].as_ref().expect("a free handle");
    assert_eq!((lent.slots(), lent.buckets(), lent.last_epoch()), (100, 8, 50));
    let other = Table::<K>::open(Shape::for_keys(1, 1)).expect("a set");
    assert_eq!((other.slots(), other.buckets(), other.last_epoch(), other.handle_count()), (65, 1, MAX_EPOCH, 1));
}

/// Each loan goes back where it is from; what it lends can't be swapped, as the page of a pass shows.
fn loans_that_are_swapped<K: Both>() {
    let (one, other) = (lending::<K>(1, &[1]), lending::<K>(1, &[2]));
    let (mut lent, mut another) = (one.lend().expect("a free handle"), other.lend().expect("a free handle"));
    mem::swap(&mut lent, &mut another);
    assert_eq!((lent.has(2), K::insert(&mut another, 3)), (Ok(true), Ok(true)));
    drop(lent);
    assert!(one.lend().is_none() && other.lend().is_some());
    drop(another);
    assert!(one.lend().is_some());
    assert_eq!((keys_of(one), keys_of(other)), (vec![1, 3], vec![2]));
}

fn loans_that_are_forgotten<K: Both>() {
    let set = lending::<K>(2, &[1]);
    let mut forgotten = set.lend().expect("two are free");
    assert_eq!(K::insert(&mut forgotten, 5), Ok(true));
    mem::forget(forgotten);
    for _ in 0..3 {
        let mut lent = set.lend().expect("one is free");
        assert!(K::insert(&mut lent, 6).is_ok() && set.lend().is_none());
    }
    assert!(set.lend_timeout(Duration::ZERO).is_some());
    assert_eq!(keys_of(set), [1, 5, 6]);
}

fn loans_that_other_threads_drop<K: Both>() {
    let set = lending::<K>(2, &[]);
    for key in 0..20 {
        let mut lent = set.lend().expect("two are free");
        K::insert(&mut lent, key).expect("room");
        thread::scope(|scope| {
            scope.spawn(move || drop(lent));
        });
        let both = [set.lend().expect("two are free"), set.lend().expect("one is free")];
        assert!(both.iter().all(|it| it.has(key) == Ok(true)) && set.lend().is_none());
    }
    assert_eq!(keys_of(set).len(), 20);
}

/// Eight threads wait for two handles, and none is left waiting. What each did with a handle is there for the next one, also in
/// plain memory beside the handle.
fn a_loan_that_is_waited_for<K: Both>() {
    struct Beside(Vec<Cell<u64>>);
    // SAFETY: each number is one thread's at a time.
    unsafe impl Sync for Beside {}
    let (set, beside) = (lending::<K>(2, &[]), &Beside((0..2).map(|_| Cell::new(0)).collect()));
    thread::scope(|scope| {
        for thread in 0..8 {
            let set = &set;
            scope.spawn(move || {
                for round in 0..5_000 {
                    let mut lent = if round % 2 == 0 { set.lend_wait() } else { set.lend_timeout(AT_LAST).expect("in time") };
                    let calls = &beside.0[lent.number()];
                    calls.set(calls.get() + 1);
                    assert_eq!(K::insert(&mut lent, thread), Ok(true));
                    assert_eq!(K::remove(&mut lent, thread), Ok(true));
                    if round % 64 == 0 {
                        thread::yield_now();
                    }
                }
            });
        }
    });
    assert_eq!(beside.0.iter().map(Cell::get).sum::<u64>(), 8 * 5_000);
    assert!(set.lend().is_some() && keys_of(set).is_empty());
}

/// A number that one thread tells another.
#[repr(align(128))]
struct Step(AtomicU64);

impl Step {
    fn tell(&self, number: u64) {
        self.0.store(number, Ordering::Release);
    }

    fn wait_for(&self, number: u64) {
        for turns in 0.. {
            if self.0.load(Ordering::Acquire) >= number {
                break;
            }
            if turns % 256 == 255 {
                thread::yield_now();
            }
        }
    }
}

/// A handle is given back just as another thread begins to wait for it: either that one sees it, or it is woken. What is written
/// before the return, to lines that the other thread wrote, makes the return come late.
#[test]
fn a_return_as_another_begins_to_wait() {
    const ROUNDS: u64 = 5_000;
    let set = lending::<Keys>(1, &[]);
    let [lent, waits, done] = [(); 3].map(|()| Step(AtomicU64::new(0)));
    let lines: Vec<Step> = (0..128).map(|_| Step(AtomicU64::new(0))).collect();
    let write_all = |round| lines.iter().for_each(|it| it.0.store(round, Ordering::Relaxed));
    thread::scope(|scope| {
        scope.spawn(|| {
            for round in 1..=ROUNDS {
                let mine = set.lend_wait();
                lent.tell(round);
                waits.wait_for(round);
                (0..round * 37 % 2_000).for_each(|_| compiler_fence(Ordering::SeqCst));
                write_all(round);
                drop(mine);
                done.wait_for(round);
            }
        });
        let mut is_late = false;
        for round in 1..=ROUNDS {
            lent.wait_for(round);
            write_all(0);
            waits.tell(round);
            let begun = Instant::now();
            drop(set.lend_timeout(Duration::from_millis(if is_late { 1 } else { 60_000 })));
            is_late |= begun.elapsed() > Duration::from_secs(50);
            done.tell(round);
        }
        assert!(!is_late);
    });
}

/// Threads that wait in vain leave nothing behind, and a wait isn't over before its time.
fn a_wait_that_is_over<K: Both>() {
    let (set, limit) = (lending::<K>(1, &[]), Duration::from_millis(30));
    let kept = set.lend_wait();
    thread::scope(|scope| {
        for _ in 0..4 {
            scope.spawn(|| {
                let begun = Instant::now();
                assert!(set.lend_timeout(limit).is_none() && begun.elapsed() >= limit);
                assert!(set.lend_timeout(Duration::ZERO).is_none() && set.lend().is_none());
            });
        }
    });
    let waits = AtomicBool::new(true);
    thread::scope(|scope| {
        scope.spawn(|| {
            assert!(set.lend_timeout(Duration::MAX).is_some());
            waits.store(false, Ordering::Relaxed);
        });
        thread::sleep(limit);
        assert!(waits.load(Ordering::Relaxed));
        drop(kept);
    });
    assert!(!waits.into_inner() && set.lend().is_some());
}

fn a_loan_with_a_budget_of_its_own<K: Both>() {
    let set = Arc::new(lending::<K>(1, &[5]));
    let mut mine = set.lend_wait();
    mine.set_steps(Steps::new(2));
    mine.set_steps(Steps::new(1));
    assert_eq!((mine.steps(), mine.has(5)), (Steps::new(1), Err(OutOfSteps)));
    drop(mine);
    let mut owned = set.lend_owned().expect("the one handle");
    assert_eq!((owned.steps(), owned.has(5)), (Steps::AMPLE, Ok(true)));
    owned.set_steps(Steps::new(1));
    drop(owned);
    assert_eq!(set.lend_wait().steps(), Steps::AMPLE);
}

fn loans_that_own_their_set<K: Both>() {
    let set = Arc::new(lending::<K>(2, &[1]));
    let mut first = set.lend_owned().expect("two are free");
    let second = set.lend_owned_timeout(AT_LAST).expect("one is free");
    assert!(set.lend_owned().is_none() && set.lend().is_none() && set.lend_owned_timeout(Duration::ZERO).is_none());
    assert_ne!(first.number(), second.number());
    drop(second);
    let set = Arc::try_unwrap(set).expect_err("a loan has a share");
    let task = thread::spawn(move || K::insert(&mut first, 5));
    assert_eq!(task.join().expect("a task that ends"), Ok(true));
    assert_eq!(keys_of(Arc::into_inner(set).expect("no loan is left")), [1, 5]);
    let last = Arc::new(lending::<K>(1, &[7])).lend_owned_wait();
    assert_eq!(thread::spawn(move || last.has(7)).join().expect("a task that ends"), Ok(true));
}

/// More tasks than handles, each with a loan of its own that was waited for before it began.
fn tasks_that_wait<K: Both>() {
    let (set, made) = (Arc::new(lending::<K>(3, &[])), Arc::new(AtomicU64::new(0)));
    let tasks: Vec<_> = (0..60)
        .map(|key| {
            let (mut lent, made) = (set.lend_owned_wait(), Arc::clone(&made));
            thread::spawn(move || {
                assert_eq!(K::insert(&mut lent, key), Ok(true));
                made.fetch_add(1, Ordering::Relaxed);
            })
        })
        .collect();
    for task in tasks {
        task.join().expect("a task that ends");
    }
    assert_eq!((made.load(Ordering::Relaxed), keys_of(Arc::into_inner(set).expect("no loan is left")).len()), (60, 60));
}

fn a_renewal_keeps_what_is_in<K: Both>() {
    let (set, large) = (lending::<K>(2, &[1, 2]), Shape::for_keys(4_000, 2));
    assert_eq!(K::insert(&mut set.lend_wait(), 3), Ok(true));
    assert_eq!(set.renew(large), Ok(()));
    assert_eq!((set.slots(), set.buckets(), set.last_epoch(), set.handle_count()), (4_128, 4_096, MAX_EPOCH, 2));
    {
        let (one, mut other) = (set.lend().expect("two are free"), set.lend().expect("one is free"));
        assert_eq!((one.slots(), one.epoch(), one.balance() + other.balance()), (4_128, 1, 3));
        assert_eq!((one.has(3), K::remove(&mut other, 2)), (Ok(true), Ok(true)));
    }
    assert_eq!(set.renew_timeout(Shape::new(2, 1, 50), Duration::ZERO), Ok(()));
    assert_eq!((set.slots(), set.buckets(), set.last_epoch()), (2, 1, 50));
    assert_eq!(keys_of(set), [1, 3]);
}

/// The set is as it was then, and lends all handles that are there.
fn a_renewal_that_is_refused<K: Both>() {
    let set = lending::<K>(2, &[1, 2]);
    let still = |lent: usize| {
        let loans = [set.lend(), set.lend()];
        assert_eq!((loans.iter().flatten().count(), set.slots()), (lent, 228));
        assert!(loans.iter().flatten().all(|it| it.slots() == 228 && it.has(2) == Ok(true)));
    };
    assert_eq!(set.renew(Shape::new(0, 1, 1)), Err(RenewError::Shape(ShapeError::Slots(0))));
    assert_eq!(set.renew(Shape::new(1, 1, 100)), Err(RenewError::Slots));
    still(2);
    let kept = set.lend();
    assert_eq!(set.renew_timeout(Shape::new(8, 1, 100), Duration::from_millis(20)), Err(RenewError::Lent));
    assert_eq!(set.renew_timeout(Shape::new(0, 1, 1), Duration::ZERO), Err(RenewError::Shape(ShapeError::Slots(0))));
    still(1);
    mem::forget(kept);
    assert_eq!(set.renew_timeout(Shape::new(8, 1, 100), Duration::ZERO), Err(RenewError::Lent));
    still(1);
    assert_eq!(keys_of(set), [1, 2]);
}

/// None is lent, though one is free; once the loan is back the renewal is made, and who waited is lent a handle.
fn none_is_lent_while_a_renewal_waits<K: Both>() {
    let (set, wanted) = (lending::<K>(2, &[7]), Shape::new(300, 16, 1_000));
    let mut kept = set.lend().expect("two are free");
    thread::scope(|scope| {
        let renews = scope.spawn(|| set.renew(wanted));
        while set.lend().is_some() {
            thread::yield_now(); // until it has begun
        }
        assert!(set.lend().is_none() && set.lend_timeout(Duration::from_millis(20)).is_none());
        assert_eq!(set.renew_timeout(wanted, Duration::from_millis(5)), Err(RenewError::Lent)); // another one is waiting
        let waits = scope.spawn(|| {
            let mine = set.lend_wait();
            (mine.slots(), mine.has(7), mine.has(8))
        });
        assert_eq!((set.slots(), kept.slots(), K::insert(&mut kept, 8)), (228, 228, Ok(true)));
        scope.spawn(move || drop(kept));
        assert_eq!(renews.join().expect("a thread that ends"), Ok(()));
        assert_eq!(waits.join().expect("a thread that ends"), (300, Ok(true), Ok(true)));
    });
    assert_eq!(keys_of(set), [7, 8]);
}

/// Eight threads borrow three handles, in each way there is; loans are swapped, and dropped by other threads. Two threads renew the
/// set all the while. At the end a loan is forgotten.
fn renewals_while_others_wait<K: Both>() {
    let set = Arc::new(lending::<K>(3, &[]));
    let (lent, renewed, ends) = (&AtomicU32::new(0), &AtomicU32::new(0), &AtomicBool::new(false));
    thread::scope(|scope| {
        for renewal in 0..2 {
            let set = &set;
            scope.spawn(move || {
                while !ends.load(Ordering::Relaxed) {
                    let told = match renewal {
                        0 => set.renew(Shape::for_keys(100 + lent.load(Ordering::Relaxed) % 7, 3)),
                        _ => set.renew_timeout(Shape::for_keys(200, 3), Duration::from_millis(1)),
                    };
                    assert!(told.is_ok() || (renewal == 1 && told == Err(RenewError::Lent)));
                    if renewed.fetch_add(u32::from(told.is_ok()), Ordering::Relaxed) % 4 == 0 {
                        thread::sleep(Duration::from_micros(100));
                    }
                }
            });
        }
        let borrowers: Vec<_> = (0..8)
            .map(|key| {
                let set = &set;
                scope.spawn(move || {
                    // and until a renewal has come between
                    for round in (0..10_000_000).take_while(|round| *round < 600 || renewed.load(Ordering::Relaxed) == 0) {
                        drop(set.lend_owned());
                        let mine = match round % 3 {
                            0 => Some(set.lend_wait()),
                            1 => set.lend_timeout(AT_LAST),
                            _ => set.lend(),
                        };
                        let (Some(mut mine), mut other) = (mine, set.lend()) else { continue };
                        lent.fetch_add(1, Ordering::Relaxed);
                        if let Some(other) = &mut other {
                            mem::swap(&mut mine, other);
                        }
                        assert_eq!(K::insert(&mut mine, key), Ok(true));
                        assert_eq!(other.as_ref().map_or(Ok(true), |it| it.has(key)), Ok(true));
                        assert_eq!(K::remove(&mut mine, key), Ok(true));
                        if round % 100 == 0 {
                            scope.spawn(move || drop((other, mine)));
                        }
                        if round % 10 == 0 {
                            thread::yield_now();
                        }
                    }
                })
            })
            .collect();
        for it in borrowers {
            it.join().expect("a thread that ends");
        }
        ends.store(true, Ordering::Relaxed);
    });
    assert!(lent.load(Ordering::Relaxed) >= 8 * 400 && renewed.load(Ordering::Relaxed) > 0);
    assert_eq!(set.renew(Shape::for_keys(8, 3)), Ok(()));
    mem::forget(set.lend());
    assert_eq!(set.renew_timeout(Shape::for_keys(8, 3), Duration::ZERO), Err(RenewError::Lent));
    assert!(set.lend().is_some() && keys_of(Arc::into_inner(set).expect("no loan is left")).is_empty());
}

/// Each thread inserts keys in their order, so each report has the first ones of each, and what a thread was answered before it.
fn reports_while_others_insert<K: Both>() {
    const EACH: u64 = 2_000;
    let set = Table::<K>::open(Shape::for_keys(3 * EACH as u32, 2)).expect("a set");
    let done = [(); 3].map(|()| AtomicU64::new(0));
    thread::scope(|scope| {
        for thread in 0..3 {
            let (set, done) = (&set, &done[thread as usize]);
            scope.spawn(move || {
                for key in 0..EACH {
                    assert_eq!(K::insert(&mut set.lend_wait(), thread * EACH + key), Ok(true));
                    done.store(key + 1, Ordering::Release);
                }
            });
        }
        let mut is_over = false;
        while !is_over {
            let before: Vec<_> = done.iter().map(|it| it.load(Ordering::Acquire)).collect();
            let keys = K::report(set.report().expect("memory")).keys;
            is_over = keys.len() as u64 == 3 * EACH;
            for (thread, before) in before.into_iter().enumerate() {
                let own: Vec<u64> = keys.iter().filter(|&&key| key / EACH == thread as u64).map(|key| key % EACH).collect();
                assert!(own.len() as u64 >= before && own.iter().copied().eq(0..own.len() as u64));
            }
        }
    });
    assert_eq!(keys_of(set).len() as u64, 3 * EACH);
}

/// Threads move keys, an insert first and then a remove, so at any moment at most three more are there; renewals change no number.
fn keys_that_are_counted<K: Both>() {
    let set = lending::<K>(3, &[1, 2, 3, 4]);
    assert_eq!(set.key_count(), 4);
    assert_eq!(K::remove(&mut set.lend_wait(), 4), Ok(true));
    assert_eq!(set.key_count(), 3);
    thread::scope(|scope| {
        for thread in 1..4 {
            let set = &set;
            scope.spawn(move || {
                for _ in 0..1_000 {
                    for (from, to) in [(thread, thread + 10), (thread + 10, thread)] {
                        assert_eq!(K::insert(&mut set.lend_wait(), to), Ok(true));
                        assert_eq!(K::remove(&mut set.lend_wait(), from), Ok(true));
                    }
                }
            });
        }
        for round in 0..200 {
            let count = set.key_count();
            assert!((3..=6).contains(&count), "{count} keys");
            if round % 10 == 0 {
                assert_eq!(set.renew(Shape::for_keys(100 + round, 3)), Ok(()));
            }
        }
    });
    assert_eq!(set.key_count_timeout(AT_LAST), Some(3));
    mem::forget(set.lend());
    assert_eq!((set.key_count_timeout(Duration::ZERO), keys_of(set).len()), (None, 3));
}

fn a_report_that_waits<K: Both>() {
    let set = lending::<K>(2, &[7]);
    let mut kept = set.lend().expect("two are free");
    assert_eq!(set.report_timeout(Duration::from_millis(5)), Err(ReportError::Lent));
    thread::scope(|scope| {
        let reports = scope.spawn(|| K::report(set.report().expect("memory")).keys);
        while set.lend().is_some() {
            thread::yield_now(); // until it has begun
        }
        let waits = scope.spawn(|| set.lend_wait().has(8));
        assert_eq!(K::insert(&mut kept, 8), Ok(true));
        scope.spawn(move || drop(kept));
        assert_eq!(reports.join().expect("a thread that ends"), [7, 8]);
        assert_eq!(waits.join().expect("a thread that ends"), Ok(true));
    });
    mem::forget(set.lend());
    assert_eq!(set.report_timeout(Duration::ZERO), Err(ReportError::Lent));
    assert!(set.lend().is_some() && keys_of(set) == [7, 8]);
}

/// Handles that were owned are lent, with what they hold and the budgets that they have, and owned again, and renewed in either place.
fn handles_that_are_lent_and_owned<K: Both>() {
    let shape = Shape::new(200, 16, 1_000).with_handles(3).with_seed(7);
    let mut handles: Vec<HandleOf<K>> = Table::handles_with(shape, &K::items(&[1, 2])).expect("a set");
    handles[1].set_steps(Steps::new(500));
    handles.rotate_left(1);
    let last = handles.pop();
    let error = Table::from_handles(handles).expect_err("one is missing");
    assert_eq!((error.why(), error.to_string()), (ReportError::Missing, "there are fewer handles than were opened".into()));
    let mut handles = error.into_handles();
    handles.extend(Table::handles(Shape::for_keys(8, 1)).expect("another set"));
    let error = Table::from_handles(handles).expect_err("one is of another set");
    assert_eq!(error.why(), ReportError::Mixed);
    let mut handles = error.into_handles();
    handles.truncate(2);
    handles.extend(last);
    let mut set = Table::try_from(handles).expect("a set");
    assert_eq!((set.slots(), set.buckets(), set.last_epoch(), set.handle_count()), (200, 16, 1_000, 3));
    {
        let mut loans = [set.lend(), set.lend(), set.lend()].map(|it| it.expect("three are free"));
        assert!(loans.iter().any(|it| it.steps() == Steps::new(500)) && K::insert(&mut loans[2], 3) == Ok(true));
    }
    assert_eq!(K::insert(set.pass_mut(), 4), Ok(true));
    assert_eq!(set.renew(Shape::for_keys(1_000, 3)), Ok(()));
    assert_eq!((set.lend_wait().seed(), set.slots()), (7, 1_192));
    mem::forget(set.lend());
    let mut handles = set.into_handles().expect("memory");
    assert_eq!((handles.len(), K::insert(&mut handles[2], 5)), (3, Ok(true)));
    assert_eq!(HandleOf::renew_all(&mut handles, Shape::for_keys(8, 3)), Ok(()));
    let set = Table::from_handles(handles).expect("a set");
    assert_eq!((set.slots(), set.lend().is_some()), (200, true));
    assert_eq!(keys_of(set), [1, 2, 3, 4, 5]);
}

/// Loans go to other threads, and those with a share wherever a task goes; a pass is taken from either, and from a handle.
#[test]
fn loans_are_sent() {
    fn is_sent<T: Send>() {}
    fn is_a_task<T: Send + 'static>() {}
    fn visits(pass: &mut Pass) -> bool {
        pass.insert(5).is_ok_and(|_| pass.has(5) == Ok(true))
    }
    is_sent::<Lent<'_>>();
    is_a_task::<OwnedLent>();
    let set = Arc::new(Set::open(Shape::for_keys(8, 1)).expect("a set"));
    assert!(visits(&mut set.lend_wait()) && visits(&mut set.lend_owned_wait()));
    assert!(visits(&mut Set::handles(Shape::for_keys(8, 1)).expect("a set")[0]));
}

#[test]
fn the_answers_of_many_borrowers_balance() {
    let shape = Shape::for_keys(SOME as u32, 3);
    let set = Set::open(shape).expect("a set");
    let mut sum = BTreeMap::new();
    thread::scope(|scope| {
        let threads: Vec<_> = (0..8u64)
            .map(|seed| {
                let set = &set;
                scope.spawn(move || {
                    let mut random = 88_172_645_463_325_252 + seed;
                    let mut balance = BTreeMap::new();
                    for _ in 0..20_000 {
                        let mut handle = set.lend_wait();
                        random ^= random << 13;
                        random ^= random >> 7;
                        random ^= random << 17;
                        let key = (random >> 32) % SOME;
                        if random >> 40 & 1 == 0 {
                            *balance.entry(key).or_insert(0) += i32::from(handle.insert(key).expect("room"));
                        } else {
                            *balance.entry(key).or_insert(0) -= i32::from(handle.remove(key).expect("steps"));
                        }
                    }
                    balance
                })
            })
            .collect();
        for thread in threads {
            for (key, n) in thread.join().expect("a thread that ends") {
                *sum.entry(key).or_insert(0) += n;
            }
        }
    });
    assert!(sum.values().all(|n| *n == 0 || *n == 1));
    let left: Vec<u64> = sum.into_iter().filter(|(_, n)| *n == 1).map(|(key, _)| key).collect();
    assert_eq!(left, set.close().expect("a report").keys);
}

//! Walks over all keys of sets and all entries of maps: their order, the budgets that are just enough, what a refused call
//! leaves, and what they give while other threads make calls. Each test is made of sets and of maps.
#![allow(clippy::cast_possible_truncation, reason = "the numbers are small")]
mod both;

use both::{entry_of, key_of, value_of, Both};
use std::collections::BTreeSet;
use std::fmt::Debug;
use std::iter::FusedIterator;
use std::sync::atomic::{AtomicU64, Ordering};
use std::thread;
use vbr::{Cursor, HandleOf, Map, OutOfSteps, RenewError, Set, Shape, Steps, Table, WalkError, MAX_EPOCH};

/// The keys from 1 to 9 as they come in four buckets with seed 0: a key's is the upper two bits of its product with 2^64 over
/// the golden ratio, 0x9e3779b97f4a7c15.
const ORDER: [u64; 9] = [2, 5, 4, 7, 1, 6, 9, 3, 8];

fn keys_of<K: Both>(handle: &HandleOf<K>, steps: Steps) -> impl FusedIterator<Item = Result<u64, OutOfSteps>> + '_ {
    handle.iter_within(steps).map(|given| given.map(K::key))
}

/// A whole walk, none of whose calls is refused for good.
fn all_keys_within<K: Both>(handle: &HandleOf<K>, steps: Steps) -> Vec<u64> {
    keys_of(handle, steps).collect::<Result<_, _>>().expect("steps")
}

fn all_keys<K: Both>(handle: &HandleOf<K>) -> Vec<u64> {
    all_keys_within(handle, Steps::AMPLE)
}

/// A call of a walk. One that tells where the key stands takes as many steps, and the cursor as far.
fn next_key_within<K: Both>(handle: &HandleOf<K>, cursor: &mut Cursor, steps: Steps) -> Result<Option<u64>, WalkError> {
    let mut of_other = *cursor;
    let other = handle.next_at_within(&mut of_other, steps);
    let told = handle.next_within(cursor, steps).map(|given| given.map(K::key));
    assert_eq!((other.map(|given| given.map(|(key, _)| key)), of_other), (told, *cursor));
    told
}

fn next_key<K: Both>(handle: &HandleOf<K>, cursor: &mut Cursor) -> Result<Option<u64>, WalkError> {
    next_key_within(handle, cursor, Steps::AMPLE)
}

fn open<K: Both>(shape: Shape, handles: usize, keys: &[u64]) -> Vec<HandleOf<K>> {
    Table::handles_with(shape.with_seed(0).with_handles(handles), &K::items(keys)).expect("a set")
}

of_sets_and_maps! {
    keys_come_bucket_by_bucket
    budgets_that_are_just_enough
    a_marked_node_is_passed
    empty_buckets_that_one_call_cannot_pass
    a_budget_that_is_too_small
    calls_between_those_of_a_walk
    a_renewal_between_calls_of_a_walk
    what_threads_leave_alone_and_what_they_change
}

fn keys_come_bucket_by_bucket<K: Both>() {
    let keys: Vec<u64> = (1..10).collect();
    assert_eq!(all_keys(&open::<K>(Shape::new(16, 4, 10), 1, &keys)[0]), ORDER);
    assert_eq!(all_keys(&open::<K>(Shape::new(16, 1, 10), 1, &keys)[0]), keys);
    assert_eq!(all_keys(&open::<K>(Shape::new(16, 4, 10), 1, &[])[0]), []);
    let handle = open::<K>(Shape::new(8, 1, 10), 1, &[0, u64::MAX]).remove(0);
    let mut cursor = Cursor::first();
    for key in [Some(0), Some(u64::MAX), None, None] {
        assert_eq!(next_key(&handle, &mut cursor), Ok(key));
    }
}

/// A call makes three steps for each bucket that it enters, and five for each node that it visits, and before each of these
/// eight have to be left. The buckets have no key, 4 and 7, 1, and no key; after 7 and 1 the cursor stands before the next one.
fn budgets_that_are_just_enough<K: Both>() {
    let handle = open::<K>(Shape::new(8, 4, 10), 1, &[1, 4, 7]).remove(0);
    let mut cursor = Cursor::first();
    for (key, least, stays) in [(Some(4), 14, false), (Some(7), 16, true), (Some(1), 11, true), (None, 8, true)] {
        let mut short = cursor;
        assert_eq!(next_key_within(&handle, &mut short, Steps::new(least - 1)), Err(WalkError::OutOfSteps));
        assert_eq!(short == cursor, stays);
        let again = next_key_within(&handle, &mut short, Steps::new(least - 1));
        assert_eq!(again, if stays { Err(WalkError::OutOfSteps) } else { Ok(key) });
        assert_eq!(next_key_within(&handle, &mut cursor, Steps::new(least)), Ok(key));
        assert_eq!(short == cursor, !stays);
    }
    assert_eq!(next_key_within(&handle, &mut cursor, Steps::new(0)), Ok(None));
}

/// A remove with sixteen steps marks its node and leaves it. A walk passes it in three.
fn a_marked_node_is_passed<K: Both>() {
    let mut handle = open::<K>(Shape::new(8, 4, 10), 1, &[4, 7]).remove(0);
    assert_eq!(K::remove_within(&mut handle, 4, Steps::new(16)), Ok(true));
    let mut cursor = Cursor::first();
    assert_eq!(next_key_within(&handle, &mut cursor.clone(), Steps::new(16)), Err(WalkError::OutOfSteps));
    assert_eq!(next_key_within(&handle, &mut cursor, Steps::new(17)), Ok(Some(7)));
    assert_eq!(all_keys(&handle), [7]);
}

/// A call with 100 steps passes 31 buckets that are empty, one with 8 a single one.
fn empty_buckets_that_one_call_cannot_pass<K: Both>() {
    for (buckets, budget, refusals) in [(310, 100, 9), (311, 100, 10), (5, 8, 4), (1 << 20, 100_000, 31)] {
        let handle = open::<K>(Shape::new(8, buckets, 10), 1, &[]).remove(0);
        let mut cursor = Cursor::first();
        for _ in 0..refusals {
            let before = cursor;
            assert_eq!(next_key_within(&handle, &mut cursor, Steps::new(budget)), Err(WalkError::OutOfSteps));
            assert_ne!(cursor, before);
        }
        assert_eq!(next_key_within(&handle, &mut cursor, Steps::new(budget)), Ok(None));
        assert_eq!(all_keys_within(&handle, Steps::new(budget)), []);
    }
    let handle = open::<K>(Shape::new(8, 1 << 20, 10), 1, &[2, 3, 4]).remove(0);
    for budget in [11, 100, 100_000] {
        assert_eq!(all_keys_within(&handle, Steps::new(budget)), [2, 4, 3]);
    }
}

/// With 21 steps a call visits three nodes of a bucket, and no fourth.
fn a_budget_that_is_too_small<K: Both>() {
    let keys: Vec<u64> = (1..10).collect();
    let mut handles = open::<K>(Shape::new(16, 1, 10), 2, &keys);
    let mut other = handles.remove(1);
    let mut walk = keys_of(&handles[0], Steps::new(21));
    let mut takes = |key| assert_eq!(K::remove(&mut other, key), Ok(true));
    for key in 1..4 {
        assert_eq!(walk.next(), Some(Ok(key)));
    }
    for key in 4..6 {
        assert_eq!(walk.next(), Some(Err(OutOfSteps)));
        assert_eq!(walk.next(), Some(Err(OutOfSteps)));
        takes(key - 3);
        assert_eq!(walk.next(), Some(Ok(key)));
    }
    (6..10).for_each(takes);
    assert_eq!((walk.next(), walk.next()), (None, None));
    drop(walk);
    assert_eq!(all_keys(&handles[0]), [3, 4, 5]);
    assert_eq!(handles[0].iter_within(Steps::new(21)).count(), 3);
    assert_eq!(handles[0].iter_within(Steps::new(7)).next(), Some(Err(OutOfSteps)));
}

/// After a renewal, with more buckets, fewer or as many, each call of a walk from before is refused, by each handle, and one that begins
/// anew gives each key once. A renewal that is refused, or one of other handles, leaves the walk as it is.
fn a_renewal_between_calls_of_a_walk<K: Both>() {
    let keys: Vec<u64> = (1..10).collect();
    for buckets in [16, 1, 4] {
        let mut handles = open::<K>(Shape::new(16, 4, 10), 2, &keys);
        let mut cursor = Cursor::first();
        let first: Vec<_> = (0..5).map(|i| next_key(&handles[i % 2], &mut cursor).expect("steps").expect("a key")).collect();
        assert_eq!(first, ORDER[..5]);
        assert_eq!(HandleOf::renew_all(&mut handles, Shape::new(8, 4, 10)), Err(RenewError::Slots));
        let mut apart = open::<K>(Shape::new(16, 4, 10), 1, &keys);
        HandleOf::renew_all(&mut apart, Shape::new(16, 4, 10)).expect("memory");
        assert_eq!(next_key(&handles[0], &mut cursor.clone()), Ok(Some(ORDER[5])));
        HandleOf::renew_all(&mut handles, Shape::new(16, buckets, 10)).expect("memory");
        for handle in &handles {
            let before = cursor;
            assert_eq!(next_key(handle, &mut cursor), Err(WalkError::Reshaped));
            assert_eq!(next_key_within(handle, &mut cursor, Steps::new(0)), Err(WalkError::Reshaped));
            assert_eq!(cursor, before);
            let mut given = all_keys(handle);
            given.sort_unstable();
            assert_eq!(given, keys);
        }
    }
}

/// Each key that comes is taken out, and another one put in, which comes too unless its place is passed.
fn calls_between_those_of_a_walk<K: Both>() {
    let keys: Vec<u64> = (0..1_000).collect();
    let mut handle = open::<K>(Shape::for_keys(1_000, 1), 1, &keys).remove(0);
    let mut given = BTreeSet::new();
    let mut cursor = Cursor::first();
    while let Some(key) = next_key(&handle, &mut cursor).expect("steps") {
        assert!(given.insert(key), "{key} twice");
        assert_eq!(K::remove(&mut handle, key), Ok(true));
        if key < 1_000 {
            assert_eq!(K::insert(&mut handle, key + 1_000), Ok(true));
        }
    }
    assert!(given.is_superset(&keys.into_iter().collect()));
    let left: BTreeSet<_> = all_keys(&handle).into_iter().collect();
    assert!(!left.is_empty() && given.len() > 1_000);
    assert!(left.is_disjoint(&given));
    assert!(left.union(&given).copied().eq(0..2_000));
}

/// How far a thread has come that inserts its keys, one after another, and removes each of them some inserts later.
#[derive(Default)]
struct Writer {
    /// How many of its inserts and of its removes were begun, and how many are done.
    begun: [AtomicU64; 2],
    done: [AtomicU64; 2],
}

const WRITERS: u64 = 2;
const WALKERS: u64 = 2;
const LASTING: u64 = 16;
const BEHIND: u64 = 16;
const ROUNDS: u64 = 10_000;
const WALKS: u64 = 1_000;

/// The key of a round of a writer. Those of the number `WRITERS` are in the set all the while.
fn key_of_round(writer: u64, round: u64) -> u64 {
    round * (WRITERS + 1) + writer
}

impl Writer {
    fn work<K: Both>(&self, number: u64, handle: &mut HandleOf<K>, is_over: impl Fn() -> bool) {
        for round in 0.. {
            if round >= ROUNDS && is_over() {
                return;
            }
            self.tells(0, round, || K::insert(handle, key_of_round(number, round)));
            if round >= BEHIND {
                self.tells(1, round - BEHIND, || K::remove(handle, key_of_round(number, round - BEHIND)));
            }
        }
    }

    fn tells<E: PartialEq + Debug>(&self, kind: usize, round: u64, call: impl FnOnce() -> Result<bool, E>) {
        self.begun[kind].store(round + 1, Ordering::Release);
        assert_eq!(call(), Ok(true));
        self.done[kind].store(round + 1, Ordering::Release);
    }
}

/// A walk, and whether it gave what it has to by what the program's order says: each key once that was inserted before it and
/// whose remove wasn't begun when it ended, and none whose insert wasn't begun then or that was removed before.
fn walk_and_check<K: Both>(handle: &HandleOf<K>, writers: &[Writer]) {
    let loads = |of: &[AtomicU64; 2]| of.each_ref().map(|it| it.load(Ordering::Acquire));
    let before: Vec<_> = writers.iter().map(|it| loads(&it.done)).collect();
    let all = all_keys(handle);
    let given: BTreeSet<_> = all.iter().copied().collect();
    assert_eq!(given.len(), all.len(), "a key twice");
    assert!((0..LASTING).all(|round| given.contains(&key_of_round(WRITERS, round))), "a lasting key is missing");
    let mut possible = LASTING as usize;
    for (number, (writer, [inserted, removed])) in (0..).zip(writers.iter().zip(before)) {
        let [inserting, removing] = loads(&writer.begun);
        assert!((removing..inserted).all(|round| given.contains(&key_of_round(number, round))), "a key is missing");
        possible += (removed..inserting).filter(|round| given.contains(&key_of_round(number, *round))).count();
    }
    assert_eq!(possible, all.len(), "a key that wasn't there");
}

fn what_threads_leave_alone_and_what_they_change<K: Both>() {
    let lasting: Vec<_> = (0..LASTING).map(|round| key_of_round(WRITERS, round)).collect();
    let keys = (LASTING + WRITERS * (BEHIND + 1)) as u32;
    for buckets in [1, 16, 256] {
        let shape = Shape::for_keys(keys, (WRITERS + WALKERS) as usize).with_buckets(buckets);
        let mut handles = open::<K>(shape, (WRITERS + WALKERS) as usize, &lasting);
        let writers: Vec<_> = (0..WRITERS).map(|_| Writer::default()).collect();
        let walks: Vec<_> = (0..WALKERS).map(|_| AtomicU64::new(0)).collect();
        let walked = || walks.iter().all(|it| it.load(Ordering::Relaxed) >= WALKS);
        let written = || writers.iter().all(|it| it.done[0].load(Ordering::Relaxed) >= ROUNDS);
        thread::scope(|scope| {
            for (number, writer) in (0..).zip(&writers) {
                let mut handle = handles.pop().expect("a handle for each");
                scope.spawn(move || writer.work(number, &mut handle, walked));
            }
            for count in &walks {
                let handle = handles.pop().expect("a handle for each");
                let writers = &writers;
                scope.spawn(move || {
                    while !(walked() && written()) {
                        walk_and_check(&handle, writers);
                        count.fetch_add(1, Ordering::Relaxed);
                    }
                });
            }
        });
    }
}

/// A value that comes is one that its key had during the walk: one thread stores ever greater ones.
#[test]
fn values_are_of_the_time_of_the_walk() {
    const KEYS: usize = 16;
    let mut handles = Map::handles(Shape::new(256, 4, MAX_EPOCH).with_handles(2)).expect("a map");
    let (mut writer, walker) = (handles.pop().expect("two handles"), handles.pop().expect("two handles"));
    let [begun, done] = [(); 2].map(|()| [const { AtomicU64::new(0) }; KEYS]);
    let loads = |of: &[AtomicU64; KEYS]| of.each_ref().map(|it| it.load(Ordering::Acquire));
    thread::scope(|scope| {
        let (begun, done) = (&begun, &done);
        scope.spawn(move || {
            for value in 1..=ROUNDS {
                for key in 0..KEYS {
                    let before = writer.remove(key as u64).expect("steps");
                    assert_eq!(before, (value > 1).then_some(value - 1));
                    begun[key].store(value, Ordering::Release);
                    assert_eq!(writer.try_insert(key as u64, value), Ok(true));
                    done[key].store(value, Ordering::Release);
                }
            }
        });
        while done[KEYS - 1].load(Ordering::Relaxed) < ROUNDS {
            let before = loads(done);
            let given: Vec<_> = walker.iter().collect::<Result<_, _>>().expect("steps");
            let after = loads(begun);
            for (key, value) in given {
                assert!((before[key as usize]..=after[key as usize]).contains(&value), "a value of another time");
            }
        }
    });
    assert!(walker.iter().all(|entry| entry.expect("steps").1 == ROUNDS));
    assert_eq!(walker.iter().count(), KEYS);
}

#[test]
fn walks_by_loans() {
    let (set, map) = (
        Set::open_with(Shape::new(16, 4, 10).with_seed(0).with_handles(2), &[1, 2, 3, 4, 5, 6, 7, 8, 9]).expect("a set"),
        Map::open_with(Shape::new(16, 4, 10).with_seed(0).with_handles(2), &[1, 2, 3, 4, 5, 6, 7, 8, 9].map(entry_of))
            .expect("a map"),
    );
    let mine = (set.lend().expect("a free handle"), map.lend().expect("a free handle"));
    let mut cursors = [Cursor::first(); 2];
    for key in ORDER {
        // each call by a loan of its own
        assert_eq!(set.lend().expect("a free handle").next(&mut cursors[0]), Ok(Some(key)));
        assert_eq!(map.lend().expect("a free handle").next(&mut cursors[1]), Ok(Some((key, value_of(key)))));
    }
    assert_eq!(mine.0.iter().collect::<Result<Vec<_>, _>>().expect("steps"), ORDER);
    assert!(mine.1.iter().map(|entry| entry.map(key_of)).eq(ORDER.map(Ok)));
    set.lend().expect("a free handle").remove(9).expect("steps");
    for key in &mine.0 {
        assert_eq!(mine.0.has(key.expect("steps")), Ok(true));
    }
    assert_eq!(mine.0.iter().count(), 8);
}

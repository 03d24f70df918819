//! Keys of maps by `entry`, and what `retain` leaves: alone, by rows that are worked by hand, and while other threads change the
//! same entries.
mod both;

use both::Both;
use std::cell::Cell;
use std::sync::atomic::{AtomicBool, Ordering};
use std::thread;
use vbr::{Change, Map, OutOfSteps, Refusal, Shape, Steps, Table};

const THREADS: usize = 4;

of_sets_and_maps! {
    what_is_retained
    a_refused_retain
    a_key_of_another_thread_is_retained_or_not
    what_is_drained
    a_refused_drain
    each_key_is_drained_once
}

#[test]
fn entries_alone() {
    let mut map = Map::handles_with(Shape::for_keys(8, 1), &[(5, 70_u32)]).expect("a map").remove(0);
    assert_eq!((map.entry(5).key(), map.entry(6).key()), (5, 6));
    assert_eq!((map.entry(5).or_insert(71), map.entry(6).or_insert(60)), (Ok(70), Ok(60)));
    assert_eq!((map.entry(5).or_default(), map.entry(7).or_default()), (Ok(70), Ok(0)));
    assert_eq!((map.entry(5).or_insert_with(|| unreachable!()), map.entry(8).or_insert_with(|| 80)), (Ok(70), Ok(80)));
    assert_eq!(map.entry(5).and_modify(|value| *value += 1).or_insert(1), Ok(71));
    assert_eq!(map.entry(9).and_modify(|_| unreachable!()).or_insert(90), Ok(90));
    assert_eq!(map.entry(9).and_modify(|value| *value /= 2).or_insert_with(|| unreachable!()), Ok(45));
    let made = Cell::new(0);
    assert_eq!(map.entry(10).and_modify(|_| unreachable!()).or_insert_with(|| made.replace(1) + 100), Ok(100));
    assert_eq!(made.get(), 1);
    assert_eq!(
        (map.entry(5).or_insert_with_key(|_| unreachable!()), map.entry(11).or_insert_with_key(|key| key + 1)),
        (Ok(71), Ok(12))
    );
    assert_eq!(map.entry(11).and_modify(|value| *value += 1).or_insert_with_key(|_| unreachable!()), Ok(13));
    assert_eq!(map.entry(12).and_modify(|_| unreachable!()).or_insert_with_key(|key| key * 2), Ok(24));
    let told = map.close().expect("a report").expect("the only handle").entries;
    assert_eq!(told, [(5, 71), (6, 60), (7, 0), (8, 80), (9, 45), (10, 100), (11, 13), (12, 24)]);
}

/// A refused entry leaves the map as it was.
#[test]
fn refused_entries() {
    let mut map = Map::handles_with(Shape::new(1, 1, 100), &[(5, 70)]).expect("a map").remove(0);
    assert_eq!(map.entry(6).or_insert(60), Err(Refusal::NoSlot));
    assert_eq!(map.entry(6).and_modify(|value| *value += 1).or_insert(60), Err(Refusal::NoSlot));
    assert_eq!(map.entry(5).and_modify(|value| *value += 1).or_insert(60), Err(Refusal::NoSlot));
    assert_eq!(map.entry(5).or_insert(60), Ok(70));
    map.set_steps(Steps::new(1));
    assert_eq!(map.entry(5).or_insert(60), Err(Refusal::OutOfSteps));
    assert_eq!(map.entry(5).or_insert_with(|| unreachable!()), Err(Refusal::OutOfSteps));
    assert_eq!(map.entry(5).and_modify(|_| unreachable!()).or_insert(60), Err(Refusal::OutOfSteps));
    assert_eq!(map.close().expect("a report").expect("the only handle").entries, [(5, 70)]);
}

/// What the closure is asked, and what becomes of the key, by rows.
#[test]
fn computed_alone() {
    let mut map = Map::handles_with(Shape::for_keys(8, 1), &[(5, 70)]).expect("a map").remove(0);
    let mut asked = vec![];
    let rows = [
        (5, Change::Keep, Some(70), Some(70)),
        (5, Change::Put(71), Some(70), Some(71)),
        (6, Change::Keep, None, None),
        (6, Change::Remove, None, None),
        (6, Change::Put(60), None, Some(60)),
        (6, Change::Remove, Some(60), None),
    ];
    for (key, change, before, after) in rows {
        let told = map.compute(key, |seen| {
            asked.push(seen);
            change
        });
        assert_eq!((told, map.get(key)), (Ok(before), Ok(after)));
    }
    assert_eq!(asked, rows.map(|(_, _, before, _)| before));
    assert_eq!((map.remove_when(5, |value| value == 70), map.remove_when(6, |_| unreachable!())), (Ok(None), Ok(None)));
    assert_eq!((map.remove_when(5, |value| value == 71), map.get(5)), (Ok(Some(71)), Ok(None)));
    let mut full = Map::handles_with(Shape::new(1, 1, 100), &[(5, 70)]).expect("a map").remove(0);
    for key in [5, 6] {
        assert_eq!(full.compute(key, |_| Change::Put(1)), Err(Refusal::NoSlot));
    }
    assert_eq!((full.compute(6, |_| Change::Remove), full.compute(5, |_| Change::Remove)), (Ok(None), Ok(Some(70))));
    assert_eq!(full.compute_within(5, |_| unreachable!(), Steps::new(1)), Err(Refusal::OutOfSteps));
}

/// Each thread takes tokens out of the same buckets, and the bucket with the last of them, while another one puts buckets in: no
/// token is taken twice, and none is lost.
#[test]
fn no_token_is_lost() {
    const BUCKETS: u64 = 20_000;
    const TOKENS: u64 = 7;
    let mut handles = Map::handles(Shape::for_keys(8, THREADS)).expect("a map");
    let (ends, mut puts) = (&AtomicBool::new(false), handles.pop().expect("handles"));
    let taken: u64 = thread::scope(|scope| {
        let threads: Vec<_> = handles
            .into_iter()
            .map(|mut map| {
                scope.spawn(move || {
                    let mut taken = 0;
                    while !ends.load(Ordering::Acquire) || map.has(5) == Ok(true) {
                        let before = map.compute(5, |tokens| match tokens {
                            None => Change::Keep,
                            Some(1) => Change::Remove,
                            Some(tokens) => Change::Put(tokens - 1),
                        });
                        taken += u64::from(before.expect("slots").is_some());
                    }
                    taken
                })
            })
            .collect();
        for _ in 0..BUCKETS {
            let added = puts.compute(5, |tokens| Change::Put(tokens.unwrap_or(0) + TOKENS));
            assert!(added.is_ok());
        }
        ends.store(true, Ordering::Release);
        threads.into_iter().map(|it| it.join().expect("a thread that ends")).sum()
    });
    assert_eq!(taken, BUCKETS * TOKENS);
    assert_eq!(puts.iter().count(), 0);
}

#[test]
fn keys_and_values() {
    let map = Map::handles_with(Shape::for_keys(8, 1), &[(5, 'a'), (6, 'b'), (7, 'a')]).expect("a map").remove(0);
    let entries: Vec<_> = map.iter().map(|entry| entry.expect("steps")).collect();
    assert!(map.keys().map(|key| key.expect("steps")).eq(entries.iter().map(|entry| entry.0)));
    assert!(map.values().map(|value| value.expect("steps")).eq(entries.iter().map(|entry| entry.1)));
    assert!(map.keys().clone().count() == 3 && format!("{:?}", map.values()).contains("Iter"));
}

/// Threads count the same words, which are taken out meanwhile: what was counted is what is left and what was taken.
#[test]
fn no_count_is_lost() {
    const EACH: u64 = 30_000;
    let mut handles = Map::handles(Shape::for_keys(8, THREADS)).expect("a map");
    let taken: u64 = thread::scope(|scope| {
        let counts = handles.iter_mut().map(|map| {
            scope.spawn(|| {
                let mut taken = 0;
                for turn in 0..EACH {
                    let count = map.entry(turn % 3).and_modify(|count| *count += 1).or_insert(1).expect("slots");
                    assert!(count > 0);
                    if turn % 64 == 0 {
                        taken += map.remove(turn % 3).expect("steps").unwrap_or(0);
                    }
                }
                taken
            })
        });
        let threads: Vec<_> = counts.collect();
        threads.into_iter().map(|it| it.join().expect("a thread that ends")).sum()
    });
    let left: u64 = handles[0].iter().map(|entry| entry.expect("steps").1).sum();
    assert!(taken > 0 && left + taken == THREADS as u64 * EACH);
}

fn what_is_retained<K: Both>() {
    let keys: Vec<u64> = (0..100).collect();
    let mut handle = Table::<K>::handles_with(Shape::for_keys(100, 1), &K::items(&keys)).expect("a set").remove(0);
    assert_eq!(K::retain(&mut handle, |_| true), Ok(0));
    assert_eq!(K::retain(&mut handle, |key| key % 10 == 7), Ok(90));
    assert_eq!(handle.iter().count(), 10);
    assert_eq!(K::retain(&mut handle, |_| false), Ok(10));
    assert_eq!(K::retain(&mut handle, |_| unreachable!()), Ok(0));
}

/// With 21 steps a walk comes over three nodes of a bucket: what was taken out before stays out.
fn a_refused_retain<K: Both>() {
    let shape = Shape::new(16, 1, 100).with_steps(Steps::new(21));
    let mut handle = Table::<K>::handles_with(shape, &K::items(&[1, 2, 3, 4, 5])).expect("a set").remove(0);
    assert_eq!(K::retain(&mut handle, |_| true), Err(OutOfSteps));
    handle.set_steps(Steps::AMPLE);
    let mut asked = 0;
    let keeps = |key| {
        asked += 1;
        key != 4
    };
    assert_eq!(K::retain(&mut handle, keeps), Ok(1));
    assert_eq!((asked, K::report(handle.close().expect("a report").expect("the only handle")).keys), (5, vec![1, 2, 3, 5]));
}

fn a_key_of_another_thread_is_retained_or_not<K: Both>() {
    let mut handles = Table::<K>::handles_with(Shape::for_keys(64, 2), &K::items(&[0, 1])).expect("a set");
    let mut other = handles.pop().expect("two handles");
    let is_over = &AtomicBool::new(false);
    thread::scope(|scope| {
        scope.spawn(move || {
            for turn in 0..20_000 {
                assert!(K::insert(&mut other, turn % 32 + 2).is_ok());
            }
            is_over.store(true, Ordering::Release);
        });
        while !is_over.load(Ordering::Acquire) {
            K::retain(&mut handles[0], |key| key < 2).expect("steps");
        }
    });
    K::retain(&mut handles[0], |key| key < 2).expect("steps");
    assert!(handles[0].iter().map(|given| K::key(given.expect("steps"))).all(|key| key < 2));
    assert_eq!(handles[0].iter().count(), 2);
}

/// An entry goes only with a value that was seen: one thread puts even and odd values in turn, and another takes out even ones, so
/// each odd one is found by the put of the next.
#[test]
fn a_value_that_was_not_seen_stays() {
    let mut handles = Map::handles_with(Shape::for_keys(8, 2), &[(5, 1)]).expect("a map");
    let mut other = handles.pop().expect("two handles");
    let is_over = &AtomicBool::new(false);
    let (taken, [odd, absent]) = thread::scope(|scope| {
        let puts = scope.spawn(move || {
            let mut counts = [0; 2];
            for turn in 0..50_000_u64 {
                match other.put(5, turn).expect("slots") {
                    Some(before) => counts[0] += before % 2,
                    None => counts[1] += 1,
                }
                while turn == 0 && other.has(5) == Ok(true) {
                    thread::yield_now(); // the other thread has begun once it takes this one
                }
                if turn % 15 == 0 {
                    thread::yield_now(); // after an even value and an odd one in turn
                }
            }
            is_over.store(true, Ordering::Release);
            counts
        });
        let mut taken = 0;
        while !is_over.load(Ordering::Acquire) {
            let odd = |_, value| {
                thread::yield_now(); // so that another value comes meanwhile
                value % 2 == 1
            };
            taken += handles[0].retain(odd).expect("steps");
        }
        (taken, puts.join().expect("a thread that ends"))
    });
    assert_eq!((odd, absent), (25_000, taken));
    assert!(taken > 0);
    assert_eq!(handles[0].get(5), Ok(Some(49_999)));
}

fn what_is_drained<K: Both>() {
    let keys: Vec<u64> = (0..100).collect();
    let mut handle = Table::<K>::handles_with(Shape::for_keys(100, 1), &K::items(&keys)).expect("a set").remove(0);
    let mut some: Vec<_> = handle.drain().take(10).map(|taken| K::key(taken.expect("steps"))).collect();
    assert!(handle.iter().count() == 90 && some.iter().all(|&key| handle.has(key) == Ok(false)));
    some.extend(handle.drain().map(|taken| K::key(taken.expect("steps"))));
    some.sort_unstable();
    assert!(some == keys && handle.drain().next().is_none());
    assert_eq!(K::insert(&mut handle, 5), Ok(true));
    assert_eq!((handle.clear(), handle.clear(), handle.balance()), (Ok(1), Ok(0), 0));
}

/// In one bucket, 19 steps are enough for a walk to the first node, and one fewer than a remove of one of two wants.
fn a_refused_drain<K: Both>() {
    let shape = Shape::new(16, 1, 100).with_steps(Steps::new(1));
    let mut handle = Table::<K>::handles_with(shape, &K::items(&[1, 2, 3])).expect("a set").remove(0);
    assert_eq!(handle.drain().take(3).collect::<Vec<_>>(), [Err(OutOfSteps); 3]);
    assert_eq!((handle.clear(), handle.has_within(1, Steps::AMPLE)), (Err(OutOfSteps), Ok(true)));
    let mut taken = 0;
    for steps in 2..60 {
        handle.set_steps(Steps::new(steps));
        taken += handle.drain().map_while(Result::ok).count();
        handle.set_steps(Steps::AMPLE);
        assert_eq!(handle.iter().count(), 3 - taken); // nothing is taken that isn't given
    }
    assert_eq!(taken, 3);
}

/// Threads drain while another one inserts: each key is taken by one of them, or left.
fn each_key_is_drained_once<K: Both>() {
    const KEYS: u64 = 5_000;
    let mut handles = Table::<K>::handles(Shape::for_keys(5_000, THREADS)).expect("a set");
    let (ends, mut inserts) = (&AtomicBool::new(false), handles.pop().expect("handles"));
    let mut taken: Vec<u64> = thread::scope(|scope| {
        let threads: Vec<_> = handles
            .into_iter()
            .map(|mut handle| {
                scope.spawn(move || {
                    let mut taken = vec![];
                    while !ends.load(Ordering::Acquire) {
                        taken.extend(handle.drain().map(|each| K::key(each.expect("steps"))));
                    }
                    taken
                })
            })
            .collect();
        for key in 0..KEYS {
            assert_eq!(K::insert(&mut inserts, key), Ok(true));
        }
        ends.store(true, Ordering::Release);
        threads.into_iter().flat_map(|it| it.join().expect("a thread that ends")).collect()
    });
    taken.extend(inserts.drain().map(|each| K::key(each.expect("steps"))));
    taken.sort_unstable();
    assert!(taken.into_iter().eq(0..KEYS));
}

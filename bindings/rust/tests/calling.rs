//! Calls of a set or a map itself, whose loan is back when they return; and calls that renew it, or let it grow, where they are
//! refused.
#![allow(clippy::cast_possible_truncation, reason = "the numbers are small")]
mod both;

use both::Both;
use std::panic::{catch_unwind, AssertUnwindSafe};
use std::thread;
use vbr::{Compared, Growth, Map, OutOfSteps, Refusal, Set, Shape, Steps, Table};

of_sets_and_maps! {
    a_call_renews
    a_call_grows
    a_call_is_refused
    threads_grow_once
    a_loan_is_back_after_a_panic
    a_loan_is_gone_over
}

/// Of one handle, so one that stayed on loan would leave the next call waiting.
#[test]
fn calls_of_a_set() {
    let set = Set::open(Shape::for_keys(8, 1)).expect("a set");
    assert_eq!((set.insert(5), set.insert(5), set.contains(5), set.has(6)), (Ok(true), Ok(false), Ok(true), Ok(false)));
    if set.contains(6) == Ok(false) {
        assert_eq!(set.insert(6), Ok(true));
    }
    assert_eq!((set.remove(5), set.remove(5)), (Ok(true), Ok(false)));
    assert!(set.lend().is_some());
    assert_eq!(set.close().expect("a report").keys, [6]);
}

#[test]
fn calls_of_a_map() {
    let map = Map::open(Shape::for_keys(8, 1)).expect("a map");
    match map.get(5) {
        Ok(None) => assert_eq!(map.put(5, 70_u64), Ok(None)),
        told => panic!("{told:?}"),
    }
    assert_eq!((map.try_insert(5, 71), map.try_insert(6, 80)), (Ok(false), Ok(true)));
    assert_eq!((map.contains_key(5), map.has(7), map.get(6)), (Ok(true), Ok(false), Ok(Some(80))));
    assert_eq!((map.put(5, 71), map.replace(5, 72), map.replace(7, 1)), (Ok(Some(70)), Ok(Some(71)), Ok(None)));
    assert_eq!((map.get_or_insert(5, 1), map.get_or_insert(7, 90)), (Ok(Some(72)), Ok(None)));
    assert_eq!((map.fetch_add(7, 3), map.fetch_add(7, u64::MAX - 2)), (Ok(Some(90)), Ok(Some(93))));
    assert_eq!(map.compare_exchange(5, 72, 73), Ok(Compared::Equal));
    assert_eq!(map.compare_exchange(5, 72, 74), Ok(Compared::Other(73)));
    assert_eq!((map.fetch_update(5, |it| it.checked_add(1)), map.get(5)), (Ok(Some(73)), Ok(Some(74))));
    assert_eq!((map.remove_if(6, 1), map.remove_if(6, 80)), (Ok(Compared::Other(80)), Ok(Compared::Equal)));
    assert_eq!((map.remove(7), map.remove(7)), (Ok(Some(90)), Ok(None)));
    assert!(map.lend().is_some());
    assert_eq!(map.close().expect("a report").entries, [(5, 74)]);
}

#[test]
fn four_threads_count() {
    let visits: Map = Map::open(Shape::for_keys(8, 4)).expect("a map");
    thread::scope(|scope| {
        for _ in 0..4 {
            scope.spawn(|| (0..20_000).for_each(|_| assert!(visits.fetch_add(5, 3).is_ok())));
        }
    });
    assert_eq!(visits.close().expect("a report").entries, [(5, 240_000)]);
}

/// A loan of the statement lasts through its loop; a walk that is cloned goes on from the same place.
fn a_loan_is_gone_over<K: Both>() {
    let set = Table::<K>::open_with(Shape::for_keys(8, 1), &K::items(&[5, 7])).expect("a set");
    let mut sum = 0;
    for given in &set.lend_wait() {
        assert!(set.lend().is_none());
        sum += K::key(given.expect("steps"));
    }
    assert_eq!(sum, 5 + 7);
    let mine = set.lend_wait();
    let (mut walk, mut at) = (mine.iter(), mine.iter_at());
    assert!(walk.next().is_some() && at.next().is_some());
    assert!(walk.clone().eq(walk.clone()) && at.clone().count() == 1 && walk.count() == 1);
}

#[test]
fn a_budget_is_that_of_the_handle() {
    let set = Set::open_with(Shape::for_keys(8, 1).with_steps(Steps::new(1)), &[5_u64]).expect("a set");
    assert_eq!((set.has(5), set.remove(5), set.insert(6)), (Err(OutOfSteps), Err(OutOfSteps), Err(Refusal::OutOfSteps)));
    let mut asked = 0;
    let told = set.call(Growth::up_to(1_000), |mine| {
        asked += 1;
        mine.insert(6)
    });
    assert_eq!((told, asked, set.slots()), (Err(Refusal::OutOfSteps), 1, 72));
}

/// A thousand inserts and removes, of a set that lasts twenty epochs; it is renewed to the same shape, with what was in it.
fn a_call_renews<K: Both>() {
    let shape = Shape::new(8, 2, 20).with_handles(2);
    let set = Table::<K>::open_with(shape, &K::items(&[7])).expect("a set");
    let mut asked = 0;
    for key in 100..1_100 {
        let mut add = |mine: &mut vbr::PassOf<K>| {
            asked += 1;
            K::insert(mine, key)
        };
        assert_eq!(set.call(Growth::NONE, &mut add), Ok(true));
        assert_eq!(K::remove(&mut set.lend_wait(), key), Ok(true));
    }
    assert!(asked > 1_000, "no epoch was spent");
    assert_eq!((set.slots(), set.buckets(), set.last_epoch()), (8, 2, 20));
    assert_eq!(K::report(set.close().expect("a report")).keys, [7]);
}

/// It doubles its slots and buckets, up to the most.
fn a_call_grows<K: Both>() {
    let set = Table::<K>::open(Shape::new(2, 1, 1 << 40)).expect("a set");
    let mut sizes = vec![];
    for key in 0..100 {
        assert_eq!(set.call(Growth::up_to(100), |mine| K::insert(mine, key)), Ok(true));
        sizes.push((set.slots(), set.buckets()));
    }
    sizes.dedup();
    assert_eq!(sizes, [(2, 1), (4, 2), (8, 4), (16, 8), (32, 16), (64, 32), (100, 64)]);
    assert_eq!(set.call(Growth::up_to(100), |mine| K::insert(mine, 100)), Err(Refusal::NoSlot));
    assert_eq!(set.call(Growth::up_to(1), |mine| K::insert(mine, 100)), Err(Refusal::NoSlot));
    assert_eq!((set.slots(), set.last_epoch()), (100, 1 << 40));
    assert!(K::report(set.close().expect("a report")).keys.into_iter().eq(0..100));
}

/// Where no renewal helps, it is refused at once. A last epoch that more slots leave no room for becomes the greatest of them.
fn a_call_is_refused<K: Both>() {
    let spent = Table::<K>::open(Shape::new(2, 1, 1)).expect("a set");
    let fills = (0..9).find_map(|key| spent.call(Growth::NONE, |mine| K::insert(mine, key)).err());
    assert!(fills.is_some() && spent.lend().is_some());
    let most = vbr::max_epoch(1_023);
    let set = Table::<K>::open(Shape::new(1_023, 1_024, most)).expect("a set");
    for key in 0..1_200 {
        assert_eq!(set.call(Growth::up_to(u32::MAX), |mine| K::insert(mine, key)), Ok(true));
    }
    assert_eq!((set.slots(), set.last_epoch()), (2_046, vbr::max_epoch(2_046)));
    assert!(vbr::max_epoch(2_046) < most);
}

/// Eight threads fill a set that begins with room for a few keys: whoever of them are refused together let it grow once.
fn threads_grow_once<K: Both>() {
    const EACH: u64 = 500;
    let set = Table::<K>::open(Shape::new(4 * 64, 8, 1 << 30).with_handles(4)).expect("a set");
    thread::scope(|scope| {
        for thread in 0..8 {
            let set = &set;
            scope.spawn(move || {
                for key in thread * EACH..(thread + 1) * EACH {
                    assert_eq!(set.call(Growth::up_to(1 << 20), |mine| K::insert(mine, key)), Ok(true));
                    assert_eq!(set.has(key), Ok(true));
                }
            });
        }
    });
    // each key has a slot, and a handle keeps 64: so none is lacking where there are twice as many as that
    assert!((8 * EACH as u32..=4 * (8 * EACH as u32 + 4 * 64)).contains(&set.slots()), "{} slots", set.slots());
    assert!(K::report(set.close().expect("a report")).keys.into_iter().eq(0..8 * EACH));
}

fn a_loan_is_back_after_a_panic<K: Both>() {
    let set = Table::<K>::open_with(Shape::for_keys(8, 1), &K::items(&[5])).expect("a set");
    let told = catch_unwind(AssertUnwindSafe(|| set.call(Growth::NONE, |_| -> Result<(), Refusal> { panic!("a call") })));
    assert!(told.is_err() && set.has(5) == Ok(true));
}

//! Slots in hand, and records beside them: what is answered, and what is left.
mod both;

use both::Both;
use std::iter::FusedIterator;
use std::mem::forget;
use std::sync::Barrier;
use std::thread;
use vbr::{
    Cursor, Handle, HandleOf, Incarnation, Map, MapHandle, OpenError, OutOfSteps, Record, Records, Refusal, RenewError, Set,
    Shape, ShapeError, Steps, Table,
};

fn map(keys: u32) -> MapHandle<u64, u64> {
    Map::handles(Shape::for_keys(keys, 1)).expect("a map").remove(0)
}

/// The only slot of a map is in hand, in a node, or free.
#[test]
fn a_slot_that_is_dropped_is_put_back() {
    let mut handles = Map::<u64, u64>::handles(Shape::new(1, 1, 1_000).with_handles(2)).expect("a map");
    let (first, rest) = handles.split_at_mut(1);
    let other = &mut rest[0];
    for _ in 0..100 {
        let held = first[0].hold().expect("a slot");
        assert_eq!(other.hold().err(), Some(Refusal::NoSlot));
        assert_eq!((held.slot(), held.has(5)), (0, Ok(false)));
        drop(held);
        first[0].give_slots_back();
        let held = other.hold().expect("a slot");
        assert!(held.try_insert(5, 70).expect("steps").is_ok());
        assert_eq!(other.remove(5), Ok(Some(70)));
        other.give_slots_back();
    }
}

#[test]
fn a_slot_comes_back_where_nothing_was_done() {
    let mut map = map(8);
    assert_eq!(map.put(5, 70), Ok(None));
    let before = map.get_entry(5).expect("steps").expect("5 is there");
    let held = map.hold().expect("a slot");
    let slot = held.slot();
    let held = held.try_insert(5, 71).expect("steps").expect_err("5 is there");
    let held = held.replace(6, &before, 71).expect("steps").expect_err("6 is absent");
    assert_eq!(held.slot(), slot);
    assert_eq!(held.put(5, 72), Ok(Some(70)));
    assert_eq!(map.get_entry(5).expect("steps").map(|at| (at.slot(), at.value())), Some((slot, 72)));
    assert_eq!(map.remove_entry(5, &before), Ok(false));
    map.set_steps(Steps::new(1));
    assert_eq!(map.hold().err(), Some(Refusal::OutOfSteps));
    assert_eq!(map.get_entry(5), Err(OutOfSteps));
}

/// A slot of which nobody knows any more that it is held.
#[test]
fn a_slot_that_is_forgotten() {
    let mut map = map(8);
    forget(map.hold().expect("a slot"));
    assert_eq!(map.try_insert(5, 70), Err(Refusal::Held));
    assert_eq!(map.put(5, 70), Err(Refusal::Held));
    assert_eq!((map.get(5), map.remove(5)), (Ok(None), Ok(None)));
    drop(map.hold().expect("it is put back, and another one is held"));
    assert_eq!(map.try_insert(5, 70), Ok(true));
    forget(map.hold().expect("a slot"));
    let report = map.close().expect("memory").expect("the only handle");
    assert_eq!((report.entries, report.free), (vec![(5, 70)], 8 + 64 - 1));
}

#[test]
fn a_set_has_slots_too() {
    let mut handles = Set::handles_with(Shape::for_keys(8, 2), &[5_u64, 7]).expect("a set");
    let held = handles[0].hold().expect("a slot");
    let slot = held.slot();
    let held = held.insert(5).expect("steps").expect_err("5 is there");
    assert!(held.insert(6).expect("steps").is_ok());
    assert_eq!(handles[1].get_entry(6).expect("steps").map(|at| at.slot()), Some(slot));
    assert_eq!(handles[1].get_entry(7).expect("steps").map(|at| at.slot()), Some(1));
    Handle::renew_all(&mut handles, Shape::for_keys(8, 2)).expect("memory");
    assert_eq!(handles[1].get_entry(6).expect("steps").map(|at| at.slot()), Some(1));
}

of_sets_and_maps! {
    an_entry_is_taken_for_no_later_one
    a_walk_tells_where_keys_stand
    a_walk_takes_out_what_it_found
    while_a_slot_is_in_hand
    no_entry_is_taken_out_twice
}

fn open<K: Both>(shape: Shape, keys: &[u64]) -> Vec<HandleOf<K>> {
    Table::handles_with(shape.with_seed(0), &K::items(keys)).expect("a set")
}

fn entry<K: Both>(handle: &HandleOf<K>, key: u64) -> Incarnation<K> {
    handle.get_entry(key).expect("steps").expect("the key is there")
}

/// A set with one slot, in which the key stands again and again.
fn an_entry_is_taken_for_no_later_one<K: Both>() {
    let mut handle = open::<K>(Shape::new(1, 1, 1_000), &[5]).remove(0);
    let mut before = entry(&handle, 5);
    for _ in 0..50 {
        assert_eq!(K::remove(&mut handle, 5), Ok(true));
        assert_eq!(handle.remove_entry(5, &before), Ok(false)); // it is absent
        assert_eq!(K::insert(&mut handle, 5), Ok(true));
        assert_eq!(handle.remove_entry(5, &before), Ok(false)); // it has another entry
        let now = entry(&handle, 5);
        assert!(now.slot() == 0 && before.slot() == 0 && now != before);
        before = now;
    }
    assert_eq!(handle.remove_entry(6, &before), Ok(false)); // another key
    assert_eq!(handle.remove_entry_within(5, &before, Steps::new(1)), Err(OutOfSteps));
    assert_eq!((handle.has(5), handle.balance()), (Ok(true), 1));
    assert_eq!(handle.remove_entry_within(5, &before, Steps::new(9 + 11)), Ok(true));
    assert_eq!((handle.has(5), handle.balance()), (Ok(false), 0));
}

/// Key i stands in slot i - 1, since the set opens with 1 to 9; they come as in `iterating.rs`.
fn a_walk_tells_where_keys_stand<K: Both>() {
    let handle = open::<K>(Shape::new(16, 4, 10), &[1, 2, 3, 4, 5, 6, 7, 8, 9]).remove(0);
    let slots = [1, 4, 3, 6, 0, 5, 8, 2, 7];
    let walk: Vec<_> = handle.iter_at().collect::<Result<_, _>>().expect("steps");
    assert_eq!(walk.iter().map(|(_, at)| at.slot()).collect::<Vec<_>>(), slots);
    assert!(walk.iter().all(|(key, at)| u64::from(at.slot()) == key - 1 && entry(&handle, *key) == *at));
    let mut cursor = Cursor::first();
    for each in walk {
        assert_eq!(handle.next_at(&mut cursor), Ok(Some(each)));
    }
    assert_eq!((handle.next_at(&mut cursor), handle.next_at(&mut cursor)), (Ok(None), Ok(None)));
    // eleven steps are enough for the first key of a bucket, and not for the next one
    let mut walk = fused(handle.iter_at_within(Steps::new(11)));
    assert_eq!(walk.next().map(|told| told.map(|(key, _)| key)), Some(Ok(2)));
    assert_eq!((walk.next(), walk.next()), (Some(Err(OutOfSteps)), Some(Err(OutOfSteps))));
}

fn fused<I: FusedIterator>(walk: I) -> I {
    walk
}

/// Each key leaves, and so is none of those that come later.
fn a_walk_takes_out_what_it_found<K: Both>() {
    let keys: Vec<u64> = (0..1_000).collect();
    let mut handle = open::<K>(Shape::for_keys(1_000, 1), &keys).remove(0);
    let (mut cursor, mut given) = (Cursor::first(), Vec::new());
    while let Some((key, at)) = handle.next_at(&mut cursor).expect("steps") {
        if key % 2 == 0 {
            assert_eq!((K::remove(&mut handle, key), K::insert(&mut handle, key)), (Ok(true), Ok(true)));
        }
        assert_eq!(handle.remove_entry(key, &at), Ok(key % 2 == 1));
        given.push(key);
    }
    given.sort_unstable();
    assert_eq!(given, keys);
    let left = K::report(handle.close().expect("memory").expect("the only handle"));
    assert!(left.keys.into_iter().eq((0..1_000).step_by(2)));
}

fn while_a_slot_is_in_hand<K: Both>() {
    let mut handle = open::<K>(Shape::for_keys(8, 1), &[5, 7]).remove(0);
    let at = entry(&handle, 5);
    let held = handle.hold().expect("a slot");
    assert!(held.iter_at().map(|each| each.expect("steps").1.slot()).all(|slot| slot < 2));
    assert_eq!(held.next_at(&mut Cursor::first()).map(|given| given.is_some()), Ok(true));
    forget(held);
    assert_eq!(K::insert(&mut handle, 6), Err(Refusal::Held));
    assert_eq!((handle.remove_entry(5, &at), handle.remove_entry(5, &at)), (Ok(true), Ok(false)));
    assert_eq!(handle.iter_at().map(|each| each.expect("steps").1.slot()).collect::<Vec<_>>(), [1]);
    assert_eq!(K::insert(&mut handle, 6), Err(Refusal::Held)); // it is in hand still
}

/// Four threads add two keys, and take out the entries that they find.
fn no_entry_is_taken_out_twice<K: Both>() {
    let (mut handles, all_at_once) = (open::<K>(Shape::for_keys(2, 4), &[]), Barrier::new(4));
    let work = |handle: &mut HandleOf<K>, first: u64| {
        let (mut added, mut taken) = (0, Vec::new());
        all_at_once.wait();
        for key in (first..first + 200_000).map(|round| round % 2) {
            match handle.get_entry(key).expect("steps") {
                None => added += usize::from(K::insert(handle, key).expect("a slot")),
                Some(at) if handle.remove_entry(key, &at).expect("steps") => taken.push((at.slot(), at.birth())),
                Some(_) => {} // another thread was faster
            }
        }
        (added, taken)
    };
    let told: Vec<_> = thread::scope(|scope| {
        let threads: Vec<_> =
            handles.iter_mut().zip(0..).map(|(handle, first)| scope.spawn(move || work(handle, first))).collect();
        threads.into_iter().map(|thread| thread.join().expect("a thread that ends")).collect()
    });
    let added: usize = told.iter().map(|(added, _)| added).sum();
    let mut taken: Vec<_> = told.into_iter().flat_map(|(_, taken)| taken).collect();
    assert_eq!(added, taken.len() + handles[0].iter().count());
    let count = taken.len();
    taken.sort_unstable();
    taken.dedup();
    assert_eq!(taken.len(), count);
}

vbr::record! {
    #[derive(Clone, Copy, Debug, PartialEq)]
    struct Mixed {
        name: [u8; 13],
        numbers: (i16, [f64; 3]),
        is_so: bool,
        letter: char,
    }
}

/// What a record is made of comes back as it was; and any words make one.
#[test]
fn records_of_all_sorts() {
    assert_eq!(Mixed::WORDS, 2 + 1 + 3 + 1 + 1);
    let mixed = Mixed { name: *b"thirteen long", numbers: (-7, [0.5, -0.0, f64::MAX]), is_so: true, letter: 'ß' };
    let mut handle = Set::handles(Shape::for_keys(8, 1)).expect("a set").remove(0);
    let records = Records::open(handle.slots()).expect("memory");
    let mut held = handle.hold().expect("a slot");
    records.write(&mut held, &mixed);
    assert!(held.insert(5_u64).expect("steps").is_ok());
    assert_eq!(records.read(&handle, 5), Ok(Some(mixed)));
    assert!(handle.insert(6).expect("a slot"));
    let zeros = Mixed { name: [0; 13], numbers: (0, [0.0; 3]), is_so: false, letter: '\0' };
    assert_eq!(records.read(&handle, 6), Ok(Some(zeros))); // nobody wrote it
    assert_eq!(Mixed::load(&mut || u64::MAX).letter, '\0');
    assert!(matches!(Records::<[u64; usize::MAX >> 8]>::open(1 << 20), Err(OpenError::Memory)));
}

#[test]
fn renewals_of_records() {
    let small = Shape::for_keys(64, 2);
    let map = Map::<u64, ()>::open(small).expect("a map");
    let records = Records::open(small.slots).expect("memory");
    for key in 0..64 {
        let mut mine = map.lend_wait();
        let mut held = mine.hold().expect("a slot");
        records.write(&mut held, &[key; 5]);
        assert!(held.try_insert(key, ()).expect("steps").is_ok());
    }
    let larger = Shape::for_keys(65, 2);
    assert_eq!(records.renew(&map, larger), Err(RenewError::Shape(ShapeError::Slots(larger.slots))));
    assert_eq!(records.renew(&map, small.with_slots(63)), Err(RenewError::Slots));
    for shape in [small, small.with_slots(64).with_buckets(7), small.with_seed(7)] {
        records.renew(&map, shape).expect("memory");
        for key in 0..64 {
            assert_eq!(records.read(&map.lend_wait(), key), Ok(Some([key; 5])));
        }
    }
    assert_eq!(map.close().expect("memory").entries.len(), 64);
}

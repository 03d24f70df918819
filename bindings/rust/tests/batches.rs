//! Look-ups of many keys: more than a batch, none, the same key twice, and refusals of single keys. And batches that change a set,
//! which say how far they came.
mod both;

use both::{entry_of, value_of, Both};
use std::thread;
use vbr::{HandleOf, Map, OutOfSteps, Refusal, Set, Shape, Steps, Stopped, Table};

of_sets_and_maps! {
    many_keys
    keys_are_refused_by_themselves
    all_that_an_iterator_gives
    a_batch_that_stops
    batches_of_a_large_set
    batches_beside_each_other
}

fn opened_with<K: Both>(shape: Shape, keys: &[u64]) -> HandleOf<K> {
    Table::handles_with(shape, &K::items(keys)).expect("a set").remove(0)
}

/// Odd keys are there.
fn many_keys<K: Both>() {
    let odd: Vec<u64> = (1..200).step_by(2).collect();
    let handle = opened_with::<K>(Shape::for_keys(200, 1), &odd);
    for count in [0, 1, 2, 15, 16, 17, 33, 64, 65, 199] {
        let keys: Vec<u64> = (0..count).collect();
        let mut answers = vec![Err(OutOfSteps); keys.len()];
        handle.has_all(&keys, &mut answers);
        assert!(answers.iter().zip(&keys).all(|(&answer, key)| answer == Ok(key % 2 == 1)));
    }
    let mut twice = [Ok(false); 3];
    handle.has_all(&[7, 8, 7], &mut twice);
    assert_eq!(twice, [Ok(true), Ok(false), Ok(true)]);
}

/// In one bucket, twenty steps are enough for the first node and for no other: three to start, five for a node, and eight have to
/// be left.
fn keys_are_refused_by_themselves<K: Both>() {
    let handle = opened_with::<K>(Shape::new(100, 1, 100), &[1, 2, 3]);
    let mut answers = [Ok(false); 5];
    handle.has_all_within(&[1, 2, 0, 3, 1], &mut answers, Steps::new(20));
    let refused = Err(OutOfSteps);
    assert_eq!(answers, [Ok(true), refused, Ok(false), refused, Ok(true)]);
}

#[test]
fn values() {
    let some: Vec<_> = (0..50).map(|i| entry_of(2 * i + 1)).collect();
    let handle = Map::handles_with(Shape::for_keys(200, 1), &some).expect("a map").remove(0);
    let keys: Vec<u64> = (0..100).rev().collect();
    let mut values = vec![Err(OutOfSteps); 100];
    handle.get_all(&keys, &mut values);
    assert!(values.iter().zip(&keys).all(|(&value, &key)| value == Ok((key % 2 == 1).then(|| value_of(key)))));
    handle.get_all_within(&keys, &mut values, Steps::new(10));
    assert!(values.iter().all(|&value| value == Err(OutOfSteps)));
}

#[test]
#[should_panic(expected = "as many answers as keys")]
fn fewer_answers_than_keys() {
    let handle = Set::handles(Shape::for_keys(8, 1)).expect("a set").remove(0);
    handle.has_all(&[1, 2], &mut [Ok(false)]);
}

#[test]
#[should_panic(expected = "as many answers as keys")]
fn more_values_than_keys() {
    let handle = Map::<u64, u64>::handles(Shape::for_keys(8, 1)).expect("a map").remove(0);
    handle.get_all(&[1], &mut [Ok(None); 2]);
}

fn all_that_an_iterator_gives<K: Both>() {
    let mut handle = opened_with::<K>(Shape::for_keys(300, 1), &[5, 7]);
    assert_eq!(handle.try_extend((0..200).map(K::item)), Ok(198));
    assert_eq!((handle.try_extend([]), handle.try_extend(K::items(&[7, 200, 200]))), (Ok(0), Ok(1)));
    assert_eq!(K::insert_all(&mut handle, &[0, 201, 202, 201]), Ok(2));
    assert!(K::report(handle.close().expect("a report").expect("the only handle")).keys.into_iter().eq(0..203));
}

/// With room for four keys and two there, the third absent one is refused; what was done before stays, and what is left goes on.
fn a_batch_that_stops<K: Both>() {
    let mut handle = opened_with::<K>(Shape::new(4, 2, 100), &[5, 7]);
    let keys = [7, 8, 5, 9, 10, 11];
    let stopped: Stopped<K::Item> = K::insert_all(&mut handle, &keys).expect_err("no room");
    assert_eq!((stopped.done, stopped.added, K::key(stopped.item)), (4, 2, 10));
    assert_eq!((stopped.refusal, stopped.to_string()), (Refusal::NoSlot, "after 4 items no slot was found".to_string()));
    let mut items = K::items(&keys[4..]).into_iter();
    let stopped = handle.try_extend(items.by_ref()).expect_err("no room");
    assert_eq!((stopped.done, stopped.added, K::key(stopped.item), items.len()), (0, 0, 10, 1));
    assert_eq!(Refusal::from(stopped), Refusal::NoSlot);
    handle.set_steps(Steps::new(1));
    let stopped = K::insert_all(&mut handle, &keys).expect_err("no steps");
    assert_eq!((stopped.done, stopped.refusal), (0, Refusal::OutOfSteps));
    let told = K::report(handle.close().expect("a report").expect("the only handle"));
    assert_eq!(told.keys, [5, 7, 8, 9]);
}

/// In a set as large as this keys are looked up ahead; odd ones are there, and each absent one is given twice.
fn batches_of_a_large_set<K: Both>() {
    let odd: Vec<u64> = (1..1_000).step_by(2).collect();
    let mut handle = opened_with::<K>(Shape::for_keys(1 << 17, 1), &odd);
    let keys: Vec<u64> = (0..1_000).flat_map(|key| [key, key]).collect();
    assert_eq!(K::insert_all(&mut handle, &keys), Ok(500));
    assert_eq!(K::insert_all(&mut handle, &keys), Ok(0));
    handle.set_steps(Steps::new(1));
    let stopped = K::insert_all(&mut handle, &[2_000]).expect_err("no steps");
    assert_eq!((stopped.done, stopped.refusal), (0, Refusal::OutOfSteps));
    assert!(K::report(handle.close().expect("a report").expect("the only handle")).keys.into_iter().eq(0..1_000));
}

/// Threads insert the same keys: each is added by one of them.
fn batches_beside_each_other<K: Both>() {
    let keys: Vec<u64> = (0..20_000).collect();
    let handles = Table::<K>::handles(Shape::for_keys(1 << 17, 4)).expect("a set");
    let added: usize = thread::scope(|scope| {
        let threads: Vec<_> = handles
            .into_iter()
            .map(|mut handle| {
                let keys = &keys;
                scope.spawn(move || K::insert_all(&mut handle, keys).expect("room"))
            })
            .collect();
        threads.into_iter().map(|it| it.join().expect("a thread that ends")).sum()
    });
    assert_eq!(added, keys.len());
}

/// A map keeps the values that keys have, or gives them others.
#[test]
fn values_of_batches() {
    for shape in [Shape::for_keys(100, 1), Shape::for_keys(1 << 17, 1)] {
        let mut map = Map::handles_with(shape, &[(5, 70)]).expect("a map").remove(0);
        assert_eq!(map.try_insert_all(&[(4, 40), (5, 71), (4, 41)]), Ok(1));
        assert_eq!((map.get(4), map.get(5)), (Ok(Some(40)), Ok(Some(70))));
        assert_eq!(map.put_all(&[(4, 42), (5, 72), (6, 60), (6, 61)]), Ok(1));
        assert_eq!(map.try_extend([(6, 62), (7, 80)]), Ok(1));
        let told = map.close().expect("a report").expect("the only handle");
        assert_eq!(told.entries, [(4, 42), (5, 72), (6, 62), (7, 80)]);
    }
}

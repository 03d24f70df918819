//! Seeds: given, told, kept and drawn, and keys that were chosen against the known one. Each test is made of sets and of maps.
mod both;

use both::Both;
use vbr::{random_seed, HandleOf, OutOfSteps, Shape, Steps, Table};

/// The inverse of the number that keys are multiplied by with seed 0, 2^64 over the golden ratio.
const INVERSE: u64 = 0xf1de_83e1_9937_733d;

const BUCKETS: u32 = 1 << 12;

fn open<K: Both>(shape: Shape, handles: usize, keys: &[u64]) -> Vec<HandleOf<K>> {
    Table::handles_with(shape.with_handles(handles), &K::items(keys)).expect("a set")
}

fn walk<K: Both>(handle: &HandleOf<K>) -> Vec<u64> {
    handle.iter().map(|given| K::key(given.expect("steps"))).collect()
}

of_sets_and_maps! {
    given_and_kept
    drawn
    chosen_keys
}

fn given_and_kept<K: Both>() {
    let keys: Vec<u64> = (0..100).collect();
    for (seed, told) in [(0, 0), (7, 7), (1 << 63, 0), (u64::MAX, u64::MAX >> 1)] {
        let shape = Shape::for_keys(100, 2).with_seed(seed);
        let mut handles = open::<K>(shape, 2, &keys);
        assert_eq!([handles[0].seed(), handles[1].seed()], [told; 2]);
        assert_eq!(walk(&handles[0]), walk(&open::<K>(shape, 1, &keys)[0]));
        HandleOf::renew_all(&mut handles, shape.without_seed()).expect("a fresh one");
        assert_eq!(handles[1].seed(), told);
        let before = walk(&handles[1]);
        HandleOf::renew_all(&mut handles, shape.with_seed(12_345)).expect("a fresh one");
        assert_eq!(handles[0].seed(), 12_345);
        assert_ne!(walk(&handles[0]), before);
    }
}

fn drawn<K: Both>() {
    let shape = Shape::for_keys(100, 1);
    let seeds = [(); 2].map(|()| open::<K>(shape, 1, &[5])[0].seed());
    assert_ne!(seeds[0], seeds[1]);
    assert_ne!(random_seed(), random_seed());
}

/// With seed 0 all are in the first bucket; with a drawn one 64 in one bucket are more than chance ever has.
fn chosen_keys<K: Both>() {
    let mut keys: Vec<u64> = (0..2_000_u64).map(|number| (number * number * 1_000_003).wrapping_mul(INVERSE)).collect();
    keys.sort_unstable();
    let last = keys[keys.len() - 1];
    let shape = Shape::for_keys(2_000, 1).with_buckets(BUCKETS);
    assert_eq!(open::<K>(shape.with_seed(0), 1, &keys)[0].has_within(last, Steps::new(5 * 1_999)), Err(OutOfSteps));
    let spread = &open::<K>(shape, 1, &keys)[0];
    assert!(keys.iter().all(|&key| spread.has_within(key, Steps::new(5 * 64 + 11)) == Ok(true)));
}

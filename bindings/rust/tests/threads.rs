//! Four threads on one set: each answer is counted, and the keys that are left are those that the answers tell.
use std::collections::BTreeMap;
use std::thread;
use vbr::{Handle, Set, Shape, MAX_EPOCH};

const KEYS: u64 = 64;
const ROUNDS: u32 = 200_000;

/// Makes calls at random, and counts the inserts that were answered yes, less such removes.
fn work(mut handle: Handle, seed: u64) -> (Handle, BTreeMap<u64, i32>) {
    let mut random = 88_172_645_463_325_252 + seed;
    let mut balance = BTreeMap::new();
    for _ in 0..ROUNDS {
        random ^= random << 13;
        random ^= random >> 7;
        random ^= random << 17;
        let key = (random >> 8) % KEYS;
        match random % 3 {
            0 if handle.insert(key).expect("room") => *balance.entry(key).or_insert(0) += 1,
            1 if handle.remove(key).expect("steps") => *balance.entry(key).or_insert(0) -= 1,
            _ => drop(handle.has(key).expect("steps")),
        }
    }
    (handle, balance)
}

#[test]
fn the_answers_balance() {
    let handles = Set::handles(Shape::new(512, 16, MAX_EPOCH).with_handles(4)).expect("a set");
    let threads: Vec<_> =
        handles.into_iter().zip(0..).map(|(handle, seed)| thread::spawn(move || work(handle, seed))).collect();
    let mut sum = BTreeMap::new();
    let mut reports = Vec::new();
    for thread in threads {
        let (handle, balance) = thread.join().expect("a thread that ends");
        for (key, n) in balance {
            *sum.entry(key).or_insert(0) += n;
        }
        reports.push(handle.close().expect("memory"));
    }
    let report = reports.pop().flatten().expect("the last handle");
    assert!(reports.iter().all(Option::is_none));
    assert!(sum.values().all(|n| *n == 0 || *n == 1));
    let left: Vec<u64> = sum.into_iter().filter(|(_, n)| *n == 1).map(|(key, _)| key).collect();
    assert_eq!(left, report.keys);
}

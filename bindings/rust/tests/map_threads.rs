//! Four threads on one map, whose epoch is spent again and again: each value tells the call that stored it, and is given only
//! as the answers allow. And threads that count in the same entries.
#![allow(clippy::cast_possible_truncation, reason = "the numbers are small")]
use std::collections::HashSet;
use std::sync::atomic::{AtomicBool, Ordering};
use std::thread;
use vbr::{Compared, Map, MapHandle, MapPass, Refusal, Shape, MAX_EPOCH};

const THREADS: u64 = 4;
const KEYS: u64 = 64;
const ROUNDS: u64 = 100_000;

/// What a thread has, and what it got.
struct Worker {
    number: u64,
    random: u64,
    round: u64,
    /// The values that it stored, those that it took out, by a remove or another value, and those that it found.
    stored: Vec<u64>,
    removed: Vec<u64>,
    got: HashSet<u64>,
    /// The values that this thread has taken out, and none may give again.
    gone: HashSet<u64>,
}

impl Worker {
    fn new(number: u64) -> Worker {
        let random = 88_172_645_463_325_252 + number;
        Worker { number, random, round: 0, stored: vec![], removed: vec![], got: HashSet::new(), gone: HashSet::new() }
    }

    /// A value that no other insert has: it tells the key, the thread and the round.
    fn value_of(&self, key: u64) -> u64 {
        key << 48 | self.number << 40 | self.round
    }

    /// Makes calls at random until all are made, or the epoch is spent.
    fn work(&mut self, handle: &mut MapHandle, is_spent: &AtomicBool) {
        while self.round < ROUNDS && !is_spent.load(Ordering::Relaxed) {
            self.random ^= self.random << 13;
            self.random ^= self.random >> 7;
            self.random ^= self.random << 17;
            self.call(handle, (self.random >> 8) % KEYS, self.random % 8, is_spent);
            self.round += 1;
        }
    }

    fn call(&mut self, handle: &mut MapPass, key: u64, kind: u64, is_spent: &AtomicBool) {
        let made = match kind {
            0 => self.insert(handle, key),
            1 | 2 => self.remove(handle, key, kind == 1),
            3 => self.get(handle, key),
            4 => self.replace(handle, key),
            5 => self.put(handle, key),
            6 => self.get_or_insert(handle, key),
            _ => self.exchange(handle, key),
        };
        match made {
            Err(Refusal::EpochSpent) => is_spent.store(true, Ordering::Relaxed),
            told => told.expect("steps and slots"),
        }
    }

    fn insert(&mut self, handle: &mut MapPass, key: u64) -> Result<(), Refusal> {
        let value = self.value_of(key);
        if handle.try_insert(key, value)? {
            self.stored.push(value);
        }
        Ok(())
    }

    /// Takes a key out, or, if it is to compare, takes it out with the value that it found.
    fn remove(&mut self, handle: &mut MapPass, key: u64, compares: bool) -> Result<(), Refusal> {
        let removed = if compares { self.compared(handle, key)? } else { handle.remove(key)? };
        self.take(key, removed);
        Ok(())
    }

    fn compared(&mut self, handle: &mut MapPass, key: u64) -> Result<Option<u64>, Refusal> {
        let Some(value) = self.find(handle, key)? else {
            return Ok(None);
        };
        match handle.remove_if(key, value)? {
            Compared::Equal => return Ok(Some(value)),
            Compared::Other(other) => assert_ne!(other, value),
            Compared::Absent => {}
        }
        Ok(None)
    }

    fn get(&mut self, handle: &mut MapPass, key: u64) -> Result<(), Refusal> {
        self.find(handle, key).map(|_| ())
    }

    fn replace(&mut self, handle: &mut MapPass, key: u64) -> Result<(), Refusal> {
        let value = self.value_of(key);
        let before = handle.replace(key, value)?;
        self.stored.extend(before.map(|_| value));
        self.take(key, before);
        Ok(())
    }

    fn put(&mut self, handle: &mut MapPass, key: u64) -> Result<(), Refusal> {
        let value = self.value_of(key);
        let before = handle.put(key, value)?;
        self.stored.push(value);
        self.take(key, before);
        Ok(())
    }

    fn get_or_insert(&mut self, handle: &mut MapPass, key: u64) -> Result<(), Refusal> {
        let value = self.value_of(key);
        match handle.get_or_insert(key, value)? {
            Some(there) => self.found(key, there),
            None => self.stored.push(value),
        }
        Ok(())
    }

    fn exchange(&mut self, handle: &mut MapPass, key: u64) -> Result<(), Refusal> {
        let value = self.value_of(key);
        let before = handle.fetch_update(key, |_| Some(value))?;
        self.stored.extend(before.map(|_| value));
        self.take(key, before);
        Ok(())
    }

    fn find(&mut self, handle: &mut MapPass, key: u64) -> Result<Option<u64>, Refusal> {
        let there = handle.get(key)?;
        if let Some(value) = there {
            self.found(key, value);
        }
        Ok(there)
    }

    fn found(&mut self, key: u64, value: u64) {
        self.check(key, value);
        self.got.insert(value);
    }

    fn take(&mut self, key: u64, before: Option<u64>) {
        if let Some(value) = before {
            self.check(key, value);
            self.removed.push(value);
            self.gone.insert(value);
        }
    }

    fn check(&self, key: u64, value: u64) {
        assert_eq!(value >> 48, key, "a value of another key");
        assert!(!self.gone.contains(&value), "a value that was removed before");
    }
}

/// Lets all threads work, and renews the map where its epoch is spent: the entries that are left, and how many renewals.
fn play(workers: &mut [Worker], shape: Shape) -> (Vec<(u64, u64)>, u32) {
    let is_spent = AtomicBool::new(false);
    let mut handles = Map::handles(shape.with_handles(workers.len())).expect("a map");
    for renewals in 0.. {
        thread::scope(|scope| {
            for (worker, handle) in workers.iter_mut().zip(&mut handles) {
                scope.spawn(|| worker.work(handle, &is_spent));
            }
        });
        let report =
            handles.into_iter().map(|handle| handle.close().expect("memory")).last().flatten().expect("the last handle");
        assert!(report.epoch <= shape.last_epoch);
        if !is_spent.swap(false, Ordering::Relaxed) {
            return (report.entries, renewals);
        }
        assert_eq!(report.epoch, shape.last_epoch);
        handles = Map::handles_with(shape.with_handles(workers.len()), &report.entries).expect("a map");
    }
    unreachable!("the calls end")
}

/// Each value that was given was stored, each is removed once at most, and those that are left are in the report.
fn check(workers: &[Worker], left: Vec<(u64, u64)>) {
    let stored: HashSet<u64> = workers.iter().flat_map(|it| &it.stored).copied().collect();
    assert_eq!(stored.len(), workers.iter().map(|it| it.stored.len()).sum::<usize>());
    assert!(workers.iter().all(|it| it.got.is_subset(&stored)), "a value that a call gave and didn't store");
    let mut there = stored;
    for value in workers.iter().flat_map(|it| &it.removed) {
        assert!(there.remove(value), "a value that nobody stored, or that was taken out twice");
    }
    assert!(left.iter().all(|(key, value)| value >> 48 == *key));
    assert!(left.windows(2).all(|pair| pair[0].0 < pair[1].0));
    assert_eq!(left.into_iter().map(|(_, value)| value).collect::<HashSet<_>>(), there);
}

#[test]
fn the_values_balance() {
    let mut workers: Vec<_> = (0..THREADS).map(Worker::new).collect();
    let (left, renewals) = play(&mut workers, Shape::new(512, 16, MAX_EPOCH));
    assert_eq!(renewals, 0);
    check(&workers, left);
}

#[test]
fn the_values_balance_over_renewals() {
    let mut workers: Vec<_> = (0..THREADS).map(Worker::new).collect();
    let (left, renewals) = play(&mut workers, Shape::new(512, 16, 100));
    assert!(renewals >= 10, "{renewals} renewals");
    check(&workers, left);
}

#[test]
fn the_values_of_many_borrowers_balance() {
    let map = Map::open(Shape::for_keys(KEYS as u32, 3)).expect("a map");
    let mut workers: Vec<_> = (0..2 * THREADS).map(Worker::new).collect();
    let never = AtomicBool::new(false);
    thread::scope(|scope| {
        for worker in &mut workers {
            let (map, never) = (&map, &never);
            scope.spawn(move || {
                while worker.round < ROUNDS / 10 {
                    let Some(mut handle) = map.lend() else {
                        thread::yield_now();
                        continue;
                    };
                    worker.random =
                        worker.random.wrapping_mul(6_364_136_223_846_793_005).wrapping_add(1_442_695_040_888_963_407);
                    worker.call(&mut handle, (worker.random >> 40) % KEYS, worker.random >> 33 & 7, never);
                    worker.round += 1;
                }
            });
        }
    });
    check(&workers, map.close().expect("a report").entries);
}

#[test]
fn no_update_is_lost() {
    const EACH: u64 = 30_000;
    let entries: Vec<_> = (0..3).map(|key| (key, 0)).collect();
    let mut handles =
        Map::handles_with(Shape::for_keys(8, THREADS as usize).with_handles(THREADS as usize), &entries).expect("a map");
    thread::scope(|scope| {
        for handle in &mut handles {
            scope.spawn(|| {
                for turn in 0..EACH {
                    assert!(handle.fetch_update(turn % 3, |count| Some(count + 1)).expect("steps and slots").is_some());
                }
            });
        }
    });
    assert!((0..3).all(|key| handles[0].get(key) == Ok(Some(THREADS * EACH / 3))));
}

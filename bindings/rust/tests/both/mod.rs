//! Tests that are made of sets and of maps, by one text: in a map each key has the value that [`value_of`] says.
#![allow(dead_code, reason = "each test uses some of it")]
use vbr::{Entries, Keys, Kind, MapReport, OutOfSteps, PassOf, Refusal, Report, Steps, Stopped};

/// The value that a map has with a key in these tests.
pub fn value_of(key: u64) -> u64 {
    !key
}

pub fn entry_of(key: u64) -> (u64, u64) {
    (key, value_of(key))
}

pub fn key_of((key, value): (u64, u64)) -> u64 {
    assert_eq!(value, value_of(key));
    key
}

/// What is returned of a set, and how many items there is room for.
#[derive(Debug, PartialEq)]
pub struct Told {
    pub keys: Vec<u64>,
    pub epoch: u64,
    pub marked: u32,
    pub free: u32,
    pub room: usize,
}

impl Told {
    /// The keys and the numbers, without the room.
    pub fn of(self) -> (Vec<u64>, u64, u32, u32) {
        (self.keys, self.epoch, self.marked, self.free)
    }
}

/// The calls of a set, of either kind.
pub trait Both: Kind<Key = u64> {
    fn item(key: u64) -> Self::Item;
    fn key(given: Self::Item) -> u64;
    fn insert_within(pass: &mut PassOf<Self>, key: u64, steps: Steps) -> Result<bool, Refusal>;
    fn remove_within(pass: &mut PassOf<Self>, key: u64, steps: Steps) -> Result<bool, OutOfSteps>;
    fn retain(pass: &mut PassOf<Self>, keep: impl FnMut(u64) -> bool) -> Result<u64, OutOfSteps>;
    fn insert_all(pass: &mut PassOf<Self>, keys: &[u64]) -> Result<usize, Stopped<Self::Item>>;
    fn report(told: Self::Report) -> Told;

    fn insert(pass: &mut PassOf<Self>, key: u64) -> Result<bool, Refusal> {
        Self::insert_within(pass, key, pass.steps())
    }

    fn remove(pass: &mut PassOf<Self>, key: u64) -> Result<bool, OutOfSteps> {
        Self::remove_within(pass, key, pass.steps())
    }

    fn items(keys: &[u64]) -> Vec<Self::Item> {
        keys.iter().copied().map(Self::item).collect()
    }
}

impl Both for Keys {
    fn item(key: u64) -> u64 {
        key
    }

    fn key(given: u64) -> u64 {
        given
    }

    fn insert_within(pass: &mut PassOf<Keys>, key: u64, steps: Steps) -> Result<bool, Refusal> {
        pass.insert_within(key, steps)
    }

    fn remove_within(pass: &mut PassOf<Keys>, key: u64, steps: Steps) -> Result<bool, OutOfSteps> {
        pass.remove_within(key, steps)
    }

    fn retain(pass: &mut PassOf<Keys>, keep: impl FnMut(u64) -> bool) -> Result<u64, OutOfSteps> {
        pass.retain(keep)
    }

    fn insert_all(pass: &mut PassOf<Keys>, keys: &[u64]) -> Result<usize, Stopped> {
        pass.insert_all(keys)
    }

    fn report(told: Report) -> Told {
        let room = told.keys.capacity();
        Told { epoch: told.epoch, marked: told.marked, free: told.free, keys: told.keys, room }
    }
}

impl Both for Entries {
    fn item(key: u64) -> (u64, u64) {
        entry_of(key)
    }

    fn key(given: (u64, u64)) -> u64 {
        key_of(given)
    }

    fn insert_within(pass: &mut PassOf<Entries>, key: u64, steps: Steps) -> Result<bool, Refusal> {
        pass.try_insert_within(key, value_of(key), steps)
    }

    fn remove_within(pass: &mut PassOf<Entries>, key: u64, steps: Steps) -> Result<bool, OutOfSteps> {
        Ok(pass.remove_within(key, steps)?.is_some_and(|value| key_of((key, value)) == key))
    }

    fn retain(pass: &mut PassOf<Entries>, mut keep: impl FnMut(u64) -> bool) -> Result<u64, OutOfSteps> {
        pass.retain(|key, value| keep(key_of((key, value))))
    }

    fn insert_all(pass: &mut PassOf<Entries>, keys: &[u64]) -> Result<usize, Stopped<(u64, u64)>> {
        pass.try_insert_all(&Self::items(keys))
    }

    fn report(told: MapReport) -> Told {
        let room = told.entries.capacity();
        let keys = told.entries.into_iter().map(key_of).collect();
        Told { epoch: told.epoch, marked: told.marked, free: told.free, keys, room }
    }
}

/// Makes tests of functions of either kind.
#[macro_export]
macro_rules! of_sets_and_maps {
    ($($test:ident)*) => {
        mod sets {
            $(#[test] fn $test() { super::$test::<vbr::Keys>() })*
        }
        mod maps {
            $(#[test] fn $test() { super::$test::<vbr::Entries>() })*
        }
    };
}

//! dashmap's set and map, with the key itself as its hash.
use crate::{Map, Set};
use dashmap::mapref::entry::Entry;
use dashmap::{DashMap, DashSet};
use std::hash::{BuildHasherDefault, Hasher};

#[derive(Default)]
pub struct Identity(u64);

impl Hasher for Identity {
    fn write(&mut self, _bytes: &[u8]) {
        unreachable!("keys are of 64 bits")
    }
    fn write_u64(&mut self, key: u64) {
        self.0 = key;
    }
    fn finish(&self) -> u64 {
        self.0
    }
}

pub type DashKeys = DashSet<u64, BuildHasherDefault<Identity>>;
pub type DashEntries = DashMap<u64, u64, BuildHasherDefault<Identity>>;

impl Set for DashKeys {
    fn open(_buckets: usize, keys: usize) -> DashKeys {
        DashSet::with_capacity_and_hasher(keys, BuildHasherDefault::default())
    }

    fn has(&self, key: u64) -> bool {
        self.contains(&key)
    }

    fn insert(&self, key: u64) -> bool {
        DashSet::insert(self, key)
    }

    fn remove(&self, key: u64) -> bool {
        DashSet::remove(self, &key).is_some()
    }
}

impl Map for DashEntries {
    fn open(_buckets: usize, keys: usize) -> DashEntries {
        DashMap::with_capacity_and_hasher(keys, BuildHasherDefault::default())
    }

    fn get(&self, key: u64) -> Option<u64> {
        DashMap::get(self, &key).map(|entry| *entry)
    }

    fn insert(&self, key: u64, value: u64) -> bool {
        match self.entry(key) {
            Entry::Occupied(_) => false,
            Entry::Vacant(place) => {
                place.insert(value);
                true
            }
        }
    }

    fn remove(&self, key: u64) -> Option<u64> {
        DashMap::remove(self, &key).map(|(_, value)| value)
    }

    fn replace(&self, key: u64, value: u64) -> Option<u64> {
        DashMap::insert(self, key, value)
    }
}

//! A cache over dashmap, with a CLOCK whose hand all threads share.
use crate::dash::Identity;
use crate::Value;
use dashmap::mapref::entry::Entry;
use dashmap::DashMap;
use std::hash::BuildHasherDefault;
use std::sync::atomic::{AtomicBool, AtomicU64, AtomicUsize, Ordering};

/// Of each entry one, which the hand goes over.
struct Place {
    /// The key of the entry, `EMPTY`, or `TAKEN` by a call.
    key: AtomicU64,
    is_used: AtomicBool,
}

const EMPTY: u64 = u64::MAX;
const TAKEN: u64 = u64::MAX - 1;

struct Stored {
    place: usize,
    value: Value,
}

#[repr(align(128))]
struct Apart<T>(T);

pub struct DashCache {
    map: DashMap<u64, Stored, BuildHasherDefault<Identity>>,
    places: Vec<Place>,
    hand: Apart<AtomicUsize>,
}

impl DashCache {
    pub fn open(entries: usize) -> DashCache {
        let place = || Place { key: AtomicU64::new(EMPTY), is_used: AtomicBool::new(false) };
        DashCache {
            map: DashMap::with_capacity_and_hasher(entries, BuildHasherDefault::default()),
            places: (0..entries).map(|_| place()).collect(),
            hand: Apart(AtomicUsize::new(0)),
        }
    }

    /// Whether a key is there, whose value is then copied.
    pub fn get(&self, key: u64, to: &mut Value) -> bool {
        let Some(entry) = self.map.get(&key) else { return false };
        let is_used = &self.places[entry.place].is_used;
        if !is_used.load(Ordering::Relaxed) {
            is_used.store(true, Ordering::Relaxed);
        }
        *to = entry.value;
        true
    }

    /// A key that is there keeps its value.
    pub fn insert(&self, key: u64, value: Value) {
        let place = self.take_place();
        let now = match self.map.entry(key) {
            Entry::Occupied(_) => EMPTY,
            Entry::Vacant(vacant) => {
                vacant.insert(Stored { place, value });
                key
            }
        };
        self.places[place].key.store(now, Ordering::Release);
    }

    /// A place for this call alone, whose entry is out.
    fn take_place(&self) -> usize {
        loop {
            let at = self.hand.0.fetch_add(1, Ordering::Relaxed) % self.places.len();
            let place = &self.places[at];
            let key = place.key.load(Ordering::Acquire);
            if key == TAKEN {
                continue;
            }
            if place.is_used.load(Ordering::Relaxed) {
                place.is_used.store(false, Ordering::Relaxed);
            } else if place.key.compare_exchange(key, TAKEN, Ordering::AcqRel, Ordering::Relaxed).is_ok() {
                if key != EMPTY {
                    self.map.remove(&key);
                }
                return at;
            }
        }
    }
}

//! The peers in Rust, for the comparison: sets, maps and caches behind functions for C.
mod dash;
mod dash_cache;
mod epoch;

use dash::{DashEntries, DashKeys};
use dash_cache::DashCache;
use epoch::{EpochMap, EpochSet};
use std::ffi::c_void;

pub trait Set {
    fn open(buckets: usize, keys: usize) -> Self;
    fn has(&self, key: u64) -> bool;
    fn insert(&self, key: u64) -> bool;
    fn remove(&self, key: u64) -> bool;
}

/// A key that is there keeps its value at an insert.
pub trait Map {
    fn open(buckets: usize, keys: usize) -> Self;
    fn get(&self, key: u64) -> Option<u64>;
    fn insert(&self, key: u64, value: u64) -> bool;
    fn remove(&self, key: u64) -> Option<u64>;
    /// Of a key that is there; gives the value that it had.
    fn replace(&self, key: u64, value: u64) -> Option<u64>;
}

/// Writes a value where there is one, and says whether there is.
fn give(given: Option<u64>, to: &mut u64) -> bool {
    if let Some(value) = given {
        *to = value;
    }
    given.is_some()
}

macro_rules! export_ends {
    ($of:ty, $kind:ident, $open:ident, $close:ident) => {
        #[no_mangle]
        pub extern "C" fn $open(buckets: usize, keys: usize) -> Box<$of> {
            Box::new(<$of as $kind>::open(buckets, keys))
        }

        #[no_mangle]
        pub extern "C" fn $close(_of: Box<$of>) {}
    };
}

macro_rules! export_set {
    ($set:ty, $open:ident, $close:ident, $has:ident, $insert:ident, $remove:ident) => {
        export_ends!($set, Set, $open, $close);

        #[no_mangle]
        pub extern "C" fn $has(set: &$set, key: u64) -> bool {
            Set::has(set, key)
        }

        #[no_mangle]
        pub extern "C" fn $insert(set: &$set, key: u64) -> bool {
            Set::insert(set, key)
        }

        #[no_mangle]
        pub extern "C" fn $remove(set: &$set, key: u64) -> bool {
            Set::remove(set, key)
        }
    };
}

macro_rules! export_map {
    ($map:ty, $open:ident, $close:ident, $get:ident, $insert:ident, $remove:ident, $replace:ident) => {
        export_ends!($map, Map, $open, $close);

        #[no_mangle]
        pub extern "C" fn $get(map: &$map, key: u64, value: &mut u64) -> bool {
            give(Map::get(map, key), value)
        }

        #[no_mangle]
        pub extern "C" fn $insert(map: &$map, key: u64, value: u64) -> bool {
            Map::insert(map, key, value)
        }

        #[no_mangle]
        pub extern "C" fn $remove(map: &$map, key: u64, value: &mut u64) -> bool {
            give(Map::remove(map, key), value)
        }

        #[no_mangle]
        pub extern "C" fn $replace(map: &$map, key: u64, value: u64, old: &mut u64) -> bool {
            give(Map::replace(map, key, value), old)
        }
    };
}

export_set!(EpochSet, epoch_set_open, epoch_set_close, epoch_set_has, epoch_set_insert, epoch_set_remove);
export_set!(DashKeys, dash_set_open, dash_set_close, dash_set_has, dash_set_insert, dash_set_remove);
export_map!(
    EpochMap,
    epoch_map_open,
    epoch_map_close,
    epoch_map_get,
    epoch_map_insert,
    epoch_map_remove,
    epoch_map_replace
);
export_map!(
    DashEntries,
    dash_map_open,
    dash_map_close,
    dash_map_get,
    dash_map_insert,
    dash_map_remove,
    dash_map_replace
);

/// The value of a cache's entry.
pub type Value = [u32; 25];

#[no_mangle]
pub extern "C" fn dash_cache_open(entries: usize) -> Box<DashCache> {
    Box::new(DashCache::open(entries))
}

#[no_mangle]
pub extern "C" fn dash_cache_close(_of: Box<DashCache>) {}

#[no_mangle]
pub extern "C" fn dash_cache_get(cache: &DashCache, key: u64, value: &mut Value) -> bool {
    cache.get(key, value)
}

#[no_mangle]
pub extern "C" fn dash_cache_insert(cache: &DashCache, key: u64, value: &Value) {
    cache.insert(key, *value);
}

/// Calls a function with each key, and with what it is to have besides.
#[no_mangle]
pub extern "C" fn dash_set_walk(set: &DashKeys, each: extern "C" fn(*mut c_void, u64), with: *mut c_void) {
    set.iter().for_each(|key| each(with, *key));
}

/// The same with each entry.
#[no_mangle]
pub extern "C" fn dash_map_walk(map: &DashEntries, each: extern "C" fn(*mut c_void, u64, u64), with: *mut c_void) {
    map.iter().for_each(|entry| each(with, *entry.key(), *entry.value()));
}

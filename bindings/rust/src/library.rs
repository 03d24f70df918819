//! The calls of the library, and which of them are those of a set and which those of a map.
use crate::reporting::Contents;
use crate::{order, Bits, Compared, Cursor, Entries, Keys, Kind, MapReport, OutOfSteps, PassOf, Refusal, Report, WalkError};
use core::cell::UnsafeCell;
use core::ffi::{c_int, c_void};
use core::ptr::null_mut;

/// What the library answers.
pub(crate) mod code {
    pub(crate) const NO: i32 = 0;
    pub(crate) const YES: i32 = 1;
    pub(crate) const OTHER: i32 = 2;
    pub(crate) const NO_SLOT: i32 = -2;
    pub(crate) const EPOCH_SPENT: i32 = -3;
    pub(crate) const NO_HANDLE: i32 = -4;
    pub(crate) const NO_MEMORY: i32 = -8;
    pub(crate) const NO_ROOM: i32 = -11;
    pub(crate) const HELD: i32 = -14;
    pub(crate) const RESHAPED: i32 = -15;
    /// Of what answers neither yes nor no.
    pub(crate) const DONE: i32 = 0;
}

/// As C sees a handle: what it owns, null if it is empty, and the budget of its calls, which the library leaves alone. The mark
/// that a call is under way is in use if processes share the handle. By `opening` the library knows whether the set was renewed.
#[repr(C)]
pub(crate) struct Raw {
    pub(crate) owned: *mut c_void,
    pub(crate) steps: u32,
    pub(crate) in_call: u32,
    pub(crate) opening: u32,
}

impl Raw {
    pub(crate) const EMPTY: Raw = Raw { owned: null_mut(), steps: 0, in_call: 0, opening: 0 };
}

/// A handle as it lies in memory that processes share, on lines of the cache of its own.
#[repr(C)]
pub(crate) struct SharedRaw {
    pub(crate) raw: UnsafeCell<Raw>,
    unused: [u64; 13],
}

const _: () = assert!(size_of::<Raw>() == 24 && size_of::<SharedRaw>() == 128);

#[repr(C)]
#[derive(Default)]
pub(crate) struct ReportNumbers {
    pub(crate) epoch: u64,
    pub(crate) live: u32,
    pub(crate) marked: u32,
    pub(crate) free: u32,
}

/// A key with its value, as C sees them.
#[repr(C)]
#[derive(Clone, Copy, Default)]
pub(crate) struct Pair {
    key: u64,
    value: u64,
}

/// Where an entry stands, as C sees it.
#[repr(C)]
#[derive(Clone, Copy, Default)]
pub(crate) struct Stands {
    pub(crate) birth: u64,
    pub(crate) value: u64,
    pub(crate) slot: u32,
}

/// What a get of several keys answers for one.
#[repr(C)]
#[derive(Clone, Copy, Default)]
pub(crate) struct Found {
    value: u64,
    answer: i32,
}

extern "C" {
    // tools/interface makes these of the headers.
    pub(crate) fn vbr_version() -> u32;
    pub(crate) fn vbr_random_seed() -> u64;
    fn vbr_open_many_seeded(
        handles: *mut Raw,
        count: usize,
        slots: u32,
        buckets: u32,
        last_epoch: u64,
        seed: u64,
        keys: *const u64,
        key_count: usize,
    ) -> i32;
    pub(crate) fn vbr_insert_within(handle: *mut Raw, key: u64, steps: u32) -> i32;
    pub(crate) fn vbr_remove_within(handle: *mut Raw, key: u64, steps: u32) -> i32;
    fn vbr_has_within(handle: *mut Raw, key: u64, steps: u32) -> i32;
    fn vbr_has_all_within(handle: *mut Raw, keys: *const u64, count: usize, answers: *mut i32, steps: u32);
    fn vbr_next_within(handle: *mut Raw, cursor: *mut Cursor, key: *mut u64, steps: u32) -> i32;
    fn vbr_epoch(handle: *const Raw) -> u64;
    fn vbr_last_epoch(handle: *const Raw) -> u64;
    fn vbr_slots(handle: *const Raw) -> u32;
    fn vbr_buckets(handle: *const Raw) -> u32;
    fn vbr_seed(handle: *const Raw) -> u64;
    fn vbr_balance(handle: *const Raw) -> i64;
    fn vbr_restarts(handle: *const Raw) -> u64;
    fn vbr_helps(handle: *const Raw) -> u64;
    fn vbr_advances(handle: *const Raw) -> u64;
    fn vbr_free_about(handle: *const Raw) -> u32;
    fn vbr_spare(handle: *mut Raw) -> u32;
    fn vbr_reserve(handle: *mut Raw, wanted: u32) -> u32;
    fn vbr_close_all(handles: *mut Raw, count: usize, keys: *mut u64, room: usize, report: *mut ReportNumbers) -> i32;
    fn vbr_report_all(handles: *mut Raw, count: usize, keys: *mut u64, room: usize, report: *mut ReportNumbers) -> i32;
    fn vbr_renew_all_seeded(handles: *mut Raw, count: usize, slots: u32, buckets: u32, last_epoch: u64, seed: u64) -> i32;
    fn vbr_end_all(handles: *mut Raw, count: usize);
    fn vbr_map_open_many_seeded(
        handles: *mut Raw,
        count: usize,
        slots: u32,
        buckets: u32,
        last_epoch: u64,
        seed: u64,
        entries: *const Pair,
        entry_count: usize,
    ) -> i32;
    pub(crate) fn vbr_map_insert_within(handle: *mut Raw, key: u64, value: u64, steps: u32) -> i32;
    pub(crate) fn vbr_map_remove_within(handle: *mut Raw, key: u64, value: *mut u64, steps: u32) -> i32;
    pub(crate) fn vbr_map_get_within(handle: *mut Raw, key: u64, value: *mut u64, steps: u32) -> i32;
    pub(crate) fn vbr_map_replace_within(handle: *mut Raw, key: u64, value: u64, there: *mut u64, steps: u32) -> i32;
    pub(crate) fn vbr_map_put_within(handle: *mut Raw, key: u64, value: u64, there: *mut u64, steps: u32) -> i32;
    pub(crate) fn vbr_map_fetch_add_within(handle: *mut Raw, key: u64, delta: u64, there: *mut u64, steps: u32) -> i32;
    pub(crate) fn vbr_map_get_or_insert_within(handle: *mut Raw, key: u64, value: u64, there: *mut u64, steps: u32) -> i32;
    pub(crate) fn vbr_map_compare_exchange_within(
        handle: *mut Raw,
        key: u64,
        expected: u64,
        value: u64,
        there: *mut u64,
        steps: u32,
    ) -> i32;
    pub(crate) fn vbr_map_remove_if_within(handle: *mut Raw, key: u64, expected: u64, there: *mut u64, steps: u32) -> i32;
    fn vbr_map_has_within(handle: *mut Raw, key: u64, steps: u32) -> i32;
    fn vbr_map_has_all_within(handle: *mut Raw, keys: *const u64, count: usize, answers: *mut i32, steps: u32);
    pub(crate) fn vbr_map_get_all_within(handle: *mut Raw, keys: *const u64, count: usize, found: *mut Found, steps: u32);
    fn vbr_map_next_within(handle: *mut Raw, cursor: *mut Cursor, entry: *mut Pair, steps: u32) -> i32;
    fn vbr_map_epoch(handle: *const Raw) -> u64;
    fn vbr_map_last_epoch(handle: *const Raw) -> u64;
    fn vbr_map_slots(handle: *const Raw) -> u32;
    fn vbr_map_buckets(handle: *const Raw) -> u32;
    fn vbr_map_seed(handle: *const Raw) -> u64;
    fn vbr_map_balance(handle: *const Raw) -> i64;
    fn vbr_map_restarts(handle: *const Raw) -> u64;
    fn vbr_map_helps(handle: *const Raw) -> u64;
    fn vbr_map_advances(handle: *const Raw) -> u64;
    fn vbr_map_free_about(handle: *const Raw) -> u32;
    fn vbr_map_spare(handle: *mut Raw) -> u32;
    fn vbr_map_reserve(handle: *mut Raw, wanted: u32) -> u32;
    fn vbr_map_close_all(handles: *mut Raw, count: usize, entries: *mut Pair, room: usize, report: *mut ReportNumbers)
        -> i32;
    fn vbr_map_report_all(
        handles: *mut Raw,
        count: usize,
        entries: *mut Pair,
        room: usize,
        report: *mut ReportNumbers,
    ) -> i32;
    fn vbr_map_renew_all_seeded(handles: *mut Raw, count: usize, slots: u32, buckets: u32, last_epoch: u64, seed: u64)
        -> i32;
    fn vbr_map_end_all(handles: *mut Raw, count: usize);
    fn vbr_hold_within(handle: *mut Raw, slot: *mut u32, steps: u32) -> i32;
    fn vbr_map_hold_within(handle: *mut Raw, slot: *mut u32, steps: u32) -> i32;
    fn vbr_let_go(handle: *mut Raw) -> i32;
    fn vbr_map_let_go(handle: *mut Raw) -> i32;
    pub(crate) fn vbr_insert_held_within(handle: *mut Raw, key: u64, steps: u32) -> i32;
    pub(crate) fn vbr_map_insert_held_within(handle: *mut Raw, key: u64, value: u64, steps: u32) -> i32;
    pub(crate) fn vbr_map_replace_held_within(handle: *mut Raw, key: u64, at: *const Stands, value: u64, steps: u32) -> i32;
    pub(crate) fn vbr_map_put_held_within(handle: *mut Raw, key: u64, value: u64, there: *mut u64, steps: u32) -> i32;
    fn vbr_get_entry_within(handle: *mut Raw, key: u64, at: *mut Stands, steps: u32) -> i32;
    fn vbr_map_get_entry_within(handle: *mut Raw, key: u64, at: *mut Stands, steps: u32) -> i32;
    fn vbr_is_still(handle: *mut Raw, at: *const Stands) -> i32;
    fn vbr_map_is_still(handle: *mut Raw, at: *const Stands) -> i32;
    fn vbr_remove_entry_within(handle: *mut Raw, key: u64, at: *const Stands, steps: u32) -> i32;
    fn vbr_map_remove_entry_within(handle: *mut Raw, key: u64, at: *const Stands, steps: u32) -> i32;
    fn vbr_next_at_within(handle: *mut Raw, cursor: *mut Cursor, key: *mut u64, at: *mut Stands, steps: u32) -> i32;
    fn vbr_map_next_at_within(handle: *mut Raw, cursor: *mut Cursor, key: *mut u64, at: *mut Stands, steps: u32) -> i32;
    fn vbr_report_slots(
        handles: *mut Raw,
        count: usize,
        keys: *mut u64,
        slots: *mut u32,
        room: usize,
        report: *mut ReportNumbers,
    ) -> i32;
    fn vbr_map_report_slots(
        handles: *mut Raw,
        count: usize,
        entries: *mut Pair,
        slots: *mut u32,
        room: usize,
        report: *mut ReportNumbers,
    ) -> i32;
    fn vbr_open_shared(
        handles: *mut *mut SharedRaw,
        count: usize,
        slots: u32,
        buckets: u32,
        last_epoch: u64,
        keys: *const u64,
        key_count: usize,
    ) -> i32;
    fn vbr_map_open_shared(
        handles: *mut *mut SharedRaw,
        count: usize,
        slots: u32,
        buckets: u32,
        last_epoch: u64,
        entries: *const Pair,
        entry_count: usize,
    ) -> i32;
    fn vbr_open_shared_in(
        file: c_int,
        handles: *mut *mut SharedRaw,
        count: usize,
        slots: u32,
        buckets: u32,
        last_epoch: u64,
        keys: *const u64,
        key_count: usize,
    ) -> i32;
    fn vbr_map_open_shared_in(
        file: c_int,
        handles: *mut *mut SharedRaw,
        count: usize,
        slots: u32,
        buckets: u32,
        last_epoch: u64,
        entries: *const Pair,
        entry_count: usize,
    ) -> i32;
    pub(crate) fn vbr_shared_size(count: usize, slots: u32, buckets: u32) -> usize;
    pub(crate) fn vbr_inherit(handle: *mut SharedRaw) -> i32;
    pub(crate) fn vbr_renew_shared(handles: *mut SharedRaw, slots: u32, buckets: u32, last_epoch: u64) -> i32;
    fn vbr_gather(handles: *mut SharedRaw) -> *mut Raw;
    fn vbr_map_gather(handles: *mut SharedRaw) -> *mut Raw;
    pub(crate) fn vbr_spread(handles: *mut SharedRaw);
    pub(crate) fn vbr_unmap_shared(handles: *mut SharedRaw);
}

/// The calls of the library that sets and maps have alike, over an item, a key or a key with its value, and what a close reports.
#[allow(clippy::type_complexity, reason = "a call has the type that it has in C")]
pub(crate) trait Calls<Item, Told> {
    /// An item as C sees it.
    type Plain: Copy + Default;

    /// The names of a table, of its handles and of their passes.
    const NAMES: [&'static str; 3];

    // tools/interface makes these of the headers.
    const OPEN_MANY_SEEDED: unsafe extern "C" fn(*mut Raw, usize, u32, u32, u64, u64, *const Self::Plain, usize) -> i32;
    const HAS: unsafe extern "C" fn(*mut Raw, u64, u32) -> i32;
    const HAS_ALL: unsafe extern "C" fn(*mut Raw, *const u64, usize, *mut i32, u32);
    const NEXT: unsafe extern "C" fn(*mut Raw, *mut Cursor, *mut Self::Plain, u32) -> i32;
    const EPOCH: unsafe extern "C" fn(*const Raw) -> u64;
    const LAST_EPOCH: unsafe extern "C" fn(*const Raw) -> u64;
    const SLOTS: unsafe extern "C" fn(*const Raw) -> u32;
    const BUCKETS: unsafe extern "C" fn(*const Raw) -> u32;
    const SEED: unsafe extern "C" fn(*const Raw) -> u64;
    const BALANCE: unsafe extern "C" fn(*const Raw) -> i64;
    const RESTARTS: unsafe extern "C" fn(*const Raw) -> u64;
    const HELPS: unsafe extern "C" fn(*const Raw) -> u64;
    const ADVANCES: unsafe extern "C" fn(*const Raw) -> u64;
    const FREE_ABOUT: unsafe extern "C" fn(*const Raw) -> u32;
    const SPARE: unsafe extern "C" fn(*mut Raw) -> u32;
    const RESERVE: unsafe extern "C" fn(*mut Raw, u32) -> u32;
    const CLOSE_ALL: unsafe extern "C" fn(*mut Raw, usize, *mut Self::Plain, usize, *mut ReportNumbers) -> i32;
    const REPORT_ALL: unsafe extern "C" fn(*mut Raw, usize, *mut Self::Plain, usize, *mut ReportNumbers) -> i32;
    const RENEW_ALL_SEEDED: unsafe extern "C" fn(*mut Raw, usize, u32, u32, u64, u64) -> i32;
    const END_ALL: unsafe extern "C" fn(*mut Raw, usize);
    const HOLD: unsafe extern "C" fn(*mut Raw, *mut u32, u32) -> i32;
    const LET_GO: unsafe extern "C" fn(*mut Raw) -> i32;
    const GET_ENTRY: unsafe extern "C" fn(*mut Raw, u64, *mut Stands, u32) -> i32;
    const IS_STILL: unsafe extern "C" fn(*mut Raw, *const Stands) -> i32;
    const REMOVE_ENTRY: unsafe extern "C" fn(*mut Raw, u64, *const Stands, u32) -> i32;
    const NEXT_AT: unsafe extern "C" fn(*mut Raw, *mut Cursor, *mut u64, *mut Stands, u32) -> i32;
    const REPORT_SLOTS: unsafe extern "C" fn(*mut Raw, usize, *mut Self::Plain, *mut u32, usize, *mut ReportNumbers) -> i32;
    const OPEN_SHARED: unsafe extern "C" fn(*mut *mut SharedRaw, usize, u32, u32, u64, *const Self::Plain, usize) -> i32;
    const OPEN_SHARED_IN: unsafe extern "C" fn(
        c_int,
        *mut *mut SharedRaw,
        usize,
        u32,
        u32,
        u64,
        *const Self::Plain,
        usize,
    ) -> i32;
    const GATHER: unsafe extern "C" fn(*mut SharedRaw) -> *mut Raw;

    fn plain(item: Item) -> Self::Plain;
    fn item(plain: Self::Plain) -> Item;
    fn key(plain: &Self::Plain) -> u64;

    /// What the last close reports.
    fn report(contents: Contents<Item>) -> Told;

    /// Puts an item in, in the place of the one with its key if there is one, and says whether there was none.
    fn put(pass: &mut PassOf<Self>, item: Item) -> Result<bool, Refusal>
    where
        Self: Kind;

    /// Takes out the key of an item, and gives what is taken.
    fn take(pass: &mut PassOf<Self>, item: Item) -> Result<Option<Item>, OutOfSteps>
    where
        Self: Kind;
}

#[allow(clippy::type_complexity, reason = "a call has the type that it has in C")]
impl<K: Bits> Calls<K, Report<K>> for Keys<K> {
    type Plain = u64;

    const NAMES: [&'static str; 3] = ["Set", "Handle", "Pass"];

    // tools/interface makes these of the headers.
    const OPEN_MANY_SEEDED: unsafe extern "C" fn(*mut Raw, usize, u32, u32, u64, u64, *const Self::Plain, usize) -> i32 =
        vbr_open_many_seeded;
    const HAS: unsafe extern "C" fn(*mut Raw, u64, u32) -> i32 = vbr_has_within;
    const HAS_ALL: unsafe extern "C" fn(*mut Raw, *const u64, usize, *mut i32, u32) = vbr_has_all_within;
    const NEXT: unsafe extern "C" fn(*mut Raw, *mut Cursor, *mut Self::Plain, u32) -> i32 = vbr_next_within;
    const EPOCH: unsafe extern "C" fn(*const Raw) -> u64 = vbr_epoch;
    const LAST_EPOCH: unsafe extern "C" fn(*const Raw) -> u64 = vbr_last_epoch;
    const SLOTS: unsafe extern "C" fn(*const Raw) -> u32 = vbr_slots;
    const BUCKETS: unsafe extern "C" fn(*const Raw) -> u32 = vbr_buckets;
    const SEED: unsafe extern "C" fn(*const Raw) -> u64 = vbr_seed;
    const BALANCE: unsafe extern "C" fn(*const Raw) -> i64 = vbr_balance;
    const RESTARTS: unsafe extern "C" fn(*const Raw) -> u64 = vbr_restarts;
    const HELPS: unsafe extern "C" fn(*const Raw) -> u64 = vbr_helps;
    const ADVANCES: unsafe extern "C" fn(*const Raw) -> u64 = vbr_advances;
    const FREE_ABOUT: unsafe extern "C" fn(*const Raw) -> u32 = vbr_free_about;
    const SPARE: unsafe extern "C" fn(*mut Raw) -> u32 = vbr_spare;
    const RESERVE: unsafe extern "C" fn(*mut Raw, u32) -> u32 = vbr_reserve;
    const CLOSE_ALL: unsafe extern "C" fn(*mut Raw, usize, *mut Self::Plain, usize, *mut ReportNumbers) -> i32 =
        vbr_close_all;
    const REPORT_ALL: unsafe extern "C" fn(*mut Raw, usize, *mut Self::Plain, usize, *mut ReportNumbers) -> i32 =
        vbr_report_all;
    const RENEW_ALL_SEEDED: unsafe extern "C" fn(*mut Raw, usize, u32, u32, u64, u64) -> i32 = vbr_renew_all_seeded;
    const END_ALL: unsafe extern "C" fn(*mut Raw, usize) = vbr_end_all;
    const HOLD: unsafe extern "C" fn(*mut Raw, *mut u32, u32) -> i32 = vbr_hold_within;
    const LET_GO: unsafe extern "C" fn(*mut Raw) -> i32 = vbr_let_go;
    const GET_ENTRY: unsafe extern "C" fn(*mut Raw, u64, *mut Stands, u32) -> i32 = vbr_get_entry_within;
    const IS_STILL: unsafe extern "C" fn(*mut Raw, *const Stands) -> i32 = vbr_is_still;
    const REMOVE_ENTRY: unsafe extern "C" fn(*mut Raw, u64, *const Stands, u32) -> i32 = vbr_remove_entry_within;
    const NEXT_AT: unsafe extern "C" fn(*mut Raw, *mut Cursor, *mut u64, *mut Stands, u32) -> i32 = vbr_next_at_within;
    const REPORT_SLOTS: unsafe extern "C" fn(*mut Raw, usize, *mut Self::Plain, *mut u32, usize, *mut ReportNumbers) -> i32 =
        vbr_report_slots;
    const OPEN_SHARED: unsafe extern "C" fn(*mut *mut SharedRaw, usize, u32, u32, u64, *const Self::Plain, usize) -> i32 =
        vbr_open_shared;
    const OPEN_SHARED_IN: unsafe extern "C" fn(
        c_int,
        *mut *mut SharedRaw,
        usize,
        u32,
        u32,
        u64,
        *const Self::Plain,
        usize,
    ) -> i32 = vbr_open_shared_in;
    const GATHER: unsafe extern "C" fn(*mut SharedRaw) -> *mut Raw = vbr_gather;

    #[inline]
    fn plain(key: K) -> u64 {
        key.to_bits()
    }

    #[inline]
    fn item(key: u64) -> K {
        K::from_bits(key)
    }

    #[inline]
    fn key(key: &u64) -> u64 {
        *key
    }

    fn report(Contents { items: keys, epoch, marked, free }: Contents<K>) -> Report<K> {
        Report { keys, epoch, marked, free }
    }

    #[inline]
    fn put(pass: &mut PassOf<Self>, key: K) -> Result<bool, Refusal> {
        pass.insert(key)
    }

    #[inline]
    fn take(pass: &mut PassOf<Self>, key: K) -> Result<Option<K>, OutOfSteps> {
        Ok(pass.remove(key)?.then_some(key))
    }
}

#[allow(clippy::type_complexity, reason = "a call has the type that it has in C")]
impl<K: Bits, V: Bits> Calls<(K, V), MapReport<K, V>> for Entries<K, V> {
    type Plain = Pair;

    const NAMES: [&'static str; 3] = ["Map", "MapHandle", "MapPass"];

    // tools/interface makes these of the headers.
    const OPEN_MANY_SEEDED: unsafe extern "C" fn(*mut Raw, usize, u32, u32, u64, u64, *const Self::Plain, usize) -> i32 =
        vbr_map_open_many_seeded;
    const HAS: unsafe extern "C" fn(*mut Raw, u64, u32) -> i32 = vbr_map_has_within;
    const HAS_ALL: unsafe extern "C" fn(*mut Raw, *const u64, usize, *mut i32, u32) = vbr_map_has_all_within;
    const NEXT: unsafe extern "C" fn(*mut Raw, *mut Cursor, *mut Self::Plain, u32) -> i32 = vbr_map_next_within;
    const EPOCH: unsafe extern "C" fn(*const Raw) -> u64 = vbr_map_epoch;
    const LAST_EPOCH: unsafe extern "C" fn(*const Raw) -> u64 = vbr_map_last_epoch;
    const SLOTS: unsafe extern "C" fn(*const Raw) -> u32 = vbr_map_slots;
    const BUCKETS: unsafe extern "C" fn(*const Raw) -> u32 = vbr_map_buckets;
    const SEED: unsafe extern "C" fn(*const Raw) -> u64 = vbr_map_seed;
    const BALANCE: unsafe extern "C" fn(*const Raw) -> i64 = vbr_map_balance;
    const RESTARTS: unsafe extern "C" fn(*const Raw) -> u64 = vbr_map_restarts;
    const HELPS: unsafe extern "C" fn(*const Raw) -> u64 = vbr_map_helps;
    const ADVANCES: unsafe extern "C" fn(*const Raw) -> u64 = vbr_map_advances;
    const FREE_ABOUT: unsafe extern "C" fn(*const Raw) -> u32 = vbr_map_free_about;
    const SPARE: unsafe extern "C" fn(*mut Raw) -> u32 = vbr_map_spare;
    const RESERVE: unsafe extern "C" fn(*mut Raw, u32) -> u32 = vbr_map_reserve;
    const CLOSE_ALL: unsafe extern "C" fn(*mut Raw, usize, *mut Self::Plain, usize, *mut ReportNumbers) -> i32 =
        vbr_map_close_all;
    const REPORT_ALL: unsafe extern "C" fn(*mut Raw, usize, *mut Self::Plain, usize, *mut ReportNumbers) -> i32 =
        vbr_map_report_all;
    const RENEW_ALL_SEEDED: unsafe extern "C" fn(*mut Raw, usize, u32, u32, u64, u64) -> i32 = vbr_map_renew_all_seeded;
    const END_ALL: unsafe extern "C" fn(*mut Raw, usize) = vbr_map_end_all;
    const HOLD: unsafe extern "C" fn(*mut Raw, *mut u32, u32) -> i32 = vbr_map_hold_within;
    const LET_GO: unsafe extern "C" fn(*mut Raw) -> i32 = vbr_map_let_go;
    const GET_ENTRY: unsafe extern "C" fn(*mut Raw, u64, *mut Stands, u32) -> i32 = vbr_map_get_entry_within;
    const IS_STILL: unsafe extern "C" fn(*mut Raw, *const Stands) -> i32 = vbr_map_is_still;
    const REMOVE_ENTRY: unsafe extern "C" fn(*mut Raw, u64, *const Stands, u32) -> i32 = vbr_map_remove_entry_within;
    const NEXT_AT: unsafe extern "C" fn(*mut Raw, *mut Cursor, *mut u64, *mut Stands, u32) -> i32 = vbr_map_next_at_within;
    const REPORT_SLOTS: unsafe extern "C" fn(*mut Raw, usize, *mut Self::Plain, *mut u32, usize, *mut ReportNumbers) -> i32 =
        vbr_map_report_slots;
    const OPEN_SHARED: unsafe extern "C" fn(*mut *mut SharedRaw, usize, u32, u32, u64, *const Self::Plain, usize) -> i32 =
        vbr_map_open_shared;
    const OPEN_SHARED_IN: unsafe extern "C" fn(
        c_int,
        *mut *mut SharedRaw,
        usize,
        u32,
        u32,
        u64,
        *const Self::Plain,
        usize,
    ) -> i32 = vbr_map_open_shared_in;
    const GATHER: unsafe extern "C" fn(*mut SharedRaw) -> *mut Raw = vbr_map_gather;

    #[inline]
    fn plain((key, value): (K, V)) -> Pair {
        Pair { key: key.to_bits(), value: value.to_bits() }
    }

    #[inline]
    fn item(Pair { key, value }: Pair) -> (K, V) {
        (K::from_bits(key), V::from_bits(value))
    }

    #[inline]
    fn key(pair: &Pair) -> u64 {
        pair.key
    }

    fn report(Contents { items: entries, epoch, marked, free }: Contents<(K, V)>) -> MapReport<K, V> {
        MapReport { entries, epoch, marked, free }
    }

    #[inline]
    fn put(pass: &mut PassOf<Self>, (key, value): (K, V)) -> Result<bool, Refusal> {
        Ok(pass.put(key, value)?.is_none())
    }

    #[inline]
    fn take(pass: &mut PassOf<Self>, (key, _): (K, V)) -> Result<Option<(K, V)>, OutOfSteps> {
        Ok(pass.remove(key)?.map(|value| (key, value)))
    }
}

/// The answer of a call that may take a slot.
#[inline]
pub(crate) fn updated(told: i32) -> Result<bool, Refusal> {
    match told {
        code::NO => Ok(false),
        code::YES => Ok(true),
        code::NO_SLOT => Err(Refusal::NoSlot),
        code::EPOCH_SPENT => Err(Refusal::EpochSpent),
        code::HELD => Err(Refusal::Held),
        _ => Err(Refusal::OutOfSteps),
    }
}

/// The answer of a call of a walk.
#[inline]
pub(crate) fn walked(told: i32) -> Result<bool, WalkError> {
    match told {
        code::RESHAPED => Err(WalkError::Reshaped),
        told => Ok(looked_up(told)?),
    }
}

/// The answer of a call that takes no slot: of a look-up or a remove.
#[inline]
pub(crate) fn looked_up(told: i32) -> Result<bool, OutOfSteps> {
    match told {
        code::NO => Ok(false),
        code::YES => Ok(true),
        _ => Err(OutOfSteps),
    }
}

/// The answer of a call that writes the value that was there if it answers yes.
#[inline]
pub(crate) fn with_value<V: Bits, E>(
    answer: impl FnOnce(i32) -> Result<bool, E>,
    call: impl FnOnce(&mut u64) -> i32,
) -> Result<Option<V>, E> {
    let mut value = 0;
    let was_there = answer(call(&mut value))?;
    Ok(was_there.then(|| V::from_bits(value)))
}

/// The answer of a call that compares the value of a key, and writes its bits if the key is there.
#[inline]
pub(crate) fn compared<E>(
    answer: impl FnOnce(i32) -> Result<bool, E>,
    call: impl FnOnce(&mut u64) -> i32,
) -> Result<Compared, E> {
    let mut found = 0;
    match call(&mut found) {
        code::OTHER => Ok(Compared::Other(found)),
        told => Ok(if answer(told)? { Compared::Equal } else { Compared::Absent }),
    }
}

/// How many keys a call of the library is given at once: some of its batches.
pub(crate) const TOGETHER: usize = 64;

/// The answers of look-ups of several keys, each of which `told` makes of what the library wrote for its key. It asks for as many
/// answers as keys.
///
/// `call` is given some of the keys, and room for the answer of each.
#[inline]
pub(crate) fn answer_all<K: Bits, T: Copy + Default + Answered, A>(
    keys: &[K],
    answers: &mut [A],
    call: impl Fn(&[u64], &mut [T]),
    told: impl Fn(T) -> A,
) {
    assert_eq!(keys.len(), answers.len(), "there have to be as many answers as keys");
    let (mut bits, mut room) = ([0; TOGETHER], [T::default(); TOGETHER]);
    for (keys, answers) in keys.chunks(TOGETHER).zip(answers.chunks_mut(TOGETHER)) {
        let (bits, room) = (&mut bits[..keys.len()], &mut room[..keys.len()]);
        for (bits, key) in bits.iter_mut().zip(keys) {
            *bits = key.to_bits();
        }
        call(bits, room);
        for ((answer, &given), &key) in answers.iter_mut().zip(&*room).zip(&*bits) {
            order::finds(key, || given.code());
            *answer = told(given);
        }
    }
}

/// The answer for one of several keys, with its code.
pub(crate) trait Answered {
    fn code(&self) -> i32;
}

impl Answered for i32 {
    #[inline]
    fn code(&self) -> i32 {
        *self
    }
}

impl Answered for Found {
    #[inline]
    fn code(&self) -> i32 {
        self.answer
    }
}

/// The answer that a get of several keys gives for one.
#[inline]
pub(crate) fn found<V: Bits>(Found { value, answer }: Found) -> Result<Option<V>, OutOfSteps> {
    Ok(looked_up(answer)?.then(|| V::from_bits(value)))
}

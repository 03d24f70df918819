//! Caches: each call worked by hand; what goes, and when entries expire, by a clock of the test; two keys with one hash; loaders that fail,
//! panic, wait and are overtaken; loans that are kept in a renewal; hit ratios beside an exact LRU; and values that check themselves,
//! under four threads, evictions, expiries and renewals.
#![allow(
    clippy::cast_possible_truncation,
    clippy::cast_precision_loss,
    clippy::cast_sign_loss,
    reason = "the numbers are small"
)]
use std::collections::{BTreeMap, HashMap};
use std::fmt::Debug;
use std::hash::{BuildHasherDefault, Hasher};
use std::panic::{catch_unwind, resume_unwind, AssertUnwindSafe};
use std::sync::atomic::{AtomicBool, AtomicU64, Ordering::Relaxed};
use std::sync::{mpsc, Barrier};
use std::thread;
use std::time::Duration;
use vbr::{
    Cache, CacheChange, CacheOptions, Cursor, LoadError, OutOfSteps, RecordKey, Refusal, SmallBytes, SmallStr, Steps,
    TooLong, WalkError,
};

type Value = [u64; 12];

/// The value with this serial number of a key.
fn value_of(key: u64, serial: u64) -> Value {
    let mix = |place: u64| (key << 32 ^ serial ^ place).wrapping_mul(0x9e37_79b9_7f4a_7c15).rotate_left(place as u32);
    let mut value: Value = std::array::from_fn(|place| mix(place as u64));
    [value[0], value[11]] = [key, serial];
    value
}

/// The serial number of a value, which is of this key, and no part of another one.
fn serial_of(key: u64, value: Value) -> u64 {
    assert_eq!(value, value_of(key, value[11]), "a value of two, or of another key");
    value[11]
}

fn seconds(count: u64) -> Duration {
    Duration::from_secs(count)
}

/// A clock that a test sets, in seconds.
macro_rules! clock {
    ($second:ident) => {{
        static $second: AtomicU64 = AtomicU64::new(1);
        (&$second, || seconds($second.load(Relaxed)))
    }};
}

#[test]
fn each_call() {
    each_call_with(|key| key);
    each_call_with(|key| SmallStr::<20>::new(&format!("the key {key}")).expect("it is short"));
    each_call_with(|key| SmallBytes::<9>::new(&[key as u8; 9]).expect("it is short"));
    each_call_with(|key| [key as u8; 32]);
}

fn each_call_with<K: RecordKey + Debug + PartialEq>(key: impl Fn(u64) -> K) {
    let cache = Cache::open_for(8, 1).expect("a cache");
    let (five, six, seven) = (key(5), key(6), key(7));
    let [first, second, third] = [1, 2, 3].map(|serial| value_of(5, serial));
    let mut mine = cache.lend_wait();
    // absent
    assert_eq!((mine.has(five), mine.get(five), mine.remove(five)), (Ok(false), Ok(None), Ok(None)));
    assert_eq!((mine.replace(five, first), mine.touch(five, seconds(1))), (Ok(None), Ok(false)));
    assert_eq!(mine.compute(five, |before| before.map_or(CacheChange::Keep, |_| unreachable!())), Ok(None));
    assert_eq!(mine.compute(five, |_| CacheChange::Remove), Ok(None));
    assert_eq!(mine.next(&mut Cursor::first()), Ok(None));
    // put in
    assert_eq!((mine.try_insert(five, first), mine.try_insert(five, second)), (Ok(true), Ok(false)));
    assert_eq!((mine.has(five), mine.get(five), mine.get(six)), (Ok(true), Ok(Some(first)), Ok(None)));
    assert_eq!((mine.put(five, second), mine.replace(five, third)), (Ok(Some(first)), Ok(Some(second))));
    assert_eq!((mine.put_for(six, value_of(6, 1), seconds(3_600)), mine.get(six)), (Ok(None), Ok(Some(value_of(6, 1)))));
    // computed
    assert_eq!(mine.compute(five, |_| CacheChange::Keep), Ok(Some(third)));
    let next = |before: Option<Value>| value_of(7, before.map_or(1, |it| it[11] + 1));
    assert_eq!(mine.compute(seven, |before| CacheChange::Put(next(before))), Ok(None));
    assert_eq!(mine.compute(seven, |before| CacheChange::Update(next(before))), Ok(Some(value_of(7, 1))));
    assert_eq!(mine.compute(seven, |before| CacheChange::PutFor(next(before), seconds(3_600))), Ok(Some(value_of(7, 2))));
    assert_eq!((mine.get(seven), mine.touch(seven, seconds(1_800))), (Ok(Some(value_of(7, 3))), Ok(true)));
    // loaded
    assert_eq!(mine.get_or_load(five, || Err("it is there")), Ok(third));
    assert_eq!(mine.try_get_or_load(key(8), || Ok::<_, ()>(value_of(8, 1))), Ok(value_of(8, 1)));
    assert_eq!(mine.get_or_load(key(9), || Err("no answer")), Err(LoadError::Failed("no answer")));
    // walked over
    let mut cursor = Cursor::first();
    let all: Vec<_> = std::iter::from_fn(|| mine.next(&mut cursor).expect("steps")).collect();
    assert_eq!(all.len(), 4);
    for each in [(five, third), (six, value_of(6, 1)), (seven, value_of(7, 3)), (key(8), value_of(8, 1))] {
        assert!(all.contains(&each));
    }
    // counted: `get` and `get_or_load` found five twice, six and seven, and missed five, six, eight and nine
    let told = cache.statistics();
    assert_eq!((told.hits, told.misses, told.loads), (4, 4, 2));
    assert_eq!((told.evictions, told.expiries, told.length), (0, 0, 4));
    // taken out
    assert_eq!((mine.remove(five), mine.get(five)), (Ok(Some(third)), Ok(None)));
    assert_eq!(mine.compute(six, |_| CacheChange::Remove), Ok(Some(value_of(6, 1))));
    assert_eq!((mine.clear(), mine.next(&mut Cursor::first()), cache.statistics().length), (Ok(()), Ok(None), 0));
}

#[test]
fn bytes_up_to_a_capacity() {
    type Bytes = SmallBytes<4>;
    assert_eq!(Bytes::new(&[1, 2, 3, 4, 5]), Err(TooLong { bytes: 5, most: 4 }));
    for bytes in [&[][..], &[0], &[1, 2, 3, 4]] {
        let (cache, kept) = (Cache::open_for(8, 1).expect("a cache"), Bytes::new(bytes).expect("room"));
        assert_eq!((&*kept, kept.len(), kept == *bytes), (bytes, bytes.len(), true));
        assert_eq!((cache.put(kept, kept), cache.get(kept)), (Ok(None), Ok(Some(kept))));
    }
    assert!(Bytes::new(&[0]) != Bytes::new(&[]) && Bytes::new(&[0]) != Bytes::new(&[0, 0]));
    let large = || {
        let large = SmallBytes::<65_535>::new(&vec![7; 65_535]).expect("room");
        let cache = Cache::open_for(2, 1).expect("a cache");
        assert_eq!((cache.put(5, large), cache.get(5).map(|it| it == Some(large))), (Ok(None), Ok(true)));
    };
    // in a build without optimisation there are many copies of it on the stack
    thread::Builder::new().stack_size(16 << 20).spawn(large).expect("a thread").join().expect("it ends");
}

/// Of a full cache what was used stays for a round of the hand, and no insert is refused, with one handle and with many.
#[test]
fn what_is_used_stays() {
    for handles in [1, 8] {
        let cache: Cache<u64, Value> = Cache::open_for(100, handles).expect("a cache");
        let mut mine = cache.lend_wait();
        for key in 0..100 {
            assert_eq!(mine.put(key, value_of(key, 1)), Ok(None));
        }
        for key in 100..10_000 {
            assert_eq!(mine.get(5), Ok(Some(value_of(5, 1)))); // between any two rounds
            assert_eq!((mine.put(key, value_of(key, 1)), mine.has(key)), (Ok(None), Ok(true)));
        }
        let told = cache.statistics();
        assert_eq!((told.evictions, told.expiries, told.length), (9_900, 0, 100));
    }
}

/// Removes whose budgets just suffice leave their nodes in their lists, and these keep the slots. Then an entry goes, though the cache
/// isn't full.
#[test]
fn without_a_slot() {
    let cache: Cache<u64, u64> = CacheOptions::new().with_seed(0).open_for(1_025, 1).expect("a cache");
    let mut mine = cache.lend_wait();
    for key in 0..200 {
        assert_eq!(mine.put(key, key), Ok(None));
    }
    for key in 200..1_200 {
        mine.set_steps(Steps::AMPLE);
        assert_eq!(mine.put(key, key), Ok(None));
        let is_removed = |steps| {
            mine.set_steps(Steps::new(steps));
            mine.remove(key) == Ok(Some(key))
        };
        assert!((1..100).any(is_removed));
    }
    let told = cache.statistics();
    assert!(told.evictions > 0 && told.length == 200 - told.evictions);
}

/// Of a hundred entries of which half were used, the other half goes first.
#[test]
fn what_was_not_used_goes() {
    let cache: Cache<u64, u64> = Cache::open_for(100, 1).expect("a cache");
    let mut mine = cache.lend_wait();
    for key in 0..100 {
        assert_eq!(mine.put(key, key), Ok(None));
    }
    for key in 0..50 {
        assert_eq!(mine.get(key), Ok(Some(key)));
    }
    for key in 100..150 {
        assert_eq!(mine.put(key, key), Ok(None));
    }
    assert!((0..50).all(|key| mine.has(key) == Ok(true)));
    assert!((50..100).all(|key| mine.has(key) == Ok(false)));
}

#[test]
fn a_cache_of_one_entry() {
    let cache: Cache<u64, Value> = Cache::open_for(1, 3).expect("a cache");
    thread::scope(|scope| {
        for first in 0..3 {
            let cache = &cache;
            scope.spawn(move || {
                let mut mine = cache.lend_wait();
                for key in (first..3_000).step_by(3) {
                    assert_eq!(mine.put(key, value_of(key, 1)), Ok(None));
                    assert!(mine.get(key).expect("steps").is_none_or(|it| serial_of(key, it) == 1));
                }
            });
        }
    });
    assert!(cache.statistics().length <= 3);
    assert_eq!(cache.put(7, value_of(7, 1)), Ok(None));
    assert_eq!(cache.put(8, value_of(8, 1)), Ok(None));
    assert_eq!((cache.get(8), cache.statistics().length), (Ok(Some(value_of(8, 1))), 1));
}

#[test]
fn entries_expire() {
    let (second, clock) = clock!(SECOND);
    let options = CacheOptions::new().with_clock(clock).with_time_to_live(seconds(10));
    let cache: Cache<u64, u64> = options.open_for(8, 1).expect("a cache");
    let mut mine = cache.lend_wait();
    assert_eq!(
        (mine.put(5, 70), mine.put_for(6, 60, seconds(3)), mine.put_for(7, 50, Duration::MAX)),
        (Ok(None), Ok(None), Ok(None))
    );
    second.store(3, Relaxed);
    assert_eq!((mine.get(5), mine.get(6), mine.get(7)), (Ok(Some(70)), Ok(Some(60)), Ok(Some(50))));
    second.store(4, Relaxed);
    assert_eq!((mine.has(6), mine.next(&mut Cursor::first()).map(|it| it.is_some())), (Ok(false), Ok(true)));
    assert_eq!(cache.statistics().length, 3); // nobody took it out
    assert_eq!((mine.get(6), mine.get(6), cache.statistics().length), (Ok(None), Ok(None), 2));
    // each value that is put begins anew, an update goes on
    assert_eq!(mine.compute(5, |_| CacheChange::Update(71)), Ok(Some(70)));
    second.store(10, Relaxed);
    assert_eq!((mine.get(5), mine.put(8, 80)), (Ok(Some(71)), Ok(None)));
    second.store(11, Relaxed);
    assert_eq!((mine.get(5), mine.replace(5, 72), mine.touch(5, seconds(5))), (Ok(None), Ok(None), Ok(false)));
    assert_eq!((mine.put(8, 81), mine.touch(8, seconds(2))), (Ok(Some(80)), Ok(true)));
    second.store(12, Relaxed);
    assert_eq!(mine.get(8), Ok(Some(81)));
    second.store(13, Relaxed);
    // what has expired is absent for each call, and replaced
    assert_eq!(mine.compute(8, |it| it.map_or(CacheChange::Keep, |_| unreachable!())), Ok(None));
    assert_eq!((mine.remove(8), mine.try_insert(8, 82), mine.get(8)), (Ok(None), Ok(true), Ok(Some(82))));
    second.store(1_000_000_000, Relaxed);
    assert_eq!((mine.get(7), mine.get(8)), (Ok(Some(50)), Ok(None)));
    let told = cache.statistics();
    assert_eq!((told.evictions, told.expiries, told.length), (0, 4, 1));
}

/// Entries that have expired go ahead of those that weren't used, also if they were used themselves.
#[test]
fn what_has_expired_goes_first() {
    let (second, clock) = clock!(SECOND);
    let cache: Cache<u64, u64> = CacheOptions::new().with_clock(clock).open_for(100, 1).expect("a cache");
    let mut mine = cache.lend_wait();
    for key in 0..100 {
        let told = if key % 10 == 0 { mine.put_for(key, key, seconds(1)) } else { mine.put(key, key) };
        assert_eq!((told, mine.get(key)), (Ok(None), Ok(Some(key))));
    }
    second.store(2, Relaxed);
    for key in 100..110 {
        assert_eq!(mine.put(key, key), Ok(None));
    }
    let told = cache.statistics();
    assert_eq!((told.evictions, told.expiries, told.length), (0, 10, 100));
}

/// Each key has the hash 0.
#[derive(Default)]
struct Worst;

impl Hasher for Worst {
    fn write(&mut self, _: &[u8]) {}

    fn finish(&self) -> u64 {
        0
    }
}

#[test]
fn two_keys_with_one_hash() {
    let options = CacheOptions::new().with_hasher(BuildHasherDefault::<Worst>::default());
    let cache: Cache<SmallStr<8>, Value, _> = options.open_for(8, 1).expect("a cache");
    let [port, gate] = ["port", "gate"].map(|it| SmallStr::new(it).expect("it is short"));
    let mut mine = cache.lend_wait();
    assert_eq!((mine.put(port, value_of(5, 1)), mine.get(gate), mine.has(gate)), (Ok(None), Ok(None), Ok(false)));
    assert_eq!((mine.remove(gate), mine.replace(gate, value_of(6, 1))), (Ok(None), Ok(None)));
    assert_eq!((mine.touch(gate, seconds(1)), mine.get(port)), (Ok(false), Ok(Some(value_of(5, 1)))));
    assert_eq!(
        (mine.put(gate, value_of(6, 2)), mine.get(port), mine.get(gate)),
        (Ok(None), Ok(None), Ok(Some(value_of(6, 2))))
    );
    let told = cache.statistics();
    assert_eq!((told.evictions, told.length), (1, 1));
}

#[test]
fn without_steps() {
    let cache: Cache<u64, u64> = Cache::open_for(8, 1).expect("a cache");
    assert_eq!(cache.put(5, 70), Ok(None));
    let mut mine = cache.lend_wait();
    mine.set_steps(Steps::new(1));
    assert_eq!(
        (mine.get(5), mine.has(5), mine.remove(5), mine.clear()),
        (Err(OutOfSteps), Err(OutOfSteps), Err(OutOfSteps), Err(OutOfSteps))
    );
    assert_eq!((mine.put(5, 71), mine.put(6, 60)), (Err(Refusal::OutOfSteps), Err(Refusal::OutOfSteps)));
    assert_eq!(mine.get_or_load(5, || Ok::<_, ()>(71)), Err(LoadError::OutOfSteps));
    assert_eq!(mine.next(&mut Cursor::first()), Err(WalkError::OutOfSteps));
    drop(mine);
    let told = cache.statistics();
    assert_eq!((told.length, told.loads, cache.get(5)), (1, 0, Ok(Some(70))));
}

/// Until the program renews, what is there stays, and is found; what would be stored is refused, and takes nobody's place.
#[test]
fn after_the_last_epoch() {
    let options = CacheOptions::new().with_last_epoch(40).renewed_by_program();
    let cache: Cache<u64, u64> = options.open_for(10, 1).expect("a cache");
    let mut mine = cache.lend_wait();
    let first = (0..10_000).find(|key| mine.put(*key, *key) == Err(Refusal::EpochSpent)).expect("it is spent at some time");
    for key in first..first + 100 {
        assert_eq!((mine.put(key, key), mine.try_insert(key, key)), (Err(Refusal::EpochSpent), Err(Refusal::EpochSpent)));
        assert_eq!(mine.get_or_load(key, || Ok::<_, ()>(key)), Ok(key)); // and it isn't kept
    }
    let there: Vec<_> = (0..first).filter(|key| mine.get(*key) == Ok(Some(*key))).collect();
    assert_eq!((there.len(), cache.statistics().length), (10, 10));
    assert_eq!(
        (mine.replace(there[0], 0), mine.touch(there[0], seconds(1))),
        (Err(Refusal::EpochSpent), Err(Refusal::EpochSpent))
    );
    assert_eq!((mine.remove(there[0]), mine.put(first, first)), (Ok(Some(there[0])), Err(Refusal::EpochSpent)));
    assert_eq!((cache.statistics().length, mine.get(there[1])), (9, Ok(Some(there[1]))));
    drop(mine);
    cache.renew().expect("memory");
    assert_eq!((cache.put(first, first), cache.get(first), cache.statistics().length), (Ok(None), Ok(Some(first)), 10));
}

/// Eight threads miss one key at a time, again and again, with fewer handles than threads: each time one loads.
#[test]
fn one_loads_and_the_others_wait() {
    const THREADS: usize = 8;
    let cache: Cache<u64, Value> = Cache::open_for(100, 2).expect("a cache");
    let (loads, meet) = (AtomicU64::new(0), Barrier::new(THREADS));
    let get_each = || {
        let get = |key| {
            meet.wait();
            cache.get_or_load(key, || {
                thread::sleep(Duration::from_millis(1));
                Ok::<_, ()>(value_of(key, loads.fetch_add(1, Relaxed)))
            })
        };
        (0..50).map(get).collect::<Vec<_>>()
    };
    let told = thread::scope(|scope| {
        let threads = [(); THREADS].map(|()| scope.spawn(get_each));
        threads.map(|thread| thread.join().expect("it ends"))
    });
    // the loads before that of a key were of the keys before it
    let wanted: Vec<_> = (0..50).map(|key| Ok(value_of(key, key))).collect();
    assert!(told.iter().all(|told| *told == wanted));
    assert_eq!((loads.into_inner(), cache.statistics().loads), (50, 50));
}

/// Who misses a key that another thread loads before the miss is acted on finds what that one loaded. The clock holds the first one up.
#[test]
fn a_loader_that_has_just_ended() {
    static PHASE: AtomicU64 = AtomicU64::new(0);
    let clock = || {
        if PHASE.compare_exchange(1, 2, Relaxed, Relaxed).is_ok() {
            while PHASE.load(Relaxed) != 3 {
                thread::yield_now();
            }
        }
        seconds(1)
    };
    let cache: Cache<u64, u64> = CacheOptions::new().with_clock(clock).open_for(100, 2).expect("a cache");
    assert_eq!(cache.put_for(5, 70, Duration::ZERO), Ok(None));
    PHASE.store(1, Relaxed);
    thread::scope(|scope| {
        let first = scope.spawn(|| cache.get_or_load(5, || Ok::<_, ()>(71)));
        while PHASE.load(Relaxed) != 2 {
            thread::yield_now();
        }
        assert_eq!(cache.get_or_load(5, || Ok::<_, ()>(72)), Ok(72));
        PHASE.store(3, Relaxed);
        assert_eq!(first.join().expect("it ends"), Ok(72));
    });
    assert_eq!(cache.statistics().loads, 1);
}

/// Of those that wait for a loader that fails or panics each runs its own, one after the other, and has its own error.
#[test]
fn loaders_that_fail_or_panic() {
    let cache: Cache<u64, u64> = Cache::open_for(100, 2).expect("a cache");
    let (under_way, most, meet) = (AtomicU64::new(0), AtomicU64::new(0), Barrier::new(6));
    let load = |mine: u64| {
        most.fetch_max(under_way.fetch_add(1, Relaxed) + 1, Relaxed);
        thread::sleep(Duration::from_micros(200));
        under_way.fetch_sub(1, Relaxed);
        if mine % 2 == 0 {
            Err(mine)
        } else {
            resume_unwind(Box::new(mine))
        }
    };
    // whether a thread was told of its own loader in each round
    let fails = |mine: u64| {
        let fails_once = |round| {
            meet.wait();
            match catch_unwind(AssertUnwindSafe(|| cache.get_or_load(round, || load(mine)))) {
                Ok(told) => mine % 2 == 0 && told == Err(LoadError::Failed(mine)),
                Err(panic) => mine % 2 == 1 && panic.downcast_ref() == Some(&mine),
            }
        };
        (0..20).filter(|round| fails_once(*round)).count()
    };
    let told = thread::scope(|scope| {
        let fails = &fails;
        let threads = [0, 1, 2, 3, 4, 5].map(|mine| scope.spawn(move || fails(mine)));
        threads.map(|thread| thread.join().expect("it ends"))
    });
    assert_eq!((told, most.into_inner()), ([20; 6], 1));
    assert_eq!((cache.statistics().loads, cache.statistics().length), (120, 0));
    assert_eq!(cache.get_or_load(5, || Ok::<_, ()>(70)), Ok(70));
}

fn fibonacci(cache: &Cache<u64, u64>, of: u64) -> u64 {
    let load = || Ok::<_, ()>(if of < 2 { of } else { fibonacci(cache, of - 1) + fibonacci(cache, of - 2) });
    cache.get_or_load(of, load).expect("a value")
}

/// A loader calls the cache itself, also if there is one handle. For its own key it is told that it is under way.
#[test]
fn loaders_that_load() {
    let cache: Cache<u64, u64> = Cache::open_for(100, 1).expect("a cache");
    assert_eq!((fibonacci(&cache, 80), cache.statistics().loads), (23_416_728_348_467_685, 81));
    let told = cache.get_or_load(100, || cache.get_or_load(100, || Ok::<_, ()>(1)));
    assert_eq!(told, Err(LoadError::Failed(LoadError::UnderWay)));
}

/// Each of 300 loaders loads the next key: 256 are shared, and the values of the others aren't kept.
#[test]
fn more_loaders_than_are_shared() {
    fn steps_from(cache: &Cache<u64, u64>, key: u64) -> u64 {
        let load = || Ok::<_, ()>(if key == 299 { 0 } else { steps_from(cache, key + 1) + 1 });
        cache.get_or_load(key, load).expect("a value")
    }
    let cache: Cache<u64, u64> = Cache::open_for(1_000, 1).expect("a cache");
    assert_eq!((steps_from(&cache, 0), cache.statistics().loads, cache.statistics().length), (299, 300, 256));
    assert_eq!((cache.get(255), cache.get(256)), (Ok(Some(44)), Ok(None)));
}

/// What was changed while its loader ran isn't overwritten, and nothing comes back that was taken out.
#[test]
fn loaders_that_are_overtaken() {
    let cache: Cache<u64, u64> = Cache::open_for(100, 2).expect("a cache");
    let source = AtomicU64::new(1);
    let load_beside = |change: &dyn Fn() -> Option<u64>| {
        cache.get_or_load(5, || {
            let read = source.load(Relaxed);
            source.fetch_add(1, Relaxed);
            change();
            Ok::<_, ()>(read)
        })
    };
    assert_eq!((load_beside(&|| cache.remove(5).expect("steps")), cache.get(5)), (Ok(1), Ok(None)));
    assert_eq!((load_beside(&|| cache.lend_wait().clear().err().map(|_| 0)), cache.get(5)), (Ok(2), Ok(None)));
    assert_eq!(
        (load_beside(&|| cache.put(5, 70).expect("room")), cache.get(5), cache.remove(5)),
        (Ok(3), Ok(Some(70)), Ok(Some(70)))
    );
    assert_eq!(
        (load_beside(&|| cache.put(6, 60).expect("room")), cache.get(5), cache.remove(5)),
        (Ok(4), Ok(Some(4)), Ok(Some(4)))
    );
    // who comes after the change doesn't wait for the old one
    let told = load_beside(&|| {
        cache.remove(5).expect("steps");
        cache.get_or_load(5, || Ok::<_, ()>(source.load(Relaxed))).ok()
    });
    assert_eq!((told, cache.get(5)), (Ok(5), Ok(Some(6))));
}

/// Who doesn't wait is told of another thread's loader. Who waits does so no longer once the key is changed, and loads it as it is then.
#[test]
fn a_loader_elsewhere() {
    let cache: Cache<u64, u64> = Cache::open_for(100, 2).expect("a cache");
    let (begun, is_begun) = mpsc::channel();
    let (end, is_to_end) = mpsc::channel::<()>();
    let (removed, is_removed) = mpsc::channel::<()>();
    thread::scope(|scope| {
        let (end, removed) = (end, removed); // they go with this, so that nobody waits for what failed
        let first = scope.spawn(|| {
            cache.get_or_load(5, move || {
                begun.send(()).expect("the test waits");
                is_to_end.recv().expect("the test sends");
                Ok::<_, ()>(70)
            })
        });
        is_begun.recv().expect("it begins");
        assert_eq!(cache.try_get_or_load(5, || Ok::<_, ()>(71)), Err(LoadError::UnderWay));
        assert_eq!((cache.try_get_or_load(6, || Ok::<_, ()>(60)), cache.get(5)), (Ok(60), Ok(None)));
        let second = scope.spawn(|| {
            cache.get_or_load(5, move || {
                is_removed.recv().expect("the test sends");
                Ok::<_, ()>(71)
            })
        });
        thread::sleep(Duration::from_millis(20)); // it waits by then, mostly
        assert_eq!(cache.remove(5), Ok(None));
        removed.send(()).expect("it waits"); // its loader may begin while the key is being taken out
        assert_eq!(second.join().expect("it ends"), Ok(71));
        end.send(()).expect("it waits");
        assert_eq!(first.join().expect("it ends"), Ok(70));
    });
    assert_eq!((cache.try_get_or_load(5, || Ok::<_, ()>(72)), cache.statistics().loads), (Ok(71), 3));
}

/// A loan that is kept, and makes no call, holds nobody up before the last epoch is spent; one that makes look-ups doesn't even then.
#[test]
fn loans_that_are_kept_in_a_renewal() {
    let open = |options: CacheOptions| options.with_seed(0).with_last_epoch(200).open_for(10, 3).expect("a cache");
    let put_often = |cache: &Cache<u64, Value>, count: usize| {
        let mut mine = cache.lend_wait();
        (0..count).take_while(|_| mine.put(7, value_of(7, 1)).is_ok()).count()
    };
    let last = put_often(&open(CacheOptions::new().renewed_by_program()), usize::MAX);
    let cache = open(CacheOptions::new());
    let idle = cache.lend_wait();
    assert_eq!(put_often(&cache, last - 1), last - 1);
    drop(idle);
    let mut mine = cache.lend_wait();
    let is_over = AtomicBool::new(false);
    thread::scope(|scope| {
        scope.spawn(|| {
            let mut reader = cache.lend_wait();
            while !is_over.load(Relaxed) {
                reader.get(7).expect("steps");
            }
        });
        for serial in 0..20_000 {
            mine.put(7, value_of(7, serial)).expect("it is renewed");
        }
        is_over.store(true, Relaxed);
    });
    assert_eq!(mine.get(7), Ok(Some(value_of(7, 19_999))));
}

/// After a renewal the next one comes at the same epoch, so after about as many puts of keys that are there; an epoch has some tens of them.
#[test]
fn renewals_at_one_epoch() {
    let cache: Cache<u64, u64> = CacheOptions::new().with_last_epoch(8).open_for(100, 1).expect("a cache");
    let mut mine = cache.lend_wait();
    // how many puts there are before a renewal, which a walk tells of
    let mut puts = || {
        let mut cursor = Cursor::first();
        mine.put(0, 0).expect("room");
        mine.next(&mut cursor).expect("it begins");
        let is_renewed = |key: &u64| {
            mine.put(key % 100, *key).expect("room");
            mine.next(&mut cursor.clone()) == Err(WalkError::Reshaped)
        };
        (0..10_000).find(is_renewed).expect("it is renewed")
    };
    puts(); // of keys that aren't there yet, too
    let as_many = puts();
    for _ in 0..4 {
        assert!(puts().abs_diff(as_many) < 9);
    }
}

/// Two threads put a key each where there is room for one more: one entry goes, and no two. The clock, which is asked just before, lets
/// them meet.
#[test]
fn two_for_one_place() {
    static AT_THE_CLOCK: AtomicU64 = AtomicU64::new(0);
    let clock = || {
        if AT_THE_CLOCK.fetch_add(1, Relaxed) < 2 {
            while AT_THE_CLOCK.load(Relaxed) < 2 {
                thread::yield_now();
            }
        }
        seconds(1)
    };
    let cache: Cache<u64, u64> = CacheOptions::new().with_clock(clock).open_for(8, 2).expect("a cache");
    for _ in 0..1_000 {
        cache.lend_wait().clear().expect("steps");
        for key in 0..7 {
            assert_eq!(cache.put(key, key), Ok(None));
        }
        AT_THE_CLOCK.store(0, Relaxed);
        thread::scope(|scope| {
            let other = scope.spawn(|| cache.put_for(100, 0, seconds(9)));
            assert_eq!((cache.put_for(101, 0, seconds(9)), other.join().expect("it ends")), (Ok(None), Ok(None)));
        });
        assert_eq!(cache.statistics().length, 8);
    }
}

/// Entries keep their values and their expiry, and go as before; a walk says that it has to begin anew.
#[test]
fn what_a_renewal_keeps() {
    let (second, clock) = clock!(SECOND);
    let cache: Cache<SmallStr<20>, Value> = CacheOptions::new().with_clock(clock).open_for(100, 2).expect("a cache");
    let key = |number: u64| SmallStr::new(&format!("key {number}")).expect("it is short");
    let mut cursor = Cursor::first();
    for number in 0..100 {
        let (value, time) = (value_of(number, 1), seconds(if number % 2 == 0 { 1 } else { 1_000 }));
        assert_eq!(cache.put_for(key(number), value, time), Ok(None));
    }
    assert!(cache.lend_wait().next(&mut cursor).expect("steps").is_some());
    cache.renew().expect("memory");
    assert_eq!(cache.lend_wait().next(&mut cursor), Err(WalkError::Reshaped));
    for number in 0..100 {
        assert_eq!(cache.get(key(number)), Ok(Some(value_of(number, 1))));
    }
    second.store(2, Relaxed);
    for number in 100..150 {
        assert_eq!(cache.put(key(number), value_of(number, 1)), Ok(None));
    }
    for number in 0..150 {
        let is_there = number % 2 == 1 || number >= 100;
        assert_eq!(cache.get(key(number)), Ok(is_there.then(|| value_of(number, 1))));
    }
    let told = cache.statistics();
    assert_eq!((told.evictions, told.expiries, told.length), (0, 50, 100));
}

fn next(random: &mut u64) -> u64 {
    *random ^= *random << 13;
    *random ^= *random >> 7;
    *random ^= *random << 17;
    *random
}

/// Four threads change, load, look up, take out and walk, over renewals and expiries, with more keys than entries. Each key's serial
/// numbers only rise, by `compute`. `CALLS` of the environment is how many calls they make.
#[test]
fn values_of_threads() {
    const KEYS: u64 = 400;
    let calls: u64 = std::env::var("CALLS").map_or(400_000, |it| it.parse().expect("a number"));
    let (second, clock) = clock!(SECOND);
    let options = CacheOptions::new().with_clock(clock).with_last_epoch(400);
    let cache: Cache<u64, Value> = options.open_for(200, 3).expect("a cache");
    let serials: Vec<AtomicU64> = (0..KEYS).map(|_| AtomicU64::new(0)).collect();
    thread::scope(|scope| {
        for seed in 1..=4 {
            let (cache, serials, second) = (&cache, &serials, &second);
            scope.spawn(move || {
                let mut random = 0x9e37_79b9_7f4a_7c15 + seed;
                for call in 0..calls / 40 {
                    let mut mine = cache.lend_wait();
                    for _ in 0..10 {
                        let (key, kind) = (next(&mut random) % KEYS, next(&mut random) % 100);
                        let fresh = || value_of(key, serials[key as usize].fetch_add(1, Relaxed));
                        let check = |value: Option<Value>| value.map(|it| serial_of(key, it));
                        match kind {
                            0..50 => drop(check(mine.get(key).expect("steps"))),
                            50..60 => drop(check(mine.put(key, fresh()).expect("room"))),
                            60..65 => drop(check(mine.put_for(key, fresh(), seconds(1)).expect("room"))),
                            65..70 => drop(mine.try_insert(key, fresh()).expect("room")),
                            70..75 => drop(mine.touch(key, seconds(2)).expect("room")),
                            75..80 => drop(check(mine.remove(key).expect("steps"))),
                            80..85 => {
                                let mut found = None;
                                let told = mine.compute(key, |before| {
                                    found = before;
                                    CacheChange::Update(fresh())
                                });
                                assert_eq!(told, Ok(found));
                                check(found);
                            }
                            85..99 => {
                                let told = mine.get_or_load(key, || if kind == 98 { Err(key) } else { Ok(fresh()) });
                                match told {
                                    Ok(value) => drop(serial_of(key, value)),
                                    Err(why) => assert_eq!(why, LoadError::Failed(key)),
                                }
                            }
                            _ => {
                                let mut cursor = Cursor::first();
                                while let Ok(Some((key, value))) = mine.next(&mut cursor) {
                                    serial_of(key, value);
                                }
                            }
                        }
                    }
                    if call % 16 == 0 {
                        second.fetch_add(1, Relaxed);
                    }
                }
            });
        }
    });
    let told = cache.statistics();
    println!("{calls} calls: {told:?}");
    assert!(told.hits > 0 && told.misses > 0 && told.evictions > 0 && told.expiries > 0 && told.loads > 0);
    let mut mine = cache.lend_wait();
    let mut cursor = Cursor::first();
    let all: HashMap<_, _> = std::iter::from_fn(|| mine.next(&mut cursor).expect("steps")).collect();
    assert!(all.len() as u64 <= told.length && told.length <= 203);
    mine.clear().expect("steps");
    assert_eq!(cache.statistics().length, 0);
}

/// The entries that were used last.
#[derive(Default)]
struct Lru {
    turns: HashMap<u64, u64>,
    keys: BTreeMap<u64, u64>,
    turn: u64,
}

impl Lru {
    /// Whether the key is there; it is afterwards.
    fn uses(&mut self, key: u64, capacity: usize) -> bool {
        self.turn += 1;
        let before = self.turns.insert(key, self.turn);
        before.map(|turn| self.keys.remove(&turn));
        self.keys.insert(self.turn, key);
        if self.keys.len() > capacity {
            let (_, last) = self.keys.pop_first().expect("it has some");
            self.turns.remove(&last);
        }
        before.is_some()
    }
}

/// Numbers from 0 on, of which number n comes as often as (n + 1) to the power of minus `skew`.
fn zipf(count: u64, skew: f64) -> impl Fn(&mut u64) -> u64 {
    let mut sums = Vec::new();
    let mut sum = 0.0;
    for number in 1..=count {
        sum += (number as f64).powf(-skew);
        sums.push(sum);
    }
    move |random| {
        let point = (next(random) >> 11) as f64 / (1_u64 << 53) as f64 * sum;
        sums.partition_point(|it| *it < point) as u64
    }
}

/// In hundredths of look-ups, the hits of a cache and of an exact LRU with as many entries.
fn hits(calls: u32, mut key: impl FnMut() -> u64) -> (f64, f64) {
    const CAPACITY: u32 = 2_000;
    let cache: Cache<u64, u64> = CacheOptions::new().with_seed(0).open_for(CAPACITY, 1).expect("a cache");
    let (mut lru, mut lru_hits, mut mine) = (Lru::default(), 0, cache.lend_wait());
    for _ in 0..calls {
        let key = key();
        mine.get_or_load(key, || Ok::<_, ()>(key)).expect("a value");
        lru_hits += u32::from(lru.uses(key, CAPACITY as usize));
    }
    let percent = |hits: f64| hits * 100.0 / f64::from(calls);
    (percent(cache.statistics().hits as f64), percent(f64::from(lru_hits)))
}

/// The cache is no more than half of a hundredth below an exact LRU; with a scan beside it is above.
#[test]
fn hit_ratios() {
    let mut random = 7;
    for skew in [0.7, 0.99] {
        let draw = zipf(20_000, skew);
        let (ours, exact) = hits(200_000, || draw(&mut random));
        println!("Zipf {skew}: {ours:.2} hits in a hundred, an exact LRU {exact:.2}");
        assert!(ours > exact - 0.5);
    }
    let (draw, mut scanned) = (zipf(20_000, 0.99), 1 << 32);
    let (ours, exact) = hits(200_000, || {
        scanned += 1;
        if scanned % 3 == 0 {
            draw(&mut random)
        } else {
            scanned
        }
    });
    println!("Zipf 0.99, and two new keys after each: {ours:.2} hits in a hundred, an exact LRU {exact:.2}");
    assert!(ours > exact);
}

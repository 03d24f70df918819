//! Sharded sets and maps: each call with each answer, which shard keys have and how short their lists are, growth and renewals under threads, and
//! the order of calls on two shards.
mod both;

use both::Both;
use std::collections::BTreeSet;
use std::iter::successors;
use std::sync::atomic::{AtomicBool, AtomicU64, AtomicUsize, Ordering};
use std::thread;
use vbr::{
    max_epoch, Compared, Cursor, Growth, OpenError, OutOfSteps, PassOf, Refusal, Shape, ShapeError, ShardRefusal, Sharded,
    ShardedMap, ShardedSet, Steps, WalkError, MAX_SHARDS,
};

of_sets_and_maps! {
    answers_and_refusals
    keys_are_routed_evenly
    each_key_is_added_once_while_shards_grow
    a_shard_is_doubled_once
    a_shard_is_renewed_alone
    calls_on_other_shards_go_on
    calls_on_two_shards_have_an_order
    the_epoch_is_read_anew
}

/// Adds a key, in a map with a value that follows from it.
fn add<K: Both>(to: &Sharded<K>, key: u64) -> Result<bool, ShardRefusal> {
    to.call(key, |mine| K::insert(mine, key))
}

fn removed<K: Both>(from: &Sharded<K>, key: u64) -> bool {
    from.call(key, |mine| Ok(K::remove(mine, key)?)).expect("an ample budget")
}

/// The keys of a shard.
fn keys_in<K: Both>(of: &Sharded<K>, shard: usize) -> impl Iterator<Item = u64> + '_ {
    (0..).filter(move |key| of.shard_of(*key) == shard)
}

/// Sees that the keys below a number are there, each once, and no others.
fn has_just<K: Both>(of: &Sharded<K>, count: u64) {
    let keys: Vec<u64> = of.iter().map(|each| K::key(each.expect("an ample budget"))).collect();
    assert_eq!(keys.len() as u64, count);
    assert!(keys.iter().copied().collect::<BTreeSet<u64>>().into_iter().eq(0..count));
    let of_all: u64 = (0..of.shard_count()).map(|number| of.stats(number).keys).sum();
    assert_eq!((of_all, of.count_about()), (count, count));
}

fn answers_and_refusals<K: Both>() {
    let small = Shape::new(2, 2, 100);
    for count in [0, MAX_SHARDS + 1] {
        let error = Sharded::<K>::open(count, Shape::new(0, 2, 100), Growth::NONE).unwrap_err();
        assert_eq!((error, error.to_string()), (OpenError::Shards(count), format!("{count} shards are not from 1 to 65536")));
    }
    let shape_error = |shape| Sharded::<K>::open(2, shape, Growth::NONE).unwrap_err();
    assert_eq!(shape_error(Shape::new(0, 2, 100)), OpenError::Shape(ShapeError::Slots(0)));
    assert_eq!(shape_error(Shape::for_shards(1 << 40, 2, 1)), OpenError::Shape(ShapeError::Slots(2_147_483_648 + 64)));
    let of = Sharded::<K>::open(2, small, Growth::NONE).expect("a small one");
    let mine: Vec<u64> = keys_in(&of, 0).take(3).collect();
    let other = keys_in(&of, 1).next().expect("a key");
    assert!(!of.has(mine[0]).unwrap() && !removed(&of, mine[0]));
    assert_eq!([add(&of, mine[0]), add(&of, mine[0]), add(&of, mine[1])], [Ok(true), Ok(false), Ok(true)]);
    assert_eq!(add(&of, mine[2]), Err(ShardRefusal::Refused(Refusal::NoSlot))); // its shard is full, and grows no further
    assert_eq!((of.has(mine[2]), add(&of, other)), (Ok(false), Ok(true)));
    assert_eq!((of.stats(0).keys, of.stats(1).keys, of.stats(0).slots, of.count_about()), (2, 1, 2, 3));
    assert!(removed(&of, mine[0]) && !removed(&of, mine[0]) && of.has(mine[1]).unwrap());
    assert_eq!(add(&of, mine[2]), Ok(true));
    let long = small.with_last_epoch(max_epoch(2));
    let one = Sharded::<K>::open(1, long, Growth::up_to(5)).expect("a small one"); // 2 slots, then 4, then 5
    assert!((0..5).all(|key| add(&one, key) == Ok(true)));
    assert_eq!((add(&one, 5), one.stats(0).slots), (Err(Refusal::NoSlot.into()), 5));
    assert_eq!(one.shard(0).last_epoch(), max_epoch(5));
    has_just(&one, 5);
    let tired =
        Sharded::<K>::open(1, Shape::for_keys(8, 1).with_steps(Steps::new(1)), Growth::up_to(1_000)).expect("a small one");
    assert_eq!((tired.has(5), add(&tired, 5)), (Err(OutOfSteps), Err(OutOfSteps.into())));
    let mut walk = one.iter();
    assert_eq!((walk.by_ref().count(), walk.next()), (5, None));
}

/// What only sets have, and only maps.
#[test]
fn calls_of_each_kind() {
    let set = ShardedSet::open(3, Shape::for_shards(8, 3, 1), Growth::NONE).expect("a small one");
    assert_eq!((set.insert('k'), set.insert('k'), set.contains('k')), (Ok(true), Ok(false), Ok(true)));
    assert_eq!((set.remove('k'), set.remove('k'), set.has('k')), (Ok(true), Ok(false), Ok(false)));
    let map = ShardedMap::open(3, Shape::for_shards(8, 3, 1), Growth::NONE).expect("a small one");
    assert_eq!((map.try_insert(5_u32, 50_u64), map.try_insert(5, 51), map.get(5)), (Ok(true), Ok(false), Ok(Some(50))));
    assert_eq!((map.put(5, 51), map.replace(5, 52), map.replace(6, 60)), (Ok(Some(50)), Ok(Some(51)), Ok(None)));
    assert_eq!((map.get_or_insert(6, 60), map.get_or_insert(5, 7)), (Ok(None), Ok(Some(52))));
    assert_eq!(
        (map.compare_exchange(5, 7, 8), map.compare_exchange(5, 52, 53)),
        (Ok(Compared::Other(52)), Ok(Compared::Equal))
    );
    assert_eq!((map.remove(6), map.remove(6), map.contains_key(6)), (Ok(Some(60)), Ok(None), Ok(false)));
    assert_eq!(
        (map.remove_if(5, 7), map.remove_if(5, 53), map.get(5)),
        (Ok(Compared::Other(53)), Ok(Compared::Equal), Ok(None))
    );
}

/// Keys get shards evenly, and the lists of their buckets are short: keys in sequence, multiples of a page, and random ones, by seeds of which none
/// suits them badly. Of 6,250 keys that are put into 8,192 buckets at random 7 share one at most, in most trials; a look-up takes up to 5 steps for
/// each node, and 4.
#[allow(clippy::cast_precision_loss, reason = "they are small")]
fn keys_are_routed_evenly<K: Both>() {
    const SHARDS: usize = 16;
    const COUNT: u64 = 100_000;
    let mean = COUNT as f64 / SHARDS as f64;
    let xorshift = |word: &u64| {
        let word = word ^ word << 13;
        let word = word ^ word >> 7;
        Some(word ^ word << 17)
    };
    let (in_sequence, of_pages): (Vec<u64>, Vec<u64>) = (0..COUNT).map(|key| (key, key << 12)).unzip();
    let random: Vec<u64> = successors(Some(5), xorshift).take(100_000).collect();
    let drawn_too = [None, Some(0), Some(7)];
    for (keys, seeds) in [(in_sequence, &drawn_too[1..]), (of_pages, &drawn_too[1..]), (random, &drawn_too)] {
        for seed in seeds {
            let mut shape = Shape::for_shards(COUNT, SHARDS, 1);
            shape.seed = *seed;
            let of = Sharded::<K>::open(SHARDS, shape, Growth::NONE).expect("memory");
            assert!(keys.iter().all(|&key| add(&of, key) == Ok(true)));
            let off = |number| of.stats(number).keys as f64 - mean;
            let chi_square: f64 = (0..SHARDS).map(|number| off(number) * off(number) / mean).sum();
            assert!(chi_square < 100.0); // of 15 degrees of freedom: above that once in 10^14
            let short = Steps::new(5 * 12 + 4);
            assert!(keys.iter().all(|&key| of.shard(of.shard_of(key)).lend_wait().has_within(key, short) == Ok(true)));
        }
    }
}

/// Four threads add the keys below a number, each of which two threads try, while one walks. The shards grow from a few slots on; some keys are there
/// all the while.
fn each_key_is_added_once_while_shards_grow<K: Both>() {
    const RESTING: u64 = 100;
    const COUNT: u64 = 40_000;
    let of = &Sharded::<K>::open(8, Shape::for_keys(64, 4), Growth::up_to(1 << 20)).expect("a small one");
    assert!((0..RESTING).all(|key| add(of, key) == Ok(true)));
    let (added, running) = (&AtomicU64::new(RESTING), &AtomicUsize::new(4));
    thread::scope(|scope| {
        for mine in 0..4 {
            scope.spawn(move || {
                let keys = (RESTING..COUNT).filter(|key| key % 4 == mine || key % 4 == (mine + 1) % 4);
                let add_and_see = |key| {
                    let is_new = add(of, key).expect("memory");
                    assert!(of.has(key).unwrap() && of.has(key % RESTING).unwrap());
                    u64::from(is_new)
                };
                added.fetch_add(keys.map(add_and_see).sum(), Ordering::Relaxed);
                running.fetch_sub(1, Ordering::Relaxed);
            });
        }
        scope.spawn(move || loop {
            let are_last = running.load(Ordering::Relaxed) == 0;
            let given = of.iter().map(|each| K::key(each.expect("an ample budget"))).filter(|key| *key < RESTING);
            let mut given: Vec<u64> = given.collect();
            given.sort_unstable();
            assert!(given.into_iter().eq(0..RESTING));
            if are_last {
                break;
            }
        });
    });
    assert_eq!(added.load(Ordering::Relaxed), COUNT);
    has_just(of, COUNT);
    for number in 0..of.shard_count() {
        let (stats, shard) = (of.stats(number), of.shard(number)); // 320 slots and 64 buckets, and their doubles
        assert!(u64::from(stats.slots) >= stats.keys && u64::from(stats.slots) < 4 * stats.keys);
        assert_eq!((stats.slots, shard.buckets()), (shard.slots(), stats.slots / 320 * 64));
    }
}

/// Four threads fill a shard that may be doubled once: who is refused while another one doubles it is refused no more.
fn a_shard_is_doubled_once<K: Both>() {
    for _ in 0..300 {
        let of = &Sharded::<K>::open(1, Shape::new(8, 8, 100).with_handles(4), Growth::up_to(16)).expect("a small one");
        thread::scope(|scope| {
            for mine in 0..4 {
                scope.spawn(move || (0..3).for_each(|key| assert_eq!(add(of, 4 * key + mine), Ok(true))));
            }
        });
        has_just(of, 12);
    }
}

/// A shard whose epoch is spent is renewed, and no other one; a walk of it is refused then, and one of another goes on.
fn a_shard_is_renewed_alone<K: Both>() {
    let of = Sharded::<K>::open(2, Shape::new(100, 16, 20), Growth::NONE).expect("a small one");
    let key = keys_in(&of, 0).next().expect("a key");
    assert!(keys_in(&of, 1).take(2).all(|other| add(&of, other) == Ok(true)) && add(&of, key) == Ok(true));
    let mut cursors = [Cursor::first(); 2];
    let next = |number: usize, cursor: &mut Cursor| of.shard(number).lend_wait().next(cursor).map(|given| given.is_some());
    assert_eq!((next(0, &mut cursors[0]), next(1, &mut cursors[1])), (Ok(true), Ok(true)));
    for _ in 0..1_000 {
        assert!(removed(&of, key) && add(&of, key) == Ok(true) && of.stats(0).epoch <= 20);
    }
    assert_eq!((next(0, &mut cursors[0]), next(1, &mut cursors[1])), (Err(WalkError::Reshaped), Ok(true)));
    assert_eq!((of.stats(0).slots, of.stats(0).keys, of.stats(1).keys), (100, 1, 2));
}

/// While a shard waits for a loan to be renewed, calls on another one go on, and it grows.
fn calls_on_other_shards_go_on<K: Both>() {
    let of = &Sharded::<K>::open(2, Shape::new(1, 1, 100).with_handles(2), Growth::up_to(1_000)).expect("a small one");
    let mine: Vec<u64> = keys_in(of, 0).take(2).collect();
    assert_eq!(add(of, mine[0]), Ok(true));
    let kept = of.shard(0).lend();
    let is_done = &AtomicBool::new(false);
    thread::scope(|scope| {
        let second = mine[1];
        scope.spawn(move || {
            assert_eq!(add(of, second), Ok(true));
            is_done.store(true, Ordering::Relaxed);
        });
        while of.shard(0).lend().is_some() {
            thread::yield_now(); // until the renewal lends no more
        }
        assert!(keys_in(of, 1).take(100).all(|key| add(of, key) == Ok(true) && of.has(key) == Ok(true)));
        assert!(of.stats(1).slots >= 100 && !is_done.load(Ordering::Relaxed));
        drop(kept);
    });
    assert!(mine.iter().all(|&key| of.has(key) == Ok(true)));
    assert_eq!(of.stats(0).slots, 2);
}

/// Each of two threads inserts a key of its own, on a shard of its own, and looks for the other's: not both find nothing, since one of the two
/// inserts takes effect first, and the look-up of the other thread begins after its own.
fn calls_on_two_shards_have_an_order<K: Both>() {
    const ROUNDS: usize = 20_000;
    let of = &Sharded::<K>::open(2, Shape::for_keys(2 * 20_000, 2), Growth::NONE).expect("memory");
    let keys = &[0, 1].map(|shard| keys_in(of, shard).take(ROUNDS).collect::<Vec<u64>>());
    let begun = &[0, 1].map(|_| AtomicUsize::new(0));
    let found = thread::scope(|scope| {
        [0, 1]
            .map(|mine| {
                scope.spawn(move || {
                    let mut patience = 1_000; // a machine that is busy doesn't hold them up: what is checked holds also where they don't meet
                    let found_in = |round: usize| {
                        begun[mine].store(round + 1, Ordering::Release);
                        for turn in 0.. {
                            if patience == 0 || begun[1 - mine].load(Ordering::Acquire) > round {
                                break;
                            }
                            if turn > 1_000 {
                                thread::yield_now();
                                patience -= 1;
                            }
                        }
                        assert_eq!(add(of, keys[mine][round]), Ok(true));
                        of.has(keys[1 - mine][round]).expect("an ample budget")
                    };
                    (0..ROUNDS).map(found_in).collect::<Vec<bool>>()
                })
            })
            .map(|thread| thread.join().expect("a thread that ends"))
    });
    assert!(found[0].iter().zip(&found[1]).all(|(one, other)| *one || *other));
}

/// The epoch of the statistics is one that was read then, and not what the handle had read before: that of a thread which has the first handle.
fn the_epoch_is_read_anew<K: Both>() {
    let of = &Sharded::<K>::open(1, Shape::new(100, 16, 100_000).with_handles(2), Growth::NONE).expect("a small one");
    let mut both = [of.shard(0).lend(), of.shard(0).lend()].map(|lent| lent.expect("two are free"));
    let mine: &mut PassOf<K> = &mut both[1];
    for _ in 0..1_000 {
        assert!(K::insert(mine, 5).unwrap() && K::remove(mine, 5).unwrap());
    }
    let now = mine.epoch();
    drop(both);
    let stats = thread::scope(|scope| scope.spawn(|| of.stats(0)).join().expect("a thread that ends"));
    assert!(now > 1 && stats.epoch == now);
}

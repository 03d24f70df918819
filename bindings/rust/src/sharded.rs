//! Sets and maps of several tables.
use crate::{
    random_seed, Bits, Compared, Cursor, Entries, Growth, Keys, Kind, Lent, OpenError, OutOfSteps, PassOf, Refusal,
    RenewError, Shape, Table,
};
use alloc::boxed::Box;
use alloc::vec::Vec;
use core::error::Error;
use core::fmt;
use core::iter::FusedIterator;
use core::slice;

/// The greatest number of shards.
///
/// ```
/// # use vbr::{Growth, OpenError, Shape, ShardedSet, MAX_SHARDS};
/// let error = ShardedSet::<u64>::open(MAX_SHARDS + 1, Shape::for_keys(8, 1), Growth::NONE).unwrap_err();
/// assert_eq!(error, OpenError::Shards(65_537));
/// ```
pub const MAX_SHARDS: usize = 65_536;

/// A set of several tables.
///
/// ```
/// # use vbr::{Growth, Shape, ShardedSet};
/// let seen = ShardedSet::open(4, Shape::for_shards(1_000, 4, 2), Growth::NONE)?;
/// assert!(seen.insert(6)? && seen.contains(6)? && seen.remove(6)?);
/// # Ok::<(), Box<dyn std::error::Error>>(())
/// ```
pub type ShardedSet<K = u64> = Sharded<Keys<K>>;

/// A map of several tables.
///
/// ```
/// # use vbr::{Growth, Shape, ShardedMap};
/// let share = Shape::for_shards(400_000, 16, 4); // a sixteenth of the keys, for 4 threads at a time
/// let pages = ShardedMap::open(16, share, Growth::up_to(2 * share.slots))?; // and each shard may grow to twice its slots
/// assert!(pages.try_insert(5, 50)?);
/// assert_eq!(pages.get(5)?, Some(50));
/// # Ok::<(), Box<dyn std::error::Error>>(())
/// ```
pub type ShardedMap<K = u64, V = u64> = Sharded<Entries<K, V>>;

// %doc sharded
/// Sets and maps of several tables, the shards: for more keys than one table is to have, and for renewals that stop a part of
/// the callers. A key has one shard for good, which a hash of it chooses.
// %end
///
/// It is used as a [`ShardedSet`] or a [`ShardedMap`], and each shard is a [`Table`].
///
// %doc sharded_calls
/// The calls are those of a set or a map, each by a loan for it alone, for which a thread waits as for any loan. If a call is
/// refused since the last epoch is spent, the shard is renewed. If it is refused since no slot is found, the shard gets twice
/// as many slots, and buckets, as far as it may grow. Then the call is made again. Of many threads that are refused one
/// renews. It waits until the loans of this shard are back, and calls on this shard wait until it is done, while those on
/// other shards go on. If there is no memory for it, the shard is as it was, and the call is refused for that. Only openings
/// and renewals take memory. A renewal has both tables of one shard until it is done, and not those of all.
// %end
///
/// # Which shard a key has
///
// %doc shard_of_a_key
/// The bits of a key are mixed, each into all (the finalizer of `SplitMix64`; Steele, Lea and Flood 2014), and then
/// multiplied by an odd number; the upper half of the product chooses the shard. The odd number comes from the seed of the
/// shape, or is drawn by the opening. Within a shard the key itself is multiplied, and the mixing isn't linear. So the keys
/// of a shard spread over its buckets as if they were chosen without regard to them. With a drawn number any two keys share a
/// shard with a probability of at most 2 / shards, whoever chose them, if the shards are a power of two. Each shard draws a
/// seed of its own for its buckets.
// %end
///
/// # The order of calls
///
// %doc sharded_order
/// A call is one on one shard, and takes effect there at one step between its beginning and its end. The steps of all shards
/// are sequentially consistent atomic operations, so they stand in one order, which agrees with the order that the program
/// makes. Take all calls in the order of these steps. The calls on a shard are its legal history, and no key has two shards;
/// so the whole is one legal history of a set or a map. In it a call that returns before another one begins stands before
/// that one, on whatever shards they are: real time composes, since linearizability is local (Herlihy and Wing 1990). This is
/// argued, as the order of calls on one set is if no token is sent, and tested with threads.
///
/// What doesn't compose is the proved promise of one set: that the calls stand in one history that begins with all that their
/// caller had seen. It holds of each shard, and of a caller's calls on that shard alone. What a caller has seen of one shard
/// says nothing of another, and histories in which each caller's calls keep their order, one for each shard, needn't be parts
/// of one. Say that A inserts x and then looks for y, and B inserts y and then looks for x, and both find nothing. With x and
/// y on two shards each shard has a history that explains this, and all calls together have none. Only the order of steps in
/// real time, as above, rules it out.
///
/// Calls on two keys are two calls, here as on one set. So a walk, a count and the statistics are of no one moment.
// %end
///
/// ```
/// use vbr::{Growth, Shape, ShardedMap};
///
/// let visits = ShardedMap::open(4, Shape::for_keys(8, 2), Growth::up_to(1 << 20))?; // and it grows as pages come
/// std::thread::scope(|scope| {
///     for first in [0, 500] {
///         let visits = &visits;
///         scope.spawn(move || {
///             for page in first..first + 1_000_u64 {
///                 let visit = visits.call(page, |mine| mine.entry(page).and_modify(|count| *count += 1).or_insert(1));
///                 assert!(visit.is_ok());
///             }
///         });
///     }
/// });
/// assert_eq!((visits.get(700)?, visits.count_about()), (Some(2), 1_500));
/// # Ok::<(), Box<dyn std::error::Error>>(())
/// ```
pub struct Sharded<T: Kind> {
    shards: Box<[Table<T>]>,
    growth: Growth,
    multiplier: u64,
}

// %doc shard_stats
/// What a shard has, each number at a moment of the call.
// %end
///
/// ```
/// # use vbr::{Growth, Shape, ShardStats, ShardedSet};
/// let seen = ShardedSet::open(1, Shape::for_keys(8, 1), Growth::NONE)?;
/// assert!(seen.insert(6)?);
/// let ShardStats { keys, slots, epoch, .. } = seen.stats(0);
/// assert_eq!((keys, slots, epoch), (1, 8 + 64, 1));
/// # Ok::<(), Box<dyn std::error::Error>>(())
/// ```
#[derive(Clone, Copy, Debug, PartialEq, Eq, Hash)]
#[non_exhaustive]
pub struct ShardStats {
    /// How many keys are in it.
    pub keys: u64,
    /// How many slots it has, which grow with a renewal.
    pub slots: u32,
    /// The epoch, which begins anew with a renewal.
    pub epoch: u64,
}

/// Why a call of a [`Sharded`] set or map that may add a key gave no answer. It made no call then. A [`Refusal`] and an [`OutOfSteps`] convert
/// into it, so `?` serves all.
///
/// ```
/// # use vbr::{Growth, Refusal, Shape, ShardRefusal, ShardedSet};
/// let full = ShardedSet::open(1, Shape::new(1, 1, 100), Growth::NONE)?;
/// assert!(full.insert(5)?);
/// assert_eq!(full.insert(6), Err(ShardRefusal::Refused(Refusal::NoSlot)));
/// # Ok::<(), Box<dyn std::error::Error>>(())
/// ```
#[derive(Clone, Copy, Debug, PartialEq, Eq, Hash)]
pub enum ShardRefusal {
    /// It is refused as a call of a set or a map is; by [`Refusal::NoSlot`] only if the shard may grow no further.
    Refused(Refusal),
    /// The shard has to be renewed, to the same shape or a larger one, and there is no memory for that. It is as it was.
    NoMemory,
}

impl<T: Kind> Sharded<T> {
    /// Opens so many empty shards, each of this shape, and by calls it grows so far.
    ///
    /// ```
    /// # use vbr::{Growth, Shape, ShardedMap};
    /// let shape = Shape::for_keys(8, 4).with_seed(7); // keys have the same shards each time
    /// let map: ShardedMap = ShardedMap::open(3, shape, Growth::up_to(1 << 20))?;
    /// assert_eq!(map.shard_count(), 3);
    /// # Ok::<(), vbr::OpenError>(())
    /// ```
    ///
    /// # Errors
    ///
    /// [`OpenError::Shards`] if they aren't from 1 to [`MAX_SHARDS`], which is tested first; [`OpenError::Shape`] and
    /// [`OpenError::Memory`]. Nothing is kept then.
    pub fn open(shards: usize, shape: Shape, growth: Growth) -> Result<Sharded<T>, OpenError> {
        if !(1..=MAX_SHARDS).contains(&shards) {
            return Err(OpenError::Shards(shards));
        }
        let mut opened = Vec::new();
        opened.try_reserve_exact(shards).map_err(|_| OpenError::Memory)?;
        for _ in 0..shards {
            opened.push(Table::open(shape)?);
        }
        let seed = shape.seed.unwrap_or_else(random_seed);
        Ok(Sharded { shards: opened.into_boxed_slice(), growth, multiplier: seed.wrapping_mul(2).wrapping_add(1) })
    }

    /// How many shards there are.
    ///
    /// ```
    /// # use vbr::{Growth, Shape, ShardedSet};
    /// let seen: ShardedSet = ShardedSet::open(4, Shape::for_keys(8, 1), Growth::NONE)?;
    /// let slots: u32 = (0..seen.shard_count()).map(|number| seen.stats(number).slots).sum();
    /// assert_eq!(slots, 4 * (8 + 64));
    /// # Ok::<(), vbr::OpenError>(())
    /// ```
    #[must_use]
    pub fn shard_count(&self) -> usize {
        self.shards.len()
    }

    // %doc shard_of
    /// The number of the shard that a key has for good, from 0 on and below `shard_count`.
    // %end
    ///
    /// ```
    /// # use vbr::{Growth, Shape, ShardedSet};
    /// let seen = ShardedSet::open(4, Shape::for_keys(8, 1), Growth::NONE)?;
    /// assert!(seen.shard_of(5) < 4 && seen.shard_of(5) == seen.shard_of(5));
    /// # seen.insert(5)?;
    /// # Ok::<(), Box<dyn std::error::Error>>(())
    /// ```
    #[inline]
    #[allow(clippy::cast_possible_truncation, reason = "it is below the number of shards")]
    pub fn shard_of(&self, key: T::Key) -> usize {
        let half = mixed(key.to_bits()).wrapping_mul(self.multiplier) >> 32;
        ((half * self.shards.len() as u64) >> 32) as usize
    }

    // %doc shard
    /// A shard: for many calls by one loan, a renewal at a time of the program's choice, or a report. A thread makes no call
    /// on the shard beside a loan of its own.
    // %end
    ///
    /// ```
    /// # use vbr::{Growth, Shape, ShardedSet};
    /// let seen = ShardedSet::open(4, Shape::for_keys(8, 1), Growth::NONE)?;
    /// assert!(seen.insert(5)?);
    /// let where_5_is = seen.shard(seen.shard_of(5));
    /// where_5_is.renew(Shape::for_keys(100, 1))?; // while the calls on other shards go on
    /// assert_eq!(where_5_is.report()?.keys, [5]);
    /// # Ok::<(), Box<dyn std::error::Error>>(())
    /// ```
    ///
    /// # Panics
    ///
    /// If the number isn't below [`Sharded::shard_count`].
    #[must_use]
    pub fn shard(&self, number: usize) -> &Table<T> {
        &self.shards[number]
    }

    // %doc shard_call
    /// Makes a call by a loan from the shard of a key, and makes it again if the shard was renewed after a refusal.
    // %end
    ///
    // %doc call_again
    /// The function that is given may be called several times, so of several calls that it makes the last should be the one
    /// that may be refused. It makes calls by the pass that it gets, and none on the set or the map itself.
    // %end
    ///
    /// ```
    /// # use vbr::{Change, Growth, Shape, ShardedMap};
    /// let paid = ShardedMap::open(4, Shape::for_keys(8, 1), Growth::up_to(1_000))?;
    /// let pay = |account: Option<u64>| Change::Put(account.unwrap_or(0) + 5);
    /// assert_eq!(paid.call(7, |mine| mine.compute(7, pay))?, None);
    /// assert_eq!(paid.get(7)?, Some(5));
    /// # Ok::<(), Box<dyn std::error::Error>>(())
    /// ```
    ///
    /// # Errors
    ///
    /// What `call` is refused by, and [`ShardRefusal::NoMemory`]. [`Refusal::NoSlot`] comes if the shard may grow no further, and
    /// [`Refusal::EpochSpent`] if its last epoch is 1.
    pub fn call<R>(&self, key: T::Key, call: impl FnMut(&mut PassOf<T>) -> Result<R, Refusal>) -> Result<R, ShardRefusal> {
        self.of(key).call_or(self.growth, call, |why, failed| match failed {
            RenewError::Memory => ShardRefusal::NoMemory,
            _ => why.into(),
        })
    }

    // %doc vbr_has: sentence returns
    /// Looks a key up.
    ///
    /// Returns `true` if the key is there; `false` if it is absent.
    // %end
    ///
    /// ```
    /// # use vbr::{Growth, Shape, ShardedSet};
    /// let seen = ShardedSet::open(4, Shape::for_keys(8, 1), Growth::NONE)?;
    /// assert!(seen.insert(5)? && seen.has(5)? && !seen.has(6)?);
    /// # Ok::<(), Box<dyn std::error::Error>>(())
    /// ```
    ///
    /// # Errors
    ///
    /// [`OutOfSteps`].
    pub fn has(&self, key: T::Key) -> Result<bool, OutOfSteps> {
        self.of(key).has(key)
    }

    /// How many keys are in, about: shard after shard, each at one moment ([`Table::key_count`]), which waits until the loans of that shard are back.
    /// It is exact while no call is under way. Else it is off by at most the calls that add a key or take one out, and of which a part is during this
    /// one.
    ///
    /// ```
    /// # use vbr::{Growth, Shape, ShardedMap};
    /// let map = ShardedMap::open(4, Shape::for_keys(8, 1), Growth::NONE)?;
    /// assert!(map.try_insert(5, 50)? && map.try_insert(6, 60)?);
    /// assert_eq!(map.count_about(), 2);
    /// # Ok::<(), Box<dyn std::error::Error>>(())
    /// ```
    pub fn count_about(&self) -> u64 {
        self.shards.iter().map(Table::key_count).sum()
    }

    /// The statistics of a shard. To count its keys it waits until the loans of that shard are back. Then it looks a key up, which brings the
    /// epoch up to date.
    ///
    /// ```
    /// # use vbr::{Growth, Shape, ShardedMap};
    /// let map = ShardedMap::open(4, Shape::for_keys(8, 1), Growth::NONE)?;
    /// assert!(map.try_insert(5, 50)?);
    /// assert_eq!(map.stats(map.shard_of(5)).keys, 1);
    /// # Ok::<(), Box<dyn std::error::Error>>(())
    /// ```
    ///
    /// # Panics
    ///
    /// If the number isn't below [`Sharded::shard_count`].
    #[must_use]
    pub fn stats(&self, number: usize) -> ShardStats {
        let keys = self.shards[number].key_count();
        let mine = self.shards[number].lend_wait();
        mine.has_each(&[0_u64], &mut [Ok(false)], mine.steps());
        ShardStats { keys, slots: mine.slots(), epoch: mine.epoch() }
    }

    // %doc shard_walk
    /// Goes over all keys, or entries, while other threads make calls, shard by shard. A key that is there for the whole walk
    /// is given once, and none that wasn't there at a moment of the walk.
    ///
    /// It has a loan of the shard that it goes over, and a renewal of that one waits for it. So a thread makes no calls on
    /// the set or the map itself meanwhile.
    // %end
    ///
    /// ```
    /// # use vbr::{Growth, Shape, ShardedMap};
    /// let map = ShardedMap::open(4, Shape::for_keys(8, 1), Growth::NONE)?;
    /// assert!(map.try_insert(5, 50)? && map.try_insert(6, 60)?);
    /// let mut entries = map.iter().collect::<Result<Vec<_>, _>>()?;
    /// entries.sort();
    /// assert_eq!(entries, [(5, 50), (6, 60)]);
    /// # Ok::<(), Box<dyn std::error::Error>>(())
    /// ```
    ///
    /// # Errors
    ///
    /// As an item, [`OutOfSteps`], as of an [`Iter`](crate::Iter).
    pub fn iter(&self) -> ShardedIter<'_, T> {
        ShardedIter { shards: self.shards.iter(), now: None }
    }

    /// The shards, as tables of their own, in the order of their numbers: to close each with a report.
    ///
    /// ```
    /// # use vbr::{Growth, Shape, ShardedSet};
    /// let seen = ShardedSet::open(1, Shape::for_keys(8, 1), Growth::NONE)?;
    /// assert!(seen.insert(5)?);
    /// assert_eq!(seen.into_shards().remove(0).close()?.keys, [5]);
    /// # Ok::<(), Box<dyn std::error::Error>>(())
    /// ```
    #[must_use]
    pub fn into_shards(self) -> Vec<Table<T>> {
        self.shards.into_vec()
    }

    #[inline]
    fn of(&self, key: T::Key) -> &Table<T> {
        &self.shards[self.shard_of(key)]
    }
}

/// The calls of sets alone.
impl<K: Bits> Sharded<Keys<K>> {
    // %doc vbr_insert: sentence returns
    /// Adds a key.
    ///
    /// Returns `true` if the key was absent, and is added; `false` if it was there.
    // %end
    ///
    /// ```
    /// # use vbr::{Growth, Shape, ShardedSet};
    /// let seen = ShardedSet::open(4, Shape::for_keys(8, 1), Growth::NONE)?;
    /// assert!(seen.insert(6)? && !seen.insert(6)?);
    /// # Ok::<(), Box<dyn std::error::Error>>(())
    /// ```
    ///
    /// # Errors
    ///
    /// The same as for [`Sharded::call`].
    pub fn insert(&self, key: K) -> Result<bool, ShardRefusal> {
        self.call(key, |mine| mine.insert(key))
    }

    // %doc vbr_remove: sentence returns
    /// Takes a key out.
    ///
    /// Returns `true` if the key was there, and is taken out; `false` if it was absent.
    // %end
    ///
    /// ```
    /// # use vbr::{Growth, Shape, ShardedSet};
    /// let seen = ShardedSet::open(4, Shape::for_keys(8, 1), Growth::NONE)?;
    /// assert!(seen.insert(6)? && seen.remove(6)? && !seen.remove(6)?);
    /// # Ok::<(), Box<dyn std::error::Error>>(())
    /// ```
    ///
    /// # Errors
    ///
    /// [`OutOfSteps`]. No call was made then.
    pub fn remove(&self, key: K) -> Result<bool, OutOfSteps> {
        self.of(key).remove(key)
    }

    /// Another name of [`Sharded::has`], that of `HashSet`.
    ///
    /// ```
    /// # use vbr::{Growth, Shape, ShardedSet};
    /// let seen = ShardedSet::open(4, Shape::for_keys(8, 1), Growth::NONE)?;
    /// assert!(!seen.contains(6)?);
    /// # Ok::<(), Box<dyn std::error::Error>>(())
    /// ```
    ///
    /// # Errors
    ///
    /// [`OutOfSteps`].
    pub fn contains(&self, key: K) -> Result<bool, OutOfSteps> {
        self.has(key)
    }
}

/// The calls of maps alone.
impl<K: Bits, V: Bits> Sharded<Entries<K, V>> {
    // %doc vbr_map_get: sentence returns
    /// Looks a key up and gives its value.
    ///
    /// Returns its value if the key is there; `None` if it is absent.
    // %end
    ///
    /// ```
    /// # use vbr::{Growth, Shape, ShardedMap};
    /// let map = ShardedMap::open(4, Shape::for_keys(8, 1), Growth::NONE)?;
    /// assert!(map.try_insert(5, 50)?);
    /// assert_eq!((map.get(5)?, map.get(6)?), (Some(50), None));
    /// # Ok::<(), Box<dyn std::error::Error>>(())
    /// ```
    ///
    /// # Errors
    ///
    /// [`OutOfSteps`].
    pub fn get(&self, key: K) -> Result<Option<V>, OutOfSteps> {
        self.of(key).get(key)
    }

    /// Another name of [`Sharded::has`], that of `HashMap`.
    ///
    /// ```
    /// # use vbr::{Growth, Shape, ShardedMap};
    /// let map = ShardedMap::open(4, Shape::for_keys(8, 1), Growth::NONE)?;
    /// assert!(map.try_insert(5, 50)? && map.contains_key(5)?);
    /// # Ok::<(), Box<dyn std::error::Error>>(())
    /// ```
    ///
    /// # Errors
    ///
    /// [`OutOfSteps`].
    pub fn contains_key(&self, key: K) -> Result<bool, OutOfSteps> {
        self.has(key)
    }

    // %doc vbr_map_insert: sentence returns
    /// Adds a key with its value.
    ///
    /// Returns `true` if the key was absent, and is added; `false` if it was there, and keeps the value that it has.
    // %end
    ///
    /// ```
    /// # use vbr::{Growth, Shape, ShardedMap};
    /// let map = ShardedMap::open(4, Shape::for_keys(8, 1), Growth::NONE)?;
    /// assert!(map.try_insert(5, 50)? && !map.try_insert(5, 51)?);
    /// # Ok::<(), Box<dyn std::error::Error>>(())
    /// ```
    ///
    /// # Errors
    ///
    /// The same as for [`Sharded::call`].
    pub fn try_insert(&self, key: K, value: V) -> Result<bool, ShardRefusal> {
        self.call(key, |mine| mine.try_insert(key, value))
    }

    // %doc vbr_map_put: sentence returns
    /// Gives a key this value, whether it is there or not.
    ///
    /// Returns the value that it had if the key was there, and has the new value; `None` if it was absent, and is inserted.
    // %end
    ///
    /// ```
    /// # use vbr::{Growth, Shape, ShardedMap};
    /// let map = ShardedMap::open(4, Shape::for_keys(8, 1), Growth::NONE)?;
    /// assert_eq!((map.put(5, 50)?, map.put(5, 51)?), (None, Some(50)));
    /// # Ok::<(), Box<dyn std::error::Error>>(())
    /// ```
    ///
    /// # Errors
    ///
    /// The same as for [`Sharded::call`].
    pub fn put(&self, key: K, value: V) -> Result<Option<V>, ShardRefusal> {
        self.call(key, |mine| mine.put(key, value))
    }

    // %doc vbr_map_replace: sentence returns
    /// Gives a key that is there another value, so that no call finds it absent meanwhile.
    ///
    /// Returns the value that it had if the key was there, and has the new value; `None` if it was absent, and nothing was
    /// changed.
    // %end
    ///
    /// ```
    /// # use vbr::{Growth, Shape, ShardedMap};
    /// let map = ShardedMap::open(4, Shape::for_keys(8, 1), Growth::NONE)?;
    /// assert_eq!((map.put(5, 51)?, map.replace(5, 52)?, map.replace(6, 60)?), (None, Some(51), None));
    /// # Ok::<(), Box<dyn std::error::Error>>(())
    /// ```
    ///
    /// # Errors
    ///
    /// The same as for [`Sharded::call`].
    pub fn replace(&self, key: K, value: V) -> Result<Option<V>, ShardRefusal> {
        self.call(key, |mine| mine.replace(key, value))
    }

    // %doc vbr_map_get_or_insert: sentence returns
    /// Gives the value of a key, or inserts the key with this one: a get or an insert, in one call.
    ///
    /// Returns the value that it has if the key is there, and keeps its value; `None` if it was absent, and is inserted.
    // %end
    ///
    /// ```
    /// # use vbr::{Growth, Shape, ShardedMap};
    /// let map = ShardedMap::open(4, Shape::for_keys(8, 1), Growth::NONE)?;
    /// assert_eq!((map.get_or_insert(6, 60)?, map.get_or_insert(6, 61)?), (None, Some(60)));
    /// # Ok::<(), Box<dyn std::error::Error>>(())
    /// ```
    ///
    /// # Errors
    ///
    /// The same as for [`Sharded::call`].
    pub fn get_or_insert(&self, key: K, value: V) -> Result<Option<V>, ShardRefusal> {
        self.call(key, |mine| mine.get_or_insert(key, value))
    }

    // %doc vbr_map_compare_exchange: sentence returns
    /// Gives a key another value if it has the one that is expected.
    ///
    /// Returns [`Compared::Equal`] if the key had the expected value, and has the new one; [`Compared::Other`] if it is there
    /// with another value, and nothing was changed; [`Compared::Absent`] if it is absent, and nothing was changed.
    // %end
    ///
    /// ```
    /// # use vbr::{Compared, Growth, Shape, ShardedMap};
    /// let map = ShardedMap::open(4, Shape::for_keys(8, 1), Growth::NONE)?;
    /// assert!(map.try_insert(5, 52)?);
    /// assert_eq!(map.compare_exchange(5, 52, 53)?, Compared::Equal);
    /// # Ok::<(), Box<dyn std::error::Error>>(())
    /// ```
    ///
    /// # Errors
    ///
    /// The same as for [`Sharded::call`].
    pub fn compare_exchange(&self, key: K, expected: V, value: V) -> Result<Compared<V>, ShardRefusal> {
        self.call(key, |mine| mine.compare_exchange(key, expected, value))
    }

    // %doc vbr_map_remove: sentence returns
    /// Takes a key out with its value.
    ///
    /// Returns the value of the entry that this call took if the key was there, and is taken out; `None` if it was absent.
    // %end
    ///
    /// ```
    /// # use vbr::{Growth, Shape, ShardedMap};
    /// let map = ShardedMap::open(4, Shape::for_keys(8, 1), Growth::NONE)?;
    /// assert!(map.try_insert(6, 60)?);
    /// assert_eq!((map.remove(6)?, map.remove(6)?), (Some(60), None));
    /// # Ok::<(), Box<dyn std::error::Error>>(())
    /// ```
    ///
    /// # Errors
    ///
    /// [`OutOfSteps`]. No call was made then.
    pub fn remove(&self, key: K) -> Result<Option<V>, OutOfSteps> {
        self.of(key).remove(key)
    }

    // %doc vbr_map_remove_if: sentence returns
    /// Takes a key out if it has the value that is expected.
    ///
    /// Returns [`Compared::Equal`] if the key had the expected value, and is taken out; [`Compared::Other`] if it is there
    /// with another value, and nothing was changed; [`Compared::Absent`] if it is absent, and nothing was changed.
    // %end
    ///
    /// ```
    /// # use vbr::{Compared, Growth, Shape, ShardedMap};
    /// let map = ShardedMap::open(4, Shape::for_keys(8, 1), Growth::NONE)?;
    /// assert!(map.try_insert(5, 53)?);
    /// assert_eq!(map.remove_if(5, 7)?, Compared::Other(53));
    /// # Ok::<(), Box<dyn std::error::Error>>(())
    /// ```
    ///
    /// # Errors
    ///
    /// [`OutOfSteps`]. No call was made then.
    pub fn remove_if(&self, key: K, expected: V) -> Result<Compared<V>, OutOfSteps> {
        self.of(key).remove_if(key, expected)
    }
}

/// Mixes the bits of a word, each into all, and gives no word for two: the finalizer of `SplitMix64`.
#[inline]
const fn mixed(word: u64) -> u64 {
    let word = (word ^ word >> 30).wrapping_mul(0xbf58_476d_1ce4_e5b9);
    let word = (word ^ word >> 27).wrapping_mul(0x94d0_49bb_1331_11eb);
    word ^ word >> 31
}

/// A walk over all keys or entries of a sharded set or map, as [`Sharded::iter`] begins it. An item may be an error, as one of an
/// [`Iter`](crate::Iter).
///
/// ```
/// # use vbr::{Entries, Growth, OutOfSteps, Shape, ShardedIter, ShardedMap};
/// fn sum_of_values(mut entries: ShardedIter<'_, Entries>) -> Result<u64, OutOfSteps> {
///     entries.try_fold(0, |sum, entry| Ok(sum + entry?.1))
/// }
/// # let map = ShardedMap::open(4, Shape::for_keys(8, 1), Growth::NONE)?;
/// # assert!(map.try_insert(5, 70)? && map.try_insert(7, 71)?);
/// # assert_eq!(sum_of_values(map.iter())?, 141);
/// # Ok::<(), Box<dyn std::error::Error>>(())
/// ```
#[must_use = "a walk makes no call before it is asked for a key"]
pub struct ShardedIter<'s, T: Kind = Keys> {
    shards: slice::Iter<'s, Table<T>>,
    /// In the shard that it goes over.
    now: Option<(Lent<'s, T>, Cursor)>,
}

impl<T: Kind> Iterator for ShardedIter<'_, T> {
    type Item = Result<T::Item, OutOfSteps>;

    fn next(&mut self) -> Option<Result<T::Item, OutOfSteps>> {
        loop {
            if let Some((mine, cursor)) = &mut self.now {
                let told = mine.walk_on(cursor, mine.steps()).transpose();
                if told.is_some() {
                    return told;
                }
                self.now = None; // the loan goes back before the next one
            }
            self.now = Some((self.shards.next()?.lend_wait(), Cursor::first()));
        }
    }
}

impl<T: Kind> FusedIterator for ShardedIter<'_, T> {}

impl<'s, T: Kind> IntoIterator for &'s Sharded<T> {
    type Item = Result<T::Item, OutOfSteps>;
    type IntoIter = ShardedIter<'s, T>;

    fn into_iter(self) -> ShardedIter<'s, T> {
        self.iter()
    }
}

impl From<Refusal> for ShardRefusal {
    fn from(why: Refusal) -> ShardRefusal {
        ShardRefusal::Refused(why)
    }
}

impl From<OutOfSteps> for ShardRefusal {
    fn from(why: OutOfSteps) -> ShardRefusal {
        ShardRefusal::Refused(why.into())
    }
}

impl fmt::Display for ShardRefusal {
    fn fmt(&self, f: &mut fmt::Formatter<'_>) -> fmt::Result {
        match self {
            ShardRefusal::Refused(why) => why.fmt(f),
            ShardRefusal::NoMemory => f.write_str("there is no memory to renew a shard"),
        }
    }
}

impl Error for ShardRefusal {}

impl<T: Kind> fmt::Debug for Sharded<T> {
    fn fmt(&self, f: &mut fmt::Formatter<'_>) -> fmt::Result {
        f.debug_struct("Sharded").field("shards", &self.shards).field("growth", &self.growth).finish_non_exhaustive()
    }
}

impl<T: Kind> fmt::Debug for ShardedIter<'_, T> {
    fn fmt(&self, f: &mut fmt::Formatter<'_>) -> fmt::Result {
        f.debug_struct("ShardedIter").field("left", &self.shards.len()).field("now", &self.now).finish()
    }
}

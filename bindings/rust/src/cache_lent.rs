//! Calls of caches.
// tools/interface makes this file of bindings/interface/cache_lent.rs.in.
use crate::cache::{Cache, Count, Head, Mine};
use crate::cache_loads::LoadError;
use crate::{Cursor, OutOfSteps, Record, RecordKey, Refusal, Steps, WalkError};
use std::fmt;
use std::hash::{BuildHasher, RandomState};
use std::time::{Duration, Instant};

/// A handle of a cache on loan, which makes all calls. It goes back at the end of this, and may go to another thread before.
///
/// The loan keeps no handle while a loader of it runs, while it waits for another one, and during a renewal: it gives its
/// handle back, and borrows another one afterwards, and no call shows it. So a call may wait for a free handle.
///
/// For a renewal each loan has to be given back, or to begin a call. Until the last epoch is spent, years later in most
/// caches, nobody waits more than a millisecond for that. From then on calls that store a value wait for the other loans:
/// whoever keeps one and makes no call holds them up, and so does a thread that has two.
///
/// Each call of the map that these calls make has the budget of the handle. A change begins anew for each update of the key
/// by others that came in between, and a look-up only if the slot of its entry was handed out anew.
///
/// [`CacheLent::set_steps`] gives another budget. A loan isn't `Sync`.
///
/// ```
/// # use vbr::{Cache, CacheChange, CacheLent, Refusal};
/// /// Counts a visit of a page.
/// fn visit(pages: &mut CacheLent<u64, u64>, page: u64) -> Result<(), Refusal> {
///     pages.compute(page, |count| CacheChange::Put(count.unwrap_or(0) + 1))?;
///     Ok(())
/// }
/// let pages = Cache::open_for(100, 1)?;
/// let mut mine = pages.lend_wait();
/// visit(&mut mine, 5)?;
/// visit(&mut mine, 5)?;
/// assert_eq!(mine.get(5)?, Some(2));
/// # Ok::<(), Box<dyn std::error::Error>>(())
/// ```
///
/// ```compile_fail,E0277
/// fn is_sync<T: Sync>() {}
/// is_sync::<vbr::CacheLent<'static, u64, u64>>();
/// ```
#[must_use = "it goes back when it is dropped"]
#[clippy::has_significant_drop]
pub struct CacheLent<'c, K: RecordKey, V: Record, H = RandomState> {
    cache: &'c Cache<K, V, H>,
    /// None while it is given back.
    lent: Option<Mine<'c>>,
    steps: Option<Steps>,
}

/// What [`CacheLent::compute`] is to do with a key.
///
/// ```
/// # use std::time::Duration;
/// # use vbr::{Cache, CacheChange};
/// let cache: Cache<u64, u64> = Cache::open_for(100, 1)?;
/// cache.put_for(5, 70, Duration::from_secs(60))?;
/// cache.compute(5, |before| before.map_or(CacheChange::Keep, |value| CacheChange::Update(value + 1)))?;
/// assert_eq!(cache.get(5)?, Some(71)); // for what is left of the minute
/// # Ok::<(), Box<dyn std::error::Error>>(())
/// ```
#[derive(Clone, Copy, Debug, PartialEq, Eq, Hash)]
pub enum CacheChange<V> {
    /// It stays as it is, there or not.
    Keep,
    /// It gets this value, with the time to live of the cache, and is inserted if it is absent.
    Put(V),
    /// The same, with a time to live of its own.
    PutFor(V, Duration),
    /// It gets this value, and expires when it would have; if it is absent, as with `put`.
    Update(V),
    /// It is taken out if it is there.
    Remove,
}

impl<'c, K: RecordKey, V: Record, H> CacheLent<'c, K, V, H> {
    #[inline]
    pub(crate) fn of(cache: &'c Cache<K, V, H>, lent: Mine<'c>) -> CacheLent<'c, K, V, H> {
        CacheLent { cache, lent: Some(lent), steps: None }
    }

    /// The handle; another one if it was given back, or a thread waits for all of them.
    #[inline]
    fn mine(&mut self) -> &mut Mine<'c> {
        if self.cache.table.lender.is_paused() {
            self.lent = None;
        }
        self.lent.get_or_insert_with(|| {
            let mut lent = self.cache.table.lend_wait();
            if let Some(steps) = self.steps {
                lent.set_steps(steps);
            }
            lent
        })
    }

    /// Gives the calls of this loan another budget. After the loan the handle has its own again.
    ///
    /// ```
    /// # use vbr::{Cache, OutOfSteps, Steps};
    /// let cache: Cache<u64, u64> = Cache::open_for(100, 1)?;
    /// let mut mine = cache.lend_wait();
    /// mine.set_steps(Steps::new(1));
    /// assert_eq!(mine.get(5), Err(OutOfSteps));
    /// # Ok::<(), Box<dyn std::error::Error>>(())
    /// ```
    pub fn set_steps(&mut self, steps: Steps) {
        self.steps = Some(steps);
        self.mine().set_steps(steps);
    }

    /// The next entry of a walk, a key with a value that it had at a moment of the call; none at the end. A key that is there
    /// for the whole walk is given once.
    ///
    /// It is no use of the entries, and passes over those that have expired.
    ///
    /// It makes two look-ups for each entry.
    ///
    /// ```
    /// # use vbr::{Cache, Cursor};
    /// let cache: Cache<u64, u64> = Cache::open_for(100, 1)?;
    /// let mut mine = cache.lend_wait();
    /// mine.put(5, 70)?;
    /// let mut cursor = Cursor::first();
    /// assert_eq!((mine.next(&mut cursor)?, mine.next(&mut cursor)?), (Some((5, 70)), None));
    /// # Ok::<(), Box<dyn std::error::Error>>(())
    /// ```
    ///
    /// # Errors
    ///
    /// [`WalkError`]. Nothing is given then, and no entry is passed over by the next call.
    pub fn next(&mut self, cursor: &mut Cursor) -> Result<Option<(K, V)>, WalkError> {
        let (cache, mine) = (self.cache, self.mine());
        loop {
            let before = *cursor;
            let Some((number, _)) = mine.next_at(cursor)? else { return Ok(None) };
            match cache.records.read_entry(mine, number) {
                Ok(Some(((head, (kept, value)), _))) if !cache.is_over(head.expires) => {
                    return Ok(Some((K::from_kept(number, kept), value)));
                }
                Ok(_) => {} // it has left, or expired
                Err(why) => {
                    *cursor = before;
                    return Err(why.into());
                }
            }
        }
    }

    /// Takes out all entries that are there as it begins; those that others put meanwhile may stay. What is being loaded
    /// isn't kept. It goes once over the entries, with a remove for each. If it is refused some were taken out.
    ///
    /// ```
    /// # use vbr::Cache;
    /// let cache: Cache<u64, u64> = Cache::open_for(100, 1)?;
    /// cache.put(5, 70)?;
    /// cache.lend_wait().clear()?;
    /// assert_eq!((cache.get(5)?, cache.statistics().length), (None, 0));
    /// # Ok::<(), Box<dyn std::error::Error>>(())
    /// ```
    ///
    /// # Errors
    ///
    /// [`OutOfSteps`].
    pub fn clear(&mut self) -> Result<(), OutOfSteps> {
        let (cache, mut cursor) = (self.cache, Cursor::first());
        cache.loads.outdate(|_| true);
        let mine = self.mine();
        while let Some((number, at)) = mine.next_at(&mut cursor).map_err(WalkError::of_borrowed)? {
            cache.take_out(mine, number, &at)?;
        }
        Ok(())
    }

    /// The handle, for a call that stores a value. At 7/8 of the last epoch the cache is renewed first, if nobody keeps a loan.
    fn mine_to_store(&mut self) -> &mut Mine<'c> {
        let cache = self.cache;
        if cache.is_due(self.mine().epoch()) {
            let renewals = cache.table.lender.renewals();
            self.lent = None;
            let _ = cache.renew_once(renewals, Some(Instant::now() + Duration::from_millis(1)));
        }
        self.mine()
    }
}

impl<K: RecordKey, V: Record, H: BuildHasher> CacheLent<'_, K, V, H> {
    /// The value of a key: a copy, whole, of what it had at a moment of the call; none if it is absent. The entry counts as
    /// used. One that has expired is taken out, and is a miss.
    ///
    /// ```
    /// # use vbr::Cache;
    /// let cache: Cache<u64, [u64; 4]> = Cache::open_for(100, 1)?;
    /// let mut mine = cache.lend_wait();
    /// mine.put(5, [7; 4])?;
    /// assert_eq!((mine.get(5)?, mine.get(6)?), (Some([7; 4]), None));
    /// # Ok::<(), Box<dyn std::error::Error>>(())
    /// ```
    ///
    /// # Errors
    ///
    /// [`OutOfSteps`]. It is counted as neither a hit nor a miss then.
    #[inline]
    pub fn get(&mut self, key: K) -> Result<Option<V>, OutOfSteps> {
        let (cache, number) = (self.cache, self.cache.number_of(key));
        let mine = self.mine();
        let value = cache.look_up(mine, number, key)?;
        cache.count(mine.number(), if value.is_some() { Count::Hits } else { Count::Misses });
        Ok(value)
    }

    /// Whether a key is there and hasn't expired. It is no use of the entry, and isn't counted.
    ///
    /// It reads nothing of the value.
    ///
    /// ```
    /// # use vbr::Cache;
    /// let cache: Cache<u64, u64> = Cache::open_for(100, 1)?;
    /// let mut mine = cache.lend_wait();
    /// mine.put(5, 70)?;
    /// assert!(mine.has(5)? && !mine.has(6)?);
    /// # Ok::<(), Box<dyn std::error::Error>>(())
    /// ```
    ///
    /// # Errors
    ///
    /// [`OutOfSteps`].
    #[doc(alias = "contains_key")]
    pub fn has(&mut self, key: K) -> Result<bool, OutOfSteps> {
        let (cache, number) = (self.cache, self.cache.number_of(key));
        let found = cache.records.words.read_entry::<(Head, K::Kept), _>(self.mine(), number)?;
        Ok(found.is_some_and(|((head, kept), _)| kept == key.kept() && !cache.is_over(head.expires)))
    }

    /// Gives a key this value, with the time to live of the cache, and returns the one that it had; none if it was absent,
    /// and is inserted. If the cache is full another entry goes before.
    ///
    /// ```
    /// # use vbr::Cache;
    /// let cache: Cache<u64, u64> = Cache::open_for(1, 1)?;
    /// let mut mine = cache.lend_wait();
    /// assert_eq!((mine.put(5, 70)?, mine.put(5, 71)?, mine.put(6, 72)?), (None, Some(70), None));
    /// assert_eq!((mine.get(5)?, mine.get(6)?), (None, Some(72)));
    /// # Ok::<(), Box<dyn std::error::Error>>(())
    /// ```
    ///
    /// # Errors
    ///
    /// The same as for [`CacheLent::compute`].
    pub fn put(&mut self, key: K, value: V) -> Result<Option<V>, Refusal> {
        self.compute(key, |_| CacheChange::Put(value))
    }

    /// The same, with a time to live of its own. If that isn't above zero the entry has expired at once.
    ///
    /// ```
    /// # use std::time::Duration;
    /// # use vbr::Cache;
    /// let cache: Cache<u64, u64> = Cache::open_for(100, 1)?;
    /// let mut mine = cache.lend_wait();
    /// mine.put_for(5, 70, Duration::from_millis(1))?;
    /// std::thread::sleep(Duration::from_millis(1));
    /// assert_eq!(mine.get(5)?, None);
    /// # Ok::<(), Box<dyn std::error::Error>>(())
    /// ```
    ///
    /// # Errors
    ///
    /// The same as for [`CacheLent::put`].
    pub fn put_for(&mut self, key: K, value: V, time: Duration) -> Result<Option<V>, Refusal> {
        self.compute(key, |_| CacheChange::PutFor(value, time))
    }

    /// Adds a key with its value, as `put` does, and says whether it was absent. A key that is there keeps its value and its
    /// time.
    ///
    /// ```
    /// # use vbr::Cache;
    /// let cache: Cache<u64, u64> = Cache::open_for(100, 1)?;
    /// let mut mine = cache.lend_wait();
    /// assert!(mine.try_insert(5, 70)? && !mine.try_insert(5, 71)?);
    /// # Ok::<(), Box<dyn std::error::Error>>(())
    /// ```
    ///
    /// # Errors
    ///
    /// The same as for [`CacheLent::put`], if the key was absent; otherwise [`Refusal::OutOfSteps`] alone.
    pub fn try_insert(&mut self, key: K, value: V) -> Result<bool, Refusal> {
        let before = self.compute(key, |before| before.map_or(CacheChange::Put(value), |_| CacheChange::Keep))?;
        Ok(before.is_none())
    }

    /// Gives a key that is there this value, as `put` does, and returns the one that it had; none, and nothing is changed, if
    /// it is absent.
    ///
    /// ```
    /// # use vbr::Cache;
    /// let cache: Cache<u64, u64> = Cache::open_for(100, 1)?;
    /// let mut mine = cache.lend_wait();
    /// mine.put(5, 70)?;
    /// assert_eq!((mine.replace(5, 71)?, mine.replace(6, 71)?), (Some(70), None));
    /// # Ok::<(), Box<dyn std::error::Error>>(())
    /// ```
    ///
    /// # Errors
    ///
    /// The same as for [`CacheLent::put`], if the key was there; otherwise [`Refusal::OutOfSteps`] alone.
    pub fn replace(&mut self, key: K, value: V) -> Result<Option<V>, Refusal> {
        self.compute(key, |before| before.map_or(CacheChange::Keep, |_| CacheChange::Put(value)))
    }

    /// Gives an entry this time to live from now on, and says whether it is there. It counts as used, and costs a `put` of
    /// its value.
    ///
    /// ```
    /// # use std::time::Duration;
    /// # use vbr::Cache;
    /// let cache: Cache<u64, u64> = Cache::open_for(100, 1)?;
    /// let mut mine = cache.lend_wait();
    /// mine.put(5, 70)?;
    /// assert!(mine.touch(5, Duration::ZERO)? && !mine.touch(5, Duration::from_secs(1))?);
    /// # Ok::<(), Box<dyn std::error::Error>>(())
    /// ```
    ///
    /// # Errors
    ///
    /// The same as for [`CacheLent::replace`].
    pub fn touch(&mut self, key: K, time: Duration) -> Result<bool, Refusal> {
        let touched = |before: Option<V>| before.map_or(CacheChange::Keep, |value| CacheChange::PutFor(value, time));
        Ok(self.compute(key, touched)?.is_some())
    }

    /// Takes a key out, and returns its value; none if it was absent. It takes no slot.
    ///
    /// ```
    /// # use vbr::Cache;
    /// let cache: Cache<u64, u64> = Cache::open_for(100, 1)?;
    /// let mut mine = cache.lend_wait();
    /// mine.put(5, 70)?;
    /// assert_eq!((mine.remove(5)?, mine.remove(5)?), (Some(70), None));
    /// # Ok::<(), Box<dyn std::error::Error>>(())
    /// ```
    ///
    /// # Errors
    ///
    /// [`OutOfSteps`]. Nothing was changed then.
    pub fn remove(&mut self, key: K) -> Result<Option<V>, OutOfSteps> {
        // what takes no slot is refused for one reason alone
        self.compute(key, |_| CacheChange::Remove).map_err(|_| OutOfSteps)
    }

    /// Does with a key what a function says of the value that it has, or of none, and returns that value.
    ///
    /// The change is made only if the key still has the entry that the function was told of. Else it is asked again, of what
    /// is there then. So no change is lost.
    ///
    /// `change` is the function. It is asked while a handle is on loan, so it makes no call on the cache.
    ///
    /// ```
    /// # use std::time::Duration;
    /// # use vbr::{Cache, CacheChange};
    /// let cache: Cache<u64, u64> = Cache::open_for(100, 1)?;
    /// let mut mine = cache.lend_wait();
    /// /// Three tries in a minute.
    /// let next_try = |tries: Option<u64>| match tries {
    ///     None => CacheChange::PutFor(1, Duration::from_secs(60)),
    ///     Some(3) => CacheChange::Keep,
    ///     Some(tries) => CacheChange::Update(tries + 1),
    /// };
    /// for before in [None, Some(1), Some(2), Some(3), Some(3)] {
    ///     assert_eq!(mine.compute(5, next_try)?, before);
    /// }
    /// # Ok::<(), Box<dyn std::error::Error>>(())
    /// ```
    ///
    /// # Errors
    ///
    /// [`Refusal::OutOfSteps`]; and if a value was to be stored [`Refusal::NoSlot`] and [`Refusal::EpochSpent`].
    ///
    /// A call that stores a value is refused by [`Refusal::NoSlot`] only if no entry can go, since other loans keep all
    /// slots; and by [`Refusal::EpochSpent`] if the program renews the cache and has not. The key is as it was then, though
    /// another entry may have been evicted.
    ///
    /// [`Refusal::NoSlot`] also comes if removes had too few steps to free their slots, and [`Refusal::EpochSpent`] if there is no memory
    /// for a renewal.
    pub fn compute(&mut self, key: K, mut change: impl FnMut(Option<V>) -> CacheChange<V>) -> Result<Option<V>, Refusal> {
        let (cache, number) = (self.cache, self.cache.number_of(key));
        cache.loads.outdate(|it| it == number);
        loop {
            let mine = self.mine_to_store();
            let renewals = cache.table.lender.renewals();
            match cache.change(mine, number, key, &mut change) {
                Err(Refusal::EpochSpent) if cache.options.renews => {
                    self.lent = None;
                    cache.renew_once(renewals, None).map_err(|_| Refusal::EpochSpent)?;
                }
                told => return told,
            }
        }
    }

    /// The value of a key, as `get`; if it is absent, the one that the loader returns, which is put with the time to live of
    /// the cache. If the loader fails nothing is put.
    ///
    /// If several threads miss one key at a time, one of them runs its loader, and the others wait for it. If it fails, one
    /// of those that wait runs its own. The loan has no handle meanwhile, so a loader may take its time. Two loaders that
    /// load each other's key wait for ever; one that asks for the key that it loads is refused.
    ///
    /// If the key is there again when the loader has ended, the call returns what is there. If it was changed or taken out
    /// while the loader ran, by other calls than a load, the value is returned and not kept, and a call that begins after
    /// that change doesn't wait for it. So once `remove` returns nobody finds what was loaded before. A value isn't kept
    /// either if its put would be refused.
    ///
    /// A loader may make calls of the cache for other keys, and fails by an error or a panic. Those that waited for it look the key up again.
    /// Of more than 256 loads at a time the others aren't shared, and what they bring isn't kept.
    ///
    /// ```
    /// # use vbr::{Cache, LoadError};
    /// let cache: Cache<u64, u64> = Cache::open_for(100, 4)?;
    /// let square = |number: u64| move || number.checked_mul(number).ok_or("it is too large");
    /// let mut mine = cache.lend_wait();
    /// assert_eq!(mine.get_or_load(5, square(5)), Ok(25));
    /// assert_eq!(mine.get_or_load(5, || Err("it is there")), Ok(25));
    /// assert_eq!(mine.get_or_load(u64::MAX, square(u64::MAX)), Err(LoadError::Failed("it is too large")));
    /// # Ok::<(), Box<dyn std::error::Error>>(())
    /// ```
    ///
    /// # Errors
    ///
    /// [`LoadError::Failed`], if the loader fails; [`LoadError::UnderWay`], if a loader of this thread loads the key;
    /// [`LoadError::OutOfSteps`]. Nothing was put then.
    pub fn get_or_load<E>(&mut self, key: K, loader: impl FnOnce() -> Result<V, E>) -> Result<V, LoadError<E>> {
        self.load(key, loader, true)
    }

    /// The same, and it waits for no loader of another thread: if one loads the key, the call is refused for that.
    ///
    /// ```
    /// # use vbr::{Cache, LoadError};
    /// let cache: Cache<u64, u64> = Cache::open_for(100, 2)?;
    /// let told = cache.get_or_load(5, || {
    ///     let elsewhere = std::thread::scope(|scope| scope.spawn(|| cache.try_get_or_load(5, || Ok::<_, ()>(71))).join());
    ///     assert_eq!(elsewhere.expect("it doesn't panic"), Err(LoadError::UnderWay));
    ///     Ok::<_, ()>(70)
    /// });
    /// assert_eq!(told, Ok(70));
    /// # Ok::<(), Box<dyn std::error::Error>>(())
    /// ```
    ///
    /// # Errors
    ///
    /// The same as for [`CacheLent::get_or_load`], and [`LoadError::UnderWay`] if another thread loads the key.
    pub fn try_get_or_load<E>(&mut self, key: K, loader: impl FnOnce() -> Result<V, E>) -> Result<V, LoadError<E>> {
        self.load(key, loader, false)
    }

    fn load<E>(&mut self, key: K, loader: impl FnOnce() -> Result<V, E>, waits: bool) -> Result<V, LoadError<E>> {
        let (cache, number) = (self.cache, self.cache.number_of(key));
        if let Some(value) = self.get(key)? {
            return Ok(value);
        }
        let claimed = loop {
            self.lent = None;
            let claimed = cache.loads.claim(number, waits)?;
            if let Some(value) = cache.look_up(self.mine(), number, key)? {
                return Ok(value); // that of a load which ended just before
            }
            if let Some(claimed) = claimed {
                break claimed;
            }
        };
        cache.count(self.mine().number(), Count::Loads);
        self.lent = None;
        let value = loader().map_err(LoadError::Failed)?;
        let mine = self.mine_to_store();
        let mut unless_there = |before: Option<V>| before.map_or(CacheChange::Put(value), |_| CacheChange::Keep);
        let kept = claimed.keep(|| cache.change(mine, number, key, &mut unless_there));
        Ok(kept.and_then(Result::ok).flatten().unwrap_or(value))
    }
}

impl<K: RecordKey, V: Record, H> fmt::Debug for CacheLent<'_, K, V, H> {
    fn fmt(&self, f: &mut fmt::Formatter<'_>) -> fmt::Result {
        f.debug_struct("CacheLent").field("number", &self.lent.as_ref().map(Mine::number)).finish_non_exhaustive()
    }
}

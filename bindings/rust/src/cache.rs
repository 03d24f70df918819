//! Caches: maps of records with a bound on their entries, which evict.
// tools/interface makes this file of bindings/interface/cache.rs.in.
use crate::cache_loads::Loads;
use crate::cache_options::{CacheOpenError, CacheOptions};
use crate::record_entry::{At, Numbers};
use crate::{
    CacheChange, CacheLent, Lent, LoadError, Map, OpenError, OutOfSteps, Record, RecordKey, Records, Refusal, RenewError,
    Shape,
};
use std::fmt;
use std::hash::{BuildHasher, RandomState};
use std::sync::atomic::{AtomicU64, Ordering::Relaxed};
use std::time::{Duration, Instant};

/// A cache with keys and values of any size, in fixed memory: a record map that evicts, with the same keys and values. It
/// keeps as many entries as it was opened for. Of two keys with one hash the one that comes later takes the other's place.
///
/// Its calls take no lock, but for those that load a key, and those that change one while loads are under way.
///
/// As in a [`RecordMap`](crate::RecordMap) they are numbers, structs by [`record!`](crate::record), strings by
/// [`SmallStr`](crate::SmallStr), bytes by [`SmallBytes`](crate::SmallBytes).
///
/// ```
/// use vbr::{record, Cache, SmallStr};
///
/// record! {
///     #[derive(Clone, Copy, Debug, PartialEq)]
///     struct User {
///         id: u64,
///         name: SmallStr<32>,
///     }
/// }
///
/// let users: Cache<SmallStr<64>, User> = Cache::open_bytes(16 << 20, 4)?; // 16 MiB, and four threads at a time
/// let address = SmallStr::new("ada@example.org")?;
/// let load = || Ok::<_, vbr::TooLong>(User { id: 5, name: SmallStr::new("Ada Lovelace")? }); // from a database
/// assert_eq!(users.get_or_load(address, load).map(|user| user.id), Ok(5));
/// assert!(users.get(address)?.is_some()); // and now it is there
/// # Ok::<(), Box<dyn std::error::Error>>(())
/// ```
///
/// # Calls and loans
///
/// The cache lends its handles. A [`CacheLent`] makes all calls, and the cache itself has the most frequent ones.
///
/// Its own calls lend a handle each, and have it back when they return; a thread that makes many keeps a loan for them. A
/// thread that has a loan makes none of these, nor does a function that such a call asks: they would wait for a second loan.
///
/// A loader may make them, since the loan has no handle while it runs.
///
/// # What goes
///
/// An insert into a full cache evicts by CLOCK (Corbato 1968). A hand goes from slot to slot. An entry that was found or
/// given another value since the hand came by is marked as not used, and stays. Another one goes, and so does one that has
/// expired. A new entry counts as not used, so what is asked for once goes at the next round.
///
/// All threads share one hand, which an atomic addition advances by eight slots. A handle looks at these in turn, and goes on
/// where it was.
///
/// Four threads with a hand each had 0.4 to 0.8 fewer hits in a hundred (Zipf 0.7 and 0.99, room for a tenth of the keys, 30 November
/// 2026): an entry then meets a hand sooner after it comes. In the same draws by one thread the cache had 1.0 to 1.2 hits more in a
/// hundred than an exact LRU (`tests/caches.rs`).
///
/// An entry may have a time to live. When that is over it is as if it were absent, and a `get` or the hand that meets it
/// takes it out.
///
/// # Cost
///
/// A hit is a `get` of a record map and one load more, of whether a renewal waits. It writes its count, on a cache line of
/// the handle's own, and the mark, in the record, if the hand has come by since. A call that stores a value takes a slot,
/// writes the record there, and puts it in the place of the entry that it read. If the key was absent and the cache is full,
/// another entry goes first. An entry that has a time to live costs each call that meets it a look at the clock.
///
/// Of values of 64 bytes among 1,024 keys a hit took 224 instructions, and a get of a [`RecordMap`](crate::RecordMap) 189. A put into the
/// full cache took 1,331, and a put and a remove of the map 1,082 (valgrind, 30 November 2026).
///
/// # Renewals
///
/// Calls that store a value use up epochs, as in each map. From 7/8 of the last epoch on such a call renews the cache, unless
/// the program does. It goes once over all entries, and calls wait meanwhile. Entries and counts go along, and so does which
/// entries were used lately.
///
/// [`CacheLent`] says what a thread with a loan meets, and [`CacheOptions::renewed_by_program`] how a program renews itself.
///
/// # Memory
///
/// All memory is taken at the opening and by renewals, and `bytes` is the most that there is at any moment. There is a slot
/// for each entry, and 64 for each handle. A renewal has about four times the words of a map with these slots, and the
/// records once. A record has three words beside the value, and the key if it is hashed.
///
/// So an entry takes some 230 bytes more than its value, some 70 of them between renewals, and a handle some 17,000 and 64 values.
pub struct Cache<K: RecordKey, V: Record, H = RandomState> {
    pub(crate) table: Map<u64, ()>,
    pub(crate) records: Records<Stored<K, V>>,
    pub(crate) loads: Loads,
    pub(crate) options: CacheOptions<H>,
    /// What the loans of each handle have done.
    turns: Vec<Apart<Turn>>,
    /// The slot from which on eight are looked at next for an eviction, modulo their number.
    hand: Apart<AtomicU64>,
    /// How many entries there are, and are about to be put in.
    length: Apart<AtomicU64>,
    /// The epoch from which on a call is to renew next.
    due_from: AtomicU64,
    capacity: u32,
    bytes: usize,
}

/// On cache lines of its own.
#[derive(Default)]
#[repr(align(128))]
struct Apart<T>(T);

/// What is counted of a loan.
#[derive(Clone, Copy)]
pub(crate) enum Count {
    Hits,
    Misses,
    Evictions,
    Expiries,
    Loads,
}

impl Count {
    const ALL: usize = 5;
}

/// What the loans of one handle have done, each of which alone writes it.
#[derive(Default)]
struct Turn {
    counts: [AtomicU64; Count::ALL],
    /// The next one of the eight slots that it has of the hand.
    slot: AtomicU64,
}

crate::record! {
    /// What a record begins with.
    #[derive(Clone, Copy)]
    pub(crate) struct Head {
        /// The number of the key, so that a slot says whose it is.
        number: u64,
        /// In nanoseconds of the clock and one more; 0: never.
        pub(crate) expires: u64,
        /// Whether the entry was found since the hand came by: 1 or 0. It alone is written while the entry is there.
        is_used: u64,
    }
}

impl Head {
    /// Which word of a record `is_used` is.
    const IS_USED: usize = 2;
}

/// A record: its head, and the key and the value.
pub(crate) type Stored<K, V> = (Head, (<K as RecordKey>::Kept, V));

/// A handle on loan.
pub(crate) type Mine<'c> = Lent<'c, Numbers>;

/// What a call makes of a value, if there is one that hasn't expired.
type Ask<'a, V> = &'a mut dyn FnMut(Option<V>) -> CacheChange<V>;

impl<K: RecordKey, V: Record, H> Cache<K, V, H> {
    /// How many words a record has.
    pub(crate) const WORDS: usize = Stored::<K, V>::WORDS;

    pub(crate) fn open(options: CacheOptions<H>, capacity: u32, shape: Shape, bytes: usize) -> Result<Self, OpenError> {
        let table = Map::open(shape)?; // first, since it takes more while it runs
        let due_from = AtomicU64::new(first_due(options.renews, table.last_epoch()));
        Ok(Cache {
            table,
            records: Records::open(shape.slots)?,
            loads: Loads::none().ok_or(OpenError::Memory)?,
            options,
            turns: filled(shape.handles, Apart::default)?,
            hand: Apart::default(),
            length: Apart::default(),
            due_from,
            capacity,
            bytes,
        })
    }

    /// How many entries it keeps: as many as there are at a time once it is full, but for one more of each call under way.
    ///
    /// ```
    /// # use vbr::Cache;
    /// let cache: Cache<u64, u64> = Cache::open_for(100, 1)?;
    /// for key in 0..1_000 {
    ///     cache.put(key, key)?;
    /// }
    /// assert_eq!((cache.capacity(), cache.statistics().length), (100, 100));
    /// # Ok::<(), Box<dyn std::error::Error>>(())
    /// ```
    pub fn capacity(&self) -> u32 {
        self.capacity
    }

    /// How many bytes of the heap it takes at most at any moment, in its opening and its renewals too.
    ///
    /// ```
    /// # use vbr::Cache;
    /// let cache: Cache<u64, [u8; 1_000]> = Cache::open_for(10_000, 4)?;
    /// assert!((10_000_000..13_000_000).contains(&cache.bytes()));
    /// # Ok::<(), Box<dyn std::error::Error>>(())
    /// ```
    pub fn bytes(&self) -> usize {
        self.bytes
    }

    /// How many handles it lends.
    ///
    /// ```
    /// # use vbr::Cache;
    /// assert_eq!(Cache::<u64, u64>::open_for(100, 3)?.handle_count(), 3);
    /// # Ok::<(), Box<dyn std::error::Error>>(())
    /// ```
    pub fn handle_count(&self) -> usize {
        self.table.handle_count()
    }

    /// What its calls have done. Each handle counts for itself, and this adds the counts up, with five loads for each. They
    /// are of no one moment while calls are under way.
    ///
    /// ```
    /// # use vbr::Cache;
    /// let cache: Cache<u64, u64> = Cache::open_for(100, 1)?;
    /// cache.put(5, 70)?;
    /// assert_eq!((cache.get(5)?, cache.get(6)?), (Some(70), None));
    /// let told = cache.statistics();
    /// assert_eq!((told.hits, told.misses, told.length), (1, 1, 1));
    /// # Ok::<(), Box<dyn std::error::Error>>(())
    /// ```
    pub fn statistics(&self) -> CacheStatistics {
        let sum = |what: Count| self.turns.iter().map(|it| it.0.counts[what as usize].load(Relaxed)).sum();
        CacheStatistics {
            hits: sum(Count::Hits),
            misses: sum(Count::Misses),
            evictions: sum(Count::Evictions),
            expiries: sum(Count::Expiries),
            loads: sum(Count::Loads),
            length: self.length.0.load(Relaxed),
        }
    }

    /// Lends a free handle.
    ///
    /// Returns the handle, or `None` if each was lent at some moment of the call, or they are being renewed.
    ///
    /// It never waits.
    ///
    /// ```
    /// # use vbr::Cache;
    /// let cache: Cache<u64, u64> = Cache::open_for(100, 1)?;
    /// let mut mine = cache.lend().expect("the one handle");
    /// assert!(cache.lend().is_none());
    /// mine.put(5, 70)?;
    /// # Ok::<(), Box<dyn std::error::Error>>(())
    /// ```
    #[inline]
    pub fn lend(&self) -> Option<CacheLent<'_, K, V, H>> {
        self.table.lend().map(|lent| CacheLent::of(self, lent))
    }

    /// Lends a free handle as soon as there is one: if each is lent, the thread sleeps until one is given back.
    ///
    /// A thread that has a loan itself may wait for ever, and a loan without a name lasts to the end of its statement.
    /// Threads that wait have no order: one that comes later may be lent a handle before.
    ///
    /// ```
    /// # use vbr::Cache;
    /// let cache: Cache<u64, u64> = Cache::open_for(100, 2)?;
    /// std::thread::scope(|scope| {
    ///     for key in 0..4 {
    ///         let cache = &cache;
    ///         scope.spawn(move || cache.lend_wait().put(key, 70));
    ///     }
    /// });
    /// assert_eq!(cache.statistics().length, 4);
    /// # Ok::<(), Box<dyn std::error::Error>>(())
    /// ```
    #[inline]
    pub fn lend_wait(&self) -> CacheLent<'_, K, V, H> {
        CacheLent::of(self, self.table.lend_wait())
    }

    /// Lends a free handle, as `lend_wait` does, or none if each was lent until the time was over.
    ///
    /// ```
    /// # use std::time::Duration;
    /// # use vbr::Cache;
    /// let cache: Cache<u64, u64> = Cache::open_for(100, 1)?;
    /// let mine = cache.lend_timeout(Duration::from_secs(1)).expect("the one handle");
    /// assert!(cache.lend_timeout(Duration::from_millis(1)).is_none());
    /// # drop(mine);
    /// # Ok::<(), Box<dyn std::error::Error>>(())
    /// ```
    #[inline]
    pub fn lend_timeout(&self, limit: Duration) -> Option<CacheLent<'_, K, V, H>> {
        self.table.lend_timeout(limit).map(|lent| CacheLent::of(self, lent))
    }

    /// Lets the cache go on at epoch 1, with its entries, once all loans are back: each is given back, or begins a call. A
    /// thread that has a loan itself waits for ever. It goes over all entries. If there is no memory for it the cache stays
    /// as it was.
    ///
    /// ```
    /// # use vbr::Cache;
    /// let cache: Cache<u64, u64> = Cache::open_for(100, 1)?;
    /// cache.put(5, 70)?;
    /// cache.renew()?;
    /// assert_eq!(cache.get(5)?, Some(70));
    /// # Ok::<(), Box<dyn std::error::Error>>(())
    /// ```
    ///
    /// # Errors
    ///
    /// [`RenewError::Memory`].
    pub fn renew(&self) -> Result<(), RenewError> {
        self.renew_once(self.table.lender.renewals(), None)
    }

    /// The same, or refused if not all loans were back when the time was over.
    ///
    /// ```
    /// # use std::time::Duration;
    /// # use vbr::{Cache, RenewError};
    /// let cache: Cache<u64, u64> = Cache::open_for(100, 1)?;
    /// let mine = cache.lend_wait();
    /// assert_eq!(cache.renew_timeout(Duration::from_millis(1)), Err(RenewError::Lent));
    /// # drop(mine);
    /// # Ok::<(), Box<dyn std::error::Error>>(())
    /// ```
    ///
    /// # Errors
    ///
    /// The same as for [`Cache::renew`], and [`RenewError::Lent`]. The cache is as it was then.
    pub fn renew_timeout(&self, limit: Duration) -> Result<(), RenewError> {
        self.renew_once(self.table.lender.renewals(), Instant::now().checked_add(limit))
    }

    /// Renews it once all loans are back, if they are before the deadline, unless that was done since there were so many renewals.
    pub(crate) fn renew_once(&self, renewals: usize, deadline: Option<Instant>) -> Result<(), RenewError> {
        let lender = &self.table.lender;
        lender.renew_once(renewals, lender.shape().get(), deadline, Some(&self.records.words))?;
        self.due_from.store(first_due(self.options.renews, self.table.last_epoch()), Relaxed); // epochs begin anew
        Ok(())
    }

    /// Whether a call that stores a value at this epoch is to renew: one in each 64th of the last epoch, from 7/8 of it on.
    #[inline]
    pub(crate) fn is_due(&self, epoch: u64) -> bool {
        let (from, next) = (self.due_from.load(Relaxed), epoch + self.table.last_epoch() / 64 + 1);
        epoch >= from && self.due_from.compare_exchange(from, next, Relaxed, Relaxed).is_ok()
    }

    #[inline]
    pub(crate) fn count(&self, handle: usize, what: Count) {
        let count = &self.turns[handle].0.counts[what as usize]; // which no other thread writes
        count.store(count.load(Relaxed) + 1, Relaxed);
    }

    /// The time, which is above zero.
    fn now(&self) -> u64 {
        nanoseconds((self.options.clock)()).saturating_add(1)
    }

    #[inline]
    pub(crate) fn is_over(&self, expires: u64) -> bool {
        expires != 0 && expires <= self.now()
    }

    /// When an entry expires that gets so much time now.
    fn expiry(&self, time: Option<Duration>) -> u64 {
        time.map_or(0, |time| self.now().saturating_add(nanoseconds(time)))
    }

    /// The value of a key, which counts as used; none if it has expired, and is taken out, or is absent.
    #[inline]
    pub(crate) fn look_up(&self, mine: &mut Mine<'_>, number: u64, key: K) -> Result<Option<V>, OutOfSteps> {
        let Some(((head, (kept, value)), at)) = self.records.read_entry(mine, number)? else { return Ok(None) };
        if kept != key.kept() {
            return Ok(None);
        }
        if self.is_over(head.expires) {
            if self.take_out(mine, number, &at)? {
                self.count(mine.number(), Count::Expiries);
            }
            return Ok(None);
        }
        if head.is_used == 0 {
            self.mark(at.slot(), true);
        }
        Ok(Some(value))
    }

    /// Marks the entry of a slot as used, or not. If another entry has come to the slot meanwhile it is that one which is marked, once.
    fn mark(&self, slot: u32, is_used: bool) {
        self.records.words.word(slot, Head::IS_USED).store(u64::from(is_used), Relaxed);
    }

    /// Does with a key what `ask` says of the value that it has, evicts if there is no slot, and returns that value.
    pub(crate) fn change(&self, mine: &mut Mine<'_>, number: u64, key: K, ask: Ask<'_, V>) -> Result<Option<V>, Refusal> {
        loop {
            let found = self.records.read_entry(mine, number)?;
            let at = found.as_ref().map(|(_, at)| at);
            let own = found.as_ref().map(|(it, _)| it).filter(|(_, (kept, _))| *kept == key.kept());
            let there = own.filter(|(head, _)| !self.is_over(head.expires));
            let before = there.map(|(_, (_, value))| *value);
            let (value, expires) = match (ask(before), there, at) {
                (CacheChange::Remove, Some(_), Some(at)) => {
                    if self.take_out(mine, number, at)? {
                        return Ok(before);
                    }
                    continue;
                }
                (CacheChange::Keep | CacheChange::Remove, ..) => return Ok(before),
                (CacheChange::Update(value), Some((head, _)), _) => (value, head.expires),
                (CacheChange::PutFor(value, time), ..) => (value, self.expiry(Some(time))),
                (CacheChange::Put(value) | CacheChange::Update(value), ..) => (value, self.expiry(self.options.time_to_live)),
            };
            let head = Head { number, expires, is_used: u64::from(before.is_some()) };
            match self.store(mine, &(head, (key.kept(), value)), at) {
                Ok(true) => {
                    if at.is_some() && before.is_none() {
                        self.count(mine.number(), if own.is_some() { Count::Expiries } else { Count::Evictions });
                    }
                    return Ok(before);
                }
                Ok(false) => {}
                Err(Refusal::NoSlot) if self.evict(mine)? => self.uncount(),
                Err(why) => return Err(why),
            }
        }
    }

    /// Puts a record in place of this entry, or if there is none, and whether that was done.
    fn store(&self, mine: &mut Mine<'_>, record: &Stored<K, V>, at: Option<&At>) -> Result<bool, Refusal> {
        if at.is_none() {
            self.make_room(mine)?;
        }
        let told = self.publish(mine, record, at);
        if at.is_none() && told != Ok(true) {
            self.uncount();
        }
        told
    }

    /// The same of an entry that is counted.
    fn publish(&self, mine: &mut Mine<'_>, record: &Stored<K, V>, at: Option<&At>) -> Result<bool, Refusal> {
        let mut held = mine.hold()?;
        self.records.write(&mut held, record);
        let number = record.0.number;
        Ok(match at {
            Some(at) => held.replace(number, at, ())?.is_ok(),
            None => held.try_insert(number, ())?.is_ok(),
        })
    }

    /// Counts an entry less.
    pub(crate) fn uncount(&self) {
        self.length.0.fetch_sub(1, Relaxed);
    }

    /// Counts an entry that is to come. As many go as are too many then, which this call alone takes on; those that can't go are counted again.
    fn make_room(&self, mine: &mut Mine<'_>) -> Result<(), Refusal> {
        let (length, most) = (&self.length.0, u64::from(self.capacity));
        if length.load(Relaxed) >= most && mine.epoch() == self.table.last_epoch() {
            drop(mine.hold()?); // nothing goes in vain
        }
        let counted = |now: u64| (now != most).then(|| most.min(now + 1));
        let (Ok(before) | Err(before)) = length.fetch_update(Relaxed, Relaxed, counted);
        for left in (1..=(before + 1).saturating_sub(most)).rev() {
            match self.evict(mine) {
                Ok(true) => {}
                Ok(false) => {
                    length.fetch_add(left, Relaxed);
                    break;
                }
                Err(why) => {
                    length.fetch_add(left - 1, Relaxed); // the one that was to come doesn't
                    return Err(why.into());
                }
            }
        }
        Ok(())
    }

    /// Takes the next entry out that wasn't found since the hand came by, or has expired, and whether there was one in three rounds. It
    /// is still counted.
    fn evict(&self, mine: &mut Mine<'_>) -> Result<bool, OutOfSteps> {
        let (slots, turn, mut now) = (u64::from(self.table.slots()), &self.turns[mine.number()].0.slot, None);
        for _ in 0..3 * slots {
            let next = Some(turn.load(Relaxed)).filter(|next| next % 8 != 0);
            let next = next.unwrap_or_else(|| self.hand.0.fetch_add(8, Relaxed));
            turn.store(next + 1, Relaxed);
            let slot = u32::try_from(next % slots).expect("below the slots");
            let Head { number, expires, is_used } = self.records.words.copy_of(slot);
            let is_over = expires != 0 && expires <= *now.get_or_insert_with(|| self.now());
            if !is_over && is_used != 0 {
                self.mark(slot, false);
                continue;
            }
            let stands = mine.get_entry(number)?.filter(|at| at.slot() == slot); // or the slot is free, or held
            if stands.map_or(Ok(false), |at| mine.remove_entry(number, &at))? {
                self.count(mine.number(), if is_over { Count::Expiries } else { Count::Evictions });
                return Ok(true);
            }
        }
        Ok(false)
    }

    /// Takes this very entry out, and whether it was there.
    pub(crate) fn take_out(&self, mine: &mut Mine<'_>, number: u64, at: &At) -> Result<bool, OutOfSteps> {
        let is_out = mine.remove_entry(number, at)?;
        if is_out {
            self.uncount();
        }
        Ok(is_out)
    }
}

/// The epoch from which on calls renew after an opening or a renewal, if they do.
fn first_due(renews: bool, last_epoch: u64) -> u64 {
    if renews {
        last_epoch - last_epoch / 8
    } else {
        u64::MAX
    }
}

/// So many, if there is memory.
fn filled<T>(count: usize, make: impl FnMut() -> T) -> Result<Vec<T>, OpenError> {
    let mut all = Vec::new();
    all.try_reserve_exact(count).map_err(|_| OpenError::Memory)?;
    all.resize_with(count, make);
    Ok(all)
}

fn nanoseconds(time: Duration) -> u64 {
    u64::try_from(time.as_nanos()).unwrap_or(u64::MAX)
}

impl<K: RecordKey, V: Record> Cache<K, V> {
    /// Opens an empty cache that takes at most so many bytes of the heap at any moment: it has as many entries as there is
    /// room for. It lends so many handles, one for each thread that makes calls at the same time.
    ///
    /// [`CacheOptions`] has other forms of it.
    ///
    /// ```
    /// # use vbr::Cache;
    /// let cache: Cache<u64, [u8; 4_096]> = Cache::open_bytes(64 << 20, 4)?; // pages, in 64 MiB
    /// assert!(cache.bytes() <= 64 << 20 && cache.capacity() > 15_000);
    /// # Ok::<(), Box<dyn std::error::Error>>(())
    /// ```
    ///
    /// # Errors
    ///
    /// [`CacheOpenError`]. Nothing is kept then.
    pub fn open_bytes(bytes: usize, handles: usize) -> Result<Cache<K, V>, CacheOpenError> {
        CacheOptions::new().open_bytes(bytes, handles)
    }

    /// Opens an empty cache that keeps so many entries, in whatever memory they take, and lends so many handles.
    ///
    /// ```
    /// # use vbr::Cache;
    /// let cache: Cache<u64, u64> = Cache::open_for(1_000, 2)?;
    /// assert_eq!((cache.capacity(), cache.handle_count()), (1_000, 2));
    /// # Ok::<(), Box<dyn std::error::Error>>(())
    /// ```
    ///
    /// # Errors
    ///
    /// [`OpenError::Shape`], which is tested first: with [`ShapeError::Slots`](crate::ShapeError::Slots) if it is for no entry, or for more
    /// than there are slots; and [`OpenError::Memory`]. Nothing is kept then.
    pub fn open_for(entries: u32, handles: usize) -> Result<Cache<K, V>, OpenError> {
        CacheOptions::new().open_for(entries, handles)
    }
}

impl<K: RecordKey, V: Record, H: BuildHasher> Cache<K, V, H> {
    /// The number that a key has in the table.
    #[inline]
    pub(crate) fn number_of(&self, key: K) -> u64 {
        key.number(&self.options.hasher)
    }
}

/// Calls of the cache itself, each by a loan for it alone.
impl<K: RecordKey, V: Record, H: BuildHasher> Cache<K, V, H> {
    /// The value of a key: a copy, whole, of what it had at a moment of the call; none if it is absent. The entry counts as
    /// used. One that has expired is taken out, and is a miss.
    ///
    /// It is [`CacheLent::get`], by a loan for this call alone.
    ///
    /// ```
    /// # use vbr::Cache;
    /// let cache: Cache<u64, [u64; 4]> = Cache::open_for(100, 1)?;
    /// cache.put(5, [7; 4])?;
    /// assert_eq!((cache.get(5)?, cache.get(6)?), (Some([7; 4]), None));
    /// # Ok::<(), Box<dyn std::error::Error>>(())
    /// ```
    ///
    /// # Errors
    ///
    /// The same as for [`CacheLent::get`].
    pub fn get(&self, key: K) -> Result<Option<V>, OutOfSteps> {
        self.lend_wait().get(key)
    }

    /// Gives a key this value, with the time to live of the cache, and returns the one that it had; none if it was absent,
    /// and is inserted. If the cache is full another entry goes before.
    ///
    /// It is [`CacheLent::put`], by a loan for this call alone.
    ///
    /// ```
    /// # use vbr::Cache;
    /// let cache: Cache<u64, u64> = Cache::open_for(1, 1)?;
    /// assert_eq!((cache.put(5, 70)?, cache.put(5, 71)?, cache.put(6, 72)?), (None, Some(70), None));
    /// assert_eq!((cache.get(5)?, cache.get(6)?), (None, Some(72)));
    /// # Ok::<(), Box<dyn std::error::Error>>(())
    /// ```
    ///
    /// # Errors
    ///
    /// The same as for [`CacheLent::put`].
    pub fn put(&self, key: K, value: V) -> Result<Option<V>, Refusal> {
        self.lend_wait().put(key, value)
    }

    /// The same, with a time to live of its own. If that isn't above zero the entry has expired at once.
    ///
    /// It is [`CacheLent::put_for`], by a loan for this call alone.
    ///
    /// ```
    /// # use std::time::Duration;
    /// # use vbr::Cache;
    /// let cache: Cache<u64, u64> = Cache::open_for(100, 1)?;
    /// cache.put_for(5, 70, Duration::from_millis(1))?;
    /// std::thread::sleep(Duration::from_millis(1));
    /// assert_eq!(cache.get(5)?, None);
    /// # Ok::<(), Box<dyn std::error::Error>>(())
    /// ```
    ///
    /// # Errors
    ///
    /// The same as for [`CacheLent::put_for`].
    pub fn put_for(&self, key: K, value: V, time: Duration) -> Result<Option<V>, Refusal> {
        self.lend_wait().put_for(key, value, time)
    }

    /// Takes a key out, and returns its value; none if it was absent. It takes no slot.
    ///
    /// It is [`CacheLent::remove`], by a loan for this call alone.
    ///
    /// ```
    /// # use vbr::Cache;
    /// let cache: Cache<u64, u64> = Cache::open_for(100, 1)?;
    /// cache.put(5, 70)?;
    /// assert_eq!((cache.remove(5)?, cache.remove(5)?), (Some(70), None));
    /// # Ok::<(), Box<dyn std::error::Error>>(())
    /// ```
    ///
    /// # Errors
    ///
    /// The same as for [`CacheLent::remove`].
    pub fn remove(&self, key: K) -> Result<Option<V>, OutOfSteps> {
        self.lend_wait().remove(key)
    }

    /// Does with a key what a function says of the value that it has, or of none, and returns that value.
    ///
    /// The change is made only if the key still has the entry that the function was told of. Else it is asked again, of what
    /// is there then. So no change is lost.
    ///
    /// `change` is the function. It is asked while a handle is on loan, so it makes no call on the cache.
    ///
    /// It is [`CacheLent::compute`], by a loan for this call alone.
    ///
    /// ```
    /// # use std::time::Duration;
    /// # use vbr::{Cache, CacheChange};
    /// let cache: Cache<u64, u64> = Cache::open_for(100, 1)?;
    /// /// Three tries in a minute.
    /// let next_try = |tries: Option<u64>| match tries {
    ///     None => CacheChange::PutFor(1, Duration::from_secs(60)),
    ///     Some(3) => CacheChange::Keep,
    ///     Some(tries) => CacheChange::Update(tries + 1),
    /// };
    /// for before in [None, Some(1), Some(2), Some(3), Some(3)] {
    ///     assert_eq!(cache.compute(5, next_try)?, before);
    /// }
    /// # Ok::<(), Box<dyn std::error::Error>>(())
    /// ```
    ///
    /// # Errors
    ///
    /// The same as for [`CacheLent::compute`].
    pub fn compute(&self, key: K, change: impl FnMut(Option<V>) -> CacheChange<V>) -> Result<Option<V>, Refusal> {
        self.lend_wait().compute(key, change)
    }

    /// The value of a key, as `get`; if it is absent, the one that the loader returns, which is put with the time to live of
    /// the cache. If the loader fails nothing is put.
    ///
    /// If several threads miss one key at a time, one of them runs its loader, and the others wait for it. If it fails, one
    /// of those that wait runs its own. The loan has no handle meanwhile, so a loader may take its time. Two loaders that
    /// load each other's key wait for ever; one that asks for the key that it loads is refused.
    ///
    /// If the key is there again when the loader has ended, the call returns what is there. If it was changed or taken out
    /// while the loader ran, by other calls than a load, the value is returned and not kept, and a call that begins after
    /// that change doesn't wait for it. So once `remove` returns nobody finds what was loaded before. A value isn't kept
    /// either if its put would be refused.
    ///
    /// A loader may make calls of the cache for other keys, and fails by an error or a panic. Those that waited for it look the key up again.
    /// Of more than 256 loads at a time the others aren't shared, and what they bring isn't kept.
    ///
    /// It is [`CacheLent::get_or_load`], by a loan for this call alone.
    ///
    /// ```
    /// # use vbr::{Cache, LoadError};
    /// let cache: Cache<u64, u64> = Cache::open_for(100, 4)?;
    /// let square = |number: u64| move || number.checked_mul(number).ok_or("it is too large");
    /// assert_eq!(cache.get_or_load(5, square(5)), Ok(25));
    /// assert_eq!(cache.get_or_load(5, || Err("it is there")), Ok(25));
    /// assert_eq!(cache.get_or_load(u64::MAX, square(u64::MAX)), Err(LoadError::Failed("it is too large")));
    /// # Ok::<(), Box<dyn std::error::Error>>(())
    /// ```
    ///
    /// # Errors
    ///
    /// The same as for [`CacheLent::get_or_load`].
    pub fn get_or_load<E>(&self, key: K, loader: impl FnOnce() -> Result<V, E>) -> Result<V, LoadError<E>> {
        self.lend_wait().get_or_load(key, loader)
    }

    /// The same, and it waits for no loader of another thread: if one loads the key, the call is refused for that.
    ///
    /// It is [`CacheLent::try_get_or_load`], by a loan for this call alone.
    ///
    /// ```
    /// # use vbr::{Cache, LoadError};
    /// let cache: Cache<u64, u64> = Cache::open_for(100, 2)?;
    /// let told = cache.get_or_load(5, || {
    ///     let elsewhere = std::thread::scope(|scope| scope.spawn(|| cache.try_get_or_load(5, || Ok::<_, ()>(71))).join());
    ///     assert_eq!(elsewhere.expect("it doesn't panic"), Err(LoadError::UnderWay));
    ///     Ok::<_, ()>(70)
    /// });
    /// assert_eq!(told, Ok(70));
    /// # Ok::<(), Box<dyn std::error::Error>>(())
    /// ```
    ///
    /// # Errors
    ///
    /// The same as for [`CacheLent::try_get_or_load`].
    pub fn try_get_or_load<E>(&self, key: K, loader: impl FnOnce() -> Result<V, E>) -> Result<V, LoadError<E>> {
        self.lend_wait().try_get_or_load(key, loader)
    }
}

impl<K: RecordKey, V: Record, H> fmt::Debug for Cache<K, V, H> {
    fn fmt(&self, f: &mut fmt::Formatter<'_>) -> fmt::Result {
        f.debug_struct("Cache")
            .field("capacity", &self.capacity)
            .field("bytes", &self.bytes)
            .field("handles", &self.handle_count())
            .field("statistics", &self.statistics())
            .finish_non_exhaustive()
    }
}

/// What the calls of a cache have done since its opening.
///
/// ```
/// # use vbr::{Cache, CacheStatistics};
/// fn hit_ratio(told: CacheStatistics) -> f64 {
///     told.hits as f64 / (told.hits + told.misses) as f64
/// }
/// let cache: Cache<u64, u64> = Cache::open_for(100, 1)?;
/// for key in [5, 6, 5, 5] {
///     cache.get_or_load(key, || Ok::<_, ()>(70)).expect("a loader that doesn't fail");
/// }
/// assert_eq!(hit_ratio(cache.statistics()), 0.5);
/// # Ok::<(), Box<dyn std::error::Error>>(())
/// ```
#[derive(Clone, Copy, Debug, Default, PartialEq, Eq, Hash)]
#[non_exhaustive]
pub struct CacheStatistics {
    /// Look-ups that gave a value: of `get`, and of `get_or_load` before it loads or waits.
    pub hits: u64,
    /// Those that gave none.
    pub misses: u64,
    /// Entries that went for others.
    pub evictions: u64,
    /// Entries that were taken out, or replaced, since they had expired.
    pub expiries: u64,
    /// Loaders that were begun.
    pub loads: u64,
    /// How many entries there are, also such as have expired and nobody met since.
    pub length: u64,
}

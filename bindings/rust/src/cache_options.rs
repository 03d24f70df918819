//! How a cache is opened.
// tools/interface makes this file of bindings/interface/cache_options.rs.in.
use crate::cache::Cache;
use crate::cache_loads::MOST;
use crate::{OpenError, Record, RecordKey, Shape, ShapeError, MAX_EPOCH, MAX_MANY_HANDLES, MAX_SLOTS};
use std::error::Error;
use std::fmt;
use std::hash::{BuildHasher, RandomState};
use std::sync::OnceLock;
use std::time::{Duration, Instant};

/// How a [`Cache`] is opened, if not as [`Cache::open_bytes`] and [`Cache::open_for`] do it.
///
/// ```
/// use std::time::Duration;
/// use vbr::{Cache, CacheOptions, SmallStr};
///
/// let minute = CacheOptions::new().with_time_to_live(Duration::from_secs(60));
/// let logins: Cache<u64, SmallStr<32>> = minute.open_bytes(1 << 20, 4)?; // a mebibyte, four threads at a time
/// assert!(logins.bytes() <= 1 << 20 && logins.capacity() > 1_000);
/// # Ok::<(), Box<dyn std::error::Error>>(())
/// ```
#[derive(Clone, Copy, Debug)]
#[must_use = "options are nothing before a cache is opened with them"]
pub struct CacheOptions<H = RandomState> {
    pub(crate) time_to_live: Option<Duration>,
    pub(crate) clock: fn() -> Duration,
    pub(crate) hasher: H,
    pub(crate) renews: bool,
    last_epoch: u64,
    seed: Option<u64>,
}

/// Why no cache was opened in so many bytes. An [`OpenError`] converts into it.
///
/// ```
/// # use vbr::{Cache, CacheOpenError};
/// let told = Cache::<u64, [u64; 4]>::open_bytes(100, 1);
/// let Err(CacheOpenError::TooFewBytes { bytes: 100, least }) = told else { panic!("a cache in 100 bytes") };
/// assert_eq!(Cache::<u64, [u64; 4]>::open_bytes(least, 1)?.capacity(), 1);
/// # Ok::<(), Box<dyn std::error::Error>>(())
/// ```
#[derive(Clone, Copy, Debug, PartialEq, Eq, Hash)]
#[non_exhaustive]
pub enum CacheOpenError {
    /// An entry and the handles take more bytes.
    TooFewBytes {
        /// How many it was to take.
        bytes: usize,
        /// How many one of a single entry takes.
        least: usize,
    },
    /// The opening was refused: the number of handles is out of range, or there is no memory.
    Refused(OpenError),
}

impl From<OpenError> for CacheOpenError {
    fn from(why: OpenError) -> CacheOpenError {
        CacheOpenError::Refused(why)
    }
}

impl fmt::Display for CacheOpenError {
    fn fmt(&self, f: &mut fmt::Formatter<'_>) -> fmt::Result {
        match self {
            CacheOpenError::TooFewBytes { bytes, least } => {
                write!(f, "{bytes} bytes are too few: a cache of one entry takes {least}")
            }
            CacheOpenError::Refused(why) => why.fmt(f),
        }
    }
}

impl Error for CacheOpenError {}

/// Time since a moment that is the same for all caches, and before any entry.
fn steady() -> Duration {
    static BEGAN: OnceLock<Instant> = OnceLock::new();
    BEGAN.get_or_init(Instant::now).elapsed()
}

impl Default for CacheOptions {
    fn default() -> CacheOptions {
        CacheOptions::new()
    }
}

impl CacheOptions {
    /// Entries that don't expire, a steady clock, a hasher with a key of its own drawn at random, and renewals by the cache itself.
    ///
    /// ```
    /// # use vbr::{Cache, CacheOptions};
    /// let cache: Cache<u64, u64> = CacheOptions::new().open_for(100, 1)?;
    /// assert_eq!(cache.capacity(), 100);
    /// # Ok::<(), Box<dyn std::error::Error>>(())
    /// ```
    pub fn new() -> CacheOptions {
        let hasher = RandomState::new();
        CacheOptions { time_to_live: None, clock: steady, hasher, renews: true, last_epoch: MAX_EPOCH, seed: None }
    }
}

impl<H> CacheOptions<H> {
    /// The same, with a time to live.
    ///
    /// It is that of entries which aren't given another one, and begins anew with each value that is put.
    ///
    /// ```
    /// # use std::time::Duration;
    /// # use vbr::{Cache, CacheOptions};
    /// let at_once = CacheOptions::new().with_time_to_live(Duration::ZERO);
    /// let cache: Cache<u64, u64> = at_once.open_for(100, 1)?;
    /// cache.put(5, 70)?;
    /// assert_eq!(cache.get(5)?, None);
    /// # Ok::<(), Box<dyn std::error::Error>>(())
    /// ```
    pub fn with_time_to_live(self, time: Duration) -> CacheOptions<H> {
        CacheOptions { time_to_live: Some(time), ..self }
    }

    /// The same, with another clock.
    ///
    /// It gives the time since any moment, always the same one. It is asked only if an entry that is stored or met has a time
    /// to live, and makes no call of the cache.
    ///
    /// ```
    /// # use std::time::Duration;
    /// # use vbr::{Cache, CacheOptions};
    /// # use std::sync::atomic::{AtomicU64, Ordering};
    /// static SECOND: AtomicU64 = AtomicU64::new(0); // which another thread counts
    /// let clock = || Duration::from_secs(SECOND.load(Ordering::Relaxed));
    /// let cache: Cache<u64, u64> = CacheOptions::new().with_clock(clock).open_for(100, 1)?;
    /// cache.put_for(5, 70, Duration::from_secs(2))?;
    /// assert_eq!(cache.get(5)?, Some(70));
    /// SECOND.store(2, Ordering::Relaxed);
    /// assert_eq!(cache.get(5)?, None);
    /// # Ok::<(), Box<dyn std::error::Error>>(())
    /// ```
    pub fn with_clock(self, clock: fn() -> Duration) -> CacheOptions<H> {
        CacheOptions { clock, ..self }
    }

    /// The same, with another hasher for keys of more than 64 bits.
    ///
    /// If others choose the keys, a hash of the program's own has a key that nobody outside knows: whoever can compute it can
    /// choose keys that share it.
    ///
    /// ```
    /// # use vbr::{Cache, CacheOptions, SmallStr};
    /// # use std::hash::{BuildHasherDefault, DefaultHasher};
    /// let hasher = BuildHasherDefault::<DefaultHasher>::new(); // the same in each run
    /// let ports: Cache<SmallStr<8>, u16, _> = CacheOptions::new().with_hasher(hasher).open_for(100, 1)?;
    /// ports.put(SmallStr::new("https")?, 443)?;
    /// # Ok::<(), Box<dyn std::error::Error>>(())
    /// ```
    pub fn with_hasher<G>(self, hasher: G) -> CacheOptions<G> {
        let CacheOptions { time_to_live, clock, renews, last_epoch, seed, .. } = self;
        CacheOptions { time_to_live, clock, hasher, renews, last_epoch, seed }
    }

    /// The same, with a seed by which keys are spread over the buckets ([`Shape::with_seed`]); without one it is drawn at random.
    ///
    /// ```
    /// # use vbr::{Cache, CacheOptions};
    /// let cache: Cache<u64, u64> = CacheOptions::new().with_seed(7).open_for(100, 1)?;
    /// # Ok::<(), Box<dyn std::error::Error>>(())
    /// ```
    pub fn with_seed(self, seed: u64) -> CacheOptions<H> {
        CacheOptions { seed: Some(seed), ..self }
    }

    /// The same, with another last epoch ([`Shape::with_last_epoch`]): a small one for tests of what happens at its end.
    ///
    /// ```
    /// # use vbr::{Cache, CacheOptions};
    /// let cache: Cache<u64, u64> = CacheOptions::new().with_last_epoch(100).open_for(10, 1)?;
    /// for key in 0..10_000 {
    ///     cache.put(key, key)?; // and it was renewed several times
    /// }
    /// # Ok::<(), Box<dyn std::error::Error>>(())
    /// ```
    pub fn with_last_epoch(self, last_epoch: u64) -> CacheOptions<H> {
        CacheOptions { last_epoch, ..self }
    }

    /// The same, with renewals by the program ([`Cache::renew`]).
    ///
    /// After the last epoch calls that store a value are refused until the program has renewed the cache; the others are
    /// answered as always.
    ///
    /// ```
    /// # use vbr::{Cache, CacheOptions, Refusal};
    /// let cache: Cache<u64, u64> = CacheOptions::new().with_last_epoch(100).renewed_by_program().open_for(10, 1)?;
    /// let refused = (0..10_000).find_map(|key| cache.put(key, key).err());
    /// assert_eq!(refused, Some(Refusal::EpochSpent));
    /// cache.renew()?;
    /// assert_eq!(cache.put(5, 70)?, None);
    /// # Ok::<(), Box<dyn std::error::Error>>(())
    /// ```
    pub fn renewed_by_program(self) -> CacheOptions<H> {
        CacheOptions { renews: false, ..self }
    }
}

impl<H: BuildHasher> CacheOptions<H> {
    /// Opens a cache as [`Cache::open_bytes`] does, with these options.
    ///
    /// ```
    /// # use vbr::{Cache, CacheOptions};
    /// let cache: Cache<u64, [u8; 100]> = CacheOptions::new().open_bytes(1_000_000, 2)?;
    /// assert!(cache.bytes() <= 1_000_000);
    /// # Ok::<(), Box<dyn std::error::Error>>(())
    /// ```
    ///
    /// # Errors
    ///
    /// [`CacheOpenError`]. Nothing is kept then.
    pub fn open_bytes<K: RecordKey, V: Record>(self, bytes: usize, handles: usize) -> Result<Cache<K, V, H>, CacheOpenError> {
        Shape::for_keys(1, handles).check().map_err(OpenError::Shape)?;
        let fit = |entries: u32| entries <= most_entries(handles) && most_bytes::<K, V>(entries, handles) <= bytes;
        let entries =
            (0..32).rev().map(|bit| 1 << bit).fold(0, |some, more| if fit(some + more) { some + more } else { some });
        if entries == 0 {
            return Err(CacheOpenError::TooFewBytes { bytes, least: most_bytes::<K, V>(1, handles) });
        }
        Ok(self.open_for(entries, handles)?)
    }

    /// Opens a cache as [`Cache::open_for`] does, with these options.
    ///
    /// ```
    /// # use vbr::{Cache, CacheOptions};
    /// let cache: Cache<u64, [u8; 100]> = CacheOptions::new().open_for(1_000, 2)?;
    /// assert_eq!(cache.capacity(), 1_000);
    /// # Ok::<(), Box<dyn std::error::Error>>(())
    /// ```
    ///
    /// # Errors
    ///
    /// The same as for [`Cache::open_for`]. Nothing is kept then.
    pub fn open_for<K: RecordKey, V: Record>(self, entries: u32, handles: usize) -> Result<Cache<K, V, H>, OpenError> {
        let mut shape = Shape::for_keys(entries, handles).with_last_epoch(self.last_epoch);
        shape.seed = self.seed;
        shape.check().map_err(OpenError::Shape)?;
        if entries == 0 || entries > most_entries(handles) {
            return Err(OpenError::Shape(ShapeError::Slots(entries)));
        }
        Cache::open(self, entries, shape, most_bytes::<K, V>(entries, handles))
    }
}

/// How many entries a cache of so many handles, which are in range, has at most.
fn most_entries(handles: usize) -> u32 {
    let own = 64 * handles.min(MAX_MANY_HANDLES);
    MAX_SLOTS - u32::try_from(own).expect("it is no more than the slots")
}

/// How many bytes a cache of so many entries takes at most, at any moment from its opening on. All but the records is what a renewal
/// wants: the old words, a fresh set, which takes as much again while it is opened, its entries, and the slots of the old ones.
fn most_bytes<K: RecordKey, V: Record>(entries: u32, handles: usize) -> usize {
    let Shape { slots, buckets, .. } = Shape::for_keys(entries, handles);
    let (slots, buckets) = (slots as usize, buckets as usize);
    let words = 8 * (2 + buckets + 5 * slots + slots.div_ceil(64));
    let records = 8_usize.saturating_mul(slots).saturating_mul(Cache::<K, V>::WORDS);
    let all = records.saturating_add(3 * words + 53 * slots + 3_200 * handles + 32 * MOST + 1_024);
    all.saturating_add(all / 256) // large blocks are of whole pages
}

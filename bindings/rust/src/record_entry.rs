//! What is read of a map of records, and why one of its calls isn't answered.
use crate::{Entries, Incarnation, OutOfSteps, Refusal};
use core::error::Error;
use core::fmt;

/// The kind of the table below a map of records.
pub(crate) type Numbers = Entries<u64, ()>;

/// Where a record stands.
pub(crate) type At = Incarnation<Numbers>;

/// A map of records between two renewals.
#[derive(Clone, Copy, Debug, PartialEq, Eq)]
pub(crate) struct Opening {
    pub(crate) map: u64,
    pub(crate) renewals: usize,
}

// %doc record_entry
/// A key with its value as they were at one moment, and which entry that was. No later entry of the key is taken for it, even
/// with the same value. After a renewal of the map all entries are others.
// %end
///
/// It is of a [`RecordMap`](crate::RecordMap), and may be kept for as long as you like, and over the loan. So what depends on the value
/// that was read isn't done to another one ([`RecordLent::replace_entry`](crate::RecordLent::replace_entry),
/// [`RecordLent::remove_entry`](crate::RecordLent::remove_entry)).
///
/// ```
/// # use vbr::{RecordMap, Shape};
/// let map: RecordMap<u64, [u64; 4]> = RecordMap::open(Shape::for_keys(8, 1))?;
/// map.put(5, [7; 4])?;
/// let entry = map.get_entry(5)?.expect("5 is there");
/// map.put(5, [7; 4])?; // the same value, and another entry
/// assert!(!map.replace_entry(&entry, [8; 4])?);
/// # Ok::<(), Box<dyn std::error::Error>>(())
/// ```
#[derive(Clone, Copy)]
pub struct RecordEntry<K, V> {
    pub(crate) key: K,
    pub(crate) value: V,
    /// Under which number it stands, where, and when.
    pub(crate) number: u64,
    pub(crate) at: At,
    pub(crate) of: Opening,
}

impl<K, V> RecordEntry<K, V> {
    /// The key.
    ///
    /// ```
    /// # use vbr::{RecordMap, Shape};
    /// # let map: RecordMap<u64, [u64; 4]> = RecordMap::open(Shape::for_keys(8, 1))?;
    /// map.put(5, [7; 4])?;
    /// assert_eq!(map.get_entry(5)?.map(|entry| *entry.key()), Some(5));
    /// # Ok::<(), Box<dyn std::error::Error>>(())
    /// ```
    #[inline]
    #[must_use]
    pub fn key(&self) -> &K {
        &self.key
    }

    /// The value, whole.
    ///
    /// ```
    /// # use vbr::{RecordMap, Shape};
    /// # let map: RecordMap<u64, [u64; 4]> = RecordMap::open(Shape::for_keys(8, 1))?;
    /// map.put(5, [7; 4])?;
    /// assert_eq!(map.get_entry(5)?.map(|entry| *entry.value()), Some([7; 4]));
    /// # Ok::<(), Box<dyn std::error::Error>>(())
    /// ```
    #[inline]
    #[must_use]
    pub fn value(&self) -> &V {
        &self.value
    }
}

impl<K: fmt::Debug, V: fmt::Debug> fmt::Debug for RecordEntry<K, V> {
    fn fmt(&self, f: &mut fmt::Formatter<'_>) -> fmt::Result {
        f.debug_struct("RecordEntry").field("key", &self.key).field("value", &self.value).finish_non_exhaustive()
    }
}

/// Why a call of a [`RecordMap`](crate::RecordMap) that may add a key gave no answer. It made no call then. A [`Refusal`] and an
/// [`OutOfSteps`] convert into it, so `?` serves all.
///
/// ```
/// # use vbr::{RecordMap, RecordRefusal, Refusal, Shape, SmallStr};
/// # use std::hash::{BuildHasherDefault, Hasher};
/// /// Each key has the hash 0.
/// #[derive(Default)]
/// struct Worst;
///
/// impl Hasher for Worst {
///     fn write(&mut self, _: &[u8]) {}
///     fn finish(&self) -> u64 {
///         0
///     }
/// }
///
/// let hasher = BuildHasherDefault::<Worst>::new();
/// let map: RecordMap<SmallStr<8>, u64, _> = RecordMap::open_with_hasher(Shape::for_keys(8, 1), 0, hasher)?;
/// let [first, second] = [SmallStr::new("first")?, SmallStr::new("second")?];
/// assert!(map.try_insert(first, 1)?);
/// assert_eq!(map.put(second, 2), Err(RecordRefusal::HashTaken));
/// assert_eq!((map.get(first)?, map.get(second)?), (Some(1), None));
/// # Ok::<(), Box<dyn std::error::Error>>(())
/// ```
#[derive(Clone, Copy, Debug, PartialEq, Eq, Hash)]
pub enum RecordRefusal {
    /// It is refused as a call of a map is.
    Refused(Refusal),
    // %doc hash_taken
    /// Another key with the same hash is there.
    // %end
    ///
    /// So this one can't be: take the other one out, or open a map with another hasher, or with another key of it, and put all entries
    /// there. It comes of no key that is kept as itself.
    HashTaken,
}

impl From<Refusal> for RecordRefusal {
    fn from(why: Refusal) -> RecordRefusal {
        RecordRefusal::Refused(why)
    }
}

impl From<OutOfSteps> for RecordRefusal {
    fn from(why: OutOfSteps) -> RecordRefusal {
        RecordRefusal::Refused(why.into())
    }
}

impl fmt::Display for RecordRefusal {
    fn fmt(&self, f: &mut fmt::Formatter<'_>) -> fmt::Result {
        match self {
            RecordRefusal::Refused(why) => why.fmt(f),
            RecordRefusal::HashTaken => f.write_str("another key with the same hash is there"),
        }
    }
}

impl Error for RecordRefusal {}

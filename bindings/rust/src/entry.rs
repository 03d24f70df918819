//! A key of a map, with what to do if it is there and if it isn't.
use crate::{Bits, Change, MapPass, Refusal};
use core::cell::LazyCell;
use core::fmt;

/// A key of a map, there or not, as [`MapPass::entry`](crate::MapPass::entry) names it. It makes no call, and holds nobody
/// up: its methods say what to do, and their calls do it, at one moment for all threads.
///
/// They return the value, and not a reference to it, since other threads may change it at any time. So there is no entry either
/// that is known to be occupied or vacant: [`MapPass::compute`](crate::MapPass::compute) asks what to do with what is there, and
/// asks again if that has changed.
///
/// ```
/// use vbr::{MapPass, Refusal};
///
/// /// Counts a word, which may be a new one.
/// fn count(words: &mut MapPass<[u8; 8], u32>, word: [u8; 8]) -> Result<u32, Refusal> {
///     words.entry(word).and_modify(|count| *count += 1).or_insert(1)
/// }
///
/// # let mut words = vbr::Map::handles(vbr::Shape::for_keys(8, 1))?.remove(0);
/// assert_eq!(count(&mut words, *b"    once")?, 1);
/// assert_eq!(count(&mut words, *b"    once")?, 2);
/// # Ok::<(), Box<dyn std::error::Error>>(())
/// ```
#[must_use = "nothing is done before it is said what to insert"]
pub struct Entry<'p, K = u64, V = u64> {
    pass: &'p mut MapPass<K, V>,
    key: K,
}

/// The calls of an entry.
impl<K: Bits, V: Bits> MapPass<K, V> {
    /// A key, with what to do if it is there and if it isn't. It makes no call.
    ///
    /// ```
    /// # use vbr::{Map, Shape};
    /// let mut handle = Map::handles_with(Shape::for_keys(8, 1), &[(5, 70)])?.remove(0);
    /// assert_eq!(handle.entry(5).or_insert(0)?, 70);
    /// assert_eq!(handle.entry(6).or_insert(80)?, 80);
    /// # Ok::<(), Box<dyn std::error::Error>>(())
    /// ```
    #[inline]
    pub fn entry(&mut self, key: K) -> Entry<'_, K, V> {
        Entry { pass: self, key }
    }
}

impl<'p, K: Bits, V: Bits> Entry<'p, K, V> {
    /// The key.
    ///
    /// ```
    /// # use vbr::{Map, Shape};
    /// let mut handle = Map::<u64, u64>::handles(Shape::for_keys(8, 1))?.remove(0);
    /// assert_eq!(handle.entry(5).key(), 5);
    /// # Ok::<(), vbr::OpenError>(())
    /// ```
    #[must_use]
    #[inline]
    pub fn key(&self) -> K {
        self.key
    }

    /// Inserts the key with this value if it is absent, and returns the value that it has: this one, or the one that was
    /// there. It is one call, [`get_or_insert`](crate::MapPass::get_or_insert), with the budget of the handle.
    ///
    /// ```
    /// # use vbr::{Map, Shape};
    /// let mut handle = Map::handles(Shape::for_keys(8, 1))?.remove(0);
    /// assert_eq!(handle.entry(5).or_insert(70)?, 70);
    /// assert_eq!(handle.entry(5).or_insert(71)?, 70);
    /// # Ok::<(), Box<dyn std::error::Error>>(())
    /// ```
    ///
    /// # Errors
    ///
    /// The same as for [`get_or_insert`](crate::MapPass::get_or_insert). No call was made then.
    #[inline]
    pub fn or_insert(self, value: V) -> Result<V, Refusal> {
        Ok(self.pass.get_or_insert(self.key, value)?.unwrap_or(value))
    }

    /// The same with a value that is made if the key is absent. It looks first, so it is one call more; if another thread
    /// inserts the key in between, that thread's value is returned, and what was made is dropped.
    ///
    /// ```
    /// # use vbr::{Map, Shape};
    /// let mut handle = Map::handles_with(Shape::for_keys(8, 1), &[(5, 70)])?.remove(0);
    /// assert_eq!(handle.entry(5).or_insert_with(|| unreachable!())?, 70);
    /// assert_eq!(handle.entry(6).or_insert_with(|| 80)?, 80);
    /// # Ok::<(), Box<dyn std::error::Error>>(())
    /// ```
    ///
    /// # Errors
    ///
    /// The same as for [`get_or_insert`](crate::MapPass::get_or_insert). Nothing was inserted then.
    pub fn or_insert_with(self, make: impl FnOnce() -> V) -> Result<V, Refusal> {
        match self.pass.get(self.key)? {
            Some(value) => Ok(value),
            None => self.or_insert(make()),
        }
    }

    /// The same with a value that is made of the key if that is absent.
    ///
    /// ```
    /// # use vbr::{Map, Shape};
    /// let mut handle = Map::handles_with(Shape::for_keys(8, 1), &[(5, 70)])?.remove(0);
    /// assert_eq!(handle.entry(5).or_insert_with_key(|key| key * 10)?, 70);
    /// assert_eq!(handle.entry(6).or_insert_with_key(|key| key * 10)?, 60);
    /// # Ok::<(), Box<dyn std::error::Error>>(())
    /// ```
    ///
    /// # Errors
    ///
    /// The same as for [`get_or_insert`](crate::MapPass::get_or_insert). Nothing was inserted then.
    pub fn or_insert_with_key(self, make: impl FnOnce(K) -> V) -> Result<V, Refusal> {
        let key = self.key;
        self.or_insert_with(|| make(key))
    }

    /// The same with the default value.
    ///
    /// ```
    /// # use vbr::{Map, Shape};
    /// let mut handle = Map::handles(Shape::for_keys(8, 1))?.remove(0);
    /// let value: u64 = handle.entry(5).or_default()?;
    /// assert_eq!(value, 0);
    /// # Ok::<(), Box<dyn std::error::Error>>(())
    /// ```
    ///
    /// # Errors
    ///
    /// The same as for [`get_or_insert`](crate::MapPass::get_or_insert). No call was made then.
    #[inline]
    pub fn or_default(self) -> Result<V, Refusal>
    where
        V: Default,
    {
        self.or_insert(V::default())
    }

    /// Says what becomes of the value if the key is there. It is done once you say what to insert, so no thread comes in
    /// between: of two that count a new word at the same time one inserts it, and the other counts on.
    ///
    /// ```
    /// # use vbr::{Map, Shape};
    /// let mut handle = Map::handles(Shape::for_keys(8, 1))?.remove(0);
    /// assert_eq!(handle.entry(5).and_modify(|count| *count += 1).or_insert(1)?, 1);
    /// assert_eq!(handle.entry(5).and_modify(|count| *count += 1).or_insert(1)?, 2);
    /// # Ok::<(), Box<dyn std::error::Error>>(())
    /// ```
    #[inline]
    pub fn and_modify<F: FnMut(&mut V)>(self, modify: F) -> ModifiedEntry<'p, K, V, F> {
        ModifiedEntry { entry: self, modify }
    }
}

/// A key of a map, with what becomes of its value if it is there, as [`Entry::and_modify`] says it.
///
/// ```
/// # use vbr::{Map, Shape};
/// let mut handle = Map::handles_with(Shape::for_keys(8, 1), &[(5, 70)])?.remove(0);
/// let modified = handle.entry(5).and_modify(|value| *value *= 2); // nothing is done yet
/// assert_eq!(modified.or_insert(1)?, 140);
/// # Ok::<(), Box<dyn std::error::Error>>(())
/// ```
#[must_use = "nothing is done before it is said what to insert"]
pub struct ModifiedEntry<'p, K, V, F> {
    entry: Entry<'p, K, V>,
    modify: F,
}

impl<K: Bits, V: Bits, F: FnMut(&mut V)> ModifiedEntry<'_, K, V, F> {
    /// Changes the value of the key if it is there, and inserts the key with this value if it is absent. It returns the value
    /// that the key then has.
    ///
    /// No change is lost. If another comes in between, the closure is called again, with the value that it left. Each call
    /// that it takes has the budget of the handle.
    ///
    /// ```
    /// # use vbr::{Map, Shape};
    /// let mut handle = Map::handles_with(Shape::for_keys(8, 1), &[(5, 70)])?.remove(0);
    /// assert_eq!(handle.entry(5).and_modify(|value| *value += 1).or_insert(1)?, 71);
    /// assert_eq!(handle.entry(6).and_modify(|value| *value += 1).or_insert(1)?, 1);
    /// # Ok::<(), Box<dyn std::error::Error>>(())
    /// ```
    ///
    /// # Errors
    ///
    /// The same as for [`compare_exchange`](crate::MapPass::compare_exchange) and
    /// [`get_or_insert`](crate::MapPass::get_or_insert). Nothing was changed then.
    #[inline]
    pub fn or_insert(self, value: V) -> Result<V, Refusal> {
        self.or_insert_with(|| value)
    }

    /// The same with the default value.
    ///
    /// ```
    /// # use vbr::{Map, Shape};
    /// let mut handle = Map::<u64, u64>::handles(Shape::for_keys(8, 1))?.remove(0);
    /// assert_eq!(handle.entry(5).and_modify(|value| *value += 1).or_default()?, 0);
    /// assert_eq!(handle.entry(5).and_modify(|value| *value += 1).or_default()?, 1);
    /// # Ok::<(), Box<dyn std::error::Error>>(())
    /// ```
    ///
    /// # Errors
    ///
    /// The same as for [`ModifiedEntry::or_insert`]. Nothing was changed then.
    #[inline]
    pub fn or_default(self) -> Result<V, Refusal>
    where
        V: Default,
    {
        self.or_insert_with(V::default)
    }

    /// The same with a value that is made if the key is absent, once at most.
    ///
    /// ```
    /// # use vbr::{Map, Shape};
    /// let mut handle = Map::handles_with(Shape::for_keys(8, 1), &[(5, 70)])?.remove(0);
    /// assert_eq!(handle.entry(5).and_modify(|value| *value += 1).or_insert_with(|| unreachable!())?, 71);
    /// # Ok::<(), Box<dyn std::error::Error>>(())
    /// ```
    ///
    /// # Errors
    ///
    /// The same as for [`ModifiedEntry::or_insert`]. Nothing was changed then.
    #[inline]
    pub fn or_insert_with(self, make: impl FnOnce() -> V) -> Result<V, Refusal> {
        let ModifiedEntry { entry: Entry { pass, key }, mut modify } = self;
        let absent = LazyCell::new(make);
        let change = |seen: Option<V>| {
            Change::Put(match seen {
                None => *absent,
                Some(mut value) => {
                    modify(&mut value);
                    value
                }
            })
        };
        match pass.change_within(key, change, pass.steps())?.1 {
            Change::Put(value) => Ok(value),
            Change::Keep | Change::Remove => Ok(*absent), // it isn't asked for
        }
    }

    /// The same with a value that is made of the key if that is absent, once at most.
    ///
    /// ```
    /// # use vbr::{Map, Shape};
    /// let mut handle = Map::handles_with(Shape::for_keys(8, 1), &[(5, 70)])?.remove(0);
    /// assert_eq!(handle.entry(6).and_modify(|value| *value += 1).or_insert_with_key(|key| key * 10)?, 60);
    /// assert_eq!(handle.entry(6).and_modify(|value| *value += 1).or_insert_with_key(|key| key * 10)?, 61);
    /// # Ok::<(), Box<dyn std::error::Error>>(())
    /// ```
    ///
    /// # Errors
    ///
    /// The same as for [`ModifiedEntry::or_insert`]. Nothing was changed then.
    pub fn or_insert_with_key(self, make: impl FnOnce(K) -> V) -> Result<V, Refusal> {
        let key = self.entry.key;
        self.or_insert_with(|| make(key))
    }
}

impl<K: Bits, V: Bits> fmt::Debug for Entry<'_, K, V> {
    fn fmt(&self, f: &mut fmt::Formatter<'_>) -> fmt::Result {
        f.debug_struct("Entry").field("key", &self.key).finish_non_exhaustive()
    }
}

impl<K: Bits, V: Bits, F> fmt::Debug for ModifiedEntry<'_, K, V, F> {
    fn fmt(&self, f: &mut fmt::Formatter<'_>) -> fmt::Result {
        f.debug_struct("ModifiedEntry").field("key", &self.entry.key).finish_non_exhaustive()
    }
}

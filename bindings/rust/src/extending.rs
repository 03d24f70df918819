//! Batches of calls that change a set or a map, which say how far they came.
use crate::library::TOGETHER;
use crate::{Bits, Entries, Keys, Kind, PassOf, Refusal};
use core::error::Error;
use core::fmt;

/// Where a batch stopped before its end, and why. What was done before stays done, and nothing was done after.
///
/// A program that mends the reason goes on with what is left: of a slice `items` with `&items[stopped.done..]`; of an iterator
/// with `stopped.item` and the rest, which the iterator has if the batch borrowed it. `?` makes a [`Refusal`] of it.
///
/// ```
/// # use vbr::{Refusal, Set, Shape};
/// let set = Set::open_with(Shape::new(3, 2, 100), &[5])?;
/// let keys = [4, 5, 6, 7, 8];
/// let stopped = set.lend_wait().insert_all(&keys).unwrap_err();
/// assert_eq!((stopped.done, stopped.added), (3, 2));
/// assert_eq!((stopped.item, stopped.refusal), (7, Refusal::NoSlot));
/// set.renew(Shape::for_keys(8, 1))?;
/// assert_eq!(set.lend_wait().insert_all(&keys[stopped.done..])?, 2);
/// # Ok::<(), Box<dyn std::error::Error>>(())
/// ```
#[derive(Clone, Copy, Debug, PartialEq, Eq, Hash)]
#[non_exhaustive]
pub struct Stopped<I = u64> {
    /// How many items were dealt with before: each has its key in the set or the map.
    pub done: usize,
    /// How many of their keys were absent.
    pub added: usize,
    /// The item whose call was refused, and made no call.
    pub item: I,
    /// Why it was refused.
    pub refusal: Refusal,
}

/// How far a batch has come.
#[derive(Default)]
struct Progress {
    done: usize,
    added: usize,
}

impl Progress {
    /// Counts an item whose call answered so.
    #[inline]
    fn count<I>(&mut self, item: I, told: Result<bool, Refusal>) -> Result<(), Stopped<I>> {
        let &mut Progress { done, added } = self;
        let was_absent = told.map_err(|refusal| Stopped { done, added, item, refusal })?;
        *self = Progress { done: done + 1, added: added + usize::from(was_absent) };
        Ok(())
    }
}

/// From so many slots on a table is taken to be larger than the cache of a core.
const LARGE: u32 = 1 << 17;

/// Batches of calls that change a set or a map.
impl<T: Kind> PassOf<T> {
    /// Puts all that an iterator gives into the set, as `Extend` does for `HashSet` and `HashMap`, and returns how many keys were
    /// absent: by [`insert`](crate::Pass::insert) into a set, and by [`put`](crate::MapPass::put) into a map, in which the last
    /// value of a key stays. Each is a call of its own, with the budget of the handle.
    ///
    /// [`insert_all`](crate::Pass::insert_all), [`try_insert_all`](crate::MapPass::try_insert_all) and
    /// [`put_all`](crate::MapPass::put_all) are quicker in a large set or map.
    ///
    /// ```
    /// # use vbr::{Refusal, Set, Shape};
    /// let mut handle = Set::handles(Shape::new(3, 2, 100))?.remove(0);
    /// assert_eq!(handle.try_extend([5, 6, 5])?, 2);
    /// let mut keys = 6..10;
    /// let stopped = handle.try_extend(&mut keys).unwrap_err(); // the set has room for 7, and none for 8
    /// assert_eq!((stopped.added, stopped.item, stopped.refusal), (1, 8, Refusal::NoSlot));
    /// assert_eq!(keys.next(), Some(9));
    /// # Ok::<(), Box<dyn std::error::Error>>(())
    /// ```
    ///
    /// ```
    /// # use vbr::{Map, Shape};
    /// let mut handle = Map::handles(Shape::for_keys(8, 1))?.remove(0);
    /// assert_eq!(handle.try_extend([(5, 70), (6, 60), (5, 71)])?, 2);
    /// assert_eq!(handle.get(5)?, Some(71));
    /// # Ok::<(), Box<dyn std::error::Error>>(())
    /// ```
    ///
    /// # Errors
    ///
    /// [`Stopped`], with the item whose call was refused.
    pub fn try_extend(&mut self, items: impl IntoIterator<Item = T::Item>) -> Result<usize, Stopped<T::Item>> {
        let mut progress = Progress::default();
        for item in items {
            progress.count(item, T::put(self, item))?;
        }
        Ok(progress.added)
    }

    /// Makes a call for each of the items, which is given whether the key was there before, as far as that is known. In a large
    /// table the keys are looked up first, some at a time, so that the words which the calls want come from memory together.
    #[inline]
    fn each<I: Copy>(
        &mut self,
        items: &[I],
        key: impl Fn(I) -> T::Key,
        call: impl Fn(&mut Self, I, bool) -> Result<bool, Refusal>,
    ) -> Result<usize, Stopped<I>> {
        let (is_large, mut progress, mut keys) = (self.slots() >= LARGE, Progress::default(), [0; TOGETHER]);
        for items in items.chunks(TOGETHER) {
            let mut there = [Ok(false); TOGETHER];
            if is_large {
                keys.iter_mut().zip(items).for_each(|(bits, &item)| *bits = key(item).to_bits());
                self.has_each(&keys[..items.len()], &mut there[..items.len()], self.steps());
            }
            for (&item, there) in items.iter().zip(there) {
                progress.count(item, call(self, item, there == Ok(true)))?;
            }
        }
        Ok(progress.added)
    }
}

/// Batches of sets alone.
impl<K: Bits> PassOf<Keys<K>> {
    /// Inserts keys in their order, as [`insert`](crate::Pass::insert) does, and returns how many were absent. Each is a call of its
    /// own, with the budget of the handle.
    ///
    /// In a set of 131,072 slots or more the keys are looked up first, 64 at a time, as [`PassOf::has_all`] does, so that they wait
    /// for memory together, and those that are there aren't inserted. With random keys and a million in the set that took about
    /// 0.4 of the time of as many inserts.
    ///
    /// ```
    /// # use vbr::{Set, Shape};
    /// let mut handle = Set::handles_with(Shape::for_keys(8, 1), &[5])?.remove(0);
    /// assert_eq!(handle.insert_all(&[4, 5, 6, 4])?, 2);
    /// # Ok::<(), Box<dyn std::error::Error>>(())
    /// ```
    ///
    /// # Errors
    ///
    /// [`Stopped`], with the key whose insert was refused.
    pub fn insert_all(&mut self, keys: &[K]) -> Result<usize, Stopped<K>> {
        self.each(keys, |key| key, |pass, key, there| if there { Ok(false) } else { pass.insert(key) })
    }
}

/// Batches of maps alone.
impl<K: Bits, V: Bits> PassOf<Entries<K, V>> {
    /// Inserts entries in their order whose keys are absent, as [`try_insert`](crate::MapPass::try_insert) does, and returns how many
    /// were. A key that is there keeps its value. Each is a call of its own, with the budget of the handle.
    ///
    /// In a map of 131,072 slots or more the keys are looked up first, as [`insert_all`](crate::Pass::insert_all) of a set does.
    ///
    /// ```
    /// # use vbr::{Map, Shape};
    /// let mut handle = Map::handles_with(Shape::for_keys(8, 1), &[(5, 70)])?.remove(0);
    /// assert_eq!(handle.try_insert_all(&[(4, 40), (5, 71), (4, 41)])?, 1);
    /// assert_eq!(handle.close()?.expect("the only handle").entries, [(4, 40), (5, 70)]);
    /// # Ok::<(), Box<dyn std::error::Error>>(())
    /// ```
    ///
    /// # Errors
    ///
    /// [`Stopped`], with the entry whose insert was refused.
    pub fn try_insert_all(&mut self, entries: &[(K, V)]) -> Result<usize, Stopped<(K, V)>> {
        let insert = |pass: &mut Self, (key, value), there| if there { Ok(false) } else { pass.try_insert(key, value) };
        self.each(entries, |(key, _)| key, insert)
    }

    /// Gives keys values in their order, as [`put`](crate::MapPass::put) does, and returns how many of them were absent. Each is a
    /// call of its own, with the budget of the handle.
    ///
    /// In a map of 131,072 slots or more the keys are looked up first, 64 at a time, so that they wait for memory together.
    ///
    /// ```
    /// # use vbr::{Map, Shape};
    /// let mut handle = Map::handles_with(Shape::for_keys(8, 1), &[(5, 70)])?.remove(0);
    /// assert_eq!(handle.put_all(&[(4, 40), (5, 71), (4, 41)])?, 1);
    /// assert_eq!(handle.close()?.expect("the only handle").entries, [(4, 41), (5, 71)]);
    /// # Ok::<(), Box<dyn std::error::Error>>(())
    /// ```
    ///
    /// # Errors
    ///
    /// [`Stopped`], with the entry whose put was refused.
    pub fn put_all(&mut self, entries: &[(K, V)]) -> Result<usize, Stopped<(K, V)>> {
        self.each(entries, |(key, _)| key, |pass, (key, value), _| Ok(pass.put(key, value)?.is_none()))
    }
}

impl<I> From<Stopped<I>> for Refusal {
    fn from(stopped: Stopped<I>) -> Refusal {
        stopped.refusal
    }
}

impl<I> fmt::Display for Stopped<I> {
    fn fmt(&self, f: &mut fmt::Formatter<'_>) -> fmt::Result {
        write!(f, "after {} items {}", self.done, self.refusal)
    }
}

impl<I: fmt::Debug> Error for Stopped<I> {}

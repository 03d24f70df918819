//! Calls of maps that do one thing or another, depending on what is there.
// tools/interface makes this file of bindings/interface/changing.rs.in.
use crate::library::{
    compared, looked_up, updated, vbr_map_compare_exchange_within, vbr_map_fetch_add_within, vbr_map_get_or_insert_within,
    vbr_map_put_within, vbr_map_remove_if_within, vbr_map_replace_within, with_value,
};
use crate::{order, Bits, Cursor, Entries, OutOfSteps, PassOf, Refusal, Steps};
use core::fmt::Debug;
use core::iter::FusedIterator;

/// What is to become of a key, as the closure of [`compute`](PassOf::compute) says it.
///
/// ```
/// # use vbr::{Change, MapPass, Refusal};
/// /// Takes a token out of a bucket that was filled, and the bucket out of the map with its last one.
/// fn take_token(buckets: &mut MapPass, client: u64) -> Result<bool, Refusal> {
///     let before = buckets.compute(client, |tokens| match tokens {
///         None => Change::Keep,
///         Some(1) => Change::Remove,
///         Some(tokens) => Change::Put(tokens - 1),
///     })?;
///     Ok(before.is_some())
/// }
/// # let mut buckets = vbr::Map::handles_with(vbr::Shape::for_keys(8, 1), &[(5, 2)])?.remove(0);
/// # assert!(take_token(&mut buckets, 5)? && take_token(&mut buckets, 5)? && !take_token(&mut buckets, 5)?);
/// # Ok::<(), Box<dyn std::error::Error>>(())
/// ```
#[derive(Clone, Copy, Debug, PartialEq, Eq, Hash)]
pub enum Change<V = u64> {
    /// It stays as it is, there or not.
    Keep,
    /// It gets this value, and is inserted if it is absent.
    Put(V),
    /// It is taken out if it is there.
    Remove,
}

/// What a call did that changes an entry only if it has an expected value.
///
/// ```
/// # use vbr::{Compared, MapPass, OutOfSteps};
/// /// Takes a page out of an index, unless it has come into another frame.
/// fn evict(index: &mut MapPass, page: u64, frame: u64) -> Result<bool, OutOfSteps> {
///     Ok(match index.remove_if(page, frame)? {
///         Compared::Equal => true,
///         Compared::Other(_) | Compared::Absent => false,
///     })
/// }
/// # let mut index = vbr::Map::handles_with(vbr::Shape::for_keys(8, 1), &[(5, 70)])?.remove(0);
/// # assert!(!evict(&mut index, 5, 71)? && evict(&mut index, 5, 70)? && !evict(&mut index, 5, 70)?);
/// # Ok::<(), Box<dyn std::error::Error>>(())
/// ```
#[derive(Clone, Copy, Debug, PartialEq, Eq, Hash)]
#[must_use = "the entry may be as it was"]
pub enum Compared<V = u64> {
    /// The key was there with the expected value. It has the new one, or is taken out.
    Equal,
    /// The key is there with this value. Nothing was changed.
    Other(V),
    /// The key is absent. Nothing was changed.
    Absent,
}

impl Compared {
    /// The same for the value that has the bits.
    #[inline]
    fn typed<V: Bits>(self) -> Compared<V> {
        match self {
            Compared::Equal => Compared::Equal,
            Compared::Other(bits) => Compared::Other(V::from_bits(bits)),
            Compared::Absent => Compared::Absent,
        }
    }
}

/// The calls of maps that do one thing or another, depending on what is there, each at one moment.
///
/// A call that gives a key another value is, in the history, a remove of the old value and an insert of the new one, next to
/// each other. One that changed nothing is a look-up.
///
/// A new value takes a slot before the slot of the old one is free, so these calls want one slot more than there are keys. The
/// 64 of the handle in [`Shape`](crate::Shape) cover that.
impl<K: Bits, V: Bits> PassOf<Entries<K, V>> {
    /// Gives a key that is there another value, so that no call finds it absent meanwhile.
    ///
    /// Returns the value that it had if the key was there, and has the new value; `None` if it was absent, and nothing was
    /// changed. After `Some` it leaves the new value in a slot that it took. The old value has given its own back.
    ///
    /// As many steps as for [`try_insert`](crate::MapPass::try_insert) are enough.
    ///
    /// ```
    /// # use vbr::{Map, Shape};
    /// let mut handle = Map::handles_with(Shape::for_keys(8, 1), &[(5, 70)])?.remove(0);
    /// assert_eq!(handle.replace(5, 71)?, Some(70));
    /// assert_eq!(handle.replace(6, 71)?, None);
    /// assert_eq!((handle.get(5)?, handle.get(6)?), (Some(71), None));
    /// # Ok::<(), Box<dyn std::error::Error>>(())
    /// ```
    ///
    /// # Errors
    ///
    /// - [`Refusal::Held`] and [`Refusal::OutOfSteps`].
    /// - [`Refusal::NoSlot`] and [`Refusal::EpochSpent`]: the key was there at a moment.
    ///
    /// No call was made then.
    #[inline]
    pub fn replace(&mut self, key: K, value: V) -> Result<Option<V>, Refusal> {
        self.replace_within(key, value, self.steps())
    }

    /// As [`PassOf::replace`], with a budget of its own.
    ///
    /// ```
    /// # use vbr::{Map, Refusal, Shape, Steps};
    /// let mut handle = Map::handles_with(Shape::for_keys(8, 1), &[(5, 70)])?.remove(0);
    /// assert_eq!(handle.replace_within(5, 71, Steps::new(1)), Err(Refusal::OutOfSteps));
    /// # Ok::<(), Box<dyn std::error::Error>>(())
    /// ```
    ///
    /// # Errors
    ///
    /// The same as for [`PassOf::replace`].
    #[inline]
    pub fn replace_within(&mut self, key: K, value: V, steps: Steps) -> Result<Option<V>, Refusal> {
        let (key, value) = (key.to_bits(), value.to_bits());
        with_value(updated, |found| {
            // SAFETY: `&mut` is exclusive, and nothing else has what is found.
            order::changes(key, || unsafe { vbr_map_replace_within(self.raw(), key, value, found, steps.count()) })
        })
    }

    /// Gives a key this value, whether it is there or not.
    ///
    /// Returns the value that it had if the key was there, and has the new value; `None` if it was absent, and is inserted.
    /// It leaves what [`replace`](crate::MapPass::replace) leaves, or after `None` what
    /// [`try_insert`](crate::MapPass::try_insert) leaves when it adds a key.
    ///
    /// As many steps as for [`try_insert`](crate::MapPass::try_insert) are enough.
    ///
    /// It is what `HashMap::insert` does.
    ///
    /// ```
    /// # use vbr::{Map, Shape};
    /// let mut handle = Map::handles(Shape::for_keys(8, 1))?.remove(0);
    /// assert_eq!(handle.put(5, 70)?, None);
    /// assert_eq!(handle.put(5, 71)?, Some(70));
    /// assert_eq!(handle.get(5)?, Some(71));
    /// # Ok::<(), Box<dyn std::error::Error>>(())
    /// ```
    ///
    /// # Errors
    ///
    /// [`Refusal::Held`], [`Refusal::OutOfSteps`], [`Refusal::NoSlot`] and [`Refusal::EpochSpent`]. No call was made then.
    #[inline]
    pub fn put(&mut self, key: K, value: V) -> Result<Option<V>, Refusal> {
        self.put_within(key, value, self.steps())
    }

    /// As [`PassOf::put`], with a budget of its own.
    ///
    /// ```
    /// # use vbr::{Map, Refusal, Shape, Steps};
    /// let mut handle = Map::handles(Shape::for_keys(8, 1))?.remove(0);
    /// assert_eq!(handle.put_within(5, 70, Steps::new(1)), Err(Refusal::OutOfSteps));
    /// # Ok::<(), Box<dyn std::error::Error>>(())
    /// ```
    ///
    /// # Errors
    ///
    /// The same as for [`PassOf::put`].
    #[inline]
    pub fn put_within(&mut self, key: K, value: V, steps: Steps) -> Result<Option<V>, Refusal> {
        let (key, value) = (key.to_bits(), value.to_bits());
        with_value(updated, |found| {
            // SAFETY: as for `replace_within`.
            order::changes(key, || unsafe { vbr_map_put_within(self.raw(), key, value, found, steps.count()) })
        })
    }

    /// Gives the value of a key, or inserts the key with this one: a get or an insert, in one call.
    ///
    /// Returns the value that it has if the key is there, and keeps its value; `None` if it was absent, and is inserted.
    /// After `None` it leaves what [`try_insert`](crate::MapPass::try_insert) leaves when it adds a key.
    ///
    /// As many steps as for [`try_insert`](crate::MapPass::try_insert) are enough.
    ///
    /// [`MapPass::entry`](PassOf::entry) is another way to say so.
    ///
    /// ```
    /// # use vbr::{Map, Shape};
    /// let mut handle = Map::handles(Shape::for_keys(8, 1))?.remove(0);
    /// assert_eq!(handle.get_or_insert(5, 70)?, None);
    /// assert_eq!(handle.get_or_insert(5, 71)?, Some(70));
    /// # Ok::<(), Box<dyn std::error::Error>>(())
    /// ```
    ///
    /// # Errors
    ///
    /// - [`Refusal::Held`] and [`Refusal::OutOfSteps`].
    /// - [`Refusal::NoSlot`] and [`Refusal::EpochSpent`]: the key is absent.
    ///
    /// No call was made then.
    #[inline]
    pub fn get_or_insert(&mut self, key: K, value: V) -> Result<Option<V>, Refusal> {
        self.get_or_insert_within(key, value, self.steps())
    }

    /// As [`PassOf::get_or_insert`], with a budget of its own.
    ///
    /// ```
    /// # use vbr::{Map, Refusal, Shape, Steps};
    /// let mut handle = Map::handles(Shape::for_keys(8, 1))?.remove(0);
    /// assert_eq!(handle.get_or_insert_within(5, 70, Steps::new(1)), Err(Refusal::OutOfSteps));
    /// # Ok::<(), Box<dyn std::error::Error>>(())
    /// ```
    ///
    /// # Errors
    ///
    /// The same as for [`PassOf::get_or_insert`].
    #[inline]
    pub fn get_or_insert_within(&mut self, key: K, value: V, steps: Steps) -> Result<Option<V>, Refusal> {
        let (key, value) = (key.to_bits(), value.to_bits());
        with_value(updated, |found| {
            // SAFETY: as for `replace_within`.
            order::finds_or_adds(key, || unsafe {
                vbr_map_get_or_insert_within(self.raw(), key, value, found, steps.count())
            })
        })
    }

    /// Gives a key another value if it has the one that is expected.
    ///
    /// Returns [`Compared::Equal`] if the key had the expected value, and has the new one; [`Compared::Other`] if it is there
    /// with another value, and nothing was changed; [`Compared::Absent`] if it is absent, and nothing was changed. After
    /// [`Compared::Equal`] it leaves what [`replace`](crate::MapPass::replace) leaves; else it is a look-up.
    ///
    /// A value that is computed from the one found is stored so, and no other thread's is lost. Two more steps than for
    /// [`try_insert`](crate::MapPass::try_insert) are enough.
    ///
    /// Values are compared by their bits.
    ///
    /// ```
    /// # use vbr::{Compared, Map, Shape};
    /// let mut handle = Map::handles_with(Shape::for_keys(8, 1), &[(5, 70)])?.remove(0);
    /// assert_eq!(handle.compare_exchange(5, 70, 71)?, Compared::Equal);
    /// assert_eq!(handle.compare_exchange(5, 70, 72)?, Compared::Other(71));
    /// assert_eq!(handle.compare_exchange(6, 70, 72)?, Compared::Absent);
    /// # Ok::<(), Box<dyn std::error::Error>>(())
    /// ```
    ///
    /// # Errors
    ///
    /// - [`Refusal::Held`] and [`Refusal::OutOfSteps`].
    /// - [`Refusal::NoSlot`] and [`Refusal::EpochSpent`]: the key had the expected value at a moment.
    ///
    /// No call was made then.
    #[inline]
    pub fn compare_exchange(&mut self, key: K, expected: V, value: V) -> Result<Compared<V>, Refusal> {
        self.compare_exchange_within(key, expected, value, self.steps())
    }

    /// As [`PassOf::compare_exchange`], with a budget of its own.
    ///
    /// ```
    /// # use vbr::{Map, Refusal, Shape, Steps};
    /// let mut handle = Map::handles_with(Shape::for_keys(8, 1), &[(5, 70)])?.remove(0);
    /// assert_eq!(handle.compare_exchange_within(5, 70, 71, Steps::new(1)), Err(Refusal::OutOfSteps));
    /// # Ok::<(), Box<dyn std::error::Error>>(())
    /// ```
    ///
    /// # Errors
    ///
    /// The same as for [`PassOf::compare_exchange`].
    #[inline]
    pub fn compare_exchange_within(&mut self, key: K, expected: V, value: V, steps: Steps) -> Result<Compared<V>, Refusal> {
        Ok(self.exchange_bits_within(key, expected.to_bits(), value, steps)?.typed())
    }

    /// The same, with the value that was seen expected by its bits: a loop that expects these ends, whatever bits its type
    /// makes of the value.
    #[inline]
    pub(crate) fn exchange_bits_within(
        &mut self,
        key: K,
        expected: u64,
        value: V,
        steps: Steps,
    ) -> Result<Compared, Refusal> {
        let (key, value) = (key.to_bits(), value.to_bits());
        compared(updated, |found| {
            order::changes(key, || {
                // SAFETY: as for `replace_within`.
                unsafe { vbr_map_compare_exchange_within(self.raw(), key, expected, value, found, steps.count()) }
            })
        })
    }

    /// Takes a key out if it has the value that is expected.
    ///
    /// Returns [`Compared::Equal`] if the key had the expected value, and is taken out; [`Compared::Other`] if it is there
    /// with another value, and nothing was changed; [`Compared::Absent`] if it is absent, and nothing was changed. After
    /// [`Compared::Equal`] it leaves what [`remove`](crate::MapPass::remove) leaves; else it is a look-up.
    ///
    /// As many steps as for [`remove`](crate::MapPass::remove) are enough.
    ///
    /// Values are compared by their bits.
    ///
    /// ```
    /// # use vbr::{Compared, Map, Shape};
    /// let mut handle = Map::handles_with(Shape::for_keys(8, 1), &[(5, 70)])?.remove(0);
    /// assert_eq!(handle.remove_if(5, 71)?, Compared::Other(70));
    /// assert_eq!(handle.remove_if(5, 70)?, Compared::Equal);
    /// assert_eq!(handle.remove_if(5, 70)?, Compared::Absent);
    /// # Ok::<(), Box<dyn std::error::Error>>(())
    /// ```
    ///
    /// # Errors
    ///
    /// [`OutOfSteps`]. No call was made then.
    #[inline]
    pub fn remove_if(&mut self, key: K, expected: V) -> Result<Compared<V>, OutOfSteps> {
        self.remove_if_within(key, expected, self.steps())
    }

    /// As [`PassOf::remove_if`], with a budget of its own.
    ///
    /// ```
    /// # use vbr::{Map, OutOfSteps, Shape, Steps};
    /// let mut handle = Map::handles_with(Shape::for_keys(8, 1), &[(5, 70)])?.remove(0);
    /// assert_eq!(handle.remove_if_within(5, 70, Steps::new(1)), Err(OutOfSteps));
    /// # Ok::<(), Box<dyn std::error::Error>>(())
    /// ```
    ///
    /// # Errors
    ///
    /// The same as for [`PassOf::remove_if`].
    #[inline]
    pub fn remove_if_within(&mut self, key: K, expected: V, steps: Steps) -> Result<Compared<V>, OutOfSteps> {
        Ok(self.remove_bits_within(key, expected.to_bits(), steps)?.typed())
    }

    /// The same, with the value that was seen expected by its bits.
    #[inline]
    fn remove_bits_within(&mut self, key: K, expected: u64, steps: Steps) -> Result<Compared, OutOfSteps> {
        let key = key.to_bits();
        compared(looked_up, |found| {
            // SAFETY: as for `replace_within`.
            order::removes(key, || unsafe { vbr_map_remove_if_within(self.raw(), key, expected, found, steps.count()) })
        })
    }

    /// Does with a key what a function says of the value that it has, or of none, and returns that value.
    ///
    /// The change is made only if the key still has what the function was given. Else it is called again, with what is there
    /// then. So each call on a key is given what the one before it left, and no change is lost.
    ///
    /// The function is `change`, and a key that is absent has `None`. Each call that it takes has the budget of the handle: a look-up first,
    /// and then one for each time that `change` is asked and doesn't keep the key as it is.
    ///
    /// ```
    /// # use vbr::{Change, Map, Shape};
    /// let mut handle = Map::handles(Shape::for_keys(8, 1))?.remove(0);
    /// let one_more = |count: Option<u64>| Change::Put(count.unwrap_or(0) + 1);
    /// assert_eq!(handle.compute(5, one_more)?, None);
    /// assert_eq!(handle.compute(5, one_more)?, Some(1));
    /// assert_eq!(handle.compute(5, |_| Change::Keep)?, Some(2));
    /// assert_eq!(handle.compute(5, |_| Change::Remove)?, Some(2));
    /// assert_eq!(handle.get(5)?, None);
    /// # Ok::<(), Box<dyn std::error::Error>>(())
    /// ```
    ///
    /// # Errors
    ///
    /// [`Refusal::OutOfSteps`], and, if `change` said [`Change::Put`], [`Refusal::NoSlot`] and [`Refusal::EpochSpent`]. Nothing
    /// was changed then.
    #[inline]
    pub fn compute(&mut self, key: K, change: impl FnMut(Option<V>) -> Change<V>) -> Result<Option<V>, Refusal> {
        self.compute_within(key, change, self.steps())
    }

    /// As [`PassOf::compute`], each of whose calls has this budget.
    ///
    /// ```
    /// # use vbr::{Change, Map, Refusal, Shape, Steps};
    /// let mut handle = Map::handles(Shape::for_keys(8, 1))?.remove(0);
    /// assert_eq!(handle.compute_within(5, |_| Change::Put(70), Steps::new(1)), Err(Refusal::OutOfSteps));
    /// # Ok::<(), Box<dyn std::error::Error>>(())
    /// ```
    ///
    /// # Errors
    ///
    /// The same as for [`PassOf::compute`].
    #[inline]
    pub fn compute_within(
        &mut self,
        key: K,
        change: impl FnMut(Option<V>) -> Change<V>,
        steps: Steps,
    ) -> Result<Option<V>, Refusal> {
        Ok(self.change_within(key, change, steps)?.0)
    }

    /// The same, with the change that was made.
    #[inline]
    pub(crate) fn change_within(
        &mut self,
        key: K,
        mut change: impl FnMut(Option<V>) -> Change<V>,
        steps: Steps,
    ) -> Result<(Option<V>, Change<V>), Refusal> {
        let mut seen = self.bits_within(key, steps)?;
        loop {
            let before = seen.map(V::from_bits);
            let made = change(before);
            let told = match (made, seen) {
                (Change::Keep, _) | (Change::Remove, None) => Compared::Equal,
                (Change::Remove, Some(bits)) => self.remove_bits_within(key, bits, steps)?,
                (Change::Put(value), Some(bits)) => self.exchange_bits_within(key, bits, value, steps)?,
                // if other bits are there, the next exchange returns them
                (Change::Put(value), None) => self
                    .get_or_insert_within(key, value, steps)?
                    .map_or(Compared::Equal, |there| Compared::Other(there.to_bits())),
            };
            seen = match told {
                Compared::Equal => return Ok((before, made)),
                Compared::Other(now) => Some(now),
                Compared::Absent => None,
            };
        }
    }

    /// Takes a key out if `when` says yes of the value that it has, and returns that value; `None` if the key is absent, or `when`
    /// said no, and then nothing was changed.
    ///
    /// It is taken out only with a value of which `when` said yes: if it has another one meanwhile, `when` is asked again, with
    /// that. Each call that it takes has the budget of the handle.
    ///
    /// ```
    /// # use vbr::{Map, Shape};
    /// let mut logins = Map::handles_with(Shape::for_keys(8, 1), &[(5, 70)])?.remove(0);
    /// assert_eq!(logins.remove_when(5, |until| until < 60)?, None);
    /// assert_eq!(logins.remove_when(5, |until| until < 80)?, Some(70));
    /// assert_eq!(logins.remove_when(5, |_| true)?, None);
    /// # Ok::<(), Box<dyn std::error::Error>>(())
    /// ```
    ///
    /// # Errors
    ///
    /// [`OutOfSteps`]. Nothing was changed then.
    #[inline]
    pub fn remove_when(&mut self, key: K, when: impl FnMut(V) -> bool) -> Result<Option<V>, OutOfSteps> {
        self.remove_when_within(key, when, self.steps())
    }

    /// As [`PassOf::remove_when`], each of whose calls has this budget.
    ///
    /// ```
    /// # use vbr::{Map, OutOfSteps, Shape, Steps};
    /// let mut handle = Map::handles_with(Shape::for_keys(8, 1), &[(5, 70)])?.remove(0);
    /// assert_eq!(handle.remove_when_within(5, |_| true, Steps::new(1)), Err(OutOfSteps));
    /// assert_eq!(handle.remove_when_within(5, |_| true, Steps::new(100)), Ok(Some(70)));
    /// # Ok::<(), Box<dyn std::error::Error>>(())
    /// ```
    ///
    /// # Errors
    ///
    /// The same as for [`PassOf::remove_when`].
    #[inline]
    pub fn remove_when_within(&mut self, key: K, when: impl FnMut(V) -> bool, steps: Steps) -> Result<Option<V>, OutOfSteps> {
        let seen = self.bits_within(key, steps)?;
        self.remove_seen_within(key, seen, when, steps)
    }

    /// The same of a key that was seen with a value of these bits, or absent.
    #[inline]
    fn remove_seen_within(
        &mut self,
        key: K,
        mut seen: Option<u64>,
        mut when: impl FnMut(V) -> bool,
        steps: Steps,
    ) -> Result<Option<V>, OutOfSteps> {
        while let Some(bits) = seen.filter(|&bits| when(V::from_bits(bits))) {
            seen = match self.remove_bits_within(key, bits, steps)? {
                Compared::Equal => return Ok(Some(V::from_bits(bits))),
                Compared::Other(now) => Some(now),
                Compared::Absent => None,
            };
        }
        Ok(None)
    }

    /// Gives a key the value that a function makes of the one that it has, and returns that one; none, and nothing is
    /// changed, if the key is absent or the function makes none. No update of another thread is lost: if one comes in
    /// between, the function is asked again, with the value that it left.
    ///
    /// The function is `update`, and none is `None`. Each call that it takes has the budget of the handle.
    ///
    /// ```
    /// # use vbr::{Map, Shape};
    /// let mut handle = Map::handles_with(Shape::for_keys(8, 1), &[(5, 1_u64)])?.remove(0);
    /// let one_less = |left: u64| left.checked_sub(1);
    /// assert_eq!(handle.fetch_update(5, one_less)?, Some(1));
    /// assert_eq!(handle.fetch_update(5, one_less)?, None); // it is 0, and stays so
    /// assert_eq!(handle.fetch_update(6, one_less)?, None);
    /// assert_eq!(handle.get(5)?, Some(0));
    /// # Ok::<(), Box<dyn std::error::Error>>(())
    /// ```
    ///
    /// # Errors
    ///
    /// The same as for [`compare_exchange`](PassOf::compare_exchange). Nothing was changed then.
    #[inline]
    pub fn fetch_update(&mut self, key: K, update: impl FnMut(V) -> Option<V>) -> Result<Option<V>, Refusal> {
        self.fetch_update_within(key, update, self.steps())
    }

    /// As [`PassOf::fetch_update`], each of whose calls has this budget.
    ///
    /// ```
    /// # use vbr::{Map, Refusal, Shape, Steps};
    /// let mut handle = Map::handles_with(Shape::for_keys(8, 1), &[(5, 1_u64)])?.remove(0);
    /// assert_eq!(handle.fetch_update_within(5, |value| Some(value + 1), Steps::new(1)), Err(Refusal::OutOfSteps));
    /// # Ok::<(), Box<dyn std::error::Error>>(())
    /// ```
    ///
    /// # Errors
    ///
    /// The same as for [`PassOf::fetch_update`].
    #[inline]
    pub fn fetch_update_within(
        &mut self,
        key: K,
        mut update: impl FnMut(V) -> Option<V>,
        steps: Steps,
    ) -> Result<Option<V>, Refusal> {
        let change = |seen: Option<V>| seen.and_then(&mut update).map_or(Change::Keep, Change::Put);
        Ok(match self.change_within(key, change, steps)? {
            (before, Change::Put(_)) => before,
            _ => None,
        })
    }

    /// Goes over all entries while other threads make calls, as [`PassOf::iter`] does, takes out those for which `keep` says no,
    /// and returns how many it took out. Each call that it takes has the budget of the handle.
    ///
    /// An entry is taken out only with a value that `keep` saw, by [`remove_if`](PassOf::remove_if): if it has another one
    /// meanwhile, `keep` is called again, with that.
    ///
    /// ```
    /// # use vbr::{Map, Shape};
    /// let now = 100;
    /// let mut logins = Map::handles_with(Shape::for_keys(8, 1), &[(5, 70), (7, 170)])?.remove(0);
    /// assert_eq!(logins.retain(|_, until| until > now)?, 1);
    /// assert_eq!(logins.close()?.expect("the only handle").entries, [(7, 170)]);
    /// # Ok::<(), Box<dyn std::error::Error>>(())
    /// ```
    ///
    /// # Errors
    ///
    /// [`OutOfSteps`], as for [`PassOf::iter`] or a remove. What was taken out before stays out.
    pub fn retain(&mut self, mut keep: impl FnMut(K, V) -> bool) -> Result<u64, OutOfSteps> {
        let (mut cursor, mut count, steps) = (Cursor::first(), 0, self.steps());
        while let Some((key, value)) = self.walk_on(&mut cursor, steps)? {
            // if other bits are there than the value has, the first remove returns them
            let taken = self.remove_seen_within(key, Some(value.to_bits()), |value| !keep(key, value), steps)?;
            count += u64::from(taken.is_some());
        }
        Ok(count)
    }

    /// Goes over the keys while other threads make calls, as [`PassOf::iter`] does over the entries.
    ///
    /// ```
    /// # use vbr::{Map, Shape};
    /// let handle = Map::handles_with(Shape::for_keys(8, 1), &[(5, 70), (7, 71)])?.remove(0);
    /// assert_eq!(handle.keys().sum::<Result<u64, _>>()?, 12);
    /// # Ok::<(), Box<dyn std::error::Error>>(())
    /// ```
    ///
    /// # Errors
    ///
    /// As an item, as for [`PassOf::iter`].
    pub fn keys(&self) -> impl FusedIterator<Item = Result<K, OutOfSteps>> + Clone + Debug + '_ {
        self.iter().map(|entry| entry.map(|(key, _)| key))
    }

    /// Goes over the values while other threads make calls, as [`PassOf::iter`] does over the entries: of a value that several keys
    /// have it gives each.
    ///
    /// ```
    /// # use vbr::{Map, Shape};
    /// let handle = Map::handles_with(Shape::for_keys(8, 1), &[(5, 70), (7, 71)])?.remove(0);
    /// assert_eq!(handle.values().sum::<Result<u64, _>>()?, 141);
    /// # Ok::<(), Box<dyn std::error::Error>>(())
    /// ```
    ///
    /// # Errors
    ///
    /// As an item, as for [`PassOf::iter`].
    pub fn values(&self) -> impl FusedIterator<Item = Result<V, OutOfSteps>> + Clone + Debug + '_ {
        self.iter().map(|entry| entry.map(|(_, value)| value))
    }
}

/// Counters: values that are numbers.
impl<K: Bits> PassOf<Entries<K, u64>> {
    /// Adds a number modulo 2^64 to the value of a key, or inserts the key with it: a counter, in one call.
    ///
    /// Returns the value that it had if the key was there, and has the sum; `None` if it was absent, and is inserted with
    /// delta. It leaves what [`put`](crate::MapPass::put) leaves.
    ///
    /// No other call comes between the value that it had and the sum, so no addition is lost. Its budget and its cost are
    /// those of a put.
    ///
    /// It is what `AtomicU64::fetch_add` does.
    ///
    /// ```
    /// # use vbr::{Map, Shape};
    /// let mut handle = Map::handles(Shape::for_keys(8, 1))?.remove(0);
    /// assert_eq!(handle.fetch_add(5, 2)?, None);
    /// assert_eq!(handle.fetch_add(5, 3)?, Some(2));
    /// assert_eq!(handle.fetch_add(5, 1_u64.wrapping_neg())?, Some(5));
    /// assert_eq!(handle.get(5)?, Some(4));
    /// # Ok::<(), Box<dyn std::error::Error>>(())
    /// ```
    ///
    /// # Errors
    ///
    /// [`Refusal::Held`], [`Refusal::OutOfSteps`], [`Refusal::NoSlot`] and [`Refusal::EpochSpent`]. No call was made then.
    #[inline]
    pub fn fetch_add(&mut self, key: K, delta: u64) -> Result<Option<u64>, Refusal> {
        self.fetch_add_within(key, delta, self.steps())
    }

    /// As [`PassOf::fetch_add`], with a budget of its own.
    ///
    /// ```
    /// # use vbr::{Map, Refusal, Shape, Steps};
    /// let mut handle = Map::handles(Shape::for_keys(8, 1))?.remove(0);
    /// assert_eq!(handle.fetch_add_within(5, 2, Steps::new(1)), Err(Refusal::OutOfSteps));
    /// # Ok::<(), Box<dyn std::error::Error>>(())
    /// ```
    ///
    /// # Errors
    ///
    /// The same as for [`PassOf::fetch_add`].
    #[inline]
    pub fn fetch_add_within(&mut self, key: K, delta: u64, steps: Steps) -> Result<Option<u64>, Refusal> {
        let key = key.to_bits();
        with_value(updated, |found| {
            // SAFETY: as for `replace_within`.
            order::changes(key, || unsafe { vbr_map_fetch_add_within(self.raw(), key, delta, found, steps.count()) })
        })
    }
}

//! Calls of a set or a map itself, each by a loan that it makes and gives back.
use crate::records::Words;
use crate::{
    max_epoch, Bits, Change, Compared, Entries, Keys, Kind, OutOfSteps, PassOf, Refusal, RenewError, Shape, Table,
    MAX_BUCKETS, MAX_SLOTS,
};

/// How far [`Table::call`] lets a set or a map grow.
///
/// ```
/// # use vbr::{Growth, Map, Refusal, Shape};
/// let map = Map::open_with(Shape::new(2, 2, 100), &[(5, 70), (7, 71)])?;
/// assert_eq!(map.call(Growth::NONE, |mine| mine.put(9, 72)), Err(Refusal::NoSlot));
/// assert_eq!(map.call(Growth::up_to(1_000), |mine| mine.put(9, 72))?, None);
/// assert_eq!(map.slots(), 4);
/// # Ok::<(), Box<dyn std::error::Error>>(())
/// ```
#[derive(Clone, Copy, Debug, PartialEq, Eq, Hash)]
pub struct Growth {
    most_slots: u32,
}

impl Growth {
    /// It stays as large as it is.
    ///
    /// ```
    /// # use vbr::{Growth, Refusal, Set, Shape};
    /// let set = Set::open_with(Shape::new(1, 1, 100), &[5])?;
    /// assert_eq!(set.call(Growth::NONE, |mine| mine.insert(7)), Err(Refusal::NoSlot));
    /// # Ok::<(), Box<dyn std::error::Error>>(())
    /// ```
    pub const NONE: Growth = Growth { most_slots: 0 };

    /// If no slot is found it is given twice as many, and twice as many buckets, up to so many slots; [`MAX_SLOTS`] is the most
    /// that there may be. One that has as many, or more, stays as large as it is.
    ///
    /// ```
    /// # use vbr::Growth;
    /// assert_eq!(Growth::up_to(0), Growth::NONE);
    /// ```
    #[must_use]
    pub const fn up_to(slots: u32) -> Growth {
        Growth { most_slots: if slots < MAX_SLOTS { slots } else { MAX_SLOTS } }
    }

    /// The same, up to so many slots.
    pub(crate) fn within(self, slots: u32) -> Growth {
        Growth { most_slots: self.most_slots.min(slots) }
    }

    /// The shape after a refusal, of a set that has this one; none if another one is of no use.
    fn after(self, refusal: Refusal, shape: Shape) -> Option<Shape> {
        let Shape { slots, buckets, last_epoch, .. } = shape;
        match (refusal, self.most_slots.min(slots.saturating_mul(2))) {
            (Refusal::NoSlot, more) if more > slots => Some(Shape {
                slots: more,
                buckets: buckets.saturating_mul(2).min(MAX_BUCKETS),
                last_epoch: last_epoch.min(max_epoch(more)),
                ..shape
            }),
            // of a set whose last epoch is the first one the next would be spent at once
            (Refusal::EpochSpent, _) if last_epoch > 1 => Some(shape),
            _ => None,
        }
    }
}

/// Calls of the set itself: each is made by a handle that is lent for it alone, as soon as one is free ([`Table::lend_wait`]), and
/// is back when the call returns. So no loan outlives its call: in `match map.get(5)? { .. }` the arms may make calls of the map.
///
/// A thread that has a loan itself, by a name or in a closure that is under way, may wait for ever. A thread that makes many calls
/// one after the other keeps a loan for them: it is quicker.
impl<T: Kind> Table<T> {
    // %doc vbr_has: sentence returns
    /// Looks a key up.
    ///
    /// Returns `true` if the key is there; `false` if it is absent.
    // %end
    ///
    /// It is [`PassOf::has`](crate::PassOf::has), by a loan.
    ///
    /// ```
    /// # use vbr::{Set, Shape};
    /// let set = Set::open_with(Shape::for_keys(8, 1), &[5])?;
    /// assert!(set.has(5)? && !set.has(7)?);
    /// # Ok::<(), Box<dyn std::error::Error>>(())
    /// ```
    ///
    // %errors vbr_has
    /// # Errors
    ///
    /// [`OutOfSteps`]. No call was made then.
    // %end
    pub fn has(&self, key: T::Key) -> Result<bool, OutOfSteps> {
        self.lend_wait().has(key)
    }

    /// Makes a call by a loan, and makes it again over a fresh set if it is refused by [`Refusal::EpochSpent`] or
    /// [`Refusal::NoSlot`].
    ///
    /// The loan is back before the set is renewed ([`Table::renew`]), to the same shape if the epoch is spent, and to a larger one
    /// if there is no slot, as far as `growth` lets it. Of many threads that are refused one renews, and the others go on
    /// with what it made.
    ///
    // %doc call_again
    /// The function that is given may be called several times, so of several calls that it makes the last should be the one
    /// that may be refused. It makes calls by the pass that it gets, and none on the set or the map itself.
    // %end
    ///
    /// A renewal waits until all loans are back, so a thread that has one waits for ever, and so does each after a loan was
    /// forgotten. [`Records`](crate::Records) beside the slots aren't carried over: if there are any, renew by
    /// [`Records::renew`](crate::Records::renew).
    ///
    /// ```
    /// use vbr::{Growth, Map, Shape};
    ///
    /// let visits = Map::open(Shape::for_keys(8, 4))?; // and it grows as pages come
    /// std::thread::scope(|scope| {
    ///     for first in [0, 500] {
    ///         let visits = &visits;
    ///         scope.spawn(move || {
    ///             for page in first..first + 1_000_u64 {
    ///                 let visit = visits.call(Growth::up_to(1 << 20), |mine| {
    ///                     mine.entry(page).and_modify(|count| *count += 1).or_insert(1)
    ///                 });
    ///                 assert!(visit.is_ok());
    ///             }
    ///         });
    ///     }
    /// });
    /// assert_eq!(visits.get(700)?, Some(2));
    /// assert_eq!(visits.close()?.entries.len(), 1_500);
    /// # Ok::<(), Box<dyn std::error::Error>>(())
    /// ```
    ///
    /// # Errors
    ///
    /// What `call` is refused by. [`Refusal::NoSlot`] comes if the set may grow no further, and either of the two if there is
    /// no memory for a renewal; [`Refusal::EpochSpent`] also if the last epoch is 1.
    pub fn call<R>(&self, growth: Growth, call: impl FnMut(&mut PassOf<T>) -> Result<R, Refusal>) -> Result<R, Refusal> {
        self.call_or(growth, call, |why, _| why)
    }

    /// The same, with what is said of a refusal if the renewal after it failed.
    pub(crate) fn call_or<R, E: From<Refusal>>(
        &self,
        growth: Growth,
        mut call: impl FnMut(&mut PassOf<T>) -> Result<R, Refusal>,
        failed: impl FnOnce(Refusal, RenewError) -> E,
    ) -> Result<R, E> {
        loop {
            let (renewals, told) = {
                let mut mine = self.lend_wait();
                (self.lender.renewals(), call(&mut mine))
            };
            let why = match told {
                Ok(answer) => return Ok(answer),
                Err(why) => why,
            };
            match self.renew_after(why, growth, renewals, None) {
                Ok(true) => {}
                Ok(false) => return Err(why.into()),
                Err(error) => return Err(failed(why, error)),
            }
        }
    }

    /// Renews it after a refusal, if that is of use, and records with it. Whether it is another one now than after so many renewals,
    /// by this thread or by another.
    pub(crate) fn renew_after(
        &self,
        why: Refusal,
        growth: Growth,
        renewals: usize,
        records: Option<&Words>,
    ) -> Result<bool, RenewError> {
        let is_another = || self.lender.renewals() != renewals;
        let told = match growth.after(why, self.lender.shape().get()) {
            Some(shape) => self.lender.renew_once(renewals, shape, None, records).map(|()| true),
            None => Ok(matches!(why, Refusal::NoSlot | Refusal::EpochSpent) && is_another()), // another thread's may serve
        };
        told.or_else(|error| if is_another() { Ok(true) } else { Err(error) })
    }
}

/// Calls of a set itself, each by a loan for it alone.
impl<K: Bits> Table<Keys<K>> {
    // %doc vbr_insert: sentence returns
    /// Adds a key.
    ///
    /// Returns `true` if the key was absent, and is added; `false` if it was there.
    // %end
    ///
    /// It is [`Pass::insert`](crate::Pass::insert), by a loan.
    ///
    /// ```
    /// # use vbr::{Set, Shape};
    /// let set = Set::open(Shape::for_keys(8, 1))?;
    /// assert!(set.insert(5)? && !set.insert(5)?);
    /// # Ok::<(), Box<dyn std::error::Error>>(())
    /// ```
    ///
    // %errors vbr_insert
    /// # Errors
    ///
    /// - [`Refusal::Held`] and [`Refusal::OutOfSteps`].
    /// - [`Refusal::NoSlot`]: the key is absent. Have other handles give their slots back
    ///   ([`give_slots_back`](crate::PassOf::give_slots_back)), remove keys, or try again.
    /// - [`Refusal::EpochSpent`]: the key is absent.
    ///
    /// No call was made then.
    // %end
    pub fn insert(&self, key: K) -> Result<bool, Refusal> {
        self.lend_wait().insert(key)
    }

    // %doc vbr_remove: sentence returns
    /// Takes a key out.
    ///
    /// Returns `true` if the key was there, and is taken out; `false` if it was absent.
    // %end
    ///
    /// It is [`Pass::remove`](crate::Pass::remove), by a loan.
    ///
    /// ```
    /// # use vbr::{Set, Shape};
    /// let set = Set::open_with(Shape::for_keys(8, 1), &[5])?;
    /// assert!(set.remove(5)? && !set.remove(5)?);
    /// # Ok::<(), Box<dyn std::error::Error>>(())
    /// ```
    ///
    // %errors vbr_remove
    /// # Errors
    ///
    /// [`OutOfSteps`]. No call was made then.
    // %end
    pub fn remove(&self, key: K) -> Result<bool, OutOfSteps> {
        self.lend_wait().remove(key)
    }

    /// Another name of [`Table::has`], that of `HashSet`.
    ///
    /// ```
    /// # use vbr::{Set, Shape};
    /// let set = Set::open_with(Shape::for_keys(8, 1), &[5])?;
    /// assert!(set.contains(5)?);
    /// # Ok::<(), Box<dyn std::error::Error>>(())
    /// ```
    ///
    /// # Errors
    ///
    /// [`OutOfSteps`].
    pub fn contains(&self, key: K) -> Result<bool, OutOfSteps> {
        self.has(key)
    }
}

/// Calls of a map itself, each by a loan for it alone.
impl<K: Bits, V: Bits> Table<Entries<K, V>> {
    // %doc vbr_map_get: sentence returns
    /// Looks a key up and gives its value.
    ///
    /// Returns its value if the key is there; `None` if it is absent.
    // %end
    ///
    /// It is [`MapPass::get`](crate::MapPass::get), by a loan.
    ///
    /// ```
    /// # use vbr::{Map, Shape};
    /// let map = Map::open_with(Shape::for_keys(8, 1), &[(5, 70)])?;
    /// match map.get(7)? {
    ///     Some(_) => unreachable!(),
    ///     None => assert_eq!(map.put(7, 71)?, None), // the one handle is free here
    /// }
    /// assert_eq!((map.get(5)?, map.get(7)?), (Some(70), Some(71)));
    /// # Ok::<(), Box<dyn std::error::Error>>(())
    /// ```
    ///
    // %errors vbr_map_get
    /// # Errors
    ///
    /// [`OutOfSteps`]. No call was made then.
    // %end
    pub fn get(&self, key: K) -> Result<Option<V>, OutOfSteps> {
        self.lend_wait().get(key)
    }

    /// Another name of [`Table::has`], that of `HashMap`.
    ///
    /// ```
    /// # use vbr::{Map, Shape};
    /// let map = Map::open_with(Shape::for_keys(8, 1), &[(5, 70)])?;
    /// assert!(map.contains_key(5)?);
    /// # Ok::<(), Box<dyn std::error::Error>>(())
    /// ```
    ///
    /// # Errors
    ///
    /// [`OutOfSteps`].
    pub fn contains_key(&self, key: K) -> Result<bool, OutOfSteps> {
        self.has(key)
    }

    // %doc vbr_map_insert: sentence returns
    /// Adds a key with its value.
    ///
    /// Returns `true` if the key was absent, and is added; `false` if it was there, and keeps the value that it has.
    // %end
    ///
    /// It is [`MapPass::try_insert`](crate::MapPass::try_insert), by a loan.
    ///
    /// ```
    /// # use vbr::{Map, Shape};
    /// let map = Map::open(Shape::for_keys(8, 1))?;
    /// assert!(map.try_insert(5, 70)? && !map.try_insert(5, 71)?);
    /// # Ok::<(), Box<dyn std::error::Error>>(())
    /// ```
    ///
    // %errors vbr_map_insert
    /// # Errors
    ///
    /// - [`Refusal::Held`] and [`Refusal::OutOfSteps`].
    /// - [`Refusal::NoSlot`]: the key is absent. Have other handles give their slots back
    ///   ([`give_slots_back`](crate::PassOf::give_slots_back)), remove keys, or try again.
    /// - [`Refusal::EpochSpent`]: the key is absent.
    ///
    /// No call was made then.
    // %end
    pub fn try_insert(&self, key: K, value: V) -> Result<bool, Refusal> {
        self.lend_wait().try_insert(key, value)
    }

    // %doc vbr_map_remove: sentence returns
    /// Takes a key out with its value.
    ///
    /// Returns the value of the entry that this call took if the key was there, and is taken out; `None` if it was absent.
    // %end
    ///
    /// It is [`MapPass::remove`](crate::MapPass::remove), by a loan.
    ///
    /// ```
    /// # use vbr::{Map, Shape};
    /// let map = Map::open_with(Shape::for_keys(8, 1), &[(5, 70)])?;
    /// assert_eq!((map.remove(5)?, map.remove(5)?), (Some(70), None));
    /// # Ok::<(), Box<dyn std::error::Error>>(())
    /// ```
    ///
    // %errors vbr_map_remove
    /// # Errors
    ///
    /// [`OutOfSteps`]. No call was made then.
    // %end
    pub fn remove(&self, key: K) -> Result<Option<V>, OutOfSteps> {
        self.lend_wait().remove(key)
    }

    // %doc vbr_map_put: sentence returns
    /// Gives a key this value, whether it is there or not.
    ///
    /// Returns the value that it had if the key was there, and has the new value; `None` if it was absent, and is inserted.
    // %end
    ///
    /// It is [`MapPass::put`](crate::MapPass::put), by a loan.
    ///
    /// ```
    /// # use vbr::{Map, Shape};
    /// let map = Map::open(Shape::for_keys(8, 1))?;
    /// assert_eq!((map.put(5, 70)?, map.put(5, 71)?), (None, Some(70)));
    /// # Ok::<(), Box<dyn std::error::Error>>(())
    /// ```
    ///
    // %errors vbr_map_put
    /// # Errors
    ///
    /// [`Refusal::Held`], [`Refusal::OutOfSteps`], [`Refusal::NoSlot`] and [`Refusal::EpochSpent`]. No call was made then.
    // %end
    pub fn put(&self, key: K, value: V) -> Result<Option<V>, Refusal> {
        self.lend_wait().put(key, value)
    }

    // %doc vbr_map_replace: sentence returns
    /// Gives a key that is there another value, so that no call finds it absent meanwhile.
    ///
    /// Returns the value that it had if the key was there, and has the new value; `None` if it was absent, and nothing was
    /// changed.
    // %end
    ///
    /// It is [`MapPass::replace`](crate::MapPass::replace), by a loan.
    ///
    /// ```
    /// # use vbr::{Map, Shape};
    /// let map = Map::open_with(Shape::for_keys(8, 1), &[(5, 70)])?;
    /// assert_eq!((map.replace(5, 71)?, map.replace(6, 71)?), (Some(70), None));
    /// # Ok::<(), Box<dyn std::error::Error>>(())
    /// ```
    ///
    // %errors vbr_map_replace
    /// # Errors
    ///
    /// - [`Refusal::Held`] and [`Refusal::OutOfSteps`].
    /// - [`Refusal::NoSlot`] and [`Refusal::EpochSpent`]: the key was there at a moment.
    ///
    /// No call was made then.
    // %end
    pub fn replace(&self, key: K, value: V) -> Result<Option<V>, Refusal> {
        self.lend_wait().replace(key, value)
    }

    // %doc vbr_map_get_or_insert: sentence returns
    /// Gives the value of a key, or inserts the key with this one: a get or an insert, in one call.
    ///
    /// Returns the value that it has if the key is there, and keeps its value; `None` if it was absent, and is inserted.
    // %end
    ///
    /// It is [`MapPass::get_or_insert`](crate::MapPass::get_or_insert), by a loan.
    ///
    /// ```
    /// # use vbr::{Map, Shape};
    /// let map = Map::open(Shape::for_keys(8, 1))?;
    /// assert_eq!((map.get_or_insert(5, 70)?, map.get_or_insert(5, 71)?), (None, Some(70)));
    /// # Ok::<(), Box<dyn std::error::Error>>(())
    /// ```
    ///
    // %errors vbr_map_get_or_insert
    /// # Errors
    ///
    /// - [`Refusal::Held`] and [`Refusal::OutOfSteps`].
    /// - [`Refusal::NoSlot`] and [`Refusal::EpochSpent`]: the key is absent.
    ///
    /// No call was made then.
    // %end
    pub fn get_or_insert(&self, key: K, value: V) -> Result<Option<V>, Refusal> {
        self.lend_wait().get_or_insert(key, value)
    }

    // %doc vbr_map_compare_exchange: sentence returns
    /// Gives a key another value if it has the one that is expected.
    ///
    /// Returns [`Compared::Equal`] if the key had the expected value, and has the new one; [`Compared::Other`] if it is there
    /// with another value, and nothing was changed; [`Compared::Absent`] if it is absent, and nothing was changed.
    // %end
    ///
    /// It is [`MapPass::compare_exchange`](crate::MapPass::compare_exchange), by a loan.
    ///
    /// ```
    /// # use vbr::{Compared, Map, Shape};
    /// let map = Map::open_with(Shape::for_keys(8, 1), &[(5, 70)])?;
    /// assert_eq!(map.compare_exchange(5, 70, 71)?, Compared::Equal);
    /// # Ok::<(), Box<dyn std::error::Error>>(())
    /// ```
    ///
    // %errors vbr_map_compare_exchange
    /// # Errors
    ///
    /// - [`Refusal::Held`] and [`Refusal::OutOfSteps`].
    /// - [`Refusal::NoSlot`] and [`Refusal::EpochSpent`]: the key had the expected value at a moment.
    ///
    /// No call was made then.
    // %end
    pub fn compare_exchange(&self, key: K, expected: V, value: V) -> Result<Compared<V>, Refusal> {
        self.lend_wait().compare_exchange(key, expected, value)
    }

    // %doc vbr_map_remove_if: sentence returns
    /// Takes a key out if it has the value that is expected.
    ///
    /// Returns [`Compared::Equal`] if the key had the expected value, and is taken out; [`Compared::Other`] if it is there
    /// with another value, and nothing was changed; [`Compared::Absent`] if it is absent, and nothing was changed.
    // %end
    ///
    /// It is [`MapPass::remove_if`](crate::MapPass::remove_if), by a loan.
    ///
    /// ```
    /// # use vbr::{Compared, Map, Shape};
    /// let map = Map::open_with(Shape::for_keys(8, 1), &[(5, 70)])?;
    /// assert_eq!(map.remove_if(5, 71)?, Compared::Other(70));
    /// # Ok::<(), Box<dyn std::error::Error>>(())
    /// ```
    ///
    // %errors vbr_map_remove_if
    /// # Errors
    ///
    /// [`OutOfSteps`]. No call was made then.
    // %end
    pub fn remove_if(&self, key: K, expected: V) -> Result<Compared<V>, OutOfSteps> {
        self.lend_wait().remove_if(key, expected)
    }

    /// Updates the value of a key, as [`MapPass::fetch_update`](crate::MapPass::fetch_update) does. `update` is asked while a handle is on
    /// loan, so it makes no call of the map itself.
    ///
    /// ```
    /// # use vbr::{Map, Shape};
    /// let map = Map::open_with(Shape::for_keys(8, 1), &[(5, 1_u64)])?;
    /// assert_eq!(map.fetch_update(5, |left| left.checked_sub(1))?, Some(1));
    /// # Ok::<(), Box<dyn std::error::Error>>(())
    /// ```
    ///
    /// # Errors
    ///
    /// The same as for [`MapPass::fetch_update`](crate::MapPass::fetch_update). Nothing was changed then.
    pub fn fetch_update(&self, key: K, update: impl FnMut(V) -> Option<V>) -> Result<Option<V>, Refusal> {
        self.lend_wait().fetch_update(key, update)
    }

    /// Does with a key what `change` says of what is there, as [`MapPass::compute`](crate::MapPass::compute) does. `change` is asked
    /// while a handle is on loan, so it makes no call of the map itself.
    ///
    /// ```
    /// # use vbr::{Change, Map, Shape};
    /// let map = Map::open_with(Shape::for_keys(8, 1), &[(5, 70)])?;
    /// assert_eq!(map.compute(5, |_| Change::Remove)?, Some(70));
    /// # Ok::<(), Box<dyn std::error::Error>>(())
    /// ```
    ///
    /// # Errors
    ///
    /// The same as for [`MapPass::compute`](crate::MapPass::compute). Nothing was changed then.
    pub fn compute(&self, key: K, change: impl FnMut(Option<V>) -> Change<V>) -> Result<Option<V>, Refusal> {
        self.lend_wait().compute(key, change)
    }

    /// Takes a key out if `when` says yes of its value, as [`MapPass::remove_when`](crate::MapPass::remove_when) does. `when` is
    /// asked while a handle is on loan, so it makes no call of the map itself.
    ///
    /// ```
    /// # use vbr::{Map, Shape};
    /// let map = Map::open_with(Shape::for_keys(8, 1), &[(5, 70)])?;
    /// assert_eq!(map.remove_when(5, |value| value > 60)?, Some(70));
    /// # Ok::<(), Box<dyn std::error::Error>>(())
    /// ```
    ///
    /// # Errors
    ///
    /// [`OutOfSteps`]. Nothing was changed then.
    pub fn remove_when(&self, key: K, when: impl FnMut(V) -> bool) -> Result<Option<V>, OutOfSteps> {
        self.lend_wait().remove_when(key, when)
    }
}

impl<K: Bits> Table<Entries<K, u64>> {
    /// Adds to the value of a key, modulo 2^64, or inserts the key with `delta`, as [`MapPass::fetch_add`](crate::MapPass::fetch_add)
    /// does. It returns the value that the key had.
    ///
    /// ```
    /// # use vbr::{Map, Shape};
    /// let visits: Map = Map::open(Shape::for_keys(8, 1))?;
    /// assert_eq!((visits.fetch_add(5, 1)?, visits.fetch_add(5, 1)?), (None, Some(1)));
    /// # Ok::<(), Box<dyn std::error::Error>>(())
    /// ```
    ///
    /// # Errors
    ///
    /// The same as for [`MapPass::fetch_add`](crate::MapPass::fetch_add). No call was made then.
    pub fn fetch_add(&self, key: K, delta: u64) -> Result<Option<u64>, Refusal> {
        self.lend_wait().fetch_add(key, delta)
    }
}

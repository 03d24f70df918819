//! What only maps have.
// tools/interface makes this file of bindings/interface/kinds.rs.in.
use crate::library::{answer_all, found, looked_up, updated, with_value, Found};
use crate::library::{vbr_map_get_all_within, vbr_map_get_within, vbr_map_insert_within, vbr_map_remove_within};
use crate::{order, Bits, Entries, HandleOf, Kind, OutOfSteps, PassOf, Refusal, Steps, Table};
use alloc::vec::{self, Vec};
use core::slice;

/// A map from keys to values of any types that have [`Bits`]. [`Map::open`] opens one that lends its handles, and [`Map::handles`]
/// gives the handles of a new map to their owners.
///
/// | To | Calls |
/// |---|---|
/// | open and end | [`open`](Map::open), [`open_with`](Map::open_with), [`close`](Map::close), [`end`](Map::end) |
/// | look up, by a loan for it alone | [`get`](Map::get), [`contains_key`](Map::contains_key), [`has`](Map::has) |
/// | change, by a loan for it alone | [`try_insert`](Map::try_insert), [`put`](Map::put), [`replace`](Map::replace), [`fetch_add`](Map::fetch_add), [`get_or_insert`](Map::get_or_insert), [`compare_exchange`](Map::compare_exchange), [`fetch_update`](Map::fetch_update), [`compute`](Map::compute), [`remove`](Map::remove), [`remove_if`](Map::remove_if), [`remove_when`](Map::remove_when) |
/// | call, and grow if need be | [`call`](Map::call) |
/// | borrow a handle | [`lend`](Map::lend), [`lend_wait`](Map::lend_wait), [`lend_timeout`](Map::lend_timeout), [`lend_owned`](Map::lend_owned), [`lend_owned_wait`](Map::lend_owned_wait), [`lend_owned_timeout`](Map::lend_owned_timeout), [`lend_async`](Map::lend_async), [`lend_owned_async`](Map::lend_owned_async) |
/// | own handles | [`handles`](Map::handles), [`handles_with`](Map::handles_with), [`into_handles`](Map::into_handles), [`from_handles`](Map::from_handles), [`pass_mut`](Map::pass_mut) |
/// | see to all | [`renew`](Map::renew), [`renew_timeout`](Map::renew_timeout), [`report`](Map::report), [`report_timeout`](Map::report_timeout), [`key_count`](Map::key_count), [`key_count_timeout`](Map::key_count_timeout) |
/// | read its shape | [`slots`](Map::slots), [`buckets`](Map::buckets), [`last_epoch`](Map::last_epoch), [`handle_count`](Map::handle_count) |
///
/// They are calls of a [`Table`]. A loan and a handle have more, those of a [`MapPass`].
///
/// A key keeps its value until it is removed or gets another one: [`MapPass::try_insert`] leaves the value of a key that is there,
/// and [`MapPass::replace`] and [`MapPass::put`] change it at one moment.
///
/// Slots, buckets, budgets and refusals are those of a set; a slot takes 40 bytes in place of 32. Named as a type, `Map` is a
/// map from `u64` to `u64`; when one is opened, its types are those that its calls are given.
///
/// ```
/// # use vbr::{Map, Shape};
/// let map: Map<u32, char> = Map::open_with(Shape::for_keys(8, 2), &[(5, 'k')])?;
/// assert_eq!(map.lend().expect("two are free").get(5)?, Some('k'));
/// # Ok::<(), Box<dyn std::error::Error>>(())
/// ```
pub type Map<K = u64, V = u64> = Table<Entries<K, V>>;

/// A handle to a map, as a [`Handle`](crate::Handle) is one to a set. Its calls are those of its [`MapPass`], and
/// [`HandleOf::close`].
///
/// ```
/// # use vbr::{Map, MapHandle, Shape};
/// let mut handle: MapHandle = Map::handles(Shape::for_keys(8, 1))?.remove(0);
/// assert!(handle.try_insert(5, 70)?);
/// # Ok::<(), Box<dyn std::error::Error>>(())
/// ```
///
/// ```compile_fail,E0277
/// fn is_clone<T: Clone>() {}
/// is_clone::<vbr::MapHandle>();
/// ```
///
/// ```compile_fail,E0277
/// fn is_sync<T: Sync>() {}
/// is_sync::<vbr::MapHandle>();
/// ```
pub type MapHandle<K = u64, V = u64> = HandleOf<Entries<K, V>>;

/// The pass of a handle to a map, as [`PassOf`](crate::PassOf) says.
///
/// | To | Calls |
/// |---|---|
/// | look up | [`get`](MapPass::get), [`get_all`](MapPass::get_all), [`contains_key`](MapPass::contains_key), [`has`](MapPass::has), [`has_all`](MapPass::has_all) |
/// | change | [`try_insert`](MapPass::try_insert), [`put`](MapPass::put), [`replace`](MapPass::replace), [`remove`](MapPass::remove) |
/// | do what depends on what is there | [`fetch_add`](MapPass::fetch_add), [`get_or_insert`](MapPass::get_or_insert), [`compare_exchange`](MapPass::compare_exchange), [`remove_if`](MapPass::remove_if), [`remove_when`](MapPass::remove_when), [`fetch_update`](MapPass::fetch_update), [`compute`](MapPass::compute), [`entry`](MapPass::entry) |
/// | change many | [`try_insert_all`](MapPass::try_insert_all), [`put_all`](MapPass::put_all), [`try_extend`](MapPass::try_extend), [`retain`](MapPass::retain), [`drain`](MapPass::drain), [`clear`](MapPass::clear) |
/// | go over entries | [`iter`](MapPass::iter), [`keys`](MapPass::keys), [`values`](MapPass::values), [`next`](MapPass::next), [`iter_at`](MapPass::iter_at), [`next_at`](MapPass::next_at) |
/// | name entries, and hold slots | [`get_entry`](MapPass::get_entry), [`is_still`](MapPass::is_still), [`remove_entry`](MapPass::remove_entry), [`hold`](MapPass::hold) |
/// | see to slots and epochs | [`reserve`](MapPass::reserve), [`give_slots_back`](MapPass::give_slots_back), [`epoch`](MapPass::epoch), [`balance`](MapPass::balance) |
///
/// ```
/// # use vbr::{MapPass, OutOfSteps};
/// fn frame_of(index: &MapPass, page: u64) -> Result<Option<u64>, OutOfSteps> {
///     index.get(page)
/// }
/// ```
pub type MapPass<K = u64, V = u64> = PassOf<Entries<K, V>>;

impl<K: Bits, V: Bits> Kind for Entries<K, V> {
    type Key = K;
    type Item = (K, V);
    type Report = MapReport<K, V>;
}

/// The calls of maps alone.
impl<K: Bits, V: Bits> PassOf<Entries<K, V>> {
    /// Adds a key with its value.
    ///
    /// Returns `true` if the key was absent, and is added; `false` if it was there, and keeps the value that it has. After
    /// `true` it leaves the handle's reserve for the next inserts topped up, as [`reserve`](crate::PassOf::reserve) says.
    ///
    /// While the other handles stand still, 18n + 82 steps are enough, or 18n + w + 20 if that is more, with n nodes in the
    /// bucket of the key and w = slots / 64, rounded up.
    ///
    /// What `HashMap::insert` does, which replaces the value of a key that is there, is [`MapPass::put`].
    ///
    /// ```
    /// # use vbr::{Map, Shape};
    /// let mut handle = Map::handles(Shape::for_keys(8, 1))?.remove(0);
    /// assert!(handle.try_insert(5, 70)?);
    /// assert!(!handle.try_insert(5, 71)?);
    /// assert_eq!(handle.get(5)?, Some(70));
    /// # Ok::<(), Box<dyn std::error::Error>>(())
    /// ```
    ///
    /// # Errors
    ///
    /// - [`Refusal::Held`] and [`Refusal::OutOfSteps`].
    /// - [`Refusal::NoSlot`]: the key is absent. Have other handles give their slots back
    ///   ([`give_slots_back`](crate::PassOf::give_slots_back)), remove keys, or try again.
    /// - [`Refusal::EpochSpent`]: the key is absent.
    ///
    /// No call was made then.
    #[inline]
    pub fn try_insert(&mut self, key: K, value: V) -> Result<bool, Refusal> {
        self.try_insert_within(key, value, self.steps())
    }

    /// As [`MapPass::try_insert`], with a budget of its own.
    ///
    /// ```
    /// # use vbr::{Map, Refusal, Shape, Steps};
    /// let mut handle = Map::handles(Shape::for_keys(8, 1))?.remove(0);
    /// assert_eq!(handle.try_insert_within(5, 70, Steps::new(1)), Err(Refusal::OutOfSteps));
    /// # Ok::<(), Box<dyn std::error::Error>>(())
    /// ```
    ///
    /// # Errors
    ///
    /// The same as for [`MapPass::try_insert`].
    #[inline]
    pub fn try_insert_within(&mut self, key: K, value: V, steps: Steps) -> Result<bool, Refusal> {
        let (key, value) = (key.to_bits(), value.to_bits());
        // SAFETY: `&mut` is exclusive.
        updated(order::adds(key, || unsafe { vbr_map_insert_within(self.raw(), key, value, steps.count()) }))
    }

    /// Takes a key out with its value.
    ///
    /// Returns the value of the entry that this call took if the key was there, and is taken out; `None` if it was absent.
    /// After `Some` it leaves the key's node out of its list, unless the budget ended first. Then the next insert or remove
    /// that passes the node takes it out.
    ///
    /// While the other handles stand still, 9n + 11 steps are enough, with n nodes in the bucket of the key.
    ///
    /// ```
    /// # use vbr::{Map, Shape};
    /// let mut handle = Map::handles_with(Shape::for_keys(8, 1), &[(5, 70)])?.remove(0);
    /// assert_eq!(handle.remove(5)?, Some(70));
    /// assert_eq!(handle.remove(5)?, None);
    /// # Ok::<(), Box<dyn std::error::Error>>(())
    /// ```
    ///
    /// # Errors
    ///
    /// [`OutOfSteps`]. No call was made then.
    #[inline]
    pub fn remove(&mut self, key: K) -> Result<Option<V>, OutOfSteps> {
        self.remove_within(key, self.steps())
    }

    /// As [`MapPass::remove`], with a budget of its own.
    ///
    /// ```
    /// # use vbr::{Map, Shape, Steps};
    /// let mut handle = Map::handles_with(Shape::for_keys(8, 1), &[(5, 70)])?.remove(0);
    /// assert_eq!(handle.remove_within(5, Steps::new(9 + 11)), Ok(Some(70)));
    /// # Ok::<(), Box<dyn std::error::Error>>(())
    /// ```
    ///
    /// # Errors
    ///
    /// The same as for [`MapPass::remove`].
    #[inline]
    pub fn remove_within(&mut self, key: K, steps: Steps) -> Result<Option<V>, OutOfSteps> {
        let key = key.to_bits();
        with_value(looked_up, |value| {
            // SAFETY: `&mut` is exclusive, and nothing else has the value.
            order::removes(key, || unsafe { vbr_map_remove_within(self.raw(), key, value, steps.count()) })
        })
    }

    /// Looks a key up and gives its value.
    ///
    /// Returns its value if the key is there; `None` if it is absent. It leaves the map as it was: its steps are loads.
    ///
    /// While the other handles stand still, 5n + 11 steps are enough, with n nodes in the bucket of the key.
    ///
    /// It takes `&self`, as [`PassOf::has`] does.
    ///
    /// ```
    /// # use vbr::{Map, Shape};
    /// let handle = Map::handles_with(Shape::for_keys(8, 1), &[(5, 70)])?.remove(0);
    /// assert_eq!(handle.get(5)?, Some(70));
    /// assert_eq!(handle.get(6)?, None);
    /// # Ok::<(), Box<dyn std::error::Error>>(())
    /// ```
    ///
    /// # Errors
    ///
    /// [`OutOfSteps`]. No call was made then.
    #[inline]
    pub fn get(&self, key: K) -> Result<Option<V>, OutOfSteps> {
        self.get_within(key, self.steps())
    }

    /// As [`MapPass::get`], with a budget of its own.
    ///
    /// ```
    /// # use vbr::{Map, Shape, Steps};
    /// let handle = Map::handles_with(Shape::for_keys(8, 1), &[(5, 70)])?.remove(0);
    /// assert_eq!(handle.get_within(5, Steps::new(5 + 11)), Ok(Some(70)));
    /// # Ok::<(), Box<dyn std::error::Error>>(())
    /// ```
    ///
    /// # Errors
    ///
    /// The same as for [`MapPass::get`].
    #[inline]
    pub fn get_within(&self, key: K, steps: Steps) -> Result<Option<V>, OutOfSteps> {
        Ok(self.bits_within(key, steps)?.map(V::from_bits))
    }

    /// The bits of the value of a key, if the key is in the map.
    #[inline]
    pub(crate) fn bits_within(&self, key: K, steps: Steps) -> Result<Option<u64>, OutOfSteps> {
        let key = key.to_bits();
        with_value(looked_up, |value| {
            // SAFETY: one thread at a time has the pass, which is not `Sync`, and the call lends it to nobody; nothing else has the
            // value.
            order::finds(key, || unsafe { vbr_map_get_within(self.raw(), key, value, steps.count()) })
        })
    }

    /// Looks keys up and gives their values, as [`has_all`](crate::PassOf::has_all) looks keys up.
    ///
    /// A refusal of one look-up says nothing about the others.
    ///
    /// Each has the budget of the handle, and what [`MapPass::get`] answers to it is written at its place.
    ///
    /// ```
    /// # use vbr::{Map, Shape};
    /// let handle = Map::handles_with(Shape::for_keys(8, 1), &[(5, 70)])?.remove(0);
    /// let mut values = [Ok(None); 2];
    /// handle.get_all(&[5, 6], &mut values);
    /// assert_eq!(values, [Ok(Some(70)), Ok(None)]);
    /// # Ok::<(), Box<dyn std::error::Error>>(())
    /// ```
    ///
    /// # Panics
    ///
    /// If there aren't as many values as keys. No call was made then.
    #[inline]
    pub fn get_all(&self, keys: &[K], values: &mut [Result<Option<V>, OutOfSteps>]) {
        self.get_all_within(keys, values, self.steps());
    }

    /// As [`MapPass::get_all`], each key with this budget.
    ///
    /// ```
    /// # use vbr::{Map, OutOfSteps, Shape, Steps};
    /// let handle = Map::handles_with(Shape::for_keys(8, 1), &[(5, 70)])?.remove(0);
    /// let mut values = [Ok(None); 2];
    /// handle.get_all_within(&[5, 6], &mut values, Steps::new(1));
    /// assert_eq!(values, [Err(OutOfSteps); 2]);
    /// # Ok::<(), Box<dyn std::error::Error>>(())
    /// ```
    ///
    /// # Panics
    ///
    /// As [`MapPass::get_all`] does.
    #[inline]
    pub fn get_all_within(&self, keys: &[K], values: &mut [Result<Option<V>, OutOfSteps>], steps: Steps) {
        // SAFETY: as for `get_within`; there is room for as many values as keys.
        let call = |keys: &[u64], told: &mut [Found]| unsafe {
            vbr_map_get_all_within(self.raw(), keys.as_ptr(), keys.len(), told.as_mut_ptr(), steps.count());
        };
        answer_all(keys, values, call, found);
    }

    /// Whether a key is there: [`PassOf::has`], by the name that `HashMap` has for it.
    ///
    /// ```
    /// # use vbr::{Map, Shape};
    /// let handle = Map::handles_with(Shape::for_keys(8, 1), &[(5, 70)])?.remove(0);
    /// assert!(handle.contains_key(5)? && !handle.contains_key(6)?);
    /// # Ok::<(), Box<dyn std::error::Error>>(())
    /// ```
    ///
    /// # Errors
    ///
    /// [`OutOfSteps`]. No call was made then.
    #[inline]
    pub fn contains_key(&self, key: K) -> Result<bool, OutOfSteps> {
        self.has(key)
    }
}

/// What a map held when it was closed, or was reported. The numbers are those of a set's [`Report`](crate::Report). It goes
/// over its entries if a loop takes it.
///
/// ```
/// # use vbr::{Map, Shape};
/// let mut handle = Map::handles(Shape::for_keys(8, 1))?.remove(0);
/// handle.try_insert(5, 70)?;
/// let report = handle.close()?.expect("the only handle");
/// assert_eq!(report.entries, [(5, 70)]);
/// assert_eq!((report.epoch, report.marked, report.free), (1, 0, 8 + 64 - 1));
/// let entries: std::collections::HashMap<u64, u64> = report.into_iter().collect();
/// assert_eq!(entries[&5], 70);
/// # Ok::<(), Box<dyn std::error::Error>>(())
/// ```
#[derive(Clone, Debug, PartialEq, Eq, Hash)]
#[non_exhaustive]
pub struct MapReport<K = u64, V = u64> {
    /// The keys in the map, ascending by their bits, each with its value.
    pub entries: Vec<(K, V)>,
    /// The epoch.
    pub epoch: u64,
    /// How many removed nodes were still in a list.
    pub marked: u32,
    /// How many slots had no node in a list.
    pub free: u32,
}

impl<K, V> MapReport<K, V> {
    /// Goes over the entries.
    ///
    /// ```
    /// # use vbr::{Map, Shape};
    /// let report = Map::open_with(Shape::for_keys(8, 1), &[(5, 70), (7, 71)])?.close()?;
    /// assert_eq!(report.iter().map(|(_, value)| value).sum::<u64>(), 141);
    /// # Ok::<(), Box<dyn std::error::Error>>(())
    /// ```
    pub fn iter(&self) -> slice::Iter<'_, (K, V)> {
        self.entries.iter()
    }
}

impl<K, V> IntoIterator for MapReport<K, V> {
    type Item = (K, V);
    type IntoIter = vec::IntoIter<(K, V)>;

    fn into_iter(self) -> vec::IntoIter<(K, V)> {
        self.entries.into_iter()
    }
}

impl<'r, K, V> IntoIterator for &'r MapReport<K, V> {
    type Item = &'r (K, V);
    type IntoIter = slice::Iter<'r, (K, V)>;

    fn into_iter(self) -> slice::Iter<'r, (K, V)> {
        self.iter()
    }
}

/// The entries.
impl<K, V> From<MapReport<K, V>> for Vec<(K, V)> {
    fn from(report: MapReport<K, V>) -> Vec<(K, V)> {
        report.entries
    }
}

//! What only sets have.
// tools/interface makes this file of bindings/interface/kinds.rs.in.
use crate::library::{looked_up, updated, vbr_insert_within, vbr_remove_within};
use crate::{order, Bits, Cursor, HandleOf, Keys, Kind, OutOfSteps, PassOf, Refusal, Steps, Table};
use alloc::vec::{self, Vec};
use core::slice;

/// A set of keys of any type that has [`Bits`]. [`Set::open`] opens one that lends its handles, and [`Set::handles`] gives the
/// handles of a new set to their owners.
///
/// | To | Calls |
/// |---|---|
/// | open and end | [`open`](Set::open), [`open_with`](Set::open_with), [`close`](Set::close), [`end`](Set::end) |
/// | call, by a loan for it alone | [`insert`](Set::insert), [`remove`](Set::remove), [`contains`](Set::contains), [`has`](Set::has) |
/// | call, and grow if need be | [`call`](Set::call) |
/// | borrow a handle | [`lend`](Set::lend), [`lend_wait`](Set::lend_wait), [`lend_timeout`](Set::lend_timeout), [`lend_owned`](Set::lend_owned), [`lend_owned_wait`](Set::lend_owned_wait), [`lend_owned_timeout`](Set::lend_owned_timeout), [`lend_async`](Set::lend_async), [`lend_owned_async`](Set::lend_owned_async) |
/// | own handles | [`handles`](Set::handles), [`handles_with`](Set::handles_with), [`into_handles`](Set::into_handles), [`from_handles`](Set::from_handles), [`pass_mut`](Set::pass_mut) |
/// | see to all | [`renew`](Set::renew), [`renew_timeout`](Set::renew_timeout), [`report`](Set::report), [`report_timeout`](Set::report_timeout), [`key_count`](Set::key_count), [`key_count_timeout`](Set::key_count_timeout) |
/// | read its shape | [`slots`](Set::slots), [`buckets`](Set::buckets), [`last_epoch`](Set::last_epoch), [`handle_count`](Set::handle_count) |
///
/// They are calls of a [`Table`]. A loan and a handle have more, those of a [`Pass`].
///
/// Named as a type, `Set` is a set of `u64`; when one is opened, its keys have the type that its calls are given.
///
/// ```
/// # use vbr::{Set, Shape};
/// let set = Set::open(Shape::for_keys(8, 1))?; // a Set<char>
/// let mut mine = set.lend_wait();
/// assert!(mine.insert('k')? && mine.contains('k')?);
/// # Ok::<(), Box<dyn std::error::Error>>(())
/// ```
///
/// ```compile_fail,E0308
/// # use vbr::{Set, Shape};
/// let set: Set<u32> = Set::open(Shape::for_keys(8, 1)).unwrap();
/// set.lend_wait().insert('k');
/// ```
pub type Set<K = u64> = Table<Keys<K>>;

/// A handle to a set: a pass and a share of the set. Its calls are those of its
/// [`Pass`], and [`HandleOf::close`].
///
/// ```
/// # use vbr::{Handle, Set, Shape};
/// let mut handle: Handle = Set::handles(Shape::for_keys(8, 1))?.remove(0);
/// assert!(handle.insert(5)?);
/// # Ok::<(), Box<dyn std::error::Error>>(())
/// ```
///
/// ```compile_fail,E0277
/// fn is_clone<T: Clone>() {}
/// is_clone::<vbr::Handle>();
/// ```
///
/// ```compile_fail,E0277
/// fn is_sync<T: Sync>() {}
/// is_sync::<vbr::Handle>();
/// ```
pub type Handle<K = u64> = HandleOf<Keys<K>>;

/// The pass of a handle to a set, as [`PassOf`](crate::PassOf) says.
///
/// | To | Calls |
/// |---|---|
/// | look up | [`contains`](Pass::contains), [`has`](Pass::has), [`has_all`](Pass::has_all) |
/// | change | [`insert`](Pass::insert), [`remove`](Pass::remove) |
/// | change many | [`insert_all`](Pass::insert_all), [`try_extend`](Pass::try_extend), [`retain`](Pass::retain), [`drain`](Pass::drain), [`clear`](Pass::clear) |
/// | go over keys | [`iter`](Pass::iter), [`next`](Pass::next), [`iter_at`](Pass::iter_at), [`next_at`](Pass::next_at) |
/// | name entries, and hold slots | [`get_entry`](Pass::get_entry), [`is_still`](Pass::is_still), [`remove_entry`](Pass::remove_entry), [`hold`](Pass::hold) |
/// | see to slots and epochs | [`reserve`](Pass::reserve), [`give_slots_back`](Pass::give_slots_back), [`epoch`](Pass::epoch), [`balance`](Pass::balance) |
///
/// ```
/// # use vbr::{Pass, Refusal};
/// fn visit(pass: &mut Pass, page: u64) -> Result<bool, Refusal> {
///     pass.insert(page)
/// }
/// ```
pub type Pass<K = u64> = PassOf<Keys<K>>;

impl<K: Bits> Kind for Keys<K> {
    type Key = K;
    type Item = K;
    type Report = Report<K>;
}

/// The calls of sets alone.
impl<K: Bits> PassOf<Keys<K>> {
    /// Adds a key.
    ///
    /// Returns `true` if the key was absent, and is added; `false` if it was there. After `true` it leaves the handle's
    /// reserve for the next inserts topped up, as [`reserve`](crate::PassOf::reserve) says.
    ///
    /// While the other handles stand still, 18n + 82 steps are enough, or 18n + w + 20 if that is more, with n nodes in the
    /// bucket of the key and w = slots / 64, rounded up.
    ///
    /// ```
    /// # use vbr::{Set, Shape};
    /// let mut handle = Set::handles(Shape::for_keys(8, 1))?.remove(0);
    /// assert!(handle.insert(5)?);
    /// assert!(!handle.insert(5)?);
    /// # Ok::<(), Box<dyn std::error::Error>>(())
    /// ```
    ///
    /// # Errors
    ///
    /// - [`Refusal::Held`] and [`Refusal::OutOfSteps`].
    /// - [`Refusal::NoSlot`]: the key is absent. Have other handles give their slots back
    ///   ([`give_slots_back`](crate::PassOf::give_slots_back)), remove keys, or try again.
    /// - [`Refusal::EpochSpent`]: the key is absent.
    ///
    /// No call was made then.
    #[inline]
    pub fn insert(&mut self, key: K) -> Result<bool, Refusal> {
        self.insert_within(key, self.steps())
    }

    /// As [`Pass::insert`], with a budget of its own.
    ///
    /// ```
    /// # use vbr::{Refusal, Set, Shape, Steps};
    /// let mut handle = Set::handles(Shape::for_keys(8, 1))?.remove(0);
    /// assert_eq!(handle.insert_within(5, Steps::new(1)), Err(Refusal::OutOfSteps));
    /// # Ok::<(), Box<dyn std::error::Error>>(())
    /// ```
    ///
    /// # Errors
    ///
    /// The same as for [`Pass::insert`].
    #[inline]
    pub fn insert_within(&mut self, key: K, steps: Steps) -> Result<bool, Refusal> {
        let key = key.to_bits();
        // SAFETY: `&mut` is exclusive.
        updated(order::adds(key, || unsafe { vbr_insert_within(self.raw(), key, steps.count()) }))
    }

    /// Takes a key out.
    ///
    /// Returns `true` if the key was there, and is taken out; `false` if it was absent. After `true` it leaves the key's node
    /// out of its list, unless the budget ended first. Then the next insert or remove that passes the node takes it out.
    ///
    /// While the other handles stand still, 9n + 11 steps are enough, with n nodes in the bucket of the key.
    ///
    /// ```
    /// # use vbr::{Set, Shape};
    /// let mut handle = Set::handles_with(Shape::for_keys(8, 1), &[5])?.remove(0);
    /// assert!(handle.remove(5)?);
    /// assert!(!handle.remove(5)?);
    /// # Ok::<(), Box<dyn std::error::Error>>(())
    /// ```
    ///
    /// # Errors
    ///
    /// [`OutOfSteps`]. No call was made then.
    #[inline]
    pub fn remove(&mut self, key: K) -> Result<bool, OutOfSteps> {
        self.remove_within(key, self.steps())
    }

    /// As [`Pass::remove`], with a budget of its own.
    ///
    /// ```
    /// # use vbr::{Set, Shape, Steps};
    /// let mut handle = Set::handles_with(Shape::for_keys(8, 1), &[5])?.remove(0);
    /// assert_eq!(handle.remove_within(5, Steps::new(9 + 11)), Ok(true));
    /// # Ok::<(), Box<dyn std::error::Error>>(())
    /// ```
    ///
    /// # Errors
    ///
    /// The same as for [`Pass::remove`].
    #[inline]
    pub fn remove_within(&mut self, key: K, steps: Steps) -> Result<bool, OutOfSteps> {
        let key = key.to_bits();
        // SAFETY: `&mut` is exclusive.
        looked_up(order::removes(key, || unsafe { vbr_remove_within(self.raw(), key, steps.count()) }))
    }

    /// Whether a key is there: [`PassOf::has`], by the name that `HashSet` has for it.
    ///
    /// ```
    /// # use vbr::{Set, Shape};
    /// let handle = Set::handles_with(Shape::for_keys(8, 1), &[5])?.remove(0);
    /// assert!(handle.contains(5)? && !handle.contains(6)?);
    /// # Ok::<(), Box<dyn std::error::Error>>(())
    /// ```
    ///
    /// # Errors
    ///
    /// [`OutOfSteps`]. No call was made then.
    #[inline]
    pub fn contains(&self, key: K) -> Result<bool, OutOfSteps> {
        self.has(key)
    }

    /// Goes over all keys while other threads make calls, as [`PassOf::iter`] does, takes out those for which `keep` says no, and
    /// returns how many it took out. Each call that it takes has the budget of the handle.
    ///
    /// `keep` is asked of each key once, and the key is taken out after that, whoever inserted it: so one that another thread
    /// took out and inserted anew in between goes too. If that matters, walk by [`PassOf::next_at`], and take keys out by
    /// [`PassOf::remove_entry`].
    ///
    /// ```
    /// # use vbr::{Set, Shape};
    /// let mut handle = Set::handles_with(Shape::for_keys(8, 1), &[2, 5, 9])?.remove(0);
    /// assert_eq!(handle.retain(|key| key % 2 == 1)?, 1);
    /// assert_eq!(handle.close()?.expect("the only handle").keys, [5, 9]);
    /// # Ok::<(), Box<dyn std::error::Error>>(())
    /// ```
    ///
    /// # Errors
    ///
    /// [`OutOfSteps`], as for [`PassOf::iter`] or a remove. What was taken out before stays out.
    pub fn retain(&mut self, mut keep: impl FnMut(K) -> bool) -> Result<u64, OutOfSteps> {
        let (mut cursor, mut count) = (Cursor::first(), 0);
        while let Some(key) = self.walk_on(&mut cursor, self.steps())? {
            if !keep(key) {
                count += u64::from(self.remove(key)?);
            }
        }
        Ok(count)
    }
}

/// What a set held when it was closed, or was reported. A loop over it goes over its keys.
///
/// ```
/// # use vbr::{Set, Shape};
/// let mut handle = Set::handles(Shape::for_keys(8, 1))?.remove(0);
/// handle.insert(5)?;
/// let report = handle.close()?.expect("the only handle");
/// assert_eq!(report.keys, [5]);
/// assert_eq!((report.epoch, report.marked, report.free), (1, 0, 8 + 64 - 1));
/// let keys: std::collections::HashSet<u64> = report.into_iter().collect();
/// assert!(keys.contains(&5));
/// # Ok::<(), Box<dyn std::error::Error>>(())
/// ```
#[derive(Clone, Debug, PartialEq, Eq, Hash)]
#[non_exhaustive]
pub struct Report<K = u64> {
    /// The keys in the set, ascending by their bits.
    pub keys: Vec<K>,
    /// The epoch.
    pub epoch: u64,
    /// How many removed nodes were still in a list.
    pub marked: u32,
    /// How many slots had no node in a list.
    pub free: u32,
}

impl<K> Report<K> {
    /// Goes over the keys.
    ///
    /// ```
    /// # use vbr::{Set, Shape};
    /// let report = Set::open_with(Shape::for_keys(8, 1), &[5, 7])?.close()?;
    /// assert_eq!(report.iter().sum::<u64>(), 12);
    /// # Ok::<(), Box<dyn std::error::Error>>(())
    /// ```
    pub fn iter(&self) -> slice::Iter<'_, K> {
        self.keys.iter()
    }
}

impl<K> IntoIterator for Report<K> {
    type Item = K;
    type IntoIter = vec::IntoIter<K>;

    fn into_iter(self) -> vec::IntoIter<K> {
        self.keys.into_iter()
    }
}

impl<'r, K> IntoIterator for &'r Report<K> {
    type Item = &'r K;
    type IntoIter = slice::Iter<'r, K>;

    fn into_iter(self) -> slice::Iter<'r, K> {
        self.iter()
    }
}

/// The keys.
impl<K> From<Report<K>> for Vec<K> {
    fn from(report: Report<K>) -> Vec<K> {
        report.keys
    }
}

//! Passes: the calls that sets and maps have alike.
// tools/interface makes this file of bindings/interface/pass.rs.in.
use crate::library::{answer_all, looked_up, walked, Raw};
use crate::{order, Bits, Cursor, Iter, Kind, OutOfSteps, Steps, WalkError};
use core::cell::UnsafeCell;
use core::fmt;
use core::marker::PhantomData;
use core::{ptr, slice};

/// The right of one thread at a time to make calls on a set or a map: what a handle owns and a loan lends, so a function that
/// takes a pass takes either.
///
/// A [`HandleOf`](crate::HandleOf) owns its pass, a loan ([`LentBy`](crate::LentBy)) has that of the handle on loan, and a turn
/// ([`Turn`](crate::Turn)) that of a handle which processes share; all deref to it.
///
/// A pass is reached by reference alone. It has no size, so that none can be put in the place of another: handles stay in the
/// sets that lend them, whatever a borrower does. It is neither `Clone` nor `Sync`.
///
/// A call has the budget of the handle ([`PassOf::steps`]), and one with `_within` in its name another one, for itself.
///
/// ```
/// use vbr::{Pass, Refusal, Set, Shape};
///
/// fn visit(pass: &mut Pass, page: u64) -> Result<bool, Refusal> {
///     pass.insert(page)
/// }
///
/// let mut handle = Set::handles(Shape::for_keys(8, 1))?.remove(0);
/// assert!(visit(&mut handle, 5)?);
/// let set = Set::open(Shape::for_keys(8, 1))?;
/// let mut lent = set.lend().expect("a free handle");
/// assert!(visit(&mut lent, 5)?);
/// # Ok::<(), Box<dyn std::error::Error>>(())
/// ```
///
/// ```compile_fail,E0277
/// # let shape = vbr::Shape::for_keys(8, 1);
/// let (one, other) = (vbr::Set::<u64>::open(shape).unwrap(), vbr::Set::<u64>::open(shape).unwrap());
/// let (mut lent, mut another) = (one.lend().unwrap(), other.lend().unwrap());
/// std::mem::swap(&mut *lent, &mut *another);
/// ```
///
/// ```compile_fail,E0277
/// fn is_sync<T: ?Sized + Sync>() {}
/// is_sync::<vbr::Pass>();
/// ```
#[repr(transparent)]
pub struct PassOf<T> {
    kind: PhantomData<T>,
    /// The handle as the library has it, the only one of the slice.
    raw: [UnsafeCell<Raw>],
}

// SAFETY: the library proves `Send` of its `Handle`, which `raw` is. It has no key and no value: each that it gives is made of bits by
// the thread that makes the call.
unsafe impl<T: Kind> Send for PassOf<T> {}

impl<T: Kind> PassOf<T> {
    /// The pass of a handle.
    #[inline]
    pub(crate) fn of(raw: &UnsafeCell<Raw>) -> &PassOf<T> {
        // SAFETY: a pass is a slice of such cells by another name.
        unsafe { &*(ptr::from_ref(slice::from_ref(raw)) as *const PassOf<T>) }
    }

    /// The same, for calls that change something.
    #[inline]
    pub(crate) fn of_mut(raw: &mut UnsafeCell<Raw>) -> &mut PassOf<T> {
        // SAFETY: a pass is a slice of such cells by another name, and `&mut` is exclusive.
        unsafe { &mut *(ptr::from_mut(slice::from_mut(raw)) as *mut PassOf<T>) }
    }
    /// The handle as the calls of the library take it. A call may have it while nothing else does: the pass isn't `Sync`, and
    /// no call lends it to anybody.
    #[inline]
    pub(crate) fn raw(&self) -> *mut Raw {
        UnsafeCell::raw_get(self.raw.as_ptr())
    }
}

/// The calls that sets and maps have alike.
impl<T: Kind> PassOf<T> {
    /// The budget that each call of the handle has; of a loan that of the set that lends it.
    ///
    /// ```
    /// # use vbr::{Set, Shape, Steps};
    /// let shape = Shape::for_keys(8, 1);
    /// assert_eq!(Set::<u64>::handles(shape)?[0].steps(), Steps::AMPLE);
    /// assert_eq!(Set::<u64>::handles(shape.with_steps(Steps::new(500)))?[0].steps(), Steps::new(500));
    /// # Ok::<(), Box<dyn std::error::Error>>(())
    /// ```
    #[inline]
    pub fn steps(&self) -> Steps {
        // SAFETY: it is written through `&mut` alone.
        Steps::new(unsafe { (*self.raw()).steps })
    }

    /// Looks a key up.
    ///
    /// Returns `true` if the key is there; `false` if it is absent. It leaves all that another thread can see as it was: its
    /// steps are loads.
    ///
    /// While the other handles stand still, 5n + 11 steps are enough, with n nodes in the bucket of the key.
    ///
    /// `contains` of a set and `contains_key` of a map are other names of it.
    ///
    /// It changes what the handle owns, and nothing that another handle sees, so it takes `&self` of a type that is not `Sync`.
    ///
    /// ```
    /// # use vbr::{Set, Shape};
    /// let handle = Set::handles_with(Shape::for_keys(8, 1), &[5])?.remove(0);
    /// assert!(handle.has(5)? && !handle.has(6)?);
    /// # Ok::<(), Box<dyn std::error::Error>>(())
    /// ```
    ///
    /// # Errors
    ///
    /// [`OutOfSteps`]. No call was made then.
    #[inline]
    pub fn has(&self, key: T::Key) -> Result<bool, OutOfSteps> {
        self.has_within(key, self.steps())
    }

    /// As [`PassOf::has`], with a budget of its own.
    ///
    /// ```
    /// # use vbr::{OutOfSteps, Set, Shape, Steps};
    /// let handle = Set::handles_with(Shape::for_keys(8, 1), &[5])?.remove(0);
    /// assert_eq!(handle.has_within(5, Steps::new(5 + 11)), Ok(true));
    /// assert_eq!(handle.has_within(5, Steps::new(1)), Err(OutOfSteps));
    /// # Ok::<(), Box<dyn std::error::Error>>(())
    /// ```
    ///
    /// # Errors
    ///
    /// The same as for [`PassOf::has`].
    #[inline]
    pub fn has_within(&self, key: T::Key, steps: Steps) -> Result<bool, OutOfSteps> {
        let key = key.to_bits();
        // SAFETY: one thread at a time has the pass, which is not `Sync`, and the call lends it to nobody.
        looked_up(order::finds(key, || unsafe { T::HAS(self.raw(), key, steps.count()) }))
    }

    /// Looks keys up, in their order, each by a call of its own.
    ///
    /// A refusal of one look-up says nothing about the others.
    ///
    /// Use it for many keys of a set that is larger than the cache. Before the look-ups of sixteen keys it loads what they
    /// begin with, so that they wait for memory together. These loads don't count as steps.
    ///
    /// Each has the budget of the handle, and what [`PassOf::has`] answers to it is written at its place.
    ///
    /// ```
    /// # use vbr::{Set, Shape};
    /// let handle = Set::handles_with(Shape::for_keys(8, 1), &[5, 7])?.remove(0);
    /// let mut answers = [Ok(false); 3];
    /// handle.has_all(&[5, 6, 7], &mut answers);
    /// assert_eq!(answers, [Ok(true), Ok(false), Ok(true)]);
    /// # Ok::<(), Box<dyn std::error::Error>>(())
    /// ```
    ///
    /// # Panics
    ///
    /// If there aren't as many answers as keys. No call was made then.
    #[inline]
    pub fn has_all(&self, keys: &[T::Key], answers: &mut [Result<bool, OutOfSteps>]) {
        self.has_all_within(keys, answers, self.steps());
    }

    /// As [`PassOf::has_all`], each key with this budget.
    ///
    /// ```
    /// # use vbr::{OutOfSteps, Set, Shape, Steps};
    /// let handle = Set::handles_with(Shape::for_keys(8, 1), &[5, 7])?.remove(0);
    /// let mut answers = [Ok(false); 2];
    /// handle.has_all_within(&[5, 6], &mut answers, Steps::new(1));
    /// assert_eq!(answers, [Err(OutOfSteps); 2]);
    /// # Ok::<(), Box<dyn std::error::Error>>(())
    /// ```
    ///
    /// # Panics
    ///
    /// As [`PassOf::has_all`] does.
    #[inline]
    pub fn has_all_within(&self, keys: &[T::Key], answers: &mut [Result<bool, OutOfSteps>], steps: Steps) {
        self.has_each(keys, answers, steps);
    }

    /// The same of keys of any type with the same bits.
    #[inline]
    pub(crate) fn has_each<K: Bits>(&self, keys: &[K], answers: &mut [Result<bool, OutOfSteps>], steps: Steps) {
        // SAFETY: as for `has_within`; there is room for as many answers as keys.
        let call = |keys: &[u64], told: &mut [i32]| unsafe {
            T::HAS_ALL(self.raw(), keys.as_ptr(), keys.len(), told.as_mut_ptr(), steps.count());
        };
        answer_all(keys, answers, call, looked_up);
    }

    /// Goes over all keys while other threads make calls: a walk, each of whose calls has the budget of the handle. All its steps
    /// are loads.
    ///
    /// Each key that is in the set from the first call of the walk to the last is given, once. No key is given twice, and none
    /// that wasn't in the set at a moment of the call that gives it. Keys come bucket by bucket, and those of a bucket ascend.
    /// What isn't said is that they were there together at one moment, as those of a report were: a key that is inserted or
    /// removed meanwhile is given or not.
    ///
    /// The walk borrows the handle, which can look keys up meanwhile. Other handles make any calls; with [`PassOf::next`] this
    /// one does too.
    ///
    /// ```
    /// # use vbr::{OutOfSteps, Set, Shape};
    /// fn count_even(pass: &vbr::Pass) -> Result<u64, OutOfSteps> {
    ///     let mut count = 0;
    ///     for key in pass {
    ///         count += u64::from(key? % 2 == 0);
    ///     }
    ///     Ok(count)
    /// }
    ///
    /// let handle = Set::handles_with(Shape::for_keys(8, 1), &[2, 5, 9])?.remove(0);
    /// assert_eq!(count_even(&handle)?, 1);
    /// let mut keys = handle.iter().collect::<Result<Vec<_>, _>>()?;
    /// keys.sort();
    /// assert_eq!(keys, [2, 5, 9]);
    /// # Ok::<(), Box<dyn std::error::Error>>(())
    /// ```
    ///
    /// Of a map it gives each key with its value. The two were in the map together at a moment of the call that gives them.
    ///
    /// ```
    /// # use vbr::{Map, Shape};
    /// let handle = Map::handles_with(Shape::for_keys(8, 1), &[(5, 70), (7, 71)])?.remove(0);
    /// let mut entries = handle.iter().collect::<Result<Vec<_>, _>>()?;
    /// entries.sort();
    /// assert_eq!(entries, [(5, 70), (7, 71)]);
    /// for entry in &handle {
    ///     let (key, value) = entry?;
    ///     assert_eq!(handle.get(key)?, Some(value)); // as nobody else makes calls
    /// }
    /// # Ok::<(), Box<dyn std::error::Error>>(())
    /// ```
    ///
    /// # Errors
    ///
    /// An item is [`OutOfSteps`] if a whole call didn't come to a later bucket, as [`Iter`] says; [`PassOf::next`] says which
    /// budget is enough.
    #[inline]
    pub fn iter(&self) -> Iter<'_, T> {
        self.iter_within(self.steps())
    }

    /// As [`PassOf::iter`], each of whose calls has this budget.
    ///
    /// ```
    /// # use vbr::{OutOfSteps, Set, Shape, Steps};
    /// let handle = Set::handles_with(Shape::for_keys(8, 1), &[2, 5, 9])?.remove(0);
    /// assert_eq!(handle.iter_within(Steps::new(100)).count(), 3);
    /// assert_eq!(handle.iter_within(Steps::new(1)).next(), Some(Err(OutOfSteps)));
    /// # Ok::<(), Box<dyn std::error::Error>>(())
    /// ```
    ///
    /// # Errors
    ///
    /// The same as for [`PassOf::iter`].
    #[inline]
    pub fn iter_within(&self, steps: Steps) -> Iter<'_, T> {
        Iter::new(self, steps)
    }

    /// Gives the next key of a walk, by loads alone.
    ///
    /// Returns the next key if one is left, which was there during the call; `None` if the walk is at its end: no key is
    /// left. It leaves the cursor after the key that was given, and at [`WalkError::OutOfSteps`] as far as it has come. After
    /// the last node of a bucket it is before the next bucket, so a walk doesn't enter the bucket again.
    ///
    /// It enters the cursor's bucket at its head. It makes three steps for each bucket that it enters, three for a removed
    /// node that is still in its list, and five for any other node. If others disturb it in a bucket, it goes over that
    /// bucket again, at most once for each disturbance.
    ///
    /// In a map the value takes two steps more.
    ///
    /// A walk begins at [`Cursor::first`], and what [`PassOf::iter`] says of a walk holds for these calls of one handle. Between
    /// two of them the handle makes any other calls.
    ///
    /// ```
    /// # use vbr::{Cursor, Set, Shape};
    /// let mut handle = Set::handles_with(Shape::for_keys(8, 1), &[2, 5, 9])?.remove(0);
    /// let mut cursor = Cursor::first();
    /// while let Some(key) = handle.next(&mut cursor)? {
    ///     if key % 2 == 1 {
    ///         handle.remove(key)?;
    ///     }
    /// }
    /// assert_eq!(handle.close()?.expect("the only handle").keys, [2]);
    /// # Ok::<(), Box<dyn std::error::Error>>(())
    /// ```
    ///
    /// ```
    /// # use vbr::{Cursor, Map, Shape};
    /// # let mut handle = Map::handles_with(Shape::for_keys(8, 1), &[(5, 70), (7, 71)])?.remove(0);
    /// # let mut cursor = Cursor::first();
    /// while let Some((key, value)) = handle.next(&mut cursor)? {
    ///     if value > 70 {
    ///         handle.remove(key)?;
    ///     }
    /// }
    /// # assert_eq!(handle.close()?.expect("the only handle").entries, [(5, 70)]);
    /// # Ok::<(), Box<dyn std::error::Error>>(())
    /// ```
    ///
    /// # Errors
    ///
    /// - [`WalkError::Reshaped`].
    /// - [`WalkError::OutOfSteps`]: call again, and with twice the budget if that may have been too small. The cursor has
    ///   come to a later bucket then, or the budget was too small for its bucket. With n nodes there, 5n + 11 steps are
    ///   enough while the other handles stand still, and (m + 1)(5(n + m) + 11) if they disturb the call there m times.
    ///
    /// No call was made then.
    #[inline]
    pub fn next(&self, cursor: &mut Cursor) -> Result<Option<T::Item>, WalkError> {
        self.next_within(cursor, self.steps())
    }

    /// As [`PassOf::next`], with a budget of its own.
    ///
    /// ```
    /// # use vbr::{Cursor, Set, Shape, Steps, WalkError};
    /// let handle = Set::handles_with(Shape::for_keys(8, 1), &[5])?.remove(0);
    /// let mut cursor = Cursor::first();
    /// assert_eq!(handle.next_within(&mut cursor, Steps::new(1)), Err(WalkError::OutOfSteps));
    /// assert_eq!(handle.next_within(&mut cursor, Steps::new(100)), Ok(Some(5)));
    /// # Ok::<(), Box<dyn std::error::Error>>(())
    /// ```
    ///
    /// # Errors
    ///
    /// The same as for [`PassOf::next`].
    #[inline]
    pub fn next_within(&self, cursor: &mut Cursor, steps: Steps) -> Result<Option<T::Item>, WalkError> {
        let mut given = T::Plain::default();
        // SAFETY: as for `has_within`; nothing else has the cursor and what is given.
        let told = unsafe { T::NEXT(self.raw(), cursor, &raw mut given, steps.count()) };
        if !walked(told)? {
            return Ok(None);
        }
        order::finds(T::key(&given), || told);
        Ok(Some(T::item(given)))
    }

    /// The next key of a walk, by as many calls as it takes, as long as each comes further.
    #[inline]
    pub(crate) fn walk_on(&self, cursor: &mut Cursor, steps: Steps) -> Result<Option<T::Item>, OutOfSteps> {
        cursor.go_on(|cursor| self.next_within(cursor, steps))
    }

    /// Returns the epoch that the handle read last in a call.
    ///
    /// It is 1 before its first call. Renew the set before it reaches [`last_epoch`](crate::PassOf::last_epoch). It makes no
    /// step, so others may have advanced the epoch since.
    ///
    /// ```
    /// # use vbr::{Set, Shape};
    /// let handle = Set::<u64>::handles(Shape::new(8, 2, 100))?.remove(0);
    /// let is_near = handle.epoch() + 10 >= handle.last_epoch(); // then renew the set
    /// assert!(!is_near);
    /// # Ok::<(), Box<dyn std::error::Error>>(())
    /// ```
    #[inline]
    pub fn epoch(&self) -> u64 {
        // SAFETY: as for `has_within`.
        unsafe { T::EPOCH(self.raw()) }
    }

    /// Returns the last epoch that the set was opened with.
    ///
    /// ```
    /// # use vbr::{Set, Shape};
    /// let handle = Set::<u64>::handles(Shape::new(8, 2, 100))?.remove(0);
    /// assert_eq!(handle.last_epoch(), 100);
    /// # Ok::<(), Box<dyn std::error::Error>>(())
    /// ```
    #[inline]
    pub fn last_epoch(&self) -> u64 {
        // SAFETY: as for `has_within`.
        unsafe { T::LAST_EPOCH(self.raw()) }
    }

    /// Returns how many slots the set was opened with.
    ///
    /// ```
    /// # use vbr::{Set, Shape};
    /// let handle = Set::<u64>::handles(Shape::new(640, 2, 100))?.remove(0);
    /// assert_eq!(handle.slots(), 640);
    /// # Ok::<(), Box<dyn std::error::Error>>(())
    /// ```
    #[inline]
    pub fn slots(&self) -> u32 {
        // SAFETY: as for `has_within`.
        unsafe { T::SLOTS(self.raw()) }
    }

    /// Returns how many buckets the set was opened with.
    ///
    /// ```
    /// # use vbr::{Set, Shape};
    /// let handle = Set::<u64>::handles(Shape::for_keys(1_000, 1))?.remove(0);
    /// assert_eq!(handle.buckets(), 1_024);
    /// # Ok::<(), Box<dyn std::error::Error>>(())
    /// ```
    #[inline]
    pub fn buckets(&self) -> u32 {
        // SAFETY: as for `has_within`.
        unsafe { T::BUCKETS(self.raw()) }
    }

    /// Returns a seed below 2^63 that spreads keys over the buckets as those of the set are spread.
    ///
    /// It is the seed that the set was opened with, drawn or given; if that is 2^63 or more, its equivalent, which is 2^63
    /// less.
    ///
    /// ```
    /// # use vbr::{Set, Shape};
    /// let handle = Set::<u64>::handles(Shape::for_keys(1_000, 1).with_seed(7))?.remove(0);
    /// assert_eq!(handle.seed(), 7);
    /// # Ok::<(), Box<dyn std::error::Error>>(())
    /// ```
    #[inline]
    pub fn seed(&self) -> u64 {
        // SAFETY: as for `has_within`.
        unsafe { T::SEED(self.raw()) }
    }

    /// Returns how many keys the handle's calls have added, less those that they took out.
    ///
    /// It is the number of inserts that were answered yes, less that of removes that were. Of the handles that were opened
    /// together the first begins with the keys that the set opened with, the others with 0. It makes no step.
    ///
    /// While no call is under way, the balances of all handles of a set add up to the number of its keys. A handle takes its
    /// balance along when it is closed.
    ///
    /// A call that changes a value leaves it as it was.
    ///
    /// While threads run, let each put the balance of its handle where the others read it: the sum of these is off by at most the
    /// calls that are under way or end while it is made.
    ///
    /// After a renewal the balance of the first handle is the number of keys, and that of the others 0. What was put before is of
    /// the set as it was, so put that of each handle anew before the sum is made.
    ///
    /// ```
    /// # use vbr::{Set, Shape};
    /// let mut handles = Set::handles_with(Shape::for_keys(8, 2), &[5, 7])?;
    /// assert!(handles[0].insert(6)? && handles[1].remove(5)?);
    /// assert_eq!(handles.iter().map(|handle| handle.balance()).collect::<Vec<_>>(), [3, -1]);
    /// assert_eq!(handles.iter().map(|handle| handle.balance()).sum::<i64>(), 2);
    /// # Ok::<(), Box<dyn std::error::Error>>(())
    /// ```
    #[inline]
    pub fn balance(&self) -> i64 {
        // SAFETY: as for `has_within`.
        unsafe { T::BALANCE(self.raw()) }
    }

    /// Returns how often calls by the handle broke a traversal off, since others had changed what it read, and began it anew.
    ///
    /// It is that number since the opening or the last renewal, and 0 for an empty handle. It is counted for those who
    /// operate a program, and tested; nothing is proved of it. It leaves all as it was. It makes no step.
    ///
    /// ```
    /// # use vbr::{Set, Shape};
    /// let handle = Set::<u64>::handles(Shape::new(8, 2, 100))?.remove(0);
    /// assert_eq!(handle.restarts(), 0); // no other thread makes calls
    /// # Ok::<(), Box<dyn std::error::Error>>(())
    /// ```
    #[inline]
    pub fn restarts(&self) -> u64 {
        // SAFETY: as for `has_within`.
        unsafe { T::RESTARTS(self.raw()) }
    }

    /// Returns how many removed nodes calls by the handle met on their way, and unlinked for others.
    ///
    /// It is that number, of which [`restarts`](crate::PassOf::restarts) says the rest. It leaves all as it was. It makes no
    /// step.
    ///
    /// ```
    /// # use vbr::{Set, Shape};
    /// let handle = Set::<u64>::handles(Shape::new(8, 2, 100))?.remove(0);
    /// assert_eq!(handle.helps(), 0); // no remove was held up
    /// # Ok::<(), Box<dyn std::error::Error>>(())
    /// ```
    #[inline]
    pub fn helps(&self) -> u64 {
        // SAFETY: as for `has_within`.
        unsafe { T::HELPS(self.raw()) }
    }

    /// Returns how often calls by the handle advanced the epoch.
    ///
    /// It is that number, of which [`restarts`](crate::PassOf::restarts) says the rest. The epoch is one more than those of
    /// all handles together, while none was renewed. It leaves all as it was. It makes no step.
    ///
    /// ```
    /// # use vbr::{Set, Shape};
    /// let handle = Set::<u64>::handles(Shape::new(8, 2, 100))?.remove(0);
    /// assert_eq!(handle.advances() + 1, handle.epoch());
    /// # Ok::<(), Box<dyn std::error::Error>>(())
    /// ```
    #[inline]
    pub fn advances(&self) -> u64 {
        // SAFETY: as for `has_within`.
        unsafe { T::ADVANCES(self.raw()) }
    }

    /// Returns how many slots lie in the pool that all handles share.
    ///
    /// It is that number, at most that of the slots, and 0 for an empty handle. It is exact while no call is under way, and
    /// else what others take and give meanwhile may be counted or not. It leaves all as it was. It loads one word for each 64
    /// slots, and makes no step.
    ///
    /// ```
    /// # use vbr::{Set, Shape};
    /// let handles = Set::<u64>::handles(Shape::for_keys(1_000, 1))?;
    /// assert_eq!(handles[0].free_about(), handles[0].slots() - 32); // it keeps 32 to itself
    /// # Ok::<(), Box<dyn std::error::Error>>(())
    /// ```
    #[inline]
    pub fn free_about(&self) -> u32 {
        // SAFETY: as for `has_within`.
        unsafe { T::FREE_ABOUT(self.raw()) }
    }

    /// Puts the slots that the handle keeps to itself into the pool that all handles share, where any of them finds them.
    ///
    /// Returns how many it gave back, at most 64. It can't fail. It leaves the handle without slots of its own. Its next
    /// insert that adds a key takes slots in reserve again, as [`reserve`](crate::PassOf::reserve) says.
    ///
    /// It makes one step for each slot, makes no call on the set, and takes no memory. A handle that is closed or dropped
    /// does so by itself.
    ///
    /// ```
    /// # use vbr::{Refusal, Set, Shape};
    /// let mut handles = Set::handles(Shape::new(1, 1, 100).with_handles(2))?;
    /// assert!(handles[0].insert(5)? && handles[0].remove(5)?);
    /// assert_eq!(handles[1].insert(6), Err(Refusal::NoSlot)); // the first handle has the only slot
    /// assert_eq!(handles[0].give_slots_back(), 1);
    /// assert!(handles[1].insert(6)?);
    /// # Ok::<(), Box<dyn std::error::Error>>(())
    /// ```
    #[inline]
    pub fn give_slots_back(&mut self) -> u32 {
        // SAFETY: as for `has_within`.
        unsafe { T::SPARE(self.raw()) }
    }

    /// The old name of [`PassOf::give_slots_back`], for one version.
    ///
    /// ```
    /// # #![allow(deprecated)]
    /// # use vbr::{Set, Shape};
    /// let mut handles = Set::handles(Shape::for_keys(8, 1))?;
    /// assert!(handles[0].insert(5)?);
    /// assert!(handles[0].spare() > 0); // as give_slots_back
    /// # Ok::<(), Box<dyn std::error::Error>>(())
    /// ```
    #[deprecated(since = "0.3.0", note = "it is called `give_slots_back`")]
    #[inline]
    pub fn spare(&mut self) -> u32 {
        self.give_slots_back()
    }

    /// Takes slots for the handle's next inserts out of the pool that all handles share.
    ///
    /// `wanted` is how many the handle then keeps to itself, or 63 if that is less. Returns how many it took: fewer only if
    /// one pass over all slots finds no more. It can't fail. It leaves these slots for this handle alone.
    /// [`give_slots_back`](crate::PassOf::give_slots_back) does the opposite.
    ///
    /// It makes at most one step for each slot that it takes, one for each 64 slots of the set, and one for each slot that
    /// others take out of that pool meanwhile. It makes no call on the set, and takes no memory.
    ///
    /// A handle keeps a reserve by itself: 32 slots, or slots / (8 * handles) if that is less, so none in a set with fewer
    /// than 8 slots for each handle. With 64 slots or more for each it takes them when it is opened or renewed, in as many
    /// tries. A try fails at a slot that has a key, and the next one is up to 64 slots further on. So it takes all if the set
    /// opens empty, and often none if it opens with thousands of keys. After an insert that added a key, if more than an
    /// eighth of the reserve is lacking, it makes up to 5 tries to take a slot, within the budget of the call. So a handle
    /// that takes a key out before each one that it puts in, as a full cache does, advances the epoch in about one of 30
    /// inserts, and not in each. With r slots in reserve, one insert in r + 1 advances the epoch. Call this to hold more than
    /// 32, or in a small set. Inserts take the handle's own slots first, so inserts that fill the set use the reserve up. The
    /// reserve is part of the 64 slots that are counted for each handle. A handle that won't insert may give it back at once.
    ///
    /// ```
    /// # use vbr::{Set, Shape};
    /// let mut handles = Set::handles(Shape::new(100, 8, 1_000))?;
    /// assert_eq!(handles[0].reserve(32), 20); // twelve it has since its opening
    /// for key in 0..330 {
    ///     assert!(handles[0].insert(key)? && handles[0].remove(key)?);
    /// }
    /// assert!(handles[0].epoch() <= 11);
    /// # Ok::<(), Box<dyn std::error::Error>>(())
    /// ```
    #[inline]
    pub fn reserve(&mut self, wanted: u32) -> u32 {
        // SAFETY: as for `has_within`.
        unsafe { T::RESERVE(self.raw(), wanted) }
    }
}

impl<T: Kind> PassOf<T> {
    /// What a handle shows of itself, by this name. It makes no step.
    pub(crate) fn show(&self, name: &str, f: &mut fmt::Formatter<'_>) -> fmt::Result {
        f.debug_struct(name)
            .field("slots", &self.slots())
            .field("buckets", &self.buckets())
            .field("epoch", &self.epoch())
            .field("last_epoch", &self.last_epoch())
            .field("balance", &self.balance())
            .finish_non_exhaustive()
    }
}

impl<T: Kind> fmt::Debug for PassOf<T> {
    fn fmt(&self, f: &mut fmt::Formatter<'_>) -> fmt::Result {
        self.show(T::NAMES[2], f)
    }
}

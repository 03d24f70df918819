//! Slots in hand, and what stands in slots: for records beside the entries.
// tools/interface makes this file of bindings/interface/holding.rs.in.
use crate::library::{
    code, looked_up, updated, vbr_insert_held_within, vbr_map_insert_held_within, vbr_map_put_held_within,
    vbr_map_replace_held_within, walked, with_value, Stands,
};
use crate::{order, Bits, Cursor, Entries, IterAt, Keys, Kind, OutOfSteps, PassOf, Refusal, Steps, WalkError};
use core::fmt;
use core::marker::PhantomData;
use core::mem::ManuallyDrop;
use core::ops::Deref;

/// Where an entry stands: the slot of its node, and the birth of that node; in a map also its value. No other node that was
/// ever in that slot has this birth. So it names one entry, which may have left meanwhile, and no later one with the same
/// key. It stays valid until the set is renewed or closed.
///
/// ```
/// # use vbr::{Map, Shape};
/// let handle = Map::handles_with(Shape::for_keys(8, 1), &[(5, 70)])?.remove(0);
/// let at = handle.get_entry(5)?.expect("5 is there");
/// assert_eq!((at.slot(), at.value()), (0, 70));
/// assert!(handle.is_still(&at));
/// # Ok::<(), Box<dyn std::error::Error>>(())
/// ```
pub struct Incarnation<T = Keys> {
    pub(crate) stands: Stands,
    kind: PhantomData<fn() -> T>,
}

impl<T: Kind> Incarnation<T> {
    /// The slot, which is below [`PassOf::slots`].
    ///
    /// ```
    /// # use vbr::{Set, Shape};
    /// let handle = Set::handles_with(Shape::for_keys(8, 1), &[5, 7])?.remove(0);
    /// assert_eq!(handle.get_entry(7)?.map(|at| at.slot()), Some(1));
    /// # Ok::<(), Box<dyn std::error::Error>>(())
    /// ```
    #[inline]
    #[must_use]
    pub fn slot(&self) -> u32 {
        self.stands.slot
    }

    /// The birth of the node.
    ///
    /// ```
    /// # use vbr::{Map, Shape};
    /// let mut handle = Map::handles_with(Shape::new(2, 1, 100), &[(5, 70)])?.remove(0);
    /// let before = handle.get_entry(5)?.expect("5 is there");
    /// for value in 0..4 {
    ///     handle.put(5, value)?;
    /// }
    /// let after = handle.get_entry(5)?.expect("5 is there");
    /// assert!(before.slot() == after.slot() && before.birth() < after.birth() && before != after);
    /// # Ok::<(), Box<dyn std::error::Error>>(())
    /// ```
    #[inline]
    #[must_use]
    pub fn birth(&self) -> u64 {
        self.stands.birth
    }
}

impl<K: Bits, V: Bits> Incarnation<Entries<K, V>> {
    /// The value of the entry.
    ///
    /// ```
    /// # use vbr::{Map, Shape};
    /// let handle = Map::handles_with(Shape::for_keys(8, 1), &[(5, 'k')])?.remove(0);
    /// assert_eq!(handle.get_entry(5)?.map(|at| at.value()), Some('k'));
    /// # Ok::<(), Box<dyn std::error::Error>>(())
    /// ```
    #[inline]
    #[must_use]
    pub fn value(&self) -> V {
        V::from_bits(self.stands.value)
    }
}

impl<T: Kind> Clone for Incarnation<T> {
    #[inline]
    fn clone(&self) -> Self {
        *self
    }
}

impl<T: Kind> Copy for Incarnation<T> {}

/// It is the same entry.
impl<T: Kind> PartialEq for Incarnation<T> {
    #[inline]
    fn eq(&self, other: &Self) -> bool {
        (self.slot(), self.birth()) == (other.slot(), other.birth())
    }
}

impl<T: Kind> Eq for Incarnation<T> {}

impl<T: Kind> fmt::Debug for Incarnation<T> {
    fn fmt(&self, f: &mut fmt::Formatter<'_>) -> fmt::Result {
        f.debug_struct("Incarnation").field("slot", &self.slot()).field("birth", &self.birth()).finish()
    }
}

/// Slots in hand, and where entries stand.
impl<T: Kind> PassOf<T> {
    /// Takes a slot in hand, for a record that the program keeps beside it.
    ///
    /// It leaves the slot in the hand of this handle alone, until a call makes it the node of a key, or it is let go. So a
    /// program may write the record of this slot meanwhile, and nobody else does. A close, a drop and a renewal put it back.
    ///
    /// A slot that is held is one of the 64 that are counted for each handle.
    ///
    /// A [`Held`] borrows the pass, looks up by it, and lets go of the slot once it is dropped. [`Records`](crate::Records) are such
    /// records.
    ///
    /// ```
    /// # use vbr::{Map, Shape};
    /// let mut handle = Map::handles(Shape::for_keys(8, 1))?.remove(0);
    /// let held = handle.hold()?;
    /// let slot = held.slot();
    /// assert!(held.try_insert(5, 70)?.is_ok());
    /// assert_eq!(handle.get_entry(5)?.map(|at| at.slot()), Some(slot));
    /// # Ok::<(), Box<dyn std::error::Error>>(())
    /// ```
    ///
    /// # Errors
    ///
    /// [`Refusal::OutOfSteps`], [`Refusal::NoSlot`] and [`Refusal::EpochSpent`]. No call was made then.
    #[inline]
    pub fn hold(&mut self) -> Result<Held<'_, T>, Refusal> {
        self.hold_within(self.steps())
    }

    /// As [`PassOf::hold`], with a budget of its own.
    ///
    /// ```
    /// # use vbr::{Refusal, Set, Shape, Steps};
    /// let mut handle = Set::<u64>::handles(Shape::for_keys(8, 1))?.remove(0);
    /// assert_eq!(handle.hold_within(Steps::new(1)).err(), Some(Refusal::OutOfSteps));
    /// # Ok::<(), Box<dyn std::error::Error>>(())
    /// ```
    ///
    /// # Errors
    ///
    /// The same as for [`PassOf::hold`].
    #[inline]
    pub fn hold_within(&mut self, steps: Steps) -> Result<Held<'_, T>, Refusal> {
        let mut slot = 0;
        // SAFETY: `&mut` is exclusive, and nothing else has the number.
        let mut told = unsafe { T::HOLD(self.raw(), &raw mut slot, steps.count()) };
        if told == code::HELD {
            // that of one that was forgotten
            // SAFETY: as above.
            told = unsafe { (T::LET_GO(self.raw()), T::HOLD(self.raw(), &raw mut slot, steps.count())).1 };
        }
        updated(told)?;
        Ok(Held { pass: self, slot })
    }

    /// Looks a key up and says where it stands.
    ///
    /// Returns its entry if the key is there; `None` if it is absent. It leaves what [`has`](crate::PassOf::has) leaves.
    ///
    /// Its steps are those of [`has`](crate::PassOf::has), all loads.
    ///
    /// In a map its steps are those of [`get`](crate::MapPass::get), all loads.
    ///
    /// ```
    /// # use vbr::{Set, Shape};
    /// let handle = Set::handles_with(Shape::for_keys(8, 1), &[5])?.remove(0);
    /// assert!(handle.get_entry(5)?.is_some() && handle.get_entry(6)?.is_none());
    /// # Ok::<(), Box<dyn std::error::Error>>(())
    /// ```
    ///
    /// # Errors
    ///
    /// [`OutOfSteps`]. No call was made then.
    #[inline]
    pub fn get_entry(&self, key: T::Key) -> Result<Option<Incarnation<T>>, OutOfSteps> {
        self.get_entry_within(key, self.steps())
    }

    /// As [`PassOf::get_entry`], with a budget of its own.
    ///
    /// ```
    /// # use vbr::{OutOfSteps, Set, Shape, Steps};
    /// let handle = Set::handles_with(Shape::for_keys(8, 1), &[5])?.remove(0);
    /// assert_eq!(handle.get_entry_within(5, Steps::new(1)), Err(OutOfSteps));
    /// # Ok::<(), Box<dyn std::error::Error>>(())
    /// ```
    ///
    /// # Errors
    ///
    /// The same as for [`PassOf::get_entry`].
    #[inline]
    pub fn get_entry_within(&self, key: T::Key, steps: Steps) -> Result<Option<Incarnation<T>>, OutOfSteps> {
        let (key, mut stands) = (key.to_bits(), Stands::default());
        // SAFETY: one thread at a time has the pass, which is not `Sync`, and the call lends it to nobody; nothing else has what is
        // written.
        let told = order::finds(key, || unsafe { T::GET_ENTRY(self.raw(), key, &raw mut stands, steps.count()) });
        Ok(looked_up(told)?.then_some(Incarnation { stands, kind: PhantomData }))
    }

    /// Says whether a slot still belongs to the entry that was found there.
    ///
    /// Returns `true` if at each moment since the entry was found, no other node was in the slot, and nobody had it in hand.
    /// So a record that was copied from beside it in between is the entry's, and whole. The entry itself may have been taken
    /// out meanwhile. Returns `false` if the slot was handed out anew, and what was copied belongs to no entry. It leaves the
    /// set as it was. It makes one step, a load.
    ///
    /// [`Records::read`](crate::Records::read) copies and asks.
    ///
    /// ```
    /// # use vbr::{Map, Shape};
    /// let mut handle = Map::handles_with(Shape::new(1, 1, 100), &[(5, 70)])?.remove(0);
    /// let at = handle.get_entry(5)?.expect("5 is there");
    /// handle.remove(5)?;
    /// assert!(handle.is_still(&at)); // it has left, and its slot is as it was
    /// let held = handle.hold()?;
    /// assert!(held.slot() == at.slot() && !held.is_still(&at));
    /// # Ok::<(), Box<dyn std::error::Error>>(())
    /// ```
    #[inline]
    #[must_use]
    pub fn is_still(&self, at: &Incarnation<T>) -> bool {
        // SAFETY: as for `get_entry_within`.
        unsafe { T::IS_STILL(self.raw(), &raw const at.stands) == code::YES }
    }

    /// Takes a key out if it still has the very entry that was found.
    ///
    /// Returns `true` if the key had that entry, and is taken out. Returns `false` if it is absent, or was taken out and
    /// added again since then; nothing was changed. It leaves what [`remove`](crate::Pass::remove) leaves.
    ///
    /// ```
    /// # use vbr::{Set, Shape};
    /// let mut handle = Set::handles_with(Shape::for_keys(8, 1), &[5])?.remove(0);
    /// let before = handle.get_entry(5)?.expect("5 is there");
    /// assert!(handle.remove(5)? && handle.insert(5)?);
    /// assert!(!handle.remove_entry(5, &before)?); // it was added anew, so it has another entry
    /// let now = handle.get_entry(5)?.expect("5 is there");
    /// assert!(handle.remove_entry(5, &now)?);
    /// # Ok::<(), Box<dyn std::error::Error>>(())
    /// ```
    ///
    /// A key of a map that was given a value since then has another entry, even with the same value.
    ///
    /// ```
    /// # use vbr::{Map, Shape};
    /// let mut handle = Map::handles_with(Shape::for_keys(8, 1), &[(5, 70)])?.remove(0);
    /// let before = handle.get_entry(5)?.expect("5 is there");
    /// handle.replace(5, 70)?;
    /// assert!(!handle.remove_entry(5, &before)?);
    /// # Ok::<(), Box<dyn std::error::Error>>(())
    /// ```
    ///
    /// # Errors
    ///
    /// [`OutOfSteps`]: a budget that is enough for [`remove`](crate::Pass::remove) is enough. No call was made then.
    #[inline]
    pub fn remove_entry(&mut self, key: T::Key, at: &Incarnation<T>) -> Result<bool, OutOfSteps> {
        self.remove_entry_within(key, at, self.steps())
    }

    /// As [`PassOf::remove_entry`], with a budget of its own.
    ///
    /// ```
    /// # use vbr::{OutOfSteps, Set, Shape, Steps};
    /// let mut handle = Set::handles_with(Shape::for_keys(8, 1), &[5])?.remove(0);
    /// let at = handle.get_entry(5)?.expect("5 is there");
    /// assert_eq!(handle.remove_entry_within(5, &at, Steps::new(1)), Err(OutOfSteps));
    /// assert_eq!(handle.remove_entry_within(5, &at, Steps::new(9 + 11)), Ok(true));
    /// # Ok::<(), Box<dyn std::error::Error>>(())
    /// ```
    ///
    /// # Errors
    ///
    /// The same as for [`PassOf::remove_entry`].
    #[inline]
    pub fn remove_entry_within(&mut self, key: T::Key, at: &Incarnation<T>, steps: Steps) -> Result<bool, OutOfSteps> {
        let key = key.to_bits();
        // SAFETY: `&mut` is exclusive.
        looked_up(order::removes(key, || unsafe { T::REMOVE_ENTRY(self.raw(), key, &raw const at.stands, steps.count()) }))
    }

    /// Gives the next key of a walk and says where it stands.
    ///
    /// Returns the next key and its entry if one is left, which stood there at a moment of the call; `None` if the walk is at
    /// its end. It leaves what [`next`](crate::PassOf::next) leaves. Its steps are those of [`next`](crate::PassOf::next).
    ///
    /// ```
    /// # use vbr::{Cursor, Set, Shape};
    /// let mut handle = Set::handles_with(Shape::for_keys(8, 1), &[2, 5, 9])?.remove(0);
    /// let mut cursor = Cursor::first();
    /// while let Some((key, at)) = handle.next_at(&mut cursor)? {
    ///     if key % 2 == 1 {
    ///         handle.remove_entry(key, &at)?; // and not one that was added since
    ///     }
    /// }
    /// assert_eq!(handle.close()?.expect("the only handle").keys, [2]);
    /// # Ok::<(), Box<dyn std::error::Error>>(())
    /// ```
    ///
    /// # Errors
    ///
    /// [`WalkError::Reshaped`] and [`WalkError::OutOfSteps`]. No call was made then.
    #[inline]
    #[allow(clippy::type_complexity, reason = "it is what `next` gives, with the entry")]
    pub fn next_at(&self, cursor: &mut Cursor) -> Result<Option<(T::Key, Incarnation<T>)>, WalkError> {
        self.next_at_within(cursor, self.steps())
    }

    /// As [`PassOf::next_at`], with a budget of its own.
    ///
    /// ```
    /// # use vbr::{Cursor, Map, Shape, Steps, WalkError};
    /// let handle = Map::handles_with(Shape::for_keys(8, 1), &[(5, 70)])?.remove(0);
    /// let mut cursor = Cursor::first();
    /// assert_eq!(handle.next_at_within(&mut cursor, Steps::new(1)), Err(WalkError::OutOfSteps));
    /// let (key, at) = handle.next_at_within(&mut cursor, Steps::new(100))?.expect("5 is there");
    /// assert_eq!((key, at.slot(), at.value()), (5, 0, 70));
    /// # Ok::<(), Box<dyn std::error::Error>>(())
    /// ```
    ///
    /// # Errors
    ///
    /// The same as for [`PassOf::next_at`].
    #[inline]
    #[allow(clippy::type_complexity, reason = "it is what `next` gives, with the entry")]
    pub fn next_at_within(&self, cursor: &mut Cursor, steps: Steps) -> Result<Option<(T::Key, Incarnation<T>)>, WalkError> {
        let (mut key, mut stands) = (0, Stands::default());
        // SAFETY: as for `get_entry_within`.
        let told = unsafe { T::NEXT_AT(self.raw(), cursor, &raw mut key, &raw mut stands, steps.count()) };
        if !walked(told)? {
            return Ok(None);
        }
        order::finds(key, || told);
        Ok(Some((T::Key::from_bits(key), Incarnation { stands, kind: PhantomData })))
    }

    /// Goes over all keys as [`PassOf::iter`] does, and says where each stands.
    ///
    /// ```
    /// # use vbr::{Map, Shape};
    /// let handle = Map::handles_with(Shape::for_keys(8, 1), &[(5, 70), (7, 71)])?.remove(0);
    /// for each in handle.iter_at() {
    ///     let (key, at) = each?;
    ///     assert_eq!(handle.get_entry(key)?, Some(at)); // as nobody else makes calls
    /// }
    /// # Ok::<(), Box<dyn std::error::Error>>(())
    /// ```
    ///
    /// # Errors
    ///
    /// An item is [`OutOfSteps`] whenever [`PassOf::iter`]'s would be.
    #[inline]
    pub fn iter_at(&self) -> IterAt<'_, T> {
        self.iter_at_within(self.steps())
    }

    /// As [`PassOf::iter_at`], each of whose calls has this budget.
    ///
    /// ```
    /// # use vbr::{Map, OutOfSteps, Shape, Steps};
    /// let handle = Map::handles_with(Shape::for_keys(8, 1), &[(5, 70), (7, 71)])?.remove(0);
    /// assert_eq!(handle.iter_at_within(Steps::new(100)).count(), 2);
    /// assert_eq!(handle.iter_at_within(Steps::new(1)).next(), Some(Err(OutOfSteps)));
    /// # Ok::<(), Box<dyn std::error::Error>>(())
    /// ```
    ///
    /// # Errors
    ///
    /// The same as for [`PassOf::iter_at`].
    #[inline]
    pub fn iter_at_within(&self, steps: Steps) -> IterAt<'_, T> {
        IterAt::new(self, steps)
    }
}

/// A slot in hand, by [`PassOf::hold`]. Nobody else has it until it is made the node of a key, or dropped, which puts it back. It
/// derefs to its pass, for look-ups.
///
/// The calls that spend it take it, so its record can't be written once it is published. If they don't do what they are asked
/// for, they give it back.
///
/// ```
/// # use vbr::{Map, Shape};
/// let mut handle = Map::handles_with(Shape::for_keys(8, 1), &[(5, 70)])?.remove(0);
/// let held = handle.hold()?;
/// assert_eq!(held.get(5)?, Some(70));
/// let held = held.try_insert(5, 71)?.expect_err("5 is there, so the slot is held still");
/// assert_eq!(held.put(5, 71)?, Some(70));
/// # Ok::<(), Box<dyn std::error::Error>>(())
/// ```
///
/// ```compile_fail,E0382
/// # use vbr::{Map, Records, Shape};
/// # let mut handle = Map::handles(Shape::for_keys(8, 1)).unwrap().remove(0);
/// let records: Records<u64> = Records::open(handle.slots()).unwrap();
/// let mut held = handle.hold().unwrap();
/// held.put(5, 71).unwrap();
/// records.write(&mut held, &7); // it is published by now
/// ```
#[must_use = "a slot that is dropped is put back"]
pub struct Held<'p, T: Kind = Keys> {
    pass: &'p mut PassOf<T>,
    slot: u32,
}

impl<'p, T: Kind> Held<'p, T> {
    /// The slot, which is below [`PassOf::slots`].
    ///
    /// ```
    /// # use vbr::{Set, Shape};
    /// let mut handle = Set::<u64>::handles(Shape::for_keys(8, 1))?.remove(0);
    /// let slots = handle.slots();
    /// assert!(handle.hold()?.slot() < slots);
    /// # Ok::<(), Box<dyn std::error::Error>>(())
    /// ```
    #[inline]
    #[must_use]
    pub fn slot(&self) -> u32 {
        self.slot
    }

    /// Makes a call by the slot, which is spent if the answer is yes, and put back if the call is refused.
    #[inline]
    fn spent_by(self, call: impl FnOnce(&mut PassOf<T>) -> i32) -> Result<Result<(), Held<'p, T>>, OutOfSteps> {
        if looked_up(call(self.pass))? {
            let _spent = ManuallyDrop::new(self);
            return Ok(Ok(()));
        }
        Ok(Err(self))
    }
}

impl<'p, K: Bits> Held<'p, Keys<K>> {
    /// Adds a key by the slot that is held.
    ///
    /// Returns `Ok(())` if the key was absent, and stands in this slot; `Err` of the slot if it was there.
    ///
    /// ```
    /// # use vbr::{Set, Shape};
    /// let mut handle = Set::handles_with(Shape::for_keys(8, 1), &[5])?.remove(0);
    /// let held = handle.hold()?.insert(5)?.expect_err("5 is there, so the slot is held still");
    /// assert!(held.insert(6)?.is_ok());
    /// # Ok::<(), Box<dyn std::error::Error>>(())
    /// ```
    ///
    /// # Errors
    ///
    /// [`OutOfSteps`]. No call was made then, and the slot is put back.
    #[inline]
    pub fn insert(self, key: K) -> Result<Result<(), Held<'p, Keys<K>>>, OutOfSteps> {
        let (key, steps) = (key.to_bits(), self.steps());
        // SAFETY: `&mut` is exclusive.
        self.spent_by(|pass| order::adds(key, || unsafe { vbr_insert_held_within(pass.raw(), key, steps.count()) }))
    }
}

impl<'p, K: Bits, V: Bits> Held<'p, Entries<K, V>> {
    /// Adds a key with its value by the slot that is held.
    ///
    /// Returns `Ok(())` if the key was absent, and stands in this slot; `Err` of the slot if it was there, and keeps its
    /// value.
    ///
    /// ```
    /// # use vbr::{Map, Shape};
    /// let mut handle = Map::handles_with(Shape::for_keys(8, 1), &[(5, 70)])?.remove(0);
    /// let held = handle.hold()?.try_insert(5, 71)?.expect_err("5 is there, so the slot is held still");
    /// assert!(held.try_insert(6, 71)?.is_ok());
    /// # Ok::<(), Box<dyn std::error::Error>>(())
    /// ```
    ///
    /// # Errors
    ///
    /// [`OutOfSteps`]. No call was made then, and the slot is put back.
    #[inline]
    pub fn try_insert(self, key: K, value: V) -> Result<Result<(), Held<'p, Entries<K, V>>>, OutOfSteps> {
        let (key, value, steps) = (key.to_bits(), value.to_bits(), self.steps());
        self.spent_by(|pass| {
            // SAFETY: `&mut` is exclusive.
            order::adds(key, || unsafe { vbr_map_insert_held_within(pass.raw(), key, value, steps.count()) })
        })
    }

    /// Gives a key this value by the slot that is held, in place of the very entry that was found.
    ///
    /// Returns `Ok(())` if the key still had that entry, and this slot took its place; `Err` of the slot if it is absent, or
    /// has another entry by now, also one with the same value.
    ///
    /// ```
    /// # use vbr::{Map, Shape};
    /// let mut handle = Map::handles_with(Shape::for_keys(8, 1), &[(5, 70)])?.remove(0);
    /// let before = handle.get_entry(5)?.expect("5 is there");
    /// assert!(handle.hold()?.replace(5, &before, 71)?.is_ok());
    /// assert!(handle.hold()?.replace(5, &before, 72)?.is_err()); // it has another entry
    /// assert_eq!(handle.get(5)?, Some(71));
    /// # Ok::<(), Box<dyn std::error::Error>>(())
    /// ```
    ///
    /// # Errors
    ///
    /// [`OutOfSteps`]. No call was made then, and the slot is put back.
    #[inline]
    pub fn replace(
        self,
        key: K,
        at: &Incarnation<Entries<K, V>>,
        value: V,
    ) -> Result<Result<(), Held<'p, Entries<K, V>>>, OutOfSteps> {
        let (key, value, steps) = (key.to_bits(), value.to_bits(), self.steps());
        self.spent_by(|pass| {
            order::changes(key, || {
                // SAFETY: `&mut` is exclusive.
                unsafe { vbr_map_replace_held_within(pass.raw(), key, &raw const at.stands, value, steps.count()) }
            })
        })
    }

    /// Gives a key this value by the slot that is held, whether it is there or not.
    ///
    /// Returns the value that it had if the key was there, and stands in the slot with the new value; `None` if it was
    /// absent, and is inserted in the slot.
    ///
    /// ```
    /// # use vbr::{Map, Shape};
    /// let mut handle = Map::handles(Shape::for_keys(8, 1))?.remove(0);
    /// assert_eq!(handle.hold()?.put(5, 70)?, None);
    /// assert_eq!(handle.hold()?.put(5, 71)?, Some(70));
    /// # Ok::<(), Box<dyn std::error::Error>>(())
    /// ```
    ///
    /// # Errors
    ///
    /// [`OutOfSteps`]. No call was made then, and the slot is put back.
    #[inline]
    pub fn put(self, key: K, value: V) -> Result<Option<V>, OutOfSteps> {
        let (key, value, steps) = (key.to_bits(), value.to_bits(), self.steps());
        let told = with_value(looked_up, |found| {
            // SAFETY: `&mut` is exclusive, and nothing else has what is found.
            order::changes(key, || unsafe { vbr_map_put_held_within(self.pass.raw(), key, value, found, steps.count()) })
        })?;
        let _spent = ManuallyDrop::new(self);
        Ok(told)
    }
}

impl<T: Kind> Deref for Held<'_, T> {
    type Target = PassOf<T>;

    #[inline]
    fn deref(&self) -> &PassOf<T> {
        self.pass
    }
}

impl<T: Kind> Drop for Held<'_, T> {
    #[inline]
    fn drop(&mut self) {
        // SAFETY: `&mut` is exclusive.
        unsafe { T::LET_GO(self.pass.raw()) };
    }
}

impl<T: Kind> fmt::Debug for Held<'_, T> {
    fn fmt(&self, f: &mut fmt::Formatter<'_>) -> fmt::Result {
        f.debug_struct("Held").field("slot", &self.slot).finish_non_exhaustive()
    }
}

//! Going over all keys while other threads make calls.
use crate::{HandleOf, Incarnation, Keys, Kind, LentBy, OutOfSteps, PassOf, Steps, Table, Turn, WalkError};
use core::fmt;
use core::iter::FusedIterator;
use core::ops::Deref;

// %doc vbr_cursor
/// Where a walk stands: before the first key, or after the one that was given last. It may be copied and kept, and a walk
/// goes on from a copy as well, and by any handle of the set. The first call notes of which opening the handle is; once the
/// set is renewed, calls answer [`WalkError::Reshaped`](crate::WalkError::Reshaped). With a handle of another set, the walk
/// is refused or continues as a different one, and nothing is unsafe.
// %end
///
/// [`PassOf::next`] takes it on, and no thread that makes calls holds it up.
///
/// ```
/// # use vbr::{Cursor, Set, Shape};
/// let handles = Set::handles_with(Shape::new(8, 1, 100).with_handles(2), &[2, 5, 9])?;
/// let mut cursor = Cursor::first();
/// assert_eq!(handles[0].next(&mut cursor)?, Some(2));
/// let mut copy = cursor;
/// assert_eq!(handles[1].next(&mut cursor)?, Some(5));
/// assert_eq!(handles[1].next(&mut copy)?, Some(5));
/// # Ok::<(), Box<dyn std::error::Error>>(())
/// ```
#[repr(C)]
#[derive(Clone, Copy, Debug, Default, PartialEq, Eq, Hash)]
pub struct Cursor {
    bucket: u32,
    opening: u32,
    from: u64,
}

impl Cursor {
    /// Before the first key, as [`Cursor::default`] is too.
    ///
    /// ```
    /// # use vbr::{Cursor, Set, Shape};
    /// let handle = Set::handles_with(Shape::for_keys(8, 1), &[5])?.remove(0);
    /// let mut cursor = Cursor::first();
    /// assert_eq!(handle.next(&mut cursor)?, Some(5));
    /// assert_eq!(handle.next(&mut cursor)?, None);
    /// assert_eq!(Cursor::default(), Cursor::first());
    /// # Ok::<(), Box<dyn std::error::Error>>(())
    /// ```
    #[must_use]
    pub const fn first() -> Cursor {
        Cursor { bucket: 0, opening: 0, from: 0 }
    }

    /// What a walk that borrows its handle gives next, by as many calls as it takes, as long as each takes the cursor further.
    #[inline]
    pub(crate) fn go_on<G>(
        &mut self,
        call: impl Fn(&mut Cursor) -> Result<Option<G>, WalkError>,
    ) -> Result<Option<G>, OutOfSteps> {
        loop {
            let before = *self;
            let told = call(self);
            if told.is_ok() || (self.bucket, self.from) == (before.bucket, before.from) {
                return told.map_err(WalkError::of_borrowed);
            }
        }
    }
}

/// A walk over all keys of a set, or over all entries of a map, each a key and its value, as [`PassOf::iter`] begins it: of a
/// map's as `Iter<'_, Entries>`.
///
/// Each call of the library has the same budget of steps. One that is refused and has come further is made again, as often as
/// need be. If a whole call didn't come to a later bucket, the item is `Err(`[`OutOfSteps`]`)`. The walk isn't over by that:
/// the next item is of a call from the same place, or again such an error, for as long as the budget is too small for the
/// bucket. So leave it by `?`, or collect into a [`Result`]; what skips errors, as [`Iterator::flatten`] does, may go on for
/// ever. After the last key it gives `None` for good.
///
/// ```
/// # use vbr::{Entries, Iter, OutOfSteps};
/// fn sum_of_values(mut entries: Iter<'_, Entries>) -> Result<u64, OutOfSteps> {
///     entries.try_fold(0, |sum, entry| Ok(sum + entry?.1))
/// }
/// # let handle = vbr::Map::handles_with(vbr::Shape::for_keys(8, 1), &[(5, 70), (7, 71)])?.remove(0);
/// # assert_eq!(sum_of_values(handle.iter())?, 141);
/// # Ok::<(), Box<dyn std::error::Error>>(())
/// ```
#[must_use = "a walk makes no call before it is asked for a key"]
pub struct Iter<'h, T = Keys> {
    pass: &'h PassOf<T>,
    cursor: Cursor,
    steps: Steps,
}

impl<'h, T: Kind> Iter<'h, T> {
    pub(crate) fn new(pass: &'h PassOf<T>, steps: Steps) -> Iter<'h, T> {
        Iter { pass, cursor: Cursor::first(), steps }
    }
}

impl<T: Kind> Iterator for Iter<'_, T> {
    type Item = Result<T::Item, OutOfSteps>;

    #[inline]
    fn next(&mut self) -> Option<Result<T::Item, OutOfSteps>> {
        self.pass.walk_on(&mut self.cursor, self.steps).transpose()
    }
}

impl<T: Kind> FusedIterator for Iter<'_, T> {}

/// A walk over all keys that says where each stands, as [`PassOf::iter_at`] begins it. Otherwise it is as [`Iter`].
///
/// ```
/// # use vbr::{IterAt, Keys, OutOfSteps};
/// fn slots_of(keys: IterAt<'_, Keys>) -> Result<Vec<u32>, OutOfSteps> {
///     keys.map(|each| Ok(each?.1.slot())).collect()
/// }
/// # let handle = vbr::Set::handles_with(vbr::Shape::for_keys(8, 1), &[5, 7])?.remove(0);
/// # let mut slots = slots_of(handle.iter_at())?;
/// # slots.sort();
/// # assert_eq!(slots, [0, 1]);
/// # Ok::<(), Box<dyn std::error::Error>>(())
/// ```
#[must_use = "a walk makes no call before it is asked for a key"]
pub struct IterAt<'h, T = Keys>(Iter<'h, T>);

impl<'h, T: Kind> IterAt<'h, T> {
    pub(crate) fn new(pass: &'h PassOf<T>, steps: Steps) -> IterAt<'h, T> {
        IterAt(Iter::new(pass, steps))
    }
}

impl<T: Kind> Iterator for IterAt<'_, T> {
    type Item = Result<(T::Key, Incarnation<T>), OutOfSteps>;

    #[inline]
    fn next(&mut self) -> Option<Self::Item> {
        let Iter { pass, cursor, steps } = &mut self.0;
        cursor.go_on(|cursor| pass.next_at_within(cursor, *steps)).transpose()
    }
}

impl<T: Kind> FusedIterator for IterAt<'_, T> {}

/// A walk over all keys of a set, or over all entries of a map, that takes out what it gives, as [`PassOf::drain`] begins it.
/// If an item is [`OutOfSteps`], nothing was taken for it, and the next item is of a call from the same place, as for [`Iter`]. After
/// the last key it gives `None` for good. Once it is dropped it takes no more out.
///
/// ```
/// # use vbr::{Drain, Entries, OutOfSteps};
/// fn some_of(entries: Drain<'_, Entries>) -> Result<Vec<(u64, u64)>, OutOfSteps> {
///     entries.take(1).collect()
/// }
/// # let mut handle = vbr::Map::handles_with(vbr::Shape::for_keys(8, 1), &[(5, 70), (7, 71)])?.remove(0);
/// # assert_eq!(some_of(handle.drain())?.len(), 1);
/// # assert_eq!(handle.iter().count(), 1);
/// # Ok::<(), Box<dyn std::error::Error>>(())
/// ```
#[must_use = "it takes nothing out before it is asked for a key"]
pub struct Drain<'p, T = Keys> {
    pass: &'p mut PassOf<T>,
    cursor: Cursor,
}

/// Taking all keys out.
impl<T: Kind> PassOf<T> {
    /// Goes over all keys while other threads make calls, as [`PassOf::iter`] does, takes each out, and gives those that it took; of
    /// a map with the value that the key had when it was taken. A key that is inserted meanwhile is taken or not. Each call that
    /// it takes has the budget of the handle.
    ///
    /// ```
    /// # use vbr::{Map, Shape};
    /// let mut jobs = Map::handles_with(Shape::for_keys(8, 1), &[(5, 'a'), (7, 'b')])?.remove(0);
    /// let mut taken = jobs.drain().collect::<Result<Vec<_>, _>>()?;
    /// taken.sort();
    /// assert_eq!(taken, [(5, 'a'), (7, 'b')]);
    /// assert_eq!(jobs.iter().count(), 0);
    /// # Ok::<(), Box<dyn std::error::Error>>(())
    /// ```
    ///
    /// # Errors
    ///
    /// As an item, [`OutOfSteps`]. What was given before is taken out.
    pub fn drain(&mut self) -> Drain<'_, T> {
        Drain { pass: self, cursor: Cursor::first() }
    }

    /// Takes out each key that is there all the while, as [`PassOf::drain`] does, and returns how many keys it took out. If no
    /// other thread makes calls the set is empty then; to give slots and epochs back renew it, or open another one.
    ///
    /// ```
    /// # use vbr::{Set, Shape};
    /// let mut handle = Set::handles_with(Shape::for_keys(8, 1), &[5, 7])?.remove(0);
    /// assert_eq!((handle.clear()?, handle.clear()?), (2, 0));
    /// # Ok::<(), Box<dyn std::error::Error>>(())
    /// ```
    ///
    /// # Errors
    ///
    /// [`OutOfSteps`], as for [`PassOf::iter`] or a remove. What was taken out before stays out.
    pub fn clear(&mut self) -> Result<u64, OutOfSteps> {
        self.drain().try_fold(0, |count, taken| taken.map(|_| count + 1))
    }
}

impl<T: Kind> Drain<'_, T> {
    fn take_next(&mut self) -> Result<Option<T::Item>, OutOfSteps> {
        let Drain { pass, cursor } = self;
        loop {
            let before = *cursor;
            let Some(item) = pass.walk_on(cursor, pass.steps())? else { return Ok(None) };
            match T::take(pass, item) {
                Ok(None) => {} // another thread took it out
                Err(OutOfSteps) => {
                    *cursor = before;
                    return Err(OutOfSteps);
                }
                taken => return taken,
            }
        }
    }
}

impl<T: Kind> Iterator for Drain<'_, T> {
    type Item = Result<T::Item, OutOfSteps>;

    #[inline]
    fn next(&mut self) -> Option<Self::Item> {
        self.take_next().transpose()
    }
}

impl<T: Kind> FusedIterator for Drain<'_, T> {}

impl<T: Kind> fmt::Debug for Drain<'_, T> {
    fn fmt(&self, f: &mut fmt::Formatter<'_>) -> fmt::Result {
        f.debug_struct("Drain").field("cursor", &self.cursor).finish_non_exhaustive()
    }
}

macro_rules! goes_over_its_table {
    ($($of:ty $(, $by:ident: $bound:ty)?;)*) => {$(
        impl<'h, T: Kind $(, $by: Deref<Target = $bound>)?> IntoIterator for &'h $of {
            type Item = Result<T::Item, OutOfSteps>;
            type IntoIter = Iter<'h, T>;

            #[inline]
            fn into_iter(self) -> Iter<'h, T> {
                self.iter()
            }
        }
    )*};
}

goes_over_its_table! { PassOf<T>; HandleOf<T>; LentBy<T, B>, B: Table<T>; Turn<'_, T>; }

/// A walk of its own from the same place.
impl<T: Kind> Clone for Iter<'_, T> {
    fn clone(&self) -> Self {
        Iter { ..*self }
    }
}

/// A walk of its own from the same place.
impl<T: Kind> Clone for IterAt<'_, T> {
    fn clone(&self) -> Self {
        IterAt(self.0.clone())
    }
}

impl<T: Kind> fmt::Debug for Iter<'_, T> {
    fn fmt(&self, f: &mut fmt::Formatter<'_>) -> fmt::Result {
        f.debug_struct("Iter").field("cursor", &self.cursor).field("steps", &self.steps).finish_non_exhaustive()
    }
}

impl<T: Kind> fmt::Debug for IterAt<'_, T> {
    fn fmt(&self, f: &mut fmt::Formatter<'_>) -> fmt::Result {
        f.debug_tuple("IterAt").field(&self.0).finish()
    }
}

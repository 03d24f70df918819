//! A set or a map, which gives its handles or lends them.
use crate::all::All;
use crate::lending::Lender;
use crate::reporting::Unreported;
use crate::{
    CloseError, HandleOf, Kind, LendError, Lent, LentBy, OpenError, OwnedLent, PassOf, RenewError, ReportError, Shape,
    Unclosed,
};
use std::fmt;
use std::sync::Arc;
use std::time::{Duration, Instant};

/// A set, which is a `Table<Keys>` by the name of [`Set`](crate::Set), or a map, which is a `Table<Entries>` by that of
/// [`Map`](crate::Map). It is used through its handles: [`Table::open`] keeps them and lends them, to threads that come and go or
/// are more than handles, and [`Table::handles`] gives them, one for each thread to own.
///
/// What is said here of a set and its keys holds for a map and its entries too.
///
/// ```
/// # use vbr::{Set, Shape};
/// let set = Set::open_with(Shape::for_keys(8, 2), &[2, 5])?;
/// assert!(set.lend().expect("two are free").has(5)?);
/// # Ok::<(), Box<dyn std::error::Error>>(())
/// ```
#[repr(align(64))] // who is lent a handle reads it, so nothing that others write is on its cache line
pub struct Table<T: Kind> {
    pub(crate) lender: Lender<T>,
}

impl<T: Kind> Table<T> {
    // %doc vbr_open: sentence
    /// Opens an empty set.
    // %end
    ///
    /// It lends the handles that the shape is for.
    ///
    /// ```
    /// use vbr::{Set, Shape};
    ///
    /// let set = Set::open(Shape::for_keys(1_000, 4))?;
    /// std::thread::scope(|scope| {
    ///     for page in 0..8_u64 {
    ///         let set = &set;
    ///         scope.spawn(move || set.lend_wait().insert(page));
    ///     }
    /// });
    /// assert_eq!(set.close()?.keys, [0, 1, 2, 3, 4, 5, 6, 7]);
    /// # Ok::<(), Box<dyn std::error::Error>>(())
    /// ```
    ///
    // %errors vbr_open
    /// # Errors
    ///
    /// - [`OpenError::Shape`].
    /// - [`OpenError::Memory`].
    // %end
    ///
    /// They are tested in this order, and nothing is kept then.
    ///
    /// # Panics
    ///
    /// If the linked library has another version than the crate. Every opening checks this.
    pub fn open(shape: Shape) -> Result<Table<T>, OpenError> {
        Table::open_with(shape, &[])
    }

    // %doc vbr_open_with: sentence
    /// Opens a set of these keys, which ascend, each above the one before.
    // %end
    ///
    /// It takes the memory of [`Table::open`], and while it runs 16 bytes more for each key of a set, or 64 for each entry of a map. It goes
    /// once over them.
    ///
    /// ```
    /// # use vbr::{Set, Shape};
    /// let set = Set::open_with(Shape::for_keys(8, 2), &[5, 7])?;
    /// assert_eq!(set.close()?.keys, [5, 7]);
    /// # Ok::<(), Box<dyn std::error::Error>>(())
    /// ```
    ///
    // %errors vbr_open_with
    /// # Errors
    ///
    /// [`OpenError::Shape`], [`OpenError::Keys`] and [`OpenError::Memory`].
    // %end
    ///
    /// They are tested in this order, and nothing is kept then.
    pub fn open_with(shape: Shape, items: &[T::Item]) -> Result<Table<T>, OpenError> {
        let handles = HandleOf::open(shape, items)?;
        Ok(Table { lender: Lender::of(handles, shape).map_err(|_| OpenError::Memory)? })
    }

    // %doc vbr_open: sentence
    /// Opens an empty set.
    // %end
    ///
    /// Returns the handles that the shape is for: one for each thread, which owns it.
    ///
    /// ```
    /// use vbr::{Map, OpenError, Set, Shape, ShapeError};
    ///
    /// let [mut first, second] = Set::handles(Shape::for_keys(1_000, 2))?.try_into().expect("two handles");
    /// assert_eq!(first.insert(5), Ok(true));
    /// assert_eq!(second.has(5), Ok(true));
    /// let no_slots = Map::<u64, u64>::handles(Shape::new(0, 2, 100));
    /// assert_eq!(no_slots.unwrap_err(), OpenError::Shape(ShapeError::Slots(0)));
    /// # Ok::<(), OpenError>(())
    /// ```
    ///
    /// No call on a key takes a step more for more handles; a close takes time in proportion to them:
    ///
    /// ```
    /// use vbr::{Set, Shape};
    ///
    /// let handles = Set::handles(Shape::for_keys(2_000, 1_000))?;
    /// std::thread::scope(|scope| {
    ///     for (page, mut mine) in (0..).zip(handles) {
    ///         scope.spawn(move || mine.insert(page));
    ///     }
    /// });
    /// # Ok::<(), vbr::OpenError>(())
    /// ```
    ///
    /// # Errors
    ///
    /// The same as for [`Table::open`].
    pub fn handles(shape: Shape) -> Result<Vec<HandleOf<T>>, OpenError> {
        HandleOf::open(shape, &[])
    }

    /// Opens a set of these keys, as [`Table::open_with`] does, and gives its handles.
    ///
    /// If memory is too short for two sets, renew one so: close its handles, and open a set with the keys of the report. Else
    /// [`HandleOf::renew_all`] does it.
    ///
    /// ```
    /// use vbr::{Refusal, Set, Shape};
    ///
    /// let shape = Shape::new(8, 2, 20);
    /// let mut handle = Set::handles(shape)?.remove(0);
    /// for key in 0..1_000 {
    ///     match handle.insert(key) {
    ///         Err(Refusal::EpochSpent) => {
    ///             let report = handle.close()?.expect("the only handle");
    ///             let mut renewed = Set::handles_with(shape, &report.keys)?.remove(0);
    ///             assert!(renewed.insert(key)?);
    ///             handle = renewed;
    ///         }
    ///         told => assert!(told?),
    ///     }
    ///     assert!(handle.remove(key)?);
    /// }
    /// # Ok::<(), Box<dyn std::error::Error>>(())
    /// ```
    ///
    /// ```
    /// # use vbr::{Map, Shape};
    /// # let shape = Shape::for_keys(8, 1);
    /// let handle = Map::handles_with(shape, &[(5, 70), (7, 71)])?.remove(0);
    /// let report = handle.close()?.expect("the only handle");
    /// let renewed = Map::handles_with(shape, &report.entries)?.remove(0);
    /// assert_eq!(renewed.get(5)?, Some(70));
    /// # Ok::<(), Box<dyn std::error::Error>>(())
    /// ```
    ///
    /// # Errors
    ///
    /// The same as for [`Table::open_with`].
    pub fn handles_with(shape: Shape, items: &[T::Item]) -> Result<Vec<HandleOf<T>>, OpenError> {
        HandleOf::open(shape, items)
    }

    /// Keeps handles that were owned, and lends them: all handles of a set, in any order. Each keeps its budget. The opposite is
    /// [`Table::into_handles`].
    ///
    /// ```
    /// # use vbr::{Set, Shape};
    /// let mut handles = Set::handles(Shape::for_keys(8, 2))?;
    /// assert_eq!(handles[1].insert_all(&[5, 7])?, 2); // while one thread fills it
    /// let set = Set::from_handles(handles)?;
    /// assert!(set.contains(5)?);
    /// # Ok::<(), Box<dyn std::error::Error>>(())
    /// ```
    ///
    /// # Errors
    ///
    /// [`LendError`], which has the handles, as they were.
    pub fn from_handles(mut handles: Vec<HandleOf<T>>) -> Result<Table<T>, LendError<T>> {
        if let Err(why) = handles.shared() {
            return Err(LendError { why, handles });
        }
        let first = &handles[0];
        let shape = Shape::new(first.slots(), first.buckets(), first.last_epoch()).with_handles(handles.len());
        let lender = Lender::of(handles, shape);
        Ok(Table { lender: lender.map_err(|handles| LendError { why: ReportError::Memory, handles })? })
    }

    /// The handles, one for each thread to own, those of loans that were forgotten too. The opposite is [`Table::from_handles`].
    ///
    /// ```
    /// # use vbr::{Set, Shape};
    /// let set = Set::open_with(Shape::for_keys(8, 2), &[5, 7])?;
    /// let mut handles = set.into_handles()?;
    /// assert_eq!((handles.len(), handles[1].remove(5)?), (2, true));
    /// # Ok::<(), Box<dyn std::error::Error>>(())
    /// ```
    ///
    /// # Errors
    ///
    /// [`CloseError::Memory`], with the set as it was: there is no memory for the vector.
    pub fn into_handles(self) -> Result<Vec<HandleOf<T>>, CloseError<Table<T>>> {
        let mut handles = Vec::new();
        if handles.try_reserve_exact(self.handle_count()).is_err() {
            return Err(CloseError::Memory(Unclosed(self)));
        }
        handles.extend(self.lender.into_handles());
        Ok(handles)
    }

    /// The pass of a handle, without a loan, for whoever has the set alone: to fill it, or to look into it, before threads share
    /// it or after. A map's value is read by [`get`](crate::Map::get), and changed by [`compute`](crate::Map::compute).
    ///
    /// ```
    /// # use vbr::{Map, Shape};
    /// let mut map = Map::open(Shape::for_keys(8, 2))?;
    /// map.pass_mut().put_all(&[(5, 70), (7, 71)])?;
    /// # Ok::<(), Box<dyn std::error::Error>>(())
    /// ```
    pub fn pass_mut(&mut self) -> &mut PassOf<T> {
        self.lender.first()
    }

    // %doc vbr_slots: sentence
    /// Returns how many slots the set was opened with.
    // %end
    ///
    /// ```
    /// # use vbr::{Set, Shape};
    /// assert_eq!(Set::<u64>::open(Shape::for_keys(1_000, 2))?.slots(), 1_128);
    /// # Ok::<(), vbr::OpenError>(())
    /// ```
    pub fn slots(&self) -> u32 {
        self.lender.shape().slots()
    }

    // %doc vbr_buckets: sentence
    /// Returns how many buckets the set was opened with.
    // %end
    ///
    /// ```
    /// # use vbr::{Set, Shape};
    /// assert_eq!(Set::<u64>::open(Shape::for_keys(1_000, 2))?.buckets(), 1_024);
    /// # Ok::<(), vbr::OpenError>(())
    /// ```
    pub fn buckets(&self) -> u32 {
        self.lender.shape().buckets()
    }

    // %doc vbr_last_epoch: sentence
    /// Returns the last epoch that the set was opened with.
    // %end
    ///
    /// ```
    /// # use vbr::{Set, Shape};
    /// assert_eq!(Set::<u64>::open(Shape::new(8, 2, 100))?.last_epoch(), 100);
    /// # Ok::<(), vbr::OpenError>(())
    /// ```
    pub fn last_epoch(&self) -> u64 {
        self.lender.shape().last_epoch()
    }

    /// How many handles the set lends.
    ///
    /// ```
    /// # use vbr::{Set, Shape};
    /// assert_eq!(Set::<u64>::open(Shape::for_keys(8, 3))?.handle_count(), 3);
    /// # Ok::<(), vbr::OpenError>(())
    /// ```
    pub fn handle_count(&self) -> usize {
        self.lender.count()
    }

    /// How many keys are in the set, at one moment. It lends none meanwhile, and waits for the loans, as [`Table::renew`] does. It adds up
    /// the balances of the handles ([`PassOf::balance`]), and goes over no key.
    ///
    /// It is right over renewals. For a number that is read often, and off by what is under way, let each thread publish the balance of
    /// its handle.
    ///
    /// ```
    /// # use vbr::{Map, Shape};
    /// let map = Map::open_with(Shape::for_keys(8, 2), &[(5, 70), (7, 71)])?;
    /// map.remove(5)?;
    /// assert_eq!(map.key_count(), 1);
    /// map.renew(Shape::for_keys(100, 2))?;
    /// assert_eq!(map.key_count(), 1);
    /// # Ok::<(), Box<dyn std::error::Error>>(())
    /// ```
    #[doc(alias = "len")]
    pub fn key_count(&self) -> u64 {
        self.lender.key_count(None).unwrap_or_default() // without a deadline the wait ends with all handles
    }

    /// As [`Table::key_count`], or `None` if a loan was still out when the time was over.
    ///
    /// ```
    /// # use std::time::Duration;
    /// # use vbr::{Set, Shape};
    /// let set = Set::open_with(Shape::for_keys(8, 2), &[5, 7])?;
    /// let mine = set.lend().expect("two are free");
    /// assert_eq!(set.key_count_timeout(Duration::from_millis(1)), None);
    /// drop(mine);
    /// assert_eq!(set.key_count_timeout(Duration::from_secs(1)), Some(2));
    /// # Ok::<(), Box<dyn std::error::Error>>(())
    /// ```
    pub fn key_count_timeout(&self, limit: Duration) -> Option<u64> {
        self.lender.key_count(Instant::now().checked_add(limit))
    }

    // %doc vbr_lend
    /// Lends a free handle.
    ///
    /// Returns the handle, or `None` if each was lent at some moment of the call, or they are being renewed. It leaves the
    /// handle on loan, until it is given back.
    ///
    /// It takes no lock and no memory. It tries each handle at most once, so it never waits.
    ///
    /// It begins with the handle that this thread was lent last, by any lender. If that is free, a loan and its return are
    /// one atomic exchange on a word that other threads don't write. If there are no more threads than handles, each comes to
    /// have its own.
    // %end
    ///
    /// [`Table::lend_wait`] waits for a handle. Keep no loan while the thread waits for something else.
    ///
    /// ```
    /// # use vbr::{Map, Shape};
    /// let map = Map::open(Shape::for_keys(8, 1))?;
    /// let mut mine = map.lend().expect("the one handle");
    /// assert!(mine.try_insert(5, 70)?);
    /// assert!(map.lend().is_none());
    /// drop(mine);
    /// assert!(map.lend().is_some());
    /// # Ok::<(), Box<dyn std::error::Error>>(())
    /// ```
    #[inline]
    pub fn lend(&self) -> Option<Lent<'_, T>> {
        self.lender.take().map(|number| LentBy::of(self, number))
    }

    // %doc lend_wait
    /// Lends a free handle as soon as there is one: if each is lent, the thread sleeps until one is given back.
    ///
    /// A thread that has a loan itself may wait for ever, and a loan without a name lasts to the end of its statement.
    /// Threads that wait have no order: one that comes later may be lent a handle before.
    // %end
    ///
    /// So in `match set.lend_wait().has(5)? { .. }` lend none in an arm. Calls of the set itself ([`Table::has`], [`Table::call`]) leave
    /// no loan behind.
    ///
    /// ```
    /// # use vbr::{Set, Shape};
    /// let set = Set::open(Shape::for_keys(8, 1))?;
    /// std::thread::scope(|scope| {
    ///     for key in 0..4 {
    ///         let set = &set;
    ///         scope.spawn(move || set.lend_wait().insert(key));
    ///     }
    /// });
    /// assert_eq!(set.close()?.keys, [0, 1, 2, 3]);
    /// # Ok::<(), Box<dyn std::error::Error>>(())
    /// ```
    #[inline]
    pub fn lend_wait(&self) -> Lent<'_, T> {
        LentBy::of(self, self.number_awaited())
    }

    // %doc lend_for
    /// Lends a free handle, as `lend_wait` does, or none if each was lent until the time was over.
    // %end
    ///
    /// ```
    /// # use std::time::Duration;
    /// # use vbr::{Set, Shape};
    /// let set: Set = Set::open(Shape::for_keys(8, 1))?;
    /// let mine = set.lend_timeout(Duration::from_secs(1)).expect("the one handle");
    /// assert!(set.lend_timeout(Duration::from_millis(1)).is_none());
    /// # Ok::<(), vbr::OpenError>(())
    /// ```
    #[inline]
    pub fn lend_timeout(&self, limit: Duration) -> Option<Lent<'_, T>> {
        self.number_within(limit).map(|number| LentBy::of(self, number))
    }

    /// As [`Table::lend`], by a loan with a share of the set.
    ///
    // %doc lend_owned
    /// The loan keeps the handles, so it may outlive what lent it: for tasks. Beside the loan it costs two atomic additions
    /// on a word that all threads share.
    // %end
    ///
    /// ```
    /// # use std::sync::Arc;
    /// # use vbr::{Set, Shape};
    /// let set = Arc::new(Set::open(Shape::for_keys(8, 1))?);
    /// let mine = set.lend_owned().expect("the one handle");
    /// assert!(set.lend_owned().is_none());
    /// drop(set);
    /// assert!(!mine.has(5)?); // the set is there until its last loan is dropped
    /// # Ok::<(), Box<dyn std::error::Error>>(())
    /// ```
    #[inline]
    pub fn lend_owned(self: &Arc<Self>) -> Option<OwnedLent<T>> {
        self.lender.take().map(|number| LentBy::of(Arc::clone(self), number))
    }

    /// As [`Table::lend_wait`], with a share of the set.
    ///
    /// ```
    /// # use std::sync::Arc;
    /// # use vbr::{Set, Shape};
    /// let set = Arc::new(Set::open(Shape::for_keys(8, 1))?);
    /// let tasks: Vec<_> = (0..4)
    ///     .map(|key| {
    ///         let mut mine = set.lend_owned_wait();
    ///         std::thread::spawn(move || mine.insert(key))
    ///     })
    ///     .collect();
    /// for task in tasks {
    ///     assert!(task.join().expect("a task that ends")?);
    /// }
    /// # Ok::<(), Box<dyn std::error::Error>>(())
    /// ```
    #[inline]
    pub fn lend_owned_wait(self: &Arc<Self>) -> OwnedLent<T> {
        LentBy::of(Arc::clone(self), self.number_awaited())
    }

    /// As [`Table::lend_timeout`], with a share of the set.
    ///
    /// ```
    /// # use std::{sync::Arc, time::Duration};
    /// # use vbr::{Set, Shape};
    /// let set: Arc<Set> = Arc::new(Set::open(Shape::for_keys(8, 1))?);
    /// let mine = set.lend_owned_timeout(Duration::from_secs(1)).expect("the one handle");
    /// assert!(set.lend_owned_timeout(Duration::from_millis(1)).is_none());
    /// # Ok::<(), vbr::OpenError>(())
    /// ```
    #[inline]
    pub fn lend_owned_timeout(self: &Arc<Self>, limit: Duration) -> Option<OwnedLent<T>> {
        self.number_within(limit).map(|number| LentBy::of(Arc::clone(self), number))
    }

    // %doc vbr_lender_renew: sentence
    /// Lets the handles go on over a fresh set of this shape, as [`HandleOf::renew_all`](crate::HandleOf::renew_all) does,
    /// once none is on loan.
    // %end
    ///
    // %doc lender_renew
    /// It lends none meanwhile, and waits for the loans, so a thread that has one itself waits for ever. Threads that wait
    /// for a handle keep waiting. A refusal leaves the set as it was, and it lends again.
    ///
    /// If another thread renews to the same shape while this one waits, one renewal serves both. So each thread may ask for
    /// one if a call was refused since the last epoch is spent, once it has no loan.
    // %end
    ///
    /// A loan of the same statement is one that it waits for, and so is one that was forgotten.
    ///
    /// ```
    /// # use vbr::{Refusal, Set, Shape};
    /// let set = Set::open_with(Shape::new(2, 2, 100).with_handles(2), &[5, 7])?;
    /// assert_eq!(set.lend_wait().insert(9), Err(Refusal::NoSlot));
    /// set.renew(Shape::for_keys(1_000, 2))?;
    /// assert!(set.lend_wait().insert(9)?);
    /// assert_eq!((set.slots(), set.close()?.keys), (1_128, vec![5, 7, 9]));
    /// # Ok::<(), Box<dyn std::error::Error>>(())
    /// ```
    ///
    /// # Errors
    ///
    /// [`RenewError::Shape`], which is tested before it waits, [`RenewError::Slots`] and [`RenewError::Memory`].
    pub fn renew(&self, shape: Shape) -> Result<(), RenewError> {
        self.lender.renew(shape, None, None)
    }

    // %doc renew_for
    /// The same, or refused if not all loans were back when the time was over.
    // %end
    ///
    /// ```
    /// # use std::time::Duration;
    /// # use vbr::{RenewError, Set, Shape};
    /// let shape = Shape::for_keys(8, 2);
    /// let set: Set = Set::open(shape)?;
    /// let mine = set.lend().expect("two are free");
    /// assert_eq!(set.renew_timeout(shape, Duration::from_millis(1)), Err(RenewError::Lent));
    /// drop(mine);
    /// assert_eq!(set.renew_timeout(shape, Duration::from_secs(1)), Ok(()));
    /// # Ok::<(), vbr::OpenError>(())
    /// ```
    ///
    /// # Errors
    ///
    /// The same as for [`Table::renew`], and [`RenewError::Lent`].
    pub fn renew_timeout(&self, shape: Shape, limit: Duration) -> Result<(), RenewError> {
        self.lender.renew(shape, Instant::now().checked_add(limit), None)
    }

    /// Reports what is in the set, as [`HandleOf::report_all`] does, and the set goes on. No handle is lent meanwhile, and it waits until
    /// all loans are back, as [`Table::renew`] does. [`PassOf::iter`] goes over the keys while other threads make calls.
    ///
    /// ```
    /// # use vbr::{Set, Shape};
    /// let set = Set::open_with(Shape::for_keys(8, 2), &[5, 7])?;
    /// assert_eq!(set.report()?.keys, [5, 7]);
    /// assert!(set.insert(6)?); // it goes on
    /// assert_eq!(set.report()?.keys, [5, 6, 7]);
    /// # Ok::<(), Box<dyn std::error::Error>>(())
    /// ```
    ///
    /// # Errors
    ///
    /// [`ReportError::Memory`].
    pub fn report(&self) -> Result<T::Report, ReportError> {
        self.lender.report(None)
    }

    /// As [`Table::report`], or [`ReportError::Lent`] if a loan was still out when the time was over.
    ///
    /// ```
    /// # use std::time::Duration;
    /// # use vbr::{ReportError, Set, Shape};
    /// let set = Set::open_with(Shape::for_keys(8, 2), &[5, 7])?;
    /// let mine = set.lend().expect("two are free");
    /// assert_eq!(set.report_timeout(Duration::from_millis(1)), Err(ReportError::Lent));
    /// drop(mine);
    /// assert_eq!(set.report_timeout(Duration::from_secs(1))?.keys, [5, 7]);
    /// # Ok::<(), Box<dyn std::error::Error>>(())
    /// ```
    ///
    /// # Errors
    ///
    /// [`ReportError::Memory`] and [`ReportError::Lent`].
    pub fn report_timeout(&self, limit: Duration) -> Result<T::Report, ReportError> {
        self.lender.report(Instant::now().checked_add(limit))
    }

    // %doc vbr_close_all: sentence
    /// Closes a set by all handles that were opened with it, with a report.
    // %end
    ///
    /// It closes those of loans that were forgotten too.
    ///
    /// ```
    /// # use vbr::{Entry, Map, Shape};
    /// let map = Map::open(Shape::for_keys(8, 2))?;
    /// map.lend().expect("two are free").try_insert(5, 70)?;
    /// assert_eq!(map.close()?.entries, [(5, 70)]);
    /// # Ok::<(), Box<dyn std::error::Error>>(())
    /// ```
    ///
    /// # Errors
    ///
    /// [`CloseError::Memory`], with the set as it was, which lends all its handles, those of loans that were forgotten too; and
    /// [`CloseError::Lost`].
    pub fn close(mut self) -> Result<T::Report, CloseError<Table<T>>> {
        self.lender.close().map_err(|why| match why {
            Unreported::Memory => CloseError::Memory(Unclosed(self)),
            Unreported::Lost => CloseError::Lost,
        })
    }

    /// Ends the set without a report: all its handles are closed, those of loans that were forgotten too, and its memory is freed.
    /// It takes no memory, can't fail, and doesn't read what is in the set, so it is done in a fraction of the time of a close. A set
    /// that is dropped ends so too.
    ///
    /// ```
    /// # use vbr::{Set, Shape};
    /// let set = Set::open_with(Shape::for_keys(8, 2), &[5, 7])?;
    /// set.end();
    /// # Ok::<(), vbr::OpenError>(())
    /// ```
    pub fn end(self) {
        drop(self);
    }

    #[inline]
    fn number_awaited(&self) -> usize {
        self.lender.take_until(|| None).expect("without a deadline the wait ends with a handle")
    }

    #[inline]
    fn number_within(&self, limit: Duration) -> Option<usize> {
        self.lender.take_until(|| Instant::now().checked_add(limit))
    }
}

/// As [`Table::from_handles`].
impl<T: Kind> TryFrom<Vec<HandleOf<T>>> for Table<T> {
    type Error = LendError<T>;

    fn try_from(handles: Vec<HandleOf<T>>) -> Result<Table<T>, LendError<T>> {
        Table::from_handles(handles)
    }
}

impl<T: Kind> fmt::Debug for Table<T> {
    fn fmt(&self, f: &mut fmt::Formatter<'_>) -> fmt::Result {
        f.debug_struct(T::NAMES[0])
            .field("slots", &self.slots())
            .field("buckets", &self.buckets())
            .field("last_epoch", &self.last_epoch())
            .field("handles", &self.handle_count())
            .field("lent", &self.lender.lent())
            .finish_non_exhaustive()
    }
}

//! Handles on loan.
use crate::all::All;
use crate::boxed::boxed;
use crate::records::Words;
use crate::reporting::Unreported;
use crate::waiting::{Ticket, Waiters};
use crate::{HandleOf, Keys, Kind, PassOf, RenewError, ReportError, Shape, Steps, Table};
use std::cell::{Cell, UnsafeCell};
use std::fmt;
use std::ops::{Deref, DerefMut};
use std::ptr::NonNull;
use std::sync::atomic::{AtomicBool, AtomicU32, AtomicU64, AtomicUsize, Ordering};
use std::sync::Arc;
use std::task::Waker;
use std::time::Instant;

/// The handles of one set or map, which it lends.
pub(crate) struct Lender<T: Kind> {
    places: Box<[Place<T>]>,
    /// How many handles may be lent: all, or 0 during a pause. It is never more than there are.
    lends: AtomicUsize,
    waiters: Waiters,
    /// Apart from what a borrower reads, so that a set is small enough for an error.
    made: Box<Made>,
}

/// How the set is opened now, and how often it was renewed.
struct Made {
    shape: SharedShape,
    renewals: AtomicUsize,
}

/// The shape of a set, with the seed and the budget that were asked for if they were; a renewal changes it while other threads read
/// it.
pub(crate) struct SharedShape {
    slots: AtomicU32,
    buckets: AtomicU32,
    last_epoch: AtomicU64,
    handles: usize,
    has_seed: AtomicBool,
    seed: AtomicU64,
    has_steps: AtomicBool,
    steps: AtomicU32,
}

/// A pause of the loans, for a call of all handles: while it has its turn no handle is lent, and it takes each that is free. At its
/// end all are lent again.
struct Pause<'l, T: Kind> {
    of: &'l Lender<T>,
    has_turn: bool,
    taken: usize,
}

/// A handle, and whether it is lent, on cache lines of their own.
#[repr(align(128))]
struct Place<T: Kind> {
    is_lent: AtomicBool,
    handle: UnsafeCell<HandleOf<T>>,
}

// SAFETY: a handle is reached by whoever set `is_lent`, one thread at a time, and may be sent to any thread.
unsafe impl<T: Kind> Sync for Place<T> {}

thread_local! {
    /// The number of the handle that this thread was lent last, by any lender: it tries that one first. So threads that are no
    /// more than handles come to have one each, and no two write the same cache line.
    static LAST: Cell<usize> = const { Cell::new(0) };
}

impl<T: Kind> Lender<T> {
    /// Keeps all handles of one set or map, which is opened so; gives them back if there is no memory.
    pub(crate) fn of(handles: Vec<HandleOf<T>>, shape: Shape) -> Result<Lender<T>, Vec<HandleOf<T>>> {
        let mut places = Vec::new();
        if places.try_reserve_exact(handles.len()).is_err() {
            return Err(handles);
        }
        let made = Made { shape: SharedShape::of(shape), renewals: AtomicUsize::new(0) };
        let (Some(waiters), Some(made)) = (Waiters::none(), boxed(made)) else { return Err(handles) };
        let free = |handle| Place { is_lent: AtomicBool::new(false), handle: UnsafeCell::new(handle) };
        places.extend(handles.into_iter().map(free));
        Ok(Lender { lends: AtomicUsize::new(places.len()), places: places.into_boxed_slice(), waiters, made })
    }

    /// The handles, whether they are lent or not.
    pub(crate) fn into_handles(self) -> impl Iterator<Item = HandleOf<T>> {
        self.places.into_vec().into_iter().map(|it| it.handle.into_inner())
    }

    /// The first handle, whether it is lent or not.
    pub(crate) fn first(&mut self) -> &mut HandleOf<T> {
        self.places[0].handle.get_mut()
    }

    /// How many handles are lent, as far as this thread sees.
    pub(crate) fn lent(&self) -> usize {
        self.places.iter().filter(|it| it.is_lent.load(Ordering::Relaxed)).count()
    }

    pub(crate) fn shape(&self) -> &SharedShape {
        &self.made.shape
    }

    /// How many handles there are.
    pub(crate) fn count(&self) -> usize {
        self.places.len()
    }

    /// Lends a free handle and returns its number, or none if each was lent at some moment of the call, or none may be lent.
    #[inline]
    pub(crate) fn take(&self) -> Option<usize> {
        let last = LAST.get();
        // SAFETY: one of fewer than are lent is one of those that there are.
        if last < self.lends.load(Ordering::Relaxed) && unsafe { self.places.get_unchecked(last) }.take() {
            return Some(last);
        }
        self.take_another(last)
    }

    /// The same by a thread that isn't lent the one it had last.
    #[cold]
    fn take_another(&self, last: usize) -> Option<usize> {
        let count = self.lends.load(Ordering::Relaxed);
        let number = (1..=count).map(|it| (last + it) % count).find(|it| self.places[*it].take())?;
        LAST.set(number);
        Some(number)
    }

    /// Lends a handle as soon as one is free, and returns its number; none if none was free until the deadline.
    #[inline]
    pub(crate) fn take_until(&self, deadline: impl FnOnce() -> Option<Instant>) -> Option<usize> {
        self.take().or_else(|| self.waiters.wait(deadline(), || self.take()))
    }

    /// Lends a handle to a task and returns its number, or has the task woken once one may be free.
    pub(crate) fn poll_take(&self, ticket: &mut Option<Ticket>, waker: &Waker) -> Option<usize> {
        let number = self.take().or_else(|| self.waiters.try_or_wait(ticket, waker, || self.take()))?;
        self.waiters.leave(ticket, true);
        Some(number)
    }

    /// Lets a task wait no longer, which was lent nothing.
    pub(crate) fn leave(&self, ticket: &mut Option<Ticket>) {
        self.waiters.leave(ticket, false);
    }

    /// Closes all handles, and reports what was in the set. If memory is refused they stay as they were, and are all to be lent:
    /// no loan is left but such as were forgotten.
    pub(crate) fn close(&mut self) -> Result<T::Report, Unreported> {
        let told = HandleOf::close_all(&mut self.places);
        self.places.iter_mut().for_each(|it| *it.is_lent.get_mut() = false);
        told
    }

    /// How often it was renewed: of a thread with a loan, which no renewal overtakes, it is the number of the one that it is of.
    pub(crate) fn renewals(&self) -> usize {
        self.made.renewals.load(Ordering::Relaxed)
    }

    /// Lets the handles go on over a fresh set of this shape, once all loans are back, if they are before the deadline. If another
    /// thread gives the set this shape meanwhile, that serves both.
    pub(crate) fn renew(&self, shape: Shape, deadline: Option<Instant>, records: Option<&Words>) -> Result<(), RenewError> {
        let (before, wanted) = (self.renewals(), shape.opened().with_handles(self.count()));
        self.renew_unless(|| self.renewals() != before && self.made.shape.get() == wanted, shape, deadline, records)
    }

    /// The same if it was renewed that often: any later renewal serves.
    pub(crate) fn renew_once(
        &self,
        before: usize,
        shape: Shape,
        deadline: Option<Instant>,
        records: Option<&Words>,
    ) -> Result<(), RenewError> {
        self.renew_unless(|| self.renewals() != before, shape, deadline, records)
    }

    fn renew_unless(
        &self,
        is_made: impl Fn() -> bool,
        shape: Shape,
        deadline: Option<Instant>,
        records: Option<&Words>,
    ) -> Result<(), RenewError> {
        shape.check_numbers()?;
        let shape = shape.opened().with_handles(self.count());
        let mut mine = self.pause();
        let is_to_be_made = self.waiters.wait_for_all(deadline, || {
            if self.is_lending() && is_made() {
                return Some(false);
            }
            mine.takes_all().then(|| !is_made()) // another one may have ended just before
        });
        if !is_to_be_made.ok_or(RenewError::Lent)? {
            return Ok(()); // another thread's serves both
        }
        mine.renew(shape, records)?;
        self.made.shape.set(shape);
        self.made.renewals.fetch_add(1, Ordering::Relaxed);
        Ok(())
    }

    /// Reports what is in the set, once all loans are back, if they are before the deadline.
    pub(crate) fn report(&self, deadline: Option<Instant>) -> Result<T::Report, ReportError> {
        let mut mine = self.pause();
        self.waiters.wait_for_all(deadline, || mine.takes_all().then_some(())).ok_or(ReportError::Lent)?;
        mine.report()
    }

    /// How many keys are in the set, once all loans are back, if they are before the deadline.
    pub(crate) fn key_count(&self, deadline: Option<Instant>) -> Option<u64> {
        let mut mine = self.pause();
        self.waiters.wait_for_all(deadline, || mine.takes_all().then_some(()))?;
        let sum: i64 = (0..mine.count()).map(|place| mine.at(place).balance()).sum();
        Some(sum.unsigned_abs()) // all balances add up to the number of keys
    }

    /// A pause that hasn't begun.
    fn pause(&self) -> Pause<'_, T> {
        Pause { of: self, has_turn: false, taken: 0 }
    }

    /// Whether a thread waits for all loans, as far as this one sees.
    #[inline]
    pub(crate) fn is_paused(&self) -> bool {
        self.lends.load(Ordering::Relaxed) == 0
    }

    /// Whether no renewal is under way; what the last one made can be read then.
    fn is_lending(&self) -> bool {
        self.lends.load(Ordering::Acquire) > 0
    }
}

impl<T: Kind> Pause<'_, T> {
    /// Whether it has all handles now.
    fn takes_all(&mut self) -> bool {
        let Lender { places, lends, .. } = self.of;
        let all = places.len();
        self.has_turn |= lends.compare_exchange(all, 0, Ordering::Acquire, Ordering::Relaxed).is_ok();
        while self.has_turn && self.taken < all && places[self.taken].take() {
            self.taken += 1;
        }
        self.taken == all
    }
}

impl<T: Kind> All<T> for Pause<'_, T> {
    fn count(&self) -> usize {
        self.taken
    }

    fn at(&mut self, place: usize) -> &mut HandleOf<T> {
        assert!(place < self.taken);
        // SAFETY: this has taken it, and nothing else reaches it until it is given back.
        unsafe { &mut *self.of.places[place].handle.get() }
    }
}

impl<T: Kind> Drop for Pause<'_, T> {
    fn drop(&mut self) {
        if self.has_turn {
            self.of.lends.store(self.of.count(), Ordering::Release);
            self.of.places[..self.taken].iter().for_each(|it| it.is_lent.store(false, Ordering::Release));
            self.of.waiters.wake_all();
        }
    }
}

impl SharedShape {
    fn of(shape: Shape) -> SharedShape {
        let shared = SharedShape {
            slots: AtomicU32::new(0),
            buckets: AtomicU32::new(0),
            last_epoch: AtomicU64::new(0),
            handles: shape.handles,
            has_seed: AtomicBool::new(false),
            seed: AtomicU64::new(0),
            has_steps: AtomicBool::new(false),
            steps: AtomicU32::new(0),
        };
        shared.set(shape);
        shared
    }

    fn set(&self, shape: Shape) {
        let Shape { slots, buckets, last_epoch, seed, steps, .. } = shape.opened();
        self.slots.store(slots, Ordering::Relaxed);
        self.buckets.store(buckets, Ordering::Relaxed);
        self.last_epoch.store(last_epoch, Ordering::Relaxed);
        self.has_seed.store(seed.is_some(), Ordering::Relaxed);
        self.seed.store(seed.unwrap_or_default(), Ordering::Relaxed);
        self.has_steps.store(steps.is_some(), Ordering::Relaxed);
        self.steps.store(steps.unwrap_or_default().count(), Ordering::Relaxed);
    }

    pub(crate) fn get(&self) -> Shape {
        let seed = self.has_seed.load(Ordering::Relaxed).then(|| self.seed.load(Ordering::Relaxed));
        let steps = self.has_steps.load(Ordering::Relaxed).then(|| Steps::new(self.steps.load(Ordering::Relaxed)));
        let (slots, buckets, last_epoch) = (self.slots(), self.buckets(), self.last_epoch());
        Shape { slots, buckets, last_epoch, handles: self.handles, seed, steps }
    }

    pub(crate) fn slots(&self) -> u32 {
        self.slots.load(Ordering::Relaxed)
    }

    pub(crate) fn buckets(&self) -> u32 {
        self.buckets.load(Ordering::Relaxed)
    }

    pub(crate) fn last_epoch(&self) -> u64 {
        self.last_epoch.load(Ordering::Relaxed)
    }
}

impl<T: Kind> Place<T> {
    /// Whether the handle was free; it is lent then.
    #[inline]
    fn take(&self) -> bool {
        !self.is_lent.load(Ordering::Relaxed) && !self.is_lent.swap(true, Ordering::Acquire)
    }
}

impl<T: Kind> AsMut<HandleOf<T>> for Place<T> {
    fn as_mut(&mut self) -> &mut HandleOf<T> {
        self.handle.get_mut()
    }
}

// %doc loan
/// A handle on loan. It goes back at the end of this, in whatever thread, and what was done with it comes before what the
/// next borrower does.
///
/// It has the handle's pass, which makes all calls and doesn't close. So the handle stays where it is.
// %end
///
/// It is a [`Lent`] from a set or a map that outlives it, or an [`OwnedLent`] with a share of its own of the set or the map. One that is
/// forgotten ([`core::mem::forget`]) isn't lent again, unless a close is refused; it is closed with its set. It derefs to the pass
/// ([`PassOf`]).
///
/// A loan without a name is dropped at the end of its statement, and so after the arms of a `match` and after the block of an
/// `if let`: a second loan there waits for ever if no handle is free. Name the answer or the loan first, or make the call of the
/// table itself, as by [`Table::has`].
///
/// It may go to another thread, and is not `Sync`.
///
/// ```
/// # use vbr::{Kind, LentBy, Map, OutOfSteps, Shape, Table};
/// /// How many items there are, by a loan of either kind.
/// fn count<T: Kind, B: std::ops::Deref<Target = Table<T>>>(mine: &LentBy<T, B>) -> Result<u64, OutOfSteps> {
///     mine.iter().map(|each| each.map(|_| 1)).sum()
/// }
/// let map = Map::open_with(Shape::for_keys(8, 1), &[(5, 70)])?;
/// assert_eq!(count(&map.lend().expect("the one handle"))?, 1);
/// # Ok::<(), Box<dyn std::error::Error>>(())
/// ```
///
/// ```compile_fail,E0277
/// fn is_sync<T: Sync>() {}
/// is_sync::<vbr::Lent<'static>>();
/// ```
///
/// ```compile_fail,E0277
/// fn is_sync<T: Sync>() {}
/// is_sync::<vbr::OwnedLent<vbr::Entries>>();
/// ```
#[must_use = "it goes back when it is dropped"]
#[clippy::has_significant_drop]
pub struct LentBy<T: Kind, B: Deref<Target = Table<T>>> {
    table: B,
    number: usize,
    /// Where the handle is, in the table: so a call loads no more words than by a handle of one's own.
    place: NonNull<Place<T>>,
    /// The budget that the handle has again after the loan, if this one has another.
    before: Option<Steps>,
}

// SAFETY: a loan is a handle, which may be sent, and a table, which threads share.
unsafe impl<T: Kind, B: Deref<Target = Table<T>> + Send> Send for LentBy<T, B> {}

/// A handle on loan from its [`Set`](crate::Set), or from its [`Map`](crate::Map) as `Lent<Entries>`.
///
/// ```
/// # use vbr::{Lent, Set, Shape};
/// let set = Set::open(Shape::for_keys(8, 1))?;
/// let mut mine: Lent = set.lend().expect("the one handle");
/// assert!(mine.insert(5)?);
/// # Ok::<(), Box<dyn std::error::Error>>(())
/// ```
pub type Lent<'t, T = Keys> = LentBy<T, &'t Table<T>>;

/// A handle on loan that keeps its set, or as `OwnedLent<Entries>` its map, until it is dropped: for a task that outlives the
/// function that begins it.
///
/// ```
/// # use std::sync::Arc;
/// # use vbr::{OwnedLent, Set, Shape};
/// let set = Arc::new(Set::open(Shape::for_keys(8, 1))?);
/// let mut mine: OwnedLent = set.lend_owned().expect("the one handle");
/// let task = std::thread::spawn(move || mine.insert(5));
/// assert!(task.join().expect("a task that ends")?);
/// assert_eq!(Arc::into_inner(set).expect("no loan is left").close()?.keys, [5]);
/// # Ok::<(), Box<dyn std::error::Error>>(())
/// ```
pub type OwnedLent<T = Keys> = LentBy<T, Arc<Table<T>>>;

impl<T: Kind, B: Deref<Target = Table<T>>> LentBy<T, B> {
    /// The loan of the handle with this number, which was taken from this table.
    #[inline]
    pub(crate) fn of(table: B, number: usize) -> LentBy<T, B> {
        let place = NonNull::from(&table.lender.places[number]);
        LentBy { table, number, place, before: None }
    }

    // %doc loan_number
    /// The number of the handle, from 0 on and below the number of handles: for data that lies beside each handle. No other
    /// loan has this number meanwhile.
    // %end
    ///
    /// ```
    /// # use vbr::{Set, Shape};
    /// # use std::sync::atomic::{AtomicU64, Ordering};
    /// let set: Set = Set::open(Shape::for_keys(8, 2))?;
    /// let calls: Vec<AtomicU64> = (0..set.handle_count()).map(|_| AtomicU64::new(0)).collect();
    /// let mine = set.lend().expect("two are free");
    /// calls[mine.number()].fetch_add(1, Ordering::Relaxed);
    /// # Ok::<(), vbr::OpenError>(())
    /// ```
    #[inline]
    pub fn number(&self) -> usize {
        self.number
    }

    /// Gives the calls of this loan another budget. After the loan the handle has its own again, unless the loan is forgotten.
    ///
    /// ```
    /// # use vbr::{OutOfSteps, Set, Shape, Steps};
    /// let set = Set::open_with(Shape::for_keys(8, 1), &[5])?;
    /// let mut mine = set.lend_wait();
    /// mine.set_steps(Steps::new(1));
    /// assert_eq!(mine.has(5), Err(OutOfSteps));
    /// drop(mine);
    /// assert_eq!(set.lend_wait().has(5), Ok(true));
    /// # Ok::<(), vbr::OpenError>(())
    /// ```
    #[inline]
    pub fn set_steps(&mut self, steps: Steps) {
        let before = self.steps();
        self.before.get_or_insert(before);
        self.handle().set_steps(steps);
    }

    #[inline]
    fn handle(&mut self) -> &mut HandleOf<T> {
        // SAFETY: the handle is lent to this alone, and `&mut` is exclusive.
        unsafe { &mut *self.place().handle.get() }
    }

    #[inline]
    fn place(&self) -> &Place<T> {
        // SAFETY: the table is there as long as this is, and its places stay where they are.
        unsafe { self.place.as_ref() }
    }
}

impl<T: Kind, B: Deref<Target = Table<T>>> Deref for LentBy<T, B> {
    type Target = PassOf<T>;

    #[inline]
    fn deref(&self) -> &PassOf<T> {
        // SAFETY: the handle is lent to this alone, which is not `Sync`.
        unsafe { &*self.place().handle.get() }
    }
}

impl<T: Kind, B: Deref<Target = Table<T>>> DerefMut for LentBy<T, B> {
    #[inline]
    fn deref_mut(&mut self) -> &mut PassOf<T> {
        self.handle()
    }
}

impl<T: Kind, B: Deref<Target = Table<T>>> Drop for LentBy<T, B> {
    #[inline]
    fn drop(&mut self) {
        if let Some(before) = self.before {
            self.handle().set_steps(before);
        }
        self.place().is_lent.store(false, Ordering::Release);
        self.table.lender.waiters.wake_one();
    }
}

impl<T: Kind, B: Deref<Target = Table<T>>> fmt::Debug for LentBy<T, B> {
    fn fmt(&self, f: &mut fmt::Formatter<'_>) -> fmt::Result {
        f.debug_struct("Lent").field("number", &self.number).field("pass", &&**self).finish_non_exhaustive()
    }
}

//! Sets and maps that processes share, any of which may be killed at any moment.
use crate::handle::{check_version, plain};
use crate::library::{code, vbr_inherit, vbr_renew_shared, vbr_shared_size, vbr_spread, vbr_unmap_shared, SharedRaw};
use crate::reporting::{Room, Unreported};
use crate::{order, Entries, Keys, Kind, OpenError, PassOf, RenewError, ReportError, Shape};
use core::fmt;
use core::marker::PhantomData;
use core::ops::{Deref, DerefMut};
use core::ptr::{addr_of_mut, null_mut, NonNull};
use core::sync::atomic::{compiler_fence, AtomicU32, Ordering};
use std::os::fd::{AsFd, AsRawFd};

// %doc vbr_shared.h
/// Sets and maps that processes share. Any of the processes may be killed or stopped, at any moment, and the others go on, in
/// the same time and with right answers. A process opens a set, and forks. Each makes calls by a handle of its own, and the
/// handle of a dead one goes to another.
///
/// All that the library keeps for a set lies in one mapping, at one address in all these processes: its words, what its
/// handles own, and the handles. A call in which a process dies was made, or it wasn't. The calls on keys are proved. The
/// others are tested, and why the processes go on is argued.
///
/// At most one process, and one thread of it, uses a handle at a time. A process that isn't forked from one that has the
/// mapping can't use it. The memory is freed with the last process that has it. A process that is killed while it opens,
/// reports on, renews, closes or unmaps a set may leave it torn, and one that writes to memory that isn't its own may write
/// to the set.
// %end
///
/// A set is a [`SharedSet`], and a map a [`SharedMap`]; what is said of a set and its keys holds for a map and its entries too. A copy of
/// this in a forked process is the same set.
///
// %doc claims
/// The handles lie in the mapping that the processes share. A process *claims* a handle, and makes calls by it in *turns*. A
/// claim owns nothing, so its end closes nothing, nor does that of its copy in a forked process. A turn sets the mark by
/// which `inherit` knows whether a process died in a call. There is no other way to make a call, so no program leaves the
/// mark out.
///
/// The end of this takes the mapping out of this process, and out of no other: a forked process may end its own copy, or
/// leave without that.
// %end
///
/// ```
/// # extern "C" {
/// #     fn fork() -> i32;
/// #     fn waitpid(process: i32, status: *mut i32, options: i32) -> i32;
/// #     fn _exit(status: i32) -> !;
/// # }
/// use vbr::{Inherited, SharedSet, Shape};
///
/// let set = SharedSet::open(Shape::for_keys(1_024, 2).with_deaths(4))?;
/// let child = unsafe { fork() };
/// if child == 0 {
///     // SAFETY: handle 1 is the child's alone.
///     let mut mine = unsafe { set.claim(1) };
///     let added = mine.turn().insert(5);
///     unsafe { _exit(i32::from(added != Ok(true))) }
/// }
/// assert_eq!(unsafe { waitpid(child, &mut 0, 0) }, child); // it has ended, or was killed
/// // SAFETY: the process that had handle 1 is dead, and no other one has it yet.
/// assert_eq!(unsafe { set.inherit(1) }, Inherited::Whole); // the next child may claim it
/// // SAFETY: handle 0 is the parent's alone.
/// let mut mine = unsafe { set.claim(0) };
/// assert!(mine.turn().contains(5)?);
/// # Ok::<(), Box<dyn std::error::Error>>(())
/// ```
pub struct SharedTable<T: Kind> {
    /// The first of the handles, which lie in the memory.
    handles: NonNull<SharedRaw>,
    count: usize,
    kind: PhantomData<T>,
}

// SAFETY: it is reached by claims, of which each handle has one at a time, and by calls that ask that nobody else is in one.
unsafe impl<T: Kind> Send for SharedTable<T> {}
// SAFETY: as above.
unsafe impl<T: Kind> Sync for SharedTable<T> {}

/// A set that processes share, as a [`Set`](crate::Set) is one that threads do.
///
/// ```
/// # use vbr::{SharedSet, Shape};
/// let set = SharedSet::open(Shape::for_keys(8, 1))?; // a SharedSet<char>
/// // SAFETY: nothing else claims the one handle.
/// let mut mine = unsafe { set.claim(0) };
/// assert!(mine.turn().insert('k')?);
/// # Ok::<(), Box<dyn std::error::Error>>(())
/// ```
pub type SharedSet<K = u64> = SharedTable<Keys<K>>;

/// A map that processes share, as a [`Map`](crate::Map) is one that threads do.
///
/// ```
/// # use vbr::{SharedMap, Shape};
/// let map: SharedMap<u32, char> = SharedMap::open_with(Shape::for_keys(8, 1), &[(5, 'k')])?;
/// // SAFETY: nothing else claims the one handle.
/// let mut mine = unsafe { map.claim(0) };
/// assert_eq!(mine.turn().replace(5, 'l')?, Some('k'));
/// # Ok::<(), Box<dyn std::error::Error>>(())
/// ```
pub type SharedMap<K = u64, V = u64> = SharedTable<Entries<K, V>>;

impl<T: Kind> SharedTable<T> {
    // %doc vbr_open_shared: sentence notes
    /// Opens a set in memory that this process shares with those that are forked from now on.
    ///
    /// Besides the slots that a set needs, count 66 for each process that may die in a call between two renewals.
    ///
    /// It maps [`SharedTable::size`](crate::SharedTable::size) bytes, of which the system gives pages as they are touched. If
    /// it has none left by then, it ends the process by a signal, and no call says that there is no memory.
    // %end
    ///
    /// [`Shape::with_deaths`] counts these slots. The set is empty, and has the handles that the shape is for. Its seed is drawn: that
    /// of the shape isn't asked.
    ///
    /// ```
    /// # use vbr::{SharedSet, Shape};
    /// let set: SharedSet = SharedSet::open(Shape::for_keys(1_000, 4).with_deaths(8))?;
    /// assert_eq!(set.handle_count(), 4);
    /// # Ok::<(), vbr::OpenError>(())
    /// ```
    ///
    // %errors vbr_open_shared: but VBR_BAD_KEYS
    /// # Errors
    ///
    /// [`OpenError::Shape`] and [`OpenError::Memory`].
    // %end
    ///
    /// They are tested in this order, and nothing is kept then.
    ///
    /// # Panics
    ///
    /// If the linked library has another version than the crate. Every opening checks this.
    pub fn open(shape: Shape) -> Result<SharedTable<T>, OpenError> {
        SharedTable::open_with(shape, &[])
    }

    // %doc vbr_open_with: sentence
    /// Opens a set of these keys, which ascend, each above the one before.
    // %end
    ///
    /// ```
    /// # use vbr::{SharedSet, Shape};
    /// let set = SharedSet::open_with(Shape::for_keys(8, 2), &[5, 7])?;
    /// // SAFETY: no other process has the set, and this one has one thread.
    /// assert_eq!(unsafe { set.report() }?.keys, [5, 7]);
    /// # Ok::<(), Box<dyn std::error::Error>>(())
    /// ```
    ///
    // %errors vbr_open_shared
    /// # Errors
    ///
    /// [`OpenError::Shape`], [`OpenError::Keys`] and [`OpenError::Memory`].
    // %end
    ///
    /// They are tested in this order, and nothing is kept then.
    pub fn open_with(shape: Shape, items: &[T::Item]) -> Result<SharedTable<T>, OpenError> {
        Self::open_by(shape, items, |first, count, Shape { slots, buckets, last_epoch, .. }, items| {
            // SAFETY: `items` has as many as the call is given, and nothing else has what it writes.
            unsafe { T::OPEN_SHARED(first, count, slots, buckets, last_epoch, items.as_ptr(), items.len()) }
        })
    }

    // %doc vbr_open_shared_in: sentence file leaves
    /// Opens a set in a file, as [`SharedTable::open`](crate::SharedTable::open) does otherwise.
    ///
    /// `file` is open for reading and writing, with [`SharedTable::size`](crate::SharedTable::size) bytes or more: one of
    /// `memfd_create`, to be looked at by its name, or of a tmpfs with large pages. It may be closed afterwards. While a
    /// process has the set, nobody makes it shorter: whoever touches what was cut off is ended by a signal. A memfd keeps its
    /// length by `F_SEAL_SHRINK`. It leaves what [`SharedTable::open`](crate::SharedTable::open) leaves. What was in the file
    /// is lost once it is mapped.
    // %end
    ///
    /// ```
    /// # use std::fs::File;
    /// # use vbr::{SharedSet, Shape};
    /// # let place = std::env::temp_dir().join(format!("vbr-{}", std::process::id()));
    /// let shape = Shape::for_keys(8, 1);
    /// let file = File::options().read(true).write(true).create_new(true).open(&place)?;
    /// # std::fs::remove_file(&place)?;
    /// file.set_len(SharedSet::<u64>::size(shape) as u64)?;
    /// // SAFETY: nothing else writes to the file, or makes it shorter.
    /// let set: SharedSet = unsafe { SharedSet::open_in(&file, shape, &[5, 7]) }?;
    /// # assert_eq!(set.handle_count(), 1);
    /// # Ok::<(), Box<dyn std::error::Error>>(())
    /// ```
    ///
    /// # Errors
    ///
    /// The same as for [`SharedTable::open_with`]; then [`OpenError::ShortFile`], and [`OpenError::Memory`] too if the file
    /// can't be mapped. Nothing is kept then, and nothing of the file was written.
    ///
    /// # Safety
    ///
    /// While a process has the set, nothing but its calls writes to the file, and nothing makes it shorter.
    pub unsafe fn open_in(file: impl AsFd, shape: Shape, items: &[T::Item]) -> Result<SharedTable<T>, OpenError> {
        let file = file.as_fd().as_raw_fd();
        Self::open_by(shape, items, |first, count, Shape { slots, buckets, last_epoch, .. }, items| {
            // SAFETY: as for `open_with`; what is in the file is the caller's promise.
            unsafe { T::OPEN_SHARED_IN(file, first, count, slots, buckets, last_epoch, items.as_ptr(), items.len()) }
        })
    }

    fn open_by(
        shape: Shape,
        items: &[T::Item],
        open: impl FnOnce(*mut *mut SharedRaw, usize, Shape, &[T::Plain]) -> i32,
    ) -> Result<SharedTable<T>, OpenError> {
        shape.check()?;
        check_version();
        let items = plain::<T>(items, shape.slots)?;
        let mut first = null_mut();
        let told = open(&raw mut first, shape.handles, shape, &items);
        let refused = if told == code::NO_ROOM { OpenError::ShortFile } else { OpenError::Memory };
        let handles = NonNull::new(first).filter(|_| told == code::DONE).ok_or(refused)?;
        let table = SharedTable { handles, count: shape.handles, kind: PhantomData };
        // SAFETY: nothing else has a handle yet.
        unsafe { table.set_steps(Shape { steps: Some(shape.steps.unwrap_or_default()), ..shape }) };
        Ok(table)
    }

    // %doc vbr_shared_size: sentence returns
    /// Returns how many bytes the mapping of a set or a map of this shape has.
    ///
    /// It is enough to renew it in this shape while it is full. Pages that aren't touched take no memory.
    // %end
    ///
    /// ```
    /// # use vbr::{SharedMap, Shape};
    /// assert!(SharedMap::<u64, u64>::size(Shape::for_keys(1_000, 2)) > 40 * 1_000);
    /// ```
    #[must_use]
    pub fn size(shape: Shape) -> usize {
        // SAFETY: it computes a number.
        unsafe { vbr_shared_size(shape.handles, shape.slots, shape.buckets) }
    }

    /// How many handles the set has.
    ///
    /// ```
    /// # use vbr::{SharedSet, Shape};
    /// assert_eq!(SharedSet::<u64>::open(Shape::for_keys(8, 3))?.handle_count(), 3);
    /// # Ok::<(), vbr::OpenError>(())
    /// ```
    #[must_use]
    pub fn handle_count(&self) -> usize {
        self.count
    }

    /// Claims the handle with this number, from 0 on and below [`SharedTable::handle_count`]. It asks nobody and writes
    /// nothing. The claim closes nothing when it is dropped: the handle then belongs to whomever the program says.
    ///
    /// ```
    /// # use vbr::{SharedSet, Shape};
    /// let set = SharedSet::open(Shape::for_keys(8, 2))?;
    /// for number in 0..2 {
    ///     // SAFETY: no other process has the set, and this one has one thread.
    ///     let mut mine = unsafe { set.claim(number) };
    ///     assert!(mine.turn().insert(number)?);
    /// }
    /// # Ok::<(), Box<dyn std::error::Error>>(())
    /// ```
    ///
    /// # Panics
    ///
    /// If the number isn't below [`SharedTable::handle_count`].
    ///
    /// # Safety
    ///
    /// While this claim is in use, no other claim of the handle is, in any process and any thread. What was done by the one
    /// before is ordered before, by a fork, a `waitpid`, a pipe or the like. If a process has died that had the handle, it
    /// was inherited since ([`SharedTable::inherit`]).
    ///
    /// A fork copies claims and turns as all else, and from then on one of the two processes alone uses them. A turn that is dropped
    /// is used too. So a child of a fork that was made within a turn ends without dropping it, or becomes another program.
    pub unsafe fn claim(&self, number: usize) -> Claim<'_, T> {
        Claim { handle: self.at(number), number, table: PhantomData }
    }

    // %doc vbr_inherit
    /// Takes over the handle of a process that is dead, as waitpid has reported.
    ///
    /// Returns [`Inherited::Whole`] if no call was under way, and the handle is as the last call left it, with its slots;
    /// [`Inherited::WithoutSlots`] if a call was under way, which was made or it wasn't. After [`Inherited::WithoutSlots`] it
    /// leaves the handle without its mark and the slots that it kept. Up to 66 slots are lost until the next renewal.
    // %end
    ///
    /// Then another process may claim it. Any process that has the set does so, while all others make calls.
    ///
    /// ```
    /// # use vbr::{Inherited, SharedSet, Shape};
    /// # let set = SharedSet::open(Shape::for_keys(8, 2).with_deaths(1))?;
    /// # let dead = 1;
    /// # assert!(unsafe { set.claim(dead) }.turn().insert(5)?);
    /// // SAFETY: the process that had the handle is dead, and no other one has it yet.
    /// match unsafe { set.inherit(dead) } {
    ///     Inherited::Whole => {}
    ///     Inherited::WithoutSlots => println!("up to 66 slots are lost until the next renewal"),
    /// }
    /// # Ok::<(), Box<dyn std::error::Error>>(())
    /// ```
    ///
    /// # Panics
    ///
    /// If the number isn't below [`SharedTable::handle_count`], or the handle is empty. A process that dies in a report or in
    /// a renewal may leave it so, and then the set can't go on.
    ///
    /// # Safety
    ///
    /// The process that claimed the handle is dead, or no claim of it is in use; and nobody else inherits it meanwhile, or reports or
    /// renews the set.
    #[allow(clippy::must_use_candidate, reason = "it may be called for what it does")]
    pub unsafe fn inherit(&self, number: usize) -> Inherited {
        let handle = self.at(number).as_ptr();
        // SAFETY: nothing else has the handle, as the caller promises.
        match order::of_all(|| unsafe { vbr_inherit(handle) }) {
            code::YES => Inherited::Whole,
            code::NO => Inherited::WithoutSlots,
            told => panic!("handle {number} is empty ({told})"),
        }
    }

    // %doc vbr_renew_shared: sentence leaves notes
    /// Lets all handles go on over a fresh set of this shape with the keys that are there, or over a fresh map, as
    /// [`HandleOf::renew_all`](crate::HandleOf::renew_all) does.
    ///
    /// It leaves what [`HandleOf::renew_all`](crate::HandleOf::renew_all) leaves. All go on with the handles that they have,
    /// and the slots that dead processes lost are won back.
    ///
    /// Once all handles are found full, those whose process died in a call are inherited, whatever the answer is then.
    // %end
    ///
    /// Any process does so. The budgets of the shape are those of the handles then, if it has any. Its seed isn't asked, nor how many
    /// handles it is for. It takes no memory but that of the set, and goes once over all slots.
    ///
    /// ```
    /// # use vbr::{SharedSet, Shape};
    /// let shape = Shape::new(2, 2, 100);
    /// let set = SharedSet::open_with(shape, &[5, 7])?;
    /// // SAFETY: no other process has the set, and this one has one thread.
    /// unsafe { set.renew(shape) }?;
    /// assert_eq!(unsafe { set.claim(0) }.turn().balance(), 2);
    /// # Ok::<(), Box<dyn std::error::Error>>(())
    /// ```
    ///
    /// # Errors
    ///
    /// [`RenewError::Shape`], which is tested first; [`RenewError::Missing`] if a handle is empty, as a process may leave it
    /// that dies in a report or a renewal; [`RenewError::Slots`]; and [`RenewError::Memory`] if the memory of the set, which
    /// has room for the shape that it was opened with, has none for this one. The set is as it was then.
    ///
    /// # Safety
    ///
    /// Until it returns no process and no thread is in a turn, or begins one, and none inherits, reports or renews. What they did is
    /// ordered before it, and what they do afterwards after it: a word in shared memory, or a pipe, that each process reads between two
    /// turns does that.
    pub unsafe fn renew(&self, shape: Shape) -> Result<(), RenewError> {
        shape.check_numbers()?;
        let Shape { slots, buckets, last_epoch, .. } = shape;
        // SAFETY: nothing else has a handle, as the caller promises.
        match order::of_all(|| unsafe { vbr_renew_shared(self.handles.as_ptr(), slots, buckets, last_epoch) }) {
            code::DONE => {
                // SAFETY: as above.
                unsafe { self.set_steps(shape) };
                Ok(())
            }
            code::NO_HANDLE => Err(RenewError::Missing),
            code::NO_ROOM => Err(RenewError::Slots),
            _ => Err(RenewError::Memory),
        }
    }

    /// Reports what is in the set, as the close of the last handle does for a set that threads share. All go on with the
    /// claims that they have. Handles whose process died in a call are inherited first. It takes the memory of a close, in
    /// this process.
    ///
    /// ```
    /// # use vbr::{SharedMap, Shape};
    /// let map = SharedMap::open_with(Shape::for_keys(8, 2), &[(5, 70)])?;
    /// // SAFETY: no other process has the map, and this one has one thread.
    /// let report = unsafe { map.report() }?;
    /// assert_eq!((report.entries, report.free), (vec![(5, 70)], 8 + 2 * 64 - 1));
    /// # Ok::<(), Box<dyn std::error::Error>>(())
    /// ```
    ///
    /// # Errors
    ///
    /// [`ReportError::Missing`] if a handle is empty, as for [`SharedTable::renew`], and [`ReportError::Memory`]. The set is
    /// as it was then.
    ///
    /// # Safety
    ///
    /// As for [`SharedTable::renew`].
    pub unsafe fn report(&self) -> Result<T::Report, ReportError> {
        // SAFETY: nothing else has a handle, as the caller promises, and those of the dead are inherited before they are asked.
        let slots = unsafe {
            for number in 0..self.count {
                if vbr_inherit(self.at(number).as_ptr()) == code::NO_HANDLE {
                    return Err(ReportError::Missing);
                }
            }
            T::SLOTS(self.handles.as_ref().raw.get())
        };
        let mut room = Room::<T>::of(slots).ok_or(ReportError::Memory)?;
        // SAFETY: they are all handles of the set, side by side, which nothing else has; and then they are where they were.
        let told = room.fill(|items, room, told| unsafe {
            let told = T::REPORT_ALL(T::GATHER(self.handles.as_ptr()), self.count, items, room, told);
            vbr_spread(self.handles.as_ptr());
            told
        });
        told.map(|numbers| room.report(numbers)).map_err(|why| match why {
            Unreported::Memory => ReportError::Memory,
            Unreported::Lost => ReportError::Missing,
        })
    }

    /// Takes the set out of this process, without a report, and of no other. A set that is dropped ends so too.
    ///
    /// ```
    /// # use vbr::{SharedSet, Shape};
    /// let set: SharedSet = SharedSet::open(Shape::for_keys(8, 2))?;
    /// set.end();
    /// # Ok::<(), vbr::OpenError>(())
    /// ```
    pub fn end(self) {
        drop(self);
    }

    fn at(&self, number: usize) -> NonNull<SharedRaw> {
        assert!(number < self.count, "handle {number} of {}", self.count);
        // SAFETY: it is one of those that there are.
        unsafe { self.handles.add(number) }
    }

    /// Gives the calls of all handles the budget of the shape, if it has one.
    ///
    /// # Safety
    ///
    /// Nothing else has a handle meanwhile.
    unsafe fn set_steps(&self, shape: Shape) {
        let Some(steps) = shape.steps else {
            return;
        };
        for number in 0..self.count {
            // SAFETY: as the caller promises.
            unsafe { (*self.at(number).as_ref().raw.get()).steps = steps.count() };
        }
    }
}

impl<T: Kind> fmt::Debug for SharedTable<T> {
    fn fmt(&self, f: &mut fmt::Formatter<'_>) -> fmt::Result {
        f.debug_struct("SharedTable").field("handle_count", &self.count).finish_non_exhaustive()
    }
}

impl<T: Kind> Drop for SharedTable<T> {
    fn drop(&mut self) {
        // SAFETY: claims borrow the set, so this process has none any more. Other processes have memory of their own addresses.
        order::of_all(|| unsafe { vbr_unmap_shared(self.handles.as_ptr()) });
    }
}

/// What was left of a handle whose process has died.
///
/// ```
/// # use vbr::{Inherited, SharedSet, Shape};
/// let set = SharedSet::open(Shape::for_keys(8, 1))?;
/// // SAFETY: nothing else claims the one handle.
/// let mut mine = unsafe { set.claim(0) };
/// assert!(mine.turn().insert(5)?);
/// // SAFETY: the claim isn't in use.
/// assert_eq!(unsafe { set.inherit(0) }, Inherited::Whole);
/// # Ok::<(), Box<dyn std::error::Error>>(())
/// ```
#[derive(Clone, Copy, Debug, PartialEq, Eq, Hash)]
pub enum Inherited {
    /// The process died between two turns.
    Whole,
    /// The process died in a turn. The handle's balance may lack the call that was under way.
    WithoutSlots,
}

/// A handle of a set that processes share, as one process has it, and one thread of that; of a map as `Claim<'_, Entries>`.
/// It makes calls by turns alone ([`Claim::turn`]), and closes nothing when it is dropped.
///
/// It may go to another thread, and is neither `Clone` nor `Sync`.
///
/// ```
/// # use vbr::{Claim, Refusal, SharedSet, Shape};
/// fn visit(mine: &mut Claim, page: u64) -> Result<bool, Refusal> {
///     mine.turn().insert(page)
/// }
///
/// let set = SharedSet::open(Shape::for_keys(8, 1))?;
/// // SAFETY: nothing else claims the one handle.
/// let mut mine = unsafe { set.claim(0) };
/// assert!(visit(&mut mine, 5)?);
/// # Ok::<(), Box<dyn std::error::Error>>(())
/// ```
///
/// ```compile_fail,E0277
/// fn is_sync<T: Sync>() {}
/// is_sync::<vbr::Claim>();
/// ```
///
/// ```compile_fail,E0277
/// fn is_clone<T: Clone>() {}
/// is_clone::<vbr::Claim>();
/// ```
#[must_use = "it makes calls by its turns"]
pub struct Claim<'s, T: Kind = Keys> {
    handle: NonNull<SharedRaw>,
    number: usize,
    table: PhantomData<&'s SharedTable<T>>,
}

// SAFETY: the handle may be sent, as each is, and nothing else has it.
unsafe impl<T: Kind> Send for Claim<'_, T> {}

impl<T: Kind> Claim<'_, T> {
    /// The number of the handle that it claims: for data that lies beside each.
    ///
    /// ```
    /// # use vbr::{SharedSet, Shape};
    /// let set: SharedSet = SharedSet::open(Shape::for_keys(8, 2))?;
    /// // SAFETY: nothing else claims the handle.
    /// assert_eq!(unsafe { set.claim(1) }.number(), 1);
    /// # Ok::<(), vbr::OpenError>(())
    /// ```
    #[must_use]
    #[inline]
    pub fn number(&self) -> usize {
        self.number
    }

    // %doc turn
    /// Begins a turn, in which the handle makes a call, or several. It marks the handle by a plain store, and its end clears
    /// the mark by another.
    // %end
    ///
    /// Keep it no longer than its calls: a process that dies in a turn loses slots, and a renewal waits for its end.
    ///
    /// ```
    /// # use vbr::{SharedMap, Shape};
    /// # let map = SharedMap::open(Shape::for_keys(8, 1))?;
    /// # // SAFETY: nothing else claims the one handle.
    /// # let mut mine = unsafe { map.claim(0) };
    /// assert!(mine.turn().try_insert(5, 70)?); // a turn of one call
    /// let mut turn = mine.turn();
    /// assert_eq!((turn.remove(5)?, turn.get(5)?), (Some(70), None)); // and of two
    /// drop(turn);
    /// # Ok::<(), Box<dyn std::error::Error>>(())
    /// ```
    #[inline]
    pub fn turn(&mut self) -> Turn<'_, T> {
        let turn = Turn { handle: self.handle, claim: PhantomData };
        turn.mark(1);
        compiler_fence(Ordering::SeqCst);
        turn
    }
}

impl<T: Kind> fmt::Debug for Claim<'_, T> {
    fn fmt(&self, f: &mut fmt::Formatter<'_>) -> fmt::Result {
        f.debug_struct("Claim").field("number", &self.number).finish_non_exhaustive()
    }
}

/// A turn of a handle that is claimed, in which it makes calls; of a map as `Turn<'_, Entries>`. It derefs to the handle's
/// pass ([`PassOf`]), and ends when it is dropped. One that is forgotten ([`core::mem::forget`]) leaves the mark, until the
/// next turn of the handle ends: whoever inherits the handle before takes it for one that a process died with in a call.
///
/// ```
/// # use vbr::{Kind, OutOfSteps, SharedSet, Shape, Turn};
/// fn count<T: Kind>(turn: &Turn<'_, T>) -> Result<u64, OutOfSteps> {
///     turn.iter().map(|each| each.map(|_| 1)).sum()
/// }
///
/// let set = SharedSet::open_with(Shape::for_keys(8, 1), &[5, 7])?;
/// // SAFETY: nothing else claims the one handle.
/// let mut mine = unsafe { set.claim(0) };
/// assert_eq!(count(&mine.turn())?, 2);
/// for key in &mine.turn() {
///     println!("{}", key?);
/// }
/// # Ok::<(), Box<dyn std::error::Error>>(())
/// ```
///
/// ```compile_fail,E0277
/// fn is_sync<T: Sync>() {}
/// is_sync::<vbr::Turn>();
/// ```
#[must_use = "it ends where it is dropped"]
#[clippy::has_significant_drop]
pub struct Turn<'c, T: Kind = Keys> {
    handle: NonNull<SharedRaw>,
    claim: PhantomData<&'c mut SharedTable<T>>,
}

// SAFETY: it has the handle of a claim, which may be sent, and nothing else has that meanwhile.
unsafe impl<T: Kind> Send for Turn<'_, T> {}

impl<T: Kind> Turn<'_, T> {
    #[inline]
    fn mark(&self, mark: u32) {
        // SAFETY: the memory is there as long as the claim, and nothing else has the handle.
        let place = unsafe { AtomicU32::from_ptr(addr_of_mut!((*self.handle.as_ref().raw.get()).in_call)) };
        place.store(mark, Ordering::Relaxed);
    }
}

impl<T: Kind> Deref for Turn<'_, T> {
    type Target = PassOf<T>;

    #[inline]
    fn deref(&self) -> &PassOf<T> {
        // SAFETY: as for `mark`; and this is not `Sync`.
        PassOf::of(unsafe { &self.handle.as_ref().raw })
    }
}

impl<T: Kind> DerefMut for Turn<'_, T> {
    #[inline]
    fn deref_mut(&mut self) -> &mut PassOf<T> {
        // SAFETY: as for `mark`, and `&mut` is exclusive.
        PassOf::of_mut(unsafe { &mut self.handle.as_mut().raw })
    }
}

impl<T: Kind> Drop for Turn<'_, T> {
    #[inline]
    fn drop(&mut self) {
        compiler_fence(Ordering::SeqCst);
        self.mark(0);
    }
}

impl<T: Kind> fmt::Debug for Turn<'_, T> {
    fn fmt(&self, f: &mut fmt::Formatter<'_>) -> fmt::Result {
        f.debug_struct("Turn").finish_non_exhaustive()
    }
}

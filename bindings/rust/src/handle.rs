//! Handles: opened together, and closed one by one or all at once; and their passes, which make the calls.
use crate::boxed::boxed;
use crate::library::{code, Raw};
use crate::pass::PassOf;
use crate::reporting::{Room, Unreported};
use crate::{order, random_seed, CloseError, KeysError, Kind, OpenError, Shape, Steps, Unclosed};
use alloc::boxed::Box;
use alloc::vec::Vec;
use core::cell::UnsafeCell;
use core::ffi::c_void;
use core::fmt;
use core::marker::PhantomData;
use core::mem::replace;
use core::ops::{Deref, DerefMut};
use core::ptr::{null_mut, NonNull};
use core::sync::atomic::{AtomicPtr, AtomicU32, AtomicU64, AtomicUsize, Ordering};

/// A handle to a set, called [`Handle`](crate::Handle), or to a map, called [`MapHandle`](crate::MapHandle): a pass and a share of the set.
/// The calls are those of the pass, to which it derefs: [`PassOf`]. What is said here of a set and its keys holds for a map and its entries too.
///
/// It may go to another thread, and is neither `Clone` nor `Sync`. A dropped handle is closed.
///
// %doc vbr_drop: leaves
/// It leaves the handle empty, and its slots and its pass given back as by a close. The last handle of the set that is closed
/// still gets the report. If the last one is dropped, the set ends.
// %end
///
/// ```
/// # use vbr::{Set, Shape};
/// let mut handles = Set::handles(Shape::for_keys(8, 2))?;
/// let mut other = handles.pop().expect("two handles");
/// std::thread::spawn(move || other.insert(5)).join().expect("a thread")?;
/// assert!(handles[0].has(5)?);
/// # Ok::<(), Box<dyn std::error::Error>>(())
/// ```
pub struct HandleOf<T: Kind> {
    pub(crate) raw: UnsafeCell<Raw>,
    number: usize,
    /// What the handles of its set or map share, until it is closed.
    pub(crate) shared: Option<NonNull<Shared>>,
    kind: PhantomData<T>,
}

// SAFETY: the library proves `Send` of its `Handle`, which `raw` is, and what is shared changes by atomic steps alone. It has no
// key and no value: each that it gives is made of bits by the thread that makes the call.
unsafe impl<T: Kind> Send for HandleOf<T> {}

/// What the handles of a set or a map share: how many are open, and those that were closed. So the last one is known before
/// the library is asked for the report: it closes all of them at once, and memory is needed for one report alone.
pub(crate) struct Shared {
    open: AtomicUsize,
    /// How many handles were opened.
    pub(crate) count: usize,
    pub(crate) slots: u32,
    /// A place for each handle.
    parked: Vec<Parked>,
}

/// A handle as the library has it, which is written through `&`: empty while its owner has it open.
#[repr(C)]
#[derive(Default)]
struct Parked {
    owned: AtomicPtr<c_void>,
    /// The budget and the mark, which nobody reads.
    steps: AtomicU64,
    opening: AtomicU32,
}

/// What a handle has of its set: what it owns, null if it is empty, and which opening it belongs to.
pub(crate) struct Owned {
    ptr: *mut c_void,
    opening: u32,
}

const _: () = assert!(size_of::<Raw>() == 24 && size_of::<Parked>() == 24 && align_of::<Parked>() == align_of::<Raw>());

impl<T: Kind> HandleOf<T> {
    /// The handles of a set that has these keys.
    pub(crate) fn open(shape: Shape, items: &[T::Item]) -> Result<Vec<Self>, OpenError> {
        let Shape { slots, buckets, last_epoch, handles, seed, steps } = shape;
        shape.check()?;
        check_version();
        let items = plain::<T>(items, slots)?;
        let shared = Shared::all_open(handles, slots).ok_or(OpenError::Memory)?;
        let (mut raw, mut opened) = (Vec::new(), Vec::new());
        if raw.try_reserve_exact(handles).is_err() || opened.try_reserve_exact(handles).is_err() {
            return Err(OpenError::Memory);
        }
        raw.resize_with(handles, || Raw::EMPTY);
        let seed = seed.unwrap_or_else(random_seed);
        // SAFETY: the handles are empty, and nothing else reaches them; and `items` has as many as the call is given.
        let told = unsafe {
            T::OPEN_MANY_SEEDED(raw.as_mut_ptr(), handles, slots, buckets, last_epoch, seed, items.as_ptr(), items.len())
        };
        if told != code::DONE {
            return Err(OpenError::Memory);
        }
        // Whoever closes the last handle frees it.
        let shared = NonNull::from(Box::leak(shared));
        let steps = steps.unwrap_or_default().count();
        opened.extend(raw.into_iter().enumerate().map(|(number, raw)| HandleOf {
            raw: UnsafeCell::new(Raw { steps, ..raw }),
            number,
            shared: Some(shared),
            kind: PhantomData,
        }));
        Ok(opened)
    }
}

impl<T: Kind> HandleOf<T> {
    /// Gives the calls of the handle another budget.
    ///
    /// ```
    /// # use vbr::{OutOfSteps, Set, Shape, Steps};
    /// let mut handle = Set::handles_with(Shape::for_keys(8, 1), &[5])?.remove(0);
    /// handle.set_steps(Steps::new(1));
    /// assert_eq!(handle.has(5), Err(OutOfSteps));
    /// # Ok::<(), vbr::OpenError>(())
    /// ```
    #[inline]
    pub fn set_steps(&mut self, steps: Steps) {
        self.raw.get_mut().steps = steps.count();
    }

    // %doc vbr_close
    /// Closes a handle; the last one of a set ends it, with a report.
    ///
    /// Returns the report if it was the last, and the set is closed; `None` if other handles of its set are open. It leaves
    /// the handle empty, and its slots given back, as by [`give_slots_back`](crate::PassOf::give_slots_back), and its pass.
    /// After [`CloseError::Memory`] it is still full: close it again, drop it, or go on with it.
    // %end
    ///
    /// The report takes 8 bytes for each slot of a set, 16 of a map, and the size of one key or entry besides if these aren't laid out as
    /// those of `u64` are; what isn't needed is given back if there is memory for the keys alone. While the last close runs it takes as
    /// much as the words of the set, and 9 bytes for each slot, or 17 of a map.
    ///
    /// If nobody wants the report, drop the handle: with the last one the set ends, in a fraction of the time.
    ///
    /// ```
    /// # use vbr::{Set, Shape};
    /// let mut handles = Set::handles_with(Shape::for_keys(8, 2), &[5, 7])?;
    /// let last = handles.pop().expect("two handles");
    /// assert!(handles.remove(0).close()?.is_none());
    /// let report = last.close()?.expect("the last handle");
    /// assert_eq!(report.keys, [5, 7]);
    /// # Ok::<(), Box<dyn std::error::Error>>(())
    /// ```
    ///
    // %errors vbr_close: but VBR_NO_ROOM
    /// # Errors
    ///
    /// - [`CloseError::Memory`]: it is the last. Only then is memory needed, which is freed again.
    /// - [`CloseError::Lost`].
    // %end
    pub fn close(mut self) -> Result<Option<T::Report>, CloseError<HandleOf<T>>> {
        let Some(shared) = self.last() else {
            return Ok(None);
        };
        // SAFETY: this is the last handle, which frees it when it is dropped.
        match self.close_last(unsafe { shared.as_ref() }) {
            Ok(report) => Ok(Some(report)),
            Err(Unreported::Memory) => Err(CloseError::Memory(Unclosed(self))),
            Err(Unreported::Lost) => Err(CloseError::Lost),
        }
    }

    /// Closes all handles of a set at once, which are open. If memory is refused they stay as they were.
    pub(crate) fn close_all(handles: &mut [impl AsMut<Self>]) -> Result<T::Report, Unreported> {
        let (last, others) = handles.split_last_mut().ok_or(Unreported::Lost)?;
        for other in others.iter_mut() {
            other.as_mut().last();
        }
        let last = last.as_mut();
        let shared = last.last().ok_or(Unreported::Lost)?;
        // SAFETY: this is the last handle, which frees it when it is dropped.
        let told = last.close_last(unsafe { shared.as_ref() });
        if let Err(Unreported::Memory) = told {
            for other in others {
                other.as_mut().open_again(shared);
            }
        }
        told
    }

    /// Closes all handles of a set by the last one. If memory is refused they stay as they were.
    fn close_last(&mut self, shared: &Shared) -> Result<T::Report, Unreported> {
        let mut room = Room::<T>::of(shared.slots).ok_or(Unreported::Memory)?;
        shared.park(self.number, self.take_owned());
        // SAFETY: these are all handles of the set or map, and nothing else has one of them.
        let told = room.fill(|items, room, told| unsafe { T::CLOSE_ALL(shared.all(), shared.count, items, room, told) });
        // They are empty now, or stay as they were.
        self.give_owned(shared.unpark(self.number));
        Ok(room.report(told?))
    }

    /// What the handle owns, which is empty then.
    pub(crate) fn take_owned(&mut self) -> Owned {
        let raw = self.raw.get_mut();
        Owned { ptr: replace(&mut raw.owned, null_mut()), opening: raw.opening }
    }

    /// Lets the handle, which is empty, own this.
    pub(crate) fn give_owned(&mut self, Owned { ptr, opening }: Owned) {
        let raw = self.raw.get_mut();
        (raw.owned, raw.opening) = (ptr, opening);
    }

    /// Takes the handle, which was parked, back from the last one that is open.
    fn open_again(&mut self, ptr: NonNull<Shared>) {
        // SAFETY: it is freed by the handle that is closed last, and one is open.
        let shared = unsafe { ptr.as_ref() };
        self.give_owned(shared.unpark(self.number));
        shared.open.fetch_add(1, Ordering::Relaxed);
        self.shared = Some(ptr);
    }

    /// What the handles share, if all others are closed. If not, this one is closed then too: it is parked.
    fn last(&mut self) -> Option<NonNull<Shared>> {
        let ptr = self.shared?;
        // SAFETY: it is freed by the handle that is closed last, and this one is open.
        let shared = unsafe { ptr.as_ref() };
        if shared.open.load(Ordering::Acquire) == 1 {
            return Some(ptr);
        }
        // Those that are open can have its slots.
        // SAFETY: `&mut` is exclusive.
        unsafe { T::SPARE(self.raw.get()) };
        shared.park(self.number, self.take_owned());
        if shared.open.fetch_sub(1, Ordering::AcqRel) == 1 {
            self.give_owned(shared.unpark(self.number));
            shared.open.store(1, Ordering::Relaxed);
            return Some(ptr);
        }
        self.shared = None;
        None
    }
}

impl Shared {
    /// What so many handles share, if there is memory.
    fn all_open(count: usize, slots: u32) -> Option<Box<Shared>> {
        let mut parked = Vec::new();
        parked.try_reserve_exact(count).ok()?;
        parked.resize_with(count, Parked::default);
        boxed(Shared { open: AtomicUsize::new(count), count, slots, parked })
    }

    /// Puts what a handle owns into the place of this number.
    pub(crate) fn park(&self, number: usize, Owned { ptr, opening }: Owned) {
        self.parked[number].opening.store(opening, Ordering::Relaxed);
        self.parked[number].owned.store(ptr, Ordering::Relaxed);
    }

    /// What is in the place of this number, which is empty then.
    pub(crate) fn unpark(&self, number: usize) -> Owned {
        let Parked { owned, opening, .. } = &self.parked[number];
        Owned { ptr: owned.swap(null_mut(), Ordering::Relaxed), opening: opening.load(Ordering::Relaxed) }
    }

    /// The places of the handles, as the library takes them; each may be written through `&`.
    pub(crate) fn all(&self) -> *mut Raw {
        self.parked.as_ptr().cast_mut().cast()
    }
}

impl<T: Kind> Deref for HandleOf<T> {
    type Target = PassOf<T>;

    #[inline]
    fn deref(&self) -> &PassOf<T> {
        PassOf::of(&self.raw)
    }
}

impl<T: Kind> DerefMut for HandleOf<T> {
    #[inline]
    fn deref_mut(&mut self) -> &mut PassOf<T> {
        PassOf::of_mut(&mut self.raw)
    }
}

impl<T: Kind> fmt::Debug for HandleOf<T> {
    fn fmt(&self, f: &mut fmt::Formatter<'_>) -> fmt::Result {
        self.show(T::NAMES[1], f)
    }
}

impl<T: Kind> Drop for HandleOf<T> {
    fn drop(&mut self) {
        let Some(ptr) = self.last() else {
            return;
        };
        // SAFETY: all others are closed, so nothing else reaches what they shared, which was one boxed value; and `&mut`
        // is exclusive. After a close all are empty, and stay so.
        unsafe {
            let shared = ptr.as_ref();
            shared.park(self.number, self.take_owned());
            order::of_all(|| T::END_ALL(shared.all(), shared.count));
            drop(Box::from_raw(ptr.as_ptr()));
        }
    }
}

/// The items as the library takes them, if they ascend and have room.
pub(crate) fn plain<T: Kind>(items: &[T::Item], slots: u32) -> Result<Vec<T::Plain>, OpenError> {
    if items.len() > slots as usize {
        return Err(OpenError::Keys(KeysError::TooMany { keys: items.len(), slots }));
    }
    let mut plain = Vec::new();
    plain.try_reserve_exact(items.len()).map_err(|_| OpenError::Memory)?;
    for (place, &item) in items.iter().enumerate() {
        let next = T::plain(item);
        if plain.last().is_some_and(|before| T::key(before) >= T::key(&next)) {
            return Err(OpenError::Keys(KeysError::NotAscending { place }));
        }
        plain.push(next);
    }
    Ok(plain)
}

/// Sees that the library is of the crate's version.
pub(crate) fn check_version() {
    let own = [env!("CARGO_PKG_VERSION_MAJOR"), env!("CARGO_PKG_VERSION_MINOR"), env!("CARGO_PKG_VERSION_PATCH")];
    let [of_library, of_crate] =
        [crate::version(), own.iter().fold(0, |sum, it| sum * 1_000 + it.parse::<u32>().unwrap_or(0))];
    assert!(of_library == of_crate, "the library is of version {of_library}, and the crate of {of_crate} (0.3.0 is 3000)");
}

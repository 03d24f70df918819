//! Why a set or a map isn't opened, a call isn't answered, and a handle isn't closed.
use crate::{Handle, HandleOf, Keys, Kind, ShapeError, Table, MAX_SHARDS};
use alloc::vec::Vec;
use core::error::Error;
use core::fmt;

/// Why a set or a map was not opened.
///
/// ```
/// # use vbr::{KeysError, OpenError, Set, Shape};
/// let error = Set::handles_with(Shape::for_keys(8, 1), &[5, 9, 7]).unwrap_err();
/// assert_eq!(error, OpenError::Keys(KeysError::NotAscending { place: 2 }));
/// assert_eq!(error.to_string(), "the key at place 2 is not above the one before");
/// ```
#[derive(Clone, Copy, Debug, PartialEq, Eq, Hash)]
#[non_exhaustive]
pub enum OpenError {
    /// A number of the shape is out of range: the first such one.
    Shape(ShapeError),
    // %answer VBR_BAD_KEYS
    /// The keys do not ascend, or there are more than slots; nothing was done.
    // %end
    Keys(KeysError),
    /// There is no memory.
    Memory,
    /// The file is shorter than the memory of the set ([`SharedTable::size`](crate::SharedTable::size)). Only an opening in a
    /// file returns this.
    ShortFile,
    /// So many shards are not from 1 to [`MAX_SHARDS`](crate::MAX_SHARDS). Only an opening of a [`Sharded`](crate::Sharded) set or map
    /// returns this.
    Shards(usize),
}

/// Why a set or a map can't be opened with these keys.
///
/// ```
/// # use vbr::{KeysError, OpenError, Set, Shape};
/// let error = Set::handles_with(Shape::new(2, 1, 100), &[5, 7, 9]).unwrap_err();
/// assert_eq!(error, OpenError::Keys(KeysError::TooMany { keys: 3, slots: 2 }));
/// ```
#[derive(Clone, Copy, Debug, PartialEq, Eq, Hash)]
#[non_exhaustive]
pub enum KeysError {
    /// There are more keys than slots.
    TooMany {
        /// How many keys there are.
        keys: usize,
        /// How many slots the shape has.
        slots: u32,
    },
    /// The key at this place, the first such one, isn't above the one before it: they are out of order, or the same.
    NotAscending {
        /// Where the key is, counted from 0.
        place: usize,
    },
}

/// Why a look-up, a remove or an iterator gave no answer, the only reason that there is: its budget is spent. It made no call then.
/// [`Refusal::OutOfSteps`] says what helps. It converts into a [`Refusal`], so `?` serves both.
///
/// ```
/// # use vbr::{MapPass, OutOfSteps, Refusal};
/// /// Takes a page out of one index, and puts it into another.
/// fn moved(page: u64, from: &mut MapPass, to: &mut MapPass) -> Result<bool, Refusal> {
///     match from.remove(page)? {
///         Some(frame) => to.try_insert(page, frame),
///         None => Ok(false),
///     }
/// }
/// assert_eq!(Refusal::from(OutOfSteps), Refusal::OutOfSteps);
/// ```
#[derive(Clone, Copy, Debug, PartialEq, Eq, Hash)]
pub struct OutOfSteps;

/// Why a call of a walk gave no answer. Nothing is given then. It converts into a [`Refusal`].
///
/// ```
/// # use vbr::{Cursor, Set, Shape, WalkError};
/// let mut set = Set::open_with(Shape::for_keys(8, 1), &[2, 5, 9])?;
/// let mut cursor = Cursor::first();
/// assert!(set.lend_wait().next(&mut cursor)?.is_some());
/// set.renew(Shape::for_keys(100, 1))?;
/// assert_eq!(set.lend_wait().next(&mut cursor), Err(WalkError::Reshaped));
/// # Ok::<(), Box<dyn std::error::Error>>(())
/// ```
#[derive(Clone, Copy, Debug, PartialEq, Eq, Hash)]
#[non_exhaustive]
pub enum WalkError {
    // %answer VBR_OUT_OF_STEPS
    /// The budget is spent; no call was made; a greater budget may help.
    // %end
    ///
    /// The cursor keeps how far it has come, so make the call again, as [`Refusal::OutOfSteps`] says.
    OutOfSteps,
    // %answer VBR_RESHAPED
    /// The walk began on another opening: the set was renewed since, or the handle was opened anew; nothing is given, and the
    /// cursor stays; begin anew, from [`Cursor::first`](crate::Cursor::first).
    // %end
    Reshaped,
}

impl WalkError {
    /// Of a walk that borrows its handle from its first call to its last, so that nobody can renew the set meanwhile.
    pub(crate) fn of_borrowed(self) -> OutOfSteps {
        assert!(self == WalkError::OutOfSteps, "a set is renewed while a walk borrows its handle");
        OutOfSteps
    }
}

/// Why a call gave no answer. It made no call then.
///
/// These are all the reasons that there are, so a program can match each, and the compiler says which it left out. A look-up
/// and a remove are refused for one of them alone, and so by [`OutOfSteps`], and a call of a walk for two ([`WalkError`]).
///
/// ```
/// # use vbr::{Refusal, Set, Shape, Steps};
/// let mut handle = Set::handles_with(Shape::new(1, 1, 100), &[5])?.remove(0);
/// assert_eq!(handle.insert(6), Err(Refusal::NoSlot));
/// assert_eq!(handle.insert_within(6, Steps::new(1)), Err(Refusal::OutOfSteps));
/// let what_helps = |refusal| match refusal {
///     Refusal::OutOfSteps => "make the call again",
///     Refusal::NoSlot => "remove keys, or renew to more slots",
///     Refusal::EpochSpent => "renew",
///     Refusal::Held => "drop what is held",
///     Refusal::Reshaped => "begin the walk anew",
/// };
/// assert_eq!(what_helps(Refusal::EpochSpent), "renew");
/// # Ok::<(), Box<dyn std::error::Error>>(())
/// ```
#[derive(Clone, Copy, Debug, PartialEq, Eq, Hash)]
pub enum Refusal {
    // %answer VBR_OUT_OF_STEPS
    /// The budget is spent; no call was made; a greater budget may help.
    // %end
    ///
    /// Make the call again, and double a budget that may be too small: [`Steps::AMPLE`](crate::Steps::AMPLE) is
    /// enough in short buckets, unless others disturb the call more than a hundred times. A look-up or a remove with steps
    /// enough alone runs out of them only if others inserted or removed in the key's bucket meanwhile, or advanced the epoch.
    OutOfSteps,
    // %answer VBR_NO_SLOT
    /// The handle found no slot for a node; no call was made.
    // %end
    ///
    /// An insert of an absent key wants a slot, and so does a call that gives a key another value. The handle had none of its
    /// own, and none was found in the shared pool. [`insert`](crate::Pass::insert) says what helps; a greater budget alone doesn't.
    NoSlot,
    // %answer VBR_EPOCH_SPENT
    /// A node is wanted and the last epoch is spent; no call was made; renew the set.
    // %end
    ///
    /// An insert of an absent key wants a node, and so does a call that gives a key another value. [`Table::renew`] and
    /// [`HandleOf::renew_all`] renew the set; until then look-ups and removes are answered as always.
    EpochSpent,
    /// A call would take a slot, and the handle has one in hand, since a [`Held`](crate::Held) was forgotten ([`core::mem::forget`]).
    /// [`PassOf::hold`](crate::PassOf::hold) takes another one in its place; drop that.
    Held,
    /// As [`WalkError::Reshaped`].
    Reshaped,
}

/// Why the last handle got no report: `CloseError<MapHandle>` for a map, and `CloseError<Set>` for a set that lends its
/// handles.
///
/// ```
/// # use vbr::{CloseError, Handle, Report};
/// fn report_of(handle: Handle) -> Result<Option<Report>, Handle> {
///     match handle.close() {
///         Ok(report) => Ok(report), // None: others are open
///         Err(CloseError::Memory(unclosed)) => Err(unclosed.into_handle()),
///         Err(_) => Ok(None),
///     }
/// }
/// # let handle = vbr::Set::handles_with(vbr::Shape::for_keys(8, 1), &[5])?.remove(0);
/// # assert_eq!(report_of(handle).expect("memory").expect("the only handle").keys, [5]);
/// # Ok::<(), Box<dyn std::error::Error>>(())
/// ```
#[non_exhaustive]
pub enum CloseError<H = Handle> {
    // %answer VBR_LOST
    /// The handle was the last, and a pass is missing; the set is gone, and its memory is freed. A dropped handle gives its
    /// pass back, and a forgotten one keeps its set open, so no program is known to get this.
    // %end
    Lost,
    /// There is no memory for the report. The handle, or the set with all its handles, is as it was, and can be closed again.
    Memory(Unclosed<H>),
}

/// A handle that couldn't be closed, within an error that threads may share: `Unclosed<MapHandle>` for a map's handle, and
/// `Unclosed<Set>` for a set that lends its handles.
///
/// ```
/// # use vbr::{Handle, Unclosed};
/// fn goes_on(unclosed: Unclosed) -> Result<bool, vbr::OutOfSteps> {
///     unclosed.into_handle().has(5)
/// }
/// ```
pub struct Unclosed<H = Handle>(pub(crate) H);

// SAFETY: it has a handle or a set, and a reference to it gives nothing but the name.
unsafe impl<H> Sync for Unclosed<H> {}

impl<T: Kind> Unclosed<Table<T>> {
    /// The set, which lends its handles again, or is closed again.
    ///
    /// ```
    /// # use vbr::{CloseError, Report, Set};
    /// /// Closes a set that lends its handles, and waits for memory if there is none.
    /// fn close(mut set: Set) -> Option<Report> {
    ///     loop {
    ///         match set.close() {
    ///             Err(CloseError::Memory(unclosed)) => set = unclosed.into_table(),
    ///             other => return other.ok(),
    ///         }
    ///         std::thread::yield_now();
    ///     }
    /// }
    /// # let set = Set::open(vbr::Shape::for_keys(8, 1))?;
    /// # assert!(close(set).is_some());
    /// # Ok::<(), vbr::OpenError>(())
    /// ```
    pub fn into_table(self) -> Table<T> {
        self.0
    }
}

impl<T: Kind> Unclosed<HandleOf<T>> {
    /// The handle, to go on with, or to be closed again.
    ///
    /// ```
    /// # use vbr::{CloseError, Handle, Report};
    /// /// Closes the last handle, and waits for memory if there is none.
    /// fn close(mut handle: Handle) -> Option<Report> {
    ///     loop {
    ///         match handle.close() {
    ///             Err(CloseError::Memory(unclosed)) => handle = unclosed.into_handle(),
    ///             other => return other.ok()?,
    ///         }
    ///         std::thread::yield_now();
    ///     }
    /// }
    /// # let handle = vbr::Set::handles(vbr::Shape::for_keys(8, 1))?.remove(0);
    /// # assert!(close(handle).is_some());
    /// # Ok::<(), vbr::OpenError>(())
    /// ```
    pub fn into_handle(self) -> HandleOf<T> {
        self.0
    }
}

/// Why all handles of a set or a map give no report. They stay as they were.
///
/// ```
/// # use vbr::{Handle, ReportError, Set, Shape};
/// let mut handles: Vec<Handle> = Set::handles(Shape::for_keys(8, 2))?;
/// assert_eq!(Handle::report_all(&mut handles[..1]).unwrap_err(), ReportError::Missing);
/// # Ok::<(), vbr::OpenError>(())
/// ```
#[derive(Clone, Copy, Debug, PartialEq, Eq, Hash)]
#[non_exhaustive]
pub enum ReportError {
    /// Two of the handles belong to different sets.
    Mixed,
    /// There are fewer handles than were opened with the set, or none.
    Missing,
    /// There is no memory for the report.
    Memory,
    /// From [`Table::report_timeout`]: a handle was still on loan when the time was over.
    Lent,
}

/// Why a set or a map doesn't lend handles ([`Table::from_handles`]), with the handles, as they were.
///
/// ```
/// # use vbr::{ReportError, Set, Shape};
/// let mut handles = Set::handles_with(Shape::for_keys(8, 2), &[5])?;
/// let kept = handles.pop();
/// let error = Set::from_handles(handles).unwrap_err();
/// assert_eq!(error.why(), ReportError::Missing);
/// let mut handles = error.into_handles();
/// handles.extend(kept);
/// assert!(Set::from_handles(handles)?.contains(5)?);
/// # Ok::<(), Box<dyn std::error::Error>>(())
/// ```
pub struct LendError<T: Kind = Keys> {
    pub(crate) why: ReportError,
    pub(crate) handles: Vec<HandleOf<T>>,
}

// SAFETY: a reference to it gives nothing of a handle.
unsafe impl<T: Kind> Sync for LendError<T> {}

impl<T: Kind> LendError<T> {
    /// Why: [`ReportError::Mixed`], [`ReportError::Missing`], or [`ReportError::Memory`], tested in this order.
    ///
    /// ```
    /// # use vbr::{ReportError, Set};
    /// assert_eq!(Set::<u64>::from_handles(vec![]).unwrap_err().why(), ReportError::Missing);
    /// ```
    #[must_use]
    pub fn why(&self) -> ReportError {
        self.why
    }

    /// The handles, in the order that they had.
    ///
    /// ```
    /// # use vbr::{Set, Shape};
    /// let mut handles = Set::handles(Shape::for_keys(8, 2))?;
    /// handles.truncate(1);
    /// let mut handles = Set::from_handles(handles).unwrap_err().into_handles();
    /// assert!(handles[0].insert(5)?);
    /// # Ok::<(), Box<dyn std::error::Error>>(())
    /// ```
    #[must_use]
    pub fn into_handles(self) -> Vec<HandleOf<T>> {
        self.handles
    }
}

/// Why the handles of a set or a map are not renewed. They stay as they were, and go on.
///
/// ```
/// # use vbr::{Handle, RenewError, Set, Shape};
/// let mut handles = Set::handles_with(Shape::for_keys(8, 1), &[5, 7])?;
/// assert_eq!(Handle::renew_all(&mut handles, Shape::new(1, 1, 100)), Err(RenewError::Slots));
/// # Ok::<(), vbr::OpenError>(())
/// ```
#[derive(Clone, Copy, Debug, PartialEq, Eq, Hash)]
#[non_exhaustive]
pub enum RenewError {
    /// A number of the shape is out of range: the first such one.
    Shape(ShapeError),
    /// Two of the handles belong to different sets.
    Mixed,
    /// There are fewer handles than were opened with the set, or none.
    Missing,
    /// There are more keys than slots of the shape.
    Slots,
    /// There is no memory for the report or for the fresh set, and there are no more keys than slots.
    Memory,
    /// From [`Table::renew_timeout`]: a handle was still on loan when the time was over.
    Lent,
}

impl From<OutOfSteps> for Refusal {
    fn from(_: OutOfSteps) -> Refusal {
        Refusal::OutOfSteps
    }
}

impl From<OutOfSteps> for WalkError {
    fn from(_: OutOfSteps) -> WalkError {
        WalkError::OutOfSteps
    }
}

impl From<WalkError> for Refusal {
    fn from(why: WalkError) -> Refusal {
        match why {
            WalkError::OutOfSteps => Refusal::OutOfSteps,
            WalkError::Reshaped => Refusal::Reshaped,
        }
    }
}

impl From<KeysError> for OpenError {
    fn from(error: KeysError) -> OpenError {
        OpenError::Keys(error)
    }
}

impl From<ShapeError> for OpenError {
    fn from(number: ShapeError) -> OpenError {
        OpenError::Shape(number)
    }
}

impl From<ShapeError> for RenewError {
    fn from(number: ShapeError) -> RenewError {
        RenewError::Shape(number)
    }
}

impl From<ReportError> for RenewError {
    fn from(why: ReportError) -> RenewError {
        match why {
            ReportError::Mixed => RenewError::Mixed,
            ReportError::Missing => RenewError::Missing,
            ReportError::Memory => RenewError::Memory,
            ReportError::Lent => RenewError::Lent,
        }
    }
}

impl fmt::Display for OpenError {
    fn fmt(&self, f: &mut fmt::Formatter<'_>) -> fmt::Result {
        match self {
            OpenError::Shape(number) => number.fmt(f),
            OpenError::Keys(why) => why.fmt(f),
            OpenError::Memory => f.write_str("there is no memory for the set or map"),
            OpenError::ShortFile => f.write_str("the file is too short for the set or map"),
            OpenError::Shards(shards) => write!(f, "{shards} shards are not from 1 to {MAX_SHARDS}"),
        }
    }
}

impl fmt::Display for KeysError {
    fn fmt(&self, f: &mut fmt::Formatter<'_>) -> fmt::Result {
        match self {
            KeysError::TooMany { keys, slots } => write!(f, "there are {keys} keys, and {slots} slots"),
            KeysError::NotAscending { place } => write!(f, "the key at place {place} is not above the one before"),
        }
    }
}

impl fmt::Display for OutOfSteps {
    fn fmt(&self, f: &mut fmt::Formatter<'_>) -> fmt::Result {
        Refusal::OutOfSteps.fmt(f)
    }
}

impl fmt::Display for WalkError {
    fn fmt(&self, f: &mut fmt::Formatter<'_>) -> fmt::Result {
        Refusal::from(*self).fmt(f)
    }
}

impl fmt::Display for Refusal {
    fn fmt(&self, f: &mut fmt::Formatter<'_>) -> fmt::Result {
        f.write_str(match self {
            Refusal::OutOfSteps => "the budget of steps is spent",
            Refusal::NoSlot => "no slot was found",
            Refusal::EpochSpent => "the last epoch is spent",
            Refusal::Held => "a slot is in hand",
            Refusal::Reshaped => "the set or map was renewed since the walk began",
        })
    }
}

impl<H> fmt::Display for CloseError<H> {
    fn fmt(&self, f: &mut fmt::Formatter<'_>) -> fmt::Result {
        f.write_str(match self {
            CloseError::Lost => "a pass of the set or map is missing",
            CloseError::Memory(_) => "there is no memory for the report",
        })
    }
}

impl fmt::Display for ReportError {
    fn fmt(&self, f: &mut fmt::Formatter<'_>) -> fmt::Result {
        f.write_str(match self {
            ReportError::Mixed => "the handles are of different sets or maps",
            ReportError::Missing => "there are fewer handles than were opened",
            ReportError::Memory => "there is no memory for the report",
            ReportError::Lent => "a handle was on loan until the time was over",
        })
    }
}

impl fmt::Display for RenewError {
    fn fmt(&self, f: &mut fmt::Formatter<'_>) -> fmt::Result {
        f.write_str(match self {
            RenewError::Shape(number) => return number.fmt(f),
            RenewError::Mixed => "the handles are of different sets or maps",
            RenewError::Missing => "there are fewer handles than were opened",
            RenewError::Slots => "there are more keys than slots",
            RenewError::Memory => "there is no memory for the fresh set or map",
            RenewError::Lent => "a handle was on loan until the time was over",
        })
    }
}

impl<T: Kind> fmt::Display for LendError<T> {
    fn fmt(&self, f: &mut fmt::Formatter<'_>) -> fmt::Result {
        f.write_str(match self.why {
            ReportError::Memory => "there is no memory for a set or map that lends its handles",
            _ => return self.why.fmt(f),
        })
    }
}

impl<T: Kind> fmt::Debug for LendError<T> {
    fn fmt(&self, f: &mut fmt::Formatter<'_>) -> fmt::Result {
        f.debug_struct("LendError").field("why", &self.why).field("handles", &self.handles.len()).finish()
    }
}

/// The name alone: threads that share it see nothing of the handle.
impl<H> fmt::Debug for Unclosed<H> {
    fn fmt(&self, f: &mut fmt::Formatter<'_>) -> fmt::Result {
        f.debug_struct("Unclosed").finish_non_exhaustive()
    }
}

impl<H> fmt::Debug for CloseError<H> {
    fn fmt(&self, f: &mut fmt::Formatter<'_>) -> fmt::Result {
        match self {
            CloseError::Lost => f.write_str("Lost"),
            CloseError::Memory(unclosed) => f.debug_tuple("Memory").field(unclosed).finish(),
        }
    }
}

impl Error for OpenError {}

impl Error for KeysError {}

impl Error for OutOfSteps {}

impl Error for WalkError {}

impl Error for Refusal {}

impl<H> Error for CloseError<H> {}

impl Error for ReportError {}

impl Error for RenewError {}

impl<T: Kind> Error for LendError<T> {}

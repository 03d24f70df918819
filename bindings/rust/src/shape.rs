//! How large a set or a map is.
use crate::library::vbr_random_seed;
use crate::{max_epoch, Steps, MAX_BUCKETS, MAX_EPOCH, MAX_MANY_HANDLES, MAX_SLOTS};
use core::error::Error;
use core::fmt;

/// How many slots and buckets a set or a map has, its last epoch, and for how many handles it is.
///
/// A set takes `8 * (2 + buckets + 4 * slots + slots.div_ceil(64))` bytes for its words, and a map 8 more for each slot.
/// The last epoch says how often slots can be used again before inserts are refused for good.
///
/// Open with a slot for each key that is in the set at one time, and 64 for each handle. Each slot is in one place: in the
/// pool that all handles share, with one handle, under a key, or in a removed node that is still in its list. A handle keeps
/// slots to itself, at most 64 between two calls: those of the nodes that its calls took out of their lists, mostly of keys
/// that it removed. It gives them back when it is closed or dropped, or by `give_slots_back`. A remove that is answered yes has taken
/// its node out of its list, unless its budget ended first, as [`Steps::AMPLE`] hardly ever does in short buckets. What is
/// left in a list comes back with the next insert or remove that passes it, in the same bucket, or with a renewal.
///
/// If no other handle makes a step during an insert, and each stands between two calls, [`Refusal::NoSlot`] comes only if the
/// keys, the removed nodes that are still in lists, and 64 for each other handle are no fewer than the slots. Of an insert
/// that calls of others overlap that isn't proved.
///
/// Keys are spread over the buckets by a multiplication, so keys with a pattern (in sequence, multiples of a page, pointers)
/// do no harm, and by a seed, so that nobody can choose keys which fall into one bucket: each opening draws one from the
/// system, unless the shape has one ([`Shape::with_seed`]). A renewal keeps the seed of its set, unless its shape has one.
/// While a drawn seed is secret, any two keys share a bucket with a probability of at most 2 / buckets, if these are a power
/// of two. The order in which a walk gives keys, how many steps a call needs, and how long it takes reveal the seed, so keep
/// them from those who choose keys.
///
// %doc opening_with_keys
/// Keys that are there at the start are best given to `open_with`, which lays them all in one go; by inserts a million took
/// three times as long.
// %end
///
/// [`Refusal::NoSlot`]: crate::Refusal::NoSlot
/// [`Steps::AMPLE`]: crate::Steps::AMPLE
///
/// ```
/// use vbr::{Shape, Steps};
///
/// let shape = Shape::for_keys(1_024, 2); // for up to 1,024 keys, and two handles
/// assert_eq!((shape.slots, shape.buckets, shape.handles), (1_024 + 2 * 64, 1_024, 2));
/// let small = shape.with_last_epoch(100).with_steps(Steps::new(5_000));
/// assert_eq!((small.last_epoch, small.steps), (100, Some(Steps::new(5_000))));
/// ```
///
/// More fields may come, so a shape is made by [`Shape::new`] or [`Shape::for_keys`], and changed by what begins with `with`; its fields
/// can be read and set.
#[derive(Clone, Copy, Debug, PartialEq, Eq, Hash)]
#[non_exhaustive]
#[must_use = "a shape is nothing before a set or a map is opened or renewed with it"]
pub struct Shape {
    /// From 1 to [`MAX_SLOTS`].
    pub slots: u32,
    /// From 1 to [`MAX_BUCKETS`].
    pub buckets: u32,
    /// From 1 to what [`max_epoch`] gives for so many slots, or [`MAX_EPOCH`], which means the same if that is less.
    pub last_epoch: u64,
    /// How many handles an opening gives or lends, from 1 to [`MAX_MANY_HANDLES`].
    pub handles: usize,
    /// What keys are spread by, any number; `None` says that an opening draws it, and a renewal keeps the set's.
    pub seed: Option<u64>,
    /// The budget of each call of the handles; with `None` an opening takes [`Steps::AMPLE`], and a renewal leaves them theirs.
    pub steps: Option<Steps>,
}

impl Shape {
    /// A shape of these numbers, which an opening tests, for one handle.
    ///
    /// ```
    /// let shape = vbr::Shape::new(128, 64, 1_000);
    /// assert_eq!((shape.slots, shape.buckets, shape.last_epoch, shape.handles), (128, 64, 1_000, 1));
    /// ```
    pub const fn new(slots: u32, buckets: u32, last_epoch: u64) -> Shape {
        Shape { slots, buckets, last_epoch, handles: 1, seed: None, steps: None }
    }

    // %doc shape_for_keys
    /// The shape for this many keys at one time and this many handles: a slot for each key and 64 for each handle, but at
    /// most one more than there may be; and as many buckets as keys, rounded up to a power of two.
    // %end
    ///
    /// Its last epoch is [`MAX_EPOCH`].
    ///
    /// ```
    /// # use vbr::{Set, Shape};
    /// assert_eq!(Shape::for_keys(1_000, 2), Shape::new(1_128, 1_024, vbr::MAX_EPOCH).with_handles(2));
    /// assert_eq!(Shape::for_keys(vbr::MAX_SLOTS, 1).check(), Ok(()));
    /// ```
    #[allow(clippy::cast_possible_truncation, reason = "it is no more than the most handles")]
    pub const fn for_keys(keys: u32, handles: usize) -> Shape {
        let own = 64 * if handles < MAX_MANY_HANDLES { handles } else { MAX_MANY_HANDLES } as u32;
        let slots = match keys.saturating_add(own) {
            more if keys <= MAX_SLOTS && more > MAX_SLOTS => MAX_SLOTS,
            slots => slots,
        };
        let buckets = if keys < MAX_BUCKETS { keys.next_power_of_two() } else { MAX_BUCKETS };
        Shape::new(slots, buckets, MAX_EPOCH).with_handles(handles)
    }

    // %doc shape_for_shards
    /// The shape of each shard, if this many keys in all are to be in so many shards at one time, with this many handles
    /// each.
    ///
    /// It is the shape for a share of the keys, and for a margin, since shards get shares that differ: a thirty-second of the
    /// share, and 512. That is at least eight standard deviations of a random choice. Opening with it takes the memory for
    /// all these keys.
    // %end
    ///
    /// They are the shards of a [`Sharded`](crate::Sharded) set or map.
    ///
    /// ```
    /// # use vbr::Shape;
    /// assert_eq!(Shape::for_shards(400_000, 16, 4), Shape::for_keys(25_000 + 781 + 512, 4));
    /// ```
    #[allow(clippy::cast_possible_truncation, reason = "it is no more than there may be, or one more")]
    pub const fn for_shards(keys: u64, shards: usize, handles: usize) -> Shape {
        let share = if shards == 0 { keys } else { keys.div_ceil(shards as u64) };
        let most = share.saturating_add(share / 32 + 512);
        Shape::for_keys(if most <= MAX_SLOTS as u64 { most as u32 } else { MAX_SLOTS + 1 }, handles)
    }

    /// The same shape with so many slots.
    ///
    /// ```
    /// # use vbr::Shape;
    /// let shape = Shape::for_keys(1_000, 2).with_slots(1_000); // without those that handles may keep
    /// assert_eq!((shape.slots, shape.buckets), (1_000, 1_024));
    /// ```
    pub const fn with_slots(self, slots: u32) -> Shape {
        Shape { slots, ..self }
    }

    /// The same shape with so many buckets.
    ///
    /// ```
    /// # use vbr::Shape;
    /// let shape = Shape::for_keys(1_000, 2).with_buckets(2_048); // half as long, for 8 KiB
    /// assert_eq!((shape.slots, shape.buckets), (1_128, 2_048));
    /// ```
    pub const fn with_buckets(self, buckets: u32) -> Shape {
        Shape { buckets, ..self }
    }

    /// The same shape with this last epoch.
    ///
    /// ```
    /// # use vbr::{max_epoch, Shape};
    /// let shape = Shape::for_keys(1_000, 2);
    /// assert_eq!(shape.with_last_epoch(max_epoch(shape.slots)).check(), Ok(()));
    /// ```
    pub const fn with_last_epoch(self, last_epoch: u64) -> Shape {
        Shape { last_epoch, ..self }
    }

    /// The same shape for so many handles.
    ///
    /// ```
    /// # use vbr::{Set, Shape};
    /// assert_eq!(Set::<u64>::handles(Shape::new(8, 2, 100).with_handles(3))?.len(), 3);
    /// # Ok::<(), vbr::OpenError>(())
    /// ```
    pub const fn with_handles(self, handles: usize) -> Shape {
        Shape { handles, ..self }
    }

    /// The same shape with this budget for each call of the handles.
    ///
    /// ```
    /// # use vbr::{OutOfSteps, Set, Shape, Steps};
    /// let set = Set::open_with(Shape::for_keys(8, 1).with_steps(Steps::new(1)), &[5])?;
    /// assert_eq!(set.lend_wait().has(5), Err(OutOfSteps));
    /// # Ok::<(), vbr::OpenError>(())
    /// ```
    pub const fn with_steps(self, steps: Steps) -> Shape {
        Shape { steps: Some(steps), ..self }
    }

    /// The same shape with 66 slots more for each of so many deaths of processes that share a set ([`SharedSet`](crate::SharedSet)), in calls
    /// between two renewals. Threads need none.
    ///
    /// ```
    /// # use vbr::Shape;
    /// assert_eq!(Shape::for_keys(1_000, 2).with_deaths(4).slots, 1_000 + 2 * 64 + 4 * 66);
    /// ```
    pub const fn with_deaths(self, deaths: u32) -> Shape {
        Shape { slots: self.slots.saturating_add(deaths.saturating_mul(66)), ..self }
    }

    /// The same shape with a seed.
    ///
    // %doc vbr_open_seeded: seed
    /// `seed` is any number. With the same seed and number of buckets each key has the same bucket, so walks have the same
    /// order and calls take as many steps. With 0 keys are multiplied by 2^64 over the golden ratio, as all libraries before
    /// 0.3.0 did.
    // %end
    ///
    /// That is the best for keys in sequence that nobody chooses. With [`random_seed`] a renewal has another.
    ///
    /// ```
    /// use vbr::{random_seed, Handle, Set, Shape};
    ///
    /// let shape = Shape::for_keys(1_000, 1).with_seed(7);
    /// let mut handles = Set::handles_with(shape, &[2, 5, 9])?;
    /// Handle::renew_all(&mut handles, shape.without_seed())?;
    /// assert_eq!(handles[0].seed(), 7); // it was kept
    /// Handle::renew_all(&mut handles, shape.with_seed(random_seed()))?;
    /// # Ok::<(), Box<dyn std::error::Error>>(())
    /// ```
    pub const fn with_seed(self, seed: u64) -> Shape {
        Shape { seed: Some(seed), ..self }
    }

    /// The same shape without a seed.
    ///
    /// ```
    /// # use vbr::Shape;
    /// let shape = Shape::for_keys(1_000, 1);
    /// assert_eq!(shape.with_seed(7).without_seed(), shape);
    /// ```
    pub const fn without_seed(self) -> Shape {
        Shape { seed: None, ..self }
    }

    /// The first of its numbers that is out of range, as an opening tests them.
    ///
    /// ```
    /// use vbr::{Shape, ShapeError};
    ///
    /// assert_eq!(Shape::new(0, 0, 1).check(), Err(ShapeError::Slots(0)));
    /// ```
    ///
    /// # Errors
    ///
    /// That number.
    pub const fn check(self) -> Result<(), ShapeError> {
        match (self.check_numbers(), self.handles) {
            (Ok(()), 1..=MAX_MANY_HANDLES) => Ok(()),
            (Ok(()), handles) => Err(ShapeError::Handles(handles)),
            (error, _) => error,
        }
    }

    /// The same of slots, buckets and last epoch alone.
    pub(crate) const fn check_numbers(self) -> Result<(), ShapeError> {
        match self {
            Shape { slots, .. } if slots < 1 || slots > MAX_SLOTS => Err(ShapeError::Slots(slots)),
            Shape { buckets, .. } if buckets < 1 || buckets > MAX_BUCKETS => Err(ShapeError::Buckets(buckets)),
            Shape { slots, last_epoch, .. }
                if last_epoch < 1 || (last_epoch > max_epoch(slots) && last_epoch != MAX_EPOCH) =>
            {
                Err(ShapeError::LastEpoch(last_epoch))
            }
            _ => Ok(()),
        }
    }

    /// The shape that a set has which was opened with this one: its last epoch is no more than its slots leave room for.
    pub(crate) const fn opened(self) -> Shape {
        match max_epoch(self.slots) {
            last_epoch if self.last_epoch > last_epoch => Shape { last_epoch, ..self },
            _ => self,
        }
    }
}

// %doc vbr_random_seed: sentence returns
/// Returns a seed that the system draws at random, as [`Table::open`](crate::Table::open) does: by getrandom, and without
/// waiting.
///
/// If the system has no random number yet, shortly after its start, or refuses the call, it is made from the time and an
/// address of the stack: it differs from call to call, and somebody outside may guess it. It can't fail.
// %end
///
/// ```
/// assert_ne!(vbr::random_seed(), vbr::random_seed());
/// ```
#[must_use]
pub fn random_seed() -> u64 {
    // SAFETY: it takes nothing.
    unsafe { vbr_random_seed() }
}

/// The number of a shape that is out of its range.
///
/// ```
/// # use vbr::{Set, Shape};
/// let error = Set::<u64>::open(Shape::new(8, 0, 100)).unwrap_err();
/// assert_eq!(error.to_string(), "0 buckets are not from 1 to 2147483648");
/// ```
#[derive(Clone, Copy, Debug, PartialEq, Eq, Hash)]
#[non_exhaustive]
pub enum ShapeError {
    /// The number of slots is not from 1 to [`MAX_SLOTS`].
    Slots(u32),
    /// The number of buckets is not from 1 to [`MAX_BUCKETS`].
    Buckets(u32),
    /// The last epoch is 0, or greater than so many slots leave room for, as [`max_epoch`] says, and isn't [`MAX_EPOCH`].
    LastEpoch(u64),
    /// The number of handles is not from 1 to [`MAX_MANY_HANDLES`].
    Handles(usize),
}

impl fmt::Display for ShapeError {
    fn fmt(&self, f: &mut fmt::Formatter<'_>) -> fmt::Result {
        match self {
            ShapeError::Slots(slots) => write!(f, "{slots} slots are not from 1 to {MAX_SLOTS}"),
            ShapeError::Buckets(buckets) => write!(f, "{buckets} buckets are not from 1 to {MAX_BUCKETS}"),
            ShapeError::LastEpoch(epoch) => {
                write!(f, "the last epoch {epoch} is not from 1 to the greatest of so many slots")
            }
            ShapeError::Handles(handles) => write!(f, "{handles} handles are not from 1 to {MAX_MANY_HANDLES}"),
        }
    }
}

impl Error for ShapeError {}

//! Budgets of calls.

/// A budget: the most steps that a call may make, each one atomic operation on one word that threads share.
///
/// A handle has one for all its calls, [`Steps::AMPLE`] unless its shape ([`Shape::with_steps`](crate::Shape::with_steps)) or
/// [`HandleOf::set_steps`](crate::HandleOf::set_steps) gave it another; a loan may have one of its own
/// ([`LentBy::set_steps`](crate::LentBy::set_steps)). Most calls have a form beside them, with `_within` in its
/// name, that takes a budget for itself. What makes several calls, as `fetch_update` and `retain` do, has the budget for each of them.
///
/// ```
/// use vbr::{Refusal, Set, Shape, Steps};
///
/// let mut handle = Set::handles(Shape::for_keys(8, 1))?.remove(0);
/// assert_eq!(handle.steps(), Steps::AMPLE);
/// assert_eq!(handle.insert_within(5, Steps::new(1)), Err(Refusal::OutOfSteps));
/// assert_eq!(handle.insert_within(5, Steps::new(1_000)), Ok(true));
/// handle.set_steps(Steps::new(1));
/// assert!(handle.has(5).is_err());
/// # Ok::<(), vbr::OpenError>(())
/// ```
#[derive(Clone, Copy, Debug, PartialEq, Eq, PartialOrd, Ord, Hash)]
#[must_use = "a budget does nothing before it is given to a call, a handle or a shape"]
pub struct Steps(u32);

impl Steps {
    // %doc VBR_AMPLE_STEPS
    /// The default budget, called ample. Enough for any call on a key while buckets are short, unless others disturb it more
    /// than a hundred times while it runs. A call of a walk may run out of it if it passes many empty buckets. A call that
    /// may take a slot, given just this number, has one step more for each 64 slots above 16,777,216.
    // %end
    ///
    /// ```
    /// assert!(vbr::Steps::AMPLE > vbr::Steps::new(100_000));
    /// ```
    pub const AMPLE: Steps = Steps(400_000);

    /// A budget of so many steps.
    ///
    /// ```
    /// assert_eq!(vbr::Steps::new(1_000).count(), 1_000);
    /// ```
    #[inline]
    pub const fn new(count: u32) -> Steps {
        Steps(count)
    }

    /// How many steps they are.
    ///
    /// ```
    /// assert_eq!(vbr::Steps::AMPLE.count(), 400_000);
    /// ```
    #[must_use]
    #[inline]
    pub const fn count(self) -> u32 {
        self.0
    }

    /// Twice as many, for the next try of a call that ran out of steps.
    ///
    /// ```
    /// use vbr::{Pass, Refusal, Steps};
    ///
    /// /// Adds a page, with few steps at first, and with more only if these are too few.
    /// fn visit(pass: &mut Pass, page: u64) -> Result<bool, Refusal> {
    ///     let mut steps = Steps::new(64);
    ///     loop {
    ///         match pass.insert_within(page, steps) {
    ///             Err(Refusal::OutOfSteps) if steps < Steps::AMPLE => steps = steps.doubled(),
    ///             told => return told,
    ///         }
    ///     }
    /// }
    /// # let mut handle = vbr::Set::handles(vbr::Shape::for_keys(8, 1))?.remove(0);
    /// # assert!(visit(&mut handle, 5)?);
    /// # Ok::<(), Box<dyn std::error::Error>>(())
    /// ```
    pub const fn doubled(self) -> Steps {
        Steps(self.0.saturating_mul(2))
    }
}

impl Default for Steps {
    /// [`Steps::AMPLE`].
    fn default() -> Steps {
        Steps::AMPLE
    }
}

/// As [`Steps::new`].
impl From<u32> for Steps {
    fn from(count: u32) -> Steps {
        Steps::new(count)
    }
}

/// As [`Steps::count`].
impl From<Steps> for u32 {
    fn from(steps: Steps) -> u32 {
        steps.count()
    }
}

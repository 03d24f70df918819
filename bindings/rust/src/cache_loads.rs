//! Loads under way for a cache.
// tools/interface makes this file of bindings/interface/cache_loads.rs.in.
use crate::OutOfSteps;
use std::error::Error;
use std::fmt;
use std::sync::atomic::{fence, AtomicUsize, Ordering};
use std::sync::{Condvar, Mutex, MutexGuard, PoisonError};
use std::thread::{self, ThreadId};

/// Why a [`Cache`](crate::Cache) has no value for a key, absent and to be loaded. An [`OutOfSteps`] converts into it.
///
/// ```
/// # use vbr::{Cache, LoadError};
/// let cache: Cache<u64, u64> = Cache::open_for(100, 1)?;
/// let told = cache.get_or_load(5, || "five".parse::<u64>());
/// assert!(matches!(&told, Err(LoadError::Failed(_))));
/// assert_eq!(told.unwrap_err().to_string(), "the loader failed: invalid digit found in string");
/// # Ok::<(), Box<dyn std::error::Error>>(())
/// ```
#[derive(Clone, Copy, Debug, PartialEq, Eq, Hash)]
pub enum LoadError<E> {
    /// The loader failed, with this error.
    Failed(E),
    /// A loader of the key is under way, which isn't waited for.
    ///
    /// It is another thread's, or the one that makes this call.
    UnderWay,
    /// The budget was spent, as [`Refusal::OutOfSteps`](crate::Refusal::OutOfSteps) says. No loader was run.
    OutOfSteps,
}

impl<E> From<OutOfSteps> for LoadError<E> {
    fn from(OutOfSteps: OutOfSteps) -> LoadError<E> {
        LoadError::OutOfSteps
    }
}

impl<E: fmt::Display> fmt::Display for LoadError<E> {
    fn fmt(&self, f: &mut fmt::Formatter<'_>) -> fmt::Result {
        match self {
            LoadError::Failed(why) => write!(f, "the loader failed: {why}"),
            LoadError::UnderWay => f.write_str("a loader of this key is under way"),
            LoadError::OutOfSteps => OutOfSteps.fmt(f),
        }
    }
}

impl<E: Error + 'static> Error for LoadError<E> {
    fn source(&self) -> Option<&(dyn Error + 'static)> {
        match self {
            LoadError::Failed(why) => Some(why),
            LoadError::UnderWay | LoadError::OutOfSteps => None,
        }
    }
}

/// How many loads are shared at a time.
pub(crate) const MOST: usize = 256;

/// The loads under way, and who waits for one. No thread that has the lock waits for anything.
pub(crate) struct Loads {
    all: Mutex<All>,
    ended: Condvar,
    count: AtomicUsize,
}

struct All {
    loads: Vec<Load>,
    last: u64,
}

/// A load of the key with this number.
struct Load {
    id: u64,
    number: u64,
    by: ThreadId,
    /// The key was changed or taken out since it began.
    is_outdated: bool,
}

/// A load of this thread, which ends when this is dropped.
pub(crate) struct Claimed<'l> {
    of: &'l Loads,
    id: u64,
}

impl Loads {
    /// None are under way, if there is memory for them.
    pub(crate) fn none() -> Option<Loads> {
        let mut loads = Vec::new();
        loads.try_reserve_exact(MOST).ok()?;
        Some(Loads { all: Mutex::new(All { loads, last: 0 }), ended: Condvar::new(), count: AtomicUsize::new(0) })
    }

    /// Begins a load of the key with this number, if there is none; otherwise waits for its end, if that is wanted, and begins none. The
    /// thread has no loan meanwhile. Nobody knows of a load that is one too many.
    pub(crate) fn claim<E>(&self, number: u64, waits: bool) -> Result<Option<Claimed<'_>>, LoadError<E>> {
        let (mut all, me) = (self.lock(), thread::current().id());
        if let Some(by) = all.of(number) {
            if by == me || !waits {
                return Err(LoadError::UnderWay);
            }
            let is_under_way = |all: &mut All| all.of(number).is_some();
            drop(self.ended.wait_while(all, is_under_way).unwrap_or_else(PoisonError::into_inner));
            return Ok(None);
        }
        all.last += 1;
        let id = all.last;
        if all.loads.len() < MOST {
            all.loads.push(Load { id, number, by: me, is_outdated: false });
            self.count.store(all.loads.len(), Ordering::Relaxed);
            fence(Ordering::SeqCst); // who changes the key sees this, or this thread loads what it changed
        }
        Ok(Some(Claimed { of: self, id }))
    }

    /// Notes that the keys with such numbers are about to be changed: what a load under way brings isn't kept, and who comes now
    /// doesn't wait for it. A load that isn't noted begins after this, and after all that the thread did before.
    pub(crate) fn outdate(&self, is_changed: impl Fn(u64) -> bool) {
        fence(Ordering::SeqCst);
        if self.count.load(Ordering::Relaxed) > 0 {
            self.lock().loads.iter_mut().filter(|it| is_changed(it.number)).for_each(|it| it.is_outdated = true);
            self.ended.notify_all();
        }
    }

    fn lock(&self) -> MutexGuard<'_, All> {
        self.all.lock().unwrap_or_else(PoisonError::into_inner)
    }
}

impl All {
    /// Who loads the key with this number.
    fn of(&self, number: u64) -> Option<ThreadId> {
        self.loads.iter().find(|it| it.number == number && !it.is_outdated).map(|it| it.by)
    }
}

impl Claimed<'_> {
    /// Has what was loaded kept, by a call that waits for nothing, unless the key was changed meanwhile. No change comes in between.
    pub(crate) fn keep<R>(&self, keep: impl FnOnce() -> R) -> Option<R> {
        let all = self.of.lock();
        let is_valid = all.loads.iter().any(|it| it.id == self.id && !it.is_outdated);
        is_valid.then(keep)
    }
}

impl Drop for Claimed<'_> {
    fn drop(&mut self) {
        let mut all = self.of.lock();
        all.loads.retain(|it| it.id != self.id);
        self.of.count.store(all.loads.len(), Ordering::Relaxed);
        drop(all);
        self.of.ended.notify_all();
    }
}

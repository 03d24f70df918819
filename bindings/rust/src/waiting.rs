//! Threads and tasks that wait for a loan to be given back.
use crate::boxed::boxed;
use std::collections::VecDeque;
use std::ffi::{c_int, c_long};
use std::mem;
use std::sync::atomic::{compiler_fence, AtomicUsize, Ordering};
use std::sync::{Condvar, Mutex, MutexGuard, OnceLock, PoisonError};
use std::task::Waker;
use std::time::{Duration, Instant};

/// Those that wait, threads and tasks. A thread that gives something back makes no atomic exchange for them: it stores what it gives back,
/// and then loads how many wait. So that one of the two sees the other, who begins to wait has all threads pass a memory
/// barrier.
pub(crate) struct Waiters {
    count: AtomicUsize,
    /// Apart from what those read who don't wait.
    sleepers: Box<Sleepers>,
}

#[derive(Default)]
struct Sleepers {
    lock: Mutex<Kinds>,
    given_back: Condvar,
}

/// Those that wait, beside the threads that wait for one thing.
#[derive(Default)]
struct Kinds {
    /// How many threads wait for more than one thing.
    for_all: usize,
    /// Tasks that wait for one thing, by their numbers, the first to be woken first.
    tasks: VecDeque<(u64, Waker)>,
    /// The number of the last task that began to wait.
    last: u64,
}

impl Kinds {
    /// Takes out the waker of the task with this number, if it wasn't woken.
    fn task(&mut self, number: u64) -> Option<Waker> {
        let place = self.tasks.iter().position(|task| task.0 == number)?;
        self.tasks.remove(place).map(|(_, waker)| waker)
    }
}

/// That a task waits.
pub(crate) struct Ticket {
    number: u64,
    /// Whether each thread that gives something back sees that it waits.
    is_seen: bool,
}

/// How long a thread sleeps at most before it looks again, if the system has no such barrier.
const NAP: Duration = Duration::from_millis(1);

impl Waiters {
    /// None wait, if there is memory for them. The program is registered for barriers here, where nobody holds a lock: beside other
    /// threads that takes the system some ten milliseconds.
    pub(crate) fn none() -> Option<Waiters> {
        is_registered();
        Some(Waiters { count: AtomicUsize::new(0), sleepers: boxed(Sleepers::default())? })
    }

    /// Wakes a thread that waits for one thing, if there is one, and those that wait for more. Call it after something was given
    /// back, by a store.
    #[inline]
    pub(crate) fn wake_one(&self) {
        compiler_fence(Ordering::SeqCst);
        if self.count.load(Ordering::Relaxed) > 0 {
            self.wake_one_that_waits();
        }
    }

    #[cold]
    fn wake_one_that_waits(&self) {
        let mut guard = self.guard();
        if guard.for_all > 0 {
            self.sleepers.given_back.notify_all();
        } else {
            self.sleepers.given_back.notify_one();
        }
        let task = guard.tasks.pop_front();
        drop(guard); // a waker is the program's own, so it is woken without the lock
        if let Some((_, waker)) = task {
            waker.wake();
        }
    }

    /// Wakes all that wait.
    pub(crate) fn wake_all(&self) {
        let mut guard = self.guard();
        self.sleepers.given_back.notify_all();
        let tasks = mem::take(&mut guard.tasks);
        drop(guard);
        for (_, waker) in tasks {
            waker.wake();
        }
    }

    /// What `take` gives to a task, or `None`, and then the task is woken once something is given back. The ticket is of this task:
    /// hand it in at each try, and to [`Waiters::leave`] at the end.
    #[cold]
    pub(crate) fn try_or_wait<T>(
        &self,
        ticket: &mut Option<Ticket>,
        waker: &Waker,
        take: impl FnOnce() -> Option<T>,
    ) -> Option<T> {
        let own = waker.clone();
        let mut guard = self.guard();
        let &mut Ticket { number, is_seen } = ticket.get_or_insert_with(|| {
            self.count.fetch_add(1, Ordering::SeqCst);
            guard.last += 1;
            Ticket { number: guard.last, is_seen: fence_all_threads() }
        });
        let (taken, before) = (take(), guard.task(number));
        if taken.is_none() && is_seen {
            guard.tasks.push_back((number, own));
        }
        drop(guard);
        drop(before); // it is the program's own, so it is dropped without the lock
        if taken.is_none() && !is_seen {
            waker.wake_by_ref(); // the task looks again, as a thread does after a nap
        }
        taken
    }

    /// Lets a task wait no longer. If it was woken, and took nothing, another one is woken in its place.
    pub(crate) fn leave(&self, ticket: &mut Option<Ticket>, has_taken: bool) {
        let Some(Ticket { number, .. }) = ticket.take() else { return };
        let mut guard = self.guard();
        self.count.fetch_sub(1, Ordering::Relaxed);
        let own = guard.task(number);
        drop(guard);
        if own.is_none() && !has_taken {
            self.wake_one_that_waits();
        }
    }

    /// What `take` gives, as soon as it gives something; `None` if it gives nothing until the deadline. No two threads are in such a
    /// `take` at the same time.
    #[cold]
    pub(crate) fn wait<T>(&self, deadline: Option<Instant>, take: impl FnMut() -> Option<T>) -> Option<T> {
        self.wait_by(self.guard(), deadline, take).0
    }

    /// The same for what needs more than one thing that is given back.
    #[cold]
    pub(crate) fn wait_for_all<T>(&self, deadline: Option<Instant>, take: impl FnMut() -> Option<T>) -> Option<T> {
        let mut guard = self.guard();
        guard.for_all += 1;
        let (taken, mut guard) = self.wait_by(guard, deadline, take);
        guard.for_all -= 1;
        taken
    }

    fn wait_by<'w, T>(
        &'w self,
        mut guard: MutexGuard<'w, Kinds>,
        deadline: Option<Instant>,
        mut take: impl FnMut() -> Option<T>,
    ) -> (Option<T>, MutexGuard<'w, Kinds>) {
        self.count.fetch_add(1, Ordering::SeqCst);
        let nap = if fence_all_threads() { Duration::MAX } else { NAP };
        let taken = loop {
            let taken = take();
            let left = deadline.map_or(Duration::MAX, |it| it.saturating_duration_since(Instant::now()));
            if taken.is_some() || left.is_zero() {
                break taken;
            }
            let woken = self.sleepers.given_back.wait_timeout(guard, left.min(nap));
            guard = woken.unwrap_or_else(PoisonError::into_inner).0;
        };
        self.count.fetch_sub(1, Ordering::Relaxed);
        (taken, guard)
    }

    fn guard(&self) -> MutexGuard<'_, Kinds> {
        self.sleepers.lock.lock().unwrap_or_else(PoisonError::into_inner)
    }
}

/// Has each running thread of the program pass a memory barrier: what it stored before can be loaded now, and what it loads
/// afterwards is what this thread stored before, or later. It says whether the system has done so.
fn fence_all_threads() -> bool {
    const PRIVATE_EXPEDITED: c_int = 8;
    is_registered() && membarrier(PRIVATE_EXPEDITED)
}

/// Whether the program is registered for such barriers, as it is once.
fn is_registered() -> bool {
    const REGISTER_PRIVATE_EXPEDITED: c_int = 16;
    static REGISTERED: OnceLock<bool> = OnceLock::new();
    *REGISTERED.get_or_init(|| membarrier(REGISTER_PRIVATE_EXPEDITED))
}

/// The call of Linux.
#[cfg(all(target_os = "linux", target_arch = "x86_64"))]
fn membarrier(command: c_int) -> bool {
    extern "C" {
        fn syscall(number: c_long, ...) -> c_long;
    }
    const MEMBARRIER: c_long = 324;
    // SAFETY: it changes no memory of the program.
    unsafe { syscall(MEMBARRIER, command, 0 as c_int, 0 as c_int) == 0 }
}

#[cfg(not(all(target_os = "linux", target_arch = "x86_64")))]
fn membarrier(_: c_int) -> bool {
    false
}

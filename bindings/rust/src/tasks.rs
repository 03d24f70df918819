//! Loans for tasks that wait without a thread.
use crate::waiting::Ticket;
use crate::{Keys, Kind, LentBy, Table};
use std::fmt;
use std::future::Future;
use std::ops::Deref;
use std::pin::Pin;
use std::sync::Arc;
use std::task::{Context, Poll};

/// A loan to come, of a task that waits for a free handle, as [`Table::lend_async`] and [`Table::lend_owned_async`] begin it. It lends
/// nothing before it is polled. If it is dropped the task waits no longer, and a handle that it was woken for goes to another one. One
/// that was woken is polled or dropped soon: until then another one may wait while a handle is free.
///
/// ```
/// # use vbr::{LendAsync, Lent, Set};
/// fn begins(set: &Set) -> impl std::future::Future<Output = Lent<'_>> + '_ {
///     let loan: LendAsync<_, &Set> = set.lend_async();
///     loan
/// }
/// ```
#[must_use = "it lends nothing before it is awaited"]
pub struct LendAsync<T: Kind = Keys, B: Deref<Target = Table<T>> + Clone = Arc<Table<T>>> {
    table: B,
    /// Of the table's waiters, while the task waits.
    ticket: Option<Ticket>,
}

/// Loans for tasks.
impl<T: Kind> Table<T> {
    /// As [`Table::lend_wait`], for a task: while each handle is lent, the task that awaits one sleeps, and its thread goes on with others.
    /// It names no runtime, and works with each. A return wakes a task that waits, and a thread too if any waits. If the system refuses its barrier (`membarrier`), the task doesn't
    /// sleep: it is woken at once, and looks again.
    ///
    /// The loan may be kept over an `.await`. Keep it for few of them: others wait as long, and a task that has one itself and awaits a
    /// second may wait for ever. It may go to another thread, as the task may.
    ///
    /// ```
    /// # use vbr::{Refusal, Set};
    /// async fn visit(set: &Set, page: u64) -> Result<bool, Refusal> {
    ///     set.lend_async().await.insert(page)
    /// }
    /// ```
    pub fn lend_async(&self) -> LendAsync<T, &Table<T>> {
        LendAsync { table: self, ticket: None }
    }

    /// As [`Table::lend_async`], with a share of the set, for tasks that outlive the function that begins them.
    ///
    /// ```
    /// # use std::sync::Arc;
    /// # use vbr::{Map, OutOfSteps};
    /// fn task(map: &Arc<Map>, page: u64) -> impl std::future::Future<Output = Result<bool, OutOfSteps>> + Send + 'static {
    ///     let loan = map.lend_owned_async();
    ///     async move { loan.await.contains_key(page) }
    /// }
    /// ```
    pub fn lend_owned_async(self: &Arc<Self>) -> LendAsync<T> {
        LendAsync { table: Arc::clone(self), ticket: None }
    }
}

impl<T: Kind, B: Deref<Target = Table<T>> + Clone + Unpin> Future for LendAsync<T, B> {
    type Output = LentBy<T, B>;

    fn poll(self: Pin<&mut Self>, context: &mut Context<'_>) -> Poll<LentBy<T, B>> {
        let LendAsync { table, ticket } = self.get_mut();
        match table.lender.poll_take(ticket, context.waker()) {
            Some(number) => Poll::Ready(LentBy::of(table.clone(), number)),
            None => Poll::Pending,
        }
    }
}

impl<T: Kind, B: Deref<Target = Table<T>> + Clone> Drop for LendAsync<T, B> {
    fn drop(&mut self) {
        self.table.lender.leave(&mut self.ticket);
    }
}

impl<T: Kind, B: Deref<Target = Table<T>> + Clone> fmt::Debug for LendAsync<T, B> {
    fn fmt(&self, f: &mut fmt::Formatter<'_>) -> fmt::Result {
        f.debug_struct("LendAsync").field("waits", &self.ticket.is_some()).finish_non_exhaustive()
    }
}

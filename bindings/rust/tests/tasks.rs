//! Tasks that wait for a loan, by an executor of this test: a few threads that poll whatever was woken.
mod both;

use both::Both;
use std::future::Future;
use std::pin::{pin, Pin};
use std::sync::atomic::{AtomicUsize, Ordering};
use std::sync::mpsc::{channel, Sender};
use std::sync::{Arc, Mutex};
use std::task::{Context, Poll, Wake, Waker};
use std::thread;
use std::time::{Duration, Instant};
use vbr::{OwnedLent, Set, Shape, Table};

of_sets_and_maps! {
    a_task_that_waits
    a_task_that_is_dropped
    a_waker_that_has_a_loan
    more_tasks_than_handles
    tasks_beside_threads_and_renewals
}

/// How often a task was woken.
#[derive(Default)]
struct Woken(AtomicUsize);

impl Wake for Woken {
    fn wake(self: Arc<Self>) {
        self.0.fetch_add(1, Ordering::SeqCst);
    }
}

impl Woken {
    fn count(&self) -> usize {
        self.0.load(Ordering::SeqCst)
    }
}

/// A task, with the queue that it comes into when it is woken.
struct Task {
    work: Mutex<Pin<Box<dyn Future<Output = ()> + Send>>>,
    queue: Sender<Arc<Task>>,
}

impl Wake for Task {
    fn wake(self: Arc<Self>) {
        let _ = self.queue.clone().send(self); // the queue is gone once all tasks have ended
    }
}

/// Tasks that go on for so long wait for what nobody wakes them for.
const AT_LAST: Duration = Duration::from_secs(600);

/// Runs the tasks on so many threads until all have ended.
fn run(threads: usize, tasks: Vec<Pin<Box<dyn Future<Output = ()> + Send>>>) {
    let (queue, woken) = channel::<Arc<Task>>();
    let (left, woken, begun) = (AtomicUsize::new(tasks.len()), Mutex::new(woken), Instant::now());
    for work in tasks {
        queue.send(Arc::new(Task { work: Mutex::new(work), queue: queue.clone() })).expect("a queue");
    }
    thread::scope(|scope| {
        for _ in 0..threads {
            scope.spawn(|| {
                while left.load(Ordering::SeqCst) > 0 {
                    assert!(begun.elapsed() < AT_LAST, "a task that nobody wakes");
                    let next = woken.lock().expect("a queue").recv_timeout(Duration::from_millis(1));
                    let Ok(task) = next else { continue };
                    let waker = Waker::from(Arc::clone(&task));
                    if task.work.lock().expect("a task").as_mut().poll(&mut Context::from_waker(&waker)).is_ready() {
                        left.fetch_sub(1, Ordering::SeqCst);
                    }
                }
            });
        }
    });
}

fn lending<K: Both>(handles: usize) -> Arc<Table<K>> {
    Arc::new(Table::open(Shape::for_keys(1_000, handles)).expect("a set"))
}

fn a_task_that_waits<K: Both>() {
    let set = lending::<K>(1);
    let woken = Arc::new(Woken::default());
    let waker = Waker::from(Arc::clone(&woken));
    let context = &mut Context::from_waker(&waker);
    let mut first = pin!(set.lend_async());
    let Poll::Ready(mut mine) = first.as_mut().poll(context) else { panic!("a handle is free") };
    assert_eq!(K::insert(&mut mine, 5), Ok(true));
    let mut second = pin!(set.lend_owned_async());
    assert!(second.as_mut().poll(context).is_pending() && second.as_mut().poll(context).is_pending());
    assert_eq!(woken.count(), 0);
    drop(mine);
    assert_eq!(woken.count(), 1);
    let Poll::Ready(mine) = second.as_mut().poll(context) else { panic!("a handle is free") };
    assert_eq!(mine.has(5), Ok(true));
    drop(mine);
    assert!(woken.count() == 1 && set.lend().is_some());
}

/// A task that was woken and is dropped passes it on; one that wasn't leaves the others as they are.
fn a_task_that_is_dropped<K: Both>() {
    let set = lending::<K>(1);
    let woken: Vec<_> = (0..3).map(|_| Arc::new(Woken::default())).collect();
    let counts = || woken.iter().map(|it| it.count()).collect::<Vec<_>>();
    let kept = set.lend();
    let mut tasks: Vec<_> = woken
        .iter()
        .map(|it| {
            let mut loan = Box::pin(set.lend_owned_async());
            let waker = Waker::from(Arc::clone(it));
            assert!(loan.as_mut().poll(&mut Context::from_waker(&waker)).is_pending());
            loan
        })
        .collect();
    drop(tasks.remove(1));
    assert_eq!(counts(), [0, 0, 0]);
    drop(kept);
    assert_eq!(counts(), [1, 0, 0]);
    drop(tasks.remove(0));
    assert_eq!(counts(), [1, 0, 1]);
    drop(tasks);
    assert!(set.lend_timeout(Duration::ZERO).is_some() && counts() == [1, 0, 1]);
}

/// A waker with the last reference to what has a loan: where it is dropped the loan goes back, and wakes another task.
fn a_waker_that_has_a_loan<K: Both>() {
    struct Has<K: Both>(#[allow(dead_code, reason = "it is dropped")] Mutex<OwnedLent<K>>);
    impl<K: Both> Wake for Has<K> {
        fn wake(self: Arc<Self>) {}
    }
    let set = lending::<K>(1);
    let has = Waker::from(Arc::new(Has(Mutex::new(set.lend_owned_wait()))));
    let woken = Arc::new(Woken::default());
    let waker = Waker::from(Arc::clone(&woken));
    let (mut first, mut second) = (Box::pin(set.lend_owned_async()), pin!(set.lend_async()));
    assert!(first.as_mut().poll(&mut Context::from_waker(&has)).is_pending());
    assert!(second.as_mut().poll(&mut Context::from_waker(&waker)).is_pending());
    drop(has);
    assert_eq!(woken.count(), 0);
    drop(first);
    assert!(woken.count() == 1 && second.as_mut().poll(&mut Context::from_waker(&waker)).is_ready());
}

/// Each makes its calls over several loans, on three threads.
fn more_tasks_than_handles<K: Both>() {
    let (set, made) = (lending::<K>(2), Arc::new(AtomicUsize::new(0)));
    let tasks = (0..200).map(|key| -> Pin<Box<dyn Future<Output = ()> + Send>> {
        let (set, made) = (Arc::clone(&set), Arc::clone(&made));
        Box::pin(async move {
            for round in 0..20 {
                let mut mine = set.lend_owned_async().await;
                assert_eq!(K::insert(&mut mine, key), Ok(round == 0));
                drop(mine);
                assert_eq!(set.lend_async().await.has(key), Ok(true));
            }
            made.fetch_add(1, Ordering::Relaxed);
        })
    });
    run(3, tasks.collect());
    assert_eq!((made.load(Ordering::Relaxed), set.key_count()), (200, 200));
}

fn tasks_beside_threads_and_renewals<K: Both>() {
    let set = lending::<K>(2);
    let tasks = (0..50).map(|key| -> Pin<Box<dyn Future<Output = ()> + Send>> {
        let set = Arc::clone(&set);
        Box::pin(async move {
            for _ in 0..50 {
                let mut mine = set.lend_async().await;
                assert_eq!((K::insert(&mut mine, key), K::remove(&mut mine, key)), (Ok(true), Ok(true)));
            }
        })
    });
    let tasks = tasks.collect();
    thread::scope(|scope| {
        for key in 100..102 {
            let set = &set;
            scope.spawn(move || {
                for _ in 0..500 {
                    assert_eq!(K::insert(&mut set.lend_wait(), key), Ok(true));
                    assert_eq!(K::remove(&mut set.lend_wait(), key), Ok(true));
                }
            });
        }
        scope.spawn(|| {
            for keys in 0..50 {
                assert_eq!(set.renew(Shape::for_keys(500 + keys, 2)), Ok(()));
                assert!(set.key_count() <= 4);
            }
        });
        run(2, tasks);
    });
    assert_eq!(set.key_count(), 0);
}

/// Tasks may go to other threads while they wait.
#[test]
fn loans_to_come_are_sent() {
    fn is_a_task<T: Send + 'static>(_: T) {}
    let set: Arc<Set> = lending(1);
    is_a_task(set.lend_owned_async());
    assert_eq!(format!("{:?}", set.lend_async()), "LendAsync { waits: false, .. }");
}

//! Threads that wait for a loan while few handles are there: nobody sleeps while a handle is free. Threads begin each round together,
//! and who has made its loans makes no other before all have: so a thread that wasn't woken by the last return is woken by nobody.
mod both;

use both::Both;
use std::sync::atomic::{compiler_fence, AtomicBool, Ordering};
use std::sync::Barrier;
use std::thread;
use std::time::{Duration, Instant};
use vbr::{Shape, Table};

of_sets_and_maps! {
    nobody_sleeps_while_a_handle_is_free
}

/// Who waits for so long has slept while a handle was free: loans of this test take microseconds, and a thread of a busy machine
/// waits less than a second for a processor.
const ASLEEP: Duration = Duration::from_secs(30);

/// For how long rounds begin.
const EACH: Duration = Duration::from_millis(200);

/// How many rounds there are at least, however busy the machine is: in twelve each thread makes loans of each kind.
const ROUNDS: u64 = 12;

fn nobody_sleeps_while_a_handle_is_free<K: Both>() {
    for (threads, handles, has_pauses) in [(2, 1, false), (4, 1, false), (4, 2, false), (4, 2, true), (8, 3, true)] {
        let longest = longest_wait::<K>(threads, handles, has_pauses);
        assert!(longest < ASLEEP, "{longest:?} of {threads} threads and {handles} handles");
    }
}

/// How long the longest wait lasted. With pauses the first thread also counts the keys, so it waits for all handles.
fn longest_wait<K: Both>(threads: usize, handles: usize, has_pauses: bool) -> Duration {
    let set = Table::<K>::open(Shape::for_keys(100, handles)).expect("a set");
    let (begins, ends) = (Barrier::new(threads), AtomicBool::new(false));
    let begun = Instant::now();
    let waits = |number: u64| {
        let mut longest = Duration::ZERO;
        for round in 0.. {
            if begins.wait().is_leader() {
                ends.store(round >= ROUNDS && begun.elapsed() > EACH, Ordering::Relaxed);
            }
            begins.wait();
            if ends.load(Ordering::Relaxed) {
                break;
            }
            for loan in 0..=round % 3 {
                let asks = Instant::now();
                let is_counted = !has_pauses || number > 0 || set.key_count_timeout(2 * ASLEEP).is_some();
                let Some(mut mine) = set.lend_timeout(2 * ASLEEP).filter(|_| is_counted) else {
                    longest = Duration::MAX;
                    continue;
                };
                longest = longest.max(asks.elapsed());
                assert_eq!(K::insert(&mut mine, number), Ok(true));
                match (round + loan + number) % 4 {
                    0 => (0..round * 37 % 2_000).for_each(|_| compiler_fence(Ordering::SeqCst)),
                    1 => thread::yield_now(),
                    2 => thread::sleep(Duration::from_micros(1)),
                    _ => {}
                }
                assert_eq!(K::remove(&mut mine, number), Ok(true));
            }
        }
        longest
    };
    let longest = thread::scope(|scope| {
        let waits = &waits;
        let threads: Vec<_> = (0..threads as u64).map(|number| scope.spawn(move || waits(number))).collect();
        threads.into_iter().map(|it| it.join().expect("a thread that ends")).max()
    });
    longest.expect("a thread")
}

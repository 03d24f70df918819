//! Four threads that tell each other by channels, locks and joins what they did, and each answer checked against what the
//! program's own order says: a key that is known to be inserted and never removed is there, and one that is known to be
//! removed for good is not.
#![allow(clippy::cast_possible_truncation, reason = "the numbers are small")]
use std::sync::mpsc::{channel, Receiver, Sender};
use std::sync::Mutex;
use std::thread;
use vbr::{Handle, Set, Shape, MAX_EPOCH};

const THREADS: usize = 4;
const ROUNDS: u64 = 10_000;
const BEHIND: u64 = 8;

/// How many keys of each thread are inserted, and below which of them the odd ones are removed.
#[derive(Clone, Copy, Default)]
struct Known([(u64, u64); THREADS]);

impl Known {
    fn merge(&mut self, other: &Known) {
        for (mine, theirs) in self.0.iter_mut().zip(&other.0) {
            *mine = (mine.0.max(theirs.0), mine.1.max(theirs.1));
        }
    }

    /// Looks for the newest keys that are known of each thread.
    fn check(&self, handle: &mut Handle) {
        for (id, (inserted, removed)) in (0..).zip(self.0) {
            if inserted > 0 {
                let newest = key(id, (inserted - 1) & !1);
                assert_eq!(handle.has(newest), Ok(true));
                assert_eq!(handle.insert(newest), Ok(false));
            }
            if removed > 1 {
                let newest = key(id, (removed - 2) | 1);
                assert_eq!(handle.has(newest), Ok(false));
                assert_eq!(handle.remove(newest), Ok(false));
            }
        }
    }
}

fn key(id: u64, round: u64) -> u64 {
    round * THREADS as u64 + id
}

/// Inserts keys, removes the odd ones later, and tells the next thread what it knows: by a channel, and every third time
/// by a lock for all.
fn work(mut handle: Handle, id: usize, from: &Receiver<Known>, to: &Sender<Known>, board: &Mutex<Known>) -> (Handle, Known) {
    let mut known = Known::default();
    for round in 0..ROUNDS {
        assert_eq!(handle.insert(key(id as u64, round)), Ok(true));
        known.0[id].0 = round + 1;
        if round >= BEHIND && (round - BEHIND) % 2 == 1 {
            assert_eq!(handle.remove(key(id as u64, round - BEHIND)), Ok(true));
            known.0[id].1 = round - BEHIND + 1;
        }
        to.send(known).expect("a thread that listens");
        known.merge(&from.recv().expect("a thread that tells"));
        if round % 3 == 0 {
            let mut board = board.lock().expect("a lock");
            board.merge(&known);
            known = *board;
        }
        known.check(&mut handle);
    }
    (handle, known)
}

#[test]
fn answers_keep_the_order_of_the_program() {
    let slots = (THREADS as u64 * (ROUNDS + 64)) as u32;
    let handles = Set::handles(Shape::new(slots, 16_384, MAX_EPOCH).with_handles(THREADS)).expect("a set");
    let (to, mut from): (Vec<_>, Vec<_>) = (0..THREADS).map(|_| channel()).unzip();
    from.rotate_right(1);
    let board = Mutex::new(Known::default());
    let mut ends: Vec<_> = thread::scope(|scope| {
        let threads: Vec<_> = handles
            .into_iter()
            .zip(from)
            .zip(to)
            .enumerate()
            .map(|(id, ((handle, from), to))| (id, handle, from, to))
            .map(|(id, handle, from, to)| {
                scope.spawn({
                    let board = &board;
                    move || work(handle, id, &from, &to, board)
                })
            })
            .collect();
        threads.into_iter().map(|thread| thread.join().expect("a thread that ends")).collect()
    });
    let mut known = Known::default();
    for (_, told) in &ends {
        known.merge(told);
    }
    for (handle, _) in &mut ends {
        known.check(handle);
    }
    let report =
        ends.into_iter().map(|(handle, _)| handle.close().expect("memory")).last().flatten().expect("the last handle");
    assert_eq!(report.keys.len() as u64, THREADS as u64 * (ROUNDS / 2 + BEHIND / 2));
}

//! A visited set: threads walk a graph together, and each place is visited once.
//!
//!     cargo run --release --example visited
//!
//! The insert is the claim: of all threads that insert a place, and remove it never, one is answered that it was absent. Here the
//! places are those that a knight comes to on a board of 256 by 256 squares. Places that are claimed and not yet visited lie in a
//! list that the threads share.
//!
//! The program counts the visits of each square: one, as a plain search on one thread has it.
use std::error::Error;
use std::sync::atomic::{AtomicU8, AtomicUsize, Ordering::Relaxed};
use std::sync::Mutex;
use std::thread;
use vbr::{Handle, Refusal, Set, Shape};

const THREADS: usize = 4;
const SIDE: u32 = 256;
const MOVES: [(i32, i32); 8] = [(1, 2), (2, 1), (2, -1), (1, -2), (-1, -2), (-2, -1), (-2, 1), (-1, 2)];

/// A square, by its row and its column.
type Square = (u32, u32);

/// What the threads share beside the set.
struct Search {
    to_visit: Mutex<Vec<Square>>,
    /// How many squares are claimed, and not yet visited.
    open: AtomicUsize,
    visits: Vec<AtomicU8>,
}

impl Search {
    /// Visits squares until none is left, and claims those that a knight comes to from there.
    fn run(&self, visited: &mut Handle<Square>) -> Result<(), Refusal> {
        while self.open.load(Relaxed) > 0 {
            let Some(square) = self.to_visit.lock().expect("a list").pop() else {
                thread::yield_now();
                continue;
            };
            self.visits[(square.0 * SIDE + square.1) as usize].fetch_add(1, Relaxed);
            for next in moves(square) {
                if visited.insert(next)? {
                    self.open.fetch_add(1, Relaxed);
                    self.to_visit.lock().expect("a list").push(next);
                }
            }
            self.open.fetch_sub(1, Relaxed);
        }
        Ok(())
    }
}

/// Where a knight comes to from a square.
fn moves((row, column): Square) -> impl Iterator<Item = Square> {
    let on_board = |number: Option<u32>| number.filter(|it| *it < SIDE);
    MOVES.into_iter().filter_map(move |(down, right)| {
        Some((on_board(row.checked_add_signed(down))?, on_board(column.checked_add_signed(right))?))
    })
}

fn main() -> Result<(), Box<dyn Error>> {
    let mut handles = Set::handles(Shape::for_keys(SIDE * SIDE, THREADS))?;
    handles[0].insert((0, 0))?;
    let search = Search {
        to_visit: Mutex::new(vec![(0, 0)]),
        open: AtomicUsize::new(1),
        visits: (0..SIDE * SIDE).map(|_| AtomicU8::new(0)).collect(),
    };
    thread::scope(|scope| {
        let threads: Vec<_> = handles.iter_mut().map(|visited| scope.spawn(|| search.run(visited))).collect();
        threads.into_iter().try_for_each(|it| it.join().expect("a thread that ends"))
    })?;
    assert!(search.visits.iter().all(|it| it.load(Relaxed) == 1), "a square is missed, or visited twice");
    let report = Handle::report_all(&mut handles)?;
    assert!(report.keys.into_iter().eq((0..SIDE).flat_map(|row| (0..SIDE).map(move |column| (row, column)))));
    println!("visited set in Rust: passed, {} squares, each visited once by {THREADS} threads", SIDE * SIDE);
    Ok(())
}

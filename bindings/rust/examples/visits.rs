//! Counts visits of pages by threads that come and go, in a map that begins small and grows: calls of the map itself, which lends
//! each a handle and has it back when the call returns.
//!
//!     cargo run --example visits
use std::thread;
use vbr::{Growth, Map, Refusal, Shape};

const MOST: Growth = Growth::up_to(1 << 20);

/// How often pages were visited.
struct Visits(Map<u64, u32>);

impl Visits {
    /// Counts a visit, and gives the number of it.
    fn count(&self, page: u64) -> Result<u32, Refusal> {
        self.0.call(MOST, |mine| mine.entry(page).and_modify(|count| *count += 1).or_insert(1))
    }

    /// Forgets a page that was visited as often as that, and no more.
    fn forget(&self, page: u64, times: u32) -> Result<bool, Refusal> {
        match self.0.get(page)? {
            Some(count) if count <= times => Ok(self.0.remove_if(page, count)? == vbr::Compared::Equal), // the loan of `get` is back
            _ => Ok(false),
        }
    }
}

fn main() -> Result<(), Box<dyn std::error::Error>> {
    let visits = Visits(Map::open(Shape::for_keys(16, 2))?);
    thread::scope(|scope| {
        for first in [0, 250, 500, 750] {
            let visits = &visits;
            scope.spawn(move || {
                for page in first..first + 500 {
                    visits.count(page).expect("memory for more slots");
                }
            });
        }
    });
    assert!(visits.forget(1_200, 1)? && !visits.forget(700, 1)?);
    let slots = visits.0.slots();
    let report = visits.0.close()?;
    assert_eq!(report.entries.len(), 1_249);
    assert_eq!(report.entries.iter().map(|it| it.1).sum::<u32>(), 4 * 500 - 1);
    println!("visits in Rust: passed, of 1249 pages in a map that grew to {slots} slots");
    Ok(())
}

//! An index of more keys than one table is to have: pages and where they are, in a map of sixteen tables, which begin small. Four threads fill it
//! while its tables grow, each by itself, and look each page up.
//!
//!     cargo run --release --example index [PAGES]
//!
//! That is 400,000 pages unless it is told another number.
use std::env;
use std::thread;
use vbr::{Growth, OpenError, OutOfSteps, Shape, ShardRefusal, ShardedMap};

const SHARDS: usize = 16;
const THREADS: usize = 4;

/// Where each page is: the address of a page, a multiple of 4,096, and a number.
struct Index(ShardedMap<u64, u64>);

impl Index {
    /// One for about so many pages, with room for a fourth of them at first.
    fn for_pages(pages: u64) -> Result<Index, OpenError> {
        let small = Shape::for_shards(pages / 4, SHARDS, THREADS);
        Ok(Index(ShardedMap::open(SHARDS, small, Growth::up_to(small.slots.saturating_mul(8)))?))
    }

    /// Adds a page, unless it is there.
    fn add(&self, page: u64) -> Result<bool, ShardRefusal> {
        self.0.try_insert(page << 12, page)
    }

    fn place_of(&self, page: u64) -> Result<Option<u64>, OutOfSteps> {
        self.0.get(page << 12)
    }
}

/// How many of the pages below a number a call says yes of: four threads make it of a share of them each.
fn count_by_threads(pages: u64, call: impl Fn(u64) -> bool + Sync) -> u64 {
    let call = &call;
    thread::scope(|scope| {
        let shares = (0..THREADS as u64).map(|first| (first..pages).step_by(THREADS));
        let threads: Vec<_> =
            shares.map(|mut share| scope.spawn(move || share.by_ref().filter(|page| call(*page)).count() as u64)).collect();
        threads.into_iter().map(|it| it.join().expect("a thread that ends")).sum()
    })
}

fn main() -> Result<(), Box<dyn std::error::Error>> {
    let pages = env::args().nth(1).map_or(Ok(400_000), |word| word.parse())?;
    let index = Index::for_pages(pages)?;
    assert_eq!(count_by_threads(pages, |page| index.add(page).expect("memory for more slots")), pages);
    assert_eq!(count_by_threads(pages, |page| index.place_of(page) == Ok(Some(page))), pages);
    let (mut count, mut sum) = (0, 0);
    for entry in &index.0 {
        let (address, page) = entry?;
        assert_eq!(address, page << 12);
        (count, sum) = (count + 1, sum + page);
    }
    assert_eq!((count, sum, index.0.count_about()), (pages, pages * pages.saturating_sub(1) / 2, pages));
    let slots: u64 = (0..SHARDS).map(|number| u64::from(index.0.stats(number).slots)).sum();
    println!("index in Rust: passed, of {pages} pages in {SHARDS} tables that grew to {slots} slots");
    Ok(())
}

//! A cache of pages in a fixed number of bytes, which threads share. A page that is missed is read once, however many threads miss
//! it; one that changes at its source is taken out, and comes back as it is then. With the word `careless` pages are read and put in by
//! two calls, without `get_or_load`, and old pages come back.
use std::error::Error;
use std::sync::atomic::{AtomicU64, Ordering};
use std::sync::RwLock;
use std::thread;
use vbr::{Cache, LoadError, SmallBytes, SmallStr, TooLong};

type Name = SmallStr<24>;
type Page = SmallBytes<256>;

const PAGES: usize = 8;
const THREADS: usize = 4;

/// Where the pages come from: each says how often it was changed.
struct Source {
    changes: Vec<RwLock<u64>>,
    reads: AtomicU64,
}

impl Source {
    fn read(&self, page: usize) -> Result<Page, TooLong> {
        self.reads.fetch_add(1, Ordering::Relaxed);
        let changes = *self.changes[page].read().expect("nobody panics");
        thread::yield_now(); // a disk takes its time
        Page::new(format!("page {page}, changed {changes} times").as_bytes())
    }
}

fn name_of(page: usize) -> Result<Name, TooLong> {
    Name::new(&format!("/pages/{page}"))
}

/// How often a page had been changed when it was read.
fn changes_of(page: &Page) -> u64 {
    let digits = page.iter().copied().skip_while(|it| *it != b',').filter(u8::is_ascii_digit);
    digits.fold(0, |number, digit| 10 * number + u64::from(digit - b'0'))
}

/// A page, of the cache or of the source.
fn fetch(cache: &Cache<Name, Page>, source: &Source, page: usize, is_careless: bool) -> Result<Page, Box<dyn Error>> {
    let name = name_of(page)?;
    if !is_careless {
        return Ok(cache.get_or_load(name, || source.read(page))?);
    }
    if let Some(found) = cache.get(name)? {
        return Ok(found);
    }
    let read = source.read(page)?;
    cache.put(name, read)?; // it may have been changed since, and taken out
    Ok(read)
}

/// Changes a page and takes it out of the cache: who fetches it afterwards has it as it is then, or of a later change.
fn change(cache: &Cache<Name, Page>, source: &Source, page: usize) -> Result<u64, Box<dyn Error>> {
    let changes = {
        let mut changes = source.changes[page].write().expect("nobody panics");
        *changes += 1;
        *changes
    };
    cache.remove(name_of(page)?)?;
    Ok(changes)
}

fn main() -> Result<(), Box<dyn Error>> {
    let is_careless = std::env::args().any(|word| word == "careless");
    let cache: Cache<Name, Page> = Cache::open_bytes(150_000, THREADS)?;
    let source = Source { changes: (0..PAGES).map(|_| RwLock::new(0)).collect(), reads: AtomicU64::new(0) };
    thread::scope(|scope| {
        for first in 0..THREADS {
            let (cache, source) = (&cache, &source);
            scope.spawn(move || {
                for turn in 0..if is_careless { 2_000 } else { 20_000 } {
                    let page = (turn * 7 + first * turn / 3) % PAGES;
                    if turn % 5 == first && page % THREADS == first {
                        // nobody else changes this one
                        let changes = change(cache, source, page).expect("a page");
                        if is_careless {
                            thread::yield_now(); // others put in what they had read before
                        }
                        let found = changes_of(&fetch(cache, source, page, is_careless).expect("a page"));
                        assert_eq!(found, changes, "an old page came back: FAILED");
                    } else {
                        fetch(cache, source, page, is_careless).expect("a page");
                    }
                }
            });
        }
    });
    let told = cache.statistics();
    let reads = source.reads.into_inner();
    assert_eq!(told.loads, if is_careless { 0 } else { reads });
    println!(
        "{} pages in {} bytes: {} hits, {} misses, {reads} reads, {} pages went for others",
        cache.capacity(),
        cache.bytes(),
        told.hits,
        told.misses,
        told.evictions
    );
    // a page that can't be read is nobody else's trouble
    let told = cache.get_or_load(name_of(PAGES)?, || Page::new(&[0; 300]));
    assert_eq!(told, Err(LoadError::Failed(TooLong { bytes: 300, most: 256 })));
    Ok(())
}

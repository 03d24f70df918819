//! A route table: which way packets go for a prefix of addresses. One thread changes routes, and the others look them up for each
//! packet; none of them ever sees a route absent.
//!
//!     cargo run --release --example routes [careless]
//!
//! A route that changes gets its new value at one moment (`replace`), so a look-up finds the one or the other. A careless writer
//! removes the route and inserts it anew, and then a look-up falls in between.
//!
//! The program counts packets that found no route, and sees that each found a way that its prefix had at a time of the look-up:
//! routes are numbered, and a reader never gets an older one than it got before.
#![allow(clippy::cast_possible_truncation, reason = "the numbers are small")]
use std::error::Error;
use std::sync::atomic::{AtomicBool, Ordering::Relaxed};
use std::thread;
use vbr::{Bits, Map, MapHandle, OutOfSteps, Refusal, Shape};

const READERS: usize = 3;
const PREFIXES: u32 = 64;
const CHANGES: u32 = 20_000;

/// Where packets go, and how often the route was changed.
#[derive(Clone, Copy, Debug, PartialEq, Eq)]
struct Route {
    port: u16,
    version: u32,
}

impl Bits for Route {
    fn to_bits(self) -> u64 {
        (self.version, u32::from(self.port)).to_bits()
    }
    fn from_bits(bits: u64) -> Route {
        let (version, port) = Bits::from_bits(bits);
        Route { port: u16::from_bits(u64::from(port)), version }
    }
}

impl Route {
    fn of(prefix: u32, version: u32) -> Route {
        Route { port: (prefix.wrapping_add(version) % 48) as u16, version }
    }
}

/// Changes all routes, again and again.
fn change(routes: &mut MapHandle<u32, Route>, is_careless: bool) -> Result<(), Refusal> {
    for version in 1..=CHANGES {
        for prefix in 0..PREFIXES {
            let (before, after) = (Route::of(prefix, version - 1), Route::of(prefix, version));
            if is_careless {
                assert_eq!(routes.remove(prefix)?, Some(before));
                assert!(routes.try_insert(prefix, after)?);
            } else {
                assert_eq!(routes.replace(prefix, after)?, Some(before));
            }
        }
    }
    Ok(())
}

/// Sends packets until all routes are changed, and says how many.
fn send(routes: &MapHandle<u32, Route>, is_over: &AtomicBool) -> Result<u64, OutOfSteps> {
    let (mut packets, mut versions) = (0, [0; PREFIXES as usize]);
    while !is_over.load(Relaxed) {
        for (prefix, version) in (0..).zip(&mut versions) {
            let route = routes.get(prefix)?.expect("a route is absent");
            assert_eq!(route, Route::of(prefix, route.version), "a route that its prefix never had");
            assert!(*version <= route.version, "an older route than before");
            *version = route.version;
            packets += 1;
        }
    }
    Ok(packets)
}

/// Says that all is over when it is dropped, by a panic too.
struct Over<'o>(&'o AtomicBool);

impl Drop for Over<'_> {
    fn drop(&mut self) {
        self.0.store(true, Relaxed);
    }
}

fn main() -> Result<(), Box<dyn Error>> {
    let is_careless = std::env::args().nth(1).is_some_and(|word| word == "careless");
    let first: Vec<_> = (0..PREFIXES).map(|prefix| (prefix, Route::of(prefix, 0))).collect();
    let mut handles = Map::handles_with(Shape::for_keys(PREFIXES, READERS + 1), &first)?;
    let (writer, readers) = handles.split_last_mut().ok_or("no handles")?;
    let is_over = AtomicBool::new(false);
    let packets = thread::scope(|scope| {
        let is_over = &is_over;
        let threads: Vec<_> = readers.iter_mut().map(|routes| scope.spawn(move || send(routes, is_over))).collect();
        let changed = {
            let _over = Over(is_over);
            change(writer, is_careless)
        };
        let packets = threads.into_iter().map(|it| it.join().expect("no route is absent")).sum::<Result<u64, _>>()?;
        changed.map(|()| packets)
    })?;
    for (prefix, route) in MapHandle::report_all(&mut handles)? {
        assert_eq!(route, Route::of(prefix, CHANGES));
    }
    let changes = CHANGES * PREFIXES;
    println!("route table in Rust: passed, {packets} packets found a route each, while {changes} changes were made");
    Ok(())
}

//! A server whose map is renewed by time, so that it runs for years: threads serve requests by handles that are lent to them, and
//! a clock renews the map while they run.
//!
//!     cargo run --release --example server
//!
//! The map counts the requests of each session. To serve one, a thread borrows a handle and drops the loan, so a renewal, which
//! waits for all loans, waits no longer than a request takes. Who wants a handle meanwhile waits until the map is there again.
//! Where the last epoch is spent before the clock comes, the thread that meets this drops its loan and renews the map itself.
//!
//! The last epoch is small here, so that the map is renewed often. The program sees that no request is lost: those of the sessions
//! that ended, and those that are in the map at its end, are all that were made.
#![allow(clippy::cast_possible_truncation, reason = "the numbers are small")]
use std::error::Error;
use std::sync::atomic::AtomicBool;
use std::sync::atomic::Ordering::Relaxed;
use std::thread;
use std::time::Duration;
use vbr::{Map, OutOfSteps, Refusal, Shape};

const THREADS: u64 = 8;
const HANDLES: usize = 4;
const SESSIONS: u32 = 1_000;
const SHAPE: Shape = Shape::new(SESSIONS + 64 * HANDLES as u32, 1_024, 500).with_handles(HANDLES);
const PERIOD: Duration = Duration::from_millis(5);

/// Of each thread.
const REQUESTS: u64 = 30_000;

struct Server(Map);

impl Server {
    /// Counts a request of a session, which begins with its first one, and tells how many it has made.
    fn serve(&self, session: u64) -> Result<u64, Box<dyn Error + Send + Sync>> {
        loop {
            match self.count(session) {
                Err(Refusal::EpochSpent) => self.renew()?, // it was spent before its time
                told => return Ok(told?),
            }
        }
    }

    /// Counts a request by a handle on loan.
    fn count(&self, session: u64) -> Result<u64, Refusal> {
        self.0.lend_wait().entry(session).and_modify(|count| *count += 1).or_insert(1)
    }

    /// Ends a session, and tells how many requests it made.
    fn end(&self, session: u64) -> Result<u64, OutOfSteps> {
        Ok(self.0.lend_wait().remove(session)?.unwrap_or(0))
    }

    /// Lets the map go on at epoch 1, as soon as no request is under way.
    fn renew(&self) -> Result<(), vbr::RenewError> {
        self.0.renew(SHAPE)
    }

    /// Serves requests, and ends some sessions; how many requests these made.
    fn work(&self, mut random: u64) -> Result<u64, Box<dyn Error + Send + Sync>> {
        let mut ended = 0;
        for request in 0..REQUESTS {
            random ^= random << 13;
            random ^= random >> 7;
            random ^= random << 17;
            self.serve((random >> 32) % u64::from(SESSIONS))?;
            if request % 64 == 0 {
                ended += self.end((random >> 16) % u64::from(SESSIONS))?;
            }
        }
        Ok(ended)
    }
}

fn main() -> Result<(), Box<dyn Error + Send + Sync>> {
    let server = Server(Map::open(SHAPE)?);
    let is_over = AtomicBool::new(false);
    let (ended, renewals) = thread::scope(|scope| {
        let (server, is_over) = (&server, &is_over);
        let clock = scope.spawn(move || {
            let mut renewals = 0;
            loop {
                thread::sleep(PERIOD); // a week, say
                server.renew()?;
                renewals += 1;
                if is_over.load(Relaxed) {
                    return Ok::<u32, vbr::RenewError>(renewals);
                }
            }
        });
        let threads: Vec<_> = (0..THREADS).map(|it| scope.spawn(move || server.work(88_172_645_463_325_252 + it))).collect();
        let ended = threads.into_iter().map(|it| it.join().expect("a thread that ends")).sum::<Result<u64, _>>();
        is_over.store(true, Relaxed);
        (ended, clock.join().expect("a clock that ends"))
    });
    let (ended, renewals) = (ended?, renewals?);
    let report = server.0.close()?;
    assert!(report.epoch <= SHAPE.last_epoch && renewals > 0);
    let requests = ended + report.iter().map(|(_, count)| count).sum::<u64>();
    assert_eq!(requests, THREADS * REQUESTS, "a request is lost, or counted twice");
    println!("server in Rust: passed, {requests} requests, and the clock renewed the map {renewals} times");
    Ok(())
}

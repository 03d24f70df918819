//! A rate limiter for several threads: each client may make `LIMIT` requests in each window of time, by whichever threads they
//! are served.
//!
//!     cargo run --release --example limiter [careless]
//!
//! A map of records has for each client, by its name, the last window in which it made a request and how many were admitted in it. A
//! request is admitted by `compute`, which counts it, or finds that there were enough; so no two threads admit the same one of
//! them, also if a client comes for the first time.
//!
//! The program counts, for each client and each window, how many requests were admitted, over all threads: no more than
//! `LIMIT`, and just as many where one was refused. A careless limiter, which gets the record and puts the next one, admits too
//! many.
#![allow(clippy::cast_possible_truncation, reason = "the numbers are small")]
use std::error::Error;
use std::sync::atomic::AtomicU32;
use std::sync::atomic::Ordering::Relaxed;
use std::thread;
use vbr::{record, Change, RecordLent, RecordMap, RecordRefusal, Shape, SmallStr};

const THREADS: usize = 4;
const CLIENTS: u32 = 16;
const LIMIT: u32 = 100;

/// Of the time, which passes with each request.
const WINDOW: u32 = 4_096;

/// Of all threads.
const REQUESTS: u32 = 400_000;
const WINDOWS: u32 = REQUESTS / WINDOW + 1;

type Client = SmallStr<16>;

record! {
    /// How many requests of a client were admitted in a window, which is the last one that it made any in.
    #[derive(Clone, Copy)]
    struct Usage {
        window: u32,
        count: u32,
    }
}

/// What becomes of a request, and the window in which it counts.
#[derive(Clone, Copy)]
enum Verdict {
    Admitted(u32),
    Refused(u32),
}

impl Usage {
    /// What becomes of one request more, which comes in this window, or is late for it.
    fn with_one(before: Option<Usage>, now: u32) -> (Change<Usage>, Verdict) {
        let (window, count) = match before {
            Some(Usage { window, count }) if now <= window => (window, count + 1),
            _ => (now, 1),
        };
        if count > LIMIT {
            return (Change::Keep, Verdict::Refused(window));
        }
        (Change::Put(Usage { window, count }), Verdict::Admitted(window))
    }
}

type Limiter<'m> = RecordLent<'m, Client, Usage>;

fn admit(limiter: &mut Limiter, client: Client, now: u32) -> Result<Verdict, RecordRefusal> {
    let mut verdict = Verdict::Refused(now);
    limiter.compute(client, |before| {
        let (change, told) = Usage::with_one(before, now);
        verdict = told;
        change
    })?;
    Ok(verdict)
}

/// The same with a step between, in which another thread may count.
fn admit_carelessly(limiter: &mut Limiter, client: Client, now: u32) -> Result<Verdict, RecordRefusal> {
    let (change, verdict) = Usage::with_one(limiter.get(client)?, now);
    if let Change::Put(usage) = change {
        limiter.put(client, usage)?;
    }
    Ok(verdict)
}

/// How many requests of each client were admitted in each window, and how many were refused.
struct Counts {
    begun: AtomicU32,
    admitted: Vec<AtomicU32>,
    refused: Vec<AtomicU32>,
}

impl Counts {
    fn new() -> Counts {
        let none = || (0..CLIENTS * WINDOWS).map(|_| AtomicU32::new(0)).collect();
        Counts { begun: AtomicU32::new(0), admitted: none(), refused: none() }
    }

    /// Serves requests until there are none.
    fn serve(&self, limiter: &mut Limiter, is_careless: bool) -> Result<(), Box<dyn Error + Send + Sync>> {
        loop {
            let request = self.begun.fetch_add(1, Relaxed);
            if request >= REQUESTS {
                return Ok(());
            }
            let (client, now) = (client_of(request), request / WINDOW);
            let admit = if is_careless { admit_carelessly } else { admit };
            let (counts, window) = match admit(limiter, Client::new(&format!("client {client}"))?, now)? {
                Verdict::Admitted(window) => (&self.admitted, window),
                Verdict::Refused(window) => (&self.refused, window),
            };
            counts[(client * WINDOWS + window) as usize].fetch_add(1, Relaxed);
        }
    }

    /// Sees that each count is what it may be, and says how often the limit was reached.
    fn check(self) -> usize {
        let [admitted, refused] =
            [self.admitted, self.refused].map(|it| it.into_iter().map(AtomicU32::into_inner).collect::<Vec<_>>());
        let mut full = 0;
        for (admitted, refused) in admitted.iter().zip(&refused) {
            assert!(*admitted <= LIMIT, "more are admitted than may be");
            assert!(*refused == 0 || *admitted == LIMIT, "one is refused that may be admitted");
            full += usize::from(*refused > 0);
        }
        assert_eq!(admitted.iter().chain(&refused).sum::<u32>(), REQUESTS);
        full
    }
}

/// The client of a request. Some come more often than the limit lets them, and others don't.
fn client_of(request: u32) -> u32 {
    let x = (u64::from(request) + 1).wrapping_mul(0x9e37_79b9_7f4a_7c15);
    let share = ((x >> 44) * (x >> 24 & 0xf_ffff)) >> 20; // of all clients, counted in 2^-20
    ((share * u64::from(CLIENTS)) >> 20) as u32
}

fn main() -> Result<(), Box<dyn Error>> {
    let is_careless = std::env::args().nth(1).is_some_and(|word| word == "careless");
    let clients: RecordMap<Client, Usage> = RecordMap::open(Shape::for_keys(CLIENTS, THREADS))?;
    let counts = Counts::new();
    thread::scope(|scope| {
        let serve = || counts.serve(&mut clients.lend_wait(), is_careless);
        let threads: Vec<_> = (0..THREADS).map(|_| scope.spawn(serve)).collect();
        threads.into_iter().try_for_each(|thread| thread.join().expect("a thread that ends"))
    })
    .map_err(|why| why as Box<dyn Error>)?;
    let full = counts.check();
    assert!(full > 0 && full < (CLIENTS * WINDOWS) as usize);
    println!("limiter in Rust: passed, the limit was reached {full} times by {CLIENTS} clients in {WINDOWS} windows");
    Ok(())
}

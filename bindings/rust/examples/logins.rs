//! A cache of logins that live for some time, for several threads: a map from a user to the time until which the user is logged
//! in.
//!
//!     cargo run --release --example logins [careless]
//!
//! A login is given more time while any thread uses it. A sweeper goes over the map, while the others run, and takes out what
//! has expired. Between its look at a login and the remove the user may have logged in again; so it removes a login only if it
//! still has the time that was seen, by `remove_if`.
//!
//! Beside the map it is noted of each user until when a call has promised that the login lives. The program sees that no login
//! is found absent before that. With a careless sweeper, which removes whatever is there, it finds one that is.
#![allow(clippy::cast_possible_truncation, reason = "the numbers are small")]
use std::error::Error;
use std::sync::atomic::AtomicU64;
use std::sync::atomic::Ordering::SeqCst;
use std::thread;
use vbr::{Compared, Map, MapHandle, OutOfSteps, Refusal, Shape};

const WORKERS: usize = 3;
const USERS: usize = 1_000;

/// How long a login lives after its last use.
const LIFE: u64 = 3_000;

/// Of each worker.
const REQUESTS: u64 = 200_000;

const SHAPE: Shape = Shape::for_keys(USERS as u32, WORKERS + 1);

/// The logins, as one thread has them.
struct Logins(MapHandle);

impl Logins {
    /// Logs a user in, at least until then.
    fn log_in(&mut self, user: u64, until: u64) -> Result<(), Refusal> {
        while let Some(had) = self.0.get_or_insert(user, until)? {
            if had >= until || self.0.compare_exchange(user, had, until)? == Compared::Equal {
                break;
            }
        }
        Ok(())
    }

    /// Until when the login of a user lives, which is used now; none where it has expired. It gets more time where half is over.
    fn use_now(&mut self, user: u64, now: u64) -> Result<Option<u64>, Refusal> {
        let longer = |until: u64| (until > now).then(|| until.max(now + LIFE));
        match self.0.get(user)? {
            Some(until) if until <= now + LIFE / 2 => Ok(self.0.fetch_update(user, longer)?.and_then(longer)),
            until => Ok(until),
        }
    }

    /// What has expired: each user with the time that was seen.
    fn expired(&self, now: u64) -> Result<Vec<(u64, u64)>, OutOfSteps> {
        self.0.iter().filter(|entry| !matches!(entry, Ok((_, until)) if *until > now)).collect()
    }

    /// Takes out a login that was seen to have expired; not if its user has logged in again since.
    fn sweep(&mut self, (user, seen): (u64, u64)) -> Result<bool, OutOfSteps> {
        Ok(self.0.remove_if(user, seen)? == Compared::Equal)
    }

    /// Takes out whatever is there.
    fn sweep_carelessly(&mut self, (user, _): (u64, u64)) -> Result<bool, OutOfSteps> {
        Ok(self.0.remove(user)?.is_some())
    }
}

/// What the program knows beside the map.
struct Known {
    /// The time, which passes with each request.
    now: AtomicU64,
    /// Until when the login of each user lives, as a call returned.
    promised: Vec<AtomicU64>,
    working: AtomicU64,
}

impl Known {
    /// One user asks for something, and logs in first where that is due: whether it was.
    fn serve(&self, logins: &mut Logins, user: usize) -> Result<bool, Refusal> {
        let lives = self.promised[user].load(SeqCst);
        let now = self.now.fetch_add(1, SeqCst);
        let found = logins.use_now(user as u64, now)?;
        let until = if let Some(until) = found {
            until
        } else {
            assert!(lives <= self.now.load(SeqCst), "a login that lives is found absent");
            let until = self.now.load(SeqCst) + LIFE;
            logins.log_in(user as u64, until)?;
            until
        };
        self.promised[user].fetch_max(until, SeqCst);
        Ok(found.is_none())
    }

    /// Serves requests, and says how many were logins. Some users come often, and others so seldom that their logins expire.
    fn work(&self, logins: &mut Logins, mut random: u64) -> Result<u64, Refusal> {
        let mut count = 0;
        for _ in 0..REQUESTS {
            random ^= random << 13;
            random ^= random >> 7;
            random ^= random << 17;
            let (x, y) = (random >> 40, random >> 16 & 0xff_ffff);
            let user = (((x * y) >> 24) * USERS as u64) >> 24;
            count += u64::from(self.serve(logins, user as usize)?);
        }
        Ok(count)
    }

    /// Sweeps while the workers run, and says how many logins were taken out, and how many of those that were to be weren't.
    fn sweep(&self, logins: &mut Logins, is_careless: bool) -> Result<[u64; 2], OutOfSteps> {
        let mut counts = [0; 2];
        while self.working.load(SeqCst) > 0 {
            let expired = logins.expired(self.now.load(SeqCst))?;
            if is_careless {
                thread::yield_now(); // and their users log in again
            }
            for seen in expired {
                let swept = if is_careless { logins.sweep_carelessly(seen)? } else { logins.sweep(seen)? };
                counts[usize::from(!swept)] += 1;
            }
            thread::yield_now();
        }
        Ok(counts)
    }
}

/// Counts itself out when its worker ends, by a panic too.
struct Working<'k>(&'k AtomicU64);

impl Drop for Working<'_> {
    fn drop(&mut self) {
        self.0.fetch_sub(1, SeqCst);
    }
}

/// Lets all workers work, and the last one sweep: how many logins there were, and what came of the sweeps.
fn play(known: &Known, of: &mut [Logins], is_careless: bool) -> Result<(u64, [u64; 2]), Box<dyn Error>> {
    let (sweeper, workers) = of.split_last_mut().ok_or("no handles")?;
    thread::scope(|scope| {
        let spawned = |(number, logins): (u64, _)| {
            scope.spawn(move || {
                let _working = Working(&known.working);
                known.work(logins, 88_172_645_463_325_252 + number)
            })
        };
        let threads: Vec<_> = (0..).zip(workers).map(spawned).collect();
        let counts = known.sweep(sweeper, is_careless)?;
        let logged_in = threads.into_iter().map(|thread| thread.join().expect("no login that lives is found absent"));
        Ok((logged_in.sum::<Result<u64, _>>()?, counts))
    })
}

fn main() -> Result<(), Box<dyn Error>> {
    let is_careless = std::env::args().nth(1).is_some_and(|word| word == "careless");
    let mut of: Vec<_> = Map::handles(SHAPE)?.into_iter().map(Logins).collect();
    let promised = (0..USERS).map(|_| AtomicU64::new(0)).collect();
    let known = Known { now: AtomicU64::new(0), promised, working: AtomicU64::new(WORKERS as u64) };
    let (logged_in, [swept, kept]) = play(&known, &mut of, is_careless)?;
    assert!(logged_in > USERS as u64 && swept > 0);
    let now = known.now.into_inner();
    let left = of[0].0.iter().collect::<Result<Vec<_>, _>>()?;
    let live: Vec<_> = left.into_iter().filter(|(_, until)| *until > now).collect();
    assert!(live.iter().all(|(user, until)| *until >= known.promised[*user as usize].load(SeqCst)));
    assert_eq!(live.len(), known.promised.into_iter().filter(|until| until.load(SeqCst) > now).count());
    println!("logins in Rust: passed, {logged_in} logins, of which {swept} were swept, and {kept} were there again");
    Ok(())
}

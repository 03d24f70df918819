//! A pre-fork server: a master forks workers, which keep the sessions of all clients in one map that they share. Workers die at random
//! moments: they are killed, also within calls, or fall over by themselves before they answer. The master learns of it, inherits
//! the handle of the dead one and forks another worker.
//!
//!     cargo run --release --example prefork [careless]
//!
//! The map counts the requests of each session. A request that a worker didn't answer before it died was counted or it wasn't; so
//! the master, which plays the clients too, asks the next worker again. Each request has a number, and a worker counts it only where
//! the session has made one fewer, by `compare_exchange`. So it is counted once, however often it is asked. A careless worker counts
//! whatever it is asked, and the master finds a request that was counted twice.
//!
//! Each death in a turn takes slots along. So the master renews the map after some of them: when all have answered and none was
//! asked anew, no worker is in a turn. At the end each session has made as many requests as its client knows of.
#![allow(clippy::cast_possible_truncation, reason = "the numbers are small")]
use std::error::Error;
use std::ffi::c_int;
use std::io::{self, Read, Write};
use std::os::unix::net::UnixStream;
use vbr::{Claim, Compared, Entries, Inherited, MapPass, OutOfSteps, Refusal, Shape, SharedMap};

extern "C" {
    fn fork() -> c_int;
    fn waitpid(process: c_int, status: *mut c_int, options: c_int) -> c_int;
    fn kill(process: c_int, signal: c_int) -> c_int;
    fn getpid() -> c_int;
    fn _exit(status: c_int) -> !;
}

const SIGKILL: c_int = 9;
const WORKERS: usize = 4;
const SESSIONS: usize = 1_000;

/// How many workers may die in turns between two renewals. There is one after half of them, since more may die in a round.
const DEATHS: u32 = 16;

const SHAPE: Shape = Shape::for_keys(1_000, WORKERS).with_deaths(DEATHS);

/// In each of them each worker serves one request.
const ROUNDS: usize = 1_000;

/// A request: its session, and how many the session has made with it, or 0 where it ends.
type Request = [u64; 2];

/// An answer: how many requests the session has made, and how many sessions there are.
type Answer = [u64; 2];

/// Counts a request of a session, unless it was counted before its worker died, and tells how many the session has made.
fn count(sessions: &mut MapPass, [session, number]: Request) -> Result<u64, Refusal> {
    if number == 1 {
        sessions.try_insert(session, 1)?;
        return Ok(1);
    }
    Ok(match sessions.compare_exchange(session, number - 1, number)? {
        Compared::Equal => number,
        Compared::Other(count) => count,
        Compared::Absent => 0,
    })
}

/// Counts whatever is asked.
fn count_carelessly(sessions: &mut MapPass, session: u64) -> Result<u64, Refusal> {
    sessions.entry(session).and_modify(|count| *count += 1).or_insert(1)
}

/// Numbers at random.
struct Random(u64);

impl Random {
    fn next(&mut self) -> u64 {
        self.0 ^= self.0 << 13;
        self.0 ^= self.0 >> 7;
        self.0 ^= self.0 << 17;
        self.0
    }

    fn below(&mut self, limit: usize) -> usize {
        (self.next() >> 40) as usize % limit
    }
}

/// What a worker does until the master has gone. Its turn ends before it answers.
fn work(
    mine: &mut Claim<'_, Entries>,
    line: &mut UnixStream,
    random: &mut Random,
    is_careless: bool,
) -> Result<(), Box<dyn Error>> {
    while let Ok(request) = received(line) {
        let mut sessions = mine.turn();
        let count = match request {
            [session, 0] => sessions.remove(session)?.unwrap_or(0),
            [session, _] if is_careless => count_carelessly(&mut sessions, session)?,
            _ => count(&mut sessions, request)?,
        };
        if random.below(64) == 0 {
            // SAFETY: it takes numbers alone.
            unsafe { kill(getpid(), SIGKILL) }; // for a fault of the worker
        }
        let there = sessions.iter().map(|it| it.map(|_| 1)).sum::<Result<u64, OutOfSteps>>()?;
        drop(sessions);
        send(line, [count, there])?;
    }
    Ok(())
}

fn send(line: &mut UnixStream, [first, second]: [u64; 2]) -> io::Result<()> {
    line.write_all([first.to_ne_bytes(), second.to_ne_bytes()].as_flattened())
}

fn received(line: &mut UnixStream) -> io::Result<[u64; 2]> {
    let mut bytes = [[0; 8]; 2];
    line.read_exact(bytes.as_flattened_mut())?;
    Ok(bytes.map(u64::from_ne_bytes))
}

/// A worker, as the master knows it.
struct Worker {
    process: c_int,
    line: UnixStream,
}

struct Master<'s> {
    sessions: &'s SharedMap,
    workers: Vec<Worker>,
    is_careless: bool,
    /// How many requests each session has made, as its client knows.
    made: Vec<u64>,
    random: Random,
    deaths: Deaths,
    renewals: u32,
}

/// How many workers have died.
#[derive(Default)]
struct Deaths {
    between_turns: u32,
    in_a_turn: u32,
    /// In a turn, and since the last renewal.
    of_late: u32,
}

impl Master<'_> {
    fn begin(sessions: &SharedMap, is_careless: bool) -> io::Result<Master<'_>> {
        let (workers, made, deaths) = (Vec::new(), vec![0; SESSIONS], Deaths::default());
        let mut master =
            Master { sessions, workers, is_careless, made, random: Random(88_172_645_463_325_252), deaths, renewals: 0 };
        for number in 0..WORKERS {
            let worker = master.forked(number)?;
            master.workers.push(worker);
        }
        Ok(master)
    }

    /// Forks the worker with this number, which has the handle with that number.
    fn forked(&mut self, number: usize) -> io::Result<Worker> {
        let (line, mut end) = UnixStream::pair()?;
        let mut random = Random(self.random.next()); // others than the worker before it had
                                                     // SAFETY: this process has one thread.
        let process = unsafe { fork() };
        if process == 0 {
            drop(line);
            self.workers.clear(); // the lines to the others are the master's
                                  // SAFETY: the handle is this worker's alone until it is dead. The one that had it before is, and was inherited.
            let mut mine = unsafe { self.sessions.claim(number) };
            let told = work(&mut mine, &mut end, &mut random, self.is_careless);
            // SAFETY: it ends the process.
            unsafe { _exit(c_int::from(told.is_err())) }
        }
        if process < 0 {
            return Err(io::Error::last_os_error());
        }
        Ok(Worker { process, line })
    }

    /// Serves one request by each worker. Those that are dead are replaced, and the others are asked again.
    fn serve(&mut self, requests: &[Request; WORKERS]) -> Result<[Answer; WORKERS], Box<dyn Error>> {
        for (worker, request) in self.workers.iter_mut().zip(requests) {
            let _ = send(&mut worker.line, *request); // one that is dead doesn't answer
        }
        if self.random.below(4) == 0 {
            self.kill_one();
        }
        let mut answers = [Answer::default(); WORKERS];
        for number in 0..WORKERS {
            answers[number] = loop {
                if let Ok(answer) = received(&mut self.workers[number].line) {
                    break answer;
                }
                self.replace(number)?;
                let _ = send(&mut self.workers[number].line, requests[number]);
            };
        }
        Ok(answers)
    }

    /// Kills a worker after a while, in which it may serve its request, or not.
    fn kill_one(&mut self) {
        let (number, turns) = (self.random.below(WORKERS), self.random.below(2_000));
        for _ in 0..turns {
            std::hint::spin_loop();
        }
        // SAFETY: it takes numbers alone. The worker wasn't waited for, so no other process has its number.
        unsafe { kill(self.workers[number].process, SIGKILL) };
    }

    /// Has another worker in the place of one that is dead.
    fn replace(&mut self, number: usize) -> Result<(), Box<dyn Error>> {
        if ended(self.workers[number].process)? != SIGKILL {
            return Err("a worker gave up".into());
        }
        // SAFETY: the worker that had the handle is dead, and the next one isn't forked yet.
        match unsafe { self.sessions.inherit(number) } {
            Inherited::Whole => self.deaths.between_turns += 1,
            Inherited::WithoutSlots => {
                self.deaths.in_a_turn += 1;
                self.deaths.of_late += 1;
            }
        }
        self.workers[number] = self.forked(number)?;
        Ok(())
    }

    /// Wins the slots back that the dead have lost, once they are many. All workers have answered, and none was asked since.
    fn renew_in_need(&mut self) -> Result<(), vbr::RenewError> {
        if self.deaths.of_late < DEATHS / 2 {
            return Ok(());
        }
        // SAFETY: each worker waits for a request, or is dead: none is in a turn, or begins one.
        unsafe { self.sessions.renew(SHAPE) }?;
        self.deaths.of_late = 0;
        self.renewals += 1;
        Ok(())
    }

    /// What the workers serve in a round: sessions that go round, so that each worker comes to serve each session.
    fn requests(&mut self, round: usize) -> [Request; WORKERS] {
        std::array::from_fn(|worker| {
            let session = self.random.below(SESSIONS / WORKERS) * WORKERS + (worker + round) % WORKERS;
            let ends = self.made[session] > 0 && self.random.below(8) == 0;
            [session as u64, if ends { 0 } else { self.made[session] + 1 }]
        })
    }

    /// Plays all rounds, and says whether each answer was right.
    fn play(&mut self) -> Result<bool, Box<dyn Error>> {
        for round in 0..ROUNDS {
            let requests = self.requests(round);
            let live = self.made.iter().filter(|count| **count > 0).count();
            for ([session, number], [count, there]) in requests.into_iter().zip(self.serve(&requests)?) {
                let known = &mut self.made[session as usize];
                // an end that is asked again finds that the session has ended
                let is_right = if number == 0 { count == *known || count == 0 } else { count == number };
                if !is_right || live.abs_diff(there as usize) > WORKERS {
                    return Ok(false);
                }
                *known = number;
            }
            self.renew_in_need()?;
        }
        Ok(true)
    }

    /// Has all workers end.
    fn end(&mut self) -> Result<(), Box<dyn Error>> {
        for Worker { process, line } in self.workers.drain(..) {
            drop(line);
            if ![0, SIGKILL].contains(&ended(process)?) {
                return Err("a worker gave up".into());
            }
        }
        Ok(())
    }
}

/// How a process has ended that ends.
fn ended(process: c_int) -> io::Result<c_int> {
    let mut status = 0;
    // SAFETY: nothing else has the status.
    if unsafe { waitpid(process, &raw mut status, 0) } == process {
        Ok(status)
    } else {
        Err(io::Error::last_os_error())
    }
}

fn main() -> Result<(), Box<dyn Error>> {
    let is_careless = std::env::args().nth(1).is_some_and(|word| word == "careless");
    let sessions = SharedMap::open(SHAPE)?;
    let mut master = Master::begin(&sessions, is_careless)?;
    let is_right = master.play()?;
    master.end()?;
    assert!(is_right, "a request is lost, or counted twice");
    // SAFETY: all workers have ended, and this process has one thread.
    let report = unsafe { sessions.report() }?;
    let Master { made, deaths: Deaths { between_turns, in_a_turn, .. }, renewals, .. } = master;
    assert!(report.into_iter().eq((0..).zip(made).filter(|(_, count)| *count > 0)), "a request is lost, or counted twice");
    assert!(between_turns + in_a_turn > 0);
    println!(
        "prefork in Rust: passed, {} requests; {between_turns} workers died between two turns, {in_a_turn} in one, with {renewals} renewals",
        ROUNDS * WORKERS
    );
    Ok(())
}

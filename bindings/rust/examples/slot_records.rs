//! Records beside the slots of a map: accounts of 256 bytes that threads share.
//!
//!     cargo run --release --example slot_records [careless]
//!
//! A thread holds a slot, writes the record of that slot, which nobody else writes meanwhile, and makes the slot the node of the
//! account's owner. A record isn't changed then. To change an account a thread writes the record of another slot, and puts that slot in
//! the place of the entry that it read; to end one it takes out the entry that it read. If that entry is no longer there another thread
//! was faster, and it reads again. Nobody frees a record: it goes where its slot goes.
//!
//! It does so in a map with room, in one of few slots, where a slot is handed out anew as soon as it is free, and in a larger one
//! again. The records are carried over from one to the next.
//!
//! The program counts what was paid into each account: it is what the accounts have at the end, and had when they were ended. Each
//! copy is whole, and of its owner. A careless reader, which doesn't ask whether the slot is the entry's own still, finds one that isn't.
use std::error::Error;
use std::thread;
use vbr::{Entries, Incarnation, Map, MapHandle, OutOfSteps, Records, Refusal, Shape};

const THREADS: usize = 4;
const OWNERS: u32 = 16;
const WIDE: Shape = Shape::for_keys(OWNERS, THREADS);
const NARROW: Shape = WIDE.with_slots(OWNERS + 5);
const LARGER: Shape = Shape::for_keys(2 * OWNERS, THREADS);
const TURNS: u32 = 25_000;

vbr::record! {
    #[derive(Clone, Copy, Debug, Default)]
    struct Account {
        owner: u64,
        paid: u64,
        payments: u32,
        reserved: [u64; 28],
        /// It is made of the others, so that a copy of two is seen.
        seal: u64,
    }
}

impl Account {
    /// With one payment more, of its owner.
    fn with(mut self, owner: u64, amount: u64) -> Account {
        self.owner = owner;
        self.paid += amount;
        self.payments += 1;
        self.reserved.fill(self.paid);
        self.seal = self.made_seal();
        self
    }

    fn made_seal(&self) -> u64 {
        let first = (self.owner + 1).wrapping_mul(0x9e37_79b9_7f4a_7c15) ^ self.paid ^ u64::from(self.payments) << 32;
        self.reserved.iter().fold(first, |seal, word| seal.wrapping_mul(31).wrapping_add(*word))
    }
}

type Found = Option<(Account, Incarnation<Entries<u64, u64>>)>;

/// The accounts, as one thread has them.
struct Accounts<'r> {
    map: MapHandle,
    records: &'r Records<Account>,
    is_careless: bool,
    is_narrow: bool,
}

impl Accounts<'_> {
    /// The account of an owner, and its entry, by a pass.
    fn find(&self, owner: u64) -> Result<Found, OutOfSteps> {
        find(&self.map, self.records, owner, self.is_careless)
    }

    /// Pays into an account, which begins with the first payment.
    fn pay(&mut self, owner: u64, amount: u64) -> Result<(), Refusal> {
        let mut held = loop {
            match self.map.hold() {
                Err(Refusal::NoSlot) if self.is_narrow => thread::yield_now(), // the others have all, for a moment
                told => break told?,
            }
        };
        loop {
            let before = find(&held, self.records, owner, self.is_careless)?;
            let next = before.map_or(Account::default(), |(account, _)| account).with(owner, amount);
            self.records.write(&mut held, &next);
            let done = match before {
                Some((_, at)) => held.replace(owner, &at, next.paid)?,
                None => held.try_insert(owner, next.paid)?,
            };
            match done {
                Ok(()) => return Ok(()),
                Err(again) => held = again, // another thread was faster
            }
        }
    }

    /// Ends an account, and tells what it had.
    fn end(&mut self, owner: u64) -> Result<u64, OutOfSteps> {
        while let Some((account, at)) = self.find(owner)? {
            if self.map.remove_entry(owner, &at)? {
                return Ok(account.paid);
            } // or it was paid into since, or is gone
        }
        Ok(0)
    }

    /// What was paid, and what accounts had that were ended.
    fn work(&mut self, mut random: u64) -> Result<(u64, u64), Refusal> {
        let (mut paid, mut ended) = (0, 0);
        for _ in 0..if self.is_careless { TURNS / 25 } else { TURNS } {
            random ^= random << 13;
            random ^= random >> 7;
            random ^= random << 17;
            let (owner, amount) = ((random >> 32) % u64::from(OWNERS), random >> 20 & 15);
            match random >> 16 & 255 {
                0 => ended += self.end(owner)?,
                it if it % 2 == 0 => drop(self.find(owner)?),
                _ => {
                    self.pay(owner, amount)?;
                    paid += amount;
                }
            }
            if self.is_narrow {
                self.map.give_slots_back(); // the others want what it has
            }
        }
        Ok((paid, ended))
    }
}

fn find(map: &vbr::MapPass, records: &Records<Account>, owner: u64, is_careless: bool) -> Result<Found, OutOfSteps> {
    let found = if is_careless {
        let at = map.get_entry(owner)?;
        if at.is_some_and(|at| at.value() % 64 == 0) {
            thread::yield_now(); // while others go on
        }
        at.map(|at| (records.copy(&at), at))
    } else {
        records.read_entry(map, owner)?
    };
    if let Some((account, _)) = found {
        assert_eq!(account.seal, account.made_seal(), "a copy of two accounts");
        assert_eq!(account.owner, owner, "another account");
    }
    Ok(found)
}

/// Four threads for some time: what was paid, and what accounts had that were ended.
fn serve(all: &mut [Accounts]) -> Result<(u64, u64), Refusal> {
    let told: Vec<_> = thread::scope(|scope| {
        let threads: Vec<_> =
            (0..).zip(all).map(|(it, mine)| scope.spawn(move || mine.work(88_172_645_463_325_252 + it))).collect();
        threads.into_iter().map(|thread| thread.join().expect("a thread that ends")).collect::<Result<_, _>>()
    })?;
    Ok((told.iter().map(|(paid, _)| paid).sum(), told.iter().map(|(_, ended)| ended).sum()))
}

fn main() -> Result<(), Box<dyn Error>> {
    let is_careless = std::env::args().nth(1).is_some_and(|word| word == "careless");
    let records = Records::open(LARGER.slots)?;
    let mut handles = Map::handles(WIDE)?;
    let (mut paid, mut ended) = (0, 0);
    for shape in [WIDE, NARROW, LARGER] {
        records.renew_all(&mut handles, shape)?; // the records go along
        let is_narrow = shape == NARROW;
        let mut all: Vec<_> =
            handles.drain(..).map(|map| Accounts { map, records: &records, is_careless, is_narrow }).collect();
        let (more, less) = serve(&mut all)?;
        paid += more;
        ended += less;
        handles.extend(all.into_iter().map(|it| it.map));
        let mut left = 0;
        for entry in &handles[0] {
            let (owner, value) = entry?;
            let account = records.read(&handles[1], owner)?.expect("the record that its key has");
            assert_eq!(account.paid, value);
            left += value;
        }
        assert!(paid == left + ended && ended > 0, "a payment is lost, or made twice");
    }
    println!("records of slots in Rust: passed, {paid} paid, of which {ended} had left");
    Ok(())
}

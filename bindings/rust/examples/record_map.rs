//! Accounts by name: strings as keys, and values of 72 bytes, in a map of records that threads share.
//!
//!     cargo run --release --example record_map [careless]
//!
//! Four threads pay into accounts, end some of them, and look them up, while another one goes over all of them, and a clock renews the
//! map. The program counts what was paid: it is what the accounts have at the end, and had when they were ended. A careless
//! payer reads an account and puts it back with what it adds, and so loses what others paid in between.
use std::error::Error;
use std::sync::atomic::{AtomicBool, Ordering};
use std::thread;
use std::time::Duration;
use vbr::{record, Change, OutOfSteps, RecordMap, RecordRefusal, Shape, SmallStr};

type Name = SmallStr<24>;

record! {
    /// What an account has, and where it was paid last.
    #[derive(Clone, Copy, Debug, PartialEq)]
    struct Account {
        paid: u64,
        payments: u32,
        city: SmallStr<40>,
    }
}

const THREADS: u64 = 4;
const TURNS: u64 = 25_000;
const OWNERS: [&str; 6] = ["Ada", "Bahiga", "Chidi", "Dorothea", "Émilie", "Faizah"];
const CITIES: [&str; 3] = ["Accra", "Bergen", "Ciudad de México"];

/// With one payment more.
fn paid(before: Option<Account>, amount: u64, city: SmallStr<40>) -> Account {
    let Account { paid, payments, .. } = before.unwrap_or(Account { paid: 0, payments: 0, city });
    Account { paid: paid + amount, payments: payments + 1, city }
}

/// The accounts, for one of the threads.
struct Teller<'m> {
    accounts: &'m RecordMap<Name, Account>,
    is_careless: bool,
    random: u64,
}

impl Teller<'_> {
    /// Pays into an account, which begins with the first payment.
    fn pay(&self, owner: Name, amount: u64, city: SmallStr<40>) -> Result<(), RecordRefusal> {
        if self.is_careless {
            let before = self.accounts.get(owner)?;
            thread::yield_now();
            self.accounts.put(owner, paid(before, amount, city))?;
        } else {
            self.accounts.compute(owner, |before| Change::Put(paid(before, amount, city)))?;
        }
        Ok(())
    }

    /// Ends an account that has had so many payments, and tells what it had.
    fn end(&self, owner: Name, payments: u32) -> Result<u64, OutOfSteps> {
        match self.accounts.get_entry(owner)? {
            Some(entry) if entry.value().payments >= payments && self.accounts.remove_entry(&entry)? => {
                Ok(entry.value().paid)
            }
            _ => Ok(0), // it has fewer, or was paid into since
        }
    }

    /// What was paid, and what accounts had that were ended.
    fn work(mut self) -> Result<(u64, u64), Box<dyn Error + Send + Sync>> {
        let (mut paid, mut ended) = (0, 0);
        for _ in 0..if self.is_careless { TURNS / 25 } else { TURNS } {
            self.random ^= self.random << 13;
            self.random ^= self.random >> 7;
            self.random ^= self.random << 17;
            let (place, amount) = ((self.random >> 32) as usize, self.random >> 20 & 15);
            let owner = Name::new(OWNERS[place % OWNERS.len()])?;
            match self.random >> 16 & 7 {
                0 => ended += self.end(owner, 100)?,
                1 | 2 => drop(self.accounts.get(owner)?),
                _ => {
                    self.pay(owner, amount, SmallStr::new(CITIES[place % CITIES.len()])?)?;
                    paid += amount;
                }
            }
        }
        Ok((paid, ended))
    }
}

/// Goes over all accounts until the others are done, and renews the map now and then.
fn look_on(
    accounts: &RecordMap<Name, Account>,
    shape: Shape,
    is_over: &AtomicBool,
) -> Result<u64, Box<dyn Error + Send + Sync>> {
    let mut seen = 0;
    loop {
        let are_done = is_over.load(Ordering::Acquire); // what they paid is there
        for entry in &accounts.lend_wait() {
            let (owner, account) = entry?;
            assert!(OWNERS.contains(&owner.as_str()) && CITIES.contains(&account.city.as_str()));
            seen += 1;
        }
        if are_done {
            return Ok(seen);
        }
        thread::sleep(Duration::from_millis(1));
        accounts.renew(shape)?; // at epoch 1 again
    }
}

/// What was paid, and what is left or was paid out.
fn serve(is_careless: bool) -> Result<(u64, u64), Box<dyn Error + Send + Sync>> {
    let shape = Shape::for_keys(1_024, 4);
    let accounts = RecordMap::open(shape)?;
    let is_over = AtomicBool::new(false);
    let (mut paid, mut out) = (0, 0);
    thread::scope(|scope| {
        let tellers: Vec<_> = (0..THREADS)
            .map(|it| Teller { accounts: &accounts, is_careless, random: 88_172_645_463_325_252 + it })
            .map(|teller| scope.spawn(move || teller.work()))
            .collect();
        let observer = scope.spawn(|| look_on(&accounts, shape, &is_over));
        let told: Vec<_> = tellers.into_iter().map(thread::ScopedJoinHandle::join).collect();
        is_over.store(true, Ordering::Release);
        for each in told {
            let (more, less) = each.expect("a thread that ends")?;
            paid += more;
            out += less;
        }
        assert!(observer.join().expect("a thread that ends")? > 0);
        Ok::<(), Box<dyn Error + Send + Sync>>(())
    })?;
    for entry in &accounts.lend_wait() {
        out += entry?.1.paid;
    }
    Ok((paid, out))
}

fn main() -> Result<(), Box<dyn Error + Send + Sync>> {
    let is_careless = std::env::args().nth(1).is_some_and(|word| word == "careless");
    let (paid, out) = serve(is_careless)?;
    assert_eq!(paid, out, "a payment is lost, or made twice");
    println!("a map of records in Rust: passed, {paid} paid by names");
    Ok(())
}

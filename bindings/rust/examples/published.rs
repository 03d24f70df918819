//! Records beside a set and beside a map, in plain memory, which nothing orders but the calls.
//!
//!     cargo run --release --example published [careless]
//!
//! What a thread wrote before it inserted a key can be read by who finds the key. What it did before it removed one is done for who
//! then inserts it, or finds it absent. And who finds a value can read what was written before the value was put there. The gate
//! runs this program under `ThreadSanitizer` too, with the feature `tsan`, where there is one: it is silent then, and tells a race
//! of a careless reader, who looks nothing up.
use std::cell::UnsafeCell;
use std::error::Error;
use std::thread;
use vbr::{Handle, Map, MapHandle, Refusal, Set, Shape};

const RECORDS: usize = 1_000;
const TURNS: u64 = 10_000;

/// Plain memory, for who finds its key.
struct Record(UnsafeCell<[u64; 4]>);

// SAFETY: who reaches one has found its key, or hasn't inserted it yet.
unsafe impl Sync for Record {}

impl Record {
    fn some(count: usize) -> Vec<Record> {
        (0..count).map(|_| Record(UnsafeCell::new([0; 4]))).collect()
    }

    fn write(&self, number: u64) {
        // SAFETY: as of `Sync`.
        unsafe { *self.0.get() = [number; 4] }
    }

    fn read(&self) -> u64 {
        // SAFETY: as of `Sync`.
        let numbers = unsafe { *self.0.get() };
        assert_eq!(numbers, [numbers[0]; 4], "half a record");
        numbers[0]
    }
}

/// Writes records, and inserts the key of each.
fn publish(set: &mut Handle<usize>, records: &[Record]) -> Result<(), Refusal> {
    for (key, record) in records.iter().enumerate() {
        record.write(key as u64 + 1);
        assert!(set.insert(key)?);
    }
    Ok(())
}

/// Reads records, each as soon as its key is found; or, carelessly, whatever is there.
fn read_each(set: &Handle<usize>, records: &[Record], is_careless: bool) -> Result<(), Refusal> {
    for (key, record) in records.iter().enumerate() {
        while !is_careless && !set.contains(key)? {
            thread::yield_now();
        }
        let number = record.read();
        assert!(number == key as u64 + 1 || is_careless);
    }
    Ok(())
}

/// Takes a record by a remove, changes it, and gives it back by an insert.
fn take_in_turn(set: &mut Handle<usize>, record: &Record, count: u64) -> Result<(), Refusal> {
    let mut turns = 0;
    while turns < count {
        if set.remove(RECORDS)? {
            record.write(record.read() + 1);
            assert!(set.insert(RECORDS)?);
            turns += 1;
        }
    }
    Ok(())
}

/// Writes records, and has the value of a key name each in turn.
fn change(map: &mut MapHandle<u32, usize>, records: &[Record]) -> Result<(), Refusal> {
    for (number, record) in records.iter().enumerate().skip(1) {
        record.write(number as u64);
        let before = match number % 3 {
            0 => map.replace(5, number)?,
            1 => map.fetch_update(5, |_| Some(number))?,
            _ => map.entry(5).and_modify(|value| *value = number).or_default()?.checked_sub(1),
        };
        assert_eq!(before, Some(number - 1));
    }
    Ok(())
}

/// Reads the record that the value names, until it is the last one.
fn read_named(map: &MapHandle<u32, usize>, records: &[Record]) -> Result<(), Refusal> {
    let mut number = 0;
    while number < records.len() - 1 {
        number = map.get(5)?.expect("it is always there");
        assert_eq!(records[number].read(), number as u64);
    }
    Ok(())
}

fn main() -> Result<(), Box<dyn Error>> {
    let is_careless = std::env::args().nth(1).is_some_and(|word| word == "careless");
    let turns = if is_careless { 0 } else { TURNS }; // the sanitizer forgets what was long ago
    let (records, named) = (&Record::some(RECORDS + 1), &Record::some(RECORDS));
    let (taken, published) = records.split_last().ok_or("no records")?;
    let [mut first, mut second, third] =
        Set::handles_with(Shape::for_keys(2_000, 3), &[RECORDS])?.try_into().expect("three handles");
    let [mut writer, reader] = Map::handles_with(Shape::for_keys(8, 2), &[(5, 0)])?.try_into().expect("two handles");
    thread::scope(|scope| {
        let threads = [
            scope.spawn(move || publish(&mut first, published).and_then(|()| take_in_turn(&mut first, taken, turns))),
            scope.spawn(move || {
                read_each(&second, published, is_careless).and_then(|()| take_in_turn(&mut second, taken, turns))
            }),
            scope.spawn(move || read_each(&third, published, false)),
            scope.spawn(move || change(&mut writer, named)),
            scope.spawn(move || read_named(&reader, named)),
        ];
        threads.into_iter().try_for_each(|it| it.join().expect("a thread that ends"))
    })?;
    assert_eq!(taken.read(), 2 * turns);
    println!("published records in Rust: passed, each was read as it was written");
    Ok(())
}

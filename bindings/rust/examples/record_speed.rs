//! How long calls of maps of records take, beside a look-up in a map to numbers, in one thread:
//!
//!     cargo run --release --example record_speed [RUNS]
//!
//! It prints medians over the runs, eleven of them. In a run each kind of call is made 200,000 times, over 4,096 keys.
use std::env::args;
use std::error::Error;
use std::hint::black_box;
use std::time::Instant;
use vbr::{Map, Record, RecordKey, RecordMap, Shape, SmallStr};

const ENTRIES: u32 = 4_096;
const CALLS: u32 = 200_000;
const SHAPE: Shape = Shape::for_keys(ENTRIES, 1);

/// How many nanoseconds a call takes, of calls with each of these keys.
fn time<K: Copy, R>(keys: &[K], mut call: impl FnMut(K) -> R) -> f64 {
    let start = Instant::now();
    for &key in keys.iter().cycle().take(CALLS as usize) {
        black_box(call(key));
    }
    start.elapsed().as_secs_f64() * 1e9 / f64::from(CALLS)
}

/// What gets and puts take in a map of records with these keys, in each run, by turns with those of others.
struct Measured<'k, K: RecordKey, V: Record> {
    map: RecordMap<K, V>,
    keys: &'k [K],
    value: V,
}

trait Measure {
    /// The times of a `has`, a get and a put.
    fn times(&self) -> [f64; 3];
}

impl<K: RecordKey, V: Record> Measure for Measured<'_, K, V> {
    fn times(&self) -> [f64; 3] {
        let mut mine = self.map.lend_wait();
        let put = time(self.keys, |key| mine.put(key, self.value).is_ok()); // the first run inserts
        [time(self.keys, |key| mine.has(key)), time(self.keys, |key| mine.get(key)), put]
    }
}

fn median(times: &mut [f64]) -> f64 {
    times.sort_by(f64::total_cmp);
    times[times.len() / 2]
}

fn main() -> Result<(), Box<dyn Error>> {
    let runs = args().nth(1).map_or(Ok(11), |word| word.parse::<usize>())?.max(1);
    let numbers: Vec<u64> = (0..u64::from(ENTRIES)).map(|it| it.wrapping_mul(0x9e37_79b9_7f4a_7c15)).collect();
    let names: Vec<SmallStr<24>> = numbers.iter().map(|it| SmallStr::new(&format!("{it:020}"))).collect::<Result<_, _>>()?;
    let pairs: Vec<(u64, u64)> = numbers.iter().map(|&it| (it, !it)).collect();
    let all: [(&str, &dyn Measure); 4] = [
        ("of 8 bytes to 32", &Measured { map: RecordMap::open(SHAPE)?, keys: &numbers, value: [1_u64; 4] }),
        ("of 8 bytes to 256", &Measured { map: RecordMap::open(SHAPE)?, keys: &numbers, value: [1_u64; 32] }),
        ("of 16 bytes, hashed, to 32", &Measured { map: RecordMap::open(SHAPE)?, keys: &pairs, value: [1_u64; 4] }),
        ("of strings up to 24 bytes to 32", &Measured { map: RecordMap::open(SHAPE)?, keys: &names, value: [1_u64; 4] }),
    ];
    let map = Map::open(SHAPE)?;
    let mut plain = map.lend_wait();
    let (mut gets, mut puts, mut ratios) = (vec![], vec![], vec![[(); 3].map(|()| vec![]); all.len()]);
    for _ in 0..runs {
        puts.push(time(&numbers, |key| plain.put(key, key)));
        let get = time(&numbers, |key| plain.get(key));
        gets.push(get);
        for (ratios, (_, each)) in ratios.iter_mut().zip(&all) {
            ratios.iter_mut().zip(each.times()).for_each(|(it, time)| it.push(time / get));
        }
    }
    println!("a map to numbers: a get takes {:.1} ns, and a put {:.1} ns", median(&mut gets), median(&mut puts));
    for ((what, _), ratios) in all.iter().zip(&mut ratios) {
        let [has, get, put] = [0, 1, 2].map(|it| median(&mut ratios[it]));
        println!("a map of records {what}: has {has:.1} of such gets, get {get:.1}, put {put:.1}");
    }
    Ok(())
}

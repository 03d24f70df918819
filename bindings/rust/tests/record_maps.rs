//! Maps of records: each call worked by hand, for keys of 64 bits, structs and strings; two keys with one hash; entries of another
//! map, or from before a renewal; refusals; and values that check themselves, under four threads and renewals.
#![allow(clippy::cast_possible_truncation, reason = "the numbers are small")]
use std::fmt::Debug;
use std::hash::{BuildHasherDefault, Hasher};
use std::panic::{catch_unwind, AssertUnwindSafe};
use std::sync::atomic::{AtomicBool, AtomicU64, Ordering::Relaxed};
use std::sync::Arc;
use std::thread;
use vbr::{
    impl_record_key, record, Change, Cursor, Growth, Record, RecordKey, RecordLent, RecordMap, RecordRefusal, Refusal,
    RenewError, Shape, ShapeError, SmallStr, Steps, TooLong, WalkError,
};

record! {
    /// 100 bytes.
    #[derive(Clone, Copy, Debug, PartialEq)]
    struct Value {
        key: u64,
        serial: u64,
        filler: [u64; 9],
        tag: [u8; 4],
        seal: u64,
    }
}

record! {
    #[derive(Clone, Copy, Debug, PartialEq, Eq, Hash, PartialOrd, Ord)]
    struct Flow {
        from: [u8; 16],
        port: u16,
        is_open: bool,
    }
}
impl_record_key!(Flow);

type Text = SmallStr<20>;

impl Value {
    fn of(key: u64, serial: u64) -> Value {
        let mut made = Value { key, serial, filler: [0; 9], tag: [serial as u8; 4], seal: key };
        for (place, it) in (1..).zip(&mut made.filler) {
            *it = (serial ^ key << 32).wrapping_mul(0x9e37_79b9_7f4a_7c15).rotate_left(place);
            made.seal = made.seal.wrapping_mul(31).wrapping_add(*it);
        }
        made
    }

    /// Of this key, and no part of another value.
    fn checked(self, key: u64) -> Value {
        assert_eq!(self, Value::of(self.key, self.serial), "a copy of two values");
        assert_eq!(self.key, key, "a value of another key");
        self
    }
}

fn flow(key: u64) -> Flow {
    Flow { from: [key as u8; 16], port: key as u16, is_open: key % 2 == 0 }
}

fn text(key: u64) -> Text {
    SmallStr::new(&format!("the key {key}")).expect("it is short")
}

/// Hashes of the first byte alone: keys that share it have one.
#[derive(Default)]
struct FirstByte(Option<u8>);

impl Hasher for FirstByte {
    fn write(&mut self, bytes: &[u8]) {
        // a length comes ahead of the bytes of a string
        if bytes.len() != size_of::<usize>() {
            self.0 = self.0.or(bytes.first().copied());
        }
    }

    fn finish(&self) -> u64 {
        self.0.map_or(0, u64::from)
    }
}

type Colliding = BuildHasherDefault<FirstByte>;

#[test]
fn each_call_with_keys_of_64_bits() {
    each_call(|key| key);
    each_call(|key| i32::try_from(key).map(|it| 6 - it).expect("it is small"));
}

#[test]
fn each_call_with_structs_and_strings() {
    each_call(flow);
    each_call(text);
    each_call(|key| [key as u8; 32]);
    each_call(|key| (key, !key));
}

fn each_call<K: RecordKey + Debug + PartialEq>(key: impl Fn(u64) -> K) {
    let map = RecordMap::open(Shape::for_keys(8, 1)).expect("a map");
    let (five, six, seven) = (key(5), key(6), key(7));
    let [first, second, third] = [1, 2, 3].map(|serial| Value::of(5, serial));
    let mut mine = map.lend_wait();
    // absent
    assert_eq!((mine.has(five), mine.get(five), mine.remove(five)), (Ok(false), Ok(None), Ok(None)));
    assert_eq!(mine.replace(five, first), Ok(None));
    assert!(mine.get_entry(five).expect("steps").is_none());
    assert_eq!(mine.compute(five, |before| before.map_or(Change::Keep, |_| unreachable!())), Ok(None));
    assert_eq!(mine.compute(five, |_| Change::Remove), Ok(None));
    assert_eq!(mine.iter().count(), 0);
    // inserted
    assert_eq!(mine.try_insert(five, first), Ok(true));
    assert_eq!(mine.try_insert(five, second), Ok(false));
    assert_eq!((mine.has(five), mine.get(five), mine.get(six)), (Ok(true), Ok(Some(first)), Ok(None)));
    assert_eq!(mine.put(five, second), Ok(Some(first)));
    assert_eq!(mine.replace(five, third), Ok(Some(second)));
    assert_eq!(mine.put(six, Value::of(6, 1)), Ok(None));
    // computed
    assert_eq!(mine.compute(five, |_| Change::Keep), Ok(Some(third)));
    let next = |before: Option<Value>| Change::Put(Value::of(7, before.map_or(1, |it| it.serial + 1)));
    assert_eq!(mine.compute(seven, next), Ok(None));
    assert_eq!(mine.compute(seven, next), Ok(Some(Value::of(7, 1))));
    assert_eq!(mine.get(seven), Ok(Some(Value::of(7, 2))));
    // walked over
    let all = mine.iter().collect::<Result<Vec<_>, _>>().expect("steps");
    assert_eq!(all.len(), 3);
    for each in [(five, third), (six, Value::of(6, 1)), (seven, Value::of(7, 2))] {
        assert!(all.contains(&each));
    }
    // as read
    let entry = mine.get_entry(five).expect("steps").expect("it is there");
    assert_eq!((*entry.key(), *entry.value()), (five, third));
    assert_eq!(mine.replace_entry(&entry, first), Ok(true));
    assert_eq!(mine.replace_entry(&entry, second), Ok(false));
    assert_eq!((mine.remove_entry(&entry), mine.get(five)), (Ok(false), Ok(Some(first))));
    let entry = mine.get_entry(five).expect("steps").expect("it is there");
    assert_eq!((mine.remove(five), mine.try_insert(five, first)), (Ok(Some(first)), Ok(true)));
    assert_eq!((mine.replace_entry(&entry, second), mine.remove_entry(&entry)), (Ok(false), Ok(false))); // it was added anew
    let mut cursor = Cursor::first();
    let mut next = || mine.next_entry(&mut cursor).expect("steps").expect("five is to come");
    let entry = std::iter::repeat_with(&mut next).find(|it| *it.key() == five).expect("it is there");
    assert_eq!((*entry.value(), mine.remove_entry(&entry), mine.has(five)), (first, Ok(true), Ok(false)));
    // taken out
    assert_eq!(mine.compute(seven, |_| Change::Remove), Ok(Some(Value::of(7, 2))));
    assert_eq!(mine.iter().collect::<Vec<_>>(), [Ok((six, Value::of(6, 1)))]);
    drop(mine);
    assert_eq!((map.key_count(), map.get(six), map.remove(six)), (1, Ok(Some(Value::of(6, 1))), Ok(Some(Value::of(6, 1)))));
    assert_eq!(map.key_count(), 0);
}

#[test]
fn values_without_bytes_and_of_one_number() {
    let names: RecordMap<Text, ()> = RecordMap::open(Shape::for_keys(8, 1)).expect("a set of strings");
    assert_eq!((names.try_insert(text(5), ()), names.try_insert(text(5), ())), (Ok(true), Ok(false)));
    assert_eq!((names.has(text(5)), names.has(text(6)), names.remove(text(5))), (Ok(true), Ok(false), Ok(Some(()))));
    let set: RecordMap<u64, ()> = RecordMap::open(Shape::for_keys(8, 1)).expect("a set of numbers");
    assert_eq!((set.put(5, ()), set.put(5, ()), set.get(5)), (Ok(None), Ok(Some(())), Ok(Some(()))));
    set.renew(Shape::for_keys(8, 1)).expect("memory");
    assert_eq!((set.get(5), set.get(6)), (Ok(Some(())), Ok(None)));
}

#[test]
fn two_keys_with_one_hash() {
    let shape = Shape::for_keys(8, 1);
    let map: RecordMap<Text, Value, Colliding> =
        RecordMap::open_with_hasher(shape, shape.slots, Colliding::default()).expect("a map");
    let [port, page, gate] = ["port", "page", "gate"].map(|it| Text::new(it).expect("it is short"));
    let [ours, theirs] = [Value::of(5, 1), Value::of(6, 2)];
    let mut mine = map.lend_wait();
    assert_eq!(mine.try_insert(port, ours), Ok(true));
    for _ in 0..2 {
        // "page" has the hash of "port"
        assert_eq!(mine.try_insert(page, theirs), Err(RecordRefusal::HashTaken));
        assert_eq!(mine.put(page, theirs), Err(RecordRefusal::HashTaken));
        assert_eq!(mine.compute(page, |_| Change::Put(theirs)), Err(RecordRefusal::HashTaken));
        assert_eq!(mine.compute(page, |it| it.map_or(Change::Keep, |_| unreachable!())), Ok(None));
        assert_eq!(mine.compute(page, |_| Change::Remove), Ok(None));
        assert_eq!((mine.has(page), mine.get(page), mine.remove(page)), (Ok(false), Ok(None), Ok(None)));
        assert_eq!(mine.replace(page, theirs), Ok(None));
        assert!(mine.get_entry(page).expect("steps").is_none());
        assert_eq!((mine.has(port), mine.get(port)), (Ok(true), Ok(Some(ours))));
        assert_eq!(mine.iter().collect::<Vec<_>>(), [Ok((port, ours))]);
    }
    assert_eq!(mine.put(gate, theirs), Ok(None)); // another first byte
    let entry = mine.get_entry(port).expect("steps").expect("it is there");
    assert_eq!((mine.remove(port), mine.put(page, theirs)), (Ok(Some(ours)), Ok(None)));
    assert_eq!((mine.replace_entry(&entry, ours), mine.remove_entry(&entry)), (Ok(false), Ok(false)));
    assert_eq!(mine.put(port, ours), Err(RecordRefusal::HashTaken));
    assert_eq!((mine.get(port), mine.get(page), mine.get(gate)), (Ok(None), Ok(Some(theirs)), Ok(Some(theirs))));
    drop(mine);
    map.renew(shape).expect("memory");
    assert_eq!((map.put(port, ours), map.get(page)), (Err(RecordRefusal::HashTaken), Ok(Some(theirs))));
    assert_eq!(RecordRefusal::HashTaken.to_string(), "another key with the same hash is there");
}

/// Of four threads, each with a key of its own and all with one hash, one at a time has its key in.
#[test]
fn threads_whose_keys_have_one_hash() {
    let shape = Shape::for_keys(1, 4);
    let map = RecordMap::<Text, Value, _>::open_with_hasher(shape, shape.slots, Colliding::default()).expect("a map");
    let shared = Arc::new((map, AtomicU64::new(0)));
    let threads = ["port", "page", "pier", "pole"].map(|name| {
        let shared = Arc::clone(&shared);
        thread::spawn(move || {
            let (map, inside) = &*shared;
            let (key, mut entered) = (Text::new(name).expect("it is short"), 0);
            let mut mine = map.lend_wait();
            for serial in 0..20_000 {
                let value = Value::of(u64::from(name.as_bytes()[1]), serial);
                match mine.try_insert(key, value) {
                    Ok(is_new) => {
                        assert!(is_new && inside.fetch_add(1, Relaxed) == 0, "two keys with one hash are in");
                        assert_eq!(mine.iter().collect::<Vec<_>>(), [Ok((key, value))]);
                        inside.fetch_sub(1, Relaxed);
                        assert_eq!(mine.remove(key), Ok(Some(value)));
                        entered += 1;
                    }
                    Err(why) => {
                        assert_eq!(why, RecordRefusal::HashTaken);
                        assert_eq!((mine.get(key), mine.has(key)), (Ok(None), Ok(false)));
                    }
                }
            }
            entered
        })
    });
    let entered: u64 = threads.into_iter().map(|it| it.join().expect("a thread that ends")).sum();
    assert!(entered > 0 && shared.0.key_count() == 0);
}

/// A renewal puts the first key into slot 0, with birth 1, of any map. So slot and birth alone don't tell these entries apart.
#[test]
fn entries_of_another_map_and_of_before_a_renewal() {
    let shape = Shape::for_keys(8, 2);
    let maps = [(); 2].map(|()| RecordMap::<u64, Value>::open(shape).expect("a map"));
    for map in &maps {
        assert_eq!(map.put(5, Value::of(5, 1)), Ok(None));
        map.renew(shape).expect("memory");
    }
    let [ours, other] = &maps;
    let entry = ours.get_entry(5).expect("steps").expect("it is there");
    assert_eq!((other.replace_entry(&entry, Value::of(5, 9)), other.remove_entry(&entry)), (Ok(false), Ok(false)));
    ours.renew(shape).expect("memory");
    assert_eq!((ours.replace_entry(&entry, Value::of(5, 9)), ours.remove_entry(&entry)), (Ok(false), Ok(false)));
    for map in &maps {
        assert_eq!(map.get(5), Ok(Some(Value::of(5, 1))));
    }
    let entry = ours.get_entry(5).expect("steps").expect("it is there");
    assert_eq!((ours.replace_entry(&entry, Value::of(5, 2)), ours.get(5)), (Ok(true), Ok(Some(Value::of(5, 2)))));
}

#[test]
fn without_a_slot() {
    let map: RecordMap<Text, Value> = RecordMap::open(Shape::new(2, 1, 100)).expect("a map");
    let no_slot = Refusal::NoSlot;
    assert_eq!((map.put(text(5), Value::of(5, 1)), map.put(text(6), Value::of(6, 1))), (Ok(None), Ok(None)));
    assert_eq!(map.try_insert(text(7), Value::of(7, 1)), Err(no_slot.into()));
    assert_eq!(map.put(text(7), Value::of(7, 1)), Err(no_slot.into()));
    assert_eq!(map.put(text(5), Value::of(5, 2)), Err(no_slot.into()));
    assert_eq!(map.replace(text(5), Value::of(5, 2)), Err(no_slot));
    assert_eq!(map.compute(text(5), |_| Change::Put(Value::of(5, 2))), Err(no_slot.into()));
    let entry = map.get_entry(text(5)).expect("steps").expect("it is there");
    assert_eq!(map.replace_entry(&entry, Value::of(5, 2)), Err(no_slot));
    // what wants no slot is answered
    assert_eq!((map.try_insert(text(5), Value::of(5, 2)), map.replace(text(7), Value::of(7, 1))), (Ok(false), Ok(None)));
    assert_eq!((map.get(text(5)), map.get(text(6))), (Ok(Some(Value::of(5, 1))), Ok(Some(Value::of(6, 1)))));
    assert_eq!(map.remove(text(6)), Ok(Some(Value::of(6, 1))));
    assert_eq!((map.put(text(5), Value::of(5, 2)), map.get(text(5))), (Ok(Some(Value::of(5, 1))), Ok(Some(Value::of(5, 2)))));
}

#[test]
fn after_the_last_epoch() {
    let shape = Shape::new(2, 1, 3);
    let map: RecordMap<u64, Value> = RecordMap::open(shape).expect("a map");
    let mut last = 0;
    let why = loop {
        match map.put(5, Value::of(5, last + 1)) {
            Ok(before) => assert_eq!(before.map_or(0, |it| it.serial), last),
            Err(why) => break why,
        }
        last += 1;
    };
    assert_eq!(why, RecordRefusal::Refused(Refusal::EpochSpent));
    assert_eq!((map.lend_wait().epoch(), map.last_epoch()), (3, 3));
    assert_eq!((map.replace(5, Value::of(5, 0)), map.get(5)), (Err(Refusal::EpochSpent), Ok(Some(Value::of(5, last)))));
    map.renew(shape).expect("memory");
    assert_eq!((map.get(5), map.put(5, Value::of(5, 7))), (Ok(Some(Value::of(5, last))), Ok(Some(Value::of(5, last)))));
    // by itself, again and again
    for serial in 8..1_000 {
        let told = map.call(Growth::NONE, |mine| mine.put(5, Value::of(5, serial)));
        assert_eq!(told, Ok(Some(Value::of(5, serial - 1))));
    }
    assert_eq!((map.slots(), map.remove(5)), (2, Ok(Some(Value::of(5, 999)))));
}

type Call = fn(&mut RecordLent<Text, Value>) -> Result<(), RecordRefusal>;

/// Each call is refused with few steps, and nothing is changed; with the steps that its parts are known to want it is answered.
#[test]
fn without_steps() {
    let map: RecordMap<Text, Value> = RecordMap::open(Shape::for_keys(8, 1)).expect("a map");
    let calls: [Call; 8] = [
        |mine| mine.has(text(5)).map(drop).map_err(Into::into),
        |mine| mine.next(&mut Cursor::first()).map(drop).map_err(|why| Refusal::from(why).into()),
        |mine| mine.put(text(5), Value::of(5, 2)).map(drop),
        |mine| mine.replace(text(5), Value::of(5, 3)).map(drop).map_err(Into::into),
        |mine| mine.compute(text(5), |_| Change::Put(Value::of(5, 4))).map(drop),
        |mine| mine.try_insert(text(6), Value::of(6, 1)).map(drop),
        |mine| mine.remove(text(6)).map(drop).map_err(Into::into),
        |mine| mine.compute(text(5), |_| Change::Remove).map(drop),
    ];
    assert_eq!(map.put(text(5), Value::of(5, 1)), Ok(None));
    let (mut before, mut refused) = (Some(Value::of(5, 1)), 0);
    for call in calls {
        for steps in 1.. {
            let told = {
                let mut mine = map.lend_wait();
                mine.set_steps(Steps::new(steps));
                call(&mut mine)
            };
            if told.is_ok() {
                break;
            }
            assert_eq!(told, Err(RecordRefusal::Refused(Refusal::OutOfSteps)));
            assert!(steps < 18 * 2 + 82 + 2, "two nodes, a slot, and an exchange");
            assert_eq!(map.get(text(5)), Ok(before));
            refused += 1;
        }
        before = map.get(text(5)).expect("steps");
    }
    assert!(before.is_none() && refused > 8 * 10);
    // no slot is lost by that
    for key in 0..8 + 64 {
        assert_eq!(map.try_insert(text(key), Value::of(key, 3)), Ok(true));
    }
}

#[test]
fn renewals() {
    let small = Shape::for_keys(8, 2);
    let map: RecordMap<Text, Value> = RecordMap::open_up_to(small, 1_000).expect("a map");
    for key in 0..8 {
        assert_eq!(map.try_insert(text(key), Value::of(key, key)), Ok(true));
    }
    let mut cursor = Cursor::first();
    assert!(map.lend_wait().next(&mut cursor).expect("steps").is_some());
    assert_eq!(map.renew(small.with_slots(7)), Err(RenewError::Slots));
    assert_eq!(map.renew(small.with_slots(1_001)), Err(RenewError::Shape(ShapeError::Slots(1_001))));
    for shape in [small.with_slots(1_000), small.with_slots(8), small.with_buckets(64)] {
        map.renew(shape).expect("memory");
        assert_eq!((map.slots(), map.key_count()), (shape.slots, 8));
        assert!((0..8).all(|key| map.get(text(key)) == Ok(Some(Value::of(key, key)))));
    }
    assert_eq!(map.lend_wait().next(&mut cursor), Err(WalkError::Reshaped));
    // it grows by itself, as far as it may
    map.renew(small.with_slots(8)).expect("memory");
    let mut count = 8;
    while let Ok(is_new) = map.call(Growth::up_to(5_000), |mine| mine.try_insert(text(count), Value::of(count, 1))) {
        assert!(is_new);
        count += 1;
    }
    assert_eq!((map.slots(), map.most_slots(), map.key_count()), (1_000, 1_000, count));
    assert!(count > 1_000 - 2 * 64 && (8..count).all(|key| map.get(text(key)) == Ok(Some(Value::of(key, 1)))));
}

#[test]
fn a_closure_that_panics_leaves_the_map_as_it_was() {
    let map: RecordMap<u64, Value> = RecordMap::open(Shape::for_keys(8, 1)).expect("a map");
    assert_eq!(map.put(5, Value::of(5, 1)), Ok(None));
    assert!(catch_unwind(AssertUnwindSafe(|| map.compute(5, |_| panic!("by the program")))).is_err());
    assert_eq!((map.put(5, Value::of(5, 2)), map.key_count()), (Ok(Some(Value::of(5, 1))), 1));
    // the one handle is back
}

#[test]
fn strings_of_a_fixed_capacity() {
    let four = |it| SmallStr::<4>::new(it);
    assert_eq!((four("").map(|it| it.len()), four("abcd").map(|it| it.len())), (Ok(0), Ok(4)));
    assert_eq!(four("abcde"), Err(TooLong { bytes: 5, most: 4 }));
    assert_eq!(four("äöü"), Err(TooLong { bytes: 6, most: 4 }));
    let [short, long] = [four("ab"), four("ab\0")].map(|it| it.expect("it is short"));
    assert!(short != long && short < long && short == "ab" && long == "ab\0" && format!("{short}") == "ab");
    assert_eq!("äö".parse::<SmallStr<4>>().map(|it| it.as_str().to_owned()), Ok("äö".to_owned()));
    let mut words = Vec::new();
    SmallStr::<12>::new("hello, world").expect("it fits").store(&mut |word| words.push(word));
    assert_eq!(words, [12, u64::from_le_bytes(*b"hello, w"), u64::from_le_bytes(*b"orld\0\0\0\0")]);
    // any words make a string
    for (length, text) in [(2, "he"), (99, "hello, world"), (u64::MAX, "hello, world")] {
        let mut given = [length, words[1], words[2]].into_iter();
        assert_eq!(SmallStr::<12>::load(&mut || given.next().expect("three words")), text);
    }
    assert_eq!(SmallStr::<12>::load(&mut || u64::MAX).as_str(), "");
}

const THREADS: u64 = 4;
/// Keys that all threads change, and after them keys that one thread changes, the later half of which is always there.
const SHARED: u64 = 4;
const OWN: u64 = 8;
const ROUNDS: u64 = 50_000;
const WIDE: Shape = Shape::for_keys((SHARED + OWN) as u32, THREADS as usize);

/// One thread of four: what it has counted, and what it knows of the keys.
struct Worker<'m, K: RecordKey> {
    number: u64,
    key: fn(u64) -> K,
    map: &'m RecordMap<K, Value>,
    renewals: &'m AtomicU64,
    /// What each own key has, if it is this thread's.
    own: [Option<u64>; OWN as usize],
    /// The last number that was seen of each key that another one changes.
    seen: [u64; OWN as usize],
    serial: u64,
    added: u64,
    taken: u64,
}

impl<K: RecordKey + Debug + PartialEq> Worker<'_, K> {
    fn work(mut self) -> (u64, u64) {
        let mut random = 88_172_645_463_325_252 + self.number;
        // and until renewals have come between
        for _ in (0..20 * ROUNDS).take_while(|round| *round < ROUNDS || self.renewals.load(Relaxed) <= 2) {
            let mut mine = self.map.lend_wait();
            for _ in 0..4 {
                random ^= random << 13;
                random ^= random >> 7;
                random ^= random << 17;
                let (key, what) = ((random >> 32) % (SHARED + OWN), random >> 16 & 15);
                match key.checked_sub(SHARED) {
                    None => self.count(&mut mine, key, what),
                    Some(place) if key % THREADS == self.number => self.change(&mut mine, place as usize, what),
                    Some(_) if what == 15 => self.sweep(&mut mine),
                    Some(place) => self.look(&mine, place as usize, what),
                }
                mine.give_slots_back(); // in a narrow map the others want them
            }
        }
        (self.added, self.taken)
    }

    /// Adds one to what a key has that all threads change, or takes it out.
    fn count(&mut self, mine: &mut RecordLent<K, Value>, key: u64, what: u64) {
        let at = (self.key)(key);
        match what {
            0 => self.taken += mine.remove(at).expect("steps").map_or(0, |it| it.checked(key).serial),
            1 => self.taken += mine.compute(at, |_| Change::Remove).expect("steps").map_or(0, |it| it.checked(key).serial),
            2 => {
                if let Some(entry) = mine.get_entry(at).expect("steps") {
                    let count = entry.value().checked(key).serial;
                    self.taken += u64::from(mine.remove_entry(&entry).expect("steps")) * count;
                }
            }
            3 => {
                if let Some(entry) = mine.get_entry(at).expect("steps") {
                    let count = entry.value().checked(key).serial;
                    self.added += u64::from(answered(mine, |it| it.replace_entry(&entry, Value::of(key, count + 1))));
                }
            }
            4..8 => drop(mine.get(at).expect("steps").map(|it| it.checked(key))),
            _ => {
                let one_more = |before: Option<Value>| Value::of(key, before.map_or(0, |it| it.checked(key).serial) + 1);
                answered(mine, |it| it.compute(at, |before| Change::Put(one_more(before))));
                self.added += 1;
            }
        }
    }

    /// Changes a key that this thread alone changes, so each answer is known.
    fn change(&mut self, mine: &mut RecordLent<K, Value>, place: usize, what: u64) {
        let key = SHARED + place as u64;
        let (at, before) = ((self.key)(key), self.own[place]);
        self.serial += 1;
        let next = Value::of(key, self.serial);
        let told = match what {
            0..2 if !is_steady(place) => {
                self.own[place] = None;
                mine.remove(at).expect("steps")
            }
            0..5 => {
                self.own[place] = before.or(Some(self.serial));
                assert_eq!(answered(mine, |it| it.try_insert(at, next)), before.is_none());
                before.map(|serial| Value::of(key, serial))
            }
            5..8 => {
                self.own[place] = before.map(|_| self.serial);
                answered(mine, |it| it.replace(at, next))
            }
            8..11 => mine.get(at).expect("steps"),
            _ => {
                self.own[place] = Some(self.serial);
                answered(mine, |it| it.put(at, next))
            }
        };
        assert_eq!(told, before.map(|serial| Value::of(key, serial)));
        assert_eq!(mine.has(at), Ok(self.own[place].is_some()));
    }

    /// Takes out what some keys have that all threads change, if they still have what a walk gave.
    fn sweep(&mut self, mine: &mut RecordLent<K, Value>) {
        let mut cursor = Cursor::first();
        while let Some(entry) = mine.next_entry(&mut cursor).expect("steps") {
            let Value { key, serial, .. } = *entry.value();
            assert_eq!(*entry.key(), (self.key)(entry.value().checked(key).key), "another key");
            if key < SHARED && serial % 4 == 0 && mine.remove_entry(&entry).expect("steps") {
                self.taken += serial;
            }
        }
    }

    /// Looks at a key that another thread changes, alone or in a walk: its numbers rise.
    fn look(&mut self, mine: &RecordLent<K, Value>, place: usize, what: u64) {
        let key = SHARED + place as u64;
        if what < 12 {
            let value = mine.get((self.key)(key)).expect("steps");
            return self.note(key, value);
        }
        let mut times = [0; (SHARED + OWN) as usize];
        for entry in mine {
            let (at, value) = entry.expect("steps");
            assert_eq!(at, (self.key)(value.key), "another key");
            self.note(value.key, Some(value));
            times[value.key as usize] += 1;
        }
        assert!(times.iter().all(|&it| it <= 1), "a key came twice");
        for (place, &times) in times[SHARED as usize..].iter().enumerate() {
            let is_mine = (place as u64 + SHARED) % THREADS == self.number;
            if is_steady(place) || is_mine {
                assert_eq!(times > 0, is_steady(place) || self.own[place].is_some(), "it was there all the while, or wasn't");
            }
        }
    }

    fn note(&mut self, key: u64, value: Option<Value>) {
        let (Some(value), Some(place)) = (value, key.checked_sub(SHARED)) else { return };
        let (serial, seen) = (value.checked(key).serial, &mut self.seen[place as usize]);
        assert!(*seen <= serial, "a value that its key had no longer");
        *seen = serial;
    }
}

/// Whether an own key is always there.
fn is_steady(place: usize) -> bool {
    place >= OWN as usize / 2
}

/// What a call answers, once the others leave it a slot.
fn answered<K: RecordKey, R, E: Into<RecordRefusal>>(
    mine: &mut RecordLent<K, Value>,
    mut call: impl FnMut(&mut RecordLent<K, Value>) -> Result<R, E>,
) -> R {
    loop {
        match call(mine).map_err(Into::into) {
            Ok(told) => return told,
            Err(RecordRefusal::Refused(Refusal::NoSlot)) => thread::yield_now(),
            Err(why) => panic!("{why}"),
        }
    }
}

/// Four threads, while another one renews the map, wide, narrow and wide again.
fn four_threads<K: RecordKey + Debug + PartialEq>(key: fn(u64) -> K) {
    let narrow = WIDE.with_slots((SHARED + OWN + THREADS) as u32 + 1).with_buckets(2);
    let map = RecordMap::open(WIDE).expect("a map");
    for steady in SHARED + OWN / 2..SHARED + OWN {
        assert_eq!(map.put(key(steady), Value::of(steady, 0)), Ok(None));
    }
    let (is_over, renewals) = (AtomicBool::new(false), AtomicU64::new(0));
    let (mut added, mut taken) = (0, 0);
    thread::scope(|scope| {
        let (map, is_over, renewals) = (&map, &is_over, &renewals);
        let workers: Vec<_> = (0..THREADS)
            .map(|number| {
                let own = std::array::from_fn(|place| is_steady(place).then_some(0));
                let seen = [0; OWN as usize];
                let worker = Worker { number, key, map, renewals, own, seen, serial: 0, added: 0, taken: 0 };
                scope.spawn(move || worker.work())
            })
            .collect();
        scope.spawn(move || {
            for shape in [narrow, WIDE].into_iter().cycle().take_while(|_| !is_over.load(Relaxed)) {
                map.renew(shape).expect("memory");
                renewals.fetch_add(1, Relaxed);
                thread::sleep(std::time::Duration::from_millis(2));
            }
        });
        let told: Vec<_> = workers.into_iter().map(thread::ScopedJoinHandle::join).collect();
        is_over.store(true, Relaxed);
        for (more, less) in told.into_iter().map(|it| it.expect("a thread that ends")) {
            added += more;
            taken += less;
        }
    });
    let left: u64 = (0..SHARED).filter_map(|it| map.get(key(it)).expect("steps").map(|value| value.checked(it).serial)).sum();
    assert_eq!(added, taken + left, "an update is lost, or made twice");
    assert!(renewals.into_inner() > 2 && taken > 0);
}

#[test]
fn four_threads_with_keys_of_64_bits() {
    four_threads(|key| key);
}

#[test]
fn four_threads_with_strings() {
    four_threads(text);
}

//! Keys and values of each type that has `Bits`: their bits, which are worked by hand, come back, and keep the order of the type.
use std::collections::HashSet;
use std::fmt::Debug;
use std::net::{Ipv4Addr, SocketAddrV4};
use std::num::{NonZero, NonZeroI32, NonZeroU64, NonZeroU8};
use std::panic::{catch_unwind, AssertUnwindSafe};
use std::thread;
use vbr::{impl_bits, Bits, ByBits, Compared, Map, MapHandle, OpenError, Set, Shape};

/// Sees that these values, which ascend, have bits that ascend, and come back, from bits, a set and a map.
fn comes_back<T: Bits + Ord>(values: &[T]) {
    assert!(values.windows(2).all(|pair| pair[0] < pair[1] && pair[0].to_bits() < pair[1].to_bits()));
    assert!(values.iter().all(|&value| T::from_bits(value.to_bits()) == value));
    let shape = Shape::for_keys(64, 1);
    let mut set = Set::handles(shape).expect("a set").remove(0);
    for &value in values.iter().rev() {
        assert_eq!((set.insert(value), set.insert(value), set.has(value)), (Ok(true), Ok(false), Ok(true)));
    }
    let walked: HashSet<u64> = set.iter().map(|key| key.expect("steps").to_bits()).collect();
    assert_eq!(walked, values.iter().map(|value| value.to_bits()).collect());
    assert_eq!(set.close().expect("a report").expect("the only handle").keys, values);
    let entries: Vec<_> = values.iter().copied().zip(values.iter().copied().rev()).collect();
    let mut map = Map::handles_with(shape, &entries).expect("a map").remove(0);
    for &(key, value) in &entries {
        assert_eq!((map.get(key), map.replace(key, value)), (Ok(Some(value)), Ok(Some(value))));
        assert_eq!(map.compare_exchange(key, value, key), Ok(Compared::Equal));
        assert_eq!(map.compare_exchange(key, key, value), Ok(Compared::Equal));
    }
    let mut answers = vec![Ok(None); values.len()];
    map.get_all(values, &mut answers);
    assert!(answers.iter().zip(&entries).all(|(answer, entry)| *answer == Ok(Some(entry.1))));
    assert_eq!(map.close().expect("a report").expect("the only handle").entries, entries);
}

#[test]
fn each_type_comes_back_in_its_order() {
    comes_back(&[0, 1, u8::MAX]);
    comes_back(&[0, 1, u16::MAX]);
    comes_back(&[0, 1, u32::MAX]);
    comes_back(&[0, 1, u64::MAX]);
    comes_back(&[0, 1, usize::MAX]);
    comes_back(&[i8::MIN, -1, 0, 1, i8::MAX]);
    comes_back(&[i16::MIN, -1, 0, 1, i16::MAX]);
    comes_back(&[i32::MIN, -1, 0, 1, i32::MAX]);
    comes_back(&[i64::MIN, -1, 0, 1, i64::MAX]);
    comes_back(&[isize::MIN, -1, 0, 1, isize::MAX]);
    comes_back(&[false, true]);
    comes_back(&['\0', 'k', char::MAX]);
    comes_back(&[(0, 0), (0, u32::MAX), (1, 0), (u32::MAX, u32::MAX)]);
    comes_back(&[[0; 8], *b"abcdefgh", *b"abcdefgi", *b"b\0\0\0\0\0\0\0", [255; 8]]);
    comes_back(&[NonZeroU8::MIN, NonZeroU8::MAX]);
    comes_back(&[NonZeroU64::MIN, NonZeroU64::MAX]);
    comes_back(&[NonZeroI32::MIN, NonZeroI32::new(-1).expect("not 0"), NonZeroI32::MAX]);
    let (nan, tiny) = (f64::from_bits(0x7ff8_0000_0000_0001), f64::from_bits(1));
    let numbers = [-nan, f64::NEG_INFINITY, -1.5, -tiny, -0.0, 0.0, tiny, 1.5, f64::INFINITY, nan];
    comes_back(&numbers.map(ByBits));
    let (nan, tiny) = (f32::from_bits(0x7fc0_0001), f32::from_bits(1));
    let numbers = [-nan, f32::NEG_INFINITY, -1.5, -tiny, -0.0, 0.0, tiny, 1.5, f32::INFINITY, nan];
    comes_back(&numbers.map(ByBits));
    comes_back(&[None, NonZero::new(1_u8), NonZero::new(u8::MAX)]);
    comes_back(&[None, NonZero::new(1_u64), NonZero::new(u64::MAX)]);
    comes_back(&[i8::MIN, -1, 1, i8::MAX].map(NonZero::new));
    comes_back(&[0, i64::MIN, -1, 1, i64::MAX].map(NonZero::new));
    comes_back(&[[0_u8], [1], [255]]);
    comes_back(&[[0_u8, 0, 1], [0, 1, 0], [2, 0, 0], [255, 255, 255]]);
    comes_back(&[[1_u8, 2, 3, 4, 5, 6, 7], [1, 2, 3, 4, 5, 7, 6]]);
    comes_back(&[(0, 0, 0, u16::MAX), (0, 0, 1, 0), (0, 2, 0, 0), (u16::MAX, 0, 0, 0)]);
    comes_back(&[Ipv4Addr::UNSPECIFIED, Ipv4Addr::LOCALHOST, Ipv4Addr::BROADCAST]);
    let at = |last, port| SocketAddrV4::new(Ipv4Addr::new(10, 0, 0, last), port);
    comes_back(&[at(0, u16::MAX), at(1, 0), at(1, 80), at(2, 1)]);
    comes_back(&[Degrees(-40), Degrees(0), Degrees(40)]);
    comes_back(&[Seat((0, 9)), Seat((1, 0))]);
}

/// Structs around a field that has bits, as the macro gives them.
#[derive(Clone, Copy, Debug, PartialEq, Eq, PartialOrd, Ord)]
struct Degrees(i16);

#[derive(Clone, Copy, Debug, PartialEq, Eq, PartialOrd, Ord)]
struct Seat((u32, u32));

impl_bits!(Degrees(i16), Seat((u32, u32)),);

/// What is made of its bits gives others: they lose their last digit.
#[derive(Clone, Copy, Debug, PartialEq, Eq)]
struct Tens(u64);

impl Bits for Tens {
    fn to_bits(self) -> u64 {
        self.0
    }

    fn from_bits(bits: u64) -> Tens {
        Tens(bits / 10 * 10)
    }
}

/// A call that asks for the next value as often as it finds another one than it expects ends here too.
#[test]
fn calls_end_where_bits_do_not_come_back() {
    let mut map = Map::handles_with(Shape::for_keys(8, 1), &[(5, Tens(15))]).expect("a map").remove(0);
    let mut asked = 0;
    let mut add = |value: Tens| {
        asked += 1;
        assert!(asked < 9, "it is asked without end");
        Tens(value.0 + 15)
    };
    assert_eq!(map.fetch_update(5, |value| Some(add(value))), Ok(Some(Tens(10))));
    assert_eq!(map.get(5), Ok(Some(Tens(20)))); // of 25
    assert_eq!(map.entry(5).and_modify(|value| *value = add(*value)).or_insert(Tens(0)), Ok(Tens(35)));
    assert_eq!(map.retain(|_, value| add(value) == Tens(0)), Ok(1));
    assert_eq!(map.has(5), Ok(false));
}

#[test]
fn bits_that_are_worked_by_hand() {
    assert_eq!((200_u8.to_bits(), u64::MAX.to_bits(), true.to_bits(), 'k'.to_bits()), (200, u64::MAX, 1, 0x6b));
    assert_eq!(((-1_i8).to_bits(), 0_i8.to_bits(), i64::MIN.to_bits(), 1_i64.to_bits()), (0x7f, 0x80, 0, (1 << 63) + 1));
    assert_eq!(((7_u32, 9_u32).to_bits(), [0, 0, 0, 0, 0, 0, 1, 2].to_bits()), ((7 << 32) + 9, 0x102));
    assert_eq!((ByBits(0.0).to_bits(), ByBits(-0.0).to_bits()), (1 << 63, (1 << 63) - 1));
    assert_eq!((ByBits(0.0_f32).to_bits(), ByBits(-0.0_f32).to_bits()), (1 << 31, (1 << 31) - 1));
    assert_eq!((NonZero::new(0_u64).to_bits(), NonZero::new(7_u64).to_bits()), (0, 7));
    assert_eq!([0_i8, -128, -1, 1, 127].map(|it| NonZero::new(it).to_bits()), [0, 1, 0x80, 0x81, 0xff]);
    assert_eq!(([1_u8, 2].to_bits(), (1_u16, 2_u16, 3_u16, 4_u16).to_bits()), (0x102, 0x0001_0002_0003_0004));
    let local = SocketAddrV4::new(Ipv4Addr::LOCALHOST, 80);
    assert_eq!((local.ip().to_bits(), Bits::to_bits(local)), (0x7f00_0001, 0x7f00_0001_0050));
    assert_eq!((Degrees(-1).to_bits(), Seat((7, 9)).to_bits()), (0x7fff, (7 << 32) + 9));
}

#[test]
fn numbers_by_their_bits() {
    let nan = ByBits(f64::NAN);
    assert!(nan == nan && ByBits(0.0) != ByBits(-0.0) && ByBits(-0.0) < ByBits(0.0));
    assert_eq!(HashSet::from([nan, nan, ByBits(0.0), ByBits(-0.0)]).len(), 3);
    assert_eq!(f64::from(ByBits::from(1.5)).to_bits(), 1.5_f64.to_bits());
    assert_eq!(f32::from(ByBits::from(1.5_f32)).to_bits(), 1.5_f32.to_bits());
}

/// What a program makes of bits by itself, of fewer bits than 64, and in an order of its own.
#[derive(Clone, Copy, Debug, PartialEq, Eq)]
enum Colour {
    Red,
    Green,
    Blue,
}

impl Bits for Colour {
    fn to_bits(self) -> u64 {
        match self {
            Colour::Red => 30,
            Colour::Green => 20,
            Colour::Blue => 10,
        }
    }

    fn from_bits(bits: u64) -> Colour {
        match bits {
            30 => Colour::Red,
            20 => Colour::Green,
            10 => Colour::Blue,
            _ => unreachable!("bits of another type"),
        }
    }
}

#[test]
fn a_type_of_a_program() {
    let shape = Shape::for_keys(8, 2);
    let set = Set::open_with(shape, &[Colour::Blue, Colour::Green]).expect("a set");
    thread::scope(|scope| {
        scope.spawn(|| assert_eq!(set.lend_wait().insert(Colour::Red), Ok(true)));
    });
    assert_eq!(set.lend_wait().remove(Colour::Blue), Ok(true));
    assert_eq!(set.close().expect("a report").keys, [Colour::Green, Colour::Red]);
    assert!(matches!(Set::open_with(shape, &[Colour::Red, Colour::Blue]), Err(OpenError::Keys(_))));
    let mut map: Vec<MapHandle<Colour, char>> = Map::handles(shape).expect("a map");
    assert_eq!(map[0].put(Colour::Red, 'r'), Ok(None));
    assert_eq!(map[1].get_or_insert(Colour::Red, 's'), Ok(Some('r')));
    assert_eq!(map[1].remove_if(Colour::Red, 's'), Ok(Compared::Other('r')));
    assert_eq!(map[1].fetch_update(Colour::Red, |letter| letter.to_uppercase().next()), Ok(Some('r')));
    assert_eq!(MapHandle::report_all(&mut map).expect("a report").entries, [(Colour::Red, 'R')]);
    MapHandle::renew_all(&mut map, Shape::for_keys(100, 2)).expect("a fresh map");
    assert_eq!(map[0].get(Colour::Red), Ok(Some('R')));
}

/// Types whose layout is another than that of the bits, as entries of a report.
#[test]
fn reports_of_any_layout() {
    fn told<K: Bits, V: Bits + Debug>(entries: &[(K, V)]) {
        let map = Map::open_with(Shape::for_keys(100, 1), entries).expect("a map");
        let report = map.close().expect("a report");
        assert_eq!(report.entries, entries);
        assert_eq!(report.entries.capacity(), entries.len());
        assert!(
            report.iter().eq(entries) && (&report).into_iter().eq(entries) && report.clone().into_iter().eq(entries.to_vec())
        );
        assert_eq!(Vec::from(report), entries);
    }
    told(&[(1_u8, 'a'), (2, 'b'), (3, 'c')]);
    told(&[(1_u64, false), (2, true)]);
    told(&[((1, 1), [1_u8; 8]), ((1, 2), [2; 8])]);
    told::<u64, u64>(&[]);
    let keys = Set::open_with(Shape::for_keys(8, 1), &[false, true]).expect("a set").close().expect("a report");
    assert!(
        keys.iter().eq(&[false, true])
            && (&keys).into_iter().eq(&[false, true])
            && keys.clone().into_iter().eq([false, true])
    );
    assert_eq!(Vec::from(keys), [false, true]);
}

/// One whose bits are given back by a panic: it is not the crate's fault, and nothing is freed twice or kept.
#[derive(Clone, Copy, Debug, PartialEq, Eq)]
struct Broken;

impl Bits for Broken {
    fn to_bits(self) -> u64 {
        5
    }

    fn from_bits(_: u64) -> Broken {
        panic!("a type that is wrong")
    }
}

#[test]
fn a_type_that_panics() {
    fn panics<R>(call: impl FnOnce() -> R) {
        assert!(catch_unwind(AssertUnwindSafe(call)).is_err());
    }
    let shape = Shape::for_keys(8, 2);
    let set = Set::open(shape).expect("a set");
    assert_eq!(set.lend_wait().insert(Broken), Ok(true));
    panics(|| set.lend_wait().iter().count());
    assert_eq!(set.lend_wait().has(Broken), Ok(true));
    panics(|| set.close());
    let mut handles: Vec<MapHandle<u64, Broken>> = Map::handles_with(shape, &[(5, Broken)]).expect("a map");
    panics(|| MapHandle::report_all(&mut handles));
    panics(|| handles[1].get(5));
    assert_eq!((handles[0].has(5), handles[1].try_insert(6, Broken)), (Ok(true), Ok(true)));
    panics(|| handles.into_iter().map(MapHandle::close).count());
}

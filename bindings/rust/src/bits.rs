//! Types of at most 64 bits, for keys and values.
use core::cmp::Ordering;
use core::fmt::Debug;
use core::hash::{Hash, Hasher};
use core::net::{Ipv4Addr, SocketAddrV4};
use core::num::NonZero;

/// A type that is kept in 64 bits: the type of the keys of a set or a map, or of the values of a map.
///
/// The unsigned and signed integers up to 64 bits have it, `usize` and `isize`, those that are [`NonZero`], also in an `Option`,
/// `bool`, `char`, pairs of `u32`, four `u16`, arrays of one to eight bytes, [`Ipv4Addr`], [`SocketAddrV4`], `()`, and by
/// [`ByBits`] `f64` and `f32`. A struct around one of these has it by [`impl_bits!`](crate::impl_bits). For another type of
/// your own say how it is made from 64 bits, and they from it:
///
/// ```
/// use vbr::{Bits, Set, Shape};
///
/// #[derive(Clone, Copy, Debug, PartialEq, Eq)]
/// struct Place {
///     file: u32,
///     page: u32,
/// }
///
/// impl Bits for Place {
///     fn to_bits(self) -> u64 {
///         (self.file, self.page).to_bits()
///     }
///     fn from_bits(bits: u64) -> Place {
///         let (file, page) = Bits::from_bits(bits);
///         Place { file, page }
///     }
/// }
///
/// let set = Set::open(Shape::for_keys(8, 1))?;
/// let place = Place { file: 7, page: 0 };
/// assert!(set.insert(place)?);
/// assert_eq!(set.close()?.keys, [place]);
/// # Ok::<(), Box<dyn std::error::Error>>(())
/// ```
///
/// A set gives `from_bits` nothing but what `to_bits` of the same type gave: a `Set<Page>` takes in bits by calls that take a
/// `Page`, keeps them as they are, and gives them out by calls that give a `Page`. But it is a safe function, and anybody may
/// call it with any number. So `unsafe` code in it mustn't rely on more: it looks whether the number stands for a value, and
/// may panic if it doesn't.
///
/// The trait isn't unsafe to implement: if the two aren't each other's inverse, keys are taken for others or not found, and
/// nothing worse happens: calls that exchange a value for another expect the bits that they read, so they end as they do
/// otherwise.
///
/// Two values that are equal have the same bits, and two that differ have different ones. Sets compare and order keys by their
/// bits as a `u64`. With the types of this crate that is their own order, so the reports of a `Set<i64>` ascend from negative
/// numbers to positive ones. A value that one thread puts in comes out in another, so the type is one that threads may send.
///
/// What is longer than 64 bits has it not:
///
/// ```compile_fail,E0277
/// # use vbr::{Set, Shape};
/// let set: Set<String> = Set::open(Shape::for_keys(8, 1)).unwrap();
/// ```
#[diagnostic::on_unimplemented(
    message = "`{Self}` isn't kept in 64 bits",
    label = "a key or a value has to implement `Bits`",
    note = "a `RecordMap` has keys and values of any size; or keep a number for it, or a record beside the slot (`Records`)",
    note = "for a type of at most 64 bits implement `Bits`; for a struct around one that has it use `vbr::impl_bits!`"
)]
pub trait Bits: Copy + Eq + Debug + Send + Sync + 'static {
    /// The bits that stand for this value.
    fn to_bits(self) -> u64;

    /// The value that these bits stand for. Any number may be given; those of a set are such as `to_bits` gave.
    fn from_bits(bits: u64) -> Self;
}

/// Why bits stand for no value.
const FOREIGN: &str = "bits of another type";

macro_rules! unsigned {
    ($($type:ty)*) => {$(
        impl Bits for $type {
            #[inline]
            fn to_bits(self) -> u64 {
                self as u64
            }
            #[inline]
            fn from_bits(bits: u64) -> $type {
                bits as $type
            }
        }
    )*};
}

/// The sign is turned over, so that negative numbers come first.
macro_rules! signed {
    ($($type:ty, $unsigned:ty;)*) => {$(
        impl Bits for $type {
            #[inline]
            fn to_bits(self) -> u64 {
                (self ^ <$type>::MIN) as $unsigned as u64
            }
            #[inline]
            fn from_bits(bits: u64) -> $type {
                bits as $type ^ <$type>::MIN
            }
        }
    )*};
}

macro_rules! non_zero {
    ($($type:ty)*) => {$(
        impl Bits for NonZero<$type> {
            #[inline]
            fn to_bits(self) -> u64 {
                self.get().to_bits()
            }
            #[inline]
            fn from_bits(bits: u64) -> NonZero<$type> {
                NonZero::new(<$type>::from_bits(bits)).expect(FOREIGN)
            }
        }
    )*};
}

/// Casts between an integer and 64 bits, which lose nothing that `to_bits` gave.
#[allow(
    trivial_numeric_casts,
    clippy::cast_lossless,
    clippy::cast_possible_truncation,
    clippy::cast_possible_wrap,
    clippy::cast_sign_loss,
    reason = "the bits are those of the type"
)]
mod integers {
    use super::Bits;
    unsigned! { u8 u16 u32 u64 usize }
    signed! { i8, u8; i16, u16; i32, u32; i64, u64; isize, usize; }
}

non_zero! { u8 u16 u32 u64 usize i8 i16 i32 i64 isize }

/// `None` has the bits 0, and is below all values. Numbers below zero have one more than their own bits, so the greatest of them
/// has those of zero, which none has.
macro_rules! optional {
    ($($type:ty)*) => {$(
        impl Bits for Option<NonZero<$type>> {
            #[inline]
            fn to_bits(self) -> u64 {
                self.map_or(0, |number| {
                    let own = number.to_bits();
                    own + u64::from(own < <$type>::to_bits(0))
                })
            }
            #[inline]
            fn from_bits(bits: u64) -> Option<NonZero<$type>> {
                (bits > 0).then(|| NonZero::from_bits(bits - u64::from(bits <= <$type>::to_bits(0))))
            }
        }
    )*};
}

optional! { u8 u16 u32 u64 usize i8 i16 i32 i64 isize }

/// The value of a map that has none beside its records.
impl Bits for () {
    #[inline]
    fn to_bits(self) -> u64 {
        0
    }

    #[inline]
    fn from_bits(_: u64) {}
}

impl Bits for bool {
    #[inline]
    fn to_bits(self) -> u64 {
        u64::from(self)
    }

    #[inline]
    fn from_bits(bits: u64) -> bool {
        bits != 0
    }
}

impl Bits for char {
    #[inline]
    fn to_bits(self) -> u64 {
        u64::from(self)
    }

    #[inline]
    fn from_bits(bits: u64) -> char {
        char::from_u32(u32::from_bits(bits)).expect(FOREIGN)
    }
}

/// The first is the upper half, so pairs come in their own order.
impl Bits for (u32, u32) {
    #[inline]
    fn to_bits(self) -> u64 {
        u64::from(self.0) << 32 | u64::from(self.1)
    }

    #[inline]
    fn from_bits(bits: u64) -> (u32, u32) {
        (u32::from_bits(bits >> 32), u32::from_bits(bits))
    }
}

/// The first is the uppermost, so they come in their own order.
impl Bits for (u16, u16, u16, u16) {
    #[inline]
    fn to_bits(self) -> u64 {
        let (first, second, third, fourth) = self;
        [first, second, third, fourth].into_iter().fold(0, |bits, next| bits << 16 | u64::from(next))
    }

    #[inline]
    fn from_bits(bits: u64) -> (u16, u16, u16, u16) {
        (u16::from_bits(bits >> 48), u16::from_bits(bits >> 32), u16::from_bits(bits >> 16), u16::from_bits(bits))
    }
}

/// The first is the uppermost, so they come in their own order.
macro_rules! bytes {
    ($($count:literal)*) => {$(
        impl Bits for [u8; $count] {
            #[inline]
            fn to_bits(self) -> u64 {
                let mut all = [0; 8];
                all[8 - $count..].copy_from_slice(&self);
                u64::from_be_bytes(all)
            }
            #[inline]
            fn from_bits(bits: u64) -> [u8; $count] {
                let mut own = [0; $count];
                own.copy_from_slice(&bits.to_be_bytes()[8 - $count..]);
                own
            }
        }
    )*};
}

bytes! { 1 2 3 4 5 6 7 8 }

impl Bits for Ipv4Addr {
    #[inline]
    fn to_bits(self) -> u64 {
        u64::from(u32::from(self))
    }

    #[inline]
    fn from_bits(bits: u64) -> Ipv4Addr {
        Ipv4Addr::from(u32::from_bits(bits))
    }
}

/// The address is above the port.
impl Bits for SocketAddrV4 {
    #[inline]
    fn to_bits(self) -> u64 {
        Bits::to_bits(*self.ip()) << 16 | u64::from(self.port())
    }

    #[inline]
    fn from_bits(bits: u64) -> SocketAddrV4 {
        SocketAddrV4::new(Bits::from_bits(bits >> 16), u16::from_bits(bits))
    }
}

/// Gives structs around one field [`Bits`], those of the field. The field has them, so the order of the struct is that of the
/// field too. Write it where the field can be named.
///
/// ```
/// use vbr::{impl_bits, Map, Shape};
///
/// #[derive(Clone, Copy, Debug, PartialEq, Eq)]
/// struct UserId(u64);
/// #[derive(Clone, Copy, Debug, PartialEq, Eq)]
/// struct Seat((u32, u32));
/// impl_bits!(UserId(u64), Seat((u32, u32)));
///
/// let seats = Map::open(Shape::for_keys(8, 1))?;
/// assert_eq!(seats.put(UserId(5), Seat((3, 14)))?, None);
/// assert_eq!(seats.close()?.entries, [(UserId(5), Seat((3, 14)))]);
/// # Ok::<(), Box<dyn std::error::Error>>(())
/// ```
#[macro_export]
macro_rules! impl_bits {
    ($($name:ident($field:ty)),+ $(,)?) => {$(
        impl $crate::Bits for $name {
            #[inline]
            fn to_bits(self) -> u64 {
                <$field as $crate::Bits>::to_bits(self.0)
            }
            #[inline]
            fn from_bits(bits: u64) -> $name {
                $name(<$field as $crate::Bits>::from_bits(bits))
            }
        }
    )+};
}

/// A number that is compared by its bits, an `f64` or as `ByBits<f32>` an `f32`: zero and minus zero differ, and each NaN is equal
/// to itself. It is ordered by [`f64::total_cmp`].
///
/// ```
/// use vbr::{ByBits, Map, Shape};
///
/// let mut prices = Map::handles_with(Shape::for_keys(8, 1), &[(5_u32, ByBits(1.5))])?.remove(0);
/// assert_eq!(prices.replace(5, ByBits(2.5))?, Some(ByBits(1.5)));
/// assert_eq!(prices.get(5)?.map(|price| price.0), Some(2.5));
/// # Ok::<(), Box<dyn std::error::Error>>(())
/// ```
#[derive(Clone, Copy, Debug, Default)]
pub struct ByBits<F = f64>(pub F);

macro_rules! by_bits {
    ($($float:ty, $bits:ty;)*) => {$(
        impl Bits for ByBits<$float> {
            #[inline]
            fn to_bits(self) -> u64 {
                const SIGN: $bits = 1 << (<$bits>::BITS - 1);
                let bits = self.0.to_bits();
                u64::from(if bits & SIGN == 0 { bits | SIGN } else { !bits })
            }

            #[inline]
            fn from_bits(bits: u64) -> ByBits<$float> {
                const SIGN: $bits = 1 << (<$bits>::BITS - 1);
                let bits = <$bits>::from_bits(bits);
                ByBits(<$float>::from_bits(if bits & SIGN == 0 { !bits } else { bits & !SIGN }))
            }
        }

        impl From<$float> for ByBits<$float> {
            fn from(number: $float) -> ByBits<$float> {
                ByBits(number)
            }
        }

        impl From<ByBits<$float>> for $float {
            fn from(number: ByBits<$float>) -> $float {
                number.0
            }
        }

        impl PartialEq for ByBits<$float> {
            fn eq(&self, other: &ByBits<$float>) -> bool {
                self.0.to_bits() == other.0.to_bits()
            }
        }

        impl Eq for ByBits<$float> {}

        impl PartialOrd for ByBits<$float> {
            fn partial_cmp(&self, other: &ByBits<$float>) -> Option<Ordering> {
                Some(self.cmp(other))
            }
        }

        impl Ord for ByBits<$float> {
            fn cmp(&self, other: &ByBits<$float>) -> Ordering {
                self.0.total_cmp(&other.0)
            }
        }

        impl Hash for ByBits<$float> {
            fn hash<H: Hasher>(&self, state: &mut H) {
                self.0.to_bits().hash(state);
            }
        }
    )*};
}

by_bits! { f32, u32; f64, u64; }

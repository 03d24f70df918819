//! Keys of maps of records.
use crate::{Bits, Record, SmallBytes, SmallStr};
use core::hash::BuildHasher;

/// A type of keys of a [`RecordMap`](crate::RecordMap).
///
/// Each type of [`Bits`] is one, and is kept as the key itself, without a hash. So are [`SmallStr`] and [`SmallBytes`], arrays of 16, 20,
/// 32 and 64 bytes, and pairs of `u64`: these are hashed to 64 bits, and the whole key stands in the record. A struct of yours is made
/// one by [`impl_record_key!`](crate::impl_record_key), which is hashed likewise.
///
/// What has no fixed size is none:
///
/// ```compile_fail,E0277
/// # use vbr::{RecordMap, Shape};
/// let map: RecordMap<String, u64> = RecordMap::open(Shape::for_keys(8, 1)).unwrap();
/// ```
///
/// The trait isn't unsafe to implement: if `from_kept` and `kept` aren't each other's inverse, or equal keys have several
/// numbers, keys are not found or taken for others, and nothing worse happens.
#[diagnostic::on_unimplemented(
    message = "`{Self}` is no key of a map of records",
    label = "a key has to implement `RecordKey`",
    note = "for a struct whose fields are records use `vbr::record!` and `vbr::impl_record_key!`; for a text `vbr::SmallStr`"
)]
pub trait RecordKey: Copy + Send + Sync + 'static {
    /// What of a key stands in its record, beside the value: nothing if the number is the key, and else the key.
    type Kept: Record + Eq;

    /// The number of 64 bits that the key has in the map: itself, or its hash.
    fn number(self, hasher: &impl BuildHasher) -> u64;

    /// What of the key stands in its record.
    fn kept(self) -> Self::Kept;

    /// The key that has this number, of whose record this is.
    fn from_kept(number: u64, kept: Self::Kept) -> Self;
}

/// Kept as the key itself.
impl<K: Bits> RecordKey for K {
    type Kept = ();

    #[inline]
    fn number(self, _: &impl BuildHasher) -> u64 {
        self.to_bits()
    }

    #[inline]
    fn kept(self) {}

    #[inline]
    fn from_kept(number: u64, (): ()) -> K {
        K::from_bits(number)
    }
}

/// Makes types keys of a [`RecordMap`](crate::RecordMap): structs of [`record!`](crate::record), and other types of [`Record`] that
/// have `Eq` and `Hash`. The compiler sees that they have these. Two keys are the same if `Eq` says so, and `Hash` agrees with
/// it, as derives do.
///
/// ```
/// use vbr::{impl_record_key, record, RecordMap, Shape};
///
/// record! {
///     #[derive(Clone, Copy, Debug, PartialEq, Eq, Hash)]
///     struct Flow {
///         from: [u8; 16],
///         to: [u8; 16],
///         ports: [u16; 2],
///     }
/// }
/// impl_record_key!(Flow);
///
/// let flows: RecordMap<Flow, [u64; 4]> = RecordMap::open(Shape::for_keys(1_024, 2))?;
/// let flow = Flow { from: [1; 16], to: [2; 16], ports: [80, 443] };
/// assert!(flows.try_insert(flow, [7; 4])?);
/// assert_eq!(flows.get(flow)?, Some([7; 4]));
/// # Ok::<(), Box<dyn std::error::Error>>(())
/// ```
///
/// A type without `Eq` is refused:
///
/// ```compile_fail,E0277
/// vbr::record! {
///     #[derive(Clone, Copy, Debug, PartialEq)]
///     struct Place {
///         north: f64,
///         east: f64,
///     }
/// }
/// vbr::impl_record_key!(Place);
/// ```
#[macro_export]
macro_rules! impl_record_key {
    (@of [$($parameter:tt)*] $name:ty) => {
        impl<$($parameter)*> $crate::RecordKey for $name {
            type Kept = $name;

            #[inline]
            fn number(self, hasher: &impl ::core::hash::BuildHasher) -> u64 {
                hasher.hash_one(self)
            }

            #[inline]
            fn kept(self) -> $name {
                self
            }

            #[inline]
            fn from_kept(_: u64, kept: $name) -> $name {
                kept
            }
        }
    };
    ($($name:ty),+ $(,)?) => {
        $($crate::impl_record_key!(@of [] $name);)+
    };
}

impl_record_key!([u8; 16], [u8; 20], [u8; 32], [u8; 64], (u64, u64));
impl_record_key!(@of [const N: usize] SmallBytes<N>);
impl_record_key!(@of [const N: usize] SmallStr<N>);

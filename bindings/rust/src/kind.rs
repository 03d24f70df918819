//! Sets and maps: what differs between them, for what is one text for both.
use crate::library::Calls;
use crate::Bits;
use core::fmt::Debug;
use core::marker::PhantomData;

/// What a table keeps, and so how its calls differ: [`Keys`], as a set does, or [`Entries`], as a map does. There is no other
/// kind. It is for functions that take the handles of either:
///
/// ```
/// use vbr::{Kind, Map, OutOfSteps, PassOf, Set, Shape};
///
/// fn count<T: Kind>(pass: &PassOf<T>) -> Result<u64, OutOfSteps> {
///     pass.iter().map(|each| each.map(|_| 1)).sum()
/// }
///
/// let shape = Shape::for_keys(8, 1);
/// assert_eq!(count(&Set::handles_with(shape, &[5, 7])?[0])?, 2);
/// assert_eq!(count(&Map::handles_with(shape, &[(5, 'a')])?[0])?, 1);
/// # Ok::<(), Box<dyn std::error::Error>>(())
/// ```
#[allow(private_bounds, reason = "the calls of the library are of this crate alone, so no other crate makes a kind")]
pub trait Kind: Calls<<Self as Kind>::Item, <Self as Kind>::Report> + Sized + 'static {
    /// What calls name an item by.
    type Key: Bits;

    /// What a table opens with, a walk gives, and a report has: a key, or a key with its value.
    type Item: Copy + Debug + Eq + Send + Sync + 'static;

    /// What the last close returns: a [`Report`](crate::Report), or a [`MapReport`](crate::MapReport).
    type Report: Clone + Debug + Eq + Send + Sync + 'static;
}

/// The kind of sets of such keys.
///
/// ```
/// let handles: Vec<vbr::HandleOf<vbr::Keys>> = vbr::Set::handles(vbr::Shape::for_keys(8, 1))?;
/// # Ok::<(), vbr::OpenError>(())
/// ```
#[derive(Debug)]
pub struct Keys<K = u64>(PhantomData<fn() -> K>);

/// The kind of maps from such keys to such values.
///
/// ```
/// let handles: Vec<vbr::HandleOf<vbr::Entries<u32, char>>> = vbr::Map::handles(vbr::Shape::for_keys(8, 1))?;
/// # Ok::<(), vbr::OpenError>(())
/// ```
#[derive(Debug)]
pub struct Entries<K = u64, V = u64>(PhantomData<fn() -> (K, V)>);

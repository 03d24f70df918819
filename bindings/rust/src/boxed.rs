//! Blocks of memory that may be refused.
use alloc::boxed::Box;
use alloc::vec::Vec;

/// The value in a block of its own, if there is memory.
pub(crate) fn boxed<T>(value: T) -> Option<Box<T>> {
    let mut block = Vec::new();
    block.try_reserve_exact(1).ok()?;
    block.push(value);
    // SAFETY: it is a block of one value.
    Some(unsafe { Box::from_raw(Box::into_raw(block.into_boxed_slice()).cast::<T>()) })
}

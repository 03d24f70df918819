//! Room for the report of a set or a map, allocated before the library is asked.
use crate::library::{code, ReportNumbers};
use crate::{order, Kind};
use alloc::vec::Vec;
use core::alloc::Layout;

/// Room for each slot: for items as the library writes them, and for those of the kind if they can't take over that room.
pub(crate) struct Room<T: Kind> {
    plain: Vec<T::Plain>,
    items: Vec<T::Item>,
}

/// Why a set or a map gives no report.
pub(crate) enum Unreported {
    /// There is no memory for it, and all handles stay as they were.
    Memory,
    /// A pass is not there.
    Lost,
}

/// What a set or a map held.
pub(crate) struct Contents<Item> {
    pub(crate) items: Vec<Item>,
    pub(crate) epoch: u64,
    pub(crate) marked: u32,
    pub(crate) free: u32,
}

impl<T: Kind> Room<T> {
    /// Room for so many slots, if there is memory.
    pub(crate) fn of(slots: u32) -> Option<Room<T>> {
        let slots = slots as usize;
        let (mut plain, mut items) = (Vec::new(), Vec::new());
        plain.try_reserve_exact(slots).ok()?;
        if Layout::new::<T::Plain>() != Layout::new::<T::Item>() {
            items.try_reserve_exact(slots).ok()?;
        }
        plain.resize(slots, T::Plain::default());
        Some(Room { plain, items })
    }

    /// Makes a call of the library that fills the room: it is given that and how much it is.
    pub(crate) fn fill(
        &mut self,
        call: impl FnOnce(*mut T::Plain, usize, *mut ReportNumbers) -> i32,
    ) -> Result<ReportNumbers, Unreported> {
        let mut numbers = ReportNumbers::default();
        match order::of_all(|| call(self.plain.as_mut_ptr(), self.plain.len(), &raw mut numbers)) {
            code::YES => Ok(numbers),
            code::NO_MEMORY => Err(Unreported::Memory),
            _ => Err(Unreported::Lost),
        }
    }

    /// What was returned, once the room is filled.
    pub(crate) fn report(mut self, ReportNumbers { epoch, live, marked, free }: ReportNumbers) -> T::Report {
        self.plain.truncate(live as usize);
        T::report(Contents { items: self.items(), epoch, marked, free })
    }

    /// The items in a block that is as long as they are, or in one of the room if there is no memory for that.
    fn items(self) -> Vec<T::Item> {
        let Room { plain, mut items } = self;
        let mut fitted = Vec::new();
        if fitted.try_reserve_exact(plain.len()).is_ok() {
            items = fitted;
        } else if items.capacity() < plain.len() {
            return plain.into_iter().map(T::item).collect(); // in the place of the plain ones
        }
        items.extend(plain.into_iter().map(T::item));
        items
    }
}

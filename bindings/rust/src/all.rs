//! All handles of a set or a map at once: their report, and their renewal.
use crate::handle::{HandleOf, Shared};
use crate::library::{code, Raw};
use crate::records::Words;
use crate::reporting::Room;
use crate::{order, Kind, RenewError, ReportError, Shape};
use alloc::vec::Vec;
use core::ptr::NonNull;

/// Calls of all handles of a set, in any order. None of them is in a call meanwhile.
impl<T: Kind> HandleOf<T> {
    // %doc vbr_report_all: sentence leaves notes
    /// Reports what is in a set by all handles that were opened with it.
    ///
    /// It leaves the handles as they were; they go on.
    ///
    /// It takes the memory of a close.
    // %end
    ///
    /// ```
    /// # use vbr::{Handle, Set, Shape};
    /// let mut handles = Set::handles_with(Shape::for_keys(8, 2), &[5, 7])?;
    /// handles[1].insert(6)?;
    /// assert_eq!(Handle::report_all(&mut handles)?.keys, [5, 6, 7]);
    /// assert!(handles[0].remove(6)?); // they go on
    /// # Ok::<(), Box<dyn std::error::Error>>(())
    /// ```
    ///
    /// # Errors
    ///
    /// [`ReportError::Mixed`], [`ReportError::Missing`] and [`ReportError::Memory`], tested in this order.
    pub fn report_all(handles: &mut [HandleOf<T>]) -> Result<T::Report, ReportError> {
        handles.report()
    }

    // %doc vbr_renew_all: sentence leaves notes
    /// Lets all handles of a set go on over a fresh one of this shape, with the keys that were in it.
    ///
    /// It leaves the set at epoch 1. The first handle's balance is the number of keys, and the others' is 0. Walks that have
    /// begun are refused from then on, by [`WalkError::Reshaped`](crate::WalkError::Reshaped). Each handle has taken its
    /// reserve. A refusal leaves the handles as they were, and they go on.
    ///
    /// It takes the memory of a report and of an opening with the keys while the old set is still there, whose memory is
    /// freed afterwards.
    // %end
    ///
    /// It has the seed of the shape, or if the shape has none, the seed of the old set; likewise the handles' budgets. The
    /// shape's handle count is ignored: the handles that there are go on.
    ///
    /// ```
    /// # use vbr::{Handle, Set, Shape};
    /// let mut handles = Set::handles_with(Shape::new(2, 2, 100), &[5, 7])?;
    /// assert!(handles[0].insert(9).is_err()); // there is no slot
    /// Handle::renew_all(&mut handles, Shape::for_keys(1_000, 1))?;
    /// assert!(handles[0].insert(9)?);
    /// assert_eq!(handles[0].balance(), 3);
    /// # Ok::<(), Box<dyn std::error::Error>>(())
    /// ```
    ///
    /// # Errors
    ///
    /// [`RenewError`].
    pub fn renew_all(handles: &mut [HandleOf<T>], shape: Shape) -> Result<(), RenewError> {
        shape.check_numbers()?;
        handles.renew(shape, None)
    }

    /// As [`HandleOf::renew_all`], and the records go along.
    pub(crate) fn renew_along(handles: &mut [HandleOf<T>], shape: Shape, records: &Words) -> Result<(), RenewError> {
        shape.check_numbers()?;
        handles.renew(shape, Some(records))
    }
}

/// Handles that one thread has, each by its place.
pub(crate) trait All<T: Kind> {
    fn count(&self) -> usize;
    fn at(&mut self, place: usize) -> &mut HandleOf<T>;

    /// What the handles share, if they are all handles of one set.
    fn shared(&mut self) -> Result<NonNull<Shared>, ReportError> {
        let count = self.count();
        if count == 0 {
            return Err(ReportError::Missing);
        }
        let first = self.at(0).shared.ok_or(ReportError::Missing)?;
        if (0..count).any(|place| self.at(place).shared != Some(first)) {
            return Err(ReportError::Mixed);
        }
        // SAFETY: it is there while one of its handles is open, and these are.
        if count != unsafe { first.as_ref() }.count {
            return Err(ReportError::Missing);
        }
        Ok(first)
    }

    /// Reports what is in the set.
    fn report(&mut self) -> Result<T::Report, ReportError> {
        let shared = self.shared()?;
        // SAFETY: it is there while one of its handles is open, and these are.
        let slots = unsafe { shared.as_ref() }.slots;
        let mut room = Room::<T>::of(slots).ok_or(ReportError::Memory)?;
        let told = self.with_raw(|all, count| {
            // SAFETY: these are all handles of the set or map, and nothing else has one of them.
            room.fill(|items, room, told| unsafe { T::REPORT_ALL(all, count, items, room, told) })
        });
        Ok(room.report(told.map_err(|_| ReportError::Memory)?))
    }

    /// Lets the handles go on over a fresh set of this shape, whose numbers are in range, and records with them.
    fn renew(&mut self, shape: Shape, records: Option<&Words>) -> Result<(), RenewError> {
        let mut shared = self.shared()?;
        let Shape { slots, buckets, last_epoch, seed, steps, .. } = shape;
        let stood = match records {
            // SAFETY: it is there while one of its handles is open, and these are.
            Some(_) => self.slots_of_items(unsafe { shared.as_ref() }.slots),
            None => Some(Vec::new()),
        };
        let mut stood = stood.ok_or(RenewError::Memory)?;
        let seed = seed.unwrap_or_else(|| self.at(0).seed());
        let told = self.with_raw(|all, count| {
            // SAFETY: these are all handles of the set or map, and nothing else has one of them.
            order::of_all(|| unsafe { T::RENEW_ALL_SEEDED(all, count, slots, buckets, last_epoch, seed) })
        });
        match told {
            code::DONE => {
                if let Some(records) = records {
                    records.bring(&mut stood);
                }
                // SAFETY: this thread has all handles that share it, so nothing else reaches it.
                unsafe { shared.as_mut() }.slots = slots;
                if let Some(steps) = steps {
                    (0..self.count()).for_each(|place| self.at(place).set_steps(steps));
                }
                Ok(())
            }
            code::NO_ROOM => Err(RenewError::Slots),
            _ => Err(RenewError::Memory),
        }
    }

    /// The slot of each item, in the order of the report, in a set with so many slots; none if there is no memory.
    fn slots_of_items(&mut self, slots: u32) -> Option<Vec<u32>> {
        let mut room = Room::<T>::of(slots)?;
        let mut told = Vec::new();
        told.try_reserve_exact(slots as usize).ok()?;
        told.resize(slots as usize, 0);
        let numbers = self.with_raw(|all, count| {
            // SAFETY: these are all handles of the set or map, and nothing else has one of them; there is room for as many slots as items.
            room.fill(|items, room, numbers| unsafe { T::REPORT_SLOTS(all, count, items, told.as_mut_ptr(), room, numbers) })
        });
        told.truncate(numbers.ok()?.live as usize);
        Some(told)
    }

    /// Makes a call of the library with all handles side by side, which belong to one set and are at least one; then each
    /// handle has what is at its place.
    fn with_raw<R>(&mut self, call: impl FnOnce(*mut Raw, usize) -> R) -> R {
        let count = self.count();
        let shared = self.at(0).shared.expect("a handle that is open");
        // SAFETY: it is there while one of its handles is open, and these are.
        let shared = unsafe { shared.as_ref() };
        for place in 0..count {
            shared.park(place, self.at(place).take_owned());
        }
        let told = call(shared.all(), count);
        for place in 0..count {
            self.at(place).give_owned(shared.unpark(place));
        }
        told
    }
}

impl<T: Kind> All<T> for [HandleOf<T>] {
    fn count(&self) -> usize {
        self.len()
    }

    fn at(&mut self, place: usize) -> &mut HandleOf<T> {
        &mut self[place]
    }
}

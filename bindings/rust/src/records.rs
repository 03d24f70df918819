//! Records beside the entries, one for each slot.
use crate::{HandleOf, Table};
use crate::{Held, Incarnation, Kind, OpenError, OutOfSteps, PassOf, RenewError, Shape, ShapeError};
use alloc::vec::Vec;
use core::fmt;
use core::marker::PhantomData;
use core::sync::atomic::{AtomicU64, Ordering};
use std::time::Instant;

/// A type of records, which are made of words of 64 bits.
///
/// Numbers have it, `bool` and `char`, arrays and pairs of such, arrays of bytes, eight of which share a word,
/// [`SmallStr`](crate::SmallStr), [`SmallBytes`](crate::SmallBytes) and `()`. [`record!`] says it of a struct by its fields. For a type of your own say how it gives its words, one after another, and how it is made of them:
///
/// ```
/// use vbr::Record;
///
/// #[derive(Clone, Copy)]
/// struct Celsius(f32);
///
/// impl Record for Celsius {
///     const WORDS: usize = f32::WORDS;
///     fn store(&self, put: &mut impl FnMut(u64)) {
///         self.0.store(put);
///     }
///     fn load(next: &mut impl FnMut() -> u64) -> Celsius {
///         Celsius(f32::load(next))
///     }
/// }
/// ```
///
/// `load` may be given words of two records, or zeros, and then what it makes of them is thrown away. So it makes a value of any words,
/// and doesn't panic. It isn't unsafe to implement.
///
/// [`record!`]: crate::record
pub trait Record: Copy + Send + Sync + 'static {
    /// How many words a record takes.
    const WORDS: usize;

    /// Gives the words of the record, as many as there are.
    fn store(&self, put: &mut impl FnMut(u64));

    /// The record of these words.
    fn load(next: &mut impl FnMut() -> u64) -> Self;
}

macro_rules! one_word {
    ($($type:ty, |$it:ident| $word:expr, |$bits:ident| $value:expr;)*) => {$(
        impl Record for $type {
            const WORDS: usize = 1;
            #[inline]
            fn store(&self, put: &mut impl FnMut(u64)) {
                let $it = *self;
                put($word);
            }
            #[inline]
            fn load(next: &mut impl FnMut() -> u64) -> $type {
                let $bits = next();
                $value
            }
        }
    )*};
}

/// Casts between a number and a word, which lose nothing that was stored. A byte alone isn't a record, so that arrays of bytes can
/// share words.
#[allow(
    trivial_numeric_casts,
    clippy::cast_lossless,
    clippy::cast_possible_truncation,
    clippy::cast_possible_wrap,
    clippy::cast_sign_loss,
    reason = "the bits are those of the type"
)]
mod words {
    use super::Record;
    one_word! {
        u16, |it| it as u64, |bits| bits as u16;
        u32, |it| it as u64, |bits| bits as u32;
        u64, |it| it, |bits| bits;
        usize, |it| it as u64, |bits| bits as usize;
        i16, |it| it as u64, |bits| bits as i16;
        i32, |it| it as u64, |bits| bits as i32;
        i64, |it| it as u64, |bits| bits as i64;
        isize, |it| it as u64, |bits| bits as isize;
        f32, |it| it.to_bits() as u64, |bits| f32::from_bits(bits as u32);
        f64, |it| it.to_bits(), |bits| f64::from_bits(bits);
        bool, |it| it as u64, |bits| bits != 0;
        char, |it| it as u64, |bits| char::from_u32(bits as u32).unwrap_or_default();
    }
}

/// No words: the value of a [`RecordMap`](crate::RecordMap) whose keys are all that there is.
impl Record for () {
    const WORDS: usize = 0;

    #[inline]
    fn store(&self, _: &mut impl FnMut(u64)) {}

    #[inline]
    fn load(_: &mut impl FnMut() -> u64) {}
}

impl<const N: usize> Record for [u8; N] {
    const WORDS: usize = N.div_ceil(8);

    #[inline]
    fn store(&self, put: &mut impl FnMut(u64)) {
        for chunk in self.chunks(8) {
            let mut word = [0; 8];
            word[..chunk.len()].copy_from_slice(chunk);
            put(u64::from_le_bytes(word));
        }
    }

    #[inline]
    fn load(next: &mut impl FnMut() -> u64) -> [u8; N] {
        let mut bytes = [0; N];
        for chunk in bytes.chunks_mut(8) {
            chunk.copy_from_slice(&next().to_le_bytes()[..chunk.len()]);
        }
        bytes
    }
}

impl<R: Record, const N: usize> Record for [R; N] {
    const WORDS: usize = N * R::WORDS;

    #[inline]
    fn store(&self, put: &mut impl FnMut(u64)) {
        for each in self {
            each.store(put);
        }
    }

    #[inline]
    fn load(next: &mut impl FnMut() -> u64) -> [R; N] {
        core::array::from_fn(|_| R::load(next))
    }
}

impl<A: Record, B: Record> Record for (A, B) {
    const WORDS: usize = A::WORDS + B::WORDS;

    #[inline]
    fn store(&self, put: &mut impl FnMut(u64)) {
        self.0.store(put);
        self.1.store(put);
    }

    #[inline]
    fn load(next: &mut impl FnMut() -> u64) -> (A, B) {
        (A::load(next), B::load(next))
    }
}

/// Declares a struct whose values are records: each of its fields is a [`Record`]. It is `Clone` and `Copy` by a derive of its own.
///
/// ```
/// vbr::record! {
///     #[derive(Clone, Copy, Debug, PartialEq)]
///     pub struct Account {
///         pub owner: [u8; 32],
///         pub balance: u64,
///     }
/// }
/// assert_eq!(<Account as vbr::Record>::WORDS, 5);
/// ```
#[macro_export]
macro_rules! record {
    ($(#[$of:meta])* $seen:vis struct $name:ident { $($(#[$of_field:meta])* $seen_field:vis $field:ident: $type:ty),+ $(,)? }) => {
        $(#[$of])*
        $seen struct $name {
            $($(#[$of_field])* $seen_field $field: $type),+
        }

        impl $crate::Record for $name {
            const WORDS: usize = 0 $(+ <$type as $crate::Record>::WORDS)+;

            #[inline]
            fn store(&self, put: &mut impl FnMut(u64)) {
                $($crate::Record::store(&self.$field, put);)+
            }

            #[inline]
            fn load(next: &mut impl FnMut() -> u64) -> Self {
                $name { $($field: $crate::Record::load(next)),+ }
            }
        }
    };
}

// %doc vbr_records.h
/// Records beside the entries of a set or a map, one for each slot: for values of any size, in fixed memory.
///
/// A record is written while its slot is held, and then never again, so an entry has one record for as long as it is there.
/// To change the record of a key, hold another slot, write the whole record there, and put that slot in place of the entry
/// that was read, by [`replace`](crate::Held::replace). The old record stays as it is for those who still read it. Nobody
/// frees it: it goes where its slot goes.
///
/// A reader copies a record, and then asks whether the slot is still the entry's own. If it isn't, it finds the key again. So
/// it holds nobody up, takes no memory, and begins anew only if others took the entry out, or changed it, while it copied.
/// Which record belongs to which entry is proved; that copies are whole is argued, and tested.
///
/// The words of records are atomic: a writer stores each with release, and a reader loads each with acquire. That costs
/// nothing on x86-64.
// %end
///
/// Threads share them by reference. A [`RecordMap`](crate::RecordMap) does all this by itself, for keys of any size too.
///
/// ```
/// use vbr::{Map, Records, Shape};
///
/// vbr::record! {
///     #[derive(Clone, Copy)]
///     struct Account {
///         owner: [u8; 32],
///         balance: u64,
///     }
/// }
///
/// let [mut first, second] = Map::handles(Shape::for_keys(1_024, 2))?.try_into().expect("two handles");
/// let accounts = Records::open(first.slots())?;
/// let mut held = first.hold()?; // a slot that is this handle's alone
/// accounts.write(&mut held, &Account { owner: [b'k'; 32], balance: 100 });
/// assert!(held.try_insert(5, ())?.is_ok()); // and now it is that of key 5, with its record
/// assert_eq!(accounts.read(&second, 5)?.map(|account| account.balance), Some(100));
/// # Ok::<(), Box<dyn std::error::Error>>(())
/// ```
///
/// The records are those of one set or map. With a pass of another one a call reads and writes records of slots that aren't its own: what
/// it gives is a record, and may be any.
pub struct Records<R> {
    pub(crate) words: Words,
    kind: PhantomData<fn() -> R>,
}

/// The words of records, so many for each slot.
pub(crate) struct Words {
    all: Vec<AtomicU64>,
    each: usize,
    slots: u32,
}

impl<R: Record> Records<R> {
    // %doc vbr_records_open: sentence leaves
    /// Opens records, one for each slot of a set or a map.
    ///
    /// It leaves the records, of zeros.
    // %end
    ///
    /// It may have more slots than the set, for a renewal with more of them. It takes 8 bytes for each word of a record.
    ///
    /// ```
    /// # use vbr::{Records, Shape};
    /// let shape = Shape::for_keys(1_024, 2);
    /// let records: Records<[u64; 4]> = Records::open(2 * shape.slots)?; // as a map that grows twofold wants
    /// assert_eq!(records.slots(), 2 * (1_024 + 2 * 64));
    /// # Ok::<(), vbr::OpenError>(())
    /// ```
    ///
    /// # Errors
    ///
    /// [`OpenError::Memory`].
    pub fn open(slots: u32) -> Result<Records<R>, OpenError> {
        let mut all = Vec::new();
        let count = R::WORDS.checked_mul(slots as usize).ok_or(OpenError::Memory)?;
        all.try_reserve_exact(count).map_err(|_| OpenError::Memory)?;
        all.resize_with(count, AtomicU64::default);
        Ok(Records { words: Words { all, each: R::WORDS, slots }, kind: PhantomData })
    }

    /// For how many slots there are records.
    ///
    /// ```
    /// # use vbr::Records;
    /// assert_eq!(Records::<u64>::open(8)?.slots(), 8);
    /// # Ok::<(), vbr::OpenError>(())
    /// ```
    #[must_use]
    pub fn slots(&self) -> u32 {
        self.words.slots
    }

    // %doc vbr_records_write: sentence
    /// Writes the record of a held slot.
    // %end
    ///
    /// ```
    /// # use vbr::{Records, Set, Shape};
    /// let mut handle = Set::handles(Shape::for_keys(8, 1))?.remove(0);
    /// let records = Records::open(handle.slots())?;
    /// let mut held = handle.hold()?;
    /// records.write(&mut held, &[7_u64; 4]);
    /// records.write(&mut held, &[8; 4]); // nobody has seen the other one
    /// assert!(held.insert(5)?.is_ok());
    /// assert_eq!(records.read(&handle, 5)?, Some([8; 4]));
    /// # Ok::<(), Box<dyn std::error::Error>>(())
    /// ```
    ///
    /// # Panics
    ///
    /// If there are fewer records than slots.
    #[inline]
    pub fn write<T: Kind>(&self, held: &mut Held<'_, T>, record: &R) {
        let mut words = self.words.of(held.slot()).iter();
        // who loads one sees that the slot has come into a hand
        record.store(&mut |word| words.next().expect(MORE).store(word, Ordering::Release));
    }

    // %doc vbr_records_read
    /// Reads the record of a key of a set.
    ///
    /// Returns its record if the entry was there at a moment of the call, with this record, whole; `None` if the key is
    /// absent. It leaves the set as it was: all its steps are loads.
    ///
    /// It looks up, copies, and asks. It does so again only if the slot was handed out anew while it copied. Each look-up has
    /// the budget of the handle.
    // %end
    ///
    /// ```
    /// # use vbr::{Records, Set, Shape};
    /// # let mut handle = Set::handles(Shape::for_keys(8, 1))?.remove(0);
    /// # let records = Records::open(handle.slots())?;
    /// # let mut held = handle.hold()?;
    /// # records.write(&mut held, &[7_u64; 4]);
    /// # assert!(held.insert(5)?.is_ok());
    /// assert_eq!(records.read(&handle, 5)?, Some([7; 4]));
    /// assert_eq!(records.read(&handle, 6)?, None);
    /// # Ok::<(), Box<dyn std::error::Error>>(())
    /// ```
    ///
    /// # Errors
    ///
    /// [`OutOfSteps`].
    ///
    /// # Panics
    ///
    /// If there are fewer records than slots.
    #[inline]
    pub fn read<T: Kind>(&self, pass: &PassOf<T>, key: T::Key) -> Result<Option<R>, OutOfSteps> {
        Ok(self.read_entry(pass, key)?.map(|(record, _)| record))
    }

    /// The record of a key, as [`Records::read`] gives it, and its entry: for [`Held::replace`] and [`PassOf::remove_entry`].
    ///
    /// ```
    /// # use vbr::{Map, OutOfSteps, Records, Refusal, Shape};
    /// /// Counts a visit of a page.
    /// fn visit(map: &mut vbr::MapPass, visits: &Records<[u64; 2]>, page: u64, now: u64) -> Result<(), Refusal> {
    ///     let mut held = map.hold()?;
    ///     loop {
    ///         let before = visits.read_entry(&held, page)?;
    ///         let count = before.map_or(0, |([count, _], _)| count);
    ///         visits.write(&mut held, &[count + 1, now]);
    ///         let done = match before {
    ///             Some((_, at)) => held.replace(page, &at, 0)?,
    ///             None => held.try_insert(page, 0)?,
    ///         };
    ///         match done {
    ///             Ok(()) => return Ok(()),
    ///             Err(again) => held = again, // another thread was faster
    ///         }
    ///     }
    /// }
    /// # let mut map = Map::handles(Shape::for_keys(8, 1))?.remove(0);
    /// # let visits = Records::open(map.slots())?;
    /// # visit(&mut map, &visits, 5, 1)?;
    /// # visit(&mut map, &visits, 5, 2)?;
    /// # assert_eq!(visits.read(&map, 5)?, Some([2, 2]));
    /// # Ok::<(), Box<dyn std::error::Error>>(())
    /// ```
    ///
    /// # Errors
    ///
    /// [`OutOfSteps`].
    ///
    /// # Panics
    ///
    /// If there are fewer records than slots.
    #[inline]
    pub fn read_entry<T: Kind>(&self, pass: &PassOf<T>, key: T::Key) -> Result<Option<(R, Incarnation<T>)>, OutOfSteps> {
        self.words.read_entry(pass, key)
    }

    // %doc vbr_records_copy: sentence notes
    /// Copies the record of a slot, as it is, for a loop of your own.
    ///
    /// The copy counts for nothing until [`is_still`](crate::PassOf::is_still) has said yes to the entry that was found there
    /// before. Until then it may mix two records: follow no pointer and no index in it.
    /// [`Records::read`](crate::Records::read) does all that.
    // %end
    ///
    /// ```
    /// # use vbr::{Records, Set, Shape};
    /// # let mut handle = Set::handles(Shape::for_keys(8, 1))?.remove(0);
    /// # let records = Records::open(handle.slots())?;
    /// # let mut held = handle.hold()?;
    /// # records.write(&mut held, &[7_u64; 4]);
    /// # assert!(held.insert(5)?.is_ok());
    /// let at = handle.get_entry(5)?.expect("5 is there");
    /// let copy = records.copy(&at);
    /// assert!(handle.is_still(&at)); // so the copy is whole
    /// assert_eq!(copy, [7; 4]);
    /// # Ok::<(), Box<dyn std::error::Error>>(())
    /// ```
    ///
    /// # Panics
    ///
    /// If there are fewer records than slots.
    #[inline]
    #[must_use]
    pub fn copy<T: Kind>(&self, at: &Incarnation<T>) -> R {
        self.words.copy(at)
    }

    // %doc vbr_records_renew_all: sentence leaves
    /// Renews a set by [`HandleOf::renew_all`](crate::HandleOf::renew_all) and carries its records over to the slots that its
    /// keys have then.
    ///
    /// It leaves what [`HandleOf::renew_all`](crate::HandleOf::renew_all) leaves; a refusal leaves the records as they were
    /// too.
    // %end
    ///
    /// It takes 4 bytes for each slot besides, and moves the records where they are.
    ///
    /// ```
    /// # use vbr::{Map, Records, Shape};
    /// let mut handles = Map::handles(Shape::for_keys(8, 2))?;
    /// let records = Records::open(Shape::for_keys(1_000, 2).slots)?;
    /// for key in [7_u64, 5] {
    ///     let mut held = handles[0].hold()?;
    ///     records.write(&mut held, &[key; 4]);
    ///     assert!(held.try_insert(key, ())?.is_ok());
    /// }
    /// records.renew_all(&mut handles, Shape::for_keys(1_000, 2))?;
    /// assert_eq!(records.read(&handles[1], 7)?, Some([7; 4]));
    /// # Ok::<(), Box<dyn std::error::Error>>(())
    /// ```
    ///
    /// # Errors
    ///
    /// [`RenewError`], and all stays as it was. It is [`RenewError::Shape`] too if there are fewer records than slots of the
    /// shape.
    pub fn renew_all<T: Kind>(&self, handles: &mut [HandleOf<T>], shape: Shape) -> Result<(), RenewError> {
        self.words.have_room(shape)?;
        HandleOf::renew_along(handles, shape, &self.words)
    }

    // %doc records_renew_lent
    /// Renews a set whose handles are lent, as its `renew` does, and carries the records over, as `renew_all` of records
    /// does.
    ///
    /// While a program renews by its records alone, no entry is without its own.
    // %end
    ///
    /// ```
    /// # use vbr::{Map, Records, Shape};
    /// let map = Map::open(Shape::for_keys(8, 2))?;
    /// let records = Records::open(Shape::for_keys(1_000, 2).slots)?;
    /// {
    ///     let mut mine = map.lend_wait();
    ///     let mut held = mine.hold()?;
    ///     records.write(&mut held, &[7_u64; 4]);
    ///     assert!(held.try_insert(5, ())?.is_ok());
    /// }
    /// records.renew(&map, Shape::for_keys(1_000, 2))?;
    /// assert_eq!(records.read(&map.lend_wait(), 5)?, Some([7; 4]));
    /// # Ok::<(), Box<dyn std::error::Error>>(())
    /// ```
    ///
    /// # Errors
    ///
    /// The same as for [`Records::renew_all`], and all stays as it was.
    pub fn renew<T: Kind>(&self, table: &Table<T>, shape: Shape) -> Result<(), RenewError> {
        self.renew_until(table, shape, None)
    }

    /// The same, if all loans are back before the deadline.
    pub(crate) fn renew_until<T: Kind>(
        &self,
        table: &Table<T>,
        shape: Shape,
        until: Option<Instant>,
    ) -> Result<(), RenewError> {
        self.words.have_room(shape)?;
        table.lender.renew(shape, until, Some(&self.words))
    }
}

/// Why a word lacks.
const MORE: &str = "a record has as many words as it says";

impl Words {
    /// The words of a slot.
    #[inline]
    fn of(&self, slot: u32) -> &[AtomicU64] {
        self.of_place(slot as usize)
    }

    /// This word of the record of a slot, for who writes it while the slot's entry is there.
    #[inline]
    pub(crate) fn word(&self, slot: u32, place: usize) -> &AtomicU64 {
        &self.of(slot)[place]
    }

    #[inline]
    fn of_place(&self, place: usize) -> &[AtomicU64] {
        let from = place * self.each;
        &self.all[from..from + self.each]
    }

    /// The record of a key, or what its first words make, and its entry, as [`Records::read_entry`] gives it.
    #[inline]
    pub(crate) fn read_entry<R: Record, T: Kind>(
        &self,
        pass: &PassOf<T>,
        key: T::Key,
    ) -> Result<Option<(R, Incarnation<T>)>, OutOfSteps> {
        while let Some(at) = pass.get_entry(key)? {
            let record = self.copy(&at);
            if pass.is_still(&at) {
                return Ok(Some((record, at)));
            }
        }
        Ok(None)
    }

    /// The record of a slot as it is, or what its first words make.
    #[inline]
    fn copy<R: Record, T: Kind>(&self, at: &Incarnation<T>) -> R {
        self.copy_of(at.slot())
    }

    /// The same of the slot with this number, whosever it is.
    #[inline]
    pub(crate) fn copy_of<R: Record>(&self, slot: u32) -> R {
        let mut words = self.of(slot).iter();
        // so the question comes after it, and after what its writer did before
        R::load(&mut || words.next().expect(MORE).load(Ordering::Acquire))
    }

    fn have_room(&self, shape: Shape) -> Result<(), RenewError> {
        if shape.slots > self.slots {
            return Err(RenewError::Shape(ShapeError::Slots(shape.slots)));
        }
        Ok(())
    }

    /// Brings the records of these slots, each of which is named once, to the first slots, in their order. What stood there goes to some
    /// other slot. Nothing else is done with the records meanwhile.
    pub(crate) fn bring(&self, slots: &mut [u32]) {
        for place in 0..slots.len() {
            // what stood in an earlier place was exchanged for what that one got, and so on
            let mut from = slots[place] as usize;
            while from < place {
                from = slots[from] as usize;
            }
            slots[place] = u32::try_from(from).expect("the number of a slot");
            for (one, other) in self.of_place(place).iter().zip(self.of_place(from)) {
                other.store(one.swap(other.load(Ordering::Relaxed), Ordering::Relaxed), Ordering::Relaxed);
            }
        }
    }
}

impl<R: Record> fmt::Debug for Records<R> {
    fn fmt(&self, f: &mut fmt::Formatter<'_>) -> fmt::Result {
        f.debug_struct("Records").field("slots", &self.words.slots).finish_non_exhaustive()
    }
}

//! Maps of records: keys and values of any size.
// tools/interface makes this file of bindings/interface/record_map.rs.in.
use crate::record_entry::{At, Numbers, Opening, RecordEntry, RecordRefusal};
use crate::{
    Change, Growth, Map, OpenError, OutOfSteps, PassOf, Record, RecordKey, RecordLent, Records, Refusal, RenewError, Shape,
};
use std::fmt;
use std::hash::{BuildHasher, RandomState};
use std::sync::atomic::{AtomicU64, Ordering};
use std::time::{Duration, Instant};

/// A map with keys and values of any size, in fixed memory, and without a lock. It is a map of numbers of 64 bits, and beside
/// each of its slots a record, which has the value, and the key if that has more than 64 bits.
///
/// A value is copied whole into a record that nobody else sees yet, and that record is never written again while the key has
/// it. So a reader waits for nobody, and gets a copy that is whole, and that the key had at a moment of the call. Each change
/// is made at one moment, of a value that was read: none is lost. Calls take no memory; an opening and a renewal do.
///
/// The two are a [`Map`] and [`Records`], and the type keeps the rules of both. Values are of any type of [`Record`]: structs by
/// [`record!`](crate::record), numbers, arrays, [`SmallStr`](crate::SmallStr). Keys are of any type of [`RecordKey`]: of at most 64 bits
/// ([`Bits`](crate::Bits)), strings as `SmallStr`, long arrays, and structs by [`impl_record_key!`](crate::impl_record_key).
///
/// ```
/// use vbr::{record, Change, RecordMap, Shape, SmallStr};
///
/// record! {
///     #[derive(Clone, Copy, Debug, PartialEq)]
///     struct Account {
///         city: SmallStr<24>,
///         paid: u64,
///     }
/// }
///
/// let accounts: RecordMap<SmallStr<32>, Account> = RecordMap::open(Shape::for_keys(1_024, 2))?;
/// let (name, city) = (SmallStr::new("Ada Lovelace")?, SmallStr::new("London")?);
/// assert!(accounts.try_insert(name, Account { city, paid: 70 })?);
/// let pay = |account: Option<Account>| Change::Put(Account { city, paid: account.map_or(0, |it| it.paid) + 5 });
/// accounts.compute(name, pay)?; // no payment is lost, however many threads pay
/// assert_eq!(accounts.get(name)?, Some(Account { city, paid: 75 }));
/// # Ok::<(), Box<dyn std::error::Error>>(())
/// ```
///
/// # Two keys with one hash
///
/// A key of at most 64 bits is kept as it is. Of any other the map keeps 64 bits of its hash, and the record has the key,
/// with which each call compares. Two keys with one hash aren't in the map at the same time: a call that would add the second
/// one is refused, and no call gives the answer of one for the other. The hash has a key that is drawn, unless the program
/// gives another hash, so nobody outside can choose keys that share it, or a bucket. Of n keys any two have one hash with a
/// probability below n^2 / 2^65: 3 in a hundred million with a million keys.
///
/// The second key with a hash is refused by [`RecordRefusal::HashTaken`]. The usual hash is by [`RandomState`].
///
/// # Calls, loans and renewals
///
/// The map lends its handles, as a [`Table`](crate::Table) does. [`RecordMap::lend_wait`] gives a [`RecordLent`], which makes all
/// calls.
///
/// Its own calls lend a handle each, and have it back when they return; a thread that makes many keeps a loan for them. A
/// thread that has a loan makes none of these, nor does a function that such a call asks: they would wait for a second loan.
///
/// An insert takes a slot, and so does each new value. So these calls are refused as those of a map ([`Refusal`]): without a
/// slot, and after the last epoch. [`RecordMap::call`] then renews the map and calls again; [`RecordMap::renew`] is for a clock. Both
/// carry the records over.
///
/// # Memory
///
/// The opening and renewals take memory: that of a map of this shape, and for each slot a record, which is the value, and the
/// key if it is hashed, in whole words of 8 bytes.
///
/// [`RecordMap::open`] has records for the slots of its shape. A map that is to grow is opened with more
/// ([`RecordMap::open_up_to`]).
pub struct RecordMap<K: RecordKey, V: Record, H = RandomState> {
    pub(crate) table: Map<u64, ()>,
    records: Records<(K::Kept, V)>,
    hasher: H,
    /// No other map of records of this program ever has it.
    number: u64,
}

/// What stands in a map under the number of a key.
pub(crate) enum Found<V> {
    Nothing,
    /// Another key.
    Another,
    There(V, At),
}

impl<V: Copy> Found<V> {
    pub(crate) fn value(&self) -> Option<V> {
        match self {
            Found::There(value, _) => Some(*value),
            Found::Nothing | Found::Another => None,
        }
    }
}

impl<K: RecordKey, V: Record> RecordMap<K, V> {
    /// Opens an empty map, which lends the handles that the shape is for, with a record for each slot. [`Shape::for_keys`] has the
    /// slots that so many entries and handles want, each with a slot in hand.
    ///
    /// ```
    /// # use vbr::{RecordMap, Shape};
    /// let map: RecordMap<u64, [u64; 4]> = RecordMap::open(Shape::for_keys(1_000, 2))?; // 1,000 entries, two threads at a time
    /// assert_eq!((map.slots(), map.handle_count()), (1_128, 2));
    /// # Ok::<(), Box<dyn std::error::Error>>(())
    /// ```
    ///
    /// # Errors
    ///
    /// [`OpenError::Shape`], which is tested first, and [`OpenError::Memory`]. Nothing is kept then.
    pub fn open(shape: Shape) -> Result<RecordMap<K, V>, OpenError> {
        RecordMap::open_up_to(shape, shape.slots)
    }

    /// As [`RecordMap::open`], with records for renewals of up to so many slots.
    ///
    /// ```
    /// # use vbr::{RecordMap, RenewError, Shape, ShapeError};
    /// let (small, large) = (Shape::for_keys(8, 2), Shape::for_keys(1_000, 2));
    /// let map: RecordMap<u64, [u64; 4]> = RecordMap::open_up_to(small, large.slots)?;
    /// assert!(map.try_insert(5, [7; 4])?);
    /// map.renew(large)?;
    /// assert_eq!(map.get(5)?, Some([7; 4]));
    /// assert_eq!(map.renew(large.with_slots(5_000)), Err(RenewError::Shape(ShapeError::Slots(5_000))));
    /// # Ok::<(), Box<dyn std::error::Error>>(())
    /// ```
    ///
    /// # Errors
    ///
    /// The same as for [`RecordMap::open`].
    pub fn open_up_to(shape: Shape, slots: u32) -> Result<RecordMap<K, V>, OpenError> {
        RecordMap::open_with_hasher(shape, slots, RandomState::new())
    }
}

impl<K: RecordKey, V: Record, H: BuildHasher> RecordMap<K, V, H> {
    /// As [`RecordMap::open_up_to`], with a hasher for keys of more than 64 bits.
    ///
    /// If others choose the keys, a hash of the program's own has a key that nobody outside knows: whoever can compute it can
    /// choose keys that share it.
    ///
    /// ```
    /// # use vbr::{RecordMap, Shape, SmallStr};
    /// # use std::hash::{BuildHasherDefault, DefaultHasher};
    /// let (shape, hasher) = (Shape::for_keys(8, 1), BuildHasherDefault::<DefaultHasher>::new()); // the same in each run
    /// let ports: RecordMap<SmallStr<8>, u16, _> = RecordMap::open_with_hasher(shape, shape.slots, hasher)?;
    /// assert!(ports.try_insert(SmallStr::new("https")?, 443)?);
    /// # Ok::<(), Box<dyn std::error::Error>>(())
    /// ```
    ///
    /// # Errors
    ///
    /// The same as for [`RecordMap::open`].
    pub fn open_with_hasher(shape: Shape, slots: u32, hasher: H) -> Result<RecordMap<K, V, H>, OpenError> {
        static NEXT: AtomicU64 = AtomicU64::new(0);
        let table = Map::open(shape)?;
        let records = Records::open(slots.max(shape.slots))?;
        Ok(RecordMap { table, records, hasher, number: NEXT.fetch_add(1, Ordering::Relaxed) })
    }

    /// The number that a key has in the table.
    #[inline]
    pub(crate) fn number_of(&self, key: K) -> u64 {
        key.number(&self.hasher)
    }
}

/// What a map is, its loans, and its renewals.
impl<K: RecordKey, V: Record, H> RecordMap<K, V, H> {
    /// Returns how many slots the map was opened with.
    ///
    /// ```
    /// # use vbr::{RecordMap, Shape};
    /// assert_eq!(RecordMap::<u64, f64>::open(Shape::for_keys(1_000, 2))?.slots(), 1_128);
    /// # Ok::<(), Box<dyn std::error::Error>>(())
    /// ```
    pub fn slots(&self) -> u32 {
        self.table.slots()
    }

    /// How many slots it may have after a renewal.
    ///
    /// ```
    /// # use vbr::{RecordMap, Shape};
    /// assert_eq!(RecordMap::<u64, f64>::open_up_to(Shape::for_keys(8, 1), 5_000)?.most_slots(), 5_000);
    /// # Ok::<(), Box<dyn std::error::Error>>(())
    /// ```
    pub fn most_slots(&self) -> u32 {
        self.records.slots()
    }

    /// Returns the last epoch that the map was opened with.
    ///
    /// ```
    /// # use vbr::{RecordMap, Shape};
    /// assert_eq!(RecordMap::<u64, f64>::open(Shape::new(8, 2, 100))?.last_epoch(), 100);
    /// # Ok::<(), Box<dyn std::error::Error>>(())
    /// ```
    pub fn last_epoch(&self) -> u64 {
        self.table.last_epoch()
    }

    /// How many handles it lends.
    ///
    /// ```
    /// # use vbr::{RecordMap, Shape};
    /// assert_eq!(RecordMap::<u64, f64>::open(Shape::for_keys(8, 3))?.handle_count(), 3);
    /// # Ok::<(), Box<dyn std::error::Error>>(())
    /// ```
    pub fn handle_count(&self) -> usize {
        self.table.handle_count()
    }

    /// How many keys are in the map, at one moment. It waits for all loans, as [`Table::key_count`](crate::Table::key_count) does.
    ///
    /// ```
    /// # use vbr::{RecordMap, Shape};
    /// let map: RecordMap<u64, f64> = RecordMap::open(Shape::for_keys(8, 1))?;
    /// map.put(5, 0.5)?;
    /// assert_eq!(map.key_count(), 1);
    /// # Ok::<(), Box<dyn std::error::Error>>(())
    /// ```
    #[doc(alias = "len")]
    pub fn key_count(&self) -> u64 {
        self.table.key_count()
    }

    /// As [`RecordMap::key_count`], or `None` if a loan was still out when the time was over.
    ///
    /// ```
    /// # use std::time::Duration;
    /// # use vbr::{RecordMap, Shape};
    /// let map: RecordMap<u64, f64> = RecordMap::open(Shape::for_keys(8, 1))?;
    /// let mine = map.lend_wait();
    /// assert_eq!(map.key_count_timeout(Duration::from_millis(1)), None);
    /// # drop(mine);
    /// # Ok::<(), Box<dyn std::error::Error>>(())
    /// ```
    pub fn key_count_timeout(&self, limit: Duration) -> Option<u64> {
        self.table.key_count_timeout(limit)
    }

    /// Lends a free handle.
    ///
    /// Returns the handle, or `None` if each was lent at some moment of the call, or they are being renewed.
    ///
    /// It never waits.
    ///
    /// ```
    /// # use vbr::{RecordMap, Shape};
    /// let map: RecordMap<u64, f64> = RecordMap::open(Shape::for_keys(8, 1))?;
    /// let mut mine = map.lend().expect("the one handle");
    /// assert!(mine.try_insert(5, 0.5)?);
    /// assert!(map.lend().is_none());
    /// # Ok::<(), Box<dyn std::error::Error>>(())
    /// ```
    #[inline]
    pub fn lend(&self) -> Option<RecordLent<'_, K, V, H>> {
        self.table.lend().map(|lent| RecordLent::of(self, lent))
    }

    /// Lends a free handle as soon as there is one: if each is lent, the thread sleeps until one is given back.
    ///
    /// A thread that has a loan itself may wait for ever, and a loan without a name lasts to the end of its statement.
    /// Threads that wait have no order: one that comes later may be lent a handle before.
    ///
    /// ```
    /// # use vbr::{RecordMap, Shape};
    /// let map: RecordMap<u64, f64> = RecordMap::open(Shape::for_keys(8, 1))?;
    /// std::thread::scope(|scope| {
    ///     for key in 0..4 {
    ///         let map = &map;
    ///         scope.spawn(move || map.lend_wait().try_insert(key, 0.5));
    ///     }
    /// });
    /// assert_eq!(map.key_count(), 4);
    /// # Ok::<(), Box<dyn std::error::Error>>(())
    /// ```
    #[inline]
    pub fn lend_wait(&self) -> RecordLent<'_, K, V, H> {
        RecordLent::of(self, self.table.lend_wait())
    }

    /// Lends a free handle, as `lend_wait` does, or none if each was lent until the time was over.
    ///
    /// ```
    /// # use std::time::Duration;
    /// # use vbr::{RecordMap, Shape};
    /// let map: RecordMap<u64, f64> = RecordMap::open(Shape::for_keys(8, 1))?;
    /// let mine = map.lend_timeout(Duration::from_secs(1)).expect("the one handle");
    /// assert!(map.lend_timeout(Duration::from_millis(1)).is_none());
    /// # drop(mine);
    /// # Ok::<(), Box<dyn std::error::Error>>(())
    /// ```
    #[inline]
    pub fn lend_timeout(&self, limit: Duration) -> Option<RecordLent<'_, K, V, H>> {
        self.table.lend_timeout(limit).map(|lent| RecordLent::of(self, lent))
    }

    /// Lets the handles go on over a fresh map of this shape, as [`HandleOf::renew_all`](crate::HandleOf::renew_all) does,
    /// once none is on loan.
    ///
    /// It lends none meanwhile, and waits for the loans, so a thread that has one itself waits for ever. Threads that wait
    /// for a handle keep waiting. A refusal leaves the set as it was, and it lends again.
    ///
    /// If another thread renews to the same shape while this one waits, one renewal serves both. So each thread may ask for
    /// one if a call was refused since the last epoch is spent, once it has no loan.
    ///
    /// The records go along.
    ///
    /// [`Records::renew`] carries them.
    ///
    /// ```
    /// # use vbr::{RecordMap, Shape};
    /// let map: RecordMap<u64, [u64; 4]> = RecordMap::open(Shape::for_keys(100, 2))?;
    /// map.put(5, [7; 4])?;
    /// map.renew(Shape::for_keys(100, 2))?;
    /// assert_eq!(map.get(5)?, Some([7; 4]));
    /// # Ok::<(), Box<dyn std::error::Error>>(())
    /// ```
    ///
    /// # Errors
    ///
    /// [`RenewError::Shape`], also if the shape has more slots than [`RecordMap::most_slots`], [`RenewError::Slots`] and
    /// [`RenewError::Memory`]. The map is as it was then.
    pub fn renew(&self, shape: Shape) -> Result<(), RenewError> {
        self.records.renew(&self.table, shape)
    }

    /// The same, or refused if not all loans were back when the time was over.
    ///
    /// ```
    /// # use std::time::Duration;
    /// # use vbr::{RecordMap, RenewError, Shape};
    /// let shape = Shape::for_keys(100, 2);
    /// let map: RecordMap<u64, [u64; 4]> = RecordMap::open(shape)?;
    /// let mine = map.lend_wait();
    /// assert_eq!(map.renew_timeout(shape, Duration::from_millis(1)), Err(RenewError::Lent));
    /// # drop(mine);
    /// # Ok::<(), Box<dyn std::error::Error>>(())
    /// ```
    ///
    /// # Errors
    ///
    /// The same as for [`RecordMap::renew`], and [`RenewError::Lent`]. The map is as it was then.
    pub fn renew_timeout(&self, shape: Shape, limit: Duration) -> Result<(), RenewError> {
        self.records.renew_until(&self.table, shape, Instant::now().checked_add(limit))
    }

    /// Makes a call by a loan, and makes it again over a fresh map if it is refused for want of a slot or an epoch, as
    /// [`Table::call`](crate::Table::call) does. The records are carried over. It grows as far as `growth` lets it, and no further than
    /// [`RecordMap::most_slots`].
    ///
    /// ```
    /// # use vbr::{Growth, RecordMap, Shape};
    /// let map: RecordMap<u64, [u64; 4]> = RecordMap::open_up_to(Shape::new(8, 8, 100), 10_000)?; // and it grows
    /// for key in 0..1_000 {
    ///     assert!(map.call(Growth::up_to(10_000), |mine| mine.try_insert(key, [key; 4]))?);
    /// }
    /// assert_eq!((map.get(700)?, map.key_count()), (Some([700; 4]), 1_000));
    /// # Ok::<(), Box<dyn std::error::Error>>(())
    /// ```
    ///
    /// # Errors
    ///
    /// What `call` is refused by. [`Refusal::NoSlot`] comes if the map may grow no further, and either of the two if there is no
    /// memory for a renewal.
    pub fn call<R>(
        &self,
        growth: Growth,
        mut call: impl FnMut(&mut RecordLent<'_, K, V, H>) -> Result<R, RecordRefusal>,
    ) -> Result<R, RecordRefusal> {
        let growth = growth.within(self.most_slots());
        loop {
            let (renewals, told) = {
                let mut mine = self.lend_wait();
                (self.table.lender.renewals(), call(&mut mine))
            };
            match told {
                Err(RecordRefusal::Refused(why))
                    if self.table.renew_after(why, growth, renewals, Some(&self.records.words)) == Ok(true) => {}
                told => return told,
            }
        }
    }

    /// How the map is opened now, as a thread that has a loan sees it: no renewal overtakes it.
    #[inline]
    pub(crate) fn opening(&self) -> Opening {
        Opening { map: self.number, renewals: self.table.lender.renewals() }
    }

    /// What stands under the number of a key.
    #[inline]
    pub(crate) fn find(&self, pass: &PassOf<Numbers>, number: u64, key: K) -> Result<Found<V>, OutOfSteps> {
        Ok(match self.record_of(pass, number)? {
            Some(((kept, value), at)) if kept == key.kept() => Found::There(value, at),
            Some(_) => Found::Another,
            None => Found::Nothing,
        })
    }

    /// The record with a number.
    #[inline]
    #[allow(clippy::type_complexity, reason = "it is what `read_entry` gives")]
    pub(crate) fn record_of(&self, pass: &PassOf<Numbers>, number: u64) -> Result<Option<((K::Kept, V), At)>, OutOfSteps> {
        self.records.read_entry(pass, number)
    }

    /// Whether a key stands under its number; it reads nothing of the value.
    #[inline]
    pub(crate) fn has_kept(&self, pass: &PassOf<Numbers>, number: u64, key: K) -> Result<bool, OutOfSteps> {
        if K::Kept::WORDS == 0 {
            return pass.has(number);
        }
        let found = self.records.words.read_entry(pass, number)?;
        Ok(found.is_some_and(|(kept, _): (K::Kept, _)| kept == key.kept()))
    }

    #[inline]
    pub(crate) fn records(&self) -> &Records<(K::Kept, V)> {
        &self.records
    }
}

/// Calls of the map itself, each by a loan for it alone.
impl<K: RecordKey, V: Record, H: BuildHasher> RecordMap<K, V, H> {
    /// Looks a key up without its value.
    ///
    /// Returns `true` if the key is there; `false` if it is absent.
    ///
    /// Of a hashed key it reads the key in the record, and no value.
    ///
    /// It is [`RecordLent::has`], by a loan for this call alone.
    ///
    /// ```
    /// # use vbr::{RecordMap, Shape, SmallStr};
    /// let map: RecordMap<SmallStr<8>, f64> = RecordMap::open(Shape::for_keys(8, 1))?;
    /// map.put(SmallStr::new("port")?, 0.5)?;
    /// assert!(map.has(SmallStr::new("port")?)? && !map.has(SmallStr::new("gate")?)?);
    /// # Ok::<(), Box<dyn std::error::Error>>(())
    /// ```
    ///
    /// # Errors
    ///
    /// The same as for [`RecordLent::has`].
    #[doc(alias = "contains_key")]
    pub fn has(&self, key: K) -> Result<bool, OutOfSteps> {
        self.lend_wait().has(key)
    }

    /// Looks a key up and gives its value.
    ///
    /// Returns its value if the key is there; `None` if it is absent. It leaves the map as it was: its steps are loads.
    ///
    /// It is [`RecordLent::get`], by a loan for this call alone.
    ///
    /// ```
    /// # use vbr::{RecordMap, Shape};
    /// let map: RecordMap<u64, [u64; 4]> = RecordMap::open(Shape::for_keys(8, 1))?;
    /// map.put(5, [7; 4])?;
    /// assert_eq!((map.get(5)?, map.get(6)?), (Some([7; 4]), None));
    /// # Ok::<(), Box<dyn std::error::Error>>(())
    /// ```
    ///
    /// # Errors
    ///
    /// The same as for [`RecordLent::get`].
    pub fn get(&self, key: K) -> Result<Option<V>, OutOfSteps> {
        self.lend_wait().get(key)
    }

    /// The value of a key, as `get` gives it, and which entry it is of.
    ///
    /// It is [`RecordLent::get_entry`], by a loan for this call alone.
    ///
    /// ```
    /// # use vbr::{RecordMap, Shape};
    /// let map: RecordMap<u64, [u64; 4]> = RecordMap::open(Shape::for_keys(8, 1))?;
    /// map.put(5, [7; 4])?;
    /// let entry = map.get_entry(5)?.expect("5 is there");
    /// assert_eq!((*entry.key(), *entry.value()), (5, [7; 4]));
    /// # Ok::<(), Box<dyn std::error::Error>>(())
    /// ```
    ///
    /// # Errors
    ///
    /// The same as for [`RecordLent::get_entry`].
    pub fn get_entry(&self, key: K) -> Result<Option<RecordEntry<K, V>>, OutOfSteps> {
        self.lend_wait().get_entry(key)
    }

    /// Adds a key with its value.
    ///
    /// Returns `true` if the key was absent, and is added; `false` if it was there, and keeps the value that it has.
    ///
    /// It is [`RecordLent::try_insert`], by a loan for this call alone.
    ///
    /// ```
    /// # use vbr::{RecordMap, Shape};
    /// let map: RecordMap<u64, [u64; 4]> = RecordMap::open(Shape::for_keys(8, 1))?;
    /// assert!(map.try_insert(5, [7; 4])? && !map.try_insert(5, [8; 4])?);
    /// assert_eq!(map.get(5)?, Some([7; 4]));
    /// # Ok::<(), Box<dyn std::error::Error>>(())
    /// ```
    ///
    /// # Errors
    ///
    /// The same as for [`RecordLent::try_insert`].
    pub fn try_insert(&self, key: K, value: V) -> Result<bool, RecordRefusal> {
        self.lend_wait().try_insert(key, value)
    }

    /// Gives a key this value, whether it is there or not.
    ///
    /// Returns the value that it had if the key was there, and has the new value; `None` if it was absent, and is inserted.
    ///
    /// It is [`RecordLent::put`], by a loan for this call alone.
    ///
    /// ```
    /// # use vbr::{RecordMap, Shape};
    /// let map: RecordMap<u64, [u64; 4]> = RecordMap::open(Shape::for_keys(8, 1))?;
    /// assert_eq!((map.put(5, [7; 4])?, map.put(5, [8; 4])?), (None, Some([7; 4])));
    /// # Ok::<(), Box<dyn std::error::Error>>(())
    /// ```
    ///
    /// # Errors
    ///
    /// The same as for [`RecordLent::put`].
    pub fn put(&self, key: K, value: V) -> Result<Option<V>, RecordRefusal> {
        self.lend_wait().put(key, value)
    }

    /// Gives a key that is there another value, so that no call finds it absent meanwhile.
    ///
    /// Returns the value that it had if the key was there, and has the new value; `None` if it was absent, and nothing was
    /// changed.
    ///
    /// It is [`RecordLent::replace`], by a loan for this call alone.
    ///
    /// ```
    /// # use vbr::{RecordMap, Shape};
    /// let map: RecordMap<u64, [u64; 4]> = RecordMap::open(Shape::for_keys(8, 1))?;
    /// map.put(5, [7; 4])?;
    /// assert_eq!((map.replace(5, [8; 4])?, map.replace(6, [8; 4])?), (Some([7; 4]), None));
    /// # Ok::<(), Box<dyn std::error::Error>>(())
    /// ```
    ///
    /// # Errors
    ///
    /// The same as for [`RecordLent::replace`].
    pub fn replace(&self, key: K, value: V) -> Result<Option<V>, Refusal> {
        self.lend_wait().replace(key, value)
    }

    /// Gives a key this value if it still has the very entry that was read, and says whether it had; else nothing is changed.
    /// So no update that came in between is lost.
    ///
    /// An entry of another map, or from before a renewal, is none that the map has.
    ///
    /// It is [`RecordLent::replace_entry`], by a loan for this call alone.
    ///
    /// ```
    /// # use vbr::{RecordMap, Shape};
    /// let map: RecordMap<u64, [u64; 4]> = RecordMap::open(Shape::for_keys(8, 1))?;
    /// map.put(5, [7; 4])?;
    /// let entry = map.get_entry(5)?.expect("5 is there");
    /// assert!(map.replace_entry(&entry, [8; 4])?);
    /// assert!(!map.replace_entry(&entry, [9; 4])?); // it has another entry
    /// assert_eq!(map.get(5)?, Some([8; 4]));
    /// # Ok::<(), Box<dyn std::error::Error>>(())
    /// ```
    ///
    /// # Errors
    ///
    /// The same as for [`RecordLent::replace_entry`].
    pub fn replace_entry(&self, entry: &RecordEntry<K, V>, value: V) -> Result<bool, Refusal> {
        self.lend_wait().replace_entry(entry, value)
    }

    /// Takes a key out with its value.
    ///
    /// Returns the value of the entry that this call took if the key was there, and is taken out; `None` if it was absent.
    ///
    /// It takes no slot.
    ///
    /// It is [`RecordLent::remove`], by a loan for this call alone.
    ///
    /// ```
    /// # use vbr::{RecordMap, Shape};
    /// let map: RecordMap<u64, [u64; 4]> = RecordMap::open(Shape::for_keys(8, 1))?;
    /// map.put(5, [7; 4])?;
    /// assert_eq!((map.remove(5)?, map.remove(5)?), (Some([7; 4]), None));
    /// # Ok::<(), Box<dyn std::error::Error>>(())
    /// ```
    ///
    /// # Errors
    ///
    /// The same as for [`RecordLent::remove`].
    pub fn remove(&self, key: K) -> Result<Option<V>, OutOfSteps> {
        self.lend_wait().remove(key)
    }

    /// Takes a key out with its value if it still has the very entry that was found.
    ///
    /// Returns `true` if the key had that entry, and is taken out. Returns `false` if it is absent, or was taken out and
    /// added again, or given a value, even the same one, since then; nothing was changed.
    ///
    /// An entry of another map, or from before a renewal, is none that the map has.
    ///
    /// It is [`RecordLent::remove_entry`], by a loan for this call alone.
    ///
    /// ```
    /// # use vbr::{RecordMap, Shape};
    /// let map: RecordMap<u64, [u64; 4]> = RecordMap::open(Shape::for_keys(8, 1))?;
    /// map.put(5, [7; 4])?;
    /// let entry = map.get_entry(5)?.expect("5 is there");
    /// map.put(5, [8; 4])?;
    /// assert!(!map.remove_entry(&entry)?); // it was changed since
    /// # Ok::<(), Box<dyn std::error::Error>>(())
    /// ```
    ///
    /// # Errors
    ///
    /// The same as for [`RecordLent::remove_entry`].
    pub fn remove_entry(&self, entry: &RecordEntry<K, V>) -> Result<bool, OutOfSteps> {
        self.lend_wait().remove_entry(entry)
    }

    /// Does with a key what a function says of the value that it has, or of none, and returns that value.
    ///
    /// The change is made only if the key still has what the function was given. Else it is called again, with what is there
    /// then. So each call on a key is given what the one before it left, and no change is lost.
    ///
    /// `change` is the function. It is asked while a handle is on loan, so it makes no call on the map itself.
    ///
    /// It is [`RecordLent::compute`], by a loan for this call alone.
    ///
    /// ```
    /// # use vbr::{Change, RecordMap, Shape};
    /// let map: RecordMap<u64, [u64; 2]> = RecordMap::open(Shape::for_keys(8, 1))?;
    /// let one_more = |before: Option<[u64; 2]>| Change::Put([before.map_or(1, |[count, _]| count + 1), 70]);
    /// assert_eq!(map.compute(5, one_more)?, None);
    /// assert_eq!(map.compute(5, one_more)?, Some([1, 70]));
    /// assert_eq!(map.compute(5, |_| Change::Keep)?, Some([2, 70]));
    /// assert_eq!(map.compute(5, |_| Change::Remove)?, Some([2, 70]));
    /// assert!(!map.has(5)?);
    /// # Ok::<(), Box<dyn std::error::Error>>(())
    /// ```
    ///
    /// # Errors
    ///
    /// The same as for [`RecordLent::compute`].
    pub fn compute(&self, key: K, change: impl FnMut(Option<V>) -> Change<V>) -> Result<Option<V>, RecordRefusal> {
        self.lend_wait().compute(key, change)
    }
}

impl<K: RecordKey, V: Record, H> fmt::Debug for RecordMap<K, V, H> {
    fn fmt(&self, f: &mut fmt::Formatter<'_>) -> fmt::Result {
        f.debug_struct("RecordMap")
            .field("slots", &self.slots())
            .field("most_slots", &self.most_slots())
            .field("last_epoch", &self.last_epoch())
            .field("handles", &self.handle_count())
            .finish_non_exhaustive()
    }
}

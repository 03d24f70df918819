//! Calls of maps of records.
// tools/interface makes this file of bindings/interface/record_lent.rs.in.
use crate::record_entry::{At, Numbers, RecordEntry, RecordRefusal};
use crate::record_map::Found;
use crate::{Change, Cursor, Held, Lent, OutOfSteps, Record, RecordKey, RecordMap, Refusal, Steps, WalkError};
use std::fmt;
use std::hash::{BuildHasher, RandomState};
use std::iter::FusedIterator;

/// A handle on loan from a record map, which makes all calls. It goes back at the end of this, and may go to another thread
/// before.
///
/// A look-up hashes the key, unless it is kept as it is, finds the entry, copies the record, and asks by one load whether the
/// entry still stands there. A call that changes a key looks it up first. If there is something to store it takes a slot,
/// writes the record there, and puts the slot in the place of the entry that it read. A call that changes nothing takes no
/// slot.
///
/// Each call of the map that these calls make has the budget of the handle. A change begins anew for each update of the key
/// by others that came in between, and a look-up only if the slot of its entry was handed out anew.
///
/// [`RecordLent::set_steps`] gives another budget. A loan isn't `Sync`.
///
/// ```
/// # use vbr::{RecordLent, RecordMap, RecordRefusal, Shape};
/// /// Counts a visit of a page, and notes when it was.
/// fn visit(visits: &mut RecordLent<u64, [u64; 2]>, page: u64, now: u64) -> Result<(), RecordRefusal> {
///     visits.compute(page, |before| vbr::Change::Put([before.map_or(0, |[count, _]| count) + 1, now]))?;
///     Ok(())
/// }
/// let map = RecordMap::open(Shape::for_keys(8, 1))?;
/// let mut mine = map.lend_wait();
/// visit(&mut mine, 5, 70)?;
/// visit(&mut mine, 5, 71)?;
/// assert_eq!(mine.get(5)?, Some([2, 71]));
/// # Ok::<(), Box<dyn std::error::Error>>(())
/// ```
///
/// ```compile_fail,E0277
/// fn is_sync<T: Sync>() {}
/// is_sync::<vbr::RecordLent<'static, u64, u64>>();
/// ```
#[must_use = "it goes back when it is dropped"]
#[clippy::has_significant_drop]
pub struct RecordLent<'m, K: RecordKey, V: Record, H = RandomState> {
    map: &'m RecordMap<K, V, H>,
    lent: Lent<'m, Numbers>,
}

impl<'m, K: RecordKey, V: Record, H> RecordLent<'m, K, V, H> {
    #[inline]
    pub(crate) fn of(map: &'m RecordMap<K, V, H>, lent: Lent<'m, Numbers>) -> RecordLent<'m, K, V, H> {
        RecordLent { map, lent }
    }

    /// Gives the calls of this loan another budget. After the loan the handle has its own again.
    ///
    /// ```
    /// # use vbr::{OutOfSteps, RecordMap, Shape, Steps};
    /// let map: RecordMap<u64, f64> = RecordMap::open(Shape::for_keys(8, 1))?;
    /// let mut mine = map.lend_wait();
    /// mine.set_steps(Steps::new(1));
    /// assert_eq!(mine.get(5), Err(OutOfSteps));
    /// # Ok::<(), Box<dyn std::error::Error>>(())
    /// ```
    #[inline]
    pub fn set_steps(&mut self, steps: Steps) {
        self.lent.set_steps(steps);
    }

    /// Returns the epoch that the handle read last in a call.
    ///
    /// It is 1 before its first call. Renew the map before it reaches [`last_epoch`](crate::PassOf::last_epoch). It makes no
    /// step, so others may have advanced the epoch since.
    ///
    /// ```
    /// # use vbr::{RecordMap, Shape};
    /// let map: RecordMap<u64, f64> = RecordMap::open(Shape::for_keys(8, 1))?;
    /// assert_eq!(map.lend_wait().epoch(), 1);
    /// # Ok::<(), Box<dyn std::error::Error>>(())
    /// ```
    #[inline]
    #[must_use]
    pub fn epoch(&self) -> u64 {
        self.lent.epoch()
    }

    /// Puts the slots that the handle keeps to itself into the pool that all handles share, where any of them finds them.
    ///
    /// Returns how many it gave back, at most 64. It can't fail.
    ///
    /// ```
    /// # use vbr::{RecordMap, Shape};
    /// let map: RecordMap<u64, f64> = RecordMap::open(Shape::for_keys(8, 1))?;
    /// let mut mine = map.lend_wait();
    /// mine.put(5, 0.5)?;
    /// mine.give_slots_back();
    /// assert_eq!(mine.give_slots_back(), 0);
    /// # Ok::<(), Box<dyn std::error::Error>>(())
    /// ```
    pub fn give_slots_back(&mut self) -> u32 {
        self.lent.give_slots_back()
    }

    /// The next entry of a walk, a key with a value that it had at a moment of the call; none at the end. A key that is there
    /// for the whole walk is given once.
    ///
    /// It is as [`PassOf::next`](crate::PassOf::next). The walk may go on by another loan.
    ///
    /// ```
    /// # use vbr::{Cursor, RecordMap, Shape};
    /// let map: RecordMap<u64, [u64; 4]> = RecordMap::open(Shape::for_keys(8, 1))?;
    /// map.put(5, [7; 4])?;
    /// let mut cursor = Cursor::first();
    /// assert_eq!(map.lend_wait().next(&mut cursor)?, Some((5, [7; 4])));
    /// assert_eq!(map.lend_wait().next(&mut cursor)?, None);
    /// # Ok::<(), Box<dyn std::error::Error>>(())
    /// ```
    ///
    /// # Errors
    ///
    /// [`WalkError`]. Nothing is given then, and no entry is passed over by the next call.
    pub fn next(&self, cursor: &mut Cursor) -> Result<Option<(K, V)>, WalkError> {
        Ok(self.next_entry(cursor)?.map(|RecordEntry { key, value, .. }| (key, value)))
    }

    /// Returns the next entry of a walk, as [`RecordLent::next`] does, and which one it is: for [`RecordLent::remove_entry`] and
    /// [`RecordLent::replace_entry`].
    ///
    /// ```
    /// # use vbr::{Cursor, RecordLent, Refusal};
    /// /// Ends the sessions that nobody has used since, and says how many; none that is used meanwhile.
    /// fn sweep(sessions: &mut RecordLent<[u8; 16], [u64; 2]>, since: u64) -> Result<u64, Refusal> {
    ///     let (mut cursor, mut count) = (Cursor::first(), 0);
    ///     while let Some(entry) = sessions.next_entry(&mut cursor)? {
    ///         let [_user, used] = *entry.value();
    ///         if used < since && sessions.remove_entry(&entry)? {
    ///             count += 1;
    ///         }
    ///     }
    ///     Ok(count)
    /// }
    /// # let map = vbr::RecordMap::open(vbr::Shape::for_keys(8, 1))?;
    /// # let mut mine = map.lend_wait();
    /// # for (key, used) in [(5, 70), (6, 71)] {
    /// #     mine.put([key; 16], [1, used])?;
    /// # }
    /// # assert_eq!((sweep(&mut mine, 71)?, mine.get([6; 16])?), (1, Some([1, 71])));
    /// # Ok::<(), Box<dyn std::error::Error>>(())
    /// ```
    ///
    /// # Errors
    ///
    /// The same as for [`RecordLent::next`].
    pub fn next_entry(&self, cursor: &mut Cursor) -> Result<Option<RecordEntry<K, V>>, WalkError> {
        loop {
            let before = *cursor;
            let Some((number, at)) = self.lent.next_at(cursor)? else { return Ok(None) };
            let record = self.map.records().copy(&at);
            if self.lent.is_still(&at) {
                return Ok(Some(self.entry(number, record, at)));
            }
            match self.map.record_of(&self.lent, number) {
                Ok(Some((record, at))) => return Ok(Some(self.entry(number, record, at))),
                Ok(None) => {} // it has left
                Err(why) => {
                    *cursor = before;
                    return Err(why.into());
                }
            }
        }
    }

    /// The entry with this number.
    fn entry(&self, number: u64, (kept, value): (K::Kept, V), at: At) -> RecordEntry<K, V> {
        RecordEntry { key: K::from_kept(number, kept), value, number, at, of: self.map.opening() }
    }

    /// Goes over all entries while other threads make calls, as [`RecordLent::next`] does.
    ///
    /// ```
    /// # use vbr::{RecordMap, Shape};
    /// let map: RecordMap<u64, [u64; 2]> = RecordMap::open(Shape::for_keys(8, 1))?;
    /// let mut mine = map.lend_wait();
    /// for key in [5, 7] {
    ///     mine.put(key, [key, 1])?;
    /// }
    /// let mut sum = 0;
    /// for entry in &mine {
    ///     let (key, [same, one]) = entry?;
    ///     assert_eq!((key, one), (same, 1));
    ///     sum += key;
    /// }
    /// assert_eq!((sum, mine.iter().count()), (12, 2));
    /// # Ok::<(), Box<dyn std::error::Error>>(())
    /// ```
    ///
    /// # Errors
    ///
    /// An item is [`OutOfSteps`] whenever [`PassOf::iter`](crate::PassOf::iter)'s would be.
    pub fn iter(&self) -> RecordIter<'_, K, V, H> {
        RecordIter { lent: self, cursor: Cursor::first() }
    }
}

impl<K: RecordKey, V: Record, H: BuildHasher> RecordLent<'_, K, V, H> {
    /// Looks a key up without its value.
    ///
    /// Returns `true` if the key is there; `false` if it is absent.
    ///
    /// Of a hashed key it reads the key in the record, and no value.
    ///
    /// ```
    /// # use vbr::{RecordMap, Shape, SmallStr};
    /// let map: RecordMap<SmallStr<8>, f64> = RecordMap::open(Shape::for_keys(8, 1))?;
    /// let mut mine = map.lend_wait();
    /// mine.put(SmallStr::new("port")?, 0.5)?;
    /// assert!(mine.has(SmallStr::new("port")?)? && !mine.has(SmallStr::new("gate")?)?);
    /// # Ok::<(), Box<dyn std::error::Error>>(())
    /// ```
    ///
    /// # Errors
    ///
    /// [`OutOfSteps`].
    #[doc(alias = "contains_key")]
    #[inline]
    pub fn has(&self, key: K) -> Result<bool, OutOfSteps> {
        self.map.has_kept(&self.lent, self.map.number_of(key), key)
    }

    /// Looks a key up and gives its value.
    ///
    /// Returns its value if the key is there; `None` if it is absent. It leaves the map as it was: its steps are loads.
    ///
    /// ```
    /// # use vbr::{RecordMap, Shape};
    /// let map: RecordMap<u64, [u64; 4]> = RecordMap::open(Shape::for_keys(8, 1))?;
    /// let mut mine = map.lend_wait();
    /// mine.put(5, [7; 4])?;
    /// assert_eq!((mine.get(5)?, mine.get(6)?), (Some([7; 4]), None));
    /// # Ok::<(), Box<dyn std::error::Error>>(())
    /// ```
    ///
    /// # Errors
    ///
    /// [`OutOfSteps`].
    #[inline]
    pub fn get(&self, key: K) -> Result<Option<V>, OutOfSteps> {
        Ok(self.map.find(&self.lent, self.map.number_of(key), key)?.value())
    }

    /// The value of a key, as `get` gives it, and which entry it is of.
    ///
    /// ```
    /// # use vbr::{RecordMap, Shape};
    /// let map: RecordMap<u64, [u64; 4]> = RecordMap::open(Shape::for_keys(8, 1))?;
    /// let mut mine = map.lend_wait();
    /// mine.put(5, [7; 4])?;
    /// let entry = mine.get_entry(5)?.expect("5 is there");
    /// assert_eq!((*entry.key(), *entry.value()), (5, [7; 4]));
    /// # Ok::<(), Box<dyn std::error::Error>>(())
    /// ```
    ///
    /// # Errors
    ///
    /// [`OutOfSteps`].
    pub fn get_entry(&self, key: K) -> Result<Option<RecordEntry<K, V>>, OutOfSteps> {
        let number = self.map.number_of(key);
        Ok(match self.map.find(&self.lent, number, key)? {
            Found::There(value, at) => Some(RecordEntry { key, value, number, at, of: self.map.opening() }),
            Found::Nothing | Found::Another => None,
        })
    }

    /// Adds a key with its value.
    ///
    /// Returns `true` if the key was absent, and is added; `false` if it was there, and keeps the value that it has.
    ///
    /// ```
    /// # use vbr::{RecordMap, Shape};
    /// let map: RecordMap<u64, [u64; 4]> = RecordMap::open(Shape::for_keys(8, 1))?;
    /// let mut mine = map.lend_wait();
    /// assert!(mine.try_insert(5, [7; 4])? && !mine.try_insert(5, [8; 4])?);
    /// assert_eq!(mine.get(5)?, Some([7; 4]));
    /// # Ok::<(), Box<dyn std::error::Error>>(())
    /// ```
    ///
    /// # Errors
    ///
    /// [`RecordRefusal::HashTaken`]; [`Refusal::OutOfSteps`], and if the key was absent at a moment of the call [`Refusal::NoSlot`] and
    /// [`Refusal::EpochSpent`]. Nothing was changed then.
    pub fn try_insert(&mut self, key: K, value: V) -> Result<bool, RecordRefusal> {
        let before = self.compute(key, |before| before.map_or(Change::Put(value), |_| Change::Keep))?;
        Ok(before.is_none())
    }

    /// Gives a key this value, whether it is there or not.
    ///
    /// Returns the value that it had if the key was there, and has the new value; `None` if it was absent, and is inserted.
    ///
    /// ```
    /// # use vbr::{RecordMap, Shape};
    /// let map: RecordMap<u64, [u64; 4]> = RecordMap::open(Shape::for_keys(8, 1))?;
    /// let mut mine = map.lend_wait();
    /// assert_eq!((mine.put(5, [7; 4])?, mine.put(5, [8; 4])?), (None, Some([7; 4])));
    /// # Ok::<(), Box<dyn std::error::Error>>(())
    /// ```
    ///
    /// # Errors
    ///
    /// [`RecordRefusal::HashTaken`], [`Refusal::OutOfSteps`], [`Refusal::NoSlot`] and [`Refusal::EpochSpent`]. Nothing was changed
    /// then.
    pub fn put(&mut self, key: K, value: V) -> Result<Option<V>, RecordRefusal> {
        self.compute(key, |_| Change::Put(value))
    }

    /// Gives a key that is there another value, so that no call finds it absent meanwhile.
    ///
    /// Returns the value that it had if the key was there, and has the new value; `None` if it was absent, and nothing was
    /// changed.
    ///
    /// ```
    /// # use vbr::{RecordMap, Shape};
    /// let map: RecordMap<u64, [u64; 4]> = RecordMap::open(Shape::for_keys(8, 1))?;
    /// let mut mine = map.lend_wait();
    /// mine.put(5, [7; 4])?;
    /// assert_eq!((mine.replace(5, [8; 4])?, mine.replace(6, [8; 4])?), (Some([7; 4]), None));
    /// # Ok::<(), Box<dyn std::error::Error>>(())
    /// ```
    ///
    /// # Errors
    ///
    /// [`Refusal::OutOfSteps`], and, if the key was there at a moment, [`Refusal::NoSlot`] and [`Refusal::EpochSpent`]. Nothing was
    /// changed then.
    pub fn replace(&mut self, key: K, value: V) -> Result<Option<V>, Refusal> {
        // of a key whose hash is taken nothing is to be put
        Ok(self.change(key, |before| before.map_or(Change::Keep, |_| Change::Put(value)))?.unwrap_or_default())
    }

    /// Gives a key this value if it still has the very entry that was read, and says whether it had; else nothing is changed.
    /// So no update that came in between is lost.
    ///
    /// An entry of another map, or from before a renewal, is none that the map has.
    ///
    /// ```
    /// # use vbr::{RecordMap, Shape};
    /// let map: RecordMap<u64, [u64; 4]> = RecordMap::open(Shape::for_keys(8, 1))?;
    /// let mut mine = map.lend_wait();
    /// mine.put(5, [7; 4])?;
    /// let entry = mine.get_entry(5)?.expect("5 is there");
    /// assert!(mine.replace_entry(&entry, [8; 4])?);
    /// assert!(!mine.replace_entry(&entry, [9; 4])?); // it has another entry
    /// assert_eq!(mine.get(5)?, Some([8; 4]));
    /// # Ok::<(), Box<dyn std::error::Error>>(())
    /// ```
    ///
    /// # Errors
    ///
    /// [`Refusal::OutOfSteps`], [`Refusal::NoSlot`] and [`Refusal::EpochSpent`]. Nothing was changed then.
    pub fn replace_entry(&mut self, entry: &RecordEntry<K, V>, value: V) -> Result<bool, Refusal> {
        if entry.of != self.map.opening() {
            return Ok(false);
        }
        Ok(self.written(entry.key, value)?.replace(entry.number, &entry.at, ())?.is_ok())
    }

    /// Takes a key out with its value.
    ///
    /// Returns the value of the entry that this call took if the key was there, and is taken out; `None` if it was absent.
    ///
    /// It takes no slot.
    ///
    /// ```
    /// # use vbr::{RecordMap, Shape};
    /// let map: RecordMap<u64, [u64; 4]> = RecordMap::open(Shape::for_keys(8, 1))?;
    /// let mut mine = map.lend_wait();
    /// mine.put(5, [7; 4])?;
    /// assert_eq!((mine.remove(5)?, mine.remove(5)?), (Some([7; 4]), None));
    /// # Ok::<(), Box<dyn std::error::Error>>(())
    /// ```
    ///
    /// # Errors
    ///
    /// [`OutOfSteps`]. Nothing was changed then.
    pub fn remove(&mut self, key: K) -> Result<Option<V>, OutOfSteps> {
        let number = self.map.number_of(key);
        while let Found::There(value, at) = self.map.find(&self.lent, number, key)? {
            if self.lent.remove_entry(number, &at)? {
                return Ok(Some(value));
            }
        }
        Ok(None)
    }

    /// Takes a key out with its value if it still has the very entry that was found.
    ///
    /// Returns `true` if the key had that entry, and is taken out. Returns `false` if it is absent, or was taken out and
    /// added again, or given a value, even the same one, since then; nothing was changed.
    ///
    /// An entry of another map, or from before a renewal, is none that the map has.
    ///
    /// ```
    /// # use vbr::{RecordMap, Shape};
    /// let map: RecordMap<u64, [u64; 4]> = RecordMap::open(Shape::for_keys(8, 1))?;
    /// let mut mine = map.lend_wait();
    /// mine.put(5, [7; 4])?;
    /// let entry = mine.get_entry(5)?.expect("5 is there");
    /// mine.put(5, [8; 4])?;
    /// assert!(!mine.remove_entry(&entry)?); // it was changed since
    /// # Ok::<(), Box<dyn std::error::Error>>(())
    /// ```
    ///
    /// # Errors
    ///
    /// [`OutOfSteps`]. Nothing was changed then.
    pub fn remove_entry(&mut self, entry: &RecordEntry<K, V>) -> Result<bool, OutOfSteps> {
        if entry.of != self.map.opening() {
            return Ok(false);
        }
        self.lent.remove_entry(entry.number, &entry.at)
    }

    /// Does with a key what a function says of the value that it has, or of none, and returns that value.
    ///
    /// The change is made only if the key still has what the function was given. Else it is called again, with what is there
    /// then. So each call on a key is given what the one before it left, and no change is lost.
    ///
    /// `change` is the function. It is asked while a handle is on loan, so it makes no call on the map itself.
    ///
    /// ```
    /// # use vbr::{Change, RecordMap, Shape};
    /// let map: RecordMap<u64, [u64; 2]> = RecordMap::open(Shape::for_keys(8, 1))?;
    /// let mut mine = map.lend_wait();
    /// let one_more = |before: Option<[u64; 2]>| Change::Put([before.map_or(1, |[count, _]| count + 1), 70]);
    /// assert_eq!(mine.compute(5, one_more)?, None);
    /// assert_eq!(mine.compute(5, one_more)?, Some([1, 70]));
    /// assert_eq!(mine.compute(5, |_| Change::Keep)?, Some([2, 70]));
    /// assert_eq!(mine.compute(5, |_| Change::Remove)?, Some([2, 70]));
    /// assert!(!mine.has(5)?);
    /// # Ok::<(), Box<dyn std::error::Error>>(())
    /// ```
    ///
    /// # Errors
    ///
    /// [`Refusal::OutOfSteps`], and, if `change` said [`Change::Put`], [`Refusal::NoSlot`] and [`Refusal::EpochSpent`], and
    /// [`RecordRefusal::HashTaken`] if the key was absent. Nothing was changed then.
    pub fn compute(&mut self, key: K, change: impl FnMut(Option<V>) -> Change<V>) -> Result<Option<V>, RecordRefusal> {
        self.change(key, change)?.map_err(|Taken| RecordRefusal::HashTaken)
    }

    /// The same; nothing is changed if `change` would put the key beside another one with its hash.
    fn change(
        &mut self,
        key: K,
        mut change: impl FnMut(Option<V>) -> Change<V>,
    ) -> Result<Result<Option<V>, Taken>, Refusal> {
        let number = self.map.number_of(key);
        loop {
            let found = self.map.find(&self.lent, number, key)?;
            let before = found.value();
            let is_done = match (change(before), found) {
                (Change::Keep, _) | (Change::Remove, Found::Nothing | Found::Another) => true,
                (Change::Put(_), Found::Another) => return Ok(Err(Taken)),
                (Change::Remove, Found::There(_, at)) => self.lent.remove_entry(number, &at)?,
                (Change::Put(value), Found::There(_, at)) => self.written(key, value)?.replace(number, &at, ())?.is_ok(),
                (Change::Put(value), Found::Nothing) => self.written(key, value)?.try_insert(number, ())?.is_ok(),
            };
            if is_done {
                return Ok(Ok(before));
            }
        }
    }

    /// A slot in hand, with a record of this key.
    fn written(&mut self, key: K, value: V) -> Result<Held<'_, Numbers>, Refusal> {
        let mut held = self.lent.hold()?;
        self.map.records().write(&mut held, &(key.kept(), value));
        Ok(held)
    }
}

/// Another key with the same hash is there.
struct Taken;

/// A walk over all entries of a [`RecordMap`], as [`RecordLent::iter`] begins it. If an item is [`OutOfSteps`], the next one is of a
/// call from the same place, as for [`Iter`](crate::Iter). After the last entry it gives `None` for good.
///
/// ```
/// # use vbr::{OutOfSteps, RecordIter, RecordMap, Shape};
/// fn sum_of_firsts(entries: RecordIter<u64, [u64; 4]>) -> Result<u64, OutOfSteps> {
///     entries.map(|entry| Ok(entry?.1[0])).sum()
/// }
/// # let map = RecordMap::open(Shape::for_keys(8, 1))?;
/// # map.put(5, [7; 4])?;
/// # assert_eq!(sum_of_firsts(map.lend_wait().iter())?, 7);
/// # Ok::<(), Box<dyn std::error::Error>>(())
/// ```
#[must_use = "a walk makes no call before it is asked for an entry"]
pub struct RecordIter<'l, K: RecordKey, V: Record, H = RandomState> {
    lent: &'l RecordLent<'l, K, V, H>,
    cursor: Cursor,
}

impl<K: RecordKey, V: Record, H> Iterator for RecordIter<'_, K, V, H> {
    type Item = Result<(K, V), OutOfSteps>;

    fn next(&mut self) -> Option<Self::Item> {
        self.cursor.go_on(|cursor| self.lent.next(cursor)).transpose()
    }
}

impl<K: RecordKey, V: Record, H> FusedIterator for RecordIter<'_, K, V, H> {}

impl<'l, K: RecordKey, V: Record, H> IntoIterator for &'l RecordLent<'_, K, V, H> {
    type Item = Result<(K, V), OutOfSteps>;
    type IntoIter = RecordIter<'l, K, V, H>;

    fn into_iter(self) -> RecordIter<'l, K, V, H> {
        self.iter()
    }
}

impl<K: RecordKey, V: Record, H> fmt::Debug for RecordLent<'_, K, V, H> {
    fn fmt(&self, f: &mut fmt::Formatter<'_>) -> fmt::Result {
        f.debug_struct("RecordLent").field("number", &self.lent.number()).finish_non_exhaustive()
    }
}

impl<K: RecordKey, V: Record, H> fmt::Debug for RecordIter<'_, K, V, H> {
    fn fmt(&self, f: &mut fmt::Formatter<'_>) -> fmt::Result {
        f.debug_struct("RecordIter").field("cursor", &self.cursor).finish_non_exhaustive()
    }
}

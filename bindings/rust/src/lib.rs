//! A hash set, and a map, that threads share, in fixed memory and without a lock: a safe wrapper of a library whose calls are
//! proved. Keys and values may have any type of at most 64 bits.
//!
//! ```
//! use vbr::{Set, Shape};
//!
//! let [mut first, mut second] = Set::handles(Shape::for_keys(1_024, 2))?.try_into().expect("two handles");
//! std::thread::scope(|scope| {
//!     scope.spawn(|| first.insert(5));
//!     scope.spawn(|| second.insert(7));
//! });
//! assert!(second.contains(5)?);
//! assert!(first.close()?.is_none());
//! let report = second.close()?.expect("the last handle");
//! assert_eq!(report.keys, [5, 7]);
//! # Ok::<(), Box<dyn std::error::Error>>(())
//! ```
//!
//! A [`Shape`] says how large the set is, and for how many handles. Each handle is moved to its thread and makes calls; none
//! waits for another, and each call on a key ends within its budget of steps. The last handle that is closed gets a report of
//! what is in the set.
//!
//! # What to know before you take it
//!
//! - **Platform.** Linux on x86-64, processors of x86-64-v2 or later (SSE4.2 and POPCNT). It was run on Xeons in virtual machines
//!   under Debian 12, and nowhere else. Rust 1.85 or later, with `std`.
//! - **Limits.** Keys and values of at most 64 bits, and [`Records`] of any size beside them; keys and values of any size in a
//!   [`RecordMap`]. Up to [`MAX_SLOTS`] slots
//!   (2,147,483,647), of which each key takes one and each handle keeps up to 64; [`MAX_MANY_HANDLES`] handles; memory that is
//!   taken at the opening, 8 × (2 + buckets + 4 × slots + ⌈slots / 64⌉) bytes for a set, and 8 more for each slot of a map. A
//!   set doesn't grow by itself: [`Table::renew`], [`Table::call`] and [`HandleOf::renew_all`] let it go on in another shape, and
//!   one of several tables does ([`Sharded`]).
//! - **The epochs end.** Only calls that take a slot, for a key or a new value, advance the epoch, each by one at most: about three
//!   of a hundred inserts, also in a full cache that takes a key out before each that it puts in, since a handle keeps slots in
//!   reserve ([`PassOf::reserve`]); more in small sets. The last epoch [`MAX_EPOCH`] lasts
//!   fifteen hours at ten million inserts a second that advance it, and six days at a million. Small sets may have a greater one,
//!   and with more than 16,777,215 slots it is less ([`max_epoch`]). After it inserts are refused by [`Refusal::EpochSpent`] until
//!   the set is renewed; look-ups and removes go on. So a program that runs for weeks renews its set by a clock
//!   (`examples/server.rs`).
//! - **Progress.** Each call of the library ends within its budget, answered or refused. What is made of several
//!   ([budgets](#budgets)) has the budget for each of them, and may make any number. Nobody holds a call up: what others can
//!   cost it is bounded by what they do, and while they stand still, wherever they do, a known budget suffices. A call with a
//!   budget that is large enough is refused for want of steps only if another handle's update is answered yes meanwhile. So
//!   whoever stands still, of the callers that go on one is answered within a known number of steps. Fairness, by which each is
//!   answered, isn't claimed.
//! - **Proved** of the library's calls: each answered one takes effect at one step between its beginning and its end, in one legal
//!   history of what its caller has seen; that memory is reused safely, and what refusals and reports mean.
//! - **Argued and tested**, and not proved: that calls which a program orders (by a lock, a channel, a join, or a release and an
//!   acquire) stand in that order; that what was written before an insert can be read by whoever finds the key; that handles may
//!   change threads, and signal handlers make calls; that processes which share a set go on when one is killed. This crate, its
//!   loans, its waiting, its maps of records, its caches, and its sets and maps of several tables are tested, and proved by nobody.
//!
//! # Names
//!
//! [`Set::open`](Table::open) and `Map::open` give a set and a map, which lend their handles to threads that come and go.
//! [`Set::handles`](Table::handles) and `Map::handles` give the handles themselves, one for each thread to own. Both have a form
//! with keys that are there from the start, `open_with` and `handles_with`.
//!
//! Calls have the names of `std` if they do the same. A set's [`insert`](Pass::insert) says whether the key was absent, as
//! `HashSet`'s does. A map has no `insert`, since `HashMap`'s replaces: [`MapPass::put`] does that, and
//! [`MapPass::try_insert`] adds a key that is absent and leaves one that is there. [`PassOf::has`] is `contains` of a set and
//! `contains_key` of a map.
//!
//! A call that takes no slot (look-ups, removes, iterators) is refused for one reason alone, so its error is [`OutOfSteps`]; `?` makes
//! a [`Refusal`] of it. A walk by a cursor of the program may also meet a renewal ([`WalkError`]). There is no `FromIterator` and no
//! `Extend`, since each opening and each insert may be refused: [`PassOf::try_extend`] puts in what an iterator gives,
//! [`Pass::insert_all`] and its kin what a slice has, and each says how far it came ([`Stopped`]). Handles, loans, turns, passes and
//! reports are gone over by `for` loops.
//!
//! # Keys and values
//!
//! Named as types, `Set` and `Map` are those of `u64`. When one is opened, its types are what its calls are given: integers
//! (literals without a type are `i32`, as everywhere), `char`, `bool`, `NonZero`, also in an `Option`, pairs of `u32`, arrays of
//! up to eight bytes, addresses of IPv4, [`ByBits`] for `f64` and `f32`, a struct of your own around one of these ([`impl_bits!`]),
//! and each other type that says how it is made from bits ([`Bits`]). What comes out of a set was put in by calls of the same
//! type, so its bits always stand for a value.
//!
//! ```
//! use vbr::{impl_bits, Map, MapHandle, Shape};
//!
//! #[derive(Clone, Copy, Debug, PartialEq, Eq)]
//! struct Frame(u32);
//! impl_bits!(Frame(u32));
//!
//! /// Which frame has a page, which is a file and a place in it.
//! struct Index(MapHandle<(u32, u32), Frame>);
//!
//! let mut index = Index(Map::handles(Shape::for_keys(1_024, 1))?.remove(0));
//! assert!(index.0.try_insert((7, 0), Frame(3))?);
//! assert_eq!(index.0.get((7, 0))?, Some(Frame(3)));
//! # Ok::<(), Box<dyn std::error::Error>>(())
//! ```
//!
//! # Maps
//!
//! [`Map`] has a value beside each key. It is opened, used and closed as a [`Set`], and what is said here of sets and their
//! handles holds for maps and theirs too. [`MapPass::replace`], [`MapPass::put`], [`MapPass::compare_exchange`] and
//! [`MapPass::fetch_update`] change a value at one moment, so nobody finds the key absent. [`MapPass::get_or_insert`] and
//! [`MapPass::remove_if`] do one thing or another, depending on what is there, and [`MapPass::compute`] whatever a closure says
//! of it; [`MapPass::entry`] has the form of `HashMap`, and [`MapPass::retain`] takes out what is no longer wanted. [`Table`],
//! [`HandleOf`] and [`PassOf`] have the calls of both, for either [`Kind`].
//!
//! ```
//! use vbr::{Map, Shape};
//!
//! let [mut first, mut second] = Map::handles(Shape::for_keys(1_024, 2))?.try_into().expect("two handles");
//! assert!(first.try_insert(5, 70)?);
//! assert!(!first.try_insert(5, 71)?); // 5 keeps its value
//! assert_eq!(second.get(5)?, Some(70));
//! assert_eq!(first.replace(5, 71)?, Some(70));
//! assert_eq!(second.entry(5).and_modify(|value| *value += 1).or_insert(0)?, 72);
//! assert_eq!(first.remove(5)?, Some(72));
//! assert!(first.try_insert(7, 73)?);
//! assert!(first.close()?.is_none());
//! assert_eq!(second.close()?.expect("the last handle").entries, [(7, 73)]);
//! # Ok::<(), Box<dyn std::error::Error>>(())
//! ```
//!
//! Programs to begin from are in `examples`: `record_map.rs`, accounts by name, in a map whose keys and values are of any size;
//! `cache.rs`, pages in a fixed number of bytes, which threads load; `slot_records.rs`, records of any size beside the slots of a map;
//! `limiter.rs`, a rate limiter; `logins.rs`, logins that a sweeper takes out when they have expired; `server.rs`, a map that a clock
//! renews; `visits.rs`, a map that grows; `index.rs`, an index of several tables; `prefork.rs`, processes that share a map and are
//! killed; and short ones, `routes.rs`, `interner.rs` and `visited.rs`.
//!
//! # More keys than one table is to have
//!
//! A [`ShardedSet`] and a [`ShardedMap`] are made of several tables, the shards. A hash gives each key one shard for good, and each shard
//! grows and is renewed by itself, while calls on the others go on. So an index of 40 million keys has the epochs of small tables, and no
//! renewal stops all callers.
//!
//! ```
//! use vbr::{Growth, Shape, ShardedMap};
//!
//! let share = Shape::for_shards(400_000, 16, 4); // a sixteenth of the keys, for 4 threads at a time
//! let pages = ShardedMap::open(16, share, Growth::up_to(2 * share.slots))?; // and each shard may grow to twice its slots
//! assert!(pages.try_insert(5, 50)?);
//! assert_eq!((pages.get(5)?, pages.count_about()), (Some(50), 1));
//! # Ok::<(), Box<dyn std::error::Error>>(())
//! ```
//!
//! The page of [`Sharded`] says in which order calls stand, and what doesn't hold of several tables.
//!
//! # Maps of records
//!
//! A [`RecordMap`] has keys and values of any size, in fixed memory: values that are structs by [`record!`], and keys that are
//! numbers, strings and bytes of a fixed capacity ([`SmallStr`], [`SmallBytes`]), or structs by [`impl_record_key!`]. Its calls are those of a map. A value is
//! read as a copy, which is whole, and [`RecordMap::compute`] loses no update.
//!
//! ```
//! use vbr::{record, Change, RecordMap, Shape, SmallStr};
//!
//! record! {
//!     #[derive(Clone, Copy, Debug, PartialEq)]
//!     struct Visits {
//!         count: u64,
//!         last: [u8; 16],
//!     }
//! }
//!
//! let pages: RecordMap<SmallStr<64>, Visits> = RecordMap::open(Shape::for_keys(1_024, 2))?;
//! let page = SmallStr::new("/docs/using")?; // refused if it is longer than 64 bytes
//! for last in [[1; 16], [2; 16]] {
//!     pages.compute(page, |before| Change::Put(Visits { count: before.map_or(0, |it| it.count) + 1, last }))?;
//! }
//! assert_eq!(pages.get(page)?, Some(Visits { count: 2, last: [2; 16] }));
//! # Ok::<(), Box<dyn std::error::Error>>(())
//! ```
//!
//! A key of more than 64 bits is hashed, and compared whole; its page says what two keys with one hash do. Values are plain data, copied
//! whole: for many bytes of which a call wants few, keep a number, and [`Records`]. Tasks don't await a loan of such a map, and processes
//! don't share it.
//!
//! # Caches
//!
//! A [`Cache`] is a map of records with a bound: it is opened for a number of bytes, which it never exceeds, or of entries, and evicts
//! what wasn't used. Entries may have a time to live. [`Cache::get_or_load`] runs a loader once, however many threads miss the key. It
//! renews itself before its last epoch, and counts its hits and misses.
//!
//! ```
//! use std::time::Duration;
//! use vbr::{Cache, CacheOptions, SmallBytes, SmallStr};
//!
//! let options = CacheOptions::new().with_time_to_live(Duration::from_secs(60));
//! let pages: Cache<SmallStr<64>, SmallBytes<1_024>> = options.open_bytes(8 << 20, 4)?; // 8 MiB, four threads at a time
//! let page = SmallStr::new("/index")?;
//! let read = || SmallBytes::new(b"<html>"); // from a disk
//! assert_eq!(pages.get_or_load(page, read)?, *b"<html>");
//! assert!(pages.get(page)?.is_some());
//! pages.remove(page)?; // the page was changed
//! # Ok::<(), Box<dyn std::error::Error>>(())
//! ```
//!
//! # Records of any size
//!
//! [`Records`] are values of any size beside the slots of a set or a map. A thread holds a slot
//! ([`PassOf::hold`]), writes its record, which nobody else does meanwhile, and publishes it with a key by the [`Held`] slot.
//! A reader gets a copy that is whole. Nobody waits, and nobody frees a record.
//!
//! [`PassOf::get_entry`] says where a key stands, and [`PassOf::iter_at`] where each key of a walk does.
//! [`PassOf::remove_entry`] takes a key out only with the entry that was found.
//!
//! # Budgets
//!
//! Each call has the budget of its handle, [`Steps::AMPLE`] unless the shape gave another one ([`Shape::with_steps`]). Most
//! have a form beside them that takes one for itself: `has_within` beside `has`, and so on. `contains` and `contains_key` have
//! none, as they are other names of `has`; nor have [`MapPass::entry`], `retain`, `drain`, `clear`, batches that change a set, and
//! calls of a table itself.
//!
//! `compute`, `fetch_update`, `retain`, loops over keys, batches, and what [`MapPass::entry`] begins make several calls, and each
//! of these has the budget. If other threads change the same key again and again, `compute`, `fetch_update`, `remove_when`, `retain`
//! and `and_modify` go on for as long.
//! In short buckets the ample one is spent only if others disturb a call more than a hundred times, so most programs never
//! name one. A refused call made no call: give it up, or make it again.
//!
//! # Going over all keys
//!
//! [`PassOf::iter`] goes over all keys, and of a map over all entries, while other threads make calls. Each key that
//! is there all the while is given once, and no key that was absent all the while. They needn't have been there together at one moment.
//!
//! ```
//! use vbr::{Set, Shape};
//!
//! let [first, mut second] = Set::handles_with(Shape::for_keys(1_024, 2), &[2, 5, 9])?.try_into().expect("two handles");
//! let other = std::thread::spawn(move || second.insert(7));
//! let mut keys = first.iter().collect::<Result<Vec<_>, _>>()?;
//! keys.sort();
//! assert!(keys == [2, 5, 9] || keys == [2, 5, 7, 9]);
//! assert!(other.join().expect("a thread that ends")?);
//! assert_eq!(first.iter().count(), 4);
//! # Ok::<(), Box<dyn std::error::Error>>(())
//! ```
//!
//! Between the calls of [`PassOf::next`], which has a [`Cursor`] in place of an iterator, the handle itself makes other calls
//! too. No call says how many keys are in the set at one moment while threads are in calls: add up the balances of the handles
//! ([`PassOf::balance`]), count the keys that a walk gives, or read a report. A table that lends its handles waits until all are back,
//! and counts then ([`Table::key_count`]).
//!
//! # Threads
//!
//! If a call returns before another one begins, by a lock, a channel, a join, or a release and an acquire, it stands before
//! that one in the history whose answers the later caller gets: once a thread knows that a key was inserted, and nobody
//! removes it, [`PassOf::has`] answers yes. What a thread wrote before it inserted a key can be read by a thread that then
//! finds the key.
//!
//! A handle is no thread's: it may be moved to another one at any time, by whatever Rust has for that, and the library keeps
//! nothing for each thread. If a thread ends or panics, the handles that it owns are dropped, which closes them: nothing is
//! lost, and the last handle of the set still gets the report. A handle that is forgotten ([`core::mem::forget`]) is never
//! closed, and neither is its set. After a fork the child uses no handle, unless the process had one thread, or the set is
//! one that processes share.
//!
//! Threads that come and go, or are more than the handles, borrow those of a [`Set`] that lends them: [`Set::lend`](Table::lend)
//! gives a free handle or none, [`lend_wait`](Table::lend_wait) and [`lend_timeout`](Table::lend_timeout) wait for one, and
//! [`lend_owned`](Table::lend_owned) and its kin give a loan with a share of the set, for tasks. Tasks of any runtime await one by
//! [`lend_async`](Table::lend_async). A loan makes all calls of its handle, by the [`Pass`], and goes back when it is dropped.
//!
//! ```
//! use std::sync::Arc;
//! use vbr::{Set, Shape};
//!
//! let set = Arc::new(Set::open(Shape::for_keys(1_024, 2))?);
//! let tasks: Vec<_> = (0..8)
//!     .map(|page| {
//!         let set = Arc::clone(&set);
//!         std::thread::spawn(move || set.lend_wait().insert(page))
//!     })
//!     .collect();
//! for task in tasks {
//!     assert!(task.join().expect("a task that ends")?);
//! }
//! assert_eq!(set.lend_wait().iter().count(), 8);
//! # Ok::<(), Box<dyn std::error::Error>>(())
//! ```
//!
//! A loan that has no name lasts to the end of its statement: in `match map.lend_wait().get(5)? { .. }` through all arms. A
//! second loan in an arm is then one beside the first, and the thread waits for ever if no other handle comes back; likewise in
//! `if let` and `while let`. Keep the answer by a `let` before, or the loan, and make both calls by it. Or make the call of the
//! map itself: [`get`](Map::get), [`put`](Map::put), [`insert`](Set::insert) of a set and so on lend a handle, call, and have it
//! back when they return. Clippy reports such a statement by `significant_drop_in_scrutinee`.
//!
//! ```
//! # use vbr::{Map, Shape};
//! let map = Map::open(Shape::for_keys(1_024, 1))?;
//! match map.get(5)? {
//!     None => assert_eq!(map.put(5, 70)?, None), // by map.lend_wait() twice it would wait for ever
//!     Some(value) => println!("{value}"),
//! }
//! # Ok::<(), Box<dyn std::error::Error>>(())
//! ```
//!
//! [`Table::call`] makes calls by such a loan too. If one is refused for want of a slot or an epoch it renews the set, to a
//! larger shape as far as [`Growth`] lets it, and makes the call again.
//!
//! No call is a point of cancellation; but Rust doesn't say what becomes of a thread that is cancelled (`pthread_cancel`), so
//! cancel none that has a handle. A call in which a signal comes goes on afterwards. The handler may insert, remove, change
//! values and look up with a handle that nothing else uses; it opens, closes and drops none, since these take memory or free
//! it, and borrows none, since a return takes a lock if threads wait.
//!
//! The exports of the library ask nothing of their caller but what the types here say: a handle is moved
//! and never copied, and one call at a time has it, since it is not `Sync`.
//!
//! # Processes
//!
//! A [`SharedSet`] or a [`SharedMap`] lies in memory that a process shares with those that it forks afterwards. Any of them may be
//! killed at any moment, and the others go on. A process claims a handle. That is
//! `unsafe`, since nothing can see whether another process has the handle. It makes calls by turns, which mark the handle while
//! they last.
//!
//! ```
//! use vbr::{SharedMap, Shape};
//!
//! let map = SharedMap::open(Shape::for_keys(1_024, 4).with_deaths(8))?; // and then the processes are forked
//! // SAFETY: handle 0 is this process's alone, and this thread's.
//! let mut mine = unsafe { map.claim(0) };
//! assert!(mine.turn().try_insert(5, 70)?);
//! let mut turn = mine.turn(); // of several calls
//! assert_eq!((turn.remove(5)?, turn.get(5)?), (Some(70), None));
//! # Ok::<(), Box<dyn std::error::Error>>(())
//! ```
//!
//! Once `waitpid` has reported a death, [`SharedTable::inherit`] takes the handle over for the next process. A death within a
//! turn takes up to 66 slots along, and [`SharedTable::renew`] wins them back. `examples/prefork.rs` is a pre-fork server
//! whose workers are killed at random moments.
//!
//! # How it finds the library
//!
//! The crate has the library in it, `libvbr.a`, and links it statically: as a package, as a `git` dependency, and by a path
//! into the repository. `VBR_LIB_DIR` names the directory of another one. With the feature `system` it is that which pkg-config
//! names, if that is of the crate's version, and else the crate's own; a warning of cargo says which. The build ends in clear
//! words if there is none, or the target isn't Linux on x86-64; an opening panics if the library that was linked is of another
//! version ([`version`]).
//!
//! `ThreadSanitizer` doesn't see into the library, so it would report a race if threads are ordered by a set alone. In a
//! program that is compiled for it the crate makes that order known: it sees `-Zsanitizer=thread` in `RUSTFLAGS`, and no
//! feature is needed. That flag takes a nightly Rust. The standard library comes without the sanitizer, so either `-Zbuild-std`
//! (with `--target`, and the component `rust-src`) compiles it anew, or `-Cunsafe-allow-abi-mismatch=sanitizer` lets it be
//! linked as it is. In the second case races may be reported of threads that the standard library alone orders.
//!
//! ```sh
//! RUSTFLAGS=-Zsanitizer=thread cargo +nightly run -Zbuild-std --target x86_64-unknown-linux-gnu
//! ```
#![warn(missing_docs)]

extern crate alloc;

mod all;
mod bits;
mod boxed;
mod cache;
mod cache_lent;
mod cache_loads;
mod cache_options;
mod calling;
mod changing;
mod entry;
mod errors;
mod extending;
mod handle;
mod holding;
mod iterating;
mod kind;
mod lending;
mod library;
mod map;
#[cfg(doctest)]
mod misuse;
mod order;
mod pass;
mod processes;
mod record_entry;
mod record_key;
mod record_lent;
mod record_map;
mod records;
mod reporting;
mod set;
mod shape;
mod sharded;
mod small_bytes;
mod small_str;
mod steps;
mod table;
mod tasks;
mod waiting;

pub use bits::{Bits, ByBits};
pub use cache::{Cache, CacheStatistics};
pub use cache_lent::{CacheChange, CacheLent};
pub use cache_loads::LoadError;
pub use cache_options::{CacheOpenError, CacheOptions};
pub use calling::Growth;
pub use changing::{Change, Compared};
pub use entry::{Entry, ModifiedEntry};
pub use errors::{
    CloseError, KeysError, LendError, OpenError, OutOfSteps, Refusal, RenewError, ReportError, Unclosed, WalkError,
};
pub use extending::Stopped;
pub use handle::HandleOf;
pub use holding::{Held, Incarnation};
pub use iterating::{Cursor, Drain, Iter, IterAt};
pub use kind::{Entries, Keys, Kind};
pub use lending::{Lent, LentBy, OwnedLent};
pub use map::{Map, MapHandle, MapPass, MapReport};
pub use pass::PassOf;
pub use processes::{Claim, Inherited, SharedMap, SharedSet, SharedTable, Turn};
pub use record_entry::{RecordEntry, RecordRefusal};
pub use record_key::RecordKey;
pub use record_lent::{RecordIter, RecordLent};
pub use record_map::RecordMap;
pub use records::{Record, Records};
pub use set::{Handle, Pass, Report, Set};
pub use shape::{random_seed, Shape, ShapeError};
pub use sharded::{ShardRefusal, ShardStats, Sharded, ShardedIter, ShardedMap, ShardedSet, MAX_SHARDS};
pub use small_bytes::{SmallBytes, TooLong};
pub use small_str::SmallStr;
pub use steps::Steps;
pub use table::Table;
pub use tasks::LendAsync;

/// The greatest number of slots.
///
/// ```
/// assert_eq!(vbr::Shape::new(vbr::MAX_SLOTS, 1, 1).check(), Ok(()));
/// ```
pub const MAX_SLOTS: u32 = 2_147_483_647;

/// The greatest number of buckets. Open with as many as keys, a power of two: a bucket then has about one
/// node, and takes 8 bytes.
///
/// ```
/// assert!(vbr::Shape::new(1, vbr::MAX_BUCKETS + 1, 1).check().is_err());
/// ```
pub const MAX_BUCKETS: u32 = 2_147_483_648;

// %doc VBR_MAX_EPOCH
/// A last epoch that every shape accepts: the greatest for 16,777,215 slots. With more slots it stands for the greatest that
/// they leave room for. Small sets may have a greater one.
// %end
///
/// [`max_epoch`] gives that of any number of slots.
///
/// ```
/// assert_eq!(vbr::Shape::for_keys(8, 1).last_epoch, vbr::MAX_EPOCH);
/// ```
pub const MAX_EPOCH: u64 = 549_755_813_887;

// %doc vbr_max_epoch: sentence returns
/// Returns the greatest last epoch of a set or a map with this many slots.
///
/// It is 0 if none can have so many slots. The more bits their number has, the fewer are left for the epoch.
// %end
///
/// ```
/// assert_eq!(vbr::max_epoch(16_777_215), vbr::MAX_EPOCH);
/// let slots = 1_024 + 2 * 64;
/// assert_eq!(vbr::Shape::new(slots, 1_024, vbr::max_epoch(slots)).check(), Ok(())); // 2^52 - 1
/// ```
#[must_use]
pub const fn max_epoch(slots: u32) -> u64 {
    if slots < 1 || slots > MAX_SLOTS {
        return 0;
    }
    (1 << (31 + slots.leading_zeros())) - 1
}

/// The greatest number of handles of a set.
///
/// ```
/// assert!(vbr::Shape::for_keys(8, vbr::MAX_MANY_HANDLES + 1).check().is_err());
/// ```
pub const MAX_MANY_HANDLES: usize = 65_536;

/// The old name of [`MAX_MANY_HANDLES`], for one version: `VBR_MAX_HANDLES` in C was another number.
///
/// ```
/// # #![allow(deprecated)]
/// assert_eq!(vbr::MAX_HANDLES, vbr::MAX_MANY_HANDLES);
/// ```
#[deprecated(since = "0.3.0", note = "it is called `MAX_MANY_HANDLES`")]
pub const MAX_HANDLES: usize = MAX_MANY_HANDLES;

/// The version of the library: major * 1000000 + minor * 1000 + patch.
///
/// ```
/// assert_eq!(vbr::version(), 3_000); // 0.3.0
/// ```
#[must_use]
pub fn version() -> u32 {
    // SAFETY: it takes nothing.
    unsafe { library::vbr_version() }
}

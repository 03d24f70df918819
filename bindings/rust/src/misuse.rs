//! What doesn't compile: tests of what the types keep programs from. The pages of handles, passes and loans have more.

/// Two threads with one handle.
///
/// ```compile_fail,E0277
/// # use vbr::{Handle, Set, Shape};
/// let handle: Handle = Set::handles(Shape::for_keys(8, 1)).unwrap().remove(0);
/// std::thread::scope(|scope| {
///     scope.spawn(|| handle.has(5));
///     scope.spawn(|| handle.has(5));
/// });
/// ```
///
/// A call that changes something, through a shared reference, and within a walk.
///
/// ```compile_fail,E0596
/// fn inserts(pass: &vbr::Pass) {
///     let _ = pass.insert(5);
/// }
/// ```
///
/// ```compile_fail,E0502
/// fn removes(pass: &mut vbr::Pass) {
///     for key in pass.iter() {
///         let _ = pass.remove(key.unwrap());
///     }
/// }
/// ```
///
/// A loan that outlives its set, a set that is closed while a handle is on loan, and a handle on loan that is closed.
///
/// ```compile_fail,E0597
/// # use vbr::{Lent, Set, Shape};
/// let mut mine: Option<Lent<'_>> = None;
/// {
///     let set = Set::open(Shape::for_keys(8, 1)).unwrap();
///     mine = set.lend();
/// }
/// drop(mine);
/// ```
///
/// ```compile_fail,E0505
/// # use vbr::{Set, Shape};
/// let set: Set = Set::open(Shape::for_keys(8, 1)).unwrap();
/// let mine = set.lend();
/// set.end();
/// drop(mine);
/// ```
///
/// ```compile_fail,E0599
/// # use vbr::{Set, Shape};
/// let set: Set = Set::open(Shape::for_keys(8, 1)).unwrap();
/// set.lend_wait().close();
/// ```
///
/// A call of a handle that processes share without a turn, two turns of it at once, a claim that outlives its set, and one that is
/// made without `unsafe`.
///
/// ```compile_fail,E0599
/// fn inserts(mine: &mut vbr::Claim) {
///     let _ = mine.insert(5);
/// }
/// ```
///
/// ```compile_fail,E0499
/// fn both(mine: &mut vbr::Claim) {
///     let (one, other) = (mine.turn(), mine.turn());
///     drop((one, other));
/// }
/// ```
///
/// ```compile_fail,E0505
/// # use vbr::{SharedSet, Shape};
/// let set: SharedSet = SharedSet::open(Shape::for_keys(8, 1)).unwrap();
/// let mine = unsafe { set.claim(0) };
/// set.end();
/// drop(mine);
/// ```
///
/// ```compile_fail,E0133
/// fn claims(set: &vbr::SharedSet) {
///     let _ = set.claim(0);
/// }
/// ```
///
/// A key or a value of another type than that of the set or the map, and a number that has no bits of its own.
///
/// ```compile_fail,E0308
/// # use vbr::{MapPass, Refusal};
/// fn inserts(pass: &mut MapPass<u32, char>) -> Result<bool, Refusal> {
///     pass.try_insert(5, 70_u64)
/// }
/// ```
///
/// ```compile_fail,E0277
/// fn of_prices(_: &vbr::Map<u64, f64>) {}
/// ```
///
/// ```compile_fail,E0277
/// # use vbr::{Set, Shape};
/// let set = Set::open(Shape::for_keys(8, 1)).unwrap();
/// set.lend_wait().insert(1_u128);
/// ```
///
/// Threads that may not have a value get none out of a set.
///
/// ```compile_fail,E0277
/// #[derive(Clone, Copy, Debug, PartialEq, Eq)]
/// struct Local(*const u8);
/// impl vbr::Bits for Local {
///     fn to_bits(self) -> u64 { 0 }
///     fn from_bits(_: u64) -> Local { Local(std::ptr::null()) }
/// }
/// ```
///
/// Two entries of one handle, an entry that is thrown away, and so budgets, shapes and answers.
///
/// ```compile_fail,E0499
/// fn both(pass: &mut vbr::MapPass) {
///     let (one, other) = (pass.entry(5), pass.entry(6));
///     let _ = (one.or_insert(1), other.or_insert(1));
/// }
/// ```
///
/// ```compile_fail
/// #![deny(unused_must_use)]
/// fn throws(pass: &mut vbr::MapPass) {
///     pass.entry(5);
/// }
/// ```
///
/// ```compile_fail
/// #![deny(unused_must_use)]
/// vbr::Steps::new(5);
/// ```
///
/// ```compile_fail
/// #![deny(unused_must_use)]
/// vbr::Shape::for_keys(8, 1);
/// ```
///
/// ```compile_fail
/// #![deny(unused_must_use)]
/// fn throws(set: &vbr::Set) {
///     set.lend_wait();
/// }
/// ```
///
/// ```compile_fail
/// #![deny(unused_must_use)]
/// fn throws(pass: &mut vbr::Pass) {
///     pass.insert(5);
/// }
/// ```
///
/// Reports come from the crate alone, and a `match` of its errors has room for more.
///
/// ```compile_fail,E0639
/// let report = vbr::Report { keys: vec![5], epoch: 1, marked: 0, free: 0 };
/// ```
///
/// ```compile_fail,E0004
/// fn name(refusal: vbr::Refusal) -> &'static str {
///     match refusal {
///         vbr::Refusal::OutOfSteps => "steps",
///         vbr::Refusal::NoSlot => "slot",
///         vbr::Refusal::EpochSpent => "epoch",
///     }
/// }
/// ```
struct Misuse;

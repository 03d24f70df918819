//! Each answer of the crate once, of sets and of maps.
mod both;

use both::{Both, Told};
use vbr::{max_epoch, MAX_BUCKETS, MAX_EPOCH, MAX_MANY_HANDLES, MAX_SLOTS};
use vbr::{
    CloseError, Cursor, Entries, Handle, HandleOf, Iter, Keys, KeysError, Lent, Map, MapHandle, MapPass, MapReport, OpenError,
};
use vbr::{
    OutOfSteps, OwnedLent, Pass, PassOf, Refusal, RenewError, Report, ReportError, Set, Shape, ShapeError, Steps, Table,
    Unclosed, WalkError,
};

of_sets_and_maps! {
    openings
    openings_with_keys
    calls
    budgets_that_are_enough_alone
    shown_numbers
    closes
    dropped_handles
    closes_at_the_same_time
    a_thread_that_panics
    handles_that_a_question_mark_drops
    a_loan_that_a_question_mark_drops
    a_handle_that_is_forgotten
    errors_pass_as_any_error
    look_ups_through_a_shared_reference
    budgets_of_handles
    spared_slots
    reserves_of_fresh_handles
    a_set_that_ends
}

/// An insert whose budget is one step too small has taken the slot by then. Its handle gives it back, and another finds it.
fn spared_slots<K: Both>() {
    let open = || Table::<K>::handles(Shape::new(1, 1, 10).with_handles(2)).expect("a set");
    let is_enough = |steps: &u32| K::insert_within(&mut open()[0], 5, Steps::new(*steps)).is_ok();
    let enough = (1..=1000).find(is_enough).expect("a budget that is enough");
    let mut handles = open();
    assert_eq!(K::insert_within(&mut handles[0], 5, Steps::new(enough - 1)), Err(Refusal::OutOfSteps));
    assert_eq!(K::insert(&mut handles[1], 6), Err(Refusal::NoSlot));
    assert_eq!((handles[0].give_slots_back(), handles[0].give_slots_back()), (1, 0));
    assert_eq!(K::insert(&mut handles[1], 6), Ok(true));
    assert_eq!(K::insert(&mut handles[0], 5), Err(Refusal::NoSlot));
}

/// A handle has its reserve before it has made a call, where there are 64 slots for each handle.
fn reserves_of_fresh_handles<K: Both>() {
    let kept = |slots: u32| {
        let handles = Table::<K>::handles(Shape::new(slots, 8, 10).with_handles(2)).expect("a set");
        handles.into_iter().map(|mut handle| handle.give_slots_back()).collect::<Vec<u32>>()
    };
    assert_eq!([kept(127), kept(128), kept(511), kept(512)], [[0, 0], [8, 8], [31, 31], [32, 32]]);
}

/// Closes the last handle.
fn report_of<K: Both>(last: HandleOf<K>) -> Told {
    K::report(last.close().expect("a report").expect("the last handle"))
}

#[test]
fn shapes() {
    assert_eq!(vbr::version(), 3_000);
    assert_eq!(OpenError::Shape(ShapeError::Slots(0)).to_string(), "0 slots are not from 1 to 2147483647");
    assert_eq!(Shape::for_keys(0, 1), Shape::new(64, 1, MAX_EPOCH));
    assert_eq!(Shape::for_keys(1_025, 1_000), Shape::new(1_025 + 1_000 * 64, 2_048, MAX_EPOCH).with_handles(1_000));
    assert_eq!(Shape::for_keys(0, 65_537).check(), Err(ShapeError::Handles(65_537)));
    assert_eq!(Shape::for_keys(u32::MAX, 64).check(), Err(ShapeError::Slots(u32::MAX)));
    for keys in [MAX_SLOTS - 64, MAX_SLOTS - 63, MAX_SLOTS] {
        assert_eq!(Shape::for_keys(keys, 1), Shape::new(MAX_SLOTS, MAX_BUCKETS, MAX_EPOCH));
    }
    assert_eq!(Shape::for_keys(MAX_SLOTS + 1, 1).check(), Err(ShapeError::Slots(MAX_SLOTS + 1 + 64)));
}

/// The greatest last epoch of so many slots is in range, and one more isn't; `MAX_EPOCH` is with any number of slots.
#[test]
fn greatest_epochs() {
    for (slots, bits) in
        [(1, 62), (4_095, 51), (4_096, 50), ((1 << 24) - 1, 39), (1 << 24, 38), (1 << 25, 37), (MAX_SLOTS, 32)]
    {
        let greatest = max_epoch(slots);
        assert_eq!(greatest, (1 << bits) - 1);
        for last_epoch in [1, greatest, MAX_EPOCH] {
            assert_eq!(Shape::new(slots, MAX_BUCKETS, last_epoch).check(), Ok(()));
        }
        for last_epoch in [0, greatest + 1, u64::MAX] {
            assert_eq!(Shape::new(slots, 1, last_epoch).check(), Err(ShapeError::LastEpoch(last_epoch)));
        }
    }
    for slots in [0, MAX_SLOTS + 1, u32::MAX] {
        assert_eq!((max_epoch(slots), Shape::new(slots, 1, MAX_EPOCH).check()), (0, Err(ShapeError::Slots(slots))));
    }
    let error = ShapeError::LastEpoch(MAX_EPOCH - 1).to_string();
    assert_eq!(error, "the last epoch 549755813886 is not from 1 to the greatest of so many slots");
}

fn openings<K: Both>() {
    let slots = [0, MAX_SLOTS + 1].map(|slots| (Shape::new(slots, 1, 1), ShapeError::Slots(slots)));
    let buckets = [0, MAX_BUCKETS + 1].map(|buckets| (Shape::new(1, buckets, 0), ShapeError::Buckets(buckets)));
    let epochs = [0, max_epoch(1) + 1].map(|last_epoch| (Shape::new(1, 1, last_epoch), ShapeError::LastEpoch(last_epoch)));
    for (shape, number) in [slots, buckets, epochs].concat() {
        assert_eq!(Table::<K>::handles(shape.with_handles(0)).unwrap_err(), OpenError::Shape(number));
        assert_eq!(Table::<K>::open(shape).unwrap_err().to_string(), number.to_string());
    }
    for handles in [0, MAX_MANY_HANDLES + 1, usize::MAX] {
        let error = OpenError::Shape(ShapeError::Handles(handles));
        assert_eq!(Table::<K>::handles(Shape::new(8, 1, 1).with_handles(handles)).unwrap_err(), error);
        assert_eq!(error.to_string(), format!("{handles} handles are not from 1 to 65536"));
    }
    assert_eq!(Table::<K>::handles(Shape::new(8, 1, 1).with_handles(64)).expect("a set").len(), 64);
    assert_eq!(Table::<K>::handles(Shape::new(8, 1 << 24, max_epoch(8))).expect("a set").len(), 1);
}

fn openings_with_keys<K: Both>() {
    let shape = Shape::new(4, 2, 10);
    for (keys, place) in [([5, 5, 6], 1), ([2, 9, 5], 2), ([9, 5, 2], 1)] {
        let error = OpenError::Keys(KeysError::NotAscending { place });
        assert_eq!(Table::<K>::handles_with(shape, &K::items(&keys)).unwrap_err(), error);
        assert_eq!(error.to_string(), format!("the key at place {place} is not above the one before"));
    }
    let some = K::items(&[2, 5, 9]);
    let error = OpenError::Keys(KeysError::TooMany { keys: 3, slots: 2 });
    assert_eq!(Table::<K>::handles_with(Shape::new(2, 2, 10), &some).unwrap_err(), error);
    assert_eq!(error.to_string(), "there are 3 keys, and 2 slots");
    assert_eq!(
        Table::<K>::handles_with(Shape::new(0, 2, 10).with_handles(2), &some).unwrap_err(),
        OpenError::Shape(ShapeError::Slots(0))
    );
    let mut handles = Table::<K>::handles_with(shape.with_handles(2), &some).expect("a set");
    for key in [2, 5, 9] {
        assert_eq!(handles[0].has(key), Ok(true));
        assert_eq!(K::insert(&mut handles[1], key), Ok(false));
    }
    assert_eq!(handles[0].has(3), Ok(false));
    let last = handles.pop().expect("two handles");
    assert!(handles.pop().expect("two handles").close().expect("a pass given back").is_none());
    assert_eq!(report_of(last).of(), (vec![2, 5, 9], 1, 0, 1));
    let none = Table::<K>::handles_with(shape.with_handles(1), &[]).expect("a set").remove(0);
    assert_eq!(report_of(none).of(), (vec![], 1, 0, 4));
}

fn calls<K: Both>() {
    let mut handles = Table::<K>::handles(Shape::new(1, 1, 1).with_handles(2)).expect("a set");
    assert_eq!(K::insert(&mut handles[0], 5), Ok(true));
    assert_eq!(K::insert(&mut handles[1], 5), Ok(false));
    assert_eq!(K::insert(&mut handles[1], 6), Err(Refusal::NoSlot));
    assert_eq!(K::insert_within(&mut handles[1], 6, Steps::new(1)), Err(Refusal::OutOfSteps));
    assert_eq!(handles[1].has_within(5, Steps::new(1)), Err(OutOfSteps));
    assert_eq!(K::remove_within(&mut handles[1], 5, Steps::new(1)), Err(OutOfSteps));
    assert_eq!((handles[1].has(5), handles[1].has(6)), (Ok(true), Ok(false)));
    assert_eq!(K::remove(&mut handles[0], 5), Ok(true));
    assert_eq!(K::remove(&mut handles[0], 5), Ok(false));
    assert_eq!(handles[0].has(5), Ok(false));
    assert_eq!(K::insert(&mut handles[0], 5), Err(Refusal::EpochSpent));
    assert_eq!(handles[1].has(5), Ok(false));
}

fn budgets_that_are_enough_alone<K: Both>() {
    let (nodes, slots) = (9, 100);
    let some: Vec<_> = (1..=u64::from(nodes)).collect();
    let mut handle = Table::<K>::handles_with(Shape::new(slots, 1, 100), &K::items(&some)).expect("a set").remove(0);
    let to_insert = Steps::new(18 * nodes + u32::max(82, slots.div_ceil(64) + 20));
    for (key, there) in [(0, false), (4, true), (9, true), (20, false)] {
        assert_eq!(handle.has_within(key, Steps::new(5 * nodes + 11)), Ok(there));
        assert_eq!(K::remove_within(&mut handle, key, Steps::new(9 * nodes + 11)), Ok(there));
        assert_eq!(K::insert_within(&mut handle, key, to_insert), Ok(true));
        assert_eq!(K::remove_within(&mut handle, key, Steps::new(9 * (nodes + 1) + 11)), Ok(true));
        assert_eq!(handle.has_within(key, Steps::new(5 * nodes + 11)), Ok(false));
        if there {
            assert_eq!(K::insert_within(&mut handle, key, to_insert), Ok(true));
        }
    }
}

fn shown_numbers<K: Both>() {
    let mut handle = Table::<K>::handles(Shape::new(3, 4, 9)).expect("a set").remove(0);
    assert_eq!((handle.epoch(), handle.last_epoch()), (1, 9));
    assert_eq!((handle.slots(), handle.buckets()), (3, 4));
    for key in 0..4 {
        assert_eq!(K::insert(&mut handle, key), Ok(true));
        assert_eq!(K::remove(&mut handle, key), Ok(true));
    }
    let epoch = handle.epoch();
    assert!(epoch > 1);
    assert_eq!(report_of(handle).epoch, epoch);
}

fn closes<K: Both>() {
    let mut handles = Table::<K>::handles(Shape::new(8, 2, 100).with_handles(2)).expect("a set");
    assert_eq!(K::insert(&mut handles[0], 7), Ok(true));
    assert_eq!(K::insert(&mut handles[1], 5), Ok(true));
    let last = handles.pop().expect("two handles");
    let first = handles.pop().expect("two handles");
    assert!(first.close().expect("a pass given back").is_none());
    assert_eq!(report_of(last).of(), (vec![5, 7], 1, 0, 6));
}

fn dropped_handles<K: Both>() {
    for last in 0..3 {
        let mut handles = Table::<K>::handles(Shape::for_keys(60, 3)).expect("a set");
        for (key, handle) in (0..).zip(&mut handles) {
            assert_eq!(K::insert(handle, key), Ok(true));
            assert_eq!(K::insert(handle, 9), Ok(key == 0));
        }
        let kept = handles.remove(last);
        drop(handles);
        let report = report_of(kept);
        assert_eq!((report.keys, report.free), (vec![0, 1, 2, 9], 60 + 3 * 64 - 4));
    }
    drop(Table::<K>::handles(Shape::for_keys(60, 64)).expect("a set"));
}

fn closes_at_the_same_time<K: Both>() {
    for _ in 0..200 {
        let handles = Table::<K>::handles_with(Shape::for_keys(8, 4), &K::items(&[1, 2, 3])).expect("a set");
        let threads: Vec<_> = handles.into_iter().map(|handle| std::thread::spawn(move || handle.close())).collect();
        let told: Vec<_> = threads.into_iter().filter_map(|it| it.join().expect("a thread").expect("memory")).collect();
        assert_eq!(told.len(), 1);
        let report = K::report(told[0].clone());
        assert_eq!(report.keys, [1, 2, 3]);
        assert!(report.room < 8);
    }
}

fn a_thread_that_panics<K: Both>() {
    let mut handles = Table::<K>::handles(Shape::for_keys(8, 2)).expect("a set");
    let mut first = handles.pop().expect("two handles");
    let panicked = std::thread::spawn(move || {
        assert_eq!(K::insert(&mut first, 5), Ok(true));
        std::panic::resume_unwind(Box::new(()));
    });
    assert!(panicked.join().is_err());
    assert_eq!(report_of(handles.remove(0)).keys, [5]);
}

fn handles_that_a_question_mark_drops<K: Both>() {
    fn gives_up<K: Both>(mut owned: Vec<HandleOf<K>>) -> Result<(), Refusal> {
        for (key, handle) in (5..).zip(&mut owned) {
            K::insert(handle, key)?;
        }
        K::insert_within(&mut owned[0], 9, Steps::new(1))?;
        unreachable!("a budget of one step is enough");
    }
    for last in 0..3 {
        let mut handles = Table::<K>::handles(Shape::for_keys(8, 3)).expect("a set");
        let mut kept = handles.remove(last);
        assert_eq!(gives_up(handles), Err(Refusal::OutOfSteps));
        assert_eq!(K::insert(&mut kept, 7), Ok(true));
        let report = report_of(kept);
        assert_eq!((report.keys, report.free), (vec![5, 6, 7], 8 + 3 * 64 - 3));
    }
}

fn a_loan_that_a_question_mark_drops<K: Both>() {
    fn gives_up<K: Both>(set: &Table<K>) -> Result<bool, Refusal> {
        let mut mine = set.lend().expect("a free handle");
        K::insert(&mut mine, 5)?;
        assert!(set.lend().is_none());
        K::insert_within(&mut mine, 9, Steps::new(1))
    }
    let set = Table::<K>::open(Shape::for_keys(8, 1)).expect("a set");
    assert_eq!(gives_up(&set), Err(Refusal::OutOfSteps));
    assert_eq!(set.lend().expect("a free handle").has(5), Ok(true));
    assert_eq!(K::report(set.close().expect("a report")).keys, [5]);
}

fn a_handle_that_is_forgotten<K: Both>() {
    let mut handles = Table::<K>::handles(Shape::for_keys(8, 2)).expect("a set");
    let last = handles.pop().expect("two handles");
    let forgotten = std::mem::ManuallyDrop::new(handles.pop().expect("two handles"));
    assert!(last.close().expect("no error").is_none());
    drop(std::mem::ManuallyDrop::into_inner(forgotten));
}

fn errors_pass_as_any_error<K: Both>() {
    fn is_any<T: std::error::Error + Send + Sync + 'static>() {}
    fn runs<K: Both>() -> Result<(), Box<dyn std::error::Error + Send + Sync>> {
        let mut handle = Table::<K>::handles(Shape::for_keys(8, 1))?.remove(0);
        K::insert(&mut handle, 5)?;
        handle.close()?.ok_or("not the last")?;
        Table::<K>::handles(Shape::new(0, 1, 1))?;
        Ok(())
    }
    is_any::<OpenError>();
    is_any::<KeysError>();
    is_any::<ShapeError>();
    is_any::<Refusal>();
    is_any::<OutOfSteps>();
    is_any::<ReportError>();
    is_any::<CloseError<HandleOf<K>>>();
    is_any::<CloseError<Table<K>>>();
    assert_eq!(runs::<K>().unwrap_err().to_string(), "0 slots are not from 1 to 2147483647");
    let goes_on = Unclosed::into_handle;
    let _: fn(Unclosed<HandleOf<K>>) -> HandleOf<K> = goes_on;
    assert_eq!(format!("{:?}", CloseError::<HandleOf<K>>::Lost), "Lost");
    assert_eq!((Refusal::from(OutOfSteps), OutOfSteps.to_string()), (Refusal::OutOfSteps, Refusal::OutOfSteps.to_string()));
}

/// Errors, shapes, budgets and reports are keys of a hash set.
#[test]
fn hashes() {
    fn is_hashed<T: std::hash::Hash + Eq>() {}
    is_hashed::<(OpenError, KeysError, Refusal, OutOfSteps, WalkError, ReportError, RenewError)>();
    is_hashed::<(ShapeError, Shape, Steps, Report, MapReport)>();
}

/// The budget of a handle is that of its shape; calls have it, and those within another one have that.
fn budgets_of_handles<K: Both>() {
    let few = Steps::new(1);
    let refused = |pass: &mut PassOf<K>| {
        let mut answers = [Ok(true)];
        pass.has_all(&[5], &mut answers);
        let walks = [
            pass.iter().next().map(|it| it.map(K::key)),
            pass.next(&mut Cursor::first()).map(|it| it.map(K::key)).map_err(|_| OutOfSteps).transpose(),
        ];
        let refused = [pass.has(5) == Err(OutOfSteps), answers == [Err(OutOfSteps)], walks == [Some(Err(OutOfSteps)); 2]];
        assert!(refused.iter().all(|it| *it == refused[0]));
        assert_eq!(K::remove(pass, 6) == Err(OutOfSteps), refused[0]);
        assert_eq!(K::insert(pass, 5) == Err(Refusal::OutOfSteps), refused[0]);
        refused[0]
    };
    let shape = Shape::for_keys(8, 2);
    let mut handles = Table::<K>::handles_with(shape, &K::items(&[5])).expect("a set");
    assert!(handles.iter().all(|it| it.steps() == Steps::AMPLE));
    assert!(!refused(&mut handles[0]));
    handles[0].set_steps(few);
    assert_eq!([handles[0].steps(), handles[1].steps()], [few, Steps::AMPLE]);
    assert!(refused(&mut handles[0]) && !refused(&mut handles[1]));
    assert_eq!(handles[0].has_within(5, Steps::AMPLE), Ok(true));
    HandleOf::renew_all(&mut handles, shape).expect("a fresh set"); // which leaves them
    assert_eq!([handles[0].steps(), handles[1].steps()], [few, Steps::AMPLE]);
    HandleOf::renew_all(&mut handles, shape.with_steps(Steps::new(1_000))).expect("a fresh set");
    assert_eq!([handles[0].steps(), handles[1].steps()], [Steps::new(1_000); 2]);
    let set = Table::<K>::open_with(shape.with_steps(few), &K::items(&[5])).expect("a set");
    assert!(refused(&mut set.lend_wait()) && refused(&mut set.lend_wait()));
    set.renew(shape.with_steps(Steps::AMPLE)).expect("a fresh set");
    assert!(!refused(&mut set.lend_wait()));
}

fn a_set_that_ends<K: Both>() {
    let set = Table::<K>::open_with(Shape::for_keys(8, 3), &K::items(&[5, 7])).expect("a set");
    std::mem::forget(set.lend());
    set.end();
}

#[test]
fn names_of_std() {
    let shape = Shape::for_keys(8, 1);
    let set = Set::handles_with(shape, &[5]).expect("a set").remove(0);
    assert_eq!((set.contains(5), set.contains(6)), (Ok(true), Ok(false)));
    let map = Map::handles_with(shape, &[(5, 70)]).expect("a map").remove(0);
    assert_eq!((map.contains_key(5), map.contains_key(6)), (Ok(true), Ok(false)));
    let mut walked = Vec::new();
    for entry in &map {
        walked.push(entry.expect("steps"));
    }
    assert_eq!(walked, [(5, 70)]);
}

fn look_ups_through_a_shared_reference<K: Both>() {
    let mut handle = Table::<K>::handles_with(Shape::for_keys(8, 1), &K::items(&[2, 5, 9])).expect("a set").remove(0);
    let shared = &handle;
    let there: Vec<u64> = (0..10).filter(|key| shared.has(*key) == Ok(true)).collect();
    assert_eq!(there, [2, 5, 9]);
    assert_eq!(K::remove(&mut handle, 5), Ok(true));
}

/// What a programmer sees of the types of a set, and of those of a map.
#[test]
fn names() {
    fn names<K: Both>() -> String {
        let set = Table::<K>::open(Shape::for_keys(8, 1)).expect("a set");
        let lent = set.lend().expect("a free handle");
        let handle = Table::<K>::handles(Shape::for_keys(8, 1)).expect("a set").remove(0);
        format!("{set:?} {handle:?} {:?} {lent:?}", &*lent)
    }
    let shown = |[table, handle, pass]: [&str; 3]| {
        let numbers = "slots: 72, buckets: 8, epoch: 1, last_epoch: 549755813887, balance: 0, ..";
        let table = format!("{table} {{ slots: 72, buckets: 8, last_epoch: 549755813887, handles: 1, lent: 1, .. }}");
        let pass = format!("{pass} {{ {numbers} }}");
        format!("{table} {handle} {{ {numbers} }} {pass} Lent {{ number: 0, pass: {pass}, .. }}")
    };
    assert_eq!(names::<Keys>(), shown(["Set", "Handle", "Pass"]));
    assert_eq!(names::<Entries>(), shown(["Map", "MapHandle", "MapPass"]));
}

/// The names of sets and of maps serve as types without a parameter, and as paths to calls.
#[test]
fn names_as_paths() {
    type Loans<'s> = (Option<Lent<'s>>, Option<Lent<'s, Entries>>, Option<OwnedLent>, Option<OwnedLent<Entries>>);
    type Walks<'s> = (Option<Iter<'s>>, Option<Iter<'s, Entries>>);
    type Closed = (Result<Option<Report>, CloseError>, Result<Option<MapReport>, CloseError<MapHandle>>);
    let (loans, walks): (Loans, Walks) = Default::default();
    assert!(loans.0.is_none() && loans.1.is_none() && loans.2.is_none() && loans.3.is_none());
    assert!(walks.0.is_none() && walks.1.is_none());
    let shape = Shape::for_keys(8, 1);
    let mut handles = (Set::handles(shape).expect("a set").remove(0), Map::handles(shape).expect("a map").remove(0));
    let (insert, insert_entry) = (Pass::insert, MapPass::try_insert);
    assert_eq!(insert(&mut handles.0, 5), Ok(true));
    assert_eq!(insert_entry(&mut handles.1, 5, 70), Ok(true));
    assert_eq!(MapPass::get(&handles.1, 5), Ok(Some(70)));
    let closed: Closed = (Handle::close(handles.0), MapHandle::close(handles.1));
    assert_eq!(closed.0.expect("a report").expect("the only handle").keys, [5]);
    assert_eq!(closed.1.expect("a report").expect("the only handle").entries, [(5, 70)]);
}

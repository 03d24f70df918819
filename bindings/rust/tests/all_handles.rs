//! All handles of a set or a map at once: their balances, their report and their renewal, and each refusal.
#![allow(clippy::cast_possible_truncation, reason = "the numbers are small")]
use vbr::{max_epoch, Handle, Map, MapHandle, RenewError, ReportError, Set, Shape, ShapeError, Steps, MAX_EPOCH};

#[test]
fn a_set_is_reported_and_renewed() {
    let mut handles = Set::handles_with(Shape::new(4, 1, 100).with_handles(2), &[2, 5]).expect("a set");
    assert!(handles[1].insert(7).expect("an answer") && handles[0].remove(2).expect("an answer"));
    assert!(!handles[1].insert(7).expect("an answer") && handles[1].insert_within(9, Steps::new(1)).is_err());
    assert_eq!([handles[0].balance(), handles[1].balance()], [1, 1]);
    let report = Handle::report_all(&mut handles).expect("a report");
    assert_eq!((report.keys, report.epoch), (vec![5, 7], 1));
    handles.swap(0, 1); // in any order
    Handle::renew_all(&mut handles, Shape::for_keys(4_096, 2)).expect("a fresh set");
    assert_eq!([handles[0].balance(), handles[1].balance()], [2, 0]);
    assert_eq!((handles[0].buckets(), handles[1].epoch()), (4_096, 1));
    for key in 10..2_000_u64 {
        assert!(handles[(key % 2) as usize].insert(key).expect("an answer"));
    }
    let last = handles.pop().expect("two handles");
    assert!(handles.remove(0).close().expect("no refusal").is_none());
    assert_eq!(last.close().expect("a report").expect("the last handle").keys.len(), 1_992);
}

#[test]
fn a_map_keeps_its_values() {
    let some = [(2, 20), (5, 50)];
    let mut handles = Map::handles_with(Shape::new(8, 2, 100).with_handles(2), &some).expect("a map");
    assert_eq!(handles[0].put(5, 51), Ok(Some(50)));
    assert_eq!(handles[1].put(6, 60), Ok(None));
    assert_eq!([handles[0].balance(), handles[1].balance()], [2, 1]);
    MapHandle::renew_all(&mut handles, Shape::new(3, 2, 100)).expect("a fresh map");
    let entries = MapHandle::report_all(&mut handles).expect("a report").entries;
    assert_eq!(entries, [(2, 20), (5, 51), (6, 60)]);
}

#[test]
fn refusals_leave_the_handles() {
    let mut handles = Set::handles_with(Shape::new(4, 1, 100).with_handles(2), &[2, 5]).expect("a set");
    let mut others = Set::handles(Shape::new(4, 1, 100)).expect("another set");
    assert_eq!(Handle::<u64>::report_all(&mut []).err(), Some(ReportError::Missing));
    assert_eq!(Handle::report_all(&mut handles[..1]).err(), Some(ReportError::Missing));
    assert_eq!(Handle::renew_all(&mut handles[..1], Shape::new(4, 1, 100)), Err(RenewError::Missing));
    assert_eq!(Handle::renew_all(&mut handles, Shape::new(1, 1, 100)), Err(RenewError::Slots));
    assert_eq!(Handle::renew_all(&mut handles, Shape::new(0, 1, 100)), Err(RenewError::Shape(ShapeError::Slots(0))));
    std::mem::swap(&mut handles[1], &mut others[0]);
    assert_eq!(Handle::report_all(&mut handles).err(), Some(ReportError::Mixed));
    assert_eq!(Handle::renew_all(&mut handles, Shape::new(4, 1, 100)), Err(RenewError::Mixed));
    std::mem::swap(&mut handles[1], &mut others[0]);
    assert_eq!(Handle::report_all(&mut handles).expect("a report").keys, [2, 5]);
    assert!(handles[1].has(5).expect("an answer"));
}

#[test]
fn a_thousand_handles() {
    let shape = Shape::for_keys(2_048, 1_000);
    let mut handles = Set::handles_with(shape, &[5_000]).expect("a set");
    std::thread::scope(|scope| {
        for (key, mine) in (0..).zip(&mut handles) {
            scope.spawn(move || assert_eq!(mine.insert(key), Ok(true)));
        }
    });
    assert_eq!(Handle::report_all(&mut handles).expect("a report").keys.len(), 1_001);
    Handle::renew_all(&mut handles, shape).expect("a fresh set");
    for (key, mine) in (0..).zip(handles.iter_mut().rev()) {
        assert_eq!(mine.has(key), Ok(true));
    }
    let last = handles.remove(64);
    drop(handles);
    assert_eq!(last.close().expect("a report").expect("the last handle").keys.last(), Some(&5_000));

    let mut maps = Map::handles_with(shape.with_handles(65), &[(5, 50)]).expect("a map");
    assert_eq!(maps[64].put(5, 51), Ok(Some(50)));
    assert_eq!(MapHandle::report_all(&mut maps).expect("a report").entries, [(5, 51)]);
}

/// So many slots that they leave room for a lesser last epoch than `MAX_EPOCH`, which means the greatest then.
#[test]
fn a_large_set() {
    let (slots, greatest) = (1 << 24, (1 << 38) - 1);
    assert_eq!(max_epoch(slots), greatest);
    let set = Set::open(Shape::new(slots, 1 << 24, MAX_EPOCH)).expect("a set");
    let mut handle = set.lend_wait();
    assert_eq!((handle.slots(), handle.insert(5_u64), handle.has(5)), (slots, Ok(true), Ok(true)));
    assert_eq!((handle.last_epoch(), set.last_epoch()), (greatest, greatest));
    drop(handle);
    assert_eq!(set.renew(Shape::new(slots, 8, greatest + 1)), Err(RenewError::Shape(ShapeError::LastEpoch(greatest + 1))));
    assert_eq!((set.renew(Shape::new(slots - 1, 8, MAX_EPOCH)), set.last_epoch()), (Ok(()), MAX_EPOCH));
    assert_eq!((set.renew(Shape::new(slots, 8, MAX_EPOCH)), set.last_epoch()), (Ok(()), greatest));
    assert_eq!(set.lend_wait().has(5), Ok(true));
}

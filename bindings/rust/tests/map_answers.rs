//! What the calls of maps alone answer: values, of a get, a remove, and calls that change them, and entries of reports.
use vbr::{CloseError, Compared, Map, MapHandle, OutOfSteps, Refusal, Shape, Steps, Unclosed};

#[test]
fn values_that_a_map_opens_with() {
    let some = [(2, 90), (5, u64::MAX), (9, 0)];
    let mut handle = Map::handles_with(Shape::new(4, 2, 10), &some).expect("a map").remove(0);
    for (key, value) in some {
        assert_eq!(handle.get(key), Ok(Some(value)));
        assert_eq!(handle.try_insert(key, value ^ 1), Ok(false));
        assert_eq!(handle.get(key), Ok(Some(value)));
    }
    assert_eq!(handle.get(3), Ok(None));
    assert_eq!(handle.close().expect("a report").expect("the only handle").entries, some);
}

#[test]
fn gets_and_removes() {
    let mut handles = Map::handles(Shape::new(1, 1, 1).with_handles(2)).expect("a map");
    assert_eq!(handles[0].try_insert(5, 70), Ok(true));
    assert_eq!(handles[1].try_insert(5, 71), Ok(false));
    assert_eq!(handles[1].get_within(5, Steps::new(1)), Err(OutOfSteps));
    assert_eq!((handles[1].get(5), handles[1].get(6)), (Ok(Some(70)), Ok(None)));
    assert_eq!(handles[0].remove(5), Ok(Some(70)));
    assert_eq!(handles[0].remove(5), Ok(None));
    assert_eq!(handles[0].get(5), Ok(None));
    assert_eq!(handles[0].try_insert(5, 73), Err(Refusal::EpochSpent));
    assert_eq!(handles[1].get(5), Ok(None));
}

#[test]
fn a_value_is_that_of_the_last_insert_that_was_answered_yes() {
    let mut handle = Map::handles(Shape::for_keys(1, 1)).expect("a map").remove(0);
    for value in [0, 1, u64::MAX, 70] {
        assert_eq!(handle.try_insert(5, value), Ok(true));
        assert_eq!(handle.try_insert(5, !value), Ok(false));
        assert_eq!(handle.get(5), Ok(Some(value)));
        assert_eq!(handle.remove(5), Ok(Some(value)));
        assert_eq!(handle.get(5), Ok(None));
    }
}

#[test]
fn budgets_of_a_get_that_are_enough_alone() {
    let nodes = 9;
    let some: Vec<_> = (1..=u64::from(nodes)).map(|key| (key, 10 * key)).collect();
    let mut handle = Map::handles_with(Shape::new(100, 1, 100), &some).expect("a map").remove(0);
    for (key, value) in [(0, None), (4, Some(40)), (9, Some(90)), (20, None)] {
        assert_eq!(handle.get_within(key, Steps::new(5 * nodes + 11)), Ok(value));
        assert_eq!(handle.remove_within(key, Steps::new(9 * nodes + 11)), Ok(value));
        assert_eq!(handle.get_within(key, Steps::new(5 * nodes + 11)), Ok(None));
        assert_eq!(handle.try_insert(key, 10 * key), Ok(true));
        assert_eq!(handle.remove_within(key, Steps::new(9 * (nodes + 1) + 11)), Ok(Some(10 * key)));
        assert_eq!(value.map(|value| handle.try_insert(key, value)), value.map(|_| Ok(true)));
    }
}

#[test]
fn values_that_change() {
    let mut handles = Map::handles_with(Shape::for_keys(8, 2), &[(5, 50), (7, 70)]).expect("a map");
    let other = handles.pop().expect("two handles");
    let mut handle = handles.pop().expect("two handles");
    assert_eq!((handle.replace(5, 51), handle.replace(6, 60)), (Ok(Some(50)), Ok(None)));
    assert_eq!((other.get(5), other.get(6)), (Ok(Some(51)), Ok(None)));
    assert_eq!((handle.put(5, 52), handle.put(6, 60)), (Ok(Some(51)), Ok(None)));
    assert_eq!((other.get(5), other.get(6)), (Ok(Some(52)), Ok(Some(60))));
    assert_eq!((handle.get_or_insert(5, 53), handle.get_or_insert(8, 80)), (Ok(Some(52)), Ok(None)));
    assert_eq!((other.get(5), other.get(8)), (Ok(Some(52)), Ok(Some(80))));
    assert_eq!(handle.compare_exchange(5, 51, 53), Ok(Compared::Other(52)));
    assert_eq!(handle.compare_exchange(5, 52, 53), Ok(Compared::Equal));
    assert_eq!(handle.compare_exchange(9, 52, 53), Ok(Compared::Absent));
    assert_eq!(handle.remove_if(5, 52), Ok(Compared::Other(53)));
    assert_eq!(other.get(5), Ok(Some(53)));
    assert_eq!((handle.fetch_add(5, 2), handle.fetch_add(5, u64::MAX - 1)), (Ok(Some(53)), Ok(Some(55))));
    assert_eq!((handle.fetch_add(9, 90), other.get(9), handle.remove(9)), (Ok(None), Ok(Some(90)), Ok(Some(90))));
    assert_eq!((handle.remove_if(5, 53), handle.remove_if(5, 53)), (Ok(Compared::Equal), Ok(Compared::Absent)));
    assert_eq!(handle.fetch_update(7, |value| Some(value * 2)), Ok(Some(70)));
    assert_eq!(handle.fetch_update(7, |value| (value < 100).then_some(0)), Ok(None));
    assert_eq!(handle.fetch_update(5, Some), Ok(None));
    drop(handle);
    assert_eq!(other.close().expect("a report").expect("the last handle").entries, [(6, 60), (7, 140), (8, 80)]);
}

#[test]
fn refused_changes_leave_the_value() {
    for (slots, is_spent) in [(2, false), (3, true)] {
        let refusal = if is_spent { Refusal::EpochSpent } else { Refusal::NoSlot };
        let mut handle = Map::handles_with(Shape::new(slots, 1, 1), &[(5, 50), (7, 70)]).expect("a map").remove(0);
        if is_spent {
            assert_eq!((handle.try_insert(9, 90), handle.remove(9)), (Ok(true), Ok(Some(90))));
        }
        assert_eq!((handle.replace(5, 51), handle.put(5, 51)), (Err(refusal), Err(refusal)));
        assert_eq!((handle.put(6, 60), handle.get_or_insert(6, 60)), (Err(refusal), Err(refusal)));
        assert_eq!((handle.fetch_add(5, 1), handle.fetch_add(6, 1)), (Err(refusal), Err(refusal)));
        assert_eq!(handle.compare_exchange(5, 50, 51), Err(refusal));
        assert_eq!(handle.fetch_update(5, |value| Some(value + 1)), Err(refusal));
        assert_eq!(
            (handle.replace_within(5, 51, Steps::new(1)), handle.remove_if_within(5, 50, Steps::new(1))),
            (Err(Refusal::OutOfSteps), Err(OutOfSteps))
        );
        assert_eq!((handle.replace(6, 60), handle.get_or_insert(7, 71)), (Ok(None), Ok(Some(70))));
        assert_eq!(handle.remove_if(7, 70), Ok(Compared::Equal));
        assert_eq!(handle.close().expect("a report").expect("the only handle").entries, [(5, 50)]);
    }
}

#[test]
fn loans() {
    let map = Map::open(Shape::for_keys(8, 1)).expect("a map");
    assert_eq!(map.lend().expect("a free handle").try_insert(5, 70), Ok(true));
    assert_eq!(map.lend().expect("a free handle").get(5), Ok(Some(70)));
    assert_eq!(map.close().expect("a report").entries, [(5, 70)]);
    let all = Map::open_with(Shape::for_keys(100, 64), &[(1, 10)]).expect("a map");
    let loans: Vec<_> = (0..64).map(|_| all.lend().expect("a free handle")).collect();
    assert!(all.lend().is_none());
    drop(loans);
    assert_eq!(all.close().expect("a report").entries, [(1, 10)]);
}

/// A program names a map's handle in errors.
#[test]
fn errors_with_a_handle() {
    fn goes_on(error: CloseError<MapHandle>) -> Option<MapHandle> {
        match error {
            CloseError::Memory(unclosed) => Some(Unclosed::into_handle(unclosed)),
            _ => None,
        }
    }
    assert!(goes_on(CloseError::Lost).is_none());
}

#[test]
fn gets_through_a_shared_reference() {
    let mut handle = Map::handles_with(Shape::for_keys(8, 1), &[(2, 20), (5, 50)]).expect("a map").remove(0);
    let shared = &handle;
    let there: Vec<_> = (0..10).filter_map(|key| shared.get(key).expect("steps")).collect();
    assert_eq!(there, [20, 50]);
    assert_eq!(handle.remove(5), Ok(Some(50)));
}

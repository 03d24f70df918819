//! The code of the page that packages show: a set whose handles threads own, and a map that lends its handles.
//!
//!     cargo run --example first
use vbr::{Map, Set, Shape};

fn main() -> Result<(), Box<dyn std::error::Error>> {
    // a set of up to 1,024 keys, and two handles, which threads own
    let [mut first, second] = Set::handles(Shape::for_keys(1_024, 2))?.try_into().expect("two handles");
    assert!(first.insert('k')?);
    assert!(second.contains('k')?); // in any thread

    // a map that lends its handles to threads that come and go
    let map = Map::open(Shape::for_keys(1_024, 4))?;
    std::thread::scope(|scope| {
        for word in ["one", "two", "two"] {
            let map = &map;
            scope.spawn(move || map.lend_wait().entry(word.len()).and_modify(|count| *count += 1).or_insert(1));
        }
    });
    assert_eq!(map.close()?.entries, [(3, 3)]);
    Ok(())
}

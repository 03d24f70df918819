//! Michael's hash table over crossbeam-epoch, as a Rust programmer would write it, for the comparison: a set where values are
//! nothing, or a map.
use crate::{Map, Set};
use crossbeam_epoch::{self as epoch, Atomic, Guard, Owned, Shared};
use std::sync::atomic::Ordering::{AcqRel, Acquire, Relaxed, Release};

struct Node<V> {
    key: u64,
    value: V,
    next: Atomic<Node<V>>, // the tag 1 marks this node as removed
}

pub struct EpochTable<V> {
    heads: Vec<Atomic<Node<V>>>,
}

pub type EpochSet = EpochTable<()>;
pub type EpochMap = EpochTable<u64>;

/// Where a key is, or would be: the link to the first node that isn't smaller, and that node.
struct Place<'g, V> {
    link: &'g Atomic<Node<V>>,
    node: Shared<'g, Node<V>>,
    found: bool,
}

impl<V: Copy> EpochTable<V> {
    fn open(buckets: usize) -> EpochTable<V> {
        EpochTable { heads: (0..buckets).map(|_| Atomic::null()).collect() }
    }

    fn head(&self, key: u64) -> &Atomic<Node<V>> {
        &self.heads[key as usize & (self.heads.len() - 1)]
    }

    fn find<'g>(&'g self, key: u64, guard: &'g Guard) -> Place<'g, V> {
        loop {
            if let Some(place) = self.walk(key, guard) {
                return place;
            }
        }
    }

    /// One walk along the list, which unlinks marked nodes; nothing where it lost an exchange.
    fn walk<'g>(&'g self, key: u64, guard: &'g Guard) -> Option<Place<'g, V>> {
        let mut link = self.head(key);
        let mut node = link.load(Acquire, guard);
        // Safety: a node that is reached while the guard is held isn't freed before it is dropped.
        while let Some(current) = unsafe { node.as_ref() } {
            let next = current.next.load(Acquire, guard);
            if next.tag() == 1 {
                link.compare_exchange(node, next.with_tag(0), AcqRel, Relaxed, guard).ok()?;
                // Safety: this thread has unlinked the node, and nobody else does.
                unsafe { guard.defer_destroy(node) };
                node = next.with_tag(0);
            } else if current.key >= key {
                let found = current.key == key;
                return Some(Place { link, node, found });
            } else {
                link = &current.next;
                node = next;
            }
        }
        Some(Place { link, node, found: false })
    }

    fn look_up(&self, key: u64) -> Option<V> {
        let guard = &epoch::pin();
        let mut node = self.head(key).load(Acquire, guard);
        // Safety: as in `walk`.
        while let Some(current) = unsafe { node.as_ref() } {
            let next = current.next.load(Acquire, guard);
            if current.key >= key && next.tag() == 0 {
                return (current.key == key).then_some(current.value);
            }
            node = next.with_tag(0);
        }
        None
    }

    fn add(&self, key: u64, value: V) -> bool {
        let guard = &epoch::pin();
        let mut fresh = None;
        loop {
            let place = self.find(key, guard);
            if place.found {
                return false;
            }
            let next = Atomic::null();
            let mut owned = fresh.take().unwrap_or_else(|| Owned::new(Node { key, value, next }));
            owned.next = Atomic::from(place.node);
            match place.link.compare_exchange(place.node, owned, Release, Relaxed, guard) {
                Ok(_) => return true,
                Err(lost) => fresh = Some(lost.new),
            }
        }
    }

    fn take_out(&self, key: u64) -> Option<V> {
        let guard = &epoch::pin();
        loop {
            let place = self.find(key, guard);
            if !place.found {
                return None;
            }
            // Safety: as in `walk`.
            let node = unsafe { place.node.deref() };
            let next = node.next.load(Acquire, guard);
            if next.tag() == 1 || node.next.compare_exchange(next, next.with_tag(1), AcqRel, Relaxed, guard).is_err() {
                continue;
            }
            if place.link.compare_exchange(place.node, next, AcqRel, Relaxed, guard).is_ok() {
                // Safety: this thread has unlinked the node, and nobody else does.
                unsafe { guard.defer_destroy(place.node) };
            }
            return Some(node.value);
        }
    }
}

impl Set for EpochSet {
    fn open(buckets: usize, _keys: usize) -> EpochSet {
        EpochTable::open(buckets)
    }

    fn has(&self, key: u64) -> bool {
        self.look_up(key).is_some()
    }

    fn insert(&self, key: u64) -> bool {
        self.add(key, ())
    }

    fn remove(&self, key: u64) -> bool {
        self.take_out(key).is_some()
    }
}

impl Map for EpochMap {
    fn open(buckets: usize, _keys: usize) -> EpochMap {
        EpochTable::open(buckets)
    }

    fn get(&self, key: u64) -> Option<u64> {
        self.look_up(key)
    }

    fn insert(&self, key: u64, value: u64) -> bool {
        self.add(key, value)
    }

    fn remove(&self, key: u64) -> Option<u64> {
        self.take_out(key)
    }

    /// In between others find the key absent, and where another thread inserts it first that one's value stays.
    fn replace(&self, key: u64, value: u64) -> Option<u64> {
        let old = self.take_out(key);
        self.add(key, value);
        old
    }
}

impl<V> Drop for EpochTable<V> {
    fn drop(&mut self) {
        // Safety: nobody else has the set.
        let guard = unsafe { epoch::unprotected() };
        for head in &self.heads {
            let mut node = head.load(Relaxed, guard);
            while !node.is_null() {
                let owned = unsafe { node.with_tag(0).into_owned() };
                node = owned.next.load(Relaxed, guard).with_tag(0);
            }
        }
    }
}

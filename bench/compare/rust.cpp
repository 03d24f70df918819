// The peers in Rust: Michael's hash set and hash map over crossbeam-epoch, and dashmap, of the crate in rust/.
#include "walk.hpp"

struct RustTable;

#define DECLARED(NAME)                                                                                                     \
    extern "C" {                                                                                                           \
    RustTable *NAME##_set_open(size_t buckets, size_t keys);                                                               \
    void NAME##_set_close(RustTable *);                                                                                    \
    bool NAME##_set_insert(RustTable *, uint64_t);                                                                         \
    bool NAME##_set_remove(RustTable *, uint64_t);                                                                         \
    bool NAME##_set_has(RustTable *, uint64_t);                                                                            \
    RustTable *NAME##_map_open(size_t buckets, size_t keys);                                                               \
    void NAME##_map_close(RustTable *);                                                                                    \
    bool NAME##_map_insert(RustTable *, uint64_t key, uint64_t value);                                                     \
    bool NAME##_map_remove(RustTable *, uint64_t key, uint64_t *value);                                                    \
    bool NAME##_map_get(RustTable *, uint64_t key, uint64_t *value);                                                       \
    bool NAME##_map_replace(RustTable *, uint64_t key, uint64_t value, uint64_t *old);                                     \
    }
DECLARED(epoch)
DECLARED(dash)
extern "C" {
void dash_set_walk(RustTable *, void (*each)(void *with, uint64_t key), void *with);
void dash_map_walk(RustTable *, void (*each)(void *with, uint64_t key, uint64_t value), void *with);
}

namespace {

template <auto OPEN, auto CLOSE> struct Rust {
    RustTable *table;

    explicit Rust(const Workload &w) : table(OPEN(w.buckets(), w.keys())) {}
    ~Rust() { CLOSE(table); }

    struct Handle {
        Handle(Rust &, unsigned) {}
    };
};

template <auto OPEN, auto CLOSE, auto INSERT, auto REMOVE, auto HAS> struct RustSet : Rust<OPEN, CLOSE> {
    using Rust<OPEN, CLOSE>::Rust;
    using typename Rust<OPEN, CLOSE>::Handle;

    bool insert(Handle &, uint64_t key) { return INSERT(this->table, key); }
    bool remove(Handle &, uint64_t key) { return REMOVE(this->table, key); }
    bool has(Handle &, uint64_t key) { return HAS(this->table, key); }
};

template <auto OPEN, auto CLOSE, auto INSERT, auto REMOVE, auto GET, auto REPLACE> struct RustMap : Rust<OPEN, CLOSE> {
    using Rust<OPEN, CLOSE>::Rust;
    using typename Rust<OPEN, CLOSE>::Handle;

    bool insert(Handle &, uint64_t key, uint64_t value) { return INSERT(this->table, key, value); }
    bool remove(Handle &, uint64_t key, uint64_t &value) { return REMOVE(this->table, key, &value); }
    bool get(Handle &, uint64_t key, uint64_t &value) { return GET(this->table, key, &value); }
    bool replace(Handle &, uint64_t key, uint64_t value, uint64_t &old) { return REPLACE(this->table, key, value, &old); }
};

using Crossbeam = RustSet<epoch_set_open, epoch_set_close, epoch_set_insert, epoch_set_remove, epoch_set_has>;
using CrossbeamMap =
    RustMap<epoch_map_open, epoch_map_close, epoch_map_insert, epoch_map_remove, epoch_map_get, epoch_map_replace>;

struct Dashmap : RustSet<dash_set_open, dash_set_close, dash_set_insert, dash_set_remove, dash_set_has> {
    using RustSet::RustSet;

    template <class F> void walk(Handle &, F each) {
        dash_set_walk(table, [](void *with, uint64_t key) { (*static_cast<F *>(with))(key); }, &each);
    }
};

struct DashmapMap : RustMap<dash_map_open, dash_map_close, dash_map_insert, dash_map_remove, dash_map_get, dash_map_replace> {
    using RustMap::RustMap;

    template <class F> void walk(Handle &, F each) {
        dash_map_walk(table, [](void *with, uint64_t key, uint64_t value) { (*static_cast<F *>(with))(key, value); }, &each);
    }
};

PEER("crossbeam-epoch", Crossbeam);
PEER("dashmap", Dashmap);
MAP_PEER("crossbeam-epoch", CrossbeamMap, "a remove and an insert");
MAP_PEER("dashmap", DashmapMap, "insert");
WALK_PEER("dashmap", Dashmap);
MAP_WALK_PEER("dashmap", DashmapMap);

}  // namespace

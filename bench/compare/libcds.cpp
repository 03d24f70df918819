// libcds: Michael's hash set and hash map, whose nodes are reclaimed by hazard pointers.
#include "map.hpp"

#include <cds/gc/hp.h>
#include <cds/init.h>

#include <cds/container/michael_kvlist_hp.h>
#include <cds/container/michael_list_hp.h>
#include <cds/container/michael_map.h>
#include <cds/container/michael_set.h>

#include <atomic>

namespace {

namespace cc = cds::container;
using Traits = cc::michael_list::make_traits<cds::opt::less<std::less<uint64_t>>>::type;
using NoCounter = cds::opt::item_counter<cds::atomicity::empty_item_counter>;
using Set = cc::MichaelHashSet<cds::gc::HP, cc::MichaelList<cds::gc::HP, uint64_t, Traits>,
                               cc::michael_set::make_traits<cds::opt::hash<Identity>, NoCounter>::type>;

// A value that is replaced in its node, while others read it. A node's is moved there when it is made.
struct Value {
    std::atomic<uint64_t> word;
    Value(uint64_t value = 0) : word(value) {}
    Value(Value &&from) : word(from.word.load(std::memory_order_relaxed)) {}
};
using Map = cc::MichaelHashMap<cds::gc::HP, cc::MichaelKVList<cds::gc::HP, uint64_t, Value, Traits>,
                               cc::michael_map::make_traits<cds::opt::hash<Identity>, NoCounter>::type>;

// A set or a map, with the library behind it.
template <class T> struct Libcds {
    struct Library {
        Library() { cds::Initialize(); }
        ~Library() { cds::Terminate(); }
    };
    struct Attached {
        Attached() { cds::threading::Manager::attachThread(); }
        ~Attached() { cds::threading::Manager::detachThread(); }
    };
    Library library;
    cds::gc::HP hazards;
    Attached attached;
    T table;

    explicit Libcds(const Workload &w) : hazards(T::c_nHazardPtrCount, w.threads + 3), table(w.buckets(), 1) {}

    struct Handle {
        Attached attached;
        Handle(Libcds &, unsigned) {}
    };
};

struct LibcdsSet : Libcds<Set> {
    using Libcds::Libcds;

    bool insert(Handle &, uint64_t key) { return table.insert(key); }
    bool remove(Handle &, uint64_t key) { return table.erase(key); }
    bool has(Handle &, uint64_t key) { return table.contains(key); }
};

struct LibcdsMap : Libcds<Map> {
    using Libcds::Libcds;

    bool insert(Handle &, uint64_t key, uint64_t value) { return table.insert(key, value); }
    bool remove(Handle &, uint64_t key, uint64_t &value) {
        return table.erase(key, [&](Map::value_type &entry) { value = entry.second.word; });
    }
    bool get(Handle &, uint64_t key, uint64_t &value) {
        return table.find(key, [&](Map::value_type &entry) { value = entry.second.word; });
    }
    bool replace(Handle &, uint64_t key, uint64_t value, uint64_t &old) {
        auto exchanges = [&](bool, Map::value_type &entry) { old = entry.second.word.exchange(value); };
        return table.update(key, exchanges, false).first;
    }
};

PEER("libcds HP", LibcdsSet);
MAP_PEER("libcds HP", LibcdsMap, "update, in the node");

}  // namespace

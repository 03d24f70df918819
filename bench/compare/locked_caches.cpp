// Caches of the standard library's map and locks: 64 parts with a CLOCK each, of numbers and of strings, and an LRU under one mutex. A node
// that is evicted is used again, so a full cache takes no memory.
#include "cache.hpp"

#include <list>
#include <mutex>
#include <shared_mutex>
#include <unordered_map>

namespace {

// Some entries with a CLOCK, for calls that the lock of the part orders: gets share it.
template <class Key, class Value, class Hash> class Clock {
    struct Stored {
        Value value;
        std::atomic<bool> is_used{false};
        explicit Stored(const Value &of) : value(of) {}
    };
    using Map = std::unordered_map<Key, Stored, Hash>;
    using Place = typename Map::iterator;

    Map map;
    std::vector<Place> places; // which the hand goes over
    size_t hand = 0, most;

    // The place of the entry that goes.
    Place &next_to_go() {
        for (;;) {
            Place &place = places[hand];
            hand = hand + 1 == places.size() ? 0 : hand + 1;
            if (!place->second.is_used.load(std::memory_order_relaxed)) return place;
            place->second.is_used.store(false, std::memory_order_relaxed);
        }
    }

public:
    explicit Clock(size_t entries) : most(entries) {
        map.reserve(entries);
        places.reserve(entries);
    }

    template <class Copy> bool get(const Key &key, Copy copy) {
        const Place found = map.find(key);
        if (found == map.end()) return false;
        copy(found->second.value);
        std::atomic<bool> &is_used = found->second.is_used;
        if (!is_used.load(std::memory_order_relaxed)) is_used.store(true, std::memory_order_relaxed);
        return true;
    }
    void insert(const Key &key, const Value &value) {
        if (map.find(key) != map.end()) return;
        if (places.size() < most) {
            places.push_back(map.emplace(key, value).first);
            return;
        }
        Place &place = next_to_go();
        auto node = map.extract(place);
        node.key() = key;
        node.mapped().value = value;
        place = map.insert(std::move(node)).position;
    }
};

template <class Key, class Value, class Hash> struct Parts {
    static constexpr size_t PARTS = 64;
    struct alignas(128) Part {
        std::shared_mutex lock;
        Clock<Key, Value, Hash> entries;
        explicit Part(size_t most) : entries(most) {}
    };
    std::vector<std::unique_ptr<Part>> parts;

    explicit Parts(const Workload &w) {
        for (size_t i = 0; i < PARTS; i++) parts.push_back(std::make_unique<Part>(w.entries * (i + 1) / PARTS - w.entries * i / PARTS));
    }

    // By bits that a table of the part doesn't go by first.
    Part &part_of(const Key &key) { return *parts[Hash()(key) >> 32 & (PARTS - 1)]; }

    template <class Copy> bool get(const Key &key, Copy copy) {
        Part &part = part_of(key);
        std::shared_lock<std::shared_mutex> guard(part.lock);
        return part.entries.get(key, copy);
    }
    void insert(const Key &key, const Value &value) {
        Part &part = part_of(key);
        std::lock_guard<std::shared_mutex> guard(part.lock);
        part.entries.insert(key, value);
    }
};

// A cache of numbers, that gives copies.
template <class Of> struct Numbers : Of {
    using Of::Of;
    struct Handle {
        Handle(Numbers &, unsigned) {}
    };
    template <class Use> bool get(Handle &, uint64_t key, Use use) {
        CacheValue copy;
        if (!Of::get(key, [&](const CacheValue &value) { copy = value; })) return false;
        use(copy);
        return true;
    }
    void insert(Handle &, uint64_t key, const CacheValue &value) { Of::insert(key, value); }
};

// One of strings: a thread has one for the key and one for the value, which keep their memory.
template <class Of> struct Strings : Of {
    using Of::Of;
    struct Handle {
        std::string key, value;
        Handle(Strings &, unsigned) {}
    };
    template <class Use> bool get(Handle &h, uint64_t key, Use use) {
        h.key = KeyText(key).view();
        CacheValue copy;
        if (!Of::get(h.key, [&](const std::string &value) { std::memcpy(&copy, value.data(), sizeof copy); })) return false;
        use(copy);
        return true;
    }
    void insert(Handle &h, uint64_t key, const CacheValue &value) {
        h.key = KeyText(key).view();
        h.value.assign(reinterpret_cast<const char *>(&value), sizeof value);
        Of::insert(h.key, h.value);
    }
};

// The entries in the order of their use.
class Lru {
    struct Entry {
        uint64_t key;
        CacheValue value;
    };
    using Used = std::list<Entry>;

    std::mutex lock;
    Used used; // the latest one first
    std::unordered_map<uint64_t, Used::iterator, Identity> map;
    size_t most;

public:
    explicit Lru(const Workload &w) : most(w.entries) { map.reserve(most); }

    template <class Copy> bool get(uint64_t key, Copy copy) {
        std::lock_guard<std::mutex> guard(lock);
        const auto found = map.find(key);
        if (found == map.end()) return false;
        used.splice(used.begin(), used, found->second);
        copy(found->second->value);
        return true;
    }
    void insert(uint64_t key, const CacheValue &value) {
        std::lock_guard<std::mutex> guard(lock);
        if (map.find(key) != map.end()) return;
        if (map.size() < most) {
            used.push_front({key, value});
            map.emplace(key, used.begin());
            return;
        }
        auto node = map.extract(used.back().key);
        used.splice(used.begin(), used, std::prev(used.end()));
        used.front() = {key, value};
        node.key() = key;
        map.insert(std::move(node));
    }
};

using LockedClocks = Numbers<Parts<uint64_t, CacheValue, Identity>>;
using LockedStrings = Strings<Parts<std::string, std::string, std::hash<std::string>>>;
using LockedLru = Numbers<Lru>;

CACHE_PEER("64 shared mutexes", LockedClocks);
CACHE_PEER("64 of strings", LockedStrings);
CACHE_PEER("LRU mutex", LockedLru);

}  // namespace

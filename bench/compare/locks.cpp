// Locks round the hash set and the hash map of the standard library, which take about as many buckets as keys.
#include "map.hpp"

#include <mutex>
#include <shared_mutex>
#include <unordered_map>
#include <unordered_set>
#include <utility>

namespace {

// Some parts, each with a lock of its own; a key belongs to one of them by its high bits.
template <class Table, class Lock, unsigned PARTS> struct Parts {
    struct alignas(128) Part {
        Lock lock;
        Table keys;
    };
    std::vector<Part> parts;

    explicit Parts(const Workload &w) : parts(PARTS) {
        for (Part &part : parts) part.keys.reserve(w.keys() / PARTS + 1);
    }

    struct Handle {
        Handle(Parts &, unsigned) {}
    };

    Part &part_of(uint64_t key) { return parts[(key >> 32) % PARTS]; }
};

template <class Lock, class ReadGuard, unsigned PARTS> struct Locked : Parts<std::unordered_set<uint64_t, Identity>, Lock, PARTS> {
    using Base = Parts<std::unordered_set<uint64_t, Identity>, Lock, PARTS>;
    using Base::Base;
    using typename Base::Handle, typename Base::Part;

    bool insert(Handle &, uint64_t key) {
        Part &part = this->part_of(key);
        std::lock_guard<Lock> guard(part.lock);
        return part.keys.insert(key).second;
    }
    bool remove(Handle &, uint64_t key) {
        Part &part = this->part_of(key);
        std::lock_guard<Lock> guard(part.lock);
        return part.keys.erase(key) != 0;
    }
    bool has(Handle &, uint64_t key) {
        Part &part = this->part_of(key);
        ReadGuard guard(part.lock);
        return part.keys.count(key) != 0;
    }
};

template <class Lock, class ReadGuard, unsigned PARTS>
struct LockedMap : Parts<std::unordered_map<uint64_t, uint64_t, Identity>, Lock, PARTS> {
    using Base = Parts<std::unordered_map<uint64_t, uint64_t, Identity>, Lock, PARTS>;
    using Base::Base;
    using typename Base::Handle, typename Base::Part;

    bool insert(Handle &, uint64_t key, uint64_t value) {
        Part &part = this->part_of(key);
        std::lock_guard<Lock> guard(part.lock);
        return part.keys.try_emplace(key, value).second;
    }
    bool remove(Handle &, uint64_t key, uint64_t &value) {
        Part &part = this->part_of(key);
        std::lock_guard<Lock> guard(part.lock);
        auto found = part.keys.find(key);
        if (found == part.keys.end()) return false;
        value = found->second;
        part.keys.erase(found);
        return true;
    }
    bool replace(Handle &, uint64_t key, uint64_t value, uint64_t &old) {
        Part &part = this->part_of(key);
        std::lock_guard<Lock> guard(part.lock);
        auto found = part.keys.find(key);
        if (found == part.keys.end()) return false;
        old = std::exchange(found->second, value);
        return true;
    }
    bool get(Handle &, uint64_t key, uint64_t &value) {
        Part &part = this->part_of(key);
        ReadGuard guard(part.lock);
        auto found = part.keys.find(key);
        if (found == part.keys.end()) return false;
        value = found->second;
        return true;
    }
};

template <template <class, class, unsigned> class T> using OfMutex = T<std::mutex, std::lock_guard<std::mutex>, 1>;
template <template <class, class, unsigned> class T> using OfSharedMutex = T<std::shared_mutex, std::shared_lock<std::shared_mutex>, 1>;
template <template <class, class, unsigned> class T> using OfMutexes = T<std::mutex, std::lock_guard<std::mutex>, 64>;

using Mutex = OfMutex<Locked>;
using SharedMutex = OfSharedMutex<Locked>;
using Mutexes = OfMutexes<Locked>;
using MutexMap = OfMutex<LockedMap>;
using SharedMutexMap = OfSharedMutex<LockedMap>;
using MutexesMap = OfMutexes<LockedMap>;

PEER("mutex", Mutex);
PEER("shared mutex", SharedMutex);
PEER("64 mutexes", Mutexes);
MAP_PEER("mutex", MutexMap, "assignment");
MAP_PEER("shared mutex", SharedMutexMap, "assignment");
MAP_PEER("64 mutexes", MutexesMap, "assignment");

}  // namespace

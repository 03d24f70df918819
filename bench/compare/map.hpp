// What a peer of the comparison of maps is: a type M, made of a Workload, with
//     struct Handle { Handle(M &, unsigned thread); };        one for each thread, made and ended by it
//     bool insert(Handle &, uint64_t key, uint64_t value), remove(Handle &, uint64_t key, uint64_t &value);
//     bool get(Handle &, uint64_t key, uint64_t &value);      this and `remove` give the value where they answer yes
//     bool replace(Handle &, uint64_t key, uint64_t value, uint64_t &old);    of a key that is there; gives the value that it had
// An insert of a key that is there leaves its value. MAP_PEER(name, M, REPLACES_BY) names it in a file of its own, with what it
// replaces a value by.
#pragma once
#include "workload.hpp"

// The value that a thread stores with a key: it tells both.
constexpr uint64_t value_of(uint64_t key, unsigned thread) { return key ^ thread; }
constexpr bool is_value_of(uint64_t value, uint64_t key) { return (value ^ key) < 64; }

// A map as the loops call it: a look-up is a get. A value that no insert stored with its key ends the run.
template <class M> struct Gets {
    M map;
    std::atomic<uint64_t> wrong{0};

    explicit Gets(const Workload &w) : map(w) {}
    ~Gets() {
        if (wrong == 0) return;
        std::fprintf(stderr, "compare: %llu values that no insert stored with their keys\n", static_cast<unsigned long long>(wrong));
        std::_Exit(1);
    }

    struct Handle {
        Gets &of;
        typename M::Handle of_map;
        const unsigned thread;
        uint64_t wrong = 0;

        Handle(Gets &of, unsigned thread) : of(of), of_map(of.map, thread), thread(thread) {}
        ~Handle() { of.wrong += wrong; }
        bool notes(bool given, uint64_t value, uint64_t key) {
            wrong += given && !is_value_of(value, key);
            return given;
        }
    };

    bool insert(Handle &h, uint64_t key) { return map.insert(h.of_map, key, value_of(key, h.thread)); }
    bool remove(Handle &h, uint64_t key) {
        uint64_t value = 0;
        bool given = map.remove(h.of_map, key, value);
        return h.notes(given, value, key);
    }
    bool has(Handle &h, uint64_t key) {
        uint64_t value = 0;
        bool given = map.get(h.of_map, key, value);
        return h.notes(given, value, key);
    }
    bool replace(Handle &h, uint64_t key) {
        uint64_t old = 0;
        bool given = map.replace(h.of_map, key, value_of(key, h.thread), old);
        return h.notes(given, old, key);
    }
};

// The same, where a look-up asks only whether the key is there: of a map that has `has` too.
template <class M> struct Looks : Gets<M> {
    using Gets<M>::Gets;
    using Handle = typename Gets<M>::Handle;
    bool has(Handle &h, uint64_t key) { return this->map.has(h.of_map, key); }
};

// The same, of a map that gets the values of many keys at once: it has
//     template <class F> void get_all(Handle &, const uint64_t *keys, size_t count, F each);    calls `each` with a number and a value
template <class M> struct GetsAll : Gets<M> {
    using Gets<M>::Gets;
    using Handle = typename Gets<M>::Handle;
    uint64_t has_all(Handle &h, const uint64_t *keys, size_t count) {
        uint64_t yes = 0;
        this->map.get_all(h.of_map, keys, count, [&](size_t i, uint64_t value) { yes += h.notes(true, value, keys[i]); });
        return yes;
    }
};

inline std::vector<Peer> &map_peers() { return list_of<Peer, List::map_peers>(); }

#define MAP_PEER(name, M, REPLACES_BY) \
    static const bool named_##M = (map_peers().push_back({name, measure<Gets<M>>, wrong_keys<Gets<M>>, REPLACES_BY}), true)

// Walks over all keys, by one thread. A set or a map that is walked has besides
//     template <class F> void walk(Handle &, F each);    calls `each` with each key, of a map with its value too
// and WALK_PEER(name, P), or MAP_WALK_PEER, names it. Beside the walks of the library stand look-ups of the same keys, in the
// order of a walk.
#pragma once
#include "map.hpp"

struct Walk {
    Peer peer;
    const char *by; // what stands behind the number of keys in the table

    // As near to so many keys as whole walks can be.
    static uint64_t possible(uint64_t operations, uint64_t range) { return std::max<uint64_t>(1, operations / range) * range; }
};

inline std::vector<Walk> &walks() { return list_of<Walk, List::walks>(); }
inline std::vector<Walk> &map_walks() { return list_of<Walk, List::map_walks>(); }

// A map as the loops walk it: with each value seen to.
template <class M> struct Walks : Gets<M> {
    using Gets<M>::Gets;
    using typename Gets<M>::Handle;
    template <class F> void walk(Handle &h, F each) {
        this->map.walk(h.of_map, [&](uint64_t key, uint64_t value) {
            h.notes(true, value, key);
            each(key);
        });
    }
};

// All keys as a walk gives them. They have to be those that were put in, each once.
template <class P> std::vector<uint64_t> walked_keys(P &peer, typename P::Handle &handle, const Workload &w) {
    std::vector<uint64_t> walked, put_in;
    for (uint64_t i = 0; i < w.range; i++) put_in.push_back(key_of(i));
    peer.walk(handle, [&](uint64_t key) { walked.push_back(key); });
    std::vector<uint64_t> sorted = walked;
    std::sort(sorted.begin(), sorted.end());
    std::sort(put_in.begin(), put_in.end());
    if (sorted != put_in) std::fputs("compare: a walk gave other keys than were put in\n", stderr), std::_Exit(1);
    return walked;
}

// Walks, or look-ups in their place, over keys that were put in before.
template <class P, bool LOOKS_UP> Run measure_walks(const Workload &w) {
    using Clock = std::chrono::steady_clock;
    auto start = Clock::now();
    P peer(w);
    std::chrono::duration<double> opening = Clock::now() - start;
    Run run;
    run.open_seconds = opening.count();
    std::thread([&] {
        typename P::Handle handle(peer, 0);
        for (uint64_t i = 0; i < w.range; i++) peer.insert(handle, key_of(i));
        const std::vector<uint64_t> keys = walked_keys(peer, handle, w);
        uint64_t sum = 0, all = 0;
        for (uint64_t key : keys) all += key;
        Watch watch;
        auto begin = Clock::now();
        for (; run.yes < w.operations; run.yes += w.range) {
            if constexpr (LOOKS_UP)
                for (uint64_t key : keys) sum += peer.has(handle, key) ? key : 0;
            else
                peer.walk(handle, [&](uint64_t key) { sum += key; });
        }
        run.seconds = std::chrono::duration<double>(Clock::now() - begin).count();
        run.disturbance = watch.seen();
        if (sum != all * (run.yes / w.range)) std::fputs("compare: a walk gave other keys than before\n", stderr), std::_Exit(1);
    }).join();
    return run;
}

#define WALK_PEER(name, P) static const bool walked_##P = (walks().push_back({{name, measure_walks<P, false>, nullptr}, ""}), true)
#define MAP_WALK_PEER(name, M) static const bool walked_##M = (map_walks().push_back({{name, measure_walks<Walks<M>, false>, nullptr}, ""}), true)

// The look-ups beside the library's walks.
template <class P> Walk look_ups(const char *name, const char *by) { return {{name, measure_walks<P, true>, nullptr}, by}; }

// What is measured, and how: the same for each peer.
//
// A peer is a type P, made of a Workload, with
//     struct Handle { Handle(P &, unsigned thread); };        one for each thread, made and ended by it
//     bool insert(Handle &, uint64_t), remove(Handle &, uint64_t), has(Handle &, uint64_t);
// and is named by PEER(name, P) in a file of its own.
#pragma once
#include "machine.hpp"

#include <atomic>
#include <cstdint>
#include <string>
#include <thread>
#include <type_traits>
#include <utility>
#include <vector>

struct Workload {
    uint64_t range;               // how many keys there are
    unsigned has, insert, remove; // of 100 calls
    unsigned threads;
    uint64_t operations;          // of all threads
    uint64_t run;                 // from which the random numbers come
    unsigned replace = 0;         // of 100 calls, of maps alone; all four 0: the fill, in which each key is inserted once
    uint64_t entries = 0;         // of caches alone: how many there may be
    unsigned skew = 0;            // of caches alone: the exponent of Zipf's law by which keys come, in hundredths
    bool scans = false;           // of caches alone

    constexpr bool is_fill() const { return has + insert + remove + replace == 0; }

    // How many keys the set has as the calls are made: of a mix about half of them, which are put in before.
    constexpr uint64_t keys() const { return is_fill() ? range : range / 2; }

    // Of each set that has them: a power of two, and at least one for each key of a fill, and one for two keys of a mix.
    constexpr size_t buckets() const {
        size_t buckets = 1;
        while (buckets < (is_fill() ? keys() : keys() / 2)) buckets *= 2;
        return buckets;
    }

    // Of what is in fixed memory: one for each key, and 128 for each thread.
    constexpr uint32_t slots() const { return static_cast<uint32_t>(range + 128 * threads); }

    // Where the part of a thread begins, of the calls of all.
    uint64_t begin_of(unsigned thread) const { return operations * thread / threads; }
};
static_assert(Workload{1000000, 0, 0, 0, 1, 1000000, 0}.buckets() == 1u << 20, "of a fill");
static_assert(Workload{10000, 90, 5, 5, 1, 1, 0}.buckets() == 4096, "of a mix");

// The key of number i: keys have no structure, so that each hash set may take a key as its own hash.
inline uint64_t key_of(uint64_t i) {
    i ^= i >> 33;
    i *= 0xff51afd7ed558ccdu;
    i ^= i >> 33;
    i *= 0xc4ceb9fe1a85ec53u;
    return i ^ i >> 33;
}

struct Identity {
    size_t operator()(uint64_t key) const noexcept { return key; }
};

class Random {
    uint64_t state;

public:
    explicit Random(uint64_t stream) : state((stream + 1) * 0x9e3779b97f4a7c15u | 1) {}
    uint64_t next() {
        state ^= state << 13;
        state ^= state >> 7;
        state ^= state << 17;
        return state;
    }
};

// A place at which threads wait for each other, awake.
class Meeting {
    std::atomic<unsigned> missing;

public:
    explicit Meeting(unsigned threads) : missing(threads) {}
    void wait() {
        missing--;
        while (missing) std::this_thread::yield();
    }
};

// What a thread notes. Each has cache lines of its own: a thread that writes here is not to hold up another.
struct alignas(128) Notes {
    std::chrono::steady_clock::time_point begin, end;
    uint64_t yes = 0;         // calls answered yes
    std::vector<int> by_key;  // of each key: inserts answered yes, less removes; empty where nobody asks
};

// What a replacement gives; none is in a set.
template <class P> using Replaced = decltype(std::declval<P &>().replace(std::declval<typename P::Handle &>(), uint64_t{}));
template <class P, class = void> constexpr bool REPLACES = false;
template <class P> constexpr bool REPLACES<P, std::void_t<Replaced<P>>> = true;

// The key of this number or of the one before, which is put in before a mix.
inline uint64_t key_there(uint64_t number) { return key_of(number & ~uint64_t{1}); }

// How many keys are looked up at once, of what can do so: it has
//     uint64_t has_all(Handle &, const uint64_t *keys, size_t count);    how many of them are there
// and is named by add_batches beside the peer that makes single calls.
constexpr size_t AT_ONCE = 64;
template <class P> using LookedUp = decltype(std::declval<P &>().has_all(std::declval<typename P::Handle &>(), nullptr, 0));
template <class P, class = void> constexpr bool LOOKS_UP_ALL = false;
template <class P> constexpr bool LOOKS_UP_ALL<P, std::void_t<LookedUp<P>>> = true;

// As many look-ups, some at once; how many keys were there.
template <class P> uint64_t looked_up(P &peer, typename P::Handle &handle, const Workload &w, Random &random, uint64_t calls) {
    uint64_t keys[AT_ONCE], yes = 0;
    for (uint64_t done = 0; done < calls; done += AT_ONCE) {
        size_t count = static_cast<size_t>(std::min<uint64_t>(AT_ONCE, calls - done));
        for (size_t i = 0; i < count; i++) keys[i] = key_of((random.next() >> 32) * w.range >> 32);
        yes += peer.has_all(handle, keys, count);
    }
    return yes;
}

// The calls of one thread; how many were answered yes. Of a key that was put in before the value is replaced.
template <class P>
uint64_t mixed_calls(P &peer, typename P::Handle &handle, const Workload &w, unsigned thread, std::vector<int> &by_key) {
    Random random(w.run * 64 + thread);
    uint64_t calls = w.begin_of(thread + 1) - w.begin_of(thread), yes = 0;
    if constexpr (LOOKS_UP_ALL<P>)
        if (w.has == 100) return looked_up(peer, handle, w, random, calls);
    for (uint64_t i = 0; i < calls; i++) {
        uint64_t x = random.next(), number = (x >> 32) * w.range >> 32, place = (x & 0xffffff) * 100 >> 24;
        uint64_t key = key_of(number);
        if (place < w.has) {
            yes += peer.has(handle, key);
            continue;
        }
        if constexpr (REPLACES<P>)
            if (place >= w.has + w.insert + w.remove) {
                yes += peer.replace(handle, key_there(number));
                continue;
            }
        bool inserts = place < w.has + w.insert;
        bool changed = inserts ? peer.insert(handle, key) : peer.remove(handle, key);
        yes += changed;
        if (changed && !by_key.empty()) by_key[number] += inserts ? 1 : -1;
    }
    return yes;
}

// Of the fill: each thread inserts a part of the keys; how many were absent.
template <class P> uint64_t fresh_inserts(P &peer, typename P::Handle &handle, const Workload &w, unsigned thread) {
    uint64_t yes = 0;
    for (uint64_t i = w.begin_of(thread); i < w.begin_of(thread + 1); i++) yes += peer.insert(handle, key_of(i));
    return yes;
}

// Before a mix every other key is put in.
template <class P> void put_in_before(P &peer, const Workload &w) {
    if (w.is_fill()) return;
    std::thread([&] {
        typename P::Handle handle(peer, 0);
        for (uint64_t i = 0; i < w.range; i += 2) peer.insert(handle, key_of(i));
    }).join();
}

struct Run {
    double seconds = 0;       // from the first thread's start to the last one's end
    double processor_seconds = 0; // of caches alone: of a thread, in the mean
    double open_seconds = 0;  // that the opening of the set took
    uint64_t yes = 0;         // calls answered yes
    Disturbance disturbance;
};

// Lets all threads make their calls.
template <class P> Run run_threads(P &peer, const Workload &w, std::vector<Notes> &notes) {
    using Clock = std::chrono::steady_clock;
    Meeting ready(w.threads);
    std::vector<std::thread> threads;
    Watch watch;
    for (unsigned t = 0; t < w.threads; t++)
        threads.emplace_back([&, t] {
            typename P::Handle handle(peer, t);
            ready.wait();
            notes[t].begin = Clock::now();
            notes[t].yes = w.is_fill() ? fresh_inserts(peer, handle, w, t) : mixed_calls(peer, handle, w, t, notes[t].by_key);
            notes[t].end = Clock::now();
        });
    for (std::thread &thread : threads) thread.join();
    Run run;
    run.disturbance = watch.seen();
    Clock::time_point begin = notes[0].begin, end = notes[0].end;
    for (const Notes &note : notes) {
        begin = std::min(begin, note.begin);
        end = std::max(end, note.end);
        run.yes += note.yes;
    }
    run.seconds = std::chrono::duration<double>(end - begin).count();
    return run;
}

template <class P> Run measure(const Workload &w) {
    auto start = std::chrono::steady_clock::now();
    P peer(w);
    std::chrono::duration<double> opening = std::chrono::steady_clock::now() - start;
    put_in_before(peer, w);
    std::vector<Notes> notes(w.threads);
    Run run = run_threads(peer, w, notes);
    run.open_seconds = opening.count();
    return run;
}

// How many keys are in the set and shouldn't be, or should be and aren't, after calls of all threads.
template <class P> uint64_t wrong_keys(const Workload &w) {
    P peer(w);
    put_in_before(peer, w);
    std::vector<Notes> notes(w.threads);
    for (Notes &note : notes) note.by_key.resize(w.range);
    run_threads(peer, w, notes);
    uint64_t wrong = 0;
    std::thread([&] {
        typename P::Handle handle(peer, 0);
        for (uint64_t i = 0; i < w.range; i++) {
            int sum = i % 2 == 0;
            for (Notes &note : notes) sum += note.by_key[i];
            wrong += peer.has(handle, key_of(i)) != sum;
        }
    }).join();
    return wrong;
}

struct Peer {
    std::string name;
    Run (*measure)(const Workload &);
    uint64_t (*wrong_keys)(const Workload &);
    const char *replaces_by = nullptr; // in a map: how it gives a key another value
};

enum class List { peers, map_peers, cache_peers, batches, map_batches, singles, walks, map_walks };

// The list of this name, which is made when it is first asked for.
template <class Each, List> std::vector<Each> &list_of() {
    static std::vector<Each> list;
    return list;
}

inline std::vector<Peer> &peers() { return list_of<Peer, List::peers>(); }

// Those that look many keys up at once stand beside the others where all calls are look-ups.
inline std::vector<Peer> &batches() { return list_of<Peer, List::batches>(); }
inline std::vector<Peer> &map_batches() { return list_of<Peer, List::map_batches>(); }

#define PEER(name, P) static const bool named_##P = (peers().push_back({name, measure<P>, wrong_keys<P>}), true)

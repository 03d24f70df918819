// Caches: what a peer is, how it is checked, and how it is measured: a get, and an insert where that was a miss.
//
// A peer is a type C, made of a Workload, with
//     struct Handle { Handle(C &, unsigned thread); };                   one for each thread, made and ended by it
//     template <class Use> bool get(Handle &, uint64_t key, Use use);    whether the key is there; `use` is called with a copy of its value
//     void insert(Handle &, uint64_t key, const CacheValue &);           of a key that is there either value may stay
// and with at most w.entries entries. CACHE_PEER(name, C) names it in a file of its own.
#pragma once
#include "workload.hpp"

#include <array>
#include <cmath>
#include <condition_variable>
#include <cstring>
#include <map>
#include <memory>
#include <mutex>
#include <sched.h>

// 100 bytes that tell of which key they are and which change of it.
struct CacheValue {
    std::array<uint32_t, 2> key;
    uint32_t change;
    std::array<uint32_t, 20> filled;
    std::array<uint32_t, 2> end; // the key again

    static CacheValue of(uint64_t key, uint32_t change) {
        const std::array<uint32_t, 2> words{static_cast<uint32_t>(key), static_cast<uint32_t>(key >> 32)};
        CacheValue made{words, change, {}, words};
        for (uint32_t i = 0; i < made.filled.size(); i++) made.filled[i] = words[1] + change + i;
        return made;
    }
    bool is_whole_of(uint64_t key) const {
        const CacheValue whole = of(key, change);
        return std::memcmp(this, &whole, sizeof whole) == 0;
    }
    // What a measured call sees to: its begin and its end are of this key.
    bool is_of(uint64_t of) const {
        const std::array<uint32_t, 2> words{static_cast<uint32_t>(of), static_cast<uint32_t>(of >> 32)};
        return key == words && end == words;
    }
};
static_assert(sizeof(CacheValue) == 100);

// A key as text of 20 bytes, for caches of strings.
class KeyText {
    std::array<char, 20> text;

public:
    explicit KeyText(uint64_t key) : text{'k', 'e', 'y', ':'} {
        for (size_t i = 0; i < 16; i++) text[4 + i] = "0123456789abcdef"[key >> 4 * i & 15];
    }
    std::string_view view() const { return {text.data(), text.size()}; }
};

// The numbers of keys as the calls have them, drawn once: number k comes in proportion to k + 1 to the power of -skew. With scans a fifth
// of the calls are runs of numbers that come once.
class Draws {
    std::vector<uint32_t> numbers;
    size_t timed;

    explicit Draws(const Workload &w) : timed(size_t{1} << 22) {
        std::vector<double> below;
        double sum = 0;
        for (uint64_t k = 1; k <= w.range; k++) below.push_back(sum += std::pow(static_cast<double>(k), -0.01 * w.skew));
        Random random(w.skew);
        for (size_t i = 0; i < timed + warming(w); i++) {
            const double at = static_cast<double>(random.next() >> 11) * 0x1p-53 * sum;
            const auto k = static_cast<uint64_t>(std::lower_bound(below.begin(), below.end(), at) - below.begin());
            numbers.push_back(static_cast<uint32_t>(w.scans && i % w.range < w.range / 5 ? w.range + i : k));
        }
    }

public:
    static size_t warming(const Workload &w) { return 2 * w.entries; }

    // A process that is forked afterwards has them too.
    static const Draws &of(const Workload &w) {
        static std::map<std::array<uint64_t, 3>, std::unique_ptr<Draws>> all;
        std::unique_ptr<Draws> &mine = all[{w.range, w.skew, w.scans}];
        if (!mine) mine.reset(new Draws(w));
        return *mine;
    }

    // Number i of a thread in a run, or of those that warm the cache.
    size_t begin_of(const Workload &w, unsigned thread) const { return timed / 4 * thread + timed / 64 * w.run; }
    uint64_t key(size_t i) const { return key_of(numbers[i % timed]); }
    uint64_t warming_key(size_t i) const { return key_of(numbers[timed + i]); }
};

// One call: whether it was a hit. A value of another key counts as wrong.
template <class C> bool cached_call(C &cache, typename C::Handle &handle, uint64_t key, uint32_t change, uint64_t &wrong) {
    if (cache.get(handle, key, [&](const CacheValue &value) { wrong += !value.is_of(key); })) return true;
    cache.insert(handle, key, CacheValue::of(key, change));
    return false;
}

// A run is made in slices of about two milliseconds, which all threads begin together, each on a processor of its own, after some milliseconds
// of sleep: on a busy machine there are slices in which all threads run at once, and no run in which they always do.
constexpr size_t SLICES = 100;

// Where threads sleep until a slice begins.
class Slices {
    std::mutex lock;
    std::condition_variable changed;
    const unsigned threads;
    unsigned asleep = 0;
    size_t begun = 0;
    std::array<std::atomic<unsigned>, SLICES> awake{};

public:
    explicit Slices(unsigned count) : threads(count) {}
    // Of a thread: sleeps until a slice begins, and then stays awake until all others are, or for a fraction of a millisecond.
    void wait(size_t slice) {
        {
            std::unique_lock<std::mutex> guard(lock);
            asleep++;
            changed.notify_all();
            changed.wait(guard, [&] { return begun > slice; });
        }
        awake[slice]++;
        for (int i = 0; awake[slice] < threads && i < 10000; i++) __builtin_ia32_pause();
    }
    // Of the program: lets each slice begin once all threads have slept.
    void begin_all() {
        for (size_t slice = 0; slice < SLICES; slice++) {
            std::unique_lock<std::mutex> guard(lock);
            changed.wait(guard, [&] { return asleep == threads; });
            guard.unlock();
            if (threads > 1) std::this_thread::sleep_for(std::chrono::milliseconds(4));
            guard.lock();
            asleep = 0;
            begun++;
            changed.notify_all();
        }
    }
};

// Keeps a thread on one of the processors that the program may use.
inline void pin(unsigned thread) {
    cpu_set_t all, mine;
    CPU_ZERO(&mine);
    sched_getaffinity(0, sizeof all, &all);
    unsigned place = thread % static_cast<unsigned>(CPU_COUNT(&all));
    int processor = 0;
    while (!CPU_ISSET(processor, &all) || place-- > 0) processor++;
    CPU_SET(processor, &mine);
    sched_setaffinity(0, sizeof mine, &mine);
}

struct CacheSlice {
    std::chrono::steady_clock::time_point begin, end;
    double seconds = 0; // of the thread's processor
};

// What a thread notes.
struct alignas(128) CacheNotes {
    std::array<CacheSlice, SLICES> slices;
    double seconds = 0; // of the thread's processor, of all that it did
    uint64_t hits = 0, wrong = 0;
};

// The calls of one slice of a thread.
template <class C>
void slice_of_calls(C &cache, typename C::Handle &handle, const Workload &w, unsigned thread, size_t slice, CacheNotes &notes) {
    const Draws &draws = Draws::of(w);
    const size_t calls = w.begin_of(thread + 1) - w.begin_of(thread), at = draws.begin_of(w, thread);
    CacheSlice &mine = notes.slices[slice];
    mine.begin = std::chrono::steady_clock::now();
    mine.seconds = -seconds_of(CLOCK_THREAD_CPUTIME_ID);
    for (size_t i = calls * slice / SLICES; i < calls * (slice + 1) / SLICES; i++)
        notes.hits += cached_call(cache, handle, draws.key(at + i), static_cast<uint32_t>(i), notes.wrong);
    mine.seconds += seconds_of(CLOCK_THREAD_CPUTIME_ID);
    mine.end = std::chrono::steady_clock::now();
}

[[noreturn]] inline void values_were_wrong(uint64_t wrong) {
    std::fprintf(stderr, "compare: %llu values of other keys\n", static_cast<unsigned long long>(wrong));
    std::_Exit(1);
}

// The keys that come most often are put in, the rarest of them first, and then calls are made until what is in is as it stays.
template <class C> void warm(C &cache, const Workload &w) {
    std::thread([&] {
        typename C::Handle handle(cache, 0);
        uint64_t wrong = 0;
        for (uint64_t number = w.entries; number-- > 0;) cache.insert(handle, key_of(number), CacheValue::of(key_of(number), 0));
        for (size_t i = 0; i < Draws::warming(w); i++) cached_call(cache, handle, Draws::of(w).warming_key(i), 0, wrong);
        if (wrong) values_were_wrong(wrong);
    }).join();
}

// How long the shortest slice took, from the first thread's begin to the last one's end, and how much processor time of a thread, in the
// mean; both for as many calls as the run has. What one thread takes is its processor time, since nobody else is to run beside it.
inline void find_shortest(const std::vector<CacheNotes> &notes, Run &run) {
    for (size_t i = 0; i < SLICES; i++) {
        CacheSlice all = notes[0].slices[i];
        for (size_t t = 1; t < notes.size(); t++) {
            const CacheSlice &each = notes[t].slices[i];
            all = {std::min(all.begin, each.begin), std::max(all.end, each.end), all.seconds + each.seconds};
        }
        const double of_processor = all.seconds * SLICES / static_cast<double>(notes.size());
        const double by_clock = std::chrono::duration<double>(all.end - all.begin).count() * SLICES;
        const double seconds = notes.size() == 1 ? of_processor : by_clock;
        if (i > 0 && seconds >= run.seconds) continue;
        run.seconds = seconds;
        run.processor_seconds = of_processor;
    }
}

// The processor time of this process that isn't of the calling thread.
inline double seconds_of_others() { return seconds_of(CLOCK_PROCESS_CPUTIME_ID) - seconds_of(CLOCK_THREAD_CPUTIME_ID); }

// All threads make their calls. Run::yes is the number of hits. What a peer does on threads of its own is part of the processor time.
template <class C> Run run_cache(C &cache, const Workload &w) {
    std::vector<CacheNotes> notes(w.threads);
    std::vector<std::thread> threads;
    Slices slices(w.threads);
    Run run;
    Watch watch;
    double of_peer = -seconds_of_others();
    for (unsigned t = 0; t < w.threads; t++)
        threads.emplace_back([&, t] {
            pin(t);
            typename C::Handle handle(cache, t);
            for (size_t i = 0; i < SLICES; i++) {
                slices.wait(i);
                slice_of_calls(cache, handle, w, t, i, notes[t]);
            }
            notes[t].seconds = seconds_of(CLOCK_THREAD_CPUTIME_ID);
        });
    slices.begin_all();
    for (std::thread &thread : threads) thread.join();
    of_peer += seconds_of_others();
    run.disturbance = watch.seen();
    find_shortest(notes, run);
    uint64_t wrong = 0;
    for (const CacheNotes &each : notes) {
        of_peer -= each.seconds;
        run.yes += each.hits;
        wrong += each.wrong;
    }
    run.processor_seconds += std::max(0.0, of_peer) / w.threads;
    if (wrong) values_were_wrong(wrong);
    return run;
}

template <class C> Run measure_cache(const Workload &w) {
    const auto start = std::chrono::steady_clock::now();
    C cache(w);
    const std::chrono::duration<double> opening = std::chrono::steady_clock::now() - start;
    warm(cache, w);
    Run run = run_cache(cache, w);
    run.open_seconds = opening.count();
    return run;
}

// What changes of keys have begun, and which are done: a key's own thread writes them.
struct Changes {
    std::vector<std::atomic<uint32_t>> begun, done;
    explicit Changes(uint64_t keys) : begun(keys), done(keys) {}
};

// Gets of all keys, and inserts of the thread's own keys where they are absent. A value is wrong that is torn, of another key, or of an
// earlier change than was done before the get.
template <class C> uint64_t checked_calls(C &cache, Changes &changes, const Workload &w, unsigned thread) {
    typename C::Handle handle(cache, thread);
    Random random(thread);
    uint64_t wrong = 0;
    for (uint64_t i = w.begin_of(thread); i < w.begin_of(thread + 1); i++) {
        const uint64_t number = (random.next() >> 32) * w.range >> 32, key = key_of(number);
        const uint32_t least = changes.done[number];
        const bool is_there = cache.get(handle, key, [&](const CacheValue &value) {
            wrong += !value.is_whole_of(key) || value.change < least || value.change > changes.begun[number];
        });
        if (is_there || number % w.threads != thread) continue;
        const uint32_t change = ++changes.begun[number];
        cache.insert(handle, key, CacheValue::of(key, change));
        changes.done[number] = change;
    }
    return wrong;
}

// How many values were wrong, and how many entries there are above the bound, or below three quarters of it.
template <class C> uint64_t wrong_in_cache(const Workload &w) {
    C cache(w);
    Changes changes(w.range);
    std::atomic<uint64_t> wrong{0};
    std::vector<std::thread> threads;
    for (unsigned t = 0; t < w.threads; t++) threads.emplace_back([&, t] { wrong += checked_calls(cache, changes, w, t); });
    for (std::thread &thread : threads) thread.join();
    std::thread([&] {
        typename C::Handle handle(cache, 0);
        uint64_t there = 0;
        for (uint64_t number = 0; number < w.range; number++) there += cache.get(handle, key_of(number), [](const CacheValue &) {});
        wrong += there > w.entries ? there - w.entries : 0;
        wrong += there < w.entries * 3 / 4 ? w.entries * 3 / 4 - there : 0;
    }).join();
    return wrong;
}

inline std::vector<Peer> &cache_peers() { return list_of<Peer, List::cache_peers>(); }

#define CACHE_PEER(name, C) static const bool cached_by_##C = (cache_peers().push_back({name, measure_cache<C>, wrong_in_cache<C>}), true)

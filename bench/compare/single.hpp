// Calls of one kind, by one thread: of the library's map and set, and of a plain twin of each. Their ratios tell what a value
// takes.
#pragma once
#include "map.hpp"

struct Single {
    Peer peer;
    const char *calls; // get, has, insert, remove, replace; update: as many inserts as removes; reinsert: a remove and an insert
    unsigned has, insert, remove; // of 100 calls
    bool in_turns;                // a turn has all keys
    unsigned replace = 0;         // of 100 calls

    // As near to so many calls as there can be.
    uint64_t possible(uint64_t operations, uint64_t range) const {
        return in_turns ? std::max<uint64_t>(1, operations / range) * range : operations;
    }
};

inline std::vector<Single> &singles() { return list_of<Single, List::singles>(); }

// The numbers of the keys of a range, in an order that each turn draws anew, so that a processor can't learn it.
class Order {
    std::vector<uint32_t> numbers;
    Random random;

public:
    Order(uint64_t range, uint64_t stream) : numbers(range), random(stream) {
        for (uint64_t i = 0; i < range; i++) numbers[i] = static_cast<uint32_t>(i);
    }
    const std::vector<uint32_t> &drawn() {
        for (uint64_t i = numbers.size(); i > 1; i--) std::swap(numbers[i - 1], numbers[(random.next() >> 32) * i >> 32]);
        return numbers;
    }
};

// Calls with each of some keys; how long they took. Each is to be answered yes.
template <class F> std::chrono::steady_clock::duration timed_calls(const std::vector<uint32_t> &numbers, F call) {
    auto start = std::chrono::steady_clock::now();
    uint64_t yes = 0;
    for (uint32_t number : numbers) yes += call(key_of(number));
    auto time = std::chrono::steady_clock::now() - start;
    if (yes != numbers.size()) std::fputs("compare: a call of one kind was answered no\n", stderr), std::_Exit(1);
    return time;
}

// Turns by one thread, each with all keys. `turn` is given the peer, a handle and what draws orders, and gives the time that counts.
template <class P, class F> Run measure_in_turns(const Workload &w, F turn) {
    using Clock = std::chrono::steady_clock;
    auto start = Clock::now();
    P peer(w);
    std::chrono::duration<double> opening = Clock::now() - start, time{0};
    Run run;
    run.open_seconds = opening.count();
    Order order(w.range, w.run);
    std::thread([&] {
        typename P::Handle handle(peer, 0);
        Watch watch;
        for (uint64_t done = 0; done < w.operations; done += w.range) time += turn(peer, handle, order);
        run.disturbance = watch.seen();
    }).join();
    run.seconds = time.count();
    return run;
}

// All keys are inserted and removed in turns, and the time of the inserts counts, or that of the removes.
template <class P> Run measure_turns(const Workload &w) {
    return measure_in_turns<P>(w, [&](P &peer, typename P::Handle &handle, Order &order) {
        auto inserts = timed_calls(order.drawn(), [&](uint64_t key) { return peer.insert(handle, key); });
        auto removes = timed_calls(order.drawn(), [&](uint64_t key) { return peer.remove(handle, key); });
        return w.insert ? inserts : removes;
    });
}

// The value of each key is replaced in each turn, by a call or by a remove and an insert of the key.
template <class P> Run measure_replacements(const Workload &w) {
    bool is_in = false;
    return measure_in_turns<P>(w, [&](P &peer, typename P::Handle &handle, Order &order) {
        if (!is_in) timed_calls(order.drawn(), [&](uint64_t key) { return peer.insert(handle, key); });
        is_in = true;
        auto replaces = [&](uint64_t key) { return peer.replace(handle, key); };
        auto reinserts = [&](uint64_t key) { return peer.remove(handle, key) && peer.insert(handle, key); };
        return w.replace ? timed_calls(order.drawn(), replaces) : timed_calls(order.drawn(), reinserts);
    });
}

// What is measured of a map or a set, beside look-ups.
template <class P> void add_updates(const std::string &name) {
    singles().push_back({{name, measure_turns<P>, nullptr}, "insert", 0, 100, 0, true});
    singles().push_back({{name, measure_turns<P>, nullptr}, "remove", 0, 0, 100, true});
    singles().push_back({{name, measure<P>, nullptr}, "update", 0, 50, 50, false});
}

template <class M> bool add_singles_of_map(const std::string &name) {
    singles().push_back({{name, measure<Gets<M>>, wrong_keys<Gets<M>>}, "get", 100, 0, 0, false});
    singles().push_back({{name, measure<Looks<M>>, wrong_keys<Looks<M>>}, "has", 100, 0, 0, false});
    singles().push_back({{name, measure_replacements<Gets<M>>, nullptr}, "replace", 0, 0, 0, true, 100});
    singles().push_back({{name, measure_replacements<Gets<M>>, nullptr}, "reinsert", 0, 50, 50, true});
    add_updates<Gets<M>>(name);
    return true;
}

template <class P> bool add_singles_of_set(const std::string &name) {
    singles().push_back({{name, measure<P>, wrong_keys<P>}, "has", 100, 0, 0, false});
    add_updates<P>(name);
    return true;
}

// Whether the twin answers random calls as the library does.
bool twin_answers_as_the_library();

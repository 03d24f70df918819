// The plain twin as a map and as a set, for the ratios; and whether it answers as the library does.
#include "twin.hpp"
#include "single.hpp"
#include "vbr.h"

namespace {

constexpr uint32_t BUDGET = 1000000;

// Of either kind of nodes, with the calls of a map and those of a set.
template <class N> struct Twin {
    twin::Table<N> table;
    std::vector<twin::Pass> passes;

    explicit Twin(const Workload &w) : table(w.slots(), static_cast<uint32_t>(w.buckets()), VBR_MAX_EPOCH) {
        for (unsigned who = 0; who < w.threads; who++) passes.push_back(table.pass(who, w.threads));
    }

    struct Handle {
        twin::Pass &pass;
        Handle(Twin &peer, unsigned thread) : pass(peer.passes[thread]) {}
    };

    bool insert(Handle &h, uint64_t key, uint64_t value) { return answer(table.insert(h.pass, key, value, BUDGET)); }
    bool remove(Handle &h, uint64_t key, uint64_t &value) { return answer(table.remove(h.pass, key, BUDGET, value)); }
    bool get(Handle &h, uint64_t key, uint64_t &value) { return answer(table.get(h.pass, key, BUDGET, value)); }
    bool has(Handle &h, uint64_t key) { return answer(table.has(h.pass, key, BUDGET)); }
    bool replace(Handle &h, uint64_t key, uint64_t value, uint64_t &old) {
        return answer(table.replace(h.pass, key, value, BUDGET, old));
    }
    bool insert(Handle &h, uint64_t key) { return insert(h, key, 0); }
    bool remove(Handle &h, uint64_t key) {
        uint64_t none;
        return remove(h, key, none);
    }

private:
    static bool answer(twin::Answer answer) {
        if (answer < 0) std::fputs("compare: a call of the twin was refused\n", stderr), std::_Exit(1);
        return answer;
    }
};

const bool singles_of_map = add_singles_of_map<Twin<twin::Entries>>("twin");
const bool singles_of_set = add_singles_of_set<Twin<twin::Keys>>("twin set");

// The library's calls, of a set and of a map, which has five kinds more. What has no value leaves `value` as it is. Seed 0 spreads keys as
// the twin does.
struct Set {
    using Nodes = twin::Keys;
    static constexpr unsigned KINDS = 4;
    vbr_handle handles[2] = {};

    Set(uint32_t slots, uint32_t buckets, uint64_t last_epoch) {
        static constexpr uint64_t none = 0;
        if (vbr_open_seeded(handles, 2, slots, buckets, last_epoch, 0, &none, 0) != VBR_OK) std::abort();
    }
    ~Set() {
        for (vbr_handle &handle : handles) vbr_drop(&handle);
    }
    int insert(int by, uint64_t key, uint64_t, uint32_t budget) { return vbr_insert_within(&handles[by], key, budget); }
    int remove(int by, uint64_t key, uint32_t budget, uint64_t &) { return vbr_remove_within(&handles[by], key, budget); }
    int get(int by, uint64_t key, uint32_t budget, uint64_t &) { return has(by, key, budget); }
    int has(int by, uint64_t key, uint32_t budget) { return vbr_has_within(&handles[by], key, budget); }
    uint64_t epoch(int by) { return vbr_epoch(&handles[by]); }
};

struct Map {
    using Nodes = twin::Entries;
    static constexpr unsigned KINDS = 9;
    vbr_map_handle handles[2] = {};

    Map(uint32_t slots, uint32_t buckets, uint64_t last_epoch) {
        static constexpr vbr_entry none = {0, 0};
        if (vbr_map_open_seeded(handles, 2, slots, buckets, last_epoch, 0, &none, 0) != VBR_OK) std::abort();
    }
    ~Map() {
        for (vbr_map_handle &handle : handles) vbr_map_drop(&handle);
    }
    int insert(int by, uint64_t key, uint64_t value, uint32_t budget) { return vbr_map_insert_within(&handles[by], key, value, budget); }
    int remove(int by, uint64_t key, uint32_t budget, uint64_t &value) { return vbr_map_remove_within(&handles[by], key, &value, budget); }
    int get(int by, uint64_t key, uint32_t budget, uint64_t &value) { return vbr_map_get_within(&handles[by], key, &value, budget); }
    int has(int by, uint64_t key, uint32_t budget) { return vbr_map_has_within(&handles[by], key, budget); }
    int replace(int by, uint64_t key, uint64_t value, uint32_t budget, uint64_t &old) {
        return vbr_map_replace_within(&handles[by], key, value, &old, budget);
    }
    int put(int by, uint64_t key, uint64_t value, uint32_t budget, uint64_t &old) {
        return vbr_map_put_within(&handles[by], key, value, &old, budget);
    }
    int get_or_insert(int by, uint64_t key, uint64_t value, uint32_t budget, uint64_t &old) {
        return vbr_map_get_or_insert_within(&handles[by], key, value, &old, budget);
    }
    int compare_exchange(int by, uint64_t key, uint64_t expected, uint64_t value, uint32_t budget, uint64_t &old) {
        return vbr_map_compare_exchange_within(&handles[by], key, expected, value, &old, budget);
    }
    int remove_if(int by, uint64_t key, uint64_t expected, uint32_t budget, uint64_t &old) {
        return vbr_map_remove_if_within(&handles[by], key, expected, &old, budget);
    }
    uint64_t epoch(int by) { return vbr_map_epoch(&handles[by]); }
};

// The twin, with the same calls.
template <class N> struct Plain {
    static constexpr unsigned KINDS = N::VALUES ? 9 : 4;
    twin::Table<N> table;
    twin::Pass passes[2];

    Plain(uint32_t slots, uint32_t buckets, uint64_t last_epoch)
        : table(slots, buckets, last_epoch), passes{table.pass(0, 2), table.pass(1, 2)} {}
    int insert(int by, uint64_t key, uint64_t value, uint32_t budget) { return table.insert(passes[by], key, value, budget); }
    int remove(int by, uint64_t key, uint32_t budget, uint64_t &value) { return table.remove(passes[by], key, budget, value); }
    int get(int by, uint64_t key, uint32_t budget, uint64_t &value) { return table.get(passes[by], key, budget, value); }
    int has(int by, uint64_t key, uint32_t budget) { return table.has(passes[by], key, budget); }
    int replace(int by, uint64_t key, uint64_t value, uint32_t budget, uint64_t &old) {
        return table.replace(passes[by], key, value, budget, old);
    }
    int put(int by, uint64_t key, uint64_t value, uint32_t budget, uint64_t &old) {
        return table.put(passes[by], key, value, budget, old);
    }
    int get_or_insert(int by, uint64_t key, uint64_t value, uint32_t budget, uint64_t &old) {
        return table.get_or_insert(passes[by], key, value, budget, old);
    }
    int compare_exchange(int by, uint64_t key, uint64_t expected, uint64_t value, uint32_t budget, uint64_t &old) {
        return table.compare_exchange(passes[by], key, expected, value, budget, old);
    }
    int remove_if(int by, uint64_t key, uint64_t expected, uint32_t budget, uint64_t &old) {
        return table.remove_if(passes[by], key, expected, budget, old);
    }
    uint64_t epoch(int by) { return passes[by].epoch; }

    // What a key has, by a caller that isn't one of these.
    uint64_t value_of(uint64_t key) {
        twin::Pass another;
        uint64_t value = 0;
        table.get(another, key, UINT32_MAX, value);
        return value;
    }
};

// What a call returned: its answer, the value, and the epoch that its caller has read last.
struct Told {
    int answer;
    uint64_t value, epoch;
    bool operator==(const Told &it) const { return answer == it.answer && value == it.value && epoch == it.epoch; }
};

struct Call {
    unsigned kind;
    int by;
    uint64_t key, value, expected;
    uint32_t budget;
};

template <class T> int answer_of(T &of, const Call &it, uint64_t &value) {
    if (it.kind == 0) return of.insert(it.by, it.key, it.value, it.budget);
    if (it.kind == 1) return of.remove(it.by, it.key, it.budget, value);
    if (it.kind == 2) return of.get(it.by, it.key, it.budget, value);
    if constexpr (T::KINDS > 4) {
        if (it.kind == 4) return of.replace(it.by, it.key, it.value, it.budget, value);
        if (it.kind == 5) return of.put(it.by, it.key, it.value, it.budget, value);
        if (it.kind == 6) return of.get_or_insert(it.by, it.key, it.value, it.budget, value);
        if (it.kind == 7) return of.compare_exchange(it.by, it.key, it.expected, it.value, it.budget, value);
        if (it.kind == 8) return of.remove_if(it.by, it.key, it.expected, it.budget, value);
    }
    return of.has(it.by, it.key, it.budget);
}

template <class T> Told told(T &of, const Call &call) {
    uint64_t value = 0;
    int answer = answer_of(of, call, value);
    return {answer, value, of.epoch(call.by)};
}

// Random calls of two callers in one thread. Of each eight three may be refused for want of steps: so an answer that took another
// number of steps is found, and there are marked nodes that the next call meets.
template <class L> bool answers_as(uint32_t slots, uint32_t buckets, uint64_t last_epoch, uint64_t keys) {
    L library(slots, buckets, last_epoch);
    Plain<typename L::Nodes> plain(slots, buckets, last_epoch);
    Random random(keys);
    for (uint64_t i = 0; i < 200000; i++) {
        uint64_t x = random.next(), key = key_of((x >> 8 & 0xffffffff) % keys);
        uint32_t budget = x >> 60 < 6 ? static_cast<uint32_t>(x >> 40) % 64 : 10000;
        unsigned kind = (x & 0x7f) % L::KINDS;
        Call call{kind, static_cast<int>(x >> 7 & 1), key, i, plain.value_of(key) + (x >> 59 & 1), budget};
        if (told(library, call) == told(plain, call)) continue;
        std::fprintf(stderr, "compare: the twin answers call %llu of %u slots otherwise than the library\n",
                     static_cast<unsigned long long>(i), slots);
        return false;
    }
    return true;
}

template <class L> bool answers_as() {
    return answers_as<L>(1000, 1, VBR_MAX_EPOCH, 12) && answers_as<L>(70, 8, VBR_MAX_EPOCH, 100) && answers_as<L>(5, 2, 300, 8) &&
           answers_as<L>(4096, 512, VBR_MAX_EPOCH, 2000);
}

}  // namespace

bool twin_answers_as_the_library() { return answers_as<Set>() && answers_as<Map>(); }

// The plain twin on random calls of one pass: it answers as a plain map does, and is refused and makes steps as is said of the
// library's calls. No output but a last line.
#include "twin.hpp"

#include <cstdio>
#include <map>
#include <vector>

namespace {

using namespace twin;

#define HOLDS(what) ((what) ? void() : fail(#what, __LINE__))

[[noreturn]] void fail(const char *what, int line) {
    std::fprintf(stderr, "twin_test: line %d: %s doesn't hold\n", line, what);
    std::exit(1);
}

constexpr uint32_t AMPLE = 1000000;

// A table with one pass beside a plain map. Without values each key has the value 0.
template <class N> struct Beside {
    Table<N> table;
    Pass pass;
    std::map<uint64_t, uint64_t> plain;
    const uint32_t slots;

    Beside(uint32_t slots, uint32_t buckets) : table(slots, buckets, 1u << 30), slots(slots) {}

    void insert(uint64_t key, uint64_t value) {
        bool is_new = plain.count(key) == 0, has_room = plain.size() < slots;
        HOLDS(table.insert(pass, key, value, AMPLE) == (!is_new ? NO : has_room ? YES : NO_SLOT));
        if (is_new && has_room) plain[key] = N::VALUES ? value : 0;
    }
    void remove(uint64_t key) {
        uint64_t given = 0;
        auto found = plain.find(key);
        HOLDS(table.remove(pass, key, AMPLE, given) == (found != plain.end() ? YES : NO));
        HOLDS(given == (found != plain.end() ? found->second : 0));
        if (found != plain.end()) plain.erase(found);
    }
    // A store, which was answered so and gave this: where the key is there and where it isn't it stores or doesn't.
    void stored(Answer answer, uint64_t given, uint64_t key, uint64_t value, bool if_there, bool if_absent) {
        auto found = plain.find(key);
        bool is_there = found != plain.end(), stores = is_there ? if_there : if_absent, has_room = plain.size() < slots;
        HOLDS(answer == (stores && !has_room ? NO_SLOT : is_there ? YES : NO));
        HOLDS(given == (is_there && answer == YES ? found->second : 0));
        if (stores && has_room) plain[key] = value;
    }
    void replace(uint64_t key, uint64_t value) {
        uint64_t given = 0;
        Answer answer = table.replace(pass, key, value, AMPLE, given);
        stored(answer, given, key, value, true, false);
    }
    void put(uint64_t key, uint64_t value) {
        uint64_t given = 0;
        Answer answer = table.put(pass, key, value, AMPLE, given);
        stored(answer, given, key, value, true, true);
    }
    void get_or_insert(uint64_t key, uint64_t value) {
        uint64_t given = 0;
        Answer answer = table.get_or_insert(pass, key, value, AMPLE, given);
        stored(answer, given, key, value, false, true);
    }
    // With the value that the key has, and with another one.
    void change_if(uint64_t key, uint64_t value, bool is_expected, bool removes) {
        uint64_t given = 0;
        auto found = plain.find(key);
        uint64_t has = found != plain.end() ? found->second : 0, expected = is_expected ? has : has + 1;
        Answer answer = removes ? table.remove_if(pass, key, expected, AMPLE, given)
                                : table.compare_exchange(pass, key, expected, value, AMPLE, given);
        bool changes = found != plain.end() && is_expected, has_room = removes || plain.size() < slots;
        HOLDS(answer == (found == plain.end() ? NO : !changes ? OTHER : has_room ? YES : NO_SLOT));
        HOLDS(given == (answer == NO_SLOT ? 0 : has));
        if (answer == YES && removes) plain.erase(found);
        else if (answer == YES) found->second = value;
    }
    void change(uint64_t kind, uint64_t key, uint64_t value) {
        switch (kind) {
        case 0: replace(key, value); break;
        case 1: put(key, value); break;
        case 2: get_or_insert(key, value); break;
        default: change_if(key, value, kind & 1, kind & 2);
        }
    }
    void look_up(uint64_t key) {
        uint64_t given = 0;
        auto found = plain.find(key);
        HOLDS(table.has(pass, key, AMPLE) == (found != plain.end() ? YES : NO));
        HOLDS(table.get(pass, key, AMPLE, given) == (found != plain.end() ? YES : NO));
        HOLDS(given == (found != plain.end() ? found->second : 0));
    }
};

template <class N> void answers_as_a_plain_map(uint32_t slots, uint32_t buckets, uint64_t keys) {
    Beside<N> beside(slots, buckets);
    uint64_t state = 88172645463325252;
    for (uint64_t i = 1; i <= 200000; i++) {
        state ^= state << 13, state ^= state >> 7, state ^= state << 17;
        uint64_t key = (state >> 32) % keys * 4096;
        switch (state % (N::VALUES ? 4 : 3)) {
        case 0: beside.insert(key, i); break;
        case 1: beside.remove(key); break;
        case 2: beside.look_up(key); break;
        case 3: beside.change((state >> 16) % 7, key, i); break;
        }
    }
    HOLDS(beside.pass.epoch > 1);
}

// How many steps a call made.
template <class F> uint64_t steps_of(Pass &pass, F call) {
    uint64_t before = pass.steps;
    call();
    return pass.steps - before;
}

template <class N> void makes_these_steps() {
    constexpr uint64_t VALUE = N::VALUES;
    Table<N> table(3, 1, 10);
    Pass pass;
    uint64_t given = 0;
    // the start is a piece of three steps, and there is an eighth of one to come
    HOLDS(steps_of(pass, [&] { HOLDS(table.has(pass, 5, 7) == OUT_OF_STEPS); }) == 0);
    HOLDS(steps_of(pass, [&] { HOLDS(table.has(pass, 5, 10) == OUT_OF_STEPS); }) == 3);
    HOLDS(steps_of(pass, [&] { HOLDS(table.has(pass, 5, 11) == NO); }) == 4);
    // two searches, a flag, the epoch, a stamp and a birth, and three words of the node, or four, one of them its link
    HOLDS(steps_of(pass, [&] { HOLDS(table.insert(pass, 5, 50, AMPLE) == YES); }) == 3 + 4 + 3 + 3 + VALUE);
    HOLDS(steps_of(pass, [&] { HOLDS(table.insert(pass, 5, 51, AMPLE) == NO); }) == 3 + 5 + 1);
    HOLDS(steps_of(pass, [&] { HOLDS(table.has(pass, 5, AMPLE) == YES); }) == 3 + 5 + 1);
    HOLDS(steps_of(pass, [&] { HOLDS(table.get(pass, 5, AMPLE, given) == YES); }) == 3 + 5 + 2 * VALUE + 1);
    HOLDS(given == 50 * VALUE);
    HOLDS(steps_of(pass, [&] { HOLDS(table.get(pass, 6, AMPLE, given) == NO); }) == 3 + 5 + 1);
    // the mark, the unlinking, the epoch and the stamp
    HOLDS(steps_of(pass, [&] { HOLDS(table.remove(pass, 5, AMPLE, given) == YES); }) == 3 + 5 + 2 * VALUE + 4);
    HOLDS(steps_of(pass, [&] { HOLDS(table.remove(pass, 5, AMPLE, given) == NO); }) == 3 + 1);
}

// What changes a value searches twice, and takes a slot between; but a put takes it first.
void changes_by_these_steps() {
    Table<Entries> table(3, 1, 10);
    Pass pass;
    uint64_t given = 0;
    HOLDS(steps_of(pass, [&] { HOLDS(table.replace(pass, 5, 50, AMPLE, given) == NO); }) == 3 + 1);
    HOLDS(table.insert(pass, 5, 50, AMPLE) == YES);
    // two searches; two flags, the epoch, a stamp and a birth; the value, three words of the node and the exchange; the birth behind
    // the marked node, the unlinking, the epoch and the stamp
    uint64_t taking = 2 + 3, around = 2 * (3 + 5) + (2 + 3 + 1) + (2 + 1 + 2);
    HOLDS(steps_of(pass, [&] { HOLDS(table.replace(pass, 5, 51, AMPLE, given) == YES); }) == around + taking);
    HOLDS(given == 50 && table.get(pass, 5, AMPLE, given) == YES && given == 51);
    HOLDS(table.insert(pass, 6, 60, AMPLE) == YES && pass.epoch == 2);
    around += 2; // the birth of the node behind
    HOLDS(steps_of(pass, [&] { HOLDS(table.replace(pass, 5, 52, AMPLE, given) == YES); }) == around + taking);
    taking = 1 + 1 + 2 + 1; // its own slot has the epoch as its stamp, so that is advanced
    HOLDS(steps_of(pass, [&] { HOLDS(table.replace(pass, 5, 53, AMPLE, given) == YES); }) == around + taking);
    HOLDS(given == 52);
    HOLDS(steps_of(pass, [&] { HOLDS(table.replace(pass, 7, 70, AMPLE, given) == NO); }) == 3 + 5 + 5 + 1);
    // the value is read before the slot is taken too
    HOLDS(steps_of(pass, [&] { HOLDS(table.compare_exchange(pass, 5, 53, 54, AMPLE, given) == YES); }) == 2 + around + taking);
    HOLDS(steps_of(pass, [&] { HOLDS(table.compare_exchange(pass, 5, 53, 55, AMPLE, given) == OTHER); }) == 3 + 5 + 2 + 1);
    HOLDS(given == 54);
    HOLDS(steps_of(pass, [&] { HOLDS(table.put(pass, 5, 56, AMPLE, given) == YES); }) == around - (3 + 5) + taking);
    HOLDS(steps_of(pass, [&] { HOLDS(table.get_or_insert(pass, 5, 57, AMPLE, given) == YES); }) == 3 + 5 + 2 + 1);
    HOLDS(given == 56);
    HOLDS(steps_of(pass, [&] { HOLDS(table.remove_if(pass, 5, 57, AMPLE, given) == OTHER); }) == 3 + 5 + 2 + 1);
    // the mark; the birth behind the node, the unlinking, the epoch and the stamp
    HOLDS(steps_of(pass, [&] { HOLDS(table.remove_if(pass, 5, 56, AMPLE, given) == YES); }) == 3 + 5 + 2 + 1 + (2 + 1 + 2));
    HOLDS(steps_of(pass, [&] { HOLDS(table.remove_if(pass, 5, 56, AMPLE, given) == NO); }) == 3 + 5 + 1);
}

template <class N> void refuses() {
    Table<N> table(2, 1, 2);
    Pass one, other;
    uint64_t given;
    HOLDS(table.insert(one, 1, 0, AMPLE) == YES && table.insert(one, 2, 0, AMPLE) == YES);
    HOLDS(table.insert(other, 3, 0, AMPLE) == NO_SLOT);
    HOLDS(table.remove(one, 1, AMPLE, given) == YES);
    HOLDS(table.insert(other, 3, 0, AMPLE) == NO_SLOT); // the slot is in the pool of the first pass
    HOLDS(table.insert(one, 3, 0, AMPLE) == YES && one.epoch == 2);
    HOLDS(table.remove(one, 3, AMPLE, given) == YES);
    HOLDS(table.insert(one, 4, 0, AMPLE) == EPOCH_SPENT && table.has(one, 4, AMPLE) == NO);
}

// A node whose remove had no budget to unlink it: look-ups pass it, and the next update takes it out.
template <class N> void helps() {
    Table<N> table(2, 1, 10);
    Pass one, other;
    uint64_t given;
    HOLDS(table.insert(one, 1, 0, AMPLE) == YES);
    uint32_t unlinking = N::VALUES ? 18 : 16;
    HOLDS(steps_of(one, [&] { HOLDS(table.remove(one, 1, unlinking, given) == YES); }) == unlinking - 7u);
    HOLDS(steps_of(other, [&] { HOLDS(table.has(other, 1, AMPLE) == NO); }) == 3 + 3 + 1);
    HOLDS(other.pool.size() == 0);
    HOLDS(table.remove(other, 1, AMPLE, given) == NO && other.pool.size() == 1);
    HOLDS(steps_of(one, [&] { HOLDS(table.has(one, 1, AMPLE) == NO); }) == 3 + 1);
}

template <class N> void test() {
    answers_as_a_plain_map<N>(1000, 1, 24);
    answers_as_a_plain_map<N>(64, 16, 200);
    answers_as_a_plain_map<N>(3, 5, 8);
    answers_as_a_plain_map<N>(4096, 1024, 5000);
    makes_these_steps<N>();
    refuses<N>();
    helps<N>();
}

}  // namespace

int main() {
    test<Keys>();
    test<Entries>();
    changes_by_these_steps();
    std::puts("twin: passed");
}

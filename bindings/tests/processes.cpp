// Sets and maps that processes share, in C++: claims go from process to process, children are killed in a turn and between two turns, leave
// by exit and by an exception, and what is refused is refused in order and leaves all as it was. What is seen of sets is seen of maps.
#include "vbr_shared.hpp"

#include <csignal>
#include <cstdio>
#include <cstdlib>
#include <limits>
#include <map>
#include <set>
#include <sys/mman.h>
#include <sys/resource.h>
#include <sys/wait.h>
#include <unistd.h>
#include <vector>

#define CHECK(x) do { if (!(x)) { std::fprintf(stderr, "processes.cpp:%d: FAILED: %s\n", __LINE__, #x); std::exit(1); } } while (0)

struct address {
    std::uint16_t one, other;
    friend bool operator==(address a, address b) { return a.one == b.one && a.other == b.other; }
};

using ports = vbr::map<address, std::uint16_t>;
using shared_ports = vbr::shared<ports>; // of vbr::map<address, std::uint16_t>
static_assert(vbr::shape_for_processes(1024, 3, 4).slots == 1024 + 3 * 64 + 4 * 66 && vbr::shape_for_processes(1024, 3, 4).buckets == 1024);
static_assert(vbr::shape_for_processes(8, 1, vbr::max_slots).slots == vbr::max_slots + 1); // which openings refuse
static_assert(vbr::shape_for_processes(vbr::max_slots, 1, std::numeric_limits<std::uint32_t>::max()).slots == vbr::max_slots + 1);

// What is the same of sets and of maps, by other names: a key has ten times itself for its value.
static vbr::result<bool> tried(vbr::pass &mine, std::uint64_t key) { return mine.insert(key); }
static vbr::result<bool> tried(vbr::map_pass &mine, std::uint64_t key) { return mine.insert(key, 10 * key); }
template <class Pass>
static bool add(Pass &mine, std::uint64_t key) { return tried(mine, key).value(); }
static bool take(vbr::pass &mine, std::uint64_t key) { return mine.remove(key).value(); }
static bool take(vbr::map_pass &mine, std::uint64_t key) { return mine.remove(key).value() == 10 * key; }
static std::uint64_t sum(vbr::pass &mine) {
    std::uint64_t keys = 0;
    for (std::uint64_t key : mine.keys()) keys += key;
    return keys;
}
static std::uint64_t sum(vbr::map_pass &mine) {
    std::uint64_t keys = 0;
    for (auto [key, value] : mine.entries()) {
        CHECK(value == 10 * key);
        keys += key;
    }
    return keys;
}
static std::vector<std::uint64_t> keys_of(const vbr::report &told) { return told.keys; }
static std::vector<std::uint64_t> keys_of(const vbr::map_report &told) {
    std::vector<std::uint64_t> keys;
    for (auto [key, value] : told.entries) keys.push_back(value == 10 * key ? key : 0);
    return keys;
}
static std::pair<std::uint64_t, std::uint64_t> sum_of(const std::vector<vbr::entry> &entries) {
    std::pair<std::uint64_t, std::uint64_t> both = {0, 0};
    for (auto [key, value] : entries) both = {both.first + key, both.second + value};
    return both;
}
static std::uint64_t key_of(std::uint64_t key, vbr::shared_set *) { return key; }
static vbr::entry key_of(std::uint64_t key, vbr::shared_map *) { return {key, 10 * key}; }

// Forks a child, which does this and leaves by _exit unless it has left otherwise.
template <class Work>
static pid_t child_of(const Work &work) {
    std::fflush(nullptr);
    pid_t child = fork();
    CHECK(child >= 0);
    if (child == 0) {
        work();
        _exit(0);
    }
    return child;
}

static int status_of(pid_t child) {
    int status = 0;
    CHECK(waitpid(child, &status, 0) == child);
    return status;
}

template <class Work>
static bool ends_well(const Work &work) {
    return status_of(child_of(work)) == 0;
}

template <class Work>
static bool is_killed(const Work &work) {
    int status = status_of(child_of(work));
    return WIFSIGNALED(status) && WTERMSIG(status) == SIGKILL;
}

// Each process makes calls by a claim of its own, and sees what all have done; a report tells it, and a renewal keeps it.
template <class Shared>
static void calls() {
    Shared all = Shared::open_with(vbr::shape_for_processes(64, 3, 1), 3, {key_of(6, static_cast<Shared *>(nullptr))}).value();
    for (std::size_t i = 1; i < 3; i++)
        CHECK(ends_well([&] {
            typename Shared::claim_type mine = all.claim(i);
            CHECK(mine && mine.number() == i);
            auto turn = mine.turn();
            CHECK(add(turn, 100 + i) && (i == 1 || (take(turn, 6) && *turn.has(101))));
        }));
    CHECK(ends_well([&] { // the next child goes on with the first one's handle
        CHECK(all.inherit(1).value());
        auto mine = all.claim(1);
        auto turn = mine.turn();
        CHECK(turn.balance() == 1 && add(turn, 103));
    }));
    auto mine = all.claim(0);
    {
        auto turn = mine.turn();
        CHECK(sum(turn) == 101 + 102 + 103 && *turn.has(6) == false && turn.balance() == 1);
        CHECK(all.report() == vbr::refusal::on_loan && all.renew(vbr::shape_for_processes(64, 3, 1)).error() == vbr::refusal::on_loan);
        CHECK(mine.turn().has(101) == true); // a turn in a turn, which leaves the handle marked
        CHECK(all.report() == vbr::refusal::on_loan && *turn.has(102));
    }
    auto told = all.report().value();
    CHECK((keys_of(told) == std::vector<std::uint64_t>{101, 102, 103}) && told.epoch >= 1);
    vbr::cursor from;
    CHECK(mine.turn().next(from).value() && mine.turn().next(from).value()); // in two turns
    CHECK(all.renew(vbr::shape_for_processes(60, 3, 1)) && mine.turn().slots() == 60 + 3 * 64 + 66 && mine.turn().has(103) == true);
    CHECK(mine.turn().next(from) == vbr::refusal::reshaped);
    CHECK(ends_well([&] { // any process renews and reports
        CHECK(all.renew(vbr::shape_for_processes(64, 3, 1)) && keys_of(all.report().value()).size() == 3);
    }));
    CHECK(mine.turn().balance() == 3 && mine.turn().has(101) == true);
}

// How many more keys have room, by one handle while the others have no slots.
template <class Shared>
static std::uint32_t room_of(const Shared &all) {
    for (std::size_t i = 0; i < all.handles(); i++) all.claim(i).turn().give_slots_back();
    auto mine = all.claim(0);
    auto turn = mine.turn();
    std::uint32_t many = 0;
    vbr::result<bool> told;
    for (told = tried(turn, 1000); told == true; told = tried(turn, 1000 + many)) many++;
    CHECK(told == vbr::refusal::no_slot);
    for (std::uint32_t i = 0; i < many; i++) CHECK(take(turn, 1000 + i));
    turn.give_slots_back();
    return many;
}

// A child is killed between two turns with 63 slots of its own, and one in a turn with as many; a renewal wins these back.
template <class Shared>
static void deaths() {
    const vbr::shape shape = vbr::shape_for_processes(10, 3, 1);
    Shared all = Shared::open(shape, 3).value();
    for (bool is_in_turn : {false, true}) {
        CHECK(is_killed([&] {
            auto mine = all.claim(1);
            {
                auto turn = mine.turn();
                CHECK(add(turn, 1 + is_in_turn));
                turn.reserve(63);
                CHECK(mine.turn().has(1) == true); // which leaves it marked
                if (is_in_turn) raise(SIGKILL);
            }
            raise(SIGKILL);
        }));
        CHECK(!is_in_turn || (all.report() == vbr::refusal::on_loan && all.renew(shape).error() == vbr::refusal::on_loan));
        CHECK(all.inherit(1).value() == !is_in_turn && all.inherit(1).value());
        CHECK(all.claim(1).turn().give_slots_back() == (is_in_turn ? 0u : 63u));
    }
    CHECK((keys_of(all.report().value()) == std::vector<std::uint64_t>{1, 2}));
    std::uint32_t before = room_of(all), after = shape.slots - 2;
    CHECK(before >= after - vbr::slots_of_a_death && before <= after - 63);
    auto other = all.claim(2);
    CHECK(all.renew(shape) && other.turn().has(2) == true && room_of(all) == after);
}

// Whoever ends the object, or leaves by exit, by an exception or by none of them, the others keep the set.
template <class Shared>
static void ends() {
    static Shared kept; // which ends at exit
    kept = Shared::open(vbr::shape_for_processes(64, 4, 1), 4).value();
    CHECK(ends_well([&] {
        {
            auto mine = kept.claim(1);
            auto turn = mine.turn();
            CHECK(add(turn, 1));
        }
        std::exit(0);
    }));
    CHECK(ends_well([&] {
        try {
            Shared moved = std::move(kept);
            auto mine = moved.claim(1);
            auto turn = mine.turn();
            CHECK(add(turn, 2));
            static_cast<void>(turn.has_within(2, vbr::steps{1}).value()); // ends the turn and the object
        } catch (const vbr::refused &refused) {
            CHECK(refused.error() == vbr::refusal::out_of_steps && kept.handles() == 0 && !kept.claim(1));
            return;
        }
        CHECK(false);
    }));
    int told[2];
    CHECK(pipe(told) == 0);
    pid_t heir = child_of([&] { // goes on after the opener has ended its object
        char any;
        CHECK(close(told[1]) == 0 && read(told[0], &any, 1) == 0);
        auto mine = kept.claim(2);
        auto turn = mine.turn();
        CHECK(sum(turn) == 1 + 2 + 3 && add(turn, 4));
    });
    CHECK(kept.inherit(1).value());
    {
        auto mine = kept.claim(1);
        auto turn = mine.turn();
        CHECK(add(turn, 3) && turn.balance() == 3);
    }
    kept = Shared();
    CHECK(kept.handles() == 0 && kept.report() == vbr::refusal::no_handle);
    close(told[0]), close(told[1]);
    CHECK(status_of(heir) == 0);
}

// What is refused, in its order, and what that leaves.
template <class Shared>
static void refusals() {
    const auto item = [](std::uint64_t key) { return key_of(key, static_cast<Shared *>(nullptr)); };
    const std::vector<typename Shared::item_type> wrong = {item(6), item(6)};
    const vbr::shape good{8 + 64, 8, vbr::max_epoch}, bad{0, 8, vbr::max_epoch}, small{1, 8, vbr::max_epoch};
    vbr::shape seeded = good;
    seeded.seed = 7;
    CHECK(Shared::open_with(seeded, 0, wrong).error() == vbr::refusal::bad_shape);
    CHECK(Shared::open_with(bad, 0, wrong).error() == vbr::refusal::bad_shape && Shared::open({8, 8, vbr::max_epoch_for(8) + 1}, 0).error() == vbr::refusal::bad_shape);
    CHECK(Shared::open({1u << 24, 8, vbr::max_epoch}, 0).error() == vbr::refusal::bad_count && Shared::open({1u << 24, 8, vbr::max_epoch - 1}, 0).error() == vbr::refusal::bad_shape);
    CHECK(Shared::open_with(good, 0, wrong).error() == vbr::refusal::bad_count);
    CHECK(Shared::open(good, vbr::max_many_handles + 1).error() == vbr::refusal::bad_count);
    CHECK(Shared::open_with(good, 1, wrong).error() == vbr::refusal::bad_keys);
    CHECK(Shared::open_with(small, 1, {item(6), item(7)}).error() == vbr::refusal::bad_keys);
    // a file that isn't there, can't be written, or is too short
    CHECK(Shared::open_in(-1, bad, 1).error() == vbr::refusal::bad_shape && Shared::open_in(-1, good, 0).error() == vbr::refusal::bad_count);
    CHECK(Shared::open_in(-1, good, 1, wrong.data(), 2).error() == vbr::refusal::bad_keys);
    CHECK(Shared::open_in(-1, good, 1).error() == vbr::refusal::no_memory);
    int file = memfd_create("vbr", 0), ends[2];
    CHECK(file >= 0 && pipe(ends) == 0 && Shared::open_in(ends[0], good, 1).error() == vbr::refusal::no_memory);
    CHECK(ftruncate(file, static_cast<off_t>(vbr::shared_size(good, 1)) - 1) == 0);
    CHECK(Shared::open_in(file, good, 1).error() == vbr::refusal::no_room && Shared::open_in(file, good, 1, wrong.data(), 2).error() == vbr::refusal::bad_keys);
    CHECK(ftruncate(file, static_cast<off_t>(vbr::shared_size(good, 1))) == 0);
    CHECK(Shared::open_in(file, good, 1, wrong.data(), 1).value().claim(0).turn().has(6) == true);
    close(ends[0]), close(ends[1]), close(file);
    // no memory for an opening, and no room for a renewal
    Shared all = Shared::open(good, 1).value();
    auto mine = all.claim(0);
    {
        auto turn = mine.turn();
        CHECK(add(turn, 5) && add(turn, 6));
    }
    struct rlimit most;
    CHECK(getrlimit(RLIMIT_AS, &most) == 0);
    const struct rlimit less = {1u << 30, most.rlim_max};
    CHECK(setrlimit(RLIMIT_AS, &less) == 0);
    CHECK(Shared::open({vbr::max_slots, 1 << 20, 1}, 1).error() == vbr::refusal::no_memory && setrlimit(RLIMIT_AS, &most) == 0);
    CHECK(all.renew({10000000, 1 << 20, vbr::max_epoch}).error() == vbr::refusal::no_memory && all.renew(small).error() == vbr::refusal::no_room);
    CHECK(all.renew(bad).error() == vbr::refusal::bad_shape && all.renew(seeded).error() == vbr::refusal::bad_shape);
    {
        auto turn = mine.turn();
        CHECK(sum(turn) == 11 && turn.slots() == good.slots && turn.balance() == 2);
    }
    // handles that aren't there
    CHECK(all.inherit(1) == vbr::refusal::no_handle && !all.claim(1) && all.claim(1).turn().has(5) == vbr::refusal::no_handle);
    Shared none, moved = std::move(all);
    CHECK(none.inherit(0) == vbr::refusal::no_handle && none.report() == vbr::refusal::no_handle);
    CHECK(none.renew(bad).error() == vbr::refusal::bad_shape && none.renew(good).error() == vbr::refusal::no_handle);
    CHECK(all.handles() == 0 && moved.handles() == 1 && mine.turn().has(5) == true);
    // a budget: of the shape, of a claim, of a renewal; and a claim that is moved
    vbr::shape hurried = good;
    hurried.steps = vbr::steps{1};
    CHECK(mine.turn().steps() == vbr::steps::ample());
    CHECK(moved.renew(hurried) && mine.turn().has(5) == vbr::refusal::out_of_steps);
    mine.set_steps(vbr::steps{5000});
    auto its = std::move(mine);
    mine.set_steps(vbr::steps{1});
    CHECK(!mine && mine.turn().has(5) == vbr::refusal::no_handle && its.turn().steps() == vbr::steps{5000} && its.turn().has(5) == true);
    CHECK(moved.renew(good) && its.turn().steps() == vbr::steps{5000} && Shared::open(hurried, 1)->claim(0).turn().steps() == vbr::steps{1});
    its.set_steps(vbr::steps{0});
    CHECK(its.turn().steps() == vbr::steps{1});
}

// The lines of the header.
static int sessions() {
    vbr::shared_map sessions = vbr::open_map_shared(vbr::shape_for_processes(1024, 3, 4), 3).value();
    std::fflush(nullptr);
    pid_t child = fork();
    if (child == 0) {
        vbr::map_claim mine = sessions.claim(1);            // the right to make calls by handle 1
        auto turn = mine.turn();                            // a call is under way from here to the end of the turn
        if (turn.put(7, 70).value()) return 1;              // it was absent
        raise(SIGKILL);
    }
    waitpid(child, nullptr, 0);                             // it has ended, or was killed
    bool is_whole = sessions.inherit(1).value();            // false: it died in a turn; handle 1 is for the next child
    CHECK(!is_whole);
    vbr::map_claim later; // of no handle, until it is assigned
    if (later) return 1; // it isn't assigned yet
    later = sessions.claim(1);
    auto mine = std::move(later);
    mine.set_steps(vbr::steps{5000});
    if (mine.turn().get(7).value() != 70u) return 1; // one call
    vbr::shape shape = vbr::shape_for_processes(1024, 3, 0);
    shape.slots += 4 * vbr::slots_of_a_death;
    vbr::result<void> renewed = sessions.renew(shape); // no slot is lost any more
    CHECK(renewed);
    vbr::map_report now = sessions.report().value(); // now.entries are those of all processes
    CHECK(now.entries.size() == 1 && now.entries[0].key == 7 && now.entries[0].value == 70);
    std::int64_t balance = sessions.claim(0).turn().balance();
    for (std::size_t i = 1; i < sessions.handles(); i++) balance += sessions.claim(i).turn().balance();
    CHECK(balance == 1);
    std::vector<int> beside(3);
    beside[mine.number()]++; // no other process writes it meanwhile
    CHECK(beside[1] == 1);
    vbr::shared_map none; // has no handles until it is assigned
    CHECK(none.handles() == 0);
    return 0;
}

static int openings() {
    const vbr::shape shape = vbr::shape_for_processes(1024, 3, 4);
    vbr::shared_set jobs = vbr::open_shared(shape, 3).value();
    vbr::claim worker = jobs.claim(2);
    CHECK(worker.turn().insert(5) == true);
    const std::pair<std::uint64_t, std::uint64_t> few_and_copied = {2 + 5 + 9, 20 + 50 + 90};
    const std::set<std::uint32_t> keys = {2, 5, 9};
    const std::map<std::uint32_t, std::uint32_t> entries = {{2, 20}, {5, 50}, {9, 90}};
    {
        auto few = vbr::open_shared_with(shape, 1, {2, 5, 9});
        auto copied = vbr::open_shared_with(shape, 1, keys);
        CHECK((few->report()->keys == std::vector<std::uint64_t>{2, 5, 9}) && copied->report()->keys == few->report()->keys);
    }
    {
        auto few = vbr::open_map_shared_with(shape, 1, {{2, 20}, {5, 50}, {9, 90}});
        auto copied = vbr::open_map_shared_with(shape, 1, entries);
        for (vbr::shared_map *each : {&*few, &*copied}) CHECK(sum_of(each->report()->entries) == few_and_copied);
    }
    int file = memfd_create("vbr", 0);
    if (ftruncate(file, static_cast<off_t>(vbr::shared_size(shape, 2))) != 0) return 1;
    {
        auto by_name = vbr::open_shared_in(file, shape, 2);
        CHECK(by_name->claim(1).turn().insert(5) == true);
    }
    {
        auto by_name = vbr::open_map_shared_in(file, shape, 2);
        CHECK(by_name->claim(1).turn().insert(5, 50) == true);
    }
    auto by_address = vbr::shared<ports>::open(vbr::shape_for_processes(1024, 2, 1), 2).value();
    auto seen = vbr::shared<ports>::open_in(file, shape, 2);
    close(file);
    for (shared_ports *each : {&by_address, &*seen}) {
        CHECK(ends_well([&] { CHECK(each->claim(1).turn().insert(address{3, 4}, std::uint16_t{80}) == true); }));
        CHECK(each->claim(0).turn().get(address{3, 4}).value() == std::uint16_t{80});
        CHECK(each->report()->entries.front().key == (address{3, 4}));
    }
    return 0;
}

template <class Shared>
static void both() {
    calls<Shared>();
    deaths<Shared>();
    ends<Shared>();
    refusals<Shared>();
}

int main() {
    both<vbr::shared_set>();
    both<vbr::shared_map>();
    if (sessions() != 0 || openings() != 0) return 1;
    std::puts("processes in C++: passed, over sets and over maps");
    return 0;
}

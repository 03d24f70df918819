// The map in C++: the examples of vbr.hpp (bindings/headers sees that their lines are here), values that change, ranges of entries,
// walks and closes; ends.cpp has ends of handles.
#include "vbr_records.hpp"

#include <array>
#include <atomic>
#include <cstdio>
#include <map>
#include <string>
#include <thread>
#include <type_traits>

#define CHECK(x) do { if (!(x)) { std::fprintf(stderr, "map_example.cpp:%d: %s\n", __LINE__, #x); return 1; } } while (0)

// What doesn't compile is seen by bindings/headers; here what a type doesn't do.
static_assert(!std::is_copy_constructible_v<vbr::map_handle> && !std::is_copy_assignable_v<vbr::map_handle>);
static_assert(std::is_nothrow_move_constructible_v<vbr::map_handle> && std::is_nothrow_move_assignable_v<vbr::map_handle>);
static_assert(!std::is_copy_constructible_v<vbr::map_held> && std::is_nothrow_move_constructible_v<vbr::map_held>);
static_assert(!std::is_constructible_v<vbr::map_held, vbr::held> && !std::is_constructible_v<vbr::incarnation, vbr::map_incarnation>);
static_assert(!std::is_constructible_v<bool, vbr::map_pass::found>);
static_assert(!std::is_constructible_v<bool, vbr::result<vbr::compared<std::uint64_t>>>);
static_assert(!std::is_constructible_v<vbr::map_handle, vbr::handle> && !std::is_constructible_v<vbr::handle, vbr::map_handle>);
static_assert(!std::is_convertible_v<vbr::map_loan, bool> && !std::is_convertible_v<vbr::compared<std::uint64_t>, bool>);

static bool operator==(const vbr::entry &a, const vbr::entry &b) { return a.key == b.key && a.value == b.value; }

// The entries that the last close of a map returned.
static std::vector<vbr::entry> told(vbr::map_handle &last) { return last.close().value().value().entries; }

using list = std::vector<vbr::entry>;

static int example() {
    std::vector<vbr::map_handle> handles = vbr::open_map(vbr::shape::for_keys(1024, 2), 2).value();
    bool added = handles[0].insert(5, 70).value();                             // true: 5 was absent, and now has the value 70
    std::optional<std::uint64_t> there = handles[1].get(5).value();            // 70
    std::optional<std::uint64_t> was = handles[0].replace(5, 71).value();      // 70, and 5 has 71
    std::optional<std::uint64_t> taken = handles[1].remove(5).value();         // 71
    std::optional<std::uint64_t> absent = handles[1].get(5).value();           // none
    CHECK(added && there == 70u && was == 70u && taken == 71u && !absent);
    CHECK(!handles[0].close().value() && told(handles[1]).empty());
    CHECK(handles[0].get(5) == vbr::refusal::no_handle && handles[1].close() == vbr::refusal::no_handle);
    return 0;
}

// Look-ups of many keys: more than a batch, and with a budget that is too small for all.
static int many_keys() {
    vbr::map_handle mine = std::move(vbr::open_map(vbr::shape::for_keys(200, 1), 1)->at(0));
    std::vector<std::uint64_t> keys;
    for (std::uint64_t key = 0; key < 200; key++) keys.push_back(key);
    for (std::uint64_t key = 1; key < 200; key += 2) CHECK(mine.insert(key, 10 * key) == true);
    std::vector<vbr::result<bool>> answers(200);
    std::vector<vbr::map_pass::found> values(200);
    mine.has_all(keys.data(), 200, answers.data());
    mine.get_all(keys.data(), 200, values.data());
    for (std::size_t i = 0; i < 200; i++) {
        CHECK(answers[i] == (i % 2 == 1));
        CHECK(i % 2 ? values[i] == 10 * i : values[i] == std::nullopt);
    }
    mine.has_all_within(keys.data(), 200, answers.data(), vbr::steps{10});
    mine.get_all_within(keys.data(), 200, values.data(), vbr::steps{10});
    for (std::size_t i = 0; i < 200; i++) CHECK(answers[i] == vbr::refusal::out_of_steps && values[i] == vbr::refusal::out_of_steps);
    return 0;
}

// A call of each kind, as the comments of vbr.hpp have them.
static int calls() {
    constexpr vbr::shape shape{1024 + 2 * 64, 1024, vbr::max_epoch};
    const std::vector<vbr::entry> want{{2, 20}, {5, 50}};
    auto some = vbr::open_map_with(shape, 1, want.data(), want.size());
    vbr::map_handle mine = std::move(some->at(0));
    CHECK(mine.is_open() && !some->at(0).is_open() && mine.slots() == shape.slots && mine.buckets() == shape.buckets);
    CHECK(mine.epoch() == 1 && mine.last_epoch() == vbr::max_epoch);
    int added = 0;
    std::uint64_t sum = 0;
    if (mine.insert(6, 60).value()) added++; // this call stored 60 for 6
    CHECK(mine.insert(6, 61) == false);
    if (std::optional<std::uint64_t> got = mine.get(6).value()) sum += *got;
    const std::vector<std::uint64_t> wanted{6, 7, 2};
    std::vector<vbr::map_pass::found> values(3);
    mine.get_all(wanted.data(), wanted.size(), values.data()); // values[i] is that of wanted[i]
    CHECK(values[0] == 60u && values[1] == std::nullopt && values[2] == 20u);
    std::optional<std::uint64_t> taken = mine.remove(6).value(); // what 6 had
    CHECK(added == 1 && sum == 60 && taken == 60u && mine.has(6) == false);
    CHECK(mine.remove(6) == std::nullopt && mine.get(6) == std::nullopt && mine.get(2) == 20u);
    CHECK(mine.get_within(2, vbr::steps{1}) == vbr::refusal::out_of_steps);
    CHECK(mine.has_within(2, vbr::steps{1}) == vbr::refusal::out_of_steps);
    CHECK(mine.insert_within(3, 30, vbr::steps{1}) == vbr::refusal::out_of_steps);
    CHECK(mine.remove_within(2, vbr::steps{1}) == vbr::refusal::out_of_steps);
    CHECK(!mine.get_within(2, vbr::steps{1}).value_or(std::nullopt) && mine.get(2).value_or(std::nullopt) == 20u);
    std::optional<vbr::map_report> told = mine.close().value();
    for (vbr::entry each : told->entries) sum += each.value;
    CHECK(told->free == shape.slots - 2 && sum == 60 + 20 + 50);
    return 0;
}

// Whether a call that expects a value was done, and what it found.
static vbr::compared<std::uint64_t> done(std::uint64_t found) { return {true, found}; }
static vbr::compared<std::uint64_t> not_done(std::optional<std::uint64_t> found) { return {false, found}; }

// The calls that do one thing or another by what is there, as the comments of vbr.hpp have them.
static int changes() {
    vbr::map_handle mine = std::move(vbr::open_map_with(vbr::shape::for_keys(8, 1), 1, {{6, 60}})->at(0));
    int puts = 0, changed = 0, users = 0;
    std::optional<std::uint64_t> was = mine.replace(6, 61).value(); // 6 had it, and has 61
    CHECK(was == 60u && mine.replace(7, 70) == std::nullopt);
    if (mine.put(7, 70).has_value()) puts++; // 7 has 70, whether it was there or not
    CHECK(puts == 1 && mine.put(7, 71) == 70u && mine.get(7) == 71u);
    if (!mine.fetch_add(9, 1).value()) users++; // 9 was absent, and has 1; else it would have one more
    CHECK(users == 1 && mine.fetch_add(9, UINT64_MAX) == 1u && mine.fetch_add(9, 5) == 0u && mine.remove(9) == 5u);
    std::uint64_t has = mine.get_or_insert(8, 80).value().value_or(80);
    CHECK(has == 80 && mine.get_or_insert(8, 81) == 80u);
    vbr::compared<std::uint64_t> left = mine.remove_if(6, 60).value(); // not done: 6 has *left.found, and is still there
    CHECK(left == not_done(61) && mine.compare_exchange(6, 60, 62) == not_done(61));
    if (*mine.compare_exchange(6, 61, 62)) changed++; // 6 had 61, and has 62
    CHECK(changed == 1 && mine.compare_exchange(6, 62, 62) == done(62));
    CHECK(mine.compare_exchange(9, 61, 62) == not_done({}) && mine.remove_if(9, 61) == not_done({}));
    auto half = [](std::uint64_t value) { return value % 2 ? std::nullopt : std::optional(value / 2); };
    std::optional<std::uint64_t> before = mine.fetch_update(6, half).value(); // 6 had it, and has half of it
    CHECK(before == 62u && mine.fetch_update(6, half) == std::nullopt && mine.get(6) == 31u);
    CHECK(mine.fetch_update(6, [](std::uint64_t value) { return value + 1; }) == 31u && mine.get(6) == 32u);
    CHECK(mine.fetch_update(9, half) == std::nullopt && mine.fetch_update_within(7, half, vbr::steps{1}) == vbr::refusal::out_of_steps);
    const vbr::steps few{1};
    CHECK(mine.remove_if(7, 71) == done(71) && mine.replace_within(6, 1, few) == vbr::refusal::out_of_steps);
    CHECK(mine.put_within(6, 1, few) == vbr::refusal::out_of_steps);
    CHECK(mine.get_or_insert_within(6, 1, few) == vbr::refusal::out_of_steps);
    CHECK(mine.fetch_add_within(6, 1, few) == vbr::refusal::out_of_steps);
    CHECK(mine.remove_if_within(6, 32, few) == vbr::refusal::out_of_steps);
    CHECK(mine.compare_exchange_within(6, 32, 1, few) == vbr::refusal::out_of_steps && mine.get(6) == 32u);
    CHECK(told(mine) == (list{{6, 32}, {8, 80}}) && mine.put(6, 1) == vbr::refusal::no_handle);
    CHECK(mine.fetch_update(6, half) == vbr::refusal::no_handle);
    return 0;
}

// Four threads add to the same values: no update of one loses another's.
static int updates() {
    constexpr std::uint64_t THREADS = 4, KEYS = 3, EACH = 30000;
    std::vector<vbr::map_handle> handles = vbr::open_map_with(vbr::shape::for_keys(8, THREADS), THREADS, {{0, 0}, {1, 0}, {2, 0}}).value();
    std::atomic<int> wrong{0};
    std::vector<std::thread> threads;
    for (vbr::map_handle &each : handles)
        threads.emplace_back([&each, &wrong] {
            for (std::uint64_t i = 0; i < EACH; i++)
                if (!each.fetch_update(i % KEYS, [](std::uint64_t value) { return value + 1; }).value()) wrong++;
        });
    for (std::thread &thread : threads) thread.join();
    for (std::uint64_t key = 0; key < KEYS; key++) CHECK(handles[key].get(key) == THREADS * EACH / KEYS);
    CHECK(wrong == 0);
    return 0;
}

static int refusals() {
    vbr::shape small{2, 1, 1};
    vbr::map_handle one = std::move(vbr::open_map(small, 1)->at(0));
    CHECK(one.insert(1, 10) == true && one.insert(2, 20) == true && one.insert(3, 30) == vbr::refusal::no_slot);
    CHECK(one.get(3) == std::nullopt);
    CHECK(one.replace(1, 11) == vbr::refusal::no_slot);
    CHECK(one.fetch_update(1, [](std::uint64_t value) { return value + 1; }) == vbr::refusal::no_slot);
    CHECK(one.remove(1) == 10u && one.insert(3, 30) == vbr::refusal::epoch_spent);
    CHECK(vbr::open_map(vbr::shape{}, 1) == vbr::refusal::bad_shape);
    CHECK(vbr::open_map(small, 0) == vbr::refusal::bad_count && vbr::open_map(small, 65) == vbr::refusal::bad_count);
    CHECK(vbr::open_map_with(small, 1, {{5, 1}, {5, 2}}) == vbr::refusal::bad_keys);
    return 0;
}

// What a map that opens with a range of entries has.
template <class Entries>
static list kept(const Entries &entries) {
    auto opened = vbr::open_map_with(vbr::shape::for_keys(8, 1), 1, entries);
    return told(opened->at(0));
}

static int ranges() {
    const list want{{2, 20}, {5, 50}, {9, 90}};
    const vbr::entry array[] = {{2, 20}, {5, 50}, {9, 90}};
    CHECK(kept(want) == want && kept(array) == want && kept(std::array<vbr::entry, 3>{{{2, 20}, {5, 50}, {9, 90}}}) == want);
    CHECK(kept(std::map<std::uint64_t, std::uint32_t>{{9, 90}, {2, 20}, {5, 50}}) == want);
    CHECK(kept(std::vector<std::pair<std::uint32_t, std::uint64_t>>{{2, 20}, {5, 50}, {9, 90}}) == want);
    CHECK(kept(list{}).empty() && kept(std::map<std::uint64_t, std::uint64_t>{}).empty());
    auto few = vbr::open_map_with(vbr::shape::for_keys(8, 1), 1, {{2, 20}, {5, 50}, {9, 90}});
    CHECK(told(few->at(0)) == want);
    return 0;
}

// All entries, bucket by bucket: each key with its value; from a cursor on; and each refusal.
static int walks() {
    const list nine{{1, 10}, {2, 20}, {3, 30}, {4, 40}, {5, 50}, {6, 60}, {7, 70}, {8, 80}, {9, 90}};
    vbr::map_handle mine = std::move(vbr::open_map_with(vbr::shape{9 + 64, 4, vbr::max_epoch, 0}, 1, nine)->at(0));
    const list by_bucket{{2, 20}, {5, 50}, {4, 40}, {7, 70}, {1, 10}, {6, 60}, {9, 90}, {3, 30}, {8, 80}};
    std::uint64_t sum = 0;
    for (auto [key, value] : mine.entries()) sum += key * value;
    CHECK(sum == 10 * (1 + 4 + 9 + 16 + 25 + 36 + 49 + 64 + 81));
    auto walk = mine.entries();
    CHECK(list(walk.begin(), walk.end()) == by_bucket && mine.entries().begin()->value == 20);
    vbr::cursor from;
    vbr::refusal why{};
    try {
        for (auto [key, value] : mine.entries_within(from, vbr::steps{11})) CHECK(key == 2 && value == 20);
    } catch (const vbr::refused &refused) {
        why = refused.error();
    }
    CHECK(why == vbr::refusal::out_of_steps && mine.next(from).value() == by_bucket[1]);
    sum = 0;
    for (auto [key, value] : mine.entries(from)) sum += key * value;
    CHECK(sum == 10 * (1 + 9 + 16 + 36 + 49 + 64 + 81) && !mine.next(from).value());
    for (vbr::entry each : mine.entries_within(vbr::steps{1000})) CHECK(mine.remove(each.key) == each.value);
    CHECK(told(mine).empty() && mine.next(from).error() == vbr::refusal::no_handle);
    return 0;
}

// A thousand callers of a map.
static int crowds() {
    std::vector<vbr::map_handle> crowd = vbr::open_map_many(vbr::shape::for_keys(1024, 1000), 1000).value();
    CHECK(crowd.size() == 1000);
    for (std::size_t i = 0; i < 1000; i++) CHECK(*crowd[i].insert(i, 3 * i));
    CHECK(vbr::map_handle::renew_all(crowd, vbr::shape::for_keys(2048, 1000)));
    for (std::size_t i = 0; i < 1000; i++) CHECK(crowd[i].get(999 - i) == 3 * (999 - i));
    CHECK(vbr::map_handle::report_all(crowd)->entries.size() == 1000);
    CHECK(vbr::open_map_many(vbr::shape::for_keys(8, 1), vbr::max_many_handles + 1) == vbr::refusal::bad_count);
    return 0;
}

// A map whose report is the opening of the next one: each key keeps its value.
static int renewals() {
    const vbr::shape shape{8 + 2 * 64, 8, 20};
    std::vector<vbr::map_handle> handles = vbr::open_map(shape, 2).value();
    CHECK(*handles[1].insert(5, 70));
    int renewed = 0;
    for (std::uint64_t key = 100; key < 1100; key++) {
        vbr::result<bool> added = handles[0].insert(key, 3 * key);
        if (added == vbr::refusal::epoch_spent) {
            CHECK(!handles[0].close().value());
            list left = told(handles[1]);
            CHECK(left == (list{{5, 70}}));
            handles = vbr::open_map_with(shape, 2, left).value();
            renewed++;
            added = handles[0].insert(key, 3 * key);
        }
        CHECK(*added && handles[0].remove(key) == 3 * key);
    }
    CHECK(renewed > 3 && handles[1].get(5) == 70u);
    return 0;
}

// Ends without a report.
static int ends_of_all() {
    std::vector<vbr::map_handle> handles = vbr::open_map(vbr::shape::for_keys(64, 3), 3).value();
    CHECK(*handles[1].insert(5, 50) && !handles[1].close().value());
    vbr::map_handle::end_all(handles);
    CHECK(handles.empty());
    return 0;
}

// A function that takes the pass of a handle, or of one on loan.
static std::uint64_t got(vbr::map_pass &mine, std::uint64_t key) { return mine.get(key).value().value_or(0); }

static int lent() {
    vbr::map_lender lender(vbr::open_map(vbr::shape::for_keys(1000, 2), 2).value());
    vbr::map_loan mine = lender.lend();
    CHECK(mine && *mine->insert(1000, 1) && got(*mine, 1000) == 1);
    return 0;
}

// Balances, and all handles at once: their report, and their renewal, which keeps the values.
static int all_handles() {
    std::vector<vbr::map_handle> both = vbr::open_map(vbr::shape::for_keys(2, 2), 2).value();
    CHECK(*both[0].insert(5, 70) && both[1].balance() == 0);
    vbr::map_report now = vbr::map_handle::report_all(both).value();
    CHECK(now.entries == (list{{5, 70}}));
    CHECK(vbr::map_handle::renew_all(both, vbr::shape::for_keys(4096, 2)) && both[1].buckets() == 4096);
    CHECK(both[1].get(5) == 70u && both[0].balance() == 1);
    return 0;
}

// Slots in hand, and what stands in them.
static int slots_in_hand() {
    std::vector<vbr::map_handle> both = vbr::open_map(vbr::shape::for_keys(1024, 2), 2).value();
    vbr::map_handle &mine = both[0];
    std::vector<std::uint64_t> beside(mine.slots());
    std::uint64_t sum = 0;
    int added = 0, changed = 0, copied = 0, puts = 0, taken_out = 0;
    {
        vbr::map_held slot = mine.hold().value();
        beside[slot.number()] = 7; // nobody else writes there
        CHECK(mine.hold() == vbr::refusal::held && mine.insert(6, 60) == vbr::refusal::held && mine.has(6) == false);
        slot.let_go(); // its record isn't written any more
        CHECK(!slot.is_held() && mine.insert(6, 60) == true && mine.insert(std::move(slot), 9, 90) == vbr::refusal::held);
    }
    std::optional<vbr::map_incarnation> at = mine.get_entry(6).value(); // at->slot() is where 6 stands
    sum += at->value();
    if (mine.is_still(*at).value()) copied++; // what was copied since at was found is of this entry
    CHECK(sum == 60 && copied == 1 && both[1].get_entry(6).value() == at && both[1].get_entry(7).value() == std::nullopt);
    {
        vbr::map_held slot = mine.hold().value();
        std::uint32_t number = slot.number();
        CHECK(both[1].insert(std::move(slot), 7, 70) == vbr::refusal::held && slot.is_held()); // it is of the other handle
        CHECK(mine.insert(std::move(slot), 6, 61) == false && slot.is_held());
        CHECK(mine.insert_within(std::move(slot), 7, 70, vbr::steps{1}) == vbr::refusal::out_of_steps && slot.is_held());
        if (mine.insert(std::move(slot), 7, 70).value()) added++; // 7 stands in this slot
        if (slot.is_held()) return 1;
        at = mine.get_entry_within(7, vbr::steps{500}).value();
        CHECK(added == 1 && at->slot() == number && at->value() == 70);
    }
    vbr::map_held slot = mine.hold_within(vbr::steps{500}).value();
    if (mine.replace(std::move(slot), 7, *at, 71).value()) changed++; // nobody had changed 7 since it was found
    if (!slot.is_held()) slot = mine.hold().value(); // a call by it was done
    CHECK(changed == 1 && mine.replace(std::move(slot), 7, *at, 72) == false && mine.remove_entry(7, *at) == false);
    vbr::map_held moved = std::move(slot);
    slot = std::move(moved);
    CHECK(slot.is_held());
    if (mine.put(std::move(slot), 7, 72).has_value()) puts++; // 7 stands in this slot
    CHECK(puts == 1 && !slot.is_held() && mine.get(7) == 72u);
    vbr::cursor from;
    auto stands = mine.next_at(from).value(); // a key, and its incarnation
    CHECK(stands && both[1].get_entry(stands->first).value() == stands->second);
    while (mine.next_at(from).value()) sum++;
    CHECK(sum == 61);
    at = mine.get_entry(7).value();
    if (mine.remove_entry(7, *at).value()) taken_out++; // nobody had changed 7 since it was found
    CHECK(taken_out == 1 && mine.is_still(*at) == true); // until the slot is handed out anew
    std::vector<std::uint32_t> slots = vbr::map_handle::report_slots(both).value();
    CHECK(slots.size() == 1 && slots[0] == mine.get_entry(6).value()->slot());
    CHECK(vbr::map_handle::renew_all(both, vbr::shape::for_keys(16, 2)).has_value() && mine.get_entry(6).value()->slot() == 0);
    slot = mine.hold().value();
    std::optional<vbr::map_report> first = both[0].close().value();
    CHECK(!first); // the slot is put back
    slot.let_go();
    CHECK(told(both[1]).size() == 1);
    return 0;
}

struct account {
    char owner[32];
    std::uint64_t balance;
};

// Records beside the slots, which go along with the entries over a renewal.
static int records_beside() {
    std::vector<vbr::map_handle> both = vbr::open_map(vbr::shape::for_keys(1024, 2), 2).value();
    vbr::map_handle &mine = both[0], &other = both[1];
    vbr::records<account> accounts(mine.slots());
    vbr::map_held slot = mine.hold().value();
    accounts.write(slot, account{"somebody", 100});
    bool added = mine.insert(std::move(slot), 6, 0).value();
    CHECK(added && !accounts.read(other, 5).value());
    accounts.write(slot, account{"nobody", 1}); // it is no longer held, so nothing is written
    {
        auto there = accounts.read(mine, 6).value();
        std::uint64_t paid = there->record.balance;
        CHECK(there && paid == 100 && there->record.owner[7] == 'y' && there->at == other.get_entry(6).value());
        slot = other.hold().value();
        accounts.write(slot, account{"somebody", paid + 50});
        CHECK(other.replace(std::move(slot), 6, there->at, 1) == true);
    }
    std::optional<vbr::map_incarnation> at = mine.get_entry(6).value(); // at->slot() is where 6 stands
    account copy = accounts.copy(*at);
    CHECK(mine.is_still(*at) == true && copy.balance == 150);
    vbr::result<void> renewed = accounts.renew_all(both, vbr::shape::for_keys(2048, 2));
    CHECK(renewed && mine.slots() == 2048 + 2 * 64 && accounts.read(mine, 6).value()->record.balance == 150);
    CHECK(accounts.renew_all(both, vbr::shape{0, 8}).error() == vbr::refusal::bad_shape && accounts.read(mine, 6).value()->at.slot() == 0);
    vbr::records<account> moved = std::move(accounts);
    CHECK(moved.read(other, 6).value()->record.balance == 150);
    return 0;
}

// The same where handles are lent.
static int records_beside_loans() {
    vbr::map_lender lender(vbr::open_map(vbr::shape::for_keys(8, 2), 2).value()), none;
    vbr::records<account> accounts(lender.slots());
    {
        vbr::map_loan mine = lender.lend();
        vbr::map_held slot = mine->hold().value(); // it is put back before the loan is
        accounts.write(slot, account{"somebody", 100});
        CHECK(mine->insert(std::move(slot), 6, 0) == true);
    }
    vbr::result<void> renewed = accounts.renew(lender, vbr::shape::for_keys(2048, 2));
    CHECK(renewed && lender.slots() == 2048 + 2 * 64 && accounts.read(*lender.lend(), 6).value()->record.balance == 100);
    CHECK(accounts.renew(none, vbr::shape::for_keys(8, 1)).error() == vbr::refusal::no_handle);
    CHECK(accounts.renew(lender, vbr::shape{0, 8}).error() == vbr::refusal::bad_shape);
    return 0;
}

int main() {
    if (example() || all_handles() || calls() || many_keys() || changes() || updates() || refusals() || ranges() || walks()) return 1;
    if (crowds() || renewals() || ends_of_all() || lent() || slots_in_hand() || records_beside() || records_beside_loans()) return 1;
    std::puts("example of maps in C++: passed");
    return 0;
}

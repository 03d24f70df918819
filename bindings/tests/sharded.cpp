// Sharded sets and maps in C++: the examples of vbr_sharded.hpp (bindings/headers sees that their lines are here), each call with each answer,
// which shard and which bucket keys have, growth and renewals under threads, and the order of calls on two shards.
//
//     sharded [index KEYS | order [careless]]
//
// `index` has four threads fill an index of so many keys, 400,000, whose shards grow as they come, and look each key up. `order` has two threads
// insert a key each, on two shards, and then look for the other's, again and again: one of them finds it. Careless ones look before they insert,
// and that has to be found out.
#include "vbr_sharded.hpp"

#include "client.hpp"

#include <array>
#include <atomic>
#include <cmath>
#include <cstring>
#include <random>
#include <string>
#include <thread>

using page_index = vbr::sharded_map<std::uint64_t, std::uint64_t>;
using visited = vbr::sharded_set<std::uint64_t>;

constexpr vbr::shape share = vbr::shape_for_shards(400'000, 16, 4); // a sixteenth of the keys, for 4 threads at a time

static void example() {
    page_index pages = page_index::open(16, share, 4, 2 * share.slots).value();    // and each shard may grow to twice its slots
    bool added = pages.insert(5, 50).value();                          // true: 5 was absent
    std::optional<std::uint64_t> has = pages.get(5).value();           // 50
    std::uint64_t sum = 0;
    vbr::result<void> walked = pages.for_each([&](page_index::item entry) { sum += entry.value; });
    CHECK(added && has == 50u && walked && sum == 50);
    static_assert(vbr::max_shards == 65'536);
    vbr::shard_stats first = pages.stats(0); // first.keys of first.slots have a key
    std::int64_t keys = 0, count = 0, taken_out = 0, changed = 0, left = 0, there = 0;
    for (std::size_t i = 0; i < pages.shard_count(); i++) keys += pages.stats(i).keys;
    std::int64_t about = pages.count_about(); // 1: 5 is in
    CHECK(first.slots == share.slots && first.epoch >= 1 && keys == 1 && about == 1);
    std::size_t where = pages.shard_of(5);
    vbr::result<void> renewed = pages.shard(where).renew(share); // while the calls on other shards go on
    CHECK(renewed && where < 16 && pages.stats(where).keys == 1);
    const auto least_of_9 = [](std::uint64_t value) { return value < 9 ? std::optional(value + 1) : std::nullopt; };
    auto at_most_9 = pages.call(5, [&](page_index::pass_type &mine) { return mine.fetch_update(5, least_of_9); }); // what 5 had
    CHECK(at_most_9 == std::optional<std::uint64_t>() && pages.get(5) == 50u);
    if (*pages.has(5)) there++;
    std::optional<std::uint64_t> before = pages.put(5, 51).value(); // 50
    std::optional<std::uint64_t> was = pages.replace(5, 52).value(); // 51
    std::uint64_t of_6 = pages.get_or_insert(6, 60).value().value_or(60);
    if (*pages.compare_exchange(5, 52, 53)) changed++; // 5 had 52, and has 53
    std::optional<std::uint64_t> taken = pages.remove(6).value(); // 60
    if (!*pages.remove_if(5, 7)) left++; // 5 has another value, and is still there
    CHECK(there == 1 && before == 50u && was == 51u && of_6 == 60 && changed == 1 && taken == 60u && left == 1 && pages.get(5) == 53u);
    vbr::sharded_set<> seen = vbr::sharded_set<>::open(4, vbr::shape_for_shards(1000, 4, 2), 2).value();
    if (seen.insert(6).value()) count++; // this call added 6
    if (seen.remove(6).value()) taken_out++; // this call took 6 out
    CHECK(count == 1 && taken_out == 1);
    page_index later; // refuses all calls until it is assigned
    CHECK(later.get(5) == vbr::refusal::no_handle && later.shard_count() == 0 && later.shard_of(5) == 0 && later.count_about() == 0);
    later = std::move(pages);
    CHECK(later.get(5) == 53u && pages.get(5) == vbr::refusal::no_handle);
}

// What differs between sets and maps: in a map a key has all its bits turned over as its value.
static vbr::result<bool> add(visited &to, std::uint64_t key) { return to.insert(key); }
static vbr::result<bool> add(page_index &to, std::uint64_t key) { return to.insert(key, ~key); }
static std::uint64_t key_of(std::uint64_t item) { return item; }
static std::uint64_t key_of(const vbr::entry &item) {
    CHECK(item.value == ~item.key);
    return item.key;
}
static bool took(visited &from, std::uint64_t key) { return from.remove(key).value(); }
static bool took(page_index &from, std::uint64_t key) { return from.remove(key).value().has_value(); }

// A key of a shard: the first one from some on.
template <class Sharded>
static std::uint64_t key_in(const Sharded &of, std::size_t shard, std::uint64_t from = 0) {
    while (of.shard_of(from) != shard) from++;
    return from;
}

// Sees that the keys below a number are there, each once, and no others.
template <class Sharded>
static void has_just(Sharded &of, std::uint64_t count) {
    std::vector<unsigned char> given(count);
    CHECK(of.for_each([&](const auto &item) {
        CHECK(key_of(item) < count);
        given[key_of(item)]++;
    }));
    for (unsigned char times : given) CHECK(times == 1);
    std::int64_t keys_of_all = 0;
    for (std::size_t i = 0; i < of.shard_count(); i++) keys_of_all += of.stats(i).keys;
    CHECK(keys_of_all == static_cast<std::int64_t>(count) && of.count_about() == keys_of_all);
}

// Answers and refusals, where nothing grows.
template <class Sharded>
static void rows() {
    const vbr::shape small{2, 2, 100};
    CHECK(!Sharded::open(0, small, 1).has_value() && Sharded::open(0, small, 1) == vbr::refusal::bad_count);
    CHECK(Sharded::open(vbr::max_shards + 1, small, 1) == vbr::refusal::bad_count && Sharded::open(2, small, 0) == vbr::refusal::bad_count);
    CHECK(Sharded::open(2, vbr::shape{0, 2, 100}, 1) == vbr::refusal::bad_shape);
    CHECK(Sharded::open(2, vbr::shape_for_shards(std::uint64_t{1} << 40, 2, 1), 1) == vbr::refusal::bad_shape);
    Sharded of = Sharded::open(2, small, 1).value();
    std::array<std::uint64_t, 3> mine{};
    for (std::uint64_t i = 0, from = 0; i < 3; i++) from = (mine[i] = key_in(of, 0, from)) + 1;
    const std::uint64_t other = key_in(of, 1);
    CHECK(of.has(mine[0]) == false && !took(of, mine[0]));
    CHECK(add(of, mine[0]) == true && add(of, mine[0]) == false && of.has(mine[0]) == true && add(of, mine[1]) == true);
    CHECK(add(of, mine[2]) == vbr::refusal::no_slot && of.has(mine[2]) == false); // its shard is full, and grows no further
    CHECK(add(of, other) == true && of.stats(0).keys == 2 && of.stats(1).keys == 1 && of.stats(0).slots == 2);
    CHECK(took(of, mine[0]) && !took(of, mine[0]) && add(of, mine[2]) == true && of.count_about() == 3);
    static_cast<void>(of.shard(0).close());
    CHECK(of.has(mine[1]) == vbr::refusal::no_handle && of.has(other) == true && of.stats(0).slots == 0);
    CHECK(of.for_each([](const auto &) {}) == vbr::refusal::no_handle);
    Sharded one = Sharded::open(1, vbr::shape{2, 2, vbr::max_epoch_for(2)}, 1, 5).value(); // 2 slots, then 4, then 5
    for (std::uint64_t key = 0; key < 5; key++) CHECK(add(one, key) == true);
    CHECK(add(one, 5) == vbr::refusal::no_slot && one.stats(0).slots == 5 && one.shard(0).last_epoch() == vbr::max_epoch_for(5));
    has_just(one, 5);
    vbr::shape hurried{8, 1, 100};
    hurried.steps = vbr::steps{1};
    Sharded tired = Sharded::open(1, hurried, 1).value();
    CHECK(tired.has(5) == vbr::refusal::out_of_steps && add(tired, 5) == vbr::refusal::out_of_steps);
}

// Keys and values of other types.
static void typed() {
    enum class colour : unsigned char { red = 1, green = 2 };
    using shades = vbr::sharded_map<colour, float>;
    shades of = shades::open(3, vbr::shape_for_shards(8, 3, 1), 1).value();
    CHECK(of.insert(colour::green, 0.5f) == true && of.get(colour::green) == std::optional(0.5f) && of.has(colour::red) == false);
    CHECK(of.stats(of.shard_of(colour::green)).keys == 1 && of.for_each([](shades::item item) { CHECK(item.key == colour::green); }));
}

// How many buckets of a shard have a key, and how many keys one has at most, by the cursor of a walk: it is in the bucket of the key that was
// given, or after its last one before the next bucket.
template <class Sharded>
static std::pair<std::size_t, std::size_t> buckets_used(Sharded &of, std::size_t shard) {
    auto mine = of.shard(shard).lend_wait();
    std::vector<std::size_t> keys_in(mine->buckets());
    vbr::cursor from;
    while (mine->next(from).value()) keys_in[from.raw.bucket - (from.raw.from == 0)]++;
    std::pair<std::size_t, std::size_t> told{0, 0};
    for (std::size_t count : keys_in) told = {told.first + (count > 0), std::max(told.second, count)};
    return told;
}

// Keys get shards evenly, and each shard uses all its buckets: keys in sequence, multiples of a page, and random ones, by seeds of which none
// suits them badly. Of 25,000 keys that are put into 32,768 buckets at random about 17,500 have one, and 8 is a long list.
template <class Sharded>
static void routed() {
    constexpr std::size_t shards = 16, count = 400'000;
    constexpr double mean = static_cast<double>(count) / shards;
    std::mt19937_64 drawn(5);
    for (int pattern = 0; pattern < 3; pattern++)
        for (std::optional<std::uint64_t> seed : {std::optional<std::uint64_t>(), std::optional<std::uint64_t>(0), std::optional<std::uint64_t>(7)}) {
            if (!seed && pattern < 2) continue; // a drawn seed may suit a pattern badly
            vbr::shape shape = share;
            shape.seed = seed;
            Sharded of = Sharded::open(shards, shape, 1).value();
            for (std::uint64_t i = 0; i < count; i++) CHECK(add(of, pattern == 0 ? i : pattern == 1 ? i << 12 : drawn()) == true);
            double chi_square = 0;
            for (std::size_t i = 0; i < shards; i++) {
                const double off = static_cast<double>(of.stats(i).keys) - mean;
                chi_square += off * off / mean;
                const auto [used, longest] = buckets_used(of, i);
                CHECK(used > 15'000 && longest <= 12);
            }
            CHECK(chi_square < 100); // of 15 degrees of freedom: above that once in 10^14
        }
}

// Runs so many threads, each with its number.
template <class Call>
static void in_threads(std::size_t count, const Call &call) {
    std::vector<std::thread> threads;
    for (std::size_t i = 0; i < count; i++) threads.emplace_back([&call, i] { call(i); });
    for (std::thread &thread : threads) thread.join();
}

// Four threads add the keys below a number, each of which two threads try, while one walks. The shards grow from a few slots on; some keys are there
// all the while.
template <class Sharded>
static void grown(std::uint64_t count) {
    constexpr std::uint64_t resting = 100;
    Sharded of = Sharded::open(8, vbr::shape::for_keys(64, 4), 4, 1 << 20).value();
    for (std::uint64_t key = 0; key < resting; key++) CHECK(add(of, key) == true);
    std::atomic<std::uint64_t> added{resting};
    std::atomic<int> running{4};
    in_threads(5, [&](std::size_t thread) {
        if (thread == 4) {
            do {
                std::array<int, resting> given{};
                CHECK(of.for_each([&](const auto &item) {
                    if (key_of(item) < resting) given[key_of(item)]++;
                }));
                for (int times : given) CHECK(times == 1);
            } while (running > 0);
            return;
        }
        std::uint64_t mine = 0;
        for (std::uint64_t key = resting; key < count; key++)
            if (key % 4 == thread || key % 4 == (thread + 1) % 4) {
                mine += add(of, key).value();
                CHECK(of.has(key) == true && of.has(key % resting) == true);
            }
        added += mine;
        running--;
    });
    CHECK(added == count);
    has_just(of, count);
    for (std::size_t i = 0; i < of.shard_count(); i++) { // 320 slots and their doubles: each time one thread has doubled them, and no other one too
        const vbr::shard_stats stats = of.stats(i);
        CHECK(stats.slots >= stats.keys && stats.slots < 4 * stats.keys && of.shard(i).buckets() == stats.slots / 320 * 64);
    }
}

// Four threads fill a shard that may be doubled once: who is refused while another one doubles it is refused no more.
template <class Sharded>
static void doubled_once() {
    for (int round = 0; round < 300; round++) {
        Sharded of = Sharded::open(1, vbr::shape{8, 8, 100}, 4, 16).value();
        in_threads(4, [&](std::size_t thread) {
            for (std::uint64_t key = 0; key < 3; key++) CHECK(add(of, 4 * key + thread) == true);
        });
        has_just(of, 12);
    }
}

// Four threads change the values of a few keys, while the epochs of their shards are spent again and again: no change is lost.
static void counted() {
    constexpr std::uint64_t turns = 5'000, counters = 10;
    page_index of = page_index::open(4, vbr::shape{512, 16, 200}, 4).value();
    in_threads(4, [&](std::size_t) {
        for (std::uint64_t i = 0; i < turns * counters; i++) {
            const std::uint64_t key = i % counters;
            vbr::result<std::optional<std::uint64_t>> seen = of.get_or_insert(key, 0);
            for (bool is_done = false; !is_done;) {
                CHECK(seen.has_value());
                auto told = of.compare_exchange(key, seen->value_or(0), seen->value_or(0) + 1);
                CHECK(told.has_value());
                is_done = told->is_done, seen = told->found;
            }
        }
    });
    for (std::uint64_t key = 0; key < counters; key++) CHECK(of.get(key) == 4 * turns);
}

// A shard whose epoch is spent is renewed, and no other one; a walk of it is refused then, and one of another goes on.
template <class Sharded>
static void renewed_alone() {
    Sharded of = Sharded::open(2, vbr::shape{100, 16, 20}, 1).value();
    const std::uint64_t key = key_in(of, 0), other = key_in(of, 1);
    CHECK(add(of, key) == true && add(of, other) == true && add(of, key_in(of, 1, other + 1)) == true);
    std::array<vbr::cursor, 2> from;
    for (std::size_t i = 0; i < 2; i++) CHECK(of.shard(i).lend_wait()->next(from[i]).value());
    for (int i = 0; i < 1'000; i++) CHECK(took(of, key) && add(of, key) == true && of.stats(0).epoch <= 20);
    CHECK(of.shard(0).lend_wait()->next(from[0]) == vbr::refusal::reshaped && of.shard(1).lend_wait()->next(from[1]).value());
    CHECK(of.stats(0).slots == 100 && of.stats(0).keys == 1 && of.stats(1).keys == 2);
}

// While a shard waits for a loan to be renewed, calls on another one go on, and it grows.
template <class Sharded>
static void others_go_on() {
    Sharded of = Sharded::open(2, vbr::shape{1, 1, 100}, 2, 1'000).value();
    const std::uint64_t first = key_in(of, 0), second = key_in(of, 0, first + 1);
    CHECK(add(of, first) == true);
    std::atomic<bool> is_done{false};
    auto kept = of.shard(0).lend();
    std::thread waits([&] {
        CHECK(add(of, second) == true);
        is_done = true;
    });
    while (of.shard(0).lend()) std::this_thread::yield(); // until the renewal lends no more
    for (std::uint64_t i = 0, key = 0; i < 100; i++, key++) {
        key = key_in(of, 1, key);
        CHECK(add(of, key) == true && of.has(key) == true);
    }
    CHECK(of.stats(1).slots >= 100 && !is_done);
    kept = {};
    waits.join();
    CHECK(of.has(first) == true && of.has(second) == true && of.stats(0).slots == 2);
}

// The epoch of the statistics is one that was read then, and not what the handle had read before.
static void told_of_epochs() {
    visited of = visited::open(1, vbr::shape{100, 16, 100'000}, 2).value();
    auto first = of.shard(0).lend(), second = of.shard(0).lend();
    for (int i = 0; i < 1'000; i++) CHECK(*second->insert(5) && *second->remove(5));
    const std::uint64_t now = second->epoch();
    first = {}; // which has made no call, and is lent next
    CHECK(now > 1 && of.stats(0).epoch == now);
}

// Each of two threads inserts a key of its own, on a shard of its own, and looks for the other's: not both find nothing, since one of the two
// inserts takes effect first, and the look-up of the other thread begins after its own.
template <class Sharded>
static void ordered(bool is_careless) {
    constexpr std::size_t rounds = 20'000;
    Sharded of = Sharded::open(2, vbr::shape::for_keys(2 * rounds, 2), 2).value();
    std::vector<std::array<std::uint64_t, 2>> at(rounds);
    std::array<std::uint64_t, 2> next{0, 0};
    for (auto &pair : at)
        for (std::size_t i = 0; i < 2; i++) next[i] = (pair[i] = key_in(of, i, next[i])) + 1;
    std::vector<std::array<bool, 2>> found(rounds);
    std::array<std::atomic<std::size_t>, 2> begun{};
    in_threads(2, [&](std::size_t mine) {
        const std::size_t other = 1 - mine;
        int patience = 1'000; // a machine that is busy doesn't hold them up: what is checked holds also where they don't meet
        for (std::size_t round = 0; round < rounds; round++) {
            begun[mine] = round + 1;
            for (int turn = 0; begun[other] <= round && patience > 0; turn++)
                if (turn > 1'000) std::this_thread::yield(), patience--;
            if (!is_careless) CHECK(add(of, at[round][mine]) == true);
            found[round][mine] = of.has(at[round][other]).value();
            if (is_careless && round % 64 == 0) std::this_thread::yield(); // so that the other looks too, also where processors are few
            if (is_careless) CHECK(add(of, at[round][mine]) == true);
        }
    });
    for (const std::array<bool, 2> &pair : found) CHECK(pair[0] || pair[1]);
}

// An index of so many keys, whose shards begin with room for a fourth of them: each key is added once, and found with its value.
static void indexed(std::uint64_t count) {
    constexpr std::size_t shards = 16, threads = 4;
    const auto key_of_page = [](std::uint64_t page) { return page << 12; };
    const vbr::shape small = vbr::shape_for_shards(count / 4, shards, threads);
    page_index of = page_index::open(shards, small, threads, 8 * small.slots).value();
    std::atomic<std::uint64_t> added{0}, found{0};
    in_threads(threads, [&](std::size_t thread) {
        std::uint64_t mine = 0;
        for (std::uint64_t page = thread; page < count; page += threads) mine += of.insert(key_of_page(page), page).value();
        added += mine;
    });
    in_threads(threads, [&](std::size_t thread) {
        std::uint64_t mine = 0;
        for (std::uint64_t page = (thread + 1) % threads; page < count; page += threads) mine += of.get(key_of_page(page)) == page;
        found += mine;
    });
    std::uint64_t keys_in_all = 0, slots = 0, pages = 0, sum = 0;
    CHECK(of.for_each([&](page_index::item item) {
        CHECK(item.key == key_of_page(item.value));
        pages++, sum += item.value;
    }));
    for (std::size_t i = 0; i < shards; i++) {
        const vbr::shard_stats stats = of.stats(i);
        keys_in_all += static_cast<std::uint64_t>(stats.keys), slots += stats.slots;
        CHECK(stats.slots > small.slots);
    }
    CHECK(added == count && found == count && pages == count && sum == count * (count - 1) / 2 && keys_in_all == count);
    std::printf("an index of %llu keys in %zu shards with %llu slots, which grew\n", static_cast<unsigned long long>(count), shards,
                static_cast<unsigned long long>(slots));
}

template <class Sharded>
static void both() {
    rows<Sharded>(), routed<Sharded>(), renewed_alone<Sharded>(), others_go_on<Sharded>();
    grown<Sharded>(40'000), doubled_once<Sharded>();
}

int main(int count, char **words) {
    const std::string what = count > 1 ? words[1] : "";
    if (what == "order") {
        const bool is_careless = count > 2 && !std::strcmp(words[2], "careless");
        ordered<visited>(is_careless), ordered<page_index>(is_careless);
    } else if (what == "index") {
        indexed(count > 2 ? std::strtoull(words[2], nullptr, 10) : 400'000);
    } else {
        example(), typed(), told_of_epochs(), counted();
        both<visited>(), both<page_index>();
        ordered<visited>(false), ordered<page_index>(false);
        indexed(400'000);
    }
    std::puts("sharded sets and maps in C++: passed");
    return 0;
}

// The set in C++: the examples of vbr.hpp (bindings/headers sees that their lines are here), results, budgets, ranges of keys, walks,
// closes and ends; ends.cpp has more of these.
#include "vbr.hpp"

#include <cstdio>
#include <iterator>
#include <list>
#include <set>
#include <string>
#include <thread>
#include <type_traits>
#if __cplusplus >= 202002L
#include <algorithm>
#include <ranges>
#include <span>
#endif

#define CHECK(x) do { if (!(x)) { std::fprintf(stderr, "example.cpp:%d: %s\n", __LINE__, #x); return 1; } } while (0)

// What doesn't compile is seen by bindings/headers; here what a type doesn't do.
static_assert(!std::is_copy_constructible_v<vbr::handle> && !std::is_copy_assignable_v<vbr::handle>);
static_assert(std::is_nothrow_move_constructible_v<vbr::handle> && std::is_nothrow_move_assignable_v<vbr::handle>);
static_assert(!std::is_constructible_v<bool, vbr::result<bool>> && !std::is_constructible_v<bool, vbr::result<std::optional<vbr::report>>>);
static_assert(std::is_constructible_v<bool, vbr::result<std::vector<vbr::handle>>> && std::is_constructible_v<bool, vbr::result<void>>);
static_assert(!std::is_convertible_v<vbr::result<void>, bool> && !std::is_convertible_v<vbr::result<bool>, int>);
static_assert(!std::is_convertible_v<vbr::loan, bool>);
static_assert(!std::is_convertible_v<std::uint32_t, vbr::steps> && !std::is_convertible_v<vbr::steps, std::uint64_t>);
static_assert(vbr::shape::for_keys(1000, 2).slots == 1128 && vbr::shape::for_keys(1000, 2).buckets == 1024);
static_assert(vbr::shape::for_keys(0, 1).buckets == 1 && vbr::shape::for_keys(~0u, 1).slots == vbr::max_slots + 1);
static_assert(vbr::shape::for_keys(~0u, 1).buckets == vbr::max_buckets && vbr::shape::for_keys(1u << 25, 1).slots == (1u << 25) + 64);
static_assert(vbr::max_epoch_for(16777215) == vbr::max_epoch); // more slots leave room for less
static_assert(vbr::max_epoch_for(1) == UINT64_MAX >> 2 && vbr::max_epoch_for(1u << 24) == vbr::max_epoch / 2);
static_assert(vbr::max_epoch_for(vbr::max_slots) == UINT32_MAX && vbr::max_epoch_for(0) + vbr::max_epoch_for(vbr::max_slots + 1) == 0);

static int example() {
    std::vector<vbr::handle> handles = vbr::open(vbr::shape::for_keys(1024, 2), 2).value(); // or it throws vbr::refused
    bool added = handles[0].insert(5).value(); // true: 5 was absent
    bool there = false;
    std::thread([&] { there = handles[1].has(5).value(); }).join(); // true, from another thread too
    std::optional<vbr::report> first = handles[0].close().value();  // none: the other handle is open
    std::optional<vbr::report> last = handles[1].close().value();   // the report: last->keys is {5}
    CHECK(added && there && !first && last && last->keys == std::vector<std::uint64_t>{5});
    CHECK(handles[0].has(5) == vbr::refusal::no_handle && handles[1].close() == vbr::refusal::no_handle);
    return 0;
}

// A function that takes the pass of a handle, or of one on loan.
static bool added(vbr::pass &mine, std::uint64_t key) { return mine.insert(key).value(); }

// A call of each kind, as the comments of vbr.hpp have them.
static int calls() {
    constexpr vbr::shape shape{1024 + 2 * 64, 1024, vbr::max_epoch};
    const std::vector<std::uint64_t> want{2, 5};
    auto some = vbr::open_with(shape, 1, want.data(), want.size());
    std::vector<vbr::handle> handles = std::move(some).value();
    vbr::handle mine = std::move(handles[0]); // handles are moved, and never copied
    int count = 0, taken = 0, there = 0;
    if (!mine.is_open()) return 1; // it is empty: moved from, or closed
    if (mine.slots() != shape.slots || mine.buckets() != shape.buckets) return 1;
    if (mine.insert(6).value()) count++; // this call added 6
    if (*mine.has(6)) there++; // `*` is the same
    if (mine.remove(6).value()) taken++; // this call took 6 out
    std::uint32_t given = mine.give_slots_back(); // the other handles can have them now
    std::uint32_t reserved = mine.reserve(32); // for its inserts to come
    if (mine.insert(7).value()) count++;
    if (*mine.has(7)) there++; // 7 was there during the call
    const std::vector<std::uint64_t> wanted{5, 8, 7};
    std::vector<vbr::result<bool>> answers(3);
    CHECK(answers[0] == vbr::refusal::no_handle);
    mine.has_all(wanted.data(), wanted.size(), answers.data()); // answers[i] is that of wanted[i]
    CHECK((answers == std::vector<vbr::result<bool>>{true, false, true}));
    bool is_near = mine.epoch() + 1000 >= mine.last_epoch(); // then renew the set
    CHECK(count == 2 && taken == 1 && there == 2 && !is_near && given == 31 && reserved == 32);
    std::optional<vbr::report> told = mine.close().value(); // the report of the last one
    std::uint64_t sum = 0;
    for (std::uint64_t key : told->keys) sum += key;
    CHECK(sum == 2 + 5 + 7 && told->free == shape.slots - 3);
    return 0;
}

// What a result tells, and that nothing is undefined where there is no value.
static int results() {
    vbr::handle mine = std::move(vbr::open(vbr::shape::for_keys(8, 1), 1).value()[0]);
    int count = 0, absent = 0, tired = 0;
    vbr::result<bool> added = mine.insert_within(7, vbr::steps{5000});
    if (!added.has_value()) return 1; // added.error() says why
    if (*added) count++; // this call added 7
    CHECK(count == 1 && added == true && added != false && added.error() == vbr::refusal{} && added != vbr::refusal::no_slot);
    if (vbr::is_refusal(mine.insert(9))) return 1;
    if (mine.has(8) == false) absent++; // it was answered, and 8 is absent
    if (mine.has_within(8, vbr::steps{1}) == vbr::refusal::out_of_steps) tired++;
    CHECK(absent == 1 && tired == 1);
    const char *text = vbr::to_string(vbr::refusal::out_of_steps); // "out of steps"
    std::string why = vbr::to_string(mine.has_within(8, vbr::steps{1})); // "out of steps": one is too few
    CHECK(why == text && why == "out of steps" && std::string(vbr::to_string(mine.has(8))) == "not refused");
    bool there_or_refused = mine.has(6).value_or(true);
    CHECK(!there_or_refused && mine.has_within(6, vbr::steps{1}).value_or(true));
    vbr::refusal reason{};
    try {
        if (mine.has_within(6, vbr::steps{1}).value()) return 1;
    } catch (const vbr::refused &refused) {
        reason = refused.error();
        CHECK(refused.what() == std::string("out of steps"));
    }
    CHECK(reason == vbr::refusal::out_of_steps);
    int thrown = 0;
    const auto none = vbr::open(vbr::shape{}, 1);
    try {
        thrown += static_cast<int>(none->size()) + 1;
    } catch (const vbr::refused &refused) {
        CHECK(refused.error() == vbr::refusal::bad_shape);
        thrown++;
    }
    CHECK(thrown == 1 && !none && none == vbr::refusal::bad_shape);
    return 0;
}

// Each refusal has words of its own.
static int words() {
    std::set<std::string> all;
    for (int why = 0; why >= -13; why--) all.insert(vbr::to_string(static_cast<vbr::refusal>(why)));
    CHECK(all.size() == 14 && std::string(vbr::to_string(vbr::refusal::on_loan)) == "a handle is on loan");
    return 0;
}

// Budgets: the ample one, that of a shape, that of a handle, and that of a call; and one that is moved along, renewed and lent.
static int budgets() {
    static_assert(vbr::steps::ample() > vbr::steps{100000});
    static_assert(vbr::steps{5} == vbr::steps{5} && vbr::steps{5} != vbr::steps{6} && vbr::steps{5} < vbr::steps{6});
    static_assert(vbr::steps{6} >= vbr::steps{6} && vbr::steps{5} <= vbr::steps{6});
    vbr::handle mine = std::move(vbr::open(vbr::shape::for_keys(8, 1), 1).value()[0]);
    if (mine.steps() != vbr::steps::ample()) return 1; // it was given another
    std::uint32_t number = mine.steps().count();
    CHECK(number == 400000);
    mine.set_steps(vbr::steps{5000});
    CHECK(mine.steps() == vbr::steps{5000} && mine.insert(1) == true);
    mine.set_steps(vbr::steps{1});
    CHECK(mine.has(1) == vbr::refusal::out_of_steps && mine.has_within(1, vbr::steps{100}) == true);
    mine.set_steps(vbr::steps{0});
    CHECK(mine.has(1) == vbr::refusal::out_of_steps && mine.steps() == vbr::steps{1});
    CHECK(mine.has_within(1, vbr::steps{0}) == vbr::refusal::out_of_steps);
    vbr::shape hurried = vbr::shape::for_keys(1024, 2);
    hurried.steps = vbr::steps{5000};
    std::vector<vbr::handle> both = vbr::open(hurried, 2).value();
    CHECK(both[0].steps() == vbr::steps{5000} && both[1].steps() == vbr::steps{5000});
    both[1].set_steps(vbr::steps{70});
    CHECK(vbr::handle::renew_all(both, vbr::shape::for_keys(1024, 2)) && both[0].steps() == vbr::steps{5000});
    CHECK(both[1].steps() == vbr::steps{70}); // each keeps its own
    CHECK(vbr::handle::renew_all(both, hurried) && both[1].steps() == vbr::steps{5000});
    both[1].set_steps(vbr::steps{70});
    vbr::handle moved = std::move(both[1]);
    CHECK(moved.steps() == vbr::steps{70} && both[1].steps() == vbr::steps::ample());
    both[1] = std::move(moved);
    vbr::lender lender(std::move(both));
    {
        vbr::loan one = lender.lend(), other = lender.lend();
        CHECK(one->steps().count() + other->steps().count() == 5070 && added(*one, 5) && *other->has(5));
    }
    CHECK(lender.renew(hurried) && lender.lend()->steps() == vbr::steps{5000});
    return 0;
}

// Look-ups of many keys: more than a batch, none, and with a budget that is too small for all.
static int many_keys() {
    std::vector<vbr::handle> all = vbr::open(vbr::shape::for_keys(200, 1), 1).value();
    vbr::handle &mine = all[0];
    std::vector<std::uint64_t> keys;
    for (std::uint64_t key = 0; key < 200; key++) keys.push_back(key);
    for (std::uint64_t key = 1; key < 200; key += 2) CHECK(mine.insert(key) == true);
    std::vector<vbr::result<bool>> answers(200, vbr::refusal::mixed);
    mine.has_all(nullptr, 0, nullptr);
    mine.has_all(keys.data(), 199, answers.data());
    for (std::size_t i = 0; i < 199; i++) CHECK(answers[i] == (i % 2 == 1));
    CHECK(answers[199] == vbr::refusal::mixed);
    mine.has_all_within(keys.data(), 200, answers.data(), vbr::steps{10});
    for (const auto &told : answers) CHECK(told == vbr::refusal::out_of_steps);
    vbr::handle none;
    none.has_all(keys.data(), 200, answers.data());
    for (const auto &told : answers) CHECK(told == vbr::refusal::no_handle);
    return 0;
}

// As many handles as a set can have, moved from a vector of them.
static int the_most() {
    auto most = vbr::open(vbr::shape::for_keys(1024, vbr::max_few_handles), vbr::max_few_handles);
    CHECK(most && most->size() == 64);
    vbr::handle mine = std::move(most->at(0));
    most->clear();
    CHECK(mine.close().value());
    return 0;
}

// A thousand callers in threads, all at once, and one after another; and the numbers that are refused.
static int crowds() {
    static_assert(vbr::max_many_handles >= 1000);
    std::vector<vbr::handle> crowd = vbr::open_many(vbr::shape::for_keys(1024, 1000), 1000).value();
    CHECK(crowd.size() == 1000);
    std::vector<vbr::result<bool>> told(crowd.size());
    std::vector<std::thread> threads;
    for (std::size_t i = 0; i < told.size(); i++) threads.emplace_back([&, i] { told[i] = crowd[i].insert(i); });
    for (std::thread &each : threads) each.join();
    for (const auto &each : told) CHECK(each == true);
    vbr::report now = vbr::handle::report_all(crowd).value();
    CHECK(now.keys.size() == 1000 && now.keys.back() == 999);
    CHECK(vbr::handle::renew_all(crowd, vbr::shape::for_keys(2048, 1000)));
    for (std::size_t i = 0; i < told.size(); i++) CHECK(*crowd[i].has(999 - i));
    while (crowd.size() > 1) crowd.pop_back(); // which closes it
    CHECK(crowd[0].close().value()->keys.size() == 1000);
    const std::uint64_t some[] = {2, 5, 9};
    CHECK(*vbr::open_many(vbr::shape::for_keys(8, 65), 65, some, 3)->at(64).has(5));
    CHECK(vbr::open(vbr::shape::for_keys(8, 65), 65) == vbr::refusal::bad_count);
    CHECK(vbr::open_many(vbr::shape::for_keys(8, 1), 0) == vbr::refusal::bad_count);
    CHECK(vbr::open_many(vbr::shape::for_keys(8, 1), vbr::max_many_handles + 1) == vbr::refusal::bad_count);
    return 0;
}

static int refusals() {
    vbr::shape small{2, 1, 1};
    std::vector<vbr::handle> handles = vbr::open(small, 1).value();
    CHECK(handles.size() == 1);
    vbr::handle one = std::move(handles[0]);
    CHECK(one.is_open() && !handles[0].is_open());
    CHECK(one.epoch() == 1 && one.last_epoch() == 1 && one.slots() == 2 && one.buckets() == 1);
    CHECK(handles[0].epoch() == 0 && handles[0].slots() == 0);
    CHECK(one.insert(1) == true && one.insert(2) == true && one.insert(3) == vbr::refusal::no_slot);
    CHECK(one.remove(1) == true && one.insert(3) == vbr::refusal::epoch_spent && one.remove(1) == false);
    CHECK(vbr::open(vbr::shape{}, 1) == vbr::refusal::bad_shape);
    CHECK(vbr::open(small, 0) == vbr::refusal::bad_count && vbr::open(small, 65) == vbr::refusal::bad_count);
    CHECK(vbr::open_with(small, 1, {5, 5}) == vbr::refusal::bad_keys);
    std::vector<vbr::handle> both = vbr::open(vbr::shape{3, 1, vbr::max_epoch}, 2).value(); // one keeps the slots that the other wants
    vbr::handle &mine = both[0], &other = both[1];
    for (std::uint64_t key = 1; key < 4; key++) CHECK(*other.insert(key) && *other.remove(key));
    CHECK(other.reserve(3) == 2);
    vbr::result<bool> full = mine.insert(4);
    if (full.error() == vbr::refusal::no_slot) other.give_slots_back(); // the other handle may keep free ones
    CHECK(full == vbr::refusal::no_slot && mine.insert(4) == true);
    return 0;
}

// The report of a set that opens with a range of keys.
template <class Keys>
static std::vector<std::uint64_t> kept(const Keys &keys) {
    auto opened = vbr::open_with(vbr::shape::for_keys(8, 1), 1, keys);
    return opened->at(0).close().value()->keys;
}

static int ranges() {
    const std::vector<std::uint64_t> want{2, 5, 9};
    const std::uint64_t array[] = {2, 5, 9};
    CHECK(kept(want) == want && kept(array) == want && kept(std::set<std::uint64_t>{9, 2, 5}) == want);
    CHECK(kept(std::list<std::uint32_t>{2, 5, 9}) == want && kept(std::vector<std::uint64_t>{}).empty());
#if __cplusplus >= 202002L
    CHECK(kept(std::span(want)) == want && kept(std::span(array).first(0)).empty());
#endif
    auto few = vbr::open_with(vbr::shape::for_keys(8, 1), 1, {2, 5, 9});
    CHECK(few->at(0).close().value()->keys == want);
    return 0;
}

// A handle to a set of the keys 1 to 9 in four buckets. With seed 0 the bucket of a key is found by the part after the point of its
// product with 0.618034: below a quarter it is the first, and so on.
static vbr::handle opened_with_nine() {
    return std::move(vbr::open_with(vbr::shape{9 + 64, 4, vbr::max_epoch, 0}, 1, {1, 2, 3, 4, 5, 6, 7, 8, 9}).value()[0]);
}

static const std::vector<std::uint64_t> nine_by_bucket{2, 5, 4, 7, 1, 6, 9, 3, 8};

// All keys, and each bucket's in turn; from a cursor on; and with other calls of the handle in between.
static int walks() {
    vbr::handle mine = opened_with_nine();
    std::uint64_t sum = 0;
    for (std::uint64_t key : mine.keys()) sum += key;
    CHECK(sum == 45);
    vbr::cursor from; // before the first key
    CHECK(mine.next(from).value() == 2u && mine.next_within(from, vbr::steps{1000}) == 5u);
    for (std::uint64_t key : mine.keys(from))
        if (key == 7) break;
    CHECK(mine.next(from) == 1u);
    for (std::uint64_t key : mine.keys(from)) sum += key;
    CHECK(sum == 45 + 6 + 9 + 3 + 8 && mine.next(from) == std::nullopt);
    from = vbr::cursor();
    auto next = mine.next(from);
    while (next == vbr::refusal::out_of_steps) next = mine.next(from); // from where it came to
    if (*next) sum += **next;
    CHECK(sum == 45 + 26 + 2);
    while (std::optional<std::uint64_t> key = mine.next(from).value()) sum += *key;
    CHECK(sum == 45 + 26 + 45);
    for (std::uint64_t key : mine.keys_within(vbr::steps{1000})) CHECK(*mine.remove(key));
    CHECK(mine.close().value()->keys.empty());
    return 0;
}

// A walk is an input range: of each version of C++ that has them.
static int walked_by_iterators() {
    using iterator = decltype(std::declval<vbr::handle &>().keys().begin());
    static_assert(std::is_same_v<std::iterator_traits<iterator>::iterator_category, std::input_iterator_tag>);
    static_assert(std::is_same_v<std::iterator_traits<iterator>::value_type, std::uint64_t>);
    vbr::handle mine = opened_with_nine();
    std::uint64_t sum = 0;
    {
        auto walk = mine.keys();
        for (auto each = walk.begin(); each != walk.end(); ++each) sum += *each;
        CHECK(sum == 45 && walk.begin() == walk.end());
    }
    {
        auto walk = mine.keys();
        auto each = walk.begin(); // at the end already if there is no key
        auto before = each++;
        CHECK(*before == 2 && *each == 5 && *each.operator->().operator->() == 5 && *each++ == 5 && *each == 4 && before != walk.end());
    }
    auto walk = mine.keys();
    CHECK(std::vector<std::uint64_t>(walk.begin(), walk.end()) == nine_by_bucket);
#if __cplusplus >= 202002L
    static_assert(std::input_iterator<iterator> && std::ranges::input_range<decltype(walk)>);
    auto again = mine.keys();
    CHECK(std::ranges::equal(again, nine_by_bucket));
#endif
    return 0;
}

// The keys that a walk gives, and why it came to no end.
template <class Walk>
static vbr::refusal walked(Walk walk, std::vector<std::uint64_t> &given) {
    try {
        for (std::uint64_t key : walk) given.push_back(key);
    } catch (const vbr::refused &refused) {
        return refused.error();
    }
    return {};
}

// A range asks again while its cursor moves: eleven steps are enough for a key in a bucket of its own, among empty ones, and not
// for the second key of a bucket. Then it throws the refusal, and goes on from there with more.
static int refused_walks() {
    vbr::handle wide = std::move(vbr::open_with(vbr::shape{1 + 64, 4096, vbr::max_epoch, 0}, 1, {7}).value()[0]);
    vbr::cursor from;
    CHECK(wide.next_within(from, vbr::steps{11}) == vbr::refusal::out_of_steps);
    std::vector<std::uint64_t> given;
    CHECK(walked(wide.keys_within(vbr::steps{11}), given) == vbr::refusal{} && given == std::vector<std::uint64_t>{7});

    vbr::handle mine = opened_with_nine();
    from = vbr::cursor();
    given.clear();
    CHECK(walked(mine.keys_within(from, vbr::steps{11}), given) == vbr::refusal::out_of_steps && given == std::vector<std::uint64_t>{2});
    CHECK(walked(mine.keys_within(from, vbr::steps{100}), given) == vbr::refusal{} && given == nine_by_bucket);

    vbr::handle none;
    CHECK(walked(none.keys(), given) == vbr::refusal::no_handle && given == nine_by_bucket && none.next(from) == vbr::refusal::no_handle);
    return 0;
}

// Ends without a report: of all handles, of those that are left when others are closed, and of a lender.
static int ends_of_all() {
    std::vector<vbr::handle> handles = vbr::open(vbr::shape::for_keys(64, 3), 3).value();
    CHECK(*handles[1].insert(5) && !handles[1].close().value());
    vbr::handle::end_all(handles); // nobody wants to know what was in it
    CHECK(handles.empty());
    std::vector<vbr::handle> others = vbr::open(vbr::shape::for_keys(64, 2), 2).value();
    vbr::handle kept = std::move(others[1]);
    CHECK(*others[0].insert(6));
    vbr::handle::end_all(others);
    CHECK(kept.close().value()->keys == std::vector<std::uint64_t>{6}); // while one is kept nothing is lost
    return 0;
}

// Closes at the same time: one of them, and one alone, is the last.
static int closes_at_once() {
    for (int round = 0; round < 200; round++) {
        std::vector<vbr::handle> handles = vbr::open_with(vbr::shape::for_keys(8, 4), 4, {1, 2, 3}).value();
        std::atomic<int> reports{0}, others{0};
        std::vector<std::thread> threads;
        for (vbr::handle &each : handles)
            threads.emplace_back([&reports, &others, mine = std::move(each)]() mutable {
                std::optional<vbr::report> told = mine.close().value();
                if (told && told->keys.size() == 3) reports++;
                if (!told) others++;
            });
        for (std::thread &thread : threads) thread.join();
        CHECK(reports == 1 && others == 3);
    }
    return 0;
}

// A seed that is given, kept, drawn and returned, and the order of a walk, which follows from it.
static int seeds() {
    const std::vector<std::uint64_t> keys{1, 2, 3, 4, 5, 6, 7, 8, 9};
    auto order = [](vbr::handle &mine) {
        std::vector<std::uint64_t> given;
        for (std::uint64_t key : mine.keys()) given.push_back(key);
        return given;
    };
    vbr::shape seeded = vbr::shape::for_keys(1024, 2);
    seeded.seed = 7;
    std::vector<vbr::handle> handles = vbr::open_with(seeded, 2, keys).value();
    vbr::handle &mine = handles[1];
    CHECK(mine.seed() == 7 && handles[0].seed() == 7);
    vbr::shape again = vbr::shape::for_keys(1024, 1);
    again.seed = mine.seed(); // a shape whose sets have each key in the same bucket
    auto other = vbr::open_with(again, 1, keys);
    CHECK(order(other->at(0)) == order(mine) && order(mine).size() == 9);
    CHECK(vbr::handle::renew_all(handles, vbr::shape::for_keys(2048, 2)) && mine.seed() == 7); // it is kept
    seeded.seed = vbr::random_seed(); // a renewal by this shape has another seed
    CHECK(vbr::handle::renew_all(handles, seeded) && mine.seed() != 7 && order(mine).size() == 9);
    auto drawn = vbr::open(vbr::shape::for_keys(8, 1), 1), next = vbr::open(vbr::shape::for_keys(8, 1), 1);
    CHECK(drawn->at(0).seed() != next->at(0).seed());
    vbr::shape with_seed = vbr::shape::for_keys(8, 1);
    with_seed.seed = std::uint64_t{1} << 63;
    auto map = vbr::open_map_with(with_seed, 1, {{5, 50}});
    CHECK(map->at(0).seed() == 0 && vbr::map_handle::renew_all(*map, vbr::shape::for_keys(8, 1)) && map->at(0).seed() == 0);
    return 0;
}

// Balances, and all handles at once: their report, and their renewal.
static int all_handles() {
    std::vector<vbr::handle> both = vbr::open_with(vbr::shape{4, 1, 100}, 2, {2, 5}).value();
    CHECK(*both[1].insert(7) && *both[0].remove(2));
    std::int64_t keys = both[0].balance() + both[1].balance(); // no call is under way
    CHECK(keys == 2 && both[1].balance() == 1);
    std::uint64_t moved = both[0].advances() + both[1].advances(); // the epoch less 1
    CHECK(moved + 1 == both[0].epoch() && both[0].restarts() == 0 && both[1].helps() == 0 && both[0].free_about() < both[0].slots());
    vbr::report now = vbr::handle::report_all(both).value(); // now.keys is {5, 7}
    CHECK((now.keys == std::vector<std::uint64_t>{5, 7}));
    CHECK(vbr::handle::renew_all(both, {0, 1, 100}) == vbr::refusal::bad_shape);
    CHECK(vbr::handle::renew_all(both, {1, 1, 100}) == vbr::refusal::no_room && both[0].slots() == 4);
    vbr::result<void> renewed = vbr::handle::renew_all(both, vbr::shape::for_keys(4096, 2));
    if (!renewed) return 1; // renewed.error() says why
    CHECK(both[0].buckets() == 4096 && both[0].balance() == 2);
    std::vector<vbr::handle> other = vbr::open(vbr::shape::for_keys(8, 1), 1).value(), mixed(2), none;
    CHECK(vbr::handle::report_all(none) == vbr::refusal::missing && vbr::handle::report_all(mixed) == vbr::refusal::no_handle);
    mixed[0] = std::move(other[0]), mixed[1] = std::move(both[1]);
    CHECK(vbr::handle::report_all(mixed) == vbr::refusal::mixed && vbr::handle::report_all(both) == vbr::refusal::no_handle);
    both[1] = std::move(mixed[1]);
    CHECK(vbr::handle::report_all(both)->keys.size() == 2);
    CHECK(!both[0].close().value() && both[1].close().value()->keys.size() == 2);
    return 0;
}

// An insert whose budget is one step too small has taken the slot by then. Its handle gives it back, and the other one finds it.
static int spared() {
    constexpr vbr::shape one_slot{1, 1, 10};
    std::uint32_t enough = 0;
    for (bool added = false; !added; enough++) {
        std::vector<vbr::handle> fresh = vbr::open(one_slot, 2).value();
        added = fresh[0].insert_within(5, vbr::steps{enough + 1}) == true;
    }
    std::vector<vbr::handle> both = vbr::open(one_slot, 2).value();
    CHECK(both[0].insert_within(5, vbr::steps{enough - 1}) == vbr::refusal::out_of_steps);
    CHECK(both[1].insert(6) == vbr::refusal::no_slot);
    CHECK(both[0].give_slots_back() == 1 && both[0].give_slots_back() == 0);
    CHECK(both[1].insert(6) == true && both[0].insert(5) == vbr::refusal::no_slot);
    return 0;
}

static int slots_in_hand() {
    std::vector<vbr::handle> both = vbr::open(vbr::shape::for_keys(1024, 2), 2).value();
    vbr::handle &mine = both[0];
    int count = 0;
    vbr::held slot = mine.hold().value();
    std::uint32_t number = slot.number();
    CHECK(mine.insert(7) == vbr::refusal::held && both[1].insert(8) == true && mine.insert(std::move(slot), 8) == false);
    if (mine.insert(std::move(slot), 7).value()) count++; // 7 stands in this slot
    std::optional<vbr::incarnation> at = both[1].get_entry(7).value();
    CHECK(count == 1 && !slot.is_held() && at && at->slot() == number && both[1].is_still(*at) == true && !both[1].get_entry(9).value());
    std::vector<std::uint32_t> slots = vbr::handle::report_slots(both).value();
    CHECK(slots.size() == 2 && slots[0] == number);
    return 0;
}

// A key that was taken out and added anew has another entry.
static int entries() {
    vbr::handle mine = std::move(vbr::open_with(vbr::shape{1, 1}, 1, {7})->at(0));
    int taken_out = 0;
    std::optional<vbr::incarnation> before = mine.get_entry(7).value();
    CHECK(mine.remove(7) == true && mine.remove_entry(7, *before) == false && mine.insert(7) == true);
    CHECK(mine.remove_entry(7, *before) == false && mine.has(7) == true);
    std::optional<vbr::incarnation> at = mine.get_entry(7).value();
    CHECK(at->slot() == 0 && before->slot() == 0 && !(at == before));
    CHECK(mine.remove_entry_within(7, *at, vbr::steps{1}) == vbr::refusal::out_of_steps && mine.remove_entry(8, *at) == false);
    if (mine.remove_entry(7, *at).value()) taken_out++; // nobody had changed 7 since it was found
    CHECK(taken_out == 1 && mine.has(7) == false && mine.is_still(*at) == true);
    CHECK(mine.close().value()->keys.empty() && mine.remove_entry(7, *at) == vbr::refusal::no_handle);
    return 0;
}

// Each key of a walk, with where it stands: number i of those that a set opens with in slot i.
static int walks_tell_where() {
    vbr::handle mine = opened_with_nine();
    vbr::cursor from, short_of;
    CHECK(mine.next_at_within(short_of, vbr::steps{1}) == vbr::refusal::out_of_steps);
    for (std::uint64_t key : nine_by_bucket) {
        auto stands = mine.next_at(from).value(); // a key, and its incarnation
        CHECK(stands && stands->first == key && stands->second.slot() == key - 1 && mine.get_entry(key).value() == stands->second);
        vbr::held slot = mine.hold().value(); // while a slot is in hand, too
        CHECK(mine.remove_entry(key, stands->second) == true && mine.insert(key) == vbr::refusal::held);
    }
    CHECK(!mine.next_at(from).value() && mine.balance() == 0);
    vbr::handle none;
    CHECK(none.next_at(from) == vbr::refusal::no_handle);
    return 0;
}

int main() {
    if (example() || calls() || spared() || results() || words() || budgets() || all_handles() || many_keys() || the_most() || crowds()) return 1;
    if (refusals() || ranges() || walks() || walked_by_iterators() || refused_walks() || ends_of_all()) return 1;
    if (closes_at_once() || seeds() || slots_in_hand() || entries() || walks_tell_where()) return 1;
    std::puts("example in C++: passed");
    return 0;
}

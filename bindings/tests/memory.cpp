// Memory that vbr.hpp is refused: it throws std::bad_alloc, and all stays as it was; and the closes that need none ask for none.
// Memory that the library is refused while it opens a set, closes it, or renews it: all handles stay as they were, those of a lender too, which
// lends on. A set is closed by vbr_close_all. Threads that ask for the same renewal share one.
// Link with -Wl,--wrap=malloc,--wrap=realloc,--wrap=vbr_close,--wrap=vbr_map_close,--wrap=vbr_renew_all_seeded,--wrap=vbr_map_renew_all_seeded.
#include "vbr_sharded.hpp"

#include "asked_memory.hpp"
#include "client.hpp"

#include <new>
#include <thread>

static bool library_refuses = false; // what the library asks for
static long library_granted = -1;    // how many blocks it still gets, where that isn't below 0
static int closed_alone = 0;             // calls of vbr_close and vbr_map_close
static std::atomic<int> renewals_made{0}; // calls of vbr_renew_all_seeded and vbr_map_renew_all_seeded

extern "C" {
void *__real_malloc(std::size_t size);
void *__wrap_malloc(std::size_t size);
void *__real_realloc(void *block, std::size_t size);
void *__wrap_realloc(void *block, std::size_t size);
static bool is_refused() {
    if (library_granted <= 0) return library_refuses || library_granted == 0;
    library_granted--;
    return false;
}
void *__wrap_malloc(std::size_t size) { return is_refused() ? nullptr : __real_malloc(size); }
void *__wrap_realloc(void *block, std::size_t size) { return is_refused() ? nullptr : __real_realloc(block, size); }
vbr_answer __real_vbr_renew_all_seeded(vbr_handle *handles, std::size_t count, std::uint32_t slots, std::uint32_t buckets, std::uint64_t last_epoch, std::uint64_t seed);
vbr_answer __wrap_vbr_renew_all_seeded(vbr_handle *handles, std::size_t count, std::uint32_t slots, std::uint32_t buckets, std::uint64_t last_epoch, std::uint64_t seed);
vbr_answer __wrap_vbr_renew_all_seeded(vbr_handle *handles, std::size_t count, std::uint32_t slots, std::uint32_t buckets, std::uint64_t last_epoch, std::uint64_t seed) {
    renewals_made++;
    return __real_vbr_renew_all_seeded(handles, count, slots, buckets, last_epoch, seed);
}
vbr_answer __real_vbr_map_renew_all_seeded(vbr_map_handle *handles, std::size_t count, std::uint32_t slots, std::uint32_t buckets, std::uint64_t last_epoch, std::uint64_t seed);
vbr_answer __wrap_vbr_map_renew_all_seeded(vbr_map_handle *handles, std::size_t count, std::uint32_t slots, std::uint32_t buckets, std::uint64_t last_epoch, std::uint64_t seed);
vbr_answer __wrap_vbr_map_renew_all_seeded(vbr_map_handle *handles, std::size_t count, std::uint32_t slots, std::uint32_t buckets, std::uint64_t last_epoch, std::uint64_t seed) {
    renewals_made++;
    return __real_vbr_map_renew_all_seeded(handles, count, slots, buckets, last_epoch, seed);
}
vbr_answer __wrap_vbr_close(vbr_handle *handle, std::uint64_t *keys, std::size_t room, vbr_report *report);
vbr_answer __wrap_vbr_close(vbr_handle *, std::uint64_t *, std::size_t, vbr_report *) {
    closed_alone++;
    return VBR_LOST;
}
vbr_answer __wrap_vbr_map_close(vbr_map_handle *handle, vbr_entry *entries, std::size_t room, vbr_report *report);
vbr_answer __wrap_vbr_map_close(vbr_map_handle *, vbr_entry *, std::size_t, vbr_report *) {
    closed_alone++;
    return VBR_LOST;
}
}

// Whether a call throws where there is no memory.
template <class Call>
static bool throws(const Call &call) {
    refuses = true;
    bool thrown = false;
    try {
        call();
    } catch (const std::bad_alloc &) {
        thrown = true;
    }
    refuses = false;
    return thrown;
}

static void maps() {
    const vbr::shape shape = vbr::shape::for_keys(1000, 3);
    CHECK(throws([&] { static_cast<void>(vbr::open_map(shape, 3)); }));
    CHECK(throws([&] { static_cast<void>(vbr::open_map_with(shape, 3, {{5, 50}})); }));
    std::vector<vbr::map_handle> handles = vbr::open_map(shape, 3).value();
    CHECK(*handles[1].insert(5, 50));
    long before = asked;
    for (vbr::entry each : handles[0].entries()) CHECK(each.key == 5 && each.value == 50);
    CHECK(!handles[0].close().value());
    handles[1] = vbr::map_handle();
    CHECK(asked == before);
    CHECK(throws([&] { static_cast<void>(handles[2].close()); }));
    CHECK(handles[2].is_open() && handles[2].get(5) == 50u);
    library_refuses = true;
    auto refused = handles[2].close();
    library_refuses = false;
    CHECK(refused == vbr::refusal::no_memory && handles[2].is_open());
    CHECK(handles[2].get(5) == 50u && *handles[2].insert(6, 60));
    vbr::map_report last = handles[2].close().value().value();
    CHECK(last.entries.size() == 2 && last.entries.capacity() == 2);
    CHECK(last.entries[0].value == 50 && last.entries[1].value == 60 && last.free == shape.slots - 2);
}

// Closes of a set of another type of keys, whose report takes memory twice: where either part is refused the handle stays as it was.
static void typed() {
    const vbr::shape shape = vbr::shape::for_keys(1000, 1);
    auto handles = vbr::set<std::uint32_t>::open_with(shape, 1, {5, 7}).value();
    for (granted = 0; granted < 2;) {
        const long parts = granted;
        bool thrown = false;
        try {
            static_cast<void>(handles[0].close());
        } catch (const std::bad_alloc &) {
            thrown = true;
        }
        granted = -1;
        CHECK(thrown && handles[0].is_open() && *handles[0].has(7));
        granted = parts + 1;
    }
    granted = -1;
    long before = asked;
    vbr::set<std::uint32_t>::handle::end_all(handles); // which asks for none
    CHECK(asked == before && handles.empty());
}

static void sets() {
    const vbr::shape shape = vbr::shape::for_keys(1000, 3);
    CHECK(throws([&] { static_cast<void>(vbr::open(shape, 3)); }));
    std::vector<vbr::handle> handles = vbr::open(shape, 3).value();
    CHECK(*handles[1].insert(5));
    long before = asked;
    for (std::uint64_t key : handles[0].keys()) CHECK(key == 5);
    CHECK(!handles[0].close().value());
    handles[1] = vbr::handle();
    CHECK(asked == before);
    CHECK(throws([&] { static_cast<void>(handles[2].close()); }));
    CHECK(handles[2].is_open() && *handles[2].has(5) && *handles[2].insert(6));
    for (std::uint64_t key = 7; key < 9; key++) {
        library_refuses = true;
        auto refused = handles[2].close();
        library_refuses = false;
        CHECK(refused == vbr::refusal::no_memory && handles[2].is_open() && *handles[2].has(5) && *handles[2].insert(key));
    }
    vbr::report last = handles[2].close().value().value();
    CHECK(last.keys == (std::vector<std::uint64_t>{5, 6, 7, 8}) && last.keys.capacity() == 4 && last.free == shape.slots - 4);
    {
        auto others = vbr::open(shape, 3).value(); // a close that is refused, and then no other: the set goes with the last handle
        others.pop_back();
        vbr::handle kept = std::move(others[0]);
        others.clear();
        library_refuses = true;
        auto refused = kept.close();
        library_refuses = false;
        CHECK(refused == vbr::refusal::no_memory && kept.is_open());
    }
    {
        auto others = vbr::open_with(shape, 1, {5, 7}).value(); // memory for the report, and none to shorten it
        granted = 1;
        auto long_one = others[0].close();
        granted = -1;
        CHECK(long_one.value()->keys == (std::vector<std::uint64_t>{5, 7}) && (*long_one)->keys.capacity() == shape.slots);
    }
}

// An opening whose library is refused each allocation in turn, and all later ones, tells it; once none is refused it opens.
template <class Open>
static int opened(const Open &open) {
    for (long blocks = 0;; blocks++) {
        library_granted = blocks;
        auto handles = open();
        library_granted = -1;
        if (handles) {
            CHECK(blocks >= 4 && handles->size() == 3 && (*handles)[2].is_open());
            return 0;
        }
        CHECK(handles == vbr::refusal::no_memory && blocks < 1000);
    }
}

// A lender that is refused memory: it leaves the handles where they were, and when it is closed it goes on to lend all of them.
template <class Lender, class Handle, class Adds>
static void lent(std::vector<Handle> handles, const Adds &adds) {
    CHECK(throws([&] { Lender none(std::move(handles)); }));
    CHECK(handles.size() == 3 && handles[0].is_open() && handles[2].is_open());
    Lender lender(std::move(handles));
    for (std::uint64_t key = 5; key < 8; key++) {
        if (key == 7) {
            CHECK(throws([&] { static_cast<void>(lender.close()); }));
        } else {
            library_refuses = true;
            auto refused = lender.close();
            library_refuses = false;
            CHECK(refused == vbr::refusal::no_memory);
        }
        auto first = lender.lend(), second = lender.lend(), third = lender.lend();
        CHECK(first && second && third && !lender.lend() && lender.handles() == 3);
        CHECK(adds(*first, key) && *second->has(key) && *third->has(key));
    }
    CHECK(lender.close().value()->free == lender.slots() - 3 && !lender.lend());
}

// A lender that is refused each allocation of a renewal in turn lends on, over the set that it had; and once none is refused, over a
// fresh one. No renewal asks this program for memory.
template <class Lender, class Adds>
static void renewed(Lender lender, const Adds &adds) {
    const vbr::shape before{lender.slots(), lender.buckets(), lender.last_epoch()}, wanted = vbr::shape::for_keys(2000, 3);
    CHECK(adds(*lender.lend(), 5));
    long of_program = asked;
    for (long blocks = 0;; blocks++) {
        library_granted = blocks;
        vbr::result<void> told = blocks % 2 ? lender.renew(wanted) : lender.renew_for(wanted, std::chrono::hours(1));
        library_granted = -1;
        auto first = lender.lend(), second = lender.lend(), third = lender.lend();
        CHECK(first && second && third && !lender.lend() && *first->has(5));
        CHECK(lender.slots() == first->slots() && lender.buckets() == second->buckets() && lender.last_epoch() == third->last_epoch());
        if (told) {
            CHECK(blocks >= 4 && lender.slots() == wanted.slots && lender.buckets() == wanted.buckets && third->epoch() == 1);
            break;
        }
        CHECK(told == vbr::refusal::no_memory && blocks < 1000 && lender.slots() == before.slots && lender.buckets() == before.buckets);
    }
    CHECK(asked == of_program);
    CHECK(lender.close().value()->free == wanted.slots - 1);
}

// Three threads ask for the same shape while a loan is out: where all of them wait one renewal is made. A thread that comes late makes
// its own, so there are some turns.
template <class Lender>
static void shared_renewals(Lender lender) {
    const vbr::shape wanted = vbr::shape::for_keys(50, 3), other = vbr::shape::for_keys(60, 3);
    bool are_shared = false;
    for (int turn = 0; turn < 20 && !are_shared; turn++) {
        std::vector<std::thread> threads;
        std::atomic<int> begun{0}, done{0};
        auto kept = lender.lend();
        renewals_made = 0;
        for (int i = 0; i < 3; i++)
            threads.emplace_back([&] {
                begun++;
                done += lender.renew(wanted).has_value();
            });
        while (begun < 3 || lender.lend()) std::this_thread::yield();
        std::this_thread::sleep_for(std::chrono::milliseconds(20 * (turn + 1))); // so that all wait
        kept = {};
        for (std::thread &each : threads) each.join();
        CHECK(done == 3 && renewals_made > 0 && lender.slots() == wanted.slots);
        are_shared = renewals_made == 1;
    }
    CHECK(are_shared && lender.renew(other) && lender.slots() == other.slots);
}

// Shards that are refused memory: of an opening none is kept; and a shard that is to be doubled, or renewed, stays as it was, and the call says
// that there is none. With memory it goes on. No call asks this program for any.
template <class Sharded, class Adds, class Removes>
static void sharded(const Adds &adds, const Removes &removed) {
    const vbr::shape four{4, 4, 3}; // slots, and three epochs
    CHECK(throws([&] { static_cast<void>(Sharded::open(2, four, 3, 8)); }));
    for (long blocks = 0; library_granted == -1; blocks++) { // each block in turn, of both shards
        library_granted = blocks;
        auto opened = Sharded::open(2, four, 3, 8);
        if (!opened.has_value()) library_granted = -1;
        CHECK(opened.has_value() ? blocks >= 8 : opened == vbr::refusal::no_memory);
    }
    library_granted = -1;
    Sharded of = Sharded::open(2, four, 3, 8).value();
    std::vector<std::uint64_t> keys;
    for (std::uint64_t key = 0; keys.size() < 5; key++)
        if (of.shard_of(key) == 0) keys.push_back(key);
    const std::uint64_t fifth = keys.back();
    keys.pop_back();
    const auto is_as_it_was = [&](std::uint32_t slots) {
        for (std::uint64_t key : keys) CHECK(of.has(key) == true);
        CHECK(of.stats(0).slots == slots && of.stats(0).keys == static_cast<std::int64_t>(keys.size()) && of.shard(0).on_loan() == 0);
    };
    const long of_program = asked;
    for (std::uint64_t key : keys) CHECK(adds(of, key) == true);
    vbr::result<bool> told = vbr::refusal::no_memory;
    for (long blocks = 0; told == vbr::refusal::no_memory; blocks++) {
        is_as_it_was(4);
        library_granted = blocks;
        told = adds(of, fifth);
        library_granted = -1;
        CHECK(blocks < 1000);
    }
    CHECK(told == true);
    keys.push_back(fifth);
    is_as_it_was(8);
    library_refuses = true;
    for (int turn = 0; told == true; turn++) { // until the last epoch is spent
        CHECK(turn < 100 && removed(of, fifth));
        told = adds(of, fifth);
    }
    library_refuses = false;
    keys.pop_back();
    CHECK(told == vbr::refusal::no_memory);
    is_as_it_was(8);
    CHECK(adds(of, fifth) == true && asked == of_program);
}

// Three threads are refused a slot while a loan is out: once it is back the shard is doubled, once for all of them.
template <class Sharded, class Adds>
static void doubled_for_all(const Adds &adds) {
    for (int turn = 0; turn < 20; turn++) {
        Sharded of = Sharded::open(1, vbr::shape{4, 4, 100}, 4, 16).value();
        for (std::uint64_t key = 0; key < 4; key++) CHECK(adds(of, key) == true);
        auto kept = of.shard(0).lend();
        renewals_made = 0;
        std::vector<std::thread> threads;
        std::atomic<int> done{0};
        for (std::uint64_t key = 4; key < 7; key++) threads.emplace_back([&, key] { done += adds(of, key) == true; });
        while (of.shard(0).lend()) std::this_thread::yield();
        std::this_thread::sleep_for(std::chrono::milliseconds(1)); // so that others are refused too
        kept = {};
        for (std::thread &each : threads) each.join();
        CHECK(done == 3 && renewals_made == 1 && of.stats(0).slots == 8);
    }
}

static bool adds(vbr::pass &mine, std::uint64_t key) { return *mine.insert(key); }
static bool adds_entry(vbr::map_pass &mine, std::uint64_t key) { return *mine.insert(key, ~key); }

int main() {
    const vbr::shape shape = vbr::shape::for_keys(1000, 3);
    const auto set = [&] { return vbr::open(shape, 3).value(); };
    const auto map = [&] { return vbr::open_map(shape, 3).value(); };
    if (opened([&] { return vbr::open(shape, 3); }) || opened([&] { return vbr::open_with(shape, 3, {5, 7}); })) return 1;
    if (opened([&] { return vbr::open_map(shape, 3); }) || opened([&] { return vbr::open_map_with(shape, 3, {{5, 50}}); })) return 1;
    sets(), maps(), typed();
    renewed(vbr::lender(set()), adds), renewed(vbr::map_lender(map()), adds_entry);
    shared_renewals(vbr::lender(set())), shared_renewals(vbr::map_lender(map()));
    lent<vbr::lender>(set(), adds), lent<vbr::map_lender>(map(), adds_entry);
    using keys = vbr::sharded_set<>;
    using entries = vbr::sharded_map<>;
    const auto add_key = [](keys &to, std::uint64_t key) { return to.insert(key); };
    const auto add_entry = [](entries &to, std::uint64_t key) { return to.insert(key, ~key); };
    sharded<keys>(add_key, [](keys &from, std::uint64_t key) { return *from.remove(key); });
    sharded<entries>(add_entry, [](entries &from, std::uint64_t key) { return from.remove(key)->has_value(); });
    doubled_for_all<keys>(add_key), doubled_for_all<entries>(add_entry);
    CHECK(closed_alone == 0);
    std::puts("refused memory in C++: passed");
    return 0;
}

// The cache in C++: the examples of vbr_cache.hpp (bindings/headers sees that their lines are here), each call by rows that are worked by
// hand, times to live by a clock that the test sets, loaders, memory, hits beside those of an exact LRU, and threads.
//
//     caches [CALLS]
//
// Four threads get, load, put and remove keys of a cache that is renewed all the while, 200,000 times together, or as often as that number
// says. Each value has its key, the number of the change that made it, and a checksum. A value that is got was the newest of its key at
// some moment of the call. Link with -Wl,--wrap=malloc,--wrap=calloc,--wrap=realloc,--wrap=free.
#include "vbr_cache.hpp"

#include "client.hpp"

#include <algorithm>
#include <array>
#include <atomic>
#include <cmath>
#include <list>
#include <new>
#include <string>
#include <thread>
#include <unordered_map>
#include <vector>

using namespace std::chrono_literals;

// What the program asks of the heap: how many bytes it has, had at most, and how often it asked; and how many blocks it still gets.
static std::atomic<long> in_use{0}, peak{0}, asked{0}, granted{-1};

extern "C" {
void *__real_malloc(std::size_t size);
void *__wrap_malloc(std::size_t size);
void *__wrap_calloc(std::size_t count, std::size_t size);
void *__wrap_realloc(void *block, std::size_t size);
void __real_free(void *block);
void __wrap_free(void *block);
}

// A block keeps its size ahead of itself, and from where on it is to be freed.
struct block_head {
    void *begins;
    std::size_t size;
};

static void *give(std::size_t size, std::size_t alignment) {
    asked++;
    if (granted == 0) return nullptr;
    if (granted > 0) granted--;
    char *begins = static_cast<char *>(__real_malloc(size + alignment + sizeof(block_head)));
    if (!begins) return nullptr;
    const std::uintptr_t after_head = reinterpret_cast<std::uintptr_t>(begins) + sizeof(block_head);
    char *block = begins + sizeof(block_head) + (alignment - after_head % alignment) % alignment;
    const block_head head{begins, size};
    std::memcpy(block - sizeof head, &head, sizeof head);
    const long now = in_use += static_cast<long>(size);
    for (long most = peak; now > most && !peak.compare_exchange_weak(most, now);) {}
    return block;
}

static block_head head_of(void *block) {
    block_head head{};
    std::memcpy(&head, static_cast<char *>(block) - sizeof head, sizeof head);
    return head;
}

void *__wrap_malloc(std::size_t size) { return give(size, 16); }

void *__wrap_calloc(std::size_t count, std::size_t size) {
    void *block = give(count * size, 16);
    if (block) std::memset(block, 0, count * size);
    return block;
}

void __wrap_free(void *block) {
    if (!block) return;
    in_use -= static_cast<long>(head_of(block).size);
    __real_free(head_of(block).begins);
}

void *__wrap_realloc(void *block, std::size_t size) {
    void *other = give(size, 16);
    if (block && other) std::memcpy(other, block, std::min(size, head_of(block).size)), __wrap_free(block);
    return other;
}

[[gnu::noinline]] void *operator new(std::size_t size, std::align_val_t alignment) {
    void *block = give(size, std::max<std::size_t>(16, static_cast<std::size_t>(alignment)));
    if (!block) throw std::bad_alloc();
    return block;
}
[[gnu::noinline]] void *operator new(std::size_t size) { return operator new(size, std::align_val_t{16}); }
[[gnu::noinline]] void operator delete(void *block) noexcept { __wrap_free(block); }
[[gnu::noinline]] void operator delete(void *block, std::size_t) noexcept { __wrap_free(block); }
[[gnu::noinline]] void operator delete(void *block, std::align_val_t) noexcept { __wrap_free(block); }
[[gnu::noinline]] void operator delete(void *block, std::size_t, std::align_val_t) noexcept { __wrap_free(block); }

static std::atomic<long> nanoseconds{0}; // the time, by the clock of the test
static std::chrono::nanoseconds test_clock() { return std::chrono::nanoseconds(nanoseconds); }

struct user {
    std::uint64_t number, visits;
    friend bool operator==(const user &one, const user &other) { return one.number == other.number && one.visits == other.visits; }
};

using users = vbr::cache<vbr::small_string<31>, user>;
using numbers = vbr::cache<std::uint64_t, std::uint64_t>;

// Whether the last of three tries in a minute was refused.
static int refused_tries() {
    using visits = vbr::cache<std::uint64_t, int>;
    visits cache = visits::open_for(100, 1).value();
    visits::loan told = cache.lend_wait();
    int refused = 0;
    using to = visits::change;
    auto next_try = [](const std::optional<int> &tries) { // three in a minute
        if (tries == 3) return to::keep();
        return tries ? to::update(*tries + 1) : to::put_for(1, 60s);
    };
    for (int i = 0; i < 4; i++)
        if (told.compute(7, next_try).value() == 3) refused++;
    return refused;
}

static int example() {
    users::options how;
    how.time_to_live = 10min;
    how.clock = vbr::steady_time;
    users minutes = users::open_for(1000, 8, how).value();
    CHECK(minutes.capacity() == 1000 && minutes.lend_for(1ms).put(*users::key_type::from("ada"), {5, 1}).has_value());
    users cache = users::open_bytes(1 << 20, 8).value();          // in a mebibyte at most, for 8 threads at a time
    {
        users::loan mine = cache.lend_wait();                     // the right of this thread to make calls
        users::key_type who = users::key_type::from("ada").value();   // or refusal::too_long
        auto from_database = [] { return std::optional<user>(user{5, 0}); };
        std::optional<user> there = mine.get_or_load(who, from_database).value(); // none: the loader gave none
        std::optional<user> has = mine.get(who).value();
        CHECK(there == (user{5, 0}) && has == there);
        if (cache.bytes() > 1 << 20 || cache.capacity() < 1000 || cache.handles() != 8 || cache.on_loan() != 1) return 1;
    }
    users::loan mine = cache.lend_wait();
    users::key_type who = users::key_type::from("ada").value();   // or refusal::too_long
    auto from_database = [] { return std::optional<user>(user{5, 0}); };
    int there = 0, elsewhere = 0;
    std::uint64_t sum = 0;
    if (*mine.has(who)) there++;
    std::optional<user> before = mine.put(who, user{5, 1}).value(); // what who had
    std::optional<user> earlier = mine.put_for(who, user{5, 2}, 60s).value();
    bool added = mine.insert(who, user{5, 3}).value();
    std::optional<user> replaced = mine.replace(who, user{5, 4}).value();
    bool is_there = mine.touch(who, 10min).value();
    CHECK(there == 1 && before == (user{5, 0}) && earlier == (user{5, 1}) && !added && replaced == (user{5, 2}) && is_there);
    vbr::result<void> walked = mine.for_each([&](const users::key_type &, const user &each) { sum += each.visits; });
    std::optional<user> taken = mine.remove(who).value();
    CHECK(walked && sum == 4 && taken == (user{5, 4}));
    if (mine.try_get_or_load(who, from_database) == vbr::refusal::load_under_way) elsewhere++;
    vbr::result<void> in_vain = cache.renew_for(10ms); // refusal::on_loan: mine is out
    CHECK(elsewhere == 0 && in_vain == vbr::refusal::on_loan && *mine.has(who));
    vbr::result<void> cleared = mine.clear();
    CHECK(cleared && mine.has(who) == false);
    mine = users::loan();
    vbr::result<void> renewed = cache.renew();
    vbr::cache_statistics told = cache.statistics();
    users later; // lends none until it is assigned
    CHECK(renewed && !later.lend() && later.capacity() == 0 && later.renew() == vbr::refusal::no_handle);
    later = std::move(cache);
    CHECK(later.handles() == 8 && cache.handles() == 0);
    std::printf("%llu of %llu are hits\n", 0ull + told.hits, 0ull + told.hits + told.misses);
    CHECK(told.hits == 1 && told.misses == 2 && told.loads == 2 && told.evictions == 0 && told.length == 0);
    using pages = vbr::cache<std::uint64_t, vbr::small_bytes<4096>>;
    pages of_pages = pages::open_for(10, 1).value();
    CHECK(!of_pages.lend().put(5, *pages::value_type::from(std::string(4096, '\0'))).value());
    CHECK(of_pages.lend().get(5).value()->view() == std::string(4096, '\0') && pages::value_type::from(std::string(4097, 'x')) == vbr::refusal::too_long);
    static_assert(users::loan::most_attempts == 1000);
    CHECK(refused_tries() == 1);
    return 0;
}

struct point {
    std::int64_t x, y;
};

// Each call with each answer, of a cache whose keys are of this type.
template <class Key>
static void rows(const std::array<Key, 3> &keys) {
    using cache_of = vbr::cache<Key, int>;
    using found = std::optional<int>;
    using to = typename cache_of::change;
    const Key a = keys[0], b = keys[1], c = keys[2];
    cache_of cache = cache_of::open_for(8, 2).value();
    typename cache_of::loan mine = cache.lend(), other = cache.lend(), third = cache.lend();
    CHECK(mine && other && !third && third.get(a) == vbr::refusal::no_handle && third.put(a, 1) == vbr::refusal::no_handle && cache.on_loan() == 2);
    CHECK(mine.get(a) == found() && mine.has(a) == false && mine.remove(a) == found() && mine.replace(a, 1) == found() && mine.touch(a, 1s) == false);
    CHECK(mine.insert(a, 1) == true && other.insert(a, 2) == false && other.get(a) == found(1));
    CHECK(mine.put(b, 2) == found() && mine.put(b, 3) == found(2) && other.get(b) == found(3) && other.replace(b, 4) == found(3));
    CHECK(mine.compute(c, [](const found &) { return to::keep(); }) == found() && mine.compute(c, [](const found &) { return to::remove(); }) == found());
    CHECK(mine.compute(c, [](const found &) { return to::update(5); }) == found() && mine.get(c) == found(5));
    int times = 0;
    CHECK(mine.compute(c, [&](const found &there) {
        if (times++ == 0) CHECK(other.put(c, 6) == found(5)); // another is faster
        CHECK(there == (times == 1 ? 5 : 6));
        return to::put(*there + 10);
    }) == found(6) && times == 2 && mine.get(c) == found(16));
    CHECK(mine.compute(c, [&](const found &) {
        CHECK(mine.put(c, times++).has_value()); // by the same loan
        return times < 5 ? to::put(1) : to::remove();
    }) == vbr::refusal::out_of_steps && times == 2 + cache_of::loan::most_attempts);
    CHECK(mine.remove(c) == found(times - 1) && mine.has(c) == false);
    int met = 0, sum = 0;
    CHECK(mine.for_each([&](const Key &key, int value) {
        met++, sum += value;
        CHECK(mine.get(key) == found(value));
    }) && met == 2 && sum == 5);
    const vbr::cache_statistics told = cache.statistics();
    CHECK(told.length == 2 && told.evictions == 0 && told.expiries == 0);
    CHECK(mine.clear() && mine.get(a) == found() && cache.statistics().length == 0);
}

// A hash that all keys share: the key that comes later takes the place of the other.
struct one_hash {
    std::uint64_t operator()(const point &) const noexcept { return 7; }
};

static void keys_with_one_hash() {
    using cache_of = vbr::cache<point, int, one_hash>;
    using found = std::optional<int>;
    cache_of cache = cache_of::open_for(8, 1).value();
    cache_of::loan mine = cache.lend();
    const point a{1, 0}, b{2, 0};
    CHECK(mine.put(a, 1) == found() && mine.has(b) == false && mine.remove(b) == found() && mine.get(a) == found(1));
    CHECK(mine.put(b, 2) == found() && mine.get(a) == found() && mine.get(b) == found(2));
    CHECK(mine.insert(a, 3) == true && mine.get(a) == found(3) && cache.statistics().length == 1 && cache.statistics().evictions == 2);
}

// Of three entries the one that was got stays, and so do the new ones at first.
static void evictions() {
    numbers cache = numbers::open_for(3, 1).value();
    numbers::loan mine = cache.lend();
    for (std::uint64_t key = 0; key < 3; key++) CHECK(!mine.put(key, key).value());
    for (std::uint64_t key = 3; key < 100; key++) {
        CHECK(mine.get(0).value() == 0u);
        CHECK(!mine.put(key, key).value() && mine.has(key) == true && cache.statistics().length == 3);
    }
    CHECK(cache.statistics().evictions == 97);
    numbers one = numbers::open_for(1, 2).value(); // slots are more: only the count keeps it to one
    numbers::loan its = one.lend();
    for (std::uint64_t key = 0; key < 100; key++) CHECK(!its.put(key, key).value() && one.statistics().length == 1);
}

// A walk over more empty buckets than a budget is enough for.
static void large_and_empty() {
    numbers cache = numbers::open_for(200000, 1).value();
    numbers::loan mine = cache.lend();
    CHECK(!mine.put(5, 50).value() && mine.clear() && mine.has(5) == false && cache.statistics().length == 0);
}

static void times_to_live() {
    using found = std::optional<std::uint64_t>;
    numbers::options how;
    how.clock = test_clock;
    how.time_to_live = 10ns;
    nanoseconds = 100;
    numbers cache = numbers::open_for(4, 1, how).value();
    numbers::loan mine = cache.lend();
    CHECK(!mine.put(1, 10).value() && !mine.put_for(2, 20, 30ns).value() && !mine.put_for(3, 30, 0ns).value());
    CHECK(mine.get(3) == found() && cache.statistics().length == 2 && cache.statistics().expiries == 1); // it was taken out
    nanoseconds = 109;
    CHECK(mine.get(1) == found(10) && mine.get(2) == found(20));
    CHECK(mine.compute(1, [](const found &there) { return numbers::change::update(*there + 1); }) == found(10)); // its time stays
    nanoseconds = 110;
    CHECK(mine.has(1) == false && mine.touch(1, 10ns) == false && mine.replace(1, 12) == found() && mine.remove(1) == found());
    CHECK(mine.insert(1, 13) == true && cache.statistics().expiries == 2 && cache.statistics().length == 2);
    nanoseconds = 119;
    CHECK(mine.touch(1, 100ns) == true && mine.get(2) == found(20));
    nanoseconds = 130;
    int met = 0;
    CHECK(mine.for_each([&](std::uint64_t key, std::uint64_t value) { met += key == 1 && value == 13 ? 1 : 100; }) && met == 1);
    CHECK(mine.get(2) == found() && mine.put(1, 14) == found(13) && cache.statistics().expiries == 3); // ten from here on
    nanoseconds = 140;
    CHECK(mine.get(1) == found());
    CHECK(!mine.put_for(5, 50, std::chrono::nanoseconds::max()).value());
    nanoseconds = 1000000000;
    CHECK(mine.get(5) == found(50));
    // the hand takes what has expired, used or not, and leaves what hasn't
    for (std::uint64_t key = 10; key < 13; key++) CHECK(!mine.put(key, key).value() && mine.get(key) == found(key));
    nanoseconds = 1000000010;
    CHECK(mine.get(5) == found(50) && cache.statistics().length == 4);
    const std::uint64_t expired = cache.statistics().expiries;
    for (std::uint64_t key = 20; key < 23; key++) CHECK(!mine.put_for(key, key, 1h).value());
    CHECK(cache.statistics().expiries == expired + 3 && cache.statistics().evictions == 0 && mine.get(5) == found(50) && mine.get(20) == found(20));
}

// Loaders

// A loader of a key that is there, or is being loaded.
static std::optional<std::uint64_t> unwanted() {
    CHECK(std::string("it is run").empty());
    return std::nullopt;
}

static void loaders_alone() {
    using found = std::optional<std::uint64_t>;
    numbers cache = numbers::open_for(8, 2).value();
    numbers::loan mine = cache.lend();
    CHECK(mine.get_or_load(1, [] { return found(); }) == found() && mine.has(1) == false); // it failed
    bool thrown = false;
    try {
        static_cast<void>(mine.get_or_load(1, []() -> found { throw 7; }));
    } catch (int what) {
        thrown = what == 7;
    }
    CHECK(thrown && mine.has(1) == false && mine.get_or_load(1, [] { return 10u; }) == found(10) && mine.get(1) == found(10));
    CHECK(mine.get_or_load(1, unwanted) == found(10));
    CHECK(cache.statistics().loads == 3 && cache.statistics().hits == 2 && cache.statistics().misses == 3);
    // calls by the same loan, also of the key that is being loaded
    CHECK(mine.get_or_load(2, [&] {
        CHECK(cache.on_loan() == 0 && mine.get(1) == found(10) && mine.get_or_load(3, [] { return 30u; }) == found(30));
        CHECK(mine.get_or_load(2, [] { return 21u; }) == vbr::refusal::load_under_way);
        return 20u;
    }) == found(20) && mine.get(2) == found(20) && mine.get(3) == found(30));
    // what is put meanwhile stays, and what is taken out doesn't come back
    const auto loaded_while = [&](std::uint64_t key, std::uint64_t value, auto &&changes) {
        return mine.get_or_load(key, [&] {
            CHECK(changes());
            return value;
        });
    };
    CHECK(loaded_while(4, 40, [&] { return !mine.put(4, 41).value(); }) == found(40) && mine.get(4) == found(41));
    CHECK(loaded_while(5, 50, [&] { return !mine.remove(5).value(); }) == found(50) && mine.get(5) == found());
    CHECK(loaded_while(5, 51, [&] { return mine.clear().has_value(); }) == found(51) && mine.get(5) == found());
    CHECK(loaded_while(5, 52, [&] { return !mine.remove(6).value(); }) == found(52) && mine.get(5) == found(52)); // another key changed
}

// Threads miss one key at a time: those that wait, once all of them have begun.
static void loaders_of_threads(int failures) {
    constexpr int THREADS = 6;
    numbers cache = numbers::open_for(8, 2).value(); // there are fewer handles than threads, and nobody keeps one while it waits
    std::atomic<int> begun{0}, runs{0}, failed{0};
    std::atomic<bool> is_under_way{false}, has_asked{false};
    const auto end = std::chrono::steady_clock::now() + 10min; // of what hangs
    std::vector<std::thread> threads;
    for (int i = 0; i < THREADS; i++)
        threads.emplace_back([&] {
            auto loads = [&]() -> std::optional<std::uint64_t> {
                is_under_way = true;
                while ((begun < THREADS || !has_asked) && std::chrono::steady_clock::now() < end) std::this_thread::yield();
                std::this_thread::sleep_for(20ms); // so that the others wait
                const int run = ++runs;
                if (run > failures) return 70;
                if (run % 2) throw run;
                return std::nullopt;
            };
            begun++;
            try {
                const std::optional<std::uint64_t> got = cache.lend_wait().get_or_load(5, loads).value();
                CHECK(!got || *got == 70);
                if (!got) failed++;
            } catch (int) {
                failed++;
            }
        });
    while (!is_under_way) std::this_thread::yield();
    CHECK(cache.lend_wait().try_get_or_load(5, unwanted) == vbr::refusal::load_under_way);
    has_asked = true;
    for (std::thread &each : threads) each.join();
    CHECK(failed == failures && runs == failures + 1 && cache.statistics().loads == static_cast<std::uint64_t>(runs) && cache.on_loan() == 0);
    CHECK(cache.lend().get(5) == std::optional<std::uint64_t>(70));
}

// Renewals

static void renewals() {
    using found = std::optional<std::uint64_t>;
    numbers::options how;
    how.last_epoch = 20;
    numbers cache = numbers::open_for(100, 2, how).value();
    numbers::loan mine = cache.lend(), idle = cache.lend();
    std::thread other([&, mine = std::move(idle)]() mutable { // it keeps its loan, and makes calls
        for (std::uint64_t key = 0; key < 20000; key++) CHECK(mine.put(key % 50, key).has_value());
    });
    for (std::uint64_t key = 0; key < 20000; key++) CHECK(mine.put(1000 + key % 40, key).has_value() && mine.get(1000 + key % 40) == found(key));
    for (std::uint64_t key = 0; key < 40; key++) CHECK(mine.has(1000 + key) == true);
    mine = numbers::loan();
    other.join();
    CHECK(cache.statistics().length == 90 && cache.statistics().evictions == 0);
    // by the program
    how.is_renewed_by_program = true;
    numbers by_program = numbers::open_for(100, 1, how).value();
    std::uint64_t spent_at = 0;
    for (vbr::result<std::optional<std::uint64_t>> told = found(); told != vbr::refusal::epoch_spent; spent_at++) told = by_program.lend().put(spent_at % 90, spent_at);
    CHECK(spent_at > 20 && by_program.lend().get((spent_at - 2) % 90) == found(spent_at - 2)); // the last one was refused
    CHECK(by_program.renew());
    numbers::loan its = by_program.lend();
    CHECK(its.get((spent_at - 2) % 90) == found(spent_at - 2) && its.put(7, 70).has_value());
}

// After a renewal the next one comes at the same epoch, so after about as many puts of keys that are there; an epoch has 18 of them.
static void renewals_at_one_epoch() {
    numbers::options how;
    how.last_epoch = 8;
    numbers cache = numbers::open_for(100, 1, how).value();
    numbers::loan mine = cache.lend();
    std::uint64_t key = 0;
    const auto puts = [&] { // until it is renewed, which takes memory, as nothing else does
        const std::uint64_t first = key;
        for (const long before = asked; asked == before; key++) CHECK(mine.put(key % 100, key).has_value());
        return static_cast<long>(key - first);
    };
    static_cast<void>(puts()); // of keys that aren't there yet, too
    const long as_many = puts();
    for (int i = 0; i < 4; i++) CHECK(std::abs(puts() - as_many) < 9);
}

// Memory

template <class Value>
static void takes_at_most(std::size_t bytes, std::size_t handles) {
    using cache_of = vbr::cache<std::uint64_t, Value>;
    typename cache_of::options how;
    how.last_epoch = 64;
    const long before = in_use;
    peak = before;
    {
        cache_of cache = cache_of::open_bytes(bytes, handles, how).value();
        CHECK(cache.bytes() <= bytes);
        CHECK(peak - before <= static_cast<long>(bytes));
        const long at_rest = asked;
        typename cache_of::loan mine = cache.lend();
        const std::uint64_t some = 20000 + 2ull * cache.capacity();
        for (std::uint64_t key = 0; key < cache.capacity() || (asked == at_rest && key < some); key++) CHECK(mine.put(key, Value{}).has_value());
        CHECK(asked > at_rest); // it was renewed
        mine = typename cache_of::loan();
        CHECK(cache.renew() && cache.statistics().length == cache.capacity());
        const long most = peak - before;
        CHECK(most <= static_cast<long>(bytes) && (bytes < 1000000 || most > static_cast<long>(bytes / 2)));
    }
    CHECK(in_use == before);
}

static void memory() {
    {
        users cache = users::open_bytes(1 << 20, 8).value();
        CHECK(cache.bytes() <= 1 << 20 && users::open_for(cache.capacity() + 1, 8).value().bytes() > 1 << 20);
    }
    CHECK(numbers::open_bytes(1000, 1) == vbr::refusal::too_few_bytes && numbers::open_bytes(0, 1) == vbr::refusal::too_few_bytes);
    CHECK(numbers::open_for(0, 1) == vbr::refusal::bad_shape && numbers::open_for(vbr::max_slots, 1) == vbr::refusal::bad_shape);
    CHECK(numbers::open_for(8, 0) == vbr::refusal::bad_count && numbers::open_for(8, vbr::max_many_handles + 1) == vbr::refusal::bad_count);
    for (std::size_t handles : {1u, 4u, 64u}) {
        if (handles < 64) takes_at_most<std::uint64_t>(1u << 20, handles);
        takes_at_most<std::uint64_t>(10u << 20, handles);
        takes_at_most<std::array<char, 1000>>(10u << 20, handles);
    }
    takes_at_most<std::uint64_t>(40000, 1);
    takes_at_most<vbr::small_bytes<60000>>(64 << 20, 2);
    // each block of an opening that is refused, in turn: nothing is lost
    int refused = 0;
    for (long blocks = 0; refused == blocks; blocks++) {
        const long before = in_use;
        granted = blocks;
        try {
            if (numbers::open_for(100, 2) == vbr::refusal::no_memory) refused++;
        } catch (const std::bad_alloc &) {
            refused++;
        }
        granted = -1;
        CHECK(in_use == before);
    }
    CHECK(refused > 5);
    // and each of a renewal that a call wants: all stays, and the call is refused once the epoch is spent
    numbers::options how;
    how.last_epoch = 8;
    numbers cache = numbers::open_for(100, 1, how).value();
    numbers::loan mine = cache.lend();
    int by_name = 0;
    std::uint64_t key = 0;
    for (long blocks = 0; blocks < 6; blocks++) {
        granted = blocks;
        vbr::result<std::optional<std::uint64_t>> told = mine.put(key % 100, key);
        for (int i = 0; i < 10000 && told.has_value(); i++, granted = blocks) key++, told = mine.put(key % 100, key);
        if (told == vbr::refusal::no_memory) by_name++;
        CHECK(told.has_value() || (told == vbr::refusal::no_memory && key > 0 && mine.get((key - 1) % 100) == std::optional<std::uint64_t>(key - 1)));
        granted = -1;
    }
    CHECK(by_name >= 3);
    // calls take none
    numbers quiet = numbers::open_for(100, 1).value();
    numbers::loan its = quiet.lend();
    const long before = asked;
    for (std::uint64_t i = 0; i < 1000; i++) CHECK(its.put(i, i).has_value() && its.get_or_load(i + 5000, [&] { return i; }).has_value() && its.remove(i).has_value());
    CHECK(its.for_each([](std::uint64_t, std::uint64_t) {}) && its.clear() && asked == before);
}

// Hits

// How many of these keys are hits of an exact LRU.
static double hits_of_lru(const std::vector<std::uint64_t> &keys, std::size_t capacity) {
    std::list<std::uint64_t> used;
    std::unordered_map<std::uint64_t, std::list<std::uint64_t>::iterator> where;
    double hits = 0;
    for (std::uint64_t key : keys) {
        if (auto it = where.find(key); it != where.end()) {
            used.splice(used.begin(), used, it->second);
            hits++;
            continue;
        }
        if (used.size() == capacity) where.erase(used.back()), used.pop_back();
        used.push_front(key);
        where[key] = used.begin();
    }
    return 100 * hits / static_cast<double>(keys.size());
}

static double hits_of_cache(const std::vector<std::uint64_t> &keys, std::uint32_t capacity, std::size_t threads) {
    numbers cache = numbers::open_for(capacity, threads).value();
    std::vector<std::thread> all;
    for (std::size_t thread = 0; thread < threads; thread++)
        all.emplace_back([&, thread] {
            numbers::loan mine = cache.lend_wait();
            for (std::size_t i = thread; i < keys.size(); i += threads) {
                const std::optional<std::uint64_t> there = mine.get(keys[i]).value();
                CHECK(!there || *there == keys[i]);
                if (!there) CHECK(mine.put(keys[i], keys[i]).has_value());
            }
        });
    for (std::thread &each : all) each.join();
    const vbr::cache_statistics told = cache.statistics();
    CHECK(told.hits + told.misses == keys.size() && told.length <= capacity);
    return 100 * static_cast<double>(told.hits) / static_cast<double>(keys.size());
}

static std::uint64_t next_random(std::uint64_t &random) {
    random ^= random << 13, random ^= random >> 7, random ^= random << 17;
    return random;
}

// Keys below 20,000, of which number k comes in proportion to k to the power of -s; with a scan there is also a run of 4,000 new ones in each 20,000.
static std::vector<std::uint64_t> keys_by(double s, bool scans) {
    constexpr std::size_t KEYS = 20000, REQUESTS = 400000;
    std::vector<double> below;
    double sum = 0;
    for (std::size_t k = 1; k <= KEYS; k++) below.push_back(sum += std::pow(static_cast<double>(k), -s));
    std::vector<std::uint64_t> keys;
    std::uint64_t random = 88172645463325252u;
    for (std::size_t i = 0; i < REQUESTS; i++) {
        const double at = static_cast<double>(next_random(random) >> 11) / 9007199254740992.0 * sum;
        const auto k = static_cast<std::uint64_t>(std::lower_bound(below.begin(), below.end(), at) - below.begin());
        keys.push_back(scans && i % 20000 < 4000 ? 1000000 + i : k * 0x9E3779B97F4A7C15u);
    }
    return keys;
}

// Of 100 requests at most half a hit fewer than an exact LRU has, and at most six more; and with four threads three more or fewer.
static void hits() {
    const struct { const char *what; double s; bool scans; } loads[] = {{"Zipf 0.7", 0.7, false}, {"Zipf 0.99", 0.99, false}, {"Zipf 0.99 with scans", 0.99, true}};
    for (const auto &each : loads) {
        const std::vector<std::uint64_t> keys = keys_by(each.s, each.scans);
        const double lru = hits_of_lru(keys, 2000), one = hits_of_cache(keys, 2000, 1), four = hits_of_cache(keys, 2000, 4);
        std::printf("%s: of 100 requests %.2f are hits of an exact LRU, %.2f of the cache, %.2f with four threads\n", each.what, lru, one, four);
        CHECK(one >= lru - 0.5 && one <= lru + 6 && std::abs(four - one) <= 3);
    }
}

// Threads

constexpr std::size_t THREADS = 4;
constexpr std::uint32_t KEYS = 64; // some more than there is room for

// 100 bytes that are of one key and one change of it.
struct checked {
    std::uint32_t key, change;
    std::array<std::uint32_t, 22> filled;
    std::uint32_t checksum;

    static checked of(std::uint32_t key, std::uint32_t change) {
        checked made{};
        made.key = key, made.change = change;
        for (std::uint32_t i = 0; i < made.filled.size(); i++) made.filled[i] = change * 31 + i;
        made.checksum = made.checksum_of_it();
        return made;
    }
    std::uint32_t checksum_of_it() const {
        std::uint32_t sum = (key + 1) * 0x9E3779B9u + change;
        for (std::uint32_t word : filled) sum = sum * 31 + word;
        return sum;
    }
};

template <class Key>
class shared_keys {
public:
    using cache_of = vbr::cache<Key, checked>;
    using found = std::optional<checked>;

    explicit shared_keys(const typename cache_of::options &how) : cache(cache_of::open_for(KEYS - 16, THREADS, how).value()) {}

    void work(std::size_t thread, long calls) {
        std::uint64_t random = 88172645463325252u + thread;
        typename cache_of::loan mine = cache.lend_wait();
        for (long i = 0; i < calls; i++) {
            const std::uint64_t picked = next_random(random);
            const auto any = static_cast<std::uint32_t>((picked >> 40) % KEYS);
            const auto own = static_cast<std::uint32_t>((picked >> 40) % (KEYS / THREADS) * THREADS + thread);
            switch (picked >> 16 & 7) {
            case 0: change_own(mine, own, picked >> 20 & 3); break;
            case 1: case 2: look(mine, any, true); break;
            case 3: if ((picked >> 20 & 63) == 0) mine = typename cache_of::loan(), mine = cache.lend_wait(); [[fallthrough]];
            default: look(mine, any, false);
            }
        }
    }

    void check_at_rest() {
        typename cache_of::loan mine = cache.lend();
        std::this_thread::sleep_for(1ms);
        for (std::uint32_t key = 0; key < KEYS; key++) CHECK(mine.get(key_of(key)).has_value()); // what has expired goes
        std::array<int, KEYS> met{};
        std::uint64_t length = 0;
        CHECK(mine.for_each([&](const Key &key, const checked &value) {
            length++;
            CHECK(key == key_of(value.key) && met[value.key]++ == 0);
            check(value, value.key, done[value.key]);
        }));
        const vbr::cache_statistics told = cache.statistics();
        CHECK(length == told.length && length > 0 && length <= cache.capacity() && told.evictions > 0 && told.loads > 0 && told.hits > 0);
    }

    cache_of cache;

private:
    static Key key_of(std::uint32_t number) {
        if constexpr (std::is_same_v<Key, std::uint32_t>) return number;
        else return Key::from("the key of number " + std::to_string(number)).value();
    }

    void check(const checked &value, std::uint32_t key, std::uint32_t least) const {
        CHECK(value.checksum == value.checksum_of_it() && value.key == key); // or it is torn, or another key's
        CHECK(value.change >= least && value.change <= begun[key]);          // or it is stale
    }

    // A key is changed by one thread, which writes down how far it has come.
    void change_own(typename cache_of::loan &mine, std::uint32_t key, std::uint64_t way) {
        const std::uint32_t next = ++begun[key];
        const checked value = checked::of(key, next);
        using to = typename cache_of::change;
        found before;
        if (way == 0) before = mine.put(key_of(key), value).value();
        else if (way == 1) before = mine.remove(key_of(key)).value();
        else if (way == 2) before = mine.put_for(key_of(key), value, 20us).value();
        else before = mine.compute(key_of(key), [&](const found &there) { return there ? to::update(value) : to::remove(); }).value();
        if (before) check(*before, key, next - 1); // by a load it may be newer than the last change
        done[key] = next;
    }

    void look(typename cache_of::loan &mine, std::uint32_t key, bool loads) {
        const std::uint32_t least = done[key];
        auto load = [&]() -> found {
            if ((least & 15) == 15) return std::nullopt;
            return checked::of(key, begun[key]);
        };
        const found there = loads ? mine.get_or_load(key_of(key), load).value() : mine.get(key_of(key)).value();
        if (there) check(*there, key, least);
    }

    std::array<std::atomic<std::uint32_t>, KEYS> begun{}, done{};
};

template <class Key>
static void by_threads(long calls) {
    typename shared_keys<Key>::cache_of::options how;
    how.last_epoch = 200;
    shared_keys<Key> keys(how);
    std::vector<std::thread> threads;
    for (std::size_t i = 0; i < THREADS; i++) threads.emplace_back([&, i] { keys.work(i, calls / static_cast<long>(THREADS)); });
    for (std::thread &each : threads) each.join();
    keys.check_at_rest();
}

// Two threads put a key each where there is room for one more: one entry goes, and no two. The clock, which is asked just before, lets them meet.
static std::atomic<int> at_the_clock{0};
static std::chrono::nanoseconds meeting_clock() {
    if (at_the_clock.fetch_add(1) < 2) while (at_the_clock < 2) std::this_thread::yield();
    return 1ns;
}

static void two_for_one_place() {
    numbers::options how;
    how.clock = meeting_clock;
    numbers cache = numbers::open_for(8, 2, how).value();
    const auto put = [&](std::uint64_t key) { CHECK(cache.lend_wait().put_for(key, key, 1h).has_value()); };
    for (int round = 0; round < 1000; round++) {
        CHECK(cache.lend_wait().clear());
        for (std::uint64_t key = 0; key < 7; key++) CHECK(cache.lend_wait().put(key, key).has_value());
        at_the_clock = 0;
        std::thread other(put, 100);
        put(101);
        other.join();
        CHECK(cache.statistics().length == 8);
    }
}

int main(int count, char **words) {
    if (example() != 0) return 1;
    rows<std::uint64_t>({5, 0, ~std::uint64_t{0}});
    rows<char>({'a', 'b', '\0'});
    rows<point>({point{1, 2}, point{2, 1}, point{0, 0}});
    rows<vbr::small_string<200>>({*vbr::small_string<200>::from(""), *vbr::small_string<200>::from("ada"), *vbr::small_string<200>::from(std::string(200, 'x'))});
    rows<vbr::small_string<300>>({*vbr::small_string<300>::from("ada"), *vbr::small_string<300>::from(std::string(255, 'x')), *vbr::small_string<300>::from(std::string(300, 'x'))});
    keys_with_one_hash();
    evictions();
    large_and_empty();
    times_to_live();
    loaders_alone();
    for (int failures : {0, 1, 2, 5}) loaders_of_threads(failures);
    renewals();
    renewals_at_one_epoch();
    memory();
    hits();
    two_for_one_place();
    const long calls = count > 1 ? std::atol(words[1]) : 200000;
    by_threads<std::uint32_t>(calls);
    by_threads<vbr::small_string<31>>(calls);
    std::printf("caches in C++: passed, %ld calls of threads\n", 2 * calls);
    return 0;
}

// The record map in C++: the examples of vbr_record_map.hpp (bindings/headers sees that their lines are here), each call with each answer,
// by rows that are worked by hand, keys with one hash, refusals, and threads.
//
//     record_maps [MILLISECONDS | speed]
//
// Four threads change keys in three ways while a fifth one renews the map: keys that all of them count up, keys that one of them changes
// and the others read, and keys among which they move amounts. Each value has its key and a checksum. A count is never less than what was
// counted before the call, a value is one that the key had during it, and what was put in is there in the end, or was taken out. They run
// for that many milliseconds, 1,000, with keys of 32 bits, and then with texts.
//
// With `speed` it measures, and claims nothing: what gets and puts take beside those of a plain map.
#include "vbr_record_map.hpp"

#include "asked_memory.hpp"
#include "client.hpp"

#include <sys/wait.h>
#include <unistd.h>

#include <algorithm>
#include <array>
#include <atomic>
#include <chrono>
#include <csignal>
#include <new>
#include <string>
#include <thread>
#include <vector>

using namespace std::chrono_literals;

struct account {
    std::uint64_t balance, payments;
    friend bool operator==(const account &one, const account &other) { return one.balance == other.balance && one.payments == other.payments; }
};

using accounts = vbr::record_map<vbr::small_string<31>, account>;

// Takes 10 from an account that has as much: what it has then, or why not.
static std::optional<account> paid_from(accounts::loan &mine, const accounts::key_type &who) {
    using to = accounts::change;
    const auto pay_10 = [](const std::optional<account> &there) {
        if (there && there->balance < 10) return to::keep();
        return there ? to::put({there->balance - 10, there->payments + 1}) : to::keep();
    };
    std::optional<account> paid = mine.compute(who, pay_10).value(); // what it had before, whether it has paid or not
    return paid && paid->balance >= 10 ? paid : std::nullopt;
}

static int example() {
    accounts map = accounts::open_for(1000, 8).value();
    accounts::loan mine = map.lend_wait();
    accounts::key_type who = accounts::key_type::from("ada").value(); // or refusal::too_long
    bool added = mine.insert(who, account{100, 1}).value();
    std::optional<account> has = mine.get(who).value();
    CHECK(added && has && *has == (account{100, 1}) && !mine.insert(who, account{7, 7}).value());
    CHECK(paid_from(mine, who) == (account{100, 1}) && mine.get(who) == std::optional(account{90, 2}));
    while (std::optional<accounts::entry> seen = mine.get_entry(who).value()) // until no other thread was faster
        if (mine.replace_entry(*seen, {seen->value().balance + 1, seen->value().payments + 1}).value()) break;
    CHECK(mine.get(who) == std::optional(account{91, 3}));
    std::optional<account> before = mine.put(who, account{50, 2}).value(); // what who had
    std::optional<account> replaced = mine.replace(who, account{40, 3}).value();
    CHECK(before == (account{91, 3}) && replaced == (account{50, 2}));
    int there = 0, taken_out = 0, refused = 0;
    std::uint64_t sum = 0;
    if (*mine.has(who)) there++;
    vbr::result<void> walked = mine.for_each([&](const accounts::entry &each) { sum += each.value().balance; });
    CHECK(walked && sum == 40 && there == 1);
    vbr::record_cursor from; // before the first key
    while (std::optional<accounts::entry> next = mine.next(from).value()) sum += next->value().balance;
    CHECK(sum == 80);
    vbr::small_string<31> none; // ""
    std::string_view name = who.view(); // for as long as who is there
    if (vbr::small_string<3>::from("longer") == vbr::refusal::too_long) refused++;
    CHECK(name == "ada" && refused == 1 && none.view().empty());
    std::optional<accounts::entry> still = mine.get_entry(who).value();
    if (mine.remove_entry(*still).value()) taken_out++; // nobody had changed it since it was found
    CHECK(taken_out == 1 && *mine.insert(who, account{1, 1}) && still->key() == who);
    std::optional<account> taken = mine.remove(who).value();
    CHECK(taken == (account{1, 1}) && mine.get(who) == std::optional<account>());
    const vbr::shape shape = vbr::shape::for_keys(1000, 8);
    if (map.slots() != shape.slots || map.handles() != 8 || map.on_loan() != 1) return 1;
    vbr::result<void> in_vain = map.renew_for(shape, 10ms); // refusal::on_loan: mine is out
    CHECK(in_vain == vbr::refusal::on_loan && *mine.insert(who, account{5, 5}));
    bool is_near = mine.epoch() + 1000 >= map.last_epoch();
    std::uint32_t given = mine.give_slots_back();
    CHECK(!is_near && given > 0 && map.buckets() == 1024);
    mine = accounts::loan(); // given back
    vbr::result<void> renewed = map.renew(vbr::shape::for_keys(2000, 8));
    std::int64_t about = map.count_about();
    CHECK(renewed && about == 1 && map.slots() == 2000 + 64 * 8);
    accounts::owned_loan task = map.lend_owned();
    map = accounts();
    CHECK(task.get(who) == std::optional(account{5, 5}));
    vbr::keyed_hash<vbr::small_string<31>> same_each_time(1, 2); // for a program that wants the same walk each time
    accounts fixed = accounts::open(shape, 2, same_each_time).value();
    accounts later; // lends none until it is assigned
    later = std::move(fixed);
    CHECK(later.lend().has(who) == false && later.lend_for(1ms));
    static_assert(accounts::loan::most_attempts == 1000);
    return 0;
}

// Each call, with each answer, of a map whose keys are of this type.
template <class Map>
static void rows(const std::array<typename Map::key_type, 3> &keys) {
    using value = typename Map::value_type;
    using found = std::optional<value>;
    using change = typename Map::change;
    using entry = typename Map::entry;
    const value one{1}, two{2}, three{3};
    const typename Map::key_type a = keys[0], b = keys[1], c = keys[2];
    Map map = Map::open_for(8, 2).value();
    typename Map::loan mine = map.lend(), other = map.lend();
    CHECK(mine && other && !map.lend() && map.on_loan() == 2);
    CHECK(mine.get(a) == found() && mine.has(a) == false && mine.remove(a) == found() && mine.replace(a, one) == found());
    CHECK(mine.insert(a, one) == true && other.insert(a, two) == false && other.get(a) == found(one));
    CHECK(mine.put(b, two) == found() && mine.put(b, three) == found(two) && other.get(b) == found(three));
    CHECK(mine.replace(a, two) == found(one) && other.has(a) == true && other.has(c) == false);
    // the entry that was read, and no other
    std::optional<entry> seen = mine.get_entry(a).value(), of_b = mine.get_entry(b).value();
    CHECK(seen && seen->value() == two && std::memcmp(&seen->key(), &a, sizeof a) == 0 && !mine.get_entry(c).value());
    CHECK(other.replace_entry(*seen, three) == true && mine.replace_entry(*seen, one) == false && mine.remove_entry(*seen) == false);
    CHECK(mine.get(a) == found(three) && mine.remove(a) == found(three) && mine.insert(a, two) == true); // with the value that was read
    CHECK(mine.replace_entry(*seen, one) == false && mine.remove_entry(*seen) == false && mine.get(a) == found(two));
    CHECK(mine.remove_entry(*of_b) == true && mine.remove_entry(*of_b) == false && mine.has(b) == false);
    // what is there decides, and is asked again of what another left
    CHECK(mine.compute(c, [](const found &) { return change::keep(); }) == found());
    CHECK(mine.compute(c, [](const found &) { return change::remove(); }) == found() && mine.has(c) == false);
    CHECK(mine.compute(c, [&](const found &there) { return there ? change::keep() : change::put(one); }) == found());
    int times = 0;
    CHECK(mine.compute(c, [&](const found &there) {
        if (times++ == 0) CHECK(other.put(c, two) == found(one)); // another is faster
        CHECK(there == (times == 1 ? one : two));
        return change::put(three);
    }) == found(two) && times == 2 && mine.get(c) == found(three));
    CHECK(mine.compute(c, [&](const found &) {
        CHECK(mine.remove(c).has_value()); // by the same loan
        return ++times < 5 ? change::put(one) : change::remove();
    }) == found() && times == 4 && mine.get(c) == found(one));
    times = 0;
    CHECK(mine.compute(c, [&](const found &) {
        CHECK(other.put(c, value{++times}).has_value());
        return change::remove();
    }) == vbr::refusal::out_of_steps && times == 1000 && mine.get(c) == found(value{1000}));
    CHECK(mine.compute(c, [&](const found &) {
        mine = typename Map::loan();
        return change::remove();
    }) == vbr::refusal::no_handle);
    mine = map.lend();
    CHECK(mine.compute(c, [](const found &) { return change::remove(); }) == found(value{1000}) && mine.insert(c, three) == true);
    // all of them, each once
    int met = 0, sum = 0;
    CHECK(mine.for_each([&](const entry &each) {
        met++, sum += each.value().number;
        CHECK(mine.get(each.key()) == found(each.value()));
    }));
    CHECK(met == 2 && sum == 2 + 3 && map.count_about() <= 2);
    // a renewal carries them over, and neither entries nor walks
    seen = mine.get_entry(c).value();
    vbr::record_cursor from;
    CHECK(mine.next(from).value());
    mine = typename Map::loan();
    other = typename Map::loan();
    CHECK(map.count_about() == 2 && map.renew(vbr::shape::for_keys(3, 2)) && map.count_about() == 2 && map.slots() == 131);
    mine = map.lend();
    CHECK(mine.get(a) == found(two) && mine.get(c) == found(three) && mine.has(b) == false);
    CHECK(mine.replace_entry(*seen, one) == false && mine.remove_entry(*seen) == false && mine.next(from) == vbr::refusal::reshaped);
    Map another = Map::open_for(8, 1).value();
    typename Map::loan of_another = another.lend();
    CHECK(of_another.put(c, three) == found() && of_another.remove_entry(*mine.get_entry(c).value()) == false);
    vbr::record_cursor in_another;
    CHECK(of_another.next(in_another).value() && mine.next(in_another) == vbr::refusal::reshaped);
}

struct number {
    int number;
    std::array<char, 37> rest{};
    friend bool operator==(const struct number &one, const struct number &other) { return one.number == other.number; }
};
static_assert(sizeof(number) % 8 != 0);

struct point {
    std::int64_t x, y;
    std::int32_t z, w;
};

enum class colour : std::uint8_t { red, green, blue };

// Values that are hard to make, copy or align.
static void odd_values() {
    struct alignas(16) aligned {
        const char letter;
        explicit aligned(char of) : letter(of) {}
    };
    vbr::record_map<bool, aligned> map = vbr::record_map<bool, aligned>::open_for(2, 1).value();
    auto mine = map.lend();
    CHECK(*mine.insert(true, aligned('a')) && mine.put(true, aligned('b')).value()->letter == 'a' && mine.get(true).value()->letter == 'b');
    using options = vbr::record_map<point, std::optional<bool>>;
    options of_options = options::open_for(2, 1).value();
    auto other = of_options.lend();
    const point key{1, 1, 1, 1};
    CHECK(*other.insert(key, std::nullopt) && other.has(key) == true && !*other.get(key).value());
    const std::optional<std::optional<bool>> before = other.replace(key, true).value(), taken = other.remove(key).value();
    CHECK(before && !*before && taken && *taken == true && !other.get(key).value());
}

// An entry of one table is none of the next one, though the key stands there in the same slot with the same birth, as both tables opened
// with it. Nor is a cursor of one map one of another, which was opened as often.
static void entries_over_renewals() {
    using map_of = vbr::record_map<std::uint32_t, int>;
    const vbr::shape shape{2, 1};
    map_of map = map_of::open(shape, 1).value(), another = map_of::open(shape, 1).value();
    CHECK(*map.lend().insert(5, 50));
    CHECK(map.renew(shape));
    const map_of::entry before = map.lend().get_entry(5).value().value();
    CHECK(map.lend().put(5, 51) == std::optional(50));
    CHECK(map.renew(shape));
    {
        map_of::loan mine = map.lend();
        CHECK(mine.replace_entry(before, 52) == false && mine.remove_entry(before) == false && mine.get(5) == std::optional(51));
    }
    another = map_of::open(shape, 1).value();
    map = map_of::open(shape, 1).value();
    vbr::record_cursor from;
    CHECK(*map.lend().insert(5, 50));
    CHECK(map.lend().next(from).value() && another.lend().next(from) == vbr::refusal::reshaped);
}

// A hash that two keys share, in pairs.
struct halved {
    std::uint64_t operator()(const point &key) const noexcept { return static_cast<std::uint64_t>(key.x / 2); }
};

static void one_hash() {
    using map_of = vbr::record_map<point, int, halved>;
    using found = std::optional<int>;
    map_of map = map_of::open_for(8, 1).value();
    map_of::loan mine = map.lend();
    const point a{2, 0, 0, 0}, b{3, 0, 0, 0}, c{4, 0, 0, 0}; // a and b have one hash
    const auto put_7 = [](const found &there) { return there ? map_of::change::keep() : map_of::change::put(7); };
    CHECK(*mine.insert(a, 1) && *mine.insert(c, 3));
    CHECK(mine.insert(b, 2) == vbr::refusal::hash_taken && mine.put(b, 2) == vbr::refusal::hash_taken);
    CHECK(mine.compute(b, put_7) == vbr::refusal::hash_taken && std::string(vbr::to_string(mine.insert(b, 2))) == "another key with the same hash is there");
    CHECK(mine.get(b) == found() && mine.has(b) == false && !mine.get_entry(b).value() && mine.replace(b, 2) == found() && mine.remove(b) == found());
    CHECK(mine.get(a) == found(1) && mine.has(a) == true && mine.put(a, 4) == found(1) && mine.get(c) == found(3));
    const map_of::entry of_a = mine.get_entry(a).value().value();
    CHECK(mine.remove(a) == found(4) && *mine.insert(b, 5) && mine.insert(a, 6) == vbr::refusal::hash_taken); // where a has left there is room for b
    CHECK(mine.replace_entry(of_a, 9) == false && mine.remove_entry(of_a) == false && mine.get(b) == found(5) && mine.get(a) == found());
}

static void refusals() {
    using map_of = vbr::record_map<std::uint64_t, int>;
    using found = std::optional<int>;
    const vbr::shape three{3, 4};
    map_of map = map_of::open(three, 1).value();
    map_of::loan mine = map.lend();
    CHECK(*mine.insert(1, 10) && *mine.insert(2, 20) && *mine.insert(3, 30));
    CHECK(mine.insert(4, 40) == vbr::refusal::no_slot && mine.put(1, 11) == vbr::refusal::no_slot && mine.replace(1, 11) == vbr::refusal::no_slot);
    CHECK(mine.insert(1, 11) == false && mine.replace(4, 40) == found() && mine.get(1) == found(10)); // these want no slot
    CHECK(mine.remove(3) == found(30) && mine.put(1, 11) == found(10) && *mine.insert(4, 40) && mine.has(3) == false);
    mine = map_of::loan();
    CHECK(map.renew({2, 4}) == vbr::refusal::no_room && map.renew({0, 4}) == vbr::refusal::bad_shape && map.slots() == 3);
    CHECK(map.lend().get(4) == found(40));
    const vbr::shape one_epoch{2, 1, 1};
    map_of short_lived = map_of::open(one_epoch, 1).value();
    map_of::loan last = short_lived.lend();
    CHECK(*last.insert(5, 50) && last.remove(5) == found(50)); // its slot was used in the last epoch
    CHECK(last.insert(5, 51) == vbr::refusal::epoch_spent && last.epoch() == 1 && last.get(5) == found());
    vbr::shape hurried = three;
    hurried.steps = vbr::steps{1};
    map_of slow = map_of::open(hurried, 1).value();
    map_of::loan tired = slow.lend();
    vbr::record_cursor from;
    CHECK(tired.get(5) == vbr::refusal::out_of_steps && tired.put(5, 1) == vbr::refusal::out_of_steps);
    CHECK(tired.for_each([](const map_of::entry &) {}) == vbr::refusal::out_of_steps);
    // without a handle
    map_of none;
    map_of::loan empty = none.lend_wait();
    const map_of::entry some = map.lend().get_entry(1).value().value();
    CHECK(!empty && !none.lend_owned() && none.renew(three) == vbr::refusal::no_handle && none.slots() == 0 && none.count_about() == 0);
    CHECK(empty.get(1) == vbr::refusal::no_handle && empty.has(1) == vbr::refusal::no_handle && empty.insert(1, 1) == vbr::refusal::no_handle);
    CHECK(empty.put(1, 1) == vbr::refusal::no_handle && empty.remove(1) == vbr::refusal::no_handle && empty.next(from) == vbr::refusal::no_handle);
    CHECK(empty.get_entry(1).error() == vbr::refusal::no_handle && empty.replace_entry(some, 1) == vbr::refusal::no_handle);
    CHECK(empty.remove_entry(some) == vbr::refusal::no_handle && empty.give_slots_back() == 0 && empty.epoch() == 0);
    CHECK(map_of::open({0, 1}, 1).error() == vbr::refusal::bad_shape && map_of::open(three, 0).error() == vbr::refusal::bad_count);
}

// A map that ends while a loan is out ends the program, and doesn't leave the loan without one.
static void ends_too_early() {
    const pid_t child = fork();
    if (child == 0) {
        close(STDERR_FILENO);
        accounts map = accounts::open_for(8, 1).value();
        accounts::loan mine = map.lend();
        map = accounts();
        std::_Exit(0);
    }
    int status = 0;
    CHECK(waitpid(child, &status, 0) == child && WIFSIGNALED(status) && WTERMSIG(status) == SIGABRT);
}

static void texts() {
    using text = vbr::small_string<7>;
    static_assert(sizeof(text) == 8 && sizeof(vbr::small_string<255>) == 256 && vbr::is_by_bits<text>);
    const text most = text::from("1234567").value();
    CHECK(most.view() == "1234567" && text::from("12345678").error() == vbr::refusal::too_long && text() == text::from(""));
    const text with_zero = text::from(std::string_view("a\0b", 3)).value();
    CHECK(with_zero.view().size() == 3 && with_zero.view() == std::string_view("a\0b", 3) && text::from("a").value() < text::from("b").value());
    CHECK(text::from("a").value() != text::from(std::string_view("a\0", 2)).value() && text::from("").value() == text());
    // what two other libraries have for SipHash-1-3 with a key of zeros
    const vbr::keyed_hash<vbr::small_string<31>> by_zeros(0, 0);
    const std::array<std::pair<const char *, std::uint64_t>, 6> known{{{"", 0xd1fba762150c532c},
                                                                       {"a", 0x407448d2b89b1813},
                                                                       {"abc", 0xc03bc3a0042630f2},
                                                                       {"abcdefg", 0x6db12aae9070f506},
                                                                       {"abcdefgh", 0x3f7b849c0b8e35ea},
                                                                       {"abcdefghijklmno", 0x1fd27a29b0e9dc7a}}};
    for (auto [name, hash] : known) CHECK(by_zeros(vbr::small_string<31>::from(name).value()) == hash);
    const std::array<char, 15> letters{'a', 'b', 'c', 'd', 'e', 'f', 'g', 'h', 'i', 'j', 'k', 'l', 'm', 'n', 'o'};
    CHECK((vbr::keyed_hash<std::array<char, 15>>(0, 0)(letters) == 0x1fd27a29b0e9dc7a));
    const vbr::keyed_hash<point> drawn, another;
    CHECK(drawn({1, 2, 3, 4}) != another({1, 2, 3, 4})); // each has a key of its own
}

// Memory that is refused at an opening or a renewal leaves all as it was, and calls ask for none.
static void memory() {
    const vbr::shape shape = vbr::shape::for_keys(100, 2);
    const auto refused_times = [](const auto &call) {
        for (long times = 0;; times++) {
            granted = times;
            try {
                call();
                granted = -1;
                return times;
            } catch (const std::bad_alloc &) {
                granted = -1;
            }
        }
    };
    accounts map;
    CHECK(refused_times([&] { map = accounts::open(shape, 2).value(); }) > 2);
    const accounts::key_type who = accounts::key_type::from("who").value();
    CHECK(*map.lend().insert(who, {1, 2}));
    CHECK(refused_times([&] { map.renew(vbr::shape::for_keys(200, 2)).value(); }) > 0);
    CHECK(map.slots() == 328 && map.lend().get(who) == std::optional(account{1, 2}));
    const long before = asked;
    for (std::uint64_t i = 0; i < 1000; i++) {
        accounts::loan mine = map.lend();
        CHECK(mine.put(who, {i, 0}).has_value() && mine.get(who).has_value() && mine.remove(who).has_value() && *mine.insert(who, {1, 2}));
        CHECK(mine.for_each([](const accounts::entry &) {}) && paid_from(mine, who) == std::nullopt);
    }
    CHECK(asked == before);
}

// Threads

constexpr std::size_t THREADS = 4;
constexpr std::uint32_t COUNTED = 8, OWNED = 8, MOVED = 24, KEYS = COUNTED + OWNED + MOVED;
static long all_counted = 0, all_moved = 0, all_walks = 0, all_renewals = 0;

// 100 bytes that are of one key and one write.
struct checked {
    std::uint32_t key;
    std::uint32_t amount[23];
    std::uint32_t checksum;

    static checked of(std::uint32_t key, std::uint32_t amount) noexcept {
        checked made{};
        made.key = key;
        for (std::uint32_t i = 0; i < 23; i++) made.amount[i] = amount + i;
        made.checksum = made.checksum_of_it();
        return made;
    }
    std::uint32_t checksum_of_it() const noexcept {
        std::uint32_t sum = (key + 1) * 0x9E3779B9u;
        for (std::uint32_t word : amount) sum = sum * 31 + word;
        return sum;
    }
};
static_assert(sizeof(checked) == 100);

template <class Map>
class shared_keys {
public:
    using loan = typename Map::loan;
    using change = typename Map::change;
    using found = std::optional<checked>;

    explicit shared_keys(Map &of) : map(of) {}

    // Makes calls for some time, by loans that are given back now and then.
    void work(std::size_t thread, std::uint64_t random) {
        while (!is_over) {
            loan mine = map.lend_wait();
            for (int turn = 0; turn < 64; turn++) {
                random ^= random << 13, random ^= random >> 7, random ^= random << 17;
                const std::uint32_t pick = static_cast<std::uint32_t>(random >> 40), way = random >> 16 & 7;
                if (way < 2) count(mine, pick % COUNTED, way == 0);
                else if (way == 2) look_at_count(mine, pick % COUNTED);
                else if (way == 3) change_own(mine, static_cast<std::uint32_t>(pick % (OWNED / THREADS) * THREADS + thread));
                else if (way == 4) look_at_owned(mine, pick % OWNED);
                else move(mine, COUNTED + OWNED + pick % MOVED, pick >> 8 & 0xfff, way);
            }
            if ((random & 7) == 0) walk(mine);
        }
    }

    // Whether amounts went in and out, and renewals came between.
    bool has_met() const { return put_in > 0 && taken_out > 0 && renewals > 3; }

    void renew_now_and_then() {
        for (bool is_wide = false; !is_over; is_wide = !is_wide) {
            CHECK(map.renew(vbr::shape::for_keys(is_wide ? 4 * KEYS : KEYS, THREADS)));
            renewals++;
            std::this_thread::sleep_for(2ms);
        }
    }

    // What was put in is there, or was taken out.
    void check_at_rest() {
        loan mine = map.lend();
        std::uint64_t left = 0, keys = 0;
        CHECK(mine.for_each([&](const typename Map::entry &each) {
            keys++;
            if (whole(each).key >= COUNTED + OWNED) left += each.value().amount[0];
        }));
        for (std::uint32_t i = 0; i < COUNTED; i++) CHECK(begun[i] == done[i] && mine.get(key_of(i)).value()->amount[0] == done[i]);
        CHECK(put_in == taken_out + left && has_met());
        mine = loan();
        CHECK(map.count_about() == static_cast<std::int64_t>(keys));
        for (std::uint32_t i = 0; i < COUNTED; i++) all_counted += done[i];
        all_moved += moves, all_walks += walks, all_renewals += renewals;
    }

    void begin() {
        loan mine = map.lend();
        for (std::uint32_t i = 0; i < COUNTED; i++) CHECK(*mine.insert(key_of(i), checked::of(i, 0)));
    }

    std::atomic<bool> is_over{false};

private:
    static typename Map::key_type key_of(std::uint32_t number) {
        if constexpr (std::is_same_v<typename Map::key_type, std::uint32_t>) return number;
        else return Map::key_type::from("the key of number " + std::to_string(number)).value();
    }

    static const checked &whole(const checked &copy, std::uint32_t key) {
        CHECK(copy.checksum == copy.checksum_of_it() && copy.key == key); // or it is a copy of two, or another key's
        return copy;
    }
    static const checked &whole(const typename Map::entry &each) {
        CHECK(each.key() == key_of(each.value().key));
        return whole(each.value(), each.value().key);
    }

    // One more, by what was there or by the entry that was read.
    void count(loan &mine, std::uint32_t number, bool computes) {
        begun[number]++;
        if (computes) {
            CHECK(mine.compute(key_of(number), [&](const found &there) {
                return change::put(checked::of(number, whole(*there, number).amount[0] + 1));
            }).has_value());
        } else {
            for (;;) {
                const auto seen = mine.get_entry(key_of(number)).value();
                if (*mine.replace_entry(*seen, checked::of(number, whole(*seen).amount[0] + 1))) break;
            }
        }
        done[number]++;
    }

    void look_at_count(loan &mine, std::uint32_t number) {
        const std::uint32_t least = done[number];
        const found there = mine.get(key_of(number)).value();
        CHECK(there && whole(*there, number).amount[0] >= least && there->amount[0] <= begun[number]);
    }

    // The own keys of a thread are changed by it alone, by calls that are numbered: each fifth one takes the key out.
    static bool takes_out(std::uint32_t call) { return call % 5 == 0; }

    void change_own(loan &mine, std::uint32_t number) {
        const std::uint32_t key = COUNTED + number, call = begun[key] + 1;
        const found wanted = takes_out(call - 1) ? std::nullopt : found(checked::of(key, call - 1));
        begun[key] = call;
        const checked next = checked::of(key, call);
        found was;
        if (takes_out(call)) was = mine.remove(key_of(key)).value();
        else if (!wanted) CHECK(*mine.insert(key_of(key), next));
        else if (call % 2) was = mine.put(key_of(key), next).value();
        else was = mine.replace(key_of(key), next).value();
        CHECK(was.has_value() == wanted.has_value() && (!was || whole(*was, key).amount[0] == call - 1));
        done[key] = call;
    }

    void look_at_owned(loan &mine, std::uint32_t number) {
        const std::uint32_t key = COUNTED + number, least = done[key];
        const found there = mine.get(key_of(key)).value();
        const std::uint32_t most = begun[key];
        if (there) CHECK(whole(*there, key).amount[0] >= least && there->amount[0] <= most && !takes_out(there->amount[0]));
        bool may_be_absent = false;
        for (std::uint32_t call = least; call <= most; call++) may_be_absent = may_be_absent || takes_out(call);
        CHECK(there || may_be_absent); // or a value is lost
    }

    // Amounts go in and out by any thread; each call says what it took out.
    void move(loan &mine, std::uint32_t key, std::uint32_t amount, std::uint32_t way) {
        const checked next = checked::of(key, amount);
        found was;
        bool is_stored = false;
        if (way == 5) is_stored = true, was = mine.put(key_of(key), next).value();
        else if (way == 6 && amount % 2) was = mine.replace(key_of(key), next).value(), is_stored = was.has_value();
        else if (way == 6) is_stored = *mine.insert(key_of(key), next);
        else if (amount % 2) was = mine.remove(key_of(key)).value();
        else was = mine.compute(key_of(key), [&](const found &there) {
            is_stored = there && there->amount[0] < amount;
            return is_stored ? change::put(next) : change::remove();
        }).value();
        if (is_stored) put_in += amount;
        if (was) taken_out += whole(*was, key).amount[0];
        moves++;
    }

    // Each count is there for the whole walk, and is met once.
    void walk(loan &mine) {
        std::array<int, KEYS> met{};
        CHECK(mine.for_each([&](const typename Map::entry &each) { met[whole(each).key]++; }));
        for (std::uint32_t i = 0; i < KEYS; i++) CHECK(met[i] <= 1 && (i >= COUNTED || met[i] == 1));
        walks++;
    }

    Map &map;
    std::array<std::atomic<std::uint32_t>, COUNTED + OWNED> begun{}, done{};
    std::atomic<std::uint64_t> put_in{0}, taken_out{0};
    std::atomic<long> moves{0}, walks{0};
    std::atomic<long> renewals{0};
};

template <class Map>
static void by_threads(std::chrono::milliseconds time) {
    Map map = Map::open_for(KEYS, THREADS).value();
    shared_keys<Map> keys(map);
    keys.begin();
    std::vector<std::thread> threads;
    for (std::size_t i = 0; i < THREADS; i++) threads.emplace_back([&, i] { keys.work(i, 88172645463325252u + i); });
    threads.emplace_back([&] { keys.renew_now_and_then(); });
    const auto begun = std::chrono::steady_clock::now();
    for (std::this_thread::sleep_for(time); !keys.has_met(); std::this_thread::sleep_for(1ms))
        CHECK(std::chrono::steady_clock::now() - begun < 10min); // or it hangs
    keys.is_over = true;
    for (std::thread &thread : threads) thread.join();
    keys.check_at_rest();
}

// Times

template <std::size_t size>
struct of_size {
    std::array<std::uint64_t, size / 8> words;
};

// How long a call takes for each key, in nanoseconds.
template <class Calls>
static double time_of(const Calls &calls) {
    const auto begin = std::chrono::steady_clock::now();
    for (int i = 0; i < 10; i++) calls();
    return std::chrono::duration<double, std::nano>(std::chrono::steady_clock::now() - begin).count() / (10 * 1024);
}

static double median(std::vector<double> numbers) {
    std::sort(numbers.begin(), numbers.end());
    return numbers[numbers.size() / 2];
}

// Tells what calls take, and how many times what those of a plain map take in the same round: medians of many rounds.
template <class Calls, class Plain>
static void tell(const char *what, const Calls &calls, const Plain &plain) {
    std::vector<double> times, ratios;
    for (int round = 0; round < 101; round++) {
        const double mine = time_of(calls);
        times.push_back(mine), ratios.push_back(mine / time_of(plain));
    }
    std::printf("%s %.1f ns, %.1f times that of a map", what, median(times), median(ratios));
}

template <class Key, std::size_t size, class Made>
static void measure(const char *what, const Made &made) {
    using map_of = vbr::record_map<Key, of_size<size>>;
    vbr::map_handle plain = std::move(vbr::open_map(vbr::shape::for_keys(1024, 1), 1)->front());
    map_of map = map_of::open_for(1024, 1).value();
    typename map_of::loan mine = map.lend();
    std::vector<Key> keys;
    std::vector<std::uint64_t> words;
    for (std::uint64_t i = 0; i < 1024; i++) keys.push_back(made(i)), words.push_back(i * 0x9E3779B97F4A7C15u);
    for (const Key &key : keys) CHECK(*mine.insert(key, of_size<size>{}));
    for (std::uint64_t word : words) CHECK(*plain.insert(word, 0));
    std::uint64_t sum = 0;
    std::printf("%s, values of %zu bytes:", what, size);
    tell(" a get", [&] { for (const Key &key : keys) sum += mine.get(key).value()->words[0]; },
         [&] { for (std::uint64_t word : words) sum += *plain.get(word).value(); });
    tell("; a put", [&] { for (const Key &key : keys) sum += mine.put(key, of_size<size>{}).value()->words[0]; },
         [&] { for (std::uint64_t word : words) sum += *plain.put(word, 0).value(); });
    std::printf("\n");
    CHECK(sum == 0);
}

static int speed() {
    const auto number = [](std::uint64_t i) { return i * 0x9E3779B97F4A7C15u; };
    const auto text = [](std::uint64_t i) { return vbr::small_string<31>::from("somebody" + std::to_string(1000 + i)).value(); };
    measure<std::uint64_t, 16>("keys of 64 bits", number);
    measure<std::uint64_t, 128>("keys of 64 bits", number);
    measure<std::uint64_t, 1024>("keys of 64 bits", number);
    measure<vbr::small_string<31>, 16>("texts of 12 bytes", text);
    measure<vbr::small_string<31>, 128>("texts of 12 bytes", text);
    return 0;
}

int main(int count, char **words) {
    if (count > 1 && std::string(words[1]) == "speed") return speed();
    if (example() != 0) return 1;
    rows<vbr::record_map<std::uint64_t, number>>({5, 0, ~std::uint64_t{0}});
    rows<vbr::record_map<colour, number>>({colour::red, colour::green, colour::blue});
    rows<vbr::record_map<vbr::small_string<7>, number>>({*vbr::small_string<7>::from(""), *vbr::small_string<7>::from("1"), *vbr::small_string<7>::from("1234567")});
    rows<vbr::record_map<point, number>>({point{1, 2, 3, 4}, point{1, 2, 3, 5}, point{0, 0, 0, 0}});
    rows<vbr::record_map<vbr::small_string<200>, number>>({*vbr::small_string<200>::from(""), *vbr::small_string<200>::from("ada"), *vbr::small_string<200>::from(std::string(200, 'x'))});
    odd_values();
    entries_over_renewals();
    one_hash();
    refusals();
    ends_too_early();
    texts();
    memory();
    const std::chrono::milliseconds time = count > 1 ? std::chrono::milliseconds(std::atol(words[1])) : 1000ms;
    by_threads<vbr::record_map<std::uint32_t, checked>>(time);
    by_threads<vbr::record_map<vbr::small_string<31>, checked>>(time);
    std::printf("record maps in C++: passed, %ld counted, %ld amounts moved, %ld walks, over %ld renewals\n", all_counted, all_moved, all_walks,
                all_renewals);
    return 0;
}

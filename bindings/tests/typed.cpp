// Sets and maps of other keys and values than plain numbers: the examples of vbr.hpp for them, and a type of each kind in each call.
#include "client.hpp"

#include <algorithm>
#include <list>
#include <map>
#include <string>
#include <thread>
#include <vector>

enum class colour : std::uint8_t { red, green, blue };

// Without a default, and without an operator.
class address {
public:
    explicit constexpr address(std::uint32_t of) noexcept : number(of) {}
    constexpr std::uint32_t of() const noexcept { return number; }

private:
    std::uint32_t number;
};

// Of 64 bits, without padding.
struct place {
    std::uint16_t shelf, row;
    std::int32_t column;
};

struct padded {
    std::uint8_t one;
    std::uint32_t other;
};

template <> inline constexpr bool vbr::is_by_bits<float> = true; // in place of a key that is compared by ==

// What may be a key.
static_assert(vbr::is_by_bits<colour> && vbr::is_by_bits<address> && vbr::is_by_bits<place> && vbr::is_by_bits<std::int64_t>);
static_assert(vbr::is_by_bits<char *>);
static_assert(!vbr::is_by_bits<padded> && !vbr::is_by_bits<double> && vbr::is_by_bits<float>);
// Each type has handles of its own, and those of plain numbers are those of vbr::open.
static_assert(std::is_same_v<vbr::set<>::handle, vbr::handle> && std::is_same_v<vbr::map<>::handle, vbr::map_handle>);
static_assert(std::is_same_v<vbr::map<>::entry, vbr::entry>);
static_assert(!std::is_constructible_v<vbr::set<std::uint32_t>::handle, vbr::handle>);
static_assert(!std::is_convertible_v<vbr::set<std::uint32_t>::handle &, vbr::pass &>);
static_assert(sizeof(vbr::set<colour>::handle) == sizeof(vbr::handle));

using ports = vbr::map<address, std::uint16_t>;

static void example() {
    using colours = vbr::set<colour>;
    colours::handle mine = std::move(colours::open(vbr::shape::for_keys(8, 1), 1)->front());
    CHECK(*mine.insert(colour::green) && *mine.has(colour::green) && !*mine.has(colour::red) && !*mine.insert(colour::green));
    CHECK(mine.close().value()->keys == std::vector{colour::green});
    std::vector<ports::handle> of = ports::open(vbr::shape::for_keys(1024, 2), 2).value();
    bool there = false;
    CHECK(*of[0].insert(address(0x7f000001), 8080));
    std::thread([&] { there = of[1].get(address(0x7f000001)) == std::uint16_t{8080}; }).join();
    CHECK(there && of[1].put(address(0x7f000001), 80) == std::uint16_t{8080} && *of[0].compare_exchange(address(0x7f000001), 80, 443));
    for (auto [host, port] : of[0].entries()) CHECK(host.of() == 0x7f000001 && port == 443);
    ports::handle::end_all(of);
}

template <class Key>
static bool is_same(const Key &one, const Key &other) {
    return !vbr::by_bits{}(one, other) && !vbr::by_bits{}(other, one);
}

template <class Key>
static bool are_same(const std::vector<Key> &one, const std::vector<Key> &other) {
    return std::equal(one.begin(), one.end(), other.begin(), other.end(), is_same<Key>);
}

// A set of three keys of a type, whose order by bits is that of the list: each call, a walk, reports, batches and a renewal.
template <class Key>
static void as_keys(const std::vector<Key> &keys) {
    using numbers = vbr::set<Key>;
    auto handles = numbers::open_with(vbr::shape::for_keys(100, 2), 2, keys).value();
    typename numbers::handle &one = handles[0], &other = handles[1];
    for (const Key &key : keys) CHECK(one.has(key) == true && other.insert(key) == false);
    CHECK(one.remove(keys[1]) == true && one.has(keys[1]) == false && one.remove_within(keys[1], vbr::steps{100}) == false);
    CHECK(one.insert_within(keys[1], vbr::steps{1}) == vbr::refusal::out_of_steps);
    CHECK(other.has_within(keys[1], vbr::steps{1}) == vbr::refusal::out_of_steps);
    std::vector<Key> asked;
    for (int i = 0; i < 50; i++) asked.insert(asked.end(), keys.begin(), keys.end()); // more than a batch
    std::vector<vbr::result<bool>> answers(asked.size());
    one.has_all(asked.data(), asked.size(), answers.data());
    for (std::size_t i = 0; i < answers.size(); i++) CHECK(answers[i] == (i % 3 != 1));
    CHECK(one.insert(keys[1]) == true && are_same(numbers::handle::report_all(handles)->keys, keys));
    CHECK(numbers::handle::renew_all(handles, vbr::shape::for_keys(200, 2)) && other.has(keys[2]) == true);
    std::vector<Key> walked;
    for (Key key : other.keys()) walked.push_back(key);
    vbr::cursor from;
    for (std::size_t i = 0; i < 3; i++) CHECK(is_same(one.next(from).value().value(), walked[i]));
    CHECK(!one.next(from).value());
    std::sort(walked.begin(), walked.end(), vbr::by_bits{});
    CHECK(are_same(walked, keys));
    typename numbers::lender lender(std::move(handles));
    {
        typename numbers::loan mine = lender.lend();
        CHECK(*mine->remove(keys[0]));
    }
    CHECK(are_same(lender.close().value()->keys, {keys[1], keys[2]}));
}

// A map of values of a type, three of which are given: each call that takes or gives one.
template <class Value>
static void as_values(const Value (&of)[3]) {
    using values = vbr::map<std::int16_t, Value>;
    // by its bits -1 is the last
    auto handles = values::open_with(vbr::shape::for_keys(100, 1), 1, {{1, of[0]}, {2, of[1]}, {-1, of[2]}}).value();
    typename values::handle &mine = handles[0];
    CHECK(mine.get(1) == of[0] && mine.get(-1) == of[2] && mine.get(3) == std::nullopt && mine.replace(2, of[2]) == of[1]);
    CHECK(mine.put(2, of[0]) == of[2]);
    CHECK(mine.insert(1, of[1]) == false && mine.get_or_insert(1, of[1]) == of[0] && mine.get_or_insert(4, of[1]) == std::nullopt);
    CHECK(mine.remove(4) == of[1]);
    CHECK((mine.compare_exchange(1, of[1], of[2]) == vbr::compared<Value>{false, of[0]}));
    CHECK((mine.compare_exchange(1, of[0], of[1]) == vbr::compared<Value>{true, of[0]}));
    CHECK((mine.remove_if(1, of[0]) == vbr::compared<Value>{false, of[1]}));
    CHECK((mine.remove_if(1, of[1]) == vbr::compared<Value>{true, of[1]}));
    CHECK(mine.fetch_update(2, [&](Value) { return of[2]; }) == of[0] && mine.get(2) == of[2]);
    CHECK(mine.fetch_update(9, [&](Value was) { return was; }) == std::nullopt);
    const std::int16_t asked[] = {-1, 9, 2};
    typename values::pass::found found[3];
    mine.get_all(asked, 3, found);
    CHECK(found[0] == of[2] && found[1] == std::nullopt && found[2] == of[2]);
    vbr::cursor from;
    while (std::optional<typename values::entry> next = mine.next(from).value()) CHECK(next->value == of[2]);
    auto entries = mine.close().value()->entries;
    CHECK((entries == std::vector<typename values::entry>{{2, of[2]}, {-1, of[2]}}));
}

// Openings with ranges: of the type itself, or of unsigned numbers that have room; and keys in another order.
static void ranges() {
    const vbr::shape shape = vbr::shape::for_keys(8, 1);
    CHECK(*vbr::set<std::uint32_t>::open_with(shape, 1, std::list<std::uint16_t>{2, 5})->at(0).has(5));
    CHECK(*vbr::set<std::int32_t>::open_with(shape, 1, std::list<std::int32_t>{2, 5})->at(0).has(5));
    CHECK((vbr::map<std::uint32_t, double>::open_with(shape, 1, std::map<std::uint32_t, double>{{2, 0.5}, {5, 1.5}})->at(0).get(5) == 1.5));
    CHECK(*vbr::set<std::uint8_t>::open_many(shape, 1)->at(0).insert(5));
    std::vector<std::int32_t> keys{-2, -1, 0, 1};
    CHECK(vbr::set<std::int32_t>::open_with(shape, 1, keys) == vbr::refusal::bad_keys);
    std::sort(keys.begin(), keys.end(), vbr::by_bits{}); // as open_with takes them
    CHECK((keys == std::vector<std::int32_t>{0, 1, -2, -1}));
    CHECK(vbr::set<std::int32_t>::open_with(shape, 1, keys)->at(0).close().value()->keys == keys);
}

// Floats as keys are told apart by their bits: there are two zeros.
static void floats() {
    auto mine = std::move(vbr::set<float>::open(vbr::shape::for_keys(8, 1), 1)->at(0));
    CHECK(*mine.insert(0.0f) && !*mine.has(-0.0f) && *mine.insert(-0.0f) && *mine.has(0.0f));
}

int main() {
    int one = 0, other = 0;
    const double halves[3] = {0.5, -1.5, 1e300};
    int *const pointers[3] = {&one, &other, nullptr};
    example(), ranges(), floats();
    as_keys<std::int64_t>({0, 5, -5}), as_keys<address>({address(1), address(2), address(~0u)});
    as_keys<place>({{5, 1, 0}, {5, 2, 0}, {1, 1, 1}});
    as_values<std::int8_t>({1, -1, 127}), as_values(halves), as_values(pointers), as_values<bool>({true, false, true});
    std::puts("typed keys and values in C++: passed");
    return 0;
}

// What must not compile. Each line that is said to be refused is, by each compiler, and no other line is: bindings/headers sees to it.
#include "vbr_cache.hpp"
#include "vbr_record_map.hpp"
#include "vbr_shared.hpp"

#include <string>

struct padded {
    std::uint8_t one;
    std::uint32_t other;
};

struct padded_too {
    std::uint64_t one : 40;
};

struct large {
    std::uint64_t one, other;
};

constexpr vbr::shape shape = vbr::shape::for_keys(8, 1);
constexpr vbr::steps few{1000};

// A budget is no plain number, and comes last; no key or value is taken for one.
void budgets(vbr::handle &set, vbr::map_handle &map) {
    static_cast<void>(set.insert_within(5, few));
    static_cast<void>(map.insert_within(5, 70, few));
    static_cast<void>(set.insert_within(5, 1000)); // refused
    static_cast<void>(set.insert_within(5, {1000})); // refused
    static_cast<void>(set.insert_within(few, 5)); // refused
    static_cast<void>(set.insert(5, 1000)); // refused
    static_cast<void>(set.insert(5, few)); // refused
    static_cast<void>(set.insert(few)); // refused
    static_cast<void>(set.keys(1000)); // refused
    static_cast<void>(map.insert(5)); // refused
    static_cast<void>(map.insert(5, few)); // refused
    static_cast<void>(map.insert(5, 100000, 70)); // refused
    static_cast<void>(map.insert(5, 70, 100000)); // refused
    static_cast<void>(map.insert_within(5, 70, 100000)); // refused
    static_cast<void>(map.insert_within(5, few, 70)); // refused
    static_cast<void>(map.get(5, 100000)); // refused
    static_cast<void>(map.compare_exchange(5, 70, 71, 100000)); // refused
    set.set_steps(1000); // refused
    set.set_steps(few);
    vbr::steps from_number = 1000; // refused
    std::uint64_t to_number = few; // refused
}

// A slot in hand is moved and never copied, and a call that publishes it takes it. An entry of a map is none of a set.
void slots_in_hand(vbr::map_handle &map, vbr::map_held &slot, vbr::held &of_set, const vbr::map_incarnation &at, vbr::handle &set,
                   const vbr::incarnation &of_a_key) {
    static_cast<void>(map.insert(std::move(slot), 5, 70));
    static_cast<void>(map.replace(std::move(slot), 5, at, 71));
    static_cast<void>(map.insert(slot, 5, 70)); // refused
    static_cast<void>(map.put(slot, 5, 70)); // refused
    static_cast<void>(map.insert(std::move(of_set), 5, 70)); // refused
    static_cast<void>(map.replace(std::move(slot), 5, 71)); // refused
    vbr::map_held copy = slot; // refused
    static_cast<void>(set.remove_entry(5, of_a_key));
    static_cast<void>(set.remove_entry(5, at)); // refused
    static_cast<void>(map.remove_entry(5, of_a_key)); // refused
    map.hold(); // refused
    map.get_entry(5); // refused
    set.remove_entry(5, of_a_key); // refused
}

// Nothing that a call answers is thrown away.
void thrown_away(vbr::handle &set, vbr::map_handle &map, vbr::lender &lender, std::vector<vbr::handle> &handles) {
    set.insert(5); // refused
    set.has(5); // refused
    set.keys(); // refused
    set.close(); // refused
    set.insert(5).error(); // refused
    map.get(5); // refused
    map.put(5, 70); // refused
    map.compare_exchange(5, 70, 71); // refused
    *map.compare_exchange(5, 70, 71); // refused
    lender.lend(); // refused
    lender.renew(shape); // refused
    lender.end(); // refused
    vbr::open(shape, 1); // refused
    vbr::handle::renew_all(handles, shape); // refused
    vbr::handle::report_all(handles); // refused
    set.give_slots_back();
    vbr::handle::end_all(handles);
}

// An old name is reported.
std::size_t old_names(vbr::handle &set, vbr::lender &lender) {
    set.spare(); // refused
    if (lender.end_all().has_value()) return 1; // refused
    return vbr::max_handles; // refused
}

// No refusal is taken for a no or an absence, and no absence for a yes.
int taken_for_no(vbr::handle &set, vbr::map_handle &map, vbr::loan &loan) {
    if (set.insert(5)) return 1; // refused
    if (!set.has(5)) return 1; // refused
    if (map.get(5)) return 1; // refused
    if (map.compare_exchange(5, 70, 71)) return 1; // refused
    if (set.close()) return 1; // refused
    if (vbr::refusal::no_slot) return 1; // refused
    bool added = set.insert(5); // refused
    int number = set.insert(5); // refused
    std::optional<std::uint64_t> got = map.get(5); // refused
    std::vector<vbr::handle> opened = vbr::open(shape, 1); // refused
    bool lent = loan; // refused
    if (set.insert(5).value() && *set.has(5) && map.get(5).value() && *map.compare_exchange(5, 70, 71) && loan) return 1;
    return 0;
}

// Handles aren't copied, and one of another type, or a loan, doesn't take the place of one.
void handles(vbr::handle &set, vbr::map_handle &map, vbr::set<std::uint32_t>::handle &small, vbr::lender &lender, vbr::loan &loan,
             std::vector<vbr::handle> &all) {
    vbr::handle copied = set; // refused
    vbr::loan lent = loan; // refused
    set = std::move(small); // refused
    set = std::move(map); // refused
    vbr::handle from_small(std::move(small)); // refused
    vbr::pass &pass_of_small = small; // refused
    vbr::pass &pass_of_map = map; // refused
    lender = vbr::map_lender(); // refused
    vbr::lender not_moved(all); // refused
    static_cast<void>(vbr::set<std::uint32_t>::handle::report_all(all)); // refused
    std::swap(*loan, *loan); // refused
    static_cast<void>(loan->close()); // refused
    loan->set_steps(few); // refused
    vbr::pass &pass = *loan;
    static_cast<void>(pass.insert(5));
}

// A walk isn't one of a pass that ends before it.
std::uint64_t walks(vbr::handle &set, vbr::claim &claim, vbr::map_claim &of_map) {
    std::uint64_t sum = 0;
    for (std::uint64_t key : claim.turn().keys()) sum += key; // refused
    for (auto [key, value] : of_map.turn().entries()) sum += key * value; // refused
    for (std::uint64_t key : vbr::handle(std::move(set)).keys()) sum += key; // refused
    auto turn = claim.turn();
    for (std::uint64_t key : turn.keys()) sum += key;
    return sum;
}

// Calls by the handle of a shared set are made in a turn, whose pass stays there, and a claim is one of its kind.
void processes(vbr::shared_set &set, vbr::shared_map &map, vbr::claim &claim, vbr::map_claim &of_map, std::vector<vbr::handle> &all) {
    static_cast<void>(claim.insert(5)); // refused
    static_cast<void>(claim->insert(5)); // refused
    static_cast<void>(set.insert(5)); // refused
    static_cast<void>(set.claim(1).insert(5)); // refused
    auto turn = claim.turn();
    auto copied = turn; // refused
    auto moved = std::move(turn); // refused
    vbr::pass taken_out = std::move(turn); // refused
    vbr::handle as_handle = std::move(turn); // refused
    vbr::pass &too_short = claim.turn(); // refused
    turn.set_steps(few); // refused
    static_cast<void>(turn.close()); // refused
    std::swap(turn, turn); // refused
    vbr::pass &pass = turn;
    static_cast<void>(pass.insert(5));
    vbr::claim copy = claim; // refused
    vbr::claim of_a_map = std::move(of_map); // refused
    vbr::map_pass &map_pass = turn; // refused
    static_cast<void>(of_map.turn().insert(5)); // refused
    static_cast<void>(of_map.turn().insert(5, 70));
    vbr::shared_set second = set; // refused
    set = std::move(map); // refused
    vbr::shared_set from_map = vbr::open_map_shared(shape, 1).value(); // refused
    vbr::shared_set not_asked = vbr::open_shared(shape, 1); // refused
    vbr::lender lender(std::move(set)); // refused
    static_cast<void>(vbr::handle::report_all(set)); // refused
    claim.turn(); // refused
    set.claim(1); // refused
    set.inherit(1); // refused
    set.renew(shape); // refused
    set.report(); // refused
    vbr::open_shared(shape, 1); // refused
    if (set.inherit(1)) return; // refused
    if (set.inherit(1).value() && set.renew(shape) && set.claim(1)) all.clear();
}

// Keys and values have no padding and at most 64 bits, and those of a range fit without doubt.
void keys(vbr::map<std::uint32_t, double>::handle &map) {
    static_cast<void>(vbr::set<padded>::open(shape, 1)); // refused
    static_cast<void>(vbr::set<large>::open(shape, 1)); // refused
    static_cast<void>(vbr::set<double>::open(shape, 1)); // refused
    static_cast<void>(vbr::set<std::string>::open(shape, 1)); // refused
    static_cast<void>(vbr::map<std::uint64_t, padded_too>::open(shape, 1)); // refused
    static_cast<void>(vbr::open_with(shape, 1, std::vector<int>{5})); // refused
    static_cast<void>(vbr::set<std::uint32_t>::open_with(shape, 1, std::vector<std::uint64_t>{5})); // refused
    static_cast<void>(vbr::set<std::uint64_t>::open_with(shape, 1, std::vector<std::uint32_t>{5}));
    static_cast<void>(map.insert(5, 0.5));
    static_cast<void>(map.insert(5, "0.5")); // refused
}

// What a record map refuses: results that nobody asks, copies, calls without a key, and keys and values that bytes don't make.
using texts = vbr::record_map<vbr::small_string<31>, large>;

void record_maps(texts &map, texts::loan &mine, const texts::key_type &who, vbr::cursor &of_a_map) {
    mine.insert(who, large{1, 2}); // refused
    mine.put(who, large{1, 2}); // refused
    map.lend(); // refused
    if (mine.has(who)) return; // refused
    if (mine.get(who)) return; // refused
    std::optional<large> got = mine.get(who); // refused
    texts copy = map; // refused
    texts::loan lent = mine; // refused
    static_cast<void>(mine.insert("somebody", large{1, 2})); // refused
    texts::key_type not_asked = texts::key_type::from("somebody"); // refused
    std::string_view gone = texts::key_type::from("somebody").value().view(); // refused
    static_cast<void>(mine->get(who)); // refused
    static_cast<void>(mine.next(of_a_map)); // refused
    static_cast<void>(mine.replace_entry(who, large{1, 2})); // refused
    static_cast<void>(mine.compute(who, [](const std::optional<large> &there) { return there; })); // refused
    vbr::record_map<std::uint64_t, std::string> of_strings; // refused
    vbr::record_map<padded, large> with_padding; // refused
    vbr::record_map<std::string_view, large> of_pointers; // refused
    vbr::record_map<std::uint64_t, large, vbr::keyed_hash<std::uint64_t>> hashed; // refused
    vbr::small_string<65536> too_large; // refused
    if (mine.has(who).value() && mine.get(who).value()) map = texts();
}

// What a cache refuses: results that nobody asks, copies, texts that are no key, and a time without a unit.
using caches_of = vbr::cache<vbr::small_string<31>, large>;

void caches(caches_of &cache, caches_of::loan &mine, const caches_of::key_type &who) {
    mine.put(who, large{1, 2}); // refused
    mine.clear(); // refused
    cache.lend(); // refused
    cache.renew(); // refused
    if (mine.has(who)) return; // refused
    std::optional<large> got = mine.get(who); // refused
    caches_of copy = cache; // refused
    caches_of::loan lent = mine; // refused
    static_cast<void>(mine.insert("somebody", large{1, 2})); // refused
    static_cast<void>(mine.put_for(who, large{1, 2}, 60)); // refused
    static_cast<void>(mine.put_for(who, large{1, 2}, std::chrono::seconds(60)));
    static_cast<void>(mine.compute(who, [](const std::optional<large> &there) { return there; })); // refused
    caches_of unasked = caches_of::open_for(8, 1); // refused
    if (mine.has(who).value() && mine.get(who).value()) cache = caches_of();
}

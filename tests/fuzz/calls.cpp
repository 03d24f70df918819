// Random sequences of calls of the C library, in one thread, on sets or on maps, against a map of the standard library.
//
//     calls sets|maps INPUTS [SEED [FILE]]   tries so many random inputs; FILE gets at most 100 that show all that was seen
//     calls sets|maps --replay FILE          tries the inputs of a file, one a line
//
// An input is bytes, which are read as calls: openings with good and bad numbers, calls with budgets of all sizes, closings
// in any order, on handles that are empty or in use, with memory that is refused. While the other handles stand still, as
// they do here, a budget that vbr.h promises to be enough is enough: so each refusal is known to be due, or isn't made. No two
// calls store the same value, so one that was stored before is told from the last; calls that expect a value expect that, or
// another one. Walks go on by any cursor, with other
// calls in between: each gives the next key of the map in the order of buckets, and by how many steps is known too, but for removed
// nodes that may still be in their lists. Balances are known after each call. All handles of a set are asked for a report, or to go on
// over a fresh set of any shape: in any order, or not all of them, or with an empty one or one of another set among them.
// Link with -Wl,--wrap=malloc,--wrap=realloc,--wrap=free,--wrap=getrandom.
#include "fuzz.hpp"
#include "vbr.h"

#include <algorithm>
#include <cstring>
#include <map>
#include <memory>
#include <sys/types.h>

using fuzz::fail;

// ---- memory that is refused --------------------------------------------------------------------------------

extern "C" {
void *__real_malloc(size_t size);
void *__real_realloc(void *block, size_t size);
void __real_free(void *block);
}

static long allowed = -1;  // how many allocations are granted before one is refused; below 0: all are
static bool refused_one;
static long blocks;

static bool refuses() {
    if (allowed < 0 || allowed-- > 0) return false;
    return refused_one = true;
}

extern "C" void *__wrap_malloc(size_t size) {
    void *block = refuses() ? nullptr : __real_malloc(size);
    blocks += block != nullptr;
    return block;
}

extern "C" void *__wrap_realloc(void *old, size_t size) {
    void *block = refuses() ? nullptr : __real_realloc(old, size);
    blocks += block && !old;
    return block;
}

extern "C" void __wrap_free(void *block) {
    blocks -= block != nullptr;
    __real_free(block);
}

// Each opening draws seed 0, so that an input has the same buckets each time.
extern "C" ssize_t __wrap_getrandom(void *bytes, size_t count, unsigned) {
    std::memset(bytes, 0, count);
    return static_cast<ssize_t>(count);
}

// ---- what is called ------------------------------------------------------------------------------------------

// Where a value is written that a call gives, and what stands there before.
static constexpr uint64_t NO_VALUE = 0xabcdef;

// Those from REPLACE on are of maps alone.
enum Kind { INSERT, REMOVE, HAS, GET, REPLACE, PUT, GET_OR_INSERT, COMPARE_EXCHANGE, REMOVE_IF };

// A call: its key, and of a map the value that it stores and the one that it expects.
struct Request {
    Kind kind;
    uint64_t key, value, expected;
};

static bool expects(Kind kind) { return kind == COMPARE_EXCHANGE || kind == REMOVE_IF; }
static bool removes(Kind kind) { return kind == REMOVE || kind == REMOVE_IF; }
static bool only_looks(Kind kind) { return kind == HAS || kind == GET; }
static bool gives(Kind kind) { return kind != INSERT && kind != HAS; }

// A set: its items are keys, and it gives no values.
struct Sets {
    using Handle = vbr_handle;
    using Item = uint64_t;
    static constexpr const char *NAME = "sets";
    static constexpr bool HAS_VALUES = false;
    static Item item(uint64_t key, uint64_t) { return key; }
    static uint64_t key(Item item) { return item; }
    static uint64_t value(Item) { return 0; }
    static constexpr auto open = vbr_open;
    static constexpr auto open_with = vbr_open_with;
    static constexpr auto close = vbr_close;
    static constexpr auto report_all = vbr_report_all;
    static constexpr auto renew_all = vbr_renew_all;
    static constexpr auto balance = vbr_balance;
    static constexpr auto epoch = vbr_epoch;
    static constexpr auto drop = vbr_drop;
    static int call(const Request &it, Handle *handle, uint32_t budget, uint64_t *) {
        return it.kind == INSERT   ? vbr_insert_within(handle, it.key, budget)
               : it.kind == REMOVE ? vbr_remove_within(handle, it.key, budget)
                                   : vbr_has_within(handle, it.key, budget);
    }
    static int call(const Request &it, Handle *handle, uint64_t *) {
        return it.kind == INSERT ? vbr_insert(handle, it.key) : it.kind == REMOVE ? vbr_remove(handle, it.key) : vbr_has(handle, it.key);
    }
    static int next(Handle *handle, vbr_cursor *cursor, uint32_t budget, uint64_t *key, uint64_t *) {
        return vbr_next_within(handle, cursor, key, budget);
    }
};

// A map: some calls store the value that they are given, and some tell the one that is there, or was.
struct Maps {
    using Handle = vbr_map_handle;
    using Item = vbr_entry;
    static constexpr const char *NAME = "maps";
    static constexpr bool HAS_VALUES = true;
    static Item item(uint64_t key, uint64_t value) { return {key, value}; }
    static uint64_t key(Item item) { return item.key; }
    static uint64_t value(Item item) { return item.value; }
    static constexpr auto open = vbr_map_open;
    static constexpr auto open_with = vbr_map_open_with;
    static constexpr auto close = vbr_map_close;
    static constexpr auto report_all = vbr_map_report_all;
    static constexpr auto renew_all = vbr_map_renew_all;
    static constexpr auto balance = vbr_map_balance;
    static constexpr auto epoch = vbr_map_epoch;
    static constexpr auto drop = vbr_map_drop;
    static int call(const Request &it, Handle *handle, uint32_t budget, uint64_t *found) {
        switch (it.kind) {
            case INSERT: return vbr_map_insert_within(handle, it.key, it.value, budget);
            case REMOVE: return vbr_map_remove_within(handle, it.key, found, budget);
            case HAS: return vbr_map_has_within(handle, it.key, budget);
            case GET: return vbr_map_get_within(handle, it.key, found, budget);
            case REPLACE: return vbr_map_replace_within(handle, it.key, it.value, found, budget);
            case PUT: return vbr_map_put_within(handle, it.key, it.value, found, budget);
            case GET_OR_INSERT: return vbr_map_get_or_insert_within(handle, it.key, it.value, found, budget);
            case COMPARE_EXCHANGE: return vbr_map_compare_exchange_within(handle, it.key, it.expected, it.value, found, budget);
            case REMOVE_IF: return vbr_map_remove_if_within(handle, it.key, it.expected, found, budget);
        }
        return VBR_NO_HANDLE;
    }
    static int call(const Request &it, Handle *handle, uint64_t *found) {
        switch (it.kind) {
            case INSERT: return vbr_map_insert(handle, it.key, it.value);
            case REMOVE: return vbr_map_remove(handle, it.key, found);
            case HAS: return vbr_map_has(handle, it.key);
            case GET: return vbr_map_get(handle, it.key, found);
            case REPLACE: return vbr_map_replace(handle, it.key, it.value, found);
            case PUT: return vbr_map_put(handle, it.key, it.value, found);
            case GET_OR_INSERT: return vbr_map_get_or_insert(handle, it.key, it.value, found);
            case COMPARE_EXCHANGE: return vbr_map_compare_exchange(handle, it.key, it.expected, it.value, found);
            case REMOVE_IF: return vbr_map_remove_if(handle, it.key, it.expected, found);
        }
        return VBR_NO_HANDLE;
    }
    static int next(Handle *handle, vbr_cursor *cursor, uint32_t budget, uint64_t *key, uint64_t *value) {
        vbr_entry entry = {*key, *value};
        int answer = vbr_map_next_within(handle, cursor, &entry, budget);
        *key = entry.key, *value = entry.value;
        return answer;
    }
};

static bool operator==(const vbr_entry &a, const vbr_entry &b) { return a.key == b.key && a.value == b.value; }

// ---- the model -----------------------------------------------------------------------------------------------

// The steps of a call of a walk. It goes on in pieces, each of which begins only where eight steps are left of the budget.
struct Steps {
    uint64_t budget, used = 0;
    uint64_t needed = 0;  // the least budget in which the last piece begins

    bool take(uint64_t steps) {
        needed = used + 8;
        if (needed > budget) return false;
        used += steps;
        return true;
    }

    // Whether the last piece may have been one of three steps, whatever it was.
    bool took_three() {
        needed = std::max(needed, used + 5);
        return needed <= budget;
    }

    // Of so many pieces of three steps, how many it takes.
    uint64_t take_threes(uint64_t most) {
        uint64_t count = budget < used + 8 ? 0 : std::min(most, (budget - used - 8) / 3 + 1);
        used += 3 * count;
        needed = used + (count < most ? 8 : 5);
        return count;
    }
};

// How far a call of a walk comes: its answer, the key that it gives, and the cursor then.
struct Reached {
    int answer;
    uint64_t key;
    vbr_cursor cursor;
    uint64_t needed;
};

struct Model {
    uint32_t slots, buckets;
    uint64_t last_epoch;
    size_t handles, open;
    std::map<uint64_t, uint64_t> keys;  // each with its value
    std::map<uint64_t, uint64_t> marked;  // by bucket: how many removed nodes may still be in its list
    uint64_t all_marked = 0, inserts = 0;  // how many calls may have put a node into a list, each of which may advance the epoch

    // What a call finds: no, yes, or the key with another value than the one that it expects.
    int finds(const Request &it) const {
        auto there = keys.find(it.key);
        if (there == keys.end()) return VBR_NO;
        return expects(it.kind) && there->second != it.expected ? VBR_OTHER : VBR_YES;
    }

    // Whether a call stores a value where it finds that.
    static bool stores(Kind kind, int found) {
        switch (kind) {
            case INSERT: case GET_OR_INSERT: return found == VBR_NO;
            case REPLACE: case COMPARE_EXCHANGE: return found == VBR_YES;
            case PUT: return true;
            default: return false;
        }
    }

    // Where a key belongs: the upper half of its product with the number of seed 0, as a part of the buckets.
    uint64_t bucket_of(uint64_t key) const { return (key * 0x9E3779B97F4A7C15 >> 32) * buckets >> 32; }

    uint64_t marked_in(uint64_t bucket) const {
        auto it = marked.find(bucket);
        return it == marked.end() ? 0 : it->second;
    }

    // How many nodes a bucket has at most.
    uint64_t nodes_in(uint64_t bucket) const {
        uint64_t count = marked_in(bucket);
        for (auto &[other, value] : keys) count += bucket_of(other) == bucket;
        return count;
    }

    // The keys of each bucket that has some, ascending.
    std::map<uint64_t, std::vector<uint64_t>> lists() const {
        std::map<uint64_t, std::vector<uint64_t>> lists;
        for (auto &[key, value] : keys) lists[bucket_of(key)].push_back(key);
        return lists;
    }

    // How far a call comes from a cursor on: with no marked node in any list; or with as many as there may be, before the key that
    // it gives, and one of them the last where it gives none.
    Reached reach(vbr_cursor cursor, uint64_t budget, bool with_marked) const {
        auto lists = this->lists();
        if (with_marked)
            for (auto &[bucket, count] : marked) lists[bucket];
        Steps steps{budget};
        while (cursor.bucket < buckets) {
            auto list = lists.lower_bound(cursor.bucket);
            uint64_t empty = (list == lists.end() ? buckets : list->first) - cursor.bucket;
            if (empty > 0) {
                uint64_t passed = steps.take_threes(empty);
                if (passed > 0) cursor = {static_cast<uint32_t>(cursor.bucket + passed), 0, 0};
                if (passed < empty) return {VBR_OUT_OF_STEPS, 0, cursor, steps.needed};
                continue;
            }
            uint64_t marks = with_marked ? marked_in(cursor.bucket) : 0;
            bool takes = steps.take(3);
            for (uint64_t i = 0; takes && i < marks; i++) takes = steps.take(3);
            for (uint64_t key : list->second) {
                takes = takes && steps.take(5);
                if (takes && key >= cursor.from) return {VBR_YES, key, after(key, key == list->second.back() && marks == 0), steps.needed};
            }
            if (takes && marks > 0) takes = steps.took_three();
            if (!takes) return {VBR_OUT_OF_STEPS, 0, cursor, steps.needed};
            cursor = {cursor.bucket + 1, 0, 0};
        }
        return {VBR_NO, 0, cursor, steps.needed};
    }

    // Where the cursor stands after a key: before the next bucket where its node is the last of its list, or no number is greater.
    vbr_cursor after(uint64_t key, bool is_last) const {
        uint32_t bucket = static_cast<uint32_t>(bucket_of(key));
        return is_last || key == UINT64_MAX ? vbr_cursor{bucket + 1, 0, 0} : vbr_cursor{bucket, 0, key + 1};
    }
};

static constexpr size_t CELLS = 80, MOST_KEYS = 96;

template <class Of> class Calls {
public:
    explicit Calls(const std::string &input) : input(input) {}

    std::vector<uint64_t> features;  // what it showed; nothing where a set was large, so that such inputs stay few

    void play() {
        while (position < input.size()) step();
        for (size_t cell = 0; cell < CELLS; cell++) close(cell, MOST_KEYS);
        if (blocks != 0) fail("a block of memory is left behind");
        if (large > 0) features.clear();
    }

private:
    const std::string &input;
    size_t position = 0;
    int large = 0;
    uint64_t values = 0;  // how many were stored
    typename Of::Handle cells[CELLS] = {};
    std::shared_ptr<Model> models[CELLS];
    int64_t balances[CELLS] = {};
    uint32_t budgets[CELLS] = {};  // what the program wrote into each handle, which no call changes
    uint32_t openings[CELLS] = {};  // of each handle: one more than the greatest of those that were opened or renewed with it
    vbr_cursor cursors[CELLS] = {};  // of each cell's walk, which is refused when another set is in the cell, and then goes on there

    uint8_t byte() { return position < input.size() ? static_cast<uint8_t>(input[position++]) : 0; }

    void saw(int what, int answer, uint64_t more) {
        features.push_back((static_cast<uint64_t>(what) << 32) ^ (static_cast<uint64_t>(answer + 16) << 24) ^ more);
    }

    size_t cell() {
        uint8_t x = byte();
        return x < 200 ? x % 8 : x % CELLS;
    }

    uint64_t key() {
        uint8_t x = byte();
        if (x < 192) return x % 24;
        if (x < 224) return UINT64_MAX - (x & 7);
        return (static_cast<uint64_t>(x & 15) << 60 | 1u << 20) + byte();
    }

    void step() {
        uint8_t x = byte();
        switch (x % 16) {
            case 0: case 1: case 2: case 3: return call(Of::HAS_VALUES ? storing(x) : INSERT, cell(), key());
            case 4: return x & 64 ? walk(cell()) : call(INSERT, cell(), key());
            case 5: case 6: case 7: return call(Of::HAS_VALUES && x & 128 ? REMOVE_IF : REMOVE, cell(), key());
            case 8: return call(HAS, cell(), key());
            case 9: return call(Of::HAS_VALUES ? GET : HAS, cell(), key());
            case 10: return x & 64 ? walk(cell()) : burst(cell(), key(), byte());
            case 11: case 12: return open(cell(), x & 32);
            case 13: return close(cell(), byte() % MOST_KEYS);
            case 14: return x & 64 ? all_at_once(cell(), x & 128) : drop(cell());
            default:
                allowed = byte() % 8;
                if (x & 64) return all_at_once(cell(), x & 128);
                return x & 16 ? open(cell(), x & 32) : close(cell(), MOST_KEYS);
        }
    }

    // The kind of a call that stores a value: half of them are inserts.
    static Kind storing(uint8_t x) {
        static const Kind others[] = {REPLACE, PUT, GET_OR_INSERT, COMPARE_EXCHANGE};
        return x & 128 ? others[x / 16 % 4] : INSERT;
    }

    // Large sets take long to open: they come seldom, and once an input; that of many slots, which takes more than 1 GB,
    // more seldom by far. So many slots leave room for a lesser last epoch than VBR_MAX_EPOCH.
    static constexpr uint32_t LARGE = 1u << 24;
    bool is_small(uint8_t least) { return byte() < least || large++ > 0; }

    uint64_t slots() {
        static const uint64_t some[] = {0, LARGE, VBR_MAX_SLOTS + 1, UINT32_MAX, 63, 64, 65, 1000};
        uint8_t x = byte();
        uint64_t slots = x < 200 ? 1 + x % 20 : x < 240 ? 40 + x : some[x % 8];
        return slots == LARGE && (byte() < 255 || is_small(255)) ? 1 : slots;
    }

    uint64_t buckets() {
        static const uint64_t some[] = {0, LARGE, VBR_MAX_BUCKETS + 1ull, UINT32_MAX};
        uint8_t x = byte();
        uint64_t buckets = x < 240 ? 1 + x % 9 : some[x % 4];
        return buckets == LARGE && (byte() < 250 || is_small(250)) ? 1 : buckets;
    }

    uint64_t last_epoch(uint64_t slots) {
        const uint64_t greatest = vbr_max_epoch(static_cast<uint32_t>(slots)), some[] = {0, greatest, greatest + 1, UINT64_MAX};
        uint8_t x = byte();
        return x < 128 ? VBR_MAX_EPOCH : x < 240 ? 1 + x % 20 : some[x % 4];
    }

    static bool is_shape(uint64_t slots, uint64_t buckets, uint64_t last_epoch) {
        if (slots < 1 || slots > VBR_MAX_SLOTS || buckets < 1 || buckets > VBR_MAX_BUCKETS || last_epoch < 1) return false;
        return last_epoch == VBR_MAX_EPOCH || last_epoch <= vbr_max_epoch(static_cast<uint32_t>(slots));
    }

    // The last epoch of a set that opened with this one.
    static uint64_t last_epoch_of(uint64_t slots, uint64_t last_epoch) {
        return std::min(last_epoch, vbr_max_epoch(static_cast<uint32_t>(slots)));
    }

    // A value that no other call stored.
    uint64_t fresh_value() { return ++values * 0x9E3779B97F4A7C15; }

    // The value that a call expects: mostly the one that is there, or else some that were stored before, or will be.
    uint64_t expected_value(const Model &m, uint64_t key) {
        uint8_t x = byte();
        auto there = m.keys.find(key);
        return x < 160 && there != m.keys.end() ? there->second : (values + 1 - x % 32) * 0x9E3779B97F4A7C15;
    }

    // What to open with: mostly the keys ascend.
    std::vector<typename Of::Item> opening_items() {
        uint8_t x = byte();
        std::vector<uint64_t> keys(x % 24);
        for (uint64_t &key : keys) key = this->key();
        if (x < 224) {
            std::sort(keys.begin(), keys.end());
            keys.erase(std::unique(keys.begin(), keys.end()), keys.end());
        }
        std::vector<typename Of::Item> items;
        for (uint64_t key : keys) items.push_back(Of::item(key, fresh_value()));
        return items;
    }

    static bool ascend(const std::vector<typename Of::Item> &items) {
        return std::adjacent_find(items.begin(), items.end(), [](auto a, auto b) { return Of::key(a) >= Of::key(b); }) == items.end();
    }

    void open(size_t from, bool with_keys) {
        uint64_t s = slots(), b = buckets(), e = last_epoch(s);
        uint8_t x = byte();
        size_t count = x < 200 ? 1 + x % 4 : x < 250 ? x % CELLS : 0;
        count = std::min(count, CELLS - from);
        bool in_use = false;
        for (size_t i = from; i < from + count; i++) in_use |= models[i] != nullptr;
        bool bad = !is_shape(s, b, e);
        std::vector<typename Of::Item> items;
        if (with_keys) items = opening_items();
        int want = bad                                  ? VBR_BAD_SHAPE
                   : count < 1 || count > 64            ? VBR_BAD_COUNT
                   : in_use                             ? VBR_IN_USE
                   : items.size() > s || !ascend(items) ? VBR_BAD_KEYS
                                                        : VBR_NO;
        refused_one = false;
        long before = blocks;
        uint32_t slots = static_cast<uint32_t>(s), buckets = static_cast<uint32_t>(b);
        int answer = with_keys ? Of::open_with(&cells[from], count, slots, buckets, e, items.data(), items.size())
                               : Of::open(&cells[from], count, slots, buckets, e);
        allowed = -1;
        if (answer != want && !(want == VBR_NO && answer == VBR_NO_MEMORY && refused_one)) fail("the answer of an opening");
        if (answer != VBR_NO && blocks != before) fail("an opening kept memory");
        saw(with_keys ? 7 : 1, answer, items.size() << 2 | (count > 1) * 2 | refused_one);
        if (answer != VBR_NO) return;
        auto model = std::make_shared<Model>();
        for (const auto &item : items) model->keys[Of::key(item)] = Of::value(item);
        model->slots = slots, model->buckets = buckets, model->last_epoch = last_epoch_of(s, e);
        model->handles = model->open = count;
        uint32_t greatest = *std::max_element(openings + from, openings + from + count);
        for (size_t i = from; i < from + count; i++) models[i] = model, balances[i] = i == from ? static_cast<int64_t>(items.size()) : 0;
        std::fill(openings + from, openings + from + count, greatest + 1);
        check_balances(from, count);
    }

    void check_balances(size_t from, size_t count) {
        for (size_t i = from; i < from + count; i++) {
            if (Of::balance(&cells[i]) != (models[i] ? balances[i] : 0)) fail("a balance");
            if (cells[i].steps != budgets[i]) fail("a call wrote the budget of a handle");
            if (cells[i].opening != openings[i]) fail("of which opening a handle is");
        }
    }

    // The steps that are promised to be enough.
    static uint64_t enough(const Model &m, Kind kind, uint64_t key) {
        uint64_t n = m.nodes_in(m.bucket_of(key)), words = (m.slots + 63) / 64;
        if (only_looks(kind)) return 5 * n + 11;
        if (removes(kind)) return 9 * n + 11;
        return std::max(18 * n + 82, 18 * n + words + 20) + 2 * (kind == COMPARE_EXCHANGE);
    }

    uint32_t budget(const Model &m, Kind kind, uint64_t key) {
        uint8_t x = byte();
        uint64_t most = enough(m, kind, key);
        if (x < 96) return static_cast<uint32_t>(most);
        if (x < 128) return UINT32_MAX - (x & 3);
        if (x < 160) return x - 128u;
        return static_cast<uint32_t>(most * (x - 160) / 96);
    }

    // Whether a value was given where a key is there with it, and nothing was written otherwise.
    static void check_value(const Model &m, const Request &it, int answer, uint64_t told) {
        bool is_given = Of::HAS_VALUES && gives(it.kind) && (answer == VBR_YES || answer == VBR_OTHER);
        if (told != (is_given ? m.keys.at(it.key) : NO_VALUE)) fail("the value that a call gives");
    }

    static int what(Kind kind) { return kind < GET ? 2 + kind : kind == GET ? 8 : 7 + kind; }

    // A call, which is not always told where to write what it finds. Odd budgets are those of the handle.
    int make(const Request &it, size_t cell, uint32_t budget, uint64_t *found) {
        bool is_told = !Of::HAS_VALUES || !gives(it.kind) || values % 8 != 7;
        if (budget % 2) cells[cell].steps = budgets[cell] = budget;
        int answer = budget % 2 ? Of::call(it, &cells[cell], is_told ? found : nullptr) : Of::call(it, &cells[cell], budget, is_told ? found : nullptr);
        if (!is_told && models[cell] && (answer == VBR_YES || answer == VBR_OTHER)) *found = models[cell]->keys.at(it.key);
        return answer;
    }

    void call(Kind kind, size_t cell, uint64_t key) {
        uint64_t found = NO_VALUE;
        if (!models[cell]) {
            int answer = make({kind, key, 0, 0}, cell, byte(), &found);
            if (answer != VBR_NO_HANDLE || found != NO_VALUE) fail("a call of an empty handle");
            return saw(what(kind), answer, 0);
        }
        Model &m = *models[cell];
        uint32_t budget = this->budget(m, kind, key);
        uint64_t most = enough(m, kind, key), expected = expects(kind) ? expected_value(m, key) : 0;
        Request it{kind, key, removes(kind) || only_looks(kind) ? 0 : fresh_value(), expected};
        int there = m.finds(it);
        m.inserts += Model::stores(kind, there);
        int answer = make(it, cell, budget, &found);
        check(m, kind, answer, there, budget, most);
        check_value(m, it, answer, found);
        saw(what(kind), answer, there | (budget < most) << 2 | (m.keys.size() > 8) << 3 | (m.handles > 1) << 4 |
                                  (m.slots < 8) << 5 | (m.all_marked > 0) << 6 | (m.open < m.handles) << 7);
        if (answer >= 0) {
            auto before = static_cast<int64_t>(m.keys.size());
            change(m, it, there, budget < most + 9);
            balances[cell] += static_cast<int64_t>(m.keys.size()) - before;
        }
        check_balances(cell, 1);
    }

    // What an answered call does; a node that it takes out may still be in its list where the budget is short.
    static void change(Model &m, const Request &it, int there, bool is_short) {
        bool stores = Model::stores(it.kind, there), takes = there == VBR_YES && (stores || removes(it.kind));
        if (takes && is_short) m.marked[m.bucket_of(it.key)]++, m.all_marked++;
        if (stores) m.keys[it.key] = it.value;
        else if (takes) m.keys.erase(it.key);
    }

    // Whether the answer is the set's, or a refusal that is due.
    void check(const Model &m, Kind kind, int answer, int there, uint32_t budget, uint64_t most) const {
        if (budget < 8 && answer != VBR_OUT_OF_STEPS) fail("a call within less than eight steps");
        switch (answer) {
            case VBR_NO: case VBR_YES: case VBR_OTHER:
                if (answer != (kind == INSERT ? !there : there)) fail("a wrong answer");
                return;
            case VBR_OUT_OF_STEPS:
                if (budget >= most) fail("too few steps, with a budget that is promised to be enough");
                return;
            case VBR_NO_SLOT:
                if (!Model::stores(kind, there)) fail("a refusal that only calls have which store a value");
                if (m.slots >= m.keys.size() + m.all_marked + 64 * m.handles) fail("no slot, and some are free");
                return;
            case VBR_EPOCH_SPENT:
                if (!Model::stores(kind, there)) fail("a refusal that only calls have which store a value");
                if (m.inserts < m.last_epoch) fail("the epoch is spent, after too few inserts");
                return;
            default: fail("an answer that no call has");
        }
    }

    // Goes on with the walk of a cell; or first the cursor is put to the beginning, to where another walk is, or anywhere.
    void walk(size_t cell) {
        uint8_t x = byte();
        if (x >= 232) cursors[cell] = {byte() % 32u * (x & 1 ? 1u : 0x8421u), 0, byte() * (x & 2 ? 1u : 0x0101010101010101u)};
        else if (x >= 208) cursors[cell] = cursors[byte() % 8];
        else if (x >= 176) cursors[cell] = VBR_CURSOR_BEGIN;
        if (x < 48) return walk_all(cell, byte());
        for (int i = 0; i <= x % 8; i++) next(cell);
    }

    static bool same(vbr_cursor a, vbr_cursor b) { return a.bucket == b.bucket && a.from == b.from; }

    uint32_t budget_of_walk(const Model &m, vbr_cursor cursor) {
        uint8_t x = byte();
        uint64_t least = m.reach(cursor, UINT64_MAX, false).needed, most = m.reach(cursor, UINT64_MAX, true).needed;
        uint64_t budget = x < 64    ? most
                          : x < 128 ? std::max<uint64_t>(least, 1) - 1
                          : x < 144 ? UINT32_MAX - (x & 3)
                          : x < 176 ? x - 144u
                          : x < 208 ? 5 * m.nodes_in(cursor.bucket) + 11
                                    : most * (x - 208) / 48;
        return static_cast<uint32_t>(budget);
    }

    void next(size_t cell) {
        vbr_cursor before = cursors[cell];
        uint64_t key = NO_VALUE, value = NO_VALUE;
        if (!models[cell]) {
            int answer = Of::next(&cells[cell], &cursors[cell], byte(), &key, &value);
            if (answer != VBR_NO_HANDLE || key != NO_VALUE || value != NO_VALUE || !same(before, cursors[cell])) fail("a walk of an empty handle");
            return saw(9, answer, 0);
        }
        const Model &m = *models[cell];
        uint32_t budget = budget_of_walk(m, before);
        if (before.opening != 0 && before.opening != openings[cell]) {
            int refused = Of::next(&cells[cell], &cursors[cell], budget, &key, &value);
            if (refused != VBR_RESHAPED || key != NO_VALUE || value != NO_VALUE || !same(before, cursors[cell]) || before.opening != cursors[cell].opening)
                fail("a walk that began on another opening");
            cursors[cell].opening = 0;  // it begins on this one, from where it stands
        }
        int answer = Of::next(&cells[cell], &cursors[cell], budget, &key, &value);
        if (cursors[cell].opening != openings[cell]) fail("the opening that a walk notes");
        check_reached(m, before, budget, answer, key, cursors[cell]);
        if (answer == VBR_YES && Of::HAS_VALUES ? value != m.keys.at(key) : value != NO_VALUE) fail("the value that a walk gives");
        saw(9, answer, (before.from > 0) | (before.bucket != cursors[cell].bucket) << 1 | (m.all_marked > 0) << 2 | (m.keys.size() > 8) << 3 |
                           (m.open < m.handles) << 4 | (budget < 8) << 5 | (key == UINT64_MAX) << 6 | (m.buckets > 1) << 7);
        if (answer == VBR_YES && budget % 2 == 0) call(Of::HAS_VALUES ? GET : HAS, cell, key);
    }

    // Whether a call of a walk came as far as it has to, and no further.
    static void check_reached(const Model &m, vbr_cursor before, uint32_t budget, int answer, uint64_t key, vbr_cursor now) {
        Reached least = m.reach(before, budget, true), most = m.reach(before, budget, false);
        if (answer != VBR_YES && key != NO_VALUE) fail("a call of a walk that gives no key has written");
        if (answer != VBR_OUT_OF_STEPS) {
            if (answer != most.answer) fail("a wrong answer of a walk");
            if (answer == VBR_YES && key != most.key) fail("another key than the next one");
            bool may_stay = answer == VBR_YES && m.marked_in(m.bucket_of(key)) > 0;  // with a marked node behind the key's
            if (!same(now, most.cursor) && !(may_stay && same(now, m.after(key, false)))) fail("the cursor isn't after the key that was given");
            return;
        }
        if (least.answer != VBR_OUT_OF_STEPS) fail("too few steps for a walk, with a budget that is enough");
        uint64_t furthest = most.answer == VBR_NO ? m.buckets - 1 : most.answer == VBR_YES ? m.bucket_of(most.key) : most.cursor.bucket;
        if (now.bucket < least.cursor.bucket || now.bucket > furthest) fail("how far a refused walk has come");
        if (now.from != (now.bucket == before.bucket ? before.from : 0)) fail("a refused walk has lost its place");
        if (budget >= 5 * m.nodes_in(before.bucket) + 11 && now.bucket == before.bucket) fail("a walk doesn't go on with a budget that is promised to be enough");
    }

    // A whole walk, whose budget is doubled where it is too small: it gives all keys, in their order.
    void walk_all(size_t cell, uint32_t budget) {
        if (!models[cell]) return next(cell);
        const Model &m = *models[cell];
        std::vector<uint64_t> wanted, given;
        for (auto &[bucket, list] : m.lists()) wanted.insert(wanted.end(), list.begin(), list.end());
        vbr_cursor &cursor = cursors[cell], before = VBR_CURSOR_BEGIN;
        cursor = before;
        uint64_t key = 0, value = 0;
        for (int answer; (answer = Of::next(&cells[cell], &cursor, budget, &key, &value)) != VBR_NO; before = cursor) {
            if (answer == VBR_YES) given.push_back(key);
            else if (same(cursor, before)) budget = 2 * budget + 1;
            if (given.size() > wanted.size()) break;
        }
        if (given != wanted) fail("the keys of a walk");
        saw(10, 0, (given.empty()) | (given.size() > 8) << 1 | (m.all_marked > 0) << 2);
    }

    // Inserts and removes of one key in turn: slots are used again, and the epoch moves. In a map a second insert stores nothing,
    // and a get tells what the first one stored; then the key has other values.
    void burst(size_t cell, uint64_t key, int count) {
        static const std::vector<Kind> turn = Of::HAS_VALUES ? std::vector{INSERT, INSERT, GET, REPLACE, COMPARE_EXCHANGE, PUT, REMOVE_IF, REMOVE}
                                                             : std::vector{INSERT, REMOVE};
        for (size_t i = 0; i < static_cast<size_t>(count % 64); i++) call(turn[i % turn.size()], cell, key);
    }

    void close(size_t cell, size_t room) {
        typename Of::Item items[MOST_KEYS + 1];
        std::fill(std::begin(items), std::end(items), Of::item(NO_VALUE, NO_VALUE));
        vbr_report report = {77, 77, 77, 77};
        std::shared_ptr<Model> m = models[cell];
        int want = !m ? VBR_NO_HANDLE : m->open > 1 ? VBR_NO : m->keys.size() > room ? VBR_NO_ROOM : VBR_YES;
        refused_one = false;
        int answer = Of::close(&cells[cell], items, room, &report);
        allowed = -1;
        bool short_of = m && m->open == 1 && answer == VBR_NO_MEMORY && refused_one;
        if (answer != want && !short_of) fail("the answer of a close");
        saw(5, answer, m ? (m->keys.size() > room) | (m->all_marked > 0) << 1 | (m->keys.empty()) << 2 : 0);
        bool untouched = report.epoch == 77 && report.live == 77 && report.marked == 77 && report.free == 77;
        bool told = answer == VBR_YES || answer == VBR_NO_ROOM;
        if (!told && !untouched) fail("a close wrote without a report");
        if (answer != VBR_YES && !(items[0] == Of::item(NO_VALUE, NO_VALUE))) fail("a close wrote keys that have no room");
        if (told) check_report(*m, report);
        if (answer == VBR_YES) check_items(*m, items);
        if (m && !short_of && answer != VBR_NO_ROOM) m->open--, models[cell] = nullptr;
        check_balances(cell, 1);
    }

    // The cells of a set, by whose handles a call of all of them is made, mostly all; and what it answers for that, or VBR_NO.
    std::vector<size_t> cells_of_all(size_t cell, int *told) {
        std::vector<size_t> all;
        std::shared_ptr<Model> m = models[cell];
        for (size_t i = 0; i < CELLS; i++)
            if (m && models[i] == m) all.push_back(i);
        if (all.empty()) all = {cell};
        uint8_t x = byte();
        if (x & 1) std::reverse(all.begin(), all.end());
        std::rotate(all.begin(), all.begin() + byte() % all.size(), all.end());
        if (x >= 216) all.pop_back();
        else if (x >= 176) all.back() = byte() % CELLS;
        bool are_empty = false, are_mixed = false;
        for (size_t i : all) are_empty |= !models[i], are_mixed |= models[i] != models[all[0]];
        std::vector<size_t> sorted = all;
        std::sort(sorted.begin(), sorted.end());
        if (std::adjacent_find(sorted.begin(), sorted.end()) != sorted.end()) all.clear();  // no handle is there twice
        *told = all.empty()                                 ? VBR_MISSING
                : are_empty                                 ? VBR_NO_HANDLE
                : are_mixed                                 ? VBR_MIXED
                : all.size() < models[all[0]]->handles      ? VBR_MISSING
                                                            : VBR_NO;
        return all;
    }

    // A report by all handles, or a renewal.
    void all_at_once(size_t cell, bool renews) {
        int told = VBR_NO;
        std::vector<size_t> of = cells_of_all(cell, &told);
        typename Of::Handle all[CELLS] = {};
        for (size_t i = 0; i < of.size(); i++) std::swap(all[i], cells[of[i]]);
        refused_one = false;
        long before = blocks;
        const std::shared_ptr<Model> m = of.empty() ? nullptr : models[of[0]];
        int answer = renews ? renew(m, all, of.size(), told) : report(m, all, of.size(), told);
        allowed = -1;
        for (size_t i = 0; i < of.size(); i++) std::swap(all[i], cells[of[i]]);
        if (answer != VBR_NO && blocks != before) fail("a call of all handles kept memory");
        uint32_t greatest = 0;
        for (size_t i : of) greatest = std::max(greatest, openings[i]);
        if (renews && answer == VBR_NO)
            for (size_t i = 0; i < of.size(); i++) {
                openings[of[i]] = greatest + 1;
                balances[of[i]] = i == 0 ? static_cast<int64_t>(m->keys.size()) : 0;
                if (Of::epoch(&cells[of[i]]) != 1) fail("the epoch after a renewal");
            }
        for (size_t i : of) check_balances(i, 1);
        saw(renews ? 17 : 18, answer, (of.size() > 1) | refused_one << 1 | (m && m->all_marked > 0) << 2 | (m && m->keys.size() > 8) << 3);
    }

    int report(const std::shared_ptr<Model> &m, typename Of::Handle *all, size_t count, int told) {
        typename Of::Item items[MOST_KEYS + 1];
        std::fill(std::begin(items), std::end(items), Of::item(NO_VALUE, NO_VALUE));
        vbr_report report = {77, 77, 77, 77};
        size_t room = byte() % MOST_KEYS;
        int want = told != VBR_NO ? told : m->keys.size() > room ? VBR_NO_ROOM : VBR_YES;
        int answer = Of::report_all(all, count, items, room, &report);
        bool is_short = told == VBR_NO && answer == VBR_NO_MEMORY && refused_one;
        if (answer != want && !is_short && !(told == VBR_MIXED && answer == VBR_MISSING)) fail("the answer of a report by all handles");
        bool untouched = report.epoch == 77 && report.live == 77 && report.marked == 77 && report.free == 77;
        if (answer == VBR_YES || answer == VBR_NO_ROOM) check_report(*m, report);
        else if (!untouched) fail("a report by all handles wrote, and was refused");
        if (answer == VBR_YES) check_items(*m, items);
        else if (!(items[0] == Of::item(NO_VALUE, NO_VALUE))) fail("a report by all handles wrote keys that have no room");
        return answer;
    }

    int renew(const std::shared_ptr<Model> &m, typename Of::Handle *all, size_t count, int told) {
        uint64_t s = slots(), b = buckets(), e = last_epoch(s);
        bool bad = !is_shape(s, b, e);
        int want = bad ? VBR_BAD_SHAPE : told != VBR_NO ? told : m->keys.size() > s ? VBR_NO_ROOM : VBR_NO;
        int answer = Of::renew_all(all, count, static_cast<uint32_t>(s), static_cast<uint32_t>(b), e);
        bool is_short = want == VBR_NO && answer == VBR_NO_MEMORY && refused_one;
        if (answer != want && !is_short && !(want == VBR_MIXED && answer == VBR_MISSING)) fail("the answer of a renewal");
        if (answer != VBR_NO) return answer;
        m->slots = static_cast<uint32_t>(s), m->buckets = static_cast<uint32_t>(b), m->last_epoch = last_epoch_of(s, e);
        m->marked.clear();
        m->all_marked = m->inserts = 0;
        return answer;
    }

    static void check_items(const Model &m, const typename Of::Item *items) {
        size_t count = 0;
        for (auto &[key, value] : m.keys)
            if (!(items[count++] == Of::item(key, value))) fail("a key of the report, or its value");
        if (!(items[count] == Of::item(NO_VALUE, NO_VALUE))) fail("more keys than there are");
    }

    static void check_report(const Model &m, const vbr_report &report) {
        if (report.live != m.keys.size()) fail("the number of keys of the report");
        if (report.marked > m.all_marked) fail("more marked nodes than removes could leave");
        if (uint64_t{report.live} + report.marked + report.free != m.slots) fail("slots are lost");
        if (report.epoch < 1 || report.epoch > m.last_epoch || report.epoch > 1 + m.inserts) fail("the epoch of the report");
    }

    void drop(size_t cell) {
        Of::drop(&cells[cell]);
        saw(6, 0, models[cell] ? models[cell]->open : 0);
        if (!models[cell]) return;
        models[cell]->open--;
        models[cell] = nullptr;
        check_balances(cell, 1);
    }
};

template <class Of> static std::vector<uint64_t> play(const std::string &input) {
    fuzz::current = fuzz::escaped(input, true);
    Calls<Of> calls(input);
    calls.play();
    return calls.features;
}

// ---- inputs --------------------------------------------------------------------------------------------------

static std::string fresh(fuzz::Random &random) {
    std::string input;
    // most begin with an opening of some handles, a third of them with keys, so that there is something to call
    char opening = random.once_in(3) ? 43 : 11;
    if (!random.once_in(8)) input = {opening, 0, static_cast<char>(random.below(256)), static_cast<char>(random.below(240)),
                                     static_cast<char>(random.below(240)), static_cast<char>(random.below(200))};
    size_t size = random.below(160);
    while (input.size() < size) input += static_cast<char>(random.below(256));
    return input;
}

static std::string changed(fuzz::Random &random, const std::vector<std::string> &from) {
    std::string input = random.one_of(from);
    for (uint64_t n = 1 + random.below(4); n > 0 && !input.empty(); n--) {
        size_t position = random.below(input.size()), size = 1 + random.below(12);
        switch (random.below(5)) {
            case 0: input[position] = static_cast<char>(random.below(256)); break;
            case 1: input.insert(position, 1, static_cast<char>(random.below(256))); break;
            case 2: input.erase(position, size); break;
            case 3: input.insert(position, input.substr(random.below(input.size()), size)); break;
            default: input += random.one_of(from).substr(0, 64);
        }
    }
    return input.substr(0, 240);
}

template <class Of> static int try_all(uint64_t wanted, uint64_t seed, const char *file) {
    fuzz::Random random(seed);
    fuzz::Kept<std::string> kept;
    fuzz::Progress progress{"calls", wanted};
    for (uint64_t done = 0; done < wanted; done++) {
        if (done % 64 == 0) alarm(600); // so many that take longer hang
        std::string input = kept.inputs.empty() || random.once_in(3) ? fresh(random) : changed(random, kept.inputs);
        kept.offer(input, play<Of>(input));
        progress.tell(done, kept.inputs.size());
    }
    if (file) {
        std::ofstream out(file);
        for (const std::string &input : kept.best(100)) out << fuzz::escaped(input, true) << '\n';
    }
    std::printf("random calls on %s: passed, %llu inputs of seed %llu, %zu of them showed something new\n", Of::NAME,
                static_cast<unsigned long long>(wanted), static_cast<unsigned long long>(seed), kept.inputs.size());
    return 0;
}

template <class Of> static int run(int count, char **words) {
    if (count == 2 && !std::strcmp(words[0], "--replay")) {
        std::vector<std::string> lines = fuzz::lines_of(words[1]);
        for (const std::string &line : lines) play<Of>(fuzz::unescaped(line));
        std::printf("kept calls on %s: passed, %zu inputs\n", Of::NAME, lines.size());
        return 0;
    }
    return try_all<Of>(std::strtoull(words[0], nullptr, 10), count > 1 ? std::strtoull(words[1], nullptr, 10) : 1,
                       count > 2 ? words[2] : nullptr);
}

int main(int count, char **words) {
    fuzz::catch_crashes();
    if (count >= 3 && count <= 5 && !std::strcmp(words[1], Sets::NAME)) return run<Sets>(count - 2, words + 2);
    if (count >= 3 && count <= 5 && !std::strcmp(words[1], Maps::NAME)) return run<Maps>(count - 2, words + 2);
    return std::fputs("usage: calls sets|maps INPUTS [SEED [FILE]] | calls sets|maps --replay FILE\n", stderr), 2;
}

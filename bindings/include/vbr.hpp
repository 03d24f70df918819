/* The set and the map of vbr.h for C++17 and later: handles that are moved and never copied, results that have to be asked, keys and
   values of types of your own, openings that take any range of keys, and closes that give the keys as a vector.

       std::vector<vbr::handle> handles = vbr::open(vbr::shape::for_keys(1024, 2), 2).value(); // or it throws vbr::refused
       bool added = handles[0].insert(5).value(); // true: 5 was absent
       bool there = false;
       std::thread([&] { there = handles[1].has(5).value(); }).join(); // true, from another thread too
       std::optional<vbr::report> first = handles[0].close().value();  // none: the other handle is open
       std::optional<vbr::report> last = handles[1].close().value();   // the report: last->keys is {5}

   A map, which has a value beside each key:

       std::vector<vbr::map_handle> handles = vbr::open_map(vbr::shape::for_keys(1024, 2), 2).value();
       bool added = handles[0].insert(5, 70).value();                             // true: 5 was absent, and now has the value 70
       std::optional<std::uint64_t> there = handles[1].get(5).value();            // 70
       std::optional<std::uint64_t> was = handles[0].replace(5, 71).value();      // 70, and 5 has 71
       std::optional<std::uint64_t> taken = handles[1].remove(5).value();         // 71
       std::optional<std::uint64_t> absent = handles[1].get(5).value();           // none

   Each call gives a vbr::result: what it answers, or why it was refused. A refusal isn't an absence: test has_value, and read
   error; value throws if you didn't.

   All keys, one after another, while other threads make calls; vbr(3) says under "Going over all keys" which are given:

       for (std::uint64_t key : handles[0].keys()) sum += key;

   Keys and values of other types of at most 64 bits:

       using ports = vbr::map<address, std::uint16_t>;
       std::vector<ports::handle> of = ports::open(vbr::shape::for_keys(1024, 2), 2).value();

   A handle has a budget, the ample one unless it is given another. Its calls make no more steps than that; those whose names end in
   `_within` are given one of their own, the last of what they take. vbr(3) says how many steps suffice.

   It is a header over the calls of vbr.h, which says what each asks and answers; vbr(3) has what holds of all. Only
   openings, closes and reports take memory; if a vector finds none they throw std::bad_alloc and leave all as it was. What is said of
   sets and keys holds of maps and entries.

   A handle may go to another thread by whatever orders the two. If a thread ends, or an exception leaves a function, the handles that it
   owned end too, which closes them; nothing is lost. What vbr(3) says of cancelled threads, signals and forks
   holds here as well: a signal handler inserts, removes, changes values, looks up and walks by `next`, asks results by has_value, and
   opens, closes and ends no handle. vbr_shared.hpp has sets and maps that processes share. */
#ifndef VBR_HPP
#define VBR_HPP

#include "vbr.h"

#include <atomic>
#include <cstddef>
#include <cstdint>
#include <cstdlib>
#include <cstring>
#include <exception>
#include <initializer_list>
#include <iterator>
#include <memory>
#include <optional>
#include <type_traits>
#include <utility>
#include <vector>

namespace vbr {

/* VBR_MAX_SLOTS, VBR_MAX_BUCKETS and VBR_MAX_EPOCH of vbr.h, and the most handles that open and open_with give; open_many gives more.

       auto most = vbr::open(vbr::shape::for_keys(1024, vbr::max_few_handles), vbr::max_few_handles); */
inline constexpr std::uint32_t max_slots = VBR_MAX_SLOTS;
inline constexpr std::uint32_t max_buckets = VBR_MAX_BUCKETS;
inline constexpr std::uint64_t max_epoch = VBR_MAX_EPOCH;
inline constexpr std::size_t max_few_handles = VBR_MAX_FEW_HANDLES;
[[deprecated("max_few_handles")]] inline constexpr std::size_t max_handles = max_few_handles; /* the old name, for one version */

/* What vbr_max_epoch returns.

       static_assert(vbr::max_epoch_for(16777215) == vbr::max_epoch); // more slots leave room for less */
constexpr std::uint64_t max_epoch_for(std::uint32_t slots) noexcept {
    if (slots == 0 || slots > max_slots) return 0;
    std::uint64_t most = UINT64_MAX >> 1;
    for (; slots > 0; slots >>= 1) most >>= 1;
    return most;
}

/* The most handles that open_many and open_map_many open.

       static_assert(vbr::max_many_handles >= 1000); */
inline constexpr std::size_t max_many_handles = VBR_MAX_MANY_HANDLES;

/* A budget: the most steps that a call makes, each one atomic operation. It is made of a number by name alone, so that no key and
   no value is taken for one.

       vbr::result<bool> added = mine.insert_within(7, vbr::steps{5000}); */
class steps {
public:
    explicit constexpr steps(std::uint32_t most) noexcept : number(most) {}

    /* VBR_AMPLE_STEPS, the budget of a handle that is given no other.

           static_assert(vbr::steps::ample() > vbr::steps{100000}); */
    static constexpr steps ample() noexcept { return steps(VBR_AMPLE_STEPS); }

    /* How many they are.

           std::uint32_t number = mine.steps().count(); */
    constexpr std::uint32_t count() const noexcept { return number; }

    friend constexpr bool operator==(steps one, steps other) noexcept { return one.number == other.number; }
    friend constexpr bool operator!=(steps one, steps other) noexcept { return one.number != other.number; }
    friend constexpr bool operator<(steps one, steps other) noexcept { return one.number < other.number; }
    friend constexpr bool operator>(steps one, steps other) noexcept { return one.number > other.number; }
    friend constexpr bool operator<=(steps one, steps other) noexcept { return one.number <= other.number; }
    friend constexpr bool operator>=(steps one, steps other) noexcept { return one.number >= other.number; }

private:
    std::uint32_t number;
};

/* How many slots and buckets a set has, and its last epoch.

   Keys that are there at the start are best given to `open_with`, which lays them all in one go; by inserts a million took three times as
   long.

       constexpr vbr::shape shape{1024 + 2 * 64, 1024, vbr::max_epoch}; */
struct shape {
    std::uint32_t slots = 0;
    std::uint32_t buckets = 0;
    std::uint64_t last_epoch = max_epoch;
    /* What keys are spread by, as vbr(3) says of seeds; without one an opening draws it, and a renewal keeps that of its set.

           vbr::shape seeded = vbr::shape::for_keys(1024, 2);
           seeded.seed = 7; */
    std::optional<std::uint64_t> seed = std::nullopt;
    /* The budget of the handles; without one an opening gives the ample one, and a renewal leaves each handle its own.

           vbr::shape hurried = vbr::shape::for_keys(1024, 2);
           hurried.steps = vbr::steps{5000}; */
    std::optional<vbr::steps> steps = std::nullopt;

    /* The shape for this many keys at one time and this many handles: a slot for each key and 64 for each handle, but at most one more
       than there may be; and as many buckets as keys, rounded up to a power of two. vbr(3) says what that is enough for, and what to do
       at refusal::no_slot.

           auto most = vbr::open(vbr::shape::for_keys(1024, vbr::max_few_handles), vbr::max_few_handles); */
    static constexpr shape for_keys(std::uint32_t keys, std::size_t handles) noexcept {
        shape made;
        std::uint64_t slots = std::uint64_t{keys} + 64 * (handles < max_many_handles ? handles : max_many_handles);
        made.slots = slots <= max_slots ? static_cast<std::uint32_t>(slots) : max_slots + 1;
        made.buckets = 1;
        while (made.buckets < keys && made.buckets < max_buckets) made.buckets *= 2;
        return made;
    }
};

/* A seed that the system draws at random, as vbr_random_seed.

       seeded.seed = vbr::random_seed(); // a renewal by this shape has another seed */
inline std::uint64_t random_seed() noexcept { return vbr_random_seed(); }

/* Why a call was refused, in the words of vbr.h. What each leaves is said at the call there.

       if (full.error() == vbr::refusal::no_slot) other.give_slots_back(); // the other handle may keep free ones */
enum class [[nodiscard]] refusal : std::int32_t {
    out_of_steps = VBR_OUT_OF_STEPS, /* the budget is spent; no call was made; a greater budget may help */
    no_slot = VBR_NO_SLOT,           /* the handle found no slot for a node; no call was made */
    epoch_spent = VBR_EPOCH_SPENT,   /* a node is wanted and the last epoch is spent; no call was made; renew the set */
    no_handle = VBR_NO_HANDLE,       /* the handle, or one of them, is empty, or null where null is allowed; nothing was done; a lender
                                        has none */
    on_loan = VBR_IN_USE,            /* of a lender, and of processes: a handle is on loan, or in a turn; all stays as it was */
    bad_shape = VBR_BAD_SHAPE,       /* slots, buckets or last_epoch is out of range; nothing was done */
    bad_count = VBR_BAD_COUNT,       /* count is not from 1 to 64, of open_many, open_shared and lender_init_many to 65,536; nothing was
                                        done */
    no_memory = VBR_NO_MEMORY,       /* there is no memory; handles stay as they were */
    lost = VBR_LOST,                 /* the handle was the last, and a pass is missing; the set is gone, and its memory is freed. A
                                        dropped handle gives its pass back, and a forgotten one keeps its set open, so no program is
                                        known to get this */
    bad_keys = VBR_BAD_KEYS,         /* the keys do not ascend, or there are more than slots; nothing was done */
    no_room = VBR_NO_ROOM,           /* there is no room for all keys; handles stay as they were. A report says how many keys there are.
                                        Of open_shared_in: the file is too short, and nothing was done */
    missing = VBR_MISSING,           /* not all handles that were opened, each once; they stay as they were */
    mixed = VBR_MIXED,               /* of all handles: two of them are of different sets; they stay as they were */
    held = VBR_HELD,                 /* a slot is in hand, and the call would take another one; or the call asks for one, and none is in
                                        hand; nothing was done; of a call by a held slot, it isn't this handle's */
    reshaped = VBR_RESHAPED,         /* the walk began on another opening: the set was renewed since, or the handle was opened anew;
                                        nothing is given, and the cursor stays; begin anew, from VBR_CURSOR_BEGIN */
    hash_taken = -100,               /* of a record map alone: another key with the same hash is there; nothing was done */
    too_long = -101,                 /* of a small_string alone: there are more bytes than there is room for; none was made */
    too_few_bytes = -102,            /* of a cache alone: an entry and the handles take more bytes; nothing was done */
    load_under_way = -103            /* of a cache alone: a loader of the key is under way, which isn't waited for; nothing was done */
};

/* A refusal in words.

       const char *text = vbr::to_string(vbr::refusal::out_of_steps); // "out of steps" */
constexpr const char *to_string(refusal why) noexcept {
    switch (why) {
    case refusal::out_of_steps: return "out of steps";
    case refusal::no_slot: return "no slot was found";
    case refusal::epoch_spent: return "the last epoch is spent";
    case refusal::no_handle: return "the handle is empty";
    case refusal::on_loan: return "a handle is on loan";
    case refusal::bad_shape: return "a number of the shape is out of range";
    case refusal::bad_count: return "the number of handles is out of range";
    case refusal::no_memory: return "there is no memory";
    case refusal::lost: return "a pass is not there";
    case refusal::bad_keys: return "the keys do not ascend, or are more than slots";
    case refusal::no_room: return "there are more keys than slots, or the file is too short";
    case refusal::missing: return "handles are missing";
    case refusal::mixed: return "handles are of different sets";
    case refusal::held: return "a slot is in hand, or none is";
    case refusal::reshaped: return "the set was renewed since the walk began";
    case refusal::hash_taken: return "another key with the same hash is there";
    case refusal::too_long: return "the text is too long";
    case refusal::too_few_bytes: return "the bytes are too few for a cache";
    case refusal::load_under_way: return "a loader of this key is under way";
    }
    return "not refused";
}

/* What `value` of a result throws if there is none.

       } catch (const vbr::refused &refused) {
           reason = refused.error(); */
class refused : public std::exception {
public:
    explicit refused(refusal reason) noexcept : why(reason) {}
    refusal error() const noexcept { return why; }
    const char *what() const noexcept override { return to_string(why); }

private:
    refusal why;
};

namespace detail {

[[noreturn, gnu::cold, gnu::noinline]] inline void refuse([[maybe_unused]] refusal why) {
#ifdef __cpp_exceptions
    throw refused(why);
#else
    std::abort();
#endif
}

} // namespace detail

/* What a call answers, or why it was refused: as std::expected<T, vbr::refusal>, but that nothing is undefined. If there is no
   value, `value`, `*` and `->` throw vbr::refused, or end a program that is compiled without exceptions.

       vbr::result<bool> added = mine.insert_within(7, vbr::steps{5000});
       if (!added.has_value()) return 1; // added.error() says why
       if (*added) count++; // this call added 7 */
template <class T>
class [[nodiscard]] result {
public:
    using value_type = T;
    using error_type = refusal;

    /* A default-constructed result holds a refusal.

           std::vector<vbr::result<bool>> answers(3); */
    constexpr result() noexcept : why(refusal::no_handle) {}
    constexpr result(refusal reason) noexcept : why(reason) {}
    constexpr result(T value) noexcept(std::is_nothrow_move_constructible_v<T>) : kept(std::move(value)) {}

    constexpr bool has_value() const noexcept { return why == refusal{}; }

    /* Whether there is a value. Of results that are a yes or a no themselves, or may be absent, it has to be asked by has_value, since
       `if (map.get(5))` would say nothing of 5.

           if (!lender.renew(shape)) return 1; // it was refused */
    template <class U = T, std::enable_if_t<!std::is_constructible_v<bool, const U &>, int> = 0>
    explicit constexpr operator bool() const noexcept {
        return has_value();
    }

    /* The value; if there is none it throws vbr::refused. On a temporary it returns by value, so a range-for over it is safe.

           if (mine.insert(6).value()) count++; // this call added 6
           if (*mine.has(6)) there++; // `*` is the same */
    constexpr T &value() & { return asked(), kept; }
    constexpr const T &value() const & { return asked(), kept; }
    constexpr T value() && { return asked(), std::move(kept); }
    constexpr T &operator*() & { return value(); }
    constexpr const T &operator*() const & { return value(); }
    constexpr T operator*() && { return std::move(*this).value(); }
    constexpr T *operator->() { return &value(); }
    constexpr const T *operator->() const { return &value(); }

    /* The value, or this one if the call was refused.

           bool there_or_refused = mine.has(6).value_or(true); */
    template <class U>
    constexpr T value_or(U &&other) const & {
        return has_value() ? kept : static_cast<T>(std::forward<U>(other));
    }
    template <class U>
    constexpr T value_or(U &&other) && {
        return has_value() ? std::move(kept) : static_cast<T>(std::forward<U>(other));
    }

    /* Why the call was refused; refusal{} if it wasn't.

           if (full.error() == vbr::refusal::no_slot) other.give_slots_back(); // the other handle may keep free ones */
    constexpr refusal error() const noexcept { return why; }

    /* Whether it is this value, or this refusal.

           if (mine.has(8) == false) absent++; // it was answered, and 8 is absent
           if (mine.has_within(8, vbr::steps{1}) == vbr::refusal::out_of_steps) tired++; */
    friend constexpr bool operator==(const result &one, const T &other) { return one.has_value() && one.kept == other; }
    friend constexpr bool operator==(const result &one, refusal other) noexcept { return !one.has_value() && one.why == other; }
    friend constexpr bool operator==(const result &one, const result &other) {
        return one.why == other.why && (!one.has_value() || one.kept == other.kept);
    }
    template <class U>
    friend constexpr bool operator!=(const result &one, const U &other) {
        return !(one == other);
    }

private:
    constexpr void asked() const {
        if (!has_value()) detail::refuse(why);
    }

    refusal why{};
    T kept{};
};

/* The result of a call that returns no value.

       vbr::result<void> renewed = vbr::handle::renew_all(both, vbr::shape::for_keys(4096, 2));
       if (!renewed) return 1; // renewed.error() says why */
template <>
class [[nodiscard]] result<void> {
public:
    using value_type = void;
    using error_type = refusal;

    constexpr result(refusal reason) noexcept : why(reason) {}
    explicit constexpr result(std::in_place_t) noexcept {}

    constexpr bool has_value() const noexcept { return why == refusal{}; }
    explicit constexpr operator bool() const noexcept { return has_value(); }
    constexpr void value() const {
        if (!has_value()) detail::refuse(why);
    }
    constexpr void operator*() const { value(); }
    constexpr refusal error() const noexcept { return why; }
    friend constexpr bool operator==(const result &one, const result &other) noexcept { return one.why == other.why; }
    friend constexpr bool operator!=(const result &one, const result &other) noexcept { return one.why != other.why; }

private:
    refusal why{};
};

/* Whether a call was refused.

       if (vbr::is_refusal(mine.insert(9))) return 1; */
template <class T>
constexpr bool is_refusal(const result<T> &told) noexcept {
    return !told.has_value();
}

/* Why a call was refused, in words.

       std::string why = vbr::to_string(mine.has_within(8, vbr::steps{1})); // "out of steps": one is too few */
template <class T>
constexpr const char *to_string(const result<T> &told) noexcept {
    return to_string(told.error());
}

/* What a call answers that expects a value of a key: whether the key had it, and what it had. As a bool it is whether it is done.

       if (*mine.compare_exchange(6, 61, 62)) changed++; // 6 had 61, and has 62 */
template <class Value>
struct [[nodiscard]] compared {
    bool is_done = false;         /* the key had the value, and was changed or taken out; else nothing was changed */
    std::optional<Value> found{}; /* what the key had; none if it is absent */

    explicit constexpr operator bool() const noexcept { return is_done; }
    friend constexpr bool operator==(const compared &one, const compared &other) {
        return one.is_done == other.is_done && one.found == other.found;
    }
};

/* Whether two values of a type are the same exactly if their bytes are. It is so of integers, enumerations, pointers, and structs of
   such without padding; these may be keys and values. A program may say it of a type of its own, or of float or double as a key,
   whose 0.0 and -0.0 are then two keys.

       template <> inline constexpr bool vbr::is_by_bits<float> = true; // in place of a key that is compared by == */
template <class T>
inline constexpr bool is_by_bits = std::has_unique_object_representations_v<T>;

namespace detail {

template <class T>
constexpr bool is_plain = std::is_same_v<T, std::uint64_t>;

/* What is asked of keys and of values. */
template <class T>
constexpr void fits_key() noexcept {
    static_assert(std::is_trivially_copyable_v<T> && sizeof(T) <= 8, "a key or a value is trivially copyable, of at most 64 bits");
    static_assert(is_by_bits<T>, "values with padding, or of floating point, may be equal and differ in bits: see vbr::is_by_bits");
}

template <class T>
constexpr void fits_value() noexcept {
    if constexpr (!std::is_same_v<T, float> && !std::is_same_v<T, double>) fits_key<T>();
}

/* A value as the library has it: its bytes, and zeros above. */
template <class T>
std::uint64_t word_of(const T &value) noexcept {
    if constexpr (is_plain<T>) {
        return value;
    } else {
        std::uint64_t word = 0;
        std::memcpy(&word, std::addressof(value), sizeof value);
        return word;
    }
}

template <class T>
T value_of(std::uint64_t word) noexcept {
    if constexpr (is_plain<T>) {
        return word;
    } else {
        union room { // of a type that may have no default
            room() noexcept : none() {}
            char none;
            T value;
        } made;
        std::memcpy(static_cast<void *>(std::addressof(made.value)), &word, sizeof made.value);
        return made.value;
    }
}

} // namespace detail

/* The order of keys in openings and reports: by their bits, as unsigned numbers. Of unsigned numbers it is `<`; of signed ones the
   negative come last.

       std::sort(keys.begin(), keys.end(), vbr::by_bits{}); // as open_with takes them */
struct by_bits {
    template <class T>
    bool operator()(const T &one, const T &other) const noexcept {
        return detail::word_of(one) < detail::word_of(other);
    }
};

/* A key with its value; of plain numbers it is that of vbr.h.

       for (vbr::entry each : told->entries) sum += each.value; */
template <class Key, class Value>
struct basic_entry {
    Key key;
    Value value;

    friend constexpr bool operator==(const basic_entry &one, const basic_entry &other) {
        return one.key == other.key && one.value == other.value;
    }
};
using entry = vbr_entry;

/* What a set held, or a map.

       for (std::uint64_t key : told->keys) sum += key; */
template <class Key>
struct basic_report {
    std::vector<Key> keys; /* ascending by their bits */
    std::uint64_t epoch = 0;
    std::uint32_t marked = 0; /* how many removed nodes were still in a list */
    std::uint32_t free = 0;   /* how many slots had no node in a list */
};

template <class Entry>
struct basic_map_report {
    std::vector<Entry> entries; /* ascending by the bits of their keys */
    std::uint64_t epoch = 0;
    std::uint32_t marked = 0; /* how many removed nodes were still in a list */
    std::uint32_t free = 0;   /* how many slots had no node in a list */
};

/* Where a walk stands, as vbr_cursor.

       vbr::cursor from; // before the first key */
struct cursor {
    vbr_cursor raw = VBR_CURSOR_BEGIN;
};

/* Where an entry stands, as vbr_incarnation; only that of a map has a value.

       std::optional<vbr::map_incarnation> at = mine.get_entry(6).value(); // at->slot() is where 6 stands */
template <class Value>
class basic_incarnation {
public:
    std::uint32_t slot() const noexcept { return raw.slot; }
    std::uint64_t birth() const noexcept { return raw.birth; }

    /* The value of the entry, of a map.

           sum += at->value(); */
    template <class V = Value, std::enable_if_t<!std::is_void_v<V>, int> = 0>
    V value() const noexcept {
        return detail::value_of<V>(raw.value);
    }

    friend bool operator==(const basic_incarnation &one, const basic_incarnation &other) noexcept {
        return one.raw.slot == other.raw.slot && one.raw.birth == other.raw.birth;
    }

private:
    template <class>
    friend class basic_pass;
    template <class, class>
    friend class basic_map_pass;
    vbr_incarnation raw = {0, 0, 0};
};

/* A slot in hand, as vbr_hold leaves it, or none. It is moved and never copied, and puts the slot back when it ends. The handle stays
   where it is meanwhile.

       vbr::map_held slot = mine.hold().value();
       beside[slot.number()] = 7; // nobody else writes there */
template <class Kind>
class [[nodiscard]] basic_held {
public:
    basic_held() noexcept = default;
    basic_held(basic_held &&other) noexcept : handle(std::exchange(other.handle, nullptr)), slot(other.slot) {}
    ~basic_held() { let_go(); }

    basic_held &operator=(basic_held &&other) noexcept {
        if (this != &other) {
            let_go();
            handle = std::exchange(other.handle, nullptr);
            slot = other.slot;
        }
        return *this;
    }

    /* Whether a slot is held: not after it was moved from, let go, or made the node of a key.

           if (!slot.is_held()) slot = mine.hold().value(); // a call by it was done */
    bool is_held() const noexcept { return handle != nullptr; }

    /* The number of the slot.

           beside[slot.number()] = 7; // nobody else writes there */
    std::uint32_t number() const noexcept { return slot; }

    /* Puts the held slot back, as vbr_let_go does. It leaves no slot in hand. It makes at most one step.

           slot.let_go(); // its record isn't written any more */
    void let_go() noexcept {
        if (handle) static_cast<void>(Kind::let_go(std::exchange(handle, nullptr)));
    }

private:
    template <class>
    friend class basic_pass;
    basic_held(typename Kind::raw *of, std::uint32_t number) noexcept : handle(of), slot(number) {}
    typename Kind::raw *handle = nullptr;
    std::uint32_t slot = 0;
};

namespace detail {

/* The calls on sets, and those on maps. */
struct set_calls {
    using raw = vbr_handle;
    using value = void;
    using words = std::uint64_t; /* an item as the library has it */
    static std::uint32_t steps_of(const raw *handle) noexcept { return vbr_steps_of(handle); }
    /* tools/interface makes what follows. */
    static vbr_answer open_seeded(raw *handles, std::size_t count, std::uint32_t slots, std::uint32_t buckets, std::uint64_t last_epoch,
                                  std::uint64_t seed, const words *keys, std::size_t key_count) noexcept {
        return vbr_open_seeded(handles, count, slots, buckets, last_epoch, seed, keys, key_count);
    }
    static vbr_answer open_many_seeded(raw *handles, std::size_t count, std::uint32_t slots, std::uint32_t buckets,
                                       std::uint64_t last_epoch, std::uint64_t seed, const words *keys,
                                       std::size_t key_count) noexcept {
        return vbr_open_many_seeded(handles, count, slots, buckets, last_epoch, seed, keys, key_count);
    }
    static vbr_answer has(raw *handle, std::uint64_t key, std::uint32_t steps) noexcept { return vbr_has_within(handle, key, steps); }
    static void has_all(raw *handle, const std::uint64_t *keys, std::size_t count, vbr_answer *answers, std::uint32_t steps) noexcept {
        vbr_has_all_within(handle, keys, count, answers, steps);
    }
    static vbr_answer next(raw *handle, vbr_cursor *cursor, words *key, std::uint32_t steps) noexcept {
        return vbr_next_within(handle, cursor, key, steps);
    }
    static std::uint64_t epoch(const raw *handle) noexcept { return vbr_epoch(handle); }
    static std::uint64_t last_epoch(const raw *handle) noexcept { return vbr_last_epoch(handle); }
    static std::uint32_t slots(const raw *handle) noexcept { return vbr_slots(handle); }
    static std::uint32_t buckets(const raw *handle) noexcept { return vbr_buckets(handle); }
    static std::uint64_t seed(const raw *handle) noexcept { return vbr_seed(handle); }
    static std::int64_t balance(const raw *handle) noexcept { return vbr_balance(handle); }
    static std::uint64_t restarts(const raw *handle) noexcept { return vbr_restarts(handle); }
    static std::uint64_t helps(const raw *handle) noexcept { return vbr_helps(handle); }
    static std::uint64_t advances(const raw *handle) noexcept { return vbr_advances(handle); }
    static std::uint32_t free_about(const raw *handle) noexcept { return vbr_free_about(handle); }
    static std::uint32_t give_slots_back(raw *handle) noexcept { return vbr_give_slots_back(handle); }
    static std::uint32_t reserve(raw *handle, std::uint32_t wanted) noexcept { return vbr_reserve(handle, wanted); }
    static vbr_answer close_all(raw *handles, std::size_t count, words *keys, std::size_t room, vbr_report *report) noexcept {
        return vbr_close_all(handles, count, keys, room, report);
    }
    static vbr_answer report_all(raw *handles, std::size_t count, words *keys, std::size_t room, vbr_report *report) noexcept {
        return vbr_report_all(handles, count, keys, room, report);
    }
    static vbr_answer renew_all_seeded(raw *handles, std::size_t count, std::uint32_t slots, std::uint32_t buckets,
                                       std::uint64_t last_epoch, std::uint64_t seed) noexcept {
        return vbr_renew_all_seeded(handles, count, slots, buckets, last_epoch, seed);
    }
    static void end_all(raw *handles, std::size_t count) noexcept { vbr_end_all(handles, count); }
    static vbr_answer hold(raw *handle, std::uint32_t *slot, std::uint32_t steps) noexcept {
        return vbr_hold_within(handle, slot, steps);
    }
    static vbr_answer let_go(raw *handle) noexcept { return vbr_let_go(handle); }
    static vbr_answer get_entry(raw *handle, std::uint64_t key, vbr_incarnation *at, std::uint32_t steps) noexcept {
        return vbr_get_entry_within(handle, key, at, steps);
    }
    static vbr_answer is_still(raw *handle, const vbr_incarnation *at) noexcept { return vbr_is_still(handle, at); }
    static vbr_answer remove_entry(raw *handle, std::uint64_t key, const vbr_incarnation *at, std::uint32_t steps) noexcept {
        return vbr_remove_entry_within(handle, key, at, steps);
    }
    static vbr_answer next_at(raw *handle, vbr_cursor *cursor, std::uint64_t *key, vbr_incarnation *at, std::uint32_t steps) noexcept {
        return vbr_next_at_within(handle, cursor, key, at, steps);
    }
    static vbr_answer report_slots(raw *handles, std::size_t count, words *keys, std::uint32_t *slots, std::size_t room,
                                   vbr_report *report) noexcept {
        return vbr_report_slots(handles, count, keys, slots, room, report);
    }
};

struct map_calls {
    using raw = vbr_map_handle;
    using words = vbr_entry;
    static std::uint32_t steps_of(const raw *handle) noexcept { return vbr_map_steps_of(handle); }
    /* tools/interface makes what follows. */
    static vbr_answer open_seeded(raw *handles, std::size_t count, std::uint32_t slots, std::uint32_t buckets, std::uint64_t last_epoch,
                                  std::uint64_t seed, const words *entries, std::size_t entry_count) noexcept {
        return vbr_map_open_seeded(handles, count, slots, buckets, last_epoch, seed, entries, entry_count);
    }
    static vbr_answer open_many_seeded(raw *handles, std::size_t count, std::uint32_t slots, std::uint32_t buckets,
                                       std::uint64_t last_epoch, std::uint64_t seed, const words *entries,
                                       std::size_t entry_count) noexcept {
        return vbr_map_open_many_seeded(handles, count, slots, buckets, last_epoch, seed, entries, entry_count);
    }
    static vbr_answer has(raw *handle, std::uint64_t key, std::uint32_t steps) noexcept {
        return vbr_map_has_within(handle, key, steps);
    }
    static void has_all(raw *handle, const std::uint64_t *keys, std::size_t count, vbr_answer *answers, std::uint32_t steps) noexcept {
        vbr_map_has_all_within(handle, keys, count, answers, steps);
    }
    static vbr_answer next(raw *handle, vbr_cursor *cursor, words *entry, std::uint32_t steps) noexcept {
        return vbr_map_next_within(handle, cursor, entry, steps);
    }
    static std::uint64_t epoch(const raw *handle) noexcept { return vbr_map_epoch(handle); }
    static std::uint64_t last_epoch(const raw *handle) noexcept { return vbr_map_last_epoch(handle); }
    static std::uint32_t slots(const raw *handle) noexcept { return vbr_map_slots(handle); }
    static std::uint32_t buckets(const raw *handle) noexcept { return vbr_map_buckets(handle); }
    static std::uint64_t seed(const raw *handle) noexcept { return vbr_map_seed(handle); }
    static std::int64_t balance(const raw *handle) noexcept { return vbr_map_balance(handle); }
    static std::uint64_t restarts(const raw *handle) noexcept { return vbr_map_restarts(handle); }
    static std::uint64_t helps(const raw *handle) noexcept { return vbr_map_helps(handle); }
    static std::uint64_t advances(const raw *handle) noexcept { return vbr_map_advances(handle); }
    static std::uint32_t free_about(const raw *handle) noexcept { return vbr_map_free_about(handle); }
    static std::uint32_t give_slots_back(raw *handle) noexcept { return vbr_map_give_slots_back(handle); }
    static std::uint32_t reserve(raw *handle, std::uint32_t wanted) noexcept { return vbr_map_reserve(handle, wanted); }
    static vbr_answer close_all(raw *handles, std::size_t count, words *entries, std::size_t room, vbr_report *report) noexcept {
        return vbr_map_close_all(handles, count, entries, room, report);
    }
    static vbr_answer report_all(raw *handles, std::size_t count, words *entries, std::size_t room, vbr_report *report) noexcept {
        return vbr_map_report_all(handles, count, entries, room, report);
    }
    static vbr_answer renew_all_seeded(raw *handles, std::size_t count, std::uint32_t slots, std::uint32_t buckets,
                                       std::uint64_t last_epoch, std::uint64_t seed) noexcept {
        return vbr_map_renew_all_seeded(handles, count, slots, buckets, last_epoch, seed);
    }
    static void end_all(raw *handles, std::size_t count) noexcept { vbr_map_end_all(handles, count); }
    static vbr_answer hold(raw *handle, std::uint32_t *slot, std::uint32_t steps) noexcept {
        return vbr_map_hold_within(handle, slot, steps);
    }
    static vbr_answer let_go(raw *handle) noexcept { return vbr_map_let_go(handle); }
    static vbr_answer get_entry(raw *handle, std::uint64_t key, vbr_incarnation *at, std::uint32_t steps) noexcept {
        return vbr_map_get_entry_within(handle, key, at, steps);
    }
    static vbr_answer is_still(raw *handle, const vbr_incarnation *at) noexcept { return vbr_map_is_still(handle, at); }
    static vbr_answer remove_entry(raw *handle, std::uint64_t key, const vbr_incarnation *at, std::uint32_t steps) noexcept {
        return vbr_map_remove_entry_within(handle, key, at, steps);
    }
    static vbr_answer next_at(raw *handle, vbr_cursor *cursor, std::uint64_t *key, vbr_incarnation *at, std::uint32_t steps) noexcept {
        return vbr_map_next_at_within(handle, cursor, key, at, steps);
    }
    static vbr_answer report_slots(raw *handles, std::size_t count, words *entries, std::uint32_t *slots, std::size_t room,
                                   vbr_report *report) noexcept {
        return vbr_map_report_slots(handles, count, entries, slots, room, report);
    }
};

/* What is of sets of a type of keys, and of maps of a type of keys and one of values. */
template <class Key>
struct set_of : set_calls {
    using key = Key;
    using item = Key;
    using report = basic_report<Key>;
    static constexpr bool is_plain = detail::is_plain<Key>;
    static item item_of(std::uint64_t word) noexcept { return value_of<Key>(word); }
    static std::uint64_t words_of(const Key &item) noexcept { return word_of(item); }
};

template <class Key, class Value>
struct map_of : map_calls {
    static constexpr bool is_plain = detail::is_plain<Key> && detail::is_plain<Value>;
    using value = Value;
    using key = Key;
    using item = std::conditional_t<is_plain, vbr_entry, basic_entry<Key, Value>>;
    using report = basic_map_report<item>;
    static item item_of(const vbr_entry &words) noexcept { return {value_of<Key>(words.key), value_of<Value>(words.value)}; }
    static vbr_entry words_of(const item &item) noexcept { return {word_of(item.key), word_of(item.value)}; }
};

/* What an answer of the library says. */
inline result<bool> yes_or_no(vbr_answer told) noexcept {
    if (told < 0) return refusal{told};
    return told == VBR_YES;
}

template <class Value>
result<std::optional<Value>> value_by(vbr_answer told, std::uint64_t word) noexcept {
    if (told < 0) return refusal{told};
    return told == VBR_NO ? std::nullopt : std::optional<Value>(value_of<Value>(word));
}

template <class Value>
result<compared<Value>> compared_by(vbr_answer told, std::uint64_t word) noexcept {
    if (told < 0) return refusal{told};
    return compared<Value>{told == VBR_YES, told == VBR_NO ? std::nullopt : std::optional<Value>(value_of<Value>(word))};
}

inline result<void> done_by(vbr_answer told) noexcept {
    return told == VBR_OK ? result<void>(std::in_place) : result<void>(refusal{told});
}

/* What the handles of a set or a map share: how many are open, of how many, and those that were closed, each at its number. */
template <class Kind>
struct shared {
    std::atomic<std::size_t> open{0};
    std::size_t count = 0;
    std::uint32_t slots = 0;
    std::vector<typename Kind::raw> parked; /* a place for each handle, empty while it is open */
};

/* The memory of a report, which is there before anything is closed. */
template <class Kind>
class report_room {
public:
    explicit report_room(std::uint32_t slots) : words(slots) {
        if constexpr (!Kind::is_plain) items.reserve(slots);
    }

    /* Calls for a report, by where it is to be written. */
    template <class Call>
    vbr_answer fill(const Call &call) noexcept {
        return call(words.data(), words.size(), &totals);
    }

    typename Kind::report report() {
        if constexpr (Kind::is_plain) {
            items = std::move(words);
            items.resize(totals.live);
        } else {
            for (std::size_t i = 0; i < totals.live; i++) items.push_back(Kind::item_of(words[i]));
        }
        items.shrink_to_fit();
        return {std::move(items), totals.epoch, totals.marked, totals.free};
    }

private:
    std::vector<typename Kind::words> words;
    std::vector<typename Kind::item> items;
    vbr_report totals = {};
};

template <class Handle>
class lending; /* vbr_lend.hpp */

template <class Handle>
struct openings;

} // namespace detail

/* All keys of a set, or all entries of a map, one after another: an input range, which a handle gives. It asks again by itself
   if a call is refused for want of steps and its cursor has come further. It ends once no item is left. If a call is refused otherwise
   it throws vbr::refused, and a cursor that it was given keeps how far it has come. Whoever wants no exception
   calls `next`. The handle stays where it is meanwhile, and may make other calls in between.

       for (std::uint64_t key : mine.keys()) sum += key; */
template <class Kind>
class [[nodiscard]] basic_walk {
public:
    /* It keeps the item, so that of a copy stays as it is.

           for (auto each = walk.begin(); each != walk.end(); ++each) sum += *each; */
    class iterator {
        struct arrow;

    public:
        using iterator_category = std::input_iterator_tag;
        using value_type = typename Kind::item;
        using difference_type = std::ptrdiff_t;
        using pointer = arrow;
        using reference = value_type;

        iterator() noexcept = default;
        reference operator*() const noexcept { return Kind::item_of(words); }
        pointer operator->() const noexcept { return {**this}; }
        iterator &operator++() {
            if (!walk->goes_on(words)) walk = nullptr;
            return *this;
        }
        iterator operator++(int) {
            iterator before = *this;
            ++*this;
            return before;
        }
        friend bool operator==(const iterator &one, const iterator &other) noexcept { return one.walk == other.walk; }
        friend bool operator!=(const iterator &one, const iterator &other) noexcept { return one.walk != other.walk; }

    private:
        friend class basic_walk;
        struct arrow {
            value_type item;
            const value_type *operator->() const noexcept { return std::addressof(item); }
        };
        explicit iterator(basic_walk *of) noexcept : walk(of) {}
        basic_walk *walk = nullptr; // none at the end
        typename Kind::words words = {};
    };

    /* It begins where the cursor is: at the first item, or after the one that was given last.

           auto each = walk.begin(); // at the end already if there is no key */
    iterator begin() {
        iterator first(this);
        return ++first;
    }
    iterator end() const noexcept { return {}; }

private:
    template <class>
    friend class basic_pass;
    basic_walk(typename Kind::raw *of, cursor *from, vbr::steps steps) noexcept : handle(of), kept(from), budget(steps) {}

    /* Whether there is a next item. */
    bool goes_on(typename Kind::words &next) {
        vbr_cursor &now = kept ? kept->raw : own.raw, before;
        vbr_answer told;
        do {
            before = now;
            told = Kind::next(handle, &now, &next, budget.count());
        } while (told == VBR_OUT_OF_STEPS && (now.bucket != before.bucket || now.from != before.from));
        if (told < 0) detail::refuse(refusal{told});
        return told == VBR_YES;
    }

    typename Kind::raw *handle;
    cursor *kept; /* that of the caller, or none */
    cursor own;
    vbr::steps budget;
};

/* The right of one thread at a time to make calls on a set or a map: what a handle owns and a loan lends, so a function that takes a pass
   takes either. It stays where it is: it is neither moved nor copied, and a call by it closes nothing.

       static bool added(vbr::pass &mine, std::uint64_t key) { return mine.insert(key).value(); } */
template <class Kind>
class basic_pass {
public:
    using key_type = typename Kind::key;
    using item_type = typename Kind::item;

    basic_pass(const basic_pass &) = delete;
    basic_pass &operator=(const basic_pass &) = delete;

    /* Whether the handle is open.

           if (!mine.is_open()) return 1; // it is empty: moved from, or closed */
    bool is_open() const noexcept { return raw.owned != nullptr; }

    /* The budget of its calls.

           if (mine.steps() != vbr::steps::ample()) return 1; // it was given another */
    vbr::steps steps() const noexcept { return vbr::steps{Kind::steps_of(&raw)}; }

    /* Looks a key up, as vbr_has does. Returns true if the key is there; false if it is absent. It isn't const, since it changes what the
       handle owns.

           if (*mine.has(7)) there++; // 7 was there during the call */
    result<bool> has(key_type key) noexcept { return has_within(key, this->steps()); }
    result<bool> has_within(key_type key, vbr::steps budget) noexcept {
        return detail::yes_or_no(Kind::has(&raw, detail::word_of(key), budget.count()));
    }

    /* Looks keys up, in their order, each by a call of its own, as vbr_has_all does. answers[i] is what `has` answers of keys[i].

           mine.has_all(wanted.data(), wanted.size(), answers.data()); // answers[i] is that of wanted[i] */
    void has_all(const key_type *keys, std::size_t count, result<bool> *answers) noexcept {
        has_all_within(keys, count, answers, this->steps());
    }
    void has_all_within(const key_type *keys, std::size_t count, result<bool> *answers, vbr::steps budget) noexcept {
        in_parts(keys, count, [&](const std::uint64_t *words, std::size_t from, std::size_t some) {
            vbr_answer told[part];
            Kind::has_all(&raw, words, some, told, budget.count());
            for (std::size_t i = 0; i < some; i++) answers[from + i] = detail::yes_or_no(told[i]);
        });
    }

    /* Gives the next key of a walk, by loads alone, as vbr_next does. Returns the next key if one is left, which was there during the
       call; none if the walk is at its end: no key is left. Of a map it is the next entry.

           auto next = mine.next(from);
           while (next == vbr::refusal::out_of_steps) next = mine.next(from); // from where it came to
           if (*next) sum += **next; */
    result<std::optional<item_type>> next(cursor &from) noexcept { return next_within(from, this->steps()); }
    result<std::optional<item_type>> next_within(cursor &from, vbr::steps budget) noexcept {
        typename Kind::words words = {};
        vbr_answer told = Kind::next(&raw, &from.raw, &words, budget.count());
        if (told < 0) return refusal{told};
        return told == VBR_NO ? std::nullopt : std::optional<item_type>(Kind::item_of(words));
    }

    /* What vbr_epoch returns.

           bool is_near = mine.epoch() + 1000 >= mine.last_epoch(); // then renew the set */
    std::uint64_t epoch() const noexcept { return Kind::epoch(&raw); }

    /* What the set was opened with, by vbr_last_epoch, vbr_slots and vbr_buckets.

           if (mine.slots() != shape.slots || mine.buckets() != shape.buckets) return 1; */
    std::uint64_t last_epoch() const noexcept { return Kind::last_epoch(&raw); }
    std::uint32_t slots() const noexcept { return Kind::slots(&raw); }
    std::uint32_t buckets() const noexcept { return Kind::buckets(&raw); }

    /* What vbr_seed returns.

           again.seed = mine.seed(); // a shape whose sets have each key in the same bucket */
    std::uint64_t seed() const noexcept { return Kind::seed(&raw); }

    /* What vbr_balance returns.

           std::int64_t keys = both[0].balance() + both[1].balance(); // no call is under way */
    std::int64_t balance() const noexcept { return Kind::balance(&raw); }

    /* What interference has cost the handle's calls, and what is left in the pool that all handles share: what vbr_restarts, vbr_helps,
       vbr_advances and vbr_free_about return.

           std::uint64_t moved = both[0].advances() + both[1].advances(); // the epoch less 1 */
    std::uint64_t restarts() const noexcept { return Kind::restarts(&raw); }
    std::uint64_t helps() const noexcept { return Kind::helps(&raw); }
    std::uint64_t advances() const noexcept { return Kind::advances(&raw); }
    std::uint32_t free_about() const noexcept { return Kind::free_about(&raw); }

    /* Puts the slots that the handle keeps to itself into the pool that all handles share, where any of them finds them, as
       vbr_give_slots_back does. Returns how many it gave back, at most 64. It can't fail. Of an empty handle it is 0.

           std::uint32_t given = mine.give_slots_back(); // the other handles can have them now */
    std::uint32_t give_slots_back() noexcept { return Kind::give_slots_back(&raw); }
    [[deprecated("give_slots_back")]] std::uint32_t spare() noexcept { return give_slots_back(); } /* the old name, for one version */

    /* Takes slots for the handle's next inserts out of the pool that all handles share, as vbr_reserve does. Returns how many it took:
       fewer only if one pass over all slots finds no more. It can't fail. Of an empty handle it is 0.

           std::uint32_t reserved = mine.reserve(32); // for its inserts to come */
    std::uint32_t reserve(std::uint32_t wanted) noexcept { return Kind::reserve(&raw, wanted); }

    using held = basic_held<Kind>;
    using incarnation = basic_incarnation<typename Kind::value>;

    /* Takes a slot in hand, for a record that the program keeps beside it, as vbr_hold does.

           vbr::map_held slot = mine.hold().value(); */
    result<held> hold() noexcept { return hold_within(this->steps()); }
    result<held> hold_within(vbr::steps budget) noexcept {
        std::uint32_t slot = 0;
        vbr_answer told = Kind::hold(&raw, &slot, budget.count());
        if (told < 0) return refusal{told};
        return held(&raw, slot);
    }

    /* Looks a key up and says where it stands, as vbr_get_entry does. Returns its entry if the key is there; none if it is absent.

           std::optional<vbr::map_incarnation> at = mine.get_entry(6).value(); // at->slot() is where 6 stands */
    result<std::optional<incarnation>> get_entry(key_type key) noexcept { return get_entry_within(key, this->steps()); }
    result<std::optional<incarnation>> get_entry_within(key_type key, vbr::steps budget) noexcept {
        incarnation at;
        vbr_answer told = Kind::get_entry(&raw, detail::word_of(key), &at.raw, budget.count());
        if (told < 0) return refusal{told};
        return told == VBR_NO ? std::nullopt : std::optional<incarnation>(at);
    }

    /* Says whether a slot still belongs to the entry that was found there, as vbr_is_still does.

           if (mine.is_still(*at).value()) copied++; // what was copied since at was found is of this entry */
    result<bool> is_still(const incarnation &at) noexcept { return detail::yes_or_no(Kind::is_still(&raw, &at.raw)); }

    /* Takes a key out if it still has the very entry that was found, as vbr_remove_entry does. Returns true if the key had that entry,
       and is taken out. Returns false if it is absent, or was taken out and added again since then; nothing was changed. Of a map it is
       false too if the key was given a value since then, even the same one.

           if (mine.remove_entry(7, *at).value()) taken_out++; // nobody had changed 7 since it was found */
    result<bool> remove_entry(key_type key, const incarnation &at) noexcept { return remove_entry_within(key, at, this->steps()); }
    result<bool> remove_entry_within(key_type key, const incarnation &at, vbr::steps budget) noexcept {
        return detail::yes_or_no(Kind::remove_entry(&raw, detail::word_of(key), &at.raw, budget.count()));
    }

    /* Gives the next key of a walk and says where it stands, as vbr_next_at does. Returns the next key and its entry if one is left,
       which stood there at a moment of the call; none if the walk is at its end.

           auto stands = mine.next_at(from).value(); // a key, and its incarnation */
    result<std::optional<std::pair<key_type, incarnation>>> next_at(cursor &from) noexcept { return next_at_within(from, this->steps()); }
    result<std::optional<std::pair<key_type, incarnation>>> next_at_within(cursor &from, vbr::steps budget) noexcept {
        std::uint64_t key = 0;
        incarnation at;
        vbr_answer told = Kind::next_at(&raw, &from.raw, &key, &at.raw, budget.count());
        if (told < 0) return refusal{told};
        return told == VBR_NO ? std::nullopt : std::optional<std::pair<key_type, incarnation>>({detail::value_of<key_type>(key), at});
    }

protected:
    using kind = Kind;
    static constexpr std::size_t part = 64; /* so many keys of a batch are looked up at once */
    basic_pass() noexcept = default;
    ~basic_pass() = default;
    basic_walk<Kind> walk(cursor *from, vbr::steps budget) noexcept { return {&raw, from, budget}; }

    // Makes a call by the slot that is held, which is spent if that is done.
    template <class Call, class Spends>
    vbr_answer by(held &slot, const Call &call, const Spends &spends) noexcept {
        if (slot.handle != &raw) return VBR_HELD;
        vbr_answer told = call();
        if (spends(told)) slot.handle = nullptr;
        return told;
    }

    // Calls with some keys after others, each time with where they begin and how many they are.
    template <class Call>
    static void in_parts(const key_type *keys, std::size_t count, const Call &call) noexcept {
        for (std::size_t from = 0, some; from < count; from += some) {
            some = count - from < part ? count - from : part;
            if constexpr (detail::is_plain<key_type>) {
                call(keys + from, from, some);
            } else {
                std::uint64_t words[part];
                for (std::size_t i = 0; i < some; i++) words[i] = detail::word_of(keys[from + i]);
                call(words, from, some);
            }
        }
    }

    typename Kind::raw raw = {};
};

/* The calls of a set's handle.

       static bool added(vbr::pass &mine, std::uint64_t key) { return mine.insert(key).value(); } */
template <class Key>
class basic_set_pass : public basic_pass<detail::set_of<Key>> {
protected:
    using kind = detail::set_of<Key>;

public:
    /* Adds a key, as vbr_insert does. Returns true if the key was absent, and is added; false if it was there.

           if (mine.insert(6).value()) count++; // this call added 6 */
    result<bool> insert(Key key) noexcept { return insert_within(key, this->steps()); }
    result<bool> insert_within(Key key, vbr::steps budget) noexcept {
        return detail::yes_or_no(vbr_insert_within(&this->raw, detail::word_of(key), budget.count()));
    }

    using typename basic_pass<detail::set_of<Key>>::held;

    /* Adds a key by the slot that is held, as vbr_insert_held does. Returns true if the key was absent, and stands in this slot; false if
       it was there.

           if (mine.insert(std::move(slot), 7).value()) count++; // 7 stands in this slot */
    result<bool> insert(held &&slot, Key key) noexcept { return insert_within(std::move(slot), key, this->steps()); }
    result<bool> insert_within(held &&slot, Key key, vbr::steps budget) noexcept {
        return detail::yes_or_no(this->by(
            slot, [&] { return vbr_insert_held_within(&this->raw, detail::word_of(key), budget.count()); },
            [](vbr_answer told) { return told == VBR_YES; }));
    }

    /* Takes a key out, as vbr_remove does. Returns true if the key was there, and is taken out; false if it was absent.

           if (mine.remove(6).value()) taken++; // this call took 6 out */
    result<bool> remove(Key key) noexcept { return remove_within(key, this->steps()); }
    result<bool> remove_within(Key key, vbr::steps budget) noexcept {
        return detail::yes_or_no(vbr_remove_within(&this->raw, detail::word_of(key), budget.count()));
    }

    /* All keys, one after another. The pass has a name, since it has to live as long as the walk.

           for (std::uint64_t key : mine.keys()) sum += key; */
    basic_walk<kind> keys() & noexcept { return keys_within(this->steps()); }
    basic_walk<kind> keys_within(vbr::steps budget) & noexcept { return this->walk(nullptr, budget); }

    /* The same from a cursor on, which moves along: a walk that was left, or came to no end, goes on from there.

           for (std::uint64_t key : mine.keys(from)) sum += key; */
    basic_walk<kind> keys(cursor &from) & noexcept { return keys_within(from, this->steps()); }
    basic_walk<kind> keys_within(cursor &from, vbr::steps budget) & noexcept { return this->walk(&from, budget); }
};

/* The calls of a map's handle.

       static std::uint64_t got(vbr::map_pass &mine, std::uint64_t key) { return mine.get(key).value().value_or(0); } */
template <class Key, class Value>
class basic_map_pass : public basic_pass<detail::map_of<Key, Value>> {
protected:
    using kind = detail::map_of<Key, Value>;

public:
    using value_type = Value;
    using found = result<std::optional<Value>>; /* the value of a key, or none if it is absent */

    /* Adds a key with its value, as vbr_map_insert does. Returns true if the key was absent, and is added; false if it was there, and
       keeps the value that it has.

           if (mine.insert(6, 60).value()) added++; // this call stored 60 for 6 */
    result<bool> insert(Key key, Value value) noexcept { return insert_within(key, value, this->steps()); }
    result<bool> insert_within(Key key, Value value, vbr::steps budget) noexcept {
        return detail::yes_or_no(vbr_map_insert_within(&this->raw, detail::word_of(key), detail::word_of(value), budget.count()));
    }

    using typename basic_pass<detail::map_of<Key, Value>>::held;
    using typename basic_pass<detail::map_of<Key, Value>>::incarnation;

    /* Adds a key with its value by the slot that is held, as vbr_map_insert_held does. Returns true if the key was absent, and stands in
       this slot; false if it was there, and keeps its value.

           if (mine.insert(std::move(slot), 7, 70).value()) added++; // 7 stands in this slot */
    result<bool> insert(held &&slot, Key key, Value value) noexcept { return insert_within(std::move(slot), key, value, this->steps()); }
    result<bool> insert_within(held &&slot, Key key, Value value, vbr::steps budget) noexcept {
        return detail::yes_or_no(this->by(
            slot, [&] { return vbr_map_insert_held_within(&this->raw, detail::word_of(key), detail::word_of(value), budget.count()); },
            [](vbr_answer told) { return told == VBR_YES; }));
    }

    /* Gives a key this value by the slot that is held, in place of the very entry that was found, as vbr_map_replace_held does. Returns
       true if the key still had that entry, and this slot took its place; false if it is absent, or has another entry by now, also one
       with the same value.

           if (mine.replace(std::move(slot), 7, *at, 71).value()) changed++; // nobody had changed 7 since it was found */
    result<bool> replace(held &&slot, Key key, const incarnation &at, Value value) noexcept {
        return replace_within(std::move(slot), key, at, value, this->steps());
    }
    result<bool> replace_within(held &&slot, Key key, const incarnation &at, Value value, vbr::steps budget) noexcept {
        return detail::yes_or_no(this->by(
            slot,
            [&] { return vbr_map_replace_held_within(&this->raw, detail::word_of(key), &at.raw, detail::word_of(value), budget.count()); },
            [](vbr_answer told) { return told == VBR_YES; }));
    }

    /* Gives a key this value by the slot that is held, whether it is there or not, as vbr_map_put_held does. Returns the value that it
       had if the key was there, and stands in the slot with the new value; none if it was absent, and is inserted in the slot.

           if (mine.put(std::move(slot), 7, 72).has_value()) puts++; // 7 stands in this slot */
    found put(held &&slot, Key key, Value value) noexcept { return put_within(std::move(slot), key, value, this->steps()); }
    found put_within(held &&slot, Key key, Value value, vbr::steps budget) noexcept {
        std::uint64_t had = 0;
        vbr_answer told = this->by(
            slot, [&] { return vbr_map_put_held_within(&this->raw, detail::word_of(key), detail::word_of(value), &had, budget.count()); },
            [](vbr_answer answer) { return answer >= 0; });
        return detail::value_by<Value>(told, had);
    }

    /* Takes a key out with its value, as vbr_map_remove does. Returns the value of the entry that this call took if the key was there,
       and is taken out; none if it was absent.

           std::optional<std::uint64_t> taken = mine.remove(6).value(); // what 6 had */
    found remove(Key key) noexcept { return remove_within(key, this->steps()); }
    found remove_within(Key key, vbr::steps budget) noexcept { return found_by(vbr_map_remove_within, budget, key); }

    /* Looks a key up and gives its value, as vbr_map_get does. Returns its value if the key is there; none if it is absent. As `has` it
       isn't const.

           if (std::optional<std::uint64_t> got = mine.get(6).value()) sum += *got; */
    found get(Key key) noexcept { return get_within(key, this->steps()); }
    found get_within(Key key, vbr::steps budget) noexcept { return found_by(vbr_map_get_within, budget, key); }

    /* Looks keys up and gives their values, as vbr_has_all looks keys up (vbr_map_get_all). values[i] is what `get` answers of keys[i].

           mine.get_all(wanted.data(), wanted.size(), values.data()); // values[i] is that of wanted[i] */
    void get_all(const Key *keys, std::size_t count, found *values) noexcept { get_all_within(keys, count, values, this->steps()); }
    void get_all_within(const Key *keys, std::size_t count, found *values, vbr::steps budget) noexcept {
        this->in_parts(keys, count, [&](const std::uint64_t *words, std::size_t from, std::size_t some) {
            vbr_found told[basic_map_pass::part];
            vbr_map_get_all_within(&this->raw, words, some, told, budget.count());
            for (std::size_t i = 0; i < some; i++) values[from + i] = detail::value_by<Value>(told[i].answer, told[i].value);
        });
    }

    /* Gives a key that is there another value, so that no call finds it absent meanwhile, as vbr_map_replace does. Returns the value that
       it had if the key was there, and has the new value; none if it was absent, and nothing was changed.

           std::optional<std::uint64_t> was = mine.replace(6, 61).value(); // 6 had it, and has 61 */
    found replace(Key key, Value value) noexcept { return replace_within(key, value, this->steps()); }
    found replace_within(Key key, Value value, vbr::steps budget) noexcept {
        return found_by(vbr_map_replace_within, budget, key, value);
    }

    /* Gives a key this value, whether it is there or not, as vbr_map_put does. Returns the value that it had if the key was there, and
       has the new value; none if it was absent, and is inserted.

           if (mine.put(7, 70).has_value()) puts++; // 7 has 70, whether it was there or not */
    found put(Key key, Value value) noexcept { return put_within(key, value, this->steps()); }
    found put_within(Key key, Value value, vbr::steps budget) noexcept {
        return found_by(vbr_map_put_within, budget, key, value);
    }

    /* Adds a number modulo 2^64 to the value of a key, or inserts the key with it: a counter, in one call, as vbr_map_fetch_add does.
       Returns the value that it had if the key was there, and has the sum; none if it was absent, and is inserted with delta. Values are
       integers of 64 bits.

           if (!mine.fetch_add(9, 1).value()) users++; // 9 was absent, and has 1; else it would have one more */
    found fetch_add(Key key, Value delta) noexcept { return fetch_add_within(key, delta, this->steps()); }
    found fetch_add_within(Key key, Value delta, vbr::steps budget) noexcept {
        static_assert(std::is_integral_v<Value> && sizeof(Value) == 8, "what is added are integers of 64 bits");
        return found_by(vbr_map_fetch_add_within, budget, key, delta);
    }

    /* Gives the value of a key, or inserts the key with this one: a get or an insert, in one call, as vbr_map_get_or_insert does. Returns
       the value that it has if the key is there, and keeps its value; none if it was absent, and is inserted.

           std::uint64_t has = mine.get_or_insert(8, 80).value().value_or(80); */
    found get_or_insert(Key key, Value value) noexcept { return get_or_insert_within(key, value, this->steps()); }
    found get_or_insert_within(Key key, Value value, vbr::steps budget) noexcept {
        return found_by(vbr_map_get_or_insert_within, budget, key, value);
    }

    /* Gives a key another value if it has the one that is expected, as vbr_map_compare_exchange does. Values are compared by their bits.

           if (*mine.compare_exchange(6, 61, 62)) changed++; // 6 had 61, and has 62 */
    result<compared<Value>> compare_exchange(Key key, Value expected, Value value) noexcept {
        return compare_exchange_within(key, expected, value, this->steps());
    }
    result<compared<Value>> compare_exchange_within(Key key, Value expected, Value value, vbr::steps budget) noexcept {
        return compared_by(vbr_map_compare_exchange_within, budget, key, expected, value);
    }

    /* Takes a key out if it has the value that is expected, as vbr_map_remove_if does. Values are compared by their bits.

           vbr::compared<std::uint64_t> left = mine.remove_if(6, 60).value(); // not done: 6 has *left.found, and is still there */
    result<compared<Value>> remove_if(Key key, Value expected) noexcept { return remove_if_within(key, expected, this->steps()); }
    result<compared<Value>> remove_if_within(Key key, Value expected, vbr::steps budget) noexcept {
        return compared_by(vbr_map_remove_if_within, budget, key, expected);
    }

    /* Gives a key the value that a function makes of the one that it has, and returns that one; none, and nothing is changed, if the key
       is absent or the function makes none. No update of another thread is lost: if one comes in between, the function is asked again,
       with the value that it left. `update` returns a value, or an option. Each call that it takes has this budget.

           auto half = [](std::uint64_t value) { return value % 2 ? std::nullopt : std::optional(value / 2); };
           std::optional<std::uint64_t> before = mine.fetch_update(6, half).value(); // 6 had it, and has half of it */
    template <class Update>
    found fetch_update(Key key, Update &&update) {
        return fetch_update_within(key, update, this->steps());
    }
    template <class Update>
    found fetch_update_within(Key key, Update &&update, vbr::steps budget) {
        found got = get_within(key, budget);
        if (!got.has_value()) return got;
        for (std::optional<Value> seen = *got; seen;) {
            std::optional<Value> next = update(*seen);
            if (!next) break;
            result<compared<Value>> told = compare_exchange_within(key, *seen, *next, budget);
            if (!told.has_value()) return told.error();
            if (told->is_done) return seen;
            if (!told->found) break;
            seen.emplace(*told->found);
        }
        return std::optional<Value>();
    }

    /* All entries, one after another. The pass has a name, as for keys.

           for (auto [key, value] : mine.entries()) sum += key * value; */
    basic_walk<kind> entries() & noexcept { return entries_within(this->steps()); }
    basic_walk<kind> entries_within(vbr::steps budget) & noexcept { return this->walk(nullptr, budget); }

    /* The same from a cursor on, which moves along: a walk that was left, or came to no end, goes on from there.

           for (auto [key, value] : mine.entries(from)) sum += key * value; */
    basic_walk<kind> entries(cursor &from) & noexcept { return entries_within(from, this->steps()); }
    basic_walk<kind> entries_within(cursor &from, vbr::steps budget) & noexcept { return this->walk(&from, budget); }

private:
    /* Makes a call of the library that is given these, and writes what its key had. */
    template <class Call, class... Given>
    found found_by(const Call &call, vbr::steps budget, const Given &...given) noexcept {
        std::uint64_t had = 0;
        vbr_answer told = call(&this->raw, detail::word_of(given)..., &had, budget.count());
        return detail::value_by<Value>(told, had);
    }

    /* The same of one that expects a value. */
    template <class Call, class... Given>
    result<compared<Value>> compared_by(const Call &call, vbr::steps budget, const Given &...given) noexcept {
        std::uint64_t had = 0;
        vbr_answer told = call(&this->raw, detail::word_of(given)..., &had, budget.count());
        return detail::compared_by<Value>(told, had);
    }
};

/* What a handle to a set and one to a map have in common; each may be empty. One thread at a time makes calls with it, by its pass. Its
   end closes it without a report, which takes no memory and loses nothing: the handle that is closed last gets the keys.

       vbr::handle mine = std::move(handles[0]); // handles are moved, and never copied */
template <class Pass>
class basic_handle : public Pass {
    using kind = typename Pass::kind;

public:
    using pass_type = Pass;
    using report_type = typename kind::report;

    basic_handle() noexcept = default;
    basic_handle(basic_handle &&other) noexcept { takes(other); }
    ~basic_handle() { end(); }

    basic_handle &operator=(basic_handle &&other) noexcept {
        if (this != &other) {
            end();
            takes(other);
        }
        return *this;
    }

    /* Gives it another budget for the calls to come; one of no steps is kept as one step, which is too few as well.

           mine.set_steps(vbr::steps{5000}); */
    void set_steps(vbr::steps budget) noexcept { this->raw.steps = budget.count() ? budget.count() : 1; }

    /* Closes a handle; the last one of a set ends it, with a report, as vbr_close does. Returns the report if it was the last, and the
       set is closed; none if other handles of its set are open. It leaves the handle empty, and its slots given back, as by
       vbr_give_slots_back, and its pass. After refusal::no_memory it is still full: close it again, drop it, or go on with it.

           std::optional<vbr::report> told = mine.close().value(); // the report of the last one */
    result<std::optional<report_type>> close() {
        if (!this->is_open()) return refusal::no_handle;
        if (!is_last()) return std::optional<report_type>();
        return close_last(detail::report_room<kind>(shared->slots));
    }

    /* Reports what is in a set by all handles that were opened with it, as vbr_report_all does.

           vbr::report now = vbr::handle::report_all(both).value(); // now.keys is {5, 7} */
    static result<report_type> report_all(std::vector<basic_handle> &handles) {
        auto nth = in_order(handles);
        if (result<void> are = are_all(handles.size(), nth); !are) return are.error();
        detail::report_room<kind> room(handles.front().shared->slots);
        vbr_answer code = with_all(handles.size(), nth, [&](auto *all) {
            return room.fill([&](auto *items, std::size_t size, vbr_report *totals) {
                return kind::report_all(all, handles.size(), items, size, totals);
            });
        });
        if (code != VBR_YES) return refusal{code};
        return room.report();
    }

    /* The slots of what is in a set or a map, by all its handles and vbr_report_slots: slots[i] is that of item i of the report that is
       made now. It takes 4 bytes for each slot besides.

           std::vector<std::uint32_t> slots = vbr::map_handle::report_slots(both).value(); */
    static result<std::vector<std::uint32_t>> report_slots(std::vector<basic_handle> &handles) {
        return report_slots(handles.size(), in_order(handles));
    }

    /* Lets all handles of a set go on over a fresh one of this shape, with the keys that were in it, as vbr_renew_all does.

           vbr::result<void> renewed = vbr::handle::renew_all(both, vbr::shape::for_keys(4096, 2)); */
    static result<void> renew_all(std::vector<basic_handle> &handles, const shape &wanted) noexcept {
        return renew_all(handles.size(), in_order(handles), wanted);
    }

    /* Ends these handles without a report, as vbr_end_all does, and leaves none of them.

           vbr::handle::end_all(handles); // nobody wants to know what was in it */
    static void end_all(std::vector<basic_handle> &handles) noexcept { handles.clear(); }

private:
    template <class Handle>
    friend struct detail::openings;
    template <class Handle>
    friend class detail::lending;
    template <class Record>
    friend class records;

    /* The handles of a vector, each by its number. */
    static auto in_order(std::vector<basic_handle> &handles) noexcept {
        return [&handles](std::size_t i) -> basic_handle & { return handles[i]; };
    }

    /* Whether these are all handles of one set; `at` gives each by its number. */
    template <class Nth>
    static result<void> are_all(std::size_t count, const Nth &nth) noexcept {
        if (count == 0) return refusal::missing;
        for (std::size_t i = 0; i < count; i++)
            if (!nth(i).is_open()) return refusal::no_handle;
        for (std::size_t i = 0; i < count; i++)
            if (nth(i).shared != nth(0).shared) return refusal::mixed;
        return nth(0).shared->count == count ? result<void>(std::in_place) : refusal::missing;
    }

    /* Makes a call with all of them side by side, and then each has what is at its place. */
    template <class Nth, class Call>
    static vbr_answer with_all(std::size_t count, const Nth &nth, const Call &call) noexcept {
        auto &all = nth(0).shared->parked; // all are open, so each place is empty
        for (std::size_t i = 0; i < count; i++) std::swap(all[i], nth(i).raw);
        vbr_answer code = call(all.data());
        for (std::size_t i = 0; i < count; i++) std::swap(all[i], nth(i).raw);
        return code;
    }

    template <class Nth>
    static result<std::vector<std::uint32_t>> report_slots(std::size_t count, const Nth &nth) {
        if (result<void> are = are_all(count, nth); !are) return are.error();
        detail::report_room<kind> room(nth(0).shared->slots);
        std::vector<std::uint32_t> slots(nth(0).shared->slots);
        vbr_answer code = with_all(count, nth, [&](auto *all) {
            return room.fill([&](auto *items, std::size_t size, vbr_report *totals) {
                vbr_answer told = kind::report_slots(all, count, items, slots.data(), size, totals);
                if (told == VBR_YES) slots.resize(totals->live);
                return told;
            });
        });
        if (code != VBR_YES) return refusal{code};
        return slots;
    }

    template <class Nth>
    static result<void> renew_all(std::size_t count, const Nth &nth, const shape &wanted) noexcept {
        if (result<void> are = are_all(count, nth); !are) return are;
        std::uint64_t seed = wanted.seed ? *wanted.seed : nth(0).seed();
        vbr_answer code = with_all(count, nth, [&](auto *all) {
            return kind::renew_all_seeded(all, count, wanted.slots, wanted.buckets, wanted.last_epoch, seed);
        });
        if (code == VBR_OK) nth(0).shared->slots = wanted.slots;
        for (std::size_t i = 0; i < count && code == VBR_OK && wanted.steps; i++) nth(i).set_steps(*wanted.steps);
        return detail::done_by(code);
    }

    void takes(basic_handle &other) noexcept {
        raw = std::exchange(other.raw, {});
        number = other.number;
        shared = std::move(other.shared);
    }

    /* Whether all others are closed. If not, this one is then closed too: it is parked for the last one. */
    bool is_last() noexcept {
        if (shared->open.load(std::memory_order_acquire) == 1) return true;
        static_cast<void>(kind::let_go(&raw)); // those that are open can have its slots
        this->give_slots_back();
        shared->parked[number] = raw;
        if (shared->open.fetch_sub(1, std::memory_order_acq_rel) == 1) {
            shared->open.store(1, std::memory_order_relaxed);
            shared->parked[number] = {};
            return true;
        }
        raw = {};
        shared.reset();
        return false;
    }

    /* Closes handles of one set, which are open, all of them or none; `at` gives each by its number. */
    template <class Nth>
    static result<std::optional<report_type>> close_all(std::size_t count, const Nth &nth) {
        basic_handle &last = nth(count - 1);
        detail::report_room<kind> room(last.shared->slots);
        for (std::size_t i = 0; i + 1 < count; i++) nth(i).is_last(); // parked, since the last one is open
        if (!last.is_last()) return std::optional<report_type>();
        auto told = last.close_last(std::move(room));
        for (std::size_t i = 0; i + 1 < count && told == refusal::no_memory; i++) nth(i).open_again(last);
        return told;
    }

    /* Takes the handle, which was parked, back from the last one that is open. */
    void open_again(const basic_handle &last) noexcept {
        shared = last.shared;
        raw = std::exchange(shared->parked[number], {});
        shared->open.fetch_add(1, std::memory_order_relaxed);
    }

    /* Closes all handles of the set at once. If it is refused memory they stay as they were. */
    result<std::optional<report_type>> close_last(detail::report_room<kind> room) {
        std::swap(shared->parked[number], raw);
        vbr_answer code = room.fill([&](auto *items, std::size_t size, vbr_report *totals) {
            return kind::close_all(shared->parked.data(), shared->count, items, size, totals);
        });
        std::swap(shared->parked[number], raw);
        if (code == VBR_NO_MEMORY) return refusal::no_memory;
        end_last();
        if (code != VBR_YES) return refusal::lost;
        return std::optional(room.report());
    }

    void end() noexcept {
        if (this->is_open() && is_last()) end_last();
    }

    /* Gives up all handles, empty ones too, which takes no memory. */
    void end_last() noexcept {
        std::swap(shared->parked[number], raw);
        kind::end_all(shared->parked.data(), shared->parked.size());
        raw = {};
        shared.reset();
    }

    using Pass::raw;
    std::size_t number = 0;
    std::shared_ptr<detail::shared<kind>> shared;
};

// vbr_lend.hpp and vbr_records.hpp have these.
template <class Record>
class records;
template <class Handle>
class basic_lender;
template <class Handle, class Owner = detail::lending<Handle> *>
class basic_loan;

namespace detail {

template <class Items, class = void>
struct array_of {
    using type = void;
};

template <class Items>
struct array_of<Items, std::void_t<decltype(std::data(std::declval<const Items &>())),
                                   decltype(std::size(std::declval<const Items &>()))>> {
    using type = std::remove_cv_t<std::remove_pointer_t<decltype(std::data(std::declval<const Items &>()))>>;
};

/* Whether a value of one type stands for one of another without doubt: it is of that type, or an unsigned number that isn't wider. */
template <class From, class To>
inline constexpr bool stands_for =
    std::is_same_v<From, To> || (std::is_unsigned_v<From> && std::is_unsigned_v<To> && sizeof(From) <= sizeof(To) &&
                                 !std::is_same_v<From, bool> && !std::is_same_v<To, bool>);

/* An item of a range, as a key or an entry. */
template <class Key>
Key taken_as(const set_of<Key> *, const Key &key) noexcept {
    return key;
}

template <class Key, class From>
Key taken_as(const set_of<Key> *, const From &key) noexcept {
    static_assert(stands_for<From, Key>, "keys are of the set's type, or unsigned numbers that it has room for");
    return static_cast<Key>(key);
}

template <class Key, class Value, class From>
typename map_of<Key, Value>::item taken_as(const map_of<Key, Value> *, const From &from) noexcept {
    const auto &[key, value] = from;
    static_assert(stands_for<std::decay_t<decltype(key)>, Key>, "keys are of the map's type, or unsigned numbers that it has room for");
    static_assert(stands_for<std::decay_t<decltype(value)>, Value>, "values are of the map's type, or unsigned numbers that have room");
    return {static_cast<Key>(key), static_cast<Value>(value)};
}

/* Makes a call with the items of a range: those of an array or a vector where they are, and others copied. */
template <class Kind, class Items, class Call>
auto with_items(const Items &items, const Call &call) {
    if constexpr (std::is_same_v<typename array_of<Items>::type, typename Kind::item>) {
        return call(std::data(items), std::size(items));
    } else {
        std::vector<typename Kind::item> copy;
        for (const auto &each : items) copy.push_back(taken_as(static_cast<const Kind *>(nullptr), each));
        return call(copy.data(), copy.size());
    }
}

/* Makes a call with items as the library has them. */
template <class Kind, class Call>
auto with_words(const typename Kind::item *items, std::size_t count, const Call &call) {
    static constexpr typename Kind::words none = {};
    if constexpr (Kind::is_plain) {
        return call(count ? items : &none);
    } else {
        std::vector<typename Kind::words> copy;
        for (std::size_t i = 0; i < count; i++) copy.push_back(Kind::words_of(items[i]));
        return call(count ? copy.data() : &none);
    }
}

/* The openings of sets, and those of maps; vbr::set and vbr::map have them. */
template <class Handle>
struct openings {
private:
    using kind = typename Handle::kind;
    using item = typename Handle::item_type;

public:
    using handle = Handle;
    using pass = typename Handle::pass_type;
    using report = typename Handle::report_type;
    using loan = basic_loan<Handle>;
    using owned_loan = basic_loan<Handle, std::shared_ptr<lending<Handle>>>;
    using lender = basic_lender<Handle>;

    static result<std::vector<Handle>> open(const shape &wanted, std::size_t count) { return open_with(wanted, count, nullptr, 0); }
    static result<std::vector<Handle>> open_with(const shape &wanted, std::size_t count, const item *items, std::size_t item_count) {
        return opened(kind::open_seeded, wanted, count, max_few_handles, items, item_count);
    }
    static result<std::vector<Handle>> open_with(const shape &wanted, std::size_t count, std::initializer_list<item> items) {
        return open_with(wanted, count, items.begin(), items.size());
    }
    template <class Items>
    static result<std::vector<Handle>> open_with(const shape &wanted, std::size_t count, const Items &items) {
        return with_items<kind>(items, [&](const item *first, std::size_t many) { return open_with(wanted, count, first, many); });
    }
    static result<std::vector<Handle>> open_many(const shape &wanted, std::size_t count, const item *items = nullptr,
                                                 std::size_t item_count = 0) {
        return opened(kind::open_many_seeded, wanted, count, max_many_handles, items, item_count);
    }

private:
    template <class Call>
    static result<std::vector<Handle>> opened(const Call &call, const shape &wanted, std::size_t count, std::size_t most, const item *items,
                                              std::size_t item_count) {
        auto shared = std::make_shared<detail::shared<kind>>();
        std::vector<Handle> handles(count <= most ? count : 0);
        shared->parked.resize(handles.size());
        std::vector<typename kind::raw> raw(handles.empty() ? 1 : handles.size());
        vbr_answer code = with_words<kind>(items, item_count, [&](const typename kind::words *words) {
            return call(raw.data(), handles.size(), wanted.slots, wanted.buckets, wanted.last_epoch, wanted.seed ? *wanted.seed : random_seed(), words,
                        item_count);
        });
        if (code != VBR_OK) return refusal{code};
        shared->open.store(count, std::memory_order_relaxed);
        shared->count = count;
        shared->slots = wanted.slots;
        for (std::size_t i = 0; i < count; i++) {
            handles[i].raw = raw[i];
            handles[i].number = i;
            handles[i].shared = shared;
            if (wanted.steps) handles[i].set_steps(*wanted.steps);
        }
        return handles;
    }
};

} // namespace detail

/* The sets of a type of keys: what opens them, and the types of their handles, passes, reports, lenders and loans. A key is trivially
   copyable, of at most 64 bits, and compared by its bits (is_by_bits).

       using colours = vbr::set<colour>;
       colours::handle mine = std::move(colours::open(vbr::shape::for_keys(8, 1), 1)->front()); */
template <class Key = std::uint64_t>
struct set : detail::openings<basic_handle<basic_set_pass<Key>>> {
    static_assert((detail::fits_key<Key>(), true));
    using key_type = Key;
};

/* The maps of a type of keys and one of values, likewise. Values are compared by their bits; they may be float or double too.

       using ports = vbr::map<address, std::uint16_t>;
       std::vector<ports::handle> of = ports::open(vbr::shape::for_keys(1024, 2), 2).value(); */
template <class Key = std::uint64_t, class Value = std::uint64_t>
struct map : detail::openings<basic_handle<basic_map_pass<Key, Value>>> {
    static_assert((detail::fits_key<Key>(), detail::fits_value<Value>(), true));
    using key_type = Key;
    using value_type = Value;
    using entry = typename detail::map_of<Key, Value>::item;
};

/* Aliases for std::uint64_t.

       vbr::handle mine = std::move(handles[0]); // handles are moved, and never copied */
using pass = set<>::pass;
using handle = set<>::handle;
using report = set<>::report;
using held = pass::held;
using incarnation = pass::incarnation;

using map_pass = map<>::pass;
using map_handle = map<>::handle;
using map_report = map<>::report;
using map_held = map_pass::held;
using map_incarnation = map_pass::incarnation;

/* Opens an empty set, as vbr_open does. It has `count` handles, from 1 to max_few_handles.

       std::vector<vbr::handle> handles = vbr::open(vbr::shape::for_keys(1024, 2), 2).value(); // or it throws vbr::refused */
inline result<std::vector<handle>> open(const shape &wanted, std::size_t count) { return set<>::open(wanted, count); }

/* Opens a set of these keys, which ascend, each above the one before, as vbr_open_with does.

       auto some = vbr::open_with(shape, 1, want.data(), want.size()); */
inline result<std::vector<handle>> open_with(const shape &wanted, std::size_t count, const std::uint64_t *keys, std::size_t key_count) {
    return set<>::open_with(wanted, count, keys, key_count);
}

/* The same with a list of keys.

       auto few = vbr::open_with(vbr::shape::for_keys(8, 1), 1, {2, 5, 9}); */
inline result<std::vector<handle>> open_with(const shape &wanted, std::size_t count, std::initializer_list<std::uint64_t> keys) {
    return set<>::open_with(wanted, count, keys);
}

/* The same with any range of unsigned numbers: an array or a vector of std::uint64_t is read where it is, and others, as a
   std::set, are copied first.

       auto opened = vbr::open_with(vbr::shape::for_keys(8, 1), 1, keys); */
template <class Keys>
result<std::vector<handle>> open_with(const shape &wanted, std::size_t count, const Keys &keys) {
    return set<>::open_with(wanted, count, keys);
}

/* Opens a set with up to VBR_MAX_MANY_HANDLES handles, as vbr_open_with does otherwise (vbr_open_many). There may be no keys.

       std::vector<vbr::handle> crowd = vbr::open_many(vbr::shape::for_keys(1024, 1000), 1000).value(); */
inline result<std::vector<handle>> open_many(const shape &wanted, std::size_t count, const std::uint64_t *keys = nullptr,
                                             std::size_t key_count = 0) {
    return set<>::open_many(wanted, count, keys, key_count);
}

/* Opens an empty map, as vbr_map_open does. It has `count` handles, from 1 to max_few_handles.

       std::vector<vbr::map_handle> handles = vbr::open_map(vbr::shape::for_keys(1024, 2), 2).value(); */
inline result<std::vector<map_handle>> open_map(const shape &wanted, std::size_t count) { return map<>::open(wanted, count); }

/* Opens a map of these entries, whose keys ascend, each above the one before, as vbr_map_open_with does.

       auto some = vbr::open_map_with(shape, 1, want.data(), want.size()); */
inline result<std::vector<map_handle>> open_map_with(const shape &wanted, std::size_t count, const entry *entries,
                                                     std::size_t entry_count) {
    return map<>::open_with(wanted, count, entries, entry_count);
}

/* The same with a list of entries.

       auto few = vbr::open_map_with(vbr::shape::for_keys(8, 1), 1, {{2, 20}, {5, 50}, {9, 90}}); */
inline result<std::vector<map_handle>> open_map_with(const shape &wanted, std::size_t count, std::initializer_list<entry> entries) {
    return map<>::open_with(wanted, count, entries);
}

/* The same with any range of entries, or of pairs of unsigned numbers: an array or a vector of vbr::entry is read where it is,
   and others, as a std::map, are copied first.

       auto opened = vbr::open_map_with(vbr::shape::for_keys(8, 1), 1, entries); */
template <class Entries>
result<std::vector<map_handle>> open_map_with(const shape &wanted, std::size_t count, const Entries &entries) {
    return map<>::open_with(wanted, count, entries);
}

/* Opens a map with up to VBR_MAX_MANY_HANDLES handles, as vbr_map_open_with does otherwise (vbr_map_open_many). There may be no entries.

       std::vector<vbr::map_handle> crowd = vbr::open_map_many(vbr::shape::for_keys(1024, 1000), 1000).value(); */
inline result<std::vector<map_handle>> open_map_many(const shape &wanted, std::size_t count, const entry *entries = nullptr,
                                                     std::size_t entry_count = 0) {
    return map<>::open_many(wanted, count, entries, entry_count);
}

} // namespace vbr

#include "vbr_lend.hpp"

#endif

/* A map with keys and values of any size, in fixed memory, and without a lock. It is a map of numbers of 64 bits, and beside each of its
   slots a record, which has the value, and the key if that has more than 64 bits. The two are those of vbr.hpp and of vbr_records.hpp.
   This header is for C++17 and later.

   A key of at most 64 bits is kept as it is. Of any other the map keeps 64 bits of its hash, and the record has the key, with which each
   call compares. Two keys with one hash aren't in the map at the same time: a call that would add the second one is refused, and no call
   gives the answer of one for the other. The hash has a key that is drawn, unless the program gives another hash, so nobody outside can
   choose keys that share it, or a bucket. Of n keys any two have one hash with a probability below n^2 / 2^65: 3 in a hundred million
   with a million keys. A key is trivially copyable and compared by its bytes (vbr::is_by_bits). The second key with a hash is refused by
   refusal::hash_taken. The usual hash is SipHash-1-3.

   If others choose the keys, a hash of the program's own has a key that nobody outside knows: whoever can compute it can choose keys that
   share it.

   A value is copied whole into a record that nobody else sees yet, and that record is never written again while the key has it. So a
   reader waits for nobody, and gets a copy that is whole, and that the key had at a moment of the call. Each change is made at one
   moment, of a value that was read: none is lost. Calls take no memory; an opening and a renewal do. A value is trivially copyable.

   All calls give a vbr::result. Calls by a loan that has no handle are refused by refusal::no_handle. The budget of a handle is that of the
   shape, or the ample one. vbr(3) says of out_of_steps, no_slot and epoch_spent when they come, and what to do then: a program takes keys
   out, or renews the map. A refused call has changed nothing.

       using accounts = vbr::record_map<vbr::small_string<31>, account>;
       accounts map = accounts::open_for(1000, 8).value();           // for 1000 keys, and 8 threads at a time
       accounts::loan mine = map.lend_wait();                        // the right of this thread to make calls
       accounts::key_type who = accounts::key_type::from("ada").value(); // or refusal::too_long
       bool added = mine.insert(who, account{100, 1}).value();       // true: who was absent
       std::optional<account> has = mine.get(who).value();           // a copy, whole */
#ifndef VBR_RECORD_MAP_HPP
#define VBR_RECORD_MAP_HPP

#include "vbr_records.hpp"

#include <atomic>
#include <cstdio>
#include <cstdlib>
#include <cstring>
#include <memory>
#include <string_view>

namespace vbr {

/* A text of at most N bytes, N from 1 to 65,535, as a key, a value, or a part of one. It takes N + 1 bytes, and N + 2 if N is above 255.
   A text of at most 7 bytes has 64 bits.

       accounts::key_type who = accounts::key_type::from("ada").value(); // or refusal::too_long */
template <std::size_t N>
class small_string {
    static_assert(N >= 1 && N <= 65535, "a small string has room for 1 to 65,535 bytes");

public:
    /* The empty one.

           vbr::small_string<31> none; // "" */
    constexpr small_string() noexcept = default;

    /* One of these bytes, or refusal::too_long. A byte may be zero.

           if (vbr::small_string<3>::from("longer") == vbr::refusal::too_long) refused++; */
    static result<small_string> from(std::string_view from) noexcept {
        if (from.size() > N) return refusal::too_long;
        small_string made;
        if (!from.empty()) std::memcpy(made.text, from.data(), from.size());
        for (std::size_t i = 0; i < sizeof made.length; i++) made.length[i] = static_cast<unsigned char>(from.size() >> 8 * i);
        return made;
    }

    /* Its bytes, where they lie.

           std::string_view name = who.view(); // for as long as who is there */
    std::string_view view() const & noexcept {
        std::size_t size = 0;
        for (std::size_t i = 0; i < sizeof length; i++) size |= std::size_t{length[i]} << 8 * i;
        return {text, size};
    }
    std::string_view view() const && = delete;

    friend bool operator==(const small_string &one, const small_string &other) noexcept { return one.view() == other.view(); }
    friend bool operator!=(const small_string &one, const small_string &other) noexcept { return one.view() != other.view(); }
    friend bool operator<(const small_string &one, const small_string &other) noexcept { return one.view() < other.view(); }

private:
    char text[N] = {}; /* zeros after its bytes, so that equal ones have equal bytes */
    unsigned char length[N < 256 ? 1 : 2] = {}; /* from the low byte on, so that there is no padding */
};

/* Bytes, as a small_string has them: at most N, and any of them may be zero.

       using pages = vbr::cache<std::uint64_t, vbr::small_bytes<4096>>; */
template <std::size_t N>
using small_bytes = small_string<N>;

namespace detail {

/* SipHash-1-3 (Aumasson and Bernstein) of some bytes, by a key of 128 bits. */
class siphash {
public:
    siphash(std::uint64_t first, std::uint64_t second) noexcept
        : a(first ^ 0x736f6d6570736575u), b(second ^ 0x646f72616e646f6du), c(first ^ 0x6c7967656e657261u), d(second ^ 0x7465646279746573u) {}

    std::uint64_t of(const unsigned char *bytes, std::size_t count) noexcept {
        std::uint64_t word = 0;
        std::size_t left = count;
        for (; left >= 8; left -= 8, bytes += 8) {
            std::memcpy(&word, bytes, 8);
            add(word);
        }
        word = 0;
        if (left > 0) std::memcpy(&word, bytes, left);
        add(word | static_cast<std::uint64_t>(count) << 56);
        c ^= 0xff;
        for (int i = 0; i < 3; i++) round();
        return a ^ b ^ c ^ d;
    }

private:
    static std::uint64_t turned(std::uint64_t word, int by) noexcept { return word << by | word >> (64 - by); }

    void add(std::uint64_t word) noexcept {
        d ^= word;
        round();
        a ^= word;
    }

    void round() noexcept {
        a += b, b = turned(b, 13) ^ a, a = turned(a, 32);
        c += d, d = turned(d, 16) ^ c;
        a += d, d = turned(d, 21) ^ a;
        c += b, b = turned(b, 17) ^ c, c = turned(c, 32);
    }

    std::uint64_t a, b, c, d;
};

template <class Key>
std::uint64_t hash_by(siphash by, const Key &key) noexcept {
    return by.of(reinterpret_cast<const unsigned char *>(std::addressof(key)), sizeof key);
}

template <std::size_t N>
std::uint64_t hash_by(siphash by, const small_string<N> &key) noexcept {
    return by.of(reinterpret_cast<const unsigned char *>(key.view().data()), key.view().size());
}

template <class Key>
bool same_bytes(const Key &one, const Key &other) noexcept {
    return std::memcmp(std::addressof(one), std::addressof(other), sizeof one) == 0;
}

/* Of a key of at most 64 bits: the key itself. */
struct key_itself {
    template <class Key>
    std::uint64_t operator()(const Key &key) const noexcept {
        return word_of(key);
    }
};

/* A number that no other table of a record map has, at any time. */
inline std::uint64_t number_of_table() noexcept {
    static std::atomic<std::uint64_t> last{0};
    return last.fetch_add(1, std::memory_order_relaxed) + 1;
}

} // namespace detail

/* The hash of keys of more than 64 bits: SipHash-1-3 of their bytes, and of a small_string of its text, with a key of 128 bits. Unless it is
   given one, it draws one by random_seed, so that nobody can choose keys with one hash.

       vbr::keyed_hash<vbr::small_string<31>> same_each_time(1, 2); // for a program that wants the same walk each time */
template <class Key>
class keyed_hash {
public:
    keyed_hash() noexcept : keyed_hash(random_seed(), random_seed()) {}
    keyed_hash(std::uint64_t first, std::uint64_t second) noexcept : key(first, second) {}
    std::uint64_t operator()(const Key &hashed) const noexcept { return detail::hash_by(key, hashed); }

private:
    detail::siphash key;
};

/* What `compute` is to do with a key:

   - keep: it stays as it is, there or not
   - put: it gets this value, and is inserted if it is absent
   - remove: it is taken out if it is there

       return there ? to::put({there->balance - 10, there->payments + 1}) : to::keep(); */
template <class Value>
class [[nodiscard]] change {
public:
    static change keep() noexcept { return change(std::nullopt, false); }
    static change put(const Value &value) noexcept { return change(value, false); }
    static change remove() noexcept { return change(std::nullopt, true); }

private:
    template <class, class, class, class>
    friend class basic_record_loan;
    change(const std::optional<Value> &value, bool removes) noexcept : stored(value), is_removal(removes) {}
    std::optional<Value> stored;
    bool is_removal;
};

/* A key with its value as they were at one moment, and which entry that was. No later entry of the key is taken for it, even with the
   same value. After a renewal of the map all entries are others.

       while (std::optional<accounts::entry> seen = mine.get_entry(who).value()) // until no other thread was faster */
template <class Key, class Value>
class record_entry {
public:
    const Key &key() const & noexcept { return its_key; }
    Key key() const && noexcept { return its_key; }
    const Value &value() const & noexcept { return its_value; }
    Value value() const && noexcept { return its_value; }

private:
    template <class, class, class, class>
    friend class basic_record_loan;
    record_entry(const Key &of, const Value &with, std::uint64_t under, const map_incarnation &stands, std::uint64_t in) noexcept
        : its_key(of), its_value(with), word(under), at(stands), table(in) {}
    Key its_key;
    Value its_value;
    std::uint64_t word; /* under which the map has it */
    map_incarnation at;
    std::uint64_t table;
};

/* Where a walk of a record map stands. One that began before a renewal, or in another map, is refused.

       vbr::record_cursor from; // before the first key */
class record_cursor {
    template <class, class, class, class>
    friend class basic_record_loan;
    cursor at;
    std::uint64_t table = 0; /* none yet */
};

namespace detail {

template <class Key, class Value, bool has_key>
struct keyed_record {
    Value value;
    Key key;
};

template <class Key, class Value>
struct keyed_record<Key, Value, false> {
    Value value;
};

/* Room for a copy of a record, of a type that may have no default, and the entry whose record it is. */
template <class Record>
struct seen_record {
    seen_record() noexcept : none() {}
    union {
        char none;
        Record record;
    };
    map_incarnation at;
};

template <class Key>
inline constexpr bool is_word = sizeof(Key) <= 8;

/* What the loans of a record map share. */
template <class Key, class Value, class Hash>
struct record_table {
    using record = keyed_record<Key, Value, !is_word<Key>>;

    record_table(std::vector<map_handle> &&handles, const Hash &by) : of_slots(handles.front().slots()), hash(by), lender(std::move(handles)) {}
    record_table(const record_table &) = delete;
    record_table &operator=(const record_table &) = delete;
    ~record_table() {
        if (lender.end() != refusal::on_loan) return;
        std::fputs("vbr::record_map: it ends while a loan of it is out\n", stderr);
        std::abort();
    }

    records<record> of_slots;
    const Hash hash;
    std::uint64_t number = number_of_table(); /* another one after a renewal, which writes it while it has all handles */
    map_lender lender;
};

template <class Key, class Value, class Hash>
struct cache_table; /* vbr_cache.hpp */

template <class Key>
using usual_hash = std::conditional_t<is_word<Key>, key_itself, keyed_hash<Key>>;

} // namespace detail

/* A handle on loan from a record map, which makes all calls. It goes back at the end of this, and may go to another thread before.

   A look-up hashes the key, unless it is kept as it is, finds the entry, copies the record, and asks by one load whether the entry still
   stands there. A call that changes a key looks it up first. If there is something to store it takes a slot, writes the record there, and
   puts the slot in the place of the entry that it read. A call that changes nothing takes no slot.

   Each call of the map that these calls make has the budget of the handle. A change begins anew for each update of the key by others that
   came in between, and a look-up only if the slot of its entry was handed out anew.

   There may be no handle: it is tested by `if (loan)`.

       accounts::loan mine = map.lend_wait(); */
template <class Key, class Value, class Hash, class Owner>
class [[nodiscard]] basic_record_loan {
    using table_type = detail::record_table<Key, Value, Hash>;
    using record = typename table_type::record;
    using seen = detail::seen_record<record>;

public:
    using entry = record_entry<Key, Value>;
    using cursor = record_cursor;
    using change = vbr::change<Value>;
    using found = result<std::optional<Value>>; /* the value that a key had; none if it was absent */

    /* How often a change begins anew before it is refused by refusal::out_of_steps.

           static_assert(accounts::loan::most_attempts == 1000); */
    static constexpr int most_attempts = 1000;

    basic_record_loan() noexcept = default;
    basic_record_loan(basic_record_loan &&) noexcept = default;

    /* Gives back what it has before it takes the other one.

           mine = accounts::loan(); // given back */
    basic_record_loan &operator=(basic_record_loan &&other) noexcept {
        if (this != &other) {
            handle = map_loan();
            table = std::move(other.table);
            handle = std::move(other.handle);
        }
        return *this;
    }

    explicit operator bool() const noexcept { return static_cast<bool>(handle); }

    /* Looks a key up and gives its value, as vbr_map_get does. Returns its value if the key is there; none if it is absent. It leaves the
       map as it was: its steps are loads.

           std::optional<account> has = mine.get(who).value(); */
    found get(const Key &key) {
        if (!handle) return refusal::no_handle;
        seen there;
        result<bool> is_there = read(table->hash(key), there);
        if (!is_there.has_value()) return is_there.error();
        if (!*is_there || !is_of(there, key)) return std::optional<Value>();
        return std::optional<Value>(there.record.value);
    }

    /* The value of a key, as `get` gives it, and which entry it is of.

           while (std::optional<accounts::entry> seen = mine.get_entry(who).value()) // until no other thread was faster */
    result<std::optional<entry>> get_entry(const Key &key) {
        if (!handle) return refusal::no_handle;
        const std::uint64_t word = table->hash(key);
        seen there;
        result<bool> is_there = read(word, there);
        if (!is_there.has_value()) return is_there.error();
        if (!*is_there || !is_of(there, key)) return std::optional<entry>();
        return std::optional<entry>(entry_of(key, word, there));
    }

    /* Looks a key up without its value, as vbr_map_has does. Returns true if the key is there; false if it is absent. If keys are hashed
       it costs a `get`.

           if (*mine.has(who)) there++; */
    result<bool> has(const Key &key) {
        if (!handle) return refusal::no_handle;
        if constexpr (detail::is_word<Key>) {
            return handle->has(table->hash(key));
        } else {
            seen there;
            result<bool> is_there = read(table->hash(key), there);
            if (!is_there.has_value()) return is_there.error();
            return *is_there && is_of(there, key);
        }
    }

    /* Adds a key with its value, as vbr_map_insert does. Returns true if the key was absent, and is added; false if it was there, and
       keeps the value that it has.

           bool added = mine.insert(who, account{100, 1}).value(); */
    result<bool> insert(const Key &key, const Value &value) {
        found had = change_by(key, [&](const std::optional<Value> &there) { return there ? change::keep() : change::put(value); });
        if (!had.has_value()) return had.error();
        return !*had;
    }

    /* Gives a key this value, whether it is there or not, as vbr_map_put does. Returns the value that it had if the key was there, and
       has the new value; none if it was absent, and is inserted.

           std::optional<account> before = mine.put(who, account{50, 2}).value(); // what who had */
    found put(const Key &key, const Value &value) {
        return change_by(key, [&](const std::optional<Value> &) { return change::put(value); });
    }

    /* Gives a key that is there another value, so that no call finds it absent meanwhile, as vbr_map_replace does. Returns the value that
       it had if the key was there, and has the new value; none if it was absent, and nothing was changed.

           std::optional<account> replaced = mine.replace(who, account{40, 3}).value(); */
    found replace(const Key &key, const Value &value) {
        return change_by(key, [&](const std::optional<Value> &there) { return there ? change::put(value) : change::keep(); });
    }

    /* Takes a key out with its value, as vbr_map_remove does. Returns the value of the entry that this call took if the key was there,
       and is taken out; none if it was absent.

           std::optional<account> taken = mine.remove(who).value(); */
    found remove(const Key &key) {
        return change_by(key, [](const std::optional<Value> &) { return change::remove(); });
    }

    /* Gives a key this value if it still has the very entry that was read, and says whether it had; else nothing is changed. So no update
       that came in between is lost.

       An entry of another map, or from before a renewal, is none that the map has.

           if (mine.replace_entry(*seen, {seen->value().balance + 1, seen->value().payments + 1}).value()) break; */
    result<bool> replace_entry(const entry &found_before, const Value &value) {
        if (!handle) return refusal::no_handle;
        if (found_before.table != table->number) return false;
        return publish(found_before.word, &found_before.at, record_of(found_before.key(), value));
    }

    /* Takes a key out with its value if it still has the very entry that was found, as vbr_map_remove_entry does. Returns true if the key
       had that entry, and is taken out. Returns false if it is absent, or was taken out and added again, or given a value, even the same
       one, since then; nothing was changed.

       An entry of another map, or from before a renewal, is none that the map has.

           if (mine.remove_entry(*still).value()) taken_out++; // nobody had changed it since it was found */
    result<bool> remove_entry(const entry &found_before) {
        if (!handle) return refusal::no_handle;
        if (found_before.table != table->number) return false;
        return handle->remove_entry(found_before.word, found_before.at);
    }

    /* Does with a key what a function says of the value that it has, or of none, and returns that value.

       The change is made only if the key still has what the function was given. Else it is called again, with what is there then. So each
       call on a key is given what the one before it left, and no change is lost. `ask` says `keep`, `put` or `remove`. It is asked at
       most most_attempts times.

           using to = accounts::change;
           std::optional<account> paid = mine.compute(who, pay_10).value(); // what it had before, whether it has paid or not */
    template <class Ask>
    found compute(const Key &key, Ask &&ask) {
        return change_by(key, ask);
    }

    /* The next entry of a walk, a key with a value that it had at a moment of the call; none at the end. A key that is there for the
       whole walk is given once. After a renewal it is refused by refusal::reshaped. If a budget isn't enough, the cursor may have come
       further.

           vbr::record_cursor from; // before the first key
           while (std::optional<accounts::entry> next = mine.next(from).value()) sum += next->value().balance; */
    result<std::optional<entry>> next(cursor &from) {
        if (!handle) return refusal::no_handle;
        if (from.table == 0) from.table = table->number;
        if (from.table != table->number) return refusal::reshaped;
        for (;;) {
            const vbr::cursor before = from.at;
            auto stands = handle->next_at(from.at);
            if (!stands.has_value()) return stands.error();
            if (!*stands) return std::optional<entry>();
            const std::uint64_t word = (*stands)->first;
            seen there;
            there.at = (*stands)->second;
            result<bool> is_there = copies(there);
            if (is_there == false) is_there = read(word, there); // it was changed meanwhile, or is gone
            if (!is_there.has_value()) {
                from.at = before;
                return is_there.error();
            }
            if (*is_there) return std::optional<entry>(entry_of(key_of(word, there.record), word, there));
        }
    }

    /* Goes over all entries by `next`, and calls `visit` with each. It goes on if a budget was spent and the walk has come further.

           vbr::result<void> walked = mine.for_each([&](const accounts::entry &each) { sum += each.value().balance; }); */
    template <class Visit>
    result<void> for_each(Visit &&visit) {
        cursor from;
        for (;;) {
            const vbr_cursor before = from.at.raw;
            result<std::optional<entry>> given = next(from);
            const bool is_further = from.at.raw.bucket != before.bucket || from.at.raw.from != before.from;
            if (given == refusal::out_of_steps && is_further) continue;
            if (!given.has_value()) return given.error();
            if (!*given) return result<void>(std::in_place);
            visit(static_cast<const entry &>(**given));
        }
    }

    /* Puts the slots that the handle keeps to itself into the pool that all handles share, where any of them finds them, as
       vbr_map_give_slots_back does. Returns how many it gave back, at most 64. It can't fail. It is 0 without a handle.

           std::uint32_t given = mine.give_slots_back(); */
    std::uint32_t give_slots_back() noexcept { return handle ? handle->give_slots_back() : 0; }

    /* Returns the epoch that the handle read last in a call, as vbr_map_epoch does. It is 1 before its first call. Renew the map before
       it reaches vbr_map_last_epoch. It is 0 without a handle.

           bool is_near = mine.epoch() + 1000 >= map.last_epoch(); */
    std::uint64_t epoch() const noexcept { return handle ? handle->epoch() : 0; }

private:
    template <class, class, class>
    friend class record_map;
    template <class, class, class>
    friend class cache_loan;
    basic_record_loan(const Owner &of, map_loan &&lent) noexcept : table(lent ? of : Owner()), handle(std::move(lent)) {}

    static bool is_of([[maybe_unused]] const seen &there, [[maybe_unused]] const Key &key) noexcept {
        if constexpr (detail::is_word<Key>) return true;
        else return detail::same_bytes(there.record.key, key);
    }

    static record record_of([[maybe_unused]] const Key &key, const Value &value) noexcept {
        if constexpr (detail::is_word<Key>) return {value};
        else return {value, key};
    }

    static Key key_of([[maybe_unused]] std::uint64_t word, [[maybe_unused]] const record &of) noexcept {
        if constexpr (detail::is_word<Key>) return detail::value_of<Key>(word);
        else return of.key;
    }

    entry entry_of(const Key &key, std::uint64_t word, const seen &there) const noexcept {
        return entry(key, there.record.value, word, there.at, table->number);
    }

    /* Whether the map has something under the word of a key, of that key or of another one with its hash; it is copied then, whole. */
    result<bool> read(std::uint64_t word, seen &into) noexcept {
        for (;;) {
            result<std::optional<map_incarnation>> at = handle->get_entry(word);
            if (!at.has_value()) return at.error();
            if (!*at) return false;
            into.at = **at;
            result<bool> is_whole = copies(into);
            if (is_whole != false) return is_whole;
        }
    }

    /* Copies the record of an entry: true if the copy is whole. */
    result<bool> copies(seen &into) noexcept {
        vbr_records_copy(&table->of_slots.raw, into.at.slot(), static_cast<void *>(std::addressof(into.record)));
        return handle->is_still(into.at);
    }

    /* Makes a record that of a word, in place of the entry that was found there, or if none is there: true if it was done. */
    result<bool> publish(std::uint64_t word, const map_incarnation *instead, const record &fresh) noexcept {
        result<map_held> slot = handle->hold();
        if (!slot.has_value()) return slot.error();
        table->of_slots.write(*slot, fresh);
        return instead ? handle->replace(std::move(*slot), word, *instead, 0) : handle->insert(std::move(*slot), word, 0);
    }

    /* Does with a key what `ask` says, as `compute`. No slot is held while it is asked, which may make calls by this loan, and even give it
       back. */
    template <class Ask>
    found change_by(const Key &key, Ask &&ask) {
        if (!handle) return refusal::no_handle;
        const std::uint64_t word = table->hash(key);
        for (int attempt = 0; attempt < most_attempts; attempt++) {
            const std::uint64_t number = table->number;
            seen there;
            result<bool> has_word = read(word, there);
            if (!has_word.has_value()) return has_word.error();
            std::optional<Value> before;
            if (*has_word && is_of(there, key)) before.emplace(there.record.value);
            const change wanted = ask(std::as_const(before));
            if (!wanted.stored && (!wanted.is_removal || !before)) return before;
            if (*has_word && !before) return refusal::hash_taken;
            if (!handle || table->number != number) return refusal::no_handle;
            result<bool> told = wanted.stored ? publish(word, before ? &there.at : nullptr, record_of(key, *wanted.stored))
                                              : handle->remove_entry(word, there.at);
            if (!told.has_value()) return told.error();
            if (*told) return before;
        }
        return refusal::out_of_steps;
    }

    Owner table = {};
    map_loan handle; /* which goes back before its table may end */
};

/* A map with keys and values of any size, which lends its handles to threads. Many threads may borrow, renew and count at a time. It is
   moved and never copied. Its loans end before it, unless they are owned: one that ends while another loan is out ends the program by abort,
   with a sentence on standard error.

       accounts map = accounts::open_for(1000, 8).value(); */
template <class Key, class Value, class Hash = detail::usual_hash<Key>>
class record_map {
    static_assert(std::is_trivially_copyable_v<Key> && std::is_copy_constructible_v<Key>, "a key is copied byte by byte");
    static_assert(!std::is_same_v<Key, std::string_view> && !std::is_same_v<Key, const char *> && !std::is_same_v<Key, char *>,
                  "a text is kept as a small_string, since its pointer isn't the text");
    static_assert(is_by_bits<Key>, "keys with padding, or of floating point, may be equal and differ in bytes: see vbr::is_by_bits");
    static_assert(std::is_trivially_copyable_v<Value> && std::is_copy_constructible_v<Value>, "a value is copied byte by byte");
    static_assert(!detail::is_word<Key> || std::is_same_v<Hash, detail::key_itself>, "a key of at most 64 bits is kept as it is, and not hashed");
    using table_type = detail::record_table<Key, Value, Hash>;

public:
    using key_type = Key;
    using value_type = Value;
    using hash_type = Hash;
    using entry = record_entry<Key, Value>;
    using change = vbr::change<Value>;
    using loan = basic_record_loan<Key, Value, Hash, table_type *>;
    using owned_loan = basic_record_loan<Key, Value, Hash, std::shared_ptr<table_type>>;

    /* One that lends nothing.

           accounts later; // lends none until it is assigned */
    record_map() noexcept = default;
    record_map(record_map &&) noexcept = default;
    record_map &operator=(record_map &&) noexcept = default;

    /* Opens an empty one of this shape with this many handles, from 1 to max_many_handles. It is refused as open_map_many is; if a vector or
       the records find no memory it throws std::bad_alloc. A hash gives equal keys equal numbers, each time.

       The opening and renewals take memory: that of a map of this shape, and for each slot a record, which is the value, and the key if
       it is hashed, in whole words of 8 bytes.

           accounts fixed = accounts::open(shape, 2, same_each_time).value(); */
    static result<record_map> open(const shape &wanted, std::size_t handles, const Hash &hash = Hash()) {
        result<std::vector<map_handle>> opened = open_map_many(wanted, handles);
        if (!opened.has_value()) return opened.error();
        record_map made;
        made.all = std::make_shared<table_type>(std::move(*opened), hash);
        return made;
    }

    /* The same for this many keys at one time, by shape::for_keys: no_slot comes if there are more. A full map takes a key out first.

           accounts map = accounts::open_for(1000, 8).value(); */
    static result<record_map> open_for(std::uint32_t keys, std::size_t handles, const Hash &hash = Hash()) {
        return open(shape::for_keys(keys, handles), handles, hash);
    }

    /* A free handle on loan, as lenders of vbr.hpp give it: at once or none; as soon as one is free; or within a time.

           accounts::loan mine = map.lend_wait(); */
    loan lend() noexcept { return all ? loan(all.get(), all->lender.lend()) : loan(); }
    loan lend_wait() { return all ? loan(all.get(), all->lender.lend_wait()) : loan(); }
    template <class Rep, class Period>
    loan lend_for(const std::chrono::duration<Rep, Period> &limit) {
        return all ? loan(all.get(), all->lender.lend_for(limit)) : loan();
    }

    /* The loan keeps the handles, so it may outlive what lent it: for tasks. Beside the loan it costs two atomic additions on a word that
       all threads share.

           accounts::owned_loan task = map.lend_owned(); */
    owned_loan lend_owned() noexcept { return all ? owned_loan(all, all->lender.lend()) : owned_loan(); }
    owned_loan lend_owned_wait() { return all ? owned_loan(all, all->lender.lend_wait()) : owned_loan(); }
    template <class Rep, class Period>
    owned_loan lend_owned_for(const std::chrono::duration<Rep, Period> &limit) {
        return all ? owned_loan(all, all->lender.lend_for(limit)) : owned_loan();
    }

    /* Lets the handles go on over a fresh map of this shape, as vbr_map_renew_all does, once none is on loan (vbr_map_lender_renew).

       It lends none meanwhile, and waits for the loans, so a thread that has one itself waits for ever. Threads that wait for a handle
       keep waiting. A refusal leaves the set as it was, and it lends again.

       If another thread renews to the same shape while this one waits, one renewal serves both. So each thread may ask for one if a call
       was refused since the last epoch is spent, once it has no loan.

       The records go along. It takes the memory of both maps, but of records only if their number changes.

           vbr::result<void> renewed = map.renew(vbr::shape::for_keys(2000, 8)); */
    result<void> renew(const shape &wanted) { return renew_until(wanted, std::nullopt); }

    /* The same, or refused if not all loans were back when the time was over.

           vbr::result<void> in_vain = map.renew_for(shape, 10ms); // refusal::on_loan: mine is out */
    template <class Rep, class Period>
    result<void> renew_for(const shape &wanted, const std::chrono::duration<Rep, Period> &limit) {
        return renew_until(wanted, detail::after(limit));
    }

    /* How many keys are in, about, as count_about of a lender: exact while no loan is out.

           std::int64_t about = map.count_about(); */
    std::int64_t count_about() const noexcept { return all ? all->lender.count_about() : 0; }

    /* What it was opened with. All are 0 of a map that lends nothing.

       How many handles it lends. So many as `on_loan` says are on loan.

           if (map.slots() != shape.slots || map.handles() != 8 || map.on_loan() != 1) return 1; */
    std::uint32_t slots() const noexcept { return all ? all->lender.slots() : 0; }
    std::uint32_t buckets() const noexcept { return all ? all->lender.buckets() : 0; }
    std::uint64_t last_epoch() const noexcept { return all ? all->lender.last_epoch() : 0; }
    std::size_t handles() const noexcept { return all ? all->lender.handles() : 0; }
    std::size_t on_loan() const noexcept { return all ? all->lender.on_loan() : 0; }

private:
    template <class, class, class>
    friend struct detail::cache_table;
    template <class, class, class>
    friend class cache_loan;
    result<void> renew_until(const shape &wanted, const detail::deadline &until) {
        return all ? renew_since(lending().renewed(), wanted, until) : refusal::no_handle;
    }

    /* The same, unless it was renewed to this shape since there were so many renewals. */
    result<void> renew_since(std::size_t before, const shape &wanted, const detail::deadline &until) {
        return lending().renew_by(before, wanted, until, [&](std::size_t count, const auto &nth) {
            result<void> told = all->of_slots.template renew<map_handle>(count, nth, wanted);
            if (told) all->number = detail::number_of_table();
            return told;
        });
    }
    auto &lending() const noexcept { return *all->lender.all; }

    std::shared_ptr<table_type> all;
};

} // namespace vbr

#endif

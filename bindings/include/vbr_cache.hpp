/* A cache with keys and values of any size, in fixed memory: a record map that evicts, with the same keys and values. It keeps as many
   entries as it was opened for. Of two keys with one hash the one that comes later takes the other's place.

   Its calls take no lock, but for those that load a key, and those that change one while loads are under way.

   This header is for C++17 and later. Keys and values are trivially copyable, and a text or bytes a small_string or small_bytes.

       using users = vbr::cache<vbr::small_string<31>, user>;
       users cache = users::open_bytes(1 << 20, 8).value();          // in a mebibyte at most, for 8 threads at a time
       users::loan mine = cache.lend_wait();                         // the right of this thread to make calls
       users::key_type who = users::key_type::from("ada").value();   // or refusal::too_long
       std::optional<user> there = mine.get_or_load(who, from_database).value(); // none: the loader gave none

   An insert into a full cache evicts by CLOCK (Corbato 1968). A hand goes from slot to slot. An entry that was found or given another
   value since the hand came by is marked as not used, and stays. Another one goes, and so does one that has expired. A new entry counts
   as not used, so what is asked for once goes at the next round.

   All threads share one hand, which an atomic addition advances by eight slots. A handle looks at these in turn, and goes on where it
   was. Four threads with a hand each had 0.1 to 0.4 fewer hits in 100, among 2,000 entries of 20,000 keys by Zipf 0.7 and 0.99, with
   scans and without (30 November 2026).

   A hit is a `get` of a record map and one load more, of whether a renewal waits. It writes its count, on a cache line of the handle's
   own, and the mark, in the record, if the hand has come by since. A call that stores a value takes a slot, writes the record there, and
   puts it in the place of the entry that it read. If the key was absent and the cache is full, another entry goes first. An entry that
   has a time to live costs each call that meets it a look at the clock.

   All memory is taken at the opening and by renewals, and `bytes` is the most that there is at any moment. There is a slot for each
   entry, and 64 for each handle. A renewal has about four times the words of a map with these slots, and the records once. A record has
   three words beside the value, and the key if it is hashed.

   An entry may have a time to live. When that is over it is as if it were absent, and a `get` or the hand that meets it takes it out.

   Calls that store a value use up epochs, as in each map. From 7/8 of the last epoch on such a call renews the cache, unless the program
   does. It goes once over all entries, and calls wait meanwhile. Entries and counts go along, and so does which entries were used lately.

   For a renewal each loan has to be given back, or to begin a call. Until the last epoch is spent, years later in most caches, nobody
   waits more than a millisecond for that. From then on calls that store a value wait for the other loans: whoever keeps one and makes no
   call holds them up, and so does a thread that has two.

   A call that stores a value is refused by refusal::no_slot only if no entry can go, since other loans keep all slots; and by
   refusal::epoch_spent if the program renews the cache and has not. The key is as it was then, though another entry may have been
   evicted.

   All calls give a vbr::result. Those of a loan that has none are refused by refusal::no_handle, and those that find no memory for a
   renewal by refusal::no_memory. Each call of the map that they make has the ample budget; they are refused by refusal::out_of_steps if
   that was spent, or if others were faster most_attempts times. */
#ifndef VBR_CACHE_HPP
#define VBR_CACHE_HPP

#include "vbr_record_map.hpp"

#include <condition_variable>
#include <mutex>
#include <thread>

namespace vbr {

/* What `compute` is to do with a key:

   - keep: it stays as it is, there or not
   - put: it gets this value, with the time to live of the cache, and is inserted if it is absent
   - put_for: the same, with a time to live of its own
   - update: it gets this value, and expires when it would have; if it is absent, as with `put`
   - remove: it is taken out if it is there

       return tries ? to::update(*tries + 1) : to::put_for(1, 60s); */
template <class Value>
class [[nodiscard]] cache_change {
public:
    static cache_change keep() noexcept { return {kind::keep}; }
    static cache_change put(const Value &value) noexcept { return {kind::put, value}; }
    static cache_change put_for(const Value &value, std::chrono::nanoseconds time) noexcept { return {kind::put, value, time}; }
    static cache_change update(const Value &value) noexcept { return {kind::update, value}; }
    static cache_change remove() noexcept { return {kind::remove}; }

private:
    template <class, class, class>
    friend class cache_loan;
    enum class kind { keep, put, update, remove };
    cache_change(kind which, const std::optional<Value> &stored = std::nullopt, std::optional<std::chrono::nanoseconds> time = std::nullopt) noexcept
        : what(which), value(stored), lives(time) {}
    kind what;
    std::optional<Value> value;
    std::optional<std::chrono::nanoseconds> lives; /* none: as long as the cache says */
};

/* The time of a steady clock, which caches go by unless they are given another one.

       how.clock = vbr::steady_time; */
inline std::chrono::nanoseconds steady_time() noexcept { return std::chrono::steady_clock::now().time_since_epoch(); }

/* How a cache is opened:

   - time_to_live: it is that of entries which aren't given another one, and begins anew with each value that is put
   - clock: it gives the time since any moment, always the same one. It is asked only if an entry that is stored or met has a time to
     live, and makes no call of the cache
   - is_renewed_by_program: after the last epoch calls that store a value are refused until the program has renewed the cache; the others
     are answered as always
   - last_epoch, seed: as those of a shape
   - hash: of keys of more than 64 bits

       users::options how;
       how.time_to_live = 10min; */
template <class Hash>
struct cache_options {
    std::optional<std::chrono::nanoseconds> time_to_live = std::nullopt;
    std::chrono::nanoseconds (*clock)() = steady_time;
    bool is_renewed_by_program = false;
    std::uint64_t last_epoch = max_epoch;
    std::optional<std::uint64_t> seed = std::nullopt;
    Hash hash = Hash();
};

/* What the calls of a cache have done since its opening.

       vbr::cache_statistics told = cache.statistics();
       std::printf("%llu of %llu are hits\n", 0ull + told.hits, 0ull + told.hits + told.misses); */
struct cache_statistics {
    std::uint64_t hits = 0;      /* look-ups that gave a value: of `get`, and of `get_or_load` before it loads or waits */
    std::uint64_t misses = 0;    /* those that gave none */
    std::uint64_t evictions = 0; /* entries that went for others */
    std::uint64_t expiries = 0;  /* entries that were taken out, or replaced, since they had expired */
    std::uint64_t loads = 0;     /* loaders that were begun */
    std::uint64_t length = 0;    /* how many entries there are, also such as have expired and nobody met since */
};

namespace detail {

/* What a record begins with: under which word the map has it, until when it is good, or 0 for ever, whether it was found since the hand came
   by, and the value. The mark alone is written while the entry is there. */
template <class Value>
struct cached {
    std::uint64_t word, until, is_used;
    Value value;
};

/* What the loans of one handle have done, and the next one of the eight slots that it has of the hand, on a line of the cache of its own. */
struct alignas(64) cache_turns : cache_statistics {
    std::uint64_t slot = 0;
};

/* The loads under way of some keys of a cache. */
template <class Key, class Value>
class alignas(64) cache_loads {
public:
    /* A load of a key, on the stack of its thread. If another thread loads the key already this one waits for it, if it may: until that has
       ended, and this one has its value, or loads, since that one failed. */
    struct load {
        load(cache_loads &of, const Key &loaded, bool waits) : all(of), key(loaded) { all.begin(*this, waits); }
        load(const load &) = delete;
        load &operator=(const load &) = delete;
        ~load() { all.end(*this); }

        cache_loads &all;
        const Key &key;
        const std::thread::id thread = std::this_thread::get_id();
        load *by = this; /* the one that brings the value; none if it has come, or isn't waited for */
        load *next = nullptr;
        bool is_outdated = false; /* the key was changed since it began */
        std::optional<Value> value = std::nullopt;
    };

    /* Has what was loaded kept, by a call that waits for nothing, unless the key was changed meanwhile. No change comes in between. */
    template <class Keep>
    void keep(const load &mine, const Keep &keeps) {
        std::lock_guard<std::mutex> guard(lock);
        if (!mine.is_outdated) keeps();
    }

    /* Notes that a key is about to be changed, or all: what a load of it brings isn't kept, and who comes now doesn't wait for it. A load
       that isn't noted yet begins after this, and after all that the thread did before. */
    void outdate(const Key *key) noexcept {
        if (count.fetch_add(0) == 0) return;
        std::lock_guard<std::mutex> guard(lock);
        for (load *each = first; each; each = each->next)
            if (each->by == each && (!key || same_bytes(each->key, *key))) each->is_outdated = true;
    }

private:
    void begin(load &mine, bool waits) {
        std::unique_lock<std::mutex> guard(lock);
        for (load *each = first; each; each = each->next)
            if (each->by == each && !each->is_outdated && same_bytes(each->key, mine.key))
                mine.by = waits && each->thread != mine.thread ? each : nullptr;
        mine.next = std::exchange(first, &mine);
        count.fetch_add(1);
        changed.wait(guard, [&] { return !mine.by || mine.by == &mine; });
    }

    /* Those that wait have its value; if it has none one of them loads, and the others wait for that one. */
    void end(load &mine) noexcept {
        std::lock_guard<std::mutex> guard(lock);
        load **at = &first, *heir = nullptr;
        while (*at != &mine) at = &(*at)->next;
        *at = mine.next;
        count.fetch_sub(1);
        for (load *each = first; each; each = each->next) {
            if (each->by != &mine) continue;
            if (mine.value) each->value.emplace(*mine.value);
            else if (!heir) heir = each;
            each->by = heir;
        }
        changed.notify_all();
    }

    std::atomic<std::size_t> count{0};
    load *first = nullptr;
    std::mutex lock;
    std::condition_variable changed;
};

/* What the loans of a cache share. */
template <class Key, class Value, class Hash>
struct cache_table {
    using map_type = record_map<Key, cached<Value>, Hash>;

    cache_table(map_type &&records, const shape &wanted, std::uint32_t entries, const cache_options<Hash> &how)
        : map(std::move(records)), lender(map.lending()), opened(wanted), capacity(entries), options(how),
          turns(std::make_unique<cache_turns[]>(map.handles())) {
        is_renewed();
    }

    /* The most bytes that such a cache takes, or UINT64_MAX: the words of the map three times, and what a report of it takes, in a renewal; the
       records; and what handles have besides. */
    static std::uint64_t bytes_for(std::uint32_t entries, std::size_t handles) noexcept {
        const shape wanted = shape::for_keys(entries, handles);
        if (wanted.slots > max_slots) return UINT64_MAX;
        const std::uint64_t slots = wanted.slots, words = 2 + wanted.buckets + 5 * slots + slots / 64 + 1;
        return 3 * 8 * words + slots * (52 + (sizeof(typename record_table<Key, cached<Value>, Hash>::record) + 7) / 8 * 8) +
               handles * (4096 + sizeof turns[0]) + 4096 + sizeof(cache_table);
    }

    /* Renews once all loans are back, if they are in time, unless that was done since there were so many renewals. */
    result<void> renew(const deadline &until, std::size_t before) {
#ifdef __cpp_exceptions
        try {
#endif
            const result<void> told = map.renew_since(before, opened, until);
            if (told) is_renewed();
            return told;
#ifdef __cpp_exceptions
        } catch (const std::bad_alloc &) {
            return refusal::no_memory;
        }
#endif
    }

    /* Whether a call that stores a value at this epoch is to renew: one in each 64th of the last epoch, from 7/8 of it on. */
    bool is_due(std::uint64_t epoch) noexcept {
        std::uint64_t from = due_from.load(std::memory_order_relaxed);
        return epoch >= from && due_from.compare_exchange_strong(from, epoch + map.last_epoch() / 64 + 1, std::memory_order_relaxed);
    }

    /* Epochs begin anew. */
    void is_renewed() noexcept {
        due_from.store(options.is_renewed_by_program ? UINT64_MAX : map.last_epoch() - map.last_epoch() / 8, std::memory_order_relaxed);
    }

    /* The time, which is above zero, and until when an entry is good that gets so much of it now. */
    std::uint64_t now() const { return static_cast<std::uint64_t>(options.clock().count()) + 1; }
    bool is_over(std::uint64_t until) const { return until != 0 && until <= now(); }
    std::uint64_t until(std::optional<std::chrono::nanoseconds> time) const {
        if (!time) time = options.time_to_live;
        return time ? now() + static_cast<std::uint64_t>(std::max(*time, std::chrono::nanoseconds::zero()).count()) : 0;
    }

    cache_loads<Key, Value> &loads_of(std::uint64_t word) noexcept { return loads[word * 0x9E3779B97F4A7C15u >> 60]; }

    map_type map;
    const lending<map_handle> &lender; /* of the map */
    const shape opened;
    const std::uint32_t capacity;
    const cache_options<Hash> options;
    std::unique_ptr<cache_turns[]> turns; /* of each handle, written by its loan alone */
    cache_loads<Key, Value> loads[16];
    std::atomic<std::uint64_t> due_from{0}; /* the epoch from which on a call is to renew next */
    alignas(64) std::atomic<std::uint64_t> hand{0};   /* the slot from which on it gives eight next, and whole rounds */
    alignas(64) std::atomic<std::uint64_t> length{0}; /* of the entries that there are, and of those that are about to come */
};

} // namespace detail

/* A handle of a cache on loan, which makes all calls. It goes back at the end of this, and may go to another thread before.

   The loan keeps no handle while a loader of it runs, while it waits for another one, and during a renewal: it gives its handle back, and
   borrows another one afterwards, and no call shows it. So a call may wait for a free handle. A loader may make calls by the same loan.

   There may be none: it is tested by `if (loan)`, and its calls are refused by refusal::no_handle then.

       users::loan mine = cache.lend_wait(); */
template <class Key, class Value, class Hash>
class [[nodiscard]] cache_loan {
    using table_type = detail::cache_table<Key, Value, Hash>;
    using record_loan = typename table_type::map_type::loan;
    using seen = typename record_loan::seen;

public:
    using change = cache_change<Value>;
    using cursor = record_cursor;
    using found = result<std::optional<Value>>; /* a value; none if the key was absent or had expired */

    /* As of a record map.

           static_assert(users::loan::most_attempts == 1000); */
    static constexpr int most_attempts = record_loan::most_attempts;

    cache_loan() noexcept = default;
    cache_loan(cache_loan &&other) noexcept : table(std::exchange(other.table, nullptr)), mine(std::move(other.mine)) {}
    cache_loan &operator=(cache_loan &&other) noexcept {
        mine = std::move(other.mine);
        table = std::exchange(other.table, nullptr);
        return *this;
    }

    explicit operator bool() const noexcept { return table != nullptr; }

    /* The value of a key: a copy, whole, of what it had at a moment of the call; none if it is absent. The entry counts as used. One that
       has expired is taken out, and is a miss.

           std::optional<user> has = mine.get(who).value(); */
    found get(const Key &key) {
        found there = find(key);
        if (there.has_value()) count(*there ? &cache_statistics::hits : &cache_statistics::misses);
        return there;
    }

    /* Whether a key is there and hasn't expired. It is no use of the entry, and isn't counted. It costs a `get`.

           if (*mine.has(who)) there++; */
    result<bool> has(const Key &key) {
        if (!is_ready()) return refusal::no_handle;
        auto there = mine.get(key);
        if (!there.has_value()) return there.error();
        return *there && !table->is_over((*there)->until);
    }

    /* Gives a key this value, with the time to live of the cache, and returns the one that it had; none if it was absent, and is
       inserted. If the cache is full another entry goes before.

           std::optional<user> before = mine.put(who, user{5, 1}).value(); // what who had */
    found put(const Key &key, const Value &value) { return compute(key, [&](const auto &) { return change::put(value); }); }

    /* The same, with a time to live of its own. If that isn't above zero the entry has expired at once.

           std::optional<user> earlier = mine.put_for(who, user{5, 2}, 60s).value(); */
    found put_for(const Key &key, const Value &value, std::chrono::nanoseconds time) {
        return compute(key, [&](const auto &) { return change::put_for(value, time); });
    }

    /* Adds a key with its value, as `put` does, and says whether it was absent. A key that is there keeps its value and its time.

           bool added = mine.insert(who, user{5, 3}).value(); */
    result<bool> insert(const Key &key, const Value &value) {
        return had(false, compute(key, [&](const auto &there) { return there ? change::keep() : change::put(value); }));
    }

    /* Gives a key that is there this value, as `put` does, and returns the one that it had; none, and nothing is changed, if it is
       absent.

           std::optional<user> replaced = mine.replace(who, user{5, 4}).value(); */
    found replace(const Key &key, const Value &value) {
        return compute(key, [&](const auto &there) { return there ? change::put(value) : change::keep(); });
    }

    /* Takes a key out, and returns its value; none if it was absent. It takes no slot.

           std::optional<user> taken = mine.remove(who).value(); */
    found remove(const Key &key) { return compute(key, [](const auto &) { return change::remove(); }); }

    /* Gives an entry this time to live from now on, and says whether it is there. It counts as used, and costs a `put` of its value.

           bool is_there = mine.touch(who, 10min).value(); */
    result<bool> touch(const Key &key, std::chrono::nanoseconds time) {
        return had(true, compute(key, [&](const auto &there) { return there ? change::put_for(*there, time) : change::keep(); }));
    }

    /* Does with a key what a function says of the value that it has, or of none, and returns that value.

       The change is made only if the key still has the entry that the function was told of. Else it is asked again, of what is there
       then. So no change is lost.

       `ask` is the function, which says `keep`, `put`, `put_for`, `update` or `remove`. It is asked at most most_attempts times.

           using to = visits::change;
           auto next_try = [](const std::optional<int> &tries) { // three in a minute
               if (tries == 3) return to::keep();
               return tries ? to::update(*tries + 1) : to::put_for(1, 60s);
           };
           if (told.compute(7, next_try).value() == 3) refused++; */
    template <class Ask>
    found compute(const Key &key, Ask &&ask) {
        if (!is_ready_to_store()) return refusal::no_handle;
        const std::uint64_t word = word_of(key);
        table->loads_of(word).outdate(&key);
        return change_by(key, word, ask, true);
    }

    /* The value of a key, as `get`; if it is absent, the one that the loader returns, which is put with the time to live of the cache. If
       the loader fails nothing is put.

       If several threads miss one key at a time, one of them runs its loader, and the others wait for it. If it fails, one of those that
       wait runs its own. The loan has no handle meanwhile, so a loader may take its time. Two loaders that load each other's key wait for
       ever; one that asks for the key that it loads is refused.

       If the key is there again when the loader has ended, the call returns what is there. If it was changed or taken out while the
       loader ran, by other calls than a load, the value is returned and not kept, and a call that begins after that change doesn't wait
       for it. So once `remove` returns nobody finds what was loaded before. A value isn't kept either if its put would be refused.

       A loader returns a value or an option, and fails by none, which is returned, or by an exception, which goes to the caller. Those that
       wait get the value that was loaded, kept or not.

           std::optional<user> there = mine.get_or_load(who, from_database).value(); // none: the loader gave none */
    template <class Loader>
    found get_or_load(const Key &key, Loader &&loader) {
        return load(key, loader, true);
    }

    /* The same, and it waits for no loader of another thread: if one loads the key, the call is refused for that.

           if (mine.try_get_or_load(who, from_database) == vbr::refusal::load_under_way) elsewhere++; */
    template <class Loader>
    found try_get_or_load(const Key &key, Loader &&loader) {
        return load(key, loader, false);
    }

    /* Takes out all entries that are there as it begins; those that others put meanwhile may stay. What is being loaded isn't kept. It
       goes once over the entries, with a remove for each. If it is refused some were taken out.

           vbr::result<void> cleared = mine.clear(); */
    result<void> clear() {
        if (!is_ready()) return refusal::no_handle;
        for (auto &each : table->loads) each.outdate(nullptr);
        for (vbr::cursor from;;) {
            const std::uint32_t bucket = from.raw.bucket;
            auto stands = mine.handle->next_at(from);
            if (stands == refusal::out_of_steps && from.raw.bucket != bucket) continue; // the walk has come further
            if (!stands.has_value()) return stands.error();
            if (!*stands) return result<void>(std::in_place);
            const result<bool> taken = take_out((*stands)->first, (*stands)->second);
            if (!taken.has_value()) return taken.error();
        }
    }

    /* Calls `visit` with the key and the value of all entries, as `for_each` of a record map.

       It is no use of the entries, and passes over those that have expired.

           vbr::result<void> walked = mine.for_each([&](const users::key_type &, const user &each) { sum += each.visits; }); */
    template <class Visit>
    result<void> for_each(Visit &&visit) {
        if (!is_ready()) return refusal::no_handle;
        return mine.for_each([&](const typename record_loan::entry &each) {
            if (!table->is_over(each.value().until)) visit(each.key(), each.value().value);
        });
    }

private:
    template <class, class, class>
    friend class cache;

    cache_loan(table_type *of, record_loan &&lent) noexcept : table(lent ? of : nullptr), mine(std::move(lent)) {}

    /* Whether a call found the key there, or absent if that is asked for. */
    static result<bool> had(bool wanted, const found &told) noexcept {
        if (!told.has_value()) return told.error();
        return told->has_value() == wanted;
    }

    std::uint64_t word_of(const Key &key) const noexcept { return table->map.all->hash(key); }

    /* Whether there is a handle for a call: another one if it was given back, or a thread waits for all of them. */
    bool is_ready() {
        if (!table || (mine && !table->lender.is_renewing())) return table != nullptr;
        mine = record_loan();
        mine = table->map.lend_wait();
        return static_cast<bool>(mine);
    }

    /* The same for a call that stores a value. At 7/8 of the last epoch it renews first, if all other loans come back within a millisecond. */
    bool is_ready_to_store() {
        if (!is_ready()) return false;
        if (!table->is_due(mine.epoch())) return true;
        static_cast<void>(renews(detail::after(std::chrono::milliseconds(1))));
        return is_ready();
    }

    /* Renews without a handle, once, together with those that do so at the same epoch. */
    result<void> renews(const detail::deadline &until) {
        const std::size_t before = table->lender.renewed();
        mine = record_loan();
        return table->renew(until, before);
    }

    void count(std::uint64_t cache_statistics::*which) noexcept {
        std::uint64_t &number = table->turns[mine.handle.number()].*which; // which no other thread writes
        __atomic_store_n(&number, number + 1, __ATOMIC_RELAXED);
    }

    void is_shorter() noexcept { table->length.fetch_sub(1, std::memory_order_relaxed); }

    /* The value of a key, whose entry is marked as used; none if it is absent, or has expired and is taken out. */
    found find(const Key &key) {
        if (!is_ready()) return refusal::no_handle;
        const std::uint64_t word = word_of(key);
        seen there;
        const result<bool> is_there = mine.read(word, there);
        if (!is_there.has_value()) return is_there.error();
        if (!*is_there || !record_loan::is_of(there, key)) return std::optional<Value>();
        if (table->is_over(there.record.value.until)) {
            if (take_out(word, there.at) == true) count(&cache_statistics::expiries);
            return std::optional<Value>();
        }
        if (!there.record.value.is_used) marks(there.at.slot(), true);
        return std::optional<Value>(there.record.value.value);
    }

    result<bool> take_out(std::uint64_t word, const map_incarnation &at) noexcept {
        result<bool> is_out = mine.handle->remove_entry(word, at);
        if (is_out == true) is_shorter();
        return is_out;
    }

    /* Does with a key what `ask` says, and has another entry go or renews for it, unless it may not wait. */
    template <class Ask>
    found change_by(const Key &key, std::uint64_t word, Ask &ask, bool waits) {
        for (int attempt = 0; attempt < most_attempts && (!waits || is_ready()); attempt++) {
            std::optional<Value> before;
            const result<bool> told = attempt_by(key, word, ask, before);
            if (told == true) return before;
            if (told == false && table) word = word_of(key); // `ask` may have assigned a loan of another cache
            if (told.has_value()) continue;
            if (told == refusal::no_slot && evict()) {
                is_shorter();
                continue;
            }
            if (told != refusal::epoch_spent || table->options.is_renewed_by_program || !waits) return told.error();
            const result<void> renewed = renews(std::nullopt);
            if (!renewed) return renewed.error();
        }
        return refusal::out_of_steps;
    }

    /* The same once, by the handle as it is: true if it was done. What was there goes into `before`, unless it has expired. */
    template <class Ask>
    result<bool> attempt_by(const Key &key, std::uint64_t word, Ask &ask, std::optional<Value> &before) {
        using kind = typename change::kind;
        const std::uint64_t number = mine.table->number;
        seen there;
        const result<bool> has_word = mine.read(word, there);
        if (!has_word.has_value()) return has_word;
        const map_incarnation *instead = *has_word ? &there.at : nullptr;
        const bool is_own = instead && record_loan::is_of(there, key);
        if (is_own && !table->is_over(there.record.value.until)) before.emplace(there.record.value.value);
        const change wanted = ask(std::as_const(before));
        if (wanted.what == kind::keep || (wanted.what == kind::remove && !before)) return true;
        if (!mine || mine.table->number != number) return false; // it made calls of its own
        if (wanted.what == kind::remove) return take_out(word, there.at);
        const std::uint64_t until = wanted.what == kind::update && before ? there.record.value.until : table->until(wanted.lives);
        if (!instead) make_room();
        const result<bool> told = mine.publish(word, instead, record_loan::record_of(key, {word, until, before.has_value(), *wanted.value}));
        if (!instead && told != true) is_shorter();
        if (instead && told == true && !before) count(is_own ? &cache_statistics::expiries : &cache_statistics::evictions);
        return told;
    }

    /* Counts an entry that is to come. As many go as are too many then, which this call alone takes on; those that can't go are counted again. */
    void make_room() {
        std::atomic<std::uint64_t> &length = table->length;
        const std::uint64_t most = table->capacity;
        std::uint64_t now = length.load(std::memory_order_relaxed);
        while (now != most && !length.compare_exchange_weak(now, std::min(now + 1, most), std::memory_order_relaxed)) {}
        std::uint64_t goes = now < most ? 0 : now + 1 - most;
        while (goes > 0 && evict()) goes--;
        if (goes > 0) length.fetch_add(goes, std::memory_order_relaxed);
    }

    /* The words of the record of a slot, as they are: first those of `cached`. */
    std::uint64_t *words_of(std::uint32_t slot) const noexcept {
        const vbr_records &records = mine.table->of_slots.raw;
        return &records.words[slot * records.each];
    }

    /* Marks the entry of a slot as used, or not. If another entry has come to the slot meanwhile it is that one which is marked, once. */
    void marks(std::uint32_t slot, bool is_used) noexcept { __atomic_store_n(words_of(slot) + 2, is_used, __ATOMIC_RELAXED); }

    /* Takes the next entry out that wasn't found since the hand came by, or has expired: whether there was one in three rounds. It is still
       counted. */
    bool evict() {
        const std::uint64_t slots = table->opened.slots;
        std::uint64_t now = 0, &next = table->turns[mine.handle.number()].slot;
        for (std::uint64_t passed = 0; passed < 3 * slots; passed++) {
            if (next % 8 == 0) next = table->hand.fetch_add(8, std::memory_order_relaxed);
            const auto slot = static_cast<std::uint32_t>(next++ % slots);
            const std::uint64_t *head = words_of(slot);
            const std::uint64_t word = __atomic_load_n(head, __ATOMIC_ACQUIRE), until = __atomic_load_n(head + 1, __ATOMIC_ACQUIRE);
            if (until != 0 && now == 0) now = table->now();
            const bool is_over = until != 0 && until <= now;
            if (!is_over && __atomic_load_n(head + 2, __ATOMIC_RELAXED)) {
                marks(slot, false);
                continue;
            }
            const result<std::optional<map_incarnation>> at = mine.handle->get_entry(word);
            if (!at.has_value() || !*at || (*at)->slot() != slot) continue; // the slot is free, or in a hand
            if (mine.handle->remove_entry(word, **at) != true) continue;
            count(is_over ? &cache_statistics::expiries : &cache_statistics::evictions);
            return true;
        }
        return false;
    }

    template <class Loader>
    found load(const Key &key, Loader &loader, bool waits) {
        found there = get(key);
        if (!there.has_value() || *there) return there;
        const std::uint64_t word = word_of(key);
        auto &loads = table->loads_of(word);
        mine = record_loan();
        typename detail::cache_loads<Key, Value>::load own(loads, key, waits);
        if (own.value) return own.value;
        if (!own.by) return refusal::load_under_way;
        found again = find(key); // a load may have ended just before
        if (!again.has_value() || *again) return again;
        count(&cache_statistics::loads);
        mine = record_loan();
        const std::optional<Value> loaded = loader();
        if (!loaded) return loaded;
        own.value.emplace(*loaded);
        auto unless_there = [&](const auto &it) { return it ? change::keep() : change::put(*loaded); };
        if (is_ready_to_store() && &table->loads_of(word) == &loads) // or the loader assigned a loan of another cache
            loads.keep(own, [&] {
                const found kept = change_by(key, word, unless_there, false);
                if (kept.has_value() && *kept) own.value.emplace(**kept);
            });
        return own.value;
    }

    table_type *table = nullptr;
    record_loan mine;
};

/* A cache, which lends its handles to threads. It is moved and never copied. Its loans end before it: one that ends while a loan has a
   handle ends the program by abort, with a sentence on standard error.

       users cache = users::open_bytes(1 << 20, 8).value(); */
template <class Key, class Value, class Hash = detail::usual_hash<Key>>
class cache {
    using table_type = detail::cache_table<Key, Value, Hash>;

public:
    using key_type = Key;
    using value_type = Value;
    using hash_type = Hash;
    using change = cache_change<Value>;
    using loan = cache_loan<Key, Value, Hash>;
    using options = cache_options<Hash>;

    /* One that lends nothing.

           users later; // lends none until it is assigned */
    cache() noexcept = default;
    cache(cache &&) noexcept = default;
    cache &operator=(cache &&) noexcept = default;

    /* Opens an empty cache that takes at most so many bytes of the heap at any moment: it has as many entries as there is room for. It
       lends so many handles, one for each thread that makes calls at the same time. It is refused by refusal::too_few_bytes if there is
       no room for one entry, and else as a record map is; if a vector or the records find no memory it throws std::bad_alloc. There may
       be 1 to max_many_handles handles.

           users cache = users::open_bytes(1 << 20, 8).value(); */
    static result<cache> open_bytes(std::size_t bytes, std::size_t handles, const options &how = options()) {
        std::uint32_t fits = 0;
        for (std::uint32_t more = std::uint32_t{1} << 31; more > 0; more /= 2)
            if (table_type::bytes_for(fits + more, handles) <= bytes) fits += more;
        if (fits == 0) return refusal::too_few_bytes;
        return open_for(fits, handles, how);
    }

    /* Opens an empty cache that keeps so many entries, in whatever memory they take, and lends so many handles. It is refused as a record
       map is, and so if it is for no entry.

           users minutes = users::open_for(1000, 8, how).value(); */
    static result<cache> open_for(std::uint32_t entries, std::size_t handles, const options &how = options()) {
        if (entries == 0) return refusal::bad_shape;
        shape wanted = shape::for_keys(entries, handles);
        wanted.last_epoch = how.last_epoch;
        wanted.seed = how.seed;
        auto opened = table_type::map_type::open(wanted, handles, how.hash);
        if (!opened.has_value()) return opened.error();
        cache made;
        made.all = std::make_unique<table_type>(std::move(*opened), wanted, entries, how);
        return made;
    }

    /* The right to make calls, as lenders of vbr.hpp give it: at once or none; as soon as a handle is free; or within a time.

           users::loan mine = cache.lend_wait(); */
    loan lend() noexcept { return all ? loan(all.get(), all->map.lend()) : loan(); }
    loan lend_wait() { return all ? loan(all.get(), all->map.lend_wait()) : loan(); }
    template <class Rep, class Period>
    loan lend_for(const std::chrono::duration<Rep, Period> &limit) {
        return all ? loan(all.get(), all->map.lend_for(limit)) : loan();
    }

    /* Lets the cache go on at epoch 1, with its entries, once all loans are back: each is given back, or begins a call. A thread that has
       a loan itself waits for ever. It goes over all entries. If there is no memory for it the cache stays as it was. It is refused by
       refusal::no_memory then.

           vbr::result<void> renewed = cache.renew(); */
    result<void> renew() { return all ? all->renew(std::nullopt, all->lender.renewed()) : refusal::no_handle; }

    /* The same, or refused if not all loans were back when the time was over.

           vbr::result<void> in_vain = cache.renew_for(10ms); // refusal::on_loan: mine is out */
    template <class Rep, class Period>
    result<void> renew_for(const std::chrono::duration<Rep, Period> &limit) {
        return all ? all->renew(detail::after(limit), all->lender.renewed()) : refusal::no_handle;
    }

    /* What its calls have done. Each handle counts for itself, and this adds the counts up, with five loads for each. They are of no one
       moment while calls are under way.

           vbr::cache_statistics told = cache.statistics(); */
    cache_statistics statistics() const noexcept {
        using told = cache_statistics;
        told sum;
        for (std::size_t i = 0; i < handles(); i++)
            for (auto each : {&told::hits, &told::misses, &told::evictions, &told::expiries, &told::loads})
                sum.*each += __atomic_load_n(&(all->turns[i].*each), __ATOMIC_RELAXED);
        if (all) sum.length = all->length.load(std::memory_order_relaxed);
        return sum;
    }

    /* How many entries it keeps: as many as there are at a time once it is full, but for one more of each call under way.

       How many bytes of the heap it takes at most at any moment, in its opening and its renewals too.

       How many handles it lends. So many as `on_loan` says are on loan. All are 0 of a cache that lends nothing.

           if (cache.bytes() > 1 << 20 || cache.capacity() < 1000 || cache.handles() != 8 || cache.on_loan() != 1) return 1; */
    std::uint32_t capacity() const noexcept { return all ? all->capacity : 0; }
    std::uint64_t bytes() const noexcept { return all ? table_type::bytes_for(all->capacity, handles()) : 0; }
    std::size_t handles() const noexcept { return all ? all->map.handles() : 0; }
    std::size_t on_loan() const noexcept { return all ? all->map.on_loan() : 0; }

private:
    std::unique_ptr<table_type> all;
};

} // namespace vbr

#endif

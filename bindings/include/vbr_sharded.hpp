/* Sets and maps of several tables, the shards: for more keys than one table is to have, and for renewals that stop a part of the callers.
   A key has one shard for good, which a hash of it chooses. Each is a set or a map of vbr.hpp with a lender of its own. This header is
   for C++17 and later.

   The calls are those of a set or a map, each by a loan for it alone, for which a thread waits as for any loan. If a call is refused
   since the last epoch is spent, the shard is renewed. If it is refused since no slot is found, the shard gets twice as many slots, and
   buckets, as far as it may grow. Then the call is made again. Of many threads that are refused one renews. It waits until the loans of
   this shard are back, and calls on this shard wait until it is done, while those on other shards go on. If there is no memory for it,
   the shard is as it was, and the call is refused for that. Only openings and renewals take memory. A renewal has both tables of one
   shard until it is done, and not those of all.

   The bits of a key are mixed, each into all (the finalizer of `SplitMix64`; Steele, Lea and Flood 2014), and then multiplied by an odd
   number; the upper half of the product chooses the shard. The odd number comes from the seed of the shape, or is drawn by the opening.
   Within a shard the key itself is multiplied, and the mixing isn't linear. So the keys of a shard spread over its buckets as if they
   were chosen without regard to them. With a drawn number any two keys share a shard with a probability of at most 2 / shards, whoever
   chose them, if the shards are a power of two. Each shard draws a seed of its own for its buckets.

   A call is one on one shard, and takes effect there at one step between its beginning and its end. The steps of all shards are
   sequentially consistent atomic operations, so they stand in one order, which agrees with the order that the program makes. Take all
   calls in the order of these steps. The calls on a shard are its legal history, and no key has two shards; so the whole is one legal
   history of a set or a map. In it a call that returns before another one begins stands before that one, on whatever shards they are:
   real time composes, since linearizability is local (Herlihy and Wing 1990). This is argued, as the order of calls on one set is if no
   token is sent, and tested with threads.

   What doesn't compose is the proved promise of one set: that the calls stand in one history that begins with all that their caller had
   seen. It holds of each shard, and of a caller's calls on that shard alone. What a caller has seen of one shard says nothing of another,
   and histories in which each caller's calls keep their order, one for each shard, needn't be parts of one. Say that A inserts x and then
   looks for y, and B inserts y and then looks for x, and both find nothing. With x and y on two shards each shard has a history that
   explains this, and all calls together have none. Only the order of steps in real time, as above, rules it out.

   Calls on two keys are two calls, here as on one set. So a walk, a count and the statistics are of no one moment.

       using page_index = vbr::sharded_map<std::uint64_t, std::uint64_t>;
       constexpr vbr::shape share = vbr::shape_for_shards(400'000, 16, 4); // a sixteenth of the keys, for 4 threads at a time
       page_index pages = page_index::open(16, share, 4, 2 * share.slots).value();    // and each shard may grow to twice its slots
       bool added = pages.insert(5, 50).value();                          // true: 5 was absent
       std::optional<std::uint64_t> has = pages.get(5).value();           // 50
       vbr::result<void> walked = pages.for_each([&](page_index::item entry) { sum += entry.value; }); */
#ifndef VBR_SHARDED_HPP
#define VBR_SHARDED_HPP

#include "vbr_lend.hpp"

namespace vbr {

/* The most shards.

       static_assert(vbr::max_shards == 65'536); */
inline constexpr std::size_t max_shards = 65536;

/* The shape of each shard, if this many keys in all are to be in so many shards at one time, with this many handles each.

   It is the shape for a share of the keys, and for a margin, since shards get shares that differ: a thirty-second of the share, and 512.
   That is at least eight standard deviations of a random choice. Opening with it takes the memory for all these keys.

       constexpr vbr::shape share = vbr::shape_for_shards(400'000, 16, 4); // a sixteenth of the keys, for 4 threads at a time */
constexpr shape shape_for_shards(std::uint64_t keys, std::size_t shards, std::size_t handles) noexcept {
    const std::uint64_t share = shards == 0 ? keys : keys / shards + (keys % shards != 0);
    const std::uint64_t most = share < max_slots ? share + share / 32 + 512 : share;
    return shape::for_keys(most <= max_slots ? static_cast<std::uint32_t>(most) : max_slots + 1, handles);
}

/* What a shard has, each number at a moment of the call.

       vbr::shard_stats first = pages.stats(0); // first.keys of first.slots have a key */
struct shard_stats {
    std::int64_t keys = 0;   /* about, as count_about of a lender */
    std::uint32_t slots = 0; /* which grow with a renewal */
    std::uint64_t epoch = 0; /* which begins anew with a renewal */
};

namespace detail {

/* Mixes the bits of a word, each into all, and gives no word for two: the finalizer of SplitMix64. */
constexpr std::uint64_t mixed(std::uint64_t word) noexcept {
    word = (word ^ word >> 30) * 0xbf58476d1ce4e5b9u;
    word = (word ^ word >> 27) * 0x94d049bb133111ebu;
    return word ^ word >> 31;
}

/* The shape after a refusal, of a set that has this one; none if another one is of no use. */
inline std::optional<shape> shape_after(refusal why, const shared_shape &now, std::uint32_t most_slots) noexcept {
    shape next{now.slots(), now.buckets(), now.last_epoch()};
    if (why == refusal::epoch_spent && next.last_epoch > 1) return next;
    const std::uint32_t slots = next.slots < most_slots / 2 ? 2 * next.slots : most_slots;
    if (why != refusal::no_slot || slots <= next.slots) return std::nullopt;
    next.slots = slots;
    next.buckets = next.buckets < max_buckets / 2 ? 2 * next.buckets : max_buckets;
    if (next.last_epoch > max_epoch_for(slots)) next.last_epoch = max_epoch_for(slots);
    return next;
}

} // namespace detail

/* What sharded sets and sharded maps have in common. One is moved and never copied, while no other thread uses it. One without shards, as after
   a move, refuses all calls by refusal::no_handle.

       page_index later; // refuses all calls until it is assigned */
template <class Self, class Handle>
class basic_sharded {
public:
    using handle_type = Handle;
    using pass_type = typename Handle::pass_type;
    using key_type = typename Handle::key_type;
    using item = typename Handle::item_type;
    using lender_type = basic_lender<Handle>;

    basic_sharded() noexcept = default;
    basic_sharded(basic_sharded &&) noexcept = default;
    basic_sharded &operator=(basic_sharded &&) noexcept = default;

    /* Opens empty shards, from 1 to max_shards, each of this shape with so many handles, from 1 to max_many_handles. By its calls a shard grows
       up to most_slots, or not at all if these aren't more than it has. It is refused by bad_count, and as open_many is; if a vector finds no
       memory, it throws std::bad_alloc. Nothing is kept then.

           page_index pages = page_index::open(16, share, 4, 2 * share.slots).value();    // and each shard may grow to twice its slots */
    static result<Self> open(std::size_t shards, const shape &each, std::size_t handles, std::uint32_t most_slots = 0) {
        if (shards - 1 >= max_shards) return refusal::bad_count;
        Self made;
        made.multiplier = 2 * each.seed.value_or(random_seed()) + 1;
        made.most_slots = most_slots < max_slots ? most_slots : max_slots;
        made.shards.reserve(shards);
        while (made.shards.size() < shards) {
            result<std::vector<Handle>> opened = detail::openings<Handle>::open_many(each, handles);
            if (!opened.has_value()) return opened.error();
            made.shards.emplace_back(std::move(*opened));
        }
        return made;
    }

    /* How many shards there are.

           for (std::size_t i = 0; i < pages.shard_count(); i++) keys += pages.stats(i).keys; */
    std::size_t shard_count() const noexcept { return shards.size(); }

    /* The number of the shard that a key has for good, from 0 on and below `shard_count`. It is 0 without shards.

           std::size_t where = pages.shard_of(5); */
    std::size_t shard_of(const key_type &key) const noexcept {
        const std::uint64_t half = detail::mixed(detail::word_of(key)) * multiplier >> 32;
        return static_cast<std::size_t>(half * shards.size() >> 32);
    }

    /* A shard: for many calls by one loan, a renewal at a time of the program's choice, or a report. A thread makes no call on the shard
       beside a loan of its own. It is the lender of the shard with a number below shard_count(). After a close of the shard its calls are
       refused by no_handle.

           vbr::result<void> renewed = pages.shard(where).renew(share); // while the calls on other shards go on */
    lender_type &shard(std::size_t number) noexcept { return shards[number]; }

    /* Makes a call by a loan from the shard of a key, and makes it again if the shard was renewed after a refusal.

       The function that is given may be called several times, so of several calls that it makes the last should be the one that may be
       refused. It makes calls by the pass that it gets, and none on the set or the map itself. `ask` gets the pass, and gives a
       vbr::result. The refusals are its own; no_memory, if there was none to renew; and no_handle without shards.

           auto at_most_9 = pages.call(5, [&](page_index::pass_type &mine) { return mine.fetch_update(5, least_of_9); }); // what 5 had */
    template <class Ask>
    auto call(const key_type &key, Ask &&ask) -> decltype(ask(std::declval<pass_type &>())) {
        if (shards.empty()) return refusal::no_handle;
        lender_type &there = shards[shard_of(key)];
        for (;;) {
            auto mine = there.lend_wait();
            if (!mine) return refusal::no_handle;
            const std::size_t before = there.all->renewed();
            auto told = ask(*mine);
            mine = {};
            if (told.has_value()) return told;
            result<bool> is_renewed = renews_after(told.error(), *there.all, before);
            if (!is_renewed.has_value()) return is_renewed.error();
            if (!*is_renewed) return told;
        }
    }

    /* Looks a key up, as vbr_has does. Returns true if the key is there; false if it is absent.

           if (*pages.has(5)) there++; */
    result<bool> has(const key_type &key) {
        return call(key, [&](pass_type &mine) { return mine.has(key); });
    }

    /* How many keys are in, about: the sum of count_about of each lender. It is exact while no loan is out. Else it is off by at most the keys
       that the loans which are out during it add or take out.

           std::int64_t about = pages.count_about(); // 1: 5 is in */
    std::int64_t count_about() const noexcept {
        std::int64_t sum = 0;
        for (const lender_type &each : shards) sum += each.count_about();
        return sum;
    }

    /* The statistics of a shard, by a number below shard_count(). It looks a key up, so that the epoch is one of this call, and waits for a loan.
       A shard that was closed has none.

           vbr::shard_stats first = pages.stats(0); // first.keys of first.slots have a key */
    shard_stats stats(std::size_t number) {
        auto mine = shards[number].lend_wait();
        if (!mine) return {};
        static_cast<void>(mine->has(detail::value_of<key_type>(0)));
        return {shards[number].count_about(), mine->slots(), mine->epoch()};
    }

    /* Goes over all keys, or entries, while other threads make calls, shard by shard. A key that is there for the whole walk is given
       once, and none that wasn't there at a moment of the walk.

       It has a loan of the shard that it goes over, and a renewal of that one waits for it. So a thread makes no calls on the set or the
       map itself meanwhile. `visit` is called with each. The walk goes on if a budget was spent and it has come further. It is refused by
       out_of_steps and by no_handle, after what was given.

           vbr::result<void> walked = pages.for_each([&](page_index::item entry) { sum += entry.value; }); */
    template <class Visit>
    result<void> for_each(Visit &&visit) {
        if (shards.empty()) return refusal::no_handle;
        for (lender_type &each : shards) {
            auto mine = each.lend_wait();
            if (!mine) return refusal::no_handle;
            result<void> told = walk(*mine, visit);
            if (!told) return told;
        }
        return result<void>(std::in_place);
    }

private:
    /* Renews a shard after a refusal, if that is of use. Whether it is another one now than after so many renewals, by this thread or another. */
    result<bool> renews_after(refusal why, detail::lending<Handle> &there, std::size_t before) const {
        const std::optional<shape> wanted = detail::shape_after(why, there.opened_with(), most_slots);
        if (!wanted) return (why == refusal::no_slot || why == refusal::epoch_spent) && there.renewed() != before;
        result<void> told = there.renew_once(before, *wanted);
        if (!told) return told.error();
        return true;
    }

    template <class Visit>
    static result<void> walk(pass_type &mine, Visit &visit) {
        cursor from;
        for (;;) {
            const vbr_cursor before = from.raw;
            auto next = mine.next(from);
            const bool is_further = from.raw.bucket != before.bucket || from.raw.from != before.from;
            if (next == refusal::out_of_steps && is_further) continue;
            if (!next.has_value()) return next.error();
            if (!*next) return result<void>(std::in_place);
            visit(**next);
        }
    }

    std::uint64_t multiplier = 1;
    std::uint32_t most_slots = 0;
    std::vector<lender_type> shards;
};

/* A set of several tables.

       vbr::sharded_set<> seen = vbr::sharded_set<>::open(4, vbr::shape_for_shards(1000, 4, 2), 2).value(); */
template <class Key = std::uint64_t>
class sharded_set : public basic_sharded<sharded_set<Key>, typename set<Key>::handle> {
    using pass = typename set<Key>::pass;

public:
    /* Adds a key, as vbr_insert does. Returns true if the key was absent, and is added; false if it was there.

           if (seen.insert(6).value()) count++; // this call added 6 */
    result<bool> insert(const Key &key) {
        return this->call(key, [&](pass &mine) { return mine.insert(key); });
    }

    /* Takes a key out, as vbr_remove does. Returns true if the key was there, and is taken out; false if it was absent.

           if (seen.remove(6).value()) taken_out++; // this call took 6 out */
    result<bool> remove(const Key &key) {
        return this->call(key, [&](pass &mine) { return mine.remove(key); });
    }
};

/* A map of several tables.

       page_index pages = page_index::open(16, share, 4, 2 * share.slots).value();    // and each shard may grow to twice its slots */
template <class Key = std::uint64_t, class Value = std::uint64_t>
class sharded_map : public basic_sharded<sharded_map<Key, Value>, typename map<Key, Value>::handle> {
    using pass = typename map<Key, Value>::pass;

public:
    using value_type = Value;
    using found = result<std::optional<Value>>; /* the value that a key had; none if it was absent */

    /* Looks a key up and gives its value, as vbr_map_get does. Returns its value if the key is there; none if it is absent.

           std::optional<std::uint64_t> has = pages.get(5).value();           // 50 */
    found get(const Key &key) {
        return this->call(key, [&](pass &mine) { return mine.get(key); });
    }

    /* Adds a key with its value, as vbr_map_insert does. Returns true if the key was absent, and is added; false if it was there, and
       keeps the value that it has.

           bool added = pages.insert(5, 50).value();                          // true: 5 was absent */
    result<bool> insert(const Key &key, const Value &value) {
        return this->call(key, [&](pass &mine) { return mine.insert(key, value); });
    }

    /* Gives a key this value, whether it is there or not, as vbr_map_put does. Returns the value that it had if the key was there, and
       has the new value; none if it was absent, and is inserted.

           std::optional<std::uint64_t> before = pages.put(5, 51).value(); // 50 */
    found put(const Key &key, const Value &value) {
        return this->call(key, [&](pass &mine) { return mine.put(key, value); });
    }

    /* Gives a key that is there another value, so that no call finds it absent meanwhile, as vbr_map_replace does. Returns the value that
       it had if the key was there, and has the new value; none if it was absent, and nothing was changed.

           std::optional<std::uint64_t> was = pages.replace(5, 52).value(); // 51 */
    found replace(const Key &key, const Value &value) {
        return this->call(key, [&](pass &mine) { return mine.replace(key, value); });
    }

    /* Gives the value of a key, or inserts the key with this one: a get or an insert, in one call, as vbr_map_get_or_insert does. Returns
       the value that it has if the key is there, and keeps its value; none if it was absent, and is inserted.

           std::uint64_t of_6 = pages.get_or_insert(6, 60).value().value_or(60); */
    found get_or_insert(const Key &key, const Value &value) {
        return this->call(key, [&](pass &mine) { return mine.get_or_insert(key, value); });
    }

    /* Gives a key another value if it has the one that is expected, as vbr_map_compare_exchange does. Values are compared by their bits.

           if (*pages.compare_exchange(5, 52, 53)) changed++; // 5 had 52, and has 53 */
    result<compared<Value>> compare_exchange(const Key &key, const Value &expected, const Value &value) {
        return this->call(key, [&](pass &mine) { return mine.compare_exchange(key, expected, value); });
    }

    /* Takes a key out with its value, as vbr_map_remove does. Returns the value of the entry that this call took if the key was there,
       and is taken out; none if it was absent.

           std::optional<std::uint64_t> taken = pages.remove(6).value(); // 60 */
    found remove(const Key &key) {
        return this->call(key, [&](pass &mine) { return mine.remove(key); });
    }

    /* Takes a key out if it has the value that is expected, as vbr_map_remove_if does. Values are compared by their bits.

           if (!*pages.remove_if(5, 7)) left++; // 5 has another value, and is still there */
    result<compared<Value>> remove_if(const Key &key, const Value &expected) {
        return this->call(key, [&](pass &mine) { return mine.remove_if(key, expected); });
    }
};

} // namespace vbr

#endif

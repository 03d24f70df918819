/* Sets and maps that processes share. Any of the processes may be killed or stopped, at any moment, and the others go on, in the same
   time and with right answers. A process opens a set, and forks. Each makes calls by a handle of its own, and the handle of a dead one
   goes to another.

   All that the library keeps for a set lies in one mapping, at one address in all these processes: its words, what its handles own, and
   the handles. A call in which a process dies was made, or it wasn't. The calls on keys are proved. The others are tested, and why the
   processes go on is argued.

   At most one process, and one thread of it, uses a handle at a time. A process that isn't forked from one that has the mapping can't use
   it. The memory is freed with the last process that has it. A process that is killed while it opens, reports on, renews, closes or
   unmaps a set may leave it torn, and one that writes to memory that isn't its own may write to the set. This header is for C++17 and
   later.

       vbr::shared_map sessions = vbr::open_map_shared(vbr::shape_for_processes(1024, 3, 4), 3).value();
       pid_t child = fork();
       if (child == 0) {
           vbr::map_claim mine = sessions.claim(1);            // the right to make calls by handle 1
           auto turn = mine.turn();                            // a call is under way from here to the end of the turn
           if (turn.put(7, 70).value()) return 1;              // it was absent
           raise(SIGKILL);
       }
       waitpid(child, nullptr, 0);                             // it has ended, or was killed
       bool is_whole = sessions.inherit(1).value();            // false: it died in a turn; handle 1 is for the next child

   A child that leaves by exit, by an exception or from main ends its copy of the object; one that leaves by _exit, or is killed, ends none,
   which does no harm. A thread that has a turn doesn't fork, unless the child calls exec or _exit, since both would end the turn. vbr(3)
   says who does what, how many slots a death costs, and what isn't mended. */
#ifndef VBR_SHARED_HPP
#define VBR_SHARED_HPP

#include "vbr.hpp"
#include "vbr_shared.h"

#include <cstddef>
#include <cstdint>
#include <initializer_list>
#include <utility>

namespace vbr {

/* The most slots that are lost to the death of a process in a turn, until the next renewal.

       shape.slots += 4 * vbr::slots_of_a_death; */
inline constexpr std::uint32_t slots_of_a_death = 66;

/* shape::for_keys, and slots_of_a_death more for each of so many processes that may die in a turn between two renewals.

       vbr::shared_map sessions = vbr::open_map_shared(vbr::shape_for_processes(1024, 3, 4), 3).value(); */
constexpr shape shape_for_processes(std::uint32_t keys, std::size_t handles, std::uint32_t deaths) noexcept {
    shape made = shape::for_keys(keys, handles);
    std::uint64_t slots = made.slots + std::uint64_t{deaths} * slots_of_a_death;
    made.slots = slots <= max_slots ? static_cast<std::uint32_t>(slots) : max_slots + 1;
    return made;
}

/* What vbr_shared_size returns.

       if (ftruncate(file, static_cast<off_t>(vbr::shared_size(shape, 2))) != 0) return 1; */
inline std::size_t shared_size(const shape &wanted, std::size_t handles) noexcept {
    return vbr_shared_size(handles, wanted.slots, wanted.buckets);
}

namespace detail {

/* What differs between shared sets and shared maps. */
template <class Pass>
struct shared_calls;

template <class Key>
struct shared_calls<basic_set_pass<Key>> {
    using kind = set_of<Key>;
    using words = std::uint64_t;
    static vbr_handle *raw(vbr_shared_handle &it) noexcept { return &it.set; }
    static vbr_handle *gather(vbr_shared_handle *all) noexcept { return vbr_gather(all); }
    static vbr_answer open(vbr_shared_handle **all, std::size_t count, const shape &wanted, const words *items,
                           std::size_t item_count) noexcept {
        return vbr_open_shared(all, count, wanted.slots, wanted.buckets, wanted.last_epoch, items, item_count);
    }
    static vbr_answer open_in(int file, vbr_shared_handle **all, std::size_t count, const shape &wanted, const words *items,
                              std::size_t item_count) noexcept {
        return vbr_open_shared_in(file, all, count, wanted.slots, wanted.buckets, wanted.last_epoch, items, item_count);
    }
};

template <class Key, class Value>
struct shared_calls<basic_map_pass<Key, Value>> {
    using kind = map_of<Key, Value>;
    using words = vbr_entry;
    static vbr_map_handle *raw(vbr_shared_handle &it) noexcept { return &it.map; }
    static vbr_map_handle *gather(vbr_shared_handle *all) noexcept { return vbr_map_gather(all); }
    static vbr_answer open(vbr_shared_handle **all, std::size_t count, const shape &wanted, const words *items,
                           std::size_t item_count) noexcept {
        return vbr_map_open_shared(all, count, wanted.slots, wanted.buckets, wanted.last_epoch, items, item_count);
    }
    static vbr_answer open_in(int file, vbr_shared_handle **all, std::size_t count, const shape &wanted, const words *items,
                              std::size_t item_count) noexcept {
        return vbr_map_open_shared_in(file, all, count, wanted.slots, wanted.buckets, wanted.last_epoch, items, item_count);
    }
};

/* The marks count the turns of a handle, so that one within another leaves it marked. Only the user of the handle writes them, as
   vbr_begin and vbr_end do. */
inline void begin_turn(vbr_shared_handle &it) noexcept {
    __atomic_store_n(&it.both.in_call, it.both.in_call + 1, __ATOMIC_RELAXED);
    __atomic_signal_fence(__ATOMIC_SEQ_CST);
}

inline void end_turn(vbr_shared_handle &it) noexcept {
    __atomic_signal_fence(__ATOMIC_SEQ_CST);
    __atomic_store_n(&it.both.in_call, it.both.in_call - 1, __ATOMIC_RELAXED);
}

} // namespace detail

template <class Pass>
class basic_shared;

/* The pass of a claim, with the mark set while it lives: for one call, or for several. It makes all calls of a pass, and is neither
   moved nor closed. A process that is killed in it loses at most slots_of_a_death slots, and one that is killed between two turns loses
   none. So keep it as short as the calls are. A renewal and a report want that no process is in one.

       auto turn = mine.turn();                            // a call is under way from here to the end of the turn */
template <class Pass>
class [[nodiscard]] basic_turn : public Pass {
public:
    ~basic_turn() {
        if (of) detail::end_turn(*of);
    }

private:
    template <class>
    friend class basic_claim;

    explicit basic_turn(vbr_shared_handle *its_handle) noexcept : of(its_handle) {
        if (!of) return;
        detail::begin_turn(*of);
        this->raw.owned = of->both.owned;
        this->raw.steps = of->both.steps;
        this->raw.opening = of->both.opening;
    }

    vbr_shared_handle *of;
};

/* The right of one process, and of one thread of it, to make calls by a handle of a shared set. It owns nothing, and its end closes
   nothing. That no other process and no other thread has claimed the handle is the program's to see to: nobody checks it. It ends
   before the object that it is of, or isn't used afterwards.

       vbr::map_claim mine = sessions.claim(1);            // the right to make calls by handle 1 */
template <class Pass>
class [[nodiscard]] basic_claim {
public:
    using pass_type = Pass;
    using turn_type = basic_turn<Pass>;

    /* An empty claim: the calls of its turns are refused with refusal::no_handle.

           vbr::map_claim later; // of no handle, until it is assigned */
    basic_claim() noexcept = default;
    basic_claim(basic_claim &&other) noexcept : of(std::exchange(other.of, nullptr)), its_number(other.its_number) {}
    basic_claim &operator=(basic_claim &&other) noexcept {
        its_number = other.its_number;
        of = std::exchange(other.of, nullptr);
        return *this;
    }

    /* Whether it is of a handle.

           if (later) return 1; // it isn't assigned yet */
    explicit operator bool() const noexcept { return of != nullptr; }

    /* The number of the handle: for data that lies beside each. Of an empty claim it is 0.

           beside[mine.number()]++; // no other process writes it meanwhile */
    std::size_t number() const noexcept { return its_number; }

    /* Begins a turn, in which the handle makes a call, or several. It marks the handle by a plain store, and its end clears the mark by
       another. It has the pass that makes the calls. A turn without a name lasts to the end of its line.

           if (mine.turn().get(7).value() != 70u) return 1; // one call */
    turn_type turn() noexcept { return turn_type(of); }

    /* Gives the handle another budget, for the turns to come, whoever claims it; one of no steps is kept as one step.

           mine.set_steps(vbr::steps{5000}); */
    void set_steps(vbr::steps budget) noexcept {
        if (of) of->both.steps = budget.count() ? budget.count() : 1;
    }

private:
    template <class>
    friend class basic_shared;
    basic_claim(vbr_shared_handle *its_handle, std::size_t nth) noexcept : of(its_handle), its_number(nth) {}

    vbr_shared_handle *of = nullptr;
    std::size_t its_number = 0;
};

/* A set or a map that processes share, or none. It is moved, and never copied. No thread has a turn when it ends.

   The handles lie in the mapping that the processes share. A process *claims* a handle, and makes calls by it in *turns*. A claim owns
   nothing, so its end closes nothing, nor does that of its copy in a forked process. A turn sets the mark by which `inherit` knows
   whether a process died in a call. There is no other way to make a call, so no program leaves the mark out.

   The end of this takes the mapping out of this process, and out of no other: a forked process may end its own copy, or leave without
   that.

       vbr::shared_set jobs = vbr::open_shared(shape, 3).value(); */
template <class Pass>
class basic_shared {
    using calls = detail::shared_calls<Pass>;
    using kind = typename calls::kind;
    using words = typename kind::words;

public:
    using pass_type = Pass;
    using claim_type = basic_claim<Pass>;
    using turn_type = basic_turn<Pass>;
    using item_type = typename kind::item;
    using report_type = typename kind::report;

    /* Opens an empty set, or one of these items, whose keys ascend, by vbr_open_shared. A seed can't be chosen: a shape that has one is a
       bad_shape.

           auto by_address = vbr::shared<ports>::open(vbr::shape_for_processes(1024, 2, 1), 2).value(); */
    static result<basic_shared> open(const shape &wanted, std::size_t count) { return open_with(wanted, count, nullptr, 0); }
    static result<basic_shared> open_with(const shape &wanted, std::size_t count, const item_type *items, std::size_t item_count) {
        return opened(wanted, count, items, item_count, [&](vbr_shared_handle **handles, const words *first) {
            return calls::open(handles, count, wanted, first, item_count);
        });
    }
    static result<basic_shared> open_with(const shape &wanted, std::size_t count, std::initializer_list<item_type> items) {
        return open_with(wanted, count, items.begin(), items.size());
    }
    template <class Items>
    static result<basic_shared> open_with(const shape &wanted, std::size_t count, const Items &items) {
        return detail::with_items<kind>(
            items, [&](const item_type *first, std::size_t many) { return open_with(wanted, count, first, many); });
    }

    /* The same in a file, by vbr_open_shared_in.

           auto seen = vbr::shared<ports>::open_in(file, shape, 2); */
    static result<basic_shared> open_in(int file, const shape &wanted, std::size_t count, const item_type *items = nullptr,
                                        std::size_t item_count = 0) {
        return opened(wanted, count, items, item_count, [&](vbr_shared_handle **handles, const words *first) {
            return calls::open_in(file, handles, count, wanted, first, item_count);
        });
    }

    /* One without a set, which has no handles.

           vbr::shared_map none; // has no handles until it is assigned */
    basic_shared() noexcept = default;
    basic_shared(basic_shared &&other) noexcept : all(std::exchange(other.all, nullptr)), count(std::exchange(other.count, 0)) {}
    basic_shared &operator=(basic_shared &&other) noexcept {
        if (this != &other) {
            leave();
            all = std::exchange(other.all, nullptr);
            count = std::exchange(other.count, 0);
        }
        return *this;
    }
    ~basic_shared() { leave(); }

    /* How many handles it has: 0 without a set.

           for (std::size_t i = 1; i < sessions.handles(); i++) balance += sessions.claim(i).turn().balance(); */
    std::size_t handles() const noexcept { return count; }

    /* The right to make calls by a handle, which the caller alone has. The claim is empty if there is no such handle.

           vbr::map_claim mine = sessions.claim(1);            // the right to make calls by handle 1 */
    claim_type claim(std::size_t number) const noexcept { return number < count ? claim_type(all + number, number) : claim_type(); }

    /* Takes over the handle of a process that is dead, as waitpid has reported (vbr_inherit). Returns true if no call was under way, and
       the handle is as the last call left it, with its slots; false if a call was under way, which was made or it wasn't. Then it may be
       claimed anew. It is refused with no_handle if there is no such handle, too.

           bool is_whole = sessions.inherit(1).value();            // false: it died in a turn; handle 1 is for the next child */
    result<bool> inherit(std::size_t number) noexcept {
        if (number >= count) return refusal::no_handle;
        return detail::yes_or_no(vbr_inherit(all + number));
    }

    /* Lets all handles go on over a fresh set of this shape with the keys that are there, or over a fresh map, as vbr_renew_all does
       (vbr_renew_shared). Any process does it, while no process is in a turn; see to that first. All go on with the claims that they
       have. It is refused with bad_shape, as of open; no_handle; on_loan, if a handle is marked, by a turn or since a process died in one
       and nobody has inherited it; no_room or no_memory. The mapping has room for the shape of the opening.

           vbr::result<void> renewed = sessions.renew(shape); // no slot is lost any more */
    result<void> renew(const shape &wanted) noexcept {
        if (wanted.seed || !detail::is_in_range(wanted)) return refusal::bad_shape;
        if (!all) return refusal::no_handle;
        if (is_marked()) return refusal::on_loan;
        vbr_answer code = vbr_renew_shared(all, wanted.slots, wanted.buckets, wanted.last_epoch);
        if (code == VBR_OK) set_steps(wanted);
        return detail::done_by(code);
    }

    /* Tells what is in the set. Any process does it, while no process is in a turn; see to that first. The handles stay as they are.
       It takes 9 bytes for each slot, of a map 17, and is refused with no_handle, on_loan, as of renew, or no_memory.

           vbr::map_report now = sessions.report().value(); // now.entries are those of all processes */
    result<report_type> report() {
        const std::uint32_t slots = all ? kind::slots(calls::raw(*all)) : 0;
        if (slots == 0) return refusal::no_handle;
        if (is_marked()) return refusal::on_loan;
        detail::report_room<kind> room(slots);
        auto *side_by_side = calls::gather(all);
        vbr_answer code = room.fill([&](words *items, std::size_t size, vbr_report *totals) {
            return kind::report_all(side_by_side, count, items, size, totals);
        });
        vbr_spread(all);
        if (code != VBR_YES) return refusal{code};
        return room.report();
    }

private:
    template <class Call>
    static result<basic_shared> opened(const shape &wanted, std::size_t count, const item_type *items, std::size_t item_count,
                                       const Call &call) {
        if (wanted.seed) return refusal::bad_shape;
        basic_shared made;
        vbr_answer code = detail::with_words<kind>(items, item_count, [&](const words *first) { return call(&made.all, first); });
        if (code != VBR_OK) return refusal{code};
        made.count = count;
        made.set_steps(wanted);
        return made;
    }

    void set_steps(const shape &wanted) noexcept {
        for (std::size_t i = 0; i < count && wanted.steps; i++) claim(i).set_steps(*wanted.steps);
    }

    bool is_marked() const noexcept {
        for (std::size_t i = 0; i < count; i++)
            if (__atomic_load_n(&all[i].both.in_call, __ATOMIC_RELAXED)) return true;
        return false;
    }

    void leave() noexcept {
        if (all) vbr_unmap_shared(all);
    }

    vbr_shared_handle *all = nullptr;
    std::size_t count = 0;
};

/* The shared sets or maps of a type of keys, and of values.

       using shared_ports = vbr::shared<ports>; // of vbr::map<address, std::uint16_t> */
template <class Of>
using shared = basic_shared<typename Of::pass>;

/* Aliases for std::uint64_t.

       vbr::shared_set jobs = vbr::open_shared(shape, 3).value();
       vbr::claim worker = jobs.claim(2); */
using shared_set = shared<set<>>;
using claim = shared_set::claim_type;

using shared_map = shared<map<>>;
using map_claim = shared_map::claim_type;

/* Opens a set in memory that this process shares with those that are forked from now on, as vbr_open_shared does. It is empty.

       vbr::shared_set jobs = vbr::open_shared(shape, 3).value(); */
inline result<shared_set> open_shared(const shape &wanted, std::size_t count) { return shared_set::open(wanted, count); }

/* Opens one of a list of keys, or of any range of unsigned numbers, which ascend.

       auto few = vbr::open_shared_with(shape, 1, {2, 5, 9});
       auto copied = vbr::open_shared_with(shape, 1, keys); */
inline result<shared_set> open_shared_with(const shape &wanted, std::size_t count, std::initializer_list<std::uint64_t> keys) {
    return shared_set::open_with(wanted, count, keys);
}
template <class Keys>
result<shared_set> open_shared_with(const shape &wanted, std::size_t count, const Keys &keys) {
    return shared_set::open_with(wanted, count, keys);
}

/* Opens a set in a file, as vbr_open_shared does otherwise (vbr_open_shared_in). There may be no keys.

       auto by_name = vbr::open_shared_in(file, shape, 2); */
inline result<shared_set> open_shared_in(int file, const shape &wanted, std::size_t count, const std::uint64_t *keys = nullptr,
                                         std::size_t key_count = 0) {
    return shared_set::open_in(file, wanted, count, keys, key_count);
}

/* Opens a map in memory that this process shares with those that are forked from now on, as vbr_map_open_shared does. It is empty.

       vbr::shared_map sessions = vbr::open_map_shared(vbr::shape_for_processes(1024, 3, 4), 3).value(); */
inline result<shared_map> open_map_shared(const shape &wanted, std::size_t count) { return shared_map::open(wanted, count); }

/* Opens one of a list of entries, or of any range of entries or pairs, whose keys ascend.

       auto few = vbr::open_map_shared_with(shape, 1, {{2, 20}, {5, 50}, {9, 90}});
       auto copied = vbr::open_map_shared_with(shape, 1, entries); */
inline result<shared_map> open_map_shared_with(const shape &wanted, std::size_t count, std::initializer_list<entry> entries) {
    return shared_map::open_with(wanted, count, entries);
}
template <class Entries>
result<shared_map> open_map_shared_with(const shape &wanted, std::size_t count, const Entries &entries) {
    return shared_map::open_with(wanted, count, entries);
}

/* Opens a map in a file, as vbr_map_open_shared does otherwise (vbr_map_open_shared_in). There may be no entries.

       auto by_name = vbr::open_map_shared_in(file, shape, 2); */
inline result<shared_map> open_map_shared_in(int file, const shape &wanted, std::size_t count, const entry *entries = nullptr,
                                             std::size_t entry_count = 0) {
    return shared_map::open_in(file, wanted, count, entries, entry_count);
}

} // namespace vbr

#endif

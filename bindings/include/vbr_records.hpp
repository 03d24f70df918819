/* Records beside the entries of a set or a map, one for each slot: for values of any size, in fixed memory.

   A record is written while its slot is held, and then never again, so an entry has one record for as long as it is there. To change the
   record of a key, hold another slot, write the whole record there, and put that slot in place of the entry that was read, by
   vbr_map_replace_held. The old record stays as it is for those who still read it. Nobody frees it: it goes where its slot goes.

   A reader copies a record, and then asks whether the slot is still the entry's own. If it isn't, it finds the key again. So it holds
   nobody up, takes no memory, and begins anew only if others took the entry out, or changed it, while it copied. Which record belongs to
   which entry is proved; that copies are whole is argued, and tested.

   The words of records are atomic: a writer stores each with release, and a reader loads each with acquire. That costs nothing on x86-64.
   This header is for C++17 and later.

       vbr::records<account> accounts(mine.slots());
       vbr::map_held slot = mine.hold().value();                     // the slot is this handle's alone
       accounts.write(slot, account{"somebody", 100});               // and so is its record
       bool added = mine.insert(std::move(slot), 5, 0).value();      // true: both are those of key 5
       auto there = accounts.read(other, 5).value();                 // there->record is that record, whole; there->at is its entry */
#ifndef VBR_RECORDS_HPP
#define VBR_RECORDS_HPP

#include "vbr.hpp"
#include "vbr_records.h"

#include <algorithm>
#include <cstddef>
#include <cstdint>
#include <memory>
#include <new>
#include <optional>
#include <type_traits>
#include <utility>
#include <vector>

namespace vbr {

/* A copy of a record, and its entry.

       std::uint64_t paid = there->record.balance; */
template <class Record, class Value>
struct basic_record {
    Record record;
    basic_incarnation<Value> at;
};

/* A record for each slot of a set or a map. Many threads may use it at a time. While one thread opens, moves, closes or renews it, no
   other uses it. A record is copied byte by byte.

       vbr::records<account> accounts(mine.slots()); */
template <class Record>
class records {
    static_assert(std::is_trivially_copyable_v<Record>, "a record is copied byte by byte");

public:
    /* Opens records, one for each slot of a set or a map, as vbr_records_open does. It leaves the records, of zeros. It takes memory, and
       throws std::bad_alloc if there is none.

           vbr::records<account> accounts(mine.slots()); */
    explicit records(std::uint32_t slots) {
        if (vbr_records_open(&raw, slots ? slots : 1, sizeof(Record), nullptr) != VBR_OK) out_of_memory();
    }
    records(records &&other) noexcept : raw(std::exchange(other.raw, {})) {}
    ~records() { vbr_records_close(&raw); }

    records &operator=(records &&other) noexcept {
        std::swap(raw, other.raw);
        return *this;
    }

    /* Writes the record of a held slot, as vbr_records_write does.

           accounts.write(slot, account{"somebody", 100}); */
    template <class Kind>
    void write(const basic_held<Kind> &slot, const Record &record) noexcept {
        if (slot.is_held()) vbr_records_write(&raw, slot.number(), std::addressof(record));
    }

    /* Reads the record of a key of a set, as vbr_records_read does. Returns its record if the entry was there at a moment of the call,
       with this record, whole; none if the key is absent. It leaves the set as it was: all its steps are loads.

       It looks up, copies, and asks. It does so again only if the slot was handed out anew while it copied. Each look-up has the budget
       of the handle.

           auto there = accounts.read(mine, 6).value(); */
    template <class Kind>
    result<std::optional<basic_record<Record, typename Kind::value>>> read(basic_pass<Kind> &mine,
                                                                          typename basic_pass<Kind>::key_type key) const noexcept {
        using found = std::optional<basic_record<Record, typename Kind::value>>;
        for (;;) {
            auto at = mine.get_entry(key);
            if (!at.has_value()) return at.error();
            if (!*at) return found();
            room copy(raw, (*at)->slot());
            result<bool> is_still = mine.is_still(**at);
            if (!is_still.has_value()) return is_still.error();
            if (*is_still) return found({copy.record, **at});
        }
    }

    /* Copies the record of a slot, as it is, for a loop of your own (vbr_records_copy).

       The copy counts for nothing until vbr_is_still has said yes to the entry that was found there before. Until then it may mix two
       records: follow no pointer and no index in it. vbr_records_read does all that.

           account copy = accounts.copy(*at); */
    template <class Value>
    Record copy(const basic_incarnation<Value> &at) const noexcept {
        return room(raw, at.slot()).record;
    }

    /* Renews a set by vbr_renew_all and carries its records over to the slots that its keys have then, as vbr_records_renew_all does. It
       leaves what vbr_renew_all leaves; a refusal leaves the records as they were too. It takes memory for a report, for 4 bytes of each
       slot, and for both records, unless the slots stay as many; if a vector finds none, it throws std::bad_alloc.

           vbr::result<void> renewed = accounts.renew_all(both, vbr::shape::for_keys(2048, 2)); */
    template <class Handle>
    result<void> renew_all(std::vector<Handle> &handles, const shape &wanted) {
        return renew<Handle>(handles.size(), Handle::in_order(handles), wanted);
    }
    template <class Handle>
    [[deprecated("renew_all")]] result<void> renew(std::vector<Handle> &handles, const shape &wanted) { /* the old name, for one version */
        return renew_all(handles, wanted);
    }

    /* Renews a set whose handles are lent, as its `renew` does, and carries the records over, as `renew_all` of records does.

       While a program renews by its records alone, no entry is without its own. Records are read and written with a loan in hand.

           vbr::result<void> renewed = accounts.renew(lender, vbr::shape::for_keys(2048, 2)); */
    template <class Handle>
    result<void> renew(basic_lender<Handle> &of, const shape &wanted) {
        if (!of.all) return refusal::no_handle;
        return of.all->renew_by(of.all->renewed(), wanted, std::nullopt,
                                [&](std::size_t count, const auto &nth) { return renew<Handle>(count, nth, wanted); });
    }

private:
    template <class Key, class Value, class Hash>
    friend class record_map;
    template <class Key, class Value, class Hash, class Owner>
    friend class basic_record_loan;
    template <class Key, class Value, class Hash>
    friend class cache_loan;
    template <class Handle, class Nth>
    result<void> renew(std::size_t count, const Nth &nth, const shape &wanted) {
        result<std::vector<std::uint32_t>> slots = Handle::report_slots(count, nth);
        if (!slots.has_value()) return slots.error();
        if (wanted.slots == raw.slots) {
            result<void> renewed = Handle::renew_all(count, nth, wanted);
            if (renewed.has_value()) carry(*slots);
            return renewed;
        }
        if (wanted.slots - 1 >= max_slots) return refusal::bad_shape;
        records fresh(wanted.slots);
        result<void> renewed = Handle::renew_all(count, nth, wanted);
        if (renewed.has_value()) {
            vbr_records_carry(&raw, &fresh.raw, slots->data(), static_cast<std::uint32_t>(slots->size()));
            fresh.raw = {};
        }
        return renewed;
    }

    /* Carries records to the first slots, in this order, within the memory that they have. A record that is in the way changes places
       with the one that comes. */
    void carry(const std::vector<std::uint32_t> &slots) noexcept {
        for (std::size_t to = 0; to < slots.size(); to++) {
            std::size_t from = slots[to];
            while (from < to) from = slots[from]; // it was in the way
            std::swap_ranges(raw.words + to * raw.each, raw.words + (to + 1) * raw.each, raw.words + from * raw.each);
        }
    }

    [[noreturn, gnu::cold]] static void out_of_memory() {
#ifdef __cpp_exceptions
        throw std::bad_alloc();
#else
        std::abort();
#endif
    }

    /* A copy of a record, of a type that may have no default. */
    union room {
        room(const vbr_records &from, std::uint32_t slot) noexcept : none() {
            vbr_records_copy(&from, slot, static_cast<void *>(std::addressof(record)));
        }
        char none;
        Record record;
    };

    vbr_records raw = {};
};

} // namespace vbr

#endif

// Records beside the slots of a map: accounts of 256 bytes that threads share. Something to begin from.
//
//     slot_records [careless]
//
// A thread holds a slot, writes the record of that slot, which nobody else writes meanwhile, and makes the slot the node of the account's
// owner. A record isn't changed then. To change an account a thread writes the record of another slot, and puts that slot in the place of
// the entry that it read; to end one it takes out the entry that it read. If that entry is no longer there another thread was faster, and
// it reads again. Nobody frees a record: it goes where its slot goes.
//
// The program counts what was paid into each account: it is what the accounts have at the end, and had when they were ended. Each copy is
// whole, and of its owner. A careless reader, which doesn't ask whether the slot is the entry's own still, finds one that isn't.
#include "vbr_records.hpp"

#include <atomic>
#include <cstdio>
#include <cstdlib>
#include <string>
#include <thread>
#include <vector>

#define CHECK(x) do { if (!(x)) { std::fprintf(stderr, "slot_records.cpp:%d: FAILED: %s\n", __LINE__, #x); std::exit(1); } } while (0)

constexpr std::size_t THREADS = 4;
constexpr std::uint32_t OWNERS = 16;
constexpr vbr::shape WIDE = vbr::shape::for_keys(OWNERS, THREADS), NARROW{OWNERS + THREADS + 1, OWNERS};
constexpr long TURNS = 50000;

// What an account has. The last word is made of the others, so that a copy of two is seen.
struct account {
    std::uint64_t owner, paid, payments, last, reserved[27], seal;

    std::uint64_t seal_of_it() const noexcept {
        std::uint64_t made = (owner + 1) * 0x9E3779B97F4A7C15u ^ paid ^ payments << 32 ^ last;
        for (std::uint64_t word : reserved) made = made * 31 + word;
        return made;
    }

    // With one payment more.
    account with(std::uint64_t by, std::uint64_t amount) const noexcept {
        account next = *this;
        next.owner = by, next.paid += amount, next.payments++, next.last = amount;
        for (std::uint64_t &word : next.reserved) word = next.paid;
        next.seal = next.seal_of_it();
        return next;
    }
};

static bool is_careless = false, is_narrow = false;
static std::atomic<std::uint64_t> paid{0}, ended{0};

// The accounts, as one thread has them: its handle, and the records that all share.
class bank {
public:
    bank(vbr::map_handle &handle, vbr::records<account> &all) noexcept : map(handle), records(all) {}

    using there = std::optional<vbr::basic_record<account, std::uint64_t>>;

    there find(std::uint64_t owner) noexcept {
        there it = is_careless ? copied(owner) : records.read(map, owner).value();
        CHECK(!it || (it->record.seal == it->record.seal_of_it() && it->record.owner == owner)); // or it is a copy of two, or another's
        return it;
    }

    // Pays into an account, which begins with the first payment.
    void pay(std::uint64_t owner, std::uint64_t amount) noexcept {
        vbr::map_held slot = hold();
        while (slot.is_held()) { // until no other thread was faster
            there before = find(owner);
            account next = (before ? before->record : account{}).with(owner, amount);
            records.write(slot, next);
            vbr::result<bool> told = before ? map.replace(std::move(slot), owner, before->at, next.paid)
                                            : map.insert(std::move(slot), owner, next.paid);
            CHECK(told == !slot.is_held());
        }
    }

    // Ends an account; what it had.
    std::uint64_t end(std::uint64_t owner) noexcept {
        while (there it = find(owner))
            if (map.remove_entry(owner, it->at).value()) return it->record.paid;
        return 0;
    }

    void give_slots_back() noexcept { map.give_slots_back(); }

private:
    // What a careless reader has.
    there copied(std::uint64_t owner) noexcept {
        std::optional<vbr::map_incarnation> at = map.get_entry(owner).value();
        if (!at) return std::nullopt;
        if (at->value() % 64 == 0) std::this_thread::yield(); // while others go on
        return there({records.copy(*at), *at});
    }

    // Where there are few slots the others may have all that are free, for a moment.
    vbr::map_held hold() noexcept {
        vbr::result<vbr::map_held> told = map.hold();
        for (; told == vbr::refusal::no_slot && is_narrow; told = map.hold()) std::this_thread::yield();
        return std::move(told).value();
    }

    vbr::map_handle &map;
    vbr::records<account> &records;
};

static void work(bank mine, std::uint64_t random) {
    for (long turn = 0; turn < TURNS; turn++) {
        random ^= random << 13, random ^= random >> 7, random ^= random << 17;
        std::uint64_t owner = (random >> 32) % OWNERS * (random >> 40) % OWNERS, amount = random >> 20 & 15;
        if (random >> 16 & 1) mine.pay(owner, amount), paid += amount;
        else if ((random >> 16 & 255) == 0) ended += mine.end(owner);
        else static_cast<void>(mine.find(owner));
        if (is_narrow) mine.give_slots_back(); // the others want what it has
    }
}

// Four threads for some time; what was paid is in the accounts, or has left.
static void serve(std::vector<vbr::map_handle> &handles, vbr::records<account> &records) {
    std::vector<std::thread> threads;
    for (std::size_t i = 0; i < THREADS; i++) threads.emplace_back(work, bank(handles[i], records), 88172645463325252u + i);
    for (std::thread &thread : threads) thread.join();
    std::uint64_t left = 0;
    for (vbr::entry each : handles[0].entries()) {
        CHECK(records.read(handles[0], each.key).value()->record.paid == each.value);
        left += each.value;
    }
    CHECK(paid == left + ended); // or a payment is lost, or made twice
}

int main(int count, char **words) {
    is_careless = count > 1 && std::string(words[1]) == "careless";
    std::vector<vbr::map_handle> handles = vbr::open_map(WIDE, THREADS).value();
    vbr::records<account> records(handles[0].slots());
    serve(handles, records);
    CHECK(records.renew_all(handles, NARROW).has_value()); // the records go along
    is_narrow = true;
    serve(handles, records);
    CHECK(ended > 0);
    std::printf("records of slots in C++: passed, %llu paid, of which %llu had left\n", static_cast<unsigned long long>(paid),
                static_cast<unsigned long long>(ended));
    return 0;
}

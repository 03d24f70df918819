// A lender in a class, and renewals: sessions that threads share, by handles that are lent to them.
//
// The class is empty until it is opened; it is moved and assigned as its lender is, and waits for a handle, or for a time. Where the map
// has no slot left, or its last epoch is spent, it goes on over a fresh one with the same entries, twice as large where that is
// wanted: the thread that gets that answer gives its loan back first, since a renewal waits for all loans.
#include "vbr.hpp"

#include <cstdio>
#include <string>
#include <thread>
#include <vector>

#define CHECK(x) do { if (!(x)) { std::fprintf(stderr, "sessions.cpp:%d: FAILED: %s\n", __LINE__, #x); return 1; } } while (0)

using namespace std::chrono_literals;

class sessions {
public:
    sessions() = default; // lends nothing, until another one is assigned
    explicit sessions(std::uint32_t keys) : map(vbr::open_map(shape_for(keys), HANDLES).value()) {}

    // Begins a session, or counts one more request of it; how many there were.
    std::uint64_t count(std::uint64_t session) {
        for (;;) {
            vbr::map_loan mine = map.lend_wait(); // as soon as a handle is free
            const std::uint32_t slots = mine->slots();
            auto before = mine->fetch_update(session, [](std::uint64_t requests) { return requests + 1; });
            if (before.has_value() && *before) return **before;
            vbr::result<bool> begun = before.has_value() ? mine->insert(session, 1) : before.error();
            if (begun == true) return 0;
            mine = {}; // given back
            if (begun == vbr::refusal::no_slot) renew(slots, 2 * keys_in(slots));
            else if (begun == vbr::refusal::epoch_spent) renew(slots, keys_in(slots));
            else if (vbr::is_refusal(begun)) throw vbr::refused(begun.error());
        }
    }

    // Whether there is a session, if a handle is free within the time.
    bool has_for(std::uint64_t session, std::chrono::milliseconds limit) {
        vbr::map_loan mine = map.lend_for(limit);
        return mine && *mine->has(session);
    }

    std::uint32_t slots() const { return map.slots(); }
    std::optional<vbr::map_report> close() { return map.close().value(); }

private:
    static constexpr std::uint32_t HANDLES = 2;
    static constexpr std::uint32_t keys_in(std::uint32_t slots) { return slots - 64 * HANDLES; }
    static constexpr vbr::shape shape_for(std::uint32_t keys) {
        vbr::shape shape = vbr::shape::for_keys(keys, HANDLES);
        shape.last_epoch = 50; // so that it is spent soon
        return shape;
    }

    // Goes on over a fresh map for so many keys, unless another thread has made it larger since these slots were seen.
    void renew(std::uint32_t seen, std::uint32_t keys) {
        if (slots() != seen) return;
        vbr::result<void> renewed = map.renew(shape_for(keys));
        if (!renewed && renewed != vbr::refusal::no_room) throw vbr::refused(renewed.error()); // no room: it is larger by now
    }

    vbr::map_lender map;
};

int main() {
    sessions none, first(4);
    const std::uint32_t small = first.slots();
    CHECK(none.slots() == 0 && !none.has_for(1, 1ms) && first.count(7) == 0 && first.count(7) == 1);
    none = std::move(first); // the lender goes along, with its handles
    sessions mine(std::move(none));
    CHECK(mine.has_for(7, 1s) && mine.slots() == small && none.slots() == 0);
    std::vector<std::thread> threads;
    for (std::uint64_t i = 0; i < 6; i++) // three threads for each handle
        threads.emplace_back([&mine, i] {
            for (std::uint64_t session = 0; session < 500; session++) mine.count(100 + session + 50 * (i % 2));
        });
    for (std::thread &thread : threads) thread.join();
    CHECK(mine.slots() > small);
    std::optional<vbr::map_report> last = mine.close();
    std::uint64_t requests = 0;
    for (vbr::entry each : last->entries) requests += each.value;
    CHECK(last->entries.size() == 551 && requests == 6 * 500 + 2); // or a request is lost, or counted twice
    std::printf("a lender in a class in C++: passed, renewed up to %u slots\n", last->free + 551);
    return 0;
}

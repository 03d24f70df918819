// A server whose map is renewed by time, so that it runs for years: threads serve requests by handles that are lent to them, and a
// clock renews the map while they run. Something to begin from.
//
//     server
//
// The map counts the requests of each session. To serve one, a thread borrows a handle and gives it back, so a renewal, which waits for
// all loans, waits no longer than a request takes. Who wants a handle meanwhile waits until the map is there again. Where the last
// epoch is spent before the clock comes, the thread that gets that answer gives its handle back and renews the map itself.
//
// The last epoch is small here, so that the map is renewed often. The program sees that no request is lost: those of the sessions that
// ended, and those that are in the map at its end, are all that were made.
#include "vbr.hpp"

#include <cstdio>
#include <cstdlib>
#include <thread>

#define CHECK(x) do { if (!(x)) { std::fprintf(stderr, "server.cpp:%d: FAILED: %s\n", __LINE__, #x); std::exit(1); } } while (0)

constexpr std::size_t THREADS = 8, HANDLES = 4;
constexpr std::uint32_t SESSIONS = 1000;
constexpr vbr::shape SHAPE{SESSIONS + 64 * HANDLES, 1024, 500};
constexpr std::chrono::milliseconds PERIOD{5};

class server {
public:
    explicit server(std::vector<vbr::map_handle> handles) : map(std::move(handles)) {}

    // Counts a request of a session, which begins with its first one.
    void serve(std::uint64_t session) {
        while (!counts(session)) renew(); // the last epoch was spent before its time
    }

    // Ends a session; how many requests it made.
    std::uint64_t end(std::uint64_t session) {
        return map.lend_wait()->remove(session).value().value_or(0);
    }

    // Lets the map go on at epoch 1, as soon as no request is under way.
    void renew() { map.renew(SHAPE).value(); }

    vbr::map_report close() { return map.close().value().value(); }

private:
    // Counts a request by a handle on loan, if the last epoch isn't spent.
    bool counts(std::uint64_t session) {
        vbr::map_loan mine = map.lend_wait();
        for (;;) {
            auto before = mine->fetch_update(session, [](std::uint64_t count) { return count + 1; });
            if (before == vbr::refusal::epoch_spent) return false;
            if (before.value()) return true;
            vbr::result<bool> begun = mine->insert(session, 1);
            if (begun == vbr::refusal::epoch_spent) return false;
            if (begun.value()) return true;
        }
    }

    vbr::map_lender map;
};

// Serves requests, and ends some sessions; how many requests these made.
static std::uint64_t work(server &mine, std::uint64_t random, long requests) {
    std::uint64_t ended = 0;
    for (long i = 0; i < requests; i++) {
        random ^= random << 13, random ^= random >> 7, random ^= random << 17;
        mine.serve((random >> 32) % SESSIONS);
        if (i % 64 == 0) ended += mine.end((random >> 16) % SESSIONS);
    }
    return ended;
}

int main() {
    constexpr long REQUESTS = 30000; // of each thread
    server mine(vbr::open_map(SHAPE, HANDLES).value());
    std::atomic<std::uint64_t> ended{0};
    std::atomic<bool> is_over{false};
    std::vector<std::thread> threads;
    for (std::uint64_t i = 0; i < THREADS; i++) threads.emplace_back([&, i] { ended += work(mine, 88172645463325252u + i, REQUESTS); });
    long renewals = 0;
    std::thread clock([&] {
        do {
            std::this_thread::sleep_for(PERIOD); // a week, say
            mine.renew();
            renewals++;
        } while (!is_over);
    });
    for (std::thread &thread : threads) thread.join();
    is_over = true;
    clock.join();
    vbr::map_report told = mine.close();
    CHECK(told.epoch <= SHAPE.last_epoch && renewals > 0);
    std::uint64_t sum = ended;
    for (vbr::entry each : told.entries) sum += each.value;
    CHECK(sum == THREADS * REQUESTS); // or a request is lost, or counted twice
    std::printf("server in C++: passed, %llu requests, and the clock renewed the map %ld times\n", static_cast<unsigned long long>(sum),
                renewals);
    return 0;
}

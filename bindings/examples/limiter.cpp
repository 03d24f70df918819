// A rate limiter that threads share: each client may make LIMIT requests in each window of time, by whichever threads they are
// served. Something to begin from.
//
//     limiter [careless]
//
// A map has for each client, in one value, the last window in which it made a request and how many were admitted in it. A request is
// admitted by fetch_update, which counts it, or finds that there were enough; so no two threads admit the same one of them. An
// entry is made by get_or_insert where a client comes for the first time.
//
// The program counts, for each client and each window, how many requests were admitted, over all threads: no more than LIMIT, and
// just as many where one was refused. A careless limiter, which gets the value and puts the next one, admits too many.
#include "vbr.hpp"

#include <atomic>
#include <cstdio>
#include <cstdlib>
#include <string>
#include <thread>
#include <vector>

#define CHECK(x) do { if (!(x)) { std::fprintf(stderr, "limiter.cpp:%d: FAILED: %s\n", __LINE__, #x); std::exit(1); } } while (0)

constexpr std::size_t THREADS = 4;
constexpr std::uint32_t CLIENTS = 16;
constexpr std::uint32_t LIMIT = 100;
constexpr std::uint32_t WINDOW = 4096;     // of the time, which passes with each request
constexpr std::uint32_t REQUESTS = 400000; // of all threads
constexpr std::uint32_t WINDOWS = REQUESTS / WINDOW + 1;

// How many requests of a client were admitted in a window, which is the last one that it made any in.
struct usage {
    std::uint32_t window;
    std::uint32_t count;

    // With one request more, which comes in this window, or is late for it; none if that is too many.
    std::optional<usage> with_one(std::uint32_t now) const noexcept {
        if (now > window) return usage{now, 1};
        if (count == LIMIT) return std::nullopt;
        return usage{window, count + 1};
    }
};

// The value of a client is its usage, of 64 bits.
using usages = vbr::map<std::uint64_t, usage>;

// Whether a request is admitted, and the window in which it counts.
struct verdict {
    bool is_admitted;
    std::uint32_t window;
};

// The limiter, as one thread has it.
class limiter {
public:
    explicit limiter(usages::handle handle) noexcept : map(std::move(handle)) {}

    verdict admit(std::uint64_t client, std::uint32_t now) {
        for (;;) {
            std::optional<verdict> told; // none where the client is absent
            const auto counted = [&](usage there) {
                std::optional<usage> next = there.with_one(now);
                told = verdict{next.has_value(), next ? next->window : there.window};
                return next;
            };
            std::optional<usage> before = map.fetch_update(client, counted).value();
            if (before || (told && !told->is_admitted)) return *told;
            if (!map.get_or_insert(client, usage{now, 1}).value()) return {true, now};
        }
    }

    // The same with a step between, in which another thread may count.
    verdict admit_carelessly(std::uint64_t client, std::uint32_t now) {
        usage there = map.get(client).value().value_or(usage{0, 0});
        if (there.count + 1 == LIMIT) std::this_thread::yield();
        std::optional<usage> next = there.with_one(now);
        if (!next) return {false, there.window};
        CHECK(map.put(client, *next).has_value());
        return {true, next->window};
    }

private:
    usages::handle map;
};

static std::atomic<std::uint32_t> requests{0};
static std::atomic<std::uint32_t> admitted[CLIENTS][WINDOWS], refused[CLIENTS][WINDOWS];

// Some clients come more often than the limit lets them, and others don't.
static std::uint32_t client_of(std::uint32_t request) {
    std::uint64_t x = (request + 1) * 0x9E3779B97F4A7C15u;
    return static_cast<std::uint32_t>(((x >> 44) * (x >> 24 & 0xfffff) >> 20) * CLIENTS >> 20);
}

static void serve(limiter &mine, bool is_careless) {
    for (std::uint32_t request = requests++; request < REQUESTS; request = requests++) {
        std::uint32_t client = client_of(request), now = request / WINDOW;
        verdict told = is_careless ? mine.admit_carelessly(client, now) : mine.admit(client, now);
        (told.is_admitted ? admitted : refused)[client][told.window]++;
    }
}

int main(int count, char **words) {
    bool is_careless = count > 1 && std::string(words[1]) == "careless";
    std::vector<usages::handle> handles = usages::open(vbr::shape::for_keys(CLIENTS, THREADS), THREADS).value();
    std::vector<std::thread> threads;
    for (usages::handle &each : handles)
        threads.emplace_back([mine = limiter(std::move(each)), is_careless]() mutable { serve(mine, is_careless); });
    for (std::thread &thread : threads) thread.join();
    std::uint64_t sum = 0, full = 0;
    for (std::uint32_t client = 0; client < CLIENTS; client++)
        for (std::uint32_t window = 0; window < WINDOWS; window++) {
            CHECK(admitted[client][window] <= LIMIT); // or more are admitted than may be
            CHECK(refused[client][window] == 0 || admitted[client][window] == LIMIT); // or one is refused that may be admitted
            sum += admitted[client][window] + refused[client][window];
            full += refused[client][window] > 0;
        }
    CHECK(sum == REQUESTS && full > 0 && full < CLIENTS * WINDOWS);
    std::printf("limiter in C++: passed, the limit was reached %llu times by %u clients in %u windows\n",
                static_cast<unsigned long long>(full), CLIENTS, WINDOWS);
    return 0;
}

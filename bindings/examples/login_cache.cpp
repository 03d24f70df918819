// A cache of logins for a hundred threads, which have eight handles between them. Something to begin from.
//
//     login_cache
//
// A vbr::cache has for each user who is logged in a ticket and from where the login came. A login is good for some time after its last
// use; then it is a miss, and goes by itself. Whoever serves a request borrows a handle, makes its calls, and gives it back.
//
// Each user is served by one thread, which keeps a list of its own: what the cache must have. There is room for all users, so a login that
// is good is found, and one that is over isn't. All threads look at the users of others, too, and see that no login is put together
// from two. At the end the cache has what the lists have, and no more. Time passes with each request.
#include "vbr_cache.hpp"

#include <atomic>
#include <chrono>
#include <cstdio>
#include <cstdlib>
#include <map>
#include <string>
#include <thread>
#include <vector>

#define CHECK(x) do { if (!(x)) { std::fprintf(stderr, "login_cache.cpp:%d: FAILED: %s\n", __LINE__, #x); std::exit(1); } } while (0)

constexpr std::size_t THREADS = 100, LOANS = 8;
constexpr std::uint32_t USERS_OF_EACH = 8, USERS = USERS_OF_EACH * THREADS;
constexpr std::int64_t LIFE = 4000; // how long a login is good after its last use, in requests of all threads
constexpr long REQUESTS = 4000;     // of each thread

using user = std::uint32_t;
using place = vbr::small_string<39>;

// A login: no two have the same ticket.
struct login {
    std::uint64_t ticket;
    place from;
    user who() const noexcept { return static_cast<user>(ticket % USERS); }
    friend bool operator==(const login &one, const login &other) noexcept { return one.ticket == other.ticket && one.from == other.from; }
};

using logins = vbr::cache<user, login>;

static std::atomic<std::int64_t> now{1};
static std::atomic<std::uint64_t> tickets{0};
static std::atomic<long> extended{0};

static std::chrono::nanoseconds clock_of_requests() { return std::chrono::nanoseconds(now); }

static place place_of(std::uint64_t ticket) { return place::from("the place where number " + std::to_string(ticket) + " is").value(); }

static login new_login(user who) {
    const std::uint64_t ticket = tickets++ * USERS + who;
    return {ticket, place_of(ticket)};
}

// A login as its thread knows it: it was given more time at a moment between these two.
struct known_login {
    login is;
    std::int64_t earliest, latest;
};

// The users whom one thread serves, and what it knows of them.
class server {
public:
    server(logins &shared, user first_of_them) noexcept : cache(shared), first(first_of_them) {}

    // A user asks for something, and logs in first where that is due, or out.
    void serve(user who, std::uint64_t random) {
        const std::optional<login> seen = look_up(who);
        const std::int64_t earliest = now;
        if (!seen) {
            const login begun = new_login(who);
            CHECK(!cache.lend_wait().put(who, begun).value());
            known[who] = {begun, earliest, now};
        } else if (random % 8 == 0) {
            cache.lend_wait().remove(who).value();
            known.erase(who);
        } else if (cache.lend_wait().touch(who, std::chrono::nanoseconds(LIFE)).value()) {
            known[who] = {*seen, earliest, now};
            extended++;
        } else {
            CHECK(known[who].earliest + LIFE <= now); // or a login is lost that is good
        }
    }

    // What the cache has of a user: all that it must have.
    std::optional<login> look_up(user who) const {
        const std::int64_t before = now;
        const std::optional<login> seen = cache.lend_wait().get(who).value();
        const auto it = known.find(who);
        if (seen) CHECK(it != known.end() && *seen == it->second.is && before < it->second.latest + LIFE); // or one is found that is over
        else CHECK(it == known.end() || it->second.earliest + LIFE <= now);                                // or one is lost that is good
        return seen;
    }

    user first_user() const noexcept { return first; }

private:
    logins &cache;
    user first;
    std::map<user, known_login> known;
};

static void work(logins &cache, server &mine, std::uint64_t random) {
    for (long i = 0; i < REQUESTS; i++) {
        random ^= random << 13, random ^= random >> 7, random ^= random << 17;
        const std::uint64_t x = random >> 40 & 0xff, y = random >> 32 & 0xff; // some users come often, and others seldom
        mine.serve(mine.first_user() + static_cast<user>(x * y * USERS_OF_EACH >> 16), random >> 16);
        const user another = static_cast<user>((random >> 48) % USERS);
        if (const std::optional<login> seen = cache.lend_wait().get(another).value()) CHECK(seen->who() == another && seen->from == place_of(seen->ticket));
        now++;
        if (i % 8 == 0) std::this_thread::yield(); // as one that waits for its next request
    }
}

int main() {
    logins::options how;
    how.time_to_live = std::chrono::nanoseconds(LIFE);
    how.clock = clock_of_requests;
    logins cache = logins::open_for(USERS, LOANS, how).value();
    std::vector<server> servers;
    std::vector<std::thread> threads;
    for (user i = 0; i < THREADS; i++) servers.emplace_back(cache, i * USERS_OF_EACH);
    for (std::size_t i = 0; i < THREADS; i++) threads.emplace_back([&, i] { work(cache, servers[i], 88172645463325252u + i); });
    for (std::thread &thread : threads) thread.join();
    std::uint64_t left = 0;
    for (user who = 0; who < USERS; who++) left += servers[who / USERS_OF_EACH].look_up(who).has_value(); // what is over goes
    const vbr::cache_statistics told = cache.statistics();
    CHECK(told.length == left && told.evictions == 0 && told.expiries > 0 && extended > 0);
    std::printf("a cache of logins in C++: passed, %llu logins, of which %llu expired and %llu are left\n", 0ull + tickets, 0ull + told.expiries, 0ull + left);
    return 0;
}

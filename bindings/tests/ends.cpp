// What is so of the handles of sets and of those of maps: whatever ends them nothing is lost, and the handle that is closed last gets
// all; by the end of a thread, by an exception, and where they are lent. A thread that is cancelled in a call runs its destructors.
#include "client.hpp"

#include <pthread.h>

#include <atomic>
#include <chrono>
#include <stdexcept>
#include <thread>

// The calls of both: in a map each key has a value that follows from it.
static bool added(vbr::pass &mine, std::uint64_t key) { return mine.insert(key).value(); }
static bool added(vbr::map_pass &mine, std::uint64_t key) { return mine.insert(key, ~key).value(); }
static bool taken(vbr::pass &mine, std::uint64_t key) { return mine.remove(key).value(); }
static bool taken(vbr::map_pass &mine, std::uint64_t key) { return mine.remove(key) == ~key; }
static bool there(vbr::pass &mine, std::uint64_t key) { return mine.has(key).value(); }
static bool there(vbr::map_pass &mine, std::uint64_t key) { return mine.get(key) == ~key; }
static auto walk(vbr::pass &mine) { return mine.keys(); }
static auto walk(vbr::map_pass &mine) { return mine.entries(); }
static std::uint64_t key_of(std::uint64_t key) { return key; }
static std::uint64_t key_of(vbr::entry each) { return each.value == ~each.key ? each.key : UINT64_MAX; }
static const std::vector<std::uint64_t> &items(const vbr::report &told) { return told.keys; }
static const std::vector<vbr::entry> &items(const vbr::map_report &told) { return told.entries; }

// The keys of the last report; in a map each with its value.
template <class Report>
static std::vector<std::uint64_t> told(const vbr::result<std::optional<Report>> &last) {
    std::vector<std::uint64_t> keys;
    for (auto each : items(last.value().value())) keys.push_back(key_of(each));
    return keys;
}

// Handles whose life ends in threads: the last one gets all, whichever it is.
template <class Of>
static void ends() {
    using handle = typename Of::handle;
    for (std::size_t last = 0; last < 3; last++) {
        std::vector<handle> handles = Of::open(vbr::shape::for_keys(64, 3), 3).value();
        handle kept = std::move(handles[last]);
        std::vector<std::thread> threads;
        for (std::size_t i = 0; i < 3; i++)
            if (i != last)
                threads.emplace_back([mine = std::move(handles[i]), i]() mutable {
                    for (std::uint64_t key = i; key < 60; key += 3)
                        if (!added(mine, key)) return;
                    if (i == 1) mine = handle();
                });
        for (std::thread &thread : threads) thread.join();
        threads.clear();
        auto report = kept.close();
        CHECK(told(report).size() == 40 && report.value()->free == 64 + 3 * 64 - 40);
        for (std::uint64_t key : told(report)) CHECK(key < 60 && key % 3 != last);
    }
}

// Inserts a key by each of the handles that are open, and throws: it owns the handles, so they end.
template <class Handle>
static void inserts_and_throws(std::vector<Handle> owned) {
    for (std::size_t i = 0; i < owned.size(); i++)
        if (owned[i].is_open() && !added(owned[i], i)) return;
    throw std::runtime_error("given up");
}

// An exception that ends handles: the last close gets all, whichever handle is kept; and a loan is given back.
template <class Of>
static void exceptions() {
    for (std::size_t last = 0; last < 3; last++) {
        auto handles = Of::open(vbr::shape::for_keys(64, 3), 3).value();
        auto kept = std::move(handles[last]);
        bool caught = false;
        try {
            inserts_and_throws(std::move(handles));
        } catch (const std::runtime_error &) {
            caught = true;
        }
        CHECK(caught && added(kept, last) && told(kept.close()) == (std::vector<std::uint64_t>{0, 1, 2}));
    }
    typename Of::lender lender(Of::open(vbr::shape::for_keys(64, 1), 1).value());
    try {
        auto mine = lender.lend();
        CHECK(mine && added(*mine, 5) && !lender.lend());
        throw std::runtime_error("given up");
    } catch (const std::runtime_error &) {
        CHECK(lender.lend());
    }
    CHECK(told(lender.close()) == std::vector<std::uint64_t>{5});
}

// Threads that borrow two handles: each stores keys of its own, and takes back every other one.
template <class Of>
static int loans() {
    constexpr vbr::shape shape = vbr::shape::for_keys(1000, 2);
    typename Of::lender lender(Of::open(shape, 2).value());
    {
        auto one = lender.lend(), two = lender.lend(), none = lender.lend();
        CHECK(one && two && !none && added(*one, 1000));
    }
    std::atomic<int> wrong{0};
    std::vector<std::thread> threads;
    for (std::uint64_t i = 0; i < 6; i++)
        threads.emplace_back([&lender, &wrong, i] {
            for (std::uint64_t key = i; key < 600;) {
                auto mine = lender.lend();
                if (!mine) { // all are lent at the moment
                    std::this_thread::yield();
                    continue;
                }
                if (!added(*mine, key) || !there(*mine, key)) wrong++;
                if (key % 2 && !taken(*mine, key)) wrong++;
                key += 6;
            }
        });
    for (std::thread &thread : threads) thread.join();
    if (!lender.renew(shape)) return 1; // it was refused
    {
        auto mine = lender.lend();
        std::vector<bool> walked(1001);
        for (auto each : walk(*mine)) {
            CHECK(key_of(each) <= 1000 && key_of(each) % 2 == 0 && !walked[key_of(each)]);
            walked[key_of(each)] = true;
        }
    }
    CHECK(wrong == 0 && told(lender.close()).size() == 301);
    return 0;
}

// A walk over a renewal, with more buckets and with fewer: each call from its cursor is refused, a range throws that, and one that begins
// anew gives each key once.
template <class Of>
static void renewals_while_walking() {
    for (std::uint32_t buckets : {1u, 16u, 1024u}) {
        vbr::shape other = vbr::shape::for_keys(64, 2);
        other.buckets = buckets;
        auto handles = Of::open(vbr::shape::for_keys(64, 2), 2).value();
        for (std::uint64_t key = 0; key < 40; key++) CHECK(added(handles[key % 2], key));
        vbr::cursor from;
        CHECK(handles[0].next(from).value() && handles[1].next_at(from).value());
        std::size_t given = 0;
        vbr::refusal why{};
        try {
            for (auto each : walk(handles[0])) {
                CHECK(key_of(each) < 40);
                if (++given == 5) CHECK(Of::handle::renew_all(handles, other));
            }
        } catch (const vbr::refused &refused) {
            why = refused.error();
        }
        CHECK(given == 5 && why == vbr::refusal::reshaped);
        for (auto &mine : handles) {
            CHECK(mine.next(from) == vbr::refusal::reshaped && mine.next_at(from) == vbr::refusal::reshaped);
            std::vector<bool> walked(40);
            for (auto each : walk(mine)) {
                CHECK(key_of(each) < 40 && !walked[key_of(each)]);
                walked[key_of(each)] = true;
            }
            CHECK(walked == std::vector<bool>(40, true));
        }
    }
}

#ifdef __SANITIZE_THREAD__
constexpr bool CANCELS = false; // what ThreadSanitizer adds to calls isn't made for an end in its middle
#else
constexpr bool CANCELS = true;
#endif

static std::atomic<bool> begun;
static std::atomic<int> destroyed;

struct counted {
    counted() = default;
    counted(const counted &) = delete;
    counted &operator=(const counted &) = delete;
    ~counted() { destroyed++; }
};

// Makes calls until its thread is cancelled.
template <class Handle>
static void calls_on(Handle *mine) {
    for (std::uint64_t key = 0; !there(*mine, key % 100 + 1); key++) begun = true;
}

// It owns no handle: what is cancelled in a call is neither closed nor used again.
template <class Handle>
static void *is_cancelled(void *of) {
    void (*volatile calls)(Handle *) = calls_on<Handle>; // so that no compiler sees what may throw in it
    int before = 0;
    CHECK(!pthread_setcanceltype(PTHREAD_CANCEL_ASYNCHRONOUS, &before));
    counted it;
    calls(static_cast<Handle *>(of));
    return nullptr;
}

// Threads that are cancelled in the middle of calls, each with its handle; the last handle goes on.
template <class Of>
static void cancelled_threads() {
    static auto &handles = *new auto(Of::open(vbr::shape::for_keys(64, 16), 16).value()); // nothing closes them
    auto &last = handles.back();
    for (std::size_t i = 0; i + 1 < handles.size(); i++) {
        pthread_t thread;
        void *result = nullptr;
        const int before = destroyed;
        begun = false;
        CHECK(!pthread_create(&thread, nullptr, is_cancelled<typename Of::handle>, &handles[i]));
        while (!begun) std::this_thread::yield();
        std::this_thread::sleep_for(std::chrono::microseconds(20 + 7 * i));
        CHECK(!pthread_cancel(thread) && !pthread_join(thread, &result) && result == PTHREAD_CANCELED);
        CHECK(destroyed == before + 1 && added(last, 1000) && taken(last, 1000) && !there(last, 1000));
    }
}

template <class Of>
static int of_a_kind() {
    ends<Of>(), exceptions<Of>(), renewals_while_walking<Of>();
    if (CANCELS) cancelled_threads<Of>();
    return loans<Of>();
}

int main() {
    if (of_a_kind<vbr::set<>>() || of_a_kind<vbr::map<>>()) return 1;
    std::puts("ends of handles of sets and of maps in C++: passed");
    return 0;
}

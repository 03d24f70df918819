// What the server keeps: a vbr::cache from keys of at most 250 bytes to values of at most N bytes.
//
// Each call takes effect at one moment, by one call of the cache. An entry has a number that no other entry ever has, which a client names
// in `cas`. A flush takes one addition: entries know how many flushes there were before them, and those from before the last one count
// as absent.
#pragma once
#include "vbr_cache.hpp"

#include <algorithm>
#include <array>
#include <ctime>
#include <limits>
#include <optional>
#include <string_view>
#include <vector>

namespace memcache {

constexpr std::size_t MAX_KEY = 250;
using key = vbr::small_string<MAX_KEY>;
using lifetime = std::optional<std::chrono::nanoseconds>; // none is for ever, and not above zero no time at all

// What an entry has.
template <std::size_t N>
struct stored_value {
    std::uint64_t unique, flushes_before;
    std::uint32_t flags;
    vbr::small_bytes<N> bytes;
};

// What `stats` counts of each thread, which alone writes its numbers.
enum counter : std::size_t { get_hits, get_misses, cmd_set, cmd_touch, cmd_flush, COUNTERS };
constexpr const char *counter_names[COUNTERS] = {"get_hits", "get_misses", "cmd_set", "cmd_touch", "cmd_flush"};
struct alignas(64) counters {
    std::array<std::atomic<std::uint64_t>, COUNTERS> numbers{};
};

// What all threads share.
template <std::size_t N>
struct storage {
    static constexpr std::int64_t NEVER = std::numeric_limits<std::int64_t>::max();

    // All entries go: now, or after so long. It takes the place of a flush that is due.
    void flush(lifetime after) noexcept {
        const bool is_now = !after || after->count() <= 0;
        flush_due.store(is_now ? NEVER : (vbr::steady_time() + *after).count());
        if (is_now) flushes.fetch_add(1);
    }
    std::uint64_t flushes_so_far() noexcept {
        std::int64_t at = flush_due.load();
        if (at != NEVER && vbr::steady_time().count() >= at && flush_due.compare_exchange_strong(at, NEVER)) flushes.fetch_add(1);
        return flushes.load();
    }

    vbr::cache<key, stored_value<N>> cache;
    const std::size_t bytes, connections_at_most;
    std::vector<counters> counts{cache.handles()};
    const std::time_t begun = std::time(nullptr);
    std::atomic<std::uint64_t> connections{0}, connections_so_far{0}, flushes{0};
    std::atomic<std::int64_t> flush_due{NEVER};
};

// The calls of one thread. Between `begin` and `end` it has a handle of the cache; the calls of entries are made there alone.
template <std::size_t N>
class caller {
public:
    using value = stored_value<N>;
    using change = vbr::cache_change<value>;
    using found = vbr::result<std::optional<value>>;

    caller(storage<N> &of, std::size_t thread) : all(of), counts(of.counts[thread]), last_unique(thread) {}
    void begin() { mine = all.cache.lend_wait(); }
    void end() { mine = typename vbr::cache<key, value>::loan(); }

    found get(const key &which) {
        found has = mine.get(which);
        if (!has.has_value() || !*has || (*has)->flushes_before >= all.flushes_so_far()) return has;
        return compute(which, [](const value *there) { return there ? change::keep() : change::remove(); });
    }

    // Does with a key what `ask` says of the value that is there, or of null, as often as another thread is faster. It returns that value.
    template <class Ask>
    found compute(const key &which, const Ask &ask) {
        found had = mine.compute(which, [&](const std::optional<value> &has) {
            flushes_before = all.flushes_so_far(); // once: what is made of a value is flushed with it
            return ask(has && has->flushes_before >= flushes_before ? &*has : nullptr);
        });
        if (!had.has_value() || !*had || (*had)->flushes_before >= flushes_before) return had;
        return std::optional<value>();
    }

    // A value that is new, of bytes that fit. Its number is one of this thread's: one of each so many as there are threads.
    value made(std::uint32_t flags, std::string_view bytes, std::string_view more = {}) {
        std::copy(more.begin(), more.end(), std::copy(bytes.begin(), bytes.end(), joint.begin()));
        last_unique += all.cache.handles();
        return {last_unique, flushes_before, flags, vbr::small_bytes<N>::from({joint.data(), bytes.size() + more.size()}).value()};
    }

    void add(counter which) noexcept {
        std::atomic<std::uint64_t> &number = counts.numbers[which];
        number.store(number.load(std::memory_order_relaxed) + 1, std::memory_order_relaxed);
    }

    storage<N> &all;

private:
    counters &counts;
    typename vbr::cache<key, value>::loan mine;
    std::array<char, N> joint;
    std::uint64_t last_unique, flushes_before = 0;
};

} // namespace memcache

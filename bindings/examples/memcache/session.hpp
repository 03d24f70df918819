// What one connection says and is answered, without its socket: memcached's text protocol over two buffers of fixed size.
//
// `go_on` takes requests out of the buffer `in`, and puts answers into `out`. It stops if it needs more input or more room, and goes on
// there later. A get may have any number of keys: it is answered key by key, as they come and as there is room.
#pragma once
#include "storage.hpp"

#include <charconv>
#include <cstring>

namespace memcache {

template <class Number>
bool number_of(std::string_view text, Number &number) {
    const auto [end, error] = std::from_chars(text.data(), text.data() + text.size(), number);
    return error == std::errc() && end == text.data() + text.size();
}

// Bytes that came and wait, at most so many.
template <std::size_t Size>
class buffer {
public:
    std::string_view bytes() const noexcept { return {&block[from], to - from}; }
    std::size_t room() const noexcept { return Size - (to - from); }
    void drop(std::size_t count) noexcept { from += std::min(count, to - from); }
    void wrote(std::size_t count) noexcept { to += count; }
    // Where more may be written: `room()` bytes, of which `wrote` then says how many were.
    char *free_part() noexcept {
        if (from > 0) std::memmove(block, block + from, to - from);
        to -= std::exchange(from, 0);
        return block + to;
    }
    void append(std::string_view text) noexcept {
        if (Size - to < text.size()) free_part();
        text.copy(block + to, text.size());
        to += text.size();
    }

private:
    std::size_t from = 0, to = 0;
    char block[Size];
};

// Why a session stops: it needs more input, more room in `out`, or the connection is to end once all was sent.
enum class stop { input, room, end };

template <std::size_t N>
class session {
    static constexpr std::size_t MAX_LINE = 2048, ANSWER = 1024, MAX_WORDS = 8;
    using value = stored_value<N>;
    using change = typename caller<N>::change;
    using found = typename caller<N>::found;

public:
    void begin() noexcept {
        in.drop(in.bytes().size()), out.drop(out.bytes().size());
        next = &session::take_line;
    }
    bool has_room() const noexcept { return out.room() >= (next == &session::take_key ? N + ANSWER : ANSWER); }

    stop go_on(caller<N> &by) {
        with = &by;
        while (next && has_room())
            if (!(this->*next)()) return stop::input;
        return next ? stop::room : stop::end;
    }

    buffer<std::max(2 * MAX_LINE, N + 2)> in;       // a line, or a value
    buffer<std::max(2 * MAX_LINE, N + ANSWER)> out; // what one step answers

private:
    using step = bool (session::*)(); // one piece of work; false if it needs more input

    struct words {
        std::array<std::string_view, MAX_WORDS> word;
        std::size_t count = 0; // also of those that have no place
        std::string_view operator[](std::size_t i) const { return word[i]; }
    };

    enum class storing { set, add, replace, append, prepend, cas };
    struct command {
        std::string_view name;
        std::size_t least, most; // how many words, with its name and without `noreply`
        bool may_be_quiet;
        void (session::*run)(const words &);
        storing how = storing::set;
    };

    bool take_line() {
        const std::string_view seen = in.bytes().substr(0, MAX_LINE);
        const std::size_t end = seen.find('\n');
        if (end == seen.npos && seen.size() < MAX_LINE) return false;
        const words all = words_of(seen.substr(0, end));
        is_quiet = false;
        if (all.count > 1 && (all[0] == "get" || all[0] == "gets" || all[0] == "gat" || all[0] == "gats")) {
            begin_keys(seen, all);
        } else if (end == seen.npos) {
            fail("CLIENT_ERROR line too long");
        } else {
            run(all);
            in.drop(end + 1);
        }
        return true;
    }

    static words words_of(std::string_view line) {
        words all;
        if (!line.empty() && line.back() == '\r') line.remove_suffix(1);
        for (std::size_t from = 0, end = 0; (from = line.find_first_not_of(' ', end)) != line.npos; all.count++) {
            end = std::min(line.find(' ', from), line.size());
            if (all.count < MAX_WORDS) all.word[all.count] = line.substr(from, end - from);
        }
        return all;
    }

    void run(const words &all) {
        using it = session;
        static constexpr command commands[] = {
            {"set", 5, 5, true, &it::begin_data, storing::set}, {"add", 5, 5, true, &it::begin_data, storing::add},
            {"replace", 5, 5, true, &it::begin_data, storing::replace}, {"append", 5, 5, true, &it::begin_data, storing::append},
            {"prepend", 5, 5, true, &it::begin_data, storing::prepend}, {"cas", 6, 6, true, &it::begin_data, storing::cas},
            {"delete", 2, 3, true, &it::remove}, {"incr", 3, 3, true, &it::count}, {"decr", 3, 3, true, &it::count},
            {"touch", 3, 3, true, &it::touch}, {"flush_all", 1, 2, true, &it::flush_all}, {"verbosity", 1, 2, true, &it::verbosity},
            {"stats", 1, 1, false, &it::stats}, {"version", 1, 1, false, &it::version}, {"quit", 1, 1, false, &it::quit}};
        const command *const it_is = std::find_if(std::begin(commands), std::end(commands), [&](const command &each) { return each.name == all[0]; });
        if (it_is == std::end(commands)) return answer("ERROR");
        words its = all;
        if (it_is->may_be_quiet && its.count > it_is->least && its.count <= it_is->most + 1 && its[its.count - 1] == "noreply") its.count--;
        if (its.count < it_is->least || its.count > it_is->most) return answer("ERROR");
        is_quiet = its.count < all.count;
        how = it_is->how;
        (this->*it_is->run)(its);
    }

    // Lines that store

    void begin_data(const words &all) {
        if (!number_of(all[4], length) || length > MAX_LENGTH) return answer(BAD_FORMAT);
        next = &session::pass_over; // unless all is well: what isn't stored is no command
        const bool has_unique = how != storing::cas || number_of(all[5], unique);
        if (!take_name(all[1]) || !number_of(all[2], flags) || !take_time(all[3]) || !has_unique) return answer(BAD_FORMAT);
        if (length <= N) return static_cast<void>(next = &session::take_data);
        answer(TOO_LARGE);
        // a client that couldn't set it mustn't find what was there
        if (how == storing::set) static_cast<void>(with->compute(which, [](const value *) { return change::remove(); }));
    }

    bool take_data() {
        const std::string_view seen = in.bytes();
        if (seen.size() <= length || (seen[length] == '\r' && seen.size() == length + 1)) return false;
        const bool is_whole = seen.substr(length, 2) == "\r\n";
        if (is_whole) with->add(cmd_set);
        if (is_whole) change_entry([&](const value *there) { return store(there, seen.substr(0, length)); });
        in.drop(is_whole ? length + 2 : length);
        next = &session::take_line;
        return is_whole || fail("CLIENT_ERROR bad data chunk");
    }

    change store(const value *there, std::string_view bytes) {
        if (how != storing::set && (how == storing::add) == (there != nullptr)) return keep(how == storing::cas ? "NOT_FOUND" : "NOT_STORED");
        if (how == storing::cas && there->unique != unique) return keep("EXISTS");
        if (how != storing::append && how != storing::prepend) return become("STORED", put(with->made(flags, bytes)));
        const std::string_view before = there->bytes.view();
        if (before.size() + bytes.size() > N) return keep(TOO_LARGE);
        const auto [first, second] = how == storing::append ? std::pair(before, bytes) : std::pair(bytes, before);
        return become("STORED", change::update(with->made(there->flags, first, second)));
    }

    // What is left of a value that isn't stored, and then of the line.
    bool pass_over() {
        const std::string_view seen = in.bytes();
        const std::size_t end = length < seen.size() ? seen.find('\n', length) : seen.npos;
        in.drop(end == seen.npos ? end : end + 1);
        length -= std::min<std::size_t>(length, seen.size());
        if (end != seen.npos) next = &session::take_line;
        return end != seen.npos;
    }

    // Lines that get

    void begin_keys(std::string_view seen, const words &all) {
        touches = all[0].substr(0, 3) == "gat", gives_unique = all[0].back() == 's', has_keys = false;
        const std::string_view last = all[touches ? 1 : 0];
        in.drop(static_cast<std::size_t>(last.data() + last.size() - seen.data()));
        next = &session::take_key;
        if (touches && !take_time(last)) fail(BAD_TIME);
    }

    bool take_key() {
        in.drop(std::min(in.bytes().find_first_not_of(' '), in.bytes().size()));
        const std::string_view seen = in.bytes().substr(0, MAX_KEY + 2);
        const std::size_t end = seen.find_first_of(" \n");
        if (end == seen.npos && seen.size() < MAX_KEY + 2) return false;
        std::string_view name = seen.substr(0, end);
        if (end != seen.npos && seen[end] == '\n' && !name.empty() && name.back() == '\r') name.remove_suffix(1);
        if (name.empty()) return fail(has_keys ? "END" : "ERROR"); // what is left is the line's end
        if (!take_name(name)) return fail(BAD_FORMAT);
        has_keys = true;
        in.drop(name.size());
        const found there = touches ? with->compute(which, [&](const value *has) { return has ? put(*has) : change::keep(); }) : with->get(which);
        if (!there.has_value()) return fail(REFUSED, vbr::to_string(there));
        with->add(*there ? get_hits : get_misses);
        if (touches) with->add(cmd_touch);
        if (*there) append_entry(**there);
        return true;
    }

    void append_entry(const value &there) {
        const std::string_view bytes = there.bytes.view();
        out.append("VALUE "), out.append(which.view()), append_number(there.flags), append_number(bytes.size());
        if (gives_unique) append_number(there.unique);
        out.append("\r\n"), out.append(bytes), out.append("\r\n");
    }

    // Other lines

    void remove(const words &all) {
        if (all.count == 3 && all[2] != "0") return answer("CLIENT_ERROR bad command line format.  Usage: delete <key> [noreply]");
        if (!take_name(all[1])) return answer(BAD_FORMAT);
        change_entry([&](const value *there) { return become(there ? "DELETED" : "NOT_FOUND", change::remove()); });
    }

    void count(const words &all) {
        std::uint64_t by = 0;
        if (!take_name(all[1])) return answer(BAD_FORMAT);
        if (!number_of(all[2], by)) return answer("CLIENT_ERROR invalid numeric delta argument");
        change_entry([&](const value *there) {
            std::uint64_t now = 0;
            if (!there) return keep("NOT_FOUND");
            if (!number_of(there->bytes.view(), now)) return keep("CLIENT_ERROR cannot increment or decrement non-numeric value");
            now = all[0] == "incr" ? now + by : now - std::min(now, by); // 0 follows 2^64 - 1, and comes ahead of no number
            return become(digits(now), change::update(with->made(there->flags, digits(now))));
        });
    }

    void touch(const words &all) {
        if (!take_name(all[1])) return answer(BAD_FORMAT);
        if (!take_time(all[2])) return answer(BAD_TIME);
        with->add(cmd_touch);
        change_entry([&](const value *there) { return there ? become("TOUCHED", put(*there)) : keep("NOT_FOUND"); });
    }

    void flush_all(const words &all) {
        if (!take_time(all.count == 2 ? all[1] : "0")) return answer(BAD_FORMAT);
        with->add(cmd_flush);
        with->all.flush(lives);
        answer("OK");
    }

    void verbosity(const words &all) {
        std::uint32_t level = 0;
        answer(all.count == 1 && !is_quiet ? "ERROR" : all.count == 2 && !number_of(all[1], level) ? BAD_FORMAT : "OK");
    }

    void version(const words &) {
        out.append("VERSION 1."), out.append(digits(VBR_VERSION_MAJOR)), out.append("."), out.append(digits(VBR_VERSION_MINOR));
        out.append("."), out.append(digits(VBR_VERSION_PATCH)), out.append("\r\n");
    }

    void quit(const words &) { next = nullptr; }

    void stats(const words &) {
        const storage<N> &all = with->all;
        const vbr::cache_statistics counted = all.cache.statistics();
        const auto now = static_cast<std::uint64_t>(std::time(nullptr));
        stat("uptime", now - static_cast<std::uint64_t>(all.begun)), stat("time", now), stat("pointer_size", 8 * sizeof(void *));
        stat("threads", all.counts.size()), stat("limit_maxbytes", all.bytes), stat("max_connections", all.connections_at_most);
        stat("curr_connections", all.connections), stat("total_connections", all.connections_so_far), stat("curr_items", counted.length);
        stat("evictions", counted.evictions), stat("expired", counted.expiries);
        std::array<std::uint64_t, COUNTERS> sums{};
        for (std::size_t i = 0; i < COUNTERS; i++) {
            for (const counters &each : all.counts) sums[i] += each.numbers[i].load(std::memory_order_relaxed);
            stat(counter_names[i], sums[i]);
        }
        stat("cmd_get", sums[get_hits] + sums[get_misses]);
        answer("END");
    }

    // Words, changes and answers

    static constexpr std::uint64_t MAX_LENGTH = 0x7ffffffd;
    static constexpr std::string_view BAD_FORMAT = "CLIENT_ERROR bad command line format", BAD_TIME = "CLIENT_ERROR invalid exptime argument",
                                      TOO_LARGE = "SERVER_ERROR object too large for cache", REFUSED = "SERVER_ERROR ";

    bool take_name(std::string_view name) {
        const auto made = key::from(name);
        if (made.has_value()) which = *made;
        return made.has_value();
    }

    // As memcached counts it: 0 is for ever; up to 30 days from now on; beyond, seconds since 1970; less than 0, no time at all.
    bool take_time(std::string_view word) {
        constexpr std::int64_t MONTH = 30 * 24 * 3600, CENTURY = std::int64_t{100} * 365 * 24 * 3600;
        std::int64_t exptime = 0;
        if (!number_of(word, exptime)) return false;
        lives = std::chrono::seconds(std::clamp<std::int64_t>(exptime - (exptime > MONTH ? std::time(nullptr) : 0), 0, CENTURY));
        if (exptime == 0) lives.reset();
        return true;
    }

    change put(const value &new_one) const { return lives ? change::put_for(new_one, *lives) : change::put(new_one); }
    change become(std::string_view text, const change &next_one) {
        told = text;
        return next_one;
    }
    change keep(std::string_view why) { return become(why, change::keep()); }

    // Does with the entry what `ask` says, and answers what that told, or why the call was refused.
    template <class Ask>
    void change_entry(const Ask &ask) {
        const found had = with->compute(which, ask);
        return had.has_value() ? answer(told) : answer(REFUSED, vbr::to_string(had));
    }

    std::string_view digits(std::uint64_t number) {
        const char *end = std::to_chars(digit.data(), digit.data() + digit.size(), number).ptr;
        return {digit.data(), static_cast<std::size_t>(end - digit.data())};
    }
    void append_number(std::uint64_t number) { out.append(" "), out.append(digits(number)); }
    void stat(std::string_view name, std::uint64_t number) { out.append("STAT "), out.append(name), append_number(number), out.append("\r\n"); }

    void answer(std::string_view line, std::string_view more = {}) {
        if (!is_quiet) out.append(line), out.append(more), out.append("\r\n");
    }

    // Answers this, and passes over what is left of the line; true.
    bool fail(std::string_view line, std::string_view more = {}) {
        answer(line, more);
        length = 0, next = &session::pass_over;
        return true;
    }

    step next = &session::take_line;
    caller<N> *with = nullptr;
    bool is_quiet = false, touches = false, gives_unique = false, has_keys = false;
    std::string_view told; // what a change answers, unless it is refused
    std::array<char, 20> digit;

    // what the line asks for
    storing how = storing::set;
    key which;
    lifetime lives;
    std::uint32_t flags = 0;
    std::uint64_t length = 0, unique = 0;
};

} // namespace memcache

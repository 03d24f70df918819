// A load on a cache server with memcached's text protocol, at 127.0.0.1. It prints a line of CSV.
//
//     load fill PORT KEYS BYTES                               each key is set once; prints nothing
//     load mix PORT KEYS BYTES CONNECTIONS MILLISECONDS RUN   90 % gets and 10 % sets; prints requests, seconds, p50, p99, p99.9, misses
//     load hits PORT KEYS BYTES REQUESTS RUN                  gets, and a set after each miss; prints gets, hits
//     load stops PORT KEYS BYTES CONNECTIONS PID COUNT RUN    the mix, while one worker after another is stopped; a line for each stop
//
// Keys are drawn by Zipf 0.99. A connection sends its next requests once it has all answers: one request, and with `stops` 16 at a time.
// Two threads make the load, each with half of the connections. Latencies are in microseconds.
#include <algorithm>
#include <atomic>
#include <chrono>
#include <cmath>
#include <cstdint>
#include <cstdio>
#include <cstdlib>
#include <cstring>
#include <filesystem>
#include <fstream>
#include <memory>
#include <stdexcept>
#include <string>
#include <string_view>
#include <thread>
#include <vector>

#include <arpa/inet.h>
#include <netinet/in.h>
#include <netinet/tcp.h>
#include <sys/epoll.h>
#include <sys/ptrace.h>
#include <sys/socket.h>
#include <sys/wait.h>
#include <unistd.h>

using std::chrono::milliseconds;

constexpr unsigned LOADERS = 2, SETS = 10; // threads; sets of 100 requests

static std::uint64_t now() {
    return static_cast<std::uint64_t>(std::chrono::steady_clock::now().time_since_epoch() / std::chrono::nanoseconds(1));
}

static std::uint64_t mixed(std::uint64_t x) {
    x = (x ^ x >> 33) * 0xff51afd7ed558ccdu;
    x = (x ^ x >> 33) * 0xc4ceb9fe1a85ec53u;
    return x ^ x >> 33;
}

class random_numbers {
public:
    explicit random_numbers(std::uint64_t stream) : state(mixed(stream + 1) | 1) {}
    double fraction() { // from 0 to below 1
        state ^= state << 13, state ^= state >> 7, state ^= state << 17;
        return static_cast<double>(state >> 11) * 0x1p-53;
    }

private:
    std::uint64_t state;
};

// Ranks from 0 by Zipf's law, as Gray et al. 1994 draw them.
class zipf {
public:
    explicit zipf(std::uint64_t ranks) : count(static_cast<double>(ranks)) {
        for (std::uint64_t i = 1; i <= ranks; i++) sum += 1 / std::pow(static_cast<double>(i), THETA);
        eta = (1 - std::pow(2 / count, 1 - THETA)) / (1 - (1 + std::pow(0.5, THETA)) / sum);
    }
    std::uint64_t draw(random_numbers &random) const {
        const double from = random.fraction(), part = from * sum;
        if (part < 1) return 0;
        if (part < 1 + std::pow(0.5, THETA)) return 1;
        return static_cast<std::uint64_t>(count * std::pow(eta * from - eta + 1, 1 / (1 - THETA)));
    }

private:
    static constexpr double THETA = 0.99;
    double count, sum = 0, eta;
};

static std::string key_of(std::uint64_t number) {
    char text[32];
    std::snprintf(text, sizeof text, "key-%016llx", static_cast<unsigned long long>(mixed(number)));
    return text;
}

// A connection, with requests that are under way and what has come of their answers.
class client {
public:
    explicit client(int port) : socket(::socket(AF_INET, SOCK_STREAM, 0)) {
        sockaddr_in at{};
        at.sin_family = AF_INET, at.sin_port = htons(static_cast<std::uint16_t>(port)), at.sin_addr.s_addr = htonl(INADDR_LOOPBACK);
        const int yes = 1;
        setsockopt(socket, IPPROTO_TCP, TCP_NODELAY, &yes, sizeof yes);
        if (socket < 0 || connect(socket, reinterpret_cast<sockaddr *>(&at), sizeof at) < 0) throw std::runtime_error("no server at that port");
    }
    client(const client &) = delete;
    client &operator=(const client &) = delete;
    ~client() { ::close(socket); }

    void get(const std::string &key) {
        text += "get " + key + "\r\n";
        awaited++;
    }
    void set(const std::string &key, std::string_view value) {
        text += "set " + key + " 0 0 " + std::to_string(value.size()) + "\r\n";
        text.append(value).append("\r\n");
        awaited++;
    }
    void send() {
        missed.clear();
        for (std::size_t done = 0; done < text.size();) {
            const ssize_t count = ::send(socket, text.data() + done, text.size() - done, MSG_NOSIGNAL);
            if (count < 0) throw std::runtime_error("the server takes no requests");
            done += static_cast<std::size_t>(count);
        }
        text.clear();
    }
    // Takes what has come: true once all is answered.
    bool receive() {
        char part[65536];
        const ssize_t count = recv(socket, part, sizeof part, 0);
        if (count <= 0) throw std::runtime_error("the server ended a connection");
        came.append(part, static_cast<std::size_t>(count));
        while (missed.size() < awaited && take_answer()) continue;
        if (missed.size() < awaited) return false;
        awaited = 0;
        return true;
    }
    void finish() {
        send();
        while (!receive()) continue;
    }

    const int socket;
    std::uint64_t began = 0;
    std::size_t awaited = 0;  // answers of the requests that are made and not all answered
    std::vector<bool> missed; // those that came: whether it is a get that found nothing

private:
    bool take_answer() {
        std::size_t end = came.find("\r\n");
        if (end == came.npos) return false;
        const std::string_view line(came.data(), end);
        if (line.substr(0, 6) == "VALUE ") {
            end += 2 + std::strtoull(came.c_str() + line.rfind(' '), nullptr, 10) + 5; // the line, the value, and \r\nEND\r\n
            if (came.size() < end + 2) return false;
        } else if (line != "END" && line != "STORED") {
            throw std::runtime_error("the server answers " + std::string(line));
        }
        missed.push_back(line == "END");
        came.erase(0, end + 2);
        return true;
    }

    std::string text, came;
};

struct load {
    int port;
    std::uint64_t keys;
    std::string value;
    std::size_t connections = 0, depth = 1;
    std::uint64_t run = 0;
};

// What one thread of the load has measured.
struct measured {
    std::vector<float> latencies;
    std::uint64_t requests = 0, misses = 0;
};

// When each connection was answered last; written by the thread that has it.
using answer_times = std::vector<std::atomic<std::uint64_t>>;

static void mix(const load &wanted, unsigned thread, const std::atomic<bool> &is_over, answer_times &answered, const zipf &ranks, measured &into) {
    std::vector<std::unique_ptr<client>> clients;
    random_numbers random(wanted.run * LOADERS + thread);
    const int poll = epoll_create1(0);
    const auto ask = [&](client &each) {
        for (std::size_t i = 0; i < wanted.depth; i++) {
            const std::string key = key_of(ranks.draw(random));
            if (random.fraction() * 100 < SETS) each.set(key, wanted.value);
            else each.get(key);
        }
        each.began = now();
        each.send();
    };
    for (std::size_t i = thread; i < wanted.connections; i += LOADERS) {
        clients.push_back(std::make_unique<client>(wanted.port));
        epoll_event event{};
        event.events = EPOLLIN, event.data.u64 = i;
        epoll_ctl(poll, EPOLL_CTL_ADD, clients.back()->socket, &event);
        ask(*clients.back());
    }
    epoll_event events[64];
    while (!is_over) {
        const int count = epoll_wait(poll, events, 64, 10);
        for (int i = 0; i < count; i++) {
            client &each = *clients[events[i].data.u64 / LOADERS];
            if (!each.receive()) continue;
            const std::uint64_t at = now();
            answered[events[i].data.u64].store(at, std::memory_order_relaxed);
            into.latencies.push_back(static_cast<float>(at - each.began) / 1000);
            into.requests += wanted.depth;
            into.misses += static_cast<std::uint64_t>(std::count(each.missed.begin(), each.missed.end(), true));
            ask(each);
        }
    }
    close(poll);
}

// Does this, or ends the program with the reason.
template <class Work>
static void or_end(const Work &work) {
    try {
        work();
    } catch (const std::exception &why) {
        std::fprintf(stderr, "load: %s\n", why.what());
        std::_Exit(1);
    }
}

// Runs the load on its threads while `work` runs.
template <class Work>
static measured beside(const load &wanted, answer_times &answered, const Work &work) {
    const zipf ranks(wanted.keys);
    std::atomic<bool> is_over{false};
    std::vector<measured> of(LOADERS);
    std::vector<std::thread> threads;
    for (unsigned i = 0; i < LOADERS; i++) threads.emplace_back([&, i] { or_end([&] { mix(wanted, i, is_over, answered, ranks, of[i]); }); });
    work();
    is_over = true;
    for (std::thread &each : threads) each.join();
    for (std::size_t i = 1; i < LOADERS; i++) {
        of[0].latencies.insert(of[0].latencies.end(), of[i].latencies.begin(), of[i].latencies.end());
        of[0].requests += of[i].requests, of[0].misses += of[i].misses;
    }
    return of[0];
}

static void print_mix(const load &wanted, milliseconds time) {
    answer_times answered(wanted.connections);
    std::uint64_t begun = 0, ended = 0;
    measured all = beside(wanted, answered, [&] {
        begun = now();
        std::this_thread::sleep_for(time);
        ended = now();
    });
    std::sort(all.latencies.begin(), all.latencies.end());
    const auto part = [&](double which) { return all.latencies.at(static_cast<std::size_t>(static_cast<double>(all.latencies.size() - 1) * which)); };
    std::printf("%llu,%.4f,%.1f,%.1f,%.1f,%llu\n", static_cast<unsigned long long>(all.requests), static_cast<double>(ended - begun) / 1e9, part(0.5),
                part(0.99), part(0.999), static_cast<unsigned long long>(all.misses));
}

static void fill(const load &wanted) {
    client one(wanted.port);
    for (std::uint64_t i = 0; i < wanted.keys; i++) {
        one.set(key_of(i), wanted.value);
        if (i % 64 == 63) one.finish();
    }
    one.finish();
}

// Gets 32 keys at once, and then sets those that were missed. The first half of the requests warms the cache.
static void print_hits(const load &wanted, std::uint64_t requests) {
    constexpr std::uint64_t AT_ONCE = 32;
    client one(wanted.port);
    const zipf ranks(wanted.keys);
    random_numbers random(wanted.run);
    std::uint64_t gets = 0, hits = 0;
    for (std::uint64_t done = 0; done < requests; done += AT_ONCE) {
        std::string keys[AT_ONCE];
        for (std::string &each : keys) one.get(each = key_of(ranks.draw(random)));
        one.finish();
        const std::vector<bool> missed = one.missed;
        if (done >= requests / 2) gets += AT_ONCE, hits += static_cast<std::uint64_t>(std::count(missed.begin(), missed.end(), false));
        for (std::size_t i = 0; i < AT_ONCE; i++)
            if (missed[i]) one.set(keys[i], wanted.value);
        if (one.awaited > 0) one.finish();
    }
    std::printf("%llu,%llu\n", static_cast<unsigned long long>(gets), static_cast<unsigned long long>(hits));
}

// The threads of a server that serve: memcached's are named so, and of another program all but the first.
static std::vector<pid_t> workers_of(pid_t server) {
    std::vector<pid_t> named, others;
    for (const auto &each : std::filesystem::directory_iterator("/proc/" + std::to_string(server) + "/task")) {
        const pid_t thread = std::stoi(each.path().filename());
        std::string name;
        std::getline(std::ifstream(each.path() / "comm"), name);
        if (name == "mc-worker") named.push_back(thread);
        if (thread != server) others.push_back(thread);
    }
    return named.empty() ? others : named;
}

class stopped {
public:
    explicit stopped(pid_t which) : thread(which) {
        if (ptrace(PTRACE_SEIZE, thread, nullptr, nullptr) < 0 || ptrace(PTRACE_INTERRUPT, thread, nullptr, nullptr) < 0 || waitpid(thread, nullptr, __WALL) < 0)
            throw std::runtime_error("a thread can't be stopped: may this process trace the server?");
    }
    stopped(const stopped &) = delete;
    stopped &operator=(const stopped &) = delete;
    ~stopped() { ptrace(PTRACE_DETACH, thread, nullptr, nullptr); }

private:
    const pid_t thread;
};

// Stops worker after worker for 150 ms, and by turns none. A line has whether one was stopped, how many connections got no answer from 20 ms
// after the stop to its end, and how many there are.
static void print_stops(const load &wanted, pid_t server, unsigned count) {
    answer_times answered(wanted.connections);
    const std::vector<pid_t> workers = workers_of(server);
    random_numbers random(wanted.run + 1000);
    static_cast<void>(beside(wanted, answered, [&] {
        std::this_thread::sleep_for(milliseconds(300));
        for (unsigned i = 0; i < 2 * count; i++) {
            std::this_thread::sleep_for(std::chrono::microseconds(30000 + static_cast<int>(random.fraction() * 5000)));
            const bool stops = i % 2 == 0;
            std::unique_ptr<stopped> one;
            if (stops) one = std::make_unique<stopped>(workers[i / 2 % workers.size()]);
            std::this_thread::sleep_for(milliseconds(20));
            const std::uint64_t begun = now();
            std::this_thread::sleep_for(milliseconds(130));
            std::size_t silent = 0;
            for (const auto &each : answered) silent += each.load(std::memory_order_relaxed) < begun;
            one.reset();
            std::printf("%d,%zu,%zu\n", stops, silent, wanted.connections);
        }
    }));
}

int main(int count, char **words) {
    const std::string what = std::to_string(count - 2) + " " + (count > 1 ? words[1] : "");
    const auto number = [&](int i) { return i < count ? std::strtoull(words[i], nullptr, 10) : 0; };
    or_end([&] {
        load wanted{static_cast<int>(number(2)), number(3), std::string(number(4), 'x'), number(5), 1, number(count - 1)};
        if (what == "3 fill") return fill(wanted);
        if (what == "5 hits") return print_hits(wanted, number(5));
        if (what == "6 mix") return print_mix(wanted, milliseconds(number(6)));
        wanted.depth = 16;
        if (what == "7 stops") return print_stops(wanted, static_cast<pid_t>(number(6)), static_cast<unsigned>(number(7)));
        throw std::runtime_error("the first lines of load.cpp say what it takes");
    });
    return 0;
}

// The sockets and threads of the server, for Linux. The thread that calls `run` accepts connections and gives each to one of the workers,
// in turn. A worker waits by epoll for all of its connections, reads what has come, has it answered, and sends what the other end takes.
// It never waits for one of them: while a connection has no room for answers nothing more is read of it.
//
// All memory is taken before the first connection: the buffers of all connections, the stacks of the workers, and the cache.
#pragma once
#include "session.hpp"

#include <cerrno>
#include <csignal>
#include <memory>
#include <stdexcept>
#include <string>
#include <thread>

#include <netdb.h>
#include <netinet/in.h>
#include <netinet/tcp.h>
#include <poll.h>
#include <pthread.h>
#include <sys/epoll.h>
#include <sys/resource.h>
#include <sys/signalfd.h>
#include <sys/socket.h>
#include <unistd.h>

namespace memcache {

struct options {
    std::string address = "127.0.0.1";
    std::uint64_t port = 11211, megabytes = 64, connections = 1024, threads = 4, value_size = 1024, last_epoch = vbr::max_epoch;
};

// Why the server can't start, in a sentence.
struct fault : std::runtime_error {
    using std::runtime_error::runtime_error;
};

inline fault fault_of(const std::string &what) { return fault(what + ": " + std::strerror(errno)); }

// An open file, closed at the end.
class file {
public:
    explicit file(int opened = -1) noexcept : number(opened) {}
    file(file &&other) noexcept : number(std::exchange(other.number, -1)) {}
    file &operator=(file &&other) noexcept {
        std::swap(number, other.number);
        return *this;
    }
    ~file() {
        if (number >= 0) ::close(number);
    }
    operator int() const noexcept { return number; }

private:
    int number;
};

// A socket that listens there; of port 0 the system chooses one.
inline file listen_at(const std::string &address, const std::string &port) {
    addrinfo wanted{}, *found = nullptr;
    wanted.ai_flags = AI_PASSIVE, wanted.ai_socktype = SOCK_STREAM;
    const std::string where = address + " port " + port;
    if (const int failed = getaddrinfo(address.c_str(), port.c_str(), &wanted, &found)) throw fault(where + ": " + gai_strerror(failed));
    const std::unique_ptr<addrinfo, void (*)(addrinfo *)> kept(found, freeaddrinfo);
    file made(socket(found->ai_family, SOCK_STREAM | SOCK_NONBLOCK | SOCK_CLOEXEC, 0));
    const int yes = 1;
    if (made < 0 || setsockopt(made, SOL_SOCKET, SO_REUSEADDR, &yes, sizeof yes) < 0 || bind(made, found->ai_addr, found->ai_addrlen) < 0 ||
        listen(made, SOMAXCONN) < 0)
        throw fault_of(where);
    return made;
}

template <std::size_t N>
struct connection {
    session<N> talk;
    file socket;
    std::uint32_t waits_for = 0; // as epoll has it
    bool has_ended = false;      // the other end sends no more
    connection *next = nullptr;  // of those that are free
};

template <std::size_t N>
class server {
public:
    // What a thread takes: a stack with room for some values, and what is kept of it.
    static constexpr std::size_t stack_bytes = (256 << 10) + (18 * N + 4095) / 4096 * 4096, thread_bytes = stack_bytes + sizeof(counters) + 4096;

    server(const options &how, storage<N> &shared)
        : all(shared), listener(listen_at(how.address, std::to_string(how.port))), connections(new connection<N>[how.connections]) {
        for (std::size_t i = 0; i < how.connections; i++) connections[i].next = free.exchange(&connections[i]);
        sigset_t signals;
        sigemptyset(&signals), sigaddset(&signals, SIGINT), sigaddset(&signals, SIGTERM);
        pthread_sigmask(SIG_BLOCK, &signals, nullptr); // of the workers too
        ends = file(signalfd(-1, &signals, SFD_CLOEXEC));
        for (std::size_t i = 0; i < how.threads; i++) {
            polls.emplace_back(epoll_create1(EPOLL_CLOEXEC));
            if (!polls_for(EPOLL_CTL_ADD, polls.back(), ends, nullptr, EPOLLIN)) throw fault_of("epoll"); // a signal stays there, for all to see
        }
    }
    ~server() {
        kill(getpid(), SIGTERM); // for the workers that began, if one couldn't
        for (std::thread &each : workers) each.join();
    }

    std::string port() const {
        sockaddr_storage bound{};
        socklen_t size = sizeof bound;
        auto *const at = reinterpret_cast<sockaddr *>(&bound);
        char name[NI_MAXSERV];
        if (getsockname(listener, at, &size) < 0 || getnameinfo(at, size, nullptr, 0, name, sizeof name, NI_NUMERICSERV) != 0) throw fault_of("port");
        return name;
    }

    // Serves until SIGINT or SIGTERM.
    void run() {
        for (std::size_t i = 0; i < polls.size(); i++) workers.emplace_back([this, i] { work(i); });
        pollfd waits[] = {{listener, POLLIN, 0}, {ends, POLLIN, 0}};
        while (waits[1].revents == 0) {
            if (poll(waits, 2, -1) > 0 && waits[0].revents) accept_one();
        }
    }

private:
    static bool polls_for(int operation, int poll, int of, connection<N> *to, std::uint32_t events) {
        epoll_event event{};
        event.events = events, event.data.ptr = to;
        return epoll_ctl(poll, operation, of, &event) == 0;
    }

    void accept_one() {
        file accepted(accept4(listener, nullptr, nullptr, SOCK_NONBLOCK | SOCK_CLOEXEC));
        if (accepted < 0) {
            if (errno != EAGAIN && errno != ECONNABORTED) std::this_thread::sleep_for(std::chrono::milliseconds(10)); // the system lacks memory
            return;
        }
        connection<N> *const taken = take();
        if (!taken) {
            constexpr std::string_view FULL = "ERROR Too many open connections\r\n";
            static_cast<void>(send(accepted, FULL.data(), FULL.size(), MSG_NOSIGNAL));
            return;
        }
        const int yes = 1;
        setsockopt(accepted, IPPROTO_TCP, TCP_NODELAY, &yes, sizeof yes);
        taken->talk.begin();
        taken->has_ended = false, taken->waits_for = EPOLLIN;
        taken->socket = std::move(accepted);
        all.connections++;
        // from here on it is the worker's
        if (!polls_for(EPOLL_CTL_ADD, polls[all.connections_so_far++ % polls.size()], taken->socket, taken, EPOLLIN)) close(*taken);
    }

    // One that is free, or null. Nobody else takes any, so while it is the first its next one stays what it is.
    connection<N> *take() noexcept {
        connection<N> *first = free.load();
        while (first && !free.compare_exchange_weak(first, first->next)) continue;
        return first;
    }

    void close(connection<N> &which) noexcept {
        which.socket = file();
        all.connections--;
        which.next = free.load();
        while (!free.compare_exchange_weak(which.next, &which)) continue;
    }

    void work(std::size_t number) {
        caller<N> mine(all, number);
        std::array<epoll_event, 64> events;
        for (;;) {
            const int count = epoll_wait(polls[number], events.data(), events.size(), -1);
            mine.begin(); // and it goes back before the next wait, so that the cache may be renewed
            for (int i = 0; i < count; i++) {
                auto *const which = static_cast<connection<N> *>(events[static_cast<std::size_t>(i)].data.ptr);
                if (!which) return mine.end();
                if (!serve(mine, *which, polls[number])) close(*which);
            }
            mine.end();
        }
    }

    // Does what a connection is ready for; false if it is to be closed.
    static bool serve(caller<N> &by, connection<N> &which, int poll) {
        session<N> &talk = which.talk;
        if ((which.waits_for & EPOLLIN) && !reads(which)) return false;
        stop why;
        do {
            why = talk.go_on(by);
            if (!sends(which)) return false;
        } while (why == stop::room && talk.has_room());
        const bool is_over = why == stop::end || (which.has_ended && why == stop::input);
        if (talk.out.bytes().empty() && is_over) return false;
        const bool takes_more = why == stop::input && !which.has_ended;
        const std::uint32_t waits_for = (talk.out.bytes().empty() ? 0u : EPOLLOUT) | (takes_more ? EPOLLIN : 0u);
        return waits_for == which.waits_for || polls_for(EPOLL_CTL_MOD, poll, which.socket, &which, which.waits_for = waits_for);
    }

    static bool reads(connection<N> &which) {
        auto &in = which.talk.in;
        const ssize_t count = recv(which.socket, in.free_part(), in.room(), 0);
        if (count < 0) return errno == EAGAIN || errno == EINTR;
        which.has_ended = count == 0;
        in.wrote(static_cast<std::size_t>(count));
        return true;
    }

    // Sends what the other end takes now.
    static bool sends(connection<N> &which) {
        auto &out = which.talk.out;
        while (!out.bytes().empty()) {
            const ssize_t count = send(which.socket, out.bytes().data(), out.bytes().size(), MSG_NOSIGNAL);
            if (count < 0) return errno == EAGAIN || errno == EINTR;
            out.drop(static_cast<std::size_t>(count));
        }
        return true;
    }

    storage<N> &all;
    file listener, ends;
    const std::unique_ptr<connection<N>[]> connections;
    std::vector<file> polls;
    std::vector<std::thread> workers;
    std::atomic<connection<N> *> free{nullptr}; // the first of those that are free, which name the next
};

} // namespace memcache

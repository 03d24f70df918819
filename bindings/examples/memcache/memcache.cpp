// A cache server that speaks memcached's text protocol, in fixed memory. Something to begin from; README.md says what it has.
//
//     memcache [-l ADDRESS] [-p PORT] [-m MEGABYTES] [-c CONNECTIONS] [-t THREADS] [-I BYTES]
//
// storage.hpp has the cache, session.hpp the protocol, server.hpp sockets and threads.
#include "server.hpp"

#include <cstdio>
#include <cstdlib>

namespace memcache {

constexpr const char *USAGE =
    "memcache: a cache server with memcached's text protocol, in fixed memory\n"
    "  -l ADDRESS      where it listens: 127.0.0.1\n"
    "  -p PORT         11211; 0 is any that is free\n"
    "  -m MEGABYTES    all memory that it takes: 64\n"
    "  -c CONNECTIONS  the most at one time: 1024\n"
    "  -t THREADS      which serve them: 4\n"
    "  -I BYTES        the most that a value has, rounded up to 128, 1024, 8192 or 65535: 1024\n"
    "  -e EPOCH        the last epoch, after which the cache is renewed; for tests\n";

static options options_of(int count, char **words) {
    options how;
    for (int each; (each = getopt(count, words, "l:p:m:c:t:I:e:h")) != -1;) {
        const auto number = [each](std::uint64_t least, std::uint64_t most) {
            std::uint64_t is = 0;
            if (number_of(std::string_view(optarg), is) && is >= least && is <= most) return is;
            throw fault(std::string{'-', static_cast<char>(each)} + " is a number from " + std::to_string(least) + " to " + std::to_string(most) +
                        ", not " + optarg);
        };
        switch (each) {
        case 'l': how.address = optarg; break;
        case 'p': how.port = number(0, 65535); break;
        case 'm': how.megabytes = number(1, 1 << 20); break;
        case 'c': how.connections = number(1, 1 << 20); break;
        case 't': how.threads = number(1, 256); break;
        case 'I': how.value_size = number(1, 65535); break;
        case 'e': how.last_epoch = number(8, vbr::max_epoch); break;
        case 'h': std::fputs(USAGE, stdout), std::exit(0);
        default: throw fault("-h lists the options");
        }
    }
    if (optind < count) throw fault(std::string("no option: ") + words[optind]);
    return how;
}

// As many files as it needs may be open.
static void allow_files(const options &how) {
    const rlim_t wanted = how.connections + how.threads + 16;
    rlimit limit{};
    if (getrlimit(RLIMIT_NOFILE, &limit) < 0) throw fault_of("open files");
    if (limit.rlim_cur >= wanted) return;
    limit.rlim_cur = wanted, limit.rlim_max = std::max(limit.rlim_max, wanted);
    if (setrlimit(RLIMIT_NOFILE, &limit) < 0) throw fault("-c " + std::to_string(how.connections) + " takes more open files than there may be");
}

static void allow_stacks(std::size_t bytes) {
    pthread_attr_t stacks;
    if (pthread_attr_init(&stacks) != 0 || pthread_attr_setstacksize(&stacks, bytes) != 0 || pthread_setattr_default_np(&stacks) != 0)
        throw fault("the threads have no stacks");
    pthread_attr_destroy(&stacks);
}

template <std::size_t N>
static auto open_cache(const options &how) {
    using cache = vbr::cache<key, stored_value<N>>;
    constexpr std::size_t LIBRARIES = 512 << 10; // of C and C++
    const std::size_t bytes = how.megabytes << 20;
    const std::size_t beside = how.connections * sizeof(connection<N>) + how.threads * server<N>::thread_bytes + LIBRARIES;
    const std::string taken = "-m " + std::to_string(how.megabytes) + ": connections and threads take " + std::to_string(beside) + " bytes";
    if (bytes <= beside) throw fault(taken + ", so there is no memory for a cache");
    typename cache::options opens;
    opens.last_epoch = how.last_epoch;
    auto opened = cache::open_bytes(bytes - beside, how.threads, opens);
    if (!opened.has_value()) throw fault(taken + ", and of the cache: " + vbr::to_string(opened));
    return std::move(*opened);
}

template <std::size_t N>
static void serve(const options &how) {
    allow_files(how);
    allow_stacks(server<N>::stack_bytes);
    storage<N> all{open_cache<N>(how), how.megabytes << 20, how.connections};
    server<N> serves(how, all);
    std::printf("memcache: %s port %s, for %u entries of up to %zu bytes in %zu megabytes, and %zu connections\n", how.address.c_str(),
                serves.port().c_str(), all.cache.capacity(), N, how.megabytes, how.connections);
    std::fflush(stdout);
    serves.run();
}

// By the most that a value may have.
constexpr std::pair<std::size_t, void (*)(const options &)> servers[] = {
    {128, serve<128>}, {1024, serve<1024>}, {8192, serve<8192>}, {65535, serve<65535>}};

} // namespace memcache

int main(int count, char **words) {
    using namespace memcache;
    try {
        const options how = options_of(count, words);
        std::find_if(std::begin(servers), std::end(servers), [&](const auto &each) { return each.first >= how.value_size; })->second(how);
        return 0;
    } catch (const std::bad_alloc &) {
        std::fprintf(stderr, "memcache: there is no memory\n");
    } catch (const std::exception &why) {
        std::fprintf(stderr, "memcache: %s\n", why.what());
    }
    return 1;
}

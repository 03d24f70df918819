// The comparison of sets, of maps or of caches: compare [OPTIONS], of which docs/BENCHMARKS.md tells. Checks each peer, and then
// prints a table in CSV.
#include "cache.hpp"
#include "single.hpp"
#include "walk.hpp"

#include <array>
#include <iterator>
#include <sys/wait.h>

namespace {

using Count = unsigned long long;

// Look-ups, inserts and removes of 100 calls, and replacements where there are any; of caches how keys come.
std::string mix_of(const Workload &w) {
    if (w.entries) return "zipf" + std::to_string(0.01 * w.skew).substr(0, 4) + (w.scans ? "+scans" : "");
    return std::to_string(w.has) + "/" + std::to_string(w.insert) + "/" + std::to_string(w.remove) +
           (w.replace ? "/" + std::to_string(w.replace) : "");
}

enum class Kind { sets, maps, caches };

struct Options {
    Kind kind = Kind::sets;
    bool only_checks = false;
    bool only_hits = false; // of caches
    uint64_t repeats = 5, again = 3, milliseconds = 200;
    uint64_t operations = 0; // of each thread; 0: as many as fill the milliseconds
    const char *log = nullptr;
    uint64_t fill = 1000000; // keys; 0: no fill
    uint64_t walk = 1000000; // keys; 0: no walks
    std::vector<uint64_t> ranges{100, 10000, 100000, 1000000};
    std::vector<uint64_t> entries{4000, 100000}; // of caches
    std::vector<std::string> peers, mixes; // these alone; all where none is named

    static bool has(const std::vector<std::string> &names, const std::string &name) {
        return names.empty() || std::find(names.begin(), names.end(), name) != names.end();
    }
    bool wants(const Peer &peer) const { return has(peers, peer.name); }
    bool wants(const Workload &workload) const { return has(mixes, mix_of(workload)); }
};

// What is measured of one peer, and the runs that count.
struct Cell {
    const Peer *peer;
    Workload workload;
    std::vector<Run> runs;
    uint64_t again = 0; // how often a disturbed run was made once more
    double spent = 0;   // seconds that all runs took, with all that goes before and after the measured calls
    const Single *single = nullptr; // of calls of one kind
    const Walk *walk = nullptr;     // over all keys

    bool is_slow() const { return spent > 20; }
    std::string workload_name() const {
        const Workload &w = workload;
        if (walk) return "walk=" + std::to_string(w.range) + walk->by;
        if (w.entries) return "entries=" + std::to_string(w.entries) + " mix=" + mix_of(w);
        if (w.is_fill()) return "fill=" + std::to_string(w.range);
        if (single) return "range=" + std::to_string(w.range) + " calls=" + single->calls;
        return "range=" + std::to_string(w.range) + " mix=" + mix_of(w);
    }
    uint64_t possible(uint64_t operations) const {
        if (walk) return Walk::possible(operations, workload.range);
        return single ? single->possible(operations, workload.range) : operations;
    }
    std::string name() const { return peer->name + ", " + workload_name() + ", threads=" + std::to_string(workload.threads); }

    // The fastest that wasn't disturbed, if there is one.
    const Run &best() const {
        return *std::min_element(runs.begin(), runs.end(), [](const Run &a, const Run &b) {
            bool a_great = a.disturbance.is_great(), b_great = b.disturbance.is_great();
            return a_great != b_great ? b_great : a.seconds < b.seconds;
        });
    }
    double median_seconds() const {
        std::vector<double> seconds;
        for (const Run &run : runs) seconds.push_back(run.seconds);
        std::sort(seconds.begin(), seconds.end());
        return seconds[seconds.size() / 2];
    }
    uint64_t disturbed() const {
        return std::count_if(runs.begin(), runs.end(), [](const Run &run) { return run.disturbance.is_great(); });
    }
};

// What a function gives in a process of its own, so that no peer finds what another has left in memory.
template <class T, class F> T in_a_process(const std::string &name, F f) {
    int ends[2];
    if (pipe(ends)) std::perror("compare: pipe"), std::exit(1);
    std::fflush(stdout);
    pid_t child = fork();
    if (child < 0) std::perror("compare: fork"), std::exit(1);
    if (child == 0) {
        alarm(600);
        T value = f();
        _exit(write(ends[1], &value, sizeof value) == sizeof value ? 0 : 1);
    }
    close(ends[1]);
    T value;
    bool whole = read(ends[0], &value, sizeof value) == sizeof value;
    close(ends[0]);
    int status;
    if (waitpid(child, &status, 0) != child || !whole || status != 0)
        std::fprintf(stderr, "compare: %s ended with no answer\n", name.c_str()), std::exit(1);
    return value;
}

void check(const Peer &peer, const Workload &workload) {
    uint64_t wrong = in_a_process<uint64_t>(peer.name, [&] { return peer.wrong_keys(workload); });
    if (wrong == 0) return;
    std::fprintf(stderr, "compare: %s: the answers do not balance for %llu of %llu keys\n", peer.name.c_str(),
                 static_cast<Count>(wrong), static_cast<Count>(workload.range));
    std::exit(1);
}

// Four threads on some more keys than there may be entries.
void check_cache(const Peer &peer) {
    for (uint64_t entries : {64u, 1000u}) {
        Workload workload{4 * entries, 0, 0, 0, 4, 800000, 1};
        workload.entries = entries;
        const uint64_t wrong = in_a_process<uint64_t>(peer.name, [&] { return peer.wrong_keys(workload); });
        if (wrong == 0) continue;
        std::fprintf(stderr, "compare: %s: %llu values were torn, stale or of another key, or entries too many or too few\n",
                     peer.name.c_str(), static_cast<Count>(wrong));
        std::exit(1);
    }
    std::fprintf(stderr, "compare: %s: no value of four threads is torn, stale or of another key, and no entry too many\n",
                 peer.name.c_str());
}

// Four threads on few keys: their answers are to balance, and what is replaced is to stay.
void check(const Peer &peer) {
    for (uint64_t range : {8u, 64u, 1000u}) {
        check(peer, {range, 20, 40, 40, 4, 800000, 1});
        if (peer.replaces_by) check(peer, {range, 50, 0, 0, 4, 800000, 1, 50});
    }
    std::fprintf(stderr, "compare: %s: the answers of four threads balance\n", peer.name.c_str());
}

// The twin is to answer as the library does, and what isn't among the peers' calls is to balance as theirs.
void check_singles() {
    if (!in_a_process<bool>("twin", twin_answers_as_the_library)) std::exit(1);
    std::fputs("compare: twin: answers random calls as the library does\n", stderr);
    std::stable_sort(singles().begin(), singles().end(), [](const Single &a, const Single &b) { return std::string(a.calls) < b.calls; });
    for (const Single &it : singles())
        if (it.peer.wrong_keys) check({it.peer.name + " by " + it.calls, nullptr, it.peer.wrong_keys});
}

// Each walk is to give the keys that were put in, each once; a run sees to that as it begins.
void check_walks(const Options &options) {
    for (const Walk &it : options.kind == Kind::maps ? map_walks() : walks()) {
        Workload workload{1000, 0, 0, 0, 1, 1000, 0};
        in_a_process<Run>(it.peer.name, [&] { return it.peer.measure(workload); });
    }
    std::fputs("compare: each walk gives the keys that were put in\n", stderr);
}

Run measured(Cell &cell, const Workload &workload) {
    auto start = std::chrono::steady_clock::now();
    Run run = in_a_process<Run>(cell.name(), [&] { return cell.peer->measure(workload); });
    if (workload.is_fill() && !workload.entries && run.yes != workload.operations)
        std::fprintf(stderr, "compare: %s: a fresh key was not inserted\n", cell.name().c_str()), std::exit(1);
    cell.spent += std::chrono::duration<double>(std::chrono::steady_clock::now() - start).count();
    return run;
}

// So many calls that a run takes about as long as it shall, by a short run that doesn't count.
uint64_t fitting_operations(Cell &cell, uint64_t milliseconds) {
    Workload trial = cell.workload;
    trial.operations = cell.possible(20000 * trial.threads);
    Run run = measured(cell, trial);
    double a_second = static_cast<double>(trial.operations) / (run.processor_seconds > 0 ? run.processor_seconds : run.seconds);
    double fitting = a_second * static_cast<double>(milliseconds) / 1000;
    uint64_t operations = std::max<uint64_t>(trial.threads, static_cast<uint64_t>(fitting)), unit = 1;
    while (operations / unit >= 100) unit *= 10;
    return cell.possible(operations / unit * unit);
}

// Those of one kind stand together, as their ratios are asked for.
void add_singles(std::vector<Cell> &cells, const Options &options) {
    for (uint64_t range : options.ranges)
        for (const Single &it : singles()) {
            if (!options.wants(it.peer)) continue;
            uint64_t operations = it.possible(options.operations, range);
            cells.push_back({&it.peer, {range, it.has, it.insert, it.remove, 1, operations, 0, it.replace}, {}, 0, 0, &it});
        }
}

// Walks, and the library's look-ups beside them.
void add_walks(std::vector<Cell> &cells, const Options &options) {
    if (options.walk == 0) return;
    uint64_t keys = Walk::possible(options.operations, options.walk);
    for (const Walk &it : options.kind == Kind::maps ? map_walks() : walks())
        if (options.wants(it.peer)) cells.push_back({&it.peer, {options.walk, 0, 0, 0, 1, keys, 0}, {}, 0, 0, nullptr, &it});
}

std::vector<Peer> &peers_of(const Options &options) {
    if (options.kind == Kind::caches) return cache_peers();
    return options.kind == Kind::maps ? map_peers() : peers();
}

const std::vector<Peer> &batches_of(const Options &options) { return options.kind == Kind::maps ? map_batches() : batches(); }

// So many calls in each cell as fill the milliseconds, unless their number is given.
void fit(std::vector<Cell> &cells, const Options &options) {
    if (options.operations) return;
    std::fputs("compare: finding how many calls a run shall have\n", stderr);
    for (Cell &cell : cells) cell.workload.operations = fitting_operations(cell, options.milliseconds);
}

// For each number of entries, each way in which keys come and each number of threads one; keys are ten times as many as entries.
std::vector<Workload> workloads_of_caches(const Options &options, const std::vector<bool> &with_scans, const std::vector<unsigned> &by_threads,
                                          uint64_t operations) {
    std::vector<Workload> all;
    for (uint64_t entries : options.entries)
        for (unsigned skew : {99u, 70u})
            for (bool scans : with_scans)
                for (unsigned threads : by_threads) all.push_back({10 * entries, 0, 0, 0, threads, operations * threads, 0, 0, entries, skew, scans});
    all.erase(std::remove_if(all.begin(), all.end(), [&](const Workload &each) { return !options.wants(each); }), all.end());
    return all;
}

std::vector<Cell> cells_of_caches(const Options &options) {
    std::vector<Cell> cells;
    for (const Workload &workload : workloads_of_caches(options, {false}, {1, 2, 4}, options.operations)) {
        Draws::of(workload);
        for (const Peer &peer : cache_peers())
            if (options.wants(peer)) cells.push_back({&peer, workload, {}});
    }
    fit(cells, options);
    return cells;
}

// A row of a table: of how many calls in a hundred the key was there.
void print_hits_of(const Workload &workload, const Options &options) {
    Draws::of(workload);
    std::printf("| %llu | %s |", static_cast<Count>(workload.entries), mix_of(workload).c_str());
    for (const Peer &peer : cache_peers()) {
        if (!options.wants(peer)) continue;
        const Run run = in_a_process<Run>(peer.name, [&] { return peer.measure(workload); });
        std::printf(" %.2f |", 100.0 * static_cast<double>(run.yes) / static_cast<double>(workload.operations));
    }
    std::puts("");
}

// Hits of a million calls of one thread: the same each time.
void print_hits(const Options &options) {
    std::string head = "| Entries | Keys come by |", line = "|---|---|";
    for (const Peer &peer : cache_peers())
        if (options.wants(peer)) head += " " + peer.name + " |", line += "---|";
    std::printf("%s\n%s\n", head.c_str(), line.c_str());
    for (const Workload &workload : workloads_of_caches(options, {false, true}, {1}, 1000000)) print_hits_of(workload, options);
}

std::vector<Cell> cells(const Options &options) {
    if (options.kind == Kind::caches) return cells_of_caches(options);
    // look-ups, inserts, removes, and of maps alone replacements
    std::vector<std::array<unsigned, 4>> mixes{{100, 0, 0, 0}, {90, 5, 5, 0}, {50, 25, 25, 0}, {0, 50, 50, 0}};
    if (options.kind == Kind::maps) mixes.push_back({90, 0, 0, 10});
    std::vector<Cell> cells;
    for (uint64_t range : options.ranges)
        for (auto [has, insert, remove, replace] : mixes)
            for (unsigned threads : {1u, 2u, 4u}) {
                Workload workload{range, has, insert, remove, threads, options.operations * threads, 0, replace};
                if (!options.wants(workload)) continue;
                for (const Peer &peer : peers_of(options))
                    if (options.wants(peer)) cells.push_back({&peer, workload, {}});
                for (const Peer &peer : batches_of(options))
                    if (has == 100 && options.wants(peer)) cells.push_back({&peer, workload, {}});
            }
    if (options.kind == Kind::maps) add_singles(cells, options);
    add_walks(cells, options);
    fit(cells, options);
    for (unsigned threads : {1u, 2u, 4u})
        for (const Peer &peer : peers_of(options))
            if (options.fill && options.wants(peer)) cells.push_back({&peer, {options.fill, 0, 0, 0, threads, options.fill, 0}, {}});
    return cells;
}

// Each run that is made, one a line.
class Log {
    FILE *file;

public:
    explicit Log(const char *name) : file(name ? std::fopen(name, "w") : nullptr) {
        if (name && !file) std::perror(name), std::exit(1);
        if (!file) return;
        std::fputs("peer,workload,threads,operations,run,try,seconds,open_seconds,steal,others,disturbed\n", file);
        std::fflush(file);
    }
    ~Log() {
        if (file) std::fclose(file);
    }
    void write(const Cell &cell, uint64_t at_try, const Run &run) {
        if (!file) return;
        const Workload &w = cell.workload;
        std::fprintf(file, "%s,%s,%u,%llu,%llu,%llu,%.6f,%.6f,%.3f,%.3f,%d\n", cell.peer->name.c_str(),
                     cell.workload_name().c_str(), w.threads, static_cast<Count>(w.operations), static_cast<Count>(w.run + 1),
                     static_cast<Count>(at_try + 1), run.seconds, run.open_seconds, run.disturbance.steal,
                     run.disturbance.others, run.disturbance.is_great());
        std::fflush(file); // so that one may look at it meanwhile
    }
};

// One run more of a cell; whether it is still disturbed. Of all tries the least disturbed one counts.
bool try_cell(Cell &cell, uint64_t at_try, Log &log) {
    Run run = measured(cell, cell.workload);
    log.write(cell, at_try, run);
    if (at_try == 0) cell.runs.push_back(run);
    else if (run.disturbance.all() < cell.runs.back().disturbance.all()) cell.runs.back() = run;
    cell.again += at_try > 0;
    return cell.runs.back().disturbance.is_great();
}

// A run of each cell, and then those that were disturbed once more, some times over. Slow cells have one run.
void measure_round(std::vector<Cell> &cells, uint64_t round, const Options &options, Log &log) {
    std::vector<Cell *> due;
    for (Cell &cell : cells) {
        cell.workload.run = round;
        if (round == 0 || !cell.is_slow()) due.push_back(&cell);
    }
    for (uint64_t at_try = 0; at_try <= options.again && !due.empty(); at_try++) {
        std::vector<Cell *> disturbed;
        for (Cell *cell : due)
            if (try_cell(*cell, at_try, log)) disturbed.push_back(cell);
        std::fprintf(stderr, "compare: run %llu of %llu, try %llu: %zu made, %zu of them disturbed\n",
                     static_cast<Count>(round + 1), static_cast<Count>(options.repeats), static_cast<Count>(at_try + 1),
                     due.size(), disturbed.size());
        due.clear();
        std::copy_if(disturbed.begin(), disturbed.end(), std::back_inserter(due), [](Cell *cell) { return !cell->is_slow(); });
    }
}

// What the peers replace a value by, as a first line of a table of maps.
void print_replacements() {
    std::string line = "# replacements: ";
    for (const Peer &peer : map_peers()) line += (&peer == &map_peers()[0] ? "" : "; ") + peer.name + " by " + peer.replaces_by;
    std::puts(line.c_str());
}

// Of caches also the processor time of the best run, and how many calls in a hundred of it were hits.
void print(const std::vector<Cell> &cells) {
    const bool are_caches = !cells.empty() && cells.front().workload.entries;
    std::printf("peer,workload,threads,operations,best_seconds,median_seconds,open_seconds,steal,others,runs,disturbed,again%s\n",
                are_caches ? ",processor_seconds,hits" : "");
    for (const Cell &cell : cells) {
        const Run &best = cell.best();
        std::printf("%s,%s,%u,%llu,%.6f,%.6f,%.6f,%.3f,%.3f,%zu,%llu,%llu", cell.peer->name.c_str(), cell.workload_name().c_str(),
                    cell.workload.threads, static_cast<Count>(cell.workload.operations), best.seconds, cell.median_seconds(),
                    best.open_seconds, best.disturbance.steal, best.disturbance.others, cell.runs.size(),
                    static_cast<Count>(cell.disturbed()), static_cast<Count>(cell.again));
        const double calls = static_cast<double>(cell.workload.operations);
        if (are_caches) std::printf(",%.6f,%.2f", best.processor_seconds, 100 * static_cast<double>(best.yes) / calls);
        std::puts("");
    }
}

// Tells on standard error what is not to be trusted.
void warn(const std::vector<Cell> &cells) {
    for (const Cell &cell : cells) {
        if (cell.is_slow())
            std::fprintf(stderr, "compare: slow: %s: its runs took %.0f s, so it has %zu\n", cell.name().c_str(), cell.spent,
                         cell.runs.size());
        if (cell.best().disturbance.is_great())
            std::fprintf(stderr, "compare: disturbed in all runs: %s: other work had %.0f %% of the processors in the best\n",
                         cell.name().c_str(), 100 * cell.best().disturbance.all());
        if (cell.best().seconds < 0.1)
            std::fprintf(stderr, "compare: short: %s: the best run took %.1f ms, too few for the count of other work\n",
                         cell.name().c_str(), 1000 * cell.best().seconds);
        if (cell.median_seconds() > 1.2 * cell.best().seconds)
            std::fprintf(stderr, "compare: uneven: %s: the best run took %.1f ms, the median one %.1f ms\n", cell.name().c_str(),
                         1000 * cell.best().seconds, 1000 * cell.median_seconds());
    }
}

[[noreturn]] void usage() {
    std::fputs("usage: compare [--sets | --maps | --caches] [--short] [--peers NAME,NAME] [--mixes MIX,MIX] [--ranges N,N] [--fill N]\n"
               "               [--walk N] [--repeats N] [--again N] [--milliseconds N] [--operations N] [--log FILE] [--check]\n"
               "               [--hits]\n", stderr);
    std::exit(2);
}

uint64_t number(const char *word, uint64_t least) {
    char *end;
    uint64_t number = std::strtoull(word, &end, 10);
    if (end == word || *end || number < least) usage();
    return number;
}

// The words between commas.
std::vector<std::string> names(const std::string &words) {
    std::vector<std::string> names;
    for (size_t begin = 0, end = 0; end != std::string::npos; begin = end + 1) {
        end = words.find(',', begin);
        names.push_back(words.substr(begin, end - begin));
    }
    return names;
}

std::vector<uint64_t> numbers(const std::string &words) {
    std::vector<uint64_t> numbers;
    for (const std::string &word : names(words)) numbers.push_back(number(word.c_str(), 1));
    return numbers;
}

Options read(int count, char **words) {
    Options options;
    std::string kind;
    for (int i = 1; i < count; i++) {
        std::string word = words[i];
        auto value = [&] { return i + 1 < count ? words[++i] : (usage(), nullptr); };
        if (word == "--sets" || word == "--maps" || word == "--caches") {
            if (!kind.empty() && kind != word) usage();
            kind = word;
            options.kind = word == "--maps" ? Kind::maps : word == "--caches" ? Kind::caches : Kind::sets;
        } else if (word == "--check") options.only_checks = true;
        else if (word == "--hits") options.only_hits = true;
        else if (word == "--short") options.ranges = {100, 10000}, options.entries = {4000}, options.fill = 0, options.walk = 10000, options.repeats = 3;
        else if (word == "--peers") options.peers = names(value());
        else if (word == "--mixes") options.mixes = names(value());
        else if (word == "--ranges") options.ranges = options.entries = numbers(value());
        else if (word == "--fill") options.fill = number(value(), 0);
        else if (word == "--walk") options.walk = number(value(), 0);
        else if (word == "--repeats") options.repeats = number(value(), 1);
        else if (word == "--again") options.again = number(value(), 0);
        else if (word == "--milliseconds") options.milliseconds = number(value(), 1);
        else if (word == "--operations") options.operations = number(value(), 1);
        else if (word == "--log") options.log = value();
        else usage();
    }
    return options;
}

// Each peer that is wanted, and what stands beside.
void check_all(const Options &options) {
    const bool are_caches = options.kind == Kind::caches;
    for (const Peer &peer : peers_of(options))
        if (options.wants(peer)) are_caches ? check_cache(peer) : check(peer);
    if (are_caches) return;
    for (const Peer &peer : batches_of(options))
        if (options.wants(peer)) check(peer, {1000, 100, 0, 0, 4, 800000, 1});
    if (options.kind == Kind::maps) check_singles();
    check_walks(options);
}

}  // namespace

int main(int count, char **words) {
    Options options = read(count, words);
    std::vector<Peer> &all = peers_of(options);
    std::sort(all.begin(), all.end(), [](const Peer &a, const Peer &b) { return a.name < b.name; });
    check_all(options);
    if (options.only_checks) return 0;
    if (options.only_hits) return print_hits(options), 0;
    Log log(options.log);
    std::vector<Cell> table = cells(options);
    // the rounds are the outermost loop: what disturbs the machine for a while disturbs all peers alike
    for (uint64_t round = 0; round < options.repeats; round++) measure_round(table, round, options, log);
    if (options.kind == Kind::maps) print_replacements();
    print(table);
    warn(table);
    return 0;
}

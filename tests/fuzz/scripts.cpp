// Random command lines and scripts for the program vbr_run, against what docs/FAULTS.md says of its answers.
//
//     scripts PROGRAM INPUTS [SEED [FILE]]   tries so many random inputs; FILE gets at most 100 that show all that was seen
//     scripts PROGRAM --replay FILE          tries the inputs of a file, one a line
//
// An input is what standard input and output are, the words of the command line, and a script, of a set or with --map of a
// map. The script is read here once more, so that the first faulty line, the number of replies and the totals are known;
// with one worker so is each reply, by a plain map. Of several workers each value that was given was stored with its key by
// an insert that was answered yes, and the entries in the end are what inserts and removes leave.
#include "fuzz.hpp"
#include "vbr.h"

#include <algorithm>
#include <cinttypes>
#include <fcntl.h>
#include <map>
#include <optional>
#include <set>
#include <spawn.h>
#include <sstream>
#include <sys/mman.h>
#include <sys/stat.h>
#include <sys/wait.h>

using fuzz::fail;
using Words = std::vector<std::string>;

struct Input {
    char devices = 's';  // s: a script; d: standard input is a directory; c: it is closed; f: standard output is full
    Words words;
    std::string script;
};

static std::string line_of(const Input &input) {
    std::string line(1, input.devices);
    for (const std::string &word : input.words) line += ' ' + fuzz::escaped(word, true);
    return line + '|' + fuzz::escaped(input.script, false);
}

static Input input_of(const std::string &line) {
    size_t bar = line.find('|');
    Input input;
    input.devices = line[0];
    std::istringstream words(line.substr(1, bar - 1));
    for (std::string word; words >> word;) input.words.push_back(fuzz::unescaped(word));
    input.script = fuzz::unescaped(line.substr(bar + 1));
    return input;
}

// ---- the program ---------------------------------------------------------------------------------------------

struct Answer {
    int status = 0;
    std::string out, errors;
};

class Program {
public:
    explicit Program(const char *path) : path(path) {
        for (int &file : files)
            if ((file = memfd_create("fuzz", MFD_CLOEXEC)) < 0) std::perror("fuzz: memfd_create"), std::exit(2);
    }

    Answer run(const Input &input) {
        empty_files();
        if (write(files[0], input.script.data(), input.script.size()) != static_cast<ssize_t>(input.script.size()))
            std::perror("fuzz: write"), std::exit(2);
        lseek(files[0], 0, SEEK_SET);
        posix_spawn_file_actions_t actions;
        posix_spawn_file_actions_init(&actions);
        if (input.devices == 'c') posix_spawn_file_actions_addclose(&actions, 0);
        else if (input.devices == 'd') posix_spawn_file_actions_addopen(&actions, 0, "/", O_RDONLY, 0);
        else posix_spawn_file_actions_adddup2(&actions, files[0], 0);
        if (input.devices == 'f') posix_spawn_file_actions_addopen(&actions, 1, "/dev/full", O_WRONLY, 0);
        else posix_spawn_file_actions_adddup2(&actions, files[1], 1);
        posix_spawn_file_actions_adddup2(&actions, files[2], 2);
        std::vector<char *> words{const_cast<char *>("vbr_run")};
        for (const std::string &word : input.words) words.push_back(const_cast<char *>(word.c_str()));
        words.push_back(nullptr);
        char *environment[] = {nullptr};
        pid_t child;
        alarm(600); // one that takes longer hangs
        if (int error = posix_spawn(&child, path, &actions, nullptr, words.data(), environment))
            std::fprintf(stderr, "fuzz: %s: %s\n", path, std::strerror(error)), std::exit(2);
        posix_spawn_file_actions_destroy(&actions);
        Answer answer;
        if (waitpid(child, &answer.status, 0) != child) std::perror("fuzz: waitpid"), std::exit(2);
        answer.out = contents(files[1]);
        answer.errors = contents(files[2]);
        return answer;
    }

private:
    const char *path;
    int files[3];

    void empty_files() {
        for (int file : files)
            if (ftruncate(file, 0) || lseek(file, 0, SEEK_SET)) std::perror("fuzz: ftruncate"), std::exit(2);
    }

    static std::string contents(int file) {
        off_t size = lseek(file, 0, SEEK_END);
        std::string text(static_cast<size_t>(size), '\0');
        if (pread(file, text.data(), text.size(), 0) != size) std::perror("fuzz: pread"), std::exit(2);
        return text;
    }
};

// ---- what the command line means -------------------------------------------------------------------------------

struct Settings {
    std::map<std::string, uint64_t> numbers{
        {"workers", 1}, {"slots", 1024}, {"buckets", 16}, {"last-epoch", VBR_MAX_EPOCH}, {"budget", 100000}};
    bool epoch = false, map = false;
    // 'v': these settings; 'f': a fault in the options; 'o': any of the program's answers, as for help and odd words
    char kind = 'v';

    uint64_t operator[](const char *name) const { return numbers.at(name); }
    int shape_fault() const {
        auto within = [&](const char *name, uint64_t most) { return numbers.at(name) >= 1 && numbers.at(name) <= most; };
        uint64_t greatest = vbr_max_epoch(static_cast<uint32_t>(numbers.at("slots")));
        bool has_room = numbers.at("last-epoch") == VBR_MAX_EPOCH || within("last-epoch", greatest);
        return !within("slots", VBR_MAX_SLOTS) ? 1 : !within("buckets", 65536) ? 2 : !has_room ? 3 : 0;
    }
};

static bool is_number(const std::string &word, size_t most) {
    return !word.empty() && word.size() <= most && std::all_of(word.begin(), word.end(), [](char c) { return c >= '0' && c <= '9'; });
}

// The number below 2^64 that digits spell.
static std::optional<uint64_t> number_of(const std::string &word) {
    if (!is_number(word, SIZE_MAX)) return std::nullopt;
    uint64_t value = 0;
    for (char c : word) {
        uint64_t digit = static_cast<uint64_t>(c - '0');
        if (value > (UINT64_MAX - digit) / 10) return std::nullopt;
        value = value * 10 + digit;
    }
    return value;
}

static Settings settings_of(const Words &words) {
    Settings settings;
    std::set<std::string> given;
    for (size_t i = 0; i < words.size(); i++) {
        std::string name = words[i].substr(0, words[i].find('='));
        bool joined = name.size() < words[i].size();
        if ((name == "--epoch" || name == "--map") && !joined && given.insert(name).second) {
            (name == "--map" ? settings.map : settings.epoch) = true;
            continue;
        }
        if (name.compare(0, 2, "--") || !settings.numbers.count(name.substr(2)) || !given.insert(name).second ||
            (!joined && i + 1 == words.size()))
            return settings.kind = 'o', settings;
        std::string value = joined ? words[i].substr(name.size() + 1) : words[++i];
        if (!is_number(value, 30)) return settings.kind = 'o', settings;
        std::optional<uint64_t> number = number_of(value);
        uint64_t least = name == "--workers", most = name == "--workers" ? 16 : name == "--last-epoch" ? UINT64_MAX : UINT32_MAX;
        if (!number || *number < least || *number > most) settings.kind = 'f';
        else settings.numbers[name.substr(2)] = *number;
    }
    return settings;
}

// ---- what the script means ---------------------------------------------------------------------------------------

struct Line {
    uint64_t worker;
    std::string operation;
    uint64_t key, value;
};

struct Script {
    std::vector<Line> lines;
    int fault = 0;  // 1 words, 2 worker, 3 operation, 4 key, 6 value
    uint64_t fault_line = 0, inserts = 0;
};

// Whether a script of a map, or of a set, has an operation of this name, in a line with a value or without.
static bool is_operation(const std::string &name, bool map, bool has_value) {
    return name == "insert" || (!has_value && (name == "remove" || name == "has" || (map && name == "get")));
}

static Script script_of(const std::string &text, const Settings &settings) {
    Script script;
    size_t begin = 0;
    for (uint64_t number = 1;; number++) {
        size_t end = std::min(text.find('\n', begin), text.size());
        std::string line = text.substr(begin, end - begin);
        if (!line.empty() && line.back() == '\r') line.pop_back();
        Words words;
        std::string word;
        for (char c : line + ' ') {
            if (c != ' ' && c != '\t') word += c;
            else if (!word.empty()) words.push_back(word), word.clear();
        }
        auto faulty = [&](int fault) { return script.fault = fault, script.fault_line = number, script; };
        bool has_value = settings.map && words.size() == 4;
        if (words.size() == 3 || has_value) {
            std::optional<uint64_t> worker = number_of(words[0]), key = number_of(words[2]);
            std::optional<uint64_t> value = number_of(has_value ? words[3] : "0");
            if (!worker || *worker >= settings["workers"]) return faulty(2);
            if (!is_operation(words[1], settings.map, has_value)) return faulty(3);
            if (!key) return faulty(4);
            if (!value) return faulty(6);
            script.lines.push_back({*worker, words[1], *key, *value});
            script.inserts += words[1] == "insert";
        } else if (!words.empty() && !(words.size() == 1 && (words[0] == "sync" || words[0] == "renew"))) {
            return faulty(1);
        }
        if (end == text.size()) return script;
        begin = end + 1;
    }
}

// ---- the answers -------------------------------------------------------------------------------------------------

static bool starts(const std::string &text, const char *with) { return text.rfind(with, 0) == 0; }

static bool is_one_line(const std::string &text) {
    return !text.empty() && text.find('\n') == text.size() - 1;
}

// What is so of every answer: the status and standard error are among those of docs/FAULTS.md.
static void check_any(const Input &input, const Answer &answer, int status) {
    const std::string &e = answer.errors;
    if (status == 0 && !e.empty()) fail("a line on standard error, with status 0");
    if (status != 0 && !answer.out.empty()) fail("something on standard output, after a fault");
    bool is_file = is_one_line(e) && starts(e, "vbr_run: file fault: ");
    bool documented = status == 0   ? true
                      : status == 2 ? starts(e, "error: ") || (is_one_line(e) && starts(e, "vbr_run: shape fault "))
                      : status == 3 ? is_one_line(e) && starts(e, "vbr_run: script fault ")
                      : status == 4 ? e == "vbr_run: read fault\n" || e == "vbr_run: write fault\n" || is_file
                                    : status == 5 && (e == "vbr_run: no memory\n" || e == "vbr_run: no worker\n");
    if (!documented) fail("a status or a standard error that docs/FAULTS.md doesn't have");
    if (status == 4 && input.devices == 's' && !is_file) fail("a device fault, and no device failed");
    if (status == 5) fail("no memory, or no worker");
}

struct Totals {
    uint64_t inserted = 0, removed = 0, found = 0, refused = 0;
};

// A reply to a line, and the value that stands behind its yes; 0 in a set.
struct Reply {
    std::string word;
    uint64_t value = 0;
    bool is_yes() const { return word == "yes"; }
};

static Reply reply_of(const Settings &settings, const Line &line, const std::string &text) {
    bool gives_value = settings.map && (line.operation == "remove" || line.operation == "get");
    if (!gives_value || !starts(text, "yes")) return {text};
    std::optional<uint64_t> value = number_of(text.substr(std::min<size_t>(text.size(), 4)));
    if (!value || text != "yes " + std::to_string(*value)) fail("a yes without the value");
    return {"yes", *value};
}

using Entry = std::pair<uint64_t, uint64_t>;

// What the replies so far tell: of each entry how often it was inserted more than removed, which entries inserts have stored
// and look-ups have given, and what is there where one worker is alone.
struct Told {
    std::map<Entry, int64_t> balance;
    std::set<Entry> stored, given;
    std::map<uint64_t, uint64_t> plain;

    void take(const Line &line, const Reply &reply) {
        if (!reply.is_yes()) return;
        if (line.operation == "insert") {
            balance[{line.key, line.value}]++;
            stored.insert({line.key, line.value});
            plain[line.key] = line.value;
        } else if (line.operation == "remove") {
            balance[{line.key, reply.value}]--;
            plain.erase(line.key);
        } else if (line.operation == "get") {
            given.insert({line.key, reply.value});
        }
    }

    // The entries that are left, ascending by key.
    std::vector<Entry> left() const {
        std::vector<Entry> left;
        for (auto [entry, sum] : balance) {
            if (sum != 0 && sum != 1) fail("the replies do not balance");
            if (sum && !left.empty() && left.back().first == entry.first) fail("a key is left with two values");
            if (sum) left.push_back(entry);
        }
        for (const Entry &entry : given)
            if (!stored.count(entry)) fail("a value that was not stored with its key");
        return left;
    }
};

// Whether a plain map, or a plain set, would give this answer.
static bool is_plain(const Line &line, const Reply &reply, const std::map<uint64_t, uint64_t> &plain, bool gives_value) {
    auto found = plain.find(line.key);
    if (line.operation == "insert") return reply.is_yes() == (found == plain.end());
    return reply.is_yes() == (found != plain.end()) && (!reply.is_yes() || !gives_value || reply.value == found->second);
}

// One reply to a line, where so many nodes at most are in a bucket.
static void check_reply(const Settings &settings, const Script &script, const Line &line, const Reply &reply, const Told &told) {
    bool alone = settings["workers"] == 1;
    if (reply.is_yes() || reply.word == "no") {
        if (alone && !is_plain(line, reply, told.plain, settings.map && line.operation != "has")) fail("a wrong reply");
    } else if (reply.word == "tired") {
        if (settings["budget"] >= (alone ? 18 * script.inserts + 82 + settings["slots"] / 64 : 90000)) fail("tired, with a large budget");
    } else if (reply.word == "full") {
        if (line.operation != "insert") fail("full, and no insert");
        if (settings["slots"] >= script.inserts + 64 * settings["workers"]) fail("full, and there are slots");
    } else if (reply.word == "spent") {
        if (line.operation != "insert") fail("spent, and no insert");
        if (settings["last-epoch"] > script.inserts) fail("spent, and there are epochs");
    } else {
        fail("a reply that docs/FAULTS.md doesn't have");
    }
}

static void check_totals(const Settings &settings, const Totals &totals, const Told &told, const Words &lines, size_t index) {
    auto is = [&](const char *name, uint64_t number) {
        if (index >= lines.size() || lines[index++] != std::string(name) + ' ' + std::to_string(number)) fail("the totals");
    };
    is("inserted", totals.inserted), is("removed", totals.removed), is("found", totals.found), is("refused", totals.refused);
    std::string listed = settings.map ? "entries" : "keys";
    for (auto [key, value] : told.left()) listed += ' ' + std::to_string(key) + (settings.map ? '=' + std::to_string(value) : "");
    if (index >= lines.size() || lines[index++] != listed) fail("the keys, or the entries");
    if (settings.epoch) {
        if (index >= lines.size() || !starts(lines[index], "epoch ")) fail("the epoch");
        std::optional<uint64_t> epoch = number_of(lines[index++].substr(6));
        if (!epoch || *epoch < 1 || *epoch > settings["last-epoch"]) fail("the epoch");
    }
    if (index != lines.size()) fail("more lines than operations and totals");
}

static uint64_t check_played(const Settings &settings, const Script &script, const std::string &out) {
    Words lines;
    std::istringstream in(out);
    for (std::string line; std::getline(in, line);) lines.push_back(line);
    if (out.empty() || out.back() != '\n' || lines.size() < script.lines.size()) fail("fewer lines than operations");
    Totals totals;
    Told told;
    uint64_t kinds = 0;
    for (size_t i = 0; i < script.lines.size(); i++) {
        const Line &line = script.lines[i];
        Reply reply = reply_of(settings, line, lines[i]);
        check_reply(settings, script, line, reply, told);
        told.take(line, reply);
        totals.refused += !reply.is_yes() && reply.word != "no";
        if (reply.is_yes()) (line.operation == "insert" ? totals.inserted : line.operation == "remove" ? totals.removed : totals.found)++;
        kinds |= uint64_t{1} << (line.operation[0] % 4 * 5 + lines[i][0] % 5);
    }
    check_totals(settings, totals, told, lines, script.lines.size());
    return kinds;
}

// Tries an input; the features of what it showed.
static std::vector<uint64_t> play(Program &program, const Input &input) {
    fuzz::current = line_of(input);
    Answer answer = program.run(input);
    if (!WIFEXITED(answer.status)) fail("the program was ended by a signal");
    int status = WEXITSTATUS(answer.status);
    bool full = input.devices == 'f' && status == 4 && answer.errors == "vbr_run: write fault\n";
    check_any(input, answer, status);
    Settings settings = settings_of(input.words);
    Script script = script_of(input.script, settings);
    uint64_t shown = 0;
    int shape = settings.shape_fault();
    auto expect = [&](int wanted, const std::string &line) {
        if (status != wanted || answer.errors != line) fail(("wanted: " + line).c_str());
    };
    if (settings.kind == 'f') {
        if (status != 2 || !starts(answer.errors, "error: ")) fail("a fault in the options isn't reported");
    } else if (settings.kind == 'o') {
        shown = answer.out.size() % 7;
    } else if (shape) {
        expect(2, "vbr_run: shape fault " + std::to_string(shape) + '\n');
    } else if (input.devices == 'c' || input.devices == 'd') {
        expect(4, "vbr_run: read fault\n");
    } else if (script.fault) {
        expect(3, "vbr_run: script fault " + std::to_string(script.fault) + " at line " + std::to_string(script.fault_line) + '\n');
    } else if (!full) {
        if (status != 0 || input.devices == 'f') fail("a script that could be played wasn't");
        shown = check_played(settings, script, answer.out);
    }
    uint64_t map = settings.map, base = static_cast<uint64_t>(status) << 56 | static_cast<uint64_t>(settings.kind) << 48 | static_cast<uint64_t>(input.devices) << 40;
    uint64_t told = answer.errors.size() > 6 ? static_cast<unsigned char>(answer.errors[answer.errors.size() / 3]) : 0;
    return {base, base | 1u << 20 | static_cast<uint64_t>(script.fault) << 8 | static_cast<uint64_t>(shape) << 4 | map << 1 | settings.epoch,
            base | 2u << 20 | told, base ^ (3ull << 32) ^ (shown << 8) ^ map, base | 4u << 20 | settings["workers"]};
}

// ---- inputs ------------------------------------------------------------------------------------------------------

static std::string number_word(fuzz::Random &random) {
    static const Words edges{"0",          "1",          "2",           "7",          "63",        "64",
                             "65",         "16",         "17",          "00012",      "65536",     "65537",
                             "4294967295", "4294967296", std::to_string(VBR_MAX_EPOCH), std::to_string(VBR_MAX_EPOCH + 1), std::to_string(vbr_max_epoch(1024)), std::to_string(vbr_max_epoch(1024) + 1), "18446744073709551615", "18446744073709551616",
                             "-1",         "+1",         "1e3",         "0x10",       "",          "9999999999999999999999999"};
    return random.once_in(3) ? random.one_of(edges) : std::to_string(random.below(random.once_in(2) ? 12 : 300));
}

static Words random_words(fuzz::Random &random) {
    static const Words odd{"--help", "-h", "--version", "-V", "--", "-", "--worker", "--epoch=1", "--slots=", "x", "\xff\xfe", "--epoch", "--map", "--map=1"};
    static const char *const names[] = {"--workers", "--slots", "--buckets", "--last-epoch", "--budget"};
    Words words;
    for (const char *name : names) {
        if (!random.once_in(3)) continue;
        std::string small = std::to_string(1 + random.below(name[2] == 'w' ? 4 : name[2] == 'b' && name[4] == 'd' ? 200 : 20));
        std::string value = random.once_in(6) ? number_word(random) : small;
        if (random.once_in(2)) words.push_back(std::string(name) + '=' + value);
        else words.push_back(name), words.push_back(value);
    }
    if (random.once_in(4)) words.push_back("--epoch");
    if (random.once_in(2)) words.push_back("--map");
    if (random.once_in(12)) words.insert(words.begin() + static_cast<long>(random.below(words.size() + 1)), random.one_of(odd));
    return words;
}

// A line that asks for an operation on one of so many keys. A get and a value are for maps, and now and then for sets.
static std::string random_call(fuzz::Random &random, uint64_t workers, uint64_t keys, bool map) {
    static const Words of_sets{"insert", "insert", "remove", "has"}, of_maps{"insert", "insert", "remove", "has", "get", "get"};
    bool as_map = map != random.once_in(300);
    const std::string &operation = random.one_of(as_map ? of_maps : of_sets);
    std::string line = std::to_string(random.below(workers)) + (random.once_in(10) ? "\t " : " ") + operation + ' ' +
                       (random.once_in(60) ? number_word(random) : std::to_string(random.below(keys)));
    bool has_value = as_map && (operation == "insert" ? !random.once_in(4) : random.once_in(200));
    return has_value ? line + ' ' + (random.once_in(60) ? number_word(random) : std::to_string(random.below(50))) : line;
}

static std::string random_script(fuzz::Random &random, uint64_t workers, bool map) {
    static const Words faults{"insert 5", "0 put 5", "sync now", "0 has x", "99 has 5", "1 2 3 4", "Sync", "0 insert -5", "has 0 5"};
    static const Words faults_of_maps{"0 get", "0 get 5 6", "0 insert 5 x", "0 insert 5 6 7", "0 insert 5 18446744073709551616", "0 remove x y"};
    std::string script;
    uint64_t keys = 1 + random.below(12), lines = random.below(random.once_in(20) ? 200 : 30);
    for (uint64_t i = 0; i < lines; i++) {
        if (random.once_in(10)) script += random.once_in(4) ? "renew" : "sync";
        else if (random.once_in(200)) script += random.one_of(map && random.once_in(2) ? faults_of_maps : faults);
        else if (!random.once_in(25)) script += random_call(random, workers, keys, map);
        script += random.once_in(20) ? "\r\n" : "\n";
    }
    if (random.once_in(8) && !script.empty()) script.pop_back();
    return script;
}

static void change(fuzz::Random &random, std::string &script, const std::string &other) {
    static const Words pieces{"sync\n", "insert", "\n", " ", "\t", "\r", std::string(1, '\0'), "18446744073709551616", "\xc3\xa9", "0 has 1\n"};
    for (uint64_t n = 1 + random.below(3); n > 0; n--) {
        size_t position = random.below(script.size() + 1), size = 1 + random.below(12);
        switch (random.below(5)) {
            case 0: if (position < script.size()) script[position] = static_cast<char>(random.below(256)); break;
            case 1: script.insert(position, random.one_of(pieces)); break;
            case 2: script.erase(position, size); break;
            case 3: script.insert(position, script.substr(random.below(script.size() + 1), size * 4)); break;
            default: script += other.substr(0, 200);
        }
    }
    script.resize(std::min<size_t>(script.size(), 1200));
}

static Input next_input(fuzz::Random &random, const std::vector<Input> &kept) {
    Input input;
    if (kept.empty() || random.once_in(2)) {
        input.words = random_words(random);
        Settings settings = settings_of(input.words);
        input.script = random_script(random, settings.kind == 'v' ? settings["workers"] : 2, settings.map);
    } else {
        input = random.one_of(kept);
        if (random.once_in(3)) input.words = random_words(random);
        change(random, input.script, random.one_of(kept).script);
    }
    if (random.once_in(40)) {
        input.script.clear();
        for (uint64_t size = random.below(200); size > 0; size--) input.script += static_cast<char>(random.below(256));
    }
    input.devices = random.once_in(50) ? "dcf"[random.below(3)] : 's';
    return input;
}

static int try_all(Program &program, uint64_t wanted, uint64_t seed, const char *file) {
    fuzz::Random random(seed);
    fuzz::Kept<Input> kept;
    fuzz::Progress progress{"scripts", wanted};
    for (uint64_t done = 0; done < wanted; done++) {
        Input input = next_input(random, kept.inputs);
        kept.offer(input, play(program, input));
        progress.tell(done, kept.inputs.size());
    }
    if (file) {
        std::ofstream out(file);
        for (const Input &input : kept.best(100)) out << line_of(input) << '\n';
    }
    std::printf("random scripts: passed, %" PRIu64 " inputs of seed %" PRIu64 ", %zu of them showed something new\n", wanted, seed,
                kept.inputs.size());
    return 0;
}

int main(int count, char **words) {
    fuzz::catch_crashes();
    if (count < 3 || count > 5) return std::fputs("usage: scripts PROGRAM INPUTS [SEED [FILE]] | --replay FILE\n", stderr), 2;
    Program program(words[1]);
    if (count == 4 && !std::strcmp(words[2], "--replay")) {
        Words lines = fuzz::lines_of(words[3]);
        for (const std::string &line : lines) play(program, input_of(line));
        std::printf("kept scripts: passed, %zu inputs\n", lines.size());
        return 0;
    }
    return try_all(program, std::strtoull(words[2], nullptr, 10), count > 3 ? std::strtoull(words[3], nullptr, 10) : 1,
                   count > 4 ? words[4] : nullptr);
}

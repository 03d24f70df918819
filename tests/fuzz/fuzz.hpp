// What the two fuzzers share: random numbers, kept inputs, and how a failure is reported.
#pragma once
#include <csignal>
#include <cstdint>
#include <cstdio>
#include <cstdlib>
#include <cstring>
#include <ctime>
#include <fstream>
#include <string>
#include <unistd.h>
#include <unordered_set>
#include <vector>

namespace fuzz {

// A xorshift64 generator: a seed gives the same inputs on every machine.
struct Random {
    uint64_t state;
    explicit Random(uint64_t seed) : state((seed + 1) * 0x9e3779b97f4a7c15u | 1) {}
    uint64_t next() {
        state ^= state << 13;
        state ^= state >> 7;
        state ^= state << 17;
        return state * 0x2545f4914f6cdd1du;
    }
    uint64_t below(uint64_t bound) { return (next() >> 11) % bound; }
    bool once_in(uint64_t n) { return below(n) == 0; }
    template <class T> const T &one_of(const std::vector<T> &from) { return from[below(from.size())]; }
};

// Bytes as one line of text: printable characters stand for themselves.
inline std::string escaped(const std::string &bytes, bool spaces_too) {
    static const char digits[] = "0123456789abcdef";
    std::string text;
    for (unsigned char c : bytes) {
        if (c == '\n') text += "\\n";
        else if (c == '\\' || c == '|' || c < ' ' || c > '~' || (c == ' ' && spaces_too))
            text += std::string("\\x") + digits[c >> 4] + digits[c & 15];
        else text += static_cast<char>(c);
    }
    return text;
}

inline std::string unescaped(const std::string &text) {
    std::string bytes;
    for (size_t i = 0; i < text.size(); i++) {
        if (text[i] != '\\') bytes += text[i];
        else if (text[++i] == 'n') bytes += '\n';
        else bytes += static_cast<char>(std::stoi(text.substr(i + 1, 2), nullptr, 16)), i += 2;
    }
    return bytes;
}

inline std::vector<std::string> lines_of(const char *file) {
    std::ifstream in(file);
    if (!in) std::fprintf(stderr, "fuzz: cannot read %s\n", file), std::exit(2);
    std::vector<std::string> lines;
    for (std::string line; std::getline(in, line);)
        if (!line.empty() && line[0] != '#') lines.push_back(line);
    return lines;
}

// The input that is being tried, as a line. A fault of the program under test ends the run with it.
inline std::string current;

[[noreturn]] inline void fail(const char *what) {
    std::fprintf(stderr, "FAILED: %s\nthe input: %s\n", what, current.c_str());
    std::fflush(stderr);
    std::_Exit(1);
}

inline void told_by_signal(int number) {
    auto tell = [](const char *text, size_t size) { if (write(2, text, size) < 0) _exit(1); };
    const char *what = number == SIGALRM ? "FAILED: no end in 60 seconds\nthe input: " : "FAILED: a crash\nthe input: ";
    tell(what, std::strlen(what));
    tell(current.data(), current.size());
    tell("\n", 1);
    _exit(1);
}

inline void catch_crashes() {
    for (int number : {SIGSEGV, SIGBUS, SIGILL, SIGFPE, SIGABRT, SIGALRM}) std::signal(number, told_by_signal);
}

// The inputs that showed something new: further ones are made of them.
template <class Input> struct Kept {
    std::vector<Input> inputs;
    std::vector<std::vector<uint64_t>> features;
    std::unordered_set<uint64_t> seen;

    // Keeps the input if one of its features is new.
    void offer(const Input &input, const std::vector<uint64_t> &shown) {
        bool is_new = false;
        for (uint64_t feature : shown) is_new |= seen.insert(feature).second;
        if (!is_new || inputs.size() >= 5000) return;
        inputs.push_back(input);
        features.push_back(shown);
    }

    // At most so many of them, of which each shows the most that those before it don't.
    std::vector<Input> best(size_t most) const {
        std::vector<Input> best;
        std::unordered_set<uint64_t> covered;
        auto gain = [&](const std::vector<uint64_t> &shown) {
            std::unordered_set<uint64_t> fresh;
            for (uint64_t feature : shown)
                if (!covered.count(feature)) fresh.insert(feature);
            return fresh.size();
        };
        while (best.size() < most) {
            size_t index = 0, gained = 0;
            for (size_t i = 0; i < inputs.size(); i++)
                if (size_t more = gain(features[i]); more > gained) index = i, gained = more;
            if (gained == 0) break;
            best.push_back(inputs[index]);
            covered.insert(features[index].begin(), features[index].end());
        }
        return best;
    }
};

inline double now() {
    timespec time;
    clock_gettime(CLOCK_MONOTONIC, &time);
    return static_cast<double>(time.tv_sec) + static_cast<double>(time.tv_nsec) / 1e9;
}

// Tells on standard error, every ten seconds, how far a run is.
struct Progress {
    const char *name;
    uint64_t wanted;
    double start = now(), told = start;
    void tell(uint64_t done, size_t kept) {
        if (done % 64 || now() - told < 10) return;
        told = now();
        std::fprintf(stderr, "%s: %llu of %llu inputs, %zu kept, %.0f inputs a second\n", name,
                     static_cast<unsigned long long>(done), static_cast<unsigned long long>(wanted), kept,
                     static_cast<double>(done) / (told - start));
    }
};

}  // namespace fuzz

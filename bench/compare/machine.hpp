// How busy the machine was, while a run went on, with anything else than it.
#pragma once
#include <algorithm>
#include <chrono>
#include <cstdio>
#include <cstdlib>
#include <ctime>
#include <unistd.h>

// Shares of the machine's processor time in a run, all processors together: what its host took away, and what other
// processes had.
struct Disturbance {
    double steal = 0, others = 0;

    double all() const { return steal + others; }
    // More than a twentieth: of 200 ms on four processors 40 ms.
    bool is_great() const { return all() > 0.05; }
};

// The seconds of all processors since the machine was started, as the kernel counts them, in hundredths.
struct ProcessorTime {
    double busy, steal;

    static ProcessorTime now() {
        unsigned long long user, nice, system, idle, iowait, irq, softirq, steal;
        FILE *file = std::fopen("/proc/stat", "r");
        if (!file || std::fscanf(file, "cpu %llu %llu %llu %llu %llu %llu %llu %llu", &user, &nice, &system, &idle, &iowait,
                                 &irq, &softirq, &steal) != 8)
            std::perror("compare: /proc/stat"), std::_Exit(1);
        std::fclose(file);
        double second = static_cast<double>(sysconf(_SC_CLK_TCK));
        return {static_cast<double>(user + nice + system + irq + softirq) / second, static_cast<double>(steal) / second};
    }
};

// What a clock of the system says.
inline double seconds_of(clockid_t clock) {
    timespec time;
    clock_gettime(clock, &time);
    return static_cast<double>(time.tv_sec) + static_cast<double>(time.tv_nsec) * 1e-9;
}

// Begins to look as it is made.
class Watch {
    using Clock = std::chrono::steady_clock;
    ProcessorTime began = ProcessorTime::now();
    double own = seconds_of(CLOCK_PROCESS_CPUTIME_ID);
    Clock::time_point start = Clock::now();

public:
    Disturbance seen() const {
        ProcessorTime now = ProcessorTime::now();
        double of_others = now.busy - began.busy - (seconds_of(CLOCK_PROCESS_CPUTIME_ID) - own);
        std::chrono::duration<double> time = Clock::now() - start;
        double all = time.count() * static_cast<double>(sysconf(_SC_NPROCESSORS_ONLN));
        return {(now.steal - began.steal) / all, std::max(0.0, of_others) / all};
    }
};

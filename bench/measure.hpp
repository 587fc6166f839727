// Times of calls in one run, whose answers must hold, and the table that they are printed in.
#pragma once
#include <algorithm>
#include <chrono>
#include <cstdio>
#include <cstdlib>
#include <string>
#include <vector>

// Ends the run where something does not hold.
inline void must(bool holds, const char *what) {
    if (!holds) {
        std::fprintf(stderr, "%s: refused, or not the same answer\n", what);
        std::exit(1);
    }
}

// The seconds of one call: the least of some runs.
template <class Call> double seconds(int runs, Call call) {
    double least = 1e99;
    for (int i = 0; i < runs; i++) {
        const auto start = std::chrono::steady_clock::now();
        call();
        const std::chrono::duration<double> time = std::chrono::steady_clock::now() - start;
        if (time.count() < least) least = time.count();
    }
    return least;
}

// The seconds of two calls, each the least of some runs; the two are run in turn, so that what else the machine does meets both.
struct Both {
    double one, other;
};

template <class One, class Other> Both in_turn(int runs, One one, Other other) {
    Both least{1e99, 1e99};
    for (int i = 0; i < runs; i++) {
        least.one = std::min(least.one, seconds(1, one));
        least.other = std::min(least.other, seconds(1, other));
    }
    return least;
}

// A line of the table: what was measured, the engine's time, and the time of another.
struct Line {
    size_t words;
    std::string what, other;
    double engine, peer;
};

class Table {
  public:
    void add(size_t words, const std::string &what, double engine, const std::string &other, double peer) {
        lines.push_back({words, what, other, engine, peer});
        std::printf("| %zu | %s | %.6g | %s | %.6g | %.2f |\n", words, what.c_str(), engine * 1e3, other.c_str(), peer * 1e3, engine / peer);
        std::fflush(stdout);
    }
    const std::vector<Line> &all() const { return lines; }

  private:
    std::vector<Line> lines;
};

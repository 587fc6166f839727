// Forms of the scan of a block for the occurrence of a byte that has j others before it, in one run: pieces of 64 bytes and then of some width while
// at least as many others are left, and then so many tests a turn, each beside the scan by pieces that reads past the occurrence. Times are
// nanoseconds of a scan, the least of some runs; the blocks have the first bytes of words drawn by Zipf's law, and the byte is drawn from them, of
// all bytes or of those that are at most one in a hundred.
//
//   clang++ -O3 -std=c++17 bench/scans.cpp -o target/scans && target/scans
#include "measure.hpp"
#include "text.hpp"
#include "twin.hpp"

// How often a byte stands in so many bytes.
template <int width> inline uint32_t count(const uint8_t *p, uint8_t byte) {
    uint8_t found = 0;
    for (int i = 0; i < width; i++) found += p[i] == byte;
    return found;
}

// The next occurrence of a byte, which there is, by so many tests a turn.
template <int tests> inline const uint8_t *next_of(const uint8_t *p, const uint8_t *end, uint8_t byte) {
    for (; end - p >= tests; p += tests) {
#pragma clang loop unroll(full)
        for (int i = 0; i < tests; i++)
            if (p[i] == byte) return p + i;
    }
    while (*p != byte) p++;
    return p;
}

// The occurrence of a byte that has j others before it, which there is; without pieces where the width is 0.
template <int width, int tests> __attribute__((noinline)) const uint8_t *form(const uint8_t *p, const uint8_t *end, uint8_t byte, uint32_t j) {
    if (width > 0) {
        for (; j >= 64 && end - p >= 64; p += 64) j -= count<64>(p, byte);
        for (; j >= width && end - p >= width; p += width) j -= count<width>(p, byte);
    }
    for (p = next_of<tests>(p, end, byte); j > 0; j--) p = next_of<tests>(p + 1, end, byte);
    return p;
}

// The scan by pieces, which is not inlined either.
__attribute__((noinline)) const uint8_t *by_pieces(const uint8_t *p, const uint8_t *end, uint8_t byte, uint32_t j) {
    return twin::scan_by_pieces(p, end, byte, j);
}

struct Asked {
    const uint8_t *block, *at;
    uint32_t j;
};

// The nanoseconds of a scan, of which each must find its occurrence.
template <class Scan> static double time_of(const std::vector<Asked> &asked, size_t block, Scan scan) {
    size_t wrong = 0;
    const double time = seconds(15, [&] {
        for (const Asked &q : asked) wrong += scan(q.block, q.block + block, *q.at, q.j) != q.at;
    });
    must(wrong == 0, "scan");
    return time / asked.size() * 1e9;
}

int main() {
    const std::vector<uint32_t> text = zipf_text(1000000, 100000, 20261115);
    std::vector<uint8_t> bytes;
    std::vector<uint32_t> often(256);
    for (uint32_t rank : text) often[bytes.emplace_back(twin::code(rank).bytes[0])]++;
    std::printf("| bytes | B | by pieces, reads past the hit | 1 test | 16, 8 tests | 8, 4 tests | 8, 8 tests | 8, 16 tests | 4, 8 tests |\n");
    std::printf("|---|---|---|---|---|---|---|---|---|\n");
    for (const bool rare : {false, true})
        for (const size_t block : {256, 512, 848, 1024}) {
            std::mt19937_64 random(7);
            std::vector<Asked> asked;
            while (asked.size() < 20000) {
                const size_t at = random() % (bytes.size() / block * block);
                if (rare && often[bytes[at]] > bytes.size() / 100) continue;
                const uint8_t *start = &bytes[at / block * block];
                asked.push_back({start, &bytes[at], uint32_t(std::count(start, (const uint8_t *)&bytes[at], bytes[at]))});
            }
            std::printf("| %s | %zu | %.0f | %.0f | %.0f | %.0f | %.0f | %.0f | %.0f |\n", rare ? "rare" : "all", block,
                        time_of(asked, block, by_pieces), time_of(asked, block, form<0, 1>), time_of(asked, block, form<16, 8>),
                        time_of(asked, block, form<8, 4>), time_of(asked, block, form<8, 8>), time_of(asked, block, form<8, 16>),
                        time_of(asked, block, form<4, 8>));
        }
}

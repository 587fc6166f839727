// Building by two archives, in turn and in one run: how the second's time stands to the first's. Each archive is made a shared object, since
// both have the same names.
//
//   gcc -shared -o target/before.so -Wl,--whole-archive BEFORE.a -Wl,--no-whole-archive
//   gcc -shared -o target/after.so -Wl,--whole-archive target/staticlib/libconcordance.a -Wl,--no-whole-archive
//   g++ -O2 -std=c++17 -Iinclude bench/builds.cpp -o target/builds && target/builds target/before.so target/after.so
#include "archives.hpp"
#include "concordance.h"
#include "text.hpp"

#include <algorithm>
#include <chrono>
#include <vector>

int main(int count, char **files) {
    if (count != 3) return 1;
    decltype(&concordance_build) build[2];
    for (int i = 0; i < 2; i++) find(build[i], dlopen(files[i + 1], RTLD_NOW), "concordance_build");
    const concordance_shape shape = {100000, 1024, 8};
    for (size_t words : {1000000, 4000000, 16000000}) {
        const std::vector<uint32_t> text = zipf_text(words, shape.vocabulary, 20261115);
        const size_t most = 3 * words;
        std::vector<uint32_t> lengths(782), superblocks(256 * (most / 8192 + 1));
        std::vector<uint8_t> bytes(most);
        std::vector<uint16_t> blocks(256 * (most / 1024 + 1));
        std::vector<double> times[2];
        for (int run = 0; run < 21; run++) {
            for (int i = 0; i < 2; i++) {
                const auto begin = std::chrono::steady_clock::now();
                const concordance_answer answer =
                    build[i](shape, text.data(), words, lengths.data(), lengths.size(), bytes.data(), bytes.size(), superblocks.data(),
                             superblocks.size(), blocks.data(), blocks.size());
                times[i].push_back(std::chrono::duration<double>(std::chrono::steady_clock::now() - begin).count());
                if (answer.refusal != 0) return 1;
            }
        }
        for (auto &each : times) std::sort(each.begin(), each.end());
        std::printf("%zu words: %.2f ms and %.2f ms; second to first: least %.2f, median %.2f\n", words, times[0][0] * 1e3, times[1][0] * 1e3,
                    times[1][0] / times[0][0], times[1][10] / times[0][10]);
    }
}

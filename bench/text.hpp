// The texts that are measured: words drawn by Zipf's law, seeded.
#pragma once
#include <cmath>
#include <cstdint>
#include <random>
#include <string>
#include <vector>

// n words over a vocabulary, rank r with a probability in proportion to 1 / (r + 2.7); rank 0 is the most frequent.
inline std::vector<uint32_t> zipf_text(size_t n, uint32_t vocabulary, uint64_t seed) {
    std::vector<double> sums(vocabulary);
    double sum = 0;
    for (uint32_t rank = 0; rank < vocabulary; rank++) sums[rank] = sum += 1.0 / (rank + 2.7);
    std::mt19937_64 random(seed);
    std::uniform_real_distribution<double> draw(0, sum);
    std::vector<uint32_t> text(n);
    for (uint32_t &word : text) word = std::min<size_t>(std::lower_bound(sums.begin(), sums.end(), draw(random)) - sums.begin(), vocabulary - 1);
    return text;
}

// A plain text of so many bytes, in sentences of words drawn by Zipf's law. A word has syllables of a consonant and a vowel, one if it is frequent and two
// if not, and one of four endings.
inline std::string sentences(size_t bytes, uint32_t vocabulary, uint64_t seed) {
    const char *endings[] = {"", "n", "rt", "ing"};
    std::string text;
    int place = 0;
    for (uint32_t rank : zipf_text(bytes / 2, vocabulary, seed)) {
        std::string word;
        for (uint32_t rest = rank / 4 + 1; rest > 0; rest /= 90) word += {"bcdfghjklmnprstvwz"[rest % 90 / 5], "aeiou"[rest % 5]};
        if (place % 10 == 0) word[0] -= 'a' - 'A';
        text += word + endings[rank % 4] + (++place % 10 == 0 ? ". " : " ");
    }
    text.resize(bytes);
    return text;
}

// The spelling of a rank: letters only, and shorter for more frequent words.
inline std::string spelling(uint32_t rank) {
    std::string word;
    for (rank += 26; rank > 0; rank /= 26) word += char('a' + rank % 26);
    return word;
}

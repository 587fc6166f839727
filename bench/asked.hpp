// What is asked of an index of the texts that are measured: a sheet of each kind, and pages.
#pragma once
#include <algorithm>
#include <cstdint>
#include <random>
#include <string>
#include <vector>

#include "../include/concordance.h"

// The lines that a page has room for, and a page of many.
constexpr size_t page_lines = 20, many_lines = 1000;

// A page of a phrase: what it is called, the place from which it is listed, and the lines that it has room for.
struct Page {
    std::string what;
    std::vector<uint32_t> phrase;
    size_t next, lines;
};

// What is asked: places, words by how often they are drawn, pairs of words and phrases that stand in the text; and pages.
struct Asked {
    std::vector<uint32_t> words;
    std::vector<concordance_question> kinds[6];
    std::vector<Page> pages;
};

// What a sheet of one kind and a page of a phrase are called.
inline std::string sheet_of(int kind, const Asked &asked) {
    return "sheet of kind " + std::to_string(kind) + ", " + std::to_string(asked.kinds[kind].size()) + " questions";
}

inline std::string page_of(size_t lines) { return "a page with room for " + std::to_string(lines) + " lines"; }

// The two words, not the same one twice and each of one byte, that stand side by side most often.
inline std::vector<uint32_t> frequent_phrase(const std::vector<uint32_t> &text) {
    std::vector<uint32_t> counts(128 * 128);
    for (size_t i = 1; i < text.size(); i++)
        if (text[i - 1] < 128 && text[i] < 128 && text[i - 1] != text[i]) counts[128 * text[i - 1] + text[i]]++;
    const uint32_t most = std::max_element(counts.begin(), counts.end()) - counts.begin();
    return {most / 128, most % 128};
}

// The place from which a phrase stands so many times, or 0 where it does not stand as often.
inline size_t last_places(const std::vector<uint32_t> &text, const std::vector<uint32_t> &phrase, size_t count) {
    for (size_t place = text.size() - phrase.size(); place > 0; place--)
        if (std::equal(phrase.begin(), phrase.end(), text.begin() + place) && --count == 0) return place;
    return 0;
}

// The most frequent word of two bytes.
static const std::vector<uint32_t> word_of_two_bytes = {128};

// The pages that are asked of a text, the first of a phrase of two words that stands in it.
inline std::vector<Page> pages(const std::vector<uint32_t> &text, const std::vector<uint32_t> &standing) {
    const std::vector<uint32_t> frequent = frequent_phrase(text);
    const std::string last = "the last page of " + std::to_string(page_lines) + " lines", word = " of a word of two bytes", phrase = " of a frequent phrase";
    return {{page_of(page_lines), standing, 0, page_lines},
            {page_of(page_lines) + word, word_of_two_bytes, 0, page_lines},
            {page_of(page_lines) + phrase, frequent, 0, page_lines},
            {last + word, word_of_two_bytes, last_places(text, word_of_two_bytes, page_lines), page_lines},
            {last + phrase, frequent, last_places(text, frequent, page_lines), page_lines},
            {page_of(many_lines) + word, word_of_two_bytes, 0, many_lines},
            {page_of(many_lines) + phrase, frequent, 0, many_lines}};
}

// So many document starts of a text of n words, drawn with a seed: 0, and each other place with the probability that is left for it.
inline std::vector<uint32_t> drawn_starts(size_t count, size_t n, uint64_t seed) {
    std::mt19937_64 random(seed);
    std::vector<uint32_t> starts = {0};
    for (size_t place = 1; place < n; place++)
        if (random() % (n - place) < count - starts.size()) starts.push_back(place);
    return starts;
}

// The questions about a text over a vocabulary, seeded.
inline Asked questions(const std::vector<uint32_t> &text, uint32_t vocabulary, uint64_t seed) {
    std::vector<uint32_t> frequency(vocabulary);
    for (uint32_t word : text) frequency[word]++;
    std::mt19937_64 random(seed);
    Asked asked;
    const size_t n = text.size();
    for (int i = 0; i < 20000; i++) {
        const uint32_t w = text[random() % n];
        asked.kinds[1].push_back({1, 0, 0, 0, random() % n, 0, 0});
        asked.kinds[2].push_back({2, w, 0, 0, random() % n, 0, 0});
        asked.kinds[3].push_back({3, w, 0, 0, 1 + random() % frequency[w], 0, 0});
    }
    while (asked.kinds[5].size() < 400) {
        const size_t m = 2 + random() % 3, at = random() % (n - m);
        uint32_t least = UINT32_MAX;
        for (size_t i = 0; i < m; i++) least = std::min(least, frequency[text[at + i]]);
        if (least > 50000) continue;
        asked.kinds[4].push_back({4, text[at], text[at + 1], 1, 0, 0, 0});
        asked.kinds[5].push_back({5, 0, 0, 0, 0, asked.words.size(), m});
        asked.words.insert(asked.words.end(), text.begin() + at, text.begin() + at + m);
    }
    asked.pages = pages(text, {asked.words.begin(), asked.words.begin() + 2});
    return asked;
}

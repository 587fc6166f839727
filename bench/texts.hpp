// The texts that are measured: words drawn by Zipf's law, and a plain text of a file.
#pragma once
#include <fstream>
#include <iterator>
#include <string>
#include <vector>

#include "measure.hpp"
#include "text.hpp"
#include "twin.hpp"

// The vocabulary of the texts that are drawn, their numbers of words, and the file of the text that is read.
constexpr uint32_t drawn_vocabulary = 100000;
static const std::vector<size_t> drawn_sizes = {1000000, 4000000, 16000000};
static const char *const real_file = "gcide.txt";

// A text: its vocabulary, the ranks of its words, the list of its words, each closed, and the plain text that is read by the list.
struct Text {
    uint32_t vocabulary;
    std::vector<uint32_t> words;
    std::string list, plain;
};

// So many words that are drawn.
inline Text drawn_text(size_t words) {
    Text text{drawn_vocabulary, zipf_text(words, drawn_vocabulary, 20261115), "", ""};
    for (uint32_t rank = 0; rank < drawn_vocabulary; rank++) text.list += spelling(rank) + '\n';
    for (uint32_t word : text.words) text.plain += spelling(word) + ' ';
    return text;
}

// The words of a file, ranked by how often they stand in it.
inline Text real_text(const std::string &file) {
    std::ifstream in(file, std::ios::binary);
    Text text{0, {}, "", {std::istreambuf_iterator<char>(in), {}}};
    must(!text.plain.empty() && twin::make_list(text.plain, text.list, text.words, SIZE_MAX, SIZE_MAX), file.c_str());
    text.vocabulary = std::count(text.list.begin(), text.list.end(), '\n');
    return text;
}

// The texts that are measured where none is named, and the text of a name, which is a number of words to draw or a file.
inline std::vector<std::string> text_names() {
    std::vector<std::string> names;
    for (size_t words : drawn_sizes) names.push_back(std::to_string(words));
    names.push_back(real_file);
    return names;
}

inline Text text_named(const std::string &name) {
    const bool number = name.find_first_not_of("0123456789") == std::string::npos;
    return number ? drawn_text(std::stoul(name)) : real_text(name);
}

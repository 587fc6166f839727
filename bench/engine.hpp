// An index, and the engine's entries over it.
#pragma once
#include <cstdint>
#include <vector>

#include "../include/concordance.h"
#include "twin.hpp"

struct Engine {
    concordance_shape shape;
    twin::Arrays a;

    concordance_measured measure(const std::vector<uint32_t> &text) const { return concordance_measure(shape, text.data(), text.size()); }
    concordance_answer build_sized(concordance_sizes sizes, const std::vector<uint32_t> &text) {
        return concordance_build_sized(shape, sizes, text.data(), text.size(), a.lengths.data(), a.lengths.size(), a.bytes.data(),
                                       a.bytes.size(), a.superblocks.data(), a.superblocks.size(), a.blocks.data(), a.blocks.size());
    }
    concordance_answer build(const std::vector<uint32_t> &text) {
        return concordance_build(shape, text.data(), text.size(), a.lengths.data(), a.lengths.size(), a.bytes.data(), a.bytes.size(),
                                 a.superblocks.data(), a.superblocks.size(), a.blocks.data(), a.blocks.size());
    }
    concordance_answer check() const {
        return concordance_check(shape, a.lengths.data(), a.lengths.size(), a.bytes.data(), a.bytes.size(), a.superblocks.data(),
                                 a.superblocks.size(), a.blocks.data(), a.blocks.size());
    }
    concordance_answer ask(const std::vector<uint32_t> &words, concordance_question question) const {
        return concordance_ask(shape, a.lengths.data(), a.lengths.size(), a.bytes.data(), a.bytes.size(), a.superblocks.data(),
                               a.superblocks.size(), a.blocks.data(), a.blocks.size(), words.data(), words.size(), question);
    }
    concordance_answer sheet(const std::vector<uint32_t> &words, const std::vector<concordance_question> &questions,
                             std::vector<uint32_t> &answers) const {
        return concordance_answer_sheet(shape, a.lengths.data(), a.lengths.size(), a.bytes.data(), a.bytes.size(), a.superblocks.data(),
                                        a.superblocks.size(), a.blocks.data(), a.blocks.size(), words.data(), words.size(),
                                        questions.data(), questions.size(), answers.data(), answers.size());
    }
    concordance_page page(concordance_listing listing, const uint32_t *phrase, size_t m, std::vector<uint32_t> &lines) const {
        return concordance_list(listing, shape, a.lengths.data(), a.lengths.size(), a.bytes.data(), a.bytes.size(), a.superblocks.data(),
                                a.superblocks.size(), a.blocks.data(), a.blocks.size(), phrase, m, 0, m, lines.data(), lines.size());
    }
    concordance_answer passage(size_t place, std::vector<uint32_t> &into) const {
        return concordance_passage(shape, a.lengths.data(), a.lengths.size(), a.bytes.data(), a.bytes.size(), a.superblocks.data(),
                                   a.superblocks.size(), a.blocks.data(), a.blocks.size(), place, into.data(), into.size());
    }

    // The calls with document starts.
    concordance_answer ask_in_documents(const std::vector<uint32_t> &starts, const std::vector<uint32_t> &words, concordance_question question) const {
        return concordance_ask_in_documents(shape, a.lengths.data(), a.lengths.size(), a.bytes.data(), a.bytes.size(), a.superblocks.data(),
                                            a.superblocks.size(), a.blocks.data(), a.blocks.size(), starts.data(), starts.size(), words.data(),
                                            words.size(), question);
    }
    concordance_answer sheet_in_documents(const std::vector<uint32_t> &starts, const std::vector<uint32_t> &words,
                                          const std::vector<concordance_question> &questions, std::vector<uint32_t> &answers) const {
        return concordance_answer_sheet_in_documents(shape, a.lengths.data(), a.lengths.size(), a.bytes.data(), a.bytes.size(),
                                                     a.superblocks.data(), a.superblocks.size(), a.blocks.data(), a.blocks.size(),
                                                     starts.data(), starts.size(), words.data(), words.size(), questions.data(),
                                                     questions.size(), answers.data(), answers.size());
    }
    concordance_page page_in_documents(concordance_listing listing, const std::vector<uint32_t> &starts, const uint32_t *phrase, size_t m,
                                       std::vector<uint32_t> &lines) const {
        return concordance_list_in_documents(listing, shape, a.lengths.data(), a.lengths.size(), a.bytes.data(), a.bytes.size(),
                                             a.superblocks.data(), a.superblocks.size(), a.blocks.data(), a.blocks.size(), starts.data(),
                                             starts.size(), phrase, m, 0, m, lines.data(), lines.size());
    }
    concordance_answer summary(const std::vector<uint32_t> &starts, const uint32_t *phrase, size_t m, std::vector<uint32_t> &counts) const {
        return concordance_summary(shape, a.lengths.data(), a.lengths.size(), a.bytes.data(), a.bytes.size(), a.superblocks.data(),
                                   a.superblocks.size(), a.blocks.data(), a.blocks.size(), starts.data(), starts.size(), phrase, m, 0, m,
                                   counts.data(), counts.size());
    }
};

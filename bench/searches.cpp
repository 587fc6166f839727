// Searching by two archives, in turn and in one run: how the second's time stands to the first's. Each is given the block lengths B and b of its
// own index, and both answer the questions of the benchmark; their answers are compared. A last argument names the only text: a number of words to
// draw, or a file, as gcide.txt, which bench/run makes. Without it the texts are those of the benchmark, and that file is in the working directory.
//
//   gcc -shared -o target/before.so -Wl,--whole-archive BEFORE.a -Wl,--no-whole-archive
//   gcc -shared -o target/after.so -Wl,--whole-archive target/staticlib/libconcordance.a -Wl,--no-whole-archive
//   g++ -O2 -std=c++17 bench/searches.cpp -o target/searches
//   cd target/bench && ../searches ../before.so ../after.so 1024 8 848 64
#include "archives.hpp"
#include "asked.hpp"
#include "measure.hpp"
#include "texts.hpp"
#include "twin.hpp"

// How often each thing is run by each archive; the least time counts.
static const int runs = 9;

// The entries of an archive and the index that it has built.
class Archive {
  public:
    Archive(const char *file, const char *block, const char *per) : shape{0, size_t(std::atoi(block)), size_t(std::atoi(per))} {
        void *library = dlopen(file, RTLD_NOW);
        find(build, library, "concordance_build");
        find(answer_sheet, library, "concordance_answer_sheet");
        find(list, library, "concordance_list");
        find(summarize, library, "concordance_summary");
    }

    // Builds the index of a text.
    void index(const Text &text) {
        shape.vocabulary = text.vocabulary;
        a = twin::sized(text.vocabulary, shape.block, shape.per_superblock, twin::stream_length(text.words));
        const concordance_answer answer =
            build(shape, text.words.data(), text.words.size(), a.lengths.data(), a.lengths.size(), a.bytes.data(), a.bytes.size(), a.superblocks.data(),
                  a.superblocks.size(), a.blocks.data(), a.blocks.size());
        must(answer.refusal == 0, "build");
    }

    // The block lengths, and the bytes that the index takes.
    std::string space() const {
        char line[80];
        std::snprintf(line, sizeof line, "B %zu, b %zu, %.2f bytes a word", shape.block, shape.per_superblock, double(a.space()) / a.lengths[0]);
        return line;
    }

    // The pairs of a sheet of one kind.
    std::vector<uint32_t> sheet(const Asked &asked, int kind) const {
        const auto &qs = asked.kinds[kind];
        std::vector<uint32_t> pairs(2 * qs.size());
        const concordance_answer answer =
            answer_sheet(shape, a.lengths.data(), a.lengths.size(), a.bytes.data(), a.bytes.size(), a.superblocks.data(), a.superblocks.size(),
                         a.blocks.data(), a.blocks.size(), asked.words.data(), asked.words.size(), qs.data(), qs.size(), pairs.data(), pairs.size());
        must(answer.refusal == 0, "sheet");
        return pairs;
    }

    // The lines of a page, and whether more follow.
    std::vector<uint32_t> page(const Page &asked) const {
        std::vector<uint32_t> lines(asked.lines);
        const concordance_page page =
            list({asked.next, false}, shape, a.lengths.data(), a.lengths.size(), a.bytes.data(), a.bytes.size(), a.superblocks.data(),
                 a.superblocks.size(), a.blocks.data(), a.blocks.size(), asked.phrase.data(), asked.phrase.size(), 0, asked.phrase.size(),
                 lines.data(), lines.size());
        must(page.answer.refusal == 0, "page");
        lines.resize(page.answer.value);
        lines.push_back(page.more);
        return lines;
    }

    // The summary of a phrase: how often it stands in each document.
    std::vector<uint32_t> summary(const std::vector<uint32_t> &starts, const std::vector<uint32_t> &phrase) const {
        std::vector<uint32_t> counts(starts.size());
        const concordance_answer answer =
            summarize(shape, a.lengths.data(), a.lengths.size(), a.bytes.data(), a.bytes.size(), a.superblocks.data(), a.superblocks.size(),
                      a.blocks.data(), a.blocks.size(), starts.data(), starts.size(), phrase.data(), phrase.size(), 0, phrase.size(),
                      counts.data(), counts.size());
        must(answer.refusal == 0, "summary");
        return counts;
    }

  private:
    concordance_shape shape;
    decltype(&concordance_build) build;
    decltype(&concordance_answer_sheet) answer_sheet;
    decltype(&concordance_list) list;
    decltype(&concordance_summary) summarize;
    twin::Arrays a;
};

// Times a call of both archives, which give the same, and prints a line of the table.
template <class Call> static void in_both(size_t words, const std::string &what, const Archive &first, const Archive &second, Call call) {
    std::vector<uint32_t> one, other;
    const Both time = in_turn(
        runs, [&] { one = call(first); }, [&] { other = call(second); });
    must(one == other, what.c_str());
    std::printf("| %zu | %s | %.6g | %.6g | %.2f |\n", words, what.c_str(), time.one * 1e3, time.other * 1e3, time.other / time.one);
    std::fflush(stdout);
}

// Times all that is asked of a text by both archives.
static void measure(const Text &text, Archive &first, Archive &second) {
    const size_t words = text.words.size();
    first.index(text);
    second.index(text);
    std::printf("the first index: %s; the second: %s\n", first.space().c_str(), second.space().c_str());
    const Asked asked = questions(text.words, text.vocabulary, 7);
    for (int kind = 1; kind <= 5; kind++)
        in_both(words, sheet_of(kind, asked), first, second, [&](const Archive &archive) { return archive.sheet(asked, kind); });
    for (const Page &page : asked.pages)
        in_both(words, page.what, first, second, [&](const Archive &archive) { return archive.page(page); });
    const std::vector<uint32_t> starts = drawn_starts(1000, words, 20261116), frequent = frequent_phrase(text.words);
    in_both(words, "the summary of a word of two bytes, 1000 starts", first, second,
            [&](const Archive &archive) { return archive.summary(starts, word_of_two_bytes); });
    in_both(words, "the summary of a frequent phrase, 1000 starts", first, second,
            [&](const Archive &archive) { return archive.summary(starts, frequent); });
}

int main(int count, char **arguments) {
    if (count != 7 && count != 8) return 1;
    Archive first(arguments[1], arguments[3], arguments[4]), second(arguments[2], arguments[5], arguments[6]);
    std::vector<std::string> names = text_names();
    if (count == 8) names = {arguments[7]};
    std::printf("| words | measured | first, ms | second, ms | ratio |\n|---|---|---|---|---|\n");
    for (const std::string &name : names) measure(text_named(name), first, second);
}

// Calls with document starts, in one run: a sheet of kind 5, and the first page, the count and the summary of a frequent phrase, without starts and with 1,
// 1,000 and 100,000 of them. Each is measured beside the twin, which checks the index and the starts too, and beside an inverted index, which tests its hits
// by the same starts and checks nothing; with starts also beside the call without, and the summary beside the count. The table is that of the benchmark: a
// ratio is the engine's time divided by the other's. The answers of two calls are compared before their times are printed. An argument gives the only number
// of words.
//
//   g++ -O3 -std=c++17 bench/documents.cpp target/staticlib/libconcordance.a -o target/documents && target/documents
#include "asked.hpp"
#include "engine.hpp"
#include "inverted.hpp"
#include "measure.hpp"
#include "texts.hpp"
#include "twin.hpp"

#include <numeric>

// How often each thing is run, by the engine and by the other; the least time counts.
static const int runs = 9;
static Table table;

// Numbers that a call fills, and the document starts that it brings; none where it is null.
using Answers = std::vector<uint32_t>;
using Starts = const std::vector<uint32_t> *;

// The lines of a page, and the phrase of the two most frequent words, of which the first page, the count and the summary are measured.
static const size_t lines = 100;
static const std::vector<uint32_t> frequent = {0, 1};

// The engine, the twin and the inverted index over one text, and their calls that are measured: each fills its answers.
class Programs {
  public:
    Programs(const Engine &engine, const Inverted &inverted, const Asked &asked) : engine(engine), inverted(inverted), asked(asked) {}

    // The pairs of the sheet of kind 5.
    void sheet(Starts starts, Answers &into) const {
        const concordance_answer answer = starts ? engine.sheet_in_documents(*starts, asked.words, asked.kinds[5], into)
                                                 : engine.sheet(asked.words, asked.kinds[5], into);
        must(answer.refusal == 0, "sheet");
    }
    void twin_sheet(Starts starts, Answers &into) const {
        const twin::Index<> index = checked(starts);
        fill_pairs(into, [&](const uint32_t *phrase, uint32_t m) { return index.phrase(phrase, m); });
    }
    void inverted_sheet(Starts starts, Answers &into) const {
        fill_pairs(into, [&](const uint32_t *phrase, uint32_t m) { return inverted_phrase(starts, phrase, m); });
    }

    // The first page of the frequent phrase: its lines, how many are written, and whether more follow.
    void page(Starts starts, Answers &into) const {
        const concordance_page page = starts ? engine.page_in_documents(concordance_open(), *starts, frequent.data(), frequent.size(), written)
                                             : engine.page(concordance_open(), frequent.data(), frequent.size(), written);
        must(page.answer.refusal == 0, "page");
        fill_page(into, page.answer.value, page.more);
    }
    void twin_page(Starts starts, Answers &into) const {
        uint32_t count = 0;
        const bool more = checked(starts).page(frequent.data(), frequent.size(), 0, written, count);
        fill_page(into, count, more);
    }
    void inverted_page(Starts starts, Answers &into) const {
        uint32_t count = 0;
        bool more = false;
        inverted_places(starts, frequent.data(), frequent.size(), [&](uint32_t place) {
            more = count == lines;
            if (!more) written[count++] = place;
            return !more;
        });
        fill_page(into, count, more);
    }

    // The count of the frequent phrase.
    void count(Starts starts, Answers &into) const {
        const concordance_question question = {5, 0, 0, 0, 0, 0, frequent.size()};
        const concordance_answer answer = starts ? engine.ask_in_documents(*starts, frequent, question) : engine.ask(frequent, question);
        must(answer.refusal == 0, "count");
        into[0] = answer.value;
    }
    void twin_count(Starts starts, Answers &into) const { into[0] = checked(starts).phrase(frequent.data(), frequent.size()); }
    void inverted_count(Starts starts, Answers &into) const { into[0] = inverted_phrase(starts, frequent.data(), frequent.size()); }

    // The summary of the frequent phrase.
    void summary(Starts starts, Answers &into) const {
        const concordance_answer answer = engine.summary(*starts, frequent.data(), frequent.size(), into);
        must(answer.refusal == 0 && answer.value == starts->size(), "summary");
    }
    void twin_summary(Starts starts, Answers &into) const { checked(starts).summary(frequent.data(), frequent.size(), into); }
    void inverted_summary(Starts starts, Answers &into) const {
        std::fill(into.begin(), into.end(), 0);
        inverted_places(starts, frequent.data(), frequent.size(),
                        [&](uint32_t place) { return ++into[twin::document_of(*starts, place) - 1], true; });
    }

  private:
    const Engine &engine;
    const Inverted &inverted;
    const Asked &asked;
    mutable Answers written = Answers(lines);

    // The twin over the index and the starts, both checked.
    twin::Index<> checked(Starts starts) const {
        must(twin::check(engine.a, drawn_vocabulary) && (!starts || twin::check_starts(*starts, engine.a.lengths[0])), "check");
        return twin::Index<>(engine.a, starts);
    }

    // The places of a phrase by the inverted index, with starts only those inside a document, as long as the visit says to go on.
    template <class Visit> void inverted_places(Starts starts, const uint32_t *phrase, uint32_t m, Visit visit) const {
        inverted.places(phrase, m, [&](uint32_t place) { return (starts && !twin::in_one_document(*starts, place, m)) || visit(place); });
    }
    uint32_t inverted_phrase(Starts starts, const uint32_t *phrase, uint32_t m) const {
        uint32_t count = 0;
        inverted_places(starts, phrase, m, [&](uint32_t) { return ++count, true; });
        return count;
    }

    // Fills in the pairs of the sheet by a function that counts a phrase.
    template <class Count> void fill_pairs(Answers &into, Count count) const {
        const auto &questions = asked.kinds[5];
        for (size_t i = 0; i < questions.size(); i++) {
            into[2 * i] = 0;
            into[2 * i + 1] = count(&asked.words[questions[i].start], questions[i].length);
        }
    }

    // Fills in the lines that are written and, behind them, how many there are and whether more follow; the lines are cleared for the next page.
    void fill_page(Answers &into, size_t count, bool more) const {
        std::copy_n(written.begin(), count, into.begin());
        into[lines] = count;
        into[lines + 1] = more;
        std::fill(written.begin(), written.end(), 0);
    }
};

// A call of the above, with the starts that it brings and the answers that it fills.
using Call = void (Programs::*)(Starts, Answers &) const;
struct Side {
    Call call;
    Starts starts;
    Answers answers;
};

// Times a call of the engine and another, in turn, and adds a line to the table where their answers agree, as the last argument says.
template <class Agree>
static void beside(const Programs &programs, size_t words, const std::string &what, Side &ours, const char *other, Side &theirs, Agree agree) {
    const Both time = in_turn(
        runs, [&] { (programs.*ours.call)(ours.starts, ours.answers); }, [&] { (programs.*theirs.call)(theirs.starts, theirs.answers); });
    must(agree(ours.answers, theirs.answers), what.c_str());
    table.add(words, what, time.one, other, time.other);
}

// Whether two calls have filled the same.
static bool same(const Answers &one, const Answers &other) { return one == other; }

// The sum of some counts.
static uint32_t sum(const Answers &counts) { return std::accumulate(counts.begin(), counts.end(), 0u); }

// A thing that is measured, by whom, and how many numbers it fills.
struct Thing {
    std::string name;
    Call engine, twin, inverted;
    size_t size;
};

// Measures a thing with some starts beside the twin and beside the inverted index, which must give the same.
static Side beside_others(const Programs &programs, size_t words, const std::string &what, const Thing &thing, Starts starts) {
    Side ours{thing.engine, starts, Answers(thing.size)};
    Side twin{thing.twin, starts, Answers(thing.size)}, inverted{thing.inverted, starts, Answers(thing.size)};
    beside(programs, words, what, ours, "twin", twin, same);
    beside(programs, words, what, ours, "inverted index", inverted, same);
    return ours;
}

// What is measured, with so many starts.
static std::string with(const std::string &what, size_t starts) { return what + ", " + std::to_string(starts) + (starts == 1 ? " start" : " starts"); }

// Measures all things on a text of n words.
static void measure(size_t n) {
    const std::vector<uint32_t> text = zipf_text(n, drawn_vocabulary, 20261115);
    const uint32_t block = 848, per = 64;
    Engine engine{{drawn_vocabulary, block, per}, twin::sized(drawn_vocabulary, block, per, twin::stream_length(text))};
    must(engine.build(text).refusal == 0, "build");
    const Inverted inverted(text, drawn_vocabulary);
    const Asked asked = questions(text, drawn_vocabulary, 7);
    const Programs programs(engine, inverted, asked);

    std::vector<std::vector<uint32_t>> brought;
    for (size_t count : {1, 1000, 100000}) {
        brought.push_back(drawn_starts(count, n, 20261116));
        must(brought.back().size() == count, "starts");
    }
    const std::string phrase = " of the phrase 0 1";
    for (const Thing &thing : {
             Thing{sheet_of(5, asked), &Programs::sheet, &Programs::twin_sheet, &Programs::inverted_sheet, 2 * asked.kinds[5].size()},
             Thing{page_of(lines) + phrase, &Programs::page, &Programs::twin_page, &Programs::inverted_page, lines + 2},
             Thing{"the count" + phrase, &Programs::count, &Programs::twin_count, &Programs::inverted_count, 1},
         }) {
        beside_others(programs, n, thing.name + ", without starts", thing, nullptr);
        for (const auto &starts : brought) {
            const std::string what = with(thing.name, starts.size());
            Side ours = beside_others(programs, n, what, thing, &starts);
            Side without{thing.engine, nullptr, Answers(thing.size)};
            const auto one_document = [&](const Answers &with, const Answers &none) { return starts.size() > 1 || with == none; };
            beside(programs, n, what, ours, "without starts", without, one_document);
        }
    }
    for (const auto &starts : brought) {
        const std::string what = with("the summary" + phrase, starts.size());
        const Thing summary{what, &Programs::summary, &Programs::twin_summary, &Programs::inverted_summary, starts.size()};
        Side ours = beside_others(programs, n, what, summary, &starts);
        Side count{&Programs::count, &starts, Answers(1)}, without{&Programs::count, nullptr, Answers(1)};
        const auto adds_up = [](const Answers &counts, const Answers &all) { return sum(counts) == all[0]; };
        const auto at_most = [](const Answers &counts, const Answers &all) { return sum(counts) <= all[0]; };
        beside(programs, n, what, ours, "the count with the same starts", count, adds_up);
        beside(programs, n, what, ours, "the count without starts", without, at_most);
        std::printf("documents: %zu; places of the phrase: %u, inside a document: %u\n", starts.size(), without.answers[0], count.answers[0]);
    }
}

int main(int count, char **arguments) {
    std::vector<size_t> sizes = {1000000, 4000000, 16000000};
    if (count == 2) sizes = {size_t(std::atoi(arguments[1]))};
    std::printf("| words | measured | engine, ms | beside | its time, ms | ratio |\n|---|---|---|---|---|---|\n");
    for (size_t words : sizes) measure(words);
}

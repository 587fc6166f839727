// Measures the engine side by side with a twin written by hand, with libsdsl, with a positional inverted index and with SQLite's
// full-text search, all in one run over the same texts. It prints a table of ratios, the engine's time divided by the other's, and
// writes a plot. Both sides of a ratio are run equally often, and each answer that two of them give is compared before its time is printed.
#include <cstdlib>
#include <cstring>
#include <fstream>
#include <sdsl/suffix_arrays.hpp>
#include <sdsl/wavelet_trees.hpp>
#include <sqlite3.h>

#include "../include/concordance.h"
#include "asked.hpp"
#include "engine.hpp"
#include "inverted.hpp"
#include "measure.hpp"
#include "texts.hpp"
#include "twin.hpp"

// How often each thing is run, by the engine and by the other; the least time counts. An index of another program is built once.
static const int runs = 9;
static Table table;

template <class Index> static uint32_t answer(const Index &index, const concordance_question &q, const Asked &asked) {
    switch (q.kind) {
        case 1: return index.word_at(q.p);
        case 2: return index.occurrences_below(q.w, q.p);
        case 3: return index.place_of(q.w, q.p - 1);
        case 4: return index.neighbours(q.w, q.v, q.d);
        default: return index.phrase(&asked.words[q.start], q.length);
    }
}

// Times a sheet of one kind by the engine and another program that answers its questions, and compares the answers.
template <class Program>
static void sheet(const Engine &engine, const Asked &asked, int kind, const std::string &what, const char *other, Program program) {
    const auto &qs = asked.kinds[kind];
    std::vector<uint32_t> pairs(2 * qs.size()), theirs(qs.size());
    const Both time = in_turn(
        runs, [&] { must(engine.sheet(asked.words, qs, pairs).refusal == 0, "sheet"); }, [&] { program(theirs); });
    for (size_t i = 0; i < qs.size(); i++) must(pairs[2 * i] == 0 && pairs[2 * i + 1] == theirs[i], other);
    table.add(engine.a.lengths[0], what, time.one, other, time.other);
}

// The same with a function that answers one question.
template <class Answer>
static void beside(const Engine &engine, const Asked &asked, int kind, const std::string &what, const char *other, Answer answer) {
    const auto &qs = asked.kinds[kind];
    sheet(engine, asked, kind, what, other, [&](std::vector<uint32_t> &theirs) {
        for (size_t i = 0; i < qs.size(); i++) theirs[i] = answer(qs[i]);
    });
}

// The twin with the scan that reads past the occurrence, and the one that looks for phrases and neighbours along the places of their rarest word.
using ByPieces = twin::Index<twin::scan_by_pieces>;
static const char *const by_pieces = "scan by pieces, which reads past the hit";
using Along = twin::Index<twin::exact_scan, twin::Search::places>;
static const char *const along = "search along occurrences";
using ByBlocks = twin::Index<twin::exact_scan, twin::Search::blocks>;
static const char *const by_blocks = "search by whole blocks";

// A sheet of one kind beside a twin: the check is paid once, by the engine and by the twin.
template <class Index> static void sheet_beside(const Engine &engine, const Asked &asked, int kind, const char *other) {
    const auto &qs = asked.kinds[kind];
    sheet(engine, asked, kind, sheet_of(kind, asked), other, [&](std::vector<uint32_t> &theirs) {
        must(twin::check(engine.a, engine.shape.vocabulary), "check");
        const Index index(engine.a);
        for (size_t i = 0; i < qs.size(); i++) theirs[i] = answer(index, qs[i], asked);
    });
}

// The sheets of the five kinds; kind 3 is measured beside both scans, kinds 4 and 5 beside both searches.
static void sheets(const Engine &engine, const Asked &asked) {
    for (int kind = 1; kind <= 5; kind++) sheet_beside<twin::Index<>>(engine, asked, kind, "twin");
    sheet_beside<ByPieces>(engine, asked, 3, by_pieces);
    for (int kind : {4, 5}) {
        sheet_beside<Along>(engine, asked, kind, along);
        sheet_beside<ByBlocks>(engine, asked, kind, by_blocks);
    }
}

// A page beside a twin.
template <class Index> static void page_beside(const Engine &engine, const Page &asked, const char *other) {
    const std::vector<uint32_t> &phrase = asked.phrase;
    std::vector<uint32_t> ours(asked.lines), theirs(asked.lines);
    concordance_page page;
    uint32_t count = 0;
    bool more = false;
    const Both time = in_turn(
        runs, [&] { page = engine.page({asked.next, false}, phrase.data(), phrase.size(), ours); },
        [&] {
            must(twin::check(engine.a, engine.shape.vocabulary), "check");
            more = Index(engine.a).page(phrase.data(), phrase.size(), asked.next, theirs, count);
        });
    must(page.answer.refusal == 0 && page.answer.value == count && page.more == more && ours == theirs, "page");
    table.add(engine.a.lengths[0], asked.what, time.one, other, time.other);
}

// The pages, beside both searches.
static void pages(const Engine &engine, const Asked &asked) {
    for (const Page &page : asked.pages) {
        page_beside<twin::Index<>>(engine, page, "twin");
        page_beside<Along>(engine, page, along);
    }
}

// The first page of the phrase of no words and its count, beside the twin and beside the check alone, which is all that they take but for the
// lines.
static void no_words(const Engine &engine, const Asked &asked) {
    const size_t n = engine.a.lengths[0];
    const char *page_row = "no words, a page of 100 lines", *count_row = "no words, the count", *alone = "the check alone";
    std::vector<uint32_t> ours(100), theirs(100);
    concordance_page page;
    concordance_answer count;
    uint32_t written = 0;
    bool more = false;
    size_t places = 0;
    const auto check = [&] { must(engine.check().refusal == 0, "check"); };
    const auto list = [&] { page = engine.page(concordance_open(), asked.words.data(), 0, ours); };
    const auto ask = [&] { count = engine.ask(asked.words, {5, 0, 0, 0, 0, 0, 0}); };
    const Both paged = in_turn(runs, list, [&] {
        must(twin::check(engine.a, engine.shape.vocabulary), "check");
        more = twin::page_of_no_words(engine.a, 0, theirs, written);
    });
    must(page.answer.refusal == 0 && page.answer.value == written && page.more == more && ours == theirs, page_row);
    table.add(n, page_row, paged.one, "twin", paged.other);
    const Both page_alone = in_turn(runs, list, check);
    table.add(n, page_row, page_alone.one, alone, page_alone.other);
    const Both counted = in_turn(runs, ask, [&] {
        must(twin::check(engine.a, engine.shape.vocabulary), "check");
        places = size_t(engine.a.lengths[0]) + 1;
    });
    must(count.refusal == 0 && count.value == places, count_row);
    table.add(n, count_row, counted.one, "twin", counted.other);
    const Both count_alone = in_turn(runs, ask, check);
    table.add(n, count_row, count_alone.one, alone, count_alone.other);
}

static void passages(const Engine &engine, const std::vector<uint32_t> &text) {
    std::vector<uint32_t> ours(10000), theirs(10000);
    const Both time = in_turn(
        runs, [&] { must(engine.passage(5000, ours).refusal == 0, "passage"); },
        [&] {
            must(twin::check(engine.a, engine.shape.vocabulary), "check");
            const twin::Index index(engine.a);
            for (size_t i = 0; i < theirs.size(); i++) theirs[i] = index.word_at(5000 + i);
        });
    must(ours == theirs && std::equal(ours.begin(), ours.end(), text.begin() + 5000), "passage");
    table.add(engine.a.lengths[0], "a passage of 10,000 words", time.one, "twin", time.other);
}

// A lent copy of the built-in letter table.
static const std::vector<uint8_t> letters = [] {
    std::vector<uint8_t> table(256);
    fill_letters(table.data());
    return table;
}();

// Reading a stream and a plain text, the stream beside a plain loop over its bytes, the plain text beside the twin, and by a lent letter table
// beside the built-in one.
static void reading(const Text &read_from) {
    const std::vector<uint32_t> &text = read_from.words;
    const std::string &list = read_from.list, &plain = read_from.plain;
    std::vector<uint8_t> stream(text.size() * 3);
    const size_t size = concordance_write_stream(read_from.vocabulary, text.data(), text.size(), stream.data(), stream.size()).value;
    std::vector<uint32_t> ours(text.size()), theirs(text.size());
    const Both streamed = in_turn(
        runs, [&] { must(concordance_read_stream(stream.data(), size, ours.data(), ours.size()).refusal == 0, "stream"); },
        [&] {
            size_t word = 0;
            for (size_t i = 0; i < size;) {
                uint32_t rank = 0, base = 0;
                for (; stream[i] < 128; i++) rank = rank * 128 + stream[i], base = base * 128 + 128;
                theirs[word++] = rank * 128 + (stream[i++] - 128) + base;
            }
        });
    must(ours == text && theirs == text, "stream");
    table.add(text.size(), "reading a stream", streamed.one, "twin", streamed.other);

    std::fill(ours.begin(), ours.end(), 0);
    std::fill(theirs.begin(), theirs.end(), 0);
    const auto by_built_in = [&] {
        const auto answer = concordance_read_text((const uint8_t *)list.data(), list.size(), (const uint8_t *)plain.data(), plain.size(),
                                                  ours.data(), ours.size());
        must(answer.refusal == 0 && answer.value == text.size(), "plain text");
    };
    const Both read = in_turn(runs, by_built_in, [&] { must(twin::read_text(list, plain, theirs), "plain text"); });
    must(ours == text && theirs == text, "plain text");
    table.add(text.size(), "reading plain text", read.one, "twin", read.other);
    const auto by_lent = [&] {
        const auto answer = concordance_read_text_with(letters.data(), letters.size(), (const uint8_t *)list.data(), list.size(),
                                                       (const uint8_t *)plain.data(), plain.size(), ours.data(), ours.size());
        must(answer.refusal == 0 && answer.value == text.size(), "plain text by a lent table");
    };
    std::fill(ours.begin(), ours.end(), 0);
    by_lent();
    must(ours == text, "plain text by a lent table");
    const Both lent = in_turn(runs, by_lent, by_built_in);
    table.add(text.size(), "reading plain text by a lent letter table", lent.one, "the built-in table", lent.other);
    std::printf("reading plain text of %zu words, %u listed: %.1f MB/s\n", text.size(), read_from.vocabulary, plain.size() / read.one / 1e6);
}

// Making the word list of a plain text of the most bytes, beside a hash map with a stable sort, beside reading the same text through its list, and by a lent
// letter table beside the built-in one.
static void making(uint32_t words) {
    const std::string plain = sentences(CONCORDANCE_MAX_LIST_TEXT, words, 20261116);
    const auto bytes = [](const std::string &of) { return (const uint8_t *)of.data(); };
    std::string list(plain.size() + 1, 0), their_list;
    std::vector<uint32_t> ranks(plain.size() / 2), theirs, read(ranks.size());
    concordance_list_made made;
    const auto make = [&] {
        made = concordance_make_list(bytes(plain), plain.size(), (uint8_t *)list.data(), list.size(), ranks.data(), ranks.size());
        must(made.answer.refusal == 0, "make_list");
    };
    const Both mapped = in_turn(10 * runs, make, [&] { must(twin::make_list(plain, their_list, theirs), "make_list"); });
    const std::string front = list.substr(0, made.bytes);
    must(front == their_list && made.words == theirs.size() && std::equal(theirs.begin(), theirs.end(), ranks.begin()), "make_list");
    const Both again = in_turn(10 * runs, make, [&] {
        const auto answer = concordance_read_text(bytes(front), front.size(), bytes(plain), plain.size(), read.data(), read.size());
        must(answer.refusal == 0 && answer.value == made.words, "make_list");
    });
    must(std::equal(theirs.begin(), theirs.end(), read.begin()), "make_list");
    const std::string what = "make_list, " + std::to_string(std::count(front.begin(), front.end(), '\n')) + " distinct words";
    table.add(made.words, what, mapped.one, "unordered_map and stable_sort", mapped.other);
    table.add(made.words, what, again.one, "read_text by the list", again.other);
    const auto make_by_lent = [&] {
        made = concordance_make_list_with(letters.data(), letters.size(), bytes(plain), plain.size(), (uint8_t *)list.data(), list.size(),
                                          ranks.data(), ranks.size());
        must(made.answer.refusal == 0, "make_list_with");
    };
    std::fill(list.begin(), list.end(), 0);
    std::fill(ranks.begin(), ranks.end(), 0);
    make_by_lent();
    must(list.substr(0, made.bytes) == front && made.words == theirs.size() && std::equal(theirs.begin(), theirs.end(), ranks.begin()),
         "make_list_with");
    const Both lent = in_turn(10 * runs, make_by_lent, make);
    table.add(made.words, what + ", by a lent letter table", lent.one, "the built-in table", lent.other);
}

// The check of a letter table alone, of which many are timed together.
static void letter_checks() {
    const int checks = 10000;
    const double time = seconds(runs, [&] {
        for (int i = 0; i < checks; i++) must(concordance_check_letters(letters.data(), letters.size()).refusal == 0, "check_letters");
    });
    std::printf("check_letters: %.0f ns\n", time / checks * 1e9);
}

// A phrase in a wavelet tree, along the occurrences of its rarest word.
static uint32_t phrase_along(const sdsl::wt_int<> &tree, const uint32_t *phrase, size_t m) {
    size_t rare = 0, often = SIZE_MAX;
    uint32_t count = 0;
    for (size_t i = 0; i < m; i++) {
        const size_t here = tree.rank(tree.size(), phrase[i] + 1);
        if (here < often) often = here, rare = i;
    }
    for (size_t j = 1; j <= often; j++) {
        const size_t at = tree.select(j, phrase[rare] + 1);
        if (at < rare || at - rare + m > tree.size()) continue;
        bool same = true;
        for (size_t i = 0; same && i < m; i++) same = i == rare || tree[at - rare + i] == phrase[i] + 1;
        count += same;
    }
    return count;
}

// libsdsl: kinds 1 to 3 and phrases in an integer wavelet tree, and phrases in a compressed suffix array.
static void libsdsl(const std::vector<uint32_t> &text, const Asked &asked, const Engine &engine) {
    sdsl::int_vector<> ranks(text.size(), 0, sdsl::bits::hi(engine.shape.vocabulary) + 1);
    for (size_t i = 0; i < text.size(); i++) ranks[i] = text[i] + 1;
    sdsl::wt_int<> tree;
    std::printf("libsdsl wt_int: built in %.3f s", seconds(1, [&] { sdsl::construct_im(tree, ranks); }));
    std::printf(", %.2f bytes a word\n", double(sdsl::size_in_bytes(tree)) / text.size());
    using Question = concordance_question;
    const char *name = "libsdsl wt_int";
    beside(engine, asked, 1, sheet_of(1, asked), name, [&](const Question &q) { return uint32_t(tree[q.p]) - 1; });
    beside(engine, asked, 2, sheet_of(2, asked), name, [&](const Question &q) { return tree.rank(q.p, q.w + 1); });
    beside(engine, asked, 3, sheet_of(3, asked), name, [&](const Question &q) { return tree.select(q.p, q.w + 1); });
    beside(engine, asked, 5, "phrases, 400 counts", name,
           [&](const Question &q) { return phrase_along(tree, &asked.words[q.start], q.length); });
    sdsl::csa_wt_int<> suffixes;
    std::printf("libsdsl csa_wt_int: built in %.3f s", seconds(1, [&] { sdsl::construct_im(suffixes, ranks); }));
    std::printf(", %.2f bytes a word\n", double(sdsl::size_in_bytes(suffixes)) / text.size());
    beside(engine, asked, 5, "phrases, 400 counts", "libsdsl csa_wt_int", [&](const Question &q) {
        uint32_t pattern[16];
        for (size_t i = 0; i < q.length; i++) pattern[i] = asked.words[q.start + i] + 1;
        return sdsl::count(suffixes, pattern, pattern + q.length);
    });
}

// An index whose counters take at most so many bytes.
static Engine within(size_t counters, const std::vector<uint32_t> &text, uint32_t vocabulary) {
    const uint32_t per = 8;
    const size_t size = twin::stream_length(text);
    const size_t counters_a_block = 256 * sizeof(uint16_t) + 256 * sizeof(uint32_t) / per;
    const uint32_t block = (counters_a_block * size / counters / 16 + 1) * 16;
    Engine engine{{vocabulary, block, per}, twin::sized(vocabulary, block, per, size)};
    must(engine.build(text).refusal == 0, "build");
    std::printf("the index at equal space: B %u, b %u, %.2f bytes a word\n", block, per, double(engine.a.space()) / text.size());
    return engine;
}

// A positional inverted index. At equal space, the counters take no more than it does: the engine holds the text in its node bytes, and the
// inverted index needs a copy of it beside it, which is no smaller in codewords.
static void inverted(const std::vector<uint32_t> &text, const Asked &asked, const Engine &engine) {
    Inverted *index = nullptr;
    const double built = seconds(1, [&] { index = new Inverted(text, engine.shape.vocabulary); });
    std::printf("inverted index: built in %.3f s, %.2f bytes a word\n", built, double(index->space()) / text.size());
    using Question = concordance_question;
    const auto phrase = [&](const Question &q) { return index->phrase(&asked.words[q.start], q.length); };
    const auto neighbours = [&](const Question &q) { return index->neighbours(q.w, q.v, q.d); };
    beside(engine, asked, 5, "phrases, 400 counts", "inverted index", phrase);
    beside(engine, asked, 4, sheet_of(4, asked), "inverted index", neighbours);
    const Engine equal = within(index->space(), text, engine.shape.vocabulary);
    beside(equal, asked, 5, "phrases, 400 counts, at equal space", "inverted index", phrase);
    beside(equal, asked, 4, sheet_of(4, asked) + ", at equal space", "inverted index", neighbours);
    delete index;
}

// The words of a row of FTS5, and how many words of the next row it has beside them: with the most words of a phrase less one, each phrase
// stands whole in the row in which it begins.
static const size_t row_words = 1000, row_overlap = 3;

// The auxiliary function of FTS5 that counts the places of the phrase which begin in the row itself.
static void count_places(const Fts5ExtensionApi *api, Fts5Context *row, sqlite3_context *result, int, sqlite3_value **) {
    int hits = 0, inside = 0;
    api->xInstCount(row, &hits);
    for (int i = 0; i < hits; i++) {
        int phrase, column, at;
        api->xInst(row, i, &phrase, &column, &at);
        inside += at < int(row_words);
    }
    sqlite3_result_int(result, inside);
}

static void add_count_places(sqlite3 *db) {
    fts5_api *api = nullptr;
    sqlite3_stmt *ask;
    sqlite3_prepare_v2(db, "SELECT fts5(?)", -1, &ask, nullptr);
    sqlite3_bind_pointer(ask, 1, &api, "fts5_api_ptr", nullptr);
    sqlite3_step(ask);
    sqlite3_finalize(ask);
    must(api != nullptr && api->xCreateFunction(api, "places", nullptr, count_places, nullptr) == SQLITE_OK, "FTS5");
}

// SQLite's FTS5: it counts the rows that have a phrase, which is no answer of the engine's, and the places of a phrase, which a pair of neighbours is too.
static void fts5(const std::vector<uint32_t> &text, const Asked &asked, const Engine &engine) {
    sqlite3 *db;
    sqlite3_open(":memory:", &db);
    add_count_places(db);
    sqlite3_exec(db, "CREATE VIRTUAL TABLE t USING fts5(x, content=''); BEGIN", nullptr, nullptr, nullptr);
    const double built = seconds(1, [&] {
        sqlite3_stmt *insert;
        sqlite3_prepare_v2(db, "INSERT INTO t(rowid, x) VALUES (?, ?)", -1, &insert, nullptr);
        for (size_t row = 0; row * row_words < text.size(); row++) {
            std::string words;
            const size_t end = std::min(text.size(), (row + 1) * row_words + row_overlap);
            for (size_t i = row * row_words; i < end; i++) words += spelling(text[i]) + ' ';
            sqlite3_bind_int64(insert, 1, row + 1);
            sqlite3_bind_text(insert, 2, words.data(), words.size(), SQLITE_TRANSIENT);
            sqlite3_step(insert);
            sqlite3_reset(insert);
        }
        sqlite3_finalize(insert);
        sqlite3_exec(db, "COMMIT", nullptr, nullptr, nullptr);
    });
    sqlite3_stmt *ask;
    sqlite3_prepare_v2(db, "SELECT page_count * page_size FROM pragma_page_count, pragma_page_size", -1, &ask, nullptr);
    sqlite3_step(ask);
    std::printf("SQLite FTS5: built in %.3f s, %.2f bytes a word\n", built, double(sqlite3_column_int64(ask, 0)) / text.size());
    sqlite3_finalize(ask);
    const auto counted = [&](const uint32_t *words, size_t m) {
        std::string phrase = "\"";
        for (size_t i = 0; i < m; i++) phrase += spelling(words[i]) + (i + 1 < m ? " " : "\"");
        sqlite3_bind_text(ask, 1, phrase.data(), phrase.size(), SQLITE_TRANSIENT);
        uint32_t count = 0;
        while (sqlite3_step(ask) == SQLITE_ROW) count += sqlite3_column_int64(ask, 0);
        must(sqlite3_reset(ask) == SQLITE_OK, "FTS5");
        return count;
    };
    const auto count_phrase = [&](const concordance_question &q) { return counted(&asked.words[q.start], q.length); };
    const auto count_neighbours = [&](const concordance_question &q) {
        const uint32_t pair[2] = {q.w, q.v};
        must(q.d == 1, "FTS5");
        return counted(pair, 2);
    };
    sqlite3_prepare_v2(db, "SELECT count(*) FROM t WHERE t MATCH ?", -1, &ask, nullptr);
    const auto &qs = asked.kinds[5];
    std::vector<uint32_t> pairs(2 * qs.size());
    uint64_t rows = 0;
    const Both time = in_turn(
        runs, [&] { must(engine.sheet(asked.words, qs, pairs).refusal == 0, "sheet"); },
        [&] {
            for (const auto &q : qs) rows += count_phrase(q);
        });
    must(rows > 0, "FTS5");
    table.add(text.size(), "phrases, 400 counts", time.one, "SQLite FTS5 (rows)", time.other);
    sqlite3_finalize(ask);
    sqlite3_prepare_v2(db, "SELECT places(t) FROM t WHERE t MATCH ?", -1, &ask, nullptr);
    beside(engine, asked, 5, "phrases, 400 counts", "SQLite FTS5 (places)", count_phrase);
    beside(engine, asked, 4, sheet_of(4, asked), "SQLite FTS5 (places)", count_neighbours);
    sqlite3_finalize(ask);
    sqlite3_close(db);
}

static void measure(const Text &source, uint32_t block, uint32_t per, bool peers) {
    const std::vector<uint32_t> &text = source.words;
    const uint32_t vocabulary = source.vocabulary;
    const size_t n = text.size();
    twin::Arrays made = twin::sized(vocabulary, block, per, twin::stream_length(text));
    Engine engine{{vocabulary, block, per}, made};
    concordance_sizes sizes;
    twin::Sizes theirs;
    const Both measured = in_turn(
        runs, [&] { sizes = engine.measure(text).sizes; },
        [&] { must(twin::measure(text, vocabulary, block, per, theirs) == n, "measure"); });
    must(sizes.nodes == theirs.nodes && sizes.bytes == theirs.bytes && sizes.superblock_rows == theirs.superblock_rows &&
             sizes.block_rows == theirs.block_rows,
         "measure");
    table.add(n, "measure", measured.one, "twin", measured.other);
    const Both sized = in_turn(
        runs, [&] { must(engine.build_sized(sizes, text).refusal == 0, "build_sized"); }, [&] { twin::build(text, made); });
    must(engine.a == made, "build_sized");
    table.add(n, "build_sized", sized.one, "twin", sized.other);
    const Both built = in_turn(
        runs, [&] { must(engine.build(text).refusal == 0, "build"); }, [&] { twin::build(text, made); });
    must(engine.a == made, "build");
    table.add(n, "build", built.one, "twin", built.other);
    const auto check = [&] { must(engine.check().refusal == 0, "check"); };
    const Both checked = in_turn(runs, check, [&] { must(twin::check(engine.a, vocabulary), "check"); });
    table.add(n, "check", checked.one, "twin", checked.other);
    uint64_t sum = 0;
    const Both counted = in_turn(runs, check, [&] { sum += twin::histogram(engine.a.bytes); });
    table.add(n, "check", counted.one, "plain histogram", counted.other);
    std::printf("the index: V %u, B %u, b %u, %.2f bytes a word, of which %.2f are node bytes (%llu)\n", vocabulary, block, per,
                double(made.space()) / n, double(made.bytes.size()) / n, (unsigned long long)sum % 10);
    const Asked asked = questions(text, vocabulary, 7);
    sheets(engine, asked);
    pages(engine, asked);
    no_words(engine, asked);
    passages(engine, text);
    reading(source);
    if (!peers) return;
    inverted(text, asked, engine);
    libsdsl(text, asked, engine);
    fts5(text, asked, engine);
}

// Time against n of each thing that was measured beside the twin over a text that is drawn.
static void plot(const char *file) {
    std::ofstream out(file);
    out << "<svg xmlns=\"http://www.w3.org/2000/svg\" viewBox=\"0 0 800 420\" font-family=\"sans-serif\" font-size=\"11\">\n"
        << "<text x=\"20\" y=\"20\" font-size=\"14\">Seconds of a call against the words of the text (both in powers of ten): engine solid, twin dashed</text>\n";
    const char *colours[] = {"#1b6ca8", "#c0392b", "#2e8b57", "#8e44ad", "#b8860b", "#444444", "#e67e22",
                             "#16a085", "#7f8c8d", "#d35400", "#e84393", "#5d4037", "#00838f", "#6b8e23", "#4b0082",
                             "#990000", "#003366", "#556b2f", "#a0522d", "#708090", "#cc6699"};
    auto x = [](double words) { return 60 + 360 * (std::log10(words) - 6) / 1.3; };
    auto y = [](double time) { return 380 - 54 * (std::log10(time) + 4); };
    std::vector<Line> lines;
    std::vector<std::string> names;
    for (const Line &line : table.all()) {
        if (line.other != "twin" || std::find(drawn_sizes.begin(), drawn_sizes.end(), line.words) == drawn_sizes.end()) continue;
        lines.push_back(line);
        if (std::find(names.begin(), names.end(), line.what) == names.end()) names.push_back(line.what);
    }
    for (size_t i = 0; i < names.size(); i++) {
        std::string engine, twin;
        for (const Line &line : lines) {
            if (line.what != names[i]) continue;
            engine += std::to_string(x(line.words)) + "," + std::to_string(y(line.engine)) + " ";
            twin += std::to_string(x(line.words)) + "," + std::to_string(y(line.peer)) + " ";
        }
        const char *colour = colours[i % std::size(colours)];
        out << "<polyline points=\"" << engine << "\" fill=\"none\" stroke=\"" << colour << "\" stroke-width=\"1.6\"/>\n"
            << "<polyline points=\"" << twin << "\" fill=\"none\" stroke=\"" << colour << "\" stroke-dasharray=\"4 3\"/>\n"
            << "<text x=\"460\" y=\"" << 40 + 17 * i << "\" fill=\"" << colour << "\">" << names[i] << "</text>\n";
    }
    for (int p = -4; p <= 1; p++)
        out << "<text x=\"10\" y=\"" << y(std::pow(10, p)) << "\">1e" << p << " s</text>\n";
    for (size_t words : drawn_sizes) out << "<text x=\"" << x(words) - 10 << "\" y=\"405\">" << words / 1000000 << " M</text>\n";
    out << "</svg>\n";
}

// The arguments are B and b, with which the peers are left out, and the name of the only text; both may be left out.
int main(int count, char **arguments) {
    const bool given = count > 2;
    std::vector<std::string> names = text_names();
    if (count == 2 || count == 4) names = {arguments[count - 1]};
    std::printf("| words | measured | engine, ms | beside | its time, ms | ratio |\n|---|---|---|---|---|---|\n");
    for (const std::string &name : names)
        measure(text_named(name), given ? std::atoi(arguments[1]) : 848, given ? std::atoi(arguments[2]) : 64, !given);
    for (uint32_t words : {6000, 50}) making(words);
    letter_checks();
    plot("times.svg");
}

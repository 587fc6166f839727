// Finding a word in a word list, in one run: one in the middle of the list, its last one, and one that it lacks. Each is measured beside reading that
// word as a plain text through the same list (the absent one is refused there), beside a hand-written version, which checks the list by a hash set and
// then compares word by word, and beside SQLite, which puts the words into a table that has each once and looks the word up. The table is that of the
// benchmark: a ratio is the engine's time divided by the other's. The answers of two calls are compared before their times are printed. An
// argument gives the only number of words, and a second one another archive, made a shared object, whose reading is measured too.
//
//   g++ -O3 -std=c++17 bench/finding.cpp target/staticlib/libconcordance.a -lsqlite3 -ldl -o target/finding && target/finding
//   g++ -shared -Wl,--whole-archive before.a -Wl,--no-whole-archive -o before.so && target/finding 240000 ./before.so
#include "../include/concordance.h"
#include "archives.hpp"
#include "letters.h"
#include "measure.hpp"
#include "twin.hpp"

#include <random>
#include <sqlite3.h>
#include <string_view>
#include <unordered_set>

// How often each thing is run; the least time counts.
static const int runs = 9;
static Table table;

// A word list, and the words that are looked for: each with its rank, which is the number of words where the list lacks it.
struct Listed {
    std::string list;
    size_t words = 0;
    std::vector<std::pair<std::string, size_t>> sought;
};

// A list of so many words of 3 to 12 letters, drawn with a seed.
static Listed drawn(size_t words) {
    std::mt19937_64 random(20261117);
    const auto word = [&] {
        std::string spelled(3 + random() % 10, 0);
        for (char &letter : spelled) letter = char('a' + random() % 26);
        return spelled;
    };
    Listed listed;
    listed.words = words;
    std::unordered_set<std::string> seen;
    std::vector<std::string> all;
    while (all.size() < words)
        if (const auto drawn = seen.insert(word()); drawn.second) all.push_back(*drawn.first);
    for (const std::string &each : all) listed.list += each + '\n';
    std::string absent = word();
    while (seen.count(absent)) absent = word();
    listed.sought = {{all[words / 2], words / 2}, {all[words - 1], words - 1}, {absent, words}};
    return listed;
}

static const uint8_t *bytes(const std::string &of) { return (const uint8_t *)of.data(); }

// The engine's calls: finding a word, and reading it.
static void find_word(const Listed &listed, const std::string &word, size_t rank) {
    const auto answer = concordance_find_word(bytes(listed.list), listed.list.size(), bytes(word), word.size());
    must(answer.refusal == 0 && answer.value == rank, "find_word");
}

static void read_by(decltype(&concordance_read_text) entry, const Listed &listed, const std::string &word, size_t rank) {
    uint32_t read = 0;
    const auto answer = entry(bytes(listed.list), listed.list.size(), bytes(word), word.size(), &read, 1);
    must(rank == listed.words ? answer.refusal == CONCORDANCE_REFUSED_UNLISTED : answer.refusal == 0 && read == rank, "read_text");
}

// By hand: each word of the list is tested and put into a hash set, then the folded word is compared with one after the other.
static size_t find_by_hand(const std::string &list, const std::string &word) {
    uint8_t letter[256];
    fill_letters(letter);
    std::unordered_set<std::string_view> distinct;
    size_t words = 0;
    for (size_t at = 0; at < list.size();) {
        const size_t end = list.find('\n', at);
        must(end != std::string::npos && end != at, "the list");
        for (size_t i = at; i < end; i++) must(letter[uint8_t(list[i])] == uint8_t(list[i]) && list[i] != 0, "the list");
        must(distinct.insert(std::string_view(list).substr(at, end - at)).second, "the list");
        at = end + 1;
        words++;
    }
    std::string folded;
    for (char byte : word) folded += char(letter[uint8_t(byte)]);
    size_t rank = 0;
    for (size_t at = 0; at < list.size(); rank++) {
        const size_t end = list.find('\n', at);
        if (std::string_view(list).substr(at, end - at) == folded) return rank;
        at = end + 1;
    }
    return words;
}

// By SQLite: a table in memory with each word once, filled in one transaction.
static size_t find_by_sqlite(const std::string &list, size_t words, const std::string &word) {
    sqlite3 *base = nullptr;
    sqlite3_stmt *statement = nullptr;
    must(sqlite3_open(":memory:", &base) == SQLITE_OK, "SQLite");
    const auto run = [&](const char *command) { must(sqlite3_exec(base, command, nullptr, nullptr, nullptr) == SQLITE_OK, command); };
    run("create table listed (rank integer primary key, word blob unique)");
    run("begin");
    must(sqlite3_prepare_v2(base, "insert into listed values (?, ?)", -1, &statement, nullptr) == SQLITE_OK, "SQLite");
    sqlite3_int64 rank = 0;
    for (size_t at = 0; at < list.size(); rank++) {
        const size_t end = list.find('\n', at);
        sqlite3_bind_int64(statement, 1, rank);
        sqlite3_bind_blob(statement, 2, list.data() + at, int(end - at), SQLITE_STATIC);
        must(sqlite3_step(statement) == SQLITE_DONE, "SQLite");
        sqlite3_reset(statement);
        at = end + 1;
    }
    sqlite3_finalize(statement);
    run("commit");
    must(sqlite3_prepare_v2(base, "select rank from listed where word = ?", -1, &statement, nullptr) == SQLITE_OK, "SQLite");
    sqlite3_bind_blob(statement, 1, word.data(), int(word.size()), SQLITE_STATIC);
    const size_t found = sqlite3_step(statement) == SQLITE_ROW ? size_t(sqlite3_column_int64(statement, 0)) : words;
    sqlite3_finalize(statement);
    sqlite3_close(base);
    return found;
}

// The reading of another archive; null where none is given.
static decltype(&concordance_read_text) read_before = nullptr;

static void measure(size_t words) {
    const Listed listed = drawn(words);
    const char *names[] = {"find_word, in the middle", "find_word, the last", "find_word, absent"};
    for (size_t i = 0; i < listed.sought.size(); i++) {
        const auto &[word, rank] = listed.sought[i];
        const auto ours = [&, &word = word, &rank = rank] { find_word(listed, word, rank); };
        const auto beside_reading = [&, &word = word, &rank = rank](decltype(&concordance_read_text) entry, const char *name) {
            const Both reading = in_turn(runs, ours, [&] { read_by(entry, listed, word, rank); });
            table.add(words, names[i], reading.one, name, reading.other);
        };
        beside_reading(concordance_read_text, "read_text of the word");
        if (read_before) beside_reading(read_before, "read_text of the other archive");
        const Both hand = in_turn(runs, ours, [&, &word = word, &rank = rank] { must(find_by_hand(listed.list, word) == rank, "by hand"); });
        table.add(words, names[i], hand.one, "by hand", hand.other);
        const Both peer = in_turn(3, ours, [&, &word = word, &rank = rank] { must(find_by_sqlite(listed.list, words, word) == rank, "SQLite"); });
        table.add(words, names[i], peer.one, "SQLite", peer.other);
    }
}

int main(int count, char **arguments) {
    std::printf("| words | what | engine, ms | beside | ms | ratio |\n|---|---|---|---|---|---|\n");
    if (count > 2) find(read_before, dlopen(arguments[2], RTLD_NOW | RTLD_LOCAL), "concordance_read_text");
    if (count > 1) {
        measure(std::stoul(arguments[1]));
        return 0;
    }
    for (size_t words : {1000, 24000, 240000, CONCORDANCE_MAX_VOCABULARY + 0}) measure(words);
}

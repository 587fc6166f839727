/*
 * What a call costs in instructions, which do not depend on what else the machine does: compile with the archive to be measured and run under
 * callgrind, once for each call, and compare what it collects with that of another archive.
 *
 *   cc -O2 -Iinclude bench/instructions.c target/staticlib/libconcordance.a -o target/instructions
 *   valgrind --tool=callgrind --callgrind-out-file=/dev/null target/instructions CALL [WORDS]
 *
 * CALL is 0 for the check, 1, 3, 4 or 5 for a sheet of 400 questions of that kind, 6 for 20 pages of 20 lines, 7 for measuring, 8 for building, 9
 * for building by the sizes that are measured, 10 for making the word list of a plain text of 65,535 bytes, 11 for the first page of 100 lines of the
 * phrase of no words, 12 for the page of 100 lines that ends with the last place, 13 for the count of the phrase of no words, 14 for reading the words
 * of the text as plain text through a list of 50,000 words, 15 for the same by a lent copy of the built-in letter table, 16 for making the list of 10
 * by such a copy, 17 for the check of a letter table. Each run builds the index once before its call. The text has 400,000 words, or as many as are
 * given, 20,000 at least, a few of them very frequent, so that phrases and neighbours have many hits. A sum of the answers is printed: it is the same
 * with every archive, and that of 15 is the same as of 14, that of 16 as of 10.
 *
 * What 11, 12 and 13 collect above 0, the check, is what a page and a count of the phrase of no words cost themselves. It does not grow with the number
 * of words; clearing tables on the stack takes up to some hundred instructions more or fewer by where they lie. What 15 collects above 14, and 16 above
 * 10, is what it costs that the letter table is lent. With --toggle-collect=concordance_list, or another entry, only what is done inside that entry is
 * collected.
 */
#include "concordance.h"
#include "letters.h"

#include <stdio.h>
#include <stdlib.h>

enum { VOCABULARY = 50000, BLOCK = 1024, PER = 8, QUESTIONS = 400, PAGES = 20, LINES = 20, PLACES = 100, LISTED_WORDS = CONCORDANCE_MAX_LIST_TEXT / 5 };

static uint64_t state = 88172645463325252ull;

static uint32_t random_number(void) {
    state ^= state << 13;
    state ^= state >> 7;
    state ^= state << 17;
    return (uint32_t)(state >> 11);
}

static uint32_t words[2 * QUESTIONS], answers[2 * QUESTIONS];

static void fill_text(uint32_t *text, size_t n) {
    for (size_t i = 0; i < n; i++) {
        double part = (random_number() % 1000000 + 1) / 1000000.0;
        uint32_t rank = (uint32_t)(1.0 / (part + 0.00002));
        if (random_number() % 2) rank = rank * 7 + random_number() % 5;
        text[i] = rank % VOCABULARY;
    }
}

int main(int count, char **arguments) {
    const int call = count > 1 ? atoi(arguments[1]) : 0;
    const size_t n = count > 2 ? strtoul(arguments[2], NULL, 10) : 400000;
    if (n < 20000 || n > CONCORDANCE_MAX_WORDS) return 1;
    uint32_t *text = calloc(n, sizeof *text);
    fill_text(text, n);
    const concordance_shape shape = {VOCABULARY, BLOCK, PER};
    const size_t nodes = (VOCABULARY + 127) / 128, most = 3 * n;
    const size_t upper = 256 * (most / (BLOCK * PER) + 1), lower = 256 * (most / BLOCK + 1);
    uint32_t *lengths = calloc(nodes, sizeof *lengths), *superblocks = calloc(upper, sizeof *superblocks);
    uint8_t *bytes = calloc(most, sizeof *bytes);
    uint16_t *blocks = calloc(lower, sizeof *blocks);
    const concordance_answer built =
        concordance_build(shape, text, n, lengths, nodes, bytes, most, superblocks, upper, blocks, lower);
    const size_t size = built.value;
#define INDEX lengths, nodes, bytes, size, superblocks, 256 * (size / (BLOCK * PER) + 1), blocks, 256 * (size / BLOCK + 1)

    concordance_question questions[QUESTIONS] = {0};
    for (int i = 0; i < QUESTIONS; i++) {
        const size_t place = random_number() % (n - 8);
        words[2 * i] = text[place];
        words[2 * i + 1] = text[place + 1];
        questions[i].kind = (uint32_t)call;
        questions[i].w = text[place];
        questions[i].v = text[place + 3];
        questions[i].d = 3;
        questions[i].p = call == 3 ? 1 : place;
        questions[i].start = 2 * i;
        questions[i].length = 2;
    }

    uint8_t letters[256];
    fill_letters(letters);
    uint64_t sum = built.refusal;
    if (call == 0) {
        sum += concordance_check(shape, INDEX).refusal;
    } else if (call == 6) {
        for (int i = 0; i < PAGES; i++) {
            uint32_t lines[LINES];
            const concordance_page page =
                concordance_list(concordance_open(), shape, INDEX, words, 2 * QUESTIONS, 2 * i, 2, lines, LINES);
            for (size_t k = 0; k < page.answer.value; k++) sum += lines[k];
        }
    } else if (call == 7) {
        const concordance_measured measured = concordance_measure(shape, text, n);
        const concordance_sizes sizes = measured.sizes;
        sum += measured.answer.refusal + sizes.nodes + sizes.bytes + sizes.superblock_rows + sizes.block_rows;
    } else if (call == 8) {
        sum += concordance_build(shape, text, n, INDEX).value;
    } else if (call == 9) {
        const concordance_sizes sizes = {nodes, size, size / (BLOCK * PER) + 1, size / BLOCK + 1};
        sum += concordance_build_sized(shape, sizes, text, n, INDEX).value;
    } else if (call == 10 || call == 16) {
        static char plain[CONCORDANCE_MAX_LIST_TEXT];
        static uint8_t list[CONCORDANCE_MAX_LIST_TEXT + 1];
        static uint32_t ranks[LISTED_WORDS];
        for (int i = 0; i < LISTED_WORDS; i++) sprintf(plain + 5 * i, "%04x ", (unsigned)text[i] % 4096);
        const uint8_t *spelled = (const uint8_t *)plain;
        const size_t length = 5 * LISTED_WORDS;
        const concordance_list_made made =
            call == 10 ? concordance_make_list(spelled, length, list, sizeof list, ranks, LISTED_WORDS)
                       : concordance_make_list_with(letters, sizeof letters, spelled, length, list, sizeof list, ranks, LISTED_WORDS);
        sum += made.answer.refusal + made.bytes + made.words;
        for (size_t i = 0; i < made.words; i++) sum = sum * 31 + ranks[i];
    } else if (call == 11 || call == 12) {
        uint32_t lines[PLACES];
        const concordance_listing listing = {call == 11 ? 0 : n + 1 - PLACES, false};
        const concordance_page page = concordance_list(listing, shape, INDEX, words, 2 * QUESTIONS, 0, 0, lines, PLACES);
        sum += page.answer.refusal + page.listing.next;
        for (size_t k = 0; k < page.answer.value; k++) sum += lines[k];
    } else if (call == 13) {
        const concordance_question question = {.kind = 5, .start = 0, .length = 0};
        sum += concordance_ask(shape, INDEX, words, 2 * QUESTIONS, question).value;
    } else if (call == 14 || call == 15) {
        char *list = malloc(5 * VOCABULARY + 1), *plain = malloc(5 * n + 1);
        uint32_t *ranks = calloc(n, sizeof *ranks);
        for (size_t i = 0; i < VOCABULARY; i++) sprintf(list + 5 * i, "%04x\n", (unsigned)i);
        for (size_t i = 0; i < n; i++) sprintf(plain + 5 * i, "%04X ", (unsigned)text[i]);
        const uint8_t *listed = (const uint8_t *)list, *spelled = (const uint8_t *)plain;
        const concordance_answer read =
            call == 14 ? concordance_read_text(listed, 5 * VOCABULARY, spelled, 5 * n, ranks, n)
                       : concordance_read_text_with(letters, sizeof letters, listed, 5 * VOCABULARY, spelled, 5 * n, ranks, n);
        sum += read.refusal + read.value;
        for (size_t i = 0; i < read.value; i++) sum = sum * 31 + ranks[i];
    } else if (call == 17) {
        sum += concordance_check_letters(letters, sizeof letters).refusal;
    } else {
        sum += concordance_answer_sheet(shape, INDEX, words, 2 * QUESTIONS, questions, QUESTIONS, answers, 2 * QUESTIONS).refusal;
        for (int i = 0; i < 2 * QUESTIONS; i++) sum = sum * 31 + answers[i];
    }
    printf("call %d, bytes %zu, sum %llu\n", call, size, (unsigned long long)sum);
    return 0;
}

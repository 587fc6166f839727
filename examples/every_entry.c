/* Calls each of the twenty-two entries on a small text, the sample of the scope paper, and shows a refusal of each entry that has one to teach. */
#include "concordance.h"

#include <stdio.h>
#include <string.h>

/* The text has 5 words, the largest of rank 129. Its stream has 8 bytes, V 130 makes 2 nodes, and 8 bytes need one row of each counter. */
enum { VOCABULARY = 130, WORDS = 5, NODES = 2, BYTES = 8, ROW = 256 };

/* The number of entries of a letter table. */
enum { LETTERS = 256 };

static const uint32_t text[WORDS] = {0, 128, 0, 129, 128};
static const concordance_shape shape = {VOCABULARY, 256, 8};

/* The index of the text, and how it is lent to a call. */
static uint32_t lengths[NODES], superblocks[ROW];
static uint8_t bytes[BYTES];
static uint16_t blocks[ROW];
#define INDEX lengths, NODES, bytes, BYTES, superblocks, ROW, blocks, ROW

static void show(const char *call, concordance_answer answer) {
    if (answer.refusal == CONCORDANCE_ACCEPTED) {
        printf("%s: %zu\n", call, answer.value);
    } else {
        printf("%s: refused %u with %zu\n", call, answer.refusal, answer.value);
    }
}

static void show_numbers(const uint32_t *numbers, size_t count) {
    for (size_t i = 0; i < count; i++) printf(" %u", numbers[i]);
    printf("\n");
}

static void show_bytes(const uint8_t *values, size_t count) {
    for (size_t i = 0; i < count; i++) printf(" %02X", values[i]);
    printf("\n");
}

static void show_measured(const char *call, concordance_measured measured) {
    show(call, measured.answer);
    const concordance_sizes sizes = measured.sizes;
    printf(" nodes %zu, bytes %zu, superblock rows %zu, block rows %zu\n", sizes.nodes, sizes.bytes, sizes.superblock_rows, sizes.block_rows);
}

static void show_nodes(void) {
    show_numbers(lengths, NODES);
    show_bytes(bytes, BYTES);
}

/* Entries 1 and 2: a text as a stream of codewords, and back. */
static void streams(void) {
    uint8_t stream[BYTES];
    show("write_stream", concordance_write_stream(VOCABULARY, text, WORDS, stream, BYTES));
    show_bytes(stream, BYTES);
    show("write_stream, V 129", concordance_write_stream(129, text, WORDS, stream, BYTES)); /* rank 129 stands at place 3 */

    uint32_t read[WORDS];
    show("read_stream", concordance_read_stream(stream, BYTES, read, WORDS));
    show_numbers(read, WORDS);
    show("read_stream, room for 4 words", concordance_read_stream(stream, BYTES, read, 4));
    show("read_stream, without the last byte", concordance_read_stream(stream, BYTES - 1, read, WORDS));
}

/* Entries 3 and 4: what the index of the text needs, and its building by these sizes; a text that was changed between is noticed by its sizes. */
static void index_in_two_calls(void) {
    const concordance_measured measured = concordance_measure(shape, text, WORDS);
    show_measured("measure", measured);
    const concordance_shape smaller = {129, 256, 8};
    show_measured("measure, V 129", concordance_measure(smaller, text, WORDS)); /* rank 129 stands at place 3 */

    const uint32_t shorter[WORDS] = {0, 128, 0, 129, 0}; /* its stream has 7 bytes */
    show("build_sized, a shorter stream", concordance_build_sized(shape, measured.sizes, shorter, WORDS, INDEX));
    show_nodes(); /* as they were */
    const uint32_t swapped[WORDS] = {0, 129, 0, 128, 128}; /* its stream has 8 bytes too */
    show("build_sized, two words swapped", concordance_build_sized(shape, measured.sizes, swapped, WORDS, INDEX));
    show_nodes();
    show("build_sized", concordance_build_sized(shape, measured.sizes, text, WORDS, INDEX));
    show_nodes();
}

/* Entries 5 and 6: the index of the text in one call, and its check. */
static void index_of_the_text(void) {
    show("build", concordance_build(shape, text, WORDS, INDEX));
    show_nodes();
    const concordance_shape no_blocks = {VOCABULARY, 0, 8};
    show("build, B 0", concordance_build(no_blocks, text, WORDS, INDEX));

    show("check", concordance_check(shape, INDEX));
    blocks[0x80]++;
    show("check, a counter one too high", concordance_check(shape, INDEX));
    blocks[0x80]--;
}

/* Entries 7 and 8: one question, and a sheet with questions of each kind. The phrase of no words is counted at every place, 5 too. */
static void questions(void) {
    const uint32_t words[2] = {0, 128};
    const concordance_question sheet[8] = {
        {.kind = 1, .p = 3},                    /* the rank at place 3 */
        {.kind = 2, .w = 128, .p = 4},          /* how often 128 stands below place 4 */
        {.kind = 3, .w = 128, .p = 2},          /* the place of the second 128 */
        {.kind = 4, .w = 0, .v = 129, .d = 1},  /* how often 129 stands right after 0 */
        {.kind = 5, .start = 0, .length = 2},   /* how often the phrase 0 128 stands */
        {.kind = 5, .start = 2, .length = 0},   /* the phrase of no words, at the end of the lent words */
        {.kind = 5, .start = 3, .length = 0},   /* past their end */
        {.kind = 1, .p = 5},                    /* past the end of the text */
    };
    show("ask, the second 128", concordance_ask(shape, INDEX, words, 2, sheet[2]));
    const concordance_question third = {.kind = 3, .w = 128, .p = 3};
    show("ask, the third 128", concordance_ask(shape, INDEX, words, 2, third));
    const concordance_question no_words = {.kind = 5, .start = 0, .length = 0};
    show("ask, no words, none lent", concordance_ask(shape, INDEX, words, 0, no_words));

    uint32_t answers[16];
    show("answer_sheet", concordance_answer_sheet(shape, INDEX, words, 2, sheet, 8, answers, 16));
    for (size_t i = 0; i < 8; i++) printf(" kind %u: refusal %u, value %u\n", sheet[i].kind, answers[2 * i], answers[2 * i + 1]);
    show("answer_sheet, room for 15 numbers", concordance_answer_sheet(shape, INDEX, words, 2, sheet, 8, answers, 15));
}

/* Entry 9: a part of the text, read back from the index. */
static void passages(void) {
    uint32_t passage[3];
    show("passage from place 2", concordance_passage(shape, INDEX, 2, passage, 3));
    show_numbers(passage, 3);
    show("passage from place 3", concordance_passage(shape, INDEX, 3, passage, 3)); /* its last word would lie past the end */
}

/* Entries 10 and 11: the places of a word, on pages of one line; a refused page hands back the state, and the listing goes on. */
static void pages(void) {
    const uint32_t word[1] = {128};
    uint32_t line[1];
    concordance_listing listing = concordance_open();
    printf("open: next %zu, %s\n", listing.next, listing.finished ? "finished" : "not finished");

    concordance_page page = concordance_list(listing, shape, INDEX, word, 1, 0, 1, line, 0);
    show("list, no line", page.answer);
    do {
        page = concordance_list(page.listing, shape, INDEX, word, 1, 0, 1, line, 1);
        show("list", page.answer);
        printf(" place %u, next %zu, %s\n", line[0], page.listing.next, page.more ? "more follow" : "the end");
    } while (page.more);
}

/* Entries 10 and 11 with the phrase of no words, which stands at each of the places 0 to 5: the first page is full one place before the last. */
static void every_place(void) {
    const uint32_t word[1] = {128};
    uint32_t lines[WORDS];
    concordance_page page = concordance_list(concordance_open(), shape, INDEX, word, 1, 2, 0, lines, WORDS);
    show("list, no words, past the lent word", page.answer);
    do {
        page = concordance_list(page.listing, shape, INDEX, word, 1, 1, 0, lines, WORDS);
        show("list, no words", page.answer);
        show_numbers(lines, page.answer.value);
        printf(" next %zu, %s\n", page.listing.next, page.more ? "more follow" : "the end");
    } while (page.more);
}

/* Document starts of the text: with the first it is made of 0 128 and 0 129 128, with the second of 0 and 128 0 129 128; the last two break a rule. */
static const uint32_t after[2] = {0, 2}, inside[2] = {0, 1}, at_the_end[2] = {0, WORDS}, twice[2] = {0, 0};

/* Entries 12 and 13: questions with document starts. The phrase 0 128 stands at place 0, and with a border between its words nowhere; the phrase of no
   words keeps its places. */
static void questions_in_documents(void) {
    const uint32_t words[2] = {0, 128};
    const concordance_question phrase = {.kind = 5, .start = 0, .length = 2}, rank = {.kind = 1, .p = 3};
    show("ask_in_documents, a border after 0 128", concordance_ask_in_documents(shape, INDEX, after, 2, words, 2, phrase));
    show("ask_in_documents, a border inside 0 128", concordance_ask_in_documents(shape, INDEX, inside, 2, words, 2, phrase));
    show("ask_in_documents, a start at the end", concordance_ask_in_documents(shape, INDEX, at_the_end, 2, words, 2, phrase));
    show("ask_in_documents, kind 1, no start", concordance_ask_in_documents(shape, INDEX, after, 0, words, 2, rank));

    const concordance_question sheet[6] = {
        {.kind = 4, .w = 0, .v = 129, .d = 1},    /* 129 right after 0, in the second document */
        {.kind = 4, .w = 0, .v = 128, .d = -1},   /* 128 right before 0, in the document before */
        {.kind = 5, .start = 0, .length = 2},     /* the phrase 0 128 */
        {.kind = 5, .start = 2, .length = 0},     /* the phrase of no words */
        {.kind = 3, .w = 128, .p = 2},            /* the place of the second 128, in whichever document */
        {.kind = 5, .start = 0, .length = 17},    /* a phrase of 17 words */
    };
    uint32_t answers[12];
    show("answer_sheet_in_documents", concordance_answer_sheet_in_documents(shape, INDEX, after, 2, words, 2, sheet, 6, answers, 12));
    for (size_t i = 0; i < 6; i++) printf(" kind %u: refusal %u, value %u\n", sheet[i].kind, answers[2 * i], answers[2 * i + 1]);
    show("answer_sheet_in_documents, a start twice", concordance_answer_sheet_in_documents(shape, INDEX, twice, 2, words, 2, sheet, 6, answers, 12));
    show("answer_sheet_in_documents, room for 11 numbers", concordance_answer_sheet_in_documents(shape, INDEX, after, 2, words, 2, sheet, 6, answers, 11));
}

/* Entry 14: the places of 128 on pages of one line; a page whose starts break a rule hands back the state, and the listing goes on. Then those of 128 0,
   which stands across a border. */
static void pages_in_documents(void) {
    const uint32_t words[2] = {128, 0};
    uint32_t line[1];
    concordance_page page = {.listing = concordance_open()};
    do {
        page = concordance_list_in_documents(page.listing, shape, INDEX, at_the_end, 2, words, 2, 0, 1, line, 1);
        show("list_in_documents, a start at the end", page.answer);
        page = concordance_list_in_documents(page.listing, shape, INDEX, after, 2, words, 2, 0, 1, line, 1);
        show("list_in_documents", page.answer);
        printf(" place %u, next %zu, %s\n", line[0], page.listing.next, page.more ? "more follow" : "the end");
    } while (page.more);
    page = concordance_list_in_documents(concordance_open(), shape, INDEX, after, 2, words, 2, 0, 2, line, 1);
    show("list_in_documents, 128 0", page.answer);
    printf(" next %zu, %s\n", page.listing.next, page.more ? "more follow" : "the end");
}

/* Entry 15: how often a phrase stands in each document. */
static void summaries(void) {
    const uint32_t words[2] = {0, 128};
    uint32_t counts[3] = {9, 9, 9};
    show("summary, 128", concordance_summary(shape, INDEX, after, 2, words, 2, 1, 1, counts, 3));
    show_numbers(counts, 3); /* the last stays */
    show("summary, 0 128", concordance_summary(shape, INDEX, after, 2, words, 2, 0, 2, counts, 2));
    show_numbers(counts, 2);
    show("summary, no words", concordance_summary(shape, INDEX, after, 2, words, 2, 0, 0, counts, 2));
    show("summary, room for 1 count", concordance_summary(shape, INDEX, after, 2, words, 2, 0, 1, counts, 1));
    show("summary, a start twice", concordance_summary(shape, INDEX, twice, 2, words, 2, 0, 0, counts, 1)); /* 8 and 12 apply besides */
}

/* Entry 16: plain text through a word list. */
static void plain_text(void) {
    const char *list = "tick\ntock\n", *plain = "Tick, tock! TICK.", *other = "tick, tack";
    uint32_t ranks[3];
    show("read_text", concordance_read_text((const uint8_t *)list, strlen(list), (const uint8_t *)plain, strlen(plain), ranks, 3));
    show_numbers(ranks, 3);
    show("read_text, an unlisted word", concordance_read_text((const uint8_t *)list, strlen(list), (const uint8_t *)other, strlen(other), ranks, 3));
    show("read_text, an unclosed list", concordance_read_text((const uint8_t *)list, strlen(list) - 1, (const uint8_t *)plain, strlen(plain), ranks, 3));
}

static concordance_answer find(const char *list, size_t list_len, const char *spelling) {
    return concordance_find_word((const uint8_t *)list, list_len, (const uint8_t *)spelling, strlen(spelling));
}

/* Entry 17: the rank of a spelled word in the list w0 to w129, and V, which is 130, where the list lacks it. The index has the V of the list, so that these
   ranks can be asked about: the absent word stands nowhere, and only a rank above V is refused. */
static void absent_words(void) {
    char list[VOCABULARY * 5 + 1];
    size_t list_len = 0;
    for (int rank = 0; rank < VOCABULARY; rank++) list_len += (size_t)sprintf(list + list_len, "w%d\n", rank);
    const concordance_answer found = find(list, list_len, "W128"), absent = find(list, list_len, "Owl");
    show("find_word, W128", found);
    show("find_word, Owl", absent);
    show("find_word, w128 and a line end", find(list, list_len, "w128\n"));
    show("find_word, an empty spelling", find(list, list_len, ""));
    show("find_word, an unclosed list", find(list, list_len - 1, "w128"));

    const uint32_t w128 = (uint32_t)found.value, owl = (uint32_t)absent.value, words[3] = {w128, owl, owl + 1};
    const concordance_question phrase = {.kind = 5, .start = 0, .length = 2}, above = {.kind = 5, .start = 0, .length = 3};
    show("ask, w128 owl", concordance_ask(shape, INDEX, words, 3, phrase));
    show("ask, w128 owl and a rank above V", concordance_ask(shape, INDEX, words, 3, above));
    const concordance_question sheet[5] = {
        {.kind = 2, .w = owl, .p = WORDS},              /* how often owl stands */
        {.kind = 3, .w = owl, .p = 1},                  /* its first place */
        {.kind = 4, .w = w128, .v = owl, .d = 1},       /* how often it stands right after w128 */
        {.kind = 5, .start = 1, .length = 1},           /* the phrase owl */
        {.kind = 4, .w = owl + 1, .v = w128, .d = 1},   /* a rank above V */
    };
    uint32_t answers[10];
    show("answer_sheet, absent words", concordance_answer_sheet(shape, INDEX, words, 3, sheet, 5, answers, 10));
    for (size_t i = 0; i < 5; i++) printf(" kind %u: refusal %u, value %u\n", sheet[i].kind, answers[2 * i], answers[2 * i + 1]);

    uint32_t line[1];
    const concordance_page page = concordance_list(concordance_open(), shape, INDEX, words, 3, 0, 2, line, 1);
    show("list, w128 owl", page.answer);
    printf(" next %zu, %s\n", page.listing.next, page.more ? "more follow" : "the end");
    uint32_t counts[2];
    show("summary, w128 owl", concordance_summary(shape, INDEX, after, 2, words, 3, 0, 2, counts, 2));
    show_numbers(counts, 2);
}

/* Entry 18: the word list of a plain text that comes without one, and the text's ranks by it. */
static void word_lists(void) {
    const char *plain = "Tock, tick! TICK.";
    uint8_t list[10];
    uint32_t ranks[3];
    const concordance_list_made made = concordance_make_list((const uint8_t *)plain, strlen(plain), list, 10, ranks, 3);
    show("make_list", made.answer);
    printf(" bytes %zu, words %zu\n", made.bytes, made.words);
    show_bytes(list, made.bytes); /* tick, then tock, which stands once only */
    show_numbers(ranks, made.words);
    show("make_list, room for 9 bytes", concordance_make_list((const uint8_t *)plain, strlen(plain), list, 9, ranks, 3).answer);

    static const uint8_t longer[CONCORDANCE_MAX_LIST_TEXT + 1];
    show("make_list, 65,537 bytes", concordance_make_list(longer, sizeof longer, list, 10, ranks, 3).answer);
}

/* The entries of the built-in letter table: what is kept, what gains 20, and 0 for the rest. */
static void fill_letters(uint8_t letters[LETTERS]) {
    for (int byte = 0; byte < LETTERS; byte++) {
        const bool kept = (byte >= 0x30 && byte <= 0x39) || (byte >= 0x61 && byte <= 0x7A) || byte >= 0xDF;
        const bool capital = (byte >= 0x41 && byte <= 0x5A) || (byte >= 0xC0 && byte <= 0xDE);
        letters[byte] = (uint8_t)(byte == 0xD7 || byte == 0xF7 ? 0 : kept ? byte : capital ? byte + 0x20 : 0);
    }
}

/* Entries 19 to 22: a letter table of one's own, which is the built-in one with F7 as a letter and D7 as its capital, its check, and reading plain text,
   finding a spelled word and making a list by it. */
static void own_letters(void) {
    uint8_t letters[LETTERS];
    fill_letters(letters);
    show("check_letters, the built-in table", concordance_check_letters(letters, LETTERS));
    letters[0xD7] = 0xF7;
    show("check_letters, D7 read as F7, a separator", concordance_check_letters(letters, LETTERS));
    letters[0xF7] = 0xF7;
    show("check_letters, D7 read as F7, a letter", concordance_check_letters(letters, LETTERS));
    show("check_letters, 255 entries", concordance_check_letters(letters, LETTERS - 1));

    const uint8_t list[4] = {0x61, 0xF7, 0x62, 0x0A}, plain[7] = {0x41, 0xD7, 0x42, 0x20, 0x61, 0xF7, 0x62};
    uint32_t ranks[2];
    show("read_text_with", concordance_read_text_with(letters, LETTERS, list, 4, plain, 3, ranks, 2));
    show_numbers(ranks, 1);
    show("read_text, the same list", concordance_read_text(list, 4, plain, 3, ranks, 2)); /* F7 is not kept */
    show("find_word_with", concordance_find_word_with(letters, LETTERS, list, 4, plain, 3));
    show("find_word_with, a word that the list lacks", concordance_find_word_with(letters, LETTERS, list, 4, plain, 2));
    show("find_word, the same list", concordance_find_word(list, 4, plain, 3));

    uint8_t made_list[4];
    concordance_list_made made = concordance_make_list_with(letters, LETTERS, plain, 7, made_list, 4, ranks, 2);
    show("make_list_with", made.answer);
    printf(" bytes %zu, words %zu\n", made.bytes, made.words);
    show_bytes(made_list, made.bytes);
    show_numbers(ranks, made.words);
    letters[0x0A] = 0x61;
    show("find_word_with, 0A read as a letter", concordance_find_word_with(letters, LETTERS, list, 0, plain, 3)); /* the list is empty besides */
    made = concordance_make_list_with(letters, LETTERS, plain, 7, made_list, 0, ranks, 0); /* the slices are too short besides */
    show("make_list_with, 0A read as a letter", made.answer);
    printf(" bytes %zu, words %zu\n", made.bytes, made.words);
}

int main(void) {
    streams();
    index_in_two_calls();
    index_of_the_text();
    questions();
    passages();
    pages();
    every_place();
    questions_in_documents();
    pages_in_documents();
    summaries();
    plain_text();
    absent_words();
    word_lists();
    own_letters();
    return 0;
}

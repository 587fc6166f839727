/*
 * Prints how many bytes of stack each entry needs: it calls the entry on a thread whose stack is painted below the caller, and looks how
 * far down the paint is gone. The first 512 bytes are not painted and always counted.
 *
 *   cc -O2 -Iinclude bench/stack.c target/staticlib/libconcordance.a -lpthread -o target/stack && target/stack
 */
#include "concordance.h"
#include "letters.h"

#include <pthread.h>
#include <stdio.h>
#include <stdlib.h>
#include <string.h>

enum { VOCABULARY = 2113664, LISTED = 200000, WORDS = 20000, DOCUMENTS = 2000, NODES = (VOCABULARY + 127) / 128, BLOCK = 256, PER_SUPERBLOCK = 8, STACK = 4 << 20 };
enum { MOST_BYTES = 3 * WORDS, SUPERBLOCKS = 256 * (MOST_BYTES / (BLOCK * PER_SUPERBLOCK) + 1), BLOCKS = 256 * (MOST_BYTES / BLOCK + 1) };

static const concordance_shape shape = {VOCABULARY, BLOCK, PER_SUPERBLOCK};
static uint32_t text[WORDS], lengths[NODES], superblocks[SUPERBLOCKS], starts[DOCUMENTS], into[WORDS];
static uint16_t blocks[BLOCKS];
static uint8_t bytes[MOST_BYTES], stream[MOST_BYTES];
static char list[LISTED * 8], plain[WORDS * 9], sample[CONCORDANCE_MAX_LIST_TEXT];
static uint8_t made[CONCORDANCE_MAX_LIST_TEXT + 1], letters[256];
static concordance_sizes sizes;
#define INDEX lengths, sizes.nodes, bytes, sizes.bytes, superblocks, 256 * sizes.superblock_rows, blocks, 256 * sizes.block_rows

static void must(concordance_answer answer) {
    if (answer.refusal != CONCORDANCE_ACCEPTED) {
        fprintf(stderr, "refused %u\n", answer.refusal);
        exit(1);
    }
}

static void write_stream(void) { must(concordance_write_stream(VOCABULARY, text, WORDS, stream, MOST_BYTES)); }
static void read_stream(void) { must(concordance_read_stream(stream, sizes.bytes, into, WORDS)); }
static void measure(void) { must(concordance_measure(shape, text, WORDS).answer); }
static void build_sized(void) { must(concordance_build_sized(shape, sizes, text, WORDS, INDEX)); }
static void build(void) { must(concordance_build(shape, text, WORDS, INDEX)); }
static void check(void) { must(concordance_check(shape, INDEX)); }
static void passage(void) { must(concordance_passage(shape, INDEX, 5, into, 100)); }
static void open_listing(void) { (void)concordance_open(); }
static void list_page(void) { must(concordance_list(concordance_open(), shape, INDEX, text, 16, 0, 2, into, 3).answer); }
static void read_text(void) {
    must(concordance_read_text((const uint8_t *)list, strlen(list), (const uint8_t *)plain, strlen(plain), into, WORDS));
}
static void find_word(void) { must(concordance_find_word((const uint8_t *)list, strlen(list), (const uint8_t *)"no", 2)); }
static void find_word_with(void) {
    must(concordance_find_word_with(letters, sizeof letters, (const uint8_t *)list, strlen(list), (const uint8_t *)"no", 2));
}
static void make_list(void) { must(concordance_make_list((const uint8_t *)sample, strlen(sample), made, sizeof made, into, WORDS).answer); }
static void check_letters(void) { must(concordance_check_letters(letters, sizeof letters)); }
static void read_text_with(void) {
    must(concordance_read_text_with(letters, sizeof letters, (const uint8_t *)list, strlen(list), (const uint8_t *)plain, strlen(plain), into, WORDS));
}
static void make_list_with(void) {
    must(concordance_make_list_with(letters, sizeof letters, (const uint8_t *)sample, strlen(sample), made, sizeof made, into, WORDS).answer);
}

static const concordance_question questions[5] = {{1, 0, 0, 0, WORDS - 1, 0, 0}, {2, 1, 0, 0, WORDS, 0, 0}, {3, 0, 0, 0, 1, 0, 0},
                                                  {4, 1, 2, 1, 0, 0, 0}, {5, 0, 0, 0, 0, 0, 16}};
static void ask(void) {
    for (size_t i = 0; i < 5; i++) must(concordance_ask(shape, INDEX, text, 16, questions[i]));
}
static void answer_sheet(void) { must(concordance_answer_sheet(shape, INDEX, text, 16, questions, 5, into, 10)); }
static void ask_in_documents(void) {
    for (size_t i = 0; i < 5; i++) must(concordance_ask_in_documents(shape, INDEX, starts, DOCUMENTS, text, 16, questions[i]));
}
static void answer_sheet_in_documents(void) {
    must(concordance_answer_sheet_in_documents(shape, INDEX, starts, DOCUMENTS, text, 16, questions, 5, into, 10));
}
static void list_page_in_documents(void) {
    must(concordance_list_in_documents(concordance_open(), shape, INDEX, starts, DOCUMENTS, text, 16, 0, 2, into, 3).answer);
}
static void summary(void) { must(concordance_summary(shape, INDEX, starts, DOCUMENTS, text, 16, 0, 2, into, WORDS)); }

/* A call to make, the stack to make it on, and the address in that stack from which the call's part is counted. */
struct run {
    void (*call)(void);
    unsigned char *stack, *top;
};

static void *painted(void *given) {
    struct run *run = given;
    run->top = __builtin_frame_address(0);
    memset(run->stack, 0xA5, (size_t)(run->top - run->stack) - 512);
    run->call();
    return NULL;
}

/* How many bytes of its stack a call writes over. */
static size_t needed(void (*call)(void)) {
    struct run run = {call, aligned_alloc(1 << 16, STACK), NULL};
    pthread_attr_t attributes;
    pthread_t thread;
    if (run.stack == NULL || pthread_attr_init(&attributes) != 0 || pthread_attr_setstack(&attributes, run.stack, STACK) != 0 ||
        pthread_create(&thread, &attributes, painted, &run) != 0 || pthread_join(thread, NULL) != 0) {
        fprintf(stderr, "no thread\n");
        exit(1);
    }
    const unsigned char *lowest = run.stack;
    while (*lowest == 0xA5) lowest++;
    const size_t bytes_needed = (size_t)(run.top - lowest);
    free(run.stack);
    return bytes_needed;
}

/* A text with words of one, two and three bytes, its index and document starts, a word list of several parts, a plain text, one that a list is made
   of, and a letter table. */
static void prepare(void) {
    for (uint32_t i = 0; i < WORDS; i++) text[i] = i % 3 == 0 ? i % 100 : i % 3 == 1 ? i % 16000 : i * 7919u % VOCABULARY;
    for (uint32_t i = 0; i < DOCUMENTS; i++) starts[i] = i * (WORDS / DOCUMENTS);
    char *end = list;
    for (int i = 0; i < LISTED; i++) end += sprintf(end, "w%d\n", i);
    end = plain;
    for (int i = 0; i < WORDS; i++) end += sprintf(end, "W%d, ", i * 10 % LISTED);
    end = sample;
    for (int i = 0; i < CONCORDANCE_MAX_LIST_TEXT / 5; i++) end += sprintf(end, "%04d ", i % 4000);
    fill_letters(letters);
    sizes = concordance_measure(shape, text, WORDS).sizes;
    write_stream();
    build();
}

int main(void) {
    static const struct {
        const char *name;
        void (*call)(void);
    } entries[] = {{"write_stream", write_stream}, {"read_stream", read_stream}, {"measure", measure}, {"build_sized", build_sized},
                   {"build", build}, {"check", check}, {"ask", ask}, {"answer_sheet", answer_sheet}, {"passage", passage},
                   {"open", open_listing}, {"list", list_page}, {"ask_in_documents", ask_in_documents},
                   {"answer_sheet_in_documents", answer_sheet_in_documents}, {"list_in_documents", list_page_in_documents},
                   {"summary", summary}, {"read_text", read_text}, {"find_word", find_word},
                   {"make_list", make_list}, {"check_letters", check_letters}, {"read_text_with", read_text_with},
                   {"find_word_with", find_word_with}, {"make_list_with", make_list_with}};
    prepare();
    for (size_t i = 0; i < sizeof entries / sizeof entries[0]; i++) {
        printf("%s: %zu bytes\n", entries[i].name, needed(entries[i].call));
    }
    return 0;
}

/* Makes the word list of a plain text, measures and builds the text's index, reads a phrase through the list, counts it and lists its places. */
#include "concordance.h"

#include <stdio.h>
#include <stdlib.h>
#include <string.h>

#define TEXT "The cat sat on the mat. The cat sat."
#define PHRASE "the cat"
#define BLOCK 256
#define PER_SUPERBLOCK 8

int main(void) {
    uint8_t list[sizeof TEXT]; /* a list has at most one byte more than its text */
    uint32_t text[sizeof TEXT / 2];
    concordance_list_made made = concordance_make_list((const uint8_t *)TEXT, strlen(TEXT), list, sizeof list, text, sizeof TEXT / 2);
    size_t vocabulary = 0;
    for (size_t i = 0; i < made.bytes; i++) vocabulary += list[i] == '\n';
    printf("words read: %zu, of them different: %zu (refusal %u)\n", made.words, vocabulary, made.answer.refusal);

    concordance_shape shape = {vocabulary, BLOCK, PER_SUPERBLOCK};
    concordance_measured measured = concordance_measure(shape, text, made.words);
    concordance_sizes sizes = measured.sizes;
    size_t memory = 4 * sizes.nodes + sizes.bytes + 1024 * sizes.superblock_rows + 512 * sizes.block_rows;
    printf("memory for the index: %zu bytes (refusal %u)\n", memory, measured.answer.refusal);

    size_t upper = 256 * sizes.superblock_rows, lower = 256 * sizes.block_rows;
    uint32_t *lengths = calloc(sizes.nodes, sizeof *lengths), *superblocks = calloc(upper, sizeof *superblocks);
    uint8_t *bytes = calloc(sizes.bytes, sizeof *bytes);
    uint16_t *blocks = calloc(lower, sizeof *blocks);
    if (lengths == NULL || superblocks == NULL || bytes == NULL || blocks == NULL) return 1;
#define INDEX lengths, sizes.nodes, bytes, sizes.bytes, superblocks, upper, blocks, lower
    concordance_answer built = concordance_build_sized(shape, sizes, text, made.words, INDEX);
    printf("node bytes of the index: %zu (refusal %u)\n", built.value, built.refusal);

    uint32_t phrase[CONCORDANCE_MAX_PHRASE];
    concordance_answer read = concordance_read_text(list, made.bytes, (const uint8_t *)PHRASE, strlen(PHRASE), phrase, CONCORDANCE_MAX_PHRASE);
    printf("words of the phrase: %zu (refusal %u)\n", read.value, read.refusal);
    concordance_question question = {.kind = 5, .start = 0, .length = read.value};
    concordance_answer count = concordance_ask(shape, INDEX, phrase, read.value, question);
    printf("\"the cat\" stands %zu times (refusal %u)\n", count.value, count.refusal);

    concordance_listing listing = concordance_open();
    bool more = true;
    while (more) {
        uint32_t line[1];
        concordance_page page = concordance_list(listing, shape, INDEX, phrase, read.value, 0, read.value, line, 1);
        printf("a page of one line: place %u, %s\n", line[0], page.more ? "more follow" : "the end");
        listing = page.listing;
        more = page.more;
    }

    bytes[0] = 5; /* says that another byte follows, in node 6, and there is only node 0 */
    concordance_answer damaged = concordance_check(shape, INDEX);
    printf("with a byte that leads to a missing node: refusal %u\n", damaged.refusal);
    free(lengths);
    free(superblocks);
    free(bytes);
    free(blocks);
    return 0;
}

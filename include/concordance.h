/*
 * The concordance index over End-Tagged Dense Code: the entries of the archive libconcordance.a, for C and C++.
 *
 * Words. A text is a sequence of n words, each given as its rank, 0 to V - 1, where V is the size of the vocabulary: V is 1 to 2,113,664,
 * n is 0 to 16,777,216. Places in the text count from 0. B is the block length, b the number of blocks of a superblock, S = B * b. L is the
 * number of bytes of the text's stream. The index of a text is four arrays: `lengths`, the length of each node of the byte tree; `bytes`,
 * the L bytes of the nodes; `superblocks` and `blocks`, the counters of these bytes. Node 0 is the root and has one byte for each word, so
 * that `lengths[0]` of an index is n.
 *
 * Sizes. The codeword of a rank has 1 byte up to 127, 2 from 128 to 16,511, 3 from 16,512 on; L is their sum over the text, at most 3 * n.
 * An index has N = V / 128 nodes, rounded up. The arrays have N, L, 256 * (L / S + 1) and 256 * (L / B + 1) elements (whole division).
 * concordance_measure gives N, L and the numbers of rows, L / S + 1 and L / B + 1, of a text before memory is lent for it.
 *
 * Slices. Each pointer is followed by the number of its elements, any number. It is not null and aligned for its element, also where the
 * number is 0, and the elements are initialized. A slice that is written (no `const`) overlaps no other slice of the call. Lent memory does
 * not change while a call runs: a mapped file that another process writes is outside the promise.
 *
 * Letters. A letter table has an entry for each of the 256 bytes: the letter that the byte is read as, or 0, which makes it a separator. It keeps a
 * byte if that byte's entry is the byte itself. A word of a plain text is a longest run of bytes that are not separators, each replaced by its
 * entry, which is called folding. The built-in table is of ISO 8859-1: it keeps 30 to 39, 61 to 7A and DF to FF without F7, 41 to 5A and C0 to DE
 * without D7 gain 20 (hexadecimal), all others are 0. The program `letters` of the repository prints it, and crates/letters/stdout has what it
 * prints: sixteen lines of sixteen entries, each a blank and two capital hexadecimal digits; a table of one's own is best made from a copy of it. A
 * call that is lent a table, any bytes, uses that in place of the built-in one. The rules of a table:
 *   it has 256 entries;
 *   each is 0 or a byte that the table keeps;
 *   entry 0A is 0;
 *   some entry is not 0.
 * Every call that is lent a table checks it, also one that was checked before, and refuses one that breaks a rule by 18. Entry 00 may be a letter,
 * as every entry but 0A: the byte 00 of a text is then read as that letter.
 *
 * Documents. A text may be made of documents, one after another without a gap. Its document starts are the places at which they begin. A call that is
 * lent starts, any numbers, takes a pair of neighbours only where both words lie in one document, and a phrase of one word or more only where all its
 * words do. The phrase of no words keeps its places, 0 to n. The rules of starts:
 *   the first is 0;
 *   each is above the one before it;
 *   all are below n;
 *   there is none only if the text is empty.
 * So the empty text has no document, and every other text at least one. Every call that is lent starts tries them, whatever it is asked, and refuses ones
 * that break a rule by 19. A call without starts takes the text as one run from end to end: it answers as with the one start 0, in the empty text as with no
 * start.
 *
 * Absent words. A rank that is asked about, w or v of a question or a word of a phrase, may be V, which is no rank of a text. It means an absent word, one
 * that stands nowhere: it is counted 0 times and has no place, and a phrase with an absent word is counted 0 times, in each document too, and has a listing
 * that is finished by its first page. Ranks above V are refused by 9. concordance_find_word gives the rank of a spelled word in a word list, and V where the
 * list lacks it: what it gives can be used as it stands as a rank asked about or as a word of a phrase, provided that the index has the V of the list. In a
 * text to index or code V is refused by 4, as every rank that is not below it.
 *
 * The check. Every call that is lent an index checks it, in one pass over its bytes. The check says that some text has these arrays as its
 * index, and then only one text has. It cannot say that they are the arrays that were written: a changed byte can make them the index of
 * another text, and seeing that is the work of a checksum. Since each call makes the check, many contexts are one sheet of questions of kind
 * 1, not many passages.
 *
 * Answers. An accepted call returns the refusal 0 and its value. A call that is turned down returns the number of its refusal, with the
 * value that the table below gives, and writes nothing: all lent memory stays as it was. The refusals of each call are listed at it in the
 * order in which they are tried, and where several apply, the first of them is returned (16 and 17 are tried before 5, 18 before all others, 19 after
 * 6 and before 7). No call keeps a pointer, and equal arguments have equal answers.
 *
 * Stack. No call allocates memory; its tables lie on the stack. The most that a call needs, as bench/stack.c measures it on x86-64:
 *   concordance_read_text, concordance_read_text_with, concordance_find_word, concordance_find_word_with: 1463 KB
 *   concordance_make_list, concordance_make_list_with: 919 KB
 *   concordance_build, concordance_build_sized, concordance_ask, concordance_answer_sheet, concordance_passage, concordance_list,
 *   concordance_ask_in_documents, concordance_answer_sheet_in_documents, concordance_list_in_documents, concordance_summary: 267 KB
 *   concordance_check: 5 KB
 *   concordance_write_stream, concordance_read_stream, concordance_measure, concordance_open, concordance_check_letters: less than 1 KB
 */
#ifndef CONCORDANCE_H
#define CONCORDANCE_H

#include <stdbool.h>
#include <stddef.h>
#include <stdint.h>

/*
 * The version of this header. It changes when an entry is added, or a struct or the meaning of an entry changes, so that a program can tell
 * what it was written for.
 */
#define CONCORDANCE_VERSION 7

#ifdef __cplusplus
extern "C" {
#endif

/* The refusals. The value that is returned with each is 0, save with 4 (the first such place) and 14 (the word's byte offset). */
enum {
    CONCORDANCE_ACCEPTED = 0,
    /* V outside its limits; for a word list, V is its number of 0A bytes */
    CONCORDANCE_REFUSED_VOCABULARY = 1,
    /* a text, stream or plain text of more than 16,777,216 words; in a stream, bytes 80 to FF are counted */
    CONCORDANCE_REFUSED_WORDS = 2,
    /* B or b is 0, or S above 65,535 */
    CONCORDANCE_REFUSED_BLOCKS = 3,
    /* a rank of the text to index or code is not below V; the first such place is returned with it */
    CONCORDANCE_REFUSED_TEXT_RANK = 4,
    /* a slice to be built or filled by indexing, stream work or reading is shorter than needed */
    CONCORDANCE_REFUSED_SHORT_SLICE = 5,
    /* the check does not pass */
    CONCORDANCE_REFUSED_INDEX = 6,
    /* kind outside 1 to 5 */
    CONCORDANCE_REFUSED_KIND = 7,
    /* phrase length above 16, or part outside the lent words; an empty part is outside if it starts past their end; in a summary, length 0 too */
    CONCORDANCE_REFUSED_PHRASE = 8,
    /* a rank asked about is above V */
    CONCORDANCE_REFUSED_ASKED_RANK = 9,
    /* offset outside -16 to 16 */
    CONCORDANCE_REFUSED_OFFSET = 10,
    /* place or ordinal outside its range; a listing's next place above n */
    CONCORDANCE_REFUSED_PLACE = 11,
    /* page of length 0, answer slice shorter than two per question, or slice for a summary shorter than one per document */
    CONCORDANCE_REFUSED_PAGE = 12,
    /* the word list breaks a rule */
    CONCORDANCE_REFUSED_WORD_LIST = 13,
    /* first word of the text not in the list; its byte offset is returned with it */
    CONCORDANCE_REFUSED_UNLISTED = 14,
    /* a codeword of over three bytes, or a stream that ends inside one */
    CONCORDANCE_REFUSED_STREAM = 15,
    /* the four sizes that are handed back are not those of the text */
    CONCORDANCE_REFUSED_SIZES = 16,
    /* a plain text to make a list of has more than 65,536 bytes, or more than 4,096 distinct words */
    CONCORDANCE_REFUSED_LIST_MAKING = 17,
    /* the letter table breaks a rule: 256 entries, each 0 or a byte that the table keeps, entry 0A is 0, some entry is not 0 */
    CONCORDANCE_REFUSED_TABLE = 18,
    /* the document starts break a rule: the first is 0, each is above the one before it, all are below n, there is none only if the text is empty */
    CONCORDANCE_REFUSED_DOCUMENTS = 19
};

/* The limits. */
enum {
    CONCORDANCE_MAX_VOCABULARY = 2113664,
    CONCORDANCE_MAX_WORDS = 16777216,
    CONCORDANCE_MAX_SUPERBLOCK = 65535,
    CONCORDANCE_MAX_PHRASE = 16,
    CONCORDANCE_MAX_OFFSET = 16,
    CONCORDANCE_MAX_LIST_TEXT = 65536,
    CONCORDANCE_MAX_LIST_WORDS = 4096
};

/* The answer of a call: 0 and its value, or a refusal's number and what is returned with it. */
typedef struct {
    uint32_t refusal;
    size_t value;
} concordance_answer;

/* V, B and b. */
typedef struct {
    size_t vocabulary;
    size_t block;
    size_t per_superblock;
} concordance_shape;

/*
 * The sizes of an index: N, L, the number of superblock rows and the number of block rows. A row has 256 counters, so that the four arrays
 * have nodes, bytes, 256 * superblock_rows and 256 * block_rows elements. The memory that they need is
 * 4 * nodes + bytes + 1024 * superblock_rows + 512 * block_rows bytes.
 */
typedef struct {
    size_t nodes;
    size_t bytes;
    size_t superblock_rows;
    size_t block_rows;
} concordance_sizes;

/* What measuring returns: its answer, and the sizes of the index, which are four zeros where it is refused. */
typedef struct {
    concordance_answer answer;
    concordance_sizes sizes;
} concordance_measured;

/*
 * A question, by its kind; the fields that a kind does not use never matter.
 *   1  the rank at place p, p < n
 *   2  how often w stands at places below p, p <= n
 *   3  the place of the p-th w, p from 1 up to the number there are
 *   4  the number of places q with w at q and v at q + d, where q + d is inside the text; d from -16 to 16, negative to the left
 *   5  how often the phrase stands that is the part (start, length) of the lent words, up to 16 of them; hits may overlap. The phrase of no
 *      words, length 0, stands at every place from 0 to n: n + 1 times, once in the empty text
 * The ranks w and v and the words of the phrase are 0 to V, and V is an absent word: kind 2 gives 0 for it, kind 3 no place, whatever p is, kind 4 gives 0 if
 * w or v is V, and kind 5 if a word of the phrase is V.
 * In a call that is lent document starts, kind 4 counts q only where q and q + d lie in one document, and kind 5 a phrase of one word or more only where
 * all its words do; kinds 1 to 3 and the phrase of no words have the same answers as without.
 */
typedef struct {
    uint32_t kind;
    uint32_t w;
    uint32_t v;
    int32_t d;
    size_t p;
    size_t start;
    size_t length;
} concordance_question;

/*
 * The state of a listing: the next place, and whether it is finished, which is 0 or 1 (another value of the byte is no bool).
 *
 * Over a whole listing. Begin with concordance_open, and hand each call the state that the call before it returned, whether that was
 * accepted or refused. If all accepted calls bring the same phrase and the same V, B, b and arrays, and the same document starts or none, then the
 * places of the accepted pages, one page after another, are the places at which the phrase stands in the text, with starts inside one document:
 * ascending, each once, none missing as soon as a page is accepted without reporting more; then they are as many as concordance_ask, kind 5, counts, or
 * concordance_ask_in_documents with the same starts. The page with the last place reports the end, and so does the first page where there is none. There
 * is none, and the count is 0, where a word of the phrase is V, an absent word. The places of the phrase of no words are 0, 1, .., n.
 */
typedef struct {
    size_t next;
    bool finished;
} concordance_listing;

/* What a page returns: its answer, whether more hits follow, and the state for the next page. */
typedef struct {
    concordance_answer answer;
    bool more;
    concordance_listing listing;
} concordance_page;

/* What making a word list returns: its answer, the number of bytes of the list and the number of words of the text; 0 and 0 where it is refused. */
typedef struct {
    concordance_answer answer;
    size_t bytes;
    size_t words;
} concordance_list_made;

/*
 * Writes a text as a stream.
 * Returns: the number of bytes written.
 * Writes: the codewords of the ranks, one after another, in front of `stream`; the elements past them stay.
 * Refusals: 1 if V is outside its limits; 2 if text_len is above 16,777,216; 4, with the first place whose rank is not below V; 5 if
 * `stream` is shorter than the codewords. The value of the others is 0. A refused call changes nothing.
 */
concordance_answer concordance_write_stream(size_t vocabulary, const uint32_t *text, size_t text_len, uint8_t *stream, size_t stream_len);

/*
 * Reads a stream.
 * Returns: the number of words written.
 * Writes: the ranks of the codewords, in order, in front of `text`; the elements past them stay.
 * Refusals: 2 if the stream has more than 16,777,216 bytes 80 to FF; 5 if `text` has fewer elements than the stream has such bytes; 15 if a
 * codeword has over three bytes or the stream ends inside one. For 2 and 5 the bytes are counted in a broken stream too. The value of each
 * is 0. A refused call changes nothing.
 */
concordance_answer concordance_read_stream(const uint8_t *stream, size_t stream_len, uint32_t *text, size_t text_len);

/*
 * Measures a text: what its index needs, before memory is lent for it.
 * Returns: in `answer` the value 0; in `sizes` N, L, L / S + 1 superblock rows and L / B + 1 block rows.
 * Writes: nothing, accepted or refused.
 * Refusals: 1 if V is outside its limits; 2 if text_len is above 16,777,216; 3 if B or b is 0, or S above 65,535; 4, with the first place
 * whose rank is not below V. The value of the others is 0. `sizes` is four zeros with each.
 */
concordance_measured concordance_measure(concordance_shape shape, const uint32_t *text, size_t text_len);

/*
 * Builds the index of a text that was measured: `sizes` are those that concordance_measure returned, handed back with the same V, B and b.
 * Any four numbers may come. If the text was changed since, the call notices whenever its sizes changed; otherwise it builds the index of the
 * text that it is given.
 * Returns: L, the number of node bytes.
 * Writes: the four arrays of the index, each in front of its slice; the elements past them stay.
 * Refusals: 1, 2, 3 and 4 as concordance_measure; 16 if one of the four sizes is not that of this text with this V, B and b; 5 if one of the
 * four slices is shorter than its array. The value of 16 and 5 is 0. A refused call changes nothing.
 */
concordance_answer concordance_build_sized(concordance_shape shape, concordance_sizes sizes, const uint32_t *text, size_t text_len,
                                           uint32_t *lengths, size_t lengths_len, uint8_t *bytes, size_t bytes_len,
                                           uint32_t *superblocks, size_t superblocks_len, uint16_t *blocks, size_t blocks_len);

/*
 * Builds the index of a text, as concordance_measure and concordance_build_sized do one after the other.
 * Returns: L, the number of node bytes.
 * Writes: the four arrays of the index, each in front of its slice (their sizes are given above); the elements past them stay.
 * Refusals: 1 if V is outside its limits; 2 if text_len is above 16,777,216; 3 if B or b is 0, or S above 65,535; 4, with the first place
 * whose rank is not below V; 5 if one of the four slices is shorter than its array. The value of the others is 0. A refused call changes
 * nothing.
 */
concordance_answer concordance_build(concordance_shape shape, const uint32_t *text, size_t text_len,
                                     uint32_t *lengths, size_t lengths_len, uint8_t *bytes, size_t bytes_len,
                                     uint32_t *superblocks, size_t superblocks_len, uint16_t *blocks, size_t blocks_len);

/*
 * Checks an index: it passes exactly if some text of at most 16,777,216 words, with ranks below V, has the four slices as its index, none
 * of them longer or shorter. Two texts with the same V never share an index.
 * Returns: 0.
 * Writes: nothing, accepted or refused.
 * Refusals: 1 if V is outside its limits; 3 if B or b is 0, or S above 65,535; 6 if it does not pass. The value of each is 0.
 */
concordance_answer concordance_check(concordance_shape shape, const uint32_t *lengths, size_t lengths_len, const uint8_t *bytes, size_t bytes_len,
                                     const uint32_t *superblocks, size_t superblocks_len, const uint16_t *blocks, size_t blocks_len);

/*
 * Asks one question of an index; `words` are the lent words of which kind 5 takes its phrase, and no other kind looks at them.
 * Returns: the answer by the question's kind, as concordance_question says.
 * Writes: nothing, accepted or refused.
 * Refusals: 1, 3 and 6 as concordance_check; 7 if the kind is outside 1 to 5; then by the kind:
 *   1  11 if p is not below n
 *   2  9 if w is above V; 11 if p is above n
 *   3  9 if w is above V; 11 if p is 0 or above the number of places where w stands, so that 11 is given for every p if w is V
 *   4  9 if w or v is above V; 10 if d is outside -16 to 16
 *   5  8 if length is above 16, or the part does not lie in the lent words (start + length above words_len, for any two numbers); 9 if a word
 *      of the part is above V. A part of length 0 may start at the end of the lent words, also where none is lent, but not past it;
 *      it has no word, and 9 is never given for it
 * The value of each is 0. In kinds 2, 4 and 5, what does not stand in the text, as an absent word never does, is no refusal: the answer is 0. The other
 * refusals of a kind are tried for an absent word too.
 */
concordance_answer concordance_ask(concordance_shape shape, const uint32_t *lengths, size_t lengths_len, const uint8_t *bytes, size_t bytes_len,
                                   const uint32_t *superblocks, size_t superblocks_len, const uint16_t *blocks, size_t blocks_len,
                                   const uint32_t *words, size_t words_len, concordance_question question);

/*
 * Answers a sheet of questions of an index, each as concordance_ask answers it; the check is made once.
 * Returns: twice the number of questions. An empty sheet is accepted, writes nothing and returns 0.
 * Writes: a pair for each question in front of `answers`, in order: question i has its refusal, or 0, at 2 * i and its value at 2 * i + 1;
 * the elements past the pairs stay. The refusals 7 to 11 go into the question's own pair, with the value 0, and do not turn down the sheet.
 * Refusals: 1, 3 and 6 as concordance_check; 12 if `answers` is shorter than two elements for each question. The value of each is 0. A
 * refused sheet changes nothing.
 */
concordance_answer concordance_answer_sheet(concordance_shape shape, const uint32_t *lengths, size_t lengths_len, const uint8_t *bytes, size_t bytes_len,
                                            const uint32_t *superblocks, size_t superblocks_len, const uint16_t *blocks, size_t blocks_len,
                                            const uint32_t *words, size_t words_len, const concordance_question *questions, size_t questions_len,
                                            uint32_t *answers, size_t answers_len);

/*
 * Reads a passage of the text back from its index.
 * Returns: passage_len.
 * Writes: the whole of `passage`, with the ranks from `place` on. An empty passage, which is that of the phrase of no words, is accepted for
 * any place up to n, n too, and writes nothing.
 * Refusals: 1, 3 and 6 as concordance_check; 11 if the passage does not end in the text (place + passage_len above n, for any two numbers).
 * The value of each is 0. A refused call changes nothing.
 */
concordance_answer concordance_passage(concordance_shape shape, const uint32_t *lengths, size_t lengths_len, const uint8_t *bytes, size_t bytes_len,
                                       const uint32_t *superblocks, size_t superblocks_len, const uint16_t *blocks, size_t blocks_len,
                                       size_t place, uint32_t *passage, size_t passage_len);

/*
 * Opens a listing.
 * Returns: the state with next 0, not finished.
 * Writes: nothing.
 * Refusals: none.
 */
concordance_listing concordance_open(void);

/*
 * The next page of the listing of a phrase, which is the part (start, length) of the lent words.
 * Returns: in `answer` the number of places written; in `more` whether the page is full and another place follows; in `listing` the state
 * for the next page. If more follow, its next is the last place written plus 1; otherwise it is finished with next n. A full page that no
 * further place follows does not report more. A finished state is accepted and refused like any other; accepted, it writes nothing,
 * returns 0 and not more, and comes back the same. A phrase with an absent word, V, has no place: an accepted page of it writes nothing,
 * returns 0 and not more, and a state that is not finished comes back finished with next n. The phrase of no words, length 0, has the places
 * 0, 1, .., n: a page that is full with n - 1 as its last place reports more, with next n; the page that writes n is finished with next n. An
 * accepted page never returns a next above n.
 * Writes: the places at or after listing.next where the phrase stands, ascending, in front of `lines`, until it is full or there are no
 * more; the elements past them stay.
 * Refusals: 1, 3 and 6 as concordance_check; 8 and 9 for the phrase as concordance_ask, kind 5; 11 if listing.next is above n, finished or
 * not; 12 if `lines` is empty. The value of each is 0; `more` is false, and `listing` is the state that was given. A refused page changes
 * nothing, and the listing goes on with the next call.
 */
concordance_page concordance_list(concordance_listing listing, concordance_shape shape, const uint32_t *lengths, size_t lengths_len,
                                  const uint8_t *bytes, size_t bytes_len, const uint32_t *superblocks, size_t superblocks_len,
                                  const uint16_t *blocks, size_t blocks_len, const uint32_t *words, size_t words_len, size_t start, size_t length,
                                  uint32_t *lines, size_t lines_len);

/*
 * Asks one question of an index as concordance_ask, with document starts: a pair of neighbours (kind 4) counts only where both words lie in one
 * document, and a phrase of one word or more (kind 5) only where all its words do. With the one start 0 of a text that has words, and with no start of the
 * empty text, the answers are those of concordance_ask.
 * Returns: the answer by the question's kind, as concordance_question says.
 * Writes: nothing, accepted or refused.
 * Refusals: 1, 3 and 6 as concordance_check; 19 if the starts break a rule, whatever the kind; 7 if the kind is outside 1 to 5; then by the kind as
 * concordance_ask. The value of each is 0.
 */
concordance_answer concordance_ask_in_documents(concordance_shape shape, const uint32_t *lengths, size_t lengths_len,
                                                const uint8_t *bytes, size_t bytes_len, const uint32_t *superblocks, size_t superblocks_len,
                                                const uint16_t *blocks, size_t blocks_len, const uint32_t *starts, size_t starts_len,
                                                const uint32_t *words, size_t words_len, concordance_question question);

/*
 * Answers a sheet of questions of an index, each as concordance_ask_in_documents answers it; the check is made and the starts are tried once.
 * Returns: twice the number of questions. An empty sheet is accepted, writes nothing and returns 0.
 * Writes: a pair for each question in front of `answers`, in order, as concordance_answer_sheet; the elements past the pairs stay. The refusals 7 to 11
 * go into the question's own pair, with the value 0, and do not turn down the sheet.
 * Refusals: 1, 3 and 6 as concordance_check; 19 if the starts break a rule, also for an empty sheet; 12 if `answers` is shorter than two elements for
 * each question. The value of each is 0. A refused sheet changes nothing.
 */
concordance_answer concordance_answer_sheet_in_documents(concordance_shape shape, const uint32_t *lengths, size_t lengths_len,
                                                         const uint8_t *bytes, size_t bytes_len, const uint32_t *superblocks, size_t superblocks_len,
                                                         const uint16_t *blocks, size_t blocks_len, const uint32_t *starts, size_t starts_len,
                                                         const uint32_t *words, size_t words_len, const concordance_question *questions, size_t questions_len,
                                                         uint32_t *answers, size_t answers_len);

/*
 * The next page of the listing of a phrase as concordance_list, with document starts: a phrase of one word or more is listed only where all its words lie
 * in one document. The starts may be others from one accepted page to the next, but a listing is promised to be complete only where all bring the same.
 * Returns: in `answer` the number of places written; in `more` whether the page is full and another place follows; in `listing` the state for the next
 * page, as concordance_list gives it, for a phrase with an absent word too.
 * Writes: the places at or after listing.next where the phrase stands in one document, ascending, in front of `lines`, until it is full or there are no
 * more; the elements past them stay.
 * Refusals: 1, 3 and 6 as concordance_check; 19 if the starts break a rule, finished or not; 8 and 9 for the phrase as concordance_ask, kind 5; 11 if
 * listing.next is above n, finished or not; 12 if `lines` is empty. The value of each is 0; `more` is false, and `listing` is the state that was given.
 * A refused page changes nothing, and the listing goes on with the next call.
 */
concordance_page concordance_list_in_documents(concordance_listing listing, concordance_shape shape, const uint32_t *lengths, size_t lengths_len,
                                               const uint8_t *bytes, size_t bytes_len, const uint32_t *superblocks, size_t superblocks_len,
                                               const uint16_t *blocks, size_t blocks_len, const uint32_t *starts, size_t starts_len,
                                               const uint32_t *words, size_t words_len, size_t start, size_t length, uint32_t *lines, size_t lines_len);

/*
 * The summary of a phrase, which is the part (start, length) of the lent words: how often it stands in each document, which is how often it stands in the
 * words of the document by themselves. The counts add up to what concordance_ask_in_documents, kind 5, counts with the same starts.
 * Returns: the number of documents, which is starts_len. The empty text has none: nothing is written, and 0 is returned.
 * Writes: the count of each document, in their order, in front of `counts`; the elements past them stay. Where a word of the part is V, an absent word, each
 * count is 0.
 * Refusals: 1, 3 and 6 as concordance_check; 19 if the starts break a rule; 8 if length is 0 or above 16, or the part does not lie in the lent words
 * (start + length above words_len, for any two numbers); 9 if a word of the part is above V; 12 if `counts` is shorter than one element for each
 * document. The value of each is 0. A refused call changes nothing.
 */
concordance_answer concordance_summary(concordance_shape shape, const uint32_t *lengths, size_t lengths_len, const uint8_t *bytes, size_t bytes_len,
                                       const uint32_t *superblocks, size_t superblocks_len, const uint16_t *blocks, size_t blocks_len,
                                       const uint32_t *starts, size_t starts_len, const uint32_t *words, size_t words_len, size_t start, size_t length,
                                       uint32_t *counts, size_t counts_len);

/*
 * Reads plain text of ISO 8859-1 through a word list. A word is a longest run of letters and digits, its capitals made small, by the built-in
 * letter table. The list gives V words in rank order, each closed by 0A.
 * Returns: the number of words of the text.
 * Writes: the rank of each word, in order, in front of `ranks`; the elements past them stay.
 * Refusals: 1 if V, the number of 0A bytes of the list, is outside its limits; 2 if the text has more than 16,777,216 words, listed or not;
 * 5 if `ranks` has fewer elements than the text has words, listed or not; 13 if a word of the list is empty, stands there twice, is not
 * closed, or has the byte 00 or one that is not kept; 14, with the byte offset at which the first word of the text starts that is not in the list. The
 * value of the others is 0. A refused call changes nothing.
 */
concordance_answer concordance_read_text(const uint8_t *list, size_t list_len, const uint8_t *text, size_t text_len, uint32_t *ranks, size_t ranks_len);

/*
 * Finds a spelled word in a word list, which is a list as concordance_read_text takes it. Each byte of the spelling is folded by the built-in
 * letter table, and a word of the list is the spelled one if it has exactly these bytes.
 * Returns: the rank of the spelled word; V, the number of words of the list, where the list lacks it. An empty spelling, and one with a
 * separator, a line end too, is in no list: V. The value can be used as it stands as a rank asked about or as a word of a phrase, provided that
 * the index has the V of the list; there V is an absent word. A spelling that is one word of a plain text has the rank that
 * concordance_read_text gives that word.
 * Writes: nothing, accepted or refused.
 * Refusals: 1 if V, the number of 0A bytes of the list, is outside its limits; 13 if a word of the list is empty, stands there twice, is not
 * closed, or has the byte 00 or one that is not kept. The value of each is 0. Whatever the spelling is, it is no refusal.
 */
concordance_answer concordance_find_word(const uint8_t *list, size_t list_len, const uint8_t *spelling, size_t spelling_len);

/*
 * Makes the word list of a plain text that comes without one, and reads the text through it. The list has each word of the text once, as
 * concordance_read_text finds and folds it, the most frequent first and equally frequent ones by their first appearance. By no other order of
 * the same words is the text's stream shorter.
 * Returns: in `answer` the value 0; in `bytes` the number of bytes of the list; in `words` n, the number of words of the text. V is the number
 * of 0A bytes of the list. The word of rank i stands in the text as often as i stands among the ranks, and these frequencies add up to n.
 * Writes: the list, each word closed by 0A, in front of `list`; the rank of each word of the text, in order, in front of `ranks`, as
 * concordance_read_text gives it by this list. The elements past them stay. text_len + 1 bytes and (text_len + 1) / 2 ranks are enough, and so
 * are always 65,537 bytes and 32,768 ranks. A text without words is accepted: its list is empty, it has no ranks, and with this list
 * concordance_read_text refuses every text by 1, and concordance_find_word every call.
 * Refusals: 2 if the text has more than 16,777,216 words; 17 if it has more than 65,536 bytes, or more than 4,096 distinct words; 5 if `list` is
 * shorter than the list, or `ranks` has fewer elements than the text has words. The value of each is 0, and so are `bytes` and `words`. A refused
 * call changes nothing.
 */
concordance_list_made concordance_make_list(const uint8_t *text, size_t text_len, uint8_t *list, size_t list_len, uint32_t *ranks, size_t ranks_len);

/*
 * Checks a letter table, for the moment when it is loaded; no other call relies on it.
 * Returns: 0.
 * Writes: nothing, accepted or refused.
 * Refusals: 18 if the table breaks one of the rules above. Its value is 0. The built-in table passes.
 */
concordance_answer concordance_check_letters(const uint8_t *letters, size_t letters_len);

/*
 * Reads plain text through a word list as concordance_read_text, with the lent letter table in place of the built-in one: by it a byte of the
 * text is a letter or a separator, is folded, and is kept in the list. With a copy of the built-in table the answers are those of
 * concordance_read_text.
 * Returns: the number of words of the text.
 * Writes: the rank of each word, in order, in front of `ranks`; the elements past them stay.
 * Refusals: 18 if the table breaks a rule; 1 if V, the number of 0A bytes of the list, is outside its limits; 2 if the text has more than
 * 16,777,216 words, listed or not; 5 if `ranks` has fewer elements than the text has words, listed or not; 13 if a word of the list is empty,
 * stands there twice, is not closed, or has the byte 00 or one that the table does not keep; 14, with the byte offset at which the first word of the
 * text starts that is not in the list. The value of the others is 0. A refused call changes nothing.
 */
concordance_answer concordance_read_text_with(const uint8_t *letters, size_t letters_len, const uint8_t *list, size_t list_len,
                                              const uint8_t *text, size_t text_len, uint32_t *ranks, size_t ranks_len);

/*
 * Finds a spelled word in a word list as concordance_find_word, with the lent letter table in place of the built-in one: by it a byte of the
 * spelling is a letter or a separator, is folded, and is kept in the list. With a copy of the built-in table the answers are those of
 * concordance_find_word.
 * Returns: the rank of the spelled word; V, the number of words of the list, where the list lacks it, as it lacks an empty spelling and one with
 * a separator of the table.
 * Writes: nothing, accepted or refused.
 * Refusals: 18 if the table breaks a rule; 1 if V, the number of 0A bytes of the list, is outside its limits; 13 if a word of the list is empty,
 * stands there twice, is not closed, or has the byte 00 or one that the table does not keep. The value of each is 0. Whatever the spelling is,
 * it is no refusal.
 */
concordance_answer concordance_find_word_with(const uint8_t *letters, size_t letters_len, const uint8_t *list, size_t list_len,
                                              const uint8_t *spelling, size_t spelling_len);

/*
 * Makes the word list of a plain text and reads the text through it as concordance_make_list, with the lent letter table in place of the
 * built-in one: the words are those that concordance_read_text_with finds and folds by this table. With a copy of the built-in table the
 * answers are those of concordance_make_list.
 * Returns: in `answer` the value 0; in `bytes` the number of bytes of the list; in `words` n, the number of words of the text.
 * Writes: the list in front of `list` and the ranks in front of `ranks`, in the order that concordance_make_list says, as
 * concordance_read_text_with gives them by this list and this table. The elements past them stay. The lengths that are enough for
 * concordance_make_list are enough here, whatever the table. A text without words is accepted, with an empty list.
 * Refusals: 18 if the table breaks a rule; 2 if the text has more than 16,777,216 words; 17 if it has more than 65,536 bytes, or more than
 * 4,096 distinct words; 5 if `list` is shorter than the list, or `ranks` has fewer elements than the text has words. The value of each is 0, and
 * so are `bytes` and `words`. A refused call changes nothing.
 */
concordance_list_made concordance_make_list_with(const uint8_t *letters, size_t letters_len, const uint8_t *text, size_t text_len,
                                                 uint8_t *list, size_t list_len, uint32_t *ranks, size_t ranks_len);

#ifdef __cplusplus
}
#endif

#endif

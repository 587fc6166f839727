//! The declarations of the entries, side by side with `include/concordance.h`, and the structs that
//! pass by value.

/// The answer of a call: 0 and its value, or a refusal's number and what is returned with it.
#[repr(C)]
#[derive(Clone, Copy, Debug, PartialEq, Eq)]
pub struct Answer {
    pub refusal: u32,
    pub value: usize,
}

/// The size of the vocabulary V, the block length B and the number b of blocks of a superblock.
#[repr(C)]
#[derive(Clone, Copy, Debug, PartialEq, Eq)]
pub struct Shape {
    pub vocabulary: usize,
    pub block: usize,
    pub per_superblock: usize,
}

/// The sizes of an index: its nodes, its node bytes, and the rows of its superblock counters and of its block counters. A row has 256
/// counters.
#[repr(C)]
#[derive(Clone, Copy, Debug, PartialEq, Eq, Default)]
pub struct IndexSizes {
    pub nodes: usize,
    pub bytes: usize,
    pub superblock_rows: usize,
    pub block_rows: usize,
}

/// What measuring a text returns: its answer, and the sizes of the index, which are four zeros where it is refused.
#[repr(C)]
#[derive(Clone, Copy, Debug, PartialEq, Eq)]
pub struct Measured {
    pub answer: Answer,
    pub sizes: IndexSizes,
}

/// A question: its kind, ranks w and v, offset d, number p, and a part of the lent phrase words. A rank that is asked about may be V, which means
/// an absent word: one that stands nowhere.
#[repr(C)]
#[derive(Clone, Copy, Debug, PartialEq, Eq)]
pub struct Question {
    pub kind: u32,
    pub w: u32,
    pub v: u32,
    pub d: i32,
    pub p: usize,
    pub start: usize,
    pub length: usize,
}

/// The state of a listing: the next place, and whether it is finished.
#[repr(C)]
#[derive(Clone, Copy, Debug, PartialEq, Eq)]
pub struct Listing {
    pub next: usize,
    pub finished: bool,
}

/// What a page returns: its answer, whether more hits follow, and the state for the next page.
#[repr(C)]
#[derive(Clone, Copy, Debug, PartialEq, Eq)]
pub struct RawPage {
    pub answer: Answer,
    pub more: bool,
    pub listing: Listing,
}

/// What making a word list returns: its answer, the number of bytes of the list and the number of words of the text; 0 and 0 where it is
/// refused.
#[repr(C)]
#[derive(Clone, Copy, Debug, PartialEq, Eq)]
pub struct ListMade {
    pub answer: Answer,
    pub bytes: usize,
    pub words: usize,
}

impl Question {
    /// The offset runs from -MAX_OFFSET to MAX_OFFSET.
    pub const MAX_OFFSET: i32 = 16;
    /// A phrase has up to MAX_PHRASE words.
    pub const MAX_PHRASE: usize = 16;

    const NONE: Question = Question { kind: 0, w: 0, v: 0, d: 0, p: 0, start: 0, length: 0 };

    /// Kind 1: the rank at place p.
    pub fn word_at(p: usize) -> Question {
        Question { kind: 1, p, ..Question::NONE }
    }

    /// Kind 2: how often w stands at places below p; 0 for an absent word.
    pub fn occurrences_below(w: u32, p: usize) -> Question {
        Question { kind: 2, w, p, ..Question::NONE }
    }

    /// Kind 3: the place of the p-th w, counted from 1; an absent word has none.
    pub fn place_of(w: u32, p: usize) -> Question {
        Question { kind: 3, w, p, ..Question::NONE }
    }

    /// Kind 4: how often w has v at the offset d; 0 where one of them is an absent word.
    pub fn neighbours(w: u32, v: u32, d: i32) -> Question {
        Question { kind: 4, w, v, d, ..Question::NONE }
    }

    /// Kind 5: how often the phrase in this part of the lent words stands; 0 where one of them is an absent word. The phrase of no words, length 0,
    /// stands at every place from 0 to n, and its part may start at the end of the lent words, but not past it.
    pub fn phrase(start: usize, length: usize) -> Question {
        Question { kind: 5, start, length, ..Question::NONE }
    }
}

extern "C" {
    pub fn concordance_write_stream(
        vocabulary: usize,
        text: *const u32,
        text_len: usize,
        stream: *mut u8,
        stream_len: usize,
    ) -> Answer;

    pub fn concordance_read_stream(stream: *const u8, stream_len: usize, text: *mut u32, text_len: usize) -> Answer;

    pub fn concordance_measure(shape: Shape, text: *const u32, text_len: usize) -> Measured;

    pub fn concordance_build_sized(
        shape: Shape,
        sizes: IndexSizes,
        text: *const u32,
        text_len: usize,
        lengths: *mut u32,
        lengths_len: usize,
        bytes: *mut u8,
        bytes_len: usize,
        superblocks: *mut u32,
        superblocks_len: usize,
        blocks: *mut u16,
        blocks_len: usize,
    ) -> Answer;

    pub fn concordance_build(
        shape: Shape,
        text: *const u32,
        text_len: usize,
        lengths: *mut u32,
        lengths_len: usize,
        bytes: *mut u8,
        bytes_len: usize,
        superblocks: *mut u32,
        superblocks_len: usize,
        blocks: *mut u16,
        blocks_len: usize,
    ) -> Answer;

    pub fn concordance_check(
        shape: Shape,
        lengths: *const u32,
        lengths_len: usize,
        bytes: *const u8,
        bytes_len: usize,
        superblocks: *const u32,
        superblocks_len: usize,
        blocks: *const u16,
        blocks_len: usize,
    ) -> Answer;

    pub fn concordance_ask(
        shape: Shape,
        lengths: *const u32,
        lengths_len: usize,
        bytes: *const u8,
        bytes_len: usize,
        superblocks: *const u32,
        superblocks_len: usize,
        blocks: *const u16,
        blocks_len: usize,
        words: *const u32,
        words_len: usize,
        question: Question,
    ) -> Answer;

    pub fn concordance_answer_sheet(
        shape: Shape,
        lengths: *const u32,
        lengths_len: usize,
        bytes: *const u8,
        bytes_len: usize,
        superblocks: *const u32,
        superblocks_len: usize,
        blocks: *const u16,
        blocks_len: usize,
        words: *const u32,
        words_len: usize,
        questions: *const Question,
        questions_len: usize,
        answers: *mut u32,
        answers_len: usize,
    ) -> Answer;

    pub fn concordance_passage(
        shape: Shape,
        lengths: *const u32,
        lengths_len: usize,
        bytes: *const u8,
        bytes_len: usize,
        superblocks: *const u32,
        superblocks_len: usize,
        blocks: *const u16,
        blocks_len: usize,
        place: usize,
        passage: *mut u32,
        passage_len: usize,
    ) -> Answer;

    pub fn concordance_open() -> Listing;

    pub fn concordance_list(
        listing: Listing,
        shape: Shape,
        lengths: *const u32,
        lengths_len: usize,
        bytes: *const u8,
        bytes_len: usize,
        superblocks: *const u32,
        superblocks_len: usize,
        blocks: *const u16,
        blocks_len: usize,
        words: *const u32,
        words_len: usize,
        start: usize,
        length: usize,
        lines: *mut u32,
        lines_len: usize,
    ) -> RawPage;

    pub fn concordance_ask_in_documents(
        shape: Shape,
        lengths: *const u32,
        lengths_len: usize,
        bytes: *const u8,
        bytes_len: usize,
        superblocks: *const u32,
        superblocks_len: usize,
        blocks: *const u16,
        blocks_len: usize,
        starts: *const u32,
        starts_len: usize,
        words: *const u32,
        words_len: usize,
        question: Question,
    ) -> Answer;

    pub fn concordance_answer_sheet_in_documents(
        shape: Shape,
        lengths: *const u32,
        lengths_len: usize,
        bytes: *const u8,
        bytes_len: usize,
        superblocks: *const u32,
        superblocks_len: usize,
        blocks: *const u16,
        blocks_len: usize,
        starts: *const u32,
        starts_len: usize,
        words: *const u32,
        words_len: usize,
        questions: *const Question,
        questions_len: usize,
        answers: *mut u32,
        answers_len: usize,
    ) -> Answer;

    pub fn concordance_list_in_documents(
        listing: Listing,
        shape: Shape,
        lengths: *const u32,
        lengths_len: usize,
        bytes: *const u8,
        bytes_len: usize,
        superblocks: *const u32,
        superblocks_len: usize,
        blocks: *const u16,
        blocks_len: usize,
        starts: *const u32,
        starts_len: usize,
        words: *const u32,
        words_len: usize,
        start: usize,
        length: usize,
        lines: *mut u32,
        lines_len: usize,
    ) -> RawPage;

    pub fn concordance_summary(
        shape: Shape,
        lengths: *const u32,
        lengths_len: usize,
        bytes: *const u8,
        bytes_len: usize,
        superblocks: *const u32,
        superblocks_len: usize,
        blocks: *const u16,
        blocks_len: usize,
        starts: *const u32,
        starts_len: usize,
        words: *const u32,
        words_len: usize,
        start: usize,
        length: usize,
        counts: *mut u32,
        counts_len: usize,
    ) -> Answer;

    pub fn concordance_read_text(
        list: *const u8,
        list_len: usize,
        text: *const u8,
        text_len: usize,
        ranks: *mut u32,
        ranks_len: usize,
    ) -> Answer;

    pub fn concordance_find_word(list: *const u8, list_len: usize, spelling: *const u8, spelling_len: usize) -> Answer;

    pub fn concordance_make_list(
        text: *const u8,
        text_len: usize,
        list: *mut u8,
        list_len: usize,
        ranks: *mut u32,
        ranks_len: usize,
    ) -> ListMade;

    pub fn concordance_check_letters(letters: *const u8, letters_len: usize) -> Answer;

    pub fn concordance_read_text_with(
        letters: *const u8,
        letters_len: usize,
        list: *const u8,
        list_len: usize,
        text: *const u8,
        text_len: usize,
        ranks: *mut u32,
        ranks_len: usize,
    ) -> Answer;

    pub fn concordance_find_word_with(
        letters: *const u8,
        letters_len: usize,
        list: *const u8,
        list_len: usize,
        spelling: *const u8,
        spelling_len: usize,
    ) -> Answer;

    pub fn concordance_make_list_with(
        letters: *const u8,
        letters_len: usize,
        text: *const u8,
        text_len: usize,
        list: *mut u8,
        list_len: usize,
        ranks: *mut u32,
        ranks_len: usize,
    ) -> ListMade;
}

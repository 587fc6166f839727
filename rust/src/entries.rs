//! The twenty-two entries of the archive, over slices and as they are: no slice is made, and the answer is the one that the engine gives.
//!
//! Each call is safe, since an entry asks nothing of its arguments but what a slice always has: it is not null, aligned, initialized and as
//! long as it says, and one that is written is lent to nobody else.
use crate::ffi;
pub use crate::ffi::{Answer, IndexSizes, ListMade, Listing, Measured, Question, RawPage, Shape};

/// The four arrays of an index, lent to be read.
#[derive(Clone, Copy, Debug)]
pub struct Slices<'a> {
    pub lengths: &'a [u32],
    pub bytes: &'a [u8],
    pub superblocks: &'a [u32],
    pub blocks: &'a [u16],
}

/// Four slices, lent to be filled with the arrays of an index.
#[derive(Debug)]
pub struct SlicesMut<'a> {
    pub lengths: &'a mut [u32],
    pub bytes: &'a mut [u8],
    pub superblocks: &'a mut [u32],
    pub blocks: &'a mut [u16],
}

/// Calls an entry with the arguments in front of the arrays, the pointer and the length of each array, and the arguments behind them.
/// The arrays are given with the method that yields the pointers.
macro_rules! with_arrays {
    ($entry:ident($($front:expr),+; $arrays:ident.$pointer:ident; $($behind:expr),*)) => {
        unsafe {
            ffi::$entry(
                $($front,)+
                $arrays.lengths.$pointer(),
                $arrays.lengths.len(),
                $arrays.bytes.$pointer(),
                $arrays.bytes.len(),
                $arrays.superblocks.$pointer(),
                $arrays.superblocks.len(),
                $arrays.blocks.$pointer(),
                $arrays.blocks.len(),
                $($behind,)*
            )
        }
    };
}

/// Writes a text as a stream.
pub fn write_stream(vocabulary: usize, text: &[u32], stream: &mut [u8]) -> Answer {
    unsafe { ffi::concordance_write_stream(vocabulary, text.as_ptr(), text.len(), stream.as_mut_ptr(), stream.len()) }
}

/// Reads a stream.
pub fn read_stream(stream: &[u8], text: &mut [u32]) -> Answer {
    unsafe { ffi::concordance_read_stream(stream.as_ptr(), stream.len(), text.as_mut_ptr(), text.len()) }
}

/// Measures a text: what its index needs.
pub fn measure(shape: Shape, text: &[u32]) -> Measured {
    unsafe { ffi::concordance_measure(shape, text.as_ptr(), text.len()) }
}

/// Builds the index of a text by the sizes that were measured.
pub fn build_sized(shape: Shape, sizes: IndexSizes, text: &[u32], arrays: SlicesMut) -> Answer {
    with_arrays!(concordance_build_sized(shape, sizes, text.as_ptr(), text.len(); arrays.as_mut_ptr;))
}

/// Builds the index of a text.
pub fn build(shape: Shape, text: &[u32], arrays: SlicesMut) -> Answer {
    with_arrays!(concordance_build(shape, text.as_ptr(), text.len(); arrays.as_mut_ptr;))
}

/// Checks an index.
pub fn check(shape: Shape, arrays: Slices) -> Answer {
    with_arrays!(concordance_check(shape; arrays.as_ptr;))
}

/// Asks one question of an index. The phrase of kind 5 may have no words, also where none are lent.
pub fn ask(shape: Shape, arrays: Slices, words: &[u32], question: Question) -> Answer {
    with_arrays!(concordance_ask(shape; arrays.as_ptr; words.as_ptr(), words.len(), question))
}

/// Answers a sheet of questions of an index.
pub fn answer_sheet(
    shape: Shape,
    arrays: Slices,
    words: &[u32],
    questions: &[Question],
    answers: &mut [u32],
) -> Answer {
    with_arrays!(concordance_answer_sheet(shape; arrays.as_ptr;
        words.as_ptr(), words.len(), questions.as_ptr(), questions.len(), answers.as_mut_ptr(), answers.len()))
}

/// Fills a passage with the ranks from a place on.
pub fn passage(shape: Shape, arrays: Slices, place: usize, passage: &mut [u32]) -> Answer {
    with_arrays!(concordance_passage(shape; arrays.as_ptr; place, passage.as_mut_ptr(), passage.len()))
}

/// Opens a listing.
pub fn open() -> Listing {
    unsafe { ffi::concordance_open() }
}

/// Writes the next page of a listing. The phrase may have no words, and is then listed at every place from 0 to n.
pub fn list(
    listing: Listing,
    shape: Shape,
    arrays: Slices,
    words: &[u32],
    start: usize,
    length: usize,
    lines: &mut [u32],
) -> RawPage {
    with_arrays!(concordance_list(listing, shape; arrays.as_ptr;
        words.as_ptr(), words.len(), start, length, lines.as_mut_ptr(), lines.len()))
}

/// Asks one question of an index, with document starts.
pub fn ask_in_documents(shape: Shape, arrays: Slices, starts: &[u32], words: &[u32], question: Question) -> Answer {
    with_arrays!(concordance_ask_in_documents(shape; arrays.as_ptr;
        starts.as_ptr(), starts.len(), words.as_ptr(), words.len(), question))
}

/// Answers a sheet of questions of an index, with document starts.
pub fn answer_sheet_in_documents(
    shape: Shape,
    arrays: Slices,
    starts: &[u32],
    words: &[u32],
    questions: &[Question],
    answers: &mut [u32],
) -> Answer {
    with_arrays!(concordance_answer_sheet_in_documents(shape; arrays.as_ptr;
        starts.as_ptr(), starts.len(), words.as_ptr(), words.len(),
        questions.as_ptr(), questions.len(), answers.as_mut_ptr(), answers.len()))
}

/// Writes the next page of a listing, with document starts.
#[allow(clippy::too_many_arguments)] // they are those of the entry
pub fn list_in_documents(
    listing: Listing,
    shape: Shape,
    arrays: Slices,
    starts: &[u32],
    words: &[u32],
    start: usize,
    length: usize,
    lines: &mut [u32],
) -> RawPage {
    with_arrays!(concordance_list_in_documents(listing, shape; arrays.as_ptr;
        starts.as_ptr(), starts.len(), words.as_ptr(), words.len(), start, length, lines.as_mut_ptr(), lines.len()))
}

/// Counts a phrase, which has a word, in each document.
pub fn summary(
    shape: Shape,
    arrays: Slices,
    starts: &[u32],
    words: &[u32],
    start: usize,
    length: usize,
    counts: &mut [u32],
) -> Answer {
    with_arrays!(concordance_summary(shape; arrays.as_ptr;
        starts.as_ptr(), starts.len(), words.as_ptr(), words.len(), start, length, counts.as_mut_ptr(), counts.len()))
}

/// Reads plain text through a word list.
pub fn read_text(list: &[u8], text: &[u8], ranks: &mut [u32]) -> Answer {
    unsafe {
        ffi::concordance_read_text(
            list.as_ptr(),
            list.len(),
            text.as_ptr(),
            text.len(),
            ranks.as_mut_ptr(),
            ranks.len(),
        )
    }
}

/// Finds a spelled word in a word list; V where the list lacks it.
pub fn find_word(list: &[u8], spelling: &[u8]) -> Answer {
    unsafe { ffi::concordance_find_word(list.as_ptr(), list.len(), spelling.as_ptr(), spelling.len()) }
}

/// Makes the word list of a plain text, and writes the ranks of its words.
pub fn make_list(text: &[u8], list: &mut [u8], ranks: &mut [u32]) -> ListMade {
    unsafe {
        ffi::concordance_make_list(
            text.as_ptr(),
            text.len(),
            list.as_mut_ptr(),
            list.len(),
            ranks.as_mut_ptr(),
            ranks.len(),
        )
    }
}

/// Checks a letter table.
pub fn check_letters(letters: &[u8]) -> Answer {
    unsafe { ffi::concordance_check_letters(letters.as_ptr(), letters.len()) }
}

/// Reads plain text through a word list, by a lent letter table.
pub fn read_text_with(letters: &[u8], list: &[u8], text: &[u8], ranks: &mut [u32]) -> Answer {
    unsafe {
        ffi::concordance_read_text_with(
            letters.as_ptr(),
            letters.len(),
            list.as_ptr(),
            list.len(),
            text.as_ptr(),
            text.len(),
            ranks.as_mut_ptr(),
            ranks.len(),
        )
    }
}

/// Finds a spelled word in a word list, by a lent letter table; V where the list lacks it.
pub fn find_word_with(letters: &[u8], list: &[u8], spelling: &[u8]) -> Answer {
    unsafe {
        ffi::concordance_find_word_with(
            letters.as_ptr(),
            letters.len(),
            list.as_ptr(),
            list.len(),
            spelling.as_ptr(),
            spelling.len(),
        )
    }
}

/// Makes the word list of a plain text by a lent letter table, and writes the ranks of its words.
pub fn make_list_with(letters: &[u8], text: &[u8], list: &mut [u8], ranks: &mut [u32]) -> ListMade {
    unsafe {
        ffi::concordance_make_list_with(
            letters.as_ptr(),
            letters.len(),
            text.as_ptr(),
            text.len(),
            list.as_mut_ptr(),
            list.len(),
            ranks.as_mut_ptr(),
            ranks.len(),
        )
    }
}

//! The concordance engine for Rust: the proved entries of the archive `libconcordance.a` behind safe
//! types.
//!
//! An [`Index`] owns the four arrays of a text and answers questions, passages and listings. Streams
//! and plain text are read and written by functions of their own. Every refusal of the engine comes
//! back as a [`Refused`], with the number and the value of the engine's table.
//!
//! Nothing here decides an answer: the functions lend slices to the engine and hand on what it says. The module [`entries`] has the
//! twenty-two entries themselves, over slices that the caller makes.
//!
//! # Memory
//!
//! [`Index::measure`] gives the sizes of a text's index before anything is allocated, and [`IndexSizes::memory`] the bytes of memory that it
//! takes. [`Index::build`] allocates exactly these.
//!
//! # A text without a word list
//!
//! [`make_list`] makes the word list of a plain text of up to 65,536 bytes, the most frequent word first, and gives the text's ranks by it. With
//! the list, [`read_text`] turns a phrase that somebody types into the ranks to ask about.
//!
//! # Letters of one's own
//!
//! Which bytes make words, and how they are folded, is said by a letter table of 256 entries. [`Letters::built_in`] is that of ISO 8859-1; of any
//! other that keeps the rules [`Letters::new`] makes one, with which [`make_list_with`], [`read_text_with`] and [`find_word_with`] do what
//! [`make_list`], [`read_text`] and [`find_word`] do with the built-in one.
//!
//! # Absent words
//!
//! Somebody may type a word that no text has. [`find_word`] gives the rank of a typed word, and V, the number of words of the list, for one that the
//! list lacks. As a rank that is asked about, V means an absent word, and an [`Index`] with the V of the list answers: the word and every phrase with
//! it are counted 0 times, [`Index::pages`] gives one page without places, and [`Documents::summary`] 0 for each document. An absent word has no place
//! ([`Question::place_of`] is refused by [`Refusal::Place`]), and ranks above V are refused by [`Refusal::AskedRank`].
//!
//! # Browsing
//!
//! Before anything is typed the phrase has no words: [`read_text`] of an empty text gives it. It stands at every place from 0 to n, so that
//! [`Index::pages`] lists the places of the text from its beginning, and its last place, n, is the end of the text, where no word follows.
//!
//! # Documents
//!
//! A text may be made of documents. With the places at which they start, [`Index::in_documents`] gives a [`Documents`], which counts and lists a phrase
//! only where all its words lie in one document, and a pair of neighbours only where both do. [`Documents::summary`] gives the count of a phrase in each
//! document; these add up to [`Documents::count`]. Without starts the text is one run from end to end.
//!
//! # Arrays in a file
//!
//! Arrays that lie in a file that was read as a whole need not be copied: [`Documents::over`] takes slices, of any content, with document starts, and each call makes
//! its check. A listing goes on another day with the state that [`Pages::listing`] gave: [`Pages::resumed`].
//!
//! # Stack
//!
//! The engine allocates nothing; its tables lie on the stack of the calling thread. As `bench/stack.c` measures it, [`read_text`],
//! [`read_text_with`], [`find_word`] and [`find_word_with`] need 1.5 MB, [`make_list`] and [`make_list_with`] 0.9 MB, building, questions, sheets,
//! passages, pages and summaries 267 KB, the rest less than 5 KB. A thread with Rust's default stack of 2 MB can make every call.
//!
//! # What the check says
//!
//! An [`Index`] is made only of arrays that pass the check: some text has them as its index, and only one has. It does not say that they are
//! the arrays that were written: a changed file can be the index of another text. To see that a file is the one that was written is the work of
//! a checksum.
//!
//! Each call makes the check again, one pass over the bytes. Many contexts are therefore one sheet of questions of kind 1
//! ([`Index::answer_sheet`]), not many passages.
mod documents;
pub mod entries;
mod ffi;
mod index;
mod letters;
mod listing;
mod refusal;
mod streams;
mod word_list;

pub use documents::Documents;
pub use ffi::{IndexSizes, Listing, Question, Shape};
pub use index::{Arrays, Index};
pub use letters::Letters;
pub use listing::{Page, Pages};
pub use refusal::{Refusal, Refused};
pub use streams::{find_word, find_word_with, read_stream, read_text, read_text_with, write_stream};
pub use word_list::{make_list, make_list_with, WordList};

/// The largest vocabulary.
pub const MAX_VOCABULARY: usize = 2_113_664;
/// The most words of a text.
pub const MAX_WORDS: usize = 16_777_216;
/// The most bytes of a superblock.
pub const MAX_SUPERBLOCK: usize = 65_535;
/// The most bytes of a codeword.
pub const LONGEST_CODEWORD: usize = 3;
/// The most bytes of a plain text that a word list is made of.
pub const MAX_LIST_TEXT: usize = 65_536;
/// The most words of a list that is made.
pub const MAX_LIST_WORDS: usize = 4_096;

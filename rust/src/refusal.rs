//! The refusals of the engine's table.
use crate::ffi::Answer;
use std::fmt;

/// A row of the table of refusals.
#[derive(Clone, Copy, Debug, PartialEq, Eq)]
pub enum Refusal {
    Vocabulary,
    Words,
    Blocks,
    TextRank,
    ShortSlice,
    Index,
    Kind,
    Phrase,
    AskedRank,
    Offset,
    Place,
    Page,
    WordList,
    Unlisted,
    Stream,
    Sizes,
    ListMaking,
    Table,
    Documents,
    /// A number that this table lacks, as a later archive may report it.
    Other(u32),
}

impl Refusal {
    /// The rows in the order of their numbers, from 1 on.
    const ROWS: [Refusal; 19] = [
        Refusal::Vocabulary,
        Refusal::Words,
        Refusal::Blocks,
        Refusal::TextRank,
        Refusal::ShortSlice,
        Refusal::Index,
        Refusal::Kind,
        Refusal::Phrase,
        Refusal::AskedRank,
        Refusal::Offset,
        Refusal::Place,
        Refusal::Page,
        Refusal::WordList,
        Refusal::Unlisted,
        Refusal::Stream,
        Refusal::Sizes,
        Refusal::ListMaking,
        Refusal::Table,
        Refusal::Documents,
    ];

    /// The refusal with a number; none for 0, which says that the call was accepted.
    pub fn from_number(number: u32) -> Option<Refusal> {
        let row = (number as usize).checked_sub(1)?;
        Some(Refusal::ROWS.get(row).copied().unwrap_or(Refusal::Other(number)))
    }

    /// The number of the refusal.
    pub fn number(self) -> u32 {
        if let Refusal::Other(number) = self {
            return number;
        }
        let row = Refusal::ROWS.iter().position(|&row| row == self);
        row.map_or(0, |row| row as u32 + 1)
    }

    /// When the refusal is given, in the table's words.
    pub fn words(self) -> &'static str {
        match self {
            Refusal::Vocabulary => "V outside its limits; for a list, V is its number of 0A bytes",
            Refusal::Words => {
                "a text, stream or plain text of more than 16,777,216 words; in a stream, bytes 80 to FF are counted"
            }
            Refusal::Blocks => "B or b is 0, or S above 65,535",
            Refusal::TextRank => "a rank of the text to index or code is not below V",
            Refusal::ShortSlice => {
                "a slice to be built or filled by indexing, stream work or reading is shorter than needed"
            }
            Refusal::Index => "the check does not pass",
            Refusal::Kind => "kind outside 1 to 5",
            Refusal::Phrase => {
                "phrase length above 16, or part outside the lent words, an empty one that starts past their end \
                 included; in a summary, length 0 too"
            }
            Refusal::AskedRank => "a rank asked about is above V",
            Refusal::Offset => "offset outside -16 to 16",
            Refusal::Place => "place or ordinal outside its range; a listing's next place above n",
            Refusal::Page => {
                "page of length 0, answer slice shorter than two per question, or slice for a summary shorter than one \
                 per document"
            }
            Refusal::WordList => {
                "word list breaks a rule: each word closed by 0A, made only of bytes other than 00 that the letter table \
                 keeps, none empty, none twice"
            }
            Refusal::Unlisted => "first word of the text not in the list",
            Refusal::Stream => "a codeword of over three bytes, or a stream that ends inside one",
            Refusal::Sizes => "the four sizes are not those of the text",
            Refusal::ListMaking => {
                "a plain text to make a list of has more than 65,536 bytes, or more than 4,096 distinct words"
            }
            Refusal::Table => {
                "the letter table breaks a rule: 256 entries, each 0 or a byte that the table keeps, entry 0A is 0, some \
                 entry is not 0"
            }
            Refusal::Documents => {
                "the document starts break a rule: the first is 0, each is above the one before it, all are below n, \
                 there is none only if the text is empty"
            }
            Refusal::Other(_) => "a number that the table of this version lacks",
        }
    }
}

/// A call that was turned down: the row of the table, and the value that is returned with it, which is 0 save with
/// [`Refusal::TextRank`] (the first such place) and [`Refusal::Unlisted`] (the word's byte offset).
#[derive(Clone, Copy, Debug, PartialEq, Eq)]
pub struct Refused {
    pub refusal: Refusal,
    pub value: usize,
}

impl fmt::Display for Refused {
    fn fmt(&self, out: &mut fmt::Formatter<'_>) -> fmt::Result {
        write!(out, "refused {} with {}: {}", self.refusal.number(), self.value, self.refusal.words())
    }
}

impl std::error::Error for Refused {}

impl Answer {
    /// The value of an accepted call, or its refusal.
    pub fn result(self) -> Result<usize, Refused> {
        match Refusal::from_number(self.refusal) {
            Some(refusal) => Err(Refused { refusal, value: self.value }),
            None => Ok(self.value),
        }
    }
}

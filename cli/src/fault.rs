//! What stops a command.
use concordance::{Refusal, Refused};
use std::fmt::{self, Display};
use std::io;
use std::path::Path;

/// What stops a command: a line for the user, or nothing to say.
#[derive(Debug)]
pub enum Fault {
    /// Why the command is refused, in the user's words.
    Said(String),
    /// Where in a file the reason lies, and why.
    At(String),
    /// Who reads the output has closed it.
    Closed,
}

impl Fault {
    /// What is said; nothing where the output is closed.
    pub fn line(&self) -> &str {
        match self {
            Fault::Said(line) | Fault::At(line) => line,
            Fault::Closed => "",
        }
    }

    /// A refusal that begins with what it is about.
    pub fn about(what: impl Display, why: impl Display) -> Fault {
        Fault::Said(format!("{what}: {why}"))
    }

    /// A refusal whose reason lies in a line of a file, and in a column of that where it is known.
    pub fn at(path: &Path, line: usize, column: Option<usize>, why: impl Display) -> Fault {
        let column = column.map_or(String::new(), |column| format!("{column}:"));
        Fault::At(format!("{}:{line}:{column} {why}", path.display()))
    }

    /// A file, or a folder, with which something could not be done.
    pub fn file(path: &Path, error: &io::Error) -> Fault {
        Fault::about(path.display(), plain(error))
    }

    /// A refusal of the engine, in the user's words and with its number in the table.
    pub fn engine(what: impl Display, refused: Refused) -> Fault {
        Fault::about(what, Turned(refused.refusal))
    }
}

impl From<io::Error> for Fault {
    fn from(error: io::Error) -> Fault {
        match error.kind() {
            io::ErrorKind::BrokenPipe => Fault::Closed,
            _ => Fault::Said(plain(&error)),
        }
    }
}

/// An error of the system without its number.
fn plain(error: &io::Error) -> String {
    let words = error.to_string();
    words.split(" (os error").next().unwrap_or_default().to_owned()
}

/// A refusal of the engine as it is printed.
pub struct Turned(pub Refusal);

impl Display for Turned {
    fn fmt(&self, out: &mut fmt::Formatter<'_>) -> fmt::Result {
        write!(out, "refused. {} [{}]", in_plain_words(self.0), self.0.number())
    }
}

/// What a refusal means for somebody who asks about letters, and what can be done.
pub fn in_plain_words(refusal: Refusal) -> &'static str {
    match refusal {
        Refusal::Vocabulary => {
            "The word list has no word, or more than 2,113,664, or the room for words is outside these limits; give letters that have \
             words, or a list within the limits."
        }
        Refusal::Words => "There are more than 16,777,216 words; index the letters in several volumes.",
        Refusal::Blocks => {
            "The block lengths that the file names are outside their limits; take the file from a copy, or index the letters again."
        }
        Refusal::TextRank => {
            "The list has more words than the index has room for; give a larger --room, at most 2,113,664, or a shorter list."
        }
        Refusal::ShortSlice => {
            "Too little memory was set aside for the answer. This is a fault of the program and not of the letters; please report it."
        }
        Refusal::Index => {
            "The four arrays are not the index of any text; take the file from a copy, or index the letters again."
        }
        Refusal::Kind => {
            "There is no such kind of question. This is a fault of the program and not of the letters; please report it."
        }
        Refusal::Phrase => {
            "A phrase has at most 16 words, and a count by document is given of one word or more; ask for a part of the phrase, or for a word."
        }
        Refusal::AskedRank => {
            "The word list has more words than the index has room for; take the file from a copy, or index the letters again."
        }
        Refusal::Offset => "Neighbours stand at most 16 words apart; give a smaller --span.",
        Refusal::Place => "That place lies behind the end of the text; take the number after --next as an earlier page printed it.",
        Refusal::Page => "A page has at least one line; give -n 1 or more.",
        Refusal::WordList => {
            "The word list breaks a rule: one word in each line, small letters and digits alone, no word twice, none empty."
        }
        Refusal::Unlisted => "A word of the letters is not in the word list; add it to the list, or let the program make one.",
        Refusal::Stream => "The bytes are no stream of codewords; no command of this program reads such a stream.",
        Refusal::Sizes => {
            "The text was changed while it was being indexed. This is a fault of the program; please report it."
        }
        Refusal::ListMaking => {
            "The text is too long for the engine to make its word list; the program makes the list of such a text itself."
        }
        Refusal::Table => {
            "The letter table breaks a rule: 256 entries, each 00 or a byte that the table keeps as it is, entry 0A is 00, and some entry \
             is not 00."
        }
        Refusal::Documents => {
            "The places at which the letters begin are not in order, or not inside the text; take the file from a copy, or index the \
             letters again."
        }
        Refusal::Other(_) => "The engine gave a number that this program does not know; the two are of different versions.",
    }
}

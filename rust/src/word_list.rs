//! The word list of a plain text that comes without one.
use crate::entries::{self, ListMade};
use crate::letters::Letters;
use crate::refusal::Refused;
use crate::MAX_LIST_TEXT;

/// The byte that closes each word of a list.
const CLOSING: u8 = b'\n';

/// The word list that was made of a plain text, and the text's ranks by it: what [`crate::read_text`] gives of the text and the list, or
/// [`crate::read_text_with`] by the letter table with which the list was made.
#[derive(Clone, Debug, PartialEq, Eq)]
pub struct WordList {
    /// The words of the text, each once and closed by 0A, the most frequent first and equally frequent ones by their first appearance.
    pub list: Vec<u8>,
    /// The rank of each word of the text, in order.
    pub ranks: Vec<u32>,
}

impl WordList {
    /// V, the number of words of the list. It is 0 for a text without words, which has no index of that V.
    pub fn vocabulary(&self) -> usize {
        self.list.iter().filter(|&&byte| byte == CLOSING).count()
    }

    /// The words of the list, in rank order.
    pub fn spellings(&self) -> impl Iterator<Item = &[u8]> {
        self.list.split_inclusive(|&byte| byte == CLOSING).map(|word| word.strip_suffix(&[CLOSING]).unwrap_or(word))
    }
}

/// Makes the word list of a plain text, by the built-in letter table.
pub fn make_list(text: &[u8]) -> Result<WordList, Refused> {
    list_of(text, |list, ranks| entries::make_list(text, list, ranks))
}

/// Makes the word list of a plain text, by a letter table.
pub fn make_list_with(letters: &Letters, text: &[u8]) -> Result<WordList, Refused> {
    list_of(text, |list, ranks| entries::make_list_with(letters.table(), text, list, ranks))
}

/// The list and the ranks that a call writes of a plain text. No slices are made for more than the longest text that a list is made of: beyond
/// that the engine turns the call down before it looks at them.
fn list_of(text: &[u8], make: impl FnOnce(&mut [u8], &mut [u32]) -> ListMade) -> Result<WordList, Refused> {
    let most = text.len().min(MAX_LIST_TEXT);
    let mut list = vec![0; most + 1];
    let mut ranks = vec![0; most / 2 + 1];
    let made = make(&mut list, &mut ranks);
    made.answer.result()?;
    list.truncate(made.bytes);
    ranks.truncate(made.words);
    Ok(WordList { list, ranks })
}

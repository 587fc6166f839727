//! Streams of codewords, plain text through a word list, and spelled words in one. A slice to be filled is made for the most words of a text
//! at most: beyond that the engine turns the call down before it looks at the slice.
use crate::entries;
use crate::ffi::Answer;
use crate::letters::Letters;
use crate::refusal::Refused;
use crate::{LONGEST_CODEWORD, MAX_WORDS};

/// The stream of a text with ranks below V.
pub fn write_stream(vocabulary: usize, text: &[u32]) -> Result<Vec<u8>, Refused> {
    let mut stream = vec![0; text.len().min(MAX_WORDS) * LONGEST_CODEWORD];
    let written = entries::write_stream(vocabulary, text, &mut stream).result()?;
    stream.truncate(written);
    Ok(stream)
}

/// The text of a stream.
pub fn read_stream(stream: &[u8]) -> Result<Vec<u32>, Refused> {
    let closings = stream.iter().filter(|&&byte| byte >= 0x80).count();
    let mut text = vec![0; closings.min(MAX_WORDS)];
    let written = entries::read_stream(stream, &mut text).result()?;
    text.truncate(written);
    Ok(text)
}

/// The ranks of the words of a plain text, by a word list and the built-in letter table.
pub fn read_text(list: &[u8], text: &[u8]) -> Result<Vec<u32>, Refused> {
    ranks_of(text, |ranks| entries::read_text(list, text, ranks))
}

/// The ranks of the words of a plain text, by a word list and a letter table.
pub fn read_text_with(letters: &Letters, list: &[u8], text: &[u8]) -> Result<Vec<u32>, Refused> {
    ranks_of(text, |ranks| entries::read_text_with(letters.table(), list, text, ranks))
}

/// The rank of a spelled word in a word list, by the built-in letter table; V, the number of words of the list, where the list lacks it. An empty
/// spelling, and one with a separator, a line end too, is in no list. The rank can be asked about as it stands, alone or in a phrase, of an
/// [`Index`](crate::Index) with the V of the list: there V is an absent word, which stands nowhere.
pub fn find_word(list: &[u8], spelling: &[u8]) -> Result<u32, Refused> {
    rank_of(entries::find_word(list, spelling))
}

/// The rank of a spelled word in a word list, by a letter table; V, as [`find_word`] gives it, where the list lacks it.
pub fn find_word_with(letters: &Letters, list: &[u8], spelling: &[u8]) -> Result<u32, Refused> {
    rank_of(entries::find_word_with(letters.table(), list, spelling))
}

/// The rank that a call gives, which is V at most.
fn rank_of(answer: Answer) -> Result<u32, Refused> {
    Ok(answer.result()? as u32)
}

/// The ranks that a call writes of a plain text. Whatever the letter table, a text has no more words than every second byte can begin.
fn ranks_of(text: &[u8], read: impl FnOnce(&mut [u32]) -> Answer) -> Result<Vec<u32>, Refused> {
    let mut ranks = vec![0; text.len().div_ceil(2).min(MAX_WORDS)];
    let written = read(&mut ranks).result()?;
    ranks.truncate(written);
    Ok(ranks)
}

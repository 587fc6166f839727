//! Words and their ranks: the word list of a text, the spelling of a rank, and where a list breaks a rule.
use crate::fault::Fault;
use crate::threads::both;
use concordance::{make_list_with, read_text_with, Letters, Refusal, Refused, MAX_LIST_TEXT};
use std::cmp::Reverse;
use std::collections::HashMap;
use std::hash::{BuildHasherDefault, Hasher};
use std::io;

/// What closes a word of a list.
const CLOSING: u8 = b'\n';

/// The words of a text, one after another: each run of letters, folded, is handed on.
pub fn each_word(letters: &Letters, text: &[u8], mut word: impl FnMut(&[u8])) {
    let mut folded = Vec::new();
    for &byte in text {
        match letters.fold(byte) {
            Some(letter) => folded.push(letter),
            None if folded.is_empty() => {}
            None => {
                word(&folded);
                folded.clear();
            }
        }
    }
    if !folded.is_empty() {
        word(&folded);
    }
}

/// The number of words of a text: how often a letter stands behind no letter.
pub fn count_words(letters: &Letters, text: &[u8]) -> usize {
    let (mut words, mut inside) = (0, false);
    for &byte in text {
        let is_letter = letters.fold(byte).is_some();
        words += usize::from(is_letter & !inside);
        inside = is_letter;
    }
    words
}

/// The word list of a text: by the engine where it takes the text, and otherwise by [`list_of`], which reports its progress in bytes.
pub fn word_list(letters: &Letters, text: &[u8], progress: impl Fn(usize) + Sync) -> Result<Vec<u8>, Fault> {
    if text.len() <= MAX_LIST_TEXT {
        match make_list_with(letters, text) {
            Ok(made) => return Ok(made.list),
            Err(Refused { refusal: Refusal::ListMaking, .. }) => {}
            Err(refused) => return Err(Fault::engine("the letters", refused)),
        }
    }
    Ok(list_of(letters, text, &progress)?)
}

/// The ranks of the words of a text by a word list, as the engine reads them, one half of the text on a thread of its own: it is cut at a separator, so that no word
/// is. Where a word is not listed, the byte at which the first such word starts is counted in the whole text.
pub fn read_halves(letters: &Letters, list: &[u8], text: &[u8]) -> io::Result<Result<Vec<u32>, Refused>> {
    let at = separator_from(letters, text, text.len() / 2);
    let (first, second) = text.split_at(at);
    let (there, here) = both(|| read_text_with(letters, list, second), || read_text_with(letters, list, first))?;
    Ok(here.and_then(|mut ranks| match there {
        Ok(behind) => {
            ranks.extend(behind);
            Ok(ranks)
        }
        Err(Refused { refusal: Refusal::Unlisted, value }) => {
            Err(Refused { refusal: Refusal::Unlisted, value: at + value })
        }
        Err(refused) => Err(refused),
    }))
}

/// The first separator of a text from a byte on; the end of the text where there is none.
fn separator_from(letters: &Letters, text: &[u8], from: usize) -> usize {
    let ahead = text[from..].iter().position(|&byte| letters.fold(byte).is_none());
    ahead.map_or(text.len(), |ahead| from + ahead)
}

/// A hash of a word, eight bytes at a time: quick, and good enough for words.
#[derive(Default)]
struct WordHasher(u64);

impl Hasher for WordHasher {
    fn write(&mut self, bytes: &[u8]) {
        for part in bytes.chunks(8) {
            let eight = part.iter().rev().fold(0, |eight, &byte| eight << 8 | u64::from(byte));
            self.0 = (self.0.rotate_left(5) ^ eight).wrapping_mul(0x517C_C1B7_2722_0A95);
        }
    }

    fn write_usize(&mut self, number: usize) {
        self.0 ^= number as u64;
    }

    fn finish(&self) -> u64 {
        self.0 ^ self.0 >> 32
    }
}

/// The distinct words of a text, numbered by their first appearance, and how often each stands.
#[derive(Default)]
struct Tally {
    numbers: HashMap<Box<[u8]>, usize, BuildHasherDefault<WordHasher>>,
    counts: Vec<u32>,
}

impl Tally {
    /// The words of a text, of which about this many bytes are gone through at a time, and then reported.
    fn of(letters: &Letters, mut text: &[u8], progress: &(impl Fn(usize) + Sync)) -> Tally {
        const PART: usize = 1 << 20;
        let mut tally = Tally::default();
        while !text.is_empty() {
            let (part, rest) = text.split_at(separator_from(letters, text, PART.min(text.len())));
            each_word(letters, part, |word| tally.add(word, 1));
            progress(part.len());
            text = rest;
        }
        tally
    }

    /// Counts a word so many times more.
    fn add(&mut self, word: &[u8], times: u32) {
        match self.numbers.get(word) {
            Some(&number) => self.counts[number] += times,
            None => {
                self.numbers.insert(word.into(), self.counts.len());
                self.counts.push(times);
            }
        }
    }

    /// The words in the order of a key of their number and count, each with its count.
    fn sorted_by<K: Ord>(&self, key: impl Fn(usize, u32) -> K) -> Vec<(&[u8], u32)> {
        let mut words: Vec<(&[u8], usize)> = self.numbers.iter().map(|(word, &number)| (&word[..], number)).collect();
        words.sort_unstable_by_key(|&(_, number)| key(number, self.counts[number]));
        words.into_iter().map(|(word, number)| (word, self.counts[number])).collect()
    }
}

/// The distinct words of a text, the most frequent first and equally frequent ones by their first appearance, each closed by 0A. One half of the text is
/// gone through on a thread of its own.
pub fn list_of(letters: &Letters, text: &[u8], progress: &(impl Fn(usize) + Sync)) -> io::Result<Vec<u8>> {
    let (first, second) = text.split_at(separator_from(letters, text, text.len() / 2));
    let (behind, mut tally) = both(|| Tally::of(letters, second, progress), || Tally::of(letters, first, progress))?;
    for (word, times) in behind.sorted_by(|number, _| number) {
        tally.add(word, times);
    }
    let mut list = Vec::new();
    for (word, _) in tally.sorted_by(|number, count| (Reverse(count), number)) {
        list.extend_from_slice(word);
        list.push(CLOSING);
    }
    Ok(list)
}

/// The words of a list by their ranks.
pub struct Spellings<'a> {
    list: &'a [u8],
    /// The byte behind each word.
    ends: Vec<usize>,
}

impl<'a> Spellings<'a> {
    /// The words of a list.
    pub fn of(list: &'a [u8]) -> Spellings<'a> {
        let ends = list.iter().enumerate().filter(|(_, &byte)| byte == CLOSING).map(|(at, _)| at).collect();
        Spellings { list, ends }
    }

    /// The number of words.
    pub fn len(&self) -> usize {
        self.ends.len()
    }

    /// The word of a rank; none where the list ends before it.
    pub fn word(&self, rank: u32) -> Option<&'a [u8]> {
        let rank = rank as usize;
        let start = if rank == 0 { 0 } else { self.ends.get(rank - 1)? + 1 };
        self.list.get(start..*self.ends.get(rank)?)
    }
}

/// The first line of a word list that breaks a rule, from 1 on, and which.
pub fn broken_line(letters: &Letters, list: &[u8]) -> Option<(usize, String)> {
    let mut lines: HashMap<&[u8], usize> = HashMap::new();
    for (at, word) in list.split_inclusive(|&byte| byte == CLOSING).enumerate() {
        let line = at + 1;
        let Some(word) = word.strip_suffix(&[CLOSING]) else {
            return Some((line, "the line is not closed".to_owned()));
        };
        if word.is_empty() {
            return Some((line, "the line is empty".to_owned()));
        }
        if let Some(&byte) = word.iter().find(|&&byte| byte == 0 || letters.fold(byte) != Some(byte)) {
            let why = match letters.fold(byte) {
                Some(_) => "is folded to another letter",
                None => "is no letter",
            };
            return Some((line, format!("the byte {byte:02X} {why}")));
        }
        if let Some(earlier) = lines.insert(word, line) {
            return Some((line, format!("the word stands in line {earlier} already")));
        }
    }
    None
}

/// A word as dictionaries order it: by its letters without their accents, and where these are equal by its bytes.
pub fn dictionary_key(word: &[u8]) -> (Vec<u8>, &[u8]) {
    let mut plain = Vec::with_capacity(word.len());
    for &byte in word {
        plain.extend_from_slice(match byte {
            0xE0..=0xE5 => b"a",
            0xE6 => b"ae",
            0xE7 => b"c",
            0xE8..=0xEB => b"e",
            0xEC..=0xEF => b"i",
            0xF0 => b"d",
            0xF1 => b"n",
            0xF2..=0xF6 | 0xF8 => b"o",
            0xF9..=0xFC => b"u",
            0xFD | 0xFF => b"y",
            0xFE => b"th",
            0xDF => b"ss",
            _ => std::slice::from_ref(&byte),
        });
    }
    (plain, word)
}

#[cfg(test)]
mod tests {
    use super::*;
    use concordance::make_list;

    /// Texts of a few letters, so that words recur and have equal frequencies.
    fn small_texts() -> impl Iterator<Item = Vec<u8>> {
        let mut state = 7u64;
        (0..400).map(move |length| {
            let mut draw = || {
                state = state.wrapping_mul(6364136223846793005).wrapping_add(1442695040888963407);
                b"abAB \xE4\xC4-\nz"[(state >> 33) as usize % 10]
            };
            (0..length).map(|_| draw()).collect()
        })
    }

    #[test]
    fn makes_the_list_that_the_engine_makes() {
        let letters = Letters::built_in();
        for text in small_texts() {
            let made = make_list(&text).unwrap();
            assert_eq!(list_of(&letters, &text, &|_| ()).unwrap(), made.list);
            let ranks =
                if made.list.is_empty() { Ok(vec![]) } else { read_halves(&letters, &made.list, &text).unwrap() };
            assert_eq!(ranks, Ok(made.ranks.clone()));
            assert_eq!(count_words(&letters, &text), made.ranks.len());
        }
    }

    #[test]
    fn finds_the_first_unlisted_word_in_either_half() {
        let letters = Letters::built_in();
        for (text, value) in
            [(&b"a b c d"[..], 6), (b"a d b d", 2), (b"d", 0), (b"a b c a b cd", 10), (b"aaaaaaaaaaaad", 0)]
        {
            let refused = Refused { refusal: Refusal::Unlisted, value };
            assert_eq!(read_halves(&letters, b"a\nb\nc\n", text).unwrap(), Err(refused));
        }
    }

    #[test]
    fn spells_the_ranks_of_a_list() {
        let spellings = Spellings::of(b"the\nof\n\xE9t\xE9\n");
        let words: Vec<_> = (0..4).map(|rank| spellings.word(rank)).collect();
        assert_eq!(words, [Some(&b"the"[..]), Some(b"of"), Some(b"\xE9t\xE9"), None]);
        assert_eq!(Spellings::of(b"").word(0), None);
    }

    #[test]
    fn finds_the_line_that_the_engine_refuses() {
        let letters = Letters::built_in();
        let lists: [(&[u8], Option<usize>); 7] = [
            (b"a\nb\n", None),
            (b"a\nb", Some(2)),
            (b"a\n\nb\n", Some(2)),
            (b"a\nB\n", Some(2)),
            (b"a\nb-c\n", Some(2)),
            (b"a\nb\na\n", Some(3)),
            (b"\0\n", Some(1)),
        ];
        for (list, line) in lists {
            assert_eq!(broken_line(&letters, list).map(|(line, _)| line), line);
            let refused = concordance::read_text(list, b"").err().map(|refused| refused.refusal);
            let vocabulary = list.iter().filter(|&&byte| byte == b'\n').count();
            assert_eq!(refused, line.map(|_| Refusal::WordList).filter(|_| vocabulary > 0));
        }
    }

    #[test]
    fn orders_words_as_dictionaries_do() {
        let mut words: Vec<&[u8]> = vec![b"zoo", b"\xE9t\xE9", b"etage", b"ete", b"stra\xDFe", b"strasse"];
        words.sort_by_key(|word| dictionary_key(word));
        assert_eq!(words, [&b"etage"[..], b"ete", b"\xE9t\xE9", b"strasse", b"stra\xDFe", b"zoo"]);
    }
}

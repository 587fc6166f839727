//! Absent words: finding a spelled word in a list that may lack it, and questions, sheets, pages and summaries about the rank V, against the reference.
mod support;
use concordance::entries::{self, Answer, RawPage};
use concordance::{Arrays, Index, Letters, Listing, Page, Question, Refusal, Refused, Shape};
use std::hint::black_box;
use std::iter;
use support::random::Random;
use support::{inputs, reference};

const MAX_VOCABULARY: usize = 2_113_664;

/// What the slices hold that are lent to be filled.
const MARK: u32 = 0x6666_6666;

// ---- finding a spelled word

/// The answer to a spelling by a table, which is the reference's; all that was lent stays as it was.
fn find(table: &[u8], list: &[u8], spelling: &[u8]) -> Answer {
    let lent = (table.to_vec(), list.to_vec(), spelling.to_vec());
    let answer = entries::find_word_with(&lent.0, &lent.1, &lent.2);
    assert_eq!(answer, reference::find_word(table, list, spelling), "{}", shown(table, list, spelling));
    let lent = black_box(&lent);
    assert!(lent.0 == table && lent.1 == list && lent.2 == spelling, "{}", shown(table, list, spelling));
    answer
}

/// The same by the built-in table, which is the answer of the entry without a table and of the crate's functions too.
fn find_built_in(list: &[u8], spelling: &[u8]) -> Answer {
    let answer = find(&reference::built_in(), list, spelling);
    let lent = (list.to_vec(), spelling.to_vec());
    assert_eq!(entries::find_word(&lent.0, &lent.1), answer, "{}", shown(&[], list, spelling));
    let lent = black_box(&lent);
    assert!(lent.0 == list && lent.1 == spelling, "{}", shown(&[], list, spelling));
    let result = answer.result().map(|rank| rank as u32);
    assert_eq!(concordance::find_word(list, spelling), result, "{}", shown(&[], list, spelling));
    assert_eq!(concordance::find_word_with(&Letters::built_in(), list, spelling), result);
    answer
}

/// A table, and the fronts of a list and of a spelling, for a message.
fn shown(table: &[u8], list: &[u8], spelling: &[u8]) -> String {
    let front = |bytes: &[u8]| format!("{} bytes: {:02X?}", bytes.len(), &bytes[..bytes.len().min(130)]);
    format!("table of {table:02X?}, list of {}, spelling of {}", front(list), front(spelling))
}

/// The built-in table, in which these entries are changed.
fn built_in_but(entries: &[(u8, u8)]) -> Vec<u8> {
    let mut table = reference::built_in();
    for &(byte, entry) in entries {
        table[usize::from(byte)] = entry;
    }
    table
}

/// Tables that break one rule: too few entries and too many, a byte that is not kept, the line end as a letter, and no letter.
fn broken_tables() -> [Vec<u8>; 6] {
    let built_in = reference::built_in();
    let longer = [&built_in[..], &[0]].concat();
    let (unkept, line_end) = (built_in_but(&[(0xFF, 0x42)]), built_in_but(&[(0x0A, 0x61)]));
    [vec![], built_in[..255].to_vec(), longer, unkept, line_end, vec![0; 256]]
}

/// The list b, ab, DF, of which V is 3.
const LIST: &[u8] = b"b\nab\n\xDF\n";

/// Spellings of the three words of a list, and spellings that it lacks: fronts and more than a word, the empty one, and ones with separators.
#[test]
fn sample_spellings() {
    for (spelling, rank) in [
        (&b"b"[..], 0),
        (b"B", 0),
        (b"ab", 1),
        (b"Ab", 1),
        (b"aB", 1),
        (b"\xDF", 2),
        (b"a", 3),
        (b"abb", 3),
        (b"bb", 3),
        (b"ba", 3),
        (b"\xFF", 3),
        (b"\xDFb", 3),
        (b"", 3),
        (b"a b", 3),
        (b" b", 3),
        (b"b ", 3),
        (b"ab\n", 3),
        (b"\nab", 3),
        (b"\n", 3),
        (b"b\nab", 3),
        (b"\xD7", 3),
        (b"ab\xF7", 3),
        (b"\0", 3),
        (b"b\0", 3),
        (b"\0b", 3),
        (LIST, 3),
    ] {
        assert_eq!(find_built_in(LIST, spelling), reference::accepted(rank), "{spelling:02X?}");
        for broken in broken_tables() {
            assert_eq!(find(&broken, LIST, spelling), reference::refused(18), "{spelling:02X?}");
        }
    }
}

/// Lists that are refused, whatever is spelled: those without a closed word by 1, those that break a rule by 13. A table that breaks a rule is refused
/// before.
#[test]
fn sample_lists() {
    for (list, refusal) in [
        (&b""[..], 1),
        (b"b", 1),
        (b"B\n", 13),
        (b"b\nB\n", 13),
        (b"b\nb\n", 13),
        (b"b\nab\nb\n", 13),
        (b"b\nab", 13),
        (b"\n", 13),
        (b"\nb\n", 13),
        (b"b\n\n", 13),
        (b"b\n\0\n", 13),
        (b"b\n\xD7\n", 13),
        (b"b\na b\n", 13),
    ] {
        for spelling in [&b"b"[..], b"B", b"a", b"", b"\n", b"a b", b"\xFF\xFF", list] {
            assert_eq!(find_built_in(list, spelling), reference::refused(refusal), "{list:02X?}, {spelling:02X?}");
            for broken in broken_tables() {
                assert_eq!(find(&broken, list, spelling), reference::refused(18), "{list:02X?}, {spelling:02X?}");
            }
        }
    }
    let refused = |refusal| Err(Refused { refusal, value: 0 });
    assert_eq!(concordance::find_word(b"", b"b"), refused(Refusal::Vocabulary));
    assert_eq!(concordance::find_word(b"B\n", b"b"), refused(Refusal::WordList));
}

/// With D7 and F7 as a letter, "a", that letter and "b" are a word; with 00 read as "a", it is spelled by 00; by the built-in table neither.
#[test]
fn sample_tables() {
    let with_f7 = built_in_but(&[(0xD7, 0xF7), (0xF7, 0xF7)]);
    for (list, spelling, own, built_in) in [
        (&b"a\xF7b\n"[..], &b"A\xD7B"[..], (0, 0), (13, 0)),
        (b"a\xF7b\n", b"a b", (0, 1), (13, 0)),
        (b"a\xF7b\n", b"ab", (0, 1), (13, 0)),
        (b"a\xD7b\n", b"A\xD7B", (13, 0), (13, 0)),
        (b"ab\na\nb\n", b"A\xD7B", (0, 3), (0, 3)),
    ] {
        let answers = [own, built_in].map(|(refusal, value)| Answer { refusal, value });
        assert_eq!([find(&with_f7, list, spelling), find_built_in(list, spelling)], answers, "{spelling:02X?}");
        let letters = Letters::new(&with_f7).expect("it is a table");
        let result = answers[0].result().map(|rank| rank as u32);
        assert_eq!(concordance::find_word_with(&letters, list, spelling), result, "{spelling:02X?}");
    }
    let with_00 = built_in_but(&[(0, 0x61)]);
    for (spelling, own, built_in) in [(&b"\0"[..], 0, 2), (b"a\0A", 1, 2), (b"\0\0", 2, 2), (b"\0\0\0", 1, 2)] {
        assert_eq!(find(&with_00, b"a\naaa\n", spelling), reference::accepted(own), "{spelling:02X?}");
        assert_eq!(find_built_in(b"a\naaa\n", spelling), reference::accepted(built_in), "{spelling:02X?}");
        assert_eq!(find(&with_00, b"a\n\0\n", spelling), reference::refused(13), "{spelling:02X?}");
    }
}

/// Each byte as a spelling, behind a letter, before one and between two, by some tables: a word is spelled exactly if the byte is read as the letter
/// that it lacks.
#[test]
fn each_byte() {
    let mut random = Random::of("each_byte");
    let all: Vec<(u8, u8)> = (1..=255).filter(|&byte| byte != 0x0A).map(|byte| (byte, byte)).collect();
    let mut tables = vec![
        reference::built_in(),
        built_in_but(&[(0, 0x61)]),
        built_in_but(&[(0xD7, 0xF7), (0xF7, 0xF7)]),
        built_in_but(&all),
    ];
    for _ in 0..4 {
        let mut table = inputs::letter_table(&mut random);
        (table[0x61], table[0x62]) = (0x61, 0x62);
        tables.push(table);
    }
    let list = b"a\nb\nab\nbab\n";
    for (table, byte) in tables.iter().flat_map(|table| (0..=255).map(move |byte| (table, byte))) {
        let letter = reference::letter(table, byte);
        let rank = |of_a: usize, of_b: usize| match letter {
            b'a' => reference::accepted(of_a),
            b'b' => reference::accepted(of_b),
            _ => reference::accepted(4),
        };
        for (spelling, expected) in [
            (vec![byte], rank(0, 1)),
            (vec![b'a', byte], rank(4, 2)),
            (vec![byte, b'b'], rank(2, 4)),
            (vec![b'b', byte, b'b'], rank(3, 4)),
            (vec![byte, byte], rank(4, 4)),
        ] {
            assert_eq!(find(table, list, &spelling), expected, "{byte:02X}, {table:02X?}");
        }
    }
}

/// Every spelling of up to four bytes over a letter, its capital, another letter, a blank and a line end, in some lists: its rank is the place of the word
/// that it is in small letters.
#[test]
fn small_spellings() {
    let (mut tried, mut found) = (0, 0);
    for words in [&["a"][..], &["ab", "a"], &["b", "aab", "ba"], &["abab", "aba", "ab", "a", "bbbb"]] {
        let list = words.join("\n") + "\n";
        for length in 0..=4u32 {
            for number in 0..5usize.pow(length) {
                let spelling: Vec<u8> = (0..length).map(|place| b"aAb \n"[number / 5usize.pow(place) % 5]).collect();
                let small = spelling.to_ascii_lowercase();
                let place = words.iter().position(|word| word.as_bytes() == small);
                let expected = reference::accepted(place.unwrap_or(words.len()));
                assert_eq!(find_built_in(list.as_bytes(), &spelling), expected, "{list:?}, {spelling:02X?}");
                found += usize::from(place.is_some());
                tried += 1;
            }
        }
    }
    assert_eq!((tried, found), (4 * 781, 26));
}

/// What a random spelling has come to.
#[derive(Debug, Default)]
struct Spelled {
    /// How often each refusal was met, by its number, 0 for accepted.
    met: [usize; 19],
    found: usize,
    found_in_other_bytes: usize,
    with_line_end: usize,
    with_00: usize,
    empty: usize,
    separator_in_front: usize,
    separator_inside: usize,
    separator_behind: usize,
    front_of_a_word: usize,
    more_than_a_word: usize,
    other_letters: usize,
}

impl Spelled {
    /// Counts the answer to a spelling by a table that breaks no rule, or a refused answer.
    fn count(&mut self, table: &[u8], list: &[u8], spelling: &[u8], answer: Answer) {
        self.met[answer.refusal as usize] += 1;
        if answer.refusal != 0 {
            return;
        }
        self.with_line_end += usize::from(spelling.contains(&0x0A));
        self.with_00 += usize::from(spelling.contains(&0));
        let folded: Vec<u8> = spelling.iter().map(|&byte| reference::letter(table, byte)).collect();
        let mut words: Vec<&[u8]> = list.split(|&byte| byte == 0x0A).collect();
        words.pop();
        if answer.value < words.len() {
            assert_eq!(words[answer.value], folded, "{}", shown(table, list, spelling));
            self.found += 1;
            self.found_in_other_bytes += usize::from(folded != spelling);
            return;
        }
        assert_eq!(answer.value, words.len(), "{}", shown(table, list, spelling));
        assert!(!words.contains(&&folded[..]), "{}", shown(table, list, spelling));
        let last = folded.len().saturating_sub(1);
        let met = match folded.iter().position(|&letter| letter == 0) {
            _ if folded.is_empty() => &mut self.empty,
            Some(0) => &mut self.separator_in_front,
            Some(at) if at == last => &mut self.separator_behind,
            Some(_) => &mut self.separator_inside,
            None if words.iter().any(|word| word.starts_with(&folded)) => &mut self.front_of_a_word,
            None if words.iter().any(|word| folded.starts_with(word)) => &mut self.more_than_a_word,
            None => &mut self.other_letters,
        };
        *met += 1;
    }

    /// Asserts that each outcome was met more than so many times, and no other refusal than those of the call.
    fn assert_met(&self, refusals: &[usize], times: usize) {
        let outcomes = [
            self.found,
            self.found_in_other_bytes,
            self.with_line_end,
            self.with_00,
            self.empty,
            self.separator_in_front,
            self.separator_inside,
            self.separator_behind,
            self.front_of_a_word,
            self.more_than_a_word,
            self.other_letters,
        ];
        assert!(outcomes.iter().all(|&met| met > times), "{self:?}");
        assert!(refusals.iter().all(|&number| self.met[number] > times), "{self:?}");
        let mut others = (1..19).filter(|number| !refusals.contains(number));
        assert!(others.all(|number| self.met[number] == 0), "{self:?}");
    }
}

/// Random spellings by random tables in random lists, which may break a rule each.
#[test]
fn random_spellings() {
    let mut random = Random::of("random_spellings");
    let mut spelled = Spelled::default();
    for _ in 0..30_000 {
        let table = inputs::lent_table(&mut random);
        let by = if reference::is_table(&table) { table.clone() } else { reference::built_in() };
        let text = inputs::text_by(&mut random, &by);
        let list = inputs::word_list(&mut random, &by, &text);
        let spelling = inputs::spelling(&mut random, &by, &list);
        spelled.count(&table, &list, &spelling, find(&table, &list, &spelling));
    }
    spelled.assert_met(&[1, 13, 18], 200);
}

/// Random spellings by the built-in table.
#[test]
fn random_spellings_without_a_table() {
    let mut random = Random::of("random_spellings_without_a_table");
    let table = reference::built_in();
    let mut spelled = Spelled::default();
    for _ in 0..8_000 {
        let text = match random.below(2) {
            0 => inputs::plain_text(&mut random),
            _ => inputs::repetitive_text(&mut random),
        };
        let list = inputs::word_list(&mut random, &table, &text);
        let spelling = inputs::spelling(&mut random, &table, &list);
        spelled.count(&table, &list, &spelling, find_built_in(&list, &spelling));
    }
    spelled.assert_met(&[1, 13], 50);
}

/// Each word of a random text by a random table, spelled as it stands there: its rank is the one that reading the text gives. With the separator before
/// it or behind it, it is in no list. Where the text is refused by 14, the words before the first unlisted one are found, and that one is not.
#[test]
fn words_of_texts() {
    let mut random = Random::of("words_of_texts");
    let (mut read_words, mut with_separators, mut found, mut lacking, mut refused) = (0, 0, 0, 0, 0);
    for _ in 0..2_000 {
        let table = inputs::letter_table(&mut random);
        let text = inputs::text_by(&mut random, &table);
        let list = inputs::word_list(&mut random, &table, &text);
        let vocabulary = list.iter().filter(|&&byte| byte == 0x0A).count();
        let words = reference::words_of(&table, &text);
        let mut ranks = vec![MARK; words.len()];
        let read = entries::read_text_with(&table, &list, &text, &mut ranks);
        for (&rank, (offset, word)) in ranks.iter().zip(&words) {
            let (from, to) = (*offset, offset + word.len());
            let answer = find(&table, &list, &text[from..to]);
            match read {
                Answer { refusal: 0, .. } => {
                    assert_eq!(answer, reference::accepted(rank as usize), "{}", shown(&table, &list, &text));
                    read_words += 1;
                    let more = [text.get(from.wrapping_sub(1)..to), text.get(from..to + 1)];
                    for spelling in more.into_iter().flatten() {
                        assert_eq!(find(&table, &list, spelling), reference::accepted(vocabulary));
                        with_separators += 1;
                    }
                }
                Answer { refusal: 14, value } if from < value => {
                    assert!(answer.refusal == 0 && answer.value < vocabulary, "{}", shown(&table, &list, &text));
                    found += 1;
                }
                Answer { refusal: 14, value } if from == value => {
                    assert_eq!(answer, reference::accepted(vocabulary), "{}", shown(&table, &list, &text));
                    lacking += 1;
                }
                Answer { refusal: 14, .. } => assert_eq!(answer.refusal, 0, "{}", shown(&table, &list, &text)),
                _ => {
                    assert_eq!(answer, read, "{}", shown(&table, &list, &text));
                    refused += 1;
                }
            }
        }
    }
    let met = [read_words, with_separators, found, lacking, refused];
    assert!(met.iter().all(|&times| times > 100), "{met:?}");
}

/// Lists of as many words as a hash table has, of one more, and of more than two tables: words of each, the front of a word and a word that is not listed,
/// and a list in which a word stands twice.
#[test]
fn long_lists() {
    for vocabulary in [100_000, 100_001, 230_000] {
        let list: Vec<u8> = (0..vocabulary).flat_map(|rank| format!("w{rank:x}\n").into_bytes()).collect();
        let edges = [0, 1, 99_999, 100_000, 199_999, 200_000, vocabulary - 1];
        for rank in edges.into_iter().filter(|&rank| rank < vocabulary) {
            let spelling = format!("W{rank:X}");
            let found = entries::find_word(&list, spelling.as_bytes());
            assert_eq!(found, reference::accepted(rank), "{spelling} of {vocabulary}");
        }
        for spelling in [format!("w{vocabulary:x}"), "w".into(), "w00".into(), "w1\n".into(), String::new()] {
            let found = entries::find_word(&list, spelling.as_bytes());
            assert_eq!(found, reference::accepted(vocabulary), "{spelling:?} of {vocabulary}");
        }
        let twice = [&list[..], b"w1869f\n"].concat();
        for spelling in [&b"w0"[..], b"w1869f", b"x"] {
            assert_eq!(entries::find_word(&twice, spelling), reference::refused(13), "{vocabulary}");
        }
    }
}

/// Long words: each spelled in capitals, and with a letter less, a letter more, another last letter or a separator at its end.
#[test]
fn long_words() {
    let length = 1_000_000;
    let long = |last: u8| [vec![b'x'; length - 1], vec![last]].concat();
    let list = [long(b'y'), vec![b'x'; length / 2], long(b'z'), b"x".to_vec(), vec![]].join(&b'\n');
    let with = |last: &[u8]| [&vec![b'X'; length - 1][..], last].concat();
    for (spelling, rank) in [
        (with(b"Y"), 0),
        (with(b"y"), 0),
        (with(b"Z"), 2),
        (with(b"X"), 4),
        (with(b""), 4),
        (with(b"yy"), 4),
        (with(b"z "), 4),
        (with(b"\n"), 4),
        (with(b"y\n"), 4),
        (vec![b'X'; length / 2], 1),
        (vec![b'x'; length / 2 + 1], 4),
        (b"X".to_vec(), 3),
        (b"xx".to_vec(), 4),
    ] {
        assert_eq!(find_built_in(&list, &spelling), reference::accepted(rank), "{}", shown(&[], &[], &spelling));
    }
}

/// The same memory lent as the table, the list and the spelling.
#[test]
fn table_as_list() {
    let own: Vec<u8> = (0..=255).map(|byte| if byte == 0x0A { 0 } else { byte }).collect();
    for (table, refusal) in [(reference::built_in(), 1), (own, 1), (vec![b'\n'; 256], 18), (b"a\n".repeat(128), 18)] {
        let answer = entries::find_word_with(&table, &table, &table);
        assert_eq!(answer, reference::refused(refusal), "{table:02X?}");
        assert_eq!(answer, reference::find_word(&table, &table, &table), "{table:02X?}");
    }
    assert_eq!(entries::find_word(LIST, LIST), reference::accepted(3));
    assert_eq!(entries::find_word(LIST, &LIST[2..4]), reference::accepted(1));
}

// ---- absent words asked about

/// What is lent to a call. Without starts the call is the one that takes none.
#[derive(Clone, Debug)]
struct Lent {
    shape: Shape,
    arrays: Arrays,
    starts: Option<Vec<u32>>,
    words: Vec<u32>,
}

/// The index of a text and the words of phrases, without document starts and with them.
fn lent(shape: Shape, text: &[u32], starts: &[u32], words: &[u32]) -> [Lent; 2] {
    let arrays = reference::index(shape, text);
    [None, Some(starts.to_vec())].map(|starts| Lent { shape, arrays: arrays.clone(), starts, words: words.to_vec() })
}

impl Lent {
    /// The answer to a question, which is the reference's.
    fn ask(&self, question: Question) -> Answer {
        let Lent { shape, arrays, starts, words } = self;
        let (answer, expected) = match starts {
            None => (
                entries::ask(*shape, arrays.slices(), words, question),
                reference::ask(*shape, arrays, words, question),
            ),
            Some(starts) => (
                entries::ask_in_documents(*shape, arrays.slices(), starts, words, question),
                reference::ask_in_documents(*shape, arrays, starts, words, question),
            ),
        };
        assert_eq!(answer, expected, "{question:?}, {self:?}");
        answer
    }

    /// The pairs of a sheet, which are the reference's, and a pair behind them that stays.
    fn answer_sheet(&self, questions: &[Question]) -> Vec<[u32; 2]> {
        let Lent { shape, arrays, starts, words } = self;
        let mut ours = vec![MARK; 2 * questions.len() + 2];
        let mut theirs = ours.clone();
        let (answer, expected) = match starts {
            None => (
                entries::answer_sheet(*shape, arrays.slices(), words, questions, &mut ours),
                reference::answer_sheet(*shape, arrays, words, questions, &mut theirs),
            ),
            Some(starts) => (
                entries::answer_sheet_in_documents(*shape, arrays.slices(), starts, words, questions, &mut ours),
                reference::answer_sheet_in_documents(*shape, arrays, starts, words, questions, &mut theirs),
            ),
        };
        assert_eq!((answer, &ours), (expected, &theirs), "{questions:?}, {self:?}");
        assert_eq!(answer, reference::accepted(2 * questions.len()), "{questions:?}, {self:?}");
        let mut pairs: Vec<[u32; 2]> = ours.chunks(2).map(|pair| [pair[0], pair[1]]).collect();
        assert_eq!(pairs.pop(), Some([MARK; 2]), "{questions:?}, {self:?}");
        pairs
    }

    /// The page of a part of the lent words in a slice of so many lines, and the slice; both are the reference's.
    fn list(&self, state: Listing, part: (usize, usize), lines: usize) -> (RawPage, Vec<u32>) {
        let Lent { shape, arrays, starts, words } = self;
        let (mut ours, mut theirs) = (vec![MARK; lines], vec![MARK; lines]);
        let (page, expected) = match starts {
            None => (
                entries::list(state, *shape, arrays.slices(), words, part.0, part.1, &mut ours),
                reference::page(state, *shape, arrays, words, part.0, part.1, &mut theirs),
            ),
            Some(starts) => (
                entries::list_in_documents(state, *shape, arrays.slices(), starts, words, part.0, part.1, &mut ours),
                reference::page_in_documents(state, *shape, arrays, starts, words, part, &mut theirs),
            ),
        };
        assert_eq!((page, &ours), (expected, &theirs), "{state:?}, {part:?}, {self:?}");
        (page, ours)
    }

    /// The answer of the summary of a part of the lent words in a slice of so many elements, and the slice; both are the reference's.
    fn summary(&self, part: (usize, usize), room: usize) -> (Answer, Vec<u32>) {
        let Lent { shape, arrays, starts, words } = self;
        let starts = starts.as_ref().expect("a summary has starts");
        let (mut ours, mut theirs) = (vec![MARK; room], vec![MARK; room]);
        let answer = entries::summary(*shape, arrays.slices(), starts, words, part.0, part.1, &mut ours);
        let expected = reference::summary(*shape, arrays, starts, words, part, &mut theirs);
        assert_eq!((answer, &ours), (expected, &theirs), "{part:?}, {self:?}");
        (answer, ours)
    }
}

/// A shape for small texts.
fn small(vocabulary: usize) -> Shape {
    Shape { vocabulary, block: 4, per_superblock: 2 }
}

/// The pair of an answer in a sheet.
fn pair(answer: Answer) -> [u32; 2] {
    [answer.refusal, answer.value as u32]
}

/// The page that a phrase with an absent word has from a state on, in a text of n words: it has no place, and is the last.
fn page_without_places(n: usize, state: Listing, lines: usize) -> (RawPage, Vec<u32>) {
    let refusal = reference::first_of(&[(state.next > n, 11), (lines == 0, 12)]);
    let listing = if refusal != 0 || state.finished { state } else { Listing { next: n, finished: true } };
    (RawPage { answer: reference::refused(refusal), more: false, listing }, vec![MARK; lines])
}

/// In 0 1 0, where V is 2, questions of kinds 2 to 5 about 2 and 3, one by one and in a sheet.
#[test]
fn sample_questions() {
    let answers = [
        (Question::occurrences_below(2, 0), 0, 0),
        (Question::occurrences_below(2, 3), 0, 0),
        (Question::occurrences_below(2, 4), 11, 0),
        (Question::occurrences_below(3, 0), 9, 0),
        (Question::occurrences_below(3, 4), 9, 0),
        (Question::place_of(2, 0), 11, 0),
        (Question::place_of(2, 1), 11, 0),
        (Question::place_of(3, 0), 9, 0),
        (Question::place_of(3, 1), 9, 0),
        (Question::neighbours(2, 0, 0), 0, 0),
        (Question::neighbours(0, 2, 0), 0, 0),
        (Question::neighbours(2, 2, 0), 0, 0),
        (Question::neighbours(2, 0, 17), 10, 0),
        (Question::neighbours(0, 2, -17), 10, 0),
        (Question::neighbours(0, 3, 17), 9, 0),
        (Question::neighbours(3, 2, 0), 9, 0),
        (Question::neighbours(2, 3, 0), 9, 0),
        (Question::phrase(0, 2), 0, 0),
        (Question::phrase(1, 1), 0, 0),
        (Question::phrase(2, 2), 0, 1),
        (Question::phrase(4, 2), 9, 0),
        (Question::phrase(0, 5), 0, 0),
        (Question::phrase(0, 6), 9, 0),
        (Question::phrase(1, 0), 0, 4),
        (Question::word_at(1), 0, 1),
    ];
    for lent in lent(small(2), &[0, 1, 0], &[0, 2], &[0, 2, 0, 1, 0, 3]) {
        for (question, refusal, value) in answers {
            assert_eq!(lent.ask(question), Answer { refusal, value }, "{question:?}");
        }
        let pairs = lent.answer_sheet(&answers.map(|(question, _, _)| question));
        assert_eq!(pairs, answers.map(|(_, refusal, value)| [refusal, value as u32]));
    }
}

/// The listing of 0 2 in 0 1 0, where V is 2, with a refused page between two others; and phrases with V in the empty text.
#[test]
fn sample_listings() {
    for lent in lent(small(2), &[0, 1, 0], &[0, 2], &[0, 2]) {
        let finished = Listing { next: 3, finished: true };
        let page = |answer, listing| RawPage { answer, more: false, listing };
        let (first, lines) = lent.list(entries::open(), (0, 2), 1);
        assert_eq!((first, lines), (page(reference::accepted(0), finished), vec![MARK]));
        let (refused, _) = lent.list(first.listing, (0, 2), 0);
        assert_eq!(refused, page(reference::refused(12), finished));
        let (second, lines) = lent.list(refused.listing, (0, 2), 1);
        assert_eq!((second, lines), (page(reference::accepted(0), finished), vec![MARK]));
        for state in [false, true].map(|finished| Listing { next: 4, finished }) {
            assert_eq!(lent.list(state, (0, 2), 1), (page(reference::refused(11), state), vec![MARK]));
        }
        assert_eq!(lent.ask(Question::phrase(0, 2)), reference::accepted(0));
    }
    for lent in lent(small(1), &[], &[], &[1, 0]) {
        for part in [(0, 1), (0, 2)] {
            let listing = Listing { next: 0, finished: true };
            let page = RawPage { answer: reference::accepted(0), more: false, listing };
            assert_eq!(lent.list(entries::open(), part, 1), (page, vec![MARK]), "{part:?}");
            assert_eq!(lent.ask(Question::phrase(part.0, part.1)), reference::accepted(0), "{part:?}");
        }
        assert_eq!(lent.ask(Question::occurrences_below(1, 0)), reference::accepted(0));
        assert_eq!(lent.ask(Question::occurrences_below(1, 1)), reference::refused(11));
        assert_eq!(lent.ask(Question::place_of(1, 1)), reference::refused(11));
    }
}

/// Summaries of 2, 0 2 and 2 2 in 0 1 0, where V is 2: a zero for each document, whatever the documents are, and the elements past them stay.
#[test]
fn sample_summaries() {
    for starts in [&[0][..], &[0, 1], &[0, 2], &[0, 1, 2]] {
        let [_, lent] = lent(small(2), &[0, 1, 0], starts, &[0, 2, 2, 3]);
        let documents = starts.len();
        for (part, room) in [(1, 1), (0, 2), (1, 2)].into_iter().flat_map(|part| (0..=5).map(move |room| (part, room)))
        {
            let zeros = [vec![0; documents], vec![MARK; room.max(documents) - documents]].concat();
            let expected = match room {
                _ if room < documents => (reference::refused(12), vec![MARK; room]),
                _ => (reference::accepted(documents), zeros),
            };
            assert_eq!(lent.summary(part, room), expected, "{starts:?}, {part:?}, {room}");
        }
        for (part, room) in [((3, 1), 5), ((0, 4), 5), ((2, 2), 0)] {
            assert_eq!(lent.summary(part, room), (reference::refused(9), vec![MARK; room]), "{starts:?}, {part:?}");
        }
    }
    let [_, empty] = lent(small(2), &[], &[], &[2]);
    for room in 0..3 {
        assert_eq!(empty.summary((0, 1), room), (reference::accepted(0), vec![MARK; room]));
    }
}

/// Vocabularies at and beside the steps of the code, up to the largest: V is an absent word in every kind, although it may have no node, and the ranks
/// above it, up to the last that there are, are refused by 9.
#[test]
fn steps_of_the_code() {
    let mut steps: Vec<usize> = [0, 127, 128, 255, 256, 16_384, 16_511, 16_512, 16_639, 16_640, MAX_VOCABULARY - 1]
        .into_iter()
        .flat_map(|below| [below, below + 1])
        .filter(|vocabulary| (1..=MAX_VOCABULARY).contains(vocabulary))
        .collect();
    steps.dedup();
    assert_eq!(steps.last(), Some(&MAX_VOCABULARY));
    for vocabulary in steps {
        let last = vocabulary as u32 - 1;
        let words = [last, vocabulary as u32, vocabulary as u32 + 1, u32::MAX - 1, u32::MAX];
        for lent in lent(small(vocabulary), &[last, 0, last], &[0, 2], &words) {
            let two = if last == 0 { 3 } else { 2 };
            let question_of = |word: usize| {
                let rank = words[word];
                [
                    Question::occurrences_below(rank, 3),
                    Question::place_of(rank, 1),
                    Question::neighbours(rank, last, 0),
                    Question::neighbours(last, rank, 0),
                    Question::phrase(word, 1),
                ]
            };
            let pairs = |word: usize| lent.answer_sheet(&question_of(word));
            assert_eq!(pairs(0), [[0, two], [0, 0], [0, two], [0, two], [0, two]], "{vocabulary}");
            assert_eq!(pairs(1), [[0, 0], [11, 0], [0, 0], [0, 0], [0, 0]], "{vocabulary}");
            for word in 2..5 {
                assert_eq!(pairs(word), [[9, 0]; 5], "{vocabulary}, {word}");
                let page = RawPage { answer: reference::refused(9), more: false, listing: entries::open() };
                assert_eq!(lent.list(entries::open(), (word, 1), 1), (page, vec![MARK]), "{vocabulary}, {word}");
            }
            for part in [(1, 1), (0, 2)] {
                let page = page_without_places(3, entries::open(), 1);
                assert_eq!(lent.list(entries::open(), part, 1), page, "{vocabulary}, {part:?}");
            }
            if lent.starts.is_some() {
                assert_eq!(lent.summary((1, 1), 2), (reference::accepted(2), vec![0; 2]), "{vocabulary}");
                assert_eq!(lent.summary((2, 1), 2), (reference::refused(9), vec![MARK; 2]), "{vocabulary}");
            }
        }
    }
}

/// A random text of up to sixty words with its starts, and a phrase of 1 to 16 words as a part of some words, of which the others are above V. The
/// phrase has an absent word or two; the rest are words of the text, as they stand there where it has so many.
fn drawn(random: &mut Random) -> ([Lent; 2], Vec<u32>, (usize, usize)) {
    let vocabulary = inputs::vocabulary(random);
    let shape = inputs::shape(random, vocabulary);
    let mut text = inputs::text(random, vocabulary);
    text.truncate(60);
    let starts = inputs::starts(random, text.len());
    let length = random.between(1, 16);
    let from = random.below(text.len() + 1);
    let mut phrase: Vec<u32> = text[from..].iter().copied().chain(iter::repeat(0)).take(length).collect();
    for _ in 0..random.between(1, 2) {
        phrase[random.below(length)] = vocabulary as u32;
    }
    let before = random.below(3);
    let words = [&vec![u32::MAX; before][..], &phrase, &[vocabulary as u32 + 1]].concat();
    (lent(shape, &text, &starts, &words), text, (before, length))
}

/// Questions of every kind about absent words of random texts, in sheets and some of them alone: the answers are the same in each text, with starts and
/// without.
#[test]
fn random_questions() {
    let mut random = Random::of("random_questions");
    let mut met = [0; 12];
    for _ in 0..600 {
        let (both, text, part) = drawn(&mut random);
        let n = text.len();
        let absent = both[0].shape.vocabulary as u32;
        let some = text.first().copied().unwrap_or(0);
        let mut expected: Vec<(Question, Answer)> = Vec::new();
        for p in [0, n / 2, n, n + 1, 1 << 32, usize::MAX] {
            let refusal = if p > n { 11 } else { 0 };
            expected.push((Question::occurrences_below(absent, p), reference::refused(refusal)));
            expected.push((Question::place_of(absent, p), reference::refused(11)));
        }
        for (w, v) in [(absent, some), (some, absent), (absent, absent)] {
            for d in (-18..=18).chain([i32::MIN, i32::MAX]) {
                let refusal = if (-16..=16).contains(&d) { 0 } else { 10 };
                expected.push((Question::neighbours(w, v, d), reference::refused(refusal)));
            }
        }
        expected.push((Question::phrase(part.0, part.1), reference::accepted(0)));
        expected.push((Question::phrase(part.0, part.1 + 1), reference::refused(if part.1 == 16 { 8 } else { 9 })));
        expected.push((Question::phrase(part.0, 0), reference::accepted(n + 1)));
        for at in 1..expected.len() {
            expected.swap(at, random.below(at + 1));
        }
        let questions: Vec<Question> = expected.iter().map(|&(question, _)| question).collect();
        for lent in &both {
            let pairs = lent.answer_sheet(&questions);
            assert!(pairs.iter().zip(&expected).all(|(&got, &(_, answer))| got == pair(answer)), "{pairs:?}, {lent:?}");
            for &(question, answer) in &expected[..4] {
                assert_eq!(lent.ask(question), answer, "{question:?}, {lent:?}");
                met[answer.refusal as usize] += 1;
            }
        }
    }
    assert!([0, 10, 11].into_iter().all(|number| met[number] > 200) && met[8] + met[9] > 10, "{met:?}");
}

/// The number of pairs does not change if the two words are exchanged and the offset is negated, where one word or both are absent too, nor does a
/// refusal.
#[test]
fn mirrored_pairs() {
    let mut random = Random::of("mirrored_pairs");
    let mut met = [0; 11];
    for _ in 0..150 {
        let (both, text, _) = drawn(&mut random);
        let vocabulary = both[0].shape.vocabulary as u32;
        let some = if text.is_empty() { 0 } else { random.one_of(&text) };
        let ranks = [some, text.first().copied().unwrap_or(0), vocabulary, vocabulary + 1, u32::MAX];
        let pairs = ranks.into_iter().flat_map(|w| ranks.map(move |v| (w, v)));
        let offsets = (-18..=18).chain([i32::MAX]);
        let questions: Vec<Question> = pairs
            .flat_map(|(w, v)| offsets.clone().map(move |d| (w, v, d)))
            .flat_map(|(w, v, d)| [Question::neighbours(w, v, d), Question::neighbours(v, w, -d)])
            .collect();
        for lent in &both {
            let answers = lent.answer_sheet(&questions);
            for (mirrored, question) in answers.chunks(2).zip(questions.chunks(2)) {
                assert_eq!(mirrored[0], mirrored[1], "{question:?}, {lent:?}");
                let Question { w, v, d, .. } = question[0];
                let refusal = reference::first_of(&[(w.max(v) > vocabulary, 9), (!(-16..=16).contains(&d), 10)]);
                assert_eq!(mirrored[0][0], refusal, "{question:?}, {lent:?}");
                if refusal == 0 && w.max(v) == vocabulary {
                    assert_eq!(mirrored[0][1], 0, "{question:?}, {lent:?}");
                }
                met[refusal as usize] += 1;
            }
        }
    }
    assert!([0, 9, 10].into_iter().all(|number| met[number] > 5_000), "{met:?}");
}

/// The faults that are there, as bits of a number.
fn bits<const COUNT: usize>(number: usize) -> [bool; COUNT] {
    std::array::from_fn(|bit| number >> bit & 1 == 1)
}

/// The answer with a value where no fault is there, and otherwise the refusal of the first that is.
fn first_of(faults: &[(bool, u32)], value: usize) -> Answer {
    match reference::first_of(faults) {
        0 => reference::accepted(value),
        refusal => reference::refused(refusal),
    }
}

/// The ranks of 1 0 1, then V, and ranks above V.
const RANKS: [u32; 6] = [0, 1, 2, 3, u32::MAX - 1, u32::MAX];

/// The index of 1 0 1 with V 2, without starts and with them, and 17 times a rank as the lent words; with some of two faults: a counter off by one, and
/// starts that break a rule.
fn faulty(rank: u32, damaged: bool, broken: bool) -> [Lent; 2] {
    let mut both = lent(small(2), &[1, 0, 1], if broken { &[0, 3] } else { &[0, 2] }, &[rank; 17]);
    for lent in &mut both {
        lent.arrays.blocks[0] += u16::from(damaged);
    }
    both
}

/// Several faults at once in questions of kinds 2 to 5 about ranks below V, V and above: 9 is given above V only, before 10 and 11 and after 8, and for
/// V the other refusals are given as for a word of the text.
#[test]
fn order_of_refusals_of_questions() {
    let mut absent = 0;
    for (rank, number) in RANKS.into_iter().flat_map(|rank| (0..16).map(move |number| (rank, number))) {
        let [damaged, broken, no_kind, beyond] = bits(number);
        let stands = [1, 2].get(rank as usize).copied().unwrap_or(0);
        let above = (rank > 2, 9);
        let (offset, length) = if beyond { (17, 17) } else { (0, 1) };
        for lent in faulty(rank, damaged, broken) {
            for (question, faults, value) in [
                (Question::occurrences_below(rank, if beyond { 4 } else { 3 }), [above, (beyond, 11)], stands),
                (Question::place_of(rank, 1), [above, (stands == 0, 11)], 1 - rank.min(1) as usize),
                (Question::place_of(rank, if beyond { 3 } else { 0 }), [above, (true, 11)], 0),
                (Question::neighbours(rank, 1, offset), [above, (beyond, 10)], if rank == 1 { 2 } else { 0 }),
                (Question::neighbours(1, rank, -offset), [above, (beyond, 10)], if rank == 1 { 2 } else { 0 }),
                (Question::phrase(0, length), [(beyond, 8), above], stands),
                (Question::phrase(if beyond { 17 } else { 16 }, 1), [(beyond, 8), above], stands),
            ] {
                let question = Question { kind: if no_kind { question.kind + 4 } else { question.kind }, ..question };
                let of_call = [(damaged, 6), (broken && lent.starts.is_some(), 19), (no_kind, 7)];
                let answer = first_of(&[&of_call[..], &faults].concat(), value);
                assert_eq!(lent.ask(question), answer, "{question:?}, {rank}, {number:04b}");
                absent += usize::from(rank == 2 && answer == reference::accepted(0));
            }
        }
    }
    assert_eq!(absent, 15, "accepted questions about an absent word");
}

/// Several faults at once in pages and summaries of a phrase of ranks below V, of V or above: of 6, 19, 8, 9, 11 and 12 the first answers, and 9 only
/// above V. The state of a refused page comes back, and nothing is written.
#[test]
fn order_of_refusals_of_pages_and_summaries() {
    let mut absent = [0; 2];
    for (rank, number) in RANKS.into_iter().flat_map(|rank| (0..64).map(move |number| (rank, number))) {
        let [damaged, broken, outside, beyond, short, finished] = bits(number);
        let part = if outside { (16, 2) } else { (16, 1) };
        for lent in faulty(rank, damaged, broken) {
            let starts = lent.starts.is_some();
            let of_phrase = [(damaged, 6), (broken && starts, 19), (outside, 8), (rank > 2, 9)];
            let state = Listing { next: if beyond { 4 } else { 1 }, finished };
            let lines = if short { 0 } else { 2 };
            let (page, written) = lent.list(state, part, lines);
            let refusal = reference::first_of(&[&of_phrase[..], &[(beyond, 11), (short, 12)]].concat());
            assert_eq!(page.answer.refusal, refusal, "{rank}, {number:06b}");
            if refusal != 0 {
                let turned_down = RawPage { answer: reference::refused(refusal), more: false, listing: state };
                assert_eq!((page, written), (turned_down, vec![MARK; lines]), "{rank}, {number:06b}");
            } else if rank == 2 {
                assert_eq!((page, written), page_without_places(3, state, lines), "{number:06b}");
                absent[0] += 1;
            }
            if !starts {
                continue;
            }
            let room = if short { 1 } else { 3 };
            let refusal = reference::first_of(&[&of_phrase[..], &[(short, 12)]].concat());
            let (answer, counts) = lent.summary(part, room);
            assert_eq!(answer.refusal, refusal, "{rank}, {number:06b}");
            if refusal != 0 {
                assert_eq!((answer.value, counts), (0, vec![MARK; room]), "{rank}, {number:06b}");
            } else if rank == 2 {
                assert_eq!((answer.value, counts), (2, vec![0, 0, MARK]), "{number:06b}");
                absent[1] += 1;
            }
        }
    }
    assert_eq!(absent, [6, 4], "accepted pages and summaries about an absent word");
}

/// Phrases of 1 to 16 words of a text, with V or a rank above V at each place, with V everywhere, and with both at every two places: V alone makes the
/// phrase one that stands nowhere, and a rank above V makes it refused by 9, wherever it is.
#[test]
fn every_place_of_a_phrase() {
    let different: Vec<u32> = (0..20).collect();
    for text in [vec![7; 20], different, vec![7; 3]] {
        let n = text.len();
        for length in 1..=16 {
            let phrase: Vec<u32> = text.iter().copied().cycle().take(length).collect();
            let stands = reference::places(&text, &phrase).len();
            let check = |words: &[u32], expected: Answer| {
                for lent in lent(small(20), &text, &[0], words) {
                    assert_eq!(lent.ask(Question::phrase(0, length)), expected, "{words:?}");
                    let (page, written) = lent.list(entries::open(), (0, length), 1);
                    assert_eq!(page.answer.refusal, expected.refusal, "{words:?}");
                    if expected == reference::accepted(0) {
                        assert_eq!((page, written), page_without_places(n, entries::open(), 1), "{words:?}");
                    }
                    if lent.starts.is_some() {
                        let count = if expected.refusal == 0 { expected.value as u32 } else { MARK };
                        let answer = if expected.refusal == 0 { reference::accepted(1) } else { expected };
                        assert_eq!(lent.summary((0, length), 1), (answer, vec![count]), "{words:?}");
                    }
                }
            };
            check(&phrase, reference::accepted(stands));
            check(&vec![20; length], reference::accepted(0));
            for at in 0..length {
                let mut absent = phrase.clone();
                absent[at] = 20;
                check(&absent, reference::accepted(0));
                for other in 0..length {
                    let mut above = absent.clone();
                    above[other] = 21;
                    check(&above, reference::refused(9));
                }
            }
        }
    }
}

/// Pages of phrases with an absent word from every state, finished or not and with next up to one past the end and far beyond, of no line, one and two.
#[test]
fn pages_of_every_state() {
    let mut accepted = 0;
    for n in [0, 1, 2, 3, 5] {
        let text: Vec<u32> = (0..n).map(|place| place as u32 % 2).collect();
        let starts: Vec<u32> = (0..n as u32).step_by(2).collect();
        for (lent, part) in lent(small(2), &text, &starts, &[0, 2, 1, 0, 1, 2, 2])
            .iter()
            .flat_map(|lent| [(1, 1), (0, 2), (1, 2), (2, 4), (0, 7), (5, 2)].map(|part| (lent, part)))
        {
            for next in (0..=n + 1).chain([1 << 32, usize::MAX]) {
                for state in [false, true].map(|finished| Listing { next, finished }) {
                    for lines in 0..=2 {
                        let page = page_without_places(n, state, lines);
                        assert_eq!(lent.list(state, part, lines), page, "{n}, {part:?}, {state:?}, {lines}");
                        accepted += usize::from(page.0.answer.refusal == 0);
                    }
                }
            }
        }
    }
    assert_eq!(accepted, 2 * 6 * 2 * 2 * (1 + 2 + 3 + 4 + 6));
}

/// A call of a page that is turned down: something of a good call is made bad. The refusal is given with it.
fn bad(random: &mut Random, good: &Lent, n: usize, part: (usize, usize)) -> (Lent, (usize, usize), u32) {
    let mut call = good.clone();
    let past = call.words.len() + 1;
    match random.below(7) {
        0 => call.shape.vocabulary = random.one_of(&[0, MAX_VOCABULARY + 1, usize::MAX]),
        1 => call.shape.block = 0,
        2 => call.arrays.blocks[3] += 1,
        3 => return (call, random.one_of(&[(part.0, 17), (past, 0), (past, 1), (usize::MAX, 1)]), 8),
        4 if call.starts.is_some() => call.starts = Some(inputs::broken_starts(random, n)),
        _ => {
            let at = part.0 + random.below(part.1);
            call.words[at] = inputs::rank_above(random, call.shape.vocabulary);
            return (call, part, 9);
        }
    }
    let broken = call.starts != good.starts;
    let faults = [(call.shape.vocabulary != good.shape.vocabulary, 1), (call.shape.block == 0, 3), (broken, 19)];
    let refusal = reference::first_of(&faults);
    (call, part, if refusal == 0 { 6 } else { refusal })
}

/// Runs of pages of phrases with absent words, refused ones among them: each accepted page is finished with next n, reports no more and writes nothing,
/// each refused one hands the state back. The count is 0.
#[test]
fn runs_of_pages() {
    let mut random = Random::of("runs_of_pages");
    let mut met = [0; 20];
    for _ in 0..1_500 {
        let (both, text, part) = drawn(&mut random);
        for good in &both {
            let mut state = entries::open();
            let mut finished = false;
            for _ in 0..random.below(8) {
                let lines = random.one_of(&[0, 1, 1, 2, text.len() + 2]);
                let (call, brought, fault) = match random.below(3) {
                    0 => bad(&mut random, good, text.len(), part),
                    _ => (good.clone(), part, 0),
                };
                let refusal = reference::first_of(&[(fault != 0, fault), (lines == 0, 12)]);
                let (page, written) = call.list(state, brought, lines);
                assert_eq!(page.answer, reference::refused(refusal), "{state:?}, {brought:?}, {call:?}");
                assert!(!page.more && written.iter().all(|&line| line == MARK), "{state:?}, {brought:?}, {call:?}");
                finished |= refusal == 0;
                let next = if finished { text.len() } else { 0 };
                assert_eq!(page.listing, Listing { next, finished }, "{state:?}, {brought:?}, {call:?}");
                met[refusal as usize] += 1;
                state = page.listing;
            }
            assert_eq!(good.ask(Question::phrase(part.0, part.1)), reference::accepted(0), "{good:?}");
        }
    }
    assert!([0, 1, 3, 6, 8, 9, 12, 19].into_iter().all(|number| met[number] > 100), "{met:?}");
}

/// Summaries of phrases with absent words in random texts: a zero for each document, the elements past them stay, and too short a slice is refused by 12.
#[test]
fn random_summaries() {
    let mut random = Random::of("random_summaries");
    let (mut zeros, mut short) = (0, 0);
    for _ in 0..1_500 {
        let ([_, lent], _, part) = drawn(&mut random);
        let documents = lent.starts.as_ref().map_or(0, Vec::len);
        let room = (documents + random.below(3)).saturating_sub(random.one_of(&[0, 0, 1, 2]));
        let (answer, counts) = lent.summary(part, room);
        if room < documents {
            assert_eq!((answer, counts), (reference::refused(12), vec![MARK; room]), "{lent:?}");
            short += 1;
        } else {
            let expected = [vec![0; documents], vec![MARK; room - documents]].concat();
            assert_eq!((answer, counts), (reference::accepted(documents), expected), "{lent:?}");
            zeros += documents;
        }
    }
    assert!(zeros > 1_000 && short > 100, "{zeros} zeros, {short} refused by 12");
}

// ---- the wrapper

/// Words that somebody types, one by one: of those that the text has and of those that it lacks the ranks make a phrase that is counted, listed and
/// summed up.
#[test]
fn typed_words() {
    let made = concordance::make_list(b"The cat sat on the mat. The cat sat.").expect("the text is short");
    let index = Index::build(Shape::for_text(made.vocabulary()), &made.ranks).expect("the text is one");
    let documents = index.in_documents(&[0, 6]);
    for (rank, word) in made.spellings().enumerate() {
        assert_eq!(concordance::find_word(&made.list, &word.to_ascii_uppercase()), Ok(rank as u32));
    }
    for (typed, ranks, places, counts) in [
        (&["THE", "Cat"][..], &[0, 1][..], &[0, 6][..], [1, 1]),
        (&["sat"], &[2], &[2, 8], [1, 1]),
        (&["mat"], &[4], &[5], [1, 0]),
        (&["dog"], &[5], &[], [0, 0]),
        (&["the", "dog"], &[0, 5], &[], [0, 0]),
        (&["dog", "sat", "on"], &[5, 2, 3], &[], [0, 0]),
        (&["the cat"], &[5], &[], [0, 0]),
        (&["", "cat"], &[5, 1], &[], [0, 0]),
        (&["cats"], &[5], &[], [0, 0]),
        (&["ca"], &[5], &[], [0, 0]),
    ] {
        let found = typed.iter().map(|word| concordance::find_word(&made.list, word.as_bytes()));
        let phrase: Vec<u32> = found.collect::<Result<_, _>>().expect("the list keeps the rules");
        assert_eq!(phrase, ranks, "{typed:?}");
        assert_eq!(index.count(&phrase), Ok(places.len()), "{typed:?}");
        assert_eq!(documents.count(&phrase), Ok(places.len()), "{typed:?}");
        assert_eq!(documents.summary(&phrase), Ok(counts.to_vec()), "{typed:?}");
        for mut pages in [index.pages(&phrase, 3), documents.pages(&phrase, 3)] {
            assert_eq!(pages.next(), Some(Ok(Page { places: places.to_vec(), more: false })), "{typed:?}");
            assert_eq!((pages.listing(), pages.next()), (Listing { next: 9, finished: true }, None), "{typed:?}");
        }
    }
    let unlisted = Refused { refusal: Refusal::Unlisted, value: 4 };
    assert_eq!(concordance::read_text(&made.list, b"the dog"), Err(unlisted));
    let above = Refused { refusal: Refusal::AskedRank, value: 0 };
    assert_eq!((index.count(&[0, 6]), documents.count(&[6, 5])), (Err(above), Err(above)));
    assert_eq!(documents.summary(&[5, 6]), Err(above));
    assert_eq!(index.pages(&[6], 1).collect::<Vec<_>>(), [Err(above)]);
    let sheet = [
        Question::occurrences_below(5, 9),
        Question::place_of(5, 1),
        Question::neighbours(0, 5, 1),
        Question::neighbours(6, 5, 1),
        Question::phrase(0, 1),
    ];
    let answers = vec![Ok(0), Err(Refusal::Place), Ok(0), Err(Refusal::AskedRank), Ok(0)];
    assert_eq!(index.answer_sheet(&[5], &sheet), Ok(answers.clone()));
    assert_eq!(documents.answer_sheet(&[5], &sheet), Ok(answers));
}

/// Random words that are typed for random texts by random tables: a word that is found is counted as often as it stands in the text, and one that is
/// not, 0 times.
#[test]
fn typed_words_of_random_texts() {
    let mut random = Random::of("typed_words_of_random_texts");
    let (mut found, mut lacking) = (0, 0);
    for _ in 0..1_500 {
        let table = inputs::letter_table(&mut random);
        let letters = Letters::new(&table).expect("it is a table");
        let text = inputs::text_by(&mut random, &table);
        let made = concordance::make_list_with(&letters, &text).expect("the text is short");
        let spelling = inputs::spelling(&mut random, &table, &made.list);
        let rank = concordance::find_word_with(&letters, &made.list, &spelling);
        if made.vocabulary() == 0 {
            assert_eq!(rank, Err(Refused { refusal: Refusal::Vocabulary, value: 0 }), "{text:02X?}");
            continue;
        }
        let rank = rank.expect("the list keeps the rules");
        let words = reference::words_of(&table, &text);
        let folded: Vec<u8> = spelling.iter().map(|&byte| reference::letter(&table, byte)).collect();
        let often = words.iter().filter(|(_, word)| *word == folded).count();
        let index = Index::build(Shape::for_text(made.vocabulary()), &made.ranks).expect("the text is one");
        let phrase = [rank];
        assert_eq!(index.count(&phrase), Ok(often), "{}", shown(&table, &made.list, &spelling));
        let pages = index.pages(&phrase, usize::MAX).map(|page| page.expect("the phrase is one").places.len());
        assert_eq!(pages.collect::<Vec<_>>(), [often], "{}", shown(&table, &made.list, &spelling));
        assert_eq!(rank as usize == made.vocabulary(), often == 0, "{}", shown(&table, &made.list, &spelling));
        found += usize::from(often > 0);
        lacking += usize::from(often == 0);
    }
    assert!(found > 300 && lacking > 300, "{found} found, {lacking} not");
}

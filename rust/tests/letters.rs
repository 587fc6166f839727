//! Letter tables that are lent: their check, and reading plain text, finding words and making word lists by them, against the reference.
mod support;
use concordance::entries::{self, Answer, ListMade};
use concordance::{Letters, Refusal, Refused, WordList};
use std::hint::black_box;
use support::random::Random;
use support::{inputs, reference};

const MOST_BYTES: usize = 65_536;
const MOST_LISTED: usize = 4_096;
const MAX_WORDS: usize = 16_777_216;
const MAX_VOCABULARY: usize = 2_113_664;

/// What elements hold before a call.
const MARK: u32 = 0xAAAA_AAAA;

/// The refusal of a table that breaks a rule.
const BROKEN: Refused = Refused { refusal: Refusal::Table, value: 0 };

/// A table of separators, in which these entries are changed.
fn table_of(entries: &[(u8, u8)]) -> Vec<u8> {
    changed(vec![0; 256], entries)
}

/// The built-in table, in which these entries are changed.
fn built_in_but(entries: &[(u8, u8)]) -> Vec<u8> {
    changed(reference::built_in(), entries)
}

/// A table in which these entries are changed.
fn changed(mut table: Vec<u8>, entries: &[(u8, u8)]) -> Vec<u8> {
    for &(byte, entry) in entries {
        table[usize::from(byte)] = entry;
    }
    table
}

/// The table that keeps every byte that a table may keep, and reads 00 as FF.
fn all_letters() -> Vec<u8> {
    let own: Vec<u8> = (0..=255).collect();
    changed(own, &[(0x0A, 0), (0, 0xFF)])
}

/// Tables that break one rule, each in another way: too few entries and too many, a byte that is not kept at both ends and in the middle, the line end as a
/// letter, and no letter.
fn broken_tables() -> Vec<Vec<u8>> {
    let built_in = reference::built_in();
    vec![
        vec![],
        built_in[..255].to_vec(),
        [&built_in[..], &[0]].concat(),
        [&built_in[..], b"a"].concat(),
        built_in.repeat(2),
        built_in.repeat(256),
        built_in_but(&[(0, 0x42)]),
        built_in_but(&[(0x41, 0x42)]),
        built_in_but(&[(0x61, 0)]),
        built_in_but(&[(0xFF, 0x42)]),
        built_in_but(&[(0xFF, 0x0A)]),
        built_in_but(&[(0x0A, 0x61)]),
        built_in_but(&[(0x0A, 0x0A)]),
        vec![0; 256],
    ]
}

/// Checks a table, compares the answer with the reference, and returns its refusal.
fn check(table: &[u8]) -> u32 {
    let lent = table.to_vec();
    let answer = entries::check_letters(&lent);
    assert_eq!(answer, reference::check_letters(table), "{table:02X?}");
    assert!(black_box(&lent) == table, "{table:02X?}");
    answer.refusal
}

/// Reads a text by a table into a slice of this length, filled with a mark, and compares what is returned and left with the reference.
fn read(table: &[u8], list: &[u8], text: &[u8], room: usize) -> Answer {
    let lent = (table.to_vec(), list.to_vec(), text.to_vec());
    let mut ours = vec![MARK; room];
    let mut theirs = ours.clone();
    let answer = entries::read_text_with(&lent.0, &lent.1, &lent.2, &mut ours);
    let expected = reference::read_text(table, list, text, &mut theirs);
    assert_eq!(answer, expected, "room {room}, {}", shown(table, list, text));
    assert!(ours == theirs, "room {room}, {}", shown(table, list, text));
    let lent = black_box(&lent);
    assert!(lent.0 == table && lent.1 == list && lent.2 == text, "lent bytes, {}", shown(table, list, text));
    answer
}

/// Makes the list of a text by a table in slices of these lengths, filled with a mark, and compares what is returned and left with the reference.
fn make(table: &[u8], text: &[u8], made: &reference::Made, room: (usize, usize)) -> ListMade {
    let lent = (table.to_vec(), text.to_vec());
    let (mut list, mut ranks) = (vec![0xA5; room.0], vec![MARK; room.1]);
    let (mut their_list, mut their_ranks) = (list.clone(), ranks.clone());
    let ours = entries::make_list_with(&lent.0, &lent.1, &mut list, &mut ranks);
    let theirs = reference::fill_list(made, &mut their_list, &mut their_ranks);
    assert_eq!(ours, theirs, "room {room:?}, {}", shown(table, &[], text));
    assert!(list == their_list && ranks == their_ranks, "room {room:?}, {}", shown(table, &[], text));
    let lent = black_box(&lent);
    assert!(lent.0 == table && lent.1 == text, "lent bytes, {}", shown(table, &[], text));
    ours
}

/// A table, and the fronts of a list and of a text, for a message.
fn shown(table: &[u8], list: &[u8], text: &[u8]) -> String {
    let front = |bytes: &[u8]| format!("{} bytes: {:02X?}", bytes.len(), &bytes[..bytes.len().min(130)]);
    format!("table of {table:02X?}, list of {}, text of {}", front(list), front(text))
}

/// What making a list returns that is refused.
fn turned_down(refusal: u32) -> ListMade {
    ListMade { answer: reference::refused(refusal), bytes: 0, words: 0 }
}

/// What making a list returns that is accepted.
fn accepted(bytes: usize, words: usize) -> ListMade {
    ListMade { answer: reference::accepted(0), bytes, words }
}

/// The built-in table of the crate is that of the reference, passes the engine's check, is what the program `letters` prints, and has for each byte the
/// letter that the engine makes of it without a lent table.
#[test]
fn built_in_table() {
    let built_in = Letters::built_in();
    assert_eq!(built_in.table()[..], reference::built_in());
    assert_eq!(Letters::new(built_in.table()), Ok(built_in.clone()));

    let file = concat!(env!("CARGO_MANIFEST_DIR"), "/../crates/letters/stdout");
    let printed = std::fs::read_to_string(file).expect("the repository has what `letters` prints");
    let lines = built_in.table().chunks(16).map(|line| line.iter().map(|entry| format!(" {entry:02X}")).collect());
    let lines: Vec<String> = lines.collect();
    assert_eq!(printed, lines.join("\n") + "\n");

    for byte in 0..=255 {
        let (mut list, mut ranks) = ([0; 2], [0; 1]);
        let made = entries::make_list(&[byte], &mut list, &mut ranks);
        let expected = match built_in.fold(byte) {
            Some(letter) => (accepted(2, 1), [letter, b'\n']),
            None => (accepted(0, 0), [0, 0]),
        };
        assert_eq!((made, list), expected, "{byte:02X}");
    }
}

/// Single tables, with the answer of the check.
#[test]
fn samples() {
    let built_in = reference::built_in();
    for (table, refusal) in [
        (built_in.clone(), 0),
        (built_in[..255].to_vec(), 18),
        ([&built_in[..], &[0]].concat(), 18),
        ([&built_in[..], b"a"].concat(), 18),
        (vec![], 18),
        (built_in_but(&[(0x41, 0x42)]), 18),
        (built_in_but(&[(0x0A, 0x61)]), 18),
        (built_in_but(&[(0x0A, 0x0A)]), 18),
        (vec![0; 256], 18),
        (table_of(&[(0x61, 0x61)]), 0),
        (table_of(&[(0x61, 0x62), (0x62, 0x62)]), 0),
        (table_of(&[(0x61, 0x62)]), 18),
        (built_in_but(&[(0, 0x61)]), 0),
        (built_in_but(&[(0xD7, 0xF7), (0xF7, 0xF7)]), 0),
        (built_in_but(&[(0xD7, 0xF7)]), 18),
        (all_letters(), 0),
    ] {
        assert_eq!(entries::check_letters(&table), reference::refused(refusal), "{table:02X?}");
        assert_eq!(check(&table), refusal);
        assert_eq!(Letters::new(&table).err(), (refusal != 0).then_some(BROKEN), "{table:02X?}");
    }
    for table in broken_tables() {
        assert_eq!(entries::check_letters(&table), reference::refused(18), "{table:02X?}");
        assert_eq!((check(&table), Letters::new(&table)), (18, Err(BROKEN)));
    }
}

/// With D7 and F7 as a letter, "a", that letter and "b" are one word; with 00 read as "a", it joins two letters; by the built-in table neither.
#[test]
fn samples_of_texts() {
    let with_f7 = built_in_but(&[(0xD7, 0xF7), (0xF7, 0xF7)]);
    let mut ranks = [9; 2];
    assert_eq!(entries::read_text_with(&with_f7, b"a\xF7b\n", b"A\xD7B", &mut ranks), reference::accepted(1));
    assert_eq!(ranks, [0, 9]);
    for list in [&b"a\xF7b\n"[..], b"a\xD7b\n"] {
        assert_eq!(entries::read_text(list, b"A\xD7B", &mut ranks), reference::refused(13));
        assert_eq!(
            entries::read_text_with(&reference::built_in(), list, b"A\xD7B", &mut ranks),
            reference::refused(13)
        );
    }
    assert_eq!(entries::read_text_with(&with_f7, b"a\xD7b\n", b"A\xD7B", &mut ranks), reference::refused(13));
    let mut list = [9; 5];
    let made = entries::make_list_with(&with_f7, b"A\xD7B a\xF7b", &mut list, &mut ranks);
    assert_eq!((made, &list, ranks), (accepted(4, 2), b"a\xF7b\n\x09", [0, 0]));

    let with_00 = built_in_but(&[(0, 0x61)]);
    let mut ranks = [9; 2];
    assert_eq!(entries::read_text_with(&with_00, b"a\naaa\n", b"a\0a", &mut ranks), reference::accepted(1));
    assert_eq!(ranks, [1, 9]);
    for table in [&with_00, &reference::built_in()] {
        assert_eq!(entries::read_text_with(table, b"a\n\0\n", b"a", &mut ranks), reference::refused(13));
        assert_eq!(entries::read_text_with(table, b"a\0a\n", b"a", &mut ranks), reference::refused(13));
    }
    assert_eq!(
        entries::read_text_with(&reference::built_in(), b"a\naaa\n", b"a\0a", &mut ranks),
        reference::accepted(2)
    );
    assert_eq!(ranks, [0, 0]);
    let mut list = [9; 5];
    let made = entries::make_list_with(&with_00, b"\0\0A", &mut list, &mut ranks);
    assert_eq!((made, &list), (accepted(4, 1), b"aaa\n\x09"));
}

/// Every entry of four tables replaced by every byte.
#[test]
fn each_entry() {
    let mut met = [0; 19];
    let halves: Vec<u8> = (0..=255).map(|byte| byte | 0x80).collect();
    for base in [reference::built_in(), table_of(&[(0x61, 0x61)]), all_letters(), changed(halves, &[(0x0A, 0)])] {
        for place in 0..=255 {
            for entry in 0..=255 {
                met[check(&changed(base.clone(), &[(place, entry)])) as usize] += 1;
            }
        }
    }
    assert!(met[0] > 60_000 && met[18] > 60_000 && met[0] + met[18] == 4 * 65_536, "{met:?}");
}

/// Tables with one letter, at every byte: all pass save at 00, where the entry 00 is a separator, and at 0A. A text of all bytes is then one word.
#[test]
fn one_letter() {
    let all: Vec<u8> = (0..=255).collect();
    for byte in 0..=255 {
        let table = table_of(&[(byte, byte)]);
        let expected = if byte == 0 || byte == 0x0A { 18 } else { 0 };
        assert_eq!(check(&table), expected, "{byte:02X}");
        assert_eq!(read(&table, &[byte, b'\n'], &all, 2).refusal, expected, "{byte:02X}");
        assert_eq!(make(&table, &all, &reference::made(&table, &all), (3, 2)).answer.refusal, expected, "{byte:02X}");
    }
}

/// Slices of every length about 256 and of some others: the front of a table, or a table with separators or letters behind it.
#[test]
fn lengths() {
    for base in [reference::built_in(), all_letters(), table_of(&[(0x61, 0x61)])] {
        for behind in [0, 0x61, 0xFF] {
            for length in (0..=520).chain([767, 768, 1_024, 65_535, 65_536, 65_537, 65_792]) {
                let mut table = base.clone();
                table.resize(length, behind);
                let expected = if length == 256 { 0 } else { 18 };
                assert_eq!(check(&table), expected, "{length}");
                assert_eq!(read(&table, b"a\n", b"a\xFE\xFFa", 1).refusal == 18, length != 256, "{length}");
                assert_eq!(entries::find_word_with(&table, b"a\n", b"a"), reference::refused(expected), "{length}");
                let made = make(&table, b"a", &reference::made(&table, b"a"), (2, 1));
                assert_eq!(made.answer.refusal, expected, "{length}");
            }
        }
    }
}

/// Random tables, with one rule broken and without, and random bytes: the check, and the table that the crate makes.
#[test]
fn random_tables() {
    let mut random = Random::of("random_tables");
    let (mut met, mut any) = ([0; 19], [0; 19]);
    for number in 0..30_000 {
        let table = match number % 3 {
            0 => inputs::letter_table(&mut random),
            1 => inputs::broken_table(&mut random),
            _ => inputs::any_table(&mut random),
        };
        let refusal = check(&table);
        match Letters::new(&table) {
            Ok(letters) => {
                assert_eq!((refusal, &letters.table()[..]), (0, &table[..]));
                for byte in 0..=255 {
                    let letter = reference::letter(&table, byte);
                    assert_eq!(letters.fold(byte), (letter != 0).then_some(letter), "{byte:02X}, {table:02X?}");
                }
            }
            Err(refused) => assert_eq!((refusal, refused), (18, BROKEN), "{table:02X?}"),
        }
        match number % 3 {
            0 => assert_eq!(refusal, 0, "{table:02X?}"),
            1 => assert_eq!(refusal, 18, "{table:02X?}"),
            _ => any[refusal as usize] += 1,
        }
        met[refusal as usize] += 1;
    }
    assert!(any[0] > 500 && any[18] > 500 && met[0] + met[18] == 30_000, "{met:?}, {any:?}");
}

/// Random texts read by random tables, through lists that keep the rules or break one, into slices that are long enough or not.
#[test]
fn random_texts() {
    let mut random = Random::of("random_texts");
    let mut met = [0; 19];
    for _ in 0..30_000 {
        let table = inputs::lent_table(&mut random);
        let by = if reference::is_table(&table) { table.clone() } else { reference::built_in() };
        let text = inputs::text_by(&mut random, &by);
        let list = inputs::word_list(&mut random, &by, &text);
        let words = reference::words_of(&by, &text).len();
        let room = (words + random.below(3)).saturating_sub(random.one_of(&[0, 0, 0, 0, 1]));
        met[read(&table, &list, &text, room).refusal as usize] += 1;
    }
    assert!([0, 1, 5, 13, 14, 18].into_iter().all(|number| met[number] > 200), "{met:?}");
    assert_eq!([0, 1, 5, 13, 14, 18].into_iter().map(|number| met[number]).sum::<usize>(), 30_000, "{met:?}");
}

/// Lists made of random texts by random tables, in slices that are long enough or not. Each list is read by its table, which gives the ranks again, by
/// the built-in table and by another.
#[test]
fn random_lists() {
    let mut random = Random::of("random_lists");
    let (mut met, mut otherwise) = ([0; 19], [0; 19]);
    for _ in 0..6_000 {
        let table = inputs::lent_table(&mut random);
        let by = if reference::is_table(&table) { table.clone() } else { reference::built_in() };
        let text = inputs::text_by(&mut random, &by);
        let made = reference::made(&table, &text);
        let (bytes, words) = made.as_ref().map_or((9, 9), |(list, ranks)| (list.len(), ranks.len()));
        let mut length = |needed: usize| match random.below(10) {
            0 => needed.saturating_sub(1),
            1 => random.below(needed + 1),
            _ => needed + random.below(3),
        };
        let room = (length(bytes), length(words));
        let refusal = make(&table, &text, &made, room).answer.refusal;
        met[refusal as usize] += 1;
        if let Ok((list, ranks)) = made {
            let again = read(&table, &list, &text, ranks.len() + 1);
            let expected = if ranks.is_empty() { reference::refused(1) } else { reference::accepted(ranks.len()) };
            assert_eq!(again, expected, "{}", shown(&table, &list, &text));
            for other in [reference::built_in(), inputs::letter_table(&mut random)] {
                otherwise[read(&other, &list, &text, text.len()).refusal as usize] += 1;
            }
        }
    }
    assert!(met[0] > 2_500 && met[5] > 500 && met[18] > 500 && met[0] + met[5] + met[18] == 6_000, "{met:?}");
    assert!([0, 1, 13, 14].into_iter().all(|number| otherwise[number] > 200), "{otherwise:?}");
}

/// Each byte alone, between two letters, at the end of a word and in a list, by some tables.
#[test]
fn each_byte() {
    let mut random = Random::of("each_byte");
    let mut tables = vec![
        reference::built_in(),
        built_in_but(&[(0, 0x61)]),
        built_in_but(&[(0xD7, 0xF7), (0xF7, 0xF7)]),
        table_of(&[(0x61, 0x61), (0x62, 0x62)]),
        all_letters(),
        changed(all_letters(), &[(0, 0)]),
    ];
    tables.extend((0..4).map(|_| changed(inputs::letter_table(&mut random), &[(0x61, 0x61), (0x62, 0x62)])));
    for table in tables {
        assert_eq!(check(&table), 0);
        for byte in 0..=255 {
            for (list, text) in [
                (vec![b'a', b'\n', reference::letter(&table, byte), b'\n'], vec![byte]),
                (b"a\nb\nab\n".to_vec(), vec![b'a', byte, b'b']),
                (vec![byte, b'\n'], b"a".to_vec()),
                (vec![b'a', byte, b'\n'], vec![b'a', byte]),
            ] {
                read(&table, &list, &text, 3);
            }
            let text = [&[byte][..], b"\na", &[byte], b"b\n", &[byte], b"a\nb", &[byte]].concat();
            for text in [&[byte][..], &text] {
                make(&table, text, &reference::made(&table, text), (20, 8));
            }
        }
    }
}

/// The built-in table, lent, gives the answers of the entries that are lent none.
#[test]
fn built_in_lent() {
    let mut random = Random::of("built_in_lent");
    let table = reference::built_in();
    let mut met = [0; 19];
    for _ in 0..4_000 {
        let text = match random.below(2) {
            0 => inputs::plain_text(&mut random),
            _ => inputs::repetitive_text(&mut random),
        };
        let list = inputs::word_list(&mut random, &table, &text);
        let room = random.below(text.len() + 1);
        let (mut lent, mut without) = (vec![MARK; room], vec![MARK; room]);
        let answer = entries::read_text_with(&table, &list, &text, &mut lent);
        assert_eq!(answer, entries::read_text(&list, &text, &mut without), "{}", shown(&table, &list, &text));
        assert_eq!(lent, without, "{}", shown(&table, &list, &text));
        met[answer.refusal as usize] += 1;

        let (mut list, mut list_without) = (vec![0xA5; random.below(text.len() + 2)], vec![]);
        list_without.clone_from(&list);
        let made = entries::make_list_with(&table, &text, &mut list, &mut lent);
        let made_without = entries::make_list(&text, &mut list_without, &mut without);
        assert_eq!(made, made_without, "{}", shown(&table, &[], &text));
        assert_eq!((&list, &lent), (&list_without, &without), "{}", shown(&table, &[], &text));
        met[made.answer.refusal as usize] += 1;
    }
    assert!([0, 1, 5, 13, 14].into_iter().all(|number| met[number] > 50), "{met:?}");
    for (bytes, spellings) in [(MOST_BYTES, 3_000), (MOST_BYTES, 6_000), (MOST_BYTES + 1, 10)] {
        let text = inputs::long_text(&mut random, bytes, spellings);
        let mut lent = (vec![0xA5; MOST_BYTES + 1], vec![MARK; MOST_BYTES / 2]);
        let mut without = lent.clone();
        let made = entries::make_list_with(&table, &text, &mut lent.0, &mut lent.1);
        assert_eq!(made, entries::make_list(&text, &mut without.0, &mut without.1), "{bytes}, {spellings}");
        assert!(lent == without, "{bytes}, {spellings}");
    }
}

/// A table that breaks a rule is refused before all that else is wrong with a text to be read, whatever that is, and nothing is changed.
#[test]
fn table_before_all_of_reading() {
    let table = reference::built_in();
    let most = b"a,".repeat(MAX_WORDS + 1);
    let lines = vec![b'\n'; MAX_VOCABULARY + 1];
    for (list, text, room, refusal) in [
        (&b"a\nb\n"[..], &b"b a"[..], 2, 0),
        (b"a\n", b"", 0, 0),
        (b"", b"a", 1, 1),
        (b"", b"", 0, 1),
        (&lines, b"a", 1, 1),
        (b"a\n", &most, 0, 2),
        (b"a\n", b"a a", 1, 5),
        (b"a\n", b"a", 0, 5),
        (b"a\nb", b"a", 1, 13),
        (b"a\n\n", b"a", 1, 13),
        (b"a\na\n", b"a", 1, 13),
        (b"a\nB\n", b"a", 1, 13),
        (b"a\n\0\n", b"a", 1, 13),
        (b"a\n", b"a b", 2, 14),
        (b"\n\xD7", &most, 0, 2),
        (b"\n\xD7", b"a \xFF", 1, 5),
    ] {
        let mut ranks = vec![MARK; room];
        let answer = entries::read_text_with(&table, list, text, &mut ranks);
        assert_eq!(answer.refusal, refusal, "{} bytes listed, {} in the text", list.len(), text.len());
        for broken in broken_tables() {
            let mut ranks = vec![MARK; room];
            let answer = entries::read_text_with(&broken, list, text, &mut ranks);
            assert_eq!(answer, reference::refused(18), "{refusal}, {broken:02X?}");
            assert!(ranks.iter().all(|&rank| rank == MARK), "{refusal}, {broken:02X?}");
        }
    }
}

/// A table that breaks a rule is refused before all that else is wrong with a text of which a list is to be made, and nothing is changed.
#[test]
fn table_before_all_of_making() {
    let table = reference::built_in();
    let most = b"a,".repeat(MAX_WORDS + 1);
    let different: String = (0..=MOST_LISTED).map(|number| format!("{number:x} ")).collect();
    for (text, room, refusal) in [
        (&b"b a"[..], (4, 2), 0),
        (b"b a", (5, 3), 0),
        (b"", (0, 0), 0),
        (&most, (9, 9), 2),
        (&most[..MOST_BYTES + 1], (9, MOST_BYTES), 17),
        (different.as_bytes(), (MOST_BYTES, MOST_BYTES), 17),
        (b"b a", (3, 2), 5),
        (b"b a", (4, 1), 5),
        (b"b a", (0, 0), 5),
    ] {
        let (mut list, mut ranks) = (vec![0xA5; room.0], vec![MARK; room.1]);
        let made = entries::make_list_with(&table, text, &mut list, &mut ranks);
        assert_eq!(made.answer.refusal, refusal, "{} bytes in the text, {room:?}", text.len());
        for broken in broken_tables() {
            let (mut list, mut ranks) = (vec![0xA5; room.0], vec![MARK; room.1]);
            let made = entries::make_list_with(&broken, text, &mut list, &mut ranks);
            assert_eq!(made, turned_down(18), "{refusal}, {broken:02X?}");
            let kept = list.iter().all(|&byte| byte == 0xA5) && ranks.iter().all(|&rank| rank == MARK);
            assert!(kept, "{refusal}, {broken:02X?}");
        }
    }
}

/// A table that has passed and is then changed where it lies is looked at again by each call.
#[test]
fn changed_since_checked() {
    let mut table = reference::built_in();
    for (byte, entry, refusal) in
        [(0x0A, 0x61, 18), (0x0A, 0, 0), (0xFF, 0x42, 18), (0xFF, 0xE9, 0), (0x62, 0x61, 18), (0x42, 0x61, 0)]
    {
        table[byte] = entry;
        let table = black_box(&table);
        for _ in 0..2 {
            let mut ranks = [MARK; 1];
            assert_eq!(entries::check_letters(table).refusal, refusal, "{byte:02X}");
            assert_eq!(entries::read_text_with(table, b"a\n", b"A", &mut ranks).refusal, refusal, "{byte:02X}");
            assert_eq!(entries::find_word_with(table, b"a\n", b"A").refusal, refusal, "{byte:02X}");
            let made = entries::make_list_with(table, b"A", &mut [0; 2], &mut ranks);
            assert_eq!(made.answer.refusal, refusal, "{byte:02X}");
        }
    }
}

/// The same memory lent as the table, the list and the text.
#[test]
fn table_as_text() {
    for table in [reference::built_in(), all_letters(), table_of(&[(0x61, 0x61)]), vec![b'\n'; 256]] {
        let (mut ours, mut theirs) = ([MARK; 256], [MARK; 256]);
        let answer = entries::read_text_with(&table, &table, &table, &mut ours);
        assert_eq!(answer, reference::read_text(&table, &table, &table, &mut theirs), "{table:02X?}");
        assert_eq!(ours, theirs, "{table:02X?}");
        make(&table, &table, &reference::made(&table, &table), (300, 200));
    }
}

/// A table with other digits: 80 to 8F, which 90 to 9F are folded to.
fn other_digits() -> Vec<u8> {
    let digits: Vec<(u8, u8)> = (0x80..0xA0).map(|byte| (byte, byte & 0x8F)).collect();
    table_of(&digits)
}

/// A number in six of these digits, the first of which is 80 or, as capitals are, 90.
fn spelled(number: usize, first: u8) -> Vec<u8> {
    (0..6).rev().map(|digit| first + (number >> (4 * digit) & 0x0F) as u8).collect()
}

/// A list of so many numbers in these digits.
fn list_of(words: usize) -> Vec<u8> {
    let mut list = Vec::with_capacity(7 * words);
    for number in 0..words {
        list.extend(spelled(number, 0x80));
        list.push(b'\n');
    }
    list
}

/// A list of more words than a hash table has.
#[test]
fn long_list() {
    let mut random = Random::of("long_list");
    let table = other_digits();
    let vocabulary = 100_001;
    let list = list_of(vocabulary);
    let mut text = Vec::new();
    for _ in 0..3_000 {
        let rank = random.below(vocabulary);
        let rank = random.one_of(&[rank, 0, 99_999, 100_000]);
        text.extend(spelled(rank, random.one_of(&[0x80, 0x90])));
        text.push(random.one_of(b"aZ0 \0\n\xFF"));
    }
    assert_eq!(read(&table, &list, &text, 3_001), reference::accepted(3_000));
    let unlisted = [&text[..], &spelled(vocabulary, 0x90)].concat();
    assert_eq!(read(&table, &list, &unlisted, 3_001), Answer { refusal: 14, value: text.len() });
    let twice = [&list[..], &spelled(7, 0x80), b"\n"].concat();
    assert_eq!(read(&table, &twice, &text, 3_001), reference::refused(13));
    let capital = [&list[..], &spelled(vocabulary, 0x90), b"\n"].concat();
    assert_eq!(read(&table, &capital, &text, 3_001), reference::refused(13));
}

/// Lists of the largest vocabulary, by which a text is read and a word is found, and of one word more, which is refused by 1; by a broken table, both by 18.
#[test]
fn largest_list() {
    let table = other_digits();
    let mut list = list_of(MAX_VOCABULARY);
    let last = MAX_VOCABULARY as u32 - 1;
    let text = [spelled(MAX_VOCABULARY - 1, 0x90), spelled(0, 0x90)].join(&b'a');
    let broken = changed(table.clone(), &[(0x8F, 0)]);
    let rank = reference::accepted(MAX_VOCABULARY - 1);
    let absent = reference::accepted(MAX_VOCABULARY);
    let above = reference::refused(1);
    for (expected, ranks, found) in
        [(reference::accepted(2), [last, 0, MARK], [rank, absent]), (above, [MARK; 3], [above, above])]
    {
        let mut ours = [MARK; 3];
        for (number, answer) in [MAX_VOCABULARY - 1, MAX_VOCABULARY].into_iter().zip(found) {
            let spelling = spelled(number, 0x90);
            assert_eq!(entries::find_word_with(&broken, &list, &spelling), reference::refused(18));
            assert_eq!(entries::find_word_with(&table, &list, &spelling), answer);
        }
        assert_eq!(entries::read_text_with(&broken, &list, &text, &mut ours), reference::refused(18));
        assert_eq!(ours, [MARK; 3]);
        assert_eq!(entries::read_text_with(&table, &list, &text, &mut ours), expected);
        assert_eq!(ours, ranks);
        list.extend(spelled(MAX_VOCABULARY, 0x80));
        list.push(b'\n');
    }
}

/// Words of one byte and of two that a table keeps, so many of them.
fn shortest_words(table: &[u8], count: usize) -> Vec<Vec<u8>> {
    let kept = reference::kept(table);
    let pairs = kept.iter().flat_map(|&one| kept.iter().map(move |&other| vec![one, other]));
    kept.iter().map(|&byte| vec![byte]).chain(pairs).take(count).collect()
}

/// Lists by lent tables at the limits of a text: 4,096 different words and one more, where the built-in table has fewer words or one, and 65,536 bytes
/// and one more, as one word and as many.
#[test]
fn limits_of_a_list() {
    let table = all_letters();
    for (count, refusal) in [(MOST_LISTED - 1, 0), (MOST_LISTED, 0), (MOST_LISTED + 1, 17)] {
        let text = shortest_words(&table, count).join(&b'\n');
        let made = reference::made(&table, &text);
        assert_eq!(make(&table, &text, &made, (MOST_BYTES, MOST_BYTES)).answer.refusal, refusal, "{count}");
        make(&table, &text, &made, (0, 0));
    }
    let letters: Vec<(u8, u8)> = (0..=255).filter(|&byte| byte != 0x0A).map(|byte| (byte, b'x')).collect();
    let one = table_of(&letters);
    let text = shortest_words(&table, 2 * MOST_LISTED).join(&b'\n');
    assert_eq!(make(&one, &text, &reference::made(&one, &text), (5, MOST_BYTES)), accepted(5, 2 * MOST_LISTED));

    let dashes = table_of(&[(b'-', b'-'), (b'+', b'-')]);
    for (text, bytes, words) in [
        (b"+a".repeat(MOST_BYTES / 2), 2, MOST_BYTES / 2),
        (vec![b'+'; MOST_BYTES], MOST_BYTES + 1, 1),
        (vec![b'a'; MOST_BYTES], 0, 0),
    ] {
        let made = reference::made(&dashes, &text);
        assert_eq!(make(&dashes, &text, &made, (MOST_BYTES + 1, MOST_BYTES / 2)), accepted(bytes, words));
        for more in [b'a', b'-'] {
            let text = [&text[..], &[more]].concat();
            let made = reference::made(&dashes, &text);
            assert_eq!(make(&dashes, &text, &made, (MOST_BYTES + 2, MOST_BYTES)), turned_down(17));
        }
    }
}

/// Plain texts of the most words by a lent table and of one word more, where the built-in table has another number of words; a broken table is refused before.
#[test]
fn most_words() {
    let dashes = table_of(&[(b'-', b'-'), (b'+', b'-')]);
    let mut text = b"+a".repeat(MAX_WORDS);
    let mut ranks = vec![MARK; MAX_WORDS + 1];
    let read = |table: &[u8], text: &[u8], ranks: &mut [u32]| entries::read_text_with(table, b"--\n-\n", text, ranks);
    assert_eq!(read(&dashes, &text, &mut ranks), reference::accepted(MAX_WORDS));
    assert!(ranks[..MAX_WORDS].iter().all(|&rank| rank == 1) && ranks[MAX_WORDS] == MARK);
    let none = |made: ListMade, refusal: u32| assert_eq!(made, turned_down(refusal));
    none(entries::make_list_with(&dashes, &text, &mut [], &mut []), 17);
    text.push(b'-');
    assert_eq!(read(&dashes, &text, &mut []), reference::refused(2));
    none(entries::make_list_with(&dashes, &text, &mut [], &mut []), 2);
    text.pop();
    text.extend(b"aba b");
    assert_eq!(read(&dashes, &text, &mut []), reference::refused(5));
    none(entries::make_list_with(&dashes, &text, &mut [], &mut []), 17);
    text.extend(b"-");
    for broken in broken_tables() {
        assert_eq!(read(&broken, &text, &mut []), reference::refused(18));
        none(entries::make_list_with(&broken, &text, &mut [], &mut []), 18);
    }
}

/// What the crate reads and makes by a table is the reference's, and refused, it gives the refusal of the entry, never for want of room.
#[test]
fn owned() {
    let mut random = Random::of("owned");
    let mut met = [0; 19];
    for _ in 0..2_500 {
        let table = inputs::letter_table(&mut random);
        let letters = Letters::new(&table).expect("it is a table");
        let text = inputs::text_by(&mut random, &table);
        let list = inputs::word_list(&mut random, &table, &text);
        let mut ranks = vec![0; text.len()];
        let answer = reference::read_text(&table, &list, &text, &mut ranks);
        let read = concordance::read_text_with(&letters, &list, &text);
        match read {
            Ok(read) => {
                assert_eq!(answer, reference::accepted(read.len()), "{}", shown(&table, &list, &text));
                assert_eq!(read, ranks[..read.len()], "{}", shown(&table, &list, &text));
            }
            Err(Refused { refusal, value }) => {
                assert_eq!(answer, Answer { refusal: refusal.number(), value }, "{}", shown(&table, &list, &text));
            }
        }
        met[answer.refusal as usize] += 1;
        let (list, ranks) = reference::made(&table, &text).unwrap();
        assert_eq!(concordance::make_list_with(&letters, &text), Ok(WordList { list, ranks }));
    }
    assert!([0, 1, 13, 14].into_iter().all(|number| met[number] > 50) && met[5] == 0, "{met:?}");

    let dashes = Letters::new(&table_of(&[(b'-', b'-'), (b'+', b'-')])).unwrap();
    let made = concordance::make_list_with(&dashes, b"++ a -+a-").unwrap();
    assert_eq!((&made.list[..], &made.ranks[..], made.vocabulary()), (&b"--\n-\n"[..], &[0, 0, 1][..], 2));
    assert_eq!(concordance::read_text_with(&dashes, &made.list, b"+a-+"), Ok(vec![1, 0]));
    let refused = Refused { refusal: Refusal::ListMaking, value: 0 };
    assert_eq!(concordance::make_list_with(&dashes, &vec![b'-'; MOST_BYTES + 1]), Err(refused));
    let longest = b"-a".repeat(MOST_BYTES / 2);
    assert_eq!(concordance::make_list_with(&dashes, &longest).unwrap().ranks, vec![0; MOST_BYTES / 2]);
    assert_eq!(concordance::read_text_with(&dashes, b"-\n", &longest), Ok(vec![0; MOST_BYTES / 2]));
}

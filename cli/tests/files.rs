//! Index files: damaged ones, which every command refuses, others that hold the same in another layout, and how they are written.
mod common;

use common::{Folder, Run};
use std::sync::Mutex;
use std::{fs, thread};

/// The letter table of the engine in hexadecimal digits, as its program prints it.
const TABLE: &str = include_str!("../../crates/letters/stdout");
/// The index file of a test.
const INDEX: &str = "letters.concord";
/// The commands that ask something of an index, each with what stands behind the name of the index.
const ASKING: [(&str, &[&str]); 6] = [
    ("count", &["sea"]),
    ("list", &["sea"]),
    ("words", &[]),
    ("documents", &["sea"]),
    ("neighbours", &["sea"]),
    ("text", &[]),
];
/// Where V, B, b and s stand, the length of the file and its checksum, and where the rows of the sections begin.
const VOCABULARY: usize = 16;
const BLOCK: usize = 24;
const PER_SUPERBLOCK: usize = 32;
const CLOSING: usize = 40;
const LENGTH: usize = 48;
const CHECKSUM: usize = 56;
const ROWS: usize = 64;
/// The bytes before the first section.
const FRONT: usize = 320;
/// The sections in the order of their rows, and the bytes of an element of each.
const LENGTHS: usize = 0;
const BYTES: usize = 1;
const SUPERBLOCKS: usize = 2;
const BLOCKS: usize = 3;
const LIST: usize = 4;
const STARTS: usize = 5;
const NAMES: usize = 6;
const MARKS: usize = 7;
const LETTERS: usize = 8;
const RECODING: usize = 9;
const ELEMENTS: [usize; 10] = [4, 1, 4, 2, 1, 4, 1, 4, 1, 1];
const IN_ORDER: [usize; 10] = [0, 1, 2, 3, 4, 5, 6, 7, 8, 9];

/// CRC-64/XZ by its definition, a bit at a time.
fn crc(bytes: &[u8]) -> u64 {
    let mut crc = !0;
    for &byte in bytes {
        crc ^= u64::from(byte);
        for _ in 0..8 {
            crc = if crc & 1 == 1 { crc >> 1 ^ 0xC96C_5795_D787_0F42 } else { crc >> 1 };
        }
    }
    !crc
}

/// Makes the checksum of a file right, if it has one.
fn sign(file: &mut [u8]) {
    if file.len() >= CHECKSUM + 8 {
        put_number(file, CHECKSUM, 0);
        let sum = crc(file);
        put_number(file, CHECKSUM, sum);
    }
}

/// The number of eight bytes.
fn number(file: &[u8], at: usize) -> usize {
    u64::from_le_bytes(file[at..at + 8].try_into().unwrap()) as usize
}

/// Puts a number of eight bytes.
fn put_number(file: &mut [u8], at: usize, number: u64) {
    file[at..at + 8].copy_from_slice(&number.to_le_bytes());
}

/// Where the offset of a section stands; the elements used and the room follow in eight bytes each.
fn row(section: usize) -> usize {
    ROWS + 24 * section
}

/// The offset of a section.
fn offset(file: &[u8], section: usize) -> usize {
    number(file, row(section))
}

/// The bytes of the used elements of a section.
fn used(file: &[u8], section: usize) -> &[u8] {
    &file[offset(file, section)..][..number(file, row(section) + 8) * ELEMENTS[section]]
}

/// The bytes of the used elements of all sections.
fn parts(file: &[u8]) -> Vec<Vec<u8>> {
    (0..ELEMENTS.len()).map(|section| used(file, section).to_vec()).collect()
}

/// The file with the header of another and with these sections: in this order, each with room for so many more elements, which are not 0, and behind so many
/// times 64 bytes of gap. Its length and its checksum are right.
fn laid_out(header: &[u8], parts: &[Vec<u8>], order: [usize; 10], spare: usize, gap: usize) -> Vec<u8> {
    let mut file = header[..ROWS].to_vec();
    file.resize(FRONT, 0);
    for section in order {
        file.resize(file.len() + 64 * gap, 0);
        let elements = parts[section].len() / ELEMENTS[section];
        for (at, number) in [file.len(), elements, elements + spare].into_iter().enumerate() {
            put_number(&mut file, row(section) + 8 * at, number as u64);
        }
        file.extend_from_slice(&parts[section]);
        file.extend(vec![0xA5; spare * ELEMENTS[section]]);
        file.resize(file.len().next_multiple_of(64), 0);
    }
    let length = file.len() as u64;
    put_number(&mut file, LENGTH, length);
    sign(&mut file);
    file
}

/// The file with other bytes in one section, laid out as the program does.
fn with_section(file: &[u8], section: usize, bytes: &[u8]) -> Vec<u8> {
    let mut parts = parts(file);
    parts[section] = bytes.to_vec();
    laid_out(file, &parts, IN_ORDER, 0, 0)
}

/// The file with another number of eight bytes, and the checksum right.
fn with_number(file: &[u8], at: usize, number: u64) -> Vec<u8> {
    let mut file = file.to_vec();
    put_number(&mut file, at, number);
    sign(&mut file);
    file
}

/// The file with another byte, and the checksum right.
fn with_byte(file: &[u8], at: usize, byte: u8) -> Vec<u8> {
    let mut file = file.to_vec();
    assert_ne!(file[at], byte);
    file[at] = byte;
    sign(&mut file);
    file
}

/// Numbers of four bytes, one after another.
fn fours(numbers: &[u32]) -> Vec<u8> {
    numbers.iter().flat_map(|number| number.to_le_bytes()).collect()
}

/// The index of three letters that has every section.
fn index_of_three(folder: &Folder) -> Vec<u8> {
    folder.write("letters/a.txt", "The sand and the sea.");
    folder.write("letters/b.txt", "Of the c\u{153}ur: sea!");
    folder.write("letters/c.txt", "Sea of sand?\n");
    folder.write("table", TABLE);
    folder.write("replace", "\u{153} oe\n");
    let made = ["index", "letters", "--room", "10", "--letters", "table", "--replace", "replace"];
    assert_eq!(folder.run(&made).answer(), "3 documents, 12 words, 6 different; 12 node bytes\n");
    let file = folder.read(INDEX);
    assert!((2_000..3_000).contains(&file.len()), "{}", file.len());
    assert!((0..ELEMENTS.len()).all(|section| !used(&file, section).is_empty()));
    file
}

/// Runs `check` and then the commands that ask something, of the index file with this name.
fn run_all(folder: &Folder, index: &str) -> (Run, Vec<Run>) {
    run_some(folder, index, &[0, 1, 2, 3, 4, 5])
}

/// Runs `check` and then those of the commands that ask something that have these numbers.
fn run_some(folder: &Folder, index: &str, numbers: &[usize]) -> (Run, Vec<Run>) {
    let ask = |&number: &usize| {
        let (command, behind) = ASKING[number];
        folder.run(&[&[command, index], behind].concat())
    };
    (folder.run(&["check", index]), numbers.iter().map(ask).collect())
}

/// Writes a file and asserts that every command refuses it with a line that has these words in it; `check` may say so among its lines.
fn refused_by_all(folder: &Folder, file: &[u8], words: &[&str]) {
    folder.write("damaged", file);
    let (checked, asked) = run_all(folder, "damaged");
    assert_eq!(checked.status, 2, "{words:?}: {checked:?}");
    words.iter().for_each(|word| assert!(said(&checked).contains(word), "{word:?} is not in {checked:?}"));
    asked.iter().for_each(|run| run.refused_with(words));
}

/// All that a run has written.
fn said(run: &Run) -> String {
    format!("{}{}", String::from_utf8_lossy(&run.out), run.err)
}

/// The file with each byte changed in turn, never to the same: in two threads, each handed the number of the byte and the runs over the file. Where the checksum
/// is made right, two of the commands that ask something are run, other ones from byte to byte, and otherwise all.
fn with_each_byte_changed(test: &str, signed: bool, look: impl Fn(usize, &Run, &[Run]) + Sync) {
    let folder = Folder::new(test);
    let file = index_of_three(&folder);
    let change_and_look = &|first: usize| {
        let name = format!("changed-{first}");
        for at in (first..file.len()).step_by(2) {
            let mut changed = file.clone();
            changed[at] ^= (at * 37 % 255 + 1) as u8;
            assert_ne!(changed, file);
            if signed {
                sign(&mut changed);
            }
            folder.write(&name, &changed);
            let (checked, asked) = match signed {
                true => run_some(&folder, &name, &[at / 2 % 6, (at / 2 + 3) % 6]),
                false => run_all(&folder, &name),
            };
            look(at, &checked, &asked);
        }
    };
    thread::scope(|scope| (0..2).for_each(|first| drop(scope.spawn(move || change_and_look(first)))));
}

/// The checksum of the tests is the published one.
#[test]
fn the_checksum_of_the_tests_is_the_published_one() {
    assert_eq!(crc(b"123456789"), 0x995D_C9BB_DF19_39FA);
}

/// A file of which any one byte is changed is refused by every command, and `check` says why.
#[test]
fn a_changed_byte_is_refused_by_every_command() {
    with_each_byte_changed("changed", false, |at, checked, asked| {
        assert_eq!(checked.status, 2, "{at}: {checked:?}");
        assert!(said(checked).contains("refused"), "{at}: {checked:?}");
        asked.iter().for_each(|run| assert!(run.refusal().contains("refused"), "{at}: {run:?}"));
    });
}

/// A file of which any one byte is changed and whose checksum is right again ends no command by a signal or a panic. Where `check` passes every command
/// answers. Where the engine refuses something no command prints anything, and where the list lacks a word of the text those do not that need all words.
#[test]
fn a_changed_byte_behind_the_checksum_gets_an_answer_or_a_refusal() {
    let counts = Mutex::new([0; 3]);
    with_each_byte_changed("signed", true, |at, checked, asked| {
        counts.lock().unwrap()[checked.status as usize] += 1;
        assert_ne!(checked.status, 1, "{at}: {checked:?}");
        let by_the_engine = said(checked).contains(']');
        for run in asked {
            match &run.shown[..4] {
                _ if checked.status == 0 => assert!(run.status < 2 && !run.out.is_empty(), "{at}: {run:?}"),
                _ if by_the_engine => assert!(run.refusal().contains("refused"), "{at}: {run:?}"),
                "word" | "text" => assert!(run.refusal().contains("refused"), "{at}: {run:?}"),
                _ => {}
            }
        }
    });
    let [passed, _, refused] = *counts.lock().unwrap();
    println!("check passes {passed} of the files and refuses {refused}");
    assert!(passed > 0 && refused > passed);
}

/// A file that is cut short anywhere, or is longer than it was written, is refused by every command.
#[test]
fn a_file_that_is_cut_short_is_refused_by_every_command() {
    let folder = Folder::new("cut");
    let file = index_of_three(&folder);
    let mut lengths = vec![0, 1, 7, 8, 9, 15, 16, 40, 63, 64, file.len() - 1];
    lengths.extend((0..file.len()).step_by(64));
    for section in IN_ORDER {
        let (start, bytes) = (offset(&file, section), used(&file, section).len());
        lengths.extend([start, start + 1, start + bytes - 1]);
    }
    lengths.sort_unstable();
    lengths.dedup();
    let cut_and_run = &|first: usize| {
        let name = format!("cut-{first}");
        for &length in lengths.iter().skip(first).step_by(2) {
            folder.write(&name, &file[..length]);
            let (checked, asked) = run_all(&folder, &name);
            for run in asked.iter().chain([&checked]) {
                let word = if length < 8 { "no index" } else { "cut short" };
                run.refused_with(&[&name, "refused", word]);
            }
        }
    };
    thread::scope(|scope| (0..2).for_each(|first| drop(scope.spawn(move || cut_and_run(first)))));
    refused_by_all(&folder, &[&file[..], &[0]].concat(), &["damaged", "refused", &file.len().to_string()]);
}

/// A file that is cut short where a section begins, and whose length and checksum are right, lacks that section.
#[test]
fn a_file_that_lacks_its_last_sections_is_refused() {
    let folder = Folder::new("lacking");
    let file = index_of_three(&folder);
    for section in IN_ORDER {
        let mut cut = file[..offset(&file, section)].to_vec();
        let length = cut.len() as u64;
        put_number(&mut cut, LENGTH, length);
        sign(&mut cut);
        refused_by_all(&folder, &cut, &["refused", "does not lie inside"]);
    }
}

/// Each refusal of the header and of the sections, by a file whose checksum is right.
#[test]
fn each_fault_of_the_layout_is_named() {
    let folder = Folder::new("layout");
    let file = index_of_three(&folder);
    let end = file.len() as u64;
    let moved = |section: usize, to: usize| {
        let mut moved = file.clone();
        let (start, bytes) = (offset(&file, section), used(&file, section).len());
        moved[start..start + bytes].fill(0);
        with_number(&moved, row(section), offset(&file, to) as u64)
    };
    let cases: [(Vec<u8>, &[&str]); 22] = [
        (with_byte(&file, 0, b'C'), &["no index file"]),
        (with_byte(&file, 7, b'\r'), &["no index file"]),
        (with_byte(&file, 8, 2), &["version 2", "version 1"]),
        (with_byte(&file, 8, 0), &["version 0"]),
        (with_number(&file, 8, 0x0403_0201_0100_0000), &["order"]),
        (with_byte(&file, 12, 5), &["order"]),
        (with_number(&file, LENGTH, end + 1), &["cut short", &(end + 1).to_string()]),
        (with_number(&file, LENGTH, u64::MAX), &["cut short", &u64::MAX.to_string()]),
        (with_number(&file, LENGTH, end - 1), &[&end.to_string(), &(end - 1).to_string()]),
        (with_number(&file, LENGTH, 0), &[&end.to_string()]),
        (with_number(&file, CLOSING, 127), &["127 closing"]),
        (with_number(&file, row(LENGTHS), end), &["node lengths", "inside"]),
        (with_number(&file, row(BYTES), 256), &["node bytes", "inside"]),
        (with_number(&file, row(LIST), u64::MAX - 63), &["word list", "inside"]),
        (with_number(&file, row(STARTS) + 16, u64::MAX / 2), &["document starts", "inside"]),
        (with_number(&file, row(MARKS), offset(&file, MARKS) as u64 - 4), &["marks", "multiple of 64"]),
        (with_number(&file, row(NAMES) + 8, used(&file, NAMES).len() as u64 + 1), &["document names", "room"]),
        (moved(LIST, STARTS), &["word list", "document starts", "overlap"]),
        (moved(LENGTHS, LETTERS), &["node lengths", "letter table", "overlap"]),
        (with_number(&file, row(LIST) + 16, 65), &["word list", "document starts", "overlap"]),
        (with_byte(&file, FRONT - 1, 1), &["byte at 319", "not 0"]),
        (with_byte(&file, file.len() - 1, 1), &["byte at 2559", "not 0"]),
    ];
    for (damaged, words) in &cases {
        refused_by_all(&folder, damaged, &[&["damaged", "refused"], *words].concat());
    }
}

/// Each refusal of what the sections hold that the engine knows nothing of, by a file whose checksum is right.
#[test]
fn each_fault_of_the_contents_is_named() {
    let folder = Folder::new("contents");
    let file = index_of_three(&folder);
    let cases: [(usize, &[u8], &str); 17] = [
        (MARKS, &fours(&[u32::MAX; 15]), "marks"),
        (MARKS, &fours(&[u32::MAX; 17]), "marks"),
        (LETTERS, &used(&file, LETTERS)[..255], "256"),
        (LETTERS, &[used(&file, LETTERS), &[0]].concat(), "256"),
        (NAMES, b"a\nb\n", "as many document names"),
        (NAMES, b"a\nb\nc\nd\n", "as many document names"),
        (NAMES, b"a\nb\nc", "as many document names"),
        (NAMES, b"", "as many document names"),
        (NAMES, b"a\n\nc\n", "name is empty"),
        (NAMES, b"a\nb\tb\nc\n", "control character"),
        (NAMES, b"a\nb\x7F\nc\n", "control character"),
        (NAMES, b"a\n../b\nc\n", "leads out"),
        (NAMES, b"a\n/b\nc\n", "leads out"),
        (NAMES, b"a\nb/./b\nc\n", "leads out"),
        (RECODING, b"oe\n", "recoding"),
        (RECODING, b"a b\n", "recoding"),
        (RECODING, "\u{153} oe\n\u{153} o\n".as_bytes(), "recoding"),
    ];
    for (section, bytes, word) in cases {
        refused_by_all(&folder, &with_section(&file, section, bytes), &["damaged", "refused", word]);
    }
}

/// Each refusal of the engine that the numbers, the arrays, the starts or the letter table of a file can bring, with its number. The file has V = 10.
#[test]
fn each_refusal_of_the_engine_has_its_number() {
    let folder = Folder::new("engine");
    let file = index_of_three(&folder);
    let table = |byte: usize, entry: u8| {
        let mut table = used(&file, LETTERS).to_vec();
        table[byte] = entry;
        with_section(&file, LETTERS, &table)
    };
    let starts = |starts: &[u32]| {
        let mut parts = parts(&file);
        parts[STARTS] = fours(starts);
        parts[NAMES] = b"x\n".repeat(starts.len());
        laid_out(&file, &parts, IN_ORDER, 0, 0)
    };
    let changed = |section: usize, at: usize| {
        let at = offset(&file, section) + at;
        with_byte(&file, at, file[at] ^ 1)
    };
    let cases: Vec<(Vec<u8>, &str)> = vec![
        (with_number(&file, VOCABULARY, 0), "[1]"),
        (with_number(&file, VOCABULARY, 2_113_665), "[1]"),
        (with_number(&file, VOCABULARY, 1 << 32), "[1]"),
        (with_number(&file, VOCABULARY, u64::MAX), "[1]"),
        (with_number(&file, BLOCK, 0), "[3]"),
        (with_number(&file, BLOCK, u64::MAX), "[3]"),
        (with_number(&file, PER_SUPERBLOCK, 0), "[3]"),
        (with_number(&file, PER_SUPERBLOCK, 78), "[3]"),
        (with_number(&file, VOCABULARY, 129), "[6]"),
        (with_number(&file, BLOCK, 1), "[6]"),
        (changed(LENGTHS, 0), "[6]"),
        (changed(LENGTHS, 3), "[6]"),
        (with_byte(&file, offset(&file, BYTES), 0), "[6]"),
        (with_byte(&file, offset(&file, BYTES), 0x80 + 10), "[6]"),
        (changed(SUPERBLOCKS, 1023), "[6]"),
        (changed(BLOCKS, 0), "[6]"),
        (with_section(&file, LENGTHS, b""), "[6]"),
        (with_section(&file, LENGTHS, &fours(&[u32::MAX])), "[6]"),
        (with_section(&file, BYTES, &used(&file, BYTES)[1..]), "[6]"),
        (with_section(&file, SUPERBLOCKS, &used(&file, SUPERBLOCKS)[4..]), "[6]"),
        (with_section(&file, BLOCKS, &used(&file, BLOCKS)[2..]), "[6]"),
        (table(0x0A, b'a'), "[18]"),
        (table(usize::from(b'a'), b'A'), "[18]"),
        (table(usize::from(b'-'), b'!'), "[18]"),
        (with_section(&file, LETTERS, &[0; 256]), "[18]"),
        (starts(&[]), "[19]"),
        (starts(&[1, 5, 9]), "[19]"),
        (starts(&[0, 9, 5]), "[19]"),
        (starts(&[0, 5, 5]), "[19]"),
        (starts(&[0, 5, 12]), "[19]"),
        (starts(&[0, 5, u32::MAX]), "[19]"),
        (starts(&(0..13).collect::<Vec<u32>>()), "[19]"),
    ];
    for (damaged, number) in &cases {
        refused_by_all(&folder, damaged, &["damaged", "refused", number]);
    }
}

/// A word list that breaks a rule is refused by every command, with its number.
#[test]
fn a_broken_word_list_is_refused() {
    let folder = Folder::new("broken-list");
    let file = index_of_three(&folder);
    let lists: [(&[u8], &str); 9] = [
        (b"", "[1]"),
        (b"the", "[1]"),
        (b"the\nsea\nsand\nof\nand\ncoeur", "[13]"),
        (b"the\nsea\nsand\n\nand\ncoeur\n", "[13]"),
        (b"the\nsea\nsand\nof\nthe\ncoeur\n", "[13]"),
        (b"the\nsea\nsand\nof\nAnd\ncoeur\n", "[13]"),
        (b"the\nsea\nsand\nof\nan-d\ncoeur\n", "[13]"),
        (b"the\nsea\nsand\nof\nand\nco\xDEur\n", "[13]"),
        (b"the\nsea\nsand\nof\nand\ncoeu\0\n", "[13]"),
    ];
    for (list, number) in lists {
        refused_by_all(&folder, &with_section(&file, LIST, list), &["damaged", "refused", number]);
    }
}

/// A word list that lacks a word of the text, or has words that V has no room for, is refused where such a word is met.
#[test]
fn a_word_list_that_does_not_fit_the_text_is_refused() {
    let folder = Folder::new("other-list");
    let file = index_of_three(&folder);
    folder.write("short", with_section(&file, LIST, b"the\nsea\nsand\nof\nand\n"));
    let checked = folder.run(&["check", "short"]);
    assert_eq!(checked.status, 2, "{checked:?}");
    assert!(said(&checked).contains("word list: refused"), "{checked:?}");
    folder.run(&["words", "short"]).refused_with(&["short", "refused", "word list"]);
    folder.run(&["list", "short", "the"]).refused_with(&["short", "refused", "word list"]);
    folder.run(&["neighbours", "short", "the"]).refused_with(&["short", "refused", "word list"]);
    folder.run(&["text", "short"]).refused_with(&["short", "refused", "word list"]);
    assert!(folder.run(&["count", "short", "absent"]).nothing().starts_with("0 "));

    let more: Vec<u8> = (0..6).flat_map(|word| format!("more{word}\n").into_bytes()).collect();
    folder.write("long", with_section(&file, LIST, &[used(&file, LIST), &more].concat()));
    let checked = folder.run(&["check", "long"]);
    assert_eq!(checked.status, 2, "{checked:?}");
    assert!(said(&checked).contains("[9]"), "{checked:?}");
    folder.run(&["words", "long"]).refused_with(&["long", "refused", "[9]"]);
    folder.run(&["count", "long", "more5"]).refused_with(&["long", "refused", "[9]"]);
    assert!(folder.run(&["count", "long", "more3"]).nothing().contains("\"more3\""));
    assert_eq!(folder.run(&["count", "long", "sea"]).answer(), "3\n");
}

/// Where both the index and the checksum are wrong `check` says both, and the other commands name the checksum.
#[test]
fn check_says_all_that_is_wrong() {
    let folder = Folder::new("both");
    let mut file = index_of_three(&folder);
    let at = offset(&file, SUPERBLOCKS);
    file[at] ^= 1;
    folder.write("damaged", &file);
    let (checked, asked) = run_all(&folder, "damaged");
    assert_eq!(checked.status, 2);
    ["index: refused", "[6]", "file: refused", "checksum"]
        .iter()
        .for_each(|word| assert!(said(&checked).contains(word), "{word}: {checked:?}"));
    asked.iter().for_each(|run| run.refused_with(&["damaged", "refused", "checksum"]));
}

/// The layout is the one that is documented, and a file that has its sections in another order, with gaps between them and with room for more, answers alike.
#[test]
fn another_layout_of_the_same_sections_answers_alike() {
    let folder = Folder::new("other-layout");
    let file = index_of_three(&folder);
    assert_eq!(laid_out(&file, &parts(&file), IN_ORDER, 0, 0), file);
    let (checked, asked) = run_all(&folder, INDEX);
    assert_eq!(checked.status, 0);
    let [mut backwards, shuffled] = [IN_ORDER, [4, 9, 1, 0, 7, 8, 3, 5, 2, 6]];
    backwards.reverse();
    for (order, spare, gap) in [(IN_ORDER, 5, 0), (IN_ORDER, 0, 3), (backwards, 0, 0), (shuffled, 64, 1)] {
        let other = laid_out(&file, &parts(&file), order, spare, gap);
        assert_ne!(other, file);
        folder.write("other", &other);
        let (checked_other, asked_other) = run_all(&folder, "other");
        assert_eq!((checked_other.answer(), &checked_other.err), (checked.answer(), &checked.err));
        for (run, run_other) in asked.iter().zip(&asked_other) {
            assert_eq!((run_other.answer(), &run_other.err), (run.answer(), &run.err));
        }
    }
}

/// What is no index file is refused by every command.
#[test]
fn what_is_no_index_is_refused_by_every_command() {
    let folder = Folder::new("no-index");
    folder.write("folder/letter.txt", "sea");
    folder.write("empty", "");
    folder.write("text", "The sand and the sea, and the sea and the sand.\n".repeat(100));
    folder.write("mark", "concord\n");
    for (name, word) in [
        ("folder", "folder"),
        ("empty", "no index"),
        ("text", "no index"),
        ("mark", "cut short"),
        ("missing", "No such file"),
        ("text/missing", "Not a directory"),
        ("/dev/null", "no index"),
        ("/dev/zero", "no index"),
    ] {
        let (checked, asked) = run_all(&folder, name);
        asked.iter().chain([&checked]).for_each(|run| run.refused_with(&["concord: ", name, word]));
    }
}

/// The names in a folder.
fn names_in(folder: &Folder, name: &str) -> Vec<String> {
    let entries = fs::read_dir(folder.at(name)).unwrap();
    let mut names: Vec<String> = entries.map(|entry| entry.unwrap().file_name().into_string().unwrap()).collect();
    names.sort();
    names
}

/// Indexing again replaces the index, leaves nothing beside it, and gives the same bytes for the same letters.
#[test]
fn indexing_again_replaces_the_index() {
    let folder = Folder::new("again");
    folder.write("letters/a.txt", "one two");
    folder.run(&["index", "letters", "-o", "i"]).answer();
    let first = folder.read("i");
    folder.run(&["index", "letters", "-o", "i"]).answer();
    assert_eq!(folder.read("i"), first);
    folder.write("letters/b.txt", "two three");
    folder.run(&["index", "letters", "-o", "i"]).answer();
    assert_ne!(folder.read("i"), first);
    assert_eq!(folder.run(&["count", "i", "two"]).answer(), "2\n");
    assert_eq!(names_in(&folder, "."), ["i", "letters"]);
    folder.write("letters/c.txt", "caf\u{142}");
    let second = folder.read("i");
    assert_eq!(folder.run(&["index", "letters", "-o", "i"]).status, 2);
    assert_eq!(folder.read("i"), second);
    assert_eq!(names_in(&folder, "."), ["i", "letters"]);
}

/// Without a name the index is written into the current folder, under the name of the folder of letters.
#[test]
fn the_index_has_the_name_of_its_folder() {
    let folder = Folder::new("name");
    folder.write("letters/below/a.txt", "one two");
    folder.run(&["index", "letters/below/"]).answer();
    folder.run(&["index", "letters"]).answer();
    folder.run(&["index", "letters/below/../../letters/below/a.txt"]).answer();
    assert_eq!(names_in(&folder, "."), ["a.txt.concord", "below.concord", "letters", "letters.concord"]);
}

/// An index is not written over a file that is none, or over a folder, or into a folder that is not there.
#[test]
fn what_is_no_index_is_not_written_over() {
    let folder = Folder::new("over");
    folder.write("letters/a.txt", "one two");
    for (name, bytes) in [("notes", "the notes of years\n"), ("empty", ""), ("nearly", "concord")] {
        folder.write(name, bytes);
        folder.run(&["index", "letters", "-o", name]).refused_with(&[name, "refused", "no index"]);
        assert_eq!(folder.read(name), bytes.as_bytes());
    }
    folder.run(&["index", "letters", "-o", "letters"]).refused_with(&["letters"]);
    folder.run(&["index", "letters", "-o", "nowhere/i"]).refused_with(&["nowhere/i", "No such file"]);
    folder.run(&["index", "nowhere", "-o", "i"]).refused_with(&["nowhere", "No such file"]);
    assert!(!folder.has("nowhere") && !folder.has("i"));
    assert_eq!(names_in(&folder, "."), ["empty", "letters", "nearly", "notes"]);
    assert_eq!(names_in(&folder, "letters"), ["a.txt"]);
}

/// An index that lies in the folder of letters is no letter.
#[test]
fn an_index_among_the_letters_is_left_out() {
    let folder = Folder::new("among");
    folder.write("letters/a.txt", "one two");
    folder.run(&["index", "letters", "-o", "letters/i.concord"]).answer();
    let first = folder.read("letters/i.concord");
    let again = folder.run(&["index", "letters", "-o", "letters/i.concord"]);
    again.answer();
    assert!(again.err.contains("letters/i.concord") && again.err.contains("left out"), "{again:?}");
    assert_eq!(folder.read("letters/i.concord"), first);
    assert_eq!(names_in(&folder, "letters"), ["a.txt", "i.concord"]);
}

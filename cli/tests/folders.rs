//! Folders of letters: what becomes a word and a document, what is refused and where, and what the commands answer over small texts.
mod common;

use common::{Folder, Run};
use std::collections::HashMap;
use std::io::{BufRead, BufReader, Read};
use std::os::unix::fs::symlink;
use std::process::Stdio;

/// The letter table of the engine in hexadecimal digits, as its program prints it.
const TABLE: &str = include_str!("../../crates/letters/stdout");

/// A folder of a test with these letters in its folder `letters`.
fn letters<N: AsRef<str>, B: AsRef<[u8]>>(test: &str, letters: &[(N, B)]) -> Folder {
    let folder = Folder::new(test);
    letters.iter().for_each(|(name, bytes)| folder.write(&format!("letters/{}", name.as_ref()), bytes));
    folder
}

/// Indexes the folder `letters` with further arguments, as the file `i`.
fn index(folder: &Folder, further: &[&str]) -> Run {
    folder.run(&[&["index", "letters", "-o", "i"], further].concat())
}

/// A folder of a test with these letters, indexed.
fn indexed<N: AsRef<str>, B: AsRef<[u8]>>(test: &str, given: &[(N, B)]) -> Folder {
    let folder = letters(test, given);
    index(&folder, &[]).answer();
    folder
}

/// A folder of a test with one letter, indexed.
fn indexed_text(test: &str, text: impl AsRef<[u8]>) -> Folder {
    indexed(test, &[("a.txt", text)])
}

/// How often a phrase stands.
fn count(folder: &Folder, phrase: &str) -> usize {
    let run = folder.run(&["count", "i", phrase]);
    let number = std::str::from_utf8(&run.out).unwrap().split_whitespace().next().unwrap().parse().unwrap();
    assert_eq!(run.status, i32::from(number == 0), "{run:?}");
    number
}

/// The rows of a table that a command prints, without the headings.
fn rows(folder: &Folder, arguments: &[&str]) -> Vec<String> {
    let run = folder.run(&[arguments, &["--tsv"]].concat());
    run.answer().lines().skip(1).map(str::to_owned).collect()
}

/// The words of all letters, document by document.
fn texts(folder: &Folder) -> Vec<String> {
    rows(folder, &["text", "i"])
}

/// Asserts that indexing is refused at a place with these words, and that no index was written.
fn refused_at(folder: &Folder, further: &[&str], place: &str, words: &[&str]) {
    let run = index(folder, further);
    assert!(run.refusal().starts_with(&format!("{place}: ")), "{place}: {run:?}");
    run.refused_with(words);
    assert!(!folder.has("i"));
}

/// A letter table with some entries of its own, in hexadecimal digits.
fn table_with(entries: &[(u8, u8)]) -> String {
    let mut numbers: Vec<String> = TABLE.split_whitespace().map(str::to_owned).collect();
    assert_eq!(numbers.len(), 256);
    entries.iter().for_each(|&(byte, letter)| numbers[usize::from(byte)] = format!("{letter:02x}"));
    numbers.chunks(16).map(|line| line.join(" ") + "\n").collect()
}

/// A file without a word is no document, and a line says so.
#[test]
fn an_empty_file_is_left_out() {
    let folder = letters("empty", &[("a.txt", "one two"), ("b.txt", ""), ("c.txt", " -- \n"), ("d.txt", "two")]);
    let run = index(&folder, &[]);
    assert!(run.answer().starts_with("2 documents, 3 words, 2 different; "), "{run:?}");
    assert_eq!(run.err.lines().count(), 2, "{run:?}");
    for (line, name) in run.err.lines().zip(["letters/b.txt", "letters/c.txt"]) {
        assert!(line.starts_with(name) && line.contains("no word"), "{run:?}");
    }
    assert_eq!(rows(&folder, &["documents", "i", "two", "--all"]), ["1\ta", "1\td"]);
}

/// Letters without a word and a list are an empty text, of which everything can be asked; a word that the list has and no letter uses is named.
#[test]
fn an_empty_text_answers_everything() {
    let folder = letters("empty-text", &[("a.txt", " \u{2014} ... \n")]);
    folder.write("list", "sea\nsand\n");
    let run = index(&folder, &["--list", "list"]);
    assert_eq!(run.answer(), "0 documents, 0 words, 0 different; 0 node bytes\n");
    assert!(folder.run(&["check", "i"]).answer().contains("one text of 0 words"));
    assert_eq!(folder.run(&["count", "i", "sea"]).nothing(), "0   (no letter has the word \"sea\")\n");
    assert!(folder.run(&["list", "i", "sea sand"]).nothing().contains("\"sea\" or \"sand\""));
    assert!(folder.run(&["words", "i"]).nothing().starts_with("0 of 0 "));
    assert!(folder.run(&["documents", "i", "sea"]).nothing().contains("0  in 0 of 0 documents"));
    assert!(folder.run(&["neighbours", "i", "sea"]).nothing().starts_with("0 "));
    assert_eq!(folder.run(&["text", "i"]).nothing(), "");
}

/// Letters without a word are refused with [1], and nothing is written.
#[test]
fn letters_without_a_word_are_refused() {
    let folder = letters("wordless", &[("a.txt", " \u{2014} ... \n"), ("b.txt", "")]);
    index(&folder, &[]).refused_with(&["letters", "refused", "no word", "[1]"]);
    assert!(!folder.has("i"));
    let folder = letters("bare", &[(".hidden", "one")]);
    index(&folder, &[]).refused_with(&["letters", "refused", "no word", "[1]"]);
    assert!(!folder.has("i"));
}

/// A collection of one word answers everything.
#[test]
fn one_word_is_enough() {
    let folder = letters("one-word", &[("a.txt", "Word")]);
    assert_eq!(index(&folder, &[]).answer(), "1 document, 1 word, 1 different; 1 node byte\n");
    assert!(folder.run(&["check", "i"]).answer().contains("text of 1 word)"));
    assert_eq!(folder.run(&["count", "i", "word"]).answer(), "1\n");
    assert_eq!(rows(&folder, &["list", "i", "word"]), ["a\t0\t\tword\t"]);
    assert_eq!(rows(&folder, &["words", "i"]), ["1\tword"]);
    assert_eq!(rows(&folder, &["documents", "i", "word"]), ["1\ta"]);
    assert_eq!(rows(&folder, &["neighbours", "i", "word"]), ["(others)\t0\t0\t0\t0"]);
    assert_eq!(texts(&folder), ["a\tword"]);
    assert_eq!(count(&folder, "word word"), 0);
}

/// A file that is named instead of a folder is the only letter.
#[test]
fn one_file_may_be_indexed() {
    let folder = letters("one-file", &[("a.txt", "one"), ("b.txt", "two")]);
    folder.run(&["index", "letters/b.txt", "-o", "i"]).answer();
    assert_eq!(texts(&folder), ["b\ttwo"]);
}

/// CR LF and CR end lines as LF does: words end there, and lines are counted.
#[test]
fn all_line_ends_are_read() {
    let folder = indexed(
        "line-ends",
        &[("a", "one\r\ntwo\r\n\r\nthree"), ("b", "one\rtwo\r\rthree\r"), ("c", "one\ntwo\n\nthree\n")],
    );
    assert_eq!(texts(&folder), ["a\tone two three", "b\tone two three", "c\tone two three"]);
    for (ends, text) in
        [("crlf", "one\r\ntwo\r\n\r\nth\u{142}"), ("cr", "one\rtwo\r\rth\u{142}"), ("lf", "one\ntwo\n\nth\u{142}")]
    {
        let folder = letters(ends, &[("a.txt", text)]);
        refused_at(&folder, &[], "letters/a.txt:4:3", &["U+0142"]);
    }
}

/// A letter that ISO 8859-1 lacks stops the indexing, with the file, the line and the column, counted in characters.
#[test]
fn a_letter_outside_the_set_is_named_with_its_place() {
    for (test, text, place, number) in [
        ("polish", "Dzie\u{144}\n", "1:5", "U+0144"),
        ("behind", "\u{E9}t\u{E9} \u{201C}a\u{201D}\n\n\u{E9}\u{E9}\u{142}\u{F3}d\n", "3:3", "U+0142"),
        ("greek", "a\n\u{3BB}\u{3CC}\u{3B3}\u{3BF}\u{3C2}", "2:1", "U+03BB"),
        ("digit", "a \u{661}", "1:3", "U+0661"),
        ("ligature", "o\u{FB01}", "1:2", "U+FB01"),
    ] {
        let folder = letters(test, &[("a.txt", "fine"), ("b.txt", text), ("c.txt", "\u{142}")]);
        refused_at(&folder, &[], &format!("letters/b.txt:{place}"), &["ISO 8859-1", number, "--replace"]);
    }
}

/// Letters that ISO 8859-1 lacks are read as the file of replacements says, in either case, in letters and in phrases.
#[test]
fn letters_are_replaced_as_a_file_says() {
    let folder = letters(
        "replace",
        &[("a.txt", "C\u{153}ur de \u{141}\u{F3}d\u{17A}, c\u{153}ur!"), ("b.txt", "coeur o\u{152}uvre")],
    );
    folder.write("replace", "\u{153} oe\r\n\u{152}\tOE\n\n\u{141} L\n\u{17A} z");
    index(&folder, &["--replace", "replace"]).answer();
    assert_eq!(texts(&folder), ["a\tcoeur de l\u{F3}dz coeur", "b\tcoeur ooeuvre"]);
    assert_eq!(count(&folder, "c\u{153}ur"), 3);
    assert_eq!(count(&folder, "COEUR"), 3);
    assert_eq!(count(&folder, "\u{141}\u{F3}d\u{17A} C\u{152}UR"), 1);
    assert_eq!(count(&folder, "\u{142}\u{F3}d\u{179}"), 1);
    let absent = "0   (no letter has the word \"\u{144}\u{F3}dz\")\n";
    assert_eq!(folder.run(&["count", "i", "\u{144}\u{F3}dz"]).nothing(), absent);

    let folder = letters("replace-some", &[("a.txt", "c\u{153}ur\nde \u{141}\u{F3}d\u{17A}")]);
    folder.write("replace", "\u{153} oe\n");
    refused_at(&folder, &["--replace", "replace"], "letters/a.txt:2:4", &["U+0141"]);
    for (lines, line) in
        [("\u{153}oe", 1), ("\u{153} oe\na b", 2), ("\u{153} oe\n\n\u{153} o", 3), ("\u{436} \u{436}", 1)]
    {
        folder.write("replace", lines);
        refused_at(&folder, &["--replace", "replace"], &format!("replace:{line}"), &["a"]);
    }
    index(&folder, &["--replace", "nowhere"]).refused_with(&["nowhere", "No such file"]);
}

/// A file that is not UTF-8 is read as ISO 8859-1 with the signs of Windows-1252, whose letters that the first lacks are refused.
#[test]
fn what_is_not_utf_8_is_read_as_iso_8859_1() {
    let folder = letters(
        "latin",
        &[
            ("a.txt", &b"na\xEFve \x93\xC9t\xE9\x94 l\x92\xE9t\xE9 \x96 a\x85b \x81c\x9D"[..]),
            ("b.txt", b"na\xC3\xAFve"),
        ],
    );
    let run = index(&folder, &[]);
    assert!(run.err.contains("1 file") && run.err.contains("ISO 8859-1"), "{run:?}");
    assert_eq!(texts(&folder), ["a\tna\u{EF}ve \u{E9}t\u{E9} l \u{E9}t\u{E9} a b c", "b\tna\u{EF}ve"]);
    assert_eq!(count(&folder, "NA\u{CF}VE"), 2);
    let typed = folder.run(&[&b"count"[..], b"i", b"\xE9t\xE9"]);
    assert_eq!(typed.answer(), "2\n");

    let folder = letters("windows", &[("a.txt", b"\xE9t\xE9\r\nc\x9Cur")]);
    refused_at(&folder, &[], "letters/a.txt:2:2", &["\u{153}", "U+0153"]);
}

/// Quotes, dashes and other signs end words; the apostrophe does by the built-in table.
#[test]
fn typographic_signs_end_words() {
    let text = "\u{201C}one\u{201D}\u{2014}two\u{2013}three\u{2026}four \u{AB}five\u{BB} \u{201E}six\u{201C} l\u{2019}eau x\u{2011}y \u{2018}z\u{2019} 1\u{2044}2 \
                \u{20AC}5 n\u{B0}7 \u{1F600}eight a\u{A0}b a_b a\u{D7}b \u{BD}c";
    let folder = indexed_text("signs", text);
    assert_eq!(texts(&folder), ["a\tone two three four five six l eau x y z 1 2 5 n 7 eight a b a b a b c"]);
    assert_eq!(count(&folder, "l\u{2019}eau"), 1);
    assert_eq!(count(&folder, "l'eau"), 1);
    assert_eq!(count(&folder, "\u{201C}One\u{201D} \u{2014} two"), 1);
}

/// Soft hyphens and other signs that are not seen do not end words.
#[test]
fn soft_hyphens_are_dropped() {
    let folder =
        indexed("soft", &[("a.txt", "\u{FEFF}so\u{AD}wie co\u{200D}-\u{2060}operate"), ("b.txt", "sowie\u{AD}")]);
    assert_eq!(texts(&folder), ["a\tsowie co operate", "b\tsowie"]);
    assert_eq!(count(&folder, "so\u{AD}wie"), 2);
    assert_eq!(count(&folder, "sowie"), 2);
}

/// A base letter and a combining mark are the composed letter, and a mark with which there is none is refused.
#[test]
fn combining_marks_are_composed() {
    let folder = indexed_text(
        "marks",
        "e\u{301}te\u{301} \u{E9}t\u{E9} E\u{301}TE\u{301} A\u{30A}ngstro\u{308}m garc\u{327}on nin\u{303}o",
    );
    assert_eq!(
        texts(&folder),
        ["a\t\u{E9}t\u{E9} \u{E9}t\u{E9} \u{E9}t\u{E9} \u{E5}ngstr\u{F6}m gar\u{E7}on ni\u{F1}o"]
    );
    assert_eq!(count(&folder, "e\u{301}te\u{301}"), 3);
    assert_eq!(count(&folder, "\u{E9}t\u{E9}"), 3);
    assert_eq!(count(&folder, "ete"), 0);
    for (test, text, place) in
        [("macron", "a\nbx\u{304}", "2:3"), ("alone", "\u{301}a", "1:1"), ("twice", "e\u{301}\u{301}", "1:3")]
    {
        let folder = letters(test, &[("a.txt", "abc"), ("b.txt", text)]);
        refused_at(&folder, &[], &format!("letters/b.txt:{place}"), &["U+030"]);
    }
}

/// UTF-16 and a byte 00 are no plain text.
#[test]
fn what_is_no_plain_text_is_refused() {
    for (test, bytes) in [("utf-16le", &b"\xFF\xFEa\0b\0"[..]), ("utf-16be", b"\xFE\xFF\0a\0b")] {
        refused_at(&letters(test, &[("a.txt", bytes)]), &[], "letters/a.txt:1:1", &["UTF-16"]);
    }
    refused_at(&letters("zero", &[("a.txt", "ab\ncd\0ef")]), &[], "letters/a.txt:2:3", &["00"]);
    refused_at(&letters("zero-latin", &[("a.txt", b"\xE9\n\0")]), &[], "letters/a.txt:2:1", &["00"]);
}

/// Hidden files and folders are passed over, links to folders are not followed, and links to files are read.
#[test]
fn hidden_files_and_linked_folders_are_passed_over() {
    let folder = letters(
        "hidden",
        &[("a.txt", "one"), (".b.txt", "\u{142}"), (".git/c.txt", "\u{142}"), ("d/.e", "\0"), ("d/f", "two")],
    );
    symlink("../letters", folder.at("letters/around")).unwrap();
    symlink("a.txt", folder.at("letters/linked")).unwrap();
    index(&folder, &[]).answer();
    assert_eq!(texts(&folder), ["a\tone", "d/f\ttwo", "linked\tone"]);
}

/// Documents have their paths without `.txt` as names, those in sub-folders too, and are ordered by the bytes of the names.
#[test]
fn documents_are_ordered_and_named_by_their_paths() {
    let given = [
        ("a/b.txt", "five"),
        ("a.txt", "two"),
        ("a-b.txt", "four"),
        ("B.txt", "one"),
        ("a b", "three"),
        ("a/c/d.md", "six"),
        ("\u{E9}.txt", "seven"),
    ];
    let folder = indexed("paths", &given);
    let named = ["B\tone", "a\ttwo", "a b\tthree", "a-b\tfour", "a/b\tfive", "a/c/d.md\tsix", "\u{E9}\tseven"];
    assert_eq!(texts(&folder), named);
    assert_eq!(folder.run(&["text", "i", "--document", "a/c/d.md"]).answer(), "== a/c/d.md ==\nsix\n\n");
    assert_eq!(rows(&folder, &["text", "i", "--document", "\u{E9}"]), ["\u{E9}\tseven"]);
    folder.run(&["text", "i", "--document", "a/c/d"]).refused_with(&["a/c/d", "refused", "no document"]);
}

/// Where two files would have the same name all keep their whole names.
#[test]
fn names_that_would_be_the_same_are_whole() {
    let given = [("a", "one"), ("a.txt", "two"), ("a.txt.txt", "three"), ("b.txt", "four")];
    let folder = indexed("same-names", &given);
    assert_eq!(texts(&folder), ["a\tone", "a.txt\ttwo", "a.txt.txt\tthree", "b.txt\tfour"]);
    folder.run(&["text", "i", "-o", "again"]).answer();
    assert_eq!(folder.read("again/a.txt.txt.txt"), b"three\n");
}

/// A text whose documents cannot all be files of one folder is not written, in part either.
#[test]
fn a_file_in_the_way_of_a_folder_is_refused() {
    let folder = indexed("in-the-way", &[("a", "one"), ("a.txt/b", "two")]);
    folder.run(&["text", "i", "-o", "again"]).refused_with(&["a.txt", "refused"]);
    assert!(!folder.has("again"));
    folder.run(&["text", "i", "--document", "a.txt/b", "-o", "again"]).answer();
    assert_eq!(folder.read("again/a.txt/b.txt"), b"two\n");
}

/// A letter that begins with the word that an index begins with is a letter.
#[test]
fn a_letter_may_begin_as_an_index_does() {
    let folder = indexed_text("concord", "concord\nand discord, in one letter");
    assert_eq!(texts(&folder), ["a\tconcord and discord in one letter"]);
    folder.run(&["index", "letters", "-o", "letters/a.txt"]).refused_with(&["refused", "no index"]);
    assert!(folder.read("letters/a.txt").starts_with(b"concord\nand"));
}

/// A control character in the name of a file is refused.
#[test]
fn a_control_character_in_a_name_is_refused() {
    let folder = letters("control", &[("a\tb.txt", "one")]);
    index(&folder, &[]).refused_with(&["refused", "control character"]);
    assert!(!folder.has("i"));
}

/// A phrase stands inside one document, and contexts end where the document does.
#[test]
fn documents_bound_phrases_and_contexts() {
    let folder = indexed("bounds", &[("a.txt", "one two three"), ("b.txt", "four one two"), ("c.txt", "three")]);
    assert_eq!(count(&folder, "one two"), 2);
    assert_eq!(count(&folder, "two three"), 1);
    assert_eq!(count(&folder, "three four"), 0);
    assert_eq!(rows(&folder, &["list", "i", "two"]), ["a\t1\tone\ttwo\tthree", "b\t5\tfour one\ttwo\t"]);
    assert_eq!(
        rows(&folder, &["list", "i", "one two", "-w", "1"]),
        ["a\t0\t\tone two\tthree", "b\t4\tfour\tone two\t"]
    );
    assert_eq!(
        folder.run(&["list", "i", "two", "-w", "0"]).answer(),
        " a 1   [two]\n b 5   [two]\nlines 1 to 2 of 2\n"
    );
    assert_eq!(
        folder.run(&["documents", "i", "two", "--all"]).answer(),
        "     1  a\n     1  b\n     0  c\n     2  in 2 of 3 documents\n"
    );
}

/// A phrase of 16 words is answered, and one of 17 is refused with [8].
#[test]
fn a_phrase_has_up_to_sixteen_words() {
    let words: Vec<String> = (0..20).map(|word| format!("w{word}")).collect();
    let folder = indexed_text("sixteen", words.join(" "));
    let (sixteen, seventeen) = (words[2..18].join(" "), words[2..19].join(" "));
    for command in ["count", "list", "documents"] {
        folder.run(&[command, "i", &sixteen]).answer();
        folder.run(&[command, "i", &seventeen]).refused_with(&["refused", "[8]"]);
    }
    assert_eq!(count(&folder, &sixteen), 1);
    folder.run(&["documents", "i", ""]).refused_with(&["refused", "[8]"]);
    folder.run(&["documents", "i", "--", "-- !"]).refused_with(&["refused", "[8]"]);
}

/// A phrase with words that are in no letter, or that have letters which the set lacks, counts 0 and names these.
#[test]
fn absent_words_are_named() {
    let folder = indexed_text("absent", "the sand and the sea");
    for (phrase, words) in [
        ("sandd", &["\"sandd\""][..]),
        ("the Sandd and the seaa", &["\"Sandd\"", "\"seaa\""]),
        ("the s\u{144}nd", &["\"s\u{144}nd\""]),
        ("\u{65E5}\u{672C}", &["\"\u{65E5}\u{672C}\""]),
        ("the x\u{304}", &["\"x\u{304}\""]),
    ] {
        for command in ["count", "list", "documents"] {
            let run = folder.run(&[command, "i", phrase]);
            let line = run.nothing();
            assert!(line.trim_start().starts_with('0') && line.lines().count() == 1, "{run:?}");
            words.iter().for_each(|word| assert!(line.contains(word), "{word}: {run:?}"));
        }
    }
    assert!(folder.run(&["neighbours", "i", "sandd"]).nothing().contains("\"sandd\""));
    assert_eq!(folder.run(&["count", "i", "sea sand"]).nothing(), "0\n");
    assert_eq!(folder.run(&["documents", "i", "sea sand", "--tsv"]).nothing(), "count\tdocument\n");
}

/// The sign of open words is refused.
#[test]
fn the_sign_of_open_words_is_refused() {
    let folder = indexed_text("star", "the sand and the sea");
    for command in ["count", "list", "documents", "neighbours"] {
        folder.run(&[command, "i", "s*"]).refused_with(&["refused", "*"]);
    }
}

/// Words and their order are taken from a list, with any line ends, and words that no letter has may be in it.
#[test]
fn a_word_list_is_taken() {
    let folder = letters("list", &[("a.txt", "The sand and the \u{C9}t\u{E9}")]);
    index(&folder, &[]).answer();
    let made = folder.read("i");
    folder.write("list", "the\nsand\nand\n\u{E9}t\u{E9}\n");
    index(&folder, &["--list", "list"]).answer();
    assert_eq!(folder.read("i"), made);
    for list in [
        "\u{E9}t\u{E9}\nof\nsand\nthe\nand\n",
        "\u{FEFF}\u{E9}t\u{E9}\r\nof\r\nsand\r\nthe\r\nand\r\n",
        "\u{E9}t\u{E9}\nof\nsand\nthe\nand",
        "\u{E9}t\u{E9}\rof\rsand\rthe\rand\r",
    ] {
        folder.write("list", list);
        assert!(index(&folder, &["--list", "list"]).answer().starts_with("1 document, 5 words, 4 different; "));
        assert_eq!(rows(&folder, &["words", "i", "--all"]), ["2\tthe", "1\t\u{E9}t\u{E9}", "1\tsand", "1\tand"]);
        assert_eq!(folder.run(&["count", "i", "of"]).nothing(), "0   (no letter has the word \"of\")\n");
    }
}

/// A list that breaks a rule is refused with its line, and a word that it lacks with the place of the word.
#[test]
fn a_word_list_that_breaks_a_rule_is_refused() {
    let folder = letters("bad-list", &[("a.txt", "\u{FEFF}The\u{AD} sand\r\n\u{201C}and\u{201D} the sea\n")]);
    for (list, place, number) in [
        ("the\nsand\nand\nthe\nsea\n", "list:4", "[13]"),
        ("the\n\nsand\nand\nsea\n", "list:2", "[13]"),
        ("the\r\n\r\nsand\r\nand\r\nsea\r\n", "list:2", "[13]"),
        ("the\nsand\nAnd\nsea\n", "list:3", "[13]"),
        ("the\nsand\nand\nse-a\nsea\n", "list:4", "[13]"),
        ("the\nsand\nand\nsea \n", "list:4", "[13]"),
        ("the\nsand\nand\ns\u{142}a\n", "list:4:2", "U+0142"),
        ("the\nsand\nand\n", "letters/a.txt:2:11", "[14]"),
        ("the\nsand\nsea\n", "letters/a.txt:2:2", "[14]"),
    ] {
        folder.write("list", list);
        refused_at(&folder, &["--list", "list"], place, &[number]);
    }
    folder.write("list", "the\nsand\nand\n");
    index(&folder, &["--list", "list"]).refused_with(&["\"sea\""]);
    folder.write("list", "");
    index(&folder, &["--list", "list"]).refused_with(&["list", "refused", "[1]"]);
    index(&folder, &["--list", "nowhere"]).refused_with(&["nowhere", "No such file"]);
}

/// With the apostrophe as a letter of the table a word has it, in its typewriter and in its typographic form.
#[test]
fn a_letter_table_is_taken() {
    let folder = letters("table", &[("a.txt", "Don't go; don\u{2019}t! 'tis")]);
    index(&folder, &[]).answer();
    assert_eq!(rows(&folder, &["words", "i"]), ["2\tdon", "2\tt", "1\tgo", "1\ttis"]);
    let hexadecimal = table_with(&[(b'\'', b'\'')]);
    let bytes: Vec<u8> = hexadecimal.split_whitespace().map(|number| u8::from_str_radix(number, 16).unwrap()).collect();
    for table in [hexadecimal.into_bytes(), bytes] {
        folder.write("table", table);
        index(&folder, &["--letters", "table"]).answer();
        assert_eq!(rows(&folder, &["words", "i"]), ["2\tdon't", "1\tgo", "1\t'tis"]);
        for typed in ["don't", "don\u{2019}t", "DON'T"] {
            assert_eq!(count(&folder, typed), 2);
        }
        assert_eq!(count(&folder, "don"), 0);
    }
}

/// With apostrophe and hyphen as letters of the table their typographic forms are the same letters; dashes are none.
#[test]
fn apostrophes_and_hyphens_have_one_form() {
    let text =
        "l'eau l\u{2019}eau l\u{2018}eau l\u{201B}eau l\u{2BC}eau x-y x\u{2010}y x\u{2011}y x\u{2013}y x\u{2014}y";
    let folder = letters("forms", &[("a.txt", text)]);
    folder.write("table", table_with(&[(b'\'', b'\''), (b'-', b'-')]));
    index(&folder, &["--letters", "table"]).answer();
    assert_eq!(rows(&folder, &["words", "i"]), ["5\tl'eau", "3\tx-y", "2\tx", "2\ty"]);
    assert_eq!(count(&folder, "l\u{201B}eau x\u{2011}y"), 1);
}

/// A letter table that breaks a rule is refused with [18].
#[test]
fn a_broken_letter_table_is_refused() {
    let folder = letters("bad-table", &[("a.txt", "one")]);
    let zeros = "00 ".repeat(256);
    for table in [
        table_with(&[(b'\n', b'a')]),
        table_with(&[(b'a', b'A')]),
        table_with(&[(b'\'', b'-')]),
        zeros,
        TABLE.replacen("30 ", "", 1),
        format!("{TABLE} 00"),
        TABLE.replacen("30 ", "3g ", 1),
        TABLE.replacen("30 ", "130 ", 1),
        String::new(),
    ] {
        folder.write("table", table);
        index(&folder, &["--letters", "table"]).refused_with(&["table", "refused", "[18]"]);
        assert!(!folder.has("i"));
    }
    index(&folder, &["--letters", "nowhere"]).refused_with(&["nowhere", "No such file"]);
}

/// With --raw bytes are taken and printed as they are, in a set of one's own.
#[test]
fn raw_bytes_stay_as_they_are() {
    let kept: Vec<(u8, u8)> = (0x80..=0xFF).map(|byte| (byte, byte)).chain([(0xD7, 0x80)]).collect();
    let folder = letters("raw", &[("a.txt", &b"\xD7\x80a \xFEB,\x80\xF7 \xFF"[..]), ("b.txt", b"\x80\x80A\0\xFF\xFE")]);
    folder.write("table", table_with(&kept));
    index(&folder, &["--raw", "--letters", "table"]).answer();
    let words = folder.run(&["words", "i", "--tsv"]);
    assert_eq!(words.out, b"count\tword\n2\t\x80\x80a\n1\t\xFEb\n1\t\x80\xF7\n1\t\xFF\n1\t\xFF\xFE\n");
    for (phrase, found) in [(&b"\x80\x80a"[..], &b"2\n"[..]), (b"\xD7\x80A \xFEb", b"1\n"), (b"\x80\xF7 \xFF", b"1\n")]
    {
        let counted = folder.run(&[&b"count"[..], b"i", phrase]);
        assert_eq!((counted.status, &counted.out[..]), (0, found));
    }
    let listed = folder.run(&[&b"list"[..], b"i", b"\x80\xF7", b"--tsv"]);
    assert_eq!(listed.out, b"document\tplace\tleft\thit\tright\na\t2\t\x80\x80a \xFEb\t\x80\xF7\t\xFF\n");
    assert_eq!(
        folder.run(&["text", "i", "--tsv"]).out,
        b"document\ttext\na\t\x80\x80a \xFEb \x80\xF7 \xFF\nb\t\x80\x80a \xFF\xFE\n"
    );
    assert_eq!(folder.run(&[&b"count"[..], b"i", b"\xFD"]).status, 1);

    assert_eq!(index(&folder, &["--raw"]).status, 2);
    assert_eq!(index(&folder, &["--raw", "--letters", "table", "--replace", "table"]).status, 2);
}

/// The room for words is tried: too small with [4], outside its limits with [1].
#[test]
fn room_for_too_few_words_is_refused() {
    let folder = letters("room", &[("a.txt", "one two three one")]);
    for (room, number) in [("2", "[4]"), ("1", "[4]"), ("0", "[1]"), ("2113665", "[1]")] {
        index(&folder, &["--room", room]).refused_with(&["refused", number]);
        assert!(!folder.has("i"));
    }
    for room in ["3", "4", "128", "129", "2113664"] {
        index(&folder, &["--room", room]).answer();
        assert_eq!(rows(&folder, &["words", "i"]), ["2\tone", "1\ttwo", "1\tthree"]);
    }
}

/// Going from page to page by what each page says gives every line once and in order.
#[test]
fn the_pages_of_a_listing_are_the_whole_listing() {
    let text: String =
        (0..200).map(|place| if place * place % 7 < 3 { "yes ".to_owned() } else { format!("w{place} ") }).collect();
    let (front, back) = text.split_at(text.len() / 2);
    let folder = indexed("pages", &[("a.txt", front), ("b.txt", back)]);
    let all = rows(&folder, &["list", "i", "yes", "-n", "1000"]);
    assert_eq!(all.len(), count(&folder, "yes"));
    let places: Vec<usize> = all.iter().map(|row| row.split('\t').nth(1).unwrap().parse().unwrap()).collect();
    assert!(places.windows(2).all(|pair| pair[0] < pair[1]));
    assert_eq!(places.len(), text.split_whitespace().filter(|word| *word == "yes").count());

    for lines in ["1", "7", "20", "86"] {
        let (mut next, mut found) = ("0".to_owned(), Vec::new());
        loop {
            let page = folder.run(&["list", "i", "yes", "-n", lines, "--next", &next, "--tsv"]);
            let first = found.len() + 1;
            found.extend(page.answer().lines().skip(1).map(str::to_owned));
            let numbers = match found.len() {
                last if last == first => format!("line {first} of {}", all.len()),
                last => format!("lines {first} to {last} of {}", all.len()),
            };
            assert!(page.err.starts_with(&numbers), "{numbers}: {page:?}");
            let Some((_, after)) = page.err.trim_end().split_once("--next ") else { break };
            assert_eq!(found.len() + 1 - first, lines.parse().unwrap());
            next = after.to_owned();
        }
        assert_eq!(found, all);
    }

    let page = folder.run(&["list", "i", "yes"]);
    assert_eq!(page.answer().lines().count(), 21);
    let last = page.answer().lines().last().unwrap();
    assert!(last.starts_with(&format!("lines 1 to 20 of {}; next page: --next ", all.len())), "{last}");
}

/// A page of no lines is refused with [12], and one that would begin behind the end of the text with [11].
#[test]
fn pages_outside_the_text_are_refused() {
    let folder = indexed_text("outside", "one two one");
    folder.run(&["list", "i", "one", "-n", "0"]).refused_with(&["refused", "[12]"]);
    folder.run(&["list", "i", "absent", "-n", "0"]).refused_with(&["refused", "[12]"]);
    for place in ["4", "18446744073709551615"] {
        folder.run(&["list", "i", "one", "--next", place]).refused_with(&["refused", "[11]"]);
    }
    let end = folder.run(&["list", "i", "one", "--next", "3"]);
    assert!(end.nothing().contains("no line of 2"), "{end:?}");
    assert_eq!(folder.run(&["list", "i", "one", "--next", "2", "--sort", "left"]).status, 2);
}

/// Lines are sorted by the words on one side from the nearest on, as dictionaries do, a side that ends first before all others.
#[test]
fn lines_are_sorted_by_a_side() {
    let folder = indexed(
        "sort",
        &[
            ("a.txt", "red rose fell, old rose bent. Red rose bent"),
            ("b.txt", "rose; \u{E9}t\u{E9} rose fell ete rose Zoo etage rose"),
        ],
    );
    let sorted = |further: &[&str]| -> Vec<String> {
        let rows = rows(&folder, &[&["list", "i", "rose"], further].concat());
        rows.iter().map(|row| row.split('\t').skip(1).collect::<Vec<_>>().join("|").replace("|rose|", "[]")).collect()
    };
    assert_eq!(
        sorted(&["--sort", "right", "-w", "1"]),
        [
            "17|etage[]",
            "4|old[]bent",
            "7|red[]bent",
            "9|[]\u{E9}t\u{E9}",
            "1|red[]fell",
            "11|\u{E9}t\u{E9}[]fell",
            "14|ete[]zoo"
        ]
    );
    assert_eq!(
        sorted(&["--sort", "right", "-w", "2"]),
        [
            "17|zoo etage[]",
            "7|bent red[]bent",
            "4|fell old[]bent red",
            "9|[]\u{E9}t\u{E9} rose",
            "11|rose \u{E9}t\u{E9}[]fell ete",
            "1|red[]fell old",
            "14|fell ete[]zoo etage"
        ]
    );
    assert_eq!(
        sorted(&["--sort", "left", "-w", "2"]),
        [
            "9|[]\u{E9}t\u{E9} rose",
            "17|zoo etage[]",
            "14|fell ete[]zoo etage",
            "11|rose \u{E9}t\u{E9}[]fell ete",
            "4|fell old[]bent red",
            "1|red[]fell old",
            "7|bent red[]bent"
        ]
    );
    let whole = sorted(&["--sort", "left", "-w", "1000"]);
    assert_eq!(whole[2], "14|rose \u{E9}t\u{E9} rose fell ete[]zoo etage rose");
    assert_eq!(sorted(&["--sort", "left", "-w", "18446744073709551615"]), whole);
    assert_eq!(sorted(&["--sort", "left", "-w", "1", "-n", "2"]), ["9|[]\u{E9}t\u{E9}", "17|etage[]"]);
    assert_eq!(sorted(&["--sort", "left", "-w", "0"]), ["1|[]", "4|[]", "7|[]", "9|[]", "11|[]", "14|[]", "17|[]"]);
}

/// Neighbours are counted by their distance inside a document; a span above 16 is refused with [10], and so is what is not one word.
#[test]
fn neighbours_are_counted_by_distance() {
    let folder = indexed("neighbours", &[("a.txt", "a b a c a b"), ("b.txt", "b a b b")]);
    let run = folder.run(&["neighbours", "i", "a", "--tsv"]);
    assert_eq!(
        run.answer(),
        "word\t-2\t-1\t+1\t+2\nb\t0\t2\t3\t1\na\t2\t0\t0\t2\nc\t0\t1\t1\t0\n(others)\t0\t0\t0\t0\n"
    );
    assert_eq!(rows(&folder, &["neighbours", "i", "a", "-n", "1"]), ["b\t0\t2\t3\t1", "(others)\t2\t1\t1\t2"]);
    assert_eq!(rows(&folder, &["neighbours", "i", "B", "--span", "1"]), ["a\t3\t2", "b\t1\t1", "(others)\t0\t0"]);
    assert_eq!(rows(&folder, &["neighbours", "i", "c", "--span", "16"])[0].split('\t').count(), 33);
    folder.run(&["neighbours", "i", "a", "--span", "17"]).refused_with(&["refused", "[10]"]);
    for span in ["0", "2147483648", "4294967295", "4294967297", "18446744073709551615"] {
        let run = folder.run(&["neighbours", "i", "a", "--span", span]);
        assert!(run.status == 2 && run.out.is_empty() && run.err.contains("--span"), "{run:?}");
    }
    for word in ["a b", "", "!"] {
        folder.run(&["neighbours", "i", word]).refused_with(&["refused", "one word"]);
    }
}

/// The words that are written into a folder and indexed again give the same file, byte for byte.
#[test]
fn the_written_text_has_the_same_index() {
    let long = "The \u{C9}t\u{E9} of seventy-eight letters and blanks ends no word; it goes on. ".repeat(20);
    let given = [("b/c.txt", "One\u{2019}s own"), ("a", &long), ("a-b", "between"), ("z.txt", "wo\u{AD}rd")];
    let folder = indexed("written", &given);
    folder.run(&["text", "i", "-o", "again"]).answer();
    assert!(String::from_utf8(folder.read("again/a.txt")).unwrap().lines().all(|line| line.chars().count() <= 78));
    folder.run(&["index", "again", "-o", "j"]).answer();
    assert_eq!(folder.read("i"), folder.read("j"));

    folder.write("again/a.txt", "kept");
    folder.run(&["text", "i", "-o", "again"]).refused_with(&["again", "exists"]);
    assert_eq!(folder.read("again/a.txt"), b"kept");
    folder.run(&["text", "i", "--document", "b/c", "-o", "part"]).answer();
    assert_eq!(folder.read("part/b/c.txt"), b"one s own\n");
    assert!(!folder.has("part/a.txt"));

    let folder = letters("written-own", &[("a.txt", "don\u{2019}t c\u{153}ur"), ("b.txt", "go")]);
    folder.write("table", table_with(&[(b'\'', b'\'')]));
    folder.write("replace", "\u{153} oe\n");
    let own = ["--letters", "table", "--replace", "replace", "--room", "9"];
    index(&folder, &own).answer();
    folder.run(&["text", "i", "-o", "again"]).answer();
    folder.run(&[&["index", "again", "-o", "j"], &own[..]].concat()).answer();
    assert_eq!(folder.read("i"), folder.read("j"));
}

/// Every number of the table is explained, and no other.
#[test]
fn every_number_is_explained() {
    let folder = Folder::new("explain");
    let all = folder.run(&["explain"]);
    for number in 1..=19 {
        let run = folder.run(&["explain", &number.to_string()]);
        assert!(run.answer().starts_with(&format!("[{number}] ")), "{run:?}");
        assert!(run.answer().lines().count() >= 2 && all.answer().contains(run.answer()), "{run:?}");
    }
    for number in ["0", "20", "99", "4294967295"] {
        folder.run(&["explain", number]).refused_with(&[number]);
    }
}

/// The completions of a shell are printed, and a command that is none is refused.
#[test]
fn completions_are_printed() {
    let folder = Folder::new("completions");
    for shell in ["bash", "zsh", "fish"] {
        let run = folder.run(&["completions", shell]);
        assert!(["concord", "neighbours", "--letters"]
            .iter()
            .all(|word| run.answer().contains(word.trim_start_matches('-'))));
    }
    for arguments in [&["completions", "nosuchshell"][..], &["nosuchcommand"], &["count"], &["count", "i"]] {
        let run = folder.run(arguments);
        assert!(run.status == 2 && run.out.is_empty() && !run.err.is_empty(), "{run:?}");
    }
    assert!(folder.run(&["--help"]).answer().contains("index"));
    assert!(folder.run(&["--version"]).answer().starts_with("concord "));
}

/// A text of so many words in capitals, drawn from so many different ones, the first of these most often; and its words with their counts in the order
/// that a list has: the most frequent first, and equally frequent ones by their first appearance.
fn many_words(words: usize, different: u64) -> (String, Vec<(usize, String)>) {
    let mut state = 1u64;
    let mut draw = || {
        state = state.wrapping_mul(6364136223846793005).wrapping_add(1442695040888963407);
        state >> 33
    };
    let mut text = String::new();
    let mut counts: HashMap<String, (usize, usize)> = HashMap::new();
    for place in 0..words {
        let below = draw() % different + 1;
        let word = format!("w{:x}", draw() % below);
        text += &word.to_uppercase();
        text.push(if place % 11 == 10 { '\n' } else { ' ' });
        counts.entry(word).or_insert((0, place)).0 += 1;
    }
    let mut order: Vec<(usize, usize, String)> =
        counts.into_iter().map(|(word, (count, first))| (count, first, word)).collect();
    order.sort_by_key(|&(count, first, _)| (usize::MAX - count, first));
    (text, order.into_iter().map(|(count, _, word)| (count, word)).collect())
}

/// The word list in an index file.
fn list_of(file: &[u8]) -> String {
    let number = |at: usize| u64::from_le_bytes(file[at..at + 8].try_into().unwrap()) as usize;
    let (offset, length) = (number(64 + 24 * 4), number(64 + 24 * 4 + 8));
    String::from_utf8(file[offset..offset + length].to_vec()).unwrap()
}

/// The list of a text has the most frequent word first and equal ones by first appearance, also of one that has too many bytes or words for the engine.
#[test]
fn the_list_is_ordered_whoever_makes_it() {
    for (test, words, different, long, many) in [
        ("short-few", 8_000, 300, false, false),
        ("short-many", 12_000, 16_000, false, true),
        ("long-few", 30_000, 2_000, true, false),
        ("long-many", 60_000, 9_000, true, true),
    ] {
        let (text, order) = many_words(words, different);
        assert_eq!((text.len() > 65_536, order.len() > 4_096), (long, many), "{test}: {} {}", text.len(), order.len());
        let lines: Vec<&str> = text.split_inclusive('\n').collect();
        let parts: Vec<(String, String)> =
            lines.chunks(400).enumerate().map(|(at, part)| (format!("{at:04}.txt"), part.concat())).collect();
        let folder = letters(test, &parts);
        let made = index(&folder, &[]);
        assert!(
            made.answer().starts_with(&format!(
                "{} documents, {words} words, {} different; ",
                parts.len(),
                order.len()
            )),
            "{made:?}"
        );
        let listed: Vec<String> = order.iter().map(|(count, word)| format!("{count}\t{word}")).collect();
        assert_eq!(rows(&folder, &["words", "i", "--all"]), listed, "{test}");
        assert_eq!(list_of(&folder.read("i")), order.iter().map(|(_, word)| format!("{word}\n")).collect::<String>());
        let (count, word) = &order[0];
        assert_eq!(folder.run(&["count", "i", word]).answer(), format!("{count}\n"));
        assert_eq!(folder.run(&["words", "i", "-n", "3"]).answer().lines().count(), 4);
    }
}

/// A reader that closes the output early ends the command without a word.
#[test]
fn a_closed_output_ends_a_command() {
    let folder = indexed_text("closed", many_words(40_000, 20_000).0);
    for arguments in [
        &["words", "i", "--all"][..],
        &["words", "i", "--all", "--tsv"],
        &["text", "i"],
        &["list", "i", "", "-n", "40000", "--tsv"],
    ] {
        let mut child = folder.command(arguments).stdout(Stdio::piped()).stderr(Stdio::piped()).spawn().unwrap();
        let mut line = String::new();
        BufReader::with_capacity(64, child.stdout.take().unwrap()).read_line(&mut line).unwrap();
        assert!(!line.is_empty());
        let mut err = String::new();
        child.stderr.take().unwrap().read_to_string(&mut err).unwrap();
        let status = child.wait().unwrap();
        assert_eq!((status.code(), &err[..]), (Some(141), ""), "{arguments:?}: {status}");
    }
}

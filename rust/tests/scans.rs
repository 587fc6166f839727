//! The scan of a block for an occurrence of a byte: the cases of the program `scan_cases`, and what the entries find with blocks about as long as the
//! pieces that a scan counts, against the reference.
mod support;
use concordance::{entries, Listing, Question, Shape};
use std::collections::BTreeSet;
use support::random::Random;
use support::reference;

/// A file of the program `scan_cases`.
fn stored(name: &str) -> String {
    let file = format!("{}/../crates/scan_cases/{name}", env!("CARGO_MANIFEST_DIR"));
    std::fs::read_to_string(&file).unwrap_or_else(|error| panic!("{file}: {error}"))
}

/// A number of a line: decimal, or hexadecimal behind an x.
fn number(field: &str) -> u64 {
    let parsed = match field.strip_prefix('x') {
        Some(digits) => u64::from_str_radix(digits, 16),
        None => field.parse(),
    };
    parsed.unwrap_or_else(|error| panic!("{field}: {error}"))
}

/// Bytes drawn from so many values.
fn drawn(size: u64, values: u64, seed: u64) -> Vec<u8> {
    let mut state = seed;
    let mut byte = || {
        state = state % (1 << 31) * 1_103_515_245 + 12_345;
        (state / 65_536 % values) as u8
    };
    (0..size).map(|_| byte()).collect()
}

/// What `scan_cases` prints for its input, by the reference.
fn printed(input: &str) -> String {
    let mut output = String::new();
    let mut block = Vec::new();
    for line in input.lines() {
        output += line;
        let mut fields = line.split(' ');
        let name = fields.next();
        let numbers = || fields.map(number).collect::<Vec<u64>>();
        match name {
            Some("#") => {}
            Some("block") => {
                block = numbers().chunks(2).flat_map(|pair| vec![pair[0] as u8; pair[1] as usize]).collect();
                block.truncate(2_048);
            }
            Some("drawn") => {
                let numbers = numbers();
                block = drawn(numbers[0], numbers[1], numbers[2]);
            }
            Some("scan") => {
                let numbers = numbers();
                output += &match reference::scan(&block, numbers[0] as u8, numbers[1] as usize) {
                    (Some(at), read) => format!(": at {at}, {read} read"),
                    (None, read) => format!(": none, {read} read"),
                };
            }
            Some("each") => {
                let byte = numbers()[0] as u8;
                let count = block.iter().filter(|&&here| here == byte).count();
                output += ":";
                for j in 0..=count + 1 {
                    output += &match reference::scan(&block, byte, j) {
                        (Some(at), read) => format!(" {at}/{read}"),
                        (None, read) => format!(" -/{read}"),
                    };
                }
            }
            _ => panic!("{line}"),
        }
        output += "\n";
    }
    output
}

/// What the program `scan_cases` prints, and the gate compares with its run, is what the reference finds.
#[test]
fn stored_cases() {
    let (input, output) = (stored("stdin"), stored("stdout"));
    assert!(input.lines().all(|line| line.len() <= 200));
    let printed = printed(&input);
    for (stored, line) in output.lines().zip(printed.lines()) {
        assert_eq!(stored, line);
    }
    assert!(output == printed, "{} bytes are stored, {} printed", output.len(), printed.len());
}

/// The block lengths that are tried: about those of the pieces that a scan counts, and longer ones.
const BLOCKS: [usize; 20] = [1, 2, 7, 8, 9, 15, 16, 17, 63, 64, 65, 80, 127, 128, 129, 200, 256, 512, 848, 1024];

/// A vocabulary with words of one, two and three bytes.
const VOCABULARY: usize = 16_700;

/// Compares with the reference each occurrence of each word of a text, number 0 and one past the last, which are refused, counts of phrases and of
/// neighbours that stand in it, and pages from places about the ends of the blocks.
fn compare(block: usize, per_superblock: usize, text: &[u32]) {
    let shape = Shape { vocabulary: VOCABULARY, block, per_superblock };
    let arrays = reference::index(shape, text);
    let often = |phrase: &[u32]| [0, reference::places(text, phrase).len() as u32];
    let (mut questions, mut expected) = (Vec::new(), Vec::new());
    for word in text.iter().copied().collect::<BTreeSet<u32>>() {
        let places = reference::places(text, &[word]);
        questions.extend((0..=places.len() + 1).map(|p| Question::place_of(word, p)));
        let found = places.iter().map(|&place| [0, place as u32]);
        expected.extend([[11, 0]].into_iter().chain(found).chain([[11, 0]]));
    }
    let starts = [0, block - 1, block, text.len() / 2, text.len() - 3];
    for start in starts.into_iter().filter(|start| start + 3 <= text.len()) {
        let (word, next) = (text[start], text[start + 1]);
        questions.extend((1..=3).map(|length| Question::phrase(start, length)));
        questions.extend([Question::neighbours(word, next, 1), Question::neighbours(next, word, -1)]);
        expected.extend([1, 2, 3, 2, 2].map(|length| often(&text[start..start + length])));
    }
    let mut pairs = vec![0x5555_5555; 2 * questions.len()];
    let answer = entries::answer_sheet(shape, arrays.slices(), text, &questions, &mut pairs);
    assert_eq!(answer, reference::accepted(pairs.len()), "{shape:?}, {text:?}");
    for ((question, pair), expected) in questions.iter().zip(pairs.chunks(2)).zip(expected) {
        assert_eq!(pair, expected, "{question:?}, {shape:?}, {text:?}");
    }

    for next in [0, block, 2 * block - 1].into_iter().filter(|&next| next <= text.len()) {
        for (start, length) in [(0, 1), (text.len() / 2, 1), (text.len() - 3, 2)] {
            let state = Listing { next, finished: false };
            let (mut ours, mut theirs) = ([0x7777_7777; 20], [0x7777_7777; 20]);
            let got = entries::list(state, shape, arrays.slices(), text, start, length, &mut ours);
            let expected = reference::page(state, shape, &arrays, text, start, length, &mut theirs);
            assert_eq!((got, ours), (expected, theirs), "{state:?}, {start}, {length}, {shape:?}, {text:?}");
        }
    }
}

/// Compares texts that are made for each block length, in superblocks of one block, of few and of many.
fn compare_all(texts: impl Fn(usize) -> Vec<Vec<u32>>) {
    for block in BLOCKS {
        for text in texts(block) {
            for per_superblock in [1, 3, 20] {
                compare(block, per_superblock, &text);
            }
        }
    }
}

/// Long runs of one byte in the root, about as long as a block and as the pieces, of some words in turn: they differ in their first byte, in their
/// second or in their third, or are one word alone.
#[test]
fn long_runs() {
    let words = [&[5, 90][..], &[128, 5, 129], &[16_512, 128, 16_513], &[16_640, 16_512], &[5], &[200], &[16_699]];
    compare_all(|block| {
        let lengths = [block, 64, 1, 8, block - 1, 63, 9, block + 1, 65, 7, 80];
        let text = |turn: &[u32]| -> Vec<u32> {
            lengths.into_iter().zip(turn.iter().cycle()).flat_map(|(length, &word)| vec![word; length]).collect()
        };
        words.map(text).to_vec()
    });
}

/// A word at each second, eighth, ninth or seventeenth place, and another between, which begins with the same byte or not.
#[test]
fn alternating_words() {
    let words = [(2, 5, 90), (2, 128, 129), (8, 5, 90), (9, 128, 0), (17, 127, 128), (17, 16_512, 128)];
    compare_all(|block| {
        let text = |(period, word, other)| -> Vec<u32> {
            (0..2 * block + 70).map(|place| if place % period == 0 { word } else { other }).collect()
        };
        words.map(text).to_vec()
    });
}

/// One occurrence at the first or at the last byte of a block, also of the last block, which has all its bytes or few, in the root and in nodes that
/// begin with a block.
#[test]
fn single_occurrences() {
    compare_all(|block| {
        let (whole, cut) = (3 * block, 2 * block + 10);
        let mut texts = Vec::new();
        for (word, other, size) in [(5, 90, whole), (5, 90, cut), (129, 128, whole), (16_513, 16_512, whole)] {
            for at in [0, block - 1, block, 2 * block - 1, 2 * block, size - 1] {
                let mut text = vec![other; size];
                text[at] = word;
                texts.push(text);
            }
        }
        texts
    });
}

/// Random words of one byte, of two and of three: few, so that each comes often, and many.
#[test]
fn random_words() {
    let mut random = Random::of("random_words");
    let mut few = [0, 127, 5, 128, 300, 16_511, 16_512, 16_600, 16_699];
    for block in BLOCKS {
        for per_superblock in [1, 3, 8, 20] {
            few.rotate_left(random.below(9));
            let kinds = random.between(1, 9);
            let size = 2 * block + random.between(80, 150);
            let text: Vec<u32> = (0..size).map(|_| random.one_of(&few[..kinds])).collect();
            compare(block, per_superblock, &text);
            let text: Vec<u32> = (0..size).map(|_| random.below(128) as u32).collect();
            compare(block, per_superblock, &text);
        }
    }
}

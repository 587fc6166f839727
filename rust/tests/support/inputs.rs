//! Random inputs: texts, shapes, slices for an index, sizes, arrays that are damaged, questions, document starts, plain texts, word lists, letter
//! tables and spellings.
use super::random::Random;
use super::reference;
use concordance::{Arrays, IndexSizes, Question, Shape};

/// Vocabulary sizes at and beside the steps of the code, and between them.
pub fn vocabulary(random: &mut Random) -> usize {
    match random.below(8) {
        0 => random.between(1, 4),
        1 => random.between(126, 130),
        2 => random.between(255, 258),
        3 => random.between(16_510, 16_515),
        4 => random.between(1, 300),
        5 => random.between(16_513, 40_000),
        6 => random.between(1, 20_000),
        _ => 130,
    }
}

/// A vocabulary that may be outside its limits.
pub fn any_vocabulary(random: &mut Random) -> usize {
    match random.below(20) {
        0 => 0,
        1 => reference::MAX_VOCABULARY + 1,
        2 => usize::MAX,
        _ => vocabulary(random),
    }
}

/// Block lengths within their limits.
pub fn shape(random: &mut Random, vocabulary: usize) -> Shape {
    let block = random.one_of(&[1, 2, 3, 5, 16, 64, 255, 256, 1000]);
    let per_superblock = random.one_of(&[1, 2, 3, 8, 65]);
    Shape { vocabulary, block, per_superblock }
}

/// A shape that may be outside its limits.
pub fn any_shape(random: &mut Random) -> Shape {
    let vocabulary = any_vocabulary(random);
    let wild = [
        (0, 8),
        (8, 0),
        (256, 256),
        (65_535, 1),
        (65_536, 1),
        (1, 65_535),
        (usize::MAX, usize::MAX),
        (1 << 33, 1 << 33),
    ];
    if random.once_in(12) {
        let (block, per_superblock) = random.one_of(&wild);
        return Shape { vocabulary, block, per_superblock };
    }
    shape(random, vocabulary)
}

/// The ranks that a text is made of: few of them, so that phrases come again.
fn ranks(random: &mut Random, vocabulary: usize) -> Vec<u32> {
    let edges = [0, 126, 127, 128, 129, 255, 256, 16_510, 16_511, 16_512, 16_513, vocabulary - 1];
    let count = random.between(1, 6);
    let mut ranks: Vec<u32> = Vec::new();
    for _ in 0..count {
        let edge = random.one_of(&edges);
        let rank = if edge < vocabulary && random.once_in(2) { edge } else { random.below(vocabulary) };
        ranks.push(rank as u32);
    }
    ranks
}

/// A text with ranks below V.
pub fn text(random: &mut Random, vocabulary: usize) -> Vec<u32> {
    let length = match random.below(10) {
        0 => 0,
        1 => random.between(1, 3),
        2 => random.between(200, 900),
        _ => random.between(1, 60),
    };
    let ranks = ranks(random, vocabulary);
    (0..length).map(|_| random.one_of(&ranks)).collect()
}

/// A text of which a rank may be V or above.
pub fn any_text(random: &mut Random, vocabulary: usize) -> Vec<u32> {
    let mut text = text(random, vocabulary.clamp(1, reference::MAX_VOCABULARY));
    if !text.is_empty() && random.once_in(5) {
        let place = random.below(text.len());
        text[place] = random.one_of(&[vocabulary as u32, u32::MAX, (vocabulary as u32).wrapping_add(1)]);
    }
    text
}

/// A text with one word changed, left out or put in, or with two words swapped; now and then the word is V or above.
pub fn changed_text(random: &mut Random, vocabulary: usize, text: &[u32]) -> Vec<u32> {
    let mut changed = text.to_vec();
    let rank = match random.below(12) {
        0 => random.one_of(&[vocabulary as u32, u32::MAX]),
        _ => ranks(random, vocabulary)[0],
    };
    let place = random.below(text.len() + 1);
    match random.below(6) {
        _ if place == text.len() => changed.push(rank),
        0 => changed.insert(place, rank),
        1 => drop(changed.remove(place)),
        2 => changed.swap(place, random.below(text.len())),
        _ => changed[place] = rank,
    }
    changed
}

/// Slices for an index, a little longer than needed or one shorter, filled with a mark.
pub fn room(random: &mut Random, shape: Shape, text: &[u32]) -> Arrays {
    let superblock = shape.block.saturating_mul(shape.per_superblock);
    let sized = (1..=reference::MAX_VOCABULARY).contains(&shape.vocabulary) && (1..=65_535).contains(&superblock);
    let needed = if sized && text.iter().all(|&rank| (rank as usize) < shape.vocabulary) {
        let made = reference::index(shape, text);
        [made.lengths.len(), made.bytes.len(), made.superblocks.len(), made.blocks.len()]
    } else {
        [8, 8, 300, 300]
    };
    let mut sizes = needed.map(|size| size + random.below(3));
    if random.once_in(5) {
        let at = random.below(4);
        sizes[at] = needed[at].saturating_sub(1);
    }
    marked(sizes)
}

/// Slices of these lengths, filled with a mark.
pub fn marked([lengths, bytes, superblocks, blocks]: [usize; 4]) -> Arrays {
    Arrays {
        lengths: vec![0xAAAA_AAAA; lengths],
        bytes: vec![0xA5; bytes],
        superblocks: vec![0xBBBB_BBBB; superblocks],
        blocks: vec![0xCCCC; blocks],
    }
}

/// Sizes of which some are one more or less than given ones, 0, the most, or any number.
pub fn other_sizes(random: &mut Random, sizes: IndexSizes) -> IndexSizes {
    let mut other = |size: usize| match random.below(16) {
        0 => size.wrapping_add(1),
        1 => size.wrapping_sub(1),
        2 => random.one_of(&[0, usize::MAX, 1 << 32, 1 << 63]),
        3 => random.next() as usize,
        4 => random.below(1_000),
        _ => size,
    };
    IndexSizes {
        nodes: other(sizes.nodes),
        bytes: other(sizes.bytes),
        superblock_rows: other(sizes.superblock_rows),
        block_rows: other(sizes.block_rows),
    }
}

/// Changes one element by one, or to any value.
fn change(random: &mut Random, value: u32) -> u32 {
    match random.below(3) {
        0 => value.wrapping_add(1),
        1 => value.wrapping_sub(1),
        _ => random.next() as u32,
    }
}

/// Changes, cuts, lengthens or swaps something in the arrays of an index; in some ways the counters
/// are made again, so that only the nodes tell.
pub fn damage(random: &mut Random, shape: Shape, arrays: &mut Arrays) {
    match random.below(9) {
        0 if !arrays.lengths.is_empty() => {
            let at = random.below(arrays.lengths.len());
            arrays.lengths[at] = change(random, arrays.lengths[at]);
        }
        1 if !arrays.bytes.is_empty() => {
            let at = random.below(arrays.bytes.len());
            arrays.bytes[at] = change(random, u32::from(arrays.bytes[at])) as u8;
        }
        2 => {
            let at = random.below(arrays.superblocks.len());
            arrays.superblocks[at] = change(random, arrays.superblocks[at]);
        }
        3 => {
            let at = random.below(arrays.blocks.len());
            arrays.blocks[at] = change(random, u32::from(arrays.blocks[at])) as u16;
        }
        4 => cut(random, arrays),
        5 => lengthen(random, arrays),
        6 if !arrays.bytes.is_empty() => {
            let at = random.below(arrays.bytes.len());
            arrays.bytes[at] = random.next() as u8;
            count_again(shape, arrays);
        }
        7 if !arrays.bytes.is_empty() => {
            let (one, other) = (random.below(arrays.bytes.len()), random.below(arrays.bytes.len()));
            arrays.bytes.swap(one, other);
            count_again(shape, arrays);
        }
        _ => {
            let (one, other) = (random.below(arrays.lengths.len()), random.below(arrays.lengths.len()));
            arrays.lengths.swap(one, other);
        }
    }
}

fn count_again(shape: Shape, arrays: &mut Arrays) {
    let (superblocks, blocks) = reference::counters(shape, &arrays.bytes);
    arrays.superblocks = superblocks;
    arrays.blocks = blocks;
}

fn cut(random: &mut Random, arrays: &mut Arrays) {
    match random.below(4) {
        0 => drop(arrays.lengths.pop()),
        1 => drop(arrays.bytes.pop()),
        2 => drop(arrays.superblocks.pop()),
        _ => drop(arrays.blocks.pop()),
    }
}

fn lengthen(random: &mut Random, arrays: &mut Arrays) {
    match random.below(4) {
        0 => arrays.lengths.push(0),
        1 => arrays.bytes.push(random.next() as u8),
        2 => arrays.superblocks.push(0),
        _ => arrays.blocks.push(0),
    }
}

/// A rank above V: by one, or the last two that there are.
pub fn rank_above(random: &mut Random, vocabulary: usize) -> u32 {
    random.one_of(&[vocabulary as u32 + 1, u32::MAX - 1, u32::MAX])
}

/// The lent words of phrases: parts of the text, other words, and now and then some that are V, an absent word, or above V.
pub fn words(random: &mut Random, vocabulary: usize, text: &[u32]) -> Vec<u32> {
    let length = random.between(0, 20);
    let mut words = Vec::new();
    if !text.is_empty() {
        let from = random.below(text.len());
        words.extend(text[from..].iter().take(length));
    }
    while words.len() < length {
        words.push(random.below(vocabulary) as u32);
    }
    if words.is_empty() {
        return words;
    }
    if random.once_in(3) {
        for _ in 0..random.between(1, 3) {
            let at = random.below(words.len());
            words[at] = vocabulary as u32;
        }
    }
    if random.once_in(5) {
        for _ in 0..random.between(1, 2) {
            let at = random.below(words.len());
            words[at] = rank_above(random, vocabulary);
        }
    }
    words
}

/// A place or an ordinal, about the text's ends or anywhere.
fn number(random: &mut Random, text: &[u32]) -> usize {
    match random.below(6) {
        0 => text.len(),
        1 => text.len() + 1,
        2 => 0,
        3 => random.one_of(&[usize::MAX, 1 << 32, 1 << 24]),
        _ => random.below(text.len() + 2),
    }
}

/// A rank of the text, V, one above V, or another.
fn asked(random: &mut Random, vocabulary: usize, text: &[u32]) -> u32 {
    match random.below(10) {
        0 | 1 => vocabulary as u32,
        2 => rank_above(random, vocabulary),
        3 => random.below(vocabulary) as u32,
        _ if text.is_empty() => 0,
        _ => random.one_of(text),
    }
}

/// A part of the lent words, inside or not; now and then one of no words that starts at any of them, at their end, one past it or far beyond.
pub fn part(random: &mut Random, words: &[u32]) -> (usize, usize) {
    match random.below(10) {
        0 => (random.one_of(&[usize::MAX, words.len() + 1]), random.one_of(&[0, 1, usize::MAX])),
        1 => (random.below(words.len() + 1), random.one_of(&[0, 17, usize::MAX])),
        2 => (words.len(), random.below(3)),
        3 => {
            let near = random.below(words.len() + 2);
            (random.one_of(&[near, near, near, 1 << 32, usize::MAX]), 0)
        }
        _ => {
            let start = random.below(words.len() + 1);
            (start, random.between(0, (words.len() - start + 1).min(18)))
        }
    }
}

/// A question of any kind; fields that its kind does not use hold anything.
pub fn question(random: &mut Random, vocabulary: usize, text: &[u32], words: &[u32]) -> Question {
    let (start, length) = part(random, words);
    Question {
        kind: random.one_of(&[0, 1, 1, 2, 2, 3, 3, 4, 4, 4, 5, 5, 5, 6, u32::MAX]),
        w: asked(random, vocabulary, text),
        v: asked(random, vocabulary, text),
        d: random.one_of(&[-17, -16, -3, -2, -1, 0, 1, 2, 3, 16, 17, i32::MIN, i32::MAX]),
        p: number(random, text),
        start,
        length,
    }
}

/// Whether a phrase of up to 16 words is a part of the lent words, with an absent word, V, and with none above V.
pub fn part_has_absent(vocabulary: usize, words: &[u32], (start, length): (usize, usize)) -> bool {
    let inside = start <= words.len() && length <= (words.len() - start).min(16);
    inside && absent_among(vocabulary, &words[start..start + length])
}

/// Whether a question of kinds 2 to 5 asks about an absent word, V, and about no rank above V.
pub fn asks_about_absent(vocabulary: usize, words: &[u32], question: Question) -> bool {
    let Question { kind, w, v, start, length, .. } = question;
    match kind {
        2 | 3 => absent_among(vocabulary, &[w]),
        4 => absent_among(vocabulary, &[w, v]),
        5 => part_has_absent(vocabulary, words, (start, length)),
        _ => false,
    }
}

/// Whether one of some ranks is V, and none is above V.
fn absent_among(vocabulary: usize, ranks: &[u32]) -> bool {
    ranks.iter().max().is_some_and(|&rank| rank as usize == vocabulary)
}

/// The starts of the documents of a text of so many words: one document, one for each word, or some of few words or of many.
pub fn starts(random: &mut Random, words: usize) -> Vec<u32> {
    let times = random.one_of(&[1, 2, 2, 3, 5, 20, usize::MAX]);
    (0..words as u32).filter(|&place| place == 0 || random.once_in(times)).collect()
}

/// Starts with one rule broken: the 0 is dropped or another number, one stands twice, two are swapped, one is the number of words, above it or far above,
/// the last is moved so far that it has the same low bits, or there is none. The empty text is given a start.
pub fn broken_starts(random: &mut Random, words: usize) -> Vec<u32> {
    let mut starts = starts(random, words);
    let n = words as u32;
    let last = random.one_of(&[n, n, n + 1, n + 256, n + (1 << 16), n + (1 << 24), n + (1 << 31), u32::MAX]);
    if starts.is_empty() {
        return vec![last; random.between(1, 3)];
    }
    let at = random.below(starts.len());
    match random.below(9) {
        0 => drop(starts.remove(0)),
        1 => starts[0] = random.one_of(&[1, n, u32::MAX]),
        2 => starts.insert(at, starts[at]),
        3 if starts.len() > 1 => {
            let other = (at + random.between(1, starts.len() - 1)) % starts.len();
            starts.swap(at, other);
        }
        4 => starts[at] = last,
        5 => starts.insert(at + 1, 0),
        6 => starts.clear(),
        7 => *starts.last_mut().unwrap() += 1 << random.one_of(&[16, 24, 31]),
        _ => starts.push(last),
    }
    starts
}

/// Starts that may break a rule, and now and then any numbers about those of the places.
pub fn any_starts(random: &mut Random, words: usize) -> Vec<u32> {
    match random.below(10) {
        0 | 1 => broken_starts(random, words),
        2 => (0..random.below(4)).map(|_| random.below(words + 2) as u32).collect(),
        _ => starts(random, words),
    }
}

/// Bytes that make words, and bytes that do not.
const LETTERS: [u8; 14] = [b'a', b'b', b'A', b'B', b'0', b'9', 0xC0, 0xE0, 0xDE, 0xFE, 0xDF, 0xFF, b'z', b'Z'];
const SEPARATORS: [u8; 9] = [b' ', b'\n', b',', 0, 0xD7, 0xF7, 0x7F, 0x80, 0xBF];

/// A plain text.
pub fn plain_text(random: &mut Random) -> Vec<u8> {
    let length = random.between(0, 60);
    let any = random.once_in(10);
    (0..length)
        .map(|_| match random.below(4) {
            _ if any => random.next() as u8,
            0 => random.one_of(&SEPARATORS),
            _ => random.one_of(&LETTERS),
        })
        .collect()
}

/// A plain text of so many bytes: words of the given number of different spellings, the first of them the most frequent, in capitals and not, with
/// separators between them.
pub fn long_text(random: &mut Random, bytes: usize, spellings: usize) -> Vec<u8> {
    let words: Vec<Vec<u8>> = (0..spellings).map(|number| format!("{number:x}").into_bytes()).collect();
    let mut text = Vec::with_capacity(bytes + 16);
    while text.len() < bytes {
        let below = random.between(1, spellings);
        let word = &words[random.below(below)];
        text.extend(if random.once_in(3) { word.to_ascii_uppercase() } else { word.clone() });
        text.push(random.one_of(&SEPARATORS));
    }
    text.truncate(bytes);
    text
}

/// A plain text over few letters, so that words come again and many stand equally often.
pub fn repetitive_text(random: &mut Random) -> Vec<u8> {
    let length = random.between(0, 120);
    let symbols = [&b"aA "[..], b"abAB ", b"aB\n, ", b"ab\xC4\xE4\xD7 ", b"0aZ\xFF\xF7\0"];
    let symbols = random.one_of(&symbols);
    (0..length).map(|_| random.one_of(symbols)).collect()
}

/// A list of the words of a text by a letter table and some others, which may break a rule or lack a word.
pub fn word_list(random: &mut Random, table: &[u8], text: &[u8]) -> Vec<u8> {
    let mut words: Vec<Vec<u8>> = Vec::new();
    for (_, word) in reference::words_of(table, text) {
        if !words.contains(&word) && !random.once_in(30) {
            words.push(word);
        }
    }
    let kept = reference::kept(table);
    let others: Vec<u8> = (0..=255).filter(|byte| kept.binary_search(byte).is_err()).collect();
    for length in [3, 1, 2] {
        let other: Vec<u8> = (0..length).map(|_| random.one_of(&kept)).collect();
        if random.once_in(2) && !words.contains(&other) {
            words.insert(random.below(words.len() + 1), other);
        }
    }
    let mut list: Vec<u8> = words.iter().flat_map(|word| [&word[..], b"\n"].concat()).collect();
    match random.below(14) {
        0 => drop(list.pop()),
        1 => list.insert(random.below(list.len() + 1), b'\n'),
        2 => list.insert(random.below(list.len() + 1), random.one_of(&others)),
        3 => list.insert(random.below(list.len() + 1), random.one_of(&kept)),
        4 => list.extend(list.clone().into_iter().take(6)),
        5 => list.retain(|&byte| byte != b'\n'),
        _ => {}
    }
    list
}

/// A letter table: it keeps one byte, few, many or all that it may, and each other byte is a separator or is folded to one of these, 00 too.
pub fn letter_table(random: &mut Random) -> Vec<u8> {
    let mut bytes: Vec<u8> = (1..=255).filter(|&byte| byte != b'\n').collect();
    for at in 1..bytes.len() {
        bytes.swap(at, random.below(at + 1));
    }
    let few = random.between(2, 6);
    let many = random.between(1, bytes.len());
    let (kept, others) = bytes.split_at(random.one_of(&[1, few, many, many, bytes.len()]));
    let folded = random.below(5);
    let mut table = vec![0; 256];
    for &byte in kept {
        table[usize::from(byte)] = byte;
    }
    for &byte in others.iter().chain([&0]) {
        if random.below(4) < folded {
            table[usize::from(byte)] = random.one_of(kept);
        }
    }
    table
}

/// A letter table with one rule broken: there are fewer or more than 256 entries, an entry names a byte that the table does not keep, the line end is a
/// letter, or all are separators.
pub fn broken_table(random: &mut Random) -> Vec<u8> {
    let mut table = letter_table(random);
    let kept = reference::kept(&table);
    match random.below(9) {
        0 => table.truncate(255),
        1 => table.truncate(random.below(256)),
        2 => table.push(random.one_of(&[0, kept[0]])),
        3 => table.extend(table.clone()),
        4 => {
            let unkept: Vec<u8> = (0..=255).filter(|byte| kept.binary_search(byte).is_err()).collect();
            let places: Vec<u8> = unkept.iter().copied().filter(|&byte| byte != b'\n').collect();
            let at = random.one_of(&places);
            let names: Vec<u8> = unkept.into_iter().filter(|&byte| byte != 0 && byte != at).collect();
            table[usize::from(at)] = random.one_of(&names);
        }
        5 => {
            let name = random.one_of(&kept);
            let places: Vec<usize> = (0..=255).filter(|&byte| byte != 0x0A && byte != usize::from(name)).collect();
            let other = random.one_of(&kept);
            table[random.one_of(&places)] = name;
            table[usize::from(name)] = if other == name { 0 } else { other };
        }
        6 => table[0x0A] = random.one_of(&kept),
        7 => table[0x0A] = 0x0A,
        _ => table.fill(0),
    }
    table
}

/// Bytes of any number about 256, most often 256 of them: all of them any, or most of them 0 or their own place.
pub fn any_table(random: &mut Random) -> Vec<u8> {
    let length = random.one_of(&[256, 256, 256, 256, 256, 0, 1, 255, 257, 512]);
    let any = random.one_of(&[1, 20, 200, 2_000]);
    (0..length)
        .map(|place| match random.below(2) {
            _ if random.once_in(any) => random.next() as u8,
            0 => 0,
            _ => place as u8 * u8::from(place % 256 != 0x0A),
        })
        .collect()
}

/// A letter table that is lent: the built-in one, another, and now and then one that breaks a rule.
pub fn lent_table(random: &mut Random) -> Vec<u8> {
    match random.below(10) {
        0 => broken_table(random),
        1 => any_table(random),
        2 => reference::built_in(),
        _ => letter_table(random),
    }
}

/// A plain text by a letter table: over few of its letters, each in one spelling or two, and few of its separators, or over all bytes.
pub fn text_by(random: &mut Random, table: &[u8]) -> Vec<u8> {
    let kept = reference::kept(table);
    let spelled =
        |letter: u8| -> Vec<u8> { (0..=255).filter(|&byte| reference::letter(table, byte) == letter).collect() };
    let separators = spelled(0);
    let mut letters = Vec::new();
    for _ in 0..random.between(1, 4) {
        let spellings = spelled(random.one_of(&kept));
        letters.extend([random.one_of(&spellings), random.one_of(&spellings)]);
    }
    let between = [random.one_of(&separators), random.one_of(&separators), b'\n'];
    let any = random.once_in(10);
    (0..random.between(0, 60))
        .map(|_| match random.below(4) {
            _ if any => random.next() as u8,
            0 => random.one_of(&between),
            _ => random.one_of(&letters),
        })
        .collect()
}

/// A spelling by a letter table, made of a word of a list, half the time in other bytes with the same letters: the word itself, its front or its end,
/// the word with a letter put in or changed, with a separator, a line end or a byte 00 before it, in it or behind it, two words with a separator
/// between them, nothing, or any bytes.
pub fn spelling(random: &mut Random, table: &[u8], list: &[u8]) -> Vec<u8> {
    let kept = reference::kept(table);
    let spelled =
        |letter: u8| -> Vec<u8> { (0..=255).filter(|&byte| reference::letter(table, byte) == letter).collect() };
    let separators = spelled(0);
    let words: Vec<&[u8]> = list.split(|&byte| byte == b'\n').filter(|word| !word.is_empty()).collect();
    let mut spelling = if words.is_empty() { vec![random.one_of(&kept)] } else { random.one_of(&words).to_vec() };
    if random.once_in(2) {
        for byte in &mut spelling {
            let alike = spelled(*byte);
            *byte = if alike.is_empty() { *byte } else { random.one_of(&alike) };
        }
    }
    let at = random.below(spelling.len() + 1);
    let place = random.one_of(&[0, at, spelling.len()]);
    match random.below(16) {
        0 => spelling.truncate(at),
        1 => drop(spelling.drain(..at)),
        2 => spelling.insert(place, random.one_of(&kept)),
        3 => spelling.push(random.one_of(&kept)),
        4 => spelling.insert(place, random.one_of(&separators)),
        5 => spelling.insert(place, b'\n'),
        6 => spelling.insert(place, 0),
        7 if !words.is_empty() => {
            spelling.push(random.one_of(&[b'\n', separators[0], separators[separators.len() - 1]]));
            spelling.extend(random.one_of(&words));
        }
        8 => spelling.clear(),
        9 => spelling = (0..random.between(1, 6)).map(|_| random.next() as u8).collect(),
        10 if at < spelling.len() => spelling[at] = random.one_of(&kept),
        _ => {}
    }
    spelling
}

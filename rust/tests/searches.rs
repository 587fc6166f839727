//! Searches for phrases and for neighbours, against the reference: hits that are found by an anchor of one byte, of two or of three, common or rare, at
//! each place of a piece, of a block and of a text, alone and one upon the other.
mod support;
use concordance::entries::{self, RawPage};
use concordance::{Arrays, Listing, Question, Shape};
use std::collections::BTreeSet;
use support::random::Random;
use support::{inputs, reference};

/// A vocabulary with words of three bytes that begin with the byte 0 and with the byte 1, as do words of two.
const VOCABULARY: usize = 33_200;

/// Block lengths and blocks of a superblock; the longest texts are tried without the first three.
const SHAPES: [(usize, usize); 11] =
    [(1, 1), (1, 64), (2, 3), (7, 5), (63, 1), (64, 3), (65, 64), (128, 16), (256, 2), (848, 64), (1000, 64)];
const SHORT: usize = 3;

/// Words of one, two and three bytes, at the steps of the code and between them.
const WORDS: [u32; 9] = [5, 127, 128, 300, 16_511, 16_512, 16_700, 32_895, 32_900];

/// A word that stands often.
const COMMON: u32 = 0;

/// What the slices hold that are lent to be filled.
const MARK: u32 = 0x7777_7777;

// ---- what is compared

/// The index of a text, which is cut at document starts.
struct Searched {
    shape: Shape,
    arrays: Arrays,
    starts: Vec<u32>,
    pieces: Vec<Vec<u32>>,
    n: usize,
}

impl Searched {
    /// The index of a text of at least one word.
    fn new((block, per_superblock): (usize, usize), text: &[u32], starts: &[u32]) -> Searched {
        let shape = Shape { vocabulary: VOCABULARY, block, per_superblock };
        let pieces = reference::documents(text, starts).expect("the starts keep the rules");
        Searched { shape, arrays: reference::index(shape, text), starts: starts.to_vec(), pieces, n: text.len() }
    }

    /// The index of a text that is one document, which is searched without starts.
    fn whole(shape: (usize, usize), text: &[u32]) -> Searched {
        Searched::new(shape, text, &[0])
    }

    /// Compares the counts of a sheet with those that are expected; their sum.
    fn sheet(&self, words: &[u32], questions: &[Question], expected: &[usize]) -> usize {
        let (shape, arrays, starts) = (self.shape, self.arrays.slices(), &self.starts);
        let mut pairs = vec![MARK; 2 * questions.len()];
        let answer = if starts.len() > 1 {
            entries::answer_sheet_in_documents(shape, arrays, starts, words, questions, &mut pairs)
        } else {
            entries::answer_sheet(shape, arrays, words, questions, &mut pairs)
        };
        assert_eq!(answer, reference::accepted(pairs.len()), "{self}");
        for ((question, pair), &count) in questions.iter().zip(pairs.chunks(2)).zip(expected) {
            assert_eq!(pair, [0, count as u32], "{question:?}, {words:?}, {self}");
        }
        expected.iter().sum()
    }

    /// Compares how often a word has another at each offset from -16 to 16; their sum.
    fn neighbours(&self, w: u32, v: u32) -> usize {
        let offsets = -16..=16;
        let questions: Vec<Question> = offsets.clone().map(|d| Question::neighbours(w, v, d)).collect();
        let count = |d| self.pieces.iter().map(|piece| reference::neighbours(piece, w, v, d)).sum();
        self.sheet(&[], &questions, &offsets.map(count).collect::<Vec<usize>>())
    }

    /// Compares the page of a phrase from a place on with these places of the phrase.
    fn page(&self, phrase: &[u32], places: &[usize], next: usize, lines: usize) -> RawPage {
        let (shape, arrays, starts) = (self.shape, self.arrays.slices(), &self.starts);
        let (state, length) = (Listing { next, finished: false }, phrase.len());
        let mut ours = vec![MARK; lines];
        let page = if starts.len() > 1 {
            entries::list_in_documents(state, shape, arrays, starts, phrase, 0, length, &mut ours)
        } else {
            entries::list(state, shape, arrays, phrase, 0, length, &mut ours)
        };
        let left: Vec<u32> = places.iter().filter(|&&place| place >= next).map(|&place| place as u32).collect();
        let written = left.len().min(lines);
        let more = left.len() > lines;
        let after = if more { left[lines - 1] as usize + 1 } else { self.n };
        let listing = Listing { next: after, finished: !more };
        let expected = RawPage { answer: reference::accepted(written), more, listing };
        let theirs = [&left[..written], &vec![MARK; lines - written]].concat();
        assert_eq!((page, ours), (expected, theirs), "{next}, {lines} lines, {phrase:?}, {self}");
        page
    }

    /// Compares the pages of a phrase of so many lines, each from where the last ended.
    fn pages(&self, phrase: &[u32], places: &[usize], lines: usize) {
        let (mut next, mut more) = (0, true);
        while more {
            let page = self.page(phrase, places, next, lines);
            (next, more) = (page.listing.next, page.more);
        }
    }

    /// Compares the summary of a phrase.
    fn summary(&self, phrase: &[u32]) {
        let mut ours = vec![MARK; self.starts.len()];
        let answer =
            entries::summary(self.shape, self.arrays.slices(), &self.starts, phrase, 0, phrase.len(), &mut ours);
        let theirs: Vec<u32> = self.pieces.iter().map(|piece| reference::places(piece, phrase).len() as u32).collect();
        assert_eq!((answer, ours), (reference::accepted(theirs.len()), theirs), "{phrase:?}, {self}");
    }

    /// Compares the count of a phrase, its summary, its pages and some from places about its hits; how often it stands.
    fn phrase(&self, random: &mut Random, phrase: &[u32]) -> usize {
        let places = reference::places_in(&self.pieces, phrase);
        self.sheet(phrase, &[Question::phrase(0, phrase.len())], &[places.len()]);
        self.summary(phrase);
        let most = places.len() + 1;
        let some = random.between(most.div_ceil(20), most);
        for lines in BTreeSet::from([most, places.len().max(1), some]) {
            self.pages(phrase, &places, lines);
        }
        for _ in 0..places.len().clamp(1, 3) {
            let hit = if places.is_empty() { random.below(self.n) } else { random.one_of(&places) };
            for next in [hit.saturating_sub(1), hit, hit + 1] {
                self.page(phrase, &places, next, random.between(1, 3));
            }
        }
        self.page(phrase, &places, self.n, 1);
        places.len()
    }
}

impl std::fmt::Display for Searched {
    /// The shape and the beginnings of the starts and of the text.
    fn fmt(&self, out: &mut std::fmt::Formatter) -> std::fmt::Result {
        let few = |words: &[u32]| words[..words.len().min(400)].to_vec();
        write!(out, "{:?}, {} words, {:?}, {:?}", self.shape, self.n, few(&self.starts), few(&self.pieces.concat()))
    }
}

// ---- what is reached

/// How the hits of an anchor are found: in the whole root, along its occurrences there, or by those of a node of words of two bytes or of three.
#[derive(Clone, Copy, Debug, PartialEq)]
enum Way {
    Sweep,
    Along,
    Two,
    Three,
}

/// How often a word stands in a text.
fn frequency(text: &[u32], word: u32) -> usize {
    text.iter().filter(|&&here| here == word).count()
}

/// The way in which the hits of an anchor are found.
fn way_of(text: &[u32], anchor: u32) -> Way {
    match reference::code(anchor).len() {
        1 if frequency(text, anchor) >= text.len() / 2_048 => Way::Sweep,
        1 => Way::Along,
        2 => Way::Two,
        _ => Way::Three,
    }
}

/// The numbers of the anchor and of the second of a phrase: of its rarest word, and of the other word whose first byte begins the fewest words.
fn sides_of(text: &[u32], phrase: &[u32]) -> (usize, usize) {
    let first = |word: u32| reference::code(word)[0];
    let alike = |word: u32| text.iter().filter(|&&here| first(here) == first(word)).count();
    let anchor = (0..phrase.len()).min_by_key(|&at| frequency(text, phrase[at])).expect("the phrase has a word");
    let others = (0..phrase.len()).filter(|&at| at != anchor);
    (anchor, others.min_by_key(|&at| alike(phrase[at])).unwrap_or(anchor))
}

/// The numbers of other bytes between the closing bytes of a word in the node where its codeword ends.
fn gaps_of(text: &[u32], word: u32) -> Vec<usize> {
    let code = reference::code(word);
    let (closing, path) = code.split_last().expect("a codeword has a byte");
    let node = path.iter().fold(0, |node, &byte| 128 * node + 1 + usize::from(byte));
    let bytes = reference::nodes(VOCABULARY, text).swap_remove(node);
    let places: Vec<usize> = (0..bytes.len()).filter(|&at| bytes[at] == *closing).collect();
    places.windows(2).map(|pair| pair[1] - pair[0] - 1).collect()
}

// ---- texts

/// Another word that begins with the same byte; of a word of one byte, which no other begins like, the one beside it.
fn alike(random: &mut Random, word: u32) -> u32 {
    let first = u32::from(reference::code(word)[0]);
    if first >= 128 {
        return word ^ 1;
    }
    loop {
        let two = 128 + 128 * first + random.below(128) as u32;
        let three = 16_512 + 16_384 * first + random.below(300) as u32;
        let other = random.one_of(&[two, three]);
        if other != word && (other as usize) < VOCABULARY {
            return other;
        }
    }
}

/// A text of common words, of a second and of words that begin like it or like an anchor, which does not stand in it.
fn around(random: &mut Random, size: usize, anchor: u32, second: u32) -> Vec<u32> {
    let mut text = Vec::with_capacity(size);
    while text.len() < size {
        let word = match random.below(12) {
            0 => second,
            1 => alike(random, second),
            2 => alike(random, anchor),
            _ => COMMON,
        };
        text.push(if word == anchor { COMMON } else { word });
    }
    text
}

/// A phrase of so many words that has an anchor and a second at two places and is common elsewhere, and these places.
fn drawn_phrase(random: &mut Random, length: usize, anchor: u32, second: u32) -> (Vec<u32>, (usize, usize)) {
    let a = random.below(length);
    let b = (a + random.between(1, length - 1)) % length;
    let mut phrase = vec![COMMON; length];
    (phrase[a], phrase[b]) = (anchor, second);
    (phrase, (a, b))
}

/// A text with a phrase put at a place.
fn with(text: &[u32], place: usize, phrase: &[u32]) -> Vec<u32> {
    let mut changed = text.to_vec();
    changed[place..place + phrase.len()].copy_from_slice(phrase);
    changed
}

/// One of the words that is another.
fn other_word(random: &mut Random, word: u32) -> u32 {
    loop {
        let other = random.one_of(&WORDS);
        if other != word {
            return other;
        }
    }
}

// ---- one hit

/// Compares the one hit of a phrase, whose anchor stands once, in a text that is whole and in documents; both words are also sought as neighbours.
fn compare_one(
    random: &mut Random,
    shape: (usize, usize),
    text: &[u32],
    phrase: &[u32],
    (a, b): (usize, usize),
) -> usize {
    assert_eq!((frequency(text, phrase[a]), sides_of(text, phrase)), (1, (a, b)), "{phrase:?}");
    let whole = Searched::whole(shape, text);
    assert_eq!(whole.phrase(random, phrase), 1, "{phrase:?}, {whole}");
    let cut = Searched::new(shape, text, &inputs::starts(random, text.len()));
    let mut hits = 1 + cut.phrase(random, phrase);
    for searched in [&whole, &cut] {
        hits += searched.neighbours(phrase[a], phrase[b]) + searched.neighbours(phrase[b], phrase[a]);
    }
    hits
}

/// A phrase at each place of a short text, with its anchor, which stands once, first, last and between: one of one byte is sought in the whole root.
#[test]
fn each_place() {
    let mut random = Random::of("each_place");
    let mut ways = [0; 4];
    let mut hits = 0;
    for anchor in WORDS {
        let second = other_word(&mut random, anchor);
        let size = random.between(200, 270);
        let base = around(&mut random, size, anchor, second);
        for place in 0..size {
            let length = random.one_of(&[2, 3, 5, 16]).min(size - place);
            if length < 2 {
                continue;
            }
            let (phrase, sides) = drawn_phrase(&mut random, length, anchor, second);
            let text = with(&base, place, &phrase);
            ways[way_of(&text, anchor) as usize] += 1;
            let shape = random.one_of(&SHAPES);
            hits += compare_one(&mut random, shape, &text, &phrase, sides);
        }
    }
    assert!(ways[Way::Along as usize] == 0 && [0, 2, 3].iter().all(|&way| ways[way] > 390), "{ways:?}");
    assert!(hits > 10_000, "{hits} hits");
}

/// A word of each length that stands once in 4,096 places or more, at the ends of the text and about those of pieces, blocks and superblocks.
#[test]
fn once_in_a_long_text() {
    let mut random = Random::of("once_in_a_long_text");
    let mut hits = [0; 4];
    for shape in SHAPES {
        for anchor in [random.one_of(&WORDS[..2]), random.one_of(&WORDS[2..5]), random.one_of(&WORDS[5..])] {
            let second = other_word(&mut random, anchor);
            let size = random.between(4_096, 6_000);
            let base = around(&mut random, size, anchor, second);
            let mut borders = vec![0, 64, 128, 512, 2_048, size];
            borders.extend([shape.0, shape.0 * shape.1].map(|step| step * random.between(1, size.div_ceil(step))));
            for border in borders {
                let length = random.one_of(&[2, 3, 5, 16]);
                let (phrase, sides) = drawn_phrase(&mut random, length, anchor, second);
                let at = (border + random.below(3)).saturating_sub(1);
                let text = with(&base, at.saturating_sub(sides.0).min(size - length), &phrase);
                hits[way_of(&text, anchor) as usize] += compare_one(&mut random, shape, &text, &phrase, sides);
            }
        }
    }
    assert!(hits[0] == 0 && hits[1..].iter().all(|&hits| hits > 200), "{hits:?}");
}

// ---- many hits

/// A word of one byte that stands as often as once in 2,048 places, once more and once less.
#[test]
fn at_the_step_of_the_sweep() {
    let mut random = Random::of("at_the_step_of_the_sweep");
    let (mut swept, mut along) = (0, 0);
    for size in [6_143, 6_144, 20_479, 20_480, 20_481, 40_000] {
        for often in size / 2_048 - 1..=size / 2_048 + 1 {
            let anchor = random.one_of(&[5, 127]);
            let second = other_word(&mut random, anchor);
            let (phrase, sides) = drawn_phrase(&mut random, 4, anchor, second);
            let mut text = around(&mut random, size, anchor, second);
            let mut slots = BTreeSet::from([0, size - 4]);
            while slots.len() < often {
                slots.insert(8 * random.between(1, size / 8 - 2));
            }
            for &slot in slots.iter().take(often) {
                text[slot..slot + 4].copy_from_slice(&phrase);
                if slot > 0 && random.once_in(4) {
                    text[slot + sides.1] = alike(&mut random, second);
                }
            }
            assert_eq!((frequency(&text, anchor), sides_of(&text, &phrase)), (often, sides));
            let searched = Searched::whole(random.one_of(&SHAPES[SHORT..]), &text);
            let hits = searched.phrase(&mut random, &phrase) + searched.neighbours(second, anchor);
            match way_of(&text, anchor) {
                Way::Sweep => swept += hits,
                _ => along += hits,
            }
            assert_eq!(way_of(&text, anchor) == Way::Sweep, often >= size / 2_048);
        }
    }
    assert!(swept > 100 && along > 40, "{swept} swept, {along} along");
}

/// A text in which the anchor of a phrase of three words stands again after each of some gaps, which are filled with words of its node and with some of
/// others; now and then its last word is another.
fn gapped(random: &mut Random, gaps: &[usize], inside: &[u32], others: &[u32], phrase: &[u32]) -> Vec<u32> {
    let mut text = Vec::new();
    for &gap in gaps {
        for _ in 0..gap {
            if !others.is_empty() && random.once_in(3) {
                text.push(random.one_of(others));
            }
            text.push(random.one_of(inside));
        }
        let last = if random.once_in(4) { 90 } else { phrase[2] };
        text.extend([phrase[0], phrase[1], last]);
    }
    text
}

/// Anchors whose next occurrence in their node is few bytes ahead, as far as is read on, and farther, in the root and in nodes of two and three bytes.
#[test]
fn gaps_in_the_node() {
    let mut random = Random::of("gaps_in_the_node");
    let mut hits = [0; 4];
    for (anchor, inside, others, size) in [
        (5, vec![0, 7, 7, 7, 90, 300, 600, 16_700], vec![], 40_000),
        (300, (256..384).chain([32_900]).collect(), vec![0, 7, 7, 7, 90, 600, 16_700], 0),
        (16_700, (16_640..16_768).collect(), vec![0, 7, 7, 7, 90, 128, 600, 16_512], 0),
    ] {
        let inside: Vec<u32> = inside.into_iter().filter(|&word| word != anchor).collect();
        let beside = if others.is_empty() { 2 } else { 0 };
        let mut gaps = vec![beside, beside + 1, 65, 128, 129, 510, 511, 512, 513, 514, 1_024, 1_030];
        gaps.rotate_left(random.below(12));
        let phrase = [7, anchor, 600];
        let filled: Vec<usize> = gaps.iter().map(|gap| gap - beside).collect();
        let mut text = gapped(&mut random, &filled, &inside, &others, &phrase);
        while text.len() < size {
            text.push(random.one_of(&inside));
        }
        let way = way_of(&text, anchor);
        assert_eq!((gaps_of(&text, anchor), sides_of(&text, &phrase)), (gaps[1..].to_vec(), (1, 2)), "{anchor}");
        for shape in SHAPES.into_iter().skip(SHORT) {
            let searched = Searched::whole(shape, &text);
            let starts = inputs::starts(&mut random, text.len());
            let cut = Searched::new(shape, &text, &starts);
            for part in [&phrase[..], &phrase[..2], &phrase[1..], &[anchor]] {
                hits[way as usize] += searched.phrase(&mut random, part) + cut.phrase(&mut random, part);
            }
            hits[way as usize] += searched.neighbours(600, anchor) + cut.neighbours(anchor, 7);
        }
    }
    assert!(hits[0] == 0 && hits[1..].iter().all(|&hits| hits > 300), "{hits:?}");
}

/// Few words in short texts, which stand many times in a piece, in runs and one upon the other: pages of one line up to all, from each third place.
#[test]
fn hits_upon_hits() {
    let mut random = Random::of("hits_upon_hits");
    let sets = [&[5][..], &[5, 90], &[300, 301], &[300, 5], &[16_700, 16_701, 16_640], &[128, 16_512, 129], &[32_900]];
    let mut hits = [0; 4];
    for set in sets {
        for _ in 0..4 {
            let size = random.between(130, 330);
            let mut text = Vec::new();
            while text.len() < size {
                let run = random.one_of(&[1, 1, 1, 2, 3, 20, 70]);
                text.extend(vec![random.one_of(set); run]);
            }
            let starts = if random.once_in(2) { vec![0] } else { inputs::starts(&mut random, text.len()) };
            let searched = Searched::new(random.one_of(&SHAPES), &text, &starts);
            for length in [1, 2, 3, random.between(4, 16)] {
                let from = random.below(text.len() - length + 1);
                let phrase = &text[from..from + length];
                hits[way_of(&text, phrase[sides_of(&text, phrase).0]) as usize] += searched.phrase(&mut random, phrase);
                let places = reference::places_in(&searched.pieces, phrase);
                searched.pages(phrase, &places, 1);
                for next in (0..=text.len()).filter(|next| next % 3 == from % 3) {
                    searched.page(phrase, &places, next, random.one_of(&[1, 2, 64, places.len() + 1]));
                }
            }
            let pairs = searched.neighbours(set[0], set[0]) + searched.neighbours(set[0], random.one_of(set));
            hits[way_of(&text, set[0]) as usize] += pairs;
        }
    }
    assert!([0, 2, 3].iter().all(|&way| hits[way] > 10_000), "{hits:?}");
}

/// Pairs of words of each length at each offset, of a word with itself too, in texts that are shorter than the offsets, at their ends, and in longer
/// ones, where words of one byte stand often and rarely.
#[test]
fn offsets() {
    let mut random = Random::of("offsets");
    let mut short = 0;
    for _ in 0..400 {
        let size = random.between(1, 36);
        let words = [random.one_of(&WORDS), random.one_of(&WORDS), COMMON];
        let text: Vec<u32> = (0..size).map(|_| random.one_of(&words)).collect();
        let drawn = inputs::starts(&mut random, size);
        let starts = if random.once_in(2) { vec![0] } else { drawn };
        let searched = Searched::new(random.one_of(&SHAPES), &text, &starts);
        short += searched.neighbours(words[0], words[1]) + searched.neighbours(words[2], words[0]);
        short += searched.neighbours(words[1], words[1]);
    }
    let mut hits = [0; 4];
    for word in WORDS {
        let second = other_word(&mut random, word);
        for often in [2, 3, 60] {
            let size = random.between(8_192, 9_000);
            let mut text = around(&mut random, size, word, second);
            let mut places = BTreeSet::from([0, size - 1]);
            while places.len() < often {
                places.insert(random.below(size));
            }
            for &place in &places {
                text[place] = word;
                let other = (place + random.below(33)).saturating_sub(16).min(size - 1);
                if !places.contains(&other) {
                    text[other] = second;
                }
            }
            assert_eq!(frequency(&text, word), often);
            let searched = Searched::whole(random.one_of(&SHAPES[SHORT..]), &text);
            let pairs = searched.neighbours(word, second) + searched.neighbours(second, word);
            hits[way_of(&text, word) as usize] += pairs + searched.neighbours(word, word);
        }
    }
    assert!(short > 10_000 && hits.iter().all(|&hits| hits > 20), "{short}, {hits:?}");
}

/// A phrase of one word, whose places are found one by one: pages and summaries of words of each length, that stand often, rarely and once.
#[test]
fn single_words() {
    let mut random = Random::of("single_words");
    let mut hits = [0; 4];
    for shape in SHAPES {
        let size = random.between(8_192, 9_000);
        let mut text = around(&mut random, size, 16_700, 300);
        for (word, often) in [(5, 1), (127, 40), (16_511, 3), (16_512, 90), (32_900, 1)] {
            for _ in 0..often {
                text[random.below(size)] = word;
            }
        }
        (text[0], text[1], text[size - 1]) = (5, 127, random.one_of(&WORDS));
        let starts = inputs::starts(&mut random, size);
        let searched = [Searched::whole(shape, &text), Searched::new(shape, &text, &starts)];
        for word in WORDS.into_iter().filter(|&word| frequency(&text, word) > 0) {
            let way = way_of(&text, word) as usize;
            hits[way] += searched.iter().map(|searched| searched.phrase(&mut random, &[word])).sum::<usize>();
        }
    }
    assert!(hits.iter().all(|&hits| hits > 20), "{hits:?}");
}

// ---- what is no hit

/// Words that begin with the same bytes as those of a phrase, in its place or in that of some of its words.
#[test]
fn words_that_begin_alike() {
    let mut random = Random::of("words_that_begin_alike");
    let mut hits = [0; 4];
    let mut passed = 0;
    for phrase in [
        &[300, 5][..],
        &[5, 300, 16_700],
        &[300, 301],
        &[128, 16_512],
        &[16_700, 300, 16_701, 128],
        &[16_700, 16_700],
        &[32_900, 300, 32_900],
    ] {
        for often in [1, 3] {
            let size = random.between(3_000, 7_000);
            let mut text = vec![COMMON; size];
            for slot in (0..size - 8).step_by(8) {
                let place = slot + random.below(4);
                for (at, &word) in phrase.iter().enumerate() {
                    let times = if word < 128 { often + 2 } else { often + 1 };
                    text[place + at] = if random.once_in(times) { word } else { alike(&mut random, word) };
                }
            }
            text[size - phrase.len()..].copy_from_slice(phrase);
            let first_bytes = |words: &[u32]| words.iter().map(|&word| reference::code(word)[0]).collect::<Vec<u8>>();
            let begun = text.windows(phrase.len()).filter(|words| first_bytes(words) == first_bytes(phrase)).count();
            let starts = inputs::starts(&mut random, size);
            let shape = random.one_of(&SHAPES[SHORT..]);
            for searched in [Searched::whole(shape, &text), Searched::new(shape, &text, &starts)] {
                let found = searched.phrase(&mut random, phrase);
                let pairs = searched.neighbours(phrase[0], phrase[1]) + searched.neighbours(phrase[1], phrase[0]);
                hits[way_of(&text, phrase[sides_of(&text, phrase).0]) as usize] += found + pairs;
                passed += begun - found;
            }
        }
    }
    assert!([0, 2, 3].iter().all(|&way| hits[way] > 100), "{hits:?}");
    assert!(passed > 1_000, "{passed} passed");
}

/// Documents that start inside hits, at them and after them: those that are cut are no hits.
#[test]
fn cut_hits() {
    let mut random = Random::of("cut_hits");
    let (mut left, mut cut) = ([0; 4], [0; 4]);
    for anchor in WORDS {
        for often in [3, 60] {
            let second = other_word(&mut random, anchor);
            let size = random.between(8_192, 9_000);
            let mut text = around(&mut random, size, anchor, second);
            let length = random.between(2, 6);
            let (phrase, sides) = drawn_phrase(&mut random, length, anchor, second);
            let mut slots = BTreeSet::new();
            while slots.len() < often {
                slots.insert(random.below(size / 6));
            }
            let mut starts = BTreeSet::from([0]);
            for (number, slot) in slots.into_iter().enumerate() {
                let cut = match number {
                    0 => random.between(1, length - 1),
                    1 => 0,
                    _ => random.between(0, length),
                };
                text[6 * slot..6 * slot + length].copy_from_slice(&phrase);
                starts.insert((6 * slot + cut) as u32);
            }
            assert_eq!((frequency(&text, anchor), sides_of(&text, &phrase)), (often, sides));
            let starts: Vec<u32> = starts.into_iter().filter(|&start| (start as usize) < size).collect();
            let searched = Searched::new(random.one_of(&SHAPES[SHORT..]), &text, &starts);
            let found = searched.phrase(&mut random, &phrase);
            let pairs = searched.neighbours(anchor, second) + searched.neighbours(second, anchor);
            let way = way_of(&text, anchor) as usize;
            left[way] += found + pairs;
            cut[way] += often - found;
        }
    }
    assert!(left.iter().chain(&cut).all(|&hits| hits > 0) && left.iter().sum::<usize>() > 300, "{left:?}, {cut:?}");
}

// ---- any text

/// Words of one byte that are rare in a drawn text.
const RARE: std::ops::Range<u32> = 100..128;

/// A text of words that stand the more often the lower their rank, but for the rare ones, with passages that come again.
fn drawn_text(random: &mut Random, size: usize) -> Vec<u32> {
    let mut text: Vec<u32> = Vec::with_capacity(size);
    while text.len() < size {
        if text.len() > 20 && random.once_in(12) {
            let from = random.below(text.len() - 16);
            text.extend_from_within(from..from + random.between(2, 16));
        } else {
            let share = random.below(1 << 20) as f64 / (1 << 20) as f64;
            let rank = (VOCABULARY as f64).powf(share) as u32 - 1;
            text.push(match rank {
                100..=127 => rank + 1_000,
                1_100..=1_127 => rank - 1_000,
                _ => rank,
            });
        }
    }
    text.truncate(size);
    text
}

/// Phrases of 1 to 16 words and pairs that stand in texts of up to 40,000 words, which have anchors of each way, before their seconds and after them.
#[test]
fn drawn_texts() {
    let mut random = Random::of("drawn_texts");
    let (mut ways, mut orders, mut hits) = ([0; 4], [0; 2], 0);
    for size in [3_000, 12_000, 40_000] {
        let text = drawn_text(&mut random, size);
        for shape in [random.one_of(&SHAPES[SHORT..7]), random.one_of(&SHAPES[7..])] {
            let starts = inputs::starts(&mut random, size);
            let searched = [Searched::whole(shape, &text), Searched::new(shape, &text, &starts)];
            for _ in 0..60 {
                let length = random.one_of(&[1, 2, 2, 2, 3, 3, 4, 5, 8, 16]);
                let any = random.below(size - length);
                let from = match random.below(8) {
                    0 => 0,
                    1 => size - length,
                    2 | 3 => (any..size - length).find(|&place| RARE.contains(&text[place])).unwrap_or(any),
                    _ => any,
                };
                let phrase = &text[from..from + length];
                let (anchor, second) = sides_of(&text, phrase);
                ways[way_of(&text, phrase[anchor]) as usize] += 1;
                if anchor != second {
                    orders[usize::from(anchor < second)] += 1;
                }
                let one = &searched[random.below(2)];
                hits += one.phrase(&mut random, phrase) + one.neighbours(phrase[0], phrase[length - 1]);
            }
        }
    }
    assert!(
        ways.iter().all(|&phrases| phrases > 2) && orders.iter().all(|&phrases| phrases > 50),
        "{ways:?}, {orders:?}"
    );
    assert!(hits > 5_000, "{hits} hits");
}

//! Each limit of the papers, and one past it.
mod support;
use concordance::entries::{self, Measured};
use concordance::{Arrays, Index, IndexSizes, Listing, Page, Question, Refusal, Refused, Shape};
use support::random::Random;
use support::{inputs, reference};

const MAX_WORDS: usize = 16_777_216;
const MAX_VOCABULARY: usize = 2_113_664;
/// The sizes that are returned with a refusal.
const NO_SIZES: IndexSizes = IndexSizes { nodes: 0, bytes: 0, superblock_rows: 0, block_rows: 0 };

/// The longest text: one- and two-byte words, and two three-byte words far apart.
fn longest_text() -> Vec<u32> {
    let mut random = Random::of("longest_text");
    let mut text: Vec<u32> = (0..MAX_WORDS)
        .map(|_| {
            let number = random.next();
            match number % 8 {
                0 => 128 + (number >> 8) as u32 % 200,
                _ => (number >> 8) as u32 % 100,
            }
        })
        .collect();
    for place in [5, MAX_WORDS - 2] {
        text[place] = MAX_VOCABULARY as u32 - 1;
        text[place + 1] = 100;
    }
    text
}

/// The longest text is built, checked and asked; one word more is refused by 2, and so is a root of
/// one byte more by 6.
#[test]
fn most_words() {
    let mut text = longest_text();
    let shape = Shape::for_text(MAX_VOCABULARY);
    let index = Index::build(shape, &text).expect("the longest text is one");
    assert_eq!(index.words(), MAX_WORDS);
    let frequency = text.iter().filter(|&&word| word == 7).count();
    let last = text.iter().rposition(|&word| word == 7).unwrap();
    let (rare, absent) = (MAX_VOCABULARY as u32 - 1, MAX_VOCABULARY as u32);
    let phrase = [rare, 100, absent];
    for (question, value) in [
        (Question::word_at(MAX_WORDS - 1), text[MAX_WORDS - 1] as usize),
        (Question::word_at(MAX_WORDS - 2), rare as usize),
        (Question::occurrences_below(7, MAX_WORDS), frequency),
        (Question::place_of(7, frequency), last),
        (Question::place_of(rare, 2), MAX_WORDS - 2),
        (Question::neighbours(100, rare, -1), 2),
        (Question::neighbours(rare, 100, 1), 2),
        (Question::phrase(0, 2), 2),
        (Question::occurrences_below(absent, MAX_WORDS), 0),
        (Question::neighbours(100, absent, 1), 0),
        (Question::neighbours(absent, 100, -1), 0),
        (Question::phrase(0, 3), 0),
    ] {
        assert_eq!(index.ask(&phrase, question), Ok(value), "{question:?}");
    }
    for (question, refusal) in [
        (Question::word_at(MAX_WORDS), 11),
        (Question::occurrences_below(7, MAX_WORDS + 1), 11),
        (Question::place_of(7, frequency + 1), 11),
        (Question::occurrences_below(absent, MAX_WORDS + 1), 11),
        (Question::place_of(absent, 1), 11),
        (Question::occurrences_below(absent + 1, MAX_WORDS), 9),
        (Question::neighbours(100, absent + 1, 1), 9),
    ] {
        assert_eq!(index.ask(&[], question).unwrap_err().refusal.number(), refusal, "{question:?}");
    }
    assert_eq!(index.passage(MAX_WORDS - 5, 5).unwrap(), text[MAX_WORDS - 5..]);
    assert_eq!(index.passage(MAX_WORDS, 0), Ok(vec![]));
    let pages: Vec<_> = index.pages(&phrase[..2], 1).map(|page| page.unwrap().places).collect();
    assert_eq!(pages, [[5], [MAX_WORDS as u32 - 2]]);
    let mut pages = index.pages(&phrase, 1);
    assert_eq!(pages.next(), Some(Ok(Page { places: vec![], more: false })));
    assert_eq!((pages.listing(), pages.next()), (Listing { next: MAX_WORDS, finished: true }, None));

    let stream = concordance::write_stream(MAX_VOCABULARY, &text).expect("the longest text is one");
    assert!(concordance::read_stream(&stream).expect("its stream is one") == text);
    let mut longer = stream;
    longer.push(0x80);
    assert_eq!(entries::read_stream(&longer, &mut []), reference::refused(2));

    let bytes = index.arrays().bytes.len();
    let mut arrays = Arrays::sized(reference::sizes(index.arrays()));
    assert_eq!(entries::build(shape, &text, arrays.slices_mut()), reference::accepted(bytes));
    assert!(arrays == *index.arrays());

    text.push(0);
    arrays.bytes.push(0);
    let before = arrays.clone();
    assert_eq!(entries::build(shape, &text, arrays.slices_mut()), reference::refused(2));
    assert!(arrays == before);
    assert_eq!(entries::write_stream(MAX_VOCABULARY, &text, &mut longer), reference::refused(2));
}

/// Texts of the most words and of one word more, measured and built by their sizes: words of one byte, and words of three, which have the
/// most bytes that an index can have.
#[test]
fn sizes_of_the_most_words() {
    let (block, per_superblock) = (13_107, 5);
    for (vocabulary, rank, sizes) in [
        (1, 0, IndexSizes { nodes: 1, bytes: 16_777_216, superblock_rows: 257, block_rows: 1_281 }),
        (
            MAX_VOCABULARY,
            MAX_VOCABULARY as u32 - 1,
            IndexSizes { nodes: 16_513, bytes: 50_331_648, superblock_rows: 769, block_rows: 3_841 },
        ),
    ] {
        let shape = Shape { vocabulary, block, per_superblock };
        let mut text = vec![rank; MAX_WORDS];
        let measured = Measured { answer: reference::accepted(0), sizes };
        assert_eq!(entries::measure(shape, &text), measured, "{vocabulary}");
        let mut arrays = Arrays::sized(sizes);
        let answer = entries::build_sized(shape, sizes, &text, arrays.slices_mut());
        assert_eq!(answer, reference::accepted(sizes.bytes), "{vocabulary}");
        assert_eq!(entries::check(shape, arrays.slices()), reference::accepted(0), "{vocabulary}");
        assert_eq!(arrays.lengths[0] as usize, MAX_WORDS, "{vocabulary}");

        text.push(u32::MAX);
        let before = arrays.clone();
        for shape in [shape, Shape { block: 0, ..shape }] {
            let measured = Measured { answer: reference::refused(2), sizes: NO_SIZES };
            assert_eq!(entries::measure(shape, &text), measured, "{shape:?}");
            let answer = entries::build_sized(shape, sizes, &text, arrays.slices_mut());
            assert_eq!(answer, reference::refused(2), "{shape:?}");
        }
        assert!(arrays == before, "{vocabulary}");
    }
}

/// A root of one byte more than the longest text has is refused, although its nodes agree.
#[test]
fn longest_root() {
    let shape = Shape { vocabulary: 1, block: 1024, per_superblock: 63 };
    for (words, refusal) in [(MAX_WORDS, 0), (MAX_WORDS + 1, 6)] {
        let bytes = vec![0x80; words];
        let (superblocks, blocks) = reference::counters(shape, &bytes);
        let arrays = Arrays { lengths: vec![words as u32], bytes, superblocks, blocks };
        assert_eq!(entries::check(shape, arrays.slices()), reference::refused(refusal), "{words}");
    }
}

/// V 0, 1, 2,113,664 and one more, in each call that takes it.
#[test]
fn vocabularies() {
    for (vocabulary, text, refusal) in [
        (0, vec![], 1),
        (1, vec![0], 0),
        (MAX_VOCABULARY, vec![MAX_VOCABULARY as u32 - 1, 0], 0),
        (MAX_VOCABULARY + 1, vec![0], 1),
        (usize::MAX, vec![0], 1),
    ] {
        let shape = Shape { vocabulary, block: 256, per_superblock: 8 };
        let mut stream = [0; 8];
        assert_eq!(entries::write_stream(vocabulary, &text, &mut stream).refusal, refusal, "{vocabulary}");
        let mut arrays = Arrays {
            lengths: vec![0; MAX_VOCABULARY / 128 + 1],
            bytes: vec![0; 8],
            superblocks: vec![0; 256],
            blocks: vec![0; 256],
        };
        assert_eq!(entries::build(shape, &text, arrays.slices_mut()).refusal, refusal, "{vocabulary}");
        let measured = entries::measure(shape, &text);
        assert_eq!(measured.answer, reference::refused(refusal), "{vocabulary}");
        let mut sized = inputs::marked([MAX_VOCABULARY / 128 + 1, 8, 256, 256]);
        let before = sized.clone();
        let answer = entries::build_sized(shape, measured.sizes, &text, sized.slices_mut());
        assert_eq!(answer.refusal, refusal, "{vocabulary}");
        if refusal == 0 {
            let nodes = vocabulary.div_ceil(128);
            let sizes = IndexSizes { nodes, bytes: answer.value, superblock_rows: 1, block_rows: 1 };
            assert_eq!(measured.sizes, sizes, "{vocabulary}");
            assert_eq!(sized.lengths[..nodes], arrays.lengths[..nodes], "{vocabulary}");
            let index = Index::build(shape, &text).expect("the text is one");
            assert_eq!(index.passage(0, text.len()).unwrap(), text);
        } else {
            assert_eq!((measured.sizes, answer.value), (NO_SIZES, 0), "{vocabulary}");
            assert!(sized == before, "{vocabulary}");
            assert_eq!(entries::check(shape, arrays.slices()).refusal, refusal);
            assert_eq!(entries::ask(shape, arrays.slices(), &[], Question::word_at(0)).refusal, refusal);
            assert_eq!(entries::answer_sheet(shape, arrays.slices(), &[], &[], &mut []).refusal, refusal);
            assert_eq!(entries::passage(shape, arrays.slices(), 0, &mut []).refusal, refusal);
            let state = Listing { next: 3, finished: true };
            let page = entries::list(state, shape, arrays.slices(), &[], 0, 0, &mut []);
            assert_eq!((page.answer.refusal, page.more, page.listing), (refusal, false, state));
            let starts = [1];
            let question = Question::word_at(0);
            assert_eq!(entries::ask_in_documents(shape, arrays.slices(), &starts, &[], question).refusal, refusal);
            let sheet = entries::answer_sheet_in_documents(shape, arrays.slices(), &starts, &[], &[], &mut []);
            assert_eq!(sheet.refusal, refusal);
            let page = entries::list_in_documents(state, shape, arrays.slices(), &starts, &[], 0, 0, &mut []);
            assert_eq!((page.answer.refusal, page.more, page.listing), (refusal, false, state));
            assert_eq!(entries::summary(shape, arrays.slices(), &starts, &[], 0, 0, &mut []).refusal, refusal);
        }
    }
}

/// Superblocks of 65,535 bytes and of one more.
#[test]
fn superblocks() {
    let text: Vec<u32> = (0..70_000).map(|place| place % 300).collect();
    for (block, per_superblock, refusal) in
        [(65_535, 1, 0), (1, 65_535, 0), (255, 257, 0), (65_536, 1, 3), (256, 256, 3), (0, 1, 3), (1, 0, 3)]
    {
        let shape = Shape { vocabulary: 300, block, per_superblock };
        let measured = entries::measure(shape, &text);
        assert_eq!(measured, reference::measure(shape, &text), "{shape:?}");
        assert_eq!(measured.answer, reference::refused(refusal), "{shape:?}");
        let mut empty = Arrays::default();
        let answer = entries::build_sized(shape, measured.sizes, &text, empty.slices_mut());
        assert_eq!(answer, reference::refused(if refusal == 0 { 5 } else { refusal }), "{shape:?}");
        let mut at_once = Arrays::sized(measured.sizes);
        assert_eq!(entries::build(shape, &text, at_once.slices_mut()).refusal, refusal, "{shape:?}");
        let built = Index::build(shape, &text);
        assert_eq!(built.as_ref().map_or_else(|refused| refused.refusal.number(), |_| 0), refusal, "{shape:?}");
        if let Ok(index) = built {
            assert!(*index.arrays() == reference::index(shape, &text), "{shape:?}");
            assert!(*index.arrays() == at_once, "{shape:?}");
            assert_eq!(index.passage(69_000, 1_000).unwrap(), text[69_000..]);
        }
    }
}

/// V, B and b far outside their limits: no arrays are made, and the engine's refusal comes back.
#[test]
fn absurd_shapes() {
    let most = usize::MAX;
    for (vocabulary, block, per_superblock, refusal) in [
        (0, 0, 0, Refusal::Vocabulary),
        (most, 256, 8, Refusal::Vocabulary),
        (MAX_VOCABULARY + 1, 1, 1, Refusal::Vocabulary),
        (most, most, most, Refusal::Vocabulary),
        (3, 0, most, Refusal::Blocks),
        (3, most, 0, Refusal::Blocks),
        (3, 1, most, Refusal::Blocks),
        (3, most, 1, Refusal::Blocks),
        (3, most, most, Refusal::Blocks),
        (3, 1 << 32, 1 << 32, Refusal::Blocks),
        (3, (1 << 63) + 1, 2, Refusal::Blocks),
        (3, 1, 65_536, Refusal::Blocks),
    ] {
        let shape = Shape { vocabulary, block, per_superblock };
        let refused = Refused { refusal, value: 0 };
        assert_eq!(Index::measure(shape, &[2, 0, 1, 0]), Err(refused), "{shape:?}");
        for size in [0, 1, most] {
            let sizes = IndexSizes { nodes: size, bytes: size, superblock_rows: size, block_rows: size };
            let answer = entries::build_sized(shape, sizes, &[2, 0, 1, 0], Arrays::default().slices_mut());
            assert_eq!(answer, reference::refused(refusal.number()), "{shape:?}, {size}");
        }
        let answer = entries::build(shape, &[2, 0, 1, 0], Arrays::default().slices_mut());
        assert_eq!(answer, reference::refused(refusal.number()), "{shape:?}");
        assert_eq!(Index::build(shape, &[2, 0, 1, 0]), Err(refused), "{shape:?}");
        assert_eq!(Index::from_arrays(shape, Arrays::default()), Err(refused), "{shape:?}");
    }
    let smallest_blocks = Shape { vocabulary: 1, block: 1, per_superblock: 1 };
    let refused = Refused { refusal: Refusal::Words, value: 0 };
    assert_eq!(Index::measure(smallest_blocks, &vec![0; MAX_WORDS + 1]), Err(refused));
    assert_eq!(Index::build(smallest_blocks, &vec![0; MAX_WORDS + 1]), Err(refused));
}

/// Arrays of the most nodes and bytes, and of as many rows as bytes allow; one past each, and numbers far outside, give empty arrays.
#[test]
fn absurd_sizes() {
    let most = usize::MAX;
    let sizes = |nodes, bytes, superblock_rows, block_rows| IndexSizes { nodes, bytes, superblock_rows, block_rows };
    for (sizes, memory) in [
        (sizes(1, 0, 1, 1), 4 + 1_024 + 512),
        (sizes(2, 8, 2, 3), 8 + 8 + 2_048 + 1_536),
        (sizes(1, 8, 9, 9), 4 + 8 + 9 * 1_024 + 9 * 512),
        (sizes(16_513, 50_331_648, 769, 769), 66_052 + 50_331_648 + 769 * 1_536),
    ] {
        assert_eq!(reference::sizes(&Arrays::sized(sizes)), sizes);
        assert_eq!(sizes.memory(), memory, "{sizes:?}");
    }
    for sizes in [
        NO_SIZES,
        sizes(0, 8, 2, 3),
        sizes(16_514, 8, 2, 3),
        sizes(most, 8, 2, 3),
        sizes(2, 50_331_649, 2, 3),
        sizes(2, most, 2, 3),
        sizes(2, 8, 0, 3),
        sizes(2, 8, 4, 3),
        sizes(2, 8, most, 3),
        sizes(2, 8, 2, 0),
        sizes(2, 8, 2, 10),
        sizes(2, 8, 2, most),
        sizes(2, most, most, most),
        sizes(2, 50_331_648, 1 << 56, 1 << 56),
        sizes(most, most, most, most),
    ] {
        assert_eq!(Arrays::sized(sizes), Arrays::default(), "{sizes:?}");
    }
    for sizes in [sizes(most, 0, 0, 0), sizes(0, most, 1, 0), sizes(0, 0, most, 0), sizes(0, 0, 0, 1 << 55)] {
        assert_eq!(sizes.memory(), most, "{sizes:?}");
    }
    assert_eq!(sizes(most, most, most, most).memory(), most);
}

/// Passages and pages of more elements than any memory has: no slice is made for them.
#[test]
fn absurd_lengths() {
    let text = [2, 0, 1, 0];
    let index = Index::build(Shape::for_text(3), &text).unwrap();
    let refused = Refused { refusal: Refusal::Place, value: 0 };
    assert_eq!(index.passage(0, usize::MAX), Err(refused));
    assert_eq!(index.passage(usize::MAX, usize::MAX), Err(refused));
    let pages: Vec<_> = index.pages(&[0], usize::MAX).map(|page| page.unwrap().places).collect();
    assert_eq!(pages, [[1, 3]]);
    let pages: Vec<_> = index.pages(&[], usize::MAX).map(|page| page.unwrap().places).collect();
    assert_eq!(pages, [[0, 1, 2, 3, 4]]);
}

/// The numbers 1 to 19 have a row of the table each, 0 is no refusal, and any other number comes back as itself.
#[test]
fn refusals() {
    assert_eq!(Refusal::from_number(0), None);
    for number in 1..=19 {
        let refusal = Refusal::from_number(number).expect("a number above 0 is a refusal");
        assert_eq!(refusal.number(), number);
        assert_ne!(refusal, Refusal::Other(number));
    }
    for number in [20, u32::MAX] {
        assert_eq!(Refusal::from_number(number), Some(Refusal::Other(number)));
        assert_eq!(Refusal::Other(number).number(), number);
    }
}

/// Offsets of 16 and 17, phrases of 0, 1, 16 and 17 words that end at the end of the lent words and past it, pages of no line and of one.
#[test]
fn offsets_phrases_and_pages() {
    let text: Vec<u32> = (0..40).collect();
    let index = Index::build(Shape::for_text(40), &text).unwrap();
    let refusal = |question, words: &[u32]| index.ask(words, question).map_err(|refused| refused.refusal.number());
    assert_eq!(refusal(Question::neighbours(0, 16, 16), &[]), Ok(1));
    assert_eq!(refusal(Question::neighbours(16, 0, -16), &[]), Ok(1));
    assert_eq!(refusal(Question::neighbours(0, 17, 17), &[]), Err(10));
    assert_eq!(refusal(Question::neighbours(17, 0, -17), &[]), Err(10));
    for (start, lent, answer) in [
        (0, 40, Ok(41)),
        (40, 40, Ok(41)),
        (41, 40, Err(8)),
        (usize::MAX, 40, Err(8)),
        (0, 0, Ok(41)),
        (1, 0, Err(8)),
        (usize::MAX, 0, Err(8)),
    ] {
        assert_eq!(refusal(Question::phrase(start, 0), &text[..lent]), answer, "{start}, {lent}");
    }
    assert_eq!(refusal(Question::phrase(0, 1), &text), Ok(1));
    assert_eq!(refusal(Question::phrase(24, 16), &text), Ok(1));
    assert_eq!(refusal(Question::phrase(0, 17), &text), Err(8));
    assert_eq!(refusal(Question::phrase(25, 16), &text), Err(8));
    for phrase in [&text[..1], &[]] {
        let none: Vec<_> = index.pages(phrase, 0).collect();
        assert_eq!(none, [Err(Refused { refusal: Refusal::Page, value: 0 })], "{phrase:?}");
    }
    let one: Vec<_> = index.pages(&text[..1], 1).map(|page| page.unwrap().places).collect();
    assert_eq!(one, [[0]]);
}

/// The phrase of no words in the empty text, whose one place is 0.
#[test]
fn one_place() {
    let index = Index::build(Shape::for_text(1), &[]).unwrap();
    assert_eq!(index.count(&[]), Ok(1));
    for lines in [1, 2, usize::MAX] {
        let mut pages = index.pages(&[], lines);
        assert_eq!(pages.next(), Some(Ok(Page { places: vec![0], more: false })), "{lines}");
        assert_eq!((pages.listing(), pages.next()), (Listing { next: 0, finished: true }, None), "{lines}");
    }
    assert_eq!(index.passage(0, 0), Ok(vec![]));
}

/// The phrase of no words in the longest text: its count, alone and in a sheet, its listing on a page of all places and on one that ends
/// before the last, and the pages about the end, which never return a next place above it.
#[test]
fn most_places() {
    let index = Index::build(Shape::for_text(1), &vec![0; MAX_WORDS]).expect("the longest text is one");
    assert_eq!(index.count(&[]), Ok(MAX_WORDS + 1));
    let sheet = index.answer_sheet(&[0], &[Question::phrase(1, 0), Question::phrase(2, 0)]);
    assert_eq!(sheet, Ok(vec![Ok(MAX_WORDS as u32 + 1), Err(Refusal::Phrase)]));

    let last = MAX_WORDS as u32;
    let all = index.pages(&[], usize::MAX).next().unwrap().unwrap();
    assert!(!all.more && all.places.into_iter().eq(0..=last));
    let mut pages = index.pages(&[], MAX_WORDS);
    let first = pages.next().unwrap().unwrap();
    assert!(first.more && first.places.into_iter().eq(0..last));
    assert_eq!(pages.listing(), Listing { next: MAX_WORDS, finished: false });
    assert_eq!(pages.next(), Some(Ok(Page { places: vec![last], more: false })));
    assert_eq!((pages.listing(), pages.next()), (Listing { next: MAX_WORDS, finished: true }, None));

    for (next, lines) in (MAX_WORDS - 2..=MAX_WORDS).flat_map(|next| (1..=4).map(move |lines| (next, lines))) {
        let mut ours = [7; 4];
        let state = Listing { next, finished: false };
        let page = entries::list(state, index.shape(), index.arrays().slices(), &[], 0, 0, &mut ours[..lines]);
        let written = lines.min(MAX_WORDS + 1 - next);
        let more = next + written <= MAX_WORDS;
        assert_eq!((page.answer, page.more), (reference::accepted(written), more), "{next}, {lines}");
        let listing = Listing { next: (next + written).min(MAX_WORDS), finished: !more };
        assert_eq!(page.listing, listing, "{next}, {lines}");
        let places: Vec<u32> = (next as u32..).take(written).chain([7; 4]).take(4).collect();
        assert_eq!(ours[..], places, "{next}, {lines}");
    }
    let state = Listing { next: MAX_WORDS + 1, finished: false };
    let page = entries::list(state, index.shape(), index.arrays().slices(), &[], 0, 0, &mut [7]);
    assert_eq!((page.answer, page.more, page.listing), (reference::refused(11), false, state));
}

/// The longest text in one document, in two, of which the last has one word, in three, and in a document for each word, where an absent word has as many zeros
/// as there are words; a start at its end, and one more than there are words, are refused by 19.
#[test]
fn most_documents() {
    let places = [5, 6, MAX_WORDS / 2, MAX_WORDS - 2, MAX_WORDS - 1];
    let mut text = vec![0; MAX_WORDS];
    for place in places {
        text[place] = 1;
    }
    let index = Index::build(Shape::for_text(2), &text).expect("the longest text is one");
    let last = MAX_WORDS as u32 - 1;
    for (starts, counts) in [(&[0][..], &[2][..]), (&[0, last], &[1, 0]), (&[0, 6, last - 1], &[0, 0, 1])] {
        let documents = index.in_documents(starts);
        assert_eq!(documents.summary(&[1, 1]), Ok(counts.to_vec()), "{starts:?}");
        assert_eq!(documents.count(&[1, 1]), Ok(counts.iter().sum::<u32>() as usize), "{starts:?}");
    }
    let mut starts: Vec<u32> = (0..=last).collect();
    let documents = index.in_documents(&starts);
    let counts = documents.summary(&[1]).expect("each word is a document");
    let found = counts.iter().enumerate().filter(|(_, &count)| count != 0);
    assert!(found.map(|(place, &count)| (place, count)).eq(places.map(|place| (place, 1))));
    assert_eq!(counts.len(), MAX_WORDS);
    let counts = documents.summary(&[1, 2]).expect("2 is an absent word");
    assert!(counts.len() == MAX_WORDS && counts.iter().all(|&count| count == 0));
    let sheet = [Question::phrase(0, 1), Question::phrase(0, 2), Question::phrase(0, 0), Question::neighbours(1, 1, 1)];
    let answers = [5, 0, MAX_WORDS as u32 + 1, 0].map(Ok);
    assert_eq!(documents.answer_sheet(&[1, 1], &sheet), Ok(answers.to_vec()));
    let pages: Vec<_> = documents.pages(&[1], 4).map(|page| page.unwrap().places).collect();
    assert_eq!(pages, [&[5, 6, last / 2 + 1, last - 1][..], &[last]]);

    let refused = Refused { refusal: Refusal::Documents, value: 0 };
    starts.push(last + 1);
    assert_eq!(index.in_documents(&starts).summary(&[1]), Err(refused));
    assert_eq!(index.in_documents(&[0, last + 1]).summary(&[1]), Err(refused));
    assert_eq!(index.in_documents(&[0, last, last]).count(&[1]), Err(refused));
}

/// A list of so many distinct words, of digits and letters.
fn list_of(words: usize) -> Vec<u8> {
    (0..words).flat_map(|number| format!("w{number}\n").into_bytes()).collect()
}

/// Word lists of no word, of one part and of more, of the largest vocabulary and of one word more: texts that are read through them, and spelled words that
/// are found in them or that they lack.
#[test]
fn word_lists() {
    for (words, refusal) in [(0, 1), (1, 0), (65_535, 0), (65_536, 0), (MAX_VOCABULARY, 0), (MAX_VOCABULARY + 1, 1)] {
        let list = list_of(words);
        let asked = [0, words / 2, words.saturating_sub(1)];
        let text = asked.map(|number| format!("W{number},")).concat().into_bytes();
        let mut ranks = [9; 4];
        let answer = entries::read_text(&list, &text, &mut ranks);
        assert_eq!(answer.refusal, refusal, "{words}");
        for number in [0, words.saturating_sub(1), words] {
            let found = entries::find_word(&list, format!("W{number}").as_bytes());
            let expected = if refusal == 0 { reference::accepted(number) } else { reference::refused(refusal) };
            assert_eq!(found, expected, "{number} of {words}");
        }
        if refusal == 0 {
            assert_eq!((answer.value, ranks), (3, [asked[0] as u32, asked[1] as u32, asked[2] as u32, 9]));
            let mut unlisted = text.clone();
            unlisted.extend(format!("w{words} x").into_bytes());
            let mut ranks = [9; 5];
            let answer = entries::read_text(&list, &unlisted, &mut ranks);
            assert_eq!((answer.refusal, answer.value, ranks), (14, text.len(), [9; 5]));
            let mut twice = list.clone();
            twice.extend_from_slice(b"w0\n");
            let expected = if words == MAX_VOCABULARY { 1 } else { 13 };
            assert_eq!(entries::read_text(&twice, &text, &mut [9; 4]).refusal, expected);
            assert_eq!(entries::find_word(&twice, b"w0"), reference::refused(expected));
        }
    }
}

/// A plain text of the most words, and of one word more.
#[test]
fn longest_plain_text() {
    let mut text = b"a ".repeat(MAX_WORDS);
    let mut ranks = vec![9; MAX_WORDS + 1];
    assert_eq!(entries::read_text(b"b\na\n", &text, &mut ranks), reference::accepted(MAX_WORDS));
    assert!(ranks[..MAX_WORDS].iter().all(|&rank| rank == 1) && ranks[MAX_WORDS] == 9);
    text.extend_from_slice(b"b");
    assert_eq!(entries::read_text(b"b\na\n", &text, &mut ranks), reference::refused(2));
}

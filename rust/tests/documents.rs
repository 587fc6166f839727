//! Questions, sheets, pages and summaries with document starts, against the reference, which cuts the text at them.
mod support;
use concordance::entries::{self, Answer, RawPage};
use concordance::{Arrays, Documents, Index, Listing, Page, Question, Refusal, Refused, Shape};
use support::random::Random;
use support::{inputs, reference};

/// What the slices hold that are lent to be filled: the pairs of a sheet, the lines of a page, the counts of a summary.
const PAIRS: u32 = 0x5555_5555;
const LINES: u32 = 0x7777_7777;
const COUNTS: u32 = 0x3333_3333;

/// What is lent to a call.
#[derive(Clone, Debug)]
struct Lent {
    shape: Shape,
    arrays: Arrays,
    starts: Vec<u32>,
    words: Vec<u32>,
}

/// The index of a text, with document starts and the words of phrases.
fn lent(shape: Shape, text: &[u32], starts: &[u32], words: &[u32]) -> Lent {
    Lent { shape, arrays: reference::index(shape, text), starts: starts.to_vec(), words: words.to_vec() }
}

impl Lent {
    /// The answer to a question, which is the reference's.
    fn ask(&self, question: Question) -> Answer {
        let Lent { shape, arrays, starts, words } = self;
        let answer = entries::ask_in_documents(*shape, arrays.slices(), starts, words, question);
        let expected = reference::ask_in_documents(*shape, arrays, starts, words, question);
        assert_eq!(answer, expected, "{question:?}, {self:?}");
        answer
    }

    /// The answer of a sheet in a slice of so many elements, and the slice; both are the reference's.
    fn answer_sheet(&self, questions: &[Question], room: usize) -> (Answer, Vec<u32>) {
        let Lent { shape, arrays, starts, words } = self;
        let (mut ours, mut theirs) = (vec![PAIRS; room], vec![PAIRS; room]);
        let answer = entries::answer_sheet_in_documents(*shape, arrays.slices(), starts, words, questions, &mut ours);
        let expected = reference::answer_sheet_in_documents(*shape, arrays, starts, words, questions, &mut theirs);
        assert_eq!((answer, &ours), (expected, &theirs), "{questions:?}, {self:?}");
        (answer, ours)
    }

    /// The page of a part of the lent words in a slice of so many lines, and the slice; both are the reference's.
    fn list(&self, state: Listing, part: (usize, usize), lines: usize) -> (RawPage, Vec<u32>) {
        let Lent { shape, arrays, starts, words } = self;
        let (mut ours, mut theirs) = (vec![LINES; lines], vec![LINES; lines]);
        let page = entries::list_in_documents(state, *shape, arrays.slices(), starts, words, part.0, part.1, &mut ours);
        let expected = reference::page_in_documents(state, *shape, arrays, starts, words, part, &mut theirs);
        assert_eq!((page, &ours), (expected, &theirs), "{state:?}, {part:?}, {self:?}");
        (page, ours)
    }

    /// The answer of the summary of a part of the lent words in a slice of so many elements, and the slice; both are the reference's.
    fn summary(&self, part: (usize, usize), room: usize) -> (Answer, Vec<u32>) {
        let Lent { shape, arrays, starts, words } = self;
        let (mut ours, mut theirs) = (vec![COUNTS; room], vec![COUNTS; room]);
        let answer = entries::summary(*shape, arrays.slices(), starts, words, part.0, part.1, &mut ours);
        let expected = reference::summary(*shape, arrays, starts, words, part, &mut theirs);
        assert_eq!((answer, &ours), (expected, &theirs), "{part:?}, {self:?}");
        (answer, ours)
    }
}

/// A shape for small texts.
fn small(vocabulary: usize) -> Shape {
    Shape { vocabulary, block: 4, per_superblock: 2 }
}

/// How often each refusal was met, by its number, 0 for accepted.
type Met = [usize; 20];

/// Asserts that some refusals were met more than so many times.
fn assert_met(met: Met, numbers: &[usize], times: usize) {
    assert!(numbers.iter().all(|&number| met[number] > times), "{met:?}");
}

// ---- samples

/// In 7 7 7 7 7 the counts of 7 7, of 7 and of no words, and of the pairs of 7 and 7 at the offsets 1, -1, 0 and -2, by the starts.
#[test]
fn sample_counts() {
    let mut questions = [2, 1, 0].map(|length| Question::phrase(0, length)).to_vec();
    questions.extend([1, -1, 0, -2].map(|d| Question::neighbours(7, 7, d)));
    for (starts, values) in [
        (&[0][..], [4, 5, 6, 4, 4, 5, 3]),
        (&[0, 2], [3, 5, 6, 3, 3, 5, 1]),
        (&[0, 4], [3, 5, 6, 3, 3, 5, 2]),
        (&[0, 2, 3], [2, 5, 6, 2, 2, 5, 0]),
        (&[0, 1, 2, 3, 4], [0, 5, 6, 0, 0, 5, 0]),
    ] {
        let lent = lent(small(8), &[7; 5], starts, &[7, 7]);
        let sheet = (reference::accepted(14), values.map(|value| [0, value]).concat());
        assert_eq!(lent.answer_sheet(&questions, 14), sheet, "{starts:?}");
        for (question, value) in questions.iter().zip(values) {
            assert_eq!(lent.ask(*question), reference::accepted(value as usize), "{question:?}, {starts:?}");
        }
    }
    questions.extend([Question::word_at(0), Question::occurrences_below(7, 5), Question::place_of(7, 1)]);
    for starts in [&[][..], &[1], &[0, 0], &[0, 5], &[0, 3, 2]] {
        let lent = lent(small(8), &[7; 5], starts, &[7, 7]);
        for question in &questions {
            assert_eq!(lent.ask(*question), reference::refused(19), "{question:?}, {starts:?}");
        }
        assert_eq!(lent.answer_sheet(&questions, 20), (reference::refused(19), vec![PAIRS; 20]), "{starts:?}");
    }
}

/// In 0 128 0 129 128 a phrase and pairs about a border.
#[test]
fn sample_borders() {
    for (starts, question, value) in [
        (&[0, 1, 3][..], Question::phrase(0, 2), 0),
        (&[0, 2], Question::phrase(0, 2), 1),
        (&[0, 3], Question::neighbours(0, 129, 1), 0),
        (&[0, 2], Question::neighbours(129, 0, -1), 1),
    ] {
        let lent = lent(small(130), &[0, 128, 0, 129, 128], starts, &[0, 128]);
        assert_eq!(lent.ask(question), reference::accepted(value), "{question:?}, {starts:?}");
    }
}

/// Pages of 7 7 in 7 7 7 7 7 with the starts 0 and 2, by their lines: the places, next and more.
#[test]
fn sample_pages() {
    let lent = lent(small(8), &[7; 5], &[0, 2], &[7, 7]);
    for (lines, pages) in [
        (1, &[(&[0][..], 1, true), (&[2], 3, true), (&[3], 5, false), (&[LINES], 5, false)][..]),
        (2, &[(&[0, 2], 3, true), (&[3, LINES], 5, false)]),
        (3, &[(&[0, 2, 3], 5, false)]),
    ] {
        let mut state = entries::open();
        for &(slice, next, more) in pages {
            let written = slice.iter().filter(|&&line| line != LINES).count();
            let listing = Listing { next, finished: !more };
            let page = RawPage { answer: reference::accepted(written), more, listing };
            assert_eq!(lent.list(state, (0, 2), lines), (page, slice.to_vec()), "{lines}, {state:?}");
            state = listing;
        }
    }
}

/// Summaries of 7, 7 7, 7 7 7 and 7 7 7 7 in 7 7 7 7 7, of phrases with 8, which is V, and refused ones.
#[test]
fn sample_summaries() {
    for (starts, length, counts) in [
        (&[0, 2][..], 1, [2, 3, COUNTS, COUNTS, COUNTS]),
        (&[0, 2], 2, [1, 2, COUNTS, COUNTS, COUNTS]),
        (&[0, 2], 3, [0, 1, COUNTS, COUNTS, COUNTS]),
        (&[0, 2], 4, [0, 0, COUNTS, COUNTS, COUNTS]),
        (&[0], 2, [4, COUNTS, COUNTS, COUNTS, COUNTS]),
        (&[0, 1, 4], 2, [0, 2, 0, COUNTS, COUNTS]),
        (&[0, 1, 2, 3, 4], 1, [1, 1, 1, 1, 1]),
    ] {
        let lent = lent(small(8), &[7; 5], starts, &[7; 4]);
        let summary = (reference::accepted(starts.len()), counts.to_vec());
        assert_eq!(lent.summary((0, length), 5), summary, "{starts:?}, {length}");
    }
    let lent = lent(small(8), &[7; 5], &[0, 2], &[7, 8, 9]);
    for part in [(1, 1), (0, 2)] {
        assert_eq!(lent.summary(part, 3), (reference::accepted(2), vec![0, 0, COUNTS]), "{part:?}");
    }
    for (part, room, refusal) in
        [((0, 0), 3, 8), ((2, 1), 3, 9), ((1, 2), 1, 9), ((0, 1), 1, 12), ((1, 1), 1, 12), ((3, 1), 0, 8)]
    {
        assert_eq!(lent.summary(part, room), (reference::refused(refusal), vec![COUNTS; room]), "{part:?}, {room}");
    }
}

/// The empty text has no document: with no start it is counted and listed, and its summary has no count; every start is refused.
#[test]
fn empty_text() {
    for vocabulary in [1, 8, 130] {
        let mut lent = lent(small(vocabulary), &[], &[], &[0, 0]);
        for (question, value) in [(Question::phrase(0, 0), 1), (Question::phrase(0, 1), 0), (Question::phrase(2, 0), 1)]
        {
            assert_eq!(lent.ask(question), reference::accepted(value), "{question:?}");
        }
        assert_eq!(lent.ask(Question::neighbours(0, 0, 0)), reference::accepted(0));
        let page = |value| RawPage {
            answer: reference::accepted(value),
            more: false,
            listing: Listing { next: 0, finished: true },
        };
        assert_eq!(lent.list(entries::open(), (0, 0), 2), (page(1), vec![0, LINES]));
        assert_eq!(lent.list(entries::open(), (0, 1), 2), (page(0), vec![LINES; 2]));
        for room in 0..3 {
            assert_eq!(lent.summary((0, 2), room), (reference::accepted(0), vec![COUNTS; room]));
        }
        for starts in [&[0][..], &[1], &[0, 0], &[0, 1], &[u32::MAX]] {
            lent.starts = starts.to_vec();
            assert_eq!(lent.ask(Question::phrase(0, 0)), reference::refused(19), "{starts:?}");
            assert_eq!(lent.answer_sheet(&[], 0).0, reference::refused(19), "{starts:?}");
            assert_eq!(lent.list(entries::open(), (0, 0), 2).0.answer, reference::refused(19), "{starts:?}");
            assert_eq!(lent.summary((0, 2), 2).0, reference::refused(19), "{starts:?}");
        }
    }
}

// ---- borders

/// Forty different words.
fn different_words() -> Vec<u32> {
    (100..140).collect()
}

/// Forty different words with one border, at each place, and phrases of every length: one stands exactly if the border is not between its words.
#[test]
fn phrases_about_a_border() {
    let text = different_words();
    for border in 1..text.len() {
        let lent = lent(small(140), &text, &[0, border as u32], &text);
        let parts = [0, 3, 11, 23, 24, 39].into_iter().flat_map(|place| (1..=16).map(move |length| (place, length)));
        for part in parts.filter(|(place, length)| place + length <= text.len()) {
            let (place, length) = part;
            let stands = border <= place || border >= place + length;
            let count = reference::accepted(usize::from(stands));
            assert_eq!(lent.ask(Question::phrase(place, length)), count, "{border}, {part:?}");
            let page = RawPage { answer: count, more: false, listing: Listing { next: 40, finished: true } };
            let line = if stands { place as u32 } else { LINES };
            assert_eq!(lent.list(entries::open(), part, 1), (page, vec![line]), "{border}, {part:?}");
            let counts = [stands && place < border, stands && place >= border].map(u32::from);
            assert_eq!(lent.summary(part, 2), (reference::accepted(2), counts.to_vec()), "{border}, {part:?}");
        }
    }
}

/// The same of pairs at every offset: both words must lie on one side of the border.
#[test]
fn pairs_about_a_border() {
    let text = different_words();
    for border in 1..40 {
        let lent = lent(small(140), &text, &[0, border as u32], &[]);
        let (mut questions, mut pairs) = (Vec::new(), Vec::new());
        for (place, d) in [0, 5, 19, 20, 39].into_iter().flat_map(|place| (-16..=16).map(move |d| (place, d))) {
            let other = place + d;
            if (0..40).contains(&other) {
                questions.push(Question::neighbours(text[place as usize], text[other as usize], d));
                pairs.extend([0, u32::from((place < border) == (other < border))]);
            }
        }
        let sheet = (reference::accepted(pairs.len()), pairs);
        assert_eq!(lent.answer_sheet(&questions, 2 * questions.len()), sheet, "{border}");
    }
}

// ---- the rules of starts

/// All slices of up to so many of some numbers.
fn slices_of(numbers: &[u32], longest: usize) -> Vec<Vec<u32>> {
    let mut all = vec![vec![]];
    let mut last = all.clone();
    for _ in 0..longest {
        last = last.iter().flat_map(|slice| numbers.iter().map(move |&next| [&slice[..], &[next]].concat())).collect();
        all.extend_from_slice(&last);
    }
    all
}

/// Every slice of up to four numbers, in texts of one word repeated up to three times: each of the four calls is refused by 19 exactly if they break a
/// rule, whatever it is asked, and changes nothing then.
#[test]
fn every_small_slice_of_starts() {
    let (mut good, mut bad) = (0, 0);
    for words in 0..=3 {
        let numbers: Vec<u32> = (0..=words as u32 + 1).chain([u32::MAX]).collect();
        for starts in slices_of(&numbers, 4) {
            let first = starts.first().map_or(words == 0, |&start| start == 0);
            let ascending = starts.windows(2).all(|two| two[0] < two[1]);
            let keeps = first && ascending && starts.iter().all(|&start| (start as usize) < words);
            let answer = |value| if keeps { reference::accepted(value) } else { reference::refused(19) };
            let lent = lent(small(2), &vec![1; words], &starts, &[1, 0]);

            let below = Question::occurrences_below(1, words);
            for (question, value) in [
                (below, words),
                (Question::neighbours(1, 1, 0), words),
                (Question::phrase(0, 1), words),
                (Question::phrase(2, 0), words + 1),
            ] {
                assert_eq!(lent.ask(question), answer(value), "{question:?}, {words}, {starts:?}");
            }
            assert_eq!(lent.answer_sheet(&[], 0).0, answer(0), "{words}, {starts:?}");
            let pair = if keeps { [0, words as u32] } else { [PAIRS; 2] };
            assert_eq!(lent.answer_sheet(&[below], 2), (answer(2), pair.to_vec()), "{words}, {starts:?}");
            for finished in [false, true] {
                let state = Listing { next: words, finished };
                let listing = if keeps { Listing { finished: true, ..state } } else { state };
                let page = RawPage { answer: answer(0), more: false, listing };
                assert_eq!(lent.list(state, (0, 1), 1), (page, vec![LINES]), "{words}, {starts:?}");
            }
            let mut counts = vec![COUNTS; 4];
            if keeps {
                let ends = starts.iter().skip(1).copied().chain([words as u32]);
                let lengths = starts.iter().zip(ends).map(|(start, end)| end - start);
                counts.splice(..starts.len(), lengths);
            }
            assert_eq!(lent.summary((0, 1), 4), (answer(starts.len()), counts), "{words}, {starts:?}");
            good += usize::from(keeps);
            bad += usize::from(!keeps);
        }
    }
    assert_eq!((good, bad), (8, 2_790));
}

/// Starts of random texts with one rule broken: each call is refused by 19 and changes nothing, and with the rule kept it is accepted.
#[test]
fn broken_starts() {
    let mut random = Random::of("broken_starts");
    for _ in 0..1_500 {
        let vocabulary = inputs::vocabulary(&mut random);
        let text = inputs::text(&mut random, vocabulary);
        let shape = inputs::shape(&mut random, vocabulary);
        let starts = inputs::starts(&mut random, text.len());
        let good = lent(shape, &text, &starts, &[0]);
        let bad = Lent { starts: inputs::broken_starts(&mut random, text.len()), ..good.clone() };
        let questions = [Question::phrase(0, 1), Question::neighbours(0, 0, 1), Question::occurrences_below(0, 0)];
        for question in questions {
            assert_eq!(good.ask(question).refusal, 0, "{good:?}");
            assert_eq!(bad.ask(question), reference::refused(19), "{bad:?}");
        }
        assert_eq!(good.answer_sheet(&questions, 7).0, reference::accepted(6), "{good:?}");
        assert_eq!(bad.answer_sheet(&questions, 7), (reference::refused(19), vec![PAIRS; 7]), "{bad:?}");
        let state = Listing { next: random.below(text.len() + 1), finished: random.once_in(3) };
        assert_eq!(good.list(state, (0, 1), 2).0.answer.refusal, 0, "{good:?}");
        let page = RawPage { answer: reference::refused(19), more: false, listing: state };
        assert_eq!(bad.list(state, (0, 1), 2), (page, vec![LINES; 2]), "{bad:?}");
        let room = starts.len() + random.below(3);
        assert_eq!(good.summary((0, 1), room).0, reference::accepted(starts.len()), "{good:?}");
        assert_eq!(bad.summary((0, 1), room), (reference::refused(19), vec![COUNTS; room]), "{bad:?}");
    }
}

// ---- the order of refusals

/// Starts of three words that break a rule.
const BROKEN: [&[u32]; 7] = [&[], &[1], &[0, 0], &[0, 2, 1], &[0, 3], &[0, u32::MAX], &[0, 1, 2, 3, 4]];

/// The index of 1 0 1, with the starts 0 and 2 and seventeen words, and with some of five faults: V outside its limits, B 0, a counter off by one, starts
/// that break a rule, and a second word that is above V.
fn faulty([no_vocabulary, no_blocks, damaged, broken, unknown]: [bool; 5], starts: &[u32]) -> Lent {
    let mut words = [1; 17];
    words[1] = if unknown { 3 } else { 0 };
    let mut lent = lent(small(2), &[1, 0, 1], if broken { starts } else { &[0, 2] }, &words);
    if no_vocabulary {
        lent.shape.vocabulary = 0;
    }
    if no_blocks {
        lent.shape.block = 0;
    }
    lent.arrays.blocks[0] += u16::from(damaged);
    lent
}

/// The faults that are there, as bits of a number.
fn bits<const COUNT: usize>(number: usize) -> [bool; COUNT] {
    std::array::from_fn(|bit| number >> bit & 1 == 1)
}

/// The answer with a value where no fault is there, and otherwise the refusal of the first that is.
fn first_of(faults: &[(bool, u32)], value: usize) -> Answer {
    match reference::first_of(faults) {
        0 => reference::accepted(value),
        refusal => reference::refused(refusal),
    }
}

/// Several faults at once in a question of each kind, and in a sheet of it: 1, 3, 6 and 19 come first, whatever the kind, then 7 and the faults of the kind, in
/// a sheet 12 and then, in the pair, these.
#[test]
fn order_of_refusals_of_questions() {
    for (kind, number) in (1..=5).flat_map(|kind| (0..256).map(move |number| (kind, number))) {
        let [no_vocabulary, no_blocks, damaged, broken, no_kind, first, second, short] = bits(number);
        let lent = faulty([no_vocabulary, no_blocks, damaged, broken, second && kind == 5], BROKEN[number % 7]);
        let rank = |unknown: bool| if unknown { 3 } else { 1 };
        let (question, faults, value) = match kind {
            1 => (Question::word_at(if second { 3 } else { 2 }), [(false, 0), (second, 11)], 1),
            2 => (Question::occurrences_below(rank(first), if second { 4 } else { 3 }), [(first, 9), (second, 11)], 2),
            3 => (Question::place_of(rank(first), if second { 3 } else { 2 }), [(first, 9), (second, 11)], 2),
            4 => {
                let v = if first { 3 } else { 0 };
                (Question::neighbours(1, v, if second { 17 } else { 1 }), [(first, 9), (second, 10)], 1)
            }
            _ => (Question::phrase(0, if first { 17 } else { 2 }), [(first, 8), (second, 9)], 1),
        };
        let question = Question { kind: if no_kind { 6 * (kind % 2) } else { question.kind }, ..question };
        let of_index = [(no_vocabulary, 1), (no_blocks, 3), (damaged, 6), (broken, 19)];
        let of_question = [(no_kind, 7), faults[0], faults[1]];
        let single = first_of(&[&of_index[..], &of_question].concat(), value);
        assert_eq!(lent.ask(question), single, "{kind}, {number:08b}");

        let room = if short { 1 } else { 3 };
        let sheet = first_of(&[&of_index[..], &[(short, 12)]].concat(), 2);
        let pairs =
            if sheet.refusal == 0 { vec![single.refusal, single.value as u32, PAIRS] } else { vec![PAIRS; room] };
        assert_eq!(lent.answer_sheet(&[question], room), (sheet, pairs), "{kind}, {number:08b}");
    }
}

/// Several faults at once in a page: the first of 1, 3, 6, 19, 8, 9, 11 and 12 answers, finished or not, the state comes back, and nothing is written.
#[test]
fn order_of_refusals_of_pages() {
    for (number, finished) in (0..256).flat_map(|number| [(number, false), (number, true)]) {
        let [no_vocabulary, no_blocks, damaged, broken, outside, unknown, above, no_lines] = bits(number);
        let lent = faulty([no_vocabulary, no_blocks, damaged, broken, unknown], BROKEN[number % 7]);
        for part in if outside { [(0, 17), (16, 2), (usize::MAX, 1)] } else { [(0, 2); 3] } {
            let state = Listing { next: if above { 4 } else { 0 }, finished };
            let (page, lines) = lent.list(state, part, if no_lines { 0 } else { 2 });
            let faults = [(outside, 8), (unknown, 9), (above, 11), (no_lines, 12)];
            let of_index = [(no_vocabulary, 1), (no_blocks, 3), (damaged, 6), (broken, 19)];
            let answer = first_of(&[of_index, faults].concat(), usize::from(!finished));
            assert_eq!((page.answer, page.more), (answer, false), "{number:08b}, {part:?}");
            if answer.refusal != 0 {
                assert_eq!(page.listing, state, "{number:08b}, {part:?}");
                assert!(lines.iter().all(|&line| line == LINES), "{number:08b}, {part:?}");
            }
        }
    }
}

/// Several faults at once in a summary: the first of 1, 3, 6, 19, 8, 9 and 12 answers, and nothing is written.
#[test]
fn order_of_refusals_of_summaries() {
    for number in 0..128 {
        let [no_vocabulary, no_blocks, damaged, broken, outside, unknown, short] = bits(number);
        let lent = faulty([no_vocabulary, no_blocks, damaged, broken, unknown], BROKEN[number % 7]);
        for part in if outside { [(0, 0), (0, 17), (16, 2), (usize::MAX, 2)] } else { [(0, 2); 4] } {
            for room in if short { [0, 1] } else { [2, 3] } {
                let faults = [(outside, 8), (unknown, 9), (short, 12)];
                let of_index = [(no_vocabulary, 1), (no_blocks, 3), (damaged, 6), (broken, 19)];
                let answer = first_of(&[&of_index[..], &faults].concat(), 2);
                let mut counts = vec![COUNTS; room];
                if answer.refusal == 0 {
                    counts[..2].copy_from_slice(&[1, 0]);
                }
                assert_eq!(lent.summary(part, room), (answer, counts), "{number:07b}, {part:?}, {room}");
            }
        }
    }
}

// ---- random calls

/// The index of a random text, now and then damaged, with the shape of another or with one outside its limits, with starts that may break a rule, and the
/// text.
fn drawn(random: &mut Random) -> (Lent, Vec<u32>) {
    let vocabulary = inputs::vocabulary(random);
    let shape = inputs::shape(random, vocabulary);
    let text = inputs::text(random, vocabulary);
    let starts = inputs::any_starts(random, text.len());
    let words = inputs::words(random, vocabulary, &text);
    let mut lent = lent(shape, &text, &starts, &words);
    if random.once_in(8) {
        inputs::damage(random, shape, &mut lent.arrays);
    }
    match random.below(40) {
        0 => lent.shape = inputs::any_shape(random),
        1 => lent.shape.vocabulary = random.one_of(&[0, reference::MAX_VOCABULARY + 1, usize::MAX]),
        2 => lent.shape.block = random.one_of(&[0, 65_536, usize::MAX]),
        3 => lent.shape.per_superblock = random.one_of(&[0, 65_536, usize::MAX]),
        _ => {}
    }
    (lent, text)
}

/// Questions of every kind, one by one and in sheets in slices of any length; the sheet's answers are the single ones.
#[test]
fn random_questions() {
    let mut random = Random::of("random_questions");
    let (mut met, mut met_by_sheets): (Met, Met) = ([0; 20], [0; 20]);
    let (mut absent, mut above) = ([0; 6], [0; 6]);
    for _ in 0..3_000 {
        let (lent, text) = drawn(&mut random);
        let count = random.below(8);
        let vocabulary = lent.shape.vocabulary.clamp(1, 40_000);
        let questions: Vec<_> =
            (0..count).map(|_| inputs::question(&mut random, vocabulary, &text, &lent.words)).collect();
        let room = (2 * count + random.below(4)).saturating_sub(random.one_of(&[0, 0, 0, 1, 2]));
        let (answer, pairs) = lent.answer_sheet(&questions, room);
        met_by_sheets[answer.refusal as usize] += 1;
        for (at, question) in questions.iter().enumerate() {
            let single = lent.ask(*question);
            met[single.refusal as usize] += 1;
            if single.refusal == 9 {
                above[question.kind as usize] += 1;
            }
            let of_index = [1, 3, 6, 19].contains(&single.refusal);
            if !of_index && inputs::asks_about_absent(lent.shape.vocabulary, &lent.words, *question) {
                assert_eq!(single.value, 0, "{question:?}, {lent:?}");
                absent[question.kind as usize] += 1;
            }
            if answer.refusal == 0 {
                assert_eq!(pairs[2 * at..2 * at + 2], [single.refusal, single.value as u32], "{question:?}, {lent:?}");
            }
        }
    }
    assert_met(met, &[0, 1, 3, 6, 7, 8, 9, 10, 11, 19], 30);
    assert!(absent[2..].iter().chain(&above[2..]).all(|&times| times > 10), "{absent:?} absent, {above:?} above V");
    assert_met(met_by_sheets, &[0, 1, 3, 6, 12, 19], 10);
}

/// Pairs of words of a text at every offset: as many as in the documents one by one, and as many with the words exchanged and the offset negated.
#[test]
fn every_offset() {
    let mut random = Random::of("every_offset");
    let (mut found, mut lost) = (0, 0);
    for _ in 0..400 {
        let vocabulary = inputs::vocabulary(&mut random);
        let shape = inputs::shape(&mut random, vocabulary);
        let text = inputs::text(&mut random, vocabulary);
        let starts = inputs::starts(&mut random, text.len());
        let documents = reference::documents(&text, &starts).expect("the starts keep the rules");
        let some = |random: &mut Random| if text.is_empty() { 0 } else { random.one_of(&text) };
        let (w, v) = (some(&mut random), some(&mut random));
        let lent = lent(shape, &text, &starts, &[]);
        let questions: Vec<_> =
            (-16..=16).flat_map(|d| [Question::neighbours(w, v, d), Question::neighbours(v, w, -d)]).collect();
        let (answer, pairs) = lent.answer_sheet(&questions, 2 * questions.len());
        assert_eq!(answer, reference::accepted(2 * questions.len()), "{lent:?}");
        for (d, mirrored) in (-16..=16).zip(pairs.chunks(4)) {
            let inside: usize = documents.iter().map(|document| reference::neighbours(document, w, v, d)).sum();
            assert_eq!(mirrored, [0, inside as u32, 0, inside as u32], "{w}, {v}, {d}, {lent:?}");
            found += inside;
            lost += reference::neighbours(&text, w, v, d) - inside;
        }
    }
    assert!(found > 10_000 && lost > 10_000, "{found} in one document, {lost} not");
}

/// A place of a listing about a text of so many words, inside or not.
fn next_place(random: &mut Random, words: usize) -> usize {
    match random.below(6) {
        0 => random.one_of(&[words + 1, usize::MAX]),
        1 => words,
        _ => random.below(words + 1),
    }
}

/// Pages of any part of the lent words from any state.
#[test]
fn random_pages() {
    let mut random = Random::of("random_pages");
    let mut met: Met = [0; 20];
    let mut absent = 0;
    for _ in 0..6_000 {
        let (lent, text) = drawn(&mut random);
        let part = inputs::part(&mut random, &lent.words);
        let state = Listing { next: next_place(&mut random, text.len()), finished: random.once_in(4) };
        let lines = random.below(5);
        let (page, _) = lent.list(state, part, lines);
        met[page.answer.refusal as usize] += 1;
        absent +=
            usize::from(page.answer.refusal == 0 && inputs::part_has_absent(lent.shape.vocabulary, &lent.words, part));
    }
    assert_met(met, &[0, 1, 3, 6, 8, 9, 11, 12, 19], 30);
    assert!(absent > 50, "{absent} pages of a phrase with an absent word");
}

/// Summaries of any part of the lent words in slices of any length: accepted, they add up to the count, and each is the count in an index of the document
/// by itself.
#[test]
fn random_summaries() {
    let mut random = Random::of("random_summaries");
    let mut met: Met = [0; 20];
    let (mut hits, mut absent) = (0, 0);
    for _ in 0..6_000 {
        let (lent, _) = drawn(&mut random);
        let (start, length) = match random.below(4) {
            0 => inputs::part(&mut random, &lent.words),
            _ if lent.words.is_empty() => (0, 0),
            _ => (random.below(lent.words.len()), random.between(1, 3)),
        };
        let room = (lent.starts.len() + random.below(3)).saturating_sub(random.one_of(&[0, 0, 0, 1, 2, 100]));
        let (answer, counts) = lent.summary((start, length), room);
        met[answer.refusal as usize] += 1;
        if answer.refusal != 0 {
            continue;
        }
        let sum = counts[..answer.value].iter().map(|&count| count as usize).sum();
        assert_eq!(lent.ask(Question::phrase(start, length)), reference::accepted(sum), "{lent:?}");
        hits += sum;
        if inputs::part_has_absent(lent.shape.vocabulary, &lent.words, (start, length)) {
            assert_eq!(sum, 0, "{lent:?}");
            absent += 1;
        }
        if answer.value > 20 {
            continue;
        }
        let text = reference::text_of(lent.shape, &lent.arrays).expect("the index has passed");
        let documents = reference::documents(&text, &lent.starts).expect("the starts keep the rules");
        for (document, &count) in documents.iter().zip(&counts) {
            let alone = reference::index(lent.shape, document);
            let question = Question::phrase(start, length);
            let counted = entries::ask(lent.shape, alone.slices(), &lent.words, question);
            assert_eq!(counted, reference::accepted(count as usize), "{document:?}, {lent:?}");
        }
    }
    assert_met(met, &[0, 1, 3, 6, 8, 9, 12, 19], 30);
    assert!(hits > 5_000 && absent > 100, "{hits} hits, {absent} phrases with an absent word");
}

/// With the one start 0, and with no start of the empty text, every answer is the one without starts: of questions, sheets and pages, refused ones too, and
/// the summary is the count.
#[test]
fn one_document() {
    let mut random = Random::of("one_document");
    let mut met: Met = [0; 20];
    for _ in 0..3_000 {
        let (mut lent, text) = drawn(&mut random);
        let words = lent.arrays.lengths.first().map_or(0, |&length| length as usize);
        lent.starts = [0][..words.min(1)].to_vec();
        let Lent { shape, arrays, starts, words } = &lent;
        let (shape, slices) = (*shape, arrays.slices());
        let vocabulary = shape.vocabulary.clamp(1, 40_000);
        let questions: Vec<_> = (0..4).map(|_| inputs::question(&mut random, vocabulary, &text, words)).collect();
        for question in &questions {
            let without = entries::ask(shape, slices, words, *question);
            assert_eq!(lent.ask(*question), without, "{question:?}, {lent:?}");
            met[without.refusal as usize] += 1;
        }
        let room = random.between(7, 9);
        let mut pairs = vec![PAIRS; room];
        let without = entries::answer_sheet(shape, slices, words, &questions, &mut pairs);
        assert_eq!(lent.answer_sheet(&questions, room), (without, pairs), "{lent:?}");
        met[without.refusal as usize] += 1;

        let part = inputs::part(&mut random, words);
        let state = Listing { next: next_place(&mut random, text.len()), finished: random.once_in(4) };
        let mut lines = vec![LINES; random.below(4)];
        let room = lines.len();
        let without = entries::list(state, shape, slices, words, part.0, part.1, &mut lines);
        assert_eq!(lent.list(state, part, room), (without, lines), "{lent:?}");
        met[without.answer.refusal as usize] += 1;

        let count = entries::ask(shape, slices, words, Question::phrase(part.0, part.1));
        let summary = match (count.refusal, part.1) {
            (0, 0) => (reference::refused(8), vec![COUNTS]),
            (0, _) if starts.is_empty() => (reference::accepted(0), vec![COUNTS]),
            (0, _) => (reference::accepted(1), vec![count.value as u32]),
            _ => (count, vec![COUNTS]),
        };
        assert_eq!(lent.summary(part, 1), summary, "{lent:?}");
    }
    assert_met(met, &[0, 1, 3, 6, 7, 8, 9, 10, 11, 12], 30);
}

// ---- whole listings

/// A phrase of up to three words that stands in a text of up to sixty words if it has a word, and now and then has an absent one, as the part of some words,
/// with starts of the text.
fn good(random: &mut Random) -> (Lent, Vec<u32>, (usize, usize)) {
    let vocabulary = inputs::vocabulary(random);
    let shape = inputs::shape(random, vocabulary);
    let mut text = inputs::text(random, vocabulary);
    text.truncate(60);
    let starts = inputs::starts(random, text.len());
    let length = random.between(0, 3).min(text.len());
    let from = random.below(text.len() - length + 1);
    let mut words = [&[vocabulary as u32 - 1; 2], &text[from..from + length]].concat();
    if length > 0 && random.once_in(6) {
        words[2 + random.below(length)] = vocabulary as u32;
    }
    (lent(shape, &text, &starts, &words), text, (2, length))
}

/// A call that is turned down: something of a good call is made bad, half the time the starts.
fn bad(random: &mut Random, good: &Lent, words: usize, part: (usize, usize)) -> (Lent, (usize, usize)) {
    let mut call = good.clone();
    let past = call.words.len() + 1;
    match random.below(10) {
        0 => call.shape.vocabulary = random.one_of(&[0, reference::MAX_VOCABULARY + 1]),
        1 => call.shape.block = 0,
        2 => call.arrays.blocks[3] += 1,
        3 if part.1 > 0 => {
            call.words[part.0 + random.below(part.1)] = inputs::rank_above(random, call.shape.vocabulary);
        }
        4 => return (call, random.one_of(&[(0, 17), (past, 0), (usize::MAX, 0), (usize::MAX, 1)])),
        _ => call.starts = inputs::broken_starts(random, words),
    }
    (call, part)
}

/// Each clause of demand 3, over one run of calls that all bring the same starts, save those that are turned down; whether a word of the phrase is absent.
fn run(random: &mut Random, met: &mut Met) -> bool {
    let (good, text, part) = good(random);
    let phrase = good.words[part.0..].to_vec();
    let crossed =
        |place: usize| good.starts.iter().any(|&start| (place + 1..place + part.1).contains(&(start as usize)));
    let all: Vec<usize> = reference::places(&text, &phrase).into_iter().filter(|&place| !crossed(place)).collect();
    let mut state = entries::open();
    let mut found: Vec<usize> = Vec::new();
    let mut lines_lent = 0;
    for _ in 0..random.below(14) {
        let turned_down = random.once_in(3);
        let lines = match random.below(12) {
            0 => 0,
            1 | 2 => random.between(1, text.len() + 2),
            _ => random.between(1, 4),
        };
        let (call, brought) = if turned_down { bad(random, &good, text.len(), part) } else { (good.clone(), part) };
        let (page, written) = call.list(state, brought, lines);
        met[page.answer.refusal as usize] += 1;
        if turned_down || lines == 0 {
            assert_ne!(page.answer.refusal, 0, "{call:?}");
            assert_eq!((page.listing, page.more), (state, false), "{call:?}");
            assert!(written.iter().all(|&line| line == LINES), "{call:?}");
        } else {
            assert_eq!(page.answer.refusal, 0, "{call:?}");
            found.extend(written[..page.answer.value].iter().map(|&place| place as usize));
            lines_lent += lines;
            assert_eq!(!page.more, found.len() == all.len(), "{call:?}");
        }
        assert!(page.listing.next <= text.len(), "{call:?}");
        state = page.listing;
    }
    assert_eq!(found, all[..lines_lent.min(all.len())], "{good:?}");
    assert_eq!(good.ask(Question::phrase(part.0, part.1)), reference::accepted(all.len()), "{good:?}");
    for place in found {
        let mut passage = vec![0; phrase.len()];
        assert_eq!(entries::passage(good.shape, good.arrays.slices(), place, &mut passage).refusal, 0);
        assert_eq!(passage, phrase);
    }
    if part.1 > 0 {
        let (answer, counts) = good.summary(part, good.starts.len());
        assert_eq!(answer, reference::accepted(good.starts.len()), "{good:?}");
        assert_eq!(counts.iter().sum::<u32>() as usize, all.len(), "{good:?}");
    }
    inputs::part_has_absent(good.shape.vocabulary, &good.words, part)
}

#[test]
fn runs_of_pages() {
    let mut random = Random::of("runs_of_pages");
    let mut met: Met = [0; 20];
    let absent = (0..2_000).filter(|_| run(&mut random, &mut met)).count();
    assert_met(met, &[0, 1, 3, 6, 8, 9, 12, 19], 30);
    assert!(absent > 100, "{absent} runs of a phrase with an absent word");
}

/// Whole listings on pages of every size, each page after one that is turned down by its starts: every place of one document once, and no page reports more
/// where only hits across a border follow.
#[test]
fn whole_listings() {
    let mut random = Random::of("whole_listings");
    for _ in 0..150 {
        let (good, text, part) = good(&mut random);
        let documents = reference::documents(&text, &good.starts).expect("the starts keep the rules");
        let all = reference::places_in(&documents, &good.words[part.0..]);
        let most = text.len().min(6) + 1;
        for lines in 1..=most {
            let mut state = entries::open();
            let mut found: Vec<usize> = Vec::new();
            loop {
                let broken = Lent { starts: inputs::broken_starts(&mut random, text.len()), ..good.clone() };
                let (page, written) = broken.list(state, part, lines);
                let turned_down = RawPage { answer: reference::refused(19), more: false, listing: state };
                assert_eq!((page, written), (turned_down, vec![LINES; lines]), "{broken:?}");
                let (page, written) = good.list(state, part, lines);
                found.extend(written[..page.answer.value].iter().map(|&place| place as usize));
                assert_eq!(page.more, found.len() < all.len(), "{good:?}");
                state = page.listing;
                if !page.more {
                    break;
                }
                assert_eq!(page.answer, reference::accepted(lines), "{good:?}");
            }
            assert_eq!(found, all, "{good:?}");
            assert_eq!(state, Listing { next: text.len(), finished: true }, "{good:?}");
        }
    }
}

// ---- small texts and large numbers

/// Every text of up to four words over a word of one byte and one of two, all its starts, and every phrase of up to three words: the count, the summary, and
/// pages of up to three lines from every place.
#[test]
fn small_texts() {
    let phrases = slices_of(&[0, 128], 3);
    for text in slices_of(&[0, 128], 4) {
        let places = 0..text.len() as u32;
        let all_starts = slices_of(&places.collect::<Vec<u32>>(), text.len());
        let kept: Vec<_> = all_starts.iter().filter(|starts| reference::documents(&text, starts).is_some()).collect();
        assert_eq!(kept.len(), 1 << text.len().saturating_sub(1));
        for (starts, phrase) in kept.into_iter().flat_map(|starts| phrases.iter().map(move |phrase| (starts, phrase))) {
            let lent = lent(small(129), &text, starts, phrase);
            let part = (0, phrase.len());
            let count = lent.ask(Question::phrase(0, phrase.len()));
            let (answer, counts) = lent.summary(part, starts.len());
            if phrase.is_empty() {
                assert_eq!((count.value, answer), (text.len() + 1, reference::refused(8)));
            } else {
                assert_eq!(
                    (counts.iter().sum::<u32>() as usize, answer.value),
                    (count.value, starts.len()),
                    "{lent:?}"
                );
            }
            for (next, lines) in (0..=text.len()).flat_map(|next| (1..=3).map(move |lines| (next, lines))) {
                lent.list(Listing { next, finished: false }, part, lines);
            }
        }
    }
}

/// Parts with starts and lengths about every limit, of lent words of every small number, and slices of every small length.
#[test]
fn hostile_arguments() {
    let most = usize::MAX;
    let numbers = [0, 1, 2, 3, 15, 16, 17, 18, 19, 20, 1 << 32, 1 << 63, most - 16, most - 15, most - 1, most];
    let parts = numbers.into_iter().flat_map(|start| numbers.map(move |length| (start, length)));
    let mut lent = lent(small(6), &[5; 20], &[0, 17, 18], &[]);
    for ((start, length), lent_words) in parts.flat_map(|part| (0..=19).map(move |lent_words| (part, lent_words))) {
        lent.words = vec![5; lent_words];
        let inside = length <= 16 && start <= lent_words && length <= lent_words - start;
        let asked = lent.ask(Question::phrase(start, length));
        assert_eq!(asked.refusal, if inside { 0 } else { 8 }, "{lent_words}, {start}, {length}");
        for room in 0..=4 {
            let (answer, _) = lent.summary((start, length), room);
            let refusal = reference::first_of(&[(!inside || length == 0, 8), (room < 3, 12)]);
            assert_eq!(answer.refusal, refusal, "{lent_words}, {start}, {length}, {room}");
        }
        for (next, lines) in [(0, 0), (0, 1), (3, 2), (20, 1), (21, 1), (most, 0)] {
            let (page, _) = lent.list(Listing { next, finished: lines == 2 }, (start, length), lines);
            let refusal = reference::first_of(&[(!inside, 8), (next > 20, 11), (lines == 0, 12)]);
            assert_eq!(page.answer.refusal, refusal, "{lent_words}, {start}, {length}, {next}");
        }
    }
}

/// Sheets of up to three questions in slices of every length up to two more than they need.
#[test]
fn rooms_of_sheets() {
    let lent = lent(small(6), &[5, 4, 5, 4], &[0, 1, 3], &[5, 4]);
    let questions = [Question::phrase(0, 2), Question::neighbours(4, 5, 1), Question::phrase(0, 17)];
    let pairs = [0, 0, 0, 1, 8, 0];
    for count in 0..=3 {
        for room in 0..=2 * count + 2 {
            let (answer, slice) = lent.answer_sheet(&questions[..count], room);
            if room < 2 * count {
                assert_eq!((answer, slice), (reference::refused(12), vec![PAIRS; room]), "{count}, {room}");
            } else {
                let expected = [&pairs[..2 * count], &vec![PAIRS; room - 2 * count]].concat();
                assert_eq!((answer, slice), (reference::accepted(2 * count), expected), "{count}, {room}");
            }
        }
    }
}

/// More documents than a byte and than two bytes can number: one for each word, or for each second, third or hundredth, and the last of one word.
#[test]
fn many_documents() {
    let words = 70_000;
    let text: Vec<u32> = (0..words).map(|place| [0, 200, 1][place as usize % 3]).collect();
    let shape = Shape { vocabulary: 201, block: 848, per_superblock: 64 };
    let phrases = [0, 200, 1, 0, 200];
    let mut lent = lent(shape, &text, &[], &phrases);
    for apart in [1, 2, 3, 100, words - 1] {
        lent.starts = (0..words).step_by(apart as usize).collect();
        let documents = lent.starts.len();
        for part in [(0, 1), (0, 2), (1, 2), (1, 3), (0, 5)] {
            let (answer, counts) = lent.summary(part, documents);
            assert_eq!(answer, reference::accepted(documents), "{apart}, {part:?}");
            let sum = counts.iter().sum::<u32>() as usize;
            assert_eq!(lent.ask(Question::phrase(part.0, part.1)), reference::accepted(sum), "{apart}, {part:?}");
        }
        lent.list(Listing { next: 69_900, finished: false }, (1, 2), 50);
        let pairs = [-2, -1, 1, 2, 3].map(|d| Question::neighbours(200, phrases[(4 + d) as usize % 3], d));
        lent.answer_sheet(&pairs, 10);
        let last = documents - 1;
        for wrong in [lent.starts[last], words, words + 1, words - 1 + (1 << 24), words - 1 + (1 << 31), u32::MAX] {
            let mut wrong_starts = Lent { starts: lent.starts.clone(), ..lent.clone() };
            wrong_starts.starts.push(wrong);
            let (answer, counts) = wrong_starts.summary((0, 1), documents + 1);
            assert_eq!(answer, reference::refused(19), "{apart}, {wrong}");
            assert!(counts.iter().all(|&count| count == COUNTS), "{apart}, {wrong}");
        }
    }
}

// ---- the wrapper

/// An index with starts gives what the entries give: questions, sheets, counts, pages and summaries, and refused ones their refusal.
#[test]
fn wrapped() {
    let mut random = Random::of("wrapped");
    let (mut given, mut refused) = (0, 0);
    for _ in 0..1_000 {
        let (mut lent, text, part) = good(&mut random);
        lent.starts = inputs::any_starts(&mut random, text.len());
        let index = Index::from_arrays(lent.shape, lent.arrays.clone()).expect("the arrays are an index");
        let documents = index.in_documents(&lent.starts);
        let result = |answer: Answer| answer.result();
        let phrase = &lent.words[part.0..];
        let questions: Vec<_> =
            (0..3).map(|_| inputs::question(&mut random, lent.shape.vocabulary, &text, &lent.words)).collect();
        for question in &questions {
            assert_eq!(documents.ask(&lent.words, *question), result(lent.ask(*question)), "{lent:?}");
        }
        let (answer, pairs) = lent.answer_sheet(&questions, 6);
        let sheet: Vec<_> =
            pairs.chunks(2).map(|pair| Refusal::from_number(pair[0]).map_or(Ok(pair[1]), Err)).collect();
        assert_eq!(documents.answer_sheet(&lent.words, &questions), result(answer).map(|_| sheet), "{lent:?}");
        let count = result(lent.ask(Question::phrase(part.0, part.1)));
        assert_eq!(documents.count(phrase), count, "{lent:?}");
        let (answer, counts) = lent.summary(part, lent.starts.len());
        assert_eq!(documents.summary(phrase), result(answer).map(|_| counts), "{lent:?}");

        let lines = random.between(1, 4);
        let pages: Vec<_> = documents.pages(phrase, lines).take(text.len() + 2).collect();
        match reference::documents(&text, &lent.starts) {
            None => {
                assert_eq!(pages, [Err(Refused { refusal: Refusal::Documents, value: 0 })], "{lent:?}");
                refused += 1;
            }
            Some(pieces) => {
                let all = reference::places_in(&pieces, phrase);
                let chunks: Vec<&[usize]> = if all.is_empty() { vec![&[]] } else { all.chunks(lines).collect() };
                let expected = chunks.iter().enumerate().map(|(at, places)| {
                    let places = places.iter().map(|&place| place as u32).collect();
                    Ok(Page { places, more: at + 1 < chunks.len() })
                });
                assert_eq!(pages, expected.collect::<Vec<_>>(), "{lent:?}");
                given += 1;
            }
        }
    }
    assert!(given > 500 && refused > 100, "{given} listed, {refused} refused");
}

/// More starts than words, and phrases and pages of any length, with the wrapper.
#[test]
fn wrapped_limits() {
    let index = Index::build(small(3), &[2, 0, 1, 0, 0]).expect("the text is one");
    let refused = |refusal| Refused { refusal, value: 0 };
    for starts in [(0..6).collect::<Vec<u32>>(), vec![0; 100_000], (0..100_000).collect(), vec![]] {
        let documents = index.in_documents(&starts);
        assert_eq!(documents.summary(&[0]), Err(refused(Refusal::Documents)), "{}", starts.len());
        assert_eq!(documents.count(&[0]), Err(refused(Refusal::Documents)), "{}", starts.len());
        assert_eq!(documents.answer_sheet(&[], &[]), Err(refused(Refusal::Documents)), "{}", starts.len());
    }
    let documents = index.in_documents(&[0, 1, 2, 3, 4]);
    assert_eq!(documents.summary(&[0]), Ok(vec![0, 1, 0, 1, 1]));
    assert_eq!(documents.summary(&[0, 0]), Ok(vec![0; 5]));
    assert_eq!(documents.summary(&[0; 16]), Ok(vec![0; 5]));
    assert_eq!(documents.summary(&[0; 17]), Err(refused(Refusal::Phrase)));
    assert_eq!(documents.summary(&[]), Err(refused(Refusal::Phrase)));
    assert_eq!(documents.summary(&[3]), Ok(vec![0; 5]));
    assert_eq!(documents.summary(&[4]), Err(refused(Refusal::AskedRank)));
    let documents = index.in_documents(&[0, 4]);
    let pages: Vec<_> = documents.pages(&[0], usize::MAX).map(|page| page.expect("the phrase is one").places).collect();
    assert_eq!(pages, [[1, 3, 4]]);
    assert_eq!(documents.pages(&[0], 0).collect::<Vec<_>>(), [Err(refused(Refusal::Page))]);
    assert_eq!((documents.count(&[0, 0]), index.count(&[0, 0])), (Ok(0), Ok(1)));
    assert_eq!(documents.count(&[]), Ok(6));

    let empty = Index::build(small(3), &[]).expect("the empty text is one");
    assert_eq!(empty.in_documents(&[]).summary(&[0]), Ok(vec![]));
    assert_eq!(empty.in_documents(&[0]).summary(&[0]), Err(refused(Refusal::Documents)));
}

/// A listing that goes on from a state gives the places from there on, and one above n is refused.
#[test]
fn resumed_pages() {
    let mut random = Random::of("resumed_pages");
    let mut refused = 0;
    for _ in 0..1_000 {
        let (mut lent, text, part) = good(&mut random);
        lent.starts = inputs::starts(&mut random, text.len());
        let documents = Documents::over(lent.shape, lent.arrays.slices(), &lent.starts);
        let phrase = &lent.words[part.0..];
        let next = random.below(text.len() + 3);
        let pages = documents.pages(phrase, random.between(1, 3)).resumed(Listing { next, finished: false });
        if next > text.len() {
            let place = Refused { refusal: Refusal::Place, value: 0 };
            assert_eq!(pages.collect::<Vec<_>>(), [Err(place)], "{lent:?}");
            refused += 1;
            continue;
        }
        let places: Vec<u32> = pages.flat_map(|page| page.expect("the state is inside").places).collect();
        let pieces = reference::documents(&text, &lent.starts).expect("the starts keep the rules");
        let all = reference::places_in(&pieces, phrase);
        let expected: Vec<u32> = all.into_iter().filter(|&place| place >= next).map(|place| place as u32).collect();
        assert_eq!(places, expected, "{lent:?} from {next}");
    }
    assert!(refused > 20, "{refused} refused");
}

/// Arrays that are lent without a check: damaged ones are refused by each call as the reference refuses them, and others are answered.
#[test]
fn lent_arrays() {
    let mut random = Random::of("lent_arrays");
    let (mut given, mut refused) = (0, 0);
    for _ in 0..1_000 {
        let (mut lent, text, part) = good(&mut random);
        lent.starts = inputs::starts(&mut random, text.len());
        if random.once_in(2) {
            inputs::damage(&mut random, lent.shape, &mut lent.arrays);
        }
        let documents = Documents::over(lent.shape, lent.arrays.slices(), &lent.starts);
        let phrase = &lent.words[part.0..];
        let checked = reference::check(lent.shape, &lent.arrays).result();
        assert_eq!(documents.check(), checked.map(|_| ()), "{lent:?}");
        assert_eq!(documents.count(phrase), lent.ask(Question::phrase(part.0, part.1)).result(), "{lent:?}");
        let first = documents.pages(phrase, 2).next().expect("there is a first page");
        match checked {
            Ok(_) => {
                let words = documents.words();
                let passage = documents.passage(0, words);
                assert_eq!(passage.ok(), reference::text_of(lent.shape, &lent.arrays), "{lent:?}");
                assert_eq!(documents.passage(0, words + 1).err().map(|refused| refused.refusal), Some(Refusal::Place));
                given += 1;
            }
            Err(why) => {
                assert_eq!((first, documents.passage(0, 0)), (Err(why), Err(why)), "{lent:?}");
                assert_eq!(documents.answer_sheet(&[], &[]), Err(why), "{lent:?}");
                refused += 1;
            }
        }
    }
    assert!(given > 400 && refused > 300, "{given} given, {refused} refused");
}

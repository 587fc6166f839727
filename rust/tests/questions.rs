//! Questions, sheets and passages, against the reference.
mod support;
use concordance::entries::{self, Answer, Slices};
use concordance::{Arrays, Question, Shape};
use support::random::Random;
use support::{inputs, reference};

/// What is lent to a call: the index of a text, now and then damaged or with a shape of another, and the words of phrases.
#[derive(Debug)]
struct Lent {
    vocabulary: usize,
    text: Vec<u32>,
    shape: Shape,
    arrays: Arrays,
    words: Vec<u32>,
}

fn lent(random: &mut Random) -> Lent {
    let vocabulary = inputs::vocabulary(random);
    let mut shape = inputs::shape(random, vocabulary);
    let text = inputs::text(random, vocabulary);
    let mut arrays = reference::index(shape, &text);
    if random.once_in(8) {
        inputs::damage(random, shape, &mut arrays);
    }
    if random.once_in(12) {
        shape = inputs::any_shape(random);
    }
    let words = inputs::words(random, vocabulary, &text);
    Lent { vocabulary, text, shape, arrays, words }
}

impl Lent {
    fn question(&self, random: &mut Random) -> Question {
        inputs::question(random, self.vocabulary, &self.text, &self.words)
    }

    fn slices(&self) -> Slices<'_> {
        self.arrays.slices()
    }

    fn ask(&self, question: Question) -> Answer {
        entries::ask(self.shape, self.slices(), &self.words, question)
    }
}

/// Questions of every kind, about absent words and about ranks above V too.
#[test]
fn ask() {
    let mut random = Random::of("ask");
    let (mut accepted, mut absent, mut above) = (0, [0; 6], [0; 6]);
    for _ in 0..3_000 {
        let mut lent = lent(&mut random);
        for _ in 0..12 {
            lent.words = inputs::words(&mut random, lent.vocabulary, &lent.text);
            let question = lent.question(&mut random);
            let answer = lent.ask(question);
            let expected = reference::ask(lent.shape, &lent.arrays, &lent.words, question);
            assert_eq!(answer, expected, "{question:?}, {lent:?}");
            accepted += usize::from(answer.refusal == 0);
            if answer.refusal == 9 {
                above[question.kind as usize] += 1;
            }
            let of_index = [1, 3, 6].contains(&answer.refusal);
            if !of_index && inputs::asks_about_absent(lent.shape.vocabulary, &lent.words, question) {
                assert_eq!(answer.value, 0, "{question:?}, {lent:?}");
                absent[question.kind as usize] += 1;
            }
        }
    }
    assert!(accepted > 5_000, "{accepted} accepted");
    assert!(absent[2..].iter().chain(&above[2..]).all(|&times| times > 80), "{absent:?} absent, {above:?} above V");
}

/// Counts of the phrase of no words, alone and in a sheet, at every start up to one past the lent words and far beyond: there are as many
/// places as words and one, whatever words are lent and whatever the fields hold that kind 5 does not use. Past the end of the lent words 8
/// answers, in the question's own pair, and of an index that does not pass, its refusal.
#[test]
fn phrases_of_no_words() {
    let mut random = Random::of("phrases_of_no_words");
    let (mut empty_texts, mut nothing_lent, mut not_passed) = (0, 0, 0);
    for _ in 0..1_500 {
        let mut lent = lent(&mut random);
        if random.once_in(2) {
            lent.words.fill(lent.vocabulary as u32 + random.below(2) as u32);
        }
        let checked = entries::check(lent.shape, lent.slices());
        let starts = (0..=lent.words.len() + 1).chain([1 << 32, 1 << 63, usize::MAX - 1, usize::MAX]);
        let questions: Vec<_> =
            starts.map(|start| Question { kind: 5, start, length: 0, ..lent.question(&mut random) }).collect();
        let mut ours = vec![0x5555_5555; 2 * questions.len() + 2];
        let mut theirs = ours.clone();
        let answer = entries::answer_sheet(lent.shape, lent.slices(), &lent.words, &questions, &mut ours);
        assert_eq!(answer.refusal, checked.refusal, "{lent:?}");
        let expected = reference::answer_sheet(lent.shape, &lent.arrays, &lent.words, &questions, &mut theirs);
        assert_eq!((answer, &ours), (expected, &theirs), "{lent:?}");
        for (question, pair) in questions.iter().zip(ours.chunks(2)) {
            let single = match question.start {
                _ if checked.refusal != 0 => checked,
                start if start > lent.words.len() => reference::refused(8),
                _ => reference::accepted(lent.arrays.lengths[0] as usize + 1),
            };
            assert_eq!(lent.ask(*question), single, "{question:?}, {lent:?}");
            let kept = if checked.refusal == 0 { [single.refusal, single.value as u32] } else { [0x5555_5555; 2] };
            assert_eq!(pair, kept, "{question:?}, {lent:?}");
        }
        empty_texts += usize::from(checked.refusal == 0 && lent.text.is_empty());
        nothing_lent += usize::from(checked.refusal == 0 && lent.words.is_empty());
        not_passed += usize::from(checked.refusal == 6);
    }
    let drawn = [empty_texts, nothing_lent, not_passed];
    assert!(drawn.iter().all(|&times| times > 20), "{drawn:?}");
}

/// Several faults at once in a question about the phrase of no words: the first of 1, 3, 6, 7 and 8 answers, and never 9, although every word
/// that is lent is above V. In a sheet 7 and 8 go into the pair, and 12 is tried after 6.
#[test]
fn order_of_refusals() {
    let good = Shape { vocabulary: 2, block: 4, per_superblock: 2 };
    let words = [3, u32::MAX];
    for faults in 0..64 {
        let [no_vocabulary, no_blocks, damaged, no_kind, outside, short] =
            [0, 1, 2, 3, 4, 5].map(|fault| faults >> fault & 1 == 1);
        let mut arrays = reference::index(good, &[1, 0, 1]);
        arrays.blocks[0] += u16::from(damaged);
        let shape = Shape {
            vocabulary: if no_vocabulary { 0 } else { good.vocabulary },
            block: if no_blocks { 0 } else { good.block },
            ..good
        };
        let kind = if no_kind { 6 } else { 5 };
        let start = if outside { words.len() + 1 } else { words.len() };
        let question = Question { kind, w: 3, v: 3, d: 17, p: usize::MAX, start, length: 0 };
        let of_index = reference::first_of(&[(no_vocabulary, 1), (no_blocks, 3), (damaged, 6)]);
        let of_question = reference::first_of(&[(no_kind, 7), (outside, 8)]);
        let refusal = if of_index == 0 { of_question } else { of_index };
        let value = if of_question == 0 { 4 } else { 0 };
        let expected = if refusal == 0 { reference::accepted(value) } else { reference::refused(refusal) };
        assert_eq!(entries::ask(shape, arrays.slices(), &words, question), expected, "{faults:06b}");

        let mut answers = vec![9; if short { 1 } else { 3 }];
        let answer = entries::answer_sheet(shape, arrays.slices(), &words, &[question], &mut answers);
        if of_index != 0 || short {
            assert_eq!(answer, reference::refused(if of_index == 0 { 12 } else { of_index }), "{faults:06b}");
            assert!(answers.iter().all(|&element| element == 9), "{faults:06b}");
        } else {
            assert_eq!((answer, answers), (reference::accepted(2), vec![of_question, value as u32, 9]), "{faults:06b}");
        }
    }
}

#[test]
fn answer_sheet() {
    let mut random = Random::of("answer_sheet");
    for _ in 0..3_000 {
        let lent = lent(&mut random);
        let count = random.below(12);
        let questions: Vec<_> = (0..count).map(|_| lent.question(&mut random)).collect();
        let room = (2 * count + random.below(4)).saturating_sub(random.one_of(&[0, 0, 0, 1, 2]));
        let mut ours = vec![0x5555_5555; room];
        let mut theirs = ours.clone();
        let answer = entries::answer_sheet(lent.shape, lent.slices(), &lent.words, &questions, &mut ours);
        let expected = reference::answer_sheet(lent.shape, &lent.arrays, &lent.words, &questions, &mut theirs);
        assert_eq!(answer, expected, "{questions:?}, {lent:?}");
        assert_eq!(ours, theirs, "{questions:?}, {lent:?}");
        if answer.refusal == 0 {
            for (question, pair) in questions.iter().zip(ours.chunks(2)) {
                let single = lent.ask(*question);
                assert_eq!((single.refusal, single.value as u32), (pair[0], pair[1]), "{question:?}");
            }
        }
    }
}

#[test]
fn passage() {
    let mut random = Random::of("passage");
    for _ in 0..10_000 {
        let lent = lent(&mut random);
        let n = lent.text.len();
        let place = match random.below(5) {
            0 => n,
            1 => random.one_of(&[n + 1, usize::MAX]),
            _ => random.below(n + 1),
        };
        let left = n.saturating_sub(place);
        let length = random.one_of(&[0, left, left + 1, left / 2]);
        let mut ours = vec![99; length];
        let mut theirs = ours.clone();
        let answer = entries::passage(lent.shape, lent.slices(), place, &mut ours);
        let expected = reference::passage(lent.shape, &lent.arrays, place, &mut theirs);
        assert_eq!(answer, expected, "{place}, {lent:?}");
        assert_eq!(ours, theirs, "{place}, {lent:?}");
    }
}

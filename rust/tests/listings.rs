//! Runs of page calls, refused ones among them, against the reference and against demand 3.
mod support;
use concordance::entries::{self, RawPage};
use concordance::{Arrays, Listing, Page, Question, Shape};
use support::random::Random;
use support::{inputs, reference};

/// What a call of a run brings beside the state.
struct Call {
    shape: Shape,
    arrays: Arrays,
    words: Vec<u32>,
    start: usize,
    length: usize,
}

/// A page of both, which must be the same; the places written.
fn page(state: Listing, call: &Call, lines: usize) -> (RawPage, Vec<u32>) {
    let mut ours = vec![0x7777_7777; lines];
    let mut theirs = ours.clone();
    let Call { shape, arrays, words, start, length } = call;
    let got = entries::list(state, *shape, arrays.slices(), words, *start, *length, &mut ours);
    let expected = reference::page(state, *shape, arrays, words, *start, *length, &mut theirs);
    assert_eq!(got, expected, "{state:?}, {shape:?}, {words:?}, {start}, {length}");
    assert_eq!(ours, theirs, "{state:?}, {shape:?}, {words:?}, {start}, {length}");
    ours.truncate(if got.answer.refusal == 0 { got.answer.value } else { 0 });
    (got, ours)
}

/// A call that is turned down: something of a good call is made bad.
fn bad(random: &mut Random, good: &Call) -> Call {
    let mut call = Call {
        shape: good.shape,
        arrays: good.arrays.clone(),
        words: good.words.clone(),
        start: good.start,
        length: good.length,
    };
    let past = call.words.len() + 1;
    match random.below(5) {
        0 => call.shape.vocabulary = random.one_of(&[0, reference::MAX_VOCABULARY + 1]),
        1 => call.shape.block = 0,
        2 => call.arrays.blocks[3] += 1,
        3 if call.length > 0 => {
            let at = call.start + random.below(call.length);
            call.words[at] = inputs::rank_above(random, call.shape.vocabulary);
        }
        _ => {
            (call.start, call.length) = random.one_of(&[(call.start, 17), (past, 0), (usize::MAX, 0), (usize::MAX, 1)])
        }
    }
    call
}

/// A phrase of up to three words that stands in the text if it has a word, and now and then has a word that stands nowhere or an absent one, as the part of
/// some words.
fn good(random: &mut Random) -> (Call, Vec<u32>) {
    let vocabulary = inputs::vocabulary(random);
    let shape = inputs::shape(random, vocabulary);
    let text = inputs::text(random, vocabulary);
    let mut words = vec![random.below(vocabulary) as u32; 2];
    let length = random.between(0, 3);
    if text.len() >= length && !random.once_in(6) {
        let from = random.below(text.len() - length + 1);
        words.extend(&text[from..from + length]);
    } else {
        words.extend((0..length).map(|_| random.below(vocabulary) as u32));
    }
    if length > 0 && random.once_in(5) {
        words[2 + random.below(length)] = vocabulary as u32;
    }
    let arrays = reference::index(shape, &text);
    (Call { shape, arrays, words, start: 2, length }, text)
}

impl Call {
    /// Whether a word of the phrase is absent.
    fn has_absent(&self) -> bool {
        inputs::part_has_absent(self.shape.vocabulary, &self.words, (self.start, self.length))
    }
}

/// Each clause of demand 3, over one run of calls; whether a word of the phrase is absent.
fn run(random: &mut Random) -> bool {
    let (good, text) = good(random);
    let phrase = good.words[good.start..].to_vec();
    let all = reference::places(&text, &phrase);
    let mut state = entries::open();
    assert_eq!(state, Listing { next: 0, finished: false });
    let mut found: Vec<usize> = Vec::new();
    let mut lines_lent = 0;
    for _ in 0..random.below(12) {
        let turned_down = random.once_in(3);
        let lines = match random.below(12) {
            0 | 1 => 0,
            2 => random.between(1, text.len() + 2),
            _ => random.between(1, 4),
        };
        let (got, places) =
            if turned_down { page(state, &bad(random, &good), lines) } else { page(state, &good, lines) };
        if turned_down || lines == 0 {
            assert_ne!(got.answer.refusal, 0);
            assert_eq!(got.listing, state);
        } else {
            assert_eq!(got.answer.refusal, 0);
            found.extend(places.iter().map(|&place| place as usize));
            lines_lent += lines;
            assert_eq!(!got.more, found.len() == all.len());
        }
        assert!(got.listing.next <= text.len());
        state = got.listing;
    }
    assert_eq!(found, all[..lines_lent.min(all.len())]);
    let count = entries::ask(good.shape, good.arrays.slices(), &good.words, Question::phrase(good.start, good.length));
    assert_eq!(count, reference::accepted(all.len()));
    for place in found {
        let mut passage = vec![0; phrase.len()];
        assert_eq!(entries::passage(good.shape, good.arrays.slices(), place, &mut passage).refusal, 0);
        assert_eq!(passage, phrase);
    }
    good.has_absent()
}

#[test]
fn runs_of_pages() {
    let mut random = Random::of("runs_of_pages");
    let absent = (0..4_000).filter(|_| run(&mut random)).count();
    assert!(absent > 300, "{absent} runs of a phrase with an absent word");
}

/// Pages over any state, also one that no listing has.
#[test]
fn pages_of_any_state() {
    let mut random = Random::of("pages_of_any_state");
    let mut absent = 0;
    for _ in 0..10_000 {
        let (mut call, text) = good(&mut random);
        if random.once_in(6) {
            call = bad(&mut random, &call);
        }
        if random.once_in(6) {
            let words = inputs::words(&mut random, call.shape.vocabulary.max(1), &text);
            (call.start, call.length) = inputs::part(&mut random, &words);
            call.words = words;
        }
        let next = match random.below(5) {
            0 => random.one_of(&[text.len() + 1, usize::MAX]),
            1 => text.len(),
            _ => random.below(text.len() + 1),
        };
        let lines = random.below(5);
        let (got, _) = page(Listing { next, finished: random.once_in(3) }, &call, lines);
        absent += usize::from(got.answer.refusal == 0 && call.has_absent());
    }
    assert!(absent > 500, "{absent} pages of a phrase with an absent word");
}

/// A call that lists the phrase of no words in a text of so many words: the empty part at the end of two words that are above V.
fn no_words(words: usize) -> Call {
    let shape = Shape { vocabulary: 130, block: 5, per_superblock: 3 };
    let text: Vec<u32> = (0..words).map(|place| place as u32 % 130).collect();
    Call { shape, arrays: reference::index(shape, &text), words: vec![131, u32::MAX], start: 2, length: 0 }
}

/// The page of the phrase of no words that a text of n words has from a state on, and the places on it.
fn page_of_places(n: usize, state: Listing, lines: usize) -> (RawPage, Vec<u32>) {
    let refusal = reference::first_of(&[(state.next > n, 11), (lines == 0, 12)]);
    if refusal != 0 || state.finished {
        return (RawPage { answer: reference::refused(refusal), more: false, listing: state }, vec![]);
    }
    let end = (state.next + lines).min(n + 1);
    let more = end <= n;
    let listing = Listing { next: if more { end } else { n }, finished: !more };
    (
        RawPage { answer: reference::accepted(end - state.next), more, listing },
        (state.next as u32..end as u32).collect(),
    )
}

/// Pages of the phrase of no words: from every next place up to one past the end, finished or not, and of every number of lines up to one
/// more than there are places.
#[test]
fn pages_of_no_words() {
    for n in [0, 1, 2, 3, 4, 9] {
        let call = no_words(n);
        for next in (0..=n + 1).chain([usize::MAX]) {
            for state in [false, true].map(|finished| Listing { next, finished }) {
                for lines in 0..=n + 2 {
                    assert_eq!(page(state, &call, lines), page_of_places(n, state, lines), "{n}, {state:?}, {lines}");
                }
            }
        }
    }
}

/// Whole listings of the phrase of no words, on pages of every size: each place from 0 to n once and as many as are counted, the last page
/// finished with next n, the page after it empty with the state as it came, and at each place an empty passage.
#[test]
fn listings_of_no_words() {
    for n in [0, 1, 2, 3, 8, 30] {
        let call = no_words(n);
        let count = entries::ask(call.shape, call.arrays.slices(), &call.words, Question::phrase(2, 0));
        assert_eq!(count, reference::accepted(n + 1));
        for lines in 1..=n + 2 {
            let pages = (n + 1).div_ceil(lines);
            let mut state = entries::open();
            let mut found = Vec::new();
            for number in 1..=pages {
                let (got, places) = page(state, &call, lines);
                let next = (number * lines).min(n);
                let finished = number == pages;
                assert_eq!((got.more, got.listing), (!finished, Listing { next, finished }), "{n}, {lines}");
                found.extend(places);
                state = got.listing;
            }
            assert!(found.iter().map(|&place| place as usize).eq(0..=n), "{n}, {lines}, {found:?}");
            let after = RawPage { answer: reference::accepted(0), more: false, listing: state };
            assert_eq!(page(state, &call, lines), (after, vec![]), "{n}, {lines}");
        }
        for place in 0..=n {
            let passage = entries::passage(call.shape, call.arrays.slices(), place, &mut []);
            assert_eq!(passage, reference::accepted(0), "{n}, {place}");
        }
    }
}

/// Several faults at once in a page of the phrase of no words: the first of 1, 3, 6, 8, 11 and 12 answers, and never 9, although every word that
/// is lent is above V; the state comes back, and nothing is written.
#[test]
fn order_of_refusals() {
    for (faults, finished) in (0..64).flat_map(|faults| [(faults, false), (faults, true)]) {
        let [no_vocabulary, no_blocks, damaged, outside, above, no_lines] =
            [0, 1, 2, 3, 4, 5].map(|fault| faults >> fault & 1 == 1);
        for (start, length) in [(3, 0), (usize::MAX, 0), (0, 17), (usize::MAX, usize::MAX)] {
            let mut call = no_words(4);
            if no_vocabulary {
                call.shape.vocabulary = reference::MAX_VOCABULARY + 1;
            }
            if no_blocks {
                call.shape.per_superblock = 0;
            }
            call.arrays.blocks[0] += u16::from(damaged);
            if outside {
                (call.start, call.length) = (start, length);
            }
            let state = Listing { next: if above { 5 } else { 3 }, finished };
            let (got, places) = page(state, &call, if no_lines { 0 } else { 3 });
            let refusal = reference::first_of(&[
                (no_vocabulary, 1),
                (no_blocks, 3),
                (damaged, 6),
                (outside, 8),
                (above, 11),
                (no_lines, 12),
            ]);
            assert_eq!(got.answer.refusal, refusal, "{faults:06b}, {start}, {length}");
            if refusal != 0 {
                assert_eq!((got.answer.value, got.more, got.listing), (0, false, state), "{faults:06b}");
            } else {
                assert_eq!(places, if finished { vec![] } else { vec![3, 4] }, "{faults:06b}");
            }
        }
    }
}

/// The pages of the wrapper are the listing; there are not more of them than places.
#[test]
fn wrapped_pages() {
    let mut random = Random::of("wrapped_pages");
    for _ in 0..500 {
        let (call, text) = good(&mut random);
        let index = concordance::Index::build(call.shape, &text).expect("the text is one");
        let phrase = &call.words[call.start..];
        let lines = random.between(1, 4);
        let pages = index.pages(phrase, lines).map(|page| page.expect("the phrase is one"));
        let pages: Vec<_> = pages.take(text.len() + 2).collect();
        let places: Vec<usize> = pages.iter().flat_map(|page| &page.places).map(|&place| place as usize).collect();
        assert_eq!(places, reference::places(&text, phrase));
        assert_eq!(index.count(phrase), Ok(places.len()));
        assert!(pages.iter().rev().skip(1).all(|page| page.more && page.places.len() == lines));
        assert!(!pages.last().expect("there is a first page").more);
    }
}

/// Before anything is typed: the phrase that is read of a text without words is counted and listed at every place.
#[test]
fn nothing_typed() {
    let made = concordance::make_list(b"Tock, tick! TICK.").expect("the text is short");
    let index = concordance::Index::build(Shape::for_text(made.vocabulary()), &made.ranks).expect("the text is one");
    for typed in [&b""[..], b" ,\n"] {
        let phrase = concordance::read_text(&made.list, typed).expect("no word is unlisted");
        assert_eq!(index.count(&phrase), Ok(4));
        let mut pages = index.pages(&phrase, 3);
        assert_eq!(pages.next(), Some(Ok(Page { places: vec![0, 1, 2], more: true })));
        assert_eq!(pages.next(), Some(Ok(Page { places: vec![3], more: false })));
        assert_eq!((pages.listing(), pages.next()), (Listing { next: 3, finished: true }, None));
        assert_eq!(index.passage(3, phrase.len()), Ok(vec![]));
    }
}

//! Measuring a text, and building its index by the sizes that were measured, against the reference.
mod support;
use concordance::entries::{self, Answer, Measured};
use concordance::{Index, IndexSizes, Shape};
use std::mem::size_of_val;
use support::random::Random;
use support::{inputs, reference};

/// How often each refusal was met, by its number.
type Met = [usize; 17];

fn sizes(nodes: usize, bytes: usize, superblock_rows: usize, block_rows: usize) -> IndexSizes {
    IndexSizes { nodes, bytes, superblock_rows, block_rows }
}

/// The sizes of the sample text, and its building in slices of exactly these; changed, it is refused where its sizes changed.
#[test]
fn sample() {
    let text = [0, 128, 0, 129, 128];
    let small = Shape { vocabulary: 130, block: 4, per_superblock: 2 };
    let four = sizes(2, 8, 2, 3);
    for (shape, text, answer, sizes) in [
        (small, &text[..], reference::accepted(0), four),
        (Shape { block: 256, per_superblock: 8, ..small }, &text, reference::accepted(0), sizes(2, 8, 1, 1)),
        (small, &[], reference::accepted(0), sizes(2, 0, 1, 1)),
        (Shape { vocabulary: 129, ..small }, &text, Answer { refusal: 4, value: 3 }, sizes(0, 0, 0, 0)),
    ] {
        assert_eq!(entries::measure(shape, text), Measured { answer, sizes }, "{shape:?}, {text:?}");
    }
    for (text, answer) in [
        (text, reference::accepted(8)),
        ([0, 128, 0, 129, 0], reference::refused(16)),
        ([0, 129, 0, 128, 128], reference::accepted(8)),
    ] {
        let mut arrays = inputs::marked([2, 8, 512, 768]);
        let left = if answer.refusal == 0 { reference::index(small, &text) } else { arrays.clone() };
        assert_eq!(entries::build_sized(small, four, &text, arrays.slices_mut()), answer, "{text:?}");
        assert!(arrays == left, "{text:?}");
    }
}

/// The answer and the four numbers of any text.
#[test]
fn measure() {
    let mut random = Random::of("measure");
    let mut met: Met = [0; 17];
    for _ in 0..10_000 {
        let shape = inputs::any_shape(&mut random);
        let text = inputs::any_text(&mut random, shape.vocabulary);
        let measured = entries::measure(shape, &text);
        assert_eq!(measured, reference::measure(shape, &text), "{shape:?}, {text:?}");
        met[measured.answer.refusal as usize] += 1;
    }
    assert!([0, 1, 3, 4].into_iter().all(|number| met[number] > 50), "{met:?}");
}

/// Texts that are measured in several parts of 2,048 words, whole and with a rank that is V near the ends of the parts.
#[test]
fn long_texts() {
    let mut random = Random::of("long_texts");
    let shape = Shape { vocabulary: 20_000, block: 64, per_superblock: 16 };
    let mut refused = 0;
    for words in [2_047, 2_048, 2_049, 4_095, 4_096, 4_097, 5_000] {
        let text: Vec<u32> = (0..words).map(|_| random.below(shape.vocabulary) as u32).collect();
        assert_eq!(entries::measure(shape, &text), reference::measure(shape, &text), "{words}");
        for place in [0, 1, 2_046, 2_047, 2_048, 2_049, 4_095, 4_096, 4_999] {
            if place < words {
                let mut outside = text.clone();
                outside[words - 1] = u32::MAX;
                outside[place] = shape.vocabulary as u32;
                let measured = entries::measure(shape, &outside);
                assert_eq!(measured, reference::measure(shape, &outside), "{words}, {place}");
                assert_eq!((measured.answer.refusal, measured.answer.value), (4, place), "{words}, {place}");
                refused += 1;
            }
        }
    }
    assert_eq!(refused, 42);
}

/// With the sizes that were measured, the call builds as the one that takes no sizes: the same answer and the same slices.
#[test]
fn measured_sizes() {
    let mut random = Random::of("measured_sizes");
    let mut met: Met = [0; 17];
    for _ in 0..6_000 {
        let shape = inputs::any_shape(&mut random);
        let text = inputs::any_text(&mut random, shape.vocabulary);
        let mut ours = inputs::room(&mut random, shape, &text);
        let (mut theirs, mut at_once) = (ours.clone(), ours.clone());
        let sizes = entries::measure(shape, &text).sizes;
        let answer = entries::build_sized(shape, sizes, &text, ours.slices_mut());
        assert_eq!(answer, reference::build_sized(shape, sizes, &text, &mut theirs), "{shape:?}, {text:?}");
        assert_eq!(answer, entries::build(shape, &text, at_once.slices_mut()), "{shape:?}, {text:?}");
        assert!(ours == theirs && ours == at_once, "{shape:?}, {text:?}");
        met[answer.refusal as usize] += 1;
    }
    assert!([0, 1, 3, 4, 5].into_iter().all(|number| met[number] > 50) && met[16] == 0, "{met:?}");
}

/// One of the four numbers more or less by one, 0, the most, or any other: the text is refused by 16, long enough slices or not, and these stay.
#[test]
fn one_other_size() {
    let mut random = Random::of("one_other_size");
    let (mut tried, mut short) = (0, 0);
    for _ in 0..1_000 {
        let vocabulary = inputs::vocabulary(&mut random);
        let shape = inputs::shape(&mut random, vocabulary);
        let text = inputs::text(&mut random, vocabulary);
        let right = entries::measure(shape, &text).sizes;
        let mut arrays = inputs::room(&mut random, shape, &text);
        let before = arrays.clone();
        let any = [random.next() as usize, random.below(1_000), 1 << random.below(64)];
        let others = |size: usize| {
            let beside = [size.wrapping_add(1), size.wrapping_sub(1), 0, usize::MAX];
            beside.into_iter().chain(any).filter(move |&other| other != size)
        };
        let given = others(right.nodes)
            .map(|nodes| IndexSizes { nodes, ..right })
            .chain(others(right.bytes).map(|bytes| IndexSizes { bytes, ..right }))
            .chain(others(right.superblock_rows).map(|superblock_rows| IndexSizes { superblock_rows, ..right }))
            .chain(others(right.block_rows).map(|block_rows| IndexSizes { block_rows, ..right }));
        for sizes in given {
            let answer = entries::build_sized(shape, sizes, &text, arrays.slices_mut());
            assert_eq!(answer, reference::refused(16), "{shape:?}, {sizes:?}, {text:?}");
            assert!(arrays == before, "{shape:?}, {sizes:?}, {text:?}");
            tried += 1;
        }
        short += usize::from(entries::build_sized(shape, right, &text, arrays.slices_mut()).refusal == 5);
    }
    assert!(tried > 20_000 && short > 50, "{tried} tried, {short} in short slices");
}

/// Any four numbers with any text: V, B, b and the ranks come before the sizes, and the sizes before the slices.
#[test]
fn any_sizes() {
    let mut random = Random::of("any_sizes");
    let mut met: Met = [0; 17];
    for _ in 0..10_000 {
        let shape = inputs::any_shape(&mut random);
        let text = inputs::any_text(&mut random, shape.vocabulary);
        let sizes = inputs::other_sizes(&mut random, entries::measure(shape, &text).sizes);
        let mut ours = inputs::room(&mut random, shape, &text);
        let mut theirs = ours.clone();
        let answer = entries::build_sized(shape, sizes, &text, ours.slices_mut());
        let expected = reference::build_sized(shape, sizes, &text, &mut theirs);
        assert_eq!(answer, expected, "{shape:?}, {sizes:?}, {text:?}");
        assert!(ours == theirs, "{shape:?}, {sizes:?}, {text:?}");
        met[answer.refusal as usize] += 1;
    }
    assert!([0, 1, 3, 4, 5, 16].into_iter().all(|number| met[number] > 50), "{met:?}");
}

/// A text that is changed between the two calls is refused by 16 exactly if its sizes changed; otherwise the index of the changed text is
/// built.
#[test]
fn changed_texts() {
    let mut random = Random::of("changed_texts");
    let mut met: Met = [0; 17];
    for _ in 0..10_000 {
        let vocabulary = inputs::vocabulary(&mut random);
        let shape = inputs::shape(&mut random, vocabulary);
        let text = inputs::text(&mut random, vocabulary);
        let changed = inputs::changed_text(&mut random, vocabulary, &text);
        if changed == text {
            continue;
        }
        let sizes = entries::measure(shape, &text).sizes;
        let again = entries::measure(shape, &changed);
        let mut ours = inputs::room(&mut random, shape, &changed);
        let mut theirs = ours.clone();
        let answer = entries::build_sized(shape, sizes, &changed, ours.slices_mut());
        let expected = reference::build_sized(shape, sizes, &changed, &mut theirs);
        assert_eq!(answer, expected, "{shape:?}, {text:?}, {changed:?}");
        assert!(ours == theirs, "{shape:?}, {text:?}, {changed:?}");
        let noticed = again.answer.refusal == 0 && again.sizes != sizes;
        assert_eq!(answer.refusal == 16, noticed, "{shape:?}, {text:?}, {changed:?}");
        met[answer.refusal as usize] += 1;
    }
    assert!(met[0] > 1_000 && met[16] > 1_000 && met[4] > 100 && met[5] > 100, "{met:?}");
}

/// A text that was measured with another V, B or b is refused by 16 exactly if one of the four numbers is another.
#[test]
fn changed_shapes() {
    let mut random = Random::of("changed_shapes");
    let mut met: Met = [0; 17];
    for _ in 0..6_000 {
        let vocabulary = inputs::vocabulary(&mut random);
        let text = inputs::text(&mut random, vocabulary);
        let larger = vocabulary + random.below(300);
        let one = inputs::shape(&mut random, larger);
        let other = match random.below(3) {
            0 => Shape { vocabulary: vocabulary + random.below(300), ..one },
            1 => Shape { block: random.between(1, 1_000), ..one },
            _ => Shape { per_superblock: random.between(1, 65), ..one },
        };
        let sizes = entries::measure(one, &text).sizes;
        let again = entries::measure(other, &text).sizes;
        let mut ours = inputs::room(&mut random, other, &text);
        let mut theirs = ours.clone();
        let answer = entries::build_sized(other, sizes, &text, ours.slices_mut());
        let expected = reference::build_sized(other, sizes, &text, &mut theirs);
        assert_eq!(answer, expected, "{one:?}, {other:?}, {text:?}");
        assert!(ours == theirs, "{one:?}, {other:?}, {text:?}");
        assert_eq!(answer.refusal == 16, again != sizes, "{one:?}, {other:?}, {text:?}");
        met[answer.refusal as usize] += 1;
    }
    assert!(met[0] > 500 && met[16] > 500 && met[5] > 50, "{met:?}");
}

/// Every text of up to four words over three ranks, with all four numbers from 0 to one past the largest: one quadruple is accepted.
#[test]
fn small_texts() {
    let shape = Shape { vocabulary: 130, block: 2, per_superblock: 2 };
    for length in 0..=4u32 {
        for number in 0..3usize.pow(length) {
            let text: Vec<u32> = (0..length).map(|place| [0, 128, 129][number / 3usize.pow(place) % 3]).collect();
            let made = reference::index(shape, &text);
            let right = reference::sizes(&made);
            let before = inputs::marked([2, right.bytes, 256 * right.superblock_rows, 256 * right.block_rows]);
            let mut accepted = Vec::new();
            for number in 0..4 * 10 * 5 * 7 {
                let given = sizes(number % 4, number / 4 % 10, number / 40 % 5, number / 200);
                let mut arrays = before.clone();
                let answer = entries::build_sized(shape, given, &text, arrays.slices_mut());
                if answer.refusal == 0 {
                    assert!(arrays == made, "{given:?}, {text:?}");
                    accepted.push(given);
                } else {
                    assert_eq!(answer, reference::refused(16), "{given:?}, {text:?}");
                    assert!(arrays == before, "{given:?}, {text:?}");
                }
            }
            assert_eq!(accepted, [right], "{text:?}");
        }
    }
}

/// An index that the wrapper builds has the sizes that it measures and takes the memory that they say; refused, both give the refusal of the
/// entry.
#[test]
fn owned_indexes() {
    let mut random = Random::of("owned_indexes");
    let mut met: Met = [0; 17];
    for _ in 0..3_000 {
        let shape = inputs::any_shape(&mut random);
        let text = inputs::any_text(&mut random, shape.vocabulary);
        let Measured { answer, sizes } = reference::measure(shape, &text);
        let measured = Index::measure(shape, &text);
        match Index::build(shape, &text) {
            Ok(index) => {
                assert_eq!(measured, Ok(sizes), "{shape:?}, {text:?}");
                let arrays = index.into_arrays();
                assert!(arrays == reference::index(shape, &text), "{shape:?}, {text:?}");
                let memory = size_of_val(&arrays.lengths[..])
                    + size_of_val(&arrays.bytes[..])
                    + size_of_val(&arrays.superblocks[..])
                    + size_of_val(&arrays.blocks[..]);
                assert_eq!(sizes.memory(), memory, "{shape:?}, {text:?}");
            }
            Err(refused) => {
                assert_eq!(measured, Err(refused), "{shape:?}, {text:?}");
                let given = Answer { refusal: refused.refusal.number(), value: refused.value };
                assert_eq!(given, answer, "{shape:?}, {text:?}");
            }
        }
        met[answer.refusal as usize] += 1;
    }
    assert!([0, 1, 3, 4].into_iter().all(|number| met[number] > 50), "{met:?}");
}

//! Building an index and checking arrays, against the reference.
mod support;
use concordance::{entries, Arrays, Shape};
use support::random::Random;
use support::{inputs, reference};

#[test]
fn build() {
    let mut random = Random::of("build");
    for _ in 0..6_000 {
        let shape = inputs::any_shape(&mut random);
        let text = inputs::any_text(&mut random, shape.vocabulary);
        let mut ours = inputs::room(&mut random, shape, &text);
        let mut theirs = ours.clone();
        let answer = entries::build(shape, &text, ours.slices_mut());
        assert_eq!(answer, reference::build(shape, &text, &mut theirs), "{shape:?}, {text:?}");
        assert!(ours == theirs, "{shape:?}, {text:?}");
    }
}

/// Arrays of a text pass, and damaged ones exactly if the reference finds a text for them. Some of
/// those that are damaged must pass and some must not, or the test would show nothing.
#[test]
fn check() {
    let mut random = Random::of("check");
    let (mut passed, mut failed) = (0, 0);
    for _ in 0..20_000 {
        let vocabulary = inputs::vocabulary(&mut random);
        let shape = inputs::shape(&mut random, vocabulary);
        let text = inputs::text(&mut random, vocabulary);
        let mut arrays = reference::index(shape, &text);
        assert_eq!(entries::check(shape, arrays.slices()), reference::accepted(0), "{shape:?}, {text:?}");
        inputs::damage(&mut random, shape, &mut arrays);
        let answer = entries::check(shape, arrays.slices());
        assert_eq!(answer, reference::check(shape, &arrays), "{shape:?}, {text:?}, {arrays:?}");
        if answer.refusal == 0 {
            passed += 1;
        } else {
            failed += 1;
        }
    }
    assert!(passed > 100 && failed > 1_000, "{passed} passed, {failed} failed");
}

/// Shapes outside their limits, over any arrays.
#[test]
fn check_of_any_shape() {
    let mut random = Random::of("check_of_any_shape");
    for _ in 0..10_000 {
        let good = inputs::shape(&mut random, 130);
        let arrays = reference::index(good, &[0, 128, 0, 129, 128]);
        let shape = if random.once_in(2) { inputs::any_shape(&mut random) } else { good };
        assert_eq!(entries::check(shape, arrays.slices()), reference::check(shape, &arrays), "{shape:?}");
    }
}

/// Every text of up to four words over up to three ranks: its index passes, and no other text has it.
#[test]
fn small_texts() {
    let shape = Shape { vocabulary: 130, block: 2, per_superblock: 2 };
    let mut seen: Vec<Arrays> = Vec::new();
    for length in 0..=4u32 {
        for number in 0..3usize.pow(length) {
            let text: Vec<u32> = (0..length).map(|place| [0, 128, 129][number / 3usize.pow(place) % 3]).collect();
            let arrays = reference::index(shape, &text);
            assert_eq!(entries::check(shape, arrays.slices()).refusal, 0);
            assert!(!seen.contains(&arrays), "{text:?}");
            seen.push(arrays);
        }
    }
}

//! Reading plain text through a word list, against the reference.
mod support;
use concordance::entries;
use support::random::Random;
use support::{inputs, reference};

#[test]
fn read_text() {
    let mut random = Random::of("read_text");
    let built_in = reference::built_in();
    let mut refusals = [0usize; 16];
    for _ in 0..30_000 {
        let text = inputs::plain_text(&mut random);
        let list = inputs::word_list(&mut random, &built_in, &text);
        let words = reference::words_of(&built_in, &text).len();
        let room = (words + random.below(3)).saturating_sub(random.one_of(&[0, 0, 0, 0, 1]));
        let mut ours = vec![88; room];
        let mut theirs = ours.clone();
        let answer = entries::read_text(&list, &text, &mut ours);
        assert_eq!(answer, reference::read_text(&built_in, &list, &text, &mut theirs), "{list:02X?}, {text:02X?}");
        assert_eq!(ours, theirs, "{list:02X?}, {text:02X?}");
        refusals[answer.refusal as usize] += 1;
    }
    let met = |number: usize| refusals[number] > 50;
    assert!([0, 1, 5, 13, 14].into_iter().all(met), "{refusals:?}");
}

/// Each byte alone, between two letters, and in a list.
#[test]
fn each_byte() {
    let built_in = reference::built_in();
    for byte in 0..=255u8 {
        for (list, text) in [
            (vec![b'a', b'\n', reference::letter(&built_in, byte), b'\n'], vec![byte]),
            (b"a\nb\nab\n".to_vec(), vec![b'a', byte, b'b']),
            (vec![byte, b'\n'], b"a".to_vec()),
            (vec![b'a', byte, b'\n'], vec![b'A', byte]),
        ] {
            let mut ours = [88; 3];
            let mut theirs = [88; 3];
            let answer = entries::read_text(&list, &text, &mut ours);
            assert_eq!(answer, reference::read_text(&built_in, &list, &text, &mut theirs), "{list:02X?}, {text:02X?}");
            assert_eq!(ours, theirs, "{list:02X?}, {text:02X?}");
        }
    }
}

/// Lists of as many words as a hash table has, of one more, and of more than two tables: words of each, one that is not listed, and one
/// that is listed twice.
#[test]
fn long_lists() {
    let mut random = Random::of("long_lists");
    let built_in = reference::built_in();
    for vocabulary in [100_000, 100_001, 230_000] {
        let list: Vec<u8> = (0..vocabulary).flat_map(|rank| format!("{rank:x}\n").into_bytes()).collect();
        let edges = [0, 99_999, 100_000, 199_999, 200_000, vocabulary - 1];
        let mut text = String::new();
        for _ in 0..5_000 {
            let drawn = [random.below(vocabulary), random.one_of(&edges).min(vocabulary - 1)];
            let rank = random.one_of(&drawn);
            text += &if random.once_in(2) { format!("{rank:x} ") } else { format!("{rank:X}, ") };
        }
        let unlisted = format!("{text}{vocabulary:x}");
        let twice = [&list[..], b"a\n"].concat();
        for (list, text, refusal, value) in
            [(&list, &text, 0, 5_000), (&list, &unlisted, 14, text.len()), (&twice, &text, 13, 0)]
        {
            let mut ours = vec![88; 5_002];
            let mut theirs = ours.clone();
            let answer = entries::read_text(list, text.as_bytes(), &mut ours);
            assert_eq!(
                answer,
                reference::read_text(&built_in, list, text.as_bytes(), &mut theirs),
                "{vocabulary} words listed"
            );
            assert_eq!((answer.refusal, answer.value), (refusal, value), "{vocabulary} words listed");
            assert!(ours == theirs, "{vocabulary} words listed");
        }
    }
}

//! Writing and reading streams, against the reference.
mod support;
use concordance::entries;
use support::random::Random;
use support::{inputs, reference};

/// Both calls of one entry leave the same slice and give the same answer.
#[test]
fn write_stream() {
    let mut random = Random::of("write_stream");
    for _ in 0..20_000 {
        let vocabulary = inputs::any_vocabulary(&mut random);
        let text = inputs::any_text(&mut random, vocabulary);
        let needed = reference::stream(&text).len();
        let room = (needed + random.below(4)).saturating_sub(random.one_of(&[0, 0, 0, 1, 2]));
        let mut ours = vec![0xA5; room];
        let mut theirs = ours.clone();
        let answer = entries::write_stream(vocabulary, &text, &mut ours);
        assert_eq!(answer, reference::write_stream(vocabulary, &text, &mut theirs), "V {vocabulary}, {text:?}");
        assert_eq!(ours, theirs, "V {vocabulary}, {text:?}");
    }
}

/// Streams of texts, broken by a byte changed, taken out or put in anywhere, and random bytes.
#[test]
fn read_stream() {
    let mut random = Random::of("read_stream");
    for _ in 0..40_000 {
        let vocabulary = inputs::vocabulary(&mut random);
        let mut stream = reference::stream(&inputs::text(&mut random, vocabulary));
        let at = random.below(stream.len() + 1);
        match random.below(6) {
            0 if at < stream.len() => stream[at] ^= random.one_of(&[0x80, 1, 0xFF]),
            1 if at < stream.len() => drop(stream.remove(at)),
            2 => stream.insert(at, random.next() as u8),
            3 => stream.truncate(at),
            4 => stream = (0..random.below(30)).map(|_| random.next() as u8).collect(),
            _ => {}
        }
        let words = stream.iter().filter(|&&byte| byte >= 0x80).count();
        let room = (words + random.below(3)).saturating_sub(random.one_of(&[0, 0, 0, 1]));
        let mut ours = vec![77; room];
        let mut theirs = ours.clone();
        let answer = entries::read_stream(&stream, &mut ours);
        assert_eq!(answer, reference::read_stream(&stream, &mut theirs), "{stream:02X?}");
        assert_eq!(ours, theirs, "{stream:02X?}");
    }
}

/// Every stream of up to two bytes, and every three bytes around the steps of the code.
#[test]
fn read_short_streams() {
    let edges = [0x00, 0x01, 0x7E, 0x7F, 0x80, 0x81, 0xFE, 0xFF];
    let mut streams: Vec<Vec<u8>> = vec![vec![]];
    for first in 0..=255u8 {
        streams.push(vec![first]);
        streams.extend((0..=255u8).map(|second| vec![first, second]));
    }
    for first in edges {
        for second in edges {
            for third in edges {
                streams.push(vec![first, second, third]);
                streams.extend(edges.map(|fourth| vec![first, second, third, fourth]));
            }
        }
    }
    for stream in streams {
        let mut ours = [77; 4];
        let mut theirs = [77; 4];
        let answer = entries::read_stream(&stream, &mut ours);
        assert_eq!(answer, reference::read_stream(&stream, &mut theirs), "{stream:02X?}");
        assert_eq!(ours, theirs, "{stream:02X?}");
    }
}

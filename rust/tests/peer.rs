//! Streams and trees that another program has made (`peer/encode.py`), compared with ours.
use concordance::{read_stream, write_stream, Index, Shape};
use std::collections::BTreeMap;
use std::fs;
use std::path::PathBuf;

fn stored(name: &str) -> Vec<u8> {
    let path = PathBuf::from(env!("CARGO_MANIFEST_DIR")).join("../peer/texts").join(name);
    fs::read(&path).unwrap_or_else(|error| panic!("{}: {error}", path.display()))
}

/// The bytes that lead to a node.
fn path(node: usize) -> Vec<u8> {
    if node == 0 {
        return Vec::new();
    }
    let mut bytes = path((node - 1) / 128);
    bytes.push(((node - 1) % 128) as u8);
    bytes
}

/// A line for each node with bytes, as the other program writes it.
fn lengths(index: &Index) -> String {
    let mut lines = String::new();
    for (node, &length) in index.arrays().lengths.iter().enumerate() {
        if length > 0 {
            let bytes: Vec<String> = path(node).iter().map(|byte| format!("{byte:02X}")).collect();
            lines += &format!("{}: {length}\n", bytes.join(" "));
        }
    }
    lines
}

/// The ranks of the words of a text: the most frequent first, equal ones by first appearance.
fn ranks(text: &str) -> Vec<u32> {
    let mut frequency: BTreeMap<&str, (usize, usize)> = BTreeMap::new();
    for (place, word) in text.split_whitespace().enumerate() {
        frequency.entry(word).or_insert((0, place)).0 += 1;
    }
    let mut order: Vec<&str> = frequency.keys().copied().collect();
    order.sort_by_key(|word| (usize::MAX - frequency[word].0, frequency[word].1));
    let rank: BTreeMap<&str, u32> = order.iter().zip(0..).map(|(&word, rank)| (word, rank)).collect();
    text.split_whitespace().map(|word| rank[word]).collect()
}

#[test]
fn streams_of_another_program() {
    for name in ["empty", "galaxy", "ives", "two_bytes", "three_bytes"] {
        let stream = stored(&format!("{name}.stream"));
        let text = read_stream(&stream).expect("the stream is whole");
        let plain = String::from_utf8(stored(&format!("{name}.txt"))).expect("the text is ASCII");
        assert_eq!(text, ranks(&plain), "{name}");
        let vocabulary = text.iter().max().map_or(1, |&rank| rank as usize + 1);
        assert_eq!(write_stream(vocabulary, &text).unwrap(), stream, "{name}");
        let index = Index::build(Shape::for_text(vocabulary), &text).expect("the text is one");
        assert!(index.arrays().bytes == stored(&format!("{name}.tree")), "{name}");
        assert_eq!(lengths(&index), String::from_utf8(stored(&format!("{name}.lengths"))).unwrap(), "{name}");
    }
}

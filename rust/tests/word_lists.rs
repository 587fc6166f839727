//! Making the word list of a plain text, against the reference.
mod support;
use concordance::entries::{self, ListMade};
use concordance::{Index, Question, Refusal, Refused, Shape, WordList};
use support::random::Random;
use support::{inputs, reference};

const MOST_BYTES: usize = 65_536;
const MOST_LISTED: usize = 4_096;
const MAX_WORDS: usize = 16_777_216;

/// What is made of a text by the built-in letter table.
fn made_of(text: &[u8]) -> reference::Made {
    reference::made(&reference::built_in(), text)
}

/// What a refused call returns.
fn turned_down(refusal: u32) -> ListMade {
    ListMade { answer: reference::refused(refusal), bytes: 0, words: 0 }
}

/// What a call returns that is accepted.
fn accepted(bytes: usize, words: usize) -> ListMade {
    ListMade { answer: reference::accepted(0), bytes, words }
}

/// The front of a text, and its length, for a message.
fn front(text: &[u8]) -> String {
    format!("{} bytes: {:02X?}", text.len(), &text[..text.len().min(130)])
}

/// Makes the list of a text in slices of these lengths, filled with a mark, and compares what is returned and left with the reference.
fn compare(text: &[u8], made: &reference::Made, room: (usize, usize)) -> ListMade {
    let (mut list, mut ranks) = (vec![0xA5; room.0], vec![0xAAAA_AAAA; room.1]);
    let (mut their_list, mut their_ranks) = (list.clone(), ranks.clone());
    let ours = entries::make_list(text, &mut list, &mut ranks);
    let theirs = reference::fill_list(made, &mut their_list, &mut their_ranks);
    assert_eq!(ours, theirs, "slices of {room:?}, {}", front(text));
    assert!(list == their_list, "the list in slices of {room:?}, {}", front(text));
    assert!(ranks == their_ranks, "the ranks in slices of {room:?}, {}", front(text));
    ours
}

/// The same in slices of the lengths that the text needs, longer ones, ones that are too short by one, and empty ones.
fn compare_in_all_rooms(text: &[u8]) -> reference::Made {
    let made = made_of(text);
    let (bytes, words) =
        made.as_ref().map_or((MOST_BYTES + 1, MOST_BYTES / 2), |(list, ranks)| (list.len(), ranks.len()));
    for room in [
        (bytes, words),
        (bytes + 3, words + 2),
        (MOST_BYTES + 1, MOST_BYTES / 2),
        (bytes.saturating_sub(1), words),
        (bytes, words.saturating_sub(1)),
        (bytes.saturating_sub(1), words.saturating_sub(1)),
        (0, words),
        (bytes, 0),
        (0, 0),
    ] {
        compare(text, &made, room);
    }
    made
}

/// Reads a text back through the list that was made of it, and looks at the order of the list: no word stands more often than one before it, and of
/// equally frequent ones the earlier has the lower rank. The frequencies add up to the number of words.
fn check_made(text: &[u8], list: &[u8], ranks: &[u32]) {
    let mut read = vec![77; ranks.len() + 1];
    let answer = entries::read_text(list, text, &mut read);
    if ranks.is_empty() {
        assert_eq!((list, answer), (&[][..], reference::refused(1)), "{}", front(text));
        return;
    }
    assert_eq!(answer, reference::accepted(ranks.len()), "{}", front(text));
    assert!(read[..ranks.len()] == *ranks && read[ranks.len()] == 77, "{}", front(text));
    let vocabulary = list.iter().filter(|&&byte| byte == 0x0A).count();
    let mut stands = vec![(0usize, usize::MAX); vocabulary];
    for (place, &rank) in ranks.iter().enumerate() {
        let (often, first) = &mut stands[rank as usize];
        *often += 1;
        *first = place.min(*first);
    }
    assert_eq!(stands.iter().map(|&(often, _)| often).sum::<usize>(), ranks.len(), "{}", front(text));
    assert!(stands.iter().all(|&(often, _)| often > 0), "{}", front(text));
    for pair in stands.windows(2) {
        let ((often, first), (next_often, next_first)) = (pair[0], pair[1]);
        assert!(often > next_often || often == next_often && first < next_first, "{pair:?}, {}", front(text));
    }
}

/// Small texts, with what is made of each.
#[test]
fn samples() {
    for (text, list, ranks) in [
        (&b"c, B b; C a"[..], &b"c\nb\na\n"[..], &[0, 1, 1, 0, 2][..]),
        (b"The cat, the CAT; a dog. The", b"the\ncat\na\ndog\n", &[0, 1, 0, 1, 2, 3, 0]),
        (b"b a b a", b"b\na\n", &[0, 1, 0, 1]),
        (b"a b b", b"b\na\n", &[1, 0, 0]),
        (b"\xC4 \xE4\xD7\xDFA", b"\xE4\n\xDFa\n", &[0, 0, 1]),
        (b"x", b"x\n", &[0]),
        (b"\n9\n", b"9\n", &[0]),
        (b"", b"", &[]),
        (b" \n", b"", &[]),
        (b"\0\xD7\xF7\x7F\xBF", b"", &[]),
    ] {
        let mut ours = (vec![9; list.len() + 1], vec![9; ranks.len() + 1]);
        let made = entries::make_list(text, &mut ours.0, &mut ours.1);
        assert_eq!(made, accepted(list.len(), ranks.len()), "{}", front(text));
        assert_eq!(ours, ([list, &[9]].concat(), [ranks, &[9]].concat()), "{}", front(text));
        assert_eq!(compare_in_all_rooms(text), Ok((list.to_vec(), ranks.to_vec())), "{}", front(text));
        check_made(text, list, ranks);
    }
    let (mut list, mut ranks) = ([9; 6], [9; 6]);
    for (bytes, words) in [(5, 6), (6, 4), (5, 4), (0, 6), (6, 0), (0, 0)] {
        let made = entries::make_list(b"c, B b; C a", &mut list[..bytes], &mut ranks[..words]);
        assert_eq!((made, list, ranks), (turned_down(5), [9; 6], [9; 6]), "{bytes}, {words}");
    }
    assert_eq!(entries::make_list(b"c, B b; C a", &mut list, &mut ranks), accepted(6, 5));
    assert_eq!((&list, ranks), (b"c\nb\na\n", [0, 1, 1, 0, 2, 9]));
}

/// A text without words is given empty slices and longer ones; any text is refused by 1 when it is read through the empty list.
#[test]
fn no_words() {
    let separators = vec![b' '; MOST_BYTES];
    for text in [&b""[..], b" \n", &separators] {
        for room in [(0, 0), (0, 3), (3, 0), (2, 2)] {
            assert_eq!(compare(text, &Ok((vec![], vec![])), room), accepted(0, 0));
        }
        let none = WordList { list: vec![], ranks: vec![] };
        assert_eq!(concordance::make_list(text), Ok(none));
    }
    let none = concordance::make_list(b"?").unwrap();
    assert_eq!((none.vocabulary(), none.spellings().count()), (0, 0));
    for text in [&b""[..], b" ", b"a"] {
        assert_eq!(entries::read_text(&none.list, text, &mut [0; 2]), reference::refused(1));
    }
}

/// Random texts over few letters, over letters and separators, and over all bytes, in slices that are long enough or not.
#[test]
fn random_texts() {
    let mut random = Random::of("random_texts");
    let (mut met, mut ties) = ([0; 18], 0);
    for _ in 0..6_000 {
        let text = match random.below(3) {
            0 => inputs::plain_text(&mut random),
            _ => inputs::repetitive_text(&mut random),
        };
        let made = made_of(&text);
        let (list, ranks) = made.as_ref().unwrap();
        let mut length = |needed: usize| match random.below(8) {
            0 => needed.saturating_sub(1),
            1 => random.below(needed + 1),
            _ => needed + random.below(3),
        };
        let room = (length(list.len()), length(ranks.len()));
        let refusal = compare(&text, &made, room).answer.refusal;
        met[refusal as usize] += 1;
        if refusal == 0 {
            check_made(&text, list, ranks);
            let vocabulary = list.iter().filter(|&&byte| byte == 0x0A).count();
            let often: Vec<usize> =
                (0..vocabulary).map(|rank| ranks.iter().filter(|&&other| other as usize == rank).count()).collect();
            ties += usize::from(often.windows(2).any(|pair| pair[0] == pair[1] && pair[0] > 1));
        }
    }
    assert!(met[0] > 2_000 && met[5] > 500 && met[0] + met[5] == 6_000, "{met:?}");
    assert!(ties > 500, "{ties} texts with words that stand equally often, and more than once");
}

/// Every text of up to four bytes over two letters, a capital and a separator, in slices of every length up to one more than needed.
#[test]
fn small_texts() {
    let mut tried = 0;
    for length in 0..=4u32 {
        for number in 0..4usize.pow(length) {
            let text: Vec<u8> = (0..length).map(|place| b"aAb "[number / 4usize.pow(place) % 4]).collect();
            let made = made_of(&text);
            let (list, ranks) = made.as_ref().unwrap();
            for bytes in 0..=list.len() + 1 {
                for words in 0..=ranks.len() + 1 {
                    compare(&text, &made, (bytes, words));
                    tried += 1;
                }
            }
        }
    }
    assert_eq!(tried, 6_565);
}

/// Each byte alone, between two letters, and at the ends of a word.
#[test]
fn each_byte() {
    for byte in 0..=255u8 {
        let text = [&[byte][..], b" a", &[byte], b"b ", &[byte], b"a b", &[byte]].concat();
        for text in [&[byte][..], &text] {
            let made = made_of(text);
            compare(text, &made, (20, 8));
            let (list, ranks) = made.unwrap();
            check_made(text, &list, &ranks);
        }
    }
}

/// Texts of the most bytes and of one less or more, with few words and many, and texts of random bytes.
#[test]
fn long_texts() {
    let mut random = Random::of("long_texts");
    let mut met = [0; 18];
    for (bytes, spellings) in [
        (MOST_BYTES, 1),
        (MOST_BYTES, 2),
        (MOST_BYTES, 127),
        (MOST_BYTES, 128),
        (MOST_BYTES, 129),
        (MOST_BYTES, 1_000),
        (MOST_BYTES, 3_000),
        (MOST_BYTES, 4_000),
        (MOST_BYTES, 6_000),
        (MOST_BYTES - 1, 3_000),
        (MOST_BYTES + 1, 3_000),
        (MOST_BYTES + 1, 1),
        (20_000, 500),
        (30_000, 16),
    ] {
        let text = inputs::long_text(&mut random, bytes, spellings);
        let made = compare_in_all_rooms(&text);
        if let Ok((list, ranks)) = &made {
            check_made(&text, list, ranks);
        }
        met[made.map_or_else(|answer| answer.refusal, |_| 0) as usize] += 1;
    }
    for bytes in [1_000, 5_000, 12_000, MOST_BYTES] {
        let text: Vec<u8> = (0..bytes).map(|_| random.next() as u8).collect();
        let made = compare_in_all_rooms(&text);
        if let Ok((list, ranks)) = &made {
            check_made(&text, list, ranks);
        }
        met[made.map_or_else(|answer| answer.refusal, |_| 0) as usize] += 1;
    }
    assert!(met[0] >= 12 && met[17] >= 3 && met[0] + met[17] == 18, "{met:?}");
}

/// Texts of 65,536 bytes with the longest word and the most words, and of one byte more; 5 is given only to a text that is short enough.
#[test]
fn longest_texts() {
    let word = vec![b'A'; MOST_BYTES];
    let words = b"a ".repeat(MOST_BYTES / 2);
    let separators = vec![b'.'; MOST_BYTES];
    for (text, bytes, count) in [(&word, MOST_BYTES + 1, 1), (&words, 2, MOST_BYTES / 2), (&separators, 0, 0)] {
        let made = compare_in_all_rooms(text);
        let (mut list, mut ranks) = (vec![9; MOST_BYTES + 1], vec![9; MOST_BYTES / 2]);
        assert_eq!(entries::make_list(text, &mut list, &mut ranks), accepted(bytes, count));
        assert_eq!(made, Ok((list[..bytes].to_vec(), vec![0; count])));
        for more in [b' ', b'a', b'b', 0xFF] {
            let text = [text, &[more][..]].concat();
            for room in [(MOST_BYTES + 2, MOST_BYTES / 2 + 1), (0, 0)] {
                assert_eq!(compare(&text, &Err(reference::refused(17)), room), turned_down(17));
            }
        }
    }
    let mut list = vec![0; MOST_BYTES + 1];
    entries::make_list(&word, &mut list, &mut [9]);
    assert!(list[..MOST_BYTES].iter().all(|&byte| byte == b'a') && list[MOST_BYTES] == 0x0A);
}

/// The words of one kept byte and of two, so many of them: they take the fewest bytes.
fn shortest_words(count: usize) -> Vec<Vec<u8>> {
    let kept = reference::kept(&reference::built_in());
    let pairs = kept.iter().flat_map(|&one| kept.iter().map(move |&other| vec![one, other]));
    kept.iter().map(|&byte| vec![byte]).chain(pairs).take(count).collect()
}

/// 4,096 different words, and one more: each once in the fewest bytes, and in 65,536 bytes with the last of them at the end. One more is refused by 17,
/// long enough slices or not.
#[test]
fn most_words_of_a_list() {
    for (count, refusal) in [(MOST_LISTED - 1, 0), (MOST_LISTED, 0), (MOST_LISTED + 1, 17)] {
        let words = shortest_words(count);
        let once = [words.join(&b' '), vec![b' ']].concat();
        assert!(count != 4_097 || once.len() == 12_223);
        let (last, others) = words.split_last().unwrap();
        let mut filled = others.join(&b';');
        for word in others.iter().cycle() {
            if filled.len() + word.len() + last.len() + 2 > MOST_BYTES {
                break;
            }
            filled.push(b'\n');
            filled.extend(word.iter().map(|byte| byte.to_ascii_uppercase()));
        }
        filled.resize(MOST_BYTES - last.len(), b' ');
        filled.extend(last);
        let backwards: Vec<u8> = words.iter().rev().flat_map(|word| [word, &b"\0"[..]].concat()).collect();
        for text in [once, filled, backwards] {
            let made = compare_in_all_rooms(&text);
            assert_eq!(made.as_ref().map_or_else(|answer| answer.refusal, |_| 0), refusal, "{count}, {}", front(&text));
            assert_eq!(compare(&text, &made, (0, 0)), turned_down(if refusal == 0 { 5 } else { 17 }), "{count}");
            if let Ok((list, ranks)) = made {
                assert_eq!(list.iter().filter(|&&byte| byte == 0x0A).count(), count);
                check_made(&text, &list, &ranks);
            }
        }
    }
}

/// 16,777,217 words are refused by 2, one less by 17: the words of a long text are counted, whatever the slices are.
#[test]
fn most_words_of_a_text() {
    let mut text = b"a ".repeat(MAX_WORDS);
    text.extend(b"a");
    for (bytes, refusal) in [(text.len(), 2), (text.len() - 1, 17), (text.len() - 2, 17)] {
        for room in [(0, 0), (MOST_BYTES + 1, MOST_BYTES / 2)] {
            assert_eq!(compare(&text[..bytes], &Err(reference::refused(refusal)), room), turned_down(refusal));
        }
        let refusal = Refusal::from_number(refusal).unwrap();
        assert_eq!(concordance::make_list(&text[..bytes]), Err(Refused { refusal, value: 0 }));
    }
    let last = text.len() - 1;
    text[last] = b'-';
    assert_eq!(entries::make_list(&text, &mut [], &mut []), turned_down(17));
    text[last] = b'B';
    text[last - 1] = b'x';
    assert_eq!(entries::make_list(&text, &mut [], &mut []), turned_down(17));
    text.extend(b",\xFE");
    assert_eq!(entries::make_list(&text, &mut [], &mut []), turned_down(2));
}

/// Different words of five letters, so many of them, that share a bucket of the engine's hash table, which has 65,536.
fn words_of_a_bucket(count: usize) -> Vec<Vec<u8>> {
    let step = |bucket: usize, byte: u8| (bucket * 40_503 + usize::from(byte)) % 65_536;
    let kept = reference::kept(&reference::built_in());
    let mut last = vec![None; 65_536];
    for &one in &kept {
        for &two in &kept {
            last[step(step(0, one), two)] = Some([one, two]);
        }
    }
    let mut words = Vec::new();
    for front in 0..kept.len().pow(3) {
        let front = [kept[front % 68], kept[front / 68 % 68], kept[front / 68 / 68]];
        let bucket = front.iter().fold(0, |bucket, &byte| step(bucket, byte));
        let behind = step(step(bucket, 0), 0);
        if let Some(pair) = last[(65_536 - behind) % 65_536] {
            words.push([&front[..], &pair].concat());
        }
    }
    assert!(
        words.len() >= count && words.iter().all(|word| word.iter().fold(0, |bucket, &byte| step(bucket, byte)) == 0)
    );
    words.truncate(count);
    words
}

/// Texts made to be slow or to be mixed up: two words whose hashes share a bucket, each many times; as many different words of one bucket as a list
/// can have, and as a text can have; long words that differ in a capital or in their last byte; words that are the front of another; all words of one
/// byte in turn.
#[test]
fn hostile_texts() {
    let alike = [b"p ".repeat(16_384), b"\xE9a ".repeat(10_922)].concat();
    let long = |last: u8| [vec![b'x'; 16_382], vec![last]].concat();
    let long_words = [long(b'y'), long(b'z'), long(b'Z'), long(b'Y')].join(&b'\n');
    let fronts: Vec<u8> = (1..=350).rev().flat_map(|length| [vec![b'q'; length], vec![b'?']].concat()).collect();
    let all_bytes: Vec<u8> = (0..MOST_BYTES).map(|at| if at % 2 == 0 { (at / 2) as u8 } else { 0xF7 }).collect();
    let bucket = words_of_a_bucket(MOST_LISTED);
    let bucket = bucket.iter().cycle().take(MOST_BYTES / 6).map(Vec::as_slice).collect::<Vec<_>>().join(&b' ');
    let crowd = words_of_a_bucket(MOST_BYTES / 6).join(&b' ');
    assert_eq!(compare(&crowd, &made_of(&crowd), (MOST_BYTES + 1, MOST_BYTES / 2)), turned_down(17));
    for (text, words, spellings) in [
        (alike, 27_306, 2),
        (bucket, 10_922, MOST_LISTED),
        (long_words, 4, 2),
        (fronts, 350, 350),
        (all_bytes, 124 * 128, 68),
    ] {
        let made = made_of(&text);
        compare(&text, &made, (MOST_BYTES + 1, MOST_BYTES / 2));
        let (list, ranks) = made.unwrap();
        assert_eq!(
            (ranks.len(), list.iter().filter(|&&byte| byte == 0x0A).count()),
            (words, spellings),
            "{}",
            front(&text)
        );
        check_made(&text, &list, &ranks);
    }
}

/// The number of bytes of the text's stream if each rank is replaced as the order says.
fn stream_length(ranks: &[u32], order: &[u32], stream: &mut [u8]) -> usize {
    let text: Vec<u32> = ranks.iter().map(|&rank| order[rank as usize]).collect();
    let answer = entries::write_stream(order.len(), &text, stream);
    assert_eq!(answer.refusal, 0);
    answer.value
}

/// Of a word that stands twice and comes last among 130, the rank is 0.
#[test]
fn last_word_is_most_frequent() {
    let mut text: String = (0..129).map(|number| format!("w{number} ")).collect();
    text += "Last, lAST";
    let made = concordance::make_list(text.as_bytes()).unwrap();
    let expected: Vec<u32> = (1..130).chain([0, 0]).collect();
    assert_eq!((made.vocabulary(), &made.ranks), (130, &expected));
    assert_eq!(made.spellings().take(2).collect::<Vec<_>>(), [&b"last"[..], b"w0"]);
    assert_eq!(concordance::write_stream(130, &made.ranks).unwrap().len(), 131 + 2);
}

/// Every order of up to five words gives a stream that is no shorter.
#[test]
fn all_orders_of_few_words() {
    let mut random = Random::of("all_orders_of_few_words");
    for _ in 0..30 {
        let words = random.between(1, 5);
        let text = inputs::long_text(&mut random, 40, words);
        let made = concordance::make_list(&text).unwrap();
        let mut order: Vec<u32> = (0..made.vocabulary() as u32).collect();
        let least = stream_length(&made.ranks, &order, &mut [0; 120]);
        permuted(&mut order, 0, &mut |order| assert!(least <= stream_length(&made.ranks, order, &mut [0; 120])));
    }
}

/// Calls a function with every order of the elements from one on.
fn permuted(order: &mut [u32], from: usize, call: &mut dyn FnMut(&[u32])) {
    if from == order.len() {
        return call(order);
    }
    for other in from..order.len() {
        order.swap(from, other);
        permuted(order, from + 1, call);
        order.swap(from, other);
    }
}

/// Of 131 words those with the ranks 128, 129 and 130 have two bytes each. Every choice of the three words that get these ranks gives a stream that is no
/// shorter, and so does every random order; an order in which a more frequent word is among the three is longer.
#[test]
fn all_orders_of_many_words() {
    let mut random = Random::of("all_orders_of_many_words");
    let words = 131;
    let mut drawn: Vec<usize> = (0..words).collect();
    drawn.extend((0..150).map(|_| random.below(words)));
    for at in 1..drawn.len() {
        drawn.swap(at, random.below(at + 1));
    }
    let text = drawn.iter().map(|number| format!("w{number}, ")).collect::<String>();
    let made = concordance::make_list(text.as_bytes()).unwrap();
    assert_eq!(made.vocabulary(), words);
    let mut stream = vec![0; 3 * drawn.len()];
    let mut order: Vec<u32> = (0..words as u32).collect();
    let least = stream_length(&made.ranks, &order, &mut stream);
    let often = |rank: u32| made.ranks.iter().filter(|&&other| other == rank).count();
    let (mut tried, mut longer) = (0, 0);
    for third in 0..words as u32 {
        for second in 0..third {
            for first in 0..second {
                let closing = [first, second, third];
                let mut next = 0..words as u32;
                for rank in 0..words as u32 {
                    if !closing.contains(&rank) {
                        order[rank as usize] = next.next().unwrap();
                    }
                }
                for (rank, place) in closing.iter().zip(next) {
                    order[*rank as usize] = place;
                }
                let length = stream_length(&made.ranks, &order, &mut stream);
                assert_eq!(length, drawn.len() + closing.iter().map(|&rank| often(rank)).sum::<usize>());
                assert!(least <= length, "{closing:?}");
                tried += 1;
                longer += usize::from(least < length);
            }
        }
    }
    assert!(tried == 131 * 130 * 129 / 6 && longer > tried / 2, "{longer} of {tried} longer");
    for _ in 0..1_000 {
        for at in 1..order.len() {
            order.swap(at, random.below(at + 1));
        }
        assert!(least <= stream_length(&made.ranks, &order, &mut stream));
    }
}

/// A list that the wrapper makes is the reference's, and refused, it gives the refusal of the entry, never for want of room. The index of the ranks counts
/// each word as often as it stands, and these frequencies add up to the number of words.
#[test]
fn owned_lists() {
    let mut random = Random::of("owned_lists");
    let mut met = [0; 18];
    for number in 0..1_000 {
        let text = match number % 4 {
            0 => inputs::plain_text(&mut random),
            1 | 2 => inputs::repetitive_text(&mut random),
            _ => {
                let bytes = random.one_of(&[100, 1_000, MOST_BYTES - 1, MOST_BYTES, MOST_BYTES + 1]);
                let spellings = random.one_of(&[1, 10, 200, 3_000, 8_000]);
                inputs::long_text(&mut random, bytes, spellings)
            }
        };
        let made = concordance::make_list(&text);
        met[made.as_ref().map_or_else(|refused| refused.refusal.number(), |_| 0) as usize] += 1;
        match (made, made_of(&text)) {
            (Ok(made), Ok((list, ranks))) => {
                assert!(made.list == list && made.ranks == ranks, "{}", front(&text));
                let spelled = made.spellings().map(|word| [word, b"\n"].concat()).collect::<Vec<_>>();
                assert!(made.vocabulary() == spelled.len() && spelled.concat() == list, "{}", front(&text));
                if made.vocabulary() > 0 {
                    let index = Index::build(Shape::for_text(made.vocabulary()), &ranks).unwrap();
                    let asked: Vec<Question> =
                        (0..spelled.len() as u32).map(|rank| Question::occurrences_below(rank, ranks.len())).collect();
                    let often: Vec<u32> =
                        index.answer_sheet(&[], &asked).unwrap().into_iter().map(Result::unwrap).collect();
                    assert!(often.windows(2).all(|pair| pair[0] >= pair[1]), "{}", front(&text));
                    assert_eq!(often.iter().sum::<u32>() as usize, ranks.len(), "{}", front(&text));
                }
            }
            (Err(refused), Err(answer)) => {
                assert_eq!((refused.refusal, refused.value), (Refusal::ListMaking, 0), "{}", front(&text));
                assert_eq!(answer, reference::refused(17), "{}", front(&text));
            }
            (ours, theirs) => panic!("{:?}, {:?}, {}", ours.is_ok(), theirs.is_ok(), front(&text)),
        }
    }
    assert!(met[0] > 500 && met[17] > 50 && met[0] + met[17] == 1_000, "{met:?}");
}

//! The engine as the papers describe it, written from them alone: plain scans over the text, and
//! no search structure. Where an index is given, its text is read back from the nodes and all its
//! arrays are made again from that text.
use concordance::entries::{Answer, ListMade, Measured, RawPage};
use concordance::{Arrays, IndexSizes, Listing, Question, Shape};
use std::cmp::Reverse;
use std::collections::{HashMap, HashSet};

pub const MAX_VOCABULARY: usize = 2_113_664;
pub const MAX_WORDS: usize = 16_777_216;

pub fn accepted(value: usize) -> Answer {
    Answer { refusal: 0, value }
}

pub fn refused(refusal: u32) -> Answer {
    Answer { refusal, value: 0 }
}

/// The number of the first fault that is there, in the order in which they are tried; 0 where none is.
pub fn first_of(faults: &[(bool, u32)]) -> u32 {
    faults.iter().find(|(there, _)| *there).map_or(0, |&(_, refusal)| refusal)
}

fn vocabulary_fits(vocabulary: usize) -> bool {
    (1..=MAX_VOCABULARY).contains(&vocabulary)
}

fn blocks_fit(shape: Shape) -> bool {
    let superblock = shape.block as u128 * shape.per_superblock as u128;
    (1..=65_535).contains(&superblock)
}

// ---- the code

/// The codeword of a rank.
pub fn code(rank: u32) -> Vec<u8> {
    let digits = |number: u32, count: u32| -> Vec<u8> {
        let mut bytes: Vec<u8> = (0..count).rev().map(|power| (number / 128u32.pow(power) % 128) as u8).collect();
        *bytes.last_mut().unwrap() += 128;
        bytes
    };
    match rank {
        0..=127 => digits(rank, 1),
        128..=16_511 => digits(rank - 128, 2),
        _ => digits(rank - 16_512, 3),
    }
}

/// The stream of a text.
pub fn stream(text: &[u32]) -> Vec<u8> {
    text.iter().flat_map(|&rank| code(rank)).collect()
}

/// The rank of a codeword; none if it has over three bytes.
fn rank(codeword: &[u8]) -> Option<u32> {
    let number = codeword.iter().fold(0u64, |sum, &byte| sum * 128 + u64::from(byte % 128));
    match codeword.len() {
        1 => Some(number as u32),
        2 => Some(number as u32 + 128),
        3 => Some(number as u32 + 16_512),
        _ => None,
    }
}

/// The text of a stream; none if it is broken.
pub fn stream_text(stream: &[u8]) -> Option<Vec<u32>> {
    let mut text = Vec::new();
    let mut codeword = Vec::new();
    for &byte in stream {
        codeword.push(byte);
        if byte >= 0x80 {
            text.push(rank(&codeword)?);
            codeword.clear();
        } else if codeword.len() >= 3 {
            return None;
        }
    }
    codeword.is_empty().then_some(text)
}

pub fn write_stream(vocabulary: usize, text: &[u32], into: &mut [u8]) -> Answer {
    if !vocabulary_fits(vocabulary) {
        return refused(1);
    }
    if text.len() > MAX_WORDS {
        return refused(2);
    }
    if let Some(value) = text.iter().position(|&rank| rank as usize >= vocabulary) {
        return Answer { refusal: 4, value };
    }
    let bytes = stream(text);
    if into.len() < bytes.len() {
        return refused(5);
    }
    into[..bytes.len()].copy_from_slice(&bytes);
    accepted(bytes.len())
}

pub fn read_stream(stream: &[u8], into: &mut [u32]) -> Answer {
    let closings = stream.iter().filter(|&&byte| byte >= 0x80).count();
    if closings > MAX_WORDS {
        return refused(2);
    }
    if into.len() < closings {
        return refused(5);
    }
    match stream_text(stream) {
        None => refused(15),
        Some(text) => {
            into[..text.len()].copy_from_slice(&text);
            accepted(text.len())
        }
    }
}

// ---- the index

/// The bytes of each node of a text.
pub fn nodes(vocabulary: usize, text: &[u32]) -> Vec<Vec<u8>> {
    let mut nodes = vec![Vec::new(); vocabulary.div_ceil(128)];
    for &rank in text {
        let mut node = 0;
        for byte in code(rank) {
            nodes[node].push(byte);
            node = 128 * node + 1 + usize::from(byte);
        }
    }
    nodes
}

/// The superblock rows and the block rows of some bytes.
pub fn counters(shape: Shape, bytes: &[u8]) -> (Vec<u32>, Vec<u16>) {
    let superblock = shape.block * shape.per_superblock;
    let mut superblocks = Vec::new();
    let mut blocks = Vec::new();
    let mut all = [0u32; 256];
    let mut inside = [0u16; 256];
    for at in 0..=bytes.len() {
        if at % superblock == 0 {
            superblocks.extend_from_slice(&all);
            inside = [0; 256];
        }
        if at % shape.block == 0 {
            blocks.extend_from_slice(&inside);
        }
        if at < bytes.len() {
            all[usize::from(bytes[at])] += 1;
            inside[usize::from(bytes[at])] += 1;
        }
    }
    (superblocks, blocks)
}

/// The index of a text.
pub fn index(shape: Shape, text: &[u32]) -> Arrays {
    let nodes = nodes(shape.vocabulary, text);
    let bytes = nodes.concat();
    let (superblocks, blocks) = counters(shape, &bytes);
    Arrays { lengths: nodes.iter().map(|node| node.len() as u32).collect(), bytes, superblocks, blocks }
}

/// The index of a text that is given to a call, or the refusal of the call.
fn indexed(shape: Shape, text: &[u32]) -> Result<Arrays, Answer> {
    if !vocabulary_fits(shape.vocabulary) {
        return Err(refused(1));
    }
    if text.len() > MAX_WORDS {
        return Err(refused(2));
    }
    if !blocks_fit(shape) {
        return Err(refused(3));
    }
    if let Some(value) = text.iter().position(|&rank| rank as usize >= shape.vocabulary) {
        return Err(Answer { refusal: 4, value });
    }
    Ok(index(shape, text))
}

/// The sizes of some arrays; their counters are in rows of 256.
pub fn sizes(arrays: &Arrays) -> IndexSizes {
    IndexSizes {
        nodes: arrays.lengths.len(),
        bytes: arrays.bytes.len(),
        superblock_rows: arrays.superblocks.chunks(256).count(),
        block_rows: arrays.blocks.chunks(256).count(),
    }
}

pub fn measure(shape: Shape, text: &[u32]) -> Measured {
    match indexed(shape, text) {
        Ok(made) => Measured { answer: accepted(0), sizes: sizes(&made) },
        Err(answer) => {
            let none = IndexSizes { nodes: 0, bytes: 0, superblock_rows: 0, block_rows: 0 };
            Measured { answer, sizes: none }
        }
    }
}

pub fn build_sized(shape: Shape, given: IndexSizes, text: &[u32], into: &mut Arrays) -> Answer {
    match indexed(shape, text) {
        Ok(made) if sizes(&made) != given => refused(16),
        Ok(made) => fill(made, into),
        Err(refusal) => refusal,
    }
}

pub fn build(shape: Shape, text: &[u32], into: &mut Arrays) -> Answer {
    match indexed(shape, text) {
        Ok(made) => fill(made, into),
        Err(refusal) => refusal,
    }
}

/// Puts the arrays of an index in front of others; 5, and nothing is put, where one is shorter.
fn fill(made: Arrays, into: &mut Arrays) -> Answer {
    let short = into.lengths.len() < made.lengths.len()
        || into.bytes.len() < made.bytes.len()
        || into.superblocks.len() < made.superblocks.len()
        || into.blocks.len() < made.blocks.len();
    if short {
        return refused(5);
    }
    into.lengths[..made.lengths.len()].copy_from_slice(&made.lengths);
    into.bytes[..made.bytes.len()].copy_from_slice(&made.bytes);
    into.superblocks[..made.superblocks.len()].copy_from_slice(&made.superblocks);
    into.blocks[..made.blocks.len()].copy_from_slice(&made.blocks);
    accepted(made.bytes.len())
}

/// The text that the nodes of some arrays spell: each byte of the root begins a word, and a byte
/// below 80 goes on with the next byte of the child that no word before has taken. None where a
/// byte is missing or left over, or a word has over three bytes.
fn spelled(vocabulary: usize, lengths: &[u32], bytes: &[u8]) -> Option<Vec<u32>> {
    if lengths.len() != vocabulary.div_ceil(128) {
        return None;
    }
    let mut starts = Vec::with_capacity(lengths.len() + 1);
    let mut end = 0u64;
    for &length in lengths {
        starts.push(end);
        end += u64::from(length);
    }
    starts.push(end);
    if end != bytes.len() as u64 {
        return None;
    }
    let mut taken = starts.clone();
    let mut text = Vec::new();
    while taken[0] < starts[1] {
        let mut codeword = Vec::new();
        let mut node = 0;
        loop {
            if node >= lengths.len() || taken[node] == starts[node + 1] {
                return None;
            }
            let byte = bytes[taken[node] as usize];
            taken[node] += 1;
            codeword.push(byte);
            if byte >= 0x80 {
                break;
            }
            node = 128 * node + 1 + usize::from(byte);
        }
        text.push(rank(&codeword)?);
    }
    let all_taken = (0..lengths.len()).all(|node| taken[node] == starts[node + 1]);
    all_taken.then_some(text)
}

/// The text that has some arrays as its index; none where no text has.
pub fn text_of(shape: Shape, arrays: &Arrays) -> Option<Vec<u32>> {
    let text = spelled(shape.vocabulary, &arrays.lengths, &arrays.bytes)?;
    let inside = text.len() <= MAX_WORDS && text.iter().all(|&rank| (rank as usize) < shape.vocabulary);
    (inside && index(shape, &text) == *arrays).then_some(text)
}

/// The text of an index that is given to a call, or the refusal of the call.
fn lent(shape: Shape, arrays: &Arrays) -> Result<Vec<u32>, Answer> {
    if !vocabulary_fits(shape.vocabulary) {
        return Err(refused(1));
    }
    if !blocks_fit(shape) {
        return Err(refused(3));
    }
    text_of(shape, arrays).ok_or(refused(6))
}

/// The documents of a text, which is cut at the starts and at its end; none where the starts break a rule: then a piece is empty or none at all, or the
/// pieces are not the whole text.
pub fn documents(text: &[u32], starts: &[u32]) -> Option<Vec<Vec<u32>>> {
    let ends = starts.iter().skip(1).map(|&start| start as usize).chain([text.len()]);
    let cut = |(&start, end): (&u32, usize)| text.get(start as usize..end).map(<[u32]>::to_vec);
    let pieces: Vec<Vec<u32>> = starts.iter().zip(ends).map(cut).collect::<Option<_>>()?;
    let some_empty = pieces.iter().any(Vec::is_empty);
    let whole = pieces.iter().map(Vec::len).sum::<usize>() == text.len();
    (whole && !some_empty).then_some(pieces)
}

/// The text of an index that is given to a call without starts, as one piece, or the refusal of the call.
fn lent_whole(shape: Shape, arrays: &Arrays) -> Result<Vec<Vec<u32>>, Answer> {
    lent(shape, arrays).map(|text| vec![text])
}

/// The documents of an index that is given to a call with starts, or the refusal of the call.
fn lent_documents(shape: Shape, arrays: &Arrays, starts: &[u32]) -> Result<Vec<Vec<u32>>, Answer> {
    documents(&lent(shape, arrays)?, starts).ok_or(refused(19))
}

pub fn check(shape: Shape, arrays: &Arrays) -> Answer {
    match lent(shape, arrays) {
        Ok(_) => accepted(0),
        Err(answer) => answer,
    }
}

// ---- scans

/// The position in a block of the occurrence of a byte that has j others before it, none where there is none, and how many bytes are read: those
/// through the occurrence, or all.
pub fn scan(block: &[u8], byte: u8, j: usize) -> (Option<usize>, usize) {
    let mut others = 0;
    for (at, &here) in block.iter().enumerate() {
        if here == byte {
            if others == j {
                return (Some(at), at + 1);
            }
            others += 1;
        }
    }
    (None, block.len())
}

// ---- questions

/// The phrase in a part of the lent words, in which V is an absent word; 8 or 9 where it is none.
fn phrase(vocabulary: usize, words: &[u32], start: usize, length: usize) -> Result<&[u32], Answer> {
    let inside = start <= words.len() && length <= words.len() - start;
    if length > 16 || !inside {
        return Err(refused(8));
    }
    let phrase = &words[start..start + length];
    if phrase.iter().any(|&word| word as usize > vocabulary) {
        return Err(refused(9));
    }
    Ok(phrase)
}

/// All places at which a phrase stands: every place, n too, where it has no words.
pub fn places(text: &[u32], phrase: &[u32]) -> Vec<usize> {
    (0..=text.len()).filter(|&q| text[q..].starts_with(phrase)).collect()
}

/// All places at which a phrase stands in a text of some pieces: where it has no words, those of the whole text; otherwise those of each piece, moved by
/// the words of the pieces before it.
pub fn places_in(pieces: &[Vec<u32>], phrase: &[u32]) -> Vec<usize> {
    if phrase.is_empty() {
        return places(&pieces.concat(), phrase);
    }
    let mut all = Vec::new();
    let mut before = 0;
    for piece in pieces {
        all.extend(places(piece, phrase).iter().map(|place| before + place));
        before += piece.len();
    }
    all
}

/// The number of places of a text that have w, and v at the offset d from it.
pub fn neighbours(text: &[u32], w: u32, v: u32, d: i32) -> usize {
    let at = |q: usize| q as i64 + i64::from(d);
    let inside = |q: usize| (0..text.len() as i64).contains(&at(q));
    (0..text.len()).filter(|&q| text[q] == w && inside(q) && text[at(q) as usize] == v).count()
}

/// The answer to a question about a text of some pieces. An absent word, V, is sought in the text as any other, and never found.
fn answer(vocabulary: usize, pieces: &[Vec<u32>], words: &[u32], question: Question) -> Answer {
    let Question { kind, w, v, d, p, start, length } = question;
    let text = pieces.concat();
    let unknown = |rank: u32| rank as usize > vocabulary;
    match kind {
        1 => match text.get(p) {
            Some(&rank) => accepted(rank as usize),
            None => refused(11),
        },
        2 if unknown(w) => refused(9),
        2 if p > text.len() => refused(11),
        2 => accepted(text[..p].iter().filter(|&&word| word == w).count()),
        3 if unknown(w) => refused(9),
        3 => {
            let places: Vec<usize> = (0..text.len()).filter(|&q| text[q] == w).collect();
            if p >= 1 && p <= places.len() {
                accepted(places[p - 1])
            } else {
                refused(11)
            }
        }
        4 if unknown(w) || unknown(v) => refused(9),
        4 if !(-16..=16).contains(&d) => refused(10),
        4 => accepted(pieces.iter().map(|piece| neighbours(piece, w, v, d)).sum()),
        5 => match phrase(vocabulary, words, start, length) {
            Ok(phrase) => accepted(places_in(pieces, phrase).len()),
            Err(refusal) => refusal,
        },
        _ => refused(7),
    }
}

pub fn ask(shape: Shape, arrays: &Arrays, words: &[u32], question: Question) -> Answer {
    match lent_whole(shape, arrays) {
        Ok(pieces) => answer(shape.vocabulary, &pieces, words, question),
        Err(refusal) => refusal,
    }
}

pub fn ask_in_documents(shape: Shape, arrays: &Arrays, starts: &[u32], words: &[u32], question: Question) -> Answer {
    match lent_documents(shape, arrays, starts) {
        Ok(pieces) => answer(shape.vocabulary, &pieces, words, question),
        Err(refusal) => refusal,
    }
}

pub fn answer_sheet(shape: Shape, arrays: &Arrays, words: &[u32], questions: &[Question], into: &mut [u32]) -> Answer {
    match lent_whole(shape, arrays) {
        Ok(pieces) => answer_each(shape.vocabulary, &pieces, words, questions, into),
        Err(refusal) => refusal,
    }
}

pub fn answer_sheet_in_documents(
    shape: Shape,
    arrays: &Arrays,
    starts: &[u32],
    words: &[u32],
    questions: &[Question],
    into: &mut [u32],
) -> Answer {
    match lent_documents(shape, arrays, starts) {
        Ok(pieces) => answer_each(shape.vocabulary, &pieces, words, questions, into),
        Err(refusal) => refusal,
    }
}

/// The answers to the questions of a sheet about a text of some pieces.
fn answer_each(
    vocabulary: usize,
    pieces: &[Vec<u32>],
    words: &[u32],
    questions: &[Question],
    into: &mut [u32],
) -> Answer {
    if into.len() / 2 < questions.len() {
        return refused(12);
    }
    for (question, pair) in questions.iter().zip(into.chunks_mut(2)) {
        let single = answer(vocabulary, pieces, words, *question);
        pair[0] = single.refusal;
        pair[1] = single.value as u32;
    }
    accepted(2 * questions.len())
}

/// The summary of the phrase that is the part (start, length) of the lent words: in each piece its places.
pub fn summary(
    shape: Shape,
    arrays: &Arrays,
    starts: &[u32],
    words: &[u32],
    (start, length): (usize, usize),
    counts: &mut [u32],
) -> Answer {
    let pieces = match lent_documents(shape, arrays, starts) {
        Ok(pieces) => pieces,
        Err(refusal) => return refusal,
    };
    let phrase = match phrase(shape.vocabulary, words, start, length) {
        Ok([]) => return refused(8),
        Ok(phrase) => phrase,
        Err(refusal) => return refusal,
    };
    if counts.len() < pieces.len() {
        return refused(12);
    }
    for (count, piece) in counts.iter_mut().zip(&pieces) {
        *count = places(piece, phrase).len() as u32;
    }
    accepted(pieces.len())
}

pub fn passage(shape: Shape, arrays: &Arrays, place: usize, into: &mut [u32]) -> Answer {
    let text = match lent(shape, arrays) {
        Ok(text) => text,
        Err(refusal) => return refusal,
    };
    if place > text.len() || into.len() > text.len() - place {
        return refused(11);
    }
    into.copy_from_slice(&text[place..place + into.len()]);
    accepted(into.len())
}

/// A page of a listing.
pub fn page(
    listing: Listing,
    shape: Shape,
    arrays: &Arrays,
    words: &[u32],
    start: usize,
    length: usize,
    lines: &mut [u32],
) -> RawPage {
    page_of(listing, lent_whole(shape, arrays), phrase(shape.vocabulary, words, start, length), lines)
}

/// A page of a listing with document starts.
pub fn page_in_documents(
    listing: Listing,
    shape: Shape,
    arrays: &Arrays,
    starts: &[u32],
    words: &[u32],
    (start, length): (usize, usize),
    lines: &mut [u32],
) -> RawPage {
    let pieces = lent_documents(shape, arrays, starts);
    page_of(listing, pieces, phrase(shape.vocabulary, words, start, length), lines)
}

/// A page of the places of a phrase in a text of some pieces, or the refusal of these or of the phrase.
fn page_of(
    listing: Listing,
    pieces: Result<Vec<Vec<u32>>, Answer>,
    phrase: Result<&[u32], Answer>,
    lines: &mut [u32],
) -> RawPage {
    let turned_down = |answer: Answer| RawPage { answer, more: false, listing };
    let pieces = match pieces {
        Ok(pieces) => pieces,
        Err(refusal) => return turned_down(refusal),
    };
    let phrase = match phrase {
        Ok(phrase) => phrase,
        Err(refusal) => return turned_down(refusal),
    };
    let n = pieces.concat().len();
    if listing.next > n {
        return turned_down(refused(11));
    }
    if lines.is_empty() {
        return turned_down(refused(12));
    }
    if listing.finished {
        return RawPage { answer: accepted(0), more: false, listing };
    }
    let hits: Vec<usize> = places_in(&pieces, phrase).into_iter().filter(|&q| q >= listing.next).collect();
    let written = hits.len().min(lines.len());
    for (line, &hit) in lines.iter_mut().zip(&hits) {
        *line = hit as u32;
    }
    let more = hits.len() > written;
    let next = if more { hits[written - 1] + 1 } else { n };
    RawPage { answer: accepted(written), more, listing: Listing { next, finished: !more } }
}

// ---- plain text

/// The built-in letter table: all separators at first, then range by range what keeps its value and what gains 20.
pub fn built_in() -> Vec<u8> {
    let mut table = vec![0; 256];
    for (first, last, gained) in
        [(0x30, 0x39, 0), (0x61, 0x7A, 0), (0x41, 0x5A, 0x20), (0xC0, 0xDE, 0x20), (0xDF, 0xFF, 0)]
    {
        for byte in first..=last {
            table[usize::from(byte)] = byte + gained;
        }
    }
    table[0xD7] = 0;
    table[0xF7] = 0;
    table
}

/// Whether some bytes are a letter table: there are 256, the letters that they name are among the bytes that stand at their own place, there is such a
/// letter, and the line end has none.
pub fn is_table(table: &[u8]) -> bool {
    let (mut named, mut kept) = ([false; 256], [false; 256]);
    for (place, &entry) in table.iter().enumerate() {
        named[usize::from(entry)] |= entry != 0;
        kept[usize::from(entry)] |= place == usize::from(entry);
    }
    let all_kept = named.iter().zip(kept).all(|(&named, kept)| kept || !named);
    table.len() == 256 && all_kept && named.contains(&true) && table[0x0A] == 0
}

pub fn check_letters(table: &[u8]) -> Answer {
    if is_table(table) {
        accepted(0)
    } else {
        refused(18)
    }
}

/// The letter of a byte by a table; 0 for a separator.
pub fn letter(table: &[u8], byte: u8) -> u8 {
    table[usize::from(byte)]
}

/// The bytes of which the words of a list are made, by a table.
pub fn kept(table: &[u8]) -> Vec<u8> {
    (1..=255).filter(|&byte| letter(table, byte) == byte).collect()
}

/// The words of a plain text by a table, each with the byte offset at which it starts.
pub fn words_of(table: &[u8], text: &[u8]) -> Vec<(usize, Vec<u8>)> {
    let mut words: Vec<(usize, Vec<u8>)> = Vec::new();
    let mut inside = false;
    for (at, &byte) in text.iter().enumerate() {
        let folded = letter(table, byte);
        if folded == 0 {
            inside = false;
        } else if inside {
            words.last_mut().unwrap().1.push(folded);
        } else {
            words.push((at, vec![folded]));
            inside = true;
        }
    }
    words
}

/// The words of a list by their rank; none where it breaks a rule by a table.
fn list_words<'a>(table: &[u8], list: &'a [u8]) -> Option<Vec<&'a [u8]>> {
    if list.last().is_some_and(|&byte| byte != 0x0A) {
        return None;
    }
    let mut words: Vec<&[u8]> = list.split(|&byte| byte == 0x0A).collect();
    words.pop();
    let kept = kept(table);
    let spelled = |word: &&[u8]| !word.is_empty() && word.iter().all(|byte| kept.binary_search(byte).is_ok());
    let distinct: HashSet<&[u8]> = words.iter().copied().collect();
    (words.iter().all(spelled) && distinct.len() == words.len()).then_some(words)
}

/// The rank of each word of a list.
fn ranks_of<'a>(listed: &[&'a [u8]]) -> HashMap<&'a [u8], u32> {
    listed.iter().enumerate().map(|(rank, &word)| (word, rank as u32)).collect()
}

/// Reads plain text by a table, which may be no table.
pub fn read_text(table: &[u8], list: &[u8], text: &[u8], into: &mut [u32]) -> Answer {
    if !is_table(table) {
        return refused(18);
    }
    let closings = list.iter().filter(|&&byte| byte == 0x0A).count();
    if !vocabulary_fits(closings) {
        return refused(1);
    }
    let words = words_of(table, text);
    if words.len() > MAX_WORDS {
        return refused(2);
    }
    if into.len() < words.len() {
        return refused(5);
    }
    let Some(listed) = list_words(table, list) else {
        return refused(13);
    };
    let ranks = ranks_of(&listed);
    if let Some((offset, _)) = words.iter().find(|(_, word)| !ranks.contains_key(&word[..])) {
        return Answer { refusal: 14, value: *offset };
    }
    for (line, (_, word)) in into.iter_mut().zip(&words) {
        *line = ranks[&word[..]];
    }
    accepted(words.len())
}

/// Finds a spelled word by a table, which may be no table: the spelling is read as a plain text, of which it must be one word from end to end.
pub fn find_word(table: &[u8], list: &[u8], spelling: &[u8]) -> Answer {
    if !is_table(table) {
        return refused(18);
    }
    let closings = list.iter().filter(|&&byte| byte == 0x0A).count();
    if !vocabulary_fits(closings) {
        return refused(1);
    }
    let Some(listed) = list_words(table, list) else {
        return refused(13);
    };
    let ranks = ranks_of(&listed);
    let rank = match &words_of(table, spelling)[..] {
        [(_, word)] if word.len() == spelling.len() => ranks.get(&word[..]).copied(),
        _ => None,
    };
    accepted(rank.map_or(closings, |rank| rank as usize))
}

/// What is made of a plain text: its word list and the ranks of its words, or its refusal.
pub type Made = Result<(Vec<u8>, Vec<u32>), Answer>;

/// Counts the words of a plain text by a table, which may be no table, in a map, and sorts them in the order in which they appear, stably, by how often
/// they stand.
pub fn made(table: &[u8], text: &[u8]) -> Made {
    if !is_table(table) {
        return Err(refused(18));
    }
    let words = words_of(table, text);
    if words.len() > MAX_WORDS {
        return Err(refused(2));
    }
    let mut often: HashMap<&[u8], usize> = HashMap::new();
    let mut distinct: Vec<&[u8]> = Vec::new();
    for (_, word) in &words {
        let count = often.entry(word).or_default();
        if *count == 0 {
            distinct.push(word);
        }
        *count += 1;
    }
    if text.len() > 65_536 || distinct.len() > 4_096 {
        return Err(refused(17));
    }
    distinct.sort_by_key(|word| Reverse(often[word]));
    let ranks = ranks_of(&distinct);
    let list = distinct.iter().flat_map(|word| [word, &b"\n"[..]].concat()).collect();
    Ok((list, words.iter().map(|(_, word)| ranks[&word[..]]).collect()))
}

/// Puts what was made of a text in front of two slices; 5, and nothing is put, where one is shorter.
pub fn fill_list(made: &Made, into: &mut [u8], ranks_into: &mut [u32]) -> ListMade {
    match made {
        Err(answer) => ListMade { answer: *answer, bytes: 0, words: 0 },
        Ok((list, ranks)) if into.len() < list.len() || ranks_into.len() < ranks.len() => {
            ListMade { answer: refused(5), bytes: 0, words: 0 }
        }
        Ok((list, ranks)) => {
            into[..list.len()].copy_from_slice(list);
            ranks_into[..ranks.len()].copy_from_slice(ranks);
            ListMade { answer: accepted(0), bytes: list.len(), words: ranks.len() }
        }
    }
}

//! The words around the places of a phrase.
use crate::collection::Collection;
use crate::fault::Fault;
use concordance::Question;
use std::ops::Range;

/// A place with the ranks around it, all of them in its document.
pub struct Context {
    /// The place in the whole text.
    pub place: usize,
    /// The number of its document.
    pub document: usize,
    pub left: Vec<u32>,
    pub hit: Vec<u32>,
    pub right: Vec<u32>,
}

/// The contexts of places at which a phrase of so many words stands: so many words before it and behind it, as far as the document reaches. The words are
/// asked of the engine, all in one sheet.
pub fn contexts(
    collection: &Collection,
    places: &[u32],
    length: usize,
    words: usize,
    progress: impl FnMut(usize),
) -> Result<Vec<Context>, Fault> {
    let documents = collection.documents();
    let parts: Vec<(usize, Range<usize>)> = places
        .iter()
        .map(|&place| {
            let place = place as usize;
            let document = document_of(documents.starts(), place);
            let reach = reach_of(documents.starts(), documents.words(), document);
            let first = place.saturating_sub(words).max(reach.start);
            let end = (place + length).saturating_add(words).min(reach.end);
            (document, first..end)
        })
        .collect();
    let questions = parts.iter().flat_map(|(_, part)| part.clone().map(Question::word_at));
    let ranks = collection.answers(questions, progress)?;
    let mut rest = &ranks[..];
    let mut contexts = Vec::with_capacity(places.len());
    for (&place, (document, part)) in places.iter().zip(parts) {
        let place = place as usize;
        let (here, behind) = rest.split_at(part.len());
        let (left, from) = here.split_at(place - part.start);
        let (hit, right) = from.split_at(length);
        contexts.push(Context { place, document, left: left.to_vec(), hit: hit.to_vec(), right: right.to_vec() });
        rest = behind;
    }
    Ok(contexts)
}

/// The number of the document that holds a place; that of the last for the end of the text.
pub fn document_of(starts: &[u32], place: usize) -> usize {
    starts.partition_point(|&start| start as usize <= place).saturating_sub(1)
}

/// The places of a document.
pub fn reach_of(starts: &[u32], words: usize, document: usize) -> Range<usize> {
    let start = |number: usize| starts.get(number).map_or(words, |&start| start as usize);
    if starts.is_empty() {
        return 0..words;
    }
    start(document)..start(document + 1)
}

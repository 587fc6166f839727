//! The index of a text, as an owned value.
use crate::entries::{self, Slices, SlicesMut};
use crate::ffi::{Answer, IndexSizes, Question, Shape};
use crate::refusal::{Refusal, Refused};
use crate::{LONGEST_CODEWORD, MAX_VOCABULARY, MAX_WORDS};
use std::mem::size_of;

/// The number of closing byte values of the code, which is the number of ranks that end in a node.
const CLOSING: usize = 128;
/// The number of counters of a row.
const ROW: usize = 256;

/// The four arrays of an index.
#[derive(Clone, Debug, PartialEq, Eq, Default)]
pub struct Arrays {
    pub lengths: Vec<u32>,
    pub bytes: Vec<u8>,
    pub superblocks: Vec<u32>,
    pub blocks: Vec<u16>,
}

/// The index of a text: V, B, b and four arrays that have passed the check.
#[derive(Clone, Debug, PartialEq, Eq)]
pub struct Index {
    shape: Shape,
    arrays: Arrays,
}

impl Shape {
    /// The block lengths that were measured to be good in space and in time (docs/BENCHMARKS.md). They are the same for texts of every
    /// size.
    pub fn for_text(vocabulary: usize) -> Shape {
        Shape { vocabulary, block: 848, per_superblock: 64 }
    }
}

impl IndexSizes {
    /// The bytes of memory that the four arrays of an index of these sizes take; `usize::MAX` where they are more.
    pub fn memory(self) -> usize {
        let lengths = self.nodes.saturating_mul(size_of::<u32>());
        let superblocks = self.superblock_rows.saturating_mul(ROW * size_of::<u32>());
        let blocks = self.block_rows.saturating_mul(ROW * size_of::<u16>());
        lengths.saturating_add(self.bytes).saturating_add(superblocks).saturating_add(blocks)
    }

    /// Whether the sizes are within the limits of an index: the nodes and the bytes are not more than the largest vocabulary and text need,
    /// and there is at most one block row for each byte and one more, and not more superblock rows than block rows.
    fn fits(self) -> bool {
        (1..=MAX_VOCABULARY.div_ceil(CLOSING)).contains(&self.nodes)
            && self.bytes <= MAX_WORDS * LONGEST_CODEWORD
            && (1..=self.bytes + 1).contains(&self.block_rows)
            && (1..=self.block_rows).contains(&self.superblock_rows)
    }
}

impl Arrays {
    /// Arrays with as many elements as an index of these sizes needs; empty where a size is outside the limits of an index, so that no more
    /// is allocated than some index needs.
    pub fn sized(sizes: IndexSizes) -> Arrays {
        if !sizes.fits() {
            return Arrays::default();
        }
        Arrays {
            lengths: vec![0; sizes.nodes],
            bytes: vec![0; sizes.bytes],
            superblocks: vec![0; ROW * sizes.superblock_rows],
            blocks: vec![0; ROW * sizes.block_rows],
        }
    }

    /// The four arrays, lent to be read.
    pub fn slices(&self) -> Slices<'_> {
        Slices { lengths: &self.lengths, bytes: &self.bytes, superblocks: &self.superblocks, blocks: &self.blocks }
    }

    /// The four arrays, lent to be filled.
    pub fn slices_mut(&mut self) -> SlicesMut<'_> {
        SlicesMut {
            lengths: &mut self.lengths,
            bytes: &mut self.bytes,
            superblocks: &mut self.superblocks,
            blocks: &mut self.blocks,
        }
    }
}

impl Index {
    /// The sizes of the index of a text; nothing is allocated.
    pub fn measure(shape: Shape, text: &[u32]) -> Result<IndexSizes, Refused> {
        let measured = entries::measure(shape, text);
        measured.answer.result()?;
        Ok(measured.sizes)
    }

    /// Builds the index of a text: measures it, and builds it in arrays of these sizes.
    pub fn build(shape: Shape, text: &[u32]) -> Result<Index, Refused> {
        let sizes = Index::measure(shape, text)?;
        let mut arrays = Arrays::sized(sizes);
        entries::build_sized(shape, sizes, text, arrays.slices_mut()).result()?;
        Ok(Index { shape, arrays })
    }

    /// Takes four arrays that pass the check.
    pub fn from_arrays(shape: Shape, arrays: Arrays) -> Result<Index, Refused> {
        entries::check(shape, arrays.slices()).result()?;
        Ok(Index { shape, arrays })
    }

    /// V, B and b.
    pub fn shape(&self) -> Shape {
        self.shape
    }

    /// The four arrays.
    pub fn arrays(&self) -> &Arrays {
        &self.arrays
    }

    /// The four arrays, to keep or to lend elsewhere.
    pub fn into_arrays(self) -> Arrays {
        self.arrays
    }

    /// The number of words of the text: the length of the root.
    pub fn words(&self) -> usize {
        words_of(self.arrays.slices())
    }

    /// Answers one question; kind 5 takes its phrase from the lent words.
    pub fn ask(&self, words: &[u32], question: Question) -> Result<usize, Refused> {
        entries::ask(self.shape, self.arrays.slices(), words, question).result()
    }

    /// Answers a sheet of questions, in order; the check is made once.
    pub fn answer_sheet(&self, words: &[u32], questions: &[Question]) -> Result<Vec<Result<u32, Refusal>>, Refused> {
        sheet_of(questions, |answers| {
            entries::answer_sheet(self.shape, self.arrays.slices(), words, questions, answers)
        })
    }

    /// How often a phrase stands in the text; 0 where one of its words is V, an absent word. The phrase of no words stands at every place from 0 to n:
    /// n + 1 times.
    pub fn count(&self, phrase: &[u32]) -> Result<usize, Refused> {
        self.ask(phrase, Question::phrase(0, phrase.len()))
    }

    /// So many ranks of the text from a place on.
    pub fn passage(&self, place: usize, length: usize) -> Result<Vec<u32>, Refused> {
        passage_of(self.shape, self.arrays.slices(), place, length)
    }
}

/// The number of words of the text of four arrays that pass the check: the length of the root, 0 where there is none.
pub(crate) fn words_of(arrays: Slices) -> usize {
    arrays.lengths.first().map_or(0, |&words| words as usize)
}

/// So many ranks from a place on. No passage has more ranks than the text has words; one more is refused as every longer one, so that no longer slice
/// is made.
pub(crate) fn passage_of(shape: Shape, arrays: Slices, place: usize, length: usize) -> Result<Vec<u32>, Refused> {
    let mut ranks = vec![0; length.min(words_of(arrays) + 1)];
    entries::passage(shape, arrays, place, &mut ranks).result()?;
    Ok(ranks)
}

/// The answers of a sheet of questions, of the pairs that a call writes for them.
pub(crate) fn sheet_of(
    questions: &[Question],
    answer: impl FnOnce(&mut [u32]) -> Answer,
) -> Result<Vec<Result<u32, Refusal>>, Refused> {
    let mut pairs = vec![0; 2 * questions.len()];
    answer(&mut pairs).result()?;
    Ok(pairs.chunks(2).map(|pair| Refusal::from_number(pair[0]).map_or(Ok(pair[1]), Err)).collect())
}

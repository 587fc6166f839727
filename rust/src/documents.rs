//! An index whose text is made of documents.
use crate::entries::{self, Slices};
use crate::ffi::{Question, Shape};
use crate::index::{passage_of, sheet_of, words_of, Index};
use crate::listing::Pages;
use crate::refusal::{Refusal, Refused};

/// An index with the places at which the documents of its text start. A pair of neighbours counts only where both words lie in one document, and a
/// phrase of one word or more only where all its words do; the phrase of no words keeps its places, 0 to n.
///
/// Any numbers may be brought. Each call tries the rules of starts, and is refused by [`Refusal::Documents`] where they break one: the first is 0, each is
/// above the one before it, all are below n, and there is none only if the text is empty.
///
/// The arrays are lent, so that they may lie in a file that was read as a whole ([`Documents::over`]). Each call checks them.
#[derive(Clone, Copy, Debug)]
pub struct Documents<'a> {
    shape: Shape,
    arrays: Slices<'a>,
    starts: &'a [u32],
}

impl Index {
    /// The index with document starts, which its calls bring.
    pub fn in_documents<'a>(&'a self, starts: &'a [u32]) -> Documents<'a> {
        Documents::over(self.shape(), self.arrays().slices(), starts)
    }
}

impl<'a> Documents<'a> {
    /// Four arrays of any content with V, B, b and document starts. Nothing is tried here: each call makes the check, and is refused by
    /// [`Refusal::Index`] where it does not pass.
    pub fn over(shape: Shape, arrays: Slices<'a>, starts: &'a [u32]) -> Documents<'a> {
        Documents { shape, arrays, starts }
    }

    /// The number of words of the text, if the arrays pass the check; otherwise any number.
    pub fn words(&self) -> usize {
        words_of(self.arrays)
    }

    /// The places at which the documents start.
    pub fn starts(&self) -> &'a [u32] {
        self.starts
    }

    /// Checks the arrays by themselves, without the starts.
    pub fn check(&self) -> Result<(), Refused> {
        entries::check(self.shape, self.arrays).result().map(|_| ())
    }

    /// Answers one question; kind 5 takes its phrase from the lent words.
    pub fn ask(&self, words: &[u32], question: Question) -> Result<usize, Refused> {
        entries::ask_in_documents(self.shape, self.arrays, self.starts, words, question).result()
    }

    /// Answers a sheet of questions, in order; the check is made and the starts are tried once.
    pub fn answer_sheet(&self, words: &[u32], questions: &[Question]) -> Result<Vec<Result<u32, Refusal>>, Refused> {
        sheet_of(questions, |answers| {
            entries::answer_sheet_in_documents(self.shape, self.arrays, self.starts, words, questions, answers)
        })
    }

    /// How often a phrase stands inside a document; 0 where one of its words is V, an absent word. The phrase of no words stands at every place from 0
    /// to n: n + 1 times.
    pub fn count(&self, phrase: &[u32]) -> Result<usize, Refused> {
        self.ask(phrase, Question::phrase(0, phrase.len()))
    }

    /// The pages of the listing of a phrase, each of at most so many lines. Those of the phrase of no words list every place from 0 to n; a phrase with
    /// an absent word, V, has one page without places.
    pub fn pages(&self, phrase: &'a [u32], lines: usize) -> Pages<'a> {
        Pages::open(self.shape, self.arrays, Some(self.starts), phrase, lines)
    }

    /// So many ranks of the text from a place on; documents do not bound a passage.
    pub fn passage(&self, place: usize, length: usize) -> Result<Vec<u32>, Refused> {
        passage_of(self.shape, self.arrays, place, length)
    }

    /// How often a phrase of one word or more stands in each document; 0 in each where one of its words is V, an absent word. A text has at most as many
    /// documents as words: for more starts, which break a rule, no longer slice is made.
    pub fn summary(&self, phrase: &[u32]) -> Result<Vec<u32>, Refused> {
        let mut counts = vec![0; self.starts.len().min(self.words())];
        let written =
            entries::summary(self.shape, self.arrays, self.starts, phrase, 0, phrase.len(), &mut counts).result()?;
        counts.truncate(written);
        Ok(counts)
    }
}

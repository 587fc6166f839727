//! The pages of a listing.
use crate::entries::{self, Slices};
use crate::ffi::{Listing, Shape};
use crate::index::{words_of, Index};
use crate::refusal::Refused;

/// A page of a listing: the places on it, and whether more follow.
#[derive(Clone, Debug, PartialEq, Eq)]
pub struct Page {
    pub places: Vec<u32>,
    pub more: bool,
}

/// The pages of a listing, from the first on or from a state on. It ends after the page that reports no more, or after a refusal.
pub struct Pages<'a> {
    shape: Shape,
    arrays: Slices<'a>,
    starts: Option<&'a [u32]>,
    phrase: &'a [u32],
    lines: usize,
    listing: Listing,
    ended: bool,
}

impl Index {
    /// The pages of the listing of a phrase, each of at most so many lines. Those of the phrase of no words list every place from 0 to n; a phrase with
    /// an absent word, V, has one page without places.
    pub fn pages<'a>(&'a self, phrase: &'a [u32], lines: usize) -> Pages<'a> {
        Pages::open(self.shape(), self.arrays().slices(), None, phrase, lines)
    }
}

impl<'a> Pages<'a> {
    /// The pages of a listing that is opened: with document starts, or without.
    ///
    /// No phrase stands more often than there are places from 0 to n. A longer slice has the same answers, so none is made.
    pub(crate) fn open(
        shape: Shape,
        arrays: Slices<'a>,
        starts: Option<&'a [u32]>,
        phrase: &'a [u32],
        lines: usize,
    ) -> Pages<'a> {
        let lines = lines.min(words_of(arrays) + 1);
        Pages { shape, arrays, starts, phrase, lines, listing: entries::open(), ended: false }
    }

    /// The pages from a state on, which [`Pages::listing`] gave after an earlier page of the same phrase, index and starts. A place above n is
    /// refused by [`crate::Refusal::Place`].
    pub fn resumed(self, listing: Listing) -> Pages<'a> {
        Pages { listing, ..self }
    }

    /// The state that the next page takes.
    pub fn listing(&self) -> Listing {
        self.listing
    }

    fn page(&mut self) -> Result<Page, Refused> {
        let (shape, arrays) = (self.shape, self.arrays);
        let (phrase, length) = (self.phrase, self.phrase.len());
        let mut places = vec![0; self.lines];
        let page = match self.starts {
            Some(starts) => {
                entries::list_in_documents(self.listing, shape, arrays, starts, phrase, 0, length, &mut places)
            }
            None => entries::list(self.listing, shape, arrays, phrase, 0, length, &mut places),
        };
        self.listing = page.listing;
        self.ended = !page.more;
        places.truncate(page.answer.result()?);
        Ok(Page { places, more: page.more })
    }
}

impl Iterator for Pages<'_> {
    type Item = Result<Page, Refused>;

    fn next(&mut self) -> Option<Self::Item> {
        if self.ended {
            return None;
        }
        Some(self.page())
    }
}

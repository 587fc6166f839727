//! `concord words`: the words by their frequency.
use super::{counted, found};
use crate::args::WordsArguments;
use crate::collection::Collection;
use crate::fault::Fault;
use crate::output::{say, Output};
use crate::Found;
use std::cmp::Reverse;
use std::io::Write;

/// Prints the most frequent words, equally frequent ones in the order of the list, and how much of the text the others are.
pub fn run(given: &WordsArguments, pager: bool) -> Result<Found, Fault> {
    let collection = Collection::open(&given.index)?;
    let frequencies = collection.frequencies()?;
    let total = collection.documents().words();
    let mut ranked: Vec<(u32, u32)> = (0..).zip(frequencies).filter(|&(_, count)| count > 0).collect();
    ranked.sort_by_key(|&(rank, count)| (Reverse(count), rank));
    let different = ranked.len();
    ranked.truncate(if given.all { different } else { given.number });
    let listed: usize = ranked.iter().map(|&(_, count)| count as usize).sum();
    let closing = format!(
        "{} of {}; the others make up {} of {total} words",
        ranked.len(),
        counted(different, "different word"),
        total - listed
    );

    let spellings = collection.spellings();
    let width = ranked.first().map_or(0, |(_, count)| count.to_string().len());
    let mut out = Output::open(given.tsv, pager);
    if given.tsv {
        writeln!(out, "count\tword")?;
    }
    for &(rank, count) in &ranked {
        match given.tsv {
            true => write!(out, "{count}\t")?,
            false => write!(out, "{count:>width$} ")?,
        }
        out.write_all(&collection.shown(spellings.word(rank).ok_or_else(|| collection.unspelled())?))?;
        writeln!(out)?;
    }
    if !given.tsv {
        writeln!(out, "{closing}")?;
    }
    out.close()?;
    if given.tsv {
        say(closing);
    }
    Ok(found(total))
}

//! `concord documents`: how often a phrase stands in each document.
use super::{found, remark};
use crate::args::DocumentsArguments;
use crate::collection::Collection;
use crate::fault::Fault;
use crate::output::{say, Colour, Output};
use crate::threads::both;
use crate::Found;
use std::io::Write;

/// Prints the count of a phrase by document, and their sum, which is the count of the phrase.
pub fn run(given: &DocumentsArguments, pager: bool) -> Result<Found, Fault> {
    let (collection, phrase) = Collection::ask(&given.asked.index, &given.asked.phrase())?;
    let (count, counts) = both(|| collection.count(&phrase), || collection.documents().summary(&phrase.ranks))?;
    let counts = counts.map_err(|refused| collection.turned(refused))?;
    let count = count?;
    if counts.iter().map(|&count| count as usize).sum::<usize>() != count {
        return Err(collection
            .refused("The counts by document do not add up. This is a fault of the program; please report it."));
    }
    let with = counts.iter().filter(|&&count| count > 0).count();
    let closing =
        format!("{count:>6}  in {with} of {} documents{}", counts.len(), remark(&collection, &phrase, count)?);
    let mut out = Output::open(given.tsv, pager);
    if given.tsv {
        writeln!(out, "count\tdocument")?;
    }
    for (name, count) in collection.names().into_iter().zip(counts).filter(|&(_, count)| given.all || count > 0) {
        match given.tsv {
            true => write!(out, "{count}\t")?,
            false => write!(out, "{count:>6}  ")?,
        }
        out.coloured(Colour::Document, name)?;
        writeln!(out)?;
    }
    if !given.tsv {
        writeln!(out, "{closing}")?;
    }
    out.close()?;
    if given.tsv {
        say(closing.trim_start());
    }
    Ok(found(count))
}

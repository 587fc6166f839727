//! `concord list`: the places of a phrase with the words around them.
use super::context::{contexts, Context};
use super::{found, progress, remark};
use crate::args::{ListArguments, Side};
use crate::collection::{Collection, Phrase};
use crate::fault::Fault;
use crate::output::{say, Colour, Output};
use crate::spelling::{dictionary_key, Spellings};
use crate::threads::both;
use crate::Found;
use concordance::Listing;
use std::collections::HashMap;
use std::io::Write;

/// The lines of a page where none are asked for.
const LINES: usize = 20;

/// What is printed: the contexts, and the line behind them.
struct Lines {
    contexts: Vec<Context>,
    closing: String,
}

/// Prints a page of the listing of a phrase, or all its lines sorted.
pub fn run(given: &ListArguments, pager: bool) -> Result<Found, Fault> {
    let (collection, phrase) = Collection::ask(&given.asked.index, &given.asked.phrase())?;
    let lines = match given.sort {
        Some(side) => sorted(&collection, &phrase, given, side)?,
        None => page(&collection, &phrase, given)?,
    };
    let printer = Printer { collection: &collection, spellings: collection.spellings(), names: collection.names() };
    let mut out = Output::open(given.tsv, pager);
    match given.tsv {
        true => printer.table(&mut out, &lines)?,
        false => printer.lines(&mut out, &lines)?,
    }
    out.close()?;
    if given.tsv {
        say(lines.closing);
    }
    Ok(found(lines.contexts.len()))
}

/// The places on a page of so many lines from a state on, and the state behind it if more follow.
fn places(
    collection: &Collection,
    phrase: &Phrase,
    next: usize,
    lines: usize,
) -> Result<(Vec<u32>, Option<usize>), Fault> {
    let documents = collection.documents();
    let mut pages = documents.pages(&phrase.ranks, lines).resumed(Listing { next, finished: false });
    match pages.next() {
        Some(page) => {
            let page = page.map_err(|refused| collection.turned(refused))?;
            Ok((page.places, page.more.then(|| pages.listing().next)))
        }
        None => Ok((Vec::new(), None)),
    }
}

/// A page of the listing. The phrase is counted at the same time.
fn page(collection: &Collection, phrase: &Phrase, given: &ListArguments) -> Result<Lines, Fault> {
    let next = given.next.unwrap_or(0);
    let lines = if given.all { usize::MAX } else { given.lines.unwrap_or(LINES) };
    let (count, page) = both(|| collection.count(phrase), || places(collection, phrase, next, lines))?;
    let count = count?;
    let (here, after) = page?;
    let before = match next {
        0 => 0,
        _ => places(collection, phrase, 0, count.max(1))?.0.partition_point(|&place| (place as usize) < next),
    };
    let closing = match here.len() {
        0 if count == 0 => format!("0{}", remark(collection, phrase, count)?),
        0 => format!("no line of {count} from place {next} on"),
        lines => {
            let after = after.map_or(String::new(), |after| format!("; next page: --next {after}"));
            format!("{} of {count}{after}", numbered(before + 1, before + lines))
        }
    };
    let contexts = contexts(collection, &here, phrase.ranks.len(), given.words, |_| ())?;
    Ok(Lines { contexts, closing })
}

/// The numbers of lines.
fn numbered(first: usize, last: usize) -> String {
    match first == last {
        true => format!("line {first}"),
        false => format!("lines {first} to {last}"),
    }
}

/// All lines, or the first of them, sorted by the words on a side, from the nearest on; equal ones by their places.
fn sorted(collection: &Collection, phrase: &Phrase, given: &ListArguments, side: Side) -> Result<Lines, Fault> {
    let count = collection.count(phrase)?;
    let asked = given.lines.unwrap_or(count.max(1));
    let (here, _) = places(collection, phrase, 0, if asked == 0 { 0 } else { count.max(1) })?;
    let reach = given.words.saturating_mul(2).saturating_add(phrase.ranks.len());
    let bar = progress("reading the contexts", here.len().saturating_mul(reach));
    let mut contexts = contexts(collection, &here, phrase.ranks.len(), given.words, |done| bar.inc(done as u64))?;
    bar.finish_and_clear();
    let order = dictionary_order(collection, &contexts, side)?;
    contexts.sort_by_cached_key(|context| {
        let words = side_of(context, side);
        (words.iter().map(|rank| order[rank]).collect::<Vec<usize>>(), context.place)
    });
    contexts.truncate(asked);
    let closing = match contexts.len() {
        0 => format!("0{}", remark(collection, phrase, count)?),
        lines => format!("{} of {count}, sorted", numbered(1, lines)),
    };
    Ok(Lines { contexts, closing })
}

/// The ranks on a side of a line, from the nearest on.
fn side_of(context: &Context, side: Side) -> Vec<u32> {
    match side {
        Side::Left => context.left.iter().rev().copied().collect(),
        Side::Right => context.right.clone(),
    }
}

/// For each rank on a side of the lines its number in the order of dictionaries.
fn dictionary_order(collection: &Collection, contexts: &[Context], side: Side) -> Result<HashMap<u32, usize>, Fault> {
    let mut ranks: Vec<u32> = contexts.iter().flat_map(|context| side_of(context, side)).collect();
    ranks.sort_unstable();
    ranks.dedup();
    let spellings = collection.spellings();
    let words: Option<Vec<(&[u8], u32)>> =
        ranks.into_iter().map(|rank| spellings.word(rank).map(|word| (word, rank))).collect();
    let mut words = words.ok_or_else(|| collection.unspelled())?;
    words.sort_by_cached_key(|&(word, _)| {
        let (plain, word) = dictionary_key(word);
        (plain, word.to_vec())
    });
    Ok(words.into_iter().enumerate().map(|(number, (_, rank))| (rank, number)).collect())
}

/// What is needed to print lines.
struct Printer<'a> {
    collection: &'a Collection,
    spellings: Spellings<'a>,
    names: Vec<&'a [u8]>,
}

impl Printer<'_> {
    /// The words of ranks with a blank between, and how many letters that are.
    fn words(&self, ranks: &[u32]) -> Result<(Vec<u8>, usize), Fault> {
        let words: Option<Vec<&[u8]>> = ranks.iter().map(|&rank| self.spellings.word(rank)).collect();
        let words = words.ok_or_else(|| self.collection.unspelled())?.join(&b' ');
        Ok((self.collection.shown(&words).into_owned(), words.len()))
    }

    /// The name of the document of a line; none in the empty text.
    fn name(&self, context: &Context) -> &[u8] {
        self.names.get(context.document).copied().unwrap_or_default()
    }

    /// Prints lines under each other, the hits in one column.
    fn lines(&self, out: &mut Output, lines: &Lines) -> Result<(), Fault> {
        let width_of = |name: &[u8]| String::from_utf8_lossy(name).chars().count();
        let mut rows = Vec::new();
        for context in &lines.contexts {
            rows.push((context, self.words(&context.left)?, self.words(&context.hit)?, self.words(&context.right)?));
        }
        let name_width = rows.iter().map(|(context, ..)| width_of(self.name(context))).max().unwrap_or(0);
        let place_width = rows.iter().map(|(context, ..)| context.place.to_string().len()).max().unwrap_or(0);
        let left_width = rows.iter().map(|(_, (_, width), ..)| *width).max().unwrap_or(0);
        for (context, (left, width), (hit, _), (right, _)) in rows {
            let name = self.name(context);
            out.blanks(1)?;
            out.coloured(Colour::Document, name)?;
            out.blanks(name_width - width_of(name) + 1)?;
            out.coloured(Colour::Place, format!("{:>place_width$}", context.place).as_bytes())?;
            out.blanks(2 + left_width - width)?;
            out.write_all(&left)?;
            out.write_all(b" [")?;
            out.coloured(Colour::Hit, &hit)?;
            out.write_all(b"]")?;
            out.write_all(if right.is_empty() { b"" } else { b" " })?;
            out.write_all(&right)?;
            writeln!(out)?;
        }
        writeln!(out, "{}", lines.closing)?;
        Ok(())
    }

    /// Prints a table with tabs.
    fn table(&self, out: &mut Output, lines: &Lines) -> Result<(), Fault> {
        writeln!(out, "document\tplace\tleft\thit\tright")?;
        for context in &lines.contexts {
            out.write_all(self.name(context))?;
            write!(out, "\t{}", context.place)?;
            for ranks in [&context.left, &context.hit, &context.right] {
                out.write_all(b"\t")?;
                out.write_all(&self.words(ranks)?.0)?;
            }
            writeln!(out)?;
        }
        Ok(())
    }
}

//! `concord neighbours`: the words beside a word, by their distance.
use super::context::contexts;
use super::{found, progress, remark};
use crate::args::NeighboursArguments;
use crate::collection::Collection;
use crate::fault::Fault;
use crate::output::Output;
use crate::Found;
use concordance::Question;
use std::cmp::Reverse;
use std::collections::HashMap;
use std::io::Write;

/// What the row of all other words is called; no word has parentheses.
const OTHERS: &str = "(others)";

/// A table: for each neighbour its counts by offset, the sums of all neighbours by offset, and the counts of those that have no row.
struct Table {
    offsets: Vec<i32>,
    rows: Vec<(u32, Vec<usize>)>,
    others: Vec<usize>,
}

/// Prints the table of the neighbours of a word.
pub fn run(given: &NeighboursArguments, pager: bool) -> Result<Found, Fault> {
    let (collection, phrase) = Collection::ask(&given.index, &given.word)?;
    let &[word] = &phrase.ranks[..] else {
        return Err(Fault::about("the phrase", "refused. Neighbours are those of one word; give one word."));
    };
    let (table, count) = table(&collection, word, given)?;
    let remark = remark(&collection, &phrase, count)?;
    let mut out = Output::open(given.tsv, pager);
    match given.tsv {
        true => print_table(&mut out, &collection, &table)?,
        false if count == 0 => writeln!(out, "0{remark}")?,
        false => print_columns(&mut out, &collection, &table)?,
    }
    out.close()?;
    Ok(found(count))
}

/// The table of a word, and how often the word stands. The words of the rows are found in the contexts, and each number of a row is then asked of the
/// engine.
fn table(collection: &Collection, word: u32, given: &NeighboursArguments) -> Result<(Table, usize), Fault> {
    let documents = collection.documents();
    let turned = |refused| collection.turned(refused);
    let farthest = i32::try_from(given.span).unwrap_or(i32::MAX);
    documents.ask(&[], Question::neighbours(word, word, farthest)).map_err(turned)?;
    let offsets: Vec<i32> = (-farthest..=farthest).filter(|&offset| offset != 0).collect();
    let span = given.span as usize;
    let count = documents.count(&[word]).map_err(turned)?;
    let places = match documents.pages(&[word], count.max(1)).next() {
        Some(page) => page.map_err(turned)?.places,
        None => Vec::new(),
    };

    let bar = progress("reading the contexts", places.len() * (2 * span + 1));
    let mut counts: HashMap<u32, Vec<usize>> = HashMap::new();
    let mut sums = vec![0; offsets.len()];
    for context in contexts(collection, &places, 1, span, |done| bar.inc(done as u64))? {
        let left = context.left.iter().rev().zip((0..span).rev());
        for (&rank, column) in left.chain(context.right.iter().zip(span..)) {
            counts.entry(rank).or_insert_with(|| vec![0; offsets.len()])[column] += 1;
            sums[column] += 1;
        }
    }
    bar.finish_and_clear();

    let mut rows: Vec<(u32, Vec<usize>)> = counts.into_iter().collect();
    rows.sort_by_key(|(rank, counts)| (Reverse(counts.iter().sum::<usize>()), *rank));
    rows.truncate(given.number);
    compare(collection, word, &offsets, &rows)?;
    let others = (0..offsets.len()).map(|column| sums[column] - rows.iter().map(|(_, row)| row[column]).sum::<usize>());
    let others = others.collect();
    Ok((Table { offsets, rows, others }, count))
}

/// Asks each number of the rows of the engine, as how often the word has the other at the offset, and refuses where the answer is another.
fn compare(collection: &Collection, word: u32, offsets: &[i32], rows: &[(u32, Vec<usize>)]) -> Result<(), Fault> {
    let asked =
        |&(rank, _): &(u32, Vec<usize>)| offsets.iter().map(move |&offset| Question::neighbours(word, rank, offset));
    let answers = collection.answers(rows.iter().flat_map(asked), |_| ())?;
    match rows.iter().flat_map(|(_, counts)| counts.clone()).eq(answers.into_iter().map(|answer| answer as usize)) {
        true => Ok(()),
        false => {
            Err(collection
                .refused("The contexts and the counts differ. This is a fault of the program; please report it."))
        }
    }
}

/// A row as it is printed: a word, how many letters it has, and its counts.
struct Row<'a> {
    word: Vec<u8>,
    letters: usize,
    counts: &'a [usize],
}

/// The rows as they are printed, the others last.
fn printed_rows<'a>(collection: &Collection, table: &'a Table) -> Result<Vec<Row<'a>>, Fault> {
    let spellings = collection.spellings();
    let mut rows = Vec::new();
    for (rank, counts) in &table.rows {
        let word = spellings.word(*rank).ok_or_else(|| collection.unspelled())?;
        rows.push(Row { word: collection.shown(word).into_owned(), letters: word.len(), counts });
    }
    rows.push(Row { word: OTHERS.into(), letters: OTHERS.len(), counts: &table.others });
    Ok(rows)
}

/// Prints the table in columns.
fn print_columns(out: &mut Output, collection: &Collection, table: &Table) -> Result<(), Fault> {
    let rows = printed_rows(collection, table)?;
    let width = rows.iter().map(|row| row.letters).max().unwrap_or(0);
    let numbers = rows.iter().flat_map(|row| row.counts);
    let column = numbers.map(|count| count.to_string().len()).max().unwrap_or(0).max(3);
    out.blanks(width)?;
    table.offsets.iter().try_for_each(|offset| write!(out, "  {offset:>+column$}"))?;
    writeln!(out)?;
    for row in rows {
        out.write_all(&row.word)?;
        out.blanks(width - row.letters)?;
        row.counts.iter().try_for_each(|count| write!(out, "  {count:>column$}"))?;
        writeln!(out)?;
    }
    Ok(())
}

/// Prints the table with tabs.
fn print_table(out: &mut Output, collection: &Collection, table: &Table) -> Result<(), Fault> {
    write!(out, "word")?;
    table.offsets.iter().try_for_each(|offset| write!(out, "\t{offset:+}"))?;
    writeln!(out)?;
    for row in printed_rows(collection, table)? {
        out.write_all(&row.word)?;
        row.counts.iter().try_for_each(|count| write!(out, "\t{count}"))?;
        writeln!(out)?;
    }
    Ok(())
}

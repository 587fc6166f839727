//! `concord explain`: what the numbers of refusals mean.
use crate::fault::{in_plain_words, Fault};
use crate::output::Output;
use crate::Found;
use concordance::Refusal;
use std::io::Write;

/// Prints the row of the table with a number, and what it means for a user; all rows where no number is given.
pub fn run(number: Option<u32>) -> Result<Found, Fault> {
    let rows: Vec<Refusal> = match number {
        Some(number) => vec![row(number).ok_or_else(|| {
            Fault::about(number, "there is no refusal with this number; `concord explain` lists all of them")
        })?],
        None => (1..).map_while(row).collect(),
    };
    let mut out = Output::open(false, false);
    for refusal in rows {
        writeln!(out, "[{}] {}", refusal.number(), refusal.words())?;
        writeln!(out, "    {}", in_plain_words(refusal))?;
    }
    out.close()?;
    Ok(Found::Something)
}

/// The refusal with a number, if the table has it.
fn row(number: u32) -> Option<Refusal> {
    Refusal::from_number(number).filter(|refusal| !matches!(refusal, Refusal::Other(_)))
}

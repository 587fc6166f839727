//! `concord count`: how often a phrase stands.
use super::{found, remark};
use crate::args::Asked;
use crate::collection::Collection;
use crate::fault::Fault;
use crate::output::Output;
use crate::Found;
use std::io::Write;

/// Prints the count of a phrase.
pub fn run(asked: &Asked) -> Result<Found, Fault> {
    let (collection, phrase) = Collection::ask(&asked.index, &asked.phrase())?;
    let count = collection.count(&phrase)?;
    let remark = remark(&collection, &phrase, count)?;
    let mut out = Output::open(false, false);
    writeln!(out, "{count}{remark}")?;
    out.close()?;
    Ok(found(count))
}

//! The commands, one in a file.
mod check;
mod context;
mod count;
mod documents;
mod explain;
mod index;
mod list;
mod neighbours;
mod text;
mod words;

use crate::args::{Arguments, Command};
use crate::collection::{Collection, Phrase};
use crate::fault::Fault;
use crate::output::Output;
use crate::Found;
use clap::CommandFactory;
use indicatif::{ProgressBar, ProgressStyle};
use std::io::Write;

/// Runs a command.
pub fn run(arguments: Arguments) -> Result<Found, Fault> {
    let pager = !arguments.no_pager;
    match arguments.command {
        Command::Index(given) => index::run(&given),
        Command::Check { index } => check::run(&index),
        Command::Count { asked } => count::run(&asked),
        Command::List(given) => list::run(&given, pager),
        Command::Words(given) => words::run(&given, pager),
        Command::Documents(given) => documents::run(&given, pager),
        Command::Neighbours(given) => neighbours::run(&given, pager),
        Command::Text(given) => text::run(&given, pager),
        Command::Explain { number } => explain::run(number),
        Command::Completions { shell } => {
            let mut script = Vec::new();
            clap_complete::generate(shell, &mut Arguments::command(), "concord", &mut script);
            let mut out = Output::open(false, false);
            out.write_all(&script)?;
            out.close()?;
            Ok(Found::Something)
        }
    }
}

/// What is found if something stands so often.
fn found(count: usize) -> Found {
    match count {
        0 => Found::Nothing,
        _ => Found::Something,
    }
}

/// Behind a count: that a phrase has no words, or which of its words are in no letter; nothing where neither is so.
fn remark(collection: &Collection, phrase: &Phrase, count: usize) -> Result<String, Fault> {
    if phrase.ranks.is_empty() {
        return Ok("   (a phrase of no words stands at every place, the end of the text included)".to_owned());
    }
    if count > 0 {
        return Ok(String::new());
    }
    let absent: Vec<String> = collection.absent_words(phrase)?.into_iter().map(|word| format!("\"{word}\"")).collect();
    match absent.is_empty() {
        true => Ok(String::new()),
        false => Ok(format!("   (no letter has the word {})", absent.join(" or "))),
    }
}

/// A number and what is counted, in the plural where that is right.
fn counted(number: usize, what: &str) -> String {
    format!("{number} {what}{}", if number == 1 { "" } else { "s" })
}

/// A bar for long work on so many things, shown on a terminal only.
fn progress(what: &'static str, length: usize) -> ProgressBar {
    let bar = ProgressBar::new(length as u64);
    if let Ok(style) = ProgressStyle::with_template("{msg:24} {wide_bar} {percent:>3} %") {
        bar.set_style(style);
    }
    bar.set_message(what);
    bar
}

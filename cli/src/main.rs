//! `concord`: the concordance engine at a scholar's command line. Every count and every place that it prints is an answer of the proved engine; outside it are only
//! files, spelling, recoding and layout.
mod args;
mod collection;
mod commands;
mod crc;
mod fault;
mod file;
mod gather;
mod output;
mod recode;
mod spelling;
mod threads;

use args::Arguments;
use clap::Parser;
use fault::Fault;
use std::process::ExitCode;

/// Whether a command has found what it was asked for.
pub enum Found {
    Something,
    Nothing,
}

fn main() -> ExitCode {
    let arguments = Arguments::parse();
    match threads::on_thread(|| commands::run(arguments)) {
        Ok(Ok(Found::Something)) => ExitCode::SUCCESS,
        Ok(Ok(Found::Nothing)) => ExitCode::from(1),
        Ok(Err(Fault::Said(line))) => refuse(&format!("concord: {line}")),
        Ok(Err(Fault::At(line))) => refuse(&line),
        Ok(Err(Fault::Closed)) => ExitCode::from(141),
        Err(error) => refuse(&format!("concord: no thread could be started: {error}")),
    }
}

/// Says why a command is refused.
fn refuse(line: &str) -> ExitCode {
    output::say(line);
    ExitCode::from(2)
}

//! `concord check`: whether an index file can be relied on, and whether it is as it was written.
use super::counted;
use crate::collection::Collection;
use crate::fault::{Fault, Turned};
use crate::output::Output;
use crate::Found;
use std::io::Write;
use std::path::Path;

/// What is said of a part of the file: that it passed, which may need no line, or that it is refused.
type Verdict = Result<Option<String>, String>;

/// Prints a line on the index and a line on the file, and one more for each other part that is refused.
pub fn run(path: &Path) -> Result<Found, Fault> {
    let collection = Collection::read(path)?;
    let index = on_index(&collection);
    let documents = if index.is_ok() { on_documents(&collection) } else { Ok(None) };
    let list = if index.is_ok() && documents.is_ok() { on_list(&collection) } else { Ok(None) };
    let verdicts = [index, documents, list, on_file(&collection)];
    let passed = verdicts.iter().all(Verdict::is_ok);
    let mut out = Output::open(false, false);
    for verdict in verdicts {
        match verdict {
            Ok(Some(line)) | Err(line) => writeln!(out, "{line}")?,
            Ok(None) => {}
        }
    }
    out.close()?;
    match passed {
        true => Ok(Found::Something),
        false => Err(Fault::about(path.display(), "do not rely on what this file answers.")),
    }
}

/// Whether the four arrays are the index of a text.
fn on_index(collection: &Collection) -> Verdict {
    let documents = collection.documents();
    match documents.check() {
        Ok(()) => {
            let words = counted(documents.words(), "word");
            Ok(Some(format!("index: passed (the index of exactly one text of {words})")))
        }
        Err(refused) => Err(format!("index: {}", Turned(refused.refusal))),
    }
}

/// Whether the starts are those of documents of the text.
fn on_documents(collection: &Collection) -> Verdict {
    match collection.documents().answer_sheet(&[], &[]) {
        Ok(_) => Ok(None),
        Err(refused) => Err(format!("documents: {}", Turned(refused.refusal))),
    }
}

/// Whether the word list keeps its rules, and each word of the text is in it.
fn on_list(collection: &Collection) -> Verdict {
    match collection.frequencies() {
        Ok(_) => Ok(None),
        Err(fault) => Err(format!("word list: {}", collection.reason(&fault))),
    }
}

/// Whether the file is as it was written.
fn on_file(collection: &Collection) -> Verdict {
    match collection.try_checksum() {
        Ok(()) => Ok(Some("file: as it was written".to_owned())),
        Err(broken) => Err(format!("file: {broken}")),
    }
}

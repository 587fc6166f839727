//! `concord text`: the words of the letters, document by document.
use super::context::reach_of;
use crate::args::TextArguments;
use crate::collection::Collection;
use crate::fault::Fault;
use crate::output::{Colour, Output};
use crate::spelling::Spellings;
use crate::Found;
use std::collections::HashSet;
use std::ffi::OsStr;
use std::fs;
use std::io::Write;
use std::ops::Range;
use std::os::unix::ffi::OsStrExt;
use std::path::Path;

/// How many words are read at a time: the check is made once for each time.
const PASSAGE: usize = 1 << 20;
/// How many letters and blanks a line has at the most, unless a word is longer.
const WIDTH: usize = 78;

/// Where the words of the documents go.
enum Target<'a> {
    /// One after another, each under its name.
    Lines(Output),
    /// A table with a line for each document.
    Table(Output),
    /// A file for each document, below a folder.
    Folder(&'a Path),
}

/// Writes the words of all documents, or of one.
pub fn run(given: &TextArguments, pager: bool) -> Result<Found, Fault> {
    let collection = Collection::open(&given.index)?;
    let documents = collection.documents();
    collection.frequencies()?;
    let names = collection.names();
    let chosen: Vec<usize> = match &given.document {
        None => (0..names.len()).collect(),
        Some(name) => {
            let number = names.iter().position(|known| *known == name.as_bytes());
            vec![number
                .ok_or_else(|| Fault::about(name.to_string_lossy(), "refused. There is no document with this name."))?]
        }
    };
    let mut target = match (&given.output, given.tsv) {
        (Some(folder), _) => Target::Folder(folder),
        (None, true) => Target::Table(Output::open(true, false)),
        (None, false) => Target::Lines(Output::open(false, pager)),
    };
    if let Target::Folder(folder) = target {
        let files: Vec<Vec<u8>> = chosen.iter().map(|&number| file_of(names[number])).collect();
        if let Some(file) = in_the_way(&files) {
            let why = "refused. One document would be a file where another needs a folder; give --document NAME.";
            return Err(Fault::about(String::from_utf8_lossy(file), why));
        }
        fs::create_dir(folder).map_err(|error| Fault::file(folder, &error))?;
    }
    if let Target::Table(out) = &mut target {
        writeln!(out, "document\ttext")?;
    }
    let spellings = collection.spellings();
    let mut passages = Passages { collection: &collection, from: 0, ranks: Vec::new() };
    for &number in &chosen {
        let reach = reach_of(documents.starts(), documents.words(), number);
        let words = words_of(&collection, &spellings, passages.ranks(reach)?)?;
        put(&collection, &mut target, names[number], &words)?;
    }
    if let Target::Lines(out) | Target::Table(out) = target {
        out.close()?;
    }
    Ok(super::found(chosen.len()))
}

/// The file of a document.
fn file_of(name: &[u8]) -> Vec<u8> {
    [name, b".txt"].concat()
}

/// A file whose name is that of a folder in which another lies.
fn in_the_way(files: &[Vec<u8>]) -> Option<&[u8]> {
    let names: HashSet<&[u8]> = files.iter().map(Vec::as_slice).collect();
    files.iter().find_map(|file| {
        let mut folders = (0..file.len()).filter(|&end| file[end] == b'/');
        folders.find_map(|end| names.get(&file[..end]).copied())
    })
}

/// The ranks of the text, read in long passages from the front on.
struct Passages<'a> {
    collection: &'a Collection,
    from: usize,
    ranks: Vec<u32>,
}

impl Passages<'_> {
    /// The ranks of a part that begins no earlier than those asked for before.
    fn ranks(&mut self, part: Range<usize>) -> Result<&[u32], Fault> {
        if part.start < self.from || self.from + self.ranks.len() < part.end {
            let documents = self.collection.documents();
            let length = part.len().max(PASSAGE).min(documents.words() - part.start);
            self.ranks = documents.passage(part.start, length).map_err(|refused| self.collection.turned(refused))?;
            self.from = part.start;
        }
        Ok(&self.ranks[part.start - self.from..part.end - self.from])
    }
}

/// The words of ranks.
fn words_of<'a>(collection: &Collection, spellings: &Spellings<'a>, ranks: &[u32]) -> Result<Vec<&'a [u8]>, Fault> {
    let words: Option<Vec<&[u8]>> = ranks.iter().map(|&rank| spellings.word(rank)).collect();
    words.ok_or_else(|| collection.unspelled())
}

/// Writes a document.
fn put(collection: &Collection, target: &mut Target, name: &[u8], words: &[&[u8]]) -> Result<(), Fault> {
    match target {
        Target::Lines(out) => {
            out.coloured(Colour::Document, &[b"== ", name, b" =="].concat())?;
            writeln!(out)?;
            out.write_all(&collection.shown(&wrapped(words)))?;
            writeln!(out)?;
        }
        Target::Table(out) => {
            out.write_all(name)?;
            out.write_all(b"\t")?;
            out.write_all(&collection.shown(&words.join(&b' ')))?;
            writeln!(out)?;
        }
        Target::Folder(folder) => {
            let path = folder.join(OsStr::from_bytes(&file_of(name)));
            let written = path.parent().map_or(Ok(()), fs::create_dir_all);
            let written = written.and_then(|()| fs::write(&path, collection.shown(&wrapped(words))));
            written.map_err(|error| Fault::file(&path, &error))?;
        }
    }
    Ok(())
}

/// Words in lines.
fn wrapped(words: &[&[u8]]) -> Vec<u8> {
    let mut lines = Vec::new();
    let mut width = 0;
    for word in words {
        let fits = width + 1 + word.len() <= WIDTH;
        if width > 0 {
            lines.push(if fits { b' ' } else { b'\n' });
        }
        width = if width > 0 && fits { width + 1 + word.len() } else { word.len() };
        lines.extend_from_slice(word);
    }
    lines.push(b'\n');
    lines
}

//! `concord index`: the index of a folder of letters.
use super::{counted, progress};
use crate::args::IndexArguments;
use crate::fault::Fault;
use crate::file::{image, is_index_at, write, Contents};
use crate::gather::{files_below, read, Gathered};
use crate::output::{say, Output};
use crate::recode::Recoding;
use crate::spelling::{broken_line, count_words, each_word, read_halves, word_list};
use crate::Found;
use concordance::{Index, Letters, Refusal, Refused, Shape};
use indicatif::ProgressBar;
use std::ffi::OsString;
use std::fs;
use std::io::Write;
use std::path::{Path, PathBuf};
use std::time::Duration;

/// The ending of the file that is written where none is named.
const ENDING: &str = ".concord";

/// Makes the index of a folder and writes it.
pub fn run(given: &IndexArguments) -> Result<Found, Fault> {
    let output = output(given)?;
    let letters = given.letters.as_deref().map(letters_of).transpose()?;
    let table = letters.clone().unwrap_or_else(Letters::built_in);
    let recoding = recoding(given)?;

    let files = files_below(&given.folder)?;
    let bar = progress("reading the letters", files.len());
    let gathered = read(files, &recoding, || bar.inc(1))?;
    bar.finish_and_clear();
    if gathered.latin > 0 {
        say(format_args!("{} not UTF-8 and read as ISO 8859-1", files_are(gathered.latin)));
    }
    let list = match &given.list {
        Some(path) => list_in(path, &recoding)?,
        None => made_list(&gathered, &table)?,
    };
    let ranks = waiting("reading by the word list", || read_halves(&table, &list, &gathered.text))?
        .map_err(|refused| unread(refused, given, &gathered, &table, &recoding, &list))?;
    let (starts, names) = documents(&gathered, &table, ranks.len())?;

    let shape = Shape::for_text(given.room);
    let index = waiting("building the index", || Index::build(shape, &ranks))
        .map_err(|refused| Fault::engine(given.folder.display(), refused))?;
    let letters = letters.as_ref().map_or(&[][..], |letters| letters.table());
    let (arrays, recoding) = (index.arrays().slices(), recoding.lines());
    let contents =
        Contents { shape, arrays, list: &list, starts: &starts, names: &names, letters, recoding: recoding.as_bytes() };
    let file = image(&contents);
    waiting("writing the index", || write(&output, &file)).map_err(|error| Fault::file(&output, &error))?;

    let mut out = Output::open(false, false);
    writeln!(
        out,
        "{}, {}, {} different; {}",
        counted(starts.len(), "document"),
        counted(ranks.len(), "word"),
        different(&ranks),
        counted(index.arrays().bytes.len(), "node byte")
    )?;
    out.close()?;
    Ok(Found::Something)
}

/// The file that is written. One that is there already must be an index, so that nothing else is lost; of a link it is the file that it leads to.
fn output(given: &IndexArguments) -> Result<PathBuf, Fault> {
    let path = match &given.output {
        Some(path) => path.clone(),
        None => {
            let folder = fs::canonicalize(&given.folder).map_err(|error| Fault::file(&given.folder, &error))?;
            let mut name: OsString = folder.file_name().unwrap_or("letters".as_ref()).to_owned();
            name.push(ENDING);
            PathBuf::from(name)
        }
    };
    let Ok(there) = fs::canonicalize(&path) else { return Ok(path) };
    match is_index_at(&there) {
        Ok(true) => Ok(there),
        Ok(false) => {
            Err(Fault::about(path.display(), "refused. The file is there already and is no index; give another name."))
        }
        Err(error) => Err(Fault::file(&path, &error)),
    }
}

/// The letter table in a file: 256 bytes, or 256 numbers in two hexadecimal digits.
fn letters_of(path: &Path) -> Result<Letters, Fault> {
    let file = fs::read(path).map_err(|error| Fault::file(path, &error))?;
    let table = match file.len() {
        256 => file,
        _ => {
            let text = String::from_utf8_lossy(&file);
            let bytes: Result<Vec<u8>, _> =
                text.split_whitespace().map(|number| u8::from_str_radix(number, 16)).collect();
            bytes.map_err(|_| {
                Fault::about(
                    path.display(),
                    "refused. A letter table is 256 bytes, or 256 numbers in two hexadecimal digits. [18]",
                )
            })?
        }
    };
    Letters::new(&table).map_err(|refused| Fault::engine(path.display(), refused))
}

/// How the letters are recoded.
fn recoding(given: &IndexArguments) -> Result<Recoding, Fault> {
    if given.raw {
        return Ok(Recoding::Raw);
    }
    let Some(path) = &given.replace else { return Ok(Recoding::Latin(Default::default())) };
    let lines = fs::read(path).map_err(|error| Fault::file(path, &error))?;
    let read = Recoding::replacing(&lines);
    read.map_err(|unread| Fault::at(path, unread.line, None, unread.why))
}

/// The word list in a file, each word closed by 0A; CR LF is a line end too, and the last line may lack its end.
fn list_in(path: &Path, recoding: &Recoding) -> Result<Vec<u8>, Fault> {
    let file = fs::read(path).map_err(|error| Fault::file(path, &error))?;
    let mut list = Vec::new();
    recoding.put(&file, &mut list).map_err(|unread| Fault::at(path, unread.line, Some(unread.column), unread.why))?;
    if *recoding != Recoding::Raw {
        list = with_line_ends(&list);
    }
    if list.last().is_some_and(|&last| last != b'\n') {
        list.push(b'\n');
    }
    Ok(list)
}

/// A text whose lines all end with LF, of one that ends them with CR LF or CR.
fn with_line_ends(text: &[u8]) -> Vec<u8> {
    let mut lines = Vec::with_capacity(text.len());
    for (at, &byte) in text.iter().enumerate() {
        match byte {
            b'\r' if text.get(at + 1) == Some(&b'\n') => {}
            b'\r' => lines.push(b'\n'),
            _ => lines.push(byte),
        }
    }
    lines
}

/// The word list that is made of the letters.
fn made_list(gathered: &Gathered, letters: &Letters) -> Result<Vec<u8>, Fault> {
    let bar = progress("making the word list", gathered.text.len());
    let list = word_list(letters, &gathered.text, |bytes| bar.inc(bytes as u64));
    bar.finish_and_clear();
    list
}

/// Why the letters could not be read by the list: the line of the list that breaks a rule, or the first word that the list lacks.
fn unread(
    refused: Refused,
    given: &IndexArguments,
    gathered: &Gathered,
    letters: &Letters,
    recoding: &Recoding,
    list: &[u8],
) -> Fault {
    let folder = given.folder.display();
    let number = refused.refusal.number();
    match (refused.refusal, &given.list) {
        (Refusal::Vocabulary, None) if list.is_empty() => {
            Fault::about(folder, format_args!("refused. There is no word in these letters. [{number}]"))
        }
        (Refusal::WordList, Some(path)) => match broken_line(letters, list) {
            Some((line, why)) => {
                Fault::at(path, line, None, format_args!("refused. In the word list {why}. [{number}]"))
            }
            None => Fault::engine(path.display(), refused),
        },
        (Refusal::Unlisted, _) => match gathered.place_of(refused.value, recoding) {
            Some((path, line, column)) => {
                let word = recoding.shown(&word_at(letters, &gathered.text[refused.value..])).into_owned();
                let word = String::from_utf8_lossy(&word).into_owned();
                let why = format_args!("refused. The word \"{word}\" is not in the word list. [{number}]");
                Fault::at(path, line, Some(column), why)
            }
            None => Fault::engine(folder, refused),
        },
        (Refusal::Vocabulary, Some(path)) => Fault::engine(path.display(), refused),
        _ => Fault::engine(folder, refused),
    }
}

/// The first word of a text.
fn word_at(letters: &Letters, text: &[u8]) -> Vec<u8> {
    let end = text.iter().position(|&byte| letters.fold(byte).is_none()).unwrap_or(text.len());
    let mut first = Vec::new();
    each_word(letters, &text[..end], |word| first.extend_from_slice(word));
    first
}

/// Where the documents start among so many words, and their names, each closed by 0A. A letter without a word is no document, and a line says so.
fn documents(gathered: &Gathered, letters: &Letters, words: usize) -> Result<(Vec<u32>, Vec<u8>), Fault> {
    let (mut starts, mut names, mut place) = (Vec::new(), Vec::new(), 0);
    for (letter, part) in gathered.letters.iter().zip(gathered.parts()) {
        let length = count_words(letters, part);
        if length == 0 {
            say(format_args!("{}: left out, since it has no word", letter.path.display()));
            continue;
        }
        starts.push(place as u32);
        names.extend_from_slice(&letter.name);
        names.push(b'\n');
        place += length;
    }
    match place == words {
        true => Ok((starts, names)),
        false => Err(Fault::Said(
            "the words of the letters were counted differently. This is a fault of the program; please report it."
                .to_owned(),
        )),
    }
}

/// How many different ranks there are.
fn different(ranks: &[u32]) -> usize {
    let mut seen = vec![false; ranks.iter().max().map_or(0, |&most| most as usize + 1)];
    ranks.iter().for_each(|&rank| seen[rank as usize] = true);
    seen.into_iter().filter(|&seen| seen).count()
}

/// "1 file is" or "2 files are".
fn files_are(number: usize) -> String {
    match number {
        1 => "1 file is".to_owned(),
        _ => format!("{number} files are"),
    }
}

/// Does something long that reports no progress, while a sign on a terminal moves.
fn waiting<T>(what: &'static str, work: impl FnOnce() -> T) -> T {
    let bar = ProgressBar::new_spinner().with_message(what);
    bar.enable_steady_tick(Duration::from_millis(100));
    let done = work();
    bar.finish_and_clear();
    done
}

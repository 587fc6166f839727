//! The files of a folder of letters, and the bytes that are read of them.
use crate::fault::Fault;
use crate::file::{is_index, is_name};
use crate::output::say;
use crate::recode::{is_latin, Recoding};
use std::collections::HashSet;
use std::fs;
use std::ops::Range;
use std::os::unix::ffi::OsStrExt;
use std::path::{Path, PathBuf};

/// The ending that is left out of the name of a document.
const ENDING: &[u8] = b".txt";

/// A file of the folder.
pub struct Letter {
    pub path: PathBuf,
    /// The name of the document: its path below the folder.
    pub name: Vec<u8>,
    /// The part of the text that was read of it.
    pub part: Range<usize>,
}

/// The letters of a folder and their text, one after another, each closed by a line end.
pub struct Gathered {
    pub letters: Vec<Letter>,
    pub text: Vec<u8>,
    /// How many files are not UTF-8.
    pub latin: usize,
}

/// The files below a folder in the order of their names, those excepted whose name begins with a dot; a file that is named itself is the only one. Names are
/// without their ending, unless two would become equal.
pub fn files_below(folder: &Path) -> Result<Vec<Letter>, Fault> {
    let found = fs::metadata(folder).map_err(|error| Fault::file(folder, &error))?;
    let mut paths = Vec::new();
    if found.is_dir() {
        walk(folder, &mut paths)?;
    } else {
        paths.push(folder.to_owned());
    }
    let mut letters = Vec::new();
    for path in paths {
        let name = match path.strip_prefix(folder) {
            Ok(rest) if !rest.as_os_str().is_empty() => rest.as_os_str().as_bytes().to_vec(),
            _ => path.file_name().unwrap_or_default().as_bytes().to_vec(),
        };
        if !is_name(&name) {
            let why = "refused. The name has a control character; give the file another name.";
            return Err(Fault::about(path.display(), why));
        }
        letters.push(Letter { path, name, part: 0..0 });
    }
    let short: HashSet<&[u8]> = letters.iter().map(|letter| without_ending(&letter.name)).collect();
    if short.len() == letters.len() {
        letters.iter_mut().for_each(|letter| letter.name = without_ending(&letter.name).to_vec());
    }
    letters.sort_by(|one, other| one.name.cmp(&other.name));
    Ok(letters)
}

/// A name without its ending, unless nothing is left.
fn without_ending(name: &[u8]) -> &[u8] {
    name.strip_suffix(ENDING).filter(|rest| !rest.is_empty() && !rest.ends_with(b"/")).unwrap_or(name)
}

/// Puts the files of a folder and of the folders in it behind others. Links to folders are not followed.
fn walk(folder: &Path, paths: &mut Vec<PathBuf>) -> Result<(), Fault> {
    let refused = |error: &std::io::Error| Fault::file(folder, error);
    for entry in fs::read_dir(folder).map_err(|error| refused(&error))? {
        let entry = entry.map_err(|error| refused(&error))?;
        if entry.file_name().as_bytes().starts_with(b".") {
            continue;
        }
        let path = entry.path();
        if entry.file_type().map_err(|error| refused(&error))?.is_dir() {
            walk(&path, paths)?;
        } else if fs::metadata(&path).map_err(|error| Fault::file(&path, &error))?.is_file() {
            paths.push(path);
        }
    }
    Ok(())
}

/// Reads the files; those that are indexes themselves are left out, with a line that says so.
pub fn read(files: Vec<Letter>, recoding: &Recoding, mut progress: impl FnMut()) -> Result<Gathered, Fault> {
    let mut gathered = Gathered { letters: Vec::new(), text: Vec::new(), latin: 0 };
    for mut letter in files {
        let file = fs::read(&letter.path).map_err(|error| Fault::file(&letter.path, &error))?;
        progress();
        if is_index(&file) {
            say(format_args!("{}: left out, since it is an index", letter.path.display()));
            continue;
        }
        let start = gathered.text.len();
        if let Err(unread) = recoding.put(&file, &mut gathered.text) {
            return Err(Fault::at(&letter.path, unread.line, Some(unread.column), unread.why));
        }
        letter.part = start..gathered.text.len();
        gathered.text.push(b'\n');
        gathered.latin += usize::from(*recoding != Recoding::Raw && is_latin(&file));
        gathered.letters.push(letter);
    }
    Ok(gathered)
}

impl Gathered {
    /// The parts of the text, one for each letter.
    pub fn parts(&self) -> Vec<&[u8]> {
        self.letters.iter().map(|letter| &self.text[letter.part.clone()]).collect()
    }

    /// The file, line and column from which a byte of the text comes.
    pub fn place_of(&self, byte: usize, recoding: &Recoding) -> Option<(&Path, usize, usize)> {
        let letter = self.letters.iter().find(|letter| letter.part.contains(&byte))?;
        let file = fs::read(&letter.path).ok()?;
        let (line, column) = recoding.place_of(&file, byte - letter.part.start);
        Some((&letter.path, line, column))
    }
}

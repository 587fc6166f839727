//! An index file that is opened: the text behind it, its word list, its documents, and phrases that are typed.
use crate::fault::{Fault, Turned};
use crate::file::{names_of, Broken, Contents, IndexFile};
use crate::recode::Recoding;
use crate::spelling::{broken_line, Spellings};
use crate::threads::both;
use concordance::{find_word_with, read_text_with, Documents, Letters, Question, Refusal, Refused};
use std::borrow::Cow;
use std::ffi::OsStr;
use std::fmt::Display;
use std::os::unix::ffi::OsStrExt;
use std::path::Path;

/// How many questions are asked at a time: the check is made once for each time.
const SHEET: usize = 1 << 20;

/// An index file that is opened. The engine's own tests are made by each of its calls.
pub struct Collection {
    file: IndexFile,
    name: String,
    letters: Letters,
    recoding: Recoding,
}

/// A typed phrase.
pub struct Phrase {
    /// The ranks of its words; V for a word that the list lacks.
    pub ranks: Vec<u32>,
    /// Its words as they were typed.
    words: Vec<String>,
}

/// A typed word: as it was typed, and its letters, none if one of them has no place in the set.
struct TypedWord {
    shown: String,
    letters: Option<Vec<u8>>,
}

impl Default for TypedWord {
    fn default() -> TypedWord {
        TypedWord { shown: String::new(), letters: Some(Vec::new()) }
    }
}

impl Collection {
    /// Opens a file: tries what can be tried without the engine, the checksum too, and the letter table.
    pub fn open(path: &Path) -> Result<Collection, Fault> {
        let collection = Collection::read(path)?;
        collection.try_checksum().map_err(|broken| Fault::about(path.display(), broken))?;
        Ok(collection)
    }

    /// Opens a file as [`Collection::open`] and reads a typed phrase, at the same time as the checksum is made; that is what is said first.
    pub fn ask(path: &Path, typed: &OsStr) -> Result<(Collection, Phrase), Fault> {
        let collection = Collection::read(path)?;
        let (checksum, phrase) = both(|| collection.try_checksum(), || collection.phrase(typed.as_bytes()))?;
        checksum.map_err(|broken| Fault::about(path.display(), broken))?;
        let phrase = phrase?;
        Ok((collection, phrase))
    }

    /// Reads a file as [`Collection::open`], without its checksum.
    pub fn read(path: &Path) -> Result<Collection, Fault> {
        let refused = |broken: Broken| match broken {
            Broken::System(error) => Fault::file(path, &error),
            broken => Fault::about(path.display(), broken),
        };
        let file = IndexFile::read(path).map_err(refused)?;
        let contents = file.contents();
        let recoding = Recoding::read(contents.recoding).map_err(|_| refused(Broken::Recoding))?;
        let letters = match contents.letters {
            [] => Letters::built_in(),
            table => Letters::new(table).map_err(|turned| Fault::engine(path.display(), turned))?,
        };
        Ok(Collection { file, name: path.display().to_string(), letters, recoding })
    }

    /// Tries whether the file is as it was written.
    pub fn try_checksum(&self) -> Result<(), Broken> {
        self.file.try_checksum()
    }

    /// What the file holds.
    fn contents(&self) -> Contents<'_> {
        self.file.contents()
    }

    /// The index with its document starts.
    pub fn documents(&self) -> Documents<'_> {
        let contents = self.contents();
        Documents::over(contents.shape, contents.arrays, contents.starts)
    }

    /// V, which as a rank that is asked about is an absent word.
    fn absent(&self) -> u32 {
        self.contents().shape.vocabulary as u32
    }

    /// How often a phrase stands.
    pub fn count(&self, phrase: &Phrase) -> Result<usize, Fault> {
        self.documents().count(&phrase.ranks).map_err(|refused| self.turned(refused))
    }

    /// The words of a phrase that stand nowhere, as they were typed.
    pub fn absent_words<'a>(&self, phrase: &'a Phrase) -> Result<Vec<&'a str>, Fault> {
        let end = self.documents().words();
        let asked = phrase.ranks.iter().map(|&rank| Question::occurrences_below(rank, end));
        let counts = self.answers(asked, |_| ())?;
        let absent = phrase.words.iter().zip(counts).filter(|&(_, count)| count == 0);
        Ok(absent.map(|(word, _)| word.as_str()).collect())
    }

    /// The names of the documents.
    pub fn names(&self) -> Vec<&[u8]> {
        names_of(self.contents().names).collect()
    }

    /// The words of the list.
    pub fn spellings(&self) -> Spellings<'_> {
        Spellings::of(self.contents().list)
    }

    /// Bytes of the list as they are printed.
    pub fn shown<'a>(&self, word: &'a [u8]) -> Cow<'a, [u8]> {
        self.recoding.shown(word)
    }

    /// A refusal of the engine that is about this file, or about what was asked.
    pub fn turned(&self, refused: Refused) -> Fault {
        match refused.refusal {
            Refusal::Phrase | Refusal::Offset | Refusal::Place | Refusal::Page => {
                Fault::Said(Turned(refused.refusal).to_string())
            }
            Refusal::WordList => match broken_line(&self.letters, self.contents().list) {
                Some((line, why)) => self.refused(format_args!("In line {line} of its word list {why}. [13]")),
                None => Fault::engine(&self.name, refused),
            },
            _ => Fault::engine(&self.name, refused),
        }
    }

    /// Another refusal that is about this file.
    pub fn refused(&self, why: impl Display) -> Fault {
        Fault::about(&self.name, format_args!("refused. {why}"))
    }

    /// What a refusal says, without the name of this file in front.
    pub fn reason(&self, fault: &Fault) -> String {
        let line = fault.line();
        line.strip_prefix(&format!("{}: ", self.name)).unwrap_or(line).to_owned()
    }

    /// A refusal for a rank of the text that the list has no word for.
    pub fn unspelled(&self) -> Fault {
        self.refused(
            "A word of the text is not in its word list; take the file from a copy, or index the letters again.",
        )
    }

    /// Tries the word list by reading a text of no words.
    pub fn try_list(&self) -> Result<(), Fault> {
        let tried = read_text_with(&self.letters, self.contents().list, b"");
        tried.map(|_| ()).map_err(|refused| self.turned(refused))
    }

    /// How often each word of the list stands in the text, if the list keeps its rules and has all words of the text.
    pub fn frequencies(&self) -> Result<Vec<u32>, Fault> {
        self.try_list()?;
        let words = self.documents().words();
        let ranks = 0..self.spellings().len() as u32;
        let counts = self.answers(ranks.map(|rank| Question::occurrences_below(rank, words)), |_| ())?;
        match counts.iter().map(|&count| count as usize).sum::<usize>() == words {
            true => Ok(counts),
            false => Err(self.unspelled()),
        }
    }

    /// The answers to questions of the index, in their order; in several sheets where they are many, and a refusal where one question is refused.
    pub fn answers(
        &self,
        mut questions: impl Iterator<Item = Question>,
        mut progress: impl FnMut(usize),
    ) -> Result<Vec<u32>, Fault> {
        let mut answers = Vec::new();
        loop {
            let sheet: Vec<Question> = questions.by_ref().take(SHEET).collect();
            if sheet.is_empty() {
                return Ok(answers);
            }
            for answer in self.documents().answer_sheet(&[], &sheet).map_err(|refused| self.turned(refused))? {
                answers.push(answer.map_err(|refusal| self.turned(Refused { refusal, value: 0 }))?);
            }
            progress(sheet.len());
        }
    }

    /// Reads a typed phrase. Its words are found by the engine, all in one call where all are in the list.
    fn phrase(&self, typed: &[u8]) -> Result<Phrase, Fault> {
        if typed.contains(&b'*') {
            let why = "refused. The sign * is kept for open words, which this version does not have; leave it out.";
            return Err(Fault::about("the phrase", why));
        }
        let typed = self.typed_words(typed);
        let words: Vec<String> = typed.iter().map(|word| word.shown.clone()).collect();
        if words.len() > Question::MAX_PHRASE {
            // The engine refuses it whatever its words are, so that they need not be found.
            return Ok(Phrase { ranks: vec![self.absent(); words.len()], words });
        }
        let listed: Option<Vec<&[u8]>> = typed.iter().map(|word| word.letters.as_deref()).collect();
        if let Some(listed) = listed {
            match read_text_with(&self.letters, self.contents().list, &listed.join(&b'\n')) {
                Ok(ranks) => return Ok(Phrase { ranks, words }),
                Err(Refused { refusal: Refusal::Unlisted, .. }) => {}
                Err(refused) => return Err(self.turned(refused)),
            }
        }
        Ok(Phrase { ranks: self.ranks_one_by_one(&typed)?, words })
    }

    /// The ranks of typed words, each found by itself; V for one that the list lacks.
    fn ranks_one_by_one(&self, words: &[TypedWord]) -> Result<Vec<u32>, Fault> {
        self.try_list()?;
        let list = self.contents().list;
        let listed = self.spellings().len() as u32;
        let rank_of = |word: &TypedWord| match &word.letters {
            Some(letters) => match find_word_with(&self.letters, list, letters) {
                Ok(rank) if rank < listed => Ok(rank),
                Ok(_) => Ok(self.absent()),
                Err(refused) => Err(self.turned(refused)),
            },
            None => Ok(self.absent()),
        };
        words.iter().map(rank_of).collect()
    }

    /// The words of a typed phrase: runs of letters, those included that have no place in the set.
    fn typed_words(&self, typed: &[u8]) -> Vec<TypedWord> {
        let mut words = Vec::new();
        let mut open: Option<TypedWord> = None;
        for (shown, bytes) in self.recoding.typed(typed) {
            let Some(bytes) = bytes else {
                let word = open.get_or_insert_with(TypedWord::default);
                word.shown.push_str(&shown);
                word.letters = None;
                continue;
            };
            for (at, &byte) in bytes.iter().enumerate() {
                let Some(letter) = self.letters.fold(byte) else {
                    words.extend(open.take());
                    continue;
                };
                let word = open.get_or_insert_with(TypedWord::default);
                word.shown.push_str(if at == 0 { &shown } else { "" });
                if let Some(letters) = &mut word.letters {
                    letters.push(letter);
                }
            }
        }
        words.extend(open);
        words
    }
}

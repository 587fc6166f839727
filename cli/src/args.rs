//! The commands and their arguments.
use clap::{Args, Parser, Subcommand, ValueEnum};
use std::ffi::OsString;
use std::path::PathBuf;

/// What is said behind the commands.
const NOTES: &str = "\
Every count and every place that is printed is an answer of an engine that is proved to be right. Upper case and punctuation do not \
matter. A phrase counts only where all its words stand in one document. Places count the words of all documents, from 0 on.

Exit status: 0, or 1 if nothing was found, or 2 if the command was refused.";

/// A concordance of a folder of letters that cannot miss a line.
#[derive(Parser)]
#[command(version, after_help = NOTES)]
pub struct Arguments {
    #[command(subcommand)]
    pub command: Command,
    /// Do not show long output page by page on a terminal
    #[arg(long, global = true)]
    pub no_pager: bool,
}

/// A command.
#[derive(Subcommand)]
pub enum Command {
    /// Make the index of a folder of letters; each file is a document, in the order of the names
    Index(IndexArguments),
    /// Check an index file: whether its answers can be relied on, and whether it is as it was written
    Check {
        /// The index file
        index: PathBuf,
    },
    /// Count a phrase
    Count {
        #[command(flatten)]
        asked: Asked,
    },
    /// List the places of a phrase with the words around them
    List(ListArguments),
    /// List the words by their frequency
    Words(WordsArguments),
    /// Count a phrase in each document
    Documents(DocumentsArguments),
    /// Count the words that stand beside a word, by their distance from it
    Neighbours(NeighboursArguments),
    /// Write the words of the letters back, document by document
    Text(TextArguments),
    /// Explain a refusal by the number at its end, or all of them
    Explain {
        /// The number in brackets
        number: Option<u32>,
    },
    /// Print the completions of commands for a shell
    Completions {
        /// The shell
        shell: clap_complete::Shell,
    },
}

/// An index and a phrase that is asked about.
#[derive(Args)]
pub struct Asked {
    /// The index file
    pub index: PathBuf,
    /// The phrase, up to 16 words, with or without quotation marks
    #[arg(required = true)]
    phrase: Vec<OsString>,
}

impl Asked {
    /// The phrase, as if it had been typed in quotation marks.
    pub fn phrase(&self) -> OsString {
        self.phrase.join(" ".as_ref())
    }
}

/// What `index` is given.
#[derive(Args)]
pub struct IndexArguments {
    /// The folder of letters: plain text in UTF-8 or ISO 8859-1
    pub folder: PathBuf,
    /// The index file to write [default: the folder's name with .concord]
    #[arg(short, long, value_name = "FILE")]
    pub output: Option<PathBuf>,
    /// Take the words and their order from this file, a word in each line, instead of making the list
    #[arg(long, value_name = "FILE")]
    pub list: Option<PathBuf>,
    /// Take this letter table: 256 bytes, or as many numbers in two hexadecimal digits
    #[arg(long, value_name = "TABLE")]
    pub letters: Option<PathBuf>,
    /// Read letters that ISO 8859-1 lacks as this file says: in each line a letter, a blank, and what is read in its place
    #[arg(long, value_name = "FILE", conflicts_with = "raw")]
    pub replace: Option<PathBuf>,
    /// Take the bytes of the files as they are, in an 8-bit set of one's own; phrases and output are in that set too
    #[arg(long, requires = "letters")]
    pub raw: bool,
    /// How many different words the index has room for
    #[arg(long, value_name = "WORDS", default_value_t = concordance::MAX_VOCABULARY)]
    pub room: usize,
}

/// By which side of a line it is sorted.
#[derive(Clone, Copy, PartialEq, Eq, ValueEnum)]
pub enum Side {
    Left,
    Right,
}

/// What `list` is given.
#[derive(Args)]
pub struct ListArguments {
    #[command(flatten)]
    pub asked: Asked,
    /// How many lines a page has [default: 20; with --sort all lines]
    #[arg(short = 'n', long, value_name = "LINES")]
    pub lines: Option<usize>,
    /// Print all lines
    #[arg(long, conflicts_with = "lines")]
    pub all: bool,
    /// How many words are shown on each side
    #[arg(short, long, value_name = "WORDS", default_value_t = 5)]
    pub words: usize,
    /// Go on with the page that an earlier one named
    #[arg(long, value_name = "PLACE", conflicts_with = "sort")]
    pub next: Option<usize>,
    /// Sort all lines by the words on one side, from the nearest on
    #[arg(long, value_name = "SIDE")]
    pub sort: Option<Side>,
    /// Print a table with tabs and a line of headings
    #[arg(long)]
    pub tsv: bool,
}

/// What `words` is given.
#[derive(Args)]
pub struct WordsArguments {
    /// The index file
    pub index: PathBuf,
    /// How many words are listed
    #[arg(short = 'n', long, value_name = "WORDS", default_value_t = 20)]
    pub number: usize,
    /// List all words
    #[arg(long, conflicts_with = "number")]
    pub all: bool,
    /// Print a table with tabs and a line of headings
    #[arg(long)]
    pub tsv: bool,
}

/// What `documents` is given.
#[derive(Args)]
pub struct DocumentsArguments {
    #[command(flatten)]
    pub asked: Asked,
    /// List the documents without the phrase too
    #[arg(long)]
    pub all: bool,
    /// Print a table with tabs and a line of headings
    #[arg(long)]
    pub tsv: bool,
}

/// What `neighbours` is given.
#[derive(Args)]
pub struct NeighboursArguments {
    /// The index file
    pub index: PathBuf,
    /// The word
    pub word: OsString,
    /// How far the neighbours stand from it at most, 1 to 16
    #[arg(long, value_name = "WORDS", default_value_t = 2, value_parser = clap::value_parser!(u32).range(1..))]
    pub span: u32,
    /// How many neighbours are listed
    #[arg(short = 'n', long, value_name = "WORDS", default_value_t = 10)]
    pub number: usize,
    /// Print a table with tabs and a line of headings
    #[arg(long)]
    pub tsv: bool,
}

/// What `text` is given.
#[derive(Args)]
pub struct TextArguments {
    /// The index file
    pub index: PathBuf,
    /// Only the document with this name
    #[arg(long, value_name = "NAME")]
    pub document: Option<OsString>,
    /// Write a file for each document into this folder, which is made
    #[arg(short, long, value_name = "FOLDER", conflicts_with = "tsv")]
    pub output: Option<PathBuf>,
    /// Print a table with tabs and a line of headings
    #[arg(long)]
    pub tsv: bool,
}

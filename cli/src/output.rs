//! Where the lines of a command go: plain to a file or a pipe, in colour and page by page to a terminal.
use std::env;
use std::fmt::Display;
use std::io::{self, BufWriter, IsTerminal, StdoutLock, Write};
use std::process::{Child, Command, Stdio};

/// Says something beside the output. That nobody may be there to read it is no fault.
pub fn say(line: impl Display) {
    let _ = writeln!(io::stderr(), "{line}");
}

/// The output of a command.
pub struct Output {
    sink: Sink,
    colours: bool,
}

/// What the output is written to.
enum Sink {
    Standard(BufWriter<StdoutLock<'static>>),
    Pager(Child),
}

/// The colours, as grep has them.
#[derive(Clone, Copy)]
pub enum Colour {
    Hit,
    Document,
    Place,
}

impl Colour {
    /// The sequence that begins the colour on a terminal.
    const fn begins(self) -> &'static [u8] {
        match self {
            Colour::Hit => b"\x1b[1;31m",
            Colour::Document => b"\x1b[35m",
            Colour::Place => b"\x1b[32m",
        }
    }
}

impl Output {
    /// The output of a command: plain where it is a table, a pipe or a file; page by page where that is wanted and it goes to a terminal.
    pub fn open(table: bool, pager: bool) -> Output {
        let terminal = io::stdout().is_terminal() && !table;
        let colours =
            terminal && env::var_os("NO_COLOR").is_none() && env::var_os("TERM").is_some_and(|term| term != "dumb");
        let pager = if terminal && pager { start_pager() } else { None };
        let sink = match pager {
            Some(child) => Sink::Pager(child),
            None => Sink::Standard(BufWriter::new(io::stdout().lock())),
        };
        Output { sink, colours }
    }

    /// Writes bytes in a colour, where the output has colours.
    pub fn coloured(&mut self, colour: Colour, bytes: &[u8]) -> io::Result<()> {
        if !self.colours {
            return self.write_all(bytes);
        }
        self.write_all(colour.begins())?;
        self.write_all(bytes)?;
        self.write_all(b"\x1b[m")
    }

    /// Writes so many blanks.
    pub fn blanks(&mut self, number: usize) -> io::Result<()> {
        write!(self, "{:number$}", "")
    }

    /// Ends the output: all is written, and the pager was left.
    pub fn close(mut self) -> io::Result<()> {
        self.flush()?;
        if let Sink::Pager(mut child) = self.sink {
            drop(child.stdin.take());
            child.wait()?;
        }
        Ok(())
    }
}

impl Write for Output {
    fn write(&mut self, bytes: &[u8]) -> io::Result<usize> {
        match &mut self.sink {
            Sink::Standard(out) => out.write(bytes),
            Sink::Pager(child) => child.stdin.as_mut().map_or(Ok(bytes.len()), |pipe| pipe.write(bytes)),
        }
    }

    fn flush(&mut self) -> io::Result<()> {
        match &mut self.sink {
            Sink::Standard(out) => out.flush(),
            Sink::Pager(child) => child.stdin.as_mut().map_or(Ok(()), |pipe| pipe.flush()),
        }
    }
}

/// Starts the pager that PAGER names, `less` where it names none; no pager where it cannot be started or is said to be none. `less` is told to end by
/// itself if all fits on the screen, to leave it standing there, and to pass colours.
fn start_pager() -> Option<Child> {
    let pager = env::var("PAGER").unwrap_or_else(|_| "less".to_owned());
    let mut words = pager.split_whitespace();
    let program = words.next().filter(|&program| program != "cat")?;
    let mut command = Command::new(program);
    command.args(words).stdin(Stdio::piped());
    if env::var_os("LESS").is_none() {
        command.env("LESS", "FRX");
    }
    command.spawn().ok()
}

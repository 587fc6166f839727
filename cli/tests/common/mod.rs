//! What the tests share: a folder of one's own that is removed at the end, and runs of the program in it.
use std::ffi::OsStr;
use std::fmt::{self, Debug, Formatter};
use std::os::unix::ffi::OsStrExt;
use std::path::{Path, PathBuf};
use std::process::{Command, Stdio};
use std::{env, fs, process};

/// The folder of a test, which is removed with all that is in it when the test is over.
pub struct Folder(PathBuf);

impl Folder {
    /// Makes the folder of the test with this name.
    pub fn new(test: &str) -> Folder {
        let path = env::temp_dir().join(format!("concord-{}-{test}", process::id()));
        let _ = fs::remove_dir_all(&path);
        fs::create_dir_all(&path).unwrap();
        Folder(path)
    }

    /// The path of something in the folder.
    pub fn at(&self, name: &str) -> PathBuf {
        self.0.join(name)
    }

    /// Writes a file in the folder, and makes the folders that lead to it.
    pub fn write(&self, name: &str, bytes: impl AsRef<[u8]>) {
        let path = self.at(name);
        path.parent().map(fs::create_dir_all).unwrap().unwrap();
        fs::write(path, bytes).unwrap();
    }

    /// The bytes of a file in the folder.
    pub fn read(&self, name: &str) -> Vec<u8> {
        fs::read(self.at(name)).unwrap()
    }

    /// Whether something in the folder has this name.
    pub fn has(&self, name: &str) -> bool {
        self.at(name).exists()
    }

    /// The program with these arguments, started in the folder.
    pub fn command<A: AsRef<[u8]>>(&self, arguments: &[A]) -> Command {
        let mut command = Command::new(env!("CARGO_BIN_EXE_concord"));
        command.args(arguments.iter().map(|argument| OsStr::from_bytes(argument.as_ref())));
        command.current_dir(&self.0).stdin(Stdio::null());
        command
    }

    /// Runs the program in the folder to its end. No run may be ended by a signal, or by a panic.
    pub fn run<A: AsRef<[u8]>>(&self, arguments: &[A]) -> Run {
        let output = self.command(arguments).output().unwrap();
        let shown: Vec<_> = arguments.iter().map(|argument| String::from_utf8_lossy(argument.as_ref())).collect();
        let err = String::from_utf8_lossy(&output.stderr).into_owned();
        let status = output.status.code().unwrap_or_else(|| panic!("{shown:?} was ended by {}: {err}", output.status));
        assert!(status != 101 && !err.contains("panicked"), "{shown:?} has panicked: {err}");
        assert!(status <= 2, "{shown:?} has the status {status}: {err}");
        Run { shown: shown.join(" "), status, out: output.stdout, err }
    }
}

impl Drop for Folder {
    /// Removes the folder.
    fn drop(&mut self) {
        let _ = fs::remove_dir_all(Path::new(&self.0));
    }
}

/// A run of the program: what it was given, its exit status, and what it has written.
pub struct Run {
    pub shown: String,
    pub status: i32,
    pub out: Vec<u8>,
    pub err: String,
}

impl Debug for Run {
    /// The run as a failed test shows it.
    fn fmt(&self, out: &mut Formatter<'_>) -> fmt::Result {
        let Run { shown, status, out: printed, err } = self;
        write!(out, "`concord {shown}` with {status}, out {:?}, err {err:?}", String::from_utf8_lossy(printed))
    }
}

impl Run {
    /// What a command printed that has found something.
    pub fn answer(&self) -> &str {
        assert_eq!(self.status, 0, "{self:?}");
        std::str::from_utf8(&self.out).unwrap_or_else(|_| panic!("{self:?}"))
    }

    /// What a command printed that has found nothing.
    pub fn nothing(&self) -> &str {
        assert_eq!(self.status, 1, "{self:?}");
        std::str::from_utf8(&self.out).unwrap_or_else(|_| panic!("{self:?}"))
    }

    /// The line with which a command was refused; it has printed nothing else.
    pub fn refusal(&self) -> &str {
        assert_eq!(self.status, 2, "{self:?}");
        assert!(self.out.is_empty(), "{self:?}");
        let line = self.err.strip_suffix('\n').unwrap_or_else(|| panic!("{self:?}"));
        assert!(!line.is_empty() && !line.contains('\n'), "{self:?}");
        line
    }

    /// Asserts that the line with which a command was refused has all these words in it.
    pub fn refused_with(&self, words: &[&str]) {
        let line = self.refusal();
        words.iter().for_each(|word| assert!(line.contains(word), "{word:?} is not in {self:?}"));
    }
}

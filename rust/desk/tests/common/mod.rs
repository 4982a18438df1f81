//! What the tests share: the program called, folders, samples, random policies.

// Each file of tests needs some of it only.
#![allow(dead_code)]

use std::fs;
use std::io::Write;
use std::path::PathBuf;
use std::process::{Child, Command, Output, Stdio};
use std::sync::atomic::{AtomicU32, Ordering};
use std::thread;

pub mod random;
pub mod samples;

/// The program under test.
pub fn program() -> Command {
    Command::new(env!("CARGO_BIN_EXE_groovepawn"))
}

/// What a call of the program came to.
pub struct Done {
    pub status: Option<i32>,
    pub out: Vec<u8>,
    pub err: String,
}

impl Done {
    fn of(output: Output) -> Done {
        let err = String::from_utf8(output.stderr).expect("messages are text");
        assert!(!err.contains("panicked"), "{err}");
        Done {
            status: output.status.code(),
            out: output.stdout,
            err,
        }
    }

    pub fn text(&self) -> &str {
        std::str::from_utf8(&self.out).expect("text is printed")
    }

    /// It was done, and nothing was said about it.
    pub fn good(self) -> Done {
        assert_eq!((self.status, &*self.err), (Some(0), ""));
        self
    }

    /// It ended with this status, and these words were said.
    pub fn bad(self, status: i32, words: &str) -> Done {
        assert_eq!(self.status, Some(status), "{}", self.err);
        assert!(self.err.starts_with("groovepawn: "), "{}", self.err);
        assert!(self.err.contains(words), "{:?} has no {words:?}", self.err);
        self
    }
}

/// Calls the program with nothing to read.
pub fn desk(words: &[&str]) -> Done {
    desk_reading(words, b"")
}

/// Calls the program with something to read.
pub fn desk_reading(words: &[&str], input: &[u8]) -> Done {
    let mut command = program();
    command.args(words);
    Done::of(fed(command, input))
}

/// A program's whole output for an input.
pub fn fed(mut command: Command, input: &[u8]) -> Output {
    command
        .stdin(Stdio::piped())
        .stdout(Stdio::piped())
        .stderr(Stdio::piped());
    let mut child = command.spawn().expect("the program starts");
    feed(&mut child, input.to_vec());
    child.wait_with_output().expect("the program ends")
}

/// Feeds a program while it runs. It may well end before it has read all.
fn feed(child: &mut Child, input: Vec<u8>) {
    let mut stdin = child.stdin.take().expect("it is piped");
    thread::spawn(move || {
        let _ = stdin.write_all(&input);
    });
}

/// A folder of a test's own, which goes with it.
pub struct Folder {
    path: PathBuf,
}

static FOLDERS: AtomicU32 = AtomicU32::new(0);

impl Folder {
    pub fn new() -> Folder {
        let number = FOLDERS.fetch_add(1, Ordering::Relaxed);
        let name = format!("groovepawn-{}-{number}", std::process::id());
        let path = std::env::temp_dir().join(name);
        fs::create_dir(&path).expect("a folder can be made");
        Folder { path }
    }

    /// The path of a file in it.
    pub fn path(&self, name: &str) -> String {
        self.path
            .join(name)
            .to_str()
            .expect("paths of tests are text")
            .to_string()
    }

    /// A file with these bytes.
    pub fn file(&self, name: &str, bytes: &[u8]) -> String {
        let path = self.path(name);
        fs::write(&path, bytes).expect("a file can be written");
        path
    }

    /// The names of the files in it.
    pub fn names(&self) -> Vec<String> {
        let mut names: Vec<String> = fs::read_dir(&self.path)
            .expect("the folder is there")
            .map(|entry| {
                entry
                    .expect("it can be read")
                    .file_name()
                    .into_string()
                    .expect("names are text")
            })
            .collect();
        names.sort();
        names
    }
}

impl Drop for Folder {
    fn drop(&mut self) {
        let _ = fs::remove_dir_all(&self.path);
    }
}

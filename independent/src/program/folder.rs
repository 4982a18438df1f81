//! Programs that are told the names of files: what one is asked, what comes of
//! it, and a comparison of a program with that.

use crate::hex::hex;
use std::collections::BTreeMap;
use std::fmt::Write as _;
use std::path::{Path, PathBuf};
use std::process::Command;
use std::sync::atomic::{AtomicUsize, Ordering};
use std::{env, fs, io, process};

/// Files of one folder, by name.
pub type Files = BTreeMap<String, Vec<u8>>;

/// The words after the program, and the files that there are.
#[derive(Clone, Debug)]
pub struct Asked {
    pub words: Vec<String>,
    pub files: Files,
}

/// What it prints, how its complaint begins, if there is one, and the files
/// afterwards.
#[derive(Debug, PartialEq, Eq)]
pub struct Outcome {
    pub printed: String,
    pub complains: Option<String>,
    pub files: Files,
}

/// One such program.
pub struct Topic {
    /// From this place on the words are names of files.
    pub paths_from: usize,
    /// What is asked at a number of a seed; always the same.
    pub some: fn(u64, u64) -> Asked,
    pub outcome: fn(&Asked) -> Outcome,
}

/// A folder of its own, which goes with the value.
struct Folder(PathBuf);

impl Folder {
    fn new() -> io::Result<Folder> {
        static MADE: AtomicUsize = AtomicUsize::new(0);
        let number = MADE.fetch_add(1, Ordering::Relaxed);
        let folder = env::temp_dir().join(format!("independent-{}-{number}", process::id()));
        fs::create_dir(&folder)?;
        Ok(Folder(folder))
    }

    /// Holds these files and no others.
    fn hold(&self, files: &Files) -> io::Result<()> {
        for name in self.files()?.keys() {
            fs::remove_file(self.0.join(name))?;
        }
        for (name, bytes) in files {
            fs::write(self.0.join(name), bytes)?;
        }
        Ok(())
    }

    fn files(&self) -> io::Result<Files> {
        let mut files = Files::new();
        for entry in fs::read_dir(&self.0)? {
            let path = entry?.path();
            files.insert(name_of(&path), fs::read(&path)?);
        }
        Ok(files)
    }

    /// Runs the program, which the words name, on what is asked.
    fn run(&self, topic: &Topic, words: &[&str], asked: &Asked) -> io::Result<Outcome> {
        let [program, arguments @ ..] = words else {
            return Err(io::Error::other("no program is named"));
        };
        self.hold(&asked.files)?;
        let there = |name: &String| self.0.join(name).into_os_string();
        let told = asked.words.iter().enumerate();
        let told = told.map(|(place, word)| match place < topic.paths_from {
            true => word.into(),
            false => there(word),
        });
        let output = Command::new(program).args(arguments).args(told).output()?;
        if !output.status.success() {
            return Err(io::Error::other(format!("{}", output.status)));
        }
        let said = String::from_utf8(output.stderr).map_err(io::Error::other)?;
        let folder = format!("{}/", self.0.display());
        Ok(Outcome {
            printed: String::from_utf8(output.stdout).map_err(io::Error::other)?,
            complains: (!said.is_empty()).then(|| said.replace(&folder, "")),
            files: self.files()?,
        })
    }
}

impl Drop for Folder {
    fn drop(&mut self) {
        // What is left behind there harms nobody.
        let _ = fs::remove_dir_all(&self.0);
    }
}

fn name_of(path: &Path) -> String {
    let name = path.file_name().expect("a file has a name");
    name.to_string_lossy().into_owned()
}

/// As the other programs' comparison: how many runs were right, and how many of
/// these were refusals.
pub fn compare(
    topic: &Topic,
    words: &[&str],
    seed: u64,
    mut goes_on: impl FnMut(u64) -> bool,
) -> Result<(u64, u64), String> {
    let folder = Folder::new().map_err(|error| format!("{error}"))?;
    let mut refused = 0;
    let mut number = 0;
    while goes_on(number) {
        let asked = (topic.some)(seed, number);
        let expected = (topic.outcome)(&asked);
        let found = folder
            .run(topic, words, &asked)
            .map_err(|error| format!("{error}"))?;
        if !agrees(&found, &expected) {
            return Err(format!(
                "difference at {number}, {}\n{found:?}\ninstead of\n{expected:?}",
                described(&asked)
            ));
        }
        refused += u64::from(expected.printed.starts_with("refused"));
        number += 1;
    }
    Ok((number, refused))
}

/// A complaint ends with the system's words, which nobody here knows.
fn agrees(found: &Outcome, expected: &Outcome) -> bool {
    let complains = match (&found.complains, &expected.complains) {
        (Some(found), Some(expected)) => found.starts_with(expected.as_str()),
        (found, expected) => found == expected,
    };
    complains && found.printed == expected.printed && found.files == expected.files
}

fn described(asked: &Asked) -> String {
    let mut text = format!("the words {:?}", asked.words);
    for (name, bytes) in &asked.files {
        write!(text, "\n{name}: {}", hex(bytes)).expect("a string takes all");
    }
    text
}

//! Where a command writes: standard output, or a file that is there whole or not at
//! all.

use std::ffi::{OsStr, OsString};
use std::fs::{self, File, OpenOptions};
use std::io::{self, BufWriter, Write};
use std::path::{Path, PathBuf};

use crate::fault::Fault;

/// How many bytes are gathered before they are written.
const GATHERED: usize = 1 << 16;

/// The word that stands for standard output.
const STANDARD_OUTPUT: &str = "-";

pub struct Out {
    name: String,
    to: BufWriter<Box<dyn Write>>,
    place: Option<Place>,
}

/// A file that is written beside the one named, and put in its place at the end.
struct Place {
    part: PathBuf,
    named: PathBuf,
    /// The same file as the one that is written, to be made lasting.
    file: File,
}

impl Out {
    pub fn standard() -> Out {
        Out::to("standard output".to_string(), Box::new(io::stdout()), None)
    }

    /// The file of `-o`, or standard output where it is not named.
    pub fn of(path: Option<&OsStr>) -> Result<Out, Fault> {
        match path {
            Some(path) if path != STANDARD_OUTPUT => Out::file(Path::new(path)),
            _ => Ok(Out::standard()),
        }
    }

    pub fn file(path: &Path) -> Result<Out, Fault> {
        let name = path.display().to_string();
        let opened = match fs::metadata(path) {
            Ok(there) if !there.is_file() => as_it_is(path),
            // A file that may not be written is not replaced either.
            Ok(_) => as_it_is(path).and_then(|_| beside(path)),
            Err(_) => beside(path),
        };
        match opened {
            Ok((file, place)) => Ok(Out::to(name, Box::new(file), place)),
            Err(error) if error.kind() == io::ErrorKind::AlreadyExists => {
                Err(Fault::Failed(format!(
                    "{}: it is in the way: remove it if nobody writes it",
                    part_of(path).display()
                )))
            }
            Err(error) => Err(Fault::of_io(&format!("{name} cannot be written"), &error)),
        }
    }

    fn to(name: String, to: Box<dyn Write>, place: Option<Place>) -> Out {
        Out {
            name,
            to: BufWriter::with_capacity(GATHERED, to),
            place,
        }
    }

    pub fn put(&mut self, bytes: &[u8]) -> Result<(), Fault> {
        self.to
            .write_all(bytes)
            .map_err(|error| Fault::of_io(&self.name, &error))
    }

    pub fn line(&mut self, line: &str) -> Result<(), Fault> {
        self.put(line.as_bytes())?;
        self.put(b"\n")
    }

    /// What was gathered goes out now.
    pub fn flush(&mut self) -> Result<(), Fault> {
        self.to
            .flush()
            .map_err(|error| Fault::of_io(&self.name, &error))
    }

    /// All is written: the file takes its name.
    pub fn finish(mut self) -> Result<(), Fault> {
        self.flush()?;
        let Some(place) = &self.place else {
            return Ok(());
        };
        let put = place
            .file
            .sync_all()
            .and_then(|()| fs::rename(&place.part, &place.named));
        put.map_err(|error| Fault::of_io(&self.name, &error))?;
        self.place = None;
        Ok(())
    }
}

/// What was not finished leaves nothing behind.
impl Drop for Out {
    fn drop(&mut self) {
        if let Some(place) = &self.place {
            let _ = fs::remove_file(&place.part);
        }
    }
}

/// A device, a pipe, or what stands there already: opened and not emptied.
fn as_it_is(path: &Path) -> io::Result<(File, Option<Place>)> {
    Ok((OpenOptions::new().write(true).open(path)?, None))
}

fn beside(path: &Path) -> io::Result<(File, Option<Place>)> {
    let part = part_of(path);
    let file = OpenOptions::new()
        .write(true)
        .create_new(true)
        .open(&part)?;
    // From here on the part is removed, unless it takes its place.
    let place = Place {
        part,
        named: path.to_path_buf(),
        file: file.try_clone()?,
    };
    Ok((file, Some(place)))
}

fn part_of(path: &Path) -> PathBuf {
    let mut part = OsString::from(path);
    part.push(".part");
    PathBuf::from(part)
}

//! Where bytes are written to. A file stands under its name once it is whole: until then its bytes are in one beside it.

use crate::fault::Fault;
use std::fs::{self, File, OpenOptions};
use std::io::{self, Write};
use std::path::{Path, PathBuf};

/// A file that is being written. Dropped before it is finished, it is gone.
struct Beside {
    file: File,
    /// Where its bytes are, and the name that they get.
    part: PathBuf,
    name: PathBuf,
}

impl Beside {
    fn create(name: PathBuf) -> io::Result<Beside> {
        let mut part = name.clone().into_os_string();
        part.push(format!(".{}.part", std::process::id()));
        let part = PathBuf::from(part);
        let file = OpenOptions::new().write(true).create_new(true).open(&part)?;
        Ok(Beside { file, part, name })
    }

    /// In place of a file that is there, and with its mode.
    fn replace(name: &Path, old: &fs::Metadata) -> io::Result<Beside> {
        // Where the name is a link, the file that it leads to is replaced.
        let beside = Beside::create(fs::canonicalize(name)?)?;
        beside.file.set_permissions(old.permissions())?;
        Ok(beside)
    }

    fn finish(mut self) -> io::Result<()> {
        fs::rename(&self.part, &self.name)?;
        // Nothing is left to remove.
        self.part.clear();
        Ok(())
    }
}

impl Drop for Beside {
    fn drop(&mut self) {
        if !self.part.as_os_str().is_empty() {
            let _ = fs::remove_file(&self.part);
        }
    }
}

enum Target {
    Output,
    Error,
    /// A pipe, a device: it is written to as it is.
    Open(File),
    File(Beside),
}

pub struct Sink {
    target: Target,
    /// For the line of a fault.
    name: String,
}

impl Sink {
    pub fn output() -> Sink {
        Sink { target: Target::Output, name: "standard output".to_string() }
    }

    pub fn error() -> Sink {
        Sink { target: Target::Error, name: "standard error".to_string() }
    }

    pub fn file(path: &Path) -> Result<Sink, Fault> {
        let name = path.display().to_string();
        match Sink::opened(path) {
            Ok(target) => Ok(Sink { target, name }),
            Err(error) => Err(Fault::io(name, &error)),
        }
    }

    fn opened(path: &Path) -> io::Result<Target> {
        match fs::metadata(path) {
            Ok(old) if old.is_file() => Beside::replace(path, &old).map(Target::File),
            Ok(_) => OpenOptions::new().write(true).open(path).map(Target::Open),
            // It is not there, or what stands against it is told by the attempt to make it.
            Err(_) => Beside::create(path.to_path_buf()).map(Target::File),
        }
    }

    /// Writes these bytes, and hands them on at once.
    pub fn put(&mut self, parts: &[&[u8]]) -> Result<(), Fault> {
        let written = match &mut self.target {
            Target::Output => all(&mut io::stdout().lock(), parts),
            Target::Error => all(&mut io::stderr().lock(), parts),
            Target::Open(file) => all(file, parts),
            Target::File(beside) => all(&mut beside.file, parts),
        };
        written.map_err(|error| Fault::io(&self.name, &error))
    }

    /// All is written: a file gets its name.
    pub fn finish(self) -> Result<(), Fault> {
        match self.target {
            Target::File(beside) => beside.finish().map_err(|error| Fault::io(&self.name, &error)),
            Target::Output | Target::Error | Target::Open(_) => Ok(()),
        }
    }
}

fn all(to: &mut impl Write, parts: &[&[u8]]) -> io::Result<()> {
    for part in parts {
        to.write_all(part)?;
    }
    to.flush()
}

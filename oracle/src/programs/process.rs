//! The programs under comparison, as a process of its own for each input, in a folder that holds the input's files.

use std::fs;
use std::io::{self, Write};
use std::path::{Path, PathBuf};
use std::process::{Command, Output, Stdio};
use std::thread;

/// Where `./build` leaves the programs, and where the folders are, from the repository's root.
const PROGRAMS: &str = "target/bin";
const FOLDERS: &str = "target/oracle/programs";

/// What a program writes to standard output and to standard error.
#[derive(PartialEq)]
pub struct Said {
    pub output: Vec<u8>,
    pub error: Vec<u8>,
}

impl Said {
    pub fn output(output: impl Into<Vec<u8>>) -> Self {
        Said {
            output: output.into(),
            error: Vec::new(),
        }
    }

    /// One line on standard error, and no output.
    pub fn error(line: &str) -> Self {
        Said {
            output: Vec::new(),
            error: format!("{line}\n").into_bytes(),
        }
    }

    /// What is refused, behind the argument that gave it.
    pub fn refusal(argument: &str, why: &str) -> Self {
        Said::error(&format!("{argument}: {why}"))
    }

    pub fn both(&self) -> (&[u8], &[u8]) {
        (&self.output, &self.error)
    }
}

/// The bytes that an argument gives, or what the system says where there are none.
pub type Bytes = Result<Vec<u8>, &'static str>;

pub const MISSING: Bytes = Err("No such file or directory");
pub const FOLDER: Bytes = Err("Is a directory");

/// The name of what comes through a pipe.
pub const PIPE: &str = "/dev/stdin";

pub struct Folder {
    path: PathBuf,
    programs: PathBuf,
}

impl Folder {
    /// An empty one.
    pub fn new(number: usize) -> io::Result<Self> {
        let path = Path::new(FOLDERS).join(number.to_string());
        if path.exists() {
            fs::remove_dir_all(&path)?;
        }
        fs::create_dir_all(&path)?;
        Ok(Folder {
            path,
            programs: fs::canonicalize(PROGRAMS)?,
        })
    }

    /// What the program writes, given these arguments, with these files in its folder. Where one is `PIPE`, its bytes come
    /// through a pipe.
    pub fn run(
        &self,
        program: &str,
        arguments: &[&str],
        files: &[(&str, &[u8])],
    ) -> io::Result<Said> {
        let stored = || files.iter().filter(|(name, _)| *name != PIPE);
        for (name, bytes) in stored() {
            fs::write(self.path.join(name), bytes)?;
        }
        let mut command = Command::new(self.programs.join(program));
        command.args(arguments).current_dir(&self.path);
        let ended = match files.iter().find(|(name, _)| *name == PIPE) {
            None => command.stdin(Stdio::null()).output()?,
            Some((_, bytes)) => piped(&mut command, bytes)?,
        };
        for (name, _) in stored() {
            match fs::remove_file(self.path.join(name)) {
                // A file may be named twice.
                Err(error) if error.kind() != io::ErrorKind::NotFound => return Err(error),
                _ => {}
            }
        }
        if !ended.status.success() {
            let what = format!("{program} {arguments:?} ended with {}", ended.status);
            return Err(io::Error::other(what));
        }
        Ok(Said {
            output: ended.stdout,
            error: ended.stderr,
        })
    }
}

/// Runs the command with these bytes on its standard input.
fn piped(command: &mut Command, bytes: &[u8]) -> io::Result<Output> {
    let mut child = command
        .stdin(Stdio::piped())
        .stdout(Stdio::piped())
        .stderr(Stdio::piped())
        .spawn()?;
    let mut stdin = child.stdin.take().expect("the input is a pipe");
    thread::scope(|scope| {
        // It may end before it has read all.
        scope.spawn(move || stdin.write_all(bytes));
        child.wait_with_output()
    })
}

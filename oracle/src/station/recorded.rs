//! Inputs with recorded answers, from a file: a title, the input's bytes after `<`, and the lines that
//! are to be printed.

use std::fs;

/// From the repository's root.
const FILE: &str = "oracle/recorded.txt";

pub struct Recorded {
    pub title: String,
    pub input: Vec<u8>,
    pub output: Vec<u8>,
}

pub fn all() -> Result<Vec<Recorded>, String> {
    let text = fs::read_to_string(FILE).map_err(|error| format!("{FILE}: {error}"))?;
    let mut all: Vec<Recorded> = Vec::new();
    for (number, line) in text.lines().enumerate() {
        let fail = |what: &str| format!("{FILE}, line {}: {what}", number + 1);
        if let Some(title) = line.strip_prefix("# ") {
            all.push(Recorded {
                title: title.to_string(),
                input: Vec::new(),
                output: Vec::new(),
            });
            continue;
        }
        if line.is_empty() {
            continue;
        }
        let last = all.last_mut().ok_or_else(|| fail("no title before it"))?;
        match line.strip_prefix('<') {
            Some(bytes) => {
                for byte in bytes.split_whitespace() {
                    let byte = u8::from_str_radix(byte, 16).map_err(|_| fail("no byte"))?;
                    last.input.push(byte);
                }
            }
            None => last.output.extend(format!("{line}\n").bytes()),
        }
    }
    Ok(all)
}

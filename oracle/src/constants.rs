//! The comparison of the decimal constants: those that the original's passes write, as Rust reads
//! them, and those of crates/num/specs/Const.antt.

use std::collections::{BTreeMap, HashMap};
use std::fs;
use std::io;
use std::path::{Path, PathBuf};

use crate::tally::{Tally, Total};

/// From the repository's root.
const OURS: &str = "crates/num/specs/Const.antt";

/// Compares both ways: each literal has a constant with the bits that Rust gives it, and each
/// constant has the bits that Rust gives its name.
pub fn run(original: &Path, total: &mut Total) -> Result<(), String> {
    println!("Decimal constants");
    let ours = read(Path::new(OURS))?;

    let mut constants = Tally::<0>::new("constants of Const.antt", &[]);
    let mut bits_of = HashMap::new();
    for (line, definition) in definitions(&ours) {
        let Some((decimal, bits)) = taken_apart(definition) else {
            constants.count(false, || format!("{OURS}:{line}, which cannot be read"));
            continue;
        };
        let rust = rust_bits(&decimal);
        constants.count(rust == Some(bits), || {
            format!(
                "{OURS}:{line}, {decimal}: here {bits:#010x}, Rust {}",
                hex(rust)
            )
        });
        bits_of.insert(shortest(&decimal), bits);
    }

    let mut literals = Tally::<0>::new("literals of the original", &[]);
    for (literal, place) in literals_of(original)? {
        let rust = rust_bits(&literal);
        let here = bits_of.get(&shortest(&literal)).copied();
        literals.count(rust.is_some() && here == rust, || {
            format!("{place}, {literal}: here {}, Rust {}", hex(here), hex(rust))
        });
    }

    total.add(&constants);
    total.add(&literals);
    Ok(())
}

fn read(path: &Path) -> Result<String, String> {
    fs::read_to_string(path).map_err(|error| format!("{}: {error}", path.display()))
}

fn rust_bits(decimal: &str) -> Option<u32> {
    decimal.parse::<f32>().ok().map(f32::to_bits)
}

fn hex(bits: Option<u32>) -> String {
    bits.map_or("none".to_string(), |bits| format!("{bits:#010x}"))
}

/// A decimal without the zeros that do not change it, so that 0.3 and 0.30 are one key. Two
/// decimals with the same bits stay two.
fn shortest(decimal: &str) -> String {
    let (whole, fraction) = decimal.split_once('.').unwrap_or((decimal, ""));
    let whole = whole.trim_start_matches('0');
    let fraction = fraction.trim_end_matches('0');
    format!("{whole}.{fraction}")
}

// ---- our file

/// The lines that define a constant, with their numbers. Such a line begins with c and a digit.
fn definitions(text: &str) -> impl Iterator<Item = (usize, &str)> {
    let lines = (1..).zip(text.lines());
    lines.filter(|(_, line)| {
        let digits = line.strip_prefix('c');
        digits.is_some_and(|rest| rest.starts_with(|c: char| c.is_ascii_digit()))
    })
}

/// The decimal and the bits of a line such as `c0_299 = of_bits binary32 0x3e991687`.
fn taken_apart(definition: &str) -> Option<(String, u32)> {
    let words: Vec<&str> = definition.split_whitespace().collect();
    let [name, "=", "of_bits", "binary32", bits] = words[..] else {
        return None;
    };
    // A name cannot have a point in it: an underscore stands for that.
    let decimal = name.strip_prefix('c')?.replace('_', ".");
    let digits = bits.strip_prefix("0x")?.replace('_', "");
    Some((decimal, u32::from_str_radix(&digits, 16).ok()?))
}

// ---- the original

/// The decimal literals of the original's passes, each with the place where it first stands.
fn literals_of(original: &Path) -> Result<BTreeMap<String, String>, String> {
    let folder = original.join("src/postprocess");
    let files = rust_files(&folder).map_err(|error| format!("{}: {error}", folder.display()))?;
    let mut found = BTreeMap::new();
    for file in files {
        let text = read(&file)?;
        let name = file.file_name().unwrap_or_default().to_string_lossy();
        for (line, literal) in literals(&code(&text)) {
            found
                .entry(literal)
                .or_insert_with(|| format!("{name}:{line}"));
        }
    }
    Ok(found)
}

fn rust_files(folder: &Path) -> io::Result<Vec<PathBuf>> {
    let mut files = Vec::new();
    for entry in fs::read_dir(folder)? {
        let path = entry?.path();
        if path.extension().is_some_and(|extension| extension == "rs") {
            files.push(path);
        }
    }
    files.sort();
    Ok(files)
}

/// The text up to its tests, with each comment, string and character made a space. Ends of lines
/// are kept, for the numbers of the lines.
fn code(text: &str) -> String {
    let text = text.split("#[cfg(test)]").next().unwrap_or_default();
    let mut code = String::new();
    let mut rest = text;
    while let Some(first) = rest.chars().next() {
        let len = match first {
            '/' if rest.starts_with("//") => rest.find('\n').unwrap_or(rest.len()),
            '/' if rest.starts_with("/*") => block_comment(rest),
            '"' => quoted(rest, '"'),
            // Not a lifetime: it is closed after one character, or has a backslash.
            '\'' if rest.starts_with("'\\") || rest.chars().nth(2) == Some('\'') => {
                quoted(rest, '\'')
            }
            _ => {
                code.push(first);
                rest = &rest[first.len_utf8()..];
                continue;
            }
        };
        code.push(' ');
        code.extend(rest[..len].chars().filter(|&c| c == '\n'));
        rest = &rest[len..];
    }
    code
}

/// The length of the block comment that `text` begins with, with those inside it.
fn block_comment(text: &str) -> usize {
    let mut open = 0;
    let mut at = 0;
    while at < text.len() {
        if text[at..].starts_with("/*") {
            open += 1;
            at += 2;
        } else if text[at..].starts_with("*/") {
            open -= 1;
            at += 2;
            if open == 0 {
                break;
            }
        } else {
            at += text[at..].chars().next().map_or(1, char::len_utf8);
        }
    }
    at
}

/// The length of the string or character that `text` begins with.
fn quoted(text: &str, quote: char) -> usize {
    let mut escaped = false;
    for (at, c) in text.char_indices().skip(1) {
        if escaped {
            escaped = false;
        } else if c == '\\' {
            escaped = true;
        } else if c == quote {
            return at + 1;
        }
    }
    text.len()
}

/// The literals of the form digits, point, digits, with the numbers of their lines. A suffix other
/// than f32 stays, and so does an exponent: then the literal is reported, as one with no constant.
fn literals(code: &str) -> Vec<(usize, String)> {
    let mut found = Vec::new();
    for (number, line) in (1..).zip(code.lines()) {
        let mut at = 0;
        while at < line.len() {
            let word = word(&line[at..]);
            if word.is_empty() {
                at += line[at..].chars().next().map_or(1, char::len_utf8);
                continue;
            }
            // After a single point a number is a field, as in `pair.0.1`.
            let before = &line[..at];
            let field = before.ends_with('.') && !before.ends_with("..");
            at += word.len();
            let fraction = line[at..].strip_prefix('.').map_or("", self::word);
            if starts_with_digit(word) && starts_with_digit(fraction) && !field {
                at += 1 + fraction.len();
                let fraction = fraction.strip_suffix("f32").unwrap_or(fraction);
                found.push((number, format!("{word}.{fraction}").replace('_', "")));
            }
        }
    }
    found
}

/// The letters, digits and underscores that `text` begins with.
fn word(text: &str) -> &str {
    let end = text.find(|c: char| !c.is_ascii_alphanumeric() && c != '_');
    &text[..end.unwrap_or(text.len())]
}

fn starts_with_digit(word: &str) -> bool {
    word.starts_with(|c: char| c.is_ascii_digit())
}

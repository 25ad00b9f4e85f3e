//! What the tests share: the repository's examples, random numbers, and the library's table of methods.

#![allow(dead_code)]

pub mod lines;
pub mod nodes;
pub mod random;
pub mod table;

use std::fs;
use std::path::PathBuf;

/// An example that the program is run on.
pub struct Example {
    pub name: String,
    pub command: String,
    pub status: u8,
    /// The words after the command.
    pub words: Vec<String>,
    pub input: Vec<u8>,
    pub wanted: Vec<u8>,
}

impl Example {
    /// Whether its input and output are bytes in hex.
    pub fn is_hex(&self) -> bool {
        matches!(self.command.as_str(), "hex" | "tidy")
    }

    /// The bytes of its input, where it is no text.
    pub fn bytes(&self) -> Vec<u8> {
        if self.is_hex() {
            from_hex(std::str::from_utf8(&self.input).unwrap())
        } else {
            self.input.clone()
        }
    }
}

pub fn folder() -> PathBuf {
    PathBuf::from(env!("CARGO_MANIFEST_DIR")).join("../../examples")
}

pub fn example(name: &str) -> Vec<u8> {
    let path = folder().join(name);
    fs::read(&path)
        .unwrap_or_else(|error| panic!("these tests want the examples of the repository, in a clone of it: {}: {error}", path.display()))
}

/// Those of some commands.
pub fn examples(commands: &[&str]) -> Vec<Example> {
    let statuses = String::from_utf8(example("statuses")).unwrap();
    let mut found = Vec::new();
    for line in statuses.lines() {
        let mut words = line.split(' ').map(str::to_owned);
        let (name, command) = (words.next().unwrap(), words.next().unwrap());
        if commands.contains(&command.as_str()) {
            let status = words.next().unwrap().parse().unwrap();
            let (input, wanted) = (example(&format!("{name}.{command}")), example(&format!("{name}.out")));
            found.push(Example { name, command, status, words: words.collect(), input, wanted });
        }
    }
    found
}

/// The commands whose input is bytes, or bytes in hex.
pub const OF_BYTES: &[&str] = &["hex", "tidy", "raw", "lent", "dump", "select", "filter", "recut"];

pub fn from_hex(text: &str) -> Vec<u8> {
    let text = text.trim_end();
    (0..text.len() / 2).map(|k| u8::from_str_radix(&text[2 * k..2 * k + 2], 16).unwrap()).collect()
}

pub fn to_hex(bytes: &[u8]) -> String {
    bytes.iter().map(|byte| format!("{byte:02x}")).collect()
}

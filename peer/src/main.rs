//! The peer as a command. Case files come from standard input, answers go to standard output.

use std::io::{Read, Write};
use std::process::ExitCode;

use peer::cases::{replay, replay_checks};
use peer::named;

const USAGE: &str = "peer: an independent witness for the settings codec

  peer checks            answers a file of tables
  peer messages          answers a case file (also: lists, edits, replay); docs/FORMATS.md describes it
  peer make lists        writes the stored cases for value lists
  peer make edits        writes the stored cases for edits and settings
  peer make replay SEED  writes generated cases of every operation
";

fn main() -> ExitCode {
    let words: Vec<String> = std::env::args().skip(1).collect();
    let words: Vec<&str> = words.iter().map(String::as_str).collect();
    let answer = match words[..] {
        ["checks"] => replay_checks(&standard_input()),
        ["messages" | "lists" | "edits" | "replay"] => replay(&standard_input()),
        ["make", "lists"] => named::lists(),
        ["make", "edits"] => named::edits(),
        ["make", "replay", seed] => match seed.parse() {
            Ok(seed) => named::generated(seed),
            Err(_) => return usage(),
        },
        _ => return usage(),
    };
    match std::io::stdout().write_all(answer.as_bytes()) {
        Ok(()) => ExitCode::SUCCESS,
        Err(_) => ExitCode::FAILURE,
    }
}

fn usage() -> ExitCode {
    eprint!("{USAGE}");
    ExitCode::from(2)
}

fn standard_input() -> String {
    let mut text = String::new();
    std::io::stdin().read_to_string(&mut text).expect("a case file is plain text");
    text
}

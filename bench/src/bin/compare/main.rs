//! Compares the proved library with the rules in ordinary Rust: answers, then speed.

mod answers;
mod proved;
mod speed;

use std::process::ExitCode;

const USAGE: &str = "usage: compare answers COUNT SEED
       compare speed ROUNDS [CALL [POINTS [KIND]]]
       compare once [CALL [POINTS [KIND]]]";

/// Does what the words ask for, if they ask for something; false where answers differ.
fn compare(words: &[&str]) -> Option<bool> {
    match words {
        ["answers", count, seed] => Some(answers::compare(count.parse().ok()?, seed.parse().ok()?)),
        ["speed", rounds, picked @ ..] => {
            speed::compare(
                rounds
                    .parse()
                    .ok()
                    .filter(|&rounds| rounds != speed::ONCE)?,
                picked,
            );
            Some(true)
        }
        ["once", picked @ ..] => {
            speed::compare(speed::ONCE, picked);
            Some(true)
        }
        _ => None,
    }
}

fn main() -> ExitCode {
    let words: Vec<String> = std::env::args().skip(1).collect();
    let words: Vec<&str> = words.iter().map(String::as_str).collect();
    match compare(&words) {
        Some(true) => ExitCode::SUCCESS,
        Some(false) => ExitCode::FAILURE,
        None => {
            eprintln!("{USAGE}");
            ExitCode::from(2)
        }
    }
}

//! The second program: document 01's runtime once more, to compare listings with.

mod bench;
mod bench_cases;
mod draft;
mod edges;
mod listing;
mod make;
mod run;
mod table;
#[cfg(test)]
mod tests;

use std::io::{self, Read, Write};
use std::process::ExitCode;

const USAGE: &str =
    "use: second listing | listings | make SEED COUNT | edges | count | tables | tables-of | bench | bench-cases";

fn main() -> ExitCode {
    let words: Vec<String> = std::env::args().skip(1).collect();
    let words: Vec<&str> = words.iter().map(String::as_str).collect();
    let done = command(&words).and_then(|out| io::stdout().write_all(&out).map_err(|e| e.to_string()));
    match done {
        Ok(()) => ExitCode::SUCCESS,
        Err(message) => {
            eprintln!("second: {message}");
            ExitCode::FAILURE
        }
    }
}

/// What a command writes to standard output, or its message of failure.
fn command(words: &[&str]) -> Result<Vec<u8>, String> {
    match words {
        ["listing"] => {
            // One byte more than any good input has is enough to know 13.
            let input = read(listing::LONGEST_INPUT as u64 + 1)?;
            Ok(listing::listing(&input).into_bytes())
        }
        ["listings"] => each_input(listing::listing),
        ["tables"] => each_input(listing::table_line),
        ["tables-of"] => {
            let file = read(u64::MAX)?;
            let framed = listing::split(&file)?.into_iter().filter_map(listing::frame);
            Ok(listing::join(&framed.map(|framed| framed.table).collect::<Vec<_>>()))
        }
        ["bench"] => each_input(bench::text),
        ["bench-cases"] => {
            let cases: Vec<Vec<u8>> = bench_cases::cases().0.into_iter().map(|(_, case)| case).collect();
            Ok(listing::join(&cases))
        }
        ["make", seed, count] => {
            let number = |word: &str| word.parse::<u64>().map_err(|_| format!("not a number: {word}"));
            Ok(listing::join(&make::make(number(seed)?, number(count)?)))
        }
        ["edges"] => {
            let inputs: Vec<Vec<u8>> = edges::edges().0.into_iter().map(|(_, input)| input).collect();
            Ok(listing::join(&inputs))
        }
        ["count"] => {
            let file = read(u64::MAX)?;
            let inputs = listing::split(&file)?;
            let counts = listing::counts(&inputs);
            let mut text = format!("end {}\n", counts[0]);
            for (number, count) in counts.iter().enumerate().skip(1) {
                text += &format!("{number} {count}\n");
            }
            text += &format!("all {}\n", inputs.len());
            Ok(text.into_bytes())
        }
        _ => Err(USAGE.to_string()),
    }
}

fn read(most: u64) -> Result<Vec<u8>, String> {
    let mut bytes = Vec::new();
    io::stdin().take(most).read_to_end(&mut bytes).map_err(|e| e.to_string())?;
    Ok(bytes)
}

/// Reads a file of inputs and gives one text for each, one after another.
fn each_input(text: fn(&[u8]) -> String) -> Result<Vec<u8>, String> {
    let file = read(u64::MAX)?;
    let texts: Vec<String> = listing::split(&file)?.into_iter().map(text).collect();
    Ok(texts.concat().into_bytes())
}

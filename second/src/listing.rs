//! The pole's listing program: the framing of one input, its listing, and files of many inputs.

use crate::run::{run, Answer, Word};
use crate::table::{read_table, Refusal};
use std::fmt::Write;

pub const LONGEST_TABLE: usize = 8191;
pub const MOST_ARRIVALS: usize = 2048;
pub const MOST_WORDS: usize = 2048;
/// No good input is longer than this.
pub const LONGEST_INPUT: usize = 2 + LONGEST_TABLE + 3 + 8 * MOST_ARRIVALS;

/// One well framed input.
pub struct Framed<'a> {
    pub table: &'a [u8],
    pub horizon: u64,
    pub arrivals: Vec<u64>,
}

/// Bytes as a number, most significant first.
pub fn number(bytes: &[u8]) -> u64 {
    bytes.iter().fold(0, |value, byte| value << 8 | u64::from(*byte))
}

/// The three parts of an input, or none if it is badly framed (13).
pub fn frame(input: &[u8]) -> Option<Framed<'_>> {
    let (length, rest) = input.split_at_checked(2)?;
    let length = number(length) as usize;
    if length > LONGEST_TABLE {
        return None;
    }
    let (table, rest) = rest.split_at_checked(length)?;
    let (horizon, rest) = rest.split_at_checked(3)?;
    if rest.len() % 8 != 0 || rest.len() / 8 > MOST_ARRIVALS {
        return None;
    }
    Some(Framed { table, horizon: number(horizon), arrivals: rest.chunks(8).map(number).collect() })
}

/// The horizon, the answer and the output words of one input.
pub fn outcome(input: &[u8]) -> (u64, Answer, Vec<u64>) {
    let Some(framed) = frame(input) else {
        return (0, Answer::Refused(Refusal { number: 13, place: 0 }), Vec::new());
    };
    let mut list = vec![0; MOST_WORDS];
    let (answer, count) = run(framed.table, framed.horizon, &framed.arrivals, &mut list);
    list.truncate(count);
    (framed.horizon, answer, list)
}

pub fn listing(input: &[u8]) -> String {
    let (horizon, answer, words) = outcome(input);
    let mut text = String::new();
    for bits in words {
        let word = Word::unpack(bits);
        writeln!(text, "{} {} {}", word.time, word.channel, word.value).unwrap();
    }
    match answer {
        Answer::End => writeln!(text, "end {horizon}"),
        Answer::Stop { number, instant, channel } => writeln!(text, "stop {number} {instant} {channel}"),
        Answer::Refused(Refusal { number, place }) => writeln!(text, "refused {number} {place}"),
    }
    .unwrap();
    text
}

/// The one line of a table check.
pub fn table_line(table: &[u8]) -> String {
    match read_table(table) {
        Ok(table) => format!("taken {} {}\n", table.nodes.len(), table.channels.len()),
        Err(Refusal { number, place }) => format!("refused {number} {place}\n"),
    }
}

/// How many inputs end with each number, 0 standing for an end.
pub fn counts(inputs: &[&[u8]]) -> [usize; 14] {
    let mut counts = [0; 14];
    for input in inputs {
        counts[outcome(input).1.number() as usize] += 1;
    }
    counts
}

/// The inputs of a file, each behind its length in 4 bytes.
pub fn split(mut file: &[u8]) -> Result<Vec<&[u8]>, String> {
    let mut inputs = Vec::new();
    while !file.is_empty() {
        let (length, rest) = file.split_at_checked(4).ok_or("the file ends inside a length")?;
        let (input, rest) = rest.split_at_checked(number(length) as usize).ok_or("the file ends inside an input")?;
        inputs.push(input);
        file = rest;
    }
    Ok(inputs)
}

/// A file of inputs, as `split` takes it apart.
pub fn join<T: AsRef<[u8]>>(inputs: &[T]) -> Vec<u8> {
    let mut file = Vec::new();
    for input in inputs {
        let input = input.as_ref();
        file.extend((input.len() as u32).to_be_bytes());
        file.extend(input);
    }
    file
}

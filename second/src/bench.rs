//! The bench: runs with a lent list of any length, which is written out whole, so that what stands behind the words is
//! seen too.

use crate::listing::number;
use crate::run::{run, Answer};
use crate::table::Refusal;
use std::fmt::Write;

pub const MOST_ROOM: usize = 256;
pub const MOST_ARRIVALS: usize = 64;
/// What every entry of the lent list holds before the run.
pub const BEFORE: u64 = 7;

/// A case: room for words, horizon, table length, table, arrivals.
pub fn case(room: usize, horizon: u64, table: &[u8], arrivals: &[u64]) -> Vec<u8> {
    let mut bytes = (room as u16).to_be_bytes().to_vec();
    bytes.extend((horizon as u32).to_be_bytes());
    bytes.extend((table.len() as u16).to_be_bytes());
    bytes.extend(table);
    bytes.extend(arrivals.iter().flat_map(|bits| bits.to_be_bytes()));
    bytes
}

/// The room, the horizon, the table and the arrivals of a case, or none if it is badly framed.
fn frame(case: &[u8]) -> Option<(usize, u64, &[u8], Vec<u64>)> {
    let (room, rest) = case.split_at_checked(2)?;
    let (horizon, rest) = rest.split_at_checked(4)?;
    let (length, rest) = rest.split_at_checked(2)?;
    let (table, rest) = rest.split_at_checked(number(length) as usize)?;
    let room = number(room) as usize;
    if room > MOST_ROOM || rest.len() % 8 != 0 || rest.len() / 8 > MOST_ARRIVALS {
        return None;
    }
    Some((room, number(horizon), table, rest.chunks(8).map(number).collect()))
}

/// The line of the answer, then a line for each entry of the list.
pub fn text(case: &[u8]) -> String {
    let Some((room, horizon, table, arrivals)) = frame(case) else {
        return "badly framed\n".to_string();
    };
    let mut list = vec![BEFORE; room];
    let (answer, count) = run(table, horizon, &arrivals, &mut list);
    let line = match answer {
        Answer::End => format!("end {count}"),
        Answer::Stop { number, instant, channel } => format!("stop {number} {instant} {channel} {count}"),
        Answer::Refused(Refusal { number, place }) => format!("refused {number} {place}"),
    };
    lines(&line, &list)
}

pub fn lines(answer: &str, list: &[u64]) -> String {
    let mut text = format!("{answer}\n");
    for entry in list {
        writeln!(text, "{entry}").unwrap();
    }
    text
}

//! The run of a network from instant 0 to the horizon (refusals 9 and 10, stops 11 and 12).

use crate::table::{read_table, refuse, Refusal, Table, INPUTS, OUTSIDE};
use std::collections::VecDeque;

pub const LONGEST_HORIZON: u64 = 16_777_215;

#[derive(Clone, Copy, Debug, PartialEq, Eq)]
pub enum Answer {
    End,
    Stop { number: u32, instant: u64, channel: usize },
    Refused(Refusal),
}

impl Answer {
    /// The number of the refusal or stop, 0 for an end.
    pub fn number(&self) -> u32 {
        match self {
            Answer::End => 0,
            Answer::Stop { number, .. } => *number,
            Answer::Refused(refusal) => refusal.number,
        }
    }
}

/// An arrival or an output word, taken apart.
#[derive(Clone, Copy, Debug, PartialEq, Eq)]
pub struct Word {
    pub channel: usize,
    pub time: u64,
    pub value: i32,
}

impl Word {
    pub fn unpack(bits: u64) -> Word {
        Word { channel: (bits >> 56) as usize, time: bits >> 32 & 0xFF_FFFF, value: bits as u32 as i32 }
    }

    pub fn pack(self) -> u64 {
        (self.channel as u64) << 56 | self.time << 32 | u64::from(self.value as u32)
    }
}

/// A result on its way: when it is due, and its value unless it is absent.
#[derive(Clone, Copy)]
struct Waiting {
    due: u64,
    result: Option<i32>,
}

struct Network<'a> {
    table: &'a Table,
    /// For each node the channels that serve its ports, port 0 first.
    inputs: Vec<Vec<usize>>,
    /// For each channel what it holds, oldest first.
    held: Vec<VecDeque<i32>>,
    waiting: Vec<Option<Waiting>>,
}

/// Checks everything, runs, and writes output words to the list: the answer and the count of words.
pub fn run(bytes: &[u8], horizon: u64, arrivals: &[u64], list: &mut [u64]) -> (Answer, usize) {
    let table = match check(bytes, horizon, arrivals) {
        Ok(table) => table,
        Err(refusal) => return (Answer::Refused(refusal), 0),
    };
    let mut network = Network::new(&table);
    let mut arrivals = arrivals.iter().map(|bits| Word::unpack(*bits)).peekable();
    let mut count = 0;
    let mut instant = 0;
    while instant <= horizon {
        let words = network.write_results(instant);
        while let Some(arrival) = arrivals.next_if(|arrival| arrival.time == instant) {
            network.write(arrival.channel, arrival.value);
        }
        if let Some(channel) = network.overfull() {
            return (Answer::Stop { number: 11, instant, channel }, count);
        }
        if count + words.len() > list.len() {
            return (Answer::Stop { number: 12, instant, channel: 0 }, count);
        }
        for word in words {
            list[count] = word.pack();
            count += 1;
        }
        network.release(instant);
        instant = network.next(instant, arrivals.peek().map(|arrival| arrival.time));
    }
    (Answer::End, count)
}

fn check(bytes: &[u8], horizon: u64, arrivals: &[u64]) -> Result<Table, Refusal> {
    let table = read_table(bytes)?;
    if horizon > LONGEST_HORIZON {
        return refuse(9, 0);
    }
    let mut before = 0;
    for (index, bits) in arrivals.iter().enumerate() {
        let arrival = Word::unpack(*bits);
        let from_outside = table.channels.get(arrival.channel).is_some_and(|c| c.writer == OUTSIDE);
        if !from_outside || arrival.time < before {
            return refuse(10, index);
        }
        before = arrival.time;
    }
    Ok(table)
}

impl<'a> Network<'a> {
    fn new(table: &'a Table) -> Network<'a> {
        let serving = |reader: usize, port: usize| {
            let found = table.channels.iter().position(|c| c.reader == reader && c.port == port);
            found.expect("the ports are checked")
        };
        let ports = table.nodes.iter().map(|node| 0..INPUTS[node.kind]).enumerate();
        Network {
            table,
            inputs: ports.map(|(i, ports)| ports.map(|port| serving(i, port)).collect()).collect(),
            held: table.channels.iter().map(|c| c.tokens.iter().copied().collect()).collect(),
            waiting: vec![None; table.nodes.len()],
        }
    }

    /// A queue appends, a register keeps the last.
    fn write(&mut self, channel: usize, value: i32) {
        if self.table.channels[channel].register {
            self.held[channel].clear();
        }
        self.held[channel].push_back(value);
    }

    /// Writes the results due now; the words to the outside are given back, by channel number.
    fn write_results(&mut self, instant: u64) -> Vec<Word> {
        let mut words = Vec::new();
        for (number, channel) in self.table.channels.iter().enumerate() {
            if channel.writer == OUTSIDE {
                continue;
            }
            let due_now = self.waiting[channel.writer].filter(|waiting| waiting.due == instant);
            if let Some(value) = due_now.and_then(|waiting| waiting.result) {
                if channel.reader == OUTSIDE {
                    words.push(Word { channel: number, time: instant, value });
                } else {
                    self.write(number, value);
                }
            }
        }
        for waiting in &mut self.waiting {
            if waiting.is_some_and(|w| w.due == instant) {
                *waiting = None;
            }
        }
        words
    }

    fn overfull(&self) -> Option<usize> {
        let mut both = self.held.iter().zip(&self.table.channels);
        both.position(|(held, channel)| held.len() > channel.capacity)
    }

    /// Releases each node whose period divides the instant.
    fn release(&mut self, instant: u64) {
        for (i, node) in self.table.nodes.iter().enumerate() {
            if instant % node.period != 0 {
                continue;
            }
            // A register always holds its one token.
            if self.inputs[i].iter().any(|channel| self.held[*channel].is_empty()) {
                continue;
            }
            let mut values = [0; 3];
            for (port, channel) in self.inputs[i].iter().enumerate() {
                values[port] = if self.table.channels[*channel].register {
                    self.held[*channel][0]
                } else {
                    self.held[*channel].pop_front().expect("it holds a token")
                };
            }
            let result = result(node.kind, values, node.constant);
            self.waiting[i] = Some(Waiting { due: instant + node.deadline, result });
        }
    }

    /// The next instant at which a node is released, a result is due or an arrival stands.
    fn next(&self, instant: u64, arrival: Option<u64>) -> u64 {
        let releases = self.table.nodes.iter().map(|node| (instant / node.period + 1) * node.period);
        let dues = self.waiting.iter().flatten().map(|waiting| waiting.due);
        releases.chain(dues).chain(arrival).min().expect("there is a node")
    }
}

/// The result of a node kind, none if it is absent.
fn result(kind: usize, [a, b, c]: [i32; 3], k: i32) -> Option<i32> {
    Some(match kind {
        0 => k,
        1 => a,
        2 => a.wrapping_add(k),
        3 => a.wrapping_add(b),
        4 => a.wrapping_sub(b),
        5 => a.min(b),
        6 => a.max(b),
        7 => a.wrapping_div(k),
        8 if a != 0 => b,
        8 => c,
        9 if a != 0 => b,
        9 => return None,
        10 => a.count_ones() as i32,
        11 => a.leading_zeros() as i32,
        _ => unreachable!("the kinds are checked"),
    })
}

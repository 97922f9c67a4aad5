//! Tables and inputs being put together, good or broken: any value that fits its bits may stand in any field.

use crate::run::Word;
use crate::table::{Channel, Node, OUTSIDE};

#[derive(Clone)]
pub struct Draft {
    pub version: u32,
    pub node_count: usize,
    pub channel_count: usize,
    pub spare: u32,
    pub nodes: Vec<Node>,
    pub channels: Vec<Channel>,
}

pub fn node(kind: usize, period: u64, deadline: u64, constant: i32) -> Node {
    Node { kind, period, deadline, constant }
}

pub fn queue(writer: usize, reader: usize, port: usize, capacity: usize, tokens: &[i32]) -> Channel {
    Channel { register: false, writer, reader, port, capacity, initial: tokens.len(), tokens: tokens.to_vec() }
}

pub fn register(writer: usize, reader: usize, port: usize, token: i32) -> Channel {
    Channel { register: true, ..queue(writer, reader, port, 1, &[token]) }
}

/// A channel to the outside.
pub fn out(writer: usize) -> Channel {
    queue(writer, OUTSIDE, 0, 1, &[])
}

pub fn arrival(channel: usize, time: u64, value: i32) -> u64 {
    Word { channel, time, value }.pack()
}

fn put(bits: &mut Vec<bool>, width: usize, value: u32) {
    bits.extend((0..width).rev().map(|shift| value >> shift & 1 == 1));
}

impl Draft {
    pub fn new(nodes: Vec<Node>, channels: Vec<Channel>) -> Draft {
        Draft { version: 1, node_count: nodes.len(), channel_count: channels.len(), spare: 0, nodes, channels }
    }

    pub fn bits(&self) -> Vec<bool> {
        let mut bits = Vec::new();
        put(&mut bits, 4, self.version);
        put(&mut bits, 6, self.node_count as u32);
        put(&mut bits, 7, self.channel_count as u32);
        put(&mut bits, 7, self.spare);
        for n in &self.nodes {
            put(&mut bits, 5, n.kind as u32);
            put(&mut bits, 16, n.period as u32);
            put(&mut bits, 16, n.deadline as u32);
            put(&mut bits, 32, n.constant as u32);
        }
        for c in &self.channels {
            put(&mut bits, 1, u32::from(c.register));
            for (width, value) in [(6, c.writer), (6, c.reader), (2, c.port), (7, c.capacity), (7, c.initial)] {
                put(&mut bits, width, value as u32);
            }
            c.tokens.iter().for_each(|token| put(&mut bits, 32, *token as u32));
        }
        bits
    }

    /// The bits as bytes, with zero bits to the end of the last byte.
    pub fn bytes(&self) -> Vec<u8> {
        let byte = |bits: &[bool]| (0..8).fold(0, |byte, i| byte << 1 | u8::from(bits.get(i) == Some(&true)));
        self.bits().chunks(8).map(byte).collect()
    }

    pub fn input(&self, horizon: u64, arrivals: &[u64]) -> Vec<u8> {
        input(&self.bytes(), horizon, arrivals)
    }
}

/// An input of the listing program.
pub fn input(table: &[u8], horizon: u64, arrivals: &[u64]) -> Vec<u8> {
    let mut bytes = (table.len() as u16).to_be_bytes().to_vec();
    bytes.extend(table);
    bytes.extend(&horizon.to_be_bytes()[5..]);
    bytes.extend(arrivals.iter().flat_map(|bits| bits.to_be_bytes()));
    bytes
}

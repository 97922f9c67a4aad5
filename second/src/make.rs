//! Inputs made from a seed: good networks of all sizes and kinds, and every sort of damage.

use crate::draft::{arrival, input, node, out, queue, register, Draft};
use crate::edges::{CHANNEL_BREAKS, NODE_BREAKS};
use crate::listing::{outcome, LONGEST_TABLE, MOST_ARRIVALS};
use crate::run::{Answer, LONGEST_HORIZON};
use crate::table::{INPUTS, MOST_CAPACITY, OUTSIDE};

/// A small generator (splitmix64): the same seed gives the same numbers everywhere.
struct Seed(u64);

impl Seed {
    fn next(&mut self) -> u64 {
        self.0 = self.0.wrapping_add(0x9E37_79B9_7F4A_7C15);
        let z = (self.0 ^ self.0 >> 30).wrapping_mul(0xBF58_476D_1CE4_E5B9);
        let z = (z ^ z >> 27).wrapping_mul(0x94D0_49BB_1331_11EB);
        z ^ z >> 31
    }

    /// A number from the least to the most, both included.
    fn between(&mut self, least: usize, most: usize) -> usize {
        least + (self.next() % (most - least + 1) as u64) as usize
    }

    fn chance(&mut self, percent: usize) -> bool {
        self.between(1, 100) <= percent
    }

    fn pick<T: Copy>(&mut self, list: &[T]) -> T {
        list[self.between(0, list.len() - 1)]
    }

    fn token(&mut self) -> i32 {
        let small = self.between(0, 40) as i32 - 20;
        let any = self.next() as i32;
        let shorter = any >> self.between(0, 31);
        self.pick(&[0, 1, -1, i32::MIN, i32::MAX, small, small, small, any, shorter])
    }
}

pub fn make(seed: u64, count: u64) -> Vec<Vec<u8>> {
    let mut seed = Seed(seed);
    (0..count).map(|_| make_one(&mut seed)).collect()
}

fn make_one(seed: &mut Seed) -> Vec<u8> {
    match seed.between(1, 100) {
        1..=54 => running(seed),
        55..=57 => many_words(seed),
        58..=62 => full_queue(seed),
        63..=66 => bad_arrival(seed),
        67..=70 => bad_frame(seed),
        71..=72 => flipped(seed),
        _ => bad_table(seed),
    }
}

/// A good table.
fn network(seed: &mut Seed) -> Draft {
    let most = seed.pick(&[1, 2, 3, 4, 4, 8, 8, 8, 32]);
    let node_count = seed.between(1, most);
    let longest = seed.pick(&[2, 4, 4, 8, 8, 12, 12, 20, 50, 300, 65_535]);
    let common = seed.between(1, longest);
    let same = seed.chance(50);
    let mut nodes = Vec::new();
    let mut inputs = 0;
    for _ in 0..node_count {
        let any = seed.between(0, 11);
        let kind = if inputs + INPUTS[any] > 64 { 0 } else { any };
        inputs += INPUTS[kind];
        let period = if same { common } else { seed.between(1, longest) };
        let deadline = if seed.chance(40) { period } else { seed.between(1, period) };
        let constant = match kind {
            0 | 2 => seed.token(),
            7 => seed.pick(&[1, -1, 2, -2, 10, i32::MIN, i32::MAX]),
            _ => 0,
        };
        nodes.push(node(kind, period as u64, deadline as u64, constant));
    }
    let most = seed.pick(&[0, 1, 2, 2, 3, 3, 4, 4, 5, 5, 6, 6, 6, 6, 64]);
    let outs = seed.between(most.min(1), most).min(64 - inputs);
    let mut channels: Vec<_> = (0..outs).map(|_| out(seed.between(0, node_count - 1))).collect();
    // Every channel has a capacity of at least 1; this is what may stand above.
    let mut left = MOST_CAPACITY - inputs - outs;
    let (raised, long) = (seed.chance(4), seed.chance(3));
    for reader in 0..node_count {
        for port in 0..INPUTS[nodes[reader].kind] {
            let any = seed.between(0, node_count - 1);
            let before = (reader + node_count - 1) % node_count;
            let writer = seed.pick(&[OUTSIDE, OUTSIDE, reader, before, any, any, any]);
            // A fast writer soon overfills the queue of a slow reader.
            let fast = writer != OUTSIDE && nodes[writer].period < nodes[reader].period;
            if seed.chance(if fast { 75 } else { 35 }) {
                channels.push(register(writer, reader, port, seed.token()));
                continue;
            }
            let most = seed.pick(&[2, 4, 4, 8, 64]);
            let capacity = if raised { 64 } else { seed.between(1, most) }.min(1 + left);
            left -= capacity - 1;
            let initial = if long { capacity } else { seed.pick(&[0, 1, 1, 1, 2, 3]).min(capacity) };
            let tokens: Vec<i32> = (0..initial).map(|_| seed.token()).collect();
            channels.push(queue(writer, reader, port, capacity, &tokens));
        }
    }
    for last in (1..channels.len()).rev() {
        channels.swap(last, seed.between(0, last));
    }
    Draft::new(nodes, channels)
}

/// Arrivals on the channels written by the outside, by time; some after the horizon.
fn arrivals(seed: &mut Seed, draft: &Draft, horizon: u64) -> Vec<u64> {
    let mut list = Vec::new();
    for (number, channel) in draft.channels.iter().enumerate() {
        if channel.writer != OUTSIDE || seed.chance(10) {
            continue;
        }
        // In step with the reader's period, or at any time.
        let step = draft.nodes[channel.reader].period;
        let steady = seed.chance(75);
        let first = seed.pick(&[0, 1, step, step, step / 2 + 1]);
        for i in 0..seed.pick(&[1, 2, 4, 8, 12]) {
            let time = if steady { first + i * step } else { seed.between(0, horizon as usize + 3) as u64 };
            for _ in 0..seed.pick(&[1, 1, 1, 1, 1, 1, 1, 1, 1, 2]) {
                list.push((time.min(LONGEST_HORIZON), number, seed.token()));
            }
        }
    }
    list.sort_by_key(|(time, _, _)| *time);
    list.into_iter().map(|(time, number, value)| arrival(number, time, value)).collect()
}

fn running(seed: &mut Seed) -> Vec<u8> {
    let draft = network(seed);
    let longest = draft.nodes.iter().map(|n| n.period as usize).max().unwrap_or(1);
    let most = seed.pick(&[20, 60, 60, 300, 12 * longest, 12 * longest, 12 * longest]);
    let mut horizon = seed.between(0, most.min(240.max(4 * longest))) as u64;
    if longest > 5000 && seed.chance(15) {
        horizon = LONGEST_HORIZON;
    }
    let arrivals = arrivals(seed, &draft, horizon);
    // Often a horizon before the stop, so that most runs reach it.
    if let Answer::Stop { instant, .. } = outcome(&draft.input(horizon, &arrivals)).1 {
        if instant > 0 && seed.chance(50) {
            horizon = seed.between(instant as usize / 2, instant as usize - 1) as u64;
        }
    }
    draft.input(horizon, &arrivals)
}

/// More output words than fit, or nearly so.
fn many_words(seed: &mut Seed) -> Vec<u8> {
    let (periods, count) = if seed.chance(90) { (1, seed.between(40, 62)) } else { (40, seed.between(1, 40)) };
    let (first, second) = (seed.between(1, periods) as u64, seed.between(1, periods) as u64);
    let nodes = vec![node(0, first, first, seed.between(0, 9) as i32), node(2, second, 1, 1), node(1, 2, 1, 0)];
    let mut channels = vec![queue(1, 1, 0, 1, &[seed.between(0, 5) as i32]), register(0, 2, 0, 1)];
    channels.extend((0..count).map(|_| out(seed.pick(&[0, 0, 1, 2]))));
    channels.swap(0, seed.between(0, count));
    let draft = Draft::new(nodes, channels);
    let mut horizon = 100_000;
    if let Answer::Stop { instant, .. } = outcome(&draft.input(horizon, &[])).1 {
        horizon = instant - 1 + seed.pick(&[0, 1, 1, 1, 1, 2, 50]);
    }
    draft.input(horizon, &[])
}

/// A full queue, written and read in one instant.
fn full_queue(seed: &mut Seed) -> Vec<u8> {
    let period = seed.between(1, 9) as u64;
    let tokens: Vec<i32> = (0..seed.between(1, 5)).map(|_| seed.token()).collect();
    let nodes = vec![node(0, period, period, 3), node(1, period * seed.pick(&[1, 2, 3]), 1, 0)];
    let draft = Draft::new(nodes, vec![out(1), queue(0, 1, 0, tokens.len(), &tokens), out(0)]);
    draft.input(seed.between(0, 60) as u64, &[])
}

/// One arrival more, mostly a bad one.
fn bad_arrival(seed: &mut Seed) -> Vec<u8> {
    let draft = network(seed);
    let horizon = seed.between(0, 60) as u64;
    let mut list = arrivals(seed, &draft, horizon);
    let count = draft.channels.len();
    let any = seed.between(0, count.max(1) - 1);
    let number = seed.pick(&[count, count + 1, 255, any, any, any]);
    list.insert(seed.between(0, list.len()), arrival(number, seed.between(0, 30) as u64, 1));
    draft.input(horizon, &list)
}

fn bad_frame(seed: &mut Seed) -> Vec<u8> {
    let mut bytes = running(seed);
    match seed.between(1, 60) {
        1 => bytes.resize(bytes.len() + 8 * (MOST_ARRIVALS + 1), 0),
        2 => bytes = input(&[0x10; LONGEST_TABLE + 1], 20, &[]),
        3..=10 => bytes[0] |= seed.pick(&[0x20, 0x40, 0x80]),
        11..=20 => bytes.resize(bytes.len() + seed.between(1, 7), 0),
        _ => bytes.truncate(seed.between(0, bytes.len() - 1)),
    }
    bytes
}

/// One or two bits flipped anywhere.
fn flipped(seed: &mut Seed) -> Vec<u8> {
    let mut bytes = running(seed);
    for _ in 0..seed.between(1, 2) {
        let bit = seed.between(0, bytes.len() * 8 - 1);
        bytes[bit / 8] ^= 1 << (bit % 8);
    }
    bytes
}

/// A table with one of the refusals 1 to 8, sometimes with two damages.
fn bad_table(seed: &mut Seed) -> Vec<u8> {
    let mut draft = network(seed);
    let number = seed.between(1, 8);
    damage(seed, &mut draft, number);
    if seed.chance(15) {
        let other = seed.between(2, 8);
        damage(seed, &mut draft, other);
    }
    let mut table = draft.bytes();
    let (length, padding) = (table.len(), table.len() * 8 - draft.bits().len());
    match number {
        1 => table.truncate(seed.between(0, length - 1)),
        7 if padding == 0 || seed.chance(50) => table.resize(length + seed.between(1, 3), seed.pick(&[0, 0, 1, 255])),
        7 => table[length - 1] |= 1 << seed.between(0, padding - 1),
        _ => (),
    }
    input(&table, seed.between(0, 50) as u64, &[])
}

fn damage(seed: &mut Seed, draft: &mut Draft, number: usize) {
    if draft.channels.is_empty() {
        *draft = Draft::new(draft.nodes.clone(), vec![out(0)]);
    }
    let place = seed.between(0, draft.nodes.len() - 1);
    let channel = seed.between(0, draft.channels.len() - 1);
    match (number, seed.between(1, 3)) {
        (2, _) => draft.version = seed.pick(&[0, 2, 3, 5, 9, 15]),
        (3, 1) => draft.node_count = seed.pick(&[0, 33, 40, 63]),
        (3, 2) => draft.channel_count = seed.pick(&[65, 66, 96, 127]),
        (3, _) => draft.spare = seed.pick(&[1, 2, 4, 8, 16, 32, 64, 127]),
        (4, _) => seed.pick(&NODE_BREAKS)(&mut draft.nodes[place]),
        (5, _) => seed.pick(&CHANNEL_BREAKS)(&mut draft.channels[channel], draft.nodes.len()),
        (6, _) => {
            let capacity = seed.pick(&[24, 33, 40, 63, 64]);
            let more = 64.min(draft.channels.len() + MOST_CAPACITY / capacity + 1);
            while draft.channels.len() < more {
                draft.channels.insert(channel, queue(place, place, 0, capacity, &[]));
            }
            draft.channel_count = more;
        }
        (8, 1) if draft.channels[channel].reader != OUTSIDE => draft.channels[channel].port ^= seed.between(1, 3),
        (8, 2) => draft.nodes[place] = node(seed.pick(&[0, 1, 3, 8]), 3, 2, 0),
        (8, _) => {
            draft.channels.insert(channel, register(place, place, seed.between(0, 3), 1));
            draft.channel_count = draft.channels.len();
        }
        _ => (),
    }
}

//! A fixed set of inputs: document 01's cases, each refusal and stop at its first and last places, and the slips.

use crate::draft::{arrival, input, node, out, queue, register, Draft};
use crate::listing::LONGEST_TABLE;
use crate::run::LONGEST_HORIZON;
use crate::table::{Channel, Node, INPUTS, OUTSIDE};

/// Inputs, each with the last line of its listing; an empty line is one not said beforehand.
#[derive(Default)]
pub struct Edges(pub Vec<(String, Vec<u8>)>);

impl Edges {
    fn add(&mut self, last: &str, input: Vec<u8>) {
        self.0.push((last.to_string(), input));
    }

    /// Adds the base with one change made to it.
    fn changed(&mut self, last: &str, base: &Draft, change: impl Fn(&mut Draft)) {
        let mut draft = base.clone();
        change(&mut draft);
        self.add(last, draft.input(30, &[]));
    }
}

pub fn edges() -> Edges {
    let mut edges = Edges::default();
    let parts = [cases, kinds, bits_end, headers_and_nodes, channels, padding, ports, arrivals];
    let runs = [overfull, words_do_not_fit, framing, slips, instants];
    for part in parts.into_iter().chain(runs) {
        part(&mut edges);
    }
    edges
}

/// Ways to break a node's fields.
pub const NODE_BREAKS: [fn(&mut Node); 9] = [
    |n| n.kind = 12,
    |n| n.kind = 31,
    |n| n.period = 0,
    |n| (n.period, n.deadline) = (0, 0),
    |n| n.deadline = 0,
    |n| (n.period, n.deadline) = (10, 11),
    |n| (n.period, n.deadline) = (65_534, 65_535),
    |n| (n.kind, n.constant) = (1, i32::MIN),
    |n| (n.kind, n.constant) = (7, 0),
];

/// Ways to break a channel's fields; the number is the node count.
pub const CHANNEL_BREAKS: [fn(&mut Channel, usize); 17] = [
    |c, count| c.writer = count,
    |c, _| c.writer = 62,
    |c, count| c.reader = count,
    |c, _| c.reader = 62,
    |c, _| *c = Channel { writer: OUTSIDE, ..out(0) },
    |c, _| (c.register, c.capacity, c.initial) = (false, 0, 0),
    |c, _| (c.register, c.capacity, c.initial) = (false, 65, 0),
    |c, _| (c.register, c.capacity, c.initial) = (false, 127, 127),
    |c, _| (c.register, c.capacity, c.initial) = (false, 1, 2),
    |c, _| (c.register, c.capacity, c.initial) = (false, 64, 65),
    |c, _| (c.register, c.capacity, c.initial) = (true, 2, 1),
    |c, _| (c.register, c.capacity, c.initial) = (true, 1, 0),
    |c, _| (c.register, c.capacity, c.initial) = (true, 2, 2),
    |c, _| *c = register(0, OUTSIDE, 0, 1),
    |c, _| *c = Channel { port: 3, ..out(0) },
    |c, _| *c = Channel { capacity: 2, ..out(0) },
    |c, _| *c = Channel { initial: 1, tokens: vec![1], ..out(0) },
];

pub fn case_l() -> Draft {
    let channels = vec![queue(0, 1, 0, 4, &[]), queue(1, 0, 0, 4, &[100]), out(0), out(1)];
    Draft::new(vec![node(2, 5, 3, 1), node(2, 6, 4, 10)], channels)
}

/// The bytes of the first case marked P.
pub const P_TABLE: [u8; 16] =
    [0x10, 0x40, 0x80, 0x00, 0x00, 0x50, 0x00, 0x50, 0x00, 0x00, 0x00, 0x38, 0x0F, 0xC0, 0x20, 0x00];

/// 32 nodes and 64 channels of capacity 16; with 16 tokens in each it is the longest table.
fn wide(tokens: &[i32]) -> Draft {
    let channel = |i: usize| queue(i * 7 % 32, i / 2, i % 2, 16, tokens);
    Draft::new(vec![node(3, 9, 9, 0); 32], (0..64).map(channel).collect())
}

/// A node whose inputs are queues from the outside, one row of tokens arriving at each instant.
pub fn sweep(kind: usize, k: i32, rows: &[Vec<i32>]) -> Vec<u8> {
    let mut channels: Vec<_> = (0..INPUTS[kind]).map(|port| queue(OUTSIDE, 0, port, 1, &[])).collect();
    channels.push(out(0));
    let at = |time: usize| (0..INPUTS[kind]).map(move |port| arrival(port, time as u64, rows[time][port]));
    let arrivals: Vec<u64> = (0..rows.len()).flat_map(at).collect();
    Draft::new(vec![node(kind, 1, 1, k)], channels).input(rows.len() as u64, &arrivals)
}

/// A register from the outside, read by a node of kind 1.
pub fn register_read(deadline: u64) -> Draft {
    Draft::new(vec![node(1, 10, deadline, 0)], vec![register(OUTSIDE, 0, 0, 5), out(0)])
}

/// A queue from the outside, read by a node of kind 1.
pub fn queue_read(period: u64, capacity: usize, tokens: &[i32]) -> Draft {
    Draft::new(vec![node(1, period, period, 0)], vec![queue(OUTSIDE, 0, 0, capacity, tokens), out(0)])
}

/// A node that writes at every instant from 1, into a queue read every 10 milliseconds.
pub fn filling(capacity: usize) -> Draft {
    Draft::new(vec![node(0, 1, 1, 7), node(1, 10, 10, 0)], vec![queue(0, 1, 0, capacity, &[]), out(1)])
}

fn cases(edges: &mut Edges) {
    edges.add("end 30", case_l().input(30, &[]));
    edges.add("end 20", input(&P_TABLE, 20, &[]));
    edges.add("end 9", input(&P_TABLE, 9, &[]));
    edges.add("refused 1 93", input(&P_TABLE[..15], 20, &[]));
    edges.add("refused 7 0", input(&[&P_TABLE[..], &[0]].concat(), 20, &[]));
    edges.add("refused 1 0", input(&[], 20, &[]));
    edges.add("end 20", register_read(10).input(20, &[arrival(0, 10, 9)]));
    let three = [arrival(0, 4, 1), arrival(0, 4, 2), arrival(0, 4, 3)];
    edges.add("stop 11 4 0", queue_read(3, 2, &[]).input(20, &three));
    edges.add("end 20", queue_read(3, 2, &[]).input(20, &three[..2]));
    edges.add("stop 11 10 0", filling(9).input(100, &[]));
    edges.add("stop 11 12 0", filling(10).input(100, &[]));
    edges.changed("end 30", &case_l(), |d| d.nodes[1].deadline = 6);
    edges.changed("refused 4 1", &case_l(), |d| d.nodes[1].deadline = 7);
    edges.changed("end 30", &wide(&[1]), |_| ());
    edges.changed("refused 6 63", &wide(&[1]), |d| d.channels[63].capacity = 17);
    for bit in 0..128 {
        let mut bytes = P_TABLE;
        bytes[bit / 8] ^= 1 << (7 - bit % 8);
        edges.add("", input(&bytes, 20, &[]));
    }
}

fn kinds(edges: &mut Edges) {
    let extreme = [0, 1, -1, i32::MIN, i32::MAX, 2, -7, 7];
    let powers = (0..32).map(|shift| vec![(0x8000_0000u32 >> shift) as i32]);
    let single: Vec<_> = extreme.iter().map(|a| vec![*a]).chain(powers).collect();
    let pairs: Vec<_> = extreme.iter().flat_map(|a| extreme.map(|b| vec![*a, b])).collect();
    let triples: Vec<_> = extreme.iter().map(|a| vec![*a, i32::MIN, i32::MAX]).collect();
    let rows = [vec![vec![]; 2], single, pairs, triples];
    for kind in 0..12 {
        let constants: &[i32] = match kind {
            0 | 2 => &extreme,
            7 => &[1, -1, i32::MIN, i32::MAX, 2, -2, 7],
            _ => &[0],
        };
        let rows = &rows[INPUTS[kind]];
        constants.iter().for_each(|k| edges.add(&format!("end {}", rows.len()), sweep(kind, *k, rows)));
    }
}

fn bits_end(edges: &mut Edges) {
    let table = case_l().bytes();
    (0..table.len()).for_each(|length| edges.add("", input(&table[..length], 30, &[])));
    let longest = wide(&[-1; 16]).bytes();
    edges.add("end 30", input(&longest, 30, &[]));
    let headers = [(0, 0), (1, 0), (2, 0)];
    let nodes = [(3, 24), (11, 24), (12, 93), (278, 2163)];
    let channels = [(279, 2232), (282, 2232), (283, 2261), (4540, 36_315), (4606, 36_824)];
    for (length, place) in [&headers[..], &nodes, &channels].concat() {
        edges.add(&format!("refused 1 {place}"), input(&longest[..length], 30, &[]));
    }
    edges.add("refused 1 4059", input(&wide(&[]).bytes()[..510], 30, &[]));
}

fn headers_and_nodes(edges: &mut Edges) {
    let l = case_l();
    for version in [0, 2, 15] {
        edges.changed("refused 2 0", &l, |d| d.version = version);
        edges.changed("refused 2 0", &l, |d| (d.version, d.node_count, d.spare) = (version, 0, 1));
    }
    edges.add("refused 1 0", input(&[0xFF, 0xFF], 30, &[]));
    edges.add("refused 2 0", input(&[0xFF, 0xFF, 0xFF], 30, &[]));
    edges.add("refused 3 0", input(&[0x1F, 0xFF, 0xFF], 30, &[]));
    for (nodes, channels) in [(0, 4), (33, 4), (63, 4), (2, 65), (2, 127)] {
        edges.changed("refused 3 0", &l, |d| (d.node_count, d.channel_count) = (nodes, channels));
    }
    for spare in [1, 64, 127] {
        edges.changed("refused 3 0", &l, |d| d.spare = spare);
    }
    for place in [0, 31] {
        for change in NODE_BREAKS {
            edges.changed(&format!("refused 4 {place}"), &wide(&[]), |d| change(&mut d.nodes[place]));
        }
    }
    for kind in [1, 3, 4, 5, 6, 8, 9, 10, 11] {
        edges.changed("refused 4 1", &l, |d| d.nodes[1] = node(kind, 6, 4, 1));
    }
    edges.changed("refused 4 0", &l, |d| (d.nodes[0].kind, d.nodes[1].kind) = (12, 12));
}

fn channels(edges: &mut Edges) {
    for place in [0, 63] {
        for change in CHANNEL_BREAKS {
            edges.changed(&format!("refused 5 {place}"), &wide(&[]), |d| change(&mut d.channels[place], 32));
        }
    }
    // Sixteen capacities of 64 are 1,024; the seventeenth channel is the first that can exceed.
    let channel = |i: usize| queue(i % 8, i / 2, i % 2, 64, &[]);
    let sixteen = Draft::new(vec![node(6, 2, 1, 0); 8], (0..16).map(channel).collect());
    edges.changed("end 30", &sixteen, |_| ());
    for (last, channel) in [
        ("refused 6 16", out(0)),
        ("refused 6 16", register(0, 0, 3, 1)),
        ("refused 6 16", queue(0, 0, 0, 64, &[1; 64])),
        ("refused 5 16", queue(0, 8, 0, 1, &[])),
    ] {
        let channels = [&sixteen.channels[..], &[channel]].concat();
        edges.add(last, Draft::new(sixteen.nodes.clone(), channels).input(30, &[]));
    }
    // 6 before its tokens, which are missing here; without the excess they are due.
    for (capacity, last) in [(17, "refused 6 63"), (16, "refused 1 4088")] {
        edges.changed(last, &wide(&[]), |d| (d.channels[63].capacity, d.channels[63].initial) = (capacity, 16));
    }
    edges.changed("refused 5 63", &wide(&[]), |d| (d.channels[63].capacity, d.channels[63].writer) = (17, 62));
}

fn padding(edges: &mut Edges) {
    for count in 1..=8 {
        let draft = Draft::new(vec![node(0, 3, 2, 1); count], vec![]);
        let table = draft.bytes();
        edges.add("end 5", input(&table, 5, &[]));
        for bit in draft.bits().len()..table.len() * 8 {
            let mut bytes = table.clone();
            bytes[bit / 8] |= 1 << (7 - bit % 8);
            edges.add("refused 7 0", input(&bytes, 5, &[]));
        }
        for byte in [0, 1, 128] {
            edges.add("refused 7 0", input(&[&table[..], &[byte]].concat(), 5, &[]));
        }
    }
    // 7 before 8.
    let mut unserved = case_l();
    unserved.channels[1].port = 1;
    edges.add("refused 8 0", unserved.input(30, &[]));
    edges.add("refused 7 0", input(&[&unserved.bytes()[..], &[0]].concat(), 30, &[]));
}

fn ports(edges: &mut Edges) {
    let channel = |i: usize| queue((i + 31) % 32, i, 0, 2, &[]);
    let ring = Draft::new(vec![node(1, 4, 4, 0); 32], (0..32).map(channel).collect());
    edges.changed("end 30", &ring, |_| ());
    for place in [0, 31] {
        let last = &format!("refused 8 {place}");
        let mut channels = ring.channels.clone();
        channels.remove(place);
        edges.add(last, Draft::new(ring.nodes.clone(), channels).input(30, &[]));
        for port in 0..4 {
            let channels = [&ring.channels[..], &[register(5, place, port, 1)]].concat();
            edges.add(last, Draft::new(ring.nodes.clone(), channels).input(30, &[]));
        }
        for port in 1..4 {
            edges.changed(last, &ring, |d| d.channels[place].port = port);
        }
        edges.changed(last, &ring, |d| d.nodes[place].kind = 0);
        edges.changed(last, &ring, |d| d.nodes[place].kind = 3);
        edges.changed(last, &ring, |d| (d.nodes[place].kind, d.nodes[31].kind) = (8, 9));
    }
}

fn arrivals(edges: &mut Edges) {
    let channels = vec![register(0, 0, 1, 0), queue(OUTSIDE, 0, 0, 64, &[]), out(0)];
    let mut draft = Draft::new(vec![node(3, 2, 1, 0)], channels);
    let good = arrival(1, 50, 1);
    let bad = [3, 255, 0, 2, 64].map(|channel| arrival(channel, 50, 1));
    for bits in bad {
        edges.add("refused 10 0", draft.input(10, &[bits]));
        edges.add("refused 10 1", draft.input(60, &[good, bits, bits]));
    }
    for bits in [bad[0], bad[2], arrival(1, 49, 1)] {
        let list = [&[good; 2047][..], &[bits]].concat();
        edges.add("refused 10 2047", draft.input(10, &list));
    }
    edges.add("refused 10 1", draft.input(10, &[good, arrival(1, 0, 1), bad[1]]));
    edges.add("refused 10 2", draft.input(LONGEST_HORIZON, &[good, good, arrival(1, 49, 1)]));
    edges.add("end 10", draft.input(10, &[good; 2048]));
    edges.add("stop 11 50 1", draft.input(50, &[good; 2048]));
    // A register takes any number of arrivals at one instant and keeps the last.
    let kept: Vec<u64> = (0..2048).map(|i| arrival(0, 10, i)).collect();
    edges.add("end 25", register_read(4).input(25, &kept));
    // 8 before 10.
    draft.channels[0].port = 3;
    edges.add("refused 8 0", draft.input(10, &bad));
}

fn overfull(edges: &mut Edges) {
    for place in [0, 63] {
        let mut channels = vec![out(0); 64];
        channels[place] = queue(OUTSIDE, 0, 0, 1, &[]);
        let mut draft = Draft::new(vec![node(1, 65_535, 65_535, 0)], channels);
        for instant in [0, 1, LONGEST_HORIZON] {
            let two = [arrival(place, instant, 1), arrival(place, instant, 2)];
            edges.add(&format!("stop 11 {instant} {place}"), draft.input(LONGEST_HORIZON, &two));
            edges.add(&format!("end {LONGEST_HORIZON}"), draft.input(LONGEST_HORIZON, &two[1..]));
        }
        draft.channels[place] = queue(OUTSIDE, 0, 0, 1, &[5]);
        edges.add(&format!("stop 11 0 {place}"), draft.input(3, &[arrival(place, 0, 6)]));
        edges.add("end 3", draft.input(3, &[arrival(place, 1, 6)]));
        edges.add("end 3", draft.input(3, &[arrival(place, 4, 6); 2]));
    }
    // Several overfull at once: the lowest counts.
    let channels = vec![out(0), queue(OUTSIDE, 0, 1, 1, &[]), queue(OUTSIDE, 0, 0, 1, &[])];
    let four = [2, 2, 1, 1].map(|channel| arrival(channel, 7, 1));
    edges.add("stop 11 7 1", Draft::new(vec![node(3, 2, 2, 0)], channels).input(9, &four));
    // A full queue of each capacity, written and read at one instant.
    for capacity in [1, 2, 63, 64] {
        let full = queue_read(5, capacity, &vec![3; capacity]);
        edges.add("stop 11 0 0", full.input(9, &[arrival(0, 0, 4)]));
        edges.add("stop 11 5 0", full.input(9, &[arrival(0, 1, 4), arrival(0, 5, 4)]));
        edges.add("end 9", full.input(9, &[arrival(0, 1, 4), arrival(0, 6, 4)]));
    }
    // 11 and 12 at one instant: 62 words an instant do not fit at 34.
    let mut channels = vec![out(0); 62];
    channels.push(queue(OUTSIDE, 1, 0, 1, &[]));
    let both = Draft::new(vec![node(0, 1, 1, 1), node(1, 65_535, 1, 0)], channels);
    for (instant, last) in [(33, "stop 11 33 62"), (34, "stop 11 34 62"), (35, "stop 12 34 0")] {
        edges.add(last, both.input(40, &[arrival(62, instant, 1), arrival(62, instant, 2)]));
    }
}

fn words_do_not_fit(edges: &mut Edges) {
    // How many channels to the outside, period, deadline, horizon.
    for (last, count, period, deadline, horizon) in [
        ("end 32", 64, 1, 1, 32),
        ("stop 12 33 0", 64, 1, 1, 33),
        ("stop 12 33 0", 64, 1, 1, LONGEST_HORIZON),
        ("stop 12 33 0", 63, 1, 1, 33),
        ("stop 12 94 0", 22, 1, 1, 100),
        ("end 2048", 1, 1, 1, 2048),
        ("stop 12 2049 0", 1, 1, 1, 2049),
        ("end 16777214", 1, 8191, 2047, LONGEST_HORIZON - 1),
        ("stop 12 16777215 0", 1, 8191, 2047, LONGEST_HORIZON),
    ] {
        let draft = Draft::new(vec![node(0, period, deadline, 7)], vec![out(0); count]);
        edges.add(last, draft.input(horizon, &[]));
    }
}

fn framing(edges: &mut Edges) {
    let draft = queue_read(5, 64, &[]);
    let whole = draft.input(20, &[arrival(0, 3, 1)]);
    for length in 0..whole.len() {
        let last = if length == whole.len() - 8 { "end 20" } else { "refused 13 0" };
        edges.add(last, whole[..length].to_vec());
    }
    let late = [arrival(0, 30, 1); 2049];
    let most = &late[..2048];
    edges.add("end 20", draft.input(20, most));
    edges.add("refused 13 0", draft.input(20, &late));
    edges.add("refused 13 0", [draft.input(20, most), vec![0]].concat());
    // 13 before all else, also before a bad table.
    edges.add("refused 13 0", input(&[], 20, &late));
    edges.add("refused 13 0", [input(&[], 20, &[]), vec![0]].concat());
    for (length, last) in [(LONGEST_TABLE, "refused 7 0"), (LONGEST_TABLE + 1, "refused 13 0")] {
        let mut table = P_TABLE.to_vec();
        table.resize(length, 0);
        edges.add(last, input(&table, 20, &[]));
        edges.add(last, input(&table, 20, most));
        edges.add("refused 13 0", [input(&table, 20, most), vec![0]].concat());
    }
    edges.add("refused 2 0", input(&[0; LONGEST_TABLE], 20, &[]));
    edges.add("refused 13 0", input(&[0; 65_535], 20, &[]));
    edges.add("refused 13 0", vec![0xFF, 0xFF]);
}

/// On each of these a program with the slip gives another listing.
fn slips(edges: &mut Edges) {
    // Nodes one after another: two nodes that exchange tokens, by registers and by queues.
    let pair = vec![node(1, 4, 4, 0); 2];
    let registers = vec![register(1, 0, 0, 10), register(0, 1, 0, 20), out(0), out(1)];
    edges.add("end 13", Draft::new(pair.clone(), registers).input(13, &[]));
    let queues = vec![queue(1, 0, 0, 1, &[10]), queue(0, 1, 0, 1, &[20]), out(0), out(1)];
    edges.add("end 13", Draft::new(pair, queues).input(13, &[]));
    // A chain of three, in both directions.
    for (first, last) in [(0, 2), (2, 0)] {
        let mut channels = vec![out(last), queue(first, 1, 0, 2, &[]), queue(1, last, 0, 2, &[])];
        channels.push(register(last, first, 0, 1));
        let nodes = vec![node(2, 3, 3, 1), node(2, 3, 1, 10), node(2, 3, 2, 100)];
        edges.add("end 40", Draft::new(nodes, channels).input(40, &[]));
    }
    // Taking tokens from some inputs before finding another empty.
    for (kind, late) in [(4, 0), (4, 1), (8, 0), (8, 1), (8, 2)] {
        let held = |port: usize| if port == late { &[][..] } else { &[1, 2, 0] };
        let mut channels: Vec<_> = (0..INPUTS[kind]).map(|port| queue(OUTSIDE, 0, port, 3, held(port))).collect();
        channels.push(out(0));
        let draft = Draft::new(vec![node(kind, 2, 1, 0)], channels);
        edges.add("end 20", draft.input(20, &[arrival(late, 5, 80), arrival(late, 9, 90)]));
    }
    // Writing the result at the release, or reading inputs at the deadline.
    for time in [0, 1, 5, 6, 7, 10] {
        edges.add("end 30", register_read(6).input(30, &[arrival(0, time, 9)]));
        edges.add("end 30", queue_read(6, 2, &[]).input(30, &[arrival(0, time, 9)]));
    }
    // Ordering output words by node instead of channel.
    let nodes = vec![node(0, 2, 1, 1), node(0, 2, 1, 2), node(0, 3, 2, 3)];
    edges.add("end 12", Draft::new(nodes, vec![out(2), out(1), out(0), out(1), out(2)]).input(12, &[]));
}

fn instants(edges: &mut Edges) {
    for horizon in [0, 1, 2, 3, 9, 10, 11, 27, 28, 5000] {
        edges.add(&format!("end {horizon}"), case_l().input(horizon, &[]));
    }
    // Few instants on a long way.
    let channels = vec![queue(0, 0, 0, 1, &[-3]), out(0), register(0, 1, 0, 9), out(1)];
    let slow = Draft::new(vec![node(2, 65_535, 65_535, 1), node(1, 65_534, 1, 0)], channels);
    edges.add("end 16777215", slow.input(LONGEST_HORIZON, &[]));
    // An absent result writes nothing, and its tokens are gone.
    let inputs = vec![queue(OUTSIDE, 0, 0, 4, &[0, 1, 0, -1]), queue(OUTSIDE, 0, 1, 4, &[5, 6, 7, 8])];
    edges.add("end 20", Draft::new(vec![node(9, 3, 3, 0)], [inputs, vec![out(0); 2]].concat()).input(20, &[]));
    // Several channels of one writer, one of them its memory.
    let inputs = vec![queue(0, 0, 0, 1, &[i32::MAX - 2]), queue(0, 1, 0, 2, &[]), register(0, 1, 1, 4)];
    let nodes = vec![node(2, 2, 2, 1), node(4, 2, 1, 0)];
    edges.add("end 20", Draft::new(nodes, [inputs, vec![out(0), out(1)]].concat()).input(20, &[]));
    // Arrivals at the horizon are used, later ones are not.
    let list = [arrival(0, 8, 1), arrival(0, 9, 2), arrival(0, 9, 3)];
    edges.add("end 8", queue_read(4, 1, &[]).input(8, &list));
    edges.add("stop 11 9 0", queue_read(4, 1, &[]).input(9, &list));
}

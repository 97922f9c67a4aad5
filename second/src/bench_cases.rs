//! The bench's cases: document 01's, the edges of the lent list, the horizon and the arrivals, and the slips. With each
//! stands what has to be written.

use crate::bench::{case, lines, BEFORE, MOST_ARRIVALS, MOST_ROOM};
use crate::draft::{arrival, node, out, queue, register, Draft};
use crate::edges::{case_l, filling, queue_read, register_read, P_TABLE};
use crate::run::LONGEST_HORIZON;
use crate::table::{INPUTS, OUTSIDE};

/// Cases, each behind the text that has to be written for it.
#[derive(Default)]
pub struct Cases(pub Vec<(String, Vec<u8>)>);

/// Time, channel, value.
type Said = (u64, usize, i32);

impl Cases {
    /// Adds a run: the answer's line, and the words at the front of the list.
    fn run(&mut self, room: usize, horizon: u64, table: &[u8], arrivals: &[u64], answer: &str, words: &[Said]) {
        let mut list: Vec<u64> = words.iter().map(|(time, channel, value)| arrival(*channel, *time, *value)).collect();
        list.resize(room, BEFORE);
        self.0.push((lines(answer, &list), case(room, horizon, table, arrivals)));
    }

    fn badly_framed(&mut self, case: Vec<u8>) {
        self.0.push(("badly framed\n".to_string(), case));
    }
}

pub fn cases() -> Cases {
    let mut cases = Cases::default();
    let parts = [proved, kinds, overfull, no_room, tables, horizons, arrivals, slips, instants, framing];
    parts.iter().for_each(|part| part(&mut cases));
    cases
}

const L_WORDS: [Said; 5] = [(3, 2, 101), (10, 3, 111), (13, 2, 112), (22, 3, 122), (28, 2, 123)];

fn proved(cases: &mut Cases) {
    cases.run(16, 30, &case_l().bytes(), &[], "end 5", &L_WORDS);
    cases.run(4, 20, &P_TABLE, &[], "end 2", &[(10, 0, 7), (20, 0, 7)]);
    cases.run(4, 9, &P_TABLE, &[], "end 0", &[]);
    cases.run(4, 20, &P_TABLE[..15], &[], "refused 1 93", &[]);
    cases.run(4, 20, &[&P_TABLE[..], &[0]].concat(), &[], "refused 7 0", &[]);
    cases.run(4, 20, &[], &[], "refused 1 0", &[]);
    let read = register_read(10).bytes();
    cases.run(4, 20, &read, &[arrival(0, 10, 9)], "end 2", &[(10, 1, 5), (20, 1, 9)]);
}

/// A node of each kind, every input from a constant node; its first result is a word at 2.
fn kinds(cases: &mut Cases) {
    for (kind, k, inputs, result) in [
        (0, -8, &[][..], Some(-8)),
        (1, 0, &[i32::MIN], Some(i32::MIN)),
        (2, 1, &[i32::MAX], Some(i32::MIN)),
        (2, -1, &[i32::MIN], Some(i32::MAX)),
        (3, 0, &[i32::MAX, 1], Some(i32::MIN)),
        (3, 0, &[-5, 3], Some(-2)),
        (4, 0, &[i32::MIN, 1], Some(i32::MAX)),
        (4, 0, &[3, 5], Some(-2)),
        (5, 0, &[-1, 1], Some(-1)),
        (6, 0, &[-1, 1], Some(1)),
        (7, 2, &[-7], Some(-3)),
        (7, -2, &[7], Some(-3)),
        (7, -1, &[i32::MIN], Some(i32::MIN)),
        (8, 0, &[-1, 4, 6], Some(4)),
        (8, 0, &[0, 4, 6], Some(6)),
        (9, 0, &[1, 4], Some(4)),
        (9, 0, &[0, 4], None),
        (10, 0, &[-1], Some(32)),
        (10, 0, &[0], Some(0)),
        (11, 0, &[1], Some(31)),
        (11, 0, &[-1], Some(0)),
        (11, 0, &[0], Some(32)),
    ] {
        let last = inputs.len();
        let mut nodes: Vec<_> = inputs.iter().map(|a| node(0, 1, 1, *a)).collect();
        // Inputs are there from 1; a node without inputs goes ahead at 0.
        let period = if inputs.is_empty() { 2 } else { 1 };
        nodes.push(node(kind, period, period, k));
        let mut channels: Vec<_> = (0..last).map(|port| queue(port, last, port, 2, &[])).collect();
        channels.push(out(last));
        let words: Vec<Said> = result.iter().map(|value| (2, last, *value)).collect();
        let answer = format!("end {}", words.len());
        cases.run(2, 2, &Draft::new(nodes, channels).bytes(), &[], &answer, &words);
    }
}

fn overfull(cases: &mut Cases) {
    let three = [arrival(0, 4, 1), arrival(0, 4, 2), arrival(0, 4, 3)];
    let empty = queue_read(3, 2, &[]).bytes();
    cases.run(4, 20, &empty, &three, "stop 11 4 0 0", &[]);
    cases.run(4, 20, &empty, &three[..2], "end 2", &[(9, 1, 1), (12, 1, 2)]);
    // A queue full, written and read at one instant, by an arrival and by a node.
    let full = queue_read(5, 2, &[3, 4]).bytes();
    cases.run(4, 20, &full, &[arrival(0, 0, 6)], "stop 11 0 0 0", &[]);
    cases.run(4, 20, &full, &[arrival(0, 1, 6), arrival(0, 5, 8)], "stop 11 5 0 0", &[]);
    let words = [(5, 1, 3), (10, 1, 4), (15, 1, 6), (20, 1, 8)];
    cases.run(4, 20, &full, &[arrival(0, 1, 6), arrival(0, 6, 8)], "end 4", &words);
    cases.run(4, 100, &filling(9).bytes(), &[], "stop 11 10 0 0", &[]);
    cases.run(4, 100, &filling(10).bytes(), &[], "stop 11 12 0 0", &[]);
    // Words of earlier instants stand; of two overfull queues the lowest counts; 11 before 12.
    let mut channels = vec![out(0), queue(OUTSIDE, 1, 1, 1, &[]), queue(OUTSIDE, 1, 0, 1, &[])];
    let draft = Draft::new(vec![node(0, 1, 1, 5), node(3, 9, 9, 0)], channels.clone());
    let four = [2, 2, 1, 1].map(|channel| arrival(channel, 3, 1));
    for room in [4, 3, 2] {
        cases.run(room, 9, &draft.bytes(), &four, "stop 11 3 1 2", &[(1, 0, 5), (2, 0, 5)]);
    }
    cases.run(1, 9, &draft.bytes(), &four, "stop 12 2 0 1", &[(1, 0, 5)]);
    channels[2].capacity = 2;
    let draft = Draft::new(draft.nodes, channels);
    cases.run(4, 9, &draft.bytes(), &four[..3], "stop 12 5 0 4", &[(1, 0, 5), (2, 0, 5), (3, 0, 5), (4, 0, 5)]);
}

fn no_room(cases: &mut Cases) {
    cases.run(0, 20, &P_TABLE, &[], "stop 12 10 0 0", &[]);
    cases.run(0, 10, &P_TABLE, &[], "stop 12 10 0 0", &[]);
    cases.run(0, 9, &P_TABLE, &[], "end 0", &[]);
    let l = case_l().bytes();
    cases.run(0, 30, &l, &[], "stop 12 3 0 0", &[]);
    for (room, instant) in [(1, 10), (2, 13), (3, 22), (4, 28)] {
        cases.run(room, 30, &l, &[], &format!("stop 12 {instant} 0 {room}"), &L_WORDS[..room]);
        cases.run(room, instant - 1, &l, &[], &format!("end {room}"), &L_WORDS[..room]);
    }
    cases.run(5, 30, &l, &[], "end 5", &L_WORDS);
    // Three words an instant: all or none of them.
    let table = Draft::new(vec![node(0, 10, 4, -1)], vec![out(0); 3]).bytes();
    let words = [4, 14, 24].map(|time| [0, 1, 2].map(|channel| (time, channel, -1))).concat();
    for (room, answer, count) in [(2, "stop 12 4 0 0", 0), (3, "stop 12 14 0 3", 3), (5, "stop 12 14 0 3", 3)] {
        cases.run(room, 25, &table, &[], answer, &words[..count]);
    }
    for (room, answer, count) in [(8, "stop 12 24 0 6", 6), (9, "end 9", 9), (11, "end 9", 9)] {
        cases.run(room, 25, &table, &[], answer, &words[..count]);
    }
}

fn tables(cases: &mut Cases) {
    for (node, answer) in [(node(0, 9, 9, 0), "end 0"), (node(0, 9, 10, 0), "refused 4 0")] {
        cases.run(2, 8, &Draft::new(vec![node], vec![out(0)]).bytes(), &[], answer, &[]);
    }
    let words = [(3, 2, 101), (12, 3, 111), (18, 2, 112), (24, 3, 122), (28, 2, 123)];
    for (deadline, answer, words) in [(6, "end 5", &words[..]), (7, "refused 4 1", &[])] {
        let mut draft = case_l();
        draft.nodes[1].deadline = deadline;
        cases.run(6, 30, &draft.bytes(), &[], answer, words);
    }
    // Each node adds its two tokens, and node 0 writes the sum to all of them: 16 capacities and the outside's.
    for (last, answer, words) in [(63, "end 3", &[(1, 16, 2), (2, 16, 4), (3, 16, 8)][..]), (64, "refused 6 16", &[])] {
        let channel = |i: usize| queue(0, i / 2, i % 2, if i == 15 { last } else { 64 }, &[1]);
        let channels = (0..16).map(channel).chain([out(0)]).collect();
        cases.run(4, 3, &Draft::new(vec![node(3, 1, 1, 0); 8], channels).bytes(), &[], answer, words);
    }
    let mut draft = case_l();
    draft.version = 2;
    cases.run(4, 30, &draft.bytes(), &[], "refused 2 0", &[]);
    (draft.version, draft.spare) = (1, 1);
    cases.run(4, 30, &draft.bytes(), &[], "refused 3 0", &[]);
    (draft.spare, draft.channels[3].port) = (0, 1);
    cases.run(4, 30, &draft.bytes(), &[], "refused 5 3", &[]);
    (draft.channels[3].port, draft.channels[0].port) = (0, 1);
    cases.run(4, 30, &draft.bytes(), &[], "refused 8 1", &[]);
}

fn horizons(cases: &mut Cases) {
    let sparse = Draft::new(vec![node(0, 65_535, 65_535, 7)], vec![out(0)]).bytes();
    let words: Vec<Said> = (1..=256).map(|i| (65_535 * i, 0, 7)).collect();
    cases.run(MOST_ROOM, LONGEST_HORIZON, &sparse, &[], "end 256", &words);
    cases.run(255, LONGEST_HORIZON, &sparse, &[], "stop 12 16776960 0 255", &words[..255]);
    // The last instant of all: a word, an arrival that is read no more, one too many.
    let last = [arrival(0, 16_776_960, -4), arrival(0, LONGEST_HORIZON, 1), arrival(0, LONGEST_HORIZON, 2)];
    let mut draft = queue_read(65_535, 1, &[]);
    draft.nodes[0].deadline = 255;
    let table = draft.bytes();
    cases.run(2, LONGEST_HORIZON, &table, &last[..2], "end 1", &[(LONGEST_HORIZON, 1, -4)]);
    cases.run(0, LONGEST_HORIZON, &table, &last[..2], "stop 12 16777215 0 0", &[]);
    cases.run(2, LONGEST_HORIZON, &table, &last, "stop 11 16777215 0 0", &[]);
    for horizon in [LONGEST_HORIZON + 1, u64::from(u32::MAX)] {
        cases.run(2, horizon, &table, &[], "refused 9 0", &[]);
        // 9 before 10, 8 before 9.
        cases.run(2, horizon, &table, &[arrival(1, 0, 0)], "refused 9 0", &[]);
        let unserved = Draft::new(vec![node(1, 1, 1, 0)], vec![out(0)]).bytes();
        cases.run(2, horizon, &unserved, &[], "refused 8 0", &[]);
    }
}

fn arrivals(cases: &mut Cases) {
    let channels = vec![register(0, 0, 1, 0), queue(OUTSIDE, 0, 0, 64, &[]), out(0)];
    let table = Draft::new(vec![node(3, 2, 1, 0)], channels).bytes();
    let good = [arrival(1, 50, 1); MOST_ARRIVALS];
    // No such channel, written by a node, earlier than the one before.
    let absent = [3, 64, 255].map(|channel| arrival(channel, 50, 1));
    let inside = [0, 2].map(|channel| arrival(channel, 50, 1));
    for bits in absent.into_iter().chain(inside) {
        cases.run(2, 10, &table, &[bits], "refused 10 0", &[]);
        cases.run(2, 60, &table, &[bits, good[0], bits], "refused 10 0", &[]);
        cases.run(2, 60, &table, &[good[0], bits, bits], "refused 10 1", &[]);
        cases.run(2, 10, &table, &[&good[1..], &[bits]].concat(), "refused 10 63", &[]);
    }
    let earlier = arrival(1, 49, 1);
    cases.run(2, 60, &table, &[good[0], earlier, absent[0]], "refused 10 1", &[]);
    cases.run(2, 10, &table, &[&good[1..], &[earlier]].concat(), "refused 10 63", &[]);
    // After the horizon they are checked and not used; at it they are used.
    cases.run(2, 49, &table, &good, "end 0", &[]);
    cases.run(2, 50, &table, &good, "end 0", &[]);
    cases.run(2, 51, &table, &good, "end 1", &[(51, 2, 1)]);
    // A register keeps the last of its instant.
    let kept: Vec<u64> = (0..64).map(|value| arrival(0, 10, value)).collect();
    cases.run(3, 25, &register_read(4).bytes(), &kept, "end 3", &[(4, 1, 5), (14, 1, 63), (24, 1, 63)]);
}

/// On each of these a program with the slip writes something else.
fn slips(cases: &mut Cases) {
    // Nodes one after another: two nodes that exchange tokens, by registers and by queues.
    let words = [(4, 2, 10), (4, 3, 20), (8, 2, 20), (8, 3, 10), (12, 2, 10), (12, 3, 20)];
    let registers = [register(1, 0, 0, 10), register(0, 1, 0, 20)];
    let queues = [queue(1, 0, 0, 1, &[10]), queue(0, 1, 0, 1, &[20])];
    for between in [registers, queues] {
        let channels = between.into_iter().chain([out(0), out(1)]).collect();
        cases.run(8, 13, &Draft::new(vec![node(1, 4, 4, 0); 2], channels).bytes(), &[], "end 6", &words);
    }
    // Taking tokens from some inputs before finding another empty.
    for (kind, late, results) in
        [(4, 0, [79, 88]), (4, 1, [-79, -88]), (8, 0, [1, 2]), (8, 1, [80, 90]), (8, 2, [1, 2]), (9, 1, [80, 90])]
    {
        let held = |port: usize| if port == late { &[][..] } else { &[1, 2, 0] };
        let mut channels: Vec<_> = (0..INPUTS[kind]).map(|port| queue(OUTSIDE, 0, port, 3, held(port))).collect();
        channels.push(out(0));
        let table = Draft::new(vec![node(kind, 2, 1, 0)], channels).bytes();
        let words = [(7, INPUTS[kind], results[0]), (11, INPUTS[kind], results[1])];
        cases.run(4, 20, &table, &[arrival(late, 5, 80), arrival(late, 9, 90)], "end 2", &words);
    }
    // Writing the result at the release, or reading inputs at the deadline.
    for (time, values) in [(0, [9, 9, 9]), (5, [5, 9, 9]), (6, [5, 9, 9]), (10, [5, 9, 9]), (11, [5, 5, 9])] {
        let words = [(6, 1, values[0]), (16, 1, values[1]), (26, 1, values[2])];
        cases.run(4, 30, &register_read(6).bytes(), &[arrival(0, time, 9)], "end 3", &words);
    }
    for (time, due) in [(0, 6), (1, 12), (6, 12), (7, 18)] {
        cases.run(2, 30, &queue_read(6, 2, &[]).bytes(), &[arrival(0, time, 9)], "end 1", &[(due, 1, 9)]);
    }
    // Ordering output words by node instead of channel.
    let nodes = vec![node(0, 2, 1, 1), node(0, 2, 1, 2), node(0, 3, 2, 3)];
    let table = Draft::new(nodes, vec![out(2), out(1), out(0), out(1), out(2)]).bytes();
    let both = |time| vec![(time, 1, 2), (time, 2, 1), (time, 3, 2)];
    let five = vec![(5, 0, 3), (5, 1, 2), (5, 2, 1), (5, 3, 2), (5, 4, 3)];
    let words = [both(1), vec![(2, 0, 3), (2, 4, 3)], both(3), five].concat();
    cases.run(16, 5, &table, &[], "end 13", &words);
    cases.run(12, 5, &table, &[], "stop 12 5 0 8", &words[..8]);
}

fn instants(cases: &mut Cases) {
    // Instant 0 alone; results due after the horizon are dropped.
    cases.run(1, 0, &P_TABLE, &[], "end 0", &[]);
    cases.run(5, 27, &case_l().bytes(), &[], "end 4", &L_WORDS[..4]);
    // Space freed in a queue is used again: a memory of one token, and a queue that goes round.
    let memory = Draft::new(vec![node(2, 1, 1, 1)], vec![queue(0, 0, 0, 1, &[0]), out(0)]).bytes();
    let words: Vec<Said> = (1..=100).map(|time| (time as u64, 1, time)).collect();
    cases.run(101, 100, &memory, &[], "end 100", &words);
    let round = vec![queue(0, 0, 0, 3, &[1, 2, 3]), out(0)];
    let words: Vec<Said> =
        (1..=50).map(|time| (time as u64, 1, (time - 1) % 3 + 1 + 10 * ((time - 1) / 3 + 1))).collect();
    cases.run(64, 50, &Draft::new(vec![node(2, 1, 1, 10)], round).bytes(), &[], "end 50", &words);
    // An absent result writes nothing, and its tokens are gone.
    let inputs = [queue(OUTSIDE, 0, 0, 4, &[0, 1, 0, -1]), queue(OUTSIDE, 0, 1, 4, &[5, 6, 7, 8])];
    let absent = Draft::new(vec![node(9, 3, 3, 0)], inputs.into_iter().chain([out(0), out(0)]).collect());
    cases.run(5, 20, &absent.bytes(), &[], "end 4", &[(6, 2, 6), (6, 3, 6), (12, 2, 8), (12, 3, 8)]);
}

fn framing(cases: &mut Cases) {
    let table = queue_read(5, 64, &[]).bytes();
    let late = [arrival(0, 30, 1); MOST_ARRIVALS + 1];
    let whole = case(3, 20, &table, &late[..1]);
    let cuts = [0, 1, 2, 6, 7, 8, 8 + table.len() - 1, 8 + table.len() + 1, whole.len() - 1];
    cuts.iter().for_each(|length| cases.badly_framed(whole[..*length].to_vec()));
    cases.run(3, 20, &table, &late[..1], "end 0", &[]);
    cases.run(3, 20, &table, &late[..64], "end 0", &[]);
    cases.badly_framed(case(3, 20, &table, &late));
    cases.badly_framed(case(MOST_ROOM + 1, 20, &table, &[]));
    cases.badly_framed(case(65_535, LONGEST_HORIZON + 1, &[], &[]));
    cases.badly_framed([case(3, 20, &[], &[]), vec![0]].concat());
}

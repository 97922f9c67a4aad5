//! Document 01's cases, the edges, and the run compared with a direct one.

use crate::bench;
use crate::bench_cases::cases;
use crate::draft::{arrival, input, node, out, queue, register, Draft};
use crate::edges::{case_l, edges, filling, queue_read, register_read, sweep, P_TABLE};
use crate::listing::{counts, frame, join, listing, outcome, split, table_line};
use crate::make::make;
use crate::run::{run, Answer, Word, LONGEST_HORIZON};
use crate::table::{read_table, Refusal, OUTSIDE};

const L: &str = "3 2 101\n10 3 111\n13 2 112\n22 3 122\n28 2 123\nend 30\n";

#[test]
fn case_l_whole() {
    assert_eq!(listing(&case_l().input(30, &[])), L);
}

#[test]
fn proved_cases() {
    let draft = Draft::new(vec![node(0, 10, 10, 7)], vec![out(0)]);
    assert_eq!(draft.bytes(), P_TABLE);
    assert_eq!(listing(&input(&P_TABLE, 20, &[])), "10 0 7\n20 0 7\nend 20\n");
    assert_eq!(listing(&input(&P_TABLE, 9, &[])), "end 9\n");
    assert_eq!(listing(&input(&P_TABLE[..15], 20, &[])), "refused 1 93\n");
    assert_eq!(listing(&input(&[&P_TABLE[..], &[0]].concat(), 20, &[])), "refused 7 0\n");
    assert_eq!(listing(&input(&[], 20, &[])), "refused 1 0\n");
    let one = |kind, k, a, result| {
        let channel = crate::table::INPUTS[kind];
        assert_eq!(listing(&sweep(kind, k, &[vec![a, 1]])), format!("1 {channel} {result}\nend 1\n"));
    };
    one(2, 1, i32::MAX, i32::MIN);
    one(3, 0, i32::MAX, i32::MIN);
    one(7, 2, -7, -3);
    one(7, -2, 7, -3);
    one(7, -1, i32::MIN, i32::MIN);
    one(10, 0, -1, 32);
    one(10, 0, 0, 0);
    one(11, 0, 1, 31);
    one(11, 0, -1, 0);
    one(11, 0, 0, 32);
    let read = register_read(10).input(20, &[arrival(0, 10, 9)]);
    assert_eq!(listing(&read), "10 1 5\n20 1 9\nend 20\n");
}

#[test]
fn other_cases() {
    let three = [arrival(0, 4, 1), arrival(0, 4, 2), arrival(0, 4, 3)];
    assert_eq!(listing(&queue_read(3, 2, &[]).input(20, &three)), "stop 11 4 0\n");
    assert_eq!(listing(&queue_read(3, 2, &[]).input(20, &three[..2])), "9 1 1\n12 1 2\nend 20\n");
    // Full at 10, written and released at 10.
    assert_eq!(listing(&filling(9).input(100, &[])), "stop 11 10 0\n");
    // No room in the output list: the first instant with a word, and the list untouched.
    assert_eq!(run(&P_TABLE, 20, &[], &mut []), (Answer::Stop { number: 12, instant: 10, channel: 0 }, 0));
    assert_eq!(run(&P_TABLE, 9, &[], &mut []), (Answer::End, 0));
    let mut list = [1, 2, 3];
    assert_eq!(run(&P_TABLE, 25, &[], &mut list), (Answer::End, 2));
    assert_eq!(list, [10 << 32 | 7, 20 << 32 | 7, 3]);
    let table = |nodes, channels| table_line(&Draft::new(nodes, channels).bytes());
    assert_eq!(table(vec![node(0, 9, 9, 0)], vec![]), "taken 1 0\n");
    assert_eq!(table(vec![node(0, 9, 10, 0)], vec![]), "refused 4 0\n");
    let capacities = |last| {
        let channel = |i: usize| queue(0, i / 2, i % 2, if i == 15 { last } else { 64 }, &[]);
        let channels = (0..17).map(|i| if i == 16 { out(0) } else { channel(i) });
        table(vec![node(3, 1, 1, 0); 8], channels.collect())
    };
    assert_eq!(capacities(63), "taken 8 17\n");
    assert_eq!(capacities(64), "refused 6 16\n");
}

#[test]
fn refusal_9() {
    let refused = |number, place| (Answer::Refused(Refusal { number, place }), 0);
    let read = register_read(10).bytes();
    let mut list = [5; 3];
    for horizon in [LONGEST_HORIZON + 1, u64::MAX] {
        assert_eq!(run(&read, horizon, &[], &mut list), refused(9, 0));
        // 8 before 9, 9 before 10.
        assert_eq!(run(&read, horizon, &[arrival(1, 0, 0)], &mut list), refused(9, 0));
        let unserved = Draft::new(vec![node(1, 1, 1, 0)], vec![register(0, 0, 1, 0)]).bytes();
        assert_eq!(run(&unserved, horizon, &[], &mut list), refused(8, 0));
    }
    assert_eq!(run(&read, LONGEST_HORIZON, &[arrival(1, 0, 0)], &mut list), refused(10, 0));
    assert_eq!(list, [5; 3]);
}

#[test]
fn bench_cases_as_said() {
    for (i, (said, case)) in cases().0.iter().enumerate() {
        assert_eq!(*said, bench::text(case), "case {i}");
    }
}

#[test]
fn bench_has_refusal_9() {
    let case = bench::case(2, LONGEST_HORIZON + 1, &register_read(10).bytes(), &[]);
    assert_eq!(bench::text(&case), "refused 9 0\n7\n7\n");
    let horizon = (LONGEST_HORIZON as u32 + 1).to_be_bytes();
    let stands = |(said, case): &(String, Vec<u8>)| said.starts_with("refused 9 0\n") && case[2..6] == horizon;
    assert!(cases().0.iter().any(stands));
}

#[test]
fn every_number_stands_in_the_bench() {
    let starts = |start: &str| cases().0.iter().any(|(said, _)| said.starts_with(start));
    for number in 1..=10 {
        assert!(starts(&format!("refused {number} ")), "no refusal {number}");
    }
    for start in ["end ", "stop 11 ", "stop 12 ", "badly framed\n"] {
        assert!(starts(start), "no {start}");
    }
    // The program reads so many bytes.
    let file = join(&cases().0.into_iter().map(|(_, case)| case).collect::<Vec<_>>());
    assert!(file.len() <= 65_536);
}

#[test]
fn edges_end_as_said() {
    for (i, (said, input)) in edges().0.iter().enumerate() {
        let text = listing(input);
        let last = text.lines().last().unwrap();
        assert!(said.is_empty() || said == last, "edge {i}: {said} but {last}");
    }
}

#[test]
fn every_number_stands() {
    let edges = edges().0.into_iter().map(|(_, input)| input);
    let inputs: Vec<Vec<u8>> = edges.chain(make(1, 3000)).collect();
    let inputs: Vec<&[u8]> = inputs.iter().map(|input| &input[..]).collect();
    for (number, count) in counts(&inputs).iter().enumerate() {
        assert!((number == 9) == (*count == 0), "{number} stands {count} times");
    }
}

#[test]
fn made_inputs_are_the_same_each_time() {
    assert_eq!(make(7, 200), make(7, 200));
    assert_eq!(make(7, 100), make(7, 200)[..100]);
    assert_ne!(make(7, 100), make(8, 100));
}

#[test]
fn files_of_inputs() {
    let inputs = vec![vec![], vec![1, 2, 3], vec![0; 300]];
    let file = join(&inputs);
    assert_eq!(split(&file).unwrap(), inputs);
    assert!(split(&file[..5]).unwrap_err().contains("length"));
    assert!(split(&file[..file.len() - 1]).unwrap_err().contains("input"));
}

#[test]
fn jumping_agrees_with_the_direct_run() {
    let mut compared = 0;
    let edges = edges().0.into_iter().map(|(_, input)| input);
    for input in edges.chain(make(2, 6000)) {
        let (horizon, answer, words) = outcome(&input);
        if matches!(answer, Answer::Refused(_)) || horizon > 5000 {
            continue;
        }
        assert_eq!((answer, words), direct(&input), "{input:?}");
        compared += 1;
    }
    assert!(compared > 3000, "only {compared}");
}

/// The run once more, millisecond by millisecond, for inputs that are not refused.
fn direct(input: &[u8]) -> (Answer, Vec<u64>) {
    let framed = frame(input).unwrap();
    let table = read_table(framed.table).unwrap();
    let mut held: Vec<Vec<i32>> = table.channels.iter().map(|c| c.tokens.clone()).collect();
    let mut waiting: Vec<(u64, usize, Option<i32>)> = Vec::new();
    let mut words = Vec::new();
    for instant in 0..=framed.horizon {
        let before = words.len();
        let due = waiting.iter().filter(|(due, _, _)| *due == instant);
        let results = due.filter_map(|(_, writer, result)| result.map(|value| (*writer, value)));
        for (writer, value) in results {
            for (channel, c) in table.channels.iter().enumerate().filter(|(_, c)| c.writer == writer) {
                match (c.reader == OUTSIDE, c.register) {
                    (true, _) => words.push(Word { channel, time: instant, value }.pack()),
                    (false, true) => held[channel] = vec![value],
                    (false, false) => held[channel].push(value),
                }
            }
        }
        for arrival in framed.arrivals.iter().map(|bits| Word::unpack(*bits)).filter(|a| a.time == instant) {
            if table.channels[arrival.channel].register {
                held[arrival.channel].pop();
            }
            held[arrival.channel].push(arrival.value);
        }
        for (channel, c) in table.channels.iter().enumerate() {
            if held[channel].len() > c.capacity {
                words.truncate(before);
                return (Answer::Stop { number: 11, instant, channel }, words);
            }
        }
        if words.len() > 2048 {
            words.truncate(before);
            return (Answer::Stop { number: 12, instant, channel: 0 }, words);
        }
        words[before..].sort_by_key(|bits| bits >> 56);
        waiting.retain(|(due, _, _)| *due != instant);
        for (place, n) in table.nodes.iter().enumerate().filter(|(_, n)| instant % n.period == 0) {
            let mut inputs: Vec<usize> =
                (0..table.channels.len()).filter(|c| table.channels[*c].reader == place).collect();
            inputs.sort_by_key(|c| table.channels[*c].port);
            if inputs.iter().all(|c| !held[*c].is_empty()) {
                let values: Vec<i32> = inputs.iter().map(|c| held[*c][0]).collect();
                for c in inputs.into_iter().filter(|c| !table.channels[*c].register) {
                    held[c].remove(0);
                }
                waiting.push((instant + n.deadline, place, direct_result(n.kind, &values, n.constant)));
            }
        }
    }
    (Answer::End, words)
}

/// The kinds once more, in wide numbers and bit by bit.
fn direct_result(kind: usize, values: &[i32], k: i32) -> Option<i32> {
    let at = |port: usize| i64::from(*values.get(port).unwrap_or(&0));
    let (a, b, c, k) = (at(0), at(1), at(2), i64::from(k));
    let bit = |place: u32| a >> place & 1 == 1;
    let wide = match kind {
        0 => k,
        1 => a,
        2 => a + k,
        3 => a + b,
        4 => a - b,
        5 if b < a => b,
        6 if b > a => b,
        5 | 6 => a,
        7 if (a < 0) == (k < 0) => a.abs() / k.abs(),
        7 => -(a.abs() / k.abs()),
        8 if a == 0 => c,
        9 if a == 0 => return None,
        8 | 9 => b,
        10 => (0..32).filter(|place| bit(*place)).count() as i64,
        _ => (0..32).rev().position(bit).unwrap_or(32) as i64,
    };
    Some(wide as i32)
}

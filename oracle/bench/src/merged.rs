//! The fifth table: judging merges.
//!
//! A row is a merge of two headers with as many SQ each, half of them shared, and 500 programs each: the bytes of the three texts, then for the call
//!
//!   /read      its time to that of reading the three texts, one after the other; it shall be at most 1.4 in the first row
//!   ms         its time
//!
//! and how often both ran: rounds and the best time are as in the first table.
//!
//!   20000 SQ, ..          of five fields; B has the shared ones in A's order, every second of its own, or backwards
//!   200000 short SQ, ..   with SN and LN alone: more than a block of slots takes

use std::{
    fmt::Write,
    hint::black_box,
    time::{Duration, Instant},
};

use crate::{ENOUGH, calls::timed};

/// How B has what A has.
#[derive(Clone, Copy)]
enum Order {
    /// Every second reference of B is one of A's, in A's order.
    Kept,
    /// The same, from A's last to its first.
    Backwards,
}

fn reference(t: &mut String, i: usize, long: bool) {
    write!(t, "@SQ\tSN:chrUn_{i:06}\tLN:{}", 1_000 + i % 200_000).unwrap();
    if long {
        write!(t, "\tM5:{:032x}\tAS:assembly\tUR:file:///ref/example/assembly.fa.gz", i * 7_919).unwrap();
    }
    t.push('\n');
}

fn programs(t: &mut String, from: usize, count: usize) {
    for i in from..from + count {
        write!(t, "@PG\tID:tool.{i}\tPN:tool\tVN:1.{i}\tCL:tool --lane {i} --out lane.{i}.bam in.bam").unwrap();
        if i % 5 > 0 {
            write!(t, "\tPP:tool.{}", i - 1).unwrap();
        }
        t.push('\n');
    }
}

/// A, B and the merged header, with n references and k programs in A and in B.
fn texts(n: usize, k: usize, long: bool, order: Order) -> [String; 3] {
    let mut made = [const { String::new() }; 3];
    made.iter_mut().for_each(|t| t.push_str("@HD\tVN:1.6\tSO:coordinate\n"));
    let [a, b, m] = &mut made;
    for i in 0..n {
        reference(a, i, long);
        reference(m, i, long);
    }
    for i in 0..n / 2 {
        let shared = match order {
            Order::Kept => 2 * i,
            Order::Backwards => n - 2 - 2 * i,
        };
        reference(b, shared, long);
        reference(b, n + i, long);
        reference(m, n + i, long);
    }
    programs(a, 0, k);
    programs(b, k, k);
    programs(m, 0, 2 * k);
    made
}

fn row(name: &str, texts: &[String; 3], k: usize, rounds: usize) {
    let [a, b, m] = texts.each_ref().map(|t| t.as_bytes());
    let lists = [0..k as u32, k as u32..2 * k as u32].map(|l| l.collect::<Vec<_>>());
    let mut room = vec![0; 3 * m.len() + 1];
    let (mut ours, mut read) = (Duration::MAX, Duration::MAX);
    let (mut ran, began) = (0, Instant::now());
    while ran < rounds && (ran < 3 || began.elapsed() < ENOUGH) {
        ran += 1;
        timed(&mut read, || {
            for t in [a, b, m] {
                library::read(black_box(t), &mut room).expect("accepted");
            }
        });
        let verdict = timed(&mut ours, || library::judge_merge(black_box(a), b, m, &lists[0], &lists[1]));
        assert_eq!(verdict, Ok(()), "a good merge");
    }
    println!(
        "{name:<36}{:>11}{:>9.2}{:>9.1}{ran:>9}",
        a.len() + b.len() + m.len(),
        ours.as_secs_f64() / read.as_secs_f64(),
        ours.as_secs_f64() * 1_000.0,
    );
}

pub fn table(rounds: usize) {
    println!("{:<36}{:>11}{:>9}{:>9}{:>9}", "judging a merge", "bytes", "/read", "ms", "best of");
    for (order, word) in [(Order::Kept, "in order"), (Order::Backwards, "backwards")] {
        row(&format!("20000 SQ, {word}"), &texts(20_000, 500, true, order), 500, rounds);
    }
    for (order, word) in [(Order::Kept, "in order"), (Order::Backwards, "backwards")] {
        row(&format!("200000 short SQ, {word}"), &texts(200_000, 500, false, order), 500, rounds);
    }
}

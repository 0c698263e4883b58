//! Compares the customer's Rust with our exported calls, call by call.
//! `calls short` runs a fixed seed; `calls long SEED [CALLS]` runs on until so many calls (100,000,000) are compared.

use compare::pair::{Difference, Pair, Setup, exhaust, random, scripted};
use compare::rng::Rng;
use compare::{deadlines, ring, small, tasks, waits, wakes};
use oracle::plain::WAKE_SIZES;
use std::process::exit;
use std::sync::atomic::Ordering::Relaxed;

struct Tally(Vec<(String, u64)>);

impl Tally {
    fn add(&mut self, kind: &str, calls: u64) {
        match self.0.iter_mut().find(|(k, _)| k == kind) {
            Some((_, n)) => *n += calls,
            None => self.0.push((kind.into(), calls)),
        }
    }

    fn total(&self) -> u64 {
        self.0.iter().map(|(_, n)| n).sum()
    }
}

fn or_stop<T>(result: Result<T, Difference>) -> T {
    result.unwrap_or_else(|d| {
        println!("{}", d.0);
        exit(1)
    })
}

fn or_say<T>(result: Result<T, String>) -> T {
    or_stop(result.map_err(Difference))
}

/// Random runs of one kind: every size in turn with every bias, from fresh tables and late ones.
struct Random {
    sizes: Vec<usize>,
    late: bool,
    turn: usize,
}

impl Random {
    fn new(sizes: Vec<usize>, late: bool) -> Self {
        Random { sizes, late, turn: 0 }
    }

    /// As many runs as `calls` need.
    fn runs<P: Pair>(&mut self, calls: u64, rng: &mut Rng, tally: &mut Tally) {
        let mut left = calls as i64;
        while left > 0 {
            let size = self.sizes[self.turn % self.sizes.len()];
            let bias = rng.below(P::BIASES.len());
            let late = self.late && rng.one_in(4);
            let length = rng.of(&[30, 100, 300, 1000, 3000]).min(left as usize + 10);
            let done = or_stop(random::<P>(Setup { size, late }, bias, length, rng));
            let started = if late { ", late" } else { "" };
            tally.add(&format!("{} {}{started}", P::NAME, P::BIASES[bias]), done);
            left -= done as i64;
            self.turn += 1;
        }
    }
}

fn exhausted<P: Pair>(size: usize, budget: u64, tally: &mut Tally) {
    let setup = Setup { size, late: false };
    let (calls, depth, closed) = or_stop(exhaust::<P>(setup, budget));
    let size = if size > 0 { format!(" of {size}") } else { String::new() };
    let end = if closed { "every table that its calls reach".into() } else { format!("all sequences of {depth}") };
    tally.add(&format!("{}{size}, {end}", P::NAME), calls);
}

fn main() {
    let args: Vec<String> = std::env::args().skip(1).collect();
    let number = |i: usize, otherwise| args.get(i).map_or(otherwise, |a| a.parse::<u64>().expect("a number"));
    let (seed, goal) = match args.first().map(String::as_str) {
        Some("short") => (1, 4_000_000),
        Some("long") => (number(1, 2), number(2, 100_000_000)),
        _ => {
            eprintln!("calls short | calls long SEED [CALLS]");
            exit(2)
        }
    };
    // a panic of the customer's Rust is caught and shown as a difference
    std::panic::set_hook(Box::new(|_| ()));
    let mut rng = Rng::new(seed);
    let mut tally = Tally(Vec::new());

    tally.add("lifecycle", or_say(small::lifecycle()));
    tally.add("makers", or_say(small::makers(&mut rng)));
    tally.add("ids", or_say(small::packing(&mut rng, 150_000.max(goal / 50))));

    // task tables first by all sequences, where a difference is the shortest there is
    for size in 1..=4 {
        exhausted::<tasks::Both>(size, goal / 15, &mut tally);
    }
    for size in [1, 2, 3] {
        exhausted::<ring::Both>(size, goal / 100, &mut tally);
    }
    for size in [2, 4] {
        exhausted::<wakes::Both>(size, goal / 100, &mut tally);
    }
    exhausted::<waits::Both>(0, goal / 100, &mut tally);
    exhausted::<deadlines::Both>(0, goal / 100, &mut tally);

    let mut of_tasks = Random::new((1..=64).collect(), true);
    let mut of_wakes = Random::new(WAKE_SIZES.to_vec(), true);
    let mut of_waits = Random::new(vec![0], false);
    let mut of_deadlines = Random::new(vec![0], false);
    let mut of_rings = Random::new((1..=64).collect(), false);
    let mut round = 0;
    while round < 2 || tally.total() < goal {
        of_tasks.runs::<tasks::Both>(200_000, &mut rng, &mut tally);
        of_wakes.runs::<wakes::Both>(30_000, &mut rng, &mut tally);
        of_waits.runs::<waits::Both>(30_000, &mut rng, &mut tally);
        of_deadlines.runs::<deadlines::Both>(30_000, &mut rng, &mut tally);
        of_rings.runs::<ring::Both>(30_000, &mut rng, &mut tally);
        round += 1;
    }
    let wraps: &[(usize, u8)] = if goal > 10_000_000 { &[(2, 0), (3, 0), (3, 1), (57, 0), (64, 1)] } else { &[(2, 0)] };
    for &(size, cpu) in wraps {
        let setup = Setup { size, late: false };
        tally.add("task table epoch wrap", or_stop(scripted::<tasks::Both>(setup, tasks::wrap(size, cpu))));
    }

    tally.add("end of overwrites", or_say(small::end_of_overwrites()));

    let kinds: Vec<String> = tally.0.iter().map(|(k, n)| format!("{k} {n}")).collect();
    let met: Vec<String> = tasks::MET.iter().zip(&tasks::TIMES).map(|(k, n)| format!("{k} {}", n.load(Relaxed))).collect();
    println!("no difference but D1 in {} calls (seed {seed}): {}. Met: {}", tally.total(), kinds.join("; "), met.join("; "));
}

//! Each call's time on named inputs through the C interface, the reference's
//! time in the same run, their ratio, and how the cost grows with the store.
//!
//!     bench [PART OF A NAME]
//!
//! Both sides take turns on the same buffers, and the best time of each counts:
//! what else the machine does can only make a call slower.

#[path = "../../tests/differential/src/c.rs"]
mod c;
mod calls;
mod inputs;

use calls::{ours, theirs, Answer, Call};
use inputs::{Input, INPUTS};
use std::hint::black_box;
use std::time::{Duration, Instant};

const SIZES: [usize; 3] = [4096, 16384, 65536];
/// For each input and size.
const TURNS: usize = 8000;
const LONGEST: Duration = Duration::from_millis(600);

type Side = fn(Call, &mut [u8], &[u8], &mut [u8]) -> Answer;

struct Bench {
    input: Input,
    store: Vec<u8>,
    out: Vec<u8>,
}

impl Bench {
    /// One call on the store as it is given.
    fn time(&mut self, side: Side) -> (Duration, Answer) {
        self.store.copy_from_slice(&self.input.store);
        if let Call::AddFigures | Call::SalvageStream = self.input.call {
            // Each time the first store, and an empty list.
            self.out.fill(0);
        }
        let (call, given) = (black_box(self.input.call), &self.input.given);
        let start = Instant::now();
        let answer = side(call, &mut self.store, given, &mut self.out);
        let took = start.elapsed();
        (took, black_box(answer))
    }

    /// The best time of each side, in nanoseconds.
    fn best(input: Input) -> (f64, f64) {
        let mut bench = Bench {
            store: input.store.clone(),
            out: vec![0; input.out],
            input,
        };
        // The same job: the same answer and the same bytes.
        let (_, answer) = bench.time(ours);
        let left = (bench.store.clone(), bench.out.clone());
        let (_, expected) = bench.time(theirs);
        assert_eq!(answer, expected, "the answers differ");
        assert!(
            left == (bench.store.clone(), bench.out.clone()),
            "the bytes differ"
        );
        // Nothing is refused but the runs that are there to be.
        let [refusal, _, commands, .., run] = answer;
        let bad = bench.input.bad;
        assert_eq!((refusal + commands > 0, run > 0), (bad, bad), "{answer:?}");
        let mut best = (Duration::MAX, Duration::MAX);
        let start = Instant::now();
        for turn in 0..TURNS {
            if turn > 20 && start.elapsed() > LONGEST {
                break;
            }
            best.0 = best.0.min(bench.time(ours).0);
            best.1 = best.1.min(bench.time(theirs).0);
        }
        (best.0.as_nanos() as f64, best.1.as_nanos() as f64)
    }
}

/// A sheet's time at 64 KiB over that of a call for each of its requests. The store
/// is checked once for a sheet: where that is most of the work, among few fonts, it
/// must be below a tenth.
fn sheets(measured: &[(&str, f64)]) {
    for (name, sheet) in measured {
        let Some(store) = name.strip_prefix("sheet of 64, ") else {
            continue;
        };
        let same = |(other, _): &&(&str, f64)| other.strip_prefix("64 choices, ") == Some(store);
        if let Some((_, each)) = measured.iter().find(same) {
            println!("a sheet to its 64 choices: {:.3}, {store}", sheet / each);
        }
    }
}

/// A whole stream's time, salvaged, over that of reading it (W-212), at 64 KiB.
fn salvaged(measured: &[(&str, f64)]) {
    let time = |name: &str| measured.iter().find(|(other, _)| *other == name);
    for stream in ["a stream of rising fonts", "a stream of characters"] {
        let salvaged = time(&format!("salvage, {stream}"));
        let read = time(&format!("read {stream}"));
        if let (Some((_, salvaged)), Some((_, read))) = (salvaged, read) {
            println!("salvaged to read: {:.3}, {stream}", salvaged / read);
        }
    }
}

/// The ones in a store's bytes, eight bytes at a time.
fn popcount(store: &[u8]) -> u32 {
    let (words, rest) = store.as_chunks();
    let ones = words
        .iter()
        .map(|&word| u64::from_le_bytes(word).count_ones());
    ones.sum::<u32>() + rest.iter().map(|byte| byte.count_ones()).sum::<u32>()
}

/// Beside the time of each call on figures (W-210), at 64 KiB, that of a plain count of the
/// ones in all bytes of its store.
fn limits(measured: &[(&str, f64)]) {
    for (name, make) in INPUTS
        .iter()
        .filter(|(name, _)| name.starts_with("figures, "))
    {
        let Some((_, ours)) = measured.iter().find(|(other, _)| other == name) else {
            continue;
        };
        let store = make(SIZES[2]).store;
        let time = |_| {
            let start = Instant::now();
            black_box(popcount(black_box(&store)));
            start.elapsed()
        };
        let best = (0..TURNS / 8).map(time).min().unwrap_or_default();
        let plain = best.as_nanos() as f64;
        println!(
            "{name:38} {:8.2}, popcount of the store {:6.2}, ratio {:5.2}",
            ours / 1000.0,
            plain / 1000.0,
            ours / plain
        );
    }
}

fn main() {
    let part = std::env::args().nth(1).unwrap_or_default();
    println!(
        "microseconds, the best of many turns, and the reference's at 64 KiB; ratio is ours to it;"
    );
    println!("growth is the time at 64 KiB over that at 4 KiB, where 16 is linear");
    println!(
        "{:38} {:>8} {:>8} {:>8} {:>9} {:>6} {:>7} {:>9}",
        "", "4 KiB", "16 KiB", "64 KiB", "its 64", "ratio", "growth", "its own"
    );
    let mut worst: Vec<(f64, &str)> = Vec::new();
    let mut measured: Vec<(&str, f64)> = Vec::new();
    for (name, make) in INPUTS {
        if !name.contains(&part) {
            continue;
        }
        let times = SIZES.map(|size| Bench::best(make(size)));
        let (ours, theirs) = times[2];
        let ratio = ours / theirs;
        measured.push((name, ours));
        println!(
            "{name:38} {:8.2} {:8.2} {:8.2} {:9.2} {:6.2} {:7.1} {:9.1}",
            times[0].0 / 1000.0,
            times[1].0 / 1000.0,
            ours / 1000.0,
            theirs / 1000.0,
            ratio,
            ours / times[0].0,
            theirs / times[0].1,
        );
        // Above as it is printed.
        if (100.0 * ratio).round() > 100.0 {
            worst.push((ratio, name));
        }
    }
    worst.sort_by(|a, b| b.0.total_cmp(&a.0));
    sheets(&measured);
    salvaged(&measured);
    limits(&measured);
    println!(
        "bench: {} of {} ratios above 1.00",
        worst.len(),
        measured.len()
    );
    for (ratio, name) in worst {
        println!("  {ratio:.2} {name}");
    }
}

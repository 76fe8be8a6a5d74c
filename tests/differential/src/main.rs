//! Chance histories of calls through the C interface of libmarlinfold.a, held
//! against the reference, answer by answer and byte by byte.
//!
//!     differential [SEED [COUNT]] [--from N] [--small] [--exact] [--threads N] [--trace]
//!
//! `--from` begins with history N, so that `SEED 1 --from N` runs one again;
//! `--small` leaves out large stores; `--exact` lends allocations of exactly
//! their length in place of guard bytes, for a memory checker; `--threads` runs N
//! histories at a time, each on its own store; `--trace` prints every call before
//! it is made.

mod book;
mod c;
mod calls;
mod cartridge;
mod chance;
mod collection;
mod either_order;
mod figures;
mod generate;
mod history;
mod met;
mod profile;
mod rows;
mod salvage;
mod turning;

use calls::Lending;
use met::Met;
use std::process::ExitCode;
use std::sync::atomic::{AtomicU64, Ordering};
use std::time::Duration;

const DEFAULT_SEED: u64 = 1;
/// About a minute.
const DEFAULT_COUNT: u64 = 40_000;
/// Fewer histories than these need not meet everything possible.
const ENOUGH: u64 = 10_000;
/// Nor fewer than these what W-209 to W-212 are about.
const ENOUGH_FOR_LATER: u64 = 2_000;
/// Later differences mostly repeat the first.
const DIFFERENCES_SHOWN: u64 = 5;
/// Seconds that no history takes, even under a memory checker.
const TOO_LONG: u64 = 300;

struct Arguments {
    seed: u64,
    count: u64,
    from: u64,
    small: bool,
    exact: bool,
    threads: u64,
    trace: bool,
}

fn arguments() -> Option<Arguments> {
    let mut given = Arguments {
        seed: DEFAULT_SEED,
        count: DEFAULT_COUNT,
        from: 0,
        small: false,
        exact: false,
        threads: 1,
        trace: false,
    };
    let mut numbers = 0;
    let mut words = std::env::args().skip(1);
    while let Some(word) = words.next() {
        match word.as_str() {
            "--from" => given.from = words.next()?.parse().ok()?,
            "--threads" => given.threads = words.next()?.parse().ok().filter(|&n| n > 0)?,
            "--small" => given.small = true,
            "--exact" => given.exact = true,
            "--trace" => given.trace = true,
            number => {
                let number = number.parse().ok()?;
                match numbers {
                    0 => given.seed = number,
                    1 => given.count = number,
                    _ => return None,
                }
                numbers += 1;
            }
        }
    }
    Some(given)
}

/// Histories ended, and differences found, over all threads.
static ENDED: AtomicU64 = AtomicU64::new(0);
static DIFFERENCES: AtomicU64 = AtomicU64::new(0);

/// "Every call ends": a history that takes too long is a difference too.
fn watch() {
    std::thread::spawn(|| loop {
        let before = ENDED.load(Ordering::Relaxed);
        std::thread::sleep(Duration::from_secs(TOO_LONG));
        if ENDED.load(Ordering::Relaxed) == before {
            println!("a call doesn't end, after {before} histories");
            std::process::exit(1);
        }
    });
}

/// The history begun last, for the report of a crash.
static BEGUN: AtomicU64 = AtomicU64::new(0);

extern "C" {
    fn signal(number: i32, handler: extern "C" fn(i32)) -> usize;
    fn write(file: i32, bytes: *const u8, length: usize) -> isize;
    fn _exit(status: i32) -> !;
}

/// Says which history crashed; uses only what a signal handler may.
extern "C" fn crashed(number: i32) {
    let mut line = *b"history                     : crashed, signal   \n";
    let mut put = |mut at: usize, mut value: u64| loop {
        line[at] = b'0' + (value % 10) as u8;
        value /= 10;
        if value == 0 {
            break;
        }
        at -= 1;
    };
    put(27, BEGUN.load(Ordering::Relaxed));
    put(47, number as u64);
    // SAFETY: `line` is as long as is said; the process ends here.
    unsafe {
        write(1, line.as_ptr(), line.len());
        _exit(1);
    }
}

/// A crash is a difference as well, with its history.
fn report_crashes() {
    // Illegal instruction, trap, abort, bus, arithmetic, segment.
    for number in [4, 5, 6, 7, 8, 11] {
        // SAFETY: the handler only writes a line and ends the process.
        unsafe { signal(number, crashed) };
    }
}

/// By seed and number, without large stores or with them, traced or not.
type Run = fn(u64, u64, Lending, bool, bool, &mut Met) -> history::Found<()>;

/// What is run for each number: a history, and what stands beside some of them.
const HISTORIES: [Run; 4] = [
    history::run,
    cartridge::run,
    collection::run,
    either_order::run,
];

/// Every so many histories from the first, until enough differences are found.
fn run(given: &Arguments, first: u64) -> Met {
    let lending = Lending { exact: given.exact };
    let mut met = Met::new();
    let numbers = given.from + first..given.from + given.count;
    for number in numbers.step_by(given.threads as usize) {
        if DIFFERENCES.load(Ordering::Relaxed) >= DIFFERENCES_SHOWN {
            break;
        }
        BEGUN.store(number, Ordering::Relaxed);
        if given.trace {
            eprintln!("history {number}");
        }
        let (seed, small, trace) = (given.seed, given.small, given.trace);
        let mut each = HISTORIES.iter();
        let found = each
            .try_for_each(|run| run(seed, number, lending, small, trace, &mut met))
            .and_then(|()| turning::run(seed, number, lending, trace));
        if let Err(difference) = found {
            println!("seed {} history {number}: {difference}", given.seed);
            DIFFERENCES.fetch_add(1, Ordering::Relaxed);
        }
        ENDED.fetch_add(1, Ordering::Relaxed);
    }
    met
}

fn main() -> ExitCode {
    let Some(given) = arguments() else {
        eprintln!(
            "usage: differential [SEED [COUNT]] [--from N] [--small] [--exact] [--threads N] [--trace]"
        );
        return ExitCode::from(2);
    };
    watch();
    report_crashes();
    let mut met = Met::new();
    std::thread::scope(|scope| {
        let given = &given;
        let threads: Vec<_> = (0..given.threads)
            .map(|first| scope.spawn(move || run(given, first)))
            .collect();
        for thread in threads {
            match thread.join() {
                Ok(part) => met.add(&part),
                Err(panic) => std::panic::resume_unwind(panic),
            }
        }
    });
    let of_calls = met.report();
    let of_turning = turning::report();
    println!("{} calls compared", met.calls());
    let never = match given.count {
        _ if given.small => 0,
        ENOUGH.. => of_calls.all + of_turning,
        ENOUGH_FOR_LATER.. => of_calls.later,
        _ => 0,
    };
    let mut differences = DIFFERENCES.load(Ordering::Relaxed);
    if differences == 0 && never > 0 {
        println!("{never} possible answers or situations were never met");
        differences += 1;
    }
    let histories = ENDED.load(Ordering::Relaxed);
    println!("differential: {histories} histories, {differences} differences");
    match differences {
        0 => ExitCode::SUCCESS,
        _ => ExitCode::FAILURE,
    }
}

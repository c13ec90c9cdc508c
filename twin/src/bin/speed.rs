//! Times the twin and the verified library on the same schedules, in turns, and prints the ratio.

use std::hint::black_box;
use std::process::ExitCode;
use std::time::{Duration, Instant};

use twin::generate::Author;
use twin::message::{CARD, TICK};
use twin::schedule::{Call, HEADER, LONGEST, Schedule, header};
use twin::{programs, verified};

const USAGE: &str = "usage: speed [--millis N] [CASE...]
  Times every case whose name begins with one of the words, or all, for N milliseconds a line (600).
  The two sides take turns in short rounds, so that a busy machine harms both alike. The fastest
  round of each side counts; the ratio is the verified library's time over the twin's. Beside it
  stands the median of the ratios of all rounds: where the two are far apart, time it again.";

/// How long a round is at least; short, so that some rounds are not interrupted.
const ROUND: Duration = Duration::from_millis(2);
/// Fewest rounds, however long one takes.
const ROUNDS: usize = 7;

/// A name, what it is of, and how a schedule of about so many bytes is made.
type Case = (&'static str, &'static str, fn(usize) -> Vec<u8>);

const CASES: [Case; 12] = [
    ("parse-g", "reading alone: outlooks, and a fault at the end", parse_outlooks),
    ("parse-o", "reading alone: offers, and a fault at the end", parse_offers),
    ("parse-all", "reading alone: all calls, and a fault at the end", parse_all),
    ("idle", "commits of an empty bench, which print nothing", idle),
    ("refusals", "deliveries of items that are absent", refusals),
    ("steady-1", "no rollback: a card and a tick at a time", steady_single),
    ("steady-30", "no rollback: 30 ticks at a time", steady_batch),
    ("undo-quiet", "rollbacks of 20 to 31 events that sent nothing", undo_quiet),
    ("undo-minus", "rollbacks of 28 events and their anti-messages", undo_minus),
    ("commit-1", "commits of one line each, 93 standing", commit_single),
    ("commit-0", "commits that find nothing final, crowded bench", commit_crowded),
    ("outlook", "outlooks of a crowded bench", outlook_crowded),
];

/// A sound schedule with a last letter that opens no call: it is read to the end, and not played.
fn spoilt(size: usize, call: impl Fn(usize) -> Call) -> Vec<u8> {
    let mut bytes = header(1000);
    for place in 0.. {
        let call = call(place);
        if bytes.len() + call.length() + 1 > size {
            break;
        }
        call.write(&mut bytes);
    }
    bytes.push(b'x');
    bytes
}

fn sample_offer(place: usize) -> Call {
    Call::Offer { time: place as u32, destination: 1, kind: CARD, payload: 77 }
}

fn parse_outlooks(size: usize) -> Vec<u8> {
    spoilt(size, |_| Call::Outlook)
}

fn parse_offers(size: usize) -> Vec<u8> {
    spoilt(size, sample_offer)
}

fn parse_all(size: usize) -> Vec<u8> {
    spoilt(size, |place| match place % 5 {
        0 => sample_offer(place),
        1 => Call::Deliver { index: place as u16 },
        2 => Call::Run { board: 1 },
        3 => Call::Outlook,
        _ => Call::Commit { most: 8 },
    })
}

fn idle(size: usize) -> Vec<u8> {
    let calls = vec![Call::Commit { most: 8 }; (size - HEADER) / 3];
    Schedule { end_time: 1000, calls }.write()
}

fn refusals(size: usize) -> Vec<u8> {
    let calls = vec![Call::Deliver { index: 128 }; (size - HEADER) / 3];
    Schedule { end_time: 1000, calls }.write()
}

fn author(size: usize) -> Author {
    Author::new(u32::MAX, size)
}

fn steady_single(size: usize) -> Vec<u8> {
    let mut author = author(size);
    for round in 0u32.. {
        let time = 20 * round;
        author.offer(time, 1, CARD, round % 3);
        for board in [1, 0, 1] {
            author.deliver(0);
            author.run(board);
        }
        author.offer(time + 10, 2, TICK, 0);
        for board in [2, 0] {
            author.deliver(0);
            author.run(board);
        }
        author.commit(256);
        if author.full {
            break;
        }
    }
    author.bytes
}

fn cross_all(author: &mut Author) {
    while !author.full && !author.bench.transit().is_empty() && author.deliver(0) {}
}

fn steady_batch(size: usize) -> Vec<u8> {
    let mut author = author(size);
    for round in 0u32.. {
        for tick in 0..30 {
            author.offer(100 * round + tick, 2, TICK, 0);
        }
        cross_all(&mut author);
        author.run_all(2);
        cross_all(&mut author);
        author.run_all(0);
        author.commit(256);
        if author.full {
            break;
        }
    }
    author.bytes
}

fn undo_quiet(size: usize) -> Vec<u8> {
    let mut author = author(size);
    for round in 0u32.. {
        for place in 0..20 {
            author.offer(100 * round + 50 + place, 1, 9, 0);
        }
        cross_all(&mut author);
        author.run_all(1);
        for place in 0..12 {
            author.offer(100 * round + 40 - place, 1, 9, 0);
            author.deliver(0);
            author.run_all(1);
        }
        author.commit(256);
        if author.full {
            break;
        }
    }
    author.bytes
}

fn undo_minus(size: usize) -> Vec<u8> {
    let mut author = author(size);
    for round in 0u32.. {
        for place in 0..28 {
            author.offer(100 * round + 50 + place, 2, TICK, 0);
        }
        cross_all(&mut author);
        author.run_all(2);
        for place in 0..3 {
            author.offer(100 * round + 40 - place, 2, 9, 0);
            let last = author.bench.transit().len() - 1;
            author.deliver(last);
            cross_all(&mut author);
            author.run_all(2);
        }
        cross_all(&mut author);
        author.run_all(0);
        author.commit(256);
        if author.full {
            break;
        }
    }
    author.bytes
}

fn commit_single(size: usize) -> Vec<u8> {
    let mut author = author(size);
    for round in 0u32.. {
        for place in 0..31 {
            for board in 0..3 {
                author.offer(100 * round + place, board, 9, 0);
            }
        }
        cross_all(&mut author);
        for board in 0..3 {
            author.run_all(board);
        }
        while author.commit(1) == 1 {}
        if author.full {
            break;
        }
    }
    author.bytes
}

/// Rows of 32, half of each standing, and 128 items in transit, of which the least is before all.
fn crowd(size: usize) -> Author {
    let mut author = author(size);
    for place in 0..32 {
        for board in 0..3 {
            author.offer(1000 + place, board, 9, 0);
            author.deliver(0);
            if place < 16 {
                author.run(usize::from(board));
            }
        }
    }
    for place in 0..128 {
        author.offer(1000 - place, (place % 3) as u8, 9, 0);
    }
    author
}

fn commit_crowded(size: usize) -> Vec<u8> {
    let mut author = crowd(size);
    while !author.full {
        author.commit(8);
    }
    author.bytes
}

fn outlook_crowded(size: usize) -> Vec<u8> {
    let mut author = crowd(size);
    while !author.full {
        author.outlook();
    }
    author.bytes
}

/// Seconds that one run of `work` takes, at a number of runs that fills a round.
fn time(runs: u32, work: &mut dyn FnMut()) -> f64 {
    let begin = Instant::now();
    for _ in 0..runs {
        work();
    }
    begin.elapsed().as_secs_f64() / f64::from(runs)
}

fn runs(work: &mut dyn FnMut()) -> u32 {
    let mut runs = 1;
    while time(runs, work) * f64::from(runs) < ROUND.as_secs_f64() {
        runs *= 2;
    }
    runs
}

/// What one schedule takes, in seconds.
struct Times {
    twin: f64,
    /// The verified library's time, and the median of its time over the twin's.
    verified: Option<(f64, f64)>,
}

/// The fastest of many rounds for the twin and for the verified library, which take turns.
fn measure(bytes: &[u8], span: Duration) -> Result<Times, String> {
    let mut listing = Vec::with_capacity(verified::ROOM);
    let mut output = vec![0; verified::ROOM];
    if verified::LINKED {
        let length =
            verified::play(bytes, &mut output).ok_or("the verified library gives no listing")?;
        if output[..length] != programs::play(bytes) {
            return Err("the listings differ".into());
        }
    }
    let mut twin = || {
        listing.clear();
        programs::play_into(black_box(bytes), &mut listing);
        black_box(&listing);
    };
    let mut other = || {
        black_box(verified::play(black_box(bytes), &mut output));
    };
    let twin_runs = runs(&mut twin);
    let other_runs = if verified::LINKED { runs(&mut other) } else { 0 };
    let (mut best, mut other_best) = (f64::INFINITY, f64::INFINITY);
    let mut ratios = Vec::new();
    let begin = Instant::now();
    let mut rounds = 0;
    while rounds < ROUNDS || begin.elapsed() < span {
        rounds += 1;
        let took = time(twin_runs, &mut twin);
        best = best.min(took);
        if verified::LINKED {
            let other_took = time(other_runs, &mut other);
            other_best = other_best.min(other_took);
            ratios.push(other_took / took);
        }
    }
    ratios.sort_by(f64::total_cmp);
    let verified = ratios.get(ratios.len() / 2).map(|median| (other_best, *median));
    Ok(Times { twin: best, verified })
}

/// How many calls a file has, up to its fault if it has one.
fn calls(bytes: &[u8]) -> usize {
    match Schedule::read(bytes) {
        Ok(schedule) => schedule.calls.len(),
        Err(fault) => {
            Schedule::read(&bytes[..fault.offset]).map_or(0, |schedule| schedule.calls.len())
        }
    }
}

fn main() -> ExitCode {
    let mut millis = 600;
    let mut wanted: Vec<String> = Vec::new();
    let mut words = std::env::args().skip(1);
    while let Some(word) = words.next() {
        match word.as_str() {
            "--millis" => match words.next().and_then(|word| word.parse().ok()) {
                Some(number) => millis = number,
                None => {
                    eprintln!("{USAGE}");
                    return ExitCode::from(2);
                }
            },
            _ if word.starts_with('-') => {
                eprintln!("{USAGE}");
                return ExitCode::from(2);
            }
            _ => wanted.push(word),
        }
    }
    if !verified::LINKED {
        println!("no verified library is linked in (VERIFIED_LIB_DIR): the twin alone");
    }
    println!(
        "{:<11} {:>6} {:>6} {:>10} {:>8} {:>12} {:>8} {:>6} {:>6}  of",
        "case",
        "bytes",
        "calls",
        "twin, us",
        "ns/call",
        "verified, us",
        "ns/call",
        "ratio",
        "median"
    );
    for (name, about, make) in CASES {
        if !wanted.is_empty() && !wanted.iter().any(|word| name.starts_with(word.as_str())) {
            continue;
        }
        for part in [8, 4, 2, 1] {
            let bytes = make(LONGEST / part);
            let calls = calls(&bytes);
            let Times { twin, verified } = match measure(&bytes, Duration::from_millis(millis)) {
                Ok(times) => times,
                Err(what) => {
                    println!("{name}: {what}");
                    return ExitCode::FAILURE;
                }
            };
            let each = |seconds: f64| seconds * 1e9 / calls as f64;
            print!("{name:<11} {:>6} {calls:>6}", bytes.len());
            print!(" {:>10.1} {:>8.1}", twin * 1e6, each(twin));
            match verified {
                Some((time, median)) => {
                    print!(" {:>12.1} {:>8.1}", time * 1e6, each(time));
                    print!(" {:>6.2} {median:>6.2}", time / twin);
                }
                None => print!(" {:>12} {:>8} {:>6} {:>6}", "-", "-", "-", "-"),
            }
            println!("  {}", if part == 8 { about } else { "" });
        }
    }
    ExitCode::SUCCESS
}

//! Compares what the twin and the verified library print for many random schedules.

use std::fs;
use std::io::Write;
use std::path::PathBuf;
use std::process::{Command, ExitCode, Stdio};
use std::time::{Duration, Instant};

use twin::random::Random;
use twin::schedule::Schedule;
use twin::survey::Survey;
use twin::{check, generate, programs, verified};

const USAGE: &str = "usage: compare [OPTION...] [FILE...]
  options: --count N, --seed N, --from N, --save FILE, --program NAME=PATH
  Plays N random schedules (100000 if not given) of a seed (1), from the one with that place (0),
  or the given schedule files in their stead. Where the two listings differ, or where one is no
  front of the sequential machine's log, it stops and saves the schedule (difference.schedule)
  and, as FILE.small, one with fewer calls.
  With --program, what the program at PATH prints is compared too, with what the twin's play,
  reference or list (NAME) prints; it is started once for each schedule.";

/// One schedule in so many is also played into memories that are too short or just long enough.
const PROBE_EVERY: u64 = 16;
/// How long a smaller schedule is looked for.
const SHRINKING: Duration = Duration::from_secs(20);
/// Fills the memory behind a listing, to show that it is left alone.
const CANARY: u8 = 0xA5;

struct Options {
    count: u64,
    seed: u64,
    from: u64,
    save: PathBuf,
    files: Vec<PathBuf>,
    programs: Vec<Program>,
}

/// A program to compare with one of the twin.
struct Program {
    name: String,
    path: PathBuf,
    twin: fn(&[u8]) -> Vec<u8>,
}

impl Program {
    fn new(word: &str) -> Option<Program> {
        let (name, path) = word.split_once('=')?;
        let twin = match name {
            "play" => programs::play,
            "reference" => programs::reference,
            "list" => programs::list,
            _ => return None,
        };
        Some(Program { name: name.into(), path: path.into(), twin })
    }

    fn compare(&self, bytes: &[u8]) -> Result<(), String> {
        let wrong = |what: &dyn std::fmt::Display| format!("program {}: {what}", self.name);
        let mut child = Command::new(&self.path)
            .stdin(Stdio::piped())
            .stdout(Stdio::piped())
            .spawn()
            .map_err(|error| wrong(&error))?;
        if let Some(mut input) = child.stdin.take() {
            // A program that knows a file to be too long reads no further: that is no error.
            let _ = input.write_all(bytes);
        }
        let output = child.wait_with_output().map_err(|error| wrong(&error))?;
        difference(&(self.twin)(bytes), &output.stdout).map_err(|what| wrong(&what))
    }
}

fn options() -> Option<Options> {
    let save = PathBuf::from("difference.schedule");
    let (files, programs) = (Vec::new(), Vec::new());
    let mut options = Options { count: 100_000, seed: 1, from: 0, save, files, programs };
    let mut words = std::env::args().skip(1);
    while let Some(word) = words.next() {
        match word.as_str() {
            "--count" => options.count = words.next()?.parse().ok()?,
            "--seed" => options.seed = words.next()?.parse().ok()?,
            "--from" => options.from = words.next()?.parse().ok()?,
            "--save" => options.save = words.next()?.into(),
            "--program" => options.programs.push(Program::new(&words.next()?)?),
            _ if word.starts_with('-') => return None,
            _ => options.files.push(word.into()),
        }
    }
    Some(options)
}

struct Compare {
    programs: Vec<Program>,
    twin: Vec<u8>,
    output: Vec<u8>,
    compared: u64,
    probed: u64,
    listed: u64,
}

impl Compare {
    /// Plays a schedule on both sides and tells what is wrong, if anything is.
    fn file(&mut self, bytes: &[u8], probe: bool) -> Result<(), String> {
        self.twin.clear();
        programs::play_into(bytes, &mut self.twin);
        self.listed += self.twin.len() as u64;
        check::listing(bytes, &self.twin)?;
        for program in &self.programs {
            program.compare(bytes)?;
        }
        if !verified::LINKED {
            return Ok(());
        }
        let Some(length) = verified::play(bytes, &mut self.output) else {
            return Err("the verified library gives no listing".into());
        };
        difference(&self.twin, &self.output[..length])?;
        self.compared += 1;
        if probe {
            self.probe(bytes)?;
            self.probed += 1;
        }
        Ok(())
    }

    /// Memory of just the listing's length must do, and one byte less must not.
    fn probe(&mut self, bytes: &[u8]) -> Result<(), String> {
        let length = self.twin.len();
        self.output[..length + 64].fill(CANARY);
        if verified::play(bytes, &mut self.output[..length]) != Some(length) {
            return Err("the listing does not go into memory of its length".into());
        }
        difference(&self.twin, &self.output[..length])?;
        if verified::play(bytes, &mut self.output[..length - 1]).is_some() {
            return Err("a listing is given in memory that is too short".into());
        }
        if self.output[length..length + 64].iter().any(|byte| *byte != CANARY) {
            return Err("memory behind the output was written".into());
        }
        Ok(())
    }

    /// A schedule with fewer calls that is wrong too, as far as one is found in a while.
    fn smaller(&mut self, bytes: &[u8]) -> Option<Vec<u8>> {
        let begin = Instant::now();
        let mut schedule = Schedule::read(bytes).ok()?;
        let mut step = schedule.calls.len().div_ceil(2).max(1);
        loop {
            let mut place = 0;
            while place < schedule.calls.len() && begin.elapsed() < SHRINKING {
                let mut fewer = schedule.clone();
                let end = (place + step).min(fewer.calls.len());
                fewer.calls.drain(place..end);
                if self.file(&fewer.write(), true).is_err() {
                    schedule = fewer;
                } else {
                    place += step;
                }
            }
            if step == 1 {
                return Some(schedule.write());
            }
            step = step.div_ceil(2);
        }
    }
}

fn difference(twin: &[u8], verified: &[u8]) -> Result<(), String> {
    if twin == verified {
        return Ok(());
    }
    let split = |text: &[u8]| -> Vec<String> {
        text.split(|byte| *byte == b'\n').map(|l| String::from_utf8_lossy(l).into_owned()).collect()
    };
    let (twin, verified) = (split(twin), split(verified));
    let place = twin.iter().zip(&verified).take_while(|(one, other)| one == other).count();
    let line = |lines: &[String]| lines.get(place).cloned().unwrap_or_default();
    let (one, other) = (line(&twin), line(&verified));
    Err(format!("line {}: the twin has '{one}', the other '{other}'", place + 1))
}

fn main() -> ExitCode {
    let Some(mut options) = options() else {
        eprintln!("{USAGE}");
        return ExitCode::from(2);
    };
    let mut compare = Compare {
        programs: std::mem::take(&mut options.programs),
        twin: Vec::new(),
        output: vec![0; verified::ROOM],
        compared: 0,
        probed: 0,
        listed: 0,
    };
    let mut survey = Survey::default();
    let begin = Instant::now();
    let mut one = |bytes: &[u8], name: &str, place: u64| -> bool {
        let checked = compare
            .file(bytes, place.is_multiple_of(PROBE_EVERY))
            .and_then(|()| survey.visit(bytes));
        let Err(what) = checked else { return true };
        println!("WRONG {name}: {what}");
        save(&options.save, bytes);
        if let Some(small) = compare.smaller(bytes) {
            let mut path = options.save.clone().into_os_string();
            path.push(".small");
            save(&PathBuf::from(path), &small);
            if let Err(what) = compare.file(&small, true) {
                println!("  the smaller one: {what}");
            }
        }
        false
    };
    let mut sound = true;
    if options.files.is_empty() {
        for place in options.from..options.from + options.count {
            let bytes = generate::file(&mut Random::new(options.seed, place));
            sound = one(&bytes, &format!("schedule {place} of seed {}", options.seed), place);
            if !sound {
                break;
            }
        }
    }
    for path in &options.files {
        match fs::read(path) {
            Ok(bytes) => sound &= one(&bytes, &path.display().to_string(), 0),
            Err(error) => {
                eprintln!("{}: {error}", path.display());
                return ExitCode::from(2);
            }
        }
    }
    print!("{survey}");
    println!("bytes listed by the twin {}", compare.listed);
    for program in &compare.programs {
        println!("compared with the program {} at {}", program.name, program.path.display());
    }
    if verified::LINKED {
        println!(
            "listings compared {}, of which {} also in exact memory",
            compare.compared, compare.probed
        );
    } else {
        println!("listings compared 0: no verified library is linked in (VERIFIED_LIB_DIR)");
    }
    println!("{:.1} s", begin.elapsed().as_secs_f64());
    println!(
        "{}",
        match (sound, verified::LINKED) {
            (true, true) => "all equal",
            (true, false) => "all sound",
            (false, _) => "WRONG",
        }
    );
    if sound { ExitCode::SUCCESS } else { ExitCode::FAILURE }
}

fn save(path: &PathBuf, bytes: &[u8]) {
    match fs::write(path, bytes) {
        Ok(()) => println!("  saved as {} ({} bytes)", path.display(), bytes.len()),
        Err(error) => println!("  cannot save {}: {error}", path.display()),
    }
}

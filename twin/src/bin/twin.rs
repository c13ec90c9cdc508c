//! The programs `play`, `reference` and `list`: `twin PROGRAM` reads a schedule from standard input.

use std::io::{self, Read, Write};
use std::process::ExitCode;

use twin::programs;
use twin::schedule::LONGEST;

fn main() -> ExitCode {
    let program = match std::env::args().nth(1).as_deref() {
        Some("play") => programs::play,
        Some("reference") => programs::reference,
        Some("list") => programs::list,
        _ => {
            eprintln!("usage: twin play|reference|list < SCHEDULE");
            return ExitCode::from(2);
        }
    };
    match serve(program) {
        Ok(()) => ExitCode::SUCCESS,
        Err(error) => {
            eprintln!("twin: {error}");
            ExitCode::FAILURE
        }
    }
}

fn serve(program: fn(&[u8]) -> Vec<u8>) -> io::Result<()> {
    // One byte more than the longest file tells that it is too long.
    let mut bytes = Vec::new();
    io::stdin().lock().take(LONGEST as u64 + 1).read_to_end(&mut bytes)?;
    io::stdout().lock().write_all(&program(&bytes))
}

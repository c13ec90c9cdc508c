//! Holds what `play` printed to the sequential machine: its lines are a front of that machine's log.

use crate::message::Message;
use crate::programs;
use crate::schedule::{Call, Schedule};

/// Checks a listing of `play` against the schedule that it is of.
///
/// The admitted offers are those that the listing does not refuse. On them the sequential machine's
/// log opens with the lines `L`. The totals are those of the lines above them.
pub fn listing(bytes: &[u8], text: &[u8]) -> Result<(), String> {
    let Ok(schedule) = Schedule::read(bytes) else {
        let single =
            text.starts_with(b"F ") && text.iter().filter(|byte| **byte == b'\n').count() == 1;
        return if single { Ok(()) } else { Err("a fault is not told by one line F".into()) };
    };
    let body = text.strip_suffix(b"\n").ok_or("the last line does not end")?;
    let mut refused = Vec::new();
    let mut lines = Vec::new();
    let mut undone = 0;
    let mut totals = None;
    for line in body.split(|byte| *byte == b'\n') {
        if totals.is_some() {
            return Err("a line follows the totals".into());
        }
        let (letter, fields) = split(line).ok_or_else(|| format!("not a line: {}", shown(line)))?;
        match (letter, fields.as_slice()) {
            (b'R', &[index, _]) => refused.push(index),
            (b'L', &[time, source, number, destination, kind, payload]) => lines.push(Message {
                time,
                source: source as u8,
                number,
                destination: destination as u8,
                kind: kind as u8,
                payload,
            }),
            (b'U', &[count]) if count > 0 => undone += count,
            (b'G', [] | [_, _, _, _, _, _]) => {}
            (b'E', &[committed, standing, undone]) => totals = Some([committed, standing, undone]),
            _ => return Err(format!("not a line: {}", shown(line))),
        }
    }
    let [committed, standing, all_undone] = totals.ok_or("there are no totals")?;
    if committed as usize != lines.len() || all_undone != undone || standing > 96 {
        return Err("the totals are not those of the lines".into());
    }
    let mut machine = programs::machine(schedule.end_time, stimuli(&schedule, &refused));
    for (place, line) in lines.iter().enumerate() {
        let expected = machine.next();
        if expected != Some(*line) {
            return Err(format!("line {place} is {line:?}, the machine has {expected:?}"));
        }
    }
    Ok(())
}

/// The messages of the offers that are not refused; `refused` has call indices in order.
fn stimuli(schedule: &Schedule, refused: &[u32]) -> Vec<Message> {
    let mut refused = refused.iter().peekable();
    let mut stimuli = Vec::new();
    for (index, call) in schedule.calls.iter().enumerate() {
        if refused.next_if(|refused| **refused as usize == index).is_some() {
            continue;
        }
        if let Call::Offer { time, destination, kind, payload } = *call {
            let number = stimuli.len() as u32;
            stimuli.push(Message::offered(number, time, destination, kind, payload));
        }
    }
    stimuli
}

/// A line's letter and numbers; a dash in their place is none.
fn split(line: &[u8]) -> Option<(u8, Vec<u32>)> {
    let (letter, rest) = line.split_first()?;
    let rest = rest.strip_prefix(b" ")?;
    if rest == b"-" {
        return Some((*letter, Vec::new()));
    }
    let number = |field: &[u8]| std::str::from_utf8(field).ok()?.parse().ok();
    let fields: Option<Vec<u32>> = rest.split(|byte| *byte == b' ').map(number).collect();
    Some((*letter, fields?))
}

fn shown(line: &[u8]) -> String {
    String::from_utf8_lossy(line).into_owned()
}

#[cfg(test)]
mod tests {
    use super::*;

    #[test]
    fn a_wrong_line_is_found() {
        let offer = |time| Call::Offer { time, destination: 2, kind: 9, payload: 0 };
        let bytes = Schedule { end_time: 10, calls: vec![offer(5), offer(11), offer(6)] }.write();
        let check = |text: &str| listing(&bytes, text.as_bytes());
        assert!(check("R 1 2\nE 0 0 0\n").is_ok());
        assert!(check("R 1 2\nL 5 255 0 2 9 0\nL 6 255 1 2 9 0\nE 2 0 0\n").is_ok());
        assert!(check("R 1 2\nU 3\nG -\nG 1 2 3 4 5 6\nL 5 255 0 2 9 0\nE 1 1 3\n").is_ok());
        assert!(check("R 1 2\nL 6 255 1 2 9 0\nE 1 0 0\n").is_err());
        assert!(check("R 1 2\nL 5 255 0 2 9 1\nE 1 0 0\n").is_err());
        assert!(check("R 1 2\nL 5 255 0 2 9 0\nE 0 0 0\n").is_err());
        assert!(check("R 1 2\nU 1\nE 0 0 0\n").is_err());
        assert!(check("R 1 2\nE 0 0 0").is_err());
        assert!(check("R 1 2\nE 0 0 0\nE 0 0 0\n").is_err());
        assert!(check("R 0 1\nR 1 2\nL 6 255 0 2 9 0\nE 1 0 0\n").is_ok());
        assert!(listing(b"", b"F 1 0 3\n").is_ok());
        assert!(listing(b"", b"E 0 0 0\n").is_err());
    }
}

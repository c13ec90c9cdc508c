//! The text of the programs `play`, `reference` and `list`.

use crate::bench::{Bench, Setup};
use crate::board::{Board, Words};
use crate::message::Message;
use crate::refusal::Refusal;
use crate::schedule::{Call, Fault, Schedule};
use crate::sequential::Machine;

/// The rack of all programs; its boards start from zeros.
pub const RACK: [Board; 3] = [Board::FareComputer, Board::Reader, Board::Ticker];
/// Most lines that one commit of `play` is given room for.
pub const ROOM: usize = 256;
/// Most lines of the log that `reference` prints.
pub const LOG: usize = 65_536;

/// A running bench over the rack.
pub fn bench(end_time: u32) -> Bench {
    Setup::new(&RACK, end_time).start()
}

/// The sequential machine over the rack.
pub fn machine(end_time: u32, stimuli: impl IntoIterator<Item = Message>) -> Machine {
    let boards: Vec<(Board, Words)> = RACK.iter().map(|&board| (board, [0; 4])).collect();
    Machine::new(&boards, end_time, stimuli)
}

/// Lines of text: words and decimal numbers with one space between them.
struct Text<'a>(&'a mut Vec<u8>);

impl Text<'_> {
    /// Opens a line with a word.
    fn word(&mut self, word: &str) -> &mut Self {
        self.0.extend_from_slice(word.as_bytes());
        self
    }

    /// Goes on with a space and a number.
    fn number(&mut self, number: impl Into<u64>) -> &mut Self {
        let mut rest = number.into();
        let mut digits = [b' '; 21];
        let mut first = digits.len();
        loop {
            first -= 1;
            digits[first] = b'0' + (rest % 10) as u8;
            rest /= 10;
            if rest == 0 {
                break;
            }
        }
        self.0.extend_from_slice(&digits[first - 1..]);
        self
    }

    fn message(&mut self, message: &Message) -> &mut Self {
        self.number(message.time)
            .number(message.source)
            .number(message.number)
            .number(message.destination)
            .number(message.kind)
            .number(message.payload)
    }

    fn end(&mut self) {
        self.0.push(b'\n');
    }

    fn fault(&mut self, fault: &Fault) {
        let Fault { layer, offset, refusal } = fault;
        self.word("F").number(*layer as u8).number(*offset as u64).number(refusal.number()).end();
    }

    fn refusal(&mut self, index: usize, refusal: Refusal) {
        self.word("R").number(index as u64).number(refusal.number()).end();
    }
}

/// What `play` prints for a schedule file.
pub fn play(bytes: &[u8]) -> Vec<u8> {
    let mut out = Vec::new();
    play_into(bytes, &mut out);
    out
}

/// Appends what `play` prints to `out`.
pub fn play_into(bytes: &[u8], out: &mut Vec<u8>) {
    let mut text = Text(out);
    let schedule = match Schedule::read(bytes) {
        Ok(schedule) => schedule,
        Err(fault) => return text.fault(&fault),
    };
    let mut bench = bench(schedule.end_time);
    let mut lines = [Message::default(); ROOM];
    for (index, call) in schedule.calls.iter().enumerate() {
        let refusal = match *call {
            Call::Offer { time, destination, kind, payload } => {
                bench.offer(time, destination, kind, payload).err()
            }
            Call::Deliver { index } => match bench.deliver(usize::from(index)) {
                Ok(0) => None,
                Ok(undone) => {
                    text.word("U").number(undone as u64).end();
                    None
                }
                Err(refusal) => Some(refusal),
            },
            Call::Run { board } => bench.run(usize::from(board)).err(),
            Call::Outlook => {
                match bench.outlook() {
                    Some(message) => text.word("G").message(&message).end(),
                    None => text.word("G -").end(),
                }
                None
            }
            Call::Commit { most } => {
                let room = usize::from(most).min(ROOM);
                let count = bench.commit(&mut lines[..room]);
                for line in &lines[..count] {
                    text.word("L").message(line).end();
                }
                None
            }
        };
        if let Some(refusal) = refusal {
            text.refusal(index, refusal);
        }
    }
    let totals = bench.totals();
    text.word("E").number(totals.committed).number(totals.standing).number(totals.undone).end();
}

/// What `reference` prints for a schedule file.
pub fn reference(bytes: &[u8]) -> Vec<u8> {
    let mut out = Vec::new();
    let mut text = Text(&mut out);
    let schedule = match Schedule::read(bytes) {
        Ok(schedule) => schedule,
        Err(fault) => {
            text.fault(&fault);
            return out;
        }
    };
    let mut stimuli = Vec::new();
    for (index, call) in schedule.calls.iter().enumerate() {
        if let Call::Offer { time, destination, kind, payload } = *call {
            if usize::from(destination) >= RACK.len() {
                text.refusal(index, Refusal::NoBoard);
            } else if time > schedule.end_time {
                text.refusal(index, Refusal::AfterEnd);
            } else {
                let number = stimuli.len() as u32;
                stimuli.push(Message::offered(number, time, destination, kind, payload));
            }
        }
    }
    let mut machine = machine(schedule.end_time, stimuli);
    let mut count = 0u64;
    for line in machine.by_ref().take(LOG) {
        text.word("L").message(&line).end();
        count += 1;
    }
    text.word(if machine.is_done() { "E" } else { "S" }).number(count).end();
    out
}

/// What `list` prints for a schedule file.
pub fn list(bytes: &[u8]) -> Vec<u8> {
    let mut out = Vec::new();
    let mut text = Text(&mut out);
    match Schedule::read(bytes) {
        Err(fault) => text.fault(&fault),
        Ok(schedule) => {
            text.word("end").number(schedule.end_time).end();
            for call in &schedule.calls {
                match *call {
                    Call::Offer { time, destination, kind, payload } => {
                        text.word("o").number(time).number(destination).number(kind).number(payload)
                    }
                    Call::Deliver { index } => text.word("d").number(index),
                    Call::Run { board } => text.word("r").number(board),
                    Call::Outlook => text.word("g"),
                    Call::Commit { most } => text.word("c").number(most),
                }
                .end();
            }
        }
    }
    out
}

#[cfg(test)]
mod tests {
    use super::*;
    use crate::schedule::header;

    /// Two cards of which the later one is read first, so that its reaction is undone.
    fn rollback() -> Vec<u8> {
        let offer = |time, payload| Call::Offer { time, destination: 1, kind: 2, payload };
        let deliver = |index| Call::Deliver { index };
        let run = |board| Call::Run { board };
        let commit = Call::Commit { most: 8 };
        let calls = vec![
            offer(10, 77),
            offer(30, 5),
            deliver(1),
            run(1),
            deliver(0),
            Call::Outlook,
            deliver(1),
            deliver(0),
            run(1),
            commit,
            run(0),
            deliver(0),
            run(0),
            deliver(0),
            run(1),
            Call::Outlook,
            commit,
        ];
        Schedule { end_time: 1000, calls }.write()
    }

    fn shown(bytes: Vec<u8>) -> String {
        String::from_utf8(bytes).unwrap()
    }

    #[test]
    fn play_shows_the_rollback() {
        let bytes = rollback();
        assert_eq!(bytes.len(), 64);
        let expected = "U 1\nG 10 255 0 1 2 77\nL 10 255 0 1 2 77\nR 10 23\nG 30 255 1 1 2 5\n\
                        L 15 1 0 0 3 77\nL 18 0 0 1 4 1\nE 3 0 1\n";
        assert_eq!(shown(play(&bytes)), expected);
    }

    #[test]
    fn reference_prints_the_whole_log() {
        let expected = "L 10 255 0 1 2 77\nL 15 1 0 0 3 77\nL 18 0 0 1 4 1\n\
                        L 30 255 1 1 2 5\nL 35 1 1 0 3 5\nL 38 0 1 1 4 1\nE 6\n";
        assert_eq!(shown(reference(&rollback())), expected);
    }

    #[test]
    fn reference_refuses_offers_and_does_not_number_them() {
        let offer = |time, destination| Call::Offer { time, destination, kind: 9, payload: 1 };
        let calls = vec![Call::Outlook, offer(11, 3), offer(11, 2), offer(9, 2), offer(10, 0)];
        let bytes = Schedule { end_time: 10, calls }.write();
        let expected = "R 1 1\nR 2 2\nL 9 255 0 2 9 1\nL 10 255 1 0 9 1\nE 2\n";
        assert_eq!(shown(reference(&bytes)), expected);
    }

    #[test]
    fn list_prints_each_call() {
        let text = shown(list(&rollback()));
        assert!(text.starts_with("end 1000\no 10 1 2 77\no 30 1 2 5\nd 1\nr 1\nd 0\ng\nd 1\n"));
        assert!(text.ends_with("r 1\ng\nc 8\n"));
        assert_eq!(text.lines().count(), 18);
    }

    #[test]
    fn a_fault_is_printed_alone() {
        let mut bytes = rollback();
        bytes.truncate(63);
        for program in [play, reference, list] {
            assert_eq!(shown(program(&bytes)), "F 3 61 6\n");
            assert_eq!(shown(program(b"\x01\0")), "F 1 2 3\n");
        }
    }

    #[test]
    fn an_empty_schedule() {
        let bytes = header(0);
        assert_eq!(shown(play(&bytes)), "E 0 0 0\n");
        assert_eq!(shown(reference(&bytes)), "E 0\n");
        assert_eq!(shown(list(&bytes)), "end 0\n");
    }

    #[test]
    fn numbers_are_decimal() {
        let mut out = Vec::new();
        Text(&mut out).word("x").number(0u8).number(10u8).number(u64::MAX).end();
        assert_eq!(shown(out), "x 0 10 18446744073709551615\n");
    }

    #[test]
    fn commits_are_given_room_for_256_lines_at_most() {
        // 96 messages can stand at most, so the bound is seen only in the code.
        let calls = vec![Call::Commit { most: 65_535 }, Call::Commit { most: 0 }, Call::Outlook];
        let bytes = Schedule { end_time: 0, calls }.write();
        assert_eq!(shown(play(&bytes)), "G -\nE 0 0 0\n");
    }
}

//! Counts what happens while schedules are played, so that one sees what a comparison covers.

use std::fmt::{self, Display, Formatter};

use crate::bench::{Bench, ROW, Sign, TRANSIT};
use crate::message::Message;
use crate::programs::{self, RACK, ROOM};
use crate::refusal::Refusal;
use crate::schedule::{Call, LONGEST, Schedule};

const LETTERS: [char; 5] = ['o', 'd', 'r', 'g', 'c'];

/// What was seen in all schedules so far.
#[derive(Clone, Debug, Default)]
pub struct Survey {
    pub schedules: u64,
    pub bytes: u64,
    pub longest: usize,
    /// Sound files of exactly the greatest length.
    pub at_longest: u64,
    /// By refusal number.
    pub faults: [u64; 8],
    /// By letter.
    pub calls: [u64; 5],
    /// By letter and refusal number.
    pub refusals: [[u64; 32]; 5],
    /// Deliveries that undid any, by the sign of the item.
    pub rollbacks_by_plus: u64,
    pub rollbacks_by_minus: u64,
    pub undone: u64,
    pub deepest: usize,
    /// Minuses put into transit.
    pub minuses: u64,
    /// Minuses that came before their messages.
    pub overtaking: u64,
    /// Pluses that vanished with an early minus.
    pub met: u64,
    pub took_open: u64,
    pub took_standing: u64,
    /// Minuses that had two or more equals in the in-row.
    pub took_of_many: u64,
    /// Of these, those whose first equal stood and whose last was open.
    pub took_open_of_standing: u64,
    /// Pluses that had an equal in the in-row.
    pub doubled: u64,
    /// Runs after which two equal messages stand.
    pub doubles_standing: u64,
    /// Deliveries that left a board with 31 and with 32 messages and early minuses.
    pub rows_at_31: u64,
    pub rows_at_32: u64,
    /// Deliveries that left a board with 31 and with 32 early minuses.
    pub early_at_31: u64,
    pub early_at_32: u64,
    /// Deliveries to a full board that needed no place.
    pub full_but_needless: u64,
    /// Deliveries that needed exactly as many places in transit as there were.
    pub exact_transit: u64,
    /// Deliveries that were refused because transit wanted one place.
    pub one_short: u64,
    /// Calls made with 126, 127 and 128 items in transit.
    pub transit_at: [u64; 3],
    /// Runs by how many messages they sent.
    pub runs: [u64; 3],
    /// Sends that were dropped.
    pub dropped: u64,
    /// Admitted offers at the last line's time.
    pub offers_at_last: u64,
    pub outlooks_none: u64,
    pub outlooks_minus: u64,
    /// Commits with room for none.
    pub commits_without_room: u64,
    /// Commits with room that found nothing final while messages stood.
    pub commits_held_back: u64,
    /// Commits that left final messages for want of room.
    pub commits_cut: u64,
    pub lines: u64,
    pub most_lines: usize,
    /// Schedules that ended with nothing outstanding or standing and at least one line.
    pub finished: u64,
}

impl Survey {
    /// Plays a file, counts what happens, and checks what holds after each call.
    pub fn visit(&mut self, bytes: &[u8]) -> Result<(), String> {
        self.schedules += 1;
        self.bytes += bytes.len() as u64;
        self.longest = self.longest.max(bytes.len());
        let schedule = match Schedule::read(bytes) {
            Ok(schedule) => schedule,
            Err(fault) => {
                self.faults[usize::from(fault.refusal.number())] += 1;
                return Ok(());
            }
        };
        self.at_longest += u64::from(bytes.len() == LONGEST);
        let mut bench = programs::bench(schedule.end_time);
        let mut log = Vec::new();
        let mut stimuli = Vec::new();
        for (index, call) in schedule.calls.iter().enumerate() {
            let wrong = |what: &str| format!("call {index}: {what}");
            let transit = bench.transit().len();
            if transit + 2 >= TRANSIT {
                self.transit_at[transit + 2 - TRANSIT] += 1;
            }
            let (letter, refusal) = match *call {
                Call::Offer { time, destination, kind, payload } => {
                    let answer = bench.offer(time, destination, kind, payload);
                    if let Ok(number) = answer {
                        stimuli.push(Message::offered(number, time, destination, kind, payload));
                        let at_last = !log.is_empty() && time == bench.last_time();
                        self.offers_at_last += u64::from(at_last);
                    }
                    (0, answer.err())
                }
                Call::Deliver { index } => {
                    let refusal = self.deliver(&mut bench, usize::from(index));
                    (1, refusal.map_err(wrong)?)
                }
                Call::Run { board } => (2, self.run(&mut bench, usize::from(board))),
                Call::Outlook => {
                    self.outlook(&bench);
                    (3, None)
                }
                Call::Commit { most } => {
                    let room = usize::from(most).min(ROOM);
                    self.commit(&mut bench, room, &mut log);
                    (4, None)
                }
            };
            self.calls[letter] += 1;
            if let Some(refusal) = refusal {
                self.refusals[letter][usize::from(refusal.number())] += 1;
            }
            if bench.transit().len() > TRANSIT {
                return Err(wrong("more than 128 items are in transit"));
            }
        }
        let totals = bench.totals();
        if bench.outlook().is_none() && totals.standing == 0 {
            self.finished += u64::from(!log.is_empty());
            let whole: Vec<Message> = programs::machine(schedule.end_time, stimuli).collect();
            if log != whole {
                return Err("nothing is left, but the lines are not the whole log".into());
            }
        }
        Ok(())
    }

    fn deliver(
        &mut self,
        bench: &mut Bench,
        index: usize,
    ) -> Result<Option<Refusal>, &'static str> {
        let Some(&item) = bench.transit().get(index) else {
            return Ok(bench.deliver(index).err());
        };
        let message = item.message;
        let board = usize::from(message.destination);
        let standing = bench.standing(board).len();
        let held = bench.held(board);
        let early = bench.early(board).len();
        let transit = bench.transit().len();
        let in_row = bench.in_row(board);
        let first = in_row.partition_point(|other| *other < message);
        let last = in_row.partition_point(|other| *other <= message);
        let undone = match bench.deliver(index) {
            Ok(undone) => undone,
            Err(refusal) => {
                if refusal == Refusal::TransitFull {
                    let undone = if item.sign == Sign::Plus { last } else { last - 1 };
                    let needed = transit - 1 + bench.sent_from(board, undone);
                    self.one_short += u64::from(needed == TRANSIT + 1);
                }
                return Ok(Some(refusal));
            }
        };
        let minuses = bench.transit().len() + 1 - transit;
        self.minuses += minuses as u64;
        self.undone += undone as u64;
        self.deepest = self.deepest.max(undone);
        self.exact_transit += u64::from(minuses > 1 && bench.transit().len() == TRANSIT);
        let now = bench.held(board);
        self.full_but_needless += u64::from(held == ROW && now < ROW);
        self.rows_at_31 += u64::from(now == ROW - 1 && now > held);
        self.rows_at_32 += u64::from(now == ROW && now > held);
        match item.sign {
            Sign::Plus => {
                self.rollbacks_by_plus += u64::from(undone > 0);
                self.met += u64::from(bench.early(board).len() < early);
                self.doubled += u64::from(now > held && first < last);
            }
            Sign::Minus => {
                self.rollbacks_by_minus += u64::from(undone > 0);
                self.overtaking += u64::from(first == last);
                self.took_open += u64::from(first < last && last > standing);
                self.took_standing += u64::from(first < last && last <= standing);
                self.took_of_many += u64::from(last - first > 1);
                self.took_open_of_standing +=
                    u64::from(last - first > 1 && first < standing && last > standing);
            }
        }
        let early_now = bench.early(board).len();
        self.early_at_31 += u64::from(early_now == ROW - 1 && early_now > early);
        self.early_at_32 += u64::from(early_now == ROW && early_now > early);
        let in_row = bench.in_row(board);
        let early = bench.early(board);
        if !in_row.is_sorted() || !early.is_sorted() {
            return Err("a row is out of order");
        }
        if now > ROW || bench.standing(board).len() > standing {
            return Err("a board holds too much");
        }
        if early.iter().any(|minus| in_row.binary_search(minus).is_ok()) {
            return Err("a message waits beside its early minus");
        }
        Ok(None)
    }

    fn run(&mut self, bench: &mut Bench, board: usize) -> Option<Refusal> {
        let Some(rule) = RACK.get(board) else {
            return bench.run(board).err();
        };
        let mut words = bench.words(board);
        let wanted = match bench.open(board).first() {
            Some(message) => rule.react(&mut words, message).into_iter().flatten().count(),
            None => 0,
        };
        let sent = match bench.run(board) {
            Ok(sent) => sent,
            Err(refusal) => return Some(refusal),
        };
        self.runs[sent] += 1;
        self.dropped += (wanted - sent) as u64;
        if let [.., before, now] = bench.standing(board) {
            self.doubles_standing += u64::from(before == now);
        }
        None
    }

    fn outlook(&mut self, bench: &Bench) {
        let Some(outlook) = bench.outlook() else {
            self.outlooks_none += 1;
            return;
        };
        let open = (0..bench.boards()).any(|board| bench.open(board).first() == Some(&outlook));
        let plus =
            bench.transit().iter().any(|item| item.sign == Sign::Plus && item.message == outlook);
        self.outlooks_minus += u64::from(!open && !plus);
    }

    fn commit(&mut self, bench: &mut Bench, room: usize, log: &mut Vec<Message>) {
        let outlook = bench.outlook();
        let standing: usize = (0..bench.boards()).map(|board| bench.standing(board).len()).sum();
        let last = (0..bench.boards())
            .flat_map(|board| bench.standing(board))
            .filter(|message| outlook.is_none_or(|outlook| **message < outlook))
            .count();
        let mut lines = [Message::default(); ROOM];
        let count = bench.commit(&mut lines[..room]);
        log.extend_from_slice(&lines[..count]);
        self.lines += count as u64;
        self.most_lines = self.most_lines.max(count);
        self.commits_without_room += u64::from(room == 0);
        self.commits_held_back += u64::from(room > 0 && count == 0 && standing > 0);
        self.commits_cut += u64::from(count < last);
    }
}

impl Display for Survey {
    fn fmt(&self, f: &mut Formatter<'_>) -> fmt::Result {
        let mut row = |name: &str, value: u64| writeln!(f, "{name:<58} {value:>12}");
        row("schedules", self.schedules)?;
        row("bytes", self.bytes)?;
        row("longest, bytes", self.longest as u64)?;
        row("sound files of 60,000 bytes", self.at_longest)?;
        for (number, count) in self.faults.iter().enumerate().filter(|(number, _)| *number > 2) {
            row(&format!("files with fault {number}"), *count)?;
        }
        for (letter, count) in LETTERS.iter().zip(self.calls) {
            row(&format!("calls {letter}"), count)?;
        }
        for number in 0..32 {
            for (letter, counts) in LETTERS.iter().zip(&self.refusals) {
                if counts[number] > 0 {
                    row(&format!("refusals {number} of {letter}"), counts[number])?;
                }
            }
        }
        row("rollbacks", self.rollbacks_by_plus + self.rollbacks_by_minus)?;
        row("  by a plus", self.rollbacks_by_plus)?;
        row("  by a minus", self.rollbacks_by_minus)?;
        row("events undone", self.undone)?;
        row("  most by one delivery", self.deepest as u64)?;
        row("minuses sent", self.minuses)?;
        row("  delivered before their messages", self.overtaking)?;
        row("  met by their messages later", self.met)?;
        row("  took an open message", self.took_open)?;
        row("  took a standing message", self.took_standing)?;
        row("  had two or more equals", self.took_of_many)?;
        row("    of which one stood and the last was open", self.took_open_of_standing)?;
        row("pluses beside an equal in the in-row", self.doubled)?;
        row("runs after which two equals stand", self.doubles_standing)?;
        row("rows filled to 31", self.rows_at_31)?;
        row("rows filled to 32", self.rows_at_32)?;
        row("  by early minuses alone to 31", self.early_at_31)?;
        row("  by early minuses alone to 32", self.early_at_32)?;
        row("deliveries to a full board that needed no place", self.full_but_needless)?;
        for (place, count) in self.transit_at.iter().enumerate() {
            row(&format!("calls with {} items in transit", TRANSIT - 2 + place), *count)?;
        }
        row("rollbacks that filled transit exactly", self.exact_transit)?;
        row("rollbacks refused for one place in transit", self.one_short)?;
        for (sent, count) in self.runs.iter().enumerate() {
            row(&format!("runs that sent {sent}"), *count)?;
        }
        row("sends dropped", self.dropped)?;
        row("offers admitted at the last line's time", self.offers_at_last)?;
        row("outlooks with nothing outstanding", self.outlooks_none)?;
        row("outlooks that only minuses give", self.outlooks_minus)?;
        row("commits with no room", self.commits_without_room)?;
        row("commits with room, nothing final, some standing", self.commits_held_back)?;
        row("commits cut short by their room", self.commits_cut)?;
        row("lines", self.lines)?;
        row("  most by one commit", self.most_lines as u64)?;
        row("schedules that end with nothing left, after some lines", self.finished)
    }
}

#[cfg(test)]
mod tests {
    use super::*;
    use crate::check;
    use crate::generate;
    use crate::random::Random;

    #[test]
    fn random_schedules_are_sound_and_cover_much() {
        let mut survey = Survey::default();
        for stream in 0..3000 {
            let bytes = match stream % 50 {
                0 => generate::sound(&mut Random::new(11, stream), 4_000, 20_000),
                _ => generate::sound(&mut Random::new(11, stream), 20, 3_000),
            };
            survey.visit(&bytes).unwrap();
            check::listing(&bytes, &programs::play(&bytes)).unwrap();
        }
        for (letter, number) in
            [(0, 1), (0, 2), (0, 20), (0, 21), (1, 21), (1, 22), (1, 24), (2, 1), (2, 21), (2, 23)]
        {
            assert!(survey.refusals[letter][number] > 0, "{letter} {number}");
        }
        let counts = [
            survey.rollbacks_by_plus,
            survey.rollbacks_by_minus,
            survey.overtaking,
            survey.met,
            survey.took_open,
            survey.took_standing,
            survey.took_of_many,
            survey.doubles_standing,
            survey.rows_at_31,
            survey.rows_at_32,
            survey.full_but_needless,
            survey.offers_at_last,
            survey.commits_cut,
            survey.finished,
        ];
        assert!(counts.iter().all(|count| *count > 0), "{counts:?}");
        assert!(survey.transit_at.iter().all(|count| *count > 0));
    }
}

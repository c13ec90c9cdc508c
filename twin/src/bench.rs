//! The Time Warp bench: boards that react ahead of each other and are rolled back.

use crate::board::{self, Board, Words};
use crate::message::Message;
use crate::refusal::Refusal;

/// Most boards of a bench; a longer rack has its first eight on the bus.
pub const MOST_BOARDS: usize = 8;
/// Most items in transit.
pub const TRANSIT: usize = 128;
/// Most messages and early minuses together at one board.
pub const ROW: usize = 32;
/// Most offers that are admitted.
pub const OFFERS: u32 = 65_536;
/// Most runs that are accepted.
pub const RUNS: u32 = 1_000_000_000;
/// Most messages that one reaction sends.
const SENDS: usize = 2;

#[derive(Clone, Copy, Debug, PartialEq, Eq)]
pub enum Sign {
    /// A message on its way.
    Plus,
    /// An anti-message.
    Minus,
}

/// What is in transit.
#[derive(Clone, Copy, Debug, PartialEq, Eq)]
pub struct Item {
    pub sign: Sign,
    pub message: Message,
}

#[derive(Clone, Copy, Debug, PartialEq, Eq)]
pub struct Totals {
    pub committed: u64,
    pub standing: u64,
    pub undone: u64,
}

/// A bench whose boards can still be given start words.
#[derive(Clone, Debug)]
pub struct Setup {
    boards: Vec<(Board, Words)>,
    end_time: u32,
}

impl Setup {
    pub fn new(rack: &[Board], end_time: u32) -> Setup {
        let boards = rack.iter().take(MOST_BOARDS).map(|&board| (board, [0; 4])).collect();
        Setup { boards, end_time }
    }

    pub fn give(&mut self, address: usize, words: Words) -> Result<(), Refusal> {
        self.boards.get_mut(address).ok_or(Refusal::NoBoard)?.1 = words;
        Ok(())
    }

    pub fn start(self) -> Bench {
        Bench {
            lanes: self.boards.into_iter().map(|(board, words)| Lane::new(board, words)).collect(),
            end_time: self.end_time,
            transit: Vec::with_capacity(TRANSIT),
            offers: 0,
            runs: 0,
            committed: 0,
            undone: 0,
            last_time: 0,
        }
    }
}

/// A reaction that is neither undone nor committed.
#[derive(Clone, Copy, Debug)]
struct Event {
    /// The board's words before it.
    before: Words,
    /// How many messages it sent.
    sent: usize,
}

/// A board and what waits and stands at it.
#[derive(Clone, Debug)]
struct Lane {
    board: Board,
    words: Words,
    /// In order; the first `events.len()` are standing, the others open.
    in_row: Vec<Message>,
    events: Vec<Event>,
    /// In order.
    early: Vec<Message>,
    /// What the standing events sent, the oldest first.
    out_row: Vec<Message>,
    /// How many messages the committed events sent.
    sent_before: u32,
}

impl Lane {
    fn new(board: Board, words: Words) -> Lane {
        Lane {
            board,
            words,
            in_row: Vec::with_capacity(ROW),
            events: Vec::with_capacity(ROW),
            early: Vec::new(),
            out_row: Vec::with_capacity(SENDS * ROW),
            sent_before: 0,
        }
    }

    fn is_full(&self) -> bool {
        self.in_row.len() + self.early.len() >= ROW
    }

    fn standing(&self) -> &[Message] {
        &self.in_row[..self.events.len()]
    }

    fn first_open(&self) -> Option<&Message> {
        self.in_row.get(self.events.len())
    }

    /// How many messages the standing events from this one on sent.
    fn sent_from(&self, first: usize) -> usize {
        self.events.iter().skip(first).map(|event| event.sent).sum()
    }

    /// Undoes the standing events from this one on, and takes back what they sent.
    fn undo_from(&mut self, first: usize, transit: &mut Vec<Item>) -> usize {
        let undone = self.events.len().saturating_sub(first);
        if undone > 0 {
            let kept = self.out_row.len() - self.sent_from(first);
            self.words = self.events[first].before;
            self.events.truncate(first);
            transit.extend(
                self.out_row.drain(kept..).map(|message| Item { sign: Sign::Minus, message }),
            );
        }
        undone
    }

    /// Drops the first events, which are committed.
    fn forget(&mut self, count: usize) {
        let sent: usize = self.events.drain(..count).map(|event| event.sent).sum();
        self.in_row.drain(..count);
        self.out_row.drain(..sent);
        self.sent_before += sent as u32;
    }
}

/// A running bench.
#[derive(Clone, Debug)]
pub struct Bench {
    lanes: Vec<Lane>,
    end_time: u32,
    transit: Vec<Item>,
    offers: u32,
    runs: u32,
    committed: u64,
    undone: u64,
    /// The time of the last committed line, and 0 before the first.
    last_time: u32,
}

impl Bench {
    /// Puts a message from outside into transit and answers its number.
    pub fn offer(
        &mut self,
        time: u32,
        destination: u8,
        kind: u8,
        payload: u32,
    ) -> Result<u32, Refusal> {
        if usize::from(destination) >= self.lanes.len() {
            return Err(Refusal::NoBoard);
        }
        if time > self.end_time {
            return Err(Refusal::AfterEnd);
        }
        if time < self.last_time {
            return Err(Refusal::BeforeLine);
        }
        if self.offers >= OFFERS {
            return Err(Refusal::OffersSpent);
        }
        if self.transit.len() >= TRANSIT {
            return Err(Refusal::TransitFull);
        }
        let number = self.offers;
        let message = Message::offered(number, time, destination, kind, payload);
        self.transit.push(Item { sign: Sign::Plus, message });
        self.offers += 1;
        Ok(number)
    }

    /// Takes an item out of transit to its board and answers how many events were undone.
    pub fn deliver(&mut self, index: usize) -> Result<usize, Refusal> {
        let &Item { sign, message } = self.transit.get(index).ok_or(Refusal::NoItem)?;
        let lane = &mut self.lanes[usize::from(message.destination)];
        // The place behind the last message that is not greater.
        let after = lane.in_row.partition_point(|other| *other <= message);
        let undone = match sign {
            Sign::Plus => {
                if let Ok(at) = lane.early.binary_search(&message) {
                    lane.early.remove(at);
                    self.transit.remove(index);
                    return Ok(0);
                }
                if lane.is_full() {
                    return Err(Refusal::RowFull);
                }
                if self.transit.len() - 1 + lane.sent_from(after) > TRANSIT {
                    return Err(Refusal::TransitFull);
                }
                self.transit.remove(index);
                let undone = lane.undo_from(after, &mut self.transit);
                lane.in_row.insert(after, message);
                undone
            }
            Sign::Minus if after > 0 && lane.in_row[after - 1] == message => {
                let at = after - 1;
                if self.transit.len() - 1 + lane.sent_from(at) > TRANSIT {
                    return Err(Refusal::TransitFull);
                }
                self.transit.remove(index);
                let undone = lane.undo_from(at, &mut self.transit);
                lane.in_row.remove(at);
                undone
            }
            Sign::Minus => {
                if lane.is_full() {
                    return Err(Refusal::RowFull);
                }
                self.transit.remove(index);
                let at = lane.early.partition_point(|other| *other <= message);
                lane.early.insert(at, message);
                0
            }
        };
        self.undone += undone as u64;
        Ok(undone)
    }

    /// Lets a board react to its first open message and answers how many messages it sent.
    pub fn run(&mut self, address: usize) -> Result<usize, Refusal> {
        let boards = self.lanes.len();
        let lane = self.lanes.get_mut(address).ok_or(Refusal::NoBoard)?;
        let message = *lane.first_open().ok_or(Refusal::NothingOpen)?;
        if self.runs >= RUNS {
            return Err(Refusal::RunsSpent);
        }
        if self.transit.len() + SENDS > TRANSIT {
            return Err(Refusal::TransitFull);
        }
        let before = lane.words;
        let sends = lane.board.react(&mut lane.words, &message);
        let mut sent = 0;
        for send in sends.into_iter().flatten() {
            let number = lane.sent_before + lane.out_row.len() as u32;
            let addressed =
                board::address(send, message.time, address as u8, number, boards, self.end_time);
            if let Some(message) = addressed {
                lane.out_row.push(message);
                self.transit.push(Item { sign: Sign::Plus, message });
                sent += 1;
            }
        }
        lane.events.push(Event { before, sent });
        self.runs += 1;
        Ok(sent)
    }

    /// The least message outstanding.
    pub fn outlook(&self) -> Option<Message> {
        let waiting = self
            .lanes
            .iter()
            .flat_map(|lane| lane.first_open().into_iter().chain(lane.early.first()));
        let crossing = self.transit.iter().map(|item| &item.message);
        waiting.chain(crossing).min().copied()
    }

    /// Writes the least final messages into `lines`, as many as fit, and answers how many.
    pub fn commit(&mut self, lines: &mut [Message]) -> usize {
        let outlook = self.outlook();
        let mut taken = [0; MOST_BOARDS];
        let mut count = 0;
        while count < lines.len() {
            let fronts = self.lanes.iter().enumerate();
            let least =
                fronts.filter_map(|(k, lane)| Some((lane.standing().get(taken[k])?, k))).min();
            let Some((&message, k)) = least else { break };
            if outlook.is_some_and(|outlook| message >= outlook) {
                break;
            }
            lines[count] = message;
            count += 1;
            taken[k] += 1;
        }
        if count > 0 {
            for (lane, taken) in self.lanes.iter_mut().zip(taken) {
                lane.forget(taken);
            }
            self.committed += count as u64;
            self.last_time = lines[count - 1].time;
        }
        count
    }

    pub fn totals(&self) -> Totals {
        Totals {
            committed: self.committed,
            standing: self.lanes.iter().map(|lane| lane.events.len() as u64).sum(),
            undone: self.undone,
        }
    }

    // What follows shows the bench to tests, to the generator and to the survey.

    pub fn boards(&self) -> usize {
        self.lanes.len()
    }

    pub fn end_time(&self) -> u32 {
        self.end_time
    }

    /// The time below which no offer is admitted.
    pub fn last_time(&self) -> u32 {
        self.last_time
    }

    pub fn transit(&self) -> &[Item] {
        &self.transit
    }

    pub fn in_row(&self, address: usize) -> &[Message] {
        &self.lanes[address].in_row
    }

    pub fn standing(&self, address: usize) -> &[Message] {
        self.lanes[address].standing()
    }

    pub fn open(&self, address: usize) -> &[Message] {
        &self.lanes[address].in_row[self.lanes[address].events.len()..]
    }

    pub fn early(&self, address: usize) -> &[Message] {
        &self.lanes[address].early
    }

    pub fn out_row(&self, address: usize) -> &[Message] {
        &self.lanes[address].out_row
    }

    pub fn words(&self, address: usize) -> Words {
        self.lanes[address].words
    }

    /// In-row and early minuses together.
    pub fn held(&self, address: usize) -> usize {
        self.lanes[address].in_row.len() + self.lanes[address].early.len()
    }

    /// How many messages the standing events from this one on sent.
    pub fn sent_from(&self, address: usize, first: usize) -> usize {
        self.lanes[address].sent_from(first)
    }
}

#[cfg(test)]
mod tests;

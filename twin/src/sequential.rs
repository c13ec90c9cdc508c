//! The sequential machine, which takes one message after the other.

use std::cmp::Reverse;
use std::collections::BinaryHeap;

use crate::bench::MOST_BOARDS;
use crate::board::{self, Board, Words};
use crate::message::Message;

#[derive(Clone, Debug)]
struct Place {
    board: Board,
    words: Words,
    sent: u32,
}

/// The machine; as an iterator it answers its log, line by line.
#[derive(Clone, Debug)]
pub struct Machine {
    places: Vec<Place>,
    end_time: u32,
    pending: BinaryHeap<Reverse<Message>>,
}

impl Machine {
    /// A machine over boards with their start words; all stimuli are pending.
    pub fn new(
        boards: &[(Board, Words)],
        end_time: u32,
        stimuli: impl IntoIterator<Item = Message>,
    ) -> Machine {
        let places = boards.iter().take(MOST_BOARDS);
        Machine {
            places: places.map(|&(board, words)| Place { board, words, sent: 0 }).collect(),
            end_time,
            pending: stimuli.into_iter().map(Reverse).collect(),
        }
    }

    pub fn is_done(&self) -> bool {
        self.pending.is_empty()
    }

    pub fn words(&self, address: usize) -> Words {
        self.places[address].words
    }
}

impl Iterator for Machine {
    type Item = Message;

    fn next(&mut self) -> Option<Message> {
        let Reverse(message) = self.pending.pop()?;
        let boards = self.places.len();
        if let Some(place) = self.places.get_mut(usize::from(message.destination)) {
            for send in place.board.react(&mut place.words, &message).into_iter().flatten() {
                let (time, source) = (message.time, message.destination);
                let sent = board::address(send, time, source, place.sent, boards, self.end_time);
                if let Some(sent) = sent {
                    self.pending.push(Reverse(sent));
                    place.sent += 1;
                }
            }
        }
        Some(message)
    }
}

#[cfg(test)]
mod tests {
    use super::*;
    use crate::message::{BEAT, CARD, INQUIRY, OUTSIDE, TICK, VERDICT};

    fn line(
        time: u32,
        source: u8,
        number: u32,
        destination: u8,
        kind: u8,
        payload: u32,
    ) -> Message {
        Message { time, source, number, destination, kind, payload }
    }

    #[test]
    fn a_card_is_asked_about_and_answered() {
        let boards = [(Board::FareComputer, [0; 4]), (Board::Reader, [0; 4])];
        let cards = [Message::offered(0, 30, 1, CARD, 5), Message::offered(1, 10, 1, CARD, 77)];
        let mut machine = Machine::new(&boards, 100, cards);
        let log: Vec<Message> = machine.by_ref().collect();
        let expected = [
            cards[1],
            line(15, 1, 0, 0, INQUIRY, 77),
            line(18, 0, 0, 1, VERDICT, 1),
            cards[0],
            line(35, 1, 1, 0, INQUIRY, 5),
            line(38, 0, 1, 1, VERDICT, 1),
        ];
        assert_eq!(log, expected);
        assert!(machine.is_done());
        assert_eq!(machine.words(1), [0, 5, 2, 0]);
        assert_eq!(machine.words(0), [5, 2, 0, 0]);
    }

    #[test]
    fn a_ticker_ticks_on_until_the_end() {
        // Period 9, so a tick follows after 10; its beats go to itself.
        let boards = [(Board::Ticker, [9, 5, 0, 0])];
        let log: Vec<Message> =
            Machine::new(&boards, 21, [Message::offered(0, 1, 0, TICK, 0)]).collect();
        let expected = [
            line(1, OUTSIDE, 0, 0, TICK, 0),
            line(2, 0, 0, 0, BEAT, 1),
            line(11, 0, 1, 0, TICK, 0),
            line(12, 0, 2, 0, BEAT, 2),
            line(21, 0, 3, 0, TICK, 0),
        ];
        assert_eq!(log, expected);
    }
}

//! The boards and the rules by which they react.

use crate::message::{BEAT, CARD, INQUIRY, Message, TICK, VERDICT};

/// A board's four words.
pub type Words = [u32; 4];

/// What a reaction asks to be sent.
#[derive(Clone, Copy, Debug, PartialEq, Eq)]
pub struct Send {
    pub address: u8,
    pub lag: u16,
    pub kind: u8,
    pub payload: u32,
}

/// At most two sends, in order; where there is only one it is the first.
pub type Sends = [Option<Send>; 2];

const NONE: Sends = [None, None];

#[derive(Clone, Copy, Debug, PartialEq, Eq)]
pub enum Board {
    Ticker,
    Reader,
    FareComputer,
}

impl Board {
    /// Puts the words after the message in place and answers the sends.
    pub fn react(self, words: &mut Words, message: &Message) -> Sends {
        match self {
            Board::Ticker => ticker(words, message),
            Board::Reader => reader(words, message),
            Board::FareComputer => fare_computer(words, message),
        }
    }
}

fn ticker(words: &mut Words, message: &Message) -> Sends {
    let [period, left, address, count] = words;
    if message.kind != TICK {
        return NONE;
    }
    *count = count.wrapping_add(1);
    let beat = Send { address: *address as u8, lag: 0, kind: BEAT, payload: *count };
    if *left == 0 {
        return [Some(beat), None];
    }
    *left -= 1;
    let tick = Send { address: message.destination, lag: *period as u16, kind: TICK, payload: 0 };
    [Some(beat), Some(tick)]
}

fn reader(words: &mut Words, message: &Message) -> Sends {
    let [mode, card, accepted, refused] = words;
    match (message.kind, *mode) {
        (CARD, 0) => {
            *mode = 1;
            *card = message.payload;
            [Some(Send { address: 0, lag: 4, kind: INQUIRY, payload: message.payload }), None]
        }
        (VERDICT, 1) => {
            *mode = 0;
            let count = if message.payload % 2 == 1 { accepted } else { refused };
            *count = count.wrapping_add(1);
            NONE
        }
        _ => NONE,
    }
}

fn fare_computer(words: &mut Words, message: &Message) -> Sends {
    let [last, inquiries, beats, _spare] = words;
    match message.kind {
        INQUIRY => {
            let payload = u32::from(message.payload != *last);
            *last = message.payload;
            *inquiries = inquiries.wrapping_add(1);
            [Some(Send { address: message.source, lag: 2, kind: VERDICT, payload }), None]
        }
        BEAT => {
            *beats = beats.wrapping_add(1);
            NONE
        }
        _ => NONE,
    }
}

/// The message that a send of board `source` becomes, or none if it is dropped.
///
/// `time` is the time of the message that was reacted to, `boards` how many boards there are.
pub fn address(
    send: Send,
    time: u32,
    source: u8,
    number: u32,
    boards: usize,
    end_time: u32,
) -> Option<Message> {
    let due = u64::from(time) + 1 + u64::from(send.lag);
    if usize::from(send.address) >= boards || due > u64::from(end_time) {
        return None;
    }
    Some(Message {
        time: due as u32,
        source,
        number,
        destination: send.address,
        kind: send.kind,
        payload: send.payload,
    })
}

#[cfg(test)]
mod tests {
    use super::*;

    fn message(source: u8, destination: u8, kind: u8, payload: u32) -> Message {
        Message { time: 100, source, number: 0, destination, kind, payload }
    }

    fn react(board: Board, mut words: Words, message: Message) -> (Words, Sends) {
        let sends = board.react(&mut words, &message);
        (words, sends)
    }

    #[test]
    fn ticker_beats_and_ticks_on() {
        let (words, sends) =
            react(Board::Ticker, [65_536 + 7, 2, 256 + 3, u32::MAX], message(255, 5, TICK, 9));
        assert_eq!(words, [65_536 + 7, 1, 256 + 3, 0]);
        assert_eq!(sends[0], Some(Send { address: 3, lag: 0, kind: BEAT, payload: 0 }));
        assert_eq!(sends[1], Some(Send { address: 5, lag: 7, kind: TICK, payload: 0 }));
    }

    #[test]
    fn ticker_with_none_left_only_beats() {
        let (words, sends) = react(Board::Ticker, [0; 4], message(255, 2, TICK, 9));
        assert_eq!(words, [0, 0, 0, 1]);
        assert_eq!(sends, [Some(Send { address: 0, lag: 0, kind: BEAT, payload: 1 }), None]);
        for kind in [0, CARD, INQUIRY, VERDICT, BEAT, 6, 255] {
            assert_eq!(react(Board::Ticker, [1; 4], message(255, 2, kind, 9)), ([1; 4], NONE));
        }
    }

    #[test]
    fn reader_takes_a_card_and_waits() {
        let (words, sends) = react(Board::Reader, [0, 8, 1, 1], message(255, 1, CARD, 77));
        assert_eq!(words, [1, 77, 1, 1]);
        assert_eq!(sends, [Some(Send { address: 0, lag: 4, kind: INQUIRY, payload: 77 }), None]);
        assert_eq!(react(Board::Reader, words, message(255, 1, CARD, 5)), (words, NONE));
        let odd = react(Board::Reader, words, message(0, 1, VERDICT, 3));
        assert_eq!(odd, ([0, 77, 2, 1], NONE));
        let even = react(Board::Reader, words, message(0, 1, VERDICT, 0));
        assert_eq!(even, ([0, 77, 1, 2], NONE));
        assert_eq!(react(Board::Reader, odd.0, message(0, 1, VERDICT, 1)), (odd.0, NONE));
        // A mode other than 0 and 1 takes neither.
        let other = [2, 0, 0, 0];
        assert_eq!(react(Board::Reader, other, message(255, 1, CARD, 5)), (other, NONE));
        assert_eq!(react(Board::Reader, other, message(255, 1, VERDICT, 5)), (other, NONE));
    }

    #[test]
    fn fare_computer_refuses_a_card_twice_in_a_row() {
        let (words, sends) =
            react(Board::FareComputer, [0, u32::MAX, 0, 4], message(1, 0, INQUIRY, 77));
        assert_eq!(words, [77, 0, 0, 4]);
        assert_eq!(sends, [Some(Send { address: 1, lag: 2, kind: VERDICT, payload: 1 }), None]);
        let (words, sends) = react(Board::FareComputer, words, message(255, 0, INQUIRY, 77));
        assert_eq!(words, [77, 1, 0, 4]);
        assert_eq!(sends, [Some(Send { address: 255, lag: 2, kind: VERDICT, payload: 0 }), None]);
        let (words, sends) = react(Board::FareComputer, words, message(2, 0, BEAT, 77));
        assert_eq!((words, sends), ([77, 1, 1, 4], NONE));
    }

    #[test]
    fn sends_are_dropped_past_the_boards_and_the_end() {
        let send = Send { address: 2, lag: 4, kind: 9, payload: 3 };
        let sent = address(send, 10, 1, 6, 3, 15).unwrap();
        assert_eq!(
            sent,
            Message { time: 15, source: 1, number: 6, destination: 2, kind: 9, payload: 3 }
        );
        assert_eq!(address(send, 10, 1, 6, 2, 15), None);
        assert_eq!(address(send, 11, 1, 6, 3, 15), None);
        assert_eq!(address(send, u32::MAX - 4, 1, 6, 3, u32::MAX), None);
        assert!(address(send, u32::MAX - 5, 1, 6, 3, u32::MAX).is_some());
    }
}

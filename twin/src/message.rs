//! Messages, their kinds and their order.

/// The source of a message that was offered from outside.
pub const OUTSIDE: u8 = 255;

pub const TICK: u8 = 1;
pub const CARD: u8 = 2;
pub const INQUIRY: u8 = 3;
pub const VERDICT: u8 = 4;
pub const BEAT: u8 = 5;

/// A message. The order of the fields is the order by which messages are compared.
#[derive(Clone, Copy, Debug, Default, PartialEq, Eq, PartialOrd, Ord)]
pub struct Message {
    pub time: u32,
    pub source: u8,
    pub number: u32,
    pub destination: u8,
    pub kind: u8,
    pub payload: u32,
}

impl Message {
    /// The message of the offer with this number.
    pub fn offered(number: u32, time: u32, destination: u8, kind: u8, payload: u32) -> Message {
        Message { time, source: OUTSIDE, number, destination, kind, payload }
    }
}

#[cfg(test)]
mod tests {
    use super::*;

    #[test]
    fn fields_are_compared_in_order() {
        let low = Message { time: 5, source: 5, number: 5, destination: 5, kind: 5, payload: 5 };
        // Each message differs from `low` upwards in one field and downwards in all later ones.
        let above = [
            Message { time: 6, source: 0, number: 0, destination: 0, kind: 0, payload: 0 },
            Message { source: 6, number: 0, destination: 0, kind: 0, payload: 0, ..low },
            Message { number: 6, destination: 0, kind: 0, payload: 0, ..low },
            Message { destination: 6, kind: 0, payload: 0, ..low },
            Message { kind: 6, payload: 0, ..low },
            Message { payload: 6, ..low },
        ];
        for pair in above.windows(2) {
            assert!(pair[1] < pair[0]);
        }
        assert!(above.iter().all(|m| low < *m));
    }
}

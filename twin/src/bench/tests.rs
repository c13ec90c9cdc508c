//! Tests of the bench: each call, its refusals and their order, and random runs of other racks.

use super::*;
use crate::message::{BEAT, CARD, INQUIRY, OUTSIDE, TICK, VERDICT};
use crate::random::Random;
use crate::sequential::Machine;

const RACK: [Board; 3] = [Board::FareComputer, Board::Reader, Board::Ticker];
/// A kind to which no board reacts.
const IDLE: u8 = 9;

fn bench() -> Bench {
    Setup::new(&RACK, 1000).start()
}

fn message(time: u32, source: u8, number: u32, destination: u8, kind: u8, payload: u32) -> Message {
    Message { time, source, number, destination, kind, payload }
}

fn plus(message: Message) -> Item {
    Item { sign: Sign::Plus, message }
}

fn minus(message: Message) -> Item {
    Item { sign: Sign::Minus, message }
}

/// Offers a message and delivers it at once.
fn bring(bench: &mut Bench, time: u32, destination: u8, kind: u8) -> usize {
    bench.offer(time, destination, kind, 0).unwrap();
    bench.deliver(bench.transit.len() - 1).unwrap()
}

/// All that a refused call leaves alone.
fn shown(bench: &Bench) -> String {
    format!("{bench:?}")
}

/// The call is refused and changes nothing.
fn refused<T: std::fmt::Debug>(
    bench: &mut Bench,
    number: u8,
    call: impl FnOnce(&mut Bench) -> Result<T, Refusal>,
) {
    let before = shown(bench);
    assert_eq!(call(bench).unwrap_err().number(), number);
    assert_eq!(shown(bench), before);
}

fn commit(bench: &mut Bench, room: usize) -> Vec<Message> {
    let mut lines = vec![Message::default(); room];
    let count = bench.commit(&mut lines);
    lines.truncate(count);
    lines
}

#[test]
fn a_rollback_takes_back_what_was_sent() {
    let mut bench = bench();
    assert_eq!(bench.offer(10, 1, CARD, 77), Ok(0));
    assert_eq!(bench.offer(30, 1, CARD, 5), Ok(1));
    let (first, second) =
        (Message::offered(0, 10, 1, CARD, 77), Message::offered(1, 30, 1, CARD, 5));
    assert_eq!(bench.deliver(1), Ok(0));
    assert_eq!(bench.run(1), Ok(1));
    let inquiry = message(35, 1, 0, 0, INQUIRY, 5);
    assert_eq!(bench.transit(), [plus(first), plus(inquiry)]);
    assert_eq!((bench.standing(1), bench.words(1)), (&[second][..], [1, 5, 0, 0]));
    assert_eq!(bench.deliver(0), Ok(1));
    assert_eq!(bench.transit(), [plus(inquiry), minus(inquiry)]);
    assert_eq!((bench.open(1), bench.words(1)), (&[first, second][..], [0; 4]));
    assert!(bench.out_row(1).is_empty());
    assert_eq!(bench.outlook(), Some(first));
    // The minus comes first and waits.
    assert_eq!(bench.deliver(1), Ok(0));
    assert_eq!(bench.early(0), [inquiry]);
    assert_eq!(bench.deliver(0), Ok(0));
    assert_eq!(bench.held(0), 0);
    assert_eq!(bench.run(1), Ok(1));
    assert_eq!(commit(&mut bench, 8), [first]);
    assert_eq!(bench.totals(), Totals { committed: 1, standing: 0, undone: 1 });
}

#[test]
fn offers_are_checked_in_order() {
    let mut bench = bench();
    refused(&mut bench, 1, |bench| bench.offer(1001, 3, 0, 0));
    refused(&mut bench, 2, |bench| bench.offer(1001, 2, 0, 0));
    bring(&mut bench, 20, 0, IDLE);
    bench.run(0).unwrap();
    assert_eq!(bench.offer(5, 0, IDLE, 0), Ok(1));
    bench.deliver(0).unwrap();
    bench.run(0).unwrap();
    bench.run(0).unwrap();
    // With one line committed the bound is that line's time.
    assert_eq!(commit(&mut bench, 1)[0].time, 5);
    refused(&mut bench, 20, |bench| bench.offer(4, 0, 0, 0));
    assert_eq!(bench.offer(5, 0, IDLE, 0), Ok(2));
    while bench.transit.len() < TRANSIT {
        bench.offer(5, 0, IDLE, 0).unwrap();
    }
    refused(&mut bench, 21, |bench| bench.offer(5, 0, IDLE, 0));
    bench.offers = OFFERS;
    refused(&mut bench, 25, |bench| bench.offer(5, 0, IDLE, 0));
    refused(&mut bench, 20, |bench| bench.offer(4, 0, IDLE, 0));
    refused(&mut bench, 2, |bench| bench.offer(1001, 0, IDLE, 0));
    refused(&mut bench, 1, |bench| bench.offer(1001, 255, IDLE, 0));
}

#[test]
fn as_many_offers_as_are_admitted() {
    let mut bench = bench();
    for number in 0..OFFERS {
        assert_eq!(bench.offer(7, 0, IDLE, 0), Ok(number));
        bench.deliver(0).unwrap();
        bench.run(0).unwrap();
        assert_eq!(commit(&mut bench, 1).len(), 1);
    }
    refused(&mut bench, 25, |bench| bench.offer(7, 0, IDLE, 0));
}

#[test]
fn runs_are_checked_in_order() {
    let mut bench = bench();
    refused(&mut bench, 1, |bench| bench.run(3));
    refused(&mut bench, 23, |bench| bench.run(2));
    bring(&mut bench, 1, 2, IDLE);
    while bench.transit.len() < 126 {
        bench.offer(5, 0, IDLE, 0).unwrap();
    }
    assert_eq!(bench.run(2), Ok(0));
    refused(&mut bench, 23, |bench| bench.run(2));
    bring(&mut bench, 2, 2, IDLE);
    bench.offer(5, 0, IDLE, 0).unwrap();
    refused(&mut bench, 21, |bench| bench.run(2));
    bench.runs = RUNS;
    refused(&mut bench, 26, |bench| bench.run(2));
    refused(&mut bench, 23, |bench| bench.run(1));
    refused(&mut bench, 1, |bench| bench.run(8));
    bench.runs = RUNS - 1;
    bench.deliver(0).unwrap();
    assert_eq!(bench.run(2), Ok(0));
    refused(&mut bench, 26, |bench| bench.run(0));
}

#[test]
fn deliveries_need_an_item_and_a_place() {
    let mut bench = bench();
    refused(&mut bench, 24, |bench| bench.deliver(0));
    for _ in 0..ROW {
        bring(&mut bench, 50, 2, TICK);
    }
    bench.offer(1, 2, IDLE, 0).unwrap();
    refused(&mut bench, 24, |bench| bench.deliver(1));
    refused(&mut bench, 22, |bench| bench.deliver(0));
    // 32 standing ticks would be taken back too, but the place is asked for first.
    for _ in 0..ROW {
        bench.run(2).unwrap();
    }
    while bench.transit.len() < TRANSIT {
        bench.offer(60, 0, IDLE, 0).unwrap();
    }
    refused(&mut bench, 22, |bench| bench.deliver(0));
    // Other boards have places.
    assert_eq!(bench.deliver(1), Ok(0));
}

#[test]
fn a_rollback_needs_places_in_transit() {
    for (ticks, fill, sound) in [(1, 128, true), (2, 127, true), (2, 128, false), (3, 127, false)] {
        let mut bench = bench();
        bench.offer(1, 2, IDLE, 0).unwrap();
        for _ in 0..ticks {
            bring(&mut bench, 50, 2, TICK);
            bench.run(2).unwrap();
        }
        while bench.transit.len() < fill {
            bench.offer(60, 0, IDLE, 0).unwrap();
        }
        if sound {
            assert_eq!(bench.deliver(0), Ok(ticks));
            assert_eq!(bench.transit.len(), TRANSIT);
        } else {
            refused(&mut bench, 21, |bench| bench.deliver(0));
        }
    }
}

/// A ticker whose ticks were undone and run again: each beat crosses as plus, minus and plus.
fn echoed(ticks: usize) -> Bench {
    let mut bench = bench();
    for place in 0..ticks {
        bring(&mut bench, 50 + place as u32, 2, TICK);
    }
    for _ in 0..ticks {
        bench.run(2).unwrap();
    }
    assert_eq!(bring(&mut bench, 40, 2, IDLE), ticks);
    for _ in 0..=ticks {
        bench.run(2).unwrap();
    }
    bench
}

#[test]
fn minuses_go_out_in_order_of_number() {
    let bench = echoed(3);
    let beat = |number| message(51 + number, 2, number, 0, BEAT, number + 1);
    let expected = [
        plus(beat(0)),
        plus(beat(1)),
        plus(beat(2)),
        minus(beat(0)),
        minus(beat(1)),
        minus(beat(2)),
        plus(beat(0)),
        plus(beat(1)),
        plus(beat(2)),
    ];
    assert_eq!(bench.transit(), expected);
}

#[test]
fn a_minus_takes_the_last_equal() {
    let mut bench = echoed(1);
    let beat = message(51, 2, 0, 0, BEAT, 1);
    assert_eq!(bench.transit(), [plus(beat), minus(beat), plus(beat)]);
    // Both pluses stand: the last is undone and goes, and the first goes on standing.
    let mut both = bench.clone();
    both.deliver(2).unwrap();
    both.deliver(0).unwrap();
    both.run(0).unwrap();
    both.run(0).unwrap();
    assert_eq!(both.words(0), [0, 0, 2, 0]);
    assert_eq!(both.deliver(0), Ok(1));
    assert_eq!((both.standing(0), both.open(0)), (&[beat][..], &[][..]));
    assert_eq!(both.words(0), [0, 0, 1, 0]);
    // One stands and one is open: the open one goes and nothing is undone.
    bench.deliver(2).unwrap();
    bench.run(0).unwrap();
    bench.deliver(0).unwrap();
    assert_eq!((bench.standing(0).len(), bench.open(0).len()), (1, 1));
    assert_eq!(bench.deliver(0), Ok(0));
    assert_eq!((bench.standing(0).len(), bench.open(0).len()), (1, 0));
}

#[test]
fn an_equal_plus_undoes_nothing() {
    let mut bench = echoed(1);
    bench.deliver(0).unwrap();
    bench.run(0).unwrap();
    assert_eq!(bench.deliver(1), Ok(0));
    assert_eq!((bench.standing(0).len(), bench.open(0).len()), (1, 1));
}

#[test]
fn a_full_board_still_cancels() {
    // Early minuses fill the board; their pluses need no place.
    let mut bench = echoed(31);
    for _ in 0..31 {
        assert_eq!(bench.deliver(31), Ok(0));
    }
    assert_eq!(bench.early(0).len(), 31);
    bring(&mut bench, 900, 0, IDLE);
    assert_eq!(bench.held(0), ROW);
    bench.offer(901, 0, IDLE, 0).unwrap();
    let last = bench.transit.len() - 1;
    refused(&mut bench, 22, |bench| bench.deliver(last));
    assert_eq!(bench.deliver(0), Ok(0));
    assert_eq!(bench.held(0), ROW - 1);
    // Messages fill the board; their minuses need no place.
    let mut bench = echoed(31);
    for _ in 0..31 {
        assert_eq!(bench.deliver(0), Ok(0));
    }
    bring(&mut bench, 900, 0, IDLE);
    assert_eq!(bench.held(0), ROW);
    refused(&mut bench, 22, |bench| bench.deliver(40));
    assert_eq!(bench.deliver(0), Ok(0));
    assert_eq!(bench.held(0), ROW - 1);
    assert_eq!(bench.deliver(40), Ok(0));
}

#[test]
fn a_minus_undoes_the_standing_message_and_those_after_it() {
    let mut bench = echoed(1);
    let beat = message(51, 2, 0, 0, BEAT, 1);
    bench.deliver(2).unwrap();
    bring(&mut bench, 52, 0, BEAT);
    bring(&mut bench, 45, 0, BEAT);
    for _ in 0..3 {
        bench.run(0).unwrap();
    }
    assert_eq!(bench.words(0), [0, 0, 3, 0]);
    assert_eq!(bench.deliver(1), Ok(2));
    assert!(!bench.in_row(0).contains(&beat));
    assert_eq!((bench.standing(0).len(), bench.open(0).len()), (1, 1));
    assert_eq!(bench.words(0), [0, 0, 1, 0]);
    assert_eq!(bench.totals().undone, 3);
}

#[test]
fn a_ticker_with_ticks_left_sends_two() {
    let mut setup = Setup::new(&RACK, 1000);
    setup.give(2, [9, 2, 256, 0]).unwrap();
    assert_eq!(setup.give(3, [0; 4]), Err(Refusal::NoBoard));
    let mut bench = setup.start();
    bring(&mut bench, 10, 2, TICK);
    assert_eq!(bench.run(2), Ok(2));
    let (beat, tick) = (message(11, 2, 0, 0, BEAT, 1), message(20, 2, 1, 2, TICK, 0));
    assert_eq!(bench.transit(), [plus(beat), plus(tick)]);
    assert_eq!(bench.out_row(2), [beat, tick]);
}

#[test]
fn a_dropped_send_takes_no_number() {
    // The beats go to an absent board, so that only ticks are numbered.
    let mut setup = Setup::new(&RACK, 1000);
    setup.give(2, [9, 2, 3, 0]).unwrap();
    let mut bench = setup.start();
    bring(&mut bench, 10, 2, TICK);
    assert_eq!(bench.run(2), Ok(1));
    assert_eq!(bench.transit(), [plus(message(20, 2, 0, 2, TICK, 0))]);
    bench.deliver(0).unwrap();
    assert_eq!(bench.run(2), Ok(1));
    assert_eq!(bench.transit(), [plus(message(30, 2, 1, 2, TICK, 0))]);
    // Past the end time: a card at 996 asks at 1001.
    bring(&mut bench, 996, 1, CARD);
    assert_eq!(bench.run(1), Ok(0));
    assert_eq!(bench.words(1), [1, 0, 0, 0]);
}

#[test]
fn numbers_go_on_after_a_commit() {
    let mut bench = bench();
    bring(&mut bench, 10, 2, TICK);
    bring(&mut bench, 20, 2, TICK);
    bench.run(2).unwrap();
    assert_eq!(commit(&mut bench, 8).len(), 1);
    assert!(bench.out_row(2).is_empty());
    bench.run(2).unwrap();
    assert_eq!(bench.transit()[1], plus(message(21, 2, 1, 0, BEAT, 2)));
}

#[test]
fn lines_come_in_order_from_all_boards() {
    let mut bench = bench();
    for (time, board) in [(30, 0), (10, 2), (20, 1), (20, 0), (40, 1)] {
        bring(&mut bench, time, board, IDLE);
    }
    for board in [0, 0, 1, 1, 2] {
        bench.run(board).unwrap();
    }
    let mut held_back = bench.clone();
    held_back.offer(30, 2, IDLE, 0).unwrap();
    let times = |lines: Vec<Message>| -> Vec<(u32, u32)> {
        lines.iter().map(|line| (line.time, line.number)).collect()
    };
    assert_eq!(commit(&mut bench, 0), []);
    assert_eq!(times(commit(&mut bench, 3)), [(10, 1), (20, 2), (20, 3)]);
    assert_eq!(times(commit(&mut bench, 3)), [(30, 0), (40, 4)]);
    assert_eq!(bench.totals(), Totals { committed: 5, standing: 0, undone: 0 });
    assert_eq!(bench.outlook(), None);
    // An outstanding message at 30 with a greater number holds back only what is after it.
    assert_eq!(times(commit(&mut held_back, 9)), [(10, 1), (20, 2), (20, 3), (30, 0)]);
    assert_eq!(held_back.totals().standing, 1);
}

#[test]
fn minuses_are_outstanding() {
    let mut bench = echoed(1);
    let beat = message(51, 2, 0, 0, BEAT, 1);
    bench.deliver(2).unwrap();
    bench.deliver(0).unwrap();
    bench.run(0).unwrap();
    bench.run(0).unwrap();
    // Only the minus is left in transit; it holds back the equal standing messages.
    assert_eq!(bench.transit(), [minus(beat)]);
    assert_eq!(bench.outlook(), Some(beat));
    let lines = commit(&mut bench, 9);
    assert!(lines.iter().all(|line| line.source == OUTSIDE));
    assert_eq!(lines.len(), 2);
    assert_eq!(bench.totals(), Totals { committed: 2, standing: 2, undone: 1 });
}

#[test]
fn a_long_rack_has_its_first_eight_boards_on_the_bus() {
    let mut setup = Setup::new(&[Board::Ticker; 12], 1000);
    assert_eq!(setup.give(7, [0, 0, 8, 0]), Ok(()));
    assert_eq!(setup.give(8, [0; 4]), Err(Refusal::NoBoard));
    let mut bench = setup.start();
    assert_eq!(bench.boards(), 8);
    refused(&mut bench, 1, |bench| bench.offer(1, 8, TICK, 0));
    refused(&mut bench, 1, |bench| bench.run(8));
    bring(&mut bench, 1, 7, TICK);
    assert_eq!(bench.run(7), Ok(0));
}

/// Random calls on racks whose tickers tick on; the lines are a front of the sequential log.
#[test]
fn random_runs_of_other_racks() {
    let kinds = [Board::FareComputer, Board::Reader, Board::Ticker, Board::Ticker];
    let (mut undone, mut committed, mut full) = (0, 0, 0);
    for stream in 0..1500 {
        let random = &mut Random::new(21, stream);
        let mut boards = vec![(Board::FareComputer, [0; 4])];
        for _ in 0..random.below(10) {
            let words = [
                random.below(12) as u32,
                random.below(6) as u32,
                random.below(9) as u32,
                random.next() as u32,
            ];
            let board = random.pick(&kinds);
            boards.push((board, if board == Board::Ticker { words } else { [0; 4] }));
        }
        let end_time = random.pick(&[60, 300, u32::MAX]);
        let rack: Vec<Board> = boards.iter().map(|(board, _)| *board).collect();
        let mut setup = Setup::new(&rack, end_time);
        for (address, (_, words)) in boards.iter().take(MOST_BOARDS).enumerate() {
            setup.give(address, *words).unwrap();
        }
        let mut bench = setup.start();
        let count = boards.len().min(MOST_BOARDS);
        let (mut stimuli, mut lines) = (Vec::new(), Vec::new());
        for _ in 0..random.pick(&[30, 300, 1500]) {
            match random.weighted(&[2, 5, 5, 1]) {
                0 => {
                    let (time, board) =
                        (bench.last_time + random.below(40) as u32, random.below(count));
                    let kind = random.pick(&[TICK, TICK, CARD, CARD, INQUIRY, VERDICT, IDLE]);
                    let payload = random.below(3) as u32;
                    if let Ok(number) = bench.offer(time, board as u8, kind, payload) {
                        stimuli.push(Message::offered(number, time, board as u8, kind, payload));
                    }
                }
                1 => {
                    let index = random.below(bench.transit.len());
                    full += u64::from(bench.deliver(index) == Err(Refusal::RowFull));
                }
                2 => {
                    let _ = bench.run(random.below(count));
                }
                _ => lines.extend(commit(&mut bench, random.below(20))),
            }
        }
        undone += bench.totals().undone;
        committed += bench.totals().committed;
        let machine = Machine::new(&boards, end_time, stimuli);
        let log: Vec<Message> = machine.take(lines.len()).collect();
        assert_eq!(lines, log, "stream {stream}");
    }
    assert!(undone > 1000 && committed > 1000 && full > 0, "{undone} {committed} {full}");
}

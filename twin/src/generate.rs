//! Random schedules: each is made beside a running twin, so that its calls can be chosen to matter.

use crate::bench::{Bench, ROW, Sign, TRANSIT};
use crate::message::{BEAT, CARD, INQUIRY, Message, TICK, VERDICT};
use crate::programs;
use crate::random::Random;
use crate::refusal::Refusal;
use crate::schedule::{self, Call, HEADER, LONGEST};

/// After so many refusals in a row a schedule ends: most likely full rows and full transit bar each other.
const WEDGED: usize = 60;

/// A random file: a sound schedule, or a damaged one.
pub fn file(random: &mut Random) -> Vec<u8> {
    match random.weighted(&[600, 170, 10, 3, 140, 40, 4]) {
        0 => sound(random, 20, 600),
        1 => sound(random, 600, 4_000),
        2 => sound(random, 4_000, LONGEST),
        3 => {
            let mut bytes = sound(random, LONGEST, LONGEST);
            for _ in 0..4 {
                if bytes.len() > LONGEST / 2 {
                    break;
                }
                bytes = sound(random, LONGEST, LONGEST);
            }
            let length = random.between(LONGEST - 2, LONGEST).max(bytes.len());
            bytes.resize(length, b'g');
            bytes
        }
        4 => damaged(random),
        5 => garbage(random),
        _ => {
            let mut bytes = sound(random, 20, LONGEST);
            let length = LONGEST + random.pick(&[1, 1, 2, 100, 10_000]);
            bytes.resize(length, random.pick(b"gdx\0"));
            bytes
        }
    }
}

/// A sound schedule of about `low` to `high` bytes.
pub fn sound(random: &mut Random, low: usize, high: usize) -> Vec<u8> {
    let limit = random.between(low, high);
    let end_time = end_time(random);
    let mut author = Author::new(end_time, limit);
    if random.chance(25) {
        // So near to the end that sends are dropped.
        author.clock = end_time.saturating_sub(random.between(0, 80) as u32);
    }
    while !author.full {
        let crowded = author.bench.transit().len() > 60
            || (0..author.bench.boards()).any(|board| author.bench.held(board) > 24);
        if crowded && random.chance(80) {
            tidy(&mut author);
        }
        if author.refused > WEDGED {
            break;
        }
        scene(&mut author, random);
    }
    author.bytes
}

fn end_time(random: &mut Random) -> u32 {
    match random.below(10) {
        0 => random.between(0, 40) as u32,
        1 | 2 => u32::MAX - random.between(0, 3) as u32,
        3 => random.next() as u32,
        4 => 100_000,
        5 => 65_536,
        6 => 400,
        _ => 1_000,
    }
}

fn damaged(random: &mut Random) -> Vec<u8> {
    let mut bytes = sound(random, 20, 600);
    let length = bytes.len();
    match random.below(9) {
        0 => bytes.truncate(random.below(HEADER)),
        1 | 2 => bytes.truncate(random.below(length + 1)),
        3 => {
            bytes[0] = random.next() as u8;
            bytes[1] = random.pick(&[0, 0, 1, 255]);
        }
        4 | 5 => {
            for _ in 0..random.between(1, 3) {
                bytes[random.between(2, length - 1)] ^= 1 << random.below(8);
            }
        }
        6 => {
            bytes[random.between(HEADER.min(length - 1), length - 1)] = random.next() as u8;
        }
        7 => {
            bytes.remove(random.below(length));
        }
        _ => bytes.insert(random.below(length + 1), random.pick(b"odrgcODx\0\xFF")),
    }
    bytes
}

/// A header and letters with any numbers behind them.
fn garbage(random: &mut Random) -> Vec<u8> {
    let mut bytes = schedule::header(random.pick(&[0, 5, 1000, u32::MAX]));
    for _ in 0..random.below(60) {
        if random.chance(97) {
            any_call(random).write(&mut bytes);
        } else {
            bytes.push(random.next() as u8);
        }
    }
    bytes
}

fn any_call(random: &mut Random) -> Call {
    match random.below(5) {
        0 => Call::Offer {
            time: random.next() as u32 >> random.below(32),
            destination: random.next() as u8 >> random.below(8),
            kind: random.next() as u8 >> random.below(8),
            payload: random.next() as u32 >> random.below(32),
        },
        1 => Call::Deliver { index: random.next() as u16 >> random.below(16) },
        2 => Call::Run { board: random.next() as u8 >> random.below(8) },
        3 => Call::Outlook,
        _ => Call::Commit { most: random.next() as u16 >> random.below(16) },
    }
}

/// Writes a schedule call by call, and makes each call on a bench of its own too.
pub struct Author {
    pub bench: Bench,
    pub bytes: Vec<u8>,
    /// About the latest time that was offered.
    pub clock: u32,
    /// Whether a call did not fit any more.
    pub full: bool,
    /// How many offers, deliveries and runs were refused since one was not.
    refused: usize,
    limit: usize,
    lines: Vec<Message>,
}

impl Author {
    pub fn new(end_time: u32, limit: usize) -> Author {
        Author {
            bench: programs::bench(end_time),
            bytes: schedule::header(end_time),
            clock: 0,
            full: false,
            refused: 0,
            limit: limit.min(LONGEST),
            lines: vec![Message::default(); programs::ROOM],
        }
    }

    /// Makes a call, and answers what it answered; nothing if the file has no room for it.
    pub fn call(&mut self, call: Call) -> Option<Result<usize, Refusal>> {
        if self.bytes.len() + call.length() > self.limit {
            self.full = true;
        }
        if self.full {
            return None;
        }
        call.write(&mut self.bytes);
        let answer = match call {
            Call::Offer { time, destination, kind, payload } => {
                self.bench.offer(time, destination, kind, payload).map(|number| number as usize)
            }
            Call::Deliver { index } => self.bench.deliver(usize::from(index)),
            Call::Run { board } => self.bench.run(usize::from(board)),
            Call::Outlook => Ok(0),
            Call::Commit { most } => {
                let room = usize::from(most).min(programs::ROOM);
                Ok(self.bench.commit(&mut self.lines[..room]))
            }
        };
        match (call, answer) {
            (_, Err(_)) => self.refused += 1,
            (Call::Outlook, _) | (Call::Commit { .. }, Ok(0)) => {}
            _ => self.refused = 0,
        }
        Some(answer)
    }

    pub fn offer(&mut self, time: u32, destination: u8, kind: u8, payload: u32) -> bool {
        let answer = self.call(Call::Offer { time, destination, kind, payload });
        matches!(answer, Some(Ok(_)))
    }

    pub fn deliver(&mut self, index: usize) -> bool {
        matches!(self.call(Call::Deliver { index: index as u16 }), Some(Ok(_)))
    }

    pub fn deliver_last(&mut self) -> bool {
        self.deliver(self.bench.transit().len().saturating_sub(1))
    }

    pub fn run(&mut self, board: usize) -> bool {
        matches!(self.call(Call::Run { board: board as u8 }), Some(Ok(_)))
    }

    pub fn outlook(&mut self) {
        self.call(Call::Outlook);
    }

    /// Answers how many lines were committed.
    pub fn commit(&mut self, most: u16) -> usize {
        self.call(Call::Commit { most }).and_then(Result::ok).unwrap_or(0)
    }

    /// Runs a board until nothing is open there or a run is refused.
    pub fn run_all(&mut self, board: usize) {
        while !self.full && !self.bench.open(board).is_empty() && self.run(board) {}
    }

    /// A later time than those before, or one that is possible if these are at their end.
    pub fn advance(&mut self, step: u32) -> u32 {
        let end = self.bench.end_time();
        self.clock = match self.clock.checked_add(step) {
            Some(time) if time <= end => time,
            _ => self.bench.last_time(),
        };
        self.clock
    }

    /// The first item in transit of which this is true.
    fn item(&self, wanted: impl Fn(Sign, &Message) -> bool) -> Option<usize> {
        self.bench.transit().iter().position(|item| wanted(item.sign, &item.message))
    }
}

/// How the next item to deliver is chosen.
#[derive(Clone, Copy)]
enum Choice {
    Any,
    Oldest,
    Newest,
    Greatest,
    Least,
    /// A minus whose plus is still in transit.
    Overtaking,
    /// The one that undoes most.
    Straggler,
    Absent,
}

const CHOICES: [Choice; 10] = [
    Choice::Any,
    Choice::Any,
    Choice::Oldest,
    Choice::Newest,
    Choice::Greatest,
    Choice::Least,
    Choice::Overtaking,
    Choice::Overtaking,
    Choice::Straggler,
    Choice::Absent,
];

fn choose(author: &Author, random: &mut Random, choice: Choice) -> usize {
    let transit = author.bench.transit();
    let any = random.below(transit.len());
    let by_message = |place: &usize| transit[*place].message;
    match choice {
        Choice::Any => any,
        Choice::Oldest => 0,
        Choice::Newest => transit.len().saturating_sub(1),
        Choice::Greatest => (0..transit.len()).max_by_key(by_message).unwrap_or(0),
        Choice::Least => (0..transit.len()).min_by_key(by_message).unwrap_or(0),
        Choice::Overtaking => (0..transit.len())
            .rev()
            .find(|place| {
                let item = transit[*place];
                item.sign == Sign::Minus
                    && transit
                        .iter()
                        .any(|other| other.sign == Sign::Plus && other.message == item.message)
            })
            .unwrap_or(any),
        Choice::Straggler => (0..transit.len())
            .max_by_key(|place| {
                let message = transit[*place].message;
                let standing = author.bench.standing(usize::from(message.destination));
                standing.iter().filter(|other| **other >= message).count()
            })
            .unwrap_or(0),
        Choice::Absent => transit.len() + random.pick(&[0, 0, 1, 200, 60_000]),
    }
}

fn scene(author: &mut Author, random: &mut Random) {
    match random.weighted(&[30, 25, 8, 8, 8, 10, 14, 12, 14, 8, 1, 3]) {
        0 => jumble(author, random),
        1 => ahead(author, random),
        2 => fill_row(author, random),
        3 => fill_early(author, random),
        4 => fill_transit(author, random),
        5 => echo(author, random),
        6 => drain(author, random),
        7 => lines(author, random),
        8 => orderly(author, random),
        9 => cascade(author, random),
        10 => full_house(author, random),
        _ => {
            let calls = random.between(1, 8);
            for _ in 0..calls {
                author.call(any_call(random));
            }
        }
    }
}

fn payload(random: &mut Random) -> u32 {
    match random.below(8) {
        0 => random.next() as u32,
        1 => u32::MAX,
        _ => random.below(4) as u32,
    }
}

/// A kind that the board reacts to, in most cases.
fn kind_for(board: usize, random: &mut Random) -> u8 {
    if random.chance(12) {
        return random.pick(&[0, 1, 2, 3, 4, 5, 6, 9, 255]);
    }
    match board {
        0 => random.pick(&[INQUIRY, BEAT]),
        1 => random.pick(&[CARD, CARD, VERDICT]),
        _ => TICK,
    }
}

/// A time that is often at or below a bound.
fn any_time(author: &mut Author, random: &mut Random) -> u32 {
    let last = author.bench.last_time();
    let end = author.bench.end_time();
    match random.below(16) {
        0 => last,
        1 => last.wrapping_sub(1),
        2 => last / 2,
        3 => end,
        4 => end.wrapping_add(1),
        5 => random.next() as u32 >> random.below(32),
        6..=9 => last.saturating_add(random.below(30) as u32),
        _ => author.advance(random.below(6) as u32),
    }
}

/// A time before all that waits and stands at a board, if there is one.
fn early_time(author: &Author, random: &mut Random, board: usize) -> u32 {
    let last = author.bench.last_time();
    let first = author.bench.in_row(board).first().map_or(author.clock, |message| message.time);
    let span = first.saturating_sub(last) as usize;
    last + if random.chance(60) { span.saturating_sub(1) } else { random.below(span + 1) } as u32
}

fn any_offer(author: &mut Author, random: &mut Random) -> bool {
    let board = if random.chance(3) { random.between(3, 255) } else { random.below(3) };
    let time = any_time(author, random);
    let kind = kind_for(board, random);
    author.offer(time, board as u8, kind, payload(random))
}

fn any_run(author: &mut Author, random: &mut Random) -> bool {
    let boards = author.bench.boards();
    if random.chance(3) {
        return author.run(random.pick(&[3, 3, 4, 7, 8, 255]));
    }
    let start = random.below(boards);
    let ready = (0..boards)
        .map(|step| (start + step) % boards)
        .find(|board| !author.bench.open(*board).is_empty());
    match ready {
        Some(board) if random.chance(92) => author.run(board),
        _ => random.chance(20) && author.run(start),
    }
}

fn any_most(random: &mut Random) -> u16 {
    match random.below(12) {
        0 => 0,
        1..=3 => 1,
        4 | 5 => 2,
        6 => random.pick(&[255, 256, 257, 65_535]),
        7 => random.next() as u16,
        _ => random.between(1, 40) as u16,
    }
}

/// Calls of all letters, with weights and choices that stay the same for a while.
fn jumble(author: &mut Author, random: &mut Random) {
    let mut weights = [0; 5];
    for weight in &mut weights {
        *weight = random.pick(&[1, 2, 5, 10, 20]);
    }
    weights[3] = random.pick(&[0, 1, 3]);
    weights[4] = random.pick(&[0, 1, 2, 6]);
    let choice = random.pick(&CHOICES);
    let calls = random.between(5, 120);
    for _ in 0..calls {
        if author.full {
            return;
        }
        match random.weighted(&weights) {
            0 => {
                any_offer(author, random);
            }
            1 if author.bench.transit().is_empty() && random.chance(90) => {
                any_offer(author, random);
            }
            1 => {
                let choice = if random.chance(70) { choice } else { Choice::Any };
                author.deliver(choose(author, random, choice));
            }
            2 => {
                any_run(author, random);
            }
            3 => author.outlook(),
            _ => {
                author.commit(any_most(random));
            }
        }
    }
}

/// Delivers items as chosen; stops where one is refused.
fn cross(author: &mut Author, random: &mut Random, most: usize, choice: Choice) {
    for _ in 0..most {
        if author.full || author.bench.transit().is_empty() {
            return;
        }
        if !author.deliver(choose(author, random, choice)) && random.chance(70) {
            return;
        }
    }
}

/// Offers messages to a board and delivers each at once.
fn feed(author: &mut Author, random: &mut Random, board: usize, count: usize) {
    for _ in 0..count {
        if author.full {
            return;
        }
        let step = random.below(4) as u32;
        let time = author.advance(step);
        let kind = kind_for(board, random);
        if author.offer(time, board as u8, kind, payload(random)) && !author.deliver_last() {
            return;
        }
    }
}

/// Offers a message that should have come earlier, and delivers it at once in most cases.
fn straggle(author: &mut Author, random: &mut Random, board: usize) -> bool {
    let time = early_time(author, random, board);
    let kind = if random.chance(50) { 9 } else { kind_for(board, random) };
    author.offer(time, board as u8, kind, payload(random))
        && random.chance(90)
        && author.deliver_last()
}

/// A board runs ahead, is rolled back by stragglers, and its minuses meet their pluses.
fn ahead(author: &mut Author, random: &mut Random) {
    let board = random.pick(&[0, 1, 1, 2, 2, 2]);
    let count = random.pick(&[1, 2, 3, 5, 8, 12, 20, 30]);
    feed(author, random, board, count);
    author.run_all(board);
    if random.chance(40) {
        // What it sent is delivered and run too, so that minuses find standing messages.
        cross(author, random, 40, Choice::Any);
        for other in [0, 1, 2] {
            if random.chance(60) {
                author.run_all(other);
            }
        }
    }
    for _ in 0..random.between(1, 3) {
        straggle(author, random, board);
        if random.chance(30) {
            author.outlook();
        }
        let most = random.pick(&[0, 1, 3, 10, 100]);
        let choice = random.pick(&CHOICES[..9]);
        cross(author, random, most, choice);
        author.run_all(board);
        if random.chance(50) {
            author.commit(any_most(random));
        }
    }
}

/// Fills a board's in-row to its end and knocks at it.
fn fill_row(author: &mut Author, random: &mut Random) {
    let board = random.below(3);
    let target = random.between(ROW - 2, ROW);
    let stand = random.below(101);
    let mut tries = 60;
    while !author.full && author.bench.held(board) < target && tries > 0 {
        tries -= 1;
        let step = random.below(3) as u32;
        let time = author.advance(step);
        let kind = kind_for(board, random);
        author.offer(time, board as u8, kind, payload(random));
        if random.chance(97) {
            author.deliver_last();
        }
        if random.chance(stand) {
            author.run(board);
        }
    }
    for _ in 0..random.between(1, 6) {
        match random.below(6) {
            0 | 1 => {
                straggle(author, random, board);
            }
            2 => {
                author.run(board);
            }
            3 => {
                author.commit(random.pick(&[1, 1, 2, 40]));
            }
            4 => feed(author, random, board, 2),
            _ => {
                author.deliver(choose(author, random, Choice::Any));
            }
        }
    }
    if random.chance(60) {
        author.run_all(board);
        author.commit(any_most(random));
    }
}

/// Fills a board with minuses that came before their messages.
fn fill_early(author: &mut Author, random: &mut Random) {
    let minus = |sign, _: &Message| sign == Sign::Minus;
    let count = random.between(10, 31);
    feed(author, random, 2, count);
    for _ in 0..random.between(1, 4) {
        author.run_all(2);
        straggle(author, random, 2);
        while !author.full {
            let Some(index) = author.item(minus) else { break };
            if !author.deliver(index) {
                break;
            }
        }
        if random.chance(50) {
            author.run(2);
            author.commit(1);
        }
    }
    for _ in 0..random.between(1, 10) {
        match random.below(8) {
            0 => feed(author, random, 0, 3),
            1 => {
                author.run(0);
            }
            2 => {
                if let Some(index) = author.item(minus) {
                    author.deliver(index);
                }
            }
            3 => author.outlook(),
            4 => {
                author.commit(any_most(random));
            }
            _ => {
                let choice = random.pick(&[Choice::Any, Choice::Oldest, Choice::Newest]);
                author.deliver(choose(author, random, choice));
            }
        }
    }
    if random.chance(70) {
        cross(author, random, 200, Choice::Oldest);
    }
}

/// Fills transit to its end and makes calls that need places there.
fn fill_transit(author: &mut Author, random: &mut Random) {
    let board = random.pick(&[1, 2, 2, 2]);
    let count = random.between(1, 16);
    feed(author, random, board, count);
    let kept = random.below(3);
    while !author.full && author.bench.open(board).len() > kept && author.run(board) {}
    if random.chance(30) {
        cross(author, random, 10, Choice::Any);
        author.run_all(0);
    }
    let early = early_time(author, random, board);
    let straggler = author.bench.transit().len();
    let offered = author.offer(early, board as u8, 9, 0);
    let target = random.between(TRANSIT - 3, TRANSIT);
    let mut tries = 140;
    while !author.full && author.bench.transit().len() < target && tries > 0 {
        tries -= 1;
        any_offer(author, random);
    }
    if offered && random.chance(70) {
        author.deliver(straggler);
    }
    for _ in 0..random.between(1, 12) {
        match random.below(8) {
            0 => {
                any_offer(author, random);
            }
            1 | 2 => {
                any_run(author, random);
            }
            3 => {
                author.deliver(choose(author, random, Choice::Straggler));
            }
            4 => {
                author.deliver(choose(author, random, Choice::Any));
            }
            5 => {
                author.commit(any_most(random));
            }
            6 => author.outlook(),
            _ => {
                author.run_all(board);
            }
        }
    }
    if random.chance(60) {
        cross(author, random, 150, Choice::Least);
    }
}

/// A board sends the same message again after a rollback, so that equal messages meet.
fn echo(author: &mut Author, random: &mut Random) {
    let board = random.pick(&[1, 2, 2]);
    let step = random.between(2, 9) as u32;
    let count = random.between(1, 4);
    for _ in 0..count {
        let time = author.advance(step);
        let kind = if board == 1 { CARD } else { TICK };
        if author.offer(time, board as u8, kind, payload(random)) {
            author.deliver_last();
        }
    }
    author.run_all(board);
    let pluses = |author: &mut Author, random: &mut Random| {
        while !author.full && random.chance(92) {
            let sent = |sign, message: &Message| sign == Sign::Plus && message.source < 8;
            let Some(index) = author.item(sent) else { break };
            if !author.deliver(index) {
                break;
            }
        }
    };
    for _ in 0..random.between(1, 4) {
        if random.chance(60) {
            pluses(author, random);
        }
        if random.chance(60) {
            author.run_all(0);
        }
        let time = early_time(author, random, board);
        if author.offer(time, board as u8, 9, 0) {
            author.deliver_last();
        }
        author.run_all(board);
        if random.chance(40) {
            author.commit(any_most(random));
        }
    }
    pluses(author, random);
    if random.chance(70) {
        author.run_all(0);
    }
    if random.chance(30) {
        author.outlook();
        author.commit(any_most(random));
    }
    for _ in 0..random.below(8) {
        let choice = random.pick(&[Choice::Any, Choice::Newest, Choice::Straggler]);
        author.deliver(choose(author, random, choice));
        if random.chance(30) {
            any_run(author, random);
        }
    }
}

/// Many inquiries are answered and then taken back, so that one minus undoes many answers.
fn cascade(author: &mut Author, random: &mut Random) {
    for _ in 0..random.between(2, 14) {
        for kind in [CARD, VERDICT] {
            let step = random.between(0, 4) as u32;
            let time = author.advance(step);
            if author.offer(time, 1, kind, payload(random)) {
                author.deliver_last();
            }
        }
    }
    author.run_all(1);
    while !author.full {
        let asked = |sign, message: &Message| {
            sign == Sign::Plus && (message.source, message.destination) == (1, 0)
        };
        let Some(index) = author.item(asked) else { break };
        if !author.deliver(index) {
            break;
        }
    }
    author.run_all(0);
    straggle(author, random, 1);
    if random.chance(60) {
        let target = random.between(TRANSIT - 6, TRANSIT);
        let mut tries = 140;
        while !author.full && author.bench.transit().len() < target && tries > 0 {
            tries -= 1;
            any_offer(author, random);
        }
    }
    for _ in 0..random.between(1, 12) {
        let minuses: Vec<usize> = (0..author.bench.transit().len())
            .filter(|place| author.bench.transit()[*place].sign == Sign::Minus)
            .collect();
        if minuses.is_empty() {
            break;
        }
        author.deliver(random.pick(&minuses));
        if random.chance(25) {
            any_run(author, random);
        }
    }
}

/// All rows are full and stand, so that one commit has as many lines as can be.
fn full_house(author: &mut Author, random: &mut Random) {
    tidy(author);
    let kept = random.pick(&[0, 0, 0, 1, 2]);
    for board in 0..author.bench.boards() {
        let mut tries = ROW;
        while !author.full && author.bench.held(board) < ROW - kept && tries > 0 {
            tries -= 1;
            let step = random.below(2) as u32;
            let time = author.advance(step);
            if author.offer(time, board as u8, 9, payload(random)) {
                author.deliver_last();
            }
        }
        author.run_all(board);
    }
    if random.chance(30) {
        author.commit(random.between(1, 95) as u16);
    }
    author.commit(random.pick(&[95, 96, 97, 255, 256, 257, 65_535]));
}

/// Delivers and runs until nothing is outstanding, and commits all.
fn drain(author: &mut Author, random: &mut Random) {
    let choice = random.pick(&CHOICES[..9]);
    let eager = random.pick(&[20, 50, 90]);
    for _ in 0..300 {
        if author.full || author.bench.outlook().is_none() {
            break;
        }
        let stuck = if author.bench.transit().is_empty() || random.chance(eager) {
            !any_run(author, random)
        } else {
            !author.deliver(choose(author, random, choice))
        };
        if stuck && random.chance(50) {
            author.commit(any_most(random));
        }
        if stuck && !author.bench.transit().is_empty() {
            author.deliver(choose(author, random, Choice::Least));
        }
    }
    if random.chance(80) {
        author.commit(random.pick(&[256, 256, 3]));
    }
    author.outlook();
}

/// Commits of few and many lines, and offers around the last line's time.
fn lines(author: &mut Author, random: &mut Random) {
    for _ in 0..random.between(2, 10) {
        match random.below(5) {
            0 => {
                let last = author.bench.last_time();
                let time = match random.below(4) {
                    0 | 1 => last,
                    2 => last.wrapping_sub(1),
                    _ => last.saturating_add(1),
                };
                let board = random.below(3);
                let kind = kind_for(board, random);
                author.offer(time, board as u8, kind, payload(random));
            }
            1 => {
                author.deliver(choose(author, random, Choice::Least));
            }
            2 => {
                any_run(author, random);
            }
            3 => author.outlook(),
            _ => {
                author.commit(any_most(random));
            }
        }
    }
}

/// Takes the least outstanding message on, again and again, until little is left.
fn tidy(author: &mut Author) {
    for _ in 0..400 {
        let Some(outlook) = author.bench.outlook() else { break };
        let board = usize::from(outlook.destination);
        let ready = author.bench.open(board).first() == Some(&outlook);
        let index = author.item(|_, message| *message == outlook);
        let moved = match index {
            Some(index) if !ready || author.bench.transit().len() + 2 > TRANSIT => {
                author.deliver(index)
            }
            _ => author.run(board),
        };
        if author.full || !moved && author.commit(256) == 0 {
            return;
        }
    }
    author.commit(256);
}

/// Cards and ticks in order, each taken to its end before the next.
fn orderly(author: &mut Author, random: &mut Random) {
    let often = random.pick(&[10, 40, 100]);
    for _ in 0..random.between(1, 20) {
        let step = random.between(0, 12) as u32;
        let time = author.advance(step);
        let board = random.pick(&[0, 1, 1, 2]);
        let kind = kind_for(board, random);
        author.offer(time, board as u8, kind, payload(random));
        for _ in 0..8 {
            if author.full {
                return;
            }
            if !author.bench.transit().is_empty() && !author.deliver(0) {
                break;
            }
            any_run(author, random);
        }
        if random.chance(often) {
            author.commit(any_most(random));
        }
    }
}

#[cfg(test)]
mod tests {
    use super::*;
    use crate::schedule::Schedule;

    #[test]
    fn sound_files_have_no_fault_and_keep_to_their_length() {
        for stream in 0..300 {
            let bytes = sound(&mut Random::new(5, stream), 20, 900);
            assert!(bytes.len() <= 900);
            assert!(Schedule::read(&bytes).is_ok());
        }
    }

    #[test]
    fn a_seed_gives_the_same_files_again() {
        for stream in 0..50 {
            let once = file(&mut Random::new(6, stream));
            assert_eq!(once, file(&mut Random::new(6, stream)));
        }
    }
}

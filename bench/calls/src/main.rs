//! How long a call takes: the proved library (through its Rust wrapper) against the second program's desk, an ordinary one of hash maps
//! and queues. Both get the same calls, and must give the same answers; the time is that of the calls alone, no text, no files.
//!
//! `calls [ROUNDS]`: 400,000 rounds each if not given, five times by turns.

use std::hint::black_box;
use std::time::{Duration, Instant};

/// As many requests as are live at the fullest moment of a round, and the units they go to.
const LIVE: usize = 24;
const UNITS: usize = 12;
const LENGTH: u32 = 4096;

/// What a round needs of a desk. Addresses are places in the table of blocks.
trait Desk {
    fn new() -> Self;
    fn take_in(&mut self, block: &mut [u8]);
    /// The ticket that was sent.
    fn send(&mut self) -> Option<u32>;
    /// Complete, SCSI status 00h, so many bytes moved.
    fn complete(&mut self, ticket: u32, moved: u32);
    fn first_finished(&mut self) -> Option<u32>;
    fn hand_back(&mut self, block: &mut [u8]);
    fn tick(&mut self);
}

impl Desk for pellacrosta::Desk {
    fn new() -> Self {
        pellacrosta::Desk::new()
    }
    fn take_in(&mut self, block: &mut [u8]) {
        self.take_in(block).expect("the block is sound, and there is room");
    }
    fn send(&mut self) -> Option<u32> {
        match self.send() {
            pellacrosta::Sending::Sent { ticket, .. } => Some(ticket.0),
            pellacrosta::Sending::Nothing { .. } => None,
        }
    }
    fn complete(&mut self, ticket: u32, moved: u32) {
        self.report(pellacrosta::Ticket(ticket), pellacrosta::Event::GOOD, moved).expect("it is active");
    }
    fn first_finished(&mut self) -> Option<u32> {
        self.look().map(|first| first.address)
    }
    fn hand_back(&mut self, block: &mut [u8]) {
        let _told = self.hand_back(block).expect("it is the first one's block");
    }
    fn tick(&mut self) {
        self.tick();
    }
}

impl Desk for apart::desk::Desk {
    fn new() -> Self {
        apart::desk::Desk::new()
    }
    fn take_in(&mut self, block: &mut [u8]) {
        self.submit(block).expect("the block is sound, and there is room");
    }
    fn send(&mut self) -> Option<u32> {
        match self.send() {
            apart::desk::Sending::Sent { ticket, .. } => Some(ticket.0),
            apart::desk::Sending::Nothing { .. } => None,
        }
    }
    fn complete(&mut self, ticket: u32, moved: u32) {
        let event = apart::ending::Event::Complete { scsi_status: 0, sense: apart::ending::Sense::None };
        self.event(apart::ids::Ticket(ticket), event, moved).expect("it is active");
    }
    fn first_finished(&mut self) -> Option<u32> {
        apart::desk::Desk::first_finished(self).map(|first| first.address)
    }
    fn hand_back(&mut self, block: &mut [u8]) {
        self.hand_back(block).expect("it is the first one's block");
    }
    fn tick(&mut self) {
        self.tick();
    }
}

/// What one measurement gives: how many calls, how long, and a sum over all answers.
struct Measured {
    calls: u64,
    time: Duration,
    answers: u64,
}

/// A round: the desk is filled, then whatever goes is sent, ends (one in three short), and is handed back, until it is empty. A tick each
/// time that nothing more can be sent.
fn rounds<D: Desk>(count: u64) -> Measured {
    let unit = |i: usize| pellacrosta::Unit((i % UNITS * 4) as u8);
    let mut blocks: Vec<_> =
        (0..LIVE).map(|i| pellacrosta::Block::new(i as u32, unit(i), &[0x08, 0, 0, 0, 8, 0]).data_length(LENGTH).0).collect();
    let mut desk = D::new();
    let (mut calls, mut answers) = (0, 0_u64);
    let mut active = Vec::with_capacity(8);
    let start = Instant::now();
    for _ in 0..count {
        for block in &mut blocks {
            desk.take_in(black_box(block));
        }
        calls += LIVE as u64;
        loop {
            while let Some(ticket) = desk.send() {
                active.push(ticket);
            }
            desk.tick();
            calls += active.len() as u64 + 2;
            for &ticket in &active {
                desk.complete(ticket, if ticket % 3 == 0 { LENGTH - 12 } else { LENGTH });
                answers = answers.wrapping_mul(31).wrapping_add(ticket.into());
            }
            calls += active.len() as u64;
            active.clear();
            let mut handed = 0;
            while let Some(address) = desk.first_finished() {
                let block = &mut blocks[address as usize];
                desk.hand_back(block);
                answers = answers.wrapping_mul(31).wrapping_add((block[7] ^ block[56]).into());
                handed += 1;
            }
            calls += 2 * handed + 1;
            if handed == 0 {
                break;
            }
        }
    }
    Measured { calls, time: start.elapsed(), answers }
}

fn main() {
    let count = std::env::args().nth(1).map_or(400_000, |text| text.parse().expect("usage: calls [ROUNDS]"));
    let (mut proved, mut ordinary) = (f64::MAX, f64::MAX);
    for _ in 0..5 {
        let (a, b) = (rounds::<pellacrosta::Desk>(count), rounds::<apart::desk::Desk>(count));
        assert!(a.answers == b.answers && a.calls == b.calls, "the two desks answer differently");
        let per_call = |m: &Measured| m.time.as_nanos() as f64 / m.calls as f64;
        println!("{} calls each: proved {:.1} ns a call, second {:.1} ns", a.calls, per_call(&a), per_call(&b));
        proved = proved.min(per_call(&a));
        ordinary = ordinary.min(per_call(&b));
    }
    println!("best: proved {proved:.1} ns, second {ordinary:.1} ns, ratio {:.2}", proved / ordinary);
}

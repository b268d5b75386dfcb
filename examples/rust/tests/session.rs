//! Long sessions of chance calls, with an account of every ticket that is given; desks side by side.

use std::{collections::BTreeMap, thread};

use pellacrosta::{Block, Desk, Event, HandedBack, Refusal, Sending, Ticket, Unit};

#[derive(Clone, Copy, Debug, PartialEq)]
enum Stage {
    Waiting,
    Active,
    Finished,
}
use Stage::*;

/// A desk and where its tickets stand, as far as its answers tell: of each live one the stage, the block and the bytes missing.
struct Account {
    desk: Desk,
    chance: u64,
    live: BTreeMap<Ticket, (Stage, Block, i32)>,
    handed_back: Vec<HandedBack>,
}

impl Account {
    fn new(seed: u64) -> Account {
        Account { desk: Desk::new(), chance: seed, live: BTreeMap::new(), handed_back: Vec::new() }
    }

    /// A chance number below the bound (xorshift).
    fn below(&mut self, bound: u32) -> u32 {
        self.chance ^= self.chance << 13;
        self.chance ^= self.chance >> 7;
        self.chance ^= self.chance << 17;
        (self.chance >> 32) as u32 % bound
    }

    fn count(&self, stage: Stage) -> usize {
        self.live.values().filter(|request| request.0 == stage).count()
    }

    /// A live request goes from one stage to another, with so many bytes moved.
    fn goes(&mut self, ticket: Ticket, from: Stage, to: Stage, moved: i32) {
        let request = self.live.get_mut(&ticket).expect("a live ticket");
        assert_eq!(request.0, from);
        (request.0, request.2) = (to, request.2 - moved);
    }

    /// Any call of a kind from `least` to 99, and whether all tickets are accounted for after it.
    fn call(&mut self, least: u32) {
        let next = Ticket(self.desk.last_ticket().map_or(1, |last| last.0 + 1));
        let (kind, number, unit) = (least + self.below(100 - least), self.below(40), Unit(self.below(12) as u8));
        // A live ticket, or one that isn't given yet.
        let ticket = self.live.keys().nth(number as usize).copied().unwrap_or(next);
        let stage = self.live.get(&ticket).map(|request| request.0);
        match kind {
            0..=29 => {
                let mut block = Block::new(next.0, unit, &[0x08]).data_length(number);
                match self.desk.take_in(&mut block.0) {
                    Ok(given) => assert!(given == next && self.live.insert(given, (Waiting, block, number as i32)).is_none()),
                    Err(refusal) => assert_eq!((refusal, self.live.len()), (Refusal::CamBusy, 32)),
                }
            }
            30..=49 => match self.desk.send() {
                Sending::Sent { ticket, .. } => self.goes(ticket, Waiting, Active, 0),
                Sending::Nothing { looked } => assert_eq!(looked, if self.count(Active) == 8 { 0 } else { 64 }),
            },
            50..=74 => match self.desk.report(ticket, if unit == Unit(0) { Event::Parity } else { Event::GOOD }, 20) {
                Ok(()) => self.goes(ticket, Active, Finished, 20),
                Err(refusal) => assert!(refusal == Refusal::NotActive && stage != Some(Active)),
            },
            75..=79 => match self.desk.abort(ticket) {
                Ok(()) if stage == Some(Active) => {}
                Ok(()) => self.goes(ticket, Waiting, Finished, 0),
                Err(refusal) => assert!(refusal == Refusal::UnableToAbort && [None, Some(Finished)].contains(&stage)),
            },
            80 => assert!(self.desk.freeze(unit).is_ok()),
            81..=87 => assert!(self.desk.release(unit).is_ok()),
            88 => assert_eq!(self.desk.clock() + 1, self.desk.tick()),
            89 => {
                self.desk.reset();
                self.live.values_mut().filter(|request| request.0 == Active).for_each(|request| request.0 = Finished);
            }
            _ => match self.desk.look() {
                None => assert_eq!(self.count(Finished), 0),
                Some(first) => {
                    let (stage, mut block, missing) = self.live.remove(&first.ticket).expect("a live ticket");
                    let told = self.desk.hand_back(&mut block.0).expect("its block");
                    assert_eq!((told.ticket, told.residual, stage), (first.ticket, missing, Finished));
                    self.handed_back.push(told);
                }
            },
        }
        let accepted = self.desk.last_ticket().map_or(0, |last| last.0) as usize;
        assert_eq!(accepted, self.count(Waiting) + self.count(Active) + self.count(Finished) + self.handed_back.len());
    }

    /// Takes nothing more in, until nothing is live. Then each ticket was handed back, and once.
    fn close(mut self) -> Vec<HandedBack> {
        (0..10_000).for_each(|_| self.call(30));
        let mut tickets: Vec<u32> = self.handed_back.iter().map(|told| told.ticket.0).collect();
        tickets.sort();
        assert!(self.live.is_empty() && tickets.into_iter().eq(1..=self.handed_back.len() as u32));
        self.handed_back
    }
}

#[test]
fn each_ticket_is_handed_back_once() {
    let mut account = Account::new(9316);
    (0..100_000).for_each(|_| account.call(0));
    assert!(account.close().len() > 5_000);
}

#[test]
fn desks_side_by_side() {
    let threads = [1, 2, 1].map(Account::new).map(|mut account| {
        thread::spawn(move || {
            (0..10_000).for_each(|_| account.call(0));
            account.close()
        })
    });
    let [one, two, again] = threads.map(|thread| thread.join().expect("every ticket is accounted for"));
    assert!(one == again && one != two);
}

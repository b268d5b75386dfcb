//! The generator of logs: by a seed and a flavour, line after line, with a replay of its own
//! running along so that it knows what is live, what is active and what would be refused.

use std::collections::VecDeque;

use crate::answer::Answer;
use crate::desk::Desk;
use crate::ids::{Ticket, Unit};
use crate::reach::{Reach, Spot};
use crate::refusal::Refusal;
use crate::replay::Replay;
use crate::rng::Rng;

mod calls;
pub mod edge;
mod events;
pub mod flavour;
pub mod landmark;
mod lines;
pub mod malformed;
mod plan;
mod submissions;
mod tickets;

use edge::{Edge, LONGEST_BLOCK};
pub use flavour::Flavour;
use landmark::Landmark;
use malformed::Malformed;
use plan::Step;

/// The groups of spots that a log notes.
pub const REFUSALS: &str = "refusal";
pub const EDGES: &str = "edge";
pub const MALFORMED: &str = "malformed";
pub const LANDMARKS: &str = "landmark";

/// Every spot that enough logs must reach.
pub fn required() -> impl Iterator<Item = Spot> {
    let refusals = Refusal::REACHABLE.iter().map(|r| (REFUSALS, r.cause()));
    let edges = Edge::ALL.iter().map(|edge| (EDGES, edge.name()));
    let malformed = Malformed::ALL.iter().map(|kind| (MALFORMED, kind.name()));
    let landmarks = Landmark::ALL.iter().map(|mark| (LANDMARKS, mark.name()));
    refusals.chain(edges).chain(malformed).chain(landmarks)
}

/// A log in the making.
pub struct Generator {
    rng: Rng,
    flavour: Flavour,
    units: Vec<Unit>,
    replay: Replay,
    planned: VecDeque<Step>,
    /// The address last handed back, if a later request may take it.
    old_address: Option<u32>,
    /// Whether the last hand-back made room on a full desk that was not yet taken.
    handed_back_when_full: bool,
    ends_without_line_feed: bool,
    reach: Reach,
}

impl Generator {
    /// The log of a seed, of a given flavour or of the one the seed chooses.
    pub fn new(seed: u64, flavour: Option<Flavour>) -> Generator {
        let flavour = flavour.unwrap_or_else(|| Flavour::of_seed(seed));
        let mut rng = Rng::new(seed);
        let units = some_units(&mut rng, flavour);
        Generator {
            ends_without_line_feed: flavour != Flavour::Bench && rng.percent(25),
            rng,
            flavour,
            units,
            replay: Replay::new(),
            planned: VecDeque::new(),
            old_address: None,
            handed_back_when_full: false,
            reach: Reach::default(),
        }
    }

    /// The log's flavour.
    pub fn flavour(&self) -> Flavour {
        self.flavour
    }

    /// What the lines so far have reached.
    pub fn reach(&self) -> &Reach {
        &self.reach
    }

    /// The next line without its line feed.
    pub fn next_line(&mut self) -> Vec<u8> {
        let step = self.next_step();
        let line = self.line_of(step);
        let answer = self.replay.answer(&line);
        self.note_answer(&line, &answer);
        line
    }

    /// The last line, as it stands in the log: an empty one cannot lack its line feed.
    pub fn last_line(&mut self) -> Vec<u8> {
        let mut line = self.next_line();
        if self.ends_without_line_feed && !line.is_empty() {
            self.note(Landmark::NoLineFeed);
        } else {
            line.push(b'\n');
        }
        line
    }

    fn desk(&self) -> &Desk {
        self.replay.desk()
    }

    fn note(&mut self, landmark: Landmark) {
        self.reach.note(LANDMARKS, landmark.name());
    }

    fn note_answer(&mut self, line: &[u8], answer: &Answer) {
        if let Some(refusal) = answer.refusal() {
            self.reach.note(REFUSALS, refusal.cause());
        }
        if let Answer::Submitted(taken) = answer {
            self.note_submitted(line.len() / 2 - 1, *taken);
        }
        let (live, active) = (self.desk().live_count(), self.desk().active_count());
        self.reach.note_desk(live, active);
    }

    fn note_submitted(&mut self, lent: usize, taken: Result<Ticket, Refusal>) {
        match lent {
            0 => self.note(Landmark::Block0),
            7 => self.note(Landmark::Block7),
            8 => self.note(Landmark::Block8),
            12 => self.note(Landmark::Block12),
            87 => self.note(Landmark::Block87),
            88 => self.note(Landmark::Block88),
            89 => self.note(Landmark::Block89),
            LONGEST_BLOCK => self.note(Landmark::Block199),
            _ => {}
        }
        if taken == Err(Refusal::DeskFull) && self.desk().finished_count() > 0 {
            self.note(Landmark::FullThoughFinished);
        }
        if self.handed_back_when_full && taken.is_ok() {
            self.note(Landmark::FullAgain);
        }
        if taken.is_ok() {
            self.handed_back_when_full = false;
        }
    }
}

/// Whether something waits on a unit that is frozen.
fn is_held(desk: &Desk, unit: Unit) -> bool {
    desk.is_frozen(unit) && desk.waiting_on(unit) > 0
}

/// Every unit that can be a device: targets 0 to 6.
fn device_units() -> impl Iterator<Item = Unit> {
    (0..56).filter_map(Unit::new)
}

/// The units of a log: some of the devices', none twice.
fn some_units(rng: &mut Rng, flavour: Flavour) -> Vec<Unit> {
    let mut units: Vec<Unit> = device_units().collect();
    for at in 1..units.len() {
        units.swap(at, rng.between(0, at));
    }
    units.truncate(rng.pick(flavour.unit_counts()));
    units
}

/// A whole log.
pub struct Log {
    pub flavour: Flavour,
    pub bytes: Vec<u8>,
    pub reach: Reach,
}

impl Log {
    /// The log of a seed, with exactly so many lines.
    pub fn of_seed(seed: u64, flavour: Option<Flavour>, lines: usize) -> Log {
        let mut bytes = Vec::new();
        let mut generator = Generator::new(seed, flavour);
        for number in 1..=lines {
            bytes.extend_from_slice(&line_at(&mut generator, number == lines));
        }
        Log {
            flavour: generator.flavour(),
            bytes,
            reach: generator.reach,
        }
    }
}

/// The next line as it stands in the log, with its line feed if it has one.
pub fn line_at(generator: &mut Generator, is_last: bool) -> Vec<u8> {
    if is_last {
        return generator.last_line();
    }
    let mut line = generator.next_line();
    line.push(b'\n');
    line
}

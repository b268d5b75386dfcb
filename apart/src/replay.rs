//! The replay: a desk, the program's own copies of the blocks, and one answer a line.

use std::collections::HashMap;

use crate::answer::{Answer, HandedBack};
use crate::desk::{Desk, PLACES};
use crate::ids::Ticket;
use crate::record::Record;
use crate::refusal::Refusal;

/// A fresh desk and what a log makes of it.
pub struct Replay {
    desk: Desk,
    copies: HashMap<Ticket, Vec<u8>>,
}

impl Default for Replay {
    fn default() -> Self {
        Replay::new()
    }
}

impl Replay {
    /// A replay that has seen no line yet.
    pub fn new() -> Replay {
        Replay {
            desk: Desk::new(),
            copies: HashMap::with_capacity(PLACES),
        }
    }

    /// The desk as the lines so far have left it.
    pub fn desk(&self) -> &Desk {
        &self.desk
    }

    /// Answers one line, given without its line feed.
    pub fn answer(&mut self, line: &[u8]) -> Answer {
        Record::parse(line).map_or(Answer::NotOfForm, |record| self.carry_out(record))
    }

    fn carry_out(&mut self, record: Record) -> Answer {
        match record {
            Record::Submit(block) => Answer::Submitted(self.submit(block)),
            Record::Send => Answer::Sent(self.desk.send()),
            Record::Event {
                ticket,
                event,
                bytes_moved,
            } => Answer::Reported(self.desk.event(ticket, event, bytes_moved)),
            Record::Abort(ticket) => Answer::Aborted(self.desk.abort(ticket)),
            Record::Freeze(unit) => Answer::Frozen(self.desk.freeze(unit)),
            Record::Release(unit) => Answer::Released(self.desk.release(unit)),
            Record::Tick => Answer::Ticked(self.desk.tick()),
            Record::Reset => {
                self.desk.reset();
                Answer::Reset
            }
            Record::HandBack => Answer::HandedBack(self.hand_back()),
        }
    }

    /// Takes a block in and keeps it as the program's own copy if it passes.
    fn submit(&mut self, mut block: Vec<u8>) -> Result<Ticket, Refusal> {
        let ticket = self.desk.submit(&mut block)?;
        self.copies.insert(ticket, block);
        Ok(ticket)
    }

    /// Hands the first finished request back into the program's own copy of its block.
    fn hand_back(&mut self) -> Result<HandedBack, Refusal> {
        let mut copy = self
            .desk
            .first_finished()
            .and_then(|first| self.copies.remove(&first.ticket))
            .unwrap_or_default();
        let ticket = self.desk.hand_back(&mut copy)?;
        Ok(HandedBack::read(ticket, &copy))
    }
}

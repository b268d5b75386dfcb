//! The request desk: the board and every call on it.

use std::collections::{HashMap, HashSet, VecDeque};

use crate::block::{self, offset, Fields, CDB_BYTES};
use crate::ending::{base, Ending, Event, Marks, Outcome};
use crate::ids::{Ticket, Unit};
use crate::refusal::Refusal;

mod request;
#[cfg(test)]
mod tests;

use request::UnitState;
pub use request::{Request, Stage, DEFAULT_TIMEOUT, NO_TIMEOUT};

/// Places for live requests.
pub const PLACES: usize = 32;

/// At most so many requests are active at once.
pub const MOST_ACTIVE: usize = 8;

/// The answer of a send.
#[derive(Clone, Copy, PartialEq, Eq, Debug)]
pub enum Sending {
    Sent {
        ticket: Ticket,
        unit: Unit,
        cdb: [u8; CDB_BYTES],
        looked_at: u8,
    },
    Nothing {
        looked_at: u8,
    },
}

/// The first of the finished line.
#[derive(Clone, Copy, PartialEq, Eq, Debug)]
pub struct FirstFinished {
    pub ticket: Ticket,
    pub address: u32,
    pub callback: u32,
    pub callback_wanted: bool,
}

/// The board.
#[derive(Clone, Debug)]
pub struct Desk {
    requests: HashMap<Ticket, Request>,
    addresses: HashSet<u32>,
    units: [UnitState; Unit::COUNT as usize],
    active: Vec<Ticket>,
    finished: VecDeque<Ticket>,
    clock: u32,
    mark: Unit,
    /// None once ticket FFFFFFFFh was given.
    next_ticket: Option<Ticket>,
}

impl Default for Desk {
    fn default() -> Self {
        Desk::new()
    }
}

impl Desk {
    /// A fresh board: empty, no unit frozen, clock 0, mark 63.
    pub fn new() -> Desk {
        Desk {
            requests: HashMap::with_capacity(PLACES),
            addresses: HashSet::with_capacity(PLACES),
            units: std::array::from_fn(|_| UnitState::default()),
            active: Vec::with_capacity(MOST_ACTIVE),
            finished: VecDeque::with_capacity(PLACES),
            clock: 0,
            mark: Unit::LAST,
            next_ticket: Some(Ticket::FIRST),
        }
    }

    /// Takes a request in. Byte 7 becomes 00h or the refusal's number, if it was lent at all.
    pub fn submit(&mut self, block: &mut [u8]) -> Result<Ticket, Refusal> {
        if block.len() < block::HEADER {
            return Err(Refusal::TooFewBytes);
        }
        let taken = self.take_in(block);
        block[offset::STATUS] = taken.err().map_or(0, Refusal::number);
        taken
    }

    /// Checks 2 to 11; the request that passes gets the next ticket and joins its unit's order.
    fn take_in(&mut self, block: &[u8]) -> Result<Ticket, Refusal> {
        let fields = Fields::checked(block)?;
        if self.addresses.contains(&fields.address) {
            return Err(Refusal::SameAddress);
        }
        let ticket = self.next_ticket.ok_or(Refusal::TicketsUsedUp)?;
        if self.requests.len() == PLACES {
            return Err(Refusal::DeskFull);
        }
        self.next_ticket = ticket.next();
        self.units[fields.unit.index()].join(ticket, fields.to_the_front);
        self.addresses.insert(fields.address);
        self.requests.insert(ticket, Request::waiting(fields));
        Ok(ticket)
    }

    /// Sends the first waiting request of the first eligible unit after the mark.
    pub fn send(&mut self) -> Sending {
        if self.active.len() == MOST_ACTIVE {
            return Sending::Nothing { looked_at: 0 };
        }
        for looked_at in 1..=Unit::COUNT {
            let unit = self.mark.after(looked_at);
            if let Some(ticket) = self.units[unit.index()].take_next() {
                self.mark = unit;
                let cdb = self.start(ticket);
                return Sending::Sent {
                    ticket,
                    unit,
                    cdb,
                    looked_at,
                };
            }
        }
        Sending::Nothing {
            looked_at: Unit::COUNT,
        }
    }

    /// Makes a request active from this second on.
    fn start(&mut self, ticket: Ticket) -> [u8; CDB_BYTES] {
        let request = live(&mut self.requests, ticket);
        request.stage = Stage::Active {
            start: self.clock,
            marks: Marks::default(),
        };
        self.active.push(ticket);
        request.cdb
    }

    /// The adapter reports an event on a ticket, with the bytes moved.
    pub fn event(&mut self, ticket: Ticket, event: Event, bytes_moved: u32) -> Result<(), Refusal> {
        let request = self.requests.get_mut(&ticket).ok_or(Refusal::NotActive)?;
        let Stage::Active { marks, .. } = request.stage else {
            return Err(Refusal::NotActive);
        };
        let outcome = Outcome::of_event(&request.asked, marks, event, bytes_moved)?;
        request.end_active(&outcome, &mut self.units[request.unit.index()]);
        self.active.retain(|&other| other != ticket);
        self.finished.push_back(ticket);
        Ok(())
    }

    /// Abort by ticket: a waiting request ends at once, an active one is marked asked.
    pub fn abort(&mut self, ticket: Ticket) -> Result<(), Refusal> {
        let request = self
            .requests
            .get_mut(&ticket)
            .ok_or(Refusal::NotAbortable)?;
        match &mut request.stage {
            Stage::Active { marks, .. } => marks.abort_asked = true,
            Stage::Finished(_) => return Err(Refusal::NotAbortable),
            Stage::Waiting => {
                let unit = &mut self.units[request.unit.index()];
                unit.waiting.retain(|&other| other != ticket);
                let outcome = Outcome::with_nothing_moved(base::ABORTED, &request.asked);
                request.stage = Stage::Finished(outcome.on_unit(unit.frozen));
                self.finished.push_back(ticket);
            }
        }
        Ok(())
    }

    /// Freezes a unit; the answer says whether it was frozen before.
    pub fn freeze(&mut self, unit: u32) -> Result<bool, Refusal> {
        self.set_frozen(unit, true)
    }

    /// Releases a unit; the answer says whether it was frozen before.
    pub fn release(&mut self, unit: u32) -> Result<bool, Refusal> {
        self.set_frozen(unit, false)
    }

    fn set_frozen(&mut self, unit: u32, frozen: bool) -> Result<bool, Refusal> {
        let unit = Unit::new(unit).ok_or(Refusal::NoSuchUnit)?;
        Ok(std::mem::replace(
            &mut self.units[unit.index()].frozen,
            frozen,
        ))
    }

    /// One second more, and the active requests beyond their timeout are overdue from now on.
    pub fn tick(&mut self) -> u32 {
        self.clock = self.clock.wrapping_add(1);
        for &ticket in &self.active {
            live(&mut self.requests, ticket).mark_if_overdue(self.clock);
        }
        self.clock
    }

    /// Bus reset: every active request ends with 0Eh, smallest ticket first; waiting ones stay.
    pub fn reset(&mut self) {
        self.active.sort_unstable();
        for ticket in self.active.drain(..) {
            let request = live(&mut self.requests, ticket);
            let outcome = Outcome::with_nothing_moved(base::BUS_RESET, &request.asked);
            request.end_active(&outcome, &mut self.units[request.unit.index()]);
            self.finished.push_back(ticket);
        }
    }

    /// Looks at the finished line.
    pub fn first_finished(&self) -> Option<FirstFinished> {
        let ticket = *self.finished.front()?;
        let request = self.request(ticket)?;
        Some(FirstFinished {
            ticket,
            address: request.address,
            callback: request.callback,
            callback_wanted: request.callback_wanted,
        })
    }

    /// Hands the first finished request back into its lent block; its place is free again.
    pub fn hand_back(&mut self, block: &mut [u8]) -> Result<Ticket, Refusal> {
        let ticket = *self.finished.front().ok_or(Refusal::NothingFinished)?;
        let request = live(&mut self.requests, ticket);
        let right_block = block.len() >= block::WHOLE
            && block::number_at(block, offset::ADDRESS) == request.address;
        let Stage::Finished(ending) = request.stage else {
            unreachable!("only finished requests stand in the finished line");
        };
        if !right_block {
            return Err(Refusal::WrongBlock);
        }
        ending.write_to(block);
        self.finished.pop_front();
        self.addresses.remove(&request.address);
        self.requests.remove(&ticket);
        Ok(ticket)
    }

    /// The live request of that ticket.
    pub fn request(&self, ticket: Ticket) -> Option<&Request> {
        self.requests.get(&ticket)
    }

    /// Every live request, in no order.
    pub fn requests(&self) -> impl Iterator<Item = (Ticket, &Request)> {
        self.requests
            .iter()
            .map(|(&ticket, request)| (ticket, request))
    }

    /// How many requests are live.
    pub fn live_count(&self) -> usize {
        self.requests.len()
    }

    /// How many requests are active.
    pub fn active_count(&self) -> usize {
        self.active.len()
    }

    /// How many requests are finished and not yet handed back.
    pub fn finished_count(&self) -> usize {
        self.finished.len()
    }

    /// Whether a live request has that address.
    pub fn has_address(&self, address: u32) -> bool {
        self.addresses.contains(&address)
    }

    /// How many requests wait on a unit.
    pub fn waiting_on(&self, unit: Unit) -> usize {
        self.units[unit.index()].waiting.len()
    }

    /// Whether a unit is frozen.
    pub fn is_frozen(&self, unit: Unit) -> bool {
        self.units[unit.index()].frozen
    }

    /// Whether a unit has a request active.
    pub fn is_busy(&self, unit: Unit) -> bool {
        self.units[unit.index()].busy
    }

    /// Whether a unit is eligible for sending.
    pub fn is_eligible(&self, unit: Unit) -> bool {
        self.units[unit.index()].eligible()
    }

    /// The clock, in seconds.
    pub fn clock(&self) -> u32 {
        self.clock
    }
}

/// A request that one of the desk's own lists names, which is therefore live.
fn live(requests: &mut HashMap<Ticket, Request>, ticket: Ticket) -> &mut Request {
    requests
        .get_mut(&ticket)
        .expect("the desk's lists name live requests only")
}

impl Ending {
    /// Writes bytes 7, 52, 53 and 56 to 59 and no others.
    fn write_to(&self, block: &mut [u8]) {
        block[offset::STATUS] = self.status;
        block[offset::SCSI_STATUS] = self.scsi_status;
        block[offset::AUTOSENSE_RESIDUAL] = self.autosense_residual;
        block::put_number(block, offset::RESIDUAL, self.residual as u32);
    }
}

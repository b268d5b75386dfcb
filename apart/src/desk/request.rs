//! What the board keeps of a live request, and of a unit.

use std::collections::VecDeque;

use crate::block::{Fields, CDB_BYTES};
use crate::ending::{Asked, Ending, Marks, Outcome};
use crate::ids::{Ticket, Unit};

/// What timeout 0 means, in seconds.
pub const DEFAULT_TIMEOUT: u32 = 30;

/// The timeout that never ends.
pub const NO_TIMEOUT: u32 = u32::MAX;

/// Where a live request stands.
#[derive(Clone, Copy, PartialEq, Eq, Debug)]
pub enum Stage {
    Waiting,
    Active { start: u32, marks: Marks },
    Finished(Ending),
}

/// A live request: its stage and what the desk needs of its block.
#[derive(Clone, PartialEq, Eq, Debug)]
pub struct Request {
    pub stage: Stage,
    pub address: u32,
    pub unit: Unit,
    pub asked: Asked,
    pub cdb: [u8; CDB_BYTES],
    pub callback: u32,
    pub callback_wanted: bool,
    /// Seconds it may be active, or none if it never ends.
    pub timeout: Option<u32>,
}

impl Request {
    /// A request just taken in.
    pub(super) fn waiting(fields: Fields) -> Request {
        Request {
            stage: Stage::Waiting,
            address: fields.address,
            unit: fields.unit,
            asked: Asked {
                data_length: fields.data_length,
                sense_length: fields.sense_length,
                autosense: fields.autosense,
            },
            cdb: fields.cdb,
            callback: fields.callback,
            callback_wanted: fields.callback_wanted,
            timeout: match fields.timeout {
                0 => Some(DEFAULT_TIMEOUT),
                NO_TIMEOUT => None,
                seconds => Some(seconds),
            },
        }
    }

    /// Marks an active request overdue if its seconds since the start exceed its timeout.
    pub(super) fn mark_if_overdue(&mut self, clock: u32) {
        if let (Stage::Active { start, marks }, Some(timeout)) = (&mut self.stage, self.timeout) {
            marks.overdue |= clock.wrapping_sub(*start) > timeout;
        }
    }

    /// Ends an active request: its unit is free, and frozen unless it ended well.
    pub(super) fn end_active(&mut self, outcome: &Outcome, unit: &mut UnitState) {
        unit.busy = false;
        unit.frozen |= outcome.freezes();
        self.stage = Stage::Finished(outcome.on_unit(unit.frozen));
    }
}

/// One unit: its order of waiting, whether it has one active, whether it is frozen.
#[derive(Clone, Default, Debug)]
pub(super) struct UnitState {
    pub(super) waiting: VecDeque<Ticket>,
    pub(super) busy: bool,
    pub(super) frozen: bool,
}

impl UnitState {
    /// Joins the order of waiting at the end, or at the very front.
    pub(super) fn join(&mut self, ticket: Ticket, to_the_front: bool) {
        if to_the_front {
            self.waiting.push_front(ticket);
        } else {
            self.waiting.push_back(ticket);
        }
    }

    /// Something waits, it isn't frozen and it has none active.
    pub(super) fn eligible(&self) -> bool {
        !self.frozen && !self.busy && !self.waiting.is_empty()
    }

    /// Takes the first waiting request of an eligible unit, which is busy from then on.
    pub(super) fn take_next(&mut self) -> Option<Ticket> {
        if !self.eligible() {
            return None;
        }
        self.busy = true;
        self.waiting.pop_front()
    }
}

//! Lines of the other letters, and lines that are not of the form.

use super::landmark::Landmark;
use super::malformed::{any_but_line_feed, Bait, Malformed};
use super::plan::{AbortWish, EventWish, SubmitWish};
use super::{device_units, is_held, lines, Flavour, Generator, MALFORMED};
use crate::desk::{Desk, Stage, PLACES};
use crate::ids::{Ticket, Unit};

impl Generator {
    pub(super) fn send_line(&mut self) -> Vec<u8> {
        let desk = self.desk();
        let eligible = device_units().any(|unit| desk.is_eligible(unit));
        let held = device_units().any(|unit| is_held(desk, unit));
        if desk.active_count() == 8 && eligible {
            self.note(Landmark::SendWithEight);
        } else if held && eligible {
            self.note(Landmark::SendPastFrozen);
        }
        b"N".to_vec()
    }

    pub(super) fn abort_line(&mut self, wish: AbortWish) -> Vec<u8> {
        let candidates = match wish {
            AbortWish::Waiting => self.waiting(),
            AbortWish::Active => self.active(),
            AbortWish::Finished => self.finished(),
            AbortWish::Unknown => Vec::new(),
        };
        let ticket = match self.rng.pick_any(&candidates) {
            Some(ticket) => ticket.0,
            None => self.unknown_ticket(),
        };
        let landmark = self.abort_landmark(Ticket(ticket));
        self.note(landmark);
        lines::one_field('A', ticket)
    }

    fn abort_landmark(&self, ticket: Ticket) -> Landmark {
        let Some(request) = self.desk().request(ticket) else {
            return Landmark::AbortUnknown;
        };
        match request.stage {
            Stage::Waiting if self.desk().is_frozen(request.unit) => Landmark::AbortWaitingFrozen,
            Stage::Waiting => Landmark::AbortWaiting,
            Stage::Active { marks, .. } if marks.abort_asked => Landmark::AbortActiveAgain,
            Stage::Active { marks, .. } if marks.overdue => Landmark::AbortOverdue,
            Stage::Active { .. } => Landmark::AbortActive,
            Stage::Finished(_) => Landmark::AbortFinished,
        }
    }

    /// A unit that matters mostly, any unit, or none.
    fn unit_number(&mut self, wanted: impl Fn(&Desk, Unit) -> bool) -> u32 {
        let desk = self.replay.desk();
        let suited: Vec<Unit> = device_units().filter(|&unit| wanted(desk, unit)).collect();
        let any = self.rng.pick(&self.units);
        let unit = self.rng.pick_any(&suited).unwrap_or(any);
        if self.flavour == Flavour::Bench {
            return unit.number().into();
        }
        let host_unit = self.rng.between(56, 63) as u32;
        let beyond = [
            64,
            65,
            255,
            256,
            256 + u32::from(any.number()),
            65_536,
            u32::MAX,
        ];
        let beyond = self.rng.pick(&beyond);
        match self.rng.below(20) {
            0 => {
                self.note(Landmark::HostUnits);
                host_unit
            }
            1 => {
                if beyond > 255 {
                    self.note(Landmark::WideUnit);
                }
                beyond
            }
            2 | 3 => any.number().into(),
            _ => unit.number().into(),
        }
    }

    /// Freezes mostly where something is active or waiting.
    pub(super) fn freeze_line(&mut self) -> Vec<u8> {
        let unit = self.unit_number(|desk, unit| desk.is_busy(unit) || desk.waiting_on(unit) > 0);
        lines::one_field('F', unit)
    }

    /// Releases mostly what is frozen, best where something waits.
    pub(super) fn release_line(&mut self) -> Vec<u8> {
        let unit = if device_units().any(|unit| is_held(self.desk(), unit)) {
            self.unit_number(is_held)
        } else {
            self.unit_number(Desk::is_frozen)
        };
        lines::one_field('R', unit)
    }

    pub(super) fn reset_line(&mut self) -> Vec<u8> {
        if !self.marked().is_empty() {
            self.note(Landmark::ResetMarked);
        }
        match self.desk().active_count() {
            0 => self.note(Landmark::ResetNone),
            3.. => self.note(Landmark::ResetSeveral),
            _ => {}
        }
        b"B".to_vec()
    }

    pub(super) fn hand_back_line(&mut self) -> Vec<u8> {
        if let Some(first) = self.desk().first_finished() {
            self.old_address = Some(first.address);
            self.handed_back_when_full = self.desk().live_count() == PLACES;
        }
        b"H".to_vec()
    }

    fn bait(&mut self) -> Bait {
        let active = self.active();
        let ticket = self.rng.pick_any(&active).map(|ticket| ticket.0);
        let ticket = ticket.unwrap_or_else(|| self.unknown_ticket());
        let request = self.desk().request(Ticket(ticket));
        let data_length = request.map_or(0, |request| request.asked.data_length);
        Bait {
            ticket,
            data_length,
            unit: self.rng.pick(&self.units).number(),
            block: self.any_block(),
        }
    }

    pub(super) fn malformed_line(&mut self) -> Vec<u8> {
        let kind = self.rng.pick(Malformed::ALL);
        let bait = self.bait();
        self.reach.note(MALFORMED, kind.name());
        kind.make(&mut self.rng, &bait)
    }

    /// A line of the form with one byte altered, put in or taken out.
    pub(super) fn mutated_line(&mut self) -> Vec<u8> {
        let reached = self.reach.clone();
        let mut line = match self.rng.below(4) {
            0 => self.submit_line(SubmitWish::ANY),
            1 => self.abort_line(AbortWish::Active),
            2 => self.release_line(),
            _ => self.event_line(EventWish::Any),
        };
        // What the line would have reached unaltered does not count.
        self.reach = reached;
        let at = self.rng.below(line.len());
        let byte = any_but_line_feed(&mut self.rng);
        let byte = self
            .rng
            .pick(&[byte, b'0', b'1', b'\t', b'C', b'K', b'-', b'X']);
        match self.rng.below(3) {
            0 => line[at] = byte,
            1 => line.insert(at, byte),
            _ => {
                line.remove(at);
            }
        }
        line
    }
}

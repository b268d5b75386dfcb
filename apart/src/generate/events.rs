//! Lines of E: every kind of event, on active requests and on others.

use super::landmark::Landmark;
use super::plan::EventWish;
use super::{lines, Flavour, Generator};
use crate::desk::{Request, Stage, DEFAULT_TIMEOUT};
use crate::ids::Ticket;

impl Generator {
    /// An event on an active request that suits the wish, or on any, or on none.
    pub(super) fn event_line(&mut self, wish: EventWish) -> Vec<u8> {
        let suited = match wish {
            EventWish::Marked => self.marked(),
            EventWish::AtTimeout => self.at_timeout(),
            EventWish::Any | EventWish::Well | EventWish::Check => Vec::new(),
        };
        let candidates = if suited.is_empty() {
            self.active()
        } else {
            suited
        };
        let chosen = self.rng.pick_any(&candidates);
        let Some((ticket, request)) =
            chosen.and_then(|ticket| Some((ticket, self.desk().request(ticket)?.clone())))
        else {
            return self.event_elsewhere_line();
        };
        self.note_timing(&request);
        let check = wish == EventWish::Check || self.rng.percent(20);
        match wish {
            EventWish::Well => self.well_line(ticket, &request),
            _ if check => self.check_line(ticket, &request),
            _ => self.any_event_line(ticket, &request),
        }
    }

    fn note_timing(&mut self, request: &Request) {
        let Stage::Active { start, .. } = request.stage else {
            return;
        };
        let run = self.desk().clock().wrapping_sub(start);
        match request.timeout {
            None if run > DEFAULT_TIMEOUT => self.note(Landmark::NeverOverdue),
            Some(timeout) if run == timeout => self.note(Landmark::AtTimeout),
            Some(timeout) if run == timeout.wrapping_add(1) => {
                self.note(Landmark::PastTimeout);
                if timeout == DEFAULT_TIMEOUT {
                    self.note(Landmark::PastDefaultTimeout);
                }
            }
            _ => {}
        }
    }

    /// "Complete" with a good status and no more moved than asked.
    fn well_line(&mut self, ticket: Ticket, request: &Request) -> Vec<u8> {
        self.note_kind(request, false);
        let all = request.asked.data_length;
        let moved = self
            .rng
            .pick(&[all, all, all, all.saturating_sub(1), all / 2]);
        let scsi_status = self.rng.pick(&[0x00, 0x00, 0x00, 0x04]);
        lines::complete(ticket.0, moved, scsi_status, "-")
    }

    /// "Complete" with SCSI status 02h and any outcome of sense.
    fn check_line(&mut self, ticket: Ticket, request: &Request) -> Vec<u8> {
        self.note_kind(request, false);
        let all = request.asked.data_length;
        let moved = self.rng.pick(&[0, all, all, all + 1]);
        let sense = self.sense(request);
        self.note_sense(request, &sense);
        lines::complete(ticket.0, moved, 0x02, &sense)
    }

    fn sense(&mut self, request: &Request) -> String {
        let asked = request.asked.sense_length;
        let any = self.rng.byte();
        let counts = [
            asked,
            asked.saturating_sub(1),
            asked.saturating_add(1),
            asked.min(18),
            asked.min(any),
            0,
            1,
            255,
        ];
        match self.rng.below(10) {
            0 => "X".into(),
            1 => "-".into(),
            _ if self.flavour == Flavour::Bench => asked.min(18).to_string(),
            _ => self.rng.pick(&counts).to_string(),
        }
    }

    fn note_sense(&mut self, request: &Request, sense: &str) {
        let asked = &request.asked;
        let landmark = match sense {
            _ if !asked.autosense => Landmark::SenseDisabled,
            _ if asked.sense_length == 0 => Landmark::SenseLength0,
            "X" => Landmark::SenseFailed,
            "-" => Landmark::SenseNoneOutcome,
            "0" => Landmark::SenseZero,
            count if count == asked.sense_length.to_string() => Landmark::SenseAsAsked,
            _ => return,
        };
        self.note(landmark);
    }

    fn any_event_line(&mut self, ticket: Ticket, request: &Request) -> Vec<u8> {
        let moved = self.bytes_moved(request.asked.data_length);
        let kind = self
            .rng
            .pick(&["K", "K", "0A", "0F", "13", "14", "19", "C", "C", "C", "C"]);
        self.note_kind(request, kind == "K");
        if kind != "C" {
            return lines::event(ticket.0, kind, moved);
        }
        let any = self.rng.byte();
        let statuses = [
            0x00, 0x00, 0x02, 0x02, 0x04, 0x08, 0x10, 0x18, 0x22, 0x28, any,
        ];
        let scsi_status = self.rng.pick(&statuses);
        let sense = self.sense(request);
        if scsi_status == 0x02 {
            self.note_sense(request, &sense);
        }
        lines::complete(ticket.0, moved, scsi_status, &sense)
    }

    /// All, a little less, a little more, or far too much.
    fn bytes_moved(&mut self, all: u32) -> u32 {
        let any = self.rng.number();
        let choices = [
            (20, all),
            (8, all.saturating_sub(1)),
            (8, all + 1),
            (4, 0),
            (4, any % (all + 1)),
            (3, 0x7FFF_FFFF),
            (2, 0x8000_0000),
            (1, u32::MAX),
            (2, any),
        ];
        let moved = self.rng.pick_weighted(&choices);
        match moved {
            0x7FFF_FFFF if all == 0 => self.note(Landmark::Moved7fffffff),
            0x8000_0000 => self.note(Landmark::Moved80000000),
            _ => {}
        }
        moved
    }

    fn note_kind(&mut self, request: &Request, abort_done: bool) {
        let Stage::Active { marks, .. } = request.stage else {
            return;
        };
        let landmark = match (abort_done, marks.abort_asked, marks.overdue) {
            (true, true, true) => Landmark::AbortDoneBoth,
            (true, true, false) => Landmark::AbortDoneAsked,
            (true, false, true) => Landmark::AbortDoneOverdue,
            (false, _, true) => Landmark::KindOnOverdue,
            (false, true, false) => Landmark::KindOnAsked,
            (_, false, false) => return,
        };
        self.note(landmark);
    }

    /// An event on a ticket that is waiting, finished or unknown.
    pub(super) fn event_elsewhere_line(&mut self) -> Vec<u8> {
        let (candidates, landmark) = match self.rng.below(3) {
            0 => (self.waiting(), Landmark::EventWaiting),
            1 => (self.finished(), Landmark::EventFinished),
            _ => (Vec::new(), Landmark::EventUnknown),
        };
        let ticket = match self.rng.pick_any(&candidates) {
            Some(ticket) => {
                self.note(landmark);
                ticket.0
            }
            None => {
                self.note(Landmark::EventUnknown);
                self.unknown_ticket()
            }
        };
        let moved = self.rng.pick(&[0, 512, 0x7FFF_FFFF, 0x8000_0000, u32::MAX]);
        match self.rng.below(3) {
            0 => lines::event(ticket, "K", moved),
            1 => lines::event(
                ticket,
                self.rng.pick(&["0A", "0F", "13", "14", "19"]),
                moved,
            ),
            _ => lines::complete(ticket, moved, 0x02, self.rng.pick(&["-", "X", "255"])),
        }
    }
}

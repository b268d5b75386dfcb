//! Tickets to choose from, as the log's own desk stands.

use super::Generator;
use crate::desk::{Request, Stage};
use crate::ids::Ticket;

impl Generator {
    /// The tickets of live requests that a test lets by, smallest first.
    pub(super) fn tickets(&self, wanted: impl Fn(&Request) -> bool) -> Vec<Ticket> {
        let live = self.desk().requests();
        let mut tickets: Vec<Ticket> = live
            .filter(|(_, request)| wanted(request))
            .map(|(ticket, _)| ticket)
            .collect();
        tickets.sort_unstable();
        tickets
    }

    pub(super) fn waiting(&self) -> Vec<Ticket> {
        self.tickets(|request| request.stage == Stage::Waiting)
    }

    pub(super) fn active(&self) -> Vec<Ticket> {
        self.tickets(|request| matches!(request.stage, Stage::Active { .. }))
    }

    pub(super) fn marked(&self) -> Vec<Ticket> {
        self.tickets(|request| match request.stage {
            Stage::Active { marks, .. } => marks.abort_asked || marks.overdue,
            _ => false,
        })
    }

    pub(super) fn finished(&self) -> Vec<Ticket> {
        self.tickets(|request| matches!(request.stage, Stage::Finished(_)))
    }

    /// Active requests that have run for their timeout, or a second more.
    pub(super) fn at_timeout(&self) -> Vec<Ticket> {
        let clock = self.desk().clock();
        self.tickets(|request| match (request.stage, request.timeout) {
            (Stage::Active { start, .. }, Some(timeout)) => {
                let run = clock.wrapping_sub(start);
                run == timeout || run == timeout.wrapping_add(1)
            }
            _ => false,
        })
    }

    /// A ticket that no live request has: never given, or handed back.
    pub(super) fn unknown_ticket(&mut self) -> u32 {
        loop {
            let near = self.rng.below(600) as u32;
            let ticket = self.rng.pick(&[0, u32::MAX, near, near, near]);
            if self.desk().request(Ticket(ticket)).is_none() {
                return ticket;
            }
        }
    }
}

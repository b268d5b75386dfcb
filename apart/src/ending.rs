//! How a request ends: events, the table of ends, and what is written at the hand-back.

use crate::refusal::Refusal;

/// Base statuses.
pub mod base {
    pub const DONE: u8 = 0x01;
    pub const ABORTED: u8 = 0x02;
    pub const DONE_WITH_ERROR: u8 = 0x04;
    pub const SELECTION_TIMEOUT: u8 = 0x0A;
    pub const OVERDUE: u8 = 0x0B;
    pub const BUS_RESET: u8 = 0x0E;
    pub const PARITY: u8 = 0x0F;
    pub const AUTOSENSE_FAILED: u8 = 0x10;
    pub const OVERRUN: u8 = 0x12;
    pub const BUS_FREE: u8 = 0x13;
    pub const PHASE: u8 = 0x14;
    pub const ADAPTER: u8 = 0x19;
}

/// Added to the base if sense was looked at and at least 1 byte came.
const SENSE_VALID: u8 = 0x80;

/// Added to the base exactly if the unit is frozen after the end.
const UNIT_FROZEN: u8 = 0x40;

/// SCSI status that asks for sense.
const CHECK_CONDITION: u8 = 0x02;

/// SCSI statuses that count as done: good, and condition met.
const GOOD: [u8; 2] = [0x00, 0x04];

/// The largest number of bytes moved that an event may report.
const MOST_MOVED: u32 = 0x7FFF_FFFF;

/// What came of fetching sense.
#[derive(Clone, Copy, PartialEq, Eq, Debug)]
pub enum Sense {
    Bytes(u8),
    Failed,
    None,
}

/// What the adapter reports on a ticket.
#[derive(Clone, Copy, PartialEq, Eq, Debug)]
pub enum Event {
    AbortDone,
    SelectionTimeout,
    Parity,
    BusFree,
    Phase,
    AdapterError,
    Complete { scsi_status: u8, sense: Sense },
}

/// What a request asked for that bears on its end.
#[derive(Clone, Copy, PartialEq, Eq, Debug)]
pub struct Asked {
    pub data_length: u32,
    pub sense_length: u8,
    pub autosense: bool,
}

/// The marks of an active request.
#[derive(Clone, Copy, PartialEq, Eq, Default, Debug)]
pub struct Marks {
    /// The host asked for its abort.
    pub abort_asked: bool,
    /// A tick found it beyond its timeout.
    pub overdue: bool,
}

/// An end, before it is known whether the unit is frozen after it.
#[derive(Clone, Copy, PartialEq, Eq, Debug)]
pub struct Outcome {
    pub base: u8,
    pub sense_came: bool,
    pub scsi_status: u8,
    pub autosense_residual: u8,
    pub residual: i32,
}

/// What the hand-back writes: bytes 7, 52, 53 and 56 to 59.
#[derive(Clone, Copy, PartialEq, Eq, Debug)]
pub struct Ending {
    pub status: u8,
    pub scsi_status: u8,
    pub autosense_residual: u8,
    pub residual: i32,
}

/// Sense that was looked at: how much was asked for and how much came.
struct LookedAt {
    asked: u8,
    came: u8,
}

impl Outcome {
    /// An end with nothing moved and no sense: the residual is the whole data length.
    pub fn with_nothing_moved(base: u8, asked: &Asked) -> Outcome {
        Outcome {
            base,
            sense_came: false,
            scsi_status: 0,
            autosense_residual: 0,
            residual: residual(asked.data_length, 0),
        }
    }

    /// The end that an event makes of an active request, or refusal 102.
    pub fn of_event(
        asked: &Asked,
        marks: Marks,
        event: Event,
        bytes_moved: u32,
    ) -> Result<Outcome, Refusal> {
        if bytes_moved > MOST_MOVED {
            return Err(Refusal::BytesMoved);
        }
        let sense = look_at_sense(asked, event)?;
        Ok(Outcome {
            base: base_status(asked, marks, event, bytes_moved, sense.as_ref())?,
            sense_came: sense.as_ref().is_some_and(|sense| sense.came > 0),
            scsi_status: match event {
                Event::Complete { scsi_status, .. } => scsi_status,
                _ => 0,
            },
            autosense_residual: sense.map_or(0, |sense| sense.asked - sense.came),
            residual: residual(asked.data_length, bytes_moved),
        })
    }

    /// Whether an active request that ends so freezes its unit.
    pub fn freezes(&self) -> bool {
        self.base != base::DONE
    }

    /// The end as it will be written, on a unit that is now frozen or not.
    pub fn on_unit(&self, frozen: bool) -> Ending {
        let sense = if self.sense_came { SENSE_VALID } else { 0 };
        let freeze = if frozen { UNIT_FROZEN } else { 0 };
        Ending {
            status: self.base | sense | freeze,
            scsi_status: self.scsi_status,
            autosense_residual: self.autosense_residual,
            residual: self.residual,
        }
    }
}

/// Data length minus bytes moved, signed; both are below 2^31, so it is exact.
fn residual(data_length: u32, bytes_moved: u32) -> i32 {
    data_length as i32 - bytes_moved as i32
}

/// Sense is looked at only for "complete" with SCSI status 02h, autosense on and some asked for.
fn look_at_sense(asked: &Asked, event: Event) -> Result<Option<LookedAt>, Refusal> {
    let Event::Complete {
        scsi_status: CHECK_CONDITION,
        sense,
    } = event
    else {
        return Ok(None);
    };
    if !asked.autosense || asked.sense_length == 0 {
        return Ok(None);
    }
    let came = match sense {
        Sense::Bytes(count) => count,
        Sense::Failed | Sense::None => 0,
    };
    if came > asked.sense_length {
        return Err(Refusal::TooMuchSense);
    }
    Ok(Some(LookedAt {
        asked: asked.sense_length,
        came,
    }))
}

/// The table of ends; its rows apply in order.
fn base_status(
    asked: &Asked,
    marks: Marks,
    event: Event,
    bytes_moved: u32,
    sense: Option<&LookedAt>,
) -> Result<u8, Refusal> {
    let base = match event {
        Event::AbortDone if marks.abort_asked => base::ABORTED,
        Event::AbortDone if marks.overdue => base::OVERDUE,
        Event::AbortDone => return Err(Refusal::NeitherMark),
        _ if marks.overdue => base::OVERDUE,
        Event::SelectionTimeout => base::SELECTION_TIMEOUT,
        Event::Parity => base::PARITY,
        Event::BusFree => base::BUS_FREE,
        Event::Phase => base::PHASE,
        Event::AdapterError => base::ADAPTER,
        Event::Complete { .. } if bytes_moved > asked.data_length => base::OVERRUN,
        Event::Complete { .. } if sense.is_some_and(|sense| sense.came == 0) => {
            base::AUTOSENSE_FAILED
        }
        Event::Complete { scsi_status, .. } if GOOD.contains(&scsi_status) => base::DONE,
        Event::Complete { .. } => base::DONE_WITH_ERROR,
    };
    Ok(base)
}

#[cfg(test)]
mod tests {
    use super::*;

    const ASKED: Asked = Asked {
        data_length: 4096,
        sense_length: 32,
        autosense: true,
    };
    const OVERDUE: Marks = Marks {
        abort_asked: false,
        overdue: true,
    };
    const ABORT_ASKED: Marks = Marks {
        abort_asked: true,
        overdue: false,
    };
    const BOTH: Marks = Marks {
        abort_asked: true,
        overdue: true,
    };

    fn complete(scsi_status: u8, sense: Sense) -> Event {
        Event::Complete { scsi_status, sense }
    }

    fn base_of(marks: Marks, event: Event, moved: u32) -> Result<u8, Refusal> {
        Outcome::of_event(&ASKED, marks, event, moved).map(|outcome| outcome.base)
    }

    #[test]
    fn abort_done_goes_by_the_marks_in_row_order() {
        let none = Marks::default();
        assert_eq!(base_of(ABORT_ASKED, Event::AbortDone, 0), Ok(0x02));
        assert_eq!(base_of(BOTH, Event::AbortDone, 0), Ok(0x02));
        assert_eq!(base_of(OVERDUE, Event::AbortDone, 0), Ok(0x0B));
        assert_eq!(
            base_of(none, Event::AbortDone, 0),
            Err(Refusal::NeitherMark)
        );
    }

    #[test]
    fn any_other_event_on_an_overdue_request_is_0bh() {
        for event in [
            Event::SelectionTimeout,
            Event::Parity,
            Event::BusFree,
            Event::Phase,
            Event::AdapterError,
            complete(0, Sense::None),
        ] {
            assert_eq!(base_of(OVERDUE, event, 0), Ok(0x0B));
            assert_eq!(base_of(BOTH, event, 0), Ok(0x0B));
        }
    }

    #[test]
    fn the_adapters_errors_have_their_own_numbers() {
        let none = Marks::default();
        assert_eq!(base_of(none, Event::SelectionTimeout, 0), Ok(0x0A));
        assert_eq!(base_of(none, Event::Parity, 0), Ok(0x0F));
        assert_eq!(base_of(none, Event::BusFree, 0), Ok(0x13));
        assert_eq!(base_of(none, Event::Phase, 5000), Ok(0x14));
        assert_eq!(base_of(ABORT_ASKED, Event::AdapterError, 0), Ok(0x19));
    }

    #[test]
    fn complete_goes_by_bytes_sense_and_scsi_status() {
        let none = Marks::default();
        assert_eq!(base_of(none, complete(0x00, Sense::None), 4097), Ok(0x12));
        assert_eq!(base_of(none, complete(0x02, Sense::Failed), 0), Ok(0x10));
        assert_eq!(base_of(none, complete(0x02, Sense::None), 0), Ok(0x10));
        assert_eq!(base_of(none, complete(0x00, Sense::None), 0), Ok(0x01));
        assert_eq!(
            base_of(none, complete(0x04, Sense::Bytes(255)), 0),
            Ok(0x01)
        );
        assert_eq!(base_of(none, complete(0x08, Sense::None), 0), Ok(0x04));
        assert_eq!(base_of(none, complete(0x02, Sense::Bytes(1)), 0), Ok(0x04));
        assert_eq!(base_of(ABORT_ASKED, complete(0, Sense::None), 0), Ok(0x01));
    }

    #[test]
    fn an_overdue_complete_still_has_its_sense_counted() {
        let event = complete(0x02, Sense::Bytes(18));
        let outcome = Outcome::of_event(&ASKED, OVERDUE, event, 0).expect("a sound event");
        let ending = outcome.on_unit(true);
        assert_eq!((ending.status, ending.autosense_residual), (0xCB, 14));
        assert_eq!(
            base_of(OVERDUE, complete(0x02, Sense::Bytes(33)), 0),
            Err(Refusal::TooMuchSense)
        );
    }

    #[test]
    fn sense_that_is_not_looked_at_is_ignored() {
        let event = complete(0x02, Sense::Bytes(255));
        for asked in [
            Asked {
                autosense: false,
                ..ASKED
            },
            Asked {
                sense_length: 0,
                ..ASKED
            },
        ] {
            let outcome = Outcome::of_event(&asked, Marks::default(), event, 0);
            let ending = outcome.expect("a sound event").on_unit(true);
            assert_eq!((ending.status, ending.autosense_residual), (0x44, 0));
        }
    }

    #[test]
    fn every_event_has_its_residual_and_only_complete_its_scsi_status() {
        let outcome = Outcome::of_event(&ASKED, Marks::default(), Event::Parity, 5000)
            .expect("a sound event");
        assert_eq!((outcome.residual, outcome.scsi_status), (-904, 0));
        let outcome = Outcome::of_event(&ASKED, OVERDUE, complete(0x28, Sense::None), 4095)
            .expect("a sound event");
        assert_eq!((outcome.residual, outcome.scsi_status), (1, 0x28));
    }

    #[test]
    fn the_residual_is_exact_down_to_its_least() {
        let asked = Asked {
            data_length: 0,
            ..ASKED
        };
        let none = Marks::default();
        let least = Outcome::of_event(&asked, none, Event::Phase, 0x7FFF_FFFF);
        assert_eq!(least.map(|end| end.residual), Ok(-2_147_483_647));
        let beyond = Outcome::of_event(&asked, none, Event::Phase, 0x8000_0000);
        assert_eq!(beyond, Err(Refusal::BytesMoved));
    }
}

//! What the adapter tells the desk, and what the desk answers.

use core::fmt;

use crate::{Ticket, Unit};

/// What became of the sense of a complete event.
#[derive(Clone, Copy, Debug, PartialEq, Eq, Hash)]
pub enum Sense {
    /// So many bytes came.
    Bytes(u8),
    /// Fetching it failed.
    Failed,
    /// There is none.
    None,
}

/// What the adapter reports.
#[derive(Clone, Copy, Debug, PartialEq, Eq, Hash)]
pub enum Event {
    /// The request completed, with a SCSI status and a sense: the only event that has them.
    Complete(u8, Sense),
    /// The abort of a request is done.
    AbortDone,
    /// The unit didn't answer its selection.
    SelectionTimeout,
    /// Parity error.
    Parity,
    /// Unexpected bus free.
    BusFree,
    /// Wrong phase.
    Phase,
    /// An error of the adapter itself.
    AdapterError,
}

impl Event {
    /// Complete with SCSI status 00h and no sense.
    pub const GOOD: Event = Event::Complete(0, Sense::None);

    /// The header's kind, SCSI status and sense. The last two are looked at for a complete event alone.
    pub(crate) fn numbers(self) -> [u32; 3] {
        match self {
            Event::Complete(scsi_status, Sense::Bytes(count)) => [0x01, scsi_status.into(), count.into()],
            Event::Complete(scsi_status, Sense::Failed) => [0x01, scsi_status.into(), 256],
            Event::Complete(scsi_status, Sense::None) => [0x01, scsi_status.into(), 257],
            Event::AbortDone => [0x02, 0, 0],
            Event::SelectionTimeout => [0x0A, 0, 0],
            Event::Parity => [0x0F, 0, 0],
            Event::BusFree => [0x13, 0, 0],
            Event::Phase => [0x14, 0, 0],
            Event::AdapterError => [0x19, 0, 0],
        }
    }
}

/// What a send answers.
#[must_use = "a request that was sent has to be put on the bus"]
#[derive(Clone, Copy, Debug, PartialEq, Eq)]
pub enum Sending {
    /// A request became active: put it on the bus.
    Sent {
        /// Its ticket.
        ticket: Ticket,
        /// Its unit.
        unit: Unit,
        /// How many units were looked at: 1 to 64.
        looked: u8,
        /// Its CDB bytes, as they were when it was taken in.
        cdb: [u8; 12],
    },
    /// There is nothing to send now.
    Nothing {
        /// How many units were looked at: 64, or 0 where 8 requests are active already.
        looked: u8,
    },
}

/// The first request of the finished line.
#[derive(Clone, Copy, Debug, PartialEq, Eq)]
pub struct Finished {
    /// Its ticket.
    pub ticket: Ticket,
    /// Its block's bytes 0 to 3, which say which block to lend to the hand-back.
    pub address: u32,
    /// Its block's bytes 28 to 31.
    pub callback: u32,
    /// Its callback disable flag is clear.
    pub callback_wanted: bool,
}

/// What a handed back block is told.
#[must_use = "a short read has a good status too: look at the residual"]
#[derive(Clone, Copy, Debug, PartialEq, Eq)]
#[repr(C)]
pub struct HandedBack {
    /// The request's ticket.
    pub ticket: Ticket,
    /// Data length minus bytes moved: above zero, so many bytes are missing; below zero, so many came too many.
    pub residual: i32,
    /// The status byte.
    pub status: Status,
    /// The SCSI status.
    pub scsi_status: u8,
    /// Sense length minus sense bytes, if sense was looked at, else 0.
    pub autosense_residual: u8,
}

impl HandedBack {
    /// It completed without error, and no byte is missing.
    pub fn is_whole(&self) -> bool {
        self.status.base() == 0x01 && self.residual == 0
    }
}

/// The status byte that a handed back block is told: a base status, and two bits.
#[derive(Clone, Copy, Debug, PartialEq, Eq, Hash)]
#[repr(transparent)]
pub struct Status(pub u8);

impl Status {
    /// The base status, by the header's numbers. **Look at the residual** where it is 01h (completed without error): a short read is 01h too.
    pub const fn base(self) -> u8 {
        self.0 & 0x3F
    }

    /// The unit was frozen right after this end, by it or by another cause. It may be released since.
    pub const fn frozen(self) -> bool {
        self.0 & 0x40 != 0
    }

    /// Sense was looked at and at least one byte came.
    pub const fn sensed(self) -> bool {
        self.0 & 0x80 != 0
    }
}

impl fmt::Display for Status {
    fn fmt(&self, f: &mut fmt::Formatter<'_>) -> fmt::Result {
        let words = match self.base() {
            0x01 => "completed without error",
            0x02 => "aborted",
            0x04 => "completed with an error status",
            0x0A => "selection timeout",
            0x0B => "timed out",
            0x0E => "bus reset",
            0x0F => "parity error",
            0x10 => "check condition, and none of the sense asked for came",
            0x12 => "more bytes moved than asked",
            0x13 => "unexpected bus free",
            0x14 => "wrong phase",
            0x19 => "error of the adapter",
            _ => "no end of a request",
        };
        let frozen = if self.frozen() { ", unit frozen" } else { "" };
        let sensed = if self.sensed() { ", sense came" } else { "" };
        write!(f, "{:02X}h: {words}{frozen}{sensed}", self.0)
    }
}

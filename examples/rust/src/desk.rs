//! The desk: each call of the header as a method.

use core::fmt;

use crate::ffi::{self, Answer, Memory, Wheel, ALL};
use crate::{Event, Finished, HandedBack, Refusal, Sending, Ticket, Unit};

/// A desk, with all that it remembers: 3,364 bytes.
///
/// Nothing is kept anywhere else, so there may be as many desks as there is memory for, and a desk may be moved. No call waits, allocates,
/// takes a lock or calls out, and each ends after a bounded number of steps.
///
/// It isn't `Clone`, since a copy would hand each request back once more. It is `Send` and not `Sync`, since calls on one desk are not made
/// at the same time (put it into a `Mutex`):
///
/// ```compile_fail
/// fn shared<T: Sync>(_: T) {}
/// shared(pellacrosta::Desk::new());
/// ```
pub struct Desk {
    memory: Memory,
    wheel: Wheel,
    last_ticket: u32,
}

impl Desk {
    /// A fresh desk: no request, no unit frozen, clock 0, mark 63, no ticket given.
    ///
    /// # Panics
    ///
    /// If the archive that was linked is another than this crate is written for, and asks for more memory.
    pub fn new() -> Desk {
        let mut desk = Desk { memory: ffi::ZEROS, wheel: Wheel { clock: 0, mark: Unit(63) }, last_ticket: 0 };
        assert_eq!(ffi::pella_fresh(&mut desk.memory, ALL), 0, "this libpellacrosta.a is not the one that this crate is for");
        desk
    }

    /// Takes a request in: a block laid out as Table 20 of the standard says, little-endian ([`Block`](crate::Block) makes one). If it is
    /// accepted byte 7 becomes 00h, the request has the next ticket and waits on its unit: last, or first if its SIM Queue Priority flag asks
    /// for the head. The desk keeps what it needs of the block; lend the same block again to [`hand_back`](Desk::hand_back).
    /// Refused: 05h, 06h, 07h, 15h, 16h (also in byte 7, if 8 bytes were lent).
    pub fn take_in(&mut self, block: &mut [u8]) -> Result<Ticket, Refusal> {
        let Answer { refused, given } = ffi::take_in(&mut self.memory, block, &mut self.last_ticket);
        Refusal::check(refused).map(|()| given)
    }

    /// Sends. With 8 requests active nothing is sent. Otherwise units are looked at from the one after the mark round to the mark itself: the
    /// first on which something waits, that isn't frozen and has nothing active, is sent its first waiting request. The request becomes active,
    /// its time starts at the clock, and the mark becomes the unit. If nothing can be sent, nothing is altered.
    pub fn send(&mut self) -> Sending {
        let Answer { refused, given } = ffi::pella_send(&mut self.memory, ALL, &mut self.wheel);
        not_refused(refused);
        match given.sent {
            true => Sending::Sent { ticket: given.ticket, unit: given.unit, looked: given.looked, cdb: given.cdb },
            false => Sending::Nothing { looked: given.looked },
        }
    }

    /// The adapter reports an event on an active request, with the bytes moved. The request ends and joins the finished line; if its base
    /// status is other than 01h its unit is frozen. Refused: 101, 102.
    pub fn report(&mut self, ticket: Ticket, event: Event, moved: u32) -> Result<(), Refusal> {
        let [kind, scsi_status, sense] = event.numbers();
        Refusal::check(ffi::pella_report(&mut self.memory, ALL, ticket, kind, scsi_status, sense, moved))
    }

    /// Aborts a request. One that waits ends at once, with 02h and the whole data length missing. One that is active is marked, and ends
    /// when the adapter reports; report [`Event::AbortDone`] for it when its abort is done. Refused: 03h (it is finished or unknown).
    pub fn abort(&mut self, ticket: Ticket) -> Result<(), Refusal> {
        Refusal::check(ffi::pella_abort(&mut self.memory, ALL, ticket))
    }

    /// Freezes a unit: nothing is sent to it. Gives whether it was frozen before. Refused: 103.
    pub fn freeze(&mut self, unit: Unit) -> Result<bool, Refusal> {
        was_frozen(ffi::pella_freeze(&mut self.memory, ALL, unit.0.into()))
    }

    /// Releases a unit. Gives whether it was frozen before. Refused: 103.
    pub fn release(&mut self, unit: Unit) -> Result<bool, Refusal> {
        was_frozen(ffi::pella_release(&mut self.memory, ALL, unit.0.into()))
    }

    /// A second has passed: the clock goes on by one, from FFFFFFFFh to 0, and each active request that was sent more seconds ago than its
    /// timeout is overdue from then on. That ends nothing by itself: what is reported next ends it with 0Bh. Gives the clock.
    pub fn tick(&mut self) -> u32 {
        not_refused(ffi::pella_tick(&mut self.memory, ALL, &mut self.wheel));
        self.clock()
    }

    /// The bus was reset: every active request ends with 0Eh and the whole data length missing, the smallest ticket first, and its unit is
    /// frozen. Waiting ones stay.
    pub fn reset(&mut self) {
        not_refused(ffi::pella_reset(&mut self.memory, ALL));
    }

    /// Looks at the first request of the finished line, if there is one, and alters nothing.
    #[must_use]
    pub fn look(&self) -> Option<Finished> {
        let Answer { refused, given: first } = ffi::pella_look(&self.memory, ALL);
        not_refused(refused);
        let finished = Finished { ticket: first.ticket, address: first.address, callback: first.callback, callback_wanted: first.wanted };
        first.found.then_some(finished)
    }

    /// Hands the first finished request back, with its block lent again: bytes 7 (status), 52 (SCSI status), 53 (autosense residual) and 56
    /// to 59 (residual, two's complement) are written and no others, and the request's place is free. Refused: 104, then 105.
    pub fn hand_back(&mut self, block: &mut [u8]) -> Result<HandedBack, Refusal> {
        let Answer { refused, given } = ffi::hand_back(&mut self.memory, block);
        Refusal::check(refused).map(|()| given)
    }

    /// The clock, in seconds.
    pub fn clock(&self) -> u32 {
        self.wheel.clock
    }

    /// The rotation mark: the unit that was sent to last.
    pub fn mark(&self) -> Unit {
        self.wheel.mark
    }

    /// The last ticket given, if any was.
    pub fn last_ticket(&self) -> Option<Ticket> {
        (self.last_ticket != 0).then_some(Ticket(self.last_ticket))
    }
}

impl Default for Desk {
    fn default() -> Desk {
        Desk::new()
    }
}

impl fmt::Debug for Desk {
    fn fmt(&self, f: &mut fmt::Formatter<'_>) -> fmt::Result {
        let (clock, mark, last) = (self.clock(), self.mark(), self.last_ticket());
        f.debug_struct("Desk").field("clock", &clock).field("mark", &mark).field("last_ticket", &last).finish_non_exhaustive()
    }
}

/// For calls whose only refusal is 201, which can't come: `new` has seen that the words are enough.
fn not_refused(number: u32) {
    debug_assert_eq!(number, 0, "refused, although all words were lent");
}

/// What freeze and release give: 0 or 1, or a refusal.
fn was_frozen(number: u32) -> Result<bool, Refusal> {
    match number {
        1 => Ok(true),
        _ => Refusal::check(number).map(|()| false),
    }
}

//! The calls of `include/pellacrosta.h`, and the only unsafe code of this crate.

use core::{cell::Cell, marker::PhantomData, mem};

use crate::{HandedBack, Ticket, Unit};

const WORDS: usize = 838;

/// A desk's words. Not `Sync`: not even two looks at one desk are made at the same time.
#[repr(transparent)]
pub struct Memory([u32; WORDS], PhantomData<Cell<()>>);
pub const ZEROS: Memory = Memory([0; WORDS], PhantomData);

/// How many words are lent: all. Outside of this module there is no other value.
#[repr(transparent)]
pub struct Words(usize);
pub const ALL: Words = Words(WORDS);

#[repr(C)]
pub struct Wheel {
    pub clock: u32,
    pub mark: Unit,
}

/// The header's records: the refusal's number, then what is given, which is all 0 if something was refused.
#[repr(C)]
pub struct Answer<T> {
    pub refused: u32,
    pub given: T,
}

#[repr(C)]
pub struct Sent {
    pub ticket: Ticket,
    pub sent: bool,
    pub unit: Unit,
    pub looked: u8,
    pub cdb: [u8; 12],
}

#[repr(C)]
pub struct First {
    pub ticket: Ticket,
    pub address: u32,
    pub callback: u32,
    pub found: bool,
    pub wanted: bool,
}

/// `layout!(Record, size: field offset, ..)`: a record that lies otherwise than the header's does in C is not built.
macro_rules! layout {
    ($record:ty, $size:literal: $($field:ident$(.$inner:ident)? $offset:literal),+) => {
        const _: () = assert!(mem::size_of::<$record>() == $size $(&& mem::offset_of!($record, $field$(.$inner)?) == $offset)+);
    };
}

layout!(Wheel, 8: clock 0, mark 4);
layout!(Answer<Ticket>, 8: refused 0, given 4);
layout!(Answer<Sent>, 24: refused 0, given.ticket 4, given.sent 8, given.unit 9, given.looked 10, given.cdb 11);
layout!(Answer<First>, 20: refused 0, given.ticket 4, given.address 8, given.callback 12, given.found 16, given.wanted 17);
layout!(Answer<HandedBack>, 16: refused 0, given.ticket 4, given.residual 8, given.status 12, given.scsi_status 13, given.autosense_residual 14);

// SAFETY: these are the header's functions. What it asks of a caller is asked by the types, so that the compiler sees to it at each call:
// - A pointer leads to as much memory as the count beside it says, and is aligned. It is passed as a reference: to WORDS words, which is
//   what `Words` always says; to a wheel; to a number.
// - Memory, wheel, block and last ticket don't overlap. Each is held by `&mut`.
// - Calls on one desk are not made at the same time. The memory is held by `&mut`; by a look, by `&` and in one thread alone.
// Nothing else is asked: a number may be any. Only a block is a pointer and a length: so these two calls are unsafe, and made below.
unsafe extern "C" {
    pub safe fn pella_fresh(memory: &mut Memory, words: Words) -> u32;
    fn pella_take_in(memory: &mut Memory, words: Words, block: *mut u8, length: usize, last_ticket: &mut u32) -> Answer<Ticket>;
    pub safe fn pella_send(memory: &mut Memory, words: Words, wheel: &mut Wheel) -> Answer<Sent>;
    pub safe fn pella_report(memory: &mut Memory, words: Words, ticket: Ticket, kind: u32, scsi_status: u32, sense: u32, moved: u32)
        -> u32;
    pub safe fn pella_abort(memory: &mut Memory, words: Words, ticket: Ticket) -> u32;
    pub safe fn pella_freeze(memory: &mut Memory, words: Words, unit: u32) -> u32;
    pub safe fn pella_release(memory: &mut Memory, words: Words, unit: u32) -> u32;
    pub safe fn pella_tick(memory: &mut Memory, words: Words, wheel: &mut Wheel) -> u32;
    pub safe fn pella_reset(memory: &mut Memory, words: Words) -> u32;
    pub safe fn pella_look(memory: &Memory, words: Words) -> Answer<First>;
    fn pella_hand_back(memory: &mut Memory, words: Words, block: *mut u8, length: usize) -> Answer<HandedBack>;
}

pub fn take_in(memory: &mut Memory, block: &mut [u8], last_ticket: &mut u32) -> Answer<Ticket> {
    // SAFETY: pointer and length are those of one slice, held by `&mut` as memory and last ticket are: so none overlaps another.
    unsafe { pella_take_in(memory, ALL, block.as_mut_ptr(), block.len(), last_ticket) }
}

pub fn hand_back(memory: &mut Memory, block: &mut [u8]) -> Answer<HandedBack> {
    // SAFETY: pointer and length are those of one slice, held by `&mut` as the memory is: so they don't overlap.
    unsafe { pella_hand_back(memory, ALL, block.as_mut_ptr(), block.len()) }
}

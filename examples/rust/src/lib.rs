//! The request desk: a safe wrapper around the library of `include/pellacrosta.h`.
//!
//! A [`Desk`] takes SCSI requests in, says which is sent next, turns what the adapter reports into a status byte and an exact count of
//! missing bytes, and hands each request back once. What its calls promise is proved of the library, for every value of their numbers; this
//! wrapper is not proved, but small. It needs no heap and no operating system.
//!
//! ```
//! use pellacrosta::{Block, Desk, Event, Sending, Unit};
//!
//! let mut desk = Desk::new();
//! let disk = Unit::at(1, 0).expect("neither is above 7");
//! let mut block = Block::new(0x1000, disk, &[0x08, 0, 0, 0, 1, 0]).data_length(512);
//! let ticket = desk.take_in(&mut block.0)?;
//! assert!(matches!(desk.send(), Sending::Sent { ticket: sent, .. } if sent == ticket));
//!
//! // The adapter says that all went well, and that it moved 500 of the 512 bytes.
//! desk.report(ticket, Event::GOOD, 500)?;
//! let back = desk.hand_back(&mut block.0)?;
//! assert_eq!((back.status.0, back.residual, back.is_whole()), (0x01, 12, false));
//! # Ok::<(), pellacrosta::Refusal>(())
//! ```

#![no_std]
#![deny(improper_ctypes, missing_docs, unsafe_code, unsafe_op_in_unsafe_fn)]

mod answers;
mod block;
mod desk;
#[allow(unsafe_code)]
mod ffi;
mod ids;
mod refusal;

pub use answers::{Event, Finished, HandedBack, Sending, Sense, Status};
pub use block::Block;
pub use desk::Desk;
pub use ids::{Ticket, Unit};
pub use refusal::Refusal;

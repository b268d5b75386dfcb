//! Document 01's bench cases through the wrapper, and what else a caller may trip over. (The clock's wrap and the last ticket take too many
//! calls: the repository's `bench_main` has them.)

use pellacrosta::{Block, Desk, Event, Finished, Refusal, Sending, Sense, Status, Ticket, Unit};

const CDB: [u8; 12] = [0xA8, 1, 2, 3, 4, 5, 6, 7, 8, 9, 10, 11];

/// A read of 4,096 bytes that asks for 32 sense bytes.
fn read(address: u32, unit: u8) -> Block {
    Block::new(address, Unit(unit), &CDB).data_length(4096).sense_length(32)
}

/// Takes a block in and sends it.
fn start(desk: &mut Desk, block: &mut Block) -> Ticket {
    let ticket = desk.take_in(&mut block.0).expect("a sound block");
    assert!(matches!(desk.send(), Sending::Sent { ticket: sent, cdb: CDB, .. } if sent == ticket));
    ticket
}

/// Hands the first finished request back. Gives its ticket, status, SCSI status, autosense residual and residual; the block must be told the
/// same, and no other byte of it may change.
fn back(desk: &mut Desk, block: &mut Block) -> (u32, u8, u8, u8, i32) {
    let mut expected = block.0;
    let told = desk.hand_back(&mut block.0).expect("its block");
    (expected[7], expected[52], expected[53]) = (told.status.0, told.scsi_status, told.autosense_residual);
    expected[56..60].copy_from_slice(&told.residual.to_le_bytes());
    assert_eq!(block.0, expected);
    assert_eq!(block.told(), (told.status, told.scsi_status, told.autosense_residual, told.residual));
    assert_eq!(told.is_whole(), told.residual == 0 && [0x01, 0x41].contains(&told.status.0));
    (told.ticket.0, told.status.0, told.scsi_status, told.autosense_residual, told.residual)
}

/// How a request ends that is sent on a fresh desk and gets one event.
fn end(mut block: Block, event: Event, moved: u32) -> Result<(u8, u8, u8, i32), Refusal> {
    let mut desk = Desk::new();
    let sent = start(&mut desk, &mut block);
    desk.report(sent, event, moved)?;
    let (ticket, status, scsi_status, autosense_residual, residual) = back(&mut desk, &mut block);
    assert_eq!((ticket, desk.look()), (sent.0, None));
    Ok((status, scsi_status, autosense_residual, residual))
}

#[test]
fn bytes_moved_and_missing() {
    assert_eq!(end(read(1, 8), Event::GOOD, 4096), Ok((0x01, 0, 0, 0)));
    assert_eq!(end(read(1, 8), Event::GOOD, 4095), Ok((0x01, 0, 0, 1)));
    assert_eq!(end(read(1, 8), Event::GOOD, 4097), Ok((0x52, 0, 0, -1))); // its bytes are FF FF FF FF
    assert_eq!(end(read(1, 8).data_length(0), Event::GOOD, 0x7FFF_FFFF), Ok((0x52, 0, 0, -2_147_483_647)));
    assert_eq!(end(read(1, 8).data_length(0), Event::GOOD, 0x8000_0000), Err(Refusal::Implausible));
}

#[test]
fn every_event() {
    let disabled = read(1, 8).flags(Block::AUTOSENSE_DISABLED);
    assert_eq!(end(disabled, Event::Complete(2, Sense::Bytes(18)), 96), Ok((0x44, 2, 0, 4000)));
    for (event, expected) in [
        (Event::Complete(2, Sense::Bytes(18)), Ok((0xC4, 2, 14, 4000))),
        (Event::Complete(2, Sense::Bytes(0)), Ok((0x50, 2, 32, 4000))),
        (Event::Complete(2, Sense::Failed), Ok((0x50, 2, 32, 4000))),
        (Event::Complete(2, Sense::None), Ok((0x50, 2, 32, 4000))),
        (Event::Complete(2, Sense::Bytes(33)), Err(Refusal::Implausible)),
        (Event::Complete(4, Sense::Bytes(33)), Ok((0x01, 4, 0, 4000))),
        (Event::Complete(0xFF, Sense::None), Ok((0x44, 0xFF, 0, 4000))),
        (Event::AbortDone, Err(Refusal::Implausible)),
        (Event::SelectionTimeout, Ok((0x4A, 0, 0, 4000))),
        (Event::Parity, Ok((0x4F, 0, 0, 4000))),
        (Event::BusFree, Ok((0x53, 0, 0, 4000))),
        (Event::Phase, Ok((0x54, 0, 0, 4000))),
        (Event::AdapterError, Ok((0x59, 0, 0, 4000))),
    ] {
        assert_eq!(end(read(1, 8), event, 96), expected, "{event:?}");
    }
}

#[test]
fn aborts_and_frozen_units() {
    let (mut desk, mut first, mut second) = (Desk::new(), read(1, 8), read(2, 8));
    assert_eq!((start(&mut desk, &mut first), desk.take_in(&mut second.0)), (Ticket(1), Ok(Ticket(2))));
    assert_eq!(desk.freeze(Unit(8)), Ok(false));
    // Aborted while it waits on a frozen unit: it is finished then.
    assert_eq!((desk.abort(Ticket(2)), desk.abort(Ticket(2))), (Ok(()), Err(Refusal::UnableToAbort)));
    assert_eq!(back(&mut desk, &mut second), (2, 0x42, 0, 0, 4096));
    // Active when the host froze its unit, and ends well.
    assert_eq!(desk.report(Ticket(1), Event::GOOD, 4096), Ok(()));
    assert_eq!(desk.report(Ticket(1), Event::GOOD, 4096), Err(Refusal::NotActive));
    assert_eq!(back(&mut desk, &mut first), (1, 0x41, 0, 0, 0));
    // Aborted while it waits on a unit that isn't frozen.
    assert_eq!((desk.release(Unit(8)), desk.release(Unit(8))), (Ok(true), Ok(false)));
    assert_eq!((desk.take_in(&mut second.0), desk.abort(Ticket(3))), (Ok(Ticket(3)), Ok(())));
    assert_eq!(back(&mut desk, &mut second), (3, 0x02, 0, 0, 4096));
    // Aborted while it is active: it ends when the adapter reports.
    assert_eq!((start(&mut desk, &mut first), desk.abort(Ticket(4)), desk.look()), (Ticket(4), Ok(()), None));
    assert_eq!(desk.report(Ticket(4), Event::AbortDone, 0), Ok(()));
    assert_eq!(back(&mut desk, &mut first), (4, 0x42, 0, 0, 4096));
    for unit in [Unit(64), Unit(255)] {
        assert_eq!((desk.freeze(unit), desk.release(unit)), (Err(Refusal::NoSuchUnit), Err(Refusal::NoSuchUnit)));
    }
}

#[test]
fn timeout_of_5() {
    for (ticks, status) in [(5, 0x01), (6, 0x4B)] {
        let (mut desk, mut block) = (Desk::new(), read(1, 8).timeout(5));
        assert_eq!((desk.last_ticket(), desk.mark(), desk.clock(), desk.tick()), (None, Unit(63), 0, 1));
        let ticket = start(&mut desk, &mut block);
        assert_eq!((0..ticks).map(|_| desk.tick()).last(), Some(1 + ticks));
        assert_eq!((desk.last_ticket(), desk.mark(), desk.clock()), (Some(ticket), Unit(8), 1 + ticks));
        assert_eq!(desk.report(ticket, Event::GOOD, 4096), Ok(()));
        assert_eq!(back(&mut desk, &mut block), (1, status, 0, 0, 0));
    }
}

#[test]
fn priority_rotation_and_reset() {
    let (mut desk, mut first, mut second, mut third) = (Desk::new(), read(1, 9), read(2, 8), read(3, 8).flags(Block::TO_THE_HEAD));
    assert_eq!([&mut first, &mut second, &mut third].map(|block| desk.take_in(&mut block.0)), [1, 2, 3].map(|number| Ok(Ticket(number))));
    assert_eq!(desk.send(), Sending::Sent { ticket: Ticket(3), unit: Unit(8), looked: 9, cdb: CDB });
    assert_eq!(desk.send(), Sending::Sent { ticket: Ticket(1), unit: Unit(9), looked: 1, cdb: CDB });
    assert_eq!(desk.send(), Sending::Nothing { looked: 64 });
    desk.reset();
    assert_eq!(back(&mut desk, &mut first), (1, 0x4E, 0, 0, 4096));
    assert_eq!(back(&mut desk, &mut third), (3, 0x4E, 0, 0, 4096));
    // The other one still waits.
    assert_eq!((desk.look(), desk.abort(Ticket(2))), (None, Ok(())));
}

#[test]
fn at_most_32_live_and_8_active() {
    let (mut desk, mut next) = (Desk::new(), read(99, 8));
    let mut blocks: Vec<Block> = (1..=32).map(|number| read(number, number as u8)).collect();
    for (block, number) in blocks.iter_mut().zip(1..) {
        assert_eq!(desk.take_in(&mut block.0), Ok(Ticket(number)));
        assert_eq!(desk.send() == Sending::Nothing { looked: 0 }, number > 8);
    }
    assert_eq!((desk.take_in(&mut next.0), next.0[7]), (Err(Refusal::CamBusy), 0x05));
    assert_eq!(desk.report(Ticket(3), Event::GOOD, 4096), Ok(()));
    assert_eq!(desk.take_in(&mut next.0), Err(Refusal::CamBusy));
    assert_eq!(back(&mut desk, &mut blocks[2]), (3, 0x01, 0, 0, 0));
    assert_eq!((desk.take_in(&mut next.0), next.0[7]), (Ok(Ticket(33)), 0x00));
}

#[test]
fn blocks_that_are_not_taken_in() {
    let (mut desk, mut sound) = (Desk::new(), read(1, 8).data_length(0xFF_FFFF));
    let wrong = [(4, 87), (4, 89), (6, 2), (9, 1), (10, 7), (11, 8), (12, 0x10), (39, 1), (45, 13)];
    for ((at, byte), number) in wrong.into_iter().zip([0x15, 0x15, 0x06, 0x07, 0x06, 0x06, 0x16, 0x16, 0x06]) {
        let mut bytes = sound.0;
        bytes[at] = byte;
        let mut expected = bytes;
        expected[7] = number;
        assert_eq!((desk.take_in(&mut bytes).map_err(Refusal::number), bytes), (Err(number.into()), expected), "byte {at}");
    }
    let before = sound.clone();
    assert_eq!(desk.take_in(&mut sound.0[..7]), Err(Refusal::LengthInadequate));
    assert_eq!((desk.take_in(&mut []), &sound), (Err(Refusal::LengthInadequate), &before));
    assert_eq!(desk.take_in(&mut Block::new(1, Unit(8), &[0; 300]).0), Err(Refusal::InvalidRequest));
    assert_eq!((desk.last_ticket(), desk.take_in(&mut sound.0)), (None, Ok(Ticket(1))));
    assert_eq!(desk.take_in(&mut read(1, 9).0), Err(Refusal::InvalidRequest));
}

#[test]
fn blocks_that_are_not_handed_back() {
    let (mut desk, mut other) = (Desk::new(), read(9, 8));
    assert_eq!((desk.look(), desk.hand_back(&mut other.0)), (None, Err(Refusal::NoneFinished)));
    for (number, flags) in [(1, 0), (2, Block::CALLBACK_DISABLED)] {
        let mut block = read(0x0102_0304, 8).flags(flags);
        block.0[28..32].copy_from_slice(&[0xD, 0xC, 0xB, 0xFA]);
        assert_eq!((desk.take_in(&mut block.0), desk.abort(Ticket(number))), (Ok(Ticket(number)), Ok(())));
        let first = Finished { ticket: Ticket(number), address: 0x0102_0304, callback: 0xFA0B_0C0D, callback_wanted: flags == 0 };
        assert_eq!((desk.look(), desk.hand_back(&mut other.0)), (Some(first), Err(Refusal::NotItsBlock)));
        assert_eq!((desk.hand_back(&mut block.0[..87]), &other), (Err(Refusal::NotItsBlock), &read(9, 8)));
        assert_eq!(back(&mut desk, &mut block), (number, 0x02, 0, 0, 4096));
    }
}

#[test]
fn units_sizes_and_words() {
    assert_eq!(std::mem::size_of::<Desk>(), 3364);
    assert_eq!((Unit::at(6, 7), Unit::at(8, 0), Unit::at(0, 8)), (Some(Unit(55)), None, None));
    assert_eq!(Status(0x52).to_string(), "52h: more bytes moved than asked, unit frozen");
    assert_eq!(Status(0xC4).to_string(), "C4h: completed with an error status, unit frozen, sense came");
    assert_eq!(Refusal::InvalidPath.to_string(), "07h, taking in: path is not 0");
    assert_eq!(Refusal::NoneFinished.to_string(), "104, hand back: the finished line is empty");
}

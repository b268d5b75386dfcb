//! The bench cases of document 01, starred or not, and the rules around them: here is what they
//! have in common.

use super::*;
use crate::block::flag;
use crate::block::samples::sound;
use crate::ending::Sense;

mod ends;
mod handing_back;
mod sending;
mod taking_in;

/// A sound block for a unit, with an address of its own.
fn block_on(address: u32, unit: u8) -> Vec<u8> {
    let mut block = sound(address);
    block[offset::TARGET] = unit / 8;
    block[offset::LUN] = unit % 8;
    block
}

/// Takes a block in and sends it; it must be the only one eligible.
fn sent(desk: &mut Desk, mut block: Vec<u8>) -> Ticket {
    let ticket = desk.submit(&mut block).expect("a sound block");
    match desk.send() {
        Sending::Sent { ticket: sent, .. } => assert_eq!(sent, ticket),
        Sending::Nothing { .. } => panic!("an eligible unit was there"),
    }
    ticket
}

fn complete(scsi_status: u8, sense: Sense) -> Event {
    Event::Complete { scsi_status, sense }
}

const GOOD: Event = Event::Complete {
    scsi_status: 0,
    sense: Sense::None,
};

/// Hands the first finished request back into a block of FFh bytes with its address.
fn handed_back(desk: &mut Desk) -> (Ticket, Vec<u8>) {
    let first = desk.first_finished().expect("something finished");
    let mut block = vec![0xFF; block::WHOLE];
    block::put_number(&mut block, offset::ADDRESS, first.address);
    let ticket = desk.hand_back(&mut block).expect("the right block");
    (ticket, block)
}

/// Status, SCSI status, autosense residual and residual of the first finished request.
fn end_of(desk: &mut Desk) -> (u8, u8, u8, i32) {
    let (_, block) = handed_back(desk);
    (
        block[offset::STATUS],
        block[offset::SCSI_STATUS],
        block[offset::AUTOSENSE_RESIDUAL],
        block::number_at(&block, offset::RESIDUAL) as i32,
    )
}

/// How one request ends that is sent and gets one event.
fn end_after(block: Vec<u8>, event: Event, moved: u32) -> (u8, u8, u8, i32) {
    let mut desk = Desk::new();
    let ticket = sent(&mut desk, block);
    assert_eq!(desk.event(ticket, event, moved), Ok(()));
    end_of(&mut desk)
}

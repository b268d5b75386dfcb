//! A read of 512 bytes comes back with 500. The drive and the adapter say that all went well; the residual says that it is short.

use pellacrosta::{Block, Desk, Event, Refusal, Sending, Unit};

fn main() -> Result<(), Refusal> {
    let mut desk = Desk::new();
    let sensor = Unit::at(1, 0).expect("neither is above 7");

    // A READ(6) of one sector. The address tells this block from others that are live: a driver may use where the block lies.
    let mut block = Block::new(0x1000, sensor, &[0x08, 0, 0, 0, 1, 0]).data_length(512).timeout(10);
    let ticket = desk.take_in(&mut block.0)?;
    println!("taken in: ticket {}", ticket.0);

    // Whenever the bus is free, the desk is asked what to send.
    while let Sending::Sent { ticket, unit, cdb, .. } = desk.send() {
        println!("sent: ticket {} to target {}, LUN {}, CDB {:02X?}", ticket.0, unit.target(), unit.lun(), &cdb[..6]);
    }

    // The adapter interrupts: complete, SCSI status 00h, 500 bytes moved.
    desk.report(ticket, Event::GOOD, 500)?;

    // What is finished goes back to its host. The look says whose block is to be lent: here there is one.
    while let Some(first) = desk.look() {
        assert_eq!(first.address, 0x1000);
        let back = desk.hand_back(&mut block.0)?;
        println!("handed back: ticket {}, {}, residual {}", back.ticket.0, back.status, back.residual);
        println!("{}", if back.is_whole() { "the read is whole" } else { "the read is not whole" });
    }
    Ok(())
}

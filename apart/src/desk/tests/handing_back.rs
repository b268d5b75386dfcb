//! The finished line: looking at it, and handing back.

use super::*;

#[test]
fn the_finished_line_shows_its_first() {
    let mut desk = Desk::new();
    assert_eq!(desk.first_finished(), None);
    for (number, flags) in [(7, 0), (8, flag::CALLBACK_DISABLED)] {
        let mut block = sound(number);
        block[offset::FLAGS] = flags;
        block::put_number(&mut block, offset::CALLBACK, number + 1000);
        let ticket = desk.submit(&mut block).expect("a sound block");
        assert_eq!(desk.abort(ticket), Ok(()));
    }
    for (ticket, address, callback_wanted) in [(1, 7, true), (2, 8, false)] {
        let first = FirstFinished {
            ticket: Ticket(ticket),
            address,
            callback: address + 1000,
            callback_wanted,
        };
        assert_eq!(desk.first_finished(), Some(first));
        handed_back(&mut desk);
    }
}

#[test]
fn hand_back_refuses_an_empty_line_and_a_wrong_block() {
    let mut desk = Desk::new();
    assert_eq!(desk.hand_back(&mut []), Err(Refusal::NothingFinished));
    let ticket = desk.submit(&mut sound(0x0102_0304)).expect("a sound block");
    assert_eq!(desk.abort(ticket), Ok(()));
    for mut wrong in [sound(0x0102_0305), sound(0x0102_0304)[..87].to_vec()] {
        let before = wrong.clone();
        let refusal = desk.hand_back(&mut wrong).map_err(Refusal::number);
        assert_eq!(refusal, Err(105));
        assert_eq!(wrong, before);
    }
    let mut longer = sound(0x0102_0304);
    longer.resize(500, 0);
    assert_eq!(desk.hand_back(&mut longer), Ok(ticket));
    assert_eq!(longer[offset::STATUS], 0x02);
}

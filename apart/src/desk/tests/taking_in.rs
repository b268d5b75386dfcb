//! Taking a request in: the checks, byte 7, places, addresses and tickets.

use super::*;

#[test]
fn seven_bytes_lent_are_refused_and_not_written() {
    let mut desk = Desk::new();
    let mut block = sound(1);
    block.truncate(7);
    let before = block.clone();
    let refusal = desk.submit(&mut block).expect_err("too few bytes");
    assert_eq!((refusal.number(), &block), (0x15, &before));
}

#[test]
fn a_refusal_writes_its_number_to_byte_7_and_nothing_else() {
    let mut desk = Desk::new();
    for (at, value, number) in [
        (offset::LENGTH, 87, 0x15),
        (offset::LENGTH, 89, 0x15),
        (offset::FUNCTION, 2, 0x06),
        (offset::PATH, 1, 0x07),
        (offset::TARGET, 7, 0x06),
        (offset::LUN, 8, 0x06),
        (offset::FLAGS, flag::SCATTER_GATHER, 0x16),
        (offset::CDB_LENGTH, 13, 0x06),
        (offset::DATA_LENGTH + 3, 1, 0x16),
    ] {
        let mut block = sound(1);
        block[at] = value;
        let mut expected = block.clone();
        expected[offset::STATUS] = number;
        let refusal = desk.submit(&mut block).expect_err("a refusal");
        assert_eq!((refusal.number(), block), (number, expected));
    }
    assert_eq!(desk.live_count(), 0);
    assert_eq!(desk.submit(&mut sound(1)), Ok(Ticket(1)));
}

#[test]
fn a_block_taken_in_gets_00h_in_byte_7_and_nothing_else() {
    let mut desk = Desk::new();
    let mut block = sound(1);
    let mut expected = block.clone();
    expected[offset::STATUS] = 0x00;
    assert_eq!(desk.submit(&mut block), Ok(Ticket(1)));
    assert_eq!(block, expected);
}

#[test]
fn short_length_and_path_1_is_the_length() {
    let mut block = sound(1);
    block[offset::LENGTH] = 87;
    block[offset::PATH] = 1;
    assert_eq!(Desk::new().submit(&mut block), Err(Refusal::LengthField));
}

#[test]
fn a_place_is_free_at_the_hand_back_and_not_before() {
    let mut desk = Desk::new();
    for number in 1..=32 {
        assert_eq!(desk.submit(&mut sound(number)), Ok(Ticket(number)));
    }
    assert_eq!(desk.submit(&mut sound(33)), Err(Refusal::DeskFull));
    assert_eq!(desk.abort(Ticket(5)), Ok(()));
    assert_eq!(desk.submit(&mut sound(33)), Err(Refusal::DeskFull));
    assert_eq!(handed_back(&mut desk).0, Ticket(5));
    assert_eq!(desk.submit(&mut sound(33)), Ok(Ticket(33)));
}

#[test]
fn an_address_is_live_until_the_hand_back() {
    let mut desk = Desk::new();
    let ticket = sent(&mut desk, sound(1));
    assert_eq!(desk.submit(&mut sound(1)), Err(Refusal::SameAddress));
    assert_eq!(desk.event(ticket, GOOD, 0), Ok(()));
    assert_eq!(desk.submit(&mut sound(1)), Err(Refusal::SameAddress));
    handed_back(&mut desk);
    assert_eq!(desk.submit(&mut sound(1)), Ok(Ticket(2)));
}

#[test]
fn after_the_last_ticket_every_submission_is_05h() {
    let mut desk = Desk::new();
    desk.next_ticket = Some(Ticket(u32::MAX));
    assert_eq!(desk.submit(&mut sound(1)), Ok(Ticket(u32::MAX)));
    assert_eq!(desk.submit(&mut sound(1)), Err(Refusal::SameAddress));
    assert_eq!(desk.submit(&mut sound(2)), Err(Refusal::TicketsUsedUp));
    assert_eq!(desk.abort(Ticket(u32::MAX)), Ok(()));
    handed_back(&mut desk);
    let refusal = desk.submit(&mut sound(2)).map_err(Refusal::number);
    assert_eq!(refusal, Err(0x05));
}

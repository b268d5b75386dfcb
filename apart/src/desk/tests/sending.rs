//! Sending: the rotation, the order of waiting, frozen units.

use super::*;

#[test]
fn a_later_priority_request_goes_before_an_earlier_one() {
    let mut desk = Desk::new();
    for (number, second_flags) in [(1, 0), (2, flag::PRIORITY), (3, 0), (4, flag::PRIORITY)] {
        let mut block = sound(number);
        block[offset::FLAGS + 1] = second_flags;
        assert_eq!(desk.submit(&mut block), Ok(Ticket(number)));
    }
    for expected in [4, 2, 1, 3] {
        let Sending::Sent { ticket, .. } = desk.send() else {
            panic!("the unit is eligible");
        };
        assert_eq!(ticket, Ticket(expected));
        assert_eq!(desk.event(ticket, GOOD, 0), Ok(()));
    }
}

#[test]
fn the_rotation_goes_on_from_the_mark_and_counts_what_it_looked_at() {
    let mut desk = Desk::new();
    for (address, unit) in [(1, 0), (2, 5), (3, 55), (4, 5)] {
        assert!(desk.submit(&mut block_on(address, unit)).is_ok());
    }
    let mut answers = Vec::new();
    while let Sending::Sent {
        ticket,
        unit,
        looked_at,
        ..
    } = desk.send()
    {
        answers.push((ticket.0, unit.number(), looked_at));
    }
    assert_eq!(answers, [(1, 0, 1), (2, 5, 5), (3, 55, 50)]);
    assert_eq!(desk.event(Ticket(2), GOOD, 0), Ok(()));
    desk.mark = Unit::new(5).expect("a unit");
    let Sending::Sent { looked_at, .. } = desk.send() else {
        panic!("unit 5 is eligible again");
    };
    assert_eq!(looked_at, 64);
    assert_eq!(desk.send(), Sending::Nothing { looked_at: 64 });
}

#[test]
fn with_eight_active_a_send_looks_at_nothing() {
    let mut desk = Desk::new();
    for unit in 0..9 {
        assert!(desk.submit(&mut block_on(unit.into(), unit)).is_ok());
    }
    for _ in 0..8 {
        assert!(matches!(desk.send(), Sending::Sent { .. }));
    }
    assert_eq!(desk.send(), Sending::Nothing { looked_at: 0 });
    assert_eq!(desk.event(Ticket(1), GOOD, 0), Ok(()));
    assert!(matches!(desk.send(), Sending::Sent { .. }));
}

#[test]
fn the_cdb_is_sent_as_it_was_taken_in() {
    let mut desk = Desk::new();
    let mut block = sound(1);
    let cdb: [u8; CDB_BYTES] = std::array::from_fn(|at| at as u8 + 100);
    block[offset::CDB..offset::CDB + CDB_BYTES].copy_from_slice(&cdb);
    assert!(desk.submit(&mut block).is_ok());
    block[offset::CDB..].fill(0);
    let Sending::Sent { cdb: sent_cdb, .. } = desk.send() else {
        panic!("the unit is eligible");
    };
    assert_eq!(sent_cdb, cdb);
}

#[test]
fn freeze_and_release_answer_what_was_before() {
    let mut desk = Desk::new();
    for unit in [0, 56, 63] {
        assert_eq!(desk.release(unit), Ok(false));
        assert_eq!(desk.freeze(unit), Ok(false));
        assert_eq!(desk.freeze(unit), Ok(true));
        assert_eq!(desk.release(unit), Ok(true));
    }
    for unit in [64, 255, 256, u32::MAX] {
        assert_eq!(desk.freeze(unit), Err(Refusal::NoSuchUnit));
        assert_eq!(desk.release(unit), Err(Refusal::NoSuchUnit));
    }
}

#[test]
fn a_frozen_unit_sends_nothing_and_still_times_out() {
    let mut desk = Desk::new();
    let ticket = sent(&mut desk, sound(1));
    assert_eq!(desk.freeze(8), Ok(false));
    for _ in 0..6 {
        desk.tick();
    }
    assert_eq!(desk.event(ticket, GOOD, 4096), Ok(()));
    assert!(desk.submit(&mut sound(2)).is_ok());
    assert_eq!(desk.send(), Sending::Nothing { looked_at: 64 });
    assert_eq!(end_of(&mut desk).0, 0x4B);
    assert_eq!(desk.release(8), Ok(true));
    assert!(matches!(desk.send(), Sending::Sent { .. }));
}

//! How a request ends: residuals, sense, aborts, overdue requests, resets.

use super::*;

#[test]
fn residuals_are_signed() {
    assert_eq!(end_after(sound(1), GOOD, 4096), (0x01, 0, 0, 0));
    assert_eq!(end_after(sound(1), GOOD, 4095), (0x01, 0, 0, 1));
    assert_eq!(end_after(sound(1), GOOD, 4097), (0x52, 0, 0, -1));
}

#[test]
fn an_overrun_of_one_is_four_bytes_ff() {
    let mut desk = Desk::new();
    let ticket = sent(&mut desk, sound(9));
    assert_eq!(desk.event(ticket, GOOD, 4097), Ok(()));
    let mut block = vec![0; 90];
    block[offset::ADDRESS] = 9;
    let mut expected = block.clone();
    expected[7] = 0x52;
    expected[56..60].fill(0xFF);
    assert_eq!(desk.hand_back(&mut block), Ok(ticket));
    assert_eq!(block, expected);
}

#[test]
fn check_conditions() {
    let came = |sense| end_after(sound(1), complete(2, sense), 4096);
    assert_eq!(came(Sense::Bytes(18)), (0xC4, 2, 14, 0));
    assert_eq!(came(Sense::Bytes(32)), (0xC4, 2, 0, 0));
    assert_eq!(came(Sense::Bytes(0)), (0x50, 2, 32, 0));
    assert_eq!(came(Sense::Failed), (0x50, 2, 32, 0));
    assert_eq!(came(Sense::None), (0x50, 2, 32, 0));
    let mut disabled = sound(1);
    disabled[offset::FLAGS] = flag::AUTOSENSE_DISABLED;
    let end = end_after(disabled, complete(2, Sense::Bytes(18)), 4096);
    assert_eq!(end, (0x44, 2, 0, 0));
}

#[test]
fn a_host_frozen_units_request_that_ends_well_is_41h() {
    let mut desk = Desk::new();
    let ticket = sent(&mut desk, sound(1));
    assert_eq!(desk.freeze(8), Ok(false));
    assert_eq!(desk.event(ticket, GOOD, 4096), Ok(()));
    assert_eq!(end_of(&mut desk), (0x41, 0, 0, 0));
}

#[test]
fn abort_while_waiting_does_not_freeze() {
    let mut desk = Desk::new();
    let ticket = desk.submit(&mut sound(1)).expect("a sound block");
    assert_eq!(desk.abort(ticket), Ok(()));
    assert_eq!(end_of(&mut desk), (0x02, 0, 0, 4096));
    assert_eq!(desk.freeze(8), Ok(false));
    let ticket = desk.submit(&mut sound(1)).expect("a sound block");
    assert_eq!(desk.abort(ticket), Ok(()));
    assert_eq!(end_of(&mut desk), (0x42, 0, 0, 4096));
    assert_eq!(desk.send(), Sending::Nothing { looked_at: 64 });
}

#[test]
fn abort_in_the_other_stages() {
    let mut desk = Desk::new();
    let ticket = sent(&mut desk, sound(1));
    assert_eq!(
        desk.event(ticket, Event::AbortDone, 0),
        Err(Refusal::NeitherMark)
    );
    assert_eq!(desk.abort(ticket), Ok(()));
    assert_eq!(desk.abort(ticket), Ok(()));
    assert_eq!(desk.event(ticket, Event::AbortDone, 96), Ok(()));
    assert_eq!(desk.abort(ticket), Err(Refusal::NotAbortable));
    assert_eq!(
        desk.event(ticket, Event::AbortDone, 0),
        Err(Refusal::NotActive)
    );
    assert_eq!(end_of(&mut desk), (0x42, 0, 0, 4000));
    assert_eq!(desk.abort(ticket), Err(Refusal::NotAbortable));
}

#[test]
fn the_least_residual_and_one_byte_too_many() {
    let mut block = sound(1);
    block::put_number(&mut block, offset::DATA_LENGTH, 0);
    let end = end_after(block.clone(), GOOD, 0x7FFF_FFFF);
    assert_eq!(end, (0x52, 0, 0, -2_147_483_647));
    let mut desk = Desk::new();
    let ticket = sent(&mut desk, block);
    let refusal = desk
        .event(ticket, GOOD, 0x8000_0000)
        .map_err(Refusal::number);
    assert_eq!(refusal, Err(102));
    assert_eq!(desk.active_count(), 1);
}

#[test]
fn not_active_comes_before_102() {
    let mut desk = Desk::new();
    let ticket = desk.submit(&mut sound(1)).expect("a sound block");
    for ticket in [ticket, Ticket(0), Ticket(2)] {
        let refusal = desk.event(ticket, GOOD, u32::MAX).map_err(Refusal::number);
        assert_eq!(refusal, Err(101));
    }
}

#[test]
fn overdue_is_counted_round_the_end_of_the_clock() {
    for (ticks, status) in [(5, 0x01), (6, 0x4B)] {
        let mut desk = Desk::new();
        desk.clock = 0xFFFF_FFFE;
        let ticket = sent(&mut desk, sound(1));
        let clock = (0..ticks).map(|_| desk.tick()).last();
        assert_eq!(clock, Some(ticks - 2));
        assert_eq!(desk.event(ticket, GOOD, 4096), Ok(()));
        assert_eq!(end_of(&mut desk).0, status);
    }
}

#[test]
fn timeout_0_is_30_and_ffffffffh_never_ends() {
    for (timeout, ticks, status) in [(0, 30, 0x01), (0, 31, 0x4B), (u32::MAX, 40, 0x01)] {
        let mut desk = Desk::new();
        let mut block = sound(1);
        block::put_number(&mut block, offset::TIMEOUT, timeout);
        let ticket = sent(&mut desk, block);
        for _ in 0..ticks {
            desk.tick();
        }
        assert_eq!(desk.event(ticket, GOOD, 4096), Ok(()));
        assert_eq!(end_of(&mut desk).0, status, "timeout {timeout}");
    }
}

#[test]
fn time_counts_from_sending() {
    let mut desk = Desk::new();
    let ticket = desk.submit(&mut sound(1)).expect("a sound block");
    for _ in 0..50 {
        desk.tick();
    }
    desk.send();
    for _ in 0..5 {
        desk.tick();
    }
    assert_eq!(desk.event(ticket, GOOD, 4096), Ok(()));
    assert_eq!(end_of(&mut desk).0, 0x01);
}

#[test]
fn overdue_stays_though_the_seconds_wrap() {
    let mut desk = Desk::new();
    let ticket = sent(&mut desk, sound(1));
    for _ in 0..6 {
        desk.tick();
    }
    desk.clock = u32::MAX;
    desk.tick();
    assert_eq!(desk.event(ticket, Event::AbortDone, 0), Ok(()));
    assert_eq!(end_of(&mut desk).0, 0x4B);
}

#[test]
fn reset_ends_the_active_ones_smallest_ticket_first() {
    let mut desk = Desk::new();
    for number in 1..=9u8 {
        let mut block = block_on(number.into(), number);
        assert_eq!(desk.submit(&mut block), Ok(Ticket(number.into())));
    }
    // Ticket 9 is sent before ticket 3, the others stay waiting.
    desk.mark = Unit::new(8).expect("a unit");
    desk.send();
    desk.mark = Unit::new(2).expect("a unit");
    desk.send();
    assert_eq!(desk.active, [Ticket(9), Ticket(3)]);
    assert_eq!(desk.abort(Ticket(9)), Ok(()));
    desk.reset();
    for number in [3, 9] {
        let (ticket, block) = handed_back(&mut desk);
        assert_eq!((ticket, block[offset::STATUS]), (Ticket(number), 0x4E));
        assert_eq!(block::number_at(&block, offset::RESIDUAL), 4096);
    }
    assert_eq!(desk.first_finished(), None);
    assert_eq!(desk.live_count(), 7);
}

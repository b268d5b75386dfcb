//! The answers of the replay and how they are written.

use crate::block::{self, offset};
use crate::desk::Sending;
use crate::ids::Ticket;
use crate::refusal::Refusal;

/// The first line of every output.
pub const GREETING: &[u8] = b"board\t1\n";

/// What a hand-back shows of the program's own copy.
#[derive(Clone, Copy, PartialEq, Eq, Debug)]
pub struct HandedBack {
    pub ticket: Ticket,
    pub status: u8,
    pub scsi_status: u8,
    pub autosense_residual: u8,
    pub residual: i32,
}

impl HandedBack {
    /// Reads from a whole block what the desk wrote there.
    pub fn read(ticket: Ticket, block: &[u8]) -> HandedBack {
        HandedBack {
            ticket,
            status: block[offset::STATUS],
            scsi_status: block[offset::SCSI_STATUS],
            autosense_residual: block[offset::AUTOSENSE_RESIDUAL],
            residual: block::number_at(block, offset::RESIDUAL) as i32,
        }
    }
}

/// The answer to one line.
#[derive(Clone, Copy, PartialEq, Eq, Debug)]
pub enum Answer {
    Submitted(Result<Ticket, Refusal>),
    Sent(Sending),
    Reported(Result<(), Refusal>),
    Aborted(Result<(), Refusal>),
    Frozen(Result<bool, Refusal>),
    Released(Result<bool, Refusal>),
    Ticked(u32),
    Reset,
    HandedBack(Result<HandedBack, Refusal>),
    NotOfForm,
}

impl Answer {
    /// The refusal, if the desk said no.
    pub fn refusal(&self) -> Option<Refusal> {
        match self {
            Answer::Submitted(answer) => answer.err(),
            Answer::Reported(answer) | Answer::Aborted(answer) => answer.err(),
            Answer::Frozen(answer) | Answer::Released(answer) => answer.err(),
            Answer::HandedBack(answer) => answer.err(),
            Answer::Sent(_) | Answer::Ticked(_) | Answer::Reset | Answer::NotOfForm => None,
        }
    }

    /// Appends the answer's line.
    pub fn write_to(&self, out: &mut Vec<u8>) {
        match self {
            Answer::Submitted(answer) => write_submitted(out, *answer),
            Answer::Sent(sending) => write_sent(out, sending),
            Answer::Reported(answer) => write_done(out, b'E', *answer),
            Answer::Aborted(answer) => write_done(out, b'A', *answer),
            Answer::Frozen(answer) => write_was_frozen(out, b'F', *answer),
            Answer::Released(answer) => write_was_frozen(out, b'R', *answer),
            Answer::Ticked(clock) => {
                out.extend_from_slice(b"T\t");
                write_number(out, *clock);
            }
            Answer::Reset => out.extend_from_slice(b"B\t0"),
            Answer::HandedBack(answer) => write_handed_back(out, *answer),
            Answer::NotOfForm => out.push(b'?'),
        }
        out.push(b'\n');
    }
}

/// S status ticket; ticket 0 if refused.
fn write_submitted(out: &mut Vec<u8>, answer: Result<Ticket, Refusal>) {
    let (code, ticket) = match answer {
        Ok(Ticket(ticket)) => (0, ticket),
        Err(refusal) => (refusal.number(), 0),
    };
    out.extend_from_slice(b"S\t");
    write_code(out, code);
    out.push(b'\t');
    write_number(out, ticket);
}

/// N ticket unit looked; for "nothing" - and looked.
fn write_sent(out: &mut Vec<u8>, sending: &Sending) {
    out.extend_from_slice(b"N\t");
    let looked_at = match sending {
        Sending::Sent {
            ticket,
            unit,
            looked_at,
            ..
        } => {
            write_number(out, ticket.0);
            out.push(b'\t');
            write_number(out, unit.number().into());
            looked_at
        }
        Sending::Nothing { looked_at } => {
            out.push(b'-');
            looked_at
        }
    };
    out.push(b'\t');
    write_number(out, (*looked_at).into());
}

/// A letter and 0 or the refusal.
fn write_done(out: &mut Vec<u8>, letter: u8, answer: Result<(), Refusal>) {
    out.extend_from_slice(&[letter, b'\t']);
    match answer {
        Ok(()) => out.push(b'0'),
        Err(refusal) => write_refusal(out, refusal),
    }
}

/// A letter and 1 if the unit was frozen before, else 0, or the refusal.
fn write_was_frozen(out: &mut Vec<u8>, letter: u8, answer: Result<bool, Refusal>) {
    out.extend_from_slice(&[letter, b'\t']);
    match answer {
        Ok(was_frozen) => out.push(b'0' + u8::from(was_frozen)),
        Err(refusal) => write_refusal(out, refusal),
    }
}

/// H ticket status SCSI-status autosense-residual residual, or the refusal.
fn write_handed_back(out: &mut Vec<u8>, answer: Result<HandedBack, Refusal>) {
    out.extend_from_slice(b"H\t");
    match answer {
        Err(refusal) => write_refusal(out, refusal),
        Ok(back) => {
            write_number(out, back.ticket.0);
            out.push(b'\t');
            write_code(out, back.status);
            out.push(b'\t');
            write_code(out, back.scsi_status);
            out.push(b'\t');
            write_number(out, back.autosense_residual.into());
            out.push(b'\t');
            write_signed(out, back.residual);
        }
    }
}

/// Refusals below 100 as codes, the others decimal.
fn write_refusal(out: &mut Vec<u8>, refusal: Refusal) {
    match refusal.number() {
        code @ ..100 => write_code(out, code),
        number => write_number(out, number.into()),
    }
}

/// Two upper-case hex digits.
fn write_code(out: &mut Vec<u8>, code: u8) {
    const DIGITS: &[u8; 16] = b"0123456789ABCDEF";
    out.push(DIGITS[usize::from(code >> 4)]);
    out.push(DIGITS[usize::from(code & 0x0F)]);
}

/// Decimal, with a minus sign below zero.
fn write_signed(out: &mut Vec<u8>, number: i32) {
    if number < 0 {
        out.push(b'-');
    }
    write_number(out, number.unsigned_abs());
}

/// Decimal, no leading zeros.
fn write_number(out: &mut Vec<u8>, mut number: u32) {
    let mut digits = [0; 10];
    let mut first = digits.len();
    loop {
        first -= 1;
        digits[first] = b'0' + (number % 10) as u8;
        number /= 10;
        if number == 0 {
            break;
        }
    }
    out.extend_from_slice(&digits[first..]);
}

#[cfg(test)]
mod tests {
    use super::*;
    use crate::ids::Unit;

    fn written(answer: Answer) -> String {
        let mut out = Vec::new();
        answer.write_to(&mut out);
        String::from_utf8(out).expect("answers are plain text")
    }

    #[test]
    fn numbers_are_plain_decimals() {
        for number in [0, 1, 9, 10, 99, 100, 65_535, u32::MAX] {
            assert_eq!(written(Answer::Ticked(number)), format!("T\t{number}\n"));
        }
    }

    #[test]
    fn submissions() {
        assert_eq!(written(Answer::Submitted(Ok(Ticket(12)))), "S\t00\t12\n");
        assert_eq!(
            written(Answer::Submitted(Err(Refusal::LengthField))),
            "S\t15\t0\n"
        );
    }

    #[test]
    fn sends() {
        let sent = Sending::Sent {
            ticket: Ticket(7),
            unit: Unit::LAST,
            cdb: [0; 12],
            looked_at: 64,
        };
        assert_eq!(written(Answer::Sent(sent)), "N\t7\t63\t64\n");
        let nothing = Sending::Nothing { looked_at: 0 };
        assert_eq!(written(Answer::Sent(nothing)), "N\t-\t0\n");
    }

    #[test]
    fn refusals_below_100_are_codes_and_the_others_decimal() {
        let answer = Answer::Aborted(Err(Refusal::NotAbortable));
        assert_eq!(written(answer), "A\t03\n");
        let answer = Answer::Reported(Err(Refusal::NotActive));
        assert_eq!(written(answer), "E\t101\n");
        let answer = Answer::Frozen(Err(Refusal::NoSuchUnit));
        assert_eq!(written(answer), "F\t103\n");
    }

    #[test]
    fn a_residual_below_zero_has_a_minus_sign() {
        let back = HandedBack {
            ticket: Ticket(3),
            status: 0xC4,
            scsi_status: 0x02,
            autosense_residual: 14,
            residual: -2_147_483_647,
        };
        assert_eq!(
            written(Answer::HandedBack(Ok(back))),
            "H\t3\tC4\t02\t14\t-2147483647\n"
        );
    }

    #[test]
    fn the_plain_ones() {
        assert_eq!(written(Answer::Reset), "B\t0\n");
        assert_eq!(written(Answer::Reported(Ok(()))), "E\t0\n");
        assert_eq!(written(Answer::Released(Ok(true))), "R\t1\n");
        assert_eq!(written(Answer::Frozen(Ok(false))), "F\t0\n");
        assert_eq!(written(Answer::NotOfForm), "?\n");
    }
}

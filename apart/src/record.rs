//! The record form of the replay: one record a line, fields parted by tabs.

use crate::ending::{Event, Sense};
use crate::ids::Ticket;

/// A line of more bytes than this, its line feed not counted, is not of the form.
pub const LONGEST_LINE: usize = 400;

/// One line of a log.
#[derive(Clone, PartialEq, Eq, Debug)]
pub enum Record {
    /// S: the block, which becomes the program's own copy.
    Submit(Vec<u8>),
    /// N
    Send,
    /// E
    Event {
        ticket: Ticket,
        event: Event,
        bytes_moved: u32,
    },
    /// A
    Abort(Ticket),
    /// F: a unit's number, which the desk checks.
    Freeze(u32),
    /// R: a unit's number, which the desk checks.
    Release(u32),
    /// T
    Tick,
    /// B
    Reset,
    /// H
    HandBack,
}

impl Record {
    /// Reads a line without its line feed; none if it is too long or not of the form.
    pub fn parse(line: &[u8]) -> Option<Record> {
        if line.len() > LONGEST_LINE {
            return None;
        }
        match line {
            [b'S', b'\t', digits @ ..] => parse_block(digits).map(Record::Submit),
            b"N" => Some(Record::Send),
            [b'E', b'\t', fields @ ..] => parse_event(fields),
            [b'A', b'\t', ticket @ ..] => parse_ticket(ticket).map(Record::Abort),
            [b'F', b'\t', unit @ ..] => parse_number(unit).map(Record::Freeze),
            [b'R', b'\t', unit @ ..] => parse_number(unit).map(Record::Release),
            b"T" => Some(Record::Tick),
            b"B" => Some(Record::Reset),
            b"H" => Some(Record::HandBack),
            _ => None,
        }
    }
}

/// Ticket, kind and bytes; after kind C the SCSI status and the sense.
fn parse_event(fields: &[u8]) -> Option<Record> {
    let mut fields = fields.split(|&byte| byte == b'\t');
    let ticket = parse_ticket(fields.next()?)?;
    let kind = fields.next()?;
    let bytes_moved = parse_number(fields.next()?)?;
    let event = match kind {
        b"K" => Event::AbortDone,
        b"0A" => Event::SelectionTimeout,
        b"0F" => Event::Parity,
        b"13" => Event::BusFree,
        b"14" => Event::Phase,
        b"19" => Event::AdapterError,
        b"C" => Event::Complete {
            scsi_status: parse_code(fields.next()?)?,
            sense: parse_sense(fields.next()?)?,
        },
        _ => return None,
    };
    fields.next().is_none().then_some(Record::Event {
        ticket,
        event,
        bytes_moved,
    })
}

fn parse_ticket(digits: &[u8]) -> Option<Ticket> {
    parse_number(digits).map(Ticket)
}

/// A decimal number, 0 to 4294967295, no leading zeros.
fn parse_number(digits: &[u8]) -> Option<u32> {
    match digits {
        b"0" => Some(0),
        [b'1'..=b'9', ..] => digits.iter().try_fold(0u32, |number, digit| {
            let digit = digit.is_ascii_digit().then(|| u32::from(digit - b'0'))?;
            number.checked_mul(10)?.checked_add(digit)
        }),
        _ => None,
    }
}

/// 0 to 255, X for failed, - for none.
fn parse_sense(field: &[u8]) -> Option<Sense> {
    match field {
        b"X" => Some(Sense::Failed),
        b"-" => Some(Sense::None),
        digits => u8::try_from(parse_number(digits)?).ok().map(Sense::Bytes),
    }
}

/// A code: two upper-case hex digits.
fn parse_code(digits: &[u8]) -> Option<u8> {
    match *digits {
        [high, low] => hex_byte(high, low),
        _ => None,
    }
}

/// A block: two upper-case hex digits a byte, may be empty.
fn parse_block(digits: &[u8]) -> Option<Vec<u8>> {
    if !digits.len().is_multiple_of(2) {
        return None;
    }
    let mut block = Vec::with_capacity(digits.len() / 2);
    for pair in digits.chunks_exact(2) {
        block.push(hex_byte(pair[0], pair[1])?);
    }
    Some(block)
}

fn hex_byte(high: u8, low: u8) -> Option<u8> {
    let (high, low) = (HEX_VALUE[usize::from(high)], HEX_VALUE[usize::from(low)]);
    (high | low != NO_DIGIT).then_some(high << 4 | low)
}

/// Stands for "no digit" in the table; no two digits together make it.
const NO_DIGIT: u8 = 0xFF;

/// The value of each upper-case hex digit.
const HEX_VALUE: [u8; 256] = {
    let mut values = [NO_DIGIT; 256];
    let digits = *b"0123456789ABCDEF";
    let mut value = 0;
    while value < digits.len() {
        values[digits[value] as usize] = value as u8;
        value += 1;
    }
    values
};

#[cfg(test)]
mod tests {
    use super::*;

    fn malformed(line: &[u8]) {
        let shown = line.escape_ascii();
        assert_eq!(Record::parse(line), None, "{shown}");
    }

    #[test]
    fn every_letter_is_read() {
        let cases: [(&[u8], Record); 9] = [
            (b"S\t00FFA9", Record::Submit(vec![0x00, 0xFF, 0xA9])),
            (b"N", Record::Send),
            (
                b"E\t7\tK\t12",
                Record::Event {
                    ticket: Ticket(7),
                    event: Event::AbortDone,
                    bytes_moved: 12,
                },
            ),
            (b"A\t4294967295", Record::Abort(Ticket(u32::MAX))),
            (b"F\t3", Record::Freeze(3)),
            (b"R\t64", Record::Release(64)),
            (b"T", Record::Tick),
            (b"B", Record::Reset),
            (b"H", Record::HandBack),
        ];
        for (line, record) in cases {
            assert_eq!(Record::parse(line), Some(record));
        }
    }

    #[test]
    fn every_kind_of_event_is_read() {
        let kinds: [(&str, Event); 5] = [
            ("0A", Event::SelectionTimeout),
            ("0F", Event::Parity),
            ("13", Event::BusFree),
            ("14", Event::Phase),
            ("19", Event::AdapterError),
        ];
        for (kind, expected) in kinds {
            let line = format!("E\t1\t{kind}\t0");
            let Some(Record::Event { event, .. }) = Record::parse(line.as_bytes()) else {
                panic!("{kind} is a kind");
            };
            assert_eq!(event, expected);
        }
    }

    #[test]
    fn complete_has_two_more_fields() {
        for (field, sense) in [
            ("0", Sense::Bytes(0)),
            ("255", Sense::Bytes(255)),
            ("X", Sense::Failed),
            ("-", Sense::None),
        ] {
            let line = format!("E\t1\tC\t4096\t02\t{field}");
            let event = Event::Complete {
                scsi_status: 2,
                sense,
            };
            let record = Record::Event {
                ticket: Ticket(1),
                event,
                bytes_moved: 4096,
            };
            assert_eq!(Record::parse(line.as_bytes()), Some(record));
        }
        malformed(b"E\t1\tC\t4096");
        malformed(b"E\t1\tC\t4096\t02");
        malformed(b"E\t1\tC\t4096\t02\t-\t");
        malformed(b"E\t1\tC\t02\t-\t4096");
        malformed(b"E\t1\tK\t0\t00\t-");
    }

    #[test]
    fn sense_and_scsi_status_have_their_own_forms() {
        for bad in ["256", "018", "x", "", "--", "-1", "XX", "4294967295"] {
            malformed(format!("E\t1\tC\t0\t02\t{bad}").as_bytes());
        }
        for bad in ["2", "002", "0a", "", "0G", " 2", "-2"] {
            malformed(format!("E\t1\tC\t0\t{bad}\t-").as_bytes());
        }
    }

    #[test]
    fn numbers_are_plain_decimals_of_32_bits() {
        for bad in [
            "",
            "00",
            "01",
            "+1",
            "-1",
            "1 ",
            " 1",
            "1F",
            "4294967296",
            "99999999999999999999",
        ] {
            malformed(format!("A\t{bad}").as_bytes());
            malformed(format!("F\t{bad}").as_bytes());
            malformed(format!("E\t{bad}\tK\t0").as_bytes());
            malformed(format!("E\t1\tK\t{bad}").as_bytes());
        }
        assert_eq!(Record::parse(b"A\t0"), Some(Record::Abort(Ticket(0))));
    }

    #[test]
    fn a_block_is_pairs_of_upper_case_digits_and_may_be_empty() {
        assert_eq!(Record::parse(b"S\t"), Some(Record::Submit(vec![])));
        for bad in [
            &b"S"[..],
            b"S00",
            b"S\t0",
            b"S\t0a",
            b"S\t0G",
            b"S\t00\t",
            b"S\t 00",
        ] {
            malformed(bad);
        }
    }

    #[test]
    fn every_pair_of_bytes_is_a_code_or_not() {
        for high in 0..=255u8 {
            for low in 0..=255u8 {
                let digit = |byte: u8| byte.is_ascii_digit() || (b'A'..=b'F').contains(&byte);
                let read = parse_code(&[high, low]);
                assert_eq!(read.is_some(), digit(high) && digit(low));
                if let Some(value) = read {
                    assert_eq!(format!("{value:02X}").as_bytes(), [high, low]);
                }
            }
        }
    }

    #[test]
    fn exactly_400_bytes_are_still_read() {
        let mut line = b"S\t".to_vec();
        line.resize(400, b'0');
        assert_eq!(Record::parse(&line), Some(Record::Submit(vec![0; 199])));
        line.resize(402, b'0');
        malformed(&line);
        line.resize(401, b'0');
        malformed(&line);
    }

    #[test]
    fn nothing_stands_around_a_record() {
        for letter in [b'N', b'T', b'B', b'H'] {
            for extra in [b'\t', b'\r', b' ', 0, 0x80, letter] {
                malformed(&[letter, extra]);
                malformed(&[extra, letter]);
            }
            malformed(&[letter.to_ascii_lowercase()]);
        }
        for bad in [
            &b""[..],
            b"?",
            b"\t",
            b"A",
            b"E",
            b"X\t1",
            b"A\t\t1",
            b"A\t1\t",
        ] {
            malformed(bad);
        }
    }
}

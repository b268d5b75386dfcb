//! Lines that would do something, and the faults that are put into them.

use super::{any_but_line_feed, Bait};
use crate::generate::lines;
use crate::record::{Record, LONGEST_LINE};
use crate::rng::Rng;

/// A line that would do something.
pub fn any_line(rng: &mut Rng, bait: &Bait) -> Vec<u8> {
    match rng.below(10) {
        0 => lines::submit(&bait.block),
        1 => b"N".to_vec(),
        2 => b"T".to_vec(),
        3 => b"B".to_vec(),
        4 => b"H".to_vec(),
        _ => line_with_fields(rng, bait),
    }
}

/// A line of E, A, F or R that would do something.
pub fn line_with_fields(rng: &mut Rng, bait: &Bait) -> Vec<u8> {
    match rng.below(6) {
        0 => lines::one_field('A', bait.ticket),
        1 => lines::one_field('F', bait.unit.into()),
        2 => lines::one_field('R', bait.unit.into()),
        3 => text(other_event(bait, rng.pick(&["K", "0A", "14", "19"]))),
        _ => text(complete(bait, rng.pick(&["00", "02", "04"]), "-")),
    }
}

pub fn text(line: String) -> Vec<u8> {
    line.into_bytes()
}

pub fn other_event(bait: &Bait, kind: &str) -> String {
    format!("E\t{}\t{kind}\t{}", bait.ticket, bait.data_length)
}

pub fn complete(bait: &Bait, scsi_status: &str, sense: &str) -> String {
    format!("{}\t{scsi_status}\t{sense}", other_event(bait, "C"))
}

pub fn with_end(mut line: Vec<u8>, end: &[u8]) -> Vec<u8> {
    line.extend_from_slice(end);
    line
}

pub fn with_byte_at(mut line: Vec<u8>, at: usize, byte: u8) -> Vec<u8> {
    line.insert(at, byte);
    line
}

/// A byte that is never part of the form: before the line, after it, or anywhere in it.
pub fn with_byte_anywhere(rng: &mut Rng, bait: &Bait, byte: u8) -> Vec<u8> {
    let line = any_line(rng, bait);
    let anywhere = rng.between(0, line.len());
    let at = rng.pick(&[0, line.len(), anywhere]);
    with_byte_at(line, at, byte)
}

pub fn carriage_return(rng: &mut Rng, bait: &Bait) -> Vec<u8> {
    match rng.below(4) {
        0 => b"\r".to_vec(),
        1 => with_byte_anywhere(rng, bait, b'\r'),
        _ => with_end(any_line(rng, bait), b"\r"),
    }
}

pub fn unknown_letter(rng: &mut Rng, bait: &Bait) -> Vec<u8> {
    if rng.percent(10) {
        return b"board\t1".to_vec();
    }
    let mut line = any_line(rng, bait);
    line[0] = rng.pick(b"CDGIJKLMOPQUVWXYZ0189?#-*");
    line
}

pub fn lower_case_letter(rng: &mut Rng, bait: &Bait) -> Vec<u8> {
    let mut line = any_line(rng, bait);
    line[0].make_ascii_lowercase();
    line
}

pub fn letter_twice(rng: &mut Rng, bait: &Bait) -> Vec<u8> {
    let line = any_line(rng, bait);
    let letter = line[0];
    with_byte_at(line, 0, letter)
}

/// The last field and its tab are gone.
pub fn missing_field(rng: &mut Rng, bait: &Bait) -> Vec<u8> {
    let mut line = line_with_fields(rng, bait);
    let tab = line.iter().rposition(|&byte| byte == b'\t').unwrap_or(0);
    line.truncate(tab);
    line
}

/// One field is empty, its tabs are there.
pub fn empty_field(rng: &mut Rng, bait: &Bait) -> Vec<u8> {
    let line = line_with_fields(rng, bait);
    let mut fields: Vec<&[u8]> = line.split(|&byte| byte == b'\t').collect();
    let emptied = rng.below(fields.len());
    fields[emptied] = b"";
    fields.join(&b'\t')
}

/// One of the tabs is there twice.
pub fn surplus_tab(rng: &mut Rng, bait: &Bait) -> Vec<u8> {
    let line = match rng.below(4) {
        0 => lines::submit(&bait.block),
        _ => line_with_fields(rng, bait),
    };
    let tabs = tabs_of(&line);
    with_byte_at(line, rng.pick(&tabs), b'\t')
}

pub fn other_separator(rng: &mut Rng, bait: &Bait) -> Vec<u8> {
    let mut line = line_with_fields(rng, bait);
    let tabs = tabs_of(&line);
    line[rng.pick(&tabs)] = rng.pick(b" ,:;");
    line
}

pub fn tabs_of(line: &[u8]) -> Vec<usize> {
    (0..line.len()).filter(|&at| line[at] == b'\t').collect()
}

/// A line with a number, which is first put into another form.
pub fn with_number(rng: &mut Rng, bait: &Bait, form: impl Fn(u64) -> String) -> Vec<u8> {
    let (ticket, moved) = (bait.ticket, bait.data_length);
    let unit = u64::from(bait.unit);
    let line = match rng.below(6) {
        0 => format!("A\t{}", form(ticket.into())),
        1 => format!("F\t{}", form(unit)),
        2 => format!("R\t{}", form(unit)),
        3 => format!("E\t{}\tC\t{moved}\t00\t-", form(ticket.into())),
        4 => format!("E\t{ticket}\tC\t{}\t00\t-", form(moved.into())),
        _ => format!("E\t{ticket}\tK\t{}", form(moved.into())),
    };
    text(line)
}

pub fn leading_zero(rng: &mut Rng, bait: &Bait) -> Vec<u8> {
    let zeros = rng.pick(&["0", "00", "0000000000"]);
    with_number(rng, bait, |number| format!("{zeros}{number}"))
}

/// Above 32 bits; cut to 32 or to 64 bits it would be the number that does something.
pub fn number_too_large(rng: &mut Rng, bait: &Bait) -> Vec<u8> {
    match rng.below(5) {
        0 => with_number(rng, bait, |_| "4294967296".into()),
        1 => with_number(rng, bait, |number| (number + (1 << 32)).to_string()),
        2 => with_number(rng, bait, |number| {
            (u128::from(number) + (1 << 64)).to_string()
        }),
        3 => with_number(rng, bait, |_| "99999999999".into()),
        _ => with_number(rng, bait, |number| format!("1{number:0>60}")),
    }
}

pub fn hex_number(rng: &mut Rng, bait: &Bait) -> Vec<u8> {
    let digit = rng.pick(&["A", "F", "h", "f", "."]);
    if rng.percent(30) {
        return with_number(rng, bait, |number| format!("0x{number:X}"));
    }
    with_number(rng, bait, |number| format!("{number}{digit}"))
}

/// A sound block with one digit replaced.
pub fn with_digit(rng: &mut Rng, bait: &Bait, digit: u8) -> Vec<u8> {
    let mut line = lines::submit(&bait.block);
    let last = line.len() - 1;
    let anywhere = rng.between(2, last);
    line[rng.pick(&[2, last, anywhere])] = digit;
    line
}

/// One digit too few or too many; sometimes it is the only one.
pub fn odd_digits(rng: &mut Rng, bait: &Bait) -> Vec<u8> {
    let mut line = lines::submit(&bait.block);
    match rng.below(3) {
        0 => line.truncate(3),
        1 => line.truncate(line.len() - 1),
        // A block of 199 bytes would become too long instead.
        _ => line.insert(2, b'0'),
    }
    line
}

pub fn wrong_kind(rng: &mut Rng, bait: &Bait) -> Vec<u8> {
    let kinds = [
        "", "c", "k", "0a", "0f", "0B", "02", "10", "12", "0E", "01", "A", "F", "0", "1", "013",
        "0A0", "CC", "CK", "13h", "X", "-", "?", "10A", " C", "K ",
    ];
    let kind = rng.pick(&kinds);
    let fields = if rng.percent(40) { "\t00\t-" } else { "" };
    text(format!("{}{fields}", other_event(bait, kind)))
}

pub fn fields_swapped(rng: &mut Rng, bait: &Bait) -> Vec<u8> {
    let Bait {
        ticket,
        data_length,
        ..
    } = bait;
    text(match rng.below(4) {
        0 => format!("E\tC\t{ticket}\t{data_length}\t00\t-"),
        1 => format!("E\t{ticket}\tC\t00\t-\t{data_length}"),
        2 => format!("E\t{ticket}\tC\t{data_length}\t-\t00"),
        _ => format!("E\t{ticket}\t{data_length}\tK"),
    })
}

/// The sound block, drawn out to so many bytes.
pub fn long_block(bait: &Bait, bytes: usize) -> Vec<u8> {
    let mut block = bait.block.clone();
    block.resize(bytes, 0x5A);
    block
}

/// Short enough to be read, but not of the form.
pub fn of_400_bytes(rng: &mut Rng, bait: &Bait) -> Vec<u8> {
    let mut line = lines::submit(&long_block(bait, 199));
    match rng.below(3) {
        0 => line[LONGEST_LINE - 1] = b'a',
        1 => line[LONGEST_LINE - 1] = b'\r',
        _ => line = with_filling(line_with_fields(rng, bait), LONGEST_LINE, b'\t'),
    }
    line
}

/// One byte longer than what is still read.
pub fn of_401_bytes(rng: &mut Rng, bait: &Bait) -> Vec<u8> {
    let line = lines::submit(&long_block(bait, 199));
    match rng.below(4) {
        0 => with_end(line, b"0"),
        1 => with_end(line, b"\r"),
        2 => with_end(line, b"\t"),
        _ => with_filling(any_line(rng, bait), LONGEST_LINE + 1, b'\t'),
    }
}

pub fn with_filling(mut line: Vec<u8>, length: usize, filling: u8) -> Vec<u8> {
    line.resize(length, filling);
    line
}

/// Some thousand bytes, and now and then more than any buffer for reading is likely to hold.
pub fn much_longer(rng: &mut Rng, bait: &Bait) -> Vec<u8> {
    let bytes = match rng.below(60) {
        0 => rng.between(30_000, 80_000),
        _ => rng.between(201, 2500),
    };
    match rng.below(4) {
        0 => with_filling(any_line(rng, bait), 2 * bytes, rng.byte() | 0x40),
        1 => with_filling(b"T".to_vec(), 2 * bytes, b'\t'),
        _ => lines::submit(&long_block(bait, bytes)),
    }
}

/// Any bytes but a line feed, as long as they happen not to be of the form.
pub fn anything(rng: &mut Rng) -> Vec<u8> {
    loop {
        let length = rng.between(1, 60);
        let line: Vec<u8> = (0..length).map(|_| any_but_line_feed(rng)).collect();
        if Record::parse(&line).is_none() {
            return line;
        }
    }
}

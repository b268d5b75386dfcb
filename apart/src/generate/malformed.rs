//! Lines that are not of the form, each but one small fault away from a line that would do
//! something, so that a reader that lets it by is found out by the answers that follow.

use crate::generate::lines;
use crate::reach::named;
use crate::rng::Rng;

mod faults;

use faults::*;

/// What a line would need to do something: a ticket, its data length, a unit, a sound block.
pub struct Bait {
    pub ticket: u32,
    pub data_length: u32,
    pub unit: u8,
    pub block: Vec<u8>,
}

named! {
    /// A kind of line that is not of the form.
    pub enum Malformed {
        UnknownLetter => "unknown letter",
        LowerCaseLetter => "lower-case letter",
        LetterTwice => "letter twice",
        MissingField => "missing field",
        SurplusField => "surplus field",
        EmptyField => "empty field",
        SurplusTab => "surplus tab",
        TrailingTab => "trailing tab",
        LeadingTab => "leading tab",
        OtherSeparator => "blank, comma or colon for a tab",
        LeadingZero => "leading zero",
        NumberTooLarge => "number above 4294967295",
        MinusSign => "minus sign",
        PlusSign => "plus sign",
        HexNumber => "hex digits in a number",
        LowerCaseHex => "lower-case hex",
        OddDigits => "odd number of hex digits",
        NoHexDigit => "no hex digit",
        NoTab => "S without a tab",
        NoTabBeforeBlock => "block right after S",
        EmptyLine => "empty line",
        Blank => "blank",
        CarriageReturn => "carriage return",
        Nul => "NUL",
        HighByte => "byte above 7Fh",
        ControlByte => "other control byte",
        WrongKind => "wrong kind of event",
        CompleteWithoutFields => "C without its two fields",
        OtherWithFields => "SCSI status and sense after another kind",
        FieldsSwapped => "fields in another order",
        Sense256 => "sense above 255",
        WrongSense => "sense of another form",
        StatusLowerCase => "SCSI status in lower case",
        StatusOneDigit => "SCSI status of one digit",
        StatusThreeDigits => "SCSI status of three digits",
        StatusNoHex => "SCSI status that is no hex",
        Of400Bytes => "400 bytes and a fault",
        Of401Bytes => "401 bytes",
        Of402Bytes => "402 bytes, otherwise of the form",
        MuchLonger => "much longer",
        Anything => "any bytes",
    }
}

impl Malformed {
    /// A line of this kind, without a line feed.
    pub fn make(self, rng: &mut Rng, bait: &Bait) -> Vec<u8> {
        match self {
            Malformed::UnknownLetter => unknown_letter(rng, bait),
            Malformed::LowerCaseLetter => lower_case_letter(rng, bait),
            Malformed::LetterTwice => letter_twice(rng, bait),
            Malformed::MissingField => missing_field(rng, bait),
            Malformed::SurplusField => {
                let field: &[u8] = rng.pick(&[b"\t0", b"\t1", b"\t-", b"\t00", b"\tX"]);
                with_end(any_line(rng, bait), field)
            }
            Malformed::EmptyField => empty_field(rng, bait),
            Malformed::SurplusTab => surplus_tab(rng, bait),
            Malformed::TrailingTab => with_end(any_line(rng, bait), b"\t"),
            Malformed::LeadingTab => with_byte_at(any_line(rng, bait), 0, b'\t'),
            Malformed::OtherSeparator => other_separator(rng, bait),
            Malformed::LeadingZero => leading_zero(rng, bait),
            Malformed::NumberTooLarge => number_too_large(rng, bait),
            Malformed::MinusSign => with_number(rng, bait, |number| format!("-{number}")),
            Malformed::PlusSign => with_number(rng, bait, |number| format!("+{number}")),
            Malformed::HexNumber => hex_number(rng, bait),
            Malformed::LowerCaseHex => {
                let digit = rng.pick(b"abcdef");
                with_digit(rng, bait, digit)
            }
            Malformed::OddDigits => odd_digits(rng, bait),
            Malformed::NoHexDigit => {
                let digit = rng.pick(b"GZg/:@`xh-+. \r\t\0\x80\xC1");
                with_digit(rng, bait, digit)
            }
            Malformed::NoTab => b"S".to_vec(),
            Malformed::NoTabBeforeBlock => {
                let mut line = lines::submit(&bait.block);
                line.remove(1);
                line
            }
            Malformed::EmptyLine => Vec::new(),
            Malformed::Blank => with_byte_anywhere(rng, bait, b' '),
            Malformed::CarriageReturn => carriage_return(rng, bait),
            Malformed::Nul => with_byte_anywhere(rng, bait, 0),
            Malformed::HighByte => {
                let byte = rng.byte() | 0x80;
                with_byte_anywhere(rng, bait, byte)
            }
            Malformed::ControlByte => {
                let byte = rng.pick(b"\x01\x08\x0B\x0C\x1A\x1B\x7F");
                with_byte_anywhere(rng, bait, byte)
            }
            Malformed::WrongKind => wrong_kind(rng, bait),
            Malformed::CompleteWithoutFields => {
                let fields = rng.pick(&["", "\t00", "\t02", "\t-"]);
                text(format!("{}{fields}", other_event(bait, "C")))
            }
            Malformed::OtherWithFields => {
                let kind = rng.pick(&["K", "0A", "0F", "13", "14", "19"]);
                let fields = rng.pick(&["\t00\t-", "\t02\t0", "\t00", "\t-"]);
                text(format!("{}{fields}", other_event(bait, kind)))
            }
            Malformed::FieldsSwapped => fields_swapped(rng, bait),
            Malformed::Sense256 => {
                let sense = rng.pick(&["256", "257", "274", "1000", "4294967295", "4294967296"]);
                text(complete(bait, "02", sense))
            }
            Malformed::WrongSense => {
                let wrong = [
                    "x", "XX", "X0", "--", "-1", "-0", "", "018", "00", "12h", "X ",
                ];
                text(complete(bait, "02", rng.pick(&wrong)))
            }
            Malformed::StatusLowerCase => text(complete(
                bait,
                rng.pick(&["0a", "fF", "2c", "c0", "Ab"]),
                "-",
            )),
            Malformed::StatusOneDigit => {
                text(complete(bait, rng.pick(&["0", "2", "4", "8", "A"]), "-"))
            }
            Malformed::StatusThreeDigits => {
                text(complete(bait, rng.pick(&["000", "002", "004", "100"]), "-"))
            }
            Malformed::StatusNoHex => text(complete(
                bait,
                rng.pick(&["", "0G", "-2", "0x", "X", "-"]),
                "-",
            )),
            Malformed::Of400Bytes => of_400_bytes(rng, bait),
            Malformed::Of401Bytes => of_401_bytes(rng, bait),
            Malformed::Of402Bytes => lines::submit(&long_block(bait, 200)),
            Malformed::MuchLonger => much_longer(rng, bait),
            Malformed::Anything => anything(rng),
        }
    }
}

/// Any byte but a line feed.
pub fn any_but_line_feed(rng: &mut Rng) -> u8 {
    match rng.byte() {
        b'\n' => b'\t',
        byte => byte,
    }
}

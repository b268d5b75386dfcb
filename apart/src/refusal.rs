//! When the desk says no: every cause and its number.

/// A refusal by its cause; several causes share a number.
#[derive(Clone, Copy, PartialEq, Eq, Debug)]
pub enum Refusal {
    /// Taking in, check 1: fewer than 8 bytes lent.
    TooFewBytes,
    /// Check 2: function code not 01h.
    FunctionCode,
    /// Check 3: length field below 88 or above the bytes lent.
    LengthField,
    /// Check 4: path not 0.
    Path,
    /// Check 5: target above 6 or LUN above 7.
    TargetOrLun,
    /// Check 6: a flag for something that is not here.
    Flag,
    /// Check 7: CDB length 0 or above 12.
    CdbLength,
    /// Check 8: data length above FFFFFFh.
    DataLength,
    /// Check 9: a live request has the same address.
    SameAddress,
    /// Check 10: ticket FFFFFFFFh was given already.
    TicketsUsedUp,
    /// Check 11: all 32 places live.
    DeskFull,
    /// Abort: finished or unknown ticket.
    NotAbortable,
    /// Event: ticket isn't active.
    NotActive,
    /// Event: bytes moved above 7FFFFFFFh.
    BytesMoved,
    /// Event: sense looked at with more bytes than asked.
    TooMuchSense,
    /// Event: abort done with neither mark.
    NeitherMark,
    /// Freeze, release: unit above 63.
    NoSuchUnit,
    /// Hand back: finished line empty.
    NothingFinished,
    /// Hand back: fewer than 88 bytes lent, or not the first one's address.
    WrongBlock,
}

impl Refusal {
    /// Every cause that lines of a replay can bring about: the tickets cannot be used up by a log
    /// of bearable length, and the program's own copy is always the right block.
    pub const REACHABLE: [Refusal; 17] = [
        Refusal::TooFewBytes,
        Refusal::FunctionCode,
        Refusal::LengthField,
        Refusal::Path,
        Refusal::TargetOrLun,
        Refusal::Flag,
        Refusal::CdbLength,
        Refusal::DataLength,
        Refusal::SameAddress,
        Refusal::DeskFull,
        Refusal::NotAbortable,
        Refusal::NotActive,
        Refusal::BytesMoved,
        Refusal::TooMuchSense,
        Refusal::NeitherMark,
        Refusal::NoSuchUnit,
        Refusal::NothingFinished,
    ];

    /// The number the desk answers.
    pub fn number(self) -> u8 {
        match self {
            Refusal::NotAbortable => 0x03,
            Refusal::TicketsUsedUp | Refusal::DeskFull => 0x05,
            Refusal::FunctionCode
            | Refusal::TargetOrLun
            | Refusal::CdbLength
            | Refusal::SameAddress => 0x06,
            Refusal::Path => 0x07,
            Refusal::TooFewBytes | Refusal::LengthField => 0x15,
            Refusal::Flag | Refusal::DataLength => 0x16,
            Refusal::NotActive => 101,
            Refusal::BytesMoved | Refusal::TooMuchSense | Refusal::NeitherMark => 102,
            Refusal::NoSuchUnit => 103,
            Refusal::NothingFinished => 104,
            Refusal::WrongBlock => 105,
        }
    }

    /// The cause in words, for tables.
    pub fn cause(self) -> &'static str {
        match self {
            Refusal::TooFewBytes => "15h fewer than 8 bytes lent",
            Refusal::FunctionCode => "06h function code",
            Refusal::LengthField => "15h length field",
            Refusal::Path => "07h path",
            Refusal::TargetOrLun => "06h target or LUN",
            Refusal::Flag => "16h flag",
            Refusal::CdbLength => "06h CDB length",
            Refusal::DataLength => "16h data length",
            Refusal::SameAddress => "06h same address",
            Refusal::TicketsUsedUp => "05h tickets used up",
            Refusal::DeskFull => "05h desk full",
            Refusal::NotAbortable => "03h finished or unknown",
            Refusal::NotActive => "101 not active",
            Refusal::BytesMoved => "102 bytes moved",
            Refusal::TooMuchSense => "102 too much sense",
            Refusal::NeitherMark => "102 neither mark",
            Refusal::NoSuchUnit => "103 no such unit",
            Refusal::NothingFinished => "104 nothing finished",
            Refusal::WrongBlock => "105 wrong block",
        }
    }
}

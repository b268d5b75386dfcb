//! When the desk says no.

use core::{error::Error, fmt};

/// `refusals! { number Name "words", .. }`: each refusal in one line, whose words document it too.
macro_rules! refusals {
    ($($number:literal $name:ident $words:literal,)+) => {
        /// Why a call was refused. Nothing is altered then, but for byte 7 of a block that isn't taken in.
        #[derive(Clone, Copy, Debug, PartialEq, Eq, Hash)]
        pub enum Refusal {
            $(#[doc = concat!("`", stringify!($number), "`, ", $words, ".")] $name,)+
            /// A number that can't come: a desk lends all its words (201), and its types have no wrong event (202 to 204). It might with
            /// another library than this crate is written for, and should neither be lost then nor end the program.
            Unexpected(u32),
        }

        impl Refusal {
            /// Its number in the header.
            pub fn number(self) -> u32 {
                self.number_and_words().0
            }

            /// What a call's number says: 0 is no refusal.
            pub(crate) fn check(number: u32) -> Result<(), Refusal> {
                match number {
                    0 => Ok(()),
                    $($number => Err(Refusal::$name),)+
                    _ => Err(Refusal::Unexpected(number)),
                }
            }

            fn number_and_words(self) -> (u32, &'static str) {
                match self {
                    $(Refusal::$name => ($number, $words),)+
                    Refusal::Unexpected(number) => (number, "a number that can't come"),
                }
            }
        }
    };
}

refusals! {
    0x03 UnableToAbort "abort: the request is finished or unknown",
    0x05 CamBusy "taking in: all 32 requests are live, or the last ticket, FFFFFFFFh, was given",
    0x06 InvalidRequest "taking in: function code, target, LUN or CDB length; or a live request has the same address",
    0x07 InvalidPath "taking in: path is not 0",
    0x15 LengthInadequate "taking in: fewer than 8 bytes lent; length field below 88 or above the bytes lent",
    0x16 CannotProvide "taking in: scatter/gather, tags, linked, CDB is a pointer; data length above FFFFFFh",
    101 NotActive "report: no active request has this ticket",
    102 Implausible "report: moved above 7FFFFFFFh; sense is looked at and more came than asked for; abort done, and the request is neither asked nor overdue",
    103 NoSuchUnit "freeze, release: unit above 63",
    104 NoneFinished "hand back: the finished line is empty",
    105 NotItsBlock "hand back: fewer than 88 bytes lent, or bytes 0 to 3 are not the first request's address",
}

impl fmt::Display for Refusal {
    fn fmt(&self, f: &mut fmt::Formatter<'_>) -> fmt::Result {
        match self.number_and_words() {
            (number @ 0..=99, words) => write!(f, "{number:02X}h, {words}"),
            (number, words) => write!(f, "{number}, {words}"),
        }
    }
}

impl Error for Refusal {}

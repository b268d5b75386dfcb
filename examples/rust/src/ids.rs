//! Ticket and unit: two kinds of number that must never be taken for one another.

/// A request's ticket: from 1 upwards, each given once. A unit is none:
///
/// ```compile_fail
/// let refused = pellacrosta::Desk::new().abort(pellacrosta::Unit(9));
/// ```
#[derive(Clone, Copy, Debug, PartialEq, Eq, PartialOrd, Ord, Hash)]
#[repr(transparent)]
pub struct Ticket(pub u32);

/// A unit: target x 8 + LUN, 0 to 63.
///
/// A number above 63 can be held too, and the desk refuses it (103): the proved code decides what a unit is, and no second check stands
/// before it.
#[derive(Clone, Copy, Debug, PartialEq, Eq, PartialOrd, Ord, Hash)]
#[repr(transparent)]
pub struct Unit(pub u8);

impl Unit {
    /// The unit at a target (0 to 7; 7 is the board itself and no device) and a LUN (0 to 7); none if either is above 7.
    pub const fn at(target: u8, lun: u8) -> Option<Unit> {
        match (target, lun) {
            (0..=7, 0..=7) => Some(Unit(target * 8 + lun)),
            _ => None,
        }
    }

    /// Its target.
    pub const fn target(self) -> u8 {
        self.0 / 8
    }

    /// Its LUN.
    pub const fn lun(self) -> u8 {
        self.0 % 8
    }
}

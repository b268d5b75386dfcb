//! Ticket and unit: two kinds of number that must never be taken for one another.

/// A ticket: 32 bits, from 1 upwards, each given once.
#[derive(Clone, Copy, PartialEq, Eq, PartialOrd, Ord, Hash, Debug)]
pub struct Ticket(pub u32);

impl Ticket {
    /// The first ticket a fresh board gives.
    pub const FIRST: Ticket = Ticket(1);

    /// The ticket after this one; none after FFFFFFFFh.
    pub fn next(self) -> Option<Ticket> {
        self.0.checked_add(1).map(Ticket)
    }
}

/// A unit: target x 8 + LUN, 0 to 63.
#[derive(Clone, Copy, PartialEq, Eq, PartialOrd, Ord, Hash, Debug)]
pub struct Unit(u8);

impl Unit {
    /// How many units there are.
    pub const COUNT: u8 = 64;

    /// The last unit, where a fresh board's rotation mark stands.
    pub const LAST: Unit = Unit(Unit::COUNT - 1);

    /// The unit of that number; none above 63, and the number is never cut to 8 bits.
    pub fn new(number: u32) -> Option<Unit> {
        u8::try_from(number)
            .ok()
            .filter(|&small| small < Unit::COUNT)
            .map(Unit)
    }

    /// The unit at a target and a LUN; none if either is above 7.
    pub fn at(target: u8, lun: u8) -> Option<Unit> {
        (target <= 7 && lun <= 7).then(|| Unit(target * 8 + lun))
    }

    /// The unit so many steps further round.
    pub fn after(self, steps: u8) -> Unit {
        Unit((self.0 + steps) % Unit::COUNT)
    }

    /// The unit's number, 0 to 63.
    pub fn number(self) -> u8 {
        self.0
    }

    /// The unit's target.
    pub fn target(self) -> u8 {
        self.0 / 8
    }

    /// The unit's LUN.
    pub fn lun(self) -> u8 {
        self.0 % 8
    }

    /// The unit's number as an index.
    pub fn index(self) -> usize {
        usize::from(self.0)
    }
}

#[cfg(test)]
mod tests {
    use super::*;

    #[test]
    fn a_unit_number_is_never_cut() {
        assert_eq!(Unit::new(63), Some(Unit::LAST));
        assert_eq!(Unit::new(64), None);
        assert_eq!(Unit::new(256 + 3), None);
    }

    #[test]
    fn a_target_or_lun_above_7_is_no_unit() {
        assert_eq!(Unit::at(7, 7), Some(Unit::LAST));
        assert_eq!(Unit::at(8, 0), None);
        assert_eq!(Unit::at(0, 8), None);
        assert_eq!(Unit::at(255, 255), None);
    }

    #[test]
    fn the_rotation_goes_round_to_where_it_began() {
        assert_eq!(Unit::LAST.after(1), Unit(0));
        assert_eq!(Unit(5).after(64), Unit(5));
    }

    #[test]
    fn no_ticket_follows_the_last() {
        assert_eq!(Ticket(u32::MAX - 1).next(), Some(Ticket(u32::MAX)));
        assert_eq!(Ticket(u32::MAX).next(), None);
    }
}

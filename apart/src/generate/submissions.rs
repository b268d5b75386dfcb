//! Lines of S: sound blocks, blocks at the edges of the checks, and addresses seen before.

use super::edge::{cut_to, sound_block, Edge, Wish, LONGEST_BLOCK};
use super::landmark::Landmark;
use super::plan::{PlaceWish, SubmitWish, TimeoutWish};
use super::{device_units, lines, Generator, EDGES};
use crate::block::{offset, put_number};
use crate::desk::{NO_TIMEOUT, PLACES};
use crate::ids::Unit;

impl Generator {
    pub(super) fn submit_line(&mut self, wish: SubmitWish) -> Vec<u8> {
        let unit = self.unit_for(wish.place);
        if wish.priority && self.desk().waiting_on(unit) > 0 && self.desk().live_count() < PLACES {
            self.note(Landmark::PriorityFirst);
        }
        let block = self.block(unit, wish.timeout, wish.priority);
        lines::submit(&block)
    }

    fn unit_for(&mut self, place: PlaceWish) -> Unit {
        if let PlaceWish::On(unit) = place {
            return unit;
        }
        let any = self.rng.pick(&self.units);
        if place == PlaceWish::Any {
            return any;
        }
        let desk = self.desk();
        let idle: Vec<Unit> = device_units()
            .filter(|&unit| desk.waiting_on(unit) == 0 && !desk.is_busy(unit))
            .filter(|&unit| !desk.is_frozen(unit))
            .collect();
        self.rng.pick_any(&idle).unwrap_or(any)
    }

    /// A sound block with an address that is not live.
    fn block(&mut self, unit: Unit, timeout: TimeoutWish, priority: bool) -> Vec<u8> {
        let address = self.fresh_address();
        let timeout = self.timeout(timeout);
        let wish = Wish {
            address,
            unit,
            timeout,
            priority,
        };
        sound_block(&mut self.rng, wish)
    }

    pub(super) fn any_block(&mut self) -> Vec<u8> {
        let unit = self.rng.pick(&self.units);
        let priority = self.rng.percent(20);
        self.block(unit, TimeoutWish::Any, priority)
    }

    fn fresh_address(&mut self) -> u32 {
        loop {
            let address = self.rng.number();
            if !self.desk().has_address(address) {
                return address;
            }
        }
    }

    fn timeout(&mut self, wish: TimeoutWish) -> u32 {
        let short = self.rng.between(1, 5) as u32;
        let any = self.rng.number();
        match wish {
            TimeoutWish::Short => short,
            TimeoutWish::Zero => 0,
            TimeoutWish::Long => self
                .rng
                .pick(&[NO_TIMEOUT, NO_TIMEOUT, NO_TIMEOUT - 1, 33, any]),
            TimeoutWish::Any => self.rng.pick(&[0, short, short, 10, 60, NO_TIMEOUT, any]),
        }
    }

    fn apply_edge(&mut self, block: &mut Vec<u8>) {
        let edge = self.rng.pick(Edge::ALL);
        edge.apply(&mut self.rng, block);
        self.reach.note(EDGES, edge.name());
    }

    pub(super) fn edge_line(&mut self) -> Vec<u8> {
        let mut block = self.any_block();
        self.apply_edge(&mut block);
        lines::submit(&block)
    }

    /// Two faults at once show which check comes first; the address may be live besides.
    pub(super) fn two_edges_line(&mut self) -> Vec<u8> {
        self.note(Landmark::TwoFaults);
        let mut block = self.any_block();
        if let Some(address) = self.live_address().filter(|_| self.rng.percent(20)) {
            put_number(&mut block, offset::ADDRESS, address);
        }
        self.apply_edge(&mut block);
        self.apply_edge(&mut block);
        lines::submit(&block)
    }

    /// A block of any length, its length field true or not, its function code mostly right.
    pub(super) fn length_line(&mut self) -> Vec<u8> {
        let mut block = self.any_block();
        block.resize(LONGEST_BLOCK, 0);
        let any = self.rng.between(0, LONGEST_BLOCK);
        let small = self.rng.between(0, 12);
        let lent = self
            .rng
            .pick(&[small, small, any, 86, 87, 88, 89, LONGEST_BLOCK]);
        if self.rng.percent(20) {
            block[offset::FUNCTION] = self.rng.byte();
        }
        let length = self.rng.pick(&[lent, lent, 88, lent + 1, any]);
        cut_to(&mut block, lent, length);
        lines::submit(&block)
    }

    fn line_with_address(&mut self, address: u32) -> Vec<u8> {
        let mut block = self.any_block();
        put_number(&mut block, offset::ADDRESS, address);
        lines::submit(&block)
    }

    fn live_address(&mut self) -> Option<u32> {
        let mut addresses: Vec<u32> = self.desk().requests().map(|(_, r)| r.address).collect();
        addresses.sort_unstable();
        self.rng.pick_any(&addresses)
    }

    pub(super) fn live_address_line(&mut self) -> Vec<u8> {
        match self.live_address() {
            Some(address) => self.line_with_address(address),
            None => self.edge_line(),
        }
    }

    pub(super) fn near_address_line(&mut self) -> Vec<u8> {
        let Some(address) = self.live_address() else {
            return self.edge_line();
        };
        self.note(Landmark::NearAddress);
        let bit = self.rng.below(32);
        self.line_with_address(address ^ (1 << bit))
    }

    pub(super) fn old_address_line(&mut self) -> Vec<u8> {
        let Some(address) = self.old_address.take() else {
            return self.edge_line();
        };
        if !self.desk().has_address(address) {
            self.note(Landmark::OldAddress);
        }
        self.line_with_address(address)
    }
}

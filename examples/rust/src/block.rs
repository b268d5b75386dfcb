//! A control block, for those who have none of their own.

use crate::{Status, Unit};

/// A control block of 88 bytes, laid out as Table 20 of the standard says, little-endian. Nothing is checked here: the desk does that.
#[derive(Clone, Debug, PartialEq, Eq)]
pub struct Block(pub [u8; 88]);

impl Block {
    /// Flag: sense is not looked at.
    pub const AUTOSENSE_DISABLED: u32 = 0x20;
    /// Flag: the callback isn't wanted.
    pub const CALLBACK_DISABLED: u32 = 0x08;
    /// Flag: SIM Queue Priority, to the head of the unit's waiting order.
    pub const TO_THE_HEAD: u32 = 0x1000;

    /// A block with an address, which tells live requests apart, a unit and a CDB of 1 to 12 bytes. It asks for no data and no sense, its
    /// timeout is 0, which means 30 seconds, and no flag is set.
    pub fn new(address: u32, unit: Unit, cdb: &[u8]) -> Block {
        let mut block = Block([0; 88]).with(0, address);
        block.0[4] = 88; // length
        block.0[6] = 0x01; // function code
        (block.0[10], block.0[11]) = (unit.target(), unit.lun());
        block.0[45] = u8::try_from(cdb.len()).unwrap_or(u8::MAX);
        block.0[60..72].iter_mut().zip(cdb).for_each(|(to, from)| *to = *from);
        block
    }

    /// How many bytes of data it asks for.
    pub fn data_length(self, bytes: u32) -> Block {
        self.with(36, bytes)
    }

    /// How many bytes of sense it asks for.
    pub fn sense_length(mut self, bytes: u8) -> Block {
        self.0[44] = bytes;
        self
    }

    /// Its callback, which a look gives.
    pub fn callback(self, number: u32) -> Block {
        self.with(28, number)
    }

    /// Its timeout in seconds; 0 means 30, FFFFFFFFh never.
    pub fn timeout(self, seconds: u32) -> Block {
        self.with(72, seconds)
    }

    /// Its flags, or-ed together.
    pub fn flags(self, flags: u32) -> Block {
        self.with(12, flags)
    }

    /// What its hand-back wrote: status, SCSI status, autosense residual and residual.
    pub fn told(&self) -> (Status, u8, u8, i32) {
        let residual = i32::from_le_bytes([self.0[56], self.0[57], self.0[58], self.0[59]]);
        (Status(self.0[7]), self.0[52], self.0[53], residual)
    }

    fn with(mut self, at: usize, number: u32) -> Block {
        self.0[at..at + 4].copy_from_slice(&number.to_le_bytes());
        self
    }
}

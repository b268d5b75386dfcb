//! The block of Table 20: where its fields lie, all little-endian, and the checks of taking in
//! that look at nothing but the block.

use crate::ids::Unit;
use crate::refusal::Refusal;

/// Bytes that must be lent before the status can be written.
pub const HEADER: usize = 8;

/// Bytes of a whole block; private data begins here.
pub const WHOLE: usize = 88;

/// The one function code that is taken in.
pub const EXECUTE: u8 = 0x01;

/// The largest data length our counter holds.
pub const LARGEST_DATA: u32 = 0x00FF_FFFF;

/// Bytes of CDB that a block holds.
pub const CDB_BYTES: usize = 12;

/// Where each field begins.
pub mod offset {
    pub const ADDRESS: usize = 0;
    pub const LENGTH: usize = 4;
    pub const FUNCTION: usize = 6;
    pub const STATUS: usize = 7;
    pub const PATH: usize = 9;
    pub const TARGET: usize = 10;
    pub const LUN: usize = 11;
    pub const FLAGS: usize = 12;
    pub const CALLBACK: usize = 28;
    pub const DATA_LENGTH: usize = 36;
    pub const SENSE_LENGTH: usize = 44;
    pub const CDB_LENGTH: usize = 45;
    pub const SCSI_STATUS: usize = 52;
    pub const AUTOSENSE_RESIDUAL: usize = 53;
    pub const RESIDUAL: usize = 56;
    pub const CDB: usize = 60;
    pub const TIMEOUT: usize = 72;
}

/// The flags that are read: the first byte's, then the second's.
pub mod flag {
    pub const AUTOSENSE_DISABLED: u8 = 0x20;
    pub const SCATTER_GATHER: u8 = 0x10;
    pub const CALLBACK_DISABLED: u8 = 0x08;
    pub const LINKED: u8 = 0x04;
    pub const TAG_ACTION: u8 = 0x02;
    pub const CDB_POINTER: u8 = 0x01;
    /// Any of these in the first byte is refused (check 6).
    pub const NOT_HERE: u8 = SCATTER_GATHER | LINKED | TAG_ACTION | CDB_POINTER;
    /// SIM Queue Priority, in the second byte.
    pub const PRIORITY: u8 = 0x10;
}

/// What the desk needs of a block.
#[derive(Clone, PartialEq, Eq, Debug)]
pub struct Fields {
    pub address: u32,
    pub unit: Unit,
    pub callback: u32,
    pub callback_wanted: bool,
    pub autosense: bool,
    pub to_the_front: bool,
    pub data_length: u32,
    pub sense_length: u8,
    pub cdb: [u8; CDB_BYTES],
    pub timeout: u32,
}

impl Fields {
    /// Checks 2 to 8 on a block of at least 8 bytes, first that applies, then its fields.
    pub fn checked(lent: &[u8]) -> Result<Fields, Refusal> {
        if lent[offset::FUNCTION] != EXECUTE {
            return Err(Refusal::FunctionCode);
        }
        let length = usize::from(u16::from_le_bytes(bytes_at(lent, offset::LENGTH)));
        let Some(block) = lent.first_chunk::<WHOLE>() else {
            return Err(Refusal::LengthField);
        };
        if length < WHOLE || length > lent.len() {
            return Err(Refusal::LengthField);
        }
        if block[offset::PATH] != 0 {
            return Err(Refusal::Path);
        }
        let unit = device_unit(block).ok_or(Refusal::TargetOrLun)?;
        let flags = block[offset::FLAGS];
        if flags & flag::NOT_HERE != 0 {
            return Err(Refusal::Flag);
        }
        if !(1..=CDB_BYTES).contains(&usize::from(block[offset::CDB_LENGTH])) {
            return Err(Refusal::CdbLength);
        }
        let data_length = number_at(block, offset::DATA_LENGTH);
        if data_length > LARGEST_DATA {
            return Err(Refusal::DataLength);
        }
        Ok(Fields {
            address: number_at(block, offset::ADDRESS),
            unit,
            callback: number_at(block, offset::CALLBACK),
            callback_wanted: flags & flag::CALLBACK_DISABLED == 0,
            autosense: flags & flag::AUTOSENSE_DISABLED == 0,
            to_the_front: block[offset::FLAGS + 1] & flag::PRIORITY != 0,
            data_length,
            sense_length: block[offset::SENSE_LENGTH],
            cdb: bytes_at(block, offset::CDB),
            timeout: number_at(block, offset::TIMEOUT),
        })
    }
}

/// The unit the block names; target 7 is our board and no device.
fn device_unit(block: &[u8; WHOLE]) -> Option<Unit> {
    let target = block[offset::TARGET];
    Unit::at(target, block[offset::LUN]).filter(|_| target <= 6)
}

/// The 32-bit number that begins at an offset.
pub fn number_at(block: &[u8], at: usize) -> u32 {
    u32::from_le_bytes(bytes_at(block, at))
}

/// Writes a 32-bit number at an offset.
pub fn put_number(block: &mut [u8], at: usize, number: u32) {
    block[at..at + 4].copy_from_slice(&number.to_le_bytes());
}

/// So many bytes from an offset on.
fn bytes_at<const N: usize>(block: &[u8], at: usize) -> [u8; N] {
    let mut bytes = [0; N];
    bytes.copy_from_slice(&block[at..at + N]);
    bytes
}

#[cfg(test)]
pub mod samples {
    use super::*;

    /// A sound block of 88 bytes: target 1, LUN 0, 4,096 bytes of data, 32 sense bytes, timeout 5.
    pub fn sound(address: u32) -> Vec<u8> {
        let mut block = vec![0; WHOLE];
        put_number(&mut block, offset::ADDRESS, address);
        block[offset::LENGTH] = WHOLE as u8;
        block[offset::FUNCTION] = EXECUTE;
        block[offset::STATUS] = 0xAA;
        block[offset::TARGET] = 1;
        put_number(&mut block, offset::DATA_LENGTH, 4096);
        block[offset::SENSE_LENGTH] = 32;
        block[offset::CDB_LENGTH] = 6;
        put_number(&mut block, offset::TIMEOUT, 5);
        block
    }
}

#[cfg(test)]
mod tests {
    use super::samples::sound;
    use super::*;

    /// What the checks say once one byte of a sound block is altered.
    fn with_byte(at: usize, value: u8) -> Result<Fields, Refusal> {
        let mut block = sound(1);
        block[at] = value;
        Fields::checked(&block)
    }

    #[test]
    fn the_length_field_lies_between_88_and_the_bytes_lent() {
        assert_eq!(with_byte(offset::LENGTH, 87), Err(Refusal::LengthField));
        assert!(with_byte(offset::LENGTH, 88).is_ok());
        assert_eq!(with_byte(offset::LENGTH, 89), Err(Refusal::LengthField));
        assert_eq!(with_byte(offset::LENGTH + 1, 1), Err(Refusal::LengthField));
    }

    #[test]
    fn a_short_block_still_has_its_function_code_checked_first() {
        let mut block = sound(1);
        block.truncate(HEADER);
        assert_eq!(Fields::checked(&block), Err(Refusal::LengthField));
        block[offset::FUNCTION] = 2;
        assert_eq!(Fields::checked(&block), Err(Refusal::FunctionCode));
    }

    #[test]
    fn the_checks_at_their_edges() {
        assert_eq!(with_byte(offset::PATH, 1), Err(Refusal::Path));
        assert!(with_byte(offset::TARGET, 6).is_ok());
        assert_eq!(with_byte(offset::TARGET, 7), Err(Refusal::TargetOrLun));
        assert!(with_byte(offset::LUN, 7).is_ok());
        assert_eq!(with_byte(offset::LUN, 8), Err(Refusal::TargetOrLun));
        assert_eq!(with_byte(offset::CDB_LENGTH, 0), Err(Refusal::CdbLength));
        assert!(with_byte(offset::CDB_LENGTH, 12).is_ok());
        assert_eq!(with_byte(offset::CDB_LENGTH, 13), Err(Refusal::CdbLength));
        assert!(with_byte(offset::DATA_LENGTH + 2, 0xFF).is_ok());
        assert_eq!(
            with_byte(offset::DATA_LENGTH + 3, 1),
            Err(Refusal::DataLength)
        );
    }

    #[test]
    fn each_flag_that_is_not_here_is_refused_and_no_other() {
        for bit in 0..8 {
            let refused = with_byte(offset::FLAGS, 1 << bit).is_err();
            assert_eq!(refused, [0, 1, 2, 4].contains(&bit), "bit {bit}");
        }
        for byte in 1..4 {
            assert!(with_byte(offset::FLAGS + byte, 0xFF).is_ok());
        }
    }

    #[test]
    fn the_flags_that_are_read_are_kept() {
        let fields = with_byte(offset::FLAGS, 0x28).expect("no refused flag");
        assert!(!fields.autosense && !fields.callback_wanted && !fields.to_the_front);
        let fields = with_byte(offset::FLAGS + 1, 0x10).expect("no refused flag");
        assert!(fields.autosense && fields.callback_wanted && fields.to_the_front);
    }

    #[test]
    fn the_first_check_that_applies_decides() {
        let mut block = sound(1);
        block[offset::PATH] = 1;
        block[offset::TARGET] = 7;
        assert_eq!(Fields::checked(&block), Err(Refusal::Path));
        block[offset::LENGTH] = 87;
        assert_eq!(Fields::checked(&block), Err(Refusal::LengthField));
        block[offset::FUNCTION] = 2;
        assert_eq!(Fields::checked(&block), Err(Refusal::FunctionCode));
    }
}

//! Blocks for the logs: sound ones, and ones at the edge of each check of taking in.

use crate::block::{flag, offset, put_number, CDB_BYTES, EXECUTE, LARGEST_DATA, WHOLE};
use crate::desk::NO_TIMEOUT;
use crate::ids::Unit;
use crate::reach::named;
use crate::rng::Rng;

/// The longest block that a line of 400 bytes holds.
pub const LONGEST_BLOCK: usize = 199;

/// What a sound block should ask for.
#[derive(Clone, Copy, PartialEq, Eq, Debug)]
pub struct Wish {
    pub address: u32,
    pub unit: Unit,
    pub timeout: u32,
    pub priority: bool,
}

/// A block that passes checks 1 to 8; every field and flag that is not read holds anything.
pub fn sound_block(rng: &mut Rng, wish: Wish) -> Vec<u8> {
    let any_lent = rng.between(WHOLE, LONGEST_BLOCK);
    let lent = rng.pick_weighted(&[
        (6, WHOLE),
        (1, WHOLE + 1),
        (1, LONGEST_BLOCK),
        (2, any_lent),
    ]);
    let any_length = rng.between(WHOLE, lent);
    let mut block: Vec<u8> = (0..lent).map(|_| rng.byte()).collect();
    put_length(&mut block, rng.pick(&[WHOLE, lent, any_length]));
    put_number(&mut block, offset::ADDRESS, wish.address);
    block[offset::FUNCTION] = EXECUTE;
    block[offset::PATH] = 0;
    block[offset::TARGET] = wish.unit.target();
    block[offset::LUN] = wish.unit.lun();
    put_flags(rng, &mut block, wish.priority);
    put_number(&mut block, offset::DATA_LENGTH, any_data_length(rng));
    block[offset::SENSE_LENGTH] = any_sense_length(rng);
    block[offset::CDB_LENGTH] = rng.between(1, CDB_BYTES) as u8;
    put_number(&mut block, offset::TIMEOUT, wish.timeout);
    block
}

/// Flags that aren't read stay as they are; autosense is mostly on.
fn put_flags(rng: &mut Rng, block: &mut [u8], priority: bool) {
    block[offset::FLAGS] &= !(flag::NOT_HERE | flag::AUTOSENSE_DISABLED);
    if rng.percent(15) {
        block[offset::FLAGS] |= flag::AUTOSENSE_DISABLED;
    }
    block[offset::FLAGS + 1] &= !flag::PRIORITY;
    if priority {
        block[offset::FLAGS + 1] |= flag::PRIORITY;
    }
}

fn any_data_length(rng: &mut Rng) -> u32 {
    let any = rng.number() & LARGEST_DATA;
    rng.pick(&[0, 0, 1, 512, 4096, 4096, LARGEST_DATA, any])
}

fn any_sense_length(rng: &mut Rng) -> u8 {
    let any = rng.byte();
    rng.pick(&[0, 1, 18, 32, 32, 254, 255, any])
}

/// Writes the length field.
pub fn put_length(block: &mut [u8], length: usize) {
    let bytes = (length as u16).to_le_bytes();
    block[offset::LENGTH..offset::LENGTH + 2].copy_from_slice(&bytes);
}

named! {
    /// One field of a sound block moved to the edge of a check.
    pub enum Edge {
        Function00 => "function code 00h",
        Function02 => "function code 02h",
        FunctionAny => "function code of any other value",
        Length0 => "length field 0",
        Length87 => "length field 87",
        Length88 => "length field 88",
        LengthLent => "length field as many as lent",
        LengthAboveLent => "length field one above the bytes lent",
        LengthHighByte => "length field with its high byte set",
        LengthFfff => "length field FFFFh",
        Lent87 => "87 bytes lent, length field 87 or 88",
        Lent8 => "8 bytes lent",
        Lent7 => "7 bytes lent",
        Path1 => "path 1",
        PathAny => "path of any other value",
        Target6 => "target 6",
        Target7 => "target 7",
        TargetAny => "target above 7",
        Lun7 => "LUN 7",
        Lun8 => "LUN 8",
        LunAny => "LUN above 8",
        ScatterGather => "flag scatter/gather",
        TagAction => "flag tag queue action enable",
        Linked => "flag linked CDB",
        CdbPointer => "flag CDB is a pointer",
        OtherFlags => "every flag that is not read",
        Cdb0 => "CDB length 0",
        Cdb1 => "CDB length 1",
        Cdb12 => "CDB length 12",
        Cdb13 => "CDB length 13",
        CdbAny => "CDB length above 13",
        DataFfffff => "data length FFFFFFh",
        Data1000000 => "data length 1000000h",
        DataAny => "data length with its high byte set",
        TimeoutFffffffe => "timeout FFFFFFFEh",
        AddressFfffffff => "address FFFFFFFFh",
        Address0 => "address 0",
    }
}

impl Edge {
    /// Moves the field there.
    pub fn apply(self, rng: &mut Rng, block: &mut Vec<u8>) {
        let lent = block.len();
        match self {
            Edge::Lent87 => cut_to(block, 87, rng.pick(&[87, 88])),
            Edge::Lent8 => cut_to(block, 8, rng.pick(&[8, 88])),
            Edge::Lent7 => cut_to(block, 7, rng.pick(&[7, 88])),
            // A block cut short by another edge has none of the fields below.
            _ if lent < WHOLE => {}
            Edge::Function00 => block[offset::FUNCTION] = 0x00,
            Edge::Function02 => block[offset::FUNCTION] = 0x02,
            Edge::FunctionAny => block[offset::FUNCTION] = rng.byte() | 0x80,
            Edge::Length0 => put_length(block, 0),
            Edge::Length87 => put_length(block, 87),
            Edge::Length88 => put_length(block, 88),
            Edge::LengthLent => put_length(block, lent),
            Edge::LengthAboveLent => put_length(block, lent + 1),
            Edge::LengthHighByte => block[offset::LENGTH + 1] = rng.byte() | 0x01,
            Edge::LengthFfff => put_length(block, 0xFFFF),
            Edge::Path1 => block[offset::PATH] = 1,
            Edge::PathAny => block[offset::PATH] = rng.byte() | 0x02,
            Edge::Target6 => block[offset::TARGET] = 6,
            Edge::Target7 => block[offset::TARGET] = 7,
            Edge::TargetAny => block[offset::TARGET] = rng.byte() | 0x08,
            Edge::Lun7 => block[offset::LUN] = 7,
            Edge::Lun8 => block[offset::LUN] = 8,
            Edge::LunAny => block[offset::LUN] = rng.byte() | 0x10,
            Edge::ScatterGather => block[offset::FLAGS] |= flag::SCATTER_GATHER,
            Edge::TagAction => block[offset::FLAGS] |= flag::TAG_ACTION,
            Edge::Linked => block[offset::FLAGS] |= flag::LINKED,
            Edge::CdbPointer => block[offset::FLAGS] |= flag::CDB_POINTER,
            Edge::OtherFlags => set_flags_not_read(block),
            Edge::Cdb0 => block[offset::CDB_LENGTH] = 0,
            Edge::Cdb1 => block[offset::CDB_LENGTH] = 1,
            Edge::Cdb12 => block[offset::CDB_LENGTH] = 12,
            Edge::Cdb13 => block[offset::CDB_LENGTH] = 13,
            Edge::CdbAny => block[offset::CDB_LENGTH] = rng.byte() | 0x10,
            Edge::DataFfffff => put_number(block, offset::DATA_LENGTH, LARGEST_DATA),
            Edge::Data1000000 => put_number(block, offset::DATA_LENGTH, LARGEST_DATA + 1),
            Edge::DataAny => block[offset::DATA_LENGTH + 3] = rng.byte() | 0x80,
            Edge::TimeoutFffffffe => put_number(block, offset::TIMEOUT, NO_TIMEOUT - 1),
            Edge::AddressFfffffff => put_number(block, offset::ADDRESS, u32::MAX),
            Edge::Address0 => put_number(block, offset::ADDRESS, 0),
        }
    }
}

fn set_flags_not_read(block: &mut [u8]) {
    block[offset::FLAGS] |= 0xC0;
    block[offset::FLAGS + 1] |= !flag::PRIORITY;
    block[offset::FLAGS + 2] = 0xFF;
    block[offset::FLAGS + 3] = 0xFF;
}

/// Lends fewer bytes, and says so or something else in the length field.
pub fn cut_to(block: &mut Vec<u8>, lent: usize, length: usize) {
    put_length(block, length);
    block.truncate(lent);
}

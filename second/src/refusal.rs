//! The refusal numbers of documents 01 and 02, and a refusal with the indices it gives.

pub const SHORT: u8 = 1;
pub const HEADER: u8 = 2;
pub const FOOTER: u8 = 3;
pub const BIG: u8 = 4;
pub const FIT: u8 = 5;
pub const CBOR: u8 = 6;
pub const DEEP: u8 = 7;
pub const KIND: u8 = 8;
pub const KEY: u8 = 9;
pub const TEXT: u8 = 10;
pub const TWICE: u8 = 11;
pub const MISSING: u8 = 12;
pub const VERSION: u8 = 13;
pub const MAJOR: u8 = 14;
pub const COUNT: u8 = 15;
pub const DTYPE: u8 = 16;
pub const ENCODING: u8 = 17;
pub const TYPE: u8 = 18;
pub const ALIGN: u8 = 19;
pub const BOUNDS: u8 = 20;
pub const RANK: u8 = 21;
pub const ROLE: u8 = 22;
pub const LENGTH: u8 = 23;
pub const ROOM: u8 = 24;
pub const ROW: u8 = 25;
pub const INDEX: u8 = 26;
pub const PLAN: u8 = 27;
pub const BUSY: u8 = 28;

/// A refusal's number, the object's index and the component's index in its object.
#[derive(Clone, Copy, Debug, PartialEq, Eq)]
pub struct Refusal {
    pub number: u8,
    pub object: u64,
    pub component: u64,
}

impl Refusal {
    /// A refusal that belongs to no object.
    pub fn whole(number: u8) -> Refusal {
        Refusal::of(number, 0, 0)
    }

    pub fn of(number: u8, object: usize, component: usize) -> Refusal {
        Refusal {
            number,
            object: object as u64,
            component: component as u64,
        }
    }
}

//! Storage types, listed logical types, formats with their roles, and exact products.

/// Storage types by code, each with its width.
pub const DTYPES: [(&str, u64); 13] = [
    ("f64", 8),
    ("f32", 4),
    ("f16", 2),
    ("bf16", 2),
    ("i64", 8),
    ("i32", 4),
    ("i16", 2),
    ("i8", 1),
    ("u64", 8),
    ("u32", 4),
    ("u16", 2),
    ("u8", 1),
    ("bool", 1),
];

/// The code of u64, which index roles need.
pub const U64: usize = 8;

/// A logical type that 01 lists, with the storage code it needs and its ratio.
pub struct Listed {
    pub name: &'static str,
    pub dtype: usize,
    pub ratio: u64,
}

pub const LISTED: [Listed; 6] = [
    listed("f8_e4m3fn", 11, 1),
    listed("f8_e5m2", 11, 1),
    listed("f8_e4m3fnuz", 11, 1),
    listed("f8_e5m2fnuz", 11, 1),
    listed("complex64", 1, 2),
    listed("complex128", 0, 2),
];

const fn listed(name: &'static str, dtype: usize, ratio: u64) -> Listed {
    Listed { name, dtype, ratio }
}

pub fn dtype_code(text: &[u8]) -> Option<usize> {
    DTYPES.iter().position(|(name, _)| name.as_bytes() == text)
}

pub fn listed_type(text: &[u8]) -> Option<&'static Listed> {
    LISTED.iter().find(|listed| listed.name.as_bytes() == text)
}

/// Bytes of one logical element: ratio × width. Without a type the ratio is 1; a type that 01 doesn't list has none (02, Req 03).
pub fn element_bytes(dtype: usize, logical: Option<&[u8]>) -> Option<u64> {
    let ratio = match logical {
        Some(text) => listed_type(text)?.ratio,
        None => 1,
    };
    Some(ratio * DTYPES[dtype].1)
}

#[derive(Clone, Copy, Debug, PartialEq, Eq)]
pub enum Format {
    Dense,
    SparseCsr,
    SparseCoo,
    QuantizedGroup,
    Other,
}

impl Format {
    pub fn of(text: &[u8]) -> Format {
        match text {
            b"dense" => Format::Dense,
            b"sparse_csr" => Format::SparseCsr,
            b"sparse_coo" => Format::SparseCoo,
            b"quantized_group" => Format::QuantizedGroup,
            _ => Format::Other,
        }
    }

    /// The needed roles, in the order they are judged in.
    pub fn roles(self) -> &'static [&'static str] {
        match self {
            Format::Dense => &["data"],
            Format::SparseCsr => &["values", "indices", "indptr"],
            Format::SparseCoo => &["values", "coords"],
            Format::QuantizedGroup => &["packed_weight", "scales", "zeros"],
            Format::Other => &[],
        }
    }
}

/// Whether a needed role must be plain u64.
pub fn is_index_role(role: &str) -> bool {
    ["indices", "indptr", "coords"].contains(&role)
}

/// The exact product where it fits 128 bits, else the largest number, which no length equals. A
/// zero makes it 0 wherever it stands, also after the product has grown too large.
pub fn product(factors: &[u64]) -> u128 {
    factors.iter().fold(1, |all, &factor| {
        u128::saturating_mul(all, u128::from(factor))
    })
}

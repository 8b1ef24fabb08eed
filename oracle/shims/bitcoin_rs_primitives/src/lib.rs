//! Stands in for the crate that the module takes its ids from: 32 bytes kept as given, ordered as unsigned bytes from the first.

#[derive(Clone, Copy, Debug, Eq, Hash, Ord, PartialEq, PartialOrd)]
pub struct Hash256([u8; 32]);

impl Hash256 {
    #[must_use]
    pub const fn from_le_bytes(bytes: &[u8; 32]) -> Self {
        Self(*bytes)
    }
}

#[derive(Clone, Copy, Debug, Eq, Hash, Ord, PartialEq, PartialOrd)]
pub struct Txid(pub Hash256);

impl Txid {
    #[must_use]
    pub const fn as_bytes(&self) -> &[u8; 32] {
        &self.0.0
    }
}

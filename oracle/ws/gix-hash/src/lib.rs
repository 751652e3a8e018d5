//! Stand-in: an object id that knows its hexadecimal form (20 or 32 bytes).
#[derive(Debug, Copy, Clone, PartialEq, Eq)]
pub struct ObjectId {
    pub len: usize,
    pub bytes: [u8; 32],
}
impl ObjectId {
    pub fn from_bytes(b: &[u8]) -> Self {
        let mut bytes = [0; 32];
        bytes[..b.len()].copy_from_slice(b);
        ObjectId { len: b.len(), bytes }
    }
    pub fn to_hex(&self) -> String {
        self.bytes[..self.len].iter().map(|b| format!("{b:02x}")).collect()
    }
}

//! Stand-in for `bstr` 1: exactly what the given sources call.
use std::{
    borrow::{Borrow, Cow},
    fmt,
    ops::{Deref, DerefMut},
};

#[derive(PartialEq, Eq, PartialOrd, Ord, Hash)]
#[repr(transparent)]
pub struct BStr {
    bytes: [u8],
}
#[derive(Default, Clone, PartialEq, Eq, PartialOrd, Ord, Hash)]
pub struct BString {
    bytes: Vec<u8>,
}

impl BStr {
    pub fn new<B: ?Sized + AsRef<[u8]>>(b: &B) -> &BStr {
        // SAFETY: repr(transparent)
        unsafe { &*(b.as_ref() as *const [u8] as *const BStr) }
    }
}
impl Deref for BStr {
    type Target = [u8];
    fn deref(&self) -> &[u8] {
        &self.bytes
    }
}
impl AsRef<[u8]> for BStr {
    fn as_ref(&self) -> &[u8] {
        &self.bytes
    }
}
impl fmt::Display for BStr {
    fn fmt(&self, f: &mut fmt::Formatter<'_>) -> fmt::Result {
        f.write_str(&String::from_utf8_lossy(&self.bytes))
    }
}
impl fmt::Debug for BStr {
    fn fmt(&self, f: &mut fmt::Formatter<'_>) -> fmt::Result {
        write!(f, "{:?}", String::from_utf8_lossy(&self.bytes))
    }
}
impl ToOwned for BStr {
    type Owned = BString;
    fn to_owned(&self) -> BString {
        BString {
            bytes: self.bytes.to_vec(),
        }
    }
}

impl Deref for BString {
    type Target = Vec<u8>;
    fn deref(&self) -> &Vec<u8> {
        &self.bytes
    }
}
impl DerefMut for BString {
    fn deref_mut(&mut self) -> &mut Vec<u8> {
        &mut self.bytes
    }
}
impl AsRef<[u8]> for BString {
    fn as_ref(&self) -> &[u8] {
        &self.bytes
    }
}
impl AsRef<BStr> for BString {
    fn as_ref(&self) -> &BStr {
        BStr::new(&self.bytes)
    }
}
impl Borrow<BStr> for BString {
    fn borrow(&self) -> &BStr {
        BStr::new(&self.bytes)
    }
}
impl fmt::Display for BString {
    fn fmt(&self, f: &mut fmt::Formatter<'_>) -> fmt::Result {
        fmt::Display::fmt(BStr::new(&self.bytes), f)
    }
}
impl fmt::Debug for BString {
    fn fmt(&self, f: &mut fmt::Formatter<'_>) -> fmt::Result {
        fmt::Debug::fmt(BStr::new(&self.bytes), f)
    }
}
impl From<Vec<u8>> for BString {
    fn from(bytes: Vec<u8>) -> Self {
        BString { bytes }
    }
}
impl From<BString> for Vec<u8> {
    fn from(b: BString) -> Self {
        b.bytes
    }
}
impl From<String> for BString {
    fn from(s: String) -> Self {
        s.into_bytes().into()
    }
}
impl From<&str> for BString {
    fn from(s: &str) -> Self {
        s.as_bytes().to_vec().into()
    }
}
impl From<&[u8]> for BString {
    fn from(s: &[u8]) -> Self {
        s.to_vec().into()
    }
}
impl<'a> From<BString> for Cow<'a, BStr> {
    fn from(s: BString) -> Self {
        Cow::Owned(s)
    }
}
impl<'a> From<&'a [u8]> for &'a BStr {
    fn from(s: &'a [u8]) -> Self {
        BStr::new(s)
    }
}

/// Length of the White_Space character at the end (`back`) or front, 0 if none.
fn space(b: &[u8], back: bool) -> usize {
    for n in 1..=b.len().min(4) {
        let part = if back { &b[b.len() - n..] } else { &b[..n] };
        if let Ok(s) = std::str::from_utf8(part) {
            let mut c = s.chars();
            return match (c.next(), c.next()) {
                (Some(x), None) if x.is_whitespace() => n,
                _ => 0,
            };
        }
    }
    0
}

pub trait ByteSlice {
    fn bytes_(&self) -> &[u8];
    fn as_bstr(&self) -> &BStr {
        BStr::new(self.bytes_())
    }
    fn find(&self, needle: impl AsRef<[u8]>) -> Option<usize> {
        let n = needle.as_ref();
        (0..=self.bytes_().len().checked_sub(n.len())?).find(|&i| self.bytes_()[i..].starts_with(n))
    }
    fn trim(&self) -> &[u8] {
        let mut b = self.bytes_();
        loop {
            match space(b, false) {
                0 => break,
                n => b = &b[n..],
            }
        }
        loop {
            match space(b, true) {
                0 => break,
                n => b = &b[..b.len() - n],
            }
        }
        b
    }
}
impl ByteSlice for [u8] {
    fn bytes_(&self) -> &[u8] {
        self
    }
}

pub trait ByteVec {
    fn push_str<B: AsRef<[u8]>>(&mut self, bytes: B);
}
impl ByteVec for Vec<u8> {
    fn push_str<B: AsRef<[u8]>>(&mut self, bytes: B) {
        self.extend_from_slice(bytes.as_ref())
    }
}

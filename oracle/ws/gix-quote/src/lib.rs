//! Stand-in: only reached by programs that filter a single file, which no exchange has.
use bstr::{BStr, BString};
pub fn single(path: &BStr) -> BString {
    let mut v = b"'".to_vec();
    v.extend_from_slice(path);
    v.push(b'\'');
    v.into()
}

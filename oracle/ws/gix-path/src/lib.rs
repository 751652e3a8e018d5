//! Stand-in: bytes to path, unix only.
use bstr::BStr;
use std::{
    borrow::Cow,
    ffi::OsStr,
    ffi::OsString,
    os::unix::ffi::{OsStrExt, OsStringExt},
    path::Path,
};
pub fn from_bstr<'a>(input: impl Into<Cow<'a, BStr>>) -> Cow<'a, Path> {
    match input.into() {
        Cow::Borrowed(b) => Cow::Borrowed(Path::new(OsStr::from_bytes(b))),
        Cow::Owned(b) => Cow::Owned(OsString::from_vec(b.into()).into()),
    }
}

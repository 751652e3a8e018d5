//! What the crate answers, by the numbers of our refusals.
use crate::text::hex;
use gix_filter::driver::{apply, delayed, init, process};

pub(crate) fn io_number(e: &std::io::Error) -> u8 {
    if let Some(inner) = e.get_ref() {
        if let Some(f) = inner.downcast_ref::<host::Fault>() {
            return f.0;
        }
        if inner.is::<gix_packetline::decode::Error>() {
            return 20;
        }
    }
    match e.kind() {
        std::io::ErrorKind::UnexpectedEof => 11,
        std::io::ErrorKind::BrokenPipe => 12,
        _ => 13,
    }
}
pub(crate) fn shake_number(e: &process::client::handshake::Error) -> u8 {
    use process::client::handshake::Error::*;
    match e {
        Io(e) => io_number(e),
        Protocol { msg, .. } if msg.starts_with("Wanted '") => 30,
        Protocol { msg, .. } if msg.starts_with("Needed 'version") => 31,
        Protocol { msg, .. } if msg.starts_with("Server offered") => 32,
        Protocol { msg, .. } if msg.starts_with("expected flush") => 33,
        Protocol { .. } => 0,
        UnsupportedCapability { .. } => 34,
    }
}
/// A status name: its first 128 bytes, and how long it is if there are more.
fn name_text(name: &str) -> String {
    match name.as_bytes() {
        long if long.len() > 128 => format!("named {} of {}", hex(&long[..128]), long.len()),
        name => format!("named {}", hex(name)),
    }
}
pub(crate) fn status_text(s: &process::Status) -> String {
    match s {
        process::Status::Previous => "previous".into(),
        process::Status::Unset => "unset".into(),
        process::Status::Named(n) => name_text(n),
    }
}
pub(crate) fn apply_answer(e: &apply::Error) -> String {
    match e {
        apply::Error::Init(init::Error::SpawnCommand { .. }) => "10".into(),
        apply::Error::Init(init::Error::ProcessHandshake { source, .. }) => shake_number(source).to_string(),
        apply::Error::WriteSource(e) => io_number(e).to_string(),
        apply::Error::DelayNotAllowed => "36".into(),
        apply::Error::ProcessInvoke {
            source: process::client::invoke::Error::Io(e),
            ..
        } => io_number(e).to_string(),
        apply::Error::ProcessStatus { status, .. } => format!("35 {}", status_text(status)),
    }
}
pub(crate) fn fetch_answer(e: &delayed::fetch::Error) -> String {
    use delayed::fetch::Error::*;
    match e {
        ProcessMissing { .. } => "3".into(),
        ProcessInvoke {
            source: process::client::invoke::Error::Io(e),
            ..
        } => io_number(e).to_string(),
        ProcessStatus { status, .. } => format!("35 {}", status_text(status)),
    }
}
pub(crate) fn list_answer(e: &delayed::list::Error) -> String {
    use delayed::list::Error::*;
    use process::client::invoke::without_content::Error as W;
    match e {
        ProcessMissing { .. } => "3".into(),
        ProcessInvoke(W::Io(e)) => io_number(e).to_string(),
        ProcessInvoke(W::PacketlineDecode(_)) => "20".into(),
        ProcessStatus { status } => format!("35 {}", status_text(status)),
    }
}
pub(crate) const FINAL: &str = "Process indicated error after reading: ";
pub(crate) fn read_answer(r: std::io::Result<usize>, buf: &[u8]) -> String {
    match r {
        Ok(0) => "end".into(),
        Ok(n) => format!("payload {}", hex(&buf[..n])),
        Err(e) => match e.to_string().strip_prefix(FINAL) {
            // The message of Unset and that of an empty name are the same here.
            Some("") => "37 nameless".into(),
            Some(name) => format!("37 {}", name_text(name)),
            None => io_number(&e).to_string(),
        },
    }
}

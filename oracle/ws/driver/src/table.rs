//! The calls of a table.
use crate::numbers::{apply_answer, fetch_answer, list_answer, read_answer};
use crate::text::{bytes, hex};
use bstr::ByteSlice;
use gix_filter::driver::{apply, shutdown, Operation, Process, State};
use gix_filter::Driver;
use std::io::Read as _;

pub(crate) fn driver_of(key: &[u8]) -> Driver {
    Driver {
        name: "f".into(),
        clean: None,
        smudge: None,
        process: Some(key.into()),
        required: false,
    }
}
pub(crate) fn operation(s: &str) -> Operation {
    match s {
        "clean" => Operation::Clean,
        "smudge" => Operation::Smudge,
        _ => panic!("operation"),
    }
}
pub(crate) fn id(s: &str) -> Option<gix_hash::ObjectId> {
    (s != "-").then(|| gix_hash::ObjectId::from_bytes(&bytes(s)))
}

/// What Rust's borrow of the table says by itself: a record whose result isn't read yet takes no other call (4),
/// and without result there is nothing to read (5).
pub(crate) fn table_call(s: &mut State, reading: &mut Vec<Vec<u8>>, w: &[&str]) -> String {
    let key = bytes(w[1]);
    let is = reading.contains(&key);
    if (w[0] == "read") != is {
        return if is { "4" } else { "5" }.into();
    }
    let a = make_call(s, w);
    if a == "result" {
        reading.push(key)
    } else if is && !a.starts_with("payload") {
        reading.retain(|k| *k != key)
    }
    a
}
pub(crate) fn make_call(s: &mut State, w: &[&str]) -> String {
    match w[0] {
        "apply" => {
            let (path, r, content) = (bytes(w[3]), bytes(w[4]), bytes(w[8]));
            let ctx = apply::Context {
                rela_path: path.as_bstr(),
                ref_name: (w[4] != "-").then(|| r.as_bstr()),
                treeish: id(w[5]),
                blob: id(w[6]),
            };
            let delay = if w[7] == "1" {
                apply::Delay::Allow
            } else {
                apply::Delay::Forbid
            };
            let r = s.apply_delayed(&driver_of(&bytes(w[1])), &mut &content[..], operation(w[2]), delay, ctx);
            match r {
                Ok(None) => "passed".into(),
                Ok(Some(apply::MaybeDelayed::Delayed(_))) => "delayed".into(),
                Ok(Some(apply::MaybeDelayed::Immediate(_))) => "result".into(),
                Err(e) => apply_answer(&e),
            }
        }
        "fetch" => {
            let path = bytes(w[3]);
            let r = s.fetch_delayed(&shutdown::key(&bytes(w[1])), path.as_bstr(), operation(w[2]));
            match r {
                Ok(_) => "result".into(),
                Err(e) => fetch_answer(&e),
            }
        }
        "list" => match s.list_delayed_paths(&shutdown::key(&bytes(w[1]))) {
            Ok(paths) => format!(
                "paths{}",
                paths.iter().map(|p| format!(" {}", hex(p))).collect::<String>()
            ),
            Err(e) => list_answer(&e),
        },
        // The reader made anew for each read: with 65,516 bytes of space a read is one payload.
        "read" if !s.records().iter().any(|(k, _, _)| **k == bytes(w[1])) => "no process".into(),
        "read" => match s.maybe_launch_process(&driver_of(&bytes(w[1])), Operation::Clean, b"".as_bstr()) {
            Ok(Some(Process::MultiFile { client, .. })) => {
                let mut buf = vec![0; 65536];
                let r = client.as_read().read(&mut buf);
                read_answer(r, &buf)
            }
            _ => "no process".into(),
        },
        _ => panic!("call {}", w[0]),
    }
}

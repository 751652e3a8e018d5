//! What happened at the host in a call.
use crate::text::hex;
use gix_filter::driver::State;
use host::with;

pub(crate) struct Seen {
    sent: Vec<usize>,
    at: Vec<usize>,
    started: usize,
    gone: Vec<bool>,
}
pub(crate) fn look() -> Seen {
    with(|h| Seen {
        sent: h.scripts.iter().map(|p| p.sent.len()).collect(),
        at: h.scripts.iter().map(|p| p.at).collect(),
        started: h.order.len(),
        gone: h.scripts.iter().map(|p| p.closed).collect(),
    })
}

pub(crate) fn packets(b: &[u8]) -> Vec<Option<&[u8]>> {
    let mut v = vec![];
    let mut i = 0;
    while i + 4 <= b.len() {
        let n = usize::from_str_radix(std::str::from_utf8(&b[i..i + 4]).unwrap(), 16).unwrap();
        if n < 4 {
            v.push(None);
            i += 4
        } else {
            v.push(Some(&b[i + 4..i + n]));
            i += n
        }
    }
    v
}
/// Content is compared joined: what follows the `skip`th flush goes out again in packets of 65,516 bytes.
pub(crate) fn joined(sent: &[u8], skip: usize) -> Vec<u8> {
    let (mut out, mut content, mut flushes) = (vec![], vec![], 0);
    let put = |out: &mut Vec<u8>, d: &[u8]| {
        out.extend_from_slice(format!("{:04x}", d.len() + 4).as_bytes());
        out.extend_from_slice(d)
    };
    for p in packets(sent) {
        match p {
            Some(d) if flushes == skip => content.extend_from_slice(d),
            Some(d) => put(&mut out, d),
            None => {
                for c in content.chunks(65516) {
                    put(&mut out, c)
                }
                content.clear();
                out.extend_from_slice(b"0000");
                flushes += 1
            }
        }
    }
    for c in content.chunks(65516) {
        put(&mut out, c)
    }
    out
}
pub(crate) fn children() -> Vec<u32> {
    let me = std::process::id();
    std::fs::read_to_string(format!("/proc/self/task/{me}/children"))
        .unwrap_or_default()
        .split_whitespace()
        .map(|s| s.parse().unwrap())
        .collect()
}
pub(crate) fn was_killed(pid: u32) -> bool {
    let s = std::fs::read_to_string(format!("/proc/{pid}/status")).unwrap_or_default();
    let pending = |n: &str| {
        s.lines()
            .find_map(|l| l.strip_prefix(n))
            .and_then(|v| u64::from_str_radix(v.trim(), 16).ok())
            .is_some_and(|v| v & 0x100 != 0)
    };
    s.lines()
        .any(|l| l.starts_with("State:\tZ") || l.starts_with("State:\tX"))
        || pending("SigPnd:")
        || pending("ShdPnd:")
}
/// A server's handshake with its capability lines in order of their bytes: the Rust's order is a hash set's, new in each run.
pub(crate) fn sorted_caps(sent: &[u8]) -> Vec<u8> {
    let mut lines: Vec<Vec<u8>> = packets(sent)
        .into_iter()
        .map(|p| match p {
            None => b"0000".to_vec(),
            Some(d) => {
                let mut v = format!("{:04x}", d.len() + 4).into_bytes();
                v.extend_from_slice(d);
                v
            }
        })
        .collect();
    let first = lines
        .iter()
        .position(|l| l.get(4..).is_some_and(|d| d.starts_with(b"capability=")));
    if let Some(first) = first {
        let last = lines.iter().rposition(|l| l != b"0000").unwrap();
        lines[first..=last].sort_by(|a, b| a[4..].cmp(&b[4..]));
    }
    lines.concat()
}
/// Which bytes that were sent are told otherwise than as they went: the content of an apply joined, a server's names in order.
#[derive(Clone, Copy)]
pub(crate) enum Alike {
    AsSent,
    Apply,
    Serve,
}
/// Tells what happened since `before`.
pub(crate) fn tell(out: &mut String, before: &Seen, alike: Alike) {
    with(|h| {
        for n in before.started..h.order.len() {
            let known: Vec<u32> = h.scripts.iter().map(|p| p.pid).collect();
            if let Some(c) = children().into_iter().find(|c| !known.contains(c)) {
                h.scripts[h.order[n]].pid = c
            }
            out.push_str(&format!("start {n}\n"));
        }
        for (n, &i) in h.order.iter().enumerate() {
            let p = &h.scripts[i];
            if p.sent.len() > before.sent[i] {
                let b = &p.sent[before.sent[i]..];
                let b = match alike {
                    Alike::Apply => joined(b, if n >= before.started { 3 } else { 1 }),
                    Alike::Serve => sorted_caps(b),
                    Alike::AsSent => b.to_vec(),
                };
                out.push_str(&format!("sent {n} {}\n", hex(&b)));
            }
            // A server's peer was not spawned: it stays open when the server gives its streams back.
            if p.closed && !before.gone[i] && p.pid != 0 {
                out.push_str(&format!("{} {n}\n", if was_killed(p.pid) { "kill" } else { "close" }))
            }
            // Of a process that is not open nothing is kept.
            else if p.at > before.at[i] || n >= before.started {
                out.push_str(&format!("left {n} {}\n", p.waiting.len() - p.at))
            }
        }
    });
}
pub(crate) const NAMES: [&str; 3] = ["clean", "smudge", "delay"];
pub(crate) fn mask<'a>(names: &[&str], caps: impl Iterator<Item = &'a String>) -> u32 {
    caps.map(|c| 1 << names.iter().position(|n| n == c).expect("desired"))
        .fold(0, |a, b| a | b)
}
pub(crate) fn tell_records(out: &mut String, s: &State) {
    for (k, v, caps) in s.records() {
        let n = with(|h| h.order.iter().rposition(|&i| h.scripts[i].command == **k)).expect("started");
        out.push_str(&format!("record {} {n} {v} {}\n", hex(&k), mask(&NAMES, caps.iter())));
    }
}

//! Plays exchanges (README.md has the format) through gix-filter's unchanged sources, and prints what happened.
mod ends;
mod numbers;
mod seen;
mod table;
mod text;

use ends::{serve, shake};
use gix_filter::driver::State;
use host::with;
use seen::{look, tell, tell_records, Alike};
use std::io::Write;
use std::panic::{catch_unwind, AssertUnwindSafe};
use table::table_call;
use text::bytes;

extern "C" {
    fn kill(pid: i32, sig: i32) -> i32;
    fn waitpid(pid: i32, st: *mut i32, opt: i32) -> i32;
    fn close(fd: i32) -> i32;
}

fn case(lines: &[&str]) -> String {
    let real = std::env::var("ORACLE_REAL").ok();
    with(|h| {
        *h = host::Host {
            chunk: std::env::var("ORACLE_CHUNK")
                .ok()
                .and_then(|s| s.parse().ok())
                .unwrap_or(0),
            real: real.clone(),
            ..Default::default()
        }
    });
    let mut out = String::new();
    let mut s = State::default();
    let mut reading: Vec<Vec<u8>> = vec![];
    let mut it = lines.iter().peekable();
    while let Some(&&line) = it.peek() {
        let w: Vec<&str> = line.split(' ').collect();
        match w[0] {
            "case" | "#" => {
                it.next();
                out.push_str(line);
                out.push('\n')
            }
            "proc" | "peer" => {
                it.next();
                out.push_str(line);
                out.push('\n');
                let (c, w) = if w[0] == "proc" {
                    (bytes(w[1]), &w[2..])
                } else {
                    (vec![], &w[1..])
                };
                with(|h| {
                    let i = h.scripts.len();
                    h.scripts.push(host::Proc {
                        command: c,
                        ending: w[0].parse().unwrap(),
                        allowance: if w[1] == "max" { 1 << 40 } else { w[1].parse().unwrap() },
                        snag: w[2].parse().unwrap(),
                        waiting: bytes(w[3]),
                        ..Default::default()
                    });
                    if let Some(d) = &real {
                        std::fs::write(format!("{d}/{i}"), &h.scripts[i].waiting).unwrap()
                    }
                });
            }
            "serve" | "next" => {
                with(|h| {
                    h.start(b"");
                });
                if catch_unwind(AssertUnwindSafe(|| serve(&mut out, &mut it))).is_err() {
                    out.push_str("= panic\n");
                    break;
                }
            }
            _ => {
                it.next();
                let before = look();
                let a = catch_unwind(AssertUnwindSafe(|| {
                    if w[0] == "shake" {
                        shake(&w)
                    } else {
                        table_call(&mut s, &mut reading, &w)
                    }
                }))
                .unwrap_or_else(|_| "panic".into());
                out.push_str(&format!("{line}\n= {a}\n"));
                let alike = if w[0] == "apply" { Alike::Apply } else { Alike::AsSent };
                tell(&mut out, &before, alike);
                tell_records(&mut out, &s);
            }
        }
    }
    out.push_str("done\n");
    drop(s);
    with(|h| {
        for p in &h.scripts {
            if p.pid != 0 {
                unsafe {
                    kill(p.pid as i32, 9);
                    waitpid(p.pid as i32, std::ptr::null_mut(), 0);
                }
            }
        }
    });
    if std::env::var_os("ORACLE_REAL").is_some() {
        // What the player was really sent, against what went through the port.
        with(|h| {
            for (i, p) in h.scripts.iter().enumerate() {
                if p.pid != 0 {
                    let got = std::fs::read(format!("{}/{i}.got", real.as_ref().unwrap())).unwrap_or_default();
                    if !p.sent.starts_with(&got) {
                        eprintln!("player {i} was sent something else")
                    }
                }
            }
        });
    }
    out
}
/// Plays a file to stdout, closes it, records stdin, and waits to be killed.
fn player(file: &str) -> ! {
    let script = std::fs::read(file).unwrap();
    let f = file.to_string();
    let t = std::thread::spawn(move || {
        let mut o = std::io::stdout().lock();
        let _ = o.write_all(&script);
        let _ = o.flush();
        unsafe {
            close(1);
        }
    });
    let mut got = std::fs::File::create(format!("{f}.got")).unwrap();
    let _ = std::io::copy(&mut std::io::stdin().lock(), &mut got);
    let _ = t.join();
    loop {
        std::thread::sleep(std::time::Duration::from_secs(60))
    }
}
fn main() {
    let args: Vec<String> = std::env::args().collect();
    if args.get(1).map(|s| s.as_str()) == Some("--player") {
        player(&args[2])
    }
    std::panic::set_hook(Box::new(|i| eprintln!("{i}")));
    let input = std::fs::read_to_string(&args[1]).expect("cases file");
    let mut o = String::new();
    let mut cur: Vec<&str> = vec![];
    for line in input.lines().map(str::trim_end).filter(|l| !l.is_empty()) {
        if line.starts_with("case ") && !cur.is_empty() {
            o.push_str(&case(&cur));
            cur.clear()
        }
        cur.push(line);
    }
    if !cur.is_empty() {
        o.push_str(&case(&cur))
    }
    print!("{o}");
}

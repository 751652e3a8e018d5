//! A client's handshake alone, and a server.
use crate::numbers::{io_number, shake_number};
use crate::seen::{look, mask, tell, Alike};
use crate::text::{bytes, hex, text};
use gix_filter::driver::process;
use std::io::{Read, Write};

pub(crate) fn shake(w: &[&str]) -> String {
    let names: Vec<String> = if w[4] == "-" {
        vec![]
    } else {
        w[4].split(',').map(text).collect()
    };
    let names: Vec<&str> = names.iter().map(|s| s.as_str()).collect();
    let versions: Vec<usize> = if w[3] == "-" {
        vec![]
    } else {
        w[3].split(',').map(|v| v.parse().unwrap()).collect()
    };
    use std::os::unix::ffi::OsStringExt;
    let mut c: std::process::Command = gix_command::prepare(std::ffi::OsString::from_vec(bytes(w[1])))
        .stdin(std::process::Stdio::piped())
        .stdout(std::process::Stdio::piped())
        .into();
    let child = match c.spawn() {
        Ok(c) => c,
        Err(_) => return "10".into(),
    };
    match process::Client::handshake(child, &text(w[2]), &versions, &names) {
        Ok(c) => format!("0 {} {}", c.version(), mask(&names, c.capabilities().iter())),
        Err(e) => shake_number(&e).to_string(),
    }
}
pub(crate) fn server_shake(w: &[&str]) -> Result<process::Server, String> {
    let names: Vec<String> = if w[3] == "-" {
        vec![]
    } else {
        w[3].split(',').map(text).collect()
    };
    let names: Vec<&str> = names.iter().map(|s| s.as_str()).collect();
    let (kind, arg) = w[2].split_once(':').expect("choice");
    let list: Vec<usize> = arg.split(',').map(|v| v.parse().unwrap()).collect();
    let mut choice = |offered: &[usize]| match kind {
        "max" => offered.iter().copied().filter(|v| *v <= list[0]).max(),
        _ => list.iter().copied().find(|v| offered.contains(v)),
    };
    process::Server::handshake(std::io::stdin(), std::io::stdout(), &text(w[1]), &mut choice, &names).map_err(|e| {
        use process::server::handshake::Error::*;
        match e {
            Io(e) => io_number(&e).to_string(),
            Protocol { msg, .. } if msg.starts_with("Expected 'version") => "31".into(),
            Protocol { .. } => "30".into(),
            VersionMismatch { .. } => "38".into(),
        }
    })
}
pub(crate) fn next_answer(e: process::server::next_request::Error) -> String {
    use process::server::next_request::Error::*;
    match e {
        Io(e) => io_number(&e).to_string(),
        PacketlineDecode(_) => "20".into(),
        Protocol { msg, .. } if msg.starts_with("Wanted 'command") => "39".into(),
        Protocol { .. } => "40".into(),
    }
}
pub(crate) type Lines<'a> = std::iter::Peekable<std::slice::Iter<'a, &'a str>>;
pub(crate) fn serve(out: &mut String, lines: &mut Lines<'_>) {
    let mut server: Option<process::Server> = None;
    macro_rules! call {
        ($line:expr, $answer:expr) => {{
            let before = look();
            let a: String = $answer;
            out.push_str(&format!("{}\n= {a}\n", $line));
            tell(out, &before, Alike::AsSent);
        }};
    }
    while let Some(&&line) = lines.peek() {
        let w: Vec<&str> = line.split(' ').collect();
        match w[0] {
            "serve" => {
                lines.next();
                let before = look();
                let a = match server_shake(&w) {
                    // In which order the names go out is the hash set's affair: told in the order of their bytes.
                    Ok(s) => {
                        let mut c: Vec<_> = s.capabilities().iter().cloned().collect();
                        c.sort();
                        let a = format!(
                            "0 {}{}",
                            s.version(),
                            c.iter().map(|c| format!(" {}", hex(c.as_bytes()))).collect::<String>()
                        );
                        server = Some(s);
                        a
                    }
                    Err(e) => e,
                };
                out.push_str(&format!("{line}\n= {a}\n"));
                tell(out, &before, Alike::Serve);
            }
            "next" => {
                lines.next();
                let Some(s) = server.as_mut() else {
                    out.push_str(&format!("{line}\n= no server\n"));
                    continue;
                };
                let before = look();
                match s.next_request() {
                    Ok(None) => {
                        out.push_str(&format!("{line}\n= none\n"));
                        tell(out, &before, Alike::AsSent)
                    }
                    Err(e) => {
                        out.push_str(&format!("{line}\n= {}\n", next_answer(e)));
                        tell(out, &before, Alike::AsSent)
                    }
                    Ok(Some(mut req)) => {
                        let meta: String = req
                            .meta
                            .iter()
                            .map(|(k, v)| format!(" {}={}", hex(k.as_bytes()), hex(v)))
                            .collect();
                        out.push_str(&format!("{line}\n= request {}{meta}\n", hex(req.command.as_bytes())));
                        tell(out, &before, Alike::AsSent);
                        while let Some(&&line) = lines.peek() {
                            let w: Vec<&str> = line.split(' ').collect();
                            match w[0] {
                                "content" => {
                                    lines.next();
                                    call!(line, {
                                        let mut v = vec![];
                                        let r = {
                                            let mut rd = req.as_read();
                                            rd.read_to_end(&mut v)
                                        };
                                        match r {
                                            Ok(_) => format!("content {}", hex(&v)),
                                            Err(e) => io_number(&e).to_string(),
                                        }
                                    });
                                }
                                "status" => {
                                    lines.next();
                                    let st = if w[1] == "previous" {
                                        process::Status::Previous
                                    } else {
                                        process::Status::Named(text(w[1]))
                                    };
                                    call!(
                                        line,
                                        match req.write_status(st) {
                                            Ok(()) => "0".into(),
                                            Err(e) => io_number(&e).to_string(),
                                        }
                                    );
                                }
                                "write" | "flush" => {
                                    let mut wr = req.as_write();
                                    while let Some(&&line) = lines.peek() {
                                        let w: Vec<&str> = line.split(' ').collect();
                                        if w[0] != "write" {
                                            break;
                                        }
                                        lines.next();
                                        call!(
                                            line,
                                            match wr.write(&bytes(w[1])) {
                                                Ok(_) => "0".into(),
                                                Err(e) => io_number(&e).to_string(),
                                            }
                                        );
                                    }
                                    let before = look();
                                    drop(wr);
                                    if let Some(&&"flush") = lines.peek() {
                                        lines.next();
                                    }
                                    out.push_str("flush\n= 0\n"); // The drop tells no refusal.
                                    tell(out, &before, Alike::AsSent);
                                }
                                _ => break,
                            }
                        }
                    }
                }
            }
            "content" | "status" | "write" | "flush" => {
                lines.next();
                out.push_str(&format!("{line}\n= no request\n"))
            }
            _ => break,
        }
    }
}

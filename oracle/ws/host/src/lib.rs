//! What a host means (docs/HOST.md), as one scripted host that is global to the program.
//! A process: waiting bytes, an ending, an allowance and a snag; replies are empty.
use std::sync::Mutex;

#[derive(Clone, Default)]
pub struct Proc {
    pub command: Vec<u8>,
    pub waiting: Vec<u8>,
    pub at: usize,
    pub ending: u8,
    pub allowance: u64,
    pub snag: u8,
    pub started: Option<usize>, // process number
    pub ports: usize,
    pub closed: bool,
    pub sent: Vec<u8>,
    pub pid: u32,
}
#[derive(Default)]
pub struct Host {
    pub scripts: Vec<Proc>,
    pub order: Vec<usize>,
    pub current: Option<usize>,
    pub chunk: usize,
    pub real: Option<String>,
}
pub static HOST: Mutex<Option<Host>> = Mutex::new(None);
pub fn with<R>(f: impl FnOnce(&mut Host) -> R) -> R {
    let mut g = HOST.lock().unwrap_or_else(|e| e.into_inner());
    f(g.get_or_insert_with(Host::default))
}

/// The number of an I/O fault travels inside the `io::Error`.
#[derive(Debug)]
pub struct Fault(pub u8);
impl std::fmt::Display for Fault {
    fn fmt(&self, f: &mut std::fmt::Formatter<'_>) -> std::fmt::Result {
        write!(f, "fault {}", self.0)
    }
}
impl std::error::Error for Fault {}
pub fn io(n: u8) -> std::io::Error {
    use std::io::{Error, ErrorKind::*};
    match n {
        11 | 21 => Error::new(UnexpectedEof, Fault(n)),
        12 => Error::new(BrokenPipe, Fault(n)),
        _ => Error::new(Other, Fault(n)),
    }
}

impl Host {
    /// First unused script of that command; `None` means that it can't be started.
    pub fn start(&mut self, command: &[u8]) -> Option<usize> {
        let i = self
            .scripts
            .iter()
            .position(|p| p.started.is_none() && p.command == command)?;
        self.scripts[i].started = Some(self.order.len());
        self.order.push(i);
        self.current = Some(i);
        Some(i)
    }
    pub fn receive(&mut self, i: usize, out: &mut [u8]) -> Result<usize, u8> {
        let chunk = if self.chunk == 0 { usize::MAX } else { self.chunk };
        let p = &mut self.scripts[i];
        if out.is_empty() {
            return Ok(0);
        }
        if p.closed {
            return Err(12);
        }
        if p.at == p.waiting.len() {
            return Err(p.ending);
        }
        let n = out.len().min(p.waiting.len() - p.at).min(chunk);
        out[..n].copy_from_slice(&p.waiting[p.at..p.at + n]);
        p.at += n;
        Ok(n)
    }
    pub fn send(&mut self, i: usize, b: &[u8]) -> Result<(), u8> {
        let p = &mut self.scripts[i];
        if p.closed {
            return Err(12);
        }
        if b.len() as u64 > p.allowance {
            return Err(p.snag);
        }
        p.allowance -= b.len() as u64;
        p.sent.extend_from_slice(b);
        Ok(())
    }
}

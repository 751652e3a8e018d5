//! The script host of `crates/scripts` in Rust, with the same rows, tests and copies. It is global to the program, since
//! gix-filter's client holds pipes and no host, and nothing locks it: the program has one thread.
use std::cell::UnsafeCell;

#[derive(Clone, Copy)]
pub struct Part {
    pub at: usize,
    pub len: usize,
}

impl Part {
    fn slice(self, bytes: &[u8]) -> &[u8] {
        let at = self.at.min(bytes.len());
        let end = at + self.len.min(bytes.len() - at);
        &bytes[at..end]
    }
}

#[derive(Clone, Copy, Debug)]
pub enum Fault {
    Closed,
    Broken,
    Other,
}

#[derive(Clone, Copy)]
pub struct Row {
    pub command: Part,
    pub plays: Part,
    pub ending: Fault,
    pub allowance: usize,
    pub snag: Fault,
}

pub struct Script {
    bytes: &'static [u8],
    unused: [Option<Row>; 16],
    started: [Option<Row>; 16],
    count: usize,
}

impl Script {
    const fn empty() -> Script {
        Script {
            bytes: &[],
            unused: [None; 16],
            started: [None; 16],
            count: 0,
        }
    }

    fn new(bytes: &'static [u8], rows: &[Row]) -> Script {
        Script {
            bytes,
            unused: std::array::from_fn(|i| rows.get(i).copied()),
            started: [None; 16],
            count: 0,
        }
    }

    pub fn start(&mut self, command: &[u8]) -> Option<usize> {
        let number = self.count;
        if number >= 16 {
            return None;
        }
        let bytes = self.bytes;
        let is_of = |place: &Option<Row>| place.is_some_and(|row| row.command.slice(bytes) == command);
        let i = self.unused.iter().position(is_of)?;
        self.started[number] = self.unused[i].take();
        self.count = number + 1;
        Some(number)
    }

    fn playing(&self, number: usize) -> Option<Row> {
        *self.started[..self.count].get(number)?
    }

    pub fn receive(&mut self, process: usize, area: &mut [u8]) -> Result<usize, Fault> {
        if area.is_empty() {
            return Ok(0);
        }
        let row = self.playing(process).ok_or(Fault::Broken)?;
        let waiting = row.plays.slice(self.bytes);
        let n = waiting.len().min(area.len());
        if n == 0 {
            return Err(row.ending);
        }
        area[..n].copy_from_slice(&waiting[..n]);
        let plays = Part {
            at: row.plays.at + n,
            len: row.plays.len - n,
        };
        self.started[process] = Some(Row { plays, ..row });
        Ok(n)
    }

    pub fn send(&mut self, process: usize, bytes: &[u8]) -> Result<(), Fault> {
        let row = self.playing(process).ok_or(Fault::Broken)?;
        if bytes.len() > row.allowance {
            return Err(row.snag);
        }
        let allowance = row.allowance - bytes.len();
        self.started[process] = Some(Row { allowance, ..row });
        Ok(())
    }
}

struct Stage(UnsafeCell<Script>);

// SAFETY: the program has one thread.
unsafe impl Sync for Stage {}

static STAGE: Stage = Stage(UnsafeCell::new(Script::empty()));

pub fn with<R>(f: impl FnOnce(&mut Script) -> R) -> R {
    // SAFETY: one thread, and no call below comes back here.
    f(unsafe { &mut *STAGE.0.get() })
}

/// Stages a script of one process, whose command is the first byte and which plays the others, and starts it.
pub fn stage(bytes: &'static [u8]) {
    let row = Row {
        command: Part { at: 0, len: 1 },
        plays: Part {
            at: 1,
            len: bytes.len() - 1,
        },
        ending: Fault::Closed,
        allowance: usize::MAX,
        snag: Fault::Broken,
    };
    with(|script| {
        *script = Script::new(bytes, &[row]);
        script.start(b"f").expect("a row is left");
    });
}

impl From<Fault> for std::io::Error {
    fn from(fault: Fault) -> std::io::Error {
        use std::io::ErrorKind::{BrokenPipe, Other, UnexpectedEof};
        match fault {
            Fault::Closed => UnexpectedEof.into(),
            Fault::Broken => BrokenPipe.into(),
            Fault::Other => Other.into(),
        }
    }
}

//! Stand-in: `prepare(command)` asks the scripted host for the next script of that command and
//! yields a `std::process::Command` for a process that merely exists (or for a player, with real pipes).
use std::{
    ffi::OsString,
    os::unix::{ffi::OsStrExt, process::CommandExt},
    process::{Command, Stdio},
};
#[derive(Debug, Default, Clone)]
pub struct Context;
pub struct Prepare {
    command: OsString,
    io: [Option<Stdio>; 3],
}
pub fn prepare(cmd: impl Into<OsString>) -> Prepare {
    Prepare {
        command: cmd.into(),
        io: [None, None, None],
    }
}
impl Prepare {
    pub fn command_may_be_shell_script(self) -> Self {
        self
    }
    pub fn with_context(self, _: Context) -> Self {
        self
    }
    pub fn stdin(mut self, s: Stdio) -> Self {
        self.io[0] = Some(s);
        self
    }
    pub fn stdout(mut self, s: Stdio) -> Self {
        self.io[1] = Some(s);
        self
    }
    pub fn stderr(mut self, s: Stdio) -> Self {
        self.io[2] = Some(s);
        self
    }
}
extern "C" {
    fn close_range(first: u32, last: u32, flags: i32) -> i32;
    fn pause() -> i32;
    fn prctl(option: i32, value: u64) -> i32;
}

/// A process that does nothing until it is killed, or its parent ends. It runs no program, which is quicker:
/// once its files are closed, the parent takes it for started.
fn idle() -> Command {
    const PR_SET_PDEATHSIG: i32 = 1;
    const SIGKILL: u64 = 9;
    let mut c = Command::new("idle");
    // SAFETY: between fork and the endless pause nothing but system calls is made.
    unsafe {
        c.pre_exec(|| {
            prctl(PR_SET_PDEATHSIG, SIGKILL);
            close_range(0, u32::MAX, 0);
            loop {
                pause();
            }
        });
    }
    c
}

impl From<Prepare> for Command {
    fn from(p: Prepare) -> Command {
        let (i, real) = host::with(|h| (h.start(p.command.as_bytes()), h.real.clone()));
        let mut c = match (i, real) {
            (None, _) => Command::new("/nonexistent/program"),
            (Some(_), None) => idle(),
            (Some(i), Some(dir)) => {
                let mut c = Command::new(std::env::current_exe().unwrap());
                c.arg("--player").arg(format!("{dir}/{i}"));
                c
            }
        };
        let [a, b, d] = p.io;
        if let Some(s) = a {
            c.stdin(s);
        }
        if let Some(s) = b {
            c.stdout(s);
        }
        if let Some(s) = d {
            c.stderr(s);
        }
        c
    }
}

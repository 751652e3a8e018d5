//! Stand-in: whatever the command, the process that is started does nothing. What it would say and take is the host's.
use std::{
    ffi::OsString,
    process::{Command, Stdio},
};

#[derive(Debug, Default, Clone)]
pub struct Context;

pub struct Prepare(Command);

pub fn prepare(_command: impl Into<OsString>) -> Prepare {
    Prepare(Command::new("true"))
}

impl Prepare {
    pub fn command_may_be_shell_script(self) -> Self {
        self
    }
    pub fn with_context(self, _: Context) -> Self {
        self
    }
    pub fn stdin(mut self, s: Stdio) -> Self {
        self.0.stdin(s);
        self
    }
    pub fn stdout(mut self, s: Stdio) -> Self {
        self.0.stdout(s);
        self
    }
    pub fn stderr(mut self, s: Stdio) -> Self {
        self.0.stderr(s);
        self
    }
}

impl From<Prepare> for Command {
    fn from(p: Prepare) -> Command {
        p.0
    }
}

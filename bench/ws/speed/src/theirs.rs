//! gix-filter's client and its process table, over the same script host in Rust.
use crate::life::{Areas, Asks, Life};
use bstr::{BString, ByteSlice};
use gix_filter::driver::apply::{Context, Delay, MaybeDelayed};
use gix_filter::driver::process::Client;
use gix_filter::driver::{Operation, State};
use gix_filter::Driver;
use std::io::Read;
use std::process::{Child, Command, Stdio};

/// What gix-filter's client needs beside the areas, made before time is taken and let go after it: its clients own processes
/// with pipes. The processes do nothing, and nothing goes through the pipes.
pub struct Props {
    children: Vec<Child>,
    clients: Vec<Client>,
    table: State,
    pub paths: Vec<BString>,
}

impl Props {
    pub fn new(life: &Life, areas: &mut Areas) -> Props {
        let count = match life.asks {
            Asks::Handshakes => life.times,
            Asks::Applies { .. } => 0,
            _ => 1,
        };
        let start = |_| {
            Command::new("true")
                .stdin(Stdio::piped())
                .stdout(Stdio::piped())
                .spawn()
                .expect("the program true")
        };
        let mut props = Props {
            children: (0..count).map(start).collect(),
            clients: Vec::with_capacity(count),
            table: State::default(),
            paths: vec![],
        };
        props.begin(life, areas).expect("a first answer");
        props
    }

    /// Has the process answer once, so that what a client makes only once is there before time is taken.
    fn begin(&mut self, life: &Life, areas: &mut Areas) -> Option<()> {
        match life.asks {
            Asks::Exchanges { joins, .. } => {
                let mut client = greeted(&life.script, self.children.pop()?)?;
                exchange(&mut client, &life.content, areas, joins)?;
                self.clients.push(client);
            }
            Asks::Applies { .. } => {
                stage(&life.script);
                apply(&mut self.table, &driver(), &life.content, areas)?;
            }
            Asks::Listings { .. } => {
                let mut client = greeted(&life.script, self.children.pop()?)?;
                listed(&mut client)?;
                self.clients.push(client);
            }
            Asks::Handshakes => {}
        }
        Some(())
    }

    /// Ends the processes.
    pub fn end(self) {
        for client in self.clients {
            let mut child = client.into_child();
            let _ = child.kill();
            let _ = child.wait();
        }
    }
}

fn stage(script: &[u8]) {
    // SAFETY: the script is played before the life that holds it ends, and another is staged before the next.
    host::stage(unsafe { std::mem::transmute::<&[u8], &'static [u8]>(script) });
}

/// Starts the process of a script, and shakes hands with it; it names all three names.
fn greeted(script: &[u8], child: Child) -> Option<Client> {
    stage(script);
    let client = Client::handshake(child, "git-filter", &[2], &["clean", "smudge", "delay"]).ok()?;
    (client.capabilities().len() == 3).then_some(client)
}

/// Reads a result to its end, and tells its length.
fn read_out(mut reader: impl Read, areas: &mut Areas, joins: bool) -> Option<usize> {
    let mut at = 0;
    loop {
        let room = if joins { &mut areas.out[at..] } else { &mut areas.piece[..] };
        match reader.read(room).ok()? {
            0 => return Some(at),
            n => at += n,
        }
    }
}

/// One exchange: the command, its content, its status, and its result, whose length is told.
fn exchange(client: &mut Client, content: &[u8], areas: &mut Areas, joins: bool) -> Option<usize> {
    let path = BString::from("src/driver/process/client.rs");
    let status = client
        .invoke("clean", &mut [("pathname", path)].into_iter(), &mut &content[..])
        .ok()?;
    if !status.is_success() {
        return None;
    }
    read_out(client.as_read(), areas, joins)
}

fn driver() -> Driver {
    Driver {
        name: "f".into(),
        clean: None,
        smudge: None,
        process: Some("f".into()),
        required: false,
    }
}

/// Content is applied, and its result read, whose length is told.
fn apply(table: &mut State, driver: &Driver, content: &[u8], areas: &mut Areas) -> Option<usize> {
    let context = Context {
        rela_path: b"src/driver/process/client.rs".as_bstr(),
        ref_name: None,
        treeish: None,
        blob: None,
    };
    match table.apply_delayed(driver, &mut &content[..], Operation::Clean, Delay::Forbid, context) {
        Ok(Some(MaybeDelayed::Immediate(reader))) => read_out(reader, areas, true),
        _ => None,
    }
}

/// The paths of a listing, as the table of gix-filter takes them.
fn listed(client: &mut Client) -> Option<Vec<BString>> {
    let mut paths = Vec::new();
    let status = client
        .invoke_without_content("list_available_blobs", &mut None.into_iter(), &mut |line| {
            if let Some(path) = line.strip_prefix(b"pathname=") {
                paths.push(BString::from(path));
            }
        })
        .ok()?;
    status.is_success().then_some(paths)
}

fn play(life: &Life, areas: &mut Areas, props: &mut Props) -> Option<usize> {
    match life.asks {
        Asks::Exchanges { joins, .. } => {
            let client = props.clients.last_mut()?;
            for _ in 0..life.times {
                if exchange(client, &life.content, areas, joins)? != life.content.len() {
                    return None;
                }
            }
        }
        Asks::Applies { .. } => {
            let driver = driver();
            for _ in 0..life.times {
                if apply(&mut props.table, &driver, &life.content, areas)? != life.content.len() {
                    return None;
                }
            }
        }
        Asks::Listings { paths } => {
            let client = props.clients.last_mut()?;
            for _ in 0..life.times {
                props.paths = listed(client)?;
                if props.paths.len() != paths {
                    return None;
                }
            }
        }
        Asks::Handshakes => {
            while let Some(child) = props.children.pop() {
                props.clients.push(greeted(&life.script, child)?);
            }
        }
    }
    Some(life.times)
}

/// Plays a life; how often what was asked went well.
#[no_mangle]
#[inline(never)]
pub fn life_of_theirs(life: &Life, areas: &mut Areas, props: &mut Props) -> usize {
    play(life, areas, props).unwrap_or(0)
}

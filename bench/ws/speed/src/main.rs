//! The library beside gix-filter's client, over one host in memory.
//!
//! `speed` prints the tables; `speed one SIDE ROW` plays a row's life once, for the counting of instructions.
mod heap;
mod life;
mod ours;
mod theirs;

use life::{Areas, Asks, Life, Row};
use ours::life_of_ours;
use std::hint::black_box;
use std::process::{Command, Stdio};
use std::time::{Duration, Instant};
use theirs::{life_of_theirs, Props};

/// How often each life is played; the quickest counts.
const RUNS: usize = 41;

const KIB: usize = 1 << 10;
const MIB: usize = 1 << 20;

const fn exchanges(name: &'static str, bytes: usize, joins: bool, times: usize, counted: usize) -> Row {
    Row {
        name,
        asks: Asks::Exchanges { bytes, joins },
        times,
        counted,
    }
}

const fn applies(name: &'static str, bytes: usize, times: usize, counted: usize) -> Row {
    Row {
        name,
        asks: Asks::Applies { bytes },
        times,
        counted,
    }
}

const ROWS: &[Row] = &[
    exchanges("exchange of 0 bytes", 0, true, 10_000, 1_000),
    exchanges("100 bytes, 10,000 of them", 100, true, 10_000, 1_000),
    exchanges("4 KiB", 4 * KIB, true, 64, 1_000),
    exchanges("64 KiB", 64 * KIB, true, 4, 64),
    exchanges("1 MiB", MIB, true, 4, 4),
    exchanges("64 MiB", 64 * MIB, true, 1, 1),
    exchanges("64 KiB, piece by piece", 64 * KIB, false, 4, 64),
    exchanges("1 MiB, piece by piece", MIB, false, 4, 4),
    exchanges("64 MiB, piece by piece", 64 * MIB, false, 1, 1),
    applies("apply of 0 bytes, by the table", 0, 10_000, 1_000),
    applies("4 KiB, by the table", 4 * KIB, 64, 1_000),
    applies("1 MiB, by the table", MIB, 4, 4),
    Row {
        name: "listing of 1,000 paths",
        asks: Asks::Listings { paths: 1_000 },
        times: 100,
        counted: 10,
    },
    Row {
        name: "handshake",
        asks: Asks::Handshakes,
        times: 256,
        counted: 32,
    },
];

/// What one side of a row costs: time and blocks of one life.
struct Cost {
    time: Duration,
    blocks: usize,
}

impl Cost {
    fn of(f: impl FnOnce()) -> Cost {
        let blocks = heap::blocks();
        let begun = Instant::now();
        f();
        Cost {
            time: begun.elapsed(),
            blocks: heap::blocks() - blocks,
        }
    }
}

fn play_ours(life: &Life, areas: &mut Areas) -> Cost {
    let mut went = 0;
    let cost = Cost::of(|| went = life_of_ours(life, areas));
    assert_eq!(went, life.times, "the library refused");
    cost
}

fn play_theirs(life: &Life, areas: &mut Areas) -> (Cost, Props) {
    let mut props = Props::new(life, areas);
    let mut went = 0;
    let cost = Cost::of(|| went = life_of_theirs(life, areas, &mut props));
    assert_eq!(went, life.times, "gix-filter refused");
    (cost, props)
}

/// Content and answers, each copied once.
fn play_floor(life: &Life, into: &mut [u8]) -> Cost {
    Cost::of(|| {
        for i in 0..life.times {
            for from in [&life.content[..], life.answer(i)] {
                black_box(&mut into[..from.len()]).copy_from_slice(black_box(from));
            }
        }
    })
}

/// Both sides must hold the result, or the paths, afterwards.
fn compare(life: &Life, areas: &mut Areas) {
    play_ours(life, areas);
    let ours = match life.asks {
        Asks::Exchanges { joins: true, .. } | Asks::Applies { .. } => areas.out.clone(),
        Asks::Listings { .. } => areas.text[..life.result.len()].to_vec(),
        _ => return,
    };
    areas.out.fill(1);
    let (_, props) = play_theirs(life, areas);
    let theirs = match life.asks {
        Asks::Listings { .. } => props.paths.iter().flat_map(|p| p.iter().copied()).collect(),
        _ => areas.out.clone(),
    };
    assert!(ours == life.result && theirs == life.result, "the results differ");
    props.end();
}

/// The instructions of one thing that is asked, as callgrind counts them; none where it is not there.
fn instructions(side: &str, row: &Row) -> Option<u64> {
    let ran = Command::new("valgrind")
        .args(["--tool=callgrind", "--callgrind-out-file=/dev/null"])
        .arg(format!("--toggle-collect=life_of_{side}"))
        .arg(std::env::current_exe().ok()?)
        .args(["one", side, row.name])
        // callgrind counts a copy by `rep movsb` as an instruction for each byte: without it both sides copy by vectors.
        .env("GLIBC_TUNABLES", "glibc.cpu.x86_rep_movsb_threshold=1000000000")
        .stdin(Stdio::null())
        .output()
        .ok()?;
    let said = String::from_utf8_lossy(&ran.stderr);
    let line = said.lines().find(|line| line.contains("Collected :"))?;
    let count: u64 = line.rsplit(' ').next()?.parse().ok()?;
    (count > 0).then_some(count / row.counted as u64)
}

fn one(side: &str, name: &str) {
    let row = ROWS.iter().find(|row| row.name == name).expect("a row's name");
    let life = Life::new(row.asks, row.counted);
    let mut areas = life.areas();
    match side {
        "ours" => drop(play_ours(&life, &mut areas)),
        _ => play_theirs(&life, &mut areas).1.end(),
    }
}

/// Nanoseconds with three digits that tell.
fn shown(ns: f64) -> String {
    let (n, unit) = match ns {
        n if n < 1e3 => (n, "ns"),
        n if n < 1e6 => (n / 1e3, "µs"),
        n => (n / 1e6, "ms"),
    };
    let digits = if n < 10.0 { 2 } else { usize::from(n < 100.0) };
    format!("{n:.digits$} {unit}")
}

fn counted(n: Option<u64>) -> String {
    n.map_or("-".into(), |n| {
        let digits = n.to_string();
        let mut told = String::new();
        for (i, digit) in digits.chars().enumerate() {
            if i > 0 && (digits.len() - i) % 3 == 0 {
                told.push(',');
            }
            told.push(digit);
        }
        told
    })
}

fn tables() {
    let probe = heap::blocks();
    black_box(Box::new(1));
    assert!(heap::blocks() > probe, "blocks are not counted");
    println!("| | ours | gix-filter | ratio | memcpy | instructions: ours | gix-filter | ratio | blocks: ours | gix-filter |");
    println!("|---|---|---|---|---|---|---|---|---|---|");
    let mut lines = vec![];
    for row in ROWS {
        let life = Life::new(row.asks, row.times);
        let mut areas = life.areas();
        compare(&life, &mut areas);
        let mut into = vec![1; life.content.len().max(life.each)];
        let (mut ours, mut theirs, mut floor) = (f64::MAX, f64::MAX, f64::MAX);
        let (mut our_blocks, mut their_blocks) = (0, 0);
        for _ in 0..RUNS {
            let each = |cost: &Cost| cost.time.as_nanos() as f64 / life.times as f64;
            let cost = play_ours(&life, &mut areas);
            ours = ours.min(each(&cost));
            our_blocks = our_blocks.max(cost.blocks);
            let (cost, props) = play_theirs(&life, &mut areas);
            theirs = theirs.min(each(&cost));
            their_blocks = their_blocks.max(cost.blocks);
            props.end();
            floor = floor.min(each(&play_floor(&life, &mut into)));
        }
        let (our_count, their_count) = (instructions("ours", row), instructions("theirs", row));
        let ratio = |a: f64, b: f64| format!("{:.2}", b / a);
        let counts = match (our_count, their_count) {
            (Some(a), Some(b)) => ratio(a as f64, b as f64),
            _ => "-".into(),
        };
        println!(
            "| {} | {} | {} | {} | {} | {} | {} | {} | {} | {:.1} |",
            row.name,
            shown(ours),
            shown(theirs),
            ratio(ours, theirs),
            shown(floor),
            counted(our_count),
            counted(their_count),
            counts,
            our_blocks,
            their_blocks as f64 / life.times as f64,
        );
        if let Asks::Exchanges { bytes, .. } | Asks::Applies { bytes } = row.asks {
            if bytes >= KIB {
                let kib = (bytes / KIB) as f64;
                let count = |n: Option<u64>| n.map_or("-".into(), |n| format!("{:.0}", n as f64 / kib));
                lines.push(format!(
                    "| {} | {:.1} ns | {:.1} ns | {:.1} ns | {} | {} |",
                    row.name,
                    ours / kib,
                    theirs / kib,
                    floor / kib,
                    count(our_count),
                    count(their_count),
                ));
            }
        }
    }
    println!();
    println!("| one KiB of content, with its result | ours | gix-filter | memcpy | instructions: ours | gix-filter |");
    println!("|---|---|---|---|---|---|");
    for line in lines {
        println!("{line}");
    }
}

fn main() {
    let words: Vec<String> = std::env::args().collect();
    match &words[1..] {
        [] => tables(),
        [one_, side, name] if one_ == "one" => one(side, name),
        _ => {
            eprintln!("usage: speed [one ours|theirs ROW]");
            std::process::exit(2);
        }
    }
}

//! What both sides play: a process that shakes hands, and then answers one thing again and again.

/// What a process is asked, again and again.
#[derive(Clone, Copy)]
pub enum Asks {
    /// Exchanges of so many bytes, whose result is as long; it is joined in one buffer, or taken piece by piece.
    Exchanges { bytes: usize, joins: bool },
    /// The same through a process table, joined.
    Applies { bytes: usize },
    /// Listings of so many paths.
    Listings { paths: usize },
    /// Handshakes, each with a process of its own.
    Handshakes,
}

/// A row of the table.
pub struct Row {
    pub name: &'static str,
    pub asks: Asks,
    /// How often, where time is taken.
    pub times: usize,
    /// How often, where instructions are counted.
    pub counted: usize,
}

/// All that the process of a row says, and what it is sent and must answer.
pub struct Life {
    pub asks: Asks,
    pub times: usize,
    /// The process's command, one byte, and then all that it plays.
    pub script: Vec<u8>,
    /// Where the first answer begins, and how long each is.
    pub first: usize,
    pub each: usize,
    pub content: Vec<u8>,
    /// The result, or the paths one behind the other.
    pub result: Vec<u8>,
}

/// What calls are lent.
pub struct Areas {
    pub work: Vec<u8>,
    pub status: Vec<u8>,
    /// Where results are joined.
    pub out: Vec<u8>,
    /// Where gix-filter's reader puts each piece.
    pub piece: Vec<u8>,
    /// Where the library stores paths.
    pub text: Vec<u8>,
}

const FLUSH: &[u8] = b"0000";
const MAX_DATA_LEN: usize = 65_516;

fn say(script: &mut Vec<u8>, payload: &[u8]) {
    script.extend_from_slice(format!("{:04x}", payload.len() + 4).as_bytes());
    script.extend_from_slice(payload);
}

/// Bytes whose period is a prime, so that no two packets of them are alike.
fn noise(n: usize, seed: u64) -> Vec<u8> {
    let mut x = seed;
    let block: Vec<u8> = (0..65_521)
        .map(|_| {
            x = x.wrapping_mul(6364136223846793005).wrapping_add(1442695040888963407);
            (x >> 56) as u8
        })
        .collect();
    let mut bytes = Vec::with_capacity(n);
    while bytes.len() < n {
        bytes.extend_from_slice(&block[..block.len().min(n - bytes.len())]);
    }
    bytes
}

fn path(i: usize) -> String {
    format!("some/folder/of/files/number-{i:04}.rs")
}

impl Life {
    pub fn new(asks: Asks, times: usize) -> Life {
        let (content, result) = match asks {
            Asks::Exchanges { bytes, .. } | Asks::Applies { bytes } => (noise(bytes, 1), noise(bytes, 2)),
            Asks::Listings { paths } => (vec![], (0..paths).map(path).collect::<String>().into_bytes()),
            Asks::Handshakes => (vec![], vec![]),
        };
        let mut greeting = vec![];
        for line in ["git-filter-server\n", "version=2\n"] {
            say(&mut greeting, line.as_bytes());
        }
        greeting.extend_from_slice(FLUSH);
        for name in ["clean", "smudge", "delay"] {
            say(&mut greeting, format!("capability={name}\n").as_bytes());
        }
        greeting.extend_from_slice(FLUSH);
        let mut answer = vec![];
        match asks {
            Asks::Exchanges { .. } | Asks::Applies { .. } => {
                say(&mut answer, b"status=success\n");
                answer.extend_from_slice(FLUSH);
                for part in result.chunks(MAX_DATA_LEN) {
                    say(&mut answer, part);
                }
                answer.extend_from_slice(FLUSH);
                answer.extend_from_slice(FLUSH);
            }
            Asks::Listings { paths } => {
                for i in 0..paths {
                    say(&mut answer, format!("pathname={}\n", path(i)).as_bytes());
                }
                answer.extend_from_slice(FLUSH);
                say(&mut answer, b"status=success\n");
                answer.extend_from_slice(FLUSH);
            }
            Asks::Handshakes => {}
        }
        let mut script = vec![b'f'];
        script.extend_from_slice(&greeting);
        let (first, each) = match asks {
            Asks::Handshakes => (1, greeting.len()),
            _ => (script.len(), answer.len()),
        };
        // One more than is asked for: gix-filter's client is answered once before time is taken.
        script.reserve_exact(answer.len() * (times + 1));
        for _ in 0..times + 1 {
            script.extend_from_slice(&answer);
        }
        Life {
            asks,
            times,
            script,
            first,
            each,
            content,
            result,
        }
    }

    pub fn areas(&self) -> Areas {
        Areas {
            work: vec![1; 65_520],
            status: vec![1; 128],
            out: vec![1; self.content.len()],
            piece: vec![1; 65_536],
            text: vec![1; 65_536],
        }
    }

    /// What the process answers to the `i`-th thing that it is asked.
    pub fn answer(&self, i: usize) -> &[u8] {
        let at = match self.asks {
            Asks::Handshakes => self.first,
            _ => self.first + i * self.each,
        };
        &self.script[at..at + self.each]
    }
}

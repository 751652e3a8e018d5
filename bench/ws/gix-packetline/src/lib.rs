//! Stand-in for gix-packetline, with this repository's rules for packets (docs/PROTOCOL.md), made to cost as little as its
//! interface allows: a client has one buffer for the packet that it sends and one for the payload that it reads, and neither
//! is cleared or made anew.
use bstr::BStr;

pub const MAX_LINE_LEN: usize = 65520;
pub const MAX_DATA_LEN: usize = 65516;

#[derive(Debug, Clone, Copy, PartialEq, Eq)]
pub enum PacketLineRef<'a> {
    Data(&'a [u8]),
    Flush,
    Delimiter,
    ResponseEnd,
}

pub struct TextRef<'a>(pub &'a [u8]);

impl<'a> TextRef<'a> {
    pub fn as_bstr(&self) -> &'a BStr {
        self.0.into()
    }
}

impl<'a> PacketLineRef<'a> {
    pub fn as_slice(&self) -> Option<&'a [u8]> {
        match self {
            PacketLineRef::Data(d) => Some(d),
            _ => None,
        }
    }
    pub fn as_bstr(&self) -> Option<&'a BStr> {
        self.as_slice().map(Into::into)
    }
    /// One LF at the end is not part of the text.
    pub fn as_text(&self) -> Option<TextRef<'a>> {
        self.as_slice().map(|d| TextRef(d.strip_suffix(b"\n").unwrap_or(d)))
    }
}

pub mod decode {
    /// Four bytes that are no header.
    #[derive(Debug)]
    pub struct Error;

    impl std::fmt::Display for Error {
        fn fmt(&self, f: &mut std::fmt::Formatter<'_>) -> std::fmt::Result {
            f.write_str("invalid packet header")
        }
    }

    impl std::error::Error for Error {}

    pub(crate) enum Header {
        Wanted(usize),
        Flush,
        Delimiter,
        ResponseEnd,
    }

    pub(crate) fn header(h: &[u8; 4]) -> Result<Header, Error> {
        let mut n = 0usize;
        for b in h {
            n = n * 16 + (*b as char).to_digit(16).ok_or(Error)? as usize
        }
        match n {
            0 => Ok(Header::Flush),
            1 => Ok(Header::Delimiter),
            2 => Ok(Header::ResponseEnd),
            5..=super::MAX_LINE_LEN => Ok(Header::Wanted(n - 4)),
            _ => Err(Error),
        }
    }
}

pub mod read {
    pub enum ProgressAction {
        Continue,
        Interrupt,
    }
}

pub mod blocking_io {
    use super::{decode, read::ProgressAction, PacketLineRef, MAX_DATA_LEN};
    use std::{io, marker::PhantomData};

    /// One half of a pipe, of the process that was started first: its bytes come from the host, and go there.
    pub struct Port<T> {
        _pipe: T,
        process: usize,
    }

    impl<T> Port<T> {
        fn new(pipe: T) -> Self {
            Port { _pipe: pipe, process: 0 }
        }
        fn receive_all(&mut self, out: &mut [u8]) -> io::Result<()> {
            let mut at = 0;
            while at < out.len() {
                at += host::with(|h| h.receive(self.process, &mut out[at..]))?
            }
            Ok(())
        }
        fn send(&mut self, b: &[u8]) -> io::Result<()> {
            Ok(host::with(|h| h.send(self.process, b))?)
        }
    }

    pub struct StreamingPeekableIter<T> {
        port: Port<T>,
        buf: Vec<u8>,
        delimiters: &'static [PacketLineRef<'static>],
        is_done: bool,
    }

    pub type Handler = fn(bool, &[u8]) -> ProgressAction;

    impl<T: io::Read> StreamingPeekableIter<T> {
        pub fn new(read: T, delimiters: &'static [PacketLineRef<'static>], _trace: bool) -> Self {
            StreamingPeekableIter {
                port: Port::new(read),
                buf: Vec::new(),
                delimiters,
                is_done: false,
            }
        }
        /// `None` at a delimiter, and from then on until reset.
        pub fn read_line(&mut self) -> Option<io::Result<Result<PacketLineRef<'_>, decode::Error>>> {
            if self.is_done {
                return None;
            }
            let mut h = [0; 4];
            if let Err(e) = self.port.receive_all(&mut h) {
                return Some(Err(e));
            }
            let line = match decode::header(&h) {
                Err(e) => return Some(Ok(Err(e))),
                Ok(decode::Header::Flush) => PacketLineRef::Flush,
                Ok(decode::Header::Delimiter) => PacketLineRef::Delimiter,
                Ok(decode::Header::ResponseEnd) => PacketLineRef::ResponseEnd,
                Ok(decode::Header::Wanted(n)) => {
                    if self.buf.len() < n {
                        self.buf.resize(n, 0);
                    }
                    if let Err(e) = self.port.receive_all(&mut self.buf[..n]) {
                        return Some(Err(e));
                    }
                    return Some(Ok(Ok(PacketLineRef::Data(&self.buf[..n]))));
                }
            };
            if self.delimiters.contains(&line) {
                self.is_done = true;
                return None;
            }
            Some(Ok(Ok(line)))
        }
        pub fn reset_with(&mut self, delimiters: &'static [PacketLineRef<'static>]) {
            self.delimiters = delimiters;
            self.is_done = false
        }
        pub fn as_read(&mut self) -> WithSidebands<'_, T, Handler> {
            WithSidebands {
                parent: self,
                pos: 0,
                cap: 0,
                f: PhantomData,
            }
        }
    }

    pub struct WithSidebands<'a, T: io::Read, F> {
        parent: &'a mut StreamingPeekableIter<T>,
        pos: usize,
        cap: usize,
        f: PhantomData<F>,
    }

    /// The borrowed reader gives the iterator back ready for the next section.
    impl<T: io::Read, F> Drop for WithSidebands<'_, T, F> {
        fn drop(&mut self) {
            self.parent.is_done = false
        }
    }

    impl<T: io::Read, F> WithSidebands<'_, T, F> {
        pub fn reset_with(&mut self, delimiters: &'static [PacketLineRef<'static>]) {
            self.parent.reset_with(delimiters)
        }
        pub fn read_data_line(&mut self) -> Option<io::Result<Result<PacketLineRef<'_>, decode::Error>>> {
            self.parent.read_line()
        }
        fn fill(&mut self) -> io::Result<()> {
            if self.pos >= self.cap {
                self.pos = 0;
                self.cap = 0;
                self.cap = match self.parent.read_line() {
                    None => 0,
                    Some(line) => match line?.map_err(io::Error::other)? {
                        PacketLineRef::Data(d) => d.len(),
                        _ => return Err(io::ErrorKind::UnexpectedEof.into()),
                    },
                };
            }
            Ok(())
        }
        /// One packet as text; 0 is a delimiter.
        pub fn read_line_to_string(&mut self, out: &mut String) -> io::Result<usize> {
            assert!(self.pos >= self.cap, "read-line must be used consistently");
            self.fill()?;
            let n = std::mem::take(&mut self.cap);
            out.push_str(std::str::from_utf8(&self.parent.buf[..n]).map_err(io::Error::other)?);
            Ok(n)
        }
    }

    impl<T: io::Read, F> io::Read for WithSidebands<'_, T, F> {
        fn read(&mut self, out: &mut [u8]) -> io::Result<usize> {
            self.fill()?;
            let n = out.len().min(self.cap - self.pos);
            out[..n].copy_from_slice(&self.parent.buf[self.pos..self.pos + n]);
            self.pos += n;
            Ok(n)
        }
    }

    pub struct Writer<W> {
        port: Port<W>,
        packet: Vec<u8>,
    }

    impl<W: io::Write> Writer<W> {
        pub fn new(w: W) -> Self {
            Writer {
                port: Port::new(w),
                packet: Vec::new(),
            }
        }
        pub fn inner_mut(&mut self) -> &mut Port<W> {
            &mut self.port
        }
    }

    impl<W: io::Write> io::Write for Writer<W> {
        fn write(&mut self, buf: &[u8]) -> io::Result<usize> {
            if buf.is_empty() {
                return Err(io::Error::other("an empty packet can't be written"));
            }
            for part in buf.chunks(MAX_DATA_LEN) {
                let n = part.len() + 4;
                self.packet.clear();
                self.packet
                    .extend_from_slice(&[12, 8, 4, 0].map(|shift| b"0123456789abcdef"[n >> shift & 15]));
                self.packet.extend_from_slice(part);
                self.port.send(&self.packet)?;
            }
            Ok(buf.len())
        }
        fn flush(&mut self) -> io::Result<()> {
            Ok(())
        }
    }

    pub mod encode {
        pub fn flush_to_write<W: std::io::Write>(out: &mut super::Port<W>) -> std::io::Result<()> {
            out.send(b"0000")
        }
    }
}

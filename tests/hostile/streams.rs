//! Readers and writers that are slow and break.
use std::io;
use std::io::{ErrorKind, Read, Write};

/// Gives one byte at each call. At the call of this number (the first is 0) it fails or gives none, once.
#[derive(Drop)]
pub struct BreakingReader<'a> {
    pub rest: &'a [u8],
    pub calls: u64,
    pub breaks_at: u64,
    pub fails: bool,
}

impl<'a> Read for BreakingReader<'a> {
    fn read(&mut self, buf: &mut [u8]) -> io::Result<usize> {
        let call = self.calls;
        self.calls = self.calls.saturating_add(1);
        if call == self.breaks_at && self.fails {
            return Err(io::Error::from(ErrorKind::Other));
        }
        if call == self.breaks_at {
            return Ok(0);
        }
        let room = buf.len().min(1);
        self.rest.read(&mut buf[..room])
    }
}

/// Takes one byte at each call. At the call of this number (the first is 0) it fails or takes none, once.
#[derive(Drop)]
pub struct BreakingWriter {
    pub taken: Vec<u8>,
    pub calls: u64,
    pub breaks_at: u64,
    pub fails: bool,
}

impl Write for BreakingWriter {
    fn write(&mut self, buf: &[u8]) -> io::Result<usize> {
        let call = self.calls;
        self.calls = self.calls.saturating_add(1);
        if call == self.breaks_at && self.fails {
            return Err(io::Error::from(ErrorKind::Other));
        }
        if call == self.breaks_at {
            return Ok(0);
        }
        let part = buf.len().min(1);
        self.taken.write(&buf[..part])
    }

    fn flush(&mut self) -> io::Result<()> {
        Ok(())
    }
}

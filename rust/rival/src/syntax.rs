//! The dossier's form: one pass that either finds the first faulty byte or
//! leaves behind what the row reader needs (field ends, line starts, tables).

use super::lanes;

/// What a well-formed dossier consists of.
pub struct Index {
    /// Bit `i` is set where byte `i` is a bar or the CR of a line end.
    pub ends: Vec<u64>,
    /// Offset of every line's first byte, then the dossier's length.
    pub lines: Vec<u32>,
    /// Line index (from 0) of every `\T` line.
    pub tables: Vec<u32>,
}

/// What may stand at the start of the next line.
#[derive(Clone, Copy, PartialEq)]
enum Next {
    Table,
    Labels,
    DataOrTable,
}

struct Walk<'a> {
    bytes: &'a [u8],
    index: Index,
    next: Next,
    /// Where the first field of the current line begins.
    content: usize,
    /// Marks before this offset are already dealt with.
    done: usize,
}

/// Checks the whole dossier; the error is the offset of the fault.
pub fn scan(bytes: &[u8]) -> Result<Index, usize> {
    let mut walk = Walk::begin(bytes)?;
    let blocks = bytes.chunks_exact(64);
    let rest = blocks.remainder();
    let mut base = 0;
    for block in blocks {
        walk.block(base, block.try_into().unwrap())?;
        base += 64;
    }
    if !rest.is_empty() {
        // Padding with a harmless byte: it has no mark.
        let mut last = [b' '; 64];
        last[..rest.len()].copy_from_slice(rest);
        walk.block(base, &last)?;
    }
    walk.finish()
}

impl<'a> Walk<'a> {
    fn begin(bytes: &'a [u8]) -> Result<Self, usize> {
        expect(bytes, 0, b'\\')?;
        expect(bytes, 1, b'G')?;
        let index = Index {
            ends: Vec::with_capacity(bytes.len() / 64 + 1),
            lines: Vec::with_capacity(bytes.len() / 64 + 8),
            tables: Vec::new(),
        };
        let mut walk = Walk { bytes, index, next: Next::Table, content: 2, done: 2 };
        walk.index.lines.push(0);
        Ok(walk)
    }

    #[inline(always)]
    fn block(&mut self, base: usize, block: &[u8; 64]) -> Result<(), usize> {
        let (mut ends, mut marks) = lanes::marks64(block);
        while marks != 0 {
            let bit = marks.trailing_zeros() as usize;
            marks &= marks - 1;
            let at = base + bit;
            if at < self.done {
                continue;
            }
            match block[bit] {
                b'\\' => self.escape(at)?,
                b'\r' => {
                    ends |= 1 << bit;
                    self.line_end(at)?;
                }
                _ => return Err(at),
            }
        }
        self.index.ends.push(ends);
        Ok(())
    }

    /// A backslash inside a line's content.
    #[inline(always)]
    fn escape(&mut self, at: usize) -> Result<(), usize> {
        self.done = at + 2;
        match self.bytes.get(at + 1) {
            Some(b'r' | b'n' | b'i' | b'p') => Ok(()),
            Some(b'0') => self.nothing(at),
            _ => Err(at + 1),
        }
    }

    /// `\0` has to be the whole field.
    #[inline(always)]
    fn nothing(&self, at: usize) -> Result<(), usize> {
        if at != self.content && self.bytes[at - 1] != b'|' {
            return Err(at + 1);
        }
        match self.bytes.get(at + 2) {
            Some(b'|' | b'\r') => Ok(()),
            _ => Err(at + 2),
        }
    }

    /// The CR of a line end, and the mark of the line after it.
    #[inline(always)]
    fn line_end(&mut self, at: usize) -> Result<(), usize> {
        expect(self.bytes, at + 1, b'\n')?;
        let start = at + 2;
        self.done = start;
        self.content = start;
        let line = self.index.lines.len() as u32;
        self.index.lines.push(start as u32);
        match self.next {
            Next::DataOrTable => {
                if self.bytes.get(start) == Some(&b'\\') && self.bytes.get(start + 1) == Some(&b'T') {
                    self.marked(line, start, Next::Labels);
                }
            }
            Next::Table if start == self.bytes.len() => {}
            Next::Table => {
                expect(self.bytes, start, b'\\')?;
                expect(self.bytes, start + 1, b'T')?;
                self.marked(line, start, Next::Labels);
            }
            Next::Labels => {
                expect(self.bytes, start, b'\\')?;
                expect(self.bytes, start + 1, b'L')?;
                self.marked(line, start, Next::DataOrTable);
            }
        }
        Ok(())
    }

    #[inline(always)]
    fn marked(&mut self, line: u32, start: usize, next: Next) {
        if next == Next::Labels {
            self.index.tables.push(line);
        }
        self.next = next;
        self.content = start + 2;
        self.done = start + 2;
    }

    fn finish(self) -> Result<Index, usize> {
        // A finished dossier has just begun a line at its very end; a table
        // line without labels was already found when that line began.
        let ended = self.index.lines.len() > 1 && self.index.lines.last() == Some(&(self.bytes.len() as u32));
        if ended {
            Ok(self.index)
        } else {
            Err(self.bytes.len())
        }
    }
}

#[inline(always)]
fn expect(bytes: &[u8], at: usize, wanted: u8) -> Result<(), usize> {
    if bytes.get(at) == Some(&wanted) {
        Ok(())
    } else {
        Err(at)
    }
}

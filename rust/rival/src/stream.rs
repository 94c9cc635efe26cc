//! The dossier's form where it comes in parts: from part to part no more is
//! kept than where in a line the last one ended, and which line that is.

use super::lanes;

/// Shorter parts are gone through byte by byte.
const SHORT: usize = 16;

/// What the bytes so far end with.
#[derive(Clone, Copy, PartialEq, Debug)]
pub enum At {
    /// A line end, or nothing yet.
    LineStart,
    /// A backslash that a line begins with.
    Mark,
    /// A bar, or a line's mark.
    FieldStart,
    Field,
    /// A backslash that a field begins with.
    EscapeFirst,
    Escape,
    /// `\0`.
    Nothing,
    /// A CR.
    Return,
}

/// The line that the next byte belongs to. Where it has just begun: what it has
/// to be, and `Data` may still become `Table`.
#[derive(Clone, Copy, PartialEq, Debug)]
pub enum Kind {
    Group,
    Table,
    Labels,
    Data,
}

pub const ATS: [At; 8] =
    [At::LineStart, At::Mark, At::FieldStart, At::Field, At::EscapeFirst, At::Escape, At::Nothing, At::Return];
pub const KINDS: [Kind; 4] = [Kind::Group, Kind::Table, Kind::Labels, Kind::Data];

impl Kind {
    /// The line after one of this kind.
    fn next(self) -> Kind {
        match self {
            Kind::Group => Kind::Table,
            Kind::Table => Kind::Labels,
            Kind::Labels | Kind::Data => Kind::Data,
        }
    }
}

/// The dossier may end here.
pub fn is_whole(at: At, kind: Kind) -> bool {
    at == At::LineStart && matches!(kind, Kind::Table | Kind::Data)
}

/// Goes over a part. `ended` is told of each line that ends in it: its kind, and
/// where in the part the next one begins. The error is the fault's offset.
#[inline(always)]
pub fn walk(part: &[u8], at: At, kind: Kind, ended: impl FnMut(Kind, usize)) -> Result<(At, Kind), usize> {
    let mut walk = Walk { part, at, kind, content: 0, done: 0, edge: false, ended };
    // Byte by byte to the first place inside a line: from there on the bytes
    // before a mark, and after it, are at hand.
    let mut from = 0;
    while from < part.len() && (from == 0 || !matches!(walk.at, At::FieldStart | At::Field)) {
        walk.step(from)?;
        from += 1;
    }
    if part.len() - from < SHORT {
        walk.steps(from)?;
    } else {
        walk.blocks(from)?;
    }
    Ok((walk.at, walk.kind))
}

struct Walk<'a, F> {
    part: &'a [u8],
    at: At,
    kind: Kind,
    /// Where the first field of the line begins.
    content: usize,
    /// Marks before this offset are already dealt with.
    done: usize,
    /// The part's last bytes were gone through one by one.
    edge: bool,
    ended: F,
}

impl<F: FnMut(Kind, usize)> Walk<'_, F> {
    fn steps(&mut self, from: usize) -> Result<(), usize> {
        (from..self.part.len()).try_for_each(|offset| self.step(offset))
    }

    #[inline(always)]
    fn step(&mut self, offset: usize) -> Result<(), usize> {
        let byte = self.part[offset];
        let next = match self.at {
            At::Field => plain(byte, At::Escape),
            At::FieldStart => plain(byte, At::EscapeFirst),
            At::LineStart if byte == b'\\' => Some(At::Mark),
            At::LineStart if self.kind == Kind::Data => plain(byte, At::EscapeFirst),
            At::LineStart => None,
            At::Mark => self.mark(byte),
            At::EscapeFirst => escape(byte, true),
            At::Escape => escape(byte, false),
            At::Nothing => match byte {
                b'|' => Some(At::FieldStart),
                b'\r' => Some(At::Return),
                _ => None,
            },
            At::Return if byte == b'\n' => {
                (self.ended)(self.kind, offset + 1);
                self.kind = self.kind.next();
                Some(At::LineStart)
            }
            At::Return => None,
        };
        self.at = next.ok_or(offset)?;
        Ok(())
    }

    /// The byte after a backslash that a line begins with.
    fn mark(&mut self, byte: u8) -> Option<At> {
        match (self.kind, byte) {
            (Kind::Group, b'G') | (Kind::Table, b'T') | (Kind::Labels, b'L') => Some(At::FieldStart),
            (Kind::Data, b'T') => {
                self.kind = Kind::Table;
                Some(At::FieldStart)
            }
            (Kind::Data, _) => escape(byte, true),
            _ => None,
        }
    }

    /// From inside a line to the part's end.
    #[inline(always)]
    fn blocks(&mut self, from: usize) -> Result<(), usize> {
        let part = self.part;
        self.content = if self.at == At::FieldStart { from } else { usize::MAX };
        self.done = from;
        let blocks = part[from..].chunks_exact(64);
        let rest = blocks.remainder().len();
        let mut base = from;
        for block in blocks {
            self.block(base, block.try_into().unwrap())?;
            base += 64;
        }
        if rest > 0 {
            match part.last_chunk() {
                // Some of its bytes have been dealt with.
                Some(last) => {
                    self.done = self.done.max(base);
                    self.block(part.len() - 64, last)?;
                }
                None => {
                    // Padding with a harmless byte: it has no mark.
                    let mut last = [b' '; 64];
                    last[..rest].copy_from_slice(&part[base..]);
                    self.block(base, &last)?;
                }
            }
        }
        if !self.edge {
            let first = self.content == part.len() || part[part.len() - 1] == b'|';
            self.at = if first { At::FieldStart } else { At::Field };
        }
        Ok(())
    }

    #[inline(always)]
    fn block(&mut self, base: usize, block: &[u8; 64]) -> Result<(), usize> {
        let mut marks = lanes::marks64(block).1;
        if base < self.done {
            let dealt = self.done - base;
            marks &= u64::MAX.checked_shl(dealt as u32).unwrap_or(0);
        }
        while marks != 0 {
            let bit = marks.trailing_zeros() as usize;
            marks &= marks - 1;
            let offset = base + bit;
            if offset < self.done {
                continue;
            }
            match block[bit] {
                b'\\' => self.escape(offset)?,
                b'\r' => self.line_end(offset)?,
                _ => return Err(offset),
            }
        }
        Ok(())
    }

    /// The bytes that a mark goes by are not all in this part: the rest of it
    /// byte by byte.
    #[cold]
    fn edge(&mut self, offset: usize, at: At) -> Result<(), usize> {
        self.at = at;
        self.edge = true;
        self.done = self.part.len();
        self.steps(offset)
    }

    /// Whether a field begins at a mark inside a line.
    #[inline(always)]
    fn first(&self, offset: usize) -> bool {
        offset == self.content || self.part[offset - 1] == b'|'
    }

    fn inside(&self, offset: usize) -> At {
        if self.first(offset) {
            At::FieldStart
        } else {
            At::Field
        }
    }

    /// A backslash inside a line's content.
    #[inline(always)]
    fn escape(&mut self, offset: usize) -> Result<(), usize> {
        self.done = offset + 2;
        match self.part.get(offset + 1) {
            Some(b'r' | b'n' | b'i' | b'p') => Ok(()),
            Some(b'0') if !self.first(offset) => Err(offset + 1),
            Some(b'0') => match self.part.get(offset + 2) {
                Some(b'|' | b'\r') => Ok(()),
                Some(_) => Err(offset + 2),
                None => self.edge(offset, At::FieldStart),
            },
            Some(_) => Err(offset + 1),
            None => self.edge(offset, self.inside(offset)),
        }
    }

    /// The CR of a line end, and the mark of the line after it.
    #[inline(always)]
    fn line_end(&mut self, offset: usize) -> Result<(), usize> {
        match self.part.get(offset + 1) {
            Some(b'\n') => {}
            Some(_) => return Err(offset + 1),
            None => return self.edge(offset, self.inside(offset)),
        }
        let start = offset + 2;
        (self.ended)(self.kind, start);
        self.kind = self.kind.next();
        let Some(&[first, second]) = self.part.get(start..).and_then(|rest| rest.first_chunk()) else {
            return self.edge(start, At::LineStart);
        };
        let marked = match self.kind {
            Kind::Data => first == b'\\' && second == b'T',
            _ if first != b'\\' => return Err(start),
            Kind::Table if second == b'T' => true,
            Kind::Labels if second == b'L' => true,
            _ => return Err(start + 1),
        };
        if marked && self.kind == Kind::Data {
            self.kind = Kind::Table;
        }
        self.content = start + 2 * marked as usize;
        self.done = self.content;
        Ok(())
    }
}

/// A byte of a field; a backslash makes it the escape given.
#[inline(always)]
fn plain(byte: u8, escape: At) -> Option<At> {
    match byte {
        b'|' => Some(At::FieldStart),
        b'\\' => Some(escape),
        b'\r' => Some(At::Return),
        0..32 => None,
        _ => Some(At::Field),
    }
}

/// The byte after a backslash; `\0` has to be the whole field.
#[inline(always)]
fn escape(byte: u8, first: bool) -> Option<At> {
    match byte {
        b'r' | b'n' | b'i' | b'p' => Some(At::Field),
        b'0' if first => Some(At::Nothing),
        _ => None,
    }
}

//! Reading the data lines of the wanted tables: columns by their labels, one
//! walk over each line, and refusals 4 and 5.

use super::syntax::Index;
use super::types::Field;

/// Most wanted columns of any table, and a slot where unwanted ones end up.
pub const SLOTS: usize = 32;
const UNWANTED: u8 = SLOTS as u8 - 1;

/// A wanted table: its name and its columns. Bit `i` of `optional` is set when
/// column `i` may be absent.
pub struct Wanted {
    pub table: &'static [u8],
    pub columns: &'static [&'static [u8]],
    pub optional: u32,
}

/// Why a dossier of good form is refused: a line, or a line and a column.
#[derive(Debug, PartialEq, Eq, Clone, Copy)]
pub enum Fault {
    Shape(u64),
    Type(u64, u64),
}

/// The wanted fields of one data line.
pub struct Fields<'a> {
    pub bytes: &'a [u8],
    pub spans: [(u32, u32); SLOTS],
    pub present: u32,
}

impl<'a> Fields<'a> {
    #[inline(always)]
    pub fn field(&self, column: usize) -> Field<'a> {
        let (start, end) = self.spans[column % SLOTS];
        Field::new(self.bytes, start as usize, end as usize)
    }

    /// An optional column's field, unless absent or `\0`.
    #[inline(always)]
    pub fn given(&self, column: usize) -> Option<Field<'a>> {
        if self.present >> column & 1 == 0 {
            return None;
        }
        let field = self.field(column);
        (!field.is_nothing()).then_some(field)
    }
}

/// Goes along the field ends of a line.
pub trait Ends {
    /// The next end. A line's CR is always one, so there is one to be found.
    fn next(&mut self) -> usize;
}

/// The ends of consecutive lines, as the scan has left them.
struct Indexed<'a> {
    words: &'a [u64],
    at: usize,
    word: u64,
}

impl<'a> Indexed<'a> {
    /// The ends from `offset` on.
    fn from(words: &'a [u64], offset: usize) -> Self {
        let at = offset / 64;
        let word = words.get(at).map_or(0, |w| w & (u64::MAX << (offset % 64)));
        Indexed { words, at, word }
    }
}

impl Ends for Indexed<'_> {
    #[inline(always)]
    fn next(&mut self) -> usize {
        while self.word == 0 {
            self.at += 1;
            match self.words.get(self.at) {
                Some(&word) => self.word = word,
                None => return usize::MAX,
            }
        }
        let bit = self.word.trailing_zeros() as usize;
        self.word &= self.word - 1;
        self.at * 64 + bit
    }
}

/// Where the wanted columns stand in a table's lines.
pub struct Labels {
    /// By column of the line: the wanted column's number, or `UNWANTED`.
    pub slots: Vec<u8>,
    /// By wanted column: its place in the line, from 1.
    pub places: [u32; SLOTS],
    pub present: u32,
}

impl Labels {
    /// Reads a label line; `None` if a wanted name is missing or stands twice.
    pub fn read(bytes: &[u8], ends: &mut impl Ends, start: usize, stop: usize, wanted: &Wanted) -> Option<Labels> {
        let mut labels = Labels { slots: Vec::new(), places: [0; SLOTS], present: 0 };
        let mut start = start;
        loop {
            let end = ends.next();
            let name = bytes.get(start..end)?;
            let slot = wanted.columns.iter().position(|&column| column == name);
            if let Some(slot) = slot {
                if labels.present >> slot & 1 == 1 {
                    return None;
                }
                labels.present |= 1 << slot;
                labels.places[slot] = labels.slots.len() as u32 + 1;
            }
            labels.slots.push(slot.map_or(UNWANTED, |s| s as u8));
            if end == stop {
                break;
            }
            start = end + 1;
        }
        let all = (1u32 << wanted.columns.len()) - 1;
        (labels.present | wanted.optional == all).then_some(labels)
    }

    /// The smallest place among faulty columns, given as bits.
    #[cold]
    fn first_place(&self, faults: u32) -> u64 {
        let faulty = |&slot: &usize| faults >> slot & 1 == 1;
        (0..SLOTS).filter(faulty).map(|slot| self.places[slot] as u64).min().unwrap_or(0)
    }
}

/// Splits one data line; `false` if it has not one field for each label.
#[inline(always)]
fn split(fields: &mut Fields, slots: &[u8], ends: &mut Indexed, start: usize, stop: usize) -> bool {
    let mut start = start;
    let Some((&last, others)) = slots.split_last() else {
        return false;
    };
    for &slot in others {
        let end = ends.next();
        if end >= stop {
            return false;
        }
        fields.spans[slot as usize % SLOTS] = (start as u32, end as u32);
        start = end + 1;
    }
    fields.spans[last as usize % SLOTS] = (start as u32, stop as u32);
    ends.next() == stop
}

/// Gives every row of the wanted tables to `take`, which answers with the
/// faulty columns as bits. After the first type fault rows are only counted
/// out, since a wrong shape further on goes before it.
pub fn read(
    bytes: &[u8],
    index: &Index,
    wanted: &Wanted,
    mut take: impl FnMut(&Fields, u64) -> u32,
) -> Result<(), Fault> {
    let mut fault = None;
    let lines = &index.lines;
    let count = lines.len() - 1;
    for (i, &table) in index.tables.iter().enumerate() {
        let table = table as usize;
        if !is_named(bytes, lines[table] as usize + 2, wanted.table) {
            continue;
        }
        let start = lines[table + 1] as usize + 2;
        let mut ends = Indexed::from(&index.ends, start);
        let stop = lines[table + 2] as usize - 2;
        let Some(labels) = Labels::read(bytes, &mut ends, start, stop, wanted) else {
            return Err(Fault::Shape(table as u64 + 2));
        };
        let after = index.tables.get(i + 1).map_or(count, |&t| t as usize);
        let mut fields = Fields { bytes, spans: [(0, 0); SLOTS], present: labels.present };
        for line in table + 2..after {
            let (start, stop) = (lines[line] as usize, lines[line + 1] as usize - 2);
            if !split(&mut fields, &labels.slots, &mut ends, start, stop) {
                return Err(Fault::Shape(line as u64 + 1));
            }
            if fault.is_none() {
                let faults = take(&fields, line as u64 + 1);
                if faults != 0 {
                    fault = Some(Fault::Type(line as u64 + 1, labels.first_place(faults)));
                }
            }
        }
    }
    fault.map_or(Ok(()), Err)
}

/// The name at `start` runs to the first bar or the line's end.
pub fn is_named(bytes: &[u8], start: usize, name: &[u8]) -> bool {
    let rest = &bytes[start..];
    rest.starts_with(name) && matches!(rest.get(name.len()), Some(b'|' | b'\r'))
}

//! Section 1: the dossier's form.

use std::ops::Range;

/// 1.2: what kind of line it is.
#[derive(Clone, Copy, Debug, PartialEq, Eq)]
pub enum Mark {
    Group,
    Table,
    Label,
    Data,
}

/// 1.3: a line with its fields, raw. 1.2: lines are counted from 1. Its bytes in the dossier, with its mark and its CR LF.
#[derive(Clone, Debug, PartialEq, Eq)]
pub struct Line<'a> {
    pub number: usize,
    pub mark: Mark,
    pub fields: Vec<&'a [u8]>,
    pub bytes: Range<usize>,
}

/// 1.1 to 1.6: the lines of a dossier before that of its syntax fault, and the fault's offset; all lines of a well-formed one. What stands
/// before `at` has always been the beginning of some well-formed dossier, so the fault lies at the first byte that cannot go on from there,
/// or at the length.
pub fn lines(dossier: &[u8]) -> (Vec<Line<'_>>, Option<usize>) {
    let mut lines = Vec::new();
    let mut before = None;
    let mut at = 0;
    while at < dossier.len() || before.is_none() || before == Some(Mark::Table) {
        let (mark, fields, end) = match read_line(dossier, at, before) {
            Ok(line) => line,
            Err(offset) => return (lines, Some(offset)),
        };
        lines.push(Line { number: lines.len() + 1, mark, fields, bytes: at..end });
        before = Some(mark);
        at = end;
    }
    (lines, None)
}

/// 1.2, 1.3: the line that begins here: its mark, its fields, and where the next begins.
fn read_line(dossier: &[u8], at: usize, before: Option<Mark>) -> Result<(Mark, Vec<&[u8]>, usize), usize> {
    let (mark, start) = read_mark(dossier, at, before)?;
    let (fields, end) = read_fields(dossier, start)?;
    Ok((mark, fields, end))
}

/// 1.2: which marks may stand where: first the group line, then only `\T`, after a `\T` line only `\L`, and in a table data lines or the
/// next `\T`. Gives the mark and where the line's first field begins.
fn read_mark(dossier: &[u8], at: usize, before: Option<Mark>) -> Result<(Mark, usize), usize> {
    let (mark, letter) = match before {
        None => (Mark::Group, b'G'),
        Some(Mark::Group) => (Mark::Table, b'T'),
        Some(Mark::Table) => (Mark::Label, b'L'),
        Some(Mark::Label | Mark::Data) if dossier[at..].starts_with(b"\\T") => (Mark::Table, b'T'),
        Some(Mark::Label | Mark::Data) => return Ok((Mark::Data, at)),
    };
    expect(dossier, at, b'\\')?;
    expect(dossier, at + 1, letter)?;
    Ok((mark, at + 2))
}

/// 1.6: this very byte has to stand here; else the fault is here, also where the dossier has ended.
fn expect(dossier: &[u8], at: usize, byte: u8) -> Result<(), usize> {
    if dossier.get(at) == Some(&byte) {
        Ok(())
    } else {
        Err(at)
    }
}

/// 1.3: the fields of a line, parted by bars, and where the next line begins. 1.1: CR LF ends the line.
fn read_fields(dossier: &[u8], start: usize) -> Result<(Vec<&[u8]>, usize), usize> {
    let mut fields = Vec::new();
    let mut begin = start;
    loop {
        let end = field_end(dossier, begin)?;
        fields.push(&dossier[begin..end]);
        if dossier[end] == b'\r' {
            expect(dossier, end + 1, b'\n')?;
            return Ok((fields, end + 2));
        }
        begin = end + 1;
    }
}

/// 1.4: where the field that begins here ends: at its bar or CR. A backslash needs one of its letters; `\0` needs the whole field; bytes
/// below 32 stand in line ends only (1.1).
fn field_end(dossier: &[u8], begin: usize) -> Result<usize, usize> {
    let mut at = begin;
    loop {
        match dossier.get(at) {
            Some(b'|' | b'\r') => return Ok(at),
            Some(b'\\') => match dossier.get(at + 1) {
                Some(b'r' | b'n' | b'i' | b'p') => at += 2,
                Some(b'0') if at == begin => return no_content_end(dossier, at + 2),
                _ => return Err(at + 1),
            },
            Some(32..) => at += 1,
            _ => return Err(at),
        }
    }
}

/// 1.4: behind `\0` the field ends.
fn no_content_end(dossier: &[u8], at: usize) -> Result<usize, usize> {
    match dossier.get(at) {
        Some(b'|' | b'\r') => Ok(at),
        _ => Err(at),
    }
}

/// 1.4: a field with its escapes decoded; none for "no content".
pub fn decoded(field: &[u8]) -> Option<Vec<u8>> {
    if field == b"\\0" {
        return None;
    }
    let mut bytes = Vec::new();
    let mut rest = field.iter();
    while let Some(&byte) = rest.next() {
        bytes.push(if byte == b'\\' { escaped(*rest.next()?)? } else { byte });
    }
    Some(bytes)
}

/// 1.4: the byte that a letter behind a backslash stands for.
fn escaped(letter: u8) -> Option<u8> {
    match letter {
        b'r' => Some(b'\r'),
        b'n' => Some(b'\n'),
        b'i' => Some(b'\\'),
        b'p' => Some(b'|'),
        _ => None,
    }
}

//! Refusals 2 to 5 and 15 by what caused them, and the sizes of dossiers and lines.

use super::Coverage;
use crate::call::Outcome;

impl Coverage {
    /// A dossier, which one of open or in which form, and what was said of it.
    pub(super) fn dossier(&mut self, dossier: &[u8], outcome: &Outcome, which: &str, form: u32) {
        let read = !matches!(outcome.answer[0], 1 | 2 | 18);
        self.meet_where(dossier.len() == 65_536 && read, "a dossier of 65,536 bytes is read");
        self.meet_where(dossier.len() == 65_537, "a dossier of 65,537 bytes");
        match outcome.answer[0] {
            2 => self.meet(format!("2: {which}")),
            3 => self.syntax(dossier, outcome.answer[1] as usize, which),
            4 => self.form(dossier, outcome.answer[1] as usize, which),
            5 => self.field(dossier, [outcome.answer[1] as usize, outcome.answer[2] as usize], which, form),
            15 => self.long(dossier, outcome.answer[1] as usize, which),
            _ => {}
        }
        if dossier.len() >= 4_096 && outcome.answer[0] == 0 {
            let longest = dossier.split_inclusive(|&byte| byte == b'\n').map(<[u8]>::len).max();
            self.meet_where(longest == Some(4_096), "a line of 4,096 bytes is read");
        }
    }

    fn long(&mut self, dossier: &[u8], line: usize, which: &str) {
        let bytes = dossier.split_inclusive(|&byte| byte == b'\n').nth(line - 1).expect("the line is there");
        let what = match bytes {
            [b'\\', b'G', ..] => "the group line",
            [b'\\', b'T', ..] => "a table's name",
            [b'\\', b'L', ..] => "a label line",
            _ => "a data line",
        };
        self.meet(format!("15: {which}, {what}"));
        self.meet_where(bytes.len() == 4_097, "15: a line of 4,097 bytes");
    }

    fn syntax(&mut self, dossier: &[u8], at: usize, which: &str) {
        let what = match dossier.get(at) {
            None => "its end",
            Some(0..32) => "a byte below 32",
            Some(_) if at > 0 && dossier[at - 1] == b'\\' => "behind a backslash",
            Some(_) if at > 0 && dossier[at - 1] == b'\r' => "behind CR",
            Some(_) => "another byte",
        };
        self.meet(format!("3: {which}, at {what}"));
    }

    fn form(&mut self, dossier: &[u8], line: usize, which: &str) {
        let (label, data) = lines_at(dossier, line);
        let what = match data {
            Some(fields) if fields.len() < label.len() => "a field less",
            Some(_) => "a field more",
            None if has_twice(&label) => "a name twice",
            None => "a name missing",
        };
        self.meet(format!("4: {which}, {what}"));
    }

    fn field(&mut self, dossier: &[u8], [line, column]: [usize; 2], which: &str, form: u32) {
        let (label, data) = lines_at(dossier, line);
        let data = data.expect("a field at fault stands in a data line");
        let what = match data[column - 1] {
            b"" => "empty",
            b"\\0" => "no content",
            _ => "outside its type",
        };
        let name = String::from_utf8_lossy(label[column - 1]).into_owned();
        self.other_word(form, label[column - 1], data[column - 1]);
        self.meet(format!("5: {which}, {name}"));
        self.meet(format!("5: {which}, {what}"));
        self.meet_where(column > 255, "5: in a column beyond 255");
        self.meet_where(column > 1_000, "5: in a column beyond 1,000");
        self.meet_where(line > 255, "5: in a line beyond 255");
    }
}

/// The fields of the label line of the table in which a line stands, and the line's own where it is no label line.
fn lines_at(dossier: &[u8], line: usize) -> (Vec<&[u8]>, Option<Vec<&[u8]>>) {
    let lines: Vec<&[u8]> =
        dossier.split(|&byte| byte == b'\n').map(|line| line.strip_suffix(b"\r").unwrap_or(line)).collect();
    let label = (0..line).rev().find(|&at| lines[at].starts_with(b"\\L")).expect("a label line");
    let fields = |at: usize, skip: usize| lines[at][skip..].split(|&byte| byte == b'|').collect();
    (fields(label, 2), (label != line - 1).then(|| fields(line - 1, 0)))
}

fn has_twice(names: &[&[u8]]) -> bool {
    let mut sorted = names.to_vec();
    sorted.sort();
    sorted.windows(2).any(|pair| pair[0] == pair[1] && !pair[0].is_empty())
}

//! Forms of messages, whole and in parts: which were stated, what came of it, and what of the other form stood in their dossiers.

use super::Coverage;
use crate::worlds::columns::SHOW_CANCELLED;
use crate::worlds::fields::SHOWN;

/// A form in words.
fn name(form: u32) -> &'static str {
    match form {
        0 => "the old form",
        1 => "the 8.5 form",
        _ => "an unknown form",
    }
}

impl Coverage {
    /// A message, or the end of a feed that was fed this dossier, and the first two numbers of its answer.
    pub(super) fn stated(&mut self, call: &str, form: u32, dossier: &[u8], answer: [u64; 2]) {
        match answer {
            [0, 1..=u64::MAX] => {
                self.meet(format!("{call}: accepted with rows in {}", name(form)));
                let others = labels_of(dossier, SHOW_CANCELLED[usize::from(form == 0)]);
                self.meet_where(others > 0, &format!("{call}: the other form's name, accepted"));
                self.meet_where(others > 1, &format!("{call}: the other form's name twice, accepted"));
            }
            [1, _] if form > 1 => self.meet(format!("{call}: 1 in an unknown form")),
            [18, _] => {
                self.meet(format!("18: {call}"));
                self.meet_where(form == u32::MAX, &format!("18: {call}, the largest number"));
                self.meet_where(form & 255 <= 1, &format!("18: {call}, a number whose last byte is a form"));
                self.meet_where(!dossier.ends_with(b"\r\n"), &format!("18: {call}, a dossier at fault"));
            }
            _ => {}
        }
    }

    /// A field at fault: whether it is a word of the other form.
    pub(super) fn other_word(&mut self, form: u32, name: &[u8], field: &[u8]) {
        let of_new = SHOWN.iter().any(|word| word.as_bytes() == field);
        let of_old = matches!(field, b"0" | b"1");
        let cancelled = SHOW_CANCELLED.iter().any(|column| column.as_bytes() == name);
        let other = (cancelled || name == b"Monitored") && if form == 1 { of_old } else { of_new };
        self.meet_where(other, &format!("5: a word of the other form in {}", self::name(form)));
    }
}

/// How often a name stands in the label line of a message's table that has it most often.
fn labels_of(dossier: &[u8], name: &str) -> usize {
    let lines: Vec<&[u8]> = dossier.split(|&byte| byte == b'\n').collect();
    let of_message = |pair: &&[&[u8]]| pair[0].starts_with(b"\\TDATEDPASSTIME") && pair[1].starts_with(b"\\L");
    let count = |pair: &[&[u8]]| {
        let labels = pair[1][2..].strip_suffix(b"\r").unwrap_or(&pair[1][2..]);
        labels.split(|&byte| byte == b'|').filter(|label| *label == name.as_bytes()).count()
    };
    lines.windows(2).filter(of_message).map(count).max().unwrap_or(0)
}

//! The six numbers that come back, and the refusals that reading gives.

use super::rows::Fault;
use super::syntax::{self, Index};

/// The longest dossier.
pub const DOSSIER: usize = 65_536;
/// The longest line, with its line end.
pub const LINE: usize = 4_096;

/// A refusal: number, value, second value.
#[derive(Clone, Copy)]
pub struct Refusal(pub u64, pub u64, pub u64);

impl Refusal {
    pub fn bare(number: u64) -> Refusal {
        Refusal(number, 0, 0)
    }

    /// With the counts as they were given.
    pub fn answer(self, which: u64, used: u64, rows: u64) -> [u64; 6] {
        [self.0, self.1, self.2, which, used, rows]
    }
}

impl From<Fault> for Refusal {
    fn from(fault: Fault) -> Refusal {
        match fault {
            Fault::Shape(line) => Refusal(4, line, 0),
            Fault::Type(line, column) => Refusal(5, line, column),
        }
    }
}

/// Size, form and lines of a dossier: refusals 2, 3 and 15.
pub fn form(dossier: &[u8]) -> Result<Index, Refusal> {
    if dossier.len() > DOSSIER {
        return Err(Refusal::bare(2));
    }
    let index = syntax::scan(dossier).map_err(|offset| Refusal(3, offset as u64, 0))?;
    let wide = |ends: &[u32]| (ends[1] - ends[0]) as usize > LINE;
    match index.lines.windows(2).position(wide) {
        Some(line) => Err(Refusal(15, line as u64 + 1, 0)),
        None => Ok(index),
    }
}

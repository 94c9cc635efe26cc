use std::fmt;

use layout::{PAIR, REGISTER, TEXT_WIDE};

/// Who sends a message or withdraws one.
#[derive(Clone, Copy, Debug, PartialEq, Eq, Hash)]
pub struct Sender(pub u8);

impl Sender {
    /// The desk, sender 0: it sends no rows, and withdraws anybody's message.
    pub const DESK: Sender = Sender(layout::SENDER);
}

/// Which senders send for which owners: at most 64 pairs.
///
/// ```
/// use zhemdurak::{NotAdded, Register, Sender};
///
/// let mut register = Register::new();
/// register.add(Sender(7), "CXX")?;
/// assert!(register.has(Sender(7), "CXX"));
/// assert_eq!(register.add(Sender(7), "eleven bytes"), Err(NotAdded::Owner));
/// assert_eq!(register.add(Sender::DESK, "CXX"), Err(NotAdded::Desk));
/// assert_eq!(register.len(), 1);
/// # Ok::<(), NotAdded>(())
/// ```
#[derive(Clone, Debug, Default, PartialEq, Eq)]
pub struct Register {
    bytes: Vec<u8>,
}

/// Why a pair was not added to a register.
#[derive(Clone, Copy, Debug, PartialEq, Eq)]
pub enum NotAdded {
    /// An owner is 1 to 10 bytes, each from 32 to 126.
    Owner,
    /// The desk sends nothing, so it is registered for nobody.
    Desk,
    /// The register has 64 pairs already.
    Full,
}

impl Register {
    /// A register of no pairs: nobody may send rows.
    pub fn new() -> Register {
        Register::default()
    }

    /// A register of bytes from elsewhere, taken as they are. A message refuses a register of a wrong length as
    /// [unsound](crate::Refusal::Unsound); a pair that is badly padded grants nothing.
    pub fn from_bytes(bytes: impl Into<Vec<u8>>) -> Register {
        Register { bytes: bytes.into() }
    }

    /// Registers a sender for an owner. A pair that is there already stays there once.
    pub fn add(&mut self, sender: Sender, owner: impl AsRef<[u8]>) -> Result<(), NotAdded> {
        let owner = padded(owner.as_ref()).ok_or(NotAdded::Owner)?;
        if sender == Sender::DESK {
            return Err(NotAdded::Desk);
        }
        if self.pairs().any(|pair| pair == (sender, &owner[..])) {
            return Ok(());
        }
        if self.bytes.len() + PAIR > REGISTER {
            return Err(NotAdded::Full);
        }
        self.bytes.push(sender.0);
        self.bytes.extend_from_slice(&owner);
        Ok(())
    }

    /// Whether this sender is registered for this owner.
    pub fn has(&self, sender: Sender, owner: impl AsRef<[u8]>) -> bool {
        padded(owner.as_ref()).is_some_and(|owner| self.pairs().any(|pair| pair == (sender, &owner[..])))
    }

    /// The pairs: a sender, and its owner padded with zeros.
    pub fn pairs(&self) -> impl Iterator<Item = (Sender, &[u8])> {
        self.bytes.chunks_exact(PAIR).map(|pair| (Sender(pair[0]), &pair[1..]))
    }

    /// How many pairs there are.
    pub fn len(&self) -> usize {
        self.bytes.len() / PAIR
    }

    /// Whether there are none.
    pub fn is_empty(&self) -> bool {
        self.len() == 0
    }

    /// The bytes as a message is lent them.
    pub fn as_bytes(&self) -> &[u8] {
        &self.bytes
    }
}

fn padded(text: &[u8]) -> Option<[u8; TEXT_WIDE]> {
    let fits = (1..=TEXT_WIDE).contains(&text.len()) && text.iter().all(|byte| (32..=126).contains(byte));
    let mut padded = [0; TEXT_WIDE];
    padded[..text.len().min(TEXT_WIDE)].copy_from_slice(&text[..text.len().min(TEXT_WIDE)]);
    fits.then_some(padded)
}

impl fmt::Display for NotAdded {
    fn fmt(&self, f: &mut fmt::Formatter) -> fmt::Result {
        f.write_str(match self {
            NotAdded::Owner => "an owner is 1 to 10 bytes, each from 32 to 126",
            NotAdded::Desk => "the desk is registered for nobody",
            NotAdded::Full => "the register has 64 pairs already",
        })
    }
}

impl std::error::Error for NotAdded {}

#[cfg(test)]
mod tests {
    use super::*;

    #[test]
    fn sixty_four_pairs_and_no_more() {
        let mut register = Register::new();
        for sender in 1..=64 {
            assert_eq!(register.add(Sender(sender), "CXX"), Ok(()));
        }
        assert_eq!(register.add(Sender(65), "CXX"), Err(NotAdded::Full));
        assert_eq!(register.add(Sender(64), "CXX"), Ok(()));
        assert_eq!((register.len(), register.as_bytes().len()), (64, REGISTER));
        assert!(!register.has(Sender(65), "CXX") && !register.has(Sender(1), "CX"));
        for owner in [&b""[..], b"\0", b"A\0", b"\x1f", b"\x7f", b"01234567890"] {
            assert_eq!(Register::new().add(Sender(1), owner), Err(NotAdded::Owner));
        }
        assert_eq!(Register::new().add(Sender(1), " 23456789~"), Ok(()));
    }
}

//! Copies of what a call is lent, each at an edge of its own memory, so that a byte beside it cannot be touched unseen.

use std::marker::PhantomData;

use crate::pages::{Pages, Plain};

/// So many numbers beside what is lent must stay where no page guards it.
const BESIDE: usize = 64;

/// Where in its memory a copy stands. Nothing may depend on it.
#[derive(Clone, Copy)]
pub enum Edge {
    /// The byte behind it may not be read.
    Behind,
    /// The byte before it may not be read.
    Before,
    /// So many numbers further, with some on both sides that must stay.
    Inside(usize),
}

impl Edge {
    /// Of a job's shift, 0 to 7.
    pub fn of(shift: usize) -> Edge {
        match shift % 8 {
            0..=3 => Edge::Behind,
            4 => Edge::Before,
            inside => Edge::Inside(inside),
        }
    }
}

/// Memory for one piece after the other, made larger where one does not fit.
pub struct Room<T> {
    pages: Pages,
    from: usize,
    to: usize,
    kind: PhantomData<T>,
}

impl<T: Plain> Default for Room<T> {
    fn default() -> Room<T> {
        Room { pages: Pages::new(1), from: 0, to: 0, kind: PhantomData }
    }
}

impl<T: Plain> Room<T> {
    /// Copies the content to an edge and lends the copy.
    pub fn lend(&mut self, content: &[T], edge: Edge) -> &mut [T] {
        let least = content.len() + 2 * BESIDE + 8;
        if self.pages.all::<T>().len() < least {
            self.pages = Pages::new(least * size_of::<T>());
        }
        let all = self.pages.all::<T>();
        self.from = match edge {
            Edge::Behind => all.len() - content.len(),
            Edge::Before => 0,
            Edge::Inside(shift) => BESIDE + shift,
        };
        self.to = self.from + content.len();
        let (from, to) = (self.from, self.to);
        let (start, end) = (from.saturating_sub(BESIDE), (to + BESIDE).min(all.len()));
        all[start..from].fill(T::BESIDE);
        all[to..end].fill(T::BESIDE);
        all[from..to].copy_from_slice(content);
        &mut all[from..to]
    }

    /// Nothing beside what was lent was written.
    pub fn intact(&mut self) -> bool {
        let (from, to, all) = (self.from, self.to, self.pages.all::<T>());
        let (start, end) = (from.saturating_sub(BESIDE), (to + BESIDE).min(all.len()));
        all[start..from].iter().chain(&all[to..end]).all(|&number| number == T::BESIDE)
    }

    /// What was lent, as it is now.
    pub fn content(&mut self) -> &[T] {
        &self.pages.all()[self.from..self.to]
    }
}

#[cfg(test)]
mod tests {
    use super::*;

    #[test]
    fn a_write_beside_shows() {
        let mut room: Room<u8> = Room::default();
        for shift in 0..8 {
            assert_eq!(room.lend(b"lent", Edge::of(shift)), b"lent");
            assert!(room.intact() && room.content() == b"lent");
            let beside = if room.from > 0 { room.from - 1 } else { room.to };
            room.pages.all::<u8>()[beside] = 0;
            assert!(!room.intact());
        }
        assert_eq!(room.lend(&[7; 200_000], Edge::Behind).len(), 200_000);
        assert!(room.intact());
    }

    #[test]
    fn the_same_for_places() {
        let mut room: Room<u32> = Room::default();
        for shift in 0..8 {
            assert_eq!(room.lend(&[1, 2], Edge::of(shift)), [1, 2]);
            assert!(room.intact() && room.content() == [1, 2]);
        }
    }
}

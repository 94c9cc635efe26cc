//! Finding keys in records of one length that are sorted by key.

use super::passage::Key;

pub struct Sorted<'a> {
    bytes: &'a [u8],
    stride: usize,
    /// Where the key begins in a record.
    skip: usize,
    count: usize,
    /// Keys asked for one after another often stand behind each other here
    /// too, so the record after the last one found is tried first.
    guess: usize,
}

impl<'a> Sorted<'a> {
    pub fn new(bytes: &'a [u8], stride: usize, skip: usize) -> Self {
        Sorted { bytes, stride, skip, count: bytes.len() / stride, guess: 0 }
    }

    #[inline(always)]
    fn key(&self, place: usize) -> Key {
        Key::of(&self.bytes[place * self.stride + self.skip..])
    }

    /// The place of a key, or the place where it would be inserted.
    #[inline(always)]
    pub fn find(&mut self, key: &Key) -> Result<usize, usize> {
        let found =
            if self.guess < self.count && self.key(self.guess) == *key { Ok(self.guess) } else { self.search(key) };
        self.guess = found.map_or_else(|place| place, |place| place + 1);
        found
    }

    fn search(&self, key: &Key) -> Result<usize, usize> {
        let (mut low, mut high) = (0, self.count);
        while low < high {
            let middle = (low + high) / 2;
            if self.key(middle) < *key {
                low = middle + 1;
            } else {
                high = middle;
            }
        }
        if low < self.count && self.key(low) == *key {
            Ok(low)
        } else {
            Err(low)
        }
    }
}

//! A small hash index: from keys to dense numbers in order of first sight.

pub struct Dense<K> {
    pub keys: Vec<K>,
    /// Number plus one of the key in this slot, 0 if empty.
    slots: Vec<u32>,
}

impl<K: PartialEq> Dense<K> {
    /// An index for at most `most` keys.
    pub fn new(most: usize) -> Self {
        let size = (most * 2).next_power_of_two().max(4);
        Dense { keys: Vec::with_capacity(most), slots: vec![0; size] }
    }

    /// The slot of a key: either its own or the empty one where it belongs.
    #[inline(always)]
    fn slot(&self, hash: u64, key: &K) -> usize {
        let mask = self.slots.len() - 1;
        let mut slot = (hash ^ hash >> 32) as usize & mask;
        loop {
            let number = self.slots[slot] as usize;
            if number == 0 || self.keys[number - 1] == *key {
                return slot;
            }
            slot = (slot + 1) & mask;
        }
    }

    #[inline(always)]
    pub fn get(&self, hash: u64, key: &K) -> Option<usize> {
        (self.slots[self.slot(hash, key)] as usize).checked_sub(1)
    }

    #[inline(always)]
    pub fn add(&mut self, hash: u64, key: K) -> usize {
        let slot = self.slot(hash, &key);
        if self.slots[slot] == 0 {
            self.keys.push(key);
            self.slots[slot] = self.keys.len() as u32;
        }
        self.slots[slot] as usize - 1
    }
}

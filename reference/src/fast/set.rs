//! A hashed set of keys: open addressing, at most half full. Its room stays when it is filled anew.

#[derive(Default)]
pub struct Set {
    /// As many as a power of two; 0 in an empty one.
    slots: Vec<u64>,
    held: usize,
}

/// The highest bits of a product are well mixed.
fn home(slots: &[u64], key: u64) -> usize {
    let bits = slots.len().trailing_zeros();
    (key.wrapping_mul(0x9e37_79b9_7f4a_7c15) >> (64 - bits)) as usize
}

fn after(slots: &[u64], place: usize) -> usize {
    (place + 1) & (slots.len() - 1)
}

/// The first place from a key's home on whose slot is empty or as asked.
pub fn seek(slots: &[u64], key: u64, asked: impl Fn(u64) -> bool) -> usize {
    let mut place = home(slots, key);
    while slots[place] != 0 && !asked(slots[place]) {
        place = after(slots, place);
    }
    place
}

impl Set {
    pub const fn new() -> Self {
        Set { slots: Vec::new(), held: 0 }
    }

    /// Slots for so many keys, all empty, in the room that was there; the set holds nothing then.
    pub fn scratch(&mut self, keys: usize) -> &mut [u64] {
        self.held = 0;
        self.slots.clear();
        self.slots.resize((2 * keys + 2).next_power_of_two(), 0);
        &mut self.slots
    }

    /// Whether all keys, of which none is 0, are different; only then the set holds them.
    pub fn fill(&mut self, keys: impl ExactSizeIterator<Item = u64>) -> bool {
        let count = keys.len();
        let slots = self.scratch(count);
        for key in keys {
            let place = seek(slots, key, |other| other == key);
            if slots[place] == key {
                return false;
            }
            slots[place] = key;
        }
        self.held = count;
        true
    }

    pub fn holds(&self, key: u64) -> bool {
        self.slots[seek(&self.slots, key, |other| other == key)] == key
    }

    /// The key is not held.
    pub fn insert(&mut self, key: u64) {
        self.held += 1;
        if 2 * self.held > self.slots.len() {
            self.grow();
        }
        let place = seek(&self.slots, key, |_| false);
        self.slots[place] = key;
    }

    fn grow(&mut self) {
        let keys: Vec<u64> = self.slots.iter().copied().filter(|&key| key != 0).collect();
        let held = self.held;
        let slots = self.scratch(2 * held);
        for key in keys {
            let place = seek(slots, key, |_| false);
            slots[place] = key;
        }
        self.held = held;
    }

    /// The key is held. Later slots of the run move up, so that no search ends too soon.
    pub fn remove(&mut self, key: u64) {
        let slots = &mut self.slots[..];
        let mask = slots.len() - 1;
        let mut hole = seek(slots, key, |other| other == key);
        let mut place = after(slots, hole);
        while slots[place] != 0 {
            let home = home(slots, slots[place]);
            if place.wrapping_sub(home) & mask >= place.wrapping_sub(hole) & mask {
                slots[hole] = slots[place];
                hole = place;
            }
            place = after(slots, place);
        }
        slots[hole] = 0;
        self.held -= 1;
    }
}

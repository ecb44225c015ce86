//! The names visible at a point of the text: buckets of names, the nearest first.

use super::program::Declared;

const BUCKETS: usize = 256;

/// Names are given by their number in the program plus one; 0 ends a bucket.
pub struct Scope {
    nearest: [u16; BUCKETS],
    /// For each name, the next farther one of its bucket.
    farther: Vec<u16>,
}

fn bucket(name: u16) -> usize {
    usize::from(name) % BUCKETS
}

impl Scope {
    pub fn new(names: usize) -> Self {
        Scope { nearest: [0; BUCKETS], farther: vec![0; names] }
    }

    pub fn enter(&mut self, names: &[Declared], first: usize) {
        for (index, declared) in names.iter().enumerate() {
            let nearest = &mut self.nearest[bucket(declared.name)];
            self.farther[first + index] = *nearest;
            *nearest = (first + index) as u16 + 1;
        }
    }

    pub fn leave(&mut self, names: &[Declared], first: usize) {
        for (index, declared) in names.iter().enumerate().rev() {
            self.nearest[bucket(declared.name)] = self.farther[first + index];
        }
    }

    pub fn find<'a>(&self, names: &'a [Declared], name: u16) -> Option<&'a Declared> {
        let mut number = usize::from(self.nearest[bucket(name)]);
        while number != 0 {
            let declared = &names[number - 1];
            if declared.name == name {
                return Some(declared);
            }
            number = usize::from(self.farther[number - 1]);
        }
        None
    }
}

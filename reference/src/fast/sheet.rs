//! State sheet.

use super::flaw::{Flaw, Variant};
use super::machine::{Activation, Machine};
use super::program::{Block, Place, Program};
use crate::bounds::NAMES;

fn designator(address: usize) -> usize {
    address / NAMES * 64 + address % NAMES + 1
}

impl Machine<'_> {
    /// Writes the sheet and gives the count of its words.
    pub fn write<V: Variant>(&mut self, sheet: &mut [i32]) -> usize {
        self.activations[self.live].next = self.next as u16;
        let mut at = 0;
        for number in 1..=self.live {
            at += self.part::<V>(number, &mut sheet[at..]);
        }
        at
    }

    fn part<V: Variant>(&self, number: usize, sheet: &mut [i32]) -> usize {
        let Activation { block, next, .. } = self.activations[number];
        let Block { offset, first_operation, names, formals, .. } =
            self.program.blocks[usize::from(block)];
        let (names, formals) = (usize::from(names), usize::from(formals));
        sheet[0] = offset.into();
        sheet[1] = i32::from(next - first_operation) + 1;
        sheet[2] = self.encloser::<V>(number) as i32;
        let words = &self.words[number * NAMES..][..names];
        let sheet = &mut sheet[3..3 + names];
        sheet.copy_from_slice(words);
        for word in &mut sheet[..formals] {
            *word = designator(*word as usize) as i32;
        }
        3 + names
    }

    fn encloser<V: Variant>(&self, number: usize) -> usize {
        let link = self.activations[number].link.into();
        match V::FLAW {
            Some(Flaw::CallerShown) => number - 1,
            Some(Flaw::NewestShown) => self.newest(link, number - 1),
            _ => link,
        }
    }

    /// The looked-up name's designator and the links followed for it.
    pub fn looked_up(&self, name: u16) -> (u64, u64) {
        if self.live == 0 {
            return (0, 0);
        }
        let Activation { block, level, .. } = self.activations[self.live];
        match self.program.find(block, name) {
            None => (0, 0),
            Some(place) => {
                let links = usize::from(level) - place.level();
                (designator(self.address(place)) as u64, links as u64)
            }
        }
    }
}

impl Program {
    fn find(&self, mut block: u16, name: u16) -> Option<Place> {
        loop {
            if let Some(found) = self.names_of(block).iter().find(|it| it.name == name) {
                return Some(found.place);
            }
            if block == 0 {
                return None;
            }
            block = self.blocks[usize::from(block)].enclosing;
        }
    }
}

//! The names that the generator knows at a point of the text, and its choice among them.

use reference::tree::{Kind, Name};

use crate::random::Random;

/// Few names, so that inner blocks declare outer ones again; some equal in their low byte.
const NAMES: [Name; 20] =
    [1, 2, 3, 4, 5, 6, 7, 8, 9, 10, 11, 12, 13, 14, 257, 258, 513, 0, 65_534, 65_535];

#[derive(Clone, Copy, PartialEq, Eq)]
pub struct Known {
    pub name: Name,
    pub kind: Kind,
    pub formal: bool,
    /// A procedure's, or the one that a formal procedure is meant to have.
    pub signature: usize,
}

/// What a procedure asks for: kinds, and the signature that a procedure among them should have.
pub type Signature = Vec<(Kind, usize)>;

#[derive(Default)]
pub struct Names {
    blocks: Vec<Vec<Known>>,
}

impl Names {
    pub fn enter(&mut self, names: Vec<Known>) {
        self.blocks.push(names);
    }

    pub fn leave(&mut self) {
        self.blocks.pop();
    }

    /// The innermost block's first.
    pub fn visible(&self, fits: impl Fn(&Known) -> bool) -> Vec<Known> {
        let mut seen = Vec::new();
        let mut visible = Vec::new();
        for known in self.blocks.iter().rev().flatten() {
            if !seen.contains(&known.name) {
                seen.push(known.name);
                visible.extend(Some(*known).filter(|known| fits(known)));
            }
        }
        visible
    }

    /// Often one of the innermost two blocks, where wrong links show.
    pub fn choose(&self, random: &mut Random, fits: impl Fn(&Known) -> bool) -> Option<Known> {
        let visible = self.visible(fits);
        if visible.is_empty() {
            return None;
        }
        let depth = self.blocks.len() - random.below(2).min(self.blocks.len() - 1);
        let block = &self.blocks[depth - 1];
        let near: Vec<Known> = visible.iter().copied().filter(|it| block.contains(it)).collect();
        let from = if near.is_empty() || random.chance(30) { visible } else { near };
        Some(random.pick(&from))
    }
}

/// A name that is not among those taken.
pub fn new_name(random: &mut Random, taken: &mut Vec<Name>) -> Name {
    loop {
        let name = random.pick(&NAMES);
        if !taken.contains(&name) {
            taken.push(name);
            return name;
        }
    }
}

//! State sheet.

use super::prepass::Numbered;
use super::state::{Found, State};
use crate::tree::Name;

impl State<'_> {
    pub fn sheet(&self) -> Vec<i32> {
        (1..=self.activations.len()).flat_map(|number| self.part(number)).collect()
    }

    /// No link is kept, so the encloser is sought here.
    fn part(&self, number: usize) -> Vec<i32> {
        let it = self.numbered(number);
        let head = [it.block.offset, it.next, self.encloser(number)];
        let mut words = head.map(|word| word as i32).to_vec();
        words.extend(it.parameters.iter().map(|&found| self.designator(found) as i32));
        words.extend(&it.values);
        words
    }

    fn designator(&self, found: Found) -> usize {
        let formals = self.numbered(found.activation).formals.len();
        found.activation * 64 + formals + found.declaration + 1
    }

    /// The designator of a name of the script, sought from the innermost activation.
    pub fn looked_up(&self, numbered: &Numbered, name: Name) -> usize {
        let Some(innermost) = self.activations.last() else { return 0 };
        let number = numbered.number(innermost.block.offset, name);
        let found = number.and_then(|number| self.find(number, self.activations.len()));
        found.map_or(0, |found| self.designator(found))
    }
}

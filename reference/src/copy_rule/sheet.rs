//! State sheet: its words, and designators.

use super::machine::{Activation, Machine};
use crate::tree::Name;

impl Machine<'_> {
    pub fn sheet(&self) -> Vec<i32> {
        self.activations.iter().flat_map(|activation| self.part(activation)).collect()
    }

    fn part(&self, activation: &Activation) -> Vec<i32> {
        let Activation { offset, next, encloser, .. } = activation;
        let mut words = [offset, next, encloser].map(|&word| word as i32).to_vec();
        words.extend(activation.formals.iter().map(|&name| self.designator(name) as i32));
        words.extend(activation.text.declared_names().map(|name| self.value_or_zero(name)));
        words
    }

    /// Labels and procedures have no value.
    fn value_or_zero(&self, name: Name) -> i32 {
        self.values.get(&name).copied().unwrap_or(0)
    }

    fn designator(&self, name: Name) -> usize {
        let instance = self.instance(name);
        (instance.activation + 1) * 64 + instance.position + 1
    }

    /// The designator of a name of the script, taken in the innermost live block.
    pub fn looked_up(&self, name: Name) -> usize {
        let innermost = self.activations.last();
        let reading = innermost.and_then(|it| it.readings.get(&name));
        reading.map_or(0, |&name| self.designator(name))
    }
}

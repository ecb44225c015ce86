//! The search, and what a call passes (source 001, F16 and F20).

use super::state::{Denotation, Found, State};
use crate::tree::{Kind, Name};

impl State<'_> {
    /// F16: the activation's own name, or what is found from its passer, or else from its caller.
    pub fn find(&self, name: Name, from: usize) -> Option<Found> {
        if from == 0 {
            return None;
        }
        match self.numbered(from).denotation(name) {
            Some(Denotation::Parameter(found)) => Some(found),
            Some(Denotation::Declared(declaration)) => {
                Some(Found { activation: from, declaration, passer: None })
            }
            None => self.find(name, self.onward(from)),
        }
    }

    /// Where the search goes on from an activation that does not have the name: 0 from the program's.
    fn onward(&self, from: usize) -> usize {
        self.numbered(from).passer.unwrap_or(from - 1)
    }

    /// The activation in whose block that of another stands, 0 for the program's: the first such along
    /// the search, so the one at which a search for a name of that block ends.
    pub fn encloser(&self, number: usize) -> usize {
        let inner = self.numbered(number).block;
        let mut at = self.onward(number);
        while at > 0 && !self.numbered(at).block.directly_encloses(inner) {
            at = self.onward(at);
        }
        at
    }

    /// What a name of the innermost text means.
    pub fn meaning(&self, name: Name) -> Found {
        let found = self.find(name, self.activations.len());
        found.expect("the check lets only visible names be used")
    }

    /// F20: a declared procedure is first passed by the activation that does the call; one that a
    /// formal stands for keeps its passer, and variables and labels have none.
    pub fn passed(&self, name: Name) -> Found {
        let found = self.meaning(name);
        if found.passer.is_some() || self.declaration(found).kind() != Kind::Procedure {
            return found;
        }
        Found { passer: Some(self.activations.len()), ..found }
    }
}

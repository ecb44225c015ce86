//! Fit scripts: recursion that hands procedures and labels on, calls through formals, gotos
//! out of several calls, inner blocks, names declared again, loops and table work.

use reference::tree::{Block, Declaration, Declared, Formal, Kind, Name, Procedure, Statement};

use crate::names::{new_name, Known, Names, Signature};
use crate::random::Random;

/// Kept out of the random choice, so that recursion runs out of fuel and returns.
pub const ONE: Name = 40;
pub const FUEL: Name = 41;
pub const TEST: Name = 42;
pub const EXIT: Name = 43;

pub struct Generator<'r> {
    pub random: &'r mut Random,
    pub names: Names,
    /// The procedures whose bodies are being written and run out of fuel.
    pub guarded: Vec<Known>,
    /// The first is empty.
    pub signatures: Vec<Signature>,
    /// Bodies and blocks that may still be written inside a procedure of the program.
    pub blocks_left: usize,
}

pub fn program(random: &mut Random) -> Block {
    let signatures = vec![Vec::new(), signature(random), signature(random)];
    let (names, guarded) = (Names::default(), Vec::new());
    let mut generator = Generator { random, names, guarded, signatures, blocks_left: 3 };
    generator.program()
}

fn signature(random: &mut Random) -> Signature {
    use Kind::{Label, Procedure, Variable};
    let (same, other) = (random.between(1, 2), random.below(3));
    let choices: [Signature; 8] = [
        vec![(Procedure, 0)],
        vec![(Label, 0)],
        vec![(Procedure, 0), (Label, 0)],
        vec![(Label, 0), (Variable, 0)],
        vec![(Variable, 0), (Procedure, 0)],
        vec![(Procedure, 0), (Procedure, other)],
        vec![(Procedure, same), (Label, 0)],
        vec![(Variable, 0), (Label, 0), (Procedure, other)],
    ];
    choices[random.below(choices.len())].clone()
}

fn declaration(name: Name, declared: Declared) -> Declaration {
    Declaration { offset: 0, name, declared }
}

impl Generator<'_> {
    fn program(&mut self) -> Block {
        let mut taken = Vec::new();
        let mut declared = self.declared(&mut taken, &[Kind::Variable, Kind::Label], 0);
        for signature in 0..self.signatures.len() {
            declared.extend(self.declared(&mut taken, &[Kind::Procedure], signature));
        }
        let mut block = self.block(1, &[], declared, false);
        for name in [ONE, FUEL, TEST] {
            block.declarations.push(declaration(name, Declared::Variable));
        }
        let start = self.start();
        move_labels(&mut block, start.len());
        block.statements.splice(0..0, start);
        block
    }

    fn declared(&mut self, taken: &mut Vec<Name>, kinds: &[Kind], signature: usize) -> Vec<Known> {
        let known = |&kind: &Kind| Known {
            name: new_name(self.random, taken),
            kind,
            formal: false,
            signature,
        };
        kinds.iter().map(known).collect()
    }

    /// A block or body with random declarations.
    pub fn inner(&mut self, level: usize, formals: &[Known], guarded: bool) -> Block {
        let mut taken: Vec<Name> = formals.iter().map(|known| known.name).collect();
        let mut declared = Vec::new();
        for (kind, signature) in self.kinds(level, formals) {
            declared.extend(self.declared(&mut taken, &[kind], signature));
        }
        self.block(level, formals, declared, guarded)
    }

    fn kinds(&mut self, level: usize, formals: &[Known]) -> Vec<(Kind, usize)> {
        let mut kinds = vec![(Kind::Variable, 0); self.random.between(1, 2)];
        kinds.extend(vec![(Kind::Label, 0); self.random.between(0, 1)]);
        if level < 7 && self.blocks_left > 0 && self.random.chance(50) {
            kinds.push((Kind::Procedure, self.random.pick(&[0, 0, 1, 2])));
        }
        kinds.extend(self.like_formals(level, formals));
        let turn = self.random.below(kinds.len());
        kinds.rotate_left(turn);
        kinds
    }

    /// What a body can hand on to itself in place of its formals.
    fn like_formals(&mut self, level: usize, formals: &[Known]) -> Vec<(Kind, usize)> {
        let mut kinds = Vec::new();
        for formal in formals {
            let deep = formal.kind == Kind::Procedure && (level > 6 || self.blocks_left == 0);
            if formal.kind != Kind::Variable && !deep && self.random.chance(70) {
                kinds.push((formal.kind, formal.signature));
            }
        }
        kinds
    }

    fn block(
        &mut self,
        level: usize,
        formals: &[Known],
        declared: Vec<Known>,
        guarded: bool,
    ) -> Block {
        self.names.enter(formals.iter().chain(&declared).copied().collect());
        let bodies: Vec<Option<Procedure>> =
            declared.iter().map(|known| self.body_of(level, known)).collect();
        let statements = self.statements(level, guarded);
        self.names.leave();
        let mut declarations: Vec<Declaration> = declared
            .iter()
            .zip(bodies)
            .map(|(known, body)| self.declaration(known, body, &statements))
            .collect();
        if guarded {
            declarations.push(declaration(EXIT, Declared::Label(statements.len())));
        }
        Block { offset: 0, declarations, statements }
    }

    fn body_of(&mut self, level: usize, known: &Known) -> Option<Procedure> {
        if known.kind != Kind::Procedure {
            return None;
        }
        self.blocks_left =
            if level == 1 { self.random.between(1, 4) } else { self.blocks_left.saturating_sub(1) };
        let mut taken = Vec::new();
        let mut formals = Vec::new();
        for (kind, signature) in self.signatures[known.signature].clone() {
            let name = new_name(self.random, &mut taken);
            formals.push(Known { name, kind, formal: true, signature });
        }
        let guarded = known.signature != 0 || self.random.chance(15);
        self.guarded.extend(guarded.then_some(*known));
        let body = self.inner(level + 1, &formals, guarded);
        self.guarded.truncate(self.guarded.len() - usize::from(guarded));
        let record = |it: &Known| Formal { offset: 0, name: it.name, kind: it.kind };
        Some(Procedure { formals: formals.iter().map(record).collect(), body })
    }

    fn declaration(
        &mut self,
        known: &Known,
        body: Option<Procedure>,
        statements: &[Statement],
    ) -> Declaration {
        let declared = match (known.kind, body) {
            (Kind::Procedure, Some(procedure)) => Declared::Procedure(procedure),
            (Kind::Label, _) => Declared::Label(self.random.between(1, statements.len())),
            _ => Declared::Variable,
        };
        declaration(known.name, declared)
    }
}

fn move_labels(block: &mut Block, by: usize) {
    for declaration in &mut block.declarations {
        if let Declared::Label(index) = &mut declaration.declared {
            *index += by;
        }
    }
}

//! Random statements for the names that are visible.

use reference::tree::{Action, Kind, Name, Operation, Statement};

use crate::generate::{Generator, EXIT, FUEL, ONE, TEST};
use crate::names::{Known, Signature};

fn statement(action: Action) -> Statement {
    Statement { offset: 0, action }
}

fn constant(target: Name, value: i32) -> Statement {
    statement(Action::Constant { target, value })
}

fn arithmetic(target: Name, operation: Operation, left: Name, right: Name) -> Statement {
    statement(Action::Arithmetic { target, operation, left, right })
}

impl Generator<'_> {
    /// What the program begins with.
    pub fn start(&mut self) -> Vec<Statement> {
        vec![constant(ONE, 1), constant(FUEL, self.random.between(2, 8) as i32)]
    }

    /// At least one, so that every label has an index.
    pub fn statements(&mut self, level: usize, guarded: bool) -> Vec<Statement> {
        if guarded {
            return self.guarded_statements(level);
        }
        let mut statements = Vec::new();
        if level == 1 {
            statements.extend(self.call_declared().map(statement));
        }
        for _ in 0..self.random.between(1, 4) {
            self.statement(level, &mut statements);
        }
        statements
    }

    /// A call that hands names on and a use of a formal, with others around them.
    fn guarded_statements(&mut self, level: usize) -> Vec<Statement> {
        let mut statements = guard();
        self.some(level, &mut statements);
        let (call, formal) = (self.random.chance(85), self.random.chance(80));
        let formal_first = self.random.chance(25);
        if formal && formal_first {
            statements.extend(self.use_formal().map(statement));
        }
        if call {
            statements.extend(self.call_declared().map(statement));
            self.some(level, &mut statements);
        }
        if formal && !formal_first {
            statements.extend(self.use_formal().map(statement));
            self.some(level, &mut statements);
        }
        statements.push(constant(TEST, 0));
        statements
    }

    fn some(&mut self, level: usize, statements: &mut Vec<Statement>) {
        for _ in 0..self.random.below(3) {
            self.statement(level, statements);
        }
    }

    fn use_formal(&mut self) -> Option<Action> {
        let formals = self.names.visible(|known| known.formal && known.kind != Kind::Variable);
        let labels: Vec<Known> =
            formals.iter().copied().filter(|known| known.kind == Kind::Label).collect();
        if labels.is_empty() || self.random.chance(60) {
            return self.call_formal();
        }
        let label = self.random.pick(&labels).name;
        if self.random.chance(50) {
            return Some(Action::If { variable: self.variable(), label });
        }
        Some(Action::Go { label })
    }

    fn statement(&mut self, level: usize, statements: &mut Vec<Statement>) {
        let action = match self.random.below(100) {
            0..=13 => self.call_declared(),
            14..=23 => self.call_formal(),
            24..=28 => self.go(),
            29..=36 => self.go_if(),
            37..=72 => Some(self.arithmetic()),
            73..=84 => Some(self.table_work(statements)),
            85..=89 if level < 9 && self.blocks_left > 0 => {
                self.blocks_left -= 1;
                Some(Action::Block(self.inner(level + 1, &[], false)))
            }
            _ => None,
        };
        let action = action.unwrap_or_else(|| self.constant());
        statements.push(statement(action));
    }

    fn variable(&mut self) -> Name {
        let found = self.names.choose(self.random, |known| known.kind == Kind::Variable);
        found.map_or(TEST, |known| known.name)
    }

    /// Formals more often than not, since only they lead out of several calls.
    fn label(&mut self) -> Option<Name> {
        let formal = self.random.chance(60);
        let is_label = |known: &Known| known.kind == Kind::Label;
        let formals = self.names.visible(|known| is_label(known) && known.formal);
        if formal && !formals.is_empty() {
            return Some(self.random.pick(&formals).name);
        }
        self.names.choose(self.random, is_label).map(|known| known.name)
    }

    /// A procedure mostly has the signature that it should have.
    fn argument(&mut self, kind: Kind, signature: usize) -> Option<Name> {
        let strict = kind == Kind::Procedure && self.random.chance(95);
        let fits = |known: &Known| known.kind == kind && (!strict || known.signature == signature);
        self.names.choose(self.random, fits).map(|known| known.name)
    }

    fn arguments(&mut self, signature: &Signature) -> Option<Vec<Name>> {
        signature.iter().map(|&(kind, signature)| self.argument(kind, signature)).collect()
    }

    fn call(&mut self, procedures: Vec<Known>) -> Option<Action> {
        let called = procedures.get(self.random.below(procedures.len().max(1)))?;
        let arguments = self.arguments(&self.signatures[called.signature].clone())?;
        Some(Action::Call { procedure: called.name, arguments })
    }

    /// Often the one whose body this is, else one that asks for something, so that recursion
    /// hands names on.
    fn call_declared(&mut self) -> Option<Action> {
        let guarded = self.guarded.last().copied();
        let itself = self.names.visible(|known| Some(*known) == guarded);
        if !itself.is_empty() && self.random.chance(75) {
            return self.call(itself);
        }
        let is_declared = |known: &Known| known.kind == Kind::Procedure && !known.formal;
        let asking = self.names.visible(|known| is_declared(known) && known.signature != 0);
        if !asking.is_empty() && self.random.chance(80) {
            return self.call(asking);
        }
        let declared = self.names.visible(is_declared);
        self.call(declared)
    }

    fn call_formal(&mut self) -> Option<Action> {
        let formals = self.names.visible(|known| known.kind == Kind::Procedure && known.formal);
        self.call(formals)
    }

    fn go(&mut self) -> Option<Action> {
        self.label().map(|label| Action::Go { label })
    }

    fn go_if(&mut self) -> Option<Action> {
        let label = self.label()?;
        Some(Action::If { variable: self.variable(), label })
    }

    /// Often a sum with the fuel, which tells activations apart.
    fn arithmetic(&mut self) -> Action {
        let target = self.variable();
        if self.random.chance(50) {
            return Action::Arithmetic {
                target,
                operation: Operation::Plus,
                left: target,
                right: FUEL,
            };
        }
        let operation = self.random.pick(&[Operation::Plus, Operation::Minus, Operation::Less]);
        let (left, right) = (self.variable(), self.variable());
        Action::Arithmetic { target, operation, left, right }
    }

    fn constant(&mut self) -> Action {
        let value = match self.random.below(40) {
            0 => i32::MAX,
            1 => i32::MIN,
            2 => -1,
            3..=8 => 0,
            _ => self.random.between(1, 6) as i32,
        };
        Action::Constant { target: self.variable(), value }
    }

    /// Mostly with numbers set just before, from a range near the limits. Some pairs are taken out that were added just before,
    /// so that groups come and go.
    fn table_work(&mut self, statements: &mut Vec<Statement>) -> Action {
        let (group, member) = (self.variable(), self.variable());
        if self.random.chance(95) {
            let mut number = |most| match self.random.below(12) {
                0 => i32::MAX,
                _ => self.random.between(1, most) as i32,
            };
            statements.push(constant(group, number(3)));
            statements.push(constant(member, number(4)));
        }
        match self.random.below(7) {
            0 => Action::Query { target: self.variable(), group, member },
            1 => Action::Remove { group, member },
            2 => {
                statements.push(statement(Action::Add { group, member }));
                Action::Remove { group, member }
            }
            _ => Action::Add { group, member },
        }
    }
}

/// Goes to the last statement once the fuel is used up.
fn guard() -> Vec<Statement> {
    vec![
        arithmetic(FUEL, Operation::Minus, FUEL, ONE),
        arithmetic(TEST, Operation::Less, FUEL, ONE),
        statement(Action::If { variable: TEST, label: EXIT }),
    ]
}

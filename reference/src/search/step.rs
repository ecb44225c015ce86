//! One step (source 001, F9, F10 and F13 to F15): what a statement comes to, and doing it.

use super::state::{procedure, Activation, Found, State};
use crate::cause::Stop;
use crate::scope::agree;
use crate::table::Pair;
use crate::tree::{Action, Block, Declared, Kind, Name, Operation, Statement};

enum Effect<'a> {
    Enter(Activation<'a>),
    Go(Found),
    Store { variable: Found, value: i32 },
    Add(Pair),
    Remove(Pair),
    Nothing,
}

impl<'a> State<'a> {
    fn next_statement(&self) -> Option<&'a Statement> {
        let Activation { block, next, .. } = self.innermost();
        block.statements.get(next - 1)
    }

    /// Of the next statement.
    pub fn offset(&self) -> usize {
        self.next_statement().expect("only a statement stops a run").offset
    }

    /// Where there is a cause to stop, nothing has changed.
    pub fn step(&mut self) -> Result<(), Stop> {
        match self.next_statement() {
            None => {
                self.activations.pop();
            }
            Some(statement) => {
                let effect = self.effect(&statement.action)?;
                self.advance();
                self.apply(effect);
            }
        }
        Ok(())
    }

    fn effect(&self, action: &'a Action) -> Result<Effect<'a>, Stop> {
        match *action {
            Action::Block(ref block) => self.block(block),
            Action::Call { procedure, ref arguments } => self.call(procedure, arguments),
            Action::Go { label } => Ok(Effect::Go(self.meaning(label))),
            Action::If { variable, .. } if self.value(variable) == 0 => Ok(Effect::Nothing),
            Action::If { label, .. } => Ok(Effect::Go(self.meaning(label))),
            Action::Constant { target, value } => Ok(self.store(target, value)),
            Action::Arithmetic { target, operation, left, right } => {
                let result = result(operation, self.value(left), self.value(right));
                Ok(self.store(target, result.ok_or(Stop::Overflow)?))
            }
            Action::Add { group, member } => self.add(group, member),
            Action::Remove { group, member } => Ok(Effect::Remove(self.pair(group, member)?)),
            Action::Query { target, group, member } => {
                let present = self.table.find(self.pair(group, member)?).is_some();
                Ok(self.store(target, present.into()))
            }
        }
    }

    fn room(&self) -> Result<(), Stop> {
        if self.activations.len() < self.d {
            Ok(())
        } else {
            Err(Stop::Activations)
        }
    }

    fn block(&self, block: &'a Block) -> Result<Effect<'a>, Stop> {
        self.room()?;
        Ok(Effect::Enter(Activation::of_block(block)))
    }

    fn call(&self, called: Name, arguments: &[Name]) -> Result<Effect<'a>, Stop> {
        let called = self.meaning(called);
        let procedure = procedure(self.declaration(called));
        let passed: Vec<Found> = arguments.iter().map(|&name| self.passed(name)).collect();
        let kinds: Vec<Kind> = passed.iter().map(|&it| self.declaration(it).kind()).collect();
        if !agree(&procedure.formals, &kinds) {
            return Err(Stop::FormalArguments);
        }
        self.room()?;
        Ok(Effect::Enter(Activation::of_body(procedure, passed, called.passer)))
    }

    fn value(&self, variable: Name) -> i32 {
        let found = self.meaning(variable);
        self.numbered(found.activation).values[found.declaration]
    }

    fn store(&self, target: Name, value: i32) -> Effect<'a> {
        Effect::Store { variable: self.meaning(target), value }
    }

    fn pair(&self, group: Name, member: Name) -> Result<Pair, Stop> {
        let pair = (self.value(group), self.value(member));
        if pair.0 < 1 || pair.1 < 1 {
            Err(Stop::BelowOne)
        } else {
            Ok(pair)
        }
    }

    fn add(&self, group: Name, member: Name) -> Result<Effect<'a>, Stop> {
        let pair = self.pair(group, member)?;
        if self.table.find(pair).is_some() {
            Ok(Effect::Nothing)
        } else if self.table.members(pair.0) >= self.g {
            Err(Stop::GroupFull)
        } else if self.table.is_full() {
            Err(Stop::TableFull)
        } else {
            Ok(Effect::Add(pair))
        }
    }

    fn advance(&mut self) {
        let innermost = self.activations.len() - 1;
        self.activations[innermost].next += 1;
    }

    fn apply(&mut self, effect: Effect<'a>) {
        match effect {
            Effect::Enter(activation) => self.activations.push(activation),
            Effect::Go(label) => self.go(label),
            Effect::Store { variable, value } => {
                self.activations[variable.activation - 1].values[variable.declaration] = value;
            }
            Effect::Add(pair) => self.table.add(pair),
            Effect::Remove(pair) => self.table.remove(pair),
            Effect::Nothing => {}
        }
    }

    fn go(&mut self, label: Found) {
        let Declared::Label(index) = self.declaration(label).declared else {
            unreachable!("the check lets only labels be gone to")
        };
        self.activations.truncate(label.activation);
        self.activations[label.activation - 1].next = index;
    }
}

fn result(operation: Operation, left: i32, right: i32) -> Option<i32> {
    match operation {
        Operation::Plus => left.checked_add(right),
        Operation::Minus => left.checked_sub(right),
        Operation::Less => Some((left < right).into()),
    }
}

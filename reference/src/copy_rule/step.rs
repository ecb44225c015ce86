//! One step: the causes to stop and what a statement does.

use super::machine::Machine;
use crate::cause::Stop;
use crate::scope::agree;
use crate::tree::{Action, Kind, Name, Operation, Statement};

impl Machine<'_> {
    fn next_statement(&self) -> Option<&Statement> {
        let innermost = self.innermost();
        innermost.text.statements.get(innermost.next - 1)
    }

    /// Tested before the statement is begun, so that all stays as before it.
    pub fn cause_to_stop(&self) -> Option<(Stop, usize)> {
        let statement = self.next_statement()?;
        let cause = match &statement.action {
            Action::Block(_) => self.one_more_activation(),
            Action::Call { procedure, arguments } => {
                self.call(*procedure, arguments).or(self.one_more_activation())
            }
            Action::Arithmetic { operation, left, right, .. } => {
                self.result(*operation, *left, *right).is_none().then_some(Stop::Overflow)
            }
            Action::Add { group, member } => self.addition(*group, *member),
            Action::Remove { group, member } | Action::Query { group, member, .. } => {
                self.below_one(*group, *member)
            }
            Action::Go { .. } | Action::If { .. } | Action::Constant { .. } => None,
        };
        cause.map(|cause| (cause, statement.offset))
    }

    fn one_more_activation(&self) -> Option<Stop> {
        (self.activations.len() == self.d).then_some(Stop::Activations)
    }

    /// Only a call through a formal can differ: the check has judged the others.
    fn call(&self, procedure: Name, arguments: &[Name]) -> Option<Stop> {
        let kinds: Vec<Kind> = arguments.iter().map(|&name| self.kind(name)).collect();
        let formals = &self.procedure(procedure).formals;
        (!agree(formals, &kinds)).then_some(Stop::FormalArguments)
    }

    fn result(&self, operation: Operation, left: Name, right: Name) -> Option<i32> {
        let (left, right) = (self.values[&left], self.values[&right]);
        match operation {
            Operation::Plus => left.checked_add(right),
            Operation::Minus => left.checked_sub(right),
            Operation::Less => Some(i32::from(left < right)),
        }
    }

    fn below_one(&self, group: Name, member: Name) -> Option<Stop> {
        (self.values[&group] < 1 || self.values[&member] < 1).then_some(Stop::BelowOne)
    }

    fn addition(&self, group: Name, member: Name) -> Option<Stop> {
        let below_one = self.below_one(group, member);
        let pair = (self.values[&group], self.values[&member]);
        if below_one.is_some() || self.table.find(pair).is_some() {
            return below_one;
        }
        if self.table.members(pair.0) >= self.g {
            return Some(Stop::GroupFull);
        }
        self.table.is_full().then_some(Stop::TableFull)
    }

    pub fn step(&mut self) {
        match self.next_statement().cloned() {
            None => self.keep(self.activations.len() - 1),
            Some(statement) => {
                let innermost = self.activations.len() - 1;
                self.activations[innermost].next += 1;
                self.perform(&statement.action);
            }
        }
    }

    fn perform(&mut self, action: &Action) {
        match action {
            Action::Block(block) => self.enter_block(block),
            Action::Call { procedure, arguments } => self.enter_body(*procedure, arguments),
            Action::Go { label } => self.go(*label),
            Action::If { variable, label } => {
                if self.values[variable] != 0 {
                    self.go(*label);
                }
            }
            Action::Constant { target, value } => self.store(*target, *value),
            Action::Arithmetic { target, operation, left, right } => {
                let result = self.result(*operation, *left, *right);
                self.store(*target, result.expect("tested before the step"));
            }
            Action::Add { group, member } => self.table.add(self.pair(*group, *member)),
            Action::Remove { group, member } => self.table.remove(self.pair(*group, *member)),
            Action::Query { target, group, member } => {
                let present = self.table.find(self.pair(*group, *member)).is_some();
                self.store(*target, i32::from(present));
            }
        }
    }

    fn go(&mut self, label: Name) {
        let activation = self.instance(label).activation;
        let index = self.label_index(label);
        self.keep(activation + 1);
        self.activations[activation].next = index;
    }

    fn store(&mut self, target: Name, value: i32) {
        self.values.insert(target, value);
    }

    fn pair(&self, group: Name, member: Name) -> (i32, i32) {
        (self.values[&group], self.values[&member])
    }
}

//! The run: activation records with static links, a display, and a word for each name.

use super::flaw::{Flaw, Variant};
use super::members::Members;
use super::program::{Argument, Block, Declared, Operation, Place, Program};
use crate::answer::End;
use crate::bounds::{LEVELS, NAMES};
use crate::cause::Stop;

#[derive(Clone, Copy, Default)]
pub struct Activation {
    pub block: u16,
    pub level: u16,
    /// The operation to go on with when all activations above are gone.
    pub next: u16,
    /// The activation of the enclosing block; 0 for the program.
    pub link: u16,
}

pub struct Machine<'a> {
    pub program: &'a Program,
    pub members: Members<'a>,
    /// Numbered from 1; number 0 is never entered.
    pub activations: Vec<Activation>,
    pub live: usize,
    d: usize,
    /// The visible activation of each level up to the innermost one's.
    pub display: [u16; LEVELS + 1],
    /// A variable's value, a formal's address, or 0; `NAMES` places for each activation.
    pub words: Vec<i32>,
    /// Of the innermost activation.
    pub next: usize,
}

impl<'a> Machine<'a> {
    pub fn new(program: &'a Program, members: Members<'a>, d: u32) -> Self {
        let d = d as usize;
        let mut machine = Machine {
            program,
            members,
            activations: vec![Activation::default(); d + 1],
            live: 0,
            d,
            display: [0; LEVELS + 1],
            words: vec![0; (d + 1) * NAMES],
            next: 0,
        };
        machine.push(0, 0);
        machine
    }

    pub fn run<V: Variant>(&mut self, n: u32) -> (End, u32) {
        let program = self.program;
        let mut steps = 0;
        while self.live > 0 {
            if steps == n {
                return (End::Spent, steps);
            }
            if let Err(cause) = self.step::<V>(&program.operations[self.next]) {
                return (End::Stopped(cause), steps);
            }
            steps += 1;
        }
        (End::Finished, steps)
    }

    /// The byte offset of the next statement.
    pub fn offset(&self) -> u64 {
        self.program.offsets[self.next].into()
    }

    #[inline(always)]
    fn step<V: Variant>(&mut self, operation: &Operation) -> Result<(), Stop> {
        match *operation {
            Operation::Leave => {
                self.leave();
                return Ok(());
            }
            Operation::Enter { block } => return self.enter_inner(block),
            Operation::Call { body, level, arguments } => {
                return self.call_declared::<V>(body, level.into(), arguments.into());
            }
            Operation::CallFormal { procedure, arguments, count } => {
                return self.call_formal::<V>(procedure, arguments.into(), count.into());
            }
            Operation::Go { label, to } => {
                self.go::<V>(label, to);
                return Ok(());
            }
            Operation::If { variable, label, to } => {
                if self.value(variable) != 0 {
                    self.go::<V>(label, to);
                    return Ok(());
                }
            }
            Operation::Constant { target, value } => self.store(target, value),
            Operation::Plus { target, left, right } => self.plus(target, left, right)?,
            Operation::Minus { target, left, right } => self.minus(target, left, right)?,
            Operation::Less { target, left, right } => {
                self.store(target, i32::from(self.value(left) < self.value(right)));
            }
            Operation::Add { group, member } => self.add::<V>(group, member)?,
            Operation::Remove { group, member } => self.remove::<V>(group, member)?,
            Operation::Query { target, group, member } => self.query(target, group, member)?,
        }
        self.next += 1;
        Ok(())
    }

    #[inline(always)]
    fn plus(&mut self, target: Place, left: Place, right: Place) -> Result<(), Stop> {
        let sum = self.value(left).checked_add(self.value(right));
        self.store(target, sum.ok_or(Stop::Overflow)?);
        Ok(())
    }

    #[inline(always)]
    fn minus(&mut self, target: Place, left: Place, right: Place) -> Result<(), Stop> {
        let difference = self.value(left).checked_sub(self.value(right));
        self.store(target, difference.ok_or(Stop::Overflow)?);
        Ok(())
    }

    /// Where the word of the declared name that a place finally stands for lies.
    #[inline(always)]
    pub fn address(&self, place: Place) -> usize {
        let activation = usize::from(self.display[place.level()]);
        let address = activation * NAMES + place.position();
        if place.is_formal() {
            self.words[address] as usize
        } else {
            address
        }
    }

    #[inline(always)]
    fn value(&self, place: Place) -> i32 {
        self.words[self.address(place)]
    }

    #[inline(always)]
    fn store(&mut self, place: Place, value: i32) {
        let address = self.address(place);
        self.words[address] = value;
    }

    fn declared(&self, address: usize) -> &Declared {
        let block = self.activations[address / NAMES].block;
        &self.program.names_of(block)[address % NAMES]
    }

    #[inline(always)]
    fn room(&self) -> Result<(), Stop> {
        if self.live == self.d {
            Err(Stop::Activations)
        } else {
            Ok(())
        }
    }

    /// Makes the display that of an activation. Entries up to level `sure` belong to one
    /// chain of links, so below the first that fits all others do.
    #[inline(always)]
    fn display_from(&mut self, mut activation: usize, sure: usize) {
        let mut level = usize::from(self.activations[activation].level);
        while level > 0 && (level > sure || usize::from(self.display[level]) != activation) {
            self.display[level] = activation as u16;
            activation = self.activations[activation].link.into();
            level -= 1;
        }
    }

    fn level(&self) -> usize {
        self.activations[self.live].level.into()
    }

    #[inline(always)]
    fn enter_inner(&mut self, block: u16) -> Result<(), Stop> {
        self.room()?;
        self.enter(block, self.live);
        Ok(())
    }

    fn enter(&mut self, block: u16, link: usize) {
        self.activations[self.live].next = self.next as u16 + 1;
        self.push(block, link);
        let Block { names, formals, .. } = self.program.blocks[usize::from(block)];
        let first = self.live * NAMES;
        self.words[first + usize::from(formals)..first + usize::from(names)].fill(0);
    }

    fn push(&mut self, block: u16, link: usize) {
        let Block { level, first_operation, .. } = self.program.blocks[usize::from(block)];
        self.live += 1;
        self.next = first_operation.into();
        self.activations[self.live] =
            Activation { block, level: level.into(), next: first_operation, link: link as u16 };
        self.display[usize::from(level)] = self.live as u16;
    }

    fn leave(&mut self) {
        let level = self.level();
        self.live -= 1;
        self.next = self.activations[self.live].next.into();
        self.display_from(self.live, level);
    }

    #[inline(always)]
    fn call_declared<V: Variant>(
        &mut self,
        body: u16,
        level: usize,
        arguments: usize,
    ) -> Result<(), Stop> {
        self.room()?;
        let link = self.display[level].into();
        self.call::<V>(body, link, arguments);
        Ok(())
    }

    /// Arguments are read by the caller's display before it is changed.
    fn call<V: Variant>(&mut self, body: u16, link: usize, arguments: usize) {
        let program = self.program;
        let formals = usize::from(program.blocks[usize::from(body)].formals);
        let first = (self.live + 1) * NAMES;
        let arguments = &program.arguments[arguments..arguments + formals];
        for (position, Argument { place, .. }) in arguments.iter().enumerate() {
            self.words[first + position] = self.address(*place) as i32;
        }
        let link = self.link::<V>(link);
        self.display_from(link, self.level());
        self.enter(body, link);
    }

    #[inline(always)]
    fn link<V: Variant>(&self, link: usize) -> usize {
        if V::FLAW != Some(Flaw::NewestLink) {
            return link;
        }
        self.newest(link, self.live)
    }

    /// Among the first `live`, the newest activation of the block that a link's activation has.
    pub fn newest(&self, link: usize, live: usize) -> usize {
        let block = self.activations[link].block;
        (1..=live).rfind(|&newest| self.activations[newest].block == block).unwrap_or(link)
    }

    fn call_formal<V: Variant>(
        &mut self,
        procedure: Place,
        arguments: usize,
        count: usize,
    ) -> Result<(), Stop> {
        let address = self.address(procedure);
        let body = self.declared(address).detail;
        if !self.program.agree(body, arguments, count) {
            return Err(Stop::FormalArguments);
        }
        self.room()?;
        self.call::<V>(body, address / NAMES, arguments);
        Ok(())
    }

    #[inline(always)]
    fn go<V: Variant>(&mut self, label: Place, to: u16) {
        let address = self.address(label);
        let activation = address / NAMES;
        self.next = if label.is_formal() {
            let index = self.declared(address).detail;
            self.program.target(self.activations[activation].block, index).into()
        } else {
            to.into()
        };
        if activation != self.live {
            let level = self.level();
            self.live = activation;
            if V::FLAW != Some(Flaw::StaleDisplay) {
                self.display_from(activation, level);
            }
        }
    }

    #[inline(always)]
    fn pair(&self, group: Place, member: Place) -> Result<[i32; 2], Stop> {
        let (group, member) = (self.value(group), self.value(member));
        if group < 1 || member < 1 {
            Err(Stop::BelowOne)
        } else {
            Ok([group, member])
        }
    }

    fn add<V: Variant>(&mut self, group: Place, member: Place) -> Result<(), Stop> {
        let pair = self.pair(group, member)?;
        self.members.add::<V>(pair)
    }

    #[inline(always)]
    fn remove<V: Variant>(&mut self, group: Place, member: Place) -> Result<(), Stop> {
        let pair = self.pair(group, member)?;
        self.members.remove::<V>(pair);
        Ok(())
    }

    #[inline(always)]
    fn query(&mut self, target: Place, group: Place, member: Place) -> Result<(), Stop> {
        let pair = self.pair(group, member)?;
        self.store(target, i32::from(self.members.holds(pair)));
        Ok(())
    }
}

//! Second pass: causes 9 to 11 in file order, and the statements with their names resolved.

use super::marks::{word, AD, AR, BK, CL, GO, IF, KN, QY, RM};
use super::outline::Outline;
use super::program::{Argument, Block, Declared, Operation, Place, Program};
use super::scope::Scope;
use crate::bounds::LEVELS;
use crate::cause::{Refusal, Refused};
use crate::tree::Kind;

/// The structure has been judged, so every record is whole and fit.
pub fn resolve(script: &[u8], outline: Outline) -> Result<Program, Refused> {
    let scope = Scope::new(outline.names.len());
    let program = Program {
        operations: Vec::with_capacity(script.len() / 4),
        offsets: Vec::with_capacity(script.len() / 4),
        arguments: Vec::new(),
        blocks: outline.blocks,
        names: outline.names,
    };
    let mut pass = Pass { script, at: 0, next_block: 0, scope, program, path: [0; LEVELS + 1] };
    pass.block()?;
    Ok(pass.program)
}

struct Pass<'a> {
    script: &'a [u8],
    at: usize,
    next_block: usize,
    scope: Scope,
    program: Program,
    /// The enclosing block of each level.
    path: [u16; LEVELS + 1],
}

impl Pass<'_> {
    fn block(&mut self) -> Result<(), Refused> {
        let index = self.next_block;
        self.next_block += 1;
        self.at += 6;
        let operation = self.program.operations.len();
        self.program.blocks[index].first_operation = operation as u16;
        let Block { level, first_name, names, formals, statements, .. } =
            self.program.blocks[index];
        self.path[usize::from(level)] = index as u16;
        let end = operation + usize::from(statements);
        self.program.operations.resize(end + 1, Operation::Leave);
        self.program.offsets.resize(end + 1, 0);
        let first = usize::from(first_name);
        let all = first..first + usize::from(names);
        self.scope.enter(&self.program.names[all.clone()], first);
        for number in first + usize::from(formals)..all.end {
            self.declaration(self.program.names[number])?;
        }
        for operation in operation..end {
            self.program.offsets[operation] = self.at as u16;
            self.program.operations[operation] = self.statement()?;
        }
        self.scope.leave(&self.program.names[all], first);
        Ok(())
    }

    fn declaration(&mut self, declared: Declared) -> Result<(), Refused> {
        match declared.kind {
            Kind::Variable => self.at += 4,
            Kind::Label => self.at += 6,
            Kind::Procedure => {
                let body = &self.program.blocks[usize::from(declared.detail)];
                self.at += 6 + 6 * usize::from(body.formals);
                self.block()?;
            }
        }
        Ok(())
    }

    fn field(&self, index: usize) -> u16 {
        word(self.script, self.at + 2 * index)
    }

    fn visible(&self, index: usize) -> Result<&Declared, Refused> {
        let found = self.scope.find(&self.program.names, self.field(index));
        found.ok_or(Refusal::NotVisible.at(self.at))
    }

    fn used(&self, index: usize, kind: Kind) -> Result<&Declared, Refused> {
        let declared = self.visible(index)?;
        if declared.kind != kind {
            return Err(Refusal::WrongKind.at(self.at));
        }
        Ok(declared)
    }

    fn variable(&self, index: usize) -> Result<Place, Refused> {
        self.used(index, Kind::Variable).map(|declared| declared.place)
    }

    /// A label, and the operation gone to if it is no formal.
    fn label(&self, index: usize) -> Result<(Place, u16), Refused> {
        let Declared { place, detail, .. } = *self.used(index, Kind::Label)?;
        if place.is_formal() {
            return Ok((place, 0));
        }
        let block = self.path[place.level()];
        Ok((place, self.program.target(block, detail)))
    }

    fn statement(&mut self) -> Result<Operation, Refused> {
        let (operation, bytes) = match self.field(0) {
            BK => {
                let block = self.next_block as u16;
                self.block()?;
                (Operation::Enter { block }, 0)
            }
            CL => (self.call()?, 6 + 2 * usize::from(self.field(2))),
            GO => {
                let (label, to) = self.label(1)?;
                (Operation::Go { label, to }, 4)
            }
            IF => {
                let variable = self.variable(1)?;
                let (label, to) = self.label(2)?;
                (Operation::If { variable, label, to }, 6)
            }
            KN => (self.constant()?, 8),
            AR => (self.arithmetic()?, 10),
            QY => (self.query()?, 8),
            AD => {
                let (group, member) = (self.variable(1)?, self.variable(2)?);
                (Operation::Add { group, member }, 6)
            }
            RM => {
                let (group, member) = (self.variable(1)?, self.variable(2)?);
                (Operation::Remove { group, member }, 6)
            }
            _ => unreachable!("the first pass refuses other marks"),
        };
        self.at += bytes;
        Ok(operation)
    }

    fn constant(&self) -> Result<Operation, Refused> {
        let target = self.variable(1)?;
        let value = u32::from(self.field(2)) | u32::from(self.field(3)) << 16;
        Ok(Operation::Constant { target, value: value as i32 })
    }

    fn query(&self) -> Result<Operation, Refused> {
        let target = self.variable(1)?;
        let (group, member) = (self.variable(2)?, self.variable(3)?);
        Ok(Operation::Query { target, group, member })
    }

    fn arithmetic(&self) -> Result<Operation, Refused> {
        let target = self.variable(1)?;
        let (left, right) = (self.variable(3)?, self.variable(4)?);
        Ok(match self.field(2) {
            0 => Operation::Plus { target, left, right },
            1 => Operation::Minus { target, left, right },
            _ => Operation::Less { target, left, right },
        })
    }

    fn call(&mut self) -> Result<Operation, Refused> {
        let called = *self.used(1, Kind::Procedure)?;
        let count = usize::from(self.field(2));
        let first = self.program.arguments.len();
        for index in 3..3 + count {
            let &Declared { place, kind, .. } = self.visible(index)?;
            self.program.arguments.push(Argument { place, kind });
        }
        let arguments = first as u16;
        if called.place.is_formal() {
            let count = count as u8;
            return Ok(Operation::CallFormal { procedure: called.place, arguments, count });
        }
        if !self.program.agree(called.detail, first, count) {
            return Err(Refusal::Arguments.at(self.at));
        }
        let level = called.place.level() as u8;
        Ok(Operation::Call { body: called.detail, level, arguments })
    }
}

impl Program {
    /// Whether arguments suit a body's formals in number and kind.
    pub fn agree(&self, body: u16, first_argument: usize, count: usize) -> bool {
        let formals = usize::from(self.blocks[usize::from(body)].formals);
        let arguments = &self.arguments[first_argument..first_argument + count];
        let mut pairs = self.names_of(body)[..formals].iter().zip(arguments);
        formals == count && pairs.all(|(formal, argument)| formal.kind == argument.kind)
    }
}

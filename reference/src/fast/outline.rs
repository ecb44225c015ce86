//! First pass: causes 2 to 8 in file order, and the blocks with their names.

use super::marks::{word, AD, AR, BK, CL, FM, GO, IF, KN, LB, PR, QY, RM, VR};
use super::program::{Block, Declared, Place};
use crate::bounds::{ARGUMENTS, LEVELS, NAMES};
use crate::cause::{Refusal, Refused};
use crate::tree::Kind;

pub struct Outline {
    pub blocks: Vec<Block>,
    pub names: Vec<Declared>,
}

/// The script's length has been judged.
pub fn outline(script: &[u8]) -> Result<Outline, Refused> {
    let outline = Outline {
        blocks: Vec::with_capacity(script.len() / 16 + 1),
        names: Vec::with_capacity(script.len() / 8 + NAMES),
    };
    let mut pass = Pass { script, at: 0, outline };
    pass.expect(BK)?;
    pass.block(1, 0, 0)?;
    if pass.at != script.len() {
        return Err(Refusal::Trailing.at(pass.at));
    }
    Ok(pass.outline)
}

struct Pass<'a> {
    script: &'a [u8],
    at: usize,
    outline: Outline,
}

impl Pass<'_> {
    /// Lengths and offsets are even, so one byte left means two.
    fn mark(&self) -> Result<u16, Refused> {
        if self.at == self.script.len() {
            return Err(Refusal::PastEnd.at(self.at));
        }
        Ok(word(self.script, self.at))
    }

    fn expect(&self, expected: u16) -> Result<(), Refused> {
        if self.mark()? != expected {
            return Err(Refusal::Mark.at(self.at));
        }
        Ok(())
    }

    /// Goes past a record of this many bytes and gives its offset.
    fn take(&mut self, bytes: usize) -> Result<usize, Refused> {
        let offset = self.at;
        if self.script.len() - offset < bytes {
            return Err(Refusal::PastEnd.at(offset));
        }
        self.at += bytes;
        Ok(offset)
    }

    fn field(&self, offset: usize, index: usize) -> u16 {
        word(self.script, offset + 2 * index)
    }

    /// At a BK; the formals, if it is a body, stand from `first_name` on.
    fn block(&mut self, level: usize, enclosing: usize, first_name: usize) -> Result<(), Refused> {
        let offset = self.take(6)?;
        let (d, s) = (usize::from(self.field(offset, 1)), self.field(offset, 2));
        let formals = self.outline.names.len() - first_name;
        if level > LEVELS {
            return Err(Refusal::Nesting.at(offset));
        }
        if formals + d > NAMES {
            return Err(Refusal::Names.at(offset));
        }
        let block = self.outline.blocks.len();
        self.outline.blocks.push(Block {
            offset: offset as u16,
            enclosing: enclosing as u16,
            level: level as u8,
            formals: formals as u8,
            names: (formals + d) as u8,
            first_name: first_name as u16,
            statements: s,
            first_operation: 0,
        });
        // Kept now, since the names of bodies come in between.
        let unread =
            Declared { name: 0, kind: Kind::Variable, place: Place::new(0, 0, false), detail: 0 };
        self.outline.names.resize(first_name + formals + d, unread);
        for position in formals..formals + d {
            self.declaration(block, position)?;
        }
        for _ in 0..s {
            self.statement(level, block)?;
        }
        Ok(())
    }

    fn declaration(&mut self, block: usize, position: usize) -> Result<(), Refused> {
        match self.mark()? {
            VR => {
                let offset = self.take(4)?;
                self.declare(block, position, Kind::Variable, 0, offset)
            }
            LB => self.label(block, position),
            PR => self.procedure(block, position),
            _ => Err(Refusal::Mark.at(self.at)),
        }
    }

    fn label(&mut self, block: usize, position: usize) -> Result<(), Refused> {
        let offset = self.take(6)?;
        let index = self.field(offset, 2);
        if index < 1 || index > self.outline.blocks[block].statements {
            return Err(Refusal::Range.at(offset));
        }
        self.declare(block, position, Kind::Label, index, offset)
    }

    fn procedure(&mut self, block: usize, position: usize) -> Result<(), Refused> {
        let offset = self.take(6)?;
        let p = usize::from(self.field(offset, 2));
        if p > NAMES {
            return Err(Refusal::Names.at(offset));
        }
        let body = self.outline.blocks.len() as u16;
        self.declare(block, position, Kind::Procedure, body, offset)?;
        let level = usize::from(self.outline.blocks[block].level) + 1;
        let first_formal = self.outline.names.len();
        for position in 0..p {
            self.formal(level, first_formal, position)?;
        }
        self.expect(BK)?;
        self.block(level, block, first_formal)
    }

    fn formal(&mut self, level: usize, first: usize, position: usize) -> Result<(), Refused> {
        self.expect(FM)?;
        let offset = self.take(6)?;
        let kind = match self.field(offset, 2) {
            0 => Kind::Variable,
            1 => Kind::Label,
            2 => Kind::Procedure,
            _ => return Err(Refusal::Range.at(offset)),
        };
        let name = self.field(offset, 1);
        self.is_new(first, position, name, offset)?;
        let place = Place::new(level, position, true);
        self.outline.names.push(Declared { name, kind, place, detail: 0 });
        Ok(())
    }

    fn declare(
        &mut self,
        block: usize,
        position: usize,
        kind: Kind,
        detail: u16,
        offset: usize,
    ) -> Result<(), Refused> {
        let Block { first_name, level, .. } = self.outline.blocks[block];
        let first = usize::from(first_name);
        let name = self.field(offset, 1);
        self.is_new(first, position, name, offset)?;
        let place = Place::new(level.into(), position, false);
        self.outline.names[first + position] = Declared { name, kind, place, detail };
        Ok(())
    }

    fn is_new(&self, first: usize, count: usize, name: u16, offset: usize) -> Result<(), Refused> {
        let names = &self.outline.names[first..first + count];
        if names.iter().any(|declared| declared.name == name) {
            return Err(Refusal::Twice.at(offset));
        }
        Ok(())
    }

    fn statement(&mut self, level: usize, block: usize) -> Result<(), Refused> {
        match self.mark()? {
            BK => return self.block(level + 1, block, self.outline.names.len()),
            CL => return self.call(),
            AR => return self.arithmetic(),
            GO => self.take(4)?,
            IF | AD | RM => self.take(6)?,
            KN | QY => self.take(8)?,
            _ => return Err(Refusal::Mark.at(self.at)),
        };
        Ok(())
    }

    fn call(&mut self) -> Result<(), Refused> {
        let offset = self.take(6)?;
        let a = usize::from(self.field(offset, 2));
        if a > ARGUMENTS {
            return Err(Refusal::Range.at(offset));
        }
        self.at = offset;
        self.take(6 + 2 * a).map(drop)
    }

    fn arithmetic(&mut self) -> Result<(), Refused> {
        let offset = self.take(10)?;
        if self.field(offset, 2) > 2 {
            return Err(Refusal::Range.at(offset));
        }
        Ok(())
    }
}

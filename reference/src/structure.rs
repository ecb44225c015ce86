//! Encoding and Bounds: the records in file order, each judged whole before the next.

use crate::bounds::{ARGUMENTS, LEVELS, NAMES};
use crate::cause::{Refusal, Refused};
use crate::reader::Reader;
use crate::tree::{
    Action, Block, Declaration, Declared, Formal, Kind, Name, Operation, Procedure, Statement,
};

/// The program's tree, or the first of causes 2 to 8 in file order.
pub fn program(script: &[u8]) -> Result<Block, Refused> {
    let mut text = Text { reader: Reader::new(script) };
    let offset = text.marked(b"BK")?;
    let block = text.block(offset, 1, &[])?;
    if !text.reader.at_end() {
        return Err(Refusal::Trailing.at(text.reader.position()));
    }
    Ok(block)
}

struct Text<'a> {
    reader: Reader<'a>,
}

impl Text<'_> {
    fn mark(&mut self) -> Result<(usize, [u8; 2]), Refused> {
        let offset = self.reader.position();
        let mark = self.reader.mark().ok_or(Refusal::PastEnd.at(offset))?;
        Ok((offset, mark))
    }

    fn marked(&mut self, expected: &[u8; 2]) -> Result<usize, Refused> {
        let (offset, mark) = self.mark()?;
        if mark != *expected {
            return Err(Refusal::Mark.at(offset));
        }
        Ok(offset)
    }

    fn fields<const COUNT: usize>(&mut self, offset: usize) -> Result<[u16; COUNT], Refused> {
        self.reader.fields().ok_or(Refusal::PastEnd.at(offset))
    }

    fn names<const COUNT: usize>(&mut self, offset: usize) -> Result<[Name; COUNT], Refused> {
        Ok(self.fields(offset)?.map(Name::from))
    }

    /// The rest of a BK after its mark.
    fn block(&mut self, offset: usize, level: usize, formals: &[Formal]) -> Result<Block, Refused> {
        let [d, s] = self.fields(offset)?.map(usize::from);
        if level > LEVELS {
            return Err(Refusal::Nesting.at(offset));
        }
        if formals.len() + d > NAMES {
            return Err(Refusal::Names.at(offset));
        }
        let mut names: Vec<Name> = formals.iter().map(|formal| formal.name).collect();
        let mut declarations = Vec::new();
        for _ in 0..d {
            declarations.push(self.declaration(level, s, &mut names)?);
        }
        let mut statements = Vec::new();
        for _ in 0..s {
            statements.push(self.statement(level)?);
        }
        Ok(Block { offset, declarations, statements })
    }

    fn declaration(
        &mut self,
        level: usize,
        s: usize,
        names: &mut Vec<Name>,
    ) -> Result<Declaration, Refused> {
        let (offset, mark) = self.mark()?;
        match &mark {
            b"VR" => self.variable(offset, names),
            b"LB" => self.label(offset, s, names),
            b"PR" => self.procedure(offset, level, names),
            _ => Err(Refusal::Mark.at(offset)),
        }
    }

    fn variable(&mut self, offset: usize, names: &mut Vec<Name>) -> Result<Declaration, Refused> {
        let [name] = self.names(offset)?;
        declare(names, name, offset)?;
        Ok(Declaration { offset, name, declared: Declared::Variable })
    }

    fn label(
        &mut self,
        offset: usize,
        s: usize,
        names: &mut Vec<Name>,
    ) -> Result<Declaration, Refused> {
        let [name, index] = self.fields(offset)?;
        let (name, index) = (Name::from(name), usize::from(index));
        if index < 1 || index > s {
            return Err(Refusal::Range.at(offset));
        }
        declare(names, name, offset)?;
        Ok(Declaration { offset, name, declared: Declared::Label(index) })
    }

    fn procedure(
        &mut self,
        offset: usize,
        level: usize,
        names: &mut Vec<Name>,
    ) -> Result<Declaration, Refused> {
        let [name, p] = self.fields(offset)?;
        let (name, p) = (Name::from(name), usize::from(p));
        if p > NAMES {
            return Err(Refusal::Names.at(offset));
        }
        declare(names, name, offset)?;
        let formals = self.formals(p)?;
        let body_offset = self.marked(b"BK")?;
        let body = self.block(body_offset, level + 1, &formals)?;
        let declared = Declared::Procedure(Procedure { formals, body });
        Ok(Declaration { offset, name, declared })
    }

    fn formals(&mut self, p: usize) -> Result<Vec<Formal>, Refused> {
        let mut names = Vec::new();
        let mut formals = Vec::new();
        for _ in 0..p {
            let offset = self.marked(b"FM")?;
            let [name, kind] = self.fields(offset)?;
            let name = Name::from(name);
            let kind = kind_numbered(kind).ok_or(Refusal::Range.at(offset))?;
            declare(&mut names, name, offset)?;
            formals.push(Formal { offset, name, kind });
        }
        Ok(formals)
    }

    fn statement(&mut self, level: usize) -> Result<Statement, Refused> {
        let (offset, mark) = self.mark()?;
        let action = self.action(offset, mark, level)?;
        Ok(Statement { offset, action })
    }

    fn action(&mut self, offset: usize, mark: [u8; 2], level: usize) -> Result<Action, Refused> {
        Ok(match &mark {
            b"BK" => Action::Block(self.block(offset, level + 1, &[])?),
            b"CL" => self.call(offset)?,
            b"GO" => {
                let [label] = self.names(offset)?;
                Action::Go { label }
            }
            b"IF" => {
                let [variable, label] = self.names(offset)?;
                Action::If { variable, label }
            }
            b"KN" => self.constant(offset)?,
            b"AR" => self.arithmetic(offset)?,
            b"AD" => {
                let [group, member] = self.names(offset)?;
                Action::Add { group, member }
            }
            b"RM" => {
                let [group, member] = self.names(offset)?;
                Action::Remove { group, member }
            }
            b"QY" => {
                let [target, group, member] = self.names(offset)?;
                Action::Query { target, group, member }
            }
            _ => return Err(Refusal::Mark.at(offset)),
        })
    }

    /// The count is judged before the argument names are looked for.
    fn call(&mut self, offset: usize) -> Result<Action, Refused> {
        let [procedure, a] = self.fields(offset)?;
        let (procedure, a) = (Name::from(procedure), usize::from(a));
        if a > ARGUMENTS {
            return Err(Refusal::Range.at(offset));
        }
        let arguments = self.reader.names(a).ok_or(Refusal::PastEnd.at(offset))?;
        Ok(Action::Call { procedure, arguments })
    }

    fn constant(&mut self, offset: usize) -> Result<Action, Refused> {
        let [target] = self.names(offset)?;
        let value = self.reader.value().ok_or(Refusal::PastEnd.at(offset))?;
        Ok(Action::Constant { target, value })
    }

    fn arithmetic(&mut self, offset: usize) -> Result<Action, Refused> {
        let [target, operation, left, right] = self.fields(offset)?;
        let operation = operation_numbered(operation).ok_or(Refusal::Range.at(offset))?;
        let [target, left, right] = [target, left, right].map(Name::from);
        Ok(Action::Arithmetic { target, operation, left, right })
    }
}

fn declare(names: &mut Vec<Name>, name: Name, offset: usize) -> Result<(), Refused> {
    if names.contains(&name) {
        return Err(Refusal::Twice.at(offset));
    }
    names.push(name);
    Ok(())
}

fn kind_numbered(number: u16) -> Option<Kind> {
    match number {
        0 => Some(Kind::Variable),
        1 => Some(Kind::Label),
        2 => Some(Kind::Procedure),
        _ => None,
    }
}

fn operation_numbered(number: u16) -> Option<Operation> {
    match number {
        0 => Some(Operation::Plus),
        1 => Some(Operation::Minus),
        2 => Some(Operation::Less),
        _ => None,
    }
}

//! Encoding, scope: each use of a name, in file order, is visible and of the right kind.

use crate::cause::{Refusal, Refused};
use crate::tree::{Action, Block, Declared, Formal, Kind, Name, Procedure, Statement};

/// The first of causes 9 to 11 in file order.
pub fn judge(program: &Block) -> Result<(), Refused> {
    Scope::default().block(program, &[])
}

#[derive(Clone, Copy)]
enum Meaning<'a> {
    Variable,
    Label,
    Procedure(&'a [Formal]),
    Formal(Kind),
}

impl Meaning<'_> {
    fn kind(&self) -> Kind {
        match self {
            Meaning::Variable => Kind::Variable,
            Meaning::Label => Kind::Label,
            Meaning::Procedure(_) => Kind::Procedure,
            Meaning::Formal(kind) => *kind,
        }
    }
}

/// The names of the enclosing blocks, outermost first.
#[derive(Default)]
struct Scope<'a> {
    blocks: Vec<Vec<(Name, Meaning<'a>)>>,
}

impl<'a> Scope<'a> {
    fn block(&mut self, block: &'a Block, formals: &'a [Formal]) -> Result<(), Refused> {
        self.blocks.push(meanings(block, formals));
        for declaration in &block.declarations {
            if let Declared::Procedure(Procedure { formals, body }) = &declaration.declared {
                self.block(body, formals)?;
            }
        }
        for statement in &block.statements {
            self.statement(statement)?;
        }
        self.blocks.pop();
        Ok(())
    }

    fn statement(&mut self, statement: &'a Statement) -> Result<(), Refused> {
        use Kind::{Label, Variable};
        let offset = statement.offset;
        match &statement.action {
            Action::Block(block) => self.block(block, &[]),
            Action::Call { procedure, arguments } => self.call(offset, *procedure, arguments),
            Action::Go { label } => self.uses(offset, &[(*label, Label)]),
            Action::If { variable, label } => {
                self.uses(offset, &[(*variable, Variable), (*label, Label)])
            }
            Action::Constant { target, .. } => self.uses(offset, &[(*target, Variable)]),
            Action::Arithmetic { target, left, right, .. } => {
                self.variables(offset, &[*target, *left, *right])
            }
            Action::Add { group, member } | Action::Remove { group, member } => {
                self.variables(offset, &[*group, *member])
            }
            Action::Query { target, group, member } => {
                self.variables(offset, &[*target, *group, *member])
            }
        }
    }

    fn variables(&self, offset: usize, names: &[Name]) -> Result<(), Refused> {
        for &name in names {
            self.used(offset, name, Kind::Variable)?;
        }
        Ok(())
    }

    fn uses(&self, offset: usize, uses: &[(Name, Kind)]) -> Result<(), Refused> {
        for &(name, kind) in uses {
            self.used(offset, name, kind)?;
        }
        Ok(())
    }

    fn used(&self, offset: usize, name: Name, kind: Kind) -> Result<Meaning<'a>, Refused> {
        let meaning = self.visible(offset, name)?;
        if meaning.kind() != kind {
            return Err(Refusal::WrongKind.at(offset));
        }
        Ok(meaning)
    }

    fn visible(&self, offset: usize, name: Name) -> Result<Meaning<'a>, Refused> {
        let nearest_first = self.blocks.iter().rev().flatten();
        let found = nearest_first.clone().find(|(declared, _)| *declared == name);
        found.map(|(_, meaning)| *meaning).ok_or(Refusal::NotVisible.at(offset))
    }

    fn call(&self, offset: usize, procedure: Name, arguments: &[Name]) -> Result<(), Refused> {
        let called = self.used(offset, procedure, Kind::Procedure)?;
        let mut kinds = Vec::new();
        for &argument in arguments {
            kinds.push(self.visible(offset, argument)?.kind());
        }
        match called {
            Meaning::Procedure(formals) if !agree(formals, &kinds) => {
                Err(Refusal::Arguments.at(offset))
            }
            _ => Ok(()),
        }
    }
}

/// Whether arguments of these kinds suit these formals in number and kind.
pub fn agree(formals: &[Formal], kinds: &[Kind]) -> bool {
    formals.iter().map(|formal| formal.kind).eq(kinds.iter().copied())
}

fn meanings<'a>(block: &'a Block, formals: &[Formal]) -> Vec<(Name, Meaning<'a>)> {
    let formals = formals.iter().map(|formal| (formal.name, Meaning::Formal(formal.kind)));
    let declarations = block.declarations.iter().map(|declaration| {
        let meaning = match &declaration.declared {
            Declared::Variable => Meaning::Variable,
            Declared::Label(_) => Meaning::Label,
            Declared::Procedure(procedure) => Meaning::Procedure(&procedure.formals),
        };
        (declaration.name, meaning)
    });
    formals.chain(declarations).collect()
}

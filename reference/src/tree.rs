//! Encoding: the text as a tree, each record with its byte offset.

/// 16 bits in a script; the copy rule's new names lie above them. The search has numbers instead.
pub type Name = u32;

#[derive(Clone, Copy, Debug, PartialEq, Eq)]
pub enum Kind {
    Variable,
    Label,
    Procedure,
}

#[derive(Clone, Debug, PartialEq, Eq)]
pub struct Block {
    pub offset: usize,
    pub declarations: Vec<Declaration>,
    pub statements: Vec<Statement>,
}

#[derive(Clone, Debug, PartialEq, Eq)]
pub struct Declaration {
    pub offset: usize,
    pub name: Name,
    pub declared: Declared,
}

#[derive(Clone, Debug, PartialEq, Eq)]
pub enum Declared {
    Variable,
    /// The statement's index, from 1.
    Label(usize),
    Procedure(Procedure),
}

#[derive(Clone, Debug, PartialEq, Eq)]
pub struct Procedure {
    pub formals: Vec<Formal>,
    pub body: Block,
}

#[derive(Clone, Copy, Debug, PartialEq, Eq)]
pub struct Formal {
    pub offset: usize,
    pub name: Name,
    pub kind: Kind,
}

#[derive(Clone, Debug, PartialEq, Eq)]
pub struct Statement {
    pub offset: usize,
    pub action: Action,
}

#[derive(Clone, Debug, PartialEq, Eq)]
pub enum Action {
    Block(Block),
    Call { procedure: Name, arguments: Vec<Name> },
    Go { label: Name },
    If { variable: Name, label: Name },
    Constant { target: Name, value: i32 },
    Arithmetic { target: Name, operation: Operation, left: Name, right: Name },
    Add { group: Name, member: Name },
    Remove { group: Name, member: Name },
    Query { target: Name, group: Name, member: Name },
}

#[derive(Clone, Copy, Debug, PartialEq, Eq)]
pub enum Operation {
    Plus,
    Minus,
    Less,
}

impl Declaration {
    pub fn kind(&self) -> Kind {
        match self.declared {
            Declared::Variable => Kind::Variable,
            Declared::Label(_) => Kind::Label,
            Declared::Procedure(_) => Kind::Procedure,
        }
    }
}

impl Action {
    /// The same on other names; a block is changed as a whole.
    pub fn renamed(
        &self,
        now: impl Fn(Name) -> Name,
        block: impl FnOnce(&Block) -> Block,
    ) -> Action {
        match *self {
            Action::Block(ref inner) => Action::Block(block(inner)),
            Action::Call { procedure, ref arguments } => Action::Call {
                procedure: now(procedure),
                arguments: arguments.iter().map(|&name| now(name)).collect(),
            },
            Action::Go { label } => Action::Go { label: now(label) },
            Action::If { variable, label } => {
                Action::If { variable: now(variable), label: now(label) }
            }
            Action::Constant { target, value } => Action::Constant { target: now(target), value },
            Action::Arithmetic { target, operation, left, right } => Action::Arithmetic {
                target: now(target),
                operation,
                left: now(left),
                right: now(right),
            },
            Action::Add { group, member } => Action::Add { group: now(group), member: now(member) },
            Action::Remove { group, member } => {
                Action::Remove { group: now(group), member: now(member) }
            }
            Action::Query { target, group, member } => {
                Action::Query { target: now(target), group: now(group), member: now(member) }
            }
        }
    }
}

impl Block {
    pub fn declared_names(&self) -> impl Iterator<Item = Name> + '_ {
        self.declarations.iter().map(|declaration| declaration.name)
    }

    /// Whether a block is a statement of this one, or the body of a procedure that it declares.
    pub fn directly_encloses(&self, inner: &Block) -> bool {
        let stated = self.statements.iter().filter_map(|it| match &it.action {
            Action::Block(block) => Some(block),
            _ => None,
        });
        let declared = self.declarations.iter().filter_map(|it| match &it.declared {
            Declared::Procedure(procedure) => Some(&procedure.body),
            _ => None,
        });
        stated.chain(declared).any(|it| it.offset == inner.offset)
    }
}

impl Procedure {
    /// Formals belong to the body's block.
    pub fn declared_names(&self) -> impl Iterator<Item = Name> + '_ {
        let formals = self.formals.iter().map(|formal| formal.name);
        formals.chain(self.body.declared_names())
    }
}

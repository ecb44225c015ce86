//! A checked script made ready to run. Indices are 16 bits: a script has at most 4,096 words.

use crate::tree::Kind;

/// Where a name is declared, seen from the text that uses it: level, whether it is a formal,
/// and position from 0, formals first. One word, since three names stand in an operation.
#[derive(Clone, Copy)]
pub struct Place(u16);

const FORMAL: u16 = 0x80;

impl Place {
    pub fn new(level: usize, position: usize, formal: bool) -> Self {
        Place((level << 8 | position) as u16 | if formal { FORMAL } else { 0 })
    }

    #[inline(always)]
    pub fn level(self) -> usize {
        usize::from(self.0 >> 8)
    }

    #[inline(always)]
    pub fn position(self) -> usize {
        usize::from(self.0 & (FORMAL - 1))
    }

    #[inline(always)]
    pub fn is_formal(self) -> bool {
        self.0 & FORMAL != 0
    }
}

#[derive(Clone, Copy)]
pub struct Block {
    pub offset: u16,
    pub enclosing: u16,
    pub level: u8,
    pub formals: u8,
    /// Formals included.
    pub names: u8,
    pub first_name: u16,
    pub statements: u16,
    pub first_operation: u16,
}

#[derive(Clone, Copy)]
pub struct Declared {
    pub name: u16,
    pub kind: Kind,
    pub place: Place,
    /// A label's index, or the block that is a procedure's body.
    pub detail: u16,
}

#[derive(Clone, Copy)]
pub struct Argument {
    pub place: Place,
    pub kind: Kind,
}

/// A statement; `Leave` stands after the last one of each block.
#[derive(Clone, Copy)]
pub enum Operation {
    Leave,
    Enter {
        block: u16,
    },
    /// `level` is that of the declaring block.
    Call {
        body: u16,
        level: u8,
        arguments: u16,
    },
    CallFormal {
        procedure: Place,
        arguments: u16,
        count: u8,
    },
    /// `to` is the operation gone to where the label is no formal.
    Go {
        label: Place,
        to: u16,
    },
    If {
        variable: Place,
        label: Place,
        to: u16,
    },
    Constant {
        target: Place,
        value: i32,
    },
    Plus {
        target: Place,
        left: Place,
        right: Place,
    },
    Minus {
        target: Place,
        left: Place,
        right: Place,
    },
    Less {
        target: Place,
        left: Place,
        right: Place,
    },
    Add {
        group: Place,
        member: Place,
    },
    Remove {
        group: Place,
        member: Place,
    },
    Query {
        target: Place,
        group: Place,
        member: Place,
    },
}

pub struct Program {
    /// In file order, the program's first.
    pub blocks: Vec<Block>,
    /// Those of a block stand together.
    pub names: Vec<Declared>,
    /// Those of a block stand together.
    pub operations: Vec<Operation>,
    /// The byte offset of each operation's statement.
    pub offsets: Vec<u16>,
    pub arguments: Vec<Argument>,
}

impl Program {
    pub fn names_of(&self, block: u16) -> &[Declared] {
        let block = &self.blocks[usize::from(block)];
        let first = usize::from(block.first_name);
        &self.names[first..first + usize::from(block.names)]
    }

    /// The operation at a label's index.
    pub fn target(&self, block: u16, index: u16) -> u16 {
        self.blocks[usize::from(block)].first_operation + index - 1
    }
}

//! A text tree as script bytes, with the offset of each record.

use reference::tree::{
    Action, Block, Declaration, Declared, Formal, Kind, Name, Operation, Statement,
};

#[derive(Default)]
pub struct Script {
    pub bytes: Vec<u8>,
    pub records: Vec<usize>,
}

pub fn encode(program: &Block) -> Script {
    let mut script = Script::default();
    script.block(program);
    script
}

/// A script in words: a mark's letters, or a field; KN's value is two fields.
pub fn written(text: &str) -> Vec<u8> {
    let field = |word: &str| match word.parse::<u16>() {
        Ok(field) => field.to_le_bytes().to_vec(),
        Err(_) => word.as_bytes().to_vec(),
    };
    text.split_whitespace().flat_map(field).collect()
}

impl Script {
    fn record(&mut self, mark: &[u8; 2], fields: &[usize]) {
        self.records.push(self.bytes.len());
        self.bytes.extend(mark);
        self.fields(fields);
    }

    fn fields(&mut self, fields: &[usize]) {
        for &field in fields {
            self.bytes.extend((field as u16).to_le_bytes());
        }
    }

    fn named(&mut self, mark: &[u8; 2], names: &[Name]) {
        let fields: Vec<usize> = names.iter().map(|&name| name as usize).collect();
        self.record(mark, &fields);
    }

    fn block(&mut self, block: &Block) {
        self.record(b"BK", &[block.declarations.len(), block.statements.len()]);
        block.declarations.iter().for_each(|declaration| self.declaration(declaration));
        block.statements.iter().for_each(|statement| self.statement(statement));
    }

    fn declaration(&mut self, declaration: &Declaration) {
        let name = declaration.name as usize;
        match &declaration.declared {
            Declared::Variable => self.record(b"VR", &[name]),
            Declared::Label(index) => self.record(b"LB", &[name, *index]),
            Declared::Procedure(procedure) => {
                self.record(b"PR", &[name, procedure.formals.len()]);
                procedure.formals.iter().for_each(|formal| self.formal(formal));
                self.block(&procedure.body);
            }
        }
    }

    fn formal(&mut self, formal: &Formal) {
        let kind = match formal.kind {
            Kind::Variable => 0,
            Kind::Label => 1,
            Kind::Procedure => 2,
        };
        self.record(b"FM", &[formal.name as usize, kind]);
    }

    fn statement(&mut self, statement: &Statement) {
        match &statement.action {
            Action::Block(block) => self.block(block),
            Action::Call { procedure, arguments } => {
                self.record(b"CL", &[*procedure as usize, arguments.len()]);
                let arguments: Vec<usize> = arguments.iter().map(|&name| name as usize).collect();
                self.fields(&arguments);
            }
            Action::Go { label } => self.named(b"GO", &[*label]),
            Action::If { variable, label } => self.named(b"IF", &[*variable, *label]),
            Action::Constant { target, value } => {
                self.named(b"KN", &[*target]);
                self.bytes.extend(value.to_le_bytes());
            }
            Action::Arithmetic { target, operation, left, right } => {
                let operation = match operation {
                    Operation::Plus => 0,
                    Operation::Minus => 1,
                    Operation::Less => 2,
                };
                self.named(b"AR", &[*target, operation, *left, *right]);
            }
            Action::Add { group, member } => self.named(b"AD", &[*group, *member]),
            Action::Remove { group, member } => self.named(b"RM", &[*group, *member]),
            Action::Query { target, group, member } => {
                self.named(b"QY", &[*target, *group, *member]);
            }
        }
    }
}

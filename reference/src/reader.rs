//! Encoding: marks and fields taken from the script bytes one after the other.

use crate::tree::Name;

pub struct Reader<'a> {
    script: &'a [u8],
    position: usize,
}

impl<'a> Reader<'a> {
    pub fn new(script: &'a [u8]) -> Self {
        Reader { script, position: 0 }
    }

    pub fn position(&self) -> usize {
        self.position
    }

    pub fn at_end(&self) -> bool {
        self.position == self.script.len()
    }

    pub fn mark(&mut self) -> Option<[u8; 2]> {
        self.bytes()
    }

    pub fn fields<const COUNT: usize>(&mut self) -> Option<[u16; COUNT]> {
        let mut fields = [0; COUNT];
        for field in &mut fields {
            *field = u16::from_le_bytes(self.bytes()?);
        }
        Some(fields)
    }

    pub fn names(&mut self, count: usize) -> Option<Vec<Name>> {
        let field = |_| self.fields().map(|[name]| Name::from(name));
        (0..count).map(field).collect()
    }

    pub fn value(&mut self) -> Option<i32> {
        self.bytes().map(i32::from_le_bytes)
    }

    fn bytes<const COUNT: usize>(&mut self) -> Option<[u8; COUNT]> {
        let bytes = self.script.get(self.position..self.position + COUNT)?;
        self.position += COUNT;
        bytes.try_into().ok()
    }
}

//! Short scripts whose every field is at an edge, so that several causes hold at once and the
//! order in which they are judged shows.

use crate::random::Random;

struct Edges<'r> {
    random: &'r mut Random,
    bytes: Vec<u8>,
}

pub fn script(random: &mut Random) -> Vec<u8> {
    let mut edges = Edges { random, bytes: Vec::new() };
    for _ in 0..edges.random.pick(&[0, 0, 0, 14, 15, 16]) {
        edges.record(b"BK", &[0, 1]);
    }
    edges.block(0);
    if edges.random.chance(15) {
        let length = edges.random.below(edges.bytes.len() + 1) & !1;
        edges.bytes.truncate(length);
    }
    edges.bytes
}

impl Edges<'_> {
    fn record(&mut self, mark: &[u8; 2], fields: &[usize]) {
        self.bytes.extend(mark);
        for &field in fields {
            self.bytes.extend((field as u16).to_le_bytes());
        }
    }

    fn name(&mut self) -> usize {
        self.random.between(1, 5)
    }

    /// Mostly what follows, now and then about the most that may be.
    fn count(&mut self, follow: usize) -> usize {
        match self.random.below(30) {
            0 => self.random.between(31, 33),
            1 => follow + 1,
            _ => follow,
        }
    }

    fn block(&mut self, depth: usize) {
        let (declarations, statements) = (self.random.below(5), self.random.between(1, 2));
        let (d, s) = (self.count(declarations), self.count(statements));
        self.record(b"BK", &[d, s]);
        for _ in 0..declarations {
            self.declaration(depth);
        }
        for _ in 0..statements {
            self.statement(depth);
        }
    }

    fn declaration(&mut self, depth: usize) {
        let name = self.name();
        match self.random.below(6) {
            0 if depth < 3 => self.procedure(name, depth),
            1 => {
                let index = self.random.pick(&[0, 1, 1, 1, 1, 2, 3]);
                self.record(b"LB", &[name, index]);
            }
            _ => self.record(b"VR", &[name]),
        }
    }

    fn procedure(&mut self, name: usize, depth: usize) {
        let formals = self.random.below(3);
        let p = self.count(formals);
        self.record(b"PR", &[name, p]);
        for _ in 0..formals {
            let (name, kind) = (self.name(), self.random.pick(&[0, 0, 0, 1, 2, 3]));
            self.record(b"FM", &[name, kind]);
        }
        self.block(depth + 1);
    }

    fn statement(&mut self, depth: usize) {
        let (first, second, third) = (self.name(), self.name(), self.name());
        match self.random.below(10) {
            0 if depth < 3 => self.block(depth + 1),
            1 => self.call(first),
            2 => self.record(b"GO", &[first]),
            3 => self.record(b"IF", &[first, second]),
            4 => {
                let operation = self.random.pick(&[0, 1, 2, 2, 3]);
                self.record(b"AR", &[first, operation, second, third]);
            }
            5 => self.record(b"AD", &[first, second]),
            6 => self.record(b"RM", &[first, second]),
            7 => self.record(b"QY", &[first, second, third]),
            _ => self.record(b"KN", &[first, 1, 0]),
        }
    }

    fn call(&mut self, name: usize) {
        let arguments = self.random.below(3);
        let a = self.count(arguments);
        self.record(b"CL", &[name, a]);
        for _ in 0..arguments {
            let argument = self.name() as u8;
            self.bytes.extend([argument, 0]);
        }
    }
}

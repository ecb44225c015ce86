//! What the tests share: scripts written as text, and calls with all that is lent.
#![allow(dead_code)]

use std::collections::BTreeMap;

use reference::{Answer, Engine, Lent, Refused, Request};

/// Bytes of a script written as marks and numbers; commas may stand between records.
pub fn assemble(text: &str) -> Vec<u8> {
    let mut script = Vec::new();
    let mut fields_after_constant = 0;
    for token in text.split([' ', ',', '\n']).filter(|token| !token.is_empty()) {
        if token.chars().all(|letter| letter.is_ascii_uppercase()) {
            script.extend(token.as_bytes());
            fields_after_constant = if token == "KN" { 1 } else { 0 };
        } else if fields_after_constant == 2 {
            script.extend(token.parse::<i32>().unwrap().to_le_bytes());
        } else {
            script.extend(token.parse::<u16>().unwrap().to_le_bytes());
        }
        if fields_after_constant > 0 && !token.starts_with("KN") {
            fields_after_constant += 1;
        }
    }
    script
}

/// Number and offset, 0 and 0 where accepted; both checks must agree.
pub fn checked(script: &[u8]) -> (u64, usize) {
    let plain = verdict(reference::check(script).map(drop));
    let fast = verdict(reference::fast::check(script));
    assert_eq!(plain, fast, "plain check and fast check of {script:02x?}");
    plain
}

fn verdict(result: Result<(), Refused>) -> (u64, usize) {
    match result {
        Ok(()) => (0, 0),
        Err(refused) => (refused.cause as u64, refused.offset),
    }
}

/// Sample B of the paper.
pub const B: &str = "BK 3 1, VR 1, PR 2 0, BK 0 0, PR 3 1, FM 4 2, BK 3 6, VR 5, PR 6 0, BK 0 1, \
                     KN 5 9, LB 7 5, IF 1 7, KN 1 1, KN 5 1, CL 3 1 6, KN 5 2, CL 4 0, CL 3 1 2";

pub const UNTOUCHED: i32 = 0x5a5a_5a5a;

/// A call with the paper's run program's values, to be changed where a test needs it.
#[derive(Clone)]
pub struct Call {
    pub script: Vec<u8>,
    pub d: u32,
    pub n: u32,
    pub g: u32,
    pub tally: u64,
    pub table: Vec<i32>,
    pub count: usize,
    pub name: u16,
    /// None is the right list of the table, just as long as asked.
    pub groups: Option<Vec<i32>>,
    pub sheet: usize,
}

#[derive(Clone, Debug, PartialEq, Eq)]
pub struct Reply {
    pub answer: Answer,
    pub sheet: Vec<i32>,
    pub table: Vec<i32>,
    pub groups: Vec<i32>,
}

pub type Run = fn(&Request, Lent) -> Answer;

/// The list of a table.
pub fn list(table: &[i32], count: usize) -> Vec<i32> {
    let mut members = BTreeMap::new();
    for pair in table.chunks_exact(2).take(count) {
        *members.entry(pair[0]).or_insert(0) += 1;
    }
    let mut places: Vec<[i32; 2]> = members.into_iter().map(<[i32; 2]>::from).collect();
    places.resize(table.len() / 2, [0, 0]);
    places.concat()
}

impl Call {
    pub fn new(script: Vec<u8>) -> Call {
        Call {
            script,
            d: 16,
            n: 1_000,
            g: 3,
            tally: 0,
            table: vec![0; 16],
            count: 0,
            name: 0,
            groups: None,
            sheet: 16 * 35,
        }
    }

    /// As long as the bounds ask.
    pub fn lent_area(&self) -> usize {
        self.d as usize * (self.script.len() / 2)
    }

    pub fn lent_groups(&self) -> Vec<i32> {
        self.groups.clone().unwrap_or_else(|| list(&self.table, self.count))
    }

    pub fn by(&self, run: Run, engine: Engine) -> Reply {
        let (mut table, mut sheet) = (self.table.clone(), vec![UNTOUCHED; self.sheet]);
        let mut groups = self.lent_groups();
        let request = Request {
            engine,
            script: &self.script,
            d: self.d,
            n: self.n,
            g: self.g,
            tally: self.tally,
            count: self.count,
            name: self.name,
        };
        let lent = Lent { table: &mut table, groups: &mut groups, sheet: &mut sheet };
        let answer = run(&request, lent);
        Reply { answer, sheet, table, groups }
    }

    /// All runs must agree; that by search is for its engine alone.
    pub fn on(&self, engine: Engine) -> Reply {
        let slow = self.by(reference::run, engine);
        let fast = self.by(reference::fast::run, engine);
        assert_eq!(slow, fast, "slow and fast run of {:02x?}", self.script);
        if engine == Engine::Search {
            let search = self.by(reference::search::run, engine);
            assert_eq!(slow, search, "slow run and run by search of {:02x?}", self.script);
        }
        slow
    }

    /// All engines must agree but for the links; the chain's reply.
    pub fn run(&self) -> Reply {
        let chain = self.on(Engine::Chain { records: self.d as usize });
        let mut without_links = chain.clone();
        without_links.answer.links = 0;
        assert_eq!(self.on(Engine::Display), without_links);
        assert_eq!(self.on(Engine::Copying { area: self.lent_area() }), without_links);
        assert_eq!(self.on(Engine::Search), without_links);
        chain
    }
}

impl Reply {
    /// The words written; those past them must be untouched.
    pub fn sheet_words(&self) -> &[i32] {
        let (written, past) = self.sheet.split_at(self.answer.sheet as usize);
        assert!(past.iter().all(|&word| word == UNTOUCHED), "words past the sheet");
        written
    }
}

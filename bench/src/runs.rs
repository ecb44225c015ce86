//! Whole calls of each engine. The time is that of one call; a row's size is its steps, or its bytes where it does none.

use std::hint::black_box;
use std::rc::Rc;

use binding::enrol::{self, Asked};
use differential::lists;
use reference::fast;
use reference::{Lent, Request};

use crate::programs;
use crate::row::Row;
use crate::scripts;

const D: u32 = 256;
/// What D activations ask for.
const SHEET_WORDS: usize = 35 * D as usize;
const STEPS: u32 = 100_000;
/// Of the programs that do one statement on the table over and over, three steps each.
const TURNS: u32 = 100;

struct Work {
    workload: &'static str,
    script: Vec<u8>,
    n: u32,
    table: Vec<i32>,
    count: usize,
    g: u32,
    /// So many words at the front of the table and of its list, which a call changes, are put back before each call.
    put_back: [usize; 2],
}

fn work(workload: &'static str, script: Vec<u8>, n: u32) -> Work {
    Work { workload, script, n, table: vec![0; 16], count: 0, g: 3, put_back: [0, 0] }
}

/// So many pairs, and room for a hundred more.
fn on_pairs(workload: &'static str, script: Vec<u8>, n: u32, pairs: Vec<[i32; 2]>) -> Work {
    let (count, mut table) = (pairs.len(), pairs.concat());
    table.resize(2 * count + 200, 0);
    Work { workload, script, n, table, count, g: 65_535, put_back: [0, 0] }
}

/// Groups of at most 100. Each turn takes six steps and leaves the table as it was; the last one is a whole one.
fn with_pairs(workload: &'static str, pairs: usize) -> Work {
    let turns = if pairs < 10_000 { STEPS / 6 } else { 100 };
    let pairs = (0..pairs).map(|at| hundreds(at, 1)).collect();
    on_pairs(workload, programs::table_work(), 4 + 6 * turns, pairs)
}

/// A hundred pairs to a group, from a first group on.
fn hundreds(at: usize, first: i32) -> [i32; 2] {
    [first + (at / 100) as i32, 1 + (at % 100) as i32]
}

/// The first group has so many members that the hundredth AD brings it to the limit.
fn near_the_limit() -> Work {
    let members = 65_535 - TURNS as usize;
    let pair = |at| if at < members { [1, 1 + at as i32] } else { hundreds(at, 2) };
    let pairs = (0..100_000).map(pair).collect();
    let work = on_pairs(
        "AD near the limit, 100,000 pairs",
        programs::members_added(),
        4 + 3 * TURNS,
        pairs,
    );
    Work { put_back: [0, 2], ..work }
}

/// Each AD brings a group that comes before those of the table.
fn absent_groups() -> Work {
    let pairs: Vec<[i32; 2]> = (0..100_000).map(|at| hundreds(at, 1_000_000)).collect();
    let groups = 1_000 + TURNS as usize;
    let script = programs::groups_added();
    let work = on_pairs("AD of absent groups, 100,000 pairs", script, 4 + 3 * TURNS, pairs);
    Work { put_back: [0, 2 * groups], ..work }
}

/// A hundred groups of one member stand apart in the table, and first in the list; each RM takes one of them out.
fn last_members() -> Work {
    let alone = |at: usize| [1 + (at / 1_000) as i32, 1];
    let pair = |at| if at % 1_000 == 500 { alone(at) } else { hundreds(at, 1_000_000) };
    let pairs: Vec<[i32; 2]> = (0..100_000).map(pair).collect();
    let (words, groups) = (2 * pairs.len(), 1_000 + TURNS as usize);
    let script = programs::groups_emptied();
    let work = on_pairs("RM of a last member, 100,000 pairs", script, 4 + 3 * TURNS, pairs);
    Work { put_back: [words, 2 * groups], ..work }
}

pub fn rows() -> Vec<Row> {
    let mut rows: Vec<Row> =
        [Engine::Display, Engine::Chain, Engine::Copy].into_iter().flat_map(rows_of).collect();
    rows.push(entering());
    rows.extend(rows_of(Engine::Search));
    rows
}

#[derive(Clone, Copy, PartialEq, Eq)]
enum Engine {
    Display,
    Chain,
    Copy,
    Search,
}

fn rows_of(engine: Engine) -> Vec<Row> {
    let works = vec![
        work("counting loop", programs::counting_loop(), STEPS),
        work("names 15 levels away", programs::far_names(), STEPS),
        work("nested blocks", programs::nested_blocks(), STEPS),
        work("recursion", programs::plain_recursion(), STEPS),
        work("procedure handed down", programs::handed_down(), STEPS),
        work("variables through formals", programs::through_formals(), STEPS),
        work("gotos out of many calls", programs::gotos_out_of_calls(), STEPS),
        work("calls with 32 arguments", programs::many_arguments(), STEPS),
        with_pairs("AD, QY, RM, 8 pairs", 8),
        with_pairs("AD, QY, RM, 1,000 pairs", 1_000),
        with_pairs("AD, QY, RM, 100,000 pairs", 100_000),
        near_the_limit(),
        absent_groups(),
        last_members(),
        work("N = 0", scripts::flat(100), 0),
        work("N = 0", scripts::flat(8_192), 0),
        work("N = 0, many names", scripts::many_names(8_192), 0),
    ];
    works.into_iter().map(|work| row(engine, work)).collect()
}

/// What one of the two is lent.
#[derive(Clone)]
struct Areas {
    table: Vec<i32>,
    groups: Vec<i32>,
    sheet: Vec<i32>,
    own: Vec<u32>,
}

impl Areas {
    fn new(engine: Engine, work: &Work) -> Self {
        Areas {
            table: work.table.clone(),
            groups: lists::right(&work.table, work.count),
            sheet: vec![0; SHEET_WORDS],
            own: own_words(engine, &work.script),
        }
    }

    fn put_back(&mut self, first: &Areas, [table, groups]: [usize; 2]) {
        self.table[..table].copy_from_slice(&first.table[..table]);
        self.groups[..groups].copy_from_slice(&first.groups[..groups]);
    }

    fn lent(&mut self) -> Lent<'_> {
        let Areas { table, groups, sheet, .. } = self;
        Lent { table, groups, sheet }
    }
}

fn row(engine: Engine, work: Work) -> Row {
    let Work { n, count, g, put_back, .. } = work;
    let asked = Asked { d: D, n, g, tally: 0, count, name: 1 };
    compare(engine, &work, &asked);
    let first = Rc::new(Areas::new(engine, &work));
    let (mut areas, mut same_areas) = (Areas::clone(&first), Areas::clone(&first));
    let (script, same) = (work.script.clone(), work.script);
    let same_first = first.clone();
    Row {
        workload: named(engine, work.workload),
        size: if n == 0 { format!("{} bytes", same.len()) } else { format!("{n} steps") },
        library: Box::new(move || {
            areas.put_back(&first, put_back);
            black_box(library(engine, black_box(&script), &asked, &mut areas));
        }),
        reference: Box::new(move || {
            same_areas.put_back(&same_first, put_back);
            let request = request(engine, black_box(&same), &asked);
            black_box(fast::run(&request, same_areas.lent()));
        }),
    }
}

/// Both come to the same, and what is put back is enough for the next call to be the same.
fn compare(engine: Engine, work: &Work, asked: &Asked) {
    let first = Areas::new(engine, work);
    let (mut areas, mut same) = (first.clone(), first.clone());
    let right = fast::run(&request(engine, &work.script, asked), same.lent()).words();
    let answer = library(engine, &work.script, asked, &mut areas);
    assert_eq!(answer, right, "{}", work.workload);
    assert_eq!(right[2], u64::from(work.n), "{}", work.workload);
    assert!(areas.table == same.table && areas.groups == same.groups, "{}", work.workload);
    areas.put_back(&first, work.put_back);
    let used = 2 * work.count;
    assert!(areas.table[..used] == first.table[..used], "{}", work.workload);
    assert!(areas.groups == first.groups, "{}", work.workload);
}

fn library(engine: Engine, script: &[u8], asked: &Asked, areas: &mut Areas) -> enrol::Answer {
    let Areas { table, groups, sheet, own } = areas;
    match engine {
        Engine::Display => enrol::display(script, asked, table, groups, sheet),
        Engine::Chain => enrol::chain(script, asked, table, groups, sheet, own),
        Engine::Copy => enrol::copy(script, asked, table, groups, sheet, own),
        Engine::Search => enrol::search(script, asked, table, groups, sheet),
    }
}

/// What only this engine is lent.
fn own_words(engine: Engine, script: &[u8]) -> Vec<u32> {
    match engine {
        Engine::Display | Engine::Search => Vec::new(),
        Engine::Chain => vec![0; 3 * D as usize],
        Engine::Copy => vec![0; D as usize * script.len() / 2],
    }
}

/// A block of 4,000 words, entered and left by a goto, beside a plain copy of as many words.
fn entering() -> Row {
    let script = programs::large_block();
    let words = 4_000;
    let entries = 1_000;
    let asked = Asked { d: D, n: 2 * entries, g: 3, tally: 0, count: 0, name: 1 };
    let work = work("entering a large block", script.clone(), asked.n);
    let mut areas = Areas::new(Engine::Copy, &work);
    let (from, mut to) = (vec![7u32; words], vec![0u32; words]);
    Row {
        workload: "copy, entering a large block (beside a plain copy)".into(),
        size: format!("{entries} times {words} words"),
        library: Box::new(move || {
            black_box(library(Engine::Copy, black_box(&script), &asked, &mut areas));
        }),
        reference: Box::new(move || {
            for _ in 0..entries {
                black_box(&mut to).copy_from_slice(black_box(&from));
            }
        }),
    }
}

fn request<'a>(engine: Engine, script: &'a [u8], asked: &Asked) -> Request<'a> {
    let Asked { d, n, g, tally, count, name } = *asked;
    let engine = match engine {
        Engine::Display => reference::Engine::Display,
        Engine::Chain => reference::Engine::Chain { records: D as usize },
        Engine::Copy => reference::Engine::Copying { area: D as usize * script.len() / 2 },
        Engine::Search => reference::Engine::Search,
    };
    Request { engine, script, d, n, g, tally, count, name }
}

fn named(engine: Engine, workload: &str) -> String {
    match engine {
        Engine::Display => format!("display, {workload}"),
        Engine::Chain => format!("chain, {workload}"),
        Engine::Copy => format!("copy, {workload}"),
        Engine::Search => format!("search, {workload}"),
    }
}

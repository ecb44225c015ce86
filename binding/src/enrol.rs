//! libenrol.a, as include/enrol.h declares it.

use crate::lent::{Lent, Strayed};

extern "C" {
    fn enrol_check(script: *const u8, script_len: usize, answer: *mut u64);
    fn enrol_display(
        script: *const u8,
        script_len: usize,
        d: u32,
        n: u32,
        g: u32,
        tally: u64,
        table: *mut i32,
        table_len: usize,
        count: usize,
        groups: *mut i32,
        groups_len: usize,
        name: u16,
        sheet: *mut i32,
        sheet_len: usize,
        answer: *mut u64,
    );
    fn enrol_copy(
        script: *const u8,
        script_len: usize,
        d: u32,
        n: u32,
        g: u32,
        tally: u64,
        table: *mut i32,
        table_len: usize,
        count: usize,
        groups: *mut i32,
        groups_len: usize,
        name: u16,
        sheet: *mut i32,
        sheet_len: usize,
        area: *mut u32,
        area_len: usize,
        answer: *mut u64,
    );
    fn enrol_chain(
        script: *const u8,
        script_len: usize,
        d: u32,
        n: u32,
        g: u32,
        tally: u64,
        table: *mut i32,
        table_len: usize,
        count: usize,
        groups: *mut i32,
        groups_len: usize,
        name: u16,
        sheet: *mut i32,
        sheet_len: usize,
        records: *mut Activation,
        records_len: usize,
        answer: *mut u64,
    );
    fn enrol_search(
        script: *const u8,
        script_len: usize,
        d: u32,
        n: u32,
        g: u32,
        tally: u64,
        table: *mut i32,
        table_len: usize,
        count: usize,
        groups: *mut i32,
        groups_len: usize,
        name: u16,
        sheet: *mut i32,
        sheet_len: usize,
        answer: *mut u64,
    );
}

/// An activation record of the chain engine.
#[repr(C)]
struct Activation {
    block: u32,
    next: u32,
    link: u32,
}

/// The function of an engine that is lent nothing of its own.
type OnNothing = unsafe extern "C" fn(
    *const u8,
    usize,
    u32,
    u32,
    u32,
    u64,
    *mut i32,
    usize,
    usize,
    *mut i32,
    usize,
    u16,
    *mut i32,
    usize,
    *mut u64,
);

/// An engine's function that is lent elements of its own.
type OnElements<T> = unsafe extern "C" fn(
    *const u8,
    usize,
    u32,
    u32,
    u32,
    u64,
    *mut i32,
    usize,
    usize,
    *mut i32,
    usize,
    u16,
    *mut i32,
    usize,
    *mut T,
    usize,
    *mut u64,
);

/// An engine that is lent words of its own, and how many of them make an element.
struct OnWords {
    call: OnElements<u32>,
    unit: usize,
}

const COPY: OnWords = OnWords { call: enrol_copy, unit: 1 };
const CHAIN: OnWords = OnWords {
    // SAFETY: a record is three words side by side, aligned as a word is.
    call: unsafe { std::mem::transmute::<OnElements<Activation>, OnElements<u32>>(enrol_chain) },
    unit: std::mem::size_of::<Activation>() / std::mem::size_of::<u32>(),
};

/// Refusal number, 0 where accepted, and offset.
pub type Checked = [u64; 2];

/// The nine words of a run's answer.
pub type Answer = [u64; 9];

/// The numbers that a run is fed.
#[derive(Clone, Copy, Debug)]
pub struct Asked {
    pub d: u32,
    pub n: u32,
    pub g: u32,
    pub tally: u64,
    pub count: usize,
    pub name: u16,
}

/// What has become of all that was lent.
#[derive(Clone, Debug, PartialEq, Eq)]
pub struct Ran {
    pub answer: Answer,
    pub table: Vec<i32>,
    pub groups: Vec<i32>,
    pub sheet: Vec<i32>,
    /// What only one engine is lent.
    pub working: Vec<u32>,
}

/// Fills what is lent to be written, so that a word left as it was shows.
const UNWRITTEN: u64 = 0xa5a5_a5a5_a5a5_a5a5;
const GUARD: i32 = 0x5a5a_5a5a;

pub fn check(script: &[u8]) -> Checked {
    let mut answer = [0; 2];
    // SAFETY: the pointers are those of a slice and an array, with the slice's length.
    unsafe { enrol_check(script.as_ptr(), script.len(), answer.as_mut_ptr()) };
    answer
}

pub fn guarded_check(script: &[u8]) -> Result<Checked, Strayed> {
    let mut script = Lent::new("script", script, 0x5a);
    let mut answer = Lent::new("answer", &[UNWRITTEN; 2], !UNWRITTEN);
    // SAFETY: both pointers are to as many words as the call is told of.
    unsafe { enrol_check(script.pointer(), script.length(), answer.pointer()) };
    script.all_holds()?;
    answer.guards_hold()?;
    let answer = answer.contents();
    Ok([answer[0], answer[1]])
}

pub fn display(
    script: &[u8],
    asked: &Asked,
    table: &mut [i32],
    groups: &mut [i32],
    sheet: &mut [i32],
) -> Answer {
    on_nothing(enrol_display, script, asked, table, groups, sheet)
}

pub fn search(
    script: &[u8],
    asked: &Asked,
    table: &mut [i32],
    groups: &mut [i32],
    sheet: &mut [i32],
) -> Answer {
    on_nothing(enrol_search, script, asked, table, groups, sheet)
}

fn on_nothing(
    engine: OnNothing,
    script: &[u8],
    asked: &Asked,
    table: &mut [i32],
    groups: &mut [i32],
    sheet: &mut [i32],
) -> Answer {
    let mut answer = [0; 9];
    let Asked { d, n, g, tally, count, name } = *asked;
    // SAFETY: the pointers are those of slices and an array, with the slices' lengths.
    unsafe {
        engine(
            script.as_ptr(),
            script.len(),
            d,
            n,
            g,
            tally,
            table.as_mut_ptr(),
            table.len(),
            count,
            groups.as_mut_ptr(),
            groups.len(),
            name,
            sheet.as_mut_ptr(),
            sheet.len(),
            answer.as_mut_ptr(),
        )
    };
    answer
}

pub fn guarded_display(
    script: &[u8],
    asked: &Asked,
    table: &[i32],
    groups: &[i32],
    sheet: &[i32],
) -> Result<Ran, Strayed> {
    guarded_on_nothing(enrol_display, script, asked, table, groups, sheet)
}

pub fn guarded_search(
    script: &[u8],
    asked: &Asked,
    table: &[i32],
    groups: &[i32],
    sheet: &[i32],
) -> Result<Ran, Strayed> {
    guarded_on_nothing(enrol_search, script, asked, table, groups, sheet)
}

/// What every engine is lent, between guards.
struct Guarded {
    script: Lent<u8>,
    table: Lent<i32>,
    groups: Lent<i32>,
    sheet: Lent<i32>,
    answer: Lent<u64>,
}

impl Guarded {
    fn new(script: &[u8], table: &[i32], groups: &[i32], sheet: &[i32]) -> Self {
        Guarded {
            script: Lent::new("script", script, 0x5a),
            table: Lent::new("table", table, GUARD),
            groups: Lent::new("list of groups", groups, GUARD),
            sheet: Lent::new("sheet", sheet, GUARD),
            answer: Lent::new("answer", &[UNWRITTEN; 9], !UNWRITTEN),
        }
    }

    /// What has become of it, where nothing else has changed.
    fn ran(&self, working: Vec<u32>) -> Result<Ran, Strayed> {
        self.script.all_holds()?;
        self.table.guards_hold()?;
        self.groups.guards_hold()?;
        self.sheet.guards_hold()?;
        self.answer.guards_hold()?;
        Ok(Ran {
            answer: self.answer.contents().try_into().expect("there are nine words"),
            table: self.table.contents().to_vec(),
            groups: self.groups.contents().to_vec(),
            sheet: self.sheet.contents().to_vec(),
            working,
        })
    }
}

fn guarded_on_nothing(
    engine: OnNothing,
    script: &[u8],
    asked: &Asked,
    table: &[i32],
    groups: &[i32],
    sheet: &[i32],
) -> Result<Ran, Strayed> {
    let mut lent = Guarded::new(script, table, groups, sheet);
    let Asked { d, n, g, tally, count, name } = *asked;
    // SAFETY: all pointers are to as many words as the call is told of.
    unsafe {
        engine(
            lent.script.pointer(),
            lent.script.length(),
            d,
            n,
            g,
            tally,
            lent.table.pointer(),
            lent.table.length(),
            count,
            lent.groups.pointer(),
            lent.groups.length(),
            name,
            lent.sheet.pointer(),
            lent.sheet.length(),
            lent.answer.pointer(),
        )
    };
    lent.ran(Vec::new())
}

/// `area` has room for the script's words for each activation.
pub fn copy(
    script: &[u8],
    asked: &Asked,
    table: &mut [i32],
    groups: &mut [i32],
    sheet: &mut [i32],
    area: &mut [u32],
) -> Answer {
    on_words(&COPY, script, asked, table, groups, sheet, area)
}

/// `records` has three words for each activation's record.
pub fn chain(
    script: &[u8],
    asked: &Asked,
    table: &mut [i32],
    groups: &mut [i32],
    sheet: &mut [i32],
    records: &mut [u32],
) -> Answer {
    on_words(&CHAIN, script, asked, table, groups, sheet, records)
}

fn on_words(
    engine: &OnWords,
    script: &[u8],
    asked: &Asked,
    table: &mut [i32],
    groups: &mut [i32],
    sheet: &mut [i32],
    own: &mut [u32],
) -> Answer {
    let mut answer = [0; 9];
    let Asked { d, n, g, tally, count, name } = *asked;
    // SAFETY: the pointers are those of slices and an array, with the slices' lengths.
    unsafe {
        (engine.call)(
            script.as_ptr(),
            script.len(),
            d,
            n,
            g,
            tally,
            table.as_mut_ptr(),
            table.len(),
            count,
            groups.as_mut_ptr(),
            groups.len(),
            name,
            sheet.as_mut_ptr(),
            sheet.len(),
            own.as_mut_ptr(),
            own.len() / engine.unit,
            answer.as_mut_ptr(),
        )
    };
    answer
}

pub fn guarded_copy(
    script: &[u8],
    asked: &Asked,
    table: &[i32],
    groups: &[i32],
    sheet: &[i32],
    area: &[u32],
) -> Result<Ran, Strayed> {
    guarded_on_words(&COPY, script, asked, table, groups, sheet, area)
}

pub fn guarded_chain(
    script: &[u8],
    asked: &Asked,
    table: &[i32],
    groups: &[i32],
    sheet: &[i32],
    records: &[u32],
) -> Result<Ran, Strayed> {
    guarded_on_words(&CHAIN, script, asked, table, groups, sheet, records)
}

fn guarded_on_words(
    engine: &OnWords,
    script: &[u8],
    asked: &Asked,
    table: &[i32],
    groups: &[i32],
    sheet: &[i32],
    own: &[u32],
) -> Result<Ran, Strayed> {
    let mut lent = Guarded::new(script, table, groups, sheet);
    let mut own = Lent::new("the engine's own words", own, GUARD as u32);
    let Asked { d, n, g, tally, count, name } = *asked;
    // SAFETY: all pointers are to as many words as the call is told of.
    unsafe {
        (engine.call)(
            lent.script.pointer(),
            lent.script.length(),
            d,
            n,
            g,
            tally,
            lent.table.pointer(),
            lent.table.length(),
            count,
            lent.groups.pointer(),
            lent.groups.length(),
            name,
            lent.sheet.pointer(),
            lent.sheet.length(),
            own.pointer(),
            own.length() / engine.unit,
            lent.answer.pointer(),
        )
    };
    own.guards_hold()?;
    lent.ran(own.contents().to_vec())
}

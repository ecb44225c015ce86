//! The reference behind C entries, for the fuzzer to compare with.

use std::slice;

use reference::{Engine, Lent, Request};

/// Runs up to this many steps are made by the copy rule, longer ones by the fast implementation.
const COPIED_STEPS: u32 = 100;
/// Those up to this many by search as well, where that engine is called.
const SEARCHED_STEPS: u32 = 1_000;

/// As enrol_check of include/enrol.h.
///
/// # Safety
/// `script` is to `length` bytes, `answer` to two words.
#[no_mangle]
pub unsafe extern "C" fn reference_check(script: *const u8, length: usize, answer: *mut [u64; 2]) {
    let script = unsafe { slice::from_raw_parts(script, length) };
    let verdict = match reference::check(script) {
        Ok(_) => [0, 0],
        Err(refused) => [refused.cause as u64, refused.offset as u64],
    };
    unsafe { *answer = verdict };
}

/// As enrol_copy.
///
/// # Safety
/// Each pointer is to as many elements as the length beside it says, `answer` to nine words; none overlap.
#[no_mangle]
pub unsafe extern "C" fn reference_copy(
    script: *const u8,
    script_len: usize,
    d: u32,
    n: u32,
    g: u32,
    tally: u64,
    table: *mut i32,
    table_len: usize,
    count: usize,
    groups: *mut i32,
    groups_len: usize,
    name: u16,
    sheet: *mut i32,
    sheet_len: usize,
    _area: *mut u32,
    area_len: usize,
    answer: *mut [u64; 9],
) {
    let script = unsafe { slice::from_raw_parts(script, script_len) };
    let table = unsafe { slice::from_raw_parts_mut(table, table_len) };
    let groups = unsafe { slice::from_raw_parts_mut(groups, groups_len) };
    let sheet = unsafe { slice::from_raw_parts_mut(sheet, sheet_len) };
    let engine = Engine::Copying { area: area_len };
    let request = Request { engine, script, d, n, g, tally, count, name };
    unsafe { *answer = run(&request, Lent { table, groups, sheet }) };
}

/// As enrol_chain.
///
/// # Safety
/// Each pointer is to as many elements as the length beside it says, `answer` to nine words; none overlap.
#[no_mangle]
pub unsafe extern "C" fn reference_chain(
    script: *const u8,
    script_len: usize,
    d: u32,
    n: u32,
    g: u32,
    tally: u64,
    table: *mut i32,
    table_len: usize,
    count: usize,
    groups: *mut i32,
    groups_len: usize,
    name: u16,
    sheet: *mut i32,
    sheet_len: usize,
    _records: *mut [u32; 3],
    records_len: usize,
    answer: *mut [u64; 9],
) {
    let script = unsafe { slice::from_raw_parts(script, script_len) };
    let table = unsafe { slice::from_raw_parts_mut(table, table_len) };
    let groups = unsafe { slice::from_raw_parts_mut(groups, groups_len) };
    let sheet = unsafe { slice::from_raw_parts_mut(sheet, sheet_len) };
    let engine = Engine::Chain { records: records_len };
    let request = Request { engine, script, d, n, g, tally, count, name };
    unsafe { *answer = run(&request, Lent { table, groups, sheet }) };
}

/// As enrol_display.
///
/// # Safety
/// Each pointer is to as many elements as the length beside it says, `answer` to nine words; none overlap.
#[no_mangle]
pub unsafe extern "C" fn reference_display(
    script: *const u8,
    script_len: usize,
    d: u32,
    n: u32,
    g: u32,
    tally: u64,
    table: *mut i32,
    table_len: usize,
    count: usize,
    groups: *mut i32,
    groups_len: usize,
    name: u16,
    sheet: *mut i32,
    sheet_len: usize,
    answer: *mut [u64; 9],
) {
    let script = unsafe { slice::from_raw_parts(script, script_len) };
    let table = unsafe { slice::from_raw_parts_mut(table, table_len) };
    let groups = unsafe { slice::from_raw_parts_mut(groups, groups_len) };
    let sheet = unsafe { slice::from_raw_parts_mut(sheet, sheet_len) };
    let request = Request { engine: Engine::Display, script, d, n, g, tally, count, name };
    unsafe { *answer = run(&request, Lent { table, groups, sheet }) };
}

/// As enrol_search; a run by search must come to the same.
///
/// # Safety
/// Each pointer is to as many elements as the length beside it says, `answer` to nine words; none overlap.
#[no_mangle]
pub unsafe extern "C" fn reference_search(
    script: *const u8,
    script_len: usize,
    d: u32,
    n: u32,
    g: u32,
    tally: u64,
    table: *mut i32,
    table_len: usize,
    count: usize,
    groups: *mut i32,
    groups_len: usize,
    name: u16,
    sheet: *mut i32,
    sheet_len: usize,
    answer: *mut [u64; 9],
) {
    let script = unsafe { slice::from_raw_parts(script, script_len) };
    let table = unsafe { slice::from_raw_parts_mut(table, table_len) };
    let groups = unsafe { slice::from_raw_parts_mut(groups, groups_len) };
    let sheet = unsafe { slice::from_raw_parts_mut(sheet, sheet_len) };
    let request = Request { engine: Engine::Search, script, d, n, g, tally, count, name };
    let searched = (n <= SEARCHED_STEPS)
        .then(|| by_search(&request, [table.to_vec(), groups.to_vec(), sheet.to_vec()]));
    let words = run(&request, Lent { table, groups, sheet });
    if let Some(searched) = searched {
        let copied = (words, [table.to_vec(), groups.to_vec(), sheet.to_vec()]);
        assert!(searched == copied, "search differs: {request:?}");
    }
    unsafe { *answer = words };
}

/// The answer, and what has become of table, list and sheet.
fn by_search(request: &Request, mut lent: [Vec<i32>; 3]) -> ([u64; 9], [Vec<i32>; 3]) {
    let [table, groups, sheet] = &mut lent;
    let answer = reference::search::run(request, Lent { table, groups, sheet });
    (answer.words(), lent)
}

fn run(request: &Request, lent: Lent) -> [u64; 9] {
    let run = if request.n <= COPIED_STEPS { reference::run } else { reference::fast::run };
    run(request, lent).words()
}

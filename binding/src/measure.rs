//! libmeasure.a: functions below the engines, exported for the benchmark and its tests alone.

use crate::lent::{Lent, Strayed};

extern "C" {
    fn measure_right(
        table: *const i32,
        table_len: usize,
        count: usize,
        limit: u32,
        groups: *const i32,
        groups_len: usize,
    ) -> bool;
    fn measure_find(
        table: *const i32,
        table_len: usize,
        count: usize,
        group: i32,
        member: i32,
    ) -> usize;
}

/// Whether the list of groups is long enough, the first `count` pairs make a right table for a group limit, and the list is
/// theirs.
pub fn right(table: &[i32], count: usize, limit: u32, groups: &[i32]) -> bool {
    // SAFETY: the pointers are slices', with their lengths.
    unsafe {
        measure_right(table.as_ptr(), table.len(), count, limit, groups.as_ptr(), groups.len())
    }
}

/// The place of a pair among the first `count`, and `count` where it is not there.
pub fn find(table: &[i32], count: usize, group: i32, member: i32) -> usize {
    // SAFETY: the pointer is a slice's, with its length.
    unsafe { measure_find(table.as_ptr(), table.len(), count, group, member) }
}

pub fn guarded_right(
    table: &[i32],
    count: usize,
    limit: u32,
    groups: &[i32],
) -> Result<bool, Strayed> {
    let mut table = Lent::new("table", table, 1);
    let mut groups = Lent::new("list of groups", groups, 1);
    // SAFETY: both pointers are to as many words as the call is told of.
    let answer = unsafe {
        measure_right(
            table.pointer(),
            table.length(),
            count,
            limit,
            groups.pointer(),
            groups.length(),
        )
    };
    table.all_holds()?;
    groups.all_holds()?;
    Ok(answer)
}

pub fn guarded_find(
    table: &[i32],
    count: usize,
    group: i32,
    member: i32,
) -> Result<usize, Strayed> {
    let mut table = Lent::new("table", table, 1);
    // SAFETY: the pointer is to as many words as the call is told of.
    let place = unsafe { measure_find(table.pointer(), table.length(), count, group, member) };
    table.all_holds()?;
    Ok(place)
}

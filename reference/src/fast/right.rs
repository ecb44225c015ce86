//! Whether the membership table and its list of groups are right: groups and then pairs are hashed, in time that
//! grows with the table's length.

use std::cell::RefCell;

use super::set::{seek, Set};
use crate::table::list_words;

thread_local! {
    /// What the test hashes into, kept from call to call so that memory is taken once.
    pub static ROOM: RefCell<Set> = const { RefCell::new(Set::new()) };
}

/// A pair's key is not 0 where one of its numbers is not.
pub fn key([group, member]: [i32; 2]) -> u64 {
    u64::from(group as u32) << 32 | u64::from(member as u32)
}

/// Whether the list is long enough, the table right for group limit `g` and the list right.
pub fn is_right(words: &[i32], count: usize, g: u32, groups: &[i32]) -> bool {
    ROOM.with_borrow_mut(|room| is_right_in(room, words, count, g, groups))
}

/// In this room, which then holds the table's pairs.
pub fn is_right_in(room: &mut Set, words: &[i32], count: usize, g: u32, groups: &[i32]) -> bool {
    let (pairs, odd) = words.as_chunks();
    let needed = list_words(words.len());
    if !odd.is_empty() || count > pairs.len() || groups.len() < needed {
        return false;
    }
    let (used, (places, _)) = (&pairs[..count], groups[..needed].as_chunks());
    let Some(listed) = listed(places, count, g) else { return false };
    at_least_one(used)
        && groups_agree(room.scratch(listed.len()), listed, used)
        && room.fill(used.iter().copied().map(key))
}

/// The places in use of a list that may be right by itself: groups rise, each number is from 1 to `g`, all
/// together are the count, and the places left are 0, 0.
fn listed(places: &[[i32; 2]], count: usize, g: u32) -> Option<&[[i32; 2]]> {
    let (mut last, mut sum, mut used) = (0, 0, 0);
    for &[group, members] in places.iter().take_while(|place| place[0] != 0) {
        if group <= last || members < 1 || members as u32 > g {
            return None;
        }
        last = group;
        sum += members as u64;
        used += 1;
    }
    let (listed, left) = places.split_at(used);
    let all_left = left.iter().fold(0, |all, place| all | place[0] | place[1]);
    (sum == count as u64 && all_left == 0).then_some(listed)
}

/// Without a way out at the first, so that several are compared at once.
fn at_least_one(used: &[[i32; 2]]) -> bool {
    used.iter().fold(true, |all, pair| all & (pair[0] >= 1) & (pair[1] >= 1))
}

/// A slot has a group in its upper half and what is left of its number in the lower one. Each pair takes one of
/// its group's; as the numbers add up to the count, none is left over.
fn groups_agree(slots: &mut [u64], listed: &[[i32; 2]], used: &[[i32; 2]]) -> bool {
    for &[group, members] in listed {
        let place = seek(slots, group as u64, |_| false);
        slots[place] = key([group, members]);
    }
    for &[group, _] in used {
        let group = group as u64;
        let place = seek(slots, group, |slot| slot >> 32 == group);
        if slots[place] as u32 == 0 {
            return false;
        }
        slots[place] -= 1;
    }
    true
}

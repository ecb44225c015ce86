//! The membership table in a run, with the list of groups beside it. The pairs that the test has hashed stay
//! hashed, so that only RM walks over the table, to the pair that it takes out.

use super::flaw::{Flaw, Variant};
use super::right::key;
use super::set::Set;
use crate::cause::Stop;
use crate::table::list_words;

pub struct Members<'a> {
    pairs: &'a mut [[i32; 2]],
    count: usize,
    g: usize,
    /// The places of the list that are asked for.
    groups: &'a mut [[i32; 2]],
    /// Places of the list in use.
    listed: usize,
    /// The pairs in use.
    held: &'a mut Set,
}

impl<'a> Members<'a> {
    /// The table and the list are right, and the set holds the pairs in use.
    pub fn new(
        words: &'a mut [i32],
        count: usize,
        groups: &'a mut [i32],
        g: u32,
        held: &'a mut Set,
    ) -> Self {
        let (groups, _) = groups[..list_words(words.len())].as_chunks_mut();
        let (pairs, _) = words.as_chunks_mut();
        let listed = groups.partition_point(|place| place[0] != 0);
        Members { pairs, count, g: g as usize, groups, listed, held }
    }

    pub fn count(&self) -> usize {
        self.count
    }

    pub fn is_full(&self) -> bool {
        self.count == self.pairs.len()
    }

    pub fn holds(&self, pair: [i32; 2]) -> bool {
        self.held.holds(key(pair))
    }

    /// The place of a group in the list, or the one where it belongs.
    fn place(&self, group: i32) -> Result<usize, usize> {
        self.groups[..self.listed].binary_search_by_key(&group, |place| place[0])
    }

    /// Why an absent pair can't be added, if it can't.
    fn no_room(&self, place: Result<usize, usize>) -> Option<Stop> {
        let members = place.map_or(0, |at| self.groups[at][1] as usize);
        if members >= self.g {
            Some(Stop::GroupFull)
        } else if self.is_full() {
            Some(Stop::TableFull)
        } else {
            None
        }
    }

    pub fn add<V: Variant>(&mut self, pair: [i32; 2]) -> Result<(), Stop> {
        if self.holds(pair) {
            return Ok(());
        }
        let place = self.place(pair[0]);
        let no_room = self.no_room(place);
        let late = V::FLAW == Some(Flaw::LateGroupLimit) && !self.is_full();
        if no_room.is_none() || late {
            self.pairs[self.count] = pair;
            self.count += 1;
            self.held.insert(key(pair));
            self.count_in::<V>(place, pair[0]);
        }
        no_room.map_or(Ok(()), Err)
    }

    fn count_in<V: Variant>(&mut self, place: Result<usize, usize>, group: i32) {
        match place {
            Ok(at) => self.groups[at][1] += 1,
            Err(at) => {
                let at = if V::FLAW == Some(Flaw::NewGroupLast) { self.listed } else { at };
                self.groups.copy_within(at..self.listed, at + 1);
                self.groups[at] = [group, 1];
                self.listed += 1;
            }
        }
    }

    pub fn remove<V: Variant>(&mut self, pair: [i32; 2]) {
        if !self.holds(pair) {
            return;
        }
        let at = first(&self.pairs[..self.count], pair);
        self.pairs.copy_within(at + 1..self.count, at);
        self.count -= 1;
        self.pairs[self.count] = [0, 0];
        self.held.remove(key(pair));
        if let Ok(at) = self.place(pair[0]) {
            self.count_out::<V>(at);
        }
    }

    /// A group without members leaves the list.
    fn count_out<V: Variant>(&mut self, at: usize) {
        if V::FLAW != Some(Flaw::NumberNotLowered) {
            self.groups[at][1] -= 1;
        }
        if self.groups[at][1] > 0 || V::FLAW == Some(Flaw::EmptyGroupKept) {
            return;
        }
        self.groups.copy_within(at + 1..self.listed, at);
        self.listed -= 1;
        if V::FLAW != Some(Flaw::FreedPlaceKept) {
            self.groups[self.listed] = [0, 0];
        }
    }
}

/// The place of a pair that is there. Whole blocks are compared first, which goes several pairs at a time.
fn first(pairs: &[[i32; 2]], pair: [i32; 2]) -> usize {
    let (blocks, rest) = pairs.as_chunks::<64>();
    let is_in = |block: &[[i32; 2]; 64]| block.iter().fold(false, |all, it| all | (*it == pair));
    let at = |block: &[[i32; 2]]| block.iter().position(|it| *it == pair);
    let block = blocks.iter().position(is_in).unwrap_or(blocks.len());
    64 * block + at(blocks.get(block).map_or(rest, |block| block)).expect("the pair is held")
}

//! Bounds: the membership table. Beside it the list of its groups, each with its number of members.

use std::collections::BTreeMap;

pub type Pair = (i32, i32);

/// The lent words, two for a pair, the count of pairs in use, and the list.
pub struct Table<'a> {
    words: &'a mut [i32],
    count: usize,
    /// The words asked for.
    groups: &'a mut [i32],
}

impl<'a> Table<'a> {
    /// The list is long enough; words after those asked for are left alone.
    pub fn new(words: &'a mut [i32], count: usize, groups: &'a mut [i32]) -> Self {
        let groups = &mut groups[..list_words(words.len())];
        Table { words, count, groups }
    }

    pub fn count(&self) -> usize {
        self.count
    }

    pub fn is_full(&self) -> bool {
        self.count == self.words.len() / 2
    }

    pub fn find(&self, pair: Pair) -> Option<usize> {
        find(self.words, self.count, pair)
    }

    /// As the list says.
    pub fn members(&self, group: i32) -> usize {
        let mut places = self.groups.chunks_exact(2);
        places.find(|place| place[0] == group).map_or(0, |place| place[1] as usize)
    }

    /// A present pair changes nothing; else a place must be free.
    pub fn add(&mut self, pair: Pair) {
        if self.find(pair).is_none() {
            self.set(self.count, pair);
            self.count += 1;
            self.list_anew();
        }
    }

    /// Later pairs move down by one and the place freed last is cleared.
    pub fn remove(&mut self, pair: Pair) {
        let Some(place) = self.find(pair) else { return };
        self.words.copy_within(2 * place + 2..2 * self.count, 2 * place);
        self.count -= 1;
        self.set(self.count, (0, 0));
        self.list_anew();
    }

    fn set(&mut self, place: usize, pair: Pair) {
        self.words[2 * place] = pair.0;
        self.words[2 * place + 1] = pair.1;
    }

    /// Slow, and so that nothing of the list before can be left over.
    fn list_anew(&mut self) {
        self.groups.copy_from_slice(&list(self.words, self.count));
    }
}

/// The first place of a pair among those in use.
pub fn find(words: &[i32], count: usize, pair: Pair) -> Option<usize> {
    pairs(words, count).position(|other| other == pair)
}

/// Whether the table is right for group limit `g`.
pub fn is_right(words: &[i32], count: usize, g: u32) -> bool {
    if !words.len().is_multiple_of(2) || count > words.len() / 2 {
        return false;
    }
    let mut sorted: Vec<Pair> = pairs(words, count).collect();
    sorted.sort_unstable();
    let at_least_one = sorted.iter().all(|pair| pair.0 >= 1 && pair.1 >= 1);
    let no_pair_twice = sorted.windows(2).all(|two| two[0] != two[1]);
    let mut groups = sorted.chunk_by(|left, right| left.0 == right.0);
    at_least_one && no_pair_twice && groups.all(|group| group.len() as u64 <= u64::from(g))
}

/// The words asked for of the list beside a table of so many words: as many places as the table has room for pairs.
pub fn list_words(table: usize) -> usize {
    2 * (table / 2)
}

/// The list of a table: its groups rising, each with a full count, and 0, 0 in the places left.
pub fn list(words: &[i32], count: usize) -> Vec<i32> {
    let mut members = BTreeMap::new();
    for (group, _) in pairs(words, count) {
        *members.entry(group).or_insert(0) += 1;
    }
    let mut list: Vec<i32> = members.into_iter().flat_map(|(group, it)| [group, it]).collect();
    list.resize(list_words(words.len()), 0);
    list
}

/// Of a list that is long enough: only one is right, whatever its words after those asked for hold.
pub fn list_is_right(groups: &[i32], words: &[i32], count: usize) -> bool {
    groups[..list_words(words.len())] == list(words, count)
}

fn pairs(words: &[i32], count: usize) -> impl Iterator<Item = Pair> + '_ {
    words.chunks_exact(2).take(count).map(|pair| (pair[0], pair[1]))
}

//! A slice as it is lent to C: between guards, of which none may change.

use std::fmt;

const GUARD: usize = 16;

/// What a call changed and may not.
#[derive(Clone, Debug, PartialEq, Eq)]
pub struct Strayed {
    pub lent: &'static str,
    /// From the first word lent; one that is negative or at least the length is a guard's.
    pub word: isize,
}

impl fmt::Display for Strayed {
    fn fmt(&self, formatter: &mut fmt::Formatter) -> fmt::Result {
        write!(formatter, "word {} of the {} changed", self.word, self.lent)
    }
}

pub struct Lent<T> {
    name: &'static str,
    words: Vec<T>,
    before: Vec<T>,
}

impl<T: Copy + PartialEq> Lent<T> {
    pub fn new(name: &'static str, contents: &[T], guard: T) -> Self {
        let words = [&[guard; GUARD], contents, &[guard; GUARD]].concat();
        Lent { name, before: words.clone(), words }
    }

    /// Made from the whole, so that what is written through it is read again, wherever it is.
    pub fn pointer(&mut self) -> *mut T {
        self.words.as_mut_ptr().wrapping_add(GUARD)
    }

    pub fn length(&self) -> usize {
        self.words.len() - 2 * GUARD
    }

    pub fn contents(&self) -> &[T] {
        &self.words[GUARD..][..self.length()]
    }

    /// Of a slice that may be written: neither guard has changed.
    pub fn guards_hold(&self) -> Result<(), Strayed> {
        let within = GUARD..GUARD + self.length();
        self.changed(|word| !within.contains(&word))
    }

    /// Of a slice that is only read: nothing has changed.
    pub fn all_holds(&self) -> Result<(), Strayed> {
        self.changed(|_| true)
    }

    fn changed(&self, matters: impl Fn(usize) -> bool) -> Result<(), Strayed> {
        let differs = |&word: &usize| self.words[word] != self.before[word] && matters(word);
        match (0..self.words.len()).find(differs) {
            Some(word) => Err(Strayed { lent: self.name, word: word as isize - GUARD as isize }),
            None => Ok(()),
        }
    }
}

#[cfg(test)]
mod tests {
    use super::*;

    fn written(word: isize) -> Lent<u64> {
        let mut lent = Lent::new("sheet", &[5, 6, 7], 0xa5);
        // SAFETY: the tests stay within the guards.
        unsafe { lent.pointer().offset(word).write(1) };
        lent
    }

    #[test]
    fn a_word_past_either_end_is_seen() {
        for word in [-16, -1, 3, 18] {
            let strayed = Err(Strayed { lent: "sheet", word });
            assert_eq!(written(word).guards_hold(), strayed);
            assert_eq!(written(word).all_holds(), strayed);
        }
    }

    #[test]
    fn a_word_lent_may_be_written_or_not() {
        for word in 0..3 {
            let lent = written(word);
            assert_eq!(lent.contents()[word as usize], 1);
            assert_eq!(lent.guards_hold(), Ok(()));
            assert_eq!(lent.all_holds(), Err(Strayed { lent: "sheet", word }));
        }
    }
}

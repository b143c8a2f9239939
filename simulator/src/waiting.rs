//! Delayed stores: the owner's waiting line. A store of the owner joins its end,
//! and a drain puts down the oldest one. Until then the owner alone knows of it.

/// No more than so many wait.
pub const LONGEST: usize = 8;

/// A store of the owner, by its place and its value.
#[derive(Clone, Copy, Debug, PartialEq, Eq)]
pub enum Waiting {
    /// Word `word` of the task in `slot` of an array, which is named by its place
    /// in the directory, counted from 0.
    Word { array: usize, slot: u32, word: usize, value: u32 },
    /// The note which array is current: so many are published.
    Note { published: usize },
    /// Head, count and tag; of LIFO 0, t and g.
    Anchor([u32; 3]),
    /// Of FIFO.
    Head(u32),
    Tail(u32),
}

#[derive(Clone, Debug, Default, PartialEq, Eq)]
pub struct Line {
    /// Without it no store ever waits.
    delayed: bool,
    /// Oldest first.
    stores: Vec<Waiting>,
}

impl Line {
    pub fn new(delayed: bool) -> Line {
        Line { delayed, stores: Vec::new() }
    }

    pub fn delayed(&self) -> bool {
        self.delayed
    }

    pub fn stores(&self) -> &[Waiting] {
        &self.stores
    }

    /// Whether so many stores more can wait.
    pub fn takes(&self, count: usize) -> bool {
        !self.delayed || self.stores.len() + count <= LONGEST
    }

    /// A store joins the end. Without the mode it does not wait: it is handed
    /// back, to be put down at once.
    pub fn join(&mut self, store: Waiting) -> Option<Waiting> {
        if !self.delayed {
            return Some(store);
        }
        self.stores.push(store);
        None
    }

    /// The oldest store, which waits no more.
    pub fn oldest(&mut self) -> Option<Waiting> {
        (!self.stores.is_empty()).then(|| self.stores.remove(0))
    }

    /// What the youngest store to a place says, if one to it waits. `says` tells
    /// the value of a store to that place.
    pub fn youngest<Value>(&self, says: impl Fn(Waiting) -> Option<Value>) -> Option<Value> {
        self.stores.iter().rev().find_map(|&store| says(store))
    }

    /// The anchor that the owner reads, if a store to it waits.
    pub fn anchor(&self) -> Option<[u32; 3]> {
        self.youngest(|store| match store {
            Waiting::Anchor(anchor) => Some(anchor),
            _ => None,
        })
    }
}

#[cfg(test)]
mod tests {
    use super::*;

    #[test]
    fn without_the_mode_nothing_waits() {
        let mut line = Line::new(false);
        for _ in 0..20 {
            assert!(line.takes(5));
            assert_eq!(line.join(Waiting::Head(3)), Some(Waiting::Head(3)));
        }
        assert_eq!(line.oldest(), None);
        assert!(line.stores().is_empty());
    }

    #[test]
    fn eight_wait_and_the_oldest_goes_first() {
        let mut line = Line::new(true);
        for count in 0..8 {
            for more in 0..=5 {
                assert_eq!(line.takes(more), count as usize + more <= 8, "{count} and {more}");
            }
            assert_eq!(line.join(Waiting::Tail(count)), None);
        }
        assert!(line.takes(0));
        assert!(!line.takes(1));
        for count in 0..8 {
            assert_eq!(line.oldest(), Some(Waiting::Tail(count)));
        }
        assert_eq!(line.oldest(), None);
    }

    #[test]
    fn the_youngest_store_to_a_place_counts() {
        let mut line = Line::new(true);
        assert_eq!(line.anchor(), None);
        line.join(Waiting::Anchor([0, 1, 1]));
        line.join(Waiting::Anchor([0, 2, 0]));
        line.join(Waiting::Note { published: 2 });
        assert_eq!(line.anchor(), Some([0, 2, 0]));
        line.oldest();
        assert_eq!(line.anchor(), Some([0, 2, 0]));
        line.oldest();
        assert_eq!(line.anchor(), None);
    }
}

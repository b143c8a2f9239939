//! What X1 may claim (wish 11), worked out from what all queues on the words show
//! and not from what the machines were told. `Rooms` holds each X1 against it: a
//! new array lies at the next free word and fits, and FULL is answered only where
//! none would fit.

use std::fmt;

use crate::bench::Shape;
use crate::found::Found;
use crate::outcome::Outcome;
use crate::settled::owners_published;
use crate::store::{Array, Store, LARGEST};
use crate::witness::{Cause, Shown, Witness};

/// No more words of a store are used.
pub const USABLE: u32 = 10_235;

/// The words that these arrays take.
pub fn taken(arrays: &[Array], payload_words: u32) -> u32 {
    arrays.iter().map(|array| array.size * (payload_words + 1)).sum()
}

/// The words that a queue has claimed, and those that its ask has set aside.
pub fn used(store: &Store) -> (u32, u32) {
    (taken(store.arrays(), store.payload_words()), store.aside())
}

/// The most words that a queue's arrays may take, on a store of so many words.
pub fn quota(shape: Shape, words: u32) -> u32 {
    shape.quota.unwrap_or(words)
}

/// The words that an array of twice this size takes; none where X1 would answer
/// FULL, of a queue with these arrays. `shown` tells of the other queues.
pub fn doubled(shape: Shape, arrays: &[Array], size: u32, shown: &Shown) -> Option<u32> {
    let length = shown.store.words().len() as u32;
    let own = i64::from(taken(arrays, shape.payload_words));
    let mut rest = i64::from(length.min(USABLE)) - own;
    for (claimed, aside) in shown.neighbours.iter().map(|queue| used(queue.store())) {
        rest -= i64::from(claimed) + i64::from(aside);
    }
    let of_quota = i64::from(quota(shape, length)) - own;
    let words = 2 * size * (shape.payload_words + 1);
    (2 * size <= LARGEST && i64::from(words) <= rest.min(of_quota)).then_some(words)
}

#[derive(Default)]
pub struct Rooms {
    shape: Option<Shape>,
    /// As the last call left them: the arrays, and how many are published for the
    /// owner.
    before: Option<(Vec<Array>, usize)>,
    found: Found,
}

impl Rooms {
    pub fn is_wrong(&self) -> bool {
        self.found.is_wrong()
    }

    /// Whether X1 did what it should, if the step was X1; else what it did.
    fn right(&self, shape: Shape, outcome: Outcome, shown: &Shown) -> Result<(), &'static str> {
        let Some((before, published)) = &self.before else { return Ok(()) };
        let claimed = shown.store.arrays().get(before.len()..).unwrap_or(&[]);
        let size = before[published - 1].size;
        match (outcome, doubled(shape, before, size, shown)) {
            (Outcome::Full(_), Some(_)) => Err("FULL though an array fits"),
            (_, None) if !claimed.is_empty() => Err("an array is claimed that does not fit"),
            (_, Some(_)) if !claimed.is_empty() => {
                let others: u32 = shown.neighbours.iter().map(|queue| used(queue.store()).0).sum();
                let offset = taken(before, shape.payload_words) + others;
                if claimed == [Array { offset, size: 2 * size }] {
                    Ok(())
                } else {
                    Err("an array is claimed elsewhere than at the next free word, or of another size")
                }
            }
            _ => Ok(()),
        }
    }
}

impl fmt::Display for Rooms {
    fn fmt(&self, text: &mut fmt::Formatter<'_>) -> fmt::Result {
        self.found.tell(text, "room as told", "room mistaken")
    }
}

impl Witness for Rooms {
    fn fresh(&mut self, shape: Shape) {
        self.shape = Some(shape);
        self.before = None;
    }

    fn call(&mut self) {
        self.found.call();
    }

    fn watches(&self) -> bool {
        true
    }

    fn after(&mut self, cause: Cause, shown: &Shown) {
        let Some(shape) = self.shape else { return };
        if let Cause::Step { worker: 0, outcome } = cause {
            self.found.note(self.right(shape, outcome, shown));
        }
        self.before = Some((shown.store.arrays().to_vec(), owners_published(shown.store)));
    }
}

#[cfg(test)]
mod tests {
    use super::*;
    use crate::store::Others;
    use crate::task::Task;
    use crate::yard::Neighbours;

    const SHAPE: Shape =
        Shape { kind: 1, width: 1, size: 1, crew: 1, payload_words: 1, delayed: false, quota: Some(6) };

    /// A step of the owner that finds an array of one task on so many words, and
    /// claims this one, or none.
    fn is_wrong(shape: Shape, words: usize, outcome: Outcome, claim: Option<Array>) -> bool {
        let mut store = Store::beside(Others::default(), vec![0; words], 99, 1, 1);
        let mut rooms = Rooms::default();
        rooms.fresh(shape);
        let mut after = |cause, store: &Store| {
            let neighbours = Neighbours::default();
            let shown = Shown { anchor: [0; 3], restarts: &[0; 8], store, copying: false, commits: false, neighbours };
            rooms.after(cause, &shown);
            rooms.is_wrong()
        };
        after(Cause::Other, &store);
        if let Some(array) = claim {
            store.claim(array);
        }
        after(Cause::Step { worker: 0, outcome }, &store)
    }

    #[test]
    fn full_exactly_where_no_array_fits() {
        let full = |shape, words| is_wrong(shape, words, Outcome::Full(Task::default()), None);
        assert!(full(SHAPE, 6));
        assert!(!full(SHAPE, 5), "too few words");
        assert!(!full(Shape { quota: Some(5), ..SHAPE }, 6), "too small a quota");
        assert!(full(Shape { quota: None, ..SHAPE }, 6));
        assert!(!full(Shape { quota: None, ..SHAPE }, 5));
    }

    #[test]
    fn an_array_is_claimed_where_it_fits_at_the_next_free_word() {
        let claim = |shape, words, offset, size| is_wrong(shape, words, Outcome::GoesOn, Some(Array { offset, size }));
        assert!(!claim(SHAPE, 6, 2, 2));
        assert!(claim(SHAPE, 20, 3, 2));
        assert!(claim(SHAPE, 20, 2, 1));
        assert!(claim(SHAPE, 20, 2, 4));
        assert!(claim(Shape { quota: Some(5), ..SHAPE }, 20, 2, 2));
        assert!(claim(SHAPE, 7, 3, 2));
    }
}

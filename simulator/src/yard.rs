//! A yard: up to four queues on the same words, each a bench with its own owner,
//! thieves, kind and quota. The words are lent to the queue that is called and
//! taken back after the call.

use crate::bench::{Bench, Shape};
use crate::outcome::refusal;
use crate::store::Others;

pub const MOST_QUEUES: usize = 4;

#[derive(Default)]
pub struct Yard {
    words: Vec<u32>,
    /// By their numbers. While none is called, none has the words.
    queues: Vec<Bench>,
}

/// All queues but the one that is called.
#[derive(Clone, Copy, Default)]
pub struct Neighbours<'a> {
    before: &'a [Bench],
    behind: &'a [Bench],
}

impl<'a> Neighbours<'a> {
    /// All of these.
    pub fn of(queues: &'a [Bench]) -> Neighbours<'a> {
        Neighbours { before: queues, behind: &[] }
    }

    pub fn iter(self) -> impl Iterator<Item = &'a Bench> {
        self.before.iter().chain(self.behind)
    }

    /// What they have of the words.
    fn have(self) -> Others {
        let mut all = Others::default();
        for queue in self.iter() {
            all.claimed += queue.store().claimed();
            all.aside += queue.store().aside();
        }
        all
    }
}

impl Yard {
    pub fn new(words: Vec<u32>) -> Yard {
        Yard { words, queues: Vec::new() }
    }

    /// Takes the words out of it. The queues are gone.
    pub fn into_words(self) -> Vec<u32> {
        self.words
    }

    pub fn words(&self) -> &[u32] {
        &self.words
    }

    pub fn queues(&self) -> &[Bench] {
        &self.queues
    }

    /// The next queue; a refused one changes nothing.
    pub fn make(&mut self, shape: Shape) -> Result<(), u32> {
        if self.queues.len() == MOST_QUEUES {
            return Err(refusal::NO_SUCH_QUEUE);
        }
        let all = Neighbours::of(&self.queues).have();
        let mut queue = Bench::beside(all, shape, &mut self.words)?;
        self.words = queue.take_back();
        self.queues.push(queue);
        Ok(())
    }

    /// Makes a call of a queue, if there is such a queue.
    pub fn call<Answer>(
        &mut self,
        number: usize,
        call: impl FnOnce(&mut Bench, Neighbours) -> Answer,
    ) -> Option<Answer> {
        if number >= self.queues.len() {
            return None;
        }
        let (before, rest) = self.queues.split_at_mut(number);
        let (queue, behind) = rest.split_first_mut()?;
        let neighbours = Neighbours { before, behind };
        queue.lend(std::mem::take(&mut self.words), neighbours.have());
        let answer = call(queue, neighbours);
        self.words = queue.take_back();
        Some(answer)
    }
}

#[cfg(test)]
mod tests {
    use super::*;
    use crate::bench::Operation;
    use crate::outcome::Outcome;
    use crate::random::Random;
    use crate::rooms;
    use crate::witness::Blind;

    const FIFO: Shape = Shape { kind: 2, width: 1, size: 1, crew: 1, payload_words: 1, delayed: false, quota: None };

    fn yard(words: usize, makings: &[Shape]) -> Yard {
        let mut yard = Yard::new(vec![7; words]);
        for &shape in makings {
            yard.make(shape).unwrap();
        }
        yard
    }

    fn ask(yard: &mut Yard, number: usize) -> Result<(), u32> {
        yard.call(number, |queue, _| queue.ask(0)).unwrap()
    }

    /// Ask and commit; an empty FIFO has nothing to copy.
    fn grow(yard: &mut Yard, number: usize) -> Result<(), u32> {
        ask(yard, number)?;
        yard.call(number, |queue, _| {
            queue.begin(0, Operation::Commit).unwrap();
            let outcomes = [0; 3].map(|worker| queue.step(worker, true, &mut Blind));
            assert_eq!(outcomes, [Outcome::GoesOn, Outcome::GoesOn, Outcome::Committed]);
        });
        Ok(())
    }

    fn offsets(yard: &Yard, number: usize) -> Vec<u32> {
        yard.queues()[number].store().arrays().iter().map(|array| array.offset).collect()
    }

    #[test]
    fn arrays_lie_at_the_next_free_word() {
        let mut yard = yard(30, &[FIFO, Shape { payload_words: 2, ..FIFO }]);
        grow(&mut yard, 0).unwrap();
        grow(&mut yard, 1).unwrap();
        grow(&mut yard, 0).unwrap();
        yard.make(FIFO).unwrap();
        assert_eq!(offsets(&yard, 0), [0, 5, 15]);
        assert_eq!(offsets(&yard, 1), [2, 9]);
        assert_eq!(offsets(&yard, 2), [23]);
        assert_eq!(yard.words()[..25], [0; 25]);
        assert_eq!(yard.words()[25..], [7; 5]);
    }

    #[test]
    fn words_set_aside_by_others_count_and_own_ones_do_not() {
        // Two arrays of 2 words; one of 4 fits beside them, and not two.
        let mut yard = yard(9, &[FIFO, FIFO]);
        ask(&mut yard, 0).unwrap();
        assert_eq!(ask(&mut yard, 1), Err(20));
        assert_eq!(yard.make(Shape { size: 2, ..FIFO }), Err(5));
        assert_eq!(ask(&mut yard, 0), Err(21));
        yard.call(0, |queue, _| assert!(queue.store().next_array().is_some()));
        yard.call(0, |queue, _| queue.drop_ask(0)).unwrap().unwrap();
        assert_eq!(ask(&mut yard, 1), Ok(()));
        assert_eq!(ask(&mut yard, 0), Err(20));
    }

    #[test]
    fn a_quota_is_the_queues_own() {
        for (quota, fits) in [(1, None), (2, Some(false)), (5, Some(false)), (6, Some(true)), (u32::MAX, Some(true))] {
            let mut yard = yard(40, &[Shape { quota: Some(9), ..FIFO }]);
            grow(&mut yard, 0).unwrap();
            let made = yard.make(Shape { quota: Some(quota), ..FIFO });
            assert_eq!(made, if fits.is_some() { Ok(()) } else { Err(23) });
            if let Some(fits) = fits {
                assert_eq!(ask(&mut yard, 1).is_ok(), fits, "quota {quota}");
            }
        }
    }

    #[test]
    fn a_making_is_refused_in_order_and_uses_no_number() {
        let mut yard = yard(8, &[FIFO]);
        let wrong = Shape { kind: 0, width: 0, size: 0, crew: 0, payload_words: 0, quota: Some(0), ..FIFO };
        let mut shape = wrong;
        for (number, next) in [
            (1, Shape { kind: 1, ..wrong }),
            (2, Shape { kind: 1, width: 1, ..wrong }),
            (3, Shape { kind: 1, width: 1, size: 4, ..wrong }),
            (4, Shape { size: 4, payload_words: 0, quota: Some(0), ..FIFO }),
            (16, Shape { size: 4, quota: Some(0), ..FIFO }),
            (5, Shape { quota: Some(0), ..FIFO }),
            (23, FIFO),
        ] {
            assert_eq!(yard.make(shape), Err(number));
            assert_eq!((yard.queues().len(), yard.words()), (1, &[0, 0, 7, 7, 7, 7, 7, 7][..]));
            shape = next;
        }
        for _ in 0..3 {
            assert_eq!(yard.make(shape), Ok(()));
        }
        assert_eq!(yard.make(shape), Err(24));
        assert_eq!(yard.make(wrong), Err(24));
        assert_eq!(yard.call(4, |_, _| ()), None);
    }

    #[test]
    fn no_more_than_the_first_words_are_used() {
        let large = Shape { size: 1024, payload_words: 4, ..FIFO };
        assert_eq!(yard(10_300, &[large]).make(large), Err(5));
        let mut yard = yard(10_300, &[large, Shape { payload_words: 4, ..FIFO }]);
        while grow(&mut yard, 1).is_ok() {}
        assert_eq!(yard.queues()[1].store().claimed(), 5115);
    }

    /// The queues are told the room that the rule gives.
    #[test]
    fn room_as_the_rule_says() {
        let mut random = Random::new(11);
        for _ in 0..300 {
            let words = random.between(1, 120);
            let mut yard = Yard::new(vec![7; words as usize]);
            let mut shapes = Vec::new();
            for _ in 0..40 {
                let shape = Shape {
                    size: 1 << random.below(3),
                    payload_words: random.between(1, 4),
                    quota: random.chance(60).then(|| random.below(words + 2)),
                    ..FIFO
                };
                if random.chance(10) && yard.make(shape).is_ok() {
                    shapes.push(shape);
                }
                if shapes.is_empty() {
                    continue;
                }
                let number = random.below(shapes.len() as u32) as usize;
                yard.call(number, |queue, neighbours| {
                    let store = queue.store();
                    let next = store.next_array().map(|array| store.length(array));
                    let shown = queue.shown_beside(neighbours);
                    let size = store.owners_size();
                    assert_eq!(next, rooms::doubled(shapes[number], store.arrays(), size, &shown));
                    match random.below(3) {
                        0 => {
                            let stood = queue.store().aside() > 0;
                            assert_eq!(queue.ask(0).is_ok(), next.is_some() && !stood);
                        }
                        1 => assert!(queue.drop_ask(0).is_ok() || queue.store().aside() == 0),
                        _ if queue.store().aside() > 0 => {
                            queue.begin(0, Operation::Commit).unwrap();
                            while queue.step(0, true, &mut Blind) != Outcome::Committed {}
                        }
                        _ => {}
                    }
                });
            }
        }
    }
}

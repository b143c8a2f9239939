//! What a call leaves alone: every word outside the arrays of its own queue, and
//! every other queue with its log. A making zeroes its first array, which lies at
//! the next free word, and changes nothing else; whether it is refused, and by which
//! number, is worked out anew from what the queues show. A fresh bench is the making
//! of a queue that has no others.

use std::fmt;

use crate::bench::{Bench, Shape};
use crate::company::View;
use crate::found::Found;
use crate::log::Log;
use crate::outcome::refusal;
use crate::rooms;
use crate::settled::places;
use crate::store::Array;

/// As the last call left them.
pub struct Apart {
    words: Vec<u32>,
    queues: Vec<Bench>,
    logs: Vec<Log>,
    found: Found,
}

impl Apart {
    pub fn new(words: &[u32]) -> Apart {
        Apart { words: words.to_vec(), queues: Vec::new(), logs: Vec::new(), found: Found::default() }
    }

    pub fn is_wrong(&self) -> bool {
        self.found.is_wrong()
    }

    pub fn cleared(&mut self) {
        self.queues.clear();
        self.logs.clear();
    }

    pub fn made(&mut self, shape: Shape, answer: Result<(), u32>, view: &View) {
        self.found.call();
        let number = self.queues.len();
        let found = self.making(shape, answer, view).and_then(|()| self.kept(number, view));
        self.found.note(found);
        if let (Ok(()), Some(queue)) = (answer, view.queues.get(number)) {
            self.queues.push(queue.clone());
            self.logs.push(view.logs[number].clone());
        }
        self.words.copy_from_slice(view.words);
    }

    pub fn called(&mut self, number: usize, view: &View) {
        self.found.call();
        let as_many = view.queues.len() == self.queues.len();
        let found = if as_many { self.kept(number, view) } else { Err("the queues are others") };
        self.found.note(found);
        if let (Some(now), Some(before)) = (view.queues.get(number), self.queues.get_mut(number)) {
            before.clone_from(now);
            self.logs[number].clone_from(view.logs[number]);
        }
        self.words.copy_from_slice(view.words);
    }

    /// Whether a making was answered as it should be, and made what it should; else
    /// what is wrong.
    fn making(&self, shape: Shape, answer: Result<(), u32>, view: &View) -> Result<(), &'static str> {
        if answer != self.due(shape) {
            return Err("a making is answered wrong");
        }
        if answer.is_err() {
            return if view.queues.len() == self.queues.len() { Ok(()) } else { Err("a refused making made a queue") };
        }
        let Some(queue) = view.queues.get(self.queues.len()) else { return Err("a making made no queue") };
        let first = Array { offset: self.used().0, size: shape.size };
        if queue.store().arrays() != [first] {
            return Err("the first array does not lie at the next free word");
        }
        if view.words[places(first, shape.payload_words)].iter().any(|&word| word != 0) {
            return Err("the first array is not zero");
        }
        Ok(())
    }

    /// The words that all queues have claimed, and those that they have set aside.
    fn used(&self) -> (u32, u32) {
        let each = self.queues.iter().map(|queue| rooms::used(queue.store()));
        each.fold((0, 0), |(claimed, aside), (more, also)| (claimed + more, aside + also))
    }

    /// What a making is to be answered.
    fn due(&self, shape: Shape) -> Result<(), u32> {
        let length = self.words.len() as u32;
        let (claimed, aside) = self.used();
        let within = |value, most| (1..=most).contains(&value);
        let first = u64::from(shape.size) * (u64::from(shape.payload_words) + 1);
        let conditions = [
            (refusal::NO_SUCH_QUEUE, self.queues.len() < 4),
            (refusal::UNKNOWN_QUEUE, within(shape.kind, 5)),
            (refusal::TAG_WIDTH, within(shape.width, 16)),
            (refusal::ARRAY_SIZE, within(shape.size, 1024) && shape.size.count_ones() == 1),
            (refusal::CREW, within(shape.crew, 8)),
            (refusal::PAYLOAD_WORDS, within(shape.payload_words, 4)),
            (refusal::SHORT_STORE, u64::from(claimed + aside) + first <= u64::from(length.min(rooms::USABLE))),
            (refusal::SHORT_QUOTA, first <= u64::from(rooms::quota(shape, length))),
        ];
        match conditions.iter().find(|(_, holds)| !holds) {
            Some(&(number, _)) => Err(number),
            None => Ok(()),
        }
    }

    /// Whether nothing changed that is not this queue's own; else what did.
    fn kept(&self, number: usize, view: &View) -> Result<(), &'static str> {
        for (at, before) in self.queues.iter().enumerate().filter(|&(at, _)| at != number) {
            if view.queues.get(at) != Some(before) {
                return Err("another queue is another");
            }
            if view.logs.get(at) != Some(&&self.logs[at]) {
                return Err("another queue's log is another");
            }
        }
        let mut from = 0;
        if let Some(store) = view.queues.get(number).map(Bench::store) {
            for &array in store.arrays() {
                let own = places(array, store.payload_words());
                let to = own.start.max(from);
                if view.words[from..to] != self.words[from..to] {
                    return Err("a word below the queue's own is another");
                }
                from = own.end;
            }
        }
        if view.words[from..] != self.words[from..] {
            return Err("a word behind the queue's own is another");
        }
        Ok(())
    }
}

impl fmt::Display for Apart {
    fn fmt(&self, text: &mut fmt::Formatter<'_>) -> fmt::Result {
        self.found.tell(text, "each call kept to its own", "calls not apart")
    }
}

#[cfg(test)]
mod tests {
    use super::*;
    use crate::bench::Operation;
    use crate::task::Task;
    use crate::yard::Yard;

    const LIFO: Shape = Shape { kind: 1, width: 1, size: 1, crew: 1, payload_words: 1, delayed: false, quota: None };

    /// A yard of two queues on nine words, with a log each.
    struct Two {
        yard: Yard,
        logs: [Log; 2],
        apart: Apart,
    }

    impl Two {
        fn new() -> Two {
            let mut two =
                Two { yard: Yard::new(vec![7; 9]), logs: [0; 2].map(|_| Log::lent(8)), apart: Apart::new(&[7; 9]) };
            for _ in 0..2 {
                let answer = two.yard.make(LIFO);
                two.made(LIFO, answer);
            }
            assert!(!two.apart.is_wrong());
            two
        }

        fn made(&mut self, shape: Shape, answer: Result<(), u32>) {
            let Two { yard, logs, apart } = self;
            let logs = [&logs[0], &logs[1], &logs[0], &logs[0]].to_vec();
            apart.made(shape, answer, &View { words: yard.words(), queues: yard.queues(), logs });
        }

        /// After a call of the first queue.
        fn is_wrong(&mut self) -> bool {
            let Two { yard, logs, apart } = self;
            let logs = logs.iter().collect();
            apart.called(0, &View { words: yard.words(), queues: yard.queues(), logs });
            apart.is_wrong()
        }

        /// The words are another's, once the first queue has been called.
        fn with_word(&mut self, at: usize) -> bool {
            let mut words = self.yard.words().to_vec();
            words[at] += 1;
            let logs = self.logs.iter().collect();
            self.apart.called(0, &View { words: &words, queues: self.yard.queues(), logs });
            self.apart.is_wrong()
        }
    }

    #[test]
    fn a_call_keeps_to_the_words_of_its_queue() {
        assert!(!Two::new().is_wrong());
        for at in 0..9 {
            assert_eq!(Two::new().with_word(at), at > 1, "word {at}");
        }
        let mut two = Two::new();
        two.yard.call(0, |queue, _| {
            queue.ask(0).unwrap();
            queue.begin(0, Operation::Commit).unwrap();
            queue.step(0, true, &mut crate::witness::Blind);
        });
        assert!(!two.is_wrong(), "X1 zeroes what it claims");
        assert!(!two.with_word(7));
        assert!(two.with_word(8));
    }

    #[test]
    fn a_call_leaves_other_queues_alone() {
        let mut two = Two::new();
        two.yard.call(0, |queue, _| queue.ask(0)).unwrap().unwrap();
        two.logs[0].enter(3, 0, Task::default());
        assert!(!two.is_wrong());
        two.logs[1].enter(3, 0, Task::default());
        assert!(two.is_wrong(), "another's log");
        let calls: [fn(&mut Bench) -> bool; 2] =
            [|queue| queue.ask(0).is_ok(), |queue| queue.begin(0, Operation::Take).is_ok()];
        for call in calls {
            let mut two = Two::new();
            assert_eq!(two.yard.call(1, |queue, _| call(queue)), Some(true));
            assert!(two.is_wrong());
        }
        let mut two = Two::new();
        two.yard.make(LIFO).unwrap();
        assert!(two.is_wrong(), "a queue made by the way");
    }

    #[test]
    fn a_making_is_answered_and_made_as_it_should_be() {
        let right = |shape, answer| {
            let mut two = Two::new();
            two.yard.call(0, |queue, _| queue.ask(0)).unwrap().unwrap();
            assert!(!two.is_wrong());
            let made = two.yard.make(shape);
            two.made(shape, answer);
            assert_eq!(made == answer, !two.apart.is_wrong(), "{shape:?} {answer:?}");
            !two.apart.is_wrong()
        };
        // One word is left.
        for quota in [None, Some(0)] {
            assert!(right(Shape { quota, ..LIFO }, Err(5)));
            assert!(!right(Shape { quota, ..LIFO }, Err(23)));
            assert!(!right(Shape { quota, ..LIFO }, Ok(())));
        }
        assert!(right(Shape { kind: 6, ..LIFO }, Err(1)));
        assert!(!right(Shape { kind: 6, ..LIFO }, Err(5)));
        let mut two = Two::new();
        assert_eq!(two.yard.make(Shape { quota: Some(1), ..LIFO }), Err(23));
        two.made(Shape { quota: Some(1), ..LIFO }, Err(23));
        for _ in 0..2 {
            let answer = two.yard.make(LIFO);
            two.made(LIFO, answer);
        }
        two.made(Shape { kind: 6, ..LIFO }, Err(24));
        assert!(!two.apart.is_wrong());
        two.made(Shape { kind: 6, ..LIFO }, Err(1));
        assert!(two.apart.is_wrong());
    }

    #[test]
    fn a_making_zeroes_its_first_array_alone() {
        for (at, value) in [(4, 1), (5, 1), (6, 0), (8, 0), (0, 1), (3, 1)] {
            let mut two = Two::new();
            two.yard.make(LIFO).unwrap();
            let mut words = two.yard.words().to_vec();
            words[at] = value;
            let logs = [&two.logs[0]; 3].to_vec();
            two.apart.made(LIFO, Ok(()), &View { words: &words, queues: two.yard.queues(), logs });
            assert!(two.apart.is_wrong(), "word {at}");
        }
    }
}

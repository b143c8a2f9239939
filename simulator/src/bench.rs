//! The bench: one of the three machines and a crew, and the calls fresh, begin,
//! step, drop_link, drain, ask, drop_ask and who with their refusals in order.
//! Store and log are lent to it; the log is kept by whoever steps. One of several
//! queues on the same words is a bench too, which has the words for its calls alone.

use crate::double_ended::DoubleEnded;
use crate::fifo::Fifo;
use crate::guard::Guard;
use crate::lifo::Lifo;
use crate::outcome::{refusal, Outcome, Place};
use crate::store::{Others, Store, LARGEST};
use crate::task::{Payload, Task, MOST_PAYLOAD};
use crate::witness::{Shown, Witness};
use crate::yard::Neighbours;

/// The last put number.
pub const LAST_NUMBER: u32 = 65_535;

#[derive(Clone, Debug, PartialEq, Eq)]
enum Queue {
    Lifo(Lifo),
    Fifo(Fifo),
    DoubleEnded(DoubleEnded),
}

/// Does the same with whichever of the three machines there is.
macro_rules! with_queue {
    ($queue:expr, $machine:ident => $body:expr) => {
        match $queue {
            Queue::Lifo($machine) => $body,
            Queue::Fifo($machine) => $body,
            Queue::DoubleEnded($machine) => $body,
        }
    };
}

/// How a bench is made; none is made so by default.
#[derive(Clone, Copy, Debug, Default, PartialEq, Eq)]
pub struct Shape {
    pub kind: u32,
    pub width: u32,
    pub size: u32,
    pub crew: u32,
    pub payload_words: u32,
    /// With delayed stores.
    pub delayed: bool,
    /// The most words its arrays may take; where none is named, the store's length.
    pub quota: Option<u32>,
}

#[derive(Clone, Copy, Debug, PartialEq, Eq)]
pub enum Operation {
    /// Only the first words count, as many as the bench has payload words.
    Put { payload: Payload },
    Take,
    Steal,
    /// X1 to X4 alone, with the words that an ask has set aside.
    Commit,
}

#[derive(Clone, Debug, PartialEq, Eq)]
pub struct Bench {
    queue: Queue,
    crew: u32,
    numbers_used: u32,
    /// By worker number.
    restarts: [u32; 8],
}

impl Bench {
    /// Fresh, on the lent words. They are taken if the bench is accepted, and
    /// stay where they are if it is refused.
    pub fn fresh(shape: Shape, words: &mut Vec<u32>) -> Result<Bench, u32> {
        Bench::beside(Others::default(), shape, words)
    }

    /// The same on words of which others have theirs.
    pub fn beside(others: Others, shape: Shape, words: &mut Vec<u32>) -> Result<Bench, u32> {
        let Shape { kind, width, size, crew, payload_words, delayed, quota } = shape;
        if !(1..=5).contains(&kind) {
            return Err(refusal::UNKNOWN_QUEUE);
        }
        if !(1..=16).contains(&width) {
            return Err(refusal::TAG_WIDTH);
        }
        if size > LARGEST || !size.is_power_of_two() {
            return Err(refusal::ARRAY_SIZE);
        }
        if !(1..=8).contains(&crew) {
            return Err(refusal::CREW);
        }
        if !(1..=MOST_PAYLOAD as u32).contains(&payload_words) {
            return Err(refusal::PAYLOAD_WORDS);
        }
        let first = size * (payload_words + 1);
        if first > others.leave(words.len() as u32) {
            return Err(refusal::SHORT_STORE);
        }
        let quota = quota.unwrap_or(words.len() as u32);
        if first > quota {
            return Err(refusal::SHORT_QUOTA);
        }
        let words = std::mem::take(words);
        let store = Store::beside(others, words, quota, size, payload_words).with_line(delayed);
        let queue = match kind {
            1 => Queue::Lifo(Lifo::new(Guard::tag(width), store)),
            2 => Queue::Fifo(Fifo::new(store)),
            3 => Queue::DoubleEnded(DoubleEnded::new(Guard::tag(width), store)),
            4 => Queue::Lifo(Lifo::new(Guard::links(), store)),
            _ => Queue::DoubleEnded(DoubleEnded::new(Guard::links(), store)),
        };
        Ok(Bench { queue, crew, numbers_used: 0, restarts: [0; 8] })
    }

    /// Begins an operation; a put answers its number.
    pub fn begin(&mut self, worker: u32, operation: Operation) -> Result<Option<u32>, u32> {
        if worker >= self.crew {
            return Err(refusal::NO_SUCH_WORKER);
        }
        let owners = operation != Operation::Steal;
        if owners != (worker == 0) {
            return Err(refusal::WRONG_HAND);
        }
        with_queue!(&mut self.queue, machine => {
            if machine.busy(worker as usize) {
                return Err(refusal::BUSY);
            }
            match operation {
                Operation::Put { .. } if self.numbers_used == LAST_NUMBER => {
                    return Err(refusal::NUMBERS_SPENT);
                }
                Operation::Put { payload } => {
                    self.numbers_used += 1;
                    machine.begin_put(self.numbers_used, payload);
                    return Ok(Some(self.numbers_used));
                }
                Operation::Commit if machine.store().aside() == 0 => return Err(refusal::NO_ASK),
                Operation::Commit => machine.begin_commit(),
                Operation::Take => machine.begin_take(),
                Operation::Steal => machine.begin_steal(worker as usize),
            }
        });
        Ok(None)
    }

    /// One line of `worker`'s operation. `room` says whether the log can take
    /// one more entry.
    #[inline]
    pub fn step<W: Witness>(&mut self, worker: u32, room: bool, witness: &mut W) -> Outcome {
        if worker >= self.crew {
            return Outcome::Refused(refusal::NO_SUCH_WORKER);
        }
        let outcome =
            with_queue!(&mut self.queue, machine => machine.step(worker as usize, room, witness));
        if outcome == Outcome::Restarted {
            let count = &mut self.restarts[worker as usize];
            *count = count.saturating_add(1);
        }
        outcome
    }

    /// The event: the link of `worker` fails for no reason.
    pub fn drop_link(&mut self, worker: u32) -> Result<(), u32> {
        if worker >= self.crew {
            return Err(refusal::NO_SUCH_WORKER);
        }
        if with_queue!(&mut self.queue, machine => machine.drop_link(worker as usize)) {
            Ok(())
        } else {
            Err(refusal::NO_LINK)
        }
    }

    /// The event: the oldest waiting store is put down.
    pub fn drain(&mut self) -> Result<(), u32> {
        if with_queue!(&mut self.queue, machine => machine.drain()) {
            Ok(())
        } else {
            Err(refusal::NONE_WAITING)
        }
    }

    /// Ask and drop of an ask are the idle owner's: 6, 9, 7.
    fn idle_owner(&self, worker: u32) -> Result<(), u32> {
        if worker >= self.crew {
            return Err(refusal::NO_SUCH_WORKER);
        }
        if worker != 0 {
            return Err(refusal::WRONG_HAND);
        }
        if with_queue!(&self.queue, machine => machine.busy(0)) {
            return Err(refusal::BUSY);
        }
        Ok(())
    }

    fn store_mut(&mut self) -> &mut Store {
        with_queue!(&mut self.queue, machine => machine.store_mut())
    }

    /// Sets as many words aside as an array of twice the size takes.
    pub fn ask(&mut self, worker: u32) -> Result<(), u32> {
        self.idle_owner(worker)?;
        let store = self.store_mut();
        if store.aside() > 0 {
            return Err(refusal::ASK_STANDS);
        }
        if store.set_aside() {
            Ok(())
        } else {
            Err(refusal::NO_ROOM_TO_GROW)
        }
    }

    /// Gives the words set aside back.
    pub fn drop_ask(&mut self, worker: u32) -> Result<(), u32> {
        self.idle_owner(worker)?;
        let store = self.store_mut();
        if store.aside() == 0 {
            return Err(refusal::NO_ASK);
        }
        store.give_back();
        Ok(())
    }

    /// How often `worker` was beaten.
    pub fn who(&self, worker: u32) -> Result<u32, u32> {
        if worker >= self.crew {
            return Err(refusal::NO_SUCH_WORKER);
        }
        Ok(self.restarts[worker as usize])
    }

    pub fn numbers_used(&self) -> u32 {
        self.numbers_used
    }

    /// Failed compares by worker number.
    pub fn restarts(&self) -> &[u32; 8] {
        &self.restarts
    }

    /// Their sum, which can be more than a word holds.
    pub fn all_restarts(&self) -> u64 {
        self.restarts.iter().map(|&count| u64::from(count)).sum()
    }

    /// What memory has: head, count and tag; of FIFO head, tail and 0; of LIFO 0,
    /// t and g.
    pub fn anchor(&self) -> [u32; 3] {
        with_queue!(&self.queue, machine => machine.anchor())
    }

    pub fn store(&self) -> &Store {
        with_queue!(&self.queue, machine => machine.store())
    }

    pub fn shown(&self) -> Shown<'_> {
        self.shown_beside(Neighbours::default())
    }

    pub fn shown_beside<'a>(&'a self, neighbours: Neighbours<'a>) -> Shown<'a> {
        Shown {
            anchor: self.anchor(),
            restarts: &self.restarts,
            store: self.store(),
            copying: with_queue!(&self.queue, machine => machine.copying()),
            commits: with_queue!(&self.queue, machine => machine.commits()),
            neighbours,
        }
    }

    /// Lends the words for a call, with what others have of them then.
    pub fn lend(&mut self, words: Vec<u32>, others: Others) {
        self.store_mut().lend(words, others);
    }

    /// Takes the words back.
    pub fn take_back(&mut self) -> Vec<u32> {
        self.store_mut().take_back()
    }

    /// Each task in the window, as the owner reads it.
    pub fn window(&self) -> Box<dyn Iterator<Item = Task> + '_> {
        with_queue!(&self.queue, machine => Box::new(machine.window()))
    }

    /// How many tasks are in the window; none of them is read.
    pub fn standing(&self) -> usize {
        self.window().size_hint().0
    }

    /// How far a worker is; none without such a worker.
    pub fn place(&self, worker: u32) -> Option<Place> {
        (worker < self.crew).then(|| with_queue!(&self.queue, machine => machine.place(worker as usize)))
    }

    /// Whether the current array is full.
    pub fn full(&self) -> bool {
        with_queue!(&self.queue, machine => machine.full())
    }
}

#[cfg(test)]
mod tests {
    use super::*;
    use crate::random::Random;
    use crate::rooms;
    use crate::settled::Memory;
    use crate::witness::Blind;

    const LIFO: Shape = Shape { kind: 1, width: 4, size: 1, crew: 2, payload_words: 1, delayed: false, quota: None };

    const PUT: Operation = Operation::Put { payload: [5, 6, 7, 8] };

    fn refused(shape: Shape, words: usize) -> u32 {
        let mut lent = vec![7; words];
        let refused = Bench::fresh(shape, &mut lent).err().unwrap();
        assert_eq!(lent, vec![7; words], "a refused fresh touches nothing");
        refused
    }

    #[test]
    fn the_ranges_of_fresh_from_both_sides() {
        let accepted = |shape, words| Bench::fresh(shape, &mut vec![7; words]).is_ok();
        for kind in 1..=5 {
            let shape = Shape { kind, ..LIFO };
            assert!(accepted(shape, 2));
            assert!(accepted(Shape { width: 1, ..shape }, 2));
            assert!(accepted(Shape { width: 16, ..shape }, 2));
            assert!(accepted(Shape { crew: 1, ..shape }, 2));
            assert!(accepted(Shape { crew: 8, ..shape }, 2));
            assert!(accepted(Shape { size: 1024, ..shape }, 2048));
            assert_eq!(refused(Shape { width: 0, ..shape }, 2), 2);
            assert_eq!(refused(Shape { width: 17, ..shape }, 2), 2);
            assert_eq!(refused(Shape { size: 0, ..shape }, 2), 3);
            assert_eq!(refused(Shape { size: 3, ..shape }, 9), 3);
            assert_eq!(refused(Shape { size: 2048, ..shape }, 10_300), 3);
            assert_eq!(refused(Shape { size: 1 << 31, ..shape }, 2), 3);
            assert_eq!(refused(Shape { crew: 0, ..shape }, 2), 4);
            assert_eq!(refused(Shape { crew: 9, ..shape }, 2), 4);
            assert_eq!(refused(shape, 1), 5);
            assert_eq!(refused(Shape { size: 1024, ..shape }, 2047), 5);
            for payload_words in [0, 5, 6, u32::MAX] {
                assert_eq!(refused(Shape { payload_words, ..shape }, 10_300), 16);
            }
            for payload_words in 1..=4 {
                let shape = Shape { payload_words, ..shape };
                let each = payload_words as usize + 1;
                assert!(accepted(shape, each));
                assert_eq!(refused(shape, each - 1), 5);
                assert!(accepted(Shape { size: 1024, ..shape }, 1024 * each));
                assert_eq!(refused(Shape { size: 1024, ..shape }, 1024 * each - 1), 5);
            }
        }
        for kind in [0, 6, 7, 256 + 4, u32::MAX] {
            assert_eq!(refused(Shape { kind, ..LIFO }, 2), 1);
        }
    }

    #[test]
    fn fresh_refuses_in_the_order_1_to_4_16_5() {
        let wrong = Shape { kind: 0, width: 0, size: 0, crew: 0, payload_words: 0, delayed: false, quota: None };
        assert_eq!(refused(wrong, 0), 1);
        assert_eq!(refused(Shape { kind: 1, ..wrong }, 0), 2);
        assert_eq!(refused(Shape { kind: 1, width: 1, ..wrong }, 0), 3);
        assert_eq!(refused(Shape { kind: 1, width: 1, size: 1, ..wrong }, 0), 4);
        assert_eq!(refused(Shape { kind: 1, width: 1, size: 1, crew: 1, ..wrong }, 0), 16);
        assert_eq!(refused(LIFO, 0), 5);
    }

    #[test]
    fn begin_refuses_in_the_order_6_9_7_10() {
        let mut bench = Bench::fresh(LIFO, &mut vec![0; 2]).unwrap();
        // The worker after the last one is in no crew, whatever it is told.
        for operation in [PUT, Operation::Take, Operation::Steal, Operation::Commit] {
            assert_eq!(bench.begin(2, operation), Err(6));
        }
        assert_eq!(bench.begin(1, Operation::Steal), Ok(None));
        // P9: a busy thief told to put, and to take.
        assert_eq!(bench.begin(1, PUT), Err(9));
        assert_eq!(bench.begin(1, Operation::Take), Err(9));
        assert_eq!(bench.begin(1, Operation::Steal), Err(7));
        assert_eq!(bench.begin(0, PUT), Ok(Some(1)));
        assert_eq!(bench.begin(0, Operation::Steal), Err(9));
        bench.numbers_used = LAST_NUMBER;
        assert_eq!(bench.begin(0, PUT), Err(7), "busy before spent");
        for _ in 0..5 {
            bench.step(0, true, &mut Blind);
        }
        assert_eq!(bench.begin(0, PUT), Err(10));
        assert_eq!(bench.begin(0, Operation::Take), Ok(None), "a take needs no number");
    }

    #[test]
    fn numbers_are_1_2_3_to_65535() {
        let mut bench = Bench::fresh(LIFO, &mut vec![0; 2]).unwrap();
        // The array is full after the first, so the others end with FULL: a put
        // answered FULL has used its number.
        for number in 1..=65_535 {
            assert_eq!(bench.begin(0, PUT), Ok(Some(number)));
            while bench.step(0, true, &mut Blind) == Outcome::GoesOn {}
        }
        assert_eq!(bench.begin(0, PUT), Err(10));
        assert_eq!(bench.numbers_used(), 65_535);
    }

    #[test]
    fn full_if_the_size_is_above_1024_or_the_words_left_are_too_few() {
        // An array of 1,024 tasks takes 2,048 words and one of 2,048 tasks
        // would take 4,096: in the longer store only the size forbids it.
        for words in [2048, 10_300] {
            for kind in 1..=5 {
                let shape = Shape { kind, size: 1024, ..LIFO };
                let mut bench = Bench::fresh(shape, &mut vec![0; words]).unwrap();
                for number in 1..=1025 {
                    bench.begin(0, PUT).unwrap();
                    let mut outcome = Outcome::GoesOn;
                    while outcome == Outcome::GoesOn {
                        outcome = bench.step(0, true, &mut Blind);
                    }
                    let task = Task([number, 5, 0, 0, 0]);
                    if number <= 1024 {
                        assert_eq!(outcome, Outcome::Finished(task));
                    } else {
                        assert_eq!(outcome, Outcome::Full(task));
                    }
                }
                assert_eq!((bench.store().published(), bench.store().arrays().len()), (1, 1));
            }
        }
    }

    #[test]
    fn a_step_of_a_worker_outside_the_crew() {
        let mut bench = Bench::fresh(LIFO, &mut vec![0; 2]).unwrap();
        assert_eq!(bench.step(2, false, &mut Blind), Outcome::Refused(6));
        assert_eq!(bench.step(u32::MAX, true, &mut Blind), Outcome::Refused(6));
        assert_eq!(bench.step(1, false, &mut Blind), Outcome::Refused(8));
    }

    #[test]
    fn a_drop_refuses_in_the_order_6_17() {
        for kind in 1..=5 {
            let shape = Shape { kind, ..LIFO };
            let mut bench = Bench::fresh(shape, &mut vec![0; 2]).unwrap();
            for _ in 0..2 {
                for worker in [2, 7, 8, 256, u32::MAX] {
                    assert_eq!(bench.drop_link(worker), Err(6));
                }
                for worker in 0..2 {
                    assert_eq!(bench.drop_link(worker), Err(17));
                }
                // Once more with both at their line 1.
                bench.begin(0, PUT).ok();
                bench.begin(1, Operation::Steal).ok();
            }
            for line in 1..=6 {
                bench.step(0, true, &mut Blind);
                assert_eq!(bench.drop_link(0), Err(17), "the owner before line {line} of kind {kind}");
            }
            bench.step(1, true, &mut Blind);
            let linked = kind >= 4;
            assert_eq!(bench.drop_link(2), Err(6));
            assert_eq!(bench.drop_link(1), if linked { Ok(()) } else { Err(17) });
            assert_eq!(bench.drop_link(1), Err(17));
        }
    }

    /// Steps the owner until the line is full or it is idle; what was answered
    /// last.
    fn until_refused(bench: &mut Bench) -> Outcome {
        loop {
            let outcome = bench.step(0, true, &mut Blind);
            if !matches!(outcome, Outcome::GoesOn | Outcome::Published) {
                return outcome;
            }
        }
    }

    #[test]
    fn a_step_refuses_in_the_order_6_8_18_11_and_a_drain_19() {
        for kind in 1..=5 {
            for payload_words in 1..=4 {
                let shape = Shape { kind, payload_words, size: 8, delayed: true, ..LIFO };
                let mut bench = Bench::fresh(shape, &mut vec![0; 40]).unwrap();
                assert_eq!(bench.drain(), Err(19));
                let refused = loop {
                    bench.begin(0, PUT).unwrap();
                    let outcome = until_refused(&mut bench);
                    if !matches!(outcome, Outcome::Finished(_)) {
                        break outcome;
                    }
                };
                assert_eq!(refused, Outcome::Refused(18));
                assert_eq!(bench.store().line().stores().len(), 8);
                // 18 before 11; 6 and 8 before it.
                assert_eq!(bench.step(0, false, &mut Blind), Outcome::Refused(18));
                assert_eq!(bench.step(2, true, &mut Blind), Outcome::Refused(6));
                assert_eq!(bench.step(1, true, &mut Blind), Outcome::Refused(8));
                // A thief's lines make no stores that wait.
                bench.begin(1, Operation::Steal).unwrap();
                while bench.step(1, true, &mut Blind) == Outcome::GoesOn {}
                while bench.place(0) != Some(Place::Idle) {
                    assert_eq!(bench.drain(), Ok(()));
                    until_refused(&mut bench);
                }
                assert_eq!(bench.store().line().stores().len(), 8);
                assert_eq!(bench.step(0, true, &mut Blind), Outcome::Refused(8), "8 before 18");
                for _ in 0..8 {
                    assert_eq!(bench.drain(), Ok(()));
                }
                assert_eq!(bench.drain(), Err(19));
            }
        }
    }

    #[test]
    fn without_the_mode_none_waits() {
        for kind in 1..=5 {
            let mut bench = Bench::fresh(Shape { kind, size: 8, ..LIFO }, &mut vec![0; 16]).unwrap();
            for _ in 0..3 {
                bench.begin(0, PUT).unwrap();
                for _ in 0..6 {
                    bench.step(0, true, &mut Blind);
                    assert_eq!(bench.drain(), Err(19));
                }
            }
        }
    }

    /// A bench that drains each store before anything else happens is one that
    /// does not delay them.
    #[test]
    fn drained_at_once_is_as_without_the_mode() {
        let mut random = Random::new(8);
        for _ in 0..60 {
            let shape = Shape {
                kind: random.between(1, 5),
                width: random.between(1, 3),
                size: 1 << random.below(3),
                crew: random.between(1, 8),
                payload_words: random.between(1, 4),
                delayed: false,
                quota: None,
            };
            let mut benches = [false, true].map(|delayed| Bench::fresh(Shape { delayed, ..shape }, &mut vec![9; 130]).unwrap());
            for _ in 0..2000 {
                let worker = random.below(shape.crew);
                let room = random.chance(95);
                let draw = random.below(100);
                let answers = benches.each_mut().map(|bench| {
                    if bench.place(worker) == Some(Place::Idle) {
                        let operation = match worker {
                            0 if draw < 50 => PUT,
                            0 if draw < 60 => Operation::Commit,
                            0 if draw < 66 => return Err(bench.ask(worker).map(|()| None)),
                            0 if draw < 68 => return Err(bench.drop_ask(worker).map(|()| None)),
                            0 => Operation::Take,
                            _ => Operation::Steal,
                        };
                        return Err(bench.begin(worker, operation));
                    }
                    if draw < 5 {
                        return Err(bench.drop_link(worker).map(|()| None));
                    }
                    let outcome = bench.step(worker, room, &mut Blind);
                    while bench.drain().is_ok() {}
                    Ok(outcome)
                });
                assert_eq!(answers[0], answers[1]);
                let [one, other] = &benches;
                assert_eq!(one.anchor(), other.anchor());
                assert_eq!(one.restarts(), other.restarts());
                assert_eq!(one.store().words(), other.store().words());
                assert_eq!(one.store().published(), other.store().published());
                assert_eq!(one.store().aside(), other.store().aside());
                assert!(one.window().eq(other.window()));
            }
        }
    }

    /// What the machines read for the owner is memory with its stores put down.
    #[test]
    fn the_window_is_what_is_left_when_all_stores_are_down() {
        let mut random = Random::new(9);
        for round in 0..60 {
            let shape = Shape {
                kind: random.between(1, 5),
                width: random.between(1, 3),
                size: 1 << random.below(3),
                crew: random.between(1, 4),
                payload_words: random.between(1, 4),
                delayed: true,
                quota: None,
            };
            let mut bench = Bench::fresh(shape, &mut vec![9; 130]).unwrap();
            let drains = *random.pick(&[5, 20, 40]);
            for _ in 0..2000 {
                let worker = random.below(shape.crew);
                if random.chance(drains) {
                    bench.drain().ok();
                } else if bench.place(worker) == Some(Place::Idle) {
                    let operation = match worker {
                        0 if bench.store().aside() > 0 && random.chance(30) => Operation::Commit,
                        0 if random.chance(60) => PUT,
                        0 => Operation::Take,
                        _ => Operation::Steal,
                    };
                    bench.begin(worker, operation).unwrap();
                    bench.ask(0).ok();
                } else {
                    bench.step(worker, true, &mut Blind);
                    if random.chance(3) {
                        bench.ask(0).ok();
                    }
                }
                let settled = Memory::of_owner(shape.kind, &bench.shown());
                assert_eq!(bench.window().collect::<Vec<_>>(), settled.window(), "round {round}");
                assert_eq!(bench.full(), settled.count() == settled.size());
                if bench.place(0) == Some(Place::Idle) && bench.store().aside() == 0 {
                    let next = bench.store().next_array().map(|array| bench.store().length(array));
                    assert_eq!(next, rooms::doubled(shape, &settled.arrays, settled.size(), &bench.shown()));
                }
            }
        }
    }

    /// The steps that a commit takes from the bench as it is, and what the last one
    /// answered.
    fn commit(bench: &mut Bench) -> (u32, Outcome) {
        assert_eq!(bench.begin(0, Operation::Commit), Ok(None));
        let mut steps = 1;
        loop {
            let outcome = bench.step(0, true, &mut Blind);
            if outcome != Outcome::GoesOn {
                return (steps, outcome);
            }
            steps += 1;
        }
    }

    #[test]
    fn ask_and_drop_refuse_in_the_order_6_9_7_21_20_22() {
        for kind in 1..=5 {
            for payload_words in 1..=4 {
                let shape = Shape { kind, payload_words, ..LIFO };
                let each = payload_words + 1;
                let mut bench = Bench::fresh(shape, &mut vec![9; 3 * each as usize]).unwrap();
                for worker in [2, 8, 256, u32::MAX] {
                    assert_eq!([bench.ask(worker), bench.drop_ask(worker)], [Err(6); 2]);
                }
                assert_eq!([bench.ask(1), bench.drop_ask(1)], [Err(9); 2]);
                assert_eq!(bench.begin(1, Operation::Commit), Err(9));
                bench.begin(1, Operation::Steal).unwrap();
                assert_eq!([bench.ask(1), bench.drop_ask(1)], [Err(9); 2], "9 before 7");
                assert_eq!((bench.drop_ask(0), bench.begin(0, Operation::Commit)), (Err(22), Err(22)));
                bench.begin(0, Operation::Take).unwrap();
                // Busy, with none set aside; 7 comes before 22.
                assert_eq!([bench.ask(0), bench.drop_ask(0)], [Err(7); 2]);
                assert_eq!(bench.begin(0, Operation::Commit), Err(7));
                steps(&mut bench, 0, 3);
                assert_eq!(bench.ask(0), Ok(()));
                assert_eq!(bench.store().aside(), 2 * each);
                assert_eq!(bench.ask(0), Err(21));
                bench.begin(0, Operation::Take).unwrap();
                assert_eq!([bench.ask(0), bench.drop_ask(0)], [Err(7); 2], "7 before 21");
                assert_eq!(bench.begin(0, Operation::Commit), Err(7));
                steps(&mut bench, 0, 3);
                assert_eq!([bench.drop_ask(0), bench.drop_ask(0), bench.ask(0)], [Ok(()), Err(22), Ok(())]);
                let copies = if matches!(kind, 1 | 4) { 1 } else { 0 };
                assert_eq!(commit(&mut bench), (3 + copies, Outcome::Committed));
                assert_eq!(bench.store().aside(), 0);
                assert_eq!(bench.ask(0), Err(20), "no words are left");
                bench.begin(0, PUT).unwrap();
                assert_eq!(bench.ask(0), Err(7), "7 before 20");
            }
        }
    }

    #[test]
    fn an_ask_is_refused_20_exactly_where_x1_would_answer_full() {
        for words in 2..=64 {
            for kind in 1..=5 {
                let mut bench = Bench::fresh(of_kind(kind), &mut vec![0; words]).unwrap();
                loop {
                    let room = bench.ask(0).is_ok();
                    bench.drop_ask(0).ok();
                    // Fill the array, and one put more.
                    while !bench.full() {
                        bench.begin(0, PUT).unwrap();
                        while bench.step(0, true, &mut Blind) == Outcome::GoesOn {}
                    }
                    bench.begin(0, PUT).unwrap();
                    let mut outcome = Outcome::GoesOn;
                    while outcome == Outcome::GoesOn {
                        outcome = bench.step(0, true, &mut Blind);
                    }
                    assert_eq!(outcome == Outcome::Published, room, "{words} words");
                    if !room {
                        assert!(matches!(outcome, Outcome::Full(_)));
                        break;
                    }
                    while bench.step(0, true, &mut Blind) == Outcome::GoesOn {}
                }
            }
        }
        // The words would suffice, the size would not.
        for kind in 1..=5 {
            let shape = Shape { size: 1024, ..of_kind(kind) };
            assert_eq!(Bench::fresh(shape, &mut vec![0; 10_300]).unwrap().ask(0), Err(20));
            let shape = Shape { size: 512, ..of_kind(kind) };
            assert_eq!(Bench::fresh(shape, &mut vec![0; 3071]).unwrap().ask(0), Err(20));
            let mut bench = Bench::fresh(shape, &mut vec![0; 3072]).unwrap();
            assert_eq!(bench.ask(0), Ok(()));
            assert_eq!(commit(&mut bench).1, Outcome::Committed);
            assert_eq!(bench.ask(0), Err(20));
        }
    }

    #[test]
    fn a_commit_with_a_full_log_and_a_full_line() {
        for kind in 1..=5 {
            for delayed in [false, true] {
                let shape = Shape { delayed, size: 2, ..of_kind(kind) };
                let mut bench = Bench::fresh(shape, &mut vec![0; 12]).unwrap();
                bench.begin(0, PUT).unwrap();
                until_refused(&mut bench);
                bench.ask(0).unwrap();
                bench.begin(0, Operation::Commit).unwrap();
                // X1, X2 and the copies end nothing.
                let copies = if matches!(kind, 1 | 4) { 2 } else { 1 };
                for _ in 0..2 + copies {
                    let outcome = bench.step(0, false, &mut Blind);
                    assert_eq!(outcome, Outcome::GoesOn);
                }
                let waiting = if delayed { 3 + 2 * copies } else { 0 };
                assert_eq!(bench.store().line().stores().len(), waiting);
                assert_eq!(bench.step(0, false, &mut Blind), Outcome::Refused(11));
                assert_eq!(bench.step(0, true, &mut Blind), Outcome::Committed);
                assert_eq!(bench.step(0, true, &mut Blind), Outcome::Refused(8));
                let published = if delayed { 1 } else { 2 };
                assert_eq!(bench.store().published(), published, "the note waits");
            }
        }
        // Eight wait before X4: six of two puts and two of a copy.
        let shape = Shape { delayed: true, size: 2, ..of_kind(3) };
        let mut bench = Bench::fresh(shape, &mut vec![0; 12]).unwrap();
        for _ in 0..2 {
            bench.begin(0, PUT).unwrap();
            until_refused(&mut bench);
        }
        bench.begin(1, Operation::Steal).unwrap();
        bench.ask(0).unwrap();
        bench.begin(0, Operation::Commit).unwrap();
        for _ in 0..3 {
            assert_eq!(bench.step(0, true, &mut Blind), Outcome::GoesOn);
        }
        assert_eq!(bench.step(0, true, &mut Blind), Outcome::Refused(18), "the second copy");
        bench.drain().unwrap();
        assert_eq!(bench.step(0, true, &mut Blind), Outcome::Refused(18));
        bench.drain().unwrap();
        assert_eq!(bench.step(0, true, &mut Blind), Outcome::GoesOn);
        assert_eq!(bench.step(0, false, &mut Blind), Outcome::Refused(18), "18 before 11");
        bench.drain().unwrap();
        assert_eq!(bench.step(0, false, &mut Blind), Outcome::Refused(11));
        assert_eq!(bench.step(0, true, &mut Blind), Outcome::Committed);
    }

    #[test]
    fn a_put_that_must_grow_uses_the_words_set_aside() {
        for kind in 1..=5 {
            let mut bench = Bench::fresh(of_kind(kind), &mut vec![0; 6]).unwrap();
            bench.ask(0).unwrap();
            for number in 1..=2 {
                bench.begin(0, PUT).unwrap();
                loop {
                    let outcome = bench.step(0, true, &mut Blind);
                    let claimed = bench.store().arrays().len() == 2;
                    assert_eq!(bench.store().aside(), if claimed { 0 } else { 4 });
                    if !matches!(outcome, Outcome::GoesOn | Outcome::Published) {
                        assert_eq!(outcome, Outcome::Finished(Task([number, 5, 0, 0, 0])));
                        break;
                    }
                }
            }
            assert_eq!(bench.begin(0, Operation::Commit), Err(22), "the ask is gone");
            assert_eq!(bench.drop_ask(0), Err(22));
            assert_eq!(bench.ask(0), Err(20));
            assert_eq!(bench.numbers_used(), 2);
        }
    }

    /// A bench of one task and two workers.
    fn of_kind(kind: u32) -> Shape {
        Shape { kind, ..LIFO }
    }

    /// Hears of line 1 alone.
    struct LineOne(Option<usize>);

    impl Witness for LineOne {
        fn line_one(&mut self, worker: usize) {
            self.0 = Some(worker);
        }
    }

    /// Who holds a link is worked out here from what the steps answer: from a
    /// thief's line 1 until its attempt ends, a put finishes or a task is handed
    /// out (each writes the anchor) or the link is dropped.
    #[test]
    fn a_compare_succeeds_exactly_if_the_link_is_held() {
        let mut random = Random::new(6);
        for round in 0..60 {
            let shape = Shape {
                kind: random.between(4, 5),
                width: random.between(1, 16),
                size: 1 << random.below(3),
                crew: random.between(2, 8),
                payload_words: random.between(1, 4),
                delayed: false,
                quota: None,
            };
            let mut bench = Bench::fresh(shape, &mut vec![0; 100]).unwrap();
            let mut held = [false; 8];
            let (mut won, mut failed) = (0, 0);
            for _ in 0..3000 {
                let worker = random.below(shape.crew);
                let at = worker as usize;
                if random.chance(3) {
                    assert_eq!(bench.drop_link(worker).is_ok(), held[at]);
                    held[at] = false;
                }
                // Asks and commits write no anchor.
                bench.ask(0).ok();
                if bench.place(worker) == Some(Place::Idle) {
                    let operation = match worker {
                        0 if bench.store().aside() > 0 && random.chance(20) => Operation::Commit,
                        0 if random.chance(60) => PUT,
                        0 => Operation::Take,
                        _ => Operation::Steal,
                    };
                    bench.begin(worker, operation).unwrap();
                    continue;
                }
                let compares = worker > 0 && bench.place(worker) == Some(Place::Last);
                let room = random.chance(90);
                let mut heard = LineOne(None);
                let outcome = bench.step(worker, room, &mut heard);
                assert_eq!(bench.anchor()[2], 0, "no tag");
                if compares && outcome == Outcome::Refused(11) {
                    assert!(held[at]);
                    continue;
                }
                assert_eq!(outcome == Outcome::Restarted, compares && !held[at]);
                won += u32::from(compares && held[at]);
                failed += u32::from(compares && !held[at]);
                match outcome {
                    Outcome::Finished(_) | Outcome::HandedOut(_) => held = [false; 8],
                    Outcome::Empty => held[at] = false,
                    _ => {}
                }
                if let Some(thief @ 1..) = heard.0 {
                    held[thief] = true;
                }
            }
            assert!(won > 0 && failed > 0, "round {round}");
        }
    }

    fn steps(bench: &mut Bench, worker: u32, count: u32) {
        for _ in 0..count {
            bench.step(worker, true, &mut Blind);
        }
    }

    #[test]
    fn a_restart_is_a_failed_compare_and_the_count_stays_at_its_ceiling() {
        let mut bench = Bench::fresh(LIFO, &mut vec![0; 6]).unwrap();
        bench.begin(0, PUT).unwrap();
        steps(&mut bench, 0, 5);
        bench.begin(0, PUT).unwrap();
        steps(&mut bench, 0, 11); // the array grows on the way
        assert_eq!(bench.all_restarts(), 0, "X4 goes back to line 1 and is no restart");
        bench.begin(1, Operation::Steal).unwrap();
        steps(&mut bench, 1, 5);
        bench.begin(0, Operation::Take).unwrap();
        steps(&mut bench, 0, 5);
        steps(&mut bench, 1, 1);
        assert_eq!(*bench.restarts(), [0, 1, 0, 0, 0, 0, 0, 0]);
        bench.restarts[1] = u32::MAX;
        steps(&mut bench, 1, 5);
        bench.begin(0, Operation::Take).unwrap();
        steps(&mut bench, 0, 5);
        assert_eq!(bench.step(1, true, &mut Blind), Outcome::Restarted);
        assert_eq!(*bench.restarts(), [0, u32::MAX, 0, 0, 0, 0, 0, 0]);
        assert_eq!(bench.who(1), Ok(u32::MAX));
    }

    #[test]
    fn one_count_at_its_ceiling_does_not_hold_the_others() {
        for kind in 1..=5 {
            let mut bench = Bench::fresh(Shape { kind, crew: 8, ..LIFO }, &mut vec![0; 2]).unwrap();
            bench.begin(0, PUT).unwrap();
            steps(&mut bench, 0, if kind == 2 { 6 } else { 5 });
            for thief in 1..8 {
                bench.begin(thief, Operation::Steal).unwrap();
                while bench.place(thief) != Some(Place::Last) {
                    steps(&mut bench, thief, 1);
                }
            }
            bench.restarts = [u32::MAX; 8];
            bench.restarts[5] -= 1;
            bench.restarts[7] = 0;
            steps(&mut bench, 3, 1);
            assert_eq!(bench.all_restarts(), 6 * u64::from(u32::MAX) + u64::from(u32::MAX - 1));
            for thief in [1, 2, 4, 5, 6, 7] {
                assert_eq!(bench.step(thief, true, &mut Blind), Outcome::Restarted);
            }
            let mut counts = [u32::MAX; 8];
            counts[7] = 1;
            assert_eq!(*bench.restarts(), counts, "kind {kind}");
            bench.restarts[7] = u32::MAX;
            assert_eq!(bench.all_restarts(), 34_359_738_360);
        }
    }

    #[test]
    fn who_refuses_6_and_is_each_workers_own() {
        for crew in 1..=8 {
            let mut bench = Bench::fresh(Shape { crew, ..LIFO }, &mut vec![0; 2]).unwrap();
            bench.restarts = [10, 11, 12, 13, 14, 15, 16, 17];
            for worker in 0..crew {
                assert_eq!(bench.who(worker), Ok(10 + worker));
            }
            for worker in [crew, 8, 256, 1 << 31, u32::MAX] {
                assert_eq!(bench.who(worker), Err(6));
            }
        }
    }
}

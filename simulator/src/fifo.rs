//! Figure 2: the FIFO queue. The owner puts at the tail; the owner and the
//! thieves draw from the head. Both only count up, and index i lies in slot i
//! modulo the array's size.

use crate::outcome::{refusal, Outcome, Place};
use crate::store::{Array, Growth, Store};
use crate::task::{Payload, Task};
use crate::waiting::Waiting;
use crate::witness::Witness;

/// What the owner is doing, with the line it does next by the figure's number; a
/// line that writes or reads a task has the word that is next.
#[derive(Clone, Copy, Debug, PartialEq, Eq)]
enum Doing {
    Nothing,
    Put(PutLine),
    Take(TakeLine),
    Grow(Growth, GrowthLine),
}

#[derive(Clone, Copy, Debug, PartialEq, Eq)]
enum PutLine {
    L1,
    L2,
    L3,
    L4(usize),
    L5,
}

/// Of a put or of a commit.
#[derive(Clone, Copy, Debug, PartialEq, Eq)]
enum GrowthLine {
    X1,
    X2,
    X3,
    X4,
}

#[derive(Clone, Copy, Debug, PartialEq, Eq)]
enum TakeLine {
    L1,
    L2,
    L3,
    L4(usize),
    L5,
}

#[derive(Clone, Copy, Debug, PartialEq, Eq)]
enum StealLine {
    Nothing,
    L1,
    L2,
    L3,
    L4,
    L5(usize),
    L6,
}

#[derive(Clone, Copy, Debug, PartialEq, Eq)]
struct Thief {
    line: StealLine,
    head: u32,
    tail: u32,
    noted: Array,
    task: Task,
}

#[derive(Clone, Debug, PartialEq, Eq)]
pub struct Fifo {
    store: Store,
    head: u32,
    tail: u32,

    doing: Doing,
    /// The owner's own reads of head and tail. Its last line works from these.
    head_read: u32,
    tail_read: u32,
    /// Of a commit zeros.
    task: Task,
    /// X3: the next index to copy, and the tail X2 noted.
    copying: u32,
    copy_end: u32,

    thieves: [Thief; 8],
}

impl Fifo {
    pub fn new(store: Store) -> Fifo {
        let thief = Thief {
            line: StealLine::Nothing,
            head: 0,
            tail: 0,
            noted: Array::default(),
            task: Task::default(),
        };
        Fifo {
            store,
            head: 0,
            tail: 0,
            doing: Doing::Nothing,
            head_read: 0,
            tail_read: 0,
            task: Task::default(),
            copying: 0,
            copy_end: 0,
            thieves: [thief; 8],
        }
    }

    pub fn busy(&self, worker: usize) -> bool {
        if worker == 0 {
            self.doing != Doing::Nothing
        } else {
            self.thieves[worker].line != StealLine::Nothing
        }
    }

    pub fn begin_put(&mut self, number: u32, payload: Payload) {
        self.doing = Doing::Put(PutLine::L1);
        self.task = Task::new(number, payload, self.store.payload_words());
    }

    pub fn begin_take(&mut self) {
        self.doing = Doing::Take(TakeLine::L1);
    }

    pub fn begin_commit(&mut self) {
        self.doing = Doing::Grow(Growth::ForCommit, GrowthLine::X1);
        self.task = Task::default();
    }

    pub fn begin_steal(&mut self, worker: usize) {
        self.thieves[worker].line = StealLine::L1;
    }

    pub fn step<W: Witness>(&mut self, worker: usize, room: bool, witness: &mut W) -> Outcome {
        if worker > 0 {
            return self.steal(worker, room, witness);
        }
        if !self.store.line().takes(self.stores()) {
            return Outcome::Refused(refusal::LINE_FULL);
        }
        match self.doing {
            Doing::Nothing => Outcome::Refused(refusal::IDLE),
            Doing::Put(line) => self.put(line, room, witness),
            Doing::Take(line) => self.take(line, room, witness),
            Doing::Grow(why, line) => self.grow(why, line, room),
        }
    }

    /// The head that the owner reads.
    fn owners_head(&self) -> u32 {
        let waiting = self.store.line().youngest(|store| match store {
            Waiting::Head(head) => Some(head),
            _ => None,
        });
        waiting.unwrap_or(self.head)
    }

    /// The tail that the owner reads.
    fn owners_tail(&self) -> u32 {
        let waiting = self.store.line().youngest(|store| match store {
            Waiting::Tail(tail) => Some(tail),
            _ => None,
        });
        waiting.unwrap_or(self.tail)
    }

    /// How many stores the owner's next line makes.
    fn stores(&self) -> usize {
        match self.doing {
            Doing::Put(PutLine::L4(_) | PutLine::L5) | Doing::Take(TakeLine::L5) => 1,
            Doing::Grow(_, GrowthLine::X3) => self.store.payload_words() as usize + 1,
            Doing::Grow(_, GrowthLine::X4) => 1,
            _ => 0,
        }
    }

    /// A store of the owner: it waits or, without the mode, does not.
    fn own(&mut self, store: Waiting) {
        if let Some(now) = self.store.line_mut().join(store) {
            self.put_down(now);
        }
    }

    fn put_down(&mut self, store: Waiting) {
        match store {
            Waiting::Head(head) => self.head = head,
            Waiting::Tail(tail) => self.tail = tail,
            other => self.store.put_down(other),
        }
    }

    /// The oldest waiting store is put down; answers whether one waited.
    pub fn drain(&mut self) -> bool {
        let Some(store) = self.store.line_mut().oldest() else {
            return false;
        };
        self.put_down(store);
        true
    }

    fn put<W: Witness>(&mut self, line: PutLine, room: bool, witness: &mut W) -> Outcome {
        let next = match line {
            PutLine::L1 => {
                witness.put_line_one();
                self.head_read = self.owners_head();
                PutLine::L2
            }
            PutLine::L2 => {
                self.tail_read = self.owners_tail();
                PutLine::L3
            }
            PutLine::L3 => {
                if self.tail_read == self.head_read + self.store.owners_size() {
                    self.doing = Doing::Grow(Growth::ForPut, GrowthLine::X1);
                    return Outcome::GoesOn;
                }
                PutLine::L4(0)
            }
            PutLine::L4(word) => {
                self.own(self.store.word_store(self.tail_read, word, self.task.0[word]));
                if self.store.more_words(word) {
                    PutLine::L4(word + 1)
                } else {
                    PutLine::L5
                }
            }
            PutLine::L5 => {
                if !room {
                    return Outcome::Refused(refusal::LOG_FULL);
                }
                self.own(Waiting::Tail(self.tail_read + 1));
                self.doing = Doing::Nothing;
                return Outcome::Finished(self.task);
            }
        };
        self.doing = Doing::Put(next);
        Outcome::GoesOn
    }

    fn grow(&mut self, why: Growth, line: GrowthLine, room: bool) -> Outcome {
        let next = match line {
            GrowthLine::X1 => {
                let Some(array) = self.store.next_array() else {
                    if !room {
                        return Outcome::Refused(refusal::LOG_FULL);
                    }
                    self.doing = Doing::Nothing;
                    return Outcome::Full(self.task);
                };
                self.store.claim(array);
                GrowthLine::X2
            }
            GrowthLine::X2 => {
                // The indices in the queue now, not those lines 1 and 2 read;
                // what is stolen after this is copied all the same.
                self.copying = self.owners_head();
                self.copy_end = self.owners_tail();
                self.copy_or_publish()
            }
            GrowthLine::X3 => {
                for copy in self.store.copies_to_claimed(self.copying) {
                    self.own(copy);
                }
                self.copying += 1;
                self.copy_or_publish()
            }
            GrowthLine::X4 => {
                let (doing, answer) = match why {
                    Growth::ForPut => (Doing::Put(PutLine::L1), Outcome::Published),
                    Growth::ForCommit if room => (Doing::Nothing, Outcome::Committed),
                    Growth::ForCommit => return Outcome::Refused(refusal::LOG_FULL),
                };
                self.own(self.store.note_of_claimed());
                self.doing = doing;
                return answer;
            }
        };
        self.doing = Doing::Grow(why, next);
        Outcome::GoesOn
    }

    fn copy_or_publish(&self) -> GrowthLine {
        if self.copying < self.copy_end {
            GrowthLine::X3
        } else {
            GrowthLine::X4
        }
    }

    fn take<W: Witness>(&mut self, line: TakeLine, room: bool, witness: &mut W) -> Outcome {
        let next = match line {
            TakeLine::L1 => {
                witness.line_one(0);
                self.head_read = self.owners_head();
                TakeLine::L2
            }
            TakeLine::L2 => {
                self.tail_read = self.owners_tail();
                TakeLine::L3
            }
            TakeLine::L3 => {
                if self.head_read == self.tail_read {
                    if !room {
                        return Outcome::Refused(refusal::LOG_FULL);
                    }
                    self.doing = Doing::Nothing;
                    return Outcome::Empty;
                }
                TakeLine::L4(0)
            }
            TakeLine::L4(word) => {
                self.task.0[word] = self.store.owners_word(self.head_read, word);
                if self.store.more_words(word) {
                    TakeLine::L4(word + 1)
                } else {
                    TakeLine::L5
                }
            }
            TakeLine::L5 => {
                if !room {
                    return Outcome::Refused(refusal::LOG_FULL);
                }
                // This may set the head back: thieves can have moved it past
                // the head read, and their tasks are then handed out again.
                self.own(Waiting::Head(self.head_read + 1));
                self.doing = Doing::Nothing;
                return Outcome::HandedOut(self.task);
            }
        };
        self.doing = Doing::Take(next);
        Outcome::GoesOn
    }

    fn steal<W: Witness>(&mut self, worker: usize, room: bool, witness: &mut W) -> Outcome {
        let thief = &mut self.thieves[worker];
        thief.line = match thief.line {
            StealLine::Nothing => return Outcome::Refused(refusal::IDLE),
            StealLine::L1 => {
                witness.line_one(worker);
                thief.head = self.head;
                StealLine::L2
            }
            StealLine::L2 => {
                thief.tail = self.tail;
                StealLine::L3
            }
            StealLine::L3 => {
                if thief.head == thief.tail {
                    if !room {
                        return Outcome::Refused(refusal::LOG_FULL);
                    }
                    thief.line = StealLine::Nothing;
                    return Outcome::Empty;
                }
                StealLine::L4
            }
            StealLine::L4 => {
                thief.noted = self.store.current();
                StealLine::L5(0)
            }
            StealLine::L5(word) => {
                thief.task.0[word] = self.store.word(thief.noted, thief.head, word);
                if self.store.more_words(word) {
                    StealLine::L5(word + 1)
                } else {
                    StealLine::L6
                }
            }
            StealLine::L6 => {
                let equal = self.head == thief.head;
                if equal && !room {
                    return Outcome::Refused(refusal::LOG_FULL);
                }
                witness.compare(worker);
                if !equal {
                    thief.line = StealLine::L1;
                    return Outcome::Restarted;
                }
                self.head += 1;
                thief.line = StealLine::Nothing;
                return Outcome::HandedOut(thief.task);
            }
        };
        Outcome::GoesOn
    }

    /// Nobody has a link here.
    pub fn drop_link(&mut self, _worker: usize) -> bool {
        false
    }

    /// The tasks of head to tail−1 in the current array, as the owner reads them.
    pub fn window(&self) -> impl Iterator<Item = Task> + '_ {
        (self.owners_head()..self.owners_tail()).map(|index| self.store.task(index))
    }

    /// What memory has, with 0 for the tag, which this queue has not.
    pub fn anchor(&self) -> [u32; 3] {
        [self.head, self.tail, 0]
    }

    pub fn store(&self) -> &Store {
        &self.store
    }

    pub fn store_mut(&mut self) -> &mut Store {
        &mut self.store
    }

    /// Whether the next put, left alone, would have to expand.
    pub fn full(&self) -> bool {
        self.owners_tail() == self.owners_head() + self.store.owners_size()
    }

    /// Whether the owner has claimed an array that it has not published.
    pub fn copying(&self) -> bool {
        matches!(self.doing, Doing::Grow(_, GrowthLine::X2 | GrowthLine::X3 | GrowthLine::X4))
    }

    /// Whether the owner is at X1 of a commit.
    pub fn commits(&self) -> bool {
        self.doing == Doing::Grow(Growth::ForCommit, GrowthLine::X1)
    }

    pub fn place(&self, worker: usize) -> Place {
        if worker > 0 {
            return match self.thieves[worker].line {
                StealLine::Nothing => Place::Idle,
                StealLine::L5(0) => Place::Noted,
                StealLine::L6 => Place::Last,
                _ => Place::Underway,
            };
        }
        match self.doing {
            Doing::Nothing => Place::Idle,
            Doing::Put(PutLine::L5) | Doing::Take(TakeLine::L5) => Place::Last,
            Doing::Grow(..) => Place::Expanding,
            _ => Place::Underway,
        }
    }
}

#[cfg(test)]
mod tests {
    use super::*;
    use crate::witness::Blind;

    fn fifo(size: u32, words: usize) -> Fifo {
        Fifo::new(Store::fresh(vec![0; words], size, 1))
    }

    fn task(number: u32, payload: u32) -> Task {
        Task::new(number, [payload, 0, 0, 0], 1)
    }

    fn begin_put(queue: &mut Fifo, number: u32, payload: u32) {
        queue.begin_put(number, [payload, 8, 8, 8]);
    }

    fn steps(queue: &mut Fifo, worker: usize, count: u32) -> Outcome {
        let mut last = Outcome::GoesOn;
        for made in 1..=count {
            last = queue.step(worker, true, &mut Blind);
            if made < count {
                assert_eq!(last, Outcome::GoesOn, "step {made} of {count}");
            }
        }
        last
    }

    fn put(queue: &mut Fifo, number: u32, payload: u32) {
        begin_put(queue, number, payload);
        assert_eq!(steps(queue, 0, 6), Outcome::Finished(task(number, payload)));
    }

    #[test]
    fn each_word_has_a_step_of_its_own() {
        for payload_words in 1..=4u32 {
            let mut queue = Fifo::new(Store::fresh(vec![0; 20], 2, payload_words));
            let payload = [50, 51, 52, 53];
            let whole = |number| Task::new(number, payload, payload_words);
            for number in 1..=2 {
                queue.begin_put(number, payload);
                steps(&mut queue, 0, 3);
                for word in 0..=payload_words as usize {
                    let at = (number - 1) as usize * (payload_words as usize + 1) + word;
                    assert_eq!(queue.store.words()[at], 0);
                    steps(&mut queue, 0, 1);
                    assert_eq!(queue.store.words()[at], whole(number).0[word]);
                }
                assert_eq!(steps(&mut queue, 0, 1), Outcome::Finished(whole(number)));
            }
            // Lines 1 to 3, the words, the last line; a thief notes besides.
            queue.begin_steal(1);
            assert_eq!(steps(&mut queue, 1, payload_words + 6), Outcome::HandedOut(whole(1)));
            queue.begin_take();
            assert_eq!(steps(&mut queue, 0, payload_words + 5), Outcome::HandedOut(whole(2)));
        }
    }

    #[test]
    fn first_in_first_out() {
        let mut queue = fifo(2, 4);
        put(&mut queue, 1, 10);
        put(&mut queue, 2, 20);
        queue.begin_take();
        assert_eq!(steps(&mut queue, 0, 6), Outcome::HandedOut(task(1, 10)));
        queue.begin_steal(2);
        assert_eq!(steps(&mut queue, 2, 7), Outcome::HandedOut(task(2, 20)));
        queue.begin_steal(2);
        assert_eq!(steps(&mut queue, 2, 3), Outcome::Empty);
        queue.begin_take();
        assert_eq!(steps(&mut queue, 0, 3), Outcome::Empty);
    }

    #[test]
    fn the_owners_stale_store_sets_the_head_back() {
        let mut queue = fifo(4, 8);
        for number in 1..=3 {
            put(&mut queue, number, number);
        }
        queue.begin_take();
        steps(&mut queue, 0, 5);
        for number in 1..=3 {
            queue.begin_steal(1);
            assert_eq!(steps(&mut queue, 1, 7), Outcome::HandedOut(task(number, number)));
        }
        assert_eq!(queue.head, 3);
        assert_eq!(steps(&mut queue, 0, 1), Outcome::HandedOut(task(1, 1)));
        assert_eq!(queue.head, 1);
        assert_eq!(queue.window().collect::<Vec<_>>(), [task(2, 2), task(3, 3)]);
    }

    #[test]
    fn a_compare_looks_at_the_head_alone() {
        let mut queue = fifo(4, 8);
        put(&mut queue, 1, 1);
        queue.begin_steal(1);
        steps(&mut queue, 1, 6);
        put(&mut queue, 2, 2);
        assert_eq!(steps(&mut queue, 1, 1), Outcome::HandedOut(task(1, 1)));
        queue.begin_steal(1);
        steps(&mut queue, 1, 6);
        queue.begin_take();
        steps(&mut queue, 0, 6);
        assert_eq!(steps(&mut queue, 1, 1), Outcome::Restarted);
        assert_eq!(steps(&mut queue, 1, 3), Outcome::Empty);
    }

    #[test]
    fn expansion_notes_head_and_tail_at_x2() {
        let mut queue = fifo(2, 12);
        put(&mut queue, 1, 10);
        put(&mut queue, 2, 20);
        begin_put(&mut queue, 3, 30);
        steps(&mut queue, 0, 4); // lines 1 to 3, X1
        queue.begin_steal(1);
        steps(&mut queue, 1, 7);
        // X2 finds one task left, X3 copies it, X4.
        assert_eq!(steps(&mut queue, 0, 3), Outcome::Published);
        assert_eq!(queue.store.owners_size(), 4);
        assert_eq!(queue.store.task(0).number(), 0);
        assert_eq!(queue.store.task(1).number(), 2);
        assert_eq!(steps(&mut queue, 0, 6), Outcome::Finished(task(3, 30)));
        assert_eq!(queue.window().collect::<Vec<_>>(), [task(2, 20), task(3, 30)]);
    }

    #[test]
    fn tasks_stolen_after_x2_are_copied_all_the_same() {
        let mut queue = fifo(1, 6);
        put(&mut queue, 1, 10);
        begin_put(&mut queue, 2, 20);
        steps(&mut queue, 0, 5); // lines 1 to 3, X1, X2
        queue.begin_steal(1);
        steps(&mut queue, 1, 7);
        assert_eq!(steps(&mut queue, 0, 2), Outcome::Published);
        assert_eq!(queue.store.task(0).number(), 1);
        assert_eq!(queue.window().count(), 0);
    }

    #[test]
    fn a_commit_copies_what_is_in_the_queue_at_x2() {
        let mut queue = fifo(2, 12);
        put(&mut queue, 1, 10);
        put(&mut queue, 2, 20);
        assert!(queue.store.set_aside());
        queue.begin_commit();
        assert!(queue.commits());
        steps(&mut queue, 0, 1); // X1
        assert!(!queue.commits() && queue.copying());
        queue.begin_steal(1);
        assert_eq!(steps(&mut queue, 1, 7), Outcome::HandedOut(task(1, 10)));
        // X2 finds one task left, X3 copies it, X4.
        assert_eq!(steps(&mut queue, 0, 3), Outcome::Committed);
        assert_eq!((queue.head, queue.tail, queue.store.owners_size()), (1, 2, 4));
        assert_eq!(queue.window().collect::<Vec<_>>(), [task(2, 20)]);
        assert_eq!(queue.store.task(0).number(), 0);
    }

    #[test]
    fn a_commit_of_an_empty_queue_copies_nothing() {
        let mut queue = fifo(2, 12);
        assert!(queue.store.set_aside());
        queue.begin_commit();
        assert_eq!(steps(&mut queue, 0, 3), Outcome::Committed);
        assert_eq!(queue.store.owners_size(), 4);
    }

    #[test]
    fn full_and_the_log() {
        let mut queue = fifo(1, 5);
        put(&mut queue, 1, 10);
        begin_put(&mut queue, 2, 20);
        steps(&mut queue, 0, 3);
        assert_eq!(queue.step(0, false, &mut Blind), Outcome::Refused(11));
        let full = Outcome::Full(task(2, 20));
        assert_eq!(queue.step(0, true, &mut Blind), full);
        assert_eq!(queue.step(0, true, &mut Blind), Outcome::Refused(8));
        queue.begin_steal(7);
        steps(&mut queue, 7, 6);
        assert_eq!(queue.step(7, false, &mut Blind), Outcome::Refused(11));
        assert_eq!(queue.head, 0);
    }
}

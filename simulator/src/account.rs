//! The log's room and the six counts of `T`.
//!
//! The entries themselves are the listing; what has to be kept is how many
//! there are and, for each put number, what became of its task. A put takes an
//! entry of the log when it ends, so that is little however long the input.

use crate::task::Task;

/// The log's room, in words.
const LOG: u32 = 16_384;

#[derive(Clone, Copy, Default)]
struct Put {
    task: Task,
    finished: bool,
    /// A task with this number was handed out.
    number_seen: bool,
    /// This put's task was handed out, with all its words.
    task_seen: bool,
}

pub struct Account {
    /// The words of an entry, and those the log has left.
    entry: u32,
    words_left: u32,
    /// By put number. Place 0 belongs to no put: its words are all 0.
    puts: Vec<Put>,
    finished: u32,
    hand_outs: u32,
    different: u32,
}

impl Account {
    /// Of a bench with so many payload words.
    pub fn new(payload_words: u32) -> Account {
        Account {
            entry: payload_words + 3,
            words_left: LOG,
            puts: vec![Put::default()],
            finished: 0,
            hand_outs: 0,
            different: 0,
        }
    }

    /// Whether the log can take one more entry.
    pub fn room(&self) -> bool {
        self.words_left >= self.entry
    }

    /// How many more entries the log can take.
    pub fn entries_left(&self) -> u32 {
        self.words_left / self.entry
    }

    /// A put of this task begins; numbers are given from 1 on, in turn.
    pub fn begin_put(&mut self, task: Task) {
        assert_eq!(task.number() as usize, self.puts.len());
        self.puts.push(Put { task, ..Put::default() });
    }

    pub fn finish(&mut self, number: u32) {
        self.words_left -= self.entry;
        self.finished += 1;
        self.puts[number as usize].finished = true;
    }

    pub fn hand_out(&mut self, task: Task) {
        self.words_left -= self.entry;
        self.hand_outs += 1;
        let put = &mut self.puts[task.number() as usize];
        if !put.number_seen {
            put.number_seen = true;
            self.different += 1;
        }
        // Past the premise a thief can get words of several puts; that is a
        // hand-out, but of no put's task.
        if put.task == task {
            put.task_seen = true;
        }
    }

    /// EMPTY and FULL take an entry and change no count.
    pub fn other_entry(&mut self) {
        self.words_left -= self.entry;
    }

    /// The six counts of `T`, given the tasks in the window and the restarts of
    /// all workers.
    pub fn totals(&self, window: impl Iterator<Item = Task>, restarts: u64) -> [u64; 6] {
        let mut standing = vec![false; self.puts.len()];
        let mut tasks = 0u64;
        for task in window {
            tasks += 1;
            let place = task.number() as usize;
            if self.puts[place].task == task {
                standing[place] = true;
            }
        }
        let lost = self.puts.iter().zip(&standing).filter(|(put, &standing)| {
            put.finished && !put.task_seen && !standing
        });
        let lost = lost.count() as u64;
        let [finished, hand_outs, different] =
            [self.finished, self.hand_outs, self.different].map(u64::from);
        [finished, hand_outs, different, restarts, tasks, lost]
    }
}

#[cfg(test)]
mod tests {
    use super::*;

    #[test]
    fn the_log_takes_whole_entries_of_its_16384_words() {
        for (payload_words, entries) in [(1, 4096), (2, 3276), (3, 2730), (4, 2340)] {
            let mut account = Account::new(payload_words);
            for _ in 1..entries {
                account.other_entry();
            }
            assert!(account.room());
            assert_eq!(account.entries_left(), 1);
            account.other_entry();
            assert!(!account.room());
            assert_eq!(account.entries_left(), 0);
        }
    }

    #[test]
    fn lost_goes_by_all_words_and_different_by_the_number() {
        for payload_words in 1..=4 {
            // The last of the payload words is the one that differs.
            let task = |number, last: u32| {
                let mut words = Task::default();
                words.0[0] = number;
                words.0[payload_words as usize] = last;
                words
            };
            let mut account = Account::new(payload_words);
            for number in 1..=4 {
                account.begin_put(task(number, 10 * number));
                if number < 4 {
                    account.finish(number);
                }
            }
            account.hand_out(task(1, 10));
            account.hand_out(task(1, 10));
            account.hand_out(task(2, 10)); // number of one, payload of another
            assert_eq!(account.totals([task(3, 30)].into_iter(), 1), [3, 3, 2, 1, 1, 1]);
            assert_eq!(account.totals([task(3, 31), task(2, 20)].into_iter(), 1), [3, 3, 2, 1, 2, 1]);
            assert_eq!(account.totals([].into_iter(), 1), [3, 3, 2, 1, 0, 2]);
        }
    }
}

//! The program's rules: which lines are in place, what is refused because it is
//! not, and what is printed.

use crate::account::Account;
use crate::bench::{Bench, Operation, Shape};
use crate::listing::{print, print_hand_out};
use crate::outcome::{refusal, Outcome, Place};
use crate::task::{Payload, Task};
use crate::text::{self, Command};
use crate::witness::{Cause, Witness};

pub struct Player<W> {
    /// None until a `queue` is accepted.
    game: Option<Game>,
    witness: W,
}

struct Game {
    bench: Bench,
    account: Account,
    payload_words: u32,
}

impl<W: Witness> Player<W> {
    pub fn new(witness: W) -> Player<W> {
        Player { game: None, witness }
    }

    pub fn witness(&self) -> &W {
        &self.witness
    }

    pub fn into_witness(self) -> W {
        self.witness
    }

    /// How far a worker is; none without a bench or such a worker.
    pub fn place(&self, worker: u32) -> Option<Place> {
        self.game.as_ref()?.bench.place(worker)
    }

    /// Whether the current array is full.
    pub fn full(&self) -> bool {
        self.game.as_ref().is_some_and(|game| game.bench.full())
    }

    /// How many more entries the log can take; none without a bench.
    pub fn entries_left(&self) -> u32 {
        self.game.as_ref().map_or(0, |game| game.account.entries_left())
    }

    /// Plays one line, its newline taken off, and puts what it prints behind
    /// `listing`. Answers false if it was the end.
    pub fn line(&mut self, line: &[u8], listing: &mut Vec<u8>) -> bool {
        let answer = match text::parse(line) {
            None => Err(refusal::BAD_LINE),
            Some(Command::Queue { shape, words }) => self.fresh(shape, words),
            // Nothing but a queue is in place before one is accepted.
            Some(_) if self.game.is_none() => Err(refusal::BAD_LINE),
            Some(Command::Put { words, payload }) => self.put(words, payload),
            Some(Command::Take) => self.begin(0, Operation::Take),
            Some(Command::Steal { worker }) => self.begin(worker, Operation::Steal),
            Some(Command::Step { worker, count }) => self.steps(worker, count, listing),
            Some(Command::Who { worker }) => self.who(worker, listing),
            Some(Command::End) => {
                self.totals(listing);
                return false;
            }
        };
        if let Err(number) = answer {
            print(listing, b'R', &[number]);
        }
        if let Some(Game { bench, .. }) = &self.game {
            self.witness.shared(bench.anchor(), bench.restarts());
            if self.witness.watches() {
                self.witness.after(Cause::Other, &bench.shown());
            }
        }
        true
    }

    fn fresh(&mut self, shape: Shape, words: u32) -> Result<(), u32> {
        if self.game.is_some() {
            return Err(refusal::BAD_LINE);
        }
        let bench = Bench::fresh(shape, &mut vec![0; words as usize])?;
        let payload_words = shape.payload_words;
        self.game = Some(Game { bench, account: Account::new(payload_words), payload_words });
        self.witness.fresh(shape);
        Ok(())
    }

    /// A put of so many words, which have to be as many as the bench has.
    fn put(&mut self, words: usize, payload: Payload) -> Result<(), u32> {
        let game = self.game.as_ref().ok_or(refusal::BAD_LINE)?;
        if words != game.payload_words as usize {
            return Err(refusal::BAD_LINE);
        }
        self.begin(0, Operation::Put { payload })
    }

    fn begin(&mut self, worker: u32, operation: Operation) -> Result<(), u32> {
        let game = self.game.as_mut().ok_or(refusal::BAD_LINE)?;
        self.witness.call();
        let number = game.bench.begin(worker, operation)?;
        if let (Some(number), Operation::Put { payload }) = (number, operation) {
            let task = Task::new(number, payload, game.payload_words);
            game.account.begin_put(task);
            self.witness.put_begun(task);
        }
        Ok(())
    }

    fn steps(&mut self, worker: u32, count: u32, listing: &mut Vec<u8>) -> Result<(), u32> {
        let game = self.game.as_mut().ok_or(refusal::BAD_LINE)?;
        let Game { bench, account, payload_words } = game;
        let witness = &mut self.witness;
        for _ in 0..count {
            witness.call();
            let outcome = bench.step(worker, account.room(), witness);
            witness.shared(bench.anchor(), bench.restarts());
            if witness.watches() {
                witness.after(Cause::Step { worker, outcome }, &bench.shown());
            }
            match outcome {
                Outcome::GoesOn => continue,
                Outcome::Restarted | Outcome::Published => {}
                Outcome::Finished(task) => {
                    account.finish(task.number());
                    print(listing, b'D', &[task.number()]);
                }
                Outcome::HandedOut(task) => {
                    account.hand_out(task);
                    print_hand_out(listing, worker, task.words(*payload_words));
                }
                Outcome::Empty => {
                    account.other_entry();
                    print(listing, b'E', &[worker]);
                }
                Outcome::Full(task) => {
                    account.other_entry();
                    print(listing, b'F', &[task.number()]);
                }
                Outcome::Committed => unreachable!("the program has no line for a commit"),
                Outcome::Refused(number) => return Err(number),
            }
            witness.answered(worker, outcome);
            if witness.wants_window() {
                witness.window(&mut bench.window());
            }
        }
        Ok(())
    }

    fn who(&mut self, worker: u32, listing: &mut Vec<u8>) -> Result<(), u32> {
        let game = self.game.as_ref().ok_or(refusal::BAD_LINE)?;
        let count = game.bench.who(worker)?;
        self.witness.who(worker as usize, count);
        print(listing, b'W', &[worker, count]);
        Ok(())
    }

    fn totals(&mut self, listing: &mut Vec<u8>) {
        if let Some(Game { bench, account, .. }) = &self.game {
            let restarts = bench.all_restarts();
            self.witness.total(restarts);
            print(listing, b'T', &account.totals(bench.window(), restarts));
        }
    }
}

#[cfg(test)]
mod tests {
    use super::*;
    use crate::demand3::{Demand3, Finding};
    use crate::witness::Blind;

    fn listing(lines: &str) -> String {
        let mut player = Player::new(Blind);
        let mut listing = Vec::new();
        for line in lines.split(", ") {
            if !player.line(line.as_bytes(), &mut listing) {
                break;
            }
        }
        String::from_utf8(listing).unwrap().trim_end().replace('\n', ", ")
    }

    const P1: &str = "put 65, step 0 5, steal 1, step 1 5, take, step 0 5, put 66, step 0 5, \
                      take, step 0 5, put 67, step 0 5, step 1 1, end";

    #[test]
    fn p1_and_p2() {
        assert_eq!(
            listing(&format!("queue 1 1 2 2 12, {P1}")),
            "D 1, H 0 1 65, D 2, H 0 2 66, D 3, H 1 1 65, T 3 3 2 0 0 1"
        );
        assert_eq!(
            listing(&format!("queue 1 2 2 2 12, {P1}")),
            "D 1, H 0 1 65, D 2, H 0 2 66, D 3, T 3 2 2 1 1 0"
        );
    }

    #[test]
    fn p1_with_links_loses_nothing() {
        for width in [1, 2, 16] {
            assert_eq!(
                listing(&format!("queue 4 {width} 2 2 12, {P1}")),
                "D 1, H 0 1 65, D 2, H 0 2 66, D 3, T 3 2 2 1 1 0"
            );
        }
        assert_eq!(listing("queue 4 0 1 1 2, queue 4 17 1 1 2, queue 5 0 1 1 2, queue 5 17 1 1 2"), "R 2, R 2, R 2, R 2");
        assert_eq!(listing("queue 6 0 0 0 0, queue 4294967295 1 1 1 2, queue 0 1 1 1 2"), "R 1, R 1, R 1");
        // The program has no line for the event.
        assert_eq!(listing("queue 5 1 1 2 2, put 1, step 0 5, steal 1, step 1 6, drop 1, step 1 1"), "D 1, R 13, H 1 1 1");
    }

    #[test]
    fn p1_breaks_the_premise_and_p2_keeps_it() {
        for (kind, width, broken) in [(1, 1, true), (1, 2, false), (4, 1, false)] {
            let mut player = Player::new(Demand3::new());
            let mut listing = Vec::new();
            for line in format!("queue {kind} {width} 2 2 12, {P1}").split(", ") {
                player.line(line.as_bytes(), &mut listing);
            }
            let finding = player.witness().finding();
            assert_eq!(matches!(finding, Finding::PremiseBroken { .. }), broken);
            assert_eq!(*finding == Finding::Kept, !broken);
        }
    }

    #[test]
    fn p3_to_p6() {
        assert_eq!(
            listing("queue 2 1 2 2 4, put 5, step 0 6, take, step 0 3, steal 1, step 1 7, step 0 3, end"),
            "D 1, H 1 1 5, H 0 1 5, T 1 2 1 0 0 0"
        );
        assert_eq!(
            listing("queue 1 1 1 1 2, put 1, step 0 5, put 2, step 0 2, step 0 1, end"),
            "D 1, F 2, T 1 0 0 0 1 0"
        );
        assert_eq!(
            listing("queue 1 1 1 1 6, put 1, step 0 5, put 2, step 0 10, step 0 1, end"),
            "D 1, D 2, T 2 0 0 0 2 0"
        );
        assert_eq!(
            listing("queue 3 1 1 2 6, put 1, step 0 5, put 2, step 0 2, steal 1, step 1 7, step 0 7, step 0 1, end"),
            "D 1, H 1 1 1, D 2, T 2 1 1 0 1 0"
        );
    }

    #[test]
    fn a_refused_fresh_in_the_tables_order() {
        assert_eq!(listing("queue 0 0 0 0 0"), "R 1");
        assert_eq!(listing("queue 6 1 1 1 2"), "R 1");
        assert_eq!(listing("queue 1 0 0 0 0, queue 1 17 3 9 0"), "R 2, R 2");
        assert_eq!(listing("queue 1 1 0 0 0, queue 1 1 3 9 0, queue 1 1 2048 9 0"), "R 3, R 3, R 3");
        assert_eq!(listing("queue 1 1 1 0 0, queue 1 1 1 9 0"), "R 4, R 4");
        assert_eq!(listing("queue 1 1 1 1 1, queue 1 1 1024 1 2047"), "R 5, R 5");
        assert_eq!(listing("queue 2 0 1 1 2"), "R 2", "checked for FIFO too");
        assert_eq!(listing("queue 2 17 4294967295 1 2"), "R 2");
        assert_eq!(listing("queue 1 1 2147483648 1 2"), "R 3");
    }

    #[test]
    fn payload_words_are_the_sixth_number_and_refused_after_the_crew() {
        for words in [0, 5, 4294967295u32] {
            assert_eq!(listing(&format!("queue 1 1 1 1 2 {words}")), "R 16");
            assert_eq!(listing(&format!("queue 1 1 1 1 0 {words}")), "R 16", "before 5");
            assert_eq!(listing(&format!("queue 1 1 1 9 2 {words}")), "R 4");
            assert_eq!(listing(&format!("queue 1 1 3 1 2 {words}")), "R 3");
            assert_eq!(listing(&format!("queue 1 0 1 1 2 {words}")), "R 2");
            assert_eq!(listing(&format!("queue 6 1 1 1 2 {words}")), "R 1");
            assert_eq!(listing(&format!("queue 1 1 1 1 10236 {words}")), "R 13");
        }
        assert_eq!(listing("queue 1 1 1 1 2 4294967296, queue 1 1 1 1 2 01"), "R 13, R 13");
        for words in 1..=4 {
            assert_eq!(listing(&format!("queue 1 1 1 1 {words} {words}")), "R 5");
            assert_eq!(listing(&format!("queue 1 1 1 1 {} {words}, end", words + 1)), "T 0 0 0 0 0 0");
        }
    }

    #[test]
    fn a_put_has_as_many_words_as_the_bench() {
        let puts = ["put 1", "put 1 2", "put 1 2 3", "put 1 2 3 4"];
        for words in 1..=4 {
            let mut lines = format!("queue 1 1 1 1 5 {words}, put, put 1 2 3 4 5");
            let mut expected = "R 13, R 13".to_string();
            for (at, put) in puts.iter().enumerate() {
                lines += &format!(", {put}");
                if at + 1 != words {
                    expected += ", R 13";
                }
            }
            // Busy by now: 13 comes before 7.
            lines += ", put 1 2 3 4 5, put, step 0 9, take, step 0 9";
            let payload = &puts[words - 1][4..];
            expected += &format!(", R 13, R 13, D 1, R 8, H 0 1 {payload}, R 8");
            assert_eq!(listing(&lines), expected);
        }
        for put in puts {
            assert_eq!(listing(put), "R 13", "no queue yet");
        }
    }

    #[test]
    fn a_torn_task_belongs_to_no_put() {
        // The thief reads number and first word of put 1, and put 3's second.
        assert_eq!(
            listing(
                "queue 1 1 1 2 3 2, put 10 11, step 0 6, steal 1, step 1 5, take, step 0 6, put 20 21, \
                 step 0 6, take, step 0 6, put 30 31, step 0 6, step 1 2, end"
            ),
            "D 1, H 0 1 10 11, D 2, H 0 2 20 21, D 3, H 1 1 10 31, T 3 3 2 0 0 1"
        );
    }

    #[test]
    fn lines_out_of_place() {
        assert_eq!(listing("put 1, take, steal 1, step 0 0, who 0, who 9, end, queue 1 1 1 1 2, end"),
            "R 13, R 13, R 13, R 13, R 13, R 13, R 13, T 0 0 0 0 0 0");
        assert_eq!(listing("queue 1 1 1 1 2, queue 1 1 1 1 2, queue 9 9 9 9 9, queue"), "R 13, R 13, R 13");
    }

    #[test]
    fn begins_and_steps_refused_in_order() {
        assert_eq!(listing("queue 1 1 1 2 2, steal 2, steal 0, steal 1, steal 1, take, put 1, take, steal 0"),
            "R 6, R 9, R 7, R 7, R 7, R 9");
        assert_eq!(listing("queue 1 1 1 2 2, step 2 1, step 1 1, step 2 0, step 0 5"), "R 6, R 8, R 8");
        assert_eq!(listing("queue 1 1 1 2 2, put 9, step 0 65535"), "D 1, R 8");
    }

    #[test]
    fn who_shows_each_workers_own_count_and_the_totals_their_sum() {
        // Three thieves before their compare, and one task.
        for (kind, put, reads) in [(1, 5, 5), (2, 6, 6), (3, 5, 6), (4, 5, 5), (5, 5, 6)] {
            let steals: String = (1..4).map(|thief| format!("steal {thief}, step {thief} {reads}, ")).collect();
            assert_eq!(
                listing(&format!(
                    "queue {kind} 1 1 4 2, who 0, who 4, put 8, step 0 {put}, {steals}who 1, step 2 1, who 2, \
                     step 1 1, who 1, step 3 1, who 3, who 1, who 0, who 5, who 4294967295, end"
                )),
                "W 0 0, R 6, D 1, W 1 0, H 2 1 8, W 2 0, W 1 1, W 3 1, W 1 1, W 0 0, R 6, R 6, T 1 1 1 2 0 0"
            );
        }
        assert_eq!(
            listing("queue 1 1 1 1 2, who, who 0 0, who 01, who 4294967296, who 0"),
            "R 13, R 13, R 13, R 13, W 0 0"
        );
    }

    #[test]
    fn a_refused_put_uses_no_number() {
        assert_eq!(
            listing("queue 1 1 1 1 2, put 1, put 2, step 0 5, put 3, step 0 3, take, step 0 5, put 4, step 0 5"),
            "R 7, D 1, F 2, H 0 1 1, D 3"
        );
    }

    #[test]
    fn large_values_are_printed_whole() {
        assert_eq!(
            listing("queue 2 1 1 1 2, put 4294967295, step 0 6, take, step 0 6"),
            "D 1, H 0 1 4294967295"
        );
    }
}

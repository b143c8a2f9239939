//! Lists of library calls: which line may stand where, and what it plays.

use std::io::{self, Write};

use crate::bench::Bench;
use crate::call_text::{self, Line};
use crate::company::Company;
use crate::lent::{Lent, Whose};
use crate::log::Log;
use crate::outcome::Place;
use crate::turn::{answer, Post};
use crate::witness::Witness;

/// What a list is about. Its first line behind the lent memory says which.
#[derive(Clone, Copy, Debug, PartialEq, Eq)]
enum About {
    /// A bench alone, and another in its place.
    Bench,
    /// The queues of a yard.
    Yard,
}

/// How far a list is.
enum Stage<W> {
    /// Before its first line: who will watch.
    Start(W),
    Lent(Lent<W>),
}

pub struct Calls<W> {
    stage: Stage<W>,
    /// None before the second line.
    about: Option<About>,
}

impl<W: Witness + Default> Calls<W> {
    pub fn new(witness: W) -> Calls<W> {
        Calls { stage: Stage::Start(witness), about: None }
    }

    /// Plays one line, its newline taken off, and writes its answers, each as
    /// soon as it is there. Answers false if the line is not of the form: then
    /// nothing was played.
    pub fn line(&mut self, line: &[u8], out: &mut impl Write) -> io::Result<bool> {
        match (call_text::parse(line), &mut self.stage) {
            (Some(Line::Memory { store, log }), Stage::Start(witness)) => {
                self.stage = Stage::Lent(Lent::new(store, log, std::mem::take(witness)));
                Ok(true)
            }
            (Some(line), Stage::Lent(lent)) => match about(line, self.about) {
                Some(about) => {
                    self.about = Some(about);
                    play(lent, line, out)?;
                    Ok(true)
                }
                None => Ok(false),
            },
            // The lent memory comes first.
            _ => Ok(false),
        }
    }

    fn lent(&self) -> Option<&Lent<W>> {
        match &self.stage {
            Stage::Start(_) => None,
            Stage::Lent(lent) => Some(lent),
        }
    }

    /// Who watches the bench alone, or the first queue.
    pub fn witness(&self) -> &W {
        match &self.stage {
            Stage::Start(witness) => witness,
            Stage::Lent(lent) => &lent.posts()[0].witness,
        }
    }

    pub fn into_witness(self) -> W {
        match self.stage {
            Stage::Start(witness) => witness,
            Stage::Lent(lent) => lent.into_witness(),
        }
    }

    /// What belongs to each queue; of a list about a bench alone, to that.
    pub fn posts(&self) -> &[Post<W>] {
        self.lent().map_or(&[], Lent::posts)
    }

    /// Whether the list is about the queues of a yard.
    pub fn is_yard(&self) -> bool {
        self.about == Some(About::Yard)
    }

    /// What was found about queues in company, if the witness watches.
    pub fn company(&self) -> Option<&Company> {
        self.lent()?.company()
    }

    /// The bench alone, or the queue of this number.
    fn bench(&self, number: usize) -> Option<&Bench> {
        self.lent()?.queues().get(number)
    }

    /// How far a worker is; none without such a queue or such a worker.
    pub fn place(&self, number: usize, worker: u32) -> Option<Place> {
        self.bench(number)?.place(worker)
    }

    /// Whether the current array is full.
    pub fn full(&self, number: usize) -> bool {
        self.bench(number).is_some_and(Bench::full)
    }

    /// How many tasks are in the window.
    pub fn standing(&self, number: usize) -> usize {
        self.bench(number).map_or(0, Bench::standing)
    }

    /// The words that an ask has set aside; 0 for none.
    pub fn aside(&self, number: usize) -> u32 {
        self.bench(number).map_or(0, |bench| bench.store().aside())
    }

    /// How many stores wait.
    pub fn waiting(&self, number: usize) -> usize {
        self.bench(number).map_or(0, |bench| bench.store().line().stores().len())
    }

    /// How many more entries the log can take.
    pub fn entries_left(&self, number: usize) -> u32 {
        self.lent().and_then(|lent| lent.log(number)).map_or(0, Log::entries_left)
    }
}

/// What a list is about that goes on with this line; none if the line can't stand
/// there. A making comes before all other lines of a yard.
fn about(line: Line, before: Option<About>) -> Option<About> {
    match (line, before) {
        (Line::Fresh(_) | Line::Call { queue: None, .. }, None | Some(About::Bench)) => Some(About::Bench),
        (Line::Make(_), None | Some(About::Yard)) => Some(About::Yard),
        (Line::Call { queue: Some(_), .. }, Some(About::Yard)) => Some(About::Yard),
        _ => None,
    }
}

fn play<W: Witness + Default>(lent: &mut Lent<W>, line: Line, out: &mut impl Write) -> io::Result<()> {
    let made = match line {
        Line::Fresh(shape) => lent.fresh(shape),
        Line::Make(shape) => lent.make(shape),
        Line::Call { queue, call } => return lent.play(queue.map_or(Whose::Bench, Whose::Queue), call, out),
        // It is the first line alone.
        Line::Memory { .. } => return Ok(()),
    };
    let mut said = Vec::new();
    answer(made, &mut said);
    out.write_all(&said)
}

#[cfg(test)]
mod tests {
    use super::*;
    use crate::demand3::{Demand3, Finding};
    use crate::witness::Blind;

    /// The answers to a list, parted by commas as the list is.
    fn answers(list: &str) -> String {
        let mut calls = Calls::new(Blind);
        let mut out = Vec::new();
        for line in list.split(", ") {
            if !calls.line(line.as_bytes(), &mut out).unwrap() {
                break;
            }
        }
        String::from_utf8(out).unwrap().trim_end().replace('\n', ", ")
    }

    #[test]
    fn without_a_bench_every_call_is_answered_12_and_the_front_is_empty() {
        let calls = "begin 0 put 1, begin 0 take, begin 1 steal, begin 9 steal, step 0 2, step 7 0, drop 0, drop 9, \
                     who 0, who 9, state, front";
        let answered = "R 12, R 12, R 12, R 12, R 12, R 12, R 12, R 12, R 12, R 12, R 12, L";
        assert_eq!(answers(&format!("memory 2 4, {calls}")), answered);
        // Nor is there one after a refused fresh, whatever was before.
        assert_eq!(
            answers(&format!("memory 2 4, fresh 1 1 1 2 1, begin 0 take, step 0 2, front, fresh 1 1 2 2 1, {calls}")),
            format!("A, A, G, E 0, L 3 0 0 0, R 5, {answered}")
        );
    }

    #[test]
    fn p1_call_by_call() {
        assert_eq!(
            answers(
                "memory 12 40, fresh 1 1 2 2 1, begin 0 put 65, step 0 5, begin 1 steal, step 1 5, \
                 begin 0 take, step 0 5, begin 0 put 66, step 0 5, begin 0 take, step 0 5, \
                 begin 0 put 67, step 0 5, step 1 1, front, state"
            ),
            "A, N 1, G, G, G, G, D 1, A, G, G, G, G, G, A, G, G, G, G, H 0 1 65, N 2, G, G, G, G, D 2, \
             A, G, G, G, G, H 0 2 66, N 3, G, G, G, G, D 3, H 1 1 65, \
             L 1 0 1 65 2 0 1 65 1 0 2 66 2 0 2 66 1 0 3 67 2 1 1 65, \
             S 0 0 1 1 1 0 4 3 24 0 0 0 0 0 0 0 0 0 3 67 0 0 3000000004 3000000005 3000000006 3000000007 \
             3000000008 3000000009 3000000010 3000000011"
        );
    }

    #[test]
    fn fresh_zeroes_the_first_2c_words_and_touches_no_other() {
        assert_eq!(
            answers("memory 3 0, fresh 3 1 1 1 1, state"),
            "A, S 0 0 0 1 1 0 2 0 0 0 0 0 0 0 0 0 0 0 0 0 3000000002"
        );
        // The one after it finds the words as they were left.
        assert_eq!(
            answers("memory 4 9, fresh 2 1 2 1 1, begin 0 put 8, step 0 6, state, fresh 1 1 1 1 1, state, front"),
            "A, N 1, G, G, G, G, G, D 1, S 0 1 0 1 1 0 4 1 4 0 0 0 0 0 0 0 0 0 1 8 0 0, A, \
             S 0 0 0 1 1 0 2 0 0 0 0 0 0 0 0 0 0 0 0 0 0 0, L"
        );
        assert_eq!(
            answers("memory 4 9, fresh 2 1 2 1 1, begin 0 put 8, step 0 6, fresh 2 1 0 1 1, fresh 1 1 1 1 1, \
                     begin 0 put 9, step 0 4, state"),
            "A, N 1, G, G, G, G, G, D 1, R 3, A, N 1, G, G, G, G, S 0 0 0 1 1 0 2 1 0 0 0 0 0 0 0 0 0 0 1 9 0 0"
        );
    }

    #[test]
    fn an_array_claimed_and_not_yet_published() {
        // Lines 1, 2, X1, X2, X3, X4 of the second put, with the state after X1,
        // X3 and X4.
        assert_eq!(
            answers(
                "memory 7 8, fresh 1 2 1 1 1, begin 0 put 5, step 0 5, begin 0 put 6, step 0 3, state, \
                 step 0 2, state, step 0 1, state, step 0 5, state"
            ),
            "A, N 1, G, G, G, G, D 1, N 2, G, G, G, S 0 1 1 1 2 0 2 2 4 2 4 0 0 0 0 0 0 0 0 0 1 5 0 0 0 0 3000000006, \
             G, G, S 0 1 1 1 2 0 2 2 4 2 4 0 0 0 0 0 0 0 0 0 1 5 1 5 0 0 3000000006, \
             G, S 0 1 1 2 2 0 2 2 4 2 4 0 0 0 0 0 0 0 0 0 1 5 1 5 0 0 3000000006, \
             G, G, G, G, D 2, S 0 2 2 2 2 0 2 2 4 2 8 0 0 0 0 0 0 0 0 0 1 5 1 5 2 6 3000000006"
        );
    }

    #[test]
    fn the_log_counts_words() {
        // Four words are left, and the ending step is accepted; with three it
        // is refused, and each step after it.
        assert_eq!(
            answers("memory 2 7, fresh 1 1 1 2 1, begin 0 take, step 0 2, begin 1 steal, step 1 4, front"),
            "A, A, G, E 0, A, G, R 11, R 11, R 11, L 3 0 0 0"
        );
        assert_eq!(
            answers("memory 2 8, fresh 1 1 1 2 1, begin 0 take, step 0 2, begin 1 steal, step 1 3, front"),
            "A, A, G, E 0, A, G, E 1, R 8, L 3 0 0 0 3 1 0 0"
        );
    }

    #[test]
    fn a_log_of_any_length_at_every_width() {
        // Two EMPTY entries, and so many words more, fewer than an entry.
        for payload_words in 1..=4 {
            let entry = payload_words + 3;
            let empty = |worker: u32| format!(" 3 {worker} 0{}", " 0".repeat(payload_words));
            for rest in 0..entry {
                let log = 2 * entry + rest;
                assert_eq!(
                    answers(&format!(
                        "memory 5 {log}, fresh 1 1 1 2 {payload_words}, begin 0 take, step 0 2, \
                         begin 1 steal, step 1 2, begin 0 take, step 0 3, front"
                    )),
                    format!("A, A, G, E 0, A, G, E 1, A, G, R 11, R 11, L{}{}", empty(0), empty(1))
                );
            }
        }
    }

    #[test]
    fn payload_words_past_the_width_are_not_looked_at_and_missing_ones_are_0() {
        for (payload_words, shown) in [(1, "7"), (2, "7 8"), (3, "7 8 9"), (4, "7 8 9 10")] {
            let steps = payload_words + 4;
            let goes_on = "G, ".repeat(steps - 1);
            assert_eq!(
                answers(&format!(
                    "memory 5 40, fresh 1 1 1 1 {payload_words}, begin 0 put 7 8 9 10, step 0 {steps}, \
                     begin 0 take, step 0 {steps}, begin 0 put 11, step 0 {steps}, state"
                )),
                format!(
                    "A, N 1, {goes_on}D 1, A, {goes_on}H 0 1 {shown}, N 2, {goes_on}D 2, \
                     S 0 1 0 1 1 0 {} 2 {} 0 0 0 0 0 0 0 0 0 2 11{}{}",
                    payload_words + 1,
                    3 * (payload_words + 3),
                    " 0".repeat(payload_words - 1),
                    (payload_words + 1..5).map(|at| format!(" {}", 3_000_000_000u32 + at as u32)).collect::<String>()
                )
            );
        }
    }

    #[test]
    fn a_later_fresh_with_another_width() {
        // Its first array is longer than the one before, and its log starts anew.
        assert_eq!(
            answers(
                "memory 7 12, fresh 2 1 1 1 1, begin 0 put 8, step 0 6, front, fresh 2 1 1 1 4, front, state, \
                 begin 0 put 1 2 3 4, step 0 9, front, fresh 2 1 1 1 0, fresh 2 1 2 1 4, fresh 2 1 2 1 2, state"
            ),
            "A, N 1, G, G, G, G, G, D 1, L 1 0 1 8, A, L, \
             S 0 0 0 1 1 0 5 0 0 0 0 0 0 0 0 0 0 0 0 0 0 0 0 3000000005 3000000006, \
             N 1, G, G, G, G, G, G, G, G, D 1, L 1 0 1 1 2 3 4, R 16, R 5, A, \
             S 0 0 0 1 1 0 6 0 0 0 0 0 0 0 0 0 0 0 0 0 0 0 0 0 3000000006"
        );
    }

    #[test]
    fn a_failed_compare_is_the_one_restart() {
        assert_eq!(
            answers(
                "memory 2 12, fresh 2 1 1 2 1, begin 0 put 4294967295, step 0 6, begin 1 steal, step 1 6, \
                 begin 0 take, step 0 6, step 1 1, state, begin 0 put 0, step 0 6"
            ),
            "A, N 1, G, G, G, G, G, D 1, A, G, G, G, G, G, G, A, G, G, G, G, G, H 0 1 4294967295, \
             G, S 1 1 0 1 1 0 2 1 8 0 1 0 0 0 0 0 0 0 1 4294967295, N 2, G, G, G, G, G, D 2"
        );
    }

    #[test]
    fn a_link_fails_and_the_next_attempt_is_handed_the_task() {
        assert_eq!(
            answers(
                "memory 2 8, drop 1, fresh 4 1 1 2 1, drop 1, drop 2, drop 0, begin 0 put 7, step 0 5, begin 1 steal, \
                 drop 1, step 1 5, drop 1, drop 1, step 1 1, drop 1, state, step 1 6, drop 1, state"
            ),
            "R 12, A, R 17, R 6, R 17, N 1, G, G, G, G, D 1, A, \
             R 17, G, G, G, G, G, A, R 17, G, R 17, S 0 1 0 1 1 0 2 1 4 0 1 0 0 0 0 0 0 0 1 7, \
             G, G, G, G, G, H 1 1 7, R 17, S 0 0 0 1 1 0 2 1 8 0 1 0 0 0 0 0 0 0 1 7"
        );
    }

    #[test]
    fn who_and_state_tell_the_workers_apart() {
        // Thieves 1 and 3 are beaten once and twice, thief 2 wins.
        for kind in [1, 4] {
            assert_eq!(
                answers(&format!(
                    "memory 2 16, who 1, fresh {kind} 1 1 4 1, begin 0 put 7, step 0 5, begin 3 steal, step 3 5, \
                     begin 0 take, step 0 5, step 3 1, begin 0 put 7, who 3, who 4, step 0 5, step 3 5, begin 1 steal, \
                     step 1 5, begin 2 steal, step 2 6, step 3 1, step 1 1, who 0, who 1, who 2, who 3, who 4, state"
                ))
                .split(", ")
                .filter(|answer| *answer != "G")
                .collect::<Vec<_>>()
                .join(", "),
                "R 12, A, N 1, D 1, A, A, H 0 1 7, N 2, W 3 1, R 6, D 2, A, A, H 2 2 7, W 0 0, W 1 1, W 2 0, W 3 2, \
                 R 6, S 0 0 0 1 1 0 2 2 16 0 1 0 2 0 0 0 0 0 2 7"
            );
        }
    }

    #[test]
    fn p1_loses_nothing_with_links_and_breaks_the_premise_with_a_tag() {
        for (kind, last, restarts) in [(1, "H 1 1 65", false), (4, "G", true)] {
            let mut calls = Calls::new(Demand3::new());
            let mut out = Vec::new();
            let list = format!(
                "memory 12 40, fresh {kind} 1 2 2 1, begin 0 put 65, step 0 5, begin 1 steal, step 1 5, \
                 begin 0 take, step 0 5, begin 0 put 66, step 0 5, begin 0 take, step 0 5, \
                 begin 0 put 67, step 0 5, step 1 1"
            );
            for line in list.split(", ") {
                assert!(calls.line(line.as_bytes(), &mut out).unwrap());
            }
            assert!(String::from_utf8(out).unwrap().ends_with(&format!("D 3\n{last}\n")));
            assert_eq!(*calls.witness().finding() == Finding::Kept, restarts);
            assert!(!calls.witness().finding().is_violation());
        }
    }

    #[test]
    fn delayed_stores_are_shown_and_drained() {
        let mut calls = Calls::new(Blind);
        let mut out = Vec::new();
        let list = "memory 3 8, drain, fresh 2 1 1 2 1 1, begin 0 put 5, step 0 6, state, begin 1 steal, step 1 3, \
                    drain, drain, drain, state, drain, fresh 2 1 1 2 1 0, state, drain";
        for line in list.split(", ") {
            assert!(calls.line(line.as_bytes(), &mut out).unwrap());
        }
        assert_eq!(
            String::from_utf8(out).unwrap().trim_end().replace('\n', ", "),
            "R 12, A, N 1, G, G, G, G, G, D 1, S 0 0 0 1 1 0 2 1 4 0 0 0 0 0 0 0 0 3 1 0 1 1 1 5 5 1 0 0 0 3000000002, \
             A, G, G, E 1, A, A, A, S 0 1 0 1 1 0 2 1 8 0 0 0 0 0 0 0 0 0 0 1 5 3000000002, R 19, \
             A, S 0 0 0 1 1 0 2 0 0 0 0 0 0 0 0 0 0 0 0 0 3000000002, R 19"
        );
    }

    #[test]
    fn an_ask_a_commit_and_its_entry() {
        for words in 1..=4 {
            let none = " 0".repeat(words);
            let each = words + 1;
            let length = 3 * each + 1;
            let end = |from: usize| (from..length).map(|at| format!(" {}", 3_000_000_000u32 + at as u32)).collect::<String>();
            let zeros = |count: usize| " 0".repeat(count);
            assert_eq!(
                answers(&format!(
                    "memory {length} {}, ask 0, unask 9, begin 0 commit, fresh 3 1 1 1 {words}, ask 0, state, begin 0 commit, \
                     step 0 2, state, step 0 1, state, front, ask 0, begin 0 commit, unask 0",
                    words + 3
                )),
                format!(
                    "R 12, R 12, R 12, A, A, S 0 0 0 1 1 0 {each} 0 0 0 0 0 0 0 0 0 0 {}{}{}, A, G, G, \
                     S 0 0 0 1 2 0 {each} {each} {} 0 0 0 0 0 0 0 0 0 0 0{}{}, C, \
                     S 0 0 0 2 2 0 {each} {each} {} 0 {} 0 0 0 0 0 0 0 0 0{}{}, L 5 0 0{none}, R 20, R 22, R 22",
                    2 * each, zeros(each), end(each), 2 * each, zeros(3 * each), end(3 * each), 2 * each, words + 3,
                    zeros(3 * each), end(3 * each)
                )
            );
        }
    }

    #[test]
    fn words_set_aside_are_shown_behind_the_waiting_stores() {
        assert_eq!(
            answers("memory 6 8, fresh 2 1 1 2 1 1, ask 0, begin 0 put 5, step 0 6, state, unask 0, state"),
            "A, A, N 1, G, G, G, G, G, D 1, \
             S 0 0 0 1 1 0 2 1 4 0 0 0 0 0 0 0 0 3 1 0 1 1 1 5 5 1 4 0 0 3000000002 3000000003 3000000004 3000000005, A, \
             S 0 0 0 1 1 0 2 1 4 0 0 0 0 0 0 0 0 3 1 0 1 1 1 5 5 1 0 0 0 3000000002 3000000003 3000000004 3000000005"
        );
    }

    #[test]
    fn memory_comes_first_and_once() {
        let mut calls = Calls::new(Blind);
        let mut out = Vec::new();
        assert!(!calls.line(b"state", &mut out).unwrap());
        assert!(calls.line(b"memory 2 4", &mut out).unwrap());
        assert!(!calls.line(b"memory 2 4", &mut out).unwrap());
        assert!(out.is_empty());
    }

    #[test]
    fn a_list_is_about_a_bench_or_about_a_yard() {
        let played = |list: &str| {
            let mut calls = Calls::new(Blind);
            let mut out = Vec::new();
            list.split(", ").take_while(|line| calls.line(line.as_bytes(), &mut out).unwrap()).count()
        };
        let make = "make 1 1 1 1 1 0";
        assert_eq!(played(&format!("memory 4 4, {make}, 0 state, {make}, 1 state, 9 front")), 6);
        assert_eq!(played(&format!("memory 4 4, {make}, state")), 2);
        assert_eq!(played(&format!("memory 4 4, {make}, fresh 1 1 1 1 1 0")), 2);
        assert_eq!(played("memory 4 4, 0 state"), 1, "a making comes first");
        assert_eq!(played("memory 4 4, make 0 1 1 1 1 0, 0 state"), 3, "be it refused");
        assert_eq!(played(&format!("memory 4 4, state, {make}")), 2);
        assert_eq!(played(&format!("memory 4 4, fresh 1 1 1 1 1 0, {make}")), 2);
        assert_eq!(played("memory 4 4, fresh 1 1 1 1 1 0, 0 state"), 2);
        assert_eq!(played(make), 0);
    }

    #[test]
    fn a_queue_alone_without_a_quota_is_a_bench_alone() {
        for kind in 1..=5 {
            for words in 1..=4 {
                for delayed in [0, 1] {
                    let drains = "drain, ".repeat(5);
                    let put = format!("begin 0 put 7 8 9 10, {}", format!("step 0 4, {drains}").repeat(6));
                    let calls = format!(
                        "{put}state, ask 0, begin 1 steal, step 1 4, {put}begin 0 commit, ask 0, begin 0 commit, \
                         step 0 3, state, {drains}step 0 8, step 1 9, {put}{put}{put}who 1, drop 1, begin 0 take, \
                         step 0 7, front, state, step 2 1"
                    );
                    let shape = format!("{kind} 1 1 2 {words} {delayed}");
                    let memory = format!("memory {} 60", 7 * (words + 1) + 1);
                    let queue: Vec<String> = calls.split(", ").map(|call| format!("0 {call}")).collect();
                    assert_eq!(
                        answers(&format!("{memory}, fresh {shape}, {calls}")),
                        answers(&format!("{memory}, make {shape}, {}", queue.join(", ")))
                    );
                }
            }
        }
    }

    /// Takes no more than so many bytes.
    struct Narrow(usize);

    impl Write for Narrow {
        fn write(&mut self, bytes: &[u8]) -> io::Result<usize> {
            self.0 = self.0.checked_sub(bytes.len()).ok_or(io::ErrorKind::WriteZero)?;
            Ok(bytes.len())
        }

        fn flush(&mut self) -> io::Result<()> {
            Ok(())
        }
    }

    #[test]
    fn answers_are_written_as_they_come() {
        let mut calls = Calls::new(Blind);
        calls.line(b"memory 2 4", &mut Narrow(0)).unwrap();
        // Gathered first, these would be 21 GB.
        let refused = calls.line(b"step 0 4294967295", &mut Narrow(50)).unwrap_err();
        assert_eq!(refused.kind(), io::ErrorKind::WriteZero);
    }
}

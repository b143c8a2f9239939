//! The hunt for the most repeats (document 02's wish 12).
//!
//! A plain recursion over the orders: a state in which some worker may step is gone
//! on from by each such worker in turn, the lowest first, so that the orders come in
//! rising order of their worker numbers. The first goes on in the state at hand; for
//! each later one the steps so far are played again from a fresh bench. So every
//! order is played whole, from fresh, and each step played is counted where it is
//! made.

use crate::bench::{Bench, Operation, Shape};
use crate::outcome::{refusal, Outcome, Place};
use crate::witness::Blind;

/// The most operations of a hunt, those of all workers together.
pub const MOST_OPERATIONS: u32 = 64;

/// The largest budget.
pub const MOST_BUDGET: u32 = 1_000_000;

/// An order ends after so many steps, whatever is left.
pub const MOST_STEPS: usize = 256;

/// The workers that there can be.
const WORKERS: usize = 8;

/// An operation of the owner's list.
#[derive(Clone, Copy, Debug, PartialEq, Eq)]
pub enum Own {
    Put,
    Take,
}

/// What is hunted through.
#[derive(Clone, Debug, PartialEq, Eq)]
pub struct Hunt {
    /// Without delayed stores, with the whole store as its quota.
    pub shape: Shape,
    /// The store's length.
    pub words: u32,
    pub own: Vec<Own>,
    /// By worker number; the owner has none.
    pub steals: [u32; WORKERS],
    /// In machine steps.
    pub budget: u32,
}

#[derive(Clone, Debug, Default, PartialEq, Eq)]
pub struct Report {
    /// The workers of the order's steps.
    pub order: Vec<u32>,
    pub repeats: u32,
    /// All machine steps made, those of an order that was cut off too.
    pub steps: u32,
    /// How far from the best the order can be.
    pub distance: u32,
}

impl Hunt {
    /// Hunts. `ended` is told of each order that was played out: how many steps were
    /// made by its end.
    pub fn run(&self, ended: impl FnMut(u32)) -> Result<Report, u32> {
        self.admit()?;
        let mut search = Search {
            budget: self.budget,
            table: Table::fresh(self, vec![0; self.words as usize]),
            order: Vec::new(),
            best: None,
            made: 0,
            ended,
        };
        let all = search.go_on().is_ok();
        let steps = search.made;
        let (repeats, order) = search.best.unwrap_or_default();
        let distance = if all { 0 } else { self.draws().saturating_sub(1) - repeats };
        Ok(Report { order, repeats, steps, distance })
    }

    /// Of each step of an order, the operation that it begins, if it begins one.
    pub fn begins(&self, order: &[u32]) -> Vec<Option<Operation>> {
        let mut table = Table::fresh(self, vec![0; self.words as usize]);
        let mut begun = Vec::new();
        for &worker in order {
            begun.push(table.begins(worker));
            table.step(worker);
        }
        begun
    }

    /// Fresh's own refusals, then 6, 25 and 26.
    fn admit(&self) -> Result<(), u32> {
        Bench::fresh(self.shape, &mut vec![0; self.words as usize])?;
        if self.steals.iter().skip(self.shape.crew as usize).any(|&count| count > 0) {
            return Err(refusal::NO_SUCH_WORKER);
        }
        let steals: u64 = self.steals.iter().map(|&count| u64::from(count)).sum();
        if self.own.len() as u64 + steals > u64::from(MOST_OPERATIONS) {
            return Err(refusal::MANY_OPERATIONS);
        }
        if self.budget > MOST_BUDGET {
            return Err(refusal::LARGE_BUDGET);
        }
        Ok(())
    }

    /// Takes and steals.
    fn draws(&self) -> u32 {
        let takes = self.own.iter().filter(|&&own| own == Own::Take).count();
        takes as u32 + self.steals.iter().sum::<u32>()
    }
}

/// A bench in play, and what its workers have still to do.
struct Table<'a> {
    hunt: &'a Hunt,
    bench: Bench,
    /// The operations begun so far, by worker number.
    begun: [u32; WORKERS],
    hand_outs: u32,
    /// Bit n: number n was handed out. Numbers go up to 64.
    numbers: u128,
}

impl<'a> Table<'a> {
    /// On these words: whatever they hold, fresh and X1 zero what is used of them.
    fn fresh(hunt: &'a Hunt, mut words: Vec<u32>) -> Table<'a> {
        let bench = Bench::fresh(hunt.shape, &mut words).expect("an accepted shape");
        Table { hunt, bench, begun: [0; WORKERS], hand_outs: 0, numbers: 0 }
    }

    /// Back to the start.
    fn again(&mut self) {
        *self = Table::fresh(self.hunt, self.bench.take_back());
    }

    /// Whether the worker is in an operation; one outside the crew is not.
    fn busy(&self, worker: u32) -> bool {
        self.bench.place(worker).is_some_and(|place| place != Place::Idle)
    }

    /// Whether the worker has begun all its operations.
    fn all_begun(&self, worker: u32) -> bool {
        let count = if worker == 0 { self.hunt.own.len() as u32 } else { self.hunt.steals[worker as usize] };
        self.begun[worker as usize] == count
    }

    /// Whether the worker has something open or left.
    fn may_step(&self, worker: u32) -> bool {
        !self.all_begun(worker) || self.busy(worker)
    }

    /// What the worker's next step begins: its next operation, if it is idle.
    fn begins(&self, worker: u32) -> Option<Operation> {
        if self.busy(worker) {
            return None;
        }
        if worker > 0 {
            return Some(Operation::Steal);
        }
        Some(match self.hunt.own[self.begun[0] as usize] {
            Own::Put => Operation::Put { payload: [self.bench.numbers_used() + 1; 4] },
            Own::Take => Operation::Take,
        })
    }

    /// One machine step; a begin is part of the step that follows it. The log always
    /// has room.
    fn step(&mut self, worker: u32) {
        if let Some(operation) = self.begins(worker) {
            self.bench.begin(worker, operation).expect("an operation of its own");
            self.begun[worker as usize] += 1;
        }
        match self.bench.step(worker, true, &mut Blind) {
            Outcome::HandedOut(task) => {
                self.hand_outs += 1;
                self.numbers |= 1 << task.number();
            }
            Outcome::Refused(number) => unreachable!("a step of worker {worker} was refused {number}"),
            _ => {}
        }
    }

    fn repeats(&self) -> u32 {
        self.hand_outs - self.numbers.count_ones()
    }
}

/// The budget is spent.
struct Spent;

struct Search<'a, F> {
    budget: u32,
    table: Table<'a>,
    /// The steps from fresh to the table as it is.
    order: Vec<u32>,
    /// Of the orders played out so far, the earliest with the most repeats.
    best: Option<(u32, Vec<u32>)>,
    made: u32,
    ended: F,
}

impl<F: FnMut(u32)> Search<'_, F> {
    /// Plays out every order that begins with the steps so far.
    fn go_on(&mut self) -> Result<(), Spent> {
        let able: [bool; WORKERS] = std::array::from_fn(|worker| self.table.may_step(worker as u32));
        if able == [false; WORKERS] || self.order.len() == MOST_STEPS {
            self.played_out();
            return Ok(());
        }
        let mut at_hand = true;
        for worker in (0..WORKERS as u32).filter(|&worker| able[worker as usize]) {
            if !at_hand {
                self.play_again()?;
            }
            at_hand = false;
            self.step(worker)?;
            self.order.push(worker);
            self.go_on()?;
            self.order.pop();
        }
        Ok(())
    }

    fn step(&mut self, worker: u32) -> Result<(), Spent> {
        if self.made == self.budget {
            return Err(Spent);
        }
        self.made += 1;
        self.table.step(worker);
        Ok(())
    }

    /// The steps so far once more, from fresh.
    fn play_again(&mut self) -> Result<(), Spent> {
        self.table.again();
        for at in 0..self.order.len() {
            self.step(self.order[at])?;
        }
        Ok(())
    }

    fn played_out(&mut self) {
        let repeats = self.table.repeats();
        if self.best.as_ref().is_none_or(|(most, _)| repeats > *most) {
            self.best = Some((repeats, self.order.clone()));
        }
        (self.ended)(self.made);
    }
}

#[cfg(test)]
mod tests {
    use super::*;

    const SHAPE: Shape = Shape { kind: 1, width: 1, size: 1, crew: 2, payload_words: 1, delayed: false, quota: None };

    fn hunt(kind: u32, own: &[Own], thieves: &[u32], budget: u32) -> Hunt {
        let mut steals = [0; WORKERS];
        steals[1..=thieves.len()].copy_from_slice(thieves);
        let shape = Shape { kind, size: 2, crew: 1 + thieves.len() as u32, ..SHAPE };
        Hunt { shape, words: 4, own: own.to_vec(), steals, budget }
    }

    fn found(hunt: &Hunt) -> Report {
        hunt.run(|_| {}).unwrap()
    }

    /// Every complete order with its repeats, made in another way: the lowest worker
    /// goes on to the end, and then the last step that can be a higher worker's is.
    fn all_orders(hunt: &Hunt) -> Vec<(Vec<u32>, u32)> {
        let mut orders = Vec::new();
        let mut order: Vec<u32> = Vec::new();
        loop {
            let mut table = Table::fresh(hunt, vec![7; hunt.words as usize]);
            order.iter().for_each(|&worker| table.step(worker));
            while let Some(worker) = (0..8).find(|&worker| table.may_step(worker)).filter(|_| order.len() < 256) {
                table.step(worker);
                order.push(worker);
            }
            orders.push((order.clone(), table.repeats()));
            loop {
                let Some(last) = order.pop() else {
                    return orders;
                };
                let mut table = Table::fresh(hunt, vec![7; hunt.words as usize]);
                order.iter().for_each(|&worker| table.step(worker));
                if let Some(worker) = (last + 1..8).find(|&worker| table.may_step(worker)) {
                    order.push(worker);
                    break;
                }
            }
        }
    }

    #[test]
    fn two_attempts_on_an_empty_queue_have_six_orders_of_four_steps() {
        for kind in [1, 3, 4, 5] {
            let hunt = hunt(kind, &[Own::Take], &[1], 24);
            let mut ends = Vec::new();
            let report = hunt.run(|end| ends.push(end)).unwrap();
            assert_eq!(ends, [4, 8, 12, 16, 20, 24]);
            assert_eq!(report, Report { order: vec![0, 0, 1, 1], repeats: 0, steps: 24, distance: 0 });
        }
    }

    #[test]
    fn the_budget_at_each_step_of_a_whole_walk() {
        for budget in 0..=30 {
            let report = found(&hunt(1, &[Own::Take], &[1], budget));
            assert_eq!(report.order, if budget < 4 { vec![] } else { vec![0, 0, 1, 1] });
            assert_eq!(report.steps, budget.min(24));
            assert_eq!(report.distance, if budget < 24 { 1 } else { 0 });
        }
    }

    #[test]
    fn nothing_to_do_is_one_order_of_no_steps() {
        for budget in [0, 1, MOST_BUDGET] {
            let mut ends = Vec::new();
            let nothing = hunt(2, &[], &[0, 0], budget);
            assert_eq!(nothing.run(|end| ends.push(end)), Ok(Report::default()));
            assert_eq!(ends, [0]);
        }
    }

    #[test]
    fn p3_repeats_and_what_is_left_is_never_below_0() {
        let p3 = |budget| found(&hunt(2, &[Own::Put, Own::Take], &[1], budget));
        let order = [vec![0; 11], vec![1; 7], vec![0]].concat();
        assert_eq!(p3(166), Report { order, repeats: 1, steps: 166, distance: 0 });
        let order = [vec![0; 12], vec![1; 3]].concat();
        assert_eq!(p3(165), Report { order, repeats: 0, steps: 165, distance: 1 });
        // A put alone: nothing can be handed out.
        assert_eq!(found(&hunt(2, &[Own::Put], &[], 5)), Report { steps: 5, ..Report::default() });
    }

    #[test]
    fn an_order_ends_after_256_steps() {
        let puts = [Own::Put; 64];
        let mut long = hunt(1, &puts, &[], 256);
        (long.shape.size, long.words) = (64, 128);
        assert_eq!(found(&long), Report { order: vec![0; 256], repeats: 0, steps: 256, distance: 0 });
        long.budget = 255;
        assert_eq!(found(&long), Report { steps: 255, ..Report::default() });
    }

    #[test]
    fn the_same_as_going_through_a_list_of_all_orders() {
        let lists: [(u32, &[Own], &[u32]); 6] = [
            (1, &[Own::Put, Own::Take], &[1]),
            (2, &[Own::Take, Own::Put], &[1]),
            (3, &[Own::Put, Own::Take], &[1]),
            (4, &[Own::Put, Own::Take], &[1]),
            (5, &[Own::Take, Own::Take], &[1, 1]),
            (1, &[Own::Put], &[1, 0, 1]),
        ];
        for (kind, own, thieves) in lists {
            let mut hunt = hunt(kind, own, thieves, MOST_BUDGET);
            let orders = all_orders(&hunt);
            assert!(orders.windows(2).all(|pair| pair[0].0 < pair[1].0));
            let all: usize = orders.iter().map(|(order, _)| order.len()).sum();
            assert!(all <= 400_000, "{all} steps");
            for budget in [0, 10, 100, 1000, all / 3, all / 2, all - 1, all, all + 1] {
                hunt.budget = budget as u32;
                let mut paid = 0;
                let mut best: Option<&(Vec<u32>, u32)> = None;
                let mut whole = true;
                for played in &orders {
                    if paid + played.0.len() > budget {
                        whole = false;
                        break;
                    }
                    paid += played.0.len();
                    if best.is_none_or(|best| played.1 > best.1) {
                        best = Some(played);
                    }
                }
                let (order, repeats) = best.cloned().unwrap_or_default();
                let steps = if whole { all } else { budget } as u32;
                let distance = if whole { 0 } else { hunt.draws() - 1 - repeats };
                assert_eq!(found(&hunt), Report { order, repeats, steps, distance });
            }
        }
    }

    #[test]
    fn a_larger_budget_never_finds_fewer() {
        let mut hunt = hunt(1, &[Own::Put, Own::Take], &[1, 1], 0);
        let mut before = 0;
        let mut most = 0;
        for budget in (0..20_000).step_by(250) {
            hunt.budget = budget;
            let report = found(&hunt);
            assert!(report.repeats >= before && report.distance <= 2 - report.repeats);
            before = report.repeats;
            most = most.max(before);
        }
        assert_eq!(most, 1);
    }

    #[test]
    fn refusals_in_their_order() {
        let good = hunt(1, &[Own::Take; 60], &[4], MOST_BUDGET);
        assert!(good.run(|_| {}).is_ok());
        let mut bad = Hunt { budget: MOST_BUDGET + 1, ..good };
        let mut expect = |bad: &Hunt, number| assert_eq!(bad.run(|_| panic!("nothing is played")), Err(number));
        expect(&bad, 26);
        bad.own.push(Own::Put);
        expect(&bad, 25);
        bad.steals[1] = u32::MAX;
        bad.steals[2] = u32::MAX;
        expect(&bad, 6);
        bad.words = 3;
        expect(&bad, 5);
        bad.shape.payload_words = 5;
        expect(&bad, 16);
        bad.shape.crew = 9;
        expect(&bad, 4);
        bad.shape.size = 3;
        expect(&bad, 3);
        bad.shape.width = 17;
        expect(&bad, 2);
        bad.shape.kind = 6;
        expect(&bad, 1);
    }

    #[test]
    fn steals_are_counted_beyond_a_word() {
        let mut many = hunt(1, &[], &[u32::MAX, 65], 0);
        assert_eq!(many.run(|_| {}), Err(25));
        many.steals = [0, 0, 0, 1, 0, 0, 0, 0];
        assert_eq!(many.run(|_| {}), Err(6), "workers 0 to 2");
        many.steals[3] = 0;
        assert!(many.run(|_| {}).is_ok(), "no steals outside the crew");
    }
}

//! All that is checked beside a run: demand 3, the restarts of each worker, FIFO's
//! order, the limits on what is shared, what X1 may claim, asks and commits, and
//! with delayed stores what each call did to memory and to the waiting line and what
//! the owner read and wrote.

use std::fmt;

use crate::asks::Asks;
use crate::bench::Shape;
use crate::demand3::Demand3;
use crate::drains::Drains;
use crate::limits::Limits;
use crate::order::Order;
use crate::owner::Owner;
use crate::restarts::Restarts;
use crate::rooms::Rooms;
use crate::settled::Kept;
use crate::task::Task;
use crate::waiting::Waiting;
use crate::witness::{Asking, Cause, Shown, Witness};

#[derive(Default)]
pub struct Checks {
    demand3: Demand3,
    restarts: Restarts,
    order: Order,
    limits: Limits,
    rooms: Rooms,
    asks: Asks,
    drains: Drains,
    owner: Owner,
}

impl Checks {
    pub fn new() -> Checks {
        Checks::default()
    }

    /// Whether something is wrong that no broken premise excuses.
    pub fn failed(&self) -> bool {
        self.demand3.finding().is_violation()
            || self.restarts.is_wrong()
            || self.order.is_wrong()
            || self.limits.is_wrong()
            || self.rooms.is_wrong()
            || self.asks.is_wrong()
            || self.drains.is_wrong()
            || self.owner.is_wrong()
    }
}

/// A line for each of them.
impl fmt::Display for Checks {
    fn fmt(&self, text: &mut fmt::Formatter<'_>) -> fmt::Result {
        let Checks { demand3, restarts, order, limits, rooms, asks, drains, owner } = self;
        write!(text, "{}\n{restarts}\n{order}\n{limits}\n{rooms}\n{asks}\n{drains}\n{owner}", demand3.finding())
    }
}

impl Witness for Checks {
    fn fresh(&mut self, shape: Shape) {
        self.demand3.fresh(shape);
        self.restarts.fresh(shape);
        self.order.fresh(shape);
        self.limits.fresh(shape);
        self.rooms.fresh(shape);
        self.asks.fresh(shape);
        self.drains.fresh(shape);
        self.owner.fresh(shape);
    }

    fn call(&mut self) {
        self.demand3.call();
        self.restarts.call();
        self.order.call();
        self.limits.call();
        self.rooms.call();
        self.asks.call();
        self.drains.call();
        self.owner.call();
    }

    fn put_begun(&mut self, task: Task) {
        self.demand3.put_begun(task);
        self.owner.put_begun(task);
    }

    fn line_one(&mut self, worker: usize) {
        self.demand3.line_one(worker);
        self.restarts.line_one(worker);
        self.owner.line_one(worker);
    }

    fn put_line_one(&mut self) {
        self.owner.put_line_one();
    }

    fn compare(&mut self, worker: usize) {
        self.demand3.compare(worker);
        self.restarts.compare(worker);
    }

    fn finished(&mut self, number: u32) {
        self.demand3.finished(number);
        self.restarts.finished(number);
    }

    fn handed_out(&mut self, worker: usize, task: Task) {
        self.demand3.handed_out(worker, task);
        self.restarts.handed_out(worker, task);
        self.order.handed_out(worker, task);
    }

    fn empty(&mut self, worker: usize) {
        self.demand3.empty(worker);
    }

    fn published(&mut self) {
        self.demand3.published();
    }

    fn committed(&mut self) {
        self.demand3.committed();
    }

    fn asked(&mut self, call: Asking, worker: u32, answer: Result<(), u32>, before: &Kept, shown: &Shown) {
        self.asks.asked(call, worker, answer, before, shown);
    }

    fn dropped(&mut self, worker: usize) {
        self.restarts.dropped(worker);
    }

    fn drained(&mut self, store: Waiting) {
        self.demand3.drained(store);
        self.restarts.drained(store);
    }

    fn watches(&self) -> bool {
        true
    }

    fn after(&mut self, cause: Cause, shown: &Shown) {
        self.demand3.after(cause, shown);
        self.limits.after(cause, shown);
        self.rooms.after(cause, shown);
        self.asks.after(cause, shown);
        self.drains.after(cause, shown);
        self.owner.after(cause, shown);
    }

    fn wants_window(&self) -> bool {
        self.demand3.wants_window()
    }

    fn window(&mut self, tasks: &mut dyn Iterator<Item = Task>) {
        self.demand3.window(tasks);
    }

    fn shared(&mut self, anchor: [u32; 3], restarts: &[u32; 8]) {
        self.restarts.shared(anchor, restarts);
    }

    fn who(&mut self, worker: usize, count: u32) {
        self.restarts.who(worker, count);
    }

    fn total(&mut self, restarts: u64) {
        self.restarts.total(restarts);
    }
}

#[cfg(test)]
mod tests {
    use super::*;

    #[test]
    fn any_of_them_fails_all() {
        let shape = Shape { kind: 4, width: 1, size: 1, crew: 2, payload_words: 1, delayed: false, quota: None };
        let mut checks = Checks::new();
        checks.fresh(shape);
        assert!(!checks.failed());
        assert_eq!(checks.to_string(), 
            "demand 3 kept\nrestarts counted\norder kept\nlimits kept\nroom as told\nasks kept\ndrains in turn\n\
             the owner read its own stores");
        checks.shared([0; 3], &[1, 0, 0, 0, 0, 0, 0, 0]);
        assert!(checks.failed());

        let mut checks = Checks::new();
        checks.fresh(shape);
        checks.handed_out(1, Task([1, 2, 0, 0, 0]));
        assert!(checks.failed());
    }
}

//! FIFO in order (wish 4): the put numbers of first hand-outs rise along the log,
//! in every list of a FIFO bench, drains and all.

use std::collections::HashSet;
use std::fmt;

use crate::bench::Shape;
use crate::found::Found;
use crate::task::Task;
use crate::witness::Witness;

#[derive(Default)]
pub struct Order {
    fifo: bool,
    seen: HashSet<u32>,
    largest: u32,
    found: Found,
}

impl Order {
    pub fn is_wrong(&self) -> bool {
        self.found.is_wrong()
    }
}

impl fmt::Display for Order {
    fn fmt(&self, text: &mut fmt::Formatter<'_>) -> fmt::Result {
        self.found.tell(text, "order kept", "order broken")
    }
}

impl Witness for Order {
    fn fresh(&mut self, shape: Shape) {
        *self = Order {
            fifo: shape.kind == 2,
            found: std::mem::take(&mut self.found),
            ..Order::default()
        };
    }

    fn call(&mut self) {
        self.found.call();
    }

    fn handed_out(&mut self, worker: usize, task: Task) {
        let number = task.number();
        if !self.fifo || !self.seen.insert(number) {
            return;
        }
        if number <= self.largest {
            let largest = self.largest;
            self.found.wrong(format!("worker {worker} was first handed put {number} after put {largest}"));
        }
        self.largest = self.largest.max(number);
    }
}

#[cfg(test)]
mod tests {
    use super::*;

    fn wrong(kind: u32, numbers: &[u32]) -> bool {
        let mut order = Order::default();
        order.fresh(Shape { kind, width: 1, size: 1, crew: 2, payload_words: 1, delayed: true, quota: None });
        for &number in numbers {
            order.handed_out(1, Task([number, 0, 0, 0, 0]));
        }
        order.is_wrong()
    }

    #[test]
    fn first_hand_outs_rise_and_others_need_not() {
        assert!(!wrong(2, &[1, 2, 1, 2, 3, 1, 5]));
        assert!(wrong(2, &[2, 1]));
        assert!(wrong(2, &[1, 4, 4, 3]));
        assert!(!wrong(1, &[2, 1]));
    }

    #[test]
    fn a_later_fresh_starts_anew_and_what_is_wrong_stays() {
        let shape = Shape { kind: 2, width: 1, size: 1, crew: 2, payload_words: 1, delayed: false, quota: None };
        let mut order = Order::default();
        order.fresh(shape);
        order.handed_out(0, Task([5, 0, 0, 0, 0]));
        order.fresh(shape);
        order.handed_out(0, Task([1, 0, 0, 0, 0]));
        assert!(!order.is_wrong());
        order.fresh(shape);
        order.handed_out(0, Task([2, 0, 0, 0, 0]));
        order.handed_out(0, Task([1, 0, 0, 0, 0]));
        order.fresh(shape);
        assert!(order.is_wrong());
    }
}

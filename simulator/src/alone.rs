//! Each queue beside itself alone: as long as the quotas of all queues made add up
//! to what the store has, a queue's answers and its log depend only on its making,
//! its own calls and its log as lent. So each queue has a twin, the one queue of
//! another store of the same length with the same quota, which is called alike.
//!
//! Every front of a list is a list, so what differs before a making whose quota no
//! longer adds up is wrong. From that making on nothing is compared.

use std::fmt;

use crate::bench::Shape;
use crate::call_text::Call;
use crate::company::View;
use crate::found::Found;
use crate::lent::{Lent, Whose};
use crate::rooms;
use crate::witness::Blind;

pub struct Alone {
    store: u32,
    log: u32,
    /// By the queues' numbers; none once the quotas do not add up.
    twins: Vec<Lent<Blind>>,
    quotas: u64,
    compared: u64,
    found: Found,
}

impl Alone {
    /// For queues on so many words with logs of so many words.
    pub fn new(store: u32, log: u32) -> Alone {
        Alone { store, log, twins: Vec::new(), quotas: 0, compared: 0, found: Found::default() }
    }

    pub fn is_wrong(&self) -> bool {
        self.found.is_wrong()
    }

    /// Whether a yard was looked at.
    pub fn is_asked(&self) -> bool {
        self.quotas > 0
    }

    /// One more queue was made.
    pub fn made(&mut self, shape: Shape) {
        self.quotas += u64::from(rooms::quota(shape, self.store));
        if self.quotas > u64::from(self.store.min(rooms::USABLE)) {
            return self.twins.clear();
        }
        let mut twin = Lent::new(self.store, self.log, Blind);
        if let Err(number) = twin.make(shape) {
            self.found.wrong(format!("its making is refused {number} alone"));
        }
        self.twins.push(twin);
    }

    /// A call of a queue was answered so. What `state` shows is no call's answer:
    /// its arrays lie elsewhere alone.
    pub fn called(&mut self, number: usize, call: Call, said: &[u8], view: &View) {
        self.found.call();
        let Some(twin) = self.twins.get_mut(number) else { return };
        if call == Call::State {
            return;
        }
        let mut alone = Vec::new();
        twin.play_one(Whose::Queue(0), call, &mut alone);
        self.compared += 1;
        let same_log = twin.log(0) == view.logs.get(number).copied();
        if said != alone {
            let [here, alone] = [said, &alone].map(|text| String::from_utf8_lossy(text).trim_end().to_string());
            self.found.wrong(format!("queue {number} answers {here:?}, and alone {alone:?}"));
        } else if !same_log {
            self.found.wrong(format!("queue {number} has another log"));
        }
    }
}

impl fmt::Display for Alone {
    fn fmt(&self, text: &mut fmt::Formatter<'_>) -> fmt::Result {
        self.found.tell(text, &format!("{} answers as alone", self.compared), "not as alone")
    }
}

#[cfg(test)]
mod tests {
    use super::*;
    use crate::calls::Calls;
    use crate::checks::Checks;
    use crate::log::Log;
    use crate::task::Task;

    const LIFO: Shape = Shape { kind: 1, width: 1, size: 1, crew: 1, payload_words: 1, delayed: false, quota: Some(2) };

    /// How many answers were held against those alone, and whether all were the same.
    fn found(list: &str) -> (u64, bool) {
        let mut calls = Calls::new(Checks::new());
        for line in list.split(", ") {
            assert!(calls.line(line.as_bytes(), &mut Vec::new()).unwrap(), "{line}");
        }
        let found = calls.company().unwrap().to_string();
        let line = found.lines().last().unwrap();
        let compared = line.split(' ').next().unwrap().parse();
        (compared.unwrap_or(0), !calls.company().unwrap().is_wrong())
    }

    #[test]
    fn answers_are_compared_while_the_quotas_add_up() {
        // A look at the state is none, each step is one.
        let calls = "0 begin 0 put 5, 0 state, 0 step 0 5, 1 front, 1 ask 0, 2 ask 0";
        assert_eq!(found(&format!("memory 9 8, make 1 1 1 1 1 0 3, make 2 1 1 1 1 0 6, {calls}")), (8, true));
        assert_eq!(found(&format!("memory 8 8, make 1 1 1 1 1 0 3, make 2 1 1 1 1 0 6, {calls}")), (0, true));
        assert_eq!(found("memory 10300 8, make 2 1 1 1 1 0 10235, 0 ask 0"), (1, true));
        assert_eq!(found("memory 10300 8, make 2 1 1 1 1 0 10236, 0 ask 0"), (0, true));
        assert_eq!(found("memory 9 8, make 2 1 1 1 1 0 9, 0 ask 0, make 2 1 1 1 1 0 1, 0 ask 0"), (2, true));
        assert_eq!(found("memory 9 8, make 2 1 1 1 1 0 9, 0 ask 0, make 2 1 1 1 1 0 2, 0 ask 0"), (1, true));
    }

    #[test]
    fn an_answer_or_a_log_that_differs_is_wrong() {
        let wrong = |said: &[u8], log: &Log| {
            let mut alone = Alone::new(4, 8);
            alone.made(LIFO);
            alone.called(0, Call::Ask { worker: 0 }, said, &View { words: &[], queues: &[], logs: vec![log] });
            alone.is_wrong()
        };
        let mut log = Log::lent(8);
        assert!(!wrong(b"R 20\n", &log));
        assert!(wrong(b"A\n", &log));
        assert!(wrong(b"", &log));
        log.enter(3, 0, Task::default());
        assert!(wrong(b"R 20\n", &log));
    }
}

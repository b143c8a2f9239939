//! What a line of a list of library calls says.

use crate::bench::{Operation, Shape};
use crate::task::{Payload, MOST_PAYLOAD};
use crate::text::value;

/// The longest store and the longest log, in words.
const LONGEST_STORE: u32 = 10_300;
const LONGEST_LOG: u32 = 20_000;

#[derive(Clone, Copy, Debug, PartialEq, Eq)]
pub enum Line {
    /// The lent memory, in words. It is the first line of a list and no other.
    Memory { store: u32, log: u32 },
    /// A bench alone, in another's place if there is one.
    Fresh(Shape),
    /// One more queue on the same store.
    Make(Shape),
    /// A call, of the queue named; where none is named, of the bench alone.
    Call { queue: Option<u32>, call: Call },
}

#[derive(Clone, Copy, Debug, PartialEq, Eq)]
pub enum Call {
    Begin { worker: u32, operation: Operation },
    Step { worker: u32, count: u32 },
    /// The event: the worker's link fails.
    Drop { worker: u32 },
    /// The event: the oldest waiting store is put down.
    Drain,
    /// Words are set aside for an array of twice the size, and given back.
    Ask { worker: u32 },
    Unask { worker: u32 },
    Who { worker: u32 },
    Front,
    State,
}

/// What a line says, its newline taken off; none if it is not of the form.
/// Numbers are written as in the bench program's input.
pub fn parse(line: &[u8]) -> Option<Line> {
    let words: Vec<&[u8]> = line.split(|&byte| byte == b' ').collect();
    match words[..] {
        [b"memory", store, log] => {
            let (store, log) = (number(store)?, number(log)?);
            (store <= LONGEST_STORE && log <= LONGEST_LOG).then_some(Line::Memory { store, log })
        }
        [b"fresh", kind, width, size, crew, payload_words] => {
            Some(Line::Fresh(shape([kind, width, size, crew, payload_words, b"0"])?))
        }
        [b"fresh", kind, width, size, crew, payload_words, delayed] => {
            Some(Line::Fresh(shape([kind, width, size, crew, payload_words, delayed])?))
        }
        [b"make", kind, width, size, crew, payload_words, delayed, ref quota @ ..] => {
            let quota = match quota {
                [] => None,
                [quota] => Some(number(quota)?),
                _ => return None,
            };
            let shape = shape([kind, width, size, crew, payload_words, delayed])?;
            Some(Line::Make(Shape { quota, ..shape }))
        }
        [first, ref rest @ ..] => match number(first) {
            Some(queue) => Some(Line::Call { queue: Some(queue), call: call(rest)? }),
            None => Some(Line::Call { queue: None, call: call(&words)? }),
        },
        [] => None,
    }
}

/// Kind, tag width, size, crew, payload words, and 1 with delayed stores.
fn shape([kind, width, size, crew, payload_words, delayed]: [&[u8]; 6]) -> Option<Shape> {
    Some(Shape {
        kind: number(kind)?,
        width: number(width)?,
        size: number(size)?,
        crew: number(crew)?,
        payload_words: number(payload_words)?,
        delayed: match delayed {
            b"0" => false,
            b"1" => true,
            _ => return None,
        },
        quota: None,
    })
}

fn call(words: &[&[u8]]) -> Option<Call> {
    let begin = |worker, operation| Some(Call::Begin { worker: number(worker)?, operation });
    match *words {
        [b"begin", worker, b"put", ref words @ ..] if (1..=MOST_PAYLOAD).contains(&words.len()) => {
            // Words that are not there are 0.
            let mut payload = Payload::default();
            for (word, text) in payload.iter_mut().zip(words) {
                *word = number(text)?;
            }
            begin(worker, Operation::Put { payload })
        }
        [b"begin", worker, b"take"] => begin(worker, Operation::Take),
        [b"begin", worker, b"steal"] => begin(worker, Operation::Steal),
        [b"begin", worker, b"commit"] => begin(worker, Operation::Commit),
        [b"step", worker, count] => Some(Call::Step { worker: number(worker)?, count: number(count)? }),
        [b"drop", worker] => Some(Call::Drop { worker: number(worker)? }),
        [b"drain"] => Some(Call::Drain),
        [b"ask", worker] => Some(Call::Ask { worker: number(worker)? }),
        [b"unask", worker] => Some(Call::Unask { worker: number(worker)? }),
        [b"who", worker] => Some(Call::Who { worker: number(worker)? }),
        [b"front"] => Some(Call::Front),
        [b"state"] => Some(Call::State),
        _ => None,
    }
}

fn number(word: &[u8]) -> Option<u32> {
    value(word).and_then(|(number, rest)| rest.is_empty().then_some(number))
}

#[cfg(test)]
mod tests {
    use super::*;

    #[test]
    fn each_form() {
        assert_eq!(parse(b"memory 10300 20000"), Some(Line::Memory { store: 10_300, log: 20_000 }));
        assert_eq!(parse(b"memory 0 0"), Some(Line::Memory { store: 0, log: 0 }));
        let fresh = |delayed| {
            Some(Line::Fresh(Shape { kind: 3, width: 16, size: 1024, crew: 8, payload_words: 4, delayed, quota: None }))
        };
        assert_eq!(parse(b"fresh 3 16 1024 8 4"), fresh(false));
        assert_eq!(parse(b"fresh 3 16 1024 8 4 0"), fresh(false));
        assert_eq!(parse(b"fresh 3 16 1024 8 4 1"), fresh(true));
        let call = |call| Some(Line::Call { queue: None, call });
        let begin = |worker, operation| call(Call::Begin { worker, operation });
        let put = |payload| begin(0, Operation::Put { payload });
        assert_eq!(parse(b"begin 0 put 65"), put([65, 0, 0, 0]));
        assert_eq!(parse(b"begin 0 put 65 66"), put([65, 66, 0, 0]));
        assert_eq!(parse(b"begin 0 put 65 66 67"), put([65, 66, 67, 0]));
        assert_eq!(parse(b"begin 0 put 65 66 67 68"), put([65, 66, 67, 68]));
        assert_eq!(parse(b"begin 0 take"), begin(0, Operation::Take));
        assert_eq!(parse(b"begin 7 steal"), begin(7, Operation::Steal));
        assert_eq!(parse(b"begin 0 commit"), begin(0, Operation::Commit));
        assert_eq!(parse(b"ask 0"), call(Call::Ask { worker: 0 }));
        assert_eq!(parse(b"unask 7"), call(Call::Unask { worker: 7 }));
        assert_eq!(parse(b"step 0 0"), call(Call::Step { worker: 0, count: 0 }));
        assert_eq!(parse(b"drop 7"), call(Call::Drop { worker: 7 }));
        assert_eq!(parse(b"drain"), call(Call::Drain));
        assert_eq!(parse(b"who 7"), call(Call::Who { worker: 7 }));
        assert_eq!(parse(b"front"), call(Call::Front));
        assert_eq!(parse(b"state"), call(Call::State));
    }

    #[test]
    fn queues_of_a_yard() {
        let shape = Shape { kind: 3, width: 16, size: 1024, crew: 8, payload_words: 4, delayed: true, quota: None };
        assert_eq!(parse(b"make 3 16 1024 8 4 1"), Some(Line::Make(shape)));
        assert_eq!(parse(b"make 3 16 1024 8 4 1 7"), Some(Line::Make(Shape { quota: Some(7), ..shape })));
        assert_eq!(parse(b"make 3 16 1024 8 4 0 0"), Some(Line::Make(Shape { delayed: false, quota: Some(0), ..shape })));
        for line in [
            "begin 0 put 65", "begin 0 put 65 66 67 68", "begin 0 take", "begin 7 steal", "begin 0 commit", "step 0 5",
            "drop 7", "drain", "ask 0", "unask 7", "who 7", "front", "state",
        ] {
            let Some(Line::Call { queue: None, call }) = parse(line.as_bytes()) else { panic!("{line}") };
            for queue in [0, 3, 4, u32::MAX] {
                let whose = format!("{queue} {line}");
                assert_eq!(parse(whose.as_bytes()), Some(Line::Call { queue: Some(queue), call }), "{whose}");
            }
        }
    }

    #[test]
    fn numbers_up_to_4294967295() {
        for line in [
            "fresh 4294967295 4294967295 4294967295 4294967295 4294967295",
            "make 4294967295 4294967295 4294967295 4294967295 4294967295 0 4294967295",
            "4294967295 step 4294967295 4294967295",
            "4294967295 state",
            "begin 4294967295 put 4294967295",
            "begin 4294967295 put 4294967295 4294967295 4294967295 4294967295",
            "begin 4294967295 take",
            "begin 4294967295 steal",
            "begin 4294967295 commit",
            "ask 4294967295",
            "unask 4294967295",
            "step 4294967295 4294967295",
            "drop 4294967295",
            "who 4294967295",
        ] {
            assert!(parse(line.as_bytes()).is_some(), "{line}");
            for at in line.match_indices("4294967295").map(|(at, _)| at) {
                let mut above = line.to_string();
                above.replace_range(at..at + 10, "4294967296");
                assert_eq!(parse(above.as_bytes()), None, "{above}");
            }
        }
    }

    #[test]
    fn memory_within_its_ranges() {
        assert_eq!(parse(b"memory 10301 0"), None);
        assert_eq!(parse(b"memory 0 20001"), None);
    }

    #[test]
    fn not_of_the_form() {
        for line in [
            "", " ", "memory", "memory 1", "memory 1 1 1", "fresh 1 1 1", "fresh 1 1 1 1",
            "fresh 1 1 1 1 ", "fresh 1 1 1 1 x", "fresh 1 1 1 1 1 2", "fresh 1 1 1 1 1 4294967295", "fresh 1 1 1 1 1 01",
            "fresh 1 1 1 1 1 x", "fresh 1 1 1 1 1 ", "fresh 1 1 1 1 1 1 1", "drain 0", "drain ", "drains", "Drain", "begin 0 drain",
            "begin 0", "begin 0 put",
            "begin 0 put ", "begin 0 put 1 ", "begin 0 put 1 2 3 4 5", "begin 0 put 1 x", "begin put 1",
            "begin 0 take 1", "begin 1 steal 1", "begin 0 commit 3", "begin 0 commit ", "begin commit", "begin 0 Commit",
            "begin 0 commits", "commit", "commit 0", "step 0", "step 0 1 1",
            "step 0 -1", "step +0 1", "step 0 x", "step  0 1", " step 0 1", "step 0 1 ",
            "step\t0 1", "step 0 1\r", "STEP 0 1", "drop", "drop ", "drop x", "drop 01", "drop 1 1", "drops 1", "Drop 1",
            "begin 1 drop", "who", "who ", "who x", "who 01", "who 1 1", "who 1 ", "whom 1", "Who 1", "begin 1 who",
            "front 0", "fronts", "state 0", "states",
            "put 1", "take", "steal 1", "queue 1 1 1 1 2", "end", "unlink 1",
            "ask", "ask ", "ask x", "ask 01", "ask 0 0", "ask 0 ", "asks 0", "Ask 0", "begin 0 ask",
            "unask", "unask ", "unask x", "unask 00", "unask 0 0", "unask 0 ", "unasks 0", "un ask 0", "begin 0 unask",
            "drop ask", "make", "make 1 1 1 1", "make 1 1 1 1 1", "make 1 1 1 1 1 2", "make 1 1 1 1 1 0 ", "make 1 1 1 1 1 0 x",
            "make 1 1 1 1 1 0 01", "make 1 1 1 1 1 0 1 1", "makes 1 1 1 1 1 0", "Make 1 1 1 1 1 0", "0", "0 ", "0 0", "0 0 state",
            "00 state", "-1 state", "+0 state", "x state", "0  state", " 0 state", "0 state ", "0 state 0", "0 step 0", "0 memory 1 1",
            "0 fresh 1 1 1 1 1 0", "0 make 1 1 1 1 1 0", "state 0",
        ] {
            assert_eq!(parse(line.as_bytes()), None, "{line:?}");
        }
    }
}

//! What a line of the input says.

use crate::bench::Shape;
use crate::task::{Payload, MOST_PAYLOAD};

/// The most words a store can have.
pub const MOST_WORDS: u32 = 10_235;

/// The most steps one `step` can ask for.
const MOST_STEPS: u32 = 65_535;

#[derive(Clone, Copy, Debug, PartialEq, Eq)]
pub enum Command {
    Queue { shape: Shape, words: u32 },
    /// So many words, one to four; the others are 0.
    Put { words: usize, payload: Payload },
    Take,
    Steal { worker: u32 },
    Step { worker: u32, count: u32 },
    Who { worker: u32 },
    End,
}

/// The command a line holds, its newline taken off; none if the line has not
/// exactly one of the given forms.
pub fn parse(line: &[u8]) -> Option<Command> {
    if let Some(rest) = line.strip_prefix(b"step ") {
        let (worker, rest) = value(rest)?;
        let (count, rest) = value(rest.strip_prefix(b" ")?)?;
        return (rest.is_empty() && count <= MOST_STEPS).then_some(Command::Step { worker, count });
    }
    if let Some(rest) = line.strip_prefix(b"put ") {
        let (words, payload) = payload(rest)?;
        return Some(Command::Put { words, payload });
    }
    if let Some(rest) = line.strip_prefix(b"steal ") {
        let (worker, rest) = value(rest)?;
        return rest.is_empty().then_some(Command::Steal { worker });
    }
    if let Some(rest) = line.strip_prefix(b"who ") {
        let (worker, rest) = value(rest)?;
        return rest.is_empty().then_some(Command::Who { worker });
    }
    if let Some(rest) = line.strip_prefix(b"queue ") {
        let (kind, rest) = value(rest)?;
        let (width, rest) = value(rest.strip_prefix(b" ")?)?;
        let (size, rest) = value(rest.strip_prefix(b" ")?)?;
        let (crew, rest) = value(rest.strip_prefix(b" ")?)?;
        let (words, rest) = value(rest.strip_prefix(b" ")?)?;
        // The sixth number may be left out.
        let (payload_words, rest) = match rest.strip_prefix(b" ") {
            Some(rest) => value(rest)?,
            None => (1, rest),
        };
        return (rest.is_empty() && words <= MOST_WORDS).then_some(Command::Queue {
            shape: Shape { kind, width, size, crew, payload_words, delayed: false, quota: None },
            words,
        });
    }
    match line {
        b"take" => Some(Command::Take),
        b"end" => Some(Command::End),
        _ => None,
    }
}

/// One to four values and nothing else, and how many they are.
fn payload(text: &[u8]) -> Option<(usize, Payload)> {
    let mut payload = Payload::default();
    let (first, mut rest) = value(text)?;
    payload[0] = first;
    let mut words = 1;
    while !rest.is_empty() {
        if words == MOST_PAYLOAD {
            return None;
        }
        (payload[words], rest) = value(rest.strip_prefix(b" ")?)?;
        words += 1;
    }
    Some((words, payload))
}

/// A value at the front of `text`, and what follows it: base ten, no sign, no
/// leading zero, at most 4,294,967,295.
pub fn value(text: &[u8]) -> Option<(u32, &[u8])> {
    let mut digits = 0;
    let mut sum: u64 = 0;
    // An eleventh digit is above the range, whatever it is.
    while digits < 11 && digits < text.len() && text[digits].is_ascii_digit() {
        sum = 10 * sum + u64::from(text[digits] - b'0');
        digits += 1;
    }
    if digits == 0 || (text[0] == b'0' && digits > 1) {
        return None;
    }
    let value = u32::try_from(sum).ok()?;
    Some((value, &text[digits..]))
}

#[cfg(test)]
mod tests {
    use super::*;

    #[test]
    fn each_form() {
        let shape = Shape { kind: 1, width: 16, size: 1024, crew: 8, payload_words: 1, delayed: false, quota: None };
        assert_eq!(parse(b"queue 1 16 1024 8 10235"), Some(Command::Queue { shape, words: 10_235 }));
        for payload_words in [0, 1, 2, 3, 4, 5, 10, u32::MAX] {
            assert_eq!(
                parse(format!("queue 1 16 1024 8 4094 {payload_words}").as_bytes()),
                Some(Command::Queue { shape: Shape { payload_words, ..shape }, words: 4094 })
            );
        }
        let put = |words, payload| Some(Command::Put { words, payload });
        assert_eq!(parse(b"put 4294967295"), put(1, [u32::MAX, 0, 0, 0]));
        assert_eq!(parse(b"put 0"), put(1, [0; 4]));
        assert_eq!(parse(b"put 1 0"), put(2, [1, 0, 0, 0]));
        assert_eq!(parse(b"put 1 2 3"), put(3, [1, 2, 3, 0]));
        assert_eq!(parse(b"put 1 2 3 4294967295"), put(4, [1, 2, 3, u32::MAX]));
        assert_eq!(parse(b"take"), Some(Command::Take));
        assert_eq!(parse(b"steal 7"), Some(Command::Steal { worker: 7 }));
        assert_eq!(parse(b"step 0 65535"), Some(Command::Step { worker: 0, count: 65_535 }));
        assert_eq!(parse(b"who 0"), Some(Command::Who { worker: 0 }));
        assert_eq!(parse(b"who 7"), Some(Command::Who { worker: 7 }));
        assert_eq!(parse(b"end"), Some(Command::End));
    }

    #[test]
    fn values_without_a_range_of_their_own_run_to_the_largest_word() {
        assert_eq!(
            parse(b"queue 4294967295 4294967295 4294967295 4294967295 0"),
            Some(Command::Queue {
                shape: Shape {
                    kind: u32::MAX,
                    width: u32::MAX,
                    size: u32::MAX,
                    crew: u32::MAX,
                    payload_words: 1,
                    delayed: false,
                    quota: None,
                },
                words: 0
            })
        );
        assert_eq!(parse(b"steal 4294967295"), Some(Command::Steal { worker: u32::MAX }));
        assert!(parse(b"step 4294967295 0").is_some());
        assert_eq!(parse(b"who 4294967295"), Some(Command::Who { worker: u32::MAX }));
    }

    #[test]
    fn above_a_range() {
        for line in [
            "queue 1 1 1 1 10236",
            "queue 1 1 1 1 10236 1",
            "queue 1 1 1 1 10236 0",
            "queue 1 1 1 1 2 4294967296",
            "queue 1 1 1 1 2 10000000000",
            "queue 4294967296 1 1 1 2",
            "queue 1 4294967296 1 1 2",
            "queue 1 1 4294967296 1 2",
            "queue 1 1 1 4294967296 2",
            "put 4294967296",
            "put 1 4294967296",
            "put 1 2 4294967296",
            "put 1 2 3 4294967296",
            "put 10000000000",
            "put 99999999999999999999999999",
            "steal 4294967296",
            "step 4294967296 0",
            "step 0 65536",
            "step 0 4294967296",
            "who 4294967296",
            "who 10000000000",
            "who 18446744073709551617",
        ] {
            assert_eq!(parse(line.as_bytes()), None, "{line}");
        }
    }

    #[test]
    fn no_given_form() {
        for line in [
            "", " ", "put", "put ", "put  1", " put 1", "put 1 ", "put 01", "put 00", "put +1",
            "put -1", "put -0", "put 1 2 3 4 5", "put 1 2 3 4 ", "put 1  2", "put 1 02", "put 1 x",
            "put 1 2 3 4x", "put 1,2", "put 1\t2", "put\t1", "put 1\r", "put 1\0", "\0put 1", "put x",
            "put 1x", "put 0x1", "put 1.0", "put 1_0", "Put 1", "PUT 1", "pu 1", "putt 1",
            "take 0", "take ", " take", "tak", "takes", "take\r", "steal", "steal ", "steal 1 1",
            "steal 01", "step", "step 0", "step 0 ", "step  0 1", "step 0  1", "step 0 1 ",
            "step 0 1 1", "step 0 01", "step 00 1", "step 0\t1", "end ", " end", "ends", "en",
            "END", "end 0", "queue", "queue 1 1 1 1", "queue 1 1 1 1 ", "queue 1 1 1 1 2 ",
            "queue 1 1 1 1 2 1 ", "queue 1 1 1 1 2 1 1", "queue 1 1 1 1 2  1", "queue 1 1 1 1 2 01",
            "queue 1 1 1 1 2 00", "queue 1 1 1 1 2 +1", "queue 1 1 1 1 2 -1", "queue 1 1 1 1 2 x",
            "queue 1 1 1 1 2 1x", "queue 1 1 1 1 2\t1", "queue 1 1 1 01 2", "queue 1  1 1 1 2", "queue,1,1,1,1,2",
            "who", "who ", "who  1", " who 1", "who 1 ", "who 1 1", "who 1 2 3", "who 01", "who 00", "who +1",
            "who -1", "who -0", "who x", "who 1x", "who\t1", "who 1\r", "who 1\0", "Who 1", "WHO 1", "wh 1",
            "whom 1", "who1", "who,1", "W 1 0",
            "# put 1",
        ] {
            assert_eq!(parse(line.as_bytes()), None, "{line:?}");
        }
        assert_eq!(parse(b"put 1\xff"), None);
        assert_eq!(parse(b"\xef\xbb\xbfend"), None);
        // Arabic-Indic digits are not base ten digits of the input.
        assert_eq!(parse("put \u{0661}".as_bytes()), None);
    }
}

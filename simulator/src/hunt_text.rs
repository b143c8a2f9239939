//! The text of a hunt: its lines in, and the order found, as a run of the bench
//! program, with the report out.

use std::io::{self, Write};

use crate::bench::Operation;
use crate::hunt::{Hunt, Own, Report, MOST_OPERATIONS};
use crate::outcome::refusal;
use crate::text::{parse, value, Command};

/// A hunt as far as it was read.
#[derive(Default)]
pub struct HuntText {
    /// The `queue` line, and the hunt that it begins.
    read: Option<(Vec<u8>, Hunt)>,
}

/// A line but `queue`.
enum Line {
    Own(Own),
    Steals { thief: usize, count: u32 },
    Hunt { budget: u32 },
}

impl HuntText {
    /// Reads a line, its newline taken off; answers whether reading goes on. If it
    /// does not, what the program prints was written.
    pub fn line(&mut self, line: &[u8], out: &mut impl Write) -> io::Result<bool> {
        let Some((queue, hunt)) = &mut self.read else {
            let Some(Command::Queue { shape, words }) = parse(line) else {
                return bad_line(out).map(|()| false);
            };
            let hunt = Hunt { shape, words, own: Vec::new(), steals: [0; 8], budget: 0 };
            self.read = Some((line.to_vec(), hunt));
            return Ok(true);
        };
        match later_line(line) {
            None => return bad_line(out).map(|()| false),
            // One above the most is as refused as any number of them.
            Some(Line::Own(_)) if hunt.own.len() > MOST_OPERATIONS as usize => {}
            Some(Line::Own(own)) => hunt.own.push(own),
            Some(Line::Steals { thief, count }) => hunt.steals[thief] = count,
            Some(Line::Hunt { budget }) => {
                hunt.budget = budget;
                match hunt.run(|_| {}) {
                    Err(number) => writeln!(out, "R {number}")?,
                    Ok(report) => show(queue, hunt, &report, out)?,
                }
                return Ok(false);
            }
        }
        Ok(true)
    }
}

/// What a line that can't be read is answered, and input without a `hunt`.
pub fn bad_line(out: &mut impl Write) -> io::Result<()> {
    writeln!(out, "R {}", refusal::BAD_LINE)
}

fn later_line(line: &[u8]) -> Option<Line> {
    if let Some(rest) = line.strip_prefix(b"steals ") {
        let (thief, rest) = value(rest)?;
        let (count, rest) = value(rest.strip_prefix(b" ")?)?;
        let given = rest.is_empty() && (1..=7).contains(&thief);
        return given.then_some(Line::Steals { thief: thief as usize, count });
    }
    if let Some(rest) = line.strip_prefix(b"hunt ") {
        let (budget, rest) = value(rest)?;
        return rest.is_empty().then_some(Line::Hunt { budget });
    }
    match line {
        b"put" => Some(Line::Own(Own::Put)),
        b"take" => Some(Line::Own(Own::Take)),
        _ => None,
    }
}

fn show(queue: &[u8], hunt: &Hunt, report: &Report, out: &mut impl Write) -> io::Result<()> {
    out.write_all(queue)?;
    writeln!(out)?;
    let begins = hunt.begins(&report.order);
    let mut at = 0;
    while at < report.order.len() {
        let worker = report.order[at];
        match begins[at] {
            Some(Operation::Put { payload }) => {
                write!(out, "put")?;
                for word in &payload[..hunt.shape.payload_words as usize] {
                    write!(out, " {word}")?;
                }
                writeln!(out)?;
            }
            Some(Operation::Steal) => writeln!(out, "steal {worker}")?,
            Some(_) => writeln!(out, "take")?,
            None => {}
        }
        // Up to the worker's next begin, or another worker's step.
        let from = at;
        at += 1;
        while at < report.order.len() && report.order[at] == worker && begins[at].is_none() {
            at += 1;
        }
        writeln!(out, "step {worker} {}", at - from)?;
    }
    writeln!(out, "end")?;
    writeln!(out, "M {} {} {}", report.repeats, report.steps, report.distance)
}

#[cfg(test)]
mod tests {
    use super::*;

    /// Lines parted by commas, in and out.
    fn hunted(lines: &str) -> String {
        let mut text = HuntText::default();
        let mut out = Vec::new();
        let stopped = lines.split(", ").any(|line| !text.line(line.as_bytes(), &mut out).unwrap());
        if !stopped {
            bad_line(&mut out).unwrap();
        }
        String::from_utf8(out).unwrap().trim_end().replace('\n', ", ")
    }

    #[test]
    fn the_order_is_a_run() {
        assert_eq!(
            hunted("queue 2 1 2 2 4, put, take, steals 1 1, hunt 166"),
            "queue 2 1 2 2 4, put 1, step 0 6, take, step 0 5, steal 1, step 1 7, step 0 1, end, M 1 166 0"
        );
        assert_eq!(hunted("queue 1 16 1 8 2 1, hunt 0, put, x"), "queue 1 16 1 8 2 1, end, M 0 0 0");
        assert_eq!(
            hunted("queue 3 1 2 1 10 4, put, put, hunt 1000000"),
            "queue 3 1 2 1 10 4, put 1 1 1 1, step 0 8, put 2 2 2 2, step 0 8, end, M 0 16 0"
        );
        assert_eq!(
            hunted("queue 1 1 1 3 2, steals 2 1, steals 1 5, steals 1 0, take, hunt 4"),
            "queue 1 1 1 3 2, take, step 0 2, steal 2, step 2 2, end, M 0 4 1"
        );
    }

    #[test]
    fn refusals_are_told_at_the_hunt_and_bad_lines_before() {
        assert_eq!(hunted("queue 0 1 1 1 2, hunt 0"), "R 1");
        assert_eq!(hunted("queue 0 1 1 1 2, put 1, hunt 0"), "R 13");
        assert_eq!(hunted("queue 0 1 1 1 2"), "R 13");
        assert_eq!(hunted("queue 1 1 1 1 2, steals 7 1, hunt 0"), "R 6");
        assert_eq!(hunted("queue 1 1 1 1 2, steals 7 0, hunt 1000001"), "R 26");
        assert_eq!(hunted(&format!("queue 1 1 1 1 2{}, hunt 0", ", take".repeat(65))), "R 25");
        assert_eq!(hunted(&format!("queue 1 1 1 1 2{}, hunt 0", ", put".repeat(1000))), "R 25");
    }

    #[test]
    fn no_given_form() {
        for line in [
            "", " ", "put ", "put 1", " put", "Put", "puts", "take 1", "take ", "steal 1", "steals", "steals ",
            "steals 1", "steals 1 ", "steals 1 1 ", "steals 1 1 1", "steals 0 1", "steals 8 1", "steals 01 1",
            "steals 1 01", "steals 1 -1", "steals  1 1", "steals 1  1", "steals 1 4294967296", "steals 4294967297 1",
            "hunt", "hunt ", "hunt 01", "hunt +1", "hunt 1 ", "hunt 1 1", "hunt 4294967296", "hunt x", "hunts 1", "end",
            "step 0 1", "who 0", "queue 1 1 1 2 2", "put\r", "take\0",
        ] {
            assert_eq!(hunted(&format!("queue 1 1 1 2 2, {line}, hunt 0")), "R 13", "{line:?}");
        }
        let short = "queue 1 1 1 2";
        let long = "queue 1 1 1 2 2 1 1";
        for first in ["", "put", "take", "steals 1 1", "hunt 0", short, long, "queue 1 1 1 2 10236"] {
            assert_eq!(hunted(&format!("{first}, queue 1 1 1 2 2, hunt 0")), "R 13", "{first:?}");
        }
    }
}

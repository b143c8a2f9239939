//! Plays a list of library calls and prints their answers.
//!
//!     calls [--check] < list > answers
//!
//! A line that is not of the form is named on standard error and ends it; the
//! answers to what was played before stay printed. With `--check` what was played
//! is also checked by demand 3, the restarts of each worker are counted from its
//! history, and so on, in a yard of each queue and of all in company; what was found
//! is said on standard error.
//!
//! Exit status: 0; 1 if the list can't be read or the answers can't be written;
//! 2 if a check failed, demand 3 while its premise held; 64 for a flag it does not
//! know; 65 if a line is not of the form.

use std::io::{self, BufWriter};
use std::process::ExitCode;

use simulator::calls::Calls;
use simulator::checks::Checks;
use simulator::input::{for_each_line, Trouble};
use simulator::verdict::Verdict;
use simulator::witness::{Blind, Witness};

fn main() -> ExitCode {
    let mut check = false;
    for flag in std::env::args().skip(1) {
        if flag != "--check" {
            eprintln!("usage: calls [--check] < list > answers");
            return ExitCode::from(64);
        }
        check = true;
    }
    if !check {
        return play(&mut Calls::new(Blind));
    }
    let mut calls = Calls::new(Checks::new());
    let status = play(&mut calls);
    let verdict = Verdict(&calls);
    eprintln!("{verdict}");
    if verdict.failed() {
        ExitCode::from(2)
    } else {
        status
    }
}

fn play<W: Witness + Default>(calls: &mut Calls<W>) -> ExitCode {
    let mut lines = 0u64;
    let mut output = BufWriter::new(io::stdout().lock());
    let played = for_each_line(&mut io::stdin().lock(), &mut output, |line, output| {
        lines += 1;
        calls.line(line, output)
    });
    match played {
        Ok(true) => ExitCode::SUCCESS,
        Ok(false) => {
            eprintln!("calls: line {lines} is not of the form");
            ExitCode::from(65)
        }
        Err(Trouble::Reading(error)) => {
            eprintln!("calls: the list can't be read: {error}");
            ExitCode::FAILURE
        }
        Err(Trouble::Writing(error)) => {
            eprintln!("calls: the answers can't be written: {error}");
            ExitCode::FAILURE
        }
    }
}

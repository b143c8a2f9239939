//! Reads a hunt and prints the order found, as a run of the bench program, and its
//! report.
//!
//!     hunt < hunt > run
//!
//! Exit status: 0, for a refused hunt and a bad line too; 1 if the hunt can't be read
//! or the run can't be written; 64 for any flag.

use std::io::{self, BufWriter, Write};
use std::process::ExitCode;

use simulator::hunt_text::{bad_line, HuntText};
use simulator::input::{for_each_line, Trouble};

fn main() -> ExitCode {
    if std::env::args_os().len() > 1 {
        eprintln!("usage: hunt < hunt > run");
        return ExitCode::from(64);
    }
    let mut text = HuntText::default();
    let mut output = BufWriter::new(io::stdout().lock());
    let read = for_each_line(&mut io::stdin().lock(), &mut output, |line, output| text.line(line, output));
    let written = match read {
        Ok(false) => Ok(()),
        // There was no `hunt`.
        Ok(true) => bad_line(&mut output).and_then(|()| output.flush()),
        Err(Trouble::Reading(error)) => {
            eprintln!("hunt: the hunt can't be read: {error}");
            return ExitCode::FAILURE;
        }
        Err(Trouble::Writing(error)) => Err(error),
    };
    if let Err(error) = written {
        eprintln!("hunt: the run can't be written: {error}");
        return ExitCode::FAILURE;
    }
    ExitCode::SUCCESS
}

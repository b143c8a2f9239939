//! Plays the bench's input and prints its listing.
//!
//!     simulator [--check] < input > listing
//!
//! With `--check` the run is also checked by demand 3, the restarts of each worker
//! are counted from its history, and so on; what was found is said on standard
//! error.
//!
//! Exit status: 0; 1 if the input can't be read or the listing can't be
//! written; 2 if a check failed, demand 3 while its premise held; 64 for a flag it
//! does not know.

// The usual start would quietly put the null device in the place of a closed
// standard stream, and a listing written there would be lost without a word.
#![no_main]

use std::fs::File;
use std::io::{self, Write};
use std::mem::ManuallyDrop;
use std::os::fd::FromRawFd;

use simulator::checks::Checks;
use simulator::input::{for_each_line, Trouble};
use simulator::play::Player;
use simulator::witness::{Blind, Witness};

/// How much of the listing is gathered at most before it is written.
const CHUNK: usize = 1 << 16;

extern "C" {
    fn signal(number: i32, action: usize) -> usize;
}

#[no_mangle]
pub extern "C" fn main(_count: i32, _values: *const *const u8) -> i32 {
    // A reader that went away is a failed write to be told of, not a signal to
    // die by: 13 is SIGPIPE, 1 is "ignore".
    // SAFETY: no handler is installed.
    unsafe { signal(13, 1) };
    let mut flags = std::env::args_os().skip(1);
    match (flags.next(), flags.next()) {
        (None, _) => plain(),
        (Some(flag), None) if flag == "--check" => checked(),
        _ => {
            say("usage: simulator [--check] < input > listing");
            64
        }
    }
}

fn plain() -> i32 {
    match play(&mut Player::new(Blind)) {
        Ok(()) => 0,
        Err(trouble) => told(trouble),
    }
}

fn checked() -> i32 {
    let mut player = Player::new(Checks::new());
    if let Err(trouble) = play(&mut player) {
        return told(trouble);
    }
    let checks = player.witness();
    say(&checks.to_string());
    if checks.failed() {
        2
    } else {
        0
    }
}

fn play<W: Witness>(player: &mut Player<W>) -> Result<(), Trouble> {
    // SAFETY: the two numbers are the standard streams, which nothing else here
    // uses; they are left open for the system to close.
    let input = ManuallyDrop::new(unsafe { File::from_raw_fd(0) });
    let file = ManuallyDrop::new(unsafe { File::from_raw_fd(1) });
    let mut output = Output { file: &file, listing: Vec::with_capacity(CHUNK) };
    for_each_line(&mut &*input, &mut output, |line, output| {
        let go_on = player.line(line, &mut output.listing);
        // A line prints a few dozen bytes, so the listing never has to grow.
        if output.listing.len() > CHUNK - 256 {
            output.flush()?;
        }
        Ok(go_on)
    })?;
    Ok(())
}

struct Output<'a> {
    file: &'a File,
    listing: Vec<u8>,
}

impl Write for Output<'_> {
    fn write(&mut self, bytes: &[u8]) -> io::Result<usize> {
        self.listing.write(bytes)
    }

    fn flush(&mut self) -> io::Result<()> {
        self.file.write_all(&self.listing)?;
        self.listing.clear();
        Ok(())
    }
}

fn told(trouble: Trouble) -> i32 {
    match trouble {
        Trouble::Reading(error) => say(&format!("simulator: the input can't be read: {error}")),
        Trouble::Writing(error) => say(&format!("simulator: the listing can't be written: {error}")),
    }
    1
}

fn say(words: &str) {
    // If standard error is gone too there is nobody left to tell.
    let _ = writeln!(io::stderr(), "{words}");
}

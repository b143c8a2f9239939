//! The input, line by line.
//!
//! The input comes in chunks of whatever length a read gives. A line that lies
//! whole in a chunk is looked at there; one that does not is gathered. No line
//! of a given form is longer than `KEPT` bytes, so of a longer one only that
//! many are kept: enough to see that it has no given form.

use std::io::{self, ErrorKind, Read, Write};

/// More than the longest line of a given form, a `queue` of 66 bytes.
const KEPT: usize = 80;

/// How much is read at once.
const CHUNK: usize = 1 << 16;

pub enum Trouble {
    Reading(io::Error),
    Writing(io::Error),
}

/// Gives each line of the input, its newline taken off, to `each`, which writes
/// to the output. Answers true at the input's end, and false if `each` did: then
/// nothing more is read. What was written is shown before there is any waiting
/// for more.
pub fn for_each_line<W: Write>(
    input: &mut impl Read,
    output: &mut W,
    mut each: impl FnMut(&[u8], &mut W) -> io::Result<bool>,
) -> Result<bool, Trouble> {
    let mut buffer = vec![0; CHUNK];
    let mut lines = Lines::new();
    loop {
        output.flush().map_err(Trouble::Writing)?;
        let length = read_some(input, &mut buffer).map_err(Trouble::Reading)?;
        if length == 0 {
            break;
        }
        let mut failed = Ok(());
        let go_on = lines.feed(&buffer[..length], |line| {
            each(line, output).unwrap_or_else(|error| {
                failed = Err(Trouble::Writing(error));
                false
            })
        });
        failed?;
        if !go_on {
            output.flush().map_err(Trouble::Writing)?;
            return Ok(false);
        }
    }
    let go_on = match lines.last() {
        Some(line) => each(line, output).map_err(Trouble::Writing)?,
        None => true,
    };
    output.flush().map_err(Trouble::Writing)?;
    Ok(go_on)
}

struct Lines {
    gathered: Vec<u8>,
    /// The input so far stops within a line. A line can be empty, so the bytes
    /// gathered do not tell.
    open: bool,
}

impl Lines {
    fn new() -> Lines {
        Lines { gathered: Vec::with_capacity(KEPT), open: false }
    }

    /// Calls `each` with every line that ends in `chunk`, until it answers
    /// false. Answers false if it did.
    fn feed(&mut self, mut chunk: &[u8], mut each: impl FnMut(&[u8]) -> bool) -> bool {
        while let Some(end) = chunk.iter().position(|&byte| byte == b'\n') {
            let mut line = &chunk[..end];
            if self.open {
                self.gather(line);
                line = &self.gathered;
            }
            if !each(line) {
                return false;
            }
            self.gathered.clear();
            self.open = false;
            chunk = &chunk[end + 1..];
        }
        if !chunk.is_empty() {
            self.gather(chunk);
            self.open = true;
        }
        true
    }

    /// The line that the input's end ends, if there is one. After a last
    /// newline there is none.
    fn last(&mut self) -> Option<&[u8]> {
        if !self.open {
            return None;
        }
        self.open = false;
        Some(&self.gathered)
    }

    fn gather(&mut self, bytes: &[u8]) {
        let room = KEPT - self.gathered.len();
        self.gathered.extend_from_slice(&bytes[..bytes.len().min(room)]);
    }
}

/// Reads what there is, waiting if there is nothing yet; 0 at the input's end.
fn read_some(input: &mut impl Read, buffer: &mut [u8]) -> io::Result<usize> {
    loop {
        match input.read(buffer) {
            Err(error) if error.kind() == ErrorKind::Interrupted => continue,
            answer => return answer,
        }
    }
}

#[cfg(test)]
mod tests {
    use super::*;

    fn lines(text: &[u8], chunk: usize) -> Vec<Vec<u8>> {
        let mut found = Vec::new();
        let mut lines = Lines::new();
        for part in text.chunks(chunk) {
            assert!(lines.feed(part, |line| {
                found.push(line.to_vec());
                true
            }));
        }
        if let Some(line) = lines.last() {
            found.push(line.to_vec());
        }
        found
    }

    #[test]
    fn the_same_lines_however_the_input_is_cut() {
        let text = b"take\n\nput 1\n\0\xff\nend";
        let expected: [&[u8]; 5] = [b"take", b"", b"put 1", b"\0\xff", b"end"];
        for chunk in 1..=text.len() {
            assert_eq!(lines(text, chunk), expected, "chunks of {chunk}");
        }
    }

    #[test]
    fn newlines_at_the_end() {
        for chunk in 1..=3 {
            assert_eq!(lines(b"", chunk).len(), 0);
            assert_eq!(lines(b"\n", chunk), [b""]);
            assert_eq!(lines(b"a\n", chunk), [b"a"]);
            assert_eq!(lines(b"a\n\n", chunk), [&b"a"[..], b""]);
        }
    }

    #[test]
    fn a_long_line_stays_too_long_and_the_next_one_is_whole() {
        let mut text = b"put 1".to_vec();
        text.extend(std::iter::repeat_n(b' ', 1000));
        text.extend(b"\nend\n");
        for chunk in [1, 3, 64, 65, 1000] {
            let found = lines(&text, chunk);
            assert_eq!(found.len(), 2);
            assert!(found[0].len() >= KEPT);
            assert_eq!(found[1], b"end");
        }
    }

    #[test]
    fn every_line_writes_and_the_first_false_is_the_last() {
        for (stop, answer, written) in [("none", true, "a.b.c."), ("b", false, "a.b."), ("c", false, "a.b.c.")] {
            let mut output = Vec::new();
            let answered = for_each_line(&mut &b"a\nb\nc"[..], &mut output, |line, output| {
                output.write_all(line)?;
                output.write_all(b".")?;
                Ok(line != stop.as_bytes())
            });
            assert_eq!(answered.ok(), Some(answer));
            assert_eq!(output, written.as_bytes());
        }
    }

    #[test]
    fn it_stops_when_told() {
        let mut seen = 0;
        let mut lines = Lines::new();
        assert!(!lines.feed(b"a\nb\nc\n", |_| {
            seen += 1;
            seen < 2
        }));
        assert_eq!(seen, 2);
    }
}

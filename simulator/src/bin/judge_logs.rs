//! Logs to judge, and their judgement.
//!
//!     judge_logs make SEED COUNT > CASES    random cases
//!     judge_logs largest SEED WORDS > CASE  an accepted one, as long as it may be
//!     judge_logs run < RUN > CASE           the log of a run of the bench's input, or
//!                                           of the last bench of a list of calls
//!     judge_logs judge < CASES              an answer a line
//!     judge_logs bench TIMES < CASE         nanoseconds to judge the first case
//!
//! A case is an entry's payload words, the log's length and the list's, four
//! bytes each, lowest first, and then the bytes of both.

use std::hint::black_box;
use std::io::{self, Read, Write};
use std::process::ExitCode;
use std::time::Instant;

use simulator::log_cases::{self, Case};
use simulator::log_judge::judge_log;
use simulator::random::Random;

fn main() -> ExitCode {
    let arguments: Vec<String> = std::env::args().skip(1).collect();
    let words: Vec<&str> = arguments.iter().map(String::as_str).collect();
    let numbers: Vec<Option<u64>> = words.iter().skip(1).map(|text| text.parse().ok()).collect();
    let done = match (words.first().copied(), &numbers[..]) {
        (Some("make"), &[Some(seed), Some(count)]) => make(seed, count),
        (Some("largest"), &[Some(seed), Some(words @ 1..=4)]) => {
            write(&log_cases::largest(&mut Random::new(seed), words as u32))
        }
        (Some("run"), &[]) => input().and_then(|text| write(&log_cases::of_run(&text))),
        (Some("judge"), &[]) => judge(),
        (Some("bench"), &[Some(times)]) if times > 0 => bench(times),
        _ => {
            eprintln!("usage: judge_logs make SEED COUNT | largest SEED WORDS | run | judge | bench TIMES");
            return ExitCode::from(64);
        }
    };
    if let Err(error) = done {
        eprintln!("judge_logs: {error}");
        return ExitCode::FAILURE;
    }
    ExitCode::SUCCESS
}

fn make(seed: u64, count: u64) -> io::Result<()> {
    let mut random = Random::new(seed);
    let mut out = io::BufWriter::new(io::stdout().lock());
    let mut bytes = Vec::new();
    for _ in 0..count {
        bytes.clear();
        log_cases::random(&mut random).write(&mut bytes);
        out.write_all(&bytes)?;
    }
    out.flush()
}

fn write(case: &Case) -> io::Result<()> {
    let mut bytes = Vec::new();
    case.write(&mut bytes);
    io::stdout().write_all(&bytes)
}

fn judge() -> io::Result<()> {
    let cases = input()?;
    let mut from = &cases[..];
    let mut out = io::BufWriter::new(io::stdout().lock());
    while !from.is_empty() {
        let case = next(&mut from)?;
        writeln!(out, "{}", judge_log(case.words, &case.log, &case.list))?;
    }
    out.flush()
}

fn bench(times: u64) -> io::Result<()> {
    let bytes = input()?;
    let case = next(&mut &bytes[..])?;
    let start = Instant::now();
    for _ in 0..times {
        black_box(judge_log(case.words, black_box(&case.log), black_box(&case.list)));
    }
    println!("{}", start.elapsed().as_nanos() / u128::from(times));
    Ok(())
}

fn next(from: &mut &[u8]) -> io::Result<Case> {
    Case::read(from).ok_or_else(|| io::Error::new(io::ErrorKind::UnexpectedEof, "a case is cut short"))
}

fn input() -> io::Result<Vec<u8>> {
    let mut bytes = Vec::new();
    io::stdin().read_to_end(&mut bytes)?;
    Ok(bytes)
}

//! Logs to judge: valid histories by seed, the same with one thing wrong, and
//! the logs of runs that were played.

use std::collections::HashSet;

use crate::bench::Shape;
use crate::calls::Calls;
use crate::log_judge::{entry_bytes, COMMITTED, EMPTY, FINISHED, FULL, HANDED_OUT, LONGEST, NUMBER};
use crate::play::Player;
use crate::random::Random;
use crate::task::Task;
use crate::witness::Witness;

/// An entry's words.
type Entry = Vec<u32>;

fn entry(kind: u32, worker: u32, number: u32, payload: &[u32]) -> Entry {
    [&[kind, worker, number], payload].concat()
}

/// A log with so many payload words in an entry, and the list that comes with it.
#[derive(Clone, Default)]
pub struct Case {
    pub words: u32,
    pub log: Vec<u8>,
    pub list: Vec<u8>,
}

impl Case {
    fn of(words: u32, entries: &[Entry], list: &[u32]) -> Case {
        Case { words, log: bytes(&entries.concat()), list: bytes(list) }
    }

    /// The payload words and both lengths, four bytes each, lowest first, and
    /// the bytes of both.
    pub fn write(&self, out: &mut Vec<u8>) {
        out.extend_from_slice(&self.words.to_le_bytes());
        out.extend_from_slice(&(self.log.len() as u32).to_le_bytes());
        out.extend_from_slice(&(self.list.len() as u32).to_le_bytes());
        out.extend_from_slice(&self.log);
        out.extend_from_slice(&self.list);
    }

    /// Takes the case that `from` begins with; none if it is cut short.
    pub fn read(from: &mut &[u8]) -> Option<Case> {
        let words = length(from)? as u32;
        let log = length(from)?;
        let list = length(from)?;
        Some(Case { words, log: take(from, log)?.to_vec(), list: take(from, list)?.to_vec() })
    }
}

fn length(from: &mut &[u8]) -> Option<usize> {
    take(from, 4).map(|word| u32::from_le_bytes([word[0], word[1], word[2], word[3]]) as usize)
}

fn take<'a>(from: &mut &'a [u8], count: usize) -> Option<&'a [u8]> {
    if from.len() < count {
        return None;
    }
    let (front, rest) = from.split_at(count);
    *from = rest;
    Some(front)
}

fn bytes(words: &[u32]) -> Vec<u8> {
    words.iter().flat_map(|word| word.to_le_bytes()).collect()
}

/// A case of any sort.
pub fn random(random: &mut Random) -> Case {
    let words = *random.pick(&[1, 1, 2, 3, 4]);
    match random.below(200) {
        0 => return largest(random, words),
        1 => {
            let whole = largest(random, words);
            return damaged(random, whole);
        }
        2 => {
            let whole = largest(random, words);
            return lengthened(random, whole);
        }
        3..=5 => return Case { words, ..Case::default() },
        6..=15 => return noise(random, words),
        _ => {}
    }
    let entries = match random.below(10) {
        0..=3 => random.between(0, 8),
        4..=8 => random.between(4, 80),
        _ => random.between(80, 600),
    };
    let whole = valid(random, words, entries as usize, None);
    if random.chance(40) {
        whole
    } else {
        damaged(random, whole)
    }
}

/// An accepted case with a log and a list as long as they may be.
pub fn largest(random: &mut Random, words: u32) -> Case {
    valid(random, words, LONGEST / entry_bytes(words), Some(LONGEST / NUMBER))
}

/// A history that has to be accepted. With a count, the list is that long.
fn valid(random: &mut Random, words: u32, count: usize, listed: Option<usize>) -> Case {
    let mut entries = Vec::new();
    let mut puts: Vec<(u32, Vec<u32>)> = Vec::new();
    let mut handed_out = HashSet::new();
    // Small steps mostly; a large one uses up the numbers sooner than the log.
    let widest = *random.pick(&[1, 1, 3, 300, 900_000]);
    let mut next = if random.chance(30) { 0 } else { random.between(1, widest) };
    if random.chance(5) {
        next = u32::MAX - 20;
    }
    let mut spent = false;
    let putting = random.between(20, 60);
    while entries.len() < count {
        let worker = if random.chance(2) { random.word() } else { random.below(8) };
        let draw = random.below(100);
        if draw < putting && !spent {
            let payload: Vec<u32> =
                (0..words).map(|_| if random.chance(50) { random.below(3) } else { random.word() }).collect();
            if random.chance(12) {
                entries.push(entry(FULL, worker, next, &payload));
            } else {
                entries.push(entry(FINISHED, worker, next, &payload));
                puts.push((next, payload));
            }
            match next.checked_add(random.between(1, widest)) {
                Some(number) => next = number,
                None => spent = true,
            }
        } else if draw < 92 && !puts.is_empty() {
            // Late ones mostly, so that some are never handed out.
            let back = if random.chance(70) { 4 } else { puts.len() as u32 };
            let place = puts.len() - 1 - random.below(back.min(puts.len() as u32)) as usize;
            let (number, payload) = &puts[place];
            entries.push(entry(HANDED_OUT, worker, *number, payload));
            handed_out.insert(*number);
        } else {
            // EMPTY or a commit: its number and payload are not judged.
            let kind = if random.chance(40) { COMMITTED } else { EMPTY };
            let odd = random.chance(20);
            let payload: Vec<u32> = (0..words).map(|_| if odd { random.word() } else { 0 }).collect();
            let number = if odd { *random.pick(&[next, next.wrapping_sub(1), u32::MAX]) } else { 0 };
            entries.push(entry(kind, worker, number, &payload));
        }
    }
    let mut list: Vec<u32> =
        puts.iter().map(|put| put.0).filter(|number| !handed_out.contains(number)).collect();
    let more = match listed {
        Some(length) => length - list.len(),
        None if random.chance(50) => 0,
        None => random.between(1, 12) as usize,
    };
    for _ in 0..more {
        let number = match random.below(3) {
            0 if !list.is_empty() => *random.pick(&list),
            1 if !puts.is_empty() => random.pick(&puts).0,
            _ => random.word(),
        };
        list.push(number);
    }
    shuffle(random, &mut list);
    Case::of(words, &entries, &list)
}

fn shuffle(random: &mut Random, list: &mut [u32]) {
    for last in (1..list.len()).rev() {
        let other = random.below(last as u32 + 1) as usize;
        list.swap(last, other);
    }
}

/// The case with one thing done to it. It may be accepted all the same.
fn damaged(random: &mut Random, mut case: Case) -> Case {
    let each = entry_bytes(case.words);
    let entries = case.log.len() / each;
    match random.below(13) {
        0 | 1 if entries > 0 => {
            // One word: near what it was, a small one, or any.
            let at = 4 * random.below((case.log.len() / 4) as u32) as usize;
            let word = &mut case.log[at..at + 4];
            let old = u32::from_le_bytes([word[0], word[1], word[2], word[3]]);
            let new = match random.below(4) {
                0 => old.wrapping_add(1),
                1 => old.wrapping_sub(1),
                2 => random.below(7),
                _ => random.word(),
            };
            word.copy_from_slice(&new.to_le_bytes());
        }
        2 if entries > 0 => {
            let at = random.below(case.log.len() as u32) as usize;
            case.log[at] ^= random.between(1, 255) as u8;
        }
        3 if !case.list.is_empty() => {
            let at = random.below(case.list.len() as u32) as usize;
            case.list[at] ^= random.between(1, 255) as u8;
        }
        4 => {
            let left = case.log.len().saturating_sub(random.between(1, 20) as usize);
            case.log.truncate(left);
        }
        5 => {
            let left = case.list.len().saturating_sub(random.between(1, 9) as usize);
            case.list.truncate(left);
        }
        6 if entries > 1 => {
            let one = random.below(entries as u32) as usize;
            let other = if random.chance(50) { (one + 1) % entries } else { random.below(entries as u32) as usize };
            for byte in 0..each {
                case.log.swap(each * one + byte, each * other + byte);
            }
        }
        7 if !case.list.is_empty() => {
            let at = NUMBER * random.below((case.list.len() / NUMBER) as u32) as usize;
            case.list.drain(at..at + NUMBER);
        }
        8 if entries > 0 => {
            let at = each * random.below(entries as u32) as usize;
            case.log.drain(at..at + each);
        }
        9 if entries > 0 => {
            // An entry again, somewhere later: a put's number no longer rises.
            let from = random.below(entries as u32) as usize;
            let to = each * random.between(from as u32 + 1, entries as u32) as usize;
            let entry = case.log[each * from..each * (from + 1)].to_vec();
            case.log.splice(to..to, entry);
        }
        10 if entries > 0 => {
            // Another kind: a put handed out becomes a FULL or a commit handed out,
            // a FULL a put that nobody listed, a put a hand-out before any put.
            let at = each * random.below(entries as u32) as usize;
            case.log[at] = random.between(0, 7) as u8;
        }
        11 => case.words = *random.pick(&[0, 1, 2, 3, 4, 5, 16, u32::MAX]),
        _ => case = lengthened(random, case),
    }
    case
}

/// Bytes put behind the log, the list or both.
fn lengthened(random: &mut Random, mut case: Case) -> Case {
    let both = random.chance(20);
    let first = random.chance(50);
    if both || first {
        let more = *random.pick(&[1, 4, 8, 15, 16, 17, 20, 24, 28]);
        case.log.extend((0..more).map(|_| random.word() as u8));
    }
    if both || !first {
        let more = *random.pick(&[1, 2, 3, 4, 5, 16]);
        case.list.extend((0..more).map(|_| random.word() as u8));
    }
    case
}

/// Random bytes, or entries of small random words.
fn noise(random: &mut Random, words: u32) -> Case {
    if random.chance(30) {
        let lengths = (random.below(200), random.below(60));
        let log = (0..lengths.0).map(|_| random.word() as u8).collect();
        return Case { words, log, list: (0..lengths.1).map(|_| random.word() as u8).collect() };
    }
    let entries: Vec<Entry> = (0..random.between(1, 4))
        .map(|_| {
            let kind = if random.chance(3) { 6 } else { random.between(1, 5) };
            let front = [kind, random.below(8), random.below(4)];
            let payload: Vec<u32> = (0..words).map(|_| random.below(2)).collect();
            [&front[..], &payload].concat()
        })
        .collect();
    let list: Vec<u32> = (0..random.below(4)).map(|_| random.below(4)).collect();
    Case::of(words, &entries, &list)
}

/// Writes down the log of a run, and the put numbers that its window shows.
#[derive(Default)]
struct Scribe {
    payload_words: u32,
    /// What was put; numbers are given from 1 on, in turn.
    tasks: Vec<Task>,
    entries: Vec<Entry>,
    standing: Vec<u32>,
    window_moved: bool,
}

impl Scribe {
    fn enter(&mut self, kind: u32, worker: usize, task: Task) {
        self.window_moved = true;
        let task = task.words(self.payload_words);
        self.entries.push(entry(kind, worker as u32, task[0], &task[1..]));
    }

    fn put(&self, number: u32) -> Task {
        self.tasks[number as usize - 1]
    }
}

impl Witness for Scribe {
    fn fresh(&mut self, shape: Shape) {
        *self = Scribe { payload_words: shape.payload_words, ..Scribe::default() };
    }
    fn put_begun(&mut self, task: Task) {
        self.tasks.push(task);
    }
    fn finished(&mut self, number: u32) {
        self.enter(FINISHED, 0, self.put(number));
    }
    fn handed_out(&mut self, worker: usize, task: Task) {
        self.enter(HANDED_OUT, worker, task);
    }
    fn empty(&mut self, worker: usize) {
        self.enter(EMPTY, worker, Task::default());
    }
    fn full(&mut self, number: u32) {
        self.enter(FULL, 0, self.put(number));
    }
    fn committed(&mut self) {
        self.enter(COMMITTED, 0, Task::default());
    }
    fn wants_window(&self) -> bool {
        self.window_moved
    }
    fn window(&mut self, tasks: &mut dyn Iterator<Item = Task>) {
        self.window_moved = false;
        self.standing = tasks.map(|task| task.number()).collect();
    }
}

/// The log of a run, given as the bench's input, and the put numbers that its
/// window shows at the end; or the same of the last bench of a list of calls.
pub fn of_run(text: &[u8]) -> Case {
    let lines = text.split(|&byte| byte == b'\n');
    let mut listing = Vec::new();
    let scribe = if text.starts_with(b"memory ") {
        let mut calls = Calls::new(Scribe::default());
        for line in lines {
            listing.clear();
            if !calls.line(line, &mut listing).expect("memory takes all") {
                break;
            }
        }
        calls.into_witness()
    } else {
        let mut player = Player::new(Scribe::default());
        for line in lines {
            listing.clear();
            if !player.line(line, &mut listing) {
                break;
            }
        }
        player.into_witness()
    };
    // A run without a queue has an empty log of any width.
    Case::of(scribe.payload_words.max(1), &scribe.entries, &scribe.standing)
}

#[cfg(test)]
mod tests {
    use super::*;
    use crate::log_judge::{judge_log, ACCEPTED};

    #[test]
    fn valid_histories_are_accepted() {
        for seed in 0..300 {
            let mut random = Random::new(seed);
            let count = random.below(100) as usize;
            let words = 1 + seed as u32 % 4;
            let case = valid(&mut random, words, count, None);
            assert_eq!(case.log.len(), entry_bytes(words) * count);
            assert!(judge_log(case.words, &case.log, &case.list) >= ACCEPTED, "seed {seed}");
        }
    }

    #[test]
    fn the_largest_are_accepted_and_as_long_as_they_may_be() {
        for seed in 0..5 {
            let words = 1 + seed as u32 % 4;
            let case = largest(&mut Random::new(seed), words);
            assert!(case.log.len() <= LONGEST && case.log.len() + entry_bytes(words) > LONGEST);
            assert_eq!(case.list.len(), LONGEST);
            assert!(judge_log(case.words, &case.log, &case.list) >= ACCEPTED, "seed {seed}");
        }
    }

    #[test]
    fn a_case_is_read_as_it_was_written() {
        let case = Case { words: 3, log: vec![1, 2, 3], list: vec![4] };
        let mut out = Vec::new();
        case.write(&mut out);
        Case::default().write(&mut out);
        let mut from = &out[..];
        let back = Case::read(&mut from).unwrap();
        assert_eq!((back.words, back.log, back.list), (case.words, case.log, case.list));
        assert!(Case::read(&mut from).unwrap().log.is_empty());
        assert!(Case::read(&mut from).is_none());
        assert!(Case::read(&mut &out[..10]).is_none());
    }

    #[test]
    fn the_log_of_a_run() {
        // The owner's take and a thief's steal of the same task: one repeat.
        let run = b"queue 2 1 2 2 4\nput 5\nstep 0 6\ntake\nstep 0 3\nsteal 1\nstep 1 7\nstep 0 3\nput 6\nstep 0 6\nend\n";
        let case = of_run(run);
        let entries = [[1, 0, 1, 5], [2, 1, 1, 5], [2, 0, 1, 5], [1, 0, 2, 6]];
        assert_eq!(case.log, bytes(&entries.concat()));
        assert_eq!(case.list, bytes(&[2]));
        assert_eq!(judge_log(case.words, &case.log, &case.list), ACCEPTED + 2 * 65_536 + 1);
        // A tag of one bit comes round, and put 3 is lost.
        let run = b"queue 1 1 2 2 12\nput 65\nstep 0 5\nsteal 1\nstep 1 5\ntake\nstep 0 5\nput 66\nstep 0 5\ntake\nstep 0 5\nput 67\nstep 0 5\nstep 1 1\n";
        let case = of_run(run);
        assert_eq!(judge_log(case.words, &case.log, &case.list), 0);
    }

    #[test]
    fn the_log_of_a_list_of_calls() {
        for delayed in [0, 1] {
            let drains = "drain\n".repeat(8);
            let list = format!(
                "memory 9 60\nfresh 1 1 1 2 2\nbegin 0 put 1\nstep 0 6\nfresh 2 1 1 2 2 {delayed}\nbegin 0 put 5 6\nstep 0 7\n\
                 {drains}ask 0\nbegin 0 commit\nstep 0 4\n{drains}begin 1 steal\nstep 1 9\nbegin 0 put 7 8\nstep 0 7\nfresh 0 1 1 1 1\nend\n"
            );
            let case = of_run(list.as_bytes());
            let entries = [[1, 0, 1, 5, 6], [5, 0, 0, 0, 0], [2, 1, 1, 5, 6], [1, 0, 2, 7, 8]];
            assert_eq!((case.words, case.log), (2, bytes(&entries.concat())));
            assert_eq!(case.list, bytes(&[2]));
        }
    }

    #[test]
    fn commits_are_among_the_cases() {
        let mut random = Random::new(3);
        let mut kinds = [0; 8];
        for _ in 0..2000 {
            let case = super::random(&mut random);
            let each = if (1..=4).contains(&case.words) { entry_bytes(case.words) } else { 16 };
            for entry in case.log.chunks_exact(each) {
                if let Some(count) = kinds.get_mut(u32::from_le_bytes([entry[0], entry[1], entry[2], entry[3]]) as usize) {
                    *count += 1;
                }
            }
        }
        assert!(kinds[5] > 1000 && kinds[6] > 10 && kinds[7] > 5, "{kinds:?}");
    }

    #[test]
    fn the_log_of_a_wider_run() {
        let run = b"queue 1 1 1 2 4 3\nput 5 6 7\nstep 0 7\nput 8 9 10\nstep 0 3\nsteal 1\nstep 1 8\ntake\nstep 0 2\nend\n";
        let case = of_run(run);
        assert_eq!(case.words, 3);
        let entries = [[1, 0, 1, 5, 6, 7], [4, 0, 2, 8, 9, 10], [2, 1, 1, 5, 6, 7], [3, 0, 0, 0, 0, 0]];
        assert_eq!(case.log, bytes(&entries.concat()));
        assert!(case.list.is_empty());
        assert_eq!(judge_log(case.words, &case.log, &case.list), ACCEPTED + 65_536);
    }
}

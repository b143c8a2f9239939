//! A matcher's own log, judged from its bytes.
//!
//! The log is a row of entries: kind, worker, put number and 1 to 4 payload
//! words, as many as are said, each word four bytes, lowest first. Beside it
//! comes a list of the put numbers that the matcher says are still stored. The
//! log is accepted exactly when its kinds are 1 to 5, the numbers of kinds 1 and
//! 4 together strictly rise, each hand-out repeats the number and the whole
//! payload of a put finished earlier in the log, and each finished put is handed
//! out or listed. An entry of kind 5 is passed over, whatever its words are.

use std::collections::{HashMap, HashSet};

/// The log's length is no multiple of an entry's, or the list's of a number's.
pub const RAGGED: u64 = 14;
/// The log or the list is too long.
pub const TOO_LONG: u64 = 15;
/// The payload words of an entry are not 1 to 4.
pub const PAYLOAD_WORDS: u64 = 16;
/// The log is not accepted.
pub const NO: u64 = 0;
/// What an accepting answer is counted from.
pub const ACCEPTED: u64 = 1 << 32;

/// The longest log and the longest list, in bytes.
pub const LONGEST: usize = 65_536;
/// The bytes of a listed number.
pub const NUMBER: usize = 4;

/// The bytes of an entry with so many payload words.
pub const fn entry_bytes(words: u32) -> usize {
    4 * (3 + words as usize)
}

pub const FINISHED: u32 = 1;
pub const HANDED_OUT: u32 = 2;
pub const EMPTY: u32 = 3;
pub const FULL: u32 = 4;
pub const COMMITTED: u32 = 5;

/// The refusal, 0 for no, or 2^32 + 65,536 × hand-outs + repeats.
pub fn judge_log(payload_words: u32, log: &[u8], list: &[u8]) -> u64 {
    if !(1..=4).contains(&payload_words) {
        return PAYLOAD_WORDS;
    }
    if log.len() > LONGEST || list.len() > LONGEST {
        return TOO_LONG;
    }
    if log.len() % entry_bytes(payload_words) != 0 || list.len() % NUMBER != 0 {
        return RAGGED;
    }
    match judge_entries(3 + payload_words as usize, &words(log), &words(list)) {
        None => NO,
        Some((hand_outs, repeats)) => ACCEPTED + 65_536 * hand_outs + repeats,
    }
}

/// The hand-outs and the repeats of an accepted log; none if it is not.
fn judge_entries(entry_words: usize, log: &[u32], list: &[u32]) -> Option<(u64, u64)> {
    // None before the first entry that has to rise: 0 may be the first number.
    let mut last_number = None;
    let mut payloads = HashMap::new();
    let mut handed_out = HashSet::new();
    let mut hand_outs = 0;
    for entry in log.chunks_exact(entry_words) {
        let (kind, number, payload) = (entry[0], entry[2], &entry[3..]);
        match kind {
            FINISHED | FULL => {
                if last_number.is_some_and(|last| number <= last) {
                    return None;
                }
                last_number = Some(number);
                // A put answered FULL stored nothing that could be handed out.
                if kind == FINISHED {
                    payloads.insert(number, payload);
                }
            }
            HANDED_OUT => {
                if payloads.get(&number) != Some(&payload) {
                    return None;
                }
                handed_out.insert(number);
                hand_outs += 1;
            }
            EMPTY | COMMITTED => {}
            _ => return None,
        }
    }
    let listed: HashSet<u32> = list.iter().copied().collect();
    let kept = |number: &u32| handed_out.contains(number) || listed.contains(number);
    if !payloads.keys().all(kept) {
        return None;
    }
    Some((hand_outs, hand_outs - handed_out.len() as u64))
}

fn words(bytes: &[u8]) -> Vec<u32> {
    bytes.chunks_exact(4).map(|word| u32::from_le_bytes([word[0], word[1], word[2], word[3]])).collect()
}

#[cfg(test)]
mod tests {
    use super::*;

    fn bytes(words: &[u32]) -> Vec<u8> {
        words.iter().flat_map(|word| word.to_le_bytes()).collect()
    }

    fn judged(entries: &[[u32; 4]], list: &[u32]) -> u64 {
        judge_log(1, &bytes(&entries.concat()), &bytes(list))
    }

    fn accepted(hand_outs: u64, repeats: u64) -> u64 {
        4_294_967_296 + 65_536 * hand_outs + repeats
    }

    #[test]
    fn an_empty_log_is_accepted() {
        assert_eq!(judged(&[], &[]), 4_294_967_296);
        assert_eq!(judged(&[], &[7, 7, 0]), 4_294_967_296, "listed without a put");
    }

    #[test]
    fn a_put_is_listed_or_handed_out() {
        assert_eq!(judged(&[[1, 0, 1, 9]], &[]), 0);
        assert_eq!(judged(&[[1, 0, 1, 9]], &[2]), 0);
        assert_eq!(judged(&[[1, 0, 1, 9]], &[2, 1]), accepted(0, 0));
        assert_eq!(judged(&[[1, 0, 1, 9], [2, 3, 1, 9]], &[]), accepted(1, 0));
        assert_eq!(judged(&[[1, 0, 1, 9], [2, 3, 1, 9]], &[1]), accepted(1, 0), "both");
        assert_eq!(judged(&[[1, 0, 1, 9], [1, 0, 2, 9], [2, 3, 2, 9]], &[]), 0);
    }

    #[test]
    fn repeats_are_hand_outs_less_different_numbers() {
        let log = [[1, 0, 1, 9], [2, 1, 1, 9], [1, 0, 3, 9], [2, 0, 3, 9], [2, 2, 1, 9], [2, 0, 1, 9]];
        assert_eq!(judged(&log, &[]), accepted(4, 2));
    }

    #[test]
    fn a_hand_out_repeats_an_earlier_put() {
        assert_eq!(judged(&[[1, 0, 1, 9], [2, 1, 1, 8]], &[1]), 0, "the payload differs");
        assert_eq!(judged(&[[1, 0, 1, 9], [1, 0, 2, 8], [2, 1, 1, 8]], &[1, 2]), 0, "another's payload");
        assert_eq!(judged(&[[2, 1, 1, 9], [1, 0, 1, 9]], &[1]), 0, "before its put");
        assert_eq!(judged(&[[2, 1, 1, 9]], &[1]), 0, "without a put");
        assert_eq!(judged(&[[4, 0, 1, 9], [2, 1, 1, 9]], &[1]), 0, "answered FULL");
    }

    #[test]
    fn numbers_of_puts_and_fulls_rise_together() {
        assert_eq!(judged(&[[1, 0, 0, 9], [4, 0, 1, 9], [1, 0, 5, 9]], &[0, 5]), accepted(0, 0));
        assert_eq!(judged(&[[4, 0, 0, 0], [1, 0, u32::MAX, 0]], &[u32::MAX]), accepted(0, 0));
        for (first, second) in [(1, 1), (1, 4), (4, 1), (4, 4)] {
            assert_eq!(judged(&[[first, 0, 3, 9], [second, 0, 3, 9]], &[3]), 0, "equal");
            assert_eq!(judged(&[[first, 0, 3, 9], [second, 0, 2, 9]], &[2, 3]), 0, "falling");
            assert_eq!(judged(&[[first, 0, 0, 9], [second, 0, 0, 9]], &[0]), 0, "equal from 0");
        }
        // What stands between them has no part in it.
        let between = [[1, 0, 3, 9], [3, 0, 0, 0], [2, 0, 3, 9], [3, 0, 9, 0], [4, 0, 4, 0]];
        assert_eq!(judged(&between, &[]), accepted(1, 0));
    }

    #[test]
    fn other_kinds_and_words_that_are_not_judged() {
        for kind in [0, 6, 7, 257, 261, 65_537, 65_541, u32::MAX] {
            assert_eq!(judged(&[[kind, 0, 1, 9]], &[1]), 0);
            assert_eq!(judged(&[[kind, 0, 0, 0]], &[]), 0);
        }
        assert_eq!(judged(&[[3, 99, 7, 7], [3, 0, 7, 8], [1, u32::MAX, 1, 9]], &[1]), accepted(0, 0));
    }

    #[test]
    fn kind_5_is_passed_over_whole() {
        let commit = [5, 0, 0, 0];
        assert_eq!(judged(&[commit], &[]), accepted(0, 0));
        // Behind a put, whose number is above 0; with any worker, number and payload.
        for odd in [commit, [5, u32::MAX, 7, 9], [5, 3, 1, 9], [5, 0, u32::MAX, u32::MAX]] {
            assert_eq!(judged(&[[1, 0, 1, 9], odd, [1, 0, 2, 8], odd, [2, 1, 1, 9]], &[2]), accepted(1, 0));
            assert_eq!(judged(&[odd, [4, 0, 1, 9], odd, [1, 0, 2, 8], odd], &[2]), accepted(0, 0));
            // Its number is no put's and no hand-out's.
            assert_eq!(judged(&[odd, [2, 1, odd[2], odd[3]]], &[odd[2]]), 0);
            assert_eq!(judged(&[[1, 0, 1, 9], odd], &[]), 0);
        }
        // What rises goes past it.
        assert_eq!(judged(&[[1, 0, 3, 9], [5, 0, 9, 0], [1, 0, 3, 9]], &[3]), 0);
        for width in 1..=4 {
            let entries = [[1, 0, 1].to_vec(), vec![9; width], vec![5, 0, 0], vec![0; width], vec![2, 0, 1], vec![9; width]];
            assert_eq!(judge_log(width as u32, &bytes(&entries.concat()), &[]), accepted(1, 0));
        }
    }

    #[test]
    fn refusals_and_their_order() {
        for length in [1, 4, 15, 17] {
            assert_eq!(judge_log(1, &vec![3; length], &[]), 14);
        }
        for length in [1, 3, 5] {
            assert_eq!(judge_log(1, &[], &vec![0; length]), 14);
        }
        assert_eq!(judge_log(1, &[0; 16], &[0]), 14, "before no");
        assert_eq!(judge_log(1, &[0; 65_537], &[]), 15);
        assert_eq!(judge_log(1, &[], &[0; 65_537]), 15);
        assert_eq!(judge_log(1, &[0; 65_552], &[]), 15);
        assert_eq!(judge_log(1, &[], &[0; 65_540]), 15);
        assert_eq!(judge_log(1, &[0; 15], &[0; 65_540]), 15, "15 before 14");
        assert_eq!(judge_log(1, &[0; 65_552], &[0; 3]), 15, "15 before 14");
        assert_eq!(judge_log(1, &bytes(&[3; 1]).repeat(16_384), &[0; 65_536]), accepted(0, 0));
    }

    #[test]
    fn wider_payloads_are_compared_whole() {
        for width in 2..=4 {
            let whole: Vec<u32> = (0..width).map(|k| 10 + k).collect();
            let entry = |kind: u32, worker: u32, number: u32, payload: &[u32]| [&[kind, worker, number], payload].concat();
            let put = entry(1, 0, 1, &whole);
            assert_eq!(judge_log(width, &bytes(&[put.clone(), entry(2, 3, 1, &whole)].concat()), &[]), accepted(1, 0));
            for k in 0..width as usize {
                let mut torn = whole.clone();
                torn[k] += 1;
                assert_eq!(judge_log(width, &bytes(&[put.clone(), entry(2, 3, 1, &torn)].concat()), &bytes(&[1])), 0);
            }
            assert_eq!(judge_log(width, &bytes(&put)[4..], &[]), 14);
        }
    }

    #[test]
    fn payload_words_are_judged_first() {
        for width in [0, 5, 16, u32::MAX] {
            assert_eq!(judge_log(width, &[], &[]), 16);
            assert_eq!(judge_log(width, &[0; 65_537], &[0; 3]), 16, "16 before 15");
            assert_eq!(judge_log(width, &[0; 1], &[]), 16, "16 before 14");
        }
    }
}

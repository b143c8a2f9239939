//! What both sorts of lists draw: memory, benches, looks, calls out of place.

use simulator::bench::Shape;
use simulator::episodes as act;
use simulator::random::Random;
use simulator::script::{Drains, Looks, Script};

/// Of any length: the log counts words, and an entry has four to seven.
pub fn log_words(random: &mut Random) -> u32 {
    match random.below(20) {
        0 => random.below(8),
        1..=5 => random.between(8, 60),
        6..=11 => random.between(60, 400),
        12..=16 => random.between(400, 3000),
        17 | 18 => random.between(3000, 16_384),
        _ => *random.pick(&[16_383, 16_385, 19_998, 19_999, 20_000]),
    }
}

/// A look shows the whole store or the log so far, so there are many only where
/// those are short.
pub fn looks(random: &mut Random, store: u32, log: u32) -> Looks {
    let state = match store {
        0..=16 => *random.pick(&[0, 3, 30, 100]),
        17..=64 => *random.pick(&[0, 2, 10, 30]),
        65..=600 => *random.pick(&[0, 0, 1]),
        _ => 0,
    };
    let front = match log {
        0..=60 => *random.pick(&[0, 3, 30]),
        61..=400 => *random.pick(&[0, 1, 3]),
        _ => 0,
    };
    Looks { state, front, who: *random.pick(&[0, 0, 1, 5, 25]) }
}

/// A bench for this store, if one is accepted at all.
pub fn shape(random: &mut Random, store: u32) -> Shape {
    let width = match random.below(100) {
        0..=59 => random.between(1, 3),
        60..=64 => 16,
        _ => random.between(1, 16),
    };
    let payload_words = *random.pick(&[1, 1, 1, 2, 3, 4, 4]);
    // The exponent of the largest first array that fits.
    let largest = (store / (payload_words + 1)).max(1).ilog2().min(10);
    let exponent = match random.below(10) {
        0..=6 => random.below(3).min(largest),
        7 => largest,
        _ => random.below(largest + 1),
    };
    let crew = match random.below(20) {
        0 => 1,
        1..=13 => random.between(2, 3),
        14 | 15 => 8,
        _ => random.between(4, 8),
    };
    Shape { kind: random.between(1, 5), width, size: 1 << exponent, crew, payload_words, delayed: false, quota: None }
}

/// How stores that are delayed drain.
pub fn drains(random: &mut Random) -> Drains {
    Drains {
        now_and_then: *random.pick(&[0, 5, 20, 20, 40, 70]),
        go_on: *random.pick(&[50, 90, 95, 100]),
        sparing: random.chance(30),
    }
}

/// The same with a number or more out of its range, or just within.
pub fn damaged(random: &mut Random, mut shape: Shape) -> Shape {
    for _ in 0..*random.pick(&[1, 1, 1, 2, 4]) {
        match random.below(6) {
            0 => shape.kind = *random.pick(&[0, 6, 7, 257, 260, u32::MAX]),
            1 => shape.width = *random.pick(&[0, 17, 32, 33, 257, u32::MAX]),
            2 => {
                let odd = 2 * random.between(1, 5000) + 1;
                shape.size = *random.pick(&[0, 3, 1023, 1025, 2048, 1 << 31, u32::MAX, odd]);
            }
            3 => shape.crew = *random.pick(&[0, 9, 10, 256, 257, u32::MAX]),
            4 => shape.payload_words = *random.pick(&[0, 5, 6, 257, u32::MAX - 1, u32::MAX]),
            // Too large for the store, as most stores are.
            _ => shape.size = *random.pick(&[16, 128, 1024]),
        }
    }
    shape
}

/// What is done most, by a bench or a queue as it was made.
pub fn favourite(script: &mut Script) -> fn(&mut Script) {
    let shape = script.shape;
    let favourite = *script.random.pick::<fn(&mut Script)>(&[
        act::any,
        act::uniform,
        act::burst,
        act::owner_paused,
        act::tag_comes_round,
        act::tag_comes_round,
        act::noted_before_growth,
        act::emptied_before_x2,
        act::race,
        act::equal_value,
        act::links_fail,
        act::asks,
        act::asks,
        act::commit_with_thieves,
    ]);
    let linked = shape.kind >= 4;
    let favourite = if linked && script.random.chance(60) { act::links_fail } else { favourite };
    if shape.delayed && script.random.chance(50) {
        act::delayed
    } else {
        favourite
    }
}

/// Calls of any sort for anyone, whether there is a bench or not.
pub fn strays(script: &mut Script) {
    for _ in 0..script.random.between(1, 10) {
        let worker = match script.random.below(10) {
            0..=5 => script.random.below(script.shape.crew.max(2)),
            6 | 7 => script.shape.crew,
            8 => script.random.between(8, 300),
            _ => *script.random.pick(&[256, 257, 1 << 31, u32::MAX - 1, u32::MAX]),
        };
        match script.random.below(15) {
            0 | 1 => script.begin_put(worker),
            2 | 3 => script.begin_take(worker),
            4 | 5 => script.steal(worker),
            6 => {
                let count = script.random.below(4);
                script.step(worker, count);
            }
            7 | 8 => script.drop_link(worker),
            9 => script.who(worker),
            10 => script.drain(),
            11 => script.ask(worker),
            12 => script.drop_ask(worker),
            13 => script.commit(worker),
            _ => {
                let count = script.random.below(25);
                script.step(worker, count);
            }
        }
    }
}

/// Now and then the list ends with one of these lines, which are not of the form, or
/// without a newline.
pub fn last_line(script: &mut Script, bad: &[&str]) {
    match script.random.below(12) {
        // What follows a line that is not of the form is not played.
        0 => {
            let line = *script.random.pick(bad);
            script.unplayed(line.as_bytes());
            script.unplayed(b"\nstep 0 1\nstate\nfront\n");
        }
        1 => script.drop_last_newline(),
        _ => {}
    }
}

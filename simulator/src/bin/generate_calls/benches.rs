//! Lists of benches that follow each other. A list has stretches, each with a bench
//! of its own on the same memory; in a third of the lists most of them delay their
//! stores. In a stretch workers are paused where the queues are delicate, as in the
//! runs of `generate`, links fail, and the owner asks for growth and commits; between
//! that stand calls that the program has no line for, and looks at the shared state
//! and at the log.

use simulator::bench::Shape;
use simulator::episodes as act;
use simulator::random::Random;
use simulator::script::Script;

use crate::draws::{self, damaged, favourite, log_words, looks, shape, strays};

pub fn list(seed: u64, calls: Option<u64>) -> Vec<u8> {
    let mut random = Random::new(seed);
    let (first, store, log) = match random.below(100) {
        // With one or two payload words it can be the size alone that forbids a
        // larger array in a store this long.
        0..=2 => (First::LargestArray, random.between(6144, 10_300), random.between(7200, 20_000)),
        3 | 4 => (First::HeadRound, random.between(2, 60), random.between(16_400, 20_000)),
        _ => (First::Any, store_words(&mut random), log_words(&mut random)),
    };
    let looks = looks(&mut random, store, log);
    let calls = calls.unwrap_or_else(|| u64::from(random.between(300, 4000)));
    let delayed = random.chance(34);
    let mut script = Script::calls(random, store, log);
    script.looks = looks;
    if script.random.chance(40) {
        strays(&mut script);
    }
    let shape = shape(&mut script.random, store);
    let shape = if delayed { with_line(&mut script, shape) } else { shape };
    match first {
        First::LargestArray => {
            let size = *script.random.pick(&[512, 1024]);
            script.fresh(Shape { size, ..shape });
            act::past_the_largest_array(&mut script);
        }
        First::HeadRound => {
            let kind = *script.random.pick(&[3, 5]);
            script.fresh(Shape { kind, crew: 2, payload_words: 1, ..shape });
            while script.entries_left() > 0 {
                act::head_up(&mut script);
            }
        }
        First::Any => {}
    }
    while script.steps() < calls {
        stretch(&mut script, store, delayed);
    }
    the_end(&mut script);
    script.into_text()
}

/// What a list begins with.
enum First {
    /// The largest array is filled, and there is one put more.
    LargestArray,
    /// The double-ended head counts past 2,047, which takes a long log.
    HeadRound,
    Any,
}

/// Often just enough for so many arrays, or a word or two beside it.
fn store_words(random: &mut Random) -> u32 {
    match random.below(20) {
        0 => random.below(4),
        1..=9 => {
            let size = *random.pick(&[1, 1, 2, 4]);
            let arrays = random.between(1, 5);
            let each = random.between(2, 5);
            (each * size * ((1 << arrays) - 1) + random.below(4)).saturating_sub(1)
        }
        10..=14 => random.between(2, 200),
        15 | 16 => random.between(200, 4093),
        17 => random.between(4094, 4097),
        18 => *random.pick(&[6140, 6141, 6142, 8187, 8188, 8189]),
        _ => *random.pick(&[9999, 10_234, 10_235, 10_236, 10_299, 10_300]),
    }
}

/// A bench, what is done with it, and looks at what it leaves.
fn stretch(script: &mut Script, store: u32, delayed: bool) {
    let shape = shape(&mut script.random, store);
    let shape = if delayed { with_line(script, shape) } else { shape };
    let shape = if script.random.chance(25) { damaged(&mut script.random, shape) } else { shape };
    if !script.fresh(shape) {
        return strays(script);
    }
    if script.random.chance(15) {
        let left = script.random.between(1, 30);
        if script.entries_left() < 800 {
            act::fill_log(script, left);
        }
        if script.random.chance(40) && shape.size < 64 {
            act::brim(script);
        }
    }
    let favourite = favourite(script);
    // While the array is small it can grow often.
    if shape.size < 64 && script.random.chance(40) {
        act::asks(script);
    }
    if shape.delayed && shape.size < 64 && script.random.chance(20) {
        act::commits_undrained(script);
    }
    if shape.delayed && shape.size < 64 && script.random.chance(60) {
        act::growth_waits(script);
    }
    // An array grows but a few times in a stretch: short ones see more of it.
    let most = if shape.delayed { 400 } else { 1500 };
    let until = script.steps() + u64::from(script.random.between(50, most));
    while script.entries_left() > 0 && script.steps() < until {
        match script.random.below(100) {
            0..=7 => act::refusals(script),
            8..=19 => strays(script),
            20..=64 => favourite(script),
            _ => act::any(script),
        }
    }
    if script.entries_left() == 0 {
        act::past_the_log(script);
        if script.random.chance(30) {
            act::uniform(script);
        }
    }
    if script.random.chance(50) {
        script.say("front");
    }
    if script.random.chance(50) {
        script.all_counts();
    }
    if script.random.chance(if store > 600 { 20 } else { 50 }) {
        script.say("state");
    }
}

/// The same with delayed stores, mostly, and how they drain.
fn with_line(script: &mut Script, shape: Shape) -> Shape {
    script.drains = draws::drains(&mut script.random);
    Shape { delayed: script.random.chance(90), ..shape }
}

fn the_end(script: &mut Script) {
    script.say("front");
    script.say("state");
    let bad = [
        "", " ", "end", "put 1", "step 0", "step 0 1 1", "step 0 1 ", "step  0 1", "step 0 4294967296",
        "step 0 18446744073709551617", "step 0 -1", "step 0 x", "begin 0", "begin 0 put", "begin 0 put x",
        "begin 0 put 1 2 3 4 5", "begin 0 drop", "drop", "drop 1 1", "drop x", "unlink 1", "fresh 1 1 1 1",
        "fresh 1 1 1 1 1 1 1", "fresh 1 1 1 1 1 2", "drain 0", "begin 0 drain", "who", "who ", "who 1 1", "who x",
        "who 01", "who 4294967296", "whom 1", "begin 1 who", "ask", "ask ", "ask 0 0", "ask x", "ask 01",
        "ask 4294967296", "asks 0", "unask", "unask x", "unask 0 0", "begin 0 commit 3", "begin commit", "begin 0 ask",
        "commit 0", "memory 2 4", "State", "front 0", "make 1 1 1 1 1 0", "0 step 0 1",
    ];
    draws::last_line(script, &bad);
}

//! Writes a long random run of the bench's input.
//!
//!     generate SEED [STEPS]
//!
//! The same seed gives the same run. STEPS is about how many steps it makes;
//! without it the seed decides, and a few seeds fill the log whatever they are
//! told. Between stretches of plain and damaged lines, workers are paused where
//! the queues are delicate.

use std::io::Write;
use std::process::ExitCode;

use simulator::bench::Shape;
use simulator::damage;
use simulator::episodes as act;
use simulator::random::Random;
use simulator::script::Script;
use simulator::text::MOST_WORDS;

fn main() -> ExitCode {
    let values: Vec<Option<u64>> = std::env::args().skip(1).map(|text| text.parse().ok()).collect();
    let (seed, steps) = match values[..] {
        [Some(seed)] => (seed, None),
        [Some(seed), Some(steps)] => (seed, Some(steps)),
        _ => {
            eprintln!("usage: generate SEED [STEPS]");
            return ExitCode::from(64);
        }
    };
    let text = run(seed, steps);
    if let Err(error) = std::io::stdout().write_all(&text) {
        eprintln!("generate: the run can't be written: {error}");
        return ExitCode::FAILURE;
    }
    ExitCode::SUCCESS
}

/// What a run is mostly made of.
#[derive(Clone, Copy, PartialEq, Eq)]
enum Style {
    Mixed,
    Uniform,
    Bursts,
    Pauses,
    Tags,
    Growth,
    Damage,
    /// Goes on until the log is full, and then some.
    LogFull,
    /// The same, with most of the log filled by EMPTY beforehand.
    LogSoonFull,
    /// The double-ended head counts up to 2,048, which takes the whole log.
    HeadRound,
}

fn run(seed: u64, steps: Option<u64>) -> Vec<u8> {
    let mut random = Random::new(seed);
    let style = match random.below(64) {
        0 => Style::HeadRound,
        1 | 2 => Style::LogFull,
        3..=6 => Style::LogSoonFull,
        7..=10 => Style::Uniform,
        11..=14 => Style::Bursts,
        15..=23 => Style::Pauses,
        24..=35 => Style::Tags,
        36..=44 => Style::Growth,
        45..=48 => Style::Damage,
        _ => Style::Mixed,
    };
    let (shape, words) = shape(&mut random, style);
    let steps = steps.unwrap_or_else(|| u64::from(random.between(1500, 8000)));
    let mut script = Script::program(random, shape);

    before_the_queue(&mut script, words);
    if script.random.chance(2) {
        // No queue at all: every line is refused.
        act::damaged(&mut script);
        act::refusals(&mut script);
        return script.into_text();
    }
    let sixth = sixth(&mut script.random, shape.payload_words);
    let Shape { kind, width, size, crew, .. } = shape;
    script.say(&format!("queue {kind} {width} {size} {crew} {words}{sixth}"));
    script.looks.who = *script.random.pick(&[0, 0, 1, 5, 25]);

    if style == Style::LogSoonFull {
        let left = script.random.between(5, 150);
        act::fill_log(&mut script, left);
        if script.random.chance(40) {
            act::brim(&mut script);
        }
    }
    let early = script.random.chance(3);
    let steps = if early { steps / 8 } else { steps };
    while !script.ended() && !over(&script, style, steps) {
        episode(&mut script, style);
    }
    if until_full(style) {
        act::past_the_log(&mut script);
        for _ in 0..10 {
            episode(&mut script, Style::Uniform);
            episode(&mut script, Style::Mixed);
        }
    }
    the_end(&mut script);
    script.into_text()
}

fn until_full(style: Style) -> bool {
    matches!(style, Style::LogFull | Style::LogSoonFull | Style::HeadRound)
}

fn over(script: &Script, style: Style, steps: u64) -> bool {
    if until_full(style) {
        script.entries_left() == 0
    } else {
        script.steps() >= steps
    }
}

/// How the bench is made, and the words of its store.
fn shape(random: &mut Random, style: Style) -> (Shape, u32) {
    let kind = if style == Style::HeadRound { *random.pick(&[3, 5]) } else { random.between(1, 5) };
    let width = match random.below(100) {
        0..=24 => 1,
        25..=49 => 2,
        50..=64 => 3,
        65..=74 => 4,
        75..=79 => 16,
        _ => random.between(1, 16),
    };
    let size: u32 = match random.below(100) {
        0..=34 => 1,
        35..=59 => 2,
        60..=74 => 4,
        75..=84 => 8,
        _ => 1 << random.below(11),
    };
    // Wider entries would end the log before the head is round.
    let widths: &[u32] = if style == Style::HeadRound { &[1] } else { &[1, 1, 1, 2, 3, 4, 4] };
    let payload_words = *random.pick(widths);
    // Room for so many arrays, often exactly or a word too little.
    let arrays = random.between(1, 5);
    let first = size * (payload_words + 1);
    let most = 2047 * (payload_words + 1);
    let room = (first * ((1 << arrays) - 1)).min(most);
    let words = match random.below(10) {
        0..=4 => room,
        5..=6 => (room - 1).max(first),
        7 => *random.pick(&[most, most, MOST_WORDS]),
        _ => random.between(first, MOST_WORDS),
    };
    let crew = match random.below(20) {
        0 if style != Style::HeadRound => 1,
        0..=6 => 2,
        7..=12 => 3,
        13 | 14 => 8,
        _ => random.between(4, 8),
    };
    (Shape { kind, width, size, crew, payload_words, delayed: false, quota: None }, words)
}

/// The sixth number with a space before it, which may be left out if it is 1.
fn sixth(random: &mut Random, payload_words: u32) -> String {
    if payload_words == 1 && random.chance(70) {
        String::new()
    } else {
        format!(" {payload_words}")
    }
}

/// Lines that are refused because no queue is accepted yet.
fn before_the_queue(script: &mut Script, words: u32) {
    if script.random.chance(50) {
        return;
    }
    for _ in 0..script.random.between(1, 12) {
        let Shape { kind, width, size, crew, payload_words, .. } = script.shape;
        let large = script.random.between(9, 5000);
        let sixth = sixth(&mut script.random, payload_words);
        match script.random.below(14) {
            0 => script.say(&format!("queue {large} {width} {size} {crew} {words}{sixth}")),
            1 => {
                let wrong = *script.random.pick(&[0, 6, 7, u32::MAX]);
                script.say(&format!("queue {wrong} {width} {size} {crew} {words}{sixth}"));
            }
            2 => script.say(&format!("queue {kind} {} {size} {crew} {words}{sixth}", large + 8)),
            3 => script.say(&format!("queue {kind} 0 {size} {crew} {words}{sixth}")),
            4 => script.say(&format!("queue {kind} {width} {} {crew} {words}{sixth}", 2 * large + 1)),
            5 => {
                let wrong = *script.random.pick(&[0, 2048, 4096, 2_147_483_648, u32::MAX]);
                script.say(&format!("queue {kind} {width} {wrong} {crew} {words}{sixth}"));
            }
            6 => script.say(&format!("queue {kind} {width} {size} 0 {words}{sixth}")),
            7 => script.say(&format!("queue {kind} {width} {size} {large} {words}{sixth}")),
            8 => {
                let few = script.random.below(size * (payload_words + 1));
                script.say(&format!("queue {kind} {width} {size} {crew} {few}{sixth}"));
            }
            9 => {
                // No payload words of a bench, with enough words or too few.
                let wrong = *script.random.pick(&["0", "5", "6", "16", "257", "4294967295"]);
                let store = *script.random.pick(&[0, words, MOST_WORDS]);
                script.say(&format!("queue {kind} {width} {size} {crew} {store} {wrong}"));
            }
            10 => {
                // No number, one too many, or a store too long.
                let wrong = *script.random.pick(&[
                    "4294967296", "18446744073709551617", "01", "00", "+1", "-1", "x", "", "1 1", "1 ", " 1",
                ]);
                script.say(&format!("queue {kind} {width} {size} {crew} {words} {wrong}"));
                script.say(&format!("queue {kind} {width} {size} {crew} {} {payload_words}", MOST_WORDS + 1));
            }
            11 => {
                let line = *script.random.pick(&[
                    "put 1", "put 1 2 3 4", "put", "put 1 2 3 4 5", "take", "steal 1", "step 0 1", "step 0 0",
                    "end", "steal 0", "drop 1", "who 0", "who 1", "who 8", "who",
                ]);
                script.say(line);
            }
            12 => {
                // Several things wrong at once: the first of the table counts.
                let values: Vec<u32> = (0..5).map(|_| script.random.below(20)).collect();
                let line = format!(
                    "queue {} {} {} {} 1 {}",
                    values[0], values[1], values[2], values[3], values[4] / 2
                );
                // One word is short for any size, so this is never accepted.
                script.say(&line);
            }
            _ => {
                let line = damage::line(&mut script.random);
                // Damage can leave a queue valid; it would not be this run's.
                if !line.starts_with(b"queue") {
                    script.bytes(&line);
                }
            }
        }
    }
}

fn episode(script: &mut Script, style: Style) {
    if style == Style::HeadRound {
        // The log has no entry to spare for anything else.
        return act::head_up(script);
    }
    if script.random.chance(6) {
        return act::refusals(script);
    }
    if script.random.chance(if style == Style::Damage { 60 } else { 4 }) {
        return act::damaged(script);
    }
    let draw = script.random.below(100);
    match style {
        Style::Uniform => act::uniform(script),
        // Workers caught in the middle when the log is full.
        Style::LogSoonFull if draw < 60 => act::uniform(script),
        Style::Bursts if draw < 70 => act::burst(script),
        Style::Pauses if draw < 50 => act::owner_paused(script),
        Style::Pauses if draw < 70 => act::equal_value(script),
        Style::Tags if draw < 70 => act::tag_comes_round(script),
        Style::Growth if draw < 35 => act::noted_before_growth(script),
        Style::Growth if draw < 60 => act::emptied_before_x2(script),
        _ => act::any(script),
    }
}

fn the_end(script: &mut Script) {
    script.looks.who = 0;
    // The totals show the sum of these.
    if script.random.chance(50) {
        script.all_counts();
    }
    match script.random.below(20) {
        // No end: the listing has no `T`.
        0 => {}
        1 => script.drop_last_newline(),
        // The last line has no newline.
        2 | 3 => {
            script.say("end");
            script.drop_last_newline();
        }
        // What follows an end is not read.
        4 => {
            script.say("end");
            script.unplayed(b"put 1\nstep 0 5\n\nend\nqueue 1 1 1 1 2\n");
        }
        _ => script.say("end"),
    }
}

//! Writes a random hunt.
//!
//!     generate_hunts SEED
//!
//! The same seed gives the same hunt. Half of the budgets are chosen by where the
//! hunt's orders end: exactly there, one step short of it and one past it. Some hunts
//! are refused, each time for a reason of its own with later ones beside it, and some
//! have a line that is not of the form.

use std::io::Write;
use std::process::ExitCode;

use simulator::bench::Shape;
use simulator::hunt::{Hunt, Own, MOST_BUDGET, MOST_OPERATIONS};
use simulator::random::Random;

fn main() -> ExitCode {
    let mut words = std::env::args().skip(1);
    let seed = match (words.next().map(|text| text.parse()), words.next()) {
        (Some(Ok(seed)), None) => seed,
        _ => {
            eprintln!("usage: generate_hunts SEED");
            return ExitCode::from(64);
        }
    };
    if let Err(error) = std::io::stdout().write_all(text(seed).as_bytes()) {
        eprintln!("generate_hunts: the hunt can't be written: {error}");
        return ExitCode::FAILURE;
    }
    ExitCode::SUCCESS
}

fn text(seed: u64) -> String {
    let mut random = Random::new(seed);
    let mut hunt = Hunt { shape: shape(&mut random), words: 0, own: Vec::new(), steals: [0; 8], budget: 0 };
    operations(&mut random, &mut hunt);
    hunt.words = words(&mut random, &hunt);
    hunt.budget = budget(&mut random, &hunt);
    if random.chance(25) {
        damage(&mut random, &mut hunt);
    }
    let mut lines = lines(&mut random, &hunt);
    if random.chance(6) {
        bad_line(&mut random, &mut lines);
    }
    let mut text = lines.join("\n");
    match random.below(8) {
        0 => {}
        1 => text += "\nput 1\n\nhunt x\n",
        _ => text += "\n",
    }
    text
}

fn shape(random: &mut Random) -> Shape {
    let width = if random.chance(70) { random.between(1, 2) } else { random.between(1, 16) };
    let crew = match random.below(20) {
        0 => 1,
        1..=11 => 2,
        12..=16 => 3,
        _ => random.between(4, 8),
    };
    Shape {
        kind: random.between(1, 5),
        width,
        size: *random.pick(&[1, 1, 2, 2, 4]),
        crew,
        payload_words: *random.pick(&[1, 1, 1, 2, 3, 4]),
        delayed: false,
        quota: None,
    }
}

/// The owner's list and the thieves' steals.
fn operations(random: &mut Random, hunt: &mut Hunt) {
    match random.below(20) {
        // Few: often every order is played out.
        0..=6 => {
            let count = random.below(4);
            hunt.own = (0..count).map(|_| *random.pick(&[Own::Put, Own::Take])).collect();
            if count < 3 {
                steal(random, hunt, 1);
            }
        }
        // Puts, and a take that a thief's steals fit into: the repeats come early.
        7..=13 => {
            let puts = random.between(1, 4) as usize;
            hunt.own = vec![Own::Put; puts];
            hunt.own.extend(vec![Own::Take; random.between(1, 2) as usize]);
            steal(random, hunt, puts as u32 + 1);
            if random.chance(25) {
                steal(random, hunt, 2);
            }
        }
        14..=16 => {
            hunt.own = (0..random.between(2, 9)).map(|_| *random.pick(&[Own::Put, Own::Put, Own::Take])).collect();
            for _ in 0..random.below(4) {
                steal(random, hunt, 3);
            }
        }
        // The order ends about where it has 256 steps.
        17 | 18 => {
            let own = if hunt.shape.kind == 2 { 5 } else { 4 } + hunt.shape.payload_words;
            let puts = 246 / own + random.below(4) - 2;
            hunt.own = vec![Own::Put; puts as usize];
            hunt.own.push(Own::Take);
            // The array does not grow.
            hunt.shape.size = 64;
            steal(random, hunt, 2);
        }
        // As many as there may be, or one or two fewer.
        _ => {
            let count = MOST_OPERATIONS - random.below(3);
            let steals = if hunt.shape.crew > 1 { random.below(count) } else { 0 };
            hunt.own = (0..count - steals).map(|_| *random.pick(&[Own::Put, Own::Take])).collect();
            for _ in 0..steals {
                hunt.steals[random.between(1, hunt.shape.crew - 1) as usize] += 1;
            }
        }
    }
}

/// A thief is to steal at least once, if there is one.
fn steal(random: &mut Random, hunt: &mut Hunt, most: u32) {
    if hunt.shape.crew > 1 {
        hunt.steals[random.between(1, hunt.shape.crew - 1) as usize] = random.between(1, most);
    }
}

/// Just enough for so many arrays, or a few more.
fn words(random: &mut Random, hunt: &Hunt) -> u32 {
    let first = hunt.shape.size * (hunt.shape.payload_words + 1);
    match random.below(10) {
        0..=2 => first,
        3..=7 => first * ((1 << random.between(1, 4)) - 1) + random.below(3),
        8 => 10_235,
        _ => random.between(first, 10_235),
    }
}

fn budget(random: &mut Random, hunt: &Hunt) -> u32 {
    let most = if random.chance(15) { MOST_BUDGET } else { *random.pick(&[100, 3000, 20_000, 100_000]) };
    let mut ends = Vec::new();
    let whole = Hunt { budget: most, ..hunt.clone() };
    if whole.run(|end| ends.push(end)).is_err() || ends.is_empty() || random.chance(35) {
        return match random.below(4) {
            0 => most,
            1 => 0,
            _ => random.below(most),
        };
    }
    let end = match random.below(6) {
        0 => ends[0],
        1..=3 => ends[ends.len() - 1],
        _ => *random.pick(&ends),
    };
    match random.below(3) {
        0 => end.saturating_sub(1),
        1 => end,
        _ => (end + 1).min(MOST_BUDGET),
    }
}

/// One fault, and later ones beside it.
fn damage(random: &mut Random, hunt: &mut Hunt) {
    let fault = random.below(9);
    for later in fault..9 {
        if later > fault && random.chance(50) {
            continue;
        }
        let shape = &mut hunt.shape;
        match later {
            0 => shape.kind = *random.pick(&[0, 6, 257, u32::MAX]),
            1 => shape.width = *random.pick(&[0, 17, 65_537, u32::MAX]),
            2 => shape.size = *random.pick(&[0, 3, 6, 1023, 2048, 1 << 31, u32::MAX]),
            3 => shape.crew = *random.pick(&[0, 9, 257, u32::MAX]),
            4 => shape.payload_words = *random.pick(&[0, 5, 257, u32::MAX]),
            5 => {
                let first = shape.size.saturating_mul(shape.payload_words.saturating_add(1));
                hunt.words = first.saturating_sub(1).min(10_235);
            }
            6 => {
                // The first that is outside, or the last there is.
                let outside = *random.pick(&[7, shape.crew.clamp(1, 7)]);
                shape.crew = if shape.crew > 7 { 7 } else { shape.crew };
                hunt.steals[outside as usize] = *random.pick(&[1, 2, u32::MAX]);
            }
            7 if random.chance(30) && (2..=8).contains(&shape.crew) => {
                hunt.steals[1] = *random.pick(&[65, 66, u32::MAX]);
            }
            // One more than there may be, if there are not as many already.
            7 => {
                let steals = hunt.steals.iter().fold(0u32, |sum, &count| sum.saturating_add(count));
                let own = (MOST_OPERATIONS + 1).saturating_sub(steals) as usize;
                hunt.own.resize(own.max(hunt.own.len()), Own::Take);
            }
            _ => hunt.budget = *random.pick(&[MOST_BUDGET + 1, 2_000_000, u32::MAX]),
        }
    }
}

/// The thieves' lines stand anywhere among the owner's; some are said twice, the
/// wrong number first.
fn lines(random: &mut Random, hunt: &Hunt) -> Vec<String> {
    let own = |own: &Own| if *own == Own::Put { "put" } else { "take" }.to_string();
    let mut lines: Vec<String> = hunt.own.iter().map(own).collect();
    for (thief, &count) in hunt.steals.iter().enumerate().skip(1) {
        let needless = random.chance(3);
        if count == 0 && !needless {
            continue;
        }
        let at = random.below(lines.len() as u32 + 1) as usize;
        lines.insert(at, format!("steals {thief} {count}"));
        if needless {
            let before = random.below(at as u32 + 1) as usize;
            lines.insert(before, format!("steals {thief} {}", random.pick(&[0, 1, 65, u32::MAX])));
        }
    }
    let Shape { kind, width, size, crew, payload_words, .. } = hunt.shape;
    let queue = format!("queue {kind} {width} {size} {crew} {}", hunt.words);
    let implied = payload_words == 1 && random.chance(60);
    lines.insert(0, if implied { queue } else { format!("{queue} {payload_words}") });
    lines.push(format!("hunt {}", hunt.budget));
    lines
}

/// One line more, less, or not of the form.
fn bad_line(random: &mut Random, lines: &mut Vec<String>) {
    let bad = [
        "", " ", "put 1", "put ", " take", "take 0", "steal 1", "steals 1", "steals 0 1", "steals 8 1", "steals 1 01",
        "steals 1 4294967296", "steals 1 1 1", "hunt", "hunt 01", "hunt 1 1", "hunt -1", "hunt 4294967296", "Hunt 1", "end",
        "step 0 1", "who 0", "queue 1 1 1 1 2", "queue 1 1 1 1 10236", "put\r",
    ];
    let at = random.below(lines.len() as u32) as usize;
    match random.below(4) {
        0 => drop(lines.pop()),
        1 => drop(lines.remove(0)),
        2 => lines[at] += " ",
        _ => lines.insert(at, random.pick(&bad).to_string()),
    }
}

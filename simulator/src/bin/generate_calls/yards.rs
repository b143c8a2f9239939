//! Lists of queues that stand beside each other on the same store. Queues are made
//! before, between and after the others' calls, and refused ones too. What is done
//! with a queue is done as with a bench alone, now and then with calls of the others
//! between two of its lines. Arrays of several queues grow in turn, and the asks of
//! one stand in the way of the others. In half of the lists the quotas add up to no
//! more than the store, and in most of these to just as much.

use simulator::bench::Shape;
use simulator::episodes as act;
use simulator::random::Random;
use simulator::script::{Between, Script};
use simulator::store::{LARGEST, MOST_WORDS};
use simulator::yard::MOST_QUEUES;

use crate::draws::{self, damaged, drains, favourite, log_words, looks, shape, strays};

pub fn list(seed: u64, calls: Option<u64>) -> Vec<u8> {
    let mut random = Random::new(seed);
    let long = random.chance(4);
    let reserved = if long || random.chance(60) { Vec::new() } else { reserved(&mut random) };
    let store = match reserved.iter().filter_map(|shape| shape.quota).sum() {
        0 if long => random.between(MOST_WORDS - 2, 10_300),
        0 => store_words(&mut random),
        quotas => quotas + random.below(2),
    };
    // A short log ends a queue's growth early.
    let log = log_words(&mut random).max(if long || random.chance(70) { 120 } else { 0 });
    let looks = looks(&mut random, store, log);
    // Arrays grow but a few times: most lists end soon after that.
    let most = *random.pick(&[300, 600, 1500, 1500]);
    let calls = calls.unwrap_or_else(|| u64::from(random.between(60, most)));
    let mut plan = Plan {
        store,
        quotas_left: (!reserved.is_empty() || random.chance(20)).then_some(store.min(MOST_WORDS)),
        delayed: *random.pick(&[0, 0, 10, 50, 90]),
        reserved,
    };
    let mut script = Script::yard(random, store, log);
    script.looks = looks;
    if long {
        up_to_the_last_words(&mut script, &mut plan);
    } else {
        for _ in 0..script.random.between(1, 4) {
            plan.make(&mut script);
        }
    }
    if script.queues() > 1 && script.random.chance(50) {
        asks_in_the_way(&mut script, &mut plan);
    }
    if script.random.chance(80) {
        let now_and_then = *script.random.pick(&[1, 5, 20, 60]);
        script.between = Some(Between { now_and_then, act: elsewhere });
    }
    while script.steps() < calls {
        match script.random.below(100) {
            0..=8 => plan.make(&mut script),
            9..=11 => no_such_queue(&mut script),
            _ if script.queues() == 0 => plan.make(&mut script),
            12..=24 => grow_in_turn(&mut script),
            25..=34 => asks_in_the_way(&mut script, &mut plan),
            35..=44 => made_beside_an_ask(&mut script, &mut plan),
            _ => stretch(&mut script, store),
        }
    }
    the_end(&mut script);
    script.into_text()
}

/// Often just enough for so many arrays of several queues, or a word or two beside
/// it.
fn store_words(random: &mut Random) -> u32 {
    match random.below(20) {
        0 => random.below(12),
        1..=11 => {
            let mut words = random.below(4);
            for _ in 0..random.between(2, 4) {
                let each = random.between(2, 5);
                words += arrays_words(random, each);
            }
            words.saturating_sub(1)
        }
        12..=16 => random.between(8, 300),
        17 | 18 => random.between(300, 3000),
        _ => *random.pick(&[10_234, 10_235, 10_236, 10_300]),
    }
}

/// What some arrays of one queue take, from a small one on.
fn arrays_words(random: &mut Random, each: u32) -> u32 {
    let size = *random.pick(&[1, 1, 2]);
    let arrays = random.between(1, 5);
    each * size * ((1 << arrays) - 1)
}

/// How queues are made.
struct Plan {
    store: u32,
    /// What the quotas of the queues to come may add up to; none if they need not.
    quotas_left: Option<u32>,
    /// How many of a hundred delay their stores.
    delayed: u32,
    /// Those that come first.
    reserved: Vec<Shape>,
}

/// Queues that may take just the whole store: each has a quota of some arrays.
fn reserved(random: &mut Random) -> Vec<Shape> {
    (0..random.between(2, 4))
        .map(|_| {
            let shape = shape(random, 40);
            let size = *random.pick(&[1, 1, 2, 4]);
            let arrays = (1 << random.between(1, 4)) - 1;
            Shape { size, quota: Some(size * (shape.payload_words + 1) * arrays), ..shape }
        })
        .collect()
}

impl Plan {
    /// One queue more, or one that is refused.
    fn make(&mut self, script: &mut Script) {
        let all_made = script.queues() as usize == MOST_QUEUES;
        if all_made && script.random.chance(70) {
            return;
        }
        if script.random.chance(80) {
            if let Some(shape) = self.reserved.pop() {
                let delayed = script.random.chance(self.delayed);
                return self.make_so(script, Shape { delayed, ..shape });
            }
        }
        // Several are to fit.
        let space = self.store / script.random.between(2, 16);
        let shape = shape(&mut script.random, space);
        let shape = Shape { delayed: script.random.chance(self.delayed), ..shape };
        let shape = Shape { quota: self.quota(&mut script.random, shape), ..shape };
        let damages = if all_made { 70 } else { 20 };
        let shape = if script.random.chance(damages) { damaged(&mut script.random, shape) } else { shape };
        self.make_so(script, shape);
    }

    /// One with as large a first array as fits: the larger ones are refused.
    fn make_largest(&mut self, script: &mut Script) {
        let shape = shape(&mut script.random, self.store);
        let made = script.queues();
        let mut size = (self.store / 2).clamp(1, LARGEST).next_power_of_two();
        while size > 0 && script.queues() == made {
            self.make_so(script, Shape { size, ..shape });
            size /= 2;
        }
    }

    fn make_so(&mut self, script: &mut Script, shape: Shape) {
        let drains = drains(&mut script.random);
        if script.make(shape, drains) {
            let quota = shape.quota.unwrap_or(self.store);
            self.quotas_left = self.quotas_left.map(|left| left.saturating_sub(quota));
        }
    }

    /// A quota, or that none is named.
    fn quota(&self, random: &mut Random, shape: Shape) -> Option<u32> {
        let first = shape.size * (shape.payload_words + 1);
        let arrays = first * ((1 << random.between(1, 5)) - 1) + random.below(3);
        let promised: u32 = self.reserved.iter().filter_map(|shape| shape.quota).sum();
        match self.quotas_left.map(|left| left.saturating_sub(promised)) {
            Some(_) if random.chance(4) => None,
            Some(left) if random.chance(8) => Some(left),
            Some(left) => Some(arrays.min(left)),
            None => match random.below(20) {
                0..=8 => None,
                9..=12 => Some(arrays - 1),
                13 | 14 => Some(first - 1),
                15 => Some(random.below(first)),
                16 | 17 => Some(random.below(self.store + 1)),
                18 => Some(self.store + random.below(2)),
                _ => Some(*random.pick(&[0, 10_235, 1 << 31, u32::MAX])),
            },
        }
    }
}

/// Large first arrays that leave few of the words that are ever used, or just as many
/// as a small one beside them takes, which grows as far as it can.
fn up_to_the_last_words(script: &mut Script, plan: &mut Plan) {
    plan.quotas_left = None;
    let exactly = script.random.chance(50);
    let larges = if exactly { 1 } else { script.random.between(2, 3) };
    for _ in 0..larges {
        let size = if exactly { LARGEST } else { *script.random.pick(&[LARGEST, LARGEST, LARGEST / 2]) };
        let payload_words = if exactly { 4 } else { script.random.between(2, 4) };
        let large = shape(&mut script.random, plan.store);
        plan.make_so(script, Shape { size, payload_words, ..large });
    }
    let small = shape(&mut script.random, 40);
    let payload_words = if exactly { 4 } else { small.payload_words };
    // These copy nothing while they are empty.
    let kind = *script.random.pick(&[2, 3, 5]);
    plan.make_so(script, Shape { kind, size: 1, payload_words, ..small });
    act::commit_to_the_end(script);
    act::put_to_x1(script);
    act::owner_idle(script);
}

/// Lines for a queue that is not made.
fn no_such_queue(script: &mut Script) {
    let made = script.queues();
    let number = *script.random.pick(&[made, made, made + 1, 4, 5, 255, 256, u32::MAX]);
    script.turn_to(number.max(made));
    strays(script);
    for look in ["state", "front", "who 0"] {
        if script.random.chance(40) {
            script.say(look);
        }
    }
    turn_to_any(script);
}

fn turn_to_any(script: &mut Script) {
    let number = script.random.below(script.queues().max(1));
    script.turn_to(number);
}

/// A little is done with another queue.
fn elsewhere(script: &mut Script) {
    let queues = script.queues();
    if queues < 2 {
        return;
    }
    let other = (script.number() as u32 + script.random.between(1, queues - 1)) % queues;
    script.turn_to(other);
    match script.random.below(12) {
        0..=5 => {
            for _ in 0..script.random.between(1, 5) {
                act::any_line(script);
            }
        }
        6 => {
            act::whole_put(script);
        }
        7 => {
            act::whole_commit(script);
        }
        8 => script.ask(0),
        9 => script.drop_ask(0),
        10 if script.delayed() => script.some_drains(),
        _ => strays(script),
    }
}

/// Arrays of several queues grow in turn, by commits and by puts.
fn grow_in_turn(script: &mut Script) {
    for _ in 0..script.random.between(2, 10) {
        turn_to_any(script);
        match script.random.below(4) {
            0 => {
                // Now and then it stays somewhere in its growth.
                let count = script.random.between(1, 5);
                act::put_to_x1(script);
                script.step_until(0, count, |_| false);
            }
            1 => act::ask_then_put(script),
            _ => {
                act::whole_commit(script);
            }
        }
    }
}

/// One queue asks, and then others ask, grow and are made, before its words are given
/// back or claimed and after it.
fn asks_in_the_way(script: &mut Script, plan: &mut Plan) {
    turn_to_any(script);
    if act::owner_idle(script) {
        script.ask(0);
    }
    let asked = script.number() as u32;
    for turn in 0..2 {
        for other in (0..script.queues()).filter(|&other| other != asked) {
            script.turn_to(other);
            match script.random.below(8) {
                0..=2 => act::commit_to_the_end(script),
                3 | 4 => {
                    act::put_to_x1(script);
                    act::owner_idle(script);
                }
                5 => {
                    act::whole_commit(script);
                }
                6 => {
                    act::owner_idle(script);
                    script.ask(0);
                }
                _ => script.drop_ask(0),
            }
        }
        if script.random.chance(20) {
            plan.make(script);
        }
        script.turn_to(asked);
        if turn == 0 && act::owner_idle(script) {
            match script.random.below(3) {
                0 => script.drop_ask(0),
                1 => act::ask_then_put(script),
                _ => {
                    act::whole_commit(script);
                }
            }
        }
    }
}

/// A queue is made while an ask stands, and grows when it is dropped or used.
fn made_beside_an_ask(script: &mut Script, plan: &mut Plan) {
    if script.queues() as usize == MOST_QUEUES {
        return asks_in_the_way(script, plan);
    }
    turn_to_any(script);
    if act::owner_idle(script) {
        script.ask(0);
    }
    let asked = script.number() as u32;
    match script.random.below(3) {
        // The others name no quota.
        _ if plan.quotas_left.is_some() => plan.make(script),
        0 => plan.make(script),
        1 => {
            let small = shape(&mut script.random, 40);
            let size = *script.random.pick(&[1, 1, 2, 4]);
            plan.make_so(script, Shape { size, ..small });
        }
        _ => plan.make_largest(script),
    }
    let made = script.number() as u32;
    script.turn_to(asked);
    if script.random.chance(70) {
        script.drop_ask(0);
    } else {
        act::whole_commit(script);
    }
    script.turn_to(made);
    act::commit_to_the_end(script);
}

/// Something is done with a queue for a while.
fn stretch(script: &mut Script, store: u32) {
    turn_to_any(script);
    let favourite = favourite(script);
    let until = script.steps() + u64::from(script.random.between(20, 300));
    while script.entries_left() > 0 && script.steps() < until {
        match script.random.below(100) {
            0..=7 => act::refusals(script),
            8..=15 => strays(script),
            16..=64 => favourite(script),
            _ => act::any(script),
        }
    }
    if script.entries_left() == 0 {
        act::past_the_log(script);
    }
    let often = if store > 600 { 5 } else { 25 };
    for look in ["front", "state"] {
        if script.random.chance(often) {
            script.say(look);
        }
    }
}

fn the_end(script: &mut Script) {
    script.between = None;
    for number in 0..script.queues() {
        script.turn_to(number);
        script.say("front");
        script.say("state");
    }
    let bad = [
        "", " ", "0", "0 ", "step 0 1", "state", "front", "drain", "begin 0 take", "fresh 1 1 1 1 1",
        "fresh 1 1 1 1 1 0", "0 fresh 1 1 1 1 1 0", "0 make 1 1 1 1 1 0", "make", "make 1 1 1 1 1", "make 1 1 1 1 1 2",
        "make 1 1 1 1 1 0 x", "make 1 1 1 1 1 0 4294967296", "make 1 1 1 1 1 0 5 5", "make 1 1 1 1 1 0 ",
        "Make 1 1 1 1 1 0", "x step 0 1", "-1 step 0 1", "00 step 0 1", "01 step 0 1", "4294967296 step 0 1",
        "0  step 0 1", "0 0 step 0 1", "0 step 0", "0 step 0 1 ", "0 memory 2 4", "memory 2 4", "0 end", "0 drop",
        "0 ask", "0 begin 0", "0 State",
    ];
    draws::last_line(script, &bad);
}

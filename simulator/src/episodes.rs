//! What workers can do to each other, a stretch of a run at a time.

use crate::damage;
use crate::outcome::Place;
use crate::script::{Drains, Script};
use crate::store::LARGEST;

/// Begins something for an idle worker.
fn begin(script: &mut Script, worker: u32) {
    if worker > 0 {
        script.steal(worker);
    } else if script.has_event() && script.random.chance(12) {
        about_growth(script);
    } else if script.random.chance(58) {
        script.put();
    } else {
        script.take();
    }
}

/// An ask, a commit where one stands, or a drop of it; now and then one that is
/// refused.
fn about_growth(script: &mut Script) {
    match script.random.below(20) {
        0 | 1 => script.ask(0),
        2 => script.commit(0),
        3 | 4 => script.drop_ask(0),
        _ if script.asked() => script.commit(0),
        _ => script.ask(0),
    }
}

/// Makes the owner idle; false if the log's end is in the way.
pub fn owner_idle(script: &mut Script) -> bool {
    script.finish(0)
}

pub fn whole_put(script: &mut Script) -> bool {
    if !owner_idle(script) {
        return false;
    }
    script.put();
    script.finish(0)
}

pub fn whole_take(script: &mut Script) -> bool {
    if !owner_idle(script) {
        return false;
    }
    script.take();
    script.finish(0)
}

fn whole_steal(script: &mut Script, thief: u32) -> bool {
    if script.idle(thief) {
        script.steal(thief);
    }
    script.finish(thief)
}

/// A thief other than those in `but`.
fn other_thief(script: &mut Script, but: &[u32]) -> Option<u32> {
    let free: Vec<u32> = (1..script.shape.crew).filter(|thief| !but.contains(thief)).collect();
    if free.is_empty() {
        None
    } else {
        Some(*script.random.pick(&free))
    }
}

/// Any worker does its next line, or begins if it has none.
pub fn any_line(script: &mut Script) {
    let worker = script.random.below(script.shape.crew);
    if script.idle(worker) {
        begin(script, worker);
    } else {
        let count = match script.random.below(20) {
            0 => 0,
            1..=3 => script.random.between(2, 6),
            _ => 1,
        };
        script.step(worker, count);
    }
    if script.has_event() && script.random.chance(4) {
        let worker = script.random.below(script.shape.crew);
        script.drop_link(worker);
    }
}

/// The same for a while.
pub fn uniform(script: &mut Script) {
    for _ in 0..script.random.between(20, 200) {
        any_line(script);
    }
}

/// One worker does whole operations while the others stand still.
pub fn burst(script: &mut Script) {
    let worker = script.random.below(script.shape.crew);
    for _ in 0..script.random.between(2, 12) {
        if script.idle(worker) {
            begin(script, worker);
        }
        match script.random.below(8) {
            // Past the end, to the refusals.
            0 => script.step(worker, script.most_steps()),
            1 => {
                let count = script.random.between(8, 3000).min(script.most_steps());
                script.step(worker, count);
            }
            _ => {
                script.finish(worker);
            }
        }
    }
}

/// The owner fills the queue, often past what the array or the store can hold.
pub fn fill(script: &mut Script) {
    for _ in 0..script.random.between(2, 20) {
        if !whole_put(script) {
            return;
        }
    }
}

/// All are at work until someone finds the queue empty.
pub fn drain(script: &mut Script) {
    for _ in 0..script.random.between(3, 25) {
        let worker = script.random.below(script.shape.crew);
        let went = if worker == 0 { whole_take(script) } else { whole_steal(script, worker) };
        if !went {
            return;
        }
    }
}

/// The owner stands before its last line while thieves work; then it writes
/// back what it read. This sets a FIFO head back, and gives repeats.
pub fn owner_paused(script: &mut Script) {
    for _ in 0..script.random.below(4) {
        whole_put(script);
    }
    if !owner_idle(script) {
        return;
    }
    if script.random.chance(35) {
        script.put();
    } else {
        script.take();
    }
    script.step_until(0, 3000, |place| matches!(place, Place::Last | Place::Idle));
    for _ in 0..script.random.between(1, 8) {
        let Some(thief) = script.thief() else { break };
        if script.random.chance(75) {
            whole_steal(script, thief);
        } else if script.idle(thief) {
            script.steal(thief);
        } else {
            let count = script.random.between(1, 6);
            script.step(thief, count);
        }
    }
    script.step(0, 1);
    for _ in 0..script.random.below(4) {
        if let Some(thief) = script.thief() {
            whole_steal(script, thief);
        }
    }
}

/// Thieves stand somewhere between line 1 and their compare while the owner
/// puts as often as the tag has values, or once less; then they go on.
pub fn tag_comes_round(script: &mut Script) {
    let round = 1u32 << script.shape.width;
    if round > 256 {
        return uniform(script);
    }
    if !whole_put(script) {
        return;
    }
    // From a full array the array grows on the way, and a thief that noted the
    // old one reads words there that the new one has no more.
    let growing = script.random.chance(40);
    if growing {
        for _ in 0..64 {
            if script.full() || !whole_put(script) {
                break;
            }
        }
    } else if script.random.chance(40) {
        whole_put(script);
    }
    let mut waiting = Vec::new();
    for _ in 0..script.random.between(1, 3) {
        let Some(thief) = other_thief(script, &waiting) else { break };
        if !script.finish(thief) {
            return;
        }
        script.steal(thief);
        match script.random.below(10) {
            0..=4 => {
                script.step_until(thief, 20, |place| matches!(place, Place::Last | Place::Idle));
            }
            5..=7 => {
                script.step_until(thief, 20, |place| matches!(place, Place::Noted | Place::Idle));
            }
            _ => {
                let count = script.random.between(1, script.shape.payload_words + 4);
                script.step_until(thief, count, |place| matches!(place, Place::Last | Place::Idle));
            }
        }
        waiting.push(thief);
    }
    let puts = match script.random.below(10) {
        0..=4 => round,
        5..=7 => round - 1,
        8 => round + 1,
        _ => 2 * round,
    };
    let mut left = puts;
    while left > 0 {
        // As much must go as comes, or the anchor would not return. Now and
        // then a put comes first, so that the array can grow on the way.
        let mut to_go = 1;
        if left > 1 && (growing && left == puts || script.random.chance(20)) {
            if !whole_put(script) {
                return;
            }
            left -= 1;
            to_go = 2;
        }
        for _ in 0..to_go {
            match other_thief(script, &waiting) {
                Some(thief) if script.random.chance(25) && matches!(script.shape.kind, 1 | 4) => {
                    whole_steal(script, thief);
                }
                _ => {
                    if !whole_take(script) {
                        return;
                    }
                }
            }
        }
        if !owner_idle(script) {
            return;
        }
        script.put();
        left -= 1;
        // A waiting thief that has not read all words yet may read some while
        // the put has written only some.
        let pause = if left == 0 { 50 } else { 15 };
        if script.random.chance(pause) {
            let words = script.shape.payload_words;
            let written = script.random.between(1, words);
            script.step(0, written + if script.shape.kind == 2 { 3 } else { 2 });
            for &thief in &waiting {
                let count = script.random.between(1, words + 1);
                script.step_until(thief, count, |place| matches!(place, Place::Last | Place::Idle));
            }
        }
        if !script.finish(0) {
            return;
        }
    }
    for &thief in &waiting {
        script.step_until(thief, 20, |place| matches!(place, Place::Last | Place::Idle));
        script.step(thief, 1);
    }
    for _ in 0..script.random.below(4) {
        whole_take(script);
    }
}

/// Thieves stand between noting the array and reading while the owner puts
/// until the array has grown, or can't; then they read and compare.
pub fn noted_before_growth(script: &mut Script) {
    whole_put(script);
    let mut waiting = Vec::new();
    for _ in 0..script.random.between(1, 3) {
        let Some(thief) = other_thief(script, &waiting) else { break };
        if script.idle(thief) {
            script.steal(thief);
        }
        script.step_until(thief, 20, |place| matches!(place, Place::Noted | Place::Idle));
        if script.random.chance(25) {
            let count = script.random.between(1, script.shape.payload_words);
            script.step(thief, count);
        }
        waiting.push(thief);
    }
    if !owner_idle(script) {
        return;
    }
    for _ in 0..40 {
        script.put();
        let growing =
            script.step_until(0, 20, |place| matches!(place, Place::Expanding | Place::Idle))
                && script.place(0) == Place::Expanding;
        if !growing {
            if !script.idle(0) {
                return;
            }
            continue;
        }
        // Somewhere within the growth, or when it is over.
        let count = script.random.between(1, 6);
        script.step(0, count);
        if script.random.chance(40) {
            if let Some(thief) = other_thief(script, &waiting) {
                whole_steal(script, thief);
            }
        }
        if script.random.chance(50) {
            script.step_until(0, 3000, |place| place != Place::Expanding);
        }
        break;
    }
    for &thief in &waiting {
        script.step_until(thief, 20, |place| matches!(place, Place::Last | Place::Idle));
        script.step(thief, 1);
    }
    script.finish(0);
}

/// The thieves empty the queue while the owner stands before X1 or X2.
pub fn emptied_before_x2(script: &mut Script) {
    if !owner_idle(script) {
        return;
    }
    for _ in 0..40 {
        script.put();
        script.step_until(0, 20, |place| matches!(place, Place::Expanding | Place::Idle));
        if script.place(0) == Place::Expanding {
            break;
        }
        if !script.idle(0) {
            return;
        }
    }
    let count = script.random.below(4);
    script.step(0, count);
    if let Some(thief) = script.thief() {
        for _ in 0..script.random.between(1, 12) {
            if !whole_steal(script, thief) {
                break;
            }
        }
    }
    script.finish(0);
}

/// Every thief stands before its compare; one wins, the others start again. Now
/// and then it is asked who was beaten.
pub fn race(script: &mut Script) {
    for _ in 0..script.random.between(1, 3) {
        whole_put(script);
    }
    for thief in 1..script.shape.crew {
        if script.idle(thief) {
            script.steal(thief);
        }
        script.step_until(thief, 20, |place| matches!(place, Place::Last | Place::Idle));
    }
    for _ in 0..script.shape.crew {
        if let Some(thief) = script.thief() {
            let count = script.random.between(1, 8);
            script.step(thief, count);
            if script.random.chance(20) {
                script.who(thief);
            }
        }
    }
    if script.random.chance(15) {
        script.all_counts();
    }
}

/// The owner stands before the last line of a take while a thief takes the task
/// that it has read and another one reads the anchor. Then the owner writes what
/// is there already (LIFO), and the other thief compares.
pub fn equal_value(script: &mut Script) {
    for _ in 0..script.random.between(2, 3) {
        whole_put(script);
    }
    let Some(first) = script.thief() else { return burst(script) };
    if !owner_idle(script) || !script.finish(first) {
        return;
    }
    script.take();
    script.step_until(0, 20, |place| matches!(place, Place::Last | Place::Idle));
    whole_steal(script, first);
    let other = other_thief(script, &[first]).unwrap_or(first);
    if !script.finish(other) {
        return;
    }
    script.steal(other);
    let count = script.random.between(1, script.shape.payload_words + 5);
    script.step_until(other, count, |place| matches!(place, Place::Last | Place::Idle));
    script.step(0, 1);
    script.step_until(other, 20, |place| matches!(place, Place::Last | Place::Idle));
    script.step(other, 1);
    if script.random.chance(50) {
        script.finish(other);
    }
}

/// Thieves' links fail at any line, now and then twice, or after the anchor was
/// written; then the thieves go on.
pub fn links_fail(script: &mut Script) {
    if !script.has_event() {
        return race(script);
    }
    for _ in 0..script.random.below(4) {
        whole_put(script);
    }
    for _ in 0..script.random.between(2, 10) {
        let Some(thief) = script.thief() else { return script.drop_link(0) };
        if script.idle(thief) {
            script.steal(thief);
        }
        // From none to the compare, or EMPTY.
        let count = script.random.below(script.shape.payload_words + 7);
        script.step_until(thief, count, |place| matches!(place, Place::Last | Place::Idle));
        match script.random.below(8) {
            0 => {
                whole_put(script);
            }
            1 => {
                whole_take(script);
            }
            2 => {
                if let Some(other) = other_thief(script, &[thief]) {
                    whole_steal(script, other);
                }
            }
            _ => {}
        }
        script.drop_link(thief);
        if script.random.chance(30) {
            script.drop_link(thief);
        }
        if script.random.chance(20) {
            let worker = script.random.below(script.shape.crew + 1);
            script.drop_link(worker);
        }
        if script.random.chance(50) {
            script.finish(thief);
        } else {
            let count = script.random.between(1, script.shape.payload_words + 6);
            script.step_until(thief, count, |place| place == Place::Idle);
        }
    }
}

/// Ask if none stands, and commit; whether it ended.
pub fn whole_commit(script: &mut Script) -> bool {
    if !owner_idle(script) {
        return false;
    }
    if !script.asked() {
        script.ask(0);
    }
    if !script.asked() {
        return false;
    }
    script.commit(0);
    script.finish(0)
}

/// Puts until one is at X1, which finds the ask as it stands; false if none comes
/// to it.
pub fn put_to_x1(script: &mut Script) -> bool {
    for _ in 0..40 {
        if !owner_idle(script) {
            return false;
        }
        script.put();
        script.step_until(0, 20, |place| matches!(place, Place::Expanding | Place::Idle));
        if script.place(0) == Place::Expanding {
            return true;
        }
    }
    false
}

/// The owner asks, and then a put has to grow the array.
pub fn ask_then_put(script: &mut Script) {
    if !owner_idle(script) {
        return;
    }
    script.ask(0);
    if script.random.chance(40) {
        script.ask(0);
    }
    if put_to_x1(script) {
        // Refused: it is busy.
        match script.random.below(6) {
            0 => script.ask(0),
            1 => script.drop_ask(0),
            2 => script.commit(0),
            _ => {}
        }
        let count = script.random.below(4);
        script.step_until(0, count, |place| place != Place::Expanding);
        script.finish(0);
    }
    if script.random.chance(50) {
        // The ask is gone.
        if script.random.chance(50) {
            script.drop_ask(0);
        } else {
            script.commit(0);
            script.finish(0);
        }
    }
}

/// The owner asks and commits, and the put after it need not grow.
pub fn ask_then_commit(script: &mut Script) {
    for _ in 0..40 {
        if script.full() || !whole_put(script) {
            break;
        }
    }
    if whole_commit(script) {
        for _ in 0..script.random.between(1, 4) {
            whole_put(script);
        }
    }
}

/// Thieves stand anywhere in their steals while the owner commits, and go on before,
/// between and after its lines.
pub fn commit_with_thieves(script: &mut Script) {
    for _ in 0..script.random.below(5) {
        whole_put(script);
    }
    let mut waiting = Vec::new();
    for _ in 0..script.random.between(1, 3) {
        let Some(thief) = other_thief(script, &waiting) else { break };
        if script.idle(thief) {
            script.steal(thief);
        }
        let count = script.random.below(script.shape.payload_words + 7);
        script.step_until(thief, count, |place| matches!(place, Place::Last | Place::Idle));
        waiting.push(thief);
    }
    if !owner_idle(script) {
        return;
    }
    if !script.asked() {
        script.ask(0);
    }
    script.commit(0);
    for _ in 0..20 {
        if script.idle(0) {
            break;
        }
        let count = script.random.between(1, 4);
        if !script.step_until(0, count, |place| place == Place::Idle) && script.random.chance(70) {
            if script.random.chance(50) {
                if let Some(thief) = other_thief(script, &waiting) {
                    whole_steal(script, thief);
                }
            } else if let Some(thief) = waiting.pop() {
                script.step_until(thief, 20, |place| matches!(place, Place::Last | Place::Idle));
                script.step(thief, 1);
            }
        }
        if script.random.chance(5) {
            let worker = script.random.below(script.shape.crew);
            script.drop_link(worker);
        }
    }
    script.finish(0);
    for &thief in &waiting {
        script.step_until(thief, 20, |place| matches!(place, Place::Last | Place::Idle));
        script.step(thief, 1);
    }
    for _ in 0..script.random.below(4) {
        whole_take(script);
    }
}

/// A commit of an empty queue: in FIFO and double-ended there is nothing to copy.
pub fn commit_empty(script: &mut Script) {
    for _ in 0..30 {
        if script.standing() == 0 || !whole_take(script) {
            break;
        }
    }
    if script.random.chance(30) {
        if let Some(thief) = script.thief() {
            if script.idle(thief) {
                script.steal(thief);
            }
            script.step(thief, 1);
        }
    }
    whole_commit(script);
    if script.random.chance(60) {
        whole_put(script);
    }
}

/// Commits follow each other while their notes wait, and an ask goes by the
/// youngest of them. Without delayed stores none waits.
pub fn commits_undrained(script: &mut Script) {
    let drains = script.drains;
    script.drains = Drains { now_and_then: 0, go_on: 100, sparing: true };
    for _ in 0..10 {
        if script.standing() == 0 || !whole_take(script) {
            break;
        }
    }
    if script.random.chance(70) {
        script.drain_all();
    }
    for _ in 0..script.random.between(2, 4) {
        if !whole_commit(script) {
            break;
        }
        if script.random.chance(30) {
            whole_put(script);
        }
        if script.random.chance(30) {
            if let Some(thief) = script.thief() {
                whole_steal(script, thief);
            }
        }
    }
    if owner_idle(script) {
        script.ask(0);
    }
    let notes = script.random.below(9);
    for _ in 0..notes {
        script.drain();
        if script.random.chance(30) {
            if let Some(thief) = script.thief() {
                whole_steal(script, thief);
            }
        }
    }
    script.drains = drains;
}

/// Asks and drops in turn, with operations between, and then a put or a commit.
pub fn drops_of_an_ask(script: &mut Script) {
    for _ in 0..script.random.between(1, 4) {
        if !owner_idle(script) {
            return;
        }
        script.ask(0);
        match script.random.below(4) {
            0 => {
                whole_put(script);
            }
            1 => {
                whole_take(script);
            }
            2 => {
                if let Some(thief) = script.thief() {
                    whole_steal(script, thief);
                }
            }
            _ => {}
        }
        script.drop_ask(0);
    }
    match script.random.below(3) {
        0 => {
            put_to_x1(script);
        }
        1 => script.commit(0),
        _ => script.drop_ask(0),
    }
    script.finish(0);
}

/// Commits until an ask is refused: the store is short, or the size is 1,024.
pub fn commit_to_the_end(script: &mut Script) {
    for _ in 0..12 {
        if !whole_commit(script) {
            break;
        }
    }
    if owner_idle(script) {
        script.ask(0);
    }
}

/// Ask, drop and commit that are refused, whoever is where.
pub fn asks_refused(script: &mut Script) {
    for _ in 0..script.random.between(3, 12) {
        let thief = script.random.below(script.shape.crew);
        let beyond = *script.random.pick(&[script.shape.crew, 8, 256, u32::MAX]);
        let worker = *script.random.pick(&[0, 0, 0, 0, thief, beyond]);
        match script.random.below(3) {
            0 => script.ask(worker),
            1 => script.drop_ask(worker),
            _ => script.commit(worker),
        }
        match script.random.below(10) {
            0..=2 => {
                let count = script.random.between(1, 3);
                script.step_until(0, count, |place| place == Place::Idle);
            }
            3 => begin(script, 0),
            4 => {
                script.finish(0);
            }
            _ => {}
        }
    }
}

/// One of the eight above.
pub fn asks(script: &mut Script) {
    match script.random.below(15) {
        0 | 1 => ask_then_put(script),
        2 | 3 => ask_then_commit(script),
        4..=6 => commit_with_thieves(script),
        7 => commit_empty(script),
        8 => commits_undrained(script),
        9 | 10 => drops_of_an_ask(script),
        11 => commit_to_the_end(script),
        _ => asks_refused(script),
    }
}

/// Any of those above.
pub fn any(script: &mut Script) {
    if script.has_event() && script.random.chance(12) {
        return asks(script);
    }
    match script.random.below(12) {
        0 | 1 => uniform(script),
        2 => burst(script),
        3 => fill(script),
        4 => drain(script),
        5 => owner_paused(script),
        6 => tag_comes_round(script),
        7 => noted_before_growth(script),
        8 => emptied_before_x2(script),
        9 => equal_value(script),
        10 => links_fail(script),
        _ => race(script),
    }
}

/// The owner works on without a drain until no store more can wait, with thieves
/// that see nothing of it; then the stores drain one by one, with thieves between.
pub fn held_back(script: &mut Script) {
    let drains = std::mem::take(&mut script.drains);
    for _ in 0..script.random.between(1, 6) {
        if script.idle(0) {
            begin(script, 0);
        }
        if !script.finish(0) {
            break;
        }
        if script.random.chance(40) {
            if let Some(thief) = script.thief() {
                whole_steal(script, thief);
            }
        }
    }
    let thieves_between = script.random.chance(60);
    for _ in 0..script.random.below(10) {
        script.drain();
        if thieves_between {
            if let Some(thief) = script.thief() {
                if script.idle(thief) {
                    script.steal(thief);
                }
                let count = script.random.between(1, script.shape.payload_words + 6);
                script.step_until(thief, count, |place| place == Place::Idle);
            }
        }
    }
    script.drains = drains;
}

/// Puts finish before a thief's line 1, in its attempt or after it, and their
/// stores drain when they may: it is the drains that its premise counts.
pub fn drained_in_an_attempt(script: &mut Script) {
    let drains = script.drains;
    // All of the puts finish before line 1 and drain behind it.
    let early = script.random.chance(50);
    script.drains = Drains { now_and_then: 0, go_on: 100, sparing: early };
    whole_put(script);
    script.drain_all();
    let Some(thief) = script.thief() else { return script.drains = drains };
    if !script.finish(thief) {
        return script.drains = drains;
    }
    // Takes and puts in turn bring the anchor back.
    let round = 1u32 << script.shape.width.min(3);
    for _ in 0..if early { round } else { script.random.below(3) } {
        whole_take(script);
        whole_put(script);
    }
    script.steal(thief);
    if early {
        script.step_until(thief, 20, |place| matches!(place, Place::Last | Place::Idle));
        script.drain_all();
    } else {
        for _ in 0..script.random.below(4) {
            script.drain();
        }
        let count = script.random.between(1, script.shape.payload_words + 5);
        script.step_until(thief, count, |place| matches!(place, Place::Last | Place::Idle));
        for _ in 0..script.random.below(1 + 2 * round) {
            whole_take(script);
            whole_put(script);
        }
        match script.random.below(4) {
            0 => {}
            1 | 2 => script.drain_all(),
            _ => script.some_drains(),
        }
        script.step_until(thief, 20, |place| matches!(place, Place::Last | Place::Idle));
        if script.random.chance(30) {
            script.drain_all();
        }
    }
    script.step(thief, 1);
    script.drains = drains;
}

/// The array grows, and its copies and its note wait while thieves are at work in
/// the old one; small arrays grow again before that.
pub fn growth_waits(script: &mut Script) {
    let drains = script.drains;
    script.drains = Drains { now_and_then: 0, go_on: 100, sparing: true };
    for _ in 0..64 {
        if script.full() || !whole_put(script) {
            break;
        }
    }
    if script.random.chance(80) {
        script.drain_all();
    }
    let mut paused = script.thief().filter(|_| script.shape.crew > 2);
    if let Some(thief) = paused {
        if script.idle(thief) {
            script.steal(thief);
        }
        let count = script.random.below(script.shape.payload_words + 6);
        script.step_until(thief, count, |place| matches!(place, Place::Last | Place::Idle));
    }
    // A FIFO thief that steals between the second growth's line 1 and X2 leaves so
    // little to copy that the first one's note still waits when the second's joins.
    if script.shape.kind == 2 && script.random.chance(60) {
        let Some(thief) = script.thief() else { return script.drains = drains };
        for growth in 1..=2 {
            script.put();
            script.step_until(0, 40, |place| matches!(place, Place::Expanding | Place::Idle));
            if growth == 2 {
                whole_steal(script, thief);
            }
            script.finish(0);
        }
    }
    for _ in 0..script.random.between(1, 4) {
        if !owner_idle(script) {
            break;
        }
        script.put();
        script.step_until(0, 40, |place| matches!(place, Place::Expanding | Place::Idle));
        // The fewer tasks X2 finds, the fewer copies push older stores out.
        if script.random.chance(50) {
            if let Some(thief) = other_thief(script, paused.as_slice()) {
                whole_steal(script, thief);
            }
        }
        script.step_until(0, 3000, |place| place != Place::Expanding);
        if script.random.chance(50) {
            if let Some(thief) = other_thief(script, paused.as_slice()) {
                whole_steal(script, thief);
            }
        }
        if script.random.chance(30) {
            if let Some(thief) = paused.take() {
                script.step_until(thief, 20, |place| matches!(place, Place::Last | Place::Idle));
                script.step(thief, 1);
            }
        }
        if script.random.chance(70) {
            script.finish(0);
        }
        if script.random.chance(20) {
            script.some_drains();
        }
    }
    if let Some(thief) = paused {
        script.step_until(thief, 20, |place| matches!(place, Place::Last | Place::Idle));
        if script.random.chance(50) {
            script.drain_all();
        }
        script.step(thief, 1);
    }
    script.drains = drains;
    script.finish(0);
    if script.random.chance(40) {
        whole_take(script);
    }
}

/// One of the three above, or commits whose notes wait.
pub fn delayed(script: &mut Script) {
    match script.random.below(10) {
        0..=2 => held_back(script),
        3..=5 => drained_in_an_attempt(script),
        6..=8 => growth_waits(script),
        _ => commits_undrained(script),
    }
}

/// Calls that are refused, whoever is where.
pub fn refusals(script: &mut Script) {
    for _ in 0..script.random.between(1, 10) {
        let beyond = match script.random.below(3) {
            0 => script.shape.crew,
            1 => script.random.between(8, 300),
            _ => script.random.word(),
        };
        match script.random.below(10) {
            0 => script.steal(0),
            1 => script.steal(beyond),
            2 => script.say(&format!("step {beyond} 1")),
            3 if script.random.chance(50) => script.say(&format!("step {beyond} 0")),
            3 => script.who(beyond),
            4 => script.put(),
            5 if script.random.chance(50) => script.put_of_other_length(),
            5 => script.take(),
            6 => {
                let worker = script.random.below(script.shape.crew);
                script.steal(worker);
            }
            7 => {
                let worker = script.random.below(script.shape.crew);
                script.step(worker, 0);
            }
            8 => {
                let thief = script.random.below(script.shape.crew);
                let worker = *script.random.pick(&[0, thief, beyond]);
                script.drop_link(worker);
            }
            _ => {
                for worker in 0..script.shape.crew {
                    if script.idle(worker) {
                        script.step(worker, 3);
                    }
                }
            }
        }
    }
}

pub fn damaged(script: &mut Script) {
    for _ in 0..script.random.between(1, 6) {
        let line = damage::line(&mut script.random);
        script.bytes(&line);
        if script.ended() {
            return;
        }
    }
}

/// Takes on an empty queue until the log has only `left` entries left.
pub fn fill_log(script: &mut Script, left: u32) {
    let until_empty = if script.shape.kind == 2 { 3 } else { 2 };
    while script.entries_left() > left {
        script.take();
        script.step(0, until_empty);
    }
}

/// Uses up what the log has left with the array full, or nearly so, and the
/// owner idle.
pub fn brim(script: &mut Script) {
    while !script.full() && script.entries_left() > 0 {
        if !whole_put(script) {
            return;
        }
    }
    while script.entries_left() > 0 {
        if !whole_take(script) || !whole_put(script) {
            return;
        }
    }
}

/// The log is full: everyone goes as far as there is a line that ends nothing.
pub fn past_the_log(script: &mut Script) {
    for worker in 0..script.shape.crew {
        if script.idle(worker) {
            script.step(worker, 1);
        }
    }
    for worker in 0..script.shape.crew {
        if script.idle(worker) {
            begin(script, worker);
        }
        script.finish(worker);
        script.step(worker, 2);
    }
}

/// One put more than the largest array holds, with nobody else at work. Where the
/// owner can ask, a commit may make that array.
pub fn past_the_largest_array(script: &mut Script) {
    if script.has_event() && script.random.chance(50) {
        commit_to_the_end(script);
    }
    for _ in 0..=LARGEST {
        if !whole_put(script) {
            return;
        }
    }
    if script.has_event() {
        script.ask(0);
    }
}

/// Puts and steals in turn: the head counts up, at the end past 2,047.
pub fn head_up(script: &mut Script) {
    let Some(thief) = script.thief() else { return burst(script) };
    for _ in 0..100 {
        if !whole_put(script) || !whole_steal(script, thief) {
            return;
        }
    }
}

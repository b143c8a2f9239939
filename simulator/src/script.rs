//! A run as it is being written: the bench program's input, or a list of library
//! calls. Each line is played as it is written, so that whoever writes it knows
//! where every worker stands and can pause one there.

use crate::bench::Shape;
use crate::calls::Calls;
use crate::outcome::Place;
use crate::play::Player;
use crate::random::Random;
use crate::witness::Blind;

/// What the text is for, and the one who plays it.
enum Form {
    Program(Player<Blind>),
    Calls(Calls<Blind>),
}

/// How many lines of a hundred have a `state`, a `front` and a `who` behind them.
/// Of these the program has a line for `who` alone.
#[derive(Clone, Copy, Default)]
pub struct Looks {
    pub state: u32,
    pub front: u32,
    pub who: u32,
}

/// How the stores of a bench that delays them drain. Without delayed stores
/// nothing is drawn for it.
#[derive(Clone, Copy, Default)]
pub struct Drains {
    /// After how many lines of a hundred, and steps of a line of steps, some do.
    pub now_and_then: u32,
    /// How many times of a hundred the owner goes on after 18, by drains.
    pub go_on: u32,
    /// One drain at a time then, and no more than it needs.
    pub sparing: bool,
}

/// What is done between two lines now and then, after so many of a hundred.
#[derive(Clone, Copy)]
pub struct Between {
    pub now_and_then: u32,
    pub act: fn(&mut Script),
}

/// A queue of a yard: how it was made, and how its stores drain.
#[derive(Clone, Copy)]
struct Stall {
    shape: Shape,
    drains: Drains,
}

pub struct Script {
    pub random: Random,
    /// The bench's, as the last accepted fresh made it; in a yard the queue's that
    /// the lines are for.
    pub shape: Shape,
    pub looks: Looks,
    pub drains: Drains,
    /// In a yard, where other queues may be called.
    pub between: Option<Between>,
    /// The queues made in a yard, and the number that the lines are for; none
    /// outside a yard.
    stalls: Vec<Stall>,
    queue: Option<u32>,
    form: Form,
    text: Vec<u8>,
    /// What the last line printed.
    heard: Vec<u8>,
    steps: u64,
    ended: bool,
}

impl Script {
    /// The bench program's input. Its `queue` is to be written yet.
    pub fn program(random: Random, shape: Shape) -> Script {
        Script::new(random, shape, Form::Program(Player::new(Blind)))
    }

    /// A list of library calls.
    pub fn calls(random: Random, store: u32, log: u32) -> Script {
        let none = Shape { payload_words: 1, ..Shape::default() };
        let mut script = Script::new(random, none, Form::Calls(Calls::new(Blind)));
        script.say(&format!("memory {store} {log}"));
        script
    }

    /// A list of library calls about queues on the same store.
    pub fn yard(random: Random, store: u32, log: u32) -> Script {
        Script { queue: Some(0), ..Script::calls(random, store, log) }
    }

    fn new(random: Random, shape: Shape, form: Form) -> Script {
        Script {
            random,
            shape,
            looks: Looks::default(),
            drains: Drains::default(),
            between: None,
            stalls: Vec::new(),
            queue: None,
            form,
            text: Vec::new(),
            heard: Vec::new(),
            steps: 0,
            ended: false,
        }
    }

    /// How many queues the yard has.
    pub fn queues(&self) -> u32 {
        self.stalls.len() as u32
    }

    /// The number of the queue that the lines are for.
    pub fn number(&self) -> usize {
        self.queue.unwrap_or(0) as usize
    }

    /// The lines from now on are for this queue, be it made or not.
    pub fn turn_to(&mut self, queue: u32) {
        let drains = self.drains;
        let number = self.number();
        if let Some(stall) = self.stalls.get_mut(number) {
            stall.drains = drains;
        }
        self.queue = Some(queue);
        if let Some(stall) = self.stalls.get(queue as usize) {
            self.shape = stall.shape;
            self.drains = stall.drains;
        }
    }

    /// One more queue; whether it is accepted. The lines from then on are for it.
    pub fn make(&mut self, shape: Shape, drains: Drains) -> bool {
        let Shape { kind, width, size, crew, payload_words, delayed, quota } = shape;
        let quota = quota.map_or(String::new(), |quota| format!(" {quota}"));
        let line = format!("make {kind} {width} {size} {crew} {payload_words} {}{quota}", u32::from(delayed));
        self.text.extend_from_slice(line.as_bytes());
        self.text.push(b'\n');
        self.play_line(line.as_bytes());
        self.steps += 1;
        let accepted = self.heard.first() == Some(&b'A');
        if accepted {
            self.stalls.push(Stall { shape, drains });
            self.turn_to(self.queues() - 1);
        }
        accepted
    }

    /// Now and then another queue is called, and the lines are for the same as
    /// before then.
    fn look_around(&mut self) {
        let Some(between) = self.between.take() else { return };
        if self.random.chance(between.now_and_then) {
            let queue = self.queue;
            (between.act)(self);
            if let Some(queue) = queue {
                self.turn_to(queue);
            }
        }
        self.between = Some(between);
    }

    /// Steps written so far; a line that makes none counts as one.
    pub fn steps(&self) -> u64 {
        self.steps
    }

    /// Whether nothing more will be read: an `end` was accepted, or a line of a
    /// list of calls is not of the form.
    pub fn ended(&self) -> bool {
        self.ended
    }

    /// Whether the current array is full.
    pub fn full(&self) -> bool {
        match &self.form {
            Form::Program(player) => player.full(),
            Form::Calls(calls) => calls.full(self.number()),
        }
    }

    /// How many more entries the log can take.
    pub fn entries_left(&self) -> u32 {
        match &self.form {
            Form::Program(player) => player.entries_left(),
            Form::Calls(calls) => calls.entries_left(self.number()),
        }
    }

    pub fn place(&self, worker: u32) -> Place {
        let place = match &self.form {
            Form::Program(player) => player.place(worker),
            Form::Calls(calls) => calls.place(self.number(), worker),
        };
        place.unwrap_or(Place::Idle)
    }

    pub fn idle(&self, worker: u32) -> bool {
        self.place(worker) == Place::Idle
    }

    /// A thief of the crew, if it has one.
    pub fn thief(&mut self) -> Option<u32> {
        (self.shape.crew > 1).then(|| self.random.between(1, self.shape.crew - 1))
    }

    /// Whether stores can wait here.
    pub fn delayed(&self) -> bool {
        self.shape.delayed
    }

    /// How many stores wait.
    pub fn waiting(&self) -> usize {
        match &self.form {
            Form::Program(_) => 0,
            Form::Calls(calls) => calls.waiting(self.number()),
        }
    }

    pub fn bytes(&mut self, line: &[u8]) {
        self.write(line);
        self.play(line);
        self.steps += 1;
        if self.delayed() && self.random.chance(self.drains.now_and_then) {
            self.some_drains();
        }
        self.look_around();
    }

    /// One drain, whether a store waits or not.
    pub fn drain(&mut self) {
        self.write(b"drain");
        self.play(b"drain");
        self.steps += 1;
    }

    /// One, a few, or all, and now and then one more.
    pub fn some_drains(&mut self) {
        let waiting = self.waiting() as u32;
        let count = match self.random.below(8) {
            0..=4 => 1,
            5 | 6 => self.random.between(1, 4),
            _ => waiting,
        };
        let over = u32::from(self.random.chance(3));
        for _ in 0..count.min(waiting) + over {
            self.drain();
        }
    }

    /// Until none waits.
    pub fn drain_all(&mut self) {
        while self.waiting() > 0 {
            self.drain();
        }
    }

    pub fn say(&mut self, line: &str) {
        self.bytes(line.as_bytes());
    }

    /// A library call; whether it is accepted.
    pub fn fresh(&mut self, shape: Shape) -> bool {
        let Shape { kind, width, size, crew, payload_words, delayed, .. } = shape;
        let sixth = match delayed {
            true => " 1",
            // It may be left out.
            false if self.random.chance(50) => "",
            false => " 0",
        };
        self.say(&format!("fresh {kind} {width} {size} {crew} {payload_words}{sixth}"));
        let accepted = self.heard.first() == Some(&b'A');
        if accepted {
            self.shape = shape;
        }
        accepted
    }

    /// Begins a put. The program has no line for a thief that puts, and wants as
    /// many words as its bench has; the library takes one to four.
    pub fn begin_put(&mut self, worker: u32) {
        let words = self.shape.payload_words;
        let line = match self.form {
            Form::Program(_) => format!("put{}", self.payload(words)),
            Form::Calls(_) => {
                let words = if self.random.chance(80) { words } else { self.random.between(1, 4) };
                format!("begin {worker} put{}", self.payload(words))
            }
        };
        self.say(&line);
    }

    /// A put with too few or too many words for the program, which refuses it.
    pub fn put_of_other_length(&mut self) {
        let words = self.shape.payload_words;
        if let Form::Calls(_) = self.form {
            return self.put();
        }
        let other = *self.random.pick(&[0, 1, 1, 2, 3, 4, 5, 5, 6, 20]);
        let other = if other == words { words + 1 } else { other };
        let line = format!("put{}", self.payload(other));
        self.say(&line);
    }

    /// Begins a take. The program has no line for a thief that takes.
    pub fn begin_take(&mut self, worker: u32) {
        match self.form {
            Form::Program(_) => self.say("take"),
            Form::Calls(_) => self.say(&format!("begin {worker} take")),
        }
    }

    /// So many payload words, each with a space before it. At times they are
    /// like another one's.
    pub fn payload(&mut self, words: u32) -> String {
        let mut text = String::new();
        for _ in 0..words {
            let word = match self.random.below(4) {
                0 => self.random.word(),
                1 => self.random.below(3),
                _ => self.random.below(1000),
            };
            text += &format!(" {word}");
        }
        text
    }

    pub fn put(&mut self) {
        self.begin_put(0);
    }

    pub fn take(&mut self) {
        self.begin_take(0);
    }

    pub fn steal(&mut self, worker: u32) {
        match self.form {
            Form::Program(_) => self.say(&format!("steal {worker}")),
            Form::Calls(_) => self.say(&format!("begin {worker} steal")),
        }
    }

    /// The link of `worker` fails. The program has no line for that: it refuses
    /// this one, and nothing changes.
    pub fn drop_link(&mut self, worker: u32) {
        self.say(&format!("drop {worker}"));
    }

    /// Words are set aside. The program has no line for this, for the drop of it or
    /// for a commit.
    pub fn ask(&mut self, worker: u32) {
        self.say(&format!("ask {worker}"));
    }

    pub fn drop_ask(&mut self, worker: u32) {
        self.say(&format!("unask {worker}"));
    }

    pub fn commit(&mut self, worker: u32) {
        self.say(&format!("begin {worker} commit"));
    }

    /// How many tasks are in the window.
    pub fn standing(&self) -> usize {
        match &self.form {
            Form::Program(_) => 0,
            Form::Calls(calls) => calls.standing(self.number()),
        }
    }

    /// Whether an ask stands.
    pub fn asked(&self) -> bool {
        match &self.form {
            Form::Program(_) => false,
            Form::Calls(calls) => calls.aside(self.number()) > 0,
        }
    }

    pub fn who(&mut self, worker: u32) {
        self.say(&format!("who {worker}"));
    }

    /// How often each of the crew was beaten.
    pub fn all_counts(&mut self) {
        for worker in 0..self.shape.crew {
            self.who(worker);
        }
    }

    /// Whether links can fail here, and the owner can ask and commit: the program
    /// has no line for it.
    pub fn has_event(&self) -> bool {
        matches!(self.form, Form::Calls(_))
    }

    /// The most steps that are worth asking for. The program stops at the first
    /// refusal; a library call answers each step.
    pub fn most_steps(&self) -> u32 {
        match self.form {
            Form::Program(_) => 65_535,
            Form::Calls(_) => 30,
        }
    }

    pub fn step(&mut self, worker: u32, count: u32) {
        self.say(&format!("step {worker} {count}"));
        self.steps += u64::from(count.min(40));
    }

    /// Steps `worker` until it stands as `there` asks, at most `most` times.
    /// Answers whether it does.
    pub fn step_until(&mut self, worker: u32, most: u32, there: impl Fn(Place) -> bool) -> bool {
        if self.delayed() {
            return self.step_and_drain_until(worker, most, there);
        }
        if self.between.is_some() {
            return self.step_and_look_around_until(worker, most, there);
        }
        let (made, refused) = self.play_until(worker, most, &there);
        self.write_steps(worker, made, refused);
        there(self.place(worker))
    }

    /// The same with other queues' calls between the steps.
    fn step_and_look_around_until(&mut self, worker: u32, most: u32, there: impl Fn(Place) -> bool) -> bool {
        let mut left = most;
        while left > 0 && !there(self.place(worker)) {
            let stretch = self.random.between(1, 20).min(left);
            let (made, refused) = self.play_until(worker, stretch, &there);
            self.write_steps(worker, made, refused);
            left -= made;
            if refused {
                break;
            }
            self.look_around();
        }
        there(self.place(worker))
    }

    /// The same with drains between the steps; with a line that is full the
    /// owner goes on after drains, or does not.
    fn step_and_drain_until(&mut self, worker: u32, most: u32, there: impl Fn(Place) -> bool) -> bool {
        let mut left = most;
        while left > 0 && !there(self.place(worker)) {
            // So many steps until some stores drain.
            let mut stretch = 1;
            while stretch < left && !self.random.chance(self.drains.now_and_then) {
                stretch += 1;
            }
            let (made, refused) = self.play_until(worker, stretch, &there);
            let line_full = self.heard.starts_with(b"R 18");
            self.write_steps(worker, made, refused);
            left -= made;
            if line_full && self.random.chance(self.drains.go_on) {
                self.drain();
                if !self.drains.sparing {
                    self.some_drains();
                }
            } else if refused {
                break;
            } else if made == stretch && stretch < left + made {
                self.some_drains();
            }
            self.look_around();
        }
        there(self.place(worker))
    }

    /// Plays steps of `worker` until it stands as `there` asks or is refused, at
    /// most so many; how many, and whether it was refused. They are not written.
    fn play_until(&mut self, worker: u32, most: u32, there: &impl Fn(Place) -> bool) -> (u32, bool) {
        let one = format!("step {worker} 1");
        let mut made = 0;
        while made < most && !there(self.place(worker)) {
            self.play(one.as_bytes());
            if self.heard.first() == Some(&b'R') {
                return (made, true);
            }
            made += 1;
        }
        (made, false)
    }

    /// Writes steps that were played.
    fn write_steps(&mut self, worker: u32, made: u32, refused: bool) {
        let one = format!("step {worker} 1");
        // The steps are played; they are written as a line or two, or one by
        // one. A refused one changed nothing and may be written or left out.
        let watched = self.looks.state > 20;
        if made > 0 {
            match self.random.below(4) {
                way if made <= 12 && (way == 0 || watched) => {
                    for _ in 0..made {
                        self.write(one.as_bytes());
                    }
                }
                1 if made > 1 => {
                    let first = self.random.between(1, made - 1);
                    self.write(format!("step {worker} {first}").as_bytes());
                    self.write(format!("step {worker} {}", made - first).as_bytes());
                }
                _ => self.write(format!("step {worker} {made}").as_bytes()),
            }
        }
        if refused && self.random.chance(20) {
            self.write(one.as_bytes());
        }
        self.steps += u64::from(made) + 1;
    }

    /// Steps `worker` until its operation has ended, if the log has room.
    pub fn finish(&mut self, worker: u32) -> bool {
        self.step_until(worker, 3000, |place| place == Place::Idle)
    }

    /// Text that is not played: what follows an `end`, or the very last line.
    pub fn unplayed(&mut self, bytes: &[u8]) {
        self.text.extend_from_slice(bytes);
    }

    pub fn drop_last_newline(&mut self) {
        if self.text.last() == Some(&b'\n') {
            self.text.pop();
        }
    }

    pub fn into_text(self) -> Vec<u8> {
        self.text
    }

    /// The queue's number in front of a line, in a yard.
    fn prefix(&self) -> String {
        self.queue.map_or(String::new(), |queue| format!("{queue} "))
    }

    fn write(&mut self, line: &[u8]) {
        let prefix = self.prefix();
        let mut write = |line: &[u8]| {
            self.text.extend_from_slice(prefix.as_bytes());
            self.text.extend_from_slice(line);
            self.text.push(b'\n');
        };
        write(line);
        // A look changes nothing, so it is written and need not be played.
        if self.looks.state > 0 && self.random.chance(self.looks.state) {
            write(b"state");
        }
        if self.looks.front > 0 && self.random.chance(self.looks.front) {
            write(b"front");
        }
        if self.looks.who > 0 && self.random.chance(self.looks.who) {
            // Of the crew, or just not.
            let worker = self.random.below(self.shape.crew + 1);
            write(format!("who {worker}").as_bytes());
        }
    }

    fn play(&mut self, line: &[u8]) {
        match self.prefix() {
            none if none.is_empty() => self.play_line(line),
            prefix => self.play_line(&[prefix.as_bytes(), line].concat()),
        }
    }

    fn play_line(&mut self, line: &[u8]) {
        self.heard.clear();
        if self.ended {
            return;
        }
        self.ended = !match &mut self.form {
            Form::Program(player) => player.line(line, &mut self.heard),
            Form::Calls(calls) => calls.line(line, &mut self.heard).expect("memory takes all"),
        };
    }
}

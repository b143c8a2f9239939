//! What a call answers.

use crate::task::Task;

/// The refusals that a listing, a list of calls or a hunt can show, by their numbers.
pub mod refusal {
    pub const UNKNOWN_QUEUE: u32 = 1;
    pub const TAG_WIDTH: u32 = 2;
    pub const ARRAY_SIZE: u32 = 3;
    pub const CREW: u32 = 4;
    pub const SHORT_STORE: u32 = 5;
    pub const NO_SUCH_WORKER: u32 = 6;
    pub const BUSY: u32 = 7;
    pub const IDLE: u32 = 8;
    pub const WRONG_HAND: u32 = 9;
    pub const NUMBERS_SPENT: u32 = 10;
    pub const LOG_FULL: u32 = 11;
    pub const FOREIGN_STATE: u32 = 12;
    pub const BAD_LINE: u32 = 13;
    pub const PAYLOAD_WORDS: u32 = 16;
    pub const NO_LINK: u32 = 17;
    pub const LINE_FULL: u32 = 18;
    pub const NONE_WAITING: u32 = 19;
    pub const NO_ROOM_TO_GROW: u32 = 20;
    pub const ASK_STANDS: u32 = 21;
    pub const NO_ASK: u32 = 22;
    pub const SHORT_QUOTA: u32 = 23;
    pub const NO_SUCH_QUEUE: u32 = 24;
    pub const MANY_OPERATIONS: u32 = 25;
    pub const LARGE_BUDGET: u32 = 26;
}

/// What one step did. A machine that answers `Refused` has changed nothing.
#[derive(Clone, Copy, Debug, PartialEq, Eq)]
pub enum Outcome {
    /// The operation goes on at its next line.
    GoesOn,
    /// The compare failed, by the anchor or for want of a link, and the steal
    /// goes on at line 1 again: a restart.
    Restarted,
    /// X4 of a put: it goes on at line 1 again, and counts as no restart.
    Published,
    /// X4 of a commit: it has ended.
    Committed,
    /// A put finished.
    Finished(Task),
    /// A take or a steal was handed a task.
    HandedOut(Task),
    /// A take or a steal found nothing.
    Empty,
    /// X1 could not claim an array. (Of a commit, which never answers so, it would
    /// be with a task of zeros.)
    Full(Task),
    Refused(u32),
}

/// How far a worker is, told coarsely: for writing runs that pause a worker at
/// a chosen place. Nothing in a listing depends on it.
#[derive(Clone, Copy, Debug, PartialEq, Eq)]
pub enum Place {
    Idle,
    /// Some line before those named below.
    Underway,
    /// A thief has noted an array and has yet to read its first word there.
    Noted,
    /// The next line would end the operation: the owner's write of the anchor,
    /// head or tail, or a thief's compare.
    Last,
    /// The owner is at X1, X2, X3 or X4, of a put or of a commit.
    Expanding,
}

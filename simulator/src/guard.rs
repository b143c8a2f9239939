//! What the compare of a steal goes by, in the queues with an anchor: a tag that
//! is a part of the anchor, or a link to it. A linked queue (kinds 4 and 5) has
//! no tag: the word for it stays 0.

#[derive(Clone, Debug, PartialEq, Eq)]
pub enum Guard {
    /// With the largest tag, 2^w − 1.
    Tag { largest: u32 },
    /// With who holds a link, by worker number.
    Links { held: [bool; 8] },
}

impl Guard {
    /// A tag of so many bits.
    pub fn tag(width: u32) -> Guard {
        Guard::Tag { largest: (1 << width) - 1 }
    }

    pub fn links() -> Guard {
        Guard::Links { held: [false; 8] }
    }

    /// The tag that a put writes after reading this one.
    pub fn next_tag(&self, tag: u32) -> u32 {
        match *self {
            Guard::Tag { largest } if tag < largest => tag + 1,
            _ => 0,
        }
    }

    /// Line 1 of a steal.
    pub fn thief_reads(&mut self, worker: usize) {
        if let Guard::Links { held } = self {
            held[worker] = true;
        }
    }

    /// EMPTY ends the attempt, and with it the link. (A hand-out writes the
    /// anchor, and a compare fails only without a link.)
    pub fn attempt_ends(&mut self, worker: usize) {
        self.drop_link(worker);
    }

    /// The anchor is written, be it with the value that it had: every link is
    /// broken.
    pub fn anchor_written(&mut self) {
        if let Guard::Links { held } = self {
            *held = [false; 8];
        }
    }

    /// Whether the compare of `worker` succeeds, by the link alone or by whether
    /// the anchor is what line 1 read.
    pub fn succeeds(&self, worker: usize, as_read: bool) -> bool {
        match self {
            Guard::Tag { .. } => as_read,
            Guard::Links { held } => {
                debug_assert!(as_read || !held[worker], "a link outlived a write of the anchor");
                held[worker]
            }
        }
    }

    /// The link of `worker` is gone; answers whether there was one.
    pub fn drop_link(&mut self, worker: usize) -> bool {
        match self {
            Guard::Tag { .. } => false,
            Guard::Links { held } => std::mem::replace(&mut held[worker], false),
        }
    }
}

#[cfg(test)]
mod tests {
    use super::*;

    #[test]
    fn a_tag_comes_round_and_a_linked_queue_has_none() {
        let tag = Guard::tag(2);
        assert_eq!([0, 1, 2, 3].map(|g| tag.next_tag(g)), [1, 2, 3, 0]);
        assert_eq!([0, 65_534, 65_535].map(|g| Guard::tag(16).next_tag(g)), [1, 65_535, 0]);
        assert_eq!(Guard::links().next_tag(0), 0);
    }

    #[test]
    fn a_link_is_held_until_it_is_dropped_ended_or_the_anchor_written() {
        let mut guard = Guard::links();
        assert!(!guard.succeeds(1, true), "none was set");
        guard.thief_reads(1);
        guard.thief_reads(7);
        assert!(guard.succeeds(1, true) && guard.succeeds(7, true));
        assert!(!guard.succeeds(2, true), "a link is one worker's own");
        assert!(guard.drop_link(1));
        assert!(!guard.drop_link(1));
        assert!(!guard.succeeds(1, true) && guard.succeeds(7, true));
        guard.attempt_ends(7);
        assert!(!guard.succeeds(7, true));
        guard.thief_reads(1);
        guard.thief_reads(2);
        guard.anchor_written();
        assert_eq!(guard, Guard::links());
    }

    #[test]
    fn with_a_tag_nobody_holds_a_link() {
        let mut guard = Guard::tag(1);
        guard.thief_reads(1);
        assert!(!guard.drop_link(1));
        guard.anchor_written();
        assert!(guard.succeeds(1, true));
        assert!(!guard.succeeds(1, false));
    }
}

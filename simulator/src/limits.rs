//! Refusal 12's limits on what is shared, which no state reached from fresh may
//! break: the directory, the queue as memory has it with the array that thieves
//! read, the queue as the owner reads it with the array that the owner reads, the
//! waiting line with its stores, and the words set aside.
//!
//! A drain can come at any time, so the limits on the queue have to hold as well
//! with any front of the waiting line put down.

use std::fmt;
use std::ops::Range;

use crate::bench::{Bench, Shape, LAST_NUMBER};
use crate::found::Found;
use crate::rooms;
use crate::settled::{places, waiting};
use crate::store::LARGEST;
use crate::waiting::{Waiting, LONGEST};
use crate::witness::{Cause, Shown, Witness};

/// FIFO's last tail, and as many heads as figure 3 has.
const LAST_TAIL: u32 = 65_535;
const HEADS: u32 = 2048;

#[derive(Default)]
pub struct Limits {
    shape: Option<Shape>,
    found: Found,
}

impl Limits {
    pub fn is_wrong(&self) -> bool {
        self.found.is_wrong()
    }
}

impl fmt::Display for Limits {
    fn fmt(&self, text: &mut fmt::Formatter<'_>) -> fmt::Result {
        self.found.tell(text, "limits kept", "limits broken")
    }
}

impl Witness for Limits {
    fn fresh(&mut self, shape: Shape) {
        self.shape = Some(shape);
    }

    fn call(&mut self) {
        self.found.call();
    }

    fn watches(&self) -> bool {
        true
    }

    fn after(&mut self, _cause: Cause, shown: &Shown) {
        let Some(shape) = self.shape else { return };
        if !self.is_wrong() {
            self.found.note(kept(shape, shown));
        }
    }
}

fn need(kept: bool, what: impl FnOnce() -> String) -> Result<(), String> {
    if kept {
        Ok(())
    } else {
        Err(what())
    }
}

/// All of them; else which one is broken.
fn kept(shape: Shape, shown: &Shown) -> Result<(), String> {
    let count = waiting(shown.store).count();
    let most = if shape.delayed { LONGEST } else { 0 };
    need(count <= most, || format!("{count} stores wait"))?;
    directory(shape, shown)?;
    fits(shape, shown)?;
    let arrays = shown.store.arrays();
    let mut published = shown.store.published();
    let mut anchor = shown.anchor;
    need(1 <= published && published <= arrays.len(), || format!("{published} arrays are published"))?;
    queue(shape, anchor, arrays[published - 1].size)?;
    for &store in waiting(shown.store) {
        waiting_store(shape, shown, store)?;
        match store {
            Waiting::Word { .. } => {}
            Waiting::Note { published: noted } => {
                need(noted == published + 1, || format!("a note of {noted} arrays follows {published}"))?;
                published = noted;
            }
            Waiting::Anchor(next) => anchor = next,
            Waiting::Head(head) => anchor[0] = head,
            Waiting::Tail(tail) => anchor[1] = tail,
        }
        queue(shape, anchor, arrays[published - 1].size)?;
    }
    // What the notes wait for counts as published.
    let claimed = published + usize::from(shown.copying);
    need(arrays.len() == claimed, || {
        format!("{} arrays are claimed, {published} published for the owner", arrays.len())
    })?;
    set_aside(shape, shown, arrays[published - 1].size)
}

/// The words set aside are what an ask would set aside, with the size of the array
/// that the owner reads. There are none at X2 to X4, and some at a commit's X1.
fn set_aside(shape: Shape, shown: &Shown, size: u32) -> Result<(), String> {
    let aside = shown.store.aside();
    let right = 2 * size <= LARGEST && aside == 2 * size * (shape.payload_words + 1);
    need(aside == 0 || right, || format!("{aside} words are set aside with an array of {size}"))?;
    need(aside == 0 || !shown.copying, || format!("{aside} words are set aside at X2 to X4"))?;
    need(aside > 0 || !shown.commits, || "none are set aside at a commit's X1".to_string())
}

/// Each array twice the one before, and behind it. With those of the other queues
/// they are laid end to end from offset 0.
fn directory(shape: Shape, shown: &Shown) -> Result<(), String> {
    let mut size = shape.size;
    let mut end = 0;
    for &array in shown.store.arrays() {
        need(array.size == size && size <= LARGEST && end <= array.offset as usize, || format!("array {array:?}"))?;
        size *= 2;
        end = places(array, shape.payload_words).end;
    }
    let mut all: Vec<Range<usize>> = Vec::new();
    for store in shown.neighbours.iter().map(Bench::store).chain([shown.store]) {
        all.extend(store.arrays().iter().map(|&array| places(array, store.payload_words())));
    }
    all.sort_by_key(|places| places.start);
    let mut next = 0;
    for places in all {
        need(places.start == next, || format!("the array at word {} with {next} words below", places.start))?;
        next = places.end;
    }
    Ok(())
}

/// Words claimed and words set aside fit: the queue's own its quota, those of all
/// queues the store, of which no more than the first 10,235 are used.
fn fits(shape: Shape, shown: &Shown) -> Result<(), String> {
    let (claimed, aside) = rooms::used(shown.store);
    let words = shown.store.words().len() as u32;
    let quota = rooms::quota(shape, words);
    need(claimed + aside <= quota, || format!("{claimed} words and {aside} set aside with a quota of {quota}"))?;
    let others: u32 = shown.neighbours.iter().map(|queue| rooms::used(queue.store())).map(|(one, other)| one + other).sum();
    let all = claimed + aside + others;
    need(all <= words.min(rooms::USABLE), || format!("{all} words of {words} are claimed or set aside"))
}

/// The queue's own, with the size of the array it is read with.
fn queue(shape: Shape, anchor: [u32; 3], size: u32) -> Result<(), String> {
    let [first, second, tag] = anchor;
    let tags = if matches!(shape.kind, 1 | 3) { 1 << shape.width } else { 1 };
    let within = match shape.kind {
        1 | 4 => first == 0 && second <= size,
        2 => first <= second && second <= LAST_TAIL && second - first <= size,
        _ => first < HEADS && second <= size,
    };
    need(within && tag < tags, || format!("the anchor {anchor:?} with an array of {size}"))
}

fn waiting_store(shape: Shape, shown: &Shown, store: Waiting) -> Result<(), String> {
    let fifo = shape.kind == 2;
    let arrays = shown.store.arrays();
    let within = match store {
        Waiting::Word { array, slot, word, value } => {
            array < arrays.len()
                && slot < arrays[array].size
                && word <= shape.payload_words as usize
                && (word > 0 || value <= LAST_NUMBER)
        }
        // Not the one that is claimed and unpublished.
        Waiting::Note { published } => published <= arrays.len() - usize::from(shown.copying),
        Waiting::Anchor(_) => !fifo,
        Waiting::Head(_) | Waiting::Tail(_) => fifo,
    };
    need(within, || format!("the waiting store {store:?}"))
}

#[cfg(test)]
mod tests {
    use super::*;
    use crate::store::{Array, Others, Store};
    use crate::yard::Neighbours;

    fn shape(kind: u32) -> Shape {
        Shape { kind, width: 1, size: 1, crew: 2, payload_words: 1, delayed: true, quota: None }
    }

    /// A bench whose first array holds one task, with a second array of two tasks
    /// claimed, and with these stores waiting.
    fn kept_with(kind: u32, anchor: [u32; 3], stores: &[Waiting], copying: bool) -> bool {
        let mut store = Store::fresh(vec![0; 6], 1, 1).with_line(true);
        store.claim(store.next_array().unwrap());
        for &waiting in stores {
            store.line_mut().join(waiting);
        }
        kept(shape(kind), &Shown { anchor, restarts: &[0; 8], store: &store, copying, commits: false, neighbours: Neighbours::default() }).is_ok()
    }

    const NOTE: Waiting = Waiting::Note { published: 2 };

    #[test]
    fn an_array_whose_note_waits_counts_as_published() {
        for kind in 1..=5 {
            assert!(kept_with(kind, [0; 3], &[NOTE], false));
            assert!(!kept_with(kind, [0; 3], &[NOTE], true));
            assert!(kept_with(kind, [0; 3], &[], true));
            assert!(!kept_with(kind, [0; 3], &[], false));
            assert!(!kept_with(kind, [0; 3], &[Waiting::Note { published: 3 }], false));
            assert!(!kept_with(kind, [0; 3], &[Waiting::Note { published: 1 }], true));
        }
    }

    #[test]
    fn memory_goes_by_the_array_of_the_thieves_and_the_owner_by_its_own() {
        let put = Waiting::Anchor([0, 2, 1]);
        assert!(kept_with(1, [0, 1, 0], &[NOTE, put], false));
        assert!(!kept_with(1, [0, 2, 0], &[NOTE], false), "t of memory above its array");
        assert!(!kept_with(1, [0, 1, 0], &[put, NOTE], false), "t would come before its array");
        assert!(!kept_with(1, [0, 1, 0], &[NOTE, Waiting::Anchor([0, 3, 1])], false));
        assert!(kept_with(2, [4, 5, 0], &[NOTE, Waiting::Tail(6)], false));
        assert!(!kept_with(2, [4, 6, 0], &[NOTE], false));
        assert!(!kept_with(2, [4, 5, 0], &[NOTE, Waiting::Tail(7)], false));
        assert!(kept_with(2, [4, 4, 0], &[Waiting::Tail(5), Waiting::Head(5), NOTE], false));
        assert!(!kept_with(2, [4, 4, 0], &[Waiting::Head(5), Waiting::Tail(5), NOTE], false));
        assert!(!kept_with(2, [0, 65_536, 0], &[NOTE], false));
    }

    #[test]
    fn a_waiting_store_has_a_place_and_a_value_of_its_kind() {
        let word = |array, slot, word, value| Waiting::Word { array, slot, word, value };
        for kind in 1..=5 {
            let alone = |store| kept_with(kind, [0; 3], &[store], true);
            assert!(alone(word(0, 0, 0, 65_535)) && alone(word(1, 1, 1, u32::MAX)));
            for wrong in [word(0, 0, 0, 65_536), word(0, 1, 0, 1), word(1, 2, 0, 1), word(2, 0, 0, 1), word(0, 0, 2, 1)] {
                assert!(!alone(wrong), "{wrong:?}");
            }
            assert_eq!(alone(Waiting::Anchor([0, 1, 0])), kind != 2);
            assert_eq!(alone(Waiting::Tail(1)), kind == 2);
            assert_eq!(alone(Waiting::Head(0)), kind == 2);
            assert!(!alone(Waiting::Head(1)), "past the tail");
            assert_eq!(alone(Waiting::Anchor([2047, 1, 0])), matches!(kind, 3 | 5));
            assert!(!alone(Waiting::Anchor([2048, 1, 0])));
            assert_eq!(alone(Waiting::Anchor([0, 1, 1])), matches!(kind, 1 | 3), "no tag with links");
            assert!(!alone(Waiting::Anchor([0, 1, 2])));
        }
    }

    /// A bench whose first array holds `size` tasks of one payload word, of so many
    /// words, which asked while it had `asked_with` of them. It claims and waits with
    /// a note if it is to.
    fn kept_aside(size: u32, words: usize, asked_with: usize, claims: bool, [notes, copying, commits]: [bool; 3]) -> bool {
        let mut store = Store::fresh(vec![0; asked_with], size, 1).with_line(true);
        assert!(store.set_aside());
        let aside = store.aside();
        let mut store = Store::fresh(vec![0; words], size, 1).with_line(true);
        if claims {
            store.claim(store.next_array().unwrap());
            if notes {
                store.line_mut().join(NOTE);
            }
        }
        store.have_aside(aside);
        let shape = Shape { size, ..shape(1) };
        kept(shape, &Shown { anchor: [0; 3], restarts: &[0; 8], store: &store, copying, commits, neighbours: Neighbours::default() }).is_ok()
    }

    #[test]
    fn words_set_aside_are_an_asks_fit_and_do_not_stand_while_copying() {
        for commits in [false, true] {
            assert!(kept_aside(1, 6, 6, false, [false, false, commits]));
            assert!(!kept_aside(1, 5, 6, false, [false, false, commits]), "they no longer fit");
            assert!(!kept_aside(1, 14, 6, true, [true, false, commits]), "of the size before");
            assert!(!kept_aside(1, 14, 6, true, [false, true, commits]), "X2 to X4");
        }
        assert!(kept_aside(512, 3072, 3072, false, [false; 3]));
        assert!(!kept_aside(512, 3071, 3072, false, [false; 3]));
        // Of another size, of none, and of one above the largest.
        let with = |size: u32, aside, commits| {
            let mut store = Store::fresh(vec![0; 10_300], size, 1).with_line(true);
            store.have_aside(aside);
            let shown = Shown { anchor: [0; 3], restarts: &[0; 8], store: &store, copying: false, commits, neighbours: Neighbours::default() };
            kept(Shape { size, ..shape(1) }, &shown).is_ok()
        };
        for size in [1, 2, 512] {
            let right = 4 * size;
            assert!(with(size, right, false) && with(size, right, true));
            for wrong in [1, right / 2, right - 1, right + 1, 2 * right] {
                assert!(!with(size, wrong, false), "{wrong} with {size}");
            }
            assert!(with(size, 0, false));
            assert!(!with(size, 0, true), "none at a commit's X1");
        }
        assert!(!with(1024, 4096, false));
    }

    #[test]
    fn eight_may_wait_and_none_without_the_mode() {
        let store = Waiting::Word { array: 0, slot: 0, word: 0, value: 1 };
        assert!(kept_with(1, [0; 3], &[store; 8], true));
        assert!(!kept_with(1, [0; 3], &[store; 9], true));
        let mut waits = Store::fresh(vec![0; 2], 1, 1).with_line(true);
        let shown = |store: &Store, delayed| {
            let shape = Shape { delayed, ..shape(1) };
            kept(shape, &Shown { anchor: [0; 3], restarts: &[0; 8], store, copying: false, commits: false, neighbours: Neighbours::default() }).is_ok()
        };
        assert!(shown(&waits, false));
        waits.line_mut().join(store);
        assert!(shown(&waits, true));
        assert!(!shown(&waits, false));
    }

    /// A queue whose arrays are those that it claims with so many words below it,
    /// beside others of one array each, with this quota.
    fn kept_beside(others: &[(u32, u32)], claims: &[u32], aside: u32, quota: u32, words: usize) -> bool {
        let shape = Shape { delayed: false, quota: Some(quota), ..shape(2) };
        let neighbours: Vec<Bench> = others
            .iter()
            .map(|&(claimed, aside)| {
                let mut lent = vec![0; words];
                let mut bench = Bench::beside(Others { claimed, aside: 0 }, shape, &mut lent).unwrap();
                if aside > 0 {
                    bench.lend(vec![0; 100], Others::default());
                    bench.ask(0).unwrap();
                }
                bench
            })
            .collect();
        let mut store = Store::beside(Others { claimed: claims[0], aside: 0 }, vec![0; words], 99, 1, 1);
        for (&offset, size) in claims[1..].iter().zip([2, 4]) {
            store.claim(Array { offset, size });
            store.put_down(store.note_of_claimed());
        }
        store.have_aside(aside);
        let neighbours = Neighbours::of(&neighbours);
        let shown = Shown { anchor: [0; 3], restarts: &[0; 8], store: &store, copying: false, commits: false, neighbours };
        kept(shape, &shown).is_ok()
    }

    #[test]
    fn arrays_of_several_queues_cover_the_words_below_the_last() {
        let kept = |others: &[(u32, u32)], claims: &[u32]| kept_beside(others, claims, 0, 50, 40);
        assert!(kept(&[(0, 0)], &[2]));
        assert!(kept(&[(2, 0)], &[0]));
        assert!(kept(&[(2, 0)], &[0, 4]));
        assert!(kept(&[(2, 0), (8, 0)], &[0, 4, 10]));
        assert!(!kept(&[(0, 0)], &[0]), "one upon the other");
        assert!(!kept(&[(1, 0)], &[0]), "they overlap");
        assert!(!kept(&[(2, 0)], &[0, 2]), "the second is another's");
        assert!(!kept(&[(2, 0)], &[0, 3]));
        assert!(!kept(&[(3, 0)], &[0]), "a gap");
        assert!(!kept(&[(2, 0)], &[0, 5]));
        assert!(!kept(&[], &[2]), "a gap below all");
        assert!(!kept(&[], &[4, 0]), "not by age");
    }

    #[test]
    fn words_claimed_and_set_aside_fit_quota_and_store() {
        assert!(kept_beside(&[(0, 0)], &[2], 4, 6, 8));
        assert!(!kept_beside(&[(0, 0)], &[2], 4, 5, 8), "over its quota");
        assert!(!kept_beside(&[(0, 0)], &[2], 4, 6, 7), "over the store");
        assert!(kept_beside(&[(0, 4)], &[2], 4, 6, 12));
        assert!(!kept_beside(&[(0, 4)], &[2], 4, 6, 11), "another's words set aside");
        assert!(kept_beside(&[(0, 0)], &[2, 4], 0, 6, 8));
        assert!(!kept_beside(&[(0, 0)], &[2, 4], 0, 5, 8));
    }
}

//! A task: its put number and 1 to 4 payload words, as many as the bench has.

/// The most payload words of a task.
pub const MOST_PAYLOAD: usize = 4;

/// What a put is given. A bench looks at its first words alone, at as many as it
/// has payload words.
pub type Payload = [u32; MOST_PAYLOAD];

/// Word 0 is the put number, word k the k-th payload word. Words past those that
/// the bench has are 0, so that two tasks are equal if all their words are.
#[derive(Clone, Copy, Debug, Default, PartialEq, Eq)]
pub struct Task(pub [u32; MOST_PAYLOAD + 1]);

impl Task {
    /// With only the first words of the payload, so many of them.
    pub fn new(number: u32, payload: Payload, payload_words: u32) -> Task {
        let mut words = [0; MOST_PAYLOAD + 1];
        words[0] = number;
        let count = payload_words as usize;
        words[1..=count].copy_from_slice(&payload[..count]);
        Task(words)
    }

    pub fn number(&self) -> u32 {
        self.0[0]
    }

    /// The put number and so many payload words.
    pub fn words(&self, payload_words: u32) -> &[u32] {
        &self.0[..=payload_words as usize]
    }
}

#[cfg(test)]
mod tests {
    use super::*;

    #[test]
    fn words_past_the_count_are_not_looked_at() {
        for count in 1..=4 {
            let task = Task::new(7, [1, 2, 3, 4], count);
            assert_eq!(task.number(), 7);
            assert_eq!(task.words(count), &[7, 1, 2, 3, 4][..=count as usize]);
            let mut other = [1, 2, 3, 4];
            other[count as usize..].fill(9);
            assert_eq!(task, Task::new(7, other, count));
        }
    }
}

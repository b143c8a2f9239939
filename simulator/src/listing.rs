//! A line of output.

use crate::task::MOST_PAYLOAD;

/// Puts a line behind `listing`: a letter and its values in base ten, each with
/// one space before it. The sum of the restarts is more than a word can hold.
pub fn print<Value: Copy + Into<u64>>(listing: &mut Vec<u8>, letter: u8, values: &[Value]) {
    listing.push(letter);
    for &value in values {
        listing.push(b' ');
        let mut digits = [0; 20];
        let mut first = digits.len();
        let mut rest: u64 = value.into();
        loop {
            first -= 1;
            digits[first] = b'0' + (rest % 10) as u8;
            rest /= 10;
            if rest == 0 {
                break;
            }
        }
        listing.extend_from_slice(&digits[first..]);
    }
    listing.push(b'\n');
}

/// The line `H`: the worker and the words of the task it was handed.
pub fn print_hand_out(listing: &mut Vec<u8>, worker: u32, task: &[u32]) {
    let mut values = [0; MOST_PAYLOAD + 2];
    values[0] = worker;
    values[1..=task.len()].copy_from_slice(task);
    print(listing, b'H', &values[..=task.len()]);
}

#[cfg(test)]
mod tests {
    use super::*;

    #[test]
    fn values_in_base_ten_parted_by_one_space() {
        let mut listing = b"D 1\n".to_vec();
        print::<u32>(&mut listing, b'L', &[]);
        print(&mut listing, b'H', &[0, 10, u32::MAX]);
        print(&mut listing, b'T', &[0, 34_359_738_360, u64::MAX]);
        assert_eq!(listing, b"D 1\nL\nH 0 10 4294967295\nT 0 34359738360 18446744073709551615\n");
    }

    #[test]
    fn a_hand_out_shows_all_words() {
        let mut listing = Vec::new();
        print_hand_out(&mut listing, 7, &[1, 65]);
        print_hand_out(&mut listing, 0, &[1, 2, 3, 4, 5]);
        assert_eq!(listing, b"H 7 1 65\nH 0 1 2 3 4 5\n");
    }
}

//! Lines that are none of the given forms, or only just are.

use crate::random::Random;

/// Words of a valid line of any kind, right or wrong for the moment.
fn valid(random: &mut Random) -> Vec<u8> {
    match random.below(6) {
        0 => {
            // Too few or too many words for a bench, most times.
            let mut line = "put".to_string();
            for _ in 0..*random.pick(&[0, 1, 1, 2, 3, 4, 5]) {
                line += &format!(" {}", random.word());
            }
            line
        }
        1 => "take".to_string(),
        2 => format!("steal {}", random.below(9)),
        3 => "end".to_string(),
        4 => {
            let sixth = *random.pick(&["", "", " 1", " 2", " 3", " 4", " 0", " 5", " 4294967295", " 1 1"]);
            format!(
                "queue {} {} {} {} {}{sixth}",
                *random.pick(&[1, 2, 3, 4, 5, 0, 6, u32::MAX]),
                random.between(1, 16),
                1 << random.below(11),
                random.between(1, 8),
                random.below(10_236)
            )
        }
        5 if random.chance(30) => format!("who {}", random.below(9)),
        // The library's alone.
        5 if random.chance(20) => {
            let call = *random.pick(&["drop", "ask", "unask"]);
            format!("{call} {}", random.below(9))
        }
        5 if random.chance(5) => random.pick(&["commit", "begin 0 commit", "drain"]).to_string(),
        _ => format!("step {} {}", random.below(8), random.below(7)),
    }
    .into_bytes()
}

/// A place in `line` where a value starts, or its end.
fn value_start(random: &mut Random, line: &[u8]) -> usize {
    let starts: Vec<usize> =
        (1..line.len()).filter(|&at| line[at - 1] == b' ').collect();
    if starts.is_empty() {
        line.len()
    } else {
        *random.pick(&starts)
    }
}

/// A damaged line. Now and then the damage leaves it valid, which is as good.
pub fn line(random: &mut Random) -> Vec<u8> {
    let mut line = valid(random);
    // An `end` let through would end the run, so it is never left as it is.
    let at = value_start(random, &line);
    match random.below(24) {
        0 => line.insert(at, b'0'),
        1 => line.insert(at, b'+'),
        2 => line.insert(at, b'-'),
        3 => line.insert(at, b' '),
        4 => line.push(b' '),
        5 => line.insert(0, b' '),
        6 => line.push(b'\r'),
        7 => line.insert(at, b'\t'),
        8 => {
            for byte in &mut line {
                if *byte == b' ' {
                    *byte = b'\t';
                }
            }
            line.push(b'\t');
        }
        9 => line.push(0),
        10 => line.insert(at, 0),
        11 => line.push(random.between(128, 255) as u8),
        12 => line.insert(0, random.between(128, 255) as u8),
        13 => line.clear(),
        14 => {
            // The last value, or the last letter, is missing.
            line.truncate(at.min(line.len() - 1));
        }
        15 => line.extend(format!(" {}", random.below(10)).bytes()),
        16 => {
            let above = *random.pick(&[
                "4294967296",
                "4294967297",
                "4294967299",
                "10000000000",
                "18446744073709551616",
                "18446744073709551617",
                "340282366920938463463374607431768211457",
            ]);
            line.truncate(at);
            if line.last() != Some(&b' ') {
                line.push(b' ');
            }
            line.extend(above.bytes());
        }
        17 => line = format!("step {} {}", random.below(8), random.between(65_536, 65_540)).into(),
        18 => {
            let words = random.between(10_236, 11_000);
            line = format!("queue {} 4 1 2 {words}", random.between(1, 5)).into();
        }
        19 => line[0] = line[0].to_ascii_uppercase(),
        20 => {
            // Very long, and at times one byte about a buffer's length.
            let length = match random.below(5) {
                0 => *random.pick(&[4095, 4096, 4097, 8191, 8192, 8193]),
                1 => random.between(1000, 20_000),
                _ => random.between(50, 300),
            };
            let filler = *random.pick(b" 0x9\0\xff\r");
            line.extend(std::iter::repeat_n(filler, length as usize));
        }
        21 => {
            // Bytes of any value but the newline.
            line = (0..random.below(20)).map(|_| random.word() as u8).collect();
            line.retain(|&byte| byte != b'\n');
        }
        22 => {
            let at = random.below(line.len() as u32) as usize;
            line.remove(at);
        }
        _ => {
            let at = random.below(line.len() as u32) as usize;
            line[at] = match random.word() as u8 {
                b'\n' => b'\r',
                byte => byte,
            };
        }
    }
    if line == b"end" {
        line.push(b'.');
    }
    line
}

#[cfg(test)]
mod tests {
    use super::*;
    use crate::text;

    #[test]
    fn most_are_damaged_none_holds_a_newline_and_none_ends() {
        let mut random = Random::new(5);
        let mut damaged = 0;
        let mut of_who = 0;
        for _ in 0..10_000 {
            let line = line(&mut random);
            assert!(!line.contains(&b'\n'));
            match text::parse(&line) {
                None => {
                    damaged += 1;
                    of_who += u32::from(line.starts_with(b"who"));
                }
                command => assert_ne!(command, Some(text::Command::End)),
            }
        }
        assert!((8_000..9_999).contains(&damaged), "{damaged}");
        assert!(of_who > 200, "{of_who}");
    }
}

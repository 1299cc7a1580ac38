//! Tellings as bytes: frames on wires, parts of a memory, and hexadecimal digits.

use crate::rules::Telling;

pub const FRAME: usize = 30;
pub const PART: usize = 28;
const FIRST: u8 = 76;

/// A telling's part of a memory: seven numbers, high byte first.
pub fn to_part(telling: Telling) -> [u8; PART] {
    let mut part = [0; PART];
    for (bytes, word) in part.chunks_exact_mut(4).zip(telling.to_words()) {
        bytes.copy_from_slice(&word.to_be_bytes());
    }
    part
}

pub fn from_part(part: &[u8; PART]) -> Telling {
    let mut words = [0; 7];
    for (word, bytes) in words.iter_mut().zip(part.chunks_exact(4)) {
        *word = bytes.iter().fold(0, |sum, &b| sum << 8 | u32::from(b));
    }
    Telling::from_words(words)
}

fn sum(bytes: &[u8]) -> u8 {
    bytes.iter().fold(0, |sum, &byte| sum.wrapping_add(byte))
}

pub fn write(telling: Telling) -> [u8; FRAME] {
    let mut frame = [0; FRAME];
    frame[0] = FIRST;
    frame[1..=PART].copy_from_slice(&to_part(telling));
    frame[FRAME - 1] = sum(&frame[..FRAME - 1]);
    frame
}

/// The telling of a frame; `None` for what cannot be read.
pub fn read(bytes: &[u8]) -> Option<Telling> {
    let frame: &[u8; FRAME] = bytes.try_into().ok()?;
    let [FIRST, part @ .., check] = frame else {
        return None;
    };
    (sum(&frame[..FRAME - 1]) == *check).then(|| from_part(part))
}

pub fn to_hex(bytes: &[u8]) -> String {
    bytes.iter().map(|byte| format!("{byte:02x}")).collect()
}

/// The bytes that digits of either case write; `None` if they are odd in number or no digits.
pub fn from_hex(digits: &[u8]) -> Option<Vec<u8>> {
    let (pairs, rest) = digits.as_chunks::<2>();
    let value = |digit: u8| char::from(digit).to_digit(16).map(|v| v as u8);
    let bytes = pairs.iter().map(|&[high, low]| Some(value(high)? << 4 | value(low)?));
    if rest.is_empty() { bytes.collect() } else { None }
}

#[cfg(test)]
mod tests {
    use super::*;

    #[test]
    fn what_was_written_is_read() {
        let telling = Telling::from_words([3, 0, 2, 1, u32::MAX, 0x01020304, 1]);
        let frame = write(telling);
        assert_eq!(frame[21..25], [1, 2, 3, 4]);
        assert_eq!(read(&frame), Some(telling));
        assert_eq!(from_hex(to_hex(&frame).to_uppercase().as_bytes()), Some(frame.to_vec()));
    }

    #[test]
    fn any_other_byte_makes_a_frame_unreadable() {
        let frame = write(Telling::from_words([3, 0, 2, 1, 2, 0, 1]));
        for place in 0..FRAME {
            let mut other = frame;
            other[place] ^= 16;
            assert_eq!(read(&other), None);
        }
        assert_eq!(read(&frame[..FRAME - 1]), None);
        assert_eq!(read(&[&frame[..], &[0]].concat()), None);
        assert_eq!(read(&[]), None);
    }

    #[test]
    fn odd_digits_and_other_letters_are_no_bytes() {
        assert_eq!(from_hex(b""), Some(vec![]));
        for digits in ["4", "4c0", "4g", "+4", "4 "] {
            assert_eq!(from_hex(digits.as_bytes()), None, "{digits}");
        }
    }
}

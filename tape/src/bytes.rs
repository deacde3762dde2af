//! The bytes of a tape: little-endian words, and what is left of a last one that is not whole.

use crate::fault::{shown, words_of, Faults};

/// The whole words of a tape, and the 1 to 3 bytes after them if there are any.
pub fn split(tape: &[u8]) -> (Vec<u32>, &[u8]) {
    let words = tape.chunks_exact(4);
    let stray = words.remainder();
    (words.map(|word| u32::from_le_bytes([word[0], word[1], word[2], word[3]])).collect(), stray)
}

/// The bytes of words.
pub fn join(words: &[u32]) -> Vec<u8> {
    words.iter().flat_map(|word| word.to_le_bytes()).collect()
}

/// Words as hexadecimal numbers, one a line.
pub fn to_hex(tape: &[u8]) -> Result<String, String> {
    let (words, stray) = split(tape);
    if !stray.is_empty() {
        return Err(NOT_SHOWN.to_string());
    }
    Ok(words.iter().map(|word| format!("{word:08x}\n")).collect())
}

/// What is said where the words of a tape cannot be shown as numbers.
pub const NOT_SHOWN: &str = "the last word is not whole, so it cannot be shown: leave out --hex";

/// The bytes of hexadecimal words with spaces or line ends between them, or what is wrong with them;
/// `#` begins a comment.
pub fn of_hex(text: &str) -> Result<Vec<u8>, Faults> {
    let (mut words, mut faults) = (Vec::new(), Faults::default());
    for (number, line) in (1..).zip(text.lines()) {
        hex_line(number, line, &mut words, &mut faults);
    }
    if faults.is_empty() {
        return Ok(join(&words));
    }
    Err(faults)
}

/// Puts the hexadecimal words of a line behind others; what is wrong with them is a fault.
pub fn hex_line(number: usize, line: &str, words: &mut Vec<u32>, faults: &mut Faults) {
    for word in words_of(line, number) {
        match u32::from_str_radix(word.text, 16) {
            Ok(read) => words.push(read),
            Err(_) => {
                let shown = shown(word.text);
                let what = format!("{shown} is not a word: write up to 8 hexadecimal digits");
                faults.push(word.fault(what));
            }
        }
    }
}

#[cfg(test)]
mod tests {
    use super::*;

    #[test]
    fn words_and_bytes() {
        assert_eq!(split(&[0, 0x20, 4, 0x10, 1, 2]), (vec![0x1004_2000], &[1, 2][..]));
        assert_eq!(join(&[0x1004_2000]), [0, 0x20, 4, 0x10]);
    }

    #[test]
    fn hexadecimal_words() {
        let tape = of_hex("10042000 80000003 # a trade\n50000000\n").unwrap();
        assert_eq!(to_hex(&tape).unwrap(), "10042000\n80000003\n50000000\n");
        let faults = of_hex("5\n 6 x\n123456789").unwrap_err();
        let places: Vec<(usize, usize)> = faults.first.iter().map(|f| (f.line, f.column)).collect();
        assert_eq!(places, [(2, 4), (3, 1)]);
        assert!(to_hex(&[1]).is_err());
    }
}

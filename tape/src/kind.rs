//! What the bytes of a file are: text, the words of a tape, or neither. A file is looked at block by block.

/// The kinds of words with which an instruction begins, the bits of each that are unused, and the kind
/// of the word behind it, if the instruction has one.
const HEADS: [(u32, u32, Option<u32>); 9] = [
    (1, 0x0000_0fff, Some(8)),
    (2, 0x0003_ffff, Some(8)),
    (3, 0x0003_ffff, Some(8)),
    (4, 0x0003_ffff, None),
    (5, 0x0fff_ffff, None),
    (6, 0x0fff_ffff, None),
    (7, 0x0000_03ff, Some(9)),
    (13, 0x00ff_fffe, None),
    (14, 0x0fff_0000, None),
];
/// The bytes that are looked at to find a text in UTF-16.
pub const LOOKED_AT: usize = 1_024;
/// The most bytes of a letter in UTF-8.
const MOST_OF_LETTER: usize = 4;

/// What the bytes of a file are.
#[derive(Clone, Debug, PartialEq, Eq)]
pub enum Kind {
    Text,
    Words,
    /// Neither, and what they seem to be and what to do.
    Neither(String),
}

/// Tells text from words. Words begin with an instruction: the first word has the kind of one and no
/// unused bits, so that the first byte of the file is 0, or 1 where a mark is set, or the third is 0 (of
/// a turn), which no text has; the second word, where the instruction has one, has its kind. Text is UTF-8 without control characters
/// but tabs and line ends.
pub fn kind_of(bytes: &[u8]) -> Kind {
    if begins_as_words(bytes) {
        return Kind::Words;
    }
    let mut looked = Looked::default();
    looked.at(bytes);
    looked.end();
    looked.kind(bytes)
}

/// What was found in the bytes of a file that does not begin with an instruction, block by block.
#[derive(Clone, Debug, Default, PartialEq, Eq)]
pub struct Looked {
    /// How many lines have ended.
    lines: usize,
    /// The first bytes of a letter whose last are in the next block.
    letter: Vec<u8>,
    /// The first line that is not UTF-8.
    other: Option<usize>,
    /// The first control character, and its line.
    control: Option<(u8, usize)>,
}

impl Looked {
    /// Looks at the bytes that follow.
    pub fn at(&mut self, bytes: &[u8]) {
        let lines = self.lines;
        let line = |before: &[u8]| lines + newlines(before) + 1;
        // All are looked at, which is quicker than to stop.
        if self.control.is_none() && bytes.iter().fold(false, |any, byte| any | is_control(*byte)) {
            let at = bytes.iter().position(|byte| is_control(*byte));
            self.control = at.map(|at| (bytes[at], line(&bytes[..at])));
        }
        if self.other.is_none() {
            self.other = self.not_utf8(bytes).map(|at| line(&bytes[..at]));
        }
        self.lines += newlines(bytes);
    }

    /// The place from which on the bytes are not UTF-8. A letter that they cut is kept.
    fn not_utf8(&mut self, bytes: &[u8]) -> Option<usize> {
        let before = self.letter.len();
        let from = match before {
            0 => 0,
            _ => {
                self.letter.extend(bytes.iter().take(MOST_OF_LETTER - before));
                match std::str::from_utf8(&self.letter) {
                    Err(error) if error.valid_up_to() == 0 && error.error_len().is_some() => {
                        return Some(0);
                    }
                    Err(error) if error.valid_up_to() == 0 => return None,
                    Err(error) => error.valid_up_to() - before,
                    Ok(_) => self.letter.len() - before,
                }
            }
        };
        self.letter.clear();
        let error = std::str::from_utf8(&bytes[from..]).err()?;
        let at = from + error.valid_up_to();
        if error.error_len().is_none() {
            self.letter.extend(&bytes[at..]);
            return None;
        }
        Some(at)
    }

    /// The file has no more bytes.
    pub fn end(&mut self) {
        if !self.letter.is_empty() {
            self.other.get_or_insert(self.lines + 1);
        }
    }

    /// Is all text up to here?
    pub fn is_text(&self) -> bool {
        self.other.is_none() && self.control.is_none()
    }

    /// Is it known what the file is, whatever follows?
    pub fn is_known(&self) -> bool {
        self.other.is_some() && self.control.is_some()
    }

    /// What the file is that was looked at, by its first bytes too.
    pub fn kind(&self, first: &[u8]) -> Kind {
        if self.is_text() {
            return Kind::Text;
        }
        Kind::Neither(self.neither(first))
    }

    /// What a file that is neither text nor words seems to be, and what to do.
    fn neither(&self, first: &[u8]) -> String {
        if is_utf16(first) {
            return "it seems to be text in UTF-16: save it as UTF-8".to_string();
        }
        match (self.other, self.control) {
            (Some(line), None) => format!(
                "it seems to be text that is not in UTF-8, by line {line}: save it as UTF-8 (from \
                 Shift_JIS by `iconv -f SHIFT_JIS -t UTF-8`)"
            ),
            (None, Some((byte, line))) => format!(
                "it seems to be text, with a control character (byte {byte:02x}) in line {line}: take \
                 it out, or save it as UTF-8"
            ),
            _ => {
                let first: Vec<String> =
                    first.iter().take(4).map(|byte| format!("{byte:02x}")).collect();
                format!(
                    "it begins with the bytes {}, which no instruction does: if it is a damaged tape, \
                     say --words",
                    first.join(" ")
                )
            }
        }
    }
}

/// Do the bytes begin with an instruction? A tape of no words has none, and one that is cut inside its
/// first word is known by the lowest byte, or by the third.
pub fn begins_as_words(bytes: &[u8]) -> bool {
    let mut words =
        bytes.chunks_exact(4).map(|word| u32::from_le_bytes([word[0], word[1], word[2], word[3]]));
    let Some(first) = words.next() else {
        return bytes.first().is_none_or(|lowest| *lowest <= 1) || bytes.get(2) == Some(&0);
    };
    let second = words.next().map(|word| word >> 28);
    HEADS.iter().any(|&(kind, unused, behind)| {
        let follows = behind.zip(second).is_none_or(|(wanted, found)| wanted == found);
        first >> 28 == kind && first & unused == 0 && follows
    })
}

/// How many line ends there are: so few bytes at once that a byte can count them, which is quicker.
fn newlines(bytes: &[u8]) -> usize {
    let few = |bytes: &[u8]| {
        bytes.iter().fold(0_u8, |count, byte| count.wrapping_add(u8::from(*byte == b'\n')))
    };
    bytes.chunks(usize::from(u8::MAX)).map(|bytes| usize::from(few(bytes))).sum()
}

/// Is this byte a control character that no text form has? Without branches, so that many are asked at once.
fn is_control(byte: u8) -> bool {
    (byte < b' ') & (byte != b'\t') & (byte != b'\n') & (byte != b'\r') | (byte == 0x7f)
}

/// Does this seem to be text in UTF-16? It has a byte-order mark, or every second byte is often 0 and
/// the others never.
fn is_utf16(bytes: &[u8]) -> bool {
    if bytes.starts_with(&[0xff, 0xfe]) || bytes.starts_with(&[0xfe, 0xff]) {
        return true;
    }
    let looked_at = &bytes[..bytes.len().min(LOOKED_AT)];
    let zeros = |from: usize| looked_at.iter().skip(from).step_by(2).filter(|b| **b == 0).count();
    match (zeros(0), zeros(1)) {
        (0, often) | (often, 0) => often > 0 && often * 8 >= looked_at.len(),
        _ => false,
    }
}

#[cfg(test)]
mod tests {
    use super::*;
    use crate::text;

    /// A text in Shift_JIS: 約定 in its comment.
    const SHIFT_JIS: &[u8] = b"trade 0 1 2 3\nclose # \x96\xf1\x92\xe8\n";

    fn utf16(text: &str, bytes: fn(u16) -> [u8; 2]) -> Vec<u8> {
        text.encode_utf16().flat_map(bytes).collect()
    }

    #[test]
    fn texts_are_told_from_words() {
        for text in ["close\n", "# a note: 円\r\ntrade 0 1 2 3\r\n", "\u{feff}close", "\n", "a"] {
            assert_eq!(kind_of(text.as_bytes()), Kind::Text, "{text}");
        }
        for line in [
            "trade 2 8 8 8",
            "deliver 2 2 9",
            "resolve 3 3 3",
            "pair-off 4 4",
            "close",
            "mark 2 1",
            "turn 25443",
        ] {
            let tape = text::to_tape(line).unwrap();
            assert_eq!(kind_of(&tape), Kind::Words, "{line}");
        }
        for roll in ["roll 2 8224 139264", "roll 1 8 100000", "roll 15 16383 262143"] {
            assert_eq!(kind_of(&text::to_tape(roll).unwrap()), Kind::Words);
        }
        for cut in [&[][..], &[0], &[0, 0], &[1, 0, 0], &[0, 0x20, 4], &[0x63, 0x6c, 0]] {
            assert_eq!(kind_of(cut), Kind::Words, "{cut:?}");
        }
    }

    #[test]
    fn every_first_word_that_the_reader_takes_is_known() {
        let mut word = 1_u32;
        for _ in 0..200_000 {
            word = word.wrapping_mul(0x9e37_79b1).rotate_left(7) ^ 0x5bd1_e995;
            for shift in [0, 10, 12, 18, 28] {
                let low = if shift == 28 { 0xffff } else { u32::from(shift == 18) };
                let head = word >> shift << shift | word & low;
                let rest: &[u32] = match head >> 28 {
                    1..=3 => &[0x8000_0001],
                    7 => &[0x9000_0000; 32],
                    _ => &[],
                };
                let taken = settlement_day::tape::read(&[&[head], rest].concat()).is_ok();
                assert_eq!(begins_as_words(&head.to_le_bytes()), taken, "{head:08x}");
            }
        }
    }

    #[test]
    fn text_in_another_encoding_is_neither() {
        let text = "trade 0 1 2 3\nclose # 約定\n";
        let of_mark = |mark: &[u8], rest: Vec<u8>| [mark, &rest].concat();
        let small = utf16(text, u16::to_le_bytes);
        let large = utf16(text, u16::to_be_bytes);
        for bytes in [
            small.clone(),
            large.clone(),
            of_mark(&[0xff, 0xfe], small),
            of_mark(&[0xfe, 0xff], large),
            utf16("# 約定約定約定約定約定\nclose\n", u16::to_be_bytes),
        ] {
            let Kind::Neither(what) = kind_of(&bytes) else { panic!("{bytes:?}") };
            assert_eq!(what, "it seems to be text in UTF-16: save it as UTF-8");
        }
        for bytes in [SHIFT_JIS, b"close\n# caf\xe9\n", b"close\n# \xcc\xf3\xc4\xea\n"] {
            let Kind::Neither(what) = kind_of(bytes) else { panic!("{bytes:?}") };
            assert!(what.contains("not in UTF-8, by line 2: save it as UTF-8"), "{what}");
        }
        let Kind::Neither(what) = kind_of(b"close\n\n# \x1b$B") else { panic!("control") };
        assert!(what.contains("a control character (byte 1b) in line 3"), "{what}");
        let Kind::Neither(what) = kind_of(&[1, 0, 0, 0x50, 0xff]) else { panic!("damaged") };
        assert!(
            what.starts_with("it begins with the bytes 01 00 00 50") && what.contains("--words")
        );
    }

    #[test]
    fn blocks_are_told_as_the_whole() {
        let control = b"close # caf\xc3\xa9\n\x1b\n".as_slice();
        for whole in [
            "close\n# \u{7d04}\u{5b9a} \u{1f600}\ncutoff\n".as_bytes(),
            SHIFT_JIS,
            b"close\n# caf\xe9\n",
            b"close\n# \xe7\xb4",
            b"close\n# \xe7\xb4\n",
            b"x\xf0\x9f\x98x\n\x01\n",
            control,
        ] {
            for block in 1..7 {
                let mut looked = Looked::default();
                whole.chunks(block).for_each(|bytes| looked.at(bytes));
                looked.end();
                assert_eq!(looked.kind(whole), kind_of(whole), "{whole:?} in blocks of {block}");
            }
        }
    }
}

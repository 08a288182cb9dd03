//! Characters, kinds and sets (RULES.md, sections 5 to 8).

#[derive(Clone, Copy, Debug, PartialEq, Eq)]
pub enum Kind {
    WhiteSpace,
    Punctuation,
    Other,
}

const WHITE_SPACE: [(u32, u32); 10] = [
    (0x9, 0xD),
    (0x20, 0x20),
    (0x85, 0x85),
    (0xA0, 0xA0),
    (0x1680, 0x1680),
    (0x2000, 0x200A),
    (0x2028, 0x2029),
    (0x202F, 0x202F),
    (0x205F, 0x205F),
    (0x3000, 0x3000),
];

fn among(ranges: &[(u32, u32)], value: u32) -> bool {
    ranges.iter().any(|(first, last)| *first <= value && value <= *last)
}

/// The character that begins at `i`, which is below the length.
pub fn character(note: &[u8], i: usize) -> u32 {
    let byte = |k: usize| note.get(i + k).map_or(0, |b| u32::from(*b));
    let tail = |k: usize| (0x80..=0xBF).contains(&byte(k));
    let six = |k: usize| byte(k) & 0x3F;
    let second = |low: u32, high: u32| low <= byte(1) && byte(1) <= high;
    match byte(0) {
        b @ 0..=0x7F => b,
        b @ 0xC2..=0xDF if tail(1) => (b - 0xC0) << 6 | six(1),
        b @ 0xE0..=0xEF
            if match b {
                0xE0 => second(0xA0, 0xBF),
                0xED => second(0x80, 0x9F),
                _ => tail(1),
            } && tail(2) =>
        {
            (b - 0xE0) << 12 | six(1) << 6 | six(2)
        }
        b @ 0xF0..=0xF4
            if match b {
                0xF0 => second(0x90, 0xBF),
                0xF4 => second(0x80, 0x8F),
                _ => tail(1),
            } && tail(2)
                && tail(3) =>
        {
            (b - 0xF0) << 18 | six(1) << 12 | six(2) << 6 | six(3)
        }
        _ => 0xFFFD,
    }
}

/// The kind at `i`, which is at most the length.
pub fn kind(note: &[u8], i: usize, set: &[(u32, u32)]) -> Kind {
    if i == note.len() {
        return Kind::WhiteSpace;
    }
    let value = character(note, i);
    if among(&WHITE_SPACE, value) {
        Kind::WhiteSpace
    } else if among(&[(33, 47), (58, 64), (91, 96), (123, 126)], value) || value >= 128 && among(set, value) {
        Kind::Punctuation
    } else {
        Kind::Other
    }
}

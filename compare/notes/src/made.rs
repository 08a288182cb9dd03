//! Notes to compare on.

use crate::chance::Chance;

/// The longest note.
pub const LONGEST: usize = 1024;

/// Bytes of the short notes: each decides something in some state, or in how bytes are shown.
pub const TELLING: &[u8] = b"wWh./:()_&;a<]\r\n\t \xE2\x80\x94";
/// The same, thinned out for notes that begin with a link.
pub const FEWER: &[u8] = b"w./()_&;a<][\r\n\t -\xE2\x80\x94@";
/// What stands before the short notes over `FEWER`.
pub const OPENINGS: [&[u8]; 8] = [
    b"www.",
    b"http://",
    b"www.a",
    b"www.a(",
    b"www.a/((",
    b"http://a_",
    b"(www.a.b",
    b"www.a&amp",
];

/// Bytes of the short notes with mail.
pub const MAIL_BYTES: &[u8] = b"a1@.:/-_ +";
/// What stands before them.
pub const MAIL_OPENINGS: [&[u8]; 7] = [b"", b"a@", b"xmpp:a@", b"xmpp:a@b.c", b"MAILTO:a@b", b"\ta@b.c", b"a@b.c xmpp:"];

/// All notes over an alphabet, of each length up to `most`, behind an opening.
pub fn short(opening: &[u8], alphabet: &[u8], most: usize, mut each: impl FnMut(&[u8])) {
    for length in 0..=most {
        let mut digits = vec![0; length];
        let mut note = opening.to_vec();
        note.extend(digits.iter().map(|d: &usize| alphabet[*d]));
        'all: loop {
            each(&note);
            let mut i = length;
            loop {
                if i == 0 {
                    break 'all;
                }
                i -= 1;
                digits[i] = (digits[i] + 1) % alphabet.len();
                note[opening.len() + i] = alphabet[digits[i]];
                if digits[i] != 0 {
                    break;
                }
            }
        }
    }
}

/// Notes to ask kinds on: each character, all notes up to `most` bytes, and four bytes at the edges of the shapes.
pub fn for_kinds(most: usize, mut each: impl FnMut(&[u8])) {
    for character in (0..=0x10FFFF).filter_map(char::from_u32) {
        each(character.encode_utf8(&mut [0; 4]).as_bytes());
    }
    let all: Vec<u8> = (0..=255).collect();
    short(b"", &all, most, &mut each);
    for first in 0xEF..=0xF8 {
        short(&[first], b"\x7F\x80\x8F\x90\x9F\xA0\xBF\xC0\xC2\xE2\xF0a", 4, &mut each);
    }
}

const WORDS: [&str; 20] = [
    "checked", "the", "clock", "who", "how", "when", "with", "h", "w", "ww", "www", "http", "https:", "Halt", "What", "note", "rev-b",
    "42", "bay4", "a",
];
const LABELS: [&str; 14] = [
    "a",
    "b",
    "example",
    "stores",
    "a_b",
    "_",
    "-",
    "x1",
    "",
    "caf\u{e9}",
    "\u{2014}",
    "a-b",
    "W",
    "\u{1F44D}",
];
const SCHEMES: [&str; 12] = [
    "www.",
    "WwW.",
    "http://",
    "https://",
    "HTTPS://",
    "hTTp://",
    "http:/",
    "httpss://",
    "www",
    "wwww.",
    "http:///",
    "https://www.",
];
const ITEMS: [&str; 22] = [
    "!", "\"", "'", ")", "*", ",", ".", ":", ";", "?", "_", "~", "]", "&amp;", "&x;", "&", "&a", "&b1;", "(", "[", "<", "))",
];
const GAPS: [&str; 14] = [
    " ", " ", " ", "\t", "\n", "\r\n", "\r", "\n\r", "\u{0b}", "\u{0c}", "\u{a0}", "\u{2028}", "\u{3000}", "  ",
];
const MAIL: [&str; 16] = [
    "a@b.c",
    "mailto:",
    "xmpp:",
    "XMPP:a@b.c/",
    "@",
    "a@.b",
    "hello@world.com",
    "rtc@stores.bay4",
    "a.b+c@d-e.f",
    "a@b.c1",
    "x/a@b.c",
    "mailto:w@h.w",
    "xmpp:a@b.c/d@e",
    "a@b.c@d.e",
    "-_@h.w",
    "1xmpp:a@b.c",
];
const RAW: [&[u8]; 14] = [
    b"\x80",
    b"\xBF",
    b"\xC2",
    b"\xC0\x80",
    b"\xE2\x80",
    b"\xE2",
    b"\xED\xA0\x80",
    b"\xF0\x9F\x91",
    b"\xF4\x90\x80\x80",
    b"\xFF",
    b"\x00",
    b"\x7F",
    b"\xC2\x85",
    b"\x85",
];
/// Bytes before which a Www may or may not begin.
const BEFORE: [&str; 12] = ["(", "*", "_", "[", "]", "~", "/", "-", "1", ".", "\"", ">"];

fn text(note: &mut Vec<u8>, chance: &mut Chance, among: &[&str]) {
    note.extend_from_slice(chance.pick(among).as_bytes());
}

fn link(note: &mut Vec<u8>, chance: &mut Chance) {
    if chance.one_in(3) {
        text(note, chance, &BEFORE);
    }
    text(note, chance, &SCHEMES);
    for _ in 0..chance.below(5) {
        text(note, chance, &LABELS);
        if !chance.one_in(4) {
            note.push(b'.');
        }
    }
    if chance.one_in(2) {
        note.push(b'/');
        for _ in 0..chance.below(8) {
            match chance.below(4) {
                0 => text(note, chance, &WORDS),
                1 => note.push(if chance.one_in(2) { b'(' } else { b')' }),
                2 => text(note, chance, &LABELS),
                _ => text(note, chance, &ITEMS),
            }
        }
    }
    for _ in 0..chance.below(4) {
        text(note, chance, &ITEMS);
    }
}

/// One piece again and again: trails that are long, and read again from each of their bytes.
fn repeated(note: &mut Vec<u8>, chance: &mut Chance) {
    let piece = *chance.pick(&[
        &"_", &"]", &".", &"._", &"]_", &"&a;", &"&", &"(", &")", &"www._", &"!)", &"~", &"-", &"<", &"\t", &"\r\n", &"(.",
    ]);
    for _ in 0..chance.below(160) {
        note.extend_from_slice(piece.as_bytes());
    }
}

/// A structured note of exactly `length` bytes.
pub fn structured(length: usize, chance: &mut Chance) -> Vec<u8> {
    let mut note = Vec::with_capacity(length + 64);
    // Of how many pieces each sort has its share; one note in eight is bytes of one alphabet.
    let shares = match chance.below(8) {
        0 => [8, 1, 2, 8, 1, 1, 0],
        1 => [2, 8, 2, 4, 1, 1, 0],
        2 => [1, 4, 12, 2, 1, 1, 0],
        3 => [2, 1, 1, 4, 8, 1, 0],
        4 => [2, 6, 6, 2, 2, 4, 0],
        5 => [4, 4, 4, 4, 4, 4, 1],
        6 => [0, 8, 2, 0, 0, 0, 4],
        _ => {
            let soup = *chance.pick(&[
                &TELLING,
                &FEWER,
                &b"w._]&;()<a ".as_slice(),
                &b"www._]&a)(".as_slice(),
                &b"a@.:/xmp-_1 h".as_slice(),
            ]);
            while note.len() < length {
                if chance.one_in(12) {
                    text(&mut note, chance, &SCHEMES);
                }
                note.push(soup[chance.below(soup.len())]);
            }
            note.truncate(length);
            return note;
        }
    };
    let total: usize = shares.iter().sum();
    while note.len() < length {
        let mut at = chance.below(total);
        let sort = shares
            .iter()
            .position(|s| {
                if at < *s {
                    true
                } else {
                    at -= s;
                    false
                }
            })
            .unwrap();
        match sort {
            0 => text(&mut note, chance, &WORDS),
            1 => link(&mut note, chance),
            2 => text(&mut note, chance, &ITEMS),
            3 => text(&mut note, chance, &GAPS),
            4 => text(&mut note, chance, &MAIL),
            5 => note.extend_from_slice(chance.pick(&RAW)),
            _ => repeated(&mut note, chance),
        }
        if sort < 6 && chance.one_in(3) {
            text(&mut note, chance, &GAPS);
        }
    }
    note.truncate(length);
    note
}

/// A note changed at a few places.
pub fn changed(note: &[u8], chance: &mut Chance) -> Vec<u8> {
    let mut note = note.to_vec();
    for _ in 0..1 + chance.below(3) {
        let at = chance.below(note.len() + 1);
        let byte = if chance.one_in(4) {
            chance.next() as u8
        } else {
            FEWER[chance.below(FEWER.len())]
        };
        match chance.below(3) {
            0 => note.insert(at, byte),
            1 if at < note.len() => note[at] = byte,
            _ if at < note.len() => {
                note.remove(at);
            }
            _ => note.push(byte),
        }
    }
    note.truncate(LONGEST);
    note
}

/// Two to six notes of these, one behind the other, with a space or a line ending between.
pub fn joined(notes: &[&[u8]], chance: &mut Chance) -> Vec<u8> {
    let mut note = chance.pick(notes).to_vec();
    for _ in 0..1 + chance.below(5) {
        note.extend_from_slice(chance.pick(&[&b" "[..], b"\n", b"\r\n"]));
        note.extend_from_slice(chance.pick(notes));
    }
    note.truncate(LONGEST);
    note
}

/// The notes known to need the most steps.
pub fn worst() -> [Vec<u8>; 2] {
    let row = |parts: &[(&str, usize)]| parts.iter().flat_map(|(s, n)| s.repeat(*n).into_bytes()).collect();
    [
        row(&[("www._", 69), ("_", 453), ("]", 225), ("&", 1)]),
        row(&[("www._", 69), ("_", 459), ("]", 219), ("a", 1)]),
    ]
}

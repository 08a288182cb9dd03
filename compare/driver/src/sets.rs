//! The punctuation sets of the runs.

pub struct Set {
    pub name: &'static str,
    pub ranges: published::Ranges,
    /// The ranges as a row of numbers: first, last, first, last.
    pub row: Vec<u32>,
}

/// Numbered 0 to 3, as in the fixed list: empty, house, one with U+FFFD, and 512 ranges over half of all characters.
pub fn sets() -> Vec<Set> {
    let many: Vec<(u32, u32)> = (0..512).map(|k| (128 + 2175 * k, 128 + 2175 * k + 1087)).collect();
    let set = |name, ranges: Vec<(u32, u32)>| Set {
        name,
        row: ranges.iter().flat_map(|r| [r.0, r.1]).collect(),
        ranges: Box::leak(ranges.into_boxed_slice()),
    };
    vec![
        set("empty", vec![]),
        set("house", vec![(0x2010, 0x2027), (0x2030, 0x205E)]),
        set("replacement", vec![(0xA0, 0xA7), (0x2014, 0x2014), (0xFFFD, 0xFFFD)]),
        set("many", many),
    ]
}

//! Edits of a list (RULES.md, section 12).

use std::collections::BTreeMap;

/// An edit: its elements go before those already there?, place, count, added elements.
pub type Edit = (bool, usize, usize, Vec<usize>);

/// The numbers 0 to `length` − 1 after edits, or the refusal (13 or 14) with its place.
pub fn edited(length: usize, edits: &[Edit]) -> Result<Vec<usize>, (u32, usize)> {
    let mut kept: BTreeMap<usize, (usize, Vec<usize>)> = BTreeMap::new();
    for (before, place, count, added) in edits {
        if *count == 0 && added.is_empty() {
            continue;
        }
        let edit = kept.entry(*place).or_default();
        edit.0 += count;
        let at = if *before { 0 } else { edit.1.len() };
        edit.1.splice(at..at, added.iter().copied());
    }
    if let Some(rank) = kept.iter().position(|(place, edit)| place + edit.0 > length) {
        return Err((13, rank));
    }
    let (mut list, mut at) = (vec![], 0);
    for (rank, (place, (count, added))) in kept.iter().enumerate() {
        if *place < at {
            return Err((14, rank));
        }
        list.extend(at..*place);
        list.extend(added);
        at = place + count;
    }
    list.extend(at..length);
    Ok(list)
}

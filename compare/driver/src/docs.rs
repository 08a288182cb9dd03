//! Rows of the documents' tables, held against the rules and the published sources.

use crate::compare::{compare, Calls, Tally};
use crate::sets::Set;
use expected::{mail, web, Span, Way, DATA, LINE_ENDING};
use notes::chance::Chance;
use notes::tables::Row;

/// Holds a row against the rules in the way that its column speaks of, and its note against the published sources.
pub fn check(row: &Row, sets: &[Set], tally: &mut Tally) -> Result<(), String> {
    let whole = |way, ranges| {
        let (web_spans, _) = web::spans(&row.note, ranges, way);
        let cut = web::cut(&row.note, &web_spans);
        let resolved: Vec<Span> = cut
            .iter()
            .flat_map(|&(name, first, end)| match name {
                DATA => mail::split(&row.note[first..end], way)
                    .into_iter()
                    .map(|(n, a, b)| (n, first + a, first + b))
                    .collect(),
                _ => vec![(name, first, end)],
            })
            .collect();
        let named: Vec<Span> = resolved.iter().filter(|s| s.0 != DATA && s.0 != LINE_ENDING).copied().collect();
        (web_spans, cut, resolved, named)
    };
    for set in row.sets.iter().map(|k| &sets[*k]) {
        let (web_spans, cut, resolved, named) = whole(Way::OURS, set.ranges);
        let published = whole(Way::PUBLISHED, set.ranges).3;
        let agrees = match row.column.as_str() {
            "result" => row.says == web_spans,
            "spans when ended" | "cut into" => row.says == cut,
            "split into" => row.says == resolved,
            "the rust" | "the rust (run)" => row.says == published,
            "both (run)" => row.says == named && row.says == published,
            _ => row.says == named,
        };
        if !agrees {
            return Err(format!(
                "{}:{}: says {:?}, expected {:?}, published {:?}",
                row.file, row.line, row.says, named, published
            ));
        }
        let mut chance = Chance::new(7 << 40 | row.line as u64);
        let answers = compare(&row.note, set, &Calls::one_push(&row.note), &mut chance, tally)?;
        if let Some(says) = row.steps {
            // The steps are ours; the published count is another where a parenthesis is met.
            let mut ours = expected::machine::Machine::new(&row.note, set.ranges, Way::OURS);
            let steps = (ours.push(row.note.len(), u64::MAX).0, ours.end(u64::MAX).0);
            let published = (answers.pushes[0].0, answers.end);
            if says != steps || !answers.open_met && says != published {
                return Err(format!(
                    "{}:{}: says {:?} steps, expected {:?}, published {:?}",
                    row.file, row.line, says, steps, published
                ));
            }
        }
    }
    Ok(())
}

//! Mail addresses in data (RULES.md, section 11).

use crate::{Span, Way, DATA, EMAIL, MAILTO, XMPP};

/// The addresses of data, and whether place 2 or place 3 was met on the way.
pub fn addresses(data: &[u8], way: Way) -> (Vec<Span>, bool, bool) {
    let (mut found, mut dot_first, mut resource, mut c): (Vec<Span>, bool, bool, usize) = (vec![], false, false, 0);
    for k in (0..data.len()).filter(|k| data[*k] == b'@') {
        if k < c {
            continue;
        }
        let a = (c..=k)
            .find(|a| data[*a..k].iter().all(|b| b.is_ascii_alphanumeric() || b"+-._".contains(b)))
            .unwrap();
        let precedes = |byte: u8| a > c && data[a - 1] == byte;
        if a == k || precedes(b'/') {
            continue;
        }
        let (start, name) = if precedes(b':') {
            let run = (c..a).find(|r| data[*r..a - 1].iter().all(u8::is_ascii_alphanumeric)).unwrap();
            match data[run..a - 1].to_ascii_lowercase().as_slice() {
                b"xmpp" => (run, XMPP),
                b"mailto" => (run, MAILTO),
                _ => (a, EMAIL),
            }
        } else {
            (a, EMAIL)
        };
        let goes_on = |i: usize, more: &[u8]| {
            i < data.len()
                && (data[i].is_ascii_alphanumeric()
                    || more.contains(&data[i])
                    || data[i] == b'.' && data.get(i + 1).map_or(false, u8::is_ascii_alphanumeric))
        };
        let stop = |from: usize, more: &[u8]| (from..).find(|i| !goes_on(*i, more)).unwrap();
        let d = k + 1;
        let host_end = stop(d, b"-_");
        let starts_with_dot = d < host_end && data[d] == b'.';
        let slash = name == XMPP && data.get(host_end) == Some(&b'/');
        dot_first |= starts_with_dot;
        resource |= slash;
        let domain_end = if way.resource && slash { stop(d, b"-_/") } else { host_end };
        let domain = &data[d..domain_end];
        let whole = domain.contains(&b'.') && domain.last().map_or(false, u8::is_ascii_alphabetic);
        if whole && (way.dot_first || !starts_with_dot) {
            let end = if slash && !way.resource && goes_on(host_end + 1, b"@") {
                stop(host_end + 1, b"@")
            } else {
                domain_end
            };
            found.push((name, start, end));
            c = end;
        }
    }
    (found, dot_first, resource)
}

/// Data split around its addresses.
pub fn split(data: &[u8], way: Way) -> Vec<Span> {
    let (mut cut, mut at) = (vec![], 0);
    for (name, first, end) in addresses(data, way).0 {
        if at < first {
            cut.push((DATA, at, first));
        }
        cut.push((name, first, end));
        at = end;
    }
    if at < data.len() {
        cut.push((DATA, at, data.len()));
    }
    cut
}

//! Makes an input smaller while it still shows a difference: parts are left out, larger ones
//! first, until no single part can go.

use crate::format::{Fields, Mark};
use crate::raw;

/// The smallest run of parts, found by leaving parts out, for which `differs` still holds.
pub fn smallest<T: Clone>(parts: &[T], differs: &dyn Fn(&[T]) -> bool) -> Vec<T> {
    let mut parts = parts.to_vec();
    let mut size = parts.len().div_ceil(2);
    while size > 0 {
        let mut at = 0;
        let mut shrunk = false;
        while at < parts.len() {
            let mut fewer = parts.clone();
            fewer.drain(at..(at + size).min(parts.len()));
            if differs(&fewer) {
                parts = fewer;
                shrunk = true;
            } else {
                at += size;
            }
        }
        // Once no single part can go, it is as small as this way makes it.
        if !shrunk || size > 1 {
            size /= 2;
        }
    }
    parts
}

/// A smaller body for a question: bytes left out of text and records, fields of raw tables
/// cleared.
pub fn body(mark: Mark, body: &[u8], differs: &dyn Fn(&[u8]) -> bool) -> Vec<u8> {
    let Some((front, mut tables)) = split(mark, body) else {
        return smallest(body, differs);
    };
    for index in 0..tables.len() {
        let full = tables[index].clone();
        let parts: Vec<Part> = raw::fields()
            .into_iter()
            .filter(|part| !is_zero(&full[part.0..part.1]))
            .collect();
        let kept = smallest(&parts, &|parts: &[Part]| {
            let mut tables = tables.clone();
            tables[index] = only(&full, parts);
            differs(&joined(&front, &tables))
        });
        tables[index] = only(&full, &kept);
    }
    joined(&front, &tables)
}

/// Start and end of a field.
type Part = (usize, usize);

/// What stands before the raw tables of a body, and the tables; `None` where it has none.
fn split(mark: Mark, body: &[u8]) -> Option<(Vec<u8>, Vec<Vec<u8>>)> {
    let mut fields = Fields(body);
    match &mark {
        b"VT" | b"SC" => {}
        b"WR" => drop(fields.u32()?),
        b"RT" => drop(fields.u64()?),
        b"CM" | b"OV" => {
            fields.take(2)?;
            fields.sized()?;
        }
        _ => return None,
    }
    let front = body[..body.len() - fields.0.len()].to_vec();
    let mut tables = Vec::new();
    while !fields.0.is_empty() {
        tables.push(raw::from_sparse(&mut fields)?);
    }
    Some((front, tables))
}

fn joined(front: &[u8], tables: &[Vec<u8>]) -> Vec<u8> {
    let tables = tables.iter().flat_map(|raw| raw::to_sparse(raw));
    front.iter().copied().chain(tables).collect()
}

/// The raw table with these fields only, all others zero.
fn only(full: &[u8], parts: &[Part]) -> Vec<u8> {
    let mut raw = vec![0; full.len()];
    for &(start, end) in parts {
        raw[start..end].copy_from_slice(&full[start..end]);
    }
    raw
}

fn is_zero(bytes: &[u8]) -> bool {
    bytes.iter().all(|byte| *byte == 0)
}

#[cfg(test)]
mod tests {
    use super::*;

    #[test]
    fn only_what_the_difference_needs_is_left() {
        let parts: Vec<u8> = (0..100).collect();
        let differs = |parts: &[u8]| parts.contains(&17) && parts.contains(&80);
        assert_eq!(smallest(&parts, &differs), [17, 80]);
    }
}

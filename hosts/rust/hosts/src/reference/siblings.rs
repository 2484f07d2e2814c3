//! Sibling half-edges by sorting: the sides in order of their two vertices, so that those of an edge stand together.

use super::{check_corners, check_sizes, columns_of, least_sides, sides_by_origin};
use super::{Lengths, Opposites, Refused, Rows, Side, UNFIT};
use std::collections::HashSet;

/// What the call writes: the least side of each vertex, and the map.
#[derive(Clone, Debug, PartialEq, Eq)]
pub struct Siblings {
    pub v2e: Vec<u32>,
    pub map: Vec<u32>,
}

/// Checks 1 and 2. The map is lent in place of E2e, and always has four columns.
pub fn check(n: u32, lengths: Lengths) -> Result<(), Refused> {
    let (vertices, m) = (n as usize, lengths.elements / 4);
    check_sizes(n, m, lengths.elements)?;
    let fit = lengths.v2e == vertices && lengths.e2e == 4 * m && lengths.work >= vertices + 16 * m;
    fit.then_some(()).ok_or(UNFIT)
}

pub fn siblings(n: u32, elements: &[u32], lengths: Lengths) -> Result<Siblings, Refused> {
    check(n, lengths)?;
    check_corners(n, elements)?;
    let rows = Rows(elements);
    Ok(Siblings { v2e: least_sides(&sides_by_origin(n, rows)), map: map_of(rows) })
}

fn map_of(rows: Rows) -> Vec<u32> {
    let mut sides: Vec<((u32, u32), Side)> = rows.sides().map(|s| (rows.ends(s), s)).collect();
    sides.sort_unstable();
    let mut map = vec![0; rows.0.len()];
    for edge in sides.chunk_by(|(ends, _), (others, _)| ends == others) {
        for (at, (_, s)) in edge.iter().enumerate() {
            let (_, next) = edge[(at + 1) % edge.len()];
            map[s.slot()] = next.code();
        }
    }
    map
}

/// Whether following the map from each side meets exactly the sides of its two vertices, each once in a round.
pub fn goes_round(elements: &[u32], map: &[u32]) -> bool {
    let rows = Rows(elements);
    let (mut met, mut edges) = (vec![false; map.len()], HashSet::new());
    for start in rows.sides() {
        if met[start.slot()] {
            continue;
        }
        // A second round on the same two vertices would have sides that the first one missed.
        let is_new = edges.insert(rows.ends(start));
        let mut s = start;
        while !met[s.slot()] {
            met[s.slot()] = true;
            let next = rows.side(map[s.slot()]).filter(|&next| rows.ends(next) == rows.ends(start));
            let Some(next) = next else { return false };
            s = next;
        }
        if !is_new || s != start {
            return false;
        }
    }
    true
}

/// Whether each side's sibling is what E2e, as built, has opposite it; at a border the side itself.
pub fn agrees(elements: &[u32], e2e: &[u32], map: &[u32]) -> bool {
    let rows = Rows(elements);
    let e2e = Opposites { columns: columns_of(elements), entries: e2e };
    let partner = |s| e2e.entry(s).and_then(|code| rows.side(code));
    rows.sides().all(|s| map[s.slot()] == partner(s).unwrap_or(s).code())
}

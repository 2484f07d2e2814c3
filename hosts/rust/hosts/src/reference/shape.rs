//! The number of a list's shape, its edges counted as a set of pairs of vertices.

use super::holes::Parts;
use super::{check_sizes, tables, Lengths, Refused, Rows, FEW, UNFIT};
use std::collections::HashSet;

/// Checks 1 and 2: the work buffer is the only one lent beside the list.
pub fn check(n: u32, lengths: Lengths) -> Result<(), Refused> {
    let m = lengths.elements / 4;
    check_sizes(n, m, lengths.elements)?;
    (lengths.work >= n as usize + 16 * m).then_some(()).ok_or(UNFIT)
}

pub fn shape(n: u32, elements: &[u32], lengths: Lengths) -> Result<i64, Refused> {
    check(n, lengths)?;
    tables(n, elements)?;
    Ok(number(n, elements))
}

/// n − edges + m. Where there are few vertices and elements, two counts of the edges.
pub fn number(n: u32, elements: &[u32]) -> i64 {
    let rows = Rows(elements);
    let edges = edges_by_sides(rows);
    if n.max(rows.elements()) <= FEW {
        assert_eq!(edges, edges_by_vertices(n, rows), "the reference's two counts differ");
    }
    i64::from(n) - edges as i64 + i64::from(rows.elements())
}

/// How many different pairs of vertices the sides join.
fn edges_by_sides(rows: Rows) -> usize {
    rows.sides().map(|s| rows.ends(s)).collect::<HashSet<_>>().len()
}

/// The same by the rule, word by word: of each two vertices, whether a side joins them.
fn edges_by_vertices(n: u32, rows: Rows) -> usize {
    let pairs = (1..=n).flat_map(|b| (1..b).map(move |a| (a, b)));
    pairs.filter(|&(a, b)| (1..=rows.elements()).any(|f| rows.joins(f, a, b))).count()
}

/// How many parts of the vertices there are that no side joins to each other. An unused vertex is one.
pub fn parts(n: u32, elements: &[u32]) -> usize {
    let (rows, mut parts) = (Rows(elements), Parts::new(n as usize));
    for (a, b) in rows.sides().map(|s| rows.ends(s)) {
        parts.join(a as usize - 1, b as usize - 1);
    }
    (0..n as usize).filter(|&at| parts.least(at) == at).count()
}

/// The two numbers of an answer, 28 bits each, that are this number in two's complement.
pub fn halves(number: i64) -> (u32, u32) {
    let (half, whole) = (1 << 28, 1 << 56);
    let complement = number.rem_euclid(whole);
    ((complement / half) as u32, (complement % half) as u32)
}

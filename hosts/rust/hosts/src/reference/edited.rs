//! An accepted list that is edited, with a map from two vertices, in one direction, to the side that runs so. It is made
//! once and kept up over a run of edits. What is refused is looked up in it: the new list isn't built.

use super::{check_sizes, columns_of, sides_by_origin, tables, tables_of};
use super::{Built, Lengths, Refused, Rows, Side, FEW, NOT_THERE, UNFIT};
use std::collections::HashMap;

/// A border half-edge, or an edge that this edit doesn't take.
pub(super) const EDGE_UNFIT: Refused = (15, 0, 0);

/// An edited list with its tables.
#[derive(Clone, Debug, PartialEq, Eq)]
pub struct NewList {
    pub list: Vec<u32>,
    pub tables: Built,
}

impl NewList {
    /// Refused where B2e hasn't room for its k.
    pub(super) fn with_room(self, b2e: usize) -> Result<NewList, Refused> {
        let k = self.tables.b2e.len();
        (k <= b2e).then_some(self).ok_or((9, k as u32, 0))
    }
}

/// Whether the buffers but B2e have room for n vertices and m elements.
pub(super) fn has_room(n: u32, m: u32, columns: u32, lengths: Lengths) -> bool {
    let (n, m) = (n as usize, m as usize);
    let tables = lengths.v2e >= n && lengths.e2e >= columns as usize * m;
    tables && lengths.elements >= 4 * m && lengths.work >= n + 16 * m
}

/// Checks 1 and 2, and the list that is held.
pub fn held(n: u32, m: u32, elements: &[u32], lengths: Lengths) -> Result<&[u32], Refused> {
    check_sizes(n, m as usize, 0)?;
    let list = elements.get(..4 * m as usize).ok_or(UNFIT)?;
    has_room(n, m, columns_of(list), lengths).then_some(list).ok_or(UNFIT)
}

/// The same with the points of the vertices, three numbers for each.
pub fn held_with_points<'a>(
    n: u32,
    m: u32,
    elements: &'a [u32],
    lengths: Lengths,
    points: &[f64],
) -> Result<&'a [u32], Refused> {
    let list = held(n, m, elements, lengths)?;
    (points.len() >= 3 * n as usize).then_some(list).ok_or(UNFIT)
}

/// An edge with no quadrilateral on it: a side of it, the partner if there is one, and the vertices where the side begins
/// and ends.
#[derive(Clone, Copy, Debug)]
pub struct Edge {
    pub(super) s: Side,
    pub(super) t: Option<Side>,
    pub(super) a: u32,
    pub(super) b: u32,
}

impl Edge {
    /// How many triangles are on it.
    pub fn triangles(self) -> u32 {
        self.sides().count() as u32
    }

    pub(super) fn sides(self) -> impl Iterator<Item = Side> {
        [Some(self.s), self.t].into_iter().flatten()
    }
}

/// An accepted list on its way through a run of edits.
#[derive(Clone)]
pub struct Edited {
    pub(super) n: u32,
    pub(super) list: Vec<u32>,
    /// How many sides have no partner.
    pub(super) k: u32,
    /// By origin and destination.
    pub(super) sides: HashMap<(u32, u32), Side>,
    /// The quadrilateral that has these two corners for a diagonal, the lower first.
    pub(super) diagonals: HashMap<(u32, u32), u32>,
}

pub(super) fn in_order(a: u32, b: u32) -> (u32, u32) {
    (a.min(b), a.max(b))
}

/// Of a triangle none.
pub(super) fn diagonals_of(rows: Rows, f: u32) -> impl Iterator<Item = (u32, u32)> {
    let ends = match *rows.corners(f) {
        [a, b, c, d] => Some([in_order(a, c), in_order(b, d)]),
        _ => None,
    };
    ends.into_iter().flatten()
}

impl Edited {
    /// Refused as building refuses the list, but for 9.
    pub fn new(n: u32, list: &[u32]) -> Result<Edited, Refused> {
        tables(n, list).map(|_| Edited::of_accepted(n, list))
    }

    /// The same for a list that is known to be accepted.
    pub fn of_accepted(n: u32, list: &[u32]) -> Edited {
        let rows = Rows(list);
        let sides: HashMap<(u32, u32), Side> =
            rows.sides().map(|s| ((rows.origin(s), rows.destination(s)), s)).collect();
        let k = sides.keys().filter(|&&(a, b)| !sides.contains_key(&(b, a))).count() as u32;
        let of_element = |f| diagonals_of(rows, f).map(move |ends| (ends, f));
        let diagonals = (1..=rows.elements()).flat_map(of_element).collect();
        Edited { n, list: list.to_vec(), k, sides, diagonals }
    }

    pub fn n(&self) -> u32 {
        self.n
    }

    pub fn list(&self) -> &[u32] {
        &self.list
    }

    pub fn borders(&self) -> u32 {
        self.k
    }

    /// The edge of a code.
    pub fn edge(&self, code: u32) -> Result<Edge, Refused> {
        let rows = Rows(&self.list);
        if code % 8 == 0 && (1..=self.k).contains(&(code / 8)) {
            return Err(EDGE_UNFIT);
        }
        let s = rows.side(code).ok_or(NOT_THERE)?;
        let (a, b) = (rows.origin(s), rows.destination(s));
        let edge = Edge { s, t: self.sides.get(&(b, a)).copied(), a, b };
        let fit = edge.sides().all(|side| rows.sides_of(side.f) == 3);
        fit.then_some(edge).ok_or(EDGE_UNFIT)
    }

    /// A row of the list put down, or one after the last; the map knows its sides.
    pub(super) fn put_triangle(&mut self, f: u32, corners: [u32; 3]) {
        let [x, y, z] = corners;
        let at = 4 * f as usize - 4;
        self.list.resize(self.list.len().max(at + 4), 0);
        self.list[at..at + 4].copy_from_slice(&[x, y, z, 0]);
        let ends = [(x, y), (y, z), (z, x)];
        self.sides.extend((1..).zip(ends).map(|(i, ends)| (ends, Side { f, i })));
    }

    /// Whether there are so few elements that an edit is also made by its rule, word by word.
    pub(super) fn has_few(&self) -> bool {
        self.list.len() <= 4 * FEW as usize
    }

    /// The list as it is now, with its tables.
    pub(super) fn new_list(&self) -> NewList {
        NewList { list: self.list.clone(), tables: self.tables() }
    }

    /// The tables of the list as it is now.
    pub fn tables(&self) -> Built {
        let rows = Rows(&self.list);
        let mut partners = vec![None; self.list.len()];
        for s in rows.sides() {
            partners[s.slot()] = self.sides.get(&(rows.destination(s), rows.origin(s))).copied();
        }
        tables_of(rows, &partners, &sides_by_origin(self.n, rows))
    }
}

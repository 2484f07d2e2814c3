//! Contractions of edges by the map of an edited list, and by the rule. Rows and points stand in vectors here, from which
//! they are taken by `swap_remove`.

use super::edited::{diagonals_of, held_with_points, Edge, Edited, NewList};
use super::{columns_of, meet_well, tables, Lengths, Opposites, Refused, Rows, Side, NOT_THERE};
use std::collections::{HashMap, HashSet};

const PINCHED: Refused = (20, 0, 0);
const STRANDED: Refused = (21, 0, 0);

/// What a contraction writes: n is one less.
#[derive(Clone, Debug)]
pub struct Contracted {
    pub new: NewList,
    /// of the vertices that are left
    pub points: Vec<f64>,
}

pub fn contract(
    n: u32,
    m: u32,
    elements: &[u32],
    lengths: Lengths,
    points: &[f64],
    code: u32,
) -> Result<Contracted, Refused> {
    let list = held_with_points(n, m, elements, lengths, points)?;
    let mut edited = Edited::new(n, list)?;
    let edge = edited.edge(code)?;
    edited.contract(edge)?;
    let new = edited.new_list().with_room(lengths.b2e)?;
    Ok(Contracted { new, points: edge.points_left(&points[..3 * n as usize]) })
}

impl Edge {
    /// Of the points of all vertices, those that are left.
    pub fn points_left(self, points: &[f64]) -> Vec<f64> {
        let mut points: Vec<[f64; 3]> = points.chunks_exact(3).map(|p| [p[0], p[1], p[2]]).collect();
        points.swap_remove(self.b as usize - 1);
        points.into_flattened()
    }

    /// The number that a vertex has afterwards; the last of n gets that of b.
    fn renamed(self, n: u32, v: u32) -> u32 {
        let merged = if v == self.b { self.a } else { v };
        if merged == n {
            self.b
        } else {
            merged
        }
    }

    /// Of all rows those that are left, with their new corners.
    fn rows_left(self, n: u32, rows: Rows) -> Vec<[u32; 4]> {
        let mut left: Vec<[u32; 4]> = rows.0.chunks_exact(4).map(|row| [row[0], row[1], row[2], row[3]]).collect();
        let mut on_edge: Vec<u32> = self.sides().map(|side| side.f).collect();
        on_edge.sort();
        while let Some(f) = on_edge.pop() {
            left.swap_remove(f as usize - 1);
        }
        left.as_flattened_mut().iter_mut().filter(|v| **v != 0).for_each(|v| *v = self.renamed(n, *v));
        left
    }
}

/// The sides that begin at a vertex.
fn sides_at(rows: Rows, v: u32) -> Vec<Side> {
    rows.sides().filter(|&s| rows.origin(s) == v).collect()
}

/// The vertices to which sides join it.
fn neighbours(rows: Rows, at: &[Side]) -> HashSet<u32> {
    at.iter().flat_map(|&s| [rows.destination(s), rows.origin(rows.previous(s))]).collect()
}

fn third_corner(rows: Rows, side: Side) -> u32 {
    rows.origin(rows.previous(side))
}

/// The least pair of elements at this vertex that don't meet well. Such two have another corner in common as well.
fn clash_at(rows: Rows, v: u32) -> Option<(u32, u32)> {
    let mut by_corner: HashMap<u32, Vec<u32>> = HashMap::new();
    for Side { f, .. } in sides_at(rows, v) {
        for &corner in rows.corners(f).iter().filter(|&&corner| corner != v) {
            by_corner.entry(corner).or_default().push(f);
        }
    }
    let pairs = by_corner.values().flat_map(|fs| fs.iter().flat_map(|&f| fs.iter().map(move |&g| (f, g))));
    pairs.filter(|&(f, g)| f < g && !meet_well(rows, f, g)).min()
}

impl Edited {
    /// Refused, it leaves the list as it was. Where there are few elements, the rule is also followed word by word.
    pub fn contract(&mut self, edge: Edge) -> Result<(), Refused> {
        let by_rule = self.has_few().then(|| by_rule(self.n, &self.list, edge.s.code()));
        let answer = self.contract_by_map(edge);
        if let Some(by_rule) = by_rule {
            assert_eq!(answer.map(|()| self.new_list()), by_rule, "the reference's two contractions differ");
        }
        answer
    }

    fn contract_by_map(&mut self, edge: Edge) -> Result<(), Refused> {
        self.can_be_merged(edge)?;
        let left = edge.rows_left(self.n, Rows(&self.list));
        if let Some((f, g)) = clash_at(Rows(left.as_flattened()), edge.renamed(self.n, edge.a)) {
            return Err((18, f, g));
        }
        self.replace_rows(left.into_flattened());
        self.n -= 1;
        self.k -= edge.t.is_none() as u32;
        Ok(())
    }

    /// 20, 21 and 8, by the elements at the vertices of the edge and by its third corners.
    fn can_be_merged(&self, edge: Edge) -> Result<(), Refused> {
        let rows = Rows(&self.list);
        let thirds: HashSet<u32> = edge.sides().map(|side| third_corner(rows, side)).collect();
        let [at_a, at_b] = [edge.a, edge.b].map(|v| sides_at(rows, v));
        let common = &neighbours(rows, &at_a) & &neighbours(rows, &at_b);
        if !common.is_subset(&thirds) {
            return Err(PINCHED);
        }
        // A third corner has one element on the edge; a and b have all of these each.
        let alone = at_a.len() + at_b.len() == 2 * edge.triangles() as usize;
        if alone || thirds.iter().any(|&v| sides_at(rows, v).len() == 1) {
            return Err(STRANDED);
        }
        // On either side of the edge elements stay, and where neither end has a whole turn these are two fans.
        if edge.t.is_some() && self.is_on_border(&at_a) && self.is_on_border(&at_b) {
            return Err((8, edge.renamed(self.n, edge.a), 0));
        }
        Ok(())
    }

    /// Whether a side that begins at the vertex has no partner.
    fn is_on_border(&self, at: &[Side]) -> bool {
        let rows = Rows(&self.list);
        at.iter().any(|&s| !self.sides.contains_key(&(rows.destination(s), rows.origin(s))))
    }

    /// Another list, with one row less or two. Of the rows that it changes the map forgets all before it learns any.
    fn replace_rows(&mut self, new: Vec<u32>) {
        let rows = Rows(&self.list);
        let with_new = (1..).zip(rows.0.chunks_exact(4).zip(new.chunks_exact(4).map(Some).chain([None; 2])));
        let changed: Vec<u32> = with_new.filter(|(_, (old, new))| Some(*old) != *new).map(|(f, _)| f).collect();
        for s in changed.iter().flat_map(|&f| (1..=rows.sides_of(f)).map(move |i| Side { f, i })) {
            self.sides.remove(&(rows.origin(s), rows.destination(s)));
        }
        for ends in changed.iter().flat_map(|&f| diagonals_of(rows, f)) {
            self.diagonals.remove(&ends);
        }
        let rows = Rows(&new);
        for &f in changed.iter().filter(|&&f| f <= rows.elements()) {
            let sides = (1..=rows.sides_of(f)).map(|i| Side { f, i });
            self.sides.extend(sides.map(|s| ((rows.origin(s), rows.destination(s)), s)));
            self.diagonals.extend(diagonals_of(rows, f).map(|ends| (ends, f)));
        }
        self.list = new;
    }
}

/// The same from the list alone: the partner is that of its tables, each vertex is tried, and the new list is built.
fn by_rule(n: u32, list: &[u32], code: u32) -> Result<NewList, Refused> {
    let old = tables(n, list)?;
    let rows = Rows(list);
    let e2e = Opposites { columns: columns_of(list), entries: &old.e2e };
    let s = rows.side(code).ok_or(NOT_THERE)?;
    let partner = e2e.entry(s).and_then(|partner| rows.side(partner));
    let (a, b) = (rows.origin(s), rows.destination(s));
    let is_third = |v| [Some(s), partner].into_iter().flatten().any(|side| third_corner(rows, side) == v);
    let joined = |u, v| (1..=rows.elements()).any(|f| rows.joins(f, u, v));
    if (1..=n).any(|v| joined(a, v) && joined(b, v) && !is_third(v)) {
        return Err(PINCHED);
    }
    let mut new = list.to_vec();
    let (f, g) = (s.f, partner.map(|partner| partner.f));
    for goes in [g.max(Some(f)), g.map(|g| g.min(f))].into_iter().flatten() {
        let last = new.split_off(new.len() - 4);
        if let Some(row) = new.chunks_exact_mut(4).nth(goes as usize - 1) {
            row.copy_from_slice(&last);
        }
    }
    new.iter_mut().filter(|v| **v == b).for_each(|v| *v = a);
    if (1..=n).any(|v| v != b && list.contains(&v) && !new.contains(&v)) {
        return Err(STRANDED);
    }
    new.iter_mut().filter(|v| **v == n).for_each(|v| *v = b);
    tables(n - 1, &new).map(|tables| NewList { list: new, tables })
}

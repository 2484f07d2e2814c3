//! Splits of edges by the map of an edited list, and by the rule. Midpoints are worked out in whole numbers.

use super::edited::{has_room, held_with_points, Edge, Edited, NewList, EDGE_UNFIT};
use super::midway::midway;
use super::{columns_of, tables, Lengths, Opposites, Refused, Rows, Side, MAX_ELEMENTS, MAX_VERTICES, NOT_THERE};

const NO_ROOM: Refused = (19, 0, 0);

/// What a split writes: n is one more.
#[derive(Clone, Debug)]
pub struct Split {
    pub new: NewList,
    pub point: [f64; 3],
}

pub fn split(n: u32, m: u32, elements: &[u32], lengths: Lengths, points: &[f64], code: u32) -> Result<Split, Refused> {
    let list = held_with_points(n, m, elements, lengths, points)?;
    let mut edited = Edited::new(n, list)?;
    let edge = edited.edge(code)?;
    edge.check_room(n, m, columns_of(list), lengths, points.len())?;
    edited.split(edge);
    let new = edited.new_list().with_room(lengths.b2e)?;
    Ok(Split { new, point: edge.midpoint(points) })
}

impl Edge {
    pub fn midpoint(self, points: &[f64]) -> [f64; 3] {
        let number = |v: u32, i: usize| points[3 * (v as usize - 1) + i];
        [0, 1, 2].map(|i| midway(number(self.a, i), number(self.b, i)))
    }

    /// 19: for one vertex more, and one element or two.
    fn check_room(self, n: u32, m: u32, columns: u32, lengths: Lengths, points: usize) -> Result<(), Refused> {
        let (n, m) = (n + 1, m + self.triangles());
        let fit = n <= MAX_VERTICES && m as usize <= MAX_ELEMENTS && points >= 3 * n as usize;
        (fit && has_room(n, m, columns, lengths)).then_some(()).ok_or(NO_ROOM)
    }
}

impl Edited {
    /// Where there are few elements, the rule is also followed word by word.
    pub fn split(&mut self, edge: Edge) {
        let by_rule = self.has_few().then(|| by_rule(self.n, &self.list, edge.s.code()));
        self.split_by_map(edge);
        if let Some(by_rule) = by_rule {
            assert_eq!(Ok(self.new_list()), by_rule, "the reference's two splits differ");
        }
    }

    fn split_by_map(&mut self, Edge { s, t, a, b }: Edge) {
        self.n += 1;
        self.halve(s, a, b);
        match t {
            Some(t) => self.halve(t, b, a),
            None => self.k += 1,
        }
    }

    /// Of the triangle of a side, which runs from a to b, the half at a stays in its row.
    fn halve(&mut self, side: Side, a: u32, b: u32) {
        let (v, rows) = (self.n, Rows(&self.list));
        let corners: [u32; 3] = rows.corners(side.f).try_into().expect("a triangle has three corners");
        let last = rows.elements() + 1;
        let with_v_for = |corner| corners.map(|other| if other == corner { v } else { other });
        self.sides.remove(&(a, b));
        self.put_triangle(side.f, with_v_for(b));
        self.put_triangle(last, with_v_for(a));
    }
}

/// The same from the list alone: the partner is that of its tables, corners are put by their places, and the new list is
/// built.
fn by_rule(n: u32, list: &[u32], code: u32) -> Result<NewList, Refused> {
    let old = tables(n, list)?;
    let rows = Rows(list);
    let e2e = Opposites { columns: columns_of(list), entries: &old.e2e };
    let s = rows.side(code).ok_or(NOT_THERE)?;
    let partner = e2e.entry(s).and_then(|partner| rows.side(partner));
    let mut list = list.to_vec();
    for side in [Some(s), partner].into_iter().flatten() {
        if rows.sides_of(side.f) == 4 {
            return Err(EDGE_UNFIT);
        }
        let mut appended: [u32; 4] = rows.0[4 * side.f as usize - 4..][..4].try_into().expect("a row has four entries");
        appended[side.i as usize - 1] = n + 1;
        list[rows.next(side).slot()] = n + 1;
        list.extend(appended);
    }
    tables(n + 1, &list).map(|tables| NewList { list, tables })
}

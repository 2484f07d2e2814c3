//! Swaps of diagonals by the map of an edited list, and by the rule.

use super::edited::{held, in_order, Edge, Edited, NewList, EDGE_UNFIT};
use super::{columns_of, tables, Lengths, Opposites, Refused, Rows, Side, NOT_THERE};

pub fn swap(n: u32, m: u32, elements: &[u32], lengths: Lengths, code: u32) -> Result<NewList, Refused> {
    let list = held(n, m, elements, lengths)?;
    let mut edited = Edited::new(n, list)?;
    edited.swap(code)?;
    edited.new_list().with_room(lengths.b2e)
}

impl Edited {
    /// Refused, it leaves the list as it was. Where there are few elements, the rule is also followed word by word.
    pub fn swap(&mut self, code: u32) -> Result<(), Refused> {
        let by_rule = self.has_few().then(|| by_rule(self.n, &self.list, code));
        let answer = self.swap_by_map(code);
        if let Some(by_rule) = by_rule {
            assert_eq!(answer.map(|()| self.new_list()), by_rule, "the reference's two swaps differ");
        }
        answer
    }

    fn swap_by_map(&mut self, code: u32) -> Result<(), Refused> {
        let Edge { s, t, a, b } = self.edge(code)?;
        let t = t.ok_or(EDGE_UNFIT)?;
        let rows = Rows(&self.list);
        let [c, d] = [s, t].map(|side| rows.corners(side.f).iter().copied().find(|&v| v != a && v != b));
        let (c, d) = c.zip(d).expect("a triangle has a third corner");
        self.can_join(c, d, s.f, t.f)?;
        self.sides.remove(&(a, b));
        self.sides.remove(&(b, a));
        self.put_triangle(s.f, [c, a, d]);
        self.put_triangle(t.f, [d, b, c]);
        Ok(())
    }

    /// c and d would be joined by the third sides of f and g: with others there it's 6, by the least of all, and with a
    /// quadrilateral's diagonal there 18.
    fn can_join(&self, c: u32, d: u32, f: u32, g: u32) -> Result<(), Refused> {
        let joined = [(c, d), (d, c)].into_iter().filter_map(|ends| self.sides.get(&ends).copied());
        if let Some(least) = joined.min() {
            let least = least.min(Side { f, i: 3 }).min(Side { f: g, i: 3 });
            return Err((6, least.f, least.i));
        }
        match self.diagonals.get(&in_order(c, d)) {
            Some(&h) => {
                let (lower, higher) = in_order(h, f).min(in_order(h, g));
                Err((18, lower, higher))
            }
            None => Ok(()),
        }
    }
}

/// The same from the list alone: partners are those of its tables, and the new list is built.
fn by_rule(n: u32, list: &[u32], code: u32) -> Result<NewList, Refused> {
    let old = tables(n, list)?;
    let rows = Rows(list);
    if code != 0 && code % 8 == 0 && code as usize / 8 <= old.b2e.len() {
        return Err(EDGE_UNFIT);
    }
    let e2e = Opposites { columns: columns_of(list), entries: &old.e2e };
    let s = rows.side(code).ok_or(NOT_THERE)?;
    let t = e2e.entry(s).and_then(|partner| rows.side(partner)).ok_or(EDGE_UNFIT)?;
    let mut list = list.to_vec();
    for (s, t) in [(s, t), (t, s)] {
        if rows.sides_of(s.f) == 4 {
            return Err(EDGE_UNFIT);
        }
        let third = |side| rows.origin(rows.previous(side));
        list[4 * s.f as usize - 4..4 * s.f as usize].copy_from_slice(&[third(s), rows.origin(s), third(t), 0]);
    }
    tables(n, &list).map(|tables| NewList { list, tables })
}

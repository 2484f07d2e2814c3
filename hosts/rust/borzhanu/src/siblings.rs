//! An element list with its sibling half-edges, owned.

use crate::{columns, siblings, side, work_length, HalfEdge, Refusal};
use std::iter::FusedIterator;

/// An element list and its sibling half-edges: from each side to the next one on the same edge, however many elements
/// meet there. Whatever is asked of them, the only refusal is [`Refusal::NotThere`].
///
/// ```
/// use borzhanu::{HalfEdge, Siblings};
///
/// // Three triangles on the edge of vertices 1 and 2, the second of them the other way.
/// let siblings = Siblings::build(5, &[[1, 2, 3, 0], [2, 1, 4, 0], [1, 2, 5, 0]])?;
/// assert_eq!(siblings.sibling(HalfEdge::side(1, 1))?, HalfEdge::side(2, 1));
/// assert_eq!(siblings.sibling(HalfEdge::side(3, 1))?, HalfEdge::side(1, 1));
/// assert!(siblings.plates(HalfEdge::side(2, 1))?.eq([2, 3, 1]));
///
/// // The second side of each is alone on its edge.
/// let lone = HalfEdge::side(1, 2);
/// assert_eq!(siblings.sibling(lone)?, lone);
/// assert_eq!(siblings.edges().count(), 7);
/// # Ok::<(), borzhanu::Refusal>(())
/// ```
#[derive(Clone, Debug, PartialEq, Eq)]
pub struct Siblings {
    rows: Vec<[u32; 4]>,
    v2e: Vec<u32>,
    siblings: Vec<u32>,
}

impl Siblings {
    /// Finds the siblings in the element list `rows` on n vertices. A row is four corners, the fourth 0 for a triangle.
    /// Vertices that no element uses are accepted, however many there are.
    ///
    /// # Errors
    ///
    /// Refusals 1, 3 and 4. How the elements meet isn't judged.
    pub fn build(n: u32, rows: &[[u32; 4]]) -> Result<Siblings, Refusal> {
        let elements = rows.as_flattened();
        // Numbers over their maximum are refused here, before memory is taken for them.
        columns(n, elements)?;
        let mut v2e = vec![0; n as usize];
        let mut map = vec![0; elements.len()];
        let mut work = vec![0; work_length(n, rows.len())];
        siblings(n, elements, &mut v2e, &mut map, &mut work)?;
        Ok(Siblings { rows: rows.to_vec(), v2e, siblings: map })
    }

    /// The number of vertices.
    pub fn n(&self) -> u32 {
        self.v2e.len() as u32
    }

    /// The element list, 4 × m entries.
    pub fn elements(&self) -> &[u32] {
        self.rows.as_flattened()
    }

    /// The least side of each vertex, n codes; 0 for a vertex that no element uses.
    pub fn v2e(&self) -> &[u32] {
        &self.v2e
    }

    /// The map, 4 × m codes: side i of element f has entry 4 × (f − 1) + (i − 1), counted from 0, and a triangle's fourth
    /// entry is 0.
    pub fn siblings(&self) -> &[u32] {
        &self.siblings
    }

    /// The next higher side that joins the same two vertices, in either direction; of the last one the first, of a lone
    /// side itself.
    ///
    /// # Errors
    ///
    /// [`Refusal::NotThere`] where the list has no such side, and for a border half-edge.
    pub fn sibling(&self, side: HalfEdge) -> Result<HalfEdge, Refusal> {
        self.is_there(side).map(|()| self.after(side))
    }

    /// The least side that starts at a vertex; `None` for an unused vertex. From it [`Siblings::sides`] leads to the
    /// elements that hang together by edges at the vertex. Others may touch them at this point alone, as two fans do.
    ///
    /// # Errors
    ///
    /// [`Refusal::NotThere`] where the list has no vertex v.
    pub fn least_side(&self, v: u32) -> Result<Option<HalfEdge>, Refusal> {
        let entry = (v as usize).checked_sub(1).and_then(|at| self.v2e.get(at)).ok_or(Refusal::NotThere)?;
        Ok(Some(HalfEdge::from_code(*entry)).filter(|side| side.code() != 0))
    }

    /// The vertex where a side begins.
    ///
    /// # Errors
    ///
    /// [`Refusal::NotThere`] where the list has no such side, and for a border half-edge.
    pub fn origin(&self, side: HalfEdge) -> Result<u32, Refusal> {
        self.is_there(side).map(|()| self.elements()[slot(side)])
    }

    /// The vertex where a side ends.
    ///
    /// # Errors
    ///
    /// [`Refusal::NotThere`] where the list has no such side, and for a border half-edge.
    pub fn destination(&self, side: HalfEdge) -> Result<u32, Refusal> {
        self.is_there(side)?;
        let (f, i) = side.numbers();
        let row = &self.rows[f as usize - 1];
        Ok(row[i as usize % corners(row)])
    }

    /// The sides that join the same two vertices as this one, in either direction: each once, this one first, and then
    /// the next higher, past the highest on from the least.
    ///
    /// # Errors
    ///
    /// [`Refusal::NotThere`] where the list has no such side, and for a border half-edge.
    pub fn sides(&self, side: HalfEdge) -> Result<Sides<'_>, Refusal> {
        self.is_there(side)?;
        Ok(Sides { siblings: self, first: side, following: Some(side) })
    }

    /// The elements that meet at a side's edge, its own first: those of [`Siblings::sides`].
    ///
    /// # Errors
    ///
    /// [`Refusal::NotThere`] where the list has no such side, and for a border half-edge.
    pub fn plates(&self, side: HalfEdge) -> Result<Plates<'_>, Refusal> {
        self.sides(side).map(Plates)
    }

    /// The edges, each by its least side, in rising order.
    pub fn edges(&self) -> impl Iterator<Item = HalfEdge> + '_ {
        let mut is_least = vec![false; self.siblings.len()];
        // The last side of each edge has the least for its sibling.
        for last in self.all_sides().filter(|&side| self.after(side) <= side) {
            is_least[slot(self.after(last))] = true;
        }
        self.all_sides().filter(move |&side| is_least[slot(side)])
    }

    fn all_sides(&self) -> impl Iterator<Item = HalfEdge> + '_ {
        let of_element = |(f, row)| (1..=corners(row) as u32).map(move |i| HalfEdge::from_code(side(f, i)));
        (1..).zip(&self.rows).flat_map(of_element)
    }

    fn is_there(&self, side: HalfEdge) -> Result<(), Refusal> {
        let (f, i) = side.numbers();
        let row = (f as usize).checked_sub(1).and_then(|at| self.rows.get(at)).ok_or(Refusal::NotThere)?;
        (1..=corners(row)).contains(&(i as usize)).then_some(()).ok_or(Refusal::NotThere)
    }

    /// The sibling of a side that is there.
    fn after(&self, side: HalfEdge) -> HalfEdge {
        HalfEdge::from_code(self.siblings[slot(side)])
    }
}

/// The sides at an edge, each once: [`Siblings::sides`].
#[derive(Clone, Debug)]
pub struct Sides<'a> {
    siblings: &'a Siblings,
    first: HalfEdge,
    following: Option<HalfEdge>,
}

impl Iterator for Sides<'_> {
    type Item = HalfEdge;

    fn next(&mut self) -> Option<HalfEdge> {
        let side = self.following?;
        self.following = Some(self.siblings.after(side)).filter(|&next| next != self.first);
        Some(side)
    }
}

impl FusedIterator for Sides<'_> {}

/// The elements at an edge, one for each of its sides: [`Siblings::plates`].
#[derive(Clone, Debug)]
pub struct Plates<'a>(Sides<'a>);

impl Iterator for Plates<'_> {
    type Item = u32;

    fn next(&mut self) -> Option<u32> {
        self.0.next().map(|side| side.numbers().0)
    }
}

impl FusedIterator for Plates<'_> {}

fn corners(row: &[u32; 4]) -> usize {
    if row[3] == 0 {
        3
    } else {
        4
    }
}

/// Where a side stands in rows of four.
fn slot(side: HalfEdge) -> usize {
    let (f, i) = side.numbers();
    4 * (f as usize - 1) + i as usize - 1
}

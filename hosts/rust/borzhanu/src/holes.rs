//! The holes of a mesh, owned.

use crate::{work_length, Mesh, Refusal};

/// The holes of a mesh: which one each border half-edge is on, and how long each is. The outer rim of an open plate is
/// one of them. They are numbered from 1, by their least border half-edges. Whatever is asked of them, the only refusal
/// is [`Refusal::NotThere`].
///
/// ```
/// use borzhanu::Tables;
///
/// // A plate of eight quadrilaterals about a missing one, on four vertices by four.
/// let cells = [1, 2, 3, 5, 7, 9, 10, 11];
/// let tables = Tables::build(16, &cells.map(|v| [v, v + 1, v + 5, v + 4]))?;
/// let holes = tables.holes();
/// assert_eq!(holes.count(), 2);
///
/// // The plate's outer rim is one hole, and the opening is another.
/// let opening = holes.iter().find(|hole| hole.length < 12).expect("a cell is missing");
/// assert_eq!((opening.number, opening.length), (2, 4));
/// assert!(tables.border_loop(opening.first)?.iter().all(|&b| holes.hole(b) == Ok(2)));
/// # Ok::<(), borzhanu::Refusal>(())
/// ```
#[derive(Clone, Debug, PartialEq, Eq)]
pub struct Holes {
    holes: Vec<u32>,
    lengths: Vec<u32>,
    firsts: Vec<u32>,
}

/// A hole.
#[derive(Clone, Copy, Debug, PartialEq, Eq, Hash)]
pub struct Hole {
    /// Its number.
    pub number: u32,
    /// Its least border half-edge, by number. The border loop from there lists the rim.
    pub first: u32,
    /// How many border half-edges it has.
    pub length: u32,
}

impl Holes {
    /// Finds the holes of a mesh, whatever its tables hold.
    ///
    /// # Errors
    ///
    /// Refusal 12 where any border loop meets a broken table entry or doesn't come back; never on tables that
    /// [`build`](crate::build) wrote.
    pub fn of(mesh: &Mesh) -> Result<Holes, Refusal> {
        let k = mesh.b2e().len();
        let (mut holes, mut lengths) = (vec![0; k], vec![0; k]);
        let mut work = vec![0; work_length(mesh.n(), mesh.elements().len() / 4)];
        let count = mesh.holes(&mut holes, &mut lengths, &mut work)?;
        lengths.truncate(count);
        let mut firsts = Vec::with_capacity(count);
        for (b, &hole) in (1..).zip(&holes) {
            // Numbers rise with the least border half-edges, so that each hole is met first where it begins.
            if hole as usize > firsts.len() {
                firsts.push(b);
            }
        }
        Ok(Holes { holes, lengths, firsts })
    }

    /// The number of holes.
    pub fn count(&self) -> u32 {
        self.lengths.len() as u32
    }

    /// The hole of each border half-edge, k numbers.
    pub fn holes(&self) -> &[u32] {
        &self.holes
    }

    /// The length of each hole. Together they are k.
    pub fn lengths(&self) -> &[u32] {
        &self.lengths
    }

    /// The hole that border half-edge b is on.
    ///
    /// # Errors
    ///
    /// [`Refusal::NotThere`] where the mesh has no border half-edge b.
    pub fn hole(&self, b: u32) -> Result<u32, Refusal> {
        numbered(&self.holes, b)
    }

    /// How many border half-edges a hole has.
    ///
    /// # Errors
    ///
    /// [`Refusal::NotThere`] where the mesh has no such hole.
    pub fn length(&self, hole: u32) -> Result<u32, Refusal> {
        numbered(&self.lengths, hole)
    }

    /// The least border half-edge of a hole, by number. The border loop from there lists the rim.
    ///
    /// # Errors
    ///
    /// [`Refusal::NotThere`] where the mesh has no such hole.
    pub fn first(&self, hole: u32) -> Result<u32, Refusal> {
        numbered(&self.firsts, hole)
    }

    /// The holes, in order of their numbers.
    pub fn iter(&self) -> impl Iterator<Item = Hole> + '_ {
        let each = (1..).zip(&self.firsts).zip(&self.lengths);
        each.map(|((number, &first), &length)| Hole { number, first, length })
    }
}

/// The entry of a number that counts from 1.
fn numbered(entries: &[u32], number: u32) -> Result<u32, Refusal> {
    (number as usize).checked_sub(1).and_then(|at| entries.get(at)).copied().ok_or(Refusal::NotThere)
}

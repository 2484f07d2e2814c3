//! Holes, as the parts that next joins. Every border loop comes back exactly where no two border half-edges have the
//! same one next, and then the loops are these parts.

use super::{Mesh, Refused, View, BROKEN, UNFIT};
use std::mem;

/// Up to so many border half-edges the loop of each is looked at.
const FEW: usize = 200;

/// What the call writes: the hole of each border half-edge, and the length of each hole.
#[derive(Clone, Debug, PartialEq, Eq)]
pub struct Holes {
    pub hole: Vec<u32>,
    pub lengths: Vec<u32>,
}

/// Checks 1 and 2: those of a query, and a work buffer as long as that of building.
pub fn check<'a>(view: &View<'a>, work: usize) -> Result<Mesh<'a>, Refused> {
    let mesh = view.fit()?;
    let m = view.elements.len() / 4;
    (work >= view.n as usize + 16 * m).then_some(mesh).ok_or(UNFIT)
}

/// Where there are few border half-edges, two searches for the same.
pub fn holes(mesh: &Mesh) -> Result<Holes, Refused> {
    let holes = by_parts(mesh);
    if mesh.b2e.len() <= FEW {
        assert_eq!(holes, by_loops(mesh), "the reference's two searches differ");
    }
    holes
}

/// The same by the loop of each border half-edge: its hole is that of the least which the loop lists.
fn by_loops(mesh: &Mesh) -> Result<Holes, Refused> {
    let loops = (1..=mesh.b2e.len() as u32).map(|b| mesh.border_loop(b)).collect::<Result<Vec<_>, _>>()?;
    let leasts: Vec<u32> = loops.iter().map(|listed| listed.iter().copied().min().unwrap_or(0)).collect();
    let mut firsts = leasts.clone();
    firsts.sort();
    firsts.dedup();
    let hole = leasts.iter().map(|least| 1 + firsts.partition_point(|first| first < least) as u32).collect();
    let lengths = firsts.iter().map(|&first| loops[first as usize - 1].len() as u32).collect();
    Ok(Holes { hole, lengths })
}

fn by_parts(mesh: &Mesh) -> Result<Holes, Refused> {
    let k = mesh.b2e.len();
    let mut is_next = vec![false; k];
    let mut parts = Parts::new(k);
    for b in 0..k {
        let next = mesh.next_border(b as u32 + 1)? as usize - 1;
        if mem::replace(&mut is_next[next], true) {
            return Err(BROKEN);
        }
        parts.join(b, next);
    }
    let mut holes = Holes { hole: vec![0; k], lengths: Vec::new() };
    for b in 0..k {
        let least = parts.least(b);
        if least == b {
            holes.lengths.push(0);
            holes.hole[b] = holes.lengths.len() as u32;
        }
        holes.hole[b] = holes.hole[least];
        holes.lengths[holes.hole[b] as usize - 1] += 1;
    }
    Ok(holes)
}

/// Parts of 0, 1, .. that were joined: each number leads to a lower one of its part, and the least to itself.
pub(super) struct Parts(Vec<usize>);

impl Parts {
    pub(super) fn new(count: usize) -> Parts {
        Parts((0..count).collect())
    }

    /// The least of a number's part; the way there gets shorter.
    pub(super) fn least(&mut self, mut at: usize) -> usize {
        while self.0[at] != at {
            self.0[at] = self.0[self.0[at]];
            at = self.0[at];
        }
        at
    }

    pub(super) fn join(&mut self, a: usize, b: usize) {
        let (a, b) = (self.least(a), self.least(b));
        self.0[a.max(b)] = a.min(b);
    }
}

//! Edits that are lent the points too, in buffers of lengths about what the mesh needs before and after.

use crate::call::{Call, Edge, EditWithPoints, Outcome, Question};
use crate::edits::{borders, compare_edit};
use crate::host::Host;
use crate::numbers::any_points;
use borzhanu::{contract, split, work_length, Counts, HalfEdge, OwnedMesh, Refusal};
use hosts::meshes::List;
use hosts::reference::columns_of;
use hosts::reference::edited::Edited;
use std::iter;

#[derive(Clone, Copy, Debug, PartialEq, Eq)]
pub enum Edit {
    Split,
    Contract,
}

impl Edit {
    /// Through the wrapper and straight.
    fn questions(self, edge: Edge) -> [Question; 2] {
        match self {
            Edit::Split => [Question::Split(edge), Question::RawSplit(edge)],
            Edit::Contract => [Question::Contract(edge), Question::RawContract(edge)],
        }
    }

    pub fn lent(self) -> EditWithPoints {
        match self {
            Edit::Split => split,
            Edit::Contract => contract,
        }
    }

    pub fn owned(self, mesh: &mut OwnedMesh, code: u32) -> Result<Counts, Refusal> {
        match self {
            Edit::Split => mesh.split(HalfEdge::from_code(code)),
            Edit::Contract => mesh.contract(HalfEdge::from_code(code)),
        }
    }

    /// The counts of a mesh after the edit of an edge with so many triangles.
    fn after(self, Numbers { n, m, k }: Numbers, triangles: u32) -> Numbers {
        let on_border = 2 - triangles;
        match self {
            Edit::Split => Numbers { n: n + 1, m: m + triangles, k: k + on_border },
            Edit::Contract => {
                Numbers { n: n.saturating_sub(1), m: m.saturating_sub(triangles), k: k.saturating_sub(on_border) }
            }
        }
    }
}

/// A length: so many more than the old mesh needs, than the new one does, or than both do.
#[derive(Clone, Copy, Debug)]
pub enum Length {
    Old(isize),
    New(isize),
    Both(isize),
    Zero,
}

use Length::{Both, New, Old, Zero};

/// The lengths of list, V2e, E2e, B2e, work buffer and points.
pub type Room = [Length; 6];

pub const B2E: usize = 3;
/// B2e isn't in check 2.
pub const ENOUGH: Room = [Both(0), Both(0), Both(0), New(0), Both(0), Both(0)];

/// Of vertices, elements and border half-edges.
#[derive(Clone, Copy)]
pub struct Numbers {
    pub n: u32,
    pub m: u32,
    pub k: u32,
}

impl Numbers {
    /// What list, V2e, E2e, B2e, work buffer and points of a mesh need.
    pub fn needed(self, columns: u32) -> [usize; 6] {
        let [n, m, k] = [self.n, self.m, self.k].map(|number| number as usize);
        [4 * m, n, columns as usize * m, k, work_length(self.n, m), 3 * n]
    }
}

/// An edit of a list on n vertices that has k border half-edges, at an edge with so many triangles.
#[derive(Clone, Copy)]
pub struct Subject<'a> {
    pub edit: Edit,
    pub n: u32,
    pub list: &'a [u32],
    pub k: u32,
    pub triangles: u32,
}

impl<'a> Subject<'a> {
    /// Two triangles where the code has no edge for it.
    pub fn new(edit: Edit, list: &'a List, code: u32) -> Subject<'a> {
        let edge = Edited::new(list.n, list.entries()).and_then(|edited| edited.edge(code));
        let triangles = edge.map_or(2, |edge| edge.triangles());
        Subject { edit, n: list.n, list: list.entries(), k: borders(list), triangles }
    }

    fn m(&self) -> u32 {
        self.list.len() as u32 / 4
    }

    pub fn after(&self) -> Numbers {
        self.edit.after(Numbers { n: self.n, m: self.m(), k: self.k }, self.triangles)
    }

    fn lengths(&self, room: Room) -> [usize; 6] {
        let columns = columns_of(self.list);
        let old = Numbers { n: self.n, m: self.m(), k: self.k }.needed(columns);
        let new = self.after().needed(columns);
        [0, 1, 2, 3, 4, 5].map(|at| match room[at] {
            Old(more) => old[at].saturating_add_signed(more),
            New(more) => new[at].saturating_add_signed(more),
            Both(more) => old[at].max(new[at]).saturating_add_signed(more),
            Zero => 0,
        })
    }
}

/// The edit with so much room.
pub fn compare_to(
    host: &mut Host,
    subject: Subject,
    code: u32,
    room: Room,
    points: &[f64],
    expected: impl FnOnce(&Call) -> Outcome,
) -> Outcome {
    let [list, v2e, e2e, b2e, work, len] = subject.lengths(room);
    // Past the points stands what is no number, so that no arithmetic leaves it as it is.
    let past = iter::repeat(f64::from_bits(0x7FF0_DEAD_BEEF_0001));
    let points: Vec<f64> = points.iter().copied().chain(past).take(len).collect();
    let questions = subject.edit.questions(Edge { m: subject.m(), code });
    compare_edit(host, questions, subject.n, subject.list, [list, v2e, e2e, b2e, work], &points, expected)
}

/// The same to what the reference expects, with points of all kinds.
pub fn compare(host: &mut Host, edit: Edit, list: &List, code: u32, room: Room) -> Outcome {
    let points = any_points(&mut host.dice, list.n as usize);
    compare_to(host, Subject::new(edit, list, code), code, room, &points, |call| call.expected())
}

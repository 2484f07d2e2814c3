//! Runs of edits, each given what the one before left.

use crate::call::{edits, same_number, Left};
use crate::edits::{buffers, numbers, refused_late};
use crate::host::Host;
use crate::numbers::any_points;
use crate::rooms::{compare_to, Edit, Numbers, Subject, B2E, ENOUGH};
use borzhanu::{border, shape, side, swap, work_length, HalfEdge, OwnedMesh, Size};
use hosts::meshes::{Dice, List};
use hosts::reference::edited::{Edited, NewList};
use hosts::reference::shape::number;
use hosts::reference::{self, columns_of, Refused};

const NO_ROOM: Refused = (19, 0, 0);

/// Past what a buffer has held.
const PAST: u32 = 7;
const POINT_PAST: f64 = 0.1;

/// Buffers for edits.
#[derive(Clone)]
struct Buffers {
    /// the list, V2e, E2e and B2e
    entries: [Vec<u32>; 4],
    points: Vec<f64>,
}

impl Buffers {
    /// What an edit writes.
    fn write(&mut self, left: &Left) {
        let Left { elements, v2e, e2e, b2e, points, .. } = left;
        for (buffer, written) in self.entries.iter_mut().zip([elements, v2e, e2e, b2e]) {
            let written = written.as_deref().unwrap_or(&[]);
            buffer[..written.len()].copy_from_slice(written);
        }
        let written = points.as_deref().unwrap_or(&[]);
        self.points[..written.len()].copy_from_slice(written);
    }

    /// Each of at least these lengths.
    fn lengthen(&mut self, needed: [usize; 6]) {
        let [list, v2e, e2e, b2e, _, points] = needed;
        for (buffer, len) in self.entries.iter_mut().zip([list, v2e, e2e, b2e]) {
            buffer.resize(len.max(buffer.len()), PAST);
        }
        self.points.resize(points.max(self.points.len()), POINT_PAST);
    }
}

pub fn bits(points: &[f64]) -> Vec<u64> {
    points.iter().map(|number| number.to_bits()).collect()
}

/// A mesh on its way through a run of edits: as the reference has it, in a mesh that owns its buffers, and in lent buffers
/// that are longer than they must be until they are full, and then are made longer.
pub struct Run {
    pub edited: Edited,
    pub owned: OwnedMesh,
    points: Vec<f64>,
    size: Size,
    lent: Buffers,
    work: Vec<u32>,
    /// What the lent buffers must hold, as far as they reach.
    expected: Buffers,
    /// The number of the shape before the first edit.
    number: i64,
}

impl Run {
    /// Refused as building refuses the list.
    pub fn new(list: &List, dice: &mut Dice) -> Result<Run, Refused> {
        let edited = Edited::new(list.n, list.entries())?;
        let points = any_points(dice, list.n as usize);
        let rows: Vec<[f64; 3]> = points.chunks(3).map(|p| [p[0], p[1], p[2]]).collect();
        let owned = OwnedMesh::with_points(&rows, &list.rows).expect("the list is accepted");
        let size = Size { n: owned.n(), m: owned.m() };
        let lent = Buffers { entries: buffers(&owned).map(<[u32]>::to_vec), points: points.clone() };
        let (expected, work) = (lent.clone(), vec![PAST; work_length(size.n, list.rows.len())]);
        let number = number(list.n, list.entries());
        Ok(Run { edited, owned, points, size, lent, work, expected, number })
    }

    /// The mesh with its points' bits.
    pub fn state(&self) -> (OwnedMesh, Vec<u64>) {
        let mut mesh = self.owned.clone();
        mesh.points_mut().fill([0.0; 3]);
        (mesh, bits(&self.points))
    }

    pub fn is_empty(&self) -> bool {
        self.size.m == 0
    }

    fn columns(&self) -> u32 {
        columns_of(self.edited.list())
    }

    /// Lent buffers for some edits more.
    fn lengthen(&mut self, dice: &mut Dice) {
        let (n, m) = (self.size.n + 1 + dice.below(6), self.size.m + 2 + dice.below(9));
        let needed = Numbers { n, m, k: n }.needed(self.columns());
        self.lent.lengthen(needed);
        self.expected.lengthen(needed);
        self.work.resize(needed[4].max(self.work.len()), PAST);
    }

    /// What the lent buffers make of an edit that the reference takes.
    fn room_for(&self, after: Numbers) -> Result<(), Refused> {
        let [list, v2e, e2e, b2e] = self.lent.entries.each_ref().map(Vec::len);
        let lens = [list, v2e, e2e, b2e, self.work.len(), self.lent.points.len()];
        let short: Vec<usize> = (0..6).filter(|&at| lens[at] < after.needed(self.columns())[at]).collect();
        match short[..] {
            [] => Ok(()),
            [B2E] => Err((9, after.k, 0)),
            _ => Err(NO_ROOM),
        }
    }

    fn edit_lent(&mut self, edit: Edit, code: u32) -> Result<(u32, u32), Refused> {
        let Buffers { entries: [elements, v2e, e2e, b2e], points } = &mut self.lent;
        numbers(edit.lent()(&mut self.size, elements, v2e, e2e, b2e, points, &mut self.work, code))
    }

    /// Where the lent buffers are full, that is said, and they are made longer.
    fn make_room(&mut self, host: &mut Host, edit: Edit, code: u32, after: Numbers) {
        let Err(refused) = self.room_for(after) else { return };
        assert_eq!(self.edit_lent(edit, code), Err(refused), "lent, code {code}");
        host.situation.calls += 3;
        self.check(code);
        self.lengthen(&mut host.dice);
    }

    /// An edit in each, and on what the one before left, with noise for tables.
    pub fn edit(&mut self, host: &mut Host, edit: Edit, code: u32) -> Result<(), Refused> {
        let (size, list, points) = (self.size, self.edited.list().to_vec(), self.points.clone());
        let edge = self.edited.edge(code);
        let triangles = edge.map_or(2, |edge| edge.triangles());
        let subject = Subject { edit, n: size.n, list: &list, k: self.edited.borders(), triangles };
        let answer = edge.and_then(|edge| match edit {
            Edit::Split => {
                self.make_room(host, edit, code, subject.after());
                self.points.extend(edge.midpoint(&points));
                self.edited.split(edge);
                Ok(())
            }
            Edit::Contract => {
                self.edited.contract(edge)?;
                self.points = edge.points_left(&points);
                Ok(())
            }
        });
        let want = match answer {
            Ok(()) => edits(size, self.edited.n(), self.built_of_copy(), Some(self.points.clone())),
            Err(refused) => refused_late(refused),
        };
        let want = compare_to(host, subject, code, ENOUGH, &points, |_| want);
        assert_eq!(numbers(edit.owned(&mut self.owned, code)), want.answer, "owned, {edit:?} of code {code}");
        assert_eq!(self.edit_lent(edit, code), want.answer, "lent, {edit:?} of code {code}");
        host.situation.calls += 4;
        self.expected.write(&want.left);
        self.take_new_points(size.n);
        self.check(code);
        answer
    }

    /// The new point's numbers; where one is none, its bits are the kernel's from now on.
    fn take_new_points(&mut self, n: u32) {
        for at in 3 * n as usize..self.points.len() {
            let number = self.lent.points[at];
            assert!(same_number(number, self.points[at]), "the new point");
            self.points[at] = number;
            self.expected.points[at] = number;
        }
    }

    /// The list, n and its tables as the reference builds them; the map must have led to the same.
    fn built_of_copy(&self) -> NewList {
        let tables = reference::tables(self.edited.n(), self.edited.list()).expect("the reference edited");
        assert_eq!(tables, self.edited.tables(), "the reference's map, in a run of edits");
        NewList { list: self.edited.list().to_vec(), tables }
    }

    /// Of the diagonals, without noise.
    pub fn swap(&mut self, code: u32) {
        let answer = self.edited.swap(code);
        let owned = self.owned.swap(HalfEdge::from_code(code));
        let Buffers { entries: [elements, v2e, e2e, b2e], .. } = &mut self.lent;
        let lent = swap(&mut self.size, elements, v2e, e2e, b2e, &mut self.work, code);
        assert_eq!(numbers(owned).map(|_| ()), answer, "owned, swap of code {code}");
        assert_eq!(owned, lent, "owned and lent, swap of code {code}");
        if answer.is_ok() {
            self.expected.write(&edits(self.size, self.size.n, self.built_of_copy(), None).left);
        }
        self.check(code);
    }

    /// All three have the same.
    fn check(&mut self, code: u32) {
        assert!(self.work.iter().all(|&entry| entry == 0), "the work buffer isn't clean");
        assert_eq!(self.size, Size { n: self.owned.n(), m: self.owned.m() }, "code {code}");
        assert_eq!(self.owned.mesh().elements(), self.edited.list(), "owned, code {code}");
        assert_eq!(self.lent.entries, self.expected.entries, "lent, code {code}");
        for (owned, expected) in buffers(&self.owned).into_iter().zip(&self.expected.entries) {
            assert_eq!(*owned, expected[..owned.len()], "owned, code {code}");
        }
        assert_eq!(bits(&self.lent.points), bits(&self.expected.points), "lent points, code {code}");
        assert_eq!(bits(self.owned.points().as_flattened()), bits(&self.points), "owned points, code {code}");
        assert_eq!(bits(&self.expected.points[..self.points.len()]), bits(&self.points), "the points, code {code}");
        self.check_shape(code);
    }

    /// The number of the shape is the one before the first edit: by the reference's count, and as the kernel has it of the
    /// mesh that owns its buffers and of the lent list.
    fn check_shape(&mut self, code: u32) {
        let list = &self.lent.entries[0][..4 * self.size.m as usize];
        let numbers = [
            number(self.edited.n(), self.edited.list()),
            self.owned.shape(),
            shape(self.size.n, list, &mut self.work).expect("the list is accepted"),
        ];
        assert_eq!(numbers, [self.number; 3], "by count, owned and lent, after code {code}");
    }

    /// Mostly a side, now and then one on the border.
    pub fn any_code(&self, dice: &mut Dice) -> u32 {
        let (m, f, b2e) = (self.size.m, 1 + dice.below(self.size.m), self.owned.mesh().b2e());
        match dice.below(16) {
            0 => border(dice.below(self.edited.borders() + 2)),
            1 => dice.below(8 * (m + 2)),
            2 => dice.number(),
            3 => side(f, 4),
            4 | 5 if !b2e.is_empty() => b2e[dice.below(b2e.len() as u32) as usize],
            _ => side(f, 1 + dice.below(3)),
        }
    }
}

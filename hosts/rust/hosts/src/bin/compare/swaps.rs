//! Swaps of diagonals: some whose outcome was worked out by hand, every code of small housings, long runs in which each
//! swap is given what the one before left, and sizes and lengths about what they must be.

use crate::call::{edits, Call, Edge, Left, Outcome, Question};
use crate::edits::{
    any_triangulated, assert_sound, borders, buffers, codes_about, compare_edit, numbers, refused_late,
};
use crate::edits::{REFUSED, SOME_CODES};
use crate::host::Host;
use borzhanu::{border, side, swap, work_length, HalfEdge, OwnedMesh, Size};
use borzhanu::{MAX_ELEMENTS, MAX_VERTICES};
use hosts::meshes::{any_housing, sheet, Dice, Kinds, List};
use hosts::reference::edited::{Edited, NewList};
use hosts::reference::shape::number;
use hosts::reference::{self, columns_of, Refused};

/// n, a list, a code, and the new rows or why there are none.
type Known = (u32, &'static [[u32; 4]], u32, Result<&'static [[u32; 4]], Refused>);

const LISTING: [[u32; 4]; 2] = [[1, 2, 3, 0], [1, 3, 4, 0]];
/// beside a quadrilateral
const MIXED: [[u32; 4]; 3] = [[1, 2, 3, 0], [3, 2, 5, 6], [1, 3, 4, 0]];
const TETRAHEDRON: [[u32; 4]; 4] = [[1, 2, 3, 0], [1, 4, 2, 0], [2, 4, 3, 0], [3, 4, 1, 0]];
/// on a quadrilateral
const PYRAMID: [[u32; 4]; 5] = [[1, 2, 5, 0], [2, 3, 5, 0], [1, 4, 3, 2], [3, 4, 5, 0], [4, 1, 5, 0]];

const NOT_THERE: Refused = (11, 0, 0);
const EDGE_UNFIT: Refused = (15, 0, 0);

const KNOWN: [Known; 40] = [
    // by either side, in either row, from each corner
    (4, &LISTING, 11, Ok(&[[2, 3, 4, 0], [4, 1, 2, 0]])),
    (4, &LISTING, 17, Ok(&[[2, 3, 4, 0], [4, 1, 2, 0]])),
    (4, &[[1, 3, 4, 0], [1, 2, 3, 0]], 19, Ok(&[[4, 1, 2, 0], [2, 3, 4, 0]])),
    (4, &[[3, 1, 2, 0], [4, 1, 3, 0]], 9, Ok(&[[2, 3, 4, 0], [4, 1, 2, 0]])),
    (4, &[[2, 3, 1, 0], [3, 4, 1, 0]], 10, Ok(&[[2, 3, 4, 0], [4, 1, 2, 0]])),
    (4, &[[2, 3, 1, 0], [3, 4, 1, 0]], 19, Ok(&[[2, 3, 4, 0], [4, 1, 2, 0]])),
    // the new diagonal, by its either side: the old triangles in each other's rows
    (4, &[[2, 3, 4, 0], [4, 1, 2, 0]], 11, Ok(&[[3, 4, 1, 0], [1, 2, 3, 0]])),
    (4, &[[2, 3, 4, 0], [4, 1, 2, 0]], 19, Ok(&[[3, 4, 1, 0], [1, 2, 3, 0]])),
    // with an unused vertex, and beside a quadrilateral
    (5, &[[1, 2, 4, 0], [1, 4, 5, 0]], 11, Ok(&[[2, 4, 5, 0], [5, 1, 2, 0]])),
    (6, &MIXED, 11, Ok(&[[2, 3, 4, 0], [3, 2, 5, 6], [4, 1, 2, 0]])),
    (6, &MIXED, 25, Ok(&[[2, 3, 4, 0], [3, 2, 5, 6], [4, 1, 2, 0]])),
    // no half-edge has these codes
    (0, &[], 0, Err(NOT_THERE)),
    (0, &[], 8, Err(NOT_THERE)),
    (0, &[], 9, Err(NOT_THERE)),
    (3, &[], 9, Err(NOT_THERE)),
    (4, &LISTING, 0, Err(NOT_THERE)),
    (4, &LISTING, 1, Err(NOT_THERE)),
    (4, &LISTING, 12, Err(NOT_THERE)),
    (4, &LISTING, 13, Err(NOT_THERE)),
    (4, &LISTING, 15, Err(NOT_THERE)),
    (4, &LISTING, 20, Err(NOT_THERE)),
    (4, &LISTING, 25, Err(NOT_THERE)),
    (4, &LISTING, 40, Err(NOT_THERE)),
    (4, &LISTING, u32::MAX, Err(NOT_THERE)),
    (4, &TETRAHEDRON, 8, Err(NOT_THERE)),
    // border half-edges, the first and the last, and border sides
    (4, &LISTING, 8, Err(EDGE_UNFIT)),
    (4, &LISTING, 32, Err(EDGE_UNFIT)),
    (4, &LISTING, 9, Err(EDGE_UNFIT)),
    (4, &LISTING, 19, Err(EDGE_UNFIT)),
    // a quadrilateral on this side, on the other, on both, and with a border side
    (6, &MIXED, 17, Err(EDGE_UNFIT)),
    (6, &MIXED, 10, Err(EDGE_UNFIT)),
    (6, &[[1, 2, 3, 4], [4, 3, 5, 6]], 11, Err(EDGE_UNFIT)),
    (6, &MIXED, 20, Err(EDGE_UNFIT)),
    // joined already: by two sides, the least of all in the first row and in another
    (4, &TETRAHEDRON, 9, Err((6, 1, 3))),
    (4, &[[2, 4, 3, 0], [3, 4, 1, 0], [1, 2, 3, 0], [1, 4, 2, 0]], 25, Err((6, 1, 2))),
    // joined by one side, on a rim
    (4, &[[3, 4, 1, 0], [1, 2, 3, 0], [1, 4, 2, 0]], 17, Err((6, 1, 1))),
    (4, &[[1, 2, 3, 0], [1, 4, 2, 0], [3, 4, 1, 0]], 9, Err((6, 1, 3))),
    // a diagonal already: of an element between the two, after them, and before them
    (5, &PYRAMID, 10, Err((18, 1, 3))),
    (5, &[[1, 2, 3, 0], [2, 1, 4, 0], [3, 2, 4, 5]], 9, Err((18, 1, 3))),
    (5, &[[3, 2, 4, 5], [2, 1, 4, 0], [1, 2, 3, 0]], 25, Err((18, 1, 2))),
];

/// How many entries list, V2e, E2e, B2e and work buffer have beyond what they need.
type Room = [isize; 5];

const ENOUGH: Room = [0; 5];
const NONE: isize = isize::MIN;
/// Everything else is refused before 9.
const WITHOUT_B2E: Room = [0, 0, 0, NONE, 0];
/// How many of these are enough.
const LONGER: u32 = 9;
const OTHER_ROOM: [Room; 22] = [
    // longer, the list by a part of a row too
    [4, 0, 0, 0, 0],
    [1, 0, 0, 0, 0],
    [0, 1, 0, 0, 0],
    [0, 0, 1, 0, 0],
    [0, 0, 0, 1, 0],
    [0, 0, 0, 0, 1],
    [4, 1, 3, 2, 17],
    [11, 5, 8, 30, 33],
    [400, 100, 300, 100, 1700],
    // B2e too short: 9 alone
    [0, 0, 0, -1, 0],
    WITHOUT_B2E,
    [7, 7, 7, -1, 7],
    // another too short
    [-1, 0, 0, 0, 0],
    [-4, 9, 9, 9, 99],
    [NONE, 9, 9, 9, 99],
    [0, -1, 0, 0, 0],
    [9, NONE, 9, 9, 9],
    [0, 0, -1, 0, 0],
    [9, 9, NONE, 9, 9],
    [0, 0, 0, 0, -1],
    [9, 9, 9, 9, -16],
    [NONE, NONE, NONE, NONE, NONE],
];

/// A list on n vertices that has k border half-edges.
#[derive(Clone, Copy)]
struct Subject<'a> {
    n: u32,
    list: &'a [u32],
    k: u32,
}

/// A swap with so much room.
fn compare_to(
    host: &mut Host,
    Subject { n, list, k }: Subject,
    code: u32,
    room: Room,
    expected: impl FnOnce(&Call) -> Outcome,
) -> Outcome {
    let m = list.len() / 4;
    let needed = [list.len(), n as usize, columns_of(list) as usize * m, k as usize, work_length(n, m)];
    let lens = [0, 1, 2, 3, 4].map(|at| needed[at].saturating_add_signed(room[at]));
    let edge = Edge { m: m as u32, code };
    compare_edit(host, [Question::Swap(edge), Question::RawSwap(edge)], n, list, lens, &[], expected)
}

/// The same to what the reference expects.
fn compare_swap(host: &mut Host, list: &List, code: u32, room: Room) -> Outcome {
    let subject = Subject { n: list.n, list: list.entries(), k: borders(list) };
    compare_to(host, subject, code, room, |call| call.expected())
}

fn any_room(dice: &mut Dice) -> Room {
    OTHER_ROOM[dice.below(OTHER_ROOM.len() as u32) as usize]
}

fn known(host: &mut Host) {
    for (n, rows, code, new) in KNOWN {
        let list = List::new(n, rows);
        for room in OTHER_ROOM {
            compare_swap(host, &list, code, room);
        }
        let want = compare_swap(host, &list, code, ENOUGH);
        let found = want.left.elements.as_deref().ok_or(want.answer.err());
        assert_eq!(found, new.map(|rows| rows.as_flattened()).map_err(Some), "the reference, on {rows:?}, code {code}");
        if new.is_err() {
            assert_eq!(compare_swap(host, &list, code, WITHOUT_B2E).answer, want.answer);
        }
        compare_owned(host, &list, code, &want);
    }
    for (n, rows, refused) in REFUSED {
        let list = List::new(n, rows);
        for code in SOME_CODES {
            let want = compare_swap(host, &list, code, ENOUGH);
            assert_eq!(want.answer, Err(refused), "the reference, on {rows:?}");
            let room = any_room(&mut host.dice);
            compare_swap(host, &list, code, room);
        }
    }
}

/// A swap of a mesh that owns its buffers, built for it.
fn compare_owned(host: &mut Host, list: &List, code: u32, want: &Outcome) {
    let mut mesh = OwnedMesh::build(list.n, &list.rows).expect("the list is accepted");
    let got = mesh.swap(HalfEdge::from_code(code));
    host.situation.calls += 1;
    assert_eq!(numbers(got), want.answer, "owned, code {code}");
    let elements = want.left.elements.as_deref().unwrap_or(list.entries());
    assert_eq!(mesh.mesh().elements(), elements, "owned, code {code}");
    assert_sound(&mesh);
}

fn every_code(host: &mut Host, list: &List) {
    for code in codes_about(&mut host.dice, list) {
        let want = compare_swap(host, list, code, ENOUGH);
        if host.dice.once_in(3) {
            let room = any_room(&mut host.dice);
            compare_swap(host, list, code, room);
        }
        if want.answer.is_err() && host.dice.once_in(3) {
            assert_eq!(compare_swap(host, list, code, WITHOUT_B2E).answer, want.answer);
        }
        if want.answer.is_ok() && host.dice.once_in(2) {
            compare_owned(host, list, code, &want);
        }
    }
}

/// Past what a buffer holds.
const PAST: [u32; 5] = [7; 5];

/// A mesh on its way through a run of swaps: as the reference has it, in a mesh that owns its buffers, and in lent
/// buffers that are longer than they must be.
struct Run {
    edited: Edited,
    owned: OwnedMesh,
    size: Size,
    /// the list, V2e, E2e and B2e
    lent: [Vec<u32>; 4],
    work: Vec<u32>,
    /// The number of the shape before the first swap.
    number: i64,
}

impl Run {
    /// Refused as building refuses the list.
    fn new(list: &List) -> Result<Run, Refused> {
        let edited = Edited::new(list.n, list.entries())?;
        let owned = OwnedMesh::build(list.n, &list.rows).expect("the list is accepted");
        let size = Size { n: owned.n(), m: owned.m() };
        let lent = buffers(&owned).map(|held| [held, &PAST].concat());
        let work = vec![7; work_length(list.n, list.rows.len()) + 5];
        Ok(Run { edited, owned, size, lent, work, number: number(list.n, list.entries()) })
    }

    /// A swap in each, and on what it left before, with noise for tables.
    fn swap(&mut self, host: &mut Host, code: u32) -> Result<(), Refused> {
        let before = self.edited.list().to_vec();
        let answer = self.edited.swap(code);
        let want = match answer {
            Ok(()) => edits(self.size, self.size.n, self.built_of_copy(), None),
            Err(refused) => refused_late(refused),
        };
        let room = OTHER_ROOM[host.dice.below(LONGER) as usize];
        let subject = Subject { n: self.size.n, list: &before, k: self.edited.borders() };
        let want = compare_to(host, subject, code, room, |_| want);
        self.swap_owned_and_lent(code, &want);
        let numbers = [number(self.size.n, self.edited.list()), self.owned.shape()];
        assert_eq!(numbers, [self.number; 2], "by count and owned, after code {code}");
        host.situation.calls += 3;
        answer
    }

    /// What the reference builds of a copy of the list; the map must have led to the same.
    fn built_of_copy(&self) -> NewList {
        let tables = reference::tables(self.size.n, self.edited.list()).expect("the reference swapped");
        assert_eq!(tables, self.edited.tables(), "the reference's map, in a run of swaps");
        NewList { list: self.edited.list().to_vec(), tables }
    }

    fn swap_owned_and_lent(&mut self, code: u32, want: &Outcome) {
        let before = self.owned.clone();
        let owned = self.owned.swap(HalfEdge::from_code(code));
        let [elements, v2e, e2e, b2e] = &mut self.lent;
        let lent = swap(&mut self.size, elements, v2e, e2e, b2e, &mut self.work, code);
        assert_eq!(owned, lent, "owned and lent, code {code}");
        assert_eq!(numbers(lent), want.answer, "lent, code {code}");
        assert!(self.work.iter().all(|&entry| entry == 0), "the work buffer isn't clean");
        assert_eq!(self.size, Size { n: self.owned.n(), m: self.owned.m() });
        assert_eq!(self.owned.mesh().elements(), self.edited.list(), "owned, code {code}");
        let Left { elements, v2e, e2e, b2e, .. } = &want.left;
        let written = [elements, v2e, e2e, b2e];
        for (((owned, before), lent), written) in
            buffers(&self.owned).into_iter().zip(buffers(&before)).zip(&self.lent).zip(written)
        {
            assert_eq!(owned, written.as_deref().unwrap_or(before), "owned, code {code}");
            assert_eq!(*lent, [owned, &PAST].concat(), "lent and owned, code {code}");
        }
    }

    /// Mostly a side.
    fn any_code(&self, dice: &mut Dice) -> u32 {
        let (m, f) = (self.size.m, 1 + dice.below(self.size.m));
        match dice.below(16) {
            0 => border(dice.below(self.edited.borders() + 2)),
            1 => dice.below(8 * (m + 2)),
            2 => dice.number(),
            3 => side(f, 4),
            _ => side(f, 1 + dice.below(3)),
        }
    }

    fn row(&self, f: u32) -> [u32; 4] {
        self.owned.rows()[f as usize - 1]
    }

    /// Swaps the diagonal that a swap has just made, by a side of either row. It was a to b, and is c to d now.
    fn swap_back(&mut self, host: &mut Host, f: u32, g: u32) {
        let ([c, a, d, _], [_, b, _, _]) = (self.row(f), self.row(g));
        let code = side([f, g][host.dice.below(2) as usize], 3);
        assert_eq!(self.swap(host, code), Ok(()), "the new diagonal, code {code}");
        assert_eq!([self.row(f), self.row(g)], [[a, d, b, 0], [b, c, a, 0]], "the new diagonal, code {code}");
    }
}

/// So many swaps, each on what the one before left; where one answers, sometimes the new diagonal as well.
fn run(host: &mut Host, list: &List, steps: u32) {
    let mut run = match Run::new(list) {
        Ok(run) => run,
        Err(refused) => return compare_refused(host, list, refused),
    };
    for _ in 0..steps {
        let (code, before) = (run.any_code(&mut host.dice), run.owned.rows().to_vec());
        if run.swap(host, code).is_ok() && host.dice.once_in(3) {
            let f = code / 8;
            let others = (1..).zip(before).filter(|&(g, row)| g != f && row != run.row(g));
            let others: Vec<u32> = others.map(|(g, _)| g).collect();
            assert_eq!(others.len(), 1, "rows beside {f} that a swap changed");
            run.swap_back(host, f, others[0]);
        }
    }
    assert_sound(&run.owned);
}

/// A list that building refuses, with a code of any kind.
fn compare_refused(host: &mut Host, list: &List, refused: Refused) {
    let codes = [0, border(1), side(1, 3), host.dice.below(8 * (list.rows.len() as u32 + 2))];
    let code = codes[host.dice.below(4) as usize];
    assert_eq!(compare_swap(host, list, code, ENOUGH).answer, Err(refused));
    let room = any_room(&mut host.dice);
    compare_swap(host, list, code, room);
}

pub fn swap_diagonals(host: &mut Host) {
    known(host);
    for _ in 0..60 {
        let list = any_triangulated(&mut host.dice, 12);
        every_code(host, &list);
    }
    for (rounds, size, steps) in [(500, 12, 24), (100, 120, 60), (12, 1_200, 60), (2, 20_000, 15)] {
        for _ in 0..rounds {
            let list = any_triangulated(&mut host.dice, size);
            run(host, &list, steps);
            let list = any_housing(&mut host.dice, size);
            run(host, &list, steps / 4);
        }
    }
}

/// As many vertices as there may be and one more, with two triangles; and as many triangles.
pub fn large_swaps(host: &mut Host) {
    for n in [MAX_VERTICES, MAX_VERTICES + 1] {
        for room in [ENOUGH, [0, -1, 0, 0, 0], [0, 0, 0, 0, -1]] {
            compare_swap(host, &List::new(n, &LISTING), 11, room);
        }
    }
    most_triangles(host);
}

/// Without a border, by the map alone: what isn't there, what is one entry too short, and the last diagonal.
fn most_triangles(host: &mut Host) {
    let List { n, rows } = sheet(1000, 500, (true, true), Kinds::Triangles, &mut host.dice);
    let mut edited = Edited::of_accepted(n, rows.as_flattened());
    let subject = Subject { n, list: rows.as_flattened(), k: 0 };
    let last = MAX_ELEMENTS;
    for code in [side(last + 1, 1), side(last, 4), border(1)] {
        compare_to(host, subject, code, ENOUGH, |_| refused_late(NOT_THERE));
    }
    for short in [[-1, 0, 0, 0, 0], [0, -1, 0, 0, 0], [0, 0, -1, 0, 0], [0, 0, 0, 0, -1]] {
        compare_to(host, subject, side(last, 1), short, |_| Outcome { answer: Err((2, 0, 0)), left: Left::default() });
    }
    assert_eq!(edited.swap(side(last, 1)), Ok(()), "the reference, on {last} triangles");
    let new = NewList { list: edited.list().to_vec(), tables: edited.tables() };
    let size = Size { n, m: last };
    compare_to(host, subject, side(last, 1), ENOUGH, |_| edits(size, n, new, None));
}

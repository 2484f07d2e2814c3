//! Contracted edges: some whose outcome was worked out by hand, every code of small housings, long runs of contractions,
//! splits and swaps in which each edit is given what the one before left, splits and the contractions that undo them,
//! housings that are contracted until nothing more can be, and sizes and lengths about what they must be.

use crate::call::{edits, Outcome};
use crate::edits::{any_triangulated, assert_sound, codes_about, numbers, refused_late};
use crate::edits::{REFUSED, SOME_CODES};
use crate::host::Host;
use crate::numbers::any_points;
use crate::rooms::Length::{New, Old, Zero};
use crate::rooms::{compare, compare_to, Edit, Room, Subject, B2E, ENOUGH};
use crate::runs::{bits, Run};
use borzhanu::{border, side, HalfEdge, OwnedMesh, Size};
use borzhanu::{MAX_ELEMENTS, MAX_VERTICES};
use hosts::meshes::{any_housing, bipyramid, fan, pillow, sheet, shuffle, Dice, Kinds, List};
use hosts::reference::edited::{Edited, NewList};
use hosts::reference::Refused;

/// n, a list, a code, and the new rows or why there are none.
type Known = (u32, &'static [[u32; 4]], u32, Result<&'static [[u32; 4]], Refused>);

const TRIANGLE: [[u32; 4]; 1] = [[3, 1, 2, 0]];
const LISTING: [[u32; 4]; 2] = [[1, 2, 3, 0], [1, 3, 4, 0]];
/// about vertex 1
const PLATE: [[u32; 4]; 4] = [[2, 3, 1, 0], [3, 4, 1, 0], [4, 5, 1, 0], [5, 2, 1, 0]];
const THREE_ABOUT_ONE: [[u32; 4]; 3] = [[3, 2, 1, 0], [2, 4, 1, 0], [4, 3, 1, 0]];
const STRIP: [[u32; 4]; 4] = [[1, 2, 3, 0], [3, 2, 4, 0], [3, 4, 5, 0], [5, 4, 6, 0]];
/// three around
const TUBE: [[u32; 4]; 6] = [[1, 2, 5, 0], [1, 5, 4, 0], [2, 3, 6, 0], [2, 6, 5, 0], [3, 1, 4, 0], [3, 4, 6, 0]];
const TETRAHEDRON: [[u32; 4]; 4] = [[1, 2, 3, 0], [1, 4, 2, 0], [2, 4, 3, 0], [3, 4, 1, 0]];
/// with the poles 1 and 2
const OCTAHEDRON: [[u32; 4]; 8] =
    [[1, 3, 4, 0], [2, 4, 3, 0], [1, 4, 5, 0], [2, 5, 4, 0], [1, 5, 6, 0], [2, 6, 5, 0], [1, 6, 3, 0], [2, 3, 6, 0]];
/// on a quadrilateral
const PYRAMID: [[u32; 4]; 5] = [[1, 2, 5, 0], [2, 3, 5, 0], [1, 4, 3, 2], [3, 4, 5, 0], [4, 1, 5, 0]];
/// beside a quadrilateral
const MIXED: [[u32; 4]; 2] = [[1, 2, 3, 4], [4, 3, 5, 0]];
/// A triangle and quadrilaterals about the hole of 1, 2 and 4.
const HOLE: [[u32; 4]; 5] = [[1, 2, 3, 0], [3, 2, 4, 5], [1, 3, 6, 7], [1, 7, 8, 4], [5, 4, 8, 9]];

const NOT_THERE: Refused = (11, 0, 0);
const EDGE_UNFIT: Refused = (15, 0, 0);
const PINCHED: Refused = (20, 0, 0);
const STRANDED: Refused = (21, 0, 0);

const KNOWN: [Known; 63] = [
    // on the border: b in the middle, b the last vertex, a the last vertex
    (4, &LISTING, 9, Ok(&[[1, 3, 2, 0]])),
    (4, &LISTING, 10, Ok(&[[1, 2, 3, 0]])),
    (4, &LISTING, 18, Ok(&[[1, 2, 3, 0]])),
    (4, &LISTING, 19, Ok(&[[1, 2, 3, 0]])),
    (5, &PLATE, 9, Ok(&[[3, 2, 1, 0], [2, 4, 1, 0], [4, 3, 1, 0]])),
    // within, one end on the border: the last row among those that go, by either side
    (5, &PLATE, 34, Ok(&[[4, 1, 2, 0], [3, 4, 2, 0]])),
    (5, &PLATE, 11, Ok(&[[4, 2, 1, 0], [3, 4, 1, 0]])),
    // the last two rows, with the last vertex for b and for a, and the last row alone
    (5, &PLATE, 35, Ok(&[[2, 3, 1, 0], [3, 4, 1, 0]])),
    (5, &PLATE, 26, Ok(&[[2, 3, 1, 0], [3, 4, 1, 0]])),
    (5, &PLATE, 33, Ok(&[[2, 3, 1, 0], [3, 4, 1, 0], [4, 2, 1, 0]])),
    // rows in the middle
    (5, &PLATE, 27, Ok(&[[2, 3, 1, 0], [4, 2, 1, 0]])),
    (4, &THREE_ABOUT_ONE, 10, Ok(&[[1, 3, 2, 0]])),
    // among unused vertices, which are no cause to refuse: the last one used or not
    (7, &[[2, 5, 7, 0], [7, 5, 1, 0]], 9, Ok(&[[5, 2, 1, 0]])),
    (8, &[[2, 5, 7, 0], [7, 5, 1, 0]], 9, Ok(&[[7, 2, 1, 0]])),
    // closed
    (6, &OCTAHEDRON, 10, Ok(&[[1, 4, 3, 0], [2, 3, 4, 0], [1, 3, 5, 0], [2, 5, 3, 0], [1, 5, 4, 0], [2, 4, 5, 0]])),
    // a quadrilateral near by
    (5, &MIXED, 18, Ok(&[[1, 2, 3, 4]])),
    (5, &MIXED, 19, Ok(&[[1, 2, 3, 4]])),
    // no half-edge has the code
    (4, &LISTING, 0, Err(NOT_THERE)),
    (4, &LISTING, 1, Err(NOT_THERE)),
    (4, &LISTING, 4, Err(NOT_THERE)),
    (4, &LISTING, 12, Err(NOT_THERE)),
    (4, &LISTING, 13, Err(NOT_THERE)),
    (4, &LISTING, 14, Err(NOT_THERE)),
    (4, &LISTING, 15, Err(NOT_THERE)),
    (4, &LISTING, 25, Err(NOT_THERE)),
    (4, &LISTING, 40, Err(NOT_THERE)),
    (4, &LISTING, 11 + (1 << 31), Err(NOT_THERE)),
    (4, &LISTING, u32::MAX - 7, Err(NOT_THERE)),
    (4, &LISTING, u32::MAX, Err(NOT_THERE)),
    (5, &MIXED, 13, Err(NOT_THERE)),
    (5, &MIXED, 20, Err(NOT_THERE)),
    (4, &TETRAHEDRON, 8, Err(NOT_THERE)),
    (0, &[], 0, Err(NOT_THERE)),
    (0, &[], 9, Err(NOT_THERE)),
    (6, &[], 8, Err(NOT_THERE)),
    // a border half-edge
    (4, &LISTING, 8, Err(EDGE_UNFIT)),
    (4, &LISTING, 32, Err(EDGE_UNFIT)),
    (3, &TRIANGLE, 24, Err(EDGE_UNFIT)),
    (9, &HOLE, 8, Err(EDGE_UNFIT)),
    // a quadrilateral on this side, on the other side, on its border
    (5, &MIXED, 11, Err(EDGE_UNFIT)),
    (5, &MIXED, 17, Err(EDGE_UNFIT)),
    (5, &MIXED, 9, Err(EDGE_UNFIT)),
    (5, &MIXED, 12, Err(EDGE_UNFIT)),
    (5, &PYRAMID, 9, Err(EDGE_UNFIT)),
    (5, &PYRAMID, 28, Err(EDGE_UNFIT)),
    // a common neighbour: by the third edge of a hole, around a tube, by sides of quadrilaterals
    (4, &THREE_ABOUT_ONE, 9, Err(PINCHED)),
    (6, &TUBE, 9, Err(PINCHED)),
    (9, &HOLE, 9, Err(PINCHED)),
    // 20 before 21
    (5, &[[1, 2, 3, 0], [2, 1, 4, 0], [4, 1, 5, 0], [2, 4, 5, 0]], 9, Err(PINCHED)),
    // nothing left; the partner's third corner, the own one
    (3, &TRIANGLE, 9, Err(STRANDED)),
    (5, &[[1, 4, 5, 0]], 10, Err(STRANDED)),
    (4, &LISTING, 11, Err(STRANDED)),
    (4, &LISTING, 17, Err(STRANDED)),
    (5, &[[1, 2, 3, 0], [1, 3, 4, 0], [2, 5, 3, 0]], 11, Err(STRANDED)),
    (5, &[[1, 2, 3, 0], [1, 3, 4, 0], [1, 4, 5, 0]], 19, Err(STRANDED)),
    (5, &[[1, 2, 3, 0], [1, 3, 4, 0], [1, 4, 5, 0]], 11, Err(STRANDED)),
    // two fans: at a, by either side; where a is the last vertex, at the number that it would get
    (6, &STRIP, 25, Err((8, 3, 0))),
    (6, &STRIP, 19, Err((8, 4, 0))),
    (6, &[[1, 2, 3, 0], [3, 2, 6, 0], [3, 6, 5, 0], [5, 6, 4, 0]], 19, Err((8, 3, 0))),
    (6, &TUBE, 11, Err((8, 5, 0))),
    // back to back, and on a quadrilateral: a diagonal is no edge, so it isn't 20
    (4, &TETRAHEDRON, 9, Err((18, 1, 2))),
    (5, &PYRAMID, 10, Err((18, 1, 3))),
    (6, &[[1, 2, 3, 0], [3, 2, 4, 5], [1, 3, 5, 6]], 9, Err((18, 1, 2))),
];

/// Rooms that differ from enough in one buffer, and some others.
fn rooms() -> Vec<Room> {
    let mut rooms = vec![
        [Old(4), Old(1), Old(3), Old(2), Old(17), Old(5)],
        [Old(11), Old(5), Old(8), Old(30), Old(33), Old(1)],
        [Old(400), Old(100), Old(300), Old(100), Old(1700), Old(700)],
        [Old(0); 6],
        // enough for the new mesh alone
        [New(0); 6],
        [Zero; 6],
    ];
    for at in 0..6 {
        for length in [Old(1), Old(0), Old(-1), New(0), New(-1), Zero] {
            let mut room = ENOUGH;
            room[at] = length;
            rooms.push(room);
            // with the others longer
            room = [Old(9); 6];
            room[at] = length;
            rooms.push(room);
        }
    }
    rooms
}

/// Everything else is refused before 9.
const WITHOUT_B2E: Room = {
    let mut room = ENOUGH;
    room[B2E] = Zero;
    room
};

fn any_room(dice: &mut Dice) -> Room {
    let rooms = rooms();
    rooms[dice.below(rooms.len() as u32) as usize]
}

fn compare_contraction(host: &mut Host, list: &List, code: u32, room: Room) -> Outcome {
    compare(host, Edit::Contract, list, code, room)
}

fn known(host: &mut Host) {
    for (n, rows, code, new) in KNOWN {
        let list = List::new(n, rows);
        let want = compare_contraction(host, &list, code, ENOUGH);
        // The rows that went are 0 now.
        let zeros = |rows: &[[u32; 4]]| [rows.as_flattened(), &vec![0; list.entries().len() - 4 * rows.len()]].concat();
        let found = want.left.elements.clone().ok_or(want.answer.err());
        assert_eq!(found, new.map(zeros).map_err(Some), "the reference, on {rows:?}, code {code}");
        for room in rooms() {
            let answer = compare_contraction(host, &list, code, room).answer;
            // 11, 15, 20, 21, 8 and 18 come before 9.
            assert!(
                new.is_ok() || answer == want.answer || answer == Err((2, 0, 0)),
                "code {code}, {room:?}: {answer:?}"
            );
        }
        compare_owned(host, &list, code, &want);
    }
    for (n, rows, refused) in REFUSED {
        let list = List::new(n, rows);
        for code in SOME_CODES {
            for room in [ENOUGH, WITHOUT_B2E] {
                let answer = compare_contraction(host, &list, code, room).answer;
                assert_eq!(answer, Err(refused), "the reference, on {rows:?}");
            }
            let room = any_room(&mut host.dice);
            compare_contraction(host, &list, code, room);
        }
    }
    short_buffers(host);
}

/// 2 by each buffer alone: long enough for the new mesh, one entry too short for the old one. B2e gives 9, by the new k: on
/// the border one entry less is enough than the old mesh had.
fn short_buffers(host: &mut Host) {
    for (n, rows, code, k) in [(5, &PLATE[..], 34, 4), (5, &PLATE, 9, 3), (6, &OCTAHEDRON, 10, 0), (5, &MIXED, 19, 4)] {
        let list = List::new(n, rows);
        for at in (0..6).filter(|&at| at != B2E) {
            for length in [New(0), Old(-1)] {
                let mut room = ENOUGH;
                room[at] = length;
                assert_eq!(compare_contraction(host, &list, code, room).answer, Err((2, 0, 0)), "{code}, {room:?}");
            }
        }
        for length in [New(-1), Zero] {
            let mut room = ENOUGH;
            room[B2E] = length;
            let answer = compare_contraction(host, &list, code, room).answer;
            assert_eq!(answer.err(), (k > 0).then_some((9, k, 0)), "{code}, {room:?}");
        }
    }
}

/// A contraction of a mesh that owns its buffers, built for it.
fn compare_owned(host: &mut Host, list: &List, code: u32, want: &Outcome) {
    let points: Vec<[f64; 3]> =
        any_points(&mut host.dice, list.n as usize).chunks(3).map(|p| [p[0], p[1], p[2]]).collect();
    let mut mesh = OwnedMesh::with_points(&points, &list.rows).expect("the list is accepted");
    let got = mesh.contract(HalfEdge::from_code(code));
    host.situation.calls += 1;
    assert_eq!(numbers(got), want.answer, "owned, code {code}");
    let size = want.left.size.unwrap_or(Size { n: list.n, m: list.rows.len() as u32 });
    assert_eq!((mesh.n(), mesh.m()), (size.n, size.m), "owned, code {code}");
    let elements = want.left.elements.as_deref().unwrap_or(list.entries());
    assert_eq!(*mesh.mesh().elements(), elements[..4 * size.m as usize], "owned, code {code}");
    let mut left = points;
    if got.is_ok() {
        let b = destination(&list.rows[code as usize / 8 - 1], code);
        left.swap_remove(b as usize - 1);
    }
    assert_eq!(bits(mesh.points().as_flattened()), bits(left.as_flattened()), "owned, code {code}");
    assert_sound(&mesh);
}

/// Of a side of a triangle, in this row.
fn destination(row: &[u32; 4], code: u32) -> u32 {
    row[(code % 8 % 3) as usize]
}

fn every_code(host: &mut Host, list: &List) {
    for code in codes_about(&mut host.dice, list) {
        let want = compare_contraction(host, list, code, ENOUGH);
        if host.dice.once_in(3) {
            let room = any_room(&mut host.dice);
            compare_contraction(host, list, code, room);
        }
        if want.answer.is_err() && host.dice.once_in(3) {
            assert_eq!(compare_contraction(host, list, code, WITHOUT_B2E).answer, want.answer);
        }
        if want.answer.is_ok() && host.dice.once_in(2) {
            compare_owned(host, list, code, &want);
        }
    }
}

/// A run of the list, unless building refuses it, and then every edit does.
fn start(host: &mut Host, list: &List) -> Option<Run> {
    match Run::new(list, &mut host.dice) {
        Ok(run) => Some(run).filter(|run| !run.is_empty()),
        Err(refused) => {
            let code = host.dice.below(8 * (list.rows.len() as u32 + 2));
            assert_eq!(compare_contraction(host, list, code, ENOUGH).answer, Err(refused));
            let room = any_room(&mut host.dice);
            compare_contraction(host, list, code, room);
            None
        }
    }
}

/// So many edits of all kinds, each on what the one before left.
fn mixed_run(host: &mut Host, list: &List, steps: u32) {
    let Some(mut run) = start(host, list) else { return };
    for _ in 0..steps {
        let code = run.any_code(&mut host.dice);
        match host.dice.below(8) {
            0 => run.swap(code),
            1 | 2 => _ = run.edit(host, Edit::Split, code),
            3 => there_and_back(host, &mut run, code),
            _ => _ = run.edit(host, Edit::Contract, code),
        }
    }
    assert_sound(&run.owned);
}

/// A split, and the contraction of the same code: all is as it was, the points bit for bit.
fn there_and_back(host: &mut Host, run: &mut Run, code: u32) {
    let before = run.state();
    if run.edit(host, Edit::Split, code).is_ok() {
        assert_eq!(run.edit(host, Edit::Contract, code), Ok(()), "what was split is contracted, code {code}");
    }
    assert_eq!(run.state(), before, "a split and its contraction, code {code}");
}

/// Contracted until no edge can be; how many elements are left then.
fn coarsened(host: &mut Host, list: &List) -> Option<usize> {
    let mut run = start(host, list)?;
    loop {
        let mut codes: Vec<u32> = (8..8 * (run.owned.m() + 1)).collect();
        shuffle(&mut codes, &mut host.dice);
        if !codes.into_iter().any(|code| run.edit(host, Edit::Contract, code).is_ok()) {
            assert_sound(&run.owned);
            return Some(run.owned.rows().len());
        }
    }
}

/// Closed surfaces without a handle end as a tetrahedron, and sheets as one triangle.
fn last_triangles(host: &mut Host) {
    for size in 3..12 {
        let dice = &mut host.dice;
        let closed = [bipyramid(size), pillow(2, size.min(4), Kinds::Triangles, dice)];
        let sheets = [fan(size, false), fan(size, true), sheet(2, size, (false, false), Kinds::Triangles, dice)];
        for (list, left) in closed.map(|list| (list, 4)).into_iter().chain(sheets.map(|list| (list, 1))) {
            let list = list.put_down_anyhow(&mut host.dice);
            assert_eq!(coarsened(host, &list), Some(left), "{list:?}");
        }
    }
    for (rounds, size) in [(60, 12), (6, 60)] {
        for _ in 0..rounds {
            let list = any_triangulated(&mut host.dice, size);
            coarsened(host, &list);
        }
    }
}

pub fn contract_edges(host: &mut Host) {
    known(host);
    for _ in 0..60 {
        let list = any_triangulated(&mut host.dice, 12);
        every_code(host, &list);
    }
    last_triangles(host);
    for (rounds, size, steps) in [(300, 12, 24), (60, 120, 60), (6, 1_200, 60), (1, 20_000, 15)] {
        for _ in 0..rounds {
            let list = any_triangulated(&mut host.dice, size);
            mixed_run(host, &list, steps);
            let list = any_housing(&mut host.dice, size);
            mixed_run(host, &list, steps / 4);
        }
    }
}

/// As many vertices as there may be and one more, with four triangles; and as many triangles.
pub fn large_contractions(host: &mut Host) {
    for (n, expected) in [(MAX_VERTICES, Ok((4, 5))), (MAX_VERTICES + 1, Err((1, 0, 0)))] {
        let list = List::new(n, &PLATE);
        assert_eq!(compare_contraction(host, &list, side(4, 2), ENOUGH).answer, expected, "{n} vertices");
    }
    most_triangles(host);
}

/// Without a border, by the map alone.
fn most_triangles(host: &mut Host) {
    let List { n, rows } = sheet(1000, 500, (true, true), Kinds::Triangles, &mut host.dice);
    let list = rows.as_flattened();
    let points = any_points(&mut host.dice, n as usize);
    let subject = Subject { edit: Edit::Contract, n, list, k: 0, triangles: 2 };
    for code in [side(MAX_ELEMENTS + 1, 1), side(MAX_ELEMENTS, 4), border(1)] {
        compare_to(host, subject, code, ENOUGH, &points, |_| refused_late(NOT_THERE));
    }
    let before = Size { n, m: MAX_ELEMENTS };
    // a side of the last row, one of the first, and one from the last vertex
    for code in [side(MAX_ELEMENTS, 1), side(1, 1), side(MAX_ELEMENTS - 1, 1)] {
        let mut edited = Edited::of_accepted(n, list);
        let edge = edited.edge(code).expect("all are triangles");
        assert_eq!(edited.contract(edge), Ok(()), "the reference, on {MAX_ELEMENTS} triangles");
        let new = NewList { list: edited.list().to_vec(), tables: edited.tables() };
        let left = edge.points_left(&points);
        compare_to(host, subject, code, ENOUGH, &points, |_| edits(before, n - 1, new, Some(left)));
    }
}

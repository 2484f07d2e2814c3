//! Edges split at their midpoints: some whose outcome was worked out by hand, midpoints of numbers that are hard to add or
//! to halve, every code of small housings, long runs in which each split is given what the one before left, with swaps
//! between them, and sizes and lengths about what they must be before and after.

use crate::call::{edits, same_number, Outcome};
use crate::edits::{any_triangulated, assert_sound, codes_about, numbers, refused_late};
use crate::edits::{REFUSED, SOME_CODES};
use crate::host::Host;
use crate::numbers::{any_points, special_numbers};
use crate::rooms::Length::{New, Old, Zero};
use crate::rooms::{compare, compare_to, Edit, Room, Subject, B2E, ENOUGH};
use crate::runs::{bits, Run};
use borzhanu::{border, side, HalfEdge, OwnedMesh, Size};
use borzhanu::{MAX_ELEMENTS, MAX_VERTICES};
use hosts::meshes::{any_housing, sheet, Dice, Kinds, List};
use hosts::reference::edited::{Edited, NewList};
use hosts::reference::Refused;

/// n, a list, a code, and the new rows or why there are none.
type Known = (u32, &'static [[u32; 4]], u32, Result<&'static [[u32; 4]], Refused>);

const TRIANGLE: [[u32; 4]; 1] = [[3, 1, 2, 0]];
const LISTING: [[u32; 4]; 2] = [[1, 2, 3, 0], [1, 3, 4, 0]];
const TETRAHEDRON: [[u32; 4]; 4] = [[1, 2, 3, 0], [1, 4, 2, 0], [2, 4, 3, 0], [3, 4, 1, 0]];
/// on a quadrilateral
const PYRAMID: [[u32; 4]; 5] = [[1, 2, 5, 0], [2, 3, 5, 0], [1, 4, 3, 2], [3, 4, 5, 0], [4, 1, 5, 0]];
/// beside a quadrilateral
const MIXED: [[u32; 4]; 2] = [[1, 2, 3, 4], [4, 3, 5, 0]];

const NOT_THERE: Refused = (11, 0, 0);
const EDGE_UNFIT: Refused = (15, 0, 0);
const NO_ROOM: Refused = (19, 0, 0);

const KNOWN: [Known; 41] = [
    // by either side: the half of the side named is appended first
    (4, &LISTING, 11, Ok(&[[5, 2, 3, 0], [1, 5, 4, 0], [1, 2, 5, 0], [5, 3, 4, 0]])),
    (4, &LISTING, 17, Ok(&[[5, 2, 3, 0], [1, 5, 4, 0], [5, 3, 4, 0], [1, 2, 5, 0]])),
    // on the border, at each place of a row
    (4, &LISTING, 9, Ok(&[[1, 5, 3, 0], [1, 3, 4, 0], [5, 2, 3, 0]])),
    (4, &LISTING, 10, Ok(&[[1, 2, 5, 0], [1, 3, 4, 0], [1, 5, 3, 0]])),
    (4, &LISTING, 18, Ok(&[[1, 2, 3, 0], [1, 3, 5, 0], [1, 5, 4, 0]])),
    (4, &LISTING, 19, Ok(&[[1, 2, 3, 0], [5, 3, 4, 0], [1, 3, 5, 0]])),
    (3, &TRIANGLE, 9, Ok(&[[3, 4, 2, 0], [4, 1, 2, 0]])),
    // among unused vertices
    (7, &[[2, 5, 7, 0]], 11, Ok(&[[8, 5, 7, 0], [2, 5, 8, 0]])),
    // closed, the higher row first
    (4, &TETRAHEDRON, 33, Ok(&[[1, 2, 3, 0], [1, 4, 2, 0], [2, 4, 5, 0], [3, 5, 1, 0], [5, 4, 1, 0], [2, 5, 3, 0]])),
    // a quadrilateral near by
    (
        5,
        &PYRAMID,
        10,
        Ok(&[[1, 2, 6, 0], [6, 3, 5, 0], [1, 4, 3, 2], [3, 4, 5, 0], [4, 1, 5, 0], [1, 6, 5, 0], [2, 3, 6, 0]]),
    ),
    (5, &MIXED, 18, Ok(&[[1, 2, 3, 4], [4, 3, 6, 0], [4, 6, 5, 0]])),
    // no half-edge has the code
    (4, &LISTING, 0, Err(NOT_THERE)),
    (4, &LISTING, 1, Err(NOT_THERE)),
    (4, &LISTING, 4, Err(NOT_THERE)),
    (4, &LISTING, 12, Err(NOT_THERE)),
    (4, &LISTING, 13, Err(NOT_THERE)),
    (4, &LISTING, 14, Err(NOT_THERE)),
    (4, &LISTING, 15, Err(NOT_THERE)),
    (4, &LISTING, 25, Err(NOT_THERE)),
    (4, &LISTING, 40, Err(NOT_THERE)),
    (4, &LISTING, 11 + (1 << 31), Err(NOT_THERE)),
    (4, &LISTING, 9 + (1 << 24), Err(NOT_THERE)),
    (4, &LISTING, u32::MAX - 7, Err(NOT_THERE)),
    (4, &LISTING, u32::MAX, Err(NOT_THERE)),
    (5, &MIXED, 13, Err(NOT_THERE)),
    (5, &MIXED, 20, Err(NOT_THERE)),
    (4, &TETRAHEDRON, 8, Err(NOT_THERE)),
    (5, &PYRAMID, 8, Err(NOT_THERE)),
    (0, &[], 0, Err(NOT_THERE)),
    (0, &[], 9, Err(NOT_THERE)),
    (6, &[], 8, Err(NOT_THERE)),
    // a border half-edge
    (4, &LISTING, 8, Err(EDGE_UNFIT)),
    (4, &LISTING, 16, Err(EDGE_UNFIT)),
    (4, &LISTING, 32, Err(EDGE_UNFIT)),
    (3, &TRIANGLE, 24, Err(EDGE_UNFIT)),
    // a quadrilateral on this side, on the other side, on its border
    (5, &MIXED, 11, Err(EDGE_UNFIT)),
    (5, &MIXED, 17, Err(EDGE_UNFIT)),
    (5, &MIXED, 9, Err(EDGE_UNFIT)),
    (5, &MIXED, 12, Err(EDGE_UNFIT)),
    (5, &PYRAMID, 9, Err(EDGE_UNFIT)),
    (5, &PYRAMID, 28, Err(EDGE_UNFIT)),
];

/// Rooms that differ from enough in one buffer, and some others.
fn rooms() -> Vec<Room> {
    let mut rooms = vec![
        [New(4), New(1), New(3), New(2), New(17), New(5)],
        [New(11), New(5), New(8), New(30), New(33), New(1)],
        [New(400), New(100), New(300), New(100), New(1700), New(700)],
        [Old(0); 6],
        [Zero; 6],
        // 19 before 9
        [Old(3), New(0), New(0), Zero, New(0), New(0)],
        [New(0), New(0), New(0), Zero, New(0), Old(2)],
    ];
    for at in 0..6 {
        for length in [New(1), New(-1), Old(0), Old(-1), Zero] {
            let mut room = ENOUGH;
            room[at] = length;
            rooms.push(room);
            // with the others longer
            room = [New(9); 6];
            room[at] = length;
            rooms.push(room);
        }
    }
    rooms
}

fn any_room(dice: &mut Dice) -> Room {
    let rooms = rooms();
    rooms[dice.below(rooms.len() as u32) as usize]
}

/// To what the reference expects, with points of all kinds.
fn compare_split(host: &mut Host, list: &List, code: u32, room: Room) -> Outcome {
    compare(host, Edit::Split, list, code, room)
}

fn known(host: &mut Host) {
    for (n, rows, code, new) in KNOWN {
        let list = List::new(n, rows);
        let want = compare_split(host, &list, code, ENOUGH);
        let found = want.left.elements.as_deref().ok_or(want.answer.err());
        assert_eq!(found, new.map(|rows| rows.as_flattened()).map_err(Some), "the reference, on {rows:?}, code {code}");
        for room in rooms() {
            let answer = compare_split(host, &list, code, room).answer;
            // 11 and 15 come before 19 and 9.
            assert!(
                new.is_ok() || answer == want.answer || answer == Err((2, 0, 0)),
                "code {code}, {room:?}: {answer:?}"
            );
        }
        compare_owned(host, &list, code, &want);
    }
    for (n, rows, refused) in REFUSED {
        let list = List::new(n, rows);
        for code in SOME_CODES {
            assert_eq!(compare_split(host, &list, code, ENOUGH).answer, Err(refused), "the reference, on {rows:?}");
            assert_eq!(
                compare_split(host, &list, code, [Old(0); 6]).answer,
                Err(refused),
                "the reference, on {rows:?}"
            );
            let room = any_room(&mut host.dice);
            compare_split(host, &list, code, room);
        }
    }
    causes_of_no_room(host);
}

/// 19 by each buffer alone: long enough for the old mesh, one entry too short for the new one. B2e gives 9, with the new k.
fn causes_of_no_room(host: &mut Host) {
    for (n, rows, code, k) in
        [(4, &LISTING[..], 11, 4), (4, &LISTING, 9, 5), (4, &TETRAHEDRON, 9, 0), (5, &MIXED, 19, 6)]
    {
        let list = List::new(n, rows);
        for at in 0..6 {
            for length in [New(-1), Old(0)] {
                let mut room = ENOUGH;
                room[at] = length;
                let answer = compare_split(host, &list, code, room).answer;
                if at != B2E {
                    assert_eq!(answer, Err(NO_ROOM), "code {code}, {room:?}");
                } else if k > 0 && matches!(length, New(_)) {
                    assert_eq!(answer, Err((9, k, 0)), "code {code}, {room:?}");
                }
            }
        }
    }
}

/// A split of a mesh that owns its buffers, built for it: it has room.
fn compare_owned(host: &mut Host, list: &List, code: u32, want: &Outcome) {
    let points: Vec<[f64; 3]> =
        any_points(&mut host.dice, list.n as usize).chunks(3).map(|p| [p[0], p[1], p[2]]).collect();
    let mut mesh = OwnedMesh::with_points(&points, &list.rows).expect("the list is accepted");
    let got = mesh.split(HalfEdge::from_code(code));
    host.situation.calls += 1;
    assert_eq!(numbers(got), want.answer, "owned, code {code}");
    let elements = want.left.elements.as_deref().unwrap_or(list.entries());
    assert_eq!(mesh.mesh().elements(), elements, "owned, code {code}");
    let old = &mesh.points()[..points.len()];
    assert_eq!(bits(old.as_flattened()), bits(points.as_flattened()), "owned, code {code}");
    assert_eq!(mesh.points().len(), points.len() + got.is_ok() as usize, "owned, code {code}");
    assert_sound(&mesh);
}

/// Every two of the special numbers, three pairs at a time, on the border and within.
fn midpoints(host: &mut Host) {
    let special: Vec<f64> = special_numbers().collect();
    for (&x, &y) in special.iter().flat_map(|x| special.iter().map(move |y| (x, y))) {
        let z = special[host.dice.below(special.len() as u32) as usize];
        let pairs = [(x, y), (y, x), (x, z)];
        compare_midpoint(host, &List::new(3, &TRIANGLE), side(1, 3), (2, 3), pairs);
        let inner = if host.dice.once_in(2) { side(1, 3) } else { side(2, 1) };
        compare_midpoint(host, &List::new(4, &LISTING), inner, (1, 3), pairs);
    }
}

/// The edge of these two vertices, which are at the first and the second numbers of the pairs.
fn compare_midpoint(host: &mut Host, list: &List, code: u32, ends: (usize, usize), pairs: [(f64, f64); 3]) {
    let mut points = any_points(&mut host.dice, list.n as usize);
    for (i, (x, y)) in pairs.into_iter().enumerate() {
        points[3 * (ends.0 - 1) + i] = x;
        points[3 * (ends.1 - 1) + i] = y;
    }
    let want = compare_to(host, Subject::new(Edit::Split, list, code), code, ENOUGH, &points, |call| call.expected());
    let points = want.left.points.expect("the edge is split");
    // What the machine makes of it, beside what the reference works out in whole numbers.
    for (&midway, (x, y)) in points[3 * list.n as usize..].iter().zip(pairs) {
        assert!(same_number(midway, (x + y) * 0.5), "the reference, midway between {x:e} and {y:e}");
    }
}

fn every_code(host: &mut Host, list: &List) {
    for code in codes_about(&mut host.dice, list) {
        let want = compare_split(host, list, code, ENOUGH);
        if host.dice.once_in(3) {
            let room = any_room(&mut host.dice);
            compare_split(host, list, code, room);
        }
        if want.answer.is_err() && host.dice.once_in(3) {
            assert_eq!(compare_split(host, list, code, [Old(0); 6]).answer, want.answer);
        }
        if want.answer.is_ok() && host.dice.once_in(2) {
            compare_owned(host, list, code, &want);
        }
    }
}

/// So many edits, each on what the one before left.
fn run(host: &mut Host, list: &List, steps: u32) {
    let mut run = match Run::new(list, &mut host.dice) {
        Ok(run) => run,
        Err(refused) => {
            let code = host.dice.below(8 * (list.rows.len() as u32 + 2));
            assert_eq!(compare_split(host, list, code, ENOUGH).answer, Err(refused));
            return;
        }
    };
    for _ in 0..if list.rows.is_empty() { 0 } else { steps } {
        let code = run.any_code(&mut host.dice);
        if host.dice.once_in(4) {
            run.swap(code);
        } else {
            let _ = run.edit(host, Edit::Split, code);
        }
    }
    assert_sound(&run.owned);
}

pub fn split_edges(host: &mut Host) {
    known(host);
    midpoints(host);
    for _ in 0..60 {
        let list = any_triangulated(&mut host.dice, 12);
        every_code(host, &list);
    }
    for (rounds, size, steps) in [(300, 12, 24), (60, 120, 60), (6, 1_200, 60), (1, 20_000, 15)] {
        for _ in 0..rounds {
            let list = any_triangulated(&mut host.dice, size);
            run(host, &list, steps);
            let list = any_housing(&mut host.dice, size);
            run(host, &list, steps / 4);
        }
    }
}

/// As many vertices as there may be, one fewer and one more, with two triangles; and as many triangles.
pub fn large_splits(host: &mut Host) {
    for (n, expected) in
        [(MAX_VERTICES - 1, Ok((4, 8))), (MAX_VERTICES, Err(NO_ROOM)), (MAX_VERTICES + 1, Err((1, 0, 0)))]
    {
        let list = List::new(n, &LISTING);
        assert_eq!(compare_split(host, &list, 11, ENOUGH).answer, expected, "{n} vertices");
    }
    most_triangles(host);
}

/// Without a border, by the map alone; then without one triangle, and without one more.
fn most_triangles(host: &mut Host) {
    let List { n, mut rows } = sheet(1000, 500, (true, true), Kinds::Triangles, &mut host.dice);
    let points = vec![1.0; 3 * n as usize];
    let subject = Subject { edit: Edit::Split, n, list: rows.as_flattened(), k: 0, triangles: 2 };
    for (code, refused) in
        [(side(MAX_ELEMENTS, 1), NO_ROOM), (side(MAX_ELEMENTS + 1, 1), NOT_THERE), (border(1), NOT_THERE)]
    {
        compare_to(host, subject, code, ENOUGH, &points, |_| refused_late(refused));
    }
    rows.pop();
    let mut edited = Edited::of_accepted(n, rows.as_flattened());
    let subject = Subject { edit: Edit::Split, n, list: rows.as_flattened(), k: 3, triangles: 1 };
    compare_to(host, subject, side(1, 1), [New(9); 6], &points, |_| refused_late(NO_ROOM));
    let on_border = edited.tables().b2e[0];
    let edge = edited.edge(on_border).expect("a border side can be split");
    edited.split(edge);
    let new = NewList { list: edited.list().to_vec(), tables: edited.tables() };
    let before = Size { n, m: MAX_ELEMENTS - 1 };
    let after = vec![1.0; points.len() + 3];
    compare_to(host, subject, on_border, ENOUGH, &points, |_| edits(before, n + 1, new, Some(after)));
}

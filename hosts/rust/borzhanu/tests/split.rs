//! Edges split at their midpoints, lent and owned, of panels whose new triangles, tables and points were worked out by hand.

use borzhanu::{
    side, split, swap, work_length, Counts, HalfEdge, OwnedMesh, Refusal, Size, Tables, MAX_ELEMENTS, MAX_VERTICES,
};

/// Two triangles, joined at 1 and 3.
const LISTING: [[u32; 4]; 2] = [[1, 2, 3, 0], [1, 3, 4, 0]];
const POINTS: [[f64; 3]; 4] = [[0.0, 0.0, 1.0], [4.0, 0.0, 1.0], [4.0, 3.0, 2.0], [-1.0, 3.0, -1.0]];

/// That edge split, named by its side in the first.
const INNER: [[u32; 4]; 4] = [[5, 2, 3, 0], [1, 5, 4, 0], [1, 2, 5, 0], [5, 3, 4, 0]];
const INNER_V2E: [u32; 5] = [16, 24, 8, 32, 9];
const INNER_E2E: [u32; 12] = [26, 8, 33, 27, 35, 16, 24, 9, 17, 11, 32, 18];
const INNER_B2E: [u32; 4] = [10, 19, 25, 34];
const INNER_COUNTS: Counts = Counts { borders: 4, edges: 8 };
const INNER_POINT: [f64; 3] = [2.0, 1.5, 1.5];

/// The edge of 1 and 2 split, on the border.
const BORDER: [[u32; 4]; 3] = [[1, 5, 3, 0], [1, 3, 4, 0], [5, 2, 3, 0]];
const BORDER_V2E: [u32; 5] = [24, 32, 40, 16, 8];
const BORDER_E2E: [u32; 9] = [8, 27, 17, 11, 16, 24, 32, 40, 10];
const BORDER_B2E: [u32; 5] = [9, 18, 19, 25, 26];
const BORDER_COUNTS: Counts = Counts { borders: 5, edges: 7 };
const BORDER_POINT: [f64; 3] = [2.0, 0.0, 1.0];

/// A quadrilateral and a triangle on its third side.
const MIXED: [[u32; 4]; 2] = [[1, 2, 3, 4], [4, 3, 5, 0]];

/// What a call answers and what it leaves: size, the list, V2e, E2e and B2e, and the points.
type Outcome = (Result<Counts, Refusal>, Size, [Vec<u32>; 4], Vec<f64>);

/// A call on a list and points followed by 7 up to these lengths, on tables of these lengths that hold 7 throughout; the
/// work buffer is looked at here.
fn lent(n: u32, list: &[[u32; 4]], points: &[f64], lens: [usize; 6], code: u32) -> Outcome {
    let mut size = Size { n, m: list.len() as u32 };
    let [list_len, v2e, e2e, b2e, work, points_len] = lens;
    let [mut v2e, mut e2e, mut b2e, mut work] = [v2e, e2e, b2e, work].map(|len| vec![7; len]);
    let mut elements: Vec<u32> = list.as_flattened().iter().copied().chain([7; 99]).take(list_len).collect();
    let mut points: Vec<f64> = points.iter().copied().chain([7.0; 99]).take(points_len).collect();
    let answer = split(&mut size, &mut elements, &mut v2e, &mut e2e, &mut b2e, &mut points, &mut work, code);
    let left = if let Err(Refusal::Sizes | Refusal::Lengths) = answer { 7 } else { 0 };
    assert!(work.iter().all(|&entry| entry == left));
    (answer, size, [elements, v2e, e2e, b2e], points)
}

/// The listing in buffers just long enough for a split of an inner edge, so much longer or shorter.
fn inner_with(changes: [isize; 6]) -> Outcome {
    let lens = [16, 5, 12, 4, work_length(5, 4), 15];
    listing_with(lens, changes, side(1, 3))
}

/// The same for an edge on the border.
fn border_with(changes: [isize; 6]) -> Outcome {
    let lens = [12, 5, 9, 5, work_length(5, 3), 15];
    listing_with(lens, changes, side(1, 1))
}

fn listing_with(lens: [usize; 6], changes: [isize; 6], code: u32) -> Outcome {
    let lens = [0, 1, 2, 3, 4, 5].map(|at| lens[at].saturating_add_signed(changes[at]));
    lent(4, &LISTING, POINTS.as_flattened(), lens, code)
}

fn built() -> OwnedMesh {
    OwnedMesh::with_points(&POINTS, &LISTING).expect("the list is accepted")
}

/// The mesh is the one that is built of these rows and points.
fn assert_is(mesh: &OwnedMesh, points: &[[f64; 3]], rows: &[[u32; 4]]) {
    assert_eq!((mesh.n() as usize, mesh.m() as usize), (points.len(), rows.len()));
    assert_eq!((mesh.points(), mesh.rows()), (points, rows));
    assert_eq!(Ok(mesh.tables()), Tables::build(mesh.n(), rows).as_ref());
    assert_eq!(Ok(mesh), OwnedMesh::with_points(points, rows).as_ref());
}

const LONGER: [[isize; 6]; 4] = [[0; 6], [1, 0, 0, 0, 0, 1], [4, 1, 3, 2, 17, 3], [40, 30, 20, 10, 5, 60]];

#[test]
fn an_inner_edge_in_lent_buffers() {
    for changes in LONGER {
        let (answer, size, left, points) = inner_with(changes);
        assert_eq!((answer, size), (Ok(INNER_COUNTS), Size { n: 5, m: 4 }));
        for (at, held) in [INNER.as_flattened(), &INNER_V2E, &INNER_E2E, &INNER_B2E].iter().enumerate() {
            assert_eq!(left[at], [held, &vec![7; changes[at] as usize][..]].concat());
        }
        assert_eq!(points, [POINTS.as_flattened(), &INNER_POINT, &vec![7.0; changes[5] as usize]].concat());
    }
}

#[test]
fn an_edge_on_the_border_in_lent_buffers() {
    for changes in LONGER {
        let (answer, size, left, points) = border_with(changes);
        assert_eq!((answer, size), (Ok(BORDER_COUNTS), Size { n: 5, m: 3 }));
        for (at, held) in [BORDER.as_flattened(), &BORDER_V2E, &BORDER_E2E, &BORDER_B2E].iter().enumerate() {
            assert_eq!(left[at], [held, &vec![7; changes[at] as usize][..]].concat());
        }
        assert_eq!(points, [POINTS.as_flattened(), &BORDER_POINT, &vec![7.0; changes[5] as usize]].concat());
    }
}

/// What a refused call leaves, and its refusal.
fn untouched((answer, size, [elements, tables @ ..], points): Outcome) -> Refusal {
    assert_eq!(size, Size { n: 4, m: 2 });
    assert!(elements.iter().zip(LISTING.as_flattened().iter().chain(&[7; 99])).all(|(left, before)| left == before));
    assert!(tables.iter().flatten().all(|&entry| entry == 7));
    assert!(points.iter().zip(POINTS.as_flattened().iter().chain(&[7.0; 99])).all(|(left, before)| left == before));
    answer.expect_err("the split is refused")
}

/// Long enough for the old mesh and not for the new one: 19. Not even for the old one: 2.
#[test]
fn buffers_that_are_too_short() {
    // list, V2e, E2e, work buffer and points: how much longer they must be afterwards
    for (at, grows) in [(0, 8), (1, 1), (2, 6), (4, 33), (5, 3)] {
        for (change, refusal) in [
            (-1, Refusal::NoRoom),
            (-grows, Refusal::NoRoom),
            (-grows - 1, Refusal::Lengths),
            (isize::MIN, Refusal::Lengths),
        ] {
            let mut changes = [0; 6];
            changes[at] = change;
            assert_eq!(untouched(inner_with(changes)), refusal);
            // 9 comes last
            changes[3] = isize::MIN;
            assert_eq!(untouched(inner_with(changes)), refusal);
        }
    }
    for change in [-1, -4] {
        assert_eq!(untouched(inner_with([0, 0, 0, change, 0, 0])), Refusal::BorderShort { needed: 4 });
        assert_eq!(untouched(border_with([9, 9, 9, change, 9, 9])), Refusal::BorderShort { needed: 5 });
    }
}

#[test]
fn sizes_over_their_maxima() {
    let nothing = [0; 6];
    assert_eq!(lent(MAX_VERTICES + 1, &[], &[], nothing, 9).0, Err(Refusal::Sizes));
    assert_eq!(lent(u32::MAX, &[], &[], nothing, 9).0, Err(Refusal::Sizes));
    assert_eq!(lent(MAX_VERTICES, &[], &[], nothing, 9).0, Err(Refusal::Lengths));
    for code in [0, 8, 9, u32::MAX] {
        assert_eq!(lent(0, &[], &[], nothing, code).0, Err(Refusal::NotThere));
    }
}

#[test]
fn the_most_vertices() {
    for (n, answer) in [(MAX_VERTICES, Err(Refusal::NoRoom)), (MAX_VERTICES - 1, Ok(INNER_COUNTS))] {
        let mut mesh = OwnedMesh::build(n, &LISTING).expect("the list is accepted");
        assert_eq!(mesh.split(HalfEdge::side(1, 3)), answer);
        assert_eq!((mesh.n(), mesh.points().len()), (MAX_VERTICES, MAX_VERTICES as usize));
    }
}

#[test]
fn owned() {
    let mut mesh = built();
    assert_is(&mesh, &POINTS, &LISTING);
    assert_eq!(mesh.split(HalfEdge::side(1, 3)), Ok(INNER_COUNTS));
    assert_is(&mesh, &[&POINTS[..], &[INNER_POINT]].concat(), &INNER);
    let tables = mesh.mesh();
    assert_eq!((tables.columns(), tables.v2e(), tables.e2e()), (3, &INNER_V2E[..], &INNER_E2E[..]));
    assert_eq!((tables.b2e(), mesh.counts()), (&INNER_B2E[..], INNER_COUNTS));
    assert_eq!(mesh.tables().neighbours(5), Ok(vec![2, 1, 4, 3]));

    let mut mesh = built();
    assert_eq!(mesh.split(HalfEdge::side(1, 1)), Ok(BORDER_COUNTS));
    assert_is(&mesh, &[&POINTS[..], &[BORDER_POINT]].concat(), &BORDER);
}

/// Named by the other side, the halves of that one are appended first.
#[test]
fn by_the_other_side() {
    let mut mesh = built();
    assert_eq!(mesh.split(HalfEdge::side(2, 1)), Ok(INNER_COUNTS));
    assert_is(
        &mesh,
        &[&POINTS[..], &[INNER_POINT]].concat(),
        &[[5, 2, 3, 0], [1, 5, 4, 0], [5, 3, 4, 0], [1, 2, 5, 0]],
    );
}

#[test]
fn what_is_refused_leaves_the_mesh_as_it_was() {
    let refused = |points: &[[f64; 3]], rows: &[[u32; 4]], code: u32| {
        let mut mesh = OwnedMesh::with_points(points, rows).expect("the list is accepted");
        let answer = mesh.split(HalfEdge::from_code(code));
        assert_is(&mesh, points, rows);
        answer.expect_err("the split is refused")
    };
    for code in [0, 1, 12, 13, 14, 15, 25, 40, u32::MAX - 7, u32::MAX] {
        assert_eq!(refused(&POINTS, &LISTING, code), Refusal::NotThere);
    }
    // Border half-edges.
    for code in [8, 16, 24, 32] {
        assert_eq!(refused(&POINTS, &LISTING, code), Refusal::EdgeUnfit);
    }
    // A quadrilateral on either side, or alone on its border.
    let points = [[1.0; 3]; 5];
    for code in [9, 11, 12, 17] {
        assert_eq!(refused(&points, &MIXED, code), Refusal::EdgeUnfit);
    }
}

#[test]
fn beside_a_quadrilateral() {
    let points = [[0.0; 3], [2.0; 3], [4.0; 3], [6.0; 3], [8.0; 3]];
    let mut mesh = OwnedMesh::with_points(&points, &MIXED).expect("the list is accepted");
    assert_eq!(mesh.split(HalfEdge::side(2, 2)), Ok(Counts { borders: 6, edges: 8 }));
    assert_is(&mesh, &[&points[..], &[[6.0; 3]]].concat(), &[[1, 2, 3, 4], [4, 3, 6, 0], [4, 6, 5, 0]]);
    assert_eq!(mesh.mesh().columns(), 4);
}

#[test]
fn a_refusal_in_words() {
    assert_eq!((Refusal::NoRoom.number(), Refusal::NoRoom.place()), (19, (0, 0)));
    assert_eq!(
        Refusal::NoRoom.to_string(),
        "n or m would be over 1,000,000, or a buffer other than B2e is too short for the new mesh"
    );
}

#[test]
fn lists_that_are_refused() {
    for (n, rows) in [(3, LISTING), (4, [[1, 2, 3, 0], [1, 2, 4, 0]]), (3, [[1, 2, 3, 0], [1, 3, 2, 0]])] {
        let points = vec![[0.0; 3]; n as usize];
        let refusal = Tables::build(n, &rows).expect_err("the list is refused");
        assert_eq!(OwnedMesh::with_points(&points, &rows), Err(refusal));
        for code in [0, 8, 9, 11] {
            let vertices = n as usize;
            let lens = [8, vertices, 6, 0, work_length(n, 2), 3 * vertices];
            let (answer, _, left, _) = lent(n, &rows, points.as_flattened(), lens, code);
            assert_eq!((answer, &left[0][..]), (Err(refusal), rows.as_flattened()));
        }
    }
    assert_eq!(OwnedMesh::with_points(&vec![[0.0; 3]; MAX_VERTICES as usize + 1], &[]), Err(Refusal::Sizes));
}

/// Each number is the sum times 0.5, operation by operation.
#[test]
fn numbers_that_are_hard_to_halve() {
    let (large, least) = ((1_u64 << 53) as f64, f64::from_bits(1));
    for ([x, y], midway) in [
        ([f64::MAX, f64::MAX], f64::INFINITY),
        ([f64::MAX, -f64::MAX], 0.0),
        ([least, least], least),
        ([least, 0.0], 0.0),
        ([3.0 * least, 0.0], 2.0 * least),
        ([-0.0, -0.0], -0.0),
        ([-0.0, 0.0], 0.0),
        ([large / 2.0, large / 2.0 - 1.0], large / 2.0 - 0.5),
        ([large, 1.0], large / 2.0),
        ([f64::INFINITY, 1.0], f64::INFINITY),
    ] {
        let points = [[x, y, 1.0], [y, x, 2.0], [0.0; 3]];
        let mut mesh = OwnedMesh::with_points(&points, &[[1, 2, 3, 0]]).expect("the list is accepted");
        assert_eq!(mesh.split(HalfEdge::side(1, 1)), Ok(Counts { borders: 4, edges: 5 }));
        assert_eq!(mesh.points()[3].map(f64::to_bits), [midway, midway, 1.5].map(f64::to_bits), "{x:e} and {y:e}");
    }
    let points = [[f64::INFINITY, f64::NAN, 1.0], [f64::NEG_INFINITY, 1.0, f64::NAN], [0.0; 3]];
    let mut mesh = OwnedMesh::with_points(&points, &[[1, 2, 3, 0]]).expect("the list is accepted");
    mesh.split(HalfEdge::side(1, 1)).expect("the edge is split");
    assert!(mesh.points()[3].iter().all(|number| number.is_nan()));
}

/// Points are moved by their owner, and a split goes by where they are.
#[test]
fn moved_points() {
    let mut mesh = OwnedMesh::build(4, &LISTING).expect("the list is accepted");
    assert_eq!(mesh.points(), [[0.0; 3]; 4]);
    mesh.points_mut().copy_from_slice(&POINTS);
    mesh.split(HalfEdge::side(1, 3)).expect("the edge is split");
    assert_eq!(mesh.points()[4], INNER_POINT);
}

/// The edge from 1 on, split again and again: it halves each time, and the buffers grow along. Swaps go on in between.
#[test]
fn a_long_run() {
    let mut mesh = built();
    for step in 1..=200 {
        mesh.split(HalfEdge::side(1, 3)).expect("the edge is split");
        assert_eq!((mesh.n(), mesh.m()), (4 + step, 2 + 2 * step));
        assert_eq!(mesh.counts(), Counts { borders: 4, edges: 5 + 3 * step });
        if step % 10 == 0 {
            let (points, rows) = (mesh.points().to_vec(), mesh.rows().to_vec());
            assert_is(&mesh, &points, &rows);
            let before = mesh.counts();
            let swapped = mesh.swap(HalfEdge::side(1, 1));
            assert!(swapped.is_err() || swapped == Ok(before));
            if swapped.is_ok() {
                mesh.swap(HalfEdge::side(1, 3)).expect("the new diagonal is swapped back");
            }
        }
    }
}

/// A split and a swap in the same lent buffers, one after the other.
#[test]
fn edits_in_turn() {
    let mut size = Size { n: 4, m: 2 };
    let mut elements: Vec<u32> = LISTING.as_flattened().iter().copied().chain([7; 9]).collect();
    let (mut v2e, mut e2e, mut b2e, mut work) = ([7; 6], [7; 13], [7; 6], [7; 80]);
    let mut points = [POINTS.as_flattened(), &[7.0; 4]].concat();
    let counts = split(&mut size, &mut elements, &mut v2e, &mut e2e, &mut b2e, &mut points, &mut work, side(1, 3));
    assert_eq!((counts, size), (Ok(INNER_COUNTS), Size { n: 5, m: 4 }));
    // The edge from 5 to 2: its triangles have the third corners 3 and 1.
    let counts = swap(&mut size, &mut elements, &mut v2e, &mut e2e, &mut b2e, &mut work, side(1, 1));
    assert_eq!((counts, size), (Ok(INNER_COUNTS), Size { n: 5, m: 4 }));
    assert_eq!(elements, [3, 5, 1, 0, 1, 5, 4, 0, 1, 2, 3, 0, 5, 3, 4, 0, 7]);
    assert_eq!((v2e[5], e2e[12], &b2e[4..], points[15]), (7, 7, &[7, 7][..], 7.0));
}

/// The calls keep nothing between them.
#[test]
fn several_threads_at_once() {
    std::thread::scope(|scope| {
        for (code, rows) in [(side(1, 3), &INNER[..]), (side(1, 1), &BORDER)] {
            scope.spawn(move || {
                for _ in 0..500 {
                    let mut mesh = built();
                    mesh.split(HalfEdge::from_code(code)).expect("the edge is split");
                    assert_eq!(mesh.rows(), rows);
                }
            });
        }
    });
}

/// A closed surface of as many triangles as there may be, and without one of them: one more has room, two haven't.
#[test]
fn the_most_elements() {
    let (across, along) = (1_000, 500);
    let corner = |x: u32, y: u32| 1 + x % across + across * (y % along);
    let cells = (0..along).flat_map(|y| (0..across).map(move |x| (x, y)));
    let mut rows: Vec<[u32; 4]> = cells
        .flat_map(|(x, y)| {
            let [a, b, c, d] = [corner(x, y), corner(x + 1, y), corner(x + 1, y + 1), corner(x, y + 1)];
            [[a, b, c, 0], [a, c, d, 0]]
        })
        .collect();
    let n = across * along;
    let mut full = OwnedMesh::build(n, &rows).expect("the list is accepted");
    assert_eq!((full.m(), full.split(HalfEdge::side(1, 2))), (MAX_ELEMENTS, Err(Refusal::NoRoom)));
    rows.pop();
    let mut mesh = OwnedMesh::build(n, &rows).expect("the list is accepted");
    let counts = mesh.counts();
    assert_eq!(mesh.split(HalfEdge::side(1, 2)), Err(Refusal::NoRoom));
    assert_eq!((mesh.n(), mesh.m(), mesh.counts()), (n, MAX_ELEMENTS - 1, counts));
    let rim = HalfEdge::from_code(mesh.mesh().b2e()[0]);
    assert_eq!(mesh.split(rim), Ok(Counts { borders: 4, edges: counts.edges + 2 }));
    assert_eq!((mesh.n(), mesh.m()), (n + 1, MAX_ELEMENTS));
    assert_eq!(mesh.split(rim), Err(Refusal::NoRoom));
}

//! Contracted edges, lent and owned, of plates whose rows, tables and points afterwards were worked out by hand.

use borzhanu::{
    contract, side, split, swap, work_length, Counts, HalfEdge, OwnedMesh, Refusal, Size, Tables, MAX_ELEMENTS,
    MAX_VERTICES,
};

/// Four triangles about vertex 1.
const PLATE: [[u32; 4]; 4] = [[2, 3, 1, 0], [3, 4, 1, 0], [4, 5, 1, 0], [5, 2, 1, 0]];
const POINTS: [[f64; 3]; 5] = [[1.0, 1.5, 0.5], [0.0, 0.0, 1.0], [4.0, 0.0, 1.0], [4.0, 3.0, 2.0], [-1.0, 3.0, -1.0]];

/// Vertex 1 merged into 2, within: rows 4 and 1 go, row 3 is row 1 then, and vertex 5 is vertex 1.
const INNER_CODE: u32 = side(4, 2);
const INNER: [[u32; 4]; 2] = [[4, 1, 2, 0], [3, 4, 2, 0]];
const INNER_V2E: [u32; 4] = [8, 16, 32, 24];
const INNER_E2E: [u32; 6] = [8, 16, 18, 24, 11, 32];
const INNER_B2E: [u32; 4] = [9, 10, 17, 19];
const INNER_COUNTS: Counts = Counts { borders: 4, edges: 5 };
const INNER_POINTS: [[f64; 3]; 4] = [POINTS[4], POINTS[1], POINTS[2], POINTS[3]];

/// Vertex 3 merged into 2, on the border: row 1 goes, row 4 is row 1 then, and vertex 5 is vertex 3.
const BORDER_CODE: u32 = side(1, 1);
const BORDER: [[u32; 4]; 3] = [[3, 2, 1, 0], [2, 4, 1, 0], [4, 3, 1, 0]];
const BORDER_V2E: [u32; 4] = [11, 8, 24, 16];
const BORDER_E2E: [u32; 9] = [8, 19, 26, 16, 27, 10, 24, 11, 18];
const BORDER_B2E: [u32; 3] = [9, 17, 25];
const BORDER_COUNTS: Counts = Counts { borders: 3, edges: 6 };
const BORDER_POINTS: [[f64; 3]; 4] = [POINTS[0], POINTS[1], POINTS[4], POINTS[3]];

/// A quadrilateral and a triangle on its third side.
const MIXED: [[u32; 4]; 2] = [[1, 2, 3, 4], [4, 3, 5, 0]];
const TETRAHEDRON: [[u32; 4]; 4] = [[1, 2, 3, 0], [1, 4, 2, 0], [2, 4, 3, 0], [3, 4, 1, 0]];
const STRIP: [[u32; 4]; 4] = [[1, 2, 3, 0], [3, 2, 4, 0], [3, 4, 5, 0], [5, 4, 6, 0]];

/// What a call answers and what it leaves: size, the list, V2e, E2e and B2e, and the points.
type Outcome = (Result<Counts, Refusal>, Size, [Vec<u32>; 4], Vec<f64>);

/// A call on a list and points followed by 7 up to these lengths, on tables of these lengths that hold 7 throughout; the
/// work buffer is looked at here.
fn lent(n: u32, list: &[[u32; 4]], points: &[f64], lens: [usize; 6], code: u32) -> Outcome {
    let mut size = Size { n, m: list.len() as u32 };
    let [list_len, v2e, e2e, b2e, work, points_len] = lens;
    let [mut v2e, mut e2e, mut b2e, mut work] = [v2e, e2e, b2e, work].map(|len| vec![7; len]);
    let mut elements: Vec<u32> = list.as_flattened().iter().copied().chain([7; 99]).take(list_len).collect();
    let mut points: Vec<f64> = points.iter().copied().chain([7.0; 99]).take(points_len).collect();
    let answer = contract(&mut size, &mut elements, &mut v2e, &mut e2e, &mut b2e, &mut points, &mut work, code);
    let left = if let Err(Refusal::Sizes | Refusal::Lengths) = answer { 7 } else { 0 };
    assert!(work.iter().all(|&entry| entry == left));
    (answer, size, [elements, v2e, e2e, b2e], points)
}

/// The plate in buffers just long enough for it, so much longer or shorter.
fn plate_with(changes: [isize; 6], code: u32) -> Outcome {
    let lens = [16, 5, 12, 4, work_length(5, 4), 15];
    let lens = [0, 1, 2, 3, 4, 5].map(|at| lens[at].saturating_add_signed(changes[at]));
    lent(5, &PLATE, POINTS.as_flattened(), lens, code)
}

fn built() -> OwnedMesh {
    OwnedMesh::with_points(&POINTS, &PLATE).expect("the list is accepted")
}

/// The mesh is the one that is built of these rows and points.
fn assert_is(mesh: &OwnedMesh, points: &[[f64; 3]], rows: &[[u32; 4]]) {
    assert_eq!((mesh.n() as usize, mesh.m() as usize), (points.len(), rows.len()));
    assert_eq!((mesh.points(), mesh.rows()), (points, rows));
    assert_eq!(Ok(mesh.tables()), Tables::build(mesh.n(), rows).as_ref());
    assert_eq!(Ok(mesh), OwnedMesh::with_points(points, rows).as_ref());
}

const LONGER: [[isize; 6]; 4] = [[0; 6], [1, 0, 0, 0, 0, 1], [4, 1, 3, 2, 17, 3], [40, 30, 20, 10, 5, 60]];

/// What is held, 0 up to what was held, and 7 after that.
fn followed<T: Copy + From<u8>>(held: &[T], old: usize, longer: isize) -> Vec<T> {
    [held, &vec![T::from(0); old - held.len()], &vec![T::from(7); longer as usize]].concat()
}

#[test]
fn an_inner_edge_in_lent_buffers() {
    for changes in LONGER {
        let (answer, size, left, points) = plate_with(changes, INNER_CODE);
        assert_eq!((answer, size), (Ok(INNER_COUNTS), Size { n: 4, m: 2 }));
        assert_eq!(left[0], followed(INNER.as_flattened(), 16, changes[0]));
        assert_eq!(left[1], followed(&INNER_V2E, 5, changes[1]));
        assert_eq!(left[2], followed(&INNER_E2E, 12, changes[2]));
        assert_eq!(left[3], followed(&INNER_B2E, 4, changes[3]));
        assert_eq!(points, followed(INNER_POINTS.as_flattened(), 15, changes[5]));
    }
}

/// Here k is less too, and the rest of B2e is as it was.
#[test]
fn an_edge_on_the_border_in_lent_buffers() {
    for changes in LONGER {
        let (answer, size, left, points) = plate_with(changes, BORDER_CODE);
        assert_eq!((answer, size), (Ok(BORDER_COUNTS), Size { n: 4, m: 3 }));
        assert_eq!(left[0], followed(BORDER.as_flattened(), 16, changes[0]));
        assert_eq!(left[1], followed(&BORDER_V2E, 5, changes[1]));
        assert_eq!(left[2], followed(&BORDER_E2E, 12, changes[2]));
        assert_eq!(left[3], followed(&BORDER_B2E, 3, 1 + changes[3]));
        assert_eq!(points, followed(BORDER_POINTS.as_flattened(), 15, changes[5]));
        assert!(points[12..15].iter().all(|number| number.is_sign_positive()));
    }
    let (answer, _, left, _) = plate_with([0, 0, 0, -1, 0, 0], BORDER_CODE);
    assert_eq!((answer, &left[3][..]), (Ok(BORDER_COUNTS), &BORDER_B2E[..]));
}

/// What a refused call leaves, and its refusal.
fn untouched((answer, size, [elements, tables @ ..], points): Outcome) -> Refusal {
    assert_eq!(size, Size { n: 5, m: 4 });
    assert!(elements.iter().zip(PLATE.as_flattened().iter().chain(&[7; 99])).all(|(left, before)| left == before));
    assert!(tables.iter().flatten().all(|&entry| entry == 7));
    assert!(points.iter().zip(POINTS.as_flattened().iter().chain(&[7.0; 99])).all(|(left, before)| left == before));
    answer.expect_err("the contraction is refused")
}

/// The buffers but B2e must be long enough for the old mesh; B2e for the new one.
#[test]
fn buffers_that_are_too_short() {
    for code in [INNER_CODE, BORDER_CODE] {
        for at in [0, 1, 2, 4, 5] {
            for change in [-1, isize::MIN] {
                let mut changes = [0; 6];
                changes[at] = change;
                assert_eq!(untouched(plate_with(changes, code)), Refusal::Lengths);
                // 9 comes last
                changes[3] = isize::MIN;
                assert_eq!(untouched(plate_with(changes, code)), Refusal::Lengths);
            }
        }
    }
    for change in [-1, -4] {
        let changes = [0, 0, 0, change, 0, 0];
        assert_eq!(untouched(plate_with(changes, INNER_CODE)), Refusal::BorderShort { needed: 4 });
    }
    for change in [-2, -4] {
        let changes = [9, 9, 9, change, 9, 9];
        assert_eq!(untouched(plate_with(changes, BORDER_CODE)), Refusal::BorderShort { needed: 3 });
    }
}

#[test]
fn sizes_over_their_maxima() {
    let nothing = [0; 6];
    assert_eq!(lent(MAX_VERTICES + 1, &[], &[], nothing, 9).0, Err(Refusal::Sizes));
    assert_eq!(lent(u32::MAX, &[], &[], nothing, 9).0, Err(Refusal::Sizes));
    assert_eq!(lent(MAX_VERTICES, &[], &[], nothing, 9).0, Err(Refusal::Lengths));
    for code in [0, 8, 9, u32::MAX] {
        assert_eq!(lent(0, &[], &[], nothing, code).0, Err(Refusal::NotThere));
    }
}

#[test]
fn the_most_vertices() {
    let mut mesh = OwnedMesh::build(MAX_VERTICES, &PLATE).expect("the list is accepted");
    assert_eq!(mesh.contract(HalfEdge::from_code(INNER_CODE)), Ok(INNER_COUNTS));
    assert_eq!((mesh.n(), mesh.points().len()), (MAX_VERTICES - 1, MAX_VERTICES as usize - 1));
    // The last vertex was an unused one, and is vertex 1 now.
    assert_eq!(mesh.rows(), [[4, 5, 2, 0], [3, 4, 2, 0]]);
}

#[test]
fn owned() {
    let mut mesh = built();
    assert_is(&mesh, &POINTS, &PLATE);
    assert_eq!(mesh.contract(HalfEdge::from_code(INNER_CODE)), Ok(INNER_COUNTS));
    assert_is(&mesh, &INNER_POINTS, &INNER);
    let tables = mesh.mesh();
    assert_eq!((tables.columns(), tables.v2e(), tables.e2e()), (3, &INNER_V2E[..], &INNER_E2E[..]));
    assert_eq!((tables.b2e(), mesh.counts()), (&INNER_B2E[..], INNER_COUNTS));
    assert_eq!(mesh.tables().neighbours(2), Ok(vec![1, 4, 3]));

    let mut mesh = built();
    assert_eq!(mesh.contract(HalfEdge::from_code(BORDER_CODE)), Ok(BORDER_COUNTS));
    assert_is(&mesh, &BORDER_POINTS, &BORDER);
    assert_eq!((mesh.mesh().b2e(), mesh.counts()), (&BORDER_B2E[..], BORDER_COUNTS));
}

/// Named by the other side, it is the other end that stays.
#[test]
fn by_the_other_side() {
    let mut mesh = built();
    assert_eq!(mesh.contract(HalfEdge::side(1, 3)), Ok(INNER_COUNTS));
    assert_is(&mesh, &[POINTS[0], POINTS[4], POINTS[2], POINTS[3]], &[[4, 2, 1, 0], [3, 4, 1, 0]]);
}

/// The last vertex goes, or stays and gets the other number; the last rows go.
#[test]
fn the_last_ones() {
    for (end, points) in [(side(4, 3), POINTS[..4].to_vec()), (side(3, 2), [&[POINTS[4]], &POINTS[1..4]].concat())] {
        let mut mesh = built();
        assert_eq!(mesh.contract(HalfEdge::from_code(end)), Ok(INNER_COUNTS));
        assert_is(&mesh, &points, &[[2, 3, 1, 0], [3, 4, 1, 0]]);
    }
}

#[test]
fn what_is_refused_leaves_the_mesh_as_it_was() {
    let refused = |rows: &[[u32; 4]], code: u32| {
        let n = *rows.as_flattened().iter().max().expect("there are rows");
        let points: Vec<[f64; 3]> = (1..=n).map(|v| [v as f64; 3]).collect();
        let mut mesh = OwnedMesh::with_points(&points, rows).expect("the list is accepted");
        let answer = mesh.contract(HalfEdge::from_code(code));
        assert_is(&mesh, &points, rows);
        answer.expect_err("the contraction is refused")
    };
    for code in [0, 1, 12, 13, 14, 15, 36, 41, 80, u32::MAX - 7, u32::MAX] {
        assert_eq!(refused(&PLATE, code), Refusal::NotThere);
    }
    // Border half-edges.
    for code in [8, 16, 24, 32] {
        assert_eq!(refused(&PLATE, code), Refusal::EdgeUnfit);
    }
    // A quadrilateral on either side, or alone on its border.
    for code in [9, 11, 12, 17] {
        assert_eq!(refused(&MIXED, code), Refusal::EdgeUnfit);
    }
    // 2 and 3 both have 4 for a neighbour, and only 1 is a third corner.
    assert_eq!(refused(&BORDER, side(1, 1)), Refusal::EdgePinched);
    // The last triangle, and the last two.
    assert_eq!(refused(&[[1, 2, 3, 0]], side(1, 1)), Refusal::VertexStranded);
    assert_eq!(refused(&INNER, side(1, 3)), Refusal::VertexStranded);
    // From border to border; the place is that of the new list.
    assert_eq!(refused(&STRIP, side(3, 1)), Refusal::FanBroken { vertex: 3 });
    assert_eq!(refused(&TETRAHEDRON, side(1, 1)), Refusal::ElementsClash { first: 1, second: 2 });
}

#[test]
fn beside_a_quadrilateral() {
    let points = [[0.0; 3], [2.0; 3], [4.0; 3], [6.0; 3], [8.0; 3]];
    for (code, left) in [(side(2, 2), points[3]), (side(2, 3), points[4])] {
        let mut mesh = OwnedMesh::with_points(&points, &MIXED).expect("the list is accepted");
        assert_eq!(mesh.contract(HalfEdge::from_code(code)), Ok(Counts { borders: 4, edges: 4 }));
        assert_is(&mesh, &[&points[..3], &[left]].concat(), &[[1, 2, 3, 4]]);
        assert_eq!(mesh.mesh().columns(), 4);
    }
}

#[test]
fn refusals_in_words() {
    assert_eq!((Refusal::EdgePinched.number(), Refusal::EdgePinched.place()), (20, (0, 0)));
    assert_eq!((Refusal::VertexStranded.number(), Refusal::VertexStranded.place()), (21, (0, 0)));
    assert_eq!(
        Refusal::EdgePinched.to_string(),
        "the edge's ends have a common neighbour that isn't a third corner of its triangles"
    );
    assert_eq!(Refusal::VertexStranded.to_string(), "a vertex that was used would be left unused");
}

#[test]
fn lists_that_are_refused() {
    for (n, rows) in
        [(3, [[1, 2, 3, 0], [1, 3, 4, 0]]), (4, [[1, 2, 3, 0], [1, 2, 4, 0]]), (3, [[1, 2, 3, 0], [1, 3, 2, 0]])]
    {
        let points = vec![[0.0; 3]; n as usize];
        let refusal = Tables::build(n, &rows).expect_err("the list is refused");
        for code in [0, 8, 9, 11] {
            let vertices = n as usize;
            let lens = [8, vertices, 6, 0, work_length(n, 2), 3 * vertices];
            let (answer, _, left, _) = lent(n, &rows, points.as_flattened(), lens, code);
            assert_eq!((answer, &left[0][..]), (Err(refusal), rows.as_flattened()));
        }
    }
}

/// Points are carried, not reckoned with: each keeps its bits, be it a number or not.
#[test]
fn points_keep_their_bits() {
    let signalling = f64::from_bits(0x7FF0_0000_DEAD_BEEF);
    let quiet = f64::from_bits(0xFFF8_0000_0000_1234);
    let points = [[1.0; 3], [-0.0, quiet, f64::INFINITY], [2.0; 3], [3.0; 3], [signalling, -0.0, f64::from_bits(1)]];
    let mut mesh = OwnedMesh::with_points(&points, &PLATE).expect("the list is accepted");
    mesh.contract(HalfEdge::from_code(INNER_CODE)).expect("the edge is contracted");
    let expected = [points[4], points[1], points[2], points[3]];
    let bits = |points: &[[f64; 3]]| points.iter().flatten().map(|number| number.to_bits()).collect::<Vec<u64>>();
    assert_eq!(bits(mesh.points()), bits(&expected));
}

/// What was split is contracted by the same code: all is as it was.
#[test]
fn a_split_and_its_contraction() {
    for code in (1..=4).flat_map(|f| (1..=3).map(move |i| side(f, i))) {
        let mut mesh = built();
        mesh.split(HalfEdge::from_code(code)).expect("the edge is split");
        mesh.contract(HalfEdge::from_code(code)).expect("the edge is contracted");
        assert_eq!(mesh, built(), "code {code}");
    }
}

/// A plate that is refined many times and then coarsened until nothing more can be: one triangle is left.
#[test]
fn a_long_run() {
    let mut mesh = built();
    for step in 0..100 {
        mesh.split(HalfEdge::side(1 + step % mesh.m(), 1 + step % 3)).expect("the edge is split");
    }
    assert_eq!(mesh.n(), 105);
    let any_contracted = |mesh: &mut OwnedMesh| {
        let sides = (1..=mesh.m()).flat_map(|f| (1..=3).map(move |i| HalfEdge::side(f, i)));
        sides.into_iter().any(|side| mesh.contract(side).is_ok())
    };
    while any_contracted(&mut mesh) {
        let (points, rows) = (mesh.points().to_vec(), mesh.rows().to_vec());
        assert_is(&mesh, &points, &rows);
    }
    assert_eq!((mesh.n(), mesh.m(), mesh.counts()), (3, 1, Counts { borders: 3, edges: 3 }));
}

/// A contraction, a split and a swap in the same lent buffers, one after the other.
#[test]
fn edits_in_turn() {
    let mut size = Size { n: 5, m: 4 };
    let mut elements: Vec<u32> = PLATE.as_flattened().iter().copied().chain([7]).collect();
    let (mut v2e, mut e2e, mut b2e, mut work) = ([7; 6], [7; 13], [7; 6], [7; 70]);
    let mut points = [POINTS.as_flattened(), &[7.0]].concat();
    let counts = contract(&mut size, &mut elements, &mut v2e, &mut e2e, &mut b2e, &mut points, &mut work, INNER_CODE);
    assert_eq!((counts, size), (Ok(INNER_COUNTS), Size { n: 4, m: 2 }));
    // The edge from 2 to 4, and then that from 3 to the new vertex 5.
    let counts = split(&mut size, &mut elements, &mut v2e, &mut e2e, &mut b2e, &mut points, &mut work, side(1, 3));
    assert_eq!((counts, size), (Ok(Counts { borders: 4, edges: 8 }), Size { n: 5, m: 4 }));
    assert_eq!(elements, [5, 1, 2, 0, 3, 4, 5, 0, 4, 1, 5, 0, 3, 5, 2, 0, 7]);
    let counts = swap(&mut size, &mut elements, &mut v2e, &mut e2e, &mut b2e, &mut work, side(2, 3));
    assert_eq!((counts, size), (Ok(Counts { borders: 4, edges: 8 }), Size { n: 5, m: 4 }));
    assert_eq!(elements, [5, 1, 2, 0, 4, 5, 2, 0, 4, 1, 5, 0, 2, 3, 4, 0, 7]);
    assert_eq!((v2e[5], e2e[12], &b2e[4..], points[15]), (7, 7, &[7, 7][..], 7.0));
}

/// The calls keep nothing between them.
#[test]
fn several_threads_at_once() {
    std::thread::scope(|scope| {
        for (code, rows) in [(INNER_CODE, &INNER[..]), (BORDER_CODE, &BORDER)] {
            scope.spawn(move || {
                for _ in 0..500 {
                    let mut mesh = built();
                    mesh.contract(HalfEdge::from_code(code)).expect("the edge is contracted");
                    assert_eq!(mesh.rows(), rows);
                }
            });
        }
    });
}

/// A closed surface of as many triangles as there may be.
#[test]
fn the_most_elements() {
    let (across, along) = (1_000, 500);
    let corner = |x: u32, y: u32| 1 + x % across + across * (y % along);
    let cells = (0..along).flat_map(|y| (0..across).map(move |x| (x, y)));
    let rows: Vec<[u32; 4]> = cells
        .flat_map(|(x, y)| {
            let [a, b, c, d] = [corner(x, y), corner(x + 1, y), corner(x + 1, y + 1), corner(x, y + 1)];
            [[a, b, c, 0], [a, c, d, 0]]
        })
        .collect();
    let n = across * along;
    let mut mesh = OwnedMesh::build(n, &rows).expect("the list is accepted");
    let counts = mesh.counts();
    assert_eq!(mesh.m(), MAX_ELEMENTS);
    for step in 1..=3 {
        let answer = mesh.contract(HalfEdge::side(mesh.m(), 1));
        assert_eq!(answer, Ok(Counts { borders: 0, edges: counts.edges - 3 * step }));
        assert_eq!((mesh.n(), mesh.m()), (n - step, MAX_ELEMENTS - 2 * step));
    }
}

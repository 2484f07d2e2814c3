//! Swapped diagonals, lent and owned, of panels whose new triangles and tables were worked out by hand.

use borzhanu::{
    side, swap, work_length, Counts, HalfEdge, OwnedMesh, Refusal, Size, Tables, MAX_ELEMENTS, MAX_VERTICES,
};

/// Two triangles, joined at 1 and 3; and swapped, joined at 2 and 4.
const LISTING: [[u32; 4]; 2] = [[1, 2, 3, 0], [1, 3, 4, 0]];
const SWAPPED: [[u32; 4]; 2] = [[2, 3, 4, 0], [4, 1, 2, 0]];
const SWAPPED_V2E: [u32; 4] = [24, 32, 8, 16];
const SWAPPED_E2E: [u32; 6] = [8, 16, 19, 24, 32, 11];
const SWAPPED_B2E: [u32; 4] = [9, 10, 17, 18];
const COUNTS: Counts = Counts { borders: 4, edges: 5 };
/// Beside them a quadrilateral.
const MIXED: [[u32; 4]; 3] = [[1, 2, 3, 0], [3, 2, 5, 6], [1, 3, 4, 0]];
const TETRAHEDRON: [[u32; 4]; 4] = [[1, 2, 3, 0], [1, 4, 2, 0], [2, 4, 3, 0], [3, 4, 1, 0]];
/// A triangle and its two neighbours, one of them a quadrilateral that has the other's far corner.
const FOLDED: [[u32; 4]; 3] = [[1, 2, 3, 0], [2, 1, 4, 0], [3, 2, 4, 5]];

/// What a call answers and what it leaves: the list, V2e, E2e and B2e.
type Outcome = (Result<Counts, Refusal>, [Vec<u32>; 4]);

/// A call on a list in a buffer of its own length, and on others of these lengths that hold 7 throughout; size and work
/// buffer are looked at here.
fn lent(n: u32, m: u32, elements: &[u32], lens: [usize; 4], code: u32) -> Outcome {
    let mut size = Size { n, m };
    let [mut v2e, mut e2e, mut b2e, mut work] = lens.map(|len| vec![7; len]);
    let mut elements = elements.to_vec();
    let answer = swap(&mut size, &mut elements, &mut v2e, &mut e2e, &mut b2e, &mut work, code);
    assert_eq!(size, Size { n, m });
    let left = if let Err(Refusal::Sizes | Refusal::Lengths) = answer { 7 } else { 0 };
    assert!(work.iter().all(|&entry| entry == left));
    (answer, [elements, v2e, e2e, b2e])
}

/// The listing's diagonal, in buffers that are so much longer than they must be, or shorter.
fn listing_with(changes: [isize; 5]) -> Outcome {
    let needed = [8, 4, 6, 4, work_length(4, 2)];
    let [list, v2e, e2e, b2e, work] = [0, 1, 2, 3, 4].map(|at| needed[at].saturating_add_signed(changes[at]));
    let elements: Vec<u32> = LISTING.as_flattened().iter().copied().chain([7; 99]).take(list).collect();
    lent(4, 2, &elements, [v2e, e2e, b2e, work], 11)
}

fn built(n: u32, rows: &[[u32; 4]]) -> OwnedMesh {
    OwnedMesh::build(n, rows).expect("the list is accepted")
}

/// The mesh is the one that is built of these rows.
fn assert_is(mesh: &OwnedMesh, n: u32, rows: &[[u32; 4]]) {
    assert_eq!((mesh.n(), mesh.m(), mesh.rows()), (n, rows.len() as u32, rows));
    assert_eq!(mesh.mesh().elements(), rows.as_flattened());
    assert_eq!(Ok(mesh.tables()), Tables::build(n, rows).as_ref());
    assert_eq!(Ok(mesh), OwnedMesh::build(n, rows).as_ref());
}

#[test]
fn the_listing_in_lent_buffers() {
    let held = [&[2, 3, 4, 0, 4, 1, 2, 0][..], &SWAPPED_V2E, &SWAPPED_E2E, &SWAPPED_B2E];
    for changes in [[0; 5], [1, 0, 0, 0, 0], [4, 1, 3, 2, 17], [40, 30, 20, 10, 5]] {
        let (answer, left) = listing_with(changes);
        assert_eq!(answer, Ok(COUNTS));
        for (at, held) in held.iter().enumerate() {
            assert_eq!(left[at], [held, &vec![7; changes[at] as usize][..]].concat());
        }
    }
}

#[test]
fn buffers_that_are_too_short() {
    let untouched = |changes| {
        let (answer, [elements, tables @ ..]) = listing_with(changes);
        let rows = LISTING.as_flattened();
        assert!(elements.iter().zip(rows.iter().chain(&[7; 99])).all(|(left, before)| left == before));
        assert!(tables.iter().flatten().all(|&entry| entry == 7));
        answer
    };
    for at in [0, 1, 2, 4] {
        let mut changes = [0; 5];
        for change in [-1, -4, isize::MIN] {
            changes[at] = change;
            assert_eq!(untouched(changes), Err(Refusal::Lengths));
        }
    }
    for change in [-1, -4] {
        assert_eq!(untouched([0, 0, 0, change, 0]), Err(Refusal::BorderShort { needed: 4 }));
        assert_eq!(untouched([9, 9, 9, change, 9]), Err(Refusal::BorderShort { needed: 4 }));
    }
}

#[test]
fn sizes_over_their_maxima() {
    let nothing = [0; 4];
    assert_eq!(lent(MAX_VERTICES + 1, 2, &[], nothing, 11).0, Err(Refusal::Sizes));
    assert_eq!(lent(4, MAX_ELEMENTS + 1, &[], nothing, 11).0, Err(Refusal::Sizes));
    assert_eq!(lent(u32::MAX, u32::MAX, &[], nothing, 11).0, Err(Refusal::Sizes));
    assert_eq!(lent(MAX_VERTICES, MAX_ELEMENTS, &[], nothing, 11).0, Err(Refusal::Lengths));
    for code in [0, 8, 9, u32::MAX] {
        assert_eq!(lent(0, 0, &[], nothing, code).0, Err(Refusal::NotThere));
    }
    // The most vertices, and the two triangles at both ends.
    let (n, work) = (MAX_VERTICES, work_length(MAX_VERTICES, 2));
    let (answer, [elements, v2e, ..]) = lent(n, 2, &[1, 2, n, 0, 1, n, n - 1, 0], [n as usize, 6, 4, work], 11);
    assert_eq!((answer, &elements[..]), (Ok(COUNTS), &[2, n, n - 1, 0, n - 1, 1, 2, 0][..]));
    assert_eq!((v2e[..3].to_vec(), v2e[n as usize - 3..].to_vec()), (vec![24, 32, 0], vec![0, 16, 8]));
}

#[test]
fn the_listing_owned() {
    for code in [11, 17] {
        let mut mesh = built(4, &LISTING);
        assert_is(&mesh, 4, &LISTING);
        assert_eq!(mesh.swap(HalfEdge::from_code(code)), Ok(COUNTS));
        assert_is(&mesh, 4, &SWAPPED);
        let lent = mesh.mesh();
        assert_eq!((lent.columns(), lent.v2e(), lent.e2e()), (3, &SWAPPED_V2E[..], &SWAPPED_E2E[..]));
        assert_eq!(lent.b2e(), SWAPPED_B2E);
        assert_eq!((mesh.tables().ring(2), mesh.tables().neighbours(3)), (Ok(vec![2, 1]), Ok(vec![2, 4])));
    }
}

/// Side 3 of both rows is the new diagonal. After two swaps the triangles are in each other's rows, after four they are
/// as they were.
#[test]
fn the_new_diagonal_as_well() {
    for code in [11, 19] {
        let mut mesh = built(4, &SWAPPED);
        for rows in [[[3, 4, 1, 0], [1, 2, 3, 0]], [[4, 1, 2, 0], [2, 3, 4, 0]], [[1, 2, 3, 0], [3, 4, 1, 0]], SWAPPED]
        {
            assert_eq!(mesh.swap(HalfEdge::from_code(code)), Ok(COUNTS));
            assert_is(&mesh, 4, &rows);
        }
    }
}

#[test]
fn what_is_refused_leaves_the_mesh_as_it_was() {
    let refused = |n, rows: &[[u32; 4]], code: u32| {
        let mut mesh = built(n, rows);
        let answer = mesh.swap(HalfEdge::from_code(code));
        assert_is(&mesh, n, rows);
        let (m, columns) = (rows.len(), mesh.mesh().columns() as usize);
        let lens = [n as usize, columns * m, n as usize, work_length(n, m)];
        assert_eq!(lent(n, m as u32, rows.as_flattened(), lens, code).0, answer);
        answer.expect_err("the swap is refused")
    };
    for code in [0, 1, 12, 13, 25, 40, u32::MAX] {
        assert_eq!(refused(4, &LISTING, code), Refusal::NotThere);
    }
    // Border half-edges and border sides.
    for code in [8, 32, 9, 18] {
        assert_eq!(refused(4, &LISTING, code), Refusal::EdgeUnfit);
    }
    // A quadrilateral on either side.
    for code in [10, 17, 20] {
        assert_eq!(refused(6, &MIXED, code), Refusal::EdgeUnfit);
    }
    assert_eq!(refused(4, &TETRAHEDRON, 9), Refusal::EdgeCrowded { element: 1, side: 3 });
    assert_eq!(refused(4, &TETRAHEDRON, 26), Refusal::EdgeCrowded { element: 1, side: 1 });
    assert_eq!(refused(5, &FOLDED, 9), Refusal::ElementsClash { first: 1, second: 3 });
}

#[test]
fn a_refusal_in_words() {
    assert_eq!((Refusal::EdgeUnfit.number(), Refusal::EdgeUnfit.place()), (15, (0, 0)));
    assert_eq!(Refusal::EdgeUnfit.to_string(), "the side or code named is a border or has a quadrilateral beside it");
}

#[test]
fn lists_that_are_refused() {
    for (n, rows) in [(3, LISTING), (4, [[1, 2, 3, 0], [1, 2, 4, 0]]), (3, [[1, 2, 3, 0], [1, 3, 2, 0]])] {
        let refusal = Tables::build(n, &rows).expect_err("the list is refused");
        assert_eq!(OwnedMesh::build(n, &rows), Err(refusal));
        for code in [0, 8, 9, 11] {
            let (answer, left) = lent(n, 2, rows.as_flattened(), [n as usize, 6, 0, work_length(n, 2)], code);
            assert_eq!((answer, &left[0][..]), (Err(refusal), rows.as_flattened()));
        }
    }
    assert_eq!(OwnedMesh::build(MAX_VERTICES + 1, &[]), Err(Refusal::Sizes));
}

#[test]
fn beside_a_quadrilateral() {
    let mut mesh = built(6, &MIXED);
    assert_eq!(mesh.swap(HalfEdge::side(3, 1)), Ok(Counts { borders: 6, edges: 8 }));
    assert_is(&mesh, 6, &[[2, 3, 4, 0], [3, 2, 5, 6], [4, 1, 2, 0]]);
    assert_eq!(mesh.mesh().columns(), 4);
    assert_eq!(mesh.tables().opposite(HalfEdge::side(1, 1)), Ok(HalfEdge::side(2, 1)));
}

/// A fan about vertex 1 swapped from its first spoke on: each swap takes a triangle away from vertex 1, until the last
/// one would join two neighbours twice.
#[test]
fn a_fan_taken_apart() {
    let count = 50;
    let rows: Vec<[u32; 4]> = (0..count).map(|i| [1, 2 + i, 2 + (i + 1) % count, 0]).collect();
    let mut mesh = built(count + 1, &rows);
    let counts = mesh.counts();
    for left in (3..count).rev() {
        // The spoke after the first: from vertex 1 to the second of its neighbours.
        let spoke = mesh.tables().opposite(HalfEdge::from_code(mesh.mesh().v2e()[0])).expect("vertex 1 is inner");
        assert_eq!(mesh.swap(spoke), Ok(counts));
        assert_eq!(mesh.tables().ring(1).map(|ring| ring.len()), Ok(left as usize));
        assert_is(&mesh, count + 1, mesh.rows());
    }
    let before = mesh.clone();
    let spoke = HalfEdge::from_code(mesh.mesh().v2e()[0]);
    assert!(matches!(mesh.swap(spoke), Err(Refusal::EdgeCrowded { .. })));
    assert_eq!(mesh, before);
}

/// The calls keep nothing between them.
#[test]
fn several_threads_at_once() {
    std::thread::scope(|scope| {
        for code in [side(1, 3), side(2, 3)] {
            scope.spawn(move || {
                let mut mesh = built(4, &SWAPPED);
                let first = mesh.clone();
                for _ in 0..500 {
                    for _ in 0..4 {
                        assert_eq!(mesh.swap(HalfEdge::from_code(code)), Ok(COUNTS));
                    }
                    assert_eq!(mesh, first);
                }
            });
        }
    });
}

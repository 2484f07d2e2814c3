//! What the wrapper adds to the archive: refusals by name, a mesh whose columns are looked up once, a walk that ends
//! after a refusal, tables that are owned, lists as vectors, kinds of vertices, and half-edges. The values are those of
//! the worked cases that docs/TRACE.md quotes, or worked out by hand.

use borzhanu::{
    build, columns, recover, work_length, Counts, HalfEdge, Mesh, Refusal, Tables, VertexKind, WalkerRecord,
    MAX_BORDERS, MAX_ELEMENTS, MAX_VERTICES,
};

const LISTING: [[u32; 4]; 2] = [[1, 2, 3, 0], [1, 3, 4, 0]];
const LISTING_V2E: [u32; 4] = [32, 8, 16, 24];
const LISTING_E2E: [u32; 6] = [8, 16, 17, 11, 24, 32];
const LISTING_B2E: [u32; 4] = [9, 10, 18, 19];
const TETRAHEDRON: [[u32; 4]; 4] = [[1, 2, 3, 0], [1, 4, 2, 0], [2, 4, 3, 0], [3, 4, 1, 0]];
/// A quadrilateral and a triangle on its third side.
const MIXED: [[u32; 4]; 2] = [[1, 2, 3, 4], [4, 3, 5, 0]];
const MIXED_V2E: [u32; 5] = [24, 8, 16, 40, 32];
const MIXED_E2E: [u32; 8] = [8, 16, 17, 24, 11, 32, 40, 0];
const MIXED_B2E: [u32; 5] = [9, 10, 12, 18, 19];

fn built(n: u32, elements: &[u32], b2e_len: usize) -> Result<Counts, Refusal> {
    let m = elements.len() / 4;
    let e2e_len = if elements.chunks(4).any(|row| row.get(3).is_some_and(|&v| v != 0)) { 4 * m } else { 3 * m };
    let (mut v2e, mut e2e, mut b2e) = (vec![0; n as usize], vec![0; e2e_len], vec![0; b2e_len]);
    let mut work = vec![0; work_length(n, m)];
    build(n, elements, &mut v2e, &mut e2e, &mut b2e, &mut work)
}

#[test]
fn each_refusal_of_build_has_its_name_and_place() {
    let refusals = [
        (built(4, &[1, 2, 3, 0, 4], 4), Refusal::Sizes, 1),
        (built(2, &[1, 2, 3, 0], 4), Refusal::CornerUnfit { element: 1, corner: 3 }, 3),
        (built(3, &[1, 2, 3, 1], 4), Refusal::CornerRepeated { element: 1, corner: 4 }, 4),
        (built(5, &[1, 2, 3, 0, 2, 1, 4, 0, 1, 2, 5, 0], 5), Refusal::EdgeCrowded { element: 1, side: 1 }, 6),
        (built(4, &[1, 2, 3, 0, 1, 2, 4, 0], 4), Refusal::SidesAlike { element: 1, side: 1 }, 7),
        (built(5, &[1, 2, 3, 0, 1, 4, 5, 0], 6), Refusal::FanBroken { vertex: 1 }, 8),
        (built(4, &[1, 2, 3, 4, 3, 2, 1, 0], 4), Refusal::ElementsClash { first: 1, second: 2 }, 18),
        // There is no room for k, 3: 18 comes before 9.
        (built(4, &[1, 2, 3, 4, 3, 2, 1, 0], 0), Refusal::ElementsClash { first: 1, second: 2 }, 18),
        (built(3, &[1, 2, 3, 0], 2), Refusal::BorderShort { needed: 3 }, 9),
    ];
    for (answer, refusal, number) in refusals {
        assert_eq!(answer, Err(refusal));
        assert_eq!(refusal.number(), number);
    }
    assert_eq!(built(3, &[1, 2, 3, 0], 3), Ok(Counts { borders: 3, edges: 3 }));
    // Refusal 5 is reserved: what gave it is accepted.
    assert_eq!(built(1, &[], 0), Ok(Counts { borders: 0, edges: 0 }));
    let reserved = Refusal::VertexUnused { vertex: 3 };
    assert_eq!((reserved.number(), reserved.place()), (5, (3, 0)));
}

#[test]
fn elements_that_clash() {
    let clash = |n, rows: &[[u32; 4]]| Tables::build(n, rows).map(|tables| tables.counts());
    let pair = |first, second| Err(Refusal::ElementsClash { first, second });
    assert_eq!(clash(3, &[[1, 2, 3, 0], [1, 3, 2, 0]]), pair(1, 2));
    // Three corners in common.
    assert_eq!(clash(9, &[[7, 8, 9, 0], [1, 2, 3, 4], [3, 2, 1, 0], [4, 3, 5, 0]]), pair(2, 3));
    // A diagonal of both; a diagonal of one that is a side of the other.
    assert_eq!(clash(6, &[[1, 2, 3, 4], [1, 5, 3, 6], [1, 4, 5, 0], [3, 5, 4, 0]]), pair(1, 2));
    assert_eq!(clash(5, &[[3, 2, 5, 0], [1, 2, 3, 0], [1, 3, 4, 2]]), pair(1, 3));
    // 8 comes first.
    let two_fans = [[1, 2, 3, 0], [1, 3, 2, 0], [4, 5, 6, 0], [4, 7, 8, 0]];
    assert_eq!(clash(8, &two_fans), Err(Refusal::FanBroken { vertex: 4 }));
    // A pyramid: its base has two corners, a side, in common with each triangle.
    let pyramid = [[1, 4, 3, 2], [1, 2, 5, 0], [2, 3, 5, 0], [3, 4, 5, 0], [4, 1, 5, 0]];
    assert_eq!(clash(5, &pyramid), Ok(Counts { borders: 0, edges: 8 }));

    let refusal = Refusal::ElementsClash { first: 1, second: 3 };
    assert_eq!((refusal.number(), refusal.place()), (18, (1, 3)));
    let shown = "two elements meet otherwise than at one corner or one edge: elements 1 and 3";
    assert_eq!(refusal.to_string(), shown);
}

#[test]
fn lists_that_clash_have_no_tables() {
    let (mut elements, mut work) = ([7; 8], vec![7; work_length(4, 2)]);
    // What the pairing would give for (1,2,3) and (1,3,2), and for (1,2,3,4) and (3,2,1).
    let e2e = [19, 18, 17, 11, 10, 9];
    assert_eq!(recover(3, 2, &[9, 10, 11], &e2e, &mut elements, &mut work), Err(Refusal::NoList));
    let e2e = [18, 17, 8, 16, 10, 9, 24, 0];
    assert_eq!(recover(4, 2, &[16, 10, 24, 8], &e2e, &mut elements, &mut work), Err(Refusal::NoList));
    assert_eq!(elements, [7; 8]);
    assert!(work.iter().all(|&entry| entry == 0));
}

#[test]
fn recovery_and_lists_refuse_by_name() {
    let v2e = [32, 8, 16, 16];
    let (mut elements, mut work) = ([7; 8], vec![0; work_length(4, 2)]);
    assert_eq!(recover(4, 2, &v2e, &LISTING_E2E, &mut elements, &mut work), Err(Refusal::NoList));
    assert_eq!(recover(4, 2, &v2e, &LISTING_E2E, &mut elements, &mut work[1..]), Err(Refusal::Lengths));
    assert_eq!(recover(4, MAX_ELEMENTS + 1, &v2e, &LISTING_E2E, &mut elements, &mut work), Err(Refusal::Sizes));
    assert_eq!(elements, [7; 8]);

    let mesh = Mesh::new(3, &[1, 2, 3, 0], &[24, 8, 16], &[8, 16, 24], &[9, 10, 11]).expect("the lengths are fit");
    assert_eq!(mesh.border_loop(1, &mut []), Err(Refusal::OutputShort { needed: 3 }));
    assert_eq!(mesh.ring(4, &mut []), Err(Refusal::NotThere));
    assert_eq!(mesh.element(8).map_err(|refusal| refusal.to_string()), Err(Refusal::NotThere.to_string()));
    assert_eq!(mesh.vertex_kind(3), Ok(VertexKind::Rim));
    assert_eq!(mesh.vertex_kind(4), Err(Refusal::NotThere));
    assert_eq!(mesh.halfedge_is_border(9), Ok(false));
}

#[test]
fn columns_are_those_of_the_widest_element() {
    let of = |rows: &[[u32; 4]]| columns(9, rows.as_flattened());
    assert_eq!((of(&[]), of(&LISTING), of(&TETRAHEDRON)), (Ok(3), Ok(3), Ok(3)));
    assert_eq!((of(&MIXED), of(&[[1, 2, 3, 0], [3, 4, 5, 6]])), (Ok(4), Ok(4)));
    // Whether build accepts the rows isn't asked.
    assert_eq!((of(&[[0, 0, 0, 0]]), of(&[[0, 0, 0, u32::MAX]])), (Ok(3), Ok(4)));
    assert_eq!(columns(MAX_VERTICES, &[]), Ok(3));
    assert_eq!(columns(MAX_VERTICES + 1, &[]), Err(Refusal::Sizes));
    assert_eq!(columns(4, &[1, 2, 3, 0, 1]), Err(Refusal::Sizes));
    assert_eq!(columns(4, &vec![1; 4 * MAX_ELEMENTS as usize + 4]), Err(Refusal::Sizes));
}

#[test]
fn a_mesh_of_unfit_lengths_is_refused() {
    let (triangles, mixed) = (LISTING.as_flattened(), MIXED.as_flattened());
    let listing = |n, v2e: &[u32], e2e: &[u32], b2e: &[u32]| Mesh::new(n, triangles, v2e, e2e, b2e).map(|_| ()).err();
    assert_eq!(listing(4, &LISTING_V2E, &LISTING_E2E, &LISTING_B2E), None);
    // Any content will do.
    assert_eq!(listing(4, &[7; 4], &[7; 6], &[7; 8]), None);
    for e2e_len in [0, 5, 7, 8] {
        assert_eq!(listing(4, &LISTING_V2E, &vec![0; e2e_len], &LISTING_B2E), Some(Refusal::Lengths));
    }
    assert_eq!(listing(4, &[7; 3], &[7; 6], &[]), Some(Refusal::Lengths));
    assert_eq!(listing(5, &[7; 4], &[7; 6], &[]), Some(Refusal::Lengths));
    assert_eq!(listing(4, &[7; 4], &[7; 6], &[7; 9]), Some(Refusal::Lengths));
    assert_eq!(listing(MAX_VERTICES + 1, &[], &[], &[]), Some(Refusal::Sizes));

    assert_eq!(Mesh::new(5, mixed, &MIXED_V2E, &MIXED_E2E, &MIXED_B2E).map(|mesh| mesh.columns()), Ok(4));
    assert_eq!(Mesh::new(5, mixed, &MIXED_V2E, &MIXED_E2E[..6], &MIXED_B2E).map(|_| ()), Err(Refusal::Lengths));
    assert_eq!(Mesh::new(5, &mixed[..7], &MIXED_V2E, &[], &[]).map(|_| ()), Err(Refusal::Sizes));
    assert_eq!(Mesh::new(0, &[], &[], &[], &[]).map(|mesh| mesh.columns()), Ok(3));
}

#[test]
fn a_quadrilateral_makes_four_columns() {
    let tables = Tables::build(5, &MIXED).expect("a quadrilateral and a triangle are accepted");
    let mesh = tables.mesh();
    assert_eq!((mesh.columns(), mesh.v2e(), mesh.e2e()), (4, &MIXED_V2E[..], &MIXED_E2E[..]));
    assert_eq!(mesh.b2e(), MIXED_B2E);
    assert_eq!((tables.ring(3), tables.ring(4)), (Ok(vec![1, 2]), Ok(vec![2, 1])));
    assert_eq!(tables.opposite(HalfEdge::side(2, 1)), Ok(HalfEdge::side(1, 3)));
    assert_eq!(tables.opposite(HalfEdge::side(2, 3)), Ok(HalfEdge::border(5)));
}

#[test]
fn recovery_by_either_length_of_e2e() {
    let recovered = |n: u32, m: u32, v2e: &[u32], e2e: &[u32]| {
        let (mut rows, mut work) = (vec![[7; 4]; m as usize], vec![7; work_length(n, m as usize)]);
        let answer = recover(n, m, v2e, e2e, rows.as_flattened_mut(), &mut work);
        answer.map(|()| rows)
    };
    assert_eq!(recovered(4, 2, &LISTING_V2E, &LISTING_E2E), Ok(LISTING.to_vec()));
    assert_eq!(recovered(5, 2, &MIXED_V2E, &MIXED_E2E), Ok(MIXED.to_vec()));
    // Triangles in four columns, and four columns cut to three.
    assert_eq!(recovered(4, 2, &LISTING_V2E, &[8, 16, 17, 0, 11, 24, 32, 0]), Err(Refusal::NoList));
    assert_eq!(recovered(5, 2, &MIXED_V2E, &[8, 16, 17, 11, 32, 40]), Err(Refusal::NoList));
    assert_eq!(recovered(4, 2, &LISTING_V2E, &[8; 7]), Err(Refusal::Lengths));

    // Four triangles apart and three quadrilaterals apart have both tables in common.
    let borders: Vec<u32> = (1..=12).map(borzhanu::border).collect();
    let triangles = [[3, 1, 2, 0], [6, 4, 5, 0], [9, 7, 8, 0], [12, 10, 11, 0]];
    let quadrilaterals = [[4, 1, 2, 3], [8, 5, 6, 7], [12, 9, 10, 11]];
    assert_eq!(recovered(12, 4, &borders, &borders), Ok(triangles.to_vec()));
    assert_eq!(recovered(12, 3, &borders, &borders), Ok(quadrilaterals.to_vec()));
    assert_eq!(recovered(12, 2, &borders, &borders), Err(Refusal::Lengths));
}

#[test]
fn a_walk_ends_after_a_refusal() {
    // The second triangle's entry for the first names no half-edge.
    let e2e = [8, 16, 17, 99, 24, 32];
    let mesh = Mesh::new(4, LISTING.as_flattened(), &LISTING_V2E, &e2e, &LISTING_B2E).expect("the lengths are fit");
    let mut walk = mesh.walk(1).expect("the start is sound");
    assert_eq!(walk.next(), Some(Err(Refusal::TableBroken)));
    assert_eq!(walk.next(), None);
    assert_eq!(walk.next(), None);
}

#[test]
fn tables_of_the_listing() {
    let tables = Tables::build(4, &LISTING).expect("the listing is accepted");
    let mesh = tables.mesh();
    assert_eq!(tables.counts(), Counts { borders: 4, edges: 5 });
    assert_eq!((mesh.n(), mesh.columns(), mesh.elements()), (4, 3, LISTING.as_flattened()));
    assert_eq!(mesh.v2e(), LISTING_V2E);
    assert_eq!(mesh.e2e(), LISTING_E2E);
    assert_eq!(mesh.b2e(), LISTING_B2E);
    assert_eq!(tables.ring(1), Ok(vec![2, 1]));
    assert_eq!(tables.neighbours(1), Ok(vec![4, 3, 2]));
    assert_eq!(tables.border_loop(1), Ok(vec![1, 4, 3, 2]));
    assert_eq!(tables.walk(1).and_then(Iterator::collect), tables.ring(1));
}

#[test]
fn tables_answer_each_query() {
    let tables = Tables::build(4, &LISTING).expect("the listing is accepted");
    let (inner, rim, border) = (HalfEdge::side(1, 3), HalfEdge::side(2, 2), HalfEdge::border(3));
    assert_eq!(tables.opposite(inner), Ok(HalfEdge::side(2, 1)));
    assert_eq!(tables.opposite(rim), Ok(border));
    assert_eq!(tables.next(inner), Ok(HalfEdge::side(1, 1)));
    assert_eq!(tables.next(border), Ok(HalfEdge::border(2)));
    assert_eq!(tables.previous(inner), Ok(HalfEdge::side(1, 2)));
    assert_eq!(tables.element(inner), Ok(1));
    assert_eq!((tables.origin(inner), tables.destination(inner)), (Ok(3), Ok(1)));
    assert_eq!((tables.origin(border), tables.destination(border)), (Ok(4), Ok(3)));
    assert_eq!((tables.across(inner), tables.across(rim)), (Ok(2), Ok(0)));
    assert_eq!((tables.halfedge_is_border(inner), tables.halfedge_is_border(border)), (Ok(false), Ok(true)));
    assert_eq!(tables.vertex_kind(1), Ok(VertexKind::Rim));

    assert_eq!(tables.previous(border), Err(Refusal::NotThere));
    assert_eq!(tables.opposite(HalfEdge::side(1, 4)), Err(Refusal::NotThere));
    assert_eq!(tables.ring(5), Err(Refusal::NotThere));
    assert_eq!(tables.border_loop(0), Err(Refusal::NotThere));
}

#[test]
fn tables_without_a_border() {
    let tables = Tables::build(4, &TETRAHEDRON).expect("the tetrahedron is accepted");
    let mesh = tables.mesh();
    assert_eq!(tables.counts(), Counts { borders: 0, edges: 6 });
    assert_eq!(mesh.v2e(), [9, 10, 11, 18]);
    assert_eq!(mesh.e2e()[..3], [19, 27, 35]);
    assert!(mesh.b2e().is_empty());
    assert_eq!(tables.ring(1), Ok(vec![1, 2, 4]));
    assert_eq!(tables.vertex_kind(1), Ok(VertexKind::Inner));
}

/// Nothing is about this vertex.
fn assert_unused(tables: &Tables, v: u32) {
    assert_eq!(tables.vertex_kind(v), Ok(VertexKind::Unused));
    assert_eq!((tables.ring(v), tables.neighbours(v)), (Ok(vec![]), Ok(vec![])));
    assert_eq!(tables.walk(v).expect("the vertex is there").next(), None);
}

#[test]
fn a_vertex_without_an_element() {
    let tables = Tables::build(1, &[]).expect("a vertex without an element is accepted");
    let mesh = tables.mesh();
    assert_eq!(tables.counts(), Counts { borders: 0, edges: 0 });
    assert_eq!((mesh.v2e(), mesh.columns()), (&[0][..], 3));
    assert!(mesh.e2e().is_empty() && mesh.b2e().is_empty());
    assert_unused(&tables, 1);
    assert_eq!(tables.vertex_kind(2), Err(Refusal::NotThere));
    assert_eq!(recover(1, 0, mesh.v2e(), mesh.e2e(), &mut [], &mut [7]), Ok(()));
}

#[test]
fn the_listing_with_unused_vertices() {
    let tables = Tables::build(5, &LISTING).expect("an unused vertex is accepted");
    let mesh = tables.mesh();
    assert_eq!(tables.counts(), Counts { borders: 4, edges: 5 });
    assert_eq!(mesh.v2e(), [32, 8, 16, 24, 0]);
    assert_eq!(mesh.e2e(), LISTING_E2E);
    assert_eq!(mesh.b2e(), LISTING_B2E);
    for v in 1..=4 {
        assert_eq!(tables.vertex_kind(v), Ok(VertexKind::Rim));
    }
    assert_unused(&tables, 5);
    assert_eq!(tables.ring(6), Err(Refusal::NotThere));

    // In front and in the middle: vertex 2 of the listing is now 3, 3 is 5 and 4 is 6.
    let tables = Tables::build(6, &[[2, 3, 5, 0], [2, 5, 6, 0]]).expect("unused vertices are accepted");
    assert_eq!(tables.mesh().v2e(), [0, 32, 8, 0, 16, 24]);
    assert_eq!((tables.ring(2), tables.neighbours(2)), (Ok(vec![2, 1]), Ok(vec![6, 5, 3])));
    assert_unused(&tables, 1);
    assert_unused(&tables, 4);
}

#[test]
fn recovery_with_unused_vertices() {
    let recovered = |v2e: &[u32]| {
        let (mut elements, mut work) = ([[7; 4]; 2], vec![7; work_length(v2e.len() as u32, 2)]);
        let answer = recover(v2e.len() as u32, 2, v2e, &LISTING_E2E, elements.as_flattened_mut(), &mut work);
        assert!(work.iter().all(|&entry| entry == 0));
        (answer, elements)
    };
    assert_eq!(recovered(&[32, 8, 16, 24, 0]), (Ok(()), LISTING));
    assert_eq!(recovered(&[0, 32, 8, 0, 16, 24]), (Ok(()), [[2, 3, 5, 0], [2, 5, 6, 0]]));
    // No entry gives the sides of vertex 1 to a vertex.
    assert_eq!(recovered(&[0, 8, 16, 24]), (Err(Refusal::NoList), [[7; 4]; 2]));
    // No side is left for vertex 5.
    for entry in [9, 32, 17, 12, 40] {
        assert_eq!(recovered(&[32, 8, 16, 24, entry]), (Err(Refusal::NoList), [[7; 4]; 2]));
    }
}

/// The listing with another V2e.
fn listing_entered(v2e: &[u32]) -> Mesh<'_> {
    Mesh::new(4, LISTING.as_flattened(), v2e, &LISTING_E2E, &LISTING_B2E).expect("the lengths are fit")
}

#[test]
fn entry_0_is_believed_where_a_query_begins() {
    let mesh = listing_entered(&[0, 8, 16, 24]);
    assert_eq!(mesh.vertex_kind(1), Ok(VertexKind::Unused));
    let mut out = [7; 3];
    assert_eq!((mesh.ring(1, &mut out), mesh.neighbours(1, &mut out), out), (Ok(0), Ok(0), [7; 3]));
    assert_eq!((mesh.ring(1, &mut []), mesh.neighbours(1, &mut [])), (Ok(0), Ok(0)));

    let mut record = WalkerRecord { start: 5, next: 6, count: 7 };
    assert_eq!(mesh.start(1, &mut record), Ok(()));
    for _ in 0..3 {
        assert_eq!(record, WalkerRecord { start: 0, next: 0, count: 0 });
        assert_eq!(mesh.step(&mut record), Ok(0));
    }

    // Border 1 ends at vertex 1, where another must follow; border 2 ends at vertex 2.
    assert_eq!(mesh.next(8), Err(Refusal::TableBroken));
    assert_eq!(mesh.border_loop(1, &mut out), Err(Refusal::TableBroken));
    assert_eq!(mesh.next(16), Ok(8));

    // Other entries that name nothing: a fourth side of a triangle, a third element, a fifth border.
    for entry in [12, 25, 40] {
        let v2e = [entry, 8, 16, 24];
        let broken = listing_entered(&v2e);
        assert_eq!(broken.vertex_kind(1), Err(Refusal::TableBroken));
        assert_eq!(broken.ring(1, &mut out), Err(Refusal::TableBroken));
        assert_eq!(broken.neighbours(1, &mut out), Err(Refusal::TableBroken));
        assert_eq!(broken.start(1, &mut record), Err(Refusal::TableBroken));
    }
}

#[test]
fn a_million_vertices_and_hardly_an_element() {
    let most = MAX_VERTICES;
    let nothing = Tables::build(most, &[]).expect("vertices without an element are accepted");
    assert_eq!(nothing.counts(), Counts { borders: 0, edges: 0 });
    assert!(nothing.mesh().v2e().iter().all(|&entry| entry == 0));
    assert_unused(&nothing, most);

    let one = Tables::build(most, &[[most, 1, most / 2, 0]]).expect("one triangle is accepted");
    let mesh = one.mesh();
    assert_eq!(one.counts(), Counts { borders: 3, edges: 3 });
    assert_eq!((mesh.e2e(), mesh.b2e()), (&[8, 16, 24][..], &[9, 10, 11][..]));
    let used: Vec<(u32, u32)> = (1..).zip(mesh.v2e().iter().copied()).filter(|&(_, entry)| entry != 0).collect();
    assert_eq!(used, [(1, 8), (most / 2, 16), (most, 24)]);
    assert_eq!((one.ring(most), one.neighbours(most)), (Ok(vec![1]), Ok(vec![most / 2, 1])));
    assert_unused(&one, most - 1);

    let (mut elements, mut work) = ([7; 4], vec![7; work_length(most, 1)]);
    assert_eq!(recover(most, 1, mesh.v2e(), mesh.e2e(), &mut elements, &mut work), Ok(()));
    assert_eq!(elements, [most, 1, most / 2, 0]);
    assert_eq!(Tables::build(most + 1, &[]), Err(Refusal::Sizes));
}

#[test]
fn tables_of_other_lists() {
    let nothing = Tables::build(0, &[]).expect("no vertices and no elements are accepted");
    assert_eq!(nothing.counts(), Counts { borders: 0, edges: 0 });
    let quadrilateral = Tables::build(4, &[[1, 2, 3, 4]]).expect("a quadrilateral is accepted");
    assert_eq!(quadrilateral.mesh().e2e(), [8, 16, 24, 32]);
    assert_eq!(quadrilateral.mesh().b2e(), [9, 10, 11, 12]);

    assert_eq!(Tables::build(2, &[[1, 2, 3, 0]]), Err(Refusal::CornerUnfit { element: 1, corner: 3 }));
    // A quadrilateral whose corners count from 0: refused, or read as a triangle.
    assert_eq!(Tables::build(3, &[[0, 1, 2, 3]]), Err(Refusal::CornerUnfit { element: 1, corner: 1 }));
    assert_eq!(Tables::build(3, &[[3, 2, 1, 0]]).map(|tables| tables.counts().edges), Ok(3));
    // Then the last vertex is unused.
    assert_eq!(Tables::build(4, &[[3, 2, 1, 0]]).and_then(|tables| tables.vertex_kind(4)), Ok(VertexKind::Unused));
    assert_eq!(Tables::build(u32::MAX, &LISTING), Err(Refusal::Sizes));
    let too_many = vec![[1, 2, 3, 0]; MAX_ELEMENTS as usize + 1];
    assert_eq!(Tables::build(4, &too_many), Err(Refusal::Sizes));
}

#[test]
fn lists_of_any_length_come_as_vectors() {
    // A closed fan about vertex 1: each other vertex is joined to it and is on the rim.
    for count in [3, 15, 16, 17, 1000] {
        let rows: Vec<[u32; 4]> = (0..count).map(|i| [1, 2 + i, 2 + (i + 1) % count, 0]).collect();
        let tables = Tables::build(count + 1, &rows).expect("a fan is accepted");
        assert_eq!(tables.ring(1).map(|ring| ring.len()), Ok(count as usize));
        let mut neighbours = tables.neighbours(1).expect("vertex 1 is there");
        neighbours.sort();
        assert_eq!(neighbours, (2..=count + 1).collect::<Vec<u32>>());
        assert_eq!(tables.border_loop(1).map(|border| border.len()), Ok(count as usize));
    }
}

#[test]
fn half_edges_and_their_codes() {
    let side = HalfEdge::side(1_000_000, 4);
    assert_eq!((side.code(), side.element(), side.number()), (8_000_004, Some(1_000_000), 4));
    assert_eq!((side.is_border(), side.border_number()), (false, None));
    assert_eq!(side.to_string(), "⟨1000000,4⟩");

    let border = HalfEdge::border(MAX_BORDERS);
    assert_eq!((border.code(), border.border_number(), border.number()), (32_000_000, Some(4_000_000), 0));
    assert_eq!((border.is_border(), border.element()), (true, None));
    assert_eq!(border.to_string(), "⟨4000000,0⟩");

    for code in [0, 8, 9, 12, 13, 32_000_000, u32::MAX] {
        assert_eq!(u32::from(HalfEdge::from(code)), code);
    }
    assert!(HalfEdge::side(1, 4) < HalfEdge::side(2, 1));
}

#[test]
fn what_is_no_half_edge_has_code_0() {
    let nothing = HalfEdge::from_code(0);
    assert_eq!((nothing.is_border(), nothing.border_number(), nothing.element()), (false, None, None));
    for other in [
        HalfEdge::side(0, 1),
        HalfEdge::side(1, 0),
        HalfEdge::side(1, 5),
        HalfEdge::side(MAX_ELEMENTS + 1, 1),
        HalfEdge::side(u32::MAX, 1),
        HalfEdge::border(0),
        HalfEdge::border(MAX_BORDERS + 1),
    ] {
        assert_eq!(other, nothing);
    }
}

//! Holes, lent and owned, of housings whose rims were worked out by hand, and of damaged tables.

use borzhanu::{border, build, work_length, Hole, Holes, Mesh, Refusal, Tables, MAX_VERTICES};

/// A duct of three plates: vertices 1 to 3 at one end, and 4 to 6 at the other.
const DUCT: [[u32; 4]; 3] = [[1, 2, 5, 4], [2, 3, 6, 5], [3, 1, 4, 6]];
/// Two triangles apart.
const APART: [[u32; 4]; 2] = [[1, 2, 3, 0], [4, 5, 6, 0]];
const APART_V2E: [u32; 6] = [24, 8, 16, 48, 32, 40];
const APART_B2E: [u32; 6] = [9, 10, 11, 17, 18, 19];

/// What a call answers and what it leaves: the hole of each border half-edge and the lengths.
type Outcome = (Result<usize, Refusal>, Vec<u32>, Vec<u32>);

/// A call on buffers of these lengths that hold 7 throughout; the work buffer is looked at here.
fn lent(mesh: &Mesh, lens: [usize; 3]) -> Outcome {
    let [mut hole, mut lengths, mut work] = lens.map(|len| vec![7; len]);
    let answer = mesh.holes(&mut hole, &mut lengths, &mut work);
    let left = if answer == Err(Refusal::Lengths) { 7 } else { 0 };
    assert!(work.iter().all(|&entry| entry == left));
    (answer, hole, lengths)
}

/// The two triangles with other tables. E2e, whose entries aren't read, has none that could be meant.
fn apart<'a>(v2e: &'a [u32], b2e: &'a [u32]) -> Mesh<'a> {
    Mesh::new(6, APART.as_flattened(), v2e, &[7; 6], b2e).expect("the lengths are fit")
}

/// The hole of each border half-edge and the lengths.
fn found(mesh: &Mesh) -> Result<(Vec<u32>, Vec<u32>), Refusal> {
    Holes::of(mesh).map(|holes| (holes.holes().to_vec(), holes.lengths().to_vec()))
}

/// Those of the two triangles with this V2e.
fn found_entered(v2e: [u32; 6]) -> Result<(Vec<u32>, Vec<u32>), Refusal> {
    found(&apart(&v2e, &APART_B2E))
}

fn built(n: u32, rows: &[[u32; 4]]) -> Tables {
    Tables::build(n, rows).expect("the list is accepted")
}

/// A plate of six by six cells, on vertices seven by seven, without the cells of these numbers, which count from 0.
fn plate(missing: &[u32]) -> Tables {
    let cells = (0..36).filter(|at| !missing.contains(at)).map(|at| 1 + at + at / 6);
    let rows: Vec<[u32; 4]> = cells.map(|v| [v, v + 1, v + 8, v + 7]).collect();
    built(49, &rows)
}

#[test]
fn openings_of_a_duct() {
    let tables = built(6, &DUCT);
    let holes = tables.holes();
    assert_eq!((holes.count(), holes.holes(), holes.lengths()), (2, &[1, 2, 1, 2, 1, 2][..], &[3, 3][..]));
    assert_eq!((holes.hole(1), holes.hole(4), holes.hole(6)), (Ok(1), Ok(2), Ok(2)));
    assert_eq!((holes.length(1), holes.length(2)), (Ok(3), Ok(3)));
    assert_eq!((holes.first(1), holes.first(2)), (Ok(1), Ok(2)));
    let each = [Hole { number: 1, first: 1, length: 3 }, Hole { number: 2, first: 2, length: 3 }];
    assert!(holes.iter().eq(each));
    assert_eq!(tables.border_loop(2), Ok(vec![2, 4, 6]));

    for other in [0, 7, u32::MAX] {
        assert_eq!(holes.hole(other), Err(Refusal::NotThere));
        assert_eq!((holes.length(other), holes.first(other)), (Err(Refusal::NotThere), Err(Refusal::NotThere)));
    }
    assert_eq!((holes.length(3), holes.first(3)), (Err(Refusal::NotThere), Err(Refusal::NotThere)));
}

#[test]
fn holes_are_numbered_by_their_least_border_half_edges() {
    // The quadrilateral has the sides between those of two triangles that are one housing.
    let tables = built(12, &[[1, 2, 3, 0], [4, 5, 6, 7], [3, 2, 8, 0], [10, 11, 12, 0]]);
    let holes = tables.holes();
    assert_eq!(holes.holes(), [1, 1, 2, 2, 2, 2, 1, 1, 3, 3, 3]);
    assert_eq!(holes.lengths(), [4, 4, 3]);
    assert_eq!([1, 2, 3].map(|hole| holes.first(hole)), [1, 3, 9].map(Ok));
}

#[test]
fn the_loop_of_each_border_half_edge_is_its_hole() {
    let with_openings = plate(&[7, 9, 10, 25, 28]);
    assert_eq!(with_openings.holes().lengths(), [24, 4, 6, 4, 4]);
    for tables in [with_openings, plate(&[]), plate(&[0, 35]), built(6, &DUCT), built(9, &APART)] {
        let holes = tables.holes();
        assert_eq!(holes.lengths().iter().sum::<u32>(), tables.counts().borders);
        for b in 1..=tables.counts().borders {
            let hole = holes.hole(b).expect("b is there");
            let mut rim = tables.border_loop(b).expect("b is there");
            rim.sort();
            let alike = (1..).zip(holes.holes()).filter(|&(_, &other)| other == hole).map(|(c, _)| c);
            assert!(alike.eq(rim.iter().copied()));
            assert_eq!((holes.length(hole), holes.first(hole)), (Ok(rim.len() as u32), Ok(rim[0])));
        }
    }
}

#[test]
fn a_mesh_without_a_border() {
    let tetrahedron = built(4, &[[1, 2, 3, 0], [1, 4, 2, 0], [2, 4, 3, 0], [3, 4, 1, 0]]);
    for tables in [tetrahedron, built(0, &[]), built(5, &[])] {
        let holes = tables.holes();
        assert_eq!((holes.count(), holes.iter().next()), (0, None));
        assert!(holes.holes().is_empty() && holes.lengths().is_empty());
        assert_eq!((holes.hole(1), holes.length(1)), (Err(Refusal::NotThere), Err(Refusal::NotThere)));
        let work = work_length(tables.mesh().n(), tables.mesh().elements().len() / 4);
        assert_eq!(lent(&tables.mesh(), [0, 0, work]), (Ok(0), vec![], vec![]));
        assert_eq!(lent(&tables.mesh(), [2, 1, work]), (Ok(0), vec![7; 2], vec![7]));
    }
}

#[test]
fn lent_buffers() {
    let (mesh, work) = (apart(&APART_V2E, &APART_B2E), work_length(6, 2));
    let holes = vec![1, 1, 1, 2, 2, 2];
    assert_eq!(lent(&mesh, [6, 6, work]), (Ok(2), holes.clone(), vec![3, 3, 7, 7, 7, 7]));
    assert_eq!(lent(&mesh, [8, 7, work + 5]), (Ok(2), [holes, vec![7; 2]].concat(), [vec![3; 2], vec![7; 5]].concat()));

    let untouched = |mesh: &Mesh, lens| {
        let (answer, hole, lengths) = lent(mesh, lens);
        assert!(hole.iter().chain(&lengths).all(|&entry| entry == 7));
        answer
    };
    // Each needs k entries, also where there are two holes.
    for (hole, lengths) in [(5, 6), (6, 5), (6, 2), (0, 6), (6, 0), (0, 0), (5, 99)] {
        assert_eq!(untouched(&mesh, [hole, lengths, work]), Err(Refusal::OutputShort { needed: 6 }));
    }
    // 2 comes before 12, and 12 before 13.
    let broken = apart(&[24, 8, 16, 48, 32, 0], &APART_B2E);
    for len in [work - 1, work - 16, 0] {
        assert_eq!(untouched(&mesh, [6, 6, len]), Err(Refusal::Lengths));
        assert_eq!(untouched(&broken, [0, 0, len]), Err(Refusal::Lengths));
    }
    assert_eq!(untouched(&broken, [6, 6, work]), Err(Refusal::TableBroken));
    assert_eq!(untouched(&broken, [0, 0, work]), Err(Refusal::TableBroken));
}

#[test]
fn damaged_tables_whose_loops_all_come_back() {
    assert_eq!(found_entered(APART_V2E), Ok((vec![1, 1, 1, 2, 2, 2], vec![3, 3])));
    // The entries of two vertices exchanged: one loop through both triangles, and loops of one and of two.
    assert_eq!(found_entered([48, 8, 16, 24, 32, 40]), Ok((vec![1; 6], vec![6])));
    assert_eq!(found_entered([8, 24, 16, 48, 32, 40]), Ok((vec![1, 2, 2, 3, 3, 3], vec![1, 2, 3])));
    assert_eq!(found_entered([8, 16, 24, 32, 40, 48]), Ok(((1..=6).collect(), vec![1; 6])));
    // Loops that take turns.
    assert_eq!(found_entered([32, 40, 48, 8, 16, 24]), Ok((vec![1, 2, 3, 1, 2, 3], vec![2; 3])));
    // The rim of the first triangle alone, and the second's sides named in another order.
    assert_eq!(found(&apart(&APART_V2E, &APART_B2E[..3])), Ok((vec![1; 3], vec![3])));
    assert_eq!(found(&apart(&APART_V2E, &[9, 10, 11, 18, 17, 19])), Ok((vec![1, 1, 1, 2, 3, 3], vec![3, 1, 2])));
}

#[test]
fn loops_that_do_not_come_back() {
    let broken = Err(Refusal::TableBroken);
    // Into the other loop, and into their own middle.
    assert_eq!(found_entered([24, 8, 16, 48, 32, 8]), broken);
    assert_eq!(found_entered([32, 8, 16, 48, 32, 40]), broken);
    assert_eq!(found_entered([16, 8, 16, 48, 32, 40]), broken);
    assert_eq!(found_entered([24, 8, 16, 48, 32, 32]), broken);
    // V2e entries that are no border half-edge.
    for entry in [0, 7, 9, 12, 17, 25, 56, 8 * 4_000_000, u32::MAX] {
        assert_eq!(found_entered([entry, 8, 16, 48, 32, 40]), broken);
        assert_eq!(found_entered([24, 8, 16, 48, 32, entry]), broken);
    }
    // B2e entries that are no side, and borders that B2e doesn't have or has twice.
    for entry in [0, 8, 12, 13, 16, 25, u32::MAX] {
        assert_eq!(found(&apart(&APART_V2E, &[9, 10, 11, 17, 18, entry])), broken);
    }
    assert_eq!(found(&apart(&APART_V2E, &APART_B2E[..5])), broken);
    assert_eq!(found(&apart(&APART_V2E, &[9, 10, 11, 17, 18, 19, 19])), broken);
    // Corners that are no vertex.
    for corner in [0, 7, u32::MAX] {
        let elements = [1, 2, 3, 0, 4, 5, corner, 0];
        let mesh = Mesh::new(6, &elements, &APART_V2E, &[7; 6], &APART_B2E).expect("the lengths are fit");
        assert_eq!(found(&mesh), broken);
    }
}

/// The calls keep nothing between them.
#[test]
fn several_threads_at_once() {
    let housings = [plate(&[7, 9, 10, 25]), plate(&[14]), built(6, &DUCT), built(6, &APART)];
    std::thread::scope(|scope| {
        for tables in &housings {
            let expected = tables.holes();
            scope.spawn(move || assert!((0..2000).all(|_| tables.holes() == expected)));
        }
    });
}

#[test]
fn a_million_border_half_edges() {
    let most = MAX_VERTICES;
    let quadrilaterals: Vec<[u32; 4]> = (0..most / 4).map(|f| 4 * f).map(|v| [v + 4, v + 1, v + 2, v + 3]).collect();
    let elements = quadrilaterals.as_flattened();
    let [mut v2e, mut e2e, mut b2e] = [(); 3].map(|()| vec![0; most as usize]);
    let mut work = vec![0; work_length(most, quadrilaterals.len())];
    build(most, elements, &mut v2e, &mut e2e, &mut b2e, &mut work).expect("the list is accepted");
    let holes = |v2e: &[u32]| Holes::of(&Mesh::new(most, elements, v2e, &e2e, &b2e).expect("the lengths are fit"));

    let four_each = holes(&v2e).expect("the tables are as built");
    assert_eq!((four_each.count(), four_each.first(most / 4)), (most / 4, Ok(most - 3)));
    assert!(four_each.lengths().iter().all(|&length| length == 4));

    // One loop through all, by the vertex where each ends; then the last is followed by the second.
    for (b, &v) in (1..).zip(elements) {
        v2e[v as usize - 1] = border(b % most + 1);
    }
    let one = holes(&v2e).expect("every loop comes back");
    assert_eq!((one.count(), one.first(1), one.length(1)), (1, Ok(1), Ok(most)));
    v2e[elements[elements.len() - 1] as usize - 1] = border(2);
    assert_eq!(holes(&v2e), Err(Refusal::TableBroken));
}

//! The number of a housing's shape, lent and owned: of housings whose number was worked out by hand, and through edits.

use borzhanu::{shape, work_length, HalfEdge, OwnedMesh, Refusal, Tables, MAX_ELEMENTS, MAX_VERTICES};

const TRIANGLE: [[u32; 4]; 1] = [[1, 2, 3, 0]];
const LISTING: [[u32; 4]; 2] = [[1, 2, 3, 0], [1, 3, 4, 0]];
const TETRAHEDRON: [[u32; 4]; 4] = [[1, 2, 3, 0], [1, 4, 2, 0], [2, 4, 3, 0], [3, 4, 1, 0]];
const BOX: [[u32; 4]; 6] = [[1, 4, 3, 2], [1, 2, 6, 5], [2, 3, 7, 6], [3, 4, 8, 7], [4, 1, 5, 8], [5, 6, 7, 8]];
/// A duct of three plates: vertices 1 to 3 at one end, and 4 to 6 at the other.
const DUCT: [[u32; 4]; 3] = [[1, 2, 5, 4], [2, 3, 6, 5], [3, 1, 4, 6]];

/// A call on a work buffer of this length that holds 7 throughout, which is looked at here.
fn lent(n: u32, elements: &[u32], work_len: usize) -> Result<i64, Refusal> {
    let mut work = vec![7; work_len];
    let answer = shape(n, elements, &mut work);
    let left = if let Err(Refusal::Sizes | Refusal::Lengths) = answer { 7 } else { 0 };
    assert!(work.iter().all(|&entry| entry == left));
    answer
}

/// The same with a work buffer as it must be, and with one that is longer.
fn lent_fit(n: u32, rows: &[[u32; 4]]) -> Result<i64, Refusal> {
    let needed = work_length(n, rows.len());
    let answer = lent(n, rows.as_flattened(), needed);
    assert_eq!(lent(n, rows.as_flattened(), needed + 5), answer);
    answer
}

/// Lent, built and to be edited, the number is the same.
fn number(n: u32, rows: &[[u32; 4]]) -> i64 {
    let number = Tables::build(n, rows).expect("the list is accepted").shape();
    assert_eq!(lent_fit(n, rows), Ok(number));
    assert_eq!(OwnedMesh::build(n, rows).expect("the list is accepted").shape(), number);
    number
}

/// A plate of quadrilaterals, nine cells by nine, without those of these numbers, which count from 0.
fn plate(missing: &[u32]) -> Vec<[u32; 4]> {
    let cells = (0..81).filter(|at| !missing.contains(at)).map(|at| 1 + at + at / 9);
    cells.map(|v| [v, v + 1, v + 11, v + 10]).collect()
}

/// A ring duct of triangles, so many cells around it either way.
fn ring_duct(width: u32, height: u32) -> Vec<[u32; 4]> {
    let vertex = |x: u32, y: u32| 1 + x % width + width * (y % height);
    let cell = |x, y| [vertex(x, y), vertex(x + 1, y), vertex(x + 1, y + 1), vertex(x, y + 1)];
    let cells = (0..height).flat_map(|y| (0..width).map(move |x| (x, y)));
    cells.map(|(x, y)| cell(x, y)).flat_map(|[a, b, c, d]| [[a, b, c, 0], [a, c, d, 0]]).collect()
}

#[test]
fn numbers_of_housings() {
    assert_eq!([number(3, &TRIANGLE), number(4, &LISTING)], [1, 1]);
    assert_eq!([number(4, &TETRAHEDRON), number(8, &BOX)], [2, 2]);
    assert_eq!(number(6, &DUCT), 0);
    assert_eq!([number(9, &ring_duct(3, 3)), number(20, &ring_duct(4, 5))], [0, 0]);
    // Without a plate or two, a box has openings.
    assert_eq!([number(8, &BOX[..5]), number(8, &BOX[1..5])], [1, 0]);
    assert_eq!(number(5, &[[1, 2, 3, 4], [4, 3, 5, 0]]), 1);
}

#[test]
fn windows_make_it_negative() {
    let windows = [10, 12, 14, 16, 28, 30, 32, 34];
    for count in 0..=windows.len() {
        assert_eq!(number(100, &plate(&windows[..count])), 1 - count as i64);
    }
    // A window of two cells is one; a notch in the rim is none.
    assert_eq!(number(100, &plate(&[10, 11])), 0);
    assert_eq!(number(100, &plate(&[4])), 1);
}

#[test]
fn a_handle_is_two_less() {
    // A front and a back of nine plates by nine, each without the same cells, and walls around and in each window.
    let thick = |missing: &[u32]| -> Vec<[u32; 4]> {
        let front = plate(missing);
        let sides: Vec<(u32, u32)> = front.iter().flat_map(|row| (0..4).map(|i| (row[i], row[(i + 1) % 4]))).collect();
        let rim = sides.iter().filter(|&&(a, b)| !sides.contains(&(b, a)));
        let walls = rim.map(|&(a, b)| [b, a, a + 100, b + 100]);
        let back = front.iter().map(|&[a, b, c, d]| [d, c, b, a].map(|v| v + 100));
        front.iter().copied().chain(back).chain(walls).collect()
    };
    for (missing, handles) in [(&[][..], 0), (&[40], 1), (&[10, 16], 2), (&[10, 12, 28, 40, 70], 5)] {
        let rows = thick(missing);
        assert_eq!(Tables::build(200, &rows).map(|tables| tables.counts().borders), Ok(0));
        assert_eq!(number(200, &rows), 2 - 2 * handles);
    }
}

#[test]
fn pieces_add_up_and_unused_vertices_count() {
    assert_eq!([number(0, &[]), number(1, &[]), number(40, &[])], [0, 1, 40]);
    assert_eq!([number(4, &TRIANGLE), number(9, &TRIANGLE), number(10, &BOX)], [2, 7, 4]);
    let apart = [[1, 2, 3, 0], [4, 5, 6, 0]];
    assert_eq!([number(6, &apart), number(8, &apart)], [2, 4]);
    let beside: Vec<[u32; 4]> = BOX.into_iter().chain(DUCT.map(|row| row.map(|v| v + 8))).collect();
    assert_eq!([number(14, &beside), number(17, &beside)], [2, 5]);
}

#[test]
fn it_is_the_sum_of_what_build_counts() {
    for (n, rows) in [(4, &TETRAHEDRON[..]), (9, &BOX), (6, &DUCT), (100, &plate(&[10, 12])), (20, &ring_duct(5, 4))] {
        let counts = Tables::build(n, rows).expect("the list is accepted").counts();
        assert_eq!(number(n, rows), i64::from(n) - i64::from(counts.edges) + rows.len() as i64);
    }
}

/// The number and the holes of the housing, after each of so many edits, refused ones among them.
fn edited(n: u32, rows: &[[u32; 4]], times: u32) {
    let mut mesh = OwnedMesh::build(n, rows).expect("the list is accepted");
    let (number, holes) = (mesh.shape(), mesh.tables().holes().count());
    let (mut code, mut answered) = (1, [0; 3]);
    for at in 0..times {
        code = (5 * code + 3) % (8 * (mesh.m() + 1));
        let (side, edit) = (HalfEdge::from_code(code), (at % 3) as usize);
        let answer = match edit {
            0 => mesh.split(side),
            1 => mesh.swap(side),
            _ => mesh.contract(side),
        };
        answered[edit] += answer.is_ok() as u32;
        assert_eq!((mesh.shape(), mesh.tables().holes().count()), (number, holes));
        assert_eq!(lent_fit(mesh.n(), mesh.rows()), Ok(number));
    }
    assert!(answered.into_iter().all(|count| count > 0) && answered.iter().sum::<u32>() < times);
}

#[test]
fn edits_keep_it() {
    edited(4, &LISTING, 200);
    edited(6, &TETRAHEDRON, 200);
    edited(12, &ring_duct(3, 4), 300);
    edited(11, &ring_duct(3, 3)[1..], 300);
}

#[test]
fn refusals_by_name() {
    assert_eq!(lent(3, &[1, 2, 3, 0, 1], 40), Err(Refusal::Sizes));
    assert_eq!(lent(MAX_VERTICES + 1, &[], 3), Err(Refusal::Sizes));
    assert_eq!(lent(u32::MAX, &[1, 2, 3, 0], 0), Err(Refusal::Sizes));
    for work_len in [0, 3, 16, 18] {
        assert_eq!(lent(3, &[1, 2, 3, 0], work_len), Err(Refusal::Lengths));
        // 2 comes before 3.
        assert_eq!(lent(3, &[1, 2, 4, 0], work_len), Err(Refusal::Lengths));
    }
    assert_eq!(lent(3, &[1, 2, 3, 0], 19), Ok(1));
    let unfit = |element, corner| Err(Refusal::CornerUnfit { element, corner });
    assert_eq!(lent_fit(3, &[[1, 2, 2, 0], [1, 2, 3, 4]]), unfit(2, 4));
    assert_eq!(lent_fit(3, &[[1, 2, 0, 3]]), unfit(1, 3));
    assert_eq!(lent_fit(3, &[[1, 2, 1, 0]]), Err(Refusal::CornerRepeated { element: 1, corner: 3 }));
    let leaves = [[1, 2, 3, 0], [2, 1, 4, 0], [5, 1, 2, 0]];
    assert_eq!(lent_fit(5, &leaves), Err(Refusal::EdgeCrowded { element: 1, side: 1 }));
    assert_eq!(lent_fit(4, &[[3, 1, 2, 0], [1, 2, 4, 0]]), Err(Refusal::SidesAlike { element: 1, side: 2 }));
    assert_eq!(lent_fit(5, &[[1, 2, 3, 0], [4, 3, 5, 0]]), Err(Refusal::FanBroken { vertex: 3 }));
    let clash = Err(Refusal::ElementsClash { first: 2, second: 3 });
    assert_eq!(lent_fit(6, &[[4, 3, 5, 0], [1, 2, 3, 4], [3, 2, 1, 0]]), clash);
}

/// The calls keep nothing between them.
#[test]
fn several_threads_at_once() {
    let (with_windows, ring) = (plate(&[10, 12, 14]), ring_duct(5, 6));
    std::thread::scope(|scope| {
        for (n, rows, expected) in
            [(100, &with_windows[..], -2), (30, &ring, 0), (8, &BOX, 2), (9, &DUCT, 3), (4, &LISTING, 1)]
        {
            scope.spawn(move || assert!((0..2000).all(|_| lent_fit(n, rows) == Ok(expected))));
        }
    });
}

#[test]
fn the_largest_sizes() {
    let most = MAX_VERTICES;
    assert_eq!(number(most, &[]), i64::from(most));
    assert_eq!(number(most, &[[most, 1, most / 2, 0]]), i64::from(most) - 2);
    // A piece for every three vertices, and one vertex to spare.
    let apart: Vec<[u32; 4]> = (0..most / 3).map(|f| 3 * f).map(|v| [v + 1, v + 2, v + 3, 0]).collect();
    assert_eq!(number(most, &apart), i64::from(most / 3) + 1);
    // A ring duct of as many triangles as there may be, and the same with one missing.
    let ring = ring_duct(1000, 500);
    assert_eq!(ring.len(), MAX_ELEMENTS as usize);
    assert_eq!([number(500_000, &ring), number(500_000, &ring[1..])], [0, -1]);
    assert_eq!(Tables::build(500_000, &[&ring[..], &TRIANGLE].concat()).map(|_| ()), Err(Refusal::Sizes));
}

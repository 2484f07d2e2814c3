//! Sibling half-edges, lent and owned, of housings whose siblings were worked out by hand.

use borzhanu::{siblings, work_length, HalfEdge, Refusal, Siblings, Tables, MAX_ELEMENTS, MAX_VERTICES};

/// A panel of four plates, vertices 1 to 9 in rows of three, and a rib of two on the seam 4, 5, 6.
const STIFFENED: [[u32; 4]; 6] =
    [[1, 2, 5, 4], [2, 3, 6, 5], [4, 5, 8, 7], [5, 6, 9, 8], [4, 5, 11, 10], [5, 6, 12, 11]];
const STIFFENED_V2E: [u32; 12] = [9, 10, 18, 12, 11, 19, 28, 27, 35, 44, 43, 51];
const STIFFENED_SIBLINGS: [[u32; 4]; 6] =
    [[9, 20, 25, 12], [17, 18, 33, 10], [41, 36, 27, 28], [49, 34, 35, 26], [11, 52, 43, 44], [19, 50, 51, 42]];

/// Five triangles on the edge of vertices 1 and 2, the second and the fourth the other way.
const LEAVES: [[u32; 4]; 5] = [[1, 2, 3, 0], [2, 1, 4, 0], [5, 1, 2, 0], [2, 1, 6, 0], [2, 7, 1, 0]];
const LEAVES_V2E: [u32; 7] = [9, 10, 11, 19, 25, 35, 42];
const LEAVES_SIBLINGS: [[u32; 4]; 5] =
    [[17, 10, 11, 0], [26, 18, 19, 0], [25, 33, 27, 0], [43, 34, 35, 0], [41, 42, 9, 0]];

/// What a call answers and what it leaves: the least sides and the map.
type Outcome = (Result<(), Refusal>, Vec<u32>, Vec<u32>);

/// A call on buffers of these lengths that hold 7 throughout; the work buffer is looked at here.
fn lent(n: u32, elements: &[u32], lens: [usize; 3]) -> Outcome {
    let [mut v2e, mut map, mut work] = lens.map(|len| vec![7; len]);
    let answer = siblings(n, elements, &mut v2e, &mut map, &mut work);
    let left = if let Err(Refusal::Sizes | Refusal::Lengths) = answer { 7 } else { 0 };
    assert!(work.iter().all(|&entry| entry == left));
    (answer, v2e, map)
}

/// The same with buffers as they must be, and a work buffer that is longer.
fn lent_fit(n: u32, rows: &[[u32; 4]]) -> Outcome {
    let m = rows.len();
    lent(n, rows.as_flattened(), [n as usize, 4 * m, work_length(n, m) + 5])
}

fn built(n: u32, rows: &[[u32; 4]]) -> Siblings {
    Siblings::build(n, rows).expect("the corners are fit")
}

fn side(f: u32, i: u32) -> HalfEdge {
    HalfEdge::side(f, i)
}

#[test]
fn siblings_of_a_stiffened_housing() {
    assert_eq!(Tables::build(12, &STIFFENED), Err(Refusal::EdgeCrowded { element: 1, side: 3 }));
    let (answer, v2e, map) = lent_fit(12, &STIFFENED);
    assert_eq!((answer, &v2e[..], &map[..]), (Ok(()), &STIFFENED_V2E[..], STIFFENED_SIBLINGS.as_flattened()));

    let housing = built(12, &STIFFENED);
    assert_eq!((housing.n(), housing.elements()), (12, STIFFENED.as_flattened()));
    assert_eq!((housing.v2e(), housing.siblings()), (&v2e[..], &map[..]));
    assert_eq!(housing.sibling(side(1, 3)), Ok(side(3, 1)));
    assert_eq!(housing.sibling(side(5, 1)), Ok(side(1, 3)));
    assert_eq!(housing.sibling(side(2, 1)), Ok(side(2, 1)));
    assert_eq!((housing.origin(side(1, 3)), housing.destination(side(1, 3))), (Ok(5), Ok(4)));
    assert_eq!((housing.origin(side(1, 4)), housing.destination(side(1, 4))), (Ok(4), Ok(1)));
    assert_eq!(housing.least_side(5), Ok(Some(side(1, 3))));
}

#[test]
fn the_plates_at_an_edge() {
    let housing = built(12, &STIFFENED);
    let plates = |f, i| housing.plates(side(f, i)).map(Vec::from_iter);
    assert_eq!(plates(1, 3), Ok(vec![1, 3, 5]));
    assert_eq!(plates(3, 1), Ok(vec![3, 5, 1]));
    assert_eq!(plates(5, 1), Ok(vec![5, 1, 3]));
    assert_eq!(plates(4, 4), Ok(vec![4, 3]));
    assert_eq!(plates(6, 3), Ok(vec![6]));
    let sides = housing.sides(side(4, 1)).map(Vec::from_iter);
    assert_eq!(sides, Ok(vec![side(4, 1), side(6, 1), side(2, 3)]));
    let mut lone = housing.sides(side(6, 3)).expect("the side is there");
    assert_eq!([lone.next(), lone.next(), lone.next()], [Some(side(6, 3)), None, None]);
}

#[test]
fn each_edge_once_by_its_least_side() {
    let housing = built(12, &STIFFENED);
    let codes: Vec<u32> = housing.edges().map(HalfEdge::code).collect();
    assert_eq!(codes, [9, 10, 11, 12, 17, 18, 19, 26, 27, 28, 34, 35, 42, 43, 44, 50, 51]);
    let count = |side| housing.plates(side).map_or(0, Iterator::count);
    let of_three: Vec<HalfEdge> = housing.edges().filter(|&side| count(side) == 3).collect();
    assert_eq!(of_three, [side(1, 3), side(2, 3)]);
}

#[test]
fn leaves_in_both_directions() {
    let (answer, v2e, map) = lent_fit(7, &LEAVES);
    assert_eq!((answer, &v2e[..], &map[..]), (Ok(()), &LEAVES_V2E[..], LEAVES_SIBLINGS.as_flattened()));
    let book = built(7, &LEAVES);
    assert_eq!(book.plates(side(3, 2)).map(Vec::from_iter), Ok(vec![3, 4, 5, 1, 2]));
    assert_eq!((book.origin(side(5, 3)), book.destination(side(5, 3))), (Ok(1), Ok(2)));
    assert_eq!(book.edges().count(), 11);
}

#[test]
fn how_elements_meet_is_not_judged() {
    let map = |n, rows: &[[u32; 4]]| Siblings::build(n, rows).map(|siblings| siblings.siblings().to_vec());
    // Build refuses these with 7, 8, 18 and 18.
    assert_eq!(map(4, &[[1, 2, 3, 0], [1, 2, 4, 0]]), Ok(vec![17, 10, 11, 0, 9, 18, 19, 0]));
    assert_eq!(map(5, &[[1, 2, 3, 0], [1, 4, 5, 0]]), Ok(vec![9, 10, 11, 0, 17, 18, 19, 0]));
    assert_eq!(map(3, &[[1, 2, 3, 0], [1, 3, 2, 0]]), Ok(vec![19, 18, 17, 0, 11, 10, 9, 0]));
    assert_eq!(map(4, &[[1, 2, 3, 4], [3, 2, 1, 0]]), Ok(vec![18, 17, 11, 12, 10, 9, 19, 0]));
    // A plate that is there twice, and a diagonal that isn't a side.
    assert_eq!(map(4, &[[1, 2, 3, 4], [1, 2, 3, 4]]), Ok(vec![17, 18, 19, 20, 9, 10, 11, 12]));
    assert_eq!(map(5, &[[1, 2, 3, 4], [1, 3, 5, 0]]), Ok(vec![9, 10, 11, 12, 17, 18, 19, 0]));
}

#[test]
fn refusals_by_name() {
    let triangle = [1, 2, 3, 0];
    let untouched = |(answer, v2e, map): Outcome| {
        assert!(v2e.iter().chain(&map).all(|&entry| entry == 7));
        answer
    };
    assert_eq!(untouched(lent(3, &[1, 2, 3, 0, 1], [3, 4, 19])), Err(Refusal::Sizes));
    assert_eq!(untouched(lent(MAX_VERTICES + 1, &[], [0, 0, 0])), Err(Refusal::Sizes));
    for lens in [[2, 4, 19], [4, 4, 20], [3, 3, 19], [3, 5, 19], [3, 8, 19], [3, 4, 18], [0, 0, 0]] {
        assert_eq!(untouched(lent(3, &triangle, lens)), Err(Refusal::Lengths));
    }
    assert_eq!(lent(3, &triangle, [3, 4, 19]), (Ok(()), vec![9, 10, 11], vec![9, 10, 11, 0]));

    // Three plates at an edge come before the fault; every element is checked for 3 before any is for 4.
    let with = |row| [LEAVES[0], LEAVES[1], LEAVES[2], row];
    let unfit = |element, corner| Err(Refusal::CornerUnfit { element, corner });
    let repeated = |element, corner| Err(Refusal::CornerRepeated { element, corner });
    assert_eq!(untouched(lent_fit(5, &with([1, 2, 6, 0]))), unfit(4, 3));
    assert_eq!(untouched(lent_fit(5, &with([1, 0, 3, 4]))), unfit(4, 2));
    assert_eq!(untouched(lent_fit(5, &with([1, 2, 3, 2]))), repeated(4, 4));
    assert_eq!(untouched(lent_fit(5, &[[1, 2, 2, 0], [1, 2, 3, 6]])), unfit(2, 4));
    assert_eq!(Siblings::build(3, &[[1, 2, 2, 0]]), Err(Refusal::CornerRepeated { element: 1, corner: 3 }));
    assert_eq!(Siblings::build(2, &[triangle]), Err(Refusal::CornerUnfit { element: 1, corner: 3 }));
    assert_eq!(Siblings::build(u32::MAX, &[triangle]), Err(Refusal::Sizes));
    assert_eq!(Siblings::build(3, &vec![triangle; MAX_ELEMENTS as usize + 1]), Err(Refusal::Sizes));
}

#[test]
fn what_is_not_there() {
    let housing = built(8, &LEAVES);
    let others = [side(6, 1), side(1, 4), side(1, 5), HalfEdge::border(1)];
    for other in others.into_iter().chain([0, 1, 13, 14, 15, u32::MAX].map(HalfEdge::from_code)) {
        assert_eq!(housing.sibling(other), Err(Refusal::NotThere));
        assert_eq!(
            (housing.origin(other), housing.destination(other)),
            (Err(Refusal::NotThere), Err(Refusal::NotThere))
        );
        assert!(matches!(housing.sides(other).map(Vec::from_iter), Err(Refusal::NotThere)));
        assert!(matches!(housing.plates(other).map(Vec::from_iter), Err(Refusal::NotThere)));
    }
    assert_eq!((housing.least_side(7), housing.least_side(8)), (Ok(Some(side(5, 2))), Ok(None)));
    for v in [0, 9, u32::MAX] {
        assert_eq!(housing.least_side(v), Err(Refusal::NotThere));
    }
    let quadrilateral = built(4, &[[1, 2, 3, 4]]);
    assert_eq!(quadrilateral.sibling(side(1, 4)), Ok(side(1, 4)));
}

#[test]
fn siblings_are_opposite_where_tables_are_built() {
    let pyramid = [[1, 4, 3, 2], [1, 2, 5, 0], [2, 3, 5, 0], [3, 4, 5, 0], [4, 1, 5, 0]];
    for (n, rows) in
        [(12, &STIFFENED[..4]), (12, &STIFFENED[4..]), (7, &LEAVES[..2]), (6, &pyramid), (6, &pyramid[1..])]
    {
        let (tables, siblings) = (Tables::build(n, rows).expect("the list is accepted"), built(n, rows));
        assert_eq!(siblings.edges().count(), tables.counts().edges as usize);
        for side in siblings.edges().flat_map(|edge| siblings.sides(edge).expect("the edge is there")) {
            let opposite = tables.opposite(side).expect("the side is there");
            let expected = if opposite.is_border() { side } else { opposite };
            assert_eq!(siblings.sibling(side), Ok(expected));
        }
    }
}

/// The calls keep nothing between them.
#[test]
fn several_threads_at_once() {
    let book: Vec<[u32; 4]> = (1..=1000).map(|f| [1 + f % 2, 2 - f % 2, 2 + f, 0]).collect();
    std::thread::scope(|scope| {
        for (n, rows) in [(12, &STIFFENED[..]), (7, &LEAVES), (1002, &book), (12, &STIFFENED[..4])] {
            let expected = built(n, rows);
            scope.spawn(move || assert!((0..2000).all(|_| built(n, rows) == expected)));
        }
    });
}

#[test]
fn no_element_and_a_million_on_one_edge() {
    let nothing = built(0, &[]);
    assert!(nothing.v2e().is_empty() && nothing.siblings().is_empty());
    assert_eq!((nothing.edges().next(), nothing.least_side(1)), (None, Err(Refusal::NotThere)));
    let unused = built(MAX_VERTICES, &[]);
    assert!(unused.v2e().iter().all(|&entry| entry == 0));
    assert_eq!(unused.least_side(MAX_VERTICES), Ok(None));

    let most = MAX_ELEMENTS;
    let rows: Vec<[u32; 4]> = (1..=most).map(|f| [1 + f % 2, 2 - f % 2, 3 + f % 1000, 0]).collect();
    let book = built(1002, &rows);
    assert!(book.plates(side(1, 1)).expect("the side is there").eq(1..=most));
    assert_eq!(book.sibling(side(most, 1)), Ok(side(1, 1)));
    // The edge of all leaves, and two to each other vertex.
    assert_eq!(book.edges().count(), 2001);
}

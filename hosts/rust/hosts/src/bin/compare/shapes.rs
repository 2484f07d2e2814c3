//! The number of a housing's shape: of lists whose number was worked out by hand, of housings that were put together so that
//! it is known, and of the largest sizes. Every list that another family builds is asked about too, and so is what each edit
//! of a run leaves.

use crate::call::{refused, Call, Left, Outcome, Question};
use crate::edits::REFUSED;
use crate::host::Host;
use borzhanu::{work_length, OwnedMesh, Refusal, Tables, MAX_ELEMENTS, MAX_VERTICES};
use hosts::meshes::shaped::{any_shaped, with_windows, Shaped};
use hosts::meshes::{any_housing, sheet, Kinds, List};
use hosts::reference::holes::holes;
use hosts::reference::shape::{halves, number, parts};
use hosts::reference::{self, Built, Refused, View};
use std::mem;

/// n, a list, and its number.
type Known = (u32, &'static [[u32; 4]], i64);

const LISTING: [[u32; 4]; 2] = [[1, 2, 3, 0], [1, 3, 4, 0]];
const TETRAHEDRON: [[u32; 4]; 4] = [[1, 2, 3, 0], [1, 4, 2, 0], [2, 4, 3, 0], [3, 4, 1, 0]];
const BOX: [[u32; 4]; 6] = [[1, 4, 3, 2], [1, 2, 6, 5], [2, 3, 7, 6], [3, 4, 8, 7], [4, 1, 5, 8], [5, 6, 7, 8]];
/// Each two of its seven vertices are joined. The last six triangles are about vertex 7.
const TORUS: [[u32; 4]; 14] = [
    [1, 2, 4, 0],
    [1, 4, 3, 0],
    [2, 3, 5, 0],
    [2, 5, 4, 0],
    [3, 4, 6, 0],
    [3, 6, 5, 0],
    [5, 6, 1, 0],
    [6, 2, 1, 0],
    [4, 5, 7, 0],
    [4, 7, 6, 0],
    [5, 1, 7, 0],
    [6, 7, 2, 0],
    [7, 1, 3, 0],
    [7, 3, 2, 0],
];

const KNOWN: [Known; 22] = [
    // no element
    (0, &[], 0),
    (1, &[], 1),
    (1000, &[], 1000),
    // discs, with unused vertices too
    (3, &[[3, 1, 2, 0]], 1),
    (4, &[[2, 1, 4, 3]], 1),
    (4, &LISTING, 1),
    (5, &LISTING, 2),
    (9, &[[2, 5, 9, 0]], 7),
    (5, &[[1, 2, 3, 4], [4, 3, 5, 0]], 1),
    // two apart
    (6, &[[1, 2, 3, 0], [4, 5, 6, 0]], 2),
    (9, &[[1, 3, 5, 7], [2, 4, 6, 0]], 4),
    // closed, with an unused vertex, and without an element or two
    (4, &TETRAHEDRON, 2),
    (5, &TETRAHEDRON, 3),
    (8, &BOX, 2),
    (4, TETRAHEDRON.split_at(3).0, 1),
    (8, BOX.split_at(5).0, 1),
    (8, BOX.split_at(5).0.split_at(1).1, 0),
    // a duct of triangles and quadrilaterals
    (6, &[[1, 2, 5, 0], [1, 5, 4, 0], [2, 3, 6, 5], [3, 1, 4, 6]], 0),
    (7, &TORUS, 0),
    (8, &TORUS, 1),
    // with an opening of six edges, whose middle is unused or isn't there
    (7, TORUS.split_at(8).0, 0),
    (6, TORUS.split_at(8).0, -1),
];

/// Asks for the shape of a list that building answers or refuses so. Hands over what was expected.
pub fn compare_shape(host: &mut Host, list: &List, built: Result<(u32, u32), Refused>) -> Outcome {
    let noise = mem::take(&mut host.noise);
    let (n, elements, m) = (list.n, list.entries(), list.rows.len());
    let answer = built.map(|(_, edges)| {
        let number = number(n, elements);
        let sum = i64::from(n) - i64::from(edges) + m as i64;
        assert_eq!(number, sum, "the reference's number and its count of edges differ, on {m} elements");
        halves(number)
    });
    let work_cleared = !matches!(answer, Err((1 | 2, ..)));
    let want = Outcome { answer, left: Left { work_cleared, ..Left::default() } };
    for (what, work_extra) in [(Question::RawShape, 0), (Question::Shape, 5)] {
        host.check(&asked(what, n, elements, &noise[..work_length(n, m) + work_extra]), &want);
    }
    host.noise = noise;
    want
}

/// What the number tells: it is 2 × pieces − openings − 2 × handles + unused vertices, of some handles or none.
fn check_handles(list: &List, Built { v2e, e2e, b2e, .. }: &Built, number: i64) {
    let (n, elements) = (list.n, list.entries());
    let mesh = View { n, told: 0, elements, v2e, e2e, b2e }.fit().expect("tables as built");
    let openings = holes(&mesh).expect("tables as built").lengths.len() as i64;
    let unused = v2e.iter().filter(|&&entry| entry == 0).count() as i64;
    let pieces = parts(n, elements) as i64 - unused;
    let twice = 2 * pieces - openings + unused - number;
    assert!(twice >= 0 && twice % 2 == 0, "{twice} as twice the handles, on {} elements", list.rows.len());
}

fn asked<'a>(what: Question, n: u32, elements: &'a [u32], work: &'a [u32]) -> Call<'a> {
    Call { what, n, elements, v2e: &[], e2e: &[], b2e: &[], work, out: &[], lengths: &[], points: &[], text: &[] }
}

/// Of a list of which the number is known; the reference has to find it too. And of meshes that own their buffers.
fn compare_known(host: &mut Host, list: &List, known: i64) {
    let m = list.rows.len();
    let built = reference::tables(list.n, list.entries()).expect("the list is accepted");
    let want = compare_shape(host, list, Ok((built.b2e.len() as u32, built.edges)));
    assert_eq!(want.answer, Ok(halves(known)), "the reference, on {m} elements, whose number is {known}");
    check_handles(list, &built, known);
    let tables = Tables::build(list.n, &list.rows).expect("the list is accepted");
    let mut mesh = OwnedMesh::build(list.n, &list.rows).expect("the list is accepted");
    host.situation.calls += 3;
    assert_eq!([tables.shape(), mesh.shape(), mesh.shape()], [known; 3], "owned, on {m} elements");
}

/// Work buffers longer and shorter than they must be, and element lists that are cut off: 1 and 2 come before everything
/// else.
fn compare_lengths(host: &mut Host, list: &List) {
    let noise = mem::take(&mut host.noise);
    let (n, entries) = (list.n, list.entries());
    let needed = work_length(n, list.rows.len());
    for what in [Question::Shape, Question::RawShape] {
        for change in [-(needed as isize), -17, -16, -4, -1, 0, 1, 16, 100] {
            let len = needed.saturating_add_signed(change);
            let want = host.compare(&asked(what, n, entries, &noise[..len]));
            assert_eq!(want.answer == Err((2, 0, 0)), len < needed, "the reference, with {len} entries");
        }
        for missing in 1..=entries.len().min(5) {
            for len in [needed, needed.saturating_sub(17)] {
                let want = host.compare(&asked(what, n, &entries[..entries.len() - missing], &noise[..len]));
                assert_eq!(want.answer == Err((1, 0, 0)), missing % 4 != 0, "the reference, {missing} missing");
            }
        }
    }
    host.noise = noise;
}

fn known(host: &mut Host) {
    for (n, rows, number) in KNOWN {
        let list = List::new(n, rows);
        compare_known(host, &list, number);
        compare_lengths(host, &list);
    }
    for (n, rows, refusal) in REFUSED {
        let list = List::new(n, rows);
        compare_shape(host, &list, Err(refusal));
        assert_eq!(reference::tables(n, list.entries()), Err(refusal), "the reference, on {rows:?}");
        let built = Tables::build(n, rows).map(|tables| tables.shape());
        assert_eq!(built.map_err(refused), Err(refusal), "owned, {rows:?}");
        compare_lengths(host, &list);
    }
}

/// A sheet of quadrilaterals closed in both directions, with an opening for every second cell of every second line.
fn lattice(width: u32, height: u32) -> Shaped {
    let vertex = |x: u32, y: u32| 1 + x % width + width * (y % height);
    let cells = (0..height).flat_map(|y| (0..width).map(move |x| (x, y))).filter(|(x, y)| x % 2 == 0 || y % 2 == 0);
    let rows = cells.map(|(x, y)| [vertex(x, y), vertex(x + 1, y), vertex(x + 1, y + 1), vertex(x, y + 1)]).collect();
    Shaped { list: List { n: width * height, rows }, number: -i64::from(width / 2 * (height / 2)) }
}

pub fn shapes(host: &mut Host) {
    known(host);
    for (rounds, size) in [(6_000, 8), (1_500, 60), (60, 3_000), (2, 100_000)] {
        for _ in 0..rounds {
            let Shaped { list, number } = any_shaped(&mut host.dice, size);
            compare_known(host, &list, number);
        }
    }
    for size in 1..40 {
        let plate = with_windows(size, size + 1, false, 1, Kinds::Quadrilaterals, &mut host.dice);
        let windows = i64::from((size - 1) / 2 * (size / 2));
        assert_eq!(plate.number, 1 - windows, "windows of a plate, {size} wide");
        compare_known(host, &plate.list, plate.number);
        let block = plate.thickened(Kinds::Triangles, &mut host.dice);
        compare_known(host, &block.list, block.number);
        let Shaped { list, number } = lattice(2 * size + 2, 6);
        compare_known(host, &list, number);
    }
    for _ in 0..600 {
        let list = any_housing(&mut host.dice, 12);
        compare_lengths(host, &list);
    }
}

/// As many vertices, elements, openings and pieces as there may be; and a vertex or an element more.
pub fn large_shapes(host: &mut Host) {
    let (most, triangles) = (MAX_VERTICES, Kinds::Triangles);
    let apart = (0..most / 3).map(|f| 3 * f).map(|v| [v + 1, v + 2, v + 3, 0]).collect();
    let closed = sheet(1000, 500, (true, true), triangles, &mut host.dice);
    for (list, number) in [
        (List::new(most, &[]), i64::from(most)),
        (List::new(most, &TORUS), i64::from(most) - 7),
        (List { n: most, rows: apart }, i64::from(most / 3) + 1),
        (closed.clone(), 0),
        (List { n: most, ..closed.clone() }, 500_000),
    ] {
        compare_known(host, &list, number);
    }
    let Shaped { list, number } = lattice(1000, 1000);
    let list = list.shuffled(&mut host.dice).renumbered(&mut host.dice).rotated(&mut host.dice);
    compare_known(host, &list, number);

    let mut rows = closed.rows;
    rows.push(rows[0]);
    for (list, entries) in [(List::new(most + 1, &TETRAHEDRON), 99), (List { n: 4, rows }, MAX_ELEMENTS as usize)] {
        let noise = mem::take(&mut host.noise);
        for what in [Question::Shape, Question::RawShape] {
            let want = host.compare(&asked(what, list.n, list.entries(), &noise[..entries]));
            assert_eq!(want.answer, Err((1, 0, 0)), "the reference, {} elements", list.rows.len());
        }
        host.noise = noise;
        assert_eq!(Tables::build(list.n, &list.rows), Err(Refusal::Sizes));
    }
}

//! Lists with two elements that meet otherwise than at one corner or one edge, and lists that nearly have such.

use crate::host::Host;
use crate::lengths::lengths_about;
use borzhanu::MAX_ELEMENTS;
use hosts::meshes::{any_globe, any_housing, any_kinds, bipyramid, fan, globe, pillow, sheet, wound};
use hosts::meshes::{Dice, Kinds, List, Sector};
use hosts::reference::Refused;

type Known = (u32, &'static [[u32; 4]], Refused);

const CLASHING: [Known; 9] = [
    // two triangles back to back, and two quadrilaterals
    (3, &[[1, 2, 3, 0], [1, 3, 2, 0]], (18, 1, 2)),
    (4, &[[1, 2, 3, 4], [1, 4, 3, 2]], (18, 1, 2)),
    // three corners in common, along two sides
    (4, &[[1, 2, 3, 4], [3, 2, 1, 0]], (18, 1, 2)),
    (5, &[[1, 2, 3, 4], [3, 2, 1, 5]], (18, 1, 2)),
    (9, &[[7, 8, 9, 0], [1, 2, 3, 4], [3, 2, 1, 0], [4, 3, 5, 0]], (18, 2, 3)),
    // three corners in common, along one side
    (5, &[[1, 2, 3, 4], [1, 3, 2, 5], [2, 1, 5, 0], [3, 1, 4, 0]], (18, 1, 2)),
    // a diagonal of both; a diagonal of one that is a side of the other
    (6, &[[1, 2, 3, 4], [1, 5, 3, 6], [1, 4, 5, 0], [3, 5, 4, 0]], (18, 1, 2)),
    (6, &[[1, 4, 5, 0], [1, 5, 3, 6], [3, 5, 4, 0], [1, 2, 3, 4]], (18, 2, 4)),
    (5, &[[3, 2, 5, 0], [1, 2, 3, 0], [1, 3, 4, 2]], (18, 1, 3)),
];

/// Two triangles back to back, and what is refused before them.
const REFUSED_BEFORE: [Known; 5] = [
    (8, &[[1, 2, 3, 0], [1, 3, 2, 0], [4, 5, 6, 0], [4, 7, 8, 0]], (8, 4, 0)),
    (7, &[[1, 2, 3, 0], [1, 3, 2, 0], [4, 5, 6, 0], [4, 5, 7, 0]], (7, 3, 1)),
    (8, &[[1, 2, 3, 0], [1, 3, 2, 0], [4, 5, 6, 0], [5, 4, 7, 0], [4, 5, 8, 0]], (6, 3, 1)),
    (6, &[[1, 2, 3, 0], [1, 3, 2, 0], [4, 5, 6, 5]], (4, 3, 4)),
    (6, &[[1, 2, 3, 0], [1, 3, 2, 0], [4, 5, 7, 0]], (3, 3, 3)),
];

const TETRAHEDRON: [[u32; 4]; 4] = [[1, 2, 3, 0], [1, 4, 2, 0], [2, 4, 3, 0], [3, 4, 1, 0]];
/// on a quadrilateral
const PYRAMID: [[u32; 4]; 5] = [[1, 4, 3, 2], [1, 2, 5, 0], [2, 3, 5, 0], [3, 4, 5, 0], [4, 1, 5, 0]];
const PRISM: [[u32; 4]; 5] = [[1, 3, 2, 0], [1, 2, 5, 4], [2, 3, 6, 5], [3, 1, 4, 6], [4, 5, 6, 0]];
const CUBE: [[u32; 4]; 6] = [[1, 4, 3, 2], [1, 2, 6, 5], [2, 3, 7, 6], [3, 4, 8, 7], [4, 1, 5, 8], [5, 6, 7, 8]];

/// Larger lists that clash.
fn clashing(dice: &mut Dice) -> Vec<(List, Refused)> {
    let kinds = Kinds::Quadrilaterals;
    let [whole, across] = [Sector::Whole, Sector::SplitAcross];
    vec![
        (pillow(1, 1, kinds, dice), (18, 1, 2)),
        (pillow(3, 2, kinds, dice), (18, 1, 9)),
        // tubes two around
        (sheet(2, 1, (true, false), kinds, dice), (18, 1, 2)),
        (wound(2, 6, false, kinds, dice), (18, 1, 2)),
        // three around, and closed after eight: vertices 1 and 5 are a diagonal twice
        (wound(3, 8, true, kinds, dice), (18, 1, 5)),
        (globe(&[across, whole, across, across, whole], true), (18, 3, 8)),
        (globe(&[across, whole, across, Sector::SplitAlong], false), (18, 3, 6)),
    ]
}

/// Lists that are accepted, with k and the number of edges.
fn sound(dice: &mut Dice) -> Vec<(List, (u32, u32))> {
    let (triangles, quadrilaterals) = (Kinds::Triangles, Kinds::Quadrilaterals);
    vec![
        (List::new(4, &TETRAHEDRON), (0, 6)),
        (List::new(5, &PYRAMID), (0, 8)),
        (List::new(6, &PRISM), (0, 9)),
        (List::new(8, &CUBE), (0, 12)),
        // an octahedron
        (bipyramid(4), (0, 12)),
        (fan(3, true), (3, 6)),
        (fan(5, false), (7, 11)),
        (pillow(1, 1, triangles, dice), (0, 6)),
        (pillow(3, 2, triangles, dice), (0, 36)),
        // tubes three around
        (sheet(3, 1, (true, false), quadrilaterals, dice), (6, 9)),
        (wound(3, 7, false, quadrilaterals, dice), (8, 18)),
        // triangles in cells two around, and so that each two of seven vertices are joined
        (wound(2, 6, false, triangles, dice), (6, 21)),
        (wound(2, 7, true, triangles, dice), (0, 21)),
        // one quadrilateral from pole to pole
        (globe(&[Sector::Whole, Sector::SplitAcross, Sector::Star], true), (0, 11)),
    ]
}

/// Mostly a list that clashes.
fn any_piece(dice: &mut Dice) -> List {
    let kinds = any_kinds(dice);
    match dice.below(6) {
        0 => any_globe(dice, 12),
        1 => pillow(2 + dice.below(2), 2 + dice.below(2), kinds, dice),
        2 => wound(2 + dice.below(3), 1 + dice.below(12), dice.once_in(2), kinds, dice),
        _ => {
            let (n, rows, _) = CLASHING[dice.below(CLASHING.len() as u32) as usize];
            List::new(n, rows)
        }
    }
}

/// A piece alone, beside others or glued to them.
fn any_clash(dice: &mut Dice) -> List {
    let mut list = any_piece(dice);
    for _ in 0..dice.below(3) {
        let other = any_housing(dice, 6);
        list = match dice.below(3) {
            0 => list.beside(other),
            1 => other.beside(list),
            _ => list.with_glued(other, dice),
        };
    }
    list.put_down_anyhow(dice)
}

pub fn clashes(host: &mut Host) {
    let small = CLASHING.map(|(n, rows, refused)| (List::new(n, rows), refused));
    for (list, refused) in small.into_iter().chain(clashing(&mut host.dice)) {
        host.build_known(&list, Err(refused));
        host.try_small_list(&list);
        lengths_about(host, &list);
    }
    for (n, rows, refused) in REFUSED_BEFORE {
        host.build_known(&List::new(n, rows), Err(refused));
    }
    for (list, counts) in sound(&mut host.dice) {
        host.build_known(&list, Ok(counts));
        host.try_small_list(&list);
    }
    for round in 0..3000 {
        let list = any_clash(&mut host.dice);
        if round % 50 == 0 {
            host.try_small_list(&list);
        } else {
            host.build_and_recover(&list);
        }
    }
}

/// A million elements about two poles: triangles, and then two quadrilaterals with nothing but the poles in common.
fn last_two() -> List {
    let mut sectors = vec![Sector::SplitAcross; MAX_ELEMENTS as usize / 2 + 1];
    sectors[0] = Sector::Whole;
    sectors[MAX_ELEMENTS as usize / 4] = Sector::Whole;
    let mut list = globe(&sectors, true);
    list.rows.sort_by_key(|row| row[3] != 0);
    list
}

/// Quadrilaterals about vertex 1, each with a corner of its own.
fn wide_fan(count: u32) -> List {
    let inner = |i: u32| 2 + i % count;
    let rows = (0..count).map(|i| [1, inner(i), 2 + count + i, inner(i + 1)]).collect();
    List { n: 1 + 2 * count, rows }
}

pub fn large_clashes(host: &mut Host) {
    let (most, many) = (MAX_ELEMENTS, 300_000);
    host.build_refused(&last_two(), (18, most - 1, most));
    host.build_known(&wide_fan(many), Ok((2 * many, 3 * many)));
    // Each two of these clash.
    host.build_refused(&globe(&vec![Sector::Whole; many as usize], true), (18, 1, 2));
}

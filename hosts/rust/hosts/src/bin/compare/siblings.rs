//! Sibling half-edges of lists in which any number of elements meet at an edge.

use crate::call::{Call, Outcome, Question};
use crate::host::{Host, Tables, LARGE};
use borzhanu::{work_length, MAX_ELEMENTS};
use hosts::meshes::stiffened::{any_stiffened, crowd, leaves};
use hosts::meshes::{book, fan, Kinds, List};
use hosts::reference::siblings::{agrees, goes_round};
use hosts::reference::Refused;
use std::mem;

/// n, a list, the least side of each vertex, and the rows of the map.
type Known = (u32, &'static [[u32; 4]], &'static [u32], &'static [[u32; 4]]);

const KNOWN: [Known; 9] = [
    (0, &[], &[], &[]),
    // no element, and one with an unused vertex in the middle
    (2, &[], &[0, 0], &[]),
    (5, &[[2, 1, 4, 5]], &[10, 9, 0, 11, 12], &[[9, 10, 11, 12]]),
    // three triangles on an edge
    (
        5,
        &[[1, 2, 3, 0], [2, 1, 4, 0], [1, 2, 5, 0]],
        &[9, 10, 11, 19, 27],
        &[[17, 10, 11, 0], [25, 18, 19, 0], [9, 26, 27, 0]],
    ),
    // two quadrilaterals and two triangles on an edge
    (
        8,
        &[[1, 2, 3, 4], [5, 2, 1, 0], [2, 1, 6, 7], [8, 1, 2, 0]],
        &[9, 10, 11, 12, 17, 27, 28, 33],
        &[[18, 10, 11, 12], [17, 25, 19, 0], [34, 26, 27, 28], [33, 9, 35, 0]],
    ),
    // two that run alike, two fans at a point, two back to back, and two with a diagonal in common
    (4, &[[1, 2, 3, 0], [1, 2, 4, 0]], &[9, 10, 11, 19], &[[17, 10, 11, 0], [9, 18, 19, 0]]),
    (5, &[[1, 2, 3, 0], [1, 4, 5, 0]], &[9, 10, 11, 18, 19], &[[9, 10, 11, 0], [17, 18, 19, 0]]),
    (3, &[[1, 2, 3, 0], [1, 3, 2, 0]], &[9, 10, 11], &[[19, 18, 17, 0], [11, 10, 9, 0]]),
    (6, &[[1, 2, 3, 4], [1, 5, 3, 6]], &[9, 10, 11, 12, 18, 20], &[[9, 10, 11, 12], [17, 18, 19, 20]]),
];

/// Three triangles on an edge and a corner that is unfit or comes twice: 3 over the whole list, then 4.
const REFUSED: [(u32, &[[u32; 4]], Refused); 4] = [
    (4, &[[1, 2, 3, 0], [2, 1, 4, 0], [1, 2, 5, 0]], (3, 3, 3)),
    (5, &[[1, 2, 3, 0], [2, 1, 4, 0], [1, 2, 5, 6]], (3, 3, 4)),
    (5, &[[1, 2, 3, 2], [2, 1, 4, 0], [1, 2, 0, 5]], (3, 3, 3)),
    (5, &[[1, 2, 3, 0], [2, 1, 4, 0], [1, 2, 1, 5]], (4, 3, 3)),
];

/// Asks for the siblings of a list, straight and, where it isn't large, through the wrapper. Hands over what was
/// expected.
pub fn compare_siblings(host: &mut Host, list: &List) -> Outcome {
    let noise = mem::take(&mut host.noise);
    let (elements, m) = (list.entries(), list.rows.len());
    let calls = [(Question::RawSiblings, 0), (Question::Siblings, 5)].map(|(what, work_extra)| Call {
        what,
        n: list.n,
        elements,
        v2e: &noise[..list.n as usize],
        e2e: &noise[7..7 + 4 * m],
        b2e: &[],
        work: &noise[..work_length(list.n, m) + work_extra],
        out: &[],
        lengths: &[],
        points: &[],
        text: &[],
    });
    let want = calls[0].expected();
    for call in &calls[..if m > LARGE { 1 } else { 2 }] {
        host.check(call, &want);
    }
    host.noise = noise;
    if let Some(map) = &want.left.e2e {
        assert!(goes_round(elements, map), "the reference's map of {m} elements doesn't go round");
    }
    want
}

/// A list that build accepts has siblings, and they are opposite each other.
pub fn compare_with_built(tables: &Tables, siblings: &Outcome) {
    let agree = siblings.left.e2e.as_ref().is_some_and(|map| agrees(&tables.elements, &tables.e2e, map));
    assert!(agree, "the reference's siblings and its E2e differ, on {} elements", tables.elements_count());
}

fn compare_known(host: &mut Host, (n, rows, v2e, map): Known) {
    let left = compare_siblings(host, &List::new(n, rows)).left;
    let known = (Some(v2e), Some(map.as_flattened()));
    assert_eq!((left.v2e.as_deref(), left.e2e.as_deref()), known, "the reference, on {rows:?}");
}

pub fn siblings(host: &mut Host) {
    for known in KNOWN {
        compare_known(host, known);
    }
    for (n, rows, refused) in REFUSED {
        let want = compare_siblings(host, &List::new(n, rows));
        assert_eq!(want.answer, Err(refused), "the reference, on {rows:?}");
    }
    for (rounds, size) in [(20_000, 8), (2_000, 60), (50, 3_000)] {
        for _ in 0..rounds {
            let list = any_stiffened(&mut host.dice, size);
            host.build(&list);
        }
    }
}

/// A million sides and more on one edge, on a few, and about one vertex.
pub fn large_siblings(host: &mut Host) {
    let (most, dice) = (MAX_ELEMENTS, &mut host.dice);
    for list in [
        book(most, most).shuffled(dice).renumbered(dice),
        leaves(most, most, Kinds::Quadrilaterals, dice),
        crowd(5, most, dice),
        fan(most - 1, true).shuffled(dice).renumbered(dice).rotated(dice),
    ] {
        compare_siblings(host, &list);
    }
    unfit_last_row(host, book(most, most));
}

/// A corner 0 in the last row, and then a corner twice.
fn unfit_last_row(host: &mut Host, mut list: List) {
    let last = list.rows.len();
    for (corner, number) in [(0, 3), (list.rows[last - 1][1], 4)] {
        list.rows[last - 1][2] = corner;
        let want = compare_siblings(host, &list);
        assert_eq!(want.answer, Err((number, last as u32, 3)), "the reference, on {last} elements");
    }
}

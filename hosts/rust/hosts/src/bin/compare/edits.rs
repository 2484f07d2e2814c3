//! What the comparisons of edits share.

use crate::call::{refused, Call, Left, Outcome, Question};
use crate::host::Host;
use borzhanu::{border, side, Counts, OwnedMesh, Refusal, MAX_ELEMENTS, MAX_VERTICES};
use hosts::meshes::{housing_of, Dice, Kinds, List};
use hosts::reference::{self, Refused};
use std::mem;

/// Lists that building refuses. No edit of them is tried.
pub const REFUSED: [(u32, &[[u32; 4]], Refused); 8] = [
    (3, &[[1, 2, 3, 0], [1, 3, 4, 0]], (3, 2, 3)),
    (4, &[[1, 2, 3, 0], [1, 0, 4, 0]], (3, 2, 2)),
    (4, &[[1, 2, 3, 0], [1, 3, 4, 1]], (4, 2, 4)),
    (5, &[[1, 2, 3, 0], [2, 1, 4, 0], [1, 2, 5, 0]], (6, 1, 1)),
    (4, &[[1, 2, 3, 0], [1, 2, 4, 0]], (7, 1, 1)),
    (7, &[[1, 2, 3, 0], [1, 3, 4, 0], [1, 5, 6, 0]], (8, 1, 0)),
    (3, &[[1, 2, 3, 0], [1, 3, 2, 0]], (18, 1, 2)),
    (5, &[[4, 3, 5, 0], [1, 2, 3, 4], [3, 2, 1, 0]], (18, 2, 3)),
];

/// Codes to be tried on them.
pub const SOME_CODES: [u32; 12] = [0, 8, 9, 11, 12, 16, 17, 18, 25, 33, 80, u32::MAX];

/// The lengths of list, V2e, E2e, B2e and work buffer.
pub type Lens = [usize; 5];

/// An edit in buffers of these lengths, through the wrapper and straight. The list is followed by noise, and the tables are
/// noise.
pub fn compare_edit(
    host: &mut Host,
    questions: [Question; 2],
    n: u32,
    list: &[u32],
    lens: Lens,
    points: &[f64],
    expected: impl FnOnce(&Call) -> Outcome,
) -> Outcome {
    let noise = mem::take(&mut host.noise);
    let elements: Vec<u32> = list.iter().chain(&noise).copied().take(lens[0]).collect();
    let calls = questions.map(|what| Call {
        what,
        n,
        elements: &elements,
        v2e: &noise[1..1 + lens[1]],
        e2e: &noise[2..2 + lens[2]],
        b2e: &noise[3..3 + lens[3]],
        work: &noise[..lens[4]],
        out: &[],
        lengths: &[],
        points,
        text: &[],
    });
    let want = expected(&calls[0]);
    for call in &calls {
        host.check(call, &want);
    }
    host.noise = noise;
    want
}

/// A refusal after checks 1 and 2.
pub fn refused_late(refused: Refused) -> Outcome {
    Outcome { answer: Err(refused), left: Left { work_cleared: true, ..Left::default() } }
}

/// k of a list; 0 where it has none, since building refuses it before 18.
pub fn borders(list: &List) -> u32 {
    reference::tables_by_pairing(list.n, list.entries()).map_or(0, |built| built.b2e.len() as u32)
}

pub fn numbers(answer: Result<Counts, Refusal>) -> Result<(u32, u32), Refused> {
    answer.map(|counts| (counts.borders, counts.edges)).map_err(refused)
}

/// Wherever its points are, the mesh is the one that is built of its list.
pub fn assert_sound(mesh: &OwnedMesh) {
    let mut mesh = mesh.clone();
    mesh.points_mut().fill([0.0; 3]);
    assert_eq!(OwnedMesh::build(mesh.n(), mesh.rows()), Ok(mesh), "the owned mesh isn't that of its list");
}

/// The list and the tables of a mesh.
pub fn buffers(mesh: &OwnedMesh) -> [&[u32]; 4] {
    let mesh = mesh.mesh();
    [mesh.elements(), mesh.v2e(), mesh.e2e(), mesh.b2e()]
}

/// Every code of a housing, and some beyond: as large as codes can be, and those that are another's but for a high bit.
pub fn codes_about(dice: &mut Dice, list: &List) -> Vec<u32> {
    let last = 8 * (borders(list).max(list.rows.len() as u32) + 2);
    let largest = [border(MAX_VERTICES), side(MAX_ELEMENTS, 3), u32::MAX - 7, u32::MAX];
    let raised = (8..32).map(|bit| dice.below(last) | 1 << bit);
    (0..last).chain(largest).chain(raised).collect()
}

/// A housing of triangles, sometimes of quadrilaterals too, closed or with rims, and sometimes with openings.
pub fn any_triangulated(dice: &mut Dice, size: u32) -> List {
    let kinds = if dice.once_in(3) { Kinds::Mixed } else { Kinds::Triangles };
    let mut list = housing_of(kinds, dice, size);
    if dice.once_in(3) {
        list = list.with_openings(2 + dice.below(9), dice);
    }
    let (after, unused) = (dice.below(list.n + 1), dice.below(3));
    list.with_unused(after, unused).put_down_anyhow(dice)
}

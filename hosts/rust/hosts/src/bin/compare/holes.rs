//! Holes: of tables as built, of rims that are damaged, and of border half-edges that follow each other in every way.

use crate::call::{Call, Outcome, Query, Question, Way};
use crate::host::{Host, Tables};
use borzhanu::{border, side, work_length, MAX_ELEMENTS, MAX_VERTICES};
use hosts::meshes::{any_housing, any_kinds, sheet, shuffle, Dice, List};
use std::mem;

/// n, a list, the hole of each border half-edge, and the lengths.
type Known = (u32, &'static [[u32; 4]], &'static [u32], &'static [u32]);

const KNOWN: [Known; 7] = [
    (0, &[], &[], &[]),
    (3, &[], &[], &[]),
    (4, &[[1, 2, 3, 0], [1, 4, 2, 0], [2, 4, 3, 0], [3, 4, 1, 0]], &[], &[]),
    (4, &[[1, 2, 3, 0], [1, 3, 4, 0]], &[1, 1, 1, 1], &[4]),
    // a duct of three plates, and one of four with its last plate missing
    (6, &[[1, 2, 5, 4], [2, 3, 6, 5], [3, 1, 4, 6]], &[1, 2, 1, 2, 1, 2], &[3, 3]),
    (8, &[[1, 2, 6, 5], [2, 3, 7, 6], [3, 4, 8, 7]], &[1, 1, 1, 1, 1, 1, 1, 1], &[8]),
    // a quadrilateral numbered between the two triangles of one housing, and one more triangle
    (12, &[[1, 2, 3, 0], [4, 5, 6, 7], [3, 2, 8, 0], [10, 11, 12, 0]], &[1, 1, 2, 2, 2, 2, 1, 1, 3, 3, 3], &[4, 4, 3]),
];

/// What follows each border half-edge, and the holes and their lengths where every loop comes back.
type Chain = (&'static [u32], Option<(&'static [u32], &'static [u32])>);

const CHAINS: [Chain; 14] = [
    (&[1], Some((&[1], &[1]))),
    (&[1, 2, 3], Some((&[1, 2, 3], &[1, 1, 1]))),
    (&[3, 1, 2, 6, 4, 5], Some((&[1, 1, 1, 2, 2, 2], &[3, 3]))),
    // one loop, and four that take turns
    (&[6, 1, 2, 3, 4, 5], Some((&[1, 1, 1, 1, 1, 1], &[6]))),
    (&[5, 2, 6, 4, 1, 3], Some((&[1, 2, 3, 4, 1, 3], &[2, 1, 2, 1]))),
    (&[4, 3, 2, 1], Some((&[1, 2, 2, 1], &[2, 2]))),
    // the hole of the greatest border half-edge isn't the last
    (&[5, 3, 4, 2, 1], Some((&[1, 2, 2, 2, 1], &[2, 3]))),
    // into another loop, before it and after it
    (&[2, 2], None),
    (&[2, 3, 1, 5, 3], None),
    // into their own middle, and from the loop's far side
    (&[2, 3, 2], None),
    (&[1, 4, 3, 2, 6, 7, 6], None),
    (&[2, 1, 4, 4], None),
    // by nothing, and by one that B2e doesn't have
    (&[2, 1, 0], None),
    (&[2, 1, 4], None),
];

/// How many entries the two outputs and the work buffer have beyond what they need.
type Room = [isize; 3];

const ENOUGH: Room = [0, 0, 0];
const OTHER_ROOM: [Room; 16] = [
    [2, 0, 0],
    [0, 2, 0],
    [1, 3, 5],
    [9, 9, 16],
    // an output too short, or both
    [-1, 0, 0],
    [0, -1, 0],
    [-1, -1, 0],
    [-1, 9, 5],
    [9, -1, 5],
    [isize::MIN, 0, 0],
    [0, isize::MIN, 0],
    [isize::MIN, isize::MIN, 7],
    // the work buffer too short
    [0, 0, -1],
    [3, 3, -16],
    [-1, -1, -1],
    [0, 0, isize::MIN],
];

/// A call with so much room, on E2e as it is or, since that isn't read, on noise.
fn call<'a>(tables: &'a Tables, way: Way, room: Room, noise: &'a [u32], as_it_is: bool) -> Call<'a> {
    let (k, e2e_len) = (tables.b2e.len(), tables.e2e.len());
    let needed = [k, k, work_length(tables.n, tables.elements.len() / 4)];
    let [hole, lengths, work] = [0, 1, 2].map(|at| needed[at].saturating_add_signed(room[at]));
    Call {
        what: Question::Holes(way),
        n: tables.n,
        elements: &tables.elements,
        v2e: &tables.v2e,
        e2e: if as_it_is { &tables.e2e } else { &noise[..e2e_len] },
        b2e: &tables.b2e,
        work: &noise[..work],
        out: &noise[5..5 + hole],
        lengths: &noise[..lengths],
        points: &[],
        text: &[],
    }
}

/// The same in each way that has the same answer.
fn compare_room(host: &mut Host, tables: &Tables, room: Room) -> Outcome {
    let noise = mem::take(&mut host.noise);
    let (ways, as_it_is) = (host.ways(tables), host.dice.once_in(2));
    let want = call(tables, ways[0], room, &noise, as_it_is).expected();
    for way in ways {
        host.check(&call(tables, way, room, &noise, as_it_is), &want);
    }
    host.noise = noise;
    want
}

/// The loop of one border half-edge lists its hole, and the lengths add up to k.
fn compare_loop(host: &mut Host, tables: &Tables, hole: &[u32], lengths: &[u32]) {
    let k = tables.b2e.len();
    if k == 0 {
        return;
    }
    let noise = mem::take(&mut host.noise);
    let b = 1 + host.dice.below(k as u32);
    let left = host.ask_into(tables, Query::BorderLoop(b), &noise[..k]).left;
    host.noise = noise;
    let mut listed = left.out.expect("every loop comes back");
    listed.sort();
    let number = hole[b as usize - 1];
    let alike = (1..).zip(hole).filter(|&(_, &other)| other == number).map(|(c, _)| c);
    assert!(alike.eq(listed.iter().copied()), "the reference's hole and loop of {b} differ");
    assert_eq!(lengths[number as usize - 1] as usize, listed.len(), "the reference's length of hole {number}");
}

/// With just enough room, and then with more or less.
pub fn compare_holes(host: &mut Host, tables: &Tables) {
    let want = compare_room(host, tables, ENOUGH);
    if let (Some(hole), Some(lengths)) = (&want.left.out, &want.left.lengths) {
        compare_loop(host, tables, hole, lengths);
    }
    let room = OTHER_ROOM[host.dice.below(OTHER_ROOM.len() as u32) as usize];
    compare_room(host, tables, room);
}

/// Elements apart, all with three corners or all with four. Border half-edge b ends at vertex b, so that V2e can say of
/// each alone which one follows.
fn chain(nexts: &[u32], corners: u32) -> Tables {
    let k = nexts.len() as u32;
    let m = k.div_ceil(corners);
    let n = corners * m;
    let row = |f: u32| [1, 2, 3, 4].map(|i| if i <= corners { corners * f + i } else { 0 });
    let mut v2e: Vec<u32> = nexts.iter().map(|&next| border(next)).collect();
    v2e.resize(n as usize, 0);
    Tables {
        n,
        elements: (0..m).flat_map(row).collect(),
        v2e,
        e2e: vec![0; n as usize],
        b2e: (0..k).map(|at| side(1 + at / corners, 1 + at % corners)).collect(),
        told: None,
    }
}

/// Tables whose holes are known, with room of every kind; the reference has to find them too.
fn compare_known(host: &mut Host, tables: &Tables, holes: Option<(&[u32], &[u32])>) {
    for room in OTHER_ROOM {
        compare_room(host, tables, room);
    }
    let left = compare_room(host, tables, ENOUGH).left;
    assert_eq!(left.out.as_deref().zip(left.lengths.as_deref()), holes, "the reference, on V2e {:?}", tables.v2e);
}

fn known(host: &mut Host) {
    for (n, rows, hole, lengths) in KNOWN {
        let tables = host.build(&List::new(n, rows)).expect("the list is accepted");
        compare_known(host, &tables, Some((hole, lengths)));
    }
    for (nexts, holes) in CHAINS {
        for corners in [3, 4] {
            compare_known(host, &chain(nexts, corners), holes);
        }
    }
}

/// Every way in which up to five border half-edges can follow each other, or be followed by what isn't there.
fn every_chain(host: &mut Host) {
    for k in 0..=5u32 {
        let values = k + 2;
        for number in 0..values.pow(k) {
            let nexts: Vec<u32> = (0..k).map(|place| number / values.pow(place) % values).collect();
            let corners = 3 + host.dice.below(2);
            compare_holes(host, &chain(&nexts, corners));
        }
    }
}

/// Mostly loops that all come back: each alone, all as one, or anyhow; sometimes with one slip.
fn any_chain(k: u32, dice: &mut Dice) -> Vec<u32> {
    let mut nexts: Vec<u32> = (1..=k).collect();
    match dice.below(6) {
        0 => {}
        1 => nexts.rotate_left(dice.below(k) as usize),
        2 => return nexts.iter().map(|_| 1 + dice.below(k)).collect(),
        _ => shuffle(&mut nexts, dice),
    }
    if k > 0 && dice.once_in(3) {
        let (at, other) = (dice.index(&nexts), 1 + dice.below(k));
        nexts[at] = [other, other, other, 0, k + 1][dice.below(5) as usize];
    }
    nexts
}

fn chains(host: &mut Host) {
    for (rounds, size) in [(10_000, 12), (500, 300), (10, 30_000)] {
        for _ in 0..rounds {
            let (k, corners) = (host.dice.below(size), 3 + host.dice.below(2));
            let nexts = any_chain(k, &mut host.dice);
            compare_holes(host, &chain(&nexts, corners));
        }
    }
}

/// A code of each kind: of a half-edge, and of what nearly is one.
fn any_code(tables: &Tables, dice: &mut Dice) -> u32 {
    let (m, k) = (tables.elements_count(), tables.b2e.len() as u32);
    let f = 1 + dice.below(m);
    match dice.below(8) {
        0 => 0,
        1 => border(1 + dice.below(k)),
        2 => border(k + 1 + dice.below(2)),
        3 => side(f, 1 + dice.below(3)),
        4 => side(f, 4 + dice.below(4)),
        5 => side(m + 1, 1 + dice.below(3)),
        6 => u32::MAX,
        _ => dice.number(),
    }
}

/// Tables with at least one border half-edge, and something changed where loops read them.
fn with_damaged_rims(tables: &Tables, dice: &mut Dice) -> Tables {
    let mut damaged = tables.clone();
    let (n, k, longest) = (tables.n, tables.b2e.len(), tables.elements.len());
    let rim: Vec<usize> = (0..n as usize).filter(|&at| tables.v2e[at] != 0 && tables.v2e[at] % 8 == 0).collect();
    let (v, other) = (rim[dice.index(&rim)], rim[dice.index(&rim)]);
    let (b, c) = (dice.index(&tables.b2e), dice.index(&tables.b2e));
    match dice.below(10) {
        // loops become one, or one becomes two
        0 => damaged.v2e.swap(v, other),
        1 => {
            let mut entries: Vec<u32> = rim.iter().map(|&at| tables.v2e[at]).collect();
            shuffle(&mut entries, dice);
            rim.iter().zip(entries).for_each(|(&at, entry)| damaged.v2e[at] = entry);
        }
        2 => damaged.v2e[v] = tables.v2e[other],
        3 | 4 => damaged.v2e[v] = any_code(tables, dice),
        5 => damaged.b2e.swap(b, c),
        6 => damaged.b2e[b] = any_code(tables, dice),
        // the corner where b ends
        7 => {
            let corner = [0, 1 + dice.below(n), n + 1, u32::MAX][dice.below(4) as usize];
            damaged.elements[(4 * (tables.b2e[b] / 8) + tables.b2e[b] % 8) as usize - 5] = corner;
        }
        8 => damaged.b2e.truncate(b),
        _ => {
            let len = k + 1 + dice.below((longest - k) as u32 + 1) as usize;
            damaged.b2e.resize_with(len, || any_code(tables, dice));
        }
    }
    damaged
}

/// A plate or a duct with openings, or any other housing.
fn any_with_rims(dice: &mut Dice, size: u32) -> List {
    if dice.once_in(2) {
        return any_housing(dice, size);
    }
    let (width, height) = (3 + dice.below(1 + size / 4), 3 + dice.below(1 + size / 12));
    let list = sheet(width, height, (dice.once_in(2), dice.once_in(4)), any_kinds(dice), dice);
    list.with_openings(2 + dice.below(6), dice).put_down_anyhow(dice)
}

fn damaged_rims(host: &mut Host) {
    for (rounds, size) in [(3_000, 12), (300, 100), (10, 3_000)] {
        for _ in 0..rounds {
            let list = any_with_rims(&mut host.dice, size);
            let Some(tables) = host.build(&list) else { continue };
            compare_holes(host, &tables);
            if tables.b2e.is_empty() {
                continue;
            }
            for _ in 0..4 {
                let damaged = with_damaged_rims(&tables, &mut host.dice);
                compare_holes(host, &damaged);
            }
            let relaid = with_damaged_rims(&tables, &mut host.dice).relaid();
            compare_holes(host, &relaid);
        }
    }
}

pub fn holes(host: &mut Host) {
    known(host);
    every_chain(host);
    chains(host);
    damaged_rims(host);
}

/// Loops of so many border half-edges, each followed by the one below it and the least by the greatest.
fn loops(k: u32, length: u32) -> Vec<u32> {
    (1..=k).map(|b| if b % length == 1 % length { b + length - 1 } else { b - 1 }).collect()
}

/// The same, but b is followed by another one.
fn slipped(mut nexts: Vec<u32>, b: u32, next: u32) -> Vec<u32> {
    nexts[b as usize - 1] = next;
    nexts
}

/// A million border half-edges in a few rims and in many; and what has to be found at the first, at the last, or along
/// half of them.
pub fn large_holes(host: &mut Host) {
    let (k, half) = (MAX_VERTICES, MAX_VERTICES / 2);
    let mut anyhow: Vec<u32> = (1..=k).collect();
    shuffle(&mut anyhow, &mut host.dice);
    for nexts in [loops(k, k), loops(k, 1), loops(k, 4), loops(k - 1, 3), loops(k, half), anyhow.clone()] {
        let tables = chain(&nexts, if nexts.len() as u32 == k { 4 } else { 3 });
        compare_holes(host, &tables);
    }
    for nexts in [
        // followed by nothing
        slipped(loops(k, 4), 1, 0),
        slipped(loops(k, 4), k, 0),
        slipped(anyhow, k, k + 1),
        // into another loop, and into their own middle
        slipped(loops(k, half), k, 1),
        slipped(loops(k, half), 1, k),
        slipped(loops(k, k), 1, half),
        slipped(loops(k, k), k, k),
        slipped(loops(k, 1), k, k - 1),
        // half of them into the other half, each at a place of its own; and all into one
        (1..=k).map(|b| if b > half { b - half } else { b }).collect(),
        vec![1; k as usize],
    ] {
        let want = compare_room(host, &chain(&nexts, 4), ENOUGH);
        assert_eq!(want.answer, Err((12, 0, 0)), "the reference, on {k} border half-edges");
    }
    most_borders(host);
}

/// As many border half-edges as B2e may have: all that can are one loop, and the others run into it.
fn most_borders(host: &mut Host) {
    let mut tables = chain(&loops(MAX_VERTICES, MAX_VERTICES), 4);
    tables.elements.extend([1, 2, 3, 4].repeat(MAX_ELEMENTS as usize - tables.elements.len() / 4));
    tables.e2e.resize(tables.elements.len(), 0);
    tables.b2e = (1..=MAX_ELEMENTS).flat_map(|f| [1, 2, 3, 4].map(|i| side(f, i))).collect();
    let want = compare_room(host, &tables, ENOUGH);
    assert_eq!(want.answer, Err((12, 0, 0)), "the reference, on {} border half-edges", tables.b2e.len());
}

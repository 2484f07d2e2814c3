//! Checks the openings of a duct by their rims: a duct of square section, open at its inlet and at a branch, and closed
//! at its end by plate 15. Its walls unrolled, so that the right edge is the left one again:
//!
//!     17 -- 18 -- 19 -- 20 -- 17
//!      | 11  | 12  | 13  | 14  |
//!     13 -- 14 -- 15 -- 16 -- 13
//!      |     |  8  |  9  | 10  |
//!      9    10 -- 11 -- 12 --- 9      the branch is where plates 16 and 17 would be
//!      |     |  5  |  6  |  7  |
//!      5 --- 6 --- 7 --- 8 --- 5
//!      |  1  |  2  |  3  |  4  |
//!      1 --- 2 --- 3 --- 4 --- 1      inlet

use borzhanu::{HalfEdge, Hole, Holes, Refusal, Tables};

const PLATES: [[u32; 4]; 17] = [
    [1, 2, 6, 5],
    [2, 3, 7, 6],
    [3, 4, 8, 7],
    [4, 1, 5, 8],
    [6, 7, 11, 10],
    [7, 8, 12, 11],
    [8, 5, 9, 12],
    [10, 11, 15, 14],
    [11, 12, 16, 15],
    [12, 9, 13, 16],
    [13, 14, 18, 17],
    [14, 15, 19, 18],
    [15, 16, 20, 19],
    [16, 13, 17, 20],
    [17, 18, 19, 20],
    [5, 6, 10, 9],
    [9, 10, 14, 13],
];

/// What the drawing says of an opening: how many sides it has, and a vertex on its rim.
struct Opening {
    name: &'static str,
    sides: u32,
    vertex: u32,
}

const DRAWING: [Opening; 2] =
    [Opening { name: "inlet", sides: 4, vertex: 1 }, Opening { name: "branch", sides: 6, vertex: 5 }];

/// The hole at a vertex: that of the border half-edge which leaves it. None for a vertex on no rim.
fn hole_at(tables: &Tables, holes: &Holes, v: u32) -> Option<u32> {
    let b = HalfEdge::from_code(tables.mesh().v2e()[v as usize - 1]).border_number()?;
    holes.hole(b).ok()
}

/// The vertices of a rim, in the order of its loop.
fn vertices(tables: &Tables, hole: Hole) -> Result<String, Refusal> {
    let origin = |b| tables.origin(HalfEdge::border(b)).map(|v| v.to_string());
    let listed: Result<Vec<String>, Refusal> = tables.border_loop(hole.first)?.into_iter().map(origin).collect();
    Ok(listed?.join(" "))
}

/// What the drawing says of a hole: the openings whose vertex is on its rim.
fn names(tables: &Tables, holes: &Holes, hole: Hole) -> String {
    let on_rim = |opening: &&Opening| hole_at(tables, holes, opening.vertex) == Some(hole.number);
    let said = |opening: &Opening| match opening.sides {
        sides if sides == hole.length => opening.name.to_string(),
        sides => format!("{}, {sides} sides on the drawing", opening.name),
    };
    let named: Vec<String> = DRAWING.iter().filter(on_rim).map(said).collect();
    if named.is_empty() {
        return "not on the drawing".to_string();
    }
    named.join("; ")
}

fn check(model: &str, plates: &[[u32; 4]]) -> Result<(), Refusal> {
    let tables = Tables::build(20, plates)?;
    let holes = tables.holes();
    println!("openings {model}: {}", holes.count());
    for hole in holes.iter() {
        let (rim, names) = (vertices(&tables, hole)?, names(&tables, &holes, hole));
        println!("  {} sides, vertices {rim}: {names}", hole.length);
    }
    for opening in DRAWING.iter().filter(|opening| hole_at(&tables, &holes, opening.vertex).is_none()) {
        println!("  missing: {}", opening.name);
    }
    Ok(())
}

/// The plates as drawn, but for one.
fn without(plate: usize) -> Vec<[u32; 4]> {
    [&PLATES[..plate - 1], &PLATES[plate..15]].concat()
}

fn main() -> Result<(), Refusal> {
    check("as drawn", &PLATES[..15])?;
    check("without plate 9", &without(9))?;
    check("without plate 8", &without(8))?;
    check("without plate 1", &without(1))?;
    check("with plates 16 and 17", &PLATES)
}

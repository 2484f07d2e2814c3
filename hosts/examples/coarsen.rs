//! Coarsens the side plate of a housing, which has a cable hole: of the edges shorter than 10 mm the shortest is
//! contracted, one after the other, until none is left that can be. Of its two ends the one on a border stays. The hole
//! has only three edges, so it stays as well.
//!
//!     4 ------------------- 3
//!     |                     |
//!     |        7            |      80 x 60 mm; the lines of the border, and vertex 9 near the hole.
//!     |       / \           |      1 to 8 is 3 mm long, 6 to 9 is 5 mm
//!     |      5 - 6  9       |
//!     |                     |
//!     1 - 8 --------------- 2

use borzhanu::{HalfEdge, OwnedMesh, Refusal, Tables, VertexKind};

const PLATES: [[u32; 4]; 10] = [
    [1, 8, 5, 0],
    [8, 6, 5, 0],
    [8, 9, 6, 0],
    [8, 2, 9, 0],
    [2, 3, 9, 0],
    [3, 7, 9, 0],
    [7, 6, 9, 0],
    [3, 4, 7, 0],
    [4, 5, 7, 0],
    [4, 1, 5, 0],
];

/// In millimetres.
const POINTS: [[f64; 3]; 9] = [
    [0.0, 0.0, 0.0],
    [80.0, 0.0, 0.0],
    [80.0, 60.0, 0.0],
    [0.0, 60.0, 0.0],
    [36.0, 26.0, 0.0],
    [44.0, 26.0, 0.0],
    [40.0, 33.0, 0.0],
    [3.0, 0.0, 0.0],
    [49.0, 26.0, 0.0],
];

const LIMIT: f64 = 10.0;

fn ends(plate: &OwnedMesh, side: HalfEdge) -> Result<(u32, u32), Refusal> {
    Ok((plate.tables().origin(side)?, plate.tables().destination(side)?))
}

fn length(plate: &OwnedMesh, side: HalfEdge) -> Result<f64, Refusal> {
    let (a, b) = ends(plate, side)?;
    let [p, q] = [a, b].map(|v| plate.points()[v as usize - 1]);
    Ok(p.iter().zip(q).map(|(p, q)| (q - p) * (q - p)).sum::<f64>().sqrt())
}

/// The end that goes is the destination: not a vertex on a border for the sake of one that isn't.
fn keeps_borders(plate: &OwnedMesh, side: HalfEdge) -> Result<bool, Refusal> {
    let (a, b) = ends(plate, side)?;
    let is_on_border = |v| plate.tables().vertex_kind(v).map(|kind| kind == VertexKind::Rim);
    Ok(is_on_border(a)? || !is_on_border(b)?)
}

/// The first of the shortest sides under the limit that hasn't been tried.
fn shortest_side(plate: &OwnedMesh, tried: &[HalfEdge]) -> Result<Option<HalfEdge>, Refusal> {
    let (mut shortest, mut least) = (None, LIMIT);
    for side in (1..=plate.m()).flat_map(|f| [1, 2, 3].map(|i| HalfEdge::side(f, i))) {
        let length = length(plate, side)?;
        if !tried.contains(&side) && length < least && keeps_borders(plate, side)? {
            shortest = Some(side);
            least = length;
        }
    }
    Ok(shortest)
}

fn print_counts(plate: &OwnedMesh) {
    let (n, m, counts) = (plate.n(), plate.m(), plate.counts());
    println!("{n} vertices, {m} triangles, {} edges, {} on the border", counts.edges, counts.borders);
}

/// Contracts the edge of a side; false where that is refused.
fn contract(plate: &mut OwnedMesh, side: HalfEdge) -> Result<bool, Refusal> {
    let (n, (a, b)) = (plate.n(), ends(plate, side)?);
    print!("contract {a} to {b}, {:.1} mm: ", length(plate, side)?);
    if let Err(refusal) = plate.contract(side) {
        let (first, second) = refusal.place();
        println!("refusal {} at {first},{second}: {}", refusal.number(), refusal.text());
        return Ok(false);
    }
    print_counts(plate);
    // Data of one's own about vertices move with the numbers, as the points do.
    if b != n {
        println!("  vertex {n} is vertex {b} now");
    }
    Ok(true)
}

fn main() -> Result<(), Refusal> {
    let mut plate = OwnedMesh::with_points(&POINTS, &PLATES)?;
    print!("plate as meshed: ");
    print_counts(&plate);

    // Rows and vertices get other numbers: the next edge is looked for anew. A refused contraction leaves everything as it
    // was: that side isn't tried again until another edge is contracted.
    let mut tried = Vec::new();
    while let Some(side) = shortest_side(&plate, &tried)? {
        tried.push(side);
        if contract(&mut plate, side)? {
            tried.clear();
        }
    }
    print!("plate coarsened: ");
    print_counts(&plate);
    for (f, [a, b, c, _]) in (1..).zip(plate.rows()) {
        println!("  plate {f}: {a} {b} {c}");
    }

    // The tables that the contractions left are those of the list that they left.
    let built = Tables::build(plate.n(), plate.rows())?;
    let same = if built == *plate.tables() { "the same" } else { "others" };
    let counts = built.counts();
    println!("build of this list: {} edges, {} on the border; its tables are {same}", counts.edges, counts.borders);
    Ok(())
}

//! Refines a plate near the bracket at its corner 1: of the edges there that are longer than 50 mm the longest is split at
//! its midpoint, until none is left.
//!
//!     4 ----------- 3                     4 ----------- 3
//!     |  2       /  |                     | \    4   /  |
//!     |       /     |                     |  2 \   /    |
//!     |    /        |      80 x 60 mm     7 ---- 5   1  |      refined
//!     | /        1  |                     | 6  / | \    |
//!     |             |                     |  / 3 |  5 \ |
//!     1 ----------- 2                     1 ---- 6 ---- 2

use borzhanu::{HalfEdge, OwnedMesh, Refusal};

const PLATES: [[u32; 4]; 2] = [[1, 2, 3, 0], [1, 3, 4, 0]];

/// In millimetres.
const POINTS: [[f64; 3]; 4] = [[0.0, 0.0, 0.0], [80.0, 0.0, 0.0], [80.0, 60.0, 0.0], [0.0, 60.0, 0.0]];

const BRACKET: u32 = 1;
const LIMIT: f64 = 50.0;

fn length(plate: &OwnedMesh, a: u32, b: u32) -> f64 {
    let [p, q] = [a, b].map(|v| plate.points()[v as usize - 1]);
    p.iter().zip(q).map(|(p, q)| (q - p) * (q - p)).sum::<f64>().sqrt()
}

fn ends(plate: &OwnedMesh, side: HalfEdge) -> Result<(u32, u32), Refusal> {
    Ok((plate.tables().origin(side)?, plate.tables().destination(side)?))
}

/// The first side of the longest edge at the bracket that is over the limit.
fn longest_side(plate: &OwnedMesh) -> Result<Option<HalfEdge>, Refusal> {
    let (mut longest, mut most) = (None, LIMIT);
    for side in (1..=plate.m()).flat_map(|f| [1, 2, 3].map(|i| HalfEdge::side(f, i))) {
        let (a, b) = ends(plate, side)?;
        if [a, b].contains(&BRACKET) && length(plate, a, b) > most {
            longest = Some(side);
            most = length(plate, a, b);
        }
    }
    Ok(longest)
}

fn print_plate(when: &str, plate: &OwnedMesh) -> Result<(), Refusal> {
    let counts = plate.counts();
    println!("plate {when}: {} triangles, {} edges, {} on the border", plate.m(), counts.edges, counts.borders);
    let edge = |&v: &u32| format!("{BRACKET} to {v}, {:.1} mm", length(plate, BRACKET, v));
    let edges: Vec<String> = plate.tables().neighbours(BRACKET)?.iter().map(edge).collect();
    println!("  at the bracket: {}", edges.join("; "));
    Ok(())
}

/// The rows that a split changed, and those that it appended.
fn print_changes(before: &[[u32; 4]], after: &[[u32; 4]]) {
    for (f, (row, old)) in (1..).zip(after.iter().zip(before.iter().map(Some).chain([None; 2]))) {
        let [a, b, c, _] = row;
        match old {
            None => println!("  plate {f}: {a} {b} {c}"),
            Some(old) if old != row => {
                println!("  plate {f}: {} {} {} becomes {a} {b} {c}", old[0], old[1], old[2]);
            }
            Some(_) => {}
        }
    }
}

fn main() -> Result<(), Refusal> {
    let mut plate = OwnedMesh::with_points(&POINTS, &PLATES)?;
    print_plate("as meshed", &plate)?;

    while let Some(side) = longest_side(&plate)? {
        let (before, (a, b)) = (plate.rows().to_vec(), ends(&plate, side)?);
        print!("split {a} to {b}, {:.1} mm: ", length(&plate, a, b));
        plate.split(side)?;
        let [x, y, z] = plate.points()[plate.n() as usize - 1];
        println!("vertex {} at {x:.1} {y:.1} {z:.1}", plate.n());
        print_changes(&before, plate.rows());
    }
    print_plate("refined", &plate)?;

    // A border is split by its side. A refused split leaves everything as it was: one goes on.
    print!("border half-edge 1: ");
    if let Err(refusal) = plate.split(HalfEdge::border(1)) {
        let (first, second) = refusal.place();
        println!("refusal {} at {first},{second}: {}", refusal.number(), refusal.text());
    }
    Ok(())
}

//! Smooths a flat panel of a duct: where the diagonal of two triangles is longer than the other one would be, it is
//! swapped. The panel is drawn as if its seams were upright. They lean to the left, so that the diagonals 3 to 6 and
//! 4 to 7 are long, and plates 3 to 6 are slivers:
//!
//!     5 ----- 6 ----- 7 ----- 8
//!     |  2  / | \  4  | \  6  |
//!     |   /   |   \   |   \   |
//!     | /  1  | 3   \ | 5   \ |
//!     1 ----- 2 ----- 3 ----- 4

use borzhanu::{HalfEdge, OwnedMesh, Refusal, Tables};

const PLATES: [[u32; 4]; 6] = [[1, 2, 6, 0], [1, 6, 5, 0], [2, 3, 6, 0], [3, 7, 6, 0], [3, 4, 7, 0], [4, 8, 7, 0]];

/// In millimetres.
const POINTS: [(i32, i32); 8] = [(0, 0), (100, 0), (200, 0), (300, 0), (0, 80), (60, 80), (120, 80), (200, 80)];

/// From one vertex to another, along x and y.
fn way(a: u32, b: u32) -> (i32, i32) {
    let (from, to) = (POINTS[a as usize - 1], POINTS[b as usize - 1]);
    (to.0 - from.0, to.1 - from.1)
}

fn length(a: u32, b: u32) -> f64 {
    let (x, y) = way(a, b);
    f64::from(x).hypot(f64::from(y))
}

/// Whether three corners run to the left, as those of every plate do.
fn is_left_turn(a: u32, b: u32, c: u32) -> bool {
    let (ahead, aside) = (way(a, b), way(a, c));
    ahead.0 * aside.1 > aside.0 * ahead.1
}

/// The corner of a triangle that isn't on a side of it.
fn third_corner(tables: &Tables, side: HalfEdge) -> Result<u32, Refusal> {
    tables.origin(tables.previous(side)?)
}

fn ends(tables: &Tables, side: HalfEdge) -> Result<(u32, u32), Refusal> {
    Ok((tables.origin(side)?, tables.destination(side)?))
}

fn sides(panel: &OwnedMesh) -> impl Iterator<Item = HalfEdge> {
    (1..=panel.m()).flat_map(|f| [1, 2, 3].map(|i| HalfEdge::side(f, i)))
}

fn edge(a: u32, b: u32) -> String {
    format!("{a} to {b}, {:.1} mm", length(a, b))
}

fn listed(numbers: &[u32]) -> String {
    numbers.iter().map(u32::to_string).collect::<Vec<String>>().join(" ")
}

fn print_panel(when: &str, panel: &OwnedMesh) -> Result<(), Refusal> {
    let (counts, mut longest) = (panel.counts(), (1, 1));
    for side in sides(panel) {
        let (a, b) = ends(panel.tables(), side)?;
        if length(a, b) > length(longest.0, longest.1) {
            longest = (a, b);
        }
    }
    let longest = edge(longest.0, longest.1);
    println!("panel {when}: {} edges, {} on the border, longest {longest}", counts.edges, counts.borders);
    println!("  plates at vertex 3: {}", listed(&panel.tables().ring(3)?));
    Ok(())
}

fn print_refusal(refusal: Refusal) {
    let (first, second) = refusal.place();
    println!("refusal {} at {first},{second}: {}", refusal.number(), refusal.text());
}

/// Whether the other diagonal is shorter. Where the two triangles have a hollow corner it would lie outside them, and one
/// of the new ones would be turned over.
fn is_better(a: u32, b: u32, c: u32, d: u32) -> bool {
    length(c, d) < length(a, b) && is_left_turn(c, a, d) && is_left_turn(d, b, c)
}

/// Swaps the edge of a side where that is better. Each inner edge is looked at once, from its lower side.
fn smooth_side(panel: &mut OwnedMesh, side: HalfEdge) -> Result<bool, Refusal> {
    let tables = panel.tables();
    let partner = tables.opposite(side)?;
    if partner.is_border() || partner < side {
        return Ok(false);
    }
    let (a, b) = ends(tables, side)?;
    let (c, d) = (third_corner(tables, side)?, third_corner(tables, partner)?);
    if !is_better(a, b, c, d) {
        return Ok(false);
    }

    let before = panel.rows().to_vec();
    print!("swap {}", edge(a, b));
    if let Err(refusal) = panel.swap(side) {
        print!(": ");
        print_refusal(refusal);
        return Ok(false);
    }
    println!(", for {}", edge(c, d));
    for (f, (old, new)) in (1..).zip(before.iter().zip(panel.rows())).filter(|(_, (old, new))| old != new) {
        println!("  plate {f}: {} becomes {}", listed(&old[..3]), listed(&new[..3]));
    }
    Ok(true)
}

/// Until no edge can be made shorter: every swap makes all edges together shorter, so this ends.
fn smooth(panel: &mut OwnedMesh) -> Result<(), Refusal> {
    let mut swapped = true;
    while swapped {
        swapped = false;
        for side in sides(panel) {
            swapped |= smooth_side(panel, side)?;
        }
    }
    Ok(())
}

fn main() -> Result<(), Refusal> {
    let mut panel = OwnedMesh::build(8, &PLATES)?;
    print_panel("as meshed", &panel)?;
    smooth(&mut panel)?;
    print_panel("smoothed", &panel)?;

    // The rim of the panel has no other diagonal. A refused swap leaves everything as it was: one goes on.
    print!("edge 1 to 2: ");
    if let Err(refusal) = panel.swap(HalfEdge::side(1, 1)) {
        print_refusal(refusal);
    }
    Ok(())
}

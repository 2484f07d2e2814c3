//! Checks imported housings by one number, vertices - edges + plates. Of a housing of one piece it is 2, less 1 for each
//! opening, the outer rim of a plate included, less 2 for each handle, and 1 more for each vertex that no plate uses. So a
//! drawing says what it must be. The plate with two cable holes:
//!
//!     6 ------------ 5 ------------ 4
//!     | \    3    /  |  \    7    / |
//!     |  10 ---- 9   |  14 --- 13   |
//!     | 4 |      | 2 | 8 |      | 6 |
//!     |   7 ---- 8   |  11 --- 12   |
//!     | /    1    \  |  /    5    \ |
//!     1 ------------ 2 ------------ 3

use borzhanu::{HalfEdge, OwnedMesh, Refusal, Tables, VertexKind};

/// A housing of one piece, and how many openings and handles are drawn.
struct Housing {
    name: &'static str,
    n: u32,
    plates: &'static [[u32; 4]],
    openings: i64,
    handles: i64,
}

const FLAT_PLATE: Housing =
    Housing { name: "flat plate", n: 4, plates: &[[1, 2, 3, 0], [1, 3, 4, 0]], openings: 1, handles: 0 };

const ONE_CABLE_HOLE: Housing = Housing {
    name: "plate with a cable hole",
    n: 8,
    plates: &[[1, 2, 6, 5], [2, 3, 7, 6], [3, 4, 8, 7], [4, 1, 5, 8]],
    openings: 2,
    handles: 0,
};

const TWO_CABLE_HOLES: Housing = Housing {
    name: "plate with two cable holes",
    n: 14,
    plates: &[
        [1, 2, 8, 7],
        [2, 5, 9, 8],
        [5, 6, 10, 9],
        [6, 1, 7, 10],
        [2, 3, 12, 11],
        [3, 4, 13, 12],
        [4, 5, 14, 13],
        [5, 2, 11, 14],
    ],
    openings: 3,
    handles: 0,
};

/// The walls of a duct of square section, whose sections, of four vertices each, are at 1, at 5, at 9 and at 13, from
/// which the last four plates go back to the one at 1.
const WALLS: [[u32; 4]; 16] = [
    [1, 2, 6, 5],
    [2, 3, 7, 6],
    [3, 4, 8, 7],
    [4, 1, 5, 8],
    [5, 6, 10, 9],
    [6, 7, 11, 10],
    [7, 8, 12, 11],
    [8, 5, 9, 12],
    [9, 10, 14, 13],
    [10, 11, 15, 14],
    [11, 12, 16, 15],
    [12, 9, 13, 16],
    [13, 14, 2, 1],
    [14, 15, 3, 2],
    [15, 16, 4, 3],
    [16, 13, 1, 4],
];

const OPEN_DUCT: Housing =
    Housing { name: "duct open at both ends", n: 12, plates: WALLS.split_at(8).0, openings: 2, handles: 0 };

/// Plate 6 is its lid.
const CLOSED_BOX: Housing = Housing {
    name: "closed box",
    n: 8,
    plates: &[[1, 2, 6, 5], [2, 3, 7, 6], [3, 4, 8, 7], [4, 1, 5, 8], [1, 4, 3, 2], [5, 6, 7, 8]],
    openings: 0,
    handles: 0,
};

const RING_DUCT: Housing = Housing { name: "ring duct", n: 16, plates: &WALLS, openings: 0, handles: 1 };

/// Prints what the number tells of a mesh of this housing, and what is drawn where that is something else. A missing plate
/// and a spare vertex cancel in the number, so openings, handles and spare vertices are compared as well.
fn check(name: &str, tables: &Tables, drawn: &Housing) {
    let (mesh, number) = (tables.mesh(), tables.shape());
    let openings = i64::from(tables.holes().count());
    let is_spare = |&v: &u32| tables.vertex_kind(v) == Ok(VertexKind::Unused);
    let spare = (1..=mesh.n()).filter(is_spare).count() as i64;
    let handles = (2 - openings + spare - number) / 2;
    println!(
        "{name}: {} vertices, {} edges, {} plates, number {number}: openings {openings}, handles {handles}, \
         spare vertices {spare}",
        mesh.n(),
        tables.counts().edges,
        mesh.elements().len() / 4
    );
    let drawn_number = 2 - drawn.openings - 2 * drawn.handles;
    if (number, openings, handles, spare) != (drawn_number, drawn.openings, drawn.handles, 0) {
        println!("  drawn: number {drawn_number}, openings {}, handles {}", drawn.openings, drawn.handles);
    }
}

/// The flat plate refined at its diagonal, from 3 to 1.
fn check_split() -> Result<(), Refusal> {
    let corners = [[0.0, 0.0, 0.0], [80.0, 0.0, 0.0], [80.0, 60.0, 0.0], [0.0, 60.0, 0.0]];
    let mut plate = OwnedMesh::with_points(&corners, FLAT_PLATE.plates)?;
    plate.split(HalfEdge::side(1, 3))?;
    check("flat plate, diagonal split", plate.tables(), &FLAT_PLATE);
    Ok(())
}

fn main() -> Result<(), Refusal> {
    for housing in [FLAT_PLATE, ONE_CABLE_HOLE, TWO_CABLE_HOLES, OPEN_DUCT, CLOSED_BOX, RING_DUCT] {
        check(housing.name, &Tables::build(housing.n, housing.plates)?, &housing);
    }
    let plates = CLOSED_BOX.plates;
    check("closed box without plate 6", &Tables::build(8, &plates[..5])?, &CLOSED_BOX);
    check("closed box with vertex 9", &Tables::build(9, plates)?, &CLOSED_BOX);
    check("closed box without plate 6, with vertex 9", &Tables::build(9, &plates[..5])?, &CLOSED_BOX);
    check_split()
}

//! A stiffened housing: a panel of four plates, and a rib of two that stands on its middle seam. Prints the edges where
//! three plates or more meet.
//!
//!     7 --- 8 --- 9
//!     |  3  |  4  |
//!     4 --- 5 --- 6      the rib's upper vertices are 10, 11 and 12, above 4, 5 and 6
//!     |  1  |  2  |
//!     1 --- 2 --- 3

use borzhanu::{Refusal, Siblings, Tables};

fn main() -> Result<(), Refusal> {
    let rows = [
        // the panel
        [1, 2, 5, 4],
        [2, 3, 6, 5],
        [4, 5, 8, 7],
        [5, 6, 9, 8],
        // the rib
        [4, 5, 11, 10],
        [5, 6, 12, 11],
    ];
    // Half-edges in pairs need at most two plates at an edge.
    if let Err(refusal) = Tables::build(12, &rows) {
        let (element, side) = refusal.place();
        println!("build: refusal {} at {element},{side}: {}", refusal.number(), refusal.text());
    }

    let siblings = Siblings::build(12, &rows)?;
    for side in siblings.edges() {
        let plates: Vec<String> = siblings.plates(side)?.map(|plate| plate.to_string()).collect();
        if plates.len() >= 3 {
            let (from, to) = (siblings.origin(side)?, siblings.destination(side)?);
            println!("edge {from} to {to}: plates {}", plates.join(" "));
        }
    }
    Ok(())
}

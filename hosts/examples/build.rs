//! Builds the tables of a small mesh, prints them, and walks about its inner vertex.

use borzhanu::{HalfEdge, Refusal, Tables};

fn print_half_edges(name: &str, codes: &[u32]) {
    print!("{name}");
    for &code in codes {
        let (whole, number) = HalfEdge::from_code(code).numbers();
        print!(" <{whole},{number}>");
    }
    println!();
}

fn main() -> Result<(), Refusal> {
    let rows = [
        [1, 4, 5, 0],
        [1, 5, 2, 0],
        [2, 5, 3, 0],
        [3, 5, 6, 0],
        [6, 5, 9, 0],
        [8, 9, 5, 0],
        [7, 8, 5, 0],
        [5, 4, 7, 0],
    ];
    let tables = Tables::build(9, &rows)?;
    let (mesh, counts) = (tables.mesh(), tables.counts());
    println!("{} edges, {} on the border", counts.edges, counts.borders);
    print_half_edges("V2e", mesh.v2e());
    for entries in mesh.e2e().chunks(mesh.columns() as usize) {
        print_half_edges("E2e", entries);
    }
    print_half_edges("B2e", mesh.b2e());

    print!("elements about vertex 5:");
    for element in tables.walk(5)? {
        print!(" {}", element?);
    }
    println!();
    Ok(())
}

//! Reads OFF files and says of each what building finds: edges, borders, openings, and vertices that no face uses.
//!
//!     read FILE..

use borzhanu::{Off, Refusal};
use std::env;
use std::fs;
use std::process::ExitCode;

fn describe(name: &str, text: &[u8]) -> Result<(), Refusal> {
    let off = Off::read(text)?;
    println!("{name}: {} vertices, {} faces", off.n(), off.rows().len());

    let tables = off.tables()?;
    let (counts, openings) = (tables.counts(), tables.holes().count());
    print!("  {} edges, {} on the border, openings {openings}", counts.edges, counts.borders);
    let spare = tables.mesh().v2e().iter().filter(|&&entry| entry == 0).count();
    if spare != 0 {
        print!(", spare vertices {spare}");
    }
    println!();
    Ok(())
}

fn print_refusal(name: &str, refusal: Refusal) {
    let part = match refusal {
        Refusal::OffUnfit { line } => format!(", line {line}"),
        Refusal::FaceUnfit { face } => format!(", face {face}"),
        _ => String::new(),
    };
    let (first, second) = refusal.place();
    println!("{name}{part}: refusal {} at {first},{second}: {}", refusal.number(), refusal.text());
}

fn main() -> ExitCode {
    let names: Vec<String> = env::args().skip(1).collect();
    if names.is_empty() {
        eprintln!("usage: read FILE..");
    }
    let mut all_read = !names.is_empty();
    for name in &names {
        match fs::read(name) {
            Ok(text) => describe(name, &text).unwrap_or_else(|refusal| print_refusal(name, refusal)),
            Err(why) => {
                eprintln!("{name} can't be read: {why}");
                all_read = false;
            }
        }
    }
    if all_read {
        ExitCode::SUCCESS
    } else {
        ExitCode::FAILURE
    }
}

//! Times the reading of OFF files.

use crate::readers::{read_by_scanning, read_by_splitting, Rows};
use crate::{grid_100_000, median, rims_100_000, timed, LARGE_ROUNDS, ROUNDS};
use borzhanu::{read_off, Refusal, Size};
use hosts::meshes::{corners_of, Dice, List};
use hosts::reference::Refused;
use std::fmt::Write;
use std::hint::black_box;

/// From here on a text has fewer runs.
const LARGE: usize = 10_000_000;

/// A text with six digits after each point, and what ends its lines.
fn text_of(list: &List, line_end: &str, dice: &mut Dice) -> String {
    let mut text = format!("OFF{line_end}{} {} 0{line_end}", list.n, list.rows.len());
    for _ in 0..list.n {
        let [x, y, z] = [(); 3].map(|()| f64::from(dice.below(1_000_000_000)) * 1e-6 - 500.0);
        write!(text, "{x:.6} {y:.6} {z:.6}{line_end}").expect("a string takes all");
    }
    for row in &list.rows {
        let corners = &row[..corners_of(row)];
        write!(text, "{}", corners.len()).expect("a string takes all");
        corners.iter().for_each(|v| write!(text, " {}", v - 1).expect("a string takes all"));
        text += line_end;
    }
    text
}

fn texts(dice: &mut Dice) -> Vec<(&'static str, String)> {
    let (triangles, quadrilaterals) = (rims_100_000(dice), grid_100_000(dice));
    vec![
        ("100,000 triangles", text_of(&triangles, "\n", dice)),
        ("100,000 quadrilaterals", text_of(&quadrilaterals, "\n", dice)),
        ("the triangles with comments and CR LF", text_of(&triangles, " # a comment\r\n", dice)),
        ("1,000,000 vertices, each 0 0 0", format!("OFF\n1000000 0 0\n{}", "0 0 0\n".repeat(1_000_000))),
        ("10,000,000 blanks", " ".repeat(LARGE)),
        ("10,000,000 newlines", "\n".repeat(LARGE)),
        ("one comment of 10,000,000 bytes", "#".repeat(LARGE)),
    ]
}

/// Reads the text, so that it is as far in caches for each of its readers.
fn read_through(text: &[u8]) {
    black_box(black_box(text).iter().map(|&byte| u64::from(byte)).sum::<u64>());
}

fn flattened((n, rows): &Rows) -> (u32, &[u32]) {
    (*n, rows.as_flattened())
}

/// All three read the same; or nothing, and the scanner gives the kernel's refusal.
fn check(answer: Result<Size, Refusal>, elements: &[u32], split: &Option<Rows>, scanned: &Result<Rows, Refused>) {
    let read = answer.ok().map(|Size { n, m }| (n, &elements[..4 * m as usize]));
    assert!(read == split.as_ref().map(flattened) && read == scanned.as_ref().ok().map(flattened));
    let refused = answer.err().map(|refusal| (refusal.number(), refusal.place().0, refusal.place().1));
    assert_eq!(scanned.as_ref().err(), refused.as_ref());
}

/// What the kernel answers, and medians of the milliseconds of its reading, of splitting and of scanning, runs interleaved.
fn read_times(text: &[u8]) -> (Result<Size, Refusal>, [f64; 3]) {
    // Four entries for every eight bytes, which is the least that a face has.
    let mut elements = vec![1; text.len() / 2];
    let [mut kernel, mut splitting, mut scanning] = [(); 3].map(|()| Vec::new());
    for _ in 0..if text.len() < LARGE { ROUNDS } else { LARGE_ROUNDS } {
        read_through(text);
        let answer = timed(&mut kernel, || read_off(text, &mut elements));
        read_through(text);
        let split = timed(&mut splitting, || read_by_splitting(text));
        read_through(text);
        let scanned = timed(&mut scanning, || read_by_scanning(text));
        check(answer, &elements, &split, &scanned);
    }
    (read_off(text, &mut elements), [kernel, splitting, scanning].map(|times| median(&times)))
}

pub fn print_off(dice: &mut Dice) {
    println!("## OFF files\n");
    println!("Millions of bytes of text a second of processor time, by medians of {ROUNDS} interleaved runs, or of");
    println!("{LARGE_ROUNDS} with ten million bytes, and ratios of the kernel's time to the other's. The text is read");
    println!("through before each run, untimed. The kernel's list holds what the run before left, and nothing is");
    println!(
        "cleared first; its time includes all checks, the text being judged whole before anything is written. The"
    );
    println!("others put the rows into a vector that is made anew in every run, with room reserved. Split at white");
    println!("space is Rust's `split_ascii_whitespace` of each line up to its comment and `str::parse` of the numbers");
    println!("that are kept; coordinates are passed over, and hardly anything is checked. The scanner goes once over");
    println!("the bytes and checks what the kernel checks.\n");
    println!("| text | MB | outcome | read_off | split at white space | ratio | scanner | ratio |");
    println!("|---|---|---|---|---|---|---|---|");
    for (name, text) in texts(dice) {
        let megabytes = text.len() as f64 * 1e-6;
        let (answer, [kernel, splitting, scanning]) = read_times(text.as_bytes());
        let outcome = match answer {
            Ok(Size { n, m }) => format!("n = {n}, m = {m}"),
            Err(refusal) => format!("refused {} at {},0", refusal.number(), refusal.place().0),
        };
        let [read, split, scanned] = [kernel, splitting, scanning].map(|time| megabytes * 1e3 / time);
        println!(
            "| {name} | {megabytes:.1} | {outcome} | {read:.0} | {split:.0} | {:.2} | {scanned:.0} | {:.2} |",
            kernel / splitting,
            kernel / scanning
        );
    }
    println!();
}

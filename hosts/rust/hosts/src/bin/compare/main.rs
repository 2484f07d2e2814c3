//! Compares every call of the safe wrapper with the reference, on inputs of every kind: answers, refusals,
//! places, and each entry of each buffer afterwards. Queries are also asked without the wrapper, told the columns of
//! E2e rightly, wrongly and not at all. Every call is made twice, once with the end of each buffer at a page that
//! faults when touched and once with its start.
//!
//!     compare [SEED]

mod call;
mod clashes;
mod contracts;
mod edits;
mod holes;
mod host;
mod lengths;
mod numbers;
mod off;
mod rooms;
mod runs;
mod shapes;
mod siblings;
mod splits;
mod swaps;

use borzhanu::{MAX_ELEMENTS, MAX_VERTICES};
use call::Query;
use clashes::{clashes, large_clashes};
use contracts::{contract_edges, large_contractions};
use holes::{compare_holes, holes, large_holes};
use host::{Host, Tables};
use hosts::meshes::{any_housing, book, damage, fan, pillow, sheet, Kinds, List};
use lengths::{about_the_largest, lengths};
use off::{large_off_texts, off_texts};
use shapes::{large_shapes, shapes};
use siblings::{large_siblings, siblings};
use splits::{large_splits, split_edges};
use std::env;
use std::mem;
use std::time::Instant;
use swaps::{large_swaps, swap_diagonals};

const SEED: u64 = 20_240_229;

type Family = (&'static str, fn(&mut Host));

/// The row whose corners are the digits of a number.
fn digits(number: u32, values: u32) -> [u32; 4] {
    [3, 2, 1, 0].map(|place| number / values.pow(place) % values)
}

fn one_row(host: &mut Host) {
    for n in 0..=4u32 {
        for number in 0..(n + 2).pow(4) {
            host.try_small_list(&List::new(n, &[digits(number, n + 2)]));
        }
    }
}

fn is_fit(row: &[u32; 4]) -> bool {
    row[..3].iter().all(|&v| v != 0) && (1..4).all(|at| !row[..at].contains(&row[at]))
}

/// All pairs of fit rows on three vertices, one in three on four, some on five and six; as many pairs of any rows.
fn two_rows(host: &mut Host) {
    for n in 3..=6u32 {
        let fit: Vec<[u32; 4]> = (0..(n + 1).pow(4)).map(|number| digits(number, n + 1)).filter(is_fit).collect();
        for (a, b) in fit.iter().flat_map(|a| fit.iter().map(move |b| (a, b))) {
            if host.dice.once_in([1, 3, 90, 640][n as usize - 3]) {
                host.try_small_list(&List::new(n, &[*a, *b]));
                let any = [0; 2].map(|_| digits(host.dice.number(), n + 2));
                host.try_small_list(&List::new(n, &any));
            }
        }
    }
}

/// Lists of no row; and beside the E2e of one element, every V2e of three to five codes that could be meant.
fn unused_vertices(host: &mut Host) {
    for n in 0..40 {
        host.try_small_list(&List::new(n, &[]));
    }
    let codes = [0, 8, 16, 24, 32, 9, 12];
    for n in 3..=5 {
        for number in 0..7u32.pow(n) {
            let v2e: Vec<u32> = (0..n).map(|place| codes[(number / 7u32.pow(place) % 7) as usize]).collect();
            host.compare_recovery(n, 1, &v2e, &[8, 16, 24], 0);
            host.compare_recovery(n, 1, &v2e, &[8, 16, 24, 0], 0);
            host.compare_recovery(n, 1, &v2e, &[8, 16, 24, 32], 0);
        }
    }
}

/// Contents of V2e and E2e of two elements on three to five vertices, out of the codes that could be meant.
fn small_tables(host: &mut Host) {
    let codes = [0, 8, 16, 24, 32, 9, 10, 11, 12, 17, 18, 19, 20];
    for _ in 0..60_000 {
        let n = 3 + host.dice.below(3);
        let columns = 3 + host.dice.below(2);
        let mut table = |len: u32| -> Vec<u32> { (0..len).map(|_| codes[host.dice.below(13) as usize]).collect() };
        let (v2e, mut e2e) = (table(n), table(2 * columns));
        if columns == 4 && host.dice.once_in(2) {
            e2e[[3, 7][host.dice.below(2) as usize]] = 0;
        }
        host.compare_recovery(n, 2, &v2e, &e2e, 0);
    }
}

/// Entries that are V2e and E2e of triangles apart, four to a dozen, and of quadrilaterals apart, three to a dozen; then
/// such entries with a slip.
fn tables_in_common(host: &mut Host) {
    for dozens in 1..=6 {
        let entries: Vec<u32> = (1..=12 * dozens).map(borzhanu::border).collect();
        let n = 12 * dozens;
        let triangles = (0..4 * dozens).map(|f| 3 * f).map(|v| [v + 3, v + 1, v + 2, 0]).collect();
        let quadrilaterals = (0..3 * dozens).map(|f| 4 * f).map(|v| [v + 4, v + 1, v + 2, v + 3]).collect();
        for list in [List { n, rows: triangles }, List { n, rows: quadrilaterals }] {
            let m = list.rows.len() as u32;
            let recovered = host.compare_recovery(n, m, &entries, &entries, 0).left.elements;
            assert_eq!(recovered.as_deref(), Some(list.entries()));
            host.try_list(&list, 2);
        }
        for _ in 0..300 {
            let (mut v2e, mut e2e) = (entries.clone(), entries.clone());
            damage(&mut v2e, 8 * n, &mut host.dice);
            if host.dice.once_in(2) {
                damage(&mut e2e, 8 * n, &mut host.dice);
            }
            host.compare_recovery(n, 4 * dozens, &v2e, &e2e, 0);
            host.compare_recovery(n, 3 * dozens, &v2e, &e2e, 0);
        }
    }
}

/// Tables and lists of noise, near to codes.
fn noise_tables(host: &mut Host) {
    for _ in 0..3000 {
        let (n, m, columns) = (1 + host.dice.below(6), host.dice.below(7), 3 + host.dice.below(2));
        let k = host.dice.below(4 * m + 1);
        let mut code = |borders: u32| -> u32 {
            if host.dice.once_in(borders) {
                8 * host.dice.below(k + 2)
            } else {
                host.dice.below(8 * m + 16)
            }
        };
        let mut v2e: Vec<u32> = (0..n).map(|_| code(2)).collect();
        let e2e = (0..columns * m).map(|_| code(3)).collect();
        let b2e = (0..k).map(|_| code(20)).collect();
        let mut elements: Vec<u32> = (0..4 * m).map(|_| host.dice.below(n + 2)).collect();
        if columns == 3 {
            elements.chunks_mut(4).for_each(|row| row[3] = 0);
        }
        if host.dice.once_in(2) {
            v2e[host.dice.below(n) as usize] = 0;
        }
        let tables = Tables { n, elements, v2e, e2e, b2e, told: None };
        host.ask_something(&tables, 4);
        host.ask_told(&tables);
        host.ask_told(&tables);
        host.recover(&tables);
    }
}

fn small_housings(host: &mut Host) {
    for _ in 0..400 {
        let list = any_housing(&mut host.dice, 12);
        host.try_small_list(&list);
    }
}

fn housings(host: &mut Host) {
    for _ in 0..400 {
        let list = any_housing(&mut host.dice, 300);
        host.try_list(&list, 12);
    }
}

fn large_housings(host: &mut Host) {
    for size in [1_000, 3_000, 10_000, 30_000, 100_000] {
        let list = any_housing(&mut host.dice, size);
        host.try_list(&list, 1);
    }
    let dice = &mut host.dice;
    let list = sheet(250, 200, (true, false), Kinds::Triangles, dice).shuffled(dice).renumbered(dice).rotated(dice);
    host.try_list(&list, 1);
    let list = list.damaged(&mut host.dice);
    host.try_list(&list, 1);
    let dice = &mut host.dice;
    let list = pillow(100, 50, Kinds::Mixed, dice).shuffled(dice).renumbered(dice).rotated(dice);
    host.try_list(&list, 1);
}

/// B2e may have four entries to an element, in three columns too, and no more.
fn longest_b2e(host: &mut Host, tables: &Tables) {
    let noise = mem::take(&mut host.noise);
    let longest = tables.elements.len();
    for len in longest..=longest + 1 {
        for b in longest as u32..=longest as u32 + 1 {
            let mut call = tables.query(host.any_way(), Query::Opposite(borzhanu::border(b)), &[]);
            call.b2e = &noise[..len];
            host.compare(&call);
        }
    }
    host.noise = noise;
}

fn largest_sheet(host: &mut Host) {
    let list = sheet(1000, 1000, (true, true), Kinds::Quadrilaterals, &mut host.dice);
    let tables = host.build(&list).expect("a closed sheet is accepted");
    host.compare_recovery(tables.n, MAX_ELEMENTS, &tables.v2e, &tables.e2e, 0);
    host.ask(&tables, Query::Opposite(borzhanu::side(MAX_ELEMENTS, 4)));
    host.ask(&tables, Query::Next(borzhanu::side(MAX_ELEMENTS, 4)));
    host.ask(&tables, Query::Next(borzhanu::side(MAX_ELEMENTS + 1, 1)));
    host.ask_walker(&tables, MAX_VERTICES);
    longest_b2e(host, &tables);
}

fn largest_fan(host: &mut Host) {
    let tables = host.build(&fan(MAX_ELEMENTS - 1, true)).expect("a fan is accepted");
    host.ask(&tables, Query::Opposite(borzhanu::side(MAX_ELEMENTS - 1, 3)));
    host.ask_list(&tables, Query::Ring(1));
    host.ask_list(&tables, Query::BorderLoop(tables.b2e.len() as u32));
    compare_holes(host, &tables);
    longest_b2e(host, &tables);
}

/// The most vertices, with no element or with one: in front, spread out, at the end, or unfit.
fn mostly_unused(host: &mut Host) {
    let n = MAX_VERTICES;
    let (front, spread, end) = ([1, 2, 3, 0], [n, 1, n / 2, 0], [n - 3, n - 2, n - 1, n]);
    let (too_high, twice) = ([1, 2, n + 1, 0], [n, 1, n, 0]);
    for rows in [&[][..], &[front], &[spread], &[end], &[too_high], &[twice]] {
        host.try_list(&List::new(n, rows), 2);
    }
    let tables = host.build(&List::new(n, &[spread])).expect("one triangle is accepted");
    for v in [1, 2, n / 2, n / 2 + 1, n - 1, n, n + 1] {
        host.ask_vertex(&tables, v);
    }
}

fn largest(host: &mut Host) {
    let most = MAX_ELEMENTS;
    largest_sheet(host);
    largest_fan(host);
    host.build(&book(most, most));
    large_clashes(host);
    large_siblings(host);
    large_holes(host);
    large_shapes(host);
    large_off_texts(host);
    large_swaps(host);
    large_splits(host);
    large_contractions(host);
    mostly_unused(host);
    about_the_largest(host);
}

fn main() {
    let seed = env::args().nth(1).map_or(SEED, |word| word.parse().expect("SEED is a number"));
    let start = Instant::now();
    let mut host = Host::new(seed);
    println!("seed {seed}");
    let families: [Family; 19] = [
        ("lists of one row", one_row),
        ("lists of two rows", two_rows),
        ("unused vertices", unused_vertices),
        ("tables of two elements", small_tables),
        ("tables in common", tables_in_common),
        ("tables of noise", noise_tables),
        ("lengths", lengths),
        ("elements that clash", clashes),
        ("edges of many plates", siblings),
        ("holes", holes),
        ("shapes", shapes),
        ("OFF texts", off_texts),
        ("swapped diagonals", swap_diagonals),
        ("split edges", split_edges),
        ("contracted edges", contract_edges),
        ("small housings", small_housings),
        ("housings", housings),
        ("large housings", large_housings),
        ("the largest sizes", largest),
    ];
    for (name, run) in families {
        let (calls, began) = (host.situation.calls, Instant::now());
        host.situation.family = name;
        run(&mut host);
        let seconds = began.elapsed().as_secs_f64();
        println!("  {name:24} {:9} calls  {seconds:6.1} s", host.situation.calls - calls);
    }
    let seconds = start.elapsed().as_secs_f64();
    println!("Rust host: {} calls compared, all alike, seed {seed}, {seconds:.1} s", host.situation.calls);
}

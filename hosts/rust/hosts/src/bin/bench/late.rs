//! Refusals that are found late: sound lists followed by an element that is at fault, or by two.

use crate::{grid_100_000, median, rims_100_000, shuffled, Kernel, ROUNDS};
use hosts::meshes::{corners_of, Dice, List};
use std::collections::HashMap;

/// So many vertices are there for the elements at fault, and no other element uses them.
const SPARE: usize = 4;

/// A side, by element and number, from its first vertex to its second.
#[derive(Clone, Copy)]
struct Side {
    place: (u32, u32),
    ends: (u32, u32),
}

fn sides(list: &List) -> impl Iterator<Item = Side> + '_ {
    (1..).zip(&list.rows).flat_map(|(f, row)| {
        let corners = corners_of(row);
        (0..corners).map(move |i| Side { place: (f, i as u32 + 1), ends: (row[i], row[(i + 1) % corners]) })
    })
}

/// Where a sound list can be spoilt as late as can be.
struct Sites {
    /// vertices of no element
    spare: [u32; SPARE],
    /// the first side of an inner edge: the greatest of these
    inner: Side,
    /// the greatest side of a border
    border: Side,
    /// the greatest vertex that has elements all around it
    surrounded: u32,
}

impl Sites {
    fn of(list: &List) -> Sites {
        let mut edges: HashMap<(u32, u32), (Side, usize)> = HashMap::new();
        for side @ Side { ends: (a, b), .. } in sides(list) {
            edges.entry((a.min(b), a.max(b))).or_insert((side, 0)).1 += 1;
        }
        let firsts = |count| edges.values().filter(move |edge| edge.1 == count).map(|edge| edge.0);
        let last = |count| firsts(count).max_by_key(|side| side.place).expect("there are inner edges and a border");
        let [mut is_used, mut is_on_border] = [(); 2].map(|()| vec![false; list.n as usize + 1]);
        list.entries().iter().for_each(|&v| is_used[v as usize] = true);
        firsts(1).for_each(|side| [side.ends.0, side.ends.1].iter().for_each(|&v| is_on_border[v as usize] = true));
        let unused: Vec<u32> = (1..=list.n).filter(|&v| !is_used[v as usize]).collect();
        let is_surrounded = |&v: &u32| is_used[v as usize] && !is_on_border[v as usize];
        Sites {
            spare: unused.try_into().expect("the spare vertices are the unused ones"),
            inner: last(2),
            border: last(1),
            surrounded: (1..=list.n).rev().find(is_surrounded).expect("there are inner vertices"),
        }
    }
}

/// A list that is refused, and the number and the place that the refusal has to have.
struct Fault {
    what: &'static str,
    list: List,
    number: u32,
    place: (u32, u32),
}

/// The list with each fault at its end, in elements of as many corners as its others.
fn faults(sound: &List) -> Vec<Fault> {
    let Sites { spare, inner, border, surrounded } = Sites::of(sound);
    let (corners, next) = (corners_of(&sound.rows[0]), sound.rows.len() as u32 + 1);
    let element = |fixed: &[u32]| -> [u32; 4] {
        let mut row = [fixed, &spare].concat();
        row.truncate(corners);
        row.resize(4, 0);
        row.try_into().expect("four entries")
    };
    let along = |side: Side| element(&[side.ends.0, side.ends.1]);
    let [front, mut back, mut unfit] = [element(&[]); 3];
    back[..corners].reverse();
    unfit[corners - 1] = sound.n + 1;
    let fault = |what, rows: &[[u32; 4]], number, place| {
        let list = List::new(sound.n, &[&sound.rows, rows].concat());
        Fault { what, list, number, place }
    };
    vec![
        fault("crowded edge", &[along(inner)], 6, inner.place),
        fault("sides alike", &[along(border)], 7, border.place),
        fault("broken fan", &[element(&[surrounded])], 8, (surrounded, 0)),
        fault("clash", &[front, back], 18, (next, next + 1)),
        fault("unfit corner", &[unfit], 3, (next, corners as u32)),
    ]
}

/// Medians of the milliseconds of a build of the sound list, and of each of those with a fault, runs interleaved.
fn late_times(sound: &List, faults: &[Fault]) -> (f64, Vec<f64>) {
    let mut kernel = Kernel::new(sound);
    let mut kernels: Vec<Kernel> = faults.iter().map(|fault| Kernel::new(&fault.list)).collect();
    let (mut build, mut refused) = (Vec::new(), vec![Vec::new(); faults.len()]);
    for _ in 0..ROUNDS {
        kernel.timed_build(&mut build).expect("the list is accepted");
        for ((fault, kernel), times) in faults.iter().zip(&mut kernels).zip(&mut refused) {
            let refusal = kernel.timed_build(times).expect_err("the list is refused");
            assert_eq!((refusal.number(), refusal.place()), (fault.number, fault.place));
        }
    }
    (median(&build), refused.iter().map(|times| median(times)).collect())
}

/// Lists with spare vertices, in order and shuffled.
fn sound_lists(dice: &mut Dice) -> Vec<(&'static str, List)> {
    let with_spare = |list: List| {
        let n = list.n;
        list.with_unused(n, SPARE as u32)
    };
    let (rims, grid) = (with_spare(rims_100_000(dice)), with_spare(grid_100_000(dice)));
    vec![
        ("triangles with rims, in order", rims.clone()),
        ("triangles with rims, shuffled", shuffled(rims, dice)),
        ("grid of quadrilaterals, in order", grid.clone()),
        ("grid of quadrilaterals, shuffled", shuffled(grid, dice)),
    ]
}

pub fn print_late_refusals(dice: &mut Dice) {
    println!("## Refusals found late\n");
    println!(
        "Lists of 100,000 elements with four vertices to spare, which no element uses, and the same lists with an"
    );
    println!("element at fault in the end: a third one on an edge (6), one beside a border and in the same direction");
    println!("(7), one that has nothing but a vertex in common with the elements all around it (8), one with a corner");
    println!(
        "above n (3); and with two in the end that have the same corners in opposite directions (18). Their other"
    );
    println!(
        "corners are the spare ones. The fault is at the last place that the list has for it: the inner edge whose"
    );
    println!(
        "first side comes last, the last side of a border, the greatest inner vertex. Where the list is shuffled,"
    );
    println!("all vertices are renumbered, and elements at fault stay last.\n");
    println!(
        "Milliseconds of processor time, medians of {ROUNDS} interleaved runs, each list with buffers of its own,"
    );
    println!("which hold what the run before left; tables and list are read through before each run, as in the first");
    println!("table. Nothing is cleared first; the time of a build and of a refusal includes clearing the work buffer");
    println!("at the end. The ratio is of the refusal to the build.\n");
    println!("| list | fault | refused | build without the fault | refusal | ratio |");
    println!("|---|---|---|---|---|---|");
    for (name, sound) in sound_lists(dice) {
        let faults = faults(&sound);
        let (build, refused) = late_times(&sound, &faults);
        for (Fault { what, number, place, .. }, time) in faults.iter().zip(refused) {
            let ratio = time / build;
            println!("| {name} | {what} | {number} at {},{} | {build:.2} | {time:.2} | {ratio:.2} |", place.0, place.1);
        }
    }
    println!();
}

//! Times building, recovery, rings, siblings, holes, shape, swaps, splits, contractions and the reading of OFF files, and
//! other means beside them, and prints tables in Markdown.
//!
//!     bench [FOLDER]               with a folder, also writes lists of triangles to FOLDER/build and FOLDER/holes, for
//!                                  bench_cpp
//!     bench --building [FOLDER]    only what is about building, and FOLDER/build
//!
//! Runs are interleaved and medians reported, so that a slow moment of the machine meets every candidate.
//! All buffers are allocated and touched before the first run and used again in every run.

mod hash_maps;
mod late;
mod off;
mod readers;

use borzhanu::{
    build, columns, contract, recover, shape, siblings, split, work_length, Counts, HalfEdge, Mesh, OwnedMesh, Refusal,
    Size,
};
use hash_maps::{ends, hash_map_build, hash_map_holes, hash_map_siblings, hash_set_shape, FastHasher};
use hosts::meshes::{book, fan, sheet, Dice, Kinds, List};
use hosts::raw::taken_apart;
use hosts::reference::View;
use hosts::told;
use late::print_late_refusals;
use off::print_off;
use std::collections::hash_map::RandomState;
use std::env;
use std::fs;
use std::hash::BuildHasher;
use std::hint::black_box;
use std::io;
use std::path::Path;

const SEED: u64 = 1;
const ROUNDS: usize = 21;
const LARGE_ROUNDS: usize = 7;
const GROWTH_ROUNDS: usize = 5;

/// The heads of the columns about hash-map builds.
const MAPS: &str = "standard hash map | ratio | fast hash map | ratio";

/// The tables that a build writes, E2e in so many columns.
struct Tables {
    columns: usize,
    v2e: Vec<u32>,
    e2e: Vec<u32>,
    b2e: Vec<u32>,
}

/// A list and the buffers of the kernel's build.
struct Kernel<'a> {
    list: &'a List,
    tables: Tables,
    work: Vec<u32>,
}

/// Buffers for the other calls too, and for the builds by hash maps.
struct Bench<'a> {
    kernel: Kernel<'a>,
    standard: Tables,
    fast: Tables,
    recovered: Vec<u32>,
    ring: Vec<u32>,
}

/// Milliseconds of each run.
#[derive(Default)]
struct Times {
    build: Vec<f64>,
    standard: Vec<f64>,
    fast: Vec<f64>,
    recovery: Vec<f64>,
    rings: Vec<f64>,
}

#[repr(C)]
#[derive(Default)]
struct Timespec {
    seconds: i64,
    nanoseconds: i64,
}

extern "C" {
    fn clock_gettime(clock: i32, time: *mut Timespec) -> i32;
}

/// Linux's number for the processor time of this thread, which other programs of the machine don't lengthen.
const CLOCK_THREAD_CPUTIME_ID: i32 = 3;

fn milliseconds() -> f64 {
    let mut time = Timespec::default();
    // SAFETY: the call fills the two numbers.
    assert!(unsafe { clock_gettime(CLOCK_THREAD_CPUTIME_ID, &mut time) } == 0, "no clock of this thread");
    time.seconds as f64 * 1e3 + time.nanoseconds as f64 * 1e-6
}

/// Medians, in a unit of so many milliseconds.
struct Medians {
    build: f64,
    standard: f64,
    fast: f64,
    recovery: f64,
    rings: f64,
}

impl Times {
    fn medians(&self, unit: f64) -> Medians {
        let median = |times: &[f64]| median(times) / unit;
        Medians {
            build: median(&self.build),
            standard: median(&self.standard),
            fast: median(&self.fast),
            recovery: median(&self.recovery),
            rings: median(&self.rings),
        }
    }
}

fn timed<T>(times: &mut Vec<f64>, run: impl FnOnce() -> T) -> T {
    let start = milliseconds();
    let result = black_box(run());
    times.push(milliseconds() - start);
    result
}

fn median(times: &[f64]) -> f64 {
    let mut sorted = times.to_vec();
    sorted.sort_by(f64::total_cmp);
    sorted[sorted.len() / 2]
}

/// Reads the tables of the call that is timed next, and then the list, so that they are as far in caches for it as for
/// any other, whatever was called before.
fn read_through(tables: &Tables, list: &List) {
    for numbers in [&tables.v2e[..], &tables.e2e, &tables.b2e, list.entries()] {
        black_box(black_box(numbers).iter().map(|&number| u64::from(number)).sum::<u64>());
    }
}

impl Tables {
    fn new(list: &List) -> Tables {
        let columns = columns(list.n, list.entries()).expect("the list is small enough") as usize;
        let (n, m) = (list.n as usize, list.rows.len());
        Tables { columns, v2e: vec![1; n], e2e: vec![1; columns * m], b2e: vec![1; n.min(4 * m)] }
    }

    fn hash_map_build<S: BuildHasher + Default>(&mut self, list: &List) -> (u32, u32) {
        hash_map_build::<S>(self.columns, list.entries(), &mut self.v2e, &mut self.e2e, &mut self.b2e)
    }
}

impl<'a> Kernel<'a> {
    fn new(list: &'a List) -> Kernel<'a> {
        Kernel { list, tables: Tables::new(list), work: vec![1; work_length(list.n, list.rows.len())] }
    }

    fn build(&mut self) -> Result<(u32, u32), Refusal> {
        let Tables { v2e, e2e, b2e, .. } = &mut self.tables;
        build(self.list.n, self.list.entries(), v2e, e2e, b2e, &mut self.work)
            .map(|counts| (counts.borders, counts.edges))
    }

    fn timed_build(&mut self, times: &mut Vec<f64>) -> Result<(u32, u32), Refusal> {
        read_through(&self.tables, self.list);
        timed(times, || self.build())
    }
}

impl<'a> Bench<'a> {
    fn new(list: &'a List) -> Bench<'a> {
        let m = list.rows.len();
        Bench {
            kernel: Kernel::new(list),
            standard: Tables::new(list),
            fast: Tables::new(list),
            recovered: vec![1; 4 * m],
            ring: vec![1; m],
        }
    }

    fn recover(&mut self) {
        let Kernel { list, tables: Tables { v2e, e2e, .. }, work } = &mut self.kernel;
        recover(list.n, list.rows.len() as u32, v2e, e2e, &mut self.recovered, work).expect("tables as built");
    }

    /// The ring of every vertex of a mesh that is put together for it; gives the sum of their lengths.
    fn rings(&mut self, k: u32) -> usize {
        let Kernel { list, tables: Tables { v2e, e2e, b2e, .. }, .. } = &self.kernel;
        let mesh = Mesh::new(list.n, list.entries(), v2e, e2e, &b2e[..k as usize]).expect("tables as built");
        (1..=mesh.n()).map(|v| mesh.ring(v, &mut self.ring).expect("tables as built")).sum()
    }

    /// The ring of every vertex of a closed mesh, each call told these columns; gives the sum of their lengths.
    fn rings_told(&mut self, told: u32) -> usize {
        let Kernel { list, tables: Tables { v2e, e2e, .. }, .. } = &self.kernel;
        let view = View { n: list.n, told, elements: list.entries(), v2e, e2e, b2e: &[] };
        let (out, len) = (self.ring.as_mut_ptr(), self.ring.len());
        let ring = |v| taken_apart(told!(borzhanu_ring, view, v, out, len)).expect("tables as built").0;
        (1..=view.n).map(|v| ring(v) as usize).sum()
    }

    /// All builds write the same tables, and recovery gives the list back.
    fn check(&self, k: u32) {
        let (k, built) = (k as usize, &self.kernel.tables);
        for Tables { v2e, e2e, b2e, .. } in [&self.standard, &self.fast] {
            assert!(&built.v2e == v2e && &built.e2e == e2e && built.b2e[..k] == b2e[..k]);
        }
        assert!(self.recovered == self.kernel.list.entries());
    }

    /// Each map comes after a call of the kernel: right after the other map it would find that one's memory in caches.
    fn run(&mut self, rounds: usize) -> Times {
        let (list, mut times) = (self.kernel.list, Times::default());
        for _ in 0..rounds {
            let built = self.kernel.timed_build(&mut times.build).expect("the list is accepted");
            read_through(&self.standard, list);
            assert_eq!(built, timed(&mut times.standard, || self.standard.hash_map_build::<RandomState>(list)));
            read_through(&self.kernel.tables, list);
            timed(&mut times.recovery, || self.recover());
            read_through(&self.fast, list);
            assert_eq!(built, timed(&mut times.fast, || self.fast.hash_map_build::<FastHasher>(list)));
            read_through(&self.kernel.tables, list);
            timed(&mut times.rings, || self.rings(built.0));
            self.check(built.0);
        }
        times
    }
}

fn shuffled(list: List, dice: &mut Dice) -> List {
    list.shuffled(dice).renumbered(dice).rotated(dice)
}

/// An open sheet of 2 × width × height triangles.
fn open_sheet(width: u32, height: u32, dice: &mut Dice) -> List {
    sheet(width, height, (false, false), Kinds::Triangles, dice)
}

fn rims_100_000(dice: &mut Dice) -> List {
    sheet(250, 200, (true, false), Kinds::Triangles, dice)
}

fn grid_100_000(dice: &mut Dice) -> List {
    sheet(400, 250, (false, false), Kinds::Quadrilaterals, dice)
}

fn triangles_100_000(dice: &mut Dice) -> Vec<(&'static str, List)> {
    let closed = sheet(250, 200, (true, true), Kinds::Triangles, dice);
    let rims = rims_100_000(dice);
    vec![
        ("closed, in order", closed.clone()),
        ("closed, shuffled", shuffled(closed, dice)),
        ("with rims, in order", rims.clone()),
        ("with rims, shuffled", shuffled(rims, dice)),
    ]
}

fn quadrilaterals_100_000(dice: &mut Dice) -> Vec<(&'static str, List)> {
    let grid = grid_100_000(dice);
    vec![("grid of quadrilaterals, in order", grid.clone()), ("grid of quadrilaterals, shuffled", shuffled(grid, dice))]
}

/// n, m and the entries, as 32-bit numbers of this machine.
fn write_list(list: &List, at: &Path) -> io::Result<()> {
    let numbers = [&[list.n, list.rows.len() as u32], list.entries()].concat();
    fs::write(at, numbers.iter().flat_map(|number| number.to_ne_bytes()).collect::<Vec<u8>>())
}

fn print_hundred_thousand(lists: &[(&str, List)]) {
    println!("## 100,000 elements\n");
    println!("Triangles, closed and with rims, and an open grid of quadrilaterals, 400 by 250.\n");
    println!("Milliseconds of processor time, medians of {ROUNDS} interleaved runs on buffers that hold what the run");
    println!("before left. Before each run its tables and then the list are read through, untimed, so that every run");
    println!("finds them alike. A ratio after a hash map is of build to that map; recovery is beside its ratio to");
    println!("build. The kernel needs nothing cleared, in building and in recovery; its time includes clearing its");
    println!("work buffer at the end, and all its checks. A hash map needs V2e and E2e cleared first, and its time");
    println!("includes that. The map itself is made anew in every run, with room reserved, and nothing is checked.");
    println!("Standard is the hasher of Rust's library; fast is one of a multiplication and a fold for each vertex of");
    println!("the key.\n");
    println!("| list | build | {MAPS} | recovery | to build | ring of every vertex |");
    println!("|---|---|---|---|---|---|---|---|---|");
    for (name, list) in lists {
        let Medians { build, standard, fast, recovery, rings } = Bench::new(list).run(ROUNDS).medians(1.0);
        println!(
            "| {name} | {build:.2} | {standard:.2} | {:.2} | {fast:.2} | {:.2} | {recovery:.2} | {:.2} | {rings:.2} |",
            build / standard,
            build / fast,
            recovery / build
        );
    }
    println!();
}

fn print_growth(dice: &mut Dice) {
    println!("## Growth\n");
    println!("Open sheets of triangles, shuffled. Nanoseconds of processor time per element, medians of");
    println!("{GROWTH_ROUNDS} interleaved runs, with buffers, clearing and ratios as in the first table.\n");
    println!("| elements | vertices | build | {MAPS} | recovery | ring of every vertex |");
    println!("|---|---|---|---|---|---|---|---|---|");
    for (width, height) in [(100, 50), (150, 100), (250, 200), (500, 300), (1000, 500)] {
        let list = shuffled(open_sheet(width, height, dice), dice);
        let (n, m) = (list.n, list.rows.len());
        let times = Bench::new(&list).run(GROWTH_ROUNDS);
        let Medians { build, standard, fast, recovery, rings } = times.medians(1e-6 * m as f64);
        println!(
            "| {m} | {n} | {build:.0} | {standard:.0} | {:.2} | {fast:.0} | {:.2} | {recovery:.0} | {rings:.0} |",
            build / standard,
            build / fast
        );
    }
    println!();
}

/// Median of the build's nanoseconds per element for each list, runs interleaved.
fn build_times(lists: &[(&str, List)]) -> Vec<f64> {
    let mut kernels: Vec<Kernel> = lists.iter().map(|(_, list)| Kernel::new(list)).collect();
    let mut times = vec![Vec::new(); lists.len()];
    for _ in 0..LARGE_ROUNDS {
        for (kernel, times) in kernels.iter_mut().zip(&mut times) {
            let _ = kernel.timed_build(times);
        }
    }
    times.iter().zip(lists).map(|(times, (_, list))| median(times) * 1e6 / list.rows.len() as f64).collect()
}

fn outcome(list: &List) -> String {
    match Kernel::new(list).build() {
        Ok((k, edges)) => format!("k = {k}, {edges} edges"),
        Err(refusal) => format!("refused {} at {},{}", refusal.number(), refusal.place().0, refusal.place().1),
    }
}

fn print_extremes(dice: &mut Dice) {
    let sheets = [(100, 50), (250, 200), (1000, 500)];
    let lists: Vec<(&str, List)> = (sheets.map(|(width, height)| ("sheet, in order", open_sheet(width, height, dice))))
        .into_iter()
        .chain([9_999, 99_999, 999_999].map(|rows| ("one fan about one vertex", fan(rows, true))))
        .chain([10_000, 100_000, 1_000_000].map(|rows| ("all on one edge", book(rows, rows))))
        .collect();
    let times = build_times(&lists);
    println!("## In order, and many elements at one place\n");
    println!(
        "Building, nanoseconds of processor time per element, medians of {LARGE_ROUNDS} interleaved runs, each list"
    );
    println!("with buffers of its own, which hold what the run before left; nothing is cleared first, and tables and");
    println!("list are read through before each run, as in the first table. A fan about one vertex has at most");
    println!("999,999 triangles, since 1,000,000 vertices are the most.\n");
    println!("| list | elements | outcome | time per element | relative to the largest sheet |");
    println!("|---|---|---|---|---|");
    for ((name, list), time) in lists.iter().zip(&times) {
        println!("| {name} | {} | {} | {time:.0} | {:.2} |", list.rows.len(), outcome(list), time / times[2]);
    }
    println!();
}

/// A closed mesh of 2 × width × height triangles, in order and shuffled.
fn closed_pair(width: u32, height: u32, dice: &mut Dice) -> [List; 2] {
    let list = sheet(width, height, (true, true), Kinds::Triangles, dice);
    [list.clone(), shuffled(list, dice)]
}

/// Meshes in pairs, in order and shuffled, with the columns that their queries are told.
fn lists_with_told(dice: &mut Dice) -> Vec<(u32, List)> {
    let small = closed_pair(25, 20, dice);
    let pairs = [(0, small.clone()), (3, small), (3, closed_pair(250, 200, dice)), (3, closed_pair(1000, 500, dice))];
    pairs.into_iter().flat_map(|(told, pair)| pair.map(|list| (told, list))).collect()
}

/// A run goes through a small mesh many times.
fn passes(list: &List) -> u32 {
    50_000_u32.div_ceil(list.n)
}

/// Median of the nanoseconds per ring for each list, runs interleaved.
fn ring_times(lists: &[(u32, List)]) -> Vec<f64> {
    let mut benches: Vec<Bench> = lists.iter().map(|(_, list)| Bench::new(list)).collect();
    let mut times = vec![Vec::new(); lists.len()];
    for bench in &mut benches {
        bench.kernel.build().expect("a closed sheet is accepted");
    }
    for _ in 0..LARGE_ROUNDS {
        for (((told, list), bench), times) in lists.iter().zip(&mut benches).zip(&mut times) {
            let sum = timed(times, || (0..passes(list)).map(|_| bench.rings_told(*told)).sum::<usize>());
            assert_eq!(sum, passes(list) as usize * 3 * list.rows.len());
        }
    }
    let rings = |list: &List| f64::from(passes(list) * list.n);
    times.iter().zip(lists).map(|(times, (_, list))| median(times) * 1e6 / rings(list)).collect()
}

fn print_told(dice: &mut Dice) {
    println!("## Rings of a small and of a large mesh\n");
    println!("The ring of every vertex of a closed mesh of triangles: nanoseconds per ring, medians of {LARGE_ROUNDS}");
    println!("interleaved runs. Told 3 columns, a query reads only what is about its vertex: nothing grows with");
    println!("the mesh but the share of it that is in no cache. Told 0, it looks at the whole list for the columns.\n");
    println!("| triangles | told | in order | shuffled |");
    println!("|---|---|---|---|");
    let lists = lists_with_told(dice);
    for (pair, times) in lists.chunks(2).zip(ring_times(&lists).chunks(2)) {
        let (told, list) = &pair[0];
        println!("| {} | {told} | {:.0} | {:.0} |", list.rows.len(), times[0], times[1]);
    }
    println!();
}

/// Medians of the nanoseconds per side: the kernel's siblings and the hash map's, runs interleaved.
fn sibling_times(list: &List, rounds: usize) -> (f64, f64) {
    let (n, entries, m) = (list.n as usize, list.entries(), list.rows.len());
    let (mut v2e, mut map, mut work) = (vec![1; n], vec![1; 4 * m], vec![1; work_length(list.n, m)]);
    let (mut other_v2e, mut other_map) = (vec![1; n], vec![1; 4 * m]);
    let (mut times, mut other_times) = (Vec::new(), Vec::new());
    for _ in 0..rounds {
        timed(&mut times, || siblings(list.n, entries, &mut v2e, &mut map, &mut work)).expect("the corners are fit");
        timed(&mut other_times, || hash_map_siblings(entries, &mut other_v2e, &mut other_map));
        assert!(v2e == other_v2e && map == other_map);
    }
    let sides = entries.iter().filter(|&&corner| corner != 0).count();
    let per_side = |times: &[f64]| median(times) * 1e6 / sides as f64;
    (per_side(&times), per_side(&other_times))
}

fn lists_for_siblings(dice: &mut Dice) -> Vec<(&'static str, List)> {
    let triangles = rims_100_000(dice);
    let mut lists = quadrilaterals_100_000(dice);
    lists.extend([
        ("triangles with rims, in order", triangles.clone()),
        ("triangles with rims, shuffled", shuffled(triangles, dice)),
        ("open sheet of triangles, in order", open_sheet(1000, 500, dice)),
        ("triangles all on one edge", book(1_000_000, 1_000_000)),
    ]);
    lists
}

fn print_siblings(dice: &mut Dice) {
    println!("## Siblings\n");
    println!("Nanoseconds of processor time per side, medians of {ROUNDS} interleaved runs, or of {LARGE_ROUNDS}");
    println!("with a million elements, on buffers that hold what the run before left. The hash map leads from the");
    println!("two vertices of an edge to its first and its last side; it needs V2e cleared first, and its time");
    println!("includes that. The kernel needs nothing cleared; its time includes clearing its work buffer at the end,");
    println!("and all its checks.\n");
    println!("| list | elements | siblings | hash map | ratio |");
    println!("|---|---|---|---|---|");
    for (name, list) in lists_for_siblings(dice) {
        let m = list.rows.len();
        let (kernel, hash_map) = sibling_times(&list, if m > 100_000 { LARGE_ROUNDS } else { ROUNDS });
        println!("| {name} | {m} | {kernel:.1} | {hash_map:.1} | {:.2} |", kernel / hash_map);
    }
    println!();
}

/// Triangles with no corner in common.
fn apart(count: u32) -> List {
    List { n: 3 * count, rows: (0..count).map(|f| [3 * f + 1, 3 * f + 2, 3 * f + 3, 0]).collect() }
}

/// A strip whose whole rim is one hole, of 2 × (width + 1) border half-edges.
fn strip(width: u32, kinds: Kinds, dice: &mut Dice) -> List {
    sheet(width, 1, (false, false), kinds, dice)
}

/// A thousand border half-edges and a million, in one rim and in rims of three; and the grid, with few of them.
fn lists_with_rims(dice: &mut Dice) -> Vec<(String, List)> {
    let quadrilaterals = Kinds::Quadrilaterals;
    let lists = [
        ("strip of quadrilaterals", strip(499, quadrilaterals, dice)),
        ("triangles apart", apart(333)),
        ("strip of quadrilaterals", strip(499_999, quadrilaterals, dice)),
        ("triangles apart", apart(333_333)),
        ("grid of quadrilaterals", grid_100_000(dice)),
    ];
    let in_either_order = |(name, list): (&str, List)| {
        [(format!("{name}, in order"), list.clone()), (format!("{name}, shuffled"), shuffled(list, dice))]
    };
    lists.into_iter().flat_map(in_either_order).collect()
}

/// What was found, and medians of the nanoseconds per border half-edge.
struct HoleTimes {
    k: usize,
    count: usize,
    kernel: f64,
    clearing: f64,
    hash_map: f64,
}

/// Holes by the kernel, its work buffer cleared once more, and holes by the hash map, runs interleaved. A run asks many
/// times where there are few border half-edges.
fn hole_times(list: &List) -> HoleTimes {
    let mut kernel = Kernel::new(list);
    let k = kernel.build().expect("the list is accepted").0 as usize;
    let Kernel { tables: Tables { v2e, e2e, b2e, .. }, mut work, .. } = kernel;
    let (entries, b2e) = (list.entries(), &b2e[..k]);
    let mesh = Mesh::new(list.n, entries, &v2e, &e2e, b2e).expect("tables as built");
    let [mut hole, mut lengths, mut other_hole, mut other_lengths] = [(); 4].map(|()| vec![1; k]);
    let (mut kernel, mut clearing, mut hash_map) = (Vec::new(), Vec::new(), Vec::new());
    let (passes, mut count) = (100_000_usize.div_ceil(k), 0);
    for _ in 0..if passes > 1 { ROUNDS } else { LARGE_ROUNDS } {
        timed(&mut kernel, || {
            for _ in 0..passes {
                count = mesh.holes(&mut hole, &mut lengths, &mut work).expect("tables as built");
            }
        });
        timed(&mut clearing, || (0..passes).for_each(|_| black_box(&mut work).fill(0)));
        timed(&mut hash_map, || {
            (0..passes).for_each(|_| _ = black_box(hash_map_holes(entries, b2e, &mut other_hole, &mut other_lengths)))
        });
        assert!(hole == other_hole && lengths[..count] == other_lengths[..count]);
    }
    let per_border = |times: &[f64]| median(times) * 1e6 / (passes * k) as f64;
    let [kernel, clearing, hash_map] = [kernel, clearing, hash_map].map(|times| per_border(&times));
    HoleTimes { k, count, kernel, clearing, hash_map }
}

fn print_holes(dice: &mut Dice) {
    println!("## Holes\n");
    println!("Nanoseconds of processor time per border half-edge, medians of {ROUNDS} interleaved runs, or of");
    println!("{LARGE_ROUNDS} with a million of them, on buffers that hold what the run before left. A run asks many");
    println!("times where there are few. The kernel is told the columns and needs nothing cleared; its time includes");
    println!("looking at every loop before it writes, and clearing its work buffer, n + 16 × m entries, at the end.");
    println!("The next column is what filling that buffer takes alone. The hash map leads from the vertex where a");
    println!("border half-edge begins to its number, beside a set of those that were walked, both made anew in each");
    println!("run, and checks nothing. Strips and triangles apart are all rim. The grid, 400 by 250, has few border");
    println!("half-edges for its elements, which the length of the work buffer goes by.\n");
    println!("| list | elements | border half-edges | holes | time | work buffer filled | hash map | ratio |");
    println!("|---|---|---|---|---|---|---|---|");
    for (name, list) in lists_with_rims(dice) {
        let HoleTimes { k, count, kernel, clearing, hash_map } = hole_times(&list);
        let (m, ratio) = (list.rows.len(), kernel / hash_map);
        println!("| {name} | {m} | {k} | {count} | {kernel:.1} | {clearing:.1} | {hash_map:.1} | {ratio:.2} |");
    }
    println!();
}

/// V2e as built, and with another entry where the first border half-edge ends or the last: 0, which is no border
/// half-edge, or the one that follows the other of the two.
fn entered(elements: &[u32], v2e: &[u32], b2e: &[u32]) -> Vec<(&'static str, Vec<u32>)> {
    let [first, last] = [b2e[0], b2e[b2e.len() - 1]].map(|side| ends(elements, side).0 as usize - 1);
    let with = |at: usize, entry: u32| {
        let mut changed = v2e.to_vec();
        changed[at] = entry;
        changed
    };
    vec![
        ("as built", v2e.to_vec()),
        ("nothing follows the first", with(first, 0)),
        ("nothing follows the last", with(last, 0)),
        ("what follows the last follows the first too", with(first, v2e[last])),
        ("what follows the first follows the last too", with(last, v2e[first])),
    ]
}

/// For each of these V2e what holes answers, and the median of the nanoseconds per border half-edge, runs interleaved.
fn entered_times(list: &List) -> Vec<(&'static str, String, f64)> {
    let mut kernel = Kernel::new(list);
    let k = kernel.build().expect("the list is accepted").0 as usize;
    let Kernel { tables: Tables { v2e, e2e, b2e, .. }, mut work, .. } = kernel;
    let (entries, b2e) = (list.entries(), &b2e[..k]);
    let [mut hole, mut lengths] = [(); 2].map(|()| vec![1; k]);
    let tables = entered(entries, &v2e, b2e);
    let mut times = vec![Vec::new(); tables.len()];
    let mut outcomes = vec![String::new(); tables.len()];
    for _ in 0..LARGE_ROUNDS {
        for (((_, v2e), times), outcome) in tables.iter().zip(&mut times).zip(&mut outcomes) {
            let mesh = Mesh::new(list.n, entries, v2e, &e2e, b2e).expect("the lengths are fit");
            let answer = timed(times, || mesh.holes(&mut hole, &mut lengths, &mut work));
            *outcome = answer.map_or_else(|refusal| format!("refused {}", refusal.number()), |count| count.to_string());
        }
    }
    let per_border = times.iter().map(|times| median(times) * 1e6 / k as f64);
    tables.iter().zip(outcomes).zip(per_border).map(|(((name, _), outcome), time)| (*name, outcome, time)).collect()
}

fn print_refused_holes(dice: &mut Dice) {
    let list = strip(499_999, Kinds::Quadrilaterals, dice);
    println!("The strip of {} quadrilaterals, in order, as built and with one V2e entry changed, so", list.rows.len());
    println!("that nothing follows the first or the last border half-edge, or the same one follows both. Nanoseconds");
    println!("of processor time per border half-edge, medians of {LARGE_ROUNDS} interleaved runs.\n");
    println!("| V2e | holes | time |");
    println!("|---|---|---|");
    for (name, outcome, time) in entered_times(&list) {
        println!("| {name} | {outcome} | {time:.1} |");
    }
    println!();
}

/// Medians of the milliseconds of the kernel's number, of a build of the same list and of the count by a hash set, runs
/// interleaved.
fn shape_times(list: &List) -> [f64; 3] {
    let (mut kernel, n, entries) = (Kernel::new(list), list.n, list.entries());
    let [mut shapes, mut builds, mut sets] = [(); 3].map(|()| Vec::new());
    for _ in 0..ROUNDS {
        kernel.timed_build(&mut builds).expect("the list is accepted");
        read_through(&kernel.tables, list);
        let number = timed(&mut shapes, || shape(n, entries, &mut kernel.work)).expect("the list is accepted");
        read_through(&kernel.tables, list);
        assert_eq!(number, timed(&mut sets, || hash_set_shape(n, entries)));
    }
    [shapes, builds, sets].map(|times| median(&times))
}

fn print_shapes(lists: &[(&str, List)]) {
    println!("## Shape\n");
    println!(
        "The lists of 100,000 triangles. Milliseconds of processor time, medians of {ROUNDS} interleaved runs on a"
    );
    println!(
        "work buffer that holds what the run before left, with tables and list read through before each, as in the"
    );
    println!("first table, and ratios of the kernel's time. It needs nothing cleared; its time includes all checks of");
    println!(
        "the list and clearing its work buffer at the end. The hash set, with the hasher of Rust's library, has the"
    );
    println!("two vertices of each edge, is made anew in each run, with room reserved, and nothing is checked.\n");
    println!("| list | shape | build | ratio | hash set | ratio |");
    println!("|---|---|---|---|---|---|");
    for (name, list) in lists {
        let [shape, build, set] = shape_times(list);
        println!("| {name} | {shape:.2} | {build:.2} | {:.2} | {set:.2} | {:.2} |", shape / build, shape / set);
    }
    println!();
}

/// Swaps the spokes of an inner vertex until three are left. The neighbours are then joined to each other, so that no
/// spoke can be swapped any more; one of these is given.
fn crowded_spoke(mesh: &mut OwnedMesh, v: u32) -> HalfEdge {
    loop {
        let spoke = HalfEdge::from_code(mesh.mesh().v2e()[v as usize - 1]);
        if mesh.mesh().ring_of(v).expect("v is there").len() == 3 {
            return spoke;
        }
        mesh.swap(spoke).expect("the neighbours aren't joined yet");
    }
}

/// A third side with another diagonal, of a triangle that hasn't v and lies beside none that has it.
fn swappable(mesh: &OwnedMesh, v: u32) -> HalfEdge {
    let tables = mesh.tables();
    let has_v = |f: u32| f == 0 || mesh.rows()[f as usize - 1].contains(&v);
    let beside = |side| tables.across(side).expect("the side is there");
    let mut sides = (1..=mesh.m()).filter(|&f| !has_v(f)).map(|f| HalfEdge::side(f, 3));
    sides.find(|&side| !has_v(beside(side)) && mesh.clone().swap(side).is_ok()).expect("a diagonal can be swapped")
}

/// Triangles as arrays: the corners, what lies opposite each side, and a side that leaves each vertex. Sides count from
/// 0, three to a triangle; opposite a border side is `OUTSIDE`.
struct Plain {
    corners: Vec<u32>,
    opposites: Vec<u32>,
    leaving: Vec<u32>,
}

const OUTSIDE: u32 = u32::MAX;

impl Plain {
    fn new(mesh: &Mesh) -> Plain {
        let slot = |&code: &u32| if code % 8 == 0 { OUTSIDE } else { 3 * (code / 8) + code % 8 - 4 };
        let corners: Vec<u32> = mesh.elements().iter().copied().filter(|&v| v != 0).collect();
        let mut leaving = vec![OUTSIDE; mesh.n() as usize];
        (0..).zip(&corners).for_each(|(side, &v)| leaving[v as usize - 1] = side);
        Plain { corners, opposites: mesh.e2e().iter().map(slot).collect(), leaving }
    }

    /// Swaps the edge of a side that has an opposite, and judges nothing.
    fn swap(&mut self, side: u32) {
        let turned = |side: u32, by: u32| side - side % 3 + (side + by) % 3;
        let (ab, ba) = (side, self.opposites[side as usize]);
        let (f, g) = (ab - ab % 3, ba - ba % 3);
        let [bc, ca, ad, db] = [turned(ab, 1), turned(ab, 2), turned(ba, 1), turned(ba, 2)];
        let [a, b, c, d] = [ab, ba, ca, db].map(|side| self.corners[side as usize]);
        let [past_bc, past_ca, past_ad, past_db] = [bc, ca, ad, db].map(|side| self.opposites[side as usize]);
        for (side, v, opposite) in [
            (f, c, past_ca),
            (f + 1, a, past_ad),
            (f + 2, d, g + 2),
            (g, d, past_db),
            (g + 1, b, past_bc),
            (g + 2, c, f + 2),
        ] {
            self.corners[side as usize] = v;
            self.leaving[v as usize - 1] = side;
            self.opposites[side as usize] = opposite;
            if opposite != OUTSIDE {
                self.opposites[opposite as usize] = side;
            }
        }
    }

    fn any_third_sides(&self, dice: &mut Dice) -> Vec<u32> {
        let is_inner = |&side: &u32| self.opposites[side as usize] != OUTSIDE;
        let m = self.corners.len() as u32 / 3;
        (0..10_000).map(|_| 3 * dice.below(m) + 2).filter(is_inner).collect()
    }

    /// After a swap the third sides are on the new diagonal.
    fn swap_there_and_back(&mut self, third_sides: &[u32]) {
        for &side in third_sides {
            self.swap(side);
            self.swap(side);
        }
    }
}

/// In place the same is done.
fn check_plain(mesh: &OwnedMesh, side: HalfEdge) {
    let (mut swapped, mut plain) = (mesh.clone(), Plain::new(&mesh.mesh()));
    swapped.swap(side).expect("the diagonal can be swapped");
    plain.swap(3 * side.numbers().0 - 1);
    let Plain { corners, opposites, .. } = Plain::new(&swapped.mesh());
    assert!(plain.corners == corners && plain.opposites == opposites);
    assert!((1..).zip(&plain.leaving).all(|(v, &side)| side == OUTSIDE || corners[side as usize] == v));
}

/// Medians of the milliseconds of a build, a swap, one refused early and one refused late; and of the nanoseconds of one
/// in place.
struct SwapTimes {
    early: Refusal,
    build: f64,
    swaps: [f64; 3],
    in_place: f64,
}

/// A mesh in which one side's edge can be swapped and another's can't.
struct Prepared {
    mesh: OwnedMesh,
    side: HalfEdge,
    crowded: HalfEdge,
}

impl Prepared {
    fn new(list: &List) -> Prepared {
        let mut mesh = OwnedMesh::build(list.n, &list.rows).expect("the list is accepted");
        let has_six = |v: &u32| mesh.mesh().ring_of(*v).is_ok_and(|ring| ring.len() == 6);
        let v = (1..=list.n).find(has_six).expect("inner vertices have six elements");
        let crowded = crowded_spoke(&mut mesh, v);
        let side = swappable(&mesh, v);
        Prepared { mesh, side, crowded }
    }
}

/// Swaps there and back, so that the triangles stay, and refused ones, beside a build of the same list and swaps in
/// place, runs interleaved.
fn swap_times(list: &List, dice: &mut Dice) -> SwapTimes {
    let Prepared { mut mesh, side, crowded } = Prepared::new(list);
    let list = List::new(mesh.n(), mesh.rows());
    let (mut kernel, mut plain) = (Kernel::new(&list), Plain::new(&mesh.mesh()));
    check_plain(&mesh, side);
    let inner_sides = plain.any_third_sides(dice);
    let (border, mut early) = (HalfEdge::border(1), None);
    let [mut build, mut swaps, mut earlies, mut lates, mut in_place] = [(); 5].map(|()| Vec::new());
    for _ in 0..ROUNDS {
        timed(&mut build, || kernel.build()).expect("the list is accepted");
        timed(&mut swaps, || mesh.swap(side).and_then(|_| mesh.swap(side))).expect("the diagonal can be swapped");
        early = timed(&mut earlies, || mesh.swap(border)).err();
        assert!(matches!(timed(&mut lates, || mesh.swap(crowded)), Err(Refusal::EdgeCrowded { .. })));
        timed(&mut in_place, || plain.swap_there_and_back(&inner_sides));
    }
    SwapTimes {
        early: early.expect("a border has no diagonal"),
        build: median(&build),
        swaps: [median(&swaps) / 2.0, median(&earlies), median(&lates)],
        in_place: median(&in_place) * 1e6 / (2 * inner_sides.len()) as f64,
    }
}

fn print_swaps(lists: &[(&str, List)], dice: &mut Dice) {
    println!("## Swapped diagonals\n");
    println!("The lists of 100,000 triangles, each with three diagonals swapped before, so that one vertex has three");
    println!("neighbours and none of its edges can be swapped. Milliseconds of processor time, medians of {ROUNDS}");
    println!("interleaved runs on buffers that hold what the run before left, and ratios to a build of the same list.");
    println!("The kernel needs nothing cleared; its time includes all checks of the old list and of the new one, the");
    println!("tables, and clearing its work buffer at the end. A run swaps a diagonal and then the new one, so that");
    println!("the triangles stay, and half its time is reported. Early, the old list alone is judged: a border");
    println!("half-edge is named (15), which a closed mesh doesn't have (11). Late, the new list is refused (6).\n");
    println!("In place are nanoseconds of a swap in arrays of corners and opposites that the benchmark keeps: two");
    println!("triangles and their four neighbours are written, however long the list is, and nothing is judged. The");
    println!("kernel takes no table on trust and judges the whole list at each call.\n");
    println!("| list | build | swap | ratio | refused early | ratio | refused late | ratio | in place, ns |");
    println!("|---|---|---|---|---|---|---|---|---|");
    for (name, list) in lists {
        let SwapTimes { early: refusal, build, swaps: [swap, early, late], in_place } = swap_times(list, dice);
        println!(
            "| {name} | {build:.2} | {swap:.2} | {:.2} | {}: {early:.2} | {:.2} | 6: {late:.2} | {:.2} | {in_place:.0} |",
            swap / build,
            refusal.number(),
            early / build,
            late / build
        );
    }
    println!();
}

/// `split` or `contract`.
type EdgeEdit = fn(
    &mut Size,
    &mut [u32],
    &mut [u32],
    &mut [u32],
    &mut [u32],
    &mut [f64],
    &mut [u32],
    u32,
) -> Result<Counts, Refusal>;

/// A list in buffers with room for one split, its points, and what is done to its edges.
struct Edges<'a> {
    list: &'a List,
    edit: EdgeEdit,
    size: Size,
    elements: Vec<u32>,
    tables: Tables,
    points: Vec<f64>,
    work: Vec<u32>,
}

impl<'a> Edges<'a> {
    fn new(list: &'a List, edit: EdgeEdit) -> Edges<'a> {
        let (n, m) = (list.n + 1, list.rows.len() + 2);
        let Tables { columns, .. } = Tables::new(list);
        let tables = Tables { columns, v2e: vec![1; n as usize], e2e: vec![1; columns * m], b2e: vec![1; n as usize] };
        let points = (0..3 * n).map(f64::from).collect();
        let size = Size { n: list.n, m: list.rows.len() as u32 };
        Edges { list, edit, size, elements: vec![1; 4 * m], tables, points, work: vec![1; work_length(n, m)] }
    }

    /// The list is put back before, which isn't timed.
    fn timed(&mut self, times: &mut Vec<f64>, code: u32) -> Result<Counts, Refusal> {
        self.size = Size { n: self.list.n, m: self.list.rows.len() as u32 };
        self.elements[..self.list.entries().len()].copy_from_slice(self.list.entries());
        read_through(&self.tables, self.list);
        let Edges { edit, size, elements, tables: Tables { v2e, e2e, b2e, .. }, points, work, .. } = self;
        timed(times, || edit(size, elements, v2e, e2e, b2e, points, work, code))
    }
}

/// Medians of the milliseconds of a build, of edits of an inner edge and of one on the border, which a closed mesh hasn't,
/// and of one that is refused.
struct EdgeTimes {
    build: f64,
    inner: f64,
    border: Option<f64>,
    refused: f64,
}

/// Edits of a side in the middle of the list, of a border side and of nothing, beside a build of the same list, runs
/// interleaved. Each is the first one from there on that is answered.
fn edge_times(list: &List, edit: EdgeEdit) -> EdgeTimes {
    let mesh = OwnedMesh::build(list.n, &list.rows).expect("the list is accepted");
    let (mut kernel, mut edges) = (Kernel::new(list), Edges::new(list, edit));
    let mut is_answered = |&code: &u32| edges.timed(&mut Vec::new(), code).is_ok();
    let is_inner = |&side: &HalfEdge| mesh.tables().across(side).is_ok_and(|element| element != 0);
    let sides = (mesh.m() / 2..=mesh.m()).map(|f| HalfEdge::side(f, 1)).filter(is_inner);
    let inner = sides.map(|side| side.code()).find(&mut is_answered).expect("there are inner edges");
    let b2e = mesh.mesh().b2e();
    let on_border = b2e[b2e.len() / 2..].iter().copied().find(&mut is_answered);
    let [mut builds, mut inners, mut borders, mut refused] = [(); 4].map(|()| Vec::new());
    for _ in 0..ROUNDS {
        kernel.timed_build(&mut builds).expect("the list is accepted");
        edges.timed(&mut inners, inner).expect("the edge was edited before");
        if let Some(code) = on_border {
            edges.timed(&mut borders, code).expect("the edge was edited before");
        }
        assert_eq!(edges.timed(&mut refused, 0), Err(Refusal::NotThere));
    }
    let border = on_border.map(|_| median(&borders));
    EdgeTimes { build: median(&builds), inner: median(&inners), border, refused: median(&refused) }
}

fn print_edges(title: &str, name_of_edit: &str, point: &str, edit: EdgeEdit, lists: &[(&str, List)]) {
    println!("## {title}\n");
    println!("The lists of 100,000 triangles. Milliseconds of processor time, medians of {ROUNDS} interleaved runs on");
    println!(
        "buffers that hold what the run before left, with the old list put back, which isn't timed, and ratios to a"
    );
    println!("build of the same list. The kernel needs nothing cleared; its time includes all checks of the old list,");
    println!("the tables of the new one, {point}, and clearing its work buffer at the end. Refused is a");
    println!("{name_of_edit} of no half-edge (11): the old list alone is judged.\n");
    println!("| list | build | inner edge | ratio | edge on the border | ratio | refused | ratio |");
    println!("|---|---|---|---|---|---|---|---|");
    for (name, list) in lists {
        let EdgeTimes { build, inner, border, refused } = edge_times(list, edit);
        let (on_border, ratio) =
            border.map_or(("-".into(), "-".into()), |time| (format!("{time:.2}"), format!("{:.2}", time / build)));
        println!(
            "| {name} | {build:.2} | {inner:.2} | {:.2} | {on_border} | {ratio} | {refused:.2} | {:.2} |",
            inner / build,
            refused / build
        );
    }
    println!();
}

/// No element, and one, on n vertices.
fn hardly_used(n: u32) -> [List; 2] {
    [List::new(n, &[]), List::new(n, &[[n, 1, n / 2, 0]])]
}

fn lists_with_unused(dice: &mut Dice) -> Vec<List> {
    let mut lists: Vec<List> = [100_000, 1_000_000].into_iter().flat_map(hardly_used).collect();
    let rims = rims_100_000(dice);
    let used = rims.n;
    lists.push(rims.with_unused(used, 1_000_000 - used));
    lists
}

fn print_unused(dice: &mut Dice) {
    println!("## Vertices that no element uses\n");
    println!("Nanoseconds per vertex and element together, medians of {ROUNDS} interleaved runs, with buffers and");
    println!("clearing as in the first table. With no element or one a hash map does little but clear V2e. The one");
    println!("is a triangle of the first, the middle and the last vertex; the 100,000 are those with rims, in order,");
    println!("and use the first 50,250 vertices.\n");
    println!("| vertices | elements | build | {MAPS} | recovery | ring of every vertex |");
    println!("|---|---|---|---|---|---|---|---|---|");
    for list in lists_with_unused(dice) {
        let (n, m) = (list.n, list.rows.len());
        let times = Bench::new(&list).run(ROUNDS);
        let Medians { build, standard, fast, recovery, rings } = times.medians(1e-6 * (n as usize + m) as f64);
        println!(
            "| {n} | {m} | {build:.2} | {standard:.2} | {:.2} | {fast:.2} | {:.2} | {recovery:.2} | {rings:.2} |",
            build / standard,
            build / fast
        );
    }
    println!();
}

/// Those with rims, and a million border half-edges in one rim and in rims of three.
fn lists_for_holes(triangles: &[(&'static str, List)], dice: &mut Dice) -> Vec<(&'static str, List)> {
    let (strip, apart) = (strip(499_999, Kinds::Triangles, dice), apart(333_333));
    let mut lists: Vec<(&str, List)> =
        triangles.iter().filter(|(name, _)| name.starts_with("with rims")).cloned().collect();
    lists.extend([
        ("strip, in order", strip.clone()),
        ("strip, shuffled", shuffled(strip, dice)),
        ("triangles apart, in order", apart.clone()),
        ("triangles apart, shuffled", shuffled(apart, dice)),
    ]);
    lists
}

fn write_lists(folder: &Path, lists: &[(&str, List)]) -> io::Result<()> {
    fs::create_dir_all(folder)?;
    lists.iter().try_for_each(|(name, list)| write_list(list, &folder.join(format!("{name}.list"))))
}

fn print_building(triangles: &[(&'static str, List)], dice: &mut Dice) {
    print_hundred_thousand(&[triangles, &quadrilaterals_100_000(dice)].concat());
    print_growth(dice);
    print_extremes(dice);
    print_late_refusals(dice);
}

fn print_others(triangles: &[(&'static str, List)], dice: &mut Dice) {
    print_told(dice);
    print_unused(dice);
    print_siblings(dice);
    print_holes(dice);
    print_refused_holes(dice);
    print_shapes(triangles);
    print_swaps(triangles, dice);
    print_edges("Split edges", "split", "the new point", split, triangles);
    print_edges("Contracted edges", "contraction", "the points", contract, triangles);
    print_off(dice);
}

fn main() -> io::Result<()> {
    let mut arguments = env::args().skip(1).peekable();
    let only_building = arguments.next_if_eq("--building").is_some();
    let mut dice = Dice::new(SEED);
    let triangles = triangles_100_000(&mut dice);
    if let Some(folder) = arguments.next() {
        let folder = Path::new(&folder);
        write_lists(&folder.join("build"), &triangles)?;
        if !only_building {
            write_lists(&folder.join("holes"), &lists_for_holes(&triangles, &mut Dice::new(SEED)))?;
        }
    }
    print_building(&triangles, &mut dice);
    if !only_building {
        print_others(&triangles, &mut dice);
    }
    Ok(())
}

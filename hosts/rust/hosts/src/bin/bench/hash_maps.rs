//! What the kernel is timed beside: the same answers by hash maps, with no check of what they are given.

use hosts::meshes::corners_of;
use std::collections::{HashMap, HashSet};
use std::hash::{BuildHasher, BuildHasherDefault, Hasher};

/// A hasher of a few instructions, in place of the standard one, which is slower and withstands keys that were chosen
/// to collide. Each word is multiplied into the state by an odd constant, 64 by 64 bits, and the halves of the product
/// are folded into one.
#[derive(Default)]
pub struct Fold(u64);

pub type FastHasher = BuildHasherDefault<Fold>;

impl Hasher for Fold {
    fn write(&mut self, bytes: &[u8]) {
        bytes.iter().for_each(|&byte| self.write_u64(byte.into()));
    }

    fn write_u32(&mut self, word: u32) {
        self.write_u64(word.into());
    }

    fn write_u64(&mut self, word: u64) {
        const ODD: u128 = 0x9E37_79B9_7F4A_7C15;
        let product = u128::from(self.0 ^ word) * ODD;
        self.0 = product as u64 ^ (product >> 64) as u64;
    }

    fn finish(&self) -> u64 {
        self.0
    }
}

/// The three tables by a hash map keyed by the vertices of each half-edge, after section 3.2 of T. J. Alumbaugh and
/// X. Jiao, "Compact Array-Based Mesh Data Structures", with no check of the list, E2e in so many columns. Gives k and
/// the number of edges.
pub fn hash_map_build<S: BuildHasher + Default>(
    columns: usize,
    elements: &[u32],
    v2e: &mut [u32],
    e2e: &mut [u32],
    b2e: &mut [u32],
) -> (u32, u32) {
    let place = |slot: usize| columns * (slot / 4) + slot % 4;
    v2e.fill(0);
    e2e.fill(0);
    let mut unmatched: HashMap<(u32, u32), usize, S> =
        HashMap::with_capacity_and_hasher(elements.len() / 2, S::default());
    let mut sides = 0;
    for (f, row) in elements.chunks_exact(4).enumerate() {
        let corners = corners_of(row);
        sides += corners as u32;
        for i in 0..corners {
            let (origin, destination) = (row[i], row[(i + 1) % corners]);
            let slot = 4 * f + i;
            match unmatched.remove(&(destination, origin)) {
                Some(twin) => {
                    e2e[place(slot)] = code(twin);
                    e2e[place(twin)] = code(slot);
                }
                None => _ = unmatched.insert((origin, destination), slot),
            }
            let entry = &mut v2e[origin as usize - 1];
            if *entry == 0 {
                *entry = code(slot);
            }
        }
    }
    let mut k = 0;
    for (f, row) in elements.chunks_exact(4).enumerate() {
        let corners = corners_of(row);
        for i in 0..corners {
            let slot = 4 * f + i;
            if e2e[place(slot)] == 0 {
                b2e[k as usize] = code(slot);
                k += 1;
                e2e[place(slot)] = 8 * k;
                v2e[row[(i + 1) % corners] as usize - 1] = 8 * k;
            }
        }
    }
    (k, (sides + k) / 2)
}

/// The siblings by a hash map from the two vertices of an edge to its first and its last side so far, with no check of
/// the list; in the end the last side of each edge gets the first.
pub fn hash_map_siblings(elements: &[u32], v2e: &mut [u32], siblings: &mut [u32]) {
    v2e.fill(0);
    let mut edges: HashMap<(u32, u32), (usize, usize)> = HashMap::with_capacity(elements.len() / 2);
    for (f, row) in elements.chunks_exact(4).enumerate() {
        let corners = corners_of(row);
        for i in 0..corners {
            let (origin, destination) = (row[i], row[(i + 1) % corners]);
            let slot = 4 * f + i;
            let (_, last) = edges.entry((origin.min(destination), origin.max(destination))).or_insert((slot, slot));
            siblings[*last] = code(slot);
            *last = slot;
            let entry = &mut v2e[origin as usize - 1];
            if *entry == 0 {
                *entry = code(slot);
            }
        }
        if corners == 3 {
            siblings[4 * f + 3] = 0;
        }
    }
    for (first, last) in edges.into_values() {
        siblings[last] = code(first);
    }
}

/// The holes by a hash map from the vertex where each border half-edge begins to its number, and a set of those that
/// were walked, with no check of the tables. Gives the number of holes.
pub fn hash_map_holes(elements: &[u32], b2e: &[u32], hole: &mut [u32], lengths: &mut [u32]) -> usize {
    let leaving: HashMap<u32, u32> = (1..).zip(b2e).map(|(b, &side)| (ends(elements, side).1, b)).collect();
    let mut walked = HashSet::with_capacity(b2e.len());
    let mut count = 0;
    for start in 1..=b2e.len() as u32 {
        if walked.contains(&start) {
            continue;
        }
        lengths[count] = 0;
        let mut b = start;
        while walked.insert(b) {
            hole[b as usize - 1] = count as u32 + 1;
            lengths[count] += 1;
            b = leaving[&ends(elements, b2e[b as usize - 1]).0];
        }
        count += 1;
    }
    count
}

/// n − edges + m by a hash set of the two vertices of each edge, with no check of the list.
pub fn hash_set_shape(n: u32, elements: &[u32]) -> i64 {
    let mut edges = HashSet::with_capacity(elements.len() / 2);
    for row in elements.chunks_exact(4) {
        let corners = corners_of(row);
        for i in 0..corners {
            let (origin, destination) = (row[i], row[(i + 1) % corners]);
            edges.insert((origin.min(destination), origin.max(destination)));
        }
    }
    i64::from(n) - edges.len() as i64 + (elements.len() / 4) as i64
}

/// Origin and destination of a side.
pub fn ends(elements: &[u32], side: u32) -> (u32, u32) {
    let (f, i) = ((side / 8) as usize, (side % 8) as usize);
    let row = &elements[4 * (f - 1)..4 * f];
    let corners = corners_of(row);
    (row[i - 1], row[i % corners])
}

/// The code of the side whose corner is this entry of the element list.
fn code(slot: usize) -> u32 {
    (8 * (slot / 4 + 1) + slot % 4 + 1) as u32
}

//! Housings whose number, vertices − edges + elements, is known by construction.

use super::{any_extent, any_kinds, bipyramid, corners_of, fan, pillow, push_cell, reverse, sheet, sheet_of};
use super::{Dice, Kinds, List};
use std::collections::HashSet;

/// A housing and its number.
#[derive(Clone, Debug)]
pub struct Shaped {
    pub list: List,
    pub number: i64,
}

impl Shaped {
    /// Another housing beside this one: the numbers add up.
    fn beside(self, other: Shaped) -> Shaped {
        Shaped { list: self.list.beside(other.list), number: self.number + other.number }
    }

    /// Each vertex that no element uses is one more.
    fn with_unused(self, after: u32, count: u32) -> Shaped {
        Shaped { list: self.list.with_unused(after, count), number: self.number + i64::from(count) }
    }

    /// Of a closed housing: each element that is missing leaves all its edges to its neighbours, and is one less.
    pub fn with_openings(self, rarity: u32, dice: &mut Dice) -> Shaped {
        let m = self.list.rows.len();
        let list = self.list.with_openings(rarity, dice);
        let openings = m - list.rows.len();
        Shaped { number: self.number - openings as i64, list }
    }

    /// Of a housing with rims: its walls get two faces, with a band of cells along each rim from one to the other. The
    /// faces count twice, and each cell of a band is one element and one edge across; so the number is twice what it was.
    /// The result is closed, and each window of a plate is a handle.
    pub fn thickened(self, kinds: Kinds, dice: &mut Dice) -> Shaped {
        let List { n, rows: front } = self.list;
        let sides: HashSet<(u32, u32)> = front.iter().flat_map(sides_of).collect();
        let rims = front.iter().flat_map(sides_of).filter(|&(a, b)| !sides.contains(&(b, a)));
        let mut rows: Vec<[u32; 4]> = front.iter().map(|row| behind(row, n)).collect();
        for (a, b) in rims {
            push_cell(&mut rows, [b, a, a + n, b + n], kinds, dice);
        }
        Shaped { list: List { n: 2 * n, rows: [front, rows].concat() }, number: 2 * self.number }
    }
}

fn sides_of(row: &[u32; 4]) -> impl Iterator<Item = (u32, u32)> {
    let (row, corners) = (*row, corners_of(row));
    (0..corners).map(move |i| (row[i], row[(i + 1) % corners]))
}

/// An element of the other face, seen from behind.
fn behind(row: &[u32; 4], n: u32) -> [u32; 4] {
    let mut row = row.map(|v| if v == 0 { 0 } else { v + n });
    reverse(&mut row);
    row
}

/// An open sheet or a tube, with a window for about one in so many of the cells of odd column and line: these have no
/// corner on a rim, nor in common.
pub fn with_windows(width: u32, height: u32, tube: bool, rarity: u32, kinds: Kinds, dice: &mut Dice) -> Shaped {
    let within = |x: u32, y: u32| x % 2 == 1 && y % 2 == 1 && x + 1 < width && y + 1 < height;
    let cells = (0..height).flat_map(|y| (0..width).map(move |x| (x, y))).filter(|&(x, y)| within(x, y));
    let windows: HashSet<(u32, u32)> = cells.filter(|_| dice.once_in(rarity)).collect();
    let list = sheet_of((width, height), (tube, false), |x, y| !windows.contains(&(x, y)), kinds, dice);
    Shaped { list, number: !tube as i64 - windows.len() as i64 }
}

/// A housing with rims: a disc, a tube, or either with windows.
fn open(kinds: Kinds, dice: &mut Dice, size: u32) -> Shaped {
    let (width, height) = any_extent(dice, size);
    match dice.below(6) {
        0 => Shaped { list: fan(1 + dice.below(size), false), number: 1 },
        1 => Shaped { list: fan(3 + dice.below(size), true), number: 1 },
        2 => Shaped { list: sheet(width, height, (false, false), kinds, dice), number: 1 },
        3 => Shaped { list: sheet(2 + width, height, (true, false), kinds, dice), number: 0 },
        4 => with_windows(2 + width, 3 + height, true, 2, kinds, dice),
        _ => with_windows(3 + width, 3 + height, false, 2, kinds, dice),
    }
}

/// A closed housing: a sphere, a torus, or with as many handles as an open one has windows.
fn closed(kinds: Kinds, dice: &mut Dice, size: u32) -> Shaped {
    let (width, height) = any_extent(dice, size);
    match dice.below(6) {
        0 => Shaped { list: bipyramid(3 + dice.below(size / 2)), number: 2 },
        1 => Shaped { list: pillow(2 + width / 2, 2 + height / 2, Kinds::Triangles, dice), number: 2 },
        2 => Shaped { list: sheet(2 + width, 2 + height, (true, true), kinds, dice), number: 0 },
        _ => open(kinds, dice, size / 2).thickened(kinds, dice),
    }
}

fn one_shaped(dice: &mut Dice, size: u32) -> Shaped {
    let kinds = any_kinds(dice);
    match dice.below(3) {
        0 => open(kinds, dice, size),
        1 => closed(kinds, dice, size),
        _ => {
            let rarity = 2 + dice.below(9);
            closed(kinds, dice, size).with_openings(rarity, dice)
        }
    }
}

/// A housing of up to a few times `size` elements, perhaps others beside it, perhaps with unused vertices, put down
/// anyhow.
pub fn any_shaped(dice: &mut Dice, size: u32) -> Shaped {
    let mut shaped = one_shaped(dice, size);
    while dice.once_in(3) {
        shaped = shaped.beside(one_shaped(dice, size));
    }
    if dice.once_in(3) {
        let (after, count) = (dice.below(shaped.list.n + 1), 1 + dice.below(3));
        shaped = shaped.with_unused(after, count);
    }
    Shaped { list: shaped.list.put_down_anyhow(dice), ..shaped }
}

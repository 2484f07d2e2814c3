//! Housings with edges of three plates and more.

use super::{any_extent, any_kinds, one_housing, push_cell, reverse, sheet, Dice, Kinds, List};

impl List {
    /// A rib on a line of vertices, with upper vertices of its own, run along in either direction.
    fn with_rib(mut self, mut foot: Vec<u32>, kinds: Kinds, dice: &mut Dice) -> List {
        if dice.once_in(2) {
            foot.reverse();
        }
        for (upper, pair) in (self.n + 1..).zip(foot.windows(2)) {
            push_cell(&mut self.rows, [pair[0], pair[1], upper + 1, upper], kinds, dice);
        }
        self.n += foot.len() as u32;
        self
    }

    /// One plate in three is there again, perhaps begun at another corner or seen from behind.
    fn with_doubles(mut self, dice: &mut Dice) -> List {
        for f in 0..self.rows.len() {
            if dice.once_in(3) {
                let mut double = List::new(self.n, &self.rows[f..=f]).rotated(dice).rows[0];
                if dice.once_in(2) {
                    reverse(&mut double);
                }
                self.rows.push(double);
            }
        }
        self
    }
}

/// A panel with ribs along and across, some of them on the same line.
fn ribbed(size: u32, dice: &mut Dice) -> List {
    let kinds = any_kinds(dice);
    let (width, height) = any_extent(dice, size);
    let mut list = sheet(width, height, (false, false), kinds, dice);
    let vertex = |x: u32, y: u32| 1 + x + (width + 1) * y;
    for _ in 0..1 + dice.below(5) {
        let (x, y) = (dice.below(width + 1), dice.below(height + 1));
        let along = || (0..=width).map(|x| vertex(x, y)).collect();
        let across = || (0..=height).map(|y| vertex(x, y)).collect();
        let foot = if dice.once_in(2) { along() } else { across() };
        list = list.with_rib(foot, kinds, dice);
    }
    list
}

/// Leaves on the edge of vertices 1 and 2, in either direction, with outer corners among all n vertices.
pub fn leaves(n: u32, count: u32, kinds: Kinds, dice: &mut Dice) -> List {
    let mut leaf = || {
        let spine = if dice.once_in(2) { [1, 2] } else { [2, 1] };
        let outer = dice.below(n - 2);
        let other = (outer + 1 + dice.below(n - 3)) % (n - 2);
        let is_triangle = kinds == Kinds::Triangles || (kinds == Kinds::Mixed && dice.once_in(2));
        [spine[0], spine[1], 3 + outer, if is_triangle { 0 } else { 3 + other }]
    };
    List { n, rows: (0..count).map(|_| leaf()).collect() }
}

/// Elements of any corners, at least four to choose from: with few vertices many meet at each edge.
pub fn crowd(n: u32, count: u32, dice: &mut Dice) -> List {
    let mut vertices: Vec<u32> = (1..=n).collect();
    let mut any_row = || {
        for at in 0..4 {
            vertices.swap(at, at + dice.below(n - at as u32) as usize);
        }
        let fourth = if dice.once_in(2) { vertices[3] } else { 0 };
        [vertices[0], vertices[1], vertices[2], fourth]
    };
    List { n, rows: (0..count).map(|_| any_row()).collect() }
}

/// A housing of up to about `size` elements, put down anyhow, most with an edge of three plates; some damaged, some
/// with unused vertices.
pub fn any_stiffened(dice: &mut Dice, size: u32) -> List {
    let kinds = any_kinds(dice);
    let mut list = match dice.below(5) {
        0 => leaves(4 + dice.below(size), 1 + dice.below(size), kinds, dice).rotated(dice),
        1 => crowd(4 + dice.below(6), 1 + dice.below(size), dice),
        2 => one_housing(dice, size).with_doubles(dice),
        _ => ribbed(size, dice),
    };
    if dice.once_in(4) {
        list = list.beside(ribbed(size, dice));
    }
    list = list.put_down_anyhow(dice);
    if dice.once_in(5) {
        list = list.damaged(dice);
    }
    if dice.once_in(4) {
        list = list.with_some_unused(dice);
    }
    list
}

//! Element lists to try the calls on: housings that are sound, and housings that aren't.

pub mod shaped;
pub mod stiffened;

/// A generator of numbers that a seed fixes.
pub struct Dice(u64);

impl Dice {
    pub fn new(seed: u64) -> Dice {
        Dice(seed | 1)
    }

    /// xorshift64*
    pub fn number(&mut self) -> u32 {
        self.0 ^= self.0 >> 12;
        self.0 ^= self.0 << 25;
        self.0 ^= self.0 >> 27;
        (self.0.wrapping_mul(0x2545_F491_4F6C_DD1D) >> 32) as u32
    }

    /// 0 to bound - 1
    pub fn below(&mut self, bound: u32) -> u32 {
        self.number() % bound.max(1)
    }

    /// True once in so many times.
    pub fn once_in(&mut self, times: u32) -> bool {
        self.below(times) == 0
    }

    pub fn index<T>(&mut self, of: &[T]) -> usize {
        self.below(of.len() as u32) as usize
    }
}

#[derive(Clone, Copy, PartialEq, Eq)]
pub enum Kinds {
    Triangles,
    Quadrilaterals,
    Mixed,
}

#[derive(Clone, Debug, Default)]
pub struct List {
    pub n: u32,
    pub rows: Vec<[u32; 4]>,
}

impl List {
    pub fn new(n: u32, rows: &[[u32; 4]]) -> List {
        List { n, rows: rows.to_vec() }
    }

    /// The element list as the calls take it.
    pub fn entries(&self) -> &[u32] {
        self.rows.as_flattened()
    }

    /// Another list beside this one, on vertices of its own.
    pub fn beside(mut self, other: List) -> List {
        let n = self.n;
        self.rows.extend(other.rows.iter().map(|row| row.map(|v| if v == 0 { 0 } else { v + n })));
        self.n += other.n;
        self
    }

    pub fn renumbered(mut self, dice: &mut Dice) -> List {
        let mut numbers: Vec<u32> = (1..=self.n).collect();
        shuffle(&mut numbers, dice);
        for v in self.rows.as_flattened_mut() {
            if (1..=numbers.len()).contains(&(*v as usize)) {
                *v = numbers[*v as usize - 1];
            }
        }
        self
    }

    pub fn shuffled(mut self, dice: &mut Dice) -> List {
        shuffle(&mut self.rows, dice);
        self
    }

    pub fn rotated(mut self, dice: &mut Dice) -> List {
        for row in &mut self.rows {
            let corners = corners_of(row);
            row[..corners].rotate_left(dice.below(corners as u32) as usize);
        }
        self
    }

    pub fn turned_over(mut self) -> List {
        self.rows.iter_mut().for_each(reverse);
        self
    }

    /// Numbered, ordered, begun and seen from either side by chance.
    pub fn put_down_anyhow(mut self, dice: &mut Dice) -> List {
        if dice.once_in(2) {
            self = self.renumbered(dice);
        }
        if dice.once_in(2) {
            self = self.shuffled(dice);
        }
        if dice.once_in(2) {
            self = self.rotated(dice);
        }
        if dice.once_in(4) {
            self = self.turned_over();
        }
        self
    }

    /// So many vertices that no element uses, after vertex `after` or, for 0, in front.
    pub fn with_unused(mut self, after: u32, count: u32) -> List {
        self.rows.as_flattened_mut().iter_mut().filter(|v| **v > after).for_each(|v| *v += count);
        self.n += count;
        self
    }

    /// Unused vertices in front, in the middle or at the end: a few, or many more than there are elements.
    fn with_some_unused(self, dice: &mut Dice) -> List {
        let after = [0, dice.below(self.n), self.n][dice.below(3) as usize];
        let most = if dice.once_in(4) { 16 * self.rows.len().min(1000) as u32 } else { 3 };
        self.with_unused(after, 1 + dice.below(most))
    }

    /// Another list in place of an element: it and one of the other list go, and the rims that they leave become one.
    /// Where the other list has no element with as many corners, it is put beside.
    pub fn with_glued(self, other: List, dice: &mut Dice) -> List {
        let m = self.rows.len();
        let f = dice.index(&self.rows);
        let corners = corners_of(&self.rows[f]);
        let Some(g) = other.rows.iter().position(|row| corners_of(row) == corners) else { return self.beside(other) };
        let mut list = self.beside(other);
        let (rim, mut other_rim) = (list.rows[f], list.rows.remove(m + g));
        list.rows.remove(f);
        reverse(&mut other_rim);
        for v in list.rows.as_flattened_mut().iter_mut().filter(|v| **v != 0) {
            if let Some(at) = other_rim.iter().position(|gone| gone == v) {
                *v = rim[at];
            }
        }
        list.closed_up()
    }

    /// About one element in so many is missing, and no two of these have a corner in common.
    pub fn with_openings(mut self, rarity: u32, dice: &mut Dice) -> List {
        let mut is_open = vec![false; self.n as usize + 1];
        self.rows.retain(|row| {
            let corners = &row[..corners_of(row)];
            let stays = corners.iter().any(|&v| is_open[v as usize]) || !dice.once_in(rarity);
            corners.iter().for_each(|&v| is_open[v as usize] |= !stays);
            stays
        });
        self
    }

    /// Vertices without an element go, and the others close up.
    fn closed_up(mut self) -> List {
        let mut used: Vec<u32> = self.entries().iter().copied().filter(|&v| v != 0).collect();
        used.sort();
        used.dedup();
        for v in self.rows.as_flattened_mut() {
            if *v != 0 {
                *v = used.partition_point(|u| u < v) as u32 + 1;
            }
        }
        self.n = used.len() as u32;
        self
    }

    /// One slip of a mesher, chosen at random.
    pub fn damaged(mut self, dice: &mut Dice) -> List {
        if self.rows.is_empty() || self.n == 0 {
            return self;
        }
        let f = dice.index(&self.rows);
        let mut row = self.rows[f];
        match dice.below(8) {
            0 => reverse(&mut self.rows[f]),
            1 => self.rows.push(row),
            2 => {
                reverse(&mut row);
                self.rows.push(row);
            }
            3 => _ = self.rows.remove(f),
            4 => {
                self.rows.remove(f);
                return self.closed_up();
            }
            5 => {
                let (a, b) = (1 + dice.below(self.n), 1 + dice.below(self.n));
                self.rows.as_flattened_mut().iter_mut().filter(|v| **v == a).for_each(|v| *v = b);
                return self.closed_up();
            }
            6 => self.rows[f][dice.below(4) as usize] = dice.below(self.n + 2),
            _ => self.n -= 1,
        }
        self
    }
}

pub fn shuffle<T>(of: &mut [T], dice: &mut Dice) {
    for last in (1..of.len()).rev() {
        of.swap(last, dice.below(last as u32 + 1) as usize);
    }
}

pub fn corners_of(row: &[u32]) -> usize {
    if row[3] == 0 {
        3
    } else {
        4
    }
}

fn reverse(row: &mut [u32; 4]) {
    let corners = corners_of(row);
    row[..corners].reverse();
}

/// A cell as one quadrilateral or as two triangles, on either diagonal where kinds are mixed.
fn push_cell(rows: &mut Vec<[u32; 4]>, [a, b, c, d]: [u32; 4], kinds: Kinds, dice: &mut Dice) {
    let mixed = kinds == Kinds::Mixed;
    if kinds == Kinds::Quadrilaterals || (mixed && dice.once_in(2)) {
        rows.push([a, b, c, d]);
    } else if mixed && dice.once_in(2) {
        rows.extend([[b, c, d, 0], [d, a, b, 0]]);
    } else {
        rows.extend([[a, b, c, 0], [a, c, d, 0]]);
    }
}

/// A sheet of width × height cells. Closed in one direction it is a tube, in both it has no border.
pub fn sheet(width: u32, height: u32, closed: (bool, bool), kinds: Kinds, dice: &mut Dice) -> List {
    sheet_of((width, height), closed, |_, _| true, kinds, dice)
}

/// The same with only those cells, by column and line from 0, that are there.
fn sheet_of(
    (width, height): (u32, u32),
    closed: (bool, bool),
    is_there: impl Fn(u32, u32) -> bool,
    kinds: Kinds,
    dice: &mut Dice,
) -> List {
    let columns = width + !closed.0 as u32;
    let lines = height + !closed.1 as u32;
    let vertex = |x: u32, y: u32| 1 + x % columns + columns * (y % lines);
    let mut rows = Vec::new();
    for (y, x) in (0..height).flat_map(|y| (0..width).map(move |x| (y, x))).filter(|&(y, x)| is_there(x, y)) {
        let cell = [vertex(x, y), vertex(x + 1, y), vertex(x + 1, y + 1), vertex(x, y + 1)];
        push_cell(&mut rows, cell, kinds, dice);
    }
    List { n: columns * lines, rows }
}

/// Two sheets with the whole rim in common: the second is the first seen from behind, with inner vertices of its own.
/// Quadrilaterals clash at the rim's corners, triangles nowhere. A sheet is one cell, or at least two wide and high:
/// otherwise the two would have inner edges in common too.
pub fn pillow(width: u32, height: u32, kinds: Kinds, dice: &mut Dice) -> List {
    let List { n, rows: front } = sheet(width, height, (false, false), kinds, dice);
    let columns = width + 1;
    let behind = |v: u32| {
        let (x, y) = (width - (v - 1) % columns, (v - 1) / columns);
        let on_rim = x == 0 || x == width || y == 0 || y == height;
        1 + x + columns * y + if on_rim { 0 } else { n }
    };
    let back: Vec<[u32; 4]> = front.iter().map(|row| row.map(|v| if v == 0 { 0 } else { behind(v) })).collect();
    List { n: 2 * n, rows: [front, back].concat() }.closed_up()
}

/// A strip of cells wound to a tube, so many around it; closed, it runs on into its own start. Quadrilaterals two
/// around clash, and others do where the strip is closed and short.
pub fn wound(around: u32, count: u32, closed: bool, kinds: Kinds, dice: &mut Dice) -> List {
    let n = if closed { count } else { count + around + 1 };
    let vertex = |i: u32| 1 + i % n;
    let mut rows = Vec::new();
    for i in 0..count {
        let cell = [vertex(i), vertex(i + 1), vertex(i + around + 1), vertex(i + around)];
        push_cell(&mut rows, cell, kinds, dice);
    }
    List { n, rows }
}

/// What lies between two meridians of a globe.
#[derive(Clone, Copy)]
pub enum Sector {
    /// one quadrilateral, with a diagonal from pole to pole
    Whole,
    /// two triangles on an edge from pole to pole
    SplitAlong,
    /// two triangles on an edge of the equator
    SplitAcross,
    /// four triangles about a vertex of its own
    Star,
}

/// Sectors from pole to pole, vertices 1 and 2, all around or with a gap. An element that is a whole sector clashes
/// with every other element that has both poles.
pub fn globe(sectors: &[Sector], closed: bool) -> List {
    let meridians = sectors.len() as u32 + !closed as u32;
    let mut list = List { n: 2 + meridians, rows: Vec::new() };
    for (i, sector) in (0..).zip(sectors) {
        let (a, b) = (3 + i, 3 + (i + 1) % meridians);
        match sector {
            Sector::Whole => list.rows.push([1, a, 2, b]),
            Sector::SplitAlong => list.rows.extend([[1, a, 2, 0], [1, 2, b, 0]]),
            Sector::SplitAcross => list.rows.extend([[1, a, b, 0], [2, b, a, 0]]),
            Sector::Star => {
                list.n += 1;
                let v = list.n;
                list.rows.extend([[1, a, v, 0], [a, 2, v, 0], [2, b, v, 0], [b, 1, v, 0]]);
            }
        }
    }
    list
}

/// A globe with whole sectors here and there, or with hardly any.
pub fn any_globe(dice: &mut Dice, size: u32) -> List {
    let count = 2 + dice.below(size / 3);
    let rarity = [3, count][dice.below(2) as usize];
    let mut any_sector = || {
        if dice.once_in(rarity) {
            [Sector::Whole, Sector::Whole, Sector::SplitAlong][dice.below(3) as usize]
        } else {
            [Sector::SplitAcross, Sector::Star][dice.below(2) as usize]
        }
    };
    let sectors: Vec<Sector> = (0..count).map(|_| any_sector()).collect();
    globe(&sectors, dice.once_in(2))
}

/// Triangles about vertex 1; a closed fan has no border there.
pub fn fan(count: u32, closed: bool) -> List {
    let rim = count + !closed as u32;
    let rows = (0..count).map(|i| [1, 2 + i, 2 + (i + 1) % rim, 0]).collect();
    List { n: 1 + rim, rows }
}

/// Two closed fans on one rim: a closed surface.
pub fn bipyramid(count: u32) -> List {
    let rim = |i: u32| 3 + i % count;
    let rows = (0..count).flat_map(|i| [[1, rim(i), rim(i + 1), 0], [2, rim(i + 1), rim(i), 0]]).collect();
    List { n: 2 + count, rows }
}

/// Triangles on the edge of vertices 1 and 2, one way and the other, over n vertices.
pub fn book(n: u32, count: u32) -> List {
    let rows = (0..count).map(|i| [1 + i % 2, 2 - i % 2, 3 + i % (n - 2), 0]).collect();
    List { n, rows }
}

pub fn any_kinds(dice: &mut Dice) -> Kinds {
    [Kinds::Triangles, Kinds::Quadrilaterals, Kinds::Mixed][dice.below(3) as usize]
}

/// Width and height of a sheet of up to about so many elements.
fn any_extent(dice: &mut Dice, size: u32) -> (u32, u32) {
    let width = 1 + dice.below(1 + size / 3);
    (width, 1 + dice.below(1 + size / (2 * width)))
}

fn one_housing(dice: &mut Dice, size: u32) -> List {
    let kinds = any_kinds(dice);
    housing_of(kinds, dice, size)
}

/// A housing of up to about `size` elements; fans, bipyramids and books have triangles alone.
pub fn housing_of(kinds: Kinds, dice: &mut Dice, size: u32) -> List {
    let (width, height) = any_extent(dice, size);
    match dice.below(10) {
        0 => fan(1 + dice.below(size), false),
        1 => fan(3 + dice.below(size), true),
        2 => bipyramid(3 + dice.below(size / 2)),
        3 => book(3 + dice.below(size), 1 + dice.below(size)),
        4 => sheet(2 + width, height, (true, false), kinds, dice),
        5 => sheet(2 + width, 2 + height, (true, true), kinds, dice),
        6 => pillow(2 + width / 2, 2 + height / 2, kinds, dice),
        7 => wound(2 + dice.below(3), 1 + dice.below(size), dice.once_in(2), kinds, dice),
        8 => any_globe(dice, size),
        _ => sheet(width, height, (false, false), kinds, dice),
    }
}

/// A housing of up to about `size` elements or of none, perhaps another beside it, put down anyhow, one in three
/// damaged, one in three with unused vertices.
pub fn any_housing(dice: &mut Dice, size: u32) -> List {
    let mut list = if dice.once_in(15) { List::new(dice.below(size), &[]) } else { one_housing(dice, size) };
    if dice.once_in(4) {
        list = list.beside(one_housing(dice, size));
    }
    list = list.put_down_anyhow(dice);
    if dice.once_in(3) {
        for _ in 0..1 + dice.below(3) {
            list = list.damaged(dice);
        }
    }
    if dice.once_in(3) {
        for _ in 0..1 + dice.below(3) {
            list = list.with_some_unused(dice);
        }
    }
    list
}

/// Makes some entries of a table wrong; `codes` bounds what they then name, mostly.
pub fn damage(table: &mut [u32], codes: u32, dice: &mut Dice) {
    if table.is_empty() {
        return;
    }
    for _ in 0..1 + dice.below(3) {
        let (at, other) = (dice.index(table), dice.index(table));
        match dice.below(9) {
            0 => table[at] = 0,
            1 => table[at] = table[at].wrapping_add(1),
            2 => table[at] = table[at].wrapping_sub(1),
            3 => table[at] = dice.number(),
            4 => table[at] = table[other],
            5 => table[at] = 8 * dice.below(codes / 8 + 2),
            6 | 7 => table[at] = dice.below(codes),
            _ => table.swap(at, other),
        }
    }
}

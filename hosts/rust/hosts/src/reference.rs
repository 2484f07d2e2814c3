//! The rules that docs/TRACE.md quotes and the crates of rules define, by other means than the kernel's: sides meet in
//! a hash map keyed by their vertices, as in section 3.2 of T. J. Alumbaugh and X. Jiao, "Compact Array-Based Mesh Data
//! Structures". Nothing is written in place: each function gives what a call would answer and write.

pub mod contract;
pub mod edited;
pub mod holes;
mod midway;
pub mod off;
pub mod shape;
pub mod siblings;
pub mod split;
pub mod swap;

use std::collections::HashMap;

const MAX_VERTICES: u32 = 1_000_000;
const MAX_ELEMENTS: usize = 1_000_000;
/// In lists of up to so many elements each two are looked at.
const FEW: u32 = 40;

/// A refusal's number and the two numbers of its place.
pub type Refused = (u32, u32, u32);

/// What building writes: `b2e` has k entries.
#[derive(Clone, Debug, PartialEq, Eq)]
pub struct Built {
    pub v2e: Vec<u32>,
    pub e2e: Vec<u32>,
    pub b2e: Vec<u32>,
    pub edges: u32,
}

/// The lengths of the buffers of building, recovery, siblings and shape.
#[derive(Clone, Copy, Debug)]
pub struct Lengths {
    pub elements: usize,
    pub v2e: usize,
    pub e2e: usize,
    pub b2e: usize,
    pub work: usize,
}

/// An element list: rows of four, the fourth entry 0 in a row of three sides.
#[derive(Clone, Copy)]
struct Rows<'a>(&'a [u32]);

/// A side by element and number, both from 1.
#[derive(Clone, Copy, Debug, PartialEq, Eq, PartialOrd, Ord)]
struct Side {
    f: u32,
    i: u32,
}

impl Side {
    fn code(self) -> u32 {
        8 * self.f + self.i
    }

    /// Where it stands in rows of so many columns.
    fn place(self, columns: u32) -> usize {
        (columns * (self.f - 1) + self.i - 1) as usize
    }

    fn slot(self) -> usize {
        self.place(4)
    }
}

/// E2e in so many columns.
#[derive(Clone, Copy)]
struct Opposites<'a> {
    columns: u32,
    entries: &'a [u32],
}

impl Opposites<'_> {
    /// The entry of a side; none for a fourth side in three columns.
    fn entry(self, s: Side) -> Option<u32> {
        (s.i <= self.columns).then(|| self.entries[s.place(self.columns)])
    }
}

impl<'a> Rows<'a> {
    fn elements(self) -> u32 {
        (self.0.len() / 4) as u32
    }

    fn sides_of(self, f: u32) -> u32 {
        if self.0[4 * f as usize - 1] == 0 {
            3
        } else {
            4
        }
    }

    fn sides(self) -> impl Iterator<Item = Side> + 'a {
        (1..=self.elements()).flat_map(move |f| (1..=self.sides_of(f)).map(move |i| Side { f, i }))
    }

    fn side(self, code: u32) -> Option<Side> {
        let side = Side { f: code / 8, i: code % 8 };
        let there = (1..=self.elements()).contains(&side.f) && (1..=self.sides_of(side.f)).contains(&side.i);
        there.then_some(side)
    }

    fn next(self, s: Side) -> Side {
        let i = if s.i == self.sides_of(s.f) { 1 } else { s.i + 1 };
        Side { f: s.f, i }
    }

    fn previous(self, s: Side) -> Side {
        let i = if s.i == 1 { self.sides_of(s.f) } else { s.i - 1 };
        Side { f: s.f, i }
    }

    fn origin(self, s: Side) -> u32 {
        self.0[s.slot()]
    }

    fn destination(self, s: Side) -> u32 {
        self.origin(self.next(s))
    }

    /// The two vertices that a side joins, the lower first.
    fn ends(self, s: Side) -> (u32, u32) {
        let (a, b) = (self.origin(s), self.destination(s));
        (a.min(b), a.max(b))
    }

    fn corners(self, f: u32) -> &'a [u32] {
        &self.0[4 * f as usize - 4..][..self.sides_of(f) as usize]
    }

    /// Whether a side of the element joins these two vertices, in either direction.
    fn joins(self, f: u32, a: u32, b: u32) -> bool {
        let mut sides = (1..=self.sides_of(f)).map(|i| Side { f, i });
        sides.any(|s| [(a, b), (b, a)].contains(&(self.origin(s), self.destination(s))))
    }
}

/// The columns of E2e for an element list: only whole rows count.
pub fn columns_of(elements: &[u32]) -> u32 {
    let is_quadrilateral = |row: &[u32]| row[3] != 0;
    if elements.chunks_exact(4).any(is_quadrilateral) {
        4
    } else {
        3
    }
}

fn check_sizes(n: u32, m: usize, elements: usize) -> Result<(), Refused> {
    if n > MAX_VERTICES || m > MAX_ELEMENTS || elements % 4 != 0 {
        return Err((1, 0, 0));
    }
    Ok(())
}

pub fn columns(n: u32, elements: &[u32]) -> Result<u32, Refused> {
    check_sizes(n, elements.len() / 4, elements.len())?;
    Ok(columns_of(elements))
}

/// Checks 1 and 2 of building.
pub fn check_build(n: u32, elements: &[u32], lengths: Lengths) -> Result<(), Refused> {
    let columns = columns(n, elements)? as usize;
    let (n, m) = (n as usize, elements.len() / 4);
    let fit = lengths.v2e == n && lengths.e2e == columns * m && lengths.work >= n + 16 * m;
    fit.then_some(()).ok_or(UNFIT)
}

/// Checks 1 and 2 of recovery.
pub fn check_recovery(n: u32, m: u32, lengths: Lengths) -> Result<(), Refused> {
    let (vertices, m) = (n as usize, m as usize);
    check_sizes(n, m, lengths.elements)?;
    let fit = lengths.v2e == vertices
        && (lengths.e2e == 3 * m || lengths.e2e == 4 * m)
        && lengths.elements == 4 * m
        && lengths.work >= vertices + 16 * m;
    fit.then_some(()).ok_or(UNFIT)
}

fn check_corners(n: u32, elements: &[u32]) -> Result<(), Refused> {
    let rows = || (1..).zip(elements.chunks(4));
    for (f, row) in rows() {
        if let Some(at) = (0..4).find(|&at| row[at] > n || (at < 3 && row[at] == 0)) {
            return Err((3, f, at as u32 + 1));
        }
    }
    for (f, row) in rows() {
        if let Some(at) = (0..4).find(|&at| row[at] != 0 && row[..at].contains(&row[at])) {
            return Err((4, f, at as u32 + 1));
        }
    }
    Ok(())
}

/// The sides with each vertex as origin, in order of code.
fn sides_by_origin(n: u32, rows: Rows) -> Vec<Vec<Side>> {
    let mut by_origin = vec![Vec::new(); n as usize];
    for s in rows.sides() {
        by_origin[rows.origin(s) as usize - 1].push(s);
    }
    by_origin
}

/// The code of the least side with each vertex as origin; 0 where there is none.
fn least_sides(by_origin: &[Vec<Side>]) -> Vec<u32> {
    by_origin.iter().map(|sides| sides.first().map_or(0, |s| s.code())).collect()
}

/// The sides that join two vertices: how many, and the first two.
#[derive(Clone, Copy)]
struct Group {
    count: u32,
    first: Side,
    second: Side,
}

/// The pairing: for the slot of each side its partner, or none at a border.
fn pair(rows: Rows) -> Result<Vec<Option<Side>>, Refused> {
    let mut groups: HashMap<(u32, u32), Group> = HashMap::new();
    for s in rows.sides() {
        let group = groups.entry(rows.ends(s)).or_insert(Group { count: 0, first: s, second: s });
        group.count += 1;
        if group.count == 2 {
            group.second = s;
        }
    }
    // The first side of a group is the least of it.
    let crowded = groups.values().filter(|group| group.count >= 3).map(|group| group.first);
    if let Some(s) = crowded.min() {
        return Err((6, s.f, s.i));
    }
    let runs_alike = |group: &&Group| group.count == 2 && rows.origin(group.first) == rows.origin(group.second);
    if let Some(s) = groups.values().filter(runs_alike).map(|group| group.first).min() {
        return Err((7, s.f, s.i));
    }
    let mut partners = vec![None; rows.0.len()];
    for group in groups.values().filter(|g| g.count == 2) {
        partners[group.first.slot()] = Some(group.second);
        partners[group.second.slot()] = Some(group.first);
    }
    Ok(partners)
}

/// Whether the sides at one vertex, all of them, can be listed so that each is the turn of the one before. No sides are
/// listed by the empty list.
fn has_turn_order(rows: Rows, partners: &[Option<Side>], sides: &[Side]) -> bool {
    let turn = |s: Side| partners[s.slot()].map(|partner| rows.next(partner));
    let nobodys_turn = |s: &Side| partners[rows.previous(*s).slot()].is_none();
    let Some(&first) = sides.iter().find(|s| nobodys_turn(s)).or(sides.first()) else { return true };
    let mut order = vec![first];
    let mut last = first;
    while let Some(s) = turn(last).filter(|&s| s != first) {
        if order.len() == sides.len() {
            return false;
        }
        order.push(s);
        last = s;
    }
    order.sort();
    order == sides && (turn(last) == Some(first) || nobodys_turn(&first))
}

fn tables_of(rows: Rows, partners: &[Option<Side>], by_origin: &[Vec<Side>]) -> Built {
    let columns = columns_of(rows.0);
    let e2e = vec![0; (columns * rows.elements()) as usize];
    let mut built = Built { v2e: least_sides(by_origin), e2e, b2e: Vec::new(), edges: 0 };
    for s in rows.sides() {
        built.e2e[s.place(columns)] = match partners[s.slot()] {
            Some(partner) => partner.code(),
            None => {
                built.b2e.push(s.code());
                let border = 8 * built.b2e.len() as u32;
                built.v2e[rows.destination(s) as usize - 1] = border;
                border
            }
        };
    }
    built.edges = (rows.sides().count() + built.b2e.len()) as u32 / 2;
    built
}

/// Whether two elements share no corner, one corner, or exactly two that are a side of both.
fn meet_well(rows: Rows, f: u32, g: u32) -> bool {
    let others = rows.corners(g);
    let shared: Vec<u32> = rows.corners(f).iter().copied().filter(|v| others.contains(v)).collect();
    match shared[..] {
        [] | [_] => true,
        [a, b] => rows.joins(f, a, b) && rows.joins(g, a, b),
        _ => false,
    }
}

/// The least pair of elements that don't meet well, lower number first.
fn clash_of_all(rows: Rows) -> Option<(u32, u32)> {
    let m = rows.elements();
    let mut pairs = (1..=m).flat_map(|f| (f + 1..=m).map(move |g| (f, g)));
    pairs.find(|&(f, g)| !meet_well(rows, f, g))
}

/// The same among elements with two corners in common, where at most two sides join the same two vertices. Of three
/// elements with the same two corners one then has no side there and clashes with both others. So the least of all that
/// have these corners clashes with one of the next two, and only pairs with it need a look.
fn clash_by_corners(rows: Rows, by_origin: &[Vec<Side>]) -> Option<(u32, u32)> {
    // For each vertex the lower vertex that it was last seen with in an element, and the least such element.
    let mut seen = vec![(0, 0); by_origin.len() + 1];
    let mut clashes = None;
    for (a, sides) in (1..).zip(by_origin) {
        for &Side { f, .. } in sides {
            for &b in rows.corners(f).iter().filter(|&&b| a < b) {
                let (with, least) = seen[b as usize];
                if with != a {
                    seen[b as usize] = (a, f);
                } else if !meet_well(rows, least, f) {
                    clashes = clashes.into_iter().chain([(least, f)]).min();
                }
            }
        }
    }
    clashes
}

/// Where there are few elements, two searches for the same.
fn clash(rows: Rows, by_origin: &[Vec<Side>]) -> Option<(u32, u32)> {
    let clash = clash_by_corners(rows, by_origin);
    if rows.elements() <= FEW {
        assert_eq!(clash, clash_of_all(rows), "the reference's two searches differ");
    }
    clash
}

/// The partner of each side, by slots, and the sides with each vertex as origin.
struct Paired {
    partners: Vec<Option<Side>>,
    by_origin: Vec<Vec<Side>>,
}

/// Checks 3, 4 and 6 to 8.
fn paired(n: u32, elements: &[u32]) -> Result<Paired, Refused> {
    check_corners(n, elements)?;
    let rows = Rows(elements);
    let partners = pair(rows)?;
    let by_origin = sides_by_origin(n, rows);
    if let Some(v) = by_origin.iter().position(|sides| !has_turn_order(rows, &partners, sides)) {
        return Err((8, v as u32 + 1, 0));
    }
    Ok(Paired { partners, by_origin })
}

/// What the pairing of a list gives, whether its elements clash or not.
pub fn tables_by_pairing(n: u32, elements: &[u32]) -> Result<Built, Refused> {
    let Paired { partners, by_origin } = paired(n, elements)?;
    Ok(tables_of(Rows(elements), &partners, &by_origin))
}

/// Checks 3, 4, 6 to 8 and 18, and the tables of an accepted list.
pub fn tables(n: u32, elements: &[u32]) -> Result<Built, Refused> {
    let rows = Rows(elements);
    let Paired { partners, by_origin } = paired(n, elements)?;
    match clash(rows, &by_origin) {
        Some((f, g)) => Err((18, f, g)),
        None => Ok(tables_of(rows, &partners, &by_origin)),
    }
}

pub fn build(n: u32, elements: &[u32], lengths: Lengths) -> Result<Built, Refused> {
    check_build(n, elements, lengths)?;
    let built = tables(n, elements)?;
    if built.b2e.len() > lengths.b2e {
        return Err((9, built.b2e.len() as u32, 0));
    }
    Ok(built)
}

/// A side that begins at the vertex with this V2e entry; none for 0.
fn side_from(entry: u32, rows: Rows, borders: &[Side]) -> Option<Side> {
    if entry % 8 != 0 {
        return rows.side(entry);
    }
    let b = (entry / 8).checked_sub(1)?;
    borders.get(b as usize).map(|&s| rows.next(s))
}

/// The only list of m rows that can have these tables: each vertex spreads from its V2e entry over the sides that E2e
/// ties to it, either way round.
fn candidate(m: u32, v2e: &[u32], e2e: Opposites) -> Vec<u32> {
    // Triangles and quadrilaterals as E2e has them; their corners aren't known yet.
    let kinds: Vec<u32> = (1..=m).flat_map(|f| [1, 1, 1, e2e.entry(Side { f, i: 4 }).unwrap_or(0)]).collect();
    let rows = Rows(&kinds);
    let partner = |s: Side| e2e.entry(s).and_then(|code| rows.side(code));
    let borders: Vec<Side> = rows.sides().filter(|&s| e2e.entry(s).is_some_and(|code| code % 8 == 0)).collect();
    let mut list = vec![0; kinds.len()];
    for (v, &entry) in (1..).zip(v2e) {
        let mut open: Vec<Side> = side_from(entry, rows, &borders).into_iter().collect();
        while let Some(s) = open.pop() {
            if list[s.slot()] != 0 {
                continue;
            }
            list[s.slot()] = v;
            open.extend(partner(s).map(|partner| rows.next(partner)));
            open.extend(partner(rows.previous(s)));
        }
    }
    list
}

pub fn recover(n: u32, m: u32, v2e: &[u32], e2e: &[u32], lengths: Lengths) -> Result<Vec<u32>, Refused> {
    check_recovery(n, m, lengths)?;
    let columns = if e2e.len() == 4 * m as usize { 4 } else { 3 };
    let list = candidate(m, v2e, Opposites { columns, entries: e2e });
    match tables(n, &list) {
        Ok(built) if built.v2e == v2e && built.e2e == e2e => Ok(list),
        _ => Err((10, 0, 0)),
    }
}

const UNFIT: Refused = (2, 0, 0);
const NOT_THERE: Refused = (11, 0, 0);
const BROKEN: Refused = (12, 0, 0);

/// A half-edge that a code names.
#[derive(Clone, Copy)]
enum HalfEdge {
    Side(Side),
    Border(u32),
}

impl HalfEdge {
    fn code(self) -> u32 {
        match self {
            HalfEdge::Side(s) => s.code(),
            HalfEdge::Border(b) => 8 * b,
        }
    }
}

/// What a query is given, of any length and content.
#[derive(Clone, Copy, Debug)]
pub struct View<'a> {
    pub n: u32,
    /// The columns that the query is told.
    pub told: u32,
    pub elements: &'a [u32],
    pub v2e: &'a [u32],
    pub e2e: &'a [u32],
    pub b2e: &'a [u32],
}

impl<'a> View<'a> {
    /// Checks 1 and 2, and the tables as the query then reads them.
    pub fn fit(&self) -> Result<Mesh<'a>, Refused> {
        let (n, m) = (self.n as usize, self.elements.len() / 4);
        check_sizes(self.n, m, self.elements.len())?;
        let columns = match self.told {
            0 => columns_of(self.elements),
            3 | 4 => self.told,
            _ => return Err(UNFIT),
        };
        if self.v2e.len() != n || self.e2e.len() != columns as usize * m || self.b2e.len() > 4 * m {
            return Err(UNFIT);
        }
        let e2e = Opposites { columns, entries: self.e2e };
        Ok(Mesh { n: self.n, rows: Rows(self.elements), v2e: self.v2e, e2e, b2e: self.b2e })
    }
}

/// Tables of fit lengths and any content.
#[derive(Clone, Copy)]
pub struct Mesh<'a> {
    n: u32,
    rows: Rows<'a>,
    v2e: &'a [u32],
    e2e: Opposites<'a>,
    b2e: &'a [u32],
}

/// start side, next side, count
pub type Record = (u32, u32, u32);

impl Mesh<'_> {
    fn half_edge(&self, code: u32) -> Option<HalfEdge> {
        if code % 8 != 0 {
            return self.rows.side(code).map(HalfEdge::Side);
        }
        (1..=self.b2e.len()).contains(&(code as usize / 8)).then_some(HalfEdge::Border(code / 8))
    }

    fn asked_half_edge(&self, code: u32) -> Result<HalfEdge, Refused> {
        self.half_edge(code).ok_or(NOT_THERE)
    }

    fn asked_side(&self, code: u32) -> Result<Side, Refused> {
        self.rows.side(code).ok_or(NOT_THERE)
    }

    fn asked_vertex(&self, v: u32) -> Result<u32, Refused> {
        self.vertex(v).ok_or(NOT_THERE)
    }

    fn vertex(&self, v: u32) -> Option<u32> {
        (1..=self.n).contains(&v).then_some(v)
    }

    fn read_e2e(&self, s: Side) -> Result<HalfEdge, Refused> {
        self.e2e.entry(s).and_then(|code| self.half_edge(code)).ok_or(BROKEN)
    }

    fn read_b2e(&self, b: u32) -> Result<Side, Refused> {
        self.rows.side(self.b2e[b as usize - 1]).ok_or(BROKEN)
    }

    /// None for an unused vertex.
    fn read_v2e(&self, v: u32) -> Result<Option<HalfEdge>, Refused> {
        match self.v2e[v as usize - 1] {
            0 => Ok(None),
            code => self.half_edge(code).map(Some).ok_or(BROKEN),
        }
    }

    fn read_origin(&self, s: Side) -> Result<u32, Refused> {
        self.vertex(self.rows.origin(s)).ok_or(BROKEN)
    }

    fn read_destination(&self, s: Side) -> Result<u32, Refused> {
        self.vertex(self.rows.destination(s)).ok_or(BROKEN)
    }

    /// The border half-edge after b, by number.
    fn next_border(&self, b: u32) -> Result<u32, Refused> {
        let v = self.read_origin(self.read_b2e(b)?)?;
        match self.read_v2e(v)? {
            Some(HalfEdge::Border(next)) => Ok(next),
            Some(HalfEdge::Side(_)) | None => Err(BROKEN),
        }
    }

    pub fn opposite(&self, code: u32) -> Result<u32, Refused> {
        match self.asked_half_edge(code)? {
            HalfEdge::Border(b) => self.read_b2e(b).map(Side::code),
            HalfEdge::Side(s) => self.read_e2e(s).map(HalfEdge::code),
        }
    }

    pub fn next(&self, code: u32) -> Result<u32, Refused> {
        match self.asked_half_edge(code)? {
            HalfEdge::Border(b) => self.next_border(b).map(|next| 8 * next),
            HalfEdge::Side(s) => Ok(self.rows.next(s).code()),
        }
    }

    pub fn previous(&self, code: u32) -> Result<u32, Refused> {
        self.asked_side(code).map(|s| self.rows.previous(s).code())
    }

    pub fn element(&self, code: u32) -> Result<u32, Refused> {
        self.asked_side(code).map(|s| s.f)
    }

    pub fn origin(&self, code: u32) -> Result<u32, Refused> {
        match self.asked_half_edge(code)? {
            HalfEdge::Border(b) => self.read_destination(self.read_b2e(b)?),
            HalfEdge::Side(s) => self.read_origin(s),
        }
    }

    pub fn destination(&self, code: u32) -> Result<u32, Refused> {
        match self.asked_half_edge(code)? {
            HalfEdge::Border(b) => self.read_origin(self.read_b2e(b)?),
            HalfEdge::Side(s) => self.read_destination(s),
        }
    }

    pub fn across(&self, code: u32) -> Result<u32, Refused> {
        match self.read_e2e(self.asked_side(code)?)? {
            HalfEdge::Border(_) => Ok(0),
            HalfEdge::Side(partner) => Ok(partner.f),
        }
    }

    pub fn halfedge_is_border(&self, code: u32) -> Result<u32, Refused> {
        self.asked_half_edge(code).map(|h| matches!(h, HalfEdge::Border(_)) as u32)
    }

    /// 0 inner, 1 rim, 2 unused
    pub fn vertex_kind(&self, v: u32) -> Result<u32, Refused> {
        let v = self.asked_vertex(v)?;
        self.read_v2e(v).map(|entry| match entry {
            Some(HalfEdge::Side(_)) => 0,
            Some(HalfEdge::Border(_)) => 1,
            None => 2,
        })
    }

    /// None about an unused vertex.
    fn start_side(&self, v: u32) -> Result<Option<Side>, Refused> {
        match self.read_v2e(v)? {
            Some(HalfEdge::Border(b)) => self.read_b2e(b).map(|s| Some(self.rows.next(s))),
            Some(HalfEdge::Side(s)) => Ok(Some(s)),
            None => Ok(None),
        }
    }

    /// The side of the ring after s; none where the ring ends.
    fn onward(&self, start: Side, s: Side) -> Result<Option<Side>, Refused> {
        match self.read_e2e(s)? {
            HalfEdge::Border(_) => Ok(None),
            HalfEdge::Side(partner) => Ok(Some(self.rows.next(partner)).filter(|&turn| turn != start)),
        }
    }

    fn ring_sides(&self, v: u32) -> Result<Vec<Side>, Refused> {
        let Some(start) = self.start_side(v)? else { return Ok(Vec::new()) };
        let mut sides = vec![start];
        let mut last = start;
        while let Some(s) = self.onward(start, last)? {
            if sides.len() == self.rows.elements() as usize {
                return Err(BROKEN);
            }
            sides.push(s);
            last = s;
        }
        Ok(sides)
    }

    pub fn ring(&self, v: u32) -> Result<Vec<u32>, Refused> {
        let v = self.asked_vertex(v)?;
        Ok(self.ring_sides(v)?.iter().map(|s| s.f).collect())
    }

    pub fn neighbours(&self, v: u32) -> Result<Vec<u32>, Refused> {
        let v = self.asked_vertex(v)?;
        let mut list = Vec::new();
        if let Some(HalfEdge::Border(b)) = self.read_v2e(v)? {
            list.push(self.read_origin(self.read_b2e(b)?)?);
        }
        for s in self.ring_sides(v)? {
            list.push(self.read_destination(s)?);
        }
        Ok(list)
    }

    pub fn border_loop(&self, b: u32) -> Result<Vec<u32>, Refused> {
        if !(1..=self.b2e.len()).contains(&(b as usize)) {
            return Err(NOT_THERE);
        }
        let mut list = vec![b];
        loop {
            let next = self.next_border(list[list.len() - 1])?;
            if next == b {
                return Ok(list);
            }
            if list.len() == self.b2e.len() {
                return Err(BROKEN);
            }
            list.push(next);
        }
    }

    pub fn walker_start(&self, v: u32) -> Result<Record, Refused> {
        let v = self.asked_vertex(v)?;
        let code = self.start_side(v)?.map_or(0, Side::code);
        Ok((code, code, 0))
    }

    /// The element handed out, and the record afterwards.
    pub fn walker_step(&self, record: Record) -> Result<(u32, Record), Refused> {
        let (start, next, count) = record;
        if next == 0 {
            return Ok((0, record));
        }
        let start_side = self.rows.side(start).ok_or(BROKEN)?;
        let s = self.rows.side(next).ok_or(BROKEN)?;
        let m = self.rows.elements();
        if count >= m {
            return Err(BROKEN);
        }
        match self.onward(start_side, s)? {
            Some(_) if count + 1 == m => Err(BROKEN),
            Some(turn) => Ok((s.f, (start, turn.code(), count + 1))),
            None => Ok((s.f, (start, 0, count + 1))),
        }
    }
}

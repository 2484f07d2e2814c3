//! The queries on lent tables.

use crate::exports;
use crate::{columns, first_number, taken_apart, Refusal};

/// A mesh to ask about: its element list and its tables, lent, of fit lengths. Half-edges go in and out as codes. Tables
/// that [`build`](crate::build) wrote never give refusal 12; any others may be asked about too. A V2e entry of 0 says
/// that no element uses the vertex, and what begins there believes it, also where the element list says otherwise.
///
/// The columns of E2e are looked up once, by [`Mesh::new`]; no query looks at the whole list again.
#[derive(Clone, Copy, Debug)]
pub struct Mesh<'a> {
    n: u32,
    columns: u32,
    elements: &'a [u32],
    v2e: &'a [u32],
    e2e: &'a [u32],
    b2e: &'a [u32],
}

/// Calls a query's exported function on a mesh and further arguments.
macro_rules! ask {
    ($name:ident, $mesh:expr $(, $argument:expr)*) => {
        // SAFETY: each pointer has its slice's own length, and the kernel stays within these.
        unsafe {
            exports::$name(
                $mesh.n,
                $mesh.columns,
                $mesh.elements.as_ptr(),
                $mesh.elements.len(),
                $mesh.v2e.as_ptr(),
                $mesh.v2e.len(),
                $mesh.e2e.as_ptr(),
                $mesh.e2e.len(),
                $mesh.b2e.as_ptr(),
                $mesh.b2e.len()
                $(, $argument)*
            )
        }
    };
}

impl<'a> Mesh<'a> {
    /// A mesh on n vertices: the element list (4 × m entries), V2e (n), E2e ([`columns`](crate::columns) × m) and B2e
    /// (exactly k: what [`build`](crate::build) wrote, cut to k; never more than 4 × m).
    ///
    /// # Errors
    ///
    /// Refusals 1 and 2 for unfit slices. What they hold isn't judged, and no query of the mesh gives 1 or 2, but
    /// [`Mesh::holes`] gives 2 for the work buffer that it is lent.
    pub fn new(
        n: u32,
        elements: &'a [u32],
        v2e: &'a [u32],
        e2e: &'a [u32],
        b2e: &'a [u32],
    ) -> Result<Mesh<'a>, Refusal> {
        let mesh = Mesh::fit(n, columns(n, elements)?, elements, v2e, e2e, b2e);
        // Code 0 names nothing, so that fit lengths give 11.
        match mesh.element(0) {
            Err(unfit @ (Refusal::Sizes | Refusal::Lengths)) => Err(unfit),
            _ => Ok(mesh),
        }
    }

    /// A mesh whose lengths are known to be fit, and its columns those of the list.
    pub(crate) fn fit(
        n: u32,
        columns: u32,
        elements: &'a [u32],
        v2e: &'a [u32],
        e2e: &'a [u32],
        b2e: &'a [u32],
    ) -> Mesh<'a> {
        Mesh { n, columns, elements, v2e, e2e, b2e }
    }

    /// The number of vertices.
    pub fn n(&self) -> u32 {
        self.n
    }

    /// The columns of E2e: 3 where no element is a quadrilateral, else 4.
    pub fn columns(&self) -> u32 {
        self.columns
    }

    /// The element list, 4 × m entries.
    pub fn elements(&self) -> &'a [u32] {
        self.elements
    }

    /// V2e, n entries; 0 for a vertex that no element uses.
    pub fn v2e(&self) -> &'a [u32] {
        self.v2e
    }

    /// E2e, columns × m entries: side i of element f has entry columns × (f − 1) + (i − 1), counted from 0.
    pub fn e2e(&self) -> &'a [u32] {
        self.e2e
    }

    /// B2e, k entries.
    pub fn b2e(&self) -> &'a [u32] {
        self.b2e
    }

    /// The half-edge that runs along the same edge the other way.
    ///
    /// # Errors
    ///
    /// Refusal 11 for a code that names nothing, 12 for a broken table entry.
    pub fn opposite(&self, code: u32) -> Result<u32, Refusal> {
        first_number(ask!(borzhanu_opposite, self, code))
    }

    /// The half-edge that follows: of a side, in its element; of a border half-edge, along its border.
    ///
    /// # Errors
    ///
    /// Refusal 11 for a code that names nothing, 12 for a broken table entry.
    pub fn next(&self, code: u32) -> Result<u32, Refusal> {
        first_number(ask!(borzhanu_next, self, code))
    }

    /// The side before a side, in its element.
    ///
    /// # Errors
    ///
    /// Refusal 11 for a code that names no side.
    pub fn previous(&self, code: u32) -> Result<u32, Refusal> {
        first_number(ask!(borzhanu_previous, self, code))
    }

    /// The element of a side.
    ///
    /// # Errors
    ///
    /// Refusal 11 for a code that names no side.
    pub fn element(&self, code: u32) -> Result<u32, Refusal> {
        first_number(ask!(borzhanu_element, self, code))
    }

    /// The vertex where a half-edge begins.
    ///
    /// # Errors
    ///
    /// Refusal 11 for a code that names nothing, 12 for a broken table entry.
    pub fn origin(&self, code: u32) -> Result<u32, Refusal> {
        first_number(ask!(borzhanu_origin, self, code))
    }

    /// The vertex where a half-edge ends.
    ///
    /// # Errors
    ///
    /// Refusal 11 for a code that names nothing, 12 for a broken table entry.
    pub fn destination(&self, code: u32) -> Result<u32, Refusal> {
        first_number(ask!(borzhanu_destination, self, code))
    }

    /// The element on the other side of a side, or 0 at a border.
    ///
    /// # Errors
    ///
    /// Refusal 11 for a code that names no side, 12 for a broken table entry.
    pub fn across(&self, code: u32) -> Result<u32, Refusal> {
        first_number(ask!(borzhanu_across, self, code))
    }

    /// Whether a half-edge is a border half-edge.
    ///
    /// # Errors
    ///
    /// Refusal 11 for a code that names nothing.
    pub fn halfedge_is_border(&self, code: u32) -> Result<bool, Refusal> {
        first_number(ask!(borzhanu_halfedge_is_border, self, code)).map(|test| test == 1)
    }

    /// Whether a vertex is inside, on a rim or unused, as its V2e entry says.
    ///
    /// # Errors
    ///
    /// Refusal 11 for a vertex that isn't there, 12 for a broken table entry, which 0 isn't.
    pub fn vertex_kind(&self, v: u32) -> Result<VertexKind, Refusal> {
        first_number(ask!(borzhanu_vertex_is_border, self, v)).map(VertexKind::of)
    }

    /// The elements about a vertex in turn order, each once, written from the start of `out`, and their
    /// number, 0 for an unused vertex. The rest of `out` is as it was; after a refusal all of it is.
    ///
    /// # Errors
    ///
    /// Refusal 11 for a vertex that isn't there, 12 for a broken table entry or an overlong walk, 13 for an output that is
    /// too short.
    pub fn ring(&self, v: u32, out: &mut [u32]) -> Result<usize, Refusal> {
        first_number(ask!(borzhanu_ring, self, v, out.as_mut_ptr(), out.len())).map(|count| count as usize)
    }

    /// The vertices joined to a vertex by an edge, in turn order, none for an unused one; written as [`Mesh::ring`]
    /// does.
    ///
    /// # Errors
    ///
    /// Refusal 11 for a vertex that isn't there, 12 for a broken table entry or an overlong walk, 13 for an output that is
    /// too short.
    pub fn neighbours(&self, v: u32, out: &mut [u32]) -> Result<usize, Refusal> {
        first_number(ask!(borzhanu_neighbours, self, v, out.as_mut_ptr(), out.len())).map(|count| count as usize)
    }

    /// The border half-edges of one hole, as border numbers from b on; written as [`Mesh::ring`] does. On tables that
    /// [`build`](crate::build) wrote these are all that [`Mesh::next`] leads to from b, each once.
    ///
    /// # Errors
    ///
    /// Refusal 11 for a border that isn't there, 12 for a broken table entry or an overlong walk, 13 for an output that is
    /// too short.
    pub fn border_loop(&self, b: u32, out: &mut [u32]) -> Result<usize, Refusal> {
        first_number(ask!(borzhanu_border_loop, self, b, out.as_mut_ptr(), out.len())).map(|count| count as usize)
    }

    /// The number of holes; with the hole of each border half-edge, written to the first k entries of `hole`, and the
    /// length of each hole, from the start of `lengths`. Two border half-edges have one hole exactly where the loop of
    /// one lists the other, and holes are numbered from 1 by their least border half-edges. [`Holes`](crate::Holes) has
    /// all this without buffers to lend.
    ///
    /// `hole` and `lengths` have at least k entries each, also where there are fewer holes, and `work` has at least
    /// [`work_length`](crate::work_length). What they hold before doesn't matter. The rest of `hole` and of `lengths`
    /// is as it was; after a refusal all of both is. `work` is all zero in the end, unless it is too short.
    ///
    /// # Errors
    ///
    /// Refusal 2 for a work buffer that is too short, 12 where any border loop meets a broken table entry or doesn't
    /// come back, 13 for an output that is too short.
    ///
    /// ```
    /// use borzhanu::{work_length, Mesh};
    ///
    /// // Two triangles apart.
    /// let elements = [1, 2, 3, 0, 4, 5, 6, 0];
    /// let (v2e, e2e, b2e) = ([24, 8, 16, 48, 32, 40], [8, 16, 24, 32, 40, 48], [9, 10, 11, 17, 18, 19]);
    /// let mesh = Mesh::new(6, &elements, &v2e, &e2e, &b2e)?;
    /// let (mut hole, mut lengths, mut work) = ([0; 6], [0; 6], vec![0; work_length(6, 2)]);
    /// assert_eq!(mesh.holes(&mut hole, &mut lengths, &mut work)?, 2);
    /// assert_eq!((hole, &lengths[..2]), ([1, 1, 1, 2, 2, 2], &[3, 3][..]));
    /// # Ok::<(), borzhanu::Refusal>(())
    /// ```
    pub fn holes(&self, hole: &mut [u32], lengths: &mut [u32], work: &mut [u32]) -> Result<usize, Refusal> {
        let (hole_len, lengths_len, work_len) = (hole.len(), lengths.len(), work.len());
        let (hole, lengths, work) = (hole.as_mut_ptr(), lengths.as_mut_ptr(), work.as_mut_ptr());
        first_number(ask!(borzhanu_holes, self, hole, hole_len, lengths, lengths_len, work, work_len))
            .map(|count| count as usize)
    }

    /// [`Mesh::ring`] as a vector.
    ///
    /// # Errors
    ///
    /// Those of [`Mesh::ring`] but 13.
    pub fn ring_of(&self, v: u32) -> Result<Vec<u32>, Refusal> {
        listed(|out| self.ring(v, out))
    }

    /// [`Mesh::neighbours`] as a vector.
    ///
    /// # Errors
    ///
    /// Those of [`Mesh::neighbours`] but 13.
    pub fn neighbours_of(&self, v: u32) -> Result<Vec<u32>, Refusal> {
        listed(|out| self.neighbours(v, out))
    }

    /// [`Mesh::border_loop`] as a vector.
    ///
    /// # Errors
    ///
    /// Those of [`Mesh::border_loop`] but 13.
    pub fn border_loop_of(&self, b: u32) -> Result<Vec<u32>, Refusal> {
        listed(|out| self.border_loop(b, out))
    }

    /// Walks about a vertex, element by element, with no list to fill. About an unused vertex the walk is over at once.
    ///
    /// # Errors
    ///
    /// Refusal 11 for a vertex that isn't there, 12 for a broken table entry.
    pub fn walk(&self, v: u32) -> Result<Walker<'a>, Refusal> {
        let mut record = WalkerRecord::default();
        self.start(v, &mut record)?;
        Ok(Walker { mesh: *self, record, over: false })
    }

    /// Sets a walker's record to the beginning of the ring of v, for an unused vertex to 0, 0, 0. After a refusal it is
    /// as it was.
    ///
    /// # Errors
    ///
    /// Refusal 11 for a vertex that isn't there, 12 for a broken table entry.
    pub fn start(&self, v: u32, walker: &mut WalkerRecord) -> Result<(), Refusal> {
        taken_apart(ask!(borzhanu_walker_start, self, v, walker)).map(|_| ())
    }

    /// The next element of the ring, or 0 when the ring is over; the record moves on by one. After 0 and after a
    /// refusal it is as it was.
    ///
    /// # Errors
    ///
    /// Refusal 12 for a broken table entry, an overlong walk or a record that no call made.
    pub fn step(&self, walker: &mut WalkerRecord) -> Result<u32, Refusal> {
        first_number(ask!(borzhanu_walker_step, self, walker))
    }
}

/// The list that `ask` writes, in a vector of its length.
fn listed(ask: impl Fn(&mut [u32]) -> Result<usize, Refusal>) -> Result<Vec<u32>, Refusal> {
    // Most rings fit, so that most lists are asked for once.
    let mut list = vec![0; 16];
    let mut answer = ask(&mut list);
    if let Err(Refusal::OutputShort { needed }) = answer {
        list.resize(needed as usize, 0);
        answer = ask(&mut list);
    }
    list.truncate(answer?);
    Ok(list)
}

/// What a vertex is, by its V2e entry.
#[derive(Clone, Copy, Debug, PartialEq, Eq, Hash)]
pub enum VertexKind {
    /// Inside the mesh, with elements all round: its V2e entry is a side.
    Inner,
    /// On a rim: its V2e entry is a border half-edge.
    Rim,
    /// No element uses it: its V2e entry is 0.
    Unused,
}

impl VertexKind {
    /// The kind that the vertex test answers by this number.
    ///
    /// # Panics
    ///
    /// On another number: then the archive isn't the one that this crate is written for.
    fn of(number: u32) -> VertexKind {
        match number {
            0 => VertexKind::Inner,
            1 => VertexKind::Rim,
            2 => VertexKind::Unused,
            _ => panic!("libborzhanu.a gave vertex kind {number}, which this crate doesn't know"),
        }
    }
}

/// How far a walk about a vertex has come.
#[repr(C)]
#[derive(Clone, Copy, Debug, Default, PartialEq, Eq, Hash)]
pub struct WalkerRecord {
    /// The side where the ring begins; 0 about an unused vertex.
    pub start: u32,
    /// The side whose element comes next; 0 when the ring is over, and about an unused vertex from the start.
    pub next: u32,
    /// The elements handed out so far.
    pub count: u32,
}

/// A walk about a vertex: its elements in turn order. A refusal ends it.
#[derive(Clone, Debug)]
pub struct Walker<'a> {
    mesh: Mesh<'a>,
    record: WalkerRecord,
    over: bool,
}

impl Iterator for Walker<'_> {
    type Item = Result<u32, Refusal>;

    fn next(&mut self) -> Option<Self::Item> {
        if self.over {
            return None;
        }
        let step = self.mesh.step(&mut self.record);
        self.over = !matches!(step, Ok(element) if element != 0);
        match step {
            Ok(0) => None,
            other => Some(other),
        }
    }
}

impl std::iter::FusedIterator for Walker<'_> {}

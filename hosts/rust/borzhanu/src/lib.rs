//! From the element list of a shell mesh to its half-edge tables and back: the proved kernel
//! `libborzhanu.a`, for Rust.
//!
//! Vertices, elements and border half-edges are numbered from 1. An element is a row of four corner
//! numbers, the fourth 0 for a triangle. Side i of element f runs from corner i, its origin, to the next
//! corner, its destination. [`Tables`] owns a list with its tables and answers the queries:
//!
//! ```
//! use borzhanu::{HalfEdge, Tables};
//!
//! // Two triangles on four vertices.
//! let tables = Tables::build(4, &[[1, 2, 3, 0], [1, 3, 4, 0]])?;
//! assert_eq!(tables.ring(1)?, [2, 1]);
//! assert_eq!(tables.border_loop(1)?, [1, 4, 3, 2]);
//! assert_eq!(tables.across(HalfEdge::side(1, 3))?, 2);
//! # Ok::<(), borzhanu::Refusal>(())
//! ```
//!
//! E2e, what lies opposite each side, has as many columns as the widest element has sides: three in a list of
//! triangles, four in one with a quadrilateral, where the fourth entry of a triangle is 0:
//!
//! ```
//! use borzhanu::Tables;
//!
//! let triangles = Tables::build(4, &[[1, 2, 3, 0], [1, 3, 4, 0]])?;
//! assert_eq!(triangles.mesh().columns(), 3);
//! assert_eq!(triangles.mesh().e2e(), [8, 16, 17, 11, 24, 32]);
//!
//! let mixed = Tables::build(5, &[[1, 2, 3, 4], [4, 3, 5, 0]])?;
//! assert_eq!(mixed.mesh().columns(), 4);
//! assert_eq!(mixed.mesh().e2e(), [8, 16, 17, 24, 11, 32, 40, 0]);
//! # Ok::<(), borzhanu::Refusal>(())
//! ```
//!
//! Vertices that no element uses are accepted. There is nothing about them, and [`VertexKind`] tells them:
//!
//! ```
//! use borzhanu::{Tables, VertexKind};
//!
//! // The same triangles, and a fifth vertex that neither uses.
//! let tables = Tables::build(5, &[[1, 2, 3, 0], [1, 3, 4, 0]])?;
//! assert_eq!(tables.mesh().v2e(), [32, 8, 16, 24, 0]);
//! assert_eq!(tables.vertex_kind(1)?, VertexKind::Rim);
//! assert_eq!(tables.vertex_kind(5)?, VertexKind::Unused);
//! assert!(tables.ring(5)?.is_empty());
//! # Ok::<(), borzhanu::Refusal>(())
//! ```
//!
//! Duct openings are checked by their rims. [`Holes`] has the hole of each border half-edge, and each hole's length:
//!
//! ```
//! use borzhanu::{HalfEdge, Tables};
//!
//! // A duct of three plates: an opening at either end.
//! let tables = Tables::build(6, &[[1, 2, 5, 4], [2, 3, 6, 5], [3, 1, 4, 6]])?;
//! let holes = tables.holes();
//! assert_eq!(holes.lengths(), [3, 3]);
//!
//! // The vertices along the rim of the second opening.
//! let rim = tables.border_loop(holes.first(2)?)?;
//! let vertices: Result<Vec<u32>, _> = rim.iter().map(|&b| tables.origin(HalfEdge::border(b))).collect();
//! assert_eq!(vertices?, [4, 5, 6]);
//! # Ok::<(), borzhanu::Refusal>(())
//! ```
//!
//! Where a rib stands on a panel, three plates meet at an edge. Such a list has no E2e, and [`Tables`] refuses it.
//! [`Siblings`] takes it, and leads from each side to the next one that joins the same two vertices:
//!
//! ```
//! use borzhanu::{HalfEdge, Refusal, Siblings, Tables};
//!
//! // A panel of two plates, and a rib on the seam of vertices 2 and 5.
//! let rows = [[1, 2, 5, 4], [2, 3, 6, 5], [2, 5, 8, 7]];
//! assert_eq!(Tables::build(8, &rows), Err(Refusal::EdgeCrowded { element: 1, side: 2 }));
//!
//! let siblings = Siblings::build(8, &rows)?;
//! let seam = HalfEdge::side(1, 2);
//! assert_eq!(siblings.sibling(seam)?, HalfEdge::side(2, 4));
//! assert!(siblings.plates(seam)?.eq([1, 2, 3]));
//!
//! // Each edge comes once, by its least side. Three plates meet at the seam alone.
//! for side in siblings.edges() {
//!     assert_eq!(siblings.plates(side)?.count() == 3, side == seam);
//! }
//! # Ok::<(), borzhanu::Refusal>(())
//! ```
//!
//! A smoother swaps the diagonals of triangles. [`OwnedMesh`] is a mesh to edit, whose tables are always those of its
//! list; an edit that is refused leaves both as they were:
//!
//! ```
//! use borzhanu::{HalfEdge, OwnedMesh, Refusal};
//!
//! // Two triangles on four vertices. Vertices 1 and 3 are joined, and then 2 and 4.
//! let mut panel = OwnedMesh::build(4, &[[1, 2, 3, 0], [1, 3, 4, 0]])?;
//! panel.swap(HalfEdge::side(1, 3))?;
//! assert_eq!(panel.rows(), [[2, 3, 4, 0], [4, 1, 2, 0]]);
//! assert_eq!(panel.tables().neighbours(1)?, [4, 2]);
//!
//! // On the rim there is nothing to swap.
//! assert_eq!(panel.swap(HalfEdge::side(1, 1)), Err(Refusal::EdgeUnfit));
//! # Ok::<(), borzhanu::Refusal>(())
//! ```
//!
//! Near a bracket a mesh is refined. A split puts a new vertex at the midpoint of an edge; the mesh then has its points too:
//!
//! ```
//! use borzhanu::{HalfEdge, OwnedMesh};
//!
//! // The same two triangles, each vertex at its point.
//! let corners = [[0.0, 0.0, 0.0], [4.0, 0.0, 0.0], [4.0, 3.0, 0.0], [0.0, 3.0, 0.0]];
//! let mut panel = OwnedMesh::with_points(&corners, &[[1, 2, 3, 0], [1, 3, 4, 0]])?;
//!
//! // The edge from 3 to 1: vertex 5 is placed at its middle, and both triangles are cut in two.
//! panel.split(HalfEdge::side(1, 3))?;
//! assert_eq!(panel.rows(), [[5, 2, 3, 0], [1, 5, 4, 0], [1, 2, 5, 0], [5, 3, 4, 0]]);
//! assert_eq!(panel.points()[4], [2.0, 1.5, 0.0]);
//! # Ok::<(), borzhanu::Refusal>(())
//! ```
//!
//! Elsewhere it is coarsened. A contraction merges the two ends of an edge, and closes the gaps in the numbers of elements
//! and vertices:
//!
//! ```
//! use borzhanu::{HalfEdge, OwnedMesh, Refusal};
//!
//! // A panel of two triangles, and a sliver at its edge: vertices 2 and 3 are too near to each other.
//! let points = [[0.0, 0.0, 0.0], [4.0, 0.0, 0.0], [4.1, 0.0, 0.0], [4.0, 3.0, 0.0], [0.0, 3.0, 0.0]];
//! let mut panel = OwnedMesh::with_points(&points, &[[2, 3, 4, 0], [1, 2, 5, 0], [2, 4, 5, 0]])?;
//!
//! // Vertex 3 is merged into 2, and row 1 goes. Row 3 and vertex 5, the last ones, take the free numbers.
//! panel.contract(HalfEdge::side(1, 1))?;
//! assert_eq!(panel.rows(), [[2, 4, 3, 0], [1, 2, 3, 0]]);
//! assert_eq!(panel.points()[2], [0.0, 3.0, 0.0]);
//!
//! // The diagonal can't be contracted: vertices 1 and 4 would have no element any more.
//! assert_eq!(panel.contract(HalfEdge::side(1, 3)), Err(Refusal::VertexStranded));
//! # Ok::<(), borzhanu::Refusal>(())
//! ```
//!
//! What a housing is as a whole shows in one number, vertices − edges + elements: 2 for each piece, 1 less for each opening
//! and 2 less for each handle, and 1 more for each vertex that no element uses. No edit changes it:
//!
//! ```
//! use borzhanu::{HalfEdge, OwnedMesh};
//!
//! // A plate of triangles, on vertices 1 to 3 around and 4 to 6 within, about a cable hole.
//! let rows = [[1, 2, 4, 0], [2, 5, 4, 0], [2, 3, 5, 0], [3, 6, 5, 0], [3, 1, 6, 0], [1, 4, 6, 0]];
//! let mut plate = OwnedMesh::build(6, &rows)?;
//! assert_eq!((plate.n(), plate.counts().edges, plate.m()), (6, 12, 6));
//!
//! // One piece, whose openings are the outer rim and the hole.
//! assert_eq!((plate.shape(), plate.tables().holes().count()), (0, 2));
//!
//! plate.split(HalfEdge::side(1, 1))?;
//! plate.swap(HalfEdge::side(3, 3))?;
//! assert_eq!((plate.n(), plate.shape()), (7, 0));
//! # Ok::<(), borzhanu::Refusal>(())
//! ```
//!
//! Customers send meshes as OFF files. [`Off`] has the element list that such a text says, with its corners counted from 1:
//!
//! ```
//! use borzhanu::{Off, Refusal};
//!
//! let text = "OFF
//!     4 2 0         # vertices, faces, edges
//!     0 0 0         # a point for each vertex
//!     80 0 0
//!     80 60.5 0
//!     0 60.5 0
//!     3  0 1 2      # the corners of each face, after their number
//!     3  0 2 3";
//! let off = Off::read(text.as_bytes())?;
//! assert_eq!((off.n(), off.rows()), (4, &[[1, 2, 3, 0], [1, 3, 4, 0]][..]));
//! assert_eq!(off.tables()?.counts().edges, 5);
//!
//! // An exponent isn't in form.
//! let text = text.replace("60.5", "6.05e1");
//! assert_eq!(Off::read(text.as_bytes()), Err(Refusal::OffUnfit { line: 5 }));
//! # Ok::<(), borzhanu::Refusal>(())
//! ```
//!
//! [`columns`], [`build`], [`recover`], [`siblings()`], [`shape`], [`read_off`], [`swap`], [`split`], [`contract`] and [`Mesh`]
//! are the kernel's own calls, on buffers that the caller lends; these allocate nothing. Half-edges are codes there, which
//! [`side`], [`border`] and [`HalfEdge`] make, and code 0 names nothing:
//!
//! ```
//! use borzhanu::{build, columns, recover, work_length, Mesh};
//!
//! let elements = [1, 2, 3, 0, 1, 3, 4, 0];
//! assert_eq!(columns(4, &elements)?, 3);
//! let (mut v2e, mut e2e, mut b2e) = ([0; 4], [0; 3 * 2], [0; 4]);
//! let mut work = vec![0; work_length(4, 2)];
//! let counts = build(4, &elements, &mut v2e, &mut e2e, &mut b2e, &mut work)?;
//! assert_eq!((counts.borders, counts.edges), (4, 5));
//! assert_eq!(v2e, [32, 8, 16, 24]);
//!
//! let mesh = Mesh::new(4, &elements, &v2e, &e2e, &b2e[..4])?;
//! let ring: Result<Vec<u32>, _> = mesh.walk(1)?.collect();
//! assert_eq!(ring?, [2, 1]);
//!
//! let mut neighbours = [0; 3];
//! assert_eq!(mesh.neighbours(1, &mut neighbours)?, 3);
//! assert_eq!(neighbours, [4, 3, 2]);
//!
//! let mut recovered = [0; 8];
//! recover(4, 2, &v2e, &e2e, &mut recovered, &mut work)?;
//! assert_eq!(recovered, elements);
//! # Ok::<(), borzhanu::Refusal>(())
//! ```
//!
//! A refusal says why and where:
//!
//! ```
//! use borzhanu::{Refusal, Tables};
//!
//! // The second triangle is upside down: both run from vertex 1 to vertex 2.
//! let refusal = Tables::build(4, &[[1, 2, 3, 0], [1, 2, 4, 0]]).unwrap_err();
//! assert_eq!(refusal, Refusal::SidesAlike { element: 1, side: 1 });
//! assert_eq!((refusal.number(), refusal.place()), (7, (1, 1)));
//! assert_eq!(refusal.to_string(), "two elements run along an edge in the same direction: element 1, side 1");
//!
//! // Elements meet at one corner or at one edge. These two have three corners in common.
//! let refusal = Tables::build(4, &[[1, 2, 3, 4], [3, 2, 1, 0]]).unwrap_err();
//! assert_eq!(refusal, Refusal::ElementsClash { first: 1, second: 2 });
//! ```

#![deny(missing_docs)]

mod exports;
mod half_edge;
mod holes;
mod mesh;
mod off;
mod owned;
mod refusal;
mod siblings;
mod tables;

pub use half_edge::HalfEdge;
pub use holes::{Hole, Holes};
pub use mesh::{Mesh, VertexKind, Walker, WalkerRecord};
pub use off::Off;
pub use owned::OwnedMesh;
pub use refusal::Refusal;
pub use siblings::{Plates, Siblings, Sides};
pub use tables::Tables;

/// The largest number of vertices.
pub const MAX_VERTICES: u32 = 1_000_000;
/// The largest number of elements.
pub const MAX_ELEMENTS: u32 = 1_000_000;
/// The largest number of a border half-edge.
pub const MAX_BORDERS: u32 = 4_000_000;

/// The code of side i of element f.
pub const fn side(f: u32, i: u32) -> u32 {
    8 * f + i
}

/// The code of border half-edge b.
pub const fn border(b: u32) -> u32 {
    8 * b
}

/// The least length of the work buffer of [`build`], [`recover`], [`siblings()`], [`shape`], [`swap`], [`split`],
/// [`contract`] and [`Mesh::holes`] for n vertices and m elements.
pub const fn work_length(n: u32, m: usize) -> usize {
    n as usize + 16 * m
}

/// What building counts.
#[derive(Clone, Copy, Debug, PartialEq, Eq, Hash)]
pub struct Counts {
    /// k, the number of border half-edges: the entries of B2e that were written.
    pub borders: u32,
    /// The number of edges.
    pub edges: u32,
}

/// The size of a mesh in buffers that may be longer than what they hold, as an edit and [`read_off`] are lent them.
#[repr(C)]
#[derive(Clone, Copy, Debug, PartialEq, Eq, Hash)]
pub struct Size {
    /// The number of vertices.
    pub n: u32,
    /// The number of elements.
    pub m: u32,
}

/// The two numbers of an answer, out of what an exported function returned.
fn taken_apart(returned: u64) -> Result<(u32, u32), Refusal> {
    let first = (returned >> 28) as u32 & 0xFFF_FFFF;
    let second = returned as u32 & 0xFFF_FFFF;
    match (returned >> 56) as u32 {
        0 => Ok((first, second)),
        number => Err(Refusal::of(number, first, second)),
    }
}

fn first_number(returned: u64) -> Result<u32, Refusal> {
    taken_apart(returned).map(|(first, _)| first)
}

fn counted(returned: u64) -> Result<Counts, Refusal> {
    taken_apart(returned).map(|(borders, edges)| Counts { borders, edges })
}

/// The signed number that the two numbers of an answer are together: 56 bits, in two's complement.
fn signed(returned: u64) -> Result<i64, Refusal> {
    // The upper eight bits, those of the refusal, become copies of the sign.
    taken_apart(returned).map(|_| (returned << 8) as i64 >> 8)
}

/// The columns of E2e for an element list: 3 where no row has a fourth corner, so also where there is no row, else 4.
///
/// # Errors
///
/// Refusal 1.
pub fn columns(n: u32, elements: &[u32]) -> Result<u32, Refusal> {
    // SAFETY: the pointer has its slice's own length, and the kernel stays within it.
    first_number(unsafe { exports::borzhanu_columns(n, elements.as_ptr(), elements.len()) })
}

/// Builds the three tables of an element list of m rows, of which any two share no corner, one corner, or exactly two
/// that are a side of both.
///
/// `v2e` has n entries, `e2e` [`columns`] × m, `b2e` at least k (n are always enough, and so are 4 × m) and `work` at
/// least [`work_length`]. What they hold before doesn't matter. After an answer `v2e`, `e2e` and the first k
/// entries of `b2e` are the tables, and the rest of `b2e` is as it was; queries take it cut to k. A vertex that
/// no element uses gets V2e entry 0. After a refusal all three are as they were. After 1 and 2 `work` is as it
/// was; after everything else it is all zero.
///
/// # Errors
///
/// Refusals 1 to 4, 6 to 8, 18 and 9, in this order.
pub fn build(
    n: u32,
    elements: &[u32],
    v2e: &mut [u32],
    e2e: &mut [u32],
    b2e: &mut [u32],
    work: &mut [u32],
) -> Result<Counts, Refusal> {
    // SAFETY: each pointer has its slice's own length, and the kernel stays within these.
    let returned = unsafe {
        exports::borzhanu_build(
            n,
            elements.as_ptr(),
            elements.len(),
            v2e.as_mut_ptr(),
            v2e.len(),
            e2e.as_mut_ptr(),
            e2e.len(),
            b2e.as_mut_ptr(),
            b2e.len(),
            work.as_mut_ptr(),
            work.len(),
        )
    };
    counted(returned)
}

/// Writes the one element list of m rows that [`build`] turns into exactly this V2e and this E2e.
///
/// `v2e` has n entries, 0 for each vertex that no element uses, `e2e` 3 × m or 4 × m, `elements` 4 × m, `work` at least
/// [`work_length`]. What comes back from 3 × m entries is triangles, and from 4 × m a list with a quadrilateral, unless
/// m is 0. m is told because lists of different m can have both tables in common. After a refusal `elements` is as it
/// was. After 1 and 2 `work` is as it was; after everything else it is all zero.
///
/// # Errors
///
/// Refusals 1, 2 and 10. Nothing is repaired: 10 means that [`build`] gives these tables for no list of m rows.
pub fn recover(
    n: u32,
    m: u32,
    v2e: &[u32],
    e2e: &[u32],
    elements: &mut [u32],
    work: &mut [u32],
) -> Result<(), Refusal> {
    // SAFETY: each pointer has its slice's own length, and the kernel stays within these.
    let returned = unsafe {
        exports::borzhanu_recover(
            n,
            m,
            v2e.as_ptr(),
            v2e.len(),
            e2e.as_ptr(),
            e2e.len(),
            elements.as_mut_ptr(),
            elements.len(),
            work.as_mut_ptr(),
            work.len(),
        )
    };
    taken_apart(returned).map(|_| ())
}

/// Writes the map of sibling half-edges of an element list, where any number of elements may meet at an edge.
///
/// `v2e` has n entries, `siblings` 4 × m, for triangles too, and `work` at least [`work_length`]. What they hold before
/// doesn't matter. After an answer the entry of side i of element f, `siblings[4 * (f - 1) + (i - 1)]`, is the next
/// higher side that joins the same two vertices, in either direction; the last side has the first, a lone side has
/// itself, and a triangle's fourth entry is 0. `v2e` then has the least side that starts at each vertex, 0 where none
/// does, and never a border half-edge as that of [`build`] has. After a refusal both are as they were. After 1 and 2
/// `work` is as it was; after everything else it is all zero.
///
/// # Errors
///
/// Refusals 1 to 4, in this order. Lists that [`build`] refuses with 6 to 8 and 18 are answered.
///
/// ```
/// use borzhanu::{siblings, work_length};
///
/// // Three triangles on the edge of vertices 1 and 2.
/// let elements = [1, 2, 3, 0, 2, 1, 4, 0, 1, 2, 5, 0];
/// let (mut v2e, mut map) = ([0; 5], [0; 4 * 3]);
/// let mut work = vec![0; work_length(5, 3)];
/// siblings(5, &elements, &mut v2e, &mut map, &mut work)?;
/// assert_eq!(map, [17, 10, 11, 0, 25, 18, 19, 0, 9, 26, 27, 0]);
/// assert_eq!(v2e, [9, 10, 11, 19, 27]);
/// # Ok::<(), borzhanu::Refusal>(())
/// ```
pub fn siblings(
    n: u32,
    elements: &[u32],
    v2e: &mut [u32],
    siblings: &mut [u32],
    work: &mut [u32],
) -> Result<(), Refusal> {
    // SAFETY: each pointer has its slice's own length, and the kernel stays within these.
    let returned = unsafe {
        exports::borzhanu_siblings(
            n,
            elements.as_ptr(),
            elements.len(),
            v2e.as_mut_ptr(),
            v2e.len(),
            siblings.as_mut_ptr(),
            siblings.len(),
            work.as_mut_ptr(),
            work.len(),
        )
    };
    taken_apart(returned).map(|_| ())
}

/// The shape of an element list in one signed number, n − edges + m. An edge is two vertices that a side joins, counted once
/// however many sides join them, and anew in each call. [`Tables::shape`] and [`OwnedMesh::shape`] have this without a
/// buffer to lend.
///
/// The number is 2 × pieces − openings − 2 × handles + the vertices that no element uses, where the outer rim of an open
/// plate is an opening too: 2 for a closed housing without handles, 1 for a plate, 0 for a duct, which has two openings, and
/// for a ring duct, which has a handle; less than 0 for a plate with two windows. [`swap`], [`split`] and [`contract`] never
/// change it, answered or refused.
///
/// `work` has at least [`work_length`] entries, and what it holds before doesn't matter. After 1 and 2 it is as it was; after
/// everything else all of it is zero. Nothing else is written.
///
/// # Errors
///
/// Refusals 1 to 4, 6 to 8 and 18, in this order, as [`build`] has them; 2 is for `work` alone.
///
/// ```
/// use borzhanu::{shape, work_length, Refusal};
///
/// // A plate of five cells by three, on vertices six by four, without two cells within.
/// let cells = (0..15).filter(|at| ![6, 8].contains(at)).map(|at| 1 + at + at / 5);
/// let plate: Vec<[u32; 4]> = cells.map(|v| [v, v + 1, v + 7, v + 6]).collect();
/// let mut work = vec![0; work_length(24, 13)];
/// assert_eq!(shape(24, plate.as_flattened(), &mut work)?, 24 - 38 + 13);
///
/// // The work buffer has an entry too few for another vertex.
/// assert_eq!(shape(25, plate.as_flattened(), &mut work), Err(Refusal::Lengths));
/// # Ok::<(), borzhanu::Refusal>(())
/// ```
pub fn shape(n: u32, elements: &[u32], work: &mut [u32]) -> Result<i64, Refusal> {
    // SAFETY: each pointer has its slice's own length, and the kernel stays within these.
    let returned =
        unsafe { exports::borzhanu_shape(n, elements.as_ptr(), elements.len(), work.as_mut_ptr(), work.len()) };
    signed(returned)
}

/// Reads the text of an OFF file into an element list, and answers how many vertices and elements it has. [`Off`] has this
/// without a list to lend.
///
/// The text's items are the word OFF; the numbers of vertices, faces and edges; three decimal numbers for each vertex; and
/// for each face the number of its corners and then these, counted from 0. Blanks (space, tab, return, newline) and comments
/// part them, and a # starts a comment to the end of its line wherever it stands. A whole number has 1 to 7 digits. A decimal
/// number has a sign or none, digits, and perhaps a point with digits after it.
///
/// Each face becomes four entries: its corners with 1 added, and then 0 for a triangle. The number of edges and the decimal
/// numbers are passed over. A corner above the number of vertices is left for [`build`] to refuse. Two texts whose numbers of
/// vertices and of faces and whose faces are equal give equal lists, whatever else differs.
///
/// Colours after a face, which some programs write, aren't in this form: the first of them is taken for the number of
/// corners of a next face. A text of triangles and quadrilaterals with a colour after each is always refused. With colours
/// after some of them it may be read, as other faces: have it written without.
///
/// After an answer the list is the first 4 × m entries of `elements`, and those past it are as they were. There can be any
/// number of these: the length needn't be in fours. After a refusal all entries are as they were.
///
/// # Errors
///
/// Refusals 16 where the text isn't in this form, so also where an item is missing or one follows the last face; 1 for more
/// than 1,000,000 vertices or faces; 17 for a face with other than 3 or 4 corners; 13 where `elements` is too short. In this
/// order, each over the whole text.
///
/// ```
/// use borzhanu::{read_off, Refusal, Size};
///
/// // A quadrilateral and a triangle on five vertices, into a list with room for a third.
/// let text = b"OFF 5 2 6  0 0 0  2 0 0  2 1 0  0 1 0  1 2 0.5  4 0 1 2 3  3 3 2 4";
/// let mut elements = [7; 12];
/// assert_eq!(read_off(text, &mut elements)?, Size { n: 5, m: 2 });
/// assert_eq!(elements, [1, 2, 3, 4, 4, 3, 5, 0, 7, 7, 7, 7]);
///
/// assert_eq!(read_off(text, &mut elements[..7]), Err(Refusal::OutputShort { needed: 8 }));
/// // The last corner is missing.
/// let cut = &text[..text.len() - 1];
/// assert_eq!(read_off(cut, &mut elements), Err(Refusal::OffUnfit { line: 1 }));
/// # Ok::<(), borzhanu::Refusal>(())
/// ```
pub fn read_off(text: &[u8], elements: &mut [u32]) -> Result<Size, Refusal> {
    // SAFETY: each pointer has its slice's own length, and the kernel stays within these.
    let returned =
        unsafe { exports::borzhanu_read_off(text.as_ptr(), text.len(), elements.as_mut_ptr(), elements.len()) };
    taken_apart(returned).map(|(n, m)| Size { n, m })
}

/// Swaps the diagonal of two triangles in an element list, and writes the tables of the new list. [`OwnedMesh`] has this
/// without buffers to lend.
///
/// `code` names the diagonal by a side of either triangle. Where it runs from a to b, with c the third corner of its
/// triangle and d that of its partner's, its row becomes (c, a, d) and the partner's row (d, b, c). Every other row
/// stays. Side 3 of both rows is then the new diagonal. Swapping that as well gives the two old triangles back, each in
/// the other's row and begun at another corner.
///
/// The list is the first 4 × m entries of `elements`, where `size` has n and m. `v2e` has at least n entries, `e2e` at
/// least [`columns`] × m, `b2e` at least k (n are always enough) and `work` at least [`work_length`]. What the tables and
/// `work` hold before doesn't matter: nothing is read but the list, and all of it is judged as [`build`] judges it,
/// before and after the swap. After an answer the new list and its tables stand at the starts of their buffers, every
/// entry past them is as it was, and `size` has the new n and m, which a swap doesn't change. After a refusal `size`, the
/// list and the tables are as they were. After 1 and 2 `work` is as it was; after everything else all of it is zero.
///
/// # Errors
///
/// Refusals 1 and 2 for the sizes and lengths; 3, 4, 6 to 8 and 18 where the list is refused; 11 where it has no half-edge
/// of this code; 15 for a border half-edge, a border side and a side with a quadrilateral on either side; 6 and 18 where
/// the new list is refused, since c and d are joined already or are a quadrilateral's diagonal; 9. In this order.
///
/// ```
/// use borzhanu::{side, swap, work_length, Refusal, Size};
///
/// // Two triangles, in buffers with room for a third.
/// let mut size = Size { n: 4, m: 2 };
/// let mut elements = [1, 2, 3, 0, 1, 3, 4, 0, 7, 7, 7, 7];
/// let (mut v2e, mut e2e, mut b2e) = ([7; 5], [7; 3 * 3], [7; 5]);
/// let mut work = vec![0; work_length(5, 3)];
///
/// // The side from 3 to 1, in the first: 2 and 4 are the third corners.
/// let counts = swap(&mut size, &mut elements, &mut v2e, &mut e2e, &mut b2e, &mut work, side(1, 3))?;
/// assert_eq!((counts.borders, counts.edges), (4, 5));
/// assert_eq!(elements, [2, 3, 4, 0, 4, 1, 2, 0, 7, 7, 7, 7]);
/// assert_eq!(v2e, [24, 32, 8, 16, 7]);
/// assert_eq!(e2e, [8, 16, 19, 24, 32, 11, 7, 7, 7]);
/// assert_eq!(b2e, [9, 10, 17, 18, 7]);
///
/// // A border side has no other diagonal.
/// let refused = swap(&mut size, &mut elements, &mut v2e, &mut e2e, &mut b2e, &mut work, side(1, 1));
/// assert_eq!(refused, Err(Refusal::EdgeUnfit));
/// # Ok::<(), borzhanu::Refusal>(())
/// ```
pub fn swap(
    size: &mut Size,
    elements: &mut [u32],
    v2e: &mut [u32],
    e2e: &mut [u32],
    b2e: &mut [u32],
    work: &mut [u32],
    code: u32,
) -> Result<Counts, Refusal> {
    // SAFETY: each pointer has its slice's own length, and the kernel stays within these and the two numbers of the size.
    let returned = unsafe {
        exports::borzhanu_swap(
            size,
            elements.as_mut_ptr(),
            elements.len(),
            v2e.as_mut_ptr(),
            v2e.len(),
            e2e.as_mut_ptr(),
            e2e.len(),
            b2e.as_mut_ptr(),
            b2e.len(),
            work.as_mut_ptr(),
            work.len(),
            code,
        )
    };
    counted(returned)
}

/// Splits an edge of an element list and places its midpoint, and writes the tables of the new list. [`OwnedMesh`] has this
/// without buffers to lend.
///
/// `code` names the edge by a side from a to b, inner or on the border. The new vertex is v = n + 1. The triangle (a, b, c)
/// of the side becomes (a, v, c), and (v, b, c) is appended; its partner (b, a, d), if there is one, becomes (b, v, d), and
/// (v, a, d) is appended after that. Every corner keeps its place in the row, and v takes the place of the corner that it
/// stands for. So an inner edge makes m greater by 2 and the number of edges by 3, one on the border m and k by 1 and the
/// number of edges by 2.
///
/// The list is the first 4 × m entries of `elements`, where `size` has n and m. `v2e` has at least n entries, `e2e` at
/// least [`columns`] × m, `points` at least 3 × n numbers, three for each vertex, and `work` at least [`work_length`], or
/// refusal 2 comes. With an answer they have as many for the new n and m too, or refusal 19 comes; and `b2e` has at least
/// the new k entries (n + 1 are always enough), or 9 comes. After an answer `size` has the new n and m, the new list and its
/// tables stand at the starts of their buffers, and the new point stands after the others: each of its numbers is
/// (x + y) × 0.5, x and y being those of a and b, operation by operation as f64 has it. Every entry past both what was held
/// and what is held now is as it was, and so is every old point. After a refusal `size`, the list, the tables and the
/// points are as they were. After 1 and 2 `work` is as it was; after everything else all of it is zero.
///
/// # Errors
///
/// Refusals 1 and 2 for the sizes and lengths; 3, 4, 6 to 8 and 18 where the list is refused; 11 where it has no half-edge
/// of this code; 15 for a border half-edge and a side with a quadrilateral on either side; 19; 9. In this order.
///
/// ```
/// use borzhanu::{side, split, work_length, Refusal, Size};
///
/// // A triangle, in buffers with room for a second.
/// let mut size = Size { n: 3, m: 1 };
/// let mut elements = [1, 2, 3, 0, 7, 7, 7, 7];
/// let (mut v2e, mut e2e, mut b2e) = ([7; 4], [7; 6], [7; 4]);
/// let mut points = [0.0, 0.0, 0.0, 3.0, 0.0, 0.0, 0.0, 4.0, 0.0, 7.0, 7.0, 7.0];
/// let mut work = vec![0; work_length(4, 2)];
///
/// // The side from 1 to 2. Vertex 4 lies midway.
/// let counts =
///     split(&mut size, &mut elements, &mut v2e, &mut e2e, &mut b2e, &mut points, &mut work, side(1, 1))?;
/// assert_eq!((size, counts.borders, counts.edges), (Size { n: 4, m: 2 }, 4, 5));
/// assert_eq!(elements, [1, 4, 3, 0, 4, 2, 3, 0]);
/// assert_eq!(v2e, [16, 24, 32, 8]);
/// assert_eq!(e2e, [8, 19, 16, 24, 32, 10]);
/// assert_eq!(b2e, [9, 11, 17, 18]);
/// assert_eq!(points[9..], [1.5, 0.0, 0.0]);
///
/// // No buffer has room for a third.
/// let refused = split(&mut size, &mut elements, &mut v2e, &mut e2e, &mut b2e, &mut points, &mut work, side(1, 1));
/// assert_eq!(refused, Err(Refusal::NoRoom));
/// # Ok::<(), borzhanu::Refusal>(())
/// ```
// The buffers are those of the exported call, in its order.
#[allow(clippy::too_many_arguments)]
pub fn split(
    size: &mut Size,
    elements: &mut [u32],
    v2e: &mut [u32],
    e2e: &mut [u32],
    b2e: &mut [u32],
    points: &mut [f64],
    work: &mut [u32],
    code: u32,
) -> Result<Counts, Refusal> {
    // SAFETY: each pointer has its slice's own length, and the kernel stays within these and the two numbers of the size.
    let returned = unsafe {
        exports::borzhanu_split(
            size,
            elements.as_mut_ptr(),
            elements.len(),
            v2e.as_mut_ptr(),
            v2e.len(),
            e2e.as_mut_ptr(),
            e2e.len(),
            b2e.as_mut_ptr(),
            b2e.len(),
            points.as_mut_ptr(),
            points.len(),
            work.as_mut_ptr(),
            work.len(),
            code,
        )
    };
    counted(returned)
}

/// Contracts an edge of an element list and closes the gaps, and writes the tables of the new list. [`OwnedMesh`] has this
/// without buffers to lend.
///
/// `code` names the edge by a side from a to b, inner or on the border: b is merged into a. The triangle of the side and
/// its partner, if there is one, go, the higher-numbered first; each time the last row takes the freed number. Every b
/// becomes a; then the last vertex, which is n, takes number b, with its point. The point of a stays. Where the row or the
/// vertex that goes is itself the last, nothing takes its number; where a is the last vertex, it has number b afterwards.
/// So n is less by 1; an inner edge makes m less by 2 and the number of edges by 3, one on the border m and k by 1 and the
/// number of edges by 2. Rows and vertices can have other numbers: codes from before don't hold.
///
/// The list is the first 4 × m entries of `elements`, where `size` has n and m. `v2e` has at least n entries, `e2e` at
/// least [`columns`] × m, `points` at least 3 × n numbers, three for each vertex, and `work` at least [`work_length`], or
/// refusal 2 comes. `b2e` has at least the new k entries (n − 1 are always enough), or 9 comes. After an answer `size` has
/// the new n and m, and the new list and its tables stand at the starts of their buffers. Between what is held now and what
/// was held, every entry of `elements`, `v2e`, `e2e` and `points` is 0; past the new k, `b2e` is as it was. A point that
/// gets another number keeps its bits. Every entry past what was held is as it was. After a refusal `size`, the list, the
/// tables and the points are as they were. After 1 and 2 `work` is as it was; after everything else all of it is zero.
///
/// [`split`] and then the contraction of the same code give back n, m, the list, its tables and its points, with 0 where
/// the new ones stood.
///
/// # Errors
///
/// Refusals 1 and 2 for the sizes and lengths; 3, 4, 6 to 8 and 18 where the list is refused; 11 where it has no half-edge
/// of this code; 15 for a border half-edge and a side with a quadrilateral on either side; 20 where sides join a and b to
/// a common neighbour that isn't a third corner of a triangle on the edge; 21 where a vertex that was used, b apart, would
/// be left unused; 8 and 18 where the new list is refused, with a place in that: 8 where a and b are both on a border and
/// the edge isn't, 18 as on a tetrahedron; 9. In this order.
///
/// ```
/// use borzhanu::{contract, side, work_length, Refusal, Size};
///
/// // A triangle that was split from 1 to 2.
/// let mut size = Size { n: 4, m: 2 };
/// let mut elements = [1, 4, 3, 0, 4, 2, 3, 0];
/// let (mut v2e, mut e2e, mut b2e) = ([7; 4], [7; 6], [7; 4]);
/// let mut points = [0.0, 0.0, 0.0, 3.0, 0.0, 0.0, 0.0, 4.0, 0.0, 1.5, 0.0, 0.0];
/// let mut work = vec![0; work_length(4, 2)];
///
/// // The side from 1 to 4. Row 2 takes the number of row 1, and what it had of vertex 4 is at vertex 1.
/// let counts =
///     contract(&mut size, &mut elements, &mut v2e, &mut e2e, &mut b2e, &mut points, &mut work, side(1, 1))?;
/// assert_eq!((size, counts.borders, counts.edges), (Size { n: 3, m: 1 }, 3, 3));
/// assert_eq!(elements, [1, 2, 3, 0, 0, 0, 0, 0]);
/// assert_eq!(v2e, [24, 8, 16, 0]);
/// assert_eq!(e2e, [8, 16, 24, 0, 0, 0]);
/// assert_eq!(b2e, [9, 10, 11, 7]);
/// assert_eq!(points, [0.0, 0.0, 0.0, 3.0, 0.0, 0.0, 0.0, 4.0, 0.0, 0.0, 0.0, 0.0]);
///
/// // The last triangle can't go: its corners would be left.
/// let refused = contract(&mut size, &mut elements, &mut v2e, &mut e2e, &mut b2e, &mut points, &mut work, side(1, 1));
/// assert_eq!(refused, Err(Refusal::VertexStranded));
/// # Ok::<(), borzhanu::Refusal>(())
/// ```
// The buffers are those of the exported call, in its order.
#[allow(clippy::too_many_arguments)]
pub fn contract(
    size: &mut Size,
    elements: &mut [u32],
    v2e: &mut [u32],
    e2e: &mut [u32],
    b2e: &mut [u32],
    points: &mut [f64],
    work: &mut [u32],
    code: u32,
) -> Result<Counts, Refusal> {
    // SAFETY: each pointer has its slice's own length, and the kernel stays within these and the two numbers of the size.
    let returned = unsafe {
        exports::borzhanu_contract(
            size,
            elements.as_mut_ptr(),
            elements.len(),
            v2e.as_mut_ptr(),
            v2e.len(),
            e2e.as_mut_ptr(),
            e2e.len(),
            b2e.as_mut_ptr(),
            b2e.len(),
            points.as_mut_ptr(),
            points.len(),
            work.as_mut_ptr(),
            work.len(),
            code,
        )
    };
    counted(returned)
}

//! A mesh that is edited, owned.

use crate::{Counts, HalfEdge, Mesh, Refusal, Tables};

/// A mesh to edit: an element list with its tables, a point for each vertex, and the work buffer of edits. The tables are at
/// all times those that [`build`](crate::build) gives of the list: an edit writes both, or is refused and leaves both as
/// they were. What is lent by [`OwnedMesh::mesh`] and [`OwnedMesh::tables`] has to be given back before the next edit, so
/// none of it can be out of date.
///
/// Points are there for the edits that make vertices or take one away. Who only swaps builds the mesh without them, with
/// [`OwnedMesh::build`]: every point is then 0, 0, 0. [`OwnedMesh::with_points`] takes them with the list, and
/// [`OwnedMesh::points_mut`] lends them to be moved.
///
/// An edit judges the whole list, before and after, so its time is linear in n + m, as that of building is. A swap and a
/// contraction allocate nothing; a split does where a buffer has to grow, by vectors' own rule, so seldom in a run of
/// splits.
///
/// ```
/// use borzhanu::{HalfEdge, OwnedMesh};
///
/// // A plate of four triangles about vertex 5.
/// let mut plate = OwnedMesh::build(5, &[[1, 2, 5, 0], [2, 3, 5, 0], [3, 4, 5, 0], [4, 1, 5, 0]])?;
/// assert_eq!(plate.tables().ring(5)?, [1, 4, 3, 2]);
///
/// // The edge from 2 to 5: its triangles have the third corners 1 and 3.
/// let counts = plate.swap(HalfEdge::side(1, 2))?;
/// assert_eq!(plate.rows(), [[1, 2, 3, 0], [3, 5, 1, 0], [3, 4, 5, 0], [4, 1, 5, 0]]);
/// assert_eq!(plate.tables().ring(5)?, [2, 4, 3]);
/// assert_eq!((counts.borders, counts.edges), (4, 8));
///
/// // Side 3 of both rows is the new diagonal. Swapped as well, it gives the old triangles back, in each other's rows.
/// plate.swap(HalfEdge::side(1, 3))?;
/// assert_eq!(plate.rows()[..2], [[2, 3, 5, 0], [5, 1, 2, 0]]);
/// # Ok::<(), borzhanu::Refusal>(())
/// ```
#[derive(Clone, Debug, PartialEq)]
pub struct OwnedMesh {
    /// Each buffer is as long as what it holds. What it has room for is its vector's capacity.
    tables: Tables,
    /// One for each vertex.
    points: Vec<[f64; 3]>,
    /// All zero between the calls.
    work: Vec<u32>,
}

impl OwnedMesh {
    /// Builds the mesh of the element list `rows` on n vertices, as [`Tables::build`] does. All points are 0, 0, 0.
    ///
    /// # Errors
    ///
    /// Refusals 1, 3, 4, 6 to 8 and 18, where these rows are no mesh.
    pub fn build(n: u32, rows: &[[u32; 4]]) -> Result<OwnedMesh, Refusal> {
        let (tables, work) = Tables::build_with_work(n, rows)?;
        Ok(OwnedMesh { tables, points: vec![[0.0; 3]; n as usize], work })
    }

    /// Builds the mesh of the element list `rows` on as many vertices as there are points: vertex v is at
    /// `points[v - 1]`. The numbers needn't be finite.
    ///
    /// # Errors
    ///
    /// Refusals 1, 3, 4, 6 to 8 and 18, where these rows are no mesh.
    ///
    /// ```
    /// use borzhanu::{HalfEdge, OwnedMesh};
    ///
    /// let corners = [[0.0, 0.0, 5.0], [6.0, 0.0, 5.0], [0.0, 8.0, 5.0]];
    /// let mut plate = OwnedMesh::with_points(&corners, &[[1, 2, 3, 0]])?;
    /// plate.split(HalfEdge::side(1, 2))?;
    /// assert_eq!(plate.points()[3], [3.0, 4.0, 5.0]);
    /// # Ok::<(), borzhanu::Refusal>(())
    /// ```
    pub fn with_points(points: &[[f64; 3]], rows: &[[u32; 4]]) -> Result<OwnedMesh, Refusal> {
        let n = u32::try_from(points.len()).map_err(|_| Refusal::Sizes)?;
        let (tables, work) = Tables::build_with_work(n, rows)?;
        Ok(OwnedMesh { tables, points: points.to_vec(), work })
    }

    /// The list and its tables, lent: every query, half-edges as codes.
    pub fn mesh(&self) -> Mesh<'_> {
        self.tables.mesh()
    }

    /// The same with half-edges as [`HalfEdge`], and lists as vectors.
    pub fn tables(&self) -> &Tables {
        &self.tables
    }

    /// The number of vertices.
    pub fn n(&self) -> u32 {
        self.mesh().n()
    }

    /// The number of elements.
    pub fn m(&self) -> u32 {
        self.rows().len() as u32
    }

    /// The element list: four corners to a row, the fourth 0 for a triangle.
    pub fn rows(&self) -> &[[u32; 4]] {
        self.tables.rows()
    }

    /// The point of each vertex: that of v is `points()[v - 1]`.
    pub fn points(&self) -> &[[f64; 3]] {
        &self.points
    }

    /// The same, to be moved.
    pub fn points_mut(&mut self) -> &mut [[f64; 3]] {
        &mut self.points
    }

    /// k and the number of edges.
    pub fn counts(&self) -> Counts {
        self.tables.counts()
    }

    /// The number n − edges + m, as [`Tables::shape`] has it, but with the mesh's own work buffer, so that nothing is
    /// allocated. There is nothing to refuse here, since the list is at all times one that was built. No edit changes the
    /// number, answered or refused.
    ///
    /// ```
    /// use borzhanu::{HalfEdge, OwnedMesh, Refusal};
    ///
    /// // A plate of two triangles: one piece and one opening, its outer rim.
    /// let mut plate = OwnedMesh::build(4, &[[1, 2, 3, 0], [1, 3, 4, 0]])?;
    /// assert_eq!(plate.shape(), 1);
    ///
    /// plate.split(HalfEdge::side(1, 3))?;
    /// plate.split(HalfEdge::side(1, 2))?;
    /// assert_eq!((plate.n(), plate.counts().edges, plate.m(), plate.shape()), (6, 10, 5, 1));
    ///
    /// assert_eq!(plate.contract(HalfEdge::border(1)), Err(Refusal::EdgeUnfit));
    /// assert_eq!(plate.shape(), 1);
    /// # Ok::<(), borzhanu::Refusal>(())
    /// ```
    pub fn shape(&mut self) -> i64 {
        self.tables.shape_with(&mut self.work)
    }

    /// Swaps the diagonal of two triangles, named by a side of either. Where it runs from a to b, with c the third corner
    /// of its triangle and d that of its partner's, its row becomes (c, a, d) and the partner's row (d, b, c). Every
    /// other row stays, and so do both counts, which it gives.
    ///
    /// # Errors
    ///
    /// After each of these the mesh is as it was:
    ///
    /// - [`Refusal::NotThere`] where the mesh has no such half-edge;
    /// - [`Refusal::EdgeUnfit`] for a border half-edge, a border side and a side with a quadrilateral on either side;
    /// - [`Refusal::EdgeCrowded`] where c and d are joined already;
    /// - [`Refusal::ElementsClash`] where c and d are the diagonal of a quadrilateral.
    ///
    /// ```
    /// use borzhanu::{HalfEdge, OwnedMesh, Refusal};
    ///
    /// // A tetrahedron: each two of its vertices are joined.
    /// let rows = [[1, 2, 3, 0], [1, 4, 2, 0], [2, 4, 3, 0], [3, 4, 1, 0]];
    /// let mut closed = OwnedMesh::build(4, &rows)?;
    /// assert_eq!(closed.swap(HalfEdge::side(1, 1)), Err(Refusal::EdgeCrowded { element: 1, side: 3 }));
    /// assert_eq!(closed.rows(), rows);
    /// # Ok::<(), borzhanu::Refusal>(())
    /// ```
    pub fn swap(&mut self, side: HalfEdge) -> Result<Counts, Refusal> {
        self.tables.swap(side, &mut self.work)
    }

    /// Splits an edge and places its midpoint. The edge is named by a side from a to b, inner or on the border; the new
    /// vertex v has the number [`OwnedMesh::n`] afterwards. The triangle (a, b, c) of the side becomes (a, v, c), and
    /// (v, b, c) is appended to the rows; its partner (b, a, d), if there is one, becomes (b, v, d), and (v, a, d) is
    /// appended after that. Every corner keeps its place in the row, v takes the place of the one that it stands for, and
    /// every other row and all points stay. Each number of the new point is (x + y) × 0.5, where x and y are those of a
    /// and b: exactly midway for whole numbers from −2^52 to 2^52. It gives both counts.
    ///
    /// # Errors
    ///
    /// After each of these the mesh is as it was:
    ///
    /// - [`Refusal::NotThere`] where the mesh has no such half-edge;
    /// - [`Refusal::EdgeUnfit`] for a border half-edge, whose side can be split, and for a side with a quadrilateral on
    ///   either side;
    /// - [`Refusal::NoRoom`] where n is [`MAX_VERTICES`](crate::MAX_VERTICES) already, or the rows would be more than
    ///   [`MAX_ELEMENTS`](crate::MAX_ELEMENTS). There is room in the buffers up to there: they grow.
    ///
    /// ```
    /// use borzhanu::{HalfEdge, OwnedMesh, Refusal};
    ///
    /// // A square plate of two triangles. Its rim is split from 1 to 2, and then the diagonal.
    /// let corners = [[0.0, 0.0, 0.0], [8.0, 0.0, 0.0], [8.0, 8.0, 0.0], [0.0, 8.0, 0.0]];
    /// let mut plate = OwnedMesh::with_points(&corners, &[[1, 2, 3, 0], [1, 3, 4, 0]])?;
    /// let counts = plate.split(HalfEdge::side(1, 1))?;
    /// assert_eq!(plate.rows(), [[1, 5, 3, 0], [1, 3, 4, 0], [5, 2, 3, 0]]);
    /// assert_eq!((plate.n(), counts.borders, counts.edges), (5, 5, 7));
    ///
    /// plate.split(HalfEdge::side(1, 3))?;
    /// assert_eq!(plate.rows(), [[6, 5, 3, 0], [1, 6, 4, 0], [5, 2, 3, 0], [1, 5, 6, 0], [6, 3, 4, 0]]);
    /// assert_eq!(plate.points()[4..], [[4.0, 0.0, 0.0], [4.0, 4.0, 0.0]]);
    ///
    /// // A border half-edge is no side.
    /// assert_eq!(plate.split(HalfEdge::border(1)), Err(Refusal::EdgeUnfit));
    /// # Ok::<(), borzhanu::Refusal>(())
    /// ```
    pub fn split(&mut self, side: HalfEdge) -> Result<Counts, Refusal> {
        self.tables.split(side, &mut self.points, &mut self.work)
    }

    /// Contracts an edge and closes the gaps. The edge is named by a side from a to b, inner or on the border, and b is
    /// merged into a, whose point stays. The triangle of the side and its partner, if there is one, go, the higher-numbered
    /// first; each time the last row takes the freed number. Every b becomes a; then the last vertex takes number b, with
    /// its point. Where the row or the vertex that goes is itself the last, nothing takes its number; where a is the last
    /// vertex, it has number b afterwards. So there is one vertex less, one element less or two, and rows and vertices
    /// can have other numbers: a side or a vertex is looked for anew. It gives both counts.
    ///
    /// A split and then the contraction of the same side give back the mesh as it was.
    ///
    /// # Errors
    ///
    /// After each of these the mesh is as it was:
    ///
    /// - [`Refusal::NotThere`] where the mesh has no such half-edge;
    /// - [`Refusal::EdgeUnfit`] for a border half-edge, whose side can be contracted, and for a side with a quadrilateral
    ///   on either side;
    /// - [`Refusal::EdgePinched`] where a and b have a common neighbour that isn't a third corner of a triangle on the
    ///   edge;
    /// - [`Refusal::VertexStranded`] where a vertex that was used, b apart, would be left unused;
    /// - [`Refusal::FanBroken`] where a and b are both on a border and the edge isn't: a would have two fans;
    /// - [`Refusal::ElementsClash`] where two elements would then meet otherwise than at one corner or one edge.
    ///
    /// Vertex and elements of the last two are numbered as they would be afterwards.
    ///
    /// ```
    /// use borzhanu::{HalfEdge, OwnedMesh, Refusal};
    ///
    /// // A square plate of four triangles about vertex 1.
    /// let points = [[4.0, 4.0, 0.0], [0.0, 0.0, 0.0], [8.0, 0.0, 0.0], [8.0, 8.0, 0.0], [0.0, 8.0, 0.0]];
    /// let rows = [[2, 3, 1, 0], [3, 4, 1, 0], [4, 5, 1, 0], [5, 2, 1, 0]];
    /// let mut plate = OwnedMesh::with_points(&points, &rows)?;
    ///
    /// // The side from 2 to 1: rows 4 and 1 go, row 3 becomes row 1, and vertex 5 becomes vertex 1.
    /// let counts = plate.contract(HalfEdge::side(4, 2))?;
    /// assert_eq!(plate.rows(), [[4, 1, 2, 0], [3, 4, 2, 0]]);
    /// assert_eq!(plate.points(), [points[4], points[1], points[2], points[3]]);
    /// assert_eq!((plate.n(), counts.borders, counts.edges), (4, 4, 5));
    ///
    /// // Without the diagonal's two triangles nothing would be left.
    /// assert_eq!(plate.contract(HalfEdge::side(1, 3)), Err(Refusal::VertexStranded));
    /// # Ok::<(), borzhanu::Refusal>(())
    /// ```
    pub fn contract(&mut self, side: HalfEdge) -> Result<Counts, Refusal> {
        self.tables.contract(side, &mut self.points, &mut self.work)
    }
}

//! An element list with its tables, owned.

use crate::{build, columns, contract, shape, split, swap, work_length};
use crate::{Counts, HalfEdge, Holes, Mesh, Refusal, Size, VertexKind, Walker};

/// An element list and the tables that were built of it. Whatever is asked of them, the only refusal is
/// [`Refusal::NotThere`].
///
/// ```
/// use borzhanu::{HalfEdge, Tables};
///
/// let tables = Tables::build(4, &[[1, 2, 3, 0], [1, 3, 4, 0]])?;
/// assert_eq!((tables.counts().borders, tables.counts().edges), (4, 5));
/// assert_eq!(tables.mesh().v2e(), [32, 8, 16, 24]);
/// assert_eq!(tables.opposite(HalfEdge::side(1, 3))?, HalfEdge::side(2, 1));
/// assert_eq!(tables.ring(1)?, [2, 1]);
/// assert_eq!(tables.neighbours(1)?, [4, 3, 2]);
/// # Ok::<(), borzhanu::Refusal>(())
/// ```
#[derive(Clone, Debug, PartialEq, Eq)]
pub struct Tables {
    n: u32,
    columns: u32,
    rows: Vec<[u32; 4]>,
    v2e: Vec<u32>,
    e2e: Vec<u32>,
    b2e: Vec<u32>,
    counts: Counts,
}

impl Tables {
    /// Builds the tables of the element list `rows` on n vertices. A row is four corners, the fourth 0 for a triangle.
    /// Vertices that no element uses are accepted, however many there are.
    ///
    /// # Errors
    ///
    /// Refusals 1, 3, 4, 6 to 8 and 18, where these rows are no mesh.
    pub fn build(n: u32, rows: &[[u32; 4]]) -> Result<Tables, Refusal> {
        Tables::build_with_work(n, rows).map(|(tables, _)| tables)
    }

    /// The same, with the work buffer that was used.
    pub(crate) fn build_with_work(n: u32, rows: &[[u32; 4]]) -> Result<(Tables, Vec<u32>), Refusal> {
        // Numbers over their maximum are refused here, before memory is taken for them.
        let columns = columns(n, rows.as_flattened())?;
        let m = rows.len();
        let mut v2e = vec![0; n as usize];
        let mut e2e = vec![0; columns as usize * m];
        // Each border half-edge leaves a vertex of its own and lies opposite a side of its own.
        let mut b2e = vec![0; (n as usize).min(4 * m)];
        let mut work = vec![0; work_length(n, m)];
        let counts = build(n, rows.as_flattened(), &mut v2e, &mut e2e, &mut b2e, &mut work)?;
        b2e.truncate(counts.borders as usize);
        Ok((Tables { n, columns, rows: rows.to_vec(), v2e, e2e, b2e, counts }, work))
    }

    /// Swaps a diagonal: in list and tables, or, refused, in neither. B2e is long enough as it is, since k stays.
    pub(crate) fn swap(&mut self, side: HalfEdge, work: &mut [u32]) -> Result<Counts, Refusal> {
        let mut size = Size { n: self.n, m: self.rows.len() as u32 };
        let elements = self.rows.as_flattened_mut();
        self.counts = swap(&mut size, elements, &mut self.v2e, &mut self.e2e, &mut self.b2e, work, side.code())?;
        Ok(self.counts)
    }

    /// Splits an edge: in list, tables and points, or, refused, in none of these. The buffers are made long enough for the
    /// new mesh before, and cut to what they hold after.
    pub(crate) fn split(
        &mut self,
        side: HalfEdge,
        points: &mut Vec<[f64; 3]>,
        work: &mut Vec<u32>,
    ) -> Result<Counts, Refusal> {
        let mut size = Size { n: self.n, m: self.rows.len() as u32 };
        self.resize(Size { n: size.n + 1, m: size.m + 2 }, self.counts.borders + 1, points, work);
        let (elements, numbers) = (self.rows.as_flattened_mut(), points.as_flattened_mut());
        let (v2e, e2e, b2e) = (&mut self.v2e, &mut self.e2e, &mut self.b2e);
        let answer = split(&mut size, elements, v2e, e2e, b2e, numbers, work, side.code());
        self.counts = answer.unwrap_or(self.counts);
        self.n = size.n;
        self.resize(size, self.counts.borders, points, work);
        answer
    }

    /// Contracts an edge: in list, tables and points, or, refused, in none of these. B2e is long enough as it is, since k
    /// doesn't grow. The buffers are cut to what they hold after.
    pub(crate) fn contract(
        &mut self,
        side: HalfEdge,
        points: &mut Vec<[f64; 3]>,
        work: &mut Vec<u32>,
    ) -> Result<Counts, Refusal> {
        let mut size = Size { n: self.n, m: self.rows.len() as u32 };
        let (elements, numbers) = (self.rows.as_flattened_mut(), points.as_flattened_mut());
        let (v2e, e2e, b2e) = (&mut self.v2e, &mut self.e2e, &mut self.b2e);
        self.counts = contract(&mut size, elements, v2e, e2e, b2e, numbers, work, side.code())?;
        self.n = size.n;
        self.resize(size, self.counts.borders, points, work);
        Ok(self.counts)
    }

    /// Each buffer in the length that it has for n vertices, m elements and k borders.
    fn resize(&mut self, Size { n, m }: Size, k: u32, points: &mut Vec<[f64; 3]>, work: &mut Vec<u32>) {
        let (vertices, m) = (n as usize, m as usize);
        self.rows.resize(m, [0; 4]);
        self.v2e.resize(vertices, 0);
        self.e2e.resize(self.columns as usize * m, 0);
        self.b2e.resize(k as usize, 0);
        points.resize(vertices, [0.0; 3]);
        work.resize(work_length(n, m), 0);
    }

    /// The element list.
    pub(crate) fn rows(&self) -> &[[u32; 4]] {
        &self.rows
    }

    /// The list and its tables, lent.
    pub fn mesh(&self) -> Mesh<'_> {
        Mesh::fit(self.n, self.columns, self.rows.as_flattened(), &self.v2e, &self.e2e, &self.b2e)
    }

    /// k and the number of edges.
    pub fn counts(&self) -> Counts {
        self.counts
    }

    /// The half-edge that runs along the same edge the other way.
    ///
    /// # Errors
    ///
    /// [`Refusal::NotThere`] where the mesh has no such half-edge.
    pub fn opposite(&self, half_edge: HalfEdge) -> Result<HalfEdge, Refusal> {
        self.mesh().opposite(half_edge.code()).map(HalfEdge::from_code)
    }

    /// The half-edge that follows: of a side, in its element; of a border half-edge, along its border.
    ///
    /// # Errors
    ///
    /// [`Refusal::NotThere`] where the mesh has no such half-edge.
    pub fn next(&self, half_edge: HalfEdge) -> Result<HalfEdge, Refusal> {
        self.mesh().next(half_edge.code()).map(HalfEdge::from_code)
    }

    /// The side before a side, in its element.
    ///
    /// # Errors
    ///
    /// [`Refusal::NotThere`] where the mesh has no such side, and for a border half-edge.
    pub fn previous(&self, side: HalfEdge) -> Result<HalfEdge, Refusal> {
        self.mesh().previous(side.code()).map(HalfEdge::from_code)
    }

    /// The element of a side.
    ///
    /// # Errors
    ///
    /// [`Refusal::NotThere`] where the mesh has no such side, and for a border half-edge.
    pub fn element(&self, side: HalfEdge) -> Result<u32, Refusal> {
        self.mesh().element(side.code())
    }

    /// The vertex where a half-edge begins.
    ///
    /// # Errors
    ///
    /// [`Refusal::NotThere`] where the mesh has no such half-edge.
    pub fn origin(&self, half_edge: HalfEdge) -> Result<u32, Refusal> {
        self.mesh().origin(half_edge.code())
    }

    /// The vertex where a half-edge ends.
    ///
    /// # Errors
    ///
    /// [`Refusal::NotThere`] where the mesh has no such half-edge.
    pub fn destination(&self, half_edge: HalfEdge) -> Result<u32, Refusal> {
        self.mesh().destination(half_edge.code())
    }

    /// The element on the other side of a side, or 0 at a border.
    ///
    /// # Errors
    ///
    /// [`Refusal::NotThere`] where the mesh has no such side, and for a border half-edge.
    pub fn across(&self, side: HalfEdge) -> Result<u32, Refusal> {
        self.mesh().across(side.code())
    }

    /// Whether a half-edge is a border half-edge.
    ///
    /// # Errors
    ///
    /// [`Refusal::NotThere`] where the mesh has no such half-edge.
    pub fn halfedge_is_border(&self, half_edge: HalfEdge) -> Result<bool, Refusal> {
        self.mesh().halfedge_is_border(half_edge.code())
    }

    /// Whether a vertex is inside, on a rim or unused.
    ///
    /// # Errors
    ///
    /// [`Refusal::NotThere`] where the mesh has no vertex v.
    pub fn vertex_kind(&self, v: u32) -> Result<VertexKind, Refusal> {
        self.mesh().vertex_kind(v)
    }

    /// The elements about a vertex in turn order, each once: at a border from rim to rim. None about an unused vertex.
    ///
    /// # Errors
    ///
    /// [`Refusal::NotThere`] where the mesh has no vertex v.
    pub fn ring(&self, v: u32) -> Result<Vec<u32>, Refusal> {
        self.mesh().ring_of(v)
    }

    /// The vertices joined to a vertex by an edge, in turn order. None for an unused vertex.
    ///
    /// # Errors
    ///
    /// [`Refusal::NotThere`] where the mesh has no vertex v.
    pub fn neighbours(&self, v: u32) -> Result<Vec<u32>, Refusal> {
        self.mesh().neighbours_of(v)
    }

    /// The border half-edges of one hole, as border numbers from b on: all that [`Tables::next`] leads to from there,
    /// each once.
    ///
    /// # Errors
    ///
    /// [`Refusal::NotThere`] where the mesh has no border half-edge b.
    pub fn border_loop(&self, b: u32) -> Result<Vec<u32>, Refusal> {
        self.mesh().border_loop_of(b)
    }

    /// The holes: which one each border half-edge is on, and how long each is. There is nothing to refuse here, since
    /// every border loop of built tables comes back.
    pub fn holes(&self) -> Holes {
        Holes::of(&self.mesh()).expect("every border loop of built tables comes back")
    }

    /// The number n − edges + m, which tells the shape: 2 × pieces − openings − 2 × handles + the vertices that no element
    /// uses. There is nothing to refuse here, since the list was built. The edges are counted anew, in time linear in
    /// n + m.
    ///
    /// ```
    /// use borzhanu::Tables;
    ///
    /// // A box of six plates: one piece, closed. And without its lid, which leaves an opening.
    /// let plates = [[1, 4, 3, 2], [1, 2, 6, 5], [2, 3, 7, 6], [3, 4, 8, 7], [4, 1, 5, 8], [5, 6, 7, 8]];
    /// assert_eq!(Tables::build(8, &plates)?.shape(), 2);
    /// assert_eq!(Tables::build(8, &plates[..5])?.shape(), 1);
    ///
    /// // The closed box and a vertex that no plate uses: there is no opening, and the number isn't 2.
    /// let tables = Tables::build(9, &plates)?;
    /// assert_eq!((tables.holes().count(), tables.shape()), (0, 3));
    /// # Ok::<(), borzhanu::Refusal>(())
    /// ```
    pub fn shape(&self) -> i64 {
        self.shape_with(&mut vec![0; work_length(self.n, self.rows.len())])
    }

    /// The same, with a work buffer that is long enough.
    pub(crate) fn shape_with(&self, work: &mut [u32]) -> i64 {
        shape(self.n, self.rows.as_flattened(), work).expect("the list was accepted")
    }

    /// Walks about a vertex, element by element, with no list to fill. About an unused vertex the walk is over at once.
    ///
    /// # Errors
    ///
    /// [`Refusal::NotThere`] where the mesh has no vertex v.
    pub fn walk(&self, v: u32) -> Result<Walker<'_>, Refusal> {
        self.mesh().walk(v)
    }
}

//! Half-edges by their codes.

use crate::{border, side, MAX_BORDERS, MAX_ELEMENTS};
use std::fmt;

/// A half-edge, by its code: side i of element f is ⟨f,i⟩, border half-edge b is ⟨b,0⟩. Code 0 names nothing. Whether a
/// mesh has the half-edge is for a query to say.
///
/// ```
/// use borzhanu::HalfEdge;
///
/// let side = HalfEdge::side(2, 1);
/// assert_eq!((side.code(), side.element(), side.number()), (17, Some(2), 1));
/// assert_eq!(side.to_string(), "⟨2,1⟩");
///
/// let border = HalfEdge::from_code(32);
/// assert_eq!(border, HalfEdge::border(4));
/// assert!(border.is_border());
/// assert_eq!((border.element(), border.border_number()), (None, Some(4)));
/// ```
#[derive(Clone, Copy, Debug, PartialEq, Eq, PartialOrd, Ord, Hash)]
pub struct HalfEdge(u32);

impl HalfEdge {
    /// Side i of element f. Code 0 where f isn't 1 to [`MAX_ELEMENTS`] or i isn't 1 to 4.
    pub fn side(f: u32, i: u32) -> HalfEdge {
        let possible = (1..=MAX_ELEMENTS).contains(&f) && (1..=4).contains(&i);
        HalfEdge(if possible { side(f, i) } else { 0 })
    }

    /// Border half-edge b. Code 0 where b isn't 1 to [`MAX_BORDERS`].
    pub fn border(b: u32) -> HalfEdge {
        HalfEdge(if b <= MAX_BORDERS { border(b) } else { 0 })
    }

    /// The half-edge of a code, as the tables hold it.
    pub const fn from_code(code: u32) -> HalfEdge {
        HalfEdge(code)
    }

    /// The code.
    pub const fn code(self) -> u32 {
        self.0
    }

    /// The two numbers of ⟨f,i⟩ or ⟨b,0⟩.
    pub const fn numbers(self) -> (u32, u32) {
        (self.0 / 8, self.0 % 8)
    }

    /// The element of a side; `None` for a border half-edge.
    pub fn element(self) -> Option<u32> {
        let (f, i) = self.numbers();
        (i != 0).then_some(f)
    }

    /// The number of a side in its element, 1 to 4; 0 for a border half-edge.
    pub const fn number(self) -> u32 {
        self.numbers().1
    }

    /// Whether this is a border half-edge.
    pub const fn is_border(self) -> bool {
        self.0 != 0 && self.number() == 0
    }

    /// The number of a border half-edge; `None` for a side.
    pub fn border_number(self) -> Option<u32> {
        self.is_border().then_some(self.numbers().0)
    }
}

impl From<u32> for HalfEdge {
    fn from(code: u32) -> HalfEdge {
        HalfEdge::from_code(code)
    }
}

impl From<HalfEdge> for u32 {
    fn from(half_edge: HalfEdge) -> u32 {
        half_edge.code()
    }
}

impl fmt::Display for HalfEdge {
    fn fmt(&self, f: &mut fmt::Formatter<'_>) -> fmt::Result {
        let (whole, number) = self.numbers();
        write!(f, "⟨{whole},{number}⟩")
    }
}

//! What an OFF file says, owned.

use crate::{read_off, Refusal, Size, Tables, MAX_ELEMENTS};

/// The number of vertices and the element list that the text of an OFF file says. Its coordinates and its number of edges
/// aren't kept.
///
/// ```
/// use borzhanu::{Off, Refusal};
///
/// // A pyramid on a base of four corners. Blanks and comments may part the items anyhow.
/// let off = Off::read(
///     b"OFF # pyramid
///     5 5 8
///     0 0 0   60 0 0   60 60 0   0 60 0   30 30 +42.5
///     4 0 3 2 1 # base
///     3 0 1 4   3 1 2 4   3 2 3 4   3 3 0 4",
/// )?;
/// assert_eq!(off.n(), 5);
/// assert_eq!(off.rows()[..2], [[1, 4, 3, 2], [1, 2, 5, 0]]);
/// assert_eq!(off.tables()?.counts().borders, 0);
///
/// // Corners count from 0: there is no vertex 5. The text is in form all the same, and building says so.
/// let off = Off::read(b"OFF 3 1 0  0 0 0  1 0 0  0 1 0  3 0 1 5")?;
/// assert_eq!(off.rows(), [[1, 2, 6, 0]]);
/// assert_eq!(off.tables(), Err(Refusal::CornerUnfit { element: 1, corner: 3 }));
/// # Ok::<(), borzhanu::Refusal>(())
/// ```
#[derive(Clone, Debug, PartialEq, Eq)]
pub struct Off {
    n: u32,
    rows: Vec<[u32; 4]>,
}

impl Off {
    /// Reads the text of an OFF file, as [`read_off`] does.
    ///
    /// # Errors
    ///
    /// Refusals 16, 1 and 17, in this order.
    pub fn read(text: &[u8]) -> Result<Off, Refusal> {
        // A face of three corners is four items, each of a byte at least and with one before it that parts it from the item
        // before: eight bytes. A text with more faces than that has too many of them or a smaller one, and is refused for it
        // whatever the room is.
        let most = (text.len() / 8).min(MAX_ELEMENTS as usize);
        let mut rows = vec![[0; 4]; most];
        let Size { n, m } = read_off(text, rows.as_flattened_mut())?;
        rows.truncate(m as usize);
        rows.shrink_to_fit();
        Ok(Off { n, rows })
    }

    /// The number of vertices.
    pub fn n(&self) -> u32 {
        self.n
    }

    /// The element list: four corners to a row, the fourth 0 for a triangle.
    pub fn rows(&self) -> &[[u32; 4]] {
        &self.rows
    }

    /// Builds the tables of the list.
    ///
    /// # Errors
    ///
    /// Refusals 3, 4, 6 to 8 and 18, where these rows are no mesh.
    pub fn tables(&self) -> Result<Tables, Refusal> {
        Tables::build(self.n, &self.rows)
    }
}

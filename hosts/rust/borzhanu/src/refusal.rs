//! Why a call refused.

use std::error::Error;
use std::fmt;

/// Why a call refused, with its place. The numbers are those of include/borzhanu.h; its 14 belongs to the listing
/// program, and no call here gives it. 5 is reserved: no call gives it any more.
#[non_exhaustive]
#[derive(Clone, Copy, Debug, PartialEq, Eq, Hash)]
pub enum Refusal {
    /// 1: more than 1,000,000 vertices or elements, or an element list that isn't in fours.
    Sizes,
    /// 2: a buffer is too short or too long for this n, this m and the columns of E2e. The columns themselves are
    /// looked up here, never told wrongly.
    Lengths,
    /// 3: corner 1 to 3 is 0, or a corner is above n.
    CornerUnfit {
        /// The first such element.
        element: u32,
        /// Its first such corner.
        corner: u32,
    },
    /// 4: an element has a corner twice.
    CornerRepeated {
        /// The first such element.
        element: u32,
        /// The later corner.
        corner: u32,
    },
    /// 5, reserved: a vertex belongs to no element. No call gives it any more, since such a vertex is accepted, with
    /// V2e entry 0; [`Mesh::vertex_kind`](crate::Mesh::vertex_kind) tells it.
    VertexUnused {
        /// The least such vertex.
        vertex: u32,
    },
    /// 6: three or more elements meet at an edge. [`Siblings`](crate::Siblings) takes such a list.
    EdgeCrowded {
        /// The element of the least such side.
        element: u32,
        /// Its number in the element.
        side: u32,
    },
    /// 7: two elements run along an edge in the same direction.
    SidesAlike {
        /// The element of the least such side.
        element: u32,
        /// Its number in the element.
        side: u32,
    },
    /// 8: the elements at a vertex aren't one fan.
    FanBroken {
        /// The least such vertex.
        vertex: u32,
    },
    /// 9: B2e is too short.
    BorderShort {
        /// The length that it needs, k.
        needed: u32,
    },
    /// 10: no element list has exactly these tables.
    NoList,
    /// 11: there is no such vertex, border or half-edge, or the question isn't defined for it.
    NotThere,
    /// 12: a table entry that was read names nothing, or a walk doesn't come to its end. A V2e entry of 0 is broken
    /// only where a border half-edge must follow; what begins at the vertex takes it for unused.
    TableBroken,
    /// 13: an output is too short.
    OutputShort {
        /// The length that it needs.
        needed: u32,
    },
    /// 15: the half-edge named is a border half-edge, or the side named is a border side or has a quadrilateral on either
    /// side. An edit gives it, after 11. A border side of a triangle can be split and contracted, though.
    EdgeUnfit,
    /// 16: the text isn't in the form of an OFF file: an item isn't what it must be there, or follows the last face, or the
    /// text ends too early.
    OffUnfit {
        /// The line of the first bad item or of the text's end, from 1. One above 2^28 − 1 is given as that.
        line: u32,
    },
    /// 17: a face of an OFF file has other than 3 or 4 corners. The text is in form; it comes after 16 and 1.
    FaceUnfit {
        /// The first such face, from 1.
        face: u32,
    },
    /// 18: two elements meet otherwise than at one corner or one edge, as two triangles back to back do, and two
    /// quadrilaterals with a diagonal in common. It comes after 8 and before 9.
    ElementsClash {
        /// The lower element of the least such pair.
        first: u32,
        /// The higher one.
        second: u32,
    },
    /// 19: the new n or m would be over 1,000,000, or a buffer other than B2e is too short for the new mesh. An edit that
    /// makes the mesh larger gives it, after 15.
    NoRoom,
    /// 20: the ends of the edge to be contracted have a common neighbour that isn't a third corner of the one or two
    /// triangles on the edge, as on a thin tube or by a hole of three edges: the mesh would be pinched there. It comes
    /// after 15.
    EdgePinched,
    /// 21: contracted, the edge would leave a vertex unused that was used: a third corner that has no other element, or
    /// those of the last triangle. It comes after 20.
    VertexStranded,
}

impl Refusal {
    /// The refusal of a number and a place.
    ///
    /// # Panics
    ///
    /// On a number that isn't in this table: then the archive isn't the one that this crate is written for.
    pub(crate) fn of(number: u32, first: u32, second: u32) -> Refusal {
        match number {
            1 => Refusal::Sizes,
            2 => Refusal::Lengths,
            3 => Refusal::CornerUnfit { element: first, corner: second },
            4 => Refusal::CornerRepeated { element: first, corner: second },
            5 => Refusal::VertexUnused { vertex: first },
            6 => Refusal::EdgeCrowded { element: first, side: second },
            7 => Refusal::SidesAlike { element: first, side: second },
            8 => Refusal::FanBroken { vertex: first },
            9 => Refusal::BorderShort { needed: first },
            10 => Refusal::NoList,
            11 => Refusal::NotThere,
            12 => Refusal::TableBroken,
            13 => Refusal::OutputShort { needed: first },
            15 => Refusal::EdgeUnfit,
            16 => Refusal::OffUnfit { line: first },
            17 => Refusal::FaceUnfit { face: first },
            18 => Refusal::ElementsClash { first, second },
            19 => Refusal::NoRoom,
            20 => Refusal::EdgePinched,
            21 => Refusal::VertexStranded,
            _ => panic!("libborzhanu.a gave refusal {number}, which this crate doesn't know"),
        }
    }

    /// The refusal's number.
    pub fn number(self) -> u32 {
        match self {
            Refusal::Sizes => 1,
            Refusal::Lengths => 2,
            Refusal::CornerUnfit { .. } => 3,
            Refusal::CornerRepeated { .. } => 4,
            Refusal::VertexUnused { .. } => 5,
            Refusal::EdgeCrowded { .. } => 6,
            Refusal::SidesAlike { .. } => 7,
            Refusal::FanBroken { .. } => 8,
            Refusal::BorderShort { .. } => 9,
            Refusal::NoList => 10,
            Refusal::NotThere => 11,
            Refusal::TableBroken => 12,
            Refusal::OutputShort { .. } => 13,
            Refusal::EdgeUnfit => 15,
            Refusal::OffUnfit { .. } => 16,
            Refusal::FaceUnfit { .. } => 17,
            Refusal::ElementsClash { .. } => 18,
            Refusal::NoRoom => 19,
            Refusal::EdgePinched => 20,
            Refusal::VertexStranded => 21,
        }
    }

    /// The two numbers of the refusal's place, 0 where it has none.
    pub fn place(self) -> (u32, u32) {
        match self {
            Refusal::CornerUnfit { element, corner } | Refusal::CornerRepeated { element, corner } => (element, corner),
            Refusal::EdgeCrowded { element, side } | Refusal::SidesAlike { element, side } => (element, side),
            Refusal::VertexUnused { vertex } | Refusal::FanBroken { vertex } => (vertex, 0),
            Refusal::BorderShort { needed } | Refusal::OutputShort { needed } => (needed, 0),
            Refusal::OffUnfit { line } => (line, 0),
            Refusal::FaceUnfit { face } => (face, 0),
            Refusal::ElementsClash { first, second } => (first, second),
            Refusal::Sizes
            | Refusal::Lengths
            | Refusal::NoList
            | Refusal::NotThere
            | Refusal::TableBroken
            | Refusal::EdgeUnfit
            | Refusal::NoRoom
            | Refusal::EdgePinched
            | Refusal::VertexStranded => (0, 0),
        }
    }

    /// What the refusal means, in the words of include/borzhanu.h; its place isn't in them.
    pub fn text(self) -> &'static str {
        match self {
            Refusal::Sizes => "more than 1,000,000 vertices or elements, or an element list not in fours",
            Refusal::Lengths => {
                "a buffer's length doesn't fit n, m and the columns, or the columns told aren't 0, 3 or 4"
            }
            Refusal::CornerUnfit { .. } => "a corner is 0 (not the fourth) or above n",
            Refusal::CornerRepeated { .. } => "a corner comes twice in an element",
            Refusal::VertexUnused { .. } => "reserved: vertices that belong to no element are accepted",
            Refusal::EdgeCrowded { .. } => "three or more elements meet at an edge",
            Refusal::SidesAlike { .. } => "two elements run along an edge in the same direction",
            Refusal::FanBroken { .. } => "the elements at a vertex aren't one fan",
            Refusal::BorderShort { .. } => "B2e is shorter than k",
            Refusal::NoList => "no element list has exactly these tables",
            Refusal::NotThere => "the vertex, border or half-edge isn't there, or the question isn't defined for it",
            Refusal::TableBroken => "a table entry that was read names nothing, or a walk is overlong",
            Refusal::OutputShort { .. } => "the output is too short",
            Refusal::EdgeUnfit => "the side or code named is a border or has a quadrilateral beside it",
            Refusal::OffUnfit { .. } => "the text isn't in the form of an OFF file",
            Refusal::FaceUnfit { .. } => "a face has other than 3 or 4 corners",
            Refusal::ElementsClash { .. } => "two elements meet otherwise than at one corner or one edge",
            Refusal::NoRoom => {
                "n or m would be over 1,000,000, or a buffer other than B2e is too short for the new mesh"
            }
            Refusal::EdgePinched => {
                "the edge's ends have a common neighbour that isn't a third corner of its triangles"
            }
            Refusal::VertexStranded => "a vertex that was used would be left unused",
        }
    }
}

impl fmt::Display for Refusal {
    fn fmt(&self, f: &mut fmt::Formatter<'_>) -> fmt::Result {
        f.write_str(self.text())?;
        match self {
            Refusal::CornerUnfit { element, corner } | Refusal::CornerRepeated { element, corner } => {
                write!(f, ": element {element}, corner {corner}")
            }
            Refusal::EdgeCrowded { element, side } | Refusal::SidesAlike { element, side } => {
                write!(f, ": element {element}, side {side}")
            }
            Refusal::VertexUnused { vertex } | Refusal::FanBroken { vertex } => write!(f, ": vertex {vertex}"),
            Refusal::BorderShort { needed } | Refusal::OutputShort { needed } => write!(f, ": needed length {needed}"),
            Refusal::OffUnfit { line } => write!(f, ": line {line}"),
            Refusal::FaceUnfit { face } => write!(f, ": face {face}"),
            Refusal::ElementsClash { first, second } => write!(f, ": elements {first} and {second}"),
            Refusal::Sizes
            | Refusal::Lengths
            | Refusal::NoList
            | Refusal::NotThere
            | Refusal::TableBroken
            | Refusal::EdgeUnfit
            | Refusal::NoRoom
            | Refusal::EdgePinched
            | Refusal::VertexStranded => Ok(()),
        }
    }
}

impl Error for Refusal {}

#[cfg(test)]
mod tests {
    use super::Refusal;

    const HEADER: &str = include_str!("../../../../include/borzhanu.h");
    const README: &str = include_str!("../../../../README.md");

    /// What `borzhanu_refusal_text` of the header returns for the constant of this number.
    fn text_in_header(number: u32) -> Option<&'static str> {
        let end = format!(" = {number}");
        let constant = HEADER.lines().find_map(|line| line.trim_end_matches(',').strip_suffix(&end))?.trim();
        let (_, after) = HEADER.split_once(&format!("case {constant}:"))?;
        after.split('"').nth(1)
    }

    #[test]
    fn header_and_readme_say_the_same() {
        for number in (1..=13).chain(15..=21) {
            let text = Refusal::of(number, 0, 0).text();
            assert_eq!(text_in_header(number), Some(text));
            assert!(README.contains(&format!("| {number} | {text} |")), "README on refusal {number}");
        }
    }
}

//! Texts of OFF files to try the reading on: in form, written in every way that is, and with slips.

use crate::meshes::{corners_of, Dice, List};
use std::iter;
use std::mem;
use std::str;

/// The greatest whole number that a text can say.
pub const GREATEST: u32 = 9_999_999;

/// Items that aren't in form as whole numbers, most of them as decimal numbers neither.
const STRANGE: &str = ".5 5. -.5 +5. + - . -. --1 +-1 1- 1+1 1.2.3 1..2 1.+2 -2.50 3.0 +3 -0 1e3 1E-3 0x3 3, 12345678 \
                       00000003 OFF OFFX off nan \0 3\0 \u{a0} \u{663}";

/// Bytes that mean something in a text.
const MEANT: &[u8] = b" \t\r\n#0123456789+-.OF";

/// The vertices and faces that a text says; corners count from 0.
#[derive(Clone, Debug)]
pub struct Surface {
    pub n: u32,
    pub faces: Vec<Vec<u32>>,
}

/// A text in its parts, and what stands after the last item.
#[derive(Clone)]
pub struct Text {
    parts: Vec<Part>,
    end: Vec<u8>,
}

/// An item, and what stands before it.
#[derive(Clone)]
struct Part {
    gap: Vec<u8>,
    item: Vec<u8>,
}

impl Surface {
    /// The faces of a list. Corner 0, which no text can say, becomes the first vertex.
    pub fn of(list: &List) -> Surface {
        let face = |row: &[u32; 4]| row[..corners_of(row)].iter().map(|v| v.saturating_sub(1)).collect();
        Surface { n: list.n, faces: list.rows.iter().map(face).collect() }
    }

    /// Fewer than so many vertices and faces, with any corners; once in four times there are faces that have neither three
    /// of them nor four.
    pub fn any(dice: &mut Dice, size: u32) -> Surface {
        let (n, m, with_others) = (dice.below(size), dice.below(size), dice.once_in(4));
        let mut face = || {
            let corners = if with_others && dice.once_in(4) { any_count(dice) } else { 3 + dice.below(2) };
            (0..corners).map(|_| any_corner(n, dice)).collect()
        };
        Surface { n, faces: (0..m).map(|_| face()).collect() }
    }

    /// The items of a text, with any coordinates and any number of edges.
    fn items(&self, dice: &mut Dice) -> Vec<Vec<u8>> {
        let edges = dice.below(GREATEST + 1) >> dice.below(24);
        let mut items = vec![b"OFF".to_vec()];
        items.extend([self.n, self.faces.len() as u32, edges].map(|number| whole(number, dice)));
        items.extend((0..3 * self.n).map(|_| decimal(dice)));
        for face in &self.faces {
            items.push(whole(face.len() as u32, dice));
            items.extend(face.iter().map(|&corner| whole(corner, dice)));
        }
        items
    }

    /// A text in form, written plainly or anyhow.
    pub fn written(&self, dice: &mut Dice) -> Text {
        let plainly = dice.once_in(3);
        let mut parts: Vec<Part> =
            self.items(dice).into_iter().map(|item| Part { gap: gap(plainly, dice), item }).collect();
        if plainly || dice.once_in(2) {
            parts[0].gap.clear();
        }
        Text { parts, end: any_end(plainly, dice) }
    }
}

impl Text {
    pub fn bytes(&self) -> Vec<u8> {
        let parts = self.parts.iter().flat_map(|part| [&part.gap[..], &part.item]);
        parts.chain([&self.end[..]]).flatten().copied().collect()
    }

    /// With one or two slips, among the items and then among the bytes.
    pub fn damaged(mut self, dice: &mut Dice) -> Vec<u8> {
        let slips = 1 + dice.below(2);
        let among_items = dice.below(slips + 1);
        (0..among_items).for_each(|_| self.slip(dice));
        let mut bytes = self.bytes();
        (among_items..slips).for_each(|_| slip_of_bytes(&mut bytes, dice));
        bytes
    }

    /// An item is gone, there twice, exchanged for another of the text, or changed.
    fn slip(&mut self, dice: &mut Dice) {
        let (at, other) = (dice.index(&self.parts), dice.index(&self.parts));
        let part = self.parts[at].clone();
        match dice.below(9) {
            0 => _ = self.parts.remove(at),
            1 => self.parts.insert(at, part),
            2 => self.parts[at].item = mem::replace(&mut self.parts[other].item, part.item),
            3 => self.parts[at].item.insert(0, b"+-"[dice.below(2) as usize]),
            4 => self.parts[at].item = [&b"00000000"[part.item.len().min(8)..], &part.item].concat(),
            5 | 6 => self.parts[at].item = any_strange(dice),
            7 => self.change_number(at, dice),
            // one of the counts, mostly
            _ => self.change_number(dice.below(4).min(at as u32) as usize, dice),
        }
    }

    /// A whole number is raised or lowered a little, or made any other. Another item stays.
    fn change_number(&mut self, at: usize, dice: &mut Dice) {
        let item = &mut self.parts[at].item;
        let Some(number) = str::from_utf8(item).ok().and_then(|digits| digits.parse::<u32>().ok()) else { return };
        let near = number.saturating_add(dice.below(5)).saturating_sub(2);
        *item = whole(if dice.once_in(8) { dice.number() } else { near }, dice);
    }
}

/// A byte is another, gone, or there besides; or the text is cut off.
fn slip_of_bytes(bytes: &mut Vec<u8>, dice: &mut Dice) {
    if bytes.is_empty() {
        return;
    }
    let at = dice.index(bytes);
    match dice.below(5) {
        0 => bytes[at] = any_byte(dice),
        1 => _ = bytes.remove(at),
        2 => bytes.insert(at, any_byte(dice)),
        3 => bytes.push(any_byte(dice)),
        _ => bytes.truncate(at),
    }
}

fn any_byte(dice: &mut Dice) -> u8 {
    if dice.once_in(2) {
        dice.below(256) as u8
    } else {
        MEANT[dice.index(MEANT)]
    }
}

fn any_strange(dice: &mut Dice) -> Vec<u8> {
    let items: Vec<&str> = STRANGE.split(' ').collect();
    items[dice.index(&items)].into()
}

/// A face's number of corners, of any kind.
fn any_count(dice: &mut Dice) -> u32 {
    if dice.once_in(5) {
        10 + dice.below(40)
    } else {
        dice.below(10)
    }
}

/// Mostly one of n vertices, or one that there isn't.
fn any_corner(n: u32, dice: &mut Dice) -> u32 {
    match dice.below(24) {
        0 => n + dice.below(3),
        1 => dice.below(GREATEST + 1),
        2 => GREATEST,
        _ => dice.below(n),
    }
}

/// A whole number, with zeros in front where there is room for them.
fn whole(number: u32, dice: &mut Dice) -> Vec<u8> {
    let width = if dice.once_in(4) { dice.below(8) as usize } else { 0 };
    format!("{number:0width$}").into_bytes()
}

/// A decimal number of each form.
fn decimal(dice: &mut Dice) -> Vec<u8> {
    let mut item = [&b""[..], b"", b"+", b"-"][dice.below(4) as usize].to_vec();
    item.extend(digits(dice));
    if dice.once_in(2) {
        item.push(b'.');
        item.extend(digits(dice));
    }
    item
}

/// A few digits, or very many.
fn digits(dice: &mut Dice) -> Vec<u8> {
    let most = if dice.once_in(200) { 2_000 } else { 8 };
    (0..=dice.below(most)).map(|_| b'0' + dice.below(10) as u8).collect()
}

/// What parts two items: plainly a blank, else blanks and comments.
fn gap(plainly: bool, dice: &mut Dice) -> Vec<u8> {
    let mut gap = Vec::new();
    while gap.is_empty() || !plainly && dice.once_in(3) {
        gap.extend(if plainly || !dice.once_in(4) { blank(dice) } else { comment(dice) });
    }
    gap
}

/// What stands after the last item: nothing, blanks and comments, perhaps one without a newline.
fn any_end(plainly: bool, dice: &mut Dice) -> Vec<u8> {
    let mut end = if dice.once_in(3) { Vec::new() } else { gap(plainly, dice) };
    if !plainly && dice.once_in(3) {
        end.extend(comment(dice));
        end.pop();
    }
    end
}

fn blank(dice: &mut Dice) -> Vec<u8> {
    [&b" "[..], b" ", b"\t", b"\r", b"\n", b"\r\n"][dice.below(6) as usize].to_vec()
}

/// A comment of any bytes, and its newline.
fn comment(dice: &mut Dice) -> Vec<u8> {
    let inner = (0..dice.below(12)).map(|_| any_byte(dice)).filter(|&byte| byte != b'\n');
    iter::once(b'#').chain(inner).chain([b'\n']).collect()
}

//! OFF texts line by line: a line is cut at its first # and split at its blanks, and what is left of it are its items.

use super::{Refused, MAX_ELEMENTS, MAX_VERTICES};
use std::cell::Cell;
use std::iter;
use std::str;

/// The largest number that a place has room for.
const LARGEST: usize = (1 << 28) - 1;

/// What a text says: the number of its vertices and the list of its faces.
pub struct Off {
    pub n: u32,
    pub list: Vec<u32>,
}

/// What the items of a text in form say, as far as it is kept.
struct Said {
    n: u32,
    /// The row of each face; none for one with other than 3 or 4 corners.
    faces: Vec<Option<[u32; 4]>>,
}

fn lines(text: &[u8]) -> impl Iterator<Item = &[u8]> {
    text.split(|&byte| byte == b'\n')
}

fn items(line: &[u8]) -> impl Iterator<Item = &[u8]> {
    let before_comment = line.split(|&byte| byte == b'#').next().unwrap_or(line);
    before_comment.split(|byte| b" \t\r".contains(byte)).filter(|item| !item.is_empty())
}

fn are_digits(bytes: &[u8]) -> bool {
    !bytes.is_empty() && bytes.iter().all(u8::is_ascii_digit)
}

fn whole(item: &[u8]) -> Option<u32> {
    let digits = Some(item).filter(|item| item.len() <= 7 && are_digits(item))?;
    str::from_utf8(digits).ok()?.parse().ok()
}

fn is_decimal(item: &[u8]) -> bool {
    let unsigned = item.strip_prefix(b"+").or(item.strip_prefix(b"-")).unwrap_or(item);
    let mut parts = unsigned.split(|&byte| byte == b'.');
    parts.clone().count() <= 2 && parts.all(are_digits)
}

fn row(corners: &[u32]) -> Option<[u32; 4]> {
    match *corners {
        [a, b, c] => Some([a + 1, b + 1, c + 1, 0]),
        [a, b, c, d] => Some([a + 1, b + 1, c + 1, d + 1]),
        _ => None,
    }
}

/// What the items say, taken one by one up to the first that isn't what it must be: then nothing.
fn in_form<'a>(mut items: impl Iterator<Item = &'a [u8]>) -> Option<Said> {
    items.next().filter(|item| item == b"OFF")?;
    let mut number = || items.next().and_then(whole);
    let (n, m, _edges) = (number()?, number()?, number()?);
    for _ in 0..3 * n {
        items.next().filter(|item| is_decimal(item))?;
    }
    let mut number = || items.next().and_then(whole);
    let mut face = || (0..number()?).map(|_| number()).collect::<Option<Vec<u32>>>();
    let faces = (0..m).map(|_| face().map(|corners| row(&corners))).collect::<Option<Vec<_>>>()?;
    items.next().is_none().then_some(Said { n, faces })
}

/// Check 16. The line is that of the last item taken, or of the text's end where one more was asked for.
fn said(text: &[u8]) -> Result<Said, Refused> {
    let at = Cell::new(0);
    let numbered = (1..).zip(lines(text)).flat_map(|(line, bytes)| items(bytes).map(move |item| (line, item)));
    let end = || {
        at.set(lines(text).count());
        None
    };
    let taken = numbered.inspect(|(line, _)| at.set(*line)).map(|(_, item)| item).chain(iter::from_fn(end));
    in_form(taken).ok_or_else(|| (16, at.get().min(LARGEST) as u32, 0))
}

/// Checks 16, 1, 17 and 13, and what is read into a list of this length.
pub fn read_off(text: &[u8], room: usize) -> Result<Off, Refused> {
    let Said { n, faces } = said(text)?;
    let m = faces.len();
    if n > MAX_VERTICES || m > MAX_ELEMENTS {
        return Err((1, 0, 0));
    }
    if let Some(at) = faces.iter().position(Option::is_none) {
        return Err((17, at as u32 + 1, 0));
    }
    if room < 4 * m {
        return Err((13, 4 * m as u32, 0));
    }
    Ok(Off { n, list: faces.into_iter().flatten().flatten().collect() })
}

//! Readers of OFF files as programs have them: by splitting, and by a scanner.

use hosts::reference::Refused;
use std::str;

/// n, and the rows of the element list.
pub type Rows = (u32, Vec<[u32; 4]>);

const MOST: u32 = 1_000_000;
/// The largest number that a place has room for.
const LARGEST: u32 = (1 << 28) - 1;

/// Room for m faces, but for no more than the text has: a face has eight bytes at least.
fn with_room(m: u32, text: &[u8]) -> Vec<[u32; 4]> {
    Vec::with_capacity((m as usize).min(text.len() / 8))
}

/// Each line is cut at its comment and split at white space. What is kept is parsed, and the rest passed over; nothing is
/// found wrong but a number that can't be parsed and an item that is missing.
pub fn read_by_splitting(text: &[u8]) -> Option<Rows> {
    let lines = str::from_utf8(text).ok()?.lines();
    let mut items = lines.flat_map(|line| line.split('#').next().unwrap_or(line).split_ascii_whitespace());
    items.next().filter(|word| *word == "OFF")?;
    let mut number = || items.next()?.parse::<u32>().ok();
    let (n, m, _edges) = (number()?, number()?, number()?);
    for _ in 0..3 * n {
        items.next()?;
    }
    let mut number = || items.next()?.parse::<u32>().ok();
    let mut rows = with_room(m, text);
    for _ in 0..m {
        rows.push(match number()? {
            3 => [number()? + 1, number()? + 1, number()? + 1, 0],
            4 => [number()? + 1, number()? + 1, number()? + 1, number()? + 1],
            _ => return None,
        });
    }
    Some((n, rows))
}

/// A place in a text, and its line.
struct Scanner<'a> {
    text: &'a [u8],
    at: usize,
    line: u32,
}

impl Scanner<'_> {
    fn byte(&self) -> Option<u8> {
        self.text.get(self.at).copied()
    }

    /// Past a comment, up to its newline.
    fn pass_comment(&mut self) {
        let rest = &self.text[self.at..];
        self.at += rest.iter().position(|&byte| byte == b'\n').unwrap_or(rest.len());
    }

    /// To the next item, or to the text's end.
    fn pass_blanks(&mut self) {
        while let Some(byte) = self.byte() {
            match byte {
                b' ' | b'\t' | b'\r' => self.at += 1,
                b'\n' => {
                    self.at += 1;
                    self.line += 1;
                }
                b'#' => self.pass_comment(),
                _ => return,
            }
        }
    }

    /// The item that ends here, if it does.
    fn over<T>(&self, item: Option<T>) -> Result<T, Refused> {
        let ends = matches!(self.byte(), None | Some(b' ' | b'\t' | b'\r' | b'\n' | b'#'));
        item.filter(|_| ends).ok_or((16, self.line.min(LARGEST), 0))
    }

    /// Past digits; how many, and the number that they are where they aren't too many.
    fn digits(&mut self) -> (usize, u32) {
        let (start, mut number) = (self.at, 0u32);
        while let Some(digit) = self.byte().filter(u8::is_ascii_digit) {
            number = number.wrapping_mul(10).wrapping_add(u32::from(digit - b'0'));
            self.at += 1;
        }
        (self.at - start, number)
    }

    fn word(&mut self) -> Result<(), Refused> {
        self.pass_blanks();
        let is_word = self.text[self.at..].starts_with(b"OFF");
        self.at += if is_word { 3 } else { 0 };
        self.over(is_word.then_some(()))
    }

    fn whole(&mut self) -> Result<u32, Refused> {
        self.pass_blanks();
        let (count, number) = self.digits();
        self.over((1..=7).contains(&count).then_some(number))
    }

    fn decimal(&mut self) -> Result<(), Refused> {
        self.pass_blanks();
        if let Some(b'+' | b'-') = self.byte() {
            self.at += 1;
        }
        let mut is_decimal = self.digits().0 > 0;
        if self.byte() == Some(b'.') {
            self.at += 1;
            is_decimal &= self.digits().0 > 0;
        }
        self.over(is_decimal.then_some(()))
    }

    fn end(&mut self) -> Result<(), Refused> {
        self.pass_blanks();
        self.over((self.at == self.text.len()).then_some(()))
    }
}

/// One pass over the bytes, with every check of the kernel but 13, since a vector is long enough.
pub fn read_by_scanning(text: &[u8]) -> Result<Rows, Refused> {
    let mut scanner = Scanner { text, at: 0, line: 1 };
    scanner.word()?;
    let (n, m, _edges) = (scanner.whole()?, scanner.whole()?, scanner.whole()?);
    for _ in 0..3 * n {
        scanner.decimal()?;
    }
    let (mut rows, mut unfit) = (with_room(m, text), None);
    for f in 1..=m {
        let corners = scanner.whole()?;
        let mut corner = || scanner.whole().map(|corner| corner + 1);
        match corners {
            3 => rows.push([corner()?, corner()?, corner()?, 0]),
            4 => rows.push([corner()?, corner()?, corner()?, corner()?]),
            _ => {
                (0..corners).try_for_each(|_| corner().map(|_| ()))?;
                unfit = unfit.or(Some(f));
            }
        }
    }
    scanner.end()?;
    match unfit {
        _ if n > MOST || m > MOST => Err((1, 0, 0)),
        Some(f) => Err((17, f, 0)),
        None => Ok((n, rows)),
    }
}

//! Texts of OFF files: some whose lists are known, every byte in every place of a text, every short text of some bytes,
//! texts written in every way, with slips and without, and the longest.

use crate::call::{refused, Call, Outcome, Question};
use crate::host::Host;
use borzhanu::{Off, MAX_ELEMENTS, MAX_VERTICES};
use hosts::meshes::{any_housing, List};
use hosts::reference::off::read_off;
use hosts::reference::{self, Built, Refused};
use hosts::texts::{Surface, GREATEST};
use std::mem;

/// n and m, or a refusal.
type Answer = Result<(u32, u32), Refused>;

/// A text, n, and the rows.
type Known = (&'static str, u32, &'static [[u32; 4]]);

const KNOWN: [Known; 12] = [
    ("OFF 0 0 0", 0, &[]),
    ("\r\n\t OFF\r0\t0 9999999\n", 0, &[]),
    ("# OFF 1 1 1\n#\nOFF#0 1 0\n0 0 0# 0", 0, &[]),
    // vertices alone, with decimal numbers of each form
    ("OFF 1 0 0 0 0 0", 1, &[]),
    ("OFF 2 0 0\n-0 007 +1.50\n0.0 -12.25 00000000.00000000", 2, &[]),
    // corners that there aren't, and leading zeros
    ("OFF 0 1 0 3 0 0 0", 0, &[[1, 1, 1, 0]]),
    ("OFF 0 1 0 4 9999999 0000009 0000000 1", 0, &[[10_000_000, 10, 1, 2]]),
    ("OFF 0 0000001 0000000 0000003 1 2 3", 0, &[[2, 3, 4, 0]]),
    ("OFF 4 2 5\n0 0 0\n1 0 0\n1 1 0\n0 1 0\n3 0 1 2\n3 0 2 3\n", 4, &[[1, 2, 3, 0], [1, 3, 4, 0]]),
    ("OFF 0 2 0 4 0 1 2 3 3 3 2 4", 0, &[[1, 2, 3, 4], [4, 3, 5, 0]]),
    // a comment directly after each item, and a return in one
    ("OFF#\n1#\n1#\n0#\n-1#\n2.5#\n+3#\n3#\n0#\n1#\n2#", 1, &[[1, 2, 3, 0]]),
    ("OFF # 7\r7 7\n0 1 0 3 0 1 2#\r\n", 0, &[[1, 2, 3, 0]]),
];

const REFUSED: [(&str, Refused); 46] = [
    // nothing, or nothing but blanks and comments
    ("", (16, 1, 0)),
    (" \t\r", (16, 1, 0)),
    ("\n", (16, 2, 0)),
    ("#", (16, 1, 0)),
    ("\n# OFF 0 0 0\r\n\n", (16, 4, 0)),
    // the word
    ("off 0 0 0", (16, 1, 0)),
    ("OFFX 0 0 0", (16, 1, 0)),
    ("\nOF#\nF 0 0 0", (16, 2, 0)),
    ("\n\nOFF0 0 0 0", (16, 3, 0)),
    ("0 0 0", (16, 1, 0)),
    // the counts
    ("OFF", (16, 1, 0)),
    ("OFF 0\n0\n", (16, 3, 0)),
    ("OFF\n00000000 0 0", (16, 2, 0)),
    ("OFF\n0\n10000000 0", (16, 3, 0)),
    ("OFF 0 0\n+0", (16, 2, 0)),
    ("OFF 0 0\n-0", (16, 2, 0)),
    ("OFF 0 0\n0.0", (16, 2, 0)),
    ("OFF 0 0\n0,", (16, 2, 0)),
    ("OFF 9999999 9999999 9999999\n", (16, 2, 0)),
    // the decimal numbers
    ("OFF 1 0 0\n0 0\n", (16, 3, 0)),
    ("OFF 1 0 0\n0\n.5 0", (16, 3, 0)),
    ("OFF 1 0 0\n0\n5. 0", (16, 3, 0)),
    ("OFF 1 0 0\n0\n1e3 0", (16, 3, 0)),
    ("OFF 1 0 0\n0\n--1 0", (16, 3, 0)),
    ("OFF 1 0 0\n0\n+ 0", (16, 3, 0)),
    ("OFF 1 0 0\n0\n1.2.3 0", (16, 3, 0)),
    ("OFF 1 0 0\n0 0 0\n0", (16, 3, 0)),
    ("OFF 2 0 0\n0 0 0\n0 0", (16, 3, 0)),
    // the faces, and an item past the last of them
    ("OFF 0 1 0\n", (16, 2, 0)),
    ("OFF 0 1 0\n3 0 0\n", (16, 3, 0)),
    ("OFF 0 1 0\n3 0 0\n-0", (16, 3, 0)),
    ("OFF 0 1 0\n3 0\n00000000 0", (16, 3, 0)),
    ("OFF 0 1 0\n+3 0 0 0", (16, 2, 0)),
    ("OFF 0 1 0\n3 0 0 0\n#\n0 x", (16, 4, 0)),
    ("OFF 0 0 0 OFF", (16, 1, 0)),
    ("OFF 0 1 0\n9999999 0 0 0", (16, 2, 0)),
    // corner counts, the first of two; and 16 where a bad item stands before such a face, in it or after it
    ("OFF 0 1 0 0", (17, 1, 0)),
    ("OFF 0 1 0 2 0 0", (17, 1, 0)),
    ("OFF 0 2 0 3 0 0 0 0000005 0 0 0 0 0", (17, 2, 0)),
    ("OFF 0 4 0 4 0 0 0 0 3 0 0 0 1 9 0", (17, 3, 0)),
    ("OFF 1 1 0 0 0 0 10 0 1 2 3 4 5 6 7 8 9", (17, 1, 0)),
    ("OFF 0 2 0\n3 0 x 0\n2 0 0", (16, 2, 0)),
    ("OFF 0 2 0\n3 0 0 0\n2 0 x", (16, 3, 0)),
    ("OFF 0 2 0\n2 0 0\n3 0 0 x", (16, 3, 0)),
    ("OFF 0 2 0\n2 0 0\n3 0 0\n", (16, 4, 0)),
    ("OFF 0 1 0\n2 0 0 0", (16, 2, 0)),
];

/// How many entries a list has beyond what it needs.
const OTHER_ROOM: [isize; 10] = [isize::MIN, -5, -4, -3, -2, -1, 1, 2, 3, 9];

/// A text with a list of this length, through the wrapper and straight.
fn compare_room(host: &mut Host, text: &[u8], room: usize) -> Outcome {
    let noise = mem::take(&mut host.noise);
    let calls = [Question::ReadOff, Question::RawReadOff].map(|what| Call {
        what,
        n: 0,
        elements: &noise[..room],
        v2e: &[],
        e2e: &[],
        b2e: &[],
        work: &[],
        out: &[],
        lengths: &[],
        points: &[],
        text,
    });
    let want = calls[0].expected();
    for call in &calls {
        host.check(call, &want);
    }
    host.noise = noise;
    want
}

/// The owner takes what was read, or the refusal, which is never 13.
fn compare_owned(host: &mut Host, text: &[u8], want: &Outcome) {
    let owned = Off::read(text);
    host.situation.calls += 1;
    let rows = owned.as_ref().map_or(&[][..], Off::rows);
    let answer = owned.as_ref().map(|off| (off.n(), rows.len() as u32)).map_err(|refusal| refused(*refusal));
    let list = want.left.elements.as_deref().unwrap_or(&[]);
    assert_eq!((answer, rows.as_flattened()), (want.answer, list), "owned, on {}", text.escape_ascii());
}

/// With a list that is just long enough, or of any length where the text is refused; with a longer one or a shorter one;
/// and owned. Hands over what was expected of the first.
fn compare_text(host: &mut Host, text: &[u8]) -> Outcome {
    let needed = read_off(text, usize::MAX).map_or(host.dice.below(12) as usize, |off| off.list.len());
    let want = compare_room(host, text, needed);
    let other = OTHER_ROOM[host.dice.index(&OTHER_ROOM)];
    compare_room(host, text, needed.saturating_add_signed(other));
    compare_owned(host, text, &want);
    want
}

/// A text of which the answer is known; the reference has to find it too.
fn compare_known(host: &mut Host, text: &[u8], known: Answer) {
    let want = compare_text(host, text);
    assert_eq!(want.answer, known, "the reference, on {} bytes", text.len());
}

/// With lists of every length up to some more than they need.
fn known(host: &mut Host) {
    for (text, n, rows) in KNOWN {
        let m = rows.len() as u32;
        for room in 0..4 * m + 10 {
            let want = compare_room(host, text.as_bytes(), room as usize);
            let answer = if room < 4 * m { Err((13, 4 * m, 0)) } else { Ok((n, m)) };
            let list = answer.is_ok().then_some(rows.as_flattened());
            assert_eq!((want.answer, want.left.elements.as_deref()), (answer, list), "the reference, on {text:?}");
        }
        compare_known(host, text.as_bytes(), Ok((n, m)));
    }
    for (text, refusal) in REFUSED {
        for room in 0..10 {
            let want = compare_room(host, text.as_bytes(), room);
            assert_eq!(want.answer, Err(refusal), "the reference, on {text:?}");
        }
        compare_known(host, text.as_bytes(), Err(refusal));
    }
}

/// Each byte alone; then in each place of a text, besides and instead of what is there; and the text cut off at each place.
fn every_byte(host: &mut Host) {
    for byte in 0..=u8::MAX {
        compare_known(host, &[byte], Err((16, if byte == b'\n' { 2 } else { 1 }, 0)));
    }
    let text = b"OFF 1 1 0#0\n-1.5 +2 03.0\r\n3 0 1 2 # 4";
    for at in 0..=text.len() {
        let (before, after) = text.split_at(at);
        compare_text(host, before);
        compare_text(host, after);
        for byte in 0..=u8::MAX {
            compare_text(host, &[before, &[byte], after].concat());
            compare_text(host, &[before, &[byte], after.get(1..).unwrap_or(&[])].concat());
        }
    }
}

/// Between a start and an end, all that can be written with up to so many of these bytes.
fn every_middle(host: &mut Host, start: &[u8], bytes: &[u8], most: u32, end: &[u8]) {
    let values = bytes.len() as u32;
    for len in 0..=most {
        for number in 0..values.pow(len) {
            let middle = (0..len).map(|place| bytes[(number / values.pow(place) % values) as usize]);
            let text: Vec<u8> = start.iter().copied().chain(middle).chain(end.iter().copied()).collect();
            compare_text(host, &text);
        }
    }
}

fn every_short_text(host: &mut Host) {
    every_middle(host, b"", b"OF #\n", 5, b" 0 0 0");
    every_middle(host, b"OFF", b"01 #\n", 6, b"");
    every_middle(host, b"OFF 1 0 0 1 1 ", b"0.+- #\n", 5, b"");
    every_middle(host, b"OFF 0 1 0 ", b"034 x\n", 5, b" 0 0 0");
}

/// Each whole number of a text in one digit to nine: more than seven aren't in form.
fn every_width(host: &mut Host) {
    let items = ["OFF", "1", "2", "6", "0", "0", "0", "4", "1", "2", "3", "4", "3", "0", "0", "0"];
    for (at, width) in [1, 2, 3, 7, 8, 11, 12, 15].into_iter().flat_map(|at| (1..=9).map(move |width| (at, width))) {
        let mut padded = items.map(str::to_string);
        padded[at] = format!("{:0>width$}", items[at]);
        let known = if width > 7 { Err((16, at as u32 + 1, 0)) } else { Ok((1, 2)) };
        compare_known(host, padded.join("\n").as_bytes(), known);
    }
}

/// What has to be read of a surface, however it is written: an answer or a refusal, and the list.
fn said(surface: &Surface) -> (Answer, Option<Vec<u32>>) {
    if let Some(at) = surface.faces.iter().position(|face| ![3, 4].contains(&face.len())) {
        return (Err((17, at as u32 + 1, 0)), None);
    }
    let row = |face: &Vec<u32>| face.iter().map(|corner| corner + 1).chain([0]).take(4).collect::<Vec<u32>>();
    (Ok((surface.n, surface.faces.len() as u32)), Some(surface.faces.iter().flat_map(row).collect()))
}

/// A surface written twice, with other blanks, comments, coordinates, zeros and numbers of edges, gives equal lists. Then
/// both texts with slips.
fn compare_surface(host: &mut Host, surface: &Surface) {
    let texts = [(); 2].map(|()| surface.written(&mut host.dice));
    for text in &texts {
        let bytes = text.bytes();
        let want = compare_text(host, &bytes);
        assert_eq!((want.answer, want.left.elements), said(surface), "the reference, on {}", bytes.escape_ascii());
    }
    let [first, second] = [0, 1].map(|at| Off::read(&texts[at].bytes()));
    host.situation.calls += 2;
    assert!(first == second, "two texts of the same faces are read otherwise: {surface:?}");
    for text in texts {
        let damaged = text.clone().damaged(&mut host.dice);
        compare_text(host, &damaged);
        let damaged = text.damaged(&mut host.dice);
        compare_text(host, &damaged);
    }
}

/// Every place where a text can be cut off.
fn cut_texts(host: &mut Host) {
    for _ in 0..60 {
        let text = Surface::any(&mut host.dice, 8).written(&mut host.dice).bytes();
        for len in 0..text.len() {
            compare_text(host, &text[..len]);
        }
    }
}

/// The tables that the owner builds, or why there are none.
fn compare_tables(host: &mut Host, off: &Off) {
    let tables = off.tables().map_err(refused);
    host.situation.calls += 1;
    let entries = tables.as_ref().map(|tables| tables.mesh()).map(|mesh| [mesh.v2e(), mesh.e2e(), mesh.b2e()]);
    let built = reference::tables(off.n(), off.rows().as_flattened());
    let expected = built.as_ref().map(|Built { v2e, e2e, b2e, .. }| [&v2e[..], e2e, b2e]);
    assert_eq!(entries, expected, "tables of what was read: n {}, {:?}", off.n(), off.rows());
}

/// Housings, sound ones and others: what was read of them is handed to building, as rows and by the owner.
fn build_what_was_read(host: &mut Host) {
    for (rounds, size) in [(1_000, 12), (30, 300)] {
        for _ in 0..rounds {
            let surface = Surface::of(&any_housing(&mut host.dice, size));
            compare_surface(host, &surface);
            let off = Off::read(&surface.written(&mut host.dice).bytes()).expect("the text is in form");
            host.build(&List::new(off.n(), off.rows()));
            compare_tables(host, &off);
        }
    }
}

pub fn off_texts(host: &mut Host) {
    known(host);
    every_byte(host);
    every_short_text(host);
    every_width(host);
    for (rounds, size) in [(10_000, 5), (1_000, 40), (20, 1_000)] {
        for _ in 0..rounds {
            let surface = Surface::any(&mut host.dice, size);
            compare_surface(host, &surface);
        }
    }
    cut_texts(host);
    build_what_was_read(host);
}

/// A text of many bytes, and of one face at most, of which the answer is known: with one list, and owned.
fn compare_long(host: &mut Host, text: impl AsRef<[u8]>, known: Answer) {
    let text = text.as_ref();
    let want = compare_room(host, text, 4);
    assert_eq!(want.answer, known, "the reference, on {} bytes", text.len());
    compare_owned(host, text, &want);
}

/// The shortest text with so many vertices and faces, all faces but the last alike.
fn shortest(n: u32, m: u32, face: &str, last: &str) -> Vec<u8> {
    let (vertices, faces) = ("0 0 0\n".repeat(n as usize), face.repeat((m as usize).saturating_sub(1)));
    format!("OFF\n{n} {m} 0\n{vertices}{faces}{last}").into_bytes()
}

/// As many vertices, faces and corners as there may be, and one more; and as many as a text can say.
fn most_numbers(host: &mut Host) {
    let (most_n, most_m) = (MAX_VERTICES, MAX_ELEMENTS);
    let (triangle, too_large) = ("3 0 1 2\n", Err((1, 0, 0)));
    for (n, m, face, last, known) in [
        (most_n, 0, "", "", Ok((most_n, 0))),
        (most_n + 1, 0, "", "", too_large),
        (most_n + 1, 0, "", "0", Err((16, most_n + 4, 0))),
        (0, most_m, triangle, triangle, Ok((0, most_m))),
        (most_n, most_m, triangle, "4 0 1 2 3", Ok((most_n, most_m))),
        (0, most_m + 1, triangle, triangle, too_large),
        (0, most_m, triangle, "5 0 1 2 3 4", Err((17, most_m, 0))),
        (0, most_m, "0\n", "0", Err((17, 1, 0))),
        (0, most_m + 1, "0\n", "0", too_large),
        (0, most_m + 1, triangle, "2 0 1", too_large),
        (0, most_m + 1, triangle, "2 0", Err((16, most_m + 3, 0))),
        (0, most_m + 1, "0\n", "0\nx", Err((16, most_m + 4, 0))),
        (most_n + 1, 1, "", "2 0 1", too_large),
    ] {
        compare_known(host, &shortest(n, m, face, last), known);
    }
    let corners = |count: u32| shortest(0, 1, "", &format!("{GREATEST}\n{}", "0\n".repeat(count as usize)));
    compare_long(host, corners(GREATEST), Err((17, 1, 0)));
    compare_long(host, corners(GREATEST - 1), Err((16, GREATEST + 3, 0)));
    compare_long(host, shortest(GREATEST, 0, "", ""), too_large);
}

/// Ten million blanks, a comment and an item as long: alone, and in each place of a text.
fn longest_parts(host: &mut Host) {
    let ten_million = |part: &str| part.repeat(10_000_000 / part.len());
    for blanks in [" ", "\r\n"].map(ten_million) {
        let newlines = blanks.matches('\n').count() as u32;
        compare_long(host, &blanks, Err((16, 1 + newlines, 0)));
        compare_long(host, format!("{blanks}OFF 0 x"), Err((16, 1 + newlines, 0)));
        compare_long(host, format!("OFF 0{blanks}1 0 3 0 1 2"), Ok((0, 1)));
        compare_long(host, format!("OFF 0 0 0{blanks}"), Ok((0, 0)));
    }
    for inner in ["#", "OFF 0 0 0\r"].map(ten_million) {
        compare_long(host, format!("#{inner}"), Err((16, 1, 0)));
        compare_long(host, format!("#{inner}\nOFF#{inner}\n0 0 0"), Ok((0, 0)));
        compare_long(host, format!("OFF 0 0 0 #{inner}\n0"), Err((16, 2, 0)));
    }
    let digits = ten_million("0123456789");
    compare_long(host, format!("OFF 1 0 0 -{digits} 0.{digits} 0"), Ok((1, 0)));
    compare_long(host, format!("OFF 1 0 0 0 0.{digits}. 0"), Err((16, 1, 0)));
    compare_long(host, format!("OFF\n{digits}\n0 0"), Err((16, 2, 0)));
    compare_long(host, digits, Err((16, 1, 0)));
}

pub fn large_off_texts(host: &mut Host) {
    most_numbers(host);
    longest_parts(host);
}

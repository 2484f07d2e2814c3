//! Texts of OFF files, lent and owned, whose lists and refusals were worked out by hand from the rules of their form.

use borzhanu::{read_off, Off, Refusal, Tables, MAX_ELEMENTS, MAX_VERTICES};

/// A quadrilateral and a triangle on its third side.
const MIXED: &str = "OFF\n5 2 6\n0 0 0\n2 0 0\n2 1 0\n0 1 0\n1 2 0.5\n4 0 1 2 3\n3 3 2 4\n";
const MIXED_ROWS: [[u32; 4]; 2] = [[1, 2, 3, 4], [4, 3, 5, 0]];

/// A triangle, item by item.
const ITEMS: [&str; 17] = ["OFF", "3", "1", "3", "0", "0", "0", "4", "0", "0", "0", "3", "0", "3", "0", "1", "2"];
/// Where the whole numbers and the decimal ones stand among these.
const WHOLES: [usize; 7] = [1, 2, 3, 13, 14, 15, 16];
const DECIMALS: std::ops::Range<usize> = 4..13;

/// A call on a list of this length that holds 7 throughout: n, and the list that was written. What lies past it is looked at
/// here.
fn lent(text: &[u8], len: usize) -> Result<(u32, Vec<u32>), Refusal> {
    let mut elements = vec![7; len];
    let answer = read_off(text, &mut elements);
    let rest = elements.split_off(answer.map_or(0, |size| 4 * size.m as usize));
    assert!(rest.iter().all(|&entry| entry == 7));
    answer.map(|size| (size.n, elements))
}

/// Owned; and lent, with a list that is too short, just long enough and longer.
fn read(text: impl AsRef<[u8]>) -> Result<Off, Refusal> {
    let text = text.as_ref();
    let off = Off::read(text);
    let needed = off.as_ref().map_or(4, |off| 4 * off.rows().len());
    for len in [0, needed / 2, needed.saturating_sub(1), needed, needed + 1, needed + 6] {
        let expected = match &off {
            Ok(_) if len < needed => Err(Refusal::OutputShort { needed: needed as u32 }),
            Ok(off) => Ok((off.n(), off.rows().as_flattened().to_vec())),
            Err(refusal) => Err(*refusal),
        };
        assert_eq!(lent(text, len), expected);
    }
    off
}

/// What a text in form says.
fn said(text: impl AsRef<[u8]>) -> (u32, Vec<[u32; 4]>) {
    let off = read(text).expect("the text is in form");
    (off.n(), off.rows().to_vec())
}

fn is_mixed(text: impl AsRef<[u8]>) -> bool {
    said(text) == (5, MIXED_ROWS.to_vec())
}

fn unfit(line: u32) -> Result<Off, Refusal> {
    Err(Refusal::OffUnfit { line })
}

/// The triangle with another item in this place, each item on a line of its own.
fn with(at: usize, item: &str) -> String {
    let mut items = ITEMS;
    items[at] = item;
    items.join("\n")
}

#[test]
fn corners_are_counted_from_1() {
    assert!(is_mixed(MIXED));
    assert_eq!(said(ITEMS.join(" ")), (3, vec![[1, 2, 3, 0]]));
    // Whatever the greatest corner is, n is the text's.
    assert_eq!(said("OFF 0 1 0 3 0 0 0"), (0, vec![[1, 1, 1, 0]]));
    assert_eq!(said("OFF 1 1 0 0 0 0 4 3 2 1 9999999"), (1, vec![[4, 3, 2, 10_000_000]]));
    assert_eq!((said("OFF 0 0 0"), said("OFF 2 0 9 0 0 0 0 0 0")), ((0, vec![]), (2, vec![])));
}

#[test]
fn blanks_part_items() {
    for blank in [" ", "\t", "\r", "\n", "\r\n", " \t\r\n\n \r"] {
        assert!(is_mixed(MIXED.replace('\n', blank)));
        assert!(is_mixed(MIXED.replace(' ', blank)));
        assert!(is_mixed(format!("{blank}{}{blank}", MIXED.trim_end())));
    }
    assert!(is_mixed(MIXED.trim_end()));
    // Other bytes belong to items, whatever they are elsewhere.
    for other in ["\u{b}", "\u{c}", "\0", ",", ";", "\u{a0}", "\u{2028}"] {
        assert_eq!(read(MIXED.replacen("5 2", &format!("5{other}2"), 1)), unfit(2));
        assert_eq!(read(format!("{MIXED}{other}")), unfit(10));
    }
    assert_eq!(read(b"OFF 0 0 0 \xff"), unfit(1));
}

#[test]
fn comments_part_items() {
    for comment in ["#\n", " # 4 0 1 2 3\n", "#OFF\n", "### # \u{b}\r\n", "\t#\n \n#\n", "# \u{fc}\0\n"] {
        assert!(is_mixed(MIXED.replace('\n', comment)));
        assert!(is_mixed(MIXED.replace(' ', comment)));
        assert!(is_mixed(format!("{comment}{MIXED}{comment}")));
        assert!(is_mixed(format!("{MIXED}{}", comment.trim_end())));
    }
    assert!(is_mixed([MIXED.as_bytes(), b"#\x80\xff"].concat()));
    // A # ends the item before it, and a comment ends at a newline only.
    assert_eq!(said("OFF#0 0 0\n0 0 0"), (0, vec![]));
    assert_eq!(read("O#\nFF 0 0 0"), unfit(1));
    assert_eq!(read("OFF 1#\n0 0 0 0"), unfit(2));
    assert_eq!(read("OFF # \r 0 0 0"), unfit(1));
    assert_eq!(read("OFF 0 0 # 0"), unfit(1));
}

#[test]
fn the_word_is_off_alone() {
    for word in "off Off OF OFFX OFFOFF COFF NOFF 4OFF OFF4 \u{feff}OFF OFF\0 0FF 3".split(' ') {
        assert_eq!(read(with(0, word)), unfit(1));
    }
    // A binary file has another item after the word.
    assert_eq!(read("OFF BINARY\n0 0 0"), unfit(1));
}

#[test]
fn whole_numbers() {
    let others = "+3 -3 -0 3.0 3. .3 3e0 0x3 00000003 10000000 99999999 3, three \u{663}";
    for (at, item) in WHOLES.into_iter().flat_map(|at| others.split(' ').map(move |item| (at, item))) {
        assert_eq!(read(with(at, item)), unfit(at as u32 + 1));
    }
    for at in WHOLES {
        let item = format!("{:0>7}", ITEMS[at]);
        assert_eq!(said(with(at, &item)), said(ITEMS.join("\n")));
    }
    // The number of edges isn't looked at further.
    for item in ["0", "0000000", "7", "9999999"] {
        assert_eq!(said(with(3, item)), (3, vec![[1, 2, 3, 0]]));
    }
    assert_eq!(said(with(15, "9999999")), (3, vec![[1, 10_000_000, 3, 0]]));
}

#[test]
fn decimal_numbers() {
    let (long, exact) = ("9".repeat(5000), format!("-0.{}", "0".repeat(5000)));
    let in_form = ["-0", "007", "+1.50", "0.0", "-12.25", "+0", "12345678", "00000000.00000000", &long, &exact];
    let others =
        ".5 5. -.5 -5. + - . +. --1 +-1 1- 1+2 1.2.3 1..2 1.-2 1e3 1E3 1.5e-3 0x1 1,5 1_000 inf nan -OFF \u{2212}1";
    for at in DECIMALS {
        for item in in_form {
            assert_eq!(said(with(at, item)), (3, vec![[1, 2, 3, 0]]));
        }
        for item in others.split(' ') {
            assert_eq!(read(with(at, item)), unfit(at as u32 + 1));
        }
    }
    assert_eq!(read(with(12, &format!("{long}x"))), unfit(13));
}

#[test]
fn what_is_missing_is_bad_at_the_end() {
    for count in 0..ITEMS.len() {
        let lines = ITEMS[..count].join("\n");
        assert_eq!(read(&lines), unfit(count.max(1) as u32));
        assert_eq!(read(format!("{lines}\n\n# \n\r")), unfit(count.max(1) as u32 + 3));
        assert_eq!(read(ITEMS[..count].join(" ")), unfit(1));
    }
    // The corners of the second face, or of a million vertices all but one.
    assert_eq!(read("OFF\n0 2 0\n3 0 0 0\n7\n"), unfit(5));
    assert_eq!(read("OFF\n1000000 0 0\n0 0 0"), unfit(3));
    assert_eq!(read("OFF 9999999 9999999 9999999"), unfit(1));
}

#[test]
fn an_item_past_the_last_face_is_bad() {
    for item in ["0", "3", "OFF", "x", "+", "\0", "3 0 1 2"] {
        assert_eq!(read(format!("{MIXED}\n{item}\n\n")), unfit(11));
        assert_eq!(read(format!("OFF 0 0 0\r\n#\n{item}")), unfit(3));
    }
    // Colours after a face are items too, and stand where the next face should.
    assert_eq!(read("OFF 3 1 0\n0 0 0 4 0 0 0 3 0\n3 0 1 2 255 0 0"), unfit(3));
    assert_eq!(read("OFF 3 2 0\n0 0 0 4 0 0 0 3 0\n3 0 1 2 0.5 0 0\n3 0 2 1"), unfit(3));
    assert_eq!(said("OFF 0 2 0 3 0 1 2 4 3 0 2 3"), (0, vec![[1, 2, 3, 0], [4, 1, 3, 4]]));
}

#[test]
fn lines_are_counted_by_newlines() {
    // In comments too, a return isn't one, and of two bad items the first counts.
    assert_eq!(read("# one\n# two\n\n  OFF 0 x 0\n y"), unfit(4));
    assert_eq!(read("OFF\r\n0\r\nx\r\n0"), unfit(3));
    assert_eq!(read("OFF\r0\rx\r0"), unfit(1));
    assert_eq!(read("\n\nOFF # x\n#\n0 0#\n"), unfit(6));
    assert_eq!(read("\n\n\nx"), unfit(4));
    assert_eq!(read("x\n\n\n"), unfit(1));
    assert_eq!((read(""), read(" "), read("\n"), read("#\n#")), (unfit(1), unfit(1), unfit(2), unfit(2)));
}

#[test]
fn faces_of_other_corner_counts() {
    let face = |corners: usize| format!(" {corners}{}", " 0".repeat(corners));
    let unfit_face = |face| Err(Refusal::FaceUnfit { face });
    for corners in (0..100).chain([1000, 9999]).filter(|corners| ![3, 4].contains(corners)) {
        assert_eq!(read(format!("OFF 0 1 0{}", face(corners))), unfit_face(1));
        assert_eq!(read(format!("OFF 0 3 0{}{}{}", face(3), face(4), face(corners))), unfit_face(3));
        assert_eq!(read(format!("OFF 0 3 0{}{}{}", face(4), face(corners), face(2))), unfit_face(2));
        // All its corners are asked for, and what follows has to be in form first.
        assert_eq!(read(format!("OFF 0 2 0{}\n3 0 0", face(corners))), unfit(2));
        assert_eq!(read(format!("OFF 0 1 0\n{}\n0", face(corners))), unfit(3));
        assert_eq!(read(format!("OFF 0 1 0\nx{}", face(corners))), unfit(2));
    }
    assert_eq!(read(format!("OFF 0 1 0 9999999{}", " 0".repeat(100))), unfit(1));
    assert_eq!(read("OFF 0 1 0 0000002 0 0"), unfit_face(1));
}

#[test]
fn equal_numbers_give_equal_lists() {
    let plain = "OFF 4 2 5  0 0 0  1 0 0  1 1 0  0 1 0  3 0 1 2  4 0 2 3 9";
    let other = "#\n\nOFF\r\n0004 02 0 # edges\r\n-7.25 +3 0.1\n00 00 00 5 5 5\t5 5 5#\n3#0\n0000000\n01 2 4 0 2\n\n\n\
                 0003 9 # 10\n# end";
    assert_eq!(read(plain), read(other));
    assert_eq!(said(plain), (4, vec![[1, 2, 3, 0], [1, 3, 4, 10]]));
    // One vertex fewer, another corner, and the corners of a face from another one on.
    let fewer = plain.replacen("4 2 5  0 0 0", "3 2 5", 1);
    for text in [fewer, plain.replace("3 9", "3 8"), plain.replace("0 1 2", "1 2 0")] {
        assert_ne!(said(text), said(plain));
    }
}

#[test]
fn tables_of_what_was_read() {
    let tables = |text: &str| read(text).and_then(|off| off.tables());
    let points = "0 0 0 ";
    let listing = tables(&format!("OFF 4 2 5 {} 3 0 1 2 3 0 2 3", points.repeat(4))).expect("two triangles");
    assert_eq!((listing.counts().borders, listing.counts().edges), (4, 5));
    assert_eq!((listing.mesh().v2e(), listing.mesh().e2e()), (&[32, 8, 16, 24][..], &[8, 16, 17, 11, 24, 32][..]));
    assert_eq!(tables(MIXED), Tables::build(5, &MIXED_ROWS));
    // Vertices that no face has are spare. A corner above the vertex count, or one that comes twice, is for build to refuse.
    assert_eq!(tables(&format!("OFF 9 0 0 {}", points.repeat(9))), Tables::build(9, &[]));
    assert_eq!(tables("OFF 0 0 0"), Tables::build(0, &[]));
    let three = points.repeat(3);
    let of_one = |face: &str| tables(&format!("OFF 3 1 3 {three} {face}"));
    assert_eq!(of_one("3 0 1 3"), Err(Refusal::CornerUnfit { element: 1, corner: 3 }));
    assert_eq!(of_one("4 0 1 2 9999999"), Err(Refusal::CornerUnfit { element: 1, corner: 4 }));
    assert_eq!(of_one("3 0 1 1"), Err(Refusal::CornerRepeated { element: 1, corner: 3 }));
    let both = tables(&format!("OFF 3 2 3 {three} 3 0 1 2 3 0 2 1"));
    assert_eq!(both, Err(Refusal::ElementsClash { first: 1, second: 2 }));
}

#[test]
fn refusals_say_where() {
    let shown = |text: &str| {
        Off::read(text.as_bytes()).map_err(|refusal| (refusal.number(), refusal.place(), refusal.to_string()))
    };
    let form = "the text isn't in the form of an OFF file: line 3".to_string();
    assert_eq!(shown("OFF\n0\nx"), Err((16, (3, 0), form)));
    let face = "a face has other than 3 or 4 corners: face 2".to_string();
    assert_eq!(shown("OFF 0 2 0 3 0 0 0 1 0"), Err((17, (2, 0), face)));
}

/// As short as texts of so many faces can be: the owner always has room.
#[test]
fn the_shortest_texts() {
    for m in (0..200).chain([9_999, 100_000]) {
        let text = |rest: &str| format!("OFF 0 {m} 0{}{rest}", " 3 0 0 0".repeat(m));
        assert_eq!(said(text("")).1, vec![[1, 1, 1, 0]; m]);
        assert_eq!((read(text(" 0")), read(text(" "))), (unfit(1), read(text(""))));
    }
}

/// The calls keep nothing between them.
#[test]
fn several_threads_at_once() {
    let faces = format!("OFF 0 1000 0{}", "\n4 0 1 2 3".repeat(1000));
    std::thread::scope(|scope| {
        for text in [MIXED, &faces, "OFF\n0 0\nx", "OFF 0 1 0 1 0", "OFF 0 0 0"] {
            let expected = Off::read(text.as_bytes());
            scope.spawn(move || assert!((0..2000).all(|_| Off::read(text.as_bytes()) == expected)));
        }
    });
}

#[test]
fn the_largest_sizes() {
    let (n, m) = (MAX_VERTICES as usize, MAX_ELEMENTS as usize);
    let vertices = |n: usize| format!("OFF\n{n} 0 0\n{}", "0 0 0\n".repeat(n));
    assert_eq!(said(vertices(n)), (MAX_VERTICES, vec![]));
    assert_eq!(read(vertices(n + 1)), Err(Refusal::Sizes));
    assert_eq!(read(vertices(n + 1) + "0"), unfit(n as u32 + 4));
    assert_eq!(read(&vertices(n + 1)[..6 * n]), unfit(n as u32));

    let faces = |m: usize, last: &str| format!("OFF\n3 {m} 0\n0 0 0 0 0 0 0 0 0{}\n{last}", "\n3 0 1 2".repeat(m - 1));
    assert_eq!(said(faces(m, "4 2 1 0 9")).1[m - 2..], [[1, 2, 3, 0], [3, 2, 1, 10]]);
    // 16 before 1, 1 before 17, and 17 before 13.
    assert_eq!(read(faces(m, "2 0 1")), Err(Refusal::FaceUnfit { face: MAX_ELEMENTS }));
    assert_eq!(read(faces(m + 1, "2 0 1")), Err(Refusal::Sizes));
    assert_eq!(read(faces(m + 1, "3 0 1 2")), Err(Refusal::Sizes));
    assert_eq!(read(faces(m + 1, "2 0")), unfit(m as u32 + 4));
    assert_eq!(read(faces(m + 1, "2 0 1 1")), unfit(m as u32 + 4));
}

//! Buffers longer and shorter than they should be, and sizes at their maxima and past them.

use crate::call::{Call, Edge, Query, Question};
use crate::host::Host;
use borzhanu::{work_length, WalkerRecord, MAX_ELEMENTS, MAX_VERTICES};
use hosts::meshes::List;
use std::mem;

const AT_START: WalkerRecord = WalkerRecord { start: 9, next: 9, count: 0 };
const AT_END: WalkerRecord = WalkerRecord { start: 9, next: 0, count: 1 };

const QUERIES: [Query; 15] = [
    Query::Opposite(9),
    Query::Next(9),
    Query::Previous(9),
    Query::Element(9),
    Query::Origin(9),
    Query::Destination(9),
    Query::Across(9),
    Query::HalfedgeIsBorder(9),
    Query::VertexKind(1),
    Query::Ring(1),
    Query::Neighbours(1),
    Query::BorderLoop(1),
    Query::Start(1, AT_END),
    Query::Step(AT_START),
    Query::Step(AT_END),
];

/// Each call in turn, a query told any columns, recovery and edits any number of elements, mostly m.
fn any_questions(host: &mut Host, m: u32) -> Vec<Question> {
    let counts = [m, m, m, m, m + 1, m - 1, MAX_ELEMENTS + 1, u32::MAX];
    let count = counts[host.dice.below(8) as usize];
    let mut questions = vec![Question::Build, Question::Recover(count), Question::Columns];
    questions.extend([Question::Siblings, Question::RawSiblings, Question::Shape, Question::RawShape]);
    questions.extend(QUERIES.map(|query| Question::Query(host.any_way(), query)));
    questions.push(Question::Holes(host.any_way()));
    let edge = Edge { m: count, code: 9 };
    questions.extend([Question::Swap(edge), Question::RawSwap(edge), Question::Split(edge), Question::RawSplit(edge)]);
    questions.extend([Question::Contract(edge), Question::RawContract(edge)]);
    questions
}

/// An element list out of these entries: no row has a fourth corner, or row m alone, or every row.
fn with_fourths(mut elements: Vec<u32>, m: u32, kind: u32) -> Vec<u32> {
    for (f, row) in (1..).zip(elements.chunks_mut(4)) {
        row[3] = [0, (f == m) as u32, 1][kind as usize];
    }
    elements
}

/// Each buffer longer and shorter than it should be, one at a time and two at a time, and n changed.
pub fn lengths(host: &mut Host) {
    let changes = [-4, -1, 0, 1, 4];
    let small: Vec<u32> = host.noise[..400].iter().map(|number| number % 20).collect();
    for round in 0..12 {
        let (vertices, m) = (1 + host.dice.below(16), 1 + host.dice.below(12));
        let rows = with_fourths(small[..4 * m as usize + 8].to_vec(), m, round % 3);
        for (a, b) in (0..5).flat_map(|a| (0..=a).map(move |b| (a, b))) {
            for (first, second) in changes.iter().flat_map(|x| changes.iter().map(move |y| (*x, *y))) {
                for what in any_questions(host, m) {
                    let n = vertices + host.dice.once_in(8) as u32;
                    let columns = 3 + host.dice.below(2);
                    let borders = [host.dice.below(4), 3 * m, 4 * m][host.dice.below(3) as usize];
                    let mut lens = [4 * m, vertices, columns * m, borders, vertices + 16 * m].map(|len| len as usize);
                    lens[a] = lens[a].saturating_add_signed(first);
                    lens[b] = lens[b].saturating_add_signed(second);
                    let [v2e, e2e, b2e, work] = [lens[1], lens[2], lens[3], lens[4]].map(|len| &small[..len]);
                    let (elements, out, lengths) = (&rows[..lens[0]], &small[..9], &small[9..18]);
                    let points = &[7.0; 60][..(3 * vertices + host.dice.below(5)).saturating_sub(1) as usize];
                    host.compare(&Call { what, n, elements, v2e, e2e, b2e, work, out, lengths, points, text: &[] });
                }
            }
        }
    }
}

/// Building of a list that clashes, recovery from what its pairing gives, siblings and shape, with one buffer longer or
/// shorter: 1 and 2 come before 18, and 9 doesn't.
pub fn lengths_about(host: &mut Host, list: &List) {
    let (n, m) = (list.n, list.rows.len());
    let tables = host.tables_by_pairing(list).expect("only 18 refuses the list");
    let work = host.noise[..work_length(n, m)].to_vec();
    let fit = [tables.elements, tables.v2e, tables.e2e, tables.b2e, work];
    for (at, change) in (0..5).flat_map(|at| [-4, -1, 1, 4].map(|change| (at, change))) {
        let mut buffers = fit.clone();
        buffers[at].resize(fit[at].len().saturating_add_signed(change), 7);
        let [elements, v2e, e2e, b2e, work] = &buffers;
        for what in [Question::Build, Question::Recover(m as u32), Question::Siblings, Question::Shape] {
            host.compare(&Call {
                what,
                n,
                elements,
                v2e,
                e2e,
                b2e,
                work,
                out: &[],
                lengths: &[],
                points: &[],
                text: &[],
            });
        }
    }
}

/// Sizes and lengths about their maxima.
struct Sizes {
    n: u32,
    /// of the element list
    rows: u32,
    /// that recovery and edits are told
    m: u32,
    e2e_len: u32,
}

/// The work buffer is as long as it must be where checks 1 and 2 come to it, and short elsewhere.
fn compare_sizes(host: &mut Host, elements: &[u32], sizes: Sizes) {
    let Sizes { n, rows, m, e2e_len } = sizes;
    let noise = mem::take(&mut host.noise);
    let ring = Question::Query(host.any_way(), Query::Ring(1));
    let holes = Question::Holes(host.any_way());
    let edge = Edge { m, code: 9 };
    let points = vec![7.0; 3 * n as usize];
    for what in [
        Question::Build,
        Question::Recover(m),
        Question::Columns,
        Question::Siblings,
        Question::RawShape,
        ring,
        holes,
        Question::RawSwap(edge),
        Question::RawSplit(edge),
        Question::RawContract(edge),
    ] {
        let work_len = match what {
            Question::Build | Question::Siblings | Question::RawShape | Question::Holes(_)
                if n <= MAX_VERTICES && rows <= MAX_ELEMENTS =>
            {
                work_length(n, rows as usize)
            }
            Question::Recover(m)
            | Question::RawSwap(Edge { m, .. })
            | Question::RawSplit(Edge { m, .. })
            | Question::RawContract(Edge { m, .. })
                if n <= MAX_VERTICES && m <= MAX_ELEMENTS =>
            {
                work_length(n, m as usize)
            }
            _ => 9,
        };
        host.compare(&Call {
            what,
            n,
            elements: &elements[..4 * rows as usize],
            v2e: &noise[..n as usize],
            e2e: &noise[..e2e_len as usize],
            b2e: &noise[..9],
            work: &noise[..work_len],
            out: &noise[..9],
            lengths: &noise[9..18],
            points: &points,
            text: &[],
        });
    }
    host.noise = noise;
}

/// Lists of noise, which have fourth corners, and of zeros, which have none.
pub fn about_the_largest(host: &mut Host) {
    let (most, past) = (MAX_ELEMENTS, MAX_ELEMENTS + 1);
    let corners = host.noise[..4 * past as usize].to_vec();
    let zeros = vec![0; 4 * past as usize];
    for (elements, columns, other) in [(&corners, 4, 3), (&zeros, 3, 4)] {
        for sizes in [
            Sizes { n: most, rows: most, m: most, e2e_len: columns * most },
            Sizes { n: most, rows: most, m: most, e2e_len: other * most },
            Sizes { n: most, rows: most, m: most, e2e_len: columns * most + 1 },
            Sizes { n: most + 1, rows: most, m: most, e2e_len: columns * most },
            Sizes { n: most, rows: past, m: past, e2e_len: columns * past },
            Sizes { n: most, rows: past, m: most, e2e_len: columns * most },
            Sizes { n: most, rows: most, m: past, e2e_len: columns * most },
            Sizes { n: most, rows: 0, m: 0, e2e_len: 0 },
            Sizes { n: most + 1, rows: 0, m: 0, e2e_len: 0 },
        ] {
            compare_sizes(host, elements, sizes);
        }
    }
}

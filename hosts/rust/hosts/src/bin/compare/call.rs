//! One call, made on the kernel between guard pages and compared with the reference.

use borzhanu::{Counts, Mesh, Refusal, Size, VertexKind, WalkerRecord, MAX_ELEMENTS, MAX_VERTICES};
use hosts::guarded::{Guarded, Placement};
use hosts::raw::{
    borzhanu_contract, borzhanu_read_off, borzhanu_shape, borzhanu_siblings, borzhanu_split, borzhanu_swap,
};
use hosts::raw::{taken_apart, WithPoints};
use hosts::reference::contract::{contract, Contracted};
use hosts::reference::edited::{held, held_with_points, NewList};
use hosts::reference::holes::{self, Holes};
use hosts::reference::off::{read_off, Off};
use hosts::reference::shape::{self, halves};
use hosts::reference::siblings::{self, Siblings};
use hosts::reference::split::{split, Split};
use hosts::reference::swap::swap;
use hosts::reference::{self, columns_of, Built, Lengths, Refused, View};
use hosts::told;
use std::process;
use std::ptr;
use std::sync::atomic::{AtomicPtr, Ordering};

extern "C" {
    fn signal(number: i32, handler: extern "C" fn(i32)) -> usize;
}

/// In bytes: three numbers of two bytes for each of as many vertices as a text can say, and a little more.
const LONGEST_TEXT: usize = 60_000_100;

const SIGBUS: i32 = 7;
const SIGSEGV: i32 = 11;
const SIGALRM: i32 = 14;

/// What a call is given: the contents of each buffer, and what it is asked.
#[derive(Clone, Copy, Debug)]
pub struct Call<'a> {
    pub what: Question,
    pub n: u32,
    pub elements: &'a [u32],
    pub v2e: &'a [u32],
    /// E2e, or the map of siblings.
    pub e2e: &'a [u32],
    pub b2e: &'a [u32],
    pub work: &'a [u32],
    /// A list, or the hole of each border half-edge.
    pub out: &'a [u32],
    /// The lengths of the holes.
    pub lengths: &'a [u32],
    /// Three numbers for each vertex.
    pub points: &'a [f64],
    /// The text of an OFF file.
    pub text: &'a [u8],
}

/// A call and its own numbers.
#[derive(Clone, Copy, Debug)]
pub enum Question {
    Build,
    /// told so many elements
    Recover(u32),
    Columns,
    /// through the wrapper
    Siblings,
    /// straight to the archive
    RawSiblings,
    /// through the wrapper
    Shape,
    /// straight to the archive
    RawShape,
    /// through the wrapper
    ReadOff,
    /// straight to the archive
    RawReadOff,
    Query(Way, Query),
    /// asked as a query is
    Holes(Way),
    /// through the wrapper
    Swap(Edge),
    /// straight to the archive
    RawSwap(Edge),
    /// through the wrapper
    Split(Edge),
    /// straight to the archive
    RawSplit(Edge),
    /// through the wrapper
    Contract(Edge),
    /// straight to the archive
    RawContract(Edge),
}

/// What an edit is told beside n and the buffers.
#[derive(Clone, Copy, Debug)]
pub struct Edge {
    pub m: u32,
    pub code: u32,
}

/// A query goes through the wrapper, or straight to the archive, told so many columns.
#[derive(Clone, Copy, Debug)]
pub enum Way {
    Wrapper,
    Told(u32),
}

impl Way {
    /// The columns told. The wrapper's answer is that of the rule, which looks at the list.
    fn told(self) -> u32 {
        match self {
            Way::Wrapper => 0,
            Way::Told(columns) => columns,
        }
    }
}

/// A query and its own numbers.
#[derive(Clone, Copy, Debug)]
pub enum Query {
    Opposite(u32),
    Next(u32),
    Previous(u32),
    Element(u32),
    Origin(u32),
    Destination(u32),
    Across(u32),
    HalfedgeIsBorder(u32),
    VertexKind(u32),
    Ring(u32),
    Neighbours(u32),
    BorderLoop(u32),
    Start(u32, WalkerRecord),
    Step(WalkerRecord),
}

/// What a call answers and what it leaves.
pub struct Outcome {
    pub answer: Result<(u32, u32), Refused>,
    pub left: Left,
}

/// What a call writes: `None` for a buffer that is as it was. The lists are written from a buffer's start,
/// and what follows them is as it was.
#[derive(Default)]
pub struct Left {
    pub elements: Option<Vec<u32>>,
    pub v2e: Option<Vec<u32>>,
    pub e2e: Option<Vec<u32>>,
    pub b2e: Option<Vec<u32>>,
    pub out: Option<Vec<u32>>,
    pub lengths: Option<Vec<u32>>,
    pub record: Option<WalkerRecord>,
    pub size: Option<Size>,
    pub points: Option<Vec<f64>>,
    pub work_cleared: bool,
}

/// An edit of the wrapper that is lent the points too.
pub type EditWithPoints = fn(
    &mut Size,
    &mut [u32],
    &mut [u32],
    &mut [u32],
    &mut [u32],
    &mut [f64],
    &mut [u32],
    u32,
) -> Result<Counts, Refusal>;

static CURRENT: AtomicPtr<Situation> = AtomicPtr::new(ptr::null_mut());

/// What a report of a mismatch names beside the call.
pub struct Situation {
    pub seed: u64,
    pub calls: u64,
    pub family: &'static str,
    pub placement: Placement,
    pub call: *const Call<'static>,
}

fn shown(entries: &[u32]) -> String {
    let start: Vec<String> = entries.iter().take(60).map(u32::to_string).collect();
    let rest = if entries.len() > 60 { " .." } else { "" };
    format!("{} entries: {}{rest}", entries.len(), start.join(" "))
}

pub fn fail(what: &str) -> ! {
    // SAFETY: both are set before the first call and outlive every call.
    let (situation, call) = unsafe {
        let situation = &*CURRENT.load(Ordering::Relaxed);
        (situation, &*situation.call)
    };
    println!("MISMATCH: {:?}: {what}", call.what);
    println!(
        "  family '{}', seed {}, after {} calls, {:?}",
        situation.family, situation.seed, situation.calls, situation.placement
    );
    println!("  n {}", call.n);
    let buffers = [call.elements, call.v2e, call.e2e, call.b2e, call.work, call.out, call.lengths];
    for (name, buffer) in ["elements", "v2e", "e2e", "b2e", "work", "out", "lengths"].iter().zip(buffers) {
        println!("  {name}, {}", shown(buffer));
    }
    println!("  points, {} numbers: {:?}", call.points.len(), &call.points[..call.points.len().min(30)]);
    println!("  text, {} bytes: {}", call.text.len(), call.text[..call.text.len().min(600)].escape_ascii());
    process::exit(1)
}

/// Reports of mismatches and faults name this situation from now on.
pub fn watch(situation: &mut Situation) {
    CURRENT.store(situation, Ordering::Relaxed);
    // SAFETY: the handler prints and ends the program.
    unsafe {
        signal(SIGSEGV, on_fault);
        signal(SIGBUS, on_fault);
        signal(SIGALRM, on_fault);
    }
}

extern "C" fn on_fault(number: i32) {
    fail(if number == SIGALRM { "the call doesn't end" } else { "the call touched memory outside its buffers" })
}

impl Call<'_> {
    fn view(&self, told: u32) -> View<'_> {
        View { n: self.n, told, elements: self.elements, v2e: self.v2e, e2e: self.e2e, b2e: self.b2e }
    }

    fn lengths(&self) -> Lengths {
        Lengths {
            elements: self.elements.len(),
            v2e: self.v2e.len(),
            e2e: self.e2e.len(),
            b2e: self.b2e.len(),
            work: self.work.len(),
        }
    }

    fn expected_build(&self) -> Outcome {
        let work_cleared = reference::check_build(self.n, self.elements, self.lengths()).is_ok();
        match reference::build(self.n, self.elements, self.lengths()) {
            Ok(Built { v2e, e2e, b2e, edges }) => Outcome {
                answer: Ok((b2e.len() as u32, edges)),
                left: Left { v2e: Some(v2e), e2e: Some(e2e), b2e: Some(b2e), work_cleared, ..Left::default() },
            },
            Err(refused) => Outcome { answer: Err(refused), left: Left { work_cleared, ..Left::default() } },
        }
    }

    fn expected_recovery(&self, m: u32) -> Outcome {
        let work_cleared = reference::check_recovery(self.n, m, self.lengths()).is_ok();
        let recovered = reference::recover(self.n, m, self.v2e, self.e2e, self.lengths());
        Outcome {
            answer: recovered.as_ref().map(|_| (0, 0)).map_err(|refused| *refused),
            left: Left { elements: recovered.ok(), work_cleared, ..Left::default() },
        }
    }

    fn expected_siblings(&self) -> Outcome {
        let work_cleared = siblings::check(self.n, self.lengths()).is_ok();
        match siblings::siblings(self.n, self.elements, self.lengths()) {
            Ok(Siblings { v2e, map }) => Outcome {
                answer: Ok((0, 0)),
                left: Left { v2e: Some(v2e), e2e: Some(map), work_cleared, ..Left::default() },
            },
            Err(refused) => Outcome { answer: Err(refused), left: Left { work_cleared, ..Left::default() } },
        }
    }

    fn expected_shape(&self) -> Outcome {
        let work_cleared = shape::check(self.n, self.lengths()).is_ok();
        let answer = shape::shape(self.n, self.elements, self.lengths()).map(halves);
        Outcome { answer, left: Left { work_cleared, ..Left::default() } }
    }

    fn expected_reading(&self) -> Outcome {
        match read_off(self.text, self.elements.len()) {
            Ok(Off { n, list }) => Outcome {
                answer: Ok((n, list.len() as u32 / 4)),
                left: Left { elements: Some(list), ..Left::default() },
            },
            Err(refused) => refuses(refused),
        }
    }

    fn expected_list(&self, list: Result<Vec<u32>, Refused>) -> Outcome {
        match list {
            Ok(list) if list.len() > self.out.len() => refuses((13, list.len() as u32, 0)),
            Ok(list) => {
                Outcome { answer: Ok((list.len() as u32, 0)), left: Left { out: Some(list), ..Left::default() } }
            }
            Err(refused) => refuses(refused),
        }
    }

    fn expected_query(&self, told: u32, query: Query) -> Outcome {
        let mesh = match self.view(told).fit() {
            Ok(mesh) => mesh,
            Err(refused) => return refuses(refused),
        };
        match query {
            Query::Opposite(code) => one_number(mesh.opposite(code)),
            Query::Next(code) => one_number(mesh.next(code)),
            Query::Previous(code) => one_number(mesh.previous(code)),
            Query::Element(code) => one_number(mesh.element(code)),
            Query::Origin(code) => one_number(mesh.origin(code)),
            Query::Destination(code) => one_number(mesh.destination(code)),
            Query::Across(code) => one_number(mesh.across(code)),
            Query::HalfedgeIsBorder(code) => one_number(mesh.halfedge_is_border(code)),
            Query::VertexKind(v) => one_number(mesh.vertex_kind(v)),
            Query::Ring(v) => self.expected_list(mesh.ring(v)),
            Query::Neighbours(v) => self.expected_list(mesh.neighbours(v)),
            Query::BorderLoop(b) => self.expected_list(mesh.border_loop(b)),
            Query::Start(v, _) => moved(mesh.walker_start(v).map(|record| (0, record))),
            Query::Step(record) => moved(mesh.walker_step((record.start, record.next, record.count))),
        }
    }

    /// Checks 1 and 2, then 12, then 13.
    fn expected_holes(&self, told: u32) -> Outcome {
        let mesh = match holes::check(&self.view(told), self.work.len()) {
            Ok(mesh) => mesh,
            Err(refused) => return refuses(refused),
        };
        let (k, room) = (self.b2e.len(), self.out.len().min(self.lengths.len()));
        let (answer, left) = match holes::holes(&mesh) {
            Ok(_) if k > room => (Err((13, k as u32, 0)), Left::default()),
            Ok(Holes { hole, lengths }) => {
                let count = lengths.len() as u32;
                (Ok((count, 0)), Left { out: Some(hole), lengths: Some(lengths), ..Left::default() })
            }
            Err(refused) => (Err(refused), Left::default()),
        };
        Outcome { answer, left: Left { work_cleared: true, ..left } }
    }

    fn expected_swap(&self, Edge { m, code }: Edge) -> Outcome {
        let work_cleared = held(self.n, m, self.elements, self.lengths()).is_ok();
        match swap(self.n, m, self.elements, self.lengths(), code) {
            Ok(new) => edits(Size { n: self.n, m }, self.n, new, None),
            Err(refused) => Outcome { answer: Err(refused), left: Left { work_cleared, ..Left::default() } },
        }
    }

    fn expected_split(&self, Edge { m, code }: Edge) -> Outcome {
        let work_cleared = held_with_points(self.n, m, self.elements, self.lengths(), self.points).is_ok();
        match split(self.n, m, self.elements, self.lengths(), self.points, code) {
            Ok(Split { new, point }) => {
                let points = [&self.points[..3 * self.n as usize], &point].concat();
                edits(Size { n: self.n, m }, self.n + 1, new, Some(points))
            }
            Err(refused) => Outcome { answer: Err(refused), left: Left { work_cleared, ..Left::default() } },
        }
    }

    fn expected_contraction(&self, Edge { m, code }: Edge) -> Outcome {
        let work_cleared = held_with_points(self.n, m, self.elements, self.lengths(), self.points).is_ok();
        match contract(self.n, m, self.elements, self.lengths(), self.points, code) {
            Ok(Contracted { new, points }) => edits(Size { n: self.n, m }, self.n - 1, new, Some(points)),
            Err(refused) => Outcome { answer: Err(refused), left: Left { work_cleared, ..Left::default() } },
        }
    }

    pub fn expected(&self) -> Outcome {
        match self.what {
            Question::Build => self.expected_build(),
            Question::Recover(m) => self.expected_recovery(m),
            Question::Columns => one_number(reference::columns(self.n, self.elements)),
            Question::Siblings | Question::RawSiblings => self.expected_siblings(),
            Question::Shape | Question::RawShape => self.expected_shape(),
            Question::ReadOff | Question::RawReadOff => self.expected_reading(),
            Question::Query(way, query) => self.expected_query(way.told(), query),
            Question::Holes(way) => self.expected_holes(way.told()),
            Question::Swap(edge) | Question::RawSwap(edge) => self.expected_swap(edge),
            Question::Split(edge) | Question::RawSplit(edge) => self.expected_split(edge),
            Question::Contract(edge) | Question::RawContract(edge) => self.expected_contraction(edge),
        }
    }

    /// n and m, which an edit is lent.
    fn size(&self) -> [u32; 2] {
        match self.what {
            Question::Swap(edge)
            | Question::RawSwap(edge)
            | Question::Split(edge)
            | Question::RawSplit(edge)
            | Question::Contract(edge)
            | Question::RawContract(edge) => [self.n, edge.m],
            _ => [0, 0],
        }
    }
}

/// An edit that answers, on a mesh of this size, and leaves this list on n vertices, and these points if it writes any.
/// Where there was more before, it leaves 0, but not in B2e.
pub fn edits(before: Size, n: u32, new: NewList, points: Option<Vec<f64>>) -> Outcome {
    let NewList { list, tables: Built { v2e, e2e, b2e, edges } } = new;
    let answer = Ok((b2e.len() as u32, edges));
    let size = Some(Size { n, m: list.len() as u32 / 4 });
    let (vertices, m, columns) = (before.n as usize, before.m as usize, columns_of(&list) as usize);
    let left = Left {
        elements: Some(at_least(4 * m, list)),
        v2e: Some(at_least(vertices, v2e)),
        e2e: Some(at_least(columns * m, e2e)),
        b2e: Some(b2e),
        size,
        points: points.map(|points| at_least(3 * vertices, points)),
        work_cleared: true,
        ..Left::default()
    };
    Outcome { answer, left }
}

/// So many entries, with 0 for those that there aren't.
fn at_least<T: Copy + Default>(len: usize, mut entries: Vec<T>) -> Vec<T> {
    entries.resize(entries.len().max(len), T::default());
    entries
}

fn refuses(refused: Refused) -> Outcome {
    Outcome { answer: Err(refused), left: Left::default() }
}

fn one_number(answer: Result<u32, Refused>) -> Outcome {
    Outcome { answer: answer.map(|number| (number, 0)), left: Left::default() }
}

fn moved(step: Result<(u32, reference::Record), Refused>) -> Outcome {
    match step {
        Ok((element, (start, next, count))) => Outcome {
            answer: Ok((element, 0)),
            left: Left { record: Some(WalkerRecord { start, next, count }), ..Left::default() },
        },
        Err(refused) => refuses(refused),
    }
}

fn kind_number(kind: VertexKind) -> u32 {
    match kind {
        VertexKind::Inner => 0,
        VertexKind::Rim => 1,
        VertexKind::Unused => 2,
    }
}

/// The guarded memory of each buffer.
pub struct Memory {
    elements: Guarded,
    v2e: Guarded,
    e2e: Guarded,
    b2e: Guarded,
    work: Guarded,
    out: Guarded,
    lengths: Guarded,
    record: Guarded,
    size: Guarded,
    points: Guarded,
    text: Guarded,
}

/// The buffers of one call, within guarded memory.
pub struct Held<'a> {
    elements: &'a mut [u32],
    v2e: &'a mut [u32],
    e2e: &'a mut [u32],
    b2e: &'a mut [u32],
    work: &'a mut [u32],
    out: &'a mut [u32],
    lengths: &'a mut [u32],
    record: &'a mut [u32],
    size: &'a mut [u32],
    points: &'a mut [f64],
    text: &'a [u8],
}

impl Memory {
    pub fn new() -> Memory {
        let (n, m) = (MAX_VERTICES as usize + 2, MAX_ELEMENTS as usize + 2);
        Memory {
            elements: Guarded::new(4 * m),
            v2e: Guarded::new(n),
            e2e: Guarded::new(4 * m),
            b2e: Guarded::new(4 * m),
            work: Guarded::new(n + 16 * m),
            out: Guarded::new(4 * m),
            lengths: Guarded::new(4 * m),
            record: Guarded::new(3),
            size: Guarded::new(2),
            points: Guarded::new(2 * 3 * n),
            text: Guarded::new(LONGEST_TEXT / 4),
        }
    }

    pub fn hold(&mut self, call: &Call, placement: Placement) -> Held<'_> {
        let record = match call.what {
            Question::Query(_, Query::Start(_, record) | Query::Step(record)) => record,
            _ => WalkerRecord::default(),
        };
        Held {
            elements: self.elements.hold(call.elements, placement),
            v2e: self.v2e.hold(call.v2e, placement),
            e2e: self.e2e.hold(call.e2e, placement),
            b2e: self.b2e.hold(call.b2e, placement),
            work: self.work.hold(call.work, placement),
            out: self.out.hold(call.out, placement),
            lengths: self.lengths.hold(call.lengths, placement),
            record: self.record.hold(&[record.start, record.next, record.count], placement),
            size: self.size.hold(&call.size(), placement),
            points: self.points.hold(call.points, placement),
            text: self.text.hold(call.text, placement),
        }
    }
}

pub fn refused(refusal: Refusal) -> Refused {
    (refusal.number(), refusal.place().0, refusal.place().1)
}

/// The wrapper's number in halves, which don't show one that is off by 2^56.
fn signed(number: i64) -> (u32, u32) {
    if !(-(1 << 55)..1 << 55).contains(&number) {
        fail(&format!("the wrapper gave {number}, which isn't a number of 56 bits"));
    }
    halves(number)
}

impl Held<'_> {
    /// Asks the kernel.
    pub fn ask(&mut self, call: &Call) -> Result<(u32, u32), Refused> {
        match call.what {
            Question::Build => borzhanu::build(call.n, self.elements, self.v2e, self.e2e, self.b2e, self.work)
                .map(|counts| (counts.borders, counts.edges))
                .map_err(refused),
            Question::Recover(m) => borzhanu::recover(call.n, m, self.v2e, self.e2e, self.elements, self.work)
                .map(|()| (0, 0))
                .map_err(refused),
            Question::Columns => borzhanu::columns(call.n, self.elements).map(|columns| (columns, 0)).map_err(refused),
            Question::Siblings => borzhanu::siblings(call.n, self.elements, self.v2e, self.e2e, self.work)
                .map(|()| (0, 0))
                .map_err(refused),
            Question::RawSiblings => taken_apart(self.ask_raw_siblings(call.n)),
            Question::Shape => borzhanu::shape(call.n, self.elements, self.work).map(signed).map_err(refused),
            Question::RawShape => taken_apart(self.ask_raw_shape(call.n)),
            Question::ReadOff => {
                borzhanu::read_off(self.text, self.elements).map(|size| (size.n, size.m)).map_err(refused)
            }
            Question::RawReadOff => taken_apart(self.ask_raw_read_off()),
            Question::Query(Way::Wrapper, query) => self.ask_wrapper(call, query).map_err(refused),
            Question::Query(Way::Told(columns), query) => taken_apart(self.ask_told(call, columns, query)),
            Question::Holes(Way::Wrapper) => self.ask_wrapper_holes(call).map_err(refused),
            Question::Holes(Way::Told(columns)) => taken_apart(self.ask_told_holes(call, columns)),
            Question::Swap(edge) => self.ask_swap(edge.code).map_err(refused),
            Question::RawSwap(edge) => taken_apart(self.ask_raw_swap(edge.code)),
            Question::Split(edge) => self.ask_with_points(borzhanu::split, edge.code).map_err(refused),
            Question::RawSplit(edge) => taken_apart(self.ask_raw_with_points(borzhanu_split, edge.code)),
            Question::Contract(edge) => self.ask_with_points(borzhanu::contract, edge.code).map_err(refused),
            Question::RawContract(edge) => taken_apart(self.ask_raw_with_points(borzhanu_contract, edge.code)),
        }
    }

    fn ask_raw_siblings(&mut self, n: u32) -> u64 {
        // SAFETY: each pointer has its slice's own length, and the kernel stays within these.
        unsafe {
            borzhanu_siblings(
                n,
                self.elements.as_ptr(),
                self.elements.len(),
                self.v2e.as_mut_ptr(),
                self.v2e.len(),
                self.e2e.as_mut_ptr(),
                self.e2e.len(),
                self.work.as_mut_ptr(),
                self.work.len(),
            )
        }
    }

    fn ask_raw_shape(&mut self, n: u32) -> u64 {
        let (work, work_len) = (self.work.as_mut_ptr(), self.work.len());
        // SAFETY: each pointer has its slice's own length, and the kernel stays within these.
        unsafe { borzhanu_shape(n, self.elements.as_ptr(), self.elements.len(), work, work_len) }
    }

    fn ask_raw_read_off(&mut self) -> u64 {
        let (elements, elements_len) = (self.elements.as_mut_ptr(), self.elements.len());
        // SAFETY: each pointer has its slice's own length, and the kernel stays within these.
        unsafe { borzhanu_read_off(self.text.as_ptr(), self.text.len(), elements, elements_len) }
    }

    fn ask_swap(&mut self, code: u32) -> Result<(u32, u32), Refusal> {
        // SAFETY: the memory holds the two numbers of the size, and nothing else refers to it meanwhile.
        let size = unsafe { &mut *(self.size.as_mut_ptr() as *mut Size) };
        borzhanu::swap(size, self.elements, self.v2e, self.e2e, self.b2e, self.work, code)
            .map(|counts| (counts.borders, counts.edges))
    }

    fn ask_raw_swap(&mut self, code: u32) -> u64 {
        // SAFETY: each pointer has its slice's own length, and the kernel stays within these.
        unsafe {
            borzhanu_swap(
                self.size.as_mut_ptr(),
                self.elements.as_mut_ptr(),
                self.elements.len(),
                self.v2e.as_mut_ptr(),
                self.v2e.len(),
                self.e2e.as_mut_ptr(),
                self.e2e.len(),
                self.b2e.as_mut_ptr(),
                self.b2e.len(),
                self.work.as_mut_ptr(),
                self.work.len(),
                code,
            )
        }
    }

    fn ask_with_points(&mut self, edit: EditWithPoints, code: u32) -> Result<(u32, u32), Refusal> {
        // SAFETY: the memory holds the two numbers of the size, and nothing else refers to it meanwhile.
        let size = unsafe { &mut *(self.size.as_mut_ptr() as *mut Size) };
        edit(size, self.elements, self.v2e, self.e2e, self.b2e, self.points, self.work, code)
            .map(|counts| (counts.borders, counts.edges))
    }

    fn ask_raw_with_points(&mut self, edit: WithPoints, code: u32) -> u64 {
        // SAFETY: each pointer has its slice's own length, and the kernel stays within these.
        unsafe {
            edit(
                self.size.as_mut_ptr(),
                self.elements.as_mut_ptr(),
                self.elements.len(),
                self.v2e.as_mut_ptr(),
                self.v2e.len(),
                self.e2e.as_mut_ptr(),
                self.e2e.len(),
                self.b2e.as_mut_ptr(),
                self.b2e.len(),
                self.points.as_mut_ptr(),
                self.points.len(),
                self.work.as_mut_ptr(),
                self.work.len(),
                code,
            )
        }
    }

    /// A query of a mesh that is put together for it.
    fn ask_wrapper(&mut self, call: &Call, query: Query) -> Result<(u32, u32), Refusal> {
        let mesh = mesh_for(call, [self.elements, self.v2e, self.e2e, self.b2e])?;
        let answer = ask_mesh(&mesh, query, self.out, self.record);
        if let Err(Refusal::Sizes | Refusal::Lengths) = answer {
            fail("the mesh was made, and then a query refused its lengths");
        }
        answer
    }

    fn ask_told(&mut self, call: &Call, told: u32, query: Query) -> u64 {
        let view = View { n: call.n, told, elements: self.elements, v2e: self.v2e, e2e: self.e2e, b2e: self.b2e };
        let (out, len, record) = (self.out.as_mut_ptr(), self.out.len(), self.record.as_mut_ptr());
        match query {
            Query::Opposite(code) => told!(borzhanu_opposite, view, code),
            Query::Next(code) => told!(borzhanu_next, view, code),
            Query::Previous(code) => told!(borzhanu_previous, view, code),
            Query::Element(code) => told!(borzhanu_element, view, code),
            Query::Origin(code) => told!(borzhanu_origin, view, code),
            Query::Destination(code) => told!(borzhanu_destination, view, code),
            Query::Across(code) => told!(borzhanu_across, view, code),
            Query::HalfedgeIsBorder(code) => told!(borzhanu_halfedge_is_border, view, code),
            Query::VertexKind(v) => told!(borzhanu_vertex_is_border, view, v),
            Query::Ring(v) => told!(borzhanu_ring, view, v, out, len),
            Query::Neighbours(v) => told!(borzhanu_neighbours, view, v, out, len),
            Query::BorderLoop(b) => told!(borzhanu_border_loop, view, b, out, len),
            Query::Start(v, _) => told!(borzhanu_walker_start, view, v, record),
            Query::Step(_) => told!(borzhanu_walker_step, view, record),
        }
    }

    fn ask_wrapper_holes(&mut self, call: &Call) -> Result<(u32, u32), Refusal> {
        let mesh = mesh_for(call, [self.elements, self.v2e, self.e2e, self.b2e])?;
        mesh.holes(self.out, self.lengths, self.work).map(|count| (count as u32, 0))
    }

    fn ask_told_holes(&mut self, call: &Call, told: u32) -> u64 {
        let view = View { n: call.n, told, elements: self.elements, v2e: self.v2e, e2e: self.e2e, b2e: self.b2e };
        let (hole, hole_len) = (self.out.as_mut_ptr(), self.out.len());
        let (lengths, lengths_len) = (self.lengths.as_mut_ptr(), self.lengths.len());
        let (work, work_len) = (self.work.as_mut_ptr(), self.work.len());
        told!(borzhanu_holes, view, hole, hole_len, lengths, lengths_len, work, work_len)
    }

    pub fn check(&self, call: &Call, want: &Left) {
        check_buffer("elements", self.elements, call.elements, &want.elements);
        check_buffer("v2e", self.v2e, call.v2e, &want.v2e);
        check_buffer("e2e", self.e2e, call.e2e, &want.e2e);
        check_buffer("b2e", self.b2e, call.b2e, &want.b2e);
        check_buffer("out", self.out, call.out, &want.out);
        check_buffer("lengths", self.lengths, call.lengths, &want.lengths);
        check_buffer("size", self.size, &call.size(), &want.size.map(|size| vec![size.n, size.m]));
        check_points(self.points, call, want.points.as_deref().unwrap_or(&[]));
        if self.text != call.text {
            fail("the text isn't as it was");
        }
        if !want.work_cleared {
            check_buffer("work", self.work, call.work, &None);
        } else if self.work.iter().any(|&entry| entry != 0) {
            fail("the work buffer isn't clean");
        }
        let Question::Query(_, Query::Start(_, before) | Query::Step(before)) = call.what else { return };
        let record = want.record.unwrap_or(before);
        check_buffer("record", self.record, &[record.start, record.next, record.count], &None);
    }
}

/// A mesh that is put together for a call.
fn mesh_for<'a>(call: &Call, [elements, v2e, e2e, b2e]: [&'a [u32]; 4]) -> Result<Mesh<'a>, Refusal> {
    let mesh = Mesh::new(call.n, elements, v2e, e2e, b2e)?;
    if mesh.columns() != reference::columns_of(call.elements) {
        fail(&format!("the mesh has {} columns", mesh.columns()));
    }
    Ok(mesh)
}

fn ask_mesh(mesh: &Mesh, query: Query, out: &mut [u32], record: &mut [u32]) -> Result<(u32, u32), Refusal> {
    let record = record.as_mut_ptr() as *mut WalkerRecord;
    // SAFETY: the record's memory holds its three numbers, and nothing else refers to it meanwhile.
    let record = unsafe { &mut *record };
    let number = |answer: Result<u32, Refusal>| answer.map(|number| (number, 0));
    let test = |answer: Result<bool, Refusal>| answer.map(|test| (test as u32, 0));
    let count = |answer: Result<usize, Refusal>| answer.map(|count| (count as u32, 0));
    match query {
        Query::Opposite(code) => number(mesh.opposite(code)),
        Query::Next(code) => number(mesh.next(code)),
        Query::Previous(code) => number(mesh.previous(code)),
        Query::Element(code) => number(mesh.element(code)),
        Query::Origin(code) => number(mesh.origin(code)),
        Query::Destination(code) => number(mesh.destination(code)),
        Query::Across(code) => number(mesh.across(code)),
        Query::HalfedgeIsBorder(code) => test(mesh.halfedge_is_border(code)),
        Query::VertexKind(v) => number(mesh.vertex_kind(v).map(kind_number)),
        Query::Ring(v) => count(mesh.ring(v, out)),
        Query::Neighbours(v) => count(mesh.neighbours(v, out)),
        Query::BorderLoop(b) => count(mesh.border_loop(b, out)),
        Query::Start(v, _) => mesh.start(v, record).map(|()| (0, 0)),
        Query::Step(_) => number(mesh.step(record)),
    }
}

/// The buffer holds what was to be written, and after that what it held before.
fn check_buffer(name: &str, left: &[u32], before: &[u32], written: &Option<Vec<u32>>) {
    let written = written.as_deref().unwrap_or(&[]);
    if left[..written.len()] != *written {
        let at = left.iter().zip(written).position(|(a, b)| a != b).unwrap_or(0);
        fail(&format!("{name} entry {at}: expected {}, got {}", written[at], left[at]));
    }
    if left[written.len()..] != before[written.len()..] {
        let at = (written.len()..left.len()).find(|&at| left[at] != before[at]).unwrap_or(0);
        fail(&format!("{name} entry {at} isn't as it was: {}, now {}", before[at], left[at]));
    }
}

/// The points are those that were to be written, and after these what they were, bit by bit. Where a number of a new vertex
/// is to be none, it may be any such.
fn check_points(left: &[f64], call: &Call, written: &[f64]) {
    for (at, (left, before)) in left.iter().zip(call.points).enumerate() {
        match written.get(at) {
            Some(expected) if left.to_bits() == expected.to_bits() => {}
            Some(expected) if at >= 3 * call.n as usize && same_number(*left, *expected) => {}
            Some(expected) => fail(&format!("points number {at}: expected {expected:e}, got {left:e}")),
            None if left.to_bits() == before.to_bits() => {}
            None => fail(&format!("points number {at} isn't as it was: {before:e}, now {left:e}")),
        }
    }
}

/// The same bits, or both no number.
pub fn same_number(a: f64, b: f64) -> bool {
    a.to_bits() == b.to_bits() || a.is_nan() && b.is_nan()
}

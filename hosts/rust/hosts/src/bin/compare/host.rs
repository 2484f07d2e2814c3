//! Tables to ask about, and what is asked of them and of lists.

use crate::call::{fail, watch, Call, Left, Memory, Outcome, Query, Question, Situation, Way};
use crate::holes::compare_holes;
use crate::shapes::compare_shape;
use crate::siblings::{compare_siblings, compare_with_built};
use borzhanu::{work_length, WalkerRecord};
use hosts::guarded::{Placement, PLACEMENTS};
use hosts::meshes::{damage, Dice, List};
use hosts::reference::{self, columns_of, Built, Refused};
use std::mem;
use std::ptr;

const SECONDS_PER_COMPARISON: u32 = 120;
/// Of a million border half-edges too: the call is linear, and one that isn't takes minutes.
const SECONDS_FOR_HOLES: u32 = 30;
pub const LARGE: usize = 10_000;

extern "C" {
    fn alarm(seconds: u32) -> u32;
}

/// Tables to ask about.
#[derive(Clone)]
pub struct Tables {
    pub n: u32,
    pub elements: Vec<u32>,
    pub v2e: Vec<u32>,
    pub e2e: Vec<u32>,
    pub b2e: Vec<u32>,
    /// The columns that queries are told. None: a query goes through the wrapper, or is told 0 or the list's own columns,
    /// and each way has the same answer.
    pub told: Option<u32>,
}

impl Tables {
    fn of(list: &List, v2e: Vec<u32>, e2e: Vec<u32>, b2e: Vec<u32>) -> Tables {
        Tables { n: list.n, elements: list.entries().to_vec(), v2e, e2e, b2e, told: None }
    }

    pub fn elements_count(&self) -> u32 {
        (self.elements.len() / 4) as u32
    }

    /// The columns that E2e has by its length.
    fn columns(&self) -> u32 {
        if self.e2e.len() == self.elements.len() {
            4
        } else {
            3
        }
    }

    /// E2e in the other number of columns, and queries told that: the fourth entries go, or come and are 0.
    pub fn relaid(&self) -> Tables {
        let columns = 7 - self.columns();
        let rows = self.e2e.chunks_exact(self.columns() as usize);
        let relaid = rows.flat_map(|row| row[..3].iter().copied().chain((columns == 4).then_some(0)));
        Tables { e2e: relaid.collect(), told: Some(columns), ..self.clone() }
    }

    /// One past the codes that a damaged entry or a question may name.
    fn code_bound(&self) -> u32 {
        8 * (self.elements_count().max(self.b2e.len() as u32) + 2)
    }

    /// The border half-edge that ends at a vertex, in tables as built.
    fn border_to(&self, v: u32) -> Option<u32> {
        let origin = |side: u32| self.elements[(4 * (side / 8) + side % 8) as usize - 5];
        (1..).zip(&self.b2e).find(|&(_, &side)| origin(side) == v).map(|(b, _)| b)
    }

    pub fn query<'a>(&'a self, way: Way, query: Query, out: &'a [u32]) -> Call<'a> {
        Call {
            what: Question::Query(way, query),
            n: self.n,
            elements: &self.elements,
            v2e: &self.v2e,
            e2e: &self.e2e,
            b2e: &self.b2e,
            work: &[],
            out,
            lengths: &[],
            points: &[],
            text: &[],
        }
    }
}

/// What is common to all comparisons: guarded memory, noise to fill buffers with, and what was done so far.
pub struct Host {
    memory: Memory,
    pub noise: Vec<u32>,
    pub dice: Dice,
    pub situation: Box<Situation>,
}

impl Host {
    pub fn new(seed: u64) -> Host {
        let mut dice = Dice::new(seed);
        // Of all sizes, so that some could be codes of the list at hand.
        let noise = (0..18_000_100).map(|_| dice.number() >> dice.below(32)).collect();
        let mut situation =
            Box::new(Situation { seed, calls: 0, family: "", placement: Placement::EndAtGuard, call: ptr::null() });
        watch(&mut situation);
        Host { memory: Memory::new(), noise, dice, situation }
    }

    /// Compares a call, and hands over what was expected.
    pub fn compare(&mut self, call: &Call) -> Outcome {
        let want = call.expected();
        self.check(call, &want);
        want
    }

    /// Makes a call, both placements, to an outcome that is known.
    pub fn check(&mut self, call: &Call, want: &Outcome) {
        self.situation.call = (call as *const Call).cast();
        let seconds = if let Question::Holes(_) = call.what { SECONDS_FOR_HOLES } else { SECONDS_PER_COMPARISON };
        // SAFETY: alarm only sets a timer.
        unsafe { alarm(seconds) };
        for placement in PLACEMENTS {
            self.situation.placement = placement;
            let mut held = self.memory.hold(call, placement);
            let got = held.ask(call);
            self.situation.calls += 1;
            if got != want.answer {
                fail(&format!("expected {:?}, got {got:?}", want.answer));
            }
            held.check(call, &want.left);
        }
        unsafe { alarm(0) };
    }

    fn compare_columns(&mut self, list: &List) {
        let (n, elements) = (list.n, list.entries());
        self.compare(&Call {
            what: Question::Columns,
            n,
            elements,
            v2e: &[],
            e2e: &[],
            b2e: &[],
            work: &[],
            out: &[],
            lengths: &[],
            points: &[],
            text: &[],
        });
    }

    fn compare_build(&mut self, list: &List, b2e_len: usize, work_extra: usize) -> Outcome {
        self.build_to(list, b2e_len, work_extra, None)
    }

    /// Builds to an outcome that is known, or else to what the reference expects.
    fn build_to(&mut self, list: &List, b2e_len: usize, work_extra: usize, known: Option<Outcome>) -> Outcome {
        let noise = mem::take(&mut self.noise);
        let (entries, m) = (list.entries(), list.rows.len());
        let e2e_len = columns_of(entries) as usize * m;
        let call = Call {
            what: Question::Build,
            n: list.n,
            elements: entries,
            v2e: &noise[..list.n as usize],
            e2e: &noise[7..7 + e2e_len],
            b2e: &noise[..b2e_len],
            work: &noise[..work_length(list.n, m) + work_extra],
            out: &[],
            lengths: &[],
            points: &[],
            text: &[],
        };
        let want = known.unwrap_or_else(|| call.expected());
        self.check(&call, &want);
        self.noise = noise;
        want
    }

    /// Recovery of m elements, the buffers for the list and the work as it asks for them.
    pub fn compare_recovery(&mut self, n: u32, m: u32, v2e: &[u32], e2e: &[u32], work_extra: usize) -> Outcome {
        let noise = mem::take(&mut self.noise);
        let want = self.compare(&Call {
            what: Question::Recover(m),
            n,
            elements: &noise[..4 * m as usize],
            v2e,
            e2e,
            b2e: &[],
            work: &noise[..work_length(n, m as usize) + work_extra],
            out: &[],
            lengths: &[],
            points: &[],
            text: &[],
        });
        self.noise = noise;
        want
    }

    /// Recovery from these tables; and from E2e in the other columns, or told other numbers of elements.
    pub fn recover(&mut self, tables: &Tables) {
        let (n, m) = (tables.n, tables.elements_count());
        for work_extra in [0, 5] {
            self.compare_recovery(n, m, &tables.v2e, &tables.e2e, work_extra);
        }
        if self.dice.once_in(2) {
            self.compare_recovery(n, m, &tables.v2e, &tables.relaid().e2e, 0);
            return;
        }
        for other in self.other_counts(tables) {
            self.compare_recovery(n, other, &tables.v2e, &tables.e2e, 0);
        }
    }

    /// Numbers of elements other than the list's: one near to it, and those that E2e's length fits as well.
    fn other_counts(&mut self, tables: &Tables) -> Vec<u32> {
        let (m, entries) = (tables.elements_count(), tables.e2e.len() as u32);
        let fitting = [3, 4].into_iter().filter(|columns| entries % columns == 0).map(|columns| entries / columns);
        let mut counts: Vec<u32> = fitting.filter(|&count| count != m).collect();
        counts.push((m + self.dice.below(3)).saturating_sub(1));
        counts
    }

    /// Siblings, building with room in B2e, and shape; the tables where the list is accepted.
    pub fn build(&mut self, list: &List) -> Option<Tables> {
        let siblings = compare_siblings(self, list);
        let Outcome { answer, left } = self.compare_build(list, list.n as usize + 3, 0);
        compare_shape(self, list, answer);
        let tables = Tables::of(list, left.v2e?, left.e2e?, left.b2e?);
        compare_with_built(&tables, &siblings);
        Some(tables)
    }

    /// The tables that the pairing gives for a list that only 18 refuses. They aren't its own: recovery gives 10.
    pub fn tables_by_pairing(&mut self, list: &List) -> Option<Tables> {
        let Built { v2e, e2e, b2e, .. } = reference::tables_by_pairing(list.n, list.entries()).ok()?;
        let recovery = self.compare_recovery(list.n, list.rows.len() as u32, &v2e, &e2e, 0);
        assert_eq!(recovery.answer, Err((10, 0, 0)), "the reference recovers a list that it doesn't accept");
        Some(Tables::of(list, v2e, e2e, b2e))
    }

    /// Building with less room and more, and recovery; tables to ask about, also for a list that only 18 refuses.
    pub fn build_and_recover(&mut self, list: &List) -> Option<Tables> {
        self.compare_columns(list);
        // Refusals 3 to 8 and 18 come before 9, so a refused list is tried without room too.
        self.compare_build(list, 0, 0);
        let tables = self.build(list).or_else(|| self.tables_by_pairing(list))?;
        self.build_with_other_room(list, tables.b2e.len());
        self.recover(&tables);
        Some(tables)
    }

    /// Builds a list of which the answer is known; the reference has to find it too.
    pub fn build_known(&mut self, list: &List, answer: Result<(u32, u32), Refused>) {
        compare_siblings(self, list);
        let want = self.compare_build(list, list.n as usize, 0);
        assert_eq!(want.answer, answer, "the reference, on {} elements", list.rows.len());
        compare_shape(self, list, answer);
    }

    /// Builds a list that is known to be refused after checks 1 and 2; the reference, slow on large lists, isn't asked.
    pub fn build_refused(&mut self, list: &List, refused: Refused) {
        compare_siblings(self, list);
        compare_shape(self, list, Err(refused));
        let left = Left { work_cleared: true, ..Left::default() };
        self.build_to(list, list.n as usize, 0, Some(Outcome { answer: Err(refused), left }));
    }

    fn build_with_other_room(&mut self, list: &List, k: usize) {
        for len in k.saturating_sub(1)..=k + 1 {
            self.compare_build(list, len, len % 3);
        }
    }

    pub fn ask(&mut self, tables: &Tables, query: Query) -> Outcome {
        self.ask_into(tables, query, &[])
    }

    pub fn ask_into(&mut self, tables: &Tables, query: Query, out: &[u32]) -> Outcome {
        let ways = self.ways(tables);
        let want = tables.query(ways[0], query, out).expected();
        for way in ways {
            self.check(&tables.query(way, query, out), &want);
        }
        want
    }

    /// Ways to ask that have the same answer: told the columns of the tables; or else as a query told 0, and for large
    /// tables one way. The wrapper tells the list's own columns, so that this is rarely done without it.
    pub fn ways(&mut self, tables: &Tables) -> Vec<Way> {
        if let Some(columns) = tables.told {
            return vec![Way::Told(columns)];
        }
        let ways = [Way::Wrapper, Way::Told(0), Way::Told(columns_of(&tables.elements))];
        if tables.n as usize + tables.elements.len() > LARGE {
            return vec![ways[self.dice.below(3) as usize]];
        }
        ways[..if self.dice.once_in(4) { 3 } else { 2 }].to_vec()
    }

    fn ask_code(&mut self, tables: &Tables, code: u32) {
        for query in [
            Query::Opposite(code),
            Query::Next(code),
            Query::Previous(code),
            Query::Element(code),
            Query::Origin(code),
            Query::Destination(code),
            Query::Across(code),
            Query::HalfedgeIsBorder(code),
        ] {
            self.ask(tables, query);
        }
    }

    /// With no room, and then with one entry too few, just enough and more than enough.
    pub fn ask_list(&mut self, tables: &Tables, query: Query) {
        let needed = match self.ask(tables, query).answer {
            Ok((count, _)) => count as usize,
            Err((13, needed, _)) => needed as usize,
            Err(_) => return,
        };
        let noise = mem::take(&mut self.noise);
        for len in needed.max(2) - 1..=needed + 2 {
            self.ask_into(tables, query, &noise[..len]);
        }
        self.noise = noise;
    }

    /// From the start until the walk is over or refused, and a little further.
    pub fn ask_walker(&mut self, tables: &Tables, v: u32) {
        let before = WalkerRecord { start: 5, next: 6, count: 7 };
        let Some(mut record) = self.ask(tables, Query::Start(v, before)).left.record else { return };
        let mut further = 0;
        while further < 3 {
            let want = self.ask(tables, Query::Step(record));
            record = want.left.record.unwrap_or(record);
            further += !matches!(want.answer, Ok((element, _)) if element != 0) as u32;
        }
    }

    pub fn ask_vertex(&mut self, tables: &Tables, v: u32) {
        self.ask(tables, Query::VertexKind(v));
        self.ask_list(tables, Query::Ring(v));
        self.ask_list(tables, Query::Neighbours(v));
        self.ask_walker(tables, v);
    }

    fn ask_everything(&mut self, tables: &Tables) {
        for code in 0..tables.code_bound() {
            self.ask_code(tables, code);
        }
        for v in 0..=tables.n + 1 {
            self.ask_vertex(tables, v);
        }
        for b in 0..=tables.b2e.len() as u32 + 1 {
            self.ask_list(tables, Query::BorderLoop(b));
        }
        compare_holes(self, tables);
    }

    fn any_code(&mut self, tables: &Tables) -> u32 {
        if self.dice.once_in(20) {
            self.dice.number()
        } else {
            self.dice.below(tables.code_bound())
        }
    }

    fn number_to(&mut self, most: u32) -> u32 {
        if self.dice.once_in(50) {
            self.dice.number()
        } else {
            self.dice.below(most + 2)
        }
    }

    /// A walker's record that no call made, mostly near to one that a call could have made.
    fn ask_any_record(&mut self, tables: &Tables) {
        let mut record = WalkerRecord {
            start: self.any_code(tables),
            next: self.any_code(tables),
            count: self.number_to(tables.elements_count()),
        };
        match self.dice.below(8) {
            0 => record.next = 0,
            1 | 2 => record.start = record.next,
            _ => {}
        }
        self.ask(tables, Query::Step(record));
    }

    pub fn ask_something(&mut self, tables: &Tables, times: u32) {
        for _ in 0..times {
            let code = self.any_code(tables);
            self.ask_code(tables, code);
            let v = self.number_to(tables.n);
            self.ask_vertex(tables, v);
            let b = self.number_to(tables.b2e.len() as u32);
            self.ask_list(tables, Query::BorderLoop(b));
            self.ask_any_record(tables);
        }
        compare_holes(self, tables);
    }

    fn ask_damaged(&mut self, tables: &Tables, times: u32) {
        let mut damaged = tables.clone();
        let (which, codes) = (1 + self.dice.below(15), tables.code_bound());
        let parts = [&mut damaged.v2e, &mut damaged.e2e, &mut damaged.b2e, &mut damaged.elements];
        for (at, part) in parts.into_iter().enumerate() {
            if which >> at & 1 == 1 {
                damage(part, if at == 3 { tables.n + 2 } else { codes }, &mut self.dice);
            }
        }
        // A fourth corner that comes or goes can leave E2e with too few columns or too many.
        if damaged.columns() != columns_of(&damaged.elements) && !self.dice.once_in(4) {
            damaged = Tables { told: tables.told, ..damaged.relaid() };
        }
        self.ask_something(&damaged, times);
        self.ask_told(&damaged);
    }

    fn any_columns(&mut self) -> u32 {
        let other = self.dice.number();
        [0, 3, 4, 1, 2, 5, 7, u32::MAX, other][self.dice.below(9) as usize]
    }

    pub fn any_way(&mut self) -> Way {
        match self.dice.below(6) {
            0 => Way::Wrapper,
            1 => Way::Told(0),
            2 => Way::Told(3),
            3 => Way::Told(4),
            _ => Way::Told(self.any_columns()),
        }
    }

    /// Queries on E2e as it is, in the other columns, or a little longer or shorter: told the columns that its length
    /// fits, rightly or wrongly, or any columns, or as the wrapper has it.
    pub fn ask_told(&mut self, tables: &Tables) {
        let mut told = if self.dice.once_in(2) { tables.clone() } else { tables.relaid() };
        told.told = match self.dice.below(8) {
            0 => None,
            1..=4 => Some(told.columns()),
            _ => Some(self.any_columns()),
        };
        if self.dice.once_in(8) {
            let len = told.e2e.len().saturating_add_signed([-4, -3, -1, 1, 3, 4][self.dice.below(6) as usize]);
            told.e2e.resize(len, 9);
        }
        self.ask_something(&told, 1);
    }

    /// Recovery from tables that aren't quite these. Exchanged V2e entries can be those of another list.
    fn recover_damaged(&mut self, tables: &Tables) {
        let mut damaged = tables.clone();
        let (how, codes) = (self.dice.below(4), tables.code_bound());
        if how == 0 && tables.n > 0 {
            damaged.v2e.swap(self.dice.below(tables.n) as usize, self.dice.below(tables.n) as usize);
        }
        if how == 1 || how == 3 {
            damage(&mut damaged.v2e, codes, &mut self.dice);
        }
        if how == 2 || how == 3 {
            damage(&mut damaged.e2e, codes, &mut self.dice);
        }
        self.recover(&damaged);
    }

    /// A vertex that the tables say is unused, or one that they say is used.
    fn any_vertex(&mut self, tables: &Tables, unused: bool) -> Option<u32> {
        let entries = (1..).zip(&tables.v2e);
        let vertices: Vec<u32> = entries.filter(|(_, &entry)| (entry == 0) == unused).map(|(v, _)| v).collect();
        vertices.get(self.dice.below(vertices.len() as u32) as usize).copied()
    }

    /// Another V2e entry at one vertex: what begins there, the rim that comes there, and recovery.
    fn try_entry(&mut self, tables: &Tables, v: u32, entry: u32) {
        let mut changed = tables.clone();
        changed.v2e[v as usize - 1] = entry;
        self.ask_vertex(&changed, v);
        if let Some(b) = tables.border_to(v) {
            self.ask(&changed, Query::Next(borzhanu::border(b)));
            self.ask_list(&changed, Query::BorderLoop(b));
        }
        compare_holes(self, &changed);
        self.compare_recovery(changed.n, changed.elements_count(), &changed.v2e, &changed.e2e, 0);
    }

    /// A used vertex entered as unused, and an unused one as used.
    fn try_other_uses(&mut self, tables: &Tables) {
        if let Some(v) = self.any_vertex(tables, false) {
            self.try_entry(tables, v, 0);
        }
        if let Some(v) = self.any_vertex(tables, true) {
            let entry = self.any_code(tables);
            self.try_entry(tables, v, entry);
        }
    }

    pub fn try_small_list(&mut self, list: &List) {
        let Some(tables) = self.build_and_recover(list) else { return };
        self.recover_damaged(&tables);
        self.try_other_uses(&tables);
        self.ask_everything(&tables);
        if self.dice.once_in(4) {
            self.ask_everything(&tables.relaid());
        }
        self.ask_told(&tables);
        self.ask_damaged(&tables, 2);
    }

    pub fn try_list(&mut self, list: &List, times: u32) {
        let Some(tables) = self.build_and_recover(list) else { return };
        self.try_other_uses(&tables);
        self.ask_something(&tables, times);
        self.ask_something(&tables.relaid(), times / 4);
        self.ask_told(&tables);
        for _ in 0..=times / 4 {
            self.recover_damaged(&tables);
            self.ask_damaged(&tables, 1 + times / 8);
        }
    }
}

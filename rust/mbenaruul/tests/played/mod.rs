//! An evening of writing: many adds through one `Writer`, a third of them refused, with the files
//! finished now and then; and all that has to hold of it. tests/evening.rs plays short evenings,
//! and examples/evening.rs, which rust/evening/run calls, long ones.

mod known;
mod lent;
mod refused;

use crate::common::{is_point, written, Random};
use known::{numbers, Known};
use mbenaruul::{kind, Plan, Record, Writer};
use std::collections::BTreeMap;

/// The fewest adds of an evening: with less it may be that a refusal never has its turn.
pub const FEWEST: usize = 300;

/// So many adds at least stand in front of the first one that is accepted: there each refusal that
/// can come has its turn three times.
pub const OPENING: usize = 12;

/// The adds around which the files are finished, before and behind.
pub const AROUND: usize = 25;

/// How many adds were refused with each number.
pub type Refused = BTreeMap<u32, usize>;

/// What there is to say of an evening, when all of it has held.
pub struct Played {
    pub accepted: Vec<Record>,
    /// In front of the first accepted add, and behind it.
    pub refused: [Refused; 2],
    pub finishings: usize,
    pub shp: Vec<u8>,
    pub shx: Vec<u8>,
}

/// An evening of so many adds. The first that is accepted gives it this kind; without a kind none
/// is accepted. It panics where something does not hold.
pub fn play(kind: Option<i32>, adds: usize, seed: u64) -> Played {
    assert!(adds >= FEWEST, "an evening has at least {FEWEST} adds");
    let untouched = refused::untouched();
    let mut evening = Evening::new(kind, seed, &untouched);
    let mut refusals = Lot::new(kind.map_or(adds, |_| adds / 3), adds);
    let mut around = Lot::new(AROUND, adds);
    for step in 0..adds {
        evening.step = step;
        let refuse = refusals.draw(step < OPENING, &mut evening.random);
        // the first time there is no record yet
        if around.draw(step == 0, &mut evening.random) {
            evening.add_between_finishings(refuse);
        } else {
            evening.add(refuse);
        }
    }
    evening.end(adds)
}

/// So many of the steps that are left, each of these as likely as another.
struct Lot {
    marked: usize,
    left: usize,
}

impl Lot {
    fn new(marked: usize, left: usize) -> Lot {
        Lot { marked, left }
    }

    /// Whether the next step is one of them, which it may have to be.
    fn draw(&mut self, must: bool, random: &mut Random) -> bool {
        let is_marked = must || random.below(self.left) < self.marked;
        self.left -= 1;
        self.marked -= usize::from(is_marked);
        is_marked
    }
}

struct Evening<'a> {
    /// What the first accepted add will be of.
    kind: Option<i32>,
    step: usize,
    random: Random,
    writer: Writer,
    known: Known,
    accepted: Vec<Record>,
    refused: [Refused; 2],
    finishings: usize,
    /// Lent where a shape is too long.
    untouched: &'a [f64],
}

impl<'a> Evening<'a> {
    fn new(kind: Option<i32>, seed: u64, untouched: &'a [f64]) -> Evening<'a> {
        // each kind has an evening of its own
        let own = kind.unwrap_or(kind::NULL) as u64;
        Evening {
            kind,
            step: 0,
            random: Random::with_zeros(seed.wrapping_mul(64).wrapping_add(own)),
            writer: Writer::new(),
            known: Known::new(),
            accepted: Vec::new(),
            refused: Default::default(),
            finishings: 0,
            untouched,
        }
    }

    /// Where something does not hold.
    fn at(&self) -> String {
        format!("kind {:?}, add {}", self.kind, self.step)
    }

    fn add(&mut self, refuse: bool) {
        match self.kind {
            Some(kind) if !refuse => self.accept(kind),
            _ => self.refuse(),
        }
        let points = self.known.totals.points;
        assert_eq!(self.writer.points(), points, "{}", self.at());
    }

    /// A refused add leaves both files as they were, and an accepted one neither.
    fn add_between_finishings(&mut self, refuse: bool) {
        let before = self.finish_halfway();
        self.add(refuse);
        let behind = self.finish_halfway();
        let same = [before.0 == behind.0, before.1 == behind.1];
        assert_eq!(same, [refuse; 2], "{}", self.at());
    }

    /// The two files so far.
    fn finish_halfway(&mut self) -> (Vec<u8>, Vec<u8>) {
        let (shp, shx) = self.writer.clone().finish().unwrap();
        self.known.assert_is(&shp, &shx, &self.at());
        self.finishings += 1;
        (shp, shx)
    }

    /// A well-formed shape, or behind the first now and then a Null.
    fn accept(&mut self, kind: i32) {
        let record = match self.random.below(8) {
            0 if !self.known.is_empty() => Record::Null,
            _ => lent::shape(kind, &mut self.random),
        };
        let said = self.writer.add(&record.tables());
        assert_eq!(said, Ok(()), "{}", self.at());
        self.known.add(&record);
        self.accepted.push(record);
    }

    /// The files as they come out in the end.
    fn end(mut self, adds: usize) -> Played {
        self.assert_counted(adds);
        let (shp, shx) = self.finish_halfway();
        assert_read_back(&self.accepted, &shp, &shx);
        // the accepted adds alone, without the others and without the finishings
        let alone = written(&self.accepted);
        let same = [alone.0 == shp, alone.1 == shx];
        assert_eq!(same, [true; 2], "{}", self.at());
        Played {
            accepted: self.accepted,
            refused: self.refused,
            finishings: self.finishings,
            shp,
            shx,
        }
    }

    /// Every add was accepted or refused, a third of them refused, each refusal that can come was
    /// seen, and no other.
    fn assert_counted(&self, adds: usize) {
        let refused: usize = self.refused.iter().flat_map(BTreeMap::values).sum();
        assert_eq!(self.accepted.len() + refused, adds);
        let seen = [0, 1].map(|i| self.refused[i].keys().copied().collect::<Vec<u32>>());
        let behind: &[u32] = match self.kind {
            None => &[],
            Some(kind) if is_point(kind) => &[4, 5, 9, 10],
            Some(_) => &[4, 5, 7, 9, 10],
        };
        assert_eq!(seen, [&[4, 7, 9, 10], behind], "{}", self.at());
        if self.kind.is_some() {
            let share = 100.0 * refused as f64 / adds as f64;
            assert!((30.0..37.0).contains(&share), "{share} % were refused");
        }
    }
}

/// Every record that is read is the shape that was added, and there is no other. No m of an evening
/// is so low that it would be read as no data.
fn assert_read_back(accepted: &[Record], shp: &[u8], shx: &[u8]) {
    let plan = Plan::check(shp, shx).unwrap();
    for (k, added) in (1..).zip(accepted) {
        let read = plan.record(k).unwrap().unwrap();
        assert_eq!(read, *added, "record {k}");
        assert_eq!(bits(&read), bits(added), "record {k}");
    }
    assert_eq!(plan.record(accepted.len() + 1), None);
}

/// The bits of all doubles of a record: == does not tell the zeros apart.
fn bits(record: &Record) -> Vec<u64> {
    let tables = record.tables();
    let bbox = numbers(tables.bbox);
    let stores = [&bbox[..], tables.x, tables.y, tables.z, tables.m];
    stores.concat().into_iter().map(f64::to_bits).collect()
}

//! The adds of an evening that have to be refused, for every reason that there is. What has to be
//! said of each is known from how it was spoiled.

use super::known::words;
use super::lent::{any_kind, no_kind, shape, Lent, MULTIPATCH};
use super::{Evening, OPENING};
use crate::common::{has_m, has_z, is_multipoint, is_point};
use mbenaruul::{kind, Error, Record, Tables};

/// As many coordinates as make any shape with several points too long for a file: two gigabytes, and
/// a polyline needs all of them, though its x and y are the same ones here. None is read, since a
/// shape is judged before that; and the system hands out a page of zeros when it is first touched,
/// which these never are.
pub fn untouched() -> Vec<f64> {
    vec![0.0; 1 << 28]
}

impl Evening<'_> {
    /// The refusals that can come now. 5 needs a kind that is wanted, and there is none before the
    /// first shape. A point has a few words, so that a file of points comes to 7 only when four
    /// gigabytes of it are really written: on such an evening 7 comes before the first point alone,
    /// of another kind.
    ///
    /// 3 and 6 never come: no state of a series of calls is refused with 3, which is proved, and a
    /// `Writer` asks how much room it needs.
    fn reasons(&self) -> &'static [u32] {
        match self.known.kind {
            kind::NULL => &[4, 7, 9, 10],
            kind if is_point(kind) => &[4, 5, 9, 10],
            _ => &[4, 5, 7, 9, 10],
        }
    }

    /// An add that is refused: at first for each reason in turn, then for any.
    pub fn refuse(&mut self) {
        let reasons = self.reasons();
        let turn = if self.step < OPENING {
            self.step % reasons.len()
        } else {
            self.random.below(reasons.len())
        };
        match reasons[turn] {
            4 => self.unknown(),
            5 => self.mismatch(),
            7 => self.long(),
            9 => self.not_taken(),
            _ => self.disagreeing(),
        }
    }

    fn unknown(&mut self) {
        let code = no_kind(&mut self.random);
        let record = self.any_record();
        self.refused_by_kind(&record, code, Error::Unknown(code));
    }

    /// A multipatch, or a Null in front of the first shape.
    fn not_taken(&mut self) {
        let code = match self.random.below(2) {
            0 if self.known.is_empty() => kind::NULL,
            _ => MULTIPATCH,
        };
        let record = self.any_record();
        self.refused_by_kind(&record, code, Error::NotTaken(code));
    }

    /// A shape that is right for a file of another kind.
    fn mismatch(&mut self) {
        let wanted = self.known.kind;
        let mut found = wanted;
        while found == wanted {
            found = any_kind(&mut self.random);
        }
        let record = shape(found, &mut self.random);
        self.refused_by_kind(&record, found, Error::Mismatch { wanted, found });
    }

    /// The tables of a record under this code. Now and then they disagree too, which plays no part:
    /// the kind is judged before them.
    fn refused_by_kind(&mut self, record: &Record, code: i32, why: Error) {
        let mut lent = Lent::of(record);
        if self.random.below(4) == 0 {
            lent.disagree(&mut self.random);
        }
        lent.kind = code;
        self.add_refused(&lent.tables(), why);
    }

    /// A record that is right, with its own kind, for some file.
    fn any_record(&mut self) -> Record {
        match self.random.below(8) {
            0 => Record::Null,
            _ => {
                let kind = any_kind(&mut self.random);
                shape(kind, &mut self.random)
            }
        }
    }

    /// Tables that disagree, of a kind that would be taken now.
    fn disagreeing(&mut self) {
        let record = match self.known.kind {
            kind::NULL => {
                let kind = any_kind(&mut self.random);
                shape(kind, &mut self.random)
            }
            _ if self.random.below(6) == 0 => Record::Null,
            kind => shape(kind, &mut self.random),
        };
        let mut lent = Lent::of(&record);
        lent.disagree(&mut self.random);
        self.add_refused(&lent.tables(), Error::Tables);
    }

    /// A shape with which the file would have more than 2,147,483,647 words: half of the time with
    /// as few points as that takes.
    fn long(&mut self) {
        let mut kind = self.known.kind;
        while kind == kind::NULL || is_point(kind) {
            kind = any_kind(&mut self.random);
        }
        let parts = match is_multipoint(kind) {
            true => 0,
            false => 1 + self.random.below(3),
        };
        let with = |points| self.known.words + words(kind, parts, points);
        let least = (i32::MAX as usize - with(0)) / (with(1) - with(0)) + 1;
        let more = match self.random.below(2) {
            0 => 0,
            _ => self.random.below(self.untouched.len() - least + 1),
        };
        self.add_long(kind, parts, least + more);
    }

    /// Every table that the kind has is the same one.
    fn add_long(&mut self, kind: i32, parts: usize, points: usize) {
        let mut counts = vec![2; parts];
        if let Some(last) = counts.last_mut() {
            *last = (points - 2 * (parts - 1)) as u32;
        }
        let untouched = self.untouched;
        let where_it_has = |has: bool| &untouched[..if has { points } else { 0 }];
        let tables = Tables {
            kind,
            counts: &counts,
            x: &untouched[..points],
            y: &untouched[..points],
            z: where_it_has(has_z(kind)),
            m: where_it_has(has_m(kind)),
            ..Tables::default()
        };
        self.add_refused(&tables, Error::Long);
    }

    fn add_refused(&mut self, tables: &Tables<'_>, why: Error) {
        let said = self.writer.add(tables);
        assert_eq!(said, Err(why), "{}", self.at());
        let behind_first = usize::from(!self.known.is_empty());
        *self.refused[behind_first].entry(why.number()).or_default() += 1;
    }
}

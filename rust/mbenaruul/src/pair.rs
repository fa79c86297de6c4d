//! The pair checker, and the records of a pair that it has accepted.

use crate::error::Error;
use crate::ffi;
use crate::header::{read_header, read_index_entry, Header};
use crate::reason::Reason;
use crate::record::{read_record, Record};
use std::fmt;
use std::iter::FusedIterator;
use std::ops::Range;

/// What an accepted pair holds. A point counts no part and one point, a multipoint no part and its
/// points, a Null record neither.
#[repr(C)]
#[derive(Debug, Clone, Copy, PartialEq, Eq)]
pub struct Totals {
    /// The records.
    pub records: usize,
    /// The parts of all of them.
    pub parts: usize,
    /// The points of all of them.
    pub points: usize,
}

impl fmt::Display for Totals {
    fn fmt(&self, f: &mut fmt::Formatter<'_>) -> fmt::Result {
        let Totals {
            records,
            parts,
            points,
        } = self;
        write!(f, "records={records} parts={parts} points={points}")
    }
}

/// Whether the bytes of a .shp and of a .shx are a pair. The no is [`Error::Fault`], the only
/// refusal: the first rule that is broken, and the record that breaks it.
pub fn check_pair(shp: &[u8], shx: &[u8]) -> Result<Totals, Error> {
    let checked = ffi::check_pair(shp, shx);
    checked.refusal.into_result()?;
    Ok(checked.totals)
}

/// What the pair checker says, as a line: `yes records=R parts=P points=N` or
/// `no rule=P11 record=2`.
#[derive(Debug, Clone, Copy, PartialEq, Eq)]
pub enum Verdict {
    /// The two files are a pair.
    Yes(Totals),
    /// They are not. The repository's docs/RULES.md says each rule in plain words.
    No {
        /// The first rule that is broken: 11 for P11.
        rule: u32,
        /// The number of the record that breaks it, from 1; 0 for the headers.
        record: usize,
    },
}

impl Verdict {
    /// [`check_pair`], with its no as an answer and not as an error.
    pub fn of(shp: &[u8], shx: &[u8]) -> Verdict {
        match check_pair(shp, shx) {
            Ok(totals) => Verdict::Yes(totals),
            Err(Error::Fault { rule, record }) => Verdict::No { rule, record },
            Err(other) => panic!("the pair checker has one refusal, and gave: {other}"),
        }
    }

    /// Of a no: what breaks the rule in these two files, which are the ones that were checked. None
    /// of a yes, and where the files are others, which do not break that rule there.
    pub fn why(&self, shp: &[u8], shx: &[u8]) -> Option<Reason> {
        match *self {
            Verdict::Yes(_) => None,
            Verdict::No { rule, record } => Reason::find(rule, record, shp, shx),
        }
    }
}

impl fmt::Display for Verdict {
    fn fmt(&self, f: &mut fmt::Formatter<'_>) -> fmt::Result {
        match self {
            Verdict::Yes(totals) => write!(f, "yes {totals}"),
            Verdict::No { rule, record } => write!(f, "no rule=P{rule} record={record}"),
        }
    }
}

/// A pair that was checked, and whose records are found through its index.
#[derive(Debug, Clone, Copy)]
pub struct Plan<'a> {
    shp: &'a [u8],
    shx: &'a [u8],
    header: Header,
    totals: Totals,
}

impl<'a> Plan<'a> {
    /// The plan of a .shp and a .shx, if they are a pair; else the fault that [`check_pair`] gives.
    pub fn check(shp: &'a [u8], shx: &'a [u8]) -> Result<Plan<'a>, Error> {
        let totals = check_pair(shp, shx)?;
        let header = read_header(shp)?;
        Ok(Plan {
            shp,
            shx,
            header,
            totals,
        })
    }

    /// The records, parts and points.
    pub fn totals(&self) -> Totals {
        self.totals
    }

    /// The number of records.
    pub fn len(&self) -> usize {
        self.totals.records
    }

    /// Whether there is no record.
    pub fn is_empty(&self) -> bool {
        self.len() == 0
    }

    /// The header of the .shp.
    pub fn header(&self) -> Header {
        self.header
    }

    /// Record k, counted from 1; none, where there is no such record. A record that is there is
    /// refused only if its content is over 2,147,483,647 bytes, and then with 3.
    pub fn record(&self, k: usize) -> Option<Result<Record, Error>> {
        if (1..=self.len()).contains(&k) {
            Some(self.read(k))
        } else {
            None
        }
    }

    /// All records in turn. Each is read when the iterator comes to it, and one that is skipped is
    /// not read.
    pub fn records(&self) -> Records<'a> {
        Records {
            plan: *self,
            left: 1..self.len() + 1,
        }
    }

    /// The pair was accepted: entry k is there, and the record that it names lies in the .shp.
    fn read(&self, k: usize) -> Result<Record, Error> {
        let entry = read_index_entry(&self.shx[100 + 8 * (k - 1)..])?;
        let content = entry.offset.in_bytes().0 as usize + 8;
        let size = entry.content_length.in_bytes();
        read_record(&self.shp[content..content + size.0 as usize], size, None)
    }
}

impl<'a> IntoIterator for &Plan<'a> {
    type Item = Result<Record, Error>;
    type IntoIter = Records<'a>;

    fn into_iter(self) -> Records<'a> {
        self.records()
    }
}

/// The records of a [`Plan`] in turn, from both ends. It borrows the bytes of the two files, and not
/// the plan.
#[derive(Debug, Clone)]
pub struct Records<'a> {
    plan: Plan<'a>,
    /// The numbers of the records that were not given yet.
    left: Range<usize>,
}

impl Iterator for Records<'_> {
    type Item = Result<Record, Error>;

    fn next(&mut self) -> Option<Self::Item> {
        self.left.next().map(|k| self.plan.read(k))
    }

    fn nth(&mut self, skipped: usize) -> Option<Self::Item> {
        self.left.nth(skipped).map(|k| self.plan.read(k))
    }

    fn size_hint(&self) -> (usize, Option<usize>) {
        self.left.size_hint()
    }
}

impl DoubleEndedIterator for Records<'_> {
    fn next_back(&mut self) -> Option<Self::Item> {
        self.left.next_back().map(|k| self.plan.read(k))
    }

    fn nth_back(&mut self, skipped: usize) -> Option<Self::Item> {
        self.left.nth_back(skipped).map(|k| self.plan.read(k))
    }
}

impl ExactSizeIterator for Records<'_> {}

impl FusedIterator for Records<'_> {}

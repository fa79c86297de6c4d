//! The refusals: one enum, with each refusal's number and values.

use crate::ffi::Refusal;
use crate::reason::Reason;
use std::fmt;

/// Why a call was refused. Offsets are in bytes, from the start of the slice that was handed over.
#[derive(Debug, Clone, Copy, PartialEq, Eq, Hash)]
#[non_exhaustive]
pub enum Error {
    /// 1: the bytes end inside a field. There are `at + present` bytes, and the field has more than
    /// `present`.
    Short {
        /// The field's offset.
        at: usize,
        /// How many of the field's bytes are there: 0 where it would begin behind the last byte.
        present: usize,
    },
    /// 2: the file code is this one and not 9994.
    Code(i32),
    /// 3: a size that does not fit.
    Size {
        /// The offset of the field that is wrong; 0 where it is no field's fault.
        at: usize,
    },
    /// 4: there is no kind with this code.
    Unknown(i32),
    /// 5: another kind than the one wanted, or than that of the records written before. A Null that
    /// is written is no other kind; one that is read, where a kind is wanted, is.
    Mismatch {
        /// The kind that was wanted.
        wanted: i32,
        /// The kind that was found.
        found: i32,
    },
    /// 6: a buffer is too small. No call of this crate gives it: each makes its buffers large
    /// enough.
    Room {
        /// The parts, or the bytes, that are needed.
        first: usize,
        /// The points that are needed, where the first are parts.
        second: usize,
    },
    /// 7: a count over 2,147,483,647, or a file over that many 16-bit words.
    Long,
    /// 8: the pair checker's no. The repository's docs/RULES.md says each rule in plain words and
    /// what usually breaks it; [`Error::why`] says what breaks it in these files.
    Fault {
        /// The first rule that is broken: 11 for P11.
        rule: u32,
        /// The number of the record that breaks it, from 1; 0 for the headers.
        record: usize,
    },
    /// 9: a kind that is not read or written: a multipatch; and Null, where it is wanted of a read, or
    /// would be the first record that is written.
    NotTaken(i32),
    /// 10: tables that disagree in length, or a table of a Null record that is not empty; a run of
    /// points that goes past x or past y.
    Tables,
}

impl Error {
    /// The refusal's number, as the C header has it.
    pub fn number(&self) -> u32 {
        match self {
            Error::Short { .. } => 1,
            Error::Code(_) => 2,
            Error::Size { .. } => 3,
            Error::Unknown(_) => 4,
            Error::Mismatch { .. } => 5,
            Error::Room { .. } => 6,
            Error::Long => 7,
            Error::Fault { .. } => 8,
            Error::NotTaken(_) => 9,
            Error::Tables => 10,
        }
    }

    /// Of a [`Fault`](Error::Fault): what breaks the rule in these two files, which are the ones that
    /// were checked. None of another refusal, and where the files are others, which do not break
    /// that rule there.
    pub fn why(&self, shp: &[u8], shx: &[u8]) -> Option<Reason> {
        match *self {
            Error::Fault { rule, record } => Reason::find(rule, record, shp, shx),
            _ => None,
        }
    }
}

impl fmt::Display for Error {
    fn fmt(&self, f: &mut fmt::Formatter<'_>) -> fmt::Result {
        match self {
            Error::Short { at, present } => {
                let there = match present {
                    0 => "none of its bytes is".to_string(),
                    1 => "1 of its bytes is".to_string(),
                    _ => format!("{present} of its bytes are"),
                };
                let all = at.saturating_add(*present);
                write!(
                    f,
                    "short: the bytes end inside the field at offset {at}: {there} there, {all} in all"
                )
            }
            Error::Code(code) => write!(f, "code: the file code is {code} and not 9994"),
            Error::Size { at } => write!(f, "size: a size at offset {at} does not fit"),
            Error::Unknown(kind) => write!(f, "unknown: there is no kind {kind}"),
            Error::Mismatch { wanted, found } => {
                write!(
                    f,
                    "mismatch: kind {wanted} is wanted, kind {found} is found"
                )
            }
            Error::Room { first, second } => {
                write!(
                    f,
                    "room: a buffer is too small, {first} and {second} are needed"
                )
            }
            Error::Long => write!(f, "long: a count or a file is over 2,147,483,647"),
            Error::Fault { rule, record: 0 } => {
                write!(f, "fault: rule P{rule} is broken in the headers")
            }
            Error::Fault { rule, record } => {
                write!(f, "fault: rule P{rule} is broken at record {record}")
            }
            Error::NotTaken(kind) => write!(f, "not taken: kind {kind} is not taken here"),
            Error::Tables => write!(f, "tables: the tables disagree in length"),
        }
    }
}

impl std::error::Error for Error {}

impl Refusal {
    /// Nothing, or the refusal with its values.
    pub fn into_result(self) -> Result<(), Error> {
        let (first, second) = (self.first as usize, self.second as usize);
        // A code below 0 stands as its 32 bits.
        let (code, found) = (self.first as i32, self.second as i32);
        Err(match self.number {
            0 => return Ok(()),
            1 => Error::Short {
                at: first,
                present: second,
            },
            2 => Error::Code(code),
            3 => Error::Size { at: first },
            4 => Error::Unknown(code),
            5 => Error::Mismatch {
                wanted: code,
                found,
            },
            6 => Error::Room { first, second },
            7 => Error::Long,
            8 => Error::Fault {
                rule: self.first as u32,
                record: second,
            },
            9 => Error::NotTaken(code),
            10 => Error::Tables,
            other => panic!("the library gave refusal {other}, and there are ten"),
        })
    }
}

#[cfg(test)]
mod tests {
    use super::*;

    fn refused(number: u32, first: u64, second: u64) -> Result<(), Error> {
        Refusal {
            number,
            first,
            second,
        }
        .into_result()
    }

    #[test]
    fn each_number_is_its_own_refusal() {
        assert_eq!(refused(0, 0, 0), Ok(()));
        for number in 1..=10 {
            assert_eq!(refused(number, 3, 5).unwrap_err().number(), number);
        }
    }

    #[test]
    fn values_are_kept() {
        let minus_two = u64::from(-2i32 as u32);
        assert_eq!(refused(1, 24, 3), Err(Error::Short { at: 24, present: 3 }));
        assert_eq!(refused(2, minus_two, 0), Err(Error::Code(-2)));
        assert_eq!(refused(4, minus_two, 0), Err(Error::Unknown(-2)));
        assert_eq!(
            refused(5, 3, minus_two),
            Err(Error::Mismatch {
                wanted: 3,
                found: -2
            })
        );
        assert_eq!(
            refused(6, 3, 5),
            Err(Error::Room {
                first: 3,
                second: 5
            })
        );
        assert_eq!(
            refused(8, 11, 60_000),
            Err(Error::Fault {
                rule: 11,
                record: 60_000
            })
        );
    }

    #[test]
    #[should_panic(expected = "refusal 11")]
    fn a_number_that_there_is_not_is_no_success() {
        let _ = refused(11, 0, 0);
    }

    #[test]
    fn each_is_said_in_a_line_of_its_own() {
        let lines: Vec<String> = (1..=10)
            .map(|n| refused(n, 3, 5).unwrap_err().to_string())
            .collect();
        for (i, line) in lines.iter().enumerate() {
            assert!(!line.is_empty() && !line.contains('\n'));
            assert!(!lines[..i].contains(line), "two refusals say: {line}");
        }
        let short = |at, present| refused(1, at, present).unwrap_err().to_string();
        assert_eq!(
            short(24, 3),
            "short: the bytes end inside the field at offset 24: 3 of its bytes are there, 27 in all"
        );
        assert_eq!(
            short(24, 1),
            "short: the bytes end inside the field at offset 24: 1 of its bytes is there, 25 in all"
        );
        assert_eq!(
            short(24, 0),
            "short: the bytes end inside the field at offset 24: none of its bytes is there, 24 in all"
        );
        assert_eq!(lines[7], "fault: rule P3 is broken at record 5");
        let headers = refused(8, 3, 0).unwrap_err().to_string();
        assert_eq!(headers, "fault: rule P3 is broken in the headers");
    }
}

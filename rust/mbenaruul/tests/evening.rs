//! Evenings of writing, of a thousand adds each: one of every kind, and one on which nothing is
//! accepted. What has to hold of any evening is asserted while it is played, in played/. Long ones
//! are played by rust/evening/run.

mod common;
mod played;

use common::{totals, KINDS};
use mbenaruul::{Record, Verdict};
use played::{play, Played, Refused, AROUND, FEWEST, OPENING};

const ADDS: usize = 1000;

/// How many adds were refused in front of the first accepted one, and behind it.
fn sums(refused: &[Refused; 2]) -> [usize; 2] {
    [0, 1].map(|i| refused[i].values().sum())
}

#[test]
fn an_evening_of_every_kind_ends_in_the_files_of_what_was_accepted() {
    for kind in KINDS {
        let Played {
            accepted,
            refused,
            finishings,
            shp,
            shx,
        } = play(Some(kind), ADDS, 1);
        assert_eq!(accepted.len(), ADDS - ADDS / 3);
        assert_eq!(accepted[0].kind(), kind);
        assert_eq!(finishings, 2 * AROUND + 1);
        for file in [&shp, &shx] {
            assert_eq!(file[32..36], kind.to_le_bytes());
        }
        let said = format!("yes {}", totals(&accepted));
        assert_eq!(Verdict::of(&shp, &shx).to_string(), said);

        // about an eighth are Nulls, and every refusal has its share
        let nulls = accepted.iter().filter(|r| **r == Record::Null).count();
        assert!((ADDS / 24..ADDS / 6).contains(&nulls), "{nulls} Nulls");
        let [front, behind] = sums(&refused);
        assert!(front >= OPENING && front + behind == ADDS / 3);
        let least = [0, 1].map(|i| *refused[i].values().min().unwrap());
        assert!(least[0] >= 3 && least[1] > ADDS / 30, "{refused:?}");
    }
}

#[test]
fn an_evening_of_refused_adds_alone_ends_in_an_empty_pair() {
    let evening = play(None, ADDS, 1);
    assert!(evening.accepted.is_empty());
    assert_eq!(sums(&evening.refused), [ADDS, 0]);
    // the code, the length of 50 words, the version, and zeros for the kind and the box
    let mut empty = [0; 100];
    empty[..4].copy_from_slice(&9994i32.to_be_bytes());
    empty[24..28].copy_from_slice(&50i32.to_be_bytes());
    empty[28..32].copy_from_slice(&1000i32.to_le_bytes());
    assert_eq!(
        (&evening.shp[..], &evening.shx[..]),
        (&empty[..], &empty[..])
    );
    let said = Verdict::of(&evening.shp, &evening.shx).to_string();
    assert_eq!(said, "yes records=0 parts=0 points=0");
}

#[test]
fn an_evening_is_the_same_again_and_with_another_seed_another() {
    let files = |seed| {
        let evening = play(Some(KINDS[3]), FEWEST, seed);
        (evening.shp, evening.shx)
    };
    assert!(files(1) == files(1) && files(1) != files(2));
}

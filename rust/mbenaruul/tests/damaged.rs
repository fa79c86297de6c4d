//! Pairs that were damaged at random: the checker always answers, and what it says yes to can be
//! read in every record.

mod common;

use common::{damage, is_divided, read_all, record, records, totals, written, Random, KINDS};
use mbenaruul::{read_record, Bytes, Error, Plan};
use std::collections::BTreeSet;

#[test]
fn a_damaged_pair_is_answered_and_a_yes_is_readable() {
    let mut yes = 0;
    let mut rules = BTreeSet::new();
    for kind in KINDS {
        let mut random = Random::new(kind as u64);
        for _ in 0..1500 {
            let (mut shp, mut shx) = written(&records(kind, 3, &mut random));
            let damaged = if random.below(3) == 0 {
                &mut shx
            } else {
                &mut shp
            };
            damage(damaged, &mut random);
            match Plan::check(&shp, &shx) {
                Ok(plan) => {
                    let read = read_all(&plan);
                    assert_eq!(totals(&read), plan.totals());
                    assert!(read.iter().all(is_divided));
                    yes += 1;
                }
                Err(Error::Fault { rule, record }) => {
                    assert!((1..=17).contains(&rule) && record <= 4);
                    assert_eq!(rule <= 8, record == 0);
                    rules.insert(rule);
                }
                Err(other) => panic!("the checker gave: {other}"),
            }
        }
    }
    assert!(yes > 1000, "only {yes} were accepted");
    assert!(rules.len() > 12, "only the rules {rules:?} were met");
}

#[test]
fn a_damaged_content_is_answered() {
    let mut numbers = BTreeSet::new();
    for kind in KINDS {
        let mut random = Random::new(100 + kind as u64);
        for _ in 0..1500 {
            let (shp, _) = written(&[record(kind, &mut random)]);
            let mut content = shp[108..].to_vec();
            let size = content.len() as i64 - (random.below(8) / 7) as i64;
            damage(&mut content, &mut random);
            match read_record(&content, Bytes(size), (size % 3 == 0).then_some(kind)) {
                Ok(read) => assert!(is_divided(&read)),
                Err(refused) => {
                    if let Error::Short { at, present } = refused {
                        assert!(at + present == content.len() && present < 8);
                    }
                    numbers.insert(refused.number());
                }
            }
        }
    }
    assert_eq!(numbers, BTreeSet::from([1, 3, 4, 5]));
}

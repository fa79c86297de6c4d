//! Plays an evening of writing for each of the twelve kinds, prints a line for each, and leaves the
//! pairs that come out in a folder. It panics where something does not hold. rust/evening/run calls
//! it, and has GDAL read the pairs.
//!
//!     evening ADDS SEED FOLDER

#[path = "../tests/common/mod.rs"]
mod common;
#[path = "../tests/played/mod.rs"]
mod played;

use common::KINDS;
use mbenaruul::{kind, Record, Verdict};
use played::{play, Played, FEWEST};
use std::path::Path;
use std::{env, fs, process};

fn main() {
    let words: Vec<String> = env::args().skip(1).collect();
    let (adds, seed, folder) = match &words[..] {
        [adds, seed, folder] => (number(adds) as usize, number(seed), Path::new(folder)),
        _ => stop("its words are ADDS SEED FOLDER"),
    };
    if adds < FEWEST {
        stop(&format!("it has at least {FEWEST} adds"));
    }
    for kind in KINDS {
        let name = kind::name(kind).expect("a kind with a name");
        let evening = play(Some(kind), adds, seed);
        println!("{name}: adds={adds} {}", line(&evening));
        for (file, end) in [(&evening.shp, "shp"), (&evening.shx, "shx")] {
            let path = folder.join(format!("{name}.{end}"));
            fs::write(&path, file).unwrap_or_else(|e| stop(&format!("{}: {e}", path.display())));
        }
    }
}

fn number(word: &str) -> u64 {
    word.parse()
        .unwrap_or_else(|_| stop(&format!("{word} is no number")))
}

fn stop(why: &str) -> ! {
    eprintln!("evening: {why}");
    process::exit(2)
}

/// How many adds were accepted, and of these Nulls, and how many refused with each number; how often
/// the files were finished; and the checker's line.
fn line(evening: &Played) -> String {
    let Played {
        accepted, shp, shx, ..
    } = evening;
    let nulls = accepted.iter().filter(|r| **r == Record::Null).count();
    let with = |number| -> usize { evening.refused.iter().filter_map(|r| r.get(&number)).sum() };
    let each = [4, 5, 7, 9, 10].map(|number| format!("refused-{number}={}", with(number)));
    format!(
        "accepted={} nulls={nulls} {} finishings={} {}",
        accepted.len(),
        each.join(" "),
        evening.finishings,
        Verdict::of(shp, shx)
    )
}

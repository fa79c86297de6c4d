//! The two files of a plan: finding the .shx beside a .shp, and reading both whole, or saying why not.

use std::fs::{self, File, Metadata};
use std::io::{self, ErrorKind, Read};
use std::os::unix::fs::OpenOptionsExt;
use std::path::{Path, PathBuf};

/// No file of a pair has more bytes: its header counts 16-bit words in an i32.
const LARGEST: u64 = 4_294_967_294;

/// Linux's, on x86-64: opening does not wait for the other end of a pipe.
const O_NONBLOCK: i32 = 0o4000;

/// The bytes of a .shp and of the .shx beside it, or why there are none.
pub fn read_pair(shp: &Path) -> Result<(Vec<u8>, Vec<u8>), String> {
    let main = read(shp).map_err(|why| format!("the .shp: {why}"))?;
    let index = find_index(shp)
        .and_then(|shx| read(&shx))
        .map_err(|why| format!("the .shx: {why}"))?;
    Ok((main, index))
}

/// The first of the names that is there. One that is there and cannot be read, as a link to
/// nothing, is not passed over for another.
fn find_index(shp: &Path) -> Result<PathBuf, String> {
    for shx in index_names(shp) {
        match fs::symlink_metadata(&shx) {
            Ok(_) => return Ok(shx),
            Err(e) if e.kind() == ErrorKind::NotFound => {}
            Err(e) => return Err(e.to_string()),
        }
    }
    Err("there is none beside it".to_string())
}

/// The names that the index may have, the one in the file's own case first. A name without an
/// extension has none, and an index has no index.
fn index_names(shp: &Path) -> Vec<PathBuf> {
    let extension = match shp.extension() {
        Some(e) if !e.eq_ignore_ascii_case("shx") => e.to_string_lossy(),
        _ => return Vec::new(),
    };
    let own = match extension.strip_suffix(['p', 'P']) {
        Some(sh) if sh.eq_ignore_ascii_case("sh") && extension.ends_with('p') => format!("{sh}x"),
        Some(sh) if sh.eq_ignore_ascii_case("sh") => format!("{sh}X"),
        _ => "shx".to_string(),
    };
    let mut extensions = vec![own];
    for usual in ["shx", "SHX", "Shx"] {
        if extensions[0] != usual {
            extensions.push(usual.to_string());
        }
    }
    extensions.iter().map(|e| shp.with_extension(e)).collect()
}

/// A whole file. Only a regular one is opened: a pipe would wait for its other end, and a device
/// need have no end.
fn read(path: &Path) -> Result<Vec<u8>, String> {
    let said = |e: io::Error| e.to_string();
    judge(&fs::metadata(path).map_err(said)?)?;
    let file = fs::OpenOptions::new()
        .read(true)
        .custom_flags(O_NONBLOCK)
        .open(path)
        .map_err(said)?;
    let before = file.metadata().map_err(said)?;
    judge(&before)?; // the name may stand for another file by now
    let bytes = read_whole(&file, before.len())?;
    if is_changed(&before, &file).map_err(said)? {
        return Err(CHANGED.to_string());
    }
    Ok(bytes)
}

const CHANGED: &str = "it changed while it was read";

fn judge(known: &Metadata) -> Result<(), String> {
    if known.is_dir() {
        Err("it is a folder".to_string())
    } else if !known.is_file() {
        Err("it is no regular file".to_string())
    } else if known.len() > LARGEST {
        Err("it is over the 4,294,967,294 bytes that a file of a pair can have".to_string())
    } else {
        Ok(())
    }
}

fn is_changed(before: &Metadata, file: &File) -> io::Result<bool> {
    let after = file.metadata()?;
    Ok(before.len() != after.len() || before.modified()? != after.modified()?)
}

/// As many bytes as the file is said to have, and no more behind them.
fn read_whole(mut from: impl Read, len: u64) -> Result<Vec<u8>, String> {
    let mut bytes = Vec::new();
    let wanted = usize::try_from(len).unwrap_or(usize::MAX);
    if len > room() || bytes.try_reserve_exact(wanted).is_err() {
        return Err(format!("its {len} bytes are too many for the memory"));
    }
    bytes.resize(wanted, 0);
    from.read_exact(&mut bytes)
        .and_then(|()| match from.read_exact(&mut [0]) {
            Err(e) if e.kind() == ErrorKind::UnexpectedEof => Ok(()),
            Err(e) => Err(e),
            Ok(()) => Err(ErrorKind::UnexpectedEof.into()),
        })
        .map_err(|e| match e.kind() {
            ErrorKind::UnexpectedEof => CHANGED.to_string(),
            _ => e.to_string(),
        })?;
    Ok(bytes)
}

/// The memory that can be had, in bytes. Linux promises more than there is, and ends a program that
/// then uses it; so what it says of itself, and what this program's group may use, is asked before.
fn room() -> u64 {
    let said = |name| fs::read_to_string(name).unwrap_or_default();
    let free = available(&said("/proc/meminfo")).unwrap_or(u64::MAX);
    let allowed = said("/sys/fs/cgroup/memory.max").trim().parse();
    free.min(allowed.unwrap_or(u64::MAX))
}

/// The line `MemAvailable: N kB`.
fn available(meminfo: &str) -> Option<u64> {
    let line = meminfo.lines().find(|l| l.starts_with("MemAvailable:"))?;
    let kilobytes: u64 = line.split_whitespace().nth(1)?.parse().ok()?;
    kilobytes.checked_mul(1024)
}

#[cfg(test)]
mod tests {
    use super::*;

    fn names(shp: &str) -> Vec<String> {
        let names = index_names(Path::new(shp));
        names.iter().map(|n| n.display().to_string()).collect()
    }

    #[test]
    fn the_index_is_beside_the_file_in_its_case_first() {
        assert_eq!(
            names("plans/a.b.shp"),
            ["plans/a.b.shx", "plans/a.b.SHX", "plans/a.b.Shx"]
        );
        assert_eq!(names("A.SHP"), ["A.SHX", "A.shx", "A.Shx"]);
        assert_eq!(names("A.Shp"), ["A.Shx", "A.shx", "A.SHX"]);
        assert_eq!(names("A.shP"), ["A.shX", "A.shx", "A.SHX", "A.Shx"]);
        assert_eq!(names("a.dat"), ["a.shx", "a.SHX", "a.Shx"]);
    }

    #[test]
    fn what_has_no_index_has_no_name_for_it() {
        for name in ["a", "a.shx", "a.SHX", "a.Shx", ""] {
            assert!(names(name).is_empty(), "{name}");
        }
    }

    #[test]
    fn a_file_that_shrinks_or_grows_is_not_taken() {
        assert_eq!(read_whole(&b"abc"[..], 3), Ok(b"abc".to_vec()));
        assert_eq!(read_whole(&b""[..], 0), Ok(Vec::new()));
        assert_eq!(read_whole(&b"ab"[..], 3), Err(CHANGED.to_string()));
        assert_eq!(read_whole(&b"abcd"[..], 3), Err(CHANGED.to_string()));
    }

    #[test]
    fn the_memory_that_can_be_had() {
        let meminfo = "MemTotal:  24 kB\nMemAvailable:      12 kB\n";
        assert_eq!(available(meminfo), Some(12 * 1024));
        assert_eq!(available("MemTotal: 24 kB\n"), None);
        assert_eq!(available("MemAvailable: much\n"), None);
        assert!(room() > 1_000_000);
    }

    #[test]
    fn what_does_not_go_into_memory_is_said() {
        assert_eq!(
            read_whole(&b""[..], u64::MAX),
            Err("its 18446744073709551615 bytes are too many for the memory".to_string())
        );
    }
}

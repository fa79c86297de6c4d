//! Lines: names and texts as they are printed, and printing them.

use crate::Status;
use std::ffi::OsStr;
use std::fs;
use std::io::{self, Write};
use std::os::unix::ffi::OsStrExt;
use std::sync::atomic::{AtomicBool, Ordering};

/// Prints a line. What cannot be printed is trouble and no panic: nobody reads behind a pipe that
/// was closed, a disk is full, or there is no standard output.
pub fn say(line: impl AsRef<[u8]>, status: Status) -> Status {
    let mut out = io::stdout().lock();
    let mut whole = line.as_ref().to_vec();
    whole.push(b'\n');
    match out.write_all(&whole).and_then(|()| out.flush()) {
        Ok(()) if OPEN.load(Ordering::Relaxed) => status,
        _ => Status::Trouble,
    }
}

/// Says something beside the lines. It is no trouble if nobody reads it.
pub fn complain(line: impl AsRef<[u8]>) {
    let mut whole = line.as_ref().to_vec();
    whole.push(b'\n');
    let _ = io::stderr().write_all(&whole);
}

/// Whether standard output was open when the program was started. Before `main` begins, Rust opens
/// /dev/null in the place of one that was not, and what is printed would be lost without an error;
/// so it is asked before that.
static OPEN: AtomicBool = AtomicBool::new(true);

#[used]
#[link_section = ".init_array"]
static ASK: extern "C" fn() = {
    extern "C" fn ask() {
        let is_there = |name| fs::symlink_metadata(name).is_ok();
        let closed = is_there("/proc/self/fd") && !is_there("/proc/self/fd/1");
        OPEN.store(!closed, Ordering::Relaxed);
    }
    ask
};

/// Whether an argument is written as an option.
pub fn is_option(argument: &OsStr) -> bool {
    let bytes = argument.as_bytes();
    bytes.len() > 1 && bytes[0] == b'-'
}

/// A name as its own bytes, so that one that is no text comes out as it is. Only what could end or
/// overwrite a line is written otherwise: control characters, and the backslash that marks them.
pub fn shown(name: &OsStr) -> Vec<u8> {
    let mut shown = Vec::new();
    for &byte in name.as_bytes() {
        match byte {
            b'\n' => shown.extend(b"\\n"),
            b'\\' => shown.extend(b"\\\\"),
            0..=0x1f | 0x7f => shown.extend(format!("\\x{byte:02x}").bytes()),
            _ => shown.push(byte),
        }
    }
    shown
}

/// A text as a string of JSON.
pub fn json_string(text: &str) -> String {
    let mut string = String::from("\"");
    for c in text.chars() {
        match c {
            '"' | '\\' => string.extend(['\\', c]),
            '\0'..='\x1f' | '\x7f' => string += &format!("\\u{:04x}", u32::from(c)),
            _ => string.push(c),
        }
    }
    string + "\""
}

/// The members of an object that give a file's name. One that is not UTF-8 has a sign in the place
/// of what is no text, and its bytes beside it, so that nothing is lost.
pub fn json_name(name: &OsStr) -> String {
    let text = format!("\"name\":{}", json_string(&name.to_string_lossy()));
    if name.to_str().is_some() {
        return text;
    }
    let hex: String = name
        .as_bytes()
        .iter()
        .map(|byte| format!("{byte:02x}"))
        .collect();
    format!("{text},\"name_bytes\":\"{hex}\"")
}

#[cfg(test)]
mod tests {
    use super::*;

    fn name(bytes: &[u8]) -> &OsStr {
        OsStr::from_bytes(bytes)
    }

    #[test]
    fn a_name_comes_out_as_its_bytes() {
        for bytes in [
            &b"plans/a b.shp"[..],
            "Gänge.shp".as_bytes(),
            b"\xff\xfe.shp",
        ] {
            assert_eq!(shown(name(bytes)), bytes);
        }
    }

    #[test]
    fn no_name_ends_a_line() {
        assert_eq!(
            shown(name(b"a.shp: yes\n\r\x1b[2K\x7f\\n")),
            br"a.shp: yes\n\x0d\x1b[2K\x7f\\n"
        );
    }

    #[test]
    fn any_name_is_a_string_of_json() {
        assert_eq!(json_name(name(b"a.shp")), r#""name":"a.shp""#);
        assert_eq!(
            json_name(name(b"a\"b\\c\nd\x7f\xc3\xa4")),
            "\"name\":\"a\\\"b\\\\c\\u000ad\\u007fä\""
        );
        assert_eq!(
            json_name(name(b"a\xffb")),
            "\"name\":\"a\u{fffd}b\",\"name_bytes\":\"61ff62\""
        );
    }

    /// What a string of JSON stands for; none, where it is no such string.
    fn decoded(string: &str) -> Option<String> {
        let mut inner = string.strip_prefix('"')?.strip_suffix('"')?.chars();
        let mut text = String::new();
        while let Some(c) = inner.next() {
            text.push(match c {
                '"' | '\0'..='\x1f' => return None,
                '\\' => match inner.next()? {
                    'u' => {
                        let digits: String = inner.by_ref().take(4).collect();
                        char::from_u32(u32::from_str_radix(&digits, 16).ok()?)?
                    }
                    c @ ('"' | '\\') => c,
                    _ => return None,
                },
                c => c,
            });
        }
        Some(text)
    }

    #[test]
    fn every_name_of_two_bytes_is_a_string_of_json() {
        for first in 0..=255 {
            for second in 0..=255 {
                let bytes = [first, second];
                let text = String::from_utf8_lossy(&bytes);
                assert_eq!(decoded(&json_string(&text)).as_deref(), Some(&*text));
                let line = json_name(name(&bytes));
                assert_eq!(
                    line.contains("name_bytes"),
                    std::str::from_utf8(&bytes).is_err()
                );
            }
        }
    }

    #[test]
    fn an_option_begins_with_a_dash_and_has_more() {
        assert!(is_option(name(b"--why")) && is_option(name(b"-\xff")));
        assert!(!is_option(name(b"-")) && !is_option(name(b"")) && !is_option(name(b"a-b")));
    }
}

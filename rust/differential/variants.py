#!/usr/bin/env python3
"""variants.py: tries that the comparison can fail. Each wrong variant of the library below is made in a copy of the crates, and `rt try` runs the program
`replay` over it on the fixed list, unproved. Prints how many cases each gets wrong. Exit status 0 only if every one gets some wrong."""
import os
import re
import shutil
import subprocess
import sys
import tempfile

ROOT = os.path.dirname(os.path.dirname(os.path.dirname(os.path.abspath(__file__))))

# What is wrong, in which file, which text, and what stands in its place.
VARIANTS = [
    ('closed without y', 'rings/src/lib.rt',
     'fields::same(xs[0], xs[n - 1]) && fields::same(ys[0], ys[n - 1])', 'fields::same(xs[0], xs[n - 1])'),
    ('2^-1074 closes a ring at 0', 'fields/src/lib.rt', '    if rest == 0 {\n', '    if rest <= 1 {\n'),
    ('the turning is not halved', 'rings/src/lib.rt', 'if sum / 2.0 < 0.0', 'if sum < 0.0'),
    ('the turning takes y for x', 'rings/src/lib.rt', '(xs[i] - xs[i - 1])', '(ys[i] - ys[i - 1])'),
    ('closing appends x twice', 'rings/src/lib.rt', 'ys[n] = ys[0];', 'ys[n] = xs[0];'),
    ('an empty part is refused', 'multipart/src/lib.rt', 'if count < 0 ||', 'if count <= 0 ||'),
    ('a part of 2147483647 points is refused', 'multipart/src/lib.rt', 'i64::from(i32::MAX) < count', 'i64::from(i32::MAX) <= count'),
    ('the m rule with its arguments exchanged', 'multipart/src/store.rt', 'if fields::below(-10e38, x) { x } else { -10e38 }',
     'if fields::below(x, -10e38) { -10e38 } else { x }'),
    ('a cut pair is Short at the front of its part', 'multipart/src/judge.rt', 'at = fields_end(s, at, 8, 2 * count)?;',
     'at = match fields_end(s, at, 8, 2 * count) {\n            Ok(end) => end,\n'
     '            Err(e) => return Err(CountsError::Short(format::shapes::Short { at, present: e.present })),\n        };'),
    ('a negative n is 3 at 32', 'multipart/src/lib.rt', 'judge::not_negative(second, 36)?', 'judge::not_negative(second, 32)?'),
    ('a negative n of a multipoint is 3 at 36', 'multipart/src/lib.rt', 'let points = judge::not_negative(first, 32)?;',
     'let points = judge::not_negative(first, 36)?;'),
    ('a cut pair of a multipoint is Short at the first', 'multipart/src/judge.rt', 'fields_end(s, 36, 8, 2 * points)?;',
     'if fields_end(s, 36, 8, 2 * points).is_err() {\n            return Err(CountsError::Short(format::shapes::Short { at: 36, present: s.len() - 36 }));\n        }'),
    ('a refusal stores a count', 'multipart/src/lib.rt', 'let points = judge::judge_rest(s, layout, said)?;',
     'let points = match judge::judge_rest(s, layout, said) {\n        Ok(points) => points,\n        Err(CountsError::Size(at)) => {\n'
     '            if 0 < counts.len() {\n                counts[0] = 0;\n            }\n            return Err(BodyError::Size(at));\n        }\n'
     '        Err(e) => return Err(BodyError::from(e)),\n    };'),
    ('counts that fill their store are refused', 'multipart/src/store.rt', '    p <= counts.len()', '    p < counts.len()'),
    ('x that fill their store are refused', 'multipart/src/store.rt', '&& n <= xs.len()', '&& n < xs.len()'),
    ('y that fill their store are refused', 'multipart/src/store.rt', '&& n <= ys.len()', '&& n < ys.len()'),
    ('x and y are stored in each other\'s place', 'multipart/src/store.rt', '        xs[i] = x;\n        ys[i] = y;\n', '        xs[i] = y;\n        ys[i] = x;\n'),
    ('one m too many is stored', 'multipart/src/store.rt', '        let values = &mut ms[..n];\n',
     '        let more = n < ms.len() && at + 24 + 8 * n <= s.len();\n        let values = &mut ms[..n + usize::from(more)];\n'),
    ('a negative file length is 3 at 28', 'header/src/lib.rt', 'return Err(HeaderError::Size(24));', 'return Err(HeaderError::Size(28));'),
    ('there is no kind 31', 'format/src/kinds.rt', 'KINDS.iter().position', 'KINDS[..13].iter().position'),
    ('the version is written high byte first', 'header/src/lib.rt', 'fields::put_le_i32(&mut out, 28, h.version);', 'fields::put_be_i32(&mut out, 28, h.version);'),
    ('a record number is read low byte first', 'header/src/entries.rt', 'record_number: checked::be_i32(s, 0)?,', 'record_number: checked::le_i32(s, 0)?,'),
    ('an index entry with its numbers exchanged', 'header/src/entries.rt', 'two_bytes(e.offset.0, e.content_length.0)',
     'two_bytes(e.content_length.0, e.offset.0)'),
    ('a body that fills its output is refused', 'layouts/src/judge.rt', 'if room < size {', 'if room <= size {'),
    ('a byte is written behind a body', 'layouts/src/lib.rt', '    puts::put_body(out, layout, bbox, t);\n',
     '    puts::put_body(out, layout, bbox, t);\n    if size < out.len() {\n        out[size] = 0;\n    }\n'),
    ('x and y are written in each other\'s place', 'layouts/src/puts.rt', 'out, at + 16 * i, *x);\n        fields::put_le_f64(out, at + 16 * i + 8, *y);',
     'out, at + 16 * i, *y);\n        fields::put_le_f64(out, at + 16 * i + 8, *x);'),
    ('the starts are ends', 'layouts/src/puts.rt', '        fields::put_le(out, at + 4 * i, start, 4);\n        start += u64::from(*count);\n',
     '        start += u64::from(*count);\n        fields::put_le(out, at + 4 * i, start, 4);\n'),
    ('a multipoint has room for a count of parts', 'layouts/src/judge.rt', 'if parts { 40 + 4 * p } else { 36 }', 'if parts { 40 + 4 * p } else { 40 }'),
    ('a multipoint takes 2 words more', 'format/src/lengths.rt', 'given(in_parts, PARTS_COUNT) + POINTS_COUNT', 'given(true, PARTS_COUNT) + POINTS_COUNT'),
    ('the .shx is one entry too long', 'writer/src/states.rt', '(50 + 4 * (natural(number) - 1)) as i32', '(50 + 4 * natural(number)) as i32'),
    ('an index entry is 4 words off', 'writer/src/lib.rt', 'record::put_two(entry, state.words.0, judged.content);',
     'record::put_two(entry, state.words.0 + 4, judged.content);'),
    ('an entry that fills its buffer is refused', 'writer/src/judge.rt', 'if space.entry < 8 {', 'if space.entry <= 8 {'),
    ('a point has its x twice', 'writer/src/record.rt', 'fields::write_doubles(out, 8, t.ys);', 'fields::write_doubles(out, 8, t.xs);'),
    ('the record number stays', 'writer/src/record.rt', 'let next = natural(number) + 1;', 'let next = natural(number);'),
    ('f64_min with its arguments exchanged', 'boxes/src/lib.rt', 'if fields::below(a, b) { a } else { b }', 'if fields::below(b, a) { b } else { a }'),
]


def wrong_cases(work, path, old, new):
    """What the program says of the fixed list over the crates with one text exchanged; None where it says that all is well."""
    shutil.copytree(os.path.join(ROOT, 'crates'), os.path.join(work, 'crates'), ignore=shutil.ignore_patterns('out'))
    shutil.copy(os.path.join(ROOT, 'crates.txt'), work)
    path = os.path.join(work, 'crates', path)
    text = open(path).read()
    if text.count(old) != 1:
        sys.exit(f'{path}: {text.count(old)} times, and not once: {old}')
    open(path, 'w').write(text.replace(old, new))
    replay = os.path.join(work, 'crates', 'replay')
    with open(os.path.join(replay, 'stdin')) as cases:
        said = subprocess.run(['rt', 'try'], cwd=replay, stdin=cases, stdout=subprocess.PIPE, stderr=subprocess.DEVNULL, text=True, errors='replace')
    found = re.search(r'^cases=\d+ wrong=([1-9]\d*) first=\d+ broken=0$', said.stdout, re.MULTILINE)
    return found and found.group(1)


missed = 0
for name, *change in VARIANTS:
    with tempfile.TemporaryDirectory() as work:
        wrong = wrong_cases(work, *change)
    missed += wrong is None
    print(f'| {name} | {wrong or "NOT FOUND"} |', flush=True)
sys.exit(missed != 0)

#!/usr/bin/env python3
"""Makes the pairs that the program `pairs` is run on: crates/pairs/data, args and stdout; and why, what `plan check --why` has to print.

Each case is a .shp and a .shx with the line that the checker has to print for it, written here by hand from the rules
P1 to P17, and for a no the line that says why. The files are packed field by field after ESRI's paper; nothing of the library is used.
"""
import os
import shutil
import struct
import sys

KINDS = (0, 1, 21, 11, 3, 23, 13, 5, 25, 15, 8, 28, 18)
NAMES = {3: "Polyline", 8: "Multipoint", 28: "MultipointM", 18: "MultipointZ"}
LINE, RING, SET = {3, 13, 23}, {5, 15, 25}, {8, 28, 18}
HAS_Z, HAS_M = {11, 13, 15, 18}, {11, 13, 15, 18, 21, 23, 25, 28}
NAN, INF = float("nan"), float("inf")


def big(*ns):
    return b"".join(struct.pack(">I", n & 0xFFFFFFFF) for n in ns)


def little(*ns):
    return b"".join(struct.pack("<I", n & 0xFFFFFFFF) for n in ns)


def doubles(*ds):
    return struct.pack("<%dd" % len(ds), *ds)


def header(words, kind, box=(0.0, 0.0, 9.0, 9.0, 0.0, 0.0, 0.0, 0.0), code=9994, unused=b"\0" * 20, version=1000):
    return big(code) + unused + big(words) + little(version, kind) + doubles(*box)


def point(kind, x=1.0, y=2.0, z=3.0, m=4.0):
    body = doubles(x, y)
    if kind in HAS_Z:
        body += doubles(z)
    if kind in HAS_M:
        body += doubles(m)
    return little(kind) + body


def parted(kind, parts, z=5.0, m=6.0, with_m=True, box=(0.0, 0.0, 9.0, 9.0), starts=None, p=None, n=None):
    """A shape with parts, each a list of (x, y)."""
    flat = [c for part in parts for c in part]
    if starts is None:
        starts, at = [], 0
        for part in parts:
            starts.append(at)
            at += len(part)
    body = doubles(*box) + little(len(parts) if p is None else p, len(flat) if n is None else n) + little(*starts)
    body += doubles(*[c for xy in flat for c in xy])
    if kind in HAS_Z:
        body += doubles(0.0, 9.0) + doubles(*[z] * len(flat))
    if kind in HAS_M and with_m:
        body += doubles(0.0, 9.0) + doubles(*[m] * len(flat))
    return little(kind) + body


def multipoint(kind, points, z=5.0, m=6.0, with_m=True, box=(0.0, 0.0, 9.0, 9.0), z_range=(0.0, 9.0), m_range=(0.0, 9.0), n=None):
    """A set of points, a list of (x, y)."""
    body = doubles(*box) + little(len(points) if n is None else n) + doubles(*[c for xy in points for c in xy])
    if kind in HAS_Z:
        body += doubles(*z_range) + doubles(*[z] * len(points))
    if kind in HAS_M and with_m:
        body += doubles(*m_range) + doubles(*[m] * len(points))
    return little(kind) + body


def pair(kind, contents, shp_head=None, shx_head=None, numbers=None, entries=None, words=None, tail=b"", index_tail=b"", **head):
    """The two files of these contents, each part of which a case may put in wrong."""
    records, index, at = b"", [], 50
    for k, content in enumerate(contents):
        length = len(content) // 2 if words is None else words[k]
        records += big(k + 1 if numbers is None else numbers[k], length) + content
        index.append((at, length))
        at += 4 + len(content) // 2
    if entries is not None:
        index = entries(index)
    shx = b"".join(big(o, w) for o, w in index) + index_tail
    records += tail
    shp_head = shp_head or header(50 + len(records) // 2, kind, **head)
    shx_head = shx_head or header(50 + len(shx) // 2, kind, **head)
    return shp_head + records, shx_head + shx


SEGMENT = [(0.0, 0.0), (1.0, 1.0)]
BEND = [(2.0, 0.0), (3.0, 1.0), (4.0, 0.0)]
SQUARE = [(0.0, 0.0), (0.0, 1.0), (1.0, 1.0), (1.0, 0.0), (0.0, 0.0)]
TRIANGLE = [(5.0, 5.0), (5.0, 6.0), (6.0, 5.0), (5.0, 5.0)]


NULL = little(0)


def good(kind):
    """Two records of a kind, with the counts of both together."""
    if kind == 0:
        return [NULL, NULL], 0, 0
    if kind in (1, 11, 21):
        return [point(kind), point(kind, x=-0.0)], 0, 2
    if kind in SET:
        return [multipoint(kind, BEND), multipoint(kind, [(1.0, 2.0)])], 0, 4
    if kind in LINE:
        return [parted(kind, [SEGMENT, BEND]), parted(kind, [BEND])], 3, 8
    return [parted(kind, [SQUARE, TRIANGLE]), parted(kind, [TRIANGLE])], 3, 13


def another_length(kind, words, n):
    """What is said of a multipoint of n points whose content has another number of words than it should."""
    without = 20 + 8 * n + (8 + 4 * n if kind in HAS_Z else 0)
    with_m = ", or %d with m" % (without + 8 + 4 * n) if kind in HAS_M else ""
    return "%d words; a %s of %d point%s has %d%s" % (words, NAMES[kind], n, "" if n == 1 else "s", without, with_m)


def exchange(index):
    index[0], index[1] = index[1], index[0]
    return index


def cases():
    two = [parted(3, [SEGMENT]), parted(3, [BEND])]
    # the fault that the library is for
    yield "exchanged", pair(3, two, entries=exchange), "no rule=P11 record=1", \
        "record 1: the index says byte 188, the record stands at byte 100"
    same = [parted(3, [SEGMENT]), parted(3, [SEGMENT]), parted(3, [SEGMENT])]
    yield "exchanged_same_length", pair(3, same, entries=lambda i: [i[0], i[2], i[1]]), "no rule=P11 record=2", \
        "record 2: the index says byte 276, the record stands at byte 188"
    # one good pair for each kind, and an empty one
    for kind in KINDS:
        contents, parts, points = good(kind)
        yield "good_%d" % kind, pair(kind, contents), "yes records=2 parts=%d points=%d" % (parts, points)
        yield "empty_%d" % kind, pair(kind, []), "yes records=0 parts=0 points=0"
    # empty places: a shelf run that was taken down; Null records first, in the middle, last and alone in a file of each kind; and several
    yield "taken_down", pair(3, [parted(3, [SEGMENT]), NULL]), "yes records=2 parts=1 points=2"
    for kind in KINDS:
        (one, other), parts, points = good(kind)
        for place, contents in (("first", [NULL, one, other]), ("middle", [one, NULL, other]), ("last", [one, other, NULL])):
            if kind != 0:
                yield "null_%s_%d" % (place, kind), pair(kind, contents), "yes records=3 parts=%d points=%d" % (parts, points)
        yield "null_alone_%d" % kind, pair(kind, [NULL]), "yes records=1 parts=0 points=0"
    several = [NULL, NULL, parted(15, [SQUARE]), NULL, parted(15, [SQUARE, TRIANGLE], with_m=False), NULL, NULL]
    yield "null_several", pair(15, several), "yes records=7 parts=3 points=14"
    for kind in (23, 13, 25, 15):
        run = [SEGMENT] if kind in LINE else [SQUARE]
        n = len(run[0])
        both = [parted(kind, run, with_m=False), parted(kind, run)]
        yield "lacks_m_%d" % kind, pair(kind, both), "yes records=2 parts=2 points=%d" % (2 * n)
    for kind in (28, 18):
        both = [multipoint(kind, SEGMENT, with_m=False), NULL, multipoint(kind, SEGMENT)]
        yield "lacks_m_%d" % kind, pair(kind, both), "yes records=3 parts=0 points=4"
    # the points of a set may be equal, in any order, and outside of its box
    yield "multipoint_any", pair(8, [multipoint(8, [(7.0, 7.0), (-0.0, 0.0), (7.0, 7.0), (99.0, -99.0)])]), "yes records=1 parts=0 points=4"
    # -0.0 and 0.0 are one number: the ring is closed
    ring = [(0.0, 0.0), (0.0, 1.0), (1.0, 1.0), (-0.0, 0.0)]
    yield "closed_by_zeros", pair(5, [parted(5, [ring])]), "yes records=1 parts=1 points=4"

    shp, shx = pair(3, [parted(3, [SEGMENT])])
    # record 0
    yield "P1_cut", (shp[:99], shx), "no rule=P1 record=0", \
        "the .shp has 99 bytes; a header has 100"
    yield "P1_nothing", (b"", b""), "no rule=P1 record=0", \
        "the .shp has 0 bytes; a header has 100"
    yield "P2_cut", (shp, shx[:99]), "no rule=P2 record=0", \
        "the .shx has 99 bytes; a header has 100"
    yield "P3_code", (big(9995) + shp[4:], shx), "no rule=P3 record=0", \
        "the file code of the .shp is 9995; it should be 9994"
    yield "P3_unused", (shp[:23] + b"\1" + shp[24:], shx), "no rule=P3 record=0", \
        "byte 23 of the .shp is 1; bytes 4 to 23 should be 0"
    yield "P3_version", (shp[:28] + little(1001) + shp[32:], shx), "no rule=P3 record=0", \
        "the version of the .shp is 1001; it should be 1000"
    for kind in (2, 31, -1):
        ends = ", a Multipatch, which is not taken" if kind == 31 else "; there is no such kind"
        yield "P4_%s" % str(kind).replace("-", "minus"), pair(kind, []), "no rule=P4 record=0", "the header's kind is %d%s" % (kind, ends)
    yield "P5_long", (shp[:24] + big(95) + shp[28:], shx), "no rule=P5 record=0", \
        "the header of the .shp says 95 words, which is 190 bytes; the file has 188 bytes"
    yield "P5_negative", (shp[:24] + big(-1) + shp[28:], shx), "no rule=P5 record=0", \
        "the header of the .shp says -1 words, which is -2 bytes; the file has 188 bytes"
    yield "P5_odd", (shp + b"\0", shx), "no rule=P5 record=0", \
        "the header of the .shp says 94 words, which is 188 bytes; the file has 189 bytes"
    for i, name in enumerate(("Xmin", "Ymin", "Xmax", "Ymax", "Zmin", "Zmax", "Mmin", "Mmax")):
        box = [0.0] * 8
        box[i] = (NAN, INF, -INF)[i % 3]
        yield "P6_%s" % name.lower(), pair(3, [parted(3, [SEGMENT])], box=tuple(box)), "no rule=P6 record=0", \
            "%s of the header is %s; it should be finite" % (name, ("NaN", "inf", "-inf")[i % 3])
    yield "P7_code", (shp, big(9995) + shx[4:]), "no rule=P7 record=0", \
        "byte 3 of the .shx (the file code) is 11; that of the .shp is 10"
    yield "P7_kind", (shp, shx[:32] + little(5) + shx[36:]), "no rule=P7 record=0", \
        "byte 32 of the .shx (the kind) is 5; that of the .shp is 3"
    yield "P7_last_byte", (shp, shx[:99] + b"\1" + shx[100:]), "no rule=P7 record=0", \
        "byte 99 of the .shx (Mmax) is 1; that of the .shp is 0"
    yield "P8_length", (shp, shx[:24] + big(55) + shx[28:]), "no rule=P8 record=0", \
        "the header of the .shx says 55 words, which is 110 bytes; the file has 108 bytes"
    yield "P8_half_entry", (shp, header(56, 3) + shx[100:] + big(94)), "no rule=P8 record=0", \
        "12 bytes behind the header of the .shx; an entry has 8 bytes"
    # records
    yield "P9_number", pair(3, two, numbers=[1, 1]), "no rule=P9 record=2", \
        "record 2: its number is 1; it should be 2"
    yield "P9_from_0", pair(3, two, numbers=[0, 1]), "no rule=P9 record=1", \
        "record 1: its number is 0; it should be 1"
    yield "P9_stump", pair(3, [parted(3, [SEGMENT])], tail=b"\0" * 6), "no rule=P9 record=2", \
        "record 2: 6 bytes left at byte 188; a record's header has 8"
    yield "P10_short", pair(3, [little(3)[:2]]), "no rule=P10 record=1", \
        "record 1: its length is 1 word; it should be at least 2"
    yield "P10_null_short", pair(3, [parted(3, [SEGMENT]), NULL[:2]]), "no rule=P10 record=2", \
        "record 2: its length is 1 word; it should be at least 2"
    yield "P10_past", pair(3, two, words=[40, 49]), "no rule=P10 record=2", \
        "record 2: its length is 49 words, which is 98 bytes; the file has 96 bytes left"
    yield "P10_negative", pair(3, [parted(3, [SEGMENT])], words=[-40]), "no rule=P10 record=1", \
        "record 1: its length is -40 words; it should be at least 2"
    cut = [multipoint(8, BEND), multipoint(8, BEND)[:-16]]
    yield "P10_multipoint_cut", pair(8, cut, words=[44, 44]), "no rule=P10 record=2", \
        "record 2: its length is 44 words, which is 88 bytes; the file has 72 bytes left"
    yield "P11_missing", pair(3, two, entries=lambda i: i[:1]), "no rule=P11 record=2", \
        "record 2: the index has 1 entry, and none for this record"
    yield "P11_offset", pair(3, two, entries=lambda i: [i[0], (i[1][0] + 1, i[1][1])]), "no rule=P11 record=2", \
        "record 2: the index says byte 190, the record stands at byte 188"
    yield "P11_length", pair(3, two, entries=lambda i: [(i[0][0], i[0][1] + 1), i[1]]), "no rule=P11 record=1", \
        "record 1: the index says 41 words, the record's header says 40"
    with_null = [parted(3, [SEGMENT]), NULL, parted(3, [BEND])]
    yield "P11_null_exchanged", pair(3, with_null, entries=exchange), "no rule=P11 record=1", \
        "record 1: the index says byte 188, the record stands at byte 100"
    yield "P11_nulls_exchanged", pair(3, [NULL, NULL, parted(3, [SEGMENT])], entries=exchange), "no rule=P11 record=1", \
        "record 1: the index says byte 112, the record stands at byte 100"
    yield "P11_null_missing", pair(3, with_null, entries=lambda i: [i[0], i[2]]), "no rule=P11 record=2", \
        "record 2: the index says byte 200, the record stands at byte 188"
    yield "P11_null_length", pair(3, with_null, entries=lambda i: [i[0], (i[1][0], 0), i[2]]), "no rule=P11 record=2", \
        "record 2: the index says 0 words, the record's header says 2"
    for kind in (8, 28, 18):
        drops = [multipoint(kind, BEND), NULL, multipoint(kind, [(1.0, 2.0)])]
        at, last = 100 + 8 + len(drops[0]), 100 + 8 + len(drops[0]) + 12
        yield "P11_multipoint_exchanged_%d" % kind, pair(kind, drops, entries=lambda i: [i[0], i[2], i[1]]), "no rule=P11 record=2", \
            "record 2: the index says byte %d, the record stands at byte %d" % (last, at)
    yield "P12_other", pair(3, [parted(3, [SEGMENT]), parted(5, [SQUARE])]), "no rule=P12 record=2", \
        "record 2: its kind is 5, a Polygon; the header's is 3, a Polyline"
    yield "P12_behind_null", pair(3, [parted(3, [SEGMENT]), NULL, parted(5, [SQUARE])]), "no rule=P12 record=3", \
        "record 3: its kind is 5, a Polygon; the header's is 3, a Polyline"
    yield "P12_in_null", pair(0, [NULL, parted(3, [SEGMENT])]), "no rule=P12 record=2", \
        "record 2: its kind is 3, a Polyline; the header's is 0, a Null"
    yield "P12_low_byte_0", pair(3, [little(256) + parted(3, [SEGMENT])[4:]]), "no rule=P12 record=1", \
        "record 1: its kind is 256, which is no kind; the header's is 3, a Polyline"
    for kind in (8, 28, 18):
        yield "P12_line_in_%d" % kind, pair(kind, [multipoint(kind, BEND), parted(3, [SEGMENT])]), "no rule=P12 record=2", \
            "record 2: its kind is 3, a Polyline; the header's is %d, a %s" % (kind, NAMES[kind])
    for header_kind, kind in ((3, 8), (8, 28), (28, 18), (18, 8)):
        yield "P12_%d_in_%d" % (kind, header_kind), pair(header_kind, [NULL, multipoint(kind, BEND)]), "no rule=P12 record=2", \
            "record 2: its kind is %d, a %s; the header's is %d, a %s" % (kind, NAMES[kind], header_kind, NAMES[header_kind])
    yield "P13_null_long", pair(0, [little(0, 0)]), "no rule=P13 record=1", \
        "record 1: 4 words; a Null has 2"
    yield "P13_null_of_3", pair(3, [parted(3, [SEGMENT]), NULL + b"\0\0"]), "no rule=P13 record=2", \
        "record 2: 3 words; a Null has 2"
    yield "P13_null_as_point", pair(1, [NULL + point(1)[4:]]), "no rule=P13 record=1", \
        "record 1: 10 words; a Null has 2"
    yield "P13_null_as_line", pair(3, [NULL + parted(3, [SEGMENT])[4:]]), "no rule=P13 record=1", \
        "record 1: 40 words; a Null has 2"
    yield "P13_null_p_negative", pair(3, [NULL + parted(3, [SEGMENT], p=-1)[4:]]), "no rule=P13 record=1", \
        "record 1: 40 words; a Null has 2"
    yield "P13_point_of_2", pair(1, [point(1)[:4]]), "no rule=P13 record=1", \
        "record 1: 2 words; a Point has 10"
    yield "P13_point_long", pair(1, [point(1) + doubles(0.0)]), "no rule=P13 record=1", \
        "record 1: 14 words; a Point has 10"
    yield "P13_no_counts", pair(3, [little(3)]), "no rule=P13 record=1", \
        "record 1: 2 words; a Polyline has at least 22"
    yield "P13_p_negative", pair(3, [parted(3, [SEGMENT], p=-1)]), "no rule=P13 record=1", \
        "record 1: its number of parts is -1; it should not be below 0"
    yield "P13_n_negative", pair(3, [parted(3, [SEGMENT], n=-2)]), "no rule=P13 record=1", \
        "record 1: its number of points is -2; it should not be below 0"
    yield "P13_length", pair(3, [parted(3, [SEGMENT]) + little(0)]), "no rule=P13 record=1", \
        "record 1: 42 words; a Polyline of 1 part and 2 points has 40"
    yield "P13_m_of_none", pair(3, [parted(3, [SEGMENT]) + doubles(0.0, 0.0, 0.0, 0.0)]), "no rule=P13 record=1", \
        "record 1: 56 words; a Polyline of 1 part and 2 points has 40"
    for kind in (8, 28, 18):
        some = multipoint(kind, BEND)
        least = 28 if kind in HAS_Z else 20
        yield "P13_multipoint_no_count_%d" % kind, pair(kind, [some[:38]]), "no rule=P13 record=1", \
            "record 1: 19 words; a %s has at least %d" % (NAMES[kind], least)
        yield "P13_multipoint_n_negative_%d" % kind, pair(kind, [multipoint(kind, BEND, n=-1)]), "no rule=P13 record=1", \
            "record 1: its number of points is -1; it should not be below 0"
        yield "P13_multipoint_one_more_%d" % kind, pair(kind, [multipoint(kind, BEND, n=4)]), "no rule=P13 record=1", \
            "record 1: " + another_length(kind, len(some) // 2, 4)
        yield "P13_multipoint_most_%d" % kind, pair(kind, [multipoint(kind, BEND, n=0x7FFFFFFF)]), "no rule=P13 record=1", \
            "record 1: " + another_length(kind, len(some) // 2, 0x7FFFFFFF)
        yield "P13_multipoint_long_%d" % kind, pair(kind, [some + little(0)]), "no rule=P13 record=1", \
            "record 1: " + another_length(kind, len(some) // 2 + 2, 3)
        # the counts and the start of a line: that of its parts stands where a multipoint has that of its points
        yield "P13_multipoint_as_line_%d" % kind, pair(kind, [little(kind) + parted(3, [BEND])[4:]]), "no rule=P13 record=1", \
            "record 1: " + another_length(kind, 48, 1)
    yield "P13_multipoint_kind_alone", pair(18, [little(18)]), "no rule=P13 record=1", \
        "record 1: 2 words; a MultipointZ has at least 28"
    yield "P13_multipoint_m_of_none", pair(8, [multipoint(8, BEND) + doubles(0.0, 9.0, 6.0, 6.0, 6.0)]), "no rule=P13 record=1", \
        "record 1: 64 words; a Multipoint of 3 points has 44"
    yield "P13_multipoint_z_lacks", pair(18, [little(18) + multipoint(8, BEND)[4:]]), "no rule=P13 record=1", \
        "record 1: 44 words; a MultipointZ of 3 points has 64, or 84 with m"
    yield "P13_line_as_multipoint", pair(3, [little(3) + multipoint(8, BEND)[4:]]), "no rule=P13 record=1", \
        "record 1: 44 words; a Polyline of 3 parts and 0 points has 28"
    yield "P14_no_part", pair(3, [parted(3, [])]), "no rule=P14 record=1", \
        "record 1: 0 parts; a Polyline has at least 1"
    yield "P14_start", pair(3, [parted(3, [BEND], starts=[1])]), "no rule=P14 record=1", \
        "record 1: its first part starts at point 1; it should start at point 0"
    yield "P14_one_point", pair(3, [parted(3, [SEGMENT, [(1.0, 1.0)]])]), "no rule=P14 record=1", \
        "record 1: part 2 has 1 point, from 2 to 3; a Polyline's has at least 2"
    yield "P14_first_one_point", pair(3, [parted(3, [[(1.0, 1.0)], SEGMENT])]), "no rule=P14 record=1", \
        "record 1: part 1 has 1 point, from 0 to 1; a Polyline's has at least 2"
    yield "P14_falls", pair(3, [parted(3, [SEGMENT, SEGMENT, SEGMENT], starts=[0, 4, 2])]), "no rule=P14 record=1", \
        "record 1: part 2 has -2 points, from 4 to 2; a Polyline's has at least 2"
    yield "P14_negative", pair(3, [parted(3, [SEGMENT, SEGMENT], starts=[0, -2])]), "no rule=P14 record=1", \
        "record 1: part 1 has -2 points, from 0 to -2; a Polyline's has at least 2"
    yield "P14_ring_of_3", pair(5, [parted(5, [SQUARE, [(0.0, 0.0), (1.0, 1.0), (0.0, 0.0)]])]), "no rule=P14 record=1", \
        "record 1: part 2 has 3 points, from 5 to 8; a Polygon's has at least 4"
    yield "P14_behind_null", pair(3, [NULL, parted(3, [])]), "no rule=P14 record=2", \
        "record 2: 0 parts; a Polyline has at least 1"
    for kind in (8, 28, 18):
        for name, with_m in (("", True), ("_without_m", False)):
            if with_m or kind != 8:
                yield "P14_multipoint_%d%s" % (kind, name), pair(kind, [multipoint(kind, [], with_m=with_m)]), "no rule=P14 record=1", \
                    "record 1: 0 points; a %s has at least 1" % NAMES[kind]
    yield "P14_multipoint_behind_null", pair(8, [multipoint(8, BEND), NULL, multipoint(8, [])]), "no rule=P14 record=3", \
        "record 3: 0 points; a Multipoint has at least 1"
    open_ring = [(0.0, 0.0), (0.0, 1.0), (1.0, 1.0), (1.0, 0.0)]
    yield "P15_open", pair(5, [parted(5, [open_ring])]), "no rule=P15 record=1", \
        "record 1: ring 1 begins at (0, 0) and ends at (1, 0); it should end where it begins"
    yield "P15_last_open", pair(15, [parted(15, [SQUARE]), parted(15, [SQUARE, open_ring])]), "no rule=P15 record=2", \
        "record 2: ring 2 begins at (0, 0) and ends at (1, 0); it should end where it begins"
    yield "P15_y_only", pair(5, [parted(5, [[(0.0, 0.0), (0.0, 1.0), (1.0, 1.0), (0.0, 2.0)]])]), "no rule=P15 record=1", \
        "record 1: ring 1 begins at (0, 0) and ends at (0, 2); it should end where it begins"
    yield "P15_behind_null", pair(5, [NULL, parted(5, [open_ring]), NULL]), "no rule=P15 record=2", \
        "record 2: ring 1 begins at (0, 0) and ends at (1, 0); it should end where it begins"
    nan_ring = [(NAN, 0.0), (0.0, 1.0), (1.0, 1.0), (NAN, 0.0)]
    yield "P15_nan", pair(5, [parted(5, [nan_ring])]), "no rule=P15 record=1", \
        "record 1: ring 1 begins at (NaN, 0) and ends at (NaN, 0); NaN equals nothing"
    yield "P16_point", pair(1, [point(1), point(1, y=INF)]), "no rule=P16 record=2", \
        "record 2: y of point 1 is inf; it should be finite"
    yield "P16_point_m", pair(21, [point(21, m=NAN)]), "no rule=P16 record=1", \
        "record 1: m of point 1 is NaN; it should be finite"
    yield "P16_box", pair(3, [parted(3, [SEGMENT], box=(0.0, 0.0, NAN, 0.0))]), "no rule=P16 record=1", \
        "record 1: Xmax of its box is NaN; it should be finite"
    yield "P16_x", pair(3, [parted(3, [[(0.0, 0.0), (NAN, 1.0)]])]), "no rule=P16 record=1", \
        "record 1: x of point 2 is NaN; it should be finite"
    yield "P16_z", pair(13, [parted(13, [SEGMENT], z=-INF)]), "no rule=P16 record=1", \
        "record 1: z of point 1 is -inf; it should be finite"
    yield "P16_m", pair(23, [parted(23, [SEGMENT], m=NAN)]), "no rule=P16 record=1", \
        "record 1: m of point 1 is NaN; it should be finite"
    inf_ring = [(INF, 0.0), (0.0, 1.0), (1.0, 1.0), (INF, 0.0)]
    yield "P16_ring", pair(5, [parted(5, [inf_ring])]), "no rule=P16 record=1", \
        "record 1: x of point 1 is inf; it should be finite"
    yield "P16_behind_null", pair(11, [NULL, point(11, z=NAN)]), "no rule=P16 record=2", \
        "record 2: z of point 1 is NaN; it should be finite"
    for kind in (8, 28, 18):
        yield "P16_multipoint_box_%d" % kind, pair(kind, [multipoint(kind, BEND, box=(0.0, 0.0, 0.0, NAN))]), "no rule=P16 record=1", \
            "record 1: Ymax of its box is NaN; it should be finite"
        yield "P16_multipoint_x_%d" % kind, pair(kind, [multipoint(kind, [(NAN, 0.0), (1.0, 1.0)])]), "no rule=P16 record=1", \
            "record 1: x of point 1 is NaN; it should be finite"
        yield "P16_multipoint_y_%d" % kind, pair(kind, [NULL, multipoint(kind, [(0.0, 0.0), (1.0, INF)])]), "no rule=P16 record=2", \
            "record 2: y of point 2 is inf; it should be finite"
    yield "P16_multipoint_z_range", pair(18, [multipoint(18, BEND, with_m=False, z_range=(NAN, 9.0))]), "no rule=P16 record=1", \
        "record 1: Zmin of its range is NaN; it should be finite"
    for name, with_m in (("", True), ("_without_m", False)):
        yield "P16_multipoint_z%s" % name, pair(18, [multipoint(18, BEND, with_m=with_m, z=-INF)]), "no rule=P16 record=1", \
            "record 1: z of point 1 is -inf; it should be finite"
    for kind in (28, 18):
        yield "P16_multipoint_m_range_%d" % kind, pair(kind, [multipoint(kind, BEND, m_range=(0.0, INF))]), "no rule=P16 record=1", \
            "record 1: Mmax of its range is inf; it should be finite"
        yield "P16_multipoint_m_%d" % kind, pair(kind, [multipoint(kind, BEND, m=NAN)]), "no rule=P16 record=1", \
            "record 1: m of point 1 is NaN; it should be finite"
        # of its last double
        last = multipoint(kind, BEND)[:-8] + doubles(NAN)
        yield "P16_multipoint_last_%d" % kind, pair(kind, [last]), "no rule=P16 record=1", \
            "record 1: m of point 3 is NaN; it should be finite"
    yield "P17_left", pair(3, two, entries=lambda i: i + [(200, 40)]), "no rule=P17 record=3", \
        "record 3: the index has 3 entries, the .shp has 2 records"
    yield "P17_of_none", pair(3, [], entries=lambda i: [(50, 40)]), "no rule=P17 record=1", \
        "record 1: the index has 1 entry, the .shp has 0 records"
    yield "P17_behind_null", pair(3, [NULL], entries=lambda i: i + [(56, 2)]), "no rule=P17 record=2", \
        "record 2: the index has 2 entries, the .shp has 1 record"


def main():
    root = os.path.join(os.path.dirname(os.path.dirname(os.path.abspath(__file__))), "crates", "pairs")
    shutil.rmtree(os.path.join(root, "data"), ignore_errors=True)
    os.makedirs(os.path.join(root, "data"))
    args, lines, reasons = [], [], []
    for name, (shp, shx), *said in cases():
        for ending, data in ((".shp", shp), (".shx", shx)):
            with open(os.path.join(root, "data", name + ending), "wb") as f:
                f.write(data)
        args += [name + ".shp", name + ".shx"]
        lines.append("%s.shp: %s" % (name, said[0]))
        reasons += ["%s.shp: %s" % (name, line) for line in said]
        assert len(said) == (2 if said[0].startswith("no ") else 1), name
    for name, content in (("args", args), ("stdout", lines), ("why", reasons)):
        with open(os.path.join(root, name), "w") as f:
            f.write("".join(line + "\n" for line in content))
    print("%d pairs" % len(lines))


if __name__ == "__main__":
    sys.exit(main())

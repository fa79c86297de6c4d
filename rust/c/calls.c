/* Every call of include/mbenaruul.h from C: that the structs lie as the library has them, what each call gives, and each refusal's number and values.
 * Prints the checks that fail, and a line with their number. */
#include <stdio.h>
#include <string.h>

#include "mbenaruul.h"

static int checks = 0, failed = 0;

static void check(int holds, int line, const char *what) {
    checks++;
    if (!holds) {
        failed++;
        printf("calls.c:%d: %s\n", line, what);
    }
}
#define CHECK(x) check((x), __LINE__, #x)

static int is(mbenaruul_refusal r, uint32_t number, uint64_t first, uint64_t second) {
    return r.number == number && r.first == first && r.second == second;
}

static int same_state(mbenaruul_state a, mbenaruul_state b) {
    return a.words == b.words && a.number == b.number && a.kind == b.kind && a.points == b.points && memcmp(&a.bbox, &b.bbox, sizeof a.bbox) == 0;
}

static uint32_t counts[] = {2};
static double x[] = {1, 3}, y[] = {2, 4}, z[] = {10, 11}, m[] = {20, 21};
static mbenaruul_bbox box = {1, 2, 3, 4, 5, 6, 7, 8};

/* A polyline of two points, with as many y and as much room as is said. */
static mbenaruul_added add(mbenaruul_state s, int32_t code, size_t y_n, uint8_t *out, size_t out_n, uint8_t *entry, size_t entry_n) {
    return mbenaruul_add_record(s, code, box, counts, 1, x, 2, y, y_n, NULL, 0, NULL, 0, out, out_n, 0, entry, entry_n);
}

/* The pair of one polyline of two points: 188 and 108 bytes. */
static mbenaruul_state one_run(uint8_t *shp, uint8_t *shx) {
    mbenaruul_added a = add(mbenaruul_new(), 3, 2, shp + 100, 88, shx + 100, 8);
    mbenaruul_finished f = mbenaruul_finish(a.state);

    CHECK(is(a.refusal, 0, 0, 0) && a.bytes == 88);
    CHECK(a.state.words == 94 && a.state.number == 2 && a.state.kind == 3 && a.state.points == 2);
    CHECK(a.state.bbox.xmin == 1 && a.state.bbox.ymin == 2 && a.state.bbox.xmax == 3 && a.state.bbox.ymax == 4);
    CHECK(a.state.bbox.zmin == 0 && a.state.bbox.zmax == 0 && a.state.bbox.mmin == 0 && a.state.bbox.mmax == 0);
    CHECK(is(f.refusal, 0, 0, 0));
    memcpy(shp, f.shp, 100);
    memcpy(shx, f.shx, 100);
    return a.state;
}

static void pairs(uint8_t *shp, uint8_t *shx) {
    mbenaruul_pair_checked p = mbenaruul_check_pair(shp, 188, shx, 108);

    CHECK(is(p.refusal, 0, 0, 0) && p.totals.records == 1 && p.totals.parts == 1 && p.totals.points == 2);
    p = mbenaruul_check_pair(shp, 187, shx, 108);
    CHECK(is(p.refusal, 8, 5, 0) && p.totals.records == 0 && p.totals.parts == 0 && p.totals.points == 0);
    shx[107] ^= 1;
    CHECK(is(mbenaruul_check_pair(shp, 188, shx, 108).refusal, 8, 11, 1));
    shx[107] ^= 1;
    CHECK(is(mbenaruul_check_pair(shp, 0, shx, 0).refusal, 8, 1, 0));
}

static void heads(uint8_t *shp, const uint8_t *shx) {
    mbenaruul_header_read h = mbenaruul_read_header(shp, 188);
    mbenaruul_record_header_read r = mbenaruul_read_record_header(shp + 100, 8);
    mbenaruul_index_entry_read e = mbenaruul_read_index_entry(shx + 100, 8);

    CHECK(is(h.refusal, 0, 0, 0) && h.header.file_length == 94 && h.header.version == 1000 && h.header.shape_type == 3);
    CHECK(h.header.bbox.xmin == 1 && h.header.bbox.ymin == 2 && h.header.bbox.xmax == 3 && h.header.bbox.ymax == 4 && h.header.bbox.mmax == 0);
    h = mbenaruul_read_header(shp, 27);
    CHECK(is(h.refusal, 1, 24, 3) && h.header.version == 0 && h.header.bbox.xmax == 0);
    shp[0] = 0xff; /* a code below 0 stands as its 32 bits */
    CHECK(is(mbenaruul_read_header(shp, 100).refusal, 2, 0xff00270a, 0));
    shp[0] = 0;
    CHECK(is(r.refusal, 0, 0, 0) && r.header.record_number == 1 && r.header.content_length == 40);
    r = mbenaruul_read_record_header(shp + 100, 7);
    CHECK(is(r.refusal, 1, 4, 3) && r.header.record_number == 0);
    CHECK(is(e.refusal, 0, 0, 0) && e.entry.offset == 50 && e.entry.content_length == 40);
    CHECK(is(mbenaruul_read_index_entry(shx + 100, 3).refusal, 1, 0, 3));
    CHECK(is(mbenaruul_read_index_entry(shx + 100, 4).refusal, 1, 4, 0));
}

static void records(const uint8_t *content) {
    static const uint8_t null[4];
    uint8_t point[36] = {11};
    const double values[] = {1.5, 2.5, 3.5, 4.5};
    uint32_t c[] = {9, 9};
    double xs[] = {9, 9, 9}, ys[] = {9, 9, 9}, zs[] = {9}, ms[] = {9};
    mbenaruul_record_read r = mbenaruul_read_record(content, 80, 80, c, 0, xs, 3, ys, 3, zs, 1, ms, 1);

    CHECK(is(r.refusal, 6, 1, 2) && c[0] == 9 && xs[0] == 9 && ys[0] == 9);
    r = mbenaruul_read_record(content, 80, 80, c, 2, xs, 3, ys, 3, zs, 1, ms, 1);
    CHECK(is(r.refusal, 0, 0, 0) && r.code == 3 && r.form == 2 && r.has_m == 0 && r.body.parts == 1 && r.body.points == 2);
    CHECK(r.body.bbox.xmin == 1 && r.body.bbox.ymin == 2 && r.body.bbox.xmax == 3 && r.body.bbox.ymax == 4 && r.point.x == 0);
    CHECK(c[0] == 2 && c[1] == 9 && xs[0] == 1 && xs[1] == 3 && xs[2] == 9 && ys[0] == 2 && ys[1] == 4 && ys[2] == 9 && zs[0] == 9 && ms[0] == 9);
    r = mbenaruul_read_record_of(5, content, 80, 80, c, 2, xs, 3, ys, 3, zs, 1, ms, 1);
    CHECK(is(r.refusal, 5, 5, 3) && r.code == 0 && r.form == 0);
    CHECK(is(mbenaruul_read_record_of(-1, content, 80, 80, c, 2, xs, 3, ys, 3, zs, 1, ms, 1).refusal, 4, 0xffffffff, 0));
    CHECK(is(mbenaruul_read_record_of(31, content, 80, 80, c, 2, xs, 3, ys, 3, zs, 1, ms, 1).refusal, 9, 31, 0));
    CHECK(is(mbenaruul_read_record_of(8, content, 80, 80, c, 2, xs, 3, ys, 3, zs, 1, ms, 1).refusal, 5, 8, 3));
    CHECK(is(mbenaruul_read_record(content, 80, INT64_MIN, c, 2, xs, 3, ys, 3, zs, 1, ms, 1).refusal, 3, 0, 0));
    CHECK(is(mbenaruul_read_record(content, 80, (INT64_C(1) << 32) + 80, c, 2, xs, 3, ys, 3, zs, 1, ms, 1).refusal, 3, 0, 0));
    memcpy(point + 4, values, 32);
    r = mbenaruul_read_record(point, 36, 36, c, 2, xs, 3, ys, 3, zs, 1, ms, 1);
    CHECK(is(r.refusal, 0, 0, 0) && r.code == 11 && r.form == 1 && r.body.points == 0);
    CHECK(r.point.x == 1.5 && r.point.y == 2.5 && r.point.z == 3.5 && r.point.m == 4.5);
    CHECK(is(mbenaruul_read_record(point, 35, 36, c, 2, xs, 3, ys, 3, zs, 1, ms, 1).refusal, 1, 28, 7));
    CHECK(is(mbenaruul_read_record(content, 38, 80, c, 2, xs, 3, ys, 3, zs, 1, ms, 1).refusal, 1, 36, 2));
    r = mbenaruul_read_record(null, 4, 4, c, 2, xs, 3, ys, 3, zs, 1, ms, 1);
    CHECK(is(r.refusal, 0, 0, 0) && r.code == 0 && r.form == 0);
}

/* The call was refused so, and the state that it was given came back. */
static int gives_back(mbenaruul_added a, mbenaruul_state s, uint32_t number, uint64_t first, uint64_t second) {
    return is(a.refusal, number, first, second) && a.bytes == 0 && same_state(a.state, s);
}

static void refusals_of_adding(mbenaruul_state s) {
    uint8_t out[88] = {0}, entry[8] = {0};
    const uint8_t untouched[88] = {0};
    mbenaruul_state full = s, bad = s;
    mbenaruul_finished f;

    full.words = 0x7ffffff0;
    bad.words = -5;
    CHECK(gives_back(add(bad, 3, 2, out, 88, entry, 8), bad, 3, 0, 0));
    CHECK(gives_back(add(s, 99, 2, out, 88, entry, 8), s, 4, 99, 0));
    CHECK(gives_back(add(s, 31, 2, out, 88, entry, 8), s, 9, 31, 0));
    CHECK(gives_back(add(s, 5, 2, out, 88, entry, 8), s, 5, 3, 5));
    CHECK(gives_back(add(s, 3, 1, out, 88, entry, 8), s, 10, 0, 0));
    CHECK(gives_back(add(full, 3, 2, out, 88, entry, 8), full, 7, 0, 0));
    CHECK(gives_back(add(s, 3, 2, out, 87, entry, 8), s, 6, 88, 0));
    CHECK(gives_back(add(s, 3, 2, out, 88, entry, 7), s, 6, 8, 0));
    CHECK(memcmp(out, untouched, 88) == 0 && memcmp(entry, untouched, 8) == 0);
    f = mbenaruul_finish(bad);
    CHECK(is(f.refusal, 3, 0, 0) && memcmp(f.shp, untouched, 88) == 0 && memcmp(f.shx, untouched, 88) == 0);
}

/* A Null record, with one entry in the table that is named, or in none. */
static mbenaruul_added add_null(mbenaruul_state s, char table, uint8_t *out, size_t out_n, uint8_t *entry, size_t entry_n) {
    return mbenaruul_add_record(s, 0, box, counts, table == 'c', x, table == 'x', y, table == 'y', z, table == 'z', m, table == 'm', out, out_n, 2,
                                entry, entry_n);
}

static mbenaruul_written write_null(mbenaruul_state *s, char table, uint8_t *out, size_t out_n, uint8_t *entry, size_t entry_n) {
    return mbenaruul_write_shape(s, 0, box, counts, table == 'c', x, table == 'x', y, table == 'y', z, table == 'z', m, table == 'm', out, out_n, 2,
                                 entry, entry_n);
}

/* Both calls refuse a Null record so, and leave the state and the room as they were. */
static void refused_null(mbenaruul_state s, char table, size_t out_n, size_t entry_n, uint32_t number, uint64_t first) {
    uint8_t out[15], entry[9], untouched[15];
    mbenaruul_state lent = s;
    mbenaruul_added a;
    mbenaruul_written w;

    memset(out, 0xaa, sizeof out);
    memset(entry, 0xaa, sizeof entry);
    memset(untouched, 0xaa, sizeof untouched);
    a = add_null(s, table, out, out_n, entry, entry_n);
    w = write_null(&lent, table, out, out_n, entry, entry_n);
    CHECK(is(a.refusal, number, first, 0) && a.bytes == 0 && same_state(a.state, s));
    CHECK(is(w.refusal, number, first, 0) && w.bytes == 0 && same_state(lent, s));
    CHECK(memcmp(out, untouched, sizeof out) == 0 && memcmp(entry, untouched, sizeof entry) == 0);
}

/* A Null record behind a polyline of two points, whose state and files are given. */
static void empty_place(mbenaruul_state s, const uint8_t *shp, const uint8_t *shx) {
    static const uint8_t record[] = {0xaa, 0xaa, 0, 0, 0, 2, 0, 0, 0, 2, 0, 0, 0, 0, 0xaa}, place[] = {0, 0, 0, 94, 0, 0, 0, 2, 0xaa};
    static const char tables[] = {'c', 'x', 'y', 'z', 'm'};
    uint8_t a_out[15], b_out[15], a_entry[9], b_entry[9], with_shp[200], with_shx[116];
    mbenaruul_state full = s, bad = s, lent = s, expected = s;
    mbenaruul_added a;
    mbenaruul_written b;
    mbenaruul_finished f;
    mbenaruul_pair_checked p;
    mbenaruul_record_read r;
    size_t k;

    full.words = INT32_MAX - 5;
    bad.words = -5;
    for (k = 0; k < sizeof tables; k++) {
        refused_null(bad, tables[k], 0, 0, 3, 0);
        refused_null(mbenaruul_new(), tables[k], 0, 0, 9, 0);
        refused_null(full, tables[k], 0, 0, 10, 0);
        refused_null(s, tables[k], 14, 8, 10, 0);
    }
    refused_null(mbenaruul_new(), 0, 14, 8, 9, 0);
    refused_null(full, 0, 0, 0, 7, 0);
    refused_null(s, 0, 13, 0, 6, 14);
    refused_null(s, 0, 14, 7, 6, 8);

    memset(a_out, 0xaa, sizeof a_out);
    memset(b_out, 0xaa, sizeof b_out);
    memset(a_entry, 0xaa, sizeof a_entry);
    memset(b_entry, 0xaa, sizeof b_entry);
    a = add_null(s, 0, a_out, sizeof a_out, a_entry, sizeof a_entry);
    b = write_null(&lent, 0, b_out, 14, b_entry, 8);
    expected.words = 100;
    expected.number = 3;
    CHECK(is(a.refusal, 0, 0, 0) && a.bytes == 12 && same_state(a.state, expected));
    CHECK(is(b.refusal, 0, 0, 0) && b.bytes == 12 && same_state(lent, expected));
    CHECK(memcmp(a_out, record, sizeof record) == 0 && memcmp(a_entry, place, sizeof place) == 0);
    CHECK(memcmp(b_out, record, sizeof record) == 0 && memcmp(b_entry, place, sizeof place) == 0);

    f = mbenaruul_finish(lent);
    CHECK(is(f.refusal, 0, 0, 0) && memcmp(f.shp + 32, shp + 32, 68) == 0 && memcmp(f.shx + 32, shx + 32, 68) == 0);
    memcpy(with_shp, f.shp, 100);
    memcpy(with_shp + 100, shp + 100, 88);
    memcpy(with_shp + 188, b_out + 2, 12);
    memcpy(with_shx, f.shx, 100);
    memcpy(with_shx + 100, shx + 100, 8);
    memcpy(with_shx + 108, b_entry, 8);
    p = mbenaruul_check_pair(with_shp, 200, with_shx, 116);
    CHECK(is(p.refusal, 0, 0, 0) && p.totals.records == 2 && p.totals.parts == 1 && p.totals.points == 2);
    r = mbenaruul_read_record(with_shp + 196, 4, 4, NULL, 0, NULL, 0, NULL, 0, NULL, 0, NULL, 0);
    CHECK(is(r.refusal, 0, 0, 0) && r.code == 0 && r.form == 0);
    CHECK(is(mbenaruul_read_record_of(3, with_shp + 196, 4, 4, NULL, 0, NULL, 0, NULL, 0, NULL, 0, NULL, 0).refusal, 5, 3, 0));
    with_shp[196] = 5;
    CHECK(is(mbenaruul_check_pair(with_shp, 200, with_shx, 116).refusal, 8, 12, 2));

    CHECK(is(mbenaruul_add_record(s, 0, box, NULL, 0, NULL, 0, NULL, 0, NULL, 0, NULL, 0, NULL, 0, 100, NULL, 0).refusal, 6, 112, 0));
    CHECK(is(mbenaruul_write_shape(&s, 0, box, NULL, 0, NULL, 0, NULL, 0, NULL, 0, NULL, 0, NULL, 0, SIZE_MAX, NULL, 0).refusal, 6, SIZE_MAX, 0));
}

/* The points so far, of a file of this kind: each record raises them by its points, by value and lent, and a Null record by none; a refused call and
 * finishing halfway keep them. At the end they are those of the pair. */
static void points_so_far(int32_t code, size_t parts, size_t n, size_t z_n, size_t m_n) {
    static const uint32_t c[] = {4, 5};
    static const double o[9];
    static uint8_t shp[1000], shx[132];
    size_t end = 100, k;
    mbenaruul_state given = mbenaruul_new(), lent = given;
    mbenaruul_finished f;
    mbenaruul_pair_checked p;

    for (k = 0; k < 2; k++) {
        uint8_t *entry = shx + 100 + 16 * k;
        uint32_t before = given.points, after = before + (uint32_t)n;
        mbenaruul_added a = mbenaruul_add_record(given, code, box, c, parts, o, n, o, n - 1, o, z_n, o, m_n, shp, 1000, end, entry, 8);
        mbenaruul_written w = mbenaruul_write_shape(&lent, code, box, c, parts, o, n, o, n, o, z_n, o, m_n, shp, end, end, entry, 8);

        CHECK(is(a.refusal, 10, 0, 0) && a.state.points == before && w.refusal.number == 6 && lent.points == before);
        a = mbenaruul_add_record(given, code, box, c, parts, o, n, o, n, o, z_n, o, m_n, shp, 1000, end, entry, 8);
        w = mbenaruul_write_shape(&lent, code, box, c, parts, o, n, o, n, o, z_n, o, m_n, shp, 1000, end, entry, 8);
        CHECK(is(a.refusal, 0, 0, 0) && a.state.points == after && is(w.refusal, 0, 0, 0) && lent.points == after);
        end += w.bytes;
        a = mbenaruul_add_record(a.state, 0, box, NULL, 0, NULL, 0, NULL, 0, NULL, 0, NULL, 0, shp, 1000, end, entry + 8, 8);
        w = mbenaruul_write_shape(&lent, 0, box, NULL, 0, NULL, 0, NULL, 0, NULL, 0, NULL, 0, shp, 1000, end, entry + 8, 8);
        CHECK(is(a.refusal, 0, 0, 0) && a.state.points == after && is(w.refusal, 0, 0, 0) && lent.points == after);
        end += w.bytes;
        given = a.state;
        f = mbenaruul_finish(given);
        CHECK(is(f.refusal, 0, 0, 0) && given.points == after && same_state(given, lent));
    }
    memcpy(shp, f.shp, 100);
    memcpy(shx, f.shx, 100);
    p = mbenaruul_check_pair(shp, end, shx, 132);
    CHECK(is(p.refusal, 0, 0, 0) && p.totals.records == 4 && p.totals.points == lent.points && lent.points == 2 * n);
}

static void points_of_every_kind(void) {
    int32_t flags; /* 0: no more than x and y, 1: z and m, 2: m */

    for (flags = 0; flags < 3; flags++) {
        size_t z_too = flags == 1, m_too = flags > 0;

        points_so_far(10 * flags + 1, 0, 1, z_too, m_too);
        points_so_far(10 * flags + 3, 2, 9, 9 * z_too, 9 * m_too);
        points_so_far(10 * flags + 5, 2, 9, 9 * z_too, 9 * m_too);
        points_so_far(10 * flags + 8, 0, 7, 7 * z_too, 7 * m_too);
    }
}

/* A state of polylines with so many points is taken by all three calls, and each record adds its own two. */
static void taken_with(mbenaruul_state s, uint32_t points) {
    uint8_t out[88], entry[8];
    mbenaruul_finished before = mbenaruul_finish(s), f;
    mbenaruul_state lent;
    mbenaruul_added a;
    mbenaruul_written w;

    s.points = points;
    lent = s;
    a = add(s, 3, 2, out, 88, entry, 8);
    w = mbenaruul_write_shape(&lent, 3, box, counts, 1, x, 2, y, 2, NULL, 0, NULL, 0, out, 88, 0, entry, 8);
    f = mbenaruul_finish(s);
    CHECK(is(a.refusal, 0, 0, 0) && a.state.points == points + 2 && is(w.refusal, 0, 0, 0) && same_state(lent, a.state));
    CHECK(is(f.refusal, 0, 0, 0) && memcmp(f.shp, before.shp, 100) == 0 && memcmp(f.shx, before.shx, 100) == 0); /* no header has them */
}

/* With so many points it is refused with 3 by all three, before all else that could be said, and comes back as it was. */
static void refused_with(mbenaruul_state s, uint32_t points) {
    static const uint8_t untouched[100];
    static const int32_t codes[] = {3, 0, 2, 31, 5}; /* its own kind, a Null record with tables, unknown, not taken, another kind */
    uint8_t out[88] = {0}, entry[8] = {0};
    mbenaruul_state lent;
    mbenaruul_finished f;
    size_t k;

    s.points = points;
    lent = s;
    for (k = 0; k < sizeof codes / sizeof *codes; k++) {
        mbenaruul_written w = mbenaruul_write_shape(&lent, codes[k], box, counts, 1, x, 2, y, 2, NULL, 0, NULL, 0, out, 88, 0, entry, 8);

        CHECK(gives_back(add(s, codes[k], 2, out, 88, entry, 8), s, 3, 0, 0));
        CHECK(gives_back(add(s, codes[k], 1, out, 0, entry, 0), s, 3, 0, 0)); /* a y too few, and no room */
        CHECK(is(w.refusal, 3, 0, 0) && w.bytes == 0 && same_state(lent, s));
    }
    CHECK(memcmp(out, untouched, sizeof out) == 0 && memcmp(entry, untouched, sizeof entry) == 0);
    f = mbenaruul_finish(s);
    CHECK(is(f.refusal, 3, 0, 0) && memcmp(f.shp, untouched, 100) == 0 && memcmp(f.shx, untouched, 100) == 0);
}

/* The points of a state of polylines may reach its words, and do not exceed them; those of a fresh one too. */
static void points_and_words(mbenaruul_state s) {
    mbenaruul_state last = s, fresh = mbenaruul_new();

    last.words = INT32_MAX - 44; /* with which one more polyline of two points just fits */
    taken_with(s, 0);
    taken_with(s, 94);
    taken_with(last, INT32_MAX - 44);
    taken_with(fresh, 50);
    refused_with(s, 95);
    refused_with(s, (uint32_t)INT32_MAX + 1);
    refused_with(s, UINT32_MAX);
    refused_with(last, INT32_MAX - 43);
    refused_with(last, UINT32_MAX);
    refused_with(fresh, 51);
    refused_with(fresh, UINT32_MAX);
}

/* The state by value and the state lent come to the same. */
static void write_both_ways(void) {
    uint8_t a_out[400], b_out[400], a_entry[8], b_entry[8];
    mbenaruul_state lent = mbenaruul_new(), given = mbenaruul_new(), before;
    mbenaruul_added a;
    mbenaruul_written b;
    size_t start = 5;
    int k;

    memset(a_out, 0xaa, sizeof a_out);
    memset(b_out, 0xaa, sizeof b_out);
    for (k = 1; k <= 2; k++) {
        a = mbenaruul_add_record(given, 13, box, counts, 1, x, 2, y, 2, z, 2, m, 2, a_out, sizeof a_out, start, a_entry, 8);
        b = mbenaruul_write_shape(&lent, 13, box, counts, 1, x, 2, y, 2, z, 2, m, 2, b_out, sizeof b_out, start, b_entry, 8);
        CHECK(is(a.refusal, 0, 0, 0) && is(b.refusal, 0, 0, 0) && a.bytes == 152 && b.bytes == 152);
        CHECK(same_state(a.state, lent) && lent.number == k + 1 && lent.points == 2 * (uint32_t)k);
        CHECK(memcmp(a_out, b_out, sizeof a_out) == 0 && memcmp(a_entry, b_entry, 8) == 0);
        given = a.state;
        start += b.bytes;
    }
    CHECK(b_out[4] == 0xaa && b_out[5 + 2 * 152] == 0xaa);
    CHECK(lent.bbox.zmin == 5 && lent.bbox.zmax == 6 && lent.bbox.mmin == 7 && lent.bbox.mmax == 8);
    before = lent;
    b = mbenaruul_write_shape(&lent, 13, box, counts, 1, x, 2, y, 2, z, 1, m, 2, b_out, sizeof b_out, start, b_entry, 8);
    CHECK(is(b.refusal, 10, 0, 0) && b.bytes == 0 && same_state(lent, before));
    b = mbenaruul_write_shape(&lent, 13, box, counts, 1, x, 2, y, 2, z, 2, m, 2, b_out, sizeof b_out, SIZE_MAX, b_entry, 8);
    CHECK(is(b.refusal, 6, SIZE_MAX, 0) && same_state(lent, before));
    CHECK(memcmp(a_out, b_out, sizeof a_out) == 0 && memcmp(a_entry, b_entry, 8) == 0);
}

/* A polyline with z and m, whose numbers all differ: each comes back in its own field. */
static void every_field(void) {
    uint8_t out[152], entry[8];
    uint32_t c[1];
    double xs[2], ys[2], zs[2], ms[2];
    mbenaruul_added a = mbenaruul_add_record(mbenaruul_new(), 13, box, counts, 1, x, 2, y, 2, z, 2, m, 2, out, sizeof out, 0, entry, 8);
    mbenaruul_finished f = mbenaruul_finish(a.state);
    mbenaruul_header_read shp = mbenaruul_read_header(f.shp, 100), shx = mbenaruul_read_header(f.shx, 100);
    mbenaruul_record_read r = mbenaruul_read_record(out + 8, 144, 144, c, 1, xs, 2, ys, 2, zs, 2, ms, 2);

    CHECK(shp.header.file_length == 126 && shx.header.file_length == 54 && shp.header.version == 1000 && shp.header.shape_type == 13);
    CHECK(memcmp(&shp.header.bbox, &box, sizeof box) == 0 && memcmp(&shx.header.bbox, &box, sizeof box) == 0);
    CHECK(is(r.refusal, 0, 0, 0) && r.code == 13 && r.form == 2 && r.has_m == 1);
    CHECK(r.body.bbox.xmin == 1 && r.body.bbox.ymin == 2 && r.body.bbox.xmax == 3 && r.body.bbox.ymax == 4);
    CHECK(r.body.z_range.low == 5 && r.body.z_range.high == 6 && r.body.m_range.low == 7 && r.body.m_range.high == 8);
    CHECK(r.body.parts == 1 && r.body.points == 2 && c[0] == 2);
    CHECK(memcmp(xs, x, sizeof xs) == 0 && memcmp(ys, y, sizeof ys) == 0 && memcmp(zs, z, sizeof zs) == 0 && memcmp(ms, m, sizeof ms) == 0);
}

/* A record of two points with z and m, in so many parts, whose content has so many bytes: where any one store is too short by one, both calls that read
 * refuse with 6, and touch no store; where any one table is too short or too long by one, both that write refuse with 10, and touch no output. */
static void other_lengths(int32_t code, size_t parts, size_t size) {
    uint8_t out[152], entry[8], untouched[152], bytes[152], place[8];
    uint32_t c[3];
    double xs[3], ys[3], zs[3], ms[3];
    mbenaruul_state s = mbenaruul_new(), lent = s;
    const double more[] = {1, 2, 3};
    int store, change;

    CHECK(mbenaruul_add_record(s, code, box, counts, parts, x, 2, y, 2, z, 2, m, 2, bytes, sizeof bytes, 0, place, 8).bytes == size + 8);
    memset(untouched, 0xaa, sizeof untouched);
    for (store = parts > 0 ? 0 : 1; store < 5; store++) {
        size_t n[5], k;
        mbenaruul_record_read any, of;

        for (k = 0; k < 5; k++) /* with more room in the others */
            n[k] = k == (size_t)store ? (k == 0 ? parts : 2) - 1 : 3;
        memset(c, 0xaa, sizeof c);
        memset(xs, 0xaa, sizeof xs);
        memset(ys, 0xaa, sizeof ys);
        memset(zs, 0xaa, sizeof zs);
        memset(ms, 0xaa, sizeof ms);
        any = mbenaruul_read_record(bytes + 8, size, (int64_t)size, c, n[0], xs, n[1], ys, n[2], zs, n[3], ms, n[4]);
        of = mbenaruul_read_record_of(code, bytes + 8, size, (int64_t)size, c, n[0], xs, n[1], ys, n[2], zs, n[3], ms, n[4]);
        CHECK(is(any.refusal, 6, parts, 2) && any.form == 0 && is(of.refusal, 6, parts, 2) && of.form == 0);
        CHECK(memcmp(c, untouched, sizeof c) == 0 && memcmp(xs, untouched, sizeof xs) == 0 && memcmp(ys, untouched, sizeof ys) == 0);
        CHECK(memcmp(zs, untouched, sizeof zs) == 0 && memcmp(ms, untouched, sizeof ms) == 0);
    }
    memset(out, 0xaa, sizeof out);
    memset(entry, 0xaa, sizeof entry);
    for (store = 1; store < 5; store++) {
        for (change = -1; change <= 1; change += 2) {
            size_t n[5] = {0, 2, 2, 2, 2};
            mbenaruul_added a;
            mbenaruul_written w;

            n[store] += (size_t)change;
            a = mbenaruul_add_record(s, code, box, counts, parts, more, n[1], more, n[2], more, n[3], more, n[4], out, sizeof out, 0, entry, 8);
            w = mbenaruul_write_shape(&lent, code, box, counts, parts, more, n[1], more, n[2], more, n[3], more, n[4], out, sizeof out, 0, entry, 8);
            CHECK(is(a.refusal, 10, 0, 0) && a.bytes == 0 && same_state(a.state, s));
            CHECK(is(w.refusal, 10, 0, 0) && w.bytes == 0 && same_state(lent, s));
        }
    }
    /* as many coordinates as two points have */
    CHECK(is(mbenaruul_add_record(s, code, box, counts, parts, more, 3, more, 1, z, 2, m, 2, out, sizeof out, 0, entry, 8).refusal, 10, 0, 0));
    CHECK(is(mbenaruul_add_record(s, code, box, counts, parts, more, 1, more, 3, z, 2, m, 2, out, sizeof out, 0, entry, 8).refusal, 10, 0, 0));
    CHECK(memcmp(out, untouched, sizeof out) == 0 && memcmp(entry, untouched, sizeof entry) == 0);
}

/* A multipoint of two points, which is written both ways, is a pair, and is read back. */
static void multipoint(int32_t code, size_t z_n, size_t m_n, int32_t words) {
    uint8_t shp[100 + 8 + 136], again[100 + 8 + 136], shx[108], entry[8];
    size_t size = 2 * (size_t)words, all = 108 + size;
    uint32_t c[] = {9};
    double xs[] = {9, 9, 9}, ys[] = {9, 9, 9}, zs[] = {9, 9, 9}, ms[] = {9, 9, 9};
    const mbenaruul_bbox none = {0, 0, 0, 0, 0, 0, 0, 0};
    mbenaruul_bbox expected = box;
    mbenaruul_state s = mbenaruul_new(), lent = s;
    mbenaruul_added a = mbenaruul_add_record(s, code, box, NULL, 0, x, 2, y, 2, z, z_n, m, m_n, shp, all, 100, shx + 100, 8);
    mbenaruul_written w = mbenaruul_write_shape(&lent, code, box, NULL, 0, x, 2, y, 2, z, z_n, m, m_n, again, all, 100, entry, 8);
    mbenaruul_finished f = mbenaruul_finish(a.state);
    mbenaruul_pair_checked checked;
    mbenaruul_record_read r;

    if (z_n == 0)
        expected.zmin = expected.zmax = 0;
    if (m_n == 0)
        expected.mmin = expected.mmax = 0;
    CHECK(is(a.refusal, 0, 0, 0) && a.bytes == 8 + size && is(w.refusal, 0, 0, 0) && w.bytes == 8 + size && same_state(a.state, lent));
    CHECK(memcmp(shp + 100, again + 100, all - 100) == 0 && memcmp(shx + 100, entry, 8) == 0);
    CHECK(a.state.words == 54 + words && a.state.number == 2 && a.state.kind == code && a.state.points == 2);
    CHECK(memcmp(&a.state.bbox, &expected, sizeof expected) == 0);
    CHECK(shp[108] == code && shp[144] == 2 && shp[145] == 0 && shp[146] == 0 && shp[147] == 0);
    memcpy(shp, f.shp, 100);
    memcpy(shx, f.shx, 100);
    checked = mbenaruul_check_pair(shp, all, shx, 108);
    CHECK(is(checked.refusal, 0, 0, 0) && checked.totals.records == 1 && checked.totals.parts == 0 && checked.totals.points == 2);

    /* it asks for no parts and two points, and takes just so much */
    r = mbenaruul_read_record(shp + 108, size, (int64_t)size, NULL, 0, NULL, 0, NULL, 0, NULL, 0, NULL, 0);
    CHECK(is(r.refusal, 6, 0, 2) && r.code == 0 && r.form == 0 && r.body.points == 0);
    r = mbenaruul_read_record(shp + 108, size, (int64_t)size, NULL, 0, xs, 2, ys, 2, zs, z_n, ms, m_n);
    CHECK(is(r.refusal, 0, 0, 0) && r.code == code && r.form == 3 && r.has_m == (m_n > 0));
    CHECK(r.body.parts == 0 && r.body.points == 2 && r.point.x == 0 && r.point.m == 0);
    CHECK(r.body.bbox.xmin == 1 && r.body.bbox.ymin == 2 && r.body.bbox.xmax == 3 && r.body.bbox.ymax == 4);
    CHECK(r.body.z_range.low == expected.zmin && r.body.z_range.high == expected.zmax);
    CHECK(r.body.m_range.low == expected.mmin && r.body.m_range.high == expected.mmax);
    CHECK(memcmp(xs, x, sizeof x) == 0 && xs[2] == 9 && memcmp(ys, y, sizeof y) == 0 && ys[2] == 9);
    CHECK(memcmp(zs, z, z_n * sizeof *z) == 0 && memcmp(ms, m, m_n * sizeof *m) == 0);
    r = mbenaruul_read_record_of(code, shp + 108, size, (int64_t)size, c, 1, xs, 3, ys, 3, zs, 3, ms, 3);
    CHECK(is(r.refusal, 0, 0, 0) && r.form == 3 && c[0] == 9 && zs[2] == 9 && ms[2] == 9);
    CHECK(is(mbenaruul_read_record_of(3, shp + 108, size, (int64_t)size, c, 1, xs, 3, ys, 3, zs, 3, ms, 3).refusal, 5, 3, (uint64_t)code));
    CHECK(is(mbenaruul_read_record(shp + 108, size - 1, (int64_t)size, c, 1, xs, 3, ys, 3, zs, 3, ms, 3).refusal, 1, size - 8, 7));
    CHECK(is(mbenaruul_read_record(shp + 108, 38, (int64_t)size, c, 1, xs, 3, ys, 3, zs, 3, ms, 3).refusal, 1, 36, 2));
    CHECK(is(mbenaruul_read_record(shp + 108, size, (int64_t)size + 2, c, 1, xs, 3, ys, 3, zs, 3, ms, 3).refusal, 3, 0, 0));
    if (m_n > 0) { /* m may lack, which the size tells */
        r = mbenaruul_read_record(shp + 108, size - 32, (int64_t)size - 32, c, 1, xs, 3, ys, 3, zs, 3, ms, 3);
        CHECK(is(r.refusal, 0, 0, 0) && r.form == 3 && r.has_m == 0 && r.body.m_range.low == 0 && r.body.m_range.high == 0);
    }

    /* part counts, a y too few, and a value too many are 10 */
    CHECK(is(mbenaruul_add_record(s, code, box, counts, 1, x, 2, y, 2, z, z_n, m, m_n, shp, all, 100, entry, 8).refusal, 10, 0, 0));
    CHECK(is(mbenaruul_add_record(s, code, box, NULL, 0, x, 2, y, 1, z, z_n, m, m_n, shp, all, 100, entry, 8).refusal, 10, 0, 0));
    CHECK(is(mbenaruul_add_record(s, code, box, NULL, 0, x, 2, y, 2, z, z_n > 0 ? 1 : 2, m, m_n, shp, all, 100, entry, 8).refusal, 10, 0, 0));
    CHECK(is(mbenaruul_add_record(s, code, box, NULL, 0, x, 2, y, 2, z, z_n, m, m_n > 0 ? 0 : 2, shp, all, 100, entry, 8).refusal, 10, 0, 0));
    CHECK(is(mbenaruul_add_record(s, code, box, NULL, 0, x, 2, y, 2, z, z_n, m, m_n, NULL, 0, 100, NULL, 0).refusal, 6, all, 0));

    /* one of no point is written, and read, and no pair has it: P14; one with a number below 0 is not read */
    a = mbenaruul_add_record(s, code, none, NULL, 0, NULL, 0, NULL, 0, NULL, 0, NULL, 0, shp, sizeof shp, 100, shx + 100, 8);
    f = mbenaruul_finish(a.state);
    memcpy(shp, f.shp, 100);
    memcpy(shx, f.shx, 100);
    CHECK(is(a.refusal, 0, 0, 0) && a.bytes == 8 + size - 32 - 8 * z_n - 8 * m_n && a.state.points == 0);
    r = mbenaruul_read_record(shp + 108, a.bytes - 8, (int64_t)a.bytes - 8, NULL, 0, NULL, 0, NULL, 0, NULL, 0, NULL, 0);
    CHECK(is(r.refusal, 0, 0, 0) && r.form == 3 && r.body.parts == 0 && r.body.points == 0);
    CHECK(is(mbenaruul_check_pair(shp, 100 + a.bytes, shx, 108).refusal, 8, 14, 1));
    memset(shp + 144, 0xff, 4);
    CHECK(is(mbenaruul_check_pair(shp, 100 + a.bytes, shx, 108).refusal, 8, 13, 1));
    CHECK(is(mbenaruul_read_record(shp + 108, a.bytes - 8, (int64_t)a.bytes - 8, NULL, 0, NULL, 0, NULL, 0, NULL, 0, NULL, 0).refusal, 3, 36, 0));
}

/* A length of 0 comes with NULL, in every slice of every call that reads. */
static void null_read(const uint8_t *shp, const uint8_t *content) {
    static const uint8_t null[4], no_points[44] = {3};
    double xs[2], ys[2];
    uint32_t c[1];
    mbenaruul_record_read r;

    CHECK(is(mbenaruul_read_header(NULL, 0).refusal, 1, 0, 0));
    CHECK(is(mbenaruul_read_record_header(NULL, 0).refusal, 1, 0, 0));
    CHECK(is(mbenaruul_read_index_entry(NULL, 0).refusal, 1, 0, 0));
    CHECK(is(mbenaruul_check_pair(NULL, 0, NULL, 0).refusal, 8, 1, 0));
    CHECK(is(mbenaruul_check_pair(shp, 188, NULL, 0).refusal, 8, 2, 0));
    CHECK(is(mbenaruul_read_record(NULL, 0, 80, NULL, 0, NULL, 0, NULL, 0, NULL, 0, NULL, 0).refusal, 1, 0, 0));
    CHECK(is(mbenaruul_read_record_of(3, NULL, 0, 80, NULL, 0, NULL, 0, NULL, 0, NULL, 0, NULL, 0).refusal, 1, 0, 0));
    CHECK(is(mbenaruul_read_record(content, 80, 80, NULL, 0, NULL, 0, NULL, 0, NULL, 0, NULL, 0).refusal, 6, 1, 2));
    CHECK(is(mbenaruul_read_record_of(3, content, 80, 80, NULL, 0, NULL, 0, NULL, 0, NULL, 0, NULL, 0).refusal, 6, 1, 2));
    CHECK(is(mbenaruul_read_record(content, 80, 80, c, 1, xs, 2, ys, 2, NULL, 0, NULL, 0).refusal, 0, 0, 0) && xs[1] == 3 && ys[1] == 4);
    CHECK(is(mbenaruul_read_record_of(3, content, 80, 80, c, 1, xs, 2, ys, 2, NULL, 0, NULL, 0).refusal, 0, 0, 0));
    CHECK(is(mbenaruul_read_record(null, 4, 4, NULL, 0, NULL, 0, NULL, 0, NULL, 0, NULL, 0).refusal, 0, 0, 0));
    r = mbenaruul_read_record(no_points, 44, 44, NULL, 0, NULL, 0, NULL, 0, NULL, 0, NULL, 0);
    CHECK(is(r.refusal, 0, 0, 0) && r.form == 2 && r.body.parts == 0 && r.body.points == 0);
    r = mbenaruul_read_record_of(3, no_points, 44, 44, NULL, 0, NULL, 0, NULL, 0, NULL, 0, NULL, 0);
    CHECK(is(r.refusal, 0, 0, 0) && r.form == 2);
}

/* The same of every call that writes, and of rings. */
static void null_written(void) {
    uint8_t out[84], again[84], entry[8];
    mbenaruul_state s = mbenaruul_new(), lent = s;
    mbenaruul_added a = mbenaruul_add_record(s, 13, box, NULL, 0, NULL, 0, NULL, 0, NULL, 0, NULL, 0, out, sizeof out, 0, entry, 8);
    mbenaruul_written w = mbenaruul_write_shape(&lent, 13, box, NULL, 0, NULL, 0, NULL, 0, NULL, 0, NULL, 0, again, sizeof again, 0, entry, 8);
    mbenaruul_told t;

    CHECK(is(a.refusal, 0, 0, 0) && a.bytes == 84 && is(w.refusal, 0, 0, 0) && w.bytes == 84);
    CHECK(memcmp(out, again, sizeof out) == 0 && same_state(a.state, lent));
    a = mbenaruul_add_record(s, 1, box, NULL, 0, x, 1, y, 1, NULL, 0, NULL, 0, NULL, 0, 100, NULL, 0);
    CHECK(is(a.refusal, 6, 128, 0));
    a = mbenaruul_add_record(s, 1, box, NULL, 0, x, 1, y, 1, NULL, 0, NULL, 0, out, sizeof out, 0, NULL, 0);
    CHECK(is(a.refusal, 6, 8, 0));
    w = mbenaruul_write_shape(&s, 13, box, counts, 1, x, 2, y, 2, z, 2, m, 2, NULL, 0, 100, NULL, 0);
    CHECK(is(w.refusal, 6, 252, 0));
    w = mbenaruul_write_shape(&s, 13, box, NULL, 0, NULL, 0, NULL, 0, NULL, 0, NULL, 0, out, sizeof out, 0, NULL, 0);
    CHECK(is(w.refusal, 6, 8, 0));
    t = mbenaruul_is_part_closed(NULL, 0, NULL, 0, 0);
    CHECK(is(t.refusal, 0, 0, 0) && t.value == 0);
    t = mbenaruul_ring_type_from_points_ordering(NULL, 0, NULL, 0, 0);
    CHECK(is(t.refusal, 0, 0, 0) && t.value == 0);
    t = mbenaruul_close_points_if_not_already(NULL, 0, NULL, 0, 0);
    CHECK(is(t.refusal, 0, 0, 0) && t.value == 0);
    CHECK(is(mbenaruul_close_points_if_not_already(NULL, 0, NULL, 0, 1).refusal, 10, 0, 0));
}

static void rings(void) {
    const double outer_x[] = {0, 0, 1, 1, 0}, outer_y[] = {0, 1, 1, 0, 0};
    double inner_x[] = {0, 1, 1, 0, 5}, inner_y[] = {2, 2, 3, 3, 5};
    mbenaruul_told t = mbenaruul_is_part_closed(outer_x, 5, outer_y, 5, 5);

    CHECK(is(t.refusal, 0, 0, 0) && t.value == 1);
    t = mbenaruul_is_part_closed(outer_x, 5, outer_y, 5, 4);
    CHECK(is(t.refusal, 0, 0, 0) && t.value == 0);
    t = mbenaruul_ring_type_from_points_ordering(outer_x, 5, outer_y, 5, 5);
    CHECK(is(t.refusal, 0, 0, 0) && t.value == 0);

    /* past x, past y, past both: 10, also where there is no room */
    CHECK(is(mbenaruul_is_part_closed(outer_x, 4, outer_y, 5, 5).refusal, 10, 0, 0));
    CHECK(is(mbenaruul_is_part_closed(outer_x, 5, outer_y, 4, 5).refusal, 10, 0, 0));
    CHECK(is(mbenaruul_is_part_closed(outer_x, 5, outer_y, 5, SIZE_MAX).refusal, 10, 0, 0));
    CHECK(is(mbenaruul_ring_type_from_points_ordering(outer_x, 4, outer_y, 5, 5).refusal, 10, 0, 0));
    CHECK(is(mbenaruul_ring_type_from_points_ordering(outer_x, 5, outer_y, 4, 5).refusal, 10, 0, 0));
    CHECK(is(mbenaruul_ring_type_from_points_ordering(outer_x, 5, outer_y, 5, SIZE_MAX).refusal, 10, 0, 0));
    CHECK(is(mbenaruul_close_points_if_not_already(inner_x, 3, inner_y, 5, 4).refusal, 10, 0, 0));
    CHECK(is(mbenaruul_close_points_if_not_already(inner_x, 5, inner_y, 3, 4).refusal, 10, 0, 0));
    CHECK(is(mbenaruul_close_points_if_not_already(inner_x, 3, inner_y, 4, 4).refusal, 10, 0, 0));
    CHECK(is(mbenaruul_close_points_if_not_already(inner_x, 5, inner_y, 5, SIZE_MAX).refusal, 10, 0, 0));
    /* no room behind the run in x, in y, in both */
    CHECK(is(mbenaruul_close_points_if_not_already(inner_x, 4, inner_y, 5, 4).refusal, 6, 0, 5));
    CHECK(is(mbenaruul_close_points_if_not_already(inner_x, 5, inner_y, 4, 4).refusal, 6, 0, 5));
    CHECK(is(mbenaruul_close_points_if_not_already(inner_x, 4, inner_y, 4, 4).refusal, 6, 0, 5));
    CHECK(inner_x[0] == 0 && inner_x[1] == 1 && inner_x[2] == 1 && inner_x[3] == 0 && inner_x[4] == 5);
    CHECK(inner_y[0] == 2 && inner_y[1] == 2 && inner_y[2] == 3 && inner_y[3] == 3 && inner_y[4] == 5);

    t = mbenaruul_close_points_if_not_already(inner_x, 5, inner_y, 5, 4);
    CHECK(is(t.refusal, 0, 0, 0) && t.value == 5 && inner_x[3] == 0 && inner_x[4] == 0 && inner_y[3] == 3 && inner_y[4] == 2);
    t = mbenaruul_close_points_if_not_already(inner_x, 5, inner_y, 5, 5);
    CHECK(is(t.refusal, 0, 0, 0) && t.value == 5);
    t = mbenaruul_ring_type_from_points_ordering(inner_x, 5, inner_y, 5, 5);
    CHECK(is(t.refusal, 0, 0, 0) && t.value == 1);
}

int main(void) {
    static uint8_t shp[188], shx[108];
    mbenaruul_state s = mbenaruul_new();

    CHECK(s.words == 50 && s.number == 1 && s.kind == 0 && s.points == 0 && s.bbox.xmin == 0 && s.bbox.mmax == 0);
    s = one_run(shp, shx);
    pairs(shp, shx);
    heads(shp, shx);
    records(shp + 108);
    refusals_of_adding(s);
    empty_place(s, shp, shx);
    points_of_every_kind();
    points_and_words(s);
    write_both_ways();
    every_field();
    other_lengths(13, 1, 144);
    other_lengths(18, 0, 136);
    multipoint(8, 0, 0, 36);
    multipoint(28, 0, 2, 52);
    multipoint(18, 2, 2, 68);
    null_read(shp, shp + 108);
    null_written();
    rings();
    printf("calls: %d checks, %d failed\n", checks, failed);
    return failed != 0;
}

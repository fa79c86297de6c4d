/* Shapefiles (.shp with .shx) read, written and checked: the calls of libexport.a, which are proved.
 *
 * A slice is two arguments, where it begins and how many entries it has; a length of 0 may come with any pointer, NULL too. Every call is
 * total: any numbers and any bytes may be handed to it. A refusal writes to no buffer and leaves the writer's state as it was. A buffer
 * that a call may write to must not overlap anything else that is handed to that call.
 *
 * Nothing is kept between calls, allocated or shared: any number of threads may call at once, where none writes to what another was lent.
 *
 * The coordinates of points are two slices, all x and all y: point i is x[i] and y[i].
 *
 * Empty stores ask for the room. Room is judged last: lent less than it needs, or nothing at all, a call refuses with 6 and says what it needs,
 * and with so much it then succeeds. For p parts and n points, counts takes p, x and y n each, and so z and m, where the record has them; a multipoint
 * has 0 parts, and leaves counts as it is. Of an output the bytes are told, start included. rust/c/write.c asks so, both when it writes and when it reads.
 *
 * mbenaruul_ring_type_from_points_ordering computes with doubles, and assumes the processor's default floating-point mode: round to nearest,
 * denormal numbers kept (no flush-to-zero, no denormals-are-zero, which -ffast-math may switch on). No other call depends on the mode: whether
 * a ring is closed (P15 too), the box in the state and m values are decided on the bits.
 *
 * What each refusal's number means, and its values (docs/DOCUMENT-01.md, "What comes back"):
 *    0  not refused
 *    1  short: the bytes end inside a field         first: the field's offset, second: how many of the field's bytes are there, 0 where it would
 *       begin behind the last byte; first plus second is the length of the slice
 *    2  code: the file code is not 9994             first: the code
 *    3  size                                        first: the offset, or 0
 *    4  unknown: no such kind                       first: the kind's code
 *    5  mismatch: another kind than the one wanted  first: the wanted code, second: the found one
 *    6  room: a lent store or output is too small   first and second: the parts and points needed; or first: the bytes
 *    7  long: a count over 2,147,483,647, or a file over that many words
 *    8  fault: the pair checker's no                first: the rule (11 for P11), second: the record's number, 0 for the headers;
 *       docs/RULES.md says each rule in plain words and what usually breaks it
 *    9  not taken: a kind that is not read or written   first: the kind's code: 31, Multipatch; 0, Null, where it is wanted or would be the first
 *       record
 *   10  tables: lent tables disagree in length, or a Null record comes with one that is not empty; a run of points goes past x or past y
 * Values that a refusal does not have are 0. A code that is below 0 stands as its 32 bits: (int32_t)first.
 */
#ifndef MBENARUUL_H
#define MBENARUUL_H

#include <stddef.h>
#include <stdint.h>

#ifdef __cplusplus
extern "C" {
#endif

typedef struct { uint32_t number; uint64_t first; uint64_t second; } mbenaruul_refusal;

/* ---- headers and entries; where a call refuses, the rest of what it answers is 0 */

typedef struct { double xmin, ymin, xmax, ymax, zmin, zmax, mmin, mmax; } mbenaruul_bbox;
typedef struct { int32_t file_length /* in 16-bit words */, version, shape_type; mbenaruul_bbox bbox; } mbenaruul_header;
typedef struct { mbenaruul_refusal refusal; mbenaruul_header header; } mbenaruul_header_read;
mbenaruul_header_read mbenaruul_read_header(const uint8_t *bytes, size_t n);

typedef struct { int32_t record_number, content_length /* in words */; } mbenaruul_record_header;
typedef struct { mbenaruul_refusal refusal; mbenaruul_record_header header; } mbenaruul_record_header_read;
mbenaruul_record_header_read mbenaruul_read_record_header(const uint8_t *bytes, size_t n);

typedef struct { int32_t offset, content_length /* both in words */; } mbenaruul_index_entry;
typedef struct { mbenaruul_refusal refusal; mbenaruul_index_entry entry; } mbenaruul_index_entry_read;
mbenaruul_index_entry_read mbenaruul_read_index_entry(const uint8_t *bytes, size_t n);

/* ---- a record, from its content (behind the record header's 8 bytes) and its size in bytes: twice the content length of its header or of its
 * index entry */

typedef struct { double x, y, z, m; } mbenaruul_point;
typedef struct { double xmin, ymin, xmax, ymax; } mbenaruul_box;
typedef struct { double low, high; } mbenaruul_range;
typedef struct { mbenaruul_box bbox; mbenaruul_range z_range, m_range; size_t parts, points; } mbenaruul_body;
/* form: 0 Null, 1 a point, 2 a shape with parts, 3 a multipoint; has_m: 1 where a shape with parts or a multipoint has m; point: of form 1; body: of
 * forms 2 and 3, and parts of it is 0 for a multipoint. What a form does not have is 0. */
typedef struct {
    mbenaruul_refusal refusal;
    int32_t code;
    uint32_t form;
    uint32_t has_m;
    mbenaruul_point point;
    mbenaruul_body body;
} mbenaruul_record_read;
mbenaruul_record_read mbenaruul_read_record(const uint8_t *content, size_t n, int64_t size, uint32_t *counts, size_t counts_n, double *x, size_t x_n,
                                            double *y, size_t y_n, double *z, size_t z_n, double *m, size_t m_n);
/* the same, where one kind is wanted */
mbenaruul_record_read mbenaruul_read_record_of(int32_t wanted, const uint8_t *content, size_t n, int64_t size, uint32_t *counts, size_t counts_n,
                                               double *x, size_t x_n, double *y, size_t y_n, double *z, size_t z_n, double *m, size_t m_n);

/* ---- the pair checker */

typedef struct { size_t records, parts, points; } mbenaruul_totals;
typedef struct { mbenaruul_refusal refusal; mbenaruul_totals totals; } mbenaruul_pair_checked;
mbenaruul_pair_checked mbenaruul_check_pair(const uint8_t *shp, size_t shp_n, const uint8_t *shx, size_t shx_n);

/* ---- writing */

/* A pair is put together so:
 *   - the .shp: a header of 100 bytes, then each record behind the last one. The first record goes to start 100 of the .shp's buffer, the next
 *     to that start plus the bytes of the first, and so on.
 *   - the .shx: a header of 100 bytes, then the 8 bytes of each record's entry, behind those of the last one.
 *   - when all records are added, the two headers that mbenaruul_finish gives go in front.
 * Whatever was refused in between, and however often the state was finished, the two files hold the accepted shapes, in order; and where these are all
 * well-formed (rules P14 to P16), mbenaruul_check_pair says yes to them, with their counts. That is proved, for every series of these calls.
 * The first record gives the file its kind: 1, 3, 5 or 8, 21, 23, 25 or 28 with m, 11, 13, 15 or 18 with z and m; 0 is refused with 9. Each further
 * record has that kind, or is a Null record, which is an empty place among them: code 0 and five empty tables. A Null record takes 12 bytes, and kind
 * and box of the state stay as they were; the box that comes with it plays no part.
 * counts has the number of points of each part, and they sum to n; x and y have n doubles each, z and m n each where the kind has them, else 0. A point
 * (1, 21, 11) has no counts and n is 1; a multipoint (8, 28, 18) has no counts, and n is what x and y have, 0 too.
 * Of tables only the lengths are judged: a ring that is open, NaN, a part of one point, a multipoint of none, a box that is not the true one are
 * written as given. */
/* words: those of the .shp so far; number: the next record's; kind: the file's, 0 before the first record; bbox: the headers'.
 * points: those of all records so far, for a progress bar. Each record adds its own: a point 1, a Null record 0, a multipoint n, parts what they sum to.
 * Adding and finishing refuse a state with 3: words below 50, or below 50 + 6 for each record before number; number below 1; a kind that is not 0 and none
 * of the twelve above; kind 0 with other words than 50 or another number than 1; points over words. */
typedef struct { int32_t words, number, kind; uint32_t points; mbenaruul_bbox bbox; } mbenaruul_state;
mbenaruul_state mbenaruul_new(void);
/* The record is put into out from start on, and its entry into the first 8 bytes of entry; no other byte is touched. bytes: those of the record.
 * The next record takes the state that comes back. */
typedef struct { mbenaruul_refusal refusal; size_t bytes; mbenaruul_state state; } mbenaruul_added;
mbenaruul_added mbenaruul_add_record(mbenaruul_state state, int32_t code, mbenaruul_bbox bbox, const uint32_t *counts, size_t counts_n,
                                     const double *x, size_t x_n, const double *y, size_t y_n, const double *z, size_t z_n, const double *m, size_t m_n,
                                     uint8_t *out, size_t out_n, size_t start, uint8_t *entry, size_t entry_n);
/* the same over a state that is lent, which is not NULL, and advanced by the call; a refusal leaves it as it is */
typedef struct { mbenaruul_refusal refusal; size_t bytes; } mbenaruul_written;
mbenaruul_written mbenaruul_write_shape(mbenaruul_state *state, int32_t code, mbenaruul_bbox bbox, const uint32_t *counts, size_t counts_n,
                                        const double *x, size_t x_n, const double *y, size_t y_n, const double *z, size_t z_n, const double *m, size_t m_n,
                                        uint8_t *out, size_t out_n, size_t start, uint8_t *entry, size_t entry_n);
typedef struct { mbenaruul_refusal refusal; uint8_t shp[100], shx[100]; } mbenaruul_finished;
mbenaruul_finished mbenaruul_finish(mbenaruul_state state);

/* ---- rings: a run of n points, the first n of x and of y. Where x or y has fewer, that is 10 */

typedef struct { mbenaruul_refusal refusal; size_t value; } mbenaruul_told;
/* 1 closed, 0 not */
mbenaruul_told mbenaruul_is_part_closed(const double *x, size_t x_n, const double *y, size_t y_n, size_t n);
/* 1 inner, 0 outer */
mbenaruul_told mbenaruul_ring_type_from_points_ordering(const double *x, size_t x_n, const double *y, size_t y_n, size_t n);
/* the points of the closed run. An open one takes the entry behind it in x and in y; where one of the two has none, that is 6 with 0 and n + 1 */
mbenaruul_told mbenaruul_close_points_if_not_already(double *x, size_t x_n, double *y, size_t y_n, size_t n);

/* ---- how the structs lie: their bytes, and those of each field, from and up to. A compiler that lays one out otherwise stops here; the Rust
 * crate's src/ffi/layout.rs has the same numbers. */

#define MBENARUUL_AT(type, field, from, to) && offsetof(mbenaruul_##type, field) == (from) && sizeof(((mbenaruul_##type *)0)->field) == (to) - (from)
#define MBENARUUL_LIES(type, bytes, fields) typedef char mbenaruul_##type##_lies[sizeof(mbenaruul_##type) == (bytes) fields ? 1 : -1]
MBENARUUL_LIES(refusal, 24, MBENARUUL_AT(refusal, number, 0, 4) MBENARUUL_AT(refusal, first, 8, 16) MBENARUUL_AT(refusal, second, 16, 24));
MBENARUUL_LIES(bbox, 64, MBENARUUL_AT(bbox, xmin, 0, 8) MBENARUUL_AT(bbox, ymin, 8, 16) MBENARUUL_AT(bbox, xmax, 16, 24)
               MBENARUUL_AT(bbox, ymax, 24, 32) MBENARUUL_AT(bbox, zmin, 32, 40) MBENARUUL_AT(bbox, zmax, 40, 48) MBENARUUL_AT(bbox, mmin, 48, 56)
               MBENARUUL_AT(bbox, mmax, 56, 64));
MBENARUUL_LIES(header, 80, MBENARUUL_AT(header, file_length, 0, 4) MBENARUUL_AT(header, version, 4, 8) MBENARUUL_AT(header, shape_type, 8, 12)
               MBENARUUL_AT(header, bbox, 16, 80));
MBENARUUL_LIES(header_read, 104, MBENARUUL_AT(header_read, refusal, 0, 24) MBENARUUL_AT(header_read, header, 24, 104));
MBENARUUL_LIES(record_header, 8, MBENARUUL_AT(record_header, record_number, 0, 4) MBENARUUL_AT(record_header, content_length, 4, 8));
MBENARUUL_LIES(record_header_read, 32, MBENARUUL_AT(record_header_read, refusal, 0, 24) MBENARUUL_AT(record_header_read, header, 24, 32));
MBENARUUL_LIES(index_entry, 8, MBENARUUL_AT(index_entry, offset, 0, 4) MBENARUUL_AT(index_entry, content_length, 4, 8));
MBENARUUL_LIES(index_entry_read, 32, MBENARUUL_AT(index_entry_read, refusal, 0, 24) MBENARUUL_AT(index_entry_read, entry, 24, 32));
MBENARUUL_LIES(point, 32, MBENARUUL_AT(point, x, 0, 8) MBENARUUL_AT(point, y, 8, 16) MBENARUUL_AT(point, z, 16, 24) MBENARUUL_AT(point, m, 24, 32));
MBENARUUL_LIES(box, 32, MBENARUUL_AT(box, xmin, 0, 8) MBENARUUL_AT(box, ymin, 8, 16) MBENARUUL_AT(box, xmax, 16, 24) MBENARUUL_AT(box, ymax, 24, 32));
MBENARUUL_LIES(range, 16, MBENARUUL_AT(range, low, 0, 8) MBENARUUL_AT(range, high, 8, 16));
MBENARUUL_LIES(body, 80, MBENARUUL_AT(body, bbox, 0, 32) MBENARUUL_AT(body, z_range, 32, 48) MBENARUUL_AT(body, m_range, 48, 64)
               MBENARUUL_AT(body, parts, 64, 72) MBENARUUL_AT(body, points, 72, 80));
MBENARUUL_LIES(record_read, 152, MBENARUUL_AT(record_read, refusal, 0, 24) MBENARUUL_AT(record_read, code, 24, 28)
               MBENARUUL_AT(record_read, form, 28, 32) MBENARUUL_AT(record_read, has_m, 32, 36) MBENARUUL_AT(record_read, point, 40, 72)
               MBENARUUL_AT(record_read, body, 72, 152));
MBENARUUL_LIES(totals, 24, MBENARUUL_AT(totals, records, 0, 8) MBENARUUL_AT(totals, parts, 8, 16) MBENARUUL_AT(totals, points, 16, 24));
MBENARUUL_LIES(pair_checked, 48, MBENARUUL_AT(pair_checked, refusal, 0, 24) MBENARUUL_AT(pair_checked, totals, 24, 48));
MBENARUUL_LIES(state, 80, MBENARUUL_AT(state, words, 0, 4) MBENARUUL_AT(state, number, 4, 8) MBENARUUL_AT(state, kind, 8, 12)
               MBENARUUL_AT(state, points, 12, 16) MBENARUUL_AT(state, bbox, 16, 80));
MBENARUUL_LIES(added, 112, MBENARUUL_AT(added, refusal, 0, 24) MBENARUUL_AT(added, bytes, 24, 32) MBENARUUL_AT(added, state, 32, 112));
MBENARUUL_LIES(written, 32, MBENARUUL_AT(written, refusal, 0, 24) MBENARUUL_AT(written, bytes, 24, 32));
MBENARUUL_LIES(finished, 224, MBENARUUL_AT(finished, refusal, 0, 24) MBENARUUL_AT(finished, shp, 24, 124) MBENARUUL_AT(finished, shx, 124, 224));
MBENARUUL_LIES(told, 32, MBENARUUL_AT(told, refusal, 0, 24) MBENARUUL_AT(told, value, 24, 32));
#undef MBENARUUL_LIES
#undef MBENARUUL_AT

#ifdef __cplusplus
}
#endif
#endif

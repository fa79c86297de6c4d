/* Writing from C: a plan of three shelf runs is put together, record by record, and written to the .shp and the .shx that are named; then it is read
 * back through its index. After each run a line says how many points are written so far.
 *
 *     cc -I include rust/c/write.c target/staticlib/libexport.a -o write
 *     ./write plan.shp plan.shx
 *
 * Exit status: 0 if it was written and read back, 2 if something went wrong.
 */
#include <stdio.h>
#include <stdlib.h>
#include <string.h>

#include "mbenaruul.h"

enum { POLYLINE = 3, HEADER = 100, RECORD_HEADER = 8, ENTRY = 8, POINTS = 7 /* of all runs */ };

/* A file that grows. */
typedef struct { uint8_t *bytes; size_t n; } file;

static void stop(const char *why) {
    fprintf(stderr, "write: %s\n", why);
    exit(2);
}

static void *room(void *old, size_t bytes) {
    void *grown = realloc(old, bytes > 0 ? bytes : 1);

    if (grown == NULL)
        stop("no memory");
    return grown;
}

static void grow(file *f, size_t bytes) {
    f->bytes = room(f->bytes, bytes);
    f->n = bytes;
}

/* The box of a run; the library writes the one that it is given. */
static mbenaruul_bbox box_of(const double *x, const double *y, size_t points) {
    mbenaruul_bbox box = {0, 0, 0, 0, 0, 0, 0, 0};
    size_t i;

    for (i = 0; i < points; i++) {
        if (i == 0 || x[i] < box.xmin) box.xmin = x[i];
        if (i == 0 || y[i] < box.ymin) box.ymin = y[i];
        if (i == 0 || x[i] > box.xmax) box.xmax = x[i];
        if (i == 0 || y[i] > box.ymax) box.ymax = y[i];
    }
    return box;
}

/* One more record, of one part, behind the last one; and its entry. */
static void add_run(mbenaruul_state *state, file *shp, file *shx, const double *x, const double *y, uint32_t points) {
    mbenaruul_bbox box = box_of(x, y, points);
    size_t start = shp->n, n = points;
    mbenaruul_written w = mbenaruul_write_shape(state, POLYLINE, box, &points, 1, x, n, y, n, NULL, 0, NULL, 0, NULL, 0, start, NULL, 0);

    if (w.refusal.number != 6) /* it was lent no room */
        stop("the run is refused");
    grow(shp, (size_t)w.refusal.first); /* which is start and the record's bytes */
    grow(shx, shx->n + ENTRY);
    w = mbenaruul_write_shape(state, POLYLINE, box, &points, 1, x, n, y, n, NULL, 0, NULL, 0, shp->bytes, shp->n, start,
                              shx->bytes + shx->n - ENTRY, ENTRY);
    if (w.refusal.number != 0)
        stop("the run is refused");
    printf("%u of %d points\n", (unsigned)state->points, POINTS); /* a progress bar goes by this */
}

static void put_together(file *shp, file *shx) {
    static const double spine_x[] = {0, 9}, spine_y[] = {0, 0};
    static const double corner_x[] = {0, 9, 9}, corner_y[] = {4, 4, 8};
    static const double bay_x[] = {2, 5}, bay_y[] = {6, 6};
    mbenaruul_state state = mbenaruul_new();
    mbenaruul_finished finished;

    grow(shp, HEADER); /* the headers come last, and go in front */
    grow(shx, HEADER);
    add_run(&state, shp, shx, spine_x, spine_y, 2);
    add_run(&state, shp, shx, corner_x, corner_y, 3);
    add_run(&state, shp, shx, bay_x, bay_y, 2);
    finished = mbenaruul_finish(state);
    if (finished.refusal.number != 0)
        stop("the state is refused");
    memcpy(shp->bytes, finished.shp, HEADER);
    memcpy(shx->bytes, finished.shx, HEADER);
}

static void write_file(const char *name, file f) {
    FILE *out = fopen(name, "wb");

    if (out == NULL || fwrite(f.bytes, 1, f.n, out) != f.n || fclose(out) != 0)
        stop("a file cannot be written");
}

/* Record k, counted from 0, of a pair that was checked: its entry and its content are there. */
static void print_run(file shp, file shx, size_t k) {
    mbenaruul_index_entry entry = mbenaruul_read_index_entry(shx.bytes + HEADER + ENTRY * k, ENTRY).entry;
    const uint8_t *content = shp.bytes + 2 * (size_t)entry.offset + RECORD_HEADER; /* lengths and offsets are in words of two bytes */
    size_t size = 2 * (size_t)entry.content_length, parts, points, i;
    mbenaruul_record_read r = mbenaruul_read_record(content, size, (int64_t)size, NULL, 0, NULL, 0, NULL, 0, NULL, 0, NULL, 0);
    uint32_t *counts;
    double *x, *y;

    if (r.refusal.number != 6) /* it was lent no room */
        stop("a record has no point");
    parts = (size_t)r.refusal.first;
    points = (size_t)r.refusal.second;
    counts = room(NULL, parts * sizeof *counts);
    x = room(NULL, points * sizeof *x);
    y = room(NULL, points * sizeof *y);
    r = mbenaruul_read_record_of(POLYLINE, content, size, (int64_t)size, counts, parts, x, points, y, points, NULL, 0, NULL, 0);
    if (r.refusal.number != 0)
        stop("a record is refused");
    printf("run %zu:", k + 1);
    for (i = 0; i < points; i++)
        printf(" (%g, %g)", x[i], y[i]);
    printf("\n");
    free(counts);
    free(x);
    free(y);
}

int main(int argc, char **argv) {
    file shp = {NULL, 0}, shx = {NULL, 0};
    mbenaruul_pair_checked checked;
    size_t k;

    if (argc != 3)
        stop("usage: write SHP SHX");
    put_together(&shp, &shx);
    write_file(argv[1], shp);
    write_file(argv[2], shx);
    checked = mbenaruul_check_pair(shp.bytes, shp.n, shx.bytes, shx.n);
    if (checked.refusal.number != 0)
        stop("what was written is no pair");
    for (k = 0; k < checked.totals.records; k++)
        print_run(shp, shx, k);
    free(shp.bytes);
    free(shx.bytes);
    return 0;
}

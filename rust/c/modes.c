/* The calls in another floating-point mode than the processor's default: denormal numbers are flushed to zero and taken for zero (FTZ and DAZ), as in
 * a program that was linked with -ffast-math. What does not compute with doubles must say the same.
 *
 *     modes closed      closed rings: the pair checker's P15, is_part_closed, and closing
 *     modes boxes       the box in the state, when a record is added
 *     modes measures    the m values of a record that is read
 *
 * Each is run in the default mode first, and then in the other. Prints the checks that fail, and a line with their number. */
#include <stdio.h>
#include <string.h>
#include <xmmintrin.h>

#include "mbenaruul.h"

enum { FTZ_AND_DAZ = 0x8040 }; /* bits of MXCSR */

static int checks = 0, failed = 0;
static const char *mode = "default", *of = "";

static void check(int holds, int line, const char *what) {
    checks++;
    if (!holds) {
        failed++;
        printf("modes.c:%d: %s mode, %s: %s\n", line, mode, of, what);
    }
}
#define CHECK(x) check((x), __LINE__, #x)

/* Doubles are made and compared by their bits, so that the mode changes nothing here. */
static const uint64_t ZERO = 0, LEAST = 1, MINUS_ZERO = 0x8000000000000000, MINUS_LEAST = 0x8000000000000001, NOT_A_NUMBER = 0x7ff8000000000000;

static double double_of(uint64_t bits) {
    double d;

    memcpy(&d, &bits, sizeof d);
    return d;
}

static int has_bits(double d, uint64_t bits) {
    return memcmp(&d, &bits, sizeof d) == 0;
}

/* Whether 2^-1074 equals 0, as the processor has it now. */
static int takes_least_for_zero(void) {
    volatile double least = double_of(LEAST), zero = 0;

    return least == zero;
}

/* What the pair checker says of a polygon of one ring: (0, 0), (0, 1), (1, 1), and this last point. */
static mbenaruul_refusal verdict(const uint64_t *last) {
    uint8_t shp[100 + 8 + 48 + 64], shx[108];
    const uint32_t counts[] = {4};
    const double x[] = {0, 0, 1, 0}, y[] = {0, 1, 1, 0};
    const mbenaruul_bbox box = {0, 0, 1, 1, 0, 0, 0, 0};
    mbenaruul_added a = mbenaruul_add_record(mbenaruul_new(), 5, box, counts, 1, x, 4, y, 4, NULL, 0, NULL, 0, shp, sizeof shp, 100, shx + 100, 8);
    mbenaruul_finished f = mbenaruul_finish(a.state);

    memcpy(shp, f.shp, 100);
    memcpy(shx, f.shx, 100);
    memcpy(shp + sizeof shp - 16, last, 16);
    return mbenaruul_check_pair(shp, sizeof shp, shx, sizeof shx).refusal;
}

/* A ring from (0, 0) to this last point is closed, or not. */
static void ends_at(const char *name, uint64_t x, uint64_t y, int closed) {
    const uint64_t last[2] = {x, y};
    double xs[] = {0, 0, 1, 0, 7}, ys[] = {0, 1, 1, 0, 7};
    mbenaruul_refusal r = verdict(last);
    mbenaruul_told t;

    of = name;
    CHECK(closed ? r.number == 0 : r.number == 8 && r.first == 15 && r.second == 1);
    xs[3] = double_of(x);
    ys[3] = double_of(y);
    t = mbenaruul_is_part_closed(xs, 5, ys, 5, 4);
    CHECK(t.refusal.number == 0 && t.value == (size_t)closed);
    t = mbenaruul_close_points_if_not_already(xs, 5, ys, 5, 4);
    CHECK(t.refusal.number == 0 && t.value == (closed ? 4 : 5));
    CHECK(closed ? xs[4] == 7 && ys[4] == 7 : has_bits(xs[4], ZERO) && has_bits(ys[4], ZERO));
}

static void closed(void) {
    ends_at("(0, 0)", ZERO, ZERO, 1);
    ends_at("(-0, 0)", MINUS_ZERO, ZERO, 1);
    ends_at("(0, -0)", ZERO, MINUS_ZERO, 1);
    ends_at("(2^-1074, 0)", LEAST, ZERO, 0);
    ends_at("(0, -2^-1074)", ZERO, MINUS_LEAST, 0);
    ends_at("(NaN, 0)", NOT_A_NUMBER, ZERO, 0);
}

static mbenaruul_state with_point(mbenaruul_state s, uint64_t x, uint64_t y) {
    uint8_t out[28], entry[8];
    const mbenaruul_bbox box = {0, 0, 0, 0, 0, 0, 0, 0};
    double x_of = double_of(x), y_of = double_of(y);

    return mbenaruul_add_record(s, 1, box, NULL, 0, &x_of, 1, &y_of, 1, NULL, 0, NULL, 0, out, sizeof out, 0, entry, 8).state;
}

static mbenaruul_state with_null(mbenaruul_state s) {
    uint8_t out[12], entry[8];
    const mbenaruul_bbox box = {0, 0, 0, 0, 0, 0, 0, 0};

    return mbenaruul_add_record(s, 0, box, NULL, 0, NULL, 0, NULL, 0, NULL, 0, NULL, 0, out, sizeof out, 0, entry, 8).state;
}

static void boxes(void) {
    mbenaruul_state s = with_point(mbenaruul_new(), LEAST, MINUS_LEAST), after = with_null(s);

    of = "one point";
    CHECK(has_bits(s.bbox.xmin, LEAST) && has_bits(s.bbox.xmax, LEAST));
    CHECK(has_bits(s.bbox.ymin, MINUS_LEAST) && has_bits(s.bbox.ymax, MINUS_LEAST));
    of = "and an empty place";
    CHECK(after.number == 3 && after.kind == 1 && after.points == 1 && memcmp(&after.bbox, &s.bbox, sizeof s.bbox) == 0);
    of = "and (0, 0)";
    s = with_point(s, ZERO, ZERO);
    CHECK(has_bits(s.bbox.xmin, ZERO) && has_bits(s.bbox.xmax, LEAST));
    CHECK(has_bits(s.bbox.ymin, MINUS_LEAST) && has_bits(s.bbox.ymax, ZERO));
}

/* Two points of a kind with m, in so many parts, with a content of so many bytes. */
static void measures_of(const char *name, int32_t code, size_t parts, size_t size) {
    uint8_t out[8 + 112], entry[8];
    const uint32_t counts[] = {2};
    const double x[] = {0, 1}, y[] = {0, 1};
    const mbenaruul_bbox box = {0, 0, 1, 1, 0, 0, 0, 0};
    uint32_t c[1];
    double m[2], xs[2], ys[2], found[2];

    of = name;
    m[0] = double_of(LEAST);
    m[1] = double_of(MINUS_LEAST);
    mbenaruul_add_record(mbenaruul_new(), code, box, counts, parts, x, 2, y, 2, NULL, 0, m, 2, out, sizeof out, 0, entry, 8);
    CHECK(mbenaruul_read_record(out + 8, size, (int64_t)size, c, 1, xs, 2, ys, 2, NULL, 0, found, 2).refusal.number == 0);
    CHECK(has_bits(found[0], LEAST) && has_bits(found[1], MINUS_LEAST));
}

static void measures(void) {
    measures_of("m of a polyline", 23, 1, 112);
    measures_of("m of a multipoint", 28, 0, 104);
}

int main(int argc, char **argv) {
    const char *part = argc == 2 ? argv[1] : "";
    void (*run)(void) = strcmp(part, "closed") == 0 ? closed : strcmp(part, "boxes") == 0 ? boxes : strcmp(part, "measures") == 0 ? measures : NULL;

    if (run == NULL) {
        fprintf(stderr, "usage: modes closed|boxes|measures\n");
        return 2;
    }
    CHECK(!takes_least_for_zero());
    run();
    _mm_setcsr(_mm_getcsr() | FTZ_AND_DAZ);
    mode = "other";
    CHECK(takes_least_for_zero());
    run();
    printf("%s: %d checks, %d failed\n", part, checks, failed);
    return failed != 0;
}

/* A short evening of writing from C. Prints the checks that fail, and a line with their number. */
#include <stdio.h>
#include <string.h>

#include "mbenaruul.h"

static int checks = 0, failed = 0;

static void check(int holds, int line, const char *what) {
    checks++;
    if (!holds) {
        failed++;
        printf("evening.c:%d: %s\n", line, what);
    }
}
#define CHECK(x) check((x), __LINE__, #x)

static int is(mbenaruul_refusal r, uint32_t number, uint64_t first, uint64_t second) {
    return r.number == number && r.first == first && r.second == second;
}

static int same_state(mbenaruul_state a, mbenaruul_state b) {
    return a.words == b.words && a.number == b.number && a.kind == b.kind && a.points == b.points && memcmp(&a.bbox, &b.bbox, sizeof a.bbox) == 0;
}

static uint32_t counts[] = {2};
static double x[] = {1, 3}, y[] = {2, 4};
static mbenaruul_bbox box = {1, 2, 3, 4, 5, 6, 7, 8};

/* A short evening in one buffer for each way: by value, with the state lent, and with the accepted adds alone. In front of each record an add is refused,
 * for one reason after the other, and behind it the state is finished: what is there by then is a pair, and in the end all three are the same. */
enum { RUNS = 40 };
typedef struct { uint8_t shp[100 + 88 * RUNS], shx[100 + 8 * RUNS]; } files;
static const struct { int32_t code; size_t y_n, out_lacks, entry_n; uint32_t number; } wrong[] = {
    {99, 2, 0, 8, 4}, {31, 2, 0, 8, 9}, {5, 2, 0, 8, 5}, {3, 1, 0, 8, 10}, {3, 2, 1, 8, 6}, {3, 2, 0, 7, 6}};

static void finish_into(files *f, mbenaruul_state s) {
    mbenaruul_finished headers = mbenaruul_finish(s);
    CHECK(is(headers.refusal, 0, 0, 0));
    memcpy(f->shp, headers.shp, 100);
    memcpy(f->shx, headers.shx, 100);
}

static mbenaruul_added add_run(mbenaruul_state s, files *f, size_t k, int32_t code, size_t y_n, size_t out_n, size_t entry_n) {
    return mbenaruul_add_record(s, code, box, counts, 1, x, 2, y, y_n, NULL, 0, NULL, 0, f->shp, out_n, 100 + 88 * k, f->shx + 100 + 8 * k, entry_n);
}

static mbenaruul_written write_run(mbenaruul_state *s, files *f, size_t k, int32_t code, size_t y_n, size_t out_n, size_t entry_n) {
    return mbenaruul_write_shape(s, code, box, counts, 1, x, 2, y, y_n, NULL, 0, NULL, 0, f->shp, out_n, 100 + 88 * k, f->shx + 100 + 8 * k, entry_n);
}

static void evening(void) {
    static files a, b, c;
    mbenaruul_state given = mbenaruul_new(), lent = given, alone = given;
    size_t k, w, shp_n, shx_n;

    for (k = 0; k < RUNS; k++) {
        w = k % (sizeof wrong / sizeof *wrong);
        shp_n = 100 + 88 * (k + 1);
        shx_n = 100 + 8 * (k + 1);
        mbenaruul_added r = add_run(given, &a, k, wrong[w].code, wrong[w].y_n, shp_n - wrong[w].out_lacks, wrong[w].entry_n);
        mbenaruul_written q = write_run(&lent, &b, k, wrong[w].code, wrong[w].y_n, shp_n - wrong[w].out_lacks, wrong[w].entry_n);
        CHECK(r.refusal.number == wrong[w].number && q.refusal.number == wrong[w].number);
        CHECK(same_state(r.state, given) && same_state(lent, given));
        given = add_run(given, &a, k, 3, 2, shp_n, 8).state;
        alone = add_run(alone, &c, k, 3, 2, shp_n, 8).state;
        CHECK(is(write_run(&lent, &b, k, 3, 2, shp_n, 8).refusal, 0, 0, 0) && same_state(lent, given));
        finish_into(&a, given);
        finish_into(&b, lent);
        mbenaruul_pair_checked p = mbenaruul_check_pair(a.shp, shp_n, a.shx, shx_n);
        CHECK(is(p.refusal, 0, 0, 0) && p.totals.records == k + 1 && p.totals.parts == k + 1 && p.totals.points == 2 * (k + 1));
    }
    finish_into(&c, alone);
    CHECK(memcmp(&a, &b, sizeof a) == 0 && memcmp(&a, &c, sizeof a) == 0);
}

int main(void) {
    evening();
    printf("evening: %d checks, %d failed\n", checks, failed);
    return failed != 0;
}

/* Calling the library from C: reads the .shp and the .shx that are named and prints the pair checker's line.
 *
 *     cc -I include rust/c/example.c target/staticlib/libexport.a -o example
 *     ./example plan.shp plan.shx
 *
 * Exit status: 0 for a yes, 1 for a no, 2 if a file cannot be read.
 */
#include <stdio.h>
#include <stdlib.h>

#include "mbenaruul.h"

/* A whole file, or null if it cannot be read. There is a byte more than the file has, so that an empty file is not null. */
static uint8_t *read_file(const char *name, size_t *n) {
    FILE *in = fopen(name, "rb");
    uint8_t *bytes = NULL;
    long size;

    if (in == NULL)
        return NULL;
    if (fseek(in, 0, SEEK_END) == 0 && (size = ftell(in)) >= 0) {
        *n = (size_t)size;
        bytes = malloc(*n + 1);
        rewind(in);
        if (bytes != NULL && fread(bytes, 1, *n, in) != *n) {
            free(bytes);
            bytes = NULL;
        }
    }
    fclose(in);
    return bytes;
}

int main(int argc, char **argv) {
    uint8_t *shp, *shx;
    size_t shp_n, shx_n;
    mbenaruul_pair_checked checked;

    if (argc != 3) {
        fprintf(stderr, "usage: example SHP SHX\n");
        return 2;
    }
    shp = read_file(argv[1], &shp_n);
    shx = read_file(argv[2], &shx_n);
    if (shp == NULL || shx == NULL) {
        puts("cannot read");
        return 2;
    }
    checked = mbenaruul_check_pair(shp, shp_n, shx, shx_n);
    free(shp);
    free(shx);
    if (checked.refusal.number != 0) {
        printf("no rule=P%u record=%zu\n", (unsigned)checked.refusal.first, (size_t)checked.refusal.second);
        return 1;
    }
    printf("yes records=%zu parts=%zu points=%zu\n", checked.totals.records, checked.totals.parts, checked.totals.points);
    return 0;
}

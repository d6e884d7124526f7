/* Reads a sheet from standard input and prints the counts of its record, or the refusal. */
#include "fezandimo.h"

#include <inttypes.h>
#include <stdio.h>
#include <stdlib.h>

static uint32_t text[FEZANDIMO_LAYER], thins[FEZANDIMO_LAYER], bodies[FEZANDIMO_LAYER], grid[FEZANDIMO_LAYER];
static uint32_t spans[FEZANDIMO_SPANS];
static uint8_t bytes[FEZANDIMO_BYTES];

struct part {
    uint8_t *start;
    size_t count;
};

/* Makes a part longer or ends the program. */
static void lengthen(struct part *part, size_t count) {
    part->start = realloc(part->start, count);
    if (part->start == NULL) {
        fputs("no memory\n", stderr);
        exit(2);
    }
    part->count = count;
}

/* All of standard input. */
static struct part input(void) {
    struct part sheet = {NULL, 0};
    size_t used = 0, more;
    do {
        if (used == sheet.count)
            lengthen(&sheet, 2 * used + 4096);
        more = fread(sheet.start + used, 1, sheet.count - used, stdin);
        used += more;
    } while (more > 0);
    sheet.count = used;
    return sheet;
}

static struct fezandimo_answer answer(struct part sheet, struct part out) {
    return fezandimo_read_sheet(
        sheet.start, sheet.count, text, FEZANDIMO_LAYER, thins, FEZANDIMO_LAYER, bodies, FEZANDIMO_LAYER, grid, FEZANDIMO_LAYER,
        spans, FEZANDIMO_SPANS, bytes, FEZANDIMO_BYTES, out.start, out.count);
}

/* A word of a record: four bytes, the low one first. */
static uint32_t word(const uint8_t *record, size_t index) {
    const uint8_t *at = record + 4 * index;
    return at[0] | (uint32_t)at[1] << 8 | (uint32_t)at[2] << 16 | (uint32_t)at[3] << 24;
}

int main(void) {
    static const char *const names[] = {"bytes", "policy", "orientation", "inputs", "outputs", "annotations", "rules"};
    struct part sheet = input(), out = {NULL, 0};
    lengthen(&out, 1024);
    struct fezandimo_answer found = answer(sheet, out);
    if (found.n == FEZANDIMO_OUTPUT_SLICE_SHORT) {
        lengthen(&out, found.a);
        found = answer(sheet, out);
    }
    if (found.n != 0) {
        printf("refused %" PRIu64 " %" PRIu64 " %" PRIu64 "\n", found.n, found.a, found.b);
    } else {
        for (size_t index = 0; index < sizeof names / sizeof names[0]; index++)
            printf("%s %" PRIu32 "\n", names[index], word(out.start, index));
    }
    free(sheet.start);
    free(out.start);
    return 0;
}

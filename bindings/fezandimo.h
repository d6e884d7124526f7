/* Fezandimo, the reader of fare sheets: the functions of the static library libexports.a (tools/library builds it), on x86-64.
 *
 * Nothing is allocated and nothing is kept: the caller lends all memory, each slice as a pointer and the count of its elements.
 * A pointer is never null, also where the count is 0. A slice that is written to overlaps no other slice of the call.
 *
 * Work slices may hold anything before a call. They are zero after it, over their whole length, whatever the answer; but after
 * refusal 28 they are as they were.
 *
 * out may have any length. After a record its bytes are the first of out, and out is unchanged behind them; after a refusal out is
 * unchanged. */
#ifndef FEZANDIMO_H
#define FEZANDIMO_H

#include <stddef.h>
#include <stdint.h>

#ifdef __cplusplus
extern "C" {
#endif

/* The least elements of the work slices. */
enum {
    FEZANDIMO_LAYER = 15360,   /* uint32_t: text, thins, bodies and grid, a layer of the canvas each */
    FEZANDIMO_SPANS = 2048,    /* uint32_t: spans, where the regions' texts stand */
    FEZANDIMO_PLANE = 4160,    /* uint32_t: plane and upright, rows of cells */
    FEZANDIMO_SLOTS = 12480,   /* uint32_t: slots, where the record's texts stand */
    FEZANDIMO_BYTES = 61444    /* uint8_t: bytes, the regions' texts */
};

/* The refusals: N of an answer, with what A and B tell; where nothing is said they are 0. */
enum {
    FEZANDIMO_INVALID_UTF8 = 1,                /* A: place of the first ill-formed bytes */
    FEZANDIMO_CANVAS_TOO_LARGE = 2,            /* A: rows, at most 96; B: columns, at most 160 */
    FEZANDIMO_CHARACTERS_NOT_FOUND = 3,        /* A: code point of the first character that was sought */
    FEZANDIMO_CHARACTER_NOT_ALLOWED = 4,       /* A: code point of the character that was found */
    FEZANDIMO_RECTANGLE_NOT_CLOSED = 5,        /* A: column, B: row where the frame's walk ended */
    FEZANDIMO_REGION_NOT_FOUND = 6,            /* A: left, B: top of a frame that no region contains */
    FEZANDIMO_OVER_LIMIT = 7,                  /* regions, their texts or the plane are over the limits */
    FEZANDIMO_PLANE_EMPTY = 8,                 /* the plane has no rows */
    FEZANDIMO_NO_MAIN_CROSSING = 9,            /* no main crossing */
    FEZANDIMO_PLANE_MALFORMED = 10,            /* a row is missing or too short where the rules look for a cell */
    FEZANDIMO_INVALID_RULE_NUMBER = 11,        /* A: the rule number that is out of sequence */
    FEZANDIMO_EXPECTED_LEFT_BELOW = 12,        /* no rule numbers left below the double line */
    FEZANDIMO_EXPECTED_TOP_LEFT = 13,          /* no hit policy at the top left */
    FEZANDIMO_EXPECTED_RIGHT_AFTER = 14,       /* no rule numbers right after the double line */
    FEZANDIMO_EXPECTED_BOTTOM_LEFT = 15,       /* no hit policy at the bottom left */
    FEZANDIMO_EXPECTED_NO_RULE_NUMBERS = 16,   /* rule numbers where none are expected */
    FEZANDIMO_CROSSTAB = 17,                   /* a crosstab sheet */
    FEZANDIMO_CELL_OUT_OF_RANGE = 18,          /* A: row, B: column of a cell that is not there */
    FEZANDIMO_CELL_NOT_REGION = 19,            /* A: row, B: column of a cell that is no region */
    FEZANDIMO_CLAUSE_ROWS = 20,                /* A: clause rows, which are not 1 to 3 */
    FEZANDIMO_INVALID_INPUT_EXPRESSIONS = 21,  /* input expressions in three clause rows */
    FEZANDIMO_INVALID_OUTPUT_EXPRESSIONS = 22, /* output expressions in three clause rows */
    FEZANDIMO_NO_OUTPUT_CLAUSE = 23,           /* no output clause */
    FEZANDIMO_TOO_MANY_OUTPUT_ROWS = 24,       /* one output under three clause rows */
    FEZANDIMO_INVALID_SIZE = 25,               /* A: the check of sizes that fails, 1 to 13 */
    FEZANDIMO_LENT_PLANE_MALFORMED = 26,       /* the lists of a lent plane are over the limits or do not fit together */
    FEZANDIMO_OUTPUT_SLICE_SHORT = 27,         /* A: bytes that the output slice needs; comes last */
    FEZANDIMO_WORK_SLICE_SHORT = 28            /* A: number of the first short work slice, B: its least elements; comes first */
};

/* n = 0: a record of a bytes, and b = 0; else the refusal n with its A and B. */
struct fezandimo_answer {
    uint64_t n, a, b;
};

/* The whole reader: a sheet in UTF-8 to its record. */
struct fezandimo_answer fezandimo_read_sheet(
    const uint8_t *sheet, size_t sheet_count, /* any length */
    uint32_t *text, size_t text_count,        /* work slice 0: FEZANDIMO_LAYER */
    uint32_t *thins, size_t thin_count,       /* work slice 1: FEZANDIMO_LAYER */
    uint32_t *bodies, size_t body_count,      /* work slice 2: FEZANDIMO_LAYER */
    uint32_t *grid, size_t grid_count,        /* work slice 3: FEZANDIMO_LAYER */
    uint32_t *spans, size_t span_count,       /* work slice 4: FEZANDIMO_SPANS */
    uint8_t *bytes, size_t byte_count,        /* work slice 5: FEZANDIMO_BYTES */
    uint8_t *out, size_t out_count);          /* the record */

/* The table from a lent plane, which has no name. */
struct fezandimo_answer fezandimo_read_lent_plane(
    const uint32_t *rows, size_t row_count,       /* cells in each row */
    const uint8_t *kinds, size_t kind_count,      /* kind of each cell, 0 to 7, row by row */
    const uint32_t *regions, size_t region_count, /* region of each cell of kind 0; of others any number */
    const uint32_t *offsets, size_t offset_count, /* first byte of each region's text */
    const uint32_t *sizes, size_t size_count,     /* bytes of each region's text */
    const uint8_t *bytes, size_t byte_count,      /* the texts, in UTF-8 */
    uint32_t *plane, size_t plane_count,          /* work slice 0: FEZANDIMO_PLANE */
    uint32_t *spans, size_t span_count,           /* work slice 1: FEZANDIMO_SPANS */
    uint32_t *upright, size_t upright_count,      /* work slice 2: FEZANDIMO_PLANE */
    uint32_t *slots, size_t slot_count,           /* work slice 3: FEZANDIMO_SLOTS */
    uint8_t *out, size_t out_count);              /* the record */

/* n = 0: the values of a text; else the refusal n, 1 or 27, with its A and B. */
struct fezandimo_split {
    uint64_t n, a, b;
    uint64_t rewritten; /* 0: the text is its own allowed values, without a default; 1: they stand in scratch */
    size_t length;      /* bytes of the allowed values in scratch, where they are rewritten */
    size_t from, to;    /* the default is the text from here to before there, where they are rewritten */
};

/* The value split: the allowed values and the default of an output clause's text, in UTF-8. */
struct fezandimo_split fezandimo_split_values(
    const uint8_t *text, size_t text_count,  /* any length */
    uint8_t *scratch, size_t scratch_count); /* as long as the text is enough; only the bytes of the values change */

#ifdef __cplusplus
}
#endif

#endif

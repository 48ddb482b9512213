/*
 * Pairing small wool parcels, from C.
 *
 * A sheet's text says which parcels may be paired and how many cents each such
 * pair ranks by; a result text says which are. docs/TEXT.md and docs/RESULTS.md
 * have the two forms, docs/FAULTS.md the numbers of the refusals.
 *
 * Both calls take every text of a sheet within the limits: at most 1,024
 * parcels, 16,384 entries and 64 stores. They keep nothing between calls,
 * allocate nothing, and may be made from several threads at once, each with
 * about half a megabyte of stack (docs/DOOR.md).
 *
 * A pointer must not be null, also where the length beside it is 0, and `out`
 * must not overlap `text`.
 */
#ifndef WOOL_H
#define WOOL_H

#include <stddef.h>
#include <stdint.h>

#ifdef __cplusplus
extern "C" {
#endif

/* So many bytes suffice for every result text. */
#define WOOL_MOST_RESULT 8192

/* What pairing a text answers. */
struct wool_answer {
    size_t written;  /* how many bytes the result text has; 0 where refused */
    uint32_t number; /* the number of the refusal; 0 where paired */
    uint32_t place;  /* the place of the refusal; 0 where paired */
};

/* What checking a text answers. */
struct wool_verdict {
    uint32_t parcels; /* the sizes of the sheet; 0 where refused */
    uint32_t entries;
    uint32_t stores;
    uint32_t number;  /* the number of the refusal; 0 where the sheet passes */
    uint32_t place;   /* the place of the refusal; 0 where the sheet passes */
};

/*
 * Reads and checks a sheet's text. Refuses, in this order: a first line that
 * has not the form (1, at line 1), a size outside the limits (2, at 0), the
 * first other line that has not the form, is missing or is one too many (1, at
 * its number), the first parcel whose row or store is wrong (4, at the parcel),
 * and the first wrong entry (5 to 8, at the entry).
 */
struct wool_verdict wool_check(const uint8_t *text, size_t text_length);

/*
 * Pairs a sheet's text, writes the result text to the front of `out`, and
 * leaves the bytes past it as they were. Refuses what wool_check refuses, and
 * then an `out` that is shorter than the result text (3, at 0); a refusal
 * leaves `out` as it was.
 */
struct wool_answer wool_pair(const uint8_t *text, size_t text_length,
                             uint8_t *out, size_t out_length);

#ifdef __cplusplus
}
#endif

#endif

/* The same rules in plain C: what a C programmer writes who updates in place, through pointers. It is
 * compiled once for each level of optimisation, and each compilation offers one table of its functions.
 * Answers are refusals, 0 for none; after a refusal nothing that a pointer leads to has changed. */
#ifndef PLAIN_H
#define PLAIN_H

#include "tabor.h"

/* What an arrival leads to besides the next record. Where nothing is sent the segment is not touched. */
struct plain_reply {
    struct tabor_segment segment;
    uint8_t sent;
    uint8_t drawn;
};

struct plain_totals {
    size_t taken;
    size_t refused;
    size_t turned;
};

struct plain {
    /* carry after every word, and carry at the end */
    uint16_t (*checksum)(uint32_t src, uint32_t dst, const uint8_t *octets, size_t size);
    uint16_t (*deferred)(uint32_t src, uint32_t dst, const uint8_t *octets, size_t size);

    uint8_t (*read)(uint32_t src, uint32_t dst, const uint8_t *octets, size_t size, struct tabor_header *h);
    uint8_t (*write)(uint32_t src, uint32_t dst, const struct tabor_header *h, uint8_t *out, size_t out_size);

    uint8_t (*arrive)(struct tabor_record *r, const struct tabor_segment *g, uint32_t fresh,
                      struct plain_reply *reply);
    uint8_t (*arrive_octets)(struct tabor_record *r, uint32_t src, uint32_t dst, const uint8_t *octets,
                             size_t size, uint32_t fresh, uint8_t *out, size_t out_size,
                             struct plain_reply *reply);

    /* the same, with the library's way in and out: structs by value */
    struct tabor_told (*arrive_by_value)(struct tabor_record r, struct tabor_segment g, uint32_t fresh);
    struct tabor_told (*arrive_octets_by_value)(struct tabor_record r, uint32_t src, uint32_t dst,
                                                const uint8_t *octets, size_t size, uint32_t fresh,
                                                uint8_t *out, size_t out_size);

    uint8_t (*play)(struct tabor_model *m, const uint8_t *octets, size_t size, struct plain_totals *totals);

    /* with the cleared frame of 1,500 octets that 01 names, and without it */
    size_t (*run)(const uint8_t *input, size_t size, uint8_t *out);
    size_t (*run_unframed)(const uint8_t *input, size_t size, uint8_t *out);
};

extern const struct plain plain_o2, plain_o3;

/* lwIP's checksum in the same clothes; the rest of the table is empty. */
extern const struct plain plain_lwip;

#endif

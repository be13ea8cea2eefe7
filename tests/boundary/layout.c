/* Where tabor.h lays every field (System V, x86-64): checked when this is compiled, and printed one line
 * each, `struct.field offset size`, for tests/cside to compare with what layout.rs prints. The numbers
 * are worked out by hand from the sizes of the fields and their alignment. */
#include <stdalign.h>
#include <stdio.h>
#include "tabor.h"

#define STRUCT(name, size, align) \
    _Static_assert(sizeof(struct tabor_##name) == (size), "size of " #name); \
    _Static_assert(alignof(struct tabor_##name) == (align), "alignment of " #name); \
    printf(#name " %zu %zu\n", sizeof(struct tabor_##name), alignof(struct tabor_##name))

#define FIELD(name, field, offset, size) \
    _Static_assert(offsetof(struct tabor_##name, field) == (offset), "offset of " #name "." #field); \
    _Static_assert(sizeof(((struct tabor_##name *)0)->field) == (size), "size of " #name "." #field); \
    printf(#name "." #field " %zu %zu\n", offsetof(struct tabor_##name, field), \
           sizeof(((struct tabor_##name *)0)->field))

int main(void)
{
    STRUCT(record, 36, 4);
    FIELD(record, iss, 0, 4);
    FIELD(record, una, 4, 4);
    FIELD(record, nxt, 8, 4);
    FIELD(record, irs, 12, 4);
    FIELD(record, rcvnxt, 16, 4);
    FIELD(record, own, 20, 4);
    FIELD(record, peer, 24, 4);
    FIELD(record, rcvwnd, 28, 2);
    FIELD(record, ownport, 30, 2);
    FIELD(record, peerport, 32, 2);
    FIELD(record, state, 34, 1);
    FIELD(record, passive, 35, 1);

    STRUCT(header, 20, 4);
    FIELD(header, seq, 0, 4);
    FIELD(header, ack, 4, 4);
    FIELD(header, source, 8, 2);
    FIELD(header, destination, 10, 2);
    FIELD(header, window, 12, 2);
    FIELD(header, urgent, 14, 2);
    FIELD(header, control, 16, 1);

    STRUCT(segment, 32, 4);
    FIELD(segment, header, 0, 20);
    FIELD(segment, src, 20, 4);
    FIELD(segment, dst, 24, 4);
    FIELD(segment, text, 28, 4);

    STRUCT(told, 72, 4);
    FIELD(told, next, 0, 36);
    FIELD(told, segment, 36, 32);
    FIELD(told, refusal, 68, 1);
    FIELD(told, sent, 69, 1);
    FIELD(told, drawn, 70, 1);

    STRUCT(reading, 24, 4);
    FIELD(reading, header, 0, 20);
    FIELD(reading, refusal, 20, 1);

    STRUCT(link, 1032, 8);
    FIELD(link, slots, 0, 1024);
    FIELD(link, slots[1], 32, 32);
    FIELD(link, slots[31], 992, 32);
    FIELD(link, count, 1024, 8);

    STRUCT(model, 2136, 8);
    FIELD(model, a, 0, 36);
    FIELD(model, b, 36, 36);
    FIELD(model, toa, 72, 1032);
    FIELD(model, tob, 1104, 1032);

    STRUCT(stepped, 2176, 8);
    FIELD(stepped, model, 0, 2136);
    FIELD(stepped, segment, 2136, 32);
    FIELD(stepped, refusal, 2168, 1);
    FIELD(stepped, sent, 2169, 1);
    FIELD(stepped, drawn, 2170, 1);
    FIELD(stepped, turned, 2171, 1);

    STRUCT(played, 2168, 8);
    FIELD(played, model, 0, 2136);
    FIELD(played, taken, 2136, 8);
    FIELD(played, refused, 2144, 8);
    FIELD(played, turned, 2152, 8);
    FIELD(played, refusal, 2160, 1);
    return 0;
}

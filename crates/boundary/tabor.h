/* The proved TCP station for C: link crates/boundary/out/libboundary.a, which `rt lib` in crates/boundary writes.
 * Of the C library it needs memcpy, memmove and memset.
 *
 * Every function takes any octets and any numbers and answers by the rules of the papers. A refusal is
 * the papers' number, in the field or the result named for it; 0 is none. After a refusal the record, the
 * model and the output octets are as they were. The structs pass by value; nothing is kept between calls,
 * so any thread may call any function.
 *
 * Addresses, ports and sequence numbers are plain numbers, not in network order: 10.0.0.1 is 0x0a000001.
 * A pointer points to as many octets as the size beside it says, and octets that a function reads and
 * octets that it writes do not overlap. Some structs have padding: compare their fields, not their octets.
 *
 * Draw numbers at least 65,536 apart, either way round the circle of 2^32, from every number that this
 * station drew before, also before a power cut. On that the promise rests that no late segment of an old
 * connection is taken by a new one.
 */
#ifndef TABOR_H
#define TABOR_H

#include <stddef.h>
#include <stdint.h>

#ifdef __cplusplus
extern "C" {
#endif

enum { TABOR_CLOSED = 0, TABOR_LISTEN = 1, TABOR_SYN_SENT = 2, TABOR_SYN_RECEIVED = 3, TABOR_ESTABLISHED = 4 };

enum { TABOR_FIN = 1, TABOR_SYN = 2, TABOR_RST = 4, TABOR_PSH = 8, TABOR_ACK = 16, TABOR_URG = 32, TABOR_ECE = 64, TABOR_CWR = 128 };

/* A station's record. Another state than the five, or another mark than 0 and 1, is refusal 1. */
struct tabor_record {
    uint32_t iss;
    uint32_t una; /* SND.UNA */
    uint32_t nxt; /* SND.NXT */
    uint32_t irs;
    uint32_t rcvnxt; /* RCV.NXT */
    uint32_t own;
    uint32_t peer;
    uint16_t rcvwnd; /* RCV.WND */
    uint16_t ownport;
    uint16_t peerport;
    uint8_t state;
    uint8_t passive; /* the mark "opened passively": 0 no, 1 yes */
};

/* A header's fields. The control bits are the header's octet: TABOR_CWR high to TABOR_FIN low. */
struct tabor_header {
    uint32_t seq;
    uint32_t ack;
    uint16_t source;
    uint16_t destination;
    uint16_t window;
    uint16_t urgent;
    uint8_t control;
};

/* A segment: a header's fields, its source and destination address, its length of text. */
struct tabor_segment {
    struct tabor_header header;
    uint32_t src;
    uint32_t dst;
    uint32_t text;
};

/* What a call tells: the next record, whether a segment was sent and which (zero where none was), and
 * whether the number offered was drawn. After a refusal: the record that came in, and zero. */
struct tabor_told {
    struct tabor_record next;
    struct tabor_segment segment;
    uint8_t refusal;
    uint8_t sent;
    uint8_t drawn;
};

/* What a header read tells: the fields, zero after a refusal. */
struct tabor_reading {
    struct tabor_header header;
    uint8_t refusal;
};

/* The calls of a station. Refusals 1, 7, 8. Open draws the number n. */
struct tabor_told tabor_open(struct tabor_record r, uint32_t n);
struct tabor_told tabor_listen(struct tabor_record r);
struct tabor_told tabor_abort(struct tabor_record r);
struct tabor_told tabor_resend(struct tabor_record r);
struct tabor_told tabor_power_cut(struct tabor_record r);

/* A segment arrives; the fresh number is drawn only where LISTEN takes a SYN. Refusals 1, 5, 6. */
struct tabor_told tabor_arrive(struct tabor_record r, struct tabor_segment g, uint32_t fresh);

/* Octets arrive between two addresses. What is sent is also written to the first 20 octets of the
 * output, and no others. Refusals 1 to 6, then 10 for an output below 20 octets, whether or not
 * anything would be sent. */
struct tabor_told tabor_arrive_octets(struct tabor_record r, uint32_t src, uint32_t dst,
                                      const uint8_t *octets, size_t size, uint32_t fresh,
                                      uint8_t *out, size_t out_size);

/* A header read. Refusals 2, 3, 4, 6. */
struct tabor_reading tabor_read(uint32_t src, uint32_t dst, const uint8_t *octets, size_t size);

/* A header written to the first 20 octets of the output: 0, or refusal 6 or 10. */
uint8_t tabor_write(uint32_t src, uint32_t dst, struct tabor_header h, uint8_t *out, size_t out_size);

/* The checksum of a segment's octets in which the checksum is zero. */
uint16_t tabor_checksum(uint32_t src, uint32_t dst, const uint8_t *octets, size_t size);

/* ---- two stations and their links, for tests: the player needs some 240,000 octets of stack */

/* A link: the first count slots hold segments, in the order sent. */
struct tabor_link {
    struct tabor_segment slots[32];
    size_t count;
};

/* Stations A and B, the link towards A and the link towards B. */
struct tabor_model {
    struct tabor_record a;
    struct tabor_record b;
    struct tabor_link toa;
    struct tabor_link tob;
};

/* What one event tells: as a call does, and whether what was sent was turned away from a full link. After
 * a refusal: the model that came in, and zero. */
struct tabor_stepped {
    struct tabor_model model;
    struct tabor_segment segment;
    uint8_t refusal;
    uint8_t sent;
    uint8_t drawn;
    uint8_t turned;
};

/* What the player tells: how many events were taken and refused, how many segments were turned away.
 * After a refusal: the model that came in, and zero. */
struct tabor_played {
    struct tabor_model model;
    size_t taken;
    size_t refused;
    size_t turned;
    uint8_t refusal;
};

/* An event is ten octets: its kind, its side (0 A, 1 B), a place in four octets and a number in four
 * octets, high octet first. Deliver, copy and lose name the side that the link leads to. What a kind
 * does not use is not looked at: open uses the number, copy and lose the place, deliver both. */
enum {
    TABOR_EVENT_OPEN = 0,
    TABOR_EVENT_LISTEN = 1,
    TABOR_EVENT_ABORT = 2,
    TABOR_EVENT_RESEND = 3,
    TABOR_EVENT_POWER_CUT = 4,
    TABOR_EVENT_DELIVER = 5,
    TABOR_EVENT_COPY = 6,
    TABOR_EVENT_LOSE = 7,
    TABOR_EVENT_SIZE = 10,
    TABOR_EVENTS = 4096
};

/* No refusal of the papers: octets that are no event or no list of events, that is a size that is not ten
 * or no multiple of ten, a kind above 7 or a side above 1 anywhere. */
enum { TABOR_NO_LIST = 255 };

/* One event. TABOR_NO_LIST, then refusals 1, and those of the event: 5 to 9, 11. */
struct tabor_stepped tabor_step(struct tabor_model m, const uint8_t *octets, size_t size);

/* A list of events, played. TABOR_NO_LIST, then refusals 1 and 12. What its events are refused for is
 * counted, not told. */
struct tabor_played tabor_play(struct tabor_model m, const uint8_t *octets, size_t size);

/* The whole program: how many octets of the output are written. Octets past 65,535 of the input are
 * not read; octets of the output past the count are as they were. */
size_t tabor_run(const uint8_t *input, size_t size, uint8_t out[65535]);

#ifdef __cplusplus
}
#endif

#endif

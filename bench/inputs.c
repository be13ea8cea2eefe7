#include "inputs.h"
#include <string.h>

/* ---- numbers */

/* xorshift64*: quick, and the same numbers in every run. */
uint32_t draw(void)
{
    static uint64_t x = 0x9e3779b97f4a7c15;
    x ^= x >> 12;
    x ^= x << 25;
    x ^= x >> 27;
    return (uint32_t)(x * 0x2545f4914f6cdd1d >> 32);
}

uint32_t below(uint32_t n)
{
    return draw() % n;
}

void fill(uint8_t *octets, size_t size)
{
    size_t i;
    for (i = 0; i < size; i++)
        octets[i] = (uint8_t)draw();
}

/* ---- records and segments */

struct tabor_record record_in(uint8_t state)
{
    struct tabor_record r = {.state = state, .own = draw(), .peer = draw(), .ownport = (uint16_t)draw(),
                             .peerport = (uint16_t)draw(), .rcvwnd = (uint16_t)(1 + below(65535)),
                             .passive = state == TABOR_LISTEN};
    if (state >= TABOR_SYN_SENT) {
        r.iss = r.una = draw();
        r.nxt = r.iss + 1;
    }
    if (state >= TABOR_SYN_RECEIVED) {
        r.irs = draw();
        r.rcvnxt = r.irs + 1;
        r.passive = (uint8_t)below(2);
    }
    if (state == TABOR_ESTABLISHED)
        r.una = r.nxt;
    return r;
}

struct tabor_segment toward(const struct tabor_record *r, uint32_t seq, uint32_t ack, uint8_t control)
{
    struct tabor_segment g = {{seq, ack, r->peerport, r->ownport, (uint16_t)draw(), 0, control}, r->peer,
                              r->own, 0};
    return g;
}

struct tabor_record record_for(enum arrival kind)
{
    static const uint8_t states[ARRIVALS] = {TABOR_CLOSED, TABOR_LISTEN, TABOR_SYN_SENT, TABOR_SYN_RECEIVED,
                                             TABOR_ESTABLISHED, TABOR_ESTABLISHED};
    return record_in(states[kind]);
}

struct tabor_segment segment_for(enum arrival kind, const struct tabor_record *r)
{
    switch (kind) {
    case AT_CLOSED:
    case AT_LISTEN:
        return toward(r, draw(), 0, TABOR_SYN);
    case AT_SYN_SENT:
        return toward(r, draw(), r->iss + 1, TABOR_SYN | TABOR_ACK);
    case AT_SYN_RECEIVED:
        return toward(r, r->rcvnxt, r->iss + 1, TABOR_ACK);
    case IN_WINDOW:
        return toward(r, r->rcvnxt + below(r->rcvwnd), r->nxt, TABOR_ACK);
    default:
        return toward(r, r->rcvnxt + r->rcvwnd + below(1u << 20), r->nxt, TABOR_ACK);
    }
}

void seal(const struct tabor_segment *g, uint8_t *octets, size_t size)
{
    uint16_t check;
    octets[16] = octets[17] = 0;
    check = tabor_checksum(g->src, g->dst, octets, size);
    octets[16] = (uint8_t)(check >> 8);
    octets[17] = (uint8_t)check;
}

void octets_of(const struct tabor_segment *g, uint8_t out[20])
{
    struct tabor_header h = g->header;
    h.control &= (uint8_t)~TABOR_FIN; /* which the library does not write */
    tabor_write(g->src, g->dst, h, out, 20);
    out[13] = g->header.control;
    seal(g, out, 20);
}

/* ---- models and events */

static void mirror(struct tabor_model *m)
{
    m->b.own = m->a.peer;
    m->b.peer = m->a.own;
    m->b.ownport = m->a.peerport;
    m->b.peerport = m->a.ownport;
}

struct tabor_model model_at_rest(void)
{
    struct tabor_model m = {.a = record_in(TABOR_CLOSED), .b = record_in(TABOR_CLOSED)};
    mirror(&m);
    return m;
}

static void put32(uint8_t *p, uint32_t n)
{
    p[0] = (uint8_t)(n >> 24);
    p[1] = (uint8_t)(n >> 16);
    p[2] = (uint8_t)(n >> 8);
    p[3] = (uint8_t)n;
}

/* Power cuts and aborts are rare, so that openings get through. */
static uint8_t any_kind(void)
{
    static const uint8_t often[32] = {
        5, 5, 5, 5, 5, 5, 5, 5, 5, 5, 5, 5, 5, 5, 5, 5, /* half are deliveries */
        0, 0, 0, 1, 1, 1, 2, 3, 3, 3, 4, 6, 6, 7, 7, 7};
    return often[below(32)];
}

void make_events(uint8_t *octets, size_t count)
{
    size_t i;
    for (i = 0; i < count; i++, octets += TABOR_EVENT_SIZE) {
        octets[0] = any_kind();
        octets[1] = (uint8_t)below(2);
        put32(octets + 2, below(3));
        put32(octets + 6, draw());
    }
}

/* ---- the program's stream */

/* A datagram from the program's peer to its station. */
static size_t put_datagram(uint8_t *octets, uint32_t seq, uint32_t ack, uint8_t control)
{
    static const uint8_t ip[20] = {0x45, 0, 0, 40, 0, 0, 0x40, 0, 64, 6, 0x26, 0xce, 10, 0, 0, 1, 10, 0, 0, 2};
    struct tabor_segment g = {{seq, ack, 1024, 2000, 4096, 0, control}, 0x0a000001, 0x0a000002, 0};
    memcpy(octets, ip, sizeof ip);
    octets_of(&g, octets + sizeof ip);
    return 40;
}

size_t make_stream(uint8_t *octets, size_t size)
{
    size_t done = 0;
    while (size - done >= 120) {
        uint32_t seq = draw();
        done += put_datagram(octets + done, seq, 0, TABOR_SYN);
        done += put_datagram(octets + done, seq + 1, 7, TABOR_ACK);
        done += put_datagram(octets + done, seq + 1, 0, TABOR_RST);
    }
    return done;
}

/* ---- right, nearly right and wrong */

struct tabor_record any_record(void)
{
    struct tabor_record r = record_in((uint8_t)below(5));
    switch (below(16)) {
    case 0: r.iss++; break;
    case 1: r.rcvnxt ^= draw(); break;
    case 2: r.rcvwnd = 0; break;
    case 3: r.state = (uint8_t)draw(); break;
    case 4: r.passive = (uint8_t)below(3); break;
    }
    return r;
}

struct tabor_segment any_segment(const struct tabor_record *r)
{
    struct tabor_segment g = toward(r, r->rcvnxt + below(4) - 2, r->nxt + below(4) - 2, (uint8_t)(draw() & ~1u));
    if (below(4) == 0)
        g.header.seq = r->rcvnxt + r->rcvwnd + below(3) - 2;
    if (below(4) == 0)
        g.header.ack = draw();
    switch (below(24)) {
    case 0: g.header.control |= TABOR_FIN; break;
    case 1: g.text = 1; break;
    case 2: g.src++; break;
    case 3: g.dst++; break;
    case 4: g.header.source++; break;
    case 5: g.header.destination++; break;
    }
    return g;
}

size_t any_octets(const struct tabor_segment *g, uint8_t out[64])
{
    size_t size = 20;
    octets_of(g, out);
    fill(out + 20, 44);
    if (below(4) == 0) { /* options, text, cut or an odd last octet, the sum right again */
        size = below(65);
        out[12] = (uint8_t)draw();
        seal(g, out, size);
    }
    if (below(8) == 0)
        out[below(20)] ^= (uint8_t)(1 << below(8));
    return size;
}

static void any_link(struct tabor_link *l, const struct tabor_record *r)
{
    size_t i;
    l->count = below(below(64) ? 33 : 40);
    for (i = 0; i < 32; i++)
        l->slots[i] = any_segment(r);
}

struct tabor_model any_model(void)
{
    struct tabor_model m = {.a = record_in((uint8_t)below(5)), .b = record_in((uint8_t)below(5))};
    mirror(&m);
    if (below(32) == 0)
        m.a = any_record();
    any_link(&m.toa, &m.a);
    any_link(&m.tob, &m.b);
    return m;
}

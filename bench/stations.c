/* Contests of one station: a segment arrives, octets arrive, a passive opening from octets to octets. Its
 * owner holds the record in both cases: plain C updates it in place, the library's caller stores the next
 * one where the last one was. */
#include "bench.h"
#include "inputs.h"
#include "same.h"
#include <string.h>

enum { STATIONS = 256, OPENINGS = 128, CHECKS = 20000 };

struct arriving {
    struct tabor_segment segment;
    uint32_t fresh;
    uint8_t octets[20];
};

static struct tabor_record starts[ARRIVALS][STATIONS];
static struct arriving arriving[ARRIVALS][STATIONS];

/* A SYN, then the ACK of the SYN,ACK that it draws. */
static struct arriving syns[OPENINGS], acks[OPENINGS];

/* The records that a lap updates. */
static struct tabor_record records[STATIONS];

/* ---- that the answers are alike */

/* The library's answer against plain C's, which took the record on from there. */
static void check_told(const char *what, const struct tabor_told *told, uint8_t refusal,
                       const struct tabor_record *next, const struct plain_reply *reply)
{
    same(what, told->refusal, refusal);
    same_record(what, &told->next, next);
    if (refusal)
        return;
    same(what, told->sent, reply->sent);
    same(what, told->drawn, reply->drawn);
    if (reply->sent)
        same_segment(what, &told->segment, &reply->segment);
}

static void check_by_value(const char *what, const struct tabor_told *proved, const struct tabor_told *plain)
{
    same(what, proved->refusal, plain->refusal);
    same(what, proved->sent, plain->sent);
    same(what, proved->drawn, plain->drawn);
    same_record(what, &proved->next, &plain->next);
    same_segment(what, &proved->segment, &plain->segment);
}

static void check_arrive(const struct plain *plain, struct tabor_record r, const struct tabor_segment *g)
{
    uint32_t fresh = draw();
    struct tabor_told told = tabor_arrive(r, *g, fresh), by_value = plain->arrive_by_value(r, *g, fresh);
    struct plain_reply reply;
    uint8_t refusal = plain->arrive(&r, g, fresh, &reply);
    check_told("arrive", &told, refusal, &r, &reply);
    check_by_value("arrive, by value", &told, &by_value);
}

static void check_octets(const struct plain *plain, struct tabor_record r, const struct tabor_segment *g)
{
    uint8_t s[64], proved[24] = {0}, other[24] = {0};
    size_t size = any_octets(g, s), room = below(8) ? 24 : below(24);
    uint32_t fresh = draw();
    struct tabor_told told = tabor_arrive_octets(r, g->src, g->dst, s, size, fresh, proved, room), by_value;
    struct plain_reply reply;
    uint8_t refusal;
    by_value = plain->arrive_octets_by_value(r, g->src, g->dst, s, size, fresh, other, room);
    check_by_value("arrive, octets by value", &told, &by_value);
    same_octets("arrive, octets out by value", proved, other, sizeof proved);
    memset(other, 0, sizeof other);
    refusal = plain->arrive_octets(&r, g->src, g->dst, s, size, fresh, other, room, &reply);
    check_told("arrive, octets", &told, refusal, &r, &reply);
    same_octets("arrive, octets out", proved, other, sizeof proved);
}

/* ---- laps */

static void ready(const struct contest *c)
{
    memcpy(records, starts[c->input], sizeof records);
}

static void arrive_proved(const struct contest *c)
{
    unsigned i;
    for (i = 0; i < c->calls; i++) {
        const struct arriving *a = &arriving[c->input][i];
        struct tabor_told told = tabor_arrive(records[i], a->segment, a->fresh);
        records[i] = told.next;
        keep(&told);
    }
}

static void arrive_plain(const struct contest *c, const struct plain *plain)
{
    unsigned i;
    for (i = 0; i < c->calls; i++) {
        const struct arriving *a = &arriving[c->input][i];
        struct plain_reply reply;
        uint8_t refusal = plain->arrive(&records[i], &a->segment, a->fresh, &reply);
        keep(&reply);
        keep(&refusal);
    }
}

static void arrive_by_value(const struct contest *c, const struct plain *plain)
{
    unsigned i;
    for (i = 0; i < c->calls; i++) {
        const struct arriving *a = &arriving[c->input][i];
        struct tabor_told told = plain->arrive_by_value(records[i], a->segment, a->fresh);
        records[i] = told.next;
        keep(&told);
    }
}

/* Octets arrive at a record; what is sent is octets too. */
static void octets_proved(struct tabor_record *r, const struct arriving *a)
{
    uint8_t out[20];
    struct tabor_told told = tabor_arrive_octets(*r, a->segment.src, a->segment.dst, a->octets, sizeof a->octets,
                                                 a->fresh, out, sizeof out);
    *r = told.next;
    keep(out);
    keep(&told);
}

static void octets_plain(struct tabor_record *r, const struct arriving *a, const struct plain *plain)
{
    uint8_t out[20];
    struct plain_reply reply;
    uint8_t refusal = plain->arrive_octets(r, a->segment.src, a->segment.dst, a->octets, sizeof a->octets,
                                           a->fresh, out, sizeof out, &reply);
    keep(out);
    keep(&reply);
    keep(&refusal);
}

static void octets_by_value(struct tabor_record *r, const struct arriving *a, const struct plain *plain)
{
    uint8_t out[20];
    struct tabor_told told = plain->arrive_octets_by_value(*r, a->segment.src, a->segment.dst, a->octets,
                                                           sizeof a->octets, a->fresh, out, sizeof out);
    *r = told.next;
    keep(out);
    keep(&told);
}

static void arrive_octets_proved(const struct contest *c)
{
    unsigned i;
    for (i = 0; i < c->calls; i++)
        octets_proved(&records[i], &arriving[c->input][i]);
}

static void arrive_octets_plain(const struct contest *c, const struct plain *plain)
{
    unsigned i;
    for (i = 0; i < c->calls; i++)
        octets_plain(&records[i], &arriving[c->input][i], plain);
}

static void openings_proved(const struct contest *c)
{
    unsigned i;
    for (i = 0; i < c->calls; i++) {
        octets_proved(&records[i], &syns[i]);
        octets_proved(&records[i], &acks[i]);
    }
}

static void openings_plain(const struct contest *c, const struct plain *plain)
{
    unsigned i;
    for (i = 0; i < c->calls; i++) {
        octets_plain(&records[i], &syns[i], plain);
        octets_plain(&records[i], &acks[i], plain);
    }
}

static void openings_by_value(const struct contest *c, const struct plain *plain)
{
    unsigned i;
    for (i = 0; i < c->calls; i++) {
        octets_by_value(&records[i], &syns[i], plain);
        octets_by_value(&records[i], &acks[i], plain);
    }
}

/* ---- the contests */

static struct arriving arriving_of(struct tabor_segment g)
{
    struct arriving a = {.segment = g, .fresh = draw()};
    octets_of(&g, a.octets);
    return a;
}

static void make_arrivals(void)
{
    int kind, i;
    for (kind = 0; kind < ARRIVALS; kind++)
        for (i = 0; i < STATIONS; i++) {
            starts[kind][i] = record_for(kind);
            arriving[kind][i] = arriving_of(segment_for(kind, &starts[kind][i]));
        }
}

/* The openings begin at the records of AT_LISTEN. */
static void make_openings(void)
{
    int i;
    for (i = 0; i < OPENINGS; i++) {
        const struct tabor_record *r = &starts[AT_LISTEN][i];
        uint32_t seq = draw();
        syns[i] = arriving_of(toward(r, seq, 0, TABOR_SYN));
        acks[i] = arriving_of(toward(r, seq + 1, syns[i].fresh + 1, TABOR_ACK));
    }
}

/* In place, and for two arrivals also by value: how much of the difference is the boundary's. */
static void enter_segments(void)
{
    static const char *const names[ARRIVALS] = {
        "segment at CLOSED: SYN, drawing a reset", "segment at LISTEN: SYN", "segment at SYN-SENT: SYN,ACK",
        "segment at SYN-RECEIVED: ACK", "segment at ESTABLISHED: ACK in window",
        "segment at ESTABLISHED: ACK out of window"};
    unsigned kind;
    for (kind = 0; kind < ARRIVALS; kind++) {
        struct contest c = {names[kind], "in place", STATIONS, kind, ready, arrive_proved, arrive_plain,
                            {&plain_o2, &plain_o3}};
        enter(c);
        if (kind != AT_LISTEN && kind != IN_WINDOW)
            continue;
        c.against = "by value";
        c.plain = arrive_by_value;
        enter(c);
    }
}

static void enter_octets(void)
{
    static const char *const names[ARRIVALS] = {
        "octets at CLOSED: SYN, drawing a reset", "octets at LISTEN: SYN", "octets at SYN-SENT: SYN,ACK",
        "octets at SYN-RECEIVED: ACK", "octets at ESTABLISHED: ACK in window",
        "octets at ESTABLISHED: ACK out of window"};
    unsigned kind;
    for (kind = 0; kind < ARRIVALS; kind++)
        enter((struct contest){names[kind], "in place", STATIONS, kind, ready, arrive_octets_proved,
                               arrive_octets_plain, {&plain_o2, &plain_o3}});
}

void station_contests(void)
{
    struct contest openings = {"passive opening, octets to octets", "in place", OPENINGS, AT_LISTEN, ready,
                               openings_proved, openings_plain, {&plain_o2, &plain_o3}};
    make_arrivals();
    make_openings();
    enter_segments();
    enter_octets();
    enter(openings);
    openings.against = "by value";
    openings.plain = openings_by_value;
    enter(openings);
}

/* ---- the checks */

/* A contest whose openings do not open would measure something else. */
static void check_openings(void)
{
    struct contest c = {.calls = OPENINGS, .input = AT_LISTEN};
    int i;
    ready(&c);
    openings_proved(&c);
    for (i = 0; i < OPENINGS; i++)
        same("opening's state", records[i].state, TABOR_ESTABLISHED);
}

void station_checks(const struct plain *plain)
{
    int i;
    for (i = 0; i < CHECKS; i++) {
        struct tabor_record r = any_record();
        struct tabor_segment g = any_segment(&r);
        check_arrive(plain, r, &g);
        check_octets(plain, r, &g);
    }
    check_openings();
}

/* Contests over octets: the checksum, and headers read and written. */
#include "bench.h"
#include "inputs.h"
#include "same.h"
#include <string.h>

enum { SIZES = 4, HEADERS = 256, CHECKS = 5000, LARGE = 65515, SPARE = 64 };

static const size_t sizes[SIZES] = {20, 40, 1500, LARGE};

/* A sum starts anywhere among the first octets, so that the octets differ from call to call. */
static uint8_t octets[LARGE + SPARE];

static struct tabor_segment segments[HEADERS];
static uint8_t written[HEADERS][20];

/* ---- that the answers are alike */

static void check_sums(const struct plain *plain, uint32_t src, uint32_t dst, const uint8_t *s, size_t size)
{
    uint16_t proved = tabor_checksum(src, dst, s, size);
    same("checksum", proved, plain->checksum(src, dst, s, size));
    if (plain->deferred)
        same("checksum, deferred", proved, plain->deferred(src, dst, s, size));
}

static void check_read(const struct plain *plain, const struct tabor_segment *g, const uint8_t *s, size_t size)
{
    struct tabor_reading proved = tabor_read(g->src, g->dst, s, size);
    struct tabor_header h;
    memset(&h, 0, sizeof h); /* as the library's after a refusal */
    same("read", proved.refusal, plain->read(g->src, g->dst, s, size, &h));
    same_header("read", &proved.header, &h);
}

static void check_write(const struct plain *plain, const struct tabor_segment *g, size_t room)
{
    uint8_t proved[24] = {0}, other[24] = {0};
    same("write", tabor_write(g->src, g->dst, g->header, proved, room),
         plain->write(g->src, g->dst, &g->header, other, room));
    same_octets("written", proved, other, sizeof proved);
}

/* Around the largest size that a reader takes. */
static void check_large(const struct plain *plain)
{
    static uint8_t s[LARGE + 2];
    const struct tabor_segment *g = &segments[0];
    size_t size;
    fill(s, sizeof s);
    octets_of(g, s);
    for (size = LARGE - 1; size <= sizeof s; size++) {
        seal(g, s, size);
        check_read(plain, g, s, size);
    }
}

#ifdef WITH_LWIP
static void check_lwip(void)
{
    check_sums(&plain_lwip, draw(), draw(), octets, 20);
    check_sums(&plain_lwip, draw(), draw(), octets, 1501);
    check_sums(&plain_lwip, draw(), draw(), octets + 1, LARGE);
}
#endif

void octet_checks(const struct plain *plain)
{
    uint8_t s[64];
    int i;
    for (i = 0; i < CHECKS; i++) {
        struct tabor_record r = any_record();
        struct tabor_segment g = any_segment(&r);
        size_t size = any_octets(&g, s);
        check_sums(plain, g.src, g.dst, octets + below(SPARE), below(below(2) ? 64 : LARGE));
        check_read(plain, &g, s, size);
        check_write(plain, &g, below(8) ? 24 : below(24));
    }
    check_large(plain);
#ifdef WITH_LWIP
    check_lwip();
#endif
}

/* ---- laps */

static void sums_proved(const struct contest *c)
{
    size_t size = sizes[c->input];
    unsigned i;
    for (i = 0; i < c->calls; i++) {
        uint16_t sum = tabor_checksum(i, ~i, octets + i % SPARE, size);
        keep(&sum);
    }
}

static void sums_plain(const struct contest *c, const struct plain *plain)
{
    size_t size = sizes[c->input];
    unsigned i;
    for (i = 0; i < c->calls; i++) {
        uint16_t sum = plain->checksum(i, ~i, octets + i % SPARE, size);
        keep(&sum);
    }
}

static void sums_deferred(const struct contest *c, const struct plain *plain)
{
    size_t size = sizes[c->input];
    unsigned i;
    for (i = 0; i < c->calls; i++) {
        uint16_t sum = plain->deferred(i, ~i, octets + i % SPARE, size);
        keep(&sum);
    }
}

static void reads_proved(const struct contest *c)
{
    unsigned i;
    for (i = 0; i < c->calls; i++) {
        struct tabor_reading reading = tabor_read(segments[i].src, segments[i].dst, written[i], 20);
        keep(&reading);
    }
}

static void reads_plain(const struct contest *c, const struct plain *plain)
{
    unsigned i;
    for (i = 0; i < c->calls; i++) {
        struct tabor_header h;
        uint8_t refusal = plain->read(segments[i].src, segments[i].dst, written[i], 20, &h);
        keep(&h);
        keep(&refusal);
    }
}

static void writes_proved(const struct contest *c)
{
    uint8_t out[20];
    unsigned i;
    for (i = 0; i < c->calls; i++) {
        uint8_t refusal = tabor_write(segments[i].src, segments[i].dst, segments[i].header, out, sizeof out);
        keep(out);
        keep(&refusal);
    }
}

static void writes_plain(const struct contest *c, const struct plain *plain)
{
    uint8_t out[20];
    unsigned i;
    for (i = 0; i < c->calls; i++) {
        uint8_t refusal = plain->write(segments[i].src, segments[i].dst, &segments[i].header, out, sizeof out);
        keep(out);
        keep(&refusal);
    }
}

/* ---- the contests */

static void make_inputs(void)
{
    int i;
    fill(octets, sizeof octets);
    for (i = 0; i < HEADERS; i++) {
        struct tabor_record r = record_in(TABOR_ESTABLISHED);
        segments[i] = toward(&r, draw(), draw(), (uint8_t)(draw() & ~1u));
        octets_of(&segments[i], written[i]);
    }
}

static void enter_sums(unsigned input, const char *what, unsigned calls)
{
    struct contest c = {what, "the same loop", calls, input, NULL, sums_proved, sums_plain,
                        {&plain_o2, &plain_o3}};
    enter(c);
    c.against = "carry at the end";
    c.plain = sums_deferred;
    enter(c);
#ifdef WITH_LWIP
    c.against = "lwIP, as packaged";
    c.plain = sums_plain;
    c.levels[0] = &plain_lwip;
    c.levels[1] = NULL;
    enter(c);
#endif
}

void octet_contests(void)
{
    make_inputs();
    enter_sums(0, "checksum, 20 octets", 1024);
    enter_sums(1, "checksum, 40 octets", 1024);
    enter_sums(2, "checksum, 1,500 octets", 32);
    enter_sums(3, "checksum, 65,515 octets", 2);
    enter((struct contest){"header read", "in place", HEADERS, 0, NULL, reads_proved, reads_plain,
                           {&plain_o2, &plain_o3}});
    enter((struct contest){"header write", "in place", HEADERS, 0, NULL, writes_proved, writes_plain,
                           {&plain_o2, &plain_o3}});
}

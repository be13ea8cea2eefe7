/* Counts what the library copies and clears through the C library. It is linked with a copy of the archive
 * whose memcpy, memmove and memset have the names below, so that nothing else is counted; what the compiler copies
 * with moves of its own is not seen. */
#include "inputs.h"
#include <stdio.h>
#include <string.h>

enum { SIZES = 64 };

static struct {
    unsigned long long copies, copied, clears, cleared;
    size_t sizes[SIZES]; /* the copies by their size: the first `kinds` are in use */
    unsigned long long of[SIZES];
    unsigned kinds;
} count;

static void count_copy(size_t size)
{
    unsigned i;
    count.copies++;
    count.copied += size;
    for (i = 0; i < count.kinds && count.sizes[i] != size; i++)
        ;
    if (i == SIZES)
        return;
    if (i == count.kinds)
        count.sizes[count.kinds++] = size;
    count.of[i]++;
}

void *counted_memcpy(void *to, const void *from, size_t size)
{
    count_copy(size);
    return memcpy(to, from, size);
}

void *counted_memmove(void *to, const void *from, size_t size)
{
    count_copy(size);
    return memmove(to, from, size);
}

void *counted_memset(void *to, int octet, size_t size)
{
    count.clears++;
    count.cleared += size;
    return memset(to, octet, size);
}

/* A row for so many calls: the sizes that are copied at least every tenth call stand last. */
static void print_counted(const char *what, double calls)
{
    unsigned i;
    printf("| %s | %.2f | %.0f | %.2f | %.0f |", what, (double)count.copies / calls,
           (double)count.copied / calls, (double)count.clears / calls, (double)count.cleared / calls);
    for (i = 0; i < count.kinds; i++)
        if ((double)count.of[i] >= calls / 10)
            printf(" %.2f × %zu;", (double)count.of[i] / calls, count.sizes[i]);
    puts(" |");
    memset(&count, 0, sizeof count);
}

static void count_octets(void)
{
    struct tabor_record r = record_for(AT_LISTEN);
    struct tabor_segment g = segment_for(AT_LISTEN, &r);
    uint8_t octets[20], out[20];
    octets_of(&g, octets);
    memset(&count, 0, sizeof count);
    tabor_read(g.src, g.dst, octets, sizeof octets);
    print_counted("header read", 1);
    tabor_write(g.src, g.dst, g.header, out, sizeof out);
    print_counted("header write", 1);
    tabor_arrive(r, g, 1);
    print_counted("segment at LISTEN: SYN", 1);
    tabor_arrive_octets(r, g.src, g.dst, octets, sizeof octets, 1, out, sizeof out);
    print_counted("octets at LISTEN: SYN", 1);
}

/* All 4,096 events, as lists of so many. */
static void count_lists(const char *what, const uint8_t *events, struct tabor_model m, size_t length)
{
    size_t at, size = length * TABOR_EVENT_SIZE;
    for (at = 0; at < (size_t)TABOR_EVENTS * TABOR_EVENT_SIZE; at += size)
        m = tabor_play(m, events + at, size).model;
    print_counted(what, TABOR_EVENTS);
}

static void count_player(void)
{
    static uint8_t events[TABOR_EVENTS * TABOR_EVENT_SIZE];
    struct tabor_model m = model_at_rest();
    make_events(events, TABOR_EVENTS);
    tabor_play(m, events, 0);
    print_counted("player, a list of no events", 1);
    count_lists("player, each event, lists of 1", events, m, 1);
    count_lists("player, each event, lists of 16", events, m, 16);
    count_lists("player, each event, lists of 256", events, m, 256);
    count_lists("player, each event, lists of 4,096", events, m, 4096);
}

static void count_program(void)
{
    static uint8_t stream[STREAM], out[STREAM];
    size_t size = make_stream(stream, sizeof stream);
    memset(&count, 0, sizeof count);
    tabor_run(stream, size, out);
    print_counted("program, each datagram", (double)size / 40);
}

int main(void)
{
    puts("| what | memcpy and memmove, calls | octets | memset, calls | octets | copies × octets |");
    puts("|---|---:|---:|---:|---:|---|");
    count_octets();
    count_player();
    count_program();
    return 0;
}

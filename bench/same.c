#include "same.h"
#include <stdio.h>
#include <stdlib.h>

static unsigned long long compared;

void same(const char *what, unsigned long long proved, unsigned long long plain)
{
    compared++;
    if (proved == plain)
        return;
    fprintf(stderr, "bench: FAILED: %s: the library says %llu, plain C %llu\n", what, proved, plain);
    exit(1);
}

void same_octets(const char *what, const uint8_t *proved, const uint8_t *plain, size_t size)
{
    size_t i;
    for (i = 0; i < size; i++)
        same(what, proved[i], plain[i]);
}

#define FIELD(name) same(what, proved->name, plain->name)

void same_header(const char *what, const struct tabor_header *proved, const struct tabor_header *plain)
{
    FIELD(seq);
    FIELD(ack);
    FIELD(source);
    FIELD(destination);
    FIELD(window);
    FIELD(urgent);
    FIELD(control);
}

void same_segment(const char *what, const struct tabor_segment *proved, const struct tabor_segment *plain)
{
    same_header(what, &proved->header, &plain->header);
    FIELD(src);
    FIELD(dst);
    FIELD(text);
}

void same_record(const char *what, const struct tabor_record *proved, const struct tabor_record *plain)
{
    FIELD(iss);
    FIELD(una);
    FIELD(nxt);
    FIELD(irs);
    FIELD(rcvnxt);
    FIELD(own);
    FIELD(peer);
    FIELD(rcvwnd);
    FIELD(ownport);
    FIELD(peerport);
    FIELD(state);
    FIELD(passive);
}

unsigned long long same_so_far(void)
{
    return compared;
}

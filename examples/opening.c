/* An opening between two records, by octets: the office opens, the box listens. It prints examples/opening.expected.
 *
 *     (cd crates/boundary && rt lib)
 *     gcc -std=c11 -Wall -Wextra -O2 -I crates/boundary examples/opening.c crates/boundary/out/libboundary.a -o opening
 *     ./opening
 */
#include <stdio.h>
#include <stdlib.h>
#include "tabor.h"

enum { OFFICE = 0x0a000001, BOX = 0x0a000002, SIZE = 20 };

static struct tabor_record box = {
    .own = BOX, .ownport = 2000, .peer = OFFICE, .peerport = 1024, .rcvwnd = 4096, .state = TABOR_CLOSED,
};
static struct tabor_record office = {
    .own = OFFICE, .ownport = 1024, .peer = BOX, .peerport = 2000, .rcvwnd = 4096, .state = TABOR_CLOSED,
};

static void print_record(const char *name, struct tabor_record r)
{
    static const char *const words[] = { "CLOSED", "LISTEN", "SYN-SENT", "SYN-RECEIVED", "ESTABLISHED" };
    printf("  %-6s  %-12s  ISS %u  SND.UNA %u  SND.NXT %u  IRS %u  RCV.NXT %u\n", name,
           r.state <= TABOR_ESTABLISHED ? words[r.state] : "no state", (unsigned)r.iss, (unsigned)r.una,
           (unsigned)r.nxt, (unsigned)r.irs, (unsigned)r.rcvnxt);
}

/* What happened, the octets sent (NULL for none), and both records. */
static void print_step(const char *what, const uint8_t *sent)
{
    printf("%s\n  sent   ", what);
    for (int i = 0; sent && i < SIZE; i++)
        printf(" %02x", sent[i]);
    printf("%s\n", sent ? "" : " nothing");
    print_record("box", box);
    print_record("office", office);
}

/* Ends the program where an answer is not the one due at this step. */
static void due(const char *what, struct tabor_told t, int refusal, int sent, int drawn)
{
    if (t.refusal != refusal || t.sent != sent || t.drawn != drawn) {
        fprintf(stderr, "%s: refusal %d, sent %d, drawn %d\n", what, t.refusal, t.sent, t.drawn);
        exit(1);
    }
}

/* Octets arrive, and a reply has 20 octets to go to (below that is refusal 10, even where nothing is sent).
 * The line brings what it likes, so a refusal is an answer like others: `next` is then the record as it
 * was, the reply is untouched, and the octets are dropped. So `next` is stored in any case, and the reply
 * goes out only where `sent` is 1. */
static struct tabor_told arrives(struct tabor_record *r, uint32_t src, const uint8_t octets[SIZE], uint32_t fresh,
                                 uint8_t reply[SIZE])
{
    struct tabor_told t = tabor_arrive_octets(*r, src, r->own, octets, SIZE, fresh, reply, SIZE);
    *r = t.next;
    return t;
}

int main(void)
{
    uint8_t syn[SIZE], syn_ack[SIZE], ack[SIZE], none[SIZE];
    struct tabor_told t;

    t = tabor_listen(box);
    due("listen", t, 0, 0, 0);
    box = t.next;
    print_step("The box listens.", NULL);

    /* A number that a station draws must lie 65,536 or more from all it drew before, also across a power
     * cut: docs/INCIDENT.md tells what happens otherwise. `drawn` says that the number offered is used up. */
    t = tabor_open(office, 100);
    due("open", t, 0, 1, 1);
    office = t.next;
    uint8_t refusal = tabor_write(t.segment.src, t.segment.dst, t.segment.header, syn, sizeof syn);
    if (refusal != 0) {
        fprintf(stderr, "write: refusal %d\n", refusal);
        return 1;
    }
    print_step("The office opens with 100: SYN.", syn);

    syn[19] ^= 1;
    t = arrives(&box, OFFICE, syn, 65536, syn_ack);
    due("damaged SYN", t, 4, 0, 0);
    print_step("The SYN arrives with one bit wrong: refusal 4, checksum wrong.", NULL);

    /* 65,536 was not drawn, so it is offered again. */
    syn[19] ^= 1;
    t = arrives(&box, OFFICE, syn, 65536, syn_ack);
    due("SYN", t, 0, 1, 1);
    print_step("The SYN arrives at the box, which draws 65536: SYN,ACK.", syn_ack);

    /* Of arrivals only a LISTEN that takes a SYN draws, so any number may be offered here. */
    t = arrives(&office, BOX, syn_ack, 0, ack);
    due("SYN,ACK", t, 0, 1, 0);
    print_step("The SYN,ACK arrives at the office: ACK.", ack);

    t = arrives(&box, OFFICE, ack, 131072, none);
    due("ACK", t, 0, 0, 0);
    print_step("The ACK arrives at the box.", NULL);

    return box.state == TABOR_ESTABLISHED && office.state == TABOR_ESTABLISHED ? 0 : 1;
}

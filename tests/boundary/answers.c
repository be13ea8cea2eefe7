/* Every function of tabor.h with known answers. What is expected stands here by hand from the paper 01
 * (P1 to P12 are its examples, "a" to "e" its checks) and, where 01 is silent, from docs/DECISIONS.md; no
 * run of the library is its source. A wrong answer prints its line, the value given and the value due. */
#define _DEFAULT_SOURCE /* mmap of memory that is no file */
#include <signal.h>
#include <stdio.h>
#include <string.h>
#include <sys/mman.h>
#include <unistd.h>
#include "tabor.h"

/* ---- counting and comparing */

static unsigned answers, wrong, functions;
static char names[32][32];
static int line, record_line, bad;
static char function[32];

/* One answer begins: where it is checked, and the name that its call starts with. */
static void answer(int at, const char *call)
{
    size_t n = strcspn(call, "( ");
    unsigned i;
    line = at;
    bad = 0;
    answers++;
    if (n >= sizeof function)
        n = sizeof function - 1;
    memcpy(function, call, n);
    function[n] = 0;
    for (i = 0; i < functions && strcmp(names[i], function) != 0; i++)
        ;
    if (i == functions && functions < 32)
        strcpy(names[functions++], function);
}

static void ends(void)
{
    wrong += bad != 0;
}

static void differs(const char *what, int i, const char *field, unsigned long long got, unsigned long long due)
{
    bad = 1;
    printf("%s:%d: ", __FILE__, line);
    if (record_line)
        printf("(record of line %d) ", record_line);
    printf("%s: %s", function, what);
    if (i >= 0)
        printf("[%d]", i);
    printf("%s is %llu (%llx), %llu (%llx) is due\n", field, got, got, due, due);
}

static void is(const char *what, unsigned long long got, unsigned long long due)
{
    if (got != due)
        differs(what, -1, "", got, due);
}

#define SAME(field) \
    if (got.field != due.field) \
    differs(what, i, "." #field, got.field, due.field)

static void record_is(const char *what, struct tabor_record got, struct tabor_record due)
{
    int i = -1;
    SAME(iss);
    SAME(una);
    SAME(nxt);
    SAME(irs);
    SAME(rcvnxt);
    SAME(own);
    SAME(peer);
    SAME(rcvwnd);
    SAME(ownport);
    SAME(peerport);
    SAME(state);
    SAME(passive);
}

static void header_is(const char *what, struct tabor_header got, struct tabor_header due)
{
    int i = -1;
    SAME(seq);
    SAME(ack);
    SAME(source);
    SAME(destination);
    SAME(window);
    SAME(urgent);
    SAME(control);
}

static void segment_is(const char *what, int i, struct tabor_segment got, struct tabor_segment due)
{
    SAME(header.seq);
    SAME(header.ack);
    SAME(header.source);
    SAME(header.destination);
    SAME(header.window);
    SAME(header.urgent);
    SAME(header.control);
    SAME(src);
    SAME(dst);
    SAME(text);
}

static void link_is(const char *what, const struct tabor_link *got, const struct tabor_link *due)
{
    is(what, got->count, due->count);
    for (int i = 0; i < 32; i++)
        segment_is(what, i, got->slots[i], due->slots[i]);
}

static void octets_are(const char *what, const uint8_t *got, const uint8_t *due, size_t n)
{
    for (size_t i = 0; i < n; i++)
        if (got[i] != due[i]) {
            differs(what, (int)i, "", got[i], due[i]);
            return; /* one line for one answer is enough */
        }
}

/* ---- records, segments, octets */

enum { OFFICE = 0x0a000001, BOX = 0x0a000002, ELSEWHERE = 0x0a000003 };
#define LAST 0xffffffffu
enum {
    SYN = TABOR_SYN, ACK = TABOR_ACK, RST = TABOR_RST, FIN = TABOR_FIN, OTHERS = TABOR_PSH | TABOR_URG | TABOR_ECE | TABOR_CWR
};
enum { CLOSED, LISTEN, SENT, RECEIVED, ESTABLISHED };

/* The station is the program's: 10.0.0.2 port 2000, peer 10.0.0.1 port 1024, window 4,096. */
static struct tabor_record rec(int state, int passive, uint32_t iss, uint32_t una, uint32_t nxt, uint32_t irs, uint32_t rcvnxt)
{
    struct tabor_record r = { iss, una, nxt, irs, rcvnxt, BOX, OFFICE, 4096, 2000, 1024, (uint8_t)state, (uint8_t)passive };
    return r;
}

static struct tabor_record windowed(struct tabor_record r, uint16_t window)
{
    r.rcvwnd = window;
    return r;
}

static struct tabor_header head(uint16_t source, uint16_t destination, uint32_t seq, uint32_t ack, int control, uint16_t window)
{
    struct tabor_header h = { seq, ack, source, destination, window, 0, (uint8_t)control };
    return h;
}

/* What the box sends, and what comes from the office. */
static struct tabor_segment sends(int control, uint32_t seq, uint32_t ack, uint16_t window)
{
    struct tabor_segment g = { head(2000, 1024, seq, ack, control, window), BOX, OFFICE, 0 };
    return g;
}

static struct tabor_segment comes(int control, uint32_t seq, uint32_t ack)
{
    struct tabor_segment g = { head(1024, 2000, seq, ack, control, 4096), OFFICE, BOX, 0 };
    return g;
}

static const struct tabor_segment none;

/* Octets from their hexadecimal digits, as 01 shows them. */
static size_t hex(const char *text, uint8_t *octets)
{
    size_t n = 0;
    unsigned o;
    int used;
    while (sscanf(text, "%2x%n", &o, &used) == 1) {
        octets[n++] = (uint8_t)o;
        text += used;
    }
    return n;
}

/* ---- where the octets lie */

/* Every answer is asked for twice: with octets in arrays of this program, and with octets and outputs that end where
 * the memory does, so that one octet more, read or written, ends this program. */
static uint8_t *in_end, *out_end;

/* Memory for so many octets, with none behind it; the place behind the last. */
static uint8_t *memory_end(size_t n)
{
    size_t page = (size_t)sysconf(_SC_PAGESIZE), whole = (n / page + 1) * page;
    uint8_t *m = mmap(NULL, whole + page, PROT_READ | PROT_WRITE, MAP_PRIVATE | MAP_ANONYMOUS, -1, 0);
    if (m == MAP_FAILED || mprotect(m + whole, page, PROT_NONE) != 0)
        return NULL;
    return m + whole;
}

static void touched(int signal)
{
    static const char words[] = "an octet that was not given was read or written\n";
    (void)signal;
    _exit(write(1, words, sizeof words - 1) > 0 ? 1 : 2);
}

static const uint8_t *given(const uint8_t *octets, size_t n)
{
    return in_end ? memcpy(in_end - n, octets, n) : octets;
}

static uint8_t *lent(uint8_t *out, size_t n)
{
    return out_end ? memcpy(out_end - n, out, n) : out;
}

static void given_back(uint8_t *out, size_t n)
{
    if (out_end)
        memcpy(out, out_end - n, n);
}

/* ---- what a call tells */

static void told_has(struct tabor_told got, struct tabor_record next, int sent, struct tabor_segment segment, int drawn, int refusal)
{
    is("refusal", got.refusal, (unsigned)refusal);
    record_is("next", got.next, next);
    is("sent", got.sent, (unsigned)sent);
    segment_is("segment", -1, got.segment, segment);
    is("drawn", got.drawn, (unsigned)drawn);
}

static void told_is(int at, const char *call, struct tabor_told got, struct tabor_record next, int sent,
                    struct tabor_segment segment, int drawn, int refusal)
{
    answer(at, call);
    told_has(got, next, sent, segment, drawn, refusal);
    ends();
}

#define SENDS(call, next, segment) told_is(__LINE__, #call, call, next, 1, segment, 0, 0)
#define DRAWS(call, next, segment) told_is(__LINE__, #call, call, next, 1, segment, 1, 0)
#define QUIET(call, next) told_is(__LINE__, #call, call, next, 0, none, 0, 0)
#define REFUSES(call, number, record) told_is(__LINE__, #call, call, record, 0, none, 0, number)

/* Octets arrive, the reply has so many octets of room; reply NULL: it stays as it was. */
static void octets_told(int at, struct tabor_record r, uint32_t src, uint32_t dst, const uint8_t *in, size_t size,
                        uint32_t fresh, size_t room, struct tabor_record next, const char *reply,
                        struct tabor_segment segment, int drawn, int refusal)
{
    uint8_t out[32], due[32];
    memset(out, 0xaa, sizeof out);
    memset(due, 0xaa, sizeof due);
    if (reply)
        hex(reply, due);
    answer(at, "tabor_arrive_octets");
    told_has(tabor_arrive_octets(r, src, dst, given(in, size), size, fresh, lent(out, room), room), next, reply != NULL,
             segment, drawn, refusal);
    given_back(out, room);
    octets_are("out", out, due, sizeof out);
    ends();
}

static void arrive_hex(int at, struct tabor_record r, uint32_t src, uint32_t dst, const char *text, uint32_t fresh, size_t room,
                       struct tabor_record next, const char *reply, struct tabor_segment segment, int drawn, int refusal)
{
    uint8_t in[128];
    size_t size = hex(text, in);
    octets_told(at, r, src, dst, in, size, fresh, room, next, reply, segment, drawn, refusal);
}

#define OCTETS_SEND(r, text, next, reply, segment) \
    arrive_hex(__LINE__, r, OFFICE, BOX, text, 7, 24, next, reply, segment, 0, 0)
#define OCTETS_DRAW(r, text, fresh, room, next, reply, segment) \
    arrive_hex(__LINE__, r, OFFICE, BOX, text, fresh, room, next, reply, segment, 1, 0)
#define OCTETS_QUIET(r, text, room, next) arrive_hex(__LINE__, r, OFFICE, BOX, text, 7, room, next, NULL, none, 0, 0)
#define OCTETS_REFUSED(r, src, dst, text, room, number) \
    arrive_hex(__LINE__, r, src, dst, text, 7, room, r, NULL, none, 0, number)

/* ---- headers */

static void reading_is(int at, uint32_t src, uint32_t dst, const uint8_t *octets, size_t size, struct tabor_header header,
                       int refusal)
{
    struct tabor_reading got = tabor_read(src, dst, given(octets, size), size);
    answer(at, "tabor_read");
    is("refusal", got.refusal, (unsigned)refusal);
    header_is("header", got.header, header);
    ends();
}

static void read_hex(int at, uint32_t src, uint32_t dst, const char *text, struct tabor_header header, int refusal)
{
    uint8_t in[128];
    size_t size = hex(text, in);
    reading_is(at, src, dst, in, size, header, refusal);
}

static const struct tabor_header no_header;
#define READS(text, header) read_hex(__LINE__, OFFICE, BOX, text, header, 0)
#define UNREAD(src, text, number) read_hex(__LINE__, src, BOX, text, no_header, number)

/* text NULL: the output stays as it was */
static void write_is(int at, uint32_t src, uint32_t dst, struct tabor_header h, size_t room, const char *text, int refusal)
{
    uint8_t out[32], due[32];
    memset(out, 0xaa, sizeof out);
    memset(due, 0xaa, sizeof due);
    if (text)
        hex(text, due);
    answer(at, "tabor_write");
    is("refusal", tabor_write(src, dst, h, lent(out, room), room), (unsigned)refusal);
    given_back(out, room);
    octets_are("out", out, due, sizeof out);
    ends();
}

#define WRITES(h, room, text) write_is(__LINE__, OFFICE, BOX, h, room, text, 0)
#define UNWRITTEN(h, room, number) write_is(__LINE__, OFFICE, BOX, h, room, NULL, number)

static void checksum_is(int at, uint32_t src, uint32_t dst, const uint8_t *octets, size_t size, unsigned due)
{
    answer(at, "tabor_checksum");
    is("checksum", tabor_checksum(src, dst, given(octets, size), size), due);
    ends();
}

static void checksum_hex(int at, const char *text, unsigned due)
{
    uint8_t in[128];
    size_t size = hex(text, in);
    checksum_is(at, OFFICE, BOX, in, size, due);
}

#define SUMS(text, due) checksum_hex(__LINE__, text, due)

/* ---- the player */

static uint8_t list[4097 * TABOR_EVENT_SIZE + 1];
static size_t size;

static void event(int kind, int side, uint32_t place, uint32_t number)
{
    uint8_t *e = list + size;
    e[0] = (uint8_t)kind;
    e[1] = (uint8_t)side;
    for (int i = 0; i < 4; i++) {
        e[2 + i] = (uint8_t)(place >> (24 - 8 * i));
        e[6 + i] = (uint8_t)(number >> (24 - 8 * i));
    }
    size += TABOR_EVENT_SIZE;
}

enum { A, B };

/* A is 10.0.0.1 port 1024, B is 10.0.0.2 port 2000; both closed, the links empty. */
static struct tabor_record at_a(int state, int passive, uint32_t iss, uint32_t una, uint32_t nxt, uint32_t irs, uint32_t rcvnxt)
{
    struct tabor_record r = { iss, una, nxt, irs, rcvnxt, OFFICE, BOX, 4096, 1024, 2000, (uint8_t)state, (uint8_t)passive };
    return r;
}

#define at_b rec
#define from_a comes
#define from_b(control, seq, ack) sends(control, seq, ack, 4096)

static struct tabor_model start(void)
{
    struct tabor_model m;
    memset(&m, 0, sizeof m);
    m.a = at_a(CLOSED, 0, 0, 0, 0, 0, 0);
    m.b = at_b(CLOSED, 0, 0, 0, 0, 0, 0);
    return m;
}

/* Plays the list that the events before have made, and begins another. */
static void play_is(int at, struct tabor_model m, struct tabor_model due, size_t taken, size_t refused, size_t turned, int refusal)
{
    struct tabor_played p = tabor_play(m, given(list, size), size);
    answer(at, "tabor_play");
    is("refusal", p.refusal, (unsigned)refusal);
    record_is("a", p.model.a, due.a);
    record_is("b", p.model.b, due.b);
    link_is("toa", &p.model.toa, &due.toa);
    link_is("tob", &p.model.tob, &due.tob);
    is("taken", p.taken, taken);
    is("refused", p.refused, refused);
    is("turned", p.turned, turned);
    ends();
    size = 0;
}

/* Offers the one event that was made, alone, and begins another. */
static void step_is(int at, struct tabor_model m, struct tabor_model due, int sent, struct tabor_segment segment, int drawn,
                    int turned, int refusal)
{
    struct tabor_stepped p = tabor_step(m, given(list, size), size);
    answer(at, "tabor_step");
    is("refusal", p.refusal, (unsigned)refusal);
    record_is("a", p.model.a, due.a);
    record_is("b", p.model.b, due.b);
    link_is("toa", &p.model.toa, &due.toa);
    link_is("tob", &p.model.tob, &due.tob);
    is("sent", p.sent, (unsigned)sent);
    segment_is("segment", -1, p.segment, segment);
    is("drawn", p.drawn, (unsigned)drawn);
    is("turned", p.turned, (unsigned)turned);
    ends();
    size = 0;
}

#define STEPS(m, due, sent, segment, drawn, turned) step_is(__LINE__, m, due, sent, segment, drawn, turned, 0)
#define UNSTEPPED(m, number) step_is(__LINE__, m, m, 0, none, 0, 0, number)

#define PLAYS(m, due, taken, refused, turned) play_is(__LINE__, m, due, taken, refused, turned, 0)
#define UNPLAYED(m, number) play_is(__LINE__, m, m, 0, 0, 0, number)

/* ---- the program */

static uint8_t input[65600], output[65535], output_due[65535];
static size_t input_size;

/* Adds octets to the input, in hexadecimal. */
static void add(const char *text)
{
    input_size += hex(text, input + input_size);
}

/* Adds a datagram of another protocol with so many octets, at most 1,500. */
static void add_other(unsigned total)
{
    uint8_t *d = input + input_size;
    memset(d, 0, total);
    d[0] = 0x45;
    d[2] = (uint8_t)(total >> 8);
    d[3] = (uint8_t)total;
    d[9] = 17;
    input_size += total;
}

static void run_is(int at, const char *due)
{
    size_t n, n_due;
    memset(output, 0xaa, sizeof output);
    memset(output_due, 0xaa, sizeof output_due);
    n_due = hex(due, output_due);
    n = tabor_run(given(input, input_size), input_size, lent(output, sizeof output));
    given_back(output, sizeof output);
    answer(at, "tabor_run");
    is("count", n, n_due);
    octets_are("out", output, output_due, sizeof output);
    ends();
    input_size = 0;
}

#define RUNS(due) run_is(__LINE__, due)

/* ---- records that are not of the forms: refusal 1 from whoever takes a record */

static void not_of_the_forms(int at, struct tabor_record r)
{
    record_line = at;
    REFUSES(tabor_open(r, 100), 1, r);
    REFUSES(tabor_listen(r), 1, r);
    REFUSES(tabor_abort(r), 1, r);
    REFUSES(tabor_resend(r), 1, r);
    REFUSES(tabor_power_cut(r), 1, r);
    REFUSES(tabor_arrive(r, comes(SYN, 100, 0), 300), 1, r);
    REFUSES(tabor_arrive(r, comes(FIN, 100, 0), 300), 1, r);
    OCTETS_REFUSED(r, OFFICE, BOX, "04 00 07 d0 00 00 00 64 00 00 00 00 50 02 10 00 7f ac 00 00", 20, 1);
    OCTETS_REFUSED(r, ELSEWHERE, BOX, "04", 0, 1); /* before 2, 5 and 10 */
    record_line = 0;
}

#define NO_FORM(r) not_of_the_forms(__LINE__, r)

static void forms(void)
{
    for (unsigned mark = 0; mark < 2; mark++) {
        NO_FORM(rec(5, (int)mark, 0, 0, 0, 0, 0));
        NO_FORM(rec(255, (int)mark, 100, 101, 101, 300, 301));
    }
    for (int state = CLOSED; state <= ESTABLISHED; state++) {
        struct tabor_record r = rec(state, 2, 0, 0, 0, 0, 0);
        if (state >= SENT)
            r = rec(state, 2, 100, state == ESTABLISHED ? 101 : 100, 101, state == SENT ? 0 : 300, state == SENT ? 0 : 301);
        NO_FORM(r); /* a mark that is neither */
        r.passive = 255;
        NO_FORM(r);
        r.passive = state == LISTEN;
        NO_FORM(windowed(r, 0));
        QUIET(tabor_power_cut(r), rec(CLOSED, 0, 0, 0, 0, 0, 0)); /* with mark and window it is one */
    }
    /* CLOSED and LISTEN: five zeros; the mark no in CLOSED, yes in LISTEN */
    for (int state = CLOSED; state <= LISTEN; state++) {
        NO_FORM(rec(state, state, 1, 0, 0, 0, 0));
        NO_FORM(rec(state, state, 0, 1, 0, 0, 0));
        NO_FORM(rec(state, state, 0, 0, 1, 0, 0));
        NO_FORM(rec(state, state, 0, 0, 0, 1, 0));
        NO_FORM(rec(state, state, 0, 0, 0, 0, 1));
        NO_FORM(rec(state, 1 - state, 0, 0, 0, 0, 0));
    }
    /* SYN-SENT */
    NO_FORM(rec(SENT, 0, 100, 101, 101, 0, 0));
    NO_FORM(rec(SENT, 0, 100, 100, 100, 0, 0));
    NO_FORM(rec(SENT, 0, 100, 100, 102, 0, 0));
    NO_FORM(rec(SENT, 0, 100, 100, 101, 1, 0));
    NO_FORM(rec(SENT, 0, 100, 100, 101, 0, 1));
    NO_FORM(rec(SENT, 0, 100, 100, 101, 300, 301));
    NO_FORM(rec(SENT, 1, 100, 100, 101, 0, 0));
    /* SYN-RECEIVED and ESTABLISHED, with either mark */
    for (int mark = 0; mark < 2; mark++) {
        NO_FORM(rec(RECEIVED, mark, 100, 101, 101, 300, 301));
        NO_FORM(rec(RECEIVED, mark, 100, 100, 100, 300, 301));
        NO_FORM(rec(RECEIVED, mark, 100, 100, 101, 300, 300));
        NO_FORM(rec(RECEIVED, mark, 100, 100, 101, 0, 0));
        NO_FORM(rec(ESTABLISHED, mark, 100, 100, 101, 300, 301));
        NO_FORM(rec(ESTABLISHED, mark, 100, 102, 102, 300, 301));
        NO_FORM(rec(ESTABLISHED, mark, 100, 101, 102, 300, 301));
        NO_FORM(rec(ESTABLISHED, mark, 100, 101, 101, 300, 302));
        QUIET(tabor_power_cut(rec(RECEIVED, mark, 100, 100, 101, 300, 301)), rec(CLOSED, 0, 0, 0, 0, 0, 0));
        QUIET(tabor_power_cut(rec(ESTABLISHED, mark, 100, 101, 101, 300, 301)), rec(CLOSED, 0, 0, 0, 0, 0, 0));
        /* modulo 2^32 */
        QUIET(tabor_power_cut(rec(RECEIVED, mark, LAST, LAST, 0, LAST, 0)), rec(CLOSED, 0, 0, 0, 0, 0, 0));
        QUIET(tabor_power_cut(rec(ESTABLISHED, mark, LAST, 0, 0, LAST, 0)), rec(CLOSED, 0, 0, 0, 0, 0, 0));
    }
}

/* ---- the calls */

static void calls(void)
{
    struct tabor_record closed = rec(CLOSED, 0, 0, 0, 0, 0, 0), listening = rec(LISTEN, 1, 0, 0, 0, 0, 0);
    struct tabor_record sent = rec(SENT, 0, 100, 100, 101, 0, 0), last = rec(SENT, 0, LAST, LAST, 0, 0, 0);
    struct tabor_record received = rec(RECEIVED, 1, 300, 300, 301, 100, 101), unmarked = rec(RECEIVED, 0, 300, 300, 301, 100, 101);
    struct tabor_record established = rec(ESTABLISHED, 0, 100, 101, 101, 300, 301);

    /* "Open (with a number): from CLOSED or LISTEN to SYN-SENT; send SYN" */
    DRAWS(tabor_open(closed, 100), sent, sends(SYN, 100, 0, 4096));
    DRAWS(tabor_open(listening, 100), sent, sends(SYN, 100, 0, 4096));
    DRAWS(tabor_open(closed, LAST), last, sends(SYN, LAST, 0, 4096));
    DRAWS(tabor_open(closed, 0), rec(SENT, 0, 0, 0, 1, 0, 0), sends(SYN, 0, 0, 4096));
    DRAWS(tabor_open(windowed(closed, 65535), 100), windowed(sent, 65535), sends(SYN, 100, 0, 65535));
    REFUSES(tabor_open(sent, 100), 7, sent);
    REFUSES(tabor_open(received, 100), 7, received);
    REFUSES(tabor_open(established, 100), 7, established);

    /* "Listen: from CLOSED to LISTEN" */
    QUIET(tabor_listen(closed), listening);
    QUIET(tabor_listen(windowed(closed, 1)), windowed(listening, 1));
    REFUSES(tabor_listen(listening), 7, listening);
    REFUSES(tabor_listen(sent), 7, sent);
    REFUSES(tabor_listen(received), 7, received);
    REFUSES(tabor_listen(established), 7, established);

    /* "Abort: LISTEN and SYN-SENT to CLOSED, nothing sent; SYN-RECEIVED and ESTABLISHED send RST with
     * sequence NXT, then CLOSED" */
    QUIET(tabor_abort(listening), closed);
    QUIET(tabor_abort(sent), closed);
    SENDS(tabor_abort(received), closed, sends(RST, 301, 0, 0));
    SENDS(tabor_abort(unmarked), closed, sends(RST, 301, 0, 0));
    SENDS(tabor_abort(established), closed, sends(RST, 101, 0, 0));
    SENDS(tabor_abort(rec(ESTABLISHED, 1, LAST, 0, 0, 300, 301)), closed, sends(RST, 0, 0, 0));
    REFUSES(tabor_abort(closed), 8, closed);

    /* "Resend: SYN-SENT sends its SYN, SYN-RECEIVED its SYN,ACK; the record stays" */
    SENDS(tabor_resend(sent), sent, sends(SYN, 100, 0, 4096));
    SENDS(tabor_resend(last), last, sends(SYN, LAST, 0, 4096));
    SENDS(tabor_resend(received), received, sends(SYN | ACK, 300, 101, 4096));
    SENDS(tabor_resend(unmarked), unmarked, sends(SYN | ACK, 300, 101, 4096));
    REFUSES(tabor_resend(closed), 8, closed);
    REFUSES(tabor_resend(listening), 8, listening);
    REFUSES(tabor_resend(established), 8, established);

    /* "Power cut: any state to CLOSED, nothing sent; endpoints and window stay" */
    QUIET(tabor_power_cut(closed), closed);
    QUIET(tabor_power_cut(listening), closed);
    QUIET(tabor_power_cut(sent), closed);
    QUIET(tabor_power_cut(received), closed);
    QUIET(tabor_power_cut(windowed(established, 9)), windowed(closed, 9));
}

/* ---- a segment arrives */

static void arrivals(void)
{
    struct tabor_record closed = rec(CLOSED, 0, 0, 0, 0, 0, 0), listening = rec(LISTEN, 1, 0, 0, 0, 0, 0);
    struct tabor_record sent = rec(SENT, 0, 100, 100, 101, 0, 0), sent_400 = rec(SENT, 0, 400, 400, 401, 0, 0);
    struct tabor_record received = rec(RECEIVED, 1, 300, 300, 301, 100, 101), unmarked = rec(RECEIVED, 0, 300, 300, 301, 100, 101);
    struct tabor_record established = rec(ESTABLISHED, 1, 300, 301, 301, 100, 101);
    struct tabor_record round_the_circle = rec(ESTABLISHED, 0, 300, 301, 301, LAST - 1, LAST);
    struct tabor_segment g;

    /* CLOSED: "RST dropped; otherwise reply reset" */
    SENDS(tabor_arrive(closed, comes(SYN, LAST, 0), 7), closed, sends(RST | ACK, 0, 0, 0)); /* P10 */
    SENDS(tabor_arrive(closed, comes(SYN, 100, 0), 7), closed, sends(RST | ACK, 0, 101, 0));
    SENDS(tabor_arrive(closed, comes(0, 100, 55), 7), closed, sends(RST | ACK, 0, 100, 0));
    SENDS(tabor_arrive(closed, comes(ACK, 100, 77), 7), closed, sends(RST, 77, 0, 0));
    SENDS(tabor_arrive(closed, comes(SYN | ACK, 300, 101), 7), closed, sends(RST, 101, 0, 0));
    QUIET(tabor_arrive(closed, comes(RST, 100, 0), 7), closed);
    QUIET(tabor_arrive(closed, comes(RST | ACK, 100, 77), 7), closed);

    /* LISTEN: "RST dropped; ACK gets reply reset; SYN ..; otherwise dropped" */
    DRAWS(tabor_arrive(listening, comes(SYN, 100, 0), 300), received, sends(SYN | ACK, 300, 101, 4096)); /* P1 */
    DRAWS(tabor_arrive(listening, comes(SYN | OTHERS, 100, 55), 300), received, sends(SYN | ACK, 300, 101, 4096));
    DRAWS(tabor_arrive(listening, comes(SYN, LAST, 0), LAST), rec(RECEIVED, 1, LAST, LAST, 0, LAST, 0), sends(SYN | ACK, LAST, 0, 4096));
    QUIET(tabor_arrive(listening, comes(RST, 100, 0), 300), listening);
    QUIET(tabor_arrive(listening, comes(RST | SYN, 100, 0), 300), listening);
    QUIET(tabor_arrive(listening, comes(RST | ACK, 100, 1), 300), listening);
    SENDS(tabor_arrive(listening, comes(ACK, 100, 77), 300), listening, sends(RST, 77, 0, 0));
    SENDS(tabor_arrive(listening, comes(SYN | ACK, 100, 77), 300), listening, sends(RST, 77, 0, 0));
    QUIET(tabor_arrive(listening, comes(0, 100, 0), 300), listening);
    QUIET(tabor_arrive(listening, comes(OTHERS, 100, 0), 300), listening);

    /* SYN-SENT, a wrong ACK: "dropped with RST, otherwise reply reset, record the same" */
    SENDS(tabor_arrive(sent_400, comes(ACK, 300, 101), 7), sent_400, sends(RST, 101, 0, 0)); /* P7 */
    SENDS(tabor_arrive(sent, comes(SYN | ACK, 300, 100), 7), sent, sends(RST, 100, 0, 0));
    SENDS(tabor_arrive(sent, comes(SYN | ACK, 300, 102), 7), sent, sends(RST, 102, 0, 0));
    QUIET(tabor_arrive(sent, comes(RST | ACK, 300, 100), 7), sent);
    /* "Then RST: with ACK to CLOSED, without dropped" */
    QUIET(tabor_arrive(sent, comes(RST | ACK, 0, 101), 7), closed);
    QUIET(tabor_arrive(sent, comes(RST | ACK | SYN, 0, 101), 7), closed);
    QUIET(tabor_arrive(sent, comes(RST, 0, 101), 7), sent);
    QUIET(tabor_arrive(sent, comes(RST | SYN, 300, 0), 7), sent);
    /* "Then SYN: IRS = SEG.SEQ; with ACK to ESTABLISHED, sending ACK; without to SYN-RECEIVED, sending SYN,ACK" */
    SENDS(tabor_arrive(sent, comes(SYN | ACK, 300, 101), 7), rec(ESTABLISHED, 0, 100, 101, 101, 300, 301),
          sends(ACK, 101, 301, 4096)); /* P5 */
    SENDS(tabor_arrive(sent, comes(SYN, 300, 0), 7), rec(RECEIVED, 0, 100, 100, 101, 300, 301),
          sends(SYN | ACK, 100, 301, 4096)); /* P6 */
    SENDS(tabor_arrive(rec(SENT, 0, LAST, LAST, 0, 0, 0), comes(SYN | ACK, 300, 0), 7), rec(ESTABLISHED, 0, LAST, 0, 0, 300, 301),
          sends(ACK, 0, 301, 4096)); /* P8 */
    /* "Otherwise dropped" */
    QUIET(tabor_arrive(sent, comes(ACK, 300, 101), 7), sent);
    QUIET(tabor_arrive(sent, comes(0, 300, 0), 7), sent);

    /* (a) "SEG.SEQ - RCV.NXT must be below RCV.WND, otherwise send ACK, or nothing if RST" */
    SENDS(tabor_arrive(received, comes(ACK, 100, 301), 7), received, sends(ACK, 301, 101, 4096));
    SENDS(tabor_arrive(received, comes(ACK, 4197, 301), 7), received, sends(ACK, 301, 101, 4096));
    SENDS(tabor_arrive(received, comes(SYN, 100, 0), 7), received, sends(ACK, 301, 101, 4096));
    SENDS(tabor_arrive(received, comes(0, 100, 0), 7), received, sends(ACK, 301, 101, 4096));
    QUIET(tabor_arrive(received, comes(RST, 100, 0), 7), received);
    QUIET(tabor_arrive(received, comes(RST | ACK, 4197, 301), 7), received);
    SENDS(tabor_arrive(established, comes(SYN, 70000, 0), 7), established, sends(ACK, 301, 101, 4096));
    SENDS(tabor_arrive(established, comes(ACK, 100, 301), 7), established, sends(ACK, 301, 101, 4096));
    QUIET(tabor_arrive(established, comes(RST, 4196, 0), 7), closed); /* P9 */
    QUIET(tabor_arrive(established, comes(RST, 4197, 0), 7), established);
    QUIET(tabor_arrive(established, comes(RST, 100, 0), 7), established);
    QUIET(tabor_arrive(windowed(established, 1), comes(RST, 101, 0), 7), windowed(closed, 1));
    QUIET(tabor_arrive(windowed(established, 1), comes(RST, 102, 0), 7), windowed(established, 1));
    QUIET(tabor_arrive(windowed(established, 65535), comes(RST, 65635, 0), 7), windowed(closed, 65535));
    QUIET(tabor_arrive(windowed(established, 65535), comes(RST, 65636, 0), 7), windowed(established, 65535));
    QUIET(tabor_arrive(round_the_circle, comes(RST, 4094, 0), 7), closed);
    QUIET(tabor_arrive(round_the_circle, comes(RST, 4095, 0), 7), round_the_circle);
    QUIET(tabor_arrive(rec(ESTABLISHED, 0, 300, 301, 301, LAST, 0), comes(RST, LAST, 0), 7), rec(ESTABLISHED, 0, 300, 301, 301, LAST, 0));

    /* (b) "RST: SYN-RECEIVED with the mark to LISTEN, others to CLOSED" */
    QUIET(tabor_arrive(received, comes(RST, 101, 0), 7), listening);
    QUIET(tabor_arrive(received, comes(RST | SYN | ACK, 101, 301), 7), listening);
    QUIET(tabor_arrive(unmarked, comes(RST, 101, 0), 7), closed);
    QUIET(tabor_arrive(established, comes(RST | ACK, 101, 301), 7), closed);
    /* (c) "SYN: reply reset, to CLOSED" */
    SENDS(tabor_arrive(received, comes(SYN, 200, 0), 7), closed, sends(RST | ACK, 0, 201, 0));
    SENDS(tabor_arrive(unmarked, comes(SYN | ACK, 200, 555), 7), closed, sends(RST, 555, 0, 0));
    SENDS(tabor_arrive(established, comes(SYN, 101, 0), 7), closed, sends(RST | ACK, 0, 102, 0));
    SENDS(tabor_arrive(established, comes(SYN | ACK, 101, 301), 7), closed, sends(RST, 301, 0, 0));
    /* (d) "No ACK: dropped" */
    QUIET(tabor_arrive(received, comes(0, 101, 301), 7), received);
    QUIET(tabor_arrive(established, comes(OTHERS, 101, 0), 7), established);
    /* (e) "SYN-RECEIVED: SEG.ACK = ISS + 1 to ESTABLISHED, otherwise reply reset and stay" */
    QUIET(tabor_arrive(received, comes(ACK, 101, 301), 7), established); /* P2 */
    QUIET(tabor_arrive(received, comes(ACK | OTHERS, 4196, 301), 7), established);
    QUIET(tabor_arrive(unmarked, comes(ACK, 101, 301), 7), rec(ESTABLISHED, 0, 300, 301, 301, 100, 101));
    SENDS(tabor_arrive(received, comes(ACK, 101, 300), 7), received, sends(RST, 300, 0, 0)); /* P3 */
    SENDS(tabor_arrive(received, comes(ACK, 101, 302), 7), received, sends(RST, 302, 0, 0)); /* P4 */
    /* "ESTABLISHED: a SEG.ACK later than NXT is met with an ACK; otherwise nothing" */
    QUIET(tabor_arrive(established, comes(ACK, 101, 301), 7), established);
    QUIET(tabor_arrive(established, comes(ACK, 101, 300), 7), established);
    SENDS(tabor_arrive(established, comes(ACK, 101, 302), 7), established, sends(ACK, 301, 101, 4096));
    SENDS(tabor_arrive(established, comes(ACK, 101, 2147483948), 7), established, sends(ACK, 301, 101, 4096)); /* 2^31 - 1 ahead */
    QUIET(tabor_arrive(established, comes(ACK, 101, 2147483949), 7), established); /* 2^31 ahead is earlier */

    /* 5: "addresses or ports not of this connection"; 6: "FIN on, or text present"; 5 first */
    g = comes(SYN, 100, 0);
    g.src = ELSEWHERE;
    REFUSES(tabor_arrive(listening, g, 300), 5, listening);
    g = comes(SYN, 100, 0);
    g.dst = ELSEWHERE;
    REFUSES(tabor_arrive(listening, g, 300), 5, listening);
    g = comes(SYN, 100, 0);
    g.header.source = 1025;
    REFUSES(tabor_arrive(listening, g, 300), 5, listening);
    g = comes(SYN | FIN, 100, 0);
    g.header.destination = 2001;
    g.text = 1;
    REFUSES(tabor_arrive(listening, g, 300), 5, listening);
    REFUSES(tabor_arrive(closed, sends(SYN, 100, 0, 4096), 300), 5, closed); /* its own segment, come back */
    REFUSES(tabor_arrive(listening, comes(SYN | FIN, 100, 0), 300), 6, listening);
    REFUSES(tabor_arrive(closed, comes(FIN | ACK, 100, 0), 300), 6, closed);
    REFUSES(tabor_arrive(established, comes(FIN | ACK, 101, 301), 300), 6, established);
    g = comes(ACK, 101, 301);
    g.text = 1;
    REFUSES(tabor_arrive(received, g, 7), 6, received);
    g.text = LAST;
    REFUSES(tabor_arrive(received, g, 7), 6, received);
}

/* ---- octets arrive */

static uint8_t many[65536];

/* 01's input, its TCP part: SYN 100. The sum of the words is 8053. */
#define SYN_100 "04 00 07 d0 00 00 00 64 00 00 00 00 50 02 10 00 7f ac 00 00"
/* RST 100 with window 0: 7055 */
#define RST_100 "04 00 07 d0 00 00 00 64 00 00 00 00 50 04 00 00 8f aa 00 00"

static void octets(void)
{
    struct tabor_record closed = rec(CLOSED, 0, 0, 0, 0, 0, 0), listening = rec(LISTEN, 1, 0, 0, 0, 0, 0);
    struct tabor_record received = rec(RECEIVED, 1, 300, 300, 301, 100, 101), established = rec(ESTABLISHED, 1, 300, 301, 301, 100, 101);
    struct tabor_segment syn_ack = sends(SYN | ACK, 300, 101, 4096);
    const char *reply = "07 d0 04 00 00 00 01 2c 00 00 00 65 50 12 10 00 7e 6f 00 00"; /* 8190 */

    OCTETS_DRAW(listening, SYN_100, 300, 20, received, reply, syn_ack); /* P1 */
    OCTETS_DRAW(listening, SYN_100, 300, 21, received, reply, syn_ack);
    OCTETS_DRAW(listening, SYN_100, 300, 32, received, reply, syn_ack);
    /* 01's input and output, their TCP parts */
    OCTETS_DRAW(listening, SYN_100, 65536, 20, rec(RECEIVED, 1, 65536, 65536, 65537, 100, 101),
                "07 d0 04 00 00 01 00 00 00 00 00 65 50 12 10 00 7f 9a 00 00", sends(SYN | ACK, 65536, 101, 4096));
    /* P12: the window that makes the sum 65,535; both checksums are read */
    OCTETS_DRAW(listening, "04 00 07 d0 00 00 00 64 00 00 00 00 50 02 8f ac 00 00 00 00", 300, 20, received, reply, syn_ack);
    OCTETS_DRAW(listening, "04 00 07 d0 00 00 00 64 00 00 00 00 50 02 8f ac ff ff 00 00", 300, 20, received, reply, syn_ack);
    /* reserved bits are ignored (8f53), option octets skipped (387a8, so 87ab) */
    OCTETS_DRAW(listening, "04 00 07 d0 00 00 00 64 00 00 00 00 5f 02 10 00 70 ac 00 00", 300, 20, received, reply, syn_ack);
    OCTETS_DRAW(listening, "04 00 07 d0 ff ff ff ff 00 00 00 00 60 02 ff ff 78 54 00 00 02 04 05 b4", 300, 20,
                rec(RECEIVED, 1, 300, 300, 301, LAST, 0),
                "07 d0 04 00 00 00 01 2c 00 00 00 00 50 12 10 00 7e d4 00 00", sends(SYN | ACK, 300, 0, 4096)); /* 812b */
    /* P2: 818f */
    OCTETS_QUIET(received, "04 00 07 d0 00 00 00 65 00 00 01 2d 50 10 10 00 7e 70 00 00", 20, established);
    /* P3: 818e; the reset 711d */
    OCTETS_SEND(received, "04 00 07 d0 00 00 00 65 00 00 01 2c 50 10 10 00 7e 71 00 00", received,
                "07 d0 04 00 00 00 01 2c 00 00 00 00 50 04 00 00 8e e2 00 00", sends(RST, 300, 0, 0));
    /* P5: 8190; the ACK 818f */
    OCTETS_SEND(rec(SENT, 0, 100, 100, 101, 0, 0), "04 00 07 d0 00 00 01 2c 00 00 00 65 50 12 10 00 7e 6f 00 00",
                rec(ESTABLISHED, 0, 100, 101, 101, 300, 301), "07 d0 04 00 00 00 00 65 00 00 01 2d 50 10 10 00 7e 70 00 00",
                sends(ACK, 101, 301, 4096));
    /* P10: 27fed, so 7fef; the reset 7001 */
    OCTETS_SEND(closed, "04 00 07 d0 ff ff ff ff 00 00 00 00 50 02 10 00 80 10 00 00", closed,
                "07 d0 04 00 00 00 00 00 00 00 00 00 50 14 00 00 8f fe 00 00", sends(RST | ACK, 0, 0, 0));
    /* dropped: taken, and the output as it was */
    OCTETS_QUIET(listening, RST_100, 20, listening);
    OCTETS_QUIET(listening, RST_100, 32, listening);

    /* 2 */
    OCTETS_REFUSED(listening, OFFICE, BOX, "", 20, 2);
    OCTETS_REFUSED(listening, OFFICE, BOX, "04 00 07 d0 00 00 00 64 00 00 00 00 50 02 10 00 7f ac 00", 20, 2);
    memset(many, 0, sizeof many);
    octets_told(__LINE__, listening, OFFICE, BOX, many, 65516, 7, 20, listening, NULL, none, 0, 2);
    octets_told(__LINE__, listening, OFFICE, BOX, many, 65515, 7, 20, listening, NULL, none, 0, 3);
    /* 3, before the checksum */
    OCTETS_REFUSED(listening, OFFICE, BOX, "04 00 07 d0 00 00 00 64 00 00 00 00 40 02 10 00 7f ac 00 00", 20, 3);
    OCTETS_REFUSED(listening, OFFICE, BOX, "04 00 07 d0 00 00 00 64 00 00 00 00 60 02 10 00 7f ac 00 00", 20, 3);
    /* 4, before ports and addresses */
    OCTETS_REFUSED(listening, OFFICE, BOX, "04 00 07 d0 00 00 00 64 00 00 00 00 50 02 10 00 7f ac 00 01", 20, 4);
    OCTETS_REFUSED(listening, OFFICE, BOX, "04 01 07 d0 00 00 00 64 00 00 00 00 50 02 10 00 7f ac 00 00", 20, 4);
    OCTETS_REFUSED(listening, ELSEWHERE, BOX, SYN_100, 20, 4);
    /* 5, with the checksum right: 8054, 8054, 8055, 8054 */
    OCTETS_REFUSED(listening, OFFICE, BOX, "04 01 07 d0 00 00 00 64 00 00 00 00 50 02 10 00 7f ab 00 00", 20, 5);
    OCTETS_REFUSED(listening, OFFICE, BOX, "04 00 07 d1 00 00 00 64 00 00 00 00 50 02 10 00 7f ab 00 00", 20, 5);
    OCTETS_REFUSED(listening, ELSEWHERE, BOX, "04 00 07 d0 00 00 00 64 00 00 00 00 50 02 10 00 7f aa 00 00", 20, 5);
    OCTETS_REFUSED(listening, OFFICE, ELSEWHERE, "04 00 07 d0 00 00 00 64 00 00 00 00 50 02 10 00 7f ab 00 00", 20, 5);
    OCTETS_REFUSED(listening, BOX, OFFICE, SYN_100, 20, 5); /* the addresses turned: the same sum */
    /* 5 before 6: 8063 */
    OCTETS_REFUSED(listening, OFFICE, BOX, "04 01 07 d0 00 00 00 64 00 00 00 00 50 11 10 00 7f 9c 00 00", 20, 5);
    /* 6: FIN 8062; one octet of text 8054 */
    OCTETS_REFUSED(listening, OFFICE, BOX, "04 00 07 d0 00 00 00 64 00 00 00 00 50 11 10 00 7f 9d 00 00", 20, 6);
    OCTETS_REFUSED(listening, OFFICE, BOX, "04 00 07 d0 00 00 00 64 00 00 00 00 50 02 10 00 7f ab 00 00 00", 20, 6);
    OCTETS_REFUSED(listening, OFFICE, BOX, "04 00 07 d0 00 00 00 64 00 00 00 00 50 11 10 00 7f 9d 00 00", 19, 6); /* before 10 */
    /* 10, where something would be sent and where nothing would */
    OCTETS_REFUSED(listening, OFFICE, BOX, SYN_100, 19, 10);
    OCTETS_REFUSED(listening, OFFICE, BOX, SYN_100, 0, 10);
    OCTETS_REFUSED(listening, OFFICE, BOX, RST_100, 19, 10);
    OCTETS_REFUSED(listening, OFFICE, BOX, RST_100, 0, 10);
    OCTETS_REFUSED(received, OFFICE, BOX, "04 00 07 d0 00 00 00 65 00 00 01 2d 50 10 10 00 7e 70 00 00", 19, 10);
}

/* ---- headers and checksums */

static void headers(void)
{
    struct tabor_header p11 = head(1024, 2000, 100, 0, SYN, 4096), p12 = head(1024, 2000, 100, 0, SYN, 36780);
    struct tabor_header all = { 16909060, 4278255360u, 65535, 258, 772, 1286, 0xfe }, fin = head(1024, 2000, 100, 0, SYN | FIN, 4096);
    const char *hello = "04 00 07 d0 00 00 00 64 00 00 00 00 50 18 10 00 3b bf 00 00 68 65 6c 6c 6f";

    READS(SYN_100, p11); /* P11 */
    READS("04 00 07 d0 00 00 00 64 00 00 00 00 50 02 8f ac 00 00 00 00", p12); /* P12 */
    READS("04 00 07 d0 00 00 00 64 00 00 00 00 50 02 8f ac ff ff 00 00", p12);
    READS("04 00 07 d0 00 00 00 64 00 00 00 00 5f 02 10 00 70 ac 00 00", p11);
    READS("04 00 07 d0 ff ff ff ff 00 00 00 00 60 02 ff ff 78 54 00 00 02 04 05 b4", head(1024, 2000, LAST, 0, SYN, 65535));
    /* every bit but FIN: 3702c, so 702f; a header of 15 words: 3faca, so facd */
    READS("ff ff 01 02 01 02 03 04 ff 00 ff 00 50 fe 03 04 8f d0 05 06", all);
    READS("ff ff 00 01 12 34 56 78 9a bc de f0 f0 18 00 01 05 32 00 00"
          "01 01 01 01 01 01 01 01 01 01 01 01 01 01 01 01 01 01 01 01 01 01 01 01 01 01 01 01 01 01 01 01 01 01 01 01 01 01 01 01",
          head(65535, 1, 0x12345678, 0x9abcdef0, ACK | TABOR_PSH, 1));
    read_hex(__LINE__, 0, 0, "00 00 00 00 00 00 00 00 00 00 00 00 50 00 00 00 af e5 00 00", no_header, 0); /* 501a */
    read_hex(__LINE__, BOX, OFFICE, SYN_100, p11, 0);
    UNREAD(OFFICE, "", 2);
    UNREAD(OFFICE, "04 00 07 d0 00 00 00 64 00 00 00 00 50 02 10 00 7f ac 00", 2);
    UNREAD(OFFICE, "04 00 07 d0 00 00 00 64 00 00 00 00 40 02 10 00 7f ac 00 00", 3);
    UNREAD(OFFICE, "04 00 07 d0 00 00 00 64 00 00 00 00 60 02 10 00 7f ac 00 00", 3);
    UNREAD(OFFICE, "04 00 07 d0 00 00 00 64 00 00 00 00 50 02 10 00 7f ac 00 01", 4);
    UNREAD(ELSEWHERE, SYN_100, 4);
    UNREAD(OFFICE, "04 00 07 d0 00 00 00 64 00 00 00 00 50 11 10 00 7f 9d 00 00", 6);
    UNREAD(OFFICE, hello, 6);
    memset(many, 0, sizeof many);
    reading_is(__LINE__, OFFICE, BOX, many, 65516, no_header, 2);
    reading_is(__LINE__, OFFICE, BOX, many, 65515, no_header, 3);
    /* the most that is read: 6, ffeb and 5000 are 14ff1, so 4ff2; there is text */
    many[12] = 0x50;
    many[16] = 0xb0;
    many[17] = 0x0d;
    reading_is(__LINE__, 0, 0, many, 65515, no_header, 6);
    many[17] = 0x0c;
    reading_is(__LINE__, 0, 0, many, 65515, no_header, 4);

    WRITES(p11, 20, SYN_100); /* P11 */
    WRITES(p11, 21, SYN_100);
    WRITES(p11, 32, SYN_100);
    WRITES(p12, 20, "04 00 07 d0 00 00 00 64 00 00 00 00 50 02 8f ac 00 00 00 00"); /* P12 */
    WRITES(all, 20, "ff ff 01 02 01 02 03 04 ff 00 ff 00 50 fe 03 04 8f d0 05 06");
    write_is(__LINE__, 0, 0, no_header, 20, "00 00 00 00 00 00 00 00 00 00 00 00 50 00 00 00 af e5 00 00", 0);
    UNWRITTEN(fin, 24, 6);
    UNWRITTEN(fin, 19, 6); /* before 10 */
    UNWRITTEN(p11, 19, 10);
    UNWRITTEN(p11, 0, 10);

    SUMS("04 00 07 d0 00 00 00 64 00 00 00 00 50 02 10 00 00 00 00 00", 0x7fac); /* P11 */
    SUMS("04 00 07 d0 00 00 00 64 00 00 00 00 50 02 8f ac 00 00 00 00", 0); /* P12 */
    SUMS("04 00 07 d0 00 00 00 64 00 00 00 00 50 18 10 00 00 00 00 00 68 65 6c 6c 6f", 0x3bbf); /* an odd last octet: 1c43f */
    SUMS("ff ff 01 02 01 02 03 04 ff 00 ff 00 50 fe 03 04 00 00 05 06", 0x8fd0);
    SUMS("", 0xebf6); /* the addresses and 6: 1409 */
    SUMS("ab", 0x40f5); /* bf0a */
    memset(many, 0, sizeof many);
    checksum_is(__LINE__, 0, 0, many, 65535, 0xfff9); /* 6 and ffff: 10005, so 6 */
    checksum_is(__LINE__, 0, 0, many, 65536, 0xfff8); /* 6 and 10000: 10006, so 7 */
    checksum_is(__LINE__, LAST, LAST, many, 0, 0xfff9); /* 4 times ffff and 6: 40002, so 6 */
}

/* ---- lists of events */

static void lists(void)
{
    struct tabor_model m, due;

    /* a plain opening: A listens, B opens */
    event(TABOR_EVENT_LISTEN, A, 0, 0);
    event(TABOR_EVENT_OPEN, B, 0, 100);
    event(TABOR_EVENT_DELIVER, A, 0, 200000);
    event(TABOR_EVENT_DELIVER, B, 0, 0);
    event(TABOR_EVENT_DELIVER, A, 0, 0);
    due = start();
    due.a = at_a(ESTABLISHED, 1, 200000, 200001, 200001, 100, 101);
    due.b = at_b(ESTABLISHED, 0, 100, 101, 101, 200000, 200001);
    PLAYS(start(), due, 5, 0, 0);

    /* two opens that cross: by (a) the SYN,ACK draws an ACK, and the ACK establishes */
    event(TABOR_EVENT_OPEN, A, 0, 100000);
    event(TABOR_EVENT_OPEN, B, 0, 300000);
    for (int i = 0; i < 3; i++) {
        event(TABOR_EVENT_DELIVER, A, 0, 0);
        event(TABOR_EVENT_DELIVER, B, 0, 0);
    }
    due = start();
    due.a = at_a(ESTABLISHED, 0, 100000, 100001, 100001, 300000, 300001);
    due.b = at_b(ESTABLISHED, 0, 300000, 300001, 300001, 100000, 100001);
    PLAYS(start(), due, 8, 0, 0);

    /* the nine steps: A established, B closed */
    event(TABOR_EVENT_OPEN, B, 0, 400000);
    event(TABOR_EVENT_DELIVER, A, 0, 1);
    event(TABOR_EVENT_DELIVER, B, 0, 2);
    event(TABOR_EVENT_DELIVER, A, 0, 3);
    event(TABOR_EVENT_LISTEN, A, 0, 0);
    event(TABOR_EVENT_RESEND, B, 0, 0);
    event(TABOR_EVENT_DELIVER, A, 0, 600000);
    event(TABOR_EVENT_DELIVER, B, 0, 4);
    event(TABOR_EVENT_DELIVER, A, 0, 5);
    m = due = start();
    m.a = at_a(ESTABLISHED, 1, 200000, 200001, 200001, 100, 101);
    due.a = at_a(ESTABLISHED, 1, 600000, 600001, 600001, 400000, 400001);
    due.b = at_b(ESTABLISHED, 0, 400000, 400001, 400001, 600000, 600001);
    PLAYS(m, due, 9, 0, 0);

    /* the first four of them: A is closed, B still sends its SYN, nothing is on the way */
    event(TABOR_EVENT_OPEN, B, 0, 400000);
    event(TABOR_EVENT_DELIVER, A, 0, 1);
    event(TABOR_EVENT_DELIVER, B, 0, 2);
    event(TABOR_EVENT_DELIVER, A, 0, 3);
    due = start();
    due.b = at_b(SENT, 0, 400000, 400000, 400001, 0, 0);
    PLAYS(m, due, 4, 0, 0);

    /* the incident (docs/INCIDENT.md): a SYN and an ACK are left on the way to B */
    event(TABOR_EVENT_OPEN, A, 0, 100000);
    event(TABOR_EVENT_COPY, B, 0, 0);
    event(TABOR_EVENT_LISTEN, B, 0, 0);
    event(TABOR_EVENT_DELIVER, B, 0, 200000);
    event(TABOR_EVENT_POWER_CUT, B, 0, 0);
    event(TABOR_EVENT_LISTEN, B, 0, 0);
    event(TABOR_EVENT_DELIVER, B, 0, 300000);
    event(TABOR_EVENT_DELIVER, A, 1, 0);
    event(TABOR_EVENT_POWER_CUT, A, 0, 0);
    event(TABOR_EVENT_OPEN, A, 0, 100000);
    event(TABOR_EVENT_DELIVER, A, 0, 0);
    event(TABOR_EVENT_DELIVER, B, 0, 0);
    due = start();
    due.a = at_a(ESTABLISHED, 0, 100000, 100001, 100001, 200000, 200001);
    due.b = at_b(ESTABLISHED, 1, 300000, 300001, 300001, 100000, 100001);
    due.tob.slots[0] = from_a(SYN, 100000, 0);
    due.tob.slots[1] = from_a(ACK, 100001, 200001);
    due.tob.count = 2;
    PLAYS(start(), due, 12, 0, 0);

    /* an open towards a closed station: RST,ACK, which closes */
    event(TABOR_EVENT_OPEN, A, 0, 100);
    event(TABOR_EVENT_DELIVER, B, 0, 7);
    due = start();
    due.a = at_a(SENT, 0, 100, 100, 101, 0, 0);
    due.toa.slots[0] = sends(RST | ACK, 0, 101, 0);
    due.toa.count = 1;
    PLAYS(start(), due, 2, 0, 0);
    event(TABOR_EVENT_DELIVER, A, 0, 7);
    PLAYS(due, start(), 1, 0, 0);

    /* an abort's reset */
    event(TABOR_EVENT_ABORT, A, 0, 0);
    m = due = start();
    m.a = at_a(ESTABLISHED, 1, 200000, 200001, 200001, 100, 101);
    due.tob.slots[0] = from_a(RST, 200001, 0);
    due.tob.slots[0].header.window = 0;
    due.tob.count = 1;
    PLAYS(m, due, 1, 0, 0);

    /* what a kind does not use is not looked at; numbers have their high octet first */
    event(TABOR_EVENT_LISTEN, A, LAST, LAST);
    event(TABOR_EVENT_OPEN, B, LAST, 0x01020304);
    event(TABOR_EVENT_RESEND, B, LAST, LAST);
    event(TABOR_EVENT_COPY, A, 1, LAST);
    event(TABOR_EVENT_LOSE, A, 0, LAST);
    event(TABOR_EVENT_POWER_CUT, A, LAST, LAST);
    due = start();
    due.b = at_b(SENT, 0, 0x01020304, 0x01020304, 0x01020305, 0, 0);
    due.toa.slots[0] = due.toa.slots[1] = from_b(SYN, 0x01020304, 0);
    due.toa.count = 2;
    PLAYS(start(), due, 6, 0, 0);
    /* no place 256, 65,536, 2^24 or 2^32 - 1 (9), and 2 is one too far */
    event(TABOR_EVENT_LOSE, A, 256, 0);
    event(TABOR_EVENT_LOSE, A, 65536, 0);
    event(TABOR_EVENT_COPY, A, 16777216, 0);
    event(TABOR_EVENT_DELIVER, A, LAST, 0);
    event(TABOR_EVENT_DELIVER, A, 2, 0);
    event(TABOR_EVENT_DELIVER, B, 0, 0);
    PLAYS(due, due, 0, 6, 0);

    /* refused events change nothing and the next is tried: 9, 8, 8, taken, 7, 9, 9 */
    event(TABOR_EVENT_DELIVER, A, 0, 0);
    event(TABOR_EVENT_RESEND, A, 0, 0);
    event(TABOR_EVENT_ABORT, B, 0, 0);
    event(TABOR_EVENT_LISTEN, A, 0, 0);
    event(TABOR_EVENT_LISTEN, A, 0, 0);
    event(TABOR_EVENT_LOSE, B, 0, 0);
    event(TABOR_EVENT_COPY, B, 0, 0);
    due = start();
    due.a = at_a(LISTEN, 1, 0, 0, 0, 0, 0);
    PLAYS(start(), due, 1, 6, 0);

    /* a refused delivery stays on its link: 5, 6, 6; a dropped one is taken */
    m = start();
    m.a = at_a(LISTEN, 1, 0, 0, 0, 0, 0);
    m.toa.count = 4;
    m.toa.slots[0] = from_b(SYN, 100, 0);
    m.toa.slots[0].header.source = 2001;
    m.toa.slots[1] = from_b(SYN | FIN, 100, 0);
    m.toa.slots[2] = from_b(SYN, 100, 0);
    m.toa.slots[2].text = 1;
    m.toa.slots[3] = from_b(RST, 100, 0);
    for (uint32_t place = 0; place < 4; place++)
        event(TABOR_EVENT_DELIVER, A, place, 7);
    due = m;
    due.toa.count = 3;
    due.toa.slots[3] = none;
    PLAYS(m, due, 1, 3, 0);

    /* a full link: what is sent is turned away, a copy is 11; a loss makes room, those behind move up */
    m = start();
    m.a = at_a(SENT, 0, 100, 100, 101, 0, 0);
    m.tob.count = 32;
    for (int i = 0; i < 32; i++)
        m.tob.slots[i] = from_a(SYN, 1000 + (uint32_t)i, 0);
    event(TABOR_EVENT_RESEND, A, 0, 0);
    event(TABOR_EVENT_COPY, B, 0, 0);
    PLAYS(m, m, 1, 1, 1);
    event(TABOR_EVENT_LOSE, B, 0, 0);
    due = m;
    due.tob.count = 31;
    for (int i = 0; i < 31; i++)
        due.tob.slots[i] = from_a(SYN, 1001 + (uint32_t)i, 0);
    due.tob.slots[31] = none; /* docs/DECISIONS.md: a removal clears the last slot */
    PLAYS(m, due, 1, 0, 0);
    event(TABOR_EVENT_LOSE, B, 0, 0);
    event(TABOR_EVENT_COPY, B, 30, 0);
    event(TABOR_EVENT_RESEND, A, 0, 0);
    due.tob.count = 32;
    due.tob.slots[31] = from_a(SYN, 1031, 0);
    PLAYS(m, due, 3, 0, 1);
    /* a delivery is taken and its reply turned away */
    m.a = due.a = at_a(CLOSED, 0, 0, 0, 0, 0, 0);
    due.tob = m.tob;
    m.toa.count = 1;
    m.toa.slots[0] = from_b(SYN, 300, 0);
    event(TABOR_EVENT_DELIVER, A, 0, 7);
    PLAYS(m, due, 1, 0, 1);

    /* whatever stands behind the count: not looked at, and where no event touches the link, as it was */
    m = start();
    memset(m.toa.slots, 0xff, sizeof m.toa.slots);
    event(TABOR_EVENT_LISTEN, A, 0, 0);
    due = m;
    due.a = at_a(LISTEN, 1, 0, 0, 0, 0, 0);
    PLAYS(m, due, 1, 0, 0);

    /* windows may differ */
    m = due = start();
    m.a.rcvwnd = due.a.rcvwnd = 1;
    m.b.rcvwnd = due.b.rcvwnd = 65535;
    PLAYS(m, due, 0, 0, 0); /* no events are a list, too */

    /* 4,096 events are a list, 4,097 are 12 */
    for (int i = 0; i < TABOR_EVENTS; i++)
        event(i % 2 ? TABOR_EVENT_ABORT : TABOR_EVENT_LISTEN, A, 0, 0);
    PLAYS(start(), start(), 4096, 0, 0);
    for (int i = 0; i < TABOR_EVENTS; i++)
        event(TABOR_EVENT_LISTEN, A, 0, 0);
    due = start();
    due.a = at_a(LISTEN, 1, 0, 0, 0, 0, 0);
    PLAYS(start(), due, 1, 4095, 0);
    for (int i = 0; i <= TABOR_EVENTS; i++)
        event(TABOR_EVENT_LISTEN, A, 0, 0);
    m = start();
    UNPLAYED(m, 12);
    for (int i = 0; i <= TABOR_EVENTS; i++)
        event(TABOR_EVENT_LISTEN, A, 0, 0);
    m.toa.count = 33;
    UNPLAYED(m, 1); /* 1 before 12 */
    for (int i = 0; i <= TABOR_EVENTS; i++)
        event(TABOR_EVENT_LISTEN, A, 0, 0);
    list[40960] = 8;
    UNPLAYED(m, TABOR_NO_LIST); /* before 1 and 12 */
    for (int i = 0; i <= TABOR_EVENTS; i++)
        event(TABOR_EVENT_LISTEN, A, 0, 0);
    size++;
    UNPLAYED(start(), TABOR_NO_LIST);

    /* no list: sizes 11, 9 and 1; a kind of 8 or 255, a side of 2 or 255, also behind events that are some */
    m = start();
    m.tob.slots[0] = from_a(SYN, 100, 0);
    m.tob.count = 1;
    for (unsigned n = 0; n < 3; n++) {
        event(TABOR_EVENT_LISTEN, A, 0, 0);
        size = n == 0 ? 11 : n == 1 ? 9 : 1;
        UNPLAYED(m, TABOR_NO_LIST);
    }
    for (unsigned place = 0; place < 2; place++)
        for (unsigned n = 0; n < 4; n++) {
            event(TABOR_EVENT_LISTEN, A, 0, 0);
            event(TABOR_EVENT_LISTEN, B, 0, 0);
            list[10 * place + n / 2] = n % 2 ? 255 : n / 2 ? 2 : 8;
            UNPLAYED(m, TABOR_NO_LIST);
        }
    m.a.state = 5;
    event(8, A, 0, 0);
    UNPLAYED(m, TABOR_NO_LIST); /* before 1 */

    /* 1: a record not of the forms, a count above 32, endpoints that do not mirror */
    for (int n = 0; n < 14; n++) {
        m = start();
        m.tob.slots[0] = from_a(SYN, 100, 0);
        m.tob.count = 1;
        switch (n) {
        case 0: m.a.state = 5; break;
        case 1: m.b.state = 5; break;
        case 2: m.a.passive = 2; break;
        case 3: m.b.passive = 2; break;
        case 4: m.a.iss = 1; break;
        case 5: m.b.rcvwnd = 0; break;
        case 6: m.toa.count = 33; break;
        case 7: m.tob.count = 33; break;
        case 8: m.toa.count = SIZE_MAX; break;
        case 9: m.b.passive = 1; break;
        case 10: m.a.own = ELSEWHERE; break;
        case 11: m.a.peer = ELSEWHERE; break;
        case 12: m.b.peerport = 1025; break;
        case 13: m.b.ownport = 2001; break;
        }
        event(TABOR_EVENT_LISTEN, B, 0, 0);
        UNPLAYED(m, 1);
    }
    UNPLAYED(m, 1); /* also where there is nothing to play */
}

/* ---- the program */

/* An IPv4 header of 20 octets from the office to the box, and one back, for 40 octets in all */
#define IP_IN "45 00 00 28 00 00 40 00 40 06 26 ce 0a 00 00 01 0a 00 00 02"
#define IP_OUT "45 00 00 28 00 00 40 00 40 06 26 ce 0a 00 00 02 0a 00 00 01"
/* 01's example */
#define IN IP_IN SYN_100
#define OUT IP_OUT "07 d0 04 00 00 01 00 00 00 00 00 65 50 12 10 00 7f 9a 00 00"

static void program(void)
{
    add(IN);
    RUNS(OUT);
    RUNS(""); /* no input */
    add(IN);
    input_size--;
    RUNS(""); /* missing octets */
    add("45");
    RUNS("");

    /* the ACK (8064) establishes; a SYN out of the window is met with an ACK (8064) */
    add(IN);
    add(IP_IN "04 00 07 d0 00 00 00 65 00 01 00 01 50 10 10 00 7f 9b 00 00");
    RUNS(OUT);
    add(IN);
    add(IP_IN "04 00 07 d0 00 00 00 65 00 01 00 01 50 10 10 00 7f 9b 00 00");
    add(IN);
    RUNS(OUT IP_OUT "07 d0 04 00 00 01 00 01 00 00 00 65 50 10 10 00 7f 9b 00 00");
    /* a reset (7056) leads back to LISTEN, and the second number drawn is 131,072 (8066) */
    add(IN);
    add(IP_IN "04 00 07 d0 00 00 00 65 00 00 00 00 50 04 00 00 8f a9 00 00");
    add(IN);
    RUNS(OUT IP_OUT "07 d0 04 00 00 02 00 00 00 00 00 65 50 12 10 00 7f 99 00 00");
    /* a number that was not drawn is not spent */
    add(IP_IN RST_100);
    add(IN);
    RUNS(OUT);

    /* skipped: another protocol; refusals 2, 4, 5 (8055) and 6 (8062) */
    add_other(20);
    add_other(1500);
    add(IN);
    RUNS(OUT);
    add("45 00 00 27 00 00 40 00 40 06 00 00 0a 00 00 01 0a 00 00 02 04 00 07 d0 00 00 00 64 00 00 00 00 50 02 10 00 7f ac 00");
    add(IP_IN "04 00 07 d0 00 00 00 64 00 00 00 00 50 02 10 00 7f ac 00 01");
    add("45 00 00 28 00 00 40 00 40 06 00 00 0a 00 00 03 0a 00 00 02 04 00 07 d0 00 00 00 64 00 00 00 00 50 02 10 00 7f aa 00 00");
    add(IP_IN "04 00 07 d0 00 00 00 64 00 00 00 00 50 11 10 00 7f 9d 00 00");
    RUNS("");
    add("45 00 00 27 00 00 40 00 40 06 00 00 0a 00 00 01 0a 00 00 02 04 00 07 d0 00 00 00 64 00 00 00 00 50 02 10 00 7f ac 00");
    add(IP_IN "04 00 07 d0 00 00 00 64 00 00 00 00 50 02 10 00 7f ac 00 01");
    add("45 00 00 28 00 00 40 00 40 06 00 00 0a 00 00 03 0a 00 00 02 04 00 07 d0 00 00 00 64 00 00 00 00 50 02 10 00 7f aa 00 00");
    add(IP_IN "04 00 07 d0 00 00 00 64 00 00 00 00 50 11 10 00 7f 9d 00 00");
    add(IN);
    RUNS(OUT);

    /* not examined: the IP checksum, fragments; IP options are skipped */
    add("45 00 00 28 00 00 40 00 40 06 00 00 0a 00 00 01 0a 00 00 02" SYN_100);
    RUNS(OUT);
    add("45 00 00 28 00 00 20 01 40 06 26 ce 0a 00 00 01 0a 00 00 02" SYN_100);
    RUNS(OUT);
    add("46 00 00 2c 00 00 40 00 40 06 00 00 0a 00 00 01 0a 00 00 02 01 01 01 00" SYN_100);
    RUNS(OUT);

    /* it stops at another version, a header below 5 words, a total length below the header's or above 1,500 */
    add("65 00 00 28 00 00 40 00 40 06 26 ce 0a 00 00 01 0a 00 00 02" SYN_100);
    add(IN);
    RUNS("");
    add("44 00 00 28 00 00 40 00 40 06 26 ce 0a 00 00 01 0a 00 00 02" SYN_100);
    add(IN);
    RUNS("");
    add("45 00 00 13 00 00 40 00 40 06 26 ce 0a 00 00 01 0a 00 00 02");
    add(IN);
    RUNS("");
    add("46 00 00 17 00 00 40 00 40 11 26 ce 0a 00 00 01 0a 00 00 02 00 00 00");
    add(IN);
    RUNS("");
    add_other(1500);
    input[2] = 1501 >> 8;
    input[3] = 1501 & 255;
    add("00");
    add(IN);
    RUNS("");
    add(IN);
    add("55");
    add(IN);
    RUNS(OUT);

    /* 65,535 octets are read: an example that ends there is answered, one that begins or ends behind is not */
    for (int i = 0; i < 43; i++)
        add_other(1500);
    add_other(995);
    add(IN);
    add(IN);
    RUNS(OUT);
    for (int i = 0; i < 43; i++)
        add_other(1500);
    add_other(996);
    add(IN);
    RUNS("");
    for (int i = 0; i < 43; i++)
        add_other(1500);
    add_other(1035);
    add(IN);
    RUNS("");
}

/* One event offered alone: what the player does with it, and the number of its refusal. */
static void single_events(void)
{
    struct tabor_model m = start(), due = start();

    /* A opens with 100: SYN 100 goes onto the link to B, and the number is drawn */
    due.a = at_a(SENT, 0, 100, 100, 101, 0, 0);
    due.tob.slots[0] = from_a(SYN, 100, 0);
    due.tob.count = 1;
    event(TABOR_EVENT_OPEN, A, 0, 100);
    STEPS(m, due, 1, from_a(SYN, 100, 0), 1, 0);

    /* the same with 32 segments on the link: it is told as sent, and as turned away */
    m.tob.count = 32;
    due.tob = m.tob;
    event(TABOR_EVENT_OPEN, A, 0, 100);
    STEPS(m, due, 1, from_a(SYN, 100, 0), 1, 1);

    /* a copy onto a full link is 11, of no place 9 even there; a loss of no place is 9 */
    event(TABOR_EVENT_COPY, B, 31, 0);
    UNSTEPPED(m, 11);
    event(TABOR_EVENT_COPY, B, 32, 0);
    UNSTEPPED(m, 9);
    event(TABOR_EVENT_LOSE, A, 0, 0);
    UNSTEPPED(m, 9);

    /* P1 at B: the delivery leaves the link, SYN,ACK goes back, and the fresh number is drawn */
    m = start();
    m.b = at_b(LISTEN, 1, 0, 0, 0, 0, 0);
    m.tob.slots[0] = from_a(SYN, 100, 0);
    m.tob.count = 1;
    due = start();
    due.b = at_b(RECEIVED, 1, 300, 300, 301, 100, 101);
    due.toa.slots[0] = from_b(SYN | ACK, 300, 101);
    due.toa.count = 1;
    event(TABOR_EVENT_DELIVER, B, 0, 300);
    STEPS(m, due, 1, from_b(SYN | ACK, 300, 101), 1, 0);

    /* foreign is 5, FIN is 6: both stay on the link */
    m.tob.slots[0].src ^= 1;
    event(TABOR_EVENT_DELIVER, B, 0, 300);
    UNSTEPPED(m, 5);
    m.tob.slots[0] = from_a(SYN | FIN, 100, 0);
    event(TABOR_EVENT_DELIVER, B, 0, 300);
    UNSTEPPED(m, 6);

    /* 7, 8, and 1 before them */
    event(TABOR_EVENT_LISTEN, B, 0, 0);
    UNSTEPPED(m, 7);
    event(TABOR_EVENT_ABORT, A, 0, 0);
    UNSTEPPED(m, 8);
    m.toa.count = 33;
    event(TABOR_EVENT_ABORT, A, 0, 0);
    UNSTEPPED(m, 1);
    m.toa.count = 0;
    m.a.state = 5;
    event(TABOR_EVENT_ABORT, A, 0, 0);
    UNSTEPPED(m, 1);

    /* no event, before 1: nothing, nine octets, two events, kind 8, side 2 */
    UNSTEPPED(m, 255);
    event(TABOR_EVENT_ABORT, A, 0, 0);
    size--;
    UNSTEPPED(m, 255);
    event(TABOR_EVENT_ABORT, A, 0, 0);
    event(TABOR_EVENT_ABORT, A, 0, 0);
    UNSTEPPED(m, 255);
    event(8, A, 0, 0);
    UNSTEPPED(m, 255);
    event(TABOR_EVENT_ABORT, 2, 0, 0);
    UNSTEPPED(m, 255);
}

/* ---- sizes whose low 8, 16 or 32 bits are small, the octets all there */

static void room_is(int at, uint8_t *out, size_t room)
{
    struct tabor_record listening = rec(LISTEN, 1, 0, 0, 0, 0, 0);
    uint8_t in[20], due[32];
    hex(SYN_100, in);
    hex(SYN_100, due);
    memset(due + 20, 0xaa, 12);
    memset(out, 0xaa, 32);
    answer(at, "tabor_write");
    is("refusal", tabor_write(OFFICE, BOX, head(1024, 2000, 100, 0, SYN, 4096), out, room), 0);
    octets_are("out", out, due, sizeof due);
    ends();
    hex("07 d0 04 00 00 00 01 2c 00 00 00 65 50 12 10 00 7e 6f 00 00", due); /* P1: 8190 */
    memset(out, 0xaa, 32);
    answer(at, "tabor_arrive_octets");
    told_has(tabor_arrive_octets(listening, OFFICE, BOX, in, 20, 300, out, room), rec(RECEIVED, 1, 300, 300, 301, 100, 101), 1,
             sends(SYN | ACK, 300, 101, 4096), 1, 0);
    octets_are("out", out, due, sizeof due);
    ends();
}

static void sizes(void)
{
    const size_t above = (size_t)1 << 32, all = above + 65536;
    struct tabor_model m = start();
    struct tabor_stepped stepped;
    struct tabor_played played;
    uint8_t *octets = mmap(NULL, all, PROT_READ | PROT_WRITE, MAP_PRIVATE | MAP_ANONYMOUS | MAP_NORESERVE, -1, 0);
    if (octets == MAP_FAILED) {
        printf("SKIPPED: sizes above 2^32: no so large a piece of memory; ");
        return;
    }
    for (size_t low = 0; low <= 20; low++) {
        room_is(__LINE__, octets, 256 + low);
        room_is(__LINE__, octets, 65536 + low);
        room_is(__LINE__, octets, above + low);
    }

    hex(SYN_100, octets);
    answer(__LINE__, "tabor_read");
    is("refusal", tabor_read(OFFICE, BOX, octets, above + 20).refusal, 2);
    ends();
    REFUSES(tabor_arrive_octets(rec(LISTEN, 1, 0, 0, 0, 0, 0), OFFICE, BOX, octets, above + 20, 7, output, 20), 2,
            rec(LISTEN, 1, 0, 0, 0, 0, 0));

    /* ten octets that are an event, and 2^32 more */
    memset(octets, 0, 20);
    octets[0] = TABOR_EVENT_LISTEN;
    answer(__LINE__, "tabor_step");
    stepped = tabor_step(m, octets, above + 10);
    is("refusal", stepped.refusal, TABOR_NO_LIST);
    record_is("a", stepped.model.a, m.a);
    ends();
    answer(__LINE__, "tabor_play");
    played = tabor_play(m, octets, above + 10);
    is("refusal", played.refusal, TABOR_NO_LIST);
    record_is("a", played.model.a, m.a);
    ends();

    /* the first datagram ends where the low 32 bits of the size do; the second (818e) is answered too */
    add(IN);
    add(IP_IN "04 00 07 d0 00 00 00 65 00 00 01 2c 50 10 10 00 7e 71 00 00");
    memcpy(octets, input, input_size);
    input_size = 0;
    answer(__LINE__, "tabor_run");
    is("count", tabor_run(octets, above + 40, output), 80);
    ends();
    munmap(octets, all);
}

static void ask(void)
{
    forms();
    calls();
    arrivals();
    octets();
    headers();
    single_events();
    lists();
    program();
}

int main(void)
{
    ask();
    signal(SIGSEGV, touched);
    in_end = memory_end(sizeof input);
    out_end = memory_end(sizeof output);
    if (in_end && out_end)
        ask();
    else
        printf("SKIPPED: octets at the end of the memory: no such memory; ");
    sizes();
    if (wrong == 0 && functions == 13) {
        printf("%u answers of %u functions agree\n", answers, functions);
        return 0;
    }
    printf("%u of %u answers of %u functions are wrong\n", wrong, answers, functions);
    return 1;
}

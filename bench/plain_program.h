/* The program (01, "The program"). */

enum { FRAME = 1500, IP_HEADER = 20, ANSWER = 40, READ_AT_MOST = 65535 };

struct box {
    struct tabor_record station;
    uint32_t drawn;
};

/* The datagram's total length, 0 where the program stops. */
static size_t datagram_size(const uint8_t *s, size_t left)
{
    size_t header, total;
    if (left < IP_HEADER || s[0] >> 4 != 4)
        return 0;
    header = (s[0] & 15) * 4u;
    total = get16(s + 2);
    return header < IP_HEADER || total < header || total > FRAME || total > left ? 0 : total;
}

static void write_datagram(const struct tabor_segment *g, uint8_t *out)
{
    static const uint8_t start[12] = {0x45, 0, 0, ANSWER, 0, 0, 0x40, 0, 64, 6, 0, 0};
    memcpy(out, start, sizeof start);
    put32(out + 12, g->src);
    put32(out + 16, g->dst);
    put16(out + 10, (uint16_t)~add_words(0, out, IP_HEADER));
    write_header(g->src, g->dst, &g->header, out + IP_HEADER, HEADER_SIZE);
}

/* One datagram; how many octets answer it. */
static size_t hear(struct box *b, const uint8_t *s, size_t total, uint8_t *out)
{
    size_t header = (s[0] & 15) * 4u;
    struct tabor_segment g;
    struct plain_reply reply;
    if (s[9] != 6)
        return 0;
    if (octets_refused(&b->station, get32(s + 12), get32(s + 16), s + header, total - header, &g))
        return 0;
    arrival(&b->station, &g.header, 65536 * (b->drawn + 1), &reply);
    b->drawn += reply.drawn;
    if (!reply.sent)
        return 0;
    write_datagram(&reply.segment, out);
    return ANSWER;
}

static size_t hear_in_frame(struct box *b, const uint8_t *s, size_t total, uint8_t *out)
{
    uint8_t frame[FRAME] = {0};
    memcpy(frame, s, total);
    return hear(b, frame, total, out);
}

/* Inline in both callers, so that each calls its way of hearing directly. */
static inline size_t answer(const uint8_t *input, size_t size, uint8_t *out,
                            size_t (*heard)(struct box *, const uint8_t *, size_t, uint8_t *))
{
    struct box b = {{.own = 0x0a000002, .ownport = 2000, .peer = 0x0a000001, .peerport = 1024,
                     .rcvwnd = 4096, .state = TABOR_LISTEN, .passive = 1}, 0};
    size_t at, total, done = 0;
    if (size > READ_AT_MOST)
        size = READ_AT_MOST;
    for (at = 0; (total = datagram_size(input + at, size - at)) != 0; at += total)
        done += heard(&b, input + at, total, out + done);
    return done;
}

static size_t run(const uint8_t *input, size_t size, uint8_t *out)
{
    return answer(input, size, out, hear_in_frame);
}

static size_t run_unframed(const uint8_t *input, size_t size, uint8_t *out)
{
    return answer(input, size, out, hear);
}

/* One station (01, "A station's record", "Calls and power", "Arrival, check by check"). */

/* ---- the record */

static int zeroed(const struct tabor_record *r)
{
    return (r->iss | r->una | r->nxt | r->irs | r->rcvnxt) == 0;
}

/* Refusal 1 where it is not of the forms. */
static int formed(const struct tabor_record *r)
{
    if (r->passive > 1 || r->rcvwnd == 0)
        return 0;
    switch (r->state) {
    case TABOR_CLOSED:
        return zeroed(r) && !r->passive;
    case TABOR_LISTEN:
        return zeroed(r) && r->passive;
    case TABOR_SYN_SENT:
        return r->una == r->iss && r->nxt == r->iss + 1 && r->irs == 0 && r->rcvnxt == 0 && !r->passive;
    case TABOR_SYN_RECEIVED:
        return r->una == r->iss && r->nxt == r->iss + 1 && r->rcvnxt == r->irs + 1;
    case TABOR_ESTABLISHED:
        return r->una == r->nxt && r->nxt == r->iss + 1 && r->rcvnxt == r->irs + 1;
    default:
        return 0;
    }
}

/* To CLOSED or LISTEN: the five numbers become zero. */
static void clear_to(struct tabor_record *r, uint8_t state)
{
    r->iss = r->una = r->nxt = r->irs = r->rcvnxt = 0;
    r->state = state;
    r->passive = state == TABOR_LISTEN;
}

static void receive(struct tabor_record *r, uint8_t passive, uint32_t iss, uint32_t irs)
{
    r->iss = r->una = iss;
    r->nxt = iss + 1;
    r->irs = irs;
    r->rcvnxt = irs + 1;
    r->state = TABOR_SYN_RECEIVED;
    r->passive = passive;
}

static void establish(struct tabor_record *r, uint32_t irs)
{
    r->una = r->nxt = r->iss + 1;
    r->irs = irs;
    r->rcvnxt = irs + 1;
    r->state = TABOR_ESTABLISHED;
}

/* ---- what it sends */

static void sends(const struct tabor_record *r, uint32_t seq, uint32_t ack, uint8_t control, uint16_t window,
                  struct plain_reply *reply)
{
    struct tabor_segment *g = &reply->segment;
    g->header.seq = seq;
    g->header.ack = ack;
    g->header.source = r->ownport;
    g->header.destination = r->peerport;
    g->header.window = window;
    g->header.urgent = 0;
    g->header.control = control;
    g->src = r->own;
    g->dst = r->peer;
    g->text = 0;
    reply->sent = 1;
}

static void send_syn(const struct tabor_record *r, struct plain_reply *reply)
{
    sends(r, r->iss, 0, TABOR_SYN, r->rcvwnd, reply);
}

static void send_syn_ack(const struct tabor_record *r, struct plain_reply *reply)
{
    sends(r, r->iss, r->rcvnxt, TABOR_SYN | TABOR_ACK, r->rcvwnd, reply);
}

static void send_ack(const struct tabor_record *r, struct plain_reply *reply)
{
    sends(r, r->nxt, r->rcvnxt, TABOR_ACK, r->rcvwnd, reply);
}

static void reply_reset(const struct tabor_record *r, const struct tabor_header *h, struct plain_reply *reply)
{
    if (h->control & TABOR_ACK)
        sends(r, h->ack, 0, TABOR_RST, 0, reply);
    else
        sends(r, 0, h->seq + !!(h->control & TABOR_SYN), TABOR_RST | TABOR_ACK, 0, reply);
}

/* ---- the calls, on a record of the forms: refusals 7, 8 */

static void nothing(struct plain_reply *reply)
{
    reply->sent = reply->drawn = 0;
}

static uint8_t open_call(struct tabor_record *r, uint32_t n, struct plain_reply *reply)
{
    if (r->state != TABOR_CLOSED && r->state != TABOR_LISTEN)
        return 7;
    r->iss = r->una = n;
    r->nxt = n + 1;
    r->state = TABOR_SYN_SENT;
    r->passive = 0;
    send_syn(r, reply);
    reply->drawn = 1;
    return 0;
}

static uint8_t listen_call(struct tabor_record *r)
{
    if (r->state != TABOR_CLOSED)
        return 7;
    clear_to(r, TABOR_LISTEN);
    return 0;
}

static uint8_t abort_call(struct tabor_record *r, struct plain_reply *reply)
{
    if (r->state == TABOR_CLOSED)
        return 8;
    if (r->state == TABOR_SYN_RECEIVED || r->state == TABOR_ESTABLISHED)
        sends(r, r->nxt, 0, TABOR_RST, 0, reply);
    clear_to(r, TABOR_CLOSED);
    return 0;
}

static uint8_t resend_call(const struct tabor_record *r, struct plain_reply *reply)
{
    if (r->state == TABOR_SYN_SENT)
        send_syn(r, reply);
    else if (r->state == TABOR_SYN_RECEIVED)
        send_syn_ack(r, reply);
    else
        return 8;
    return 0;
}

/* ---- arrival */

static void at_closed(const struct tabor_record *r, const struct tabor_header *h, struct plain_reply *reply)
{
    if (!(h->control & TABOR_RST))
        reply_reset(r, h, reply);
}

static void at_listen(struct tabor_record *r, const struct tabor_header *h, uint32_t fresh,
                      struct plain_reply *reply)
{
    if (h->control & TABOR_RST)
        return;
    if (h->control & TABOR_ACK) {
        reply_reset(r, h, reply);
    } else if (h->control & TABOR_SYN) {
        receive(r, 1, fresh, h->seq);
        send_syn_ack(r, reply);
        reply->drawn = 1;
    }
}

static void at_syn_sent(struct tabor_record *r, const struct tabor_header *h, struct plain_reply *reply)
{
    int acks = h->control & TABOR_ACK;
    if (acks && h->ack != r->iss + 1) {
        if (!(h->control & TABOR_RST))
            reply_reset(r, h, reply);
    } else if (h->control & TABOR_RST) {
        if (acks)
            clear_to(r, TABOR_CLOSED);
    } else if (h->control & TABOR_SYN) {
        if (acks) {
            establish(r, h->seq);
            send_ack(r, reply);
        } else {
            receive(r, 0, r->iss, h->seq);
            send_syn_ack(r, reply);
        }
    }
}

/* (e) */
static void acknowledged(struct tabor_record *r, const struct tabor_header *h, struct plain_reply *reply)
{
    if (r->state == TABOR_SYN_RECEIVED) {
        if (h->ack == r->iss + 1)
            establish(r, r->irs);
        else
            reply_reset(r, h, reply);
    } else if ((int32_t)(h->ack - r->nxt) > 0) {
        send_ack(r, reply);
    }
}

/* (a) to (e) */
static void at_synchronized(struct tabor_record *r, const struct tabor_header *h, struct plain_reply *reply)
{
    if (h->seq - r->rcvnxt >= r->rcvwnd) {
        if (!(h->control & TABOR_RST))
            send_ack(r, reply);
    } else if (h->control & TABOR_RST) {
        clear_to(r, r->state == TABOR_SYN_RECEIVED && r->passive ? TABOR_LISTEN : TABOR_CLOSED);
    } else if (h->control & TABOR_SYN) {
        reply_reset(r, h, reply);
        clear_to(r, TABOR_CLOSED);
    } else if (h->control & TABOR_ACK) {
        acknowledged(r, h, reply);
    }
}

static void arrival(struct tabor_record *r, const struct tabor_header *h, uint32_t fresh,
                    struct plain_reply *reply)
{
    nothing(reply);
    switch (r->state) {
    case TABOR_CLOSED:
        at_closed(r, h, reply);
        break;
    case TABOR_LISTEN:
        at_listen(r, h, fresh, reply);
        break;
    case TABOR_SYN_SENT:
        at_syn_sent(r, h, reply);
        break;
    default:
        at_synchronized(r, h, reply);
    }
}

/* Refusals 5, 6. */
static uint8_t unwelcome(const struct tabor_record *r, const struct tabor_segment *g)
{
    if (g->src != r->peer || g->dst != r->own || g->header.source != r->peerport
        || g->header.destination != r->ownport)
        return 5;
    if ((g->header.control & TABOR_FIN) || g->text > 0)
        return 6;
    return 0;
}

static uint8_t arrive(struct tabor_record *r, const struct tabor_segment *g, uint32_t fresh,
                      struct plain_reply *reply)
{
    uint8_t refusal = formed(r) ? unwelcome(r, g) : 1;
    if (!refusal)
        arrival(r, &g->header, fresh, reply);
    return refusal;
}

/* Refusals 1 to 6; the segment is the caller's room for what the octets say. */
static uint8_t octets_refused(const struct tabor_record *r, uint32_t src, uint32_t dst, const uint8_t *octets,
                              size_t size, struct tabor_segment *g)
{
    uint8_t refusal = formed(r) ? unreadable(src, dst, octets, size) : 1;
    if (refusal)
        return refusal;
    get_fields(octets, &g->header);
    g->src = src;
    g->dst = dst;
    g->text = (uint32_t)(size - header_size(octets));
    return unwelcome(r, g);
}

static uint8_t arrive_octets(struct tabor_record *r, uint32_t src, uint32_t dst, const uint8_t *octets,
                             size_t size, uint32_t fresh, uint8_t *out, size_t out_size,
                             struct plain_reply *reply)
{
    struct tabor_segment g;
    uint8_t refusal = octets_refused(r, src, dst, octets, size, &g);
    if (refusal)
        return refusal;
    if (out_size < HEADER_SIZE)
        return 10;
    arrival(r, &g.header, fresh, reply);
    if (reply->sent)
        write_header(reply->segment.src, reply->segment.dst, &reply->segment.header, out, out_size);
    return 0;
}

/* ---- by value */

static struct tabor_told told_of(const struct tabor_record *next, uint8_t refusal, const struct plain_reply *reply)
{
    struct tabor_told told = {.next = *next, .refusal = refusal};
    if (refusal)
        return told;
    told.sent = reply->sent;
    told.drawn = reply->drawn;
    if (reply->sent)
        told.segment = reply->segment;
    return told;
}

static struct tabor_told arrive_by_value(struct tabor_record r, struct tabor_segment g, uint32_t fresh)
{
    struct plain_reply reply;
    uint8_t refusal = arrive(&r, &g, fresh, &reply);
    return told_of(&r, refusal, &reply);
}

static struct tabor_told arrive_octets_by_value(struct tabor_record r, uint32_t src, uint32_t dst,
                                                const uint8_t *octets, size_t size, uint32_t fresh,
                                                uint8_t *out, size_t out_size)
{
    struct plain_reply reply;
    uint8_t refusal = arrive_octets(&r, src, dst, octets, size, fresh, out, out_size, &reply);
    return told_of(&r, refusal, &reply);
}

/* Two stations and their links (01, "Two stations and their links"), in place. */
#include <string.h>

enum { SLOTS = 32 };

static int mirrored(const struct tabor_record *a, const struct tabor_record *b)
{
    return a->own == b->peer && a->ownport == b->peerport && a->peer == b->own && a->peerport == b->ownport;
}

static int sound(const struct tabor_model *m)
{
    return formed(&m->a) && formed(&m->b) && m->toa.count <= SLOTS && m->tob.count <= SLOTS
           && mirrored(&m->a, &m->b);
}

/* All slots behind place n move up, past the count too, and the last one is cleared. */
static void remove_at(struct tabor_link *l, uint32_t n)
{
    memmove(&l->slots[n], &l->slots[n + 1], (SLOTS - 1 - n) * sizeof l->slots[0]);
    memset(&l->slots[SLOTS - 1], 0, sizeof l->slots[0]);
    l->count--;
}

static void push(struct tabor_link *l, const struct tabor_segment *g)
{
    l->slots[l->count++] = *g;
}

/* What is sent goes onto the link; one if it was turned away. */
static size_t post(struct tabor_link *l, const struct plain_reply *reply)
{
    if (!reply->sent)
        return 0;
    if (l->count == SLOTS)
        return 1;
    push(l, &reply->segment);
    return 0;
}

static uint8_t deliver(struct tabor_record *r, struct tabor_link *l, uint32_t n, uint32_t fresh,
                       struct plain_reply *reply)
{
    uint8_t refusal = n < l->count ? unwelcome(r, &l->slots[n]) : 9;
    if (refusal)
        return refusal;
    arrival(r, &l->slots[n].header, fresh, reply);
    remove_at(l, n);
    return 0;
}

static uint8_t copy(struct tabor_link *l, uint32_t n)
{
    if (n >= l->count)
        return 9;
    if (l->count == SLOTS)
        return 11;
    push(l, &l->slots[n]);
    return 0;
}

static uint8_t lose(struct tabor_link *l, uint32_t n)
{
    if (n >= l->count)
        return 9;
    remove_at(l, n);
    return 0;
}

/* One event of the station r, with the link towards it. The model is sound, which every event keeps. */
static uint8_t event(struct tabor_record *r, struct tabor_link *l, const uint8_t *e, struct plain_reply *reply)
{
    uint32_t place = get32(e + 2), number = get32(e + 6);
    switch (e[0]) {
    case TABOR_EVENT_OPEN:
        return open_call(r, number, reply);
    case TABOR_EVENT_LISTEN:
        return listen_call(r);
    case TABOR_EVENT_ABORT:
        return abort_call(r, reply);
    case TABOR_EVENT_RESEND:
        return resend_call(r, reply);
    case TABOR_EVENT_POWER_CUT:
        clear_to(r, TABOR_CLOSED);
        return 0;
    case TABOR_EVENT_DELIVER:
        return deliver(r, l, place, number, reply);
    case TABOR_EVENT_COPY:
        return copy(l, place);
    default:
        return lose(l, place);
    }
}

static void play_event(struct tabor_model *m, const uint8_t *e, struct plain_totals *totals)
{
    struct plain_reply reply;
    uint8_t refusal;
    nothing(&reply);
    refusal = e[1] ? event(&m->b, &m->tob, e, &reply) : event(&m->a, &m->toa, e, &reply);
    if (refusal) {
        totals->refused++;
        return;
    }
    totals->taken++;
    totals->turned += post(e[1] ? &m->toa : &m->tob, &reply);
}

static int is_list(const uint8_t *octets, size_t size)
{
    size_t i;
    if (size % TABOR_EVENT_SIZE != 0)
        return 0;
    for (i = 0; i < size; i += TABOR_EVENT_SIZE)
        if (octets[i] > TABOR_EVENT_LOSE || octets[i + 1] > 1)
            return 0;
    return 1;
}

static uint8_t play(struct tabor_model *m, const uint8_t *octets, size_t size, struct plain_totals *totals)
{
    size_t i;
    if (!is_list(octets, size))
        return TABOR_NO_LIST;
    if (!sound(m))
        return 1;
    if (size / TABOR_EVENT_SIZE > TABOR_EVENTS)
        return 12;
    memset(totals, 0, sizeof *totals);
    for (i = 0; i < size; i += TABOR_EVENT_SIZE)
        play_event(m, octets + i, totals);
    return 0;
}

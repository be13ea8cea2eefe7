/* Headers read from octets and written to them (01, "Octets of a segment"). */

enum { HEADER_SIZE = 20, LARGEST = 65515 };

static uint16_t get16(const uint8_t *p)
{
    return (uint16_t)(p[0] << 8 | p[1]);
}

static uint32_t get32(const uint8_t *p)
{
    return (uint32_t)p[0] << 24 | (uint32_t)p[1] << 16 | (uint32_t)p[2] << 8 | p[3];
}

static void put16(uint8_t *p, uint16_t n)
{
    p[0] = (uint8_t)(n >> 8);
    p[1] = (uint8_t)n;
}

static void put32(uint8_t *p, uint32_t n)
{
    put16(p, (uint16_t)(n >> 16));
    put16(p + 2, (uint16_t)n);
}

static size_t header_size(const uint8_t *octets)
{
    return (size_t)(octets[12] >> 4) * 4;
}

/* Refusals 2, 3, 4. */
static uint8_t unreadable(uint32_t src, uint32_t dst, const uint8_t *octets, size_t size)
{
    if (size < HEADER_SIZE || size > LARGEST)
        return 2;
    if (header_size(octets) < HEADER_SIZE || header_size(octets) > size)
        return 3;
    if (segment_sum(src, dst, octets, size) != 0xffff)
        return 4;
    return 0;
}

static void get_fields(const uint8_t *octets, struct tabor_header *h)
{
    h->source = get16(octets);
    h->destination = get16(octets + 2);
    h->seq = get32(octets + 4);
    h->ack = get32(octets + 8);
    h->control = octets[13];
    h->window = get16(octets + 14);
    h->urgent = get16(octets + 18);
}

static uint8_t read_header(uint32_t src, uint32_t dst, const uint8_t *octets, size_t size,
                           struct tabor_header *h)
{
    uint8_t refusal = unreadable(src, dst, octets, size);
    if (refusal)
        return refusal;
    if ((octets[13] & TABOR_FIN) || size > header_size(octets))
        return 6;
    get_fields(octets, h);
    return 0;
}

static uint8_t write_header(uint32_t src, uint32_t dst, const struct tabor_header *h, uint8_t *out,
                            size_t out_size)
{
    if (h->control & TABOR_FIN)
        return 6;
    if (out_size < HEADER_SIZE)
        return 10;
    put16(out, h->source);
    put16(out + 2, h->destination);
    put32(out + 4, h->seq);
    put32(out + 8, h->ack);
    out[12] = 5 << 4;
    out[13] = h->control;
    put16(out + 14, h->window);
    put16(out + 16, 0);
    put16(out + 18, h->urgent);
    put16(out + 16, checksum(src, dst, out, HEADER_SIZE));
    return 0;
}

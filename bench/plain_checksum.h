/* The checksum (01, "Octets of a segment"). */

/* Carries beyond 16 bits added back in until none are left. */
static uint16_t carried(uint64_t n)
{
    while (n > 0xffff)
        n = (n & 0xffff) + (n >> 16);
    return (uint16_t)n;
}

/* The pseudo header: two addresses, 6 and the TCP length. */
static uint16_t pseudo_header(uint32_t src, uint32_t dst, size_t size)
{
    uint32_t addresses = (src >> 16) + (src & 0xffff) + (dst >> 16) + (dst & 0xffff);
    return carried((uint64_t)addresses + 6 + carried(size));
}

static uint16_t add_word(uint16_t sum, uint8_t high, uint8_t low)
{
    uint32_t n = (uint32_t)sum + high * 256u + low;
    return (uint16_t)((n & 0xffff) + (n >> 16));
}

/* The loop of crates/checksum: the carry is added back in after every word. */
static uint16_t add_words(uint16_t sum, const uint8_t *octets, size_t size)
{
    size_t even = size - size % 2, i;
    for (i = 0; i < even; i += 2)
        sum = add_word(sum, octets[i], octets[i + 1]);
    return i < size ? add_word(sum, octets[i], 0) : sum;
}

static uint16_t segment_sum(uint32_t src, uint32_t dst, const uint8_t *octets, size_t size)
{
    return add_words(pseudo_header(src, dst, size), octets, size);
}

static uint16_t checksum(uint32_t src, uint32_t dst, const uint8_t *octets, size_t size)
{
    return (uint16_t)~segment_sum(src, dst, octets, size);
}

/* All words first, the carry at the end. */
static uint16_t deferred_checksum(uint32_t src, uint32_t dst, const uint8_t *octets, size_t size)
{
    uint64_t sum = pseudo_header(src, dst, size);
    size_t even = size - size % 2, i;
    for (i = 0; i < even; i += 2)
        sum += octets[i] * 256u + octets[i + 1];
    if (i < size)
        sum += octets[i] * 256u;
    return (uint16_t)~carried(sum);
}

/* Contests of the whole program, on as many datagrams as it reads. */
#include "bench.h"
#include "inputs.h"
#include "same.h"

enum { CHECKS = 1000, CHECK_SIZE = 2000 };

static uint8_t stream[STREAM], out[STREAM];
static size_t stream_size;

/* ---- that the answers are alike */

static void check_stream(const struct plain *plain, const uint8_t *s, size_t size)
{
    static uint8_t proved[STREAM], other[STREAM];
    size_t done = tabor_run(s, size, proved);
    same("run", done, plain->run(s, size, other));
    same_octets("run, the output", proved, other, done);
    same("run, unframed", done, plain->run_unframed(s, size, other));
    same_octets("run, unframed, the output", proved, other, done);
}

/* Streams with a few octets wrong, and the stream of the contests. */
void program_checks(const struct plain *plain)
{
    uint8_t s[CHECK_SIZE];
    int i;
    for (i = 0; i < CHECKS; i++) {
        size_t size = make_stream(s, 40 + below(sizeof s - 40));
        uint32_t wrong = below(4);
        while (wrong-- && size)
            s[below((uint32_t)size)] = (uint8_t)draw();
        check_stream(plain, s, size);
    }
    check_stream(plain, stream, stream_size);
}

/* ---- laps */

static void run_proved(const struct contest *c)
{
    size_t done = tabor_run(stream, stream_size, out);
    (void)c;
    keep(&done);
    keep(out);
}

static void run_plain(const struct contest *c, const struct plain *plain)
{
    size_t done = plain->run(stream, stream_size, out);
    (void)c;
    keep(&done);
    keep(out);
}

static void run_unframed(const struct contest *c, const struct plain *plain)
{
    size_t done = plain->run_unframed(stream, stream_size, out);
    (void)c;
    keep(&done);
    keep(out);
}

void program_contests(void)
{
    struct contest c = {"program, each datagram", "with the frame", 0, 0, NULL, run_proved, run_plain,
                        {&plain_o2, &plain_o3}};
    stream_size = make_stream(stream, sizeof stream);
    c.calls = (unsigned)(stream_size / 40);
    enter(c);
    c.against = "without the frame";
    c.plain = run_unframed;
    enter(c);
}

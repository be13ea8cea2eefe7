/* Contests of the player: lists one after another on one model, as 01 allows. */
#include "bench.h"
#include "inputs.h"
#include "same.h"

enum { LENGTHS = 4, EVENTS = TABOR_EVENTS, CHECKS = 2000, CHECK_EVENTS = 64 };

/* Every length plays the same events, cut into lists. */
static const struct {
    const char *what;
    unsigned events;
} lengths[LENGTHS] = {
    {"player, each event, lists of 1", 1},
    {"player, each event, lists of 16", 16},
    {"player, each event, lists of 256", 256},
    {"player, each event, lists of 4,096", 4096},
};

static uint8_t events[EVENTS * TABOR_EVENT_SIZE];
static struct tabor_model at_rest, model;

/* ---- that the answers are alike */

static void check_link(const struct tabor_link *proved, const struct tabor_link *other)
{
    size_t i;
    same("play, a link's count", proved->count, other->count);
    for (i = 0; i < 32; i++)
        same_segment("play, a slot", &proved->slots[i], &other->slots[i]);
}

static void check_list(const struct plain *plain, struct tabor_model m, const uint8_t *s, size_t size)
{
    struct tabor_played played = tabor_play(m, s, size);
    struct plain_totals totals = {0, 0, 0};
    same("play", played.refusal, plain->play(&m, s, size, &totals));
    same("play, taken", played.taken, totals.taken);
    same("play, refused", played.refused, totals.refused);
    same("play, turned away", played.turned, totals.turned);
    same_record("play, station A", &played.model.a, &m.a);
    same_record("play, station B", &played.model.b, &m.b);
    check_link(&played.model.toa, &m.toa);
    check_link(&played.model.tob, &m.tob);
}

void model_checks(const struct plain *plain)
{
    static uint8_t beyond[(EVENTS + 1) * TABOR_EVENT_SIZE];
    uint8_t s[CHECK_EVENTS * TABOR_EVENT_SIZE];
    int i;
    for (i = 0; i < CHECKS; i++) {
        size_t count = below(CHECK_EVENTS + 1);
        make_events(s, count);
        if (count && below(16) == 0)
            s[below((uint32_t)count) * TABOR_EVENT_SIZE + below(2)] = (uint8_t)below(9);
        check_list(plain, any_model(), s, count * TABOR_EVENT_SIZE + (below(16) == 0));
    }
    check_list(plain, at_rest, events, sizeof events);
    check_list(plain, at_rest, beyond, sizeof beyond);
}

/* ---- laps */

static void ready(const struct contest *c)
{
    (void)c;
    model = at_rest;
}

static void play_proved(const struct contest *c)
{
    size_t size = lengths[c->input].events * TABOR_EVENT_SIZE;
    size_t at;
    for (at = 0; at < sizeof events; at += size) {
        struct tabor_played played = tabor_play(model, events + at, size);
        model = played.model;
        keep(&played);
    }
}

static void play_plain(const struct contest *c, const struct plain *plain)
{
    size_t size = lengths[c->input].events * TABOR_EVENT_SIZE;
    size_t at;
    for (at = 0; at < sizeof events; at += size) {
        struct plain_totals totals;
        uint8_t refusal = plain->play(&model, events + at, size, &totals);
        keep(&totals);
        keep(&refusal);
    }
}

void model_contests(void)
{
    unsigned i;
    at_rest = model_at_rest();
    make_events(events, EVENTS);
    for (i = 0; i < LENGTHS; i++)
        enter((struct contest){lengths[i].what, "in place", EVENTS, i, ready, play_proved, play_plain,
                               {&plain_o2, &plain_o3}});
}
